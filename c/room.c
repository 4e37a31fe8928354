/*
 * room [FILE]
 * Plays the lines of FILE, else of standard input, through the reader, and prints one line for each: its number, then `ok` and
 * results, or `refused` and the number of the refusal. README.md beside this file has the lines.
 *
 * Each buffer that the reader is lent lies inside a block of its own, which is filled with a pattern. So a call that writes
 * outside its buffer, or inside it where it is refused, changes the sums of the blocks that `sums` prints.
 */
#include "reader.h"

#include <inttypes.h>
#include <stdbool.h>
#include <stdio.h>
#include <string.h>

enum {
    ALIGNMENT = 16,
    BEFORE = 64, /* bytes of a block before the lent buffer, where the shift is 0 */
    COPY_BLOCK = 33024,
    RECORD_BLOCK = 4352,
    ANSWER_BLOCK = 256,
    COPY_MOST = 32800, /* the most bytes that are lent */
    RECORD_MOST = 4096,
    ANSWER_MOST = 96,
    SHIFT_MOST = 15,
    WORD = 8,
    COPY_WORDS = READER_COPY / WORD,
    LINE_MOST = 10000, /* bytes of a line */
    WORDS_MOST = 3,    /* words of a line */
    RESULTS_MOST = 4
};

struct block {
    uint8_t *bytes;
    size_t size;
    size_t lent; /* how many of its bytes the reader is lent */
};

struct room {
    struct block copy, record, answer;
    size_t shift; /* every lent buffer begins so many bytes behind an aligned address */
    bool sums;
};

/* A word of a line. It is not empty, and no byte 0 ends it. */
struct text {
    const uint8_t *bytes;
    size_t length;
};

struct results {
    uint64_t words[RESULTS_MOST];
    size_t count;
};

/* Words in bytes. */

static uint64_t get_word(const uint8_t *bytes)
{
    uint64_t word = 0;
    for (int i = WORD - 1; i >= 0; i--)
        word = word << 8 | bytes[i];
    return word;
}

static void put_word(uint8_t *bytes, uint64_t word)
{
    for (int i = 0; i < WORD; i++, word >>= 8)
        bytes[i] = (uint8_t)(word & 255);
}

/* Adds the first words of a buffer to the results. */
static void give(struct results *results, const uint8_t *bytes, size_t count)
{
    for (size_t i = 0; i < count; i++)
        results->words[results->count++] = get_word(bytes + WORD * i);
}

/* Blocks. */

/* Fills a block with the pattern. */
static void fill(const struct block *block)
{
    for (size_t i = 0; i < block->size; i++)
        block->bytes[i] = (uint8_t)((151 * i + 89) % 256);
}

static void fill_all(const struct room *room)
{
    fill(&room->copy);
    fill(&room->record);
    fill(&room->answer);
}

static uint8_t *buffer(const struct room *room, const struct block *block)
{
    return block->bytes + BEFORE + room->shift;
}

/* The pointer for a call: the buffer, or NULL where no byte of it is lent. */
static uint8_t *lend(const struct room *room, const struct block *block)
{
    return block->lent == 0 ? NULL : buffer(room, block);
}

/* FNV-1a, 64 bits */
static uint64_t sum(const struct block *block)
{
    uint64_t hash = UINT64_C(14695981039346656037);
    for (size_t i = 0; i < block->size; i++)
        hash = (hash ^ block->bytes[i]) * UINT64_C(1099511628211);
    return hash;
}

/* The steps of the lines. Each answers 0 or the number of its refusal. A call's code is taken before its buffers are looked at. */

static uint64_t replay(struct room *room, const uint8_t *record, size_t record_bytes, struct results *results)
{
    fill(&room->record);
    memcpy(buffer(room, &room->record), record, record_bytes);
    room->record.lent = record_bytes;
    uint64_t code = reader_replay(lend(room, &room->copy), room->copy.lent, lend(room, &room->record), room->record.lent);
    if (code == 0)
        give(results, buffer(room, &room->copy), 2);
    return code;
}

static uint64_t value(struct room *room, uint64_t key, struct results *results)
{
    fill(&room->answer);
    uint64_t code = reader_value(lend(room, &room->copy), room->copy.lent, key, lend(room, &room->answer), room->answer.lent);
    if (code == 0)
        give(results, buffer(room, &room->answer), 4);
    return code;
}

static uint64_t set_lent(struct block *block, uint64_t lent, uint64_t most)
{
    if (lent > most)
        return READER_MALFORMED;
    block->lent = (size_t)lent;
    return 0;
}

static uint64_t set_shift(struct room *room, uint64_t shift)
{
    if (shift > SHIFT_MOST)
        return READER_MALFORMED;
    room->shift = (size_t)shift;
    fill_all(room);
    return 0;
}

static uint64_t set_word(const struct room *room, uint64_t index, uint64_t word)
{
    if (index >= COPY_WORDS)
        return READER_MALFORMED;
    put_word(buffer(room, &room->copy) + WORD * (size_t)index, word);
    return 0;
}

/* Lines. */

static bool is(struct text text, const char *name)
{
    return text.length == strlen(name) && memcmp(text.bytes, name, text.length) == 0;
}

/* Reads a decimal number up to 2^64 - 1. */
static bool number(struct text text, uint64_t *result)
{
    uint64_t n = 0;
    for (size_t i = 0; i < text.length; i++) {
        if (text.bytes[i] < '0' || text.bytes[i] > '9')
            return false;
        uint64_t digit = (uint64_t)(text.bytes[i] - '0');
        if (n > (UINT64_MAX - digit) / 10)
            return false;
        n = 10 * n + digit;
    }
    *result = n;
    return true;
}

/* Answers 16 for a byte that is no hexadecimal digit. */
static unsigned hexadecimal(uint8_t byte)
{
    if (byte >= '0' && byte <= '9')
        return byte - (unsigned)'0';
    if (byte >= 'a' && byte <= 'f')
        return byte - (unsigned)'a' + 10;
    if (byte >= 'A' && byte <= 'F')
        return byte - (unsigned)'A' + 10;
    return 16;
}

/* Reads bytes of two hexadecimal digits each, or `-` for none. */
static bool byte_string(struct text text, uint8_t bytes[RECORD_MOST], size_t *count)
{
    *count = 0;
    if (is(text, "-"))
        return true;
    if (text.length % 2 != 0 || text.length / 2 > RECORD_MOST)
        return false;
    for (size_t i = 0; i < text.length; i += 2) {
        unsigned high = hexadecimal(text.bytes[i]), low = hexadecimal(text.bytes[i + 1]);
        if (high > 15 || low > 15)
            return false;
        bytes[(*count)++] = (uint8_t)(16 * high + low);
    }
    return true;
}

/* Parts a line at its spaces. Answers the count of words, or 0 where a word is empty or there are too many. */
static size_t part(const uint8_t *line, size_t length, struct text words[WORDS_MOST])
{
    size_t count = 0, from = 0;
    for (size_t i = 0; i <= length; i++) {
        if (i < length && line[i] != ' ')
            continue;
        if (i == from || count == WORDS_MOST)
            return 0;
        words[count++] = (struct text){line + from, i - from};
        from = i + 1;
    }
    return count;
}

static uint64_t obey(struct room *room, const struct text *words, size_t count, struct results *results)
{
    uint8_t record[RECORD_MOST];
    size_t record_bytes;
    uint64_t n, v;
    if (count == 1 && is(words[0], "start"))
        return reader_start(lend(room, &room->copy), room->copy.lent);
    if (count == 1 && is(words[0], "sums")) {
        room->sums = true;
        return 0;
    }
    if (count == 2 && is(words[0], "replay") && byte_string(words[1], record, &record_bytes))
        return replay(room, record, record_bytes, results);
    if (count == 2 && is(words[0], "value") && number(words[1], &n))
        return value(room, n, results);
    if (count == 2 && is(words[0], "copy") && number(words[1], &n))
        return set_lent(&room->copy, n, COPY_MOST);
    if (count == 2 && is(words[0], "answer") && number(words[1], &n))
        return set_lent(&room->answer, n, ANSWER_MOST);
    if (count == 2 && is(words[0], "shift") && number(words[1], &n))
        return set_shift(room, n);
    if (count == 3 && is(words[0], "word") && number(words[1], &n) && number(words[2], &v))
        return set_word(room, n, v);
    return READER_MALFORMED;
}

static void tell(const struct room *room, uint64_t line, uint64_t code, const struct results *results)
{
    if (code != 0)
        printf("%" PRIu64 " refused %" PRIu64, line, code);
    else
        printf("%" PRIu64 " ok", line);
    for (size_t i = 0; i < results->count; i++)
        printf(" %" PRIu64, results->words[i]);
    if (room->sums)
        printf("; %" PRIu64 " %" PRIu64 " %" PRIu64, sum(&room->copy), sum(&room->record), sum(&room->answer));
    putchar('\n');
}

/* Reads a line without its newline; false at the end of the file. Of a line that is too long the length is LINE_MOST + 1. */
static bool next_line(FILE *file, uint8_t line[LINE_MOST], size_t *length)
{
    int c = getc(file);
    if (c == EOF)
        return false;
    for (*length = 0; c != EOF && c != '\n'; c = getc(file)) {
        if (*length < LINE_MOST)
            line[*length] = (uint8_t)c;
        if (*length <= LINE_MOST)
            ++*length;
    }
    return true;
}

static void play(struct room *room, FILE *file)
{
    uint8_t line[LINE_MOST];
    size_t length;
    for (uint64_t n = 1; next_line(file, line, &length); n++) {
        struct text words[WORDS_MOST];
        struct results results = {.count = 0};
        uint64_t code = READER_MALFORMED;
        if (length <= LINE_MOST) {
            if (length == 0 || line[0] == '#')
                continue;
            size_t count = part(line, length, words);
            code = obey(room, words, count, &results);
        }
        tell(room, n, code, &results);
    }
}

static int fail(const char *what, const char *name)
{
    fprintf(stderr, "room: %s%s\n", what, name);
    return 2;
}

int main(int argc, char **argv)
{
    _Alignas(ALIGNMENT) uint8_t copy[COPY_BLOCK];
    _Alignas(ALIGNMENT) uint8_t record[RECORD_BLOCK];
    _Alignas(ALIGNMENT) uint8_t answer[ANSWER_BLOCK];
    struct room room = {
        .copy = {copy, sizeof copy, READER_COPY},
        .record = {record, sizeof record, 0},
        .answer = {answer, sizeof answer, READER_ANSWER},
    };
    if (argc > 2)
        return fail("more than one argument; usage: room [FILE]", "");
    const char *name = argc == 2 ? argv[1] : "standard input";
    FILE *file = argc == 2 ? fopen(name, "rb") : stdin;
    if (file == NULL)
        return fail("cannot open ", name);
    fill_all(&room);
    play(&room, file);
    bool broken = ferror(file) != 0;
    fclose(file);
    if (broken)
        return fail("cannot read ", name);
    if (fflush(stdout) != 0 || ferror(stdout))
        return fail("cannot write", "");
    return 0;
}
