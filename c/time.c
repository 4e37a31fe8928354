/*
 * time ROUNDS CALLS
 * Prints the nanoseconds of a call of the reader, one line for each: processor time, the least of the rounds. Every call of a
 * replay has a pair above the one before it, which the loop stores in the record. The loop and this store are counted.
 * A call that is refused, or that leaves something else than it should, ends the program with code 1.
 */
#include "reader.h"

#include <stdbool.h>
#include <stdio.h>
#include <stdlib.h>
#include <time.h>

enum { WORD = 8, KEYS = 2048, HEADER = 9, WRITE = 3, NUMBER = 3 };

struct room {
    uint8_t copy[READER_COPY];
    uint8_t record[READER_RECORD];
    uint8_t answer[READER_ANSWER];
    size_t record_bytes;
    uint64_t number; /* of the last record replayed */
};

/* Makes so many calls of one kind. Answers whether all were taken and left what they should. */
typedef bool calls(struct room *room, uint64_t count);

static uint64_t get_word(const uint8_t *bytes, size_t index)
{
    uint64_t word = 0;
    for (size_t i = WORD; i-- > 0;)
        word = word << 8 | bytes[WORD * index + i];
    return word;
}

static void put_word(uint8_t *bytes, size_t index, uint64_t word)
{
    for (size_t i = 0; i < WORD; i++)
        bytes[WORD * index + i] = (uint8_t)(word >> (8 * i) & 255);
}

/* A record of site 1 with so many writes, their keys spread over all. */
static void write_record(struct room *room, uint64_t writes)
{
    const uint64_t first = (UINT64_C(1) << 32) + 1; /* the first transaction of site 1 */
    const uint64_t header[HEADER] = {HEADER + WRITE * writes, 3, 0, 0, 1, first, 1, writes, writes == 0 ? 0 : HEADER};
    for (size_t i = 0; i < HEADER; i++)
        put_word(room->record, i, header[i]);
    for (size_t i = 0; i < writes; i++) {
        put_word(room->record, HEADER + WRITE * i, KEYS / writes * i);
        put_word(room->record, HEADER + WRITE * i + 1, 700 + i);
        put_word(room->record, HEADER + WRITE * i + 2, i);
    }
    room->record_bytes = WORD * (size_t)header[0];
}

static bool start(struct room *room, uint64_t count)
{
    uint64_t codes = 0;
    for (uint64_t i = 0; i < count; i++) {
        put_word(room->copy, 0, i + 1);
        codes |= reader_start(room->copy, sizeof room->copy);
        codes |= get_word(room->copy, 0);
    }
    room->number = 0;
    return codes == 0;
}

static bool replay(struct room *room, uint64_t count)
{
    uint64_t codes = 0;
    for (uint64_t i = 0; i < count; i++) {
        put_word(room->record, NUMBER, ++room->number);
        codes |= reader_replay(room->copy, sizeof room->copy, room->record, room->record_bytes);
    }
    return codes == 0 && get_word(room->copy, 0) == room->number;
}

static bool value(struct room *room, uint64_t count)
{
    uint64_t codes = 0, numbers = 0;
    for (uint64_t i = 0; i < count; i++) {
        codes |= reader_value(room->copy, sizeof room->copy, i % KEYS, room->answer, sizeof room->answer);
        numbers += get_word(room->answer, 2);
    }
    return codes == 0 && numbers == count * room->number;
}

static void measure(const char *name, struct room *room, calls *made, unsigned long rounds, uint64_t count)
{
    double least = 0;
    for (unsigned long round = 0; round < rounds; round++) {
        clock_t before = clock();
        bool good = made(room, count);
        double spent = (double)(clock() - before) / CLOCKS_PER_SEC;
        if (!good) {
            fprintf(stderr, "time: %s: a call is refused or leaves something else\n", name);
            exit(1);
        }
        if (round == 0 || spent < least)
            least = spent;
    }
    printf("%-28s %8.1f ns\n", name, least / (double)count * 1e9);
}

int main(int argc, char **argv)
{
    static struct room room;
    static const struct {
        const char *name;
        uint64_t writes;
    } replays[] = {
        {"reader_replay, no write", 0},
        {"reader_replay, 1 write", 1},
        {"reader_replay, 16 writes", 16},
        {"reader_replay, 128 writes", 128},
    };
    unsigned long rounds = argc == 3 ? strtoul(argv[1], NULL, 10) : 0;
    uint64_t count = argc == 3 ? strtoul(argv[2], NULL, 10) : 0;
    if (rounds == 0 || count == 0) {
        fputs("usage: time ROUNDS CALLS\n", stderr);
        return 2;
    }
    measure("reader_start", &room, start, rounds, count);
    for (size_t i = 0; i < sizeof replays / sizeof replays[0]; i++) {
        write_record(&room, replays[i].writes);
        measure(replays[i].name, &room, replay, rounds, count);
    }
    measure("reader_value", &room, value, rounds, count);
    return 0;
}
