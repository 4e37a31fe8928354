/*
 * The reader: a copy of the house in the byte buffers of a C program. README.md beside this file leads to the first value.
 *
 * A word is an unsigned 64-bit number in eight bytes, the least significant byte first, on every machine. Word i of a buffer
 * stands in its bytes 8 i to 8 i + 7.
 *
 * The copy, READER_COPY bytes:
 *   word 0              number of the last record replayed, 0 where none was
 *   word 1              coordinator of that record; the two are the copy's pair
 *   word 2 + 2 k        start of the value of key k; k is 0 to 2,047
 *   word 3 + 2 k        its length
 *
 * The answer, READER_ANSWER bytes:
 *   words 0 and 1       start and length of the value
 *   words 2 and 3       number and coordinator: the copy's pair
 *
 * A merged record, at most READER_RECORD bytes:
 *   word 0              length of the record in words: 9 + 3 times word 7; the record has eight times as many bytes
 *   word 1              3, the kind of a merged record
 *   word 2              0
 *   word 3              number
 *   word 4              coordinator, 1 to 8
 *   word 5              transaction: coordinator times 2^32, plus a serial from 1 to 2^32 - 1
 *   word 6              participants, a mask below 256
 *   word 7              count of writes, 0 to 128
 *   word 8              9, or 0 where the record has no writes
 *   words 9 + 3 i to 11 + 3 i
 *                       write i: key, start, length. Keys ascend up to 2,047; start plus length is at most 2^64 - 1.
 *
 * Each call returns 0, or the number of its refusal and nothing else. A refused call leaves every byte of every buffer as it was.
 *
 * What the caller owes:
 *   - Each pointer is valid for its count of bytes: for writing where it is not const. NULL goes only with the count 0, which is
 *     refused 2.
 *   - No count is above PTRDIFF_MAX.
 *   - The copy lies apart from the record and from the answer.
 *   - Nobody else writes to a buffer during a call, and nobody reads one that the call writes.
 * No alignment is asked for. The library keeps no state: calls on different copies may run in different threads, and so may
 * reader_value on one copy, each with an answer of its own.
 */
#ifndef READER_H
#define READER_H

#include <stddef.h>
#include <stdint.h>

/* Bytes of a copy and of an answer, exactly; bytes of the longest record. */
#define READER_COPY 32784
#define READER_ANSWER 32
#define READER_RECORD 3144

/* The refusals. Where both apply, READER_MALFORMED is returned. */
#define READER_MALFORMED 2 /* a length, a key or a record's bytes are impossible */
#define READER_BEHIND 14   /* the record's pair is not above the copy's: of records in order, the copy has it already */

#ifdef __cplusplus
extern "C" {
#endif

/* Starts a copy: all its bytes become 0, so its pair is (0, 0) and every value too.
 * 2: copy_bytes is not READER_COPY. */
uint64_t reader_start(uint8_t *copy, size_t copy_bytes);

/* Replays a merged record: the copy takes its pair and its writes. Pairs are compared by number, then by coordinator.
 * 2: copy_bytes is not READER_COPY, record_bytes is not eight times word 0, or the record is none of the form above.
 * 14: the record's pair is not above the copy's. */
uint64_t reader_replay(uint8_t *copy, size_t copy_bytes, const uint8_t *record, size_t record_bytes);

/* Reads a key: the answer becomes the key's value and the copy's pair. The copy's bytes are taken as they stand.
 * 2: copy_bytes is not READER_COPY, answer_bytes is not READER_ANSWER, or the key is above 2,047. */
uint64_t reader_value(const uint8_t *copy, size_t copy_bytes, uint64_t key, uint8_t *answer, size_t answer_bytes);

#ifdef __cplusplus
}
#endif

#endif
