/*
 * Where a radial MV network should get circuit breakers: the seven calls, for programs in C.
 *
 * A call returns 0 if it answered. Otherwise it returns the refusal, number * 65,536 + record: the number, 1 to 10, is the returned
 * value divided by 65,536, and the remainder is the record that is refused, counted from 1, or 0 if the refusal names none.
 *
 * A call that answered has written its values, named below, at the start of `answer`, which has room for eight numbers. The rest of
 * `answer` stays as it was. A refused call has written nothing, neither to `answer` nor to any other buffer.
 *
 * `file` points to the bytes of a network file and `file_length` says how many there are. `members`, `text` and `table` are
 * lent: a pointer to the first element, and the length in elements. One that is too short is refused with number 10. No
 * pointer is null, also where the length is 0; each is aligned for its type; a buffer that a call writes shares no byte with
 * another buffer of the call; and nothing else writes to any of them until the call returns. The calls keep no state, so
 * several may run at once on buffers of their own.
 */
#ifndef JUBAXENDI_H
#define JUBAXENDI_H

#include <stddef.h>
#include <stdint.h>

/* The version of the calls, of this header and of the archive. */
#define JUBAXENDI_VERSION "1.2.0"

/*
 * The stack that each call needs, in bytes: Search and Report 320 KiB, Impact, Total and Segments 224 KiB, Check 160 KiB, Ceiling
 * 16 KiB. That much is to be free where the call is made; what a thread has used by then, and what the C library takes of its stack,
 * comes on top. The numbers are not proved: they are what was measured on the files that take most, and more than a quarter above.
 */
#define JUBAXENDI_STACK_CHECK 163840
#define JUBAXENDI_STACK_IMPACT 229376
#define JUBAXENDI_STACK_TOTAL 229376
#define JUBAXENDI_STACK_SEARCH 327680
#define JUBAXENDI_STACK_REPORT 327680
#define JUBAXENDI_STACK_SEGMENTS 229376
#define JUBAXENDI_STACK_CEILING 16384

#ifdef __cplusplus
extern "C" {
#endif

/* Check: whether the file is accepted. No values. */
uint64_t jubaxendi_check(const uint8_t *file, size_t file_length, uint64_t answer[8]);

/* Impact: answer[0] customers are cut off by a fault on the line, which is counted from 1. */
uint64_t jubaxendi_impact(const uint8_t *file, size_t file_length, uint64_t line, uint64_t answer[8]);

/* Total: answer[0] is the outage total, in customer interruptions a year * 1,000,000, answer[1] the figure, minutes times the total. */
uint64_t jubaxendi_total(const uint8_t *file, size_t file_length, uint64_t answer[8]);

/*
 * Search: which places should get a breaker. answer[0] is 1 if the search finished and 0 if its visits were spent, answer[1] the
 * number of members of the best set, answer[2] the total with them, answer[3] the visits. The members' place numbers, rising,
 * are written at the start of `members`, which needs room for 16 numbers; its rest stays.
 */
uint64_t jubaxendi_search(const uint8_t *file, size_t file_length, uint64_t *members, size_t members_length, uint64_t answer[8]);

/*
 * Report: the report as text, without a zero byte at its end. answer[0] is its length in bytes. It is written at the start of
 * `text`, which needs room for 32,768 bytes; its rest stays.
 */
uint64_t jubaxendi_report(const uint8_t *file, size_t file_length, uint8_t *text, size_t text_length, uint64_t answer[8]);

/*
 * Segments: the lines grouped by the breaker that trips for them. answer[0] is the number of breaker ends. For each of them, by line
 * and end, five numbers are written at the start of `table`: line, end, the summed weight of its lines, the customers that it
 * cuts off, and these two multiplied. `table` needs room for 7,680 numbers; its rest stays.
 */
uint64_t jubaxendi_segments(const uint8_t *file, size_t file_length, uint64_t *table, size_t table_length, uint64_t answer[8]);

/* Ceiling: answer[0] sets of at most `additions` (0 to 16) of `places` (0 to 64) places there are. */
uint64_t jubaxendi_ceiling(uint64_t places, uint64_t additions, uint64_t answer[8]);

#ifdef __cplusplus
}
#endif

#endif
