/* The placement tool's functions for C. Link with libplacement.a (rt lib in crates/placement).
 *
 * Every buffer belongs to the caller. No function keeps a pointer, allocates, or reads beyond the length it is given. Only placement_search and
 * placement_judge_tasks write, each only into the buffer that it is lent for that; that buffer must not overlap the file or the placement.
 * A pointer is valid for its length, also where that is 0. Each call returns. placement_search needs 600 kB of stack, a thread's too.
 *
 * Where 64 bits come back, a refusal's number (as in the README) is answer >> 32, its place (uint32_t)answer.
 */
#ifndef PLACEMENT_H
#define PLACEMENT_H

#include <stddef.h>
#include <stdint.h>

/* Reads a table file.
 * Returns 0 if the file can be read, else the refusal (1 to 11).
 */
uint64_t placement_read(const uint8_t *file, size_t length);

/* Checks a set of the file's tasks, bit k of the mask for task k: is it late when it runs alone on one processor?
 * Returns 0 no conflict, 1 late but not minimal, 2 a minimal conflict; or the refusal (1 to 11, 15).
 */
uint64_t placement_conflict(const uint8_t *file, size_t length, uint32_t mask);

/* Judges a placement of the file's tasks: byte k is the processor of task k.
 * Returns the refusal's number (1 to 11, 13, 14), 0 if every rule is kept, or the number of the first broken rule (101 to 107).
 */
uint16_t placement_judge(const uint8_t *file, size_t length, const uint8_t *placement, size_t placement_length);

/* Stands for a margin that is not known, as the worst response is beyond the period. It lies far below every margin that is known. */
#define PLACEMENT_BEYOND INT32_MIN

/* Judges a placement as placement_judge does, and puts the judgement, the response and the margin of each task into out, which must not overlap
 * the file or the placement. For n tasks it takes 2n + 2 numbers:
 *   out[0] is 0 if every rule is kept, or the number of the first broken rule (101 to 107);
 *   out[1] is the lowest number at which that rule is broken, that of a task, a group or a processor; 0 beside 0 and 106;
 *   out[2 + k] is the response of task k, 0 where the task is late, whichever rule is broken;
 *   out[2 + n + k] is the margin of task k: its deadline minus its worst response, below 0 where the task is late by that much; PLACEMENT_BEYOND
 *   where the worst response is beyond the period.
 * Returns the count of numbers written, 2n + 2; later places of out keep their contents. Or the refusal (1 to 11, 13, 14; then 12 with place 0 if
 * out has fewer than 2n + 2 places), and then nothing is written.
 */
uint64_t placement_judge_tasks(const uint8_t *file, size_t length, const uint8_t *placement, size_t placement_length, int32_t *out, size_t out_length);

/* Searches the first placement of the file's tasks, in order of task then processor, that keeps every rule and every deadline, and the conflicts that
 * rule out the placements before it. The answer buffer must not overlap the file. For n tasks it takes n + 5 bytes and 6 for each conflict:
 *   AL and n processor bytes, or NO and n bytes 255 where there is no placement;
 *   NG and a 32-bit mask, little-endian, for each conflict listed, as long as there are places;
 *   EN and 1 if the list is complete, 0 if it is cut.
 * Returns the count of bytes written, which is below 2^32; later bytes of the answer keep their contents. Or the refusal (1 to 11; 12 if the answer
 * is shorter than n + 5), and then nothing is written.
 */
uint64_t placement_search(const uint8_t *file, size_t length, uint8_t *answer, size_t answer_length);

/* Counts the late ones among some sets of the file's tasks, one lateness test for each: for measuring.
 * A set with an unknown task does not count; a file that is refused has none.
 */
uint64_t placement_late_sets(const uint8_t *file, size_t length, const uint32_t *sets, size_t count);

#endif
