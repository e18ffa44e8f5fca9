/* Beqlanosh: the calls of documents 01 and 02 as C functions, from crates/beqlanosh/out/libbeqlanosh.a (`rt lib` in crates/beqlanosh,
 * x86-64 Linux).
 *
 * Every call but Fill and Make, at the end, is told the board that it serves, and is lent a description. It declines by 33 if there is no
 * such board, before all else, then by 1 to 17 if the description is not accepted on it, and then by the numbers that its comment names;
 * Step vectors has an order of its own.
 *
 * Every call answers 0, or the documents' number by which it declines, and then changes no lent word; 9 is never given (request 2.2).
 * Words beyond those that a comment names never change. A call keeps nothing between calls and allocates nothing. It takes up to 459 KB of
 * stack, whatever the array, as the bench measures it in steps of 4,096 bytes: Fill and Make under 5 KB, Step vectors 50, Window 58, Accept
 * 62, Table 119, Start 140, Plain run 152, Step and Ready 291, Result 340, Run 459.
 *
 * What is proved holds if each pointer is not null, is aligned for its type and points to as many elements as its length says, also if
 * that is 0, and if no list that a call writes overlaps another list of that call. Lengths count elements. */
#ifndef BEQLANOSH_H
#define BEQLANOSH_H

#include <stddef.h>
#include <stdint.h>

#ifdef __cplusplus
extern "C" {
#endif

/* The words of a row of the table: point 2, count 1, first 3, last 3, soak 6, drain 6. A signed number stands as its 32 bits. */
#define BEQLANOSH_ROW_WORDS 21

/* The boards (request 2.9): the gauge holds 1,024 processes and 4,096 instances, the bench 256 and 1,024, by refusals 10 and 6. What the
 * bench accepts, the gauge accepts with the same answer. */
enum beqlanosh_board { BEQLANOSH_GAUGE = 0, BEQLANOSH_BENCH = 1 };

/* The most processes, and so the most rows, of a description that the gauge accepts; the bench accepts at most 256. */
#define BEQLANOSH_MOST_PROCESSES 1024

/* Accept: processes, instances, elements, pipes, state words and total steps go into the first six figures, then the divisor of place and
 * those of the six streams, 0 past the streams in use. The divisor of a matrix is the greatest common divisor of its row's two words, or of
 * the words of its rows' cross product: of all whole points one in so many is a value of the matrix. Declines by 33, then by 1 to 17. */
uint32_t beqlanosh_accept(uint32_t board, const uint8_t *bytes, size_t length, uint32_t figures[13]);

/* Step vectors (request 2.10): of all step vectors with entries from -k to k, put in place of the description's own, how many Accept
 * accepts on that board goes into the first count, and how many it refuses by n into count n, for n from 1 to 17; those of 1 to 7 and of 9
 * are 0, and together they make (2k+1) to the power of the loops. Declines by 33, by 34 if k is over 3, and by 1 to 7 of the description as
 * it is lent; its own 8 to 17 decline nothing. */
uint32_t beqlanosh_step_vectors(uint32_t board, const uint8_t *bytes, size_t length, uint32_t k, uint32_t counts[18]);

/* Table: a row for each process, in row order, goes into the words, 21 words a row. Declines by 33, by 1 to 17, and by 18 if there is no
 * room for all rows. */
uint32_t beqlanosh_table(uint32_t board, const uint8_t *bytes, size_t length, uint32_t *words, size_t words_length);

/* Start: the values, in element order, go into the waiting list, and received and the state's words are cleared. Declines by 33, by 1 to
 * 17, by 20 if values or waiting are not as many as the elements, by 26 if received is not, and by 21 if the state is short. */
uint32_t beqlanosh_start(uint32_t board, const uint8_t *bytes, size_t length, const uint32_t *values, size_t values_length,
                         uint32_t *waiting, size_t waiting_length, uint32_t *received, size_t received_length, uint32_t *state,
                         size_t state_length);

/* Step: does a step of the kind 0 send, 1 take, 2 fire, 3 give or 4 receive, of the process or pipe with that number, and of that stream
 * (unused by 0, 2 and 4). Declines by 33, 1 to 17, 20, 26 and 21 as Start, by 22 if the state is not sound, by 23 if there is no such step,
 * and by 24 if it is not ready. */
uint32_t beqlanosh_step(uint32_t board, const uint8_t *bytes, size_t length, uint32_t kind, uint32_t number, uint32_t stream,
                        const uint32_t *waiting, size_t waiting_length, uint32_t *received, size_t received_length, uint32_t *state,
                        size_t state_length);

/* Run: does so many steps, fewer only when none is ready, always the lowest ready one. The steps done go into the first word of the answer,
 * and 1 if any is ready, else 0, into the second. Declines by 33, 1 to 17, 20, 26, 21 and 22 as Step. */
uint32_t beqlanosh_run(uint32_t board, const uint8_t *bytes, size_t length, uint32_t steps, const uint32_t *waiting, size_t waiting_length,
                       uint32_t *received, size_t received_length, uint32_t *state, size_t state_length, uint32_t answer[2]);

/* Ready: process p is bit p modulo 64 of word p divided by 64, set if it can take, fire or give; the other bits of the first 16 words are
 * cleared. How many are set and the lowest (the number of processes when none is) go into the answer. Declines by 33, 1 to 17, 20, 26, 21
 * and 22 as Step, and by 27 if there are fewer than 16 words. */
uint32_t beqlanosh_ready(uint32_t board, const uint8_t *bytes, size_t length, uint64_t *words, size_t words_length, const uint32_t *waiting,
                         size_t waiting_length, const uint32_t *received, size_t received_length, const uint32_t *state,
                         size_t state_length, uint32_t answer[2]);

/* Window: where a pipe's part of the waiting values (side 0) or of the received ones (side 1) begins in that list, and how many words it
 * has, go into the answer. Declines by 33, 1 to 17, 20 and 26 as Start, and by 19 if there is no such pipe or side. */
uint32_t beqlanosh_window(uint32_t board, const uint8_t *bytes, size_t length, uint32_t pipe, uint32_t side, const uint32_t *waiting,
                          size_t waiting_length, const uint32_t *received, size_t received_length, uint32_t answer[2]);

/* Result: the received values, in element order. Declines by 33, 1 to 17, 20, 26, 21 and 22 as Step, by 25 if some pipe is not wholly
 * received, and by 28 if the places for the output are not as many as the elements. */
uint32_t beqlanosh_result(uint32_t board, const uint8_t *bytes, size_t length, uint32_t *output, size_t output_length,
                          const uint32_t *waiting, size_t waiting_length, const uint32_t *received, size_t received_length,
                          const uint32_t *state, size_t state_length);

/* Plain run: the final values of the values given, both in element order. Declines by 33, by 1 to 17, by 20 if the values are not as many
 * as the elements, and by 28 if the places for the output are not. */
uint32_t beqlanosh_plain_run(uint32_t board, const uint8_t *bytes, size_t length, const uint32_t *values, size_t values_length,
                             uint32_t *output, size_t output_length);

/* Fill (request 2.3): the first n places of the list get the states after rounds 1 to n of Marsaglia's generator from the seed: shift left
 * 13, right 17, left 5, each shifted word combined by exclusive or with the unshifted one. Declines by 29 for seed 0, before anything else,
 * and by 31 if the list has fewer than n places. */
uint32_t beqlanosh_fill(uint32_t seed, size_t n, uint32_t *list, size_t list_length);

/* Make (request 2.3): a whole description of these sizes goes into the output, its words after the sizes drawn in file order, a round each:
 * the least of the word's range plus the state modulo the range's size; a direction is 1 for an odd state and -1 for an even one. The
 * number of its bytes, at most 500, goes into the answer. It is never refused by 1 to 4. Declines by 29 for seed 0, before anything else,
 * by 30 for sizes that Accept would decline by 2, and by 31 if the output is too short for it. */
uint32_t beqlanosh_make(uint32_t seed, uint32_t loops, uint32_t streams, uint32_t lines, uint8_t *output, size_t output_length,
                        uint32_t answer[1]);

#ifdef __cplusplus
}
#endif

#endif
