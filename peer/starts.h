/* Random starts: what a board may look like before a call, lawful or not. */

#ifndef STARTS_H
#define STARTS_H

#include "board.h"

#include <stdint.h>

/* The room that a board needs for each kind of start. */
enum {
    SINGLE_MAIN = 40,
    SINGLE_PORTS = 24,
    SINGLE_TRAIL = 64,
    SEQUENCE_MAIN = 2000,
    SEQUENCE_PORTS = 40,
    SEQUENCE_TRAIL = 12000,
    LARGE_STORE = 1048576 + 8,
    LARGE_TRAIL = 1000
};

/* A small board for one step, with an instruction of that class (bits 29-20) at P; now and
 * then P, the flags or the count in use are unlawful. */
void start_single(struct board *board, uint32_t class);

/* A board with a routine in main and any bytes in use, for a sequence of calls. */
void start_sequence(struct board *board);

/* The same, lawful and with an empty trail. */
void start_history(struct board *board);

/* A board with about 1,048,576 words in each store. */
void start_large(struct board *board);

/* Gives the board as it is a machine and an instruction for one step, and makes the operand
 * matter: sums next to overflow and carry, addresses next to their limits. */
void aim_step(struct board *board, uint32_t class);

/* Gives the board a lawful count in use, often with as few free bytes as one record needs. */
void draw_count(struct board *board);

/* Changes the board behind the bench's back: a word, a register, trail bytes, the count. */
void tamper(struct board *board);

/* Makes P, the count in use or, on a large board, the length of a store unlawful, or several. */
void make_unlawful(struct board *board);

#endif
