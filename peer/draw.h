/* Random draws from a seed, biased to the edges at which the rules of document 01 turn. */

#ifndef DRAW_H
#define DRAW_H

#include <stdbool.h>
#include <stddef.h>
#include <stdint.h>

/* All later draws follow from these two numbers. */
void draw_from(uint64_t seed, uint64_t trial);

/* A mark in the row of draws, and the way back to it: the same draws come again. */
uint64_t draw_mark(void);
void draw_again(uint64_t mark);

uint32_t draw(void);
uint32_t draw_below(uint32_t n);
uint32_t draw_between(uint32_t low, uint32_t high);
bool draw_one_in(uint32_t n);

/* A word: often next to 0, 2^20, 2^31, 2^32 or any power of two, else anything. */
uint32_t draw_word(void);

/* A number of 20 bits, often at an end of its range or next to a power of two. */
uint32_t draw_20_bits(void);

/* An address for a store of that length: mostly fitted, else next to the length, to 2^20 or
 * to 2^32, or anything. */
uint32_t draw_address(size_t length);

/* A fitted address, or 0 where the store has no word. */
uint32_t draw_fitted(size_t length);

/* An instruction that will seldom halt in a routine of that many words at main address 0. */
uint32_t draw_instruction(size_t routine, size_t main_length, size_t ports_length);

/* The word with these fields (report, table 1). */
uint32_t instruction(uint32_t rsf, uint32_t msf, uint32_t dsf, uint32_t csf, uint32_t fsf,
                     uint32_t addr);

#endif
