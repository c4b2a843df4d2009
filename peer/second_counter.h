/* What the second programs at the counter share: the bench of "The counter program" (document 01)
 * and a routine read into it. */

#ifndef SECOND_COUNTER_H
#define SECOND_COUNTER_H

#include "second.h"

#include <stdint.h>
#include <stdio.h>

enum { COUNTER_MAIN = 8192, COUNTER_PORTS = 256, COUNTER_TRAIL = 4096, COUNTER_BUDGET = 300 };

/* The bench at its start, all of it cleared. There is one: it is lent anew with each call. */
struct second counter_bench(void);

/* The words that were read, or the first bad line, from 1 (0: none). */
struct loaded {
    uint32_t words;
    uint32_t bad;
};

/* Loads main from 0 on: lines of eight hex digits and a line feed, up to the end of the text. */
struct loaded counter_load(struct second *bench, FILE *text);

/* The value of one of 0-9 and A-F, or -1. */
int counter_digit(int character);

/* Prints `line N bad`. */
void counter_print_bad(uint32_t line);

#endif
