/* A call of the bench with its arguments, to be made through include/viper.h or of the second
 * program, with one answer for both. */

#ifndef CALLS_H
#define CALLS_H

#include "board.h"

#include <stdbool.h>
#include <stdint.h>

enum operation { STEP, RUN, RESET, FORCE, SET, BACK, VIEW, OPERATIONS };

struct call {
    enum operation operation;
    uint32_t budget;
    uint32_t store, address, value;
    size_t n;
};

/* As viper.h answers: run as its 64 bits, all others as their number, view as 0 or 1. */
uint64_t call_ours(struct board *board, const struct call *call);
uint64_t call_second(struct board *board, const struct call *call);

/* The refusal in an answer to such a call; 0 where it was accepted. */
uint32_t refusal_in(enum operation operation, uint64_t answer);

/* Whether document 01's table lets that call be refused with that number. */
bool may_refuse(enum operation operation, uint32_t refusal);

const char *operation_name(enum operation operation);
const char *ending_name(uint32_t ending);
void call_print(const struct call *call);
void answer_print(enum operation operation, uint64_t answer);

#endif
