/* The second program: a bench written from the text of the report (source document 004,
 * RSRE Report 90009) and from documents 01 and 02, and from nothing else, to be compared with
 * ours. */

#ifndef SECOND_H
#define SECOND_H

#include <stdbool.h>
#include <stddef.h>
#include <stdint.h>

/* Document 01, "What the bench holds": a machine, two lent stores, a lent trail. */
struct second {
    uint32_t A, X, Y, P;
    bool B, STOP;
    uint32_t *main;
    size_t main_length;
    uint32_t *ports;
    size_t ports_length;
    uint8_t *trail;
    size_t trail_length;
    size_t used;
};

enum ending { STOPPED, BUDGET, UNFITTED, FULL };

struct ran {
    uint32_t refusal;
    uint32_t done;
    enum ending ending;
};

/* Each answers 0, or the number of document 01 that refuses it. */
uint32_t second_step(struct second *bench);
uint32_t second_reset(struct second *bench);
uint32_t second_force(struct second *bench);
uint32_t second_set(struct second *bench, bool port, uint32_t address, uint32_t value);
uint32_t second_back(struct second *bench);

/* The refusal (0: none), the steps done and the ending. */
struct ran second_run(struct second *bench, uint32_t budget);

/* Whether the n words from address are wholly fitted. */
bool second_fitted(const struct second *bench, bool port, uint32_t address, size_t n);

#endif
