/* Which operation hit this word, by the second program (document 02, W7). */

#ifndef SECOND_FIND_H
#define SECOND_FIND_H

#include "second.h"
#include "second_record.h"

/* The refusal (0: none), how many operations back the newest record is that holds the word
 * (0: never), and that record. */
struct found {
    uint32_t refusal;
    size_t back;
    struct second_record record;
};

struct found second_find(const struct second *bench, bool port, uint32_t address);

#endif
