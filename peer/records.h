/* Records made by hand, sound or broken in one named way, alone or in a row (document 01, "The
 * trail"; document 02, W12). */

#ifndef RECORDS_H
#define RECORDS_H

#include "board.h"
#include "second_record.h"

#include <stdbool.h>

enum fault {
    SOUND,
    L_TOO_SMALL,
    L_TOO_LARGE,
    TOO_FEW_IN_USE,
    KIND_ABOVE_4,
    KIND_IN_TWO_GROUPS,
    MARKS_NOT_BELOW_64,
    P_NOT_BELOW_2_20,
    REGISTER_NOT_BELOW_2_32,
    VALUE_NOT_BELOW_2_32,
    PLACE_NOT_FITTED,
    GROUP_TOO_MANY,
    BYTES_LEFT_OVER,
    NUMBER_PAST_THE_END,
    FAULTS
};

/* The trail must have this many bytes. */
enum { RECORD_ROOM = 320 };

/* Makes a record of the new form with that fault the newest one in use, after random bytes. A
 * take-back then answers 0 for a sound record and 8 for any other. */
void put_record(struct board *board, enum fault fault);

/* A record's numbers in their order, and its bytes with L. A number that it does not have is 0. */
enum { KIND, MARKS, OLD_P, OLD_A, OLD_X, OLD_Y, PLACE, VALUE, NUMBERS };

struct made {
    uint64_t number[NUMBERS];
    uint8_t byte[64];
    size_t length;
};

enum { ROW = 40, ROW_ROOM = 64 * ROW };

/* Records in a row, oldest first. All are sound but the one numbered broken, if that is below the
 * count. */
struct row {
    struct made record[ROW];
    size_t count, broken;
    uint8_t byte[ROW_ROOM];
    size_t length;
};

/* Makes a row of that form, of which one record has that fault; its places are fitted in stores
 * as long as the board's. */
void draw_row(struct row *row, const struct board *board, enum form form, enum fault fault);

/* An old record has no kind that could be broken. */
bool may_have(enum form form, enum fault fault);

const char *fault_name(enum fault fault);

#endif
