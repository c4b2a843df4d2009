/* A record as the second program reads it (document 01, "The trail"; document 02, W12). Take
 * back, the search for a word and the moves between the two forms all read records here. */

#ifndef SECOND_RECORD_H
#define SECOND_RECORD_H

#include <stdbool.h>
#include <stddef.h>
#include <stdint.h>

/* Records of the old form begin with their marks, those of the new form with their kind. */
enum form { OLD_FORM, NEW_FORM };

enum { FROM_OLD_TRAIL, BY_STEP, BY_RESET, BY_FORCE, BY_SET };
enum { MARK_A = 1, MARK_X = 2, MARK_Y = 4, MARK_WORD = 8, MARK_B = 16, MARK_STOP = 32 };

/* Ports have their places from here on. */
#define PORTS_FROM 0x100000u

/* Old values, 0 for what is not marked; an old record's kind is 0. The length counts L's byte. */
struct second_record {
    uint32_t kind, marks, P, A, X, Y, place, value;
    size_t length;
};

/* Reads the record that begins with the first of so many bytes, or the one that ends with the
 * last of them. Answers false where it is broken. Of a word's place they ask no more than that
 * it be below 2,097,152: whether it is fitted, a caller who has stores sees. */
bool second_read_first(enum form form, const uint8_t *bytes, size_t count,
                       struct second_record *record);
bool second_read_newest(enum form form, const uint8_t *trail, size_t used,
                        struct second_record *record);

#endif
