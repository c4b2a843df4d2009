/* Bytes lent to a call, right against memory that nobody may touch: a read or a write past them
 * ends the program, and a write in front of them is seen. */

#ifndef LENT_H
#define LENT_H

#include <stdbool.h>
#include <stddef.h>
#include <stdint.h>

/* Room between two stretches that may not be touched; and how much of it is watched. */
enum { LENT_ROOM = 65536, WATCHED = 4096 };

struct lent {
    uint8_t *room;
    uint8_t *watched; /* the room's first or its last bytes */
    uint8_t *bytes;   /* those that are lent */
};

/* Ends the program where memory is short. */
struct lent lent_room(void);

/* Lends so many bytes, at the room's end or its beginning. All that is watched, in them and beside
 * them, becomes as the WATCHED bytes of blank. */
void lend_blank(struct lent *lent, size_t length, bool at_end, const uint8_t *blank);

/* Lends a copy of so many bytes, at the room's end or its beginning. */
const uint8_t *lend(struct lent *lent, const uint8_t *bytes, size_t length, bool at_end);

/* Of what is watched, nothing but the first so many of the lent bytes differs from blank. */
bool lent_blank_past(const struct lent *lent, size_t written, const uint8_t *blank);

/* Has the program end with its report where memory that was not lent is touched. */
void on_touch_outside(void (*report)(void));

#endif
