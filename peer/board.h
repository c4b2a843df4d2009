/* A board: all that is lent to a call, as include/viper.h names it, in one place that can be
 * filled, copied, compared and printed. */

#ifndef BOARD_H
#define BOARD_H

#include <stdbool.h>
#include <stddef.h>
#include <stdint.h>

struct board {
    uint32_t regs[6];
    uint32_t *main;
    size_t main_length;
    uint32_t *ports;
    size_t ports_length;
    uint8_t *trail;
    size_t trail_length;
    size_t used;
    /* What there is room for. Beyond a length stand words that no call may touch, and in front
     * of each store and of the trail too. */
    size_t main_room, ports_room, trail_room;
};

/* A board of cleared words, or the end of the program where memory is short. */
struct board board_with_room(size_t main_room, size_t ports_room, size_t trail_room);

void board_release(struct board *board);

/* Both boards have room for the same. */
void board_copy(struct board *to, const struct board *from);

/* Machine, count in use and trail are the same; with stores, every word of them too. */
bool board_same(const struct board *one, const struct board *other, bool with_stores);

/* The machine, lengths, the instruction at P, and the newest bytes in use, to be read aloud. */
void board_print(const struct board *board);

/* All words and trail bytes of a board of at most a few dozen words. */
void board_print_words(const struct board *board);

/* What one has that the other has not: machine, count, words, trail bytes. */
void board_print_differences(const char *name, const struct board *one, const char *other_name,
                             const struct board *other);

#endif
