/* Intel HEX texts drawn at random (document 02, W4): good ones, and ones with one rule broken once,
 * of which the first bad line is known. */

#ifndef HEX_TEXTS_H
#define HEX_TEXTS_H

#include "second_hex.h"

#include <stddef.h>
#include <stdint.h>

enum { MOST_LINES = 48, MOST_SIGNS = 1024, MOST_END = 4 };

/* A line: its signs, and the bytes that end it. */
struct hex_line {
    uint8_t signs[MOST_SIGNS];
    size_t length;
    uint8_t end[MOST_END];
    size_t end_length;
};

/* The lines of a text for a main of that length. */
struct hex_lines {
    struct hex_line lines[MOST_LINES];
    size_t count;
    size_t main_length;
    uint64_t bad; /* the first bad line, from 1, or 0 */
};

/* A rule and how it is broken. */
struct hex_damage {
    const char *name;
    void (*make)(struct hex_lines *lines);
    enum hex_fault fault;
};

extern const struct hex_damage hex_damages[];
extern const size_t hex_damages_count;

/* Good lines: data records of any count, in any order, also overlapping and with gaps, type 04
 * records of fitted and other upper addresses, line ends of both sorts, the end record. */
void draw_good_lines(struct hex_lines *lines, size_t main_length);

/* The text of the lines, at most that of the most signs of each. Answers its length. */
size_t join_lines(const struct hex_lines *lines, uint8_t *text);

#endif
