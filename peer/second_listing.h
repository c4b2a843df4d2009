/* The second listing: written from the text of document 02's W1 (with document 01 for a word's
 * fields and for what always halts), and from nothing else, to be compared with ours. */

#ifndef SECOND_LISTING_H
#define SECOND_LISTING_H

#include <stddef.h>
#include <stdint.h>

enum { SHORTEST_LINE = 14, LONGEST_LINE = 24 };

/* How a word is listed: by names in one of four forms, or as WORD for one of two reasons. */
enum manner { FUNCTION, SHIFT, WRITE, COMPARISON, ALWAYS_HALTS, IGNORED_BITS, MANNERS };

enum manner second_manner(uint32_t word);

/* Writes the line of the word at that address, with its line feed: at most LONGEST_LINE bytes.
 * Answers how many. */
size_t second_line(uint32_t address, uint32_t word, uint8_t *line);

/* A refusal (2 or 9; 0: none) and the bytes written. */
struct listed {
    uint32_t refusal;
    uint32_t bytes;
};

/* Lists main from address 0. A refused call writes no byte. */
struct listed second_list(const uint32_t *main, size_t main_length, uint8_t *out,
                          size_t out_length);

#endif
