/* The second program for Intel HEX, written from document 02, W4, and from the layout of the
 * standard (Intel's Hexadecimal Object File Format Specification), and from nothing else, to be
 * compared with ours. */

#ifndef SECOND_HEX_H
#define SECOND_HEX_H

#include <stddef.h>
#include <stdint.h>

/* What makes a line bad, in the order in which a line is judged. The last is no fault of a line
 * that stands there: the end record is missing, and the line after the last is bad. */
enum hex_fault {
    HEX_GOOD,
    HEX_AFTER_END,
    HEX_LINE_FEED,
    HEX_COLON,
    HEX_DIGIT,
    HEX_LENGTH,
    HEX_SUM,
    HEX_TYPE,
    HEX_END,
    HEX_UPPER_COUNT,
    HEX_UPPER_ADDRESS,
    HEX_DATA_COUNT,
    HEX_DATA_ADDRESS,
    HEX_PAST_64_KIB,
    HEX_NOT_FITTED,
    HEX_NO_END,
    HEX_FAULTS
};

const char *hex_fault_name(enum hex_fault fault);

/* The first bad line of a text, from 1, and its fault; HEX_GOOD and 0 where no line is bad. */
struct hex_bad_line {
    uint64_t line;
    enum hex_fault fault;
};

/* Both answer as include/viper.h says of viper_hex_import and viper_hex_export. */
uint64_t second_hex_import(uint32_t *main, size_t main_length, size_t *used, const uint8_t *text,
                           size_t text_length, struct hex_bad_line *bad);
uint64_t second_hex_export(const uint32_t *main, size_t main_length, uint8_t *out,
                           size_t out_length);

#endif
