/* The second listing: written from the text of document 02's W1 (with document 01 for a word's
 * fields and for what always halts), and from nothing else, to be compared with ours. */

#include "second_listing.h"

#include <stdbool.h>

enum { MOST_WORDS = 1048576 };

/* ---- The fields of a word (document 01, "The instruction, from the report") ---- */

struct fields {
    uint32_t rsf, msf, dsf, csf, fsf, addr;
};

static struct fields fields_of(uint32_t word)
{
    return (struct fields){
        .rsf = word >> 30,
        .msf = word >> 28 & 3,
        .dsf = word >> 25 & 7,
        .csf = word >> 24 & 1,
        .fsf = word >> 20 & 15,
        .addr = word & 0xFFFFF,
    };
}

/* ---- The form of a word ---- */

/* The tests with csf 0 of document 01, part 2. */
static bool always_halts(struct fields f)
{
    if (f.csf == 1)
        return false;
    if (f.dsf <= 2 && f.fsf == 1)
        return true;
    if (f.dsf <= 5 && f.fsf >= 13)
        return true;
    if (f.dsf >= 3 && f.dsf <= 5)
        return f.fsf != 1 && f.fsf != 3 && f.fsf != 5 && f.fsf != 7;
    return f.dsf >= 6 && f.msf == 0;
}

static enum manner form_if_it_can_go_on(struct fields f)
{
    if (f.csf == 1)
        return COMPARISON;
    if (f.dsf >= 6)
        return WRITE;
    return f.fsf == 12 ? SHIFT : FUNCTION;
}

/* "Functions 0-3 ignore rsf, writes fsf, shifts addr, comparisons dsf." */
static uint32_t ignored_bits(enum manner form, struct fields f)
{
    switch (form) {
    case COMPARISON: return f.dsf;
    case WRITE: return f.fsf;
    case SHIFT: return f.addr;
    default: return f.fsf <= 3 ? f.rsf : 0;
    }
}

enum manner second_manner(uint32_t word)
{
    struct fields f = fields_of(word);
    if (always_halts(f))
        return ALWAYS_HALTS;
    enum manner form = form_if_it_can_go_on(f);
    return ignored_bits(form, f) == 0 ? form : IGNORED_BITS;
}

/* ---- A line: each of these puts bytes from at on, and answers where the next one goes ---- */

static uint8_t *put(uint8_t *at, const char *characters)
{
    while (*characters != '\0')
        *at++ = (uint8_t)*characters++;
    return at;
}

static uint8_t *put_digits(uint8_t *at, uint32_t number, int digits)
{
    for (int left = digits - 1; left >= 0; left--)
        *at++ = (uint8_t)"0123456789ABCDEF"[number >> 4 * left & 15];
    return at;
}

static uint8_t *put_field(uint8_t *at, const char *name)
{
    return put(put(at, " "), name);
}

static uint8_t *put_destination(uint8_t *at, enum manner form, struct fields f)
{
    static const char *const destinations[8] = {"A", "X", "Y", "P", "PB", "PN", "IO", "MEM"};
    return put_field(at, form == COMPARISON ? "CMP" : destinations[f.dsf]);
}

static uint8_t *put_function(uint8_t *at, enum manner form, struct fields f)
{
    static const char *const functions[12] = {"NEG", "CALL", "IN",  "LD",  "ADD", "ADDS",
                                              "SUB", "SUBS", "XOR", "AND", "NOR", "ANDN"};
    static const char *const shifts[4] = {"ASR", "ROR", "SHLS", "ROL"};
    static const char *const comparisons[8] = {"LT", "GE", "EQ", "NE", "LE", "GT", "BL", "BH"};
    switch (form) {
    case FUNCTION: return put_field(at, functions[f.fsf]);
    case SHIFT: return put_field(at, shifts[f.msf]);
    case COMPARISON: return put(put_field(at, comparisons[f.fsf % 8]), f.fsf >= 8 ? "B" : "");
    default: return at;
    }
}

static uint8_t *put_register(uint8_t *at, enum manner form, struct fields f)
{
    static const char *const registers[4] = {"A", "X", "Y", "N"};
    if (form == FUNCTION && f.fsf <= 3)
        return at;
    return put_field(at, registers[f.rsf]);
}

static uint8_t *put_operand(uint8_t *at, enum manner form, struct fields f)
{
    static const char *const before[4] = {"#", "", "", ""};
    static const char *const after[4] = {"", "", "+X", "+Y"};
    if (form == SHIFT)
        return at;
    at = put_digits(put_field(at, before[f.msf]), f.addr, 5);
    return put(at, after[f.msf]);
}

size_t second_line(uint32_t address, uint32_t word, uint8_t *line)
{
    enum manner form = second_manner(word);
    struct fields f = fields_of(word);
    uint8_t *at = put_digits(line, address, 5);
    if (form == ALWAYS_HALTS || form == IGNORED_BITS) {
        at = put_digits(put(at, " WORD "), word, 8);
    } else {
        at = put_destination(at, form, f);
        at = put_function(at, form, f);
        at = put_register(at, form, f);
        at = put_operand(at, form, f);
    }
    at = put(at, "\n");
    return (size_t)(at - line);
}

/* ---- The listing ---- */

static size_t listing_bytes(const uint32_t *main, size_t main_length)
{
    uint8_t line[LONGEST_LINE];
    size_t bytes = 0;
    for (size_t address = 0; address < main_length; address++)
        bytes += second_line((uint32_t)address, main[address], line);
    return bytes;
}

struct listed second_list(const uint32_t *main, size_t main_length, uint8_t *out,
                          size_t out_length)
{
    if (main_length > MOST_WORDS)
        return (struct listed){.refusal = 2};
    size_t bytes = listing_bytes(main, main_length);
    if (bytes > out_length)
        return (struct listed){.refusal = 9};
    for (size_t address = 0; address < main_length; address++)
        out += second_line((uint32_t)address, main[address], out);
    return (struct listed){.bytes = (uint32_t)bytes};
}
