/* The runner of the printed cases: the bench that a case starts from, the calls it may make, and
 * what came, as it is read aloud. peer/cases.txt says how a line is written. */

#ifndef CASES_H
#define CASES_H

#include "../include/viper.h"

#include <stdbool.h>
#include <stddef.h>
#include <stdint.h>

enum {
    LINE_MOST = 1000,       /* signs of a line, its line feed too */
    STORE_MOST = 2097152,   /* words of a store */
    TRAIL_MOST = 1024,      /* bytes of a trail */
    OUTPUT_MOST = 33554432, /* bytes of an output */
    MARGIN = 8,             /* words or bytes past a length, that no call may touch */
    UNTOUCHED = 0xEE        /* what every byte of an output starts as */
};

/* What a line may tell of the start, a bit each; a call is lent some of them. */
enum {
    SAYS_A = 1 << 0,
    SAYS_X = 1 << 1,
    SAYS_Y = 1 << 2,
    SAYS_P = 1 << 3,
    SAYS_B = 1 << 4,
    SAYS_STOP = 1 << 5,
    SAYS_MAIN_LENGTH = 1 << 6,
    SAYS_MAIN_WORD = 1 << 7,
    SAYS_WORD_AT_P = 1 << 8,
    SAYS_WORDS_AFTER_P = 1 << 9,
    SAYS_PORTS_LENGTH = 1 << 10,
    SAYS_PORT_WORD = 1 << 11,
    SAYS_TRAIL_LENGTH = 1 << 12,
    SAYS_IN_USE = 1 << 13,
    SAYS_RECORDS = 1 << 14,
    SAYS_BUDGET = 1 << 15,
    SAYS_OUTPUT_LENGTH = 1 << 16,
    SAYS_TEXT = 1 << 17,

    LENT_MACHINE = SAYS_A | SAYS_X | SAYS_Y | SAYS_P | SAYS_B | SAYS_STOP,
    LENT_MAIN = SAYS_MAIN_LENGTH | SAYS_MAIN_WORD | SAYS_WORD_AT_P | SAYS_WORDS_AFTER_P,
    LENT_PORTS = SAYS_PORTS_LENGTH | SAYS_PORT_WORD,
    LENT_TRAIL = SAYS_TRAIL_LENGTH | SAYS_IN_USE | SAYS_RECORDS,
    LENT_BOARD = LENT_MACHINE | LENT_MAIN | LENT_PORTS | LENT_TRAIL
};

/* A lent store, and how it was before the call. */
struct store {
    uint32_t *words, *before;
    bool *named; /* the words that the line has given a value */
    size_t length;
};

/* All that a call may be lent, and how it was before the call. */
struct bench {
    uint32_t regs[6], regs_before[6];
    struct store main, ports;
    uint8_t trail[TRAIL_MOST + MARGIN], trail_before[TRAIL_MOST + MARGIN];
    size_t trail_length, used, used_before;
    bool used_named;
    uint32_t budget;
    uint8_t *output;
    size_t output_length;
    uint8_t text[LINE_MOST];
    size_t text_length;
};

/* The numbers of a phrase, in the order it says them, and what follows the last of them. */
struct numbers {
    uint64_t number[3];
    size_t count;
    const char *rest;
};

/* A call as a line spells it: %p is main (0) or port (1), %a an address, %w a word, %n a count,
 * %s the plural's s after a count. Makes the call and says its answer. */
struct call {
    const char *spelled;
    unsigned lent, needs;
    void (*make)(struct bench *bench, const uint64_t asked[3]);
};

extern const struct call calls[];
extern const size_t calls_count;

/* ---- cases_read.c ---- */

/* A case as it was read: the call, its numbers and what the document says. Where the line cannot
 * be read, the phrase and why. */
struct read_case {
    const struct call *call;
    uint64_t asked[3];
    const char *says;
    const char *phrase, *why;
};

/* Reads a line, which it cuts up, and sets up the bench as the line tells; false where it cannot.
 * The bench is to be cleared in either case. */
bool read_case(char *line, struct bench *bench, struct read_case *read);
void clear_bench(struct bench *bench);

/* ---- cases_say.c ---- */

/* What came, from the last say_nothing on. */
const char *said(void);
void say_nothing(void);
void say(const char *format, ...);

/* "accepted", or "refused" and the number. */
void say_answer(uint64_t refusal);

/* The first bytes of the output as a text of lines, or as records; then any byte past them that
 * was touched. */
void say_text_written(const struct bench *bench, size_t written);
void say_records_written(const struct bench *bench, size_t written);
void say_nothing_written(const struct bench *bench);

/* Every register, word and trail byte that changed, and the count in use if it did. */
void say_changes(const struct bench *bench);

#endif
