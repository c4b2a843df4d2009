/* The benchmark of the listing: the same mains listed by ours (viper_list of include/viper.h), by
 * the second listing and by a plain fast one that holds a table of the 4,096 heads (bits 31-20),
 * in turns within one run. */

#define _POSIX_C_SOURCE 200809L

#include "draw.h"
#include "second_listing.h"

#include "../include/viper.h"

#include <inttypes.h>
#include <stdbool.h>
#include <stdio.h>
#include <stdlib.h>
#include <string.h>
#include <time.h>

enum { MOST_WORDS = 1048576, HEADS = 4096, ROUNDS = 15 };
enum { ROOM = LONGEST_LINE * MOST_WORDS };

/* ---- The plain fast listing ---- */

/* What a line of this head has after its address and, unless it has no operand, after addr. */
struct head {
    uint8_t before_addr[16];
    uint8_t after_addr[4];
    uint8_t before_bytes, after_bytes, line_bytes;
    bool is_word, no_operand;
};

/* A line as WORD, and the most bytes that fast_line touches from a line's first on. */
enum { WORD_BYTES = 20, TOUCHED = 32 };

static struct head heads[HEADS];
static uint8_t pairs[256][2];

static struct head head_from(uint32_t word)
{
    uint8_t line[LONGEST_LINE];
    struct head head = {.line_bytes = (uint8_t)second_line(0, word, line)};
    enum manner form = second_manner(word);
    head.is_word = form == ALWAYS_HALTS || form == IGNORED_BITS;
    head.no_operand = form == SHIFT;
    if (head.is_word)
        return head;
    if (!head.no_operand)
        head.after_bytes = line[head.line_bytes - 3] == '+' ? 3 : 1;
    head.before_bytes = head.line_bytes - 5 - (head.no_operand ? 0 : 5 + head.after_bytes);
    memcpy(head.before_addr, line + 5, head.before_bytes);
    memcpy(head.after_addr, line + head.line_bytes - head.after_bytes, head.after_bytes);
    return head;
}

static void make_heads(void)
{
    for (uint32_t i = 0; i < HEADS; i++)
        heads[i] = head_from(i << 20);
}

static void make_pairs(void)
{
    for (uint32_t i = 0; i < 256; i++) {
        pairs[i][0] = (uint8_t)"0123456789ABCDEF"[i >> 4];
        pairs[i][1] = (uint8_t)"0123456789ABCDEF"[i & 15];
    }
}

static bool listed_as_word(const struct head *head, uint32_t word)
{
    return head->is_word || (head->no_operand && (word & 0xFFFFF) != 0);
}

static void put_five(uint8_t *at, uint32_t number)
{
    at[0] = pairs[number >> 16 & 15][1];
    memcpy(at + 1, pairs[number >> 8 & 255], 2);
    memcpy(at + 3, pairs[number & 255], 2);
}

static uint8_t *fast_line(uint8_t *at, uint32_t address, uint32_t word)
{
    const struct head *head = &heads[word >> 20];
    put_five(at, address);
    if (listed_as_word(head, word)) {
        memcpy(at + 5, " WORD ", 6);
        memcpy(at + 11, pairs[word >> 24], 2);
        at[13] = pairs[word >> 20 & 15][1];
        put_five(at + 14, word);
        at[19] = '\n';
        return at + WORD_BYTES;
    }
    memcpy(at + 5, head->before_addr, sizeof head->before_addr);
    at += 5 + head->before_bytes;
    if (head->no_operand)
        return at;
    put_five(at, word);
    memcpy(at + 5, head->after_addr, sizeof head->after_addr);
    return at + 5 + head->after_bytes;
}

static size_t fast_bytes(const uint32_t *main_store, size_t main_length)
{
    size_t bytes = 0;
    for (size_t i = 0; i < main_length; i++) {
        const struct head *head = &heads[main_store[i] >> 20];
        bytes += listed_as_word(head, main_store[i]) ? WORD_BYTES : head->line_bytes;
    }
    return bytes;
}

/* The last lines are written without a byte too many. */
static void fast_lines(const uint32_t *main_store, size_t main_length, uint8_t *out,
                       const uint8_t *end)
{
    for (uint32_t address = 0; address < main_length; address++)
        if (end - out >= TOUCHED)
            out = fast_line(out, address, main_store[address]);
        else
            out += second_line(address, main_store[address], out);
}

static uint64_t fast_list(const uint32_t *main_store, size_t main_length, uint8_t *out,
                          size_t out_length)
{
    if (main_length > MOST_WORDS)
        return (uint64_t)2 << 32;
    size_t bytes = fast_bytes(main_store, main_length);
    if (bytes > out_length)
        return (uint64_t)9 << 32;
    fast_lines(main_store, main_length, out, out + bytes);
    return bytes;
}

/* ---- The three sides ---- */

static uint64_t second_answer(const uint32_t *main_store, size_t main_length, uint8_t *out,
                              size_t out_length)
{
    struct listed listed = second_list(main_store, main_length, out, out_length);
    return (uint64_t)listed.refusal << 32 | listed.bytes;
}

enum side { OURS, SECOND, FAST, SIDES };

static const char *const side_names[SIDES] = {"ours", "second", "plain fast"};

static uint64_t (*const list[SIDES])(const uint32_t *, size_t, uint8_t *, size_t) = {
    viper_list, second_answer, fast_list};

static uint32_t *words;
static uint8_t *outs[SIDES];

/* ---- What is listed ---- */

enum filling { CLEARED, ROUTINES, ANY_WORDS, FILLINGS };

static const char *const filling_names[FILLINGS] = {"cleared", "routines", "any words"};

static void fill_words(enum filling filling)
{
    draw_from(90009, filling);
    for (size_t i = 0; i < MOST_WORDS; i++)
        switch (filling) {
        case CLEARED: words[i] = 0; break;
        case ROUTINES: words[i] = draw_instruction(MOST_WORDS, MOST_WORDS, 256); break;
        default: words[i] = draw(); break;
        }
}

/* ---- Times ---- */

/* What is measured: mains of that length, one after another from the same words (a processor
 * learns a short main by heart if it is listed again and again); the bytes of all their listings,
 * and the nanoseconds a word that each side took. */
struct row {
    enum filling filling;
    size_t main_length, mains;
    uint64_t bytes;
    double cost[SIDES];
};

static struct row row_of(enum filling filling, size_t main_length)
{
    return (struct row){
        .filling = filling, .main_length = main_length, .mains = MOST_WORDS / main_length};
}

static double now(void)
{
    struct timespec t;
    clock_gettime(CLOCK_PROCESS_CPUTIME_ID, &t);
    return (double)t.tv_sec * 1e9 + (double)t.tv_nsec;
}

static void check_same_job(struct row *row, enum side side)
{
    row->bytes = 0;
    for (size_t i = 0; i < row->mains; i++) {
        const uint32_t *main_store = words + i * row->main_length;
        uint64_t bytes = list[SECOND](main_store, row->main_length, outs[SECOND], ROOM);
        uint64_t answer = list[side](main_store, row->main_length, outs[side], ROOM);
        if (answer != bytes || memcmp(outs[side], outs[SECOND], bytes) != 0) {
            printf("benchmark_listing: WRONG, %s lists %s otherwise than the second listing\n",
                   side_names[side], filling_names[row->filling]);
            exit(1);
        }
        row->bytes += bytes;
    }
}

static double measure(enum side side, const struct row *row)
{
    uint64_t bytes = 0;
    double start = now();
    for (size_t i = 0; i < row->mains; i++)
        bytes += list[side](words + i * row->main_length, row->main_length, outs[side], ROOM);
    double cost = (now() - start) / (double)(row->mains * row->main_length);
    if (bytes != row->bytes)
        exit(1);
    return cost;
}

/* Each side is first in every third round. The least time counts: whatever else the machine does
 * only adds to it. */
static void measure_row(struct row *row)
{
    fill_words(row->filling);
    for (int turn = 0; turn < ROUNDS * SIDES; turn++) {
        enum side side = (turn + turn / SIDES) % SIDES;
        if (turn < SIDES)
            check_same_job(row, side);
        double cost = measure(side, row);
        if (row->cost[side] == 0 || cost < row->cost[side])
            row->cost[side] = cost;
    }
}

/* ---- The tables ---- */

static void rate_table(void)
{
    printf("listing %d words, the least time of %d rounds: million words a second, MB of text a "
           "second\n",
           MOST_WORDS, ROUNDS);
    printf("%-10s %9s   %-18s %-18s %-18s %s\n", "main", "MB", side_names[OURS],
           side_names[SECOND], side_names[FAST], "speed of ours to the plain fast one's");
    for (int filling = 0; filling < FILLINGS; filling++) {
        struct row row = row_of(filling, MOST_WORDS);
        measure_row(&row);
        double bytes_a_word = (double)row.bytes / MOST_WORDS;
        printf("%-10s %9.1f", filling_names[filling], (double)row.bytes / 1e6);
        for (int side = 0; side < SIDES; side++)
            printf("   %6.1f, %7.1f", 1e3 / row.cost[side], 1e3 * bytes_a_word / row.cost[side]);
        printf("   %.2f\n", row.cost[FAST] / row.cost[OURS]);
        fflush(stdout);
    }
    printf("\n");
}

static void growth_table(void)
{
    const size_t lengths[] = {10000, 100000, MOST_WORDS};
    double least = 0;
    printf("main routines, ns a word; the cost must not grow with the words\n");
    printf("%9s %10s %10s %10s\n", "words", side_names[OURS], side_names[SECOND],
           side_names[FAST]);
    for (int i = 0; i < 3; i++) {
        struct row row = row_of(ROUTINES, lengths[i]);
        measure_row(&row);
        least = i == 0 ? row.cost[OURS] : least;
        printf("%9zu %10.2f %10.2f %10.2f\n", row.main_length, row.cost[OURS], row.cost[SECOND],
               row.cost[FAST]);
        if (i == 2)
            printf("ours grows with the words by %.2f times\n", row.cost[OURS] / least);
    }
}

int main(void)
{
    words = malloc(MOST_WORDS * sizeof *words);
    for (int side = 0; side < SIDES; side++)
        outs[side] = malloc(ROOM);
    make_heads();
    make_pairs();
    rate_table();
    growth_table();
    return 0;
}
