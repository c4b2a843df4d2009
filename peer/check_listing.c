/* The check of the listing: viper_list, through include/viper.h, beside the second listing
 * (document 02, W1): the answer and every byte of the output are compared after each call.
 *
 * check_listing [seed [scale]] */

#define _DEFAULT_SOURCE

#include "draw.h"
#include "second_listing.h"

#include "../include/viper.h"

#include <inttypes.h>
#include <stdarg.h>
#include <stdio.h>
#include <stdlib.h>
#include <string.h>
#include <sys/mman.h>

enum { DEFAULT_SEED = 90009, CLASSES = 1024, HEADS = 4096, MOST_WORDS = 1048576 };

/* The words of each class: four registers, three addr. */
enum { REGISTERS = 4, ADDRS = 3, CLASS_WORDS = CLASSES * REGISTERS * ADDRS };

/* How much is done at scale 1. */
enum { RANDOM_STORES = 40000, LONG_STORES = 60, FULL_STORES = 4, RANDOM_WORDS = 200000 };

enum { FEW_WORDS = 120, MANY_WORDS = 12000 };

/* Bytes compared before and after the output, and the most that are compared of the output. */
enum { MARGIN = 32, OUTPUT_ROOM = LONGEST_LINE * MOST_WORDS + 4096 };
enum { ROOM = MARGIN + OUTPUT_ROOM + MARGIN };

static const uint64_t TWO_32 = (uint64_t)1 << 32;

static uint64_t seed = DEFAULT_SEED;

/* What is lent: main and the output of ours, both with more than 2^32 of their own if this
 * machine can reserve so much. came and wanted begin MARGIN bytes before an output. */
static uint32_t *main_store;
static uint8_t *came;
static bool large;

static uint32_t *main_before;
static uint8_t *wanted;

/* The call under way. */
static struct {
    const char *trial;
    uint64_t number;
    size_t main_length, out_length;
} call;

/* What was compared. */
static uint64_t calls, accepted, nothing_to_list, refused_2, refused_9, large_lengths;
static uint64_t lines[MANNERS];
static uint64_t seen_named[HEADS], seen_as_word[HEADS];

static size_t at_most(size_t n, size_t most)
{
    return n < most ? n : most;
}

/* ---- A difference ends the program ---- */

static void print_call(void)
{
    printf("WRONG: seed %" PRIu64 ", %s %" PRIu64 ": main %zu words, output %zu bytes\n", seed,
           call.trial, call.number, call.main_length, call.out_length);
    if (call.main_length == 0 || call.main_length > FEW_WORDS)
        return;
    printf("main:");
    for (size_t i = 0; i < call.main_length; i++)
        printf(" %08" PRIX32, main_before[i]);
    printf("\n");
}

static void fail(const char *why, ...)
{
    va_list rest;
    print_call();
    va_start(rest, why);
    vprintf(why, rest);
    va_end(rest);
    printf("\n");
    exit(1);
}

/* Up to a line feed; a byte that no line has is printed as two digits. */
static void print_line(const char *whose, const uint8_t *line)
{
    printf("  %s ", whose);
    for (int i = 0; i < LONGEST_LINE && line[i] != '\n'; i++)
        if (line[i] >= ' ' && line[i] <= '~')
            printf("%c", line[i]);
        else
            printf("<%02X>", line[i]);
    printf("\n");
}

/* The line of the second listing in which that byte of the output stands. */
static void print_line_of(size_t byte)
{
    uint8_t line[LONGEST_LINE];
    size_t begin = 0, address = 0, length = 0;
    for (; address < call.main_length; address++, begin += length) {
        length = second_line((uint32_t)address, main_before[address], line);
        if (begin + length > byte)
            break;
    }
    if (address == call.main_length) {
        printf("it stands after the listing\n");
        return;
    }
    printf("address %05zX, word %08" PRIX32 "\n", address, main_before[address]);
    print_line("came:  ", came + MARGIN + begin);
    print_line("wanted:", wanted + MARGIN + begin);
}

static void fail_compared(uint64_t answer, struct listed want, size_t room)
{
    size_t i = 0;
    print_call();
    printf("came:   refusal %" PRIu64 ", bytes %" PRIu64 "\n", answer >> 32, answer % TWO_32);
    printf("wanted: refusal %" PRIu32 ", bytes %" PRIu32 "\n", want.refusal, want.bytes);
    while (i < room && came[i] == wanted[i])
        i++;
    if (i == room) {
        printf("no byte of the output differs\n");
        exit(1);
    }
    printf("output byte %td: came %02X, wanted %02X\n", (ptrdiff_t)i - MARGIN, came[i], wanted[i]);
    if (want.refusal == 0 && i >= MARGIN)
        print_line_of(i - MARGIN);
    exit(1);
}

/* ---- One call of both ---- */

static bool is_named(const uint8_t *line)
{
    return memcmp(line + 5, " WORD ", 6) != 0;
}

static void count_lines(const uint8_t *text)
{
    for (size_t address = 0; address < call.main_length; address++) {
        uint32_t word = main_store[address];
        uint64_t *seen = is_named(text) ? seen_named : seen_as_word;
        lines[second_manner(word)]++;
        seen[word >> 20]++;
        text = (const uint8_t *)memchr(text, '\n', LONGEST_LINE) + 1;
    }
}

static void count(struct listed listed)
{
    calls++;
    accepted += listed.refusal == 0;
    nothing_to_list += listed.refusal == 0 && listed.bytes == 0;
    refused_2 += listed.refusal == 2;
    refused_9 += listed.refusal == 9;
    large_lengths += call.main_length >= TWO_32 || call.out_length >= TWO_32;
    if (listed.refusal == 0)
        count_lines(came + MARGIN);
}

/* No line has a byte of the fill, so that any byte written shows. Answers the bytes listed. */
static size_t compare(size_t main_length, size_t out_length)
{
    size_t room = MARGIN + at_most(out_length, OUTPUT_ROOM) + MARGIN;
    size_t words = at_most(main_length, MOST_WORDS + 1) * sizeof *main_store;
    int fill = (int)draw_between(0x80, 0xFF);
    call.main_length = main_length;
    call.out_length = out_length;
    memcpy(main_before, main_store, words);
    memset(came, fill, room);
    memset(wanted, fill, room);
    uint64_t answer = viper_list(main_store, main_length, came + MARGIN, out_length);
    struct listed want = second_list(main_before, main_length, wanted + MARGIN, out_length);
    if (answer != want.refusal * TWO_32 + want.bytes || memcmp(came, wanted, room) != 0)
        fail_compared(answer, want, room);
    if (memcmp(main_before, main_store, words) != 0)
        fail("the call wrote to main");
    count(want);
    return want.bytes;
}

/* The output as long as the listing, shorter by one, longer, empty, and of any length. */
static void compare_lengths(size_t main_length)
{
    size_t bytes = compare(main_length, LONGEST_LINE * main_length);
    compare(main_length, bytes);
    compare(main_length, bytes + draw_between(1, 64));
    compare(main_length, draw_below(LONGEST_LINE * (uint32_t)main_length + 64));
    compare(main_length, 0);
    if (bytes > 0)
        compare(main_length, bytes - 1);
}

static void begin(const char *trial, uint64_t phase, uint64_t number)
{
    call.trial = trial;
    call.number = number;
    draw_from(seed, (phase << 40) + number);
}

/* ---- Lines that are read aloud in the documents' own words ---- */

static const struct {
    uint32_t address, word;
    const char *line;
} examples[] = {
    {0x00, 0x00300005, "00000 A LD #00005\n"},
    {0x01, 0x1E00000A, "00001 MEM A 0000A\n"},
    {0x02, 0x01200005, "00002 CMP EQ A #00005\n"},
    {0x02, 0x01A00005, "00002 CMP EQB A #00005\n"},
    {0x03, 0x7050000A, "00003 A ADDS X 0000A+Y\n"},
    {0x03, 0x00D00000, "00003 WORD 00D00000\n"},
    {0x04, 0x40C00000, "00004 A ASR X\n"},
    {0x0A, 0x06100100, "0000A P CALL #00100\n"},
    {0x10, 0x10200005, "00010 A IN 00005\n"},
    {0x1F, 0x70400005, "0001F A ADD X 00005+Y\n"},
    {0x1F, 0xC0400000, "0001F A ADD N #00000\n"},
    {0x20, 0x2C0FFFFF, "00020 IO A FFFFF+X\n"},
};

enum { EXAMPLES = sizeof examples / sizeof examples[0] };

static void check_examples(void)
{
    for (int i = 0; i < EXAMPLES; i++) {
        uint32_t address = examples[i].address;
        size_t length = strlen(examples[i].line);
        begin("example", 1, (uint64_t)i);
        memset(main_store, 0, address * sizeof *main_store);
        main_store[address] = examples[i].word;
        size_t bytes = compare(address + 1, LONGEST_LINE * (address + 1));
        if (memcmp(came + MARGIN + bytes - length, examples[i].line, length) != 0)
            fail("both list the last word in another way than %s", examples[i].line);
    }
}

/* ---- Draws of words ---- */

static uint32_t class_word(uint32_t i)
{
    static const uint32_t addrs[ADDRS] = {0, 5, 0xFFFFF};
    uint32_t rsf = i / ADDRS % REGISTERS;
    uint32_t class = i / (ADDRS * REGISTERS);
    return rsf << 30 | class << 20 | addrs[i % ADDRS];
}

/* All forms are common: the bits that a word ignores are mostly clear. */
static uint32_t draw_any_form(void)
{
    uint32_t rsf = draw_below(4);
    uint32_t msf = draw_below(4);
    uint32_t dsf = draw_below(8);
    uint32_t csf = draw_one_in(4);
    uint32_t fsf = draw_one_in(8) ? 12 : draw_below(16);
    uint32_t addr = draw_20_bits();
    if (draw_one_in(5))
        return instruction(rsf, msf, dsf, csf, fsf, addr);
    if (csf == 1)
        return instruction(rsf, msf, 0, csf, fsf, addr);
    if (dsf >= 6)
        return instruction(rsf, msf, dsf, csf, 0, addr);
    return instruction(fsf <= 3 ? 0 : rsf, msf, dsf, csf, fsf, fsf == 12 ? 0 : addr);
}

enum filling { ANY_FORM, CLASS_WORDS_IN_TURN, ANY_WORD, WORDS_AT_EDGES, ONE_WORD, FILLINGS };

static void fill_main(enum filling filling, size_t main_length)
{
    uint32_t first = draw_below(CLASS_WORDS);
    uint32_t one = draw_any_form();
    for (size_t i = 0; i < main_length; i++)
        switch (filling) {
        case ANY_FORM: main_store[i] = draw_any_form(); break;
        case CLASS_WORDS_IN_TURN: main_store[i] = class_word((first + i) % CLASS_WORDS); break;
        case ANY_WORD: main_store[i] = draw(); break;
        case WORDS_AT_EDGES: main_store[i] = draw_word(); break;
        default: main_store[i] = one; break;
        }
}

/* ---- Every class, register and addr ---- */

static void class_words(void)
{
    for (uint32_t i = 0; i < CLASS_WORDS; i++) {
        begin("class word", 2, i);
        uint32_t address = draw_below(FEW_WORDS - 3);
        main_store[0] = class_word(i);
        compare_lengths(1);
        fill_main(ANY_FORM, address + 3);
        main_store[address] = class_word(i);
        compare_lengths(address + draw_between(1, 3));
    }
}

/* ---- Random stores ---- */

static void random_stores(const char *trial, uint64_t phase, uint64_t many, uint32_t most_words)
{
    for (uint64_t i = 0; i < many; i++) {
        begin(trial, phase, i);
        size_t main_length = draw_below(most_words + 1);
        fill_main(i % FILLINGS, main_length);
        compare_lengths(main_length);
    }
}

static void full_stores(uint64_t many)
{
    for (uint64_t i = 0; i < many || i == 0; i++) {
        begin("full store", 5, i);
        fill_main((i + CLASS_WORDS_IN_TURN) % FILLINGS, MOST_WORDS);
        compare_lengths(MOST_WORDS);
    }
}

/* ---- Lengths at the edges ---- */

/* An empty main is listed in no byte; one word too many is 2, also where 9 would apply. */
static void edge_lengths(void)
{
    const size_t outs[] = {0, 1, SHORTEST_LINE, LONGEST_LINE, 1000, OUTPUT_ROOM};
    begin("edge length", 6, 0);
    fill_main(ANY_FORM, MOST_WORDS + 1);
    for (size_t i = 0; i < sizeof outs / sizeof outs[0]; i++) {
        compare(0, outs[i]);
        compare(1, outs[i]);
        compare(MOST_WORDS + 1, outs[i]);
    }
}

/* Lengths whose low 32 bits alone would be judged otherwise. */
static void large_lengths_too(void)
{
    const size_t small[] = {0, 1, 3, 30};
    begin("large length", 7, 0);
    fill_main(ANY_FORM, FEW_WORDS);
    for (size_t i = 0; large && i < sizeof small / sizeof small[0]; i++) {
        compare(TWO_32 + small[i], 0);
        compare(TWO_32 + small[i], 1000);
        compare(TWO_32 + small[i], TWO_32 + 1000);
        compare(small[i], TWO_32);
        compare(small[i], TWO_32 + SHORTEST_LINE);
    }
}

/* ---- No two words have the same line at one address ---- */

enum { NEIGHBOURS = 33 };

struct tried {
    uint8_t line[LONGEST_LINE];
    uint32_t word;
};

static struct tried *tried;
static size_t tried_lines;
static uint64_t distinct_words;
static size_t shortest = SIZE_MAX, longest;

static void try_line(uint32_t word, size_t address)
{
    struct tried *next = &tried[tried_lines++];
    main_store[address] = word;
    const uint8_t *end = came + MARGIN + compare(address + 1, LONGEST_LINE * (address + 1));
    const uint8_t *line = end - 1;
    while (line > came + MARGIN && line[-1] != '\n')
        line--;
    size_t length = (size_t)(end - line);
    shortest = length < shortest ? length : shortest;
    longest = length > longest ? length : longest;
    memset(next->line, 0, sizeof next->line);
    memcpy(next->line, line, at_most(length, LONGEST_LINE));
    next->word = word;
}

/* Each class word (bit 32 is no bit of a word), and each word that differs from it in one bit. */
static void try_class_words(size_t address)
{
    for (uint32_t i = 0; i < NEIGHBOURS * CLASS_WORDS; i++)
        try_line(class_word(i / NEIGHBOURS) ^ (uint32_t)((uint64_t)1 << i % NEIGHBOURS), address);
}

static void try_random_words(size_t address, uint64_t many)
{
    for (uint64_t i = 0; i < many; i++)
        try_line(i % 2 ? draw() : draw_any_form(), address);
}

static int by_line(const void *one, const void *other)
{
    const struct tried *a = one, *b = other;
    int order = memcmp(a->line, b->line, LONGEST_LINE);
    return order != 0 ? order : (a->word > b->word) - (a->word < b->word);
}

static void check_distinct(void)
{
    qsort(tried, tried_lines, sizeof *tried, by_line);
    distinct_words = 1;
    for (size_t i = 1; i < tried_lines; i++) {
        const struct tried *a = &tried[i - 1], *b = &tried[i];
        distinct_words += a->word != b->word;
        if (a->word != b->word && memcmp(a->line, b->line, LONGEST_LINE) == 0)
            fail("%08" PRIX32 " and %08" PRIX32 " have the same line at one address: %.*s",
                 a->word, b->word, LONGEST_LINE, (const char *)a->line);
    }
}

static void distinct_lines(size_t address, uint64_t random_words)
{
    begin("distinct lines at address", 8, address);
    tried = malloc((NEIGHBOURS * CLASS_WORDS + random_words) * sizeof *tried);
    tried_lines = 0;
    fill_main(ANY_FORM, address);
    try_class_words(address);
    try_random_words(address, random_words);
    check_distinct();
    free(tried);
}

/* ---- The heads (bits 31-20) that are named ---- */

/* How many must be. */
enum { NAMED_ALWAYS = 820, NAMED_AT_0_ONLY = 48 };

/* The addr other than 0 that each head is tried with. */
enum { ONE_BIT_ADDRS = 20, OTHER_ADDRS = 26 };

static uint64_t named_always, named_at_0_only;

static bool named(uint32_t word)
{
    main_store[0] = word;
    compare(1, LONGEST_LINE);
    return is_named(came + MARGIN);
}

static uint32_t named_with_other_addrs(uint32_t head)
{
    uint32_t times = named(head << 20 | 0xFFFFF);
    for (uint32_t i = 1; i < OTHER_ADDRS; i++)
        times += named(head << 20 |
                       (i <= ONE_BIT_ADDRS ? 1u << (i - 1) : draw_between(1, 0xFFFFF)));
    return times;
}

static void heads(void)
{
    for (uint32_t head = 0; head < HEADS; head++) {
        begin("head", 9, head);
        bool at_0 = named(head << 20);
        uint32_t others = named_with_other_addrs(head);
        if (others != 0 && (others != OTHER_ADDRS || !at_0))
            fail("head %03" PRIX32 " is named for %" PRIu32 " of %d addr other than 0, %s addr 0",
                 head, others, OTHER_ADDRS, at_0 ? "and at" : "not at");
        named_always += others != 0;
        named_at_0_only += at_0 && others == 0;
    }
    if (named_always != NAMED_ALWAYS || named_at_0_only != NAMED_AT_0_ONLY)
        fail("heads named for every addr: %" PRIu64 ", wanted %d; at addr 0 only: %" PRIu64
             ", wanted %d",
             named_always, NAMED_ALWAYS, named_at_0_only, NAMED_AT_0_ONLY);
}

/* ---- The summary ---- */

static uint64_t heads_in(const uint64_t seen[HEADS])
{
    uint64_t heads = 0;
    for (uint32_t head = 0; head < HEADS; head++)
        heads += seen[head] > 0;
    return heads;
}

/* Each answer, each form, each named head, and WORD for every other. */
static bool all_seen(void)
{
    bool all = accepted > 0 && nothing_to_list > 0 && refused_2 > 0 && refused_9 > 0;
    for (int form = 0; form < MANNERS; form++)
        all = all && lines[form] > 0;
    return all && shortest == SHORTEST_LINE && longest == LONGEST_LINE &&
           heads_in(seen_named) == NAMED_ALWAYS + NAMED_AT_0_ONLY &&
           heads_in(seen_as_word) == HEADS - NAMED_ALWAYS;
}

static void print_summary(double scale)
{
    printf("check_listing: seed %" PRIu64 ", scale %g, %" PRIu64 " calls: accepted %" PRIu64
           " (%" PRIu64 " of no word), refused 2 %" PRIu64 ", refused 9 %" PRIu64
           ", lengths of 2^32 and more %" PRIu64,
           seed, scale, calls, accepted, nothing_to_list, refused_2, refused_9, large_lengths);
    printf("; lines of %zu to %zu bytes: functions %" PRIu64 ", shifts %" PRIu64
           ", writes %" PRIu64 ", comparisons %" PRIu64 ", WORD always halts %" PRIu64
           ", WORD ignored bits %" PRIu64,
           shortest, longest, lines[FUNCTION], lines[SHIFT], lines[WRITE], lines[COMPARISON],
           lines[ALWAYS_HALTS], lines[IGNORED_BITS]);
    printf("; of %d heads %" PRIu64 " named for every addr, %" PRIu64 " at addr 0 only; %" PRIu64
           " words at each of two addresses, no two with the same line; all the same\n",
           HEADS, named_always, named_at_0_only, distinct_words);
}

/* ---- What is lent ---- */

/* Memory that is only had where it is touched, or NULL. */
static void *reserve(size_t bytes)
{
    void *memory = mmap(NULL, bytes, PROT_READ | PROT_WRITE,
                        MAP_PRIVATE | MAP_ANONYMOUS | MAP_NORESERVE, -1, 0);
    return memory == MAP_FAILED ? NULL : memory;
}

static void lend(void)
{
    main_store = reserve((TWO_32 + FEW_WORDS) * sizeof *main_store);
    came = reserve(TWO_32 + ROOM);
    large = main_store != NULL && came != NULL;
    if (main_store == NULL)
        main_store = malloc((MOST_WORDS + 1) * sizeof *main_store);
    if (came == NULL)
        came = malloc(ROOM);
    main_before = malloc((MOST_WORDS + 1) * sizeof *main_before);
    wanted = malloc(ROOM);
}

int main(int argc, char **argv)
{
    double scale = 1;
    if (argc > 1)
        seed = strtoull(argv[1], NULL, 10);
    if (argc > 2)
        scale = strtod(argv[2], NULL);
    lend();

    check_examples();
    class_words();
    random_stores("random store", 3, (uint64_t)(scale * RANDOM_STORES), FEW_WORDS);
    random_stores("long store", 4, (uint64_t)(scale * LONG_STORES), MANY_WORDS);
    full_stores((uint64_t)(scale * FULL_STORES));
    edge_lengths();
    large_lengths_too();
    distinct_lines(0, (uint64_t)(scale * RANDOM_WORDS));
    distinct_lines(5, (uint64_t)(scale * RANDOM_WORDS));
    heads();

    if (!all_seen()) {
        printf("check_listing: an answer or a kind of line was never seen\n");
        return 1;
    }
    print_summary(scale);
    return 0;
}
