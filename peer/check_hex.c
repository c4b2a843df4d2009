/* The cross-check of Intel HEX (document 02, W4): our import and export, through include/viper.h,
 * and the second program's do the same calls, and the answer, every word of main, every byte of the
 * output and the count in use are compared after each.
 *
 * check_hex [seed [scale]] */

#include "draw.h"
#include "hex_texts.h"
#include "second_hex.h"

#include "../include/viper.h"

#include <inttypes.h>
#include <stdbool.h>
#include <stdio.h>
#include <stdlib.h>
#include <string.h>

enum { DEFAULT_SEED = 90009, LARGEST_MAIN = 1048576, USUAL_MAIN = 40000 };

/* How much is done at scale 1. */
enum {
    ROUND_TRIPS = 2000,
    GOOD_TEXTS = 60000,
    DAMAGES_EACH = 1500,
    CHANGED_TEXTS = 200000,
    SIGN_TEXTS = 300000,
    LARGE_TEXTS = 300
};

/* Room for the longest export and more. */
enum { TEXT_ROOM = 12000000 };

/* Words, and bytes, on both sides of what is lent, that no call may touch. */
enum { FENCE = 16 };

static uint64_t seed = DEFAULT_SEED;
static const char *trial;
static uint64_t trial_number;

/* What was compared. */
static uint64_t exports, exports_accepted, exports_too_short, exports_too_large;
static uint64_t imports, imports_accepted, imports_too_large;
static uint64_t bad_lines[HEX_FAULTS];

/* Main as it was, as ours has it, and as the second program has it. */
static uint32_t *before, *ours, *second;

static uint8_t *text, *our_output, *second_output;

static void begin(const char *name, uint64_t phase, uint64_t number)
{
    trial = name;
    trial_number = number;
    draw_from(seed, (phase << 40) + number);
}

/* ---- A difference ends the program ---- */

static void print_text(size_t length)
{
    printf("text, %zu bytes:\n", length);
    for (size_t i = 0; i < length && i < 4000; i++)
        if (text[i] == '\n')
            printf("\\n\n");
        else if (text[i] >= ' ' && text[i] <= '~' && text[i] != '\\')
            putchar(text[i]);
        else
            printf("\\x%02X", text[i]);
    printf("\n");
}

static void print_start(const char *why, size_t main_length)
{
    printf("check_hex: WRONG: seed %" PRIu64 ", %s %" PRIu64 ": %s\n", seed, trial,
           trial_number, why);
    printf("main: %zu words\n", main_length);
}

static void print_answers(uint64_t of_ours, uint64_t of_second)
{
    printf("ours:   %" PRIu32 " and %" PRIu32 "\n", (uint32_t)of_ours, (uint32_t)(of_ours >> 32));
    printf("second: %" PRIu32 " and %" PRIu32 "\n", (uint32_t)of_second,
           (uint32_t)(of_second >> 32));
}

static void print_first_word(const uint32_t *one, const uint32_t *other, size_t main_length)
{
    for (size_t i = 0; i < main_length + 2 * FENCE; i++)
        if (one[i] != other[i]) {
            printf("word %td: %08" PRIX32 ", %08" PRIX32 "\n", (ptrdiff_t)i - FENCE, one[i],
                   other[i]);
            return;
        }
}

static void fail_import(const char *why, size_t main_length, size_t length, uint64_t of_ours,
                        uint64_t of_second)
{
    print_start(why, main_length);
    print_answers(of_ours, of_second);
    print_first_word(ours, second, main_length);
    print_text(length);
    exit(1);
}

/* ---- One import of both ---- */

static bool same_words(const uint32_t *one, const uint32_t *other, size_t main_length)
{
    return memcmp(one, other, (main_length + 2 * FENCE) * sizeof *one) == 0;
}

static void count_import(uint64_t answer, enum hex_fault fault)
{
    imports++;
    if (answer == 0)
        imports_accepted++;
    else if (answer == 2)
        imports_too_large++;
    else
        bad_lines[fault]++;
}

/* Main is before; the text stands there. Answers the first bad line. */
static struct hex_bad_line import_both(size_t main_length, size_t length)
{
    struct hex_bad_line bad;
    size_t given = draw_word(), our_used = given, second_used = given;
    memcpy(ours, before, (main_length + 2 * FENCE) * sizeof *ours);
    memcpy(second, before, (main_length + 2 * FENCE) * sizeof *second);
    uint64_t of_ours = viper_hex_import(ours + FENCE, main_length, &our_used, text, length);
    uint64_t of_second =
        second_hex_import(second + FENCE, main_length, &second_used, text, length, &bad);
    if (of_ours != of_second)
        fail_import("the answers differ", main_length, length, of_ours, of_second);
    if (our_used != second_used || our_used != (of_ours == 0 ? 0 : given))
        fail_import("the count in use differs", main_length, length, of_ours, of_second);
    if (!same_words(ours, second, main_length))
        fail_import("words differ", main_length, length, of_ours, of_second);
    if (of_ours != 0 && !same_words(ours, before, main_length))
        fail_import("a refused import wrote", main_length, length, of_ours, of_second);
    count_import(of_ours, bad.fault);
    return bad;
}

/* The lines' first bad line and its fault are known. */
static void import_lines(const struct hex_lines *lines, enum hex_fault fault)
{
    size_t length = join_lines(lines, text);
    struct hex_bad_line bad = import_both(lines->main_length, length);
    if (lines->main_length > LARGEST_MAIN)
        return;
    if (bad.fault != fault || bad.line != lines->bad) {
        printf("wanted: line %" PRIu64 ", %s; both say line %" PRIu64 ", %s\n", lines->bad,
               hex_fault_name(fault), bad.line, hex_fault_name(bad.fault));
        fail_import("both answer other than document 02", lines->main_length, length, bad.line,
                    bad.line);
    }
}

/* ---- One export of both ---- */

static void fail_export(const char *why, size_t main_length, size_t out_length, uint64_t of_ours,
                        uint64_t of_second)
{
    print_start(why, main_length);
    printf("output: %zu bytes\n", out_length);
    print_answers(of_ours, of_second);
    for (size_t i = 0; i < out_length + 2 * FENCE; i++)
        if (our_output[i] != second_output[i]) {
            printf("byte %td: %02X, %02X\n", (ptrdiff_t)i - FENCE, our_output[i],
                   second_output[i]);
            break;
        }
    exit(1);
}

static void export_both(size_t main_length, size_t out_length, uint64_t wanted)
{
    size_t all = out_length + 2 * FENCE;
    memset(our_output, 0xA5, all);
    memset(second_output, 0xA5, all);
    memcpy(ours, before, (main_length + 2 * FENCE) * sizeof *ours);
    uint64_t of_ours = viper_hex_export(ours + FENCE, main_length, our_output + FENCE, out_length);
    uint64_t of_second =
        second_hex_export(before + FENCE, main_length, second_output + FENCE, out_length);
    if (of_ours != of_second)
        fail_export("the answers differ", main_length, out_length, of_ours, of_second);
    if (memcmp(our_output, second_output, all) != 0)
        fail_export("bytes differ", main_length, out_length, of_ours, of_second);
    if (of_ours != wanted)
        fail_export("both answer other than document 02", main_length, out_length, of_ours, wanted);
    if (!same_words(ours, before, main_length))
        fail_export("a word of main changed", main_length, out_length, of_ours, of_second);
    exports++;
    exports_accepted += (uint32_t)of_ours == 0;
    exports_too_short += of_ours == 9;
    exports_too_large += of_ours == 2;
}

/* ---- Exports ---- */

static void draw_words(size_t main_length)
{
    for (size_t i = 0; i < main_length + 2 * FENCE; i++)
        before[i] = draw_one_in(8) ? draw_word() : draw();
}

/* The length of an export: the type 04 records and the end, a record's other signs, the digits. */
static size_t export_length(size_t words)
{
    size_t segments = words == 0 ? 1 : (words + 16383) / 16384;
    return 12 + 16 * segments + 12 * ((words + 3) / 4) + 8 * words;
}

static void export_words(size_t words)
{
    size_t length = export_length(words);
    draw_words(words);
    export_both(words, 0, 9);
    export_both(words, draw_below((uint32_t)length), 9);
    export_both(words, length - 1, 9);
    export_both(words, length, (uint64_t)length << 32);
    export_both(words, length + 1, (uint64_t)length << 32);
    export_both(words, length + draw_between(2, 1000), (uint64_t)length << 32);
}

static void all_exports(void)
{
    static const size_t sizes[] = {4096, 16383, 16384, 16385, 32768, 40000, 1048575, 1048576};
    for (size_t words = 0; words <= 80; words++) {
        begin("export", 1, words);
        export_words(words);
    }
    for (size_t i = 0; i < sizeof sizes / sizeof sizes[0]; i++) {
        begin("export", 1, sizes[i]);
        export_words(sizes[i]);
    }
    begin("export", 1, LARGEST_MAIN + 1);
    draw_words(LARGEST_MAIN + 1);
    export_both(LARGEST_MAIN + 1, 0, 2);
    export_both(LARGEST_MAIN + 1, 28, 2);
    export_both(LARGEST_MAIN + 1, TEXT_ROOM, 2);
}

/* ---- An export imported again ---- */

/* The output becomes the text, with a carriage return before all, some or no line feeds. */
static size_t copy_with_returns(const uint8_t *output, size_t length, uint32_t one_in)
{
    size_t copied = 0;
    for (size_t i = 0; i < length; i++) {
        if (output[i] == '\n' && one_in > 0 && draw_one_in(one_in))
            text[copied++] = '\r';
        text[copied++] = output[i];
    }
    return copied;
}

/* The words that were exported come back into as long a main, whatever it holds. */
static void round_trip(size_t words)
{
    uint32_t *exported = malloc((words + 1) * sizeof *exported);
    if (exported == NULL)
        exit(2);
    draw_words(words);
    memcpy(exported, before + FENCE, words * sizeof *exported);
    export_both(words, export_length(words), (uint64_t)export_length(words) << 32);
    draw_words(words);
    size_t length = copy_with_returns(our_output + FENCE, export_length(words), draw_below(4));
    struct hex_bad_line bad = import_both(words, length);
    if (bad.fault != HEX_GOOD || memcmp(ours + FENCE, exported, words * sizeof *exported) != 0)
        fail_import("an export does not come back", words, length, bad.line, bad.line);
    free(exported);
}

static void round_trips(uint64_t many)
{
    static const uint32_t edges[] = {16383, 16384, 16385, 32768, 32769, USUAL_MAIN};
    for (uint64_t i = 0; i < many; i++) {
        begin("round trip", 2, i);
        round_trip(i < 6 ? edges[i] : draw_below(i % 8 == 0 ? 20000 : 200));
    }
}

/* ---- Good texts, and texts with one rule broken ---- */

static size_t draw_main_length(void)
{
    switch (draw_below(8)) {
    case 0: return draw_one_in(2) ? 0 : draw_below(6);
    case 1: return draw_below(200);
    case 2: return draw_between(16382, 16386);
    case 3: return draw_between(32766, 32770);
    case 4: return draw_between(64, USUAL_MAIN);
    default: return draw_between(64, 2000);
    }
}

static void good_texts(uint64_t many)
{
    static struct hex_lines lines;
    for (uint64_t i = 0; i < many; i++) {
        begin("good text", 3, i);
        draw_good_lines(&lines, draw_main_length());
        import_lines(&lines, HEX_GOOD);
    }
}

static void damaged_texts(uint64_t each)
{
    static struct hex_lines lines;
    for (uint64_t i = 0; i < each * hex_damages_count; i++) {
        const struct hex_damage *damage = &hex_damages[i % hex_damages_count];
        begin(damage->name, 4, i);
        draw_good_lines(&lines, draw_main_length());
        damage->make(&lines);
        import_lines(&lines, damage->fault);
    }
}

/* Stores of 1,048,576 words, and of one more: 2 comes before 12. */
static void large_texts(uint64_t many)
{
    static struct hex_lines lines;
    for (uint64_t i = 0; i < many; i++) {
        const struct hex_damage *damage = &hex_damages[i % hex_damages_count];
        size_t main_length = LARGEST_MAIN + (i % 8 == 0);
        begin("large store", 5, i);
        draw_good_lines(&lines, main_length);
        if (i % 3 == 0)
            damage->make(&lines);
        import_lines(&lines, i % 3 == 0 ? damage->fault : HEX_GOOD);
    }
}

/* ---- Texts with bytes changed ---- */

static const char short_text[] = ":020000040000FA\n:040008009ABCDEF0D0\r\n:00000001FF\n";

enum { SHORT_TEXT = sizeof short_text - 1, SHORT_MAIN = 4 };

static void put_short_text(void)
{
    memcpy(text, short_text, SHORT_TEXT);
}

/* Every byte in turn becomes every other, and every byte comes in at every place. */
static void every_byte(void)
{
    for (uint64_t i = 0; i <= SHORT_TEXT * 256; i++) {
        size_t at = i / 256;
        begin("byte changed", 6, i);
        put_short_text();
        text[at] = (uint8_t)i;
        import_both(SHORT_MAIN, SHORT_TEXT);
        put_short_text();
        memmove(text + at + 1, short_text + at, SHORT_TEXT - at);
        text[at] = (uint8_t)i;
        import_both(SHORT_MAIN, SHORT_TEXT + 1);
    }
}

/* The text ends at every place, begins at every place, and lacks every byte in turn. */
static void every_cut(void)
{
    for (size_t at = 0; at < SHORT_TEXT; at++) {
        begin("byte cut", 7, at);
        put_short_text();
        import_both(SHORT_MAIN, at);
        memmove(text, short_text + at, SHORT_TEXT - at);
        import_both(SHORT_MAIN, SHORT_TEXT - at);
        put_short_text();
        memmove(text + at, short_text + at + 1, SHORT_TEXT - at - 1);
        import_both(SHORT_MAIN, SHORT_TEXT - 1);
    }
}

static uint8_t draw_sign(void)
{
    static const char signs[] = "0123456789ABCDEF0000000001240:::\r\n\n\n af ";
    return draw_one_in(10) ? (uint8_t)draw() : (uint8_t)signs[draw_below(sizeof signs - 1)];
}

/* One change of the text: a bit, a sign, one more, one less, two changed places, an end. */
static size_t change(size_t length)
{
    uint32_t at = draw_below((uint32_t)length), other = draw_below((uint32_t)length);
    uint8_t sign = draw_sign(), moved = text[at];
    switch (draw_below(6)) {
    case 0: text[at] ^= (uint8_t)(1u << sign % 8); return length;
    case 1: text[at] = sign; return length;
    case 2:
        memmove(text + at + 1, text + at, length - at);
        text[at] = sign;
        return length + 1;
    case 3:
        memmove(text + at, text + at + 1, length - at - 1);
        return length - 1;
    case 4:
        text[at] = text[other];
        text[other] = moved;
        return length;
    default: return draw_one_in(3) ? at : length;
    }
}

static void changed_texts(uint64_t many)
{
    static struct hex_lines lines;
    for (uint64_t i = 0; i < many; i++) {
        begin("changed text", 8, i);
        draw_good_lines(&lines, draw_one_in(8) ? draw_main_length() : draw_below(300));
        size_t length = join_lines(&lines, text);
        for (uint32_t changes = draw_between(1, 3); changes > 0 && length > 0; changes--)
            length = change(length);
        import_both(lines.main_length, length);
    }
}

/* ---- Texts of drawn signs ---- */

static void sign_texts(uint64_t many)
{
    for (uint64_t i = 0; i < many; i++) {
        begin("signs", 9, i);
        size_t length = draw_below(i % 16 == 0 ? 2000 : 40);
        bool any = draw_one_in(4);
        for (size_t at = 0; at < length; at++)
            text[at] = any ? (uint8_t)draw() : draw_sign();
        if (length > 0 && draw_one_in(2))
            text[0] = ':';
        import_both(draw_below(20), length);
    }
}

/* ---- The summary ---- */

static bool print_counts(void)
{
    bool all = exports_accepted > 0 && exports_too_short > 0 && exports_too_large > 0 &&
               imports_accepted > 0 && imports_too_large > 0;
    printf("first bad lines:");
    for (int fault = HEX_GOOD + 1; fault < HEX_FAULTS; fault++) {
        printf("%s %s %" PRIu64, fault > HEX_GOOD + 1 ? "," : "", hex_fault_name(fault),
               bad_lines[fault]);
        all = all && bad_lines[fault] > 0;
    }
    printf("\n");
    return all;
}

static void *room(size_t bytes)
{
    void *at = malloc(bytes);
    if (at == NULL) {
        printf("check_hex: memory is short\n");
        exit(2);
    }
    return at;
}

static void make_room(void)
{
    size_t words = LARGEST_MAIN + 1 + 2 * FENCE;
    before = room(words * sizeof *before);
    ours = room(words * sizeof *ours);
    second = room(words * sizeof *second);
    text = room(TEXT_ROOM);
    our_output = room(TEXT_ROOM + 2 * FENCE);
    second_output = room(TEXT_ROOM + 2 * FENCE);
}

static uint64_t scaled(double scale, uint64_t many)
{
    uint64_t number = (uint64_t)(scale * (double)many);
    return number < 8 ? 8 : number;
}

int main(int argc, char **argv)
{
    double scale = 1;
    if (argc > 1)
        seed = strtoull(argv[1], NULL, 10);
    if (argc > 2)
        scale = strtod(argv[2], NULL);
    make_room();

    all_exports();
    round_trips(scaled(scale, ROUND_TRIPS));
    begin("words", 0, 0);
    draw_words(LARGEST_MAIN + 1);
    good_texts(scaled(scale, GOOD_TEXTS));
    damaged_texts(scaled(scale, DAMAGES_EACH));
    every_byte();
    every_cut();
    changed_texts(scaled(scale, CHANGED_TEXTS));
    sign_texts(scaled(scale, SIGN_TEXTS));
    large_texts(scaled(scale, LARGE_TEXTS));

    if (!print_counts()) {
        printf("check_hex: a refusal or a fault was never seen\n");
        return 1;
    }
    printf("check_hex: seed %" PRIu64 ", scale %g: %" PRIu64 " exports (%" PRIu64
           " accepted, 2: %" PRIu64 ", 9: %" PRIu64 ") and %" PRIu64 " imports (%" PRIu64
           " accepted, 2: %" PRIu64 ", 12: %" PRIu64 "), all the same\n",
           seed, scale, exports, exports_accepted, exports_too_large, exports_too_short, imports,
           imports_accepted, imports_too_large, imports - imports_accepted - imports_too_large);
    return 0;
}
