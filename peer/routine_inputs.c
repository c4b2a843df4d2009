/* Standard inputs for the programs `bench` and `list`: routines, good and damaged, one file each
 * (document 01, "The counter program"). What must be printed for them, second_bench and second_list
 * say; `who` is asked about them by who_inputs.
 *
 * routine_inputs FOLDER [seed] writes FOLDER/NAME.in */

#include "draw.h"
#include "input.h"

#include <stdio.h>
#include <stdlib.h>
#include <string.h>

enum { LINES = 8192, PORTS = 256 };

static const char *folder;

/* The input under work. */
static struct input input;

static void clear(void)
{
    input.length = 0;
}

static void save(const char *name, unsigned number)
{
    save_input(&input, folder, name, number);
}

static void add_routine(size_t lines)
{
    for (size_t i = 0; i < lines; i++)
        add_word(&input, draw_instruction(lines, LINES, PORTS));
}

/* ---- Good inputs ---- */

static const struct {
    const char *name;
    uint32_t words[12];
    size_t count;
} worked[] = {
    {"document", {0x00300005, 0x1E00000A, 0x01200005, 0x00D00000}, 4},
    {"halts-at-once", {0x00100000}, 1},
    {"overflow", {0x10300003, 0x00500001, 0x00D00000, 0x7FFFFFFF}, 4},
    {"out-of-main", {0x06302000}, 1},
    {"last-of-main", {0x06301FFF}, 1},
    {"last-port", {0x102000FF, 0x1C0000FF, 0x1C000100}, 3},
    {"first-missing-port", {0x10200100}, 1},
    {"first-missing-word", {0x10302000}, 1},
    {"counts-down", {0x04300032, 0x84600001, 0x81500000, 0x08300001, 0x06300000}, 5},
    {"fills-main",
     {0x02300100, 0x42400001, 0x6E000000, 0x41002000, 0x08300001, 0x00D00000},
     6},
    {"calls", {0x06100003, 0x06100003, 0x06300000, 0x00400005, 0x86500000}, 5},
    {"names",
     {0x00300005, 0x1E00000A, 0x01200005, 0x7050000A, 0x01A00005, 0x40C00000, 0x06100100,
      0x10200005, 0x70400005, 0x00D00000},
     10},
};

static void save_worked(void)
{
    for (unsigned i = 0; i < sizeof worked / sizeof worked[0]; i++) {
        clear();
        add_words(&input, worked[i].words, worked[i].count);
        save(worked[i].name, 1);
    }
}

static void save_routines(unsigned many)
{
    for (unsigned i = 0; i < many; i++) {
        clear();
        add_routine(draw_between(1, draw_one_in(4) ? 600 : 40));
        save("routine", i);
    }
}

/* Routines that write into themselves and into four ports, over and over. */
static void save_busy(unsigned many)
{
    for (unsigned i = 0; i < many; i++) {
        clear();
        size_t lines = draw_between(4, 24);
        for (size_t at = 0; at < lines; at++)
            add_word(&input, draw_instruction(lines, lines, 4));
        save("busy", i);
    }
}

/* The longest records that fit `bench`: two words take turns in the last port. */
static void save_longest_records(void)
{
    clear();
    add_word(&input, 0x00000000);
    add_word(&input, 0x02000001);
    add_word(&input, 0x06300080);
    for (int at = 3; at < 0x80; at++)
        add_word(&input, 0);
    for (int i = 0; i < 300; i++)
        add_word(&input, i % 2 ? 0x1C0000FF : 0x5C0000FF);
    save("longest-records", 1);
}

/* Words of any kind, which halt soon. */
static void save_words(unsigned many)
{
    for (unsigned i = 0; i < many; i++) {
        clear();
        for (uint32_t lines = draw_between(1, 20); lines > 0; lines--)
            add_word(&input, draw_one_in(2) ? draw() : draw_word());
        save("words", i);
    }
}

/* As many lines as main has words, and fewer and more by one. */
static void save_lengths(void)
{
    clear();
    save("empty", 0);
    for (unsigned lines = LINES - 1; lines <= LINES + 1; lines++) {
        clear();
        add_routine(lines);
        save("lines", lines);
    }
    clear();
    for (unsigned i = 0; i < LINES; i++)
        add_word(&input, 0x00300000 + i);
    save("straight-on", LINES);
}

/* ---- Damaged inputs ---- */

/* What may stand after, or instead of, a good line. */
static const struct {
    const char *name;
    const char *line;
} lines[] = {
    {"short", "0030000\n"},
    {"one-digit", "0\n"},
    {"long", "003000050\n"},
    {"two-words", "00300005 00300005\n"},
    {"empty-line", "\n"},
    {"lower-case", "0030000a\n"},
    {"lower-case-first", "f0300005\n"},
    {"not-hex", "0030000G\n"},
    {"before-A", "0030000@\n"},
    {"before-0", "0030000/\n"},
    {"after-9", "0030000:\n"},
    {"sign", "+0300005\n"},
    {"minus", "-0300005\n"},
    {"prefix", "0x300005\n"},
    {"leading-blank", " 0300005\n"},
    {"blank-before", " 00300005\n"},
    {"blank-after", "00300005 \n"},
    {"tab", "\t0300005\n"},
    {"carriage-return", "00300005\r\n"},
    {"carriage-return-alone", "00300005\r"},
    {"carriage-return-eighth", "0030000\r\n"},
    {"no-line-feed", "00300005"},
    {"no-line-feed-short", "0030000"},
    {"no-line-feed-one", "0"},
    {"no-line-feed-long", "003000055"},
    {"comment", "; words\n"},
    {"byte-order-mark", "\xEF\xBB\xBF\x30\x30\x33\x30\x30\x30\x30\x35\n"},
    {"high-byte", "0030000\xB5\n"},
    {"form-feed", "00300005\f\n"},
};

/* Each as line 1, 3 and 8,193, alone and with a good line behind it. */
static void save_bad_lines(void)
{
    static const size_t before[] = {0, 2, LINES};
    for (unsigned i = 0; i < sizeof lines / sizeof lines[0]; i++) {
        for (unsigned j = 0; j < 6; j++) {
            clear();
            add_routine(before[j / 2]);
            add_text(&input, lines[i].line);
            if (j % 2)
                add_word(&input, 0x00300005);
            if (j < 4 || i % 8 == 0)
                save(lines[i].name, j);
        }
    }
}

/* A NUL, and every other byte in turn, at each of the nine places of line 2. */
static void save_bad_bytes(void)
{
    for (unsigned i = 0; i < LINE * 6; i++) {
        clear();
        add_word(&input, 0x00300005);
        add_word(&input, 0x1E00000A);
        add_word(&input, 0x01200005);
        input.text[LINE + i % LINE] = i < LINE ? '\0' : (char)draw();
        save("byte", i);
    }
}

static void save_very_long(void)
{
    for (unsigned i = 0; i < 4; i++) {
        clear();
        add_routine(i % 2 ? 2 : 0);
        memset(input.text + input.length, i < 2 ? '0' : 'a', 100000);
        input.length += 100000;
        if (i != 1)
            add_text(&input, "\n");
        add_word(&input, 0x00300005);
        save("very-long", i);
    }
}

/* The first bad line counts. */
static void save_two_bad(void)
{
    clear();
    add_routine(4);
    add_text(&input, "xyz\n");
    add_routine(LINES);
    add_text(&input, "0");
    save("two-bad", 1);
    clear();
    add_routine(LINES - 1);
    add_text(&input, "00300005");
    save("last-line-open", LINES);
}

/* One byte changed, put in or left out. */
static void damage(size_t at, unsigned how)
{
    char *byte = input.text + at;
    switch (how) {
    case 0: *byte = (char)draw(); break;
    case 1:
        memmove(byte + 1, byte, input.length++ - at);
        *byte = draw_one_in(2) ? '0' : '\n';
        break;
    default: memmove(byte, byte + 1, --input.length - at); break;
    }
}

static void save_damaged(unsigned many)
{
    for (unsigned i = 0; i < many; i++) {
        clear();
        add_routine(draw_between(1, 40));
        damage(draw_below((uint32_t)input.length), i % 3);
        save("damaged", i);
    }
}

int main(int argc, char **argv)
{
    if (argc < 2) {
        fprintf(stderr, "usage: routine_inputs FOLDER [seed]\n");
        return 2;
    }
    folder = argv[1];
    draw_from(argc > 2 ? strtoull(argv[2], NULL, 10) : 90009, 0);
    save_worked();
    save_longest_records();
    save_routines(90);
    save_words(20);
    save_lengths();
    save_bad_lines();
    save_bad_bytes();
    save_very_long();
    save_two_bad();
    save_damaged(45);
    save_busy(80);
    return 0;
}
