/* Standard inputs for the program `who`, one file each: a place's line and a routine (document 02,
 * W7). What must be printed for them, second_who says.
 *
 * who_inputs FOLDER SEED ROUTINE... writes FOLDER/NAME.in: some of its own, and questions about
 * each routine of a file, for words that it changes and for others. */

#include "draw.h"
#include "input.h"
#include "second_counter.h"
#include "second_record.h"

#include <inttypes.h>
#include <stdlib.h>
#include <string.h>

static const char *folder;

/* The input under work. */
static struct input input;

static void clear(void)
{
    input.length = 0;
}

static void save(const char *name, unsigned number)
{
    save_input(&input, folder, name, number);
}

/* ---- Questions about routines written for them ---- */

static const struct {
    const char *name;
    const char *line;
    uint32_t words[8];
    size_t count;
} asked[] = {
    {"document", "main 0000A\n", {0x00300005, 0x1E00000A, 0x01200005, 0x00D00000}, 4},
    {"other-store", "port 0000A\n", {0x00300005, 0x1E00000A, 0x01200005, 0x00D00000}, 4},
    {"over-itself", "main 00001\n", {0x10300002, 0x1E000001, 0x00D00000}, 3},
    {"over-the-one-that-hit",
     "main 0000A\n",
     {0x00300005, 0x1E00000A, 0x00300007, 0x1E000001, 0x00D00000},
     5},
    {"made-by-the-routine",
     "main 00010\n",
     {0x10300004, 0x1E000002, 0x00D00000, 0x00D00000, 0x1E000010},
     5},
    {"same-value", "main 0000A\n", {0x1E00000A, 0x1C00000A, 0x00D00000}, 3},
    {"same-value-later", "main 0000A\n", {0x00300005, 0x1E00000A, 0x1E00000A, 0x00D00000}, 4},
    {"to-and-back", "port 000FF\n", {0x00300005, 0x1C0000FF, 0x5C0000FF, 0x00D00000}, 4},
    {"hit-at-once", "main 00000\n", {0x1E000000, 0x00D00000}, 2},
    {"last-of-main", "main 01FFF\n", {0x00300005, 0x1E001FFF, 0x00D00000}, 3},
    {"write-refused", "main 02000\n", {0x00300005, 0x1E002000}, 2},
    {"port-refused", "port 00100\n", {0x00300005, 0x1C000100}, 2},
    {"low-bits-alike", "main 0000A\n", {0x00300005, 0x1C00000A, 0x1E00010A, 0x1E00100A}, 4},
    {"not-fitted", "main FFFFF\n", {0x00300005, 0x1E00000A, 0x00D00000}, 3},
    {"port-not-fitted", "port FFFFF\n", {0x00300005, 0x1C00000A, 0x00D00000}, 3},
    {"no-routine", "main 00000\n", {0}, 0},
};

static void save_asked(void)
{
    for (unsigned i = 0; i < sizeof asked / sizeof asked[0]; i++) {
        clear();
        add_text(&input, asked[i].line);
        add_words(&input, asked[i].words, asked[i].count);
        save(asked[i].name, 1);
    }
}

/* A write as the last step of the budget, as the one before it and as one too late. */
static void save_at_the_budget(void)
{
    for (unsigned before = COUNTER_BUDGET - 2; before <= COUNTER_BUDGET; before++) {
        clear();
        add_text(&input, "main 01000\n");
        for (unsigned i = 0; i < before; i++)
            add_word(&input, 0x00300005);
        add_word(&input, 0x1E001000);
        save("steps-before", before);
    }
}

/* ---- First lines that are no place ---- */

static const char *const ill_formed[] = {
    "", "\n", "\n\n", "main", "main\n", "main \n", "main 0000A", "main 0000\n", "main 0000AA\n",
    "main 00000A\n", "main  0000A\n", "main  000A\n", "main0000A\n", "main00000A\n",
    "main\t0000A\n", " main 0000A\n", "main 0000A \n", "main 0000A\r\n", "main 0000\r\n",
    "main 0000A\r", "main 0000a\n", "main 0000G\n", "main 0000@\n", "main 0000/\n",
    "main 0000:\n", "main 0x00A\n", "main +000A\n", "main #000A\n", "Main 0000A\n",
    "MAIN 0000A\n", "main.0000A\n", "maim 0000A\n", "mainx0000A\n", "port", "port 0000\n",
    "port 000000\n", "Port 00000\n", "PORT 00000\n", "ports 00000\n", "ports 0000\n",
    "por 00000\n", "port  00000\n", "port  0000\n", "port 0000a\n", "poet 00000\n",
    "pain 00000\n", "mort 00000\n", "0000A\n", "0000A main\n", "00300005\n", "text 00000\n",
    "main 0000A\f\n", "main\r0000A\n", "\rmain 0000\n", "main\n0000A\n", "main 0\n000\n",
    "\xEF\xBB\xBFmain 0000A\n", "main 0000\xB5\n", "main 0000A\xB5\n",
};

/* Each alone, with a good routine behind it and with a bad one. */
static void save_ill_formed(void)
{
    static const char *const behind[] = {"", "00300005\n1E00000A\n00D00000\n", "0030000\n"};
    for (unsigned i = 0; i < sizeof ill_formed / sizeof ill_formed[0]; i++) {
        for (unsigned j = 0; j < 3; j++) {
            clear();
            add_text(&input, ill_formed[i]);
            add_text(&input, behind[j]);
            save("ill-formed", 3 * i + j);
        }
    }
}

/* A NUL, and other bytes, at each place of a good line; some leave it good. */
static void save_bad_bytes(void)
{
    static const char line[] = "port 0000A\n";
    for (unsigned i = 0; i < 8 * strlen(line); i++) {
        clear();
        add_text(&input, line);
        add_text(&input, "00300005\n1C00000A\n00D00000\n");
        input.text[i % strlen(line)] = i < strlen(line) ? '\0' : (char)draw();
        save("byte", i);
    }
}

static void save_very_long(void)
{
    for (unsigned i = 0; i < 2; i++) {
        clear();
        add_text(&input, "main 0000A");
        memset(input.text + input.length, i ? ' ' : '0', 100000);
        input.length += 100000;
        add_text(&input, "\n00300005\n1E00000A\n");
        save("very-long", i);
    }
}

/* ---- Questions about a routine of a file ---- */

enum { HITS_ASKED = 3 };

/* The places of the words that a run of the routine changed, one for each record that holds one;
 * how many. None where the routine has a bad line. */
static size_t places_hit(FILE *routine, uint32_t places[COUNTER_BUDGET])
{
    struct second bench = counter_bench();
    struct second_record record;
    size_t count = 0;
    if (counter_load(&bench, routine).bad == 0)
        second_run(&bench, COUNTER_BUDGET);
    while (second_read_newest(NEW_FORM, bench.trail, bench.used, &record)) {
        bench.used -= record.length;
        if (record.marks & MARK_WORD)
            places[count++] = record.place;
    }
    return count;
}

static void add_place(uint32_t place)
{
    char line[32];
    bool port = place >= PORTS_FROM;
    snprintf(line, sizeof line, "%s %05" PRIX32 "\n", port ? "port" : "main", place % PORTS_FROM);
    add_text(&input, line);
}

static uint32_t draw_place(void)
{
    bool port = draw_one_in(2);
    uint32_t address = draw_address(port ? COUNTER_PORTS : COUNTER_MAIN) % PORTS_FROM;
    return port ? PORTS_FROM + address : address;
}

static void add_file(FILE *file)
{
    rewind(file);
    input.length += fread(input.text + input.length, 1, INPUT_ROOM - input.length, file);
}

static void save_question(uint32_t place, FILE *routine, const char *name, unsigned number)
{
    clear();
    add_place(place);
    add_file(routine);
    save(name, number);
}

/* Asks for some words that it changes, for one of them in the other store, and for any one. */
static void save_questions(FILE *routine, const char *name)
{
    uint32_t places[COUNTER_BUDGET];
    size_t count = places_hit(routine, places);
    save_question(draw_place(), routine, name, 0);
    if (count == 0)
        return;
    save_question(places[0] ^ PORTS_FROM, routine, name, 1);
    save_question(places[0], routine, name, 2);
    for (unsigned i = 1; i < HITS_ASKED; i++)
        save_question(places[draw_below((uint32_t)count)], routine, name, 2 + i);
}

static void ask_about(const char *path)
{
    char name[256];
    const char *slash = strrchr(path, '/');
    FILE *routine = fopen(path, "rb");
    if (routine == NULL) {
        fprintf(stderr, "cannot read %s\n", path);
        exit(2);
    }
    snprintf(name, sizeof name, "of-%s", slash ? slash + 1 : path);
    name[strcspn(name, ".")] = '\0';
    save_questions(routine, name);
    fclose(routine);
}

int main(int argc, char **argv)
{
    if (argc < 3) {
        fprintf(stderr, "usage: who_inputs FOLDER SEED ROUTINE...\n");
        return 2;
    }
    folder = argv[1];
    draw_from(strtoull(argv[2], NULL, 10), 0);
    save_asked();
    save_at_the_budget();
    save_ill_formed();
    save_bad_bytes();
    save_very_long();
    for (int i = 3; i < argc; i++)
        ask_about(argv[i]);
    return 0;
}
