/* The check of trails moved between the two forms: our moves, through include/viper.h, and the
 * second program's do the same, and answer, count and every byte are compared, also with what
 * the rows were made from (document 02, W12). Beside what is lent lies memory that may not be
 * touched.
 *
 * check_moves [seed [scale]] */

#include "draw.h"
#include "lent.h"
#include "records.h"
#include "second_moves.h"

#include "../include/viper.h"

#include <inttypes.h>
#include <stdio.h>
#include <stdlib.h>
#include <string.h>

enum { DEFAULT_SEED = 90009, ANSWERS = 10, LONGEST_L = 28 };

/* How much is done at scale 1, for each of the two moves. */
enum { SOUND_ROWS = 60000, BROKEN_ROWS = 60000, DAMAGED_ROWS = 150000, RANDOM_BYTES = 400000 };

struct move {
    const char *name;
    enum form from;
    uint32_t (*ours)(const uint8_t *, size_t, uint8_t *, size_t, size_t *);
    uint32_t (*second)(const uint8_t *, size_t, uint8_t *, size_t, size_t *);
};

/* By the form that is moved. */
static const struct move moves[] = {
    {"to new", OLD_FORM, viper_trail_to_new, second_to_new},
    {"to old", NEW_FORM, viper_trail_to_old, second_to_old},
};

/* A trail, or what came out of a move. */
struct bytes {
    uint8_t byte[ROW_ROOM + 2 * ROW];
    size_t length;
};

static uint64_t seed = DEFAULT_SEED;
static const char *trial = "worked trail";
static uint64_t number;

/* What was compared. */
static uint64_t answered[2][ANSWERS];
static uint64_t longest_moved, with_fault[2][FAULTS], accepted_by_chance;

/* ---- A difference ends the program ---- */

/* What is being moved, for the report. */
static const struct move *moving;
static const struct bytes *moved_from;
static size_t out_length;

static void print_bytes(const char *name, const uint8_t *byte, size_t length)
{
    printf("  %s, %zu bytes:", name, length);
    for (size_t i = 0; i < length; i++)
        printf(" %02X", byte[i]);
    printf("\n");
}

static void print_trial(const char *why)
{
    printf("check_moves: WRONG: seed %" PRIu64 ", %s %" PRIu64 ": %s\n", seed, trial, number, why);
    printf("  move %s, output of %zu bytes\n", moving->name, out_length);
    print_bytes("trail", moved_from->byte, moved_from->length);
}

static void wrong(const char *why, const struct bytes *came, const struct bytes *wanted)
{
    print_trial(why);
    print_bytes("came", came->byte, came->length);
    print_bytes("wanted", wanted->byte, wanted->length);
    exit(1);
}

static void wrong_answer(const char *why, uint32_t came, uint32_t wanted)
{
    print_trial(why);
    printf("  came %" PRIu32 ", wanted %" PRIu32 "\n", came, wanted);
    exit(1);
}

static void wrong_write(const char *what, const char *by, uint32_t answer, size_t used)
{
    print_trial("something is written that has to stay");
    printf("  %s, by %s, answer %" PRIu32 ", count %zu\n", what, by, answer, used);
    exit(1);
}

static void report_touch(void)
{
    print_trial("memory that was not lent is touched");
}

/* ---- One move by both ---- */

#define UNWRITTEN ((size_t)0xA5A5A5A5A5A5A5A5u)

static uint8_t blank[WATCHED];
static struct lent in, out;

/* Moves by one of the two, and looks at all that the move may not write. */
static uint32_t move_by(uint32_t (*by)(const uint8_t *, size_t, uint8_t *, size_t, size_t *),
                        const char *name, struct bytes *to)
{
    size_t used = UNWRITTEN;
    lend_blank(&out, out_length, draw_one_in(2), blank);
    uint32_t answer = by(in.bytes, moved_from->length, out.bytes, out_length, &used);
    to->length = answer == 0 ? used : 0;
    if (memcmp(in.bytes, moved_from->byte, moved_from->length) != 0)
        wrong_write("the trail itself", name, answer, used);
    if (answer != 0 && used != UNWRITTEN)
        wrong_write("the count of a refused move", name, answer, used);
    if (to->length > out_length || !lent_blank_past(&out, to->length, blank))
        wrong_write("a byte that is none of the moved trail", name, answer, used);
    memcpy(to->byte, out.bytes, to->length);
    return answer;
}

/* Both moves of a trail into an output of that length. They answer the same, and so does this. */
static uint32_t move_both(const struct move *move, const struct bytes *from, size_t length,
                          struct bytes *to)
{
    static struct bytes by_second;
    moving = move;
    moved_from = from;
    out_length = length;
    lend(&in, from->byte, from->length, draw_one_in(2));
    uint32_t ours = move_by(move->ours, "ours", to);
    uint32_t second = move_by(move->second, "second", &by_second);
    if (ours != second)
        wrong_answer("ours (came) and second (wanted) answer differently", ours, second);
    if (to->length != by_second.length || memcmp(to->byte, by_second.byte, to->length) != 0)
        wrong("ours (came) and second (wanted) write differently", to, &by_second);
    if (ours < ANSWERS)
        answered[move->from][ours]++;
    return ours;
}

static void must_answer(const struct move *move, const struct bytes *from, size_t length,
                        uint32_t wanted)
{
    static struct bytes unread;
    uint32_t came = move_both(move, from, length, &unread);
    if (came != wanted)
        wrong_answer("both answer other than document 02", came, wanted);
}

/* ---- A trail, moved and moved back ---- */

static struct bytes with_kinds_0(const struct bytes *new)
{
    struct bytes zeroed = *new;
    struct second_record record;
    for (size_t at = 0; at < new->length; at += record.length) {
        second_read_first(NEW_FORM, new->byte + at, new->length - at, &record);
        zeroed.byte[at] = FROM_OLD_TRAIL;
    }
    return zeroed;
}

static void move_back(const struct move *move, const struct bytes *from, const struct bytes *to)
{
    static struct bytes back, wanted;
    const struct move *other = &moves[move->from == OLD_FORM ? NEW_FORM : OLD_FORM];
    wanted = move->from == NEW_FORM ? with_kinds_0(from) : *from;
    uint32_t answer = move_both(other, to, wanted.length, &back);
    if (answer != 0)
        wrong_answer("a moved trail cannot be moved back", answer, 0);
    if (back.length != wanted.length || memcmp(back.byte, wanted.byte, wanted.length) != 0)
        wrong("moved and moved back, and it is not the same", &back, &wanted);
}

/* Into a long output, an exact one, one short by one and an empty one; and back. Answers 0 or 8,
 * and what came out. */
static uint32_t move_every_way(const struct move *move, const struct bytes *from, struct bytes *to)
{
    size_t enough = from->length + from->length / 3 + 1;
    uint32_t answer = move_both(move, from, enough + draw_below(40), to);
    if (answer != 0) {
        must_answer(move, from, draw_one_in(2) ? 0 : draw_below((uint32_t)enough), 8);
        return answer;
    }
    must_answer(move, from, to->length, 0);
    if (to->length > 0) {
        must_answer(move, from, to->length - 1, 9);
        must_answer(move, from, 0, 9);
        must_answer(move, from, draw_below((uint32_t)to->length), 9);
    }
    move_back(move, from, to);
    return 0;
}

/* ---- The worked trail ---- */

static void worked_trail(void)
{
    static const struct bytes old = {
        {1, 0, 0, 3, 8, 1, 10, 0, 4, 0, 2, 2, 16, 3, 2}, 15};
    static const struct bytes new = {
        {1, 1, 0, 0, 4, 1, 8, 1, 10, 0, 5, 1, 0, 2, 3, 1, 16, 3, 3}, 19};
    static struct bytes to, kinds_0;
    if (move_every_way(&moves[NEW_FORM], &new, &to) != 0 || to.length != old.length ||
        memcmp(to.byte, old.byte, old.length) != 0)
        wrong("the worked trail", &to, &old);
    kinds_0 = with_kinds_0(&new);
    if (move_every_way(&moves[OLD_FORM], &old, &to) != 0 || to.length != kinds_0.length ||
        memcmp(to.byte, kinds_0.byte, kinds_0.length) != 0)
        wrong("the worked trail", &to, &kinds_0);
}

static void draw_blank(void)
{
    for (size_t i = 0; i < WATCHED; i++)
        blank[i] = draw();
}

/* ---- Rows of records ---- */

/* Every place below 2,097,152 may stand in a row: it is fitted in stores of all words. No word
 * of them is looked at. */
static const struct board all_words = {.main_length = 0x100000, .ports_length = 0x100000};

static void begin(const char *name, uint64_t phase, uint64_t i)
{
    trial = name;
    number = i;
    draw_from(seed, (phase << 40) + i);
}

static void take_row(struct bytes *bytes, const struct row *row)
{
    bytes->length = row->length;
    memcpy(bytes->byte, row->byte, row->length);
}

/* A row's records in the other form, from what they were made of. */
static void other_form(struct bytes *other, const struct row *row, enum form from)
{
    other->length = 0;
    for (size_t i = 0; i < row->count; i++) {
        const struct made *made = &row->record[i];
        size_t dropped = from == NEW_FORM, L = made->length - 1;
        if (from == OLD_FORM)
            other->byte[other->length++] = FROM_OLD_TRAIL;
        memcpy(other->byte + other->length, made->byte + dropped, L - dropped);
        other->length += L - dropped;
        other->byte[other->length++] = from == NEW_FORM ? L - 1 : L + 1;
        longest_moved += (from == NEW_FORM ? L : L + 1) == LONGEST_L;
    }
}

static void sound_rows(uint64_t many)
{
    static struct row row;
    static struct bytes from, to, wanted;
    for (uint64_t i = 0; i < 2 * many; i++) {
        const struct move *move = &moves[i % 2];
        begin("sound row", 1, i);
        draw_row(&row, &all_words, move->from, SOUND);
        take_row(&from, &row);
        other_form(&wanted, &row, move->from);
        uint32_t answer = move_every_way(move, &from, &to);
        if (answer != 0)
            wrong_answer("a sound trail is refused", answer, 0);
        if (to.length != wanted.length || memcmp(to.byte, wanted.byte, to.length) != 0)
            wrong("not the other form of the records", &to, &wanted);
    }
}

static void broken_rows(uint64_t many)
{
    static struct row row;
    static struct bytes from, to;
    for (uint64_t i = 0; i < 2 * many; i++) {
        const struct move *move = &moves[i % 2];
        enum fault fault = 1 + i / 2 % (FAULTS - 1);
        if (!may_have(move->from, fault))
            continue;
        begin("broken row", 2, i);
        draw_row(&row, &all_words, move->from, fault);
        take_row(&from, &row);
        uint32_t answer = move_every_way(move, &from, &to);
        with_fault[move->from][fault]++;
        if (answer != 8)
            wrong_answer(fault_name(fault), answer, 8);
    }
}

/* ---- Any bytes ---- */

/* One byte changed, one put in, one left out, or the trail cut at either end. */
static void damage(struct bytes *bytes)
{
    size_t at = bytes->length == 0 ? 0 : draw_below((uint32_t)bytes->length);
    size_t behind = bytes->length - at;
    uint8_t any = draw_one_in(2) ? draw() : draw_below(30);
    switch (bytes->length == 0 ? 1 : draw_below(6)) {
    case 0: bytes->byte[at] = any; break;
    case 1:
        memmove(bytes->byte + at + 1, bytes->byte + at, behind);
        bytes->byte[at] = any;
        bytes->length++;
        break;
    case 2:
        memmove(bytes->byte + at, bytes->byte + at + 1, behind - 1);
        bytes->length--;
        break;
    case 3: bytes->length = at; break;
    case 4:
        memmove(bytes->byte, bytes->byte + at, behind);
        bytes->length = behind;
        break;
    default: bytes->byte[at] ^= 1u << draw_below(8); break;
    }
}

static void damaged_rows(uint64_t many)
{
    static struct row row;
    static struct bytes from, to;
    for (uint64_t i = 0; i < 2 * many; i++) {
        const struct move *move = &moves[i % 2];
        begin("damaged row", 3, i);
        draw_row(&row, &all_words, move->from, SOUND);
        take_row(&from, &row);
        for (uint32_t times = draw_between(1, 2); times > 0; times--)
            damage(&from);
        accepted_by_chance += move_every_way(move, &from, &to) == 0;
    }
}

/* Any bytes, or small ones, of which a record is made more often. */
static void draw_bytes(struct bytes *bytes)
{
    uint32_t below = draw_one_in(2) ? 256 : draw_between(2, 9);
    bytes->length = draw_below(draw_one_in(4) ? 64 : 12);
    for (size_t i = 0; i < bytes->length; i++)
        bytes->byte[i] = draw_below(below);
}

static void random_bytes(uint64_t many)
{
    static struct bytes from, to;
    for (uint64_t i = 0; i < 2 * many; i++) {
        begin("random bytes", 4, i);
        draw_bytes(&from);
        accepted_by_chance += move_every_way(&moves[i % 2], &from, &to) == 0;
    }
}

/* The trail of so many telling bytes that has that number; false where there are no more. */
static bool short_trail(struct bytes *bytes, size_t length, uint64_t i)
{
    static const uint8_t telling[] = {0, 1, 2, 3, 4, 5, 8, 16, 63, 64, 127, 128, 255};
    bytes->length = length;
    for (size_t j = 0; j < length; j++, i /= sizeof telling)
        bytes->byte[j] = telling[i % sizeof telling];
    return i == 0;
}

/* All trails of so many telling bytes. */
static void short_trails(size_t length)
{
    static struct bytes from, to;
    for (uint64_t i = 0; short_trail(&from, length, i / 2); i++) {
        begin("short trail", 5, i);
        accepted_by_chance += move_every_way(&moves[i % 2], &from, &to) == 0;
    }
}

/* ---- The summary ---- */

static bool all_seen(void)
{
    bool all = longest_moved > 0 && accepted_by_chance > 0;
    for (enum form form = OLD_FORM; form <= NEW_FORM; form++) {
        all = all && answered[form][0] > 0 && answered[form][8] > 0 && answered[form][9] > 0;
        for (int fault = 1; fault < FAULTS; fault++)
            all = all && (!may_have(form, fault) || with_fault[form][fault] > 0);
    }
    return all;
}

static void print_counts(void)
{
    uint64_t all = 0;
    for (int i = 0; i < ANSWERS; i++)
        all += answered[OLD_FORM][i] + answered[NEW_FORM][i];
    printf("check_moves: %" PRIu64 " moves compared, all the same", all);
    for (enum form form = OLD_FORM; form <= NEW_FORM; form++)
        printf("; %s: accepted %" PRIu64 ", refused 8 %" PRIu64 ", 9 %" PRIu64, moves[form].name,
               answered[form][0], answered[form][8], answered[form][9]);
    printf("; %" PRIu64 " records of 28 or 29 bytes, %" PRIu64
           " damaged or random trails still sound\n",
           longest_moved, accepted_by_chance);
}

int main(int argc, char **argv)
{
    double scale = 1;
    if (argc > 1)
        seed = strtoull(argv[1], NULL, 10);
    if (argc > 2)
        scale = strtod(argv[2], NULL);
    printf("check_moves: seed %" PRIu64 ", scale %g\n", seed, scale);
    fflush(stdout);

    in = lent_room();
    out = lent_room();
    on_touch_outside(report_touch);
    begin("worked trail", 0, 0);
    draw_blank();
    worked_trail();
    sound_rows((uint64_t)(scale * SOUND_ROWS));
    broken_rows((uint64_t)(scale * BROKEN_ROWS));
    damaged_rows((uint64_t)(scale * DAMAGED_ROWS));
    random_bytes((uint64_t)(scale * RANDOM_BYTES));
    for (size_t length = 0; length <= (scale < 1 ? 4 : 5); length++)
        short_trails(length);

    if (!all_seen()) {
        printf("check_moves: WRONG: an answer, a fault or the longest record was never seen\n");
        return 1;
    }
    print_counts();
    return 0;
}
