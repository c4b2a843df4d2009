/* The check of the search for a word: viper_find and the second program's search are asked the
 * same, and answer, count back and record are compared, also with what a trail was made from or
 * with what each operation of a session was seen to change (document 02, W7). Beside the lent
 * trail lies memory that may not be touched.
 *
 * check_find [seed [scale]] */

#include "board.h"
#include "calls.h"
#include "draw.h"
#include "lent.h"
#include "records.h"
#include "second_find.h"
#include "starts.h"

#include "../include/viper.h"

#include <inttypes.h>
#include <stdio.h>
#include <stdlib.h>
#include <string.h>

enum { DEFAULT_SEED = 90009 };

/* How much is done at scale 1. */
enum { ROWS = 40000, DAMAGED_ROWS = 40000, RANDOM_TRAILS = 40000, SESSIONS = 6000 };

static uint64_t seed = DEFAULT_SEED;
static const char *trial = "worked trail";
static uint64_t number;

/* ---- Questions and answers ---- */

struct question {
    uint32_t store, address;
};

/* As viper_find gives it. */
struct answer {
    uint32_t refusal;
    size_t back;
    uint32_t record[NUMBERS];
};

/* What was compared. */
static uint64_t asked, never, newest, earlier, refused_3, refused_8, of_main, of_port, by_kind[5];
static uint64_t broken_behind_match, broken_later, taken_back;

static void count(const struct answer *answer)
{
    asked++;
    refused_3 += answer->refusal == 3;
    refused_8 += answer->refusal == 8;
    never += answer->refusal == 0 && answer->back == 0;
    if (answer->back == 0)
        return;
    newest += answer->back == 1;
    earlier += answer->back > 1;
    of_main += answer->record[PLACE] < PORTS_FROM;
    of_port += answer->record[PLACE] >= PORTS_FROM;
    by_kind[answer->record[KIND] % 5]++;
}

/* Whether a record with these marks and that place holds the word asked for. */
static bool holds(uint64_t marks, uint64_t place, struct question of_this)
{
    uint64_t from = of_this.store != 0 ? PORTS_FROM : 0;
    return marks & MARK_WORD && of_this.address < PORTS_FROM && place == from + of_this.address;
}

static bool same(const struct answer *one, const struct answer *other)
{
    return one->refusal == other->refusal && one->back == other->back &&
           memcmp(one->record, other->record, sizeof one->record) == 0;
}

/* ---- A difference ends the program ---- */

/* What is being asked, for the report. */
static const struct board *lent_board;
static struct question question;

static void print_trial(const char *why)
{
    const struct board *b = lent_board;
    size_t in_use = b->used < b->trail_length ? b->used : b->trail_length;
    printf("check_find: WRONG: seed %" PRIu64 ", %s %" PRIu64 ": %s\n", seed, trial, number, why);
    printf("  store %" PRIX32 ", address %" PRIX32 "; main %zu words, ports %zu words\n",
           question.store, question.address, b->main_length, b->ports_length);
    printf("  trail of %zu bytes, %zu in use:", b->trail_length, b->used);
    for (size_t i = 0; i < in_use; i++)
        printf(" %02X", b->trail[i]);
    printf("\n");
}

static void print_answer(const char *name, const struct answer *answer)
{
    printf("  %s: answer %" PRIu32 ", %zu back, record", name, answer->refusal, answer->back);
    for (int i = 0; i < NUMBERS; i++)
        printf(" %" PRIX32, answer->record[i]);
    printf("\n");
}

static void wrong(const char *why, const struct answer *came, const struct answer *wanted)
{
    print_trial(why);
    print_answer("came", came);
    print_answer("wanted", wanted);
    exit(1);
}

static void report_touch(void)
{
    print_trial("memory that was not lent is touched");
}

/* ---- One question to both ---- */

static struct lent trail;

/* Lends the board's trail for the questions that follow. The count in use may exceed it. */
static void lend_trail(const struct board *board)
{
    lent_board = board;
    lend(&trail, board->trail, board->trail_length, draw_one_in(2));
}

static struct answer ask_ours(void)
{
    enum { GUARD = 0x5AFE5AFE };
    const struct board *b = lent_board;
    struct answer answer = {.back = SIZE_MAX / 3};
    uint32_t record[NUMBERS + 2];
    for (int i = 0; i < NUMBERS + 2; i++)
        record[i] = GUARD;
    answer.refusal =
        viper_find(b->main, b->main_length, b->ports, b->ports_length, trail.bytes,
                   b->trail_length, b->used, question.store, question.address, &answer.back,
                   record + 1);
    memcpy(answer.record, record + 1, sizeof answer.record);
    if (record[0] != GUARD || record[NUMBERS + 1] != GUARD)
        wrong("a word beside the record is written", &answer, &answer);
    return answer;
}

static struct answer ask_second(void)
{
    const struct board *b = lent_board;
    const struct second bench = {.main = b->main, .main_length = b->main_length,
                                 .ports = b->ports, .ports_length = b->ports_length,
                                 .trail = trail.bytes, .trail_length = b->trail_length,
                                 .used = b->used};
    struct found found = second_find(&bench, question.store != 0, question.address);
    const struct second_record *r = &found.record;
    return (struct answer){found.refusal, found.back,
                           {r->kind, r->marks, r->P, r->A, r->X, r->Y, r->place, r->value}};
}

static struct answer ask_both(struct question of_this)
{
    question = of_this;
    struct answer ours = ask_ours();
    struct answer second = ask_second();
    if (!same(&ours, &second))
        wrong("ours (came) and second (wanted) answer differently", &ours, &second);
    if (memcmp(trail.bytes, lent_board->trail, lent_board->trail_length) != 0)
        wrong("a trail byte is written", &ours, &second);
    count(&ours);
    return ours;
}

static void must_answer(struct question of_this, const struct answer *wanted)
{
    struct answer came = ask_both(of_this);
    if (!same(&came, wanted))
        wrong("both answer other than document 02", &came, wanted);
}

/* ---- Which places are asked for ---- */

enum { MOST_QUESTIONS = 12 * ROW };

struct questions {
    struct question list[MOST_QUESTIONS];
    size_t count;
};

static uint32_t draw_port_store(void)
{
    return draw_one_in(4) ? 1u << draw_below(32) : 1;
}

static void add(struct questions *questions, bool port, uint32_t address)
{
    if (questions->count < MOST_QUESTIONS)
        questions->list[questions->count++] =
            (struct question){port ? draw_port_store() : 0, address};
}

/* A place, its neighbours, the same number in the other store, and what trimming an address or
 * adding 2^20 to it would take for that place. */
static void add_around(struct questions *questions, uint32_t place)
{
    bool port = place >= PORTS_FROM;
    uint32_t address = port ? place - PORTS_FROM : place;
    add(questions, port, address);
    add(questions, port, address + 1);
    add(questions, port, address - 1);
    add(questions, !port, address);
    add(questions, !port, port ? place : address - PORTS_FROM);
    add(questions, port, address + PORTS_FROM * draw_between(1, 4095));
}

/* Places that may never have been hit, and some that are not fitted. */
static void add_anywhere(struct questions *questions, const struct board *board)
{
    add(questions, false, draw_fitted(board->main_length));
    add(questions, true, draw_fitted(board->ports_length));
    add(questions, false, draw_address(board->main_length));
    add(questions, true, draw_address(board->ports_length));
    add(questions, false, (uint32_t)board->main_length);
    add(questions, true, (uint32_t)board->ports_length);
    add(questions, draw_one_in(2), PORTS_FROM + draw_below(3));
    add(questions, draw_one_in(2), 0);
}

static void questions_of_row(struct questions *questions, const struct row *row,
                             const struct board *board)
{
    questions->count = 0;
    add_anywhere(questions, board);
    for (size_t i = 0; i < row->count; i++)
        if (row->record[i].number[MARKS] & MARK_WORD)
            add_around(questions, (uint32_t)row->record[i].number[PLACE]);
}

/* ---- The worked trail ---- */

static void put_trail(struct board *board, const uint8_t *bytes, size_t length)
{
    size_t more = draw_one_in(2) ? 0 : draw_below(40);
    memcpy(board->trail, bytes, length);
    for (size_t i = length; i < length + more; i++)
        board->trail[i] = draw();
    board->used = length;
    board->trail_length = length + more;
}

static void worked_trail(struct board *board)
{
    static const uint8_t bytes[] = {1, 1, 0, 0, 4, 1, 8, 1, 10, 0, 5, 1, 0, 2, 3, 1, 16, 3, 3};
    const struct answer hit = {0, 3, {BY_STEP, MARK_WORD, 1, 0, 0, 0, 10, 0}};
    const struct answer no_hit = {.back = 0};
    board->main_length = 8192;
    board->ports_length = 256;
    put_trail(board, bytes, sizeof bytes);
    lend_trail(board);
    must_answer((struct question){0, 10}, &hit);
    must_answer((struct question){1, 10}, &no_hit);
    must_answer((struct question){0, 9}, &no_hit);
}

/* ---- Trails made by hand ---- */

static void begin(const char *name, uint64_t phase, uint64_t i)
{
    trial = name;
    number = i;
    draw_from(seed, (phase << 40) + i);
}

/* A search is not refused with 2: a store may have words that no place names. */
static size_t draw_length(void)
{
    static const size_t lengths[] = {0,   1,       2,        3,        8,       40,
                                     300, 0xFFFFF, 0x100000, 0x100000, 0x100001, LARGE_STORE};
    return lengths[draw_below(sizeof lengths / sizeof lengths[0])];
}

static void draw_lengths(struct board *board)
{
    board->main_length = draw_length();
    board->ports_length = draw_length();
}

static struct answer answer_of(const struct made *made, size_t back)
{
    struct answer answer = {.back = back};
    for (int i = 0; i < NUMBERS; i++)
        answer.record[i] = (uint32_t)made->number[i];
    return answer;
}

/* The answer by plain reading of what the row was made from, newest first. */
static struct answer read_row(const struct row *row, struct question of_this)
{
    for (size_t back = 1; back <= row->count; back++) {
        size_t i = row->count - back;
        if (i == row->broken) {
            broken_later += back > 1;
            return (struct answer){.refusal = 8};
        }
        if (holds(row->record[i].number[MARKS], row->record[i].number[PLACE], of_this)) {
            broken_behind_match += row->broken < i;
            return answer_of(&row->record[i], back);
        }
    }
    return (struct answer){.back = 0};
}

static void rows(struct board *board, uint64_t many)
{
    static struct row row;
    static struct questions questions;
    for (uint64_t i = 0; i < many; i++) {
        begin("row", 1, i);
        draw_lengths(board);
        draw_row(&row, board, NEW_FORM, draw_one_in(2) ? SOUND : draw_below(FAULTS));
        put_trail(board, row.byte, row.length);
        lend_trail(board);
        questions_of_row(&questions, &row, board);
        for (size_t q = 0; q < questions.count; q++) {
            struct answer wanted = read_row(&row, questions.list[q]);
            must_answer(questions.list[q], &wanted);
        }
    }
}

/* ---- Damaged and random trails ---- */

enum { SMALL = 10 };

static void damage(struct row *row)
{
    size_t at = row->length == 0 ? 0 : draw_below((uint32_t)row->length);
    if (row->length == 0)
        return;
    switch (draw_below(4)) {
    case 0: row->length = at; break;
    case 1: row->byte[at] = draw_one_in(2) ? draw() : draw_below(30); break;
    case 2:
        row->length -= at;
        memmove(row->byte, row->byte + at, row->length);
        break;
    default: row->byte[at] ^= 1u << draw_below(8); break;
    }
}

/* Also one store may have lost the words that the records hold, or the count exceeds the trail. */
static void make_worse(struct board *board)
{
    if (draw_one_in(8))
        draw_lengths(board);
    if (draw_one_in(8))
        board->used = draw_one_in(2) ? board->trail_length + 1 + draw_below(100)
                                     : SIZE_MAX - draw_below(40);
}

static void ask_all(const struct questions *questions)
{
    for (size_t q = 0; q < questions->count; q++)
        ask_both(questions->list[q]);
}

static void damaged_rows(struct board *board, uint64_t many)
{
    static struct row row;
    static struct questions questions;
    for (uint64_t i = 0; i < many; i++) {
        begin("damaged row", 2, i);
        draw_lengths(board);
        draw_row(&row, board, NEW_FORM, SOUND);
        questions_of_row(&questions, &row, board);
        for (uint32_t times = draw_below(3); times > 0; times--)
            damage(&row);
        put_trail(board, row.byte, row.length);
        make_worse(board);
        lend_trail(board);
        ask_all(&questions);
    }
}

/* Any bytes, or small ones, of which a record is made more often. */
static void draw_bytes(struct row *row)
{
    uint32_t below = draw_one_in(4) ? 256 : SMALL;
    row->length = draw_below(draw_one_in(4) ? 64 : 12);
    for (size_t i = 0; i < row->length; i++)
        row->byte[i] = draw_below(below);
}

static void add_small_places(struct questions *questions)
{
    for (uint32_t address = 0; address < SMALL; address++)
        add(questions, false, address);
}

static void random_trails(struct board *board, uint64_t many)
{
    static struct row row;
    static struct questions questions;
    for (uint64_t i = 0; i < many; i++) {
        begin("random trail", 3, i);
        draw_lengths(board);
        draw_bytes(&row);
        put_trail(board, row.byte, row.length);
        lend_trail(board);
        questions.count = 0;
        add_anywhere(&questions, board);
        add_small_places(&questions);
        ask_all(&questions);
    }
}

/* ---- Sessions ---- */

enum { MOST_LISTED = 4000, MOST_BUDGET = 30 };

/* What each operation still listed changed, as its record has to tell it: oldest first. */
static struct answer notes[MOST_LISTED];
static size_t listed;

static struct board session, before, twin;

static void stop(const char *why)
{
    print_trial(why);
    exit(1);
}

/* The word that is not the same, if any: its place and its value before. */
static void note_word(uint32_t record[NUMBERS], const uint32_t *old, const uint32_t *new,
                      size_t length, uint32_t from)
{
    for (size_t i = 0; i < length; i++)
        if (old[i] != new[i]) {
            record[MARKS] |= MARK_WORD;
            record[PLACE] = from + (uint32_t)i;
            record[VALUE] = old[i];
        }
}

/* Lists the operation of that kind that made one board of the other. */
static void note(uint32_t kind, const struct board *old, const struct board *new)
{
    if (listed == MOST_LISTED)
        stop("too many operations for the notes");
    uint32_t *record = notes[listed++].record;
    memset(record, 0, sizeof notes[0].record);
    record[KIND] = kind;
    record[OLD_P] = old->regs[VIPER_P];
    record[MARKS] = (old->regs[VIPER_B] ? MARK_B : 0) + (old->regs[VIPER_STOP] ? MARK_STOP : 0);
    for (int i = 0; i < 3; i++)
        if (old->regs[i] != new->regs[i]) {
            record[MARKS] |= MARK_A << i;
            record[OLD_A + i] = old->regs[i];
        }
    note_word(record, old->main, new->main, old->main_length, 0);
    note_word(record, old->ports, new->ports, old->ports_length, PORTS_FROM);
}

/* The steps of a run, done singly on a twin of the board as it was. */
static void note_steps(uint32_t steps)
{
    const struct call step = {.operation = STEP};
    board_copy(&twin, &before);
    for (uint32_t i = 0; i < steps; i++) {
        if (call_ours(&twin, &step) != 0)
            stop("a step of a run is refused when it is done singly");
        note(BY_STEP, &before, &twin);
        board_copy(&before, &twin);
    }
}

static struct call draw_call(const struct board *board)
{
    static const enum operation operations[] = {STEP, STEP, STEP, STEP, STEP,  STEP,  RUN,
                                                RUN,  SET,  SET,  SET,  RESET, FORCE, BACK};
    struct call call = {.operation = operations[draw_below(14)],
                        .budget = draw_below(MOST_BUDGET)};
    call.store = draw_one_in(2) ? 0 : draw_port_store();
    size_t length = call.store == 0 ? board->main_length : board->ports_length;
    call.address = draw_address(length < 8 || draw_one_in(2) ? length : 8);
    call.value = draw_word();
    return call;
}

static void call_and_note(const struct call *call)
{
    board_copy(&before, &session);
    uint64_t answer = call_ours(&session, call);
    if (refusal_in(call->operation, answer) != 0)
        return;
    switch (call->operation) {
    case STEP: note(BY_STEP, &before, &session); break;
    case RUN: note_steps((uint32_t)answer); break;
    case RESET: note(BY_RESET, &before, &session); break;
    case FORCE: note(BY_FORCE, &before, &session); break;
    case SET: note(BY_SET, &before, &session); break;
    default: listed--; break;
    }
}

/* The newest operation listed that changed that word. */
static struct answer read_notes(struct question of_this)
{
    for (size_t back = 1; back <= listed; back++) {
        struct answer answer = notes[listed - back];
        answer.back = back;
        if (holds(answer.record[MARKS], answer.record[PLACE], of_this))
            return answer;
    }
    return (struct answer){.back = 0};
}

/* One take-back less than was answered leaves the word as that operation left it, and one more
 * gives it the value answered. */
static void take_back(struct question of_this, const struct answer *answer)
{
    const struct call back = {.operation = BACK};
    uint32_t value = answer->record[VALUE];
    board_copy(&twin, &session);
    const uint32_t *word = &(of_this.store == 0 ? twin.main : twin.ports)[of_this.address];
    for (size_t taken = 0; taken < answer->back; taken++) {
        if (*word == value && taken + 1 == answer->back)
            stop("the word has its old value before that operation is taken back");
        if (call_ours(&twin, &back) != 0)
            stop("an operation that is listed cannot be taken back");
    }
    if (*word != value || twin.regs[VIPER_P] != answer->record[OLD_P])
        stop("taking back as many operations as answered does not restore the word and P");
    taken_back++;
}

static void questions_of_notes(struct questions *questions)
{
    questions->count = 0;
    add_anywhere(questions, &session);
    for (size_t back = 1; back <= listed && back <= 30; back++)
        if (notes[listed - back].record[MARKS] & MARK_WORD)
            add_around(questions, notes[listed - back].record[PLACE]);
}

static void ask_session(void)
{
    static struct questions questions;
    questions_of_notes(&questions);
    lend_trail(&session);
    board_copy(&before, &session);
    for (size_t q = 0; q < questions.count; q++) {
        struct answer wanted = read_notes(questions.list[q]);
        must_answer(questions.list[q], &wanted);
        if (wanted.back > 0 && draw_one_in(4))
            take_back(questions.list[q], &wanted);
    }
    if (!board_same(&before, &session, true))
        stop("a question changed the board");
}

static void one_session(uint64_t i)
{
    begin("session", 4, i);
    start_history(&session);
    lent_board = &session;
    listed = 0;
    for (uint32_t calls = draw_between(1, 80); calls > 0; calls--) {
        struct call call = draw_call(&session);
        call_and_note(&call);
        if (draw_one_in(30))
            ask_session();
    }
    ask_session();
}

static void sessions(uint64_t many)
{
    for (uint64_t i = 0; i < many; i++)
        one_session(i);
}

/* ---- The summary ---- */

static bool all_seen(void)
{
    bool all = never > 0 && newest > 0 && earlier > 0 && refused_3 > 0 && refused_8 > 0 &&
               of_main > 0 && of_port > 0 && broken_behind_match > 0 && broken_later > 0 &&
               taken_back > 0;
    for (int kind = 0; kind < 5; kind++)
        all = all && by_kind[kind] > 0;
    return all;
}

static void print_counts(void)
{
    printf("check_find: %" PRIu64 " questions compared, all the same: newest %" PRIu64
           ", earlier %" PRIu64 " (main %" PRIu64 ", port %" PRIu64 "; kinds",
           asked, newest, earlier, of_main, of_port);
    for (int kind = 0; kind < 5; kind++)
        printf(" %" PRIu64, by_kind[kind]);
    printf("; with a broken record behind %" PRIu64 "), never %" PRIu64 ", refused 3 %" PRIu64
           ", 8 %" PRIu64 " (not at the newest record %" PRIu64 "); %" PRIu64
           " answers taken back\n",
           broken_behind_match, never, refused_3, refused_8, broken_later, taken_back);
}

int main(int argc, char **argv)
{
    double scale = 1;
    if (argc > 1)
        seed = strtoull(argv[1], NULL, 10);
    if (argc > 2)
        scale = strtod(argv[2], NULL);
    printf("check_find: seed %" PRIu64 ", scale %g\n", seed, scale);
    fflush(stdout);

    struct board board = board_with_room(LARGE_STORE, LARGE_STORE, ROW_ROOM + 64);
    session = board_with_room(SEQUENCE_MAIN, SEQUENCE_PORTS, SEQUENCE_TRAIL);
    before = board_with_room(SEQUENCE_MAIN, SEQUENCE_PORTS, SEQUENCE_TRAIL);
    twin = board_with_room(SEQUENCE_MAIN, SEQUENCE_PORTS, SEQUENCE_TRAIL);
    trail = lent_room();
    on_touch_outside(report_touch);
    begin("worked trail", 0, 0);
    worked_trail(&board);
    rows(&board, (uint64_t)(scale * ROWS));
    damaged_rows(&board, (uint64_t)(scale * DAMAGED_ROWS));
    random_trails(&board, (uint64_t)(scale * RANDOM_TRAILS));
    board_release(&board);
    sessions((uint64_t)(scale * SESSIONS));

    if (!all_seen()) {
        printf("check_find: WRONG: an answer was never seen\n");
        return 1;
    }
    print_counts();
    return 0;
}
