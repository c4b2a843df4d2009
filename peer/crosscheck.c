/* The cross-check: our bench, through include/viper.h, and the second program do the same calls
 * from the same random starts, and answer, machine, count in use, both stores and every trail byte
 * are compared after each (document 01, "What a reader of the contracts may rely on").
 *
 * crosscheck [seed [scale]] */

#include "board.h"
#include "calls.h"
#include "draw.h"
#include "records.h"
#include "starts.h"

#include "../include/viper.h"

#include <inttypes.h>
#include <stdio.h>
#include <stdlib.h>
#include <string.h>

enum { DEFAULT_SEED = 90009, CLASSES = 1024, REFUSALS = 9, ENDINGS = 4 };

/* How much is done at scale 1. */
enum {
    SINGLE_STEPS = 6144 * CLASSES,
    RECORDS = 800000,
    SEQUENCES = 30000,
    HISTORIES = 8000,
    LARGE_BOARDS = 300
};

static uint64_t seed = DEFAULT_SEED;

/* What was compared. */
static uint64_t states;
static uint64_t accepted[OPERATIONS];
static uint64_t refused[OPERATIONS][REFUSALS];
static uint64_t ended[ENDINGS];
static uint64_t viewed[2];

/* Two boards that are the same before each call, and how they were then. */
struct pair {
    struct board before, ours, second;
    const char *trial;
    uint64_t number;
    bool large;
    bool stores_each_call;
};

/* ---- A difference ends the program ---- */

static void print_start(const struct pair *pair)
{
    printf("DIFFERENT: seed %" PRIu64 ", %s %" PRIu64 "\n", seed, pair->trial, pair->number);
    printf("before:\n");
    board_print(&pair->before);
    if (!pair->large && pair->before.main_length <= 64)
        board_print_words(&pair->before);
}

static void fail(const struct pair *pair, const char *why)
{
    print_start(pair);
    printf("after: %s\n", why);
    board_print_differences("ours", &pair->ours, "second", &pair->second);
    exit(1);
}

static void fail_call(const struct pair *pair, const struct call *call, uint64_t ours,
                      uint64_t second)
{
    print_start(pair);
    printf("call: ");
    call_print(call);
    printf("ours:   ");
    answer_print(call->operation, ours);
    printf("second: ");
    answer_print(call->operation, second);
    board_print_differences("ours", &pair->ours, "second", &pair->second);
    exit(1);
}

/* ---- One call of both ---- */

static void count(enum operation operation, uint64_t answer)
{
    uint32_t refusal = refusal_in(operation, answer);
    states++;
    if (operation == VIEW)
        viewed[answer != 0]++;
    if (refusal == 0)
        accepted[operation]++;
    else if (refusal < REFUSALS)
        refused[operation][refusal]++;
    if (operation == RUN && refusal == 0 && answer >> 32 < ENDINGS)
        ended[answer >> 32]++;
}

/* Of large stores only the instruction, to be printed. */
static void remember(struct pair *pair)
{
    struct board *before = &pair->before;
    if (!pair->large) {
        board_copy(before, &pair->ours);
        return;
    }
    uint32_t P = pair->ours.regs[VIPER_P];
    if (P < LARGE_STORE)
        before->main[P] = pair->ours.main[P];
    memcpy(before->regs, pair->ours.regs, sizeof before->regs);
    memcpy(before->trail, pair->ours.trail, pair->ours.trail_length);
    before->main_length = pair->ours.main_length;
    before->ports_length = pair->ours.ports_length;
    before->trail_length = pair->ours.trail_length;
    before->used = pair->ours.used;
}

static uint64_t call_both(struct pair *pair, const struct call *call)
{
    remember(pair);
    uint64_t ours = call_ours(&pair->ours, call);
    uint64_t second = call_second(&pair->second, call);
    if (ours != second || !board_same(&pair->ours, &pair->second, pair->stores_each_call))
        fail_call(pair, call, ours, second);
    count(call->operation, ours);
    return ours;
}

static struct pair pair_with_room(const char *trial, size_t main_room, size_t ports_room,
                                  size_t trail_room)
{
    struct pair pair = {.trial = trial, .stores_each_call = true};
    pair.ours = board_with_room(main_room, ports_room, trail_room);
    pair.second = board_with_room(main_room, ports_room, trail_room);
    pair.before = board_with_room(main_room, ports_room, trail_room);
    return pair;
}

static void release(struct pair *pair)
{
    board_release(&pair->ours);
    board_release(&pair->second);
    board_release(&pair->before);
}

static void begin(struct pair *pair, uint64_t phase, uint64_t number)
{
    pair->number = number;
    draw_from(seed, (phase << 40) + number);
}

/* The same random change of both boards. */
static void change_both(struct pair *pair, void (*change)(struct board *))
{
    uint64_t mark = draw_mark();
    change(&pair->ours);
    draw_again(mark);
    change(&pair->second);
}

/* ---- Draws of calls ---- */

static uint32_t draw_budget(void)
{
    switch (draw_below(6)) {
    case 0: return draw_below(3);
    case 1: return 300;
    case 2: return 0xFFFFFFFF;
    case 3: return draw();
    default: return draw_below(40);
    }
}

static size_t draw_stretch(size_t length)
{
    switch (draw_below(6)) {
    case 0: return 0;
    case 1: return SIZE_MAX - draw_below(50);
    case 2: return ((size_t)1 << 32) - draw_below(50);
    case 3: return length + draw_below(5) - 2;
    default: return draw_fitted(length);
    }
}

static enum operation draw_operation(void)
{
    static const enum operation operations[] = {
        STEP, STEP,  STEP,  STEP, STEP, STEP, RUN,  RUN,  SET,  SET, SET,
        RESET, FORCE, VIEW, BACK, BACK, BACK, BACK, BACK, BACK, BACK};
    return operations[draw_below(sizeof operations / sizeof operations[0])];
}

static struct call draw_call(const struct board *board, enum operation operation)
{
    struct call call = {.operation = operation, .budget = draw_budget()};
    call.store = draw_one_in(8) ? 0x100u << draw_below(24) : draw_below(2);
    size_t length = call.store == 0 ? board->main_length : board->ports_length;
    const uint32_t *words = call.store == 0 ? board->main : board->ports;
    call.address = draw_address(length);
    bool as_it_is = call.address < length && draw_one_in(4);
    call.value = as_it_is ? words[call.address] : draw_word();
    call.n = draw_stretch(length);
    if (draw_one_in(4) && call.address <= length)
        call.n = length - call.address + draw_below(2);
    return call;
}

/* ---- Single steps ---- */

/* Any lawful P, for the calls that fetch nothing there. */
static void go_elsewhere(struct board *board)
{
    board->regs[VIPER_P] = draw_20_bits();
    draw_count(board);
}

static void single_steps(uint64_t many)
{
    const struct call step = {.operation = STEP};
    struct pair pair = pair_with_room("single step", SINGLE_MAIN, SINGLE_PORTS, SINGLE_TRAIL);
    for (uint64_t i = 0; i < many; i++) {
        begin(&pair, 1, i);
        start_single(&pair.ours, i % CLASSES);
        board_copy(&pair.second, &pair.ours);
        call_both(&pair, &step);
        if (i % 4 == 0) {
            change_both(&pair, go_elsewhere);
            struct call other = draw_call(&pair.ours, draw_below(OPERATIONS));
            call_both(&pair, &other);
        }
    }
    release(&pair);
}

/* ---- Records made by hand ---- */

static void records(uint64_t many)
{
    const struct call back = {.operation = BACK};
    struct pair pair = pair_with_room("record", SINGLE_MAIN, SINGLE_PORTS, RECORD_ROOM);
    for (uint64_t i = 0; i < many; i++) {
        enum fault fault = i % (2 * FAULTS) < FAULTS ? i % FAULTS : SOUND;
        begin(&pair, 2, i);
        start_single(&pair.ours, i % CLASSES);
        pair.ours.regs[VIPER_P] = draw_20_bits();
        pair.ours.trail_length = RECORD_ROOM;
        put_record(&pair.ours, fault);
        if (draw_one_in(4))
            pair.ours.trail_length = pair.ours.used;
        board_copy(&pair.second, &pair.ours);
        uint64_t answer = call_both(&pair, &back);
        if (answer != (fault == SOUND ? 0 : 8)) {
            printf("record with %s\n", fault_name(fault));
            fail(&pair, "both answer other than document 01");
        }
    }
    release(&pair);
}

/* ---- Sequences of calls ---- */

static void make_lawful_again(struct board *board, const struct board *lawful)
{
    board->main_length = lawful->main_length;
    board->ports_length = lawful->ports_length;
    if (board->regs[VIPER_P] >= 0x100000)
        board->regs[VIPER_P] = lawful->regs[VIPER_P];
    if (board->used > lawful->trail_length)
        board->used = lawful->used;
}

static void call_unlawfully(struct pair *pair, const struct call *call)
{
    const struct board lawful = pair->ours;
    change_both(pair, make_unlawful);
    call_both(pair, call);
    make_lawful_again(&pair->ours, &lawful);
    make_lawful_again(&pair->second, &lawful);
}

static void sequence(struct pair *pair, uint64_t number)
{
    begin(pair, 3, number);
    start_sequence(&pair->ours);
    board_copy(&pair->second, &pair->ours);
    for (uint32_t calls = draw_between(4, 60); calls > 0; calls--) {
        struct call call = draw_call(&pair->ours, draw_operation());
        if (draw_one_in(10))
            change_both(pair, tamper);
        if (draw_one_in(12))
            call_unlawfully(pair, &call);
        else
            call_both(pair, &call);
    }
}

static void sequences(uint64_t many)
{
    struct pair pair = pair_with_room("sequence", SEQUENCE_MAIN, SEQUENCE_PORTS, SEQUENCE_TRAIL);
    for (uint64_t i = 0; i < many; i++)
        sequence(&pair, i);
    release(&pair);
}

/* ---- Histories (demand 3) ---- */

/* How many records a call that was so answered adds. */
static int64_t listed_by(enum operation operation, uint64_t answer)
{
    if (operation == VIEW || refusal_in(operation, answer) != 0)
        return 0;
    if (operation == RUN)
        return (uint32_t)answer;
    return operation == BACK ? -1 : 1;
}

static void take_back_everything(struct pair *pair, int64_t listed)
{
    const struct call back = {.operation = BACK};
    int64_t taken = 0;
    uint64_t answer = 0;
    for (; answer == 0; taken++)
        answer = call_both(pair, &back);
    if (answer != 7 || taken - 1 != listed)
        fail(pair, "taking back did not end at the first record");
}

static void normal_flags(struct board *board)
{
    board->regs[VIPER_B] = board->regs[VIPER_B] != 0;
    board->regs[VIPER_STOP] = board->regs[VIPER_STOP] != 0;
}

static void history(struct pair *pair, struct board *start, uint64_t number)
{
    int64_t listed = 0;
    begin(pair, 4, number);
    start_history(&pair->ours);
    board_copy(&pair->second, &pair->ours);
    board_copy(start, &pair->ours);
    for (uint32_t calls = draw_between(1, 80); calls > 0; calls--) {
        struct call call = draw_call(&pair->ours, draw_operation());
        listed += listed_by(call.operation, call_both(pair, &call));
    }
    take_back_everything(pair, listed);
    board_copy(&pair->second, start);
    memcpy(pair->second.trail, pair->ours.trail, pair->ours.trail_length);
    normal_flags(&pair->second);
    normal_flags(&pair->ours);
    if (!board_same(&pair->ours, &pair->second, true))
        fail(pair, "all taken back, and it is not the start (shown as second)");
}

static void histories(uint64_t many)
{
    struct pair pair = pair_with_room("history", SEQUENCE_MAIN, SEQUENCE_PORTS, SEQUENCE_TRAIL);
    struct board start = board_with_room(SEQUENCE_MAIN, SEQUENCE_PORTS, SEQUENCE_TRAIL);
    for (uint64_t i = 0; i < many; i++)
        history(&pair, &start, i);
    board_release(&start);
    release(&pair);
}

/* ---- Large boards ---- */

static void aim_any_step(struct board *board)
{
    aim_step(board, draw_below(CLASSES));
    if (draw_one_in(2))
        draw_count(board);
}

static void put_any_record(struct board *board)
{
    put_record(board, draw_one_in(3) ? PLACE_NOT_FITTED : SOUND);
}

static void large_call(struct pair *pair)
{
    struct call call = draw_call(&pair->ours, draw_operation());
    if (draw_one_in(8))
        change_both(pair, put_any_record);
    if (draw_one_in(2)) {
        change_both(pair, aim_any_step);
        call.operation = STEP;
    }
    if (draw_one_in(16))
        call_unlawfully(pair, &call);
    else
        call_both(pair, &call);
}

static bool large_board(struct pair *pair, uint64_t number)
{
    begin(pair, 5, number);
    start_large(&pair->ours);
    begin(pair, 5, number);
    start_large(&pair->second);
    for (int calls = 0; calls < 400; calls++)
        large_call(pair);
    return board_same(&pair->ours, &pair->second, true);
}

/* Words of large stores are compared at the end of a trial; where one differs, the trial is
 * done again with every word compared after each call. */
static void large_boards(uint64_t many)
{
    struct pair pair = pair_with_room("large board", LARGE_STORE, LARGE_STORE, LARGE_TRAIL);
    pair.large = true;
    pair.stores_each_call = false;
    for (uint64_t i = 0; i < many; i++) {
        if (large_board(&pair, i))
            continue;
        pair.stores_each_call = true;
        large_board(&pair, i);
        fail(&pair, "a word differs at the end of the trial");
    }
    release(&pair);
}

/* ---- The summary ---- */

static void print_counts(void)
{
    printf("%-10s %10s", "call", "accepted");
    for (int number = 1; number < REFUSALS; number++)
        printf("  refused %d", number);
    printf("\n");
    for (enum operation operation = STEP; operation < OPERATIONS; operation++) {
        printf("%-10s %10" PRIu64, operation_name(operation), accepted[operation]);
        for (uint32_t number = 1; number < REFUSALS; number++)
            if (may_refuse(operation, number))
                printf(" %10" PRIu64, refused[operation][number]);
            else
                printf(" %10s", "-");
        printf("\n");
    }
    printf("a run ended:");
    for (uint32_t ending = 0; ending < ENDINGS; ending++)
        printf(" %s %" PRIu64 "%s", ending_name(ending), ended[ending],
               ending + 1 < ENDINGS ? "," : "\n");
    printf("a view was fitted: yes %" PRIu64 ", no %" PRIu64 "\n", viewed[1], viewed[0]);
}

/* Each refusal of document 01's table and each ending must have been seen. */
static bool all_seen(void)
{
    bool all = viewed[0] > 0 && viewed[1] > 0;
    for (int operation = STEP; operation < OPERATIONS; operation++)
        for (uint32_t number = 1; number < REFUSALS; number++)
            all = all && (!may_refuse(operation, number) || refused[operation][number] > 0);
    for (int i = 0; i < OPERATIONS; i++)
        all = all && accepted[i] > 0;
    for (int i = 0; i < ENDINGS; i++)
        all = all && ended[i] > 0;
    return all;
}

int main(int argc, char **argv)
{
    double scale = 1;
    if (argc > 1)
        seed = strtoull(argv[1], NULL, 10);
    if (argc > 2)
        scale = strtod(argv[2], NULL);
    printf("crosscheck: seed %" PRIu64 ", scale %g\n", seed, scale);
    fflush(stdout);

    single_steps((uint64_t)(scale * SINGLE_STEPS));
    records((uint64_t)(scale * RECORDS));
    sequences((uint64_t)(scale * SEQUENCES));
    histories((uint64_t)(scale * HISTORIES));
    large_boards((uint64_t)(scale * LARGE_BOARDS));

    print_counts();
    if (!all_seen()) {
        printf("crosscheck: a refusal or an ending was never seen\n");
        return 1;
    }
    printf("crosscheck: %" PRIu64 " states compared, all the same\n", states);
    return 0;
}
