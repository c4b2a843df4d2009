/* The benchmark: the same routines forward with their trail, back again, and by single steps, and
 * the search for a word in such a trail, in our bench (include/viper.h) and in its peer (fast.c),
 * in turns within one run. */

#define _POSIX_C_SOURCE 200809L

#include "board.h"
#include "fast.h"

#include "../include/viper.h"

#include <inttypes.h>
#include <stdio.h>
#include <stdlib.h>
#include <string.h>
#include <time.h>

enum { MOST_STEPS = 1000000, FEWEST_WORDS = 1024, MOST_WORDS = 1048576 };
enum { TRAIL = 14 * MOST_STEPS, ROUNDS = 31 };

/* The trail of these lies in a core's own cache; that of the most goes through what all share. */
enum { TABLE_STEPS = 100000 };

/* ---- The routines ---- */

struct routine {
    const char *name;
    uint32_t start; /* its address, where P begins */
    uint32_t words[32];
};

static const struct routine routines[] = {
    {"arithmetic",
     0x000,
     {
         0x00400003, /* 00 A := A + 3, B := carry */
         0x008000FF, /* 01 A := A XOR FF */
         0x72C00000, /* 02 X := X left through B */
         0x84600001, /* 03 Y := Y - 1, B := borrow */
         0x81100000, /* 04 B := Y >= 0 */
         0x08300000, /* 05 if B, P := 00 */
         0x04300032, /* 06 Y := 32 */
         0x06300000, /* 07 P := 00 */
     }},
    {"memory",
     0x000,
     {
         0x02300000, /* 00 X := 0 */
         0x20300100, /* 01 A := main 100+X */
         0x20400200, /* 02 A := A + main 200+X */
         0x2E000200, /* 03 main 200+X := A */
         0x42400001, /* 04 X := X + 1 */
         0x41000040, /* 05 B := X < 40 */
         0x08300001, /* 06 if B, P := 01 */
         0x06300000, /* 07 P := 00 */
     }},
    {"ports",
     0x000,
     {
         0x02300000, /* 00 X := 0 */
         0x20200000, /* 01 A := port X */
         0x00400001, /* 02 A := A + 1 */
         0x2C000008, /* 03 port 8+X := A */
         0x1C000003, /* 04 port 3 := A */
         0x42400001, /* 05 X := X + 1 */
         0x41000020, /* 06 B := X < 20 */
         0x08300001, /* 07 if B, P := 01 */
         0x06300000, /* 08 P := 00 */
     }},
    {"calls",
     0x000,
     {
         0x02300014, /* 00 X := 14 */
         0x06100010, /* 01 call 10 */
         0x06100018, /* 02 call 18 */
         0x42600001, /* 03 X := X - 1 */
         0x41500000, /* 04 B := X > 0 */
         0x08300001, /* 05 if B, P := 01 */
         0x06300000, /* 06 P := 00 */
         [0x10] = 0x00400005, /* 10 A := A + 5 */
         0x86500000,          /* 11 return: P := Y + 0 */
         [0x18] = 0x9E000030, /* 18 main 30 := Y */
         0x06100010,          /* 19 call 10 */
         0x14300030,          /* 1A Y := main 30 */
         0x86500000,          /* 1B return: P := Y + 0 */
     }},
    /* The numbers of its records have more than one byte: P, and most old values. */
    {"far",
     0x400,
     {
         0x02300000, /* 400 X := 0 */
         0x20300500, /* 401 A := main 500+X */
         0x00400457, /* 402 A := A + 457 */
         0x2E000500, /* 403 main 500+X := A */
         0x42400001, /* 404 X := X + 1 */
         0x41000040, /* 405 B := X < 40 */
         0x08300401, /* 406 if B, P := 401 */
         0x06100410, /* 407 call 410 */
         0x06300400, /* 408 P := 400 */
         [0x10] = 0x00800FF0, /* 410 A := A XOR FF0 */
         0x86500000,          /* 411 return: P := Y + 0 */
     }},
};

enum { ROUTINES = sizeof routines / sizeof routines[0] };

/* ---- The two sides ---- */

struct side {
    const char *name;
    uint32_t (*step)(uint32_t[6], uint32_t *, size_t, uint32_t *, size_t, uint8_t *, size_t,
                     size_t *);
    uint64_t (*run)(uint32_t[6], uint32_t *, size_t, uint32_t *, size_t, uint8_t *, size_t,
                    size_t *, uint32_t);
    uint32_t (*back)(uint32_t[6], uint32_t *, size_t, uint32_t *, size_t, const uint8_t *, size_t,
                     size_t *);
    uint32_t (*find)(const uint32_t *, size_t, const uint32_t *, size_t, const uint8_t *, size_t,
                     size_t, uint32_t, uint32_t, size_t *, uint32_t[8]);
    struct board board;
};

static struct side ours = {.name = "ours", .step = viper_step, .run = viper_run,
                           .back = viper_back, .find = viper_find};
static struct side peer = {.name = "peer", .step = fast_step, .run = fast_run,
                           .back = fast_back, .find = fast_find};

static void wrong(const struct side *side, const char *what)
{
    printf("benchmark: WRONG, %s: %s\n", side->name, what);
    exit(1);
}

static void load(struct side *side, const struct routine *routine, size_t main_length,
                 size_t ports_length)
{
    struct board *b = &side->board;
    memset(b->regs, 0, sizeof b->regs);
    b->regs[3] = routine->start;
    memset(b->main, 0, main_length * sizeof *b->main);
    memset(b->ports, 0, ports_length * sizeof *b->ports);
    memcpy(b->main + routine->start, routine->words, sizeof routine->words);
    b->main_length = main_length;
    b->ports_length = ports_length;
    b->trail_length = TRAIL;
    b->used = 0;
}

static void forward_by_run(struct side *side, uint32_t steps)
{
    struct board *b = &side->board;
    uint64_t answer = side->run(b->regs, b->main, b->main_length, b->ports, b->ports_length,
                                b->trail, b->trail_length, &b->used, steps);
    if (answer != steps + ((uint64_t)VIPER_BUDGET << 32))
        wrong(side, "a run did not spend its budget");
}

static void forward_by_steps(struct side *side, uint32_t steps)
{
    struct board *b = &side->board;
    uint32_t refused = 0;
    for (uint32_t i = 0; i < steps; i++)
        refused |= side->step(b->regs, b->main, b->main_length, b->ports, b->ports_length,
                              b->trail, b->trail_length, &b->used);
    if (refused != 0)
        wrong(side, "a step was refused");
}

static void back_to_the_start(struct side *side, uint32_t steps)
{
    struct board *b = &side->board;
    uint32_t taken = 0;
    while (side->back(b->regs, b->main, b->main_length, b->ports, b->ports_length, b->trail,
                      b->trail_length, &b->used) == 0)
        taken++;
    if (taken != steps || b->used != 0)
        wrong(side, "taking back did not reach the start");
}

/* ---- That both do the same job ---- */

static void compare(const char *when)
{
    if (board_same(&ours.board, &peer.board, true))
        return;
    printf("benchmark: WRONG, the two sides differ %s\n", when);
    board_print_differences("ours", &ours.board, "peer", &peer.board);
    exit(1);
}

static void check_same_job(uint32_t steps)
{
    forward_by_run(&ours, steps);
    forward_by_run(&peer, steps);
    compare("after a run");
    back_to_the_start(&ours, steps);
    back_to_the_start(&peer, steps);
    compare("after taking back");
    forward_by_steps(&ours, steps);
    forward_by_steps(&peer, steps);
    compare("after single steps");
    back_to_the_start(&ours, steps);
    back_to_the_start(&peer, steps);
}

/* ---- Times ---- */

enum job { BY_RUN, BACK, BY_STEPS, JOBS };

/* Nanoseconds a step, for each job. */
struct costs {
    double of[JOBS];
};

static double now(void)
{
    struct timespec t;
    clock_gettime(CLOCK_PROCESS_CPUTIME_ID, &t);
    return (double)t.tv_sec * 1e9 + (double)t.tv_nsec;
}

static struct costs measure(struct side *side, uint32_t steps)
{
    const uint32_t times = MOST_STEPS / steps;
    struct costs costs = {{0, 0, 0}};
    for (uint32_t i = 0; i < times; i++) {
        double start = now();
        forward_by_run(side, steps);
        double run = now();
        back_to_the_start(side, steps);
        double back = now();
        forward_by_steps(side, steps);
        double stepped = now();
        back_to_the_start(side, steps);
        costs.of[BY_RUN] += run - start;
        costs.of[BACK] += (back - run + (now() - stepped)) / 2;
        costs.of[BY_STEPS] += stepped - back;
    }
    for (int job = 0; job < JOBS; job++)
        costs.of[job] /= (double)steps * times;
    return costs;
}

/* What is measured: a routine, its steps and the words of its stores; and what each side took. */
struct row {
    const struct routine *routine;
    uint32_t steps;
    size_t main_length, ports_length;
    struct costs ours, peer;
};

static void keep_least(struct costs *least, struct costs costs)
{
    for (int job = 0; job < JOBS; job++)
        if (least->of[job] == 0 || costs.of[job] < least->of[job])
            least->of[job] = costs.of[job];
}

/* Every round measures all rows, ours first in every other one. The least time counts: whatever
 * else the machine does, and a slower clock, only add to it. */
static void measure_rows(struct row *rows, size_t count)
{
    for (int round = 0; round < ROUNDS; round++)
        for (struct row *row = rows; row < rows + count; row++) {
            load(&ours, row->routine, row->main_length, row->ports_length);
            load(&peer, row->routine, row->main_length, row->ports_length);
            if (round == 0)
                check_same_job(row->steps);
            if (round % 2) {
                keep_least(&row->peer, measure(&peer, row->steps));
                keep_least(&row->ours, measure(&ours, row->steps));
            } else {
                keep_least(&row->ours, measure(&ours, row->steps));
                keep_least(&row->peer, measure(&peer, row->steps));
            }
        }
}

/* ---- The tables ---- */

static void print_speeds(const char *name, struct costs of_ours, struct costs of_peer)
{
    printf("%-12s", name);
    for (int job = 0; job < JOBS; job++)
        printf(" %5.2f (%6.2f, %6.2f)", of_peer.of[job] / of_ours.of[job], of_ours.of[job],
               of_peer.of[job]);
    printf("\n");
}

static void speed_table(void)
{
    struct row rows[ROUTINES];
    struct costs all_ours = {{0, 0, 0}}, all_peer = {{0, 0, 0}};
    for (int i = 0; i < ROUTINES; i++)
        rows[i] = (struct row){.routine = &routines[i], .steps = TABLE_STEPS,
                               .main_length = 8192, .ports_length = 256};
    measure_rows(rows, ROUTINES);
    printf("%d steps, main 8192 words, ports 256 words, the least time of %d rounds\n", TABLE_STEPS,
           ROUNDS);
    printf("speed of ours to the peer's (above 1: ours is faster); ns a step: ours, peer\n");
    printf("%-12s %-22s %-22s %-22s\n", "routine", "run", "take back", "single steps");
    for (int i = 0; i < ROUTINES; i++) {
        print_speeds(rows[i].routine->name, rows[i].ours, rows[i].peer);
        for (int job = 0; job < JOBS; job++) {
            all_ours.of[job] += rows[i].ours.of[job] / ROUTINES;
            all_peer.of[job] += rows[i].peer.of[job] / ROUTINES;
        }
    }
    print_speeds("together", all_ours, all_peer);
    printf("\n");
    fflush(stdout);
}

static void print_growth(const char *with, struct costs least, struct costs most)
{
    printf("ours grows with the %s", with);
    for (int job = 0; job < JOBS; job++)
        printf("%s %.2f times", job > 0 ? "," : " by", most.of[job] / least.of[job]);
    printf("\n");
}

/* Two sets of three rows: by the steps, and by the words of both stores. */
static void growth_table(void)
{
    const uint32_t steps[6] = {1000, 100000, MOST_STEPS, 100000, 100000, 100000};
    const size_t words[6] = {8192, 8192, 8192, FEWEST_WORDS, 65536, MOST_WORDS};
    struct row rows[6];
    for (int i = 0; i < 6; i++)
        rows[i] = (struct row){.routine = &routines[1], .steps = steps[i],
                               .main_length = words[i], .ports_length = words[i]};
    measure_rows(rows, 6);
    printf("routine memory, ns a step: ours, peer; the cost must not grow with steps or words\n");
    printf("%9s %9s   %-16s %-16s %-16s\n", "steps", "words", "run", "take back",
           "single steps");
    for (int i = 0; i < 6; i++) {
        printf("%9" PRIu32 " %9zu", rows[i].steps, rows[i].main_length);
        for (int job = 0; job < JOBS; job++)
            printf("   %6.2f, %6.2f", rows[i].ours.of[job], rows[i].peer.of[job]);
        printf("\n");
        if (i % 3 == 2)
            print_growth(i == 2 ? "steps" : "words", rows[i - 2].ours, rows[i].ours);
    }
    printf("\n");
    fflush(stdout);
}

/* ---- The search for a word ---- */

/* A word of main that only the set by hand before the run changes, and a port that nothing does. */
enum { SET_BY_HAND = 0x1F00, NEVER_HIT = 0xF0 };

enum search { OLDEST, NEVER, SEARCHES };

/* Nanoseconds a record walked, for each search. */
struct search_row {
    double ours[SEARCHES], peer[SEARCHES];
};

/* A trail on our board whose oldest record is a set's, with a routine's steps behind it. */
static void make_trail(const struct routine *routine)
{
    struct board *b = &ours.board;
    load(&ours, routine, 8192, 256);
    if (viper_set(b->regs, b->main, b->main_length, b->ports, b->ports_length, b->trail,
                  b->trail_length, &b->used, 0, SET_BY_HAND, 1) != 0)
        wrong(&ours, "a set was refused");
    forward_by_run(&ours, TABLE_STEPS);
}

/* Walks our board's trail from its end to its oldest record. */
static void search(const struct side *side, enum search for_this)
{
    const struct board *b = &ours.board;
    uint32_t record[8];
    size_t back;
    bool oldest = for_this == OLDEST;
    uint32_t refused = side->find(b->main, b->main_length, b->ports, b->ports_length, b->trail,
                                  b->trail_length, b->used, !oldest,
                                  oldest ? SET_BY_HAND : NEVER_HIT, &back, record);
    if (refused != 0 || back != (oldest ? TABLE_STEPS + 1 : 0))
        wrong(side, "a search did not walk the whole trail");
    if (oldest && (record[0] != VIPER_BY_SET || record[6] != SET_BY_HAND))
        wrong(side, "a search gave another record");
}

static void measure_searches(const struct side *side, double least[SEARCHES])
{
    const int times = MOST_STEPS / TABLE_STEPS;
    for (enum search s = OLDEST; s < SEARCHES; s++) {
        double start = now();
        for (int i = 0; i < times; i++)
            search(side, s);
        double cost = (now() - start) / times / (TABLE_STEPS + 1);
        if (least[s] == 0 || cost < least[s])
            least[s] = cost;
    }
}

static void print_searches(const char *name, const struct search_row *row)
{
    printf("%-12s", name);
    for (enum search s = OLDEST; s < SEARCHES; s++)
        printf(" %5.2f (%6.1f, %6.1f)", row->peer[s] / row->ours[s], 1e3 / row->ours[s],
               1e3 / row->peer[s]);
    printf("\n");
}

static void measure_search_rows(struct search_row *rows)
{
    for (int round = 0; round < ROUNDS; round++)
        for (int i = 0; i < ROUTINES; i++) {
            make_trail(&routines[i]);
            measure_searches(round % 2 ? &peer : &ours, round % 2 ? rows[i].peer : rows[i].ours);
            measure_searches(round % 2 ? &ours : &peer, round % 2 ? rows[i].ours : rows[i].peer);
        }
}

static void search_table(void)
{
    struct search_row rows[ROUTINES] = {{{0}, {0}}}, all = {{0}, {0}};
    measure_search_rows(rows);
    printf("search for a word in the trail of %d steps, the least time of %d rounds\n", TABLE_STEPS,
           ROUNDS);
    printf("speed of ours to the peer's; millions of records walked a second: ours, peer\n");
    printf("%-12s %-22s %-22s\n", "routine", "oldest record", "never");
    for (int i = 0; i < ROUTINES; i++) {
        print_searches(routines[i].name, &rows[i]);
        for (enum search s = OLDEST; s < SEARCHES; s++) {
            all.ours[s] += rows[i].ours[s] / ROUTINES;
            all.peer[s] += rows[i].peer[s] / ROUTINES;
        }
    }
    print_searches("together", &all);
}

int main(void)
{
    ours.board = board_with_room(MOST_WORDS, MOST_WORDS, TRAIL);
    peer.board = board_with_room(MOST_WORDS, MOST_WORDS, TRAIL);
    speed_table();
    growth_table();
    search_table();
    return 0;
}
