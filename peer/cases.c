/* The printed cases: reads a file of cases, a line each, makes each call through include/viper.h
 * alone, and prints the call, what came, what the document says, and ok or WRONG. It fails on a
 * difference, on a line that it cannot read and on a file without a case.
 *
 *   cases FILE */

#include "cases.h"

#include <inttypes.h>
#include <stdio.h>
#include <string.h>

/* ---- The calls ---- */

/* What is lent, as include/viper.h orders it. */
#define MAIN bench->main.words, bench->main.length
#define PORTS bench->ports.words, bench->ports.length
#define TRAIL bench->trail, bench->trail_length
#define OUTPUT bench->output, bench->output_length

static void make_step(struct bench *bench, const uint64_t asked[3])
{
    (void)asked;
    say_answer(viper_step(bench->regs, MAIN, PORTS, TRAIL, &bench->used));
}

static void make_run(struct bench *bench, const uint64_t asked[3])
{
    static const char *const endings[] = {"stopped", "budget", "unfitted", "full"};
    (void)asked;
    uint64_t answer = viper_run(bench->regs, MAIN, PORTS, TRAIL, &bench->used, bench->budget);
    uint64_t ending = answer >> 32;
    uint32_t steps = (uint32_t)answer;
    if (ending > VIPER_FULL && steps == 0)
        say("refused %" PRIu64, ending - 16);
    else
        say(steps == 1 ? "%" PRIu32 " step, %s" : "%" PRIu32 " steps, %s", steps,
            ending > VIPER_FULL ? "refused" : endings[ending]);
}

static void make_reset(struct bench *bench, const uint64_t asked[3])
{
    (void)asked;
    say_answer(viper_reset(bench->regs, TRAIL, &bench->used));
}

static void make_force(struct bench *bench, const uint64_t asked[3])
{
    (void)asked;
    say_answer(viper_force(bench->regs, TRAIL, &bench->used));
}

static void make_set(struct bench *bench, const uint64_t asked[3])
{
    say_answer(viper_set(bench->regs, MAIN, PORTS, TRAIL, &bench->used, (uint32_t)asked[0],
                         (uint32_t)asked[1], (uint32_t)asked[2]));
}

static void make_take_back(struct bench *bench, const uint64_t asked[3])
{
    (void)asked;
    say_answer(viper_back(bench->regs, MAIN, PORTS, TRAIL, &bench->used));
}

static void make_fitted(struct bench *bench, const uint64_t asked[3])
{
    uint8_t answer = viper_fitted(MAIN, PORTS, (uint32_t)asked[1], (uint32_t)asked[2], asked[0]);
    say(answer == 1 ? "yes" : answer == 0 ? "no" : "neither yes nor no");
}

/* The numbers of the record found: all but unmarked registers; of none found, any that is not 0. */
static void make_find(struct bench *bench, const uint64_t asked[3])
{
    static const char *const said_as[] = {", kind %" PRIu32,  ", marks %02" PRIX32,
                                          ", P %05" PRIX32,   ", A %08" PRIX32,
                                          ", X %08" PRIX32,   ", Y %08" PRIX32,
                                          ", place %05" PRIX32, ", value %08" PRIX32};
    uint32_t record[8] = {9, 9, 9, 9, 9, 9, 9, 9};
    size_t back = 9;
    uint32_t refusal = viper_find(MAIN, PORTS, TRAIL, bench->used, (uint32_t)asked[0],
                                  (uint32_t)asked[1], &back, record);
    if (refusal != 0)
        say("refused %" PRIu32, refusal);
    else if (back == 0)
        say("never");
    if (back != 0)
        say(refusal == 0 ? "%zu back" : ", %zu back", back);
    for (int i = 0; i < 8; i++)
        if (record[i] != 0 || (back != 0 && (i < 3 || i > 5)))
            say(said_as[i], record[i]);
}

typedef uint32_t trail_move(const uint8_t *trail, size_t used, uint8_t *out, size_t out_length,
                            size_t *out_used);

static void make_move(struct bench *bench, trail_move *move)
{
    const size_t untouched = 999;
    size_t out_used = untouched;
    uint32_t refusal = move(bench->trail, bench->used, OUTPUT, &out_used);
    say_answer(refusal);
    if (refusal == 0)
        say_records_written(bench, out_used);
    else
        say_nothing_written(bench);
    if (refusal != 0 && out_used != untouched)
        say(", %zu bytes in use", out_used);
}

static void make_move_to_new(struct bench *bench, const uint64_t asked[3])
{
    (void)asked;
    make_move(bench, viper_trail_to_new);
}

static void make_move_to_old(struct bench *bench, const uint64_t asked[3])
{
    (void)asked;
    make_move(bench, viper_trail_to_old);
}

static void say_text_answer(const struct bench *bench, uint32_t refusal, uint32_t written)
{
    say_answer(refusal);
    if (refusal == 0 || written != 0)
        say_text_written(bench, written);
    else
        say_nothing_written(bench);
}

static void make_list(struct bench *bench, const uint64_t asked[3])
{
    (void)asked;
    uint64_t answer = viper_list(MAIN, OUTPUT);
    say_text_answer(bench, (uint32_t)(answer >> 32), (uint32_t)answer);
}

static void make_export(struct bench *bench, const uint64_t asked[3])
{
    (void)asked;
    uint64_t answer = viper_hex_export(MAIN, OUTPUT);
    say_text_answer(bench, (uint32_t)answer, (uint32_t)(answer >> 32));
}

static void make_import(struct bench *bench, const uint64_t asked[3])
{
    (void)asked;
    uint64_t answer = viper_hex_import(MAIN, &bench->used, bench->text, bench->text_length);
    say_answer((uint32_t)answer);
    if (answer >> 32 != 0)
        say(" at line %" PRIu64, answer >> 32);
}

const struct call calls[] = {
    {"step", LENT_BOARD, 0, make_step},
    {"run", LENT_BOARD | SAYS_BUDGET, SAYS_BUDGET, make_run},
    {"reset", LENT_MACHINE | LENT_TRAIL, 0, make_reset},
    {"force", LENT_MACHINE | LENT_TRAIL, 0, make_force},
    {"set %p %a to %w", LENT_BOARD, 0, make_set},
    {"take back", LENT_BOARD, 0, make_take_back},
    {"fitted %n word%s from %p %a", LENT_MAIN | LENT_PORTS, 0, make_fitted},
    {"find %p %a", LENT_MAIN | LENT_PORTS | LENT_TRAIL, 0, make_find},
    {"move to the new form", SAYS_RECORDS | SAYS_OUTPUT_LENGTH, 0, make_move_to_new},
    {"move to the old form", SAYS_RECORDS | SAYS_OUTPUT_LENGTH, 0, make_move_to_old},
    {"list", LENT_MAIN | SAYS_OUTPUT_LENGTH, 0, make_list},
    {"import", LENT_MAIN | SAYS_IN_USE | SAYS_TEXT, SAYS_TEXT, make_import},
    {"export", LENT_MAIN | SAYS_OUTPUT_LENGTH, 0, make_export},
};
const size_t calls_count = sizeof calls / sizeof *calls;

/* ---- The lines ---- */

struct tally {
    int ok, wrong, not_read;
};

static void do_case(const char *file, int number, char *line, struct tally *tally)
{
    static struct bench bench;
    char start[LINE_MOST];
    struct read_case read = {0};
    snprintf(start, sizeof start, "%.*s", (int)strcspn(line, "|"), line);
    if (!read_case(line, &bench, &read)) {
        printf("line %d of %s: cannot read \"%s\": %s\n", number, file, read.phrase, read.why);
        tally->not_read++;
    } else {
        say_nothing();
        read.call->make(&bench, read.asked);
        say_changes(&bench);
        bool ok = strcmp(said(), read.says) == 0;
        printf("%s| came: %s | document: %s | %s\n", start, said(), read.says, ok ? "ok" : "WRONG");
        tally->ok += ok;
        tally->wrong += !ok;
    }
    clear_bench(&bench);
}

/* A blank line or a heading is printed, a remark is not, and any other line is a case. */
static void do_line(const char *file, int number, char *line, struct tally *tally)
{
    if (strncmp(line, "##", 2) == 0)
        return;
    if (line[0] == '\0' || strncmp(line, "# ", 2) == 0)
        printf("%s\n", line[0] == '\0' ? line : line + 2);
    else
        do_case(file, number, line, tally);
}

/* Every line of the file; one without a line feed within LINE_MOST signs is passed over whole and
 * counts as not read. */
static void do_file(const char *file, FILE *stream, struct tally *tally)
{
    char line[LINE_MOST + 1];
    for (int number = 1; fgets(line, sizeof line, stream) != NULL; number++) {
        size_t length = strlen(line);
        if (length > 0 && line[length - 1] == '\n') {
            line[length - 1] = '\0';
            do_line(file, number, line, tally);
            continue;
        }
        printf("line %d of %s: cannot read it: too long, or no line feed\n", number, file);
        tally->not_read++;
        for (int sign = 0; length == LINE_MOST && sign != '\n' && sign != EOF;)
            sign = getc(stream);
    }
}

int main(int count, char **arguments)
{
    struct tally tally = {0, 0, 0};
    FILE *stream = count == 2 ? fopen(arguments[1], "r") : NULL;
    if (stream == NULL) {
        fprintf(stderr, "usage: cases FILE, a file of cases that can be opened\n");
        return 2;
    }
    do_file(arguments[1], stream, &tally);
    bool good = tally.wrong + tally.not_read == 0 && tally.ok > 0 && !ferror(stream);
    fclose(stream);
    if (tally.ok + tally.wrong == 0)
        printf("no case in %s\n", arguments[1]);
    if (good)
        printf("cases: %d ok\n", tally.ok);
    else
        printf("cases: %d WRONG, %d not read\n", tally.wrong, tally.not_read);
    return good ? 0 : 1;
}
