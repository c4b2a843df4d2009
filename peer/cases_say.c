/* Says what came of a call, in the words of peer/cases.txt: all that changed, so that a change
 * which no document asks for makes its line WRONG. */

#include "cases.h"

#include <inttypes.h>
#include <stdarg.h>
#include <stdio.h>
#include <string.h>

/* A text of more lines than LINES_MOST is said by its first two and its last three. */
enum { LINES_MOST = 8, LINES_FIRST = 2, LINES_LAST = 3 };

static char came[4 * LINE_MOST];

const char *said(void)
{
    return came;
}

void say_nothing(void)
{
    came[0] = '\0';
}

void say(const char *format, ...)
{
    size_t so_far = strlen(came);
    va_list rest;
    va_start(rest, format);
    vsnprintf(came + so_far, sizeof came - so_far, format, rest);
    va_end(rest);
}

void say_answer(uint64_t refusal)
{
    if (refusal == 0)
        say("accepted");
    else
        say("refused %" PRIu64, refusal);
}

/* ---- Outputs ---- */

static void say_line(const uint8_t *line, size_t length)
{
    if (length == 0)
        say("(blank line)");
    for (size_t i = 0; i < length; i++)
        if (line[i] >= ' ' && line[i] <= '~')
            say("%c", line[i]);
        else
            say(line[i] == '\r' ? "(CR)" : "(%02X)", line[i]);
}

static size_t count_lines(const uint8_t *text, size_t length)
{
    size_t lines = 0;
    for (size_t i = 0; i < length; i++)
        lines += text[i] == '\n';
    return lines;
}

static void say_text(const uint8_t *text, size_t length)
{
    size_t lines = count_lines(text, length), line = 0;
    for (size_t from = 0; from < length; line++) {
        const uint8_t *feed = memchr(text + from, '\n', length - from);
        size_t to = feed == NULL ? length : (size_t)(feed - text);
        bool left_out = lines > LINES_MOST && line >= LINES_FIRST && line + LINES_LAST < lines;
        if (left_out && line == LINES_FIRST)
            say(" / (%zu lines)", lines - LINES_FIRST - LINES_LAST);
        if (!left_out) {
            say("%s", from == 0 ? "" : " / ");
            say_line(text + from, to - from);
        }
        if (feed == NULL)
            say("(no line feed)");
        from = to + 1;
    }
}

/* The bytes, with a stroke in front of each record but the first, found from the end by their
 * last bytes, L. */
static void say_records(const uint8_t *bytes, size_t count)
{
    bool begins[TRAIL_MOST + 1] = {false};
    size_t records = 0;
    for (size_t end = count; end > 0 && end <= TRAIL_MOST && bytes[end - 1] < end; records++) {
        end -= (size_t)bytes[end - 1] + 1;
        begins[end] = true;
    }
    say(records == 1 ? "record" : "records");
    for (size_t i = 0; i < count; i++)
        say("%s%02X", i > 0 && i <= TRAIL_MOST && begins[i] ? " / " : " ", bytes[i]);
}

static void say_touched_past(const struct bench *bench, size_t written)
{
    for (size_t i = written; i < bench->output_length + MARGIN; i++)
        if (bench->output[i] != UNTOUCHED)
            say(", output byte %zu is %02X", i, bench->output[i]);
}

void say_nothing_written(const struct bench *bench)
{
    say_touched_past(bench, 0);
}

void say_text_written(const struct bench *bench, size_t written)
{
    say(written == 1 ? ", %zu byte" : ", %zu bytes", written);
    if (written > bench->output_length) {
        say(", more than the output holds");
        return;
    }
    say("%s", written == 0 ? "" : ", ");
    say_text(bench->output, written);
    say_touched_past(bench, written);
}

void say_records_written(const struct bench *bench, size_t written)
{
    if (written > bench->output_length) {
        say(", %zu bytes, more than the output holds", written);
        return;
    }
    say(written == 0 ? ", no byte" : ", ");
    if (written > 0)
        say_records(bench->output, written);
    say_touched_past(bench, written);
}

/* ---- Changes ---- */

static void say_registers(const struct bench *bench)
{
    static const struct {
        const char *name;
        int which, digits;
    } in_order[] = {{"P", VIPER_P, 5}, {"A", VIPER_A, 8}, {"X", VIPER_X, 8},
                    {"Y", VIPER_Y, 8}, {"B", VIPER_B, 1}, {"STOP", VIPER_STOP, 1}};
    for (int i = 0; i < 6; i++) {
        int which = in_order[i].which;
        if (bench->regs[which] != bench->regs_before[which])
            say(", %s %0*" PRIX32, in_order[i].name, in_order[i].digits, bench->regs[which]);
    }
}

static void say_words(const char *name, const struct store *store)
{
    for (size_t i = 0; i < store->length + MARGIN; i++)
        if (store->words[i] != store->before[i])
            say(", %s %05zX %08" PRIX32, name, i, store->words[i]);
}

/* Bytes right after those that were in use are a record, or some; all others were in the trail
 * before. */
static void say_trail(const struct bench *bench)
{
    size_t from = bench->used_before, to = bench->used;
    bool added = from < to && to <= bench->trail_length;
    if (added) {
        say(", ");
        say_records(bench->trail + from, to - from);
    } else if (from != to) {
        say(to == 1 ? ", %zu byte in use" : ", %zu bytes in use", to);
    }
    for (size_t i = 0; i < sizeof bench->trail; i++)
        if (bench->trail[i] != bench->trail_before[i] && !(added && i >= from && i < to))
            say(", trail byte %zu is %02X", i, bench->trail[i]);
}

void say_changes(const struct bench *bench)
{
    say_registers(bench);
    say_words("main", &bench->main);
    say_words("port", &bench->ports);
    say_trail(bench);
}
