/* Reads a line of peer/cases.txt whole: phrases between commas, the first a call, the others how
 * the bench starts, each spelled as in a table. What no table spells cannot be read. */

#include "cases.h"

#include <stdio.h>
#include <stdlib.h>
#include <string.h>

enum { PHRASES_MOST = 24 };

/* ---- Numbers and phrases ---- */

static int digit(char sign)
{
    if (sign >= '0' && sign <= '9')
        return sign - '0';
    return sign >= 'A' && sign <= 'F' ? sign - 'A' + 10 : -1;
}

/* So many hex digits as stand there, into number; the count of them. */
static size_t read_hex(const char *from, uint64_t *number)
{
    size_t digits = 0;
    for (*number = 0; digits < 9 && digit(from[digits]) >= 0; digits++)
        *number = *number << 4 | (uint64_t)digit(from[digits]);
    return digits;
}

/* A decimal number below 2^64 without leading zeros; the count of its digits, 0 for none. */
static size_t read_count(const char *from, uint64_t *number)
{
    size_t digits = 0;
    for (*number = 0; from[digits] >= '0' && from[digits] <= '9'; digits++) {
        uint64_t next = (uint64_t)digit(from[digits]);
        if (*number > (UINT64_MAX - next) / 10)
            return 0;
        *number = *number * 10 + next;
    }
    return from[0] == '0' && digits > 1 ? 0 : digits;
}

/* A number in one of the forms of struct call; where it ends, or null. */
static const char *read_number(char form, const char *from, uint64_t *number)
{
    size_t signs = form == 'n' ? read_count(from, number) : read_hex(from, number);
    if (form == 'p') {
        *number = strncmp(from, "port", 4) == 0;
        return *number == 1 || strncmp(from, "main", 4) == 0 ? from + 4 : NULL;
    }
    bool good = form == 'n'   ? signs > 0
                : form == 'w' ? signs == 8
                              : signs == 5 || (signs > 5 && signs < 9 && from[0] != '0');
    return good ? from + signs : NULL;
}

/* Whether the phrase is spelled so. Beside the forms of struct call, %* is any rest. */
static bool spelled_so(const char *spelled, const char *phrase, struct numbers *found)
{
    found->count = 0;
    for (; *spelled != '\0'; spelled++) {
        if (*spelled != '%') {
            if (*spelled != *phrase++)
                return false;
            continue;
        }
        spelled++;
        if (*spelled == '*') {
            found->rest = phrase;
            return *phrase != '\0';
        }
        if (*spelled == 's') {
            if (found->number[found->count - 1] != 1 && *phrase++ != 's')
                return false;
            continue;
        }
        phrase = read_number(*spelled, phrase, &found->number[found->count++]);
        if (phrase == NULL)
            return false;
    }
    return *phrase == '\0';
}

/* ---- How the bench starts ---- */

static const char *put_length(struct bench *bench, const struct numbers *found, int which)
{
    static const size_t most[] = {STORE_MOST, STORE_MOST, TRAIL_MOST, OUTPUT_MOST};
    size_t *const lengths[] = {&bench->main.length, &bench->ports.length, &bench->trail_length,
                               &bench->output_length};
    if (found->number[0] > most[which])
        return "longer than this runner holds";
    *lengths[which] = found->number[0];
    return NULL;
}

static const char *put_register(struct bench *bench, const struct numbers *found, int which)
{
    if (found->number[0] > UINT32_MAX)
        return "not a word";
    bench->regs[which] = (uint32_t)found->number[0];
    return NULL;
}

static const char *put_budget(struct bench *bench, const struct numbers *found, int which)
{
    (void)which;
    if (found->number[0] > UINT32_MAX)
        return "more than 4,294,967,295";
    bench->budget = (uint32_t)found->number[0];
    return NULL;
}

static const char *put_in_use(struct bench *bench, const struct numbers *found, int which)
{
    (void)which;
    bench->used = found->number[0];
    bench->used_named = true;
    return NULL;
}

static const char *put_in_store(struct store *store, uint64_t address, uint64_t value)
{
    if (address >= store->length)
        return "not fitted";
    if (store->named[address])
        return "that word is said twice";
    store->named[address] = true;
    store->words[address] = (uint32_t)value;
    return NULL;
}

static const char *put_word(struct bench *bench, const struct numbers *found, int which)
{
    return put_in_store(which == 0 ? &bench->main : &bench->ports, found->number[0],
                        found->number[1]);
}

static const char *put_word_at_P(struct bench *bench, const struct numbers *found, int which)
{
    (void)which;
    return put_in_store(&bench->main, bench->regs[VIPER_P], found->number[0]);
}

static const char *put_words_after_P(struct bench *bench, const struct numbers *found, int which)
{
    (void)which;
    uint64_t address = bench->regs[VIPER_P], word;
    if (address >= bench->main.length || !bench->main.named[address])
        return "no word at P before it";
    for (const char *from = found->rest;; from++) {
        from = read_number('w', from, &word);
        if (from == NULL)
            return "not words";
        const char *why = put_in_store(&bench->main, ++address, word);
        if (why != NULL || *from == '\0')
            return why;
        if (*from != ' ')
            return "not words";
    }
}

/* Two hex digits a byte, a blank between, and a stroke between records; false where it is not. */
static bool read_bytes(const char *from, uint8_t *bytes, size_t *count)
{
    uint64_t byte;
    for (*count = 0; *count < LINE_MOST / 2; from++) {
        if (read_hex(from, &byte) != 2)
            return false;
        bytes[(*count)++] = (uint8_t)byte;
        from += 2;
        if (*from == '\0')
            return true;
        if (strncmp(from, " / ", 3) == 0)
            from += 2;
        if (*from != ' ')
            return false;
    }
    return false;
}

/* The newest bytes in use; all of them, where the line does not say how many are in use. */
static const char *put_records(struct bench *bench, const struct numbers *found, int which)
{
    (void)which;
    uint8_t bytes[LINE_MOST / 2];
    size_t count;
    if (!read_bytes(found->rest, bytes, &count))
        return "not bytes";
    if (!bench->used_named)
        bench->used = count;
    if (bench->used < count || bench->used > bench->trail_length)
        return "not within the bytes in use";
    memcpy(bench->trail + bench->used - count, bytes, count);
    return NULL;
}

/* The marks of a text, and the sign each stands for; 0 for none. */
static const struct mark {
    const char *spelled;
    char sign;
} marks[] = {{" / ", '\n'}, {"(CR)", '\r'}, {"(blank)", ' '}, {"(blank line)", 0},
             {"(no line feed)", 0}};

static const struct mark *mark_at(const char *from)
{
    for (size_t i = 0; i < sizeof marks / sizeof *marks; i++)
        if (strncmp(from, marks[i].spelled, strlen(marks[i].spelled)) == 0)
            return &marks[i];
    return NULL;
}

/* A text of lines, with a line feed at the end unless it says that there is none. */
static const char *put_text(struct bench *bench, const struct numbers *found, int which)
{
    (void)which;
    const char *no_feed = strstr(found->rest, "(no line feed)");
    if (no_feed != NULL && strcmp(no_feed, "(no line feed)") != 0)
        return "something follows the end of the text";
    size_t length = 0;
    for (const char *from = found->rest; *from != '\0';) {
        const struct mark *mark = mark_at(from);
        if (mark == NULL && (*from == '(' || *from == ')'))
            return "no such mark in a text";
        char sign = mark == NULL ? *from : mark->sign;
        if (sign != 0)
            bench->text[length++] = (uint8_t)sign;
        from += mark == NULL ? 1 : strlen(mark->spelled);
    }
    if (no_feed == NULL)
        bench->text[length++] = '\n';
    bench->text_length = length;
    return NULL;
}

static const char *put_empty_text(struct bench *bench, const struct numbers *found, int which)
{
    (void)found;
    (void)which;
    bench->text_length = 0;
    return NULL;
}

/* The spellings of a start. What stands in a store, the trail or a text is put there last, when
 * the lengths, P and the count in use are known. */
static const struct setting {
    const char *spelled;
    unsigned part;
    bool last;
    const char *(*put)(struct bench *bench, const struct numbers *found, int which);
    int which;
} settings[] = {
    {"A %w", SAYS_A, false, put_register, VIPER_A},
    {"X %w", SAYS_X, false, put_register, VIPER_X},
    {"Y %w", SAYS_Y, false, put_register, VIPER_Y},
    {"P %a", SAYS_P, false, put_register, VIPER_P},
    {"B %n", SAYS_B, false, put_register, VIPER_B},
    {"STOP %n", SAYS_STOP, false, put_register, VIPER_STOP},
    {"main %n word%s", SAYS_MAIN_LENGTH, false, put_length, 0},
    {"ports %n word%s", SAYS_PORTS_LENGTH, false, put_length, 1},
    {"trail of %n byte%s", SAYS_TRAIL_LENGTH, false, put_length, 2},
    {"output %n byte%s", SAYS_OUTPUT_LENGTH, false, put_length, 3},
    {"%n byte%s in use", SAYS_IN_USE, false, put_in_use, 0},
    {"budget %n", SAYS_BUDGET, false, put_budget, 0},
    {"main %a %w", SAYS_MAIN_WORD, true, put_word, 0},
    {"port %a %w", SAYS_PORT_WORD, true, put_word, 1},
    {"word %w", SAYS_WORD_AT_P, true, put_word_at_P, 0},
    {"then %*", SAYS_WORDS_AFTER_P, true, put_words_after_P, 0},
    {"newest record %*", SAYS_RECORDS, true, put_records, 0},
    {"records %*", SAYS_RECORDS, true, put_records, 0},
    {"text %*", SAYS_TEXT, true, put_text, 0},
    {"empty text", SAYS_TEXT, true, put_empty_text, 0},
};

/* ---- The bench ---- */

static void *cleared(size_t count, size_t size)
{
    void *memory = calloc(count + MARGIN, size);
    if (memory == NULL) {
        fprintf(stderr, "cases: no memory for the stores\n");
        exit(2);
    }
    return memory;
}

static void make_store(struct store *store)
{
    store->words = cleared(store->length, sizeof *store->words);
    store->before = cleared(store->length, sizeof *store->before);
    store->named = cleared(store->length, sizeof *store->named);
}

/* Stores of the lengths told, cleared, and an untouched output. */
static void make_bench(struct bench *bench)
{
    make_store(&bench->main);
    make_store(&bench->ports);
    bench->output = cleared(bench->output_length, 1);
    memset(bench->output, UNTOUCHED, bench->output_length + MARGIN);
}

void clear_bench(struct bench *bench)
{
    struct store *const stores[] = {&bench->main, &bench->ports};
    for (int i = 0; i < 2; i++) {
        free(stores[i]->words);
        free(stores[i]->before);
        free(stores[i]->named);
    }
    free(bench->output);
    memset(bench, 0, sizeof *bench);
}

static void remember(struct bench *bench)
{
    struct store *const stores[] = {&bench->main, &bench->ports};
    for (int i = 0; i < 2; i++)
        memcpy(stores[i]->before, stores[i]->words,
               (stores[i]->length + MARGIN) * sizeof *stores[i]->words);
    memcpy(bench->regs_before, bench->regs, sizeof bench->regs);
    memcpy(bench->trail_before, bench->trail, sizeof bench->trail);
    bench->used_before = bench->used;
}

/* ---- A line ---- */

static bool cannot(struct read_case *read, const char *phrase, const char *why)
{
    read->phrase = phrase;
    read->why = why;
    return false;
}

/* Parts the line at its bar, and the start at its commas. */
static bool part(char *line, char *phrases[PHRASES_MOST], size_t *count, struct read_case *read)
{
    char *bar = strstr(line, " | ");
    if (bar == NULL)
        return cannot(read, line, "no bar");
    *bar = '\0';
    read->says = bar + 3;
    if (*read->says == '\0' || strchr(read->says, '|') != NULL)
        return cannot(read, read->says, "one answer stands behind one bar");
    *count = 0;
    for (char *next = line; next != NULL; (*count)++) {
        if (*count == PHRASES_MOST)
            return cannot(read, next, "too many phrases");
        phrases[*count] = next;
        next = strstr(next, ", ");
        if (next != NULL) {
            *next = '\0';
            next += 2;
        }
    }
    return true;
}

static bool read_call(const char *phrase, struct read_case *read)
{
    struct numbers found = {{0}, 0, NULL};
    for (size_t i = 0; i < calls_count; i++)
        if (spelled_so(calls[i].spelled, phrase, &found)) {
            read->call = &calls[i];
            memcpy(read->asked, found.number, sizeof found.number);
            return true;
        }
    return cannot(read, phrase, "no such call");
}

/* The setting that a phrase spells, which the call is lent and which was not said before. */
static bool read_setting(const char *phrase, const struct setting **setting, struct numbers *found,
                         unsigned *seen, struct read_case *read)
{
    static const size_t count = sizeof settings / sizeof *settings;
    const unsigned often = SAYS_MAIN_WORD | SAYS_PORT_WORD;
    size_t i = 0;
    while (i < count && !spelled_so(settings[i].spelled, phrase, found))
        i++;
    if (i == count)
        return cannot(read, phrase, "no such start");
    if ((settings[i].part & read->call->lent) == 0)
        return cannot(read, phrase, "this call is not lent that");
    if ((settings[i].part & *seen & ~often) != 0)
        return cannot(read, phrase, "said twice");
    *seen |= settings[i].part;
    *setting = &settings[i];
    return true;
}

/* A phrase that tells how the bench starts, as it was read. */
struct told {
    const char *phrase;
    const struct setting *setting;
    struct numbers found;
};

/* Puts on the bench what was told: lengths, machine and counts first, then what stands there. */
static bool put_all(struct bench *bench, const struct told *told, size_t count, bool last,
                    struct read_case *read)
{
    for (size_t i = 0; i < count; i++) {
        const struct setting *setting = told[i].setting;
        if (setting->last != last)
            continue;
        const char *why = setting->put(bench, &told[i].found, setting->which);
        if (why != NULL)
            return cannot(read, told[i].phrase, why);
    }
    return true;
}

bool read_case(char *line, struct bench *bench, struct read_case *read)
{
    char *phrases[PHRASES_MOST];
    struct told told[PHRASES_MOST];
    size_t count;
    unsigned seen = 0;
    *bench = (struct bench){.main.length = 64, .ports.length = 16, .trail_length = 64,
                            .output_length = 4096};
    if (!part(line, phrases, &count, read) || !read_call(phrases[0], read))
        return false;
    for (size_t i = 1; i < count; i++) {
        told[i].phrase = phrases[i];
        if (!read_setting(phrases[i], &told[i].setting, &told[i].found, &seen, read))
            return false;
    }
    if ((read->call->needs & ~seen) != 0)
        return cannot(read, phrases[0], "it does not say all that this call needs");
    if (!put_all(bench, told + 1, count - 1, false, read))
        return false;
    make_bench(bench);
    if (!put_all(bench, told + 1, count - 1, true, read))
        return false;
    remember(bench);
    return true;
}
