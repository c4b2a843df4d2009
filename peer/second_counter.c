/* What the second programs at the counter share: the bench of "The counter program" (document 01)
 * and a routine read into it. */

#include "second_counter.h"

#include <inttypes.h>
#include <string.h>

struct second counter_bench(void)
{
    static uint32_t main_store[COUNTER_MAIN], ports[COUNTER_PORTS];
    static uint8_t trail[COUNTER_TRAIL];
    memset(main_store, 0, sizeof main_store);
    memset(ports, 0, sizeof ports);
    memset(trail, 0, sizeof trail);
    return (struct second){.main = main_store, .main_length = COUNTER_MAIN,
                           .ports = ports, .ports_length = COUNTER_PORTS,
                           .trail = trail, .trail_length = COUNTER_TRAIL};
}

int counter_digit(int character)
{
    if (character >= '0' && character <= '9')
        return character - '0';
    if (character >= 'A' && character <= 'F')
        return character - 'A' + 10;
    return -1;
}

/* One line: eight hex digits and a line feed. first is its first character. */
static bool read_line(FILE *text, int first, uint32_t *word)
{
    int character = first;
    *word = 0;
    for (int i = 0; i < 8; i++) {
        if (counter_digit(character) < 0)
            return false;
        *word = *word * 16 + (uint32_t)counter_digit(character);
        character = getc(text);
    }
    return character == '\n';
}

struct loaded counter_load(struct second *bench, FILE *text)
{
    for (uint32_t line = 1;; line++) {
        uint32_t word;
        int first = getc(text);
        if (first == EOF)
            return (struct loaded){.words = line - 1};
        if (line > COUNTER_MAIN || !read_line(text, first, &word))
            return (struct loaded){.bad = line};
        bench->main[line - 1] = word;
    }
}

void counter_print_bad(uint32_t line)
{
    printf("line %" PRIu32 " bad\n", line);
}
