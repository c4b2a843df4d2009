/* What the program `who` must print for its standard input, by the second program (document 02,
 * W7): the place's line, then a routine as `bench` reads it. It runs the routine a step at a time
 * and watches the word, so it needs neither the trail nor a take-back to tell which operation hit
 * it, and what the instruction was when it was done. */

#include "second_counter.h"
#include "second_listing.h"

#include <inttypes.h>
#include <string.h>

struct place {
    bool port;
    uint32_t address;
};

/* `main` or `port`, a blank, five hex digits and a line feed. */
enum { STORE_BYTES = 5, PLACE_BYTES = 11 };

static bool read_place(struct place *place)
{
    char line[PLACE_BYTES];
    if (fread(line, 1, PLACE_BYTES, stdin) != PLACE_BYTES)
        return false;
    place->port = memcmp(line, "port ", STORE_BYTES) == 0;
    if (!place->port && memcmp(line, "main ", STORE_BYTES) != 0)
        return false;
    place->address = 0;
    for (int i = STORE_BYTES; i < PLACE_BYTES - 1; i++) {
        if (counter_digit(line[i]) < 0)
            return false;
        place->address = place->address * 16 + (uint32_t)counter_digit(line[i]);
    }
    return line[PLACE_BYTES - 1] == '\n';
}

/* The word at a place, 0 where it is not fitted: that one never changes. */
static uint32_t word_at(const struct second *bench, struct place place)
{
    if (!second_fitted(bench, place.port, place.address, 1))
        return 0;
    return place.port ? bench->ports[place.address] : bench->main[place.address];
}

/* A step before it is done: its number from 1, P, the word there and the watched word. */
struct hit {
    uint32_t step, P, instruction, old;
};

/* Runs the routine. Answers the steps done; hit is the newest that changed the watched word, and
 * stays as given where none did. */
static uint32_t run_watching(struct second *bench, struct place place, struct hit *hit)
{
    for (uint32_t done = 0; done < COUNTER_BUDGET; done++) {
        struct place at = {.port = false, .address = bench->P};
        struct hit step = {done + 1, bench->P, word_at(bench, at), word_at(bench, place)};
        if (second_step(bench) != 0)
            return done;
        if (word_at(bench, place) != step.old)
            *hit = step;
    }
    return COUNTER_BUDGET;
}

static void tell(struct second *bench, struct place place)
{
    uint8_t line[LONGEST_LINE];
    struct hit hit = {.step = 0};
    uint32_t done = run_watching(bench, place, &hit);
    if (hit.step == 0) {
        printf("never\n");
        return;
    }
    printf("back %" PRIu32 " P %05" PRIX32 " old %08" PRIX32 " new %08" PRIX32 "\n",
           done - hit.step + 1, hit.P, hit.old, word_at(bench, place));
    fwrite(line, 1, second_line(hit.P, hit.instruction, line), stdout);
}

int main(void)
{
    struct place place;
    struct second bench = counter_bench();
    if (!read_place(&place)) {
        counter_print_bad(1);
        return 0;
    }
    struct loaded loaded = counter_load(&bench, stdin);
    if (loaded.bad != 0)
        counter_print_bad(loaded.bad + 1);
    else
        tell(&bench, place);
    return 0;
}
