/* What the program `bench` must print for its standard input, by the second program
 * (document 01, "The counter program"). */

#include "second_counter.h"

#include <inttypes.h>

static void print_bench(const struct second *b)
{
    printf(" P %05" PRIX32 " A %08" PRIX32 " X %08" PRIX32 " Y %08" PRIX32 " B %d S %d trail %zu\n",
           b->P, b->A, b->X, b->Y, b->B, b->STOP, b->used);
}

static uint32_t take_all_back(struct second *bench)
{
    uint32_t taken = 0;
    while (second_back(bench) == 0)
        taken++;
    return taken;
}

int main(void)
{
    static const char *const endings[] = {"stopped", "budget", "unfitted", "full"};
    struct second bench = counter_bench();
    struct loaded loaded = counter_load(&bench, stdin);
    if (loaded.bad != 0) {
        counter_print_bad(loaded.bad);
        return 0;
    }
    struct ran ran = second_run(&bench, COUNTER_BUDGET);
    printf("steps %" PRIu32 " %s", ran.done, endings[ran.ending]);
    print_bench(&bench);
    printf("back %" PRIu32, take_all_back(&bench));
    print_bench(&bench);
    return 0;
}
