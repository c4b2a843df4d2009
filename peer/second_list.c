/* What the program `list` must print for its standard input, by the second listing (document 02,
 * W1): a routine is read as `bench` reads it, and its words are listed. */

#include "second_counter.h"
#include "second_listing.h"

int main(void)
{
    static uint8_t listing[LONGEST_LINE * COUNTER_MAIN];
    struct second bench = counter_bench();
    struct loaded loaded = counter_load(&bench, stdin);
    if (loaded.bad != 0) {
        counter_print_bad(loaded.bad);
        return 0;
    }
    struct listed listed = second_list(bench.main, loaded.words, listing, sizeof listing);
    fwrite(listing, 1, listed.bytes, stdout);
    return 0;
}
