/* Bytes lent to a call, right against memory that nobody may touch. */

#define _DEFAULT_SOURCE

#include "lent.h"

#include <signal.h>
#include <stdio.h>
#include <stdlib.h>
#include <string.h>
#include <sys/mman.h>

/* LENT_ROOM is a multiple of any machine's page. */
struct lent lent_room(void)
{
    uint8_t *all = mmap(NULL, 3 * LENT_ROOM, PROT_NONE, MAP_PRIVATE | MAP_ANONYMOUS, -1, 0);
    if (all == MAP_FAILED || mprotect(all + LENT_ROOM, LENT_ROOM, PROT_READ | PROT_WRITE) != 0) {
        fprintf(stderr, "no memory for bytes to lend\n");
        exit(2);
    }
    return (struct lent){.room = all + LENT_ROOM};
}

static void choose(struct lent *lent, size_t length, bool at_end)
{
    lent->watched = at_end ? lent->room + LENT_ROOM - WATCHED : lent->room;
    lent->bytes = at_end ? lent->room + LENT_ROOM - length : lent->room;
}

void lend_blank(struct lent *lent, size_t length, bool at_end, const uint8_t *blank)
{
    choose(lent, length, at_end);
    memcpy(lent->watched, blank, WATCHED);
}

const uint8_t *lend(struct lent *lent, const uint8_t *bytes, size_t length, bool at_end)
{
    choose(lent, length, at_end);
    memcpy(lent->bytes, bytes, length);
    return lent->bytes;
}

bool lent_blank_past(const struct lent *lent, size_t written, const uint8_t *blank)
{
    size_t before = (size_t)(lent->bytes - lent->watched);
    size_t after = before + written;
    return memcmp(lent->watched, blank, before) == 0 &&
           memcmp(lent->watched + after, blank + after, WATCHED - after) == 0;
}

static void (*report_touch)(void);

static void touched(int signal_number)
{
    (void)signal_number;
    report_touch();
    fflush(stdout);
    _Exit(1);
}

void on_touch_outside(void (*report)(void))
{
    report_touch = report;
    signal(SIGSEGV, touched);
    signal(SIGBUS, touched);
}
