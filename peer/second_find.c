/* Which operation hit this word, by the second program (document 02, W7). */

#include "second_find.h"

/* A record marks no word, or one that is fitted, or it is broken. */
static bool word_fitted(const struct second *bench, const struct second_record *record)
{
    bool port = record->place >= PORTS_FROM;
    uint32_t address = port ? record->place - PORTS_FROM : record->place;
    return !(record->marks & MARK_WORD) || second_fitted(bench, port, address, 1);
}

static bool holds(const struct second_record *record, bool port, uint32_t address)
{
    uint64_t place = (uint64_t)address + (port ? PORTS_FROM : 0);
    bool has_a_place = address < PORTS_FROM;
    return record->marks & MARK_WORD && has_a_place && record->place == place;
}

struct found second_find(const struct second *bench, bool port, uint32_t address)
{
    size_t used = bench->used;
    if (used > bench->trail_length)
        return (struct found){.refusal = 3};
    for (size_t back = 1; used > 0; back++) {
        struct second_record record;
        if (!second_read_newest(NEW_FORM, bench->trail, used, &record) ||
            !word_fitted(bench, &record))
            return (struct found){.refusal = 8};
        if (holds(&record, port, address))
            return (struct found){0, back, record};
        used -= record.length;
    }
    return (struct found){.back = 0};
}
