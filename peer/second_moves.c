/* Trails of other counters moved over and back, by the second program (document 02, W12). It
 * divides a trail into records from its first byte on, where take back does so from the last. */

#include "second_moves.h"

#include "second_record.h"

#include <string.h>

/* Counts the records in a row; false where one is broken. */
static bool all_sound(enum form form, const uint8_t *trail, size_t used, size_t *records)
{
    struct second_record record;
    *records = 0;
    for (size_t at = 0; at < used; at += record.length) {
        if (!second_read_first(form, trail + at, used - at, &record))
            return false;
        ++*records;
    }
    return true;
}

uint32_t second_to_new(const uint8_t *trail, size_t used, uint8_t *out, size_t out_length,
                       size_t *out_used)
{
    size_t records;
    if (!all_sound(OLD_FORM, trail, used, &records))
        return 8;
    if (out_length < used + records)
        return 9;
    struct second_record record;
    for (size_t at = 0; at < used; at += record.length) {
        second_read_first(OLD_FORM, trail + at, used - at, &record);
        size_t L = record.length - 1;
        *out++ = FROM_OLD_TRAIL;
        memcpy(out, trail + at, L);
        out += L;
        *out++ = L + 1;
    }
    *out_used = used + records;
    return 0;
}

uint32_t second_to_old(const uint8_t *trail, size_t used, uint8_t *out, size_t out_length,
                       size_t *out_used)
{
    size_t records;
    if (!all_sound(NEW_FORM, trail, used, &records))
        return 8;
    if (out_length < used - records)
        return 9;
    struct second_record record;
    for (size_t at = 0; at < used; at += record.length) {
        second_read_first(NEW_FORM, trail + at, used - at, &record);
        size_t L = record.length - 1;
        memcpy(out, trail + at + 1, L - 1);
        out += L - 1;
        *out++ = L - 1;
    }
    *out_used = used - records;
    return 0;
}
