/* A record as the second program reads it (document 01, "The trail"; document 02, W12). */

#include "second_record.h"

/* Bytes, read from the first on. */
struct reading {
    const uint8_t *bytes;
    size_t count, at;
    bool broken;
};

/* The next number. It breaks the reading if it is not below the limit, runs past the end or
 * has a group too many. Below 2^32 there are at most five groups. */
static uint32_t next_number(struct reading *reading, uint64_t limit)
{
    uint64_t number = 0;
    uint8_t byte = 128;
    int group = 0;
    for (; byte >= 128 && group < 5 && reading->at < reading->count; group++) {
        byte = reading->bytes[reading->at++];
        number += (uint64_t)(byte % 128) << (7 * group);
    }
    bool unended = byte >= 128;
    bool group_too_many = group > 1 && byte == 0;
    if (unended || group_too_many || number >= limit) {
        reading->broken = true;
        return 0;
    }
    return number;
}

enum { BELOW_5 = 5, BELOW_64 = 64, BELOW_2_20 = 0x100000, BELOW_2_21 = 0x200000 };
#define BELOW_2_32 0x100000000u

/* Kind, marks, P, the marked registers and the marked word. */
static struct second_record read_numbers(struct reading *reading, enum form form)
{
    struct second_record record = {.kind = FROM_OLD_TRAIL};
    if (form == NEW_FORM)
        record.kind = next_number(reading, BELOW_5);
    record.marks = next_number(reading, BELOW_64);
    record.P = next_number(reading, BELOW_2_20);
    if (record.marks & MARK_A)
        record.A = next_number(reading, BELOW_2_32);
    if (record.marks & MARK_X)
        record.X = next_number(reading, BELOW_2_32);
    if (record.marks & MARK_Y)
        record.Y = next_number(reading, BELOW_2_32);
    if (record.marks & MARK_WORD) {
        record.place = next_number(reading, BELOW_2_21);
        record.value = next_number(reading, BELOW_2_32);
    }
    return record;
}

bool second_read_first(enum form form, const uint8_t *bytes, size_t count,
                       struct second_record *record)
{
    struct reading reading = {bytes, count, 0, false};
    *record = read_numbers(&reading, form);
    record->length = reading.at + 1;
    return !reading.broken && reading.at < count && bytes[reading.at] == reading.at;
}

bool second_read_newest(enum form form, const uint8_t *trail, size_t used,
                        struct second_record *record)
{
    if (used == 0)
        return false;
    size_t L = trail[used - 1];
    size_t least = form == NEW_FORM ? 3 : 2, most = form == NEW_FORM ? 28 : 27;
    if (L < least || L > most || used < L + 1)
        return false;
    return second_read_first(form, trail + used - (L + 1), L + 1, record) &&
           record->length == L + 1;
}
