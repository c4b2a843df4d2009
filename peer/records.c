/* Records made by hand, sound or broken in one named way, alone or in a row (document 01, "The
 * trail"; document 02, W12). */

#include "records.h"

#include "draw.h"

#include <string.h>

enum { REGISTERS = MARK_A | MARK_X | MARK_Y };

/* Whether a record with these marks has that number. */
static bool has(enum form form, uint64_t marks, int number)
{
    switch (number) {
    case KIND: return form == NEW_FORM;
    case MARKS:
    case OLD_P: return true;
    case OLD_A: return marks & MARK_A;
    case OLD_X: return marks & MARK_X;
    case OLD_Y: return marks & MARK_Y;
    default: return marks & MARK_WORD;
    }
}

/* ---- Its numbers ---- */

/* How many words of a store have a place. */
static size_t placed(size_t length)
{
    return length < PORTS_FROM ? length : PORTS_FROM;
}

static uint64_t draw_fitted_place(const struct board *board)
{
    size_t words = placed(board->main_length);
    size_t all = words + placed(board->ports_length);
    uint32_t n = draw_one_in(4) ? (uint32_t)all - 1 : draw_fitted(all);
    return n < words ? n : n - words + PORTS_FROM;
}

/* Next to the end of a store, in the other space, or a fitted place with higher bits set. */
static uint64_t draw_unfitted_place(const struct board *board)
{
    switch (draw_below(5)) {
    case 0: return PORTS_FROM + board->ports_length + draw_below(2);
    case 1: return 0x200000 + draw_fitted_place(board) % 0x200000;
    case 2: return 0x100000000u + draw_fitted_place(board) % 0x200000;
    case 3: return 0xFFFFFFFFu - draw_below(2);
    default:
        return board->main_length < PORTS_FROM ? board->main_length : 0x200000;
    }
}

static uint32_t draw_marks(const struct board *board, enum fault fault)
{
    bool no_word = board->main_length + board->ports_length == 0;
    uint32_t marks = draw_one_in(4) ? 63 : draw_below(64);
    if (fault == REGISTER_NOT_BELOW_2_32 && (marks & REGISTERS) == 0)
        marks += 1u << draw_below(3);
    if (fault == PLACE_NOT_FITTED || fault == VALUE_NOT_BELOW_2_32)
        return marks | MARK_WORD;
    return no_word ? marks & ~(uint32_t)MARK_WORD : marks;
}

/* Every number has as many groups as it may have, the place as many as the board's have. */
static void make_longest(struct made *made)
{
    for (int i = OLD_A; i < NUMBERS; i++)
        if (i != PLACE && has(NEW_FORM, made->number[MARKS], i))
            made->number[i] |= 0x10000000;
    made->number[OLD_P] |= 0x4000;
}

static void draw_numbers(struct made *made, const struct board *board, enum form form,
                         enum fault fault)
{
    uint64_t *number = made->number;
    uint32_t marks = draw_marks(board, fault);
    memset(number, 0, sizeof made->number);
    number[KIND] = form == NEW_FORM ? draw_below(5) : FROM_OLD_TRAIL;
    number[MARKS] = marks;
    number[OLD_P] = draw_20_bits();
    for (int i = OLD_A; i <= OLD_Y; i++)
        if (has(form, marks, i))
            number[i] = draw_word();
    if (marks & MARK_WORD) {
        bool fitted = fault != PLACE_NOT_FITTED && board->main_length + board->ports_length > 0;
        number[PLACE] = fitted ? draw_fitted_place(board) : draw_unfitted_place(board);
        number[VALUE] = draw_word();
    }
    if (draw_one_in(8))
        make_longest(made);
}

/* The least number that is too large, or one with more groups. */
static uint64_t draw_not_below(uint64_t limit)
{
    uint64_t more = draw_below(64);
    return draw_one_in(2) ? limit : limit + limit * draw_below(128) + more;
}

/* 5, one group, 255, or a kind that is lawful but for its higher bits. */
static uint64_t draw_unlawful_kind(void)
{
    switch (draw_below(4)) {
    case 0: return 5;
    case 1: return draw_between(5, 127);
    case 2: return 255;
    default: return ((uint64_t)1 << draw_between(3, 40)) + draw_below(5);
    }
}

/* One of the registers that are marked. */
static int draw_register(const struct made *made)
{
    int i = OLD_A + (int)draw_below(3);
    while (!has(NEW_FORM, made->number[MARKS], i))
        i = i == OLD_Y ? OLD_A : i + 1;
    return i;
}

static void spoil_number(struct made *made, enum fault fault)
{
    if (fault == KIND_ABOVE_4)
        made->number[KIND] = draw_unlawful_kind();
    if (fault == MARKS_NOT_BELOW_64)
        made->number[MARKS] += draw_one_in(2) ? 64 : 64 * draw_between(2, 256);
    if (fault == P_NOT_BELOW_2_20)
        made->number[OLD_P] = draw_not_below(0x100000);
    if (fault == REGISTER_NOT_BELOW_2_32)
        made->number[draw_register(made)] = draw_not_below(0x100000000u);
    if (fault == VALUE_NOT_BELOW_2_32)
        made->number[VALUE] = draw_not_below(0x100000000u);
}

/* ---- Its bytes ---- */

/* The number in groups, with some more groups of 0 behind it. */
static void write_number(struct made *made, uint64_t number, uint32_t more)
{
    for (; number >= 128 || more > 0; number >>= 7) {
        made->byte[made->length++] = 128 | (number & 127);
        if (number < 128)
            more--;
    }
    made->byte[made->length++] = number;
}

/* The number that gets a group too many. */
static int draw_padded(const struct made *made, enum form form, enum fault fault)
{
    int i = (int)draw_below(NUMBERS);
    if (fault == KIND_IN_TWO_GROUPS)
        return KIND;
    if (fault != GROUP_TOO_MANY)
        return NUMBERS;
    while (!has(form, made->number[MARKS], i))
        i = (i + 1) % NUMBERS;
    return i;
}

static void write_numbers(struct made *made, enum form form, enum fault fault)
{
    int padded = draw_padded(made, form, fault);
    uint32_t more = fault == KIND_IN_TWO_GROUPS ? 1 : draw_between(1, 2);
    made->length = 0;
    for (int i = 0; i < NUMBERS; i++)
        if (has(form, made->number[MARKS], i))
            write_number(made, made->number[i], i == padded ? more : 0);
}

static void spoil_bytes(struct made *made, enum fault fault)
{
    uint32_t more = fault == BYTES_LEFT_OVER ? draw_between(1, 3) : 0;
    for (; more > 0; more--)
        made->byte[made->length++] = draw_one_in(2) ? 0 : draw_below(256);
    if (fault == NUMBER_PAST_THE_END)
        made->byte[made->length - 1] |= 128;
    if (fault == KIND_ABOVE_4 && draw_one_in(4))
        made->byte[0] = 255;
}

static uint8_t draw_L(size_t length, enum form form, enum fault fault)
{
    uint32_t least = form == NEW_FORM ? 3 : 2, most = form == NEW_FORM ? 28 : 27;
    if (fault == L_TOO_SMALL)
        return draw_one_in(2) ? least - 1 : draw_below(least);
    if (fault == L_TOO_LARGE)
        return draw_one_in(2) ? most + 1 : draw_between(most + 1, 255);
    return length;
}

static void make_record(struct made *made, const struct board *board, enum form form,
                        enum fault fault)
{
    draw_numbers(made, board, form, fault);
    spoil_number(made, fault);
    write_numbers(made, form, fault);
    spoil_bytes(made, fault);
    made->byte[made->length] = draw_L(made->length, form, fault);
    made->length++;
    if (fault == TOO_FEW_IN_USE) {
        size_t missing = draw_between(1, (uint32_t)made->length - 1);
        made->length -= missing;
        memmove(made->byte, made->byte + missing, made->length);
    }
}

/* ---- Records in their trail ---- */

void put_record(struct board *board, enum fault fault)
{
    struct made made;
    make_record(&made, board, NEW_FORM, fault);
    size_t before = fault == TOO_FEW_IN_USE ? 0 : fault == L_TOO_LARGE ? 255 : draw_below(64);
    for (size_t i = 0; i < RECORD_ROOM; i++)
        board->trail[i] = draw();
    memcpy(board->trail + before, made.byte, made.length);
    board->used = before + made.length;
}

void draw_row(struct row *row, const struct board *board, enum form form, enum fault fault)
{
    bool one = fault != SOUND;
    row->count = one + draw_below(draw_one_in(8) ? ROW : 8);
    row->broken = !one                       ? row->count
                  : fault == TOO_FEW_IN_USE ? 0
                                            : draw_below((uint32_t)row->count);
    row->length = 0;
    for (size_t i = 0; i < row->count; i++) {
        struct made *made = &row->record[i];
        make_record(made, board, form, i == row->broken ? fault : SOUND);
        memcpy(row->byte + row->length, made->byte, made->length);
        row->length += made->length;
    }
}

bool may_have(enum form form, enum fault fault)
{
    return form == NEW_FORM || (fault != KIND_ABOVE_4 && fault != KIND_IN_TWO_GROUPS);
}

const char *fault_name(enum fault fault)
{
    static const char *const names[FAULTS] = {
        "sound",
        "L too small",
        "L too large",
        "fewer than L + 1 bytes in use",
        "a kind above 4",
        "a kind in two groups",
        "marks not below 64",
        "P not below 2^20",
        "a register not below 2^32",
        "the value not below 2^32",
        "the place not fitted",
        "a group too many",
        "bytes left over",
        "a number past the end",
    };
    return names[fault];
}
