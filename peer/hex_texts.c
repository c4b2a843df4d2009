/* Intel HEX texts drawn at random (document 02, W4). */

#include "hex_texts.h"

#include "draw.h"

#include <string.h>

enum { SEGMENT_WORDS = 16384, MOST_WORDS_A_RECORD = 63, MOST_GOOD_LINES = 40 };

enum { DATA = 0x00, END_OF_FILE = 0x01, SEGMENT_ADDRESS = 0x02, START_SEGMENT = 0x03,
       UPPER_ADDRESS = 0x04, START_LINEAR = 0x05 };

struct record {
    uint32_t count, address, type;
    uint8_t data[256];
};

/* ---- Lines ---- */

static void put_byte(struct hex_line *line, uint32_t byte)
{
    static const char digits[] = "0123456789ABCDEF";
    line->signs[line->length++] = (uint8_t)digits[byte >> 4 & 15];
    line->signs[line->length++] = (uint8_t)digits[byte & 15];
}

/* The record in the standard's layout with its sum, and a line feed. */
static struct hex_line line_of(const struct record *record)
{
    struct hex_line line = {.signs = ":", .length = 1, .end = "\n", .end_length = 1};
    uint32_t sum = record->count + (record->address >> 8) + record->address + record->type;
    put_byte(&line, record->count);
    put_byte(&line, record->address >> 8);
    put_byte(&line, record->address);
    put_byte(&line, record->type);
    for (uint32_t i = 0; i < record->count; i++) {
        put_byte(&line, record->data[i]);
        sum += record->data[i];
    }
    put_byte(&line, 0 - sum);
    return line;
}

static struct record with_drawn_data(uint32_t count, uint32_t address, uint32_t type)
{
    struct record record = {.count = count, .address = address, .type = type};
    for (uint32_t i = 0; i < count; i++)
        record.data[i] = draw_one_in(4) ? 0 : (uint8_t)draw();
    return record;
}

static struct record upper_address(uint32_t upper)
{
    struct record record = {.count = 2, .type = UPPER_ADDRESS};
    record.data[0] = (uint8_t)(upper >> 8);
    record.data[1] = (uint8_t)upper;
    return record;
}

/* The data record of so many words from a main address. */
static struct record data_at(uint32_t word, uint32_t words)
{
    return with_drawn_data(words * 4, word % SEGMENT_WORDS * 4, DATA);
}

static void set_end(struct hex_line *line, const char *end)
{
    line->end_length = strlen(end);
    memcpy(line->end, end, line->end_length);
}

static void insert(struct hex_lines *lines, size_t before, struct hex_line line)
{
    memmove(lines->lines + before + 1, lines->lines + before,
            (lines->count - before) * sizeof lines->lines[0]);
    lines->lines[before] = line;
    lines->count++;
}

static void append(struct hex_lines *lines, struct record record)
{
    insert(lines, lines->count, line_of(&record));
}

size_t join_lines(const struct hex_lines *lines, uint8_t *text)
{
    size_t length = 0;
    for (const struct hex_line *line = lines->lines; line < lines->lines + lines->count; line++) {
        memcpy(text + length, line->signs, line->length);
        length += line->length;
        memcpy(text + length, line->end, line->end_length);
        length += line->end_length;
    }
    return length;
}

/* ---- Good lines ---- */

/* The upper address of a word, of one near the last, or any. */
static uint32_t draw_upper(size_t main_length)
{
    switch (draw_below(4)) {
    case 0: return draw_below(0x10000);
    case 1: return (uint32_t)(main_length / SEGMENT_WORDS) + draw_below(2);
    default: return draw_fitted(main_length) / SEGMENT_WORDS;
    }
}

static uint32_t draw_record_words(void)
{
    switch (draw_below(5)) {
    case 0: return draw_below(2);
    case 1: return MOST_WORDS_A_RECORD - draw_below(2);
    case 2: return 4;
    default: return draw_below(MOST_WORDS_A_RECORD + 1);
    }
}

/* A data record whose words are all fitted: none where no word of the upper address is. */
static struct record draw_data(uint32_t upper, size_t main_length)
{
    size_t base = (size_t)upper * SEGMENT_WORDS;
    uint32_t fitted = 0;
    if (base < main_length)
        fitted = main_length - base < SEGMENT_WORDS ? (uint32_t)(main_length - base)
                                                    : SEGMENT_WORDS;
    uint32_t words = draw_record_words();
    if (words > fitted)
        words = fitted;
    if (words == 0)
        return with_drawn_data(0, draw_below(SEGMENT_WORDS) * 4, DATA);
    uint32_t last_first = fitted - words;
    uint32_t first = draw_one_in(4) ? last_first : draw_below(last_first + 1);
    return data_at(draw_one_in(6) ? 0 : first, words);
}

static void draw_ends(struct hex_lines *lines)
{
    uint32_t sort = draw_below(4);
    for (size_t i = 0; i < lines->count; i++)
        if (sort == 1 || (sort == 2 && draw_one_in(2)))
            set_end(&lines->lines[i], "\r\n");
}

void draw_good_lines(struct hex_lines *lines, size_t main_length)
{
    uint32_t upper = 0;
    lines->count = 0;
    lines->main_length = main_length;
    lines->bad = 0;
    for (uint32_t many = draw_below(draw_one_in(4) ? MOST_GOOD_LINES : 6); many > 0; many--) {
        if (draw_one_in(4)) {
            upper = draw_upper(main_length);
            append(lines, upper_address(upper));
        } else {
            append(lines, draw_data(upper, main_length));
        }
    }
    append(lines, with_drawn_data(0, 0, END_OF_FILE));
    draw_ends(lines);
}

/* ---- Damages ---- */

static struct hex_line *draw_line(struct hex_lines *lines)
{
    size_t k = draw_below((uint32_t)lines->count);
    lines->bad = k + 1;
    return &lines->lines[k];
}

static struct hex_line *last_line(struct hex_lines *lines)
{
    lines->bad = lines->count;
    return &lines->lines[lines->count - 1];
}

/* Puts the record in at some line, after a type 04 record. */
static struct hex_line *put_in(struct hex_lines *lines, uint32_t upper, struct record record)
{
    size_t k = draw_below((uint32_t)lines->count);
    struct record before = upper_address(upper);
    insert(lines, k, line_of(&record));
    insert(lines, k, line_of(&before));
    lines->bad = k + 2;
    return &lines->lines[k + 1];
}

static void insert_sign(struct hex_line *line, size_t at, uint8_t sign)
{
    memmove(line->signs + at + 1, line->signs + at, line->length - at);
    line->signs[at] = sign;
    line->length++;
}

static void wrong_sum(struct hex_lines *lines)
{
    struct hex_line *line = draw_line(lines);
    struct hex_line sum = {.length = 0};
    uint8_t *last = line->signs + line->length - 2;
    do {
        sum.length = 0;
        put_byte(&sum, draw());
    } while (memcmp(sum.signs, last, 2) == 0);
    memcpy(last, sum.signs, 2);
}

static void lower_case(struct hex_lines *lines)
{
    bool at_end = draw_one_in(2);
    struct record record = with_drawn_data(0, 0xABCC, DATA);
    struct hex_line *line = at_end ? last_line(lines) : put_in(lines, 0xABCD, record);
    uint8_t *last_letter = line->signs + line->length - 1;
    while (*last_letter < 'A')
        last_letter--;
    *last_letter |= 0x20;
}

static void all_lower_case(struct hex_lines *lines)
{
    struct hex_line *line = put_in(lines, 0xABCD, with_drawn_data(0, 0xABCC, DATA));
    for (size_t i = 1; i < line->length; i++)
        line->signs[i] |= 0x20;
}

static void blank_line(struct hex_lines *lines)
{
    put_in(lines, 0, with_drawn_data(0, 0, DATA))->length = 0;
}

static void blank_line_with_return(struct hex_lines *lines)
{
    struct hex_line *line = put_in(lines, 0, with_drawn_data(0, 0, DATA));
    line->length = 0;
    set_end(line, "\r\n");
}

static uint8_t draw_blank(void)
{
    static const char blanks[] = " \t\v\f";
    return (uint8_t)blanks[draw_below(4)];
}

static void blank_before(struct hex_lines *lines)
{
    insert_sign(draw_line(lines), 0, draw_blank());
}

static void blank_after(struct hex_lines *lines)
{
    struct hex_line *line = draw_line(lines);
    insert_sign(line, line->length, draw_blank());
}

static void blank_inside(struct hex_lines *lines)
{
    struct hex_line *line = draw_line(lines);
    insert_sign(line, 1 + draw_below((uint32_t)line->length - 1), draw_blank());
}

static void no_colon(struct hex_lines *lines)
{
    struct hex_line *line = draw_line(lines);
    memmove(line->signs, line->signs + 1, --line->length);
}

static void other_than_colon(struct hex_lines *lines)
{
    static const char others[] = ";9S0A \r*";
    draw_line(lines)->signs[0] = (uint8_t)others[draw_below(8)];
}

static void two_colons(struct hex_lines *lines)
{
    insert_sign(draw_line(lines), 0, ':');
}

static void no_digit(struct hex_lines *lines)
{
    static const char others[] = "/:;<@GHZ[`agz{~ -+xX.,\t\x7F\x80\xB0\xC1\xFF";
    struct hex_line *line = draw_line(lines);
    size_t at = 1 + draw_below((uint32_t)line->length - 1);
    line->signs[at] = (uint8_t)others[draw_below(sizeof others)];
}

static void a_digit_less(struct hex_lines *lines)
{
    draw_line(lines)->length--;
}

static void a_digit_more(struct hex_lines *lines)
{
    struct hex_line *line = draw_line(lines);
    insert_sign(line, line->length, '0');
}

/* The sum stays right in this one and in the next two: the bytes are 0. */
static void a_byte_more(struct hex_lines *lines)
{
    put_byte(draw_line(lines), 0);
}

static void a_byte_less(struct hex_lines *lines)
{
    struct hex_line *line = put_in(lines, 0, (struct record){.count = 4});
    memmove(line->signs + 9, line->signs + 11, 8);
    line->length -= 2;
}

static void a_count_too_high(struct hex_lines *lines)
{
    uint32_t words = draw_below(MOST_WORDS_A_RECORD);
    struct record record = with_drawn_data(4 * words, 0, DATA);
    record.count = 4 * draw_between(words + 1, MOST_WORDS_A_RECORD);
    struct hex_line *line = put_in(lines, 0, record);
    memcpy(line->signs + 9 + 8 * words, line->signs + line->length - 2, 2);
    line->length = 11 + 8 * words;
}

static void cut_short(struct hex_lines *lines)
{
    struct hex_line *line = draw_line(lines);
    line->length = 1 + draw_below((uint32_t)line->length - 1);
}

static void two_lines_in_one(struct hex_lines *lines)
{
    struct hex_line *line = draw_line(lines);
    memcpy(line->signs + line->length, ":00000001FF", 11);
    line->length += 11;
}

static void long_line(struct hex_lines *lines)
{
    struct hex_line *line = draw_line(lines);
    memset(line->signs + line->length, '0', MOST_SIGNS - line->length);
    line->length = MOST_SIGNS;
}

static void two_returns(struct hex_lines *lines)
{
    set_end(draw_line(lines), "\r\r\n");
}

static void return_before(struct hex_lines *lines)
{
    insert_sign(draw_line(lines), 0, '\r');
}

static void return_inside(struct hex_lines *lines)
{
    struct hex_line *line = draw_line(lines);
    insert_sign(line, 1 + draw_below((uint32_t)line->length - 1), '\r');
}

static void return_and_blank(struct hex_lines *lines)
{
    set_end(draw_line(lines), "\r \n");
}

static void return_for_feed(struct hex_lines *lines)
{
    set_end(put_in(lines, 0, with_drawn_data(0, 0, DATA)), "\r");
}

static void return_after_feed(struct hex_lines *lines)
{
    set_end(put_in(lines, 0, with_drawn_data(0, 0, DATA)), "\n\r");
    lines->bad++;
}

static void feed_inside(struct hex_lines *lines)
{
    struct hex_line *line = draw_line(lines);
    insert_sign(line, 1 + draw_below((uint32_t)line->length - 1), '\n');
}

static void part_count(struct hex_lines *lines)
{
    uint32_t count = 4 * draw_below(MOST_WORDS_A_RECORD + 1) + draw_between(1, 3);
    put_in(lines, 0, with_drawn_data(count, 0, DATA));
}

static void part_address(struct hex_lines *lines)
{
    uint32_t address = 4 * draw_fitted(lines->main_length) % 0x4000 + draw_between(1, 3);
    put_in(lines, 0, with_drawn_data(4 * draw_between(1, 4), address, DATA));
}

static void part_address_of_none(struct hex_lines *lines)
{
    uint32_t address = 4 * draw_below(SEGMENT_WORDS) + draw_between(1, 3);
    uint32_t upper = draw_below(0x10000);
    put_in(lines, upper, with_drawn_data(0, address, DATA));
}

static void past_64_KiB(struct hex_lines *lines)
{
    uint32_t words = draw_between(2, MOST_WORDS_A_RECORD);
    uint32_t address = 0x10000 - 4 * draw_between(1, words - 1);
    put_in(lines, draw_one_in(4) ? 0xFFFF : 0, with_drawn_data(4 * words, address, DATA));
}

/* The first word that main lacks, alone or with words before it or after it. */
static void just_not_fitted(struct hex_lines *lines)
{
    uint32_t length = (uint32_t)lines->main_length;
    uint32_t before = draw_below(4), after = draw_between(1, 4);
    if (before > length % SEGMENT_WORDS)
        before = length % SEGMENT_WORDS;
    if (length % SEGMENT_WORDS + after > SEGMENT_WORDS)
        after = 1;
    put_in(lines, length / SEGMENT_WORDS, data_at(length - before, before + after));
}

/* A word that would be fitted if some high bits of its address were lost. */
static void far_not_fitted(struct hex_lines *lines)
{
    uint32_t word = draw_fitted(lines->main_length);
    while (word < lines->main_length)
        word |= 1u << draw_between(16, 29);
    put_in(lines, word / SEGMENT_WORDS, data_at(word, 1));
}

/* Its upper address stands from an earlier record. */
static void not_fitted_later(struct hex_lines *lines)
{
    uint32_t upper = (uint32_t)(lines->main_length / SEGMENT_WORDS) + draw_between(1, 100);
    put_in(lines, upper, with_drawn_data(0, 0, DATA));
    struct record record = data_at(0, draw_between(1, 4));
    insert(lines, lines->bad, line_of(&record));
    lines->bad++;
}

static void type_02(struct hex_lines *lines)
{
    put_in(lines, 0, with_drawn_data(2, 0, SEGMENT_ADDRESS));
}

static void type_03(struct hex_lines *lines)
{
    put_in(lines, 0, with_drawn_data(4, 0, START_SEGMENT));
}

static void type_05(struct hex_lines *lines)
{
    put_in(lines, 0, with_drawn_data(4, 0, START_LINEAR));
}

static void other_type(struct hex_lines *lines)
{
    uint32_t type = draw_between(6, 0xFF);
    uint32_t count = draw_below(3) * 2;
    put_in(lines, 0, with_drawn_data(count, 0, type));
}

/* As an end, an upper address and data, but for bits of the type. */
static void near_type(struct hex_lines *lines)
{
    static const uint8_t nears[] = {0x10, 0x11, 0x14, 0x40, 0x41, 0x44, 0x80, 0x81, 0x84, 0x08};
    uint32_t type = nears[draw_below(sizeof nears)];
    put_in(lines, 0, with_drawn_data(type % 16 == 4 ? 2 : 0, 0, type));
}

static void end_with_address(struct hex_lines *lines)
{
    put_in(lines, 0, with_drawn_data(0, draw_between(1, 0xFFFF), END_OF_FILE));
}

static void end_with_data(struct hex_lines *lines)
{
    put_in(lines, 0, with_drawn_data(draw_between(1, 8), 0, END_OF_FILE));
}

static void upper_count(struct hex_lines *lines)
{
    static const uint8_t counts[] = {0, 1, 3, 4, 255};
    put_in(lines, 0, with_drawn_data(counts[draw_below(5)], 0, UPPER_ADDRESS));
}

static void upper_with_address(struct hex_lines *lines)
{
    uint32_t address = draw_one_in(2) ? 1u << draw_below(16) : draw_between(1, 0xFFFF);
    put_in(lines, 0, with_drawn_data(2, address, UPPER_ADDRESS));
}

static void no_end(struct hex_lines *lines)
{
    lines->bad = lines->count--;
}

static void data_after_end(struct hex_lines *lines)
{
    append(lines, with_drawn_data(0, 0, DATA));
    last_line(lines);
}

static void end_twice(struct hex_lines *lines)
{
    append(lines, with_drawn_data(0, 0, END_OF_FILE));
    last_line(lines);
}

static void blank_line_after_end(struct hex_lines *lines)
{
    append(lines, with_drawn_data(0, 0, DATA));
    last_line(lines)->length = 0;
}

static void sign_after_end(struct hex_lines *lines)
{
    static const char signs[] = "\r :\x1A" "0F";
    append(lines, with_drawn_data(0, 0, DATA));
    struct hex_line *line = last_line(lines);
    line->signs[0] = draw_one_in(8) ? 0 : (uint8_t)signs[draw_below(6)];
    line->length = 1;
    line->end_length = 0;
}

static void last_without_feed(struct hex_lines *lines)
{
    set_end(last_line(lines), draw_one_in(2) ? "\r" : "");
}

static void last_cut(struct hex_lines *lines)
{
    struct hex_line *line = last_line(lines);
    line->length = 1 + draw_below((uint32_t)line->length - 1);
    line->end_length = 0;
}

static void data_without_feed(struct hex_lines *lines)
{
    lines->count--;
    append(lines, with_drawn_data(0, 0, DATA));
    last_line(lines)->end_length = 0;
}

static void empty_text(struct hex_lines *lines)
{
    lines->count = 0;
    lines->bad = 1;
}

const struct hex_damage hex_damages[] = {
    {"a wrong sum", wrong_sum, HEX_SUM},
    {"a digit in lower case", lower_case, HEX_DIGIT},
    {"a line in lower case", all_lower_case, HEX_DIGIT},
    {"a blank line", blank_line, HEX_COLON},
    {"a blank line with carriage return", blank_line_with_return, HEX_COLON},
    {"a blank before the line", blank_before, HEX_COLON},
    {"a blank after the line", blank_after, HEX_DIGIT},
    {"a blank inside the line", blank_inside, HEX_DIGIT},
    {"no colon", no_colon, HEX_COLON},
    {"another sign for the colon", other_than_colon, HEX_COLON},
    {"two colons", two_colons, HEX_DIGIT},
    {"a sign that is no digit", no_digit, HEX_DIGIT},
    {"a digit less", a_digit_less, HEX_LENGTH},
    {"a digit more", a_digit_more, HEX_LENGTH},
    {"a byte less than the count", a_byte_less, HEX_LENGTH},
    {"a byte more than the count", a_byte_more, HEX_LENGTH},
    {"a count in words that are not there", a_count_too_high, HEX_LENGTH},
    {"a line cut short", cut_short, HEX_LENGTH},
    {"two lines in one", two_lines_in_one, HEX_DIGIT},
    {"a long line", long_line, HEX_LENGTH},
    {"two carriage returns", two_returns, HEX_DIGIT},
    {"a carriage return before the line", return_before, HEX_COLON},
    {"a carriage return inside the line", return_inside, HEX_DIGIT},
    {"a blank after the carriage return", return_and_blank, HEX_DIGIT},
    {"a carriage return for the line feed", return_for_feed, HEX_DIGIT},
    {"a carriage return after the line feed", return_after_feed, HEX_COLON},
    {"a line feed inside the line", feed_inside, HEX_LENGTH},
    {"a count in part words", part_count, HEX_DATA_COUNT},
    {"an address in part words", part_address, HEX_DATA_ADDRESS},
    {"an address in part words of a count 0", part_address_of_none, HEX_DATA_ADDRESS},
    {"a record past its 64 KiB", past_64_KiB, HEX_PAST_64_KIB},
    {"the first word that main lacks", just_not_fitted, HEX_NOT_FITTED},
    {"a far word that main lacks", far_not_fitted, HEX_NOT_FITTED},
    {"data later under an upper address that main lacks", not_fitted_later, HEX_NOT_FITTED},
    {"type 02", type_02, HEX_TYPE},
    {"type 03", type_03, HEX_TYPE},
    {"type 05", type_05, HEX_TYPE},
    {"another type", other_type, HEX_TYPE},
    {"nearly a type", near_type, HEX_TYPE},
    {"an end record with an address", end_with_address, HEX_END},
    {"an end record with data", end_with_data, HEX_END},
    {"a type 04 of another count", upper_count, HEX_UPPER_COUNT},
    {"a type 04 with an address", upper_with_address, HEX_UPPER_ADDRESS},
    {"no end record", no_end, HEX_NO_END},
    {"data after the end record", data_after_end, HEX_AFTER_END},
    {"two end records", end_twice, HEX_AFTER_END},
    {"a blank line after the end record", blank_line_after_end, HEX_AFTER_END},
    {"a sign after the end record", sign_after_end, HEX_AFTER_END},
    {"the end record without line feed", last_without_feed, HEX_LINE_FEED},
    {"the end record cut", last_cut, HEX_LINE_FEED},
    {"data without line feed", data_without_feed, HEX_LINE_FEED},
    {"an empty text", empty_text, HEX_NO_END},
};

const size_t hex_damages_count = sizeof hex_damages / sizeof hex_damages[0];
