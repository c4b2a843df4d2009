/* The second program for Intel HEX: document 02, W4, sentence by sentence. It is meant to be plain,
 * not fast. */

#include "second_hex.h"

#include <stdbool.h>

enum { MOST_WORDS = 1048576, BYTES_A_RECORD = 16, SEGMENT = 0x10000 };

enum { DATA = 0x00, END_OF_FILE = 0x01, UPPER_ADDRESS = 0x04 };

/* The bytes of a record: count, address (high byte first), type, data, sum. */
enum { COUNT, ADDRESS_HIGH, ADDRESS_LOW, TYPE, FIRST_DATA };

enum { MOST_RECORD_BYTES = FIRST_DATA + 255 + 1 };

/* What the standard's record holds. */
struct record {
    uint32_t count, address, type;
    uint8_t bytes[MOST_RECORD_BYTES];
};

const char *hex_fault_name(enum hex_fault fault)
{
    static const char *const names[HEX_FAULTS] = {
        [HEX_GOOD] = "good",
        [HEX_AFTER_END] = "after the end record",
        [HEX_LINE_FEED] = "no line feed",
        [HEX_COLON] = "no colon",
        [HEX_DIGIT] = "no digit",
        [HEX_LENGTH] = "length",
        [HEX_SUM] = "sum",
        [HEX_TYPE] = "type",
        [HEX_END] = "type 01 not the end record",
        [HEX_UPPER_COUNT] = "type 04 count",
        [HEX_UPPER_ADDRESS] = "type 04 address",
        [HEX_DATA_COUNT] = "count in part words",
        [HEX_DATA_ADDRESS] = "address in part words",
        [HEX_PAST_64_KIB] = "past 64 KiB",
        [HEX_NOT_FITTED] = "not fitted",
        [HEX_NO_END] = "no end record",
    };
    return names[fault];
}

/* ---- Digits ---- */

/* The value of a capital hex digit, or -1. */
static int digit_value(uint8_t sign)
{
    if (sign >= '0' && sign <= '9')
        return sign - '0';
    if (sign >= 'A' && sign <= 'F')
        return sign - 'A' + 10;
    return -1;
}

static uint8_t byte_value(const uint8_t *two_digits)
{
    return (uint8_t)(digit_value(two_digits[0]) * 16 + digit_value(two_digits[1]));
}

/* ---- One line ---- */

/* "In the standard's layout, capitals and sum": a colon, then pairs of digits for count, address,
 * type, as many data bytes as the count says, and the sum. The signs are those before the line
 * end. */
static enum hex_fault read_record(const uint8_t *signs, size_t length, struct record *record)
{
    if (length == 0 || signs[0] != ':')
        return HEX_COLON;
    for (size_t i = 1; i < length; i++)
        if (digit_value(signs[i]) < 0)
            return HEX_DIGIT;
    if (length < 11 || length != 11 + 2 * (size_t)byte_value(signs + 1))
        return HEX_LENGTH;
    uint8_t sum = 0;
    for (size_t i = 0; i < (length - 1) / 2; i++) {
        record->bytes[i] = byte_value(signs + 1 + 2 * i);
        sum += record->bytes[i];
    }
    record->count = record->bytes[COUNT];
    record->address = record->bytes[ADDRESS_HIGH] * 256u + record->bytes[ADDRESS_LOW];
    record->type = record->bytes[TYPE];
    return sum == 0 ? HEX_GOOD : HEX_SUM;
}

/* The word address of a data record's first word. */
static uint64_t first_word(const struct record *record, uint32_t upper)
{
    return ((uint64_t)upper * SEGMENT + record->address) / 4;
}

/* "Data counts (0 too) and addresses in whole words, no record past its 64 KiB"; "a data word main
 * lacks makes its line bad". */
static enum hex_fault judge_data(const struct record *record, uint32_t upper, size_t main_length)
{
    if (record->count % 4 != 0)
        return HEX_DATA_COUNT;
    if (record->address % 4 != 0)
        return HEX_DATA_ADDRESS;
    if (record->address + record->count > SEGMENT)
        return HEX_PAST_64_KIB;
    for (uint32_t i = 0; i < record->count / 4; i++)
        if (first_word(record, upper) + i >= main_length)
            return HEX_NOT_FITTED;
    return HEX_GOOD;
}

/* "Accept types 00, 01 and 04." */
static enum hex_fault judge_record(const struct record *record, uint32_t upper, size_t main_length)
{
    switch (record->type) {
    case DATA:
        return judge_data(record, upper, main_length);
    case END_OF_FILE:
        return record->count == 0 && record->address == 0 ? HEX_GOOD : HEX_END;
    case UPPER_ADDRESS:
        if (record->count != 2)
            return HEX_UPPER_COUNT;
        return record->address == 0 ? HEX_GOOD : HEX_UPPER_ADDRESS;
    default:
        return HEX_TYPE;
    }
}

/* "Each word high byte first at byte address four times its own." */
static void write_data(const struct record *record, uint32_t upper, uint32_t *main)
{
    const uint8_t *data = record->bytes + FIRST_DATA;
    for (uint32_t i = 0; i < record->count / 4; i++, data += 4)
        main[first_word(record, upper) + i] =
            (uint32_t)data[0] << 24 | (uint32_t)data[1] << 16 | (uint32_t)data[2] << 8 | data[3];
}

/* ---- A whole text ---- */

/* How far a text has been read. */
struct reading {
    size_t at;
    uint64_t line;
    uint32_t upper;
    bool ended;
};

/* "Lines end with a line feed, on import also with a carriage return before it; nothing follows the
 * end record." Reads the next line, and goes past it if it is good. */
static enum hex_fault read_line(struct reading *reading, const uint8_t *text, size_t text_length,
                                size_t main_length, struct record *record)
{
    size_t feed = reading->at;
    if (reading->ended)
        return HEX_AFTER_END;
    while (feed < text_length && text[feed] != '\n')
        feed++;
    if (feed == text_length)
        return HEX_LINE_FEED;
    size_t length = feed - reading->at;
    if (length > 0 && text[feed - 1] == '\r')
        length--;
    enum hex_fault fault = read_record(text + reading->at, length, record);
    if (fault == HEX_GOOD)
        fault = judge_record(record, reading->upper, main_length);
    reading->at = feed + 1;
    return fault;
}

/* Reads all lines up to the first bad one; the words go to main if writing. */
static struct hex_bad_line read_text(const uint8_t *text, size_t text_length, uint32_t *main,
                                     size_t main_length, bool writing)
{
    struct reading reading = {.upper = 0};
    struct record record;
    while (reading.at < text_length) {
        reading.line++;
        enum hex_fault fault = read_line(&reading, text, text_length, main_length, &record);
        if (fault != HEX_GOOD)
            return (struct hex_bad_line){reading.line, fault};
        if (record.type == END_OF_FILE)
            reading.ended = true;
        if (record.type == UPPER_ADDRESS)
            reading.upper = record.bytes[FIRST_DATA] * 256u + record.bytes[FIRST_DATA + 1];
        if (record.type == DATA && writing)
            write_data(&record, reading.upper, main);
    }
    if (!reading.ended)
        return (struct hex_bad_line){reading.line + 1, HEX_NO_END};
    return (struct hex_bad_line){0, HEX_GOOD};
}

uint64_t second_hex_import(uint32_t *main, size_t main_length, size_t *used, const uint8_t *text,
                           size_t text_length, struct hex_bad_line *bad)
{
    *bad = (struct hex_bad_line){0, HEX_GOOD};
    if (main_length > MOST_WORDS)
        return 2;
    *bad = read_text(text, text_length, main, main_length, false);
    if (bad->fault != HEX_GOOD)
        return 12 | (bad->line > UINT32_MAX ? UINT32_MAX : bad->line) << 32;
    read_text(text, text_length, main, main_length, true);
    *used = 0;
    return 0;
}

/* ---- Export ---- */

/* An output that only counts its bytes where bytes is null. */
struct output {
    uint8_t *bytes;
    size_t length;
    uint8_t sum;
};

static void put_sign(struct output *out, char sign)
{
    if (out->bytes != NULL)
        out->bytes[out->length] = (uint8_t)sign;
    out->length++;
}

static void put_byte(struct output *out, uint32_t byte)
{
    static const char digits[] = "0123456789ABCDEF";
    put_sign(out, digits[byte / 16]);
    put_sign(out, digits[byte % 16]);
    out->sum += (uint8_t)byte;
}

static void begin_record(struct output *out, uint32_t count, uint32_t address, uint32_t type)
{
    put_sign(out, ':');
    out->sum = 0;
    put_byte(out, count);
    put_byte(out, address / 256);
    put_byte(out, address % 256);
    put_byte(out, type);
}

/* The sum makes all bytes of the record add up to 0 modulo 256. */
static void end_record(struct output *out)
{
    put_byte(out, (uint8_t)-out->sum);
    put_sign(out, '\n');
}

static void put_upper_address(struct output *out, uint32_t upper)
{
    begin_record(out, 2, 0, UPPER_ADDRESS);
    put_byte(out, upper / 256);
    put_byte(out, upper % 256);
    end_record(out);
}

static void put_data(struct output *out, const uint32_t *main, size_t first, uint32_t count)
{
    begin_record(out, count, (uint32_t)(first * 4 % SEGMENT), DATA);
    for (uint32_t i = 0; i < count; i++)
        put_byte(out, main[first + i / 4] >> (24 - i % 4 * 8) & 0xFF);
    end_record(out);
}

/* "Sixteen data bytes a record (fewer in the last), a type 04 record at the start and at each
 * 64 KiB, and one end record." */
static void put_text(struct output *out, const uint32_t *main, size_t main_length)
{
    put_upper_address(out, 0);
    for (size_t first = 0; first < main_length; first += BYTES_A_RECORD / 4) {
        size_t left = (main_length - first) * 4;
        if (first > 0 && first * 4 % SEGMENT == 0)
            put_upper_address(out, (uint32_t)(first * 4 / SEGMENT));
        put_data(out, main, first, left < BYTES_A_RECORD ? (uint32_t)left : BYTES_A_RECORD);
    }
    begin_record(out, 0, 0, END_OF_FILE);
    end_record(out);
}

uint64_t second_hex_export(const uint32_t *main, size_t main_length, uint8_t *out,
                           size_t out_length)
{
    struct output counted = {.bytes = NULL};
    struct output written = {.bytes = out};
    if (main_length > MOST_WORDS)
        return 2;
    put_text(&counted, main, main_length);
    if (counted.length > out_length)
        return 9;
    put_text(&written, main, main_length);
    return (uint64_t)written.length << 32;
}
