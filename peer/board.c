/* A board: all that is lent to a call, in one place. */

#include "board.h"

#include <inttypes.h>
#include <stdio.h>
#include <stdlib.h>
#include <string.h>

/* Words and bytes kept in front of and behind each store and the trail. */
enum { GUARD = 8 };

static void *cleared(size_t count, size_t size)
{
    void *room = calloc(count, size);
    if (room == NULL) {
        fprintf(stderr, "no memory for a board\n");
        exit(2);
    }
    return room;
}

struct board board_with_room(size_t main_room, size_t ports_room, size_t trail_room)
{
    struct board board = {
        .main_room = main_room, .ports_room = ports_room, .trail_room = trail_room};
    board.main = (uint32_t *)cleared(main_room + 2 * GUARD, sizeof(uint32_t)) + GUARD;
    board.ports = (uint32_t *)cleared(ports_room + 2 * GUARD, sizeof(uint32_t)) + GUARD;
    board.trail = (uint8_t *)cleared(trail_room + 2 * GUARD, sizeof(uint8_t)) + GUARD;
    return board;
}

void board_release(struct board *board)
{
    free(board->main - GUARD);
    free(board->ports - GUARD);
    free(board->trail - GUARD);
}

static size_t bytes_of_words(size_t room)
{
    return (room + 2 * GUARD) * sizeof(uint32_t);
}

void board_copy(struct board *to, const struct board *from)
{
    memcpy(to->regs, from->regs, sizeof to->regs);
    to->main_length = from->main_length;
    to->ports_length = from->ports_length;
    to->trail_length = from->trail_length;
    to->used = from->used;
    memcpy(to->main - GUARD, from->main - GUARD, bytes_of_words(from->main_room));
    memcpy(to->ports - GUARD, from->ports - GUARD, bytes_of_words(from->ports_room));
    memcpy(to->trail - GUARD, from->trail - GUARD, from->trail_room + 2 * GUARD);
}

bool board_same(const struct board *one, const struct board *other, bool with_stores)
{
    if (memcmp(one->regs, other->regs, sizeof one->regs) != 0 || one->used != other->used)
        return false;
    if (memcmp(one->trail - GUARD, other->trail - GUARD, one->trail_room + 2 * GUARD) != 0)
        return false;
    if (!with_stores)
        return true;
    return memcmp(one->main - GUARD, other->main - GUARD, bytes_of_words(one->main_room)) == 0 &&
           memcmp(one->ports - GUARD, other->ports - GUARD, bytes_of_words(one->ports_room)) == 0;
}

static void print_machine(const struct board *board)
{
    const uint32_t *r = board->regs;
    printf("P %05" PRIX32 " A %08" PRIX32 " X %08" PRIX32 " Y %08" PRIX32 " B %" PRIX32
           " STOP %" PRIX32 ", %zu bytes in use\n",
           r[3], r[0], r[1], r[2], r[4], r[5], board->used);
}

static void print_instruction(uint32_t word)
{
    printf("  word at P %08" PRIX32 ": rsf %" PRIu32 " msf %" PRIu32 " dsf %" PRIu32
           " csf %" PRIu32 " fsf %" PRIu32 " addr %05" PRIX32 "\n",
           word, word >> 30, word >> 28 & 3, word >> 25 & 7, word >> 24 & 1, word >> 20 & 15,
           word & 0xFFFFF);
}

static void print_newest_bytes(const struct board *board)
{
    size_t end = board->used < board->trail_length ? board->used : board->trail_length;
    size_t from = end > 32 ? end - 32 : 0;
    printf("  trail bytes %zu to %zu:", from, end);
    for (size_t i = from; i < end; i++)
        printf(" %02X", board->trail[i]);
    printf("\n");
}

void board_print(const struct board *board)
{
    printf("  ");
    print_machine(board);
    printf("  main %zu words, ports %zu words, trail %zu bytes\n", board->main_length,
           board->ports_length, board->trail_length);
    if (board->regs[3] < board->main_length)
        print_instruction(board->main[board->regs[3]]);
    print_newest_bytes(board);
}

static void print_store(const char *name, const uint32_t *words, size_t length)
{
    for (size_t i = 0; i < length; i++) {
        if (i % 8 == 0)
            printf("%s  %s %05zX:", i > 0 ? "\n" : "", name, i);
        printf(" %08" PRIX32, words[i]);
    }
    if (length > 0)
        printf("\n");
}

void board_print_words(const struct board *board)
{
    print_store("main", board->main, board->main_length);
    print_store("port", board->ports, board->ports_length);
}

/* The first few words that differ, guards included. */
static void print_word_differences(const char *store, const char *name, const uint32_t *one,
                                   const char *other_name, const uint32_t *other, size_t room)
{
    int shown = 0;
    for (ptrdiff_t i = -GUARD; i < (ptrdiff_t)(room + GUARD) && shown < 8; i++) {
        if (one[i] == other[i])
            continue;
        printf("  %s %tX: %s %08" PRIX32 ", %s %08" PRIX32 "\n", store, i, name, one[i],
               other_name, other[i]);
        shown++;
    }
}

static void print_byte_differences(const char *name, const uint8_t *one, const char *other_name,
                                   const uint8_t *other, size_t room)
{
    int shown = 0;
    for (ptrdiff_t i = -GUARD; i < (ptrdiff_t)(room + GUARD) && shown < 32; i++) {
        if (one[i] == other[i])
            continue;
        printf("  trail byte %td: %s %02X, %s %02X\n", i, name, one[i], other_name, other[i]);
        shown++;
    }
}

void board_print_differences(const char *name, const struct board *one, const char *other_name,
                             const struct board *other)
{
    printf("  %-8s", name);
    print_machine(one);
    printf("  %-8s", other_name);
    print_machine(other);
    print_word_differences("main", name, one->main, other_name, other->main, one->main_room);
    print_word_differences("port", name, one->ports, other_name, other->ports, one->ports_room);
    print_byte_differences(name, one->trail, other_name, other->trail, one->trail_room);
}
