/* Random starts: what a board may look like before a call, lawful or not. */

#include "starts.h"

#include "../include/viper.h"
#include "draw.h"

static uint32_t draw_flag(uint32_t set_one_in)
{
    static const uint32_t set[] = {1, 1, 1, 2, 0x100, 0x80000000, 0xFFFFFFFF};
    return draw_one_in(set_one_in) ? set[draw_below(7)] : 0;
}

static uint32_t draw_unlawful_P(void)
{
    switch (draw_below(4)) {
    case 0: return 0x100000;
    case 1: return 0x100000 + draw_below(SINGLE_MAIN);
    case 2: return 0xFFFFFFFF;
    default: return 0x100000 + draw_below(0xFFEFFFFF);
    }
}

static size_t draw_unlawful_count(size_t trail_length)
{
    switch (draw_below(4)) {
    case 0: return trail_length + 1;
    case 1: return trail_length + 1 + draw_below(100);
    case 2: return SIZE_MAX - draw_below(40);
    default: return trail_length + ((size_t)1 << 32);
    }
}

static void draw_registers(struct board *board)
{
    board->regs[VIPER_A] = draw_word();
    board->regs[VIPER_X] = draw_word();
    board->regs[VIPER_Y] = draw_word();
    board->regs[VIPER_B] = draw_flag(2);
    board->regs[VIPER_STOP] = draw_flag(20);
}

/* Mostly in main, else at its end or next to FFFFF. */
static uint32_t draw_P(size_t main_length)
{
    uint32_t anywhere = draw_20_bits();
    switch (draw_below(24)) {
    case 0: return 0xFFFFF - draw_below(3);
    case 1: return main_length < 0x100000 ? (uint32_t)main_length : 0;
    case 2:
    case 3:
    case 4: return anywhere < main_length ? anywhere : draw_fitted(main_length);
    default: return draw_fitted(main_length);
    }
}

/* ---- One step ---- */

struct fields {
    uint32_t rsf, msf, dsf, csf, fsf, addr;
};

static struct fields fields_of_class(uint32_t class)
{
    return (struct fields){draw_below(4), class >> 8 & 3, class >> 5 & 7, class >> 4 & 1,
                           class & 15,    0};
}

/* Chooses addr, and X or Y beside it, for an address that matters. */
static uint32_t aim_address(struct board *board, struct fields *f, size_t length)
{
    uint32_t target = draw_address(length);
    f->addr = draw_20_bits();
    if (f->msf == 1)
        f->addr = target & 0xFFFFF;
    if (f->msf == 2 && !draw_one_in(8))
        board->regs[VIPER_X] = target - f->addr;
    if (f->msf == 3 && !draw_one_in(8))
        board->regs[VIPER_Y] = target - f->addr;
    if (f->msf < 2)
        return f->addr;
    return f->addr + board->regs[f->msf == 2 ? VIPER_X : VIPER_Y];
}

/* An M for which R + M or R - M, or R beside M, lies at an edge; or a lawful new P. */
static uint32_t draw_operand(uint32_t r)
{
    switch (draw_below(6)) {
    case 0: return r;
    case 1: return draw_word() - r;
    case 2: return r - draw_word();
    case 3: return r + draw_below(3) - 1;
    case 4: return draw_below(SINGLE_MAIN);
    default: return draw_word();
    }
}

/* An R for a constant M, the same way. */
static uint32_t draw_source(uint32_t m)
{
    return draw_one_in(2) ? draw_operand(m) : draw_word() + m;
}

void aim_step(struct board *board, uint32_t class)
{
    struct fields f = fields_of_class(class);
    bool port = f.csf == 0 && (f.dsf == 6 || (f.dsf < 6 && f.fsf == 2));
    size_t length = port ? board->ports_length : board->main_length;
    uint32_t *words = port ? board->ports : board->main;

    draw_registers(board);
    board->regs[VIPER_P] = draw_P(board->main_length);
    uint32_t address = aim_address(board, &f, length);
    uint32_t r = f.rsf == 3 ? board->regs[VIPER_P] + 1 : board->regs[f.rsf];
    bool register_free = f.rsf < 3 && (f.msf < 2 || f.rsf + 1 != f.msf);
    if (f.msf == 0 && register_free && draw_one_in(2))
        board->regs[f.rsf] = draw_source(f.addr);
    if (f.msf > 0 && address < length && draw_one_in(2))
        words[address] = draw_operand(r);
    if (board->regs[VIPER_P] < board->main_length)
        board->main[board->regs[VIPER_P]] =
            instruction(f.rsf, f.msf, f.dsf, f.csf, f.fsf, f.addr);
}

static void draw_words(uint32_t *words, size_t room)
{
    for (size_t i = 0; i < room; i++)
        words[i] = draw_word();
}

static void draw_trail(struct board *board)
{
    for (size_t i = 0; i < board->trail_room; i++)
        board->trail[i] = draw();
}

void draw_count(struct board *board)
{
    size_t free_bytes = draw_below(24);
    if (draw_one_in(2) && free_bytes <= board->trail_length)
        board->used = board->trail_length - free_bytes;
    else
        board->used = draw_below((uint32_t)board->trail_length + 1);
}

void start_single(struct board *board, uint32_t class)
{
    board->main_length = draw_one_in(64) ? 0 : draw_between(1, SINGLE_MAIN);
    board->ports_length = draw_below(SINGLE_PORTS + 1);
    board->trail_length = draw_below(SINGLE_TRAIL + 1);
    draw_words(board->main, SINGLE_MAIN);
    draw_words(board->ports, SINGLE_PORTS);
    draw_trail(board);
    draw_count(board);
    aim_step(board, class);
    if (draw_one_in(48))
        board->regs[VIPER_P] = draw_unlawful_P();
    if (draw_one_in(48))
        board->used = draw_unlawful_count(board->trail_length);
}

/* ---- Sequences ---- */

static size_t draw_length(const size_t *lengths, size_t count)
{
    size_t most = lengths[draw_below((uint32_t)count)];
    return draw_one_in(2) ? most : draw_below((uint32_t)most + 1);
}

static void draw_routine(struct board *board)
{
    size_t routine = draw_one_in(4) ? board->main_length : draw_fitted(board->main_length);
    for (size_t i = 0; i < board->main_room; i++)
        board->main[i] = i < routine ? draw_instruction(routine, board->main_length,
                                                        board->ports_length)
                                     : draw_word();
}

void start_history(struct board *board)
{
    static const size_t mains[] = {0, 4, 16, 40, 40, 200, SEQUENCE_MAIN};
    static const size_t ports[] = {0, 3, 16, SEQUENCE_PORTS};
    static const size_t trails[] = {4, 14, 40, 200, 1000, 4000, SEQUENCE_TRAIL};
    board->main_length = draw_length(mains, sizeof mains / sizeof mains[0]);
    board->ports_length = draw_length(ports, sizeof ports / sizeof ports[0]);
    board->trail_length = draw_length(trails, sizeof trails / sizeof trails[0]);
    board->used = 0;
    draw_routine(board);
    draw_words(board->ports, board->ports_room);
    draw_registers(board);
    board->regs[VIPER_P] = draw_P(board->main_length);
}

void start_sequence(struct board *board)
{
    start_history(board);
    draw_trail(board);
    if (draw_one_in(2))
        draw_count(board);
}

/* ---- Large boards ---- */

static void fill_store(uint32_t *words)
{
    uint32_t from = draw();
    for (uint32_t i = 0; i < LARGE_STORE; i++)
        words[i] = (from + i) * 0x9E3779B1u;
}

void start_large(struct board *board)
{
    board->main_length = draw_one_in(4) ? draw_between(0xFFFFD, 0xFFFFF) : 0x100000;
    board->ports_length = draw_one_in(4) ? draw_between(0xFFFFD, 0xFFFFF) : 0x100000;
    board->trail_length = draw_between(LARGE_TRAIL / 2, LARGE_TRAIL);
    board->used = 0;
    fill_store(board->main);
    fill_store(board->ports);
    draw_trail(board);
    draw_registers(board);
    board->regs[VIPER_P] = draw_P(board->main_length);
}

/* ---- Tampering ---- */

static void tamper_trail(struct board *board)
{
    if (board->used == 0 || board->used > board->trail_length)
        return;
    size_t newest = board->used < 30 ? board->used : 30;
    size_t at = board->used - 1 - draw_below((uint32_t)newest);
    if (draw_one_in(2))
        board->trail[at] ^= 1u << draw_below(8);
    else
        board->trail[at] = draw_one_in(2) ? draw() : draw_below(30);
}

static void tamper_words(struct board *board)
{
    uint32_t address = draw_fitted(board->main_length);
    uint32_t port = draw_fitted(board->ports_length);
    if (board->main_length > 0)
        board->main[address] =
            draw_instruction(board->main_length, board->main_length, board->ports_length);
    if (board->ports_length > 0)
        board->ports[port] = draw_word();
}

static void tamper_register(struct board *board)
{
    uint32_t which = draw_below(3);
    board->regs[which] = draw_word();
}

void tamper(struct board *board)
{
    switch (draw_below(6)) {
    case 0:
    case 1: tamper_trail(board); break;
    case 2: tamper_words(board); break;
    case 3: tamper_register(board); break;
    case 4: board->regs[VIPER_P] = draw_P(board->main_length); break;
    default: draw_count(board); break;
    }
    board->regs[VIPER_B] = draw_flag(2);
    if (draw_one_in(2))
        board->regs[VIPER_STOP] = draw_flag(6);
}

void make_unlawful(struct board *board)
{
    bool large = board->main_room == LARGE_STORE;
    uint32_t which = draw_between(1, large ? 7 : 3);
    if (which & 1)
        board->regs[VIPER_P] = draw_unlawful_P();
    if (which & 2)
        board->used = draw_unlawful_count(board->trail_length);
    if (which & 4 && draw_one_in(2))
        board->main_length = draw_between(0x100001, LARGE_STORE);
    else if (which & 4)
        board->ports_length = draw_between(0x100001, LARGE_STORE);
}
