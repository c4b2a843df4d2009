/* Random draws from a seed, biased to the edges at which the rules of document 01 turn. */

#include "draw.h"

static uint64_t state;

static uint64_t mix(uint64_t z)
{
    z = (z ^ z >> 30) * 0xBF58476D1CE4E5B9u;
    z = (z ^ z >> 27) * 0x94D049BB133111EBu;
    return z ^ z >> 31;
}

void draw_from(uint64_t seed, uint64_t trial)
{
    state = mix(mix(seed) + trial);
}

uint64_t draw_mark(void)
{
    return state;
}

void draw_again(uint64_t mark)
{
    state = mark;
}

uint32_t draw(void)
{
    state += 0x9E3779B97F4A7C15u;
    return mix(state) >> 32;
}

uint32_t draw_below(uint32_t n)
{
    return (uint64_t)draw() * n >> 32;
}

uint32_t draw_between(uint32_t low, uint32_t high)
{
    return low + draw_below(high - low + 1);
}

bool draw_one_in(uint32_t n)
{
    return draw_below(n) == 0;
}

/* n, or one of its two neighbours on each side. */
static uint32_t draw_near(uint32_t n)
{
    return n + draw_below(5) - 2;
}

/* A number of any count of bits, all counts being as likely. */
static uint32_t draw_short(void)
{
    uint32_t bits = draw_below(32);
    return draw() >> bits;
}

/* Next to a power of two below 2^bits, where a number gets one more bit or group. */
static uint32_t draw_near_power(uint32_t bits)
{
    uint32_t power = 1u << draw_below(bits);
    return draw_near(power);
}

uint32_t draw_word(void)
{
    static const uint32_t edges[] = {0, 0, 0x7FFFFFFF, 0x80000000, 0xFFFFF, 0x100000, 0x40000000};
    switch (draw_below(8)) {
    case 0:
    case 1: return draw();
    case 2: return draw_short();
    case 3: return draw_near_power(32);
    default: return draw_near(edges[draw_below(sizeof edges / sizeof edges[0])]);
    }
}

uint32_t draw_20_bits(void)
{
    switch (draw_below(5)) {
    case 0: return draw_below(64);
    case 1: return 0xFFFFF - draw_below(4);
    case 2: return draw_near_power(20) & 0xFFFFF;
    default: return draw_below(0x100000);
    }
}

uint32_t draw_fitted(size_t length)
{
    return length == 0 ? 0 : draw_below((uint32_t)length);
}

uint32_t draw_address(size_t length)
{
    switch (draw_below(16)) {
    case 0:
    case 1: return draw_near((uint32_t)length);
    case 2: return draw_near(0x100000);
    case 3: return draw_near(0);
    case 4: return draw_one_in(2) ? draw_20_bits() : draw();
    default: return draw_fitted(length);
    }
}

uint32_t instruction(uint32_t rsf, uint32_t msf, uint32_t dsf, uint32_t csf, uint32_t fsf,
                     uint32_t addr)
{
    return rsf << 30 | msf << 28 | dsf << 25 | csf << 24 | fsf << 20 | addr;
}

/* Draws follow one another in C only where statements do, so each stands alone. */

static uint32_t draw_to_register(size_t main_length, size_t ports_length)
{
    static const uint32_t functions[] = {0, 2, 3, 3, 4, 4, 6, 6, 5, 7, 8, 9, 10, 11, 12, 12, 12};
    uint32_t fsf = functions[draw_below(sizeof functions / sizeof functions[0])];
    uint32_t msf = fsf == 12 ? draw_below(4) : draw_below(2);
    uint32_t addr = msf == 0 ? draw_20_bits() : draw_fitted(fsf == 2 ? ports_length : main_length);
    uint32_t rsf = draw_below(4);
    return instruction(rsf, msf, draw_below(3), 0, fsf, addr);
}

static uint32_t draw_comparison(size_t main_length)
{
    uint32_t msf = draw_below(2);
    uint32_t addr = msf == 0 ? draw_20_bits() : draw_fitted(main_length);
    uint32_t rsf = draw_below(4);
    uint32_t dsf = draw_below(8);
    return instruction(rsf, msf, dsf, 1, draw_below(16), addr);
}

static uint32_t draw_write(size_t main_length, size_t ports_length)
{
    uint32_t dsf = draw_between(6, 7);
    uint32_t addr = draw_fitted(dsf == 6 ? ports_length : main_length);
    uint32_t rsf = draw_below(4);
    return instruction(rsf, 1, dsf, 0, draw_below(16), addr);
}

static uint32_t draw_jump(size_t routine)
{
    uint32_t rsf = draw_below(4);
    uint32_t dsf = draw_between(3, 5);
    switch (draw_below(4)) {
    case 0: return instruction(3, 0, dsf, 0, 5, draw_below(4));
    case 1: return instruction(2, 0, dsf, 0, 5, 0);
    case 2: return instruction(rsf, 0, dsf, 0, 1, draw_fitted(routine));
    default: return instruction(rsf, 0, dsf, 0, 3, draw_fitted(routine));
    }
}

static uint32_t draw_indexed(size_t main_length)
{
    uint32_t class = draw_between(2 << 8, 3 << 8 | 0xFF);
    uint32_t rsf = draw_below(4);
    return rsf << 30 | class << 20 | draw_fitted(main_length);
}

static uint32_t draw_index(void)
{
    uint32_t dsf = draw_between(1, 2);
    return instruction(0, 0, dsf, 0, 3, draw_below(16));
}

uint32_t draw_instruction(size_t routine, size_t main_length, size_t ports_length)
{
    uint32_t one_of_24 = draw_below(24);
    if (one_of_24 < 1)
        return draw();
    if (one_of_24 < 2)
        return draw_indexed(main_length);
    if (one_of_24 < 4)
        return draw_index();
    if (one_of_24 < 8)
        return draw_write(main_length, ports_length);
    if (one_of_24 < 12)
        return draw_comparison(main_length);
    if (one_of_24 < 16)
        return draw_jump(routine);
    return draw_to_register(main_length, ports_length);
}
