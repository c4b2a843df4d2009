/* The benchmark's peer: a plain fast interpreter in C with the same trail. It follows document
 * 01's account of the instruction, with a switch over the fields and each record written
 * straight into the trail, and document 02 for a record's kind (W12) and the search (W7). */

#include "fast.h"

#include <stdbool.h>
#include <string.h>

enum { NOT_FITTED = 5, NO_ROOM = 6, NOTHING_IN_USE = 7, BROKEN = 8, HALT = 100 };
enum { STOPPED, BUDGET, UNFITTED, FULL };
enum { MARK_A = 1, MARK_WORD = 8, MARK_B = 16, MARK_STOP = 32 };
enum { BY_STEP = 1, KINDS = 5 };
enum { TOP = 0x100000, LONGEST_STEP = 14 };

struct machine {
    uint32_t reg[4]; /* A, X, Y, and N while a step is done: the four sources by rsf */
    uint32_t p;
    bool b, stop;
};

struct stores {
    uint32_t *main, *ports;
    uint32_t main_length, ports_length;
};

struct trail {
    uint8_t *bytes;
    size_t length, used;
};

/* What a step does: one register or word takes a value, and P, B and STOP take theirs. */
struct effect {
    uint32_t *to; /* none: NULL */
    uint32_t value, place;
    uint8_t mark;
    uint32_t p;
    bool b, stop;
};

/* ---- The trail ---- */

static inline uint8_t *put(uint8_t *at, uint32_t number)
{
    while (number >= 128) {
        *at++ = (uint8_t)(number | 128);
        number >>= 7;
    }
    *at++ = (uint8_t)number;
    return at;
}

static inline uint8_t *put_record(uint8_t *start, const struct machine *m, const struct effect *e,
                                  bool changed)
{
    uint8_t *at = start;
    *at++ = BY_STEP;
    *at++ = (changed ? e->mark : 0) + (m->b ? MARK_B : 0);
    at = put(at, m->p);
    if (changed) {
        if (e->mark == MARK_WORD)
            at = put(at, e->place);
        at = put(at, *e->to);
    }
    *at = (uint8_t)(at - start);
    return at + 1;
}

static inline uint32_t finish(struct machine *m, struct trail *t, const struct effect *e)
{
    const size_t room = t->length - t->used;
    const bool changed = e->to != NULL && *e->to != e->value;
    if (room >= LONGEST_STEP) {
        t->used = (size_t)(put_record(t->bytes + t->used, m, e, changed) - t->bytes);
    } else {
        uint8_t record[LONGEST_STEP];
        const size_t length = (size_t)(put_record(record, m, e, changed) - record);
        if (length > room)
            return NO_ROOM;
        memcpy(t->bytes + t->used, record, length);
        t->used += length;
    }
    if (changed)
        *e->to = e->value;
    m->p = e->p;
    m->b = e->b;
    m->stop = e->stop;
    return 0;
}

/* ---- The instruction ---- */

static inline bool compare(uint32_t fsf, uint32_t r, uint32_t m, bool b)
{
    bool result;
    switch (fsf & 7) {
    case 0: result = (int32_t)r < (int32_t)m; break;
    case 1: result = (int32_t)r >= (int32_t)m; break;
    case 2: result = r == m; break;
    case 3: result = r != m; break;
    case 4: result = (int32_t)r <= (int32_t)m; break;
    case 5: result = (int32_t)r > (int32_t)m; break;
    case 6: result = r < m; break;
    default: result = r >= m; break;
    }
    return result || (fsf >= 8 && b);
}

static inline uint32_t shift(struct effect *e, uint32_t msf, uint32_t r)
{
    const bool old_b = e->b;
    switch (msf) {
    case 0:
        return r >> 1 | (r & 0x80000000);
    case 1:
        e->b = r & 1;
        return r >> 1 | (uint32_t)old_b << 31;
    case 2:
        e->stop = (r ^ r << 1) >> 31;
        return r << 1;
    default:
        e->b = r >> 31;
        return r << 1 | old_b;
    }
}

/* Functions 0 to 11. */
static inline uint32_t result(struct effect *e, uint32_t fsf, uint32_t r, uint32_t m)
{
    switch (fsf) {
    case 0: return ~m;
    case 4: e->b = r + m < r; return r + m;
    case 5: e->stop = ((r ^ (r + m)) & (m ^ (r + m))) >> 31; return r + m;
    case 6: e->b = r < m; return r - m;
    case 7: e->stop = ((r ^ m) & (r ^ (r - m))) >> 31; return r - m;
    case 8: return r ^ m;
    case 9: return r & m;
    case 10: return ~(r | m);
    case 11: return r & ~m;
    default: return m;
    }
}

/* The word at P, taken apart. */
struct fetched {
    uint32_t msf, dsf, fsf, addr;
    uint32_t r, address;
};

/* M for an instruction that has one: a constant or a word of the given store. */
static inline uint32_t operand(const struct fetched *f, const uint32_t *words, uint32_t length,
                               uint32_t *m)
{
    if (f->address >= TOP)
        return HALT;
    if (f->msf == 0) {
        *m = f->addr;
        return 0;
    }
    if (f->address >= length)
        return NOT_FITTED;
    *m = words[f->address];
    return 0;
}

static inline uint32_t comparison(const struct fetched *f, const struct stores *s,
                                  struct effect *e)
{
    uint32_t m;
    uint32_t outcome = operand(f, s->main, s->main_length, &m);
    if (outcome == 0)
        e->b = compare(f->fsf, f->r, m, e->b);
    return outcome;
}

static inline uint32_t to_store(const struct fetched *f, const struct stores *s, struct effect *e)
{
    const bool port = f->dsf == 6;
    if (f->msf == 0 || f->address >= TOP)
        return HALT;
    if (f->address >= (port ? s->ports_length : s->main_length))
        return NOT_FITTED;
    e->to = port ? &s->ports[f->address] : &s->main[f->address];
    e->place = port ? TOP + f->address : f->address;
    e->mark = MARK_WORD;
    e->value = f->r;
    return 0;
}

static inline uint32_t to_register(const struct fetched *f, const struct stores *s,
                                   struct machine *machine, struct effect *e)
{
    uint32_t m, outcome;
    if (f->fsf == 1 || f->fsf >= 13)
        return HALT;
    e->to = &machine->reg[f->dsf];
    e->mark = (uint8_t)(MARK_A << f->dsf);
    if (f->fsf == 12) {
        e->value = shift(e, f->msf, f->r);
        return 0;
    }
    outcome = f->fsf == 2 ? operand(f, s->ports, s->ports_length, &m)
                          : operand(f, s->main, s->main_length, &m);
    if (outcome == 0)
        e->value = result(e, f->fsf, f->r, m);
    return outcome;
}

static inline uint32_t to_P(const struct fetched *f, const struct stores *s,
                            struct machine *machine, struct effect *e)
{
    uint32_t m, outcome;
    if (f->fsf != 1 && f->fsf != 3 && f->fsf != 5 && f->fsf != 7)
        return HALT;
    if ((f->dsf == 5 && e->b) || (f->dsf == 4 && !e->b))
        return 0;
    outcome = operand(f, s->main, s->main_length, &m);
    if (outcome != 0)
        return outcome;
    if (f->fsf == 1) {
        e->to = &machine->reg[2];
        e->mark = MARK_A << 2;
        e->value = e->p;
    }
    e->p = result(e, f->fsf, f->r, m);
    if (e->p >= TOP) {
        e->stop = true;
        e->p &= 0xFFFFF;
    }
    return 0;
}

static inline uint32_t step(struct machine *machine, const struct stores *s, struct trail *t)
{
    if (machine->p >= s->main_length)
        return NOT_FITTED;
    const uint32_t word = s->main[machine->p];
    const uint32_t n = machine->p + 1;
    struct fetched f = {word >> 28 & 3, word >> 25 & 7, word >> 20 & 15, word & 0xFFFFF, 0, 0};
    machine->reg[3] = n;
    f.r = machine->reg[word >> 30];
    f.address = f.msf < 2 ? f.addr : f.addr + machine->reg[f.msf - 1];

    struct effect e = {.p = n, .b = machine->b};
    uint32_t outcome = n == TOP         ? HALT
                       : word >> 24 & 1 ? comparison(&f, s, &e)
                       : f.dsf >= 6     ? to_store(&f, s, &e)
                       : f.dsf < 3      ? to_register(&f, s, machine, &e)
                                        : to_P(&f, s, machine, &e);
    if (outcome == NOT_FITTED)
        return NOT_FITTED;
    if (outcome == HALT)
        e = (struct effect){.p = n & 0xFFFFF, .b = machine->b, .stop = true};
    return finish(machine, t, &e);
}

/* ---- The calls ---- */

static inline uint32_t refused(const uint32_t regs[6], size_t main_length, size_t ports_length,
                               size_t trail_length, size_t used)
{
    if (regs[3] >= TOP)
        return 1;
    if (main_length > TOP || ports_length > TOP)
        return 2;
    return used > trail_length ? 3 : 0;
}

static inline struct machine loaded(const uint32_t regs[6])
{
    return (struct machine){{regs[0], regs[1], regs[2], 0}, regs[3], regs[4] != 0, regs[5] != 0};
}

static inline void store(uint32_t regs[6], const struct machine *m)
{
    regs[0] = m->reg[0];
    regs[1] = m->reg[1];
    regs[2] = m->reg[2];
    regs[3] = m->p;
    regs[4] = m->b;
    regs[5] = m->stop;
}

uint32_t fast_step(uint32_t regs[6],
                   uint32_t *main, size_t main_length,
                   uint32_t *ports, size_t ports_length,
                   uint8_t *trail, size_t trail_length, size_t *used)
{
    uint32_t refusal = refused(regs, main_length, ports_length, trail_length, *used);
    if (refusal != 0)
        return refusal;
    if (regs[5] != 0)
        return 4;
    struct machine m = loaded(regs);
    const struct stores s = {main, ports, (uint32_t)main_length, (uint32_t)ports_length};
    struct trail t = {trail, trail_length, *used};
    refusal = step(&m, &s, &t);
    if (refusal != 0)
        return refusal;
    store(regs, &m);
    *used = t.used;
    return 0;
}

uint64_t fast_run(uint32_t regs[6],
                  uint32_t *main, size_t main_length,
                  uint32_t *ports, size_t ports_length,
                  uint8_t *trail, size_t trail_length, size_t *used,
                  uint32_t budget)
{
    uint32_t refusal = refused(regs, main_length, ports_length, trail_length, *used);
    if (refusal != 0)
        return (uint64_t)(16 + refusal) << 32;
    struct machine m = loaded(regs);
    const struct stores s = {main, ports, (uint32_t)main_length, (uint32_t)ports_length};
    struct trail t = {trail, trail_length, *used};
    uint32_t done = 0;
    while (!m.stop && done != budget) {
        refusal = step(&m, &s, &t);
        if (refusal != 0)
            break;
        done++;
    }
    store(regs, &m);
    *used = t.used;
    uint64_t ending = refusal == NOT_FITTED ? UNFITTED
                      : refusal == NO_ROOM  ? FULL
                      : m.stop              ? STOPPED
                                            : BUDGET;
    return done + (ending << 32);
}

/* ---- Records read ---- */

/* Reads a number below the limit and moves on, or answers false. */
static inline bool get(const uint8_t **at, const uint8_t *end, uint64_t limit, uint32_t *number)
{
    uint64_t value = 0;
    for (unsigned bits = 0; *at < end && bits < 35; bits += 7) {
        const uint8_t byte = *(*at)++;
        value |= (uint64_t)(byte & 127) << bits;
        if (byte < 128) {
            *number = (uint32_t)value;
            return value < limit && (byte != 0 || bits == 0);
        }
    }
    return false;
}

static inline uint32_t *word_at(const struct stores *s, uint32_t place)
{
    if (place < TOP)
        return place < s->main_length ? &s->main[place] : NULL;
    return place - TOP < s->ports_length ? &s->ports[place - TOP] : NULL;
}

uint32_t fast_back(uint32_t regs[6],
                   uint32_t *main, size_t main_length,
                   uint32_t *ports, size_t ports_length,
                   const uint8_t *trail, size_t trail_length, size_t *used)
{
    const uint64_t word_limit = (uint64_t)1 << 32;
    uint32_t refusal = refused(regs, main_length, ports_length, trail_length, *used);
    if (refusal != 0)
        return refusal;
    if (*used == 0)
        return NOTHING_IN_USE;
    const uint8_t *end = trail + *used - 1;
    const size_t L = *end;
    if (L < 3 || L > 28 || *used < L + 1)
        return BROKEN;
    const struct stores s = {main, ports, (uint32_t)main_length, (uint32_t)ports_length};
    const uint8_t *at = end - L;
    uint32_t old[4] = {regs[0], regs[1], regs[2], 0};
    uint32_t kind, marks, place, value = 0;
    uint32_t *word = NULL;
    if (!get(&at, end, KINDS, &kind) || !get(&at, end, 64, &marks) ||
        !get(&at, end, TOP, &old[3]))
        return BROKEN;
    for (int i = 0; i < 3; i++)
        if (marks >> i & 1 && !get(&at, end, word_limit, &old[i]))
            return BROKEN;
    if (marks & MARK_WORD) {
        if (!get(&at, end, 2 * TOP, &place) || !get(&at, end, word_limit, &value))
            return BROKEN;
        word = word_at(&s, place);
        if (word == NULL)
            return BROKEN;
    }
    if (at != end)
        return BROKEN;
    if (word != NULL)
        *word = value;
    memcpy(regs, old, sizeof old);
    regs[4] = (marks & MARK_B) != 0;
    regs[5] = (marks & MARK_STOP) != 0;
    *used -= L + 1;
    return 0;
}

/* A record as a search answers it. */
enum { KIND, MARKS, P, A, X, Y, PLACE, VALUE, NUMBERS };

static inline bool fitted(size_t main_length, size_t ports_length, uint32_t place)
{
    return place < TOP ? place < main_length : place - TOP < ports_length;
}

/* Reads the newest record of so many bytes in use; what it does not mark stays. Answers its bytes
 * with L, or 0 if it is broken. Take back reads for itself: its numbers then stay in registers,
 * and it is half as fast again. */
static inline size_t read_newest(const uint8_t *trail, size_t used, size_t main_length,
                                 size_t ports_length, uint32_t record[NUMBERS])
{
    const uint64_t word_limit = (uint64_t)1 << 32;
    const uint8_t *end = trail + used - 1;
    const size_t L = *end;
    if (L < 3 || L > 28 || used < L + 1)
        return 0;
    const uint8_t *at = end - L;
    if (!get(&at, end, KINDS, &record[KIND]) || !get(&at, end, 64, &record[MARKS]) ||
        !get(&at, end, TOP, &record[P]))
        return 0;
    const uint32_t marks = record[MARKS];
    for (int i = 0; i < 3; i++)
        if (marks >> i & 1 && !get(&at, end, word_limit, &record[A + i]))
            return 0;
    if (marks & MARK_WORD &&
        (!get(&at, end, 2 * TOP, &record[PLACE]) || !get(&at, end, word_limit, &record[VALUE]) ||
         !fitted(main_length, ports_length, record[PLACE])))
        return 0;
    return at == end ? L + 1 : 0;
}

uint32_t fast_find(const uint32_t *main, size_t main_length,
                   const uint32_t *ports, size_t ports_length,
                   const uint8_t *trail, size_t trail_length, size_t used,
                   uint32_t store, uint32_t address,
                   size_t *back, uint32_t record[8])
{
    const uint32_t none = 0xFFFFFFFF;
    const uint32_t wanted = address >= TOP ? none : store == 0 ? address : TOP + address;
    uint32_t walked[NUMBERS] = {0};
    (void)main;
    (void)ports;
    *back = 0;
    memset(record, 0, NUMBERS * sizeof *record);
    if (used > trail_length)
        return 3;
    for (size_t count = 1; used > 0; count++) {
        const size_t length = read_newest(trail, used, main_length, ports_length, walked);
        if (length == 0)
            return BROKEN;
        if (walked[MARKS] & MARK_WORD && walked[PLACE] == wanted) {
            *back = count;
            read_newest(trail, used, main_length, ports_length, record);
            return 0;
        }
        used -= length;
    }
    return 0;
}
