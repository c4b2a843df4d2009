/* The second program. Its first half is section 3 of the report (source document 004), page by
 * page and function by function; its second half is document 01's rules around it: refusals,
 * records (with document 02's kind, W12), run, take back, view. */

#include "second.h"

#include "second_record.h"

#include <string.h>

/* ---- Words and lists of booleans (report, page 8 and annex A) ---- */

typedef uint8_t word1, word2, word3, word4;
typedef uint32_t word20, word21, word32;
typedef uint64_t word33, word34;
typedef uint64_t num;

/* A list of booleans stands as the number that V makes of it; EL 0 is its lowest bit. */

static num WORD(int width, num value)
{
    return value & (((num)1 << width) - 1);
}

static bool EL(int n, num list)
{
    return list >> n & 1;
}

static num SEG(int low, int high, num list)
{
    return WORD(high - low + 1, list >> low);
}

/* The tail of a list of the given length: all but its highest bit. */
static num TL(int length, num list)
{
    return WORD(length - 1, list);
}

/* A list of the given length with a new highest bit. */
static num CONS(bool head, int length, num list)
{
    return (num)head << length | list;
}

static word33 NOT33(word33 v)
{
    return WORD(33, ~v);
}

static word32 NOT32(word32 v)
{
    return ~v;
}

/* ---- The address space: 21 bits, the highest being "io" ---- */

/* The two stores as the state before an instruction has them, and the word that STORE21 put
 * over them, if any. A place that is not fitted is noted, since a step then refuses. */
typedef struct {
    const struct second *stores;
    bool stored;
    word21 place;
    word32 word;
    bool *unfitted;
} mem21_32;

/* The word at a place, or nothing where it is not fitted. */
static uint32_t *word_at(const struct second *bench, word21 place)
{
    if (place < PORTS_FROM)
        return place < bench->main_length ? &bench->main[place] : NULL;
    return place - PORTS_FROM < bench->ports_length ? &bench->ports[place - PORTS_FROM] : NULL;
}

static word32 FETCH21(mem21_32 ram, word21 place)
{
    const uint32_t *word = word_at(ram.stores, place);
    if (word == NULL) {
        *ram.unfitted = true;
        return 0;
    }
    return ram.stored && ram.place == place ? ram.word : *word;
}

static mem21_32 STORE21(word21 place, word32 value, mem21_32 ram)
{
    if (word_at(ram.stores, place) == NULL)
        *ram.unfitted = true;
    ram.stored = true;
    ram.place = place;
    ram.word = value;
    return ram;
}

/* ---- Triples, trimming, padding, shifting ---- */

/* What ADD32 and SUB32 deliver, and what the ALU delivers: VALUE, CARRY, OFLO, BVAL and SVAL
 * are the names of the parts. */
typedef struct {
    word32 VALUE;
    bool CARRY, OFLO;
} sum32;

typedef struct {
    word32 VALUE;
    bool BVAL, SVAL;
} alu32;

static word20 TRIM32TO20(word32 v)
{
    return WORD(20, SEG(0, 19, v));
}

static word32 TRIM34TO32(word34 v)
{
    return WORD(32, TL(33, TL(34, v)));
}

static word32 PAD20TO32(word20 v)
{
    return v;
}

static word33 SIGNEXT(word32 v)
{
    return WORD(33, CONS(EL(31, v), 32, v));
}

static word32 RIGHT(bool b, word32 r)
{
    return WORD(32, CONS(b, 31, SEG(1, 31, r)));
}

/* Document 01: the 1 is added before the result becomes a word. */
static word32 LEFT(word32 r, bool b)
{
    num twice = TL(32, r);
    return b ? WORD(32, twice + twice + 1) : WORD(32, twice + twice);
}

static word32 RIGHTARITH(word32 r)
{
    bool sign = EL(31, r);
    return WORD(32, CONS(sign, 31, SEG(1, 31, r)));
}

/* ---- Arithmetic and comparison ---- */

static num NEG(word33 m)
{
    return m == 0 ? 0 : NOT33(m) + 1;
}

static sum32 ADD32(word32 r, word32 m)
{
    word34 sum = WORD(34, SIGNEXT(r) + SIGNEXT(m));
    bool opposite = EL(31, r) ^ EL(31, m);
    return (sum32){TRIM34TO32(sum), EL(32, sum) ^ opposite, EL(32, sum) ^ EL(31, sum)};
}

static sum32 SUB32(word32 r, word32 m)
{
    word34 dif = WORD(34, SIGNEXT(r) + NEG(SIGNEXT(m)));
    bool opposite = EL(31, r) ^ EL(31, m);
    return (sum32){TRIM34TO32(dif), EL(32, dif) ^ opposite, EL(32, dif) ^ EL(31, dif)};
}

static word32 INCP32(word20 p)
{
    return ADD32(PAD20TO32(p), 1).VALUE;
}

/* Document 01: the last case is (NOT borrow) OR b. */
static bool COMPARE(word4 fsf, word32 r, word32 m, bool b)
{
    word34 dif = WORD(34, SIGNEXT(r) + NEG(SIGNEXT(m)));
    bool equal = r == m;
    bool less = EL(32, dif);
    bool borrow = EL(32, dif) ^ (EL(31, r) ^ EL(31, m));
    switch (fsf) {
    case 0: return less;
    case 1: return !less;
    case 2: return equal;
    case 3: return !equal;
    case 4: return less || equal;
    case 5: return !(less || equal);
    case 6: return borrow;
    case 7: return !borrow;
    case 8: return less || b;
    case 9: return !less || b;
    case 10: return equal || b;
    case 11: return !equal || b;
    case 12: return (less || equal) || b;
    case 13: return !(less || equal) || b;
    case 14: return borrow || b;
    default: return !borrow || b;
    }
}

/* ---- The registers and the address space as an instruction sees them ---- */

static word32 REG(word2 rsf, word32 a, word32 x, word32 y, word20 p)
{
    return rsf == 0 ? a : rsf == 1 ? x : rsf == 2 ? y : PAD20TO32(p);
}

static word32 OFFSET(word2 msf, word20 addr, word32 x, word32 y)
{
    word32 addr32 = PAD20TO32(addr);
    return msf == 0   ? addr32
           : msf == 1 ? addr32
           : msf == 2 ? ADD32(addr32, x).VALUE
                      : ADD32(addr32, y).VALUE;
}

static bool INVALID(word32 value)
{
    return !(value == PAD20TO32(TRIM32TO20(value)));
}

static word32 INSTFETCH(mem21_32 ram, word20 p)
{
    return FETCH21(ram, WORD(21, CONS(false, 20, p)));
}

static word32 MEMREAD(mem21_32 ram, word2 msf, word20 addr, word32 x, word32 y, bool io, bool nil)
{
    if (nil)
        return 0;
    if (msf == 0)
        return PAD20TO32(addr);
    return FETCH21(ram, WORD(21, CONS(io, 20, TRIM32TO20(OFFSET(msf, addr, x, y)))));
}

static mem21_32 MEMWRITE(mem21_32 ram, word32 source, word2 msf, word20 addr, word32 x, word32 y,
                         bool io)
{
    if (msf == 0)
        return ram;
    return STORE21(WORD(21, CONS(io, 20, TRIM32TO20(OFFSET(msf, addr, x, y)))), source, ram);
}

/* ---- The ALU ---- */

/* Its function 12. */
static alu32 SHIFT(word2 msf, word32 r, bool b, bool pwrite)
{
    sum32 twice = ADD32(r, r);
    switch (msf) {
    case 0: return (alu32){RIGHTARITH(r), b, pwrite};
    case 1: return (alu32){RIGHT(b, r), EL(0, r), pwrite};
    case 2: return (alu32){twice.VALUE, b, twice.OFLO || pwrite};
    default: return (alu32){LEFT(r, b), EL(31, r), pwrite};
    }
}

static alu32 ALU(word4 fsf, word2 msf, word3 dsf, word32 r, word32 m, bool b)
{
    bool pwrite = dsf == 3 || dsf == 4 || dsf == 5;
    sum32 sum = ADD32(r, m);
    sum32 dif = SUB32(r, m);
    switch (fsf) {
    case 0: return (alu32){NOT32(m), b, pwrite};
    case 1: return (alu32){m, b, !pwrite || INVALID(m)};
    case 2: return (alu32){m, b, pwrite};
    case 3: return (alu32){m, b, pwrite && INVALID(m)};
    case 4: return (alu32){sum.VALUE, sum.CARRY, pwrite};
    case 5: return (alu32){sum.VALUE, b, sum.OFLO || (pwrite && INVALID(sum.VALUE))};
    case 6: return (alu32){dif.VALUE, dif.CARRY, pwrite};
    case 7: return (alu32){dif.VALUE, b, dif.OFLO || (pwrite && INVALID(dif.VALUE))};
    case 8: return (alu32){(r | m) & NOT32(r & m), b, pwrite};
    case 9: return (alu32){r & m, b, pwrite};
    case 10: return (alu32){NOT32(r | m), b, pwrite};
    case 11: return (alu32){r & NOT32(m), b, pwrite};
    case 12: return SHIFT(msf, r, b, pwrite);
    default: return (alu32){r, b, true};
    }
}

/* ---- The predicates over the fields ---- */

static bool WRITE(word3 dsf, word1 csf)
{
    return csf == 0 && (dsf == 7 || dsf == 6);
}

static bool NILM(word3 dsf, word1 csf, word4 fsf)
{
    return csf == 0 && !(dsf == 7 || dsf == 6) && fsf == 12;
}

static bool NOOP(word3 dsf, word1 csf, bool b)
{
    return csf == 0 && ((dsf == 5 && b) || (dsf == 4 && !b));
}

static bool SPAREFUNC(word3 dsf, word1 csf, word4 fsf)
{
    return csf == 0 && !(dsf == 6 || dsf == 7) && (fsf == 13 || fsf == 14 || fsf == 15);
}

static bool ILLEGALCALL(word3 dsf, word1 csf, word4 fsf)
{
    return csf == 0 && fsf == 1 && (dsf == 0 || dsf == 1 || dsf == 2);
}

static bool ILLEGALPDEST(word3 dsf, word1 csf, word4 fsf)
{
    return csf == 0 && (dsf == 3 || dsf == 4 || dsf == 5) &&
           !(fsf == 1 || fsf == 3 || fsf == 5 || fsf == 7);
}

static bool ILLEGALWRITE(word3 dsf, word1 csf, word2 msf)
{
    return WRITE(dsf, csf) && msf == 0;
}

static bool OUTPUT(word3 dsf, word1 csf)
{
    return csf == 0 && dsf == 6;
}

static bool INPUT(word3 dsf, word1 csf, word4 fsf)
{
    return csf == 0 && !(dsf == 7 || dsf == 6) && fsf == 2;
}

/* ---- NEXT ---- */

typedef struct {
    mem21_32 ram;
    word20 p;
    word32 a, x, y;
    bool b, stop;
} state;

static state NEXT(mem21_32 ram, word20 p, word32 a, word32 x, word32 y, bool b, bool stop)
{
    word32 instbits = INSTFETCH(ram, p);
    word20 newp = TRIM32TO20(INCP32(p));
    word2 rsf = SEG(30, 31, instbits);
    word2 msf = SEG(28, 29, instbits);
    word3 dsf = SEG(25, 27, instbits);
    word1 csf = SEG(24, 24, instbits);
    word4 fsf = SEG(20, 23, instbits);
    word20 addr = SEG(0, 19, instbits);
    bool comp = csf == 1;
    bool call = csf == 0 && fsf == 1;
    bool io = OUTPUT(dsf, csf) || INPUT(dsf, csf, fsf);
    bool writeop = WRITE(dsf, csf);
    bool skip = NOOP(dsf, csf, b);
    bool noinc = INVALID(INCP32(p));
    bool illegaladdr = !NILM(dsf, csf, fsf) && INVALID(OFFSET(msf, addr, x, y)) && !skip;
    bool illegalcl = ILLEGALCALL(dsf, csf, fsf);
    bool illegalop = SPAREFUNC(dsf, csf, fsf);
    bool illegalonp = ILLEGALPDEST(dsf, csf, fsf);
    bool illegalwr = ILLEGALWRITE(dsf, csf, msf);
    word32 source = REG(rsf, a, x, y, newp);

    if (stop)
        return (state){ram, p, a, x, y, b, true};

    if (noinc || illegaladdr || illegalcl || illegalop || illegalonp || illegalwr)
        return (state){ram, newp, a, x, y, b, true};

    if (comp)
        return (state){ram, newp, a, x, y,
                       COMPARE(fsf, source, MEMREAD(ram, msf, addr, x, y, io, false), b), false};

    if (writeop)
        return (state){MEMWRITE(ram, source, msf, addr, x, y, io), newp, a, x, y, b, false};

    if (skip)
        return (state){ram, newp, a, x, y, b, false};

    word32 m = MEMREAD(ram, msf, addr, x, y, io, NILM(dsf, csf, fsf));
    alu32 aluout = ALU(fsf, msf, dsf, source, m, b);
    word20 target = TRIM32TO20(aluout.VALUE);
    if (dsf == 0)
        return (state){ram, newp, aluout.VALUE, x, y, aluout.BVAL, aluout.SVAL};
    if (dsf == 1)
        return (state){ram, newp, a, aluout.VALUE, y, aluout.BVAL, aluout.SVAL};
    if (dsf == 2)
        return (state){ram, newp, a, x, aluout.VALUE, aluout.BVAL, aluout.SVAL};
    if (call)
        return (state){ram, target, a, x, INCP32(p), aluout.BVAL, aluout.SVAL};
    return (state){ram, target, a, x, y, aluout.BVAL, aluout.SVAL};
}

/* ---- The trail (document 01, "The trail"; document 02, W12) ---- */

struct record {
    uint8_t bytes[28];
    size_t length;
};

/* Groups of seven bits, low group first, top bit set on all but the last. */
static void put_number(struct record *record, uint32_t number)
{
    for (; number >= 128; number /= 128)
        record->bytes[record->length++] = 128 + number % 128;
    record->bytes[record->length++] = number;
}

/* The record of that kind that takes after back to before. */
static struct record record_of(uint32_t kind, const state *before, const state *after)
{
    struct record record = {.length = 0};
    bool a = before->a != after->a;
    bool x = before->x != after->x;
    bool y = before->y != after->y;
    word21 place = after->ram.place;
    word32 old = after->ram.stored ? FETCH21(before->ram, place) : 0;
    bool word = after->ram.stored && old != after->ram.word;

    put_number(&record, kind);
    put_number(&record, a * MARK_A + x * MARK_X + y * MARK_Y + word * MARK_WORD +
                            before->b * MARK_B + before->stop * MARK_STOP);
    put_number(&record, before->p);
    if (a)
        put_number(&record, before->a);
    if (x)
        put_number(&record, before->x);
    if (y)
        put_number(&record, before->y);
    if (word) {
        put_number(&record, place);
        put_number(&record, old);
    }
    record.bytes[record.length] = record.length;
    record.length++;
    return record;
}

/* ---- The calls (document 01, "Numbers the counter sees", "The other operations") ---- */

#define WORDS_AT_MOST 1048576u

/* Refusals 1 to 3, of which reset and force do not know 2. */
static uint32_t refused_at_once(const struct second *bench, bool lends_stores)
{
    if (bench->P >= 1048576)
        return 1;
    if (lends_stores &&
        (bench->main_length > WORDS_AT_MOST || bench->ports_length > WORDS_AT_MOST))
        return 2;
    if (bench->used > bench->trail_length)
        return 3;
    return 0;
}

static state state_of(const struct second *bench, bool *unfitted)
{
    mem21_32 ram = {.stores = bench, .unfitted = unfitted};
    return (state){ram, bench->P, bench->A, bench->X, bench->Y, bench->B, bench->STOP};
}

static void become(struct second *bench, const state *after)
{
    if (after->ram.stored)
        *word_at(bench, after->ram.place) = after->ram.word;
    bench->P = after->p;
    bench->A = after->a;
    bench->X = after->x;
    bench->Y = after->y;
    bench->B = after->b;
    bench->STOP = after->stop;
}

/* Accepts the operation from before to after, with its record, or answers 5 or 6. */
static uint32_t operate(struct second *bench, uint32_t kind, const state *before,
                        const state *after)
{
    if (*before->ram.unfitted)
        return 5;
    struct record record = record_of(kind, before, after);
    if (record.length > bench->trail_length - bench->used)
        return 6;
    memcpy(bench->trail + bench->used, record.bytes, record.length);
    bench->used += record.length;
    become(bench, after);
    return 0;
}

uint32_t second_step(struct second *bench)
{
    uint32_t refusal = refused_at_once(bench, true);
    if (refusal != 0)
        return refusal;
    if (bench->STOP)
        return 4;
    bool unfitted = false;
    state s = state_of(bench, &unfitted);
    state after = NEXT(s.ram, s.p, s.a, s.x, s.y, s.b, s.stop);
    return operate(bench, BY_STEP, &s, &after);
}

struct ran second_run(struct second *bench, uint32_t budget)
{
    uint32_t done = 0;
    uint32_t refusal = refused_at_once(bench, true);
    if (refusal != 0)
        return (struct ran){.refusal = refusal};
    for (;;) {
        if (bench->STOP)
            return (struct ran){0, done, STOPPED};
        if (done == budget)
            return (struct ran){0, done, BUDGET};
        refusal = second_step(bench);
        if (refusal != 0)
            return (struct ran){0, done, refusal == 5 ? UNFITTED : FULL};
        done++;
    }
}

uint32_t second_reset(struct second *bench)
{
    uint32_t refusal = refused_at_once(bench, false);
    if (refusal != 0)
        return refusal;
    bool unfitted = false;
    state before = state_of(bench, &unfitted);
    state after = {before.ram, 0, 0, 0, 0, false, false};
    return operate(bench, BY_RESET, &before, &after);
}

uint32_t second_force(struct second *bench)
{
    uint32_t refusal = refused_at_once(bench, false);
    if (refusal != 0)
        return refusal;
    bool unfitted = false;
    state before = state_of(bench, &unfitted);
    state after = before;
    after.stop = true;
    return operate(bench, BY_FORCE, &before, &after);
}

uint32_t second_set(struct second *bench, bool port, uint32_t address, uint32_t value)
{
    uint32_t refusal = refused_at_once(bench, true);
    if (refusal != 0)
        return refusal;
    if (address >= (port ? bench->ports_length : bench->main_length))
        return 5;
    bool unfitted = false;
    state before = state_of(bench, &unfitted);
    state after = before;
    after.ram = STORE21(WORD(21, CONS(port, 20, address)), value, before.ram);
    return operate(bench, BY_SET, &before, &after);
}

/* ---- Take back ---- */

/* The state that a record goes back to. */
static state state_before(const state *now, const struct second_record *record)
{
    state old = *now;
    old.b = record->marks & MARK_B;
    old.stop = record->marks & MARK_STOP;
    old.p = record->P;
    if (record->marks & MARK_A)
        old.a = record->A;
    if (record->marks & MARK_X)
        old.x = record->X;
    if (record->marks & MARK_Y)
        old.y = record->Y;
    if (record->marks & MARK_WORD)
        old.ram = STORE21(record->place, record->value, old.ram);
    return old;
}

uint32_t second_back(struct second *bench)
{
    uint32_t refusal = refused_at_once(bench, true);
    if (refusal != 0)
        return refusal;
    if (bench->used == 0)
        return 7;
    struct second_record record;
    if (!second_read_newest(NEW_FORM, bench->trail, bench->used, &record))
        return 8;
    bool unfitted = false;
    state now = state_of(bench, &unfitted);
    state old = state_before(&now, &record);
    if (unfitted)
        return 8;
    become(bench, &old);
    bench->used -= record.length;
    return 0;
}

/* ---- View ---- */

bool second_fitted(const struct second *bench, bool port, uint32_t address, size_t n)
{
    size_t length = port ? bench->ports_length : bench->main_length;
    return address <= length && n <= length - address;
}
