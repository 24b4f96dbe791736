/*
 * Request T-14: lines of two or four lanes beside the scalar lines that say the same.
 *
 * apart [--wrong RULE] FIRST LAST NAME   a listing NAME.SEED of at most 65,536 bytes for each seed, and on standard output what they bring
 * apart --hand                           the cases of NOTES-T-14.md as a listing
 * apart --rules                          the names of the wrong rules of taking apart
 *
 * In a listing `%p15` ends as 1 exactly if the results of some pair differ. A pair ends with its line `setp.ne.or.u32 %p15, ..`.
 * Nothing is executed here: what a line gives is left to the programs that are tested.
 */

#include <stdarg.h>
#include <stdbool.h>
#include <stdint.h>
#include <stdio.h>
#include <stdlib.h>
#include <string.h>

#define COUNT(a) (sizeof (a) / sizeof (a)[0])

/* ---- chance: each draw is a statement of its own, since C leaves the order inside an expression open ---- */

static uint64_t state;

static unsigned below(unsigned n)
{
    uint64_t z = state += UINT64_C(0x9E3779B97F4A7C15);
    z = (z ^ (z >> 30)) * UINT64_C(0xBF58476D1CE4E5B9);
    z = (z ^ (z >> 27)) * UINT64_C(0x94D049BB133111EB);
    return (unsigned)((z ^ (z >> 31)) >> 32) % n;
}

static bool percent(unsigned n) { return below(100) < n; }

/* ---- the listing ---- */

static char listing[65536];
static size_t used;

static char some[4096];         /* lines that go into the listing together or not at all */
static size_t pending;

static void put(const char *format, ...)
{
    va_list list;
    va_start(list, format);
    int length = vsnprintf(some + pending, sizeof some - pending, format, list);
    va_end(list);
    if (length < 0 || (size_t)length >= sizeof some - pending)
        abort();
    pending += (size_t)length;
}

static bool keep(void)
{
    bool fits = pending <= sizeof listing - used;
    if (fits) {
        memcpy(listing + used, some, pending);
        used += pending;
    }
    pending = 0;
    return fits;
}

/* ---- registers and the words in them ---- */

/* Numbers of one digit where they are met most: more pairs fit. */
enum { ZERO = 0, SCRATCH = 1, TAKEN = 2, LANED = 4, SOURCE = 6, SOURCES = 10, LOW = 16 };

/* The register whose lowest byte is 16 n: those of the start up to 3, then made ones. */
static unsigned high(unsigned n) { return n < 4 ? 16 * n : 29 + n; }

/* Any byte is a multiple of 16 and the lowest byte of one of %r16 to %r31, modulo 256. */
static void put_word(unsigned r, uint32_t word)
{
    for (unsigned i = 0; i < 4; i++) {
        unsigned byte = word >> (8 * i) & 0xFF;
        put("vadd.u32.u32.u32 %%r%u.b%u, %%r%u.b0, %%r%u.b0, %%r%u;\n", r, i, high(((byte >> 4) + 15) % 16), LOW + byte % 16, r);
    }
}

static uint32_t any_word(void)
{
    static const uint32_t bytes[] = { 0x00, 0x01, 0x02, 0x7F, 0x80, 0x81, 0xFE, 0xFF };
    static const uint32_t halves[] = { 0x0000, 0x0001, 0x7FFF, 0x8000, 0x8001, 0xFFFE, 0xFFFF, 0x00FF };
    static const uint32_t words[] = { 0x00000000, 0xFFFFFFFF, 0x7FFFFFFF, 0x80000000, 0x00000100, 0xFFFFFF00 };
    unsigned kind = below(100);
    unsigned whole = below(COUNT(words));
    if (kind < 15)              /* as c: sums past 2^32 either way */
        return words[whole];
    unsigned width = kind < 60 ? 8 : 16;
    uint32_t word = 0;
    for (unsigned at = 0; at < 32; at += width) {
        unsigned special = below(8);
        uint32_t part = width == 8 ? bytes[special] : halves[special];
        if (percent(30))
            part = below(1u << width);
        word |= part << at;
    }
    return word;
}

/* What every listing starts with. `%p14` is the control of the comparison: a difference shows, and stays although equals follow. */
static void put_start(void)
{
    used = pending = 0;
    put("setp.eq.u32 %%p1, %%r0, %%r0;\n");
    for (unsigned n = 4; n < 16; n++)
        put("vadd.u32.u32.u32 %%r%u, %%r%u.b0, %%r%u.b0;\n", high(n), high(n - 2), high(2));
    for (unsigned i = 0; i < SOURCES; i++)
        put_word(SOURCE + i, any_word());
    put("setp.ne.or.u32 %%p14, %%r16, %%r0, %%p14;\nsetp.ne.or.u32 %%p14, %%r0, %%r0, %%p14;\n");
    keep();
}

/* ---- a line of lanes ---- */

enum { VADD, VSUB, VABSDIFF, VMIN, VMAX, VSET, OPS };
enum { D, A, B };

static const char *const op_name[OPS] = { "vadd", "vsub", "vabsdiff", "vmin", "vmax", "vset" };
static const char *const type_name[] = { "u32", "s32" };
static const char *const cmp_name[] = { "eq", "ne", "lt", "le", "gt", "ge" };

/* %p0 is 0 and %p1 is 1 in every listing: the first two skip. */
static const char *const guards[] = { "@%p0 ", "@!%p1 ", "@%p1 ", "@!%p0 ", "" };
enum { SKIPS = 2, BARE = 4 };

typedef struct {
    unsigned op, lanes, cmp;
    unsigned type[3];           /* by D, A, B: an index of type_name */
    bool sat, add;
    unsigned mask;              /* bit i: lane i is named */
    unsigned digit[3][4];       /* by A, B and lane: the digit of the selector */
    bool left_out[3];           /* by D, A, B: no mask or selector is written */
    unsigned a, b, c;
    unsigned laned, taken;      /* where the line itself and its scalar lines write */
    bool apart_first;           /* the scalar lines stand in front */
    bool plain;                 /* the scalar results come in a whole register first */
    bool downward;              /* the highest lane is taken first */
    unsigned guard;
} Form;

static char letter(const Form *f) { return f->lanes == 2 ? 'h' : 'b'; }
static bool skips(const Form *f) { return f->guard < SKIPS; }

static void draw_head(Form *f)
{
    unsigned kind = below(8);
    f->op = kind < OPS ? kind : VSET;   /* vset oftenest: T-14 names it */
    f->lanes = percent(50) ? 2 : 4;
    f->cmp = below(COUNT(cmp_name));
    for (unsigned i = D; i <= B; i++)
        f->type[i] = below(2);
    f->sat = percent(50);
    f->sat = f->sat && f->op != VSET;
    f->add = percent(50);
    f->plain = percent(40);
    f->plain = f->plain && (f->op == VSET || (f->add && !f->sat));
    f->downward = percent(30);
    f->guard = below(100);
    f->guard = f->guard < 2 * BARE ? f->guard % BARE : BARE;
}

static void draw_selectors(Form *f)
{
    unsigned full = (1u << f->lanes) - 1;
    f->mask = 1 + below(full);
    if (percent(12))
        f->mask = full;
    f->left_out[D] = percent(70);
    f->left_out[D] = f->left_out[D] && f->mask == full;
    for (unsigned i = A; i <= B; i++) {
        bool standard = percent(20);
        f->left_out[i] = percent(70);
        f->left_out[i] = f->left_out[i] && standard;
        for (unsigned lane = 0; lane < f->lanes; lane++) {
            f->digit[i][lane] = below(2 * f->lanes);
            if (standard)
                f->digit[i][lane] = lane + (i == B ? f->lanes : 0);
        }
    }
}

/* ---- the wrong rules ---- */

enum { RIGHT, TYPES_BY_REGISTER, DIGIT_FROM_OWN, LOW_FIRST, MASK_IGNORED, CLAMP_32, ADD_LOW_BITS, D_IS_A, B_FIRST, C_EACH_TIME, C_IS_B, BACK_UNSIGNED, RULES };

static const char *const rule_name[RULES] = {
    "", "types-by-register", "digit-from-own", "low-first", "mask-ignored", "clamp-32", "add-low-bits", "d-is-a",
    "b-first", "c-each-time", "c-is-b", "back-unsigned"
};

static unsigned wrong = RIGHT;

/* Which registers: no line may destroy what a later one of its pair reads. */
static void draw_registers(Form *f)
{
    f->a = SOURCE + below(SOURCES);
    f->b = SOURCE + below(SOURCES);
    f->c = SOURCE + below(SOURCES);
    f->laned = LANED + below(2);
    f->taken = TAKEN + below(2);
    f->apart_first = percent(50);
    unsigned kind = below(100);
    unsigned which = below(3);
    if (wrong == D_IS_A) {
        f->taken = f->a;
        f->apart_first = false;
    } else if (skips(f)) {
        return;
    } else if (kind < 9) {
        f->laned = which == 0 ? f->a : which == 1 ? f->b : f->c;
        f->apart_first = true;
    } else if (kind < 18 && f->c != f->a && f->c != f->b) {
        f->taken = f->c;        /* only the first scalar line reads c */
        f->apart_first = false;
    }
}

/* ---- the lines of a pair ---- */

/* The head of the line itself or, with no lanes, of a scalar line. */
static void put_head(const Form *f, unsigned lanes, const unsigned type[3], bool sat, bool add)
{
    put("%s%s", guards[f->guard], op_name[f->op]);
    if (lanes > 0)
        put("%u", lanes);
    if (f->op == VSET)
        put(".%s.%s.%s", type_name[type[A]], type_name[type[B]], cmp_name[f->cmp]);
    else
        put(".%s.%s.%s", type_name[type[D]], type_name[type[A]], type_name[type[B]]);
    put("%s%s ", sat ? ".sat" : "", add ? ".add" : "");
}

static void put_operand(const Form *f, unsigned r, unsigned operand)
{
    put("%%r%u", r);
    if (!f->left_out[operand])
        put(".%c", letter(f));
    for (unsigned lane = f->lanes; lane-- > 0 && !f->left_out[operand];) {  /* the leftmost digit names the highest lane */
        if (operand != D)
            put("%u", f->digit[operand][lane]);
        else if (f->mask >> lane & 1)
            put("%u", lane);
    }
    put(", ");
}

static void put_lanes(const Form *f)
{
    put_head(f, f->lanes, f->type, f->sat, f->add);
    put_operand(f, f->laned, D);
    put_operand(f, f->a, A);
    put_operand(f, f->b, B);
    put("%%r%u;\n", f->c);
}

typedef struct {
    unsigned r, index, type;
} Part;

/* What the digit of a lane picks: a's parts first, then b's, read by the type of the selector's side. */
static Part part_of(const Form *f, unsigned operand, unsigned lane)
{
    unsigned digit = f->digit[operand][wrong == LOW_FIRST ? f->lanes - 1 - lane : lane];
    bool of_b = digit >= f->lanes;
    if (wrong == DIGIT_FROM_OWN)
        of_b = operand == B;
    if (wrong == B_FIRST)
        of_b = !of_b;
    unsigned side = wrong == TYPES_BY_REGISTER ? (of_b ? B : A) : operand;
    Part part = { of_b ? f->b : f->a, digit % f->lanes, f->type[side] };
    return part;
}

/* A scalar line of a lane as far as its second source; d is bare or has the lane's part. */
static void put_scalar(const Form *f, unsigned lane, unsigned d, bool bare, bool sat, bool add)
{
    Part x = part_of(f, A, lane);
    Part y = part_of(f, B, lane);
    const unsigned type[3] = { f->type[D], x.type, y.type };
    char p = letter(f);
    put_head(f, 0, type, sat, add);
    put("%%r%u", d);
    if (!bare)
        put(".%c%u", p, lane);
    put(", %%r%u.%c%u, %%r%u.%c%u", x.r, p, x.index, y.r, p, y.index);
}

/* One line: its merge, with the clamp at the part's width, or its sum is the lane's. */
static void take_direct(const Form *f, unsigned lane, unsigned c)
{
    put_scalar(f, lane, f->taken, f->add, f->sat, f->add);
    put(", %%r%u;\n", c);
}

/* The scalar result in a whole register, then added or put in its part; `sat` there, so that no bit above the part is lost. */
static void take_plain(const Form *f, unsigned lane, unsigned c)
{
    put_scalar(f, lane, SCRATCH, true, false, false);
    put(";\n%s", guards[f->guard]);
    if (f->add)
        put("vadd.u32.u32.u32 %%r%u, %%r%u, %%r%u;\n", f->taken, SCRATCH, c);
    else
        put("vadd.u32.u32.u32.sat %%r%u.%c%u, %%r%u, %%r%u, %%r%u;\n", f->taken, letter(f), lane, SCRATCH, ZERO, c);
}

/* `sat` with `add`: d is bare with `add` and the clamp then at 32 bits, so clamp in a part first and add what is read back from it. */
static void take_clamped(const Form *f, unsigned lane, unsigned c)
{
    const char *type = type_name[wrong == ADD_LOW_BITS || wrong == BACK_UNSIGNED ? 0 : f->type[D]];
    put_scalar(f, lane, SCRATCH, false, f->sat, false);
    put(", %%r%u;\n%s", SCRATCH, guards[f->guard]);
    put("vadd.%s.%s.%s.add %%r%u, %%r%u.%c%u, %%r%u, %%r%u;\n", type, type, type, f->taken, SCRATCH, letter(f), lane, ZERO, c);
}

static bool clamps_apart(const Form *f)
{
    return f->add && ((f->sat && wrong != CLAMP_32) || wrong == ADD_LOW_BITS);
}

/* The scalar lines: the first takes c, each later one what the lines before it made. */
static void put_apart(const Form *f)
{
    unsigned c = wrong == C_IS_B ? f->b : f->c;
    for (unsigned i = 0; i < f->lanes; i++) {
        unsigned lane = f->downward ? f->lanes - 1 - i : i;
        if ((f->mask >> lane & 1) == 0 && wrong != MASK_IGNORED)
            continue;
        if (clamps_apart(f))
            take_clamped(f, lane, c);
        else if (f->plain)
            take_plain(f, lane, c);
        else
            take_direct(f, lane, c);
        if (wrong != C_EACH_TIME)
            c = f->taken;
    }
}

static void put_pair(const Form *f)
{
    if (skips(f))               /* so that nothing changed means equal; else both hold different old results */
        put("selp.b32 %%r%u, %%r%u, %%r%u, %%p0;\n", f->taken, f->laned, f->laned);
    if (f->apart_first)
        put_apart(f);
    put_lanes(f);
    if (!f->apart_first)
        put_apart(f);
    put("setp.ne.or.u32 %%p15, %%r%u, %%r%u, %%p15;\n", f->laned, f->taken);
}

/* ---- what the listings bring: executed lines alone, digits of masked lanes alone ---- */

enum { ARITHMETIC_HEADS = 32, VSET_HEADS = 48 };

static unsigned long pairs;
static unsigned long heads[OPS][2][VSET_HEADS];
static unsigned long masks[OPS][2][2][16];
static unsigned long digits[OPS][2][2][4][8];

enum { MASK_BARE, MASK_WRITTEN, A_BARE, A_WRITTEN, B_BARE, B_WRITTEN, DIRECT, PLAIN, CLAMPED, PAIR_SKIPPED, GUARDED, D_A, D_B, D_C, TAKEN_C, ONE_SOURCE, WAYS };

static const char *const way_name[WAYS] = {
    "mask bare", "full mask written", "a bare", "default of a written", "b bare", "default of b written", "one line for each lane", "plain scalar results",
    "clamped in a part first", "pair skipped", "guard that holds", "d is a", "d is b", "d is c", "scalar lines write c", "a is b"
};

static unsigned long ways[OPS][2][WAYS];

static bool is_default(const Form *f, unsigned operand)
{
    for (unsigned lane = 0; lane < f->lanes; lane++)
        if (f->digit[operand][lane] != lane + (operand == B ? f->lanes : 0))
            return false;
    return true;
}

static void count_ways(const Form *f)
{
    unsigned long *way = ways[f->op][f->lanes == 4];
    bool full = f->mask == (1u << f->lanes) - 1;
    way[MASK_BARE] += f->left_out[D];
    way[MASK_WRITTEN] += full && !f->left_out[D];
    for (unsigned i = A; i <= B; i++) {
        way[i == A ? A_BARE : B_BARE] += f->left_out[i];
        way[i == A ? A_WRITTEN : B_WRITTEN] += is_default(f, i) && !f->left_out[i];
    }
    way[clamps_apart(f) ? CLAMPED : f->plain ? PLAIN : DIRECT]++;
    way[GUARDED] += f->guard != BARE;
    way[D_A] += f->laned == f->a;
    way[D_B] += f->laned == f->b;
    way[D_C] += f->laned == f->c;
    way[TAKEN_C] += f->taken == f->c;
    way[ONE_SOURCE] += f->a == f->b;
}

static void count(const Form *f)
{
    unsigned wide = f->lanes == 4;
    if (skips(f)) {
        ways[f->op][wide][PAIR_SKIPPED]++;
        return;
    }
    pairs++;
    count_ways(f);
    unsigned sources = 2 * f->type[A] + f->type[B];
    unsigned head = f->op == VSET ? 6 * sources + f->cmp : 4 * (2 * f->type[D] + f->sat) + sources;
    heads[f->op][wide][2 * head + f->add]++;
    masks[f->op][wide][f->add][f->mask]++;
    for (unsigned i = A; i <= B; i++)
        for (unsigned lane = 0; lane < f->lanes; lane++)
            if (f->mask >> lane & 1)
                digits[f->op][wide][i == B][lane][f->digit[i][lane]]++;
}

static unsigned kinds, missing;

static void show(unsigned long n, const char *what, unsigned op, unsigned lanes, const char *where, unsigned number)
{
    kinds++;
    missing += n == 0;
    if (n == 0)
        printf("never %s%u: %s %s %u\n", op_name[op], lanes, what, where, number);
}

/* A way that an opcode cannot go: vset has no `sat`. */
static bool no_way(unsigned op, unsigned way) { return op == VSET && way == CLAMPED; }

static void show_form(unsigned op, unsigned wide)
{
    static const char *const where[2][4] = { { "a lane 0", "a lane 1", "a lane 2", "a lane 3" }, { "b lane 0", "b lane 1", "b lane 2", "b lane 3" } };
    unsigned lanes = wide ? 4 : 2;
    for (unsigned i = 0; i < (op == VSET ? VSET_HEADS : ARITHMETIC_HEADS); i++)
        show(heads[op][wide][i], "head", op, lanes, "", i);
    for (unsigned i = 2; i < 2u << lanes; i++)
        show(masks[op][wide][i & 1][i >> 1], "mask", op, lanes, i & 1 ? "add" : "", i >> 1);
    for (unsigned b = 0; b < 2; b++)
        for (unsigned lane = 0; lane < lanes; lane++)
            for (unsigned i = 0; i < 2 * lanes; i++)
                show(digits[op][wide][b][lane][i], "digit", op, lanes, where[b][lane], i);
    for (unsigned i = 0; i < WAYS; i++)
        if (!no_way(op, i))
            show(ways[op][wide][i], "way", op, lanes, way_name[i], 0);
}

/* ---- the cases of NOTES-T-14.md: a is %r6, b %r7, c %r8; the results in %r4 and %r2 against the one worked by hand, in %r9 ---- */

static const struct {
    uint32_t a, b, c, result;
    const char *lines;
} hand[] = {
    { 0x80FF0001, 0x00000002, 0xAABBCCDD, 0x01010001, "vset4.s32.u32.lt %r4, %r6, %r7, %r8;\n"
      "vset.s32.u32.lt %r2.b0, %r6.b0, %r7.b0, %r8;\nvset.s32.u32.lt %r2.b1, %r6.b1, %r7.b1, %r2;\n"
      "vset.s32.u32.lt %r2.b2, %r6.b2, %r7.b2, %r2;\nvset.s32.u32.lt %r2.b3, %r6.b3, %r7.b3, %r2;\n" },
    { 0x80FF0001, 0x00000002, 0xAABBCCDD, 0xAA01CC01, "vset4.s32.u32.lt %r4.b20, %r6, %r7, %r8;\n"
      "vset.s32.u32.lt %r1, %r6.b0, %r7.b0;\nvadd.u32.u32.u32.sat %r2.b0, %r1, %r0, %r8;\n"
      "vset.s32.u32.lt %r1, %r6.b2, %r7.b2;\nvadd.u32.u32.u32.sat %r2.b2, %r1, %r0, %r2;\n" },
    { 0x7F80FF01, 0x02FE8001, 0x11223344, 0x00220100, "vset4.s32.u32.gt %r4.b310, %r6.b5071, %r7.b7302, %r8;\n"
      "vset.s32.u32.gt %r2.b0, %r6.b1, %r6.b2, %r8;\nvset.s32.u32.gt %r2.b1, %r7.b3, %r6.b0, %r2;\nvset.s32.u32.gt %r2.b3, %r7.b1, %r7.b3, %r2;\n" },
    { 0x80000001, 0xFFFF8000, 0xFFFFFFFF, 0x00000001, "vset2.u32.s32.ge.add %r4, %r6, %r7, %r8;\n"
      "vset.u32.s32.ge.add %r2, %r6.h0, %r7.h0, %r8;\nvset.u32.s32.ge.add %r2, %r6.h1, %r7.h1, %r2;\n" },
    { 0xC8FF0180, 0x64010280, 0x11223344, 0xFFFF0344, "vadd4.u32.u32.u32.sat %r4.b321, %r6, %r7, %r8;\n"
      "vadd.u32.u32.u32.sat %r2.b1, %r6.b1, %r7.b1, %r8;\nvadd.u32.u32.u32.sat %r2.b2, %r6.b2, %r7.b2, %r2;\nvadd.u32.u32.u32.sat %r2.b3, %r6.b3, %r7.b3, %r2;\n" },
    { 0x00FF1080, 0xFF001001, 0x00000010, 0x0000008E, "vsub4.s32.u32.u32.sat.add %r4, %r6, %r7, %r8;\n"
      "vsub.s32.u32.u32.sat %r1.b0, %r6.b0, %r7.b0, %r1;\nvadd.s32.s32.s32.add %r2, %r1.b0, %r0, %r8;\n"
      "vsub.s32.u32.u32.sat %r1.b1, %r6.b1, %r7.b1, %r1;\nvadd.s32.s32.s32.add %r2, %r1.b1, %r0, %r2;\n"
      "vsub.s32.u32.u32.sat %r1.b2, %r6.b2, %r7.b2, %r1;\nvadd.s32.s32.s32.add %r2, %r1.b2, %r0, %r2;\n"
      "vsub.s32.u32.u32.sat %r1.b3, %r6.b3, %r7.b3, %r1;\nvadd.s32.s32.s32.add %r2, %r1.b3, %r0, %r2;\n" },
    { 0x8000FFFF, 0xFFFF0002, 0xFFFF0000, 0x00000002, "vabsdiff2.u32.s32.u32.sat.add %r4, %r6, %r7, %r8;\n"
      "vabsdiff.u32.s32.u32.sat %r1.h0, %r6.h0, %r7.h0, %r1;\nvadd.u32.u32.u32.add %r2, %r1.h0, %r0, %r8;\n"
      "vabsdiff.u32.s32.u32.sat %r1.h1, %r6.h1, %r7.h1, %r1;\nvadd.u32.u32.u32.add %r2, %r1.h1, %r0, %r2;\n" },
    { 0xFF010080, 0x01FF00FF, 0x00000003, 0xFFFFFF81, "vmin4.u32.s32.s32.add %r4, %r6, %r7, %r8;\n"
      "vmin.u32.s32.s32.add %r2, %r6.b0, %r7.b0, %r8;\nvmin.u32.s32.s32.add %r2, %r6.b1, %r7.b1, %r2;\n"
      "vmin.u32.s32.s32.add %r2, %r6.b2, %r7.b2, %r2;\nvmin.u32.s32.s32.add %r2, %r6.b3, %r7.b3, %r2;\n" },
    { 0x00010002, 0x80000005, 0xAABBCCDD, 0x8000CCDD, "vsub2.s32.s32.u32.sat %r4.h1, %r6.h33, %r7.h01, %r8;\n"
      "vsub.s32.s32.u32.sat %r2.h1, %r7.h1, %r6.h0, %r8;\n" },
    { 0x04030201, 0x10101010, 0x00000000, 0x11121314, "vadd4.u32.u32.u32 %r4, %r6.b0123, %r7, %r6;\n"
      "vadd.u32.u32.u32 %r2.b0, %r6.b3, %r7.b0, %r6;\nvadd.u32.u32.u32 %r2.b1, %r6.b2, %r7.b1, %r2;\n"
      "vadd.u32.u32.u32 %r2.b2, %r6.b1, %r7.b2, %r2;\nvadd.u32.u32.u32 %r2.b3, %r6.b0, %r7.b3, %r2;\n" },
};

static int print_hand(void)
{
    put_start();
    for (unsigned i = 0; i < COUNT(hand); i++) {
        put_word(6, hand[i].a);
        put_word(7, hand[i].b);
        put_word(8, hand[i].c);
        put_word(9, hand[i].result);
        put("%s", hand[i].lines);
        put("setp.ne.or.u32 %%p15|_, %%r2, %%r9, %%p15;\nsetp.ne.or.u32 %%p15, %%r4, %%r2, %%p15;\n");  /* one line ends a pair */
        keep();
    }
    return fwrite(listing, 1, used, stdout) == used ? 0 : 1;
}

/* ---- the whole ---- */

static void make(uint64_t seed)
{
    state = seed * UINT64_C(0xD1342543DE82EF95) + 14;
    put_start();
    for (bool fits = true; fits;) {
        Form f;
        if (percent(10)) {
            unsigned r = SOURCE + below(SOURCES);
            put_word(r, any_word());
        }
        draw_head(&f);
        draw_selectors(&f);
        draw_registers(&f);
        put_pair(&f);
        fits = keep();
        if (fits)
            count(&f);
    }
}

static bool write_listing(const char *name, unsigned long seed)
{
    char path[256];
    int length = snprintf(path, sizeof path, "%s.%lu", name, seed);
    FILE *file = length > 0 && (size_t)length < sizeof path ? fopen(path, "wb") : NULL;
    if (file == NULL)
        return false;
    bool whole = fwrite(listing, 1, used, file) == used;
    return fclose(file) == 0 && whole;
}

static int print_rules(void)
{
    for (unsigned i = RIGHT + 1; i < RULES; i++)
        puts(rule_name[i]);
    return 0;
}

int main(int argc, char **argv)
{
    if (argc == 2 && strcmp(argv[1], "--hand") == 0)
        return print_hand();
    if (argc == 2 && strcmp(argv[1], "--rules") == 0)
        return print_rules();
    if (argc == 6 && strcmp(argv[1], "--wrong") == 0) {
        for (unsigned i = RIGHT + 1; i < RULES; i++)
            if (strcmp(argv[2], rule_name[i]) == 0)
                wrong = i;
        argc = wrong == RIGHT ? 0 : 4;
        argv += 2;
    }
    if (argc != 4) {
        fprintf(stderr, "usage: apart [--wrong RULE] FIRST LAST NAME, apart --hand or apart --rules\n");
        return 2;
    }
    unsigned long last = strtoul(argv[2], NULL, 10);
    for (unsigned long seed = strtoul(argv[1], NULL, 10); seed <= last; seed++) {
        make(seed);
        if (!write_listing(argv[3], seed)) {
            fprintf(stderr, "%s.%lu cannot be written\n", argv[3], seed);
            return 2;
        }
    }
    for (unsigned i = 0; i < 2 * OPS; i++)
        show_form(i / 2, i % 2);
    printf("%lu pairs executed, %u of %u kinds never\n", pairs, missing, kinds);
    return 0;
}
