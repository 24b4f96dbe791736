/*
 * generate SEED BYTES: prints a listing of at most BYTES bytes (at most
 * 65,536) for the PTX line bench.  The same arguments give the same listing.
 *
 * About three quarters of the lines are legal.  The rest are near misses of
 * legal lines.  "Kits" of legal lines bring special values (NaNs, infinities,
 * subnormals, zeros, extremes, of words, halves and bytes) into registers, from
 * any register state; these registers are then "hot": sources are often drawn
 * from them, destinations seldom.
 *
 * Build:  cc -std=c11 -O2 -Wall -Wextra -Werror generate.c -o generate
 */

#include <stdarg.h>
#include <stdbool.h>
#include <stdint.h>
#include <stdio.h>
#include <stdlib.h>
#include <string.h>

typedef unsigned char Byte;

/* ---- chance ---- */

static uint64_t state;

static uint64_t next(void)
{
    uint64_t z = state += UINT64_C(0x9E3779B97F4A7C15);
    z = (z ^ (z >> 30)) * UINT64_C(0xBF58476D1CE4E5B9);
    z = (z ^ (z >> 27)) * UINT64_C(0x94D049BB133111EB);
    return z ^ (z >> 31);
}

static unsigned below(unsigned n) { return (unsigned)(next() >> 32) % n; }
static bool percent(unsigned n) { return below(100) < n; }

#define COUNT(a) (sizeof (a) / sizeof (a)[0])
#define PICK(a) ((a)[below((unsigned)COUNT(a))])

/* Chance is drawn in the order of the text, never twice among the arguments of one call: so each compiler makes the same listing. */
static const char *some_sign(void) { return percent(50) ? "!" : ""; }

/* ---- the listing ---- */

enum { LISTING_MOST = 65536 };

static Byte listing[LISTING_MOST];
static size_t used, limit;
static bool full;

/* Adds a line; when it no longer fits, the listing is full. */
static void emit(const Byte *line, size_t length)
{
    if (full)
        return;
    if (length + 1 <= limit - used) {
        memcpy(listing + used, line, length);
        used += length;
        listing[used++] = '\n';
        return;
    }
    full = true;
    if (percent(50)) {              /* the start of it, up to the limit */
        size_t room = limit - used;
        if (room > length)
            room = length;
        memcpy(listing + used, line, room);
        used += room;
    } else if (percent(40) && used > 0) {
        used--;                     /* a last line without its line feed */
    }
}

static void emit_format(const char *format, ...)
{
    char line[200];
    va_list list;
    va_start(list, format);
    int length = vsnprintf(line, sizeof line, format, list);
    va_end(list);
    if (length > 0)
        emit((const Byte *)line, (size_t)length);
}

/* ---- registers ---- */

static unsigned hot[64];
static unsigned hot_count;
static unsigned last_source, last_double, last_half;

enum { EXTREMES = 6 };          /* the first hot ones: 0, 1, 1.0 and the extremes of a word */

/* Registers whose bytes, or halves, are 0, 1, FE.., 7F.., 80.., FF.. and a mixture of them. */
enum { LANE_WORDS = 7 };

static unsigned lane_words[2][LANE_WORDS];

/* Registers with zeros, subnormals and least normals of either sign: c of slct, where `ftz` matters (request T-02). */
enum { TINY_WORDS = 10 };

static unsigned tiny_words[TINY_WORDS];

static bool is_hot(unsigned n)
{
    for (unsigned i = 0; i < hot_count; i++)
        if (hot[i] == n)
            return true;
    for (unsigned i = 0; i < 2 * LANE_WORDS && hot_count > 0; i++)
        if (lane_words[i / LANE_WORDS][i % LANE_WORDS] == n)
            return true;
    return false;
}

static unsigned source_word(void)
{
    unsigned kind = below(100);
    if (kind >= 10) {
        if (kind < 35 && hot_count > 0)         /* often, since both sources have to be extremes to meet */
            last_source = hot[below(EXTREMES)];
        else if (kind < 65 && hot_count > 0)
            last_source = hot[below(hot_count)];
        else
            last_source = below(64);
    }
    return last_source;
}

static unsigned hot_word(void)
{
    return hot_count > 0 ? hot[below(hot_count)] : below(64);
}

static unsigned lane_word(unsigned lanes)
{
    if (hot_count > 0 && percent(70))
        return PICK(lane_words[lanes == 4]);
    return source_word();
}

/* c of slct, of any class at times. */
static unsigned choice_word(void)
{
    unsigned kind = below(100);
    return kind < 30 && hot_count > 0 ? PICK(tiny_words) : kind < 65 ? hot_word() : source_word();
}

static unsigned destination_word(void)
{
    static const unsigned edges[] = { 0, 15, 16, 31, 32, 63 };
    if (percent(4))
        return PICK(edges);
    for (int tries = 0; tries < 8; tries++) {
        unsigned n = below(64);
        if (!is_hot(n))
            return n;
    }
    return below(64);
}

static unsigned double_word(void)
{
    static const unsigned edges[] = { 0, 15, 16, 31 };
    if (!percent(10))           /* else the same again, so that doubles are equal at times */
        last_double = percent(15) ? PICK(edges) : below(32);
    return last_double;
}

/* Doubles are only copied, so most of them keep their start value. */
static unsigned destination_double(void)
{
    return percent(90) ? 24 + below(8) : double_word();
}

/* Halves are only copied too. */
static unsigned half_word(void)
{
    static const unsigned edges[] = { 0, 0, 1, 1, 15, 16, 31 };
    if (!percent(12))           /* else the same again, so that halves are equal at times */
        last_half = percent(25) ? PICK(edges) : below(32);
    return last_half;
}

static unsigned destination_half(void)
{
    return percent(80) ? 24 + below(8) : half_word();
}

static unsigned predicate(void)
{
    return percent(60) ? below(4) : percent(20) ? 15 : below(16);
}

/* ---- kits: special values from any register state ---- */

/* Words for the lanes of `with` (2 or 4), in the registers from r on, out of 0 and of all ones. */
static void emit_lane_kit(unsigned with, const unsigned *r, unsigned zero, unsigned ones)
{
    enum { ONE, GREATEST, LEAST, LAST_BUT_ONE, MIXED };
    char letter = with == 2 ? 'h' : 'b';
    unsigned mixed = r[MIXED];
    const unsigned words[LANE_WORDS] = { zero, ones, r[ONE], r[GREATEST], r[LEAST], r[LAST_BUT_ONE], mixed };
    memcpy(lane_words[with == 4], words, sizeof words);
    emit_format("vset%u.u32.u32.eq %%r%u, %%r%u, %%r%u, %%r%u;", with, r[ONE], zero, zero, zero);
    emit_format("vadd%u.s32.u32.u32.sat %%r%u, %%r%u, %%r%u, %%r%u;", with, r[GREATEST], ones, ones, zero);
    emit_format("vsub%u.s32.u32.u32.sat %%r%u, %%r%u, %%r%u, %%r%u;", with, r[LEAST], zero, ones, zero);
    emit_format("vsub%u.s32.s32.s32 %%r%u, %%r%u, %%r%u, %%r%u;", with, r[LAST_BUT_ONE], ones, r[ONE], zero);
    emit_format("vadd%u.u32.u32.u32 %%r%u.%c0, %%r%u, %%r%u, %%r%u;", with, mixed, letter, r[GREATEST], zero, r[LEAST]);
    if (with == 4) {
        emit_format("vmax4.u32.u32.u32 %%r%u.b1, %%r%u, %%r%u, %%r%u;", mixed, r[ONE], zero, mixed);
        emit_format("vmin4.u32.u32.u32 %%r%u.b2, %%r%u, %%r%u, %%r%u;", mixed, ones, ones, mixed);
    }
}

static void emit_kit(void)
{
    enum {
        ZERO, ONES, ONE, F_ONE, S_MAX, S_MIN, /* EXTREMES */ INF, N_INF, QNAN, N_QNAN, SNAN, N_SNAN,
        SNAN_MAX, F_MAX, NF_MAX, NORMAL, N_NORMAL, SUB_MAX, N_SUB_MAX, N_SUB_MIN,
        NF_ONE, H_MAX, H_MIN, B_MAX, B_MIN, S_MIN_1, KIT, LANE_KIT = 5
    };
    unsigned r[64];
    for (unsigned i = 0; i < 64; i++)
        r[i] = i;
    for (unsigned i = 63; i > 0; i--) {
        unsigned j = below(i + 1), t = r[i];
        r[i] = r[j];
        r[j] = t;
    }
    memcpy(hot, r, sizeof r);
    hot_count = KIT;
    const unsigned tiny[TINY_WORDS] = {         /* H_MAX is 00007FFF, B_MAX 8000007F */
        r[ZERO], r[S_MIN], r[ONE], r[N_SUB_MIN], r[H_MAX], r[B_MAX], r[SUB_MAX], r[N_SUB_MAX], r[NORMAL], r[N_NORMAL]
    };
    memcpy(tiny_words, tiny, sizeof tiny);

    unsigned x = below(64);
    emit_format("set.ne.u32.u32 %%r%u, %%r%u, %%r%u;", r[ZERO], x, x);
    emit_format("set.eq.s32.b32 %%r%u, %%r%u, %%r%u;", r[ONES], x, x);
    emit_format("vset.u32.s32.eq %%r%u, %%r%u.b2, %%r%u.b2;", r[ONE], r[ZERO], r[ZERO]);
    emit_format("set.eq.f32.s32 %%r%u, %%r%u, %%r%u;", r[F_ONE], x, x);
    emit_format("vadd.s32.u32.u32.sat %%r%u, %%r%u, %%r%u;", r[S_MAX], r[ONES], r[ONES]);
    emit_format("vsub.s32.u32.u32.sat %%r%u, %%r%u, %%r%u;", r[S_MIN], r[ZERO], r[ONES]);
    emit_format("vadd.u32.u32.u32 %%r%u.b3, %%r%u.b3, %%r%u, %%r%u;", r[INF], r[S_MAX], r[ZERO], r[ZERO]);
    emit_format("vadd.u32.u32.u32 %%r%u.b2, %%r%u.b3, %%r%u, %%r%u;", r[INF], r[S_MIN], r[ZERO], r[INF]);
    emit_format("vmax.u32.u32.u32 %%r%u.b3, %%r%u.b0, %%r%u, %%r%u;", r[N_INF], r[ONES], r[ZERO], r[INF]);
    emit_format("vsub.u32.u32.u32 %%r%u.b2, %%r%u.b0, %%r%u.b3, %%r%u;", r[QNAN], r[ONES], r[F_ONE], r[INF]);
    emit_format("vmin.u32.u32.u32 %%r%u.b3, %%r%u.b1, %%r%u.b2, %%r%u;", r[N_QNAN], r[ONES], r[ONES], r[QNAN]);
    emit_format("vadd.u32.u32.u32 %%r%u, %%r%u, %%r%u;", r[SNAN], r[INF], r[ONE]);
    emit_format("vadd.s32.u32.s32 %%r%u, %%r%u, %%r%u;", r[N_SNAN], r[N_INF], r[ONE]);
    emit_format("vsub.u32.u32.u32 %%r%u, %%r%u, %%r%u;", r[SNAN_MAX], r[QNAN], r[ONE]);
    emit_format("vsub.u32.u32.u32 %%r%u, %%r%u, %%r%u;", r[F_MAX], r[INF], r[ONE]);
    emit_format("vsub.u32.s32.u32 %%r%u, %%r%u, %%r%u;", r[NF_MAX], r[N_INF], r[ONE]);
    emit_format("vadd.u32.u32.u32 %%r%u.b2, %%r%u.b3, %%r%u, %%r%u;", r[NORMAL], r[S_MIN], r[ZERO], r[ZERO]);
    emit_format("vadd.u32.u32.u32 %%r%u, %%r%u, %%r%u;", r[N_NORMAL], r[NORMAL], r[S_MIN]);
    emit_format("vsub.u32.u32.u32 %%r%u, %%r%u, %%r%u;", r[SUB_MAX], r[NORMAL], r[ONE]);
    emit_format("vadd.s32.s32.s32 %%r%u, %%r%u, %%r%u;", r[N_SUB_MAX], r[SUB_MAX], r[S_MIN]);
    emit_format("vadd.u32.u32.u32 %%r%u, %%r%u, %%r%u;", r[N_SUB_MIN], r[S_MIN], r[ONE]);
    emit_format("vadd.s32.s32.s32 %%r%u, %%r%u, %%r%u;", r[NF_ONE], r[F_ONE], r[S_MIN]);
    emit_format("vadd.s32.u32.u32.sat %%r%u.h0, %%r%u, %%r%u, %%r%u;", r[H_MAX], r[ONES], r[ONES], r[ZERO]);
    emit_format("vsub.s32.u32.u32.sat %%r%u.h0, %%r%u, %%r%u, %%r%u;", r[H_MIN], r[ZERO], r[ONES], r[S_MAX]);
    emit_format("vadd.s32.u32.u32.sat %%r%u.b0, %%r%u, %%r%u, %%r%u;", r[B_MAX], r[ONES], r[ONES], r[S_MIN]);
    emit_format("vsub.s32.u32.u32.sat %%r%u.b1, %%r%u, %%r%u, %%r%u;", r[B_MIN], r[ZERO], r[ONES], r[ONES]);
    emit_format("vsub.s32.s32.s32 %%r%u, %%r%u, %%r%u;", r[S_MIN_1], r[ONES], r[ONE]);
    emit_lane_kit(2, r + KIT, r[ZERO], r[ONES]);
    emit_lane_kit(4, r + KIT + LANE_KIT, r[ZERO], r[ONES]);
}

/* Predicates of both values. */
static void emit_predicates(void)
{
    unsigned n = below(64), p = predicate(), q = predicate();
    emit_format("setp.eq.u32 %%p%u, %%r%u, %%r%u;", p, n, n);
    if (p != q)
        emit_format("setp.ne.b32 %%p%u, %%r%u, %%r%u;", q, n, n);
}

/* ---- drafts of lines ---- */

enum { NAMES_MOST = 12, OPERANDS_MOST = 8, TEXT_MOST = 40 };

typedef struct {
    char guard[TEXT_MOST];              /* empty if none */
    char name[NAMES_MOST][TEXT_MOST];
    unsigned names;
    char operand[OPERANDS_MOST][TEXT_MOST];
    unsigned operands;
} Draft;

static void add_name(Draft *d, const char *name)
{
    if (d->names < NAMES_MOST)
        snprintf(d->name[d->names++], TEXT_MOST, "%s", name);
}

static void add_operand(Draft *d, const char *format, ...)
{
    if (d->operands == OPERANDS_MOST)
        return;
    va_list list;
    va_start(list, format);
    vsnprintf(d->operand[d->operands++], TEXT_MOST, format, list);
    va_end(list);
}

static const char *const video_types[] = { "u32", "s32" };
static const char *const types[] = { "b32", "b64", "u32", "u64", "s32", "s64", "f32", "f64" };
static const char *const cmp6[] = { "eq", "ne", "lt", "le", "gt", "ge" };
static const char *const cmp_unsigned[] = { "eq", "ne", "lt", "le", "gt", "ge", "lo", "ls", "hi", "hs" };
static const char *const cmp_float[] = { "eq", "ne", "lt", "le", "gt", "ge", "equ", "neu", "ltu", "leu", "gtu", "geu", "num", "nan" };
static const char *const op2[] = { "add", "min", "max" };
static const char *const bool_op[] = { "and", "or", "xor" };
static const char *const scalar_opcodes[] = { "vadd", "vsub", "vabsdiff", "vmin", "vmax" };
static const char *const lane_opcodes[] = { "vadd", "vsub", "vavrg", "vabsdiff", "vmin", "vmax" };
static const char *const parts[] = { "b0", "b1", "b2", "b3", "h0", "h1" };

static bool is_wide(const char *type) { return type[1] == '6'; }
static bool is_half(const char *type) { return type[1] == '1'; }

/* Request T-06. How many typed drafts of a hundred are of 16 bits: none among the lines that are not made apart, which so stay as they were. */
static unsigned half_chance;

static const char *const half_types[] = { "b16", "u16", "s16" };

static bool of_16_bits(void) { return half_chance > 0 && percent(half_chance); }
static const char *some_type(void) { return of_16_bits() ? PICK(half_types) : PICK(types); }

static void add_scalar_source(Draft *d)
{
    unsigned n = source_word();
    if (percent(60))
        add_operand(d, "%%r%u", n);
    else
        add_operand(d, "%%r%u.%s", n, PICK(parts));
}

/* Operands of scalar video, vset included; `clamped` asks for words of hot registers into a part, where sat shows most. */
static void add_scalar_operands(Draft *d, bool has_op2, bool clamped)
{
    bool merge = clamped || (!has_op2 && percent(55));
    unsigned n = destination_word();
    if (merge)
        add_operand(d, "%%r%u.%s", n, PICK(parts));
    else
        add_operand(d, "%%r%u", n);
    for (int i = 0; i < 2; i++) {
        if (clamped)
            add_operand(d, "%%r%u", hot_word());
        else
            add_scalar_source(d);
    }
    if (has_op2 || merge)
        add_operand(d, "%%r%u", source_word());
}

static void draft_scalar(Draft *d)
{
    add_name(d, PICK(scalar_opcodes));
    for (int i = 0; i < 3; i++)
        add_name(d, PICK(video_types));
    bool clamped = percent(15);
    if (clamped || percent(50))
        add_name(d, "sat");
    bool has_op2 = !clamped && percent(45);
    if (has_op2)
        add_name(d, PICK(op2));
    add_scalar_operands(d, has_op2, clamped);
}

static void draft_vset(Draft *d)
{
    add_name(d, "vset");
    add_name(d, PICK(video_types));
    add_name(d, PICK(video_types));
    add_name(d, PICK(cmp6));
    bool has_op2 = percent(40);
    if (has_op2)
        add_name(d, PICK(op2));
    add_scalar_operands(d, has_op2, false);
}

static void add_lane_source(Draft *d, unsigned n, unsigned lanes, const char *standard)
{
    unsigned kind = below(100);
    unsigned digit[4];
    if (kind < 30)
        add_operand(d, "%%r%u", n);
    else if (kind < 45)
        add_operand(d, "%%r%u.%s", n, standard);
    else {
        for (unsigned i = 0; i < lanes; i++)
            digit[i] = below(2 * lanes);
        if (lanes == 2)
            add_operand(d, "%%r%u.h%u%u", n, digit[0], digit[1]);
        else
            add_operand(d, "%%r%u.b%u%u%u%u", n, digit[0], digit[1], digit[2], digit[3]);
    }
}

/* Operands of the forms with 2 and 4; the sources hold special parts if `special`. */
static void add_lane_operands(Draft *d, unsigned lanes, bool special)
{
    unsigned n = destination_word();
    unsigned mask = 1 + below((1u << lanes) - 1);
    if (percent(30)) {
        add_operand(d, "%%r%u", n);
    } else {
        char name[8];
        unsigned length = 0;
        name[length++] = lanes == 2 ? 'h' : 'b';
        for (unsigned i = lanes; i-- > 0;)
            if (mask >> i & 1)
                name[length++] = (char)('0' + i);
        name[length] = '\0';
        add_operand(d, "%%r%u.%s", n, percent(15) ? (lanes == 2 ? "h10" : "b3210") : name);
    }
    add_lane_source(d, special ? lane_word(lanes) : source_word(), lanes, lanes == 2 ? "h10" : "b3210");
    add_lane_source(d, special ? lane_word(lanes) : source_word(), lanes, lanes == 2 ? "h32" : "b7654");
    add_operand(d, "%%r%u", source_word());
}

static void draft_lanes(Draft *d, unsigned lanes)
{
    add_name(d, lanes == 2 ? "vset2" : "vset4");
    add_name(d, PICK(video_types));
    add_name(d, PICK(video_types));
    add_name(d, PICK(cmp6));
    if (percent(40))
        add_name(d, "add");
    add_lane_operands(d, lanes, percent(20));
}

/* Request T-01. */
static void draft_lane_arithmetic(Draft *d, unsigned lanes)
{
    char opcode[TEXT_MOST];
    snprintf(opcode, sizeof opcode, "%s%u", PICK(lane_opcodes), lanes);
    add_name(d, opcode);
    for (int i = 0; i < 3; i++)
        add_name(d, PICK(video_types));
    if (percent(55))
        add_name(d, "sat");
    if (percent(50))
        add_name(d, "add");
    add_lane_operands(d, lanes, percent(75));
}

static void add_typed_sources(Draft *d, const char *type)
{
    for (int i = 0; i < 2; i++) {
        if (is_wide(type))
            add_operand(d, "%%rd%u", double_word());
        else if (is_half(type))
            add_operand(d, "%%rs%u", half_word());
        else                    /* of singles all pairs of classes should meet, so all hot ones are as likely */
            add_operand(d, "%%r%u", type[0] == 'f' && percent(60) ? hot_word() : source_word());
    }
}

static void draft_set(Draft *d, bool setp)
{
    const char *type = of_16_bits() ? PICK(half_types) : percent(30) ? "f32" : PICK(types);
    add_name(d, setp ? "setp" : "set");
    switch (type[0]) {
    case 'b': add_name(d, cmp6[below(2)]); break;
    case 's': add_name(d, PICK(cmp6)); break;
    case 'u': add_name(d, PICK(cmp_unsigned)); break;
    default:  add_name(d, PICK(cmp_float)); break;
    }
    bool has_bool_op = percent(60);
    unsigned c = predicate();
    if (has_bool_op)
        add_name(d, PICK(bool_op));
    if (strcmp(type, "f32") == 0 && percent(45))
        add_name(d, "ftz");
    if (setp) {
        unsigned kind = below(100), p = predicate(), q = predicate();
        if (percent(20))        /* c has to be read before it is written */
            c = percent(70) ? p : q;
        if (kind < 40) {
            add_operand(d, "%%p%u", p);
        } else if (kind < 75) {
            if (p == q)
                q = (q + 1) % 16;
            add_operand(d, "%%p%u|%%p%u", p, q);
        } else if (kind < 87) {
            add_operand(d, "%%p%u|_", p);
        } else {
            add_operand(d, "_|%%p%u", p);
        }
    } else {
        static const char *const dtypes[] = { "u32", "s32", "f32" };
        add_name(d, PICK(dtypes));
        add_operand(d, "%%r%u", destination_word());
    }
    add_name(d, type);
    add_typed_sources(d, type);
    if (has_bool_op)
        add_operand(d, "%s%%p%u", percent(50) ? "!" : "", c);
}

static void add_typed_destination(Draft *d, const char *type)
{
    if (is_wide(type))
        add_operand(d, "%%rd%u", destination_double());
    else if (is_half(type))
        add_operand(d, "%%rs%u", destination_half());
    else
        add_operand(d, "%%r%u", destination_word());
}

static void draft_selp(Draft *d)
{
    const char *type = some_type();
    add_name(d, "selp");
    add_name(d, type);
    add_typed_destination(d, type);
    add_typed_sources(d, type);
    add_operand(d, "%%p%u", predicate());
}

static void draft_slct(Draft *d)
{
    const char *type = some_type();
    bool single = percent(60);
    add_name(d, "slct");
    if (single && percent(45))
        add_name(d, "ftz");
    add_name(d, type);
    add_name(d, single ? "f32" : "s32");
    add_typed_destination(d, type);
    add_typed_sources(d, type);
    add_operand(d, "%%r%u", choice_word());
    if (type[1] == '3' && percent(10))          /* c is copied, as it is */
        memcpy(d->operand[1], d->operand[3], TEXT_MOST);
}

static void draft_good(Draft *d)
{
    memset(d, 0, sizeof *d);
    if (percent(25)) {
        const char *sign = some_sign();
        snprintf(d->guard, TEXT_MOST, "@%s%%p%u", sign, predicate());
    }
    unsigned kind = below(100);
    if (kind < 23)      draft_scalar(d);
    else if (kind < 29) draft_vset(d);
    else if (kind < 34) draft_lanes(d, 2);
    else if (kind < 39) draft_lanes(d, 4);
    else if (kind < 46) draft_lane_arithmetic(d, 2);
    else if (kind < 55) draft_lane_arithmetic(d, 4);
    else if (kind < 75) draft_set(d, false);
    else if (kind < 87) draft_set(d, true);
    else if (kind < 90) draft_selp(d);
    else                draft_slct(d);
}

/* ---- drafts spoilt by tokens ---- */

static const char *const any_names[] = {
    "vadd", "vsub", "vabsdiff", "vmin", "vmax", "vset", "vset2", "vset4", "set", "setp",
    "selp", "slct", "u32", "s32", "f32", "b32", "u64", "s64", "f64", "b64", "u16", "s16",
    "b16", "f16", "u8", "eq", "ne", "lt", "le", "gt", "ge", "lo", "ls", "hi", "hs", "equ",
    "neu", "ltu", "leu", "gtu", "geu", "num", "nan", "add", "min", "max", "and", "or",
    "xor", "not", "sat", "ftz", "vmad", "vshl", "vadd4", "vset1", "vset3", "mov", "pred",
    "a", "0", "u3", "u322", "eqx", "vabsdiff2", "vabsdiffs", "abcdefghijk", "b0", "h10",
    "vavrg", "vavrg2", "vadd3", "vmax4"
};

static const char *const any_selectors[] = {
    "b0", "b1", "b2", "b3", "b4", "h0", "h1", "h2", "h10", "h01", "h00", "h11", "h32",
    "h23", "h44", "h210", "b3210", "b0123", "b7654", "b4567", "b8765", "b321", "b10",
    "b01", "b33", "b3333", "b32100", "b76543", "b", "h", "w0", "x", "0", "b4321", "h33",
    "b20", "b310", "b32a0", "b321076", "b32107654", "h3", "h100000000", "b00", "h1010"
};

static void any_register(char *to)
{
    static const char *const files[] = { "%r", "%rd", "%p" };
    static const char *const edges[] = {
        "0", "15", "16", "31", "32", "63", "64", "99", "100", "999", "1000", "00", "01",
        "063", "0000", "9999", "65536", "4294967296", "", "7", "1"
    };
    bool edge = percent(50);
    const char *file = PICK(files);
    if (edge)
        snprintf(to, TEXT_MOST, "%s%s", file, PICK(edges));
    else
        snprintf(to, TEXT_MOST, "%s%u", file, below(16));
}

static void any_operand(char *to)
{
    char x[TEXT_MOST], y[TEXT_MOST], made[3 * TEXT_MOST];
    any_register(x);
    any_register(y);
    switch (below(16)) {
    case 0: case 1: case 2: snprintf(made, sizeof made, "%s", x); break;
    case 3: case 4: snprintf(made, sizeof made, "!%s", x); break;
    case 5: case 6: snprintf(made, sizeof made, "%s.%s", x, PICK(any_selectors)); break;
    case 7: snprintf(made, sizeof made, "%s|%s", x, y); break;
    case 8: snprintf(made, sizeof made, "%s|%s", x, x); break;
    case 9: snprintf(made, sizeof made, "%s|_", x); break;
    case 10: snprintf(made, sizeof made, "_|%s", x); break;
    case 11: snprintf(made, sizeof made, "%s", percent(70) ? "_|_" : "_"); break;
    case 12: snprintf(made, sizeof made, "%s|%s|%s", x, y, percent(50) ? "_" : x); break;
    case 13: snprintf(made, sizeof made, "%s.%s|%s", x, PICK(any_selectors), y); break;
    case 14: snprintf(made, sizeof made, "%u", below(100)); break;
    default: snprintf(made, sizeof made, "!%s.%s", x, PICK(any_selectors)); break;
    }
    made[TEXT_MOST - 1] = '\0';
    memcpy(to, made, TEXT_MOST);
}

static void swap_texts(char *x, char *y)
{
    char t[TEXT_MOST];
    memcpy(t, x, TEXT_MOST);
    memmove(x, y, TEXT_MOST);
    memcpy(y, t, TEXT_MOST);
}

static void remove_text(char (*list)[TEXT_MOST], unsigned *count, unsigned at)
{
    for (unsigned i = at; i + 1 < *count; i++)
        memcpy(list[i], list[i + 1], TEXT_MOST);
    (*count)--;
}

static void insert_text(char (*list)[TEXT_MOST], unsigned *count, unsigned most,
                        unsigned at, const char *text)
{
    if (*count == most)
        return;
    char copy[TEXT_MOST];
    snprintf(copy, sizeof copy, "%s", text);
    for (unsigned i = *count; i > at; i--)
        memcpy(list[i], list[i - 1], TEXT_MOST);
    memcpy(list[at], copy, TEXT_MOST);
    (*count)++;
}

static void spoil_names(Draft *d)
{
    unsigned at = below(d->names);
    unsigned modifier = d->names > 1 ? 1 + below(d->names - 1) : 0;
    unsigned to;
    switch (below(9)) {
    case 8: d->names = 1 + below(d->names); break;
    case 0: swap_texts(d->name[modifier], d->name[d->names > 1 ? 1 + below(d->names - 1) : 0]); break;
    case 1: if (d->names > 2) swap_texts(d->name[d->names - 1], d->name[d->names - 2]); break;
    case 2: insert_text(d->name, &d->names, NAMES_MOST, modifier, d->name[modifier]); break;
    case 3: remove_text(d->name, &d->names, modifier); break;
    case 4: to = below(d->names) + 1; insert_text(d->name, &d->names, NAMES_MOST, to, PICK(any_names)); break;
    case 5: snprintf(d->name[modifier], TEXT_MOST, "%s", PICK(any_names)); break;
    case 6: snprintf(d->name[0], TEXT_MOST, "%s", PICK(any_names)); break;
    default:
        if (percent(60))        /* a modifier that stands in some table row */
            insert_text(d->name, &d->names, NAMES_MOST, at + 1,
                        percent(50) ? (percent(50) ? "sat" : "ftz") : percent(50) ? PICK(op2) : PICK(bool_op));
        else
            while (d->names < NAMES_MOST)
                add_name(d, PICK(any_names));
        break;
    }
    if (d->names == 0)
        d->names = 1;
}

static void spoil_operands(Draft *d)
{
    unsigned at = below(d->operands);
    char made[TEXT_MOST];
    any_operand(made);
    switch (below(14)) {
    case 0:
        if (percent(50))
            remove_text(d->operand, &d->operands, at);
        else
            d->operands = at + 1;
        break;
    case 1: insert_text(d->operand, &d->operands, OPERANDS_MOST, at, d->operand[at]); break;
    case 2: insert_text(d->operand, &d->operands, OPERANDS_MOST, below(d->operands + 1), made); break;
    case 3: swap_texts(d->operand[at], d->operand[below(d->operands)]); break;
    case 4: case 5: memcpy(d->operand[at], made, TEXT_MOST); break;
    case 6: case 7: {           /* another selector, or one where none was */
        char *dot = strchr(d->operand[at], '.');
        size_t length = dot != NULL ? (size_t)(dot - d->operand[at]) : strlen(d->operand[at]);
        snprintf(d->operand[at] + length, TEXT_MOST - length, ".%s", PICK(any_selectors));
        break;
    }
    case 8: {                   /* the selector dropped */
        char *dot = strchr(d->operand[at], '.');
        if (dot != NULL)
            *dot = '\0';
        break;
    }
    case 9: {                   /* `!` put in front */
        snprintf(made, sizeof made, "%s", d->operand[at]);
        d->operand[at][0] = '!';
        memcpy(d->operand[at] + 1, made, TEXT_MOST - 1);
        d->operand[at][TEXT_MOST - 1] = '\0';
        break;
    }
    case 11: {                  /* a pair, right for setp's d alone */
        unsigned p = below(16);
        snprintf(d->operand[at], TEXT_MOST, percent(50) ? "%%p%u|%%p%u" : "%%p%u|_", p, (p + 1) % 16);
        break;
    }
    case 10: {                  /* a pair of one predicate */
        unsigned p = below(percent(80) ? 16 : 20);
        snprintf(d->operand[0], TEXT_MOST, "%%p%u|%%p%u", p, p);
        break;
    }
    default: {                  /* another file */
        static const char *const files[] = { "r", "rd", "p" };
        char *sign = strchr(d->operand[at], '%');
        if (sign != NULL) {
            snprintf(made, sizeof made, "%s", sign + 1 + strspn(sign + 1, "rdp"));
            snprintf(sign + 1, TEXT_MOST - (size_t)(sign + 1 - d->operand[at]), "%s%.30s", PICK(files), made);
        }
        break;
    }
    }
}

/* A register number of an operand or the guard put at an edge. */
static void spoil_number(Draft *d)
{
    static const char *const edges[] = {
        "0", "15", "16", "31", "32", "63", "64", "99", "100", "999", "1000", "00", "01", "063", "0", "63", "64"
    };
    unsigned at = below(d->operands + (d->guard[0] != '\0'));
    char *text = at < d->operands ? d->operand[at] : d->guard;
    char made[2 * TEXT_MOST];
    char *number = text;
    while (*number != '\0' && !(*number >= '0' && *number <= '9'))
        number++;
    char *rest = number;
    while (*rest >= '0' && *rest <= '9')
        rest++;
    snprintf(made, sizeof made, "%.*s%s%s", (int)(number - text), text, PICK(edges), rest);
    made[TEXT_MOST - 1] = '\0';
    memcpy(text, made, TEXT_MOST);
}

static void spoil_guard(Draft *d)
{
    const char *sign;
    unsigned n;
    char made[TEXT_MOST];
    any_register(made);
    switch (below(5)) {
    case 0: snprintf(d->guard, TEXT_MOST, "@%.30s", made); break;
    case 1: snprintf(d->guard, TEXT_MOST, "@!%.30s", made); break;
    case 2: sign = some_sign(); snprintf(d->guard, TEXT_MOST, "@%s%%p%u", sign, below(24)); break;
    case 3: n = below(16); snprintf(d->guard, TEXT_MOST, "@%%p%u.%.20s", n, PICK(any_selectors)); break;
    default: snprintf(d->guard, TEXT_MOST, "%s", percent(50) ? "@!!%p1" : percent(50) ? "@" : "@_"); break;
    }
}

/* A guard that is no predicate. */
static void wrong_guard(Draft *d, unsigned numbers)
{
    const char *sign = some_sign(), *file = of_16_bits() ? "rs" : percent(50) ? "rd" : "r";
    snprintf(d->guard, TEXT_MOST, "@%s%%%s%u", sign, file, below(numbers));
}

/* ---- lines of lanes, mostly of request T-01, spoilt in one way each ---- */

/* A list of modifiers that is nearly one, or an opcode that nearly is one. */
static void spoil_lane_names(Draft *d)
{
    static const char *const near[] = { "vavrg", "vadd3", "vsub1", "vavrg3", "vabsdiff3", "vabsdiff22", "vmin8", "vmax44", "varvg2", "varvg4" };
    static const char *const type[] = { "u64", "s64", "f32", "b32", "u16", "s16", "u8" };
    unsigned at;
    d->names = 4;               /* the opcode and its types */
    switch (below(14)) {
    case 0: d->names = 3; break;
    case 1: d->names = 3; add_name(d, percent(50) ? "sat" : "add"); break;
    case 2: add_name(d, "add"); add_name(d, "sat"); break;
    case 3: if (percent(50)) add_name(d, "sat"); add_name(d, "min"); break;
    case 4: if (percent(50)) add_name(d, "sat"); add_name(d, "max"); break;
    case 5: snprintf(d->name[3], TEXT_MOST, "%s", PICK(cmp6)); if (percent(50)) add_name(d, "add"); break;
    case 6: add_name(d, PICK(cmp6)); break;
    case 7: add_name(d, "sat"); add_name(d, "sat"); break;
    case 8: if (percent(50)) add_name(d, "sat"); add_name(d, "add"); add_name(d, "add"); break;
    case 9: add_name(d, PICK(video_types)); break;
    case 10: insert_text(d->name, &d->names, NAMES_MOST, 1 + below(3), "sat"); break;
    case 11: at = 1 + below(3); snprintf(d->name[at], TEXT_MOST, "%s", PICK(type)); break;
    case 12: snprintf(d->name[0], TEXT_MOST, "%s", PICK(near)); break;
    default: d->names = 1; break;
    }
}

/* Another selector on the operand. */
static void put_selector(char *operand, const char *selector)
{
    char *dot = strchr(operand, '.');
    size_t length = dot != NULL ? (size_t)(dot - operand) : strlen(operand);
    snprintf(operand + length, TEXT_MOST - length, ".%s", selector);
}

static void spoil_lane_selector(Draft *d, unsigned lanes)
{
    static const char *const masks[2][6] = {
        { "h00", "h01", "h2", "h", "b0", "h100" }, { "b00", "b013", "b43", "b", "h10", "b32100" }
    };
    static const char *const sources[2][4] = { { "h1", "h102", "h14", "b10" }, { "b210", "b01234", "b8210", "h3210" } };
    unsigned at = below(3);
    put_selector(d->operand[at], at == 0 ? PICK(masks[lanes == 4]) : PICK(sources[lanes == 4]));
}

static void spoil_lane_operand(Draft *d)
{
    unsigned at = below(4), n = below(64);
    const char *file;
    switch (below(6)) {
    case 0: file = percent(50) ? "r" : "p"; snprintf(d->operand[at], TEXT_MOST, "!%%%s%u", file, below(16)); break;
    case 1: snprintf(d->operand[at], TEXT_MOST, percent(50) ? "%%r%u|%%r%u" : "%%r%u|_", n, 63 - n); break;
    case 2: snprintf(d->operand[at], TEXT_MOST, "%%rd%u", below(32)); break;
    case 3: snprintf(d->operand[at], TEXT_MOST, "%%p%u", below(16)); break;
    case 4:
        if (percent(50))
            d->operands = 1 + below(3);
        else
            add_operand(d, "%%r%u", n);
        break;
    default:
        if (percent(70))
            put_selector(d->operand[3], PICK(any_selectors));
        else
            wrong_guard(d, 32);
        break;
    }
}

/* %r64 as one operand, or %p16 as the guard. */
static void spoil_lane_number(Draft *d)
{
    unsigned at = below(5);
    if (at == 4) {
        snprintf(d->guard, TEXT_MOST, "@%s%%p16", percent(50) ? "!" : "");
        return;
    }
    char *dot = strchr(d->operand[at], '.');
    char selector[TEXT_MOST];
    snprintf(selector, sizeof selector, "%s", dot != NULL ? dot : "");
    snprintf(d->operand[at], TEXT_MOST, "%%r64%.20s", selector);
}

static void draft_lane_miss(Draft *d)
{
    unsigned lanes = percent(50) ? 2 : 4, kind = below(100);
    memset(d, 0, sizeof *d);
    if (kind >= 33 && percent(15))      /* operands are wrong in vset2 and vset4 as well */
        draft_lanes(d, lanes);
    else
        draft_lane_arithmetic(d, lanes);
    if (kind < 33)      spoil_lane_names(d);
    else if (kind < 58) spoil_lane_selector(d, lanes);
    else if (kind < 91) spoil_lane_operand(d);
    else                spoil_lane_number(d);
}

/* ---- lines from drafts ---- */

enum { LINE_ROOM = 1024 };

typedef struct {
    Byte bytes[LINE_ROOM];
    size_t length;
} Line;

static void put_bytes(Line *line, const char *from)
{
    size_t n = strlen(from);
    if (n > LINE_ROOM - 300 - line->length)
        n = LINE_ROOM - 300 - line->length;
    memcpy(line->bytes + line->length, from, n);
    line->length += n;
}

static void put_blanks(Line *line, unsigned n)
{
    while (n-- > 0 && line->length < LINE_ROOM - 300)
        line->bytes[line->length++] = percent(75) ? ' ' : '\t';
}

enum { GAPS = 5 + 2 * OPERANDS_MOST };

/*
 * Blanks at each place that may have some: 0 in front, 1 behind the guard,
 * 2 behind the head, 3 in front of `;`, 4 at the end, then two for each comma.
 */
static void standard_gaps(unsigned gap[GAPS])
{
    memset(gap, 0, GAPS * sizeof gap[0]);
    gap[1] = gap[2] = 1;
    for (unsigned i = 6; i < GAPS; i += 2)
        gap[i] = 1;
}

static void odd_gaps(unsigned gap[GAPS])
{
    for (unsigned i = 0; i < GAPS; i++)
        gap[i] = percent(45) ? 0 : percent(60) ? 1 : below(5);
    if (gap[1] == 0)
        gap[1] = 1;
    if (gap[2] == 0)
        gap[2] = 1;
}

static void render(const Draft *d, const unsigned gap[GAPS], Line *line)
{
    line->length = 0;
    put_blanks(line, gap[0]);
    if (d->guard[0] != '\0') {
        put_bytes(line, d->guard);
        put_blanks(line, gap[1]);
    }
    for (unsigned i = 0; i < d->names; i++) {
        if (i > 0)
            put_bytes(line, ".");
        put_bytes(line, d->name[i]);
    }
    put_blanks(line, gap[2]);
    for (unsigned i = 0; i < d->operands; i++) {
        if (i > 0) {
            put_blanks(line, gap[5 + 2 * (i - 1)]);
            put_bytes(line, ",");
            put_blanks(line, gap[6 + 2 * (i - 1)]);
        }
        put_bytes(line, d->operand[i]);
    }
    put_blanks(line, gap[3]);
    put_bytes(line, ";");
    put_blanks(line, gap[4]);
}

static void render_some_way(const Draft *d, Line *line)
{
    unsigned gap[GAPS];
    if (percent(60))
        standard_gaps(gap);
    else
        odd_gaps(gap);
    if (percent(1) && d->guard[0] != '\0')
        gap[1] = 0;
    render(d, gap, line);
}

/* The draft with blanks up to a length of 158 to 162 bytes. */
static void render_long(const Draft *d, Line *line)
{
    static const size_t lengths[] = { 158, 159, 159, 160, 160, 160, 161, 161, 162 };
    size_t wanted = PICK(lengths);
    unsigned gap[GAPS];
    standard_gaps(gap);
    render(d, gap, line);
    bool one_place = percent(50);
    static const unsigned places[] = { 0, 2, 3, 4 };
    unsigned place = PICK(places);
    for (size_t n = line->length; n < wanted; n++)
        gap[one_place ? place : PICK(places)]++;
    render(d, gap, line);
}

/* ---- lines spoilt by bytes ---- */

static void insert_byte(Line *line, size_t at, Byte b)
{
    if (line->length == LINE_ROOM)
        return;
    memmove(line->bytes + at + 1, line->bytes + at, line->length - at);
    line->bytes[at] = b;
    line->length++;
}

static void remove_byte(Line *line, size_t at)
{
    memmove(line->bytes + at, line->bytes + at + 1, line->length - at - 1);
    line->length--;
}

static void spoil_byte(Line *line)
{
    static const char near[] = "%%rdp0123456789abhuseqltgn.,;|_!@ \t";
    if (line->length == 0)
        return;
    size_t at = below((unsigned)line->length);
    switch (below(5)) {
    case 0:
    case 1:
        line->bytes[at] = percent(85) ? (Byte)near[below(sizeof near - 1)]
                                      : (Byte)(line->bytes[at] ^ (1u << below(8)));
        break;
    case 2: remove_byte(line, at); break;
    case 3: insert_byte(line, at, line->bytes[at]); break;
    default:
        if (at + 1 < line->length) {
            Byte t = line->bytes[at];
            line->bytes[at] = line->bytes[at + 1];
            line->bytes[at + 1] = t;
        }
        break;
    }
}

static void insert_hostile(Line *line)
{
    static const Byte hostile[] = {
        0, '\r', 0x80, 0xFF, 0x0B, 0x0C, 0x1B, 0x7F, 0xA0, 0xC3, '\\', '"', '{', '/', '-', '+', 'R', 'A', ':'
    };
    size_t at = percent(40) ? line->length : below((unsigned)line->length + 1);
    insert_byte(line, at, percent(40) ? PICK(hostile) : (Byte)below(256));
}

static void random_bytes(Line *line)
{
    line->length = below(60);
    for (size_t i = 0; i < line->length; i++)
        line->bytes[i] = (Byte)below(256);
}

static void random_tokens(Line *line)
{
    static const char *const tokens[] = {
        "%r1", "%rd2", "%p3", "@", "!", "|", "_", ".", ",", ";", " ", "\t", "vadd", "u32", "set", "eq", "%", "63"
    };
    line->length = 0;
    for (unsigned n = below(14); n > 0; n--)
        put_bytes(line, PICK(tokens));
}

/* Many operands or names, up to about the longest line. */
static void crowded(Line *line)
{
    size_t most = 140 + below(30);
    line->length = 0;
    if (percent(50)) {
        put_bytes(line, "vadd.u32.u32.u32 %r1");
        while (line->length < most)
            put_bytes(line, percent(50) ? ",%r2" : ", %r3");
    } else {
        put_bytes(line, percent(50) ? "vadd.u32.u32.u32" : "vadd");
        while (line->length < most)
            put_bytes(line, percent(50) ? ".u32" : percent(50) ? ".sat" : "sat");
        put_bytes(line, " %r1,%r2,%r3");
    }
    put_bytes(line, ";");
}

/* ---- lines refused at each of their pieces (request T-05) ---- */

enum { OPCODES = 24, PIECES = 47, SPELLED = 7, CLASSES = 20 };

/* A legal draft of each opcode as likely. */
static void draft_opcode(Draft *d, unsigned which)
{
    memset(d, 0, sizeof *d);
    if (which < 5) {
        draft_scalar(d);
        snprintf(d->name[0], TEXT_MOST, "%s", scalar_opcodes[which]);
    } else if (which == 5) {
        draft_vset(d);
    } else if (which < 8) {
        draft_lanes(d, which == 6 ? 2 : 4);
    } else if (which < 20) {
        unsigned lanes = which < 14 ? 2 : 4;
        draft_lane_arithmetic(d, lanes);
        snprintf(d->name[0], TEXT_MOST, "%s%u", lane_opcodes[(which - 8) % 6], lanes);
    } else if (which < 22) {
        draft_set(d, which == 21);
    } else if (which == 22) {
        draft_selp(d);
    } else {
        draft_slct(d);
    }
}

static bool halves_alone;       /* no register of another file (request T-06) */

/* A register up to: 0 `%`, 1 `%r`, 2 the file, 3 the number 0, 4 to 6 a number of one to three digits. */
static void put_register_start(Line *line, unsigned spelled)
{
    static const char *const files[] = { "%r", "%rs", "%rd", "%p" };
    const char *file = halves_alone ? "%rs" : PICK(files);
    char digits[4] = "";
    switch (spelled) {
    case 0: put_bytes(line, "%"); return;
    case 1: put_bytes(line, "%r"); return;
    case 2: put_bytes(line, halves_alone ? "%rs" : files[1 + below(3)]); return;
    case 3: digits[0] = '0'; break;
    default:
        digits[0] = (char)('1' + below(9));
        for (unsigned i = 1; i < spelled - 3; i++)
            digits[i] = (char)('0' + below(10));
        break;
    }
    put_bytes(line, file);
    put_bytes(line, digits);
}

static void put_some_register(Line *line) { put_register_start(line, 3 + below(4)); }

/* An operand of the right shape, of any kind. */
static void put_some_operand(Line *line)
{
    switch (below(4)) {
    case 0: put_bytes(line, "!"); put_some_register(line); break;
    case 1: put_some_register(line); put_bytes(line, "|"); put_some_register(line); break;
    case 2: put_some_register(line); put_bytes(line, "."); put_bytes(line, PICK(any_selectors)); break;
    default: put_some_register(line); break;
    }
}

static void put_guard(Line *line)
{
    put_bytes(line, percent(50) ? "@" : "@!");
    put_some_register(line);
    put_blanks(line, 1 + below(3));
}

/* The guard up to the piece, 2 to 11. */
static void put_guard_start(Line *line, unsigned piece)
{
    put_bytes(line, piece == 3 || (piece > 3 && percent(40)) ? "@!" : "@");
    if (piece < 4)
        return;
    if (piece < 11) {
        put_register_start(line, piece - 4);
        return;
    }
    put_some_register(line);
    put_blanks(line, 1 + below(3));
}

/* The head up to the piece: 12 in or behind a name, 13 a dot, else the blanks behind it. */
static void put_head_start(Line *line, unsigned piece)
{
    Draft d;
    draft_opcode(&d, below(OPCODES));
    unsigned names = piece < 14 ? 1 + below(d.names) : d.names;
    for (unsigned i = 0; i < names; i++) {
        if (i > 0)
            put_bytes(line, ".");
        put_bytes(line, d.name[i]);
    }
    if (piece == 13)
        put_bytes(line, ".");
    if (piece > 13)
        put_blanks(line, percent(70) ? 1 : 1 + below(4));
}

/* An operand up to the piece, 17 to 43. */
static void put_operand_start(Line *line, unsigned piece)
{
    if (piece < 25) {
        put_bytes(line, "!");
        if (piece > 17)
            put_register_start(line, piece - 18);
    } else if (piece < 32) {
        put_register_start(line, piece - 25);
    } else if (piece < 42) {
        if (piece == 32 || percent(40))
            put_bytes(line, "_");
        else
            put_some_register(line);
        if (piece > 32)
            put_bytes(line, "|");
        if (piece == 41)
            put_bytes(line, "_");
        else if (piece > 33)
            put_register_start(line, piece - 34);
    } else {
        put_some_register(line);
        put_bytes(line, ".");
        if (piece == 43)
            put_bytes(line, PICK(any_selectors));
    }
}

/* The beginning of a line of the right shape: 0 nothing, 1 blanks, 2 on the guard, 12 on the head, 15 on the operands, 45 `;`, 46 and blanks. */
static void begin_at(Line *line, unsigned piece)
{
    line->length = 0;
    if (piece == 0)
        return;
    if (piece == 1 || percent(30))
        put_blanks(line, 1 + below(4));
    if (piece == 1)
        return;
    if (piece < 12) {
        put_guard_start(line, piece);
        return;
    }
    if (percent(25))
        put_guard(line);
    put_head_start(line, piece);
    if (piece < 15)
        return;
    for (unsigned n = piece < 17 ? 1 + below(4) : below(4); n > 0; n--) {
        put_some_operand(line);
        put_blanks(line, percent(80) ? 0 : 1 + below(2));
        put_bytes(line, ",");
        if (n > 1 || piece > 16)
            put_blanks(line, percent(60) ? 1 : below(3));
    }
    if (piece == 16)
        put_blanks(line, 1 + below(3));
    if (piece > 16 && piece < 44)
        put_operand_start(line, piece);
    if (piece < 44)
        return;
    put_some_operand(line);
    put_blanks(line, piece == 44 ? 1 + below(3) : percent(80) ? 0 : 1);
    if (piece > 44)
        put_bytes(line, ";");
    if (piece > 45)
        put_blanks(line, 1 + below(3));
}

static Byte byte_of_class(unsigned class)
{
    static const char single[] = " \t0rsdpxX.,;|_!@%";
    static const char letters[] = "abcefghijklmnoqtuvwxyz", marks[] = "#$&'()*+-/:<=>?[\\]^`{}~\"";
    switch (class) {
    case 2: return (Byte)('0' + below(10));
    case 7: return (Byte)letters[below(sizeof letters - 1)];
    case 8: return (Byte)('A' + below(26));
    case 17: return (Byte)marks[below(sizeof marks - 1)];
    case 18: { Byte b = (Byte)below(33); return b == '\n' || b == '\t' || b == ' ' ? (Byte)(percent(50) ? 0x7F : '\r') : b; }
    case 19: return (Byte)(128 + below(128));
    default: return (Byte)single[class];
    }
}

/* A beginning up to the piece, and often a byte behind it, of each class as likely. */
static void broken_shape(Line *line, unsigned piece)
{
    begin_at(line, piece);
    if (!percent(12)) {
        insert_byte(line, line->length, byte_of_class(below(CLASSES)));
        if (percent(40)) {
            Line rest;
            begin_at(&rest, percent(50) ? 45 : below(PIECES));
            size_t from = below((unsigned)rest.length + 1);
            for (size_t i = from; i < rest.length && line->length < 150; i++)
                insert_byte(line, line->length, rest.bytes[i]);
        }
    }
    if (percent(6)) {           /* up to 158 to 161 bytes */
        size_t wanted = 158 + below(4);
        while (line->length > 0 && line->length < wanted)
            insert_byte(line, 0, percent(80) ? ' ' : '\t');
    }
}

/* ---- modifiers ---- */

static const char *const other_types[] = { "b32", "f32", "b64", "u64", "s64", "f64" };
static const char *const other_cmps[] = { "lo", "ls", "hi", "hs", "equ", "neu", "ltu", "leu", "gtu", "geu", "num", "nan" };

static const char *word_of_class(void)
{
    switch (below(11)) {
    case 10: return PICK(half_types);
    case 0: return PICK(video_types);
    case 1: return PICK(other_types);
    case 2: return PICK(cmp6);
    case 3: return PICK(other_cmps);
    case 4: return PICK(op2);
    case 5: return PICK(bool_op);
    case 6: return "sat";
    case 7: return "ftz";
    case 8: return PICK(scalar_opcodes);
    default: return percent(50) ? "x" : percent(50) ? "f16" : "u3";
    }
}

/* set or setp with any comparison, with or without `ftz`, and any stype. */
static void any_comparison(Draft *d)
{
    bool setp = percent(50);
    unsigned cmp = below(18);
    d->names = 0;
    add_name(d, setp ? "setp" : "set");
    add_name(d, cmp < 6 ? cmp6[cmp] : other_cmps[cmp - 6]);
    if (percent(40))
        add_name(d, PICK(bool_op));
    if (percent(50))
        add_name(d, "ftz");
    if (!setp)
        add_name(d, percent(50) ? PICK(video_types) : "f32");
    add_name(d, some_type());
}

/* The longest list of modifiers of the opcode, and one more word. */
static void one_too_many(Draft *d, unsigned which)
{
    d->names = 1;
    for (unsigned i = which < 8 && which > 4 ? 1 : 0; i < 3 && which < 20; i++)
        add_name(d, PICK(video_types));
    if (which >= 5 && which < 8)
        add_name(d, PICK(cmp6));
    else if (which < 20)
        add_name(d, "sat");
    if (which < 20)
        add_name(d, which < 6 ? PICK(op2) : "add");
    if (which == 20 || which == 21) {
        add_name(d, PICK(cmp_float));
        add_name(d, PICK(bool_op));
    }
    if (which >= 20 && which != 22)
        add_name(d, "ftz");
    if (which == 20)
        add_name(d, PICK(video_types));
    if (which >= 22)
        add_name(d, some_type());
    if (which >= 20 && which != 22)
        add_name(d, "f32");
    add_name(d, word_of_class());
}

/* Each kind of opcode as likely, or each opcode. */
static unsigned some_opcode(void)
{
    static const unsigned first[] = { 0, 5, 6, 8, 20, 21, 22, 23 }, count[] = { 5, 1, 2, 12, 1, 1, 1, 1 };
    unsigned kind = below(8);
    return percent(60) ? first[kind] + below(count[kind]) : below(OPCODES);
}

static void miss_modifiers(Draft *d)
{
    unsigned which = some_opcode(), kind = below(100);
    draft_opcode(d, which);
    unsigned at = 1 + below(d->names);          /* 1 to names: one behind the last too */
    if (kind < 15)
        d->names = 1 + below(d->names);
    else if (kind < 34)
        snprintf(d->name[at < d->names ? at : d->names - 1], TEXT_MOST, "%s", word_of_class());
    else if (kind < 49)
        insert_text(d->name, &d->names, NAMES_MOST, at, word_of_class());
    else if (kind < 60)
        one_too_many(d, which);
    else if (kind < 64 && at + 1 < d->names)
        swap_texts(d->name[at], d->name[at + 1]);
    else
        any_comparison(d);
    if (d->names == 1 && percent(50))
        snprintf(d->name[0], TEXT_MOST, "%s", PICK(scalar_opcodes));
}

/* ---- operands ---- */

/* Each register of the text, with that chance, gets a number that its file has not. */
static void put_over(char *text, unsigned chance)
{
    static const char *const r[] = { "64", "65", "99", "100", "128", "255", "999" };
    static const char *const rd[] = { "32", "33", "63", "64", "100", "999" };       /* and of %rs */
    static const char *const p[] = { "16", "17", "31", "32", "64", "100", "999" };
    char made[2 * TEXT_MOST];
    size_t length = 0;
    for (const char *from = text; *from != '\0' && length < TEXT_MOST - 8;) {
        if (*from != '%' || !percent(chance)) {
            made[length++] = *from++;
            continue;
        }
        int file = from[2] == 'd' || from[2] == 's' ? 3 : 2;
        const char *number = from[1] == 'p' ? PICK(p) : file == 3 ? PICK(rd) : PICK(r);
        length += (size_t)snprintf(made + length, 8, "%.*s%s", file, from, number);
        for (from += file; *from >= '0' && *from <= '9'; from++)
            continue;
    }
    made[length] = '\0';
    memcpy(text, made, length + 1);
}

/* An operand of one kind: negated, a pair, one of each file, with a selector. */
enum { OPERAND_KINDS = 7 };

static void operand_of_kind(char *to, unsigned kind)
{
    unsigned n = below(16), m = (n + 1) % 16;
    static const char *const pairs[] = {
        "%%p%u|%%p%u", "%%r%u|%%r%u", "%%p%u|%%r%u", "%%r%u|%%p%u", "%%p%u|_", "%%rd%u|_", "_|%%p%u", "_|%%rd%u", "_|_",
        "%%rs%u|%%rs%u", "%%p%u|%%rs%u", "%%rs%u|%%p%u", "%%rs%u|_", "_|%%rs%u"
    };
    switch (kind) {
    case 0: snprintf(to, TEXT_MOST, percent(50) ? "!%%p%u" : percent(50) ? "!%%r%u" : percent(50) ? "!%%rs%u" : "!%%rd%u", n); break;
    case 1: {
        const char *pair = PICK(pairs);
        snprintf(to, TEXT_MOST, pair, n, m);
        break;
    }
    case 2: snprintf(to, TEXT_MOST, "%%r%u", n); break;
    case 3: snprintf(to, TEXT_MOST, "%%rs%u", n); break;
    case 4: snprintf(to, TEXT_MOST, "%%rd%u", n); break;
    case 5: snprintf(to, TEXT_MOST, "%%p%u", n); break;
    default: {
        const char *selector = PICK(any_selectors);
        snprintf(to, TEXT_MOST, percent(70) ? "%%r%u.%.20s" : percent(40) ? "%%rs%u.%.20s" : percent(50) ? "%%rd%u.%.20s" : "%%p%u.%.20s", n, selector);
        break;
    }
    }
}

static void wrong_operand(Draft *d)
{
    unsigned at = below(d->operands);
    operand_of_kind(d->operand[at], below(OPERAND_KINDS));
}

static void draft_guard(Draft *d)
{
    const char *sign = some_sign();
    snprintf(d->guard, TEXT_MOST, "@%s%%p%u", sign, below(16));
}

static void miss_operands(Draft *d)
{
    unsigned kind = below(100);
    draft_opcode(d, below(OPCODES));
    if (percent(30))
        draft_guard(d);
    bool setp = strcmp(d->name[0], "setp") == 0;
    if (percent(setp ? 50 : 20)) {              /* numbers and equal pairs that have no say */
        unsigned p = below(16);
        if (setp && percent(60))
            snprintf(d->operand[0], TEXT_MOST, "%%p%u|%%p%u", p, p);
        else
            put_over(d->operand[below(d->operands)], 80);
        if (percent(30))
            put_over(d->guard, 100);
    }
    if (kind < 14) {
        d->operands = 1 + below(d->operands - 1);
    } else if (kind < 26) {
        for (unsigned n = 1 + below(2); n > 0 && d->operands < OPERANDS_MOST; n--)
            operand_of_kind(d->operand[d->operands++], percent(50) ? 2 : below(OPERAND_KINDS));
    } else if (kind < 86) {
        wrong_operand(d);
        if (percent(10))                        /* another behind it, or in front */
            wrong_operand(d);
    } else if (kind < 94) {
        wrong_guard(d, percent(80) ? 32 : 100);
        if (percent(20))
            wrong_operand(d);
    } else {                                    /* a selector on d, or none */
        char *dot = strchr(d->operand[0], '.');
        if (dot != NULL)
            *dot = '\0';
        else
            put_selector(d->operand[0], PICK(parts));
    }
}

static void miss_numbers(Draft *d)
{
    draft_opcode(d, below(OPCODES));
    if (percent(50))
        draft_guard(d);
    unsigned at = below(d->operands + (d->guard[0] != '\0')), chance = percent(45) ? 0 : 75;
    put_over(at == d->operands ? d->guard : d->operand[at], 100);
    for (unsigned i = at + 1; i < d->operands; i++)
        put_over(d->operand[i], chance);
    if (at == d->operands)
        for (unsigned i = 0; i < d->operands; i++)
            put_over(d->operand[i], chance);
    char *bar = strchr(d->operand[0], '|');
    if (bar != NULL && at == 0 && percent(40)) {        /* the second place alone */
        unsigned p = below(16);
        char second[TEXT_MOST];
        snprintf(second, sizeof second, "%s", bar + 1);
        snprintf(d->operand[0], TEXT_MOST, "%%p%u|%.20s", p, second[0] == '_' ? "%p16" : second);
    }
}

static void miss_pair(Draft *d)
{
    unsigned p = below(16);
    memset(d, 0, sizeof *d);
    draft_set(d, true);
    if (percent(50))
        draft_guard(d);
    snprintf(d->operand[0], TEXT_MOST, "%%p%u|%%p%u", p, p);
}

/* These lines have a stream of chance of their own, and nearly all are refused, so the other lines stay as they were. */
static uint64_t place_state;

static void emit_place_line(void)
{
    Draft draft;
    Line line;
    uint64_t kept_state = state;
    unsigned kept_source = last_source, kept_double = last_double;
    state = place_state;
    half_chance = 25;
    unsigned kind = below(100);
    if (kind < 30) {
        broken_shape(&line, below(PIECES));
    } else {
        if (kind < 61)      miss_modifiers(&draft);
        else if (kind < 89) miss_operands(&draft);
        else if (kind < 97) miss_numbers(&draft);
        else                miss_pair(&draft);
        if (draft.guard[0] == '\0' && percent(20))
            draft_guard(&draft);
        if (percent(5))
            render_long(&draft, &line);
        else
            render_some_way(&draft, &line);
    }
    half_chance = 0;
    place_state = state;
    state = kept_state;
    last_source = kept_source;
    last_double = kept_double;
    emit(line.bytes, line.length);
}

/* Whether a line of the stream stands in front of the next other one. */
static bool is_due(uint64_t *stream, unsigned chance)
{
    uint64_t kept_state = state;
    state = *stream;
    bool yes = below(100) < chance;
    *stream = state;
    state = kept_state;
    return yes;
}

/* ---- lines with halves (request T-06) ---- */

/* A type of 16 bits where none may stand, or one that may with what does not go with it. */
static void miss_half_modifiers(Draft *d)
{
    unsigned kind = below(100);
    const char *type = PICK(half_types);
    if (kind < 55) {
        draft_opcode(d, 20 + below(2));
        any_comparison(d);
    } else if (kind < 75) {                     /* in a video head */
        draft_opcode(d, below(20));
        snprintf(d->name[1 + below(d->names - 1)], TEXT_MOST, "%s", type);
    } else {                                    /* set's dtype, c of slct, one too many, or nothing wrong */
        draft_opcode(d, 20 + below(4));
        if (percent(70))
            snprintf(d->name[1 + below(d->names - 1)], TEXT_MOST, "%s", type);
        else
            add_name(d, percent(50) ? type : word_of_class());
    }
}

/* A wrong operand under a type of 16 bits, or a half under another one. */
static void miss_half_operands(Draft *d)
{
    unsigned kind = below(100);
    if (kind < 68) {
        draft_opcode(d, 20 + below(4));
        wrong_operand(d);
    } else if (kind < 80) {
        draft_opcode(d, below(OPCODES));
        wrong_guard(d, percent(80) ? 32 : 100);
    } else {
        half_chance = 0;
        draft_opcode(d, percent(50) ? 20 + below(4) : below(OPCODES));
        half_chance = 100;
        unsigned at = below(d->operands);
        snprintf(d->operand[at], TEXT_MOST, "%%rs%u", below(32));
    }
    if (percent(15))
        put_over(d->operand[below(d->operands)], 80);
    if (percent(8))
        d->operands = 1 + below(d->operands);
}

/* A register of the file up to some piece of it: as guard, behind `!`, as first place, as second place. */
static unsigned piece_of_half(void)
{
    static const unsigned percents[] = { 4, 18, 25, 34 };
    unsigned percent_piece = PICK(percents);
    return percent_piece + 2 + below(SPELLED - 2);
}

/* These lines have a stream of their own as well; but what they write, the other lines read. */
static uint64_t half_state;

static void emit_half_line(bool choice)
{
    Draft draft;
    Line line;
    uint64_t kept_state = state;
    unsigned kept_source = last_source, kept_double = last_double;
    state = half_state;
    half_chance = 100;
    unsigned kind = choice ? 0 : below(100);
    if (kind >= 86) {
        halves_alone = true;
        broken_shape(&line, piece_of_half());
        halves_alone = false;
    } else {
        if (choice)         draft_opcode(&draft, 22 + (percent(85) ? 1 : 0));
        else if (kind < 48) draft_opcode(&draft, 20 + below(4));
        else if (kind < 60) miss_half_modifiers(&draft);
        else if (kind < 80) miss_half_operands(&draft);
        else                miss_numbers(&draft);
        if (draft.guard[0] == '\0' && percent(choice ? 5 : 20))
            draft_guard(&draft);
        render_some_way(&draft, &line);
    }
    half_chance = 0;
    half_state = state;
    state = kept_state;
    last_source = kept_source;
    last_double = kept_double;
    emit(line.bytes, line.length);
}

/* ---- the whole ---- */

static void emit_line(void)
{
    Draft draft;
    Line line;
    draft_good(&draft);
    unsigned kind = below(1046);

    if (kind < 600) {
        render_some_way(&draft, &line);
    } else if (kind < 622) {
        render_long(&draft, &line);
    } else if (kind < 704) {
        render_some_way(&draft, &line);
        spoil_byte(&line);
    } else if (kind < 767) {
        spoil_names(&draft);
        render_some_way(&draft, &line);
    } else if (kind < 856) {
        spoil_operands(&draft);
        render_some_way(&draft, &line);
    } else if (kind < 864) {    /* a pair of one predicate */
        unsigned p = percent(85) ? predicate() : 14 + below(5);
        unsigned q = percent(85) ? p : 14 + below(5);
        memset(&draft, 0, sizeof draft);
        draft_set(&draft, true);
        if (percent(10))
            spoil_operands(&draft);
        else if (percent(8))
            spoil_names(&draft);
        snprintf(draft.operand[0], TEXT_MOST, "%%p%u|%%p%u", p, q);
        if (percent(10))
            render_long(&draft, &line);
        else
            render_some_way(&draft, &line);
    } else if (kind < 908) {
        spoil_number(&draft);
        render_some_way(&draft, &line);
    } else if (kind < 918) {
        spoil_guard(&draft);
        render_some_way(&draft, &line);
    } else if (kind < 934) {
        render_some_way(&draft, &line);
        size_t at = below((unsigned)line.length + 1);
        insert_byte(&line, at, percent(60) ? ' ' : '\t');
    } else if (kind < 962) {
        render_some_way(&draft, &line);
        insert_hostile(&line);
    } else if (kind < 972) {
        line.length = 0;
        if (percent(40))
            put_blanks(&line, below(5));
    } else if (kind < 977) {
        random_bytes(&line);
    } else if (kind < 982) {
        random_tokens(&line);
    } else if (kind < 986) {
        crowded(&line);
    } else if (kind < 1000) {   /* two misses at once: the order of refusals */
        for (int i = 0; i < 2; i++)
            switch (below(4)) {
            case 0: spoil_names(&draft); break;
            case 1: if (draft.operands > 0) spoil_operands(&draft); break;
            case 2: if (draft.operands > 0) spoil_number(&draft); break;
            default: spoil_guard(&draft); break;
            }
        if (percent(30))
            render_long(&draft, &line);
        else
            render_some_way(&draft, &line);
    } else {
        draft_lane_miss(&draft);
        render_some_way(&draft, &line);
    }
    emit(line.bytes, line.length);
}

/* The last bytes of a listing are choices of slct, which so are left to the end, where a wrong one is printed. */
enum { CHOICES = 450 };

static void emit_choice(void)
{
    Draft draft;
    Line line;
    memset(&draft, 0, sizeof draft);
    draft_slct(&draft);
    render_some_way(&draft, &line);
    emit(line.bytes, line.length);
}

int main(int argc, char **argv)
{
    if (argc != 3) {
        fprintf(stderr, "usage: generate SEED BYTES\n");
        return 2;
    }
    state = strtoull(argv[1], NULL, 0) * UINT64_C(0xD1342543DE82EF95) + 1;
    place_state = ~state;
    half_state = state ^ UINT64_C(0x5555555555555555);
    unsigned long long bytes = strtoull(argv[2], NULL, 0);
    limit = bytes < LISTING_MOST ? (size_t)bytes : LISTING_MOST;
    if (limit == 0)
        return 0;

    if (limit >= 4000 ? percent(90) : percent(40)) {
        emit_kit();
        emit_predicates();
    }
    if (limit >= 30000 && percent(4))           /* high line numbers, much output */
        for (unsigned n = 5000 + below(15000); n > 0; n--)
            emit((const Byte *)"", 0);
    while (!full) {
        if (limit >= 4000 && below(250) == 0)
            emit_kit();
        else if (below(40) == 0)
            emit_predicates();
        bool last = limit >= 4000 && limit - used < CHOICES;
        if (limit >= 4000 && !last && is_due(&place_state, 24))
            emit_place_line();
        if (limit >= 4000 && is_due(&half_state, last ? 50 : 17))
            emit_half_line(last);
        if (last)
            emit_choice();
        else
            emit_line();
    }
    return fwrite(listing, 1, used, stdout) == used && fflush(stdout) == 0 ? 0 : 1;
}
