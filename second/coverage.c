/*
 * coverage TALLY LISTING..: adds to the file TALLY how often each kind of line and of operand value stands in the listings.
 * coverage TALLY: prints for each group of kinds how many occurred, and which never did; status 1 if one never did.
 * --target NAME in front of either: the kinds that matter at this target (request T-07), with the listings worked at it.
 * --strict in front of that, --target NAME too: the kinds that matter in strict reading there (request T-09), with the listings read so.
 *
 * Kinds are counted by the reader and the registers of alone.c, which is taken in as it stands: where it
 * misreads a line the comparison of answers differs, so the count needs no reader of its own.
 */
#define main alone_main
#include "alone.c"
#undef main

#include <stdarg.h>

/* ---- kinds: `group: item`, each declared before it is counted ---- */

enum { KINDS_MOST = 32768, NAME_MOST = 96 };

typedef struct {
    char name[NAME_MOST];
    unsigned long count;
} Kind;

static Kind kinds[KINDS_MOST];
static unsigned slots[2 * KINDS_MOST];      /* number of a kind and 1, 0 if free */
static unsigned kind_count;

static void stop(const char *why, const char *what)
{
    fprintf(stderr, "coverage: %s: %s\n", why, what);
    exit(2);
}

static unsigned *slot_of(const char *name)
{
    uint32_t hash = 2166136261u;
    for (const char *p = name; *p != '\0'; p++)
        hash = (hash ^ (Byte)*p) * 16777619u;
    unsigned at = hash % (2 * KINDS_MOST);
    while (slots[at] != 0 && strcmp(kinds[slots[at] - 1].name, name) != 0)
        at = (at + 1) % (2 * KINDS_MOST);
    return &slots[at];
}

static void kind(const char *format, ...)
{
    if (kind_count == KINDS_MOST)
        stop("too many kinds", format);
    va_list list;
    va_start(list, format);
    vsnprintf(kinds[kind_count].name, NAME_MOST, format, list);
    va_end(list);
    unsigned *slot = slot_of(kinds[kind_count].name);
    if (*slot != 0)
        stop("declared twice", kinds[kind_count].name);
    *slot = ++kind_count;
}

static void hit(const char *format, ...)
{
    char name[NAME_MOST];
    va_list list;
    va_start(list, format);
    vsnprintf(name, sizeof name, format, list);
    va_end(list);
    unsigned *slot = slot_of(name);
    if (*slot == 0)
        stop("not declared", name);
    kinds[*slot - 1].count++;
}

/* ---- classes of values ---- */

static const char *const single_classes[] = {
    "-qnan", "-snan", "-inf", "-normal", "-subnormal", "-0", "+0", "+subnormal", "+normal", "+inf", "+snan", "+qnan"
};

static const char *single_class(uint32_t x)
{
    uint32_t size = x & 0x7FFFFFFF;
    unsigned n = size == 0 ? 0 : size < 0x800000 ? 1 : size < 0x7F800000 ? 2 : size == 0x7F800000 ? 3 : size < 0x7FC00000 ? 4 : 5;
    return single_classes[x >> 31 ? 5 - n : 6 + n];
}

static const char *const edges[] = { "0", "1", "greatest", "least", "ones", "other" };

/* Of the low `width` bits: 0, 1, 7F.., 80.., FF.. */
static const char *edge(uint32_t x, unsigned width)
{
    uint32_t ones = low_bits(width);
    return x == 0 ? edges[0] : x == 1 ? edges[1] : x == ones >> 1 ? edges[2] : x == (ones >> 1) + 1 ? edges[3] : x == ones ? edges[4] : edges[5];
}

/* Of a half in a listing. */
static const char *const small_halves[] = { "0", "1", "2 to 31" };

static const char *small_half(unsigned x) { return small_halves[x < 2 ? x : 2]; }

static const char *order_name(unsigned order)
{
    return order == LESS ? "<" : order == EQUAL ? "=" : order == GREATER ? ">" : "?";
}

static const char *const part_names[] = { "b0", "b1", "b2", "b3", "h0", "h1", "none" };

static const char *part_name(Part part)
{
    return part_names[part.width == 32 ? 6 : part.width == 16 ? 4 + part.shift / 16 : part.shift / 8];
}

static const char *const place_kinds[] = { "p", "p|q", "p|_", "_|q" };
static const char *const faults[] = { "negated", "pair", "%r", "%rs", "%rd", "%p", "selector" };
enum { FILE_FAULT = 2, R_FAULT = FILE_FAULT + FILE_R, P_FAULT = FILE_FAULT + FILE_P, SELECTOR_FAULT = FILE_FAULT + FILES };
static const char *const roles[] = { "d", "a", "b", "c", "guard", "second" };

static bool is_scalar(Word op) { return op >= W_VADD && op <= W_VSET; }
static bool is_lane_arithmetic(int op) { return is_simd((Word)op) && !is_vset((Word)op); }

/* What an operand that is wrong somewhere has in it. */
static unsigned fault_of(const Operand *o)
{
    return o->form == NEGATED ? 0 : o->form == PAIR ? 1 : o->selector != 0 ? SELECTOR_FAULT : FILE_FAULT + (unsigned)o->first.file;
}

/* The operation of a form with 4 is that of the form with 2. */
static Word with_2(Word op) { return lanes_of(op) == 4 ? (Word)(op - W_VSET4 + W_VSET2) : op; }

/* ---- what can occur, from document 01 ---- */

static void declare_heads(void)
{
    static const Word set_types[] = { W_U32, W_S32, W_F32 };
    char bool_ops[4][8] = { "", ".and", ".or", ".xor" }, op2s[4][8] = { "", ".add", ".min", ".max" };
    for (int d = W_U32; d <= W_S32; d++)
        for (int a = W_U32; a <= W_S32; a++)
            for (int o = 0; o < 4; o++) {
                for (int op = W_VADD; op <= W_VMAX; op++)
                    for (int b = W_U32; b <= W_S32; b++)
                        for (int sat = 0; sat < 2; sat++)
                            kind("head: %s.%s.%s.%s%s%s", spelling[op], spelling[d], spelling[a], spelling[b], sat ? ".sat" : "", op2s[o]);
                for (int op = W_VSET; op <= W_VSET4; op++)
                    for (int cmp = W_EQ; cmp <= W_GE; cmp++)
                        if (is_vset((Word)op) && (op == W_VSET || o < 2))
                            kind("head: %s.%s.%s.%s%s", spelling[op], spelling[d], spelling[a], spelling[cmp], op2s[o]);
            }
    for (int s = W_U32; s <= W_S16; s++) {
        kind("head: selp.%s", spelling[s]);
        kind("head: slct.%s.s32", spelling[s]);
        kind("head: slct.%s.f32", spelling[s]);
        kind("head: slct.ftz.%s.f32", spelling[s]);
        for (int cmp = W_EQ; cmp <= W_NAN; cmp++)
            for (int o = 0; o < 4; o++)
                for (int ftz = 0; ftz < (s == W_F32 ? 2 : 1); ftz++) {
                    if (!compares((Word)cmp, (Word)s))
                        continue;
                    kind("head: setp.%s%s%s.%s", spelling[cmp], bool_ops[o], ftz ? ".ftz" : "", spelling[s]);
                    for (unsigned d = 0; d < 3; d++)
                        kind("head: set.%s%s%s.%s.%s", spelling[cmp], bool_ops[o], ftz ? ".ftz" : "", spelling[set_types[d]], spelling[s]);
                }
    }
}

static void declare_values(void)
{
    static const unsigned widths[] = { 8, 16, 32 };
    for (int op = W_VADD; op <= W_VSET; op++) {
        for (int x = 0; x < 6; x++)
            for (int y = 0; y < 6; y++)
                kind("words: %s %s %s", spelling[op], edges[x], edges[y]);
        for (int t = W_U32; t <= W_S32; t++) {
            for (int w = 0; w < 3; w++) {
                for (int x = 0; x < 6; x++)
                    for (int ab = 1; ab < 3; ab++)
                        kind("part value: %s %s %s %u bits %s", spelling[op], roles[ab], spelling[t], widths[w], edges[x]);
                if (op == W_VSET)
                    continue;
                kind("sat: %s.%s %u bits within", spelling[op], spelling[t], widths[w]);
                if (op != W_VABSDIFF && !(widths[w] == 32 && t == W_S32 && (op == W_VMIN || op == W_VMAX)))
                    kind("sat: %s.%s %u bits below", spelling[op], spelling[t], widths[w]);
                if (!(widths[w] == 32 && t == W_U32 && (op == W_VMIN || op == W_VMAX)))
                    kind("sat: %s.%s %u bits above", spelling[op], spelling[t], widths[w]);
            }
            if (op == W_VSET && t == W_S32)
                continue;       /* vset reads c as u32 alone */
            for (int o = W_MIN; o <= W_MAX; o++) {
                kind("OP2: %s.%s %s keeps c", spelling[op], spelling[t], spelling[o]);
                kind("OP2: %s.%s %s keeps the result", spelling[op], spelling[t], spelling[o]);
            }
            kind("OP2: %s.%s add within 32 bits", spelling[op], spelling[t]);
            kind("OP2: %s.%s add beyond 32 bits", spelling[op], spelling[t]);
        }
    }
    for (int op = W_VSET; op <= W_VSET4; op++)
        for (int a = W_U32; a <= W_S32 && is_vset((Word)op); a++)
            for (int b = W_U32; b <= W_S32; b++)
                for (int cmp = W_EQ; cmp <= W_GE; cmp++)
                    for (unsigned o = LESS; o <= GREATER; o *= 2)
                        kind("video order: %s.%s.%s.%s %s", spelling[op], spelling[a], spelling[b], spelling[cmp], order_name(o));
    for (int x = 0; x < 12; x++)
        for (int y = 0; y < 12; y++)
            for (int ftz = 0; ftz < 2; ftz++)
                kind("singles: %s%s %s", ftz ? "ftz " : "", single_classes[x], single_classes[y]);
    for (int s = W_U32; s <= W_B32; s++)
        for (int x = 0; x < 6 && s != W_F32; x++)
            for (int y = 0; y < 6; y++)
                kind("compared words: %s %s %s", spelling[s], edges[x], edges[y]);
    /* a listing can but copy %rd and %rs, so its doubles and halves are 0 to 31 as bits: never NaN, infinite, normal or negative */
    for (int op = W_SET; op <= W_SETP; op++)
        for (int s = W_U32; s <= W_S16; s++)
            for (int cmp = W_EQ; cmp <= W_NAN; cmp++)
                for (unsigned o = LESS; o <= (s == W_F32 ? UNORDERED : GREATER); o *= 2)
                    if (compares((Word)cmp, (Word)s))
                        kind("order: %s.%s.%s %s", spelling[op], spelling[cmp], spelling[s], order_name(o));
    for (int s = W_B16; s <= W_S16; s++)
        for (unsigned pair = 0; pair < 9; pair++)
            kind("compared halves: %s %s %s", spelling[s], small_halves[pair / 3], small_halves[pair % 3]);
    for (int d = W_U32; d <= W_S16; d++) {
        kind("slct: %s.s32 below zero", spelling[d]);
        kind("slct: %s.s32 zero", spelling[d]);
        kind("slct: %s.s32 above zero", spelling[d]);
        for (int x = 0; x < 12; x++)
            for (int ftz = 0; ftz < 2; ftz++)
                kind("slct: %s%s.f32 %s", ftz ? "ftz." : "", spelling[d], single_classes[x]);
        kind("selp: %s 0", spelling[d]);
        kind("selp: %s 1", spelling[d]);
    }
}

static void declare_operands(void)
{
    for (int op = W_VADD; op <= W_SLCT; op++) {
        kind("guard: %s none", spelling[op]);
        for (int taken = 0; taken < 2; taken++) {
            kind("guard: %s @ %s", spelling[op], taken ? "done" : "skipped");
            kind("guard: %s @! %s", spelling[op], taken ? "done" : "skipped");
        }
    }
    for (int op = W_VADD; op <= W_VSET; op++) {
        kind("form: %s plain", spelling[op]);
        kind("form: %s merge", spelling[op]);
        kind("form: %s OP2", spelling[op]);
        for (int p = 0; p < 7; p++)
            for (int role = 0; role < 3; role++)
                kind("selector: %s %s %s", spelling[op], roles[role], part_names[p]);
    }
    for (int op = W_VSET2; op <= W_VMAX4; op++) {
        int lanes = (int)lanes_of((Word)op);
        for (int add = 0; add < 2; add++)
            for (int mask = 1; mask < 1 << lanes; mask++) {
                kind("mask: %s%s %X", spelling[op], add ? " add" : "", mask);
                if (mask == (1 << lanes) - 1)
                    kind("mask: %s%s full, written", spelling[op], add ? " add" : "");
            }
        for (int role = 1; role < 3; role++) {
            kind("lane selector: %s %s bare", spelling[op], roles[role]);
            kind("lane selector: %s %s default, written", spelling[op], roles[role]);
            for (int lane = 0; lane < lanes; lane++)
                for (int part = 0; part < 2 * lanes; part++)
                    kind("lane selector: %s %s lane %d part %d", spelling[op], roles[role], lane, part);
        }
        if (!is_vset((Word)op))
            continue;
        for (int named = 1; named <= lanes; named++)
            for (int hold = 0; hold <= named; hold++)
                kind("lanes: %s add, %d of %d hold", spelling[op], hold, named);
        kind("lanes: %s add past 2^32", spelling[op]);
    }
    for (int kinds_of = 0; kinds_of < 4; kinds_of++) {
        kind("setp places: %s", place_kinds[kinds_of]);
        for (int o = W_AND; o <= W_XOR; o++)
            for (int i = 0; i < 8; i++)
                kind("setp places: %s %s t=%d c=%d%s", place_kinds[kinds_of], spelling[o], i & 1, i >> 1 & 1, i >> 2 ? " !" : "");
    }
    for (int o = W_AND; o <= W_XOR; o++)
        for (int i = 0; i < 8; i++)
            kind("set: %s t=%d c=%d%s", spelling[o], i & 1, i >> 1 & 1, i >> 2 ? " !" : "");
    kind("same register: setp first and c");
    kind("same register: setp second and c");
    kind("same register: setp first and guard");
    kind("same register: setp second and guard");
    for (int op = W_VADD; op <= W_SLCT; op++) {
        kind("same register: %s a and b", spelling[op]);
        if (op != W_SETP) {
            kind("same register: %s d and a", spelling[op]);
            kind("same register: %s d and b", spelling[op]);
        }
        if (op <= W_VMAX4 || op == W_SLCT)
            kind("same register: %s d and c", spelling[op]);
    }
    for (int role = 0; role < 6; role++) {
        for (int n = 0; n < R_COUNT && role < 4; n++)
            kind("number: %%r%d as %s", n, roles[role]);
        for (int n = 0; n < RS_COUNT && role < 3; n++)
            kind("number: %%rs%d as %s", n, roles[role]);
        for (int n = 0; n < RD_COUNT && role < 3; n++)
            kind("number: %%rd%d as %s", n, roles[role]);
        for (int n = 0; n < P_COUNT; n++)
            if (role != 1 && role != 2)
                kind("number: %%p%d as %s", n, roles[role]);
    }
}

/* Whether an operand of that file, bare, is never at fault there. */
static bool is_right(int op, int role, int fault)
{
    bool video = op <= W_VMAX4;
    return (fault == R_FAULT && ((video && (role > 0 || op >= W_VSET2)) || (op == W_SET && role == 0) || (op == W_SLCT && role == 3))) ||
           (fault == P_FAULT && ((op == W_SETP && role == 0) || (op >= W_SET && op <= W_SELP && role == 3)));
}

/* ---- what can occur, from request T-01 ---- */

static const char *const result_kinds[] = { "under the lane", "negative", "of either sign", "unsigned alone", "over the lane" };

/* Where an exact result stands to the numbers of a lane. */
static unsigned result_kind(int64_t n, unsigned width)
{
    int64_t half = INT64_C(1) << (width - 1);
    return n < -half ? 0 : n < 0 ? 1 : n < half ? 2 : n < 2 * half ? 3 : 4;
}

/* Whether some two parts give the operation such a result. */
static bool can_result(Word op, unsigned result)
{
    switch (with_2(op)) {
    case W_VADD2: case W_VSUB2: return true;
    case W_VABSDIFF2:           return result > 1;
    default:                    return result > 0 && result < 4;
    }
}

static bool can_clamp(Word op, Word dtype, bool above)
{
    if (above)
        return can_result(op, dtype == W_S32 ? 3 : 4);
    return can_result(op, dtype == W_S32 ? 0 : 1);
}

static const char *const sums[] = { "negative odd", "negative even", "zero", "positive odd", "positive even" };

static unsigned sum_kind(int64_t n) { return n == 0 ? 2 : (n < 0 ? 0 : 3) + (n % 2 == 0); }

static const char *const wrong_lists[] = {
    "two types", "two types and more", "add before sat", "min", "max", "a comparison for a type", "a comparison behind the types",
    "sat twice", "add twice", "four types", "sat among the types", "another type"
};
static const char *const wrong_masks[] = { "a digit twice", "digits rising", "a digit too high", "no digit", "another letter", "too long" };
static const char *const wrong_selectors[] = { "too short", "too long", "a digit too high", "another letter" };
static const char *const near_opcodes[] = {
    "vavrg", "vadd3", "vsub1", "vavrg3", "vabsdiff3", "vabsdiff22", "vmin8", "vmax44", "varvg2", "varvg4"
};

#define EACH(i, list) (unsigned i = 0; i < sizeof (list) / sizeof (list)[0]; i++)

static void declare_lane_heads(Word op)
{
    for (int types = 0; types < 8; types++)
        for (int sat = 0; sat < 2; sat++)
            for (int add = 0; add < 2; add++)
                kind("head: %s.%s.%s.%s%s%s", spelling[op], spelling[W_U32 + (types & 1)], spelling[W_U32 + (types >> 1 & 1)],
                     spelling[W_U32 + (types >> 2)], sat ? ".sat" : "", add ? ".add" : "");
}

static void declare_lane_values(Word op)
{
    const char *name = spelling[op];
    for EACH(x, edges) {
        for EACH(y, edges)
            kind("lane pair: %s %s %s", name, edges[x], edges[y]);
        for (int t = W_U32; t <= W_S32; t++) {
            kind("lane value: %s a %s %s", name, spelling[t], edges[x]);
            kind("lane value: %s b %s %s", name, spelling[t], edges[x]);
        }
    }
    for (int add = 0; add < 2; add++) {
        const char *with = add ? " add" : "";
        for EACH(i, result_kinds)
            if (can_result(op, i))
                kind("lane result: %s%s %s", name, with, result_kinds[i]);
        for (int t = W_U32; t <= W_S32; t++) {
            kind("lane sat: %s.%s%s within", name, spelling[t], with);
            if (can_clamp(op, (Word)t, false))
                kind("lane sat: %s.%s%s below", name, spelling[t], with);
            if (can_clamp(op, (Word)t, true))
                kind("lane sat: %s.%s%s above", name, spelling[t], with);
        }
        for EACH(i, sums)
            if (with_2(op) == W_VAVRG2)
                kind("average: %s%s %s", name, with, sums[i]);
        for (unsigned lane = 0; lane < lanes_of(op); lane++)
            kind("unmasked: %s%s lane %u", name, with, lane);
    }
    kind("lane sum: %s past 2^32", name);
    kind("lane sum: %s within", name);
    if (can_result(op, 1))
        kind("lane sum: %s below 0", name);
    for (int t = W_U32; t <= W_S32; t++) {
        kind("part of the other register: %s a %s", name, spelling[t]);
        kind("part of the other register: %s b %s", name, spelling[t]);
    }
}

static void declare_lane_refusals(Word op)
{
    const char *name = spelling[op];
    for EACH(i, wrong_lists)
        kind("wrong list: %s %s", name, wrong_lists[i]);
    for EACH(i, wrong_masks)
        kind("wrong mask: %s %s", name, wrong_masks[i]);
    for EACH(i, wrong_selectors) {
        kind("wrong selector: %s a %s", name, wrong_selectors[i]);
        kind("wrong selector: %s b %s", name, wrong_selectors[i]);
    }
    for (unsigned role = 0; role < 4; role++)
        kind("lane refused 6: %s %%r64 as %s", name, roles[role]);
    kind("lane refused 6: %s %%p16 as guard", name);
}

static void declare_lane_arithmetic(void)
{
    for (int op = W_VSET2; op <= W_VMAX4; op++) {
        if (!is_lane_arithmetic(op))
            continue;
        declare_lane_heads((Word)op);
        declare_lane_values((Word)op);
        declare_lane_refusals((Word)op);
    }
    for (unsigned lanes = 2; lanes <= 4; lanes += 2) {
        for (unsigned role = 0; role < 4; role++)
            for (unsigned n = 0; n < R_COUNT; n++)
                kind("lane number: with %u %%r%u as %s", lanes, n, roles[role]);
        for (unsigned n = 0; n < P_COUNT; n++)
            kind("lane number: with %u %%p%u as guard", lanes, n);
    }
    for EACH(i, near_opcodes)
        kind("refused 3: %s", near_opcodes[i]);
}

/* ---- what can occur, from request T-02 ---- */

static const char *const tiny_sizes[] = { "zero", "least subnormal", "other subnormal", "greatest subnormal", "least normal" };

/* The size of a single near zero, whatever its sign; 5 if it is none of these. */
static unsigned tiny_size(uint32_t x)
{
    uint32_t size = x & 0x7FFFFFFF;
    return size == 0 ? 0 : size == 1 ? 1 : size < 0x7FFFFF ? 2 : size == 0x7FFFFF ? 3 : size == 0x800000 ? 4 : 5;
}

static bool is_subnormal(uint32_t x) { return tiny_size(x) >= 1 && tiny_size(x) <= 3; }

/* A head of slct, in which a width may stand for the data types. */
static const char *slct_head(bool ftz, const char *data, Word c_type)
{
    static char head[32];
    snprintf(head, sizeof head, "%s%s.%s", ftz ? "ftz." : "", data, spelling[c_type]);
    return head;
}

static const char *const file_bits[] = { [FILE_R] = "32 bits", [FILE_RS] = "16 bits", [FILE_RD] = "64 bits" };

static void declare_tiny(bool ftz, Word c_type, char sign)
{
    for EACH(i, tiny_sizes) {
        for (int d = W_U32; d <= W_S16; d++)
            kind("tiny c: %s %c%s", slct_head(ftz, spelling[d], c_type), sign, tiny_sizes[i]);
        for EACH(file, file_bits)
            kind("tiny c to the end: %s %c%s", slct_head(ftz, file_bits[file], c_type), sign, tiny_sizes[i]);
    }
    for (int d = W_U32; d <= W_F64; d++) {
        const char *head = slct_head(ftz, spelling[d], c_type);
        if (!is_wide((Word)d) || sign == '+')       /* %rd is 0 to 31 in a listing */
            kind("subnormal copied: %s %c", head, sign);
        if (!is_wide((Word)d) && ftz)
            kind("subnormal copied: %s %c, a is c", head, sign);
    }
}

/* ---- what can occur, from request T-06, beside more of the kinds above ---- */

static void declare_halves(void)
{
    for (int type = W_B16; type <= W_S16; type++)
        for (int op = W_SELP; op <= W_SLCT; op++) {
            kind("half to the end: %s.%s a", spelling[op], spelling[type]);
            kind("half to the end: %s.%s b", spelling[op], spelling[type]);
        }
    for (int op = W_SET; op <= W_SLCT; op++) {
        kind("same half: %s a and b", spelling[op]);
        if (op == W_SET || op == W_SLCT)
            kind("same half: %s word and half of one number", spelling[op]);
        if (op >= W_SELP) {
            kind("same half: %s d and a", spelling[op]);
            kind("same half: %s d and b", spelling[op]);
        }
    }
}

static void declare_tiny_choices(void)
{
    for (int sign = 0; sign < 2; sign++) {
        declare_tiny(false, W_S32, "+-"[sign]);
        declare_tiny(false, W_F32, "+-"[sign]);
        declare_tiny(true, W_F32, "+-"[sign]);
    }
}

/* ---- what can occur, from request T-05: places ---- */

/* The pieces of the shape, by the least line that ends in each. */
static const char *const pieces[] = {
    "", " ", "@", "@!", "@%", "@%r", "@%p", "@%p0", "@%p1", "@%p12", "@%p123", "@%p1 ", "x", "x.", "x ", "x %r1,", "x %r1, ",
    "x !", "x !%", "x !%r", "x !%p", "x !%p0", "x !%p1", "x !%p12", "x !%p123",
    "x %", "x %r", "x %p", "x %p0", "x %p1", "x %p12", "x %p123",
    "x _", "x _|", "x _|%", "x _|%r", "x _|%p", "x _|%p0", "x _|%p1", "x _|%p12", "x _|%p123", "x _|_",
    "x %r1.", "x %r1.b", "x %r1 ", "x %r1;", "x %r1; "
};
enum { GUARD_PIECE = 4, HEAD_PIECE = 12, COMMA_PIECE = 15, NEGATED_PIECE = 17, FIRST_PIECE = 25, SECOND_PIECE = 34, END_PIECE = 44 };

static const char *const byte_classes[] = {
    "a space", "a tab", "a digit", "r", "s", "d", "p", "another letter", "a capital", "a dot", "a comma", "a semicolon", "a bar",
    "_", "!", "@", "%", "another mark", "a control byte", "a byte over 127"
};
static const Byte class_example[] = { ' ', '\t', '5', 'r', 's', 'd', 'p', 'x', 'X', '.', ',', ';', '|', '_', '!', '@', '%', '#', 1, 0x80 };

static unsigned byte_class(Byte b)
{
    const Byte *same = memchr(class_example, b, sizeof class_example);
    return same != NULL ? (unsigned)(same - class_example) : b >= 0x80 ? 19 : b < ' ' || b == 0x7F ? 18 : is_digit(b) ? 2
         : is_name_byte(b) ? 7 : b >= 'A' && b <= 'Z' ? 8 : 17;
}

/* What the first `place` bytes of the line end in. */
static unsigned piece_at(const Byte *p, size_t place)
{
    Beginning b = { BEFORE_HEAD, PERCENT };
    bool negated = false;
    for (size_t i = 0; i < place; i++) {
        if (b.spot != LAST_REGISTER)
            negated = b.spot == OPERAND_NOT;
        follow(&b, p[i]);
    }
    size_t text = place;
    while (text > 0 && is_blank(p[text - 1]))
        text--;
    bool blanks = text < place;
    switch (b.spot) {
    case BEFORE_HEAD:    return blanks;
    case GUARD_SIGN:     return 2;
    case GUARD_NOT:      return 3;
    case GUARD_REGISTER: return GUARD_PIECE + b.spelled;
    case BEHIND_GUARD:   return HEAD_PIECE - 1;
    case HEAD_NAME:      return HEAD_PIECE;
    case HEAD_DOT:       return HEAD_PIECE + 1;
    case BEFORE_OPERAND: return !blanks ? COMMA_PIECE : p[text - 1] == ',' ? COMMA_PIECE + 1 : COMMA_PIECE - 1;
    case OPERAND_NOT:    return NEGATED_PIECE;
    case FIRST_REGISTER: return FIRST_PIECE + b.spelled;
    case FIRST_SINK:     return SECOND_PIECE - 2;
    case BAR:            return SECOND_PIECE - 1;
    case LAST_REGISTER:  return (negated ? NEGATED_PIECE + 1 : SECOND_PIECE) + b.spelled;
    case SELECTOR_DOT:   return END_PIECE - 2;
    case SELECTOR_NAME:  return END_PIECE - 1;
    case BEHIND_OPERAND: return blanks ? END_PIECE : END_PIECE - 3;
    default:             return blanks ? END_PIECE + 2 : END_PIECE + 1;
    }
}

/* Whether that piece is a register of which a file and perhaps digits are there. */
static bool names_file(unsigned piece)
{
    static const unsigned percents[] = { GUARD_PIECE, NEGATED_PIECE + 1, FIRST_PIECE, SECOND_PIECE };
    for EACH(i, percents)
        if (piece >= percents[i] + FILE_NAMED && piece <= percents[i] + THREE_DIGITS)
            return true;
    return false;
}

/* Whether the first `place` bytes of the line, which end in such a piece, end in a half. */
static bool ends_in_half(const Byte *p, size_t place)
{
    while (place > 0 && is_digit(p[place - 1]))
        place--;
    return place >= 3 && memcmp(p + place - 3, "%rs", 3) == 0;
}

static void declare_shape_places(void)
{
    for EACH(i, pieces) {
        const Byte *text = (const Byte *)pieces[i];
        size_t length = strlen(pieces[i]);
        if (piece_at(text, length) != i)
            stop("a piece that is not found", pieces[i]);
        if (i <= END_PIECE)
            kind("place 2: unfinished behind `%s`", pieces[i]);
        if (names_file(i))
            kind("place 2 in a half: unfinished behind `%s`", pieces[i]);
        for EACH(c, byte_classes) {
            Beginning b = { BEFORE_HEAD, PERCENT };
            for (size_t k = 0; k < length; k++)
                follow(&b, text[k]);
            if (follow(&b, class_example[c]))
                continue;
            kind("place 2: behind `%s` %s", pieces[i], byte_classes[c]);
            if (names_file(i))
                kind("place 2 in a half: behind `%s` %s", pieces[i], byte_classes[c]);
        }
    }
    kind("place 2: at 159, a wrong byte");
    kind("place 2: at 159, unfinished");
    kind("place 2: at 160, unfinished");
    for (unsigned i = 0; i < 5; i++)
        kind("place 2: behind %u commas", i);
}

/* Opcodes of one kind have the same lists. */
static const char *const families[] = { "scalar", "vset", "vset by lanes", "lanes", "set", "setp", "selp", "slct" };

static unsigned family(Word op)
{
    return op <= W_VMAX ? 0 : op == W_VSET ? 1 : op == W_SET ? 4 : op == W_SETP ? 5 : op == W_SELP ? 6 : op == W_SLCT ? 7 : is_vset(op) ? 2 : 3;
}

static const char *const word_classes[] = { "u32 or s32", "another type", "a type of 16 bits", "CMP6", "another CmpOp", "OP2", "BoolOp", "sat", "ftz", "an opcode", "no word" };

static unsigned word_class(Word w)
{
    return is_video_type(w) ? 0 : is_half(w) ? 2 : is_type(w) ? 1 : is_cmp6(w) ? 3 : is_cmp_op(w) ? 4 : is_op2(w) ? 5 : is_bool_op(w) ? 6
         : w == W_SAT ? 7 : w == W_FTZ ? 8 : is_opcode(w) ? 9 : 10;
}

/* The beginnings of legal lists: what stands there and which words may follow. */
typedef struct {
    Word op;
    unsigned length;
    Word word[MODIFIERS_MOST];
    uint64_t next;              /* by word */
} ListStart;

enum { STARTS_MOST = 4096 };

static ListStart starts[STARTS_MOST];

static ListStart *start_of(Word op, const Word *word, unsigned length)
{
    uint32_t hash = op;
    for (unsigned i = 0; i < length; i++)
        hash = (hash * 61 + word[i]) * 16777619u;
    unsigned at = hash % STARTS_MOST;
    while (starts[at].op != W_NONE && (starts[at].op != op || starts[at].length != length ||
                                       memcmp(starts[at].word, word, length * sizeof(Word)) != 0))
        at = (at + 1) % STARTS_MOST;
    starts[at].op = op;
    starts[at].length = length;
    memcpy(starts[at].word, word, length * sizeof(Word));
    return &starts[at];
}

/* alone's legal lists are the heads declared above, each once; then the beginnings of those of one opcode of a kind. */
static void check_lists(void)
{
    unsigned heads = 0, declared = 0;
    make_all_lists();
    for (unsigned i = 0; i < kind_count; i++)
        declared += strncmp(kinds[i].name, "head: ", 6) == 0;
    for (unsigned i = 0; i < legal_lists; i++) {
        const ModifierList *list = &legal_list[i];
        for (unsigned n = 0; n <= list->length; n++)
            start_of(list->first, list->word, n)->next |= n < list->length ? UINT64_C(1) << list->word[n] : 0;
        for (int op = (int)list->first; op <= (int)list->last; op++) {
            char name[NAME_MOST];
            int length = snprintf(name, sizeof name, "head: %s", spelling[op]);
            for (unsigned n = 0; n < list->length; n++)
                length += snprintf(name + length, sizeof name - (size_t)length, ".%s", spelling[list->word[n]]);
            if (*slot_of(name) == 0)
                stop("not a head", name);
            heads++;
        }
        for (unsigned j = 0; j < i; j++)
            if (legal_list[j].first == list->first && legal_list[j].length == list->length &&
                memcmp(legal_list[j].word, list->word, list->length * sizeof(Word)) == 0)
                stop("a list twice", spelling[list->first]);
    }
    if (heads != declared)
        stop("some head is missing", "legal_list");
}

static void declare_modifier_places(void)
{
    static bool longer[64][MODIFIERS_MOST + 2], classes[8][MODIFIERS_MOST + 2][11], is_whole[64][MODIFIERS_MOST + 2];
    for EACH(i, starts) {
        const ListStart *s = &starts[i];
        if (s->op == W_NONE)
            continue;
        for (int w = W_OTHER; w < WORD_COUNT; w++)
            if ((s->next >> w & 1) == 0)
                classes[family(s->op)][s->length + 1][word_class((Word)w)] = true;
    }
    for (unsigned i = 0; i < legal_lists; i++) {
        const ModifierList *list = &legal_list[i];
        for (int op = (int)list->first; op <= (int)list->last; op++)
            for (unsigned n = 0; n <= list->length; n++)
                (n < list->length ? longer : is_whole)[op][n] = true;
    }
    for (int op = W_VADD; op <= W_SLCT; op++)
        for (unsigned n = 0; n <= MODIFIERS_MOST; n++) {
            if (longer[op][n] || is_whole[op][n])
                kind("place 4: %s modifier %u", spelling[op], n + 1);
            if (longer[op][n] && (!is_whole[op][n] || op == W_SET || op == W_SETP || op == W_SLCT))
                kind("place 4: %s end behind %u", spelling[op], n);
        }
    for EACH(f, families)
        for (unsigned n = 1; n <= MODIFIERS_MOST + 1; n++)
            for EACH(c, word_classes)
                if (classes[f][n][c])
                    kind("place 4: %s modifier %u is %s", families[f], n, word_classes[c]);
    for (int op = W_SET; op <= W_SETP; op++)
        for (int cmp = W_EQ; cmp <= W_NAN; cmp++) {
            for (int stype = W_U32; stype <= W_S16; stype++) {
                if (!compares((Word)cmp, (Word)stype))
                    kind("place 4: %s %s and %s", spelling[op], spelling[cmp], spelling[stype]);
                if (compares((Word)cmp, W_F32) && stype != W_F32)
                    kind("place 4: %s %s, ftz and %s", spelling[op], spelling[cmp], spelling[stype]);
            }
            if (!compares((Word)cmp, W_F32))
                kind("place 4: %s %s and ftz", spelling[op], spelling[cmp]);
        }
    kind("place 4: end, one blank behind it");
    kind("place 4: end, more blanks behind it");
}

static bool has_forms(Word op) { return is_scalar(op) || op == W_SET || op == W_SETP; }

/* An opcode with or without OP2 or BoolOp. */
static const char *form_name(Word op, bool second)
{
    static char name[32];
    snprintf(name, sizeof name, "%s%s", spelling[op], !has_forms(op) ? "" : second ? " with" : " without");
    return name;
}

/* Whether an operand of that fault can be wrong there: bare ones of the file that every list has are not. */
static bool can_be_wrong(Word op, unsigned at, unsigned fault)
{
    bool by_width = at < 3 && ((op >= W_SET && op <= W_SETP && at > 0) || op == W_SELP || op == W_SLCT);
    bool predicate = (op == W_SETP && at == 0) || (at == 3 && op >= W_SET && op <= W_SELP);
    return fault == R_FAULT ? by_width || predicate : fault == P_FAULT ? !predicate : true;
}

/* Whether an operand of that fault is wrong there under a type of 16 bits. */
static bool is_wrong_with_halves(Word op, unsigned at, unsigned fault)
{
    bool half = at > 0 ? at < 3 : op == W_SELP || op == W_SLCT;
    bool word = (op == W_SET && at == 0) || (op == W_SLCT && at == 3);
    return fault == FILE_FAULT + FILE_RS ? !half : fault == R_FAULT ? !word : fault == P_FAULT ? half || word : true;
}

static void declare_operand_places(Word op, bool second)
{
    unsigned length = has_forms(op) && !second ? 3 : 4;
    const char *name = form_name(op, second);
    kind("place 5: %s guard", name);
    for (unsigned at = 0; at < 4; at++) {
        if (at > 0 && (at < length || is_scalar(op)))
            kind("place 5: %s end behind %u", name, at);
        if (at < length || is_scalar(op))
            for EACH(f, faults)
                if (can_be_wrong(op, at, f))
                    kind("place 5: %s operand %u is %s", name, at, faults[f]);
    }
    kind("place 5: %s guard a half", name);
    kind("place 5: %s operand %u too many", name, length);
    if (is_scalar(op) && !second)
        kind("place 5: %s operand 4 too many", name);
}

static void declare_places(void)
{
    check_lists();
    declare_shape_places();
    declare_modifier_places();
    for (int op = W_VADD; op <= W_SLCT; op++) {
        declare_operand_places((Word)op, true);
        if (has_forms((Word)op))
            declare_operand_places((Word)op, false);
        for (unsigned role = 0; role < (op == W_SETP ? 6 : 5); role++) {
            kind("place 6: %s %s", spelling[op], roles[role]);
            if (role != 3)
                kind("place 6: %s %s, and one behind it", spelling[op], roles[role]);
        }
        if (op == W_SET || op == W_SETP)
            kind("place 6: %s !c", spelling[op]);
    }
    for (int op = W_SET; op <= W_SLCT; op++)
        for (unsigned at = 0; at < 4; at++)
            for EACH(f, faults)
                if (is_wrong_with_halves((Word)op, at, f))
                    kind("place 5 with halves: %s operand %u is %s", spelling[op], at, faults[f]);
    for (unsigned role = 0; role < 3; role++)
        for (int op = W_SET; op <= W_SLCT; op++)
            if (role > 0 || op >= W_SELP)
                kind("place 6 of a half: %s %s", spelling[op], roles[role]);
    kind("place 5: end, no blank behind it");
    kind("place 5: end, blanks behind it");
    kind("place 5: end behind a written default with 2");
    kind("place 5: end behind a written default with 4");
    kind("place 5: a number too great in front");
    kind("place 5: a number too great there or behind");
    kind("place 5: one predicate twice in front");
    for (int n = 3; n <= 7; n++)
        for (int k = 0; k < 4; k++)
            kind("place %d: %s, %s", n, k & 1 ? "a guard" : "no guard", k & 2 ? "blanks in front" : "no blank in front");
    for (int n = 2; n <= 7; n++)
        for (int digits = n == 7 ? 2 : 1; digits <= 3; digits++)
            kind("place %d: of %d digits", n, digits);
}

static void declare_lines(void)
{
    kind("answer: done");
    kind("answer: skipped");
    for (int n = 1; n <= 7; n++)
        kind("answer: refused %d", n);
    for (int length = 158; length <= 160; length++)
        for (int n = 0; n <= 7; n++)
            if (n != 1)
                kind(n == 0 ? "length: %d accepted" : "length: %d refused %d", length, n);
    for (int length = 161; length <= 162; length++) {
        kind("length: %d, of the right shape", length);
        kind("length: %d, of no shape", length);
    }
    kind("length: empty line");
    kind("length: blanks alone");
    kind("length: last line without line feed accepted");
    kind("length: last line without line feed refused");
    kind("blank: tab in an accepted line");
    kind("blank: in front");
    kind("blank: at the end");
    kind("blank: none behind a comma");
    kind("blank: in front of a comma");
    for (int byte = 0; byte < 256; byte++)
        if (byte != '\n')
            kind("one byte too many: %02X", byte);
    for (int op = W_VADD; op <= W_SLCT; op++) {
        if (op != W_SELP)
            kind("refused 4: %s two modifiers swapped", spelling[op]);
        kind("refused 4: %s one modifier too many", spelling[op]);
        kind("refused 4: %s one modifier missing", spelling[op]);
        kind("refused 4: %s one modifier of another kind", spelling[op]);
        kind("refused 4: %s no modifier", spelling[op]);
        for (int n = 1; n <= 5; n++)
            if (op >= W_SET && op <= W_SETP ? true : op <= W_VSET ? n != 3 : n != 4)
                kind("refused 5: %s with %d operands", spelling[op], n);
        if (op <= W_VSET)
            kind("refused 5: %s d with selector, no c", spelling[op]);
        kind("refused 5: %s guard no predicate", spelling[op]);
        for (int role = 0; role < 4; role++)
            for EACH(f, faults)
                if (!is_right(op, role, (int)f))
                    kind("refused 5: %s %s is %s", spelling[op], roles[role], faults[f]);
        kind("refused 6: %s", spelling[op]);
    }
    kind("refused 5: setp _|_");
    for (int role = 0; role < 6; role++) {
        if (role < 4)
            kind("refused 6: %%r64 as %s", roles[role]);
        if (role < 3) {
            kind("refused 6: %%rs32 as %s", roles[role]);
            kind("refused 6: %%rd32 as %s", roles[role]);
        }
        if (role != 1 && role != 2)
            kind("refused 6: %%p16 as %s", roles[role]);
    }
    for (int n = 3; n <= 5; n++)
        kind("two faults: refused %d, a number too great", n);
    for (int n = 4; n <= 6; n++)
        kind("two faults: refused %d, one predicate twice", n);
    kind("two faults: refused 3, guard no predicate");
    kind("two faults: refused 4, guard no predicate");
}

/* ---- counting ---- */

static void count_scalar(const Machine *m, const Record *rec)
{
    const char *op = spelling[rec->op];
    uint32_t wa = m->r[rec->a], wb = m->r[rec->b];
    int64_t x = part_number(wa, rec->apart, rec->atype), y = part_number(wb, rec->bpart, rec->btype);
    hit("form: %s %s", op, rec->second != W_NONE ? "OP2" : rec->dpart.width < 32 ? "merge" : "plain");
    hit("selector: %s d %s", op, part_name(rec->dpart));
    hit("selector: %s a %s", op, part_name(rec->apart));
    hit("selector: %s b %s", op, part_name(rec->bpart));
    if (rec->apart.width == 32 && rec->bpart.width == 32)
        hit("words: %s %s %s", op, edge(wa, 32), edge(wb, 32));
    hit("part value: %s a %s %u bits %s", op, spelling[rec->atype], rec->apart.width, edge(wa >> rec->apart.shift & low_bits(rec->apart.width), rec->apart.width));
    hit("part value: %s b %s %u bits %s", op, spelling[rec->btype], rec->bpart.width, edge(wb >> rec->bpart.shift & low_bits(rec->bpart.width), rec->bpart.width));

    int64_t n = rec->op == W_VADD ? x + y : rec->op == W_VSUB ? x - y : rec->op == W_VABSDIFF ? (x < y ? y - x : x - y)
              : rec->op == W_VMIN ? least(x, y) : rec->op == W_VMAX ? greatest(x, y) : (order_signed(x, y) & accepts[rec->cmp]) != 0;
    if (rec->op == W_VSET)
        hit("video order: %s.%s.%s.%s %s", op, spelling[rec->atype], spelling[rec->btype], spelling[rec->cmp], order_name(order_signed(x, y)));
    if (rec->sat) {
        int64_t in = clamp(n, rec->dtype, rec->dpart.width);
        hit("sat: %s.%s %u bits %s", op, spelling[rec->dtype], rec->dpart.width, in > n ? "below" : in < n ? "above" : "within");
        n = in;
    }
    int64_t c = number_of(m->r[rec->c], 32, rec->dtype);
    if (rec->second == W_ADD)
        hit("OP2: %s.%s add %s 32 bits", op, spelling[rec->dtype], clamp(n + c, rec->dtype, 32) == n + c ? "within" : "beyond");
    else if (rec->second != W_NONE)
        hit("OP2: %s.%s %s keeps %s", op, spelling[rec->dtype], spelling[rec->second], (rec->second == W_MIN ? c < n : c > n) ? "c" : "the result");
}

/* The part of number `part` of a register pair. */
static uint32_t part_of(uint64_t parts, unsigned part, unsigned width)
{
    return (uint32_t)(parts >> width * part) & low_bits(width);
}

static void count_mask_and_selectors(const Record *rec, const Line *line)
{
    const char *op = spelling[rec->op];
    unsigned lanes = lanes_of(rec->op);
    const char *add = rec->second == W_ADD ? " add" : "";
    if (line->operand[0].selector != 0 && rec->mask == (1u << lanes) - 1)
        hit("mask: %s%s full, written", op, add);
    else
        hit("mask: %s%s %X", op, add, rec->mask);
    for (unsigned role = 1; role < 3; role++) {
        const Operand *o = &line->operand[role];
        if (o->selector == 0)
            hit("lane selector: %s %s bare", op, roles[role]);
        else if (o->text.length == o->bare)
            hit("lane selector: %s %s default, written", op, roles[role]);
        else
            for (unsigned i = 0; i < lanes; i++)
                hit("lane selector: %s %s lane %u part %u", op, roles[role], i, (role == 1 ? rec->asel : rec->bsel)[i]);
    }
}

static void count_lane_comparison(const Machine *m, const Record *rec)
{
    unsigned lanes = lanes_of(rec->op), width = 32 / lanes, named = 0, hold = 0;
    uint64_t parts = (uint64_t)m->r[rec->b] << 32 | m->r[rec->a];
    for (unsigned i = 0; i < lanes; i++) {
        if ((rec->mask >> i & 1) == 0)
            continue;
        unsigned order = order_signed(number_of(part_of(parts, rec->asel[i], width), width, rec->atype),
                                      number_of(part_of(parts, rec->bsel[i], width), width, rec->btype));
        hit("video order: vset%u.%s.%s.%s %s", lanes, spelling[rec->atype], spelling[rec->btype], spelling[rec->cmp], order_name(order));
        named++;
        hold += (order & accepts[rec->cmp]) != 0;
    }
    if (rec->second == W_ADD) {
        hit("lanes: vset%u add, %u of %u hold", lanes, hold, named);
        if (m->r[rec->c] + hold < m->r[rec->c])
            hit("lanes: vset%u add past 2^32", lanes);
    }
}

/* A masked lane with the parts x and y and the exact result n. */
static void count_lane_result(const Record *rec, uint32_t x, uint32_t y, int64_t n)
{
    const char *op = spelling[rec->op];
    const char *add = rec->second == W_ADD ? " add" : "";
    unsigned width = 32 / lanes_of(rec->op);
    hit("lane pair: %s %s %s", op, edge(x, width), edge(y, width));
    hit("lane value: %s a %s %s", op, spelling[rec->atype], edge(x, width));
    hit("lane value: %s b %s %s", op, spelling[rec->btype], edge(y, width));
    if (with_2(rec->op) == W_VAVRG2)
        hit("average: %s%s %s", op, add, sums[sum_kind(number_of(x, width, rec->atype) + number_of(y, width, rec->btype))]);
    if (rec->sat) {
        int64_t in = clamp(n, rec->dtype, width);
        hit("lane sat: %s.%s%s %s", op, spelling[rec->dtype], add, in > n ? "below" : in < n ? "above" : "within");
    } else {
        hit("lane result: %s%s %s", op, add, result_kinds[result_kind(n, width)]);
    }
}

/* Parts with the sign bit set that an operand takes from the other one's register: its type alone says what they are. */
static void count_other_register(const Record *rec, unsigned lane, uint32_t x, uint32_t y)
{
    unsigned lanes = lanes_of(rec->op), width = 32 / lanes;
    if (rec->atype == rec->btype)
        return;
    if (rec->asel[lane] >= lanes && x >> (width - 1) != 0)
        hit("part of the other register: %s a %s", spelling[rec->op], spelling[rec->atype]);
    if (rec->bsel[lane] < lanes && y >> (width - 1) != 0)
        hit("part of the other register: %s b %s", spelling[rec->op], spelling[rec->btype]);
}

static void count_lane_arithmetic(const Machine *m, const Record *rec)
{
    const char *op = spelling[rec->op];
    unsigned lanes = lanes_of(rec->op), width = 32 / lanes;
    uint64_t parts = (uint64_t)m->r[rec->b] << 32 | m->r[rec->a];
    bool add = rec->second == W_ADD;
    int64_t sum = m->r[rec->c];
    Record exact = *rec;
    exact.sat = false;
    for (unsigned i = 0; i < lanes; i++) {
        uint32_t x = part_of(parts, rec->asel[i], width), y = part_of(parts, rec->bsel[i], width);
        int64_t n = video_result(&exact, number_of(x, width, rec->atype), number_of(y, width, rec->btype), width);
        uint32_t kept = part_of(m->r[rec->c], i, width);
        if ((rec->mask >> i & 1) != 0) {
            count_lane_result(rec, x, y, n);
            count_other_register(rec, i, x, y);
            sum += rec->sat ? clamp(n, rec->dtype, width) : n;
        } else if (add ? n != 0 : kept != part_of(m->r[rec->b], i, width) && kept != ((uint32_t)n & low_bits(width))) {
            hit("unmasked: %s%s lane %u", op, add ? " add" : "", i);    /* what it must not do would show */
        }
    }
    if (add)
        hit("lane sum: %s %s", op, sum < 0 ? "below 0" : sum > UINT32_MAX ? "past 2^32" : "within");
}

static void count_lanes(const Machine *m, const Record *rec, const Line *line)
{
    count_mask_and_selectors(rec, line);
    if (is_vset(rec->op))
        count_lane_comparison(m, rec);
    else
        count_lane_arithmetic(m, rec);
}

static void count_comparison(const Machine *m, const Record *rec, const Line *line)
{
    uint32_t x = m->r[rec->a % R_COUNT], y = m->r[rec->b % R_COUNT];
    unsigned order;
    if (is_wide(rec->atype)) {
        order = order_unsigned(m->rd[rec->a], m->rd[rec->b]);
    } else if (is_half(rec->atype)) {
        hit("compared halves: %s %s %s", spelling[rec->atype], small_half(m->rs[rec->a]), small_half(m->rs[rec->b]));
        order = order_unsigned(m->rs[rec->a], m->rs[rec->b]);
    } else if (rec->atype == W_F32) {
        hit("singles: %s%s %s", rec->ftz ? "ftz " : "", single_class(x), single_class(y));
        order = order_float(rec->ftz ? flush(x) : x, rec->ftz ? flush(y) : y, 0x80000000, 0x7F800000);
    } else {
        hit("compared words: %s %s %s", spelling[rec->atype], edge(x, 32), edge(y, 32));
        order = order_signed(number_of(x, 32, rec->atype), number_of(y, 32, rec->atype));
    }
    hit("order: %s.%s.%s %s", spelling[rec->op], spelling[rec->cmp], spelling[rec->atype], order_name(order));
    bool t = (order & accepts[rec->cmp]) != 0;
    if (rec->op == W_SET) {
        if (rec->second != W_NONE)
            hit("set: %s t=%d c=%d%s", spelling[rec->second], t, m->p[rec->c], rec->c_negated ? " !" : "");
        return;
    }
    const char *places = place_kinds[line->operand[0].form != PAIR ? 0 : rec->p == DROPPED ? 3 : rec->q == DROPPED ? 2 : 1];
    hit("setp places: %s", places);
    if (rec->guarded && rec->guard == rec->p)
        hit("same register: setp first and guard");
    if (rec->guarded && rec->guard == rec->q)
        hit("same register: setp second and guard");
    if (rec->second == W_NONE)
        return;
    hit("setp places: %s %s t=%d c=%d%s", places, spelling[rec->second], t, m->p[rec->c], rec->c_negated ? " !" : "");
    if (rec->c == rec->p)
        hit("same register: setp first and c");
    if (rec->c == rec->q)
        hit("same register: setp second and c");
}

/* The kind of choice that a register holds; if it does so at the end of the listing a wrong choice is printed. Empty if none. */
static char held[FILES][R_COUNT][NAME_MOST];

static char *held_by_d(const Record *rec)
{
    return held[rec->op == W_SELP || rec->op == W_SLCT ? file_of(rec->dtype) : FILE_R][rec->d];
}

static void count_held(void)
{
    for (unsigned file = 0; file < FILES; file++)
        for (unsigned n = 0; n < R_COUNT; n++) {
            if (held[file][n][0] != '\0')
                hit("%s", held[file][n]);
            held[file][n][0] = '\0';
        }
}

/* A half that is left to the end, where a wrong choice would be printed. */
static void count_half_choice(const Machine *m, const Record *rec, bool picks_a)
{
    if (is_half(rec->dtype) && m->rs[rec->a] != m->rs[rec->b])
        snprintf(held_by_d(rec), NAME_MOST, "half to the end: %s.%s %s", spelling[rec->op], spelling[rec->dtype], picks_a ? "a" : "b");
}

static void count_slct(const Machine *m, const Record *rec)
{
    File file = file_of(rec->dtype);
    uint64_t a = value_at(m, file, rec->a), b = value_at(m, file, rec->b);
    uint32_t c = m->r[rec->c];
    bool picks_a = at_or_above_zero(c, rec->btype, rec->ftz);
    uint32_t copied = (uint32_t)(picks_a ? a : b);      /* %rd is 0 to 31 in a listing */
    const char *head = slct_head(rec->ftz, spelling[rec->dtype], rec->btype);
    hit("slct: %s %s", head, rec->btype == W_F32 ? single_class(c) : c == 0 ? "zero" : c >> 31 ? "below zero" : "above zero");
    count_half_choice(m, rec, picks_a);
    if (is_subnormal(copied) && file != FILE_RS)
        hit("subnormal copied: %s %c", head, "+-"[copied >> 31]);
    if (a == b)
        return;                 /* a wrong choice would not show */
    if (is_subnormal(c) && rec->ftz && file == FILE_R && rec->a == rec->c)
        hit("subnormal copied: %s %c, a is c", head, "+-"[c >> 31]);
    if (tiny_size(c) < 5) {
        hit("tiny c: %s %c%s", head, "+-"[c >> 31], tiny_sizes[tiny_size(c)]);
        snprintf(held_by_d(rec), NAME_MOST, "tiny c to the end: %s %c%s", slct_head(rec->ftz, file_bits[file], rec->btype),
                 "+-"[c >> 31], tiny_sizes[tiny_size(c)]);
    }
}

static void count_registers(const Line *line, const Record *rec)
{
    if (line->guarded)
        hit("number: %%p%u as guard", line->guard.number);
    for (unsigned i = 0; i < line->operands; i++) {
        const Operand *o = &line->operand[i];
        if (o->first.file != SINK)
            hit("number: %s%u as %s", lent[o->first.file].name, o->first.number, roles[i]);
        if (o->form == PAIR && o->second.file != SINK)
            hit("number: %%p%u as second", o->second.number);
    }
    if (is_lane_arithmetic(rec->op)) {
        for (unsigned i = 0; i < 4; i++)
            hit("lane number: with %u %%r%u as %s", lanes_of(rec->op), line->operand[i].first.number, roles[i]);
        if (line->guarded)
            hit("lane number: with %u %%p%u as guard", lanes_of(rec->op), line->guard.number);
    }
    if (rec->a == rec->b)
        hit("same register: %s a and b", spelling[rec->op]);
    if (rec->op != W_SETP && rec->d == rec->a)
        hit("same register: %s d and a", spelling[rec->op]);
    if (rec->op != W_SETP && rec->d == rec->b)
        hit("same register: %s d and b", spelling[rec->op]);
    if (line->operands == 4 && rec->d == rec->c && (rec->op <= W_VMAX4 || (rec->op == W_SLCT && file_of(rec->dtype) == FILE_R)))
        hit("same register: %s d and c", spelling[rec->op]);
    if (line->operand[1].first.file == FILE_RS) {
        if (rec->a == rec->b)
            hit("same half: %s a and b", spelling[rec->op]);
        if (rec->op >= W_SELP && rec->d == rec->a)
            hit("same half: %s d and a", spelling[rec->op]);
        if (rec->op >= W_SELP && rec->d == rec->b)
            hit("same half: %s d and b", spelling[rec->op]);
        if ((rec->op == W_SET && rec->d == rec->a) || (rec->op == W_SLCT && rec->d == rec->c))
            hit("same half: %s word and half of one number", spelling[rec->op]);
    }
}

/* A line that was read: what its record is, and the values that it is executed on. */
static void count_accepted(const Machine *m, const Line *line, const Record *rec)
{
    bool taken = !rec->guarded || (m->p[rec->guard] != 0) != rec->guard_negated;
    hit("answer: %s", taken ? "done" : "skipped");
    if (rec->guarded)
        hit("guard: %s @%s %s", spelling[rec->op], rec->guard_negated ? "!" : "", taken ? "done" : "skipped");
    else
        hit("guard: %s none", spelling[rec->op]);
    count_registers(line, rec);
    if (!taken)
        return;
    hit("head: %.*s", (int)line->head.length, (const char *)line->head.at);
    if (rec->op != W_SETP)
        held_by_d(rec)[0] = '\0';
    if (is_scalar(rec->op)) {
        count_scalar(m, rec);
    } else if (is_simd(rec->op)) {
        count_lanes(m, rec, line);
    } else if (rec->op == W_SET || rec->op == W_SETP) {
        count_comparison(m, rec, line);
    } else if (rec->op == W_SELP) {
        hit("selp: %s %d", spelling[rec->dtype], m->p[rec->c]);
        count_half_choice(m, rec, m->p[rec->c] == 1);
    } else {
        count_slct(m, rec);
    }
}

/* ---- lines that are refused: how near they are to a line that is read ---- */

static Operand operand_of(Form form, File first, File second, Key selector)
{
    Operand o = { form, { first, 0 }, { second, 1 }, selector, 3, { NULL, 3 } };
    return o;
}

/* Whether some operand in place of the one at `at` would have the operands read. */
static bool mended_by_operand(const Line *line, const Record *rec, unsigned at)
{
    const Operand tries[] = {
        operand_of(PLAIN, FILE_R, FILE_R, 0), operand_of(PLAIN, FILE_RS, FILE_R, 0), operand_of(PLAIN, FILE_RD, FILE_R, 0),
        operand_of(PLAIN, FILE_P, FILE_R, 0), operand_of(PLAIN, FILE_R, FILE_R, 'b' | '0' << 8)
    };
    for (unsigned i = 0; i < sizeof tries / sizeof tries[0]; i++) {
        Line copy = *line;
        Record other = *rec;
        copy.operand[at] = tries[i];
        if (read_record_operands(&copy, &other))
            return true;
    }
    return false;
}

static void count_wrong_operands(const Line *line, const Record *rec)
{
    const char *op = spelling[rec->op];
    Line copy = *line;
    Record other = *rec;
    if (line->guarded && line->guard.file != FILE_P) {
        hit("refused 5: %s guard no predicate", op);
        return;
    }
    unsigned n = line->operands > 5 ? 5 : line->operands;
    bool scalar = is_scalar(rec->op), either = scalar || rec->op == W_SET || rec->op == W_SETP;
    if (n < 3 || n > 4 || (n == 3 && !either)) {
        hit("refused 5: %s with %u operands", op, n);
        return;
    }
    if (n == 3 && scalar && rec->second == W_NONE && line->operand[0].selector != 0) {
        copy.operand[0].selector = 0;
        if (read_record_operands(&copy, &other))
            hit("refused 5: %s d with selector, no c", op);
    }
    if (!scalar && either && (n == 4) != (rec->second != W_NONE)) {
        hit("refused 5: %s with %u operands", op, n);
        return;
    }
    if (scalar && n == 4 && rec->second == W_NONE && line->operand[0].selector == 0) {
        copy.operands = 3;
        if (read_record_operands(&copy, &other))
            hit("refused 5: %s with 4 operands", op);
    }
    for (unsigned i = 0; i < n; i++) {
        const Operand *o = &line->operand[i];
        if (!mended_by_operand(line, rec, i))
            continue;
        if (rec->op == W_SETP && o->form == PAIR && o->first.file == SINK && o->second.file == SINK)
            hit("refused 5: setp _|_");
        hit("refused 5: %s %s is %s", op, roles[i], faults[fault_of(o)]);
    }
}

/* ---- refused lines of request T-01: in which way ---- */

static unsigned types_from(const Word *m)
{
    unsigned n = 0;
    while (n < NAMES_KEPT - 1 && is_video_type(m[n]))
        n++;
    return n;
}

static void count_wrong_list(const Line *line)
{
    const char *op = spelling[line->name[0]];
    if (line->names < 2 || line->names > NAMES_KEPT)
        return;
    const Word *m = line->name + 1;
    unsigned n = line->names - 1, types = types_from(m);
    bool sat = types == 3 && m[3] == W_SAT;
    const Word *last = m + types + sat;         /* behind the types and `sat` */
    unsigned rest = n - types - sat;
    if (types == 2 && n == 2)
        hit("wrong list: %s two types", op);
    else if (types == 2 && n == 3 && (m[2] == W_SAT || m[2] == W_ADD))
        hit("wrong list: %s two types and more", op);
    else if (types == 2 && is_cmp6(m[2]) && (n == 3 || (n == 4 && m[3] == W_ADD)))
        hit("wrong list: %s a comparison for a type", op);
    else if (types == 3 && n == 5 && m[3] == W_ADD && m[4] == W_SAT)
        hit("wrong list: %s add before sat", op);
    else if (types == 3 && rest == 1 && (*last == W_MIN || *last == W_MAX))
        hit("wrong list: %s %s", op, spelling[*last]);
    else if (types == 3 && rest == 1 && is_cmp6(*last))
        hit("wrong list: %s a comparison behind the types", op);
    else if (types == 3 && rest == 1 && *last == W_SAT)
        hit("wrong list: %s sat twice", op);
    else if (types == 3 && rest == 2 && last[0] == W_ADD && last[1] == W_ADD)
        hit("wrong list: %s add twice", op);
    else if (types == 4 && n == 4)
        hit("wrong list: %s four types", op);
    else if (n == 4 && types < 3 && m[types] == W_SAT && types_from(m + types + 1) == 3 - types)
        hit("wrong list: %s sat among the types", op);
    else if (n == 3 && types < 3 && (is_type(m[types]) || m[types] == W_OTHER) && types_from(m + types + 1) == 2 - types)
        hit("wrong list: %s another type", op);
}

static unsigned key_length(Key key)
{
    unsigned length = 0;
    for (; key != 0; key >>= 8)
        length++;
    return length;
}

/* What is wrong with a mask, by its bytes. */
static void count_wrong_mask(const char *op, Key key, unsigned lanes)
{
    unsigned length = key_length(key);
    bool rising = false, twice = false, high = false;
    if (key == 0 || key == KEY_LONG)
        return;
    for (unsigned i = 1; i < length; i++) {
        unsigned digit = (unsigned)(key >> 8 * i & 0xFF) - '0', before = (unsigned)(key >> 8 * (i - 1) & 0xFF) - '0';
        high = high || digit >= lanes;
        rising = rising || (i > 1 && digit > before);
        twice = twice || (i > 1 && digit == before);
    }
    hit("wrong mask: %s %s", op, wrong_masks[(key & 0xFF) != (lanes == 2 ? 'h' : 'b') ? 4 : length == 1 ? 3 : length > lanes + 1 ? 5
                                             : high ? 2 : twice ? 0 : rising ? 1 : 4]);
}

static void count_wrong_selector(const char *op, const char *role, Key key, unsigned lanes)
{
    unsigned length = key_length(key);
    if (key == 0 || key == KEY_LONG)
        return;
    hit("wrong selector: %s %s %s", op, role, wrong_selectors[(key & 0xFF) != (lanes == 2 ? 'h' : 'b') ? 3 : length < lanes + 1 ? 0
                                                               : length > lanes + 1 ? 1 : 2]);
}

/* A line that has no other fault than one mask or selector. */
static void count_wrong_lanes(const Line *line, const Record *rec)
{
    unsigned lanes = lanes_of(rec->op);
    if (line->operands != 4 || (line->guarded && line->guard.file != FILE_P))
        return;
    for (unsigned i = 0; i < 3; i++) {
        Line copy = *line;
        Record other = *rec;
        Key key = line->operand[i].selector;
        copy.operand[i].selector = 0;
        if (key == 0 || !read_record_operands(&copy, &other))
            continue;
        if (i == 0)
            count_wrong_mask(spelling[rec->op], key, lanes);
        else
            count_wrong_selector(spelling[rec->op], roles[i], key, lanes);
    }
}

static void count_lane_number(const Line *line, const Record *rec)
{
    for (unsigned i = 0; i < 4; i++)
        if (line->operand[i].first.number == R_COUNT)
            hit("lane refused 6: %s %%r64 as %s", spelling[rec->op], roles[i]);
    if (line->guarded && line->guard.number == P_COUNT)
        hit("lane refused 6: %s %%p16 as guard", spelling[rec->op]);
}

static void count_near_opcode(const Line *line)
{
    for EACH(i, near_opcodes) {
        size_t length = strlen(near_opcodes[i]);
        if (line->head.length >= length && memcmp(line->head.at, near_opcodes[i], length) == 0 &&
            (line->head.length == length || line->head.at[length] == '.'))
            hit("refused 3: %s", near_opcodes[i]);
    }
}

static bool modifiers_read(Line *line)
{
    Record rec;
    memset(&rec, 0, sizeof rec);
    rec.op = line->name[0];
    return read_modifiers(line, &rec);
}

static void count_wrong_modifiers(const Line *line)
{
    const char *op = spelling[line->name[0]];
    unsigned n = line->names;
    bool swapped = false, dropped = false, missing = false, other = false;
    if (n == 1)
        hit("refused 4: %s no modifier", op);
    if (n > NAMES_KEPT)
        return;
    for (unsigned i = 1; i < n; i++) {
        for (unsigned j = i + 1; j < n; j++) {
            Line copy = *line;
            copy.name[i] = line->name[j];
            copy.name[j] = line->name[i];
            swapped = swapped || modifiers_read(&copy);
        }
        Line copy = *line;
        memmove(copy.name + i, copy.name + i + 1, (NAMES_KEPT - i) * sizeof copy.name[0]);
        copy.names--;
        dropped = dropped || modifiers_read(&copy);
        for (int w = W_U32; w < WORD_COUNT; w++) {
            copy = *line;
            copy.name[i] = (Word)w;
            other = other || modifiers_read(&copy);
        }
    }
    for (unsigned i = 1; i <= n && n < NAMES_KEPT; i++)
        for (int w = W_U32; w < WORD_COUNT; w++) {
            Line copy = *line;
            memmove(copy.name + i + 1, copy.name + i, (NAMES_KEPT - i) * sizeof copy.name[0]);
            copy.name[i] = (Word)w;
            copy.names++;
            missing = missing || modifiers_read(&copy);
        }
    if (swapped && line->name[0] != W_SELP)
        hit("refused 4: %s two modifiers swapped", op);
    if (dropped)
        hit("refused 4: %s one modifier too many", op);
    if (missing)
        hit("refused 4: %s one modifier missing", op);
    if (other)
        hit("refused 4: %s one modifier of another kind", op);
}

static void count_great_number(const Line *line, const Record *rec)
{
    hit("refused 6: %s", spelling[rec->op]);
    if (line->guarded && line->guard.number == P_COUNT)
        hit("refused 6: %%p16 as guard");
    for (unsigned i = 0; i < line->operands; i++) {
        const Operand *o = &line->operand[i];
        if (o->first.file != SINK && o->first.number == lent[o->first.file].places)
            hit("refused 6: %s%u as %s", lent[o->first.file].name, o->first.number, roles[i]);
        if (o->form == PAIR && o->second.file != SINK && o->second.number == P_COUNT)
            hit("refused 6: %%p16 as second");
    }
}

/* The faults that a refusal given earlier hides. */
static void count_two_faults(const Line *line, Refusal refusal)
{
    Line copy = *line;
    if (copy.operands > OPERANDS_KEPT)
        copy.operands = OPERANDS_KEPT;
    if (refusal >= NO_OPCODE && refusal <= BAD_OPERANDS && !numbers_fit(&copy))
        hit("two faults: refused %d, a number too great", refusal);
    if (refusal <= BAD_MODIFIERS && refusal >= NO_OPCODE && line->guarded && line->guard.file != FILE_P)
        hit("two faults: refused %d, guard no predicate", refusal);
    const Operand *d = &line->operand[0];
    if (refusal >= BAD_MODIFIERS && refusal <= BAD_NUMBER && line->name[0] == W_SETP && d->form == PAIR &&
        d->first.file == FILE_P && d->second.file == FILE_P && d->first.number == d->second.number)
        hit("two faults: refused %d, one predicate twice", refusal);
}

/* Whether the line is read once a byte is gone; then the byte is counted. */
static void count_byte_too_many(const Byte *p, size_t length)
{
    for (size_t i = 0; i < length; i++) {
        Byte copy[LINE_MOST + 1];
        Line line;
        Record rec;
        if (i > 0 && p[i] == p[i - 1])
            continue;
        memcpy(copy, p, i);
        memcpy(copy + i, p + i + 1, length - i - 1);
        copy[length - 1] = '\n';
        if (judge_line(copy, length - 1, SM_30, ORDINARY, &line, &rec) == ACCEPTED) {
            hit("one byte too many: %02X", p[i]);
            return;
        }
    }
}

/* ---- places (request T-05): each is held against the definition, by the reader alone, and counted by its piece ---- */

/* Whether some line of the right shape begins with the first `count` bytes: if so, one of these ends makes one. */
static bool begins_shape(const Byte *p, size_t count)
{
    static const char *const ends[] = {
        "", ";", "0;", "r0;", "%r0;", " %r0;", "a %r0;", " a %r0;", "0 a %r0;", "p0 a %r0;", "%p0 a %r0;", "|_;", "_;", "a;"
    };
    for EACH(i, ends) {
        Byte copy[LINE_MOST + 32];
        Line any;
        size_t more = strlen(ends[i]);
        memcpy(copy, p, count);
        memcpy(copy + count, ends[i], more);
        copy[count + more] = '\n';
        if (read_shape(copy, &any))
            return true;
    }
    return false;
}

/* Whether some legal list begins with the first `count` operands: if so, one with bare registers behind them. */
static bool begins_operands(const Line *line, const Record *rec, unsigned count)
{
    for (unsigned length = count < 3 ? 3 : count; length <= 4; length++)
        for (unsigned n = 0; n < FILES * FILES * FILES * FILES; n++) {
            Line copy = *line;
            Record other = *rec;
            unsigned rest = n;
            copy.operands = length;
            for (unsigned i = count; i < length; i++, rest /= FILES)
                copy.operand[i] = operand_of(PLAIN, (File)(rest % FILES), FILE_R, 0);
            if (rest == 0 && read_record_operands(&copy, &other))
                return true;
        }
    return false;
}

static void check_shape_place(const Byte *p, size_t length, size_t place)
{
    if (place > length || !begins_shape(p, place) || (place < length && begins_shape(p, place + 1)))
        stop("a place of refusal 2 is not by the definition", "alone.c");
}

/* The operand at the place, or how many there are if it is behind the last one. */
static unsigned operand_at(const Byte *p, const Line *line)
{
    unsigned at = 0;
    while (at < line->operands && at < OPERANDS_KEPT && line->operand[at].text.at != p + line->place)
        at++;
    return at;
}

static void check_operand_place(const Byte *p, const Line *line, const Record *rec)
{
    bool wrong_guard = line->guarded && line->guard.file != FILE_P;
    unsigned at = operand_at(p, line);
    bool right = wrong_guard ? line->guard_text.at == p + line->place
               : at == line->operands ? line->operands_end == p + line->place && begins_operands(line, rec, at)
               : begins_operands(line, rec, at) && !(at < 4 && begins_operands(line, rec, at + 1));
    if (!right)
        stop("a place of refusal 5 is not by the definition", "alone.c");
}

static void count_shape_place(const Byte *p, size_t length, size_t place)
{
    unsigned at = piece_at(p, place), commas = 0;
    const char *piece = pieces[at], *in[] = { "", " in a half" };
    for (unsigned i = 0; i < (names_file(at) && ends_in_half(p, place) ? 2 : 1); i++) {
        if (place == length)
            hit("place 2%s: unfinished behind `%s`", in[i], piece);
        else
            hit("place 2%s: behind `%s` %s", in[i], piece, byte_classes[byte_class(p[place])]);
    }
    if (place >= 159)
        hit("place 2: at %u, %s", (unsigned)place, place == length ? "unfinished" : "a wrong byte");
    for (size_t i = 0; i < place; i++)
        commas += p[i] == ',';
    if (commas < 5)
        hit("place 2: behind %u commas", commas);
}

/* CmpOp, `ftz` and stype that do not go together. */
static void count_comparison_place(const Byte *p, const Line *line)
{
    const Word *m = line->name + 1;
    Word op = line->name[0], cmp = *m;
    const Byte *place = p + line->place;
    unsigned at = 2;
    bool ftz;
    if (!is_cmp_op(cmp))
        return;
    at += is_bool_op(line->name[at]);
    ftz = line->name[at] == W_FTZ;
    if (ftz && line->name_at[at] == place) {
        if (!compares(cmp, W_F32))
            hit("place 4: %s %s and ftz", spelling[op], spelling[cmp]);
        return;
    }
    at += ftz;
    at += op == W_SET;
    if (at < line->names && at < NAMES_KEPT && line->name_at[at] == place && is_type(line->name[at])) {
        if (ftz)
            hit("place 4: %s %s, ftz and %s", spelling[op], spelling[cmp], spelling[line->name[at]]);
        else
            hit("place 4: %s %s and %s", spelling[op], spelling[cmp], spelling[line->name[at]]);
    }
}

static void count_modifier_place(const Byte *p, const Line *line)
{
    Word op = line->name[0];
    const Byte *end = line->head.at + line->head.length;
    if (end == p + line->place) {
        hit("place 4: %s end behind %u", spelling[op], line->names - 1);
        hit("place 4: end, %s behind it", is_blank(end[1]) ? "more blanks" : "one blank");
        return;
    }
    unsigned at = 1;
    while (at < NAMES_KEPT && line->name_at[at] != p + line->place)
        at++;
    hit("place 4: %s modifier %u", spelling[op], at);
    hit("place 4: %s modifier %u is %s", families[family(op)], at, word_classes[word_class(line->name[at])]);
    if (op == W_SET || op == W_SETP)
        count_comparison_place(p, line);
}

static void count_operand_place(const Byte *p, const Line *line, const Record *rec)
{
    const char *name = form_name(rec->op, rec->second != W_NONE);
    const Byte *place = p + line->place;
    unsigned at = operand_at(p, line);
    if (line->guarded && line->guard_text.at == place) {
        hit("place 5: %s guard", name);
        if (line->guard.file == FILE_RS)
            hit("place 5: %s guard a half", name);
    } else if (at == line->operands) {
        hit("place 5: %s end behind %u", name, at);
        hit("place 5: end, %s behind it", is_blank(*place) ? "blanks" : "no blank");
        const Operand *last = &line->operand[at - 1];
        if (is_simd(rec->op) && at == 3 && last->selector == (lanes_of(rec->op) == 2 ? key_of((const Byte *)"h32", 3) : key_of((const Byte *)"b7654", 5)))
            hit("place 5: end behind a written default with %u", lanes_of(rec->op));
    } else {
        const Operand *o = &line->operand[at];
        bool four = rec->second != W_NONE || !has_forms(rec->op) || (is_scalar(rec->op) && line->operand[0].selector != 0);
        if (at == (four ? 4u : 3u))
            hit("place 5: %s operand %u too many", name, at);
        else
            hit("place 5: %s operand %u is %s", name, at, faults[fault_of(o)]);
        if (at < (four ? 4u : 3u) && is_half(rec->op == W_SET || rec->op == W_SETP ? rec->atype : rec->op >= W_SELP ? rec->dtype : W_NONE))
            hit("place 5 with halves: %s operand %u is %s", spelling[rec->op], at, faults[fault_of(o)]);
    }
    for (unsigned i = 0; i < line->operands && i < OPERANDS_KEPT; i++) {
        const Operand *o = &line->operand[i];
        if (!number_fits(o->first) || (o->form == PAIR && !number_fits(o->second)))
            hit("place 5: a number too great %s", o->text.at < place ? "in front" : "there or behind");
    }
    const Operand *d = &line->operand[0];
    if (rec->op == W_SETP && d->form == PAIR && d->text.at < place && d->first.file == FILE_P && d->second.file == FILE_P && d->first.number == d->second.number)
        hit("place 5: one predicate twice in front");
}

static void count_number_place(const Byte *p, const Line *line, const Record *rec)
{
    const Byte *place = p + line->place;
    unsigned over = 0, first = 0;               /* how many are over; by role the one at the place */
    if (line->guarded && !number_fits(line->guard) && ++over == 1)
        first = 4;
    for (unsigned i = 0; i < line->operands; i++) {
        const Operand *o = &line->operand[i];
        if (!number_fits(o->first) && ++over == 1)
            first = i;
        if (o->form == PAIR && !number_fits(o->second) && ++over == 1)
            first = 5;
    }
    const Byte *at = first == 4 ? line->guard_text.at : first == 5 ? (const Byte *)memchr(line->operand[0].text.at, '|', LINE_MOST) : line->operand[first].text.at;
    if (*place != '%' || memchr(at, '%', LINE_MOST) != place)
        stop("a place of refusal 6 is not by the definition", "alone.c");
    hit(over > 1 && first != 3 ? "place 6: %s %s, and one behind it" : "place 6: %s %s", spelling[rec->op], roles[first]);
    if (first == 3 && line->operand[3].form == NEGATED)
        hit("place 6: %s !c", spelling[rec->op]);
    if (first < 3 && line->operand[first].first.file == FILE_RS)
        hit("place 6 of a half: %s %s", spelling[rec->op], roles[first]);
}

static void count_place(const Byte *p, size_t length, const Line *line, const Record *rec, Refusal refusal)
{
    size_t place = line->place;
    hit("place %d: of %d digits", refusal, place < 10 ? 1 : place < 100 ? 2 : 3);
    if (refusal == NO_SHAPE) {
        check_shape_place(p, length, place);
        count_shape_place(p, length, place);
        return;
    }
    hit("place %d: %s, %s", refusal, line->guarded ? "a guard" : "no guard", is_blank(p[0]) ? "blanks in front" : "no blank in front");
    switch (refusal) {
    case BAD_MODIFIERS:
        count_modifier_place(p, line);
        break;
    case BAD_OPERANDS:
        check_operand_place(p, line, rec);
        count_operand_place(p, line, rec);
        break;
    case BAD_NUMBER:
        count_number_place(p, line, rec);
        break;
    default:
        break;
    }
}

static void count_refused(const Byte *p, size_t length, const Line *line, const Record *rec, Refusal refusal)
{
    Line any;
    hit("answer: refused %d", refusal);
    switch (refusal) {
    case TOO_LONG:
        if (length <= 162)
            hit("length: %u, of %s shape", (unsigned)length, read_shape(p, &any) ? "the right" : "no");
        return;
    case NO_SHAPE:
        if (length == 0)
            hit("length: empty line");
        else if (*skip_blanks(p) == '\n')
            hit("length: blanks alone");
        break;
    case NO_OPCODE:
        count_near_opcode(line);
        break;
    case BAD_MODIFIERS:
        count_wrong_modifiers(line);
        if (is_lane_arithmetic(line->name[0]))
            count_wrong_list(line);
        break;
    case BAD_OPERANDS:
        count_wrong_operands(line, rec);
        if (is_lane_arithmetic(rec->op))
            count_wrong_lanes(line, rec);
        break;
    case BAD_NUMBER:
        count_great_number(line, rec);
        if (is_lane_arithmetic(rec->op))
            count_lane_number(line, rec);
        break;
    default:
        break;
    }
    count_place(p, length, line, rec, refusal);
    if (refusal != NO_SHAPE)
        count_two_faults(line, refusal);
    if (length >= 158)
        hit("length: %u refused %d", (unsigned)length, refusal);
    if (length > 0)
        count_byte_too_many(p, length);
}

static void count_blanks(const Byte *p, size_t length)
{
    if (length >= 158)
        hit("length: %u accepted", (unsigned)length);
    if (memchr(p, '\t', length) != NULL)
        hit("blank: tab in an accepted line");
    if (is_blank(p[0]))
        hit("blank: in front");
    if (is_blank(p[length - 1]))
        hit("blank: at the end");
    const Byte *comma = memchr(p, ',', length);
    if (is_blank(comma[-1]))
        hit("blank: in front of a comma");
    if (!is_blank(comma[1]))
        hit("blank: none behind a comma");
}

/* ---- request T-07: what has to occur at a target, and what does ---- */

static const char *const target_names[TARGETS] = { "sm_10", "sm_13", "sm_20", "sm_30" };

/* The oldest target that allows a head, by its text and so not by alone's rule: "f64 types need sm_13, scalar video sm_20, forms with 2 or 4 sm_30". */
static Target needed_by_text(const char *head, size_t length)
{
    size_t name = 0;
    while (name < length && head[name] != '.')
        name++;
    if (head[0] == 'v')
        return name > 1 && (head[name - 1] == '2' || head[name - 1] == '4') ? SM_30 : SM_20;
    for (size_t i = name; i + 4 <= length; i++)
        if (memcmp(head + i, ".f64", 4) == 0)
            return SM_13;
    return SM_10;
}

/* The words, doubles and halves of a listing that this target brings about: singles without order come from FFFFFFFF, doubles are 0 to 31 as bits. */
static bool has_no_order(Word stype) { return stype == W_F32; }

/* What is refused with 12 at the target, by opcode and, where only that is too new, f64. */
static const char *new_name(int op) { return op >= W_SET ? ".f64" : ""; }
static bool is_new(int op, Target target) { return target < (op >= W_SET ? SM_13 : is_simd((Word)op) ? SM_30 : SM_20); }

static void declare_new(Target target)
{
    for (int op = W_VADD; op <= W_SLCT; op++) {
        if (!is_new(op, target))
            continue;
        for (int n = 1; n <= 7; n++)
            if (n != 7 || op == W_SETP)
                kind("before 12: %d %s%s", n, spelling[op], new_name(op));
        kind("12: %s%s, no guard", spelling[op], new_name(op));
        kind("12: %s%s, its guard true", spelling[op], new_name(op));
        kind("12: %s%s, its guard false", spelling[op], new_name(op));
    }
}

static void declare_orders(Target target)
{
    for (int stype = W_U32; stype <= W_S16; stype++) {
        if (stype == W_F64 && target < SM_13)
            continue;
        for (int set = 0; set < 2; set++)
            for (int cmp = W_EQ; cmp <= W_NAN; cmp++)
                for (unsigned order = LESS; order <= UNORDERED && compares((Word)cmp, (Word)stype); order *= 2)
                    if (order != UNORDERED || has_no_order((Word)stype))
                        kind("order: %s %s %s %s", set ? "set" : "setp", spelling[cmp], spelling[stype], order_name(order));
        for (int a = 0; a < 2; a++) {
            kind("choice: selp %s %s", spelling[stype], a ? "a" : "b");
            for (int c = 0; c < 3; c++)
                kind("choice: slct%s %s %s %s", c == 2 ? ".ftz" : "", spelling[stype], c == 0 ? "s32" : "f32", a ? "a" : "b");
        }
    }
}

/* Where flushing, or not, turns what comes of it. No listing at sm_10 or sm_13 has a subnormal single. */
static void declare_turned(Target target)
{
    if (target < SM_20)
        return;
    for (int ftz = 0; ftz < 2; ftz++) {
        for (int set = 0; set < 2; set++)
            for (int cmp = W_EQ; cmp <= W_NAN; cmp++)
                if (compares((Word)cmp, W_F32) && cmp < W_NUM)
                    kind("turned: %s %s%s", set ? "set" : "setp", spelling[cmp], ftz ? " ftz" : "");
        for (int type = W_U32; type <= W_S16; type++)
            kind("turned: slct %s%s", spelling[type], ftz ? " ftz" : "");
    }
}

static void declare_target(Target target)
{
    kind("answer: done");
    kind("answer: skipped");
    for (int n = 1; n <= 7; n++)
        kind("answer: refused %d", n);
    if (target < SM_30)
        kind("answer: refused 12");
    declare_heads();
    for (int op = W_VSET2; op <= W_VMAX4; op++)
        if (is_lane_arithmetic(op))
            declare_lane_heads((Word)op);
    for (int op = W_VADD; op <= W_SLCT; op++)
        for (int taken = 0; taken < 2; taken++)
            if (op >= W_SET || !is_new(op, target))
                kind("guard: %s %s", spelling[op], taken ? "done" : "skipped");
    declare_new(target);
    declare_orders(target);
    declare_turned(target);
}

/* The text of the head, whatever is wrong with the line; its length 0 if none begins there. */
static Text head_text(const Byte *p)
{
    p = skip_blanks(p);
    if (*p == '@')
        while (*p != '\n' && !is_blank(*p))
            p++;
    p = skip_blanks(p);
    Text head = { p, 0 };
    while (is_name_byte(p[head.length]) || p[head.length] == '.')
        head.length++;
    return head;
}

/* The opcode that the head begins with, the longest; W_NONE if there is none. */
static Word nearest_opcode(Text head)
{
    Word nearest = W_NONE;
    for (int op = W_VADD; op <= W_SLCT; op++) {
        size_t length = strlen(spelling[op]);
        if (length <= head.length && memcmp(head.at, spelling[op], length) == 0 &&
            (nearest == W_NONE || length > strlen(spelling[nearest])))
            nearest = (Word)op;
    }
    return nearest;
}

/* One of 1 to 7 where 12 would stand without it, as far as the text of the head tells. */
static void count_before_12(const Byte *p, Target target, Refusal refusal)
{
    Text head = head_text(p);
    Word op = nearest_opcode(head);
    if (op == W_NONE || !is_new(op, target) || (op >= W_SET && needed_by_text((const char *)head.at, head.length) <= target))
        return;
    if (refusal != SAME_PLACES || op == W_SETP)
        hit("before 12: %d %s%s", refusal, spelling[op], new_name(op));
}

/* 12, with the guard looked at all the same; the line is read as sm_30 reads it. */
static void count_too_old(const Machine *m, const Byte *p, size_t length)
{
    Line line;
    Record rec;
    if (read_line(p, length, SM_30, ORDINARY, &line, &rec) != ACCEPTED)
        stop("12 where another refusal stands", "alone.c");
    hit("head: %.*s", (int)line.head.length, (const char *)line.head.at);
    hit("12: %s%s, %s", spelling[rec.op], new_name(rec.op),
        !rec.guarded ? "no guard" : (m->p[rec.guard] != 0) != rec.guard_negated ? "its guard true" : "its guard false");
}

static unsigned order_of(const Machine *m, Record rec, Target target)
{
    static const struct { unsigned order; Word cmp; } asked[] = { { LESS, W_LT }, { EQUAL, W_EQ }, { GREATER, W_GT } };
    if (rec.atype == W_B16 || rec.atype == W_B32 || rec.atype == W_B64)
        rec.atype = rec.atype == W_B16 ? W_U16 : rec.atype == W_B32 ? W_U32 : W_U64;
    for EACH(i, asked) {
        rec.cmp = asked[i].cmp;
        if (comparison(m, &rec, target))
            return asked[i].order;
    }
    return UNORDERED;
}

static void count_at_target(const Machine *m, const Line *line, const Record *rec, Target target)
{
    bool taken = !rec->guarded || (m->p[rec->guard] != 0) != rec->guard_negated;
    hit("answer: %s", taken ? "done" : "skipped");
    if (rec->guarded)
        hit("guard: %s %s", spelling[rec->op], taken ? "done" : "skipped");
    if (!taken)
        return;
    hit("head: %.*s", (int)line->head.length, (const char *)line->head.at);
    if (rec->op < W_SET)
        return;
    Record other = *rec;
    other.ftz = !rec->ftz;
    const char *ftz = rec->ftz ? " ftz" : "";
    if (rec->op == W_SET || rec->op == W_SETP) {
        hit("order: %s %s %s %s", spelling[rec->op], spelling[rec->cmp], spelling[rec->atype], order_name(order_of(m, *rec, target)));
        if (comparison(m, rec, target) != comparison(m, &other, target))
            hit("turned: %s %s%s", spelling[rec->op], spelling[rec->cmp], ftz);
        return;
    }
    uint64_t a = value_at(m, file_of(rec->dtype), rec->a), b = value_at(m, file_of(rec->dtype), rec->b);
    if (a == b)
        return;                 /* either choice writes the same */
    if (rec->op == W_SELP) {
        hit("choice: selp %s %s", spelling[rec->dtype], m->p[rec->c] == 1 ? "a" : "b");
        return;
    }
    bool pick_a = at_or_above_zero(m->r[rec->c], rec->btype, flushes(rec, rec->btype, target));
    hit("choice: slct%s %s %s %s", rec->ftz ? ".ftz" : "", spelling[rec->dtype], spelling[rec->btype], pick_a ? "a" : "b");
    if (pick_a != at_or_above_zero(m->r[rec->c], rec->btype, flushes(&other, rec->btype, target)))
        hit("turned: slct %s%s", spelling[rec->dtype], ftz);
}

/* Counts a line at a target; 12 has to stand exactly where the text of the head says so. */
static void count_line_at(const Machine *m, const Byte *p, size_t length, const Line *line, const Record *rec, Refusal refusal, Target target)
{
    if (refusal == ACCEPTED || refusal == TOO_OLD) {
        if ((refusal == TOO_OLD) != (needed_by_text((const char *)line->head.at, line->head.length) > target))
            stop("12 is not by the definition", target_names[target]);
    }
    if (refusal == ACCEPTED) {
        count_at_target(m, line, rec, target);
        return;
    }
    hit("answer: refused %d", refusal);
    if (refusal == TOO_OLD)
        count_too_old(m, p, length);
    else
        count_before_12(p, target, refusal);
}

static Byte input[INPUT_MOST + 1];

/* The listing of that name into `input`, with a line feed behind it; its size. */
static size_t read_listing(const char *name)
{
    FILE *file = fopen(name, "rb");
    if (file == NULL)
        stop("cannot be read", name);
    size_t size = fread(input, 1, sizeof input, file);
    fclose(file);
    if (size > INPUT_MOST)
        stop("too long", name);
    input[size] = '\n';
    return size;
}

/* At a target, TARGETS for the kinds of sm_30 of the older requests. */
static void count_listing(const char *name, Target at)
{
    Machine m;
    const Byte *p = input, *end = input + read_listing(name);
    Target target = at == TARGETS ? SM_30 : at;
    start_machine(&m);
    while (p < end) {
        Line line;
        Record rec;
        memset(&rec, 0, sizeof rec);
        const Byte *feed = memchr(p, '\n', (size_t)(end - p) + 1);
        size_t length = (size_t)(feed - p);
        Refusal refusal = read_line(p, length, target, ORDINARY, &line, &rec);
        if (at != TARGETS) {
            count_line_at(&m, p, length, &line, &rec, refusal, target);
            if (refusal == ACCEPTED)
                execute(&m, &rec, target);
            p = feed + 1;
            continue;
        }
        if (feed == end)
            hit("length: last line without line feed %s", refusal == ACCEPTED ? "accepted" : "refused");
        if (refusal == ACCEPTED) {
            count_accepted(&m, &line, &rec);
            count_blanks(p, length);
            execute(&m, &rec, target);
        } else {
            count_refused(p, length, &line, &rec, refusal);
        }
        p = feed + 1;
    }
    if (at == TARGETS)
        count_held();
}

/* ---- strict reading (request T-09): what 15 hangs on is worked out of the text of the line, not of the record ---- */

enum { D, A, B, C, TEXTS = 5, TEXT_SIZE = 40 };

typedef struct {
    char name[TEXT_SIZE];               /* the first name of the head */
    char operand[TEXTS][TEXT_SIZE];     /* without blanks around them */
    size_t at[TEXTS];
    unsigned operands;
    unsigned lanes;                     /* 0 if the opcode has none */
    char digits[3][TEXT_SIZE];          /* of the mask and of both selectors, the defaults if there are none */
    unsigned how[3];                    /* none written, the default written, others */
    char word[TEXTS][TEXT_SIZE];        /* the operands without what is behind a dot */
} LineText;

static const char *const hows[] = { "none", "default", "other" };

/* Whatever is wrong with the line: as much of it as is there. */
static LineText line_text(const Byte *p)
{
    static const char *const defaults[2][3] = { { "10", "10", "32" }, { "3210", "3210", "7654" } };
    LineText t;
    memset(&t, 0, sizeof t);
    Text head = head_text(p);
    size_t name = 0;
    while (name < head.length && head.at[name] != '.' && name < TEXT_SIZE - 1)
        name++;
    memcpy(t.name, head.at, name);
    const Byte *q = head.at + head.length;
    while (*q != '\n' && *q != ';' && t.operands < TEXTS) {
        while (*q == ' ' || *q == '\t')
            q++;
        const Byte *start = q;
        while (*q != '\n' && *q != ';' && *q != ',')
            q++;
        size_t length = (size_t)(q - start);
        while (length > 0 && (start[length - 1] == ' ' || start[length - 1] == '\t'))
            length--;
        memcpy(t.operand[t.operands], start, length < TEXT_SIZE ? length : TEXT_SIZE - 1);
        t.at[t.operands++] = (size_t)(start - p);
        if (*q == ',')
            q++;
    }
    char last = name > 0 ? t.name[name - 1] : '\0';
    t.lanes = last == '2' ? 2 : last == '4' ? 4 : 0;
    for (unsigned i = 0; i < TEXTS; i++) {
        size_t dot = strcspn(t.operand[i], ".");
        memcpy(t.word[i], t.operand[i], dot);
        if (i > B || t.lanes == 0)
            continue;
        const char *usual = defaults[t.lanes == 4][i];
        bool written = t.operand[i][dot] == '.' && t.operand[i][dot + 1] != '\0';
        strcpy(t.digits[i], written ? t.operand[i] + dot + 2 : usual);
        t.how[i] = !written ? 0 : strcmp(t.digits[i], usual) == 0 ? 1 : 2;
    }
    return t;
}

/* The digit that a selector has for a lane: the leftmost is the highest lane's. */
static char digit_of(const LineText *t, unsigned operand, unsigned lane)
{
    size_t count = strlen(t->digits[operand]);
    return lane < count ? t->digits[operand][count - 1 - lane] : '?';
}

/* `%r5 2`: the register that a digit picks in and its part there. */
static void picked(const LineText *t, char digit, char to[TEXT_SIZE + 4])
{
    const char *of_a = t->lanes == 2 ? "01" : "0123", *of_b = t->lanes == 2 ? "23" : "4567";
    const char *in_a = strchr(of_a, digit), *in_b = strchr(of_b, digit);
    snprintf(to, TEXT_SIZE + 4, "%s %d", t->word[in_a != NULL ? A : B], in_a != NULL ? (int)(in_a - of_a) : in_b != NULL ? (int)(in_b - of_b) : -1);
}

static bool lane_itself(const LineText *t, unsigned lane)
{
    char x[TEXT_SIZE + 4], y[TEXT_SIZE + 4];
    picked(t, digit_of(t, A, lane), x);
    picked(t, digit_of(t, B, lane), y);
    return strcmp(x, y) == 0;
}

static bool lane_masked(const LineText *t, unsigned lane) { return strchr(t->digits[D], (int)('0' + lane)) != NULL; }

/* Whether some masked lane has one part twice, whatever the opcode. */
static bool text_itself(const LineText *t)
{
    for (unsigned i = 0; i < t->lanes; i++)
        if (lane_masked(t, i) && lane_itself(t, i))
            return true;
    return false;
}

static bool text_vset(const LineText *t) { return strcmp(t->name, "vset2") == 0 || strcmp(t->name, "vset4") == 0; }
static bool text_one(const LineText *t) { return strcmp(t->word[A], t->word[B]) == 0; }
static const char *one_or_two(bool one) { return one ? "one register" : "two registers"; }

/* Opcodes that have no masks and selectors of lanes, but may have one source twice. */
static const Word whole_ops[] = { W_VSET, W_SET, W_SETP, W_SELP, W_SLCT };
static const char *const before_places[2][5] = { { "guard", "d", "c", "fifth", "end" }, { "guard", "d", "a", "b", "c" } };

static void declare_strict_digits(unsigned lanes, unsigned one)
{
    for (unsigned lane = 0; lane < lanes; lane++)
        for (unsigned x = 0; x < 2 * lanes; x++)
            for (unsigned y = 0; y < 2 * lanes; y++) {
                if (x != y && !(one && x % lanes == y % lanes)) {
                    kind("read: vset%u lane %u, %u and %u, %s", lanes, lane, x, y, one_or_two(one));
                    continue;
                }
                kind("15 by one lane: vset%u lane %u, %u and %u, %s", lanes, lane, x, y, one_or_two(one));
                kind("read past: vset%u lane %u, %u and %u, %s", lanes, lane, x, y, one_or_two(one));
            }
}

/* `3 0` as digits, falling; `none` of none. */
static void lanes_text(unsigned set, char to[8])
{
    char *end = to;
    for (unsigned i = 4; i-- > 0;)
        if ((set >> i & 1) != 0)
            *end++ = (char)('0' + i);
    *end = '\0';
    if (set == 0)
        strcpy(to, "none");
}

static void declare_strict_lanes(unsigned lanes)
{
    for (unsigned one = 0; one < 2; one++) {
        declare_strict_digits(lanes, one);
        for (unsigned mask = 1; mask < 1u << lanes; mask++)
            for (unsigned set = 0; set < 1u << lanes; set++) {
                char masked[8], itself[8];
                lanes_text(mask, masked);
                lanes_text(set, itself);
                kind("lanes: vset%u mask %s, against themselves %s, %s", lanes, masked, itself, one_or_two(one));
            }
    }
    for (unsigned said = 0; said < 2; said++) {
        const char *answer = said ? "15" : "read";
        for (int a = W_U32; a <= W_S32; a++)
            for (int b = W_U32; b <= W_S32; b++)
                for (int cmp = W_EQ; cmp <= W_GE; cmp++)
                    for (unsigned add = 0; add < 2; add++)
                        kind("head: vset%u.%s.%s.%s%s %s", lanes, spelling[a], spelling[b], spelling[cmp], add ? ".add" : "", answer);
        for (unsigned way = 0; way < 27; way++)
            kind("written: vset%u %s, %s, %s: %s", lanes, hows[way % 3], hows[way / 3 % 3], hows[way / 9], answer);
        kind("guard: vset%u none: %s", lanes, answer);
        kind("guard: vset%u true: %s", lanes, answer);
        kind("guard: vset%u false: %s", lanes, answer);
        kind("also: vset%u d is a: %s", lanes, answer);
        kind("also: vset%u d is b: %s", lanes, answer);
        kind("also: vset%u c is a: %s", lanes, answer);
        kind("also: vset%u c is b: %s", lanes, answer);
    }
    for (unsigned n = 0; n < R_COUNT; n++)
        kind("register: vset%u %%r%u with itself", lanes, n);
    for (unsigned bit = 0; bit < 6; bit++)
        kind("nearly: vset%u numbers differ in bit %u", lanes, bit);
    kind("nearly: vset%u a's number begins b's", lanes);
    kind("nearly: vset%u b's number begins a's", lanes);
    kind("effect: vset%u d would have changed", lanes);
    kind("effect: vset%u guard false", lanes);
    kind("length: vset%u 15 in 160 bytes", lanes);
    kind("blanks: vset%u 15 with a tab", lanes);
}

static void declare_strict(Target target)
{
    kind("answer: done");
    kind("answer: skipped");
    for (int n = 1; n <= 7; n++)
        kind("answer: refused %d", n);
    kind("answer: refused %d", target < SM_30 ? 12 : 15);
    for (unsigned lanes = 2; lanes <= 4; lanes += 2) {
        for (int n = 1; n <= 4; n++)
            if (n != 3)
                kind("before 15: %d vset%u", n, lanes);
        for (int n = 5; n <= 6; n++)
            for (unsigned i = 0; i < 5; i++)
                kind("before 15: %d vset%u %s", n, lanes, before_places[n - 5][i]);
        kind("length: vset%u 1 in 161 bytes", lanes);
        if (target == SM_30)
            declare_strict_lanes(lanes);
        else
            for (unsigned way = 0; way < 8; way++)
                kind("12: vset%u %s, %s, %s", lanes, way & 1 ? "against itself" : "not so", one_or_two(way & 2), way & 4 ? "guard" : "no guard");
    }
    kind("before 15: 3 %s", "vset and others");
    for (int op = W_VSET2; op <= W_VMAX4; op++)
        for (unsigned one = 0; one < 2 && target == SM_30; one++)
            if (is_lane_arithmetic(op))
                kind("other: %s against itself, %s", spelling[op], one_or_two(one));
    for EACH(i, whole_ops)
        if (whole_ops[i] != W_VSET || target >= SM_20)
            kind("other: %s one source twice", spelling[whole_ops[i]]);
}

/* A line of vset2 or vset4 that is read, or 15, at sm_30. */
static void count_strict_lanes(const Machine *m, const Byte *p, size_t length, const LineText *t, bool fifteen)
{
    const char *answer = fifteen ? "15" : "read";
    unsigned mask = 0, itself = 0, by = 0;
    bool one = text_one(t);
    for (unsigned i = 0; i < t->lanes; i++) {
        mask |= (unsigned)lane_masked(t, i) << i;
        itself |= (unsigned)lane_itself(t, i) << i;
        by += lane_masked(t, i) && lane_itself(t, i);
    }
    char masked[8], against[8];
    lanes_text(mask, masked);
    lanes_text(itself, against);
    hit("lanes: vset%u mask %s, against themselves %s, %s", t->lanes, masked, against, one_or_two(one));
    for (unsigned i = 0; i < t->lanes; i++) {
        bool in_mask = (mask >> i & 1) != 0, is_itself = (itself >> i & 1) != 0;
        const char *group = fifteen ? (in_mask && is_itself && by == 1 ? "15 by one lane" : NULL)
                            : in_mask ? "read" : is_itself ? "read past" : NULL;
        if (group != NULL)
            hit("%s: vset%u lane %u, %c and %c, %s", group, t->lanes, i, digit_of(t, A, i), digit_of(t, B, i), one_or_two(one));
    }
    Text head = head_text(p);
    hit("head: %.*s %s", (int)head.length, (const char *)head.at, answer);
    hit("written: vset%u %s, %s, %s: %s", t->lanes, hows[t->how[0]], hows[t->how[1]], hows[t->how[2]], answer);
    static const char *const names[] = { "d is", "", "", "c is" };
    for (unsigned i = D; i <= C; i += C)
        for (unsigned j = A; j <= B && !one; j++)
            if (strcmp(t->word[i], t->word[j]) == 0)
                hit("also: vset%u %s %s: %s", t->lanes, names[i], j == A ? "a" : "b", answer);
    if (fifteen && one)
        hit("register: vset%u %s with itself", t->lanes, t->word[A]);
    if (!fifteen && !one) {
        LineText as_one = *t;
        strcpy(as_one.word[B], t->word[A]);
        unsigned a = (unsigned)atoi(t->word[A] + 2), b = (unsigned)atoi(t->word[B] + 2), differ = a ^ b;
        if (text_itself(&as_one)) {
            for (unsigned bit = 0; bit < 6; bit++)
                if (differ == 1u << bit)
                    hit("nearly: vset%u numbers differ in bit %u", t->lanes, bit);
            if (strncmp(t->word[A], t->word[B], strlen(t->word[A])) == 0)
                hit("nearly: vset%u a's number begins b's", t->lanes);
            if (strncmp(t->word[A], t->word[B], strlen(t->word[B])) == 0)
                hit("nearly: vset%u b's number begins a's", t->lanes);
        }
    }
    if (fifteen && length == LINE_MOST)
        hit("length: vset%u 15 in 160 bytes", t->lanes);
    if (fifteen && memchr(p, '\t', length) != NULL)
        hit("blanks: vset%u 15 with a tab", t->lanes);
    /* what the line would have done */
    Line line;
    Record rec;
    Machine after = *m;
    read_line(p, length, SM_30, ORDINARY, &line, &rec);
    bool taken = execute(&after, &rec, SM_30);
    hit("guard: vset%u %s: %s", t->lanes, !rec.guarded ? "none" : taken ? "true" : "false", answer);
    if (fifteen && !taken)
        hit("effect: vset%u guard false", t->lanes);
    if (fifteen && after.r[rec.d] != m->r[rec.d])
        hit("effect: vset%u d would have changed", t->lanes);
}

/* One of 1 to 6 where 15 would stand without it, as far as the text tells. */
static void count_before_15(const Byte *p, size_t length, LineText *t, Refusal refusal, size_t place)
{
    if (refusal == NO_OPCODE && t->operands == 4) {     /* the lanes by the letter of the selectors */
        char line[2 * LINE_MOST];
        snprintf(line, sizeof line, "vset%c %s, %s, %s, %s;\n", strpbrk(t->operand[A], "h") != NULL || strpbrk(t->operand[B], "h") != NULL ? '2' : '4',
                 t->operand[D], t->operand[A], t->operand[B], t->operand[C]);
        LineText as_vset = line_text((const Byte *)line);
        if (memcmp(t->name, "vset", 4) == 0 && text_itself(&as_vset))
            hit("before 15: 3 %s", "vset and others");
        return;
    }
    if (refusal == NO_SHAPE && t->name[0] == '\0' && t->operands == 0)
        return;
    if (!text_vset(t) || !text_itself(t) || refusal == SAME_PLACES)
        return;
    if (refusal == TOO_LONG && length == LINE_MOST + 1)
        hit("length: vset%u 1 in 161 bytes", t->lanes);
    if (refusal < BAD_OPERANDS) {
        hit("before 15: %d vset%u", refusal, t->lanes);
        return;
    }
    static const char *const names[] = { "d", "a", "b", "c", "fifth" };
    Text head = head_text(p);
    const char *where = p + place < head.at ? "guard" : "end";
    for (unsigned i = 0; i < t->operands; i++)
        if (t->at[i] == place)
            where = names[i];
    if (refusal == BAD_NUMBER || (strcmp(where, "a") != 0 && strcmp(where, "b") != 0))
        hit("before 15: %d vset%u %s", refusal, t->lanes, where);
}

/* Strict reading is ordinary reading but for 15, and 15 stands exactly where the text of the line says so. */
static void count_strict_line(const Machine *m, const Byte *p, size_t length, const Line *line, Refusal refusal, Target target)
{
    Line ordinary_line;
    Record ordinary_rec;
    Refusal ordinary = read_line(p, length, target, ORDINARY, &ordinary_line, &ordinary_rec);
    LineText t = line_text(p);
    bool fifteen = refusal == AGAINST_ITSELF;
    if (ordinary != (fifteen ? ACCEPTED : refusal) || (has_place(refusal) && ordinary_line.place != line->place))
        stop("strict reading differs by more than 15", target_names[target]);
    if ((ordinary == ACCEPTED && text_vset(&t) && text_itself(&t)) != fifteen)
        stop("15 is not by the definition", target_names[target]);
    if (ordinary == ACCEPTED && text_vset(&t))
        count_strict_lanes(m, p, length, &t, fifteen);
    if (ordinary == ACCEPTED && !text_vset(&t)) {
        Word op = word_of((const Byte *)t.name, strlen(t.name));
        if (is_lane_arithmetic(op) && text_itself(&t))
            hit("other: %s against itself, %s", t.name, one_or_two(text_one(&t)));
        for EACH(i, whole_ops)
            if (op == whole_ops[i] && strcmp(t.operand[A], t.operand[B]) == 0)
                hit("other: %s one source twice", t.name);
    }
    if (refusal != ACCEPTED)
        hit("answer: refused %d", refusal);
    if (refusal == TOO_OLD && text_vset(&t)) {
        const char *itself = text_itself(&t) ? "against itself" : "not so";
        hit("12: vset%u %s, %s, %s", t.lanes, itself, one_or_two(text_one(&t)), *skip_blanks(p) == '@' ? "guard" : "no guard");
    }
    if (refusal >= TOO_LONG && refusal <= SAME_PLACES)
        count_before_15(p, length, &t, refusal, line->place);
}

static void count_strict_listing(const char *name, Target target)
{
    Machine m;
    const Byte *p = input, *end = input + read_listing(name);
    start_machine(&m);
    while (p < end) {
        Line line;
        Record rec;
        const Byte *feed = memchr(p, '\n', (size_t)(end - p) + 1);
        Refusal refusal = read_line(p, (size_t)(feed - p), target, STRICT, &line, &rec);
        count_strict_line(&m, p, (size_t)(feed - p), &line, refusal, target);
        if (refusal == ACCEPTED)
            hit("answer: %s", execute(&m, &rec, target) ? "done" : "skipped");
        p = feed + 1;
    }
}

/* ---- the tally ---- */

static void read_tally(const char *name)
{
    char line[NAME_MOST + 32];
    FILE *file = fopen(name, "r");
    if (file == NULL)
        return;                 /* the first listing of a tally */
    while (fgets(line, sizeof line, file) != NULL) {
        char *rest;
        line[strcspn(line, "\n")] = '\0';
        unsigned long count = strtoul(line, &rest, 10);
        unsigned *slot = slot_of(rest + 1);
        if (*slot == 0)
            stop("not a kind", rest + 1);
        kinds[*slot - 1].count += count;
    }
    fclose(file);
}

static void write_tally(const char *name)
{
    FILE *file = fopen(name, "w");
    if (file == NULL)
        stop("cannot be written", name);
    for (unsigned i = 0; i < kind_count; i++)
        fprintf(file, "%lu %s\n", kinds[i].count, kinds[i].name);
    if (fclose(file) != 0)
        stop("cannot be written", name);
}

static size_t group_length(const Kind *k) { return (size_t)(strchr(k->name, ':') - k->name); }

static bool same_group(const Kind *x, const Kind *y)
{
    size_t length = group_length(x);
    return length == group_length(y) && memcmp(x->name, y->name, length) == 0;
}

/* One line for each group, then the kinds that never occurred. */
static unsigned report(void)
{
    unsigned never = 0;
    for (unsigned i = 0; i < kind_count; i++) {
        unsigned all = 0, seen = 0, before = 0;
        const Kind *rarest = &kinds[i];
        while (before < i && !same_group(&kinds[before], &kinds[i]))
            before++;
        if (before < i)
            continue;
        for (unsigned j = i; j < kind_count; j++)
            if (same_group(&kinds[i], &kinds[j])) {
                all++;
                seen += kinds[j].count > 0;
                if (kinds[j].count < rarest->count)
                    rarest = &kinds[j];
            }
        printf("%5u of %5u kinds of %.*s, rarest %lu times:%s\n", seen, all, (int)group_length(&kinds[i]), kinds[i].name,
               rarest->count, rarest->name + group_length(rarest) + 1);
        never += all - seen;
    }
    for (unsigned i = 0; i < kind_count; i++)
        if (kinds[i].count == 0)
            printf("never: %s\n", kinds[i].name);
    printf("%u of %u kinds never occurred\n", never, kind_count);
    return never;
}

int main(int argc, char **argv)
{
    Target at = TARGETS;
    bool strict = argc > 1 && strcmp(argv[1], "--strict") == 0;
    argc -= strict;
    argv += strict;
    if (argc > 2 && strcmp(argv[1], "--target") == 0) {
        if (!read_target(argv[2], &at))
            stop("no target", argv[2]);
        argc -= 2;
        argv += 2;
    }
    if (argc < 2 || (strict && at == TARGETS))
        stop("usage", "coverage [[--strict] --target NAME] TALLY [LISTING..]");
    fill_dictionary();
    if (strict) {
        declare_strict(at);
    } else if (at != TARGETS) {
        declare_target(at);
    } else {
        declare_lines();
        declare_heads();
        declare_operands();
        declare_values();
        declare_lane_arithmetic();
        declare_tiny_choices();
        declare_halves();
        declare_places();
    }
    read_tally(argv[1]);
    if (argc == 2)
        return report() > 0;
    for (int i = 2; i < argc; i++) {
        if (strict)
            count_strict_listing(argv[i], at);
        else
            count_listing(argv[i], at);
    }
    write_tally(argv[1]);
    return 0;
}
