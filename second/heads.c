/*
 * heads PART PARTS: prints a listing with every PARTS-th legal head from number PART on, for the comparison at each target (request T-07).
 * The same arguments give the same listing; it is the same for each target.
 *
 * Of each head: two lines and more that are executed where the target allows it, bare and under a guard that holds, each with lines behind it whose guard shows
 * what it wrote; one under a guard that does not hold; and one that is refused with 1 to 7, in turn, of a head with f64 and of selp and slct one with each.
 * Sources are registers that the listing brings 0, 1.0 and FFFFFFFF into and, where the target has scalar video, subnormals of either sign and -0.
 *
 * Build:  cc -std=c11 -O2 -Wall -Wextra -Werror heads.c -o heads
 */
#include <stdarg.h>
#include <stdbool.h>
#include <stdint.h>
#include <stdio.h>
#include <stdlib.h>
#include <string.h>

#define COUNT(a) ((unsigned)(sizeof (a) / sizeof (a)[0]))

static uint64_t state;

static unsigned below(unsigned n)
{
    uint64_t z = state += UINT64_C(0x9E3779B97F4A7C15);
    z = (z ^ (z >> 30)) * UINT64_C(0xBF58476D1CE4E5B9);
    z = (z ^ (z >> 27)) * UINT64_C(0x94D049BB133111EB);
    return (unsigned)((z ^ (z >> 31)) >> 32) % n;
}

/* Without OP2; with it; by lanes; the others by their opcode. */
typedef enum { SCALAR, COMBINED, LANES, SET, SETP, SELP, SLCT } Shape;

enum { OPERANDS_MOST = 4, TEXT_MOST = 80 };

static unsigned part, parts, number;        /* of the head */

static Shape shape;
static char head[TEXT_MOST];
static const char *type;                    /* of a and b */
static bool has_c;                          /* a BoolOp is there */
static char operand[OPERANDS_MOST][TEXT_MOST];
static unsigned operands;

/* ---- operands ---- */

static const char *file_of(const char *name)
{
    return strcmp(name + 1, "16") == 0 ? "%rs" : strcmp(name + 1, "64") == 0 ? "%rd" : "%r";
}

/* Sources in turn, so that each order of a and b comes by each comparison of each type, and each comparison of singles is turned by flushing; choices are between different values. */
enum { TURNS = 8 };
typedef unsigned Pair[2];

static const Pair wholes[TURNS] = { { 0, 1 }, { 1, 0 }, { 2, 2 }, { 1, 2 }, { 2, 1 }, { 40, 40 }, { 40, 0 }, { 0, 40 } };
static const Pair singles[TURNS] = { { 43, 0 }, { 0, 43 }, { 45, 44 }, { 44, 45 }, { 45, 43 }, { 43, 45 }, { 40, 43 }, { 1, 1 } };
static const Pair others[TURNS] = { { 0, 1 }, { 1, 0 }, { 2, 2 }, { 1, 5 }, { 3, 0 }, { 4, 4 }, { 0, 2 }, { 5, 5 } };
static const Pair chosen_words[TURNS] = { { 1, 2 }, { 40, 41 }, { 41, 43 }, { 43, 45 }, { 45, 0 }, { 2, 40 }, { 0, 43 }, { 45, 1 } };
static const Pair chosen[TURNS] = { { 0, 1 }, { 2, 3 }, { 4, 0 }, { 5, 1 }, { 1, 2 }, { 3, 5 }, { 0, 4 }, { 5, 2 } };
static const unsigned c_of_slct[TURNS] = { 40, 0, 45, 1, 44, 43, 40, 45 };
static const unsigned words[] = { 0, 1, 2, 40, 41, 42, 43, 44, 45 };

static unsigned some_word(void) { return words[below(COUNT(words))]; }

static unsigned some_destination(const char *file)
{
    return strcmp(file, "%r") == 0 ? 46 + below(18) : 16 + below(16);
}

static void add_operand(const char *format, ...)
{
    va_list list;
    va_start(list, format);
    vsnprintf(operand[operands++], TEXT_MOST, format, list);
    va_end(list);
}

static void add_sources(const char *file, unsigned turn)
{
    bool word = strcmp(file, "%r") == 0;
    const unsigned *pair = (shape >= SELP ? (word ? chosen_words : chosen)
                            : !word ? others : strcmp(type, "f32") == 0 ? singles : wholes)[turn % TURNS];
    unsigned any[2] = { some_word(), some_word() };
    if (shape <= LANES)
        pair = any;
    add_operand("%s%u", file, pair[0]);
    add_operand("%s%u", file, pair[1]);
}

static void add_setp_places(void)
{
    unsigned p = 4 + below(12);
    unsigned q = 4 + (p - 4 + 1 + below(11)) % 12;
    switch (below(4)) {
    case 0:  add_operand("%%p%u", p); break;
    case 1:  add_operand("%%p%u|_", p); break;
    case 2:  add_operand("_|%%p%u", q); break;
    default: add_operand("%%p%u|%%p%u", p, q); break;
    }
}

static void draw_operands(unsigned turn)
{
    static const char *const parts_of_d[] = { "b0", "b1", "b2", "b3", "h0", "h1" };
    const char *file = file_of(type);
    bool merges = shape == SCALAR && below(2) == 0;
    operands = 0;
    if (shape == SETP)
        add_setp_places();
    else
        add_operand("%s%u%s%s", shape == SET ? "%r" : file, some_destination(shape == SET ? "%r" : file),
                    merges ? "." : "", merges ? parts_of_d[number % COUNT(parts_of_d)] : "");
    add_sources(file, turn);
    if (shape == SELP)
        add_operand("%%p%u", turn / 2 % 2);
    else if (shape == SLCT)
        add_operand("%%r%u", c_of_slct[turn % TURNS]);
    else if (shape == LANES || shape == COMBINED || merges)
        add_operand("%%r%u", some_word());
    else if (has_c)
        add_operand("%s%%p%u", number % 2 == 0 ? "!" : "", below(2));
}

/* ---- lines ---- */

static char line[OPERANDS_MOST * TEXT_MOST];

static void make_line(const char *guard)
{
    char *end = line + sprintf(line, "%s%s ", guard, head);
    for (unsigned i = 0; i < operands; i++)
        end += sprintf(end, "%s%s", i > 0 ? ", " : "", operand[i]);
    strcpy(end, ";");
}

static void put_line(const char *guard)
{
    make_line(guard);
    puts(line);
}

/* A line that changes nothing and shows by its answer what the predicate is. */
static void show(const char *predicate)
{
    printf("@%s selp.b32 %%r0, %%r0, %%r0, %%p0;\n", predicate);
}

static void show_result(void)
{
    char first[TEXT_MOST];
    strcpy(first, operand[0]);
    switch (shape) {
    case SETP: {
        char *second = strchr(first, '|');
        if (second != NULL)
            *second++ = '\0';
        if (first[0] != '_')
            show(first);
        if (second != NULL && second[0] != '_')
            show(second);
        return;
    }
    case SET:
        printf("setp.%s %%p2, %s, %%r0;\n", number % 2 == 0 ? "ne.b32" : "lt.s32", first);
        break;
    case SELP: case SLCT:
        printf("setp.eq.b%s %%p2, %s, %s;\n", type + 1, first, operand[1]);
        break;
    default:
        first[strcspn(first, ".")] = '\0';
        printf("setp.lt.u32 %%p2, %s, %%r20;\n", first);
        break;
    }
    show("%p2");
}

/* One that is refused with this number, whatever the target; 7 of setp alone. */
static void put_refused(unsigned refusal)
{
    char kept_head[TEXT_MOST], kept[TEXT_MOST];
    const char *guard = below(3) == 0 ? "@!%p1 " : "";
    draw_operands(number);
    strcpy(kept_head, head);
    strcpy(kept, operand[0]);
    switch (refusal) {
    case 1:
        make_line(guard);
        printf(below(2) == 0 ? "%161s\n" : "%-161s\n", line);
        return;
    case 2:
        make_line(guard);
        printf("%.*s\n", (int)strlen(line) - 1, line);
        return;
    case 3:
        snprintf(head, TEXT_MOST, "%.*sx%s", (int)strcspn(kept_head, "."), kept_head, strchr(kept_head, '.'));
        break;
    case 4:
        strcat(head, ".u64");
        break;
    case 5:
        if (below(2) == 0)
            operands--;
        else
            snprintf(operand[0], TEXT_MOST, "!%.8s", kept);
        break;
    case 6:
        strcpy(operand[1], strcmp(file_of(type), "%r") == 0 ? "%r64" : strcmp(file_of(type), "%rd") == 0 ? "%rd32" : "%rs999");
        break;
    default:
        strcpy(operand[0], "%p5|%p5");
        break;
    }
    put_line(guard);
    strcpy(head, kept_head);
}

/* How many lines of the head are executed: all turns where few heads share them. */
static unsigned executions(void)
{
    switch (shape) {
    case SELP: case SLCT: return TURNS;
    case SETP:            return type[0] == 'f' ? TURNS : 3;
    case SET:             return type[0] == 'f' ? 3 : 2;
    default:              return 2;
    }
}

/* The next head; its lines, if it is of this part. */
static void put_head(Shape of, const char *typed, bool with_c, const char *format, ...)
{
    va_list list;
    if (number++ % parts != part)
        return;
    va_start(list, format);
    vsnprintf(head, TEXT_MOST, format, list);
    va_end(list);
    shape = of;
    type = typed;
    has_c = with_c;
    for (unsigned i = 0; i < executions(); i++) {
        draw_operands(3 * number + i);
        put_line(i % 2 == 0 ? "" : below(2) == 0 ? "@%p1 " : "@!%p0 ");
        show_result();
    }
    draw_operands(number);
    put_line(below(2) == 0 ? "@%p0 " : "@!%p1 ");
    bool each = strcmp(type, "f64") == 0 || shape == SELP || shape == SLCT;
    for (unsigned refusal = 1; refusal <= 6; refusal++)
        if (each || refusal == number / parts % 6 + 1)
            put_refused(refusal);
    if (shape == SETP && (each || number / parts % 6 == 0))
        put_refused(7);
}

/* ---- heads, by document 01 and requests T-01 and T-06 ---- */

static const char *const op2s[] = { "", ".add", ".min", ".max" };
static const char *const bool_ops[] = { "", ".and", ".or", ".xor" };
static const char *const video_types[] = { "u32", "s32" };
static const char *const cmps[] = { "eq", "ne", "lt", "le", "gt", "ge", "lo", "ls", "hi", "hs", "equ", "neu", "ltu", "leu", "gtu", "geu", "num", "nan" };
static const char *const types[] = { "b16", "b32", "b64", "u16", "u32", "u64", "s16", "s32", "s64", "f32", "f64" };

enum { CMP6 = 6, UNSIGNED = 10 };

static bool compares(unsigned cmp, const char *typed)
{
    switch (typed[0]) {
    case 'b': return cmp < 2;
    case 's': return cmp < CMP6;
    case 'u': return cmp < UNSIGNED;
    default:  return cmp < CMP6 || cmp >= UNSIGNED;
    }
}

static void put_video(void)
{
    static const char *const scalar[] = { "vadd", "vsub", "vabsdiff", "vmin", "vmax" };
    static const char *const lanes[] = { "vadd", "vsub", "vavrg", "vabsdiff", "vmin", "vmax" };
    for (unsigned types_of = 0; types_of < 8; types_of++) {
        const char *d = video_types[types_of & 1], *a = video_types[types_of >> 1 & 1], *b = video_types[types_of >> 2];
        for (unsigned sat = 0; sat < 2; sat++) {
            for (unsigned op = 0; op < COUNT(scalar); op++)
                for (unsigned i = 0; i < COUNT(op2s); i++)
                    put_head(i == 0 ? SCALAR : COMBINED, "u32", false, "%s.%s.%s.%s%s%s", scalar[op], d, a, b, sat ? ".sat" : "", op2s[i]);
            for (unsigned op = 0; op < 2 * COUNT(lanes); op++)
                for (unsigned i = 0; i < 2; i++)
                    put_head(LANES, "u32", false, "%s%u.%s.%s.%s%s%s", lanes[op / 2], op % 2 == 0 ? 2 : 4, d, a, b, sat ? ".sat" : "", op2s[i]);
        }
    }
    for (unsigned at = 0; at < 4 * CMP6; at++) {
        const char *a = video_types[at & 1], *b = video_types[at >> 1 & 1], *cmp = cmps[at / 4];
        for (unsigned i = 0; i < COUNT(op2s); i++)
            put_head(i == 0 ? SCALAR : COMBINED, "u32", false, "vset.%s.%s.%s%s", a, b, cmp, op2s[i]);
        for (unsigned i = 0; i < 4; i++)
            put_head(LANES, "u32", false, "vset%u.%s.%s.%s%s", i < 2 ? 2 : 4, a, b, cmp, op2s[i % 2]);
    }
}

static void put_comparisons(const char *typed, const char *ftz)
{
    static const char *const dtypes[] = { "u32", "s32", "f32" };
    for (unsigned cmp = 0; cmp < COUNT(cmps); cmp++)
        for (unsigned op = 0; op < COUNT(bool_ops) && compares(cmp, typed); op++) {
            for (unsigned d = 0; d < COUNT(dtypes); d++)
                put_head(SET, typed, op > 0, "set.%s%s%s.%s.%s", cmps[cmp], bool_ops[op], ftz, dtypes[d], typed);
            put_head(SETP, typed, op > 0, "setp.%s%s%s.%s", cmps[cmp], bool_ops[op], ftz, typed);
        }
}

static void put_others(void)
{
    for (unsigned i = 0; i < COUNT(types); i++) {
        put_comparisons(types[i], "");
        put_head(SELP, types[i], false, "selp.%s", types[i]);
        put_head(SLCT, types[i], false, "slct.%s.s32", types[i]);
        put_head(SLCT, types[i], false, "slct.%s.f32", types[i]);
        put_head(SLCT, types[i], false, "slct.ftz.%s.f32", types[i]);
    }
    put_comparisons("f32", ".ftz");
}

int main(int argc, char **argv)
{
    /* %r40 is FFFFFFFF, %r41 1.0, %r42 0; with scalar video %r43 is 1, %r44 80000000, %r45 80000001; %p1 is 1, %p0 stays 0 */
    static const char *const start[] = {
        "set.eq.u32.u32 %r40, %r1, %r1;", "set.eq.f32.u32 %r41, %r1, %r1;", "set.ne.u32.u32 %r42, %r1, %r1;", "setp.eq.u32 %p1, %r1, %r1;",
        "vadd.u32.u32.u32 %r43.b0, %r1.b0, %r0.b0, %r0;", "vadd.u32.u32.u32 %r44.b3, %r32.b0, %r32.b0, %r0;",
        "vadd.u32.u32.u32 %r44, %r44, %r44;", "vadd.u32.u32.u32 %r45.b0, %r1.b0, %r0.b0, %r44;"
    };
    if (argc != 3) {
        fputs("usage: heads PART PARTS\n", stderr);
        return 2;
    }
    part = (unsigned)strtoul(argv[1], NULL, 10);
    parts = (unsigned)strtoul(argv[2], NULL, 10);
    if (part >= parts)
        return 2;
    state = part * UINT64_C(0xD1342543DE82EF95) + 1;
    for (unsigned i = 0; i < COUNT(start); i++)
        puts(start[i]);
    put_video();
    put_others();
    return fflush(stdout) == 0 && !ferror(stdout) ? 0 : 1;
}
