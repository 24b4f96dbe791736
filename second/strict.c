/*
 * strict ROUND: prints lines for the comparison in strict reading (request T-09): vset2 and vset4 with chosen masks, digits and registers, and their neighbours.
 * The same round gives the same lines. They are for listings of SETUP_EVERY lines each, which begin with lines that make the bytes of some registers differ.
 *
 * Of each round: each two digits in each lane, under a mask of that lane, of all lanes and of the others; each mask with each set of lanes that are against themselves;
 * each head; each register with itself and with those that are nearly it; d and c that are a or b; defaults left out and written out; guards; lines that are refused with 1 to 6 before;
 * the other opcodes with one part twice; lines whose effect is shown at once; and lines by chance.
 *
 * Build:  cc -std=c11 -O2 -Wall -Wextra -Werror strict.c -o strict
 */
#include <stdarg.h>
#include <stdbool.h>
#include <stdint.h>
#include <stdio.h>
#include <stdlib.h>
#include <string.h>

#define COUNT(a) ((unsigned)(sizeof (a) / sizeof (a)[0]))

enum { SETUP_EVERY = 1000, TEXT_MOST = 64, WORDS = 64, BY_CHANCE = 400 };

static uint64_t state;

static unsigned below(unsigned n)
{
    uint64_t z = state += UINT64_C(0x9E3779B97F4A7C15);
    z = (z ^ (z >> 30)) * UINT64_C(0xBF58476D1CE4E5B9);
    z = (z ^ (z >> 27)) * UINT64_C(0x94D049BB133111EB);
    return (unsigned)((z ^ (z >> 31)) >> 32) % n;
}

static bool chance(unsigned one_in) { return below(one_in) == 0; }

/* Numbers to draw from where a call needs several: the order of arguments is the compiler's. */
enum { DRAWN = 8 };
static unsigned drawn[DRAWN];

static void draw(void)
{
    for (unsigned i = 0; i < DRAWN; i++)
        drawn[i] = below(64 * 24);
}

/* ---- lines ---- */

static unsigned printed;

static void put_setup(void)
{
    for (unsigned r = 0; r < 8; r++)
        for (unsigned part = 0; part < 2; part++) {
            draw();
            printf("vadd.u32.u32.u32 %%r%u.b%u, %%r%u.b0, %%r%u.b0, %%r%u;\n", r, 2 * part, 9 + drawn[0] % 50, drawn[1] % 50, r);
            printed++;
        }
    puts("setp.eq.u32 %p1|%p2, %r0, %r0;");
    printed++;
}

static void put(const char *format, ...)
{
    va_list list;
    if (printed % SETUP_EVERY == 0)
        put_setup();
    va_start(list, format);
    vprintf(format, list);
    va_end(list);
    putchar('\n');
    printed++;
}

/* A line of vset2 or vset4 in the making. */
typedef struct {
    unsigned lanes;
    unsigned mask;              /* bit i for lane i */
    unsigned x[4], y[4];        /* the digits of a and b, lane 0 first */
    unsigned d, a, b, c;
    bool spelled_out[3];        /* of the mask and of both selectors: a default is written */
    char guard[TEXT_MOST];
    char head[TEXT_MOST];
} Draft;

static unsigned full(const Draft *t) { return (1u << t->lanes) - 1; }

/* Whether the digits are two names of one part, or one: the registers are one or two. */
static bool is_one_part(unsigned lanes, bool one, unsigned x, unsigned y)
{
    return x == y || (one && (x + lanes == y || y + lanes == x));
}

static void draw_digits(Draft *t, unsigned lane, bool itself)
{
    do {
        t->x[lane] = below(2 * t->lanes);
        t->y[lane] = below(2 * t->lanes);
    } while (is_one_part(t->lanes, t->a == t->b, t->x[lane], t->y[lane]) != itself);
}

static const char *const cmps[] = { "eq", "ne", "lt", "le", "gt", "ge" };
static const char *const types[] = { "u32", "s32" };

static void set_head(Draft *t, unsigned number)
{
    snprintf(t->head, TEXT_MOST, "vset%u.%s.%s.%s%s", t->lanes, types[number % 2], types[number / 2 % 2], cmps[number / 4 % 6], number / 24 % 2 ? ".add" : "");
}

static const char *const guards[] = { "@%p1 ", "@!%p1 ", "@%p2 ", "@!%p2 ", "@!%p15 ", "@%p0 " };

/* Registers as asked for, a full mask, no lane against itself; the rest by chance. */
static Draft draft(unsigned lanes, bool one)
{
    Draft t = { .lanes = lanes };
    t.a = chance(2) ? below(8) : below(WORDS);
    t.b = one ? t.a : (t.a + 1 + (chance(2) ? below(8) : below(WORDS - 1))) % WORDS;
    t.d = 8 + below(WORDS - 8);
    t.c = below(WORDS);
    t.mask = full(&t);
    for (unsigned i = 0; i < lanes; i++)
        draw_digits(&t, i, false);
    for (unsigned i = 0; i < 3; i++)
        t.spelled_out[i] = chance(3);
    strcpy(t.guard, chance(6) ? guards[below(COUNT(guards))] : "");
    set_head(&t, below(48));
    return t;
}

static void mask_text(const Draft *t, char *to)
{
    *to = '\0';
    if (t->mask == full(t) && !t->spelled_out[0])
        return;
    to += sprintf(to, ".%c", t->lanes == 2 ? 'h' : 'b');
    for (unsigned i = t->lanes; i-- > 0;)
        if ((t->mask >> i & 1) != 0)
            to += sprintf(to, "%u", i);
}

static void selector_text(const Draft *t, const unsigned digit[4], unsigned first, bool spelled_out, char *to)
{
    bool is_default = true;
    for (unsigned i = 0; i < t->lanes; i++)
        if (digit[i] != first + i)
            is_default = false;
    *to = '\0';
    if (is_default && !spelled_out)
        return;
    to += sprintf(to, ".%c", t->lanes == 2 ? 'h' : 'b');
    for (unsigned i = t->lanes; i-- > 0;)
        to += sprintf(to, "%u", digit[i]);
}

static char operand[5][TEXT_MOST];
static unsigned operands;

static void make_operands(const Draft *t)
{
    char text[TEXT_MOST];
    operands = 4;
    mask_text(t, text);
    sprintf(operand[0], "%%r%u%s", t->d, text);
    selector_text(t, t->x, 0, t->spelled_out[1], text);
    sprintf(operand[1], "%%r%u%s", t->a, text);
    selector_text(t, t->y, t->lanes, t->spelled_out[2], text);
    sprintf(operand[2], "%%r%u%s", t->b, text);
    sprintf(operand[3], "%%r%u", t->c);
}

static char line[512];

/* The operands as they are now; blanks where they may stand, now and then. */
static void make_line(const Draft *t)
{
    bool blanks = chance(12);
    char *end = line + sprintf(line, "%s%s%s%s", blanks && chance(2) ? " \t" : "", t->guard, t->head, blanks ? "\t " : " ");
    for (unsigned i = 0; i < operands; i++)
        end += sprintf(end, "%s%s", i == 0 ? "" : !blanks ? ", " : chance(2) ? "," : " ,\t", operand[i]);
    strcpy(end, blanks && chance(2) ? " ; " : ";");
}

static void put_draft(const Draft *t)
{
    make_operands(t);
    make_line(t);
    put("%s", line);
}

/* ---- each two digits, each mask ---- */

static void put_two_digits(unsigned lanes, bool one, unsigned lane, unsigned x, unsigned y)
{
    for (unsigned under = 0; under < 3; under++) {
        Draft t = draft(lanes, one);
        t.mask = under == 0 ? 1u << lane : under == 1 ? full(&t) : full(&t) & ~(1u << lane);
        t.x[lane] = x;
        t.y[lane] = y;
        put_draft(&t);
    }
}

static void put_digits(void)
{
    for (unsigned lanes = 2; lanes <= 4; lanes += 2)
        for (unsigned lane = 0; lane < lanes; lane++)
            for (unsigned x = 0; x < 2 * lanes; x++)
                for (unsigned y = 0; y < 2 * lanes; y++) {
                    put_two_digits(lanes, false, lane, x, y);
                    put_two_digits(lanes, true, lane, x, y);
                }
}

static void put_masks(void)
{
    for (unsigned lanes = 2; lanes <= 4; lanes += 2)
        for (unsigned mask = 1; mask < 1u << lanes; mask++)
            for (unsigned itself = 0; itself < 1u << lanes; itself++)
                for (unsigned one = 0; one < 2; one++) {
                    Draft t = draft(lanes, one == 1);
                    t.mask = mask;
                    for (unsigned i = 0; i < lanes; i++)
                        draw_digits(&t, i, (itself >> i & 1) != 0);
                    put_draft(&t);
                }
}

/* ---- heads, guards, registers, what is written ---- */

static void put_heads(void)
{
    for (unsigned lanes = 2; lanes <= 4; lanes += 2)
        for (unsigned number = 0; number < 48; number++)
            for (unsigned itself = 0; itself < 2; itself++) {
                Draft t = draft(lanes, chance(2));
                set_head(&t, number);
                strcpy(t.guard, "");
                draw_digits(&t, below(lanes), itself == 1);
                put_draft(&t);
                t = draft(lanes, chance(2));
                strcpy(t.guard, guards[number % COUNT(guards)]);
                draw_digits(&t, below(lanes), itself == 1);
                put_draft(&t);
            }
}

/* The selectors left as their defaults, so that the registers alone decide. */
static void put_bare(unsigned lanes, unsigned a, unsigned b)
{
    Draft t = draft(lanes, false);
    t.a = a;
    t.b = b;
    for (unsigned i = 0; i < lanes; i++) {
        t.x[i] = i;
        t.y[i] = lanes + i;
    }
    put_draft(&t);
}

static void put_registers(void)
{
    for (unsigned lanes = 2; lanes <= 4; lanes += 2)
        for (unsigned n = 0; n < WORDS; n++) {
            put_bare(lanes, n, n);
            put_bare(lanes, n, n ^ 1u << below(6));
            if (n > 0 && n < 7) {               /* `%r1` and `%r17` begin alike */
                unsigned longer = 10 * n + below(n < 6 ? 10 : 4);
                put_bare(lanes, n, longer);
                put_bare(lanes, longer, n);
            }
        }
}

/* d and c are compared with nothing, whatever they are. */
static void put_others(void)
{
    for (unsigned lanes = 2; lanes <= 4; lanes += 2)
        for (unsigned way = 0; way < 16; way++) {
            Draft t = draft(lanes, false);
            if (way & 8)
                draw_digits(&t, below(lanes), true);
            if (way & 1)
                t.d = way & 4 ? t.b : t.a;
            if (way & 2)
                t.c = way & 4 ? t.b : t.a;
            put_draft(&t);
        }
}

/* Of mask and selectors each left out, written out as the default, or another. */
static void put_spelled(void)
{
    for (unsigned lanes = 2; lanes <= 4; lanes += 2)
        for (unsigned way = 0; way < 27; way++)
            for (unsigned itself = 0; itself < 2; itself++) {
                unsigned how[3] = { way % 3, way / 3 % 3, way / 9 };
                Draft t;
                bool found;
                do {
                    t = draft(lanes, chance(2));
                    t.mask = how[0] < 2 ? full(&t) : 1 + below(full(&t) - 1);
                    found = false;
                    bool defaults[2] = { true, true };
                    for (unsigned i = 0; i < lanes; i++) {
                        t.x[i] = how[1] < 2 ? i : below(2 * lanes);
                        t.y[i] = how[2] < 2 ? lanes + i : below(2 * lanes);
                        if ((t.mask >> i & 1) != 0 && is_one_part(lanes, t.a == t.b, t.x[i], t.y[i]))
                            found = true;
                        defaults[0] = defaults[0] && t.x[i] == i;
                        defaults[1] = defaults[1] && t.y[i] == lanes + i;
                    }
                    if ((how[1] == 2 && defaults[0]) || (how[2] == 2 && defaults[1]))
                        found = itself == 0;    /* draw again */
                } while (found != (itself == 1));
                for (unsigned i = 0; i < 3; i++)
                    t.spelled_out[i] = how[i] == 1;
                put_draft(&t);
            }
}

/* ---- refused before 15 is looked at ---- */

enum { BROKEN_WAYS = 33 };

static void put_broken(unsigned lanes, unsigned way)
{
    static const char *const names[] = { "vset3", "vset8", "vset24", "vset42", "vst4", "xvset2", "vsett" };
    static const char *const extra[] = { ".max", ".min", ".u32", ".sat", ".eq", ".strict" };
    Draft t = draft(lanes, chance(2));
    for (unsigned i = 0; i < lanes; i++)
        draw_digits(&t, i, i == 0 || chance(2));
    if (way >= 16 && way < 19)
        strcpy(t.guard, way == 16 ? "@%r1 " : way == 17 ? "@!%rs1 " : "@%rd0 ");
    make_operands(&t);
    size_t at;
    switch (way) {
    /* 1 */
    case 0: make_line(&t); put("%160s", line); put("%161s", line); return;
    case 1: make_line(&t); put("%-160s", line); put("%-161s", line); return;
    case 2: make_line(&t); put("%*s", 162 + (int)below(20), line); return;
    /* 2 */
    case 3: make_line(&t); line[strlen(line) - (line[strlen(line) - 1] == ' ' ? 2 : 1)] = '\0'; break;
    case 4: sprintf(operand[3], "%%r0%u", t.c); make_line(&t); break;
    case 5: strcat(operand[2], " %r1"); make_line(&t); break;
    case 6: make_line(&t); strcat(line, ";"); break;
    case 7: sprintf(operand[3], "%u", t.c); make_line(&t); break;
    case 8: make_line(&t); at = strlen(t.guard) + (line[0] == ' ' ? 2 : 0); line[at] = 'V'; break;
    /* 3 */
    case 9: memmove(t.head, t.head + 5, strlen(t.head + 5) + 1); sprintf(line, "%s%s", names[below(COUNT(names))], t.head); strcpy(t.head, line); make_line(&t); break;
    /* 4 */
    case 10: strcat(t.head, extra[below(COUNT(extra))]); make_line(&t); break;
    case 11: memmove(t.head + 5, t.head + 9, strlen(t.head + 9) + 1); make_line(&t); break;      /* one type too few */
    case 12: memcpy(t.head + 6, "u16", 3); make_line(&t); break;
    case 13: memcpy(t.head + 10, "f32", 3); make_line(&t); break;
    case 14: memcpy(t.head + 14, "lo", 2); make_line(&t); break;
    case 15: t.head[13] = '\0'; make_line(&t); break;           /* no comparison */
    /* 5: the guard, above */
    case 16: case 17: case 18: make_line(&t); break;
    /* 5: d */
    case 19: sprintf(operand[0], "%%r%u.%s", t.d, lanes == 2 ? "h01" : "b012"); make_line(&t); break;
    case 20: sprintf(operand[0], "%%r%u.%s", t.d, lanes == 2 ? "b10" : "h10"); make_line(&t); break;
    case 21: sprintf(operand[0], "%%rd%u", t.d % 32); make_line(&t); break;
    /* 5: c, the end, a fifth */
    case 22: strcat(operand[3], ".b0"); make_line(&t); break;
    case 23: sprintf(operand[3], "%%p%u", t.c % 16); make_line(&t); break;
    case 24: operands = 3; make_line(&t); break;
    case 25: sprintf(operand[4], "%%r%u", t.c); operands = 5; make_line(&t); break;
    /* 6 */
    case 26: t.d = 64 + below(936); make_operands(&t); make_line(&t); break;
    case 27: t.c = 64 + below(936); make_operands(&t); make_line(&t); break;
    case 28: t.a = t.b = 64 + below(936); make_operands(&t); make_line(&t); break;
    case 29: case 30: case 31:                                   /* one of a and b: lane 0 has one digit twice */
        t.x[0] = t.y[0];
        t.mask |= 1;
        if (way != 30)
            t.a = 64;
        if (way != 29)
            t.b = way == 31 ? 65 : 64 + t.a;
        make_operands(&t);
        make_line(&t);
        break;
    default: strcpy(t.guard, "@%p16 "); make_line(&t); break;
    }
    put("%s", line);
}

/* ---- the other opcodes: a part twice is read ---- */

static void put_neighbours(void)
{
    static const char *const lane_ops[] = { "vadd", "vsub", "vavrg", "vabsdiff", "vmin", "vmax" };
    static const char *const parts[] = { "", ".b0", ".b1", ".b2", ".b3", ".h0", ".h1" };
    for (unsigned i = 0; i < COUNT(lane_ops); i++)
        for (unsigned lanes = 2; lanes <= 4; lanes += 2)
            for (unsigned one = 0; one < 2; one++) {
                Draft t = draft(lanes, one == 1);
                draw_digits(&t, below(lanes), true);
                draw();
                sprintf(t.head, "%s%u.%s.%s.%s%s%s", lane_ops[i], lanes, types[drawn[0] % 2], types[drawn[1] % 2], types[drawn[2] % 2],
                        drawn[3] % 3 == 0 ? ".sat" : "", drawn[4] % 3 == 0 ? ".add" : "");
                put_draft(&t);
            }
    for (unsigned i = 0; i < COUNT(parts); i++) {
        draw();
        unsigned a = drawn[0] % WORDS, d = 8 + drawn[1] % 56, c = drawn[2] % WORDS;
        const char *atype = types[drawn[3] % 2], *btype = types[drawn[4] % 2], *cmp = cmps[drawn[5] % 6];
        put("vset.%s.%s.%s %%r%u, %%r%u%s, %%r%u%s;", atype, btype, cmp, d, a, parts[i], a, parts[i]);
        put("vset.%s.%s.%s.add %%r%u, %%r%u%s, %%r%u%s, %%r%u;", atype, btype, cmp, d, a, parts[i], a, parts[i], c);
        put("vabsdiff.u32.u32.u32 %%r%u%s, %%r%u%s, %%r%u%s, %%r%u;", d, parts[i > 0 ? i : 1], a, parts[i], a, parts[i], c);
    }
    for (unsigned i = 0; i < COUNT(cmps); i++) {
        draw();
        unsigned a = drawn[0] % 32, d = 8 + drawn[1] % 56;
        put("set.%s.u32.s32 %%r%u, %%r%u, %%r%u;", cmps[i], d, a, a);
        put("setp.%s.u64 %%p%u|_, %%rd%u, %%rd%u;", cmps[i], 3 + drawn[2] % 12, a, a);
        put("setp.%s.u32 %%p3|%%p3, %%r%u, %%r%u;", cmps[i], a, a);
        put("selp.u16 %%rs%u, %%rs%u, %%rs%u, %%p1;", drawn[3] % 32, a, a);
        put("slct.u32.s32 %%r%u, %%r%u, %%r%u, %%r%u;", d, a, a, a);
    }
}

/* ---- what is refused writes nothing: shown by guards behind it ---- */

static void put_shown(void)
{
    for (unsigned lanes = 2; lanes <= 4; lanes += 2)
        for (unsigned itself = 0; itself < 2; itself++)
            for (unsigned i = 0; i < 12; i++) {
                Draft t = draft(lanes, chance(2));
                strcpy(t.guard, i % 4 == 3 ? "@%p2 " : "");
                t.d = 60;
                t.c = 0;
                set_head(&t, (i % 3 == 2 ? 24 : 0) + 4 * below(6));
                if (itself == 1)
                    draw_digits(&t, below(lanes), true);
                put("selp.b32 %%r60, %%r61, %%r61, %%p0;");
                put_draft(&t);
                put("setp.eq.u32 %%p4|%%p5, %%r60, %%r61;");
                put("@%%p4 selp.b32 %%r61, %%r61, %%r61, %%p0;");
                put("@%%p5 selp.b32 %%r61, %%r61, %%r61, %%p0;");
            }
}

/* ---- by chance: two registers of a few, digits that often agree ---- */

static void put_by_chance(void)
{
    for (unsigned i = 0; i < BY_CHANCE; i++) {
        unsigned lanes = 2 + 2 * below(2);
        Draft t = draft(lanes, chance(2));
        if (chance(2))
            t.mask = 1 + below(full(&t));
        for (unsigned k = 0; k < lanes; k++) {
            t.x[k] = below(2 * lanes);
            t.y[k] = below(2 * lanes);
        }
        put_draft(&t);
        if (chance(8)) {                        /* bytes of the sources that differ */
            draw();
            put("vadd.u32.u32.u32 %%r%u.b%u, %%r%u.b%u, %%r%u.b%u, %%r%u;", drawn[0] % 8, drawn[1] % 4, drawn[2] % WORDS, drawn[3] % 4, drawn[4] % WORDS, drawn[5] % 4, drawn[0] % 8);
        }
    }
}

int main(int argc, char **argv)
{
    char *end = NULL;
    unsigned long round = argc == 2 ? strtoul(argv[1], &end, 10) : 0;
    if (argc != 2 || end == argv[1] || *end != '\0') {
        fputs("usage: strict ROUND\n", stderr);
        return 2;
    }
    state = round * 1000003 + 9;
    put_digits();
    put_masks();
    put_heads();
    put_registers();
    put_others();
    put_spelled();
    for (unsigned lanes = 2; lanes <= 4; lanes += 2)
        for (unsigned way = 0; way < 3 * BROKEN_WAYS; way++)
            put_broken(lanes, way % BROKEN_WAYS);
    put_neighbours();
    put_shown();
    put_by_chance();
    return fflush(stdout) != 0 || ferror(stdout) != 0;
}
