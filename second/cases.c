/*
 * cases: prints the data of crates/samples/stdin, as SAMPLES.md lays it down.
 *
 *   cases           the data
 *   cases --count   the data, and on standard error how much of it there is
 *
 * It knows which records and runs are worth a look, not what comes of them.
 */
#include <inttypes.h>
#include <stdarg.h>
#include <stdbool.h>
#include <stdio.h>
#include <string.h>

#define COUNT(array) ((unsigned)(sizeof(array) / sizeof(array)[0]))

enum { TYPES = 8, /* and those of 16 bits */ B16 = 8, U16, S16, ALL_TYPES, CMPS = 18, CMP6 = 6, OPS = 6, FORMS = 10, B32 = 0, F32 = 6, VALUES = 18 };

/* Zeros, subnormals, least normals, ones, the greatest finite, infinities, NaNs; also least and greatest wholes. */
static const uint64_t WORDS[VALUES] = {
    0x00000000, 0x80000000, 0x00000001, 0x80000001, 0x007FFFFF, 0x807FFFFF,
    0x00800000, 0x80800000, 0x3F800000, 0xBF800000, 0x7F7FFFFF, 0x7F800000,
    0xFF800000, 0x7FC00000, 0x7F800001, 0xFF800001, 0x7FFFFFFF, 0xFFFFFFFF
};
static const uint64_t DOUBLES[VALUES] = {
    0x0000000000000000, 0x8000000000000000, 0x0000000000000001,
    0x8000000000000001, 0x000FFFFFFFFFFFFF, 0x800FFFFFFFFFFFFF,
    0x0010000000000000, 0x8010000000000000, 0x3FF0000000000000,
    0xBFF0000000000000, 0x7FEFFFFFFFFFFFFF, 0x7FF0000000000000,
    0xFFF0000000000000, 0x7FF8000000000000, 0x7FF0000000000001,
    0xFFF0000000000001, 0x7FFFFFFFFFFFFFFF, 0xFFFFFFFFFFFFFFFF
};
static const uint64_t BITS[] = { 0, 1 };

/* ---- lines of data ---- */

enum { LEGALITY, WRITTEN, EXECUTED, SECTIONS };

static unsigned section;                    /* what the records are printed for */
static unsigned long records[SECTIONS];
static unsigned long runs;
static unsigned value_count;                /* of the last line V */
static unsigned turn;                       /* counts the records; choices go in turn with it */

/* A record is begun, has tails, and ends. */
static void begin(const char *format, ...)
{
    va_list list;
    va_start(list, format);
    fputs("R ", stdout);
    vprintf(format, list);
    va_end(list);
}

static void end(void)
{
    putchar('\n');
    records[section]++;
    turn++;
}

static void values(const uint64_t *value, unsigned count)
{
    putchar('V');
    for (unsigned i = 0; i < count; i++)
        printf(" %" PRIX64, value[i]);
    putchar('\n');
    value_count = count;
}

static bool every_target;                   /* runs are done at each target (request T-07), else at none that is named */

/* Runs of the last record; `open` registers among the tokens go through the values. */
static void run(unsigned open, const char *format, ...)
{
    static const char *const targets[] = { "T10", "T13", "T20", "T30" };
    for (unsigned i = 0; i < (every_target ? COUNT(targets) : 1); i++) {
        va_list list;
        va_start(list, format);
        putchar('X');
        if (every_target)
            printf(" %s", targets[i]);
        if (*format != '\0')
            putchar(' ');
        vprintf(format, list);
        va_end(list);
        putchar('\n');
        runs += open == 0 ? 1 : open == 1 ? value_count : value_count * value_count;
    }
}

/* A record that is looked at for its legality or its line is also executed on the start values. */
static void end_and_run(void)
{
    end();
    run(0, "");
}

/* ---- fields in turn ---- */

static unsigned word(unsigned k)
{
    static const unsigned number[] = { 0, 9, 10, 63, 5, 32, 47 };
    return number[(3 * turn + k) % COUNT(number)];
}

static unsigned wide_number(unsigned k)
{
    static const unsigned number[] = { 0, 9, 10, 31, 4, 16, 23 };
    return number[(3 * turn + k) % COUNT(number)];
}

static unsigned predicate(unsigned k)
{
    static const unsigned number[] = { 0, 9, 10, 15, 3 };
    return number[(turn + k) % COUNT(number)];
}

static bool is_half(unsigned type) { return type >= B16; }
static bool is_wide(unsigned type) { return !is_half(type) && type % 2 == 1; }

/* The number of the type's file, and its letter. */
static unsigned file_of(unsigned type) { return is_half(type) ? 2 : is_wide(type); }
static char letter_of(unsigned type) { return "rdh"[file_of(type)]; }

/* A register of the type's file. */
static unsigned of_type(unsigned type, unsigned k) { return file_of(type) == 0 ? word(k) : wide_number(k); }

/* No guard, `@`, `@!`. */
static const char *guard(void)
{
    static char text[24];
    unsigned form = turn % 3;
    sprintf(text, "%u %u", form, form == 0 ? 0 : predicate(3));
    return text;
}

/* ---- tails of records ---- */

/* Form 0 to 5: into a part of d; 6: alone; 7 to 9: with OP2. */
static void scalar(unsigned types, unsigned form, const unsigned dcab[4], unsigned a_part, unsigned b_part)
{
    unsigned kind = form < 6 ? 1 : form == 6 ? 0 : 2;
    printf(" %u %u %u %u %u %u %u %u %u %u", types & 1, types >> 1 & 1, kind, dcab[0],
           kind == 1 ? form : kind == 2 ? form - 7 : 0, kind == 0 ? 0 : dcab[1],
           a_part, dcab[2], b_part, dcab[3]);
}

static void digits(const unsigned sel[4])
{
    for (unsigned i = 0; i < 4; i++)
        printf(" %u", sel[i]);
}

/* What stands in front of the lanes: of vset2 and vset4 cmp; of request T-01 op, dtype and sat. */
static const char *in_front(bool arithmetic, unsigned choice)
{
    static char text[24];
    if (arithmetic)
        sprintf(text, "7 %u %u %u", choice % OPS, choice / OPS % 2, choice / OPS / 2 % 2);
    else
        sprintf(text, "2 %u", choice % CMP6);
    return text;
}

/* Lane i takes part first + i * step of the parts of two registers; the forms with 2 have two lanes. */
static void rising(unsigned lanes, unsigned first, unsigned step)
{
    unsigned sel[4] = { 0 };
    for (unsigned i = 0; i < lanes; i++)
        sel[i] = (first + i * step) % (2 * lanes);
    digits(sel);
}

/* A BoolOp and whether c has `!`: 0 none, then and, or, xor, each without and with. */
enum { BOOLS = 7 };

static void boolean(unsigned choice, unsigned c)
{
    printf(" %u %u %u", (choice + 1) / 2, choice == 0 ? 0 : (choice + 1) % 2, choice == 0 ? 0 : c);
}

static void sources(unsigned ftz, unsigned type, unsigned a_file, unsigned a, unsigned b_file, unsigned b)
{
    printf(" %u %u %u %u %u %u", ftz, type, a_file, a, b_file, b);
}

/* Sources 0 and 1 of the type's file. */
static void usual_sources(unsigned ftz, unsigned type)
{
    sources(ftz, type, file_of(type), 0, file_of(type), 1);
}

/* CmpOp by stype. */
static bool compares(unsigned cmp, unsigned type)
{
    switch (is_half(type) ? type - B16 : type / 2) {
    case 0:  return cmp < 2;
    case 1:  return cmp < 10;
    case 2:  return cmp < 6;
    default: return cmp < 6 || cmp >= 10;
    }
}

/* ---- bases: a record of each shape, letters for its register numbers ---- */

typedef struct {
    const char *guard;
    const char *fields;
} Base;

static const Base BASES[] = {
    { "0 0", "0 1 0 0 0 0 0 d 0 0 6 a 6 b" },               /* vsub */
    { "0 0", "0 1 0 0 0 0 1 d 2 c 6 a 6 b" },               /* vsub into a part */
    { "0 0", "0 4 1 1 1 0 2 d 1 c 5 a 0 b" },               /* vmax with sat and OP2 */
    { "0 0", "1 2 0 0 2 d 0 c 6 a 6 b" },                   /* vset with OP2 */
    { "0 0", "2 5 0 0 0 0 d 1 a 1 0 0 0 b 2 3 0 0 c" },     /* vset2 */
    { "0 0", "2 5 1 0 0 1 d 7 a 0 1 2 3 b 4 5 6 7 c" },     /* vset4 with add */
    { "0 0", "3 0 d 2 1 0 c 0 2 0 a 0 b" },                 /* set */
    { "0 0", "3 2 d 2 2 1 c 0 7 1 a 1 b" },                 /* set on doubles */
    { "0 0", "4 0 d 0 2 2 0 c 1 6 0 a 0 b" },               /* setp */
    { "0 0", "4 2 d 0 3 3 1 c 0 5 1 a 1 b" },               /* setp on doubles */
    { "0 0", "5 2 0 d 0 a 0 b c" },                         /* selp */
    { "2 4", "5 3 1 d 1 a 1 b c" },                         /* selp on doubles, guarded */
    { "0 0", "6 0 2 0 d 0 a 0 b c" },                       /* slct */
    { "0 0", "6 2 7 1 d 1 a 1 b c" },                       /* slct on doubles */
    { "0 0", "7 1 1 1 0 1 0 0 d 2 a 0 3 0 0 b 2 1 0 0 c" }, /* vsub2 with sat */
    { "0 0", "7 3 0 0 1 0 1 1 d 11 a 0 1 2 3 b 4 5 6 7 c" },    /* vabsdiff4 with add */
    { "2 4", "7 2 1 0 1 1 1 0 d 15 a 7 0 5 2 b 4 4 1 3 c" },    /* vavrg4, guarded */
    { "0 0", "3 0 d 2 1 0 c 0 9 2 a 2 b" },                 /* set on halves */
    { "0 0", "4 2 d 0 3 3 1 c 0 10 2 a 2 b" },              /* setp on halves */
    { "2 4", "5 8 2 d 2 a 2 b c" },                         /* selp on halves, guarded */
    { "0 0", "6 0 10 2 d 2 a 2 b c" },                      /* slct on halves */
    { "0 0", "6 2 9 2 d 2 a 2 b c" },                       /* slct on halves with ftz */
    { "0 0", "1 2 0 0 0 d 0 0 6 a 6 b" },                   /* vset alone */
    { "0 0", "3 0 d 0 0 0 0 0 6 0 a 0 b" },                 /* set on singles */
    { "0 0", "4 1 d 14 0 0 0 0 0 7 1 a 1 b" },              /* setp on doubles as numbers, with two places */
    { "0 0", "5 6 0 d 0 a 0 b c" },                         /* selp of singles */
    { "0 0", "5 7 1 d 1 a 1 b c" },                         /* selp of doubles as numbers */
    { "0 0", "6 1 6 0 d 0 a 0 b c" },                       /* slct by a single */
    { "2 4", "6 0 7 1 d 1 a 1 b c" },                       /* slct of doubles as numbers by a whole, guarded */
    { "0 0", "7 2 0 0 0 0 0 0 d 3 a 0 1 0 0 b 2 3 0 0 c" }, /* vavrg2 */
};

enum { OLDER_BASES = 14, LANE_BASES = 17, HALF_BASES = 22 };    /* those from there on are of request T-01, T-06, T-07 */

/* The base with its letters d, a, b, c changed to numbers. */
static void base(const char *guarded, const Base *of, const unsigned dabc[4])
{
    static const char letters[] = "dabc";
    begin("%s ", guarded);
    for (const char *p = of->fields; *p != '\0'; p++) {
        const char *letter = strchr(letters, *p);
        if (letter != NULL)
            printf("%u", dabc[letter - letters]);
        else
            putchar(*p);
    }
    end();
}

/* ---- legality ---- */

/* set and setp, without and with ftz, by type and comparison */
static void legality_of_comparisons(unsigned from, unsigned to)
{
    for (unsigned setp = 0; setp < 2; setp++)
        for (unsigned ftz = 0; ftz < 2; ftz++)
            for (unsigned type = from; type < to; type++)
                for (unsigned cmp = 0; cmp < CMPS; cmp++) {
                    begin(setp ? "0 0 4 0 1 0 %u" : "0 0 3 0 3 %u", cmp);
                    boolean(0, 0);
                    usual_sources(ftz, type);
                    end_and_run();
                }
}

/* a and b of set and setp from either file, by type, without and with BoolOp */
static void files_of_comparisons(void)
{
    for (unsigned setp = 0; setp < 2; setp++)
        for (unsigned type = 0; type < TYPES; type++)
            for (unsigned files = 0; files < 4; files++)
                for (unsigned choice = 0; choice < 2; choice++) {
                    begin(setp ? "0 0 4 1 1 4 0" : "0 0 3 0 3 0");
                    boolean(choice, 2);
                    sources(0, type, files & 1, 0, files >> 1, 1);
                    end_and_run();
                }
}

/* d, a and b of selp and slct from either file, by type */
static void files_of_choices(void)
{
    for (unsigned slct = 0; slct < 2; slct++)
        for (unsigned type = 0; type < TYPES; type++)
            for (unsigned files = 0; files < 8; files++) {
                begin(slct ? "0 0 6 1 %u" : "0 0 5 %u", type);
                printf(" %u 3 %u 0 %u 1 2", files & 1, files >> 1 & 1, files >> 2);
                end_and_run();
            }
}

/* every mask, lanes that a form with 2 has not among them */
static void masks(bool arithmetic, unsigned choice)
{
    for (unsigned wide = 0; wide < 2; wide++)
        for (unsigned mask = 0; mask < 16; mask++) {
            unsigned lanes = wide ? 4 : 2;
            begin("0 0 %s %u 0 0 0 3 %u 0", in_front(arithmetic, choice), wide, mask);
            rising(lanes, 0, 1);
            fputs(" 1", stdout);
            rising(lanes, lanes, 1);
            fputs(" 2", stdout);
            end_and_run();
        }
}

/* a digit of a selector, in each lane of a or of b; the other operand has its default */
static void lane_digit(bool arithmetic, unsigned wide, bool on_b, unsigned lane, unsigned digit)
{
    unsigned lanes = wide ? 4 : 2;
    unsigned sel[4] = { 0 };
    sel[lane] = digit;
    begin("0 0 %s %u 0 1 0 3 %u 0", in_front(arithmetic, arithmetic ? turn : 3), wide, wide ? 15 : 3);
    if (on_b)
        rising(lanes, 0, 1);
    else
        digits(sel);
    fputs(" 1", stdout);
    if (on_b)
        digits(sel);
    else
        rising(lanes, lanes, 1);
    fputs(" 2", stdout);
    end_and_run();
}

static void lane_digits(bool arithmetic)
{
    static const unsigned great[] = { 10, 255 };
    for (unsigned at = 0; at < 2 * 2 * 4; at++) {
        for (unsigned digit = 0; digit < 10; digit++)
            lane_digit(arithmetic, at / 8, at / 4 % 2, at % 4, digit);
        for (unsigned i = 0; i < COUNT(great); i++)
            lane_digit(arithmetic, at / 8, at / 4 % 2, at % 4, great[i]);
    }
}

/* register numbers at each operand of each base from `from` to before `to`, and at its guard */
static void numbers(unsigned from, unsigned to)
{
    static const unsigned number[] = { 0, 15, 16, 31, 32, 63, 64, 100, 999 };
    for (unsigned of = from; of < to; of++)
        for (unsigned role = 0; role < 5; role++)
            for (unsigned i = 0; i < COUNT(number); i++) {
                unsigned dabc[4] = { 3, 5, 1, 2 };
                char guarded[24];
                if (role < 4 && strchr(BASES[of].fields, "dabc"[role]) == NULL)
                    continue;
                if (role < 4)
                    dabc[role] = number[i];
                sprintf(guarded, "%u %u", 1 + i % 2, number[i]);
                base(role < 4 ? BASES[of].guard : guarded, &BASES[of], dabc);
                run(0, "");
            }
}

/* destinations of setp: %p|%q, and the other three beside c */
static void places(void)
{
    for (unsigned form = 0; form < 4; form++)
        for (unsigned one = 13; one <= 17; one++)
            for (unsigned other = 13; other <= 17; other++) {
                begin("0 0 4 %u %u %u 2", form, form == 3 ? 0 : one, form == 1 ? other : form == 3 ? one : 0);
                boolean(2, form == 1 ? 2 : other);
                usual_sources(0, B32 + 2);
                end_and_run();
            }
}

/* two faults at a time, and faults that only look like some */
static void mixed(void)
{
    static const char *const fields[] = {
        "1 16 5 2 0 64 0 0 0 1 2",                  /* guard and d */
        "0 0 4 1 16 16 0 0 0 0 0 2 0 0 0 1",        /* one predicate twice, and over its file */
        "0 0 4 1 0 0 0 0 0 0 0 2 0 0 0 1",          /* %p0 twice */
        "0 0 4 1 5 5 2 3 1 5 0 5 1 0 1 1",          /* c as well */
        "0 0 4 2 0 0 0 0 0 0 0 2 0 0 0 1",          /* %p0|_ is no pair of one predicate */
        "0 0 4 3 0 0 0 0 0 0 0 2 0 0 0 1",          /* _|%p0 neither */
        "0 0 3 0 3 2 0 0 0 1 0 0 0 0 1",            /* lt and ftz on b32 */
        "0 0 3 0 3 0 0 0 0 1 7 1 0 1 1",            /* ftz on f64 */
        "0 0 2 0 0 0 0 0 3 3 0 0 1 2 3 1 2 3 0 0 2",        /* vset2 with the digits of vset4 on a */
        "0 0 2 0 0 0 0 0 3 15 0 0 1 2 3 1 4 5 6 7 2",       /* vset4's default record as vset2 */
        "0 0 2 0 1 0 0 0 3 3 0 0 1 0 0 1 2 3 0 0 2",        /* vset2's default record as vset4 */
        "0 0 5 3 1 32 1 0 1 1 16",                  /* %rd32 and %p16 */
        "0 0 5 3 1 31 1 31 1 31 15",                /* the last of each file */
    };
    for (unsigned i = 0; i < COUNT(fields); i++) {
        begin("%s", fields[i]);
        end_and_run();
    }
}

/* ---- written records ---- */

/* scalar arithmetic by opcode and form, twice; types, sat and selectors in turn */
static void written_scalars(void)
{
    for (unsigned at = 0; at < 2 * 5 * FORMS; at++) {
        const unsigned dcab[4] = { word(0), word(1), word(2), word(3) };
        begin("%s 0 %u %u %u", guard(), at / FORMS % 5, turn & 1, turn >> 3 & 1);
        scalar(turn >> 1, at % FORMS, dcab, turn % 7, turn / 3 % 7);
        end_and_run();
    }
}

/* vset by comparison and form */
static void written_vsets(void)
{
    for (unsigned at = 0; at < CMP6 * FORMS; at++) {
        const unsigned dcab[4] = { word(0), word(1), word(2), word(3) };
        begin("%s 1 %u", guard(), at / FORMS);
        scalar(turn, at % FORMS, dcab, turn % 7, turn / 3 % 7);
        end_and_run();
    }
}

/* default of a, default of b, falling digits */
static void selector_choice(unsigned lanes, unsigned choice)
{
    if (choice < 2)
        rising(lanes, choice * lanes, 1);
    else
        rising(lanes, turn, 2 * lanes - 1);
}

/* forms with 2 and 4 by mask and by selectors of a and b */
static void written_lanes(bool arithmetic)
{
    for (unsigned wide = 0; wide < 2; wide++) {
        unsigned lanes = wide ? 4 : 2;
        for (unsigned mask = 1; mask < 1u << lanes; mask++)
            for (unsigned choice = 0; choice < 9; choice++) {
                begin("%s %s %u %u %u %u %u %u %u", guard(), in_front(arithmetic, turn), wide, turn / 2 % 2,
                      turn / 4 % 2, turn / 5 % 2, word(0), mask, word(1));
                selector_choice(lanes, choice % 3);
                printf(" %u", word(2));
                selector_choice(lanes, choice / 3);
                printf(" %u", word(3));
                end_and_run();
            }
    }
}

/* set or setp of a type by comparison, legal or not; BoolOp and places in turn */
static void written_comparisons_of(bool setp, unsigned ftz, unsigned type)
{
    for (unsigned cmp = 0; cmp < CMPS; cmp++) {
        unsigned form = turn % 4;
        if (setp)
            begin("%s 4 %u %u %u %u", guard(), form, form == 3 ? 0 : predicate(0),
                  form % 2 == 1 ? predicate(1) : 0, cmp);
        else
            begin("%s 3 %u %u %u", guard(), turn / 3 % 3, word(0), cmp);
        boolean(turn % BOOLS, predicate(2));
        sources(ftz, type, file_of(type), of_type(type, 1), file_of(type), of_type(type, 2));
        end_and_run();
    }
}

/* by type, f32 also with ftz */
static void written_comparisons(bool setp)
{
    for (unsigned type = 0; type < TYPES; type++)
        written_comparisons_of(setp, 0, type);
    written_comparisons_of(setp, 1, F32);
}

static void written_choice(unsigned type, unsigned c)
{
    unsigned file = file_of(type);
    printf(" %u %u %u %u %u %u %u %u", type, file, of_type(type, 0), file, of_type(type, 1),
           file, of_type(type, 2), c);
    end_and_run();
}

/* selp by type, twice; slct by type and type of c */
static void written_choices(unsigned from, unsigned to)
{
    unsigned types = to - from;
    for (unsigned at = 0; at < 2 * types; at++) {
        begin("%s 5", guard());
        written_choice(from + at % types, predicate(0));
    }
    for (unsigned at = 0; at < 3 * types; at++) {
        begin("%s 6 %u", guard(), at / types);
        written_choice(from + at % types, word(3));
    }
}

/* the longest line of document 01: 68 bytes */
static void longest(void)
{
    begin("2 15 2 5 1 1 0 1 63 14 62 7 7 7 7 61 0 0 0 0 60");
    end_and_run();
}

/* ---- runs ---- */

/* the figures of document 01 */
static void figures(void)
{
    static const char *const figure[][2] = {
        { "2 2 1 1 0 0 3 15 0 0 1 2 3 1 4 5 6 7 2", "r0=80FF0001 r1=2 r2=0" },         /* vset4.s32.u32.lt */
        { "2 2 1 1 0 0 3 5 0 0 1 2 3 1 4 5 6 7 2", "r0=80FF0001 r1=2 r2=AABBCCDD" },   /* mask .b20 */
        { "2 2 1 1 0 1 3 15 0 0 1 2 3 1 4 5 6 7 2", "r0=80FF0001 r1=2 r2=FFFFFFFF" },  /* add */
        { "2 5 0 0 0 0 3 3 0 0 1 0 0 1 2 3 0 0 2", "r0=10002 r1=20002 r2=0" },         /* vset2.u32.u32.ge */
        { "2 5 0 0 0 0 3 3 0 1 0 0 0 1 2 3 0 0 2", "r0=10002 r1=20002 r2=0" },         /* a .h01 */
        { "0 0 1 0 1 1 0 3 0 0 6 0 6 1", "r0=7FFFFFFF r1=1" },                         /* vadd all s32 */
        { "0 0 1 1 1 1 0 3 0 0 6 0 6 1", "r0=7FFFFFFF r1=1" },                         /* sat */
        { "0 1 0 0 0 0 0 3 0 0 6 0 6 1", "r0=1 r1=2" },                                /* vsub all u32 */
        { "0 1 0 1 0 0 0 3 0 0 6 0 6 1", "r0=1 r1=2" },                                /* sat */
        { "0 0 0 0 0 0 1 3 1 2 6 0 6 1", "r0=C8 r1=64 r2=11223344" },                  /* vadd all u32 into .b1 */
        { "0 0 0 1 0 0 1 3 1 2 6 0 6 1", "r0=C8 r1=64 r2=11223344" },                  /* sat */
        { "0 2 0 0 1 0 0 3 0 0 6 0 6 1", "r0=80000000 r1=FFFFFFFF" },                  /* vabsdiff.u32.s32.u32 */
        { "0 2 0 1 1 0 0 3 0 0 6 0 6 1", "r0=80000000 r1=FFFFFFFF" },                  /* sat */
        { "3 0 3 12 0 0 0 0 6 0 0 0 1", "r0=7FC00000 r1=0" },                          /* set.ltu.u32.f32 */
        { "3 0 3 2 0 0 0 0 6 0 0 0 1", "r0=7FC00000 r1=0" },                           /* lt */
        { "3 2 3 0 0 0 0 0 6 0 0 0 1", "r0=80000000 r1=0" },                           /* set.eq.f32.f32 */
        { "3 0 3 0 0 0 0 0 6 0 0 0 1", "r0=1 r1=80000000" },                           /* set.eq.u32.f32 */
        { "3 0 3 0 0 0 0 1 6 0 0 0 1", "r0=1 r1=80000000" },                           /* with ftz */
        { "4 1 1 2 2 1 0 3 0 4 0 0 0 1", "r0=FFFFFFFF r1=0 p1=1 p2=1 p3=0" },          /* setp.lt.and.s32 */
    };
    for (unsigned i = 0; i < COUNT(figure); i++) {
        begin("0 0 %s", figure[i][0]);
        end();
        run(0, "%s", figure[i][1]);
    }
}

/* set by comparison and setp.eq on all pairs of values; setp with both values before, so that each write shows */
static void pairs_of_type(unsigned type, unsigned ftz)
{
    char file = letter_of(type);
    for (unsigned cmp = 0; cmp < CMPS; cmp++) {
        if (!compares(cmp, type))
            continue;
        begin("0 0 3 0 3 %u", cmp);
        boolean(0, 0);
        usual_sources(ftz, type);
        end();
        run(2, "%c0 %c1", file, file);
    }
    begin("0 0 4 1 1 2 0");
    boolean(0, 0);
    usual_sources(ftz, type);
    end();
    run(2, "%c0 %c1", file, file);
    run(2, "%c0 %c1 p1=1 p2=1", file, file);
}

static void pairs(void)
{
    for (unsigned wide = 0; wide < 2; wide++) {
        values(wide ? DOUBLES : WORDS, VALUES);
        for (unsigned type = wide; type < TYPES; type += 2)
            pairs_of_type(type, 0);
        if (!wide)
            pairs_of_type(F32, 1);
    }
}

/* Runs with t, lt of a signed type, true and false, every c in %p0, and other tokens. */
static void run_truths(unsigned type, const char *rest)
{
    const char *ones = is_half(type) ? "" : "FFFF";
    char file = letter_of(type);
    run(1, "%c0=%sFFFF %c1=0 p0%s", file, ones, file, rest);
    run(1, "%c0=%sFFFF %c1=%sFFFE p0%s", file, ones, file, ones, rest);
}

/* setp by BoolOp, `!` and destination, which may be c itself */
static void setp_places(unsigned type)
{
    static const char *const place[] = {
        "0 1 0", "1 1 2", "1 0 2", "1 1 0", "2 1 0", "3 0 2", "0 0 0", "2 0 0", "3 0 0", "1 2 1"
    };
    values(BITS, COUNT(BITS));
    for (unsigned choice = 0; choice < BOOLS; choice++)
        for (unsigned i = 0; i < COUNT(place); i++) {
            begin("0 0 4 %s 2", place[i]);
            boolean(choice, 0);
            usual_sources(0, type);
            end();
            run_truths(type, "");
            run_truths(type, " p1=1 p2=1");
        }
}

/* set by BoolOp, `!` and dtype */
static void set_booleans(unsigned type)
{
    values(BITS, COUNT(BITS));
    for (unsigned choice = 0; choice < BOOLS; choice++)
        for (unsigned dtype = 0; dtype < 3; dtype++) {
            begin("0 0 3 %u 3 2", dtype);
            boolean(choice, 0);
            usual_sources(0, type);
            end();
            run_truths(type, "");
        }
}

static const uint64_t A_WORDS[] = { 0x807F01FF, 0xFFFFFFFF, 0x80000000 };

/* Three pairs of b and c for column k of 30; a goes through three words. */
static void run_scalar(unsigned k)
{
    static const char *const words[] = {
        "r1=7FFF80FE r2=11223344", "r1=1 r2=0", "r1=7FFFFFFF r2=FFFFFFFF"
    };
    run(1, "r0 %s", words[k / 10]);
}

static const unsigned USUAL[4] = { 3, 2, 0, 1 };    /* d, c, a, b */

/* scalar arithmetic by opcode, types and sat, forms and selectors in turn */
static void scalar_runs(void)
{
    values(A_WORDS, COUNT(A_WORDS));
    for (unsigned row = 0; row < 80; row++)
        for (unsigned k = 0; k < 30; k++) {
            begin("0 0 0 %u %u %u", row / 16, row / 4 % 2, row / 8 % 2);
            scalar(row % 4, k % FORMS, USUAL, k % 7, k / 3 % 7);
            end();
            run_scalar(k);
        }
}

/* vset by comparison and types, forms and selectors in turn */
static void vset_runs(void)
{
    values(A_WORDS, COUNT(A_WORDS));
    for (unsigned row = 0; row < 24; row++)
        for (unsigned k = 0; k < 30; k++) {
            begin("0 0 1 %u", row / 4);
            scalar(row % 4, k % FORMS, USUAL, k % 7, k / 3 % 7);
            end();
            run_scalar(k);
        }
}

/* vset2 and vset4 by comparison and types; masks, selectors and add in turn */
static void lane_runs(void)
{
    static const uint64_t a_words[] = { 0x80FF0001, 0x7F80FF00 };
    values(a_words, COUNT(a_words));
    for (unsigned row = 0; row < 48; row++)
        for (unsigned k = 0; k < 30; k++) {
            unsigned lanes = row < 24 ? 2 : 4;
            begin("0 0 2 %u %u %u %u %u 3 %u 0", row / 4 % CMP6, row / 24, row % 2, row / 2 % 2, k % 2,
                  lanes == 2 ? k % 3 + 1 : k % 15 + 1);
            rising(lanes, k, 1);
            fputs(" 1", stdout);
            rising(lanes, k / 2 + 4, k % 3 + 1);
            fputs(" 2", stdout);
            end();
            run(1, k < 15 ? "r0 r1=2 r2=AABBCCDD" : "r0 r1=80807F00 r2=FFFFFFFE");
        }
}

/* Between two registers of the type's file, by the open register c. */
static void run_choice(unsigned type, const char *const between[], const char *c)
{
    run(1, "%s %s", between[file_of(type)], c);
}

static const char *const AS_AND_BS[] = { "r0=AAAAAAAA r1=BBBBBBBB", "d0=AAAAAAAAAAAAAAAA d1=BBBBBBBBBBBBBBBB", "h0=AAAA h1=BBBB" };

/* slct by type of c, type and value of c */
static void slct_runs(unsigned from, unsigned to, const uint64_t *value, unsigned count, const char *const between[])
{
    unsigned types = to - from;
    values(value, count);
    for (unsigned row = 0; row < 3 * types; row++) {
        unsigned type = from + row % types, file = file_of(type);
        begin("0 0 6 %u %u %u 3 %u 0 %u 1 2", row / types, type, file, file, file);
        end();
        run_choice(type, between, "r2");
    }
}

/* selp by type and value of c */
static void selp_runs(unsigned from, unsigned to, const char *const between[])
{
    values(BITS, COUNT(BITS));
    for (unsigned type = from; type < to; type++) {
        unsigned file = file_of(type);
        begin("0 0 5 %u %u 3 %u 0 %u 1 0", type, file, file, file);
        end();
        run_choice(type, between, "p0");
    }
}

/* each base with each guard, whose predicate is 0, 1 and 2 */
static void guards(unsigned from, unsigned to)
{
    static const uint64_t guard_values[] = { 0, 1, 2 };
    static const char *const guarded[] = { "0 0", "1 6", "2 6" };
    static const unsigned dabc[4] = { 3, 5, 1, 2 };
    values(guard_values, COUNT(guard_values));
    for (unsigned of = from; of < to; of++)
        for (unsigned i = 0; i < COUNT(guarded); i++) {
            base(guarded[i], &BASES[of], dabc);
            run(1, "p6");
            run(1, "p6 p3=1");
        }
}

/* set guarded by %p0 */
static void set_guards(void)
{
    for (unsigned form = 0; form < 3; form++) {
        begin("%u 0 3 0 3 0 0 0 0", form);
        usual_sources(0, B32);
        end();
        run(1, "r0=7 r1=7 p0");
    }
}

/* a destination that is also a source: sources are read first */
static void same_registers(unsigned from, unsigned to)
{
    static const unsigned dabc[][4] = {
        { 1, 1, 2, 3 }, { 1, 2, 1, 3 }, { 1, 2, 3, 1 }, { 1, 1, 1, 2 }, { 1, 1, 1, 1 }, { 2, 1, 1, 1 }
    };
    for (unsigned of = from; of < to; of++)
        for (unsigned i = 0; i < COUNT(dabc); i++) {
            base("0 0", &BASES[of], dabc[i]);
            run(0, "");
            run(0, "r1=80FF0001 r2=FFFE0102 d1=8000000000000001 d2=7FF0000000000000");
            run(0, "r1=80FF0001 r2=FFFE0102 d1=8000000000000001 d2=7FF0000000000000 p1=1");
        }
}

/* files of wrong lengths and predicate bytes over 1, on records that run, that are skipped and that are not legal */
static void files(unsigned from, unsigned to)
{
    static const char *const wrong[] = {
        "R63", "R65", "D31", "D33", "P15", "P17", "R0", "D0", "P0", "R0 D0 P0", "R65 D33 P17",
        "p2=2", "p2=FF", "p3=2", "p6=2", "p6=FF", "p9=2", "p9=FF", "p0=2", "p15=2", "p2=1 p6=1 p15=80",
        "R63 p2=2", "D33 p9=FF", "P15 p6=2", "P15 p15=2", "P17 p16=2", "P17 p0=FF", "P0 p0=2", "p16=2"
    };
    static const char *const guarded[] = { "0 0", "1 6", "2 6", "1 16" };
    for (unsigned of = from; of < to; of++)
        for (unsigned i = 0; i < COUNT(guarded) + 1; i++) {
            const unsigned dabc[4] = { 3, i < COUNT(guarded) ? 5 : 64, 1, 2 };
            base(guarded[i % COUNT(guarded)], &BASES[of], dabc);
            run(0, "");
            for (unsigned k = 0; k < COUNT(wrong); k++)
                run(0, "%s", wrong[k]);
        }
}

/* ---- request T-01: what is of no other record ---- */

/* two faults at a time, and the record of one width as the other */
static void mixed_lanes(void)
{
    static const char *const fields[] = {
        "0 0 7 0 0 0 0 0 0 0 3 15 0 0 1 2 3 1 4 5 6 7 2",       /* vadd4's default record as vadd2 */
        "0 0 7 0 0 0 1 0 0 0 3 3 0 0 1 0 0 1 2 3 0 0 2",        /* vadd2's default record as vadd4 */
        "0 0 7 2 1 1 0 1 1 1 3 3 0 0 1 2 3 1 2 3 0 0 2",        /* vavrg2 with the digits of vavrg4 on a */
        "0 0 7 5 0 1 0 0 1 1 3 0 0 4 1 0 0 1 2 3 0 0 2",        /* no lane, and a digit too high */
        "1 16 7 4 0 0 1 0 0 0 64 15 0 0 1 2 3 1 4 5 6 7 2",     /* guard and d */
        "2 15 7 3 1 1 1 1 1 1 63 8 63 7 7 7 7 63 0 0 0 0 63",   /* the last of each file */
        "0 0 7 1 1 0 0 0 1 0 999 12 999 3 3 0 0 999 0 0 0 0 999",   /* every number, and lanes that are not there */
    };
    for (unsigned i = 0; i < COUNT(fields); i++) {
        begin("%s", fields[i]);
        end_and_run();
    }
}

/* The head of number `at`, 0 to 383, up to its operands: operation, width, dtype, sat, atype, btype, add. */
enum { HEADS = OPS * 64 };

static void arithmetic_head(const char *guarded, unsigned at)
{
    begin("%s 7 %u %u %u %u %u %u %u", guarded, at / 64, at >> 3 & 1, at >> 4 & 1, at >> 5 & 1,
          at >> 2 & 1, at >> 1 & 1, at & 1);
}

static unsigned lanes_of_head(unsigned at) { return at >> 5 & 1 ? 4 : 2; }

/* every head; masks, selectors and registers in turn */
static void written_heads(void)
{
    for (unsigned at = 0; at < HEADS; at++) {
        unsigned lanes = lanes_of_head(at);
        arithmetic_head(guard(), at);
        printf(" %u %u %u", word(0), 1 + turn % ((1u << lanes) - 1), word(1));
        selector_choice(lanes, turn / 2 % 3);
        printf(" %u", word(2));
        selector_choice(lanes, turn / 7 % 3);
        printf(" %u", word(3));
        end_and_run();
    }
}

/* the longest line, 77 bytes, and one of 76 */
static void longest_of_all(void)
{
    begin("2 15 7 3 1 1 1 1 1 1 63 14 62 7 7 7 7 61 0 0 0 0 60");
    end_and_run();
    begin("1 15 7 3 0 1 1 0 0 1 63 14 62 7 7 7 7 61 0 0 0 0 60");
    end_and_run();
}

/* d is %r3, a %r0, b %r1, c %r2; a's and b's digits rise by 1 from there. */
static void usual_lanes(unsigned lanes, unsigned mask, unsigned a_first, unsigned b_first)
{
    printf(" 3 %u 0", mask);
    rising(lanes, a_first, 1);
    fputs(" 1", stdout);
    rising(lanes, b_first, 1);
    fputs(" 2", stdout);
    end();
}

static const char *const C_WORDS[] = { "AABBCCDD", "FFFFFFFF", "0", "7FFFFFFE", "80000001" };

/* every head of a width on all pairs of special parts, in every lane */
static void lane_pairs(unsigned wide)
{
    static const uint64_t bytes[] = { 0x0001807F, 0x017FFF80, 0x7F80FEFF, 0x80FF81FE, 0xFFFE0081, 0xFE810100, 0x81007F01 };
    static const uint64_t halves[] = { 0x00000001, 0x00017FFF, 0x7FFF8000, 0x8000FFFF, 0xFFFFFFFE, 0xFFFE8001, 0x80010000, 0x00FFFF00 };
    if (wide)
        values(bytes, COUNT(bytes));
    else
        values(halves, COUNT(halves));
    for (unsigned at = 0; at < HEADS; at++) {
        unsigned lanes = lanes_of_head(at);
        if (lanes != (wide ? 4 : 2))
            continue;
        arithmetic_head("0 0", at);
        usual_lanes(lanes, (1u << lanes) - 1, 0, lanes);
        run(2, "r0 r1 r2=%s", C_WORDS[turn % COUNT(C_WORDS)]);
    }
}

static const uint64_t LANE_WORDS[] = { 0x807F01FF, 0xFF80FE00, 0x12F385C4 };

/* every mask by operation and add; types and sat in turn */
static void lane_masks(void)
{
    values(LANE_WORDS, COUNT(LANE_WORDS));
    for (unsigned at = 0; at < 2 * 2 * OPS; at++) {
        unsigned lanes = at & 1 ? 4 : 2;
        for (unsigned mask = 1; mask < 1u << lanes; mask++) {
            unsigned in_turn = turn / 3;
            begin("0 0 7 %u %u %u %u %u %u %u", at / 4, in_turn & 1, in_turn >> 1 & 1, at & 1,
                  in_turn >> 2 & 1, in_turn >> 3 & 1, at >> 1 & 1);
            usual_lanes(lanes, mask, 0, lanes);
            run(1, "r0 r1=7FFF80FE r2=AABBCCDD");
        }
    }
}

/* every digit by lane and operand, by operation; no two parts of the registers are alike */
static void lane_selectors(void)
{
    values(LANE_WORDS, COUNT(LANE_WORDS));
    for (unsigned at = 0; at < 2 * OPS; at++) {
        unsigned lanes = at & 1 ? 4 : 2, full = (1u << lanes) - 1;
        for (unsigned k = 0; k < 12; k++) {
            unsigned in_turn = turn / 2;
            begin("0 0 7 %u %u %u %u %u %u %u 3 %u 0", at / 2, in_turn & 1, in_turn >> 1 & 1, at & 1,
                  k & 1, k >> 1 & 1, in_turn >> 2 & 1, k % 3 == 0 ? full : 1 + turn % full);
            rising(lanes, k, k < 8 ? 1 : 2 * lanes - 1);
            fputs(" 1", stdout);
            rising(lanes, 5 * k + 3, k % 3 + 1);
            fputs(" 2", stdout);
            end();
            run(1, "r0 r1=A97D06E8 r2=%s", C_WORDS[turn % COUNT(C_WORDS)]);
        }
    }
}

/* add, by operation and width, to words around which the sum goes past 2^32 either way */
static void lane_carries(void)
{
    static const uint64_t around[] = { 0, 1, 0xFFFFFFFF, 0x7FFFFFFF, 0x80000000, 0xFFFFFE00, 0x00010000 };
    values(around, COUNT(around));
    for (unsigned at = 0; at < 2 * 8 * OPS; at++) {
        unsigned lanes = at & 1 ? 4 : 2, types = at >> 1 & 7;
        begin("0 0 7 %u %u %u %u %u %u 1", at / 16, types & 1, turn & 1, at & 1, types >> 1 & 1, types >> 2);
        usual_lanes(lanes, (1u << lanes) - 1, 0, lanes);
        run(1, "r0=FF80807F r1=FFFFFF80 r2");
        run(1, "r0=80008080 r1=7FFF7F7F r2");
    }
}

/* ---- request T-02: what is of no other record ---- */

/* Zeros, edges and middle of the subnormals, the normals next to them, ones, greatest finites, infinities, NaNs. */
static const uint64_t AROUND_TINY[] = {
    0x00000000, 0x80000000, 0x00000001, 0x80000001, 0x003FFFFF, 0x803FFFFF, 0x00400000, 0x80400000,
    0x007FFFFE, 0x807FFFFE, 0x007FFFFF, 0x807FFFFF, 0x00800000, 0x80800000, 0x00800001, 0x80800001,
    0x00FFFFFF, 0x80FFFFFF, 0x01000000, 0x81000000, 0x3F800000, 0xBF800000, 0x7F7FFFFF, 0xFF7FFFFF,
    0x7F800000, 0xFF800000, 0x7F800001, 0xFF800001, 0x7FC00000, 0xFFC00000, 0x7FFFFFFF, 0xFFFFFFFF
};

/* c as d, a or b too, by type of c: d gets c's bits as they are, and no other register changes */
static void slct_c_twice(void)
{
    static const char *const dab[] = { "0 2 0 0 0 1", "0 3 0 2 0 1", "0 3 0 0 0 2" };
    for (unsigned at = 0; at < 3 * COUNT(dab); at++) {
        begin("0 0 6 %u %u %s 2", at / COUNT(dab), F32, dab[at % COUNT(dab)]);
        end();
        run(1, "r0=1 r1=807FFFFF r2");
    }
}

/* ---- request T-06: what is of no other record ---- */

/* Zero, ones, edges of a byte and of a half of either sign. */
static const uint64_t HALVES[] = {
    0x0000, 0x0001, 0x007F, 0x0080, 0x00FF, 0x0100, 0x7FFE, 0x7FFF, 0x8000, 0x8001, 0x80FF, 0xFF00, 0xFFFE, 0xFFFF
};
static const uint64_t FEW_HALVES[] = { 0x0000, 0x0001, 0x00FF, 0x0100, 0x7FFF, 0x8000, 0xFFFF };

enum { FILES = 3 };     /* that go by width */

/* a and b of set and setp from each file, by type, without and with BoolOp: what has no half in it stands above */
static void halves_of_comparisons(void)
{
    for (unsigned setp = 0; setp < 2; setp++)
        for (unsigned type = 0; type < ALL_TYPES; type++)
            for (unsigned a_file = 0; a_file < FILES; a_file++)
                for (unsigned b_file = 0; b_file < FILES; b_file++)
                    for (unsigned choice = 0; choice < 2; choice++) {
                        if (!is_half(type) && a_file < 2 && b_file < 2)
                            continue;
                        begin(setp ? "0 0 4 1 1 4 0" : "0 0 3 0 3 0");
                        boolean(choice, 2);
                        sources(0, type, a_file, 0, b_file, 1);
                        end_and_run();
                    }
}

/* d, a and b of selp and slct from each file, by type: what has no half in it stands above */
static void halves_of_choices(void)
{
    for (unsigned slct = 0; slct < 2; slct++)
        for (unsigned type = 0; type < ALL_TYPES; type++)
            for (unsigned at = 0; at < FILES * FILES * FILES; at++) {
                unsigned d_file = at % FILES, a_file = at / FILES % FILES, b_file = at / FILES / FILES;
                if (!is_half(type) && d_file < 2 && a_file < 2 && b_file < 2)
                    continue;
                begin(slct ? "0 0 6 1 %u" : "0 0 5 %u", type);
                printf(" %u 3 %u 0 %u 1 2", d_file, a_file, b_file);
                end_and_run();
            }
}

/* two faults at a time, and faults that only look like some */
static void mixed_halves(void)
{
    static const char *const fields[] = {
        "2 15 5 8 2 31 2 31 2 31 15",               /* the last of each file */
        "0 0 6 2 10 2 31 2 30 2 29 63",
        "0 0 3 2 63 5 3 1 15 0 10 2 31 2 31",
        "0 0 5 9 2 32 2 0 2 1 16",                  /* %rs32 and %p16 */
        "1 16 5 10 2 3 2 0 2 32 2",                 /* guard and b */
        "0 0 3 0 64 0 0 0 0 0 9 2 0 2 32",          /* d and b */
        "0 0 3 0 3 2 0 0 0 1 8 2 0 2 1",            /* lt and ftz on b16 */
        "0 0 3 0 3 6 0 0 0 1 10 2 0 2 1",           /* lo and ftz on s16 */
        "0 0 3 0 3 6 0 0 0 0 10 0 0 0 1",           /* lo on s16, and words */
        "0 0 4 1 5 5 0 0 0 0 0 9 2 0 2 1",          /* one predicate twice */
        "0 0 4 1 16 16 0 0 0 0 0 9 2 32 2 1",
        "0 0 4 1 1 2 0 1 0 16 0 9 2 0 2 1",         /* c over its file */
        "0 0 4 0 31 0 0 0 0 0 0 9 2 0 2 1",         /* a predicate as a half's number */
        "0 0 6 0 9 2 3 2 0 2 1 64",                 /* c of slct over the words, and not */
        "0 0 6 0 9 2 3 2 0 2 1 32",
        "0 0 6 0 9 2 63 2 0 2 1 63",                /* %rs63 */
        "0 0 5 2 0 32 0 63 0 47 1",                 /* words that are no halves */
        "0 0 5 9 0 32 0 63 0 47 1",
        "0 0 5 9 1 3 1 0 1 1 1",                    /* a record of doubles, of words, as one of halves */
        "0 0 5 9 0 3 0 0 0 1 1",
        "0 0 5 3 2 3 2 0 2 1 1",                    /* and the other way */
        "0 0 5 2 2 3 2 0 2 1 1",
    };
    for (unsigned i = 0; i < COUNT(fields); i++) {
        begin("%s", fields[i]);
        end_and_run();
    }
}

/* set and setp by type and comparison: set on all pairs, setp on fewer, with both values before */
static void half_pairs(void)
{
    values(HALVES, COUNT(HALVES));
    for (unsigned type = B16; type <= S16; type++)
        pairs_of_type(type, 0);
    values(FEW_HALVES, COUNT(FEW_HALVES));
    for (unsigned type = B16; type <= S16; type++)
        for (unsigned cmp = 0; cmp < CMPS; cmp++) {
            if (!compares(cmp, type))
                continue;
            begin("0 0 4 1 1 2 %u", cmp);
            boolean(0, 0);
            usual_sources(0, type);
            end();
            run(2, "h0 h1");
            run(2, "h0 h1 p1=1 p2=1");
        }
}

/* every bit of a half counts, in each type; words, doubles and predicates of the same numbers do not */
static void half_bits(void)
{
    uint64_t bits[16];
    for (unsigned i = 0; i < 16; i++)
        bits[i] = UINT64_C(1) << i;
    values(bits, COUNT(bits));
    for (unsigned type = B16; type <= S16; type++)
        for (unsigned cmp = 0; cmp < (type == B16 ? 2 : 3); cmp++) {
            begin("0 0 3 0 3 %u", cmp);
            boolean(0, 0);
            usual_sources(0, type);
            end();
            run(1, "h0 h1=0");
            run(1, "h0=0 h1");
            run(1, "h0 h1=FFFF r0=0 r1=1 d0=0 d1=1");
        }
    for (unsigned type = B16; type <= S16; type++) {
        begin("0 0 5 %u 2 3 2 0 2 1 2", type);
        end();
        run(1, "h0 h1=0 p2=1");
        run(1, "h0=0 h1");
        begin("0 0 6 0 %u 2 3 2 0 2 1 2", type);
        end();
        run(1, "h0 h1=0 r2=0");
        run(1, "h0=FFFF h1 r2=80000000");
    }
}

/* set on halves by comparison and dtype */
static void half_truths(void)
{
    values(FEW_HALVES, COUNT(FEW_HALVES));
    for (unsigned type = B16; type <= S16; type++)
        for (unsigned dtype = 1; dtype < 3; dtype++)
            for (unsigned cmp = 0; cmp < CMPS; cmp++) {
                if (!compares(cmp, type))
                    continue;
                begin("0 0 3 %u 3 %u", dtype, cmp);
                boolean(0, 0);
                usual_sources(0, type);
                end();
                run(1, "h0 h1=8000");
                run(1, "h0 h1=100");
            }
}

/* a half that is a source and the destination; the numbers of c too */
static void same_halves(void)
{
    static const unsigned dabc[][4] = {
        { 1, 1, 2, 3 }, { 1, 2, 1, 3 }, { 1, 2, 3, 1 }, { 1, 1, 1, 2 }, { 1, 1, 1, 1 }, { 2, 1, 1, 1 }
    };
    for (unsigned of = LANE_BASES; of < HALF_BASES; of++)
        for (unsigned i = 0; i < COUNT(dabc); i++) {
            base("0 0", &BASES[of], dabc[i]);
            run(0, "");
            run(0, "h1=8001 h2=7FFE h3=A5C3 r1=80000001 r2=FF800001 r3=7F000000");
            run(0, "h1=8001 h2=7FFE h3=A5C3 r1=80000001 r2=FF800001 r3=7F000000 p1=1 p2=1 p3=1");
        }
}

/* files of wrong lengths, that of the halves above all, on every base, with or without halves; 8 before 10 before 11 */
static void half_files(void)
{
    static const char *const wrong[] = {
        "H31", "H33", "H0", "H1", "H16", "H32", "H31 D33", "H33 D31", "R63 H33", "H31 P17", "R65 H33 D33 P17", "R0 H0 D0 P0",
        "H31 p2=2", "H33 p15=FF", "H32 p15=2", "H0 p0=2", "h31=FFFF", "h32=FFFF", "H33 h32=FFFF", "D31 h31=1"
    };
    static const char *const guarded[] = { "0 0", "1 6", "2 6", "1 16" };
    for (unsigned of = 0; of < HALF_BASES; of++)
        for (unsigned i = 0; i < COUNT(guarded) + 1; i++) {
            const unsigned dabc[4] = { 3, i < COUNT(guarded) ? 5 : 64, 1, 2 };
            base(guarded[i % COUNT(guarded)], &BASES[of], dabc);
            for (unsigned k = 0; k < COUNT(wrong); k++)
                run(0, "%s", wrong[k]);
        }
}

/* ---- request T-07: what is of no other record; every run is at each target ---- */

/* Of each width: zeros, least and greatest subnormals, least normals, one, a NaN; also doubles that would be subnormal singles, and words of theirs that are. */
enum { TINY = 10 };
static const uint64_t TINY_OF[3][TINY] = {
    { 0, 0x80000000, 1, 0x80000001, 0x007FFFFF, 0x807FFFFF, 0x00800000, 0x80800000, 0x3F800000, 0x7FC00000 },
    { 0, 0x8000000000000000, 1, 0x8000000000000001, 0x000FFFFFFFFFFFFF, 0x800FFFFFFFFFFFFF, 0x0010000000000000, 0x36A0000000000000, 0x807FFFFF00000001, 0x7FF8000000000000 },
    { 0, 0x8000, 1, 0x8001, 0x007F, 0x03FF, 0x83FF, 0x0400, 0x3C00, 0x7E00 },
};

/* set and setp of a type by comparison, legal or not, all of its types; f32 and f64 also with ftz; then the choices */
static void comparisons_and_choices(void)
{
    for (unsigned setp = 0; setp < 2; setp++) {
        for (unsigned type = 0; type < ALL_TYPES; type++)
            written_comparisons_of(setp, 0, type);
        written_comparisons_of(setp, 1, F32);
        written_comparisons_of(setp, 1, F32 + 1);
    }
    written_choices(0, ALL_TYPES);
}

/* heads of request T-01, each operation in either width; registers and selectors in turn */
static void some_heads(void)
{
    for (unsigned at = 0; at < HEADS; at += 5) {
        unsigned lanes = lanes_of_head(at);
        arithmetic_head(guard(), at);
        usual_lanes(lanes, 1 + turn % ((1u << lanes) - 1), 0, lanes);
        run(0, "");
    }
}

/* every base, also not legal, under each guard, on wrong files: 8, 12, 10, 11, then the guard */
static void order_of_refusals(void)
{
    static const char *const wrong[] = { "R63", "H33", "D31", "P17", "p6=2", "R65 p2=FF" };
    static const char *const guarded[] = { "0 0", "1 6", "2 6", "1 16" };
    for (unsigned of = 0; of < COUNT(BASES); of++)
        for (unsigned i = 0; i < COUNT(guarded) + 1; i++) {
            const unsigned dabc[4] = { 3, i < COUNT(guarded) ? 5 : 64, 1, 2 };
            base(guarded[i % COUNT(guarded)], &BASES[of], dabc);
            run(0, "");
            for (unsigned k = 0; k < COUNT(wrong); k++)
                run(0, "%s", wrong[k]);
        }
}

static void compared(bool setp, unsigned dtype, unsigned cmp, unsigned bools, unsigned ftz, unsigned type)
{
    if (setp)
        begin("0 0 4 %u 1 %u %u", dtype, dtype == 1 ? 2 : 0, cmp);      /* dtype is the form */
    else
        begin("0 0 3 %u 3 %u", dtype, cmp);
    boolean(bools, 0);
    usual_sources(ftz, type);
    end();
}

/* Runs of set or setp in which a goes through the values beside some of b, and b beside some of a. */
static void run_beside(unsigned type)
{
    static const char *const beside[3][2] = { { "80000000", "1" }, { "0", "1" }, { "0", "1" } };
    char file = letter_of(type);
    run(1, "%c0 %c1=%s r3=0", file, file, beside[file_of(type)][0]);
    run(1, "%c0=%s %c1 r3=0", file, beside[file_of(type)][1], file);
}

/* by comparison: set and setp on all pairs of singles, with ftz setp alone; on all pairs of doubles setp */
static void tiny_pairs(void)
{
    for (unsigned type = F32; type <= F32 + 1; type++) {
        char file = letter_of(type);
        values(TINY_OF[file_of(type)], TINY);
        for (unsigned cmp = 0; cmp < CMPS; cmp++) {
            if (!compares(cmp, type))
                continue;
            compared(true, 0, cmp, 0, 0, type);
            run(2, "%c0 %c1", file, file);
            if (type != F32)
                continue;
            compared(false, 0, cmp, 0, 0, type);
            run(2, "r0 r1 r3=0");
            compared(true, 0, cmp, 0, 1, type);
            run(2, "r0 r1");
        }
    }
}

/* set by comparison, dtype and every stype, with ftz too */
static void tiny_truths(void)
{
    for (unsigned type = 0; type < ALL_TYPES; type++) {
        values(TINY_OF[file_of(type)], TINY);
        for (unsigned cmp = 0; cmp < CMPS; cmp++)
            for (unsigned ftz = 0; ftz < 2; ftz++)
                for (unsigned dtype = type == F32 ? 0 : 2; dtype < 3; dtype++) {
                    if (!compares(cmp, type) || (ftz == 1 && type != F32))
                        continue;
                    compared(false, dtype, cmp, 0, ftz, type);
                    run_beside(type);
                }
    }
}

/* BoolOps on a comparison that flushing turns: set by dtype, setp into two places, which hold either value before */
static void tiny_booleans(void)
{
    values(BITS, COUNT(BITS));
    for (unsigned bools = 0; bools < BOOLS; bools++) {
        for (unsigned dtype = 0; dtype < 3; dtype++) {
            compared(false, dtype, 0, bools, 0, F32);
            run(1, "r0=80000001 r1=0 p0");
        }
        compared(true, 1, 0, bools, 0, F32);
        run(1, "r0=80000001 r1=0 p0");
        run(1, "r0=80000001 r1=0 p1=1 p2=1 p0");
    }
}

/* each bit of a single, and each beside the sign, as a, b and c: set and setp against zero, slct, by ftz */
static void tiny_bits(void)
{
    for (unsigned sign = 0; sign < 2; sign++) {
        uint64_t bits[32];
        for (unsigned i = 0; i < COUNT(bits); i++)
            bits[i] = (uint64_t)sign << 31 | UINT64_C(1) << i;
        values(bits, COUNT(bits));
        for (unsigned ftz = 0; ftz < 2; ftz++) {
            compared(false, 0, 0, 0, ftz, F32);
            run(1, "r0 r1=0 r3=0");
            compared(true, 0, 0, 0, ftz, F32);
            run(1, "r0=80000000 r1");
            begin("0 0 6 %u %u 0 3 0 0 0 1 2", 1 + ftz, F32);
            end();
            run(1, "r0=1 r1=2 r2");
        }
    }
}

/* ---- all of it ---- */

static void legality(void)
{
    section = LEGALITY;
    legality_of_comparisons(0, TYPES);
    files_of_comparisons();
    files_of_choices();
    masks(false, 0);
    lane_digits(false);
    numbers(0, OLDER_BASES);
    places();
    mixed();
}

static void written(void)
{
    section = WRITTEN;
    written_scalars();
    written_vsets();
    written_lanes(false);
    written_comparisons(false);
    written_comparisons(true);
    written_choices(0, TYPES);
    longest();
}

static void executed(void)
{
    section = EXECUTED;
    figures();
    pairs();
    setp_places(B32 + 4);
    set_booleans(B32 + 4);
    scalar_runs();
    vset_runs();
    lane_runs();
    slct_runs(0, TYPES, WORDS, VALUES, AS_AND_BS);
    selp_runs(0, TYPES, AS_AND_BS);
    guards(0, OLDER_BASES);
    set_guards();
    same_registers(0, OLDER_BASES);
    files(0, OLDER_BASES);
}

/* request T-01, behind all the older records, which so stay as they were */
static void arithmetic_by_lanes(void)
{
    section = LEGALITY;
    for (unsigned op = 0; op < OPS; op++)
        masks(true, op);
    lane_digits(true);
    numbers(OLDER_BASES, LANE_BASES);
    mixed_lanes();
    section = WRITTEN;
    written_heads();
    written_lanes(true);
    longest_of_all();
    section = EXECUTED;
    lane_pairs(0);
    lane_pairs(1);
    lane_masks();
    lane_selectors();
    lane_carries();
    guards(OLDER_BASES, LANE_BASES);
    same_registers(OLDER_BASES, LANE_BASES);
    files(OLDER_BASES, LANE_BASES);
}

/* request T-02, behind those of T-01: a and b are subnormals themselves, or doubles of two subnormal singles */
static void tiny_negatives(void)
{
    static const char *const subnormals[2] = { "r0=80000001 r1=7FFFFF", "d0=8000000000000001 d1=FFFFFFFFFFFFF" };
    static const char *const others[2] = { "r0=400000 r1=80000001", "d0=80000001007FFFFF d1=180400000" };
    uint64_t sign_and_bit[32];
    for (unsigned i = 0; i < 32; i++)
        sign_and_bit[i] = 0x80000000 | UINT64_C(1) << i;
    section = EXECUTED;
    slct_runs(0, TYPES, AROUND_TINY, COUNT(AROUND_TINY), subnormals);
    slct_c_twice();
    slct_runs(0, TYPES, sign_and_bit, COUNT(sign_and_bit), others);
}

/* request T-06, behind those of T-02 */
static void half_size(void)
{
    static const char *const between[] = { "", "", "h0=A5C3 h1=5A3C" };
    section = LEGALITY;
    legality_of_comparisons(B16, ALL_TYPES);
    halves_of_comparisons();
    halves_of_choices();
    numbers(LANE_BASES, HALF_BASES);
    mixed_halves();
    section = WRITTEN;
    for (unsigned type = B16; type <= S16; type++) {
        written_comparisons_of(false, 0, type);
        written_comparisons_of(true, 0, type);
    }
    written_choices(B16, ALL_TYPES);
    section = EXECUTED;
    half_pairs();
    half_bits();
    half_truths();
    setp_places(S16);
    set_booleans(S16);
    slct_runs(B16, ALL_TYPES, AROUND_TINY, COUNT(AROUND_TINY), between);
    selp_runs(B16, ALL_TYPES, AS_AND_BS);
    guards(LANE_BASES, HALF_BASES);
    same_halves();
    files(LANE_BASES, HALF_BASES);
    half_files();
}

/* request T-07, behind those of T-06 */
static void old_cards(void)
{
    static const char *const subnormals[] = { "r0=80000001 r1=7FFFFF", "d0=8000000000000001 d1=FFFFFFFFFFFFF", "h0=8001 h1=3FF" };
    every_target = true;
    section = LEGALITY;
    masks(false, 2);
    masks(true, 2);
    section = WRITTEN;
    written_scalars();
    written_vsets();
    comparisons_and_choices();
    section = EXECUTED;
    some_heads();
    order_of_refusals();
    guards(0, COUNT(BASES));
    tiny_pairs();
    tiny_truths();
    tiny_booleans();
    tiny_bits();
    slct_runs(0, ALL_TYPES, AROUND_TINY, COUNT(AROUND_TINY), subnormals);
    slct_c_twice();
    selp_runs(0, ALL_TYPES, subnormals);
}

int main(int argc, char **argv)
{
    bool count = argc == 2 && strcmp(argv[1], "--count") == 0;
    if (argc > 1 && !count) {
        fputs("usage: cases [--count]\n", stderr);
        return 2;
    }
    legality();
    written();
    executed();
    arithmetic_by_lanes();
    tiny_negatives();
    half_size();
    old_cards();
    if (fflush(stdout) != 0 || ferror(stdout))
        return 1;
    if (count)
        fprintf(stderr, "legality %lu\nwritten %lu\nexecuted %lu\nruns %lu\n",
                records[LEGALITY], records[WRITTEN], records[EXECUTED], runs);
    return 0;
}
