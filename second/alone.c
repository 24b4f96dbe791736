/*
 * The listing program of the PTX line bench, worked out from document 01 and
 * requests T-01, T-02, T-05, T-06, T-07 and T-09.
 *
 * It reads a listing from standard input, reads each line into a record,
 * executes the record, and writes one answer per line and, at the end, the
 * registers that differ from their start value.
 *
 *   alone [NAME [strict]]   the listing program, at the target of that name, sm_30 if none is given, in ordinary or strict reading
 *   alone --probe           executes lines one by one, on registers of one's choice
 *   alone --samples         answers the data lines of SAMPLES.md
 * `--target NAME` and `--strict`, in any order, may stand for the words, and beside `--probe`.
 *
 * Build:  cc -std=c11 -O2 -Wall -Wextra -Werror alone.c -o alone
 *   -DRAW_IO  uses read and write of <unistd.h> in place of <stdio.h>
 *   -DOWN_IO  leaves read_input and write_output to another file
 * Both have the listing program alone.
 */

#include <stdbool.h>
#include <stddef.h>
#include <stdint.h>
#include <string.h>

typedef unsigned char Byte;

/* ------------------------------------------------------------------------
 * Input and output: these two functions and nothing else touch the outside.
 *
 * read_input stores bytes of standard input until `most` are stored or the
 * input ends, and returns how many; write_output writes `count` bytes.
 * ------------------------------------------------------------------------ */

#if defined OWN_IO

size_t read_input(Byte *to, size_t most);
void write_output(const Byte *from, size_t count);

#elif defined RAW_IO

#include <unistd.h>

static size_t read_input(Byte *to, size_t most)
{
    size_t have = 0;
    while (have < most) {
        ssize_t got = read(0, to + have, most - have);
        if (got <= 0)
            break;
        have += (size_t)got;
    }
    return have;
}

static void write_output(const Byte *from, size_t count)
{
    while (count > 0) {
        ssize_t put = write(1, from, count);
        if (put <= 0)
            _exit(1);
        from += put;
        count -= (size_t)put;
    }
}

#else

#include <stdio.h>
#include <stdlib.h>

static size_t read_input(Byte *to, size_t most)
{
    return fread(to, 1, most, stdin);
}

static void write_output(const Byte *from, size_t count)
{
    if (fwrite(from, 1, count, stdout) != count || fflush(stdout) != 0)
        exit(EXIT_FAILURE);
}

#endif

/* ------------------------------------------------------------------------
 * Sizes and refusals
 * ------------------------------------------------------------------------ */

enum {
    INPUT_MOST = 65536,
    LINE_MOST = 160,
    R_COUNT = 64,
    RS_COUNT = 32,
    RD_COUNT = 32,
    P_COUNT = 16
};

typedef enum {
    ACCEPTED = 0,
    TOO_LONG = 1,
    NO_SHAPE = 2,
    NO_OPCODE = 3,
    BAD_MODIFIERS = 4,
    BAD_OPERANDS = 5,
    BAD_NUMBER = 6,
    SAME_PLACES = 7,
    NOT_LEGAL = 8,
    SHORT_BUFFER = 9,
    BAD_LENGTHS = 10,
    BAD_PREDICATE = 11,
    TOO_OLD = 12,
    AGAINST_ITSELF = 15
} Refusal;

/* The targets, the oldest first. */
typedef enum { SM_10, SM_13, SM_20, SM_30, TARGETS } Target;

/* The ways of reading.  Nothing but reading knows of them. */
typedef enum { ORDINARY, STRICT } Mode;

/* ------------------------------------------------------------------------
 * Words: the names that may stand in a head.  Words of one class stand
 * together, in the order the range tests below rely on.
 * ------------------------------------------------------------------------ */

typedef enum {
    W_NONE,    /* no name stands here */
    W_OTHER,   /* a name that is none of the words */
    W_VADD, W_VSUB, W_VABSDIFF, W_VMIN, W_VMAX,
    W_VSET,
    W_VSET2, W_VADD2, W_VSUB2, W_VAVRG2, W_VABSDIFF2, W_VMIN2, W_VMAX2,
    W_VSET4, W_VADD4, W_VSUB4, W_VAVRG4, W_VABSDIFF4, W_VMIN4, W_VMAX4,
    W_SET, W_SETP, W_SELP, W_SLCT,
    W_U32, W_S32, W_F32, W_B32, W_B64, W_U64, W_S64, W_F64, W_B16, W_U16, W_S16,
    W_EQ, W_NE, W_LT, W_LE, W_GT, W_GE,
    W_LO, W_LS, W_HI, W_HS,
    W_EQU, W_NEU, W_LTU, W_LEU, W_GTU, W_GEU, W_NUM, W_NAN,
    W_ADD, W_MIN, W_MAX,
    W_AND, W_OR, W_XOR,
    W_SAT, W_FTZ,
    WORD_COUNT
} Word;

static const char *const spelling[WORD_COUNT] = {
    [W_VADD] = "vadd", [W_VSUB] = "vsub", [W_VABSDIFF] = "vabsdiff",
    [W_VMIN] = "vmin", [W_VMAX] = "vmax", [W_VSET] = "vset",
    [W_VSET2] = "vset2", [W_VADD2] = "vadd2", [W_VSUB2] = "vsub2",
    [W_VAVRG2] = "vavrg2", [W_VABSDIFF2] = "vabsdiff2",
    [W_VMIN2] = "vmin2", [W_VMAX2] = "vmax2",
    [W_VSET4] = "vset4", [W_VADD4] = "vadd4", [W_VSUB4] = "vsub4",
    [W_VAVRG4] = "vavrg4", [W_VABSDIFF4] = "vabsdiff4",
    [W_VMIN4] = "vmin4", [W_VMAX4] = "vmax4",
    [W_SET] = "set", [W_SETP] = "setp", [W_SELP] = "selp", [W_SLCT] = "slct",
    [W_U32] = "u32", [W_S32] = "s32", [W_F32] = "f32", [W_B32] = "b32",
    [W_B64] = "b64", [W_U64] = "u64", [W_S64] = "s64", [W_F64] = "f64",
    [W_B16] = "b16", [W_U16] = "u16", [W_S16] = "s16",
    [W_EQ] = "eq", [W_NE] = "ne", [W_LT] = "lt", [W_LE] = "le",
    [W_GT] = "gt", [W_GE] = "ge",
    [W_LO] = "lo", [W_LS] = "ls", [W_HI] = "hi", [W_HS] = "hs",
    [W_EQU] = "equ", [W_NEU] = "neu", [W_LTU] = "ltu", [W_LEU] = "leu",
    [W_GTU] = "gtu", [W_GEU] = "geu", [W_NUM] = "num", [W_NAN] = "nan",
    [W_ADD] = "add", [W_MIN] = "min", [W_MAX] = "max",
    [W_AND] = "and", [W_OR] = "or", [W_XOR] = "xor",
    [W_SAT] = "sat", [W_FTZ] = "ftz"
};

static bool is_opcode(Word w)     { return w >= W_VADD && w <= W_SLCT; }
static bool is_simd(Word w)       { return w >= W_VSET2 && w <= W_VMAX4; }
static bool is_video_type(Word w) { return w == W_U32 || w == W_S32; }
static bool is_set_dtype(Word w)  { return w >= W_U32 && w <= W_F32; }
static bool is_type(Word w)       { return w >= W_U32 && w <= W_S16; }
static bool is_wide(Word w)       { return w >= W_B64 && w <= W_F64; }
static bool is_half(Word w)       { return w >= W_B16 && w <= W_S16; }
static bool is_cmp6(Word w)       { return w >= W_EQ && w <= W_GE; }
static bool is_op2(Word w)        { return w >= W_ADD && w <= W_MAX; }
static bool is_bool_op(Word w)    { return w >= W_AND && w <= W_XOR; }

/* Of the forms with 2 and with 4. */
static unsigned lanes_of(Word op) { return op <= W_VMAX2 ? 2 : 4; }

/* CmpOp by stype. */
static bool compares(Word cmp, Word stype)
{
    switch (stype) {
    case W_B16: case W_B32: case W_B64:
        return cmp == W_EQ || cmp == W_NE;
    case W_S16: case W_S32: case W_S64:
        return is_cmp6(cmp);
    case W_U16: case W_U32: case W_U64:
        return cmp >= W_EQ && cmp <= W_HS;
    case W_F32: case W_F64:
        return is_cmp6(cmp) || (cmp >= W_EQU && cmp <= W_NAN);
    default:
        return false;
    }
}

enum { DICTIONARY_SIZE = 256 };

static Word dictionary[DICTIONARY_SIZE];        /* W_NONE where it is free */

static unsigned dictionary_slot(const Byte *name, size_t length)
{
    uint32_t hash = UINT32_C(2166136261);
    for (size_t i = 0; i < length; i++)
        hash = (hash ^ name[i]) * UINT32_C(16777619);
    return (hash ^ hash >> 16) % DICTIONARY_SIZE;
}

static void fill_dictionary(void)
{
    for (int w = W_VADD; w < WORD_COUNT; w++) {
        unsigned slot = dictionary_slot((const Byte *)spelling[w], strlen(spelling[w]));
        while (dictionary[slot] != W_NONE)
            slot = (slot + 1) % DICTIONARY_SIZE;
        dictionary[slot] = (Word)w;
    }
}

static Word word_of(const Byte *name, size_t length)
{
    unsigned slot = dictionary_slot(name, length);
    for (; dictionary[slot] != W_NONE; slot = (slot + 1) % DICTIONARY_SIZE) {
        const char *word = spelling[dictionary[slot]];
        if (strlen(word) == length && memcmp(word, name, length) == 0)
            return dictionary[slot];
    }
    return W_OTHER;
}

/*
 * The name of a selector is carried as a key: its bytes packed into 64 bits,
 * the first byte lowest.  No selector has more than eight bytes; a longer name
 * gets KEY_LONG, which no packed name can equal.  The key 0 means no name.
 */
typedef uint64_t Key;

#define KEY_LONG UINT64_MAX

static Key key_of(const Byte *name, size_t length)
{
    Key key = 0;
    if (length > 8)
        return KEY_LONG;
    for (unsigned i = 0; i < length; i++)
        key |= (Key)name[i] << (8 * i);
    return key;
}

/* ------------------------------------------------------------------------
 * The lent files, in the order in which they are lent and printed.
 * ------------------------------------------------------------------------ */

typedef enum { FILE_R, FILE_RS, FILE_RD, FILE_P, FILES, SINK = FILES } File;

typedef struct {
    File file;          /* SINK for `_` */
    unsigned number;
} Place;

static const struct {
    const char *name;
    Byte letter;            /* in SAMPLES.md; the capital for the length */
    unsigned places;
    unsigned digits;        /* hexadecimal ones, of a value that is shown */
    uint32_t step;          /* at the start place N holds N times this */
} lent[FILES] = {
    [FILE_R]  = { "%r",  'r', R_COUNT,  8,  UINT32_C(0x01010101) },
    [FILE_RS] = { "%rs", 'h', RS_COUNT, 4,  1 },
    [FILE_RD] = { "%rd", 'd', RD_COUNT, 16, 1 },
    [FILE_P]  = { "%p",  'p', P_COUNT,  1,  0 }
};

/* The file of the operands that go by width. */
static File file_of(Word type)
{
    return is_wide(type) ? FILE_RD : is_half(type) ? FILE_RS : FILE_R;
}

static uint64_t start_value(File file, unsigned n) { return (uint64_t)n * lent[file].step; }

/* ------------------------------------------------------------------------
 * The shape of a line.  Each reader takes the place where it starts and
 * returns the place behind what it read, or NULL.  A line is always followed
 * by a line feed in memory.  No reader steps over a line feed, so none runs
 * past the line.
 * ------------------------------------------------------------------------ */

typedef struct {
    const Byte *at;
    size_t length;
} Text;

typedef enum { PLAIN, NEGATED, PAIR } Form;

typedef struct {
    Form form;
    Place first;
    Place second;       /* of a pair */
    Key selector;       /* 0 if none */
    size_t bare;        /* length of the text without the selector */
    Text text;
} Operand;

enum { NAMES_KEPT = 7, OPERANDS_KEPT = 5 };

typedef struct {
    bool guarded;
    bool guard_negated;
    Place guard;
    Text guard_text;
    Text head;
    unsigned names;                 /* all of them, kept or not */
    Word name[NAMES_KEPT + 1];      /* the first ones, then W_NONE */
    const Byte *name_at[NAMES_KEPT];
    unsigned operands;              /* all of them, kept or not */
    Operand operand[OPERANDS_KEPT];
    const Byte *operands_end;       /* behind the last byte of the last one */
    size_t place;                   /* of refusals 2 to 7 */
} Line;

static bool is_blank(Byte b) { return b == ' ' || b == '\t'; }
static bool is_digit(Byte b) { return b >= '0' && b <= '9'; }

static bool is_name_byte(Byte b)
{
    return (b >= 'a' && b <= 'z') || is_digit(b);
}

static const Byte *skip_blanks(const Byte *p)
{
    while (is_blank(*p))
        p++;
    return p;
}

static const Byte *read_name(const Byte *p)
{
    const Byte *start = p;
    while (is_name_byte(*p))
        p++;
    return p > start ? p : NULL;
}

/* The name of a file and the digit behind it, which tells `%r` from `%rs` and `%rd`. */
static const Byte *read_file(const Byte *p, File *file)
{
    for (*file = FILE_R; *file < FILES; ++*file) {
        size_t length = strlen(lent[*file].name);
        if (strncmp((const char *)p, lent[*file].name, length) == 0 && is_digit(p[length]))
            return p + length;
    }
    return NULL;
}

static const Byte *read_register(const Byte *p, Place *place)
{
    p = read_file(p, &place->file);
    if (p == NULL)
        return NULL;
    unsigned number = (unsigned)(*p++ - '0');
    if (number != 0)
        for (int more = 2; more > 0 && is_digit(*p); more--)
            number = number * 10 + (unsigned)(*p++ - '0');
    place->number = number;
    return is_digit(*p) ? NULL : p;
}

static const Byte *read_place(const Byte *p, Place *place)
{
    if (*p != '_')
        return read_register(p, place);
    place->file = SINK;
    place->number = 0;
    return p + 1;
}

static const Byte *read_operand(const Byte *p, Operand *o)
{
    const Byte *start = p;
    o->form = PLAIN;
    o->selector = 0;
    if (*p == '!') {
        o->form = NEGATED;
        p = read_register(p + 1, &o->first);
        if (p == NULL)
            return NULL;
        o->bare = (size_t)(p - start);
    } else {
        p = read_place(p, &o->first);
        if (p == NULL)
            return NULL;
        o->bare = (size_t)(p - start);
        if (*p == '|') {
            o->form = PAIR;
            p = read_place(p + 1, &o->second);
        } else if (o->first.file == SINK) {
            return NULL;
        } else if (*p == '.') {
            const Byte *name = p + 1;
            p = read_name(name);
            if (p != NULL)
                o->selector = key_of(name, (size_t)(p - name));
        }
        if (p == NULL)
            return NULL;
    }
    o->text.at = start;
    o->text.length = (size_t)(p - start);
    return p;
}

static const Byte *read_guard(const Byte *p, Line *line)
{
    const Byte *start = p;
    line->guarded = true;
    p++;
    line->guard_negated = *p == '!';
    if (line->guard_negated)
        p++;
    p = read_register(p, &line->guard);
    if (p == NULL || !is_blank(*p))
        return NULL;
    line->guard_text.at = start;
    line->guard_text.length = (size_t)(p - start);
    return skip_blanks(p);
}

static const Byte *read_head(const Byte *p, Line *line)
{
    const Byte *start = p;
    line->names = 0;
    for (;;) {
        const Byte *name = p;
        p = read_name(name);
        if (p == NULL)
            return NULL;
        if (line->names < NAMES_KEPT) {
            line->name[line->names] = word_of(name, (size_t)(p - name));
            line->name_at[line->names] = name;
        }
        line->names++;
        if (*p != '.')
            break;
        p++;
    }
    line->name[line->names < NAMES_KEPT ? line->names : NAMES_KEPT] = W_NONE;
    line->head.at = start;
    line->head.length = (size_t)(p - start);
    return is_blank(*p) ? skip_blanks(p) : NULL;
}

static const Byte *read_operands(const Byte *p, Line *line)
{
    line->operands = 0;
    for (;;) {
        Operand spare;
        bool kept = line->operands < OPERANDS_KEPT;
        p = read_operand(p, kept ? &line->operand[line->operands] : &spare);
        if (p == NULL)
            return NULL;
        line->operands++;
        line->operands_end = p;
        p = skip_blanks(p);
        if (*p != ',')
            return p;
        p = skip_blanks(p + 1);
    }
}

static bool read_shape(const Byte *p, Line *line)
{
    line->guarded = false;
    p = skip_blanks(p);
    if (*p == '@') {
        p = read_guard(p, line);
        if (p == NULL)
            return false;
    }
    p = read_head(p, line);
    if (p == NULL)
        return false;
    p = read_operands(p, line);
    if (p == NULL || *p != ';')
        return false;
    return *skip_blanks(p + 1) == '\n';
}

/* ------------------------------------------------------------------------
 * Records
 * ------------------------------------------------------------------------ */

typedef struct {
    unsigned shift;
    unsigned width;
} Part;

static const Part whole_word = { 0, 32 };

enum { DROPPED = 1000 };        /* in p and q, above every number: the place is `_` or absent */

typedef struct {
    bool guarded;
    bool guard_negated;
    unsigned guard;
    Word op;
    Word dtype, atype, btype;   /* set, setp: stype is atype; slct: c is btype */
    Word cmp;
    Word second;                /* OP2 or BoolOp, or W_NONE */
    bool sat;
    bool ftz;
    unsigned d, a, b, c;        /* register numbers */
    unsigned p, q;              /* setp: the two places */
    bool c_negated;
    Part dpart, apart, bpart;   /* scalar video */
    unsigned mask;              /* forms with 2 and 4: bit i for lane i */
    unsigned asel[4], bsel[4];  /* part number of each lane, lane 0 first */
} Record;

/* The oldest target that allows the record. */
static Target needed_target(const Record *rec)
{
    switch (rec->op) {
    case W_SET: case W_SETP:
        return rec->atype == W_F64 ? SM_13 : SM_10;
    case W_SELP: case W_SLCT:
        return rec->dtype == W_F64 ? SM_13 : SM_10;
    default:        /* video */
        return is_simd(rec->op) ? SM_30 : SM_20;
    }
}

/* Whether two part numbers of the record's lanes name one part of one register.  They count through a first, then b. */
static bool same_part(const Record *rec, unsigned x, unsigned y)
{
    unsigned lanes = lanes_of(rec->op);
    unsigned x_register = x < lanes ? rec->a : rec->b;
    unsigned y_register = y < lanes ? rec->a : rec->b;
    return x_register == y_register && x % lanes == y % lanes;
}

/* Whether a masked lane of vset2 or vset4 compares a part with itself. */
static bool is_against_itself(const Record *rec)
{
    if (rec->op != W_VSET2 && rec->op != W_VSET4)
        return false;
    for (unsigned i = 0; i < lanes_of(rec->op); i++)
        if ((rec->mask >> i & 1) != 0 && same_part(rec, rec->asel[i], rec->bsel[i]))
            return true;
    return false;
}

/* What may stand last in a video head: by lanes there is `add` alone. */
static bool is_second(Word op, Word w)
{
    return is_simd(op) ? w == W_ADD : is_op2(w);
}

static bool read_modifiers(const Line *line, Record *rec)
{
    const Word *m = line->name + 1;
    rec->second = W_NONE;
    rec->sat = false;
    rec->ftz = false;

    switch (rec->op) {
    case W_VSET: case W_VSET2: case W_VSET4:
        if (!is_video_type(m[0]) || !is_video_type(m[1]) || !is_cmp6(m[2]))
            return false;
        rec->dtype = W_U32;
        rec->atype = m[0];
        rec->btype = m[1];
        rec->cmp = m[2];
        m += 3;
        if (is_second(rec->op, *m))
            rec->second = *m++;
        break;

    case W_SET: case W_SETP:
        if (*m == W_NONE)
            return false;
        rec->cmp = *m++;
        if (is_bool_op(*m))
            rec->second = *m++;
        if (*m == W_FTZ) {
            rec->ftz = true;
            m++;
        }
        if (rec->op == W_SET) {
            if (!is_set_dtype(*m))
                return false;
            rec->dtype = *m++;
        }
        rec->atype = *m;
        if (!is_type(*m++) || !compares(rec->cmp, rec->atype))
            return false;
        if (rec->ftz && rec->atype != W_F32)
            return false;
        break;

    case W_SELP:
        if (!is_type(*m))
            return false;
        rec->dtype = *m++;
        break;

    case W_SLCT:
        if (*m == W_FTZ) {
            rec->ftz = true;
            m++;
        }
        if (!is_type(m[0]) || !(m[1] == W_F32 || (m[1] == W_S32 && !rec->ftz)))
            return false;
        rec->dtype = m[0];
        rec->btype = m[1];
        m += 2;
        break;

    default:        /* arithmetic, scalar or by lanes */
        if (!is_video_type(m[0]) || !is_video_type(m[1]) || !is_video_type(m[2]))
            return false;
        rec->dtype = m[0];
        rec->atype = m[1];
        rec->btype = m[2];
        m += 3;
        if (*m == W_SAT) {
            rec->sat = true;
            m++;
        }
        if (is_second(rec->op, *m))
            rec->second = *m++;
        break;
    }
    return (size_t)(m - line->name) == line->names;
}

/* One register of the file, with no `!`, pair or selector. */
static bool is_bare(const Operand *o, File file)
{
    return o->form == PLAIN && o->first.file == file && o->selector == 0;
}

/* One %r, with or without a selector. */
static bool is_word(const Operand *o)
{
    return o->form == PLAIN && o->first.file == FILE_R;
}

/* A selector of scalar video: b0 to b3, h0, h1, or none. */
static bool read_part(Key key, Part *part)
{
    if (key == 0) {
        *part = whole_word;
        return true;
    }
    Byte letter = (Byte)(key & 0xFF);
    uint64_t digit = (key >> 8) - '0';      /* wraps to a large number below '0' */
    if (letter == 'b' && digit < 4)
        part->width = 8;
    else if (letter == 'h' && digit < 2)
        part->width = 16;
    else
        return false;
    part->shift = part->width * (unsigned)digit;
    return true;
}

/* A selector of the forms with 2 and 4; `first` is the default part of lane 0. */
static bool read_lane_selector(Operand *o, unsigned lanes, unsigned first, unsigned sel[4])
{
    bool is_default = true;
    if (o->selector == 0) {
        for (unsigned i = 0; i < lanes; i++)
            sel[i] = first + i;
        return true;
    }
    Key key = o->selector;
    if ((key & 0xFF) != (lanes == 2 ? 'h' : 'b'))
        return false;
    key >>= 8;
    for (unsigned i = lanes; i-- > 0; key >>= 8) {
        unsigned digit = (unsigned)(key & 0xFF) - '0';
        if (digit >= 2 * lanes)
            return false;
        sel[i] = digit;
        if (digit != first + i)
            is_default = false;
    }
    if (key != 0)
        return false;
    if (is_default)
        o->text.length = o->bare;
    return true;
}

/* A mask of the forms with 2 and 4: the letter, then strictly falling digits. */
static bool read_mask(Operand *o, unsigned lanes, unsigned *mask)
{
    unsigned full = (1u << lanes) - 1;
    if (o->selector == 0) {
        *mask = full;
        return true;
    }
    Key key = o->selector;
    if ((key & 0xFF) != (lanes == 2 ? 'h' : 'b'))
        return false;
    key >>= 8;
    if (key == 0)
        return false;
    unsigned bits = 0;
    for (unsigned above = lanes; key != 0; key >>= 8) {
        unsigned digit = (unsigned)(key & 0xFF) - '0';
        if (digit >= above)
            return false;
        bits |= 1u << digit;
        above = digit;
    }
    *mask = bits;
    if (bits == full)
        o->text.length = o->bare;
    return true;
}

/* d of setp: one predicate, or a pair of which one may be `_`. */
static bool read_setp_places(const Operand *o, Record *rec)
{
    File first = o->first.file;
    if (o->form != PAIR) {
        rec->p = o->first.number;
        rec->q = DROPPED;
        return is_bare(o, FILE_P);
    }
    File second = o->second.file;
    rec->p = first == SINK ? DROPPED : o->first.number;
    rec->q = second == SINK ? DROPPED : o->second.number;
    return (first == FILE_P && (second == FILE_P || second == SINK)) ||
           (first == SINK && second == FILE_P);
}

/* The last operand of set and setp, there exactly when BoolOp is. */
static bool read_bool_operand(const Line *line, Record *rec)
{
    if (rec->second == W_NONE)
        return line->operands == 3;
    if (line->operands != 4)
        return false;
    const Operand *c = &line->operand[3];
    rec->c_negated = c->form == NEGATED;
    return c->form != PAIR && c->first.file == FILE_P && c->selector == 0;
}

static bool read_record_operands(Line *line, Record *rec)
{
    if (line->operands < 3 || line->operands > 4)
        return false;
    Operand *d = &line->operand[0];
    Operand *a = &line->operand[1];
    Operand *b = &line->operand[2];
    Operand *c = line->operands == 4 ? &line->operand[3] : NULL;
    File file;

    rec->d = d->first.number;
    rec->a = a->first.number;
    rec->b = b->first.number;
    rec->c = c != NULL ? c->first.number : 0;
    rec->c_negated = false;

    if (is_simd(rec->op)) {
        unsigned lanes = lanes_of(rec->op);
        return c != NULL && is_word(d) && is_word(a) && is_word(b) &&
               is_bare(c, FILE_R) &&
               read_mask(d, lanes, &rec->mask) &&
               read_lane_selector(a, lanes, 0, rec->asel) &&
               read_lane_selector(b, lanes, lanes, rec->bsel);
    }

    switch (rec->op) {
    case W_SET: case W_SETP:
        file = file_of(rec->atype);
        if (!is_bare(a, file) || !is_bare(b, file) || !read_bool_operand(line, rec))
            return false;
        return rec->op == W_SET ? is_bare(d, FILE_R) : read_setp_places(d, rec);

    case W_SELP: case W_SLCT:
        file = file_of(rec->dtype);
        return c != NULL && is_bare(d, file) && is_bare(a, file) && is_bare(b, file) &&
               is_bare(c, rec->op == W_SELP ? FILE_P : FILE_R);

    default:        /* scalar video */
        if (!is_word(d) || !is_word(a) || !is_word(b))
            return false;
        if (c != NULL && !is_bare(c, FILE_R))
            return false;
        if (!read_part(d->selector, &rec->dpart) ||
            !read_part(a->selector, &rec->apart) ||
            !read_part(b->selector, &rec->bpart))
            return false;
        if (rec->second != W_NONE)
            return c != NULL && d->selector == 0;
        return (c != NULL) == (d->selector != 0);
    }
}

static bool number_fits(Place place)
{
    return place.file == SINK || place.number < lent[place.file].places;
}

static bool numbers_fit(const Line *line)
{
    if (line->guarded && !number_fits(line->guard))
        return false;
    for (unsigned i = 0; i < line->operands; i++) {
        const Operand *o = &line->operand[i];
        if (!number_fits(o->first) || (o->form == PAIR && !number_fits(o->second)))
            return false;
    }
    return true;
}

/* The number of the refusal, ACCEPTED if there is none. */
static Refusal judge_line(const Byte *p, size_t length, Target target, Mode mode, Line *line, Record *rec)
{
    if (length > LINE_MOST)
        return TOO_LONG;
    if (!read_shape(p, line))
        return NO_SHAPE;
    rec->op = line->name[0];
    if (!is_opcode(rec->op))
        return NO_OPCODE;
    if (!read_modifiers(line, rec))
        return BAD_MODIFIERS;
    if (line->guarded && line->guard.file != FILE_P)
        return BAD_OPERANDS;
    if (!read_record_operands(line, rec))
        return BAD_OPERANDS;
    if (!numbers_fit(line))
        return BAD_NUMBER;
    if (rec->op == W_SETP && rec->q != DROPPED && rec->p == rec->q)
        return SAME_PLACES;
    if (target < needed_target(rec))
        return TOO_OLD;
    if (mode == STRICT && is_against_itself(rec))
        return AGAINST_ITSELF;
    rec->guarded = line->guarded;
    if (line->guarded) {
        rec->guard = line->guard.number;
        rec->guard_negated = line->guard_negated;
    }
    return ACCEPTED;
}

/* ------------------------------------------------------------------------
 * The place of refusal 2.  What the bytes so far begin, so that each byte
 * that some line of the right shape, however long, has behind them leads on.
 * ------------------------------------------------------------------------ */

typedef enum {
    BEFORE_HEAD,        /* nothing but blanks */
    GUARD_SIGN,         /* `@` */
    GUARD_NOT,          /* `@!` */
    GUARD_REGISTER,
    BEHIND_GUARD,       /* blanks behind it */
    HEAD_NAME,
    HEAD_DOT,
    BEFORE_OPERAND,     /* blanks behind the head, or a comma and perhaps blanks */
    OPERAND_NOT,        /* `!` */
    FIRST_REGISTER,     /* not behind `!` */
    FIRST_SINK,         /* `_` */
    BAR,
    LAST_REGISTER,      /* behind `!` or a bar: nothing more belongs to its operand */
    SELECTOR_DOT,
    SELECTOR_NAME,
    BEHIND_OPERAND,     /* its end, or blanks behind it */
    BEHIND_LINE         /* `;` and perhaps blanks */
} Spot;

typedef enum { PERCENT, PERCENT_R, FILE_NAMED, ZERO, ONE_DIGIT, TWO_DIGITS, THREE_DIGITS } Spelled;

typedef struct {
    Spot spot;
    Spelled spelled;    /* how much of the register is there */
} Beginning;

static bool enter(Beginning *b, Spot spot)
{
    b->spot = spot;
    b->spelled = PERCENT;
    return true;
}

static bool spell(Beginning *b, Spelled spelled)
{
    b->spelled = spelled;
    return true;
}

static bool follow_register(Beginning *b, Byte next)
{
    switch (b->spelled) {
    case PERCENT:
        return (next == 'r' && spell(b, PERCENT_R)) || (next == 'p' && spell(b, FILE_NAMED));
    case PERCENT_R:
        if (next == 's' || next == 'd')
            return spell(b, FILE_NAMED);
        return is_digit(next) && spell(b, next == '0' ? ZERO : ONE_DIGIT);
    case FILE_NAMED:
        return is_digit(next) && spell(b, next == '0' ? ZERO : ONE_DIGIT);
    case ONE_DIGIT:
        return is_digit(next) && spell(b, TWO_DIGITS);
    case TWO_DIGITS:
        return is_digit(next) && spell(b, THREE_DIGITS);
    default:        /* no digit behind 0, nor a fourth */
        return false;
    }
}

static bool is_spelled(const Beginning *b)
{
    return b->spelled >= ZERO;
}

static bool follow_operand(Beginning *b, Byte next)
{
    return (is_blank(next) && enter(b, BEHIND_OPERAND)) ||
           (next == ',' && enter(b, BEFORE_OPERAND)) ||
           (next == ';' && enter(b, BEHIND_LINE));
}

/* Whether a line of the right shape has the byte `next` behind what b stands for. */
static bool follow(Beginning *b, Byte next)
{
    switch (b->spot) {
    case BEFORE_HEAD:
        return is_blank(next) || (next == '@' && enter(b, GUARD_SIGN)) ||
               (is_name_byte(next) && enter(b, HEAD_NAME));
    case GUARD_SIGN:
        return (next == '!' && enter(b, GUARD_NOT)) || (next == '%' && enter(b, GUARD_REGISTER));
    case GUARD_NOT:
        return next == '%' && enter(b, GUARD_REGISTER);
    case GUARD_REGISTER:
        return follow_register(b, next) ||
               (is_spelled(b) && is_blank(next) && enter(b, BEHIND_GUARD));
    case BEHIND_GUARD:
        return is_blank(next) || (is_name_byte(next) && enter(b, HEAD_NAME));
    case HEAD_NAME:
        return is_name_byte(next) || (next == '.' && enter(b, HEAD_DOT)) ||
               (is_blank(next) && enter(b, BEFORE_OPERAND));
    case HEAD_DOT:
        return is_name_byte(next) && enter(b, HEAD_NAME);
    case BEFORE_OPERAND:
        return is_blank(next) || (next == '!' && enter(b, OPERAND_NOT)) ||
               (next == '%' && enter(b, FIRST_REGISTER)) || (next == '_' && enter(b, FIRST_SINK));
    case OPERAND_NOT:
        return next == '%' && enter(b, LAST_REGISTER);
    case FIRST_REGISTER:
        if (follow_register(b, next))
            return true;
        return is_spelled(b) && ((next == '|' && enter(b, BAR)) ||
                                 (next == '.' && enter(b, SELECTOR_DOT)) || follow_operand(b, next));
    case FIRST_SINK:
        return next == '|' && enter(b, BAR);
    case BAR:
        return (next == '%' && enter(b, LAST_REGISTER)) || (next == '_' && enter(b, BEHIND_OPERAND));
    case LAST_REGISTER:
        return follow_register(b, next) || (is_spelled(b) && follow_operand(b, next));
    case SELECTOR_DOT:
        return is_name_byte(next) && enter(b, SELECTOR_NAME);
    case SELECTOR_NAME:
        return is_name_byte(next) || follow_operand(b, next);
    case BEHIND_OPERAND:
        return follow_operand(b, next);
    default:        /* behind `;` */
        return is_blank(next);
    }
}

/* The first byte with which the line begins as no line of the shape does, or its length. */
static size_t place_of_shape(const Byte *p, size_t length)
{
    Beginning so_far = { BEFORE_HEAD, PERCENT };
    for (size_t i = 0; i < length; i++)
        if (!follow(&so_far, p[i]))
            return i;
    return length;
}

/* ------------------------------------------------------------------------
 * The place of refusal 4.  All legal lists of modifiers are made, from the
 * rows of the table, and the line is held against each.
 * ------------------------------------------------------------------------ */

enum { MODIFIERS_MOST = 5, LISTS_MOST = 5000 };      /* 1,900 are legal; opcodes of one row share theirs */

static bool is_sat(Word w)    { return w == W_SAT; }
static bool is_ftz(Word w)    { return w == W_FTZ; }
static bool is_add(Word w)    { return w == W_ADD; }
static bool is_s32(Word w)    { return w == W_S32; }
static bool is_f32(Word w)    { return w == W_F32; }
static bool is_cmp_op(Word w) { return w >= W_EQ && w <= W_NAN; }

typedef struct {
    bool (*has)(Word w);    /* NULL behind the last one */
    bool may_lack;
} Column;

typedef struct {
    Word first, last;       /* of the opcodes */
    Column column[MODIFIERS_MOST + 1];
} Row;

#define T3 { is_video_type, false }, { is_video_type, false }, { is_video_type, false }
#define T_T_CMP6 { is_video_type, false }, { is_video_type, false }, { is_cmp6, false }

static const Row rows[] = {
    { W_VADD, W_VMAX, { T3, { is_sat, true }, { is_op2, true } } },
    { W_VADD2, W_VMAX2, { T3, { is_sat, true }, { is_add, true } } },
    { W_VADD4, W_VMAX4, { T3, { is_sat, true }, { is_add, true } } },
    { W_VSET, W_VSET, { T_T_CMP6, { is_op2, true } } },
    { W_VSET2, W_VSET2, { T_T_CMP6, { is_add, true } } },
    { W_VSET4, W_VSET4, { T_T_CMP6, { is_add, true } } },
    { W_SET, W_SET, { { is_cmp_op, false }, { is_bool_op, true }, { is_ftz, true },
                      { is_set_dtype, false }, { is_type, false } } },
    { W_SETP, W_SETP, { { is_cmp_op, false }, { is_bool_op, true }, { is_ftz, true },
                        { is_type, false } } },
    { W_SELP, W_SELP, { { is_type, false } } },
    { W_SLCT, W_SLCT, { { is_type, false }, { is_s32, false } } },
    { W_SLCT, W_SLCT, { { is_ftz, true }, { is_type, false }, { is_f32, false } } }
};

typedef struct {
    Word first, last;       /* of the opcodes that have it */
    unsigned length;
    Word word[MODIFIERS_MOST];
} ModifierList;

static ModifierList legal_list[LISTS_MOST];
static unsigned legal_lists;

/* What the table says beside its rows: CmpOp by stype, `ftz` only with stype f32. */
static bool goes_together(const ModifierList *list)
{
    Word stype = list->word[list->length - 1];
    if (list->first != W_SET && list->first != W_SETP)
        return true;
    for (unsigned i = 0; i < list->length; i++)
        if (list->word[i] == W_FTZ && stype != W_F32)
            return false;
    return compares(list->word[0], stype);
}

/* Makes all lists that go on behind `list` with the columns from `column` on. */
static void make_lists(ModifierList list, const Column *column)
{
    if (column->has == NULL) {
        if (goes_together(&list))
            legal_list[legal_lists++] = list;
        return;
    }
    if (column->may_lack)
        make_lists(list, column + 1);
    list.length++;
    for (int w = W_VADD; w < WORD_COUNT; w++)
        if (column->has((Word)w)) {
            list.word[list.length - 1] = (Word)w;
            make_lists(list, column + 1);
        }
}

static void make_all_lists(void)
{
    for (size_t i = 0; i < sizeof rows / sizeof rows[0]; i++)
        make_lists((ModifierList){ rows[i].first, rows[i].last, 0, { W_NONE } }, rows[i].column);
}

/* With how many modifiers of the line, from the first on, some legal list begins. */
static unsigned modifiers_on_a_list(const Line *line)
{
    unsigned most = 0;
    for (unsigned i = 0; i < legal_lists; i++) {
        const ModifierList *list = &legal_list[i];
        unsigned same = 0;
        if (line->name[0] < list->first || line->name[0] > list->last)
            continue;
        while (same < list->length && line->name[1 + same] == list->word[same])
            same++;
        if (same > most)
            most = same;
    }
    return most;
}

static const Byte *place_of_modifier(const Line *line)
{
    if (legal_lists == 0)
        make_all_lists();
    unsigned right = modifiers_on_a_list(line);
    return right + 1 < line->names ? line->name_at[right + 1] : line->head.at + line->head.length;
}

/* ------------------------------------------------------------------------
 * The place of refusal 5.  A legal list of operands under a head is one or
 * two rows of kinds; register numbers and equal pairs have no say in a kind.
 * ------------------------------------------------------------------------ */

typedef enum {
    AN_R, AN_RS, AN_RD, A_P,    /* bare */
    P_OR_NOT,               /* with optional `!` */
    SETP_PLACES,
    R_WITH_PART,            /* with a selector of scalar video */
    R_PERHAPS_PART,
    R_PERHAPS_MASK,
    R_PERHAPS_LANES
} Wanted;

enum { WANTED_MOST = 4 };

typedef struct {
    unsigned length;
    Wanted wanted[WANTED_MOST];
} WantedList;

static bool is_as_wanted(Operand o, Wanted wanted, Word op)
{
    Record any;
    switch (wanted) {
    case AN_R:            return is_bare(&o, FILE_R);
    case AN_RS:           return is_bare(&o, FILE_RS);
    case AN_RD:           return is_bare(&o, FILE_RD);
    case A_P:             return is_bare(&o, FILE_P);
    case P_OR_NOT:        return o.form != PAIR && o.first.file == FILE_P && o.selector == 0;
    case SETP_PLACES:     return read_setp_places(&o, &any);
    case R_WITH_PART:     return is_word(&o) && o.selector != 0 && read_part(o.selector, &any.apart);
    case R_PERHAPS_PART:  return is_word(&o) && read_part(o.selector, &any.apart);
    case R_PERHAPS_MASK:  return is_word(&o) && read_mask(&o, lanes_of(op), &any.mask);
    default:              return is_word(&o) && read_lane_selector(&o, lanes_of(op), 0, any.asel);
    }
}

static Wanted by_width(Word type)
{
    return is_wide(type) ? AN_RD : is_half(type) ? AN_RS : AN_R;
}

/* The legal lists under the head of `rec`; returns how many. */
static unsigned wanted_lists(const Record *rec, WantedList list[2])
{
    bool second = rec->second != W_NONE;
    Wanted k;

    if (is_simd(rec->op)) {
        list[0] = (WantedList){ 4, { R_PERHAPS_MASK, R_PERHAPS_LANES, R_PERHAPS_LANES, AN_R } };
        return 1;
    }
    switch (rec->op) {
    case W_SET:
        k = by_width(rec->atype);
        list[0] = (WantedList){ second ? 4 : 3, { AN_R, k, k, P_OR_NOT } };
        return 1;
    case W_SETP:
        k = by_width(rec->atype);
        list[0] = (WantedList){ second ? 4 : 3, { SETP_PLACES, k, k, P_OR_NOT } };
        return 1;
    case W_SELP:
        k = by_width(rec->dtype);
        list[0] = (WantedList){ 4, { k, k, k, A_P } };
        return 1;
    case W_SLCT:
        k = by_width(rec->dtype);
        list[0] = (WantedList){ 4, { k, k, k, AN_R } };
        return 1;
    default:        /* scalar video */
        list[0] = (WantedList){ second ? 4 : 3, { AN_R, R_PERHAPS_PART, R_PERHAPS_PART, AN_R } };
        list[1] = (WantedList){ 4, { R_WITH_PART, R_PERHAPS_PART, R_PERHAPS_PART, AN_R } };
        return second ? 1 : 2;
    }
}

/* Whether the first `count` operands of the line begin the list. */
static bool begin_list(const Line *line, unsigned count, const WantedList *list, Word op)
{
    if (count > list->length)
        return false;
    for (unsigned i = 0; i < count; i++)
        if (!is_as_wanted(line->operand[i], list->wanted[i], op))
            return false;
    return true;
}

static const Byte *place_of_operand(const Line *line, const Record *rec)
{
    WantedList list[2];
    if (line->guarded && line->guard.file != FILE_P)
        return line->guard_text.at;
    unsigned lists = wanted_lists(rec, list);
    for (unsigned count = 1; count <= line->operands; count++) {
        bool begins = false;
        for (unsigned i = 0; i < lists; i++)
            begins = begins || begin_list(line, count, &list[i], rec->op);
        if (!begins)
            return line->operand[count - 1].text.at;
    }
    return line->operands_end;
}

/* ------------------------------------------------------------------------
 * The places of refusals 6 and 7, and all places
 * ------------------------------------------------------------------------ */

static const Byte *second_place(const Operand *o)
{
    return o->text.at + o->bare + 1;        /* the bar is between them */
}

/* The first register of the line whose number is at or over its file's size. */
static const Byte *place_of_number(const Line *line)
{
    if (line->guarded && !number_fits(line->guard))
        return line->guard_text.at + (line->guard_negated ? 2 : 1);
    for (unsigned i = 0; i < line->operands; i++) {
        const Operand *o = &line->operand[i];
        if (!number_fits(o->first))
            return o->text.at + (o->form == NEGATED ? 1 : 0);
        if (o->form == PAIR && !number_fits(o->second))
            return second_place(o);
    }
    return line->operands_end;      /* not reached: there is one */
}

static size_t place_of(Refusal refusal, const Byte *p, size_t length, const Line *line, const Record *rec)
{
    switch (refusal) {
    case NO_SHAPE:      return place_of_shape(p, length);
    case NO_OPCODE:     return (size_t)(line->head.at - p);
    case BAD_MODIFIERS: return (size_t)(place_of_modifier(line) - p);
    case BAD_OPERANDS:  return (size_t)(place_of_operand(line, rec) - p);
    case BAD_NUMBER:    return (size_t)(place_of_number(line) - p);
    case SAME_PLACES:   return (size_t)(second_place(&line->operand[0]) - p);
    default:            return 0;
    }
}

static bool has_place(Refusal refusal)
{
    return refusal >= NO_SHAPE && refusal <= SAME_PLACES;
}

/*
 * Reads the line of `length` bytes at `p`, for a target, in a mode.  When it is
 * accepted, `line` holds its texts, without default masks and selectors, and `rec` the
 * record; when it is refused with 2 to 7, `line` holds the place.
 */
static Refusal read_line(const Byte *p, size_t length, Target target, Mode mode, Line *line, Record *rec)
{
    Refusal refusal = judge_line(p, length, target, mode, line, rec);
    line->place = place_of(refusal, p, length, line, rec);
    return refusal;
}

/* ------------------------------------------------------------------------
 * Execution
 * ------------------------------------------------------------------------ */

typedef struct {
    uint32_t r[R_COUNT];
    uint16_t rs[RS_COUNT];
    uint64_t rd[RD_COUNT];
    Byte p[P_COUNT];
} Machine;

static uint64_t value_at(const Machine *m, File file, unsigned n)
{
    switch (file) {
    case FILE_R:  return m->r[n];
    case FILE_RS: return m->rs[n];
    case FILE_RD: return m->rd[n];
    default:      return m->p[n];
    }
}

static void set_register(Machine *m, File file, unsigned n, uint64_t value)
{
    switch (file) {
    case FILE_R:  m->r[n] = (uint32_t)value; break;
    case FILE_RS: m->rs[n] = (uint16_t)value; break;
    case FILE_RD: m->rd[n] = value; break;
    default:      m->p[n] = (Byte)value; break;
    }
}

static void start_machine(Machine *m)
{
    for (int file = FILE_R; file < FILES; file++)
        for (unsigned n = 0; n < lent[file].places; n++)
            set_register(m, (File)file, n, start_value((File)file, n));
}

/* How two values stand to each other; each comparison is the set it accepts. */
enum { LESS = 1, EQUAL = 2, GREATER = 4, UNORDERED = 8 };

static const Byte accepts[WORD_COUNT] = {
    [W_EQ] = EQUAL,
    [W_NE] = LESS | GREATER,
    [W_LT] = LESS,             [W_LO] = LESS,
    [W_LE] = LESS | EQUAL,     [W_LS] = LESS | EQUAL,
    [W_GT] = GREATER,          [W_HI] = GREATER,
    [W_GE] = GREATER | EQUAL,  [W_HS] = GREATER | EQUAL,
    [W_EQU] = UNORDERED | EQUAL,
    [W_NEU] = UNORDERED | LESS | GREATER,
    [W_LTU] = UNORDERED | LESS,
    [W_LEU] = UNORDERED | LESS | EQUAL,
    [W_GTU] = UNORDERED | GREATER,
    [W_GEU] = UNORDERED | GREATER | EQUAL,
    [W_NUM] = LESS | EQUAL | GREATER,
    [W_NAN] = UNORDERED
};

static unsigned order_signed(int64_t x, int64_t y)
{
    return x < y ? LESS : x > y ? GREATER : EQUAL;
}

static unsigned order_unsigned(uint64_t x, uint64_t y)
{
    return x < y ? LESS : x > y ? GREATER : EQUAL;
}

/* IEEE 754 order over the bits: sign and magnitude, zeros equal. */
static unsigned order_float(uint64_t x, uint64_t y, uint64_t sign, uint64_t infinity)
{
    uint64_t x_size = x & (sign - 1);
    uint64_t y_size = y & (sign - 1);
    if (x_size > infinity || y_size > infinity)
        return UNORDERED;
    int64_t x_key = (x & sign) != 0 ? -(int64_t)x_size : (int64_t)x_size;
    int64_t y_key = (y & sign) != 0 ? -(int64_t)y_size : (int64_t)y_size;
    return order_signed(x_key, y_key);
}

static uint32_t flush(uint32_t x)
{
    return (x & UINT32_C(0x7F800000)) == 0 ? x & UINT32_C(0x80000000) : x;
}

/* Whether compared values of the type are flushed: singles alone, and without `ftz` at the two oldest targets alone. */
static bool flushes(const Record *rec, Word type, Target target)
{
    return type == W_F32 && (rec->ftz || target < SM_20);
}

/* The low `width` bits of x (8, 16 or 32; none above) as an exact number. */
static int64_t number_of(uint32_t x, unsigned width, Word type)
{
    int64_t sign = INT64_C(1) << (width - 1);
    int64_t n = x;
    return (type == W_S32 || type == W_S16) && n >= sign ? n - 2 * sign : n;
}

static uint32_t low_bits(unsigned width)
{
    return UINT32_MAX >> (32 - width);
}

static int64_t part_number(uint32_t word, Part part, Word type)
{
    return number_of((word >> part.shift) & low_bits(part.width), part.width, type);
}

static int64_t least(int64_t x, int64_t y) { return x < y ? x : y; }
static int64_t greatest(int64_t x, int64_t y) { return x > y ? x : y; }

static int64_t clamp(int64_t n, Word type, unsigned width)
{
    int64_t size = INT64_C(1) << width;
    int64_t low = type == W_S32 ? -(size / 2) : 0;
    return greatest(low, least(n, low + size - 1));
}

/* Rounds down, below zero too. */
static int64_t half_of(int64_t n)
{
    return n < 0 ? -((1 - n) / 2) : n / 2;
}

static int64_t average(int64_t x, int64_t y)
{
    int64_t sum = x + y;
    return half_of(sum >= 0 ? sum + 1 : sum);
}

/* The exact result of a video opcode on two numbers, clamped to `width` bits of dtype if `sat`. */
static int64_t video_result(const Record *rec, int64_t x, int64_t y, unsigned width)
{
    int64_t n;
    switch (rec->op) {
    case W_VADD:     case W_VADD2:     case W_VADD4:     n = x + y; break;
    case W_VSUB:     case W_VSUB2:     case W_VSUB4:     n = x - y; break;
    case W_VABSDIFF: case W_VABSDIFF2: case W_VABSDIFF4: n = x < y ? y - x : x - y; break;
    case W_VMIN:     case W_VMIN2:     case W_VMIN4:     n = least(x, y); break;
    case W_VMAX:     case W_VMAX2:     case W_VMAX4:     n = greatest(x, y); break;
    case W_VAVRG2:   case W_VAVRG4:                      n = average(x, y); break;
    default: /* vset */                                  n = (order_signed(x, y) & accepts[rec->cmp]) != 0; break;
    }
    return rec->sat ? clamp(n, rec->dtype, width) : n;
}

static uint32_t scalar_video(const Record *rec, uint32_t a, uint32_t b, uint32_t c)
{
    int64_t x = part_number(a, rec->apart, rec->atype);
    int64_t y = part_number(b, rec->bpart, rec->btype);
    int64_t n = video_result(rec, x, y, rec->dpart.width);

    int64_t c_number = number_of(c, 32, rec->dtype);
    switch (rec->second) {
    case W_ADD: n += c_number; break;
    case W_MIN: n = least(n, c_number); break;
    case W_MAX: n = greatest(n, c_number); break;
    default: break;
    }

    uint32_t place = low_bits(rec->dpart.width) << rec->dpart.shift;
    return (((uint32_t)n << rec->dpart.shift) & place) | (c & ~place);
}

static uint32_t simd_video(const Record *rec, uint32_t a, uint32_t b, uint32_t c)
{
    unsigned lanes = lanes_of(rec->op);
    unsigned width = 32 / lanes;
    uint64_t parts = (uint64_t)b << 32 | a;
    uint32_t merged = 0;
    uint32_t sum = 0;           /* of the exact results; their low 32 bits are enough */

    for (unsigned i = 0; i < lanes; i++) {
        uint32_t lane = low_bits(width) << (width * i);
        if ((rec->mask >> i & 1) == 0) {
            merged |= c & lane;
            continue;
        }
        uint32_t x = (uint32_t)(parts >> (width * rec->asel[i])) & low_bits(width);
        uint32_t y = (uint32_t)(parts >> (width * rec->bsel[i])) & low_bits(width);
        int64_t n = video_result(rec, number_of(x, width, rec->atype),
                                 number_of(y, width, rec->btype), width);
        merged |= ((uint32_t)n << (width * i)) & lane;
        sum += (uint32_t)n;
    }
    return rec->second == W_ADD ? c + sum : merged;
}

/* t of set and setp. */
static bool comparison(const Machine *m, const Record *rec, Target target)
{
    const uint64_t sign64 = UINT64_C(1) << 63;
    unsigned order;

    if (is_wide(rec->atype)) {
        uint64_t x = m->rd[rec->a];
        uint64_t y = m->rd[rec->b];
        if (rec->atype == W_F64)
            order = order_float(x, y, sign64, UINT64_C(0x7FF0000000000000));
        else if (rec->atype == W_S64)
            order = order_unsigned(x ^ sign64, y ^ sign64);
        else
            order = order_unsigned(x, y);
    } else if (is_half(rec->atype)) {
        uint16_t x = m->rs[rec->a], y = m->rs[rec->b];
        order = order_signed(number_of(x, 16, rec->atype), number_of(y, 16, rec->atype));
    } else {
        uint32_t x = m->r[rec->a];
        uint32_t y = m->r[rec->b];
        if (flushes(rec, rec->atype, target)) {
            x = flush(x);
            y = flush(y);
        }
        if (rec->atype == W_F32)
            order = order_float(x, y, UINT64_C(0x80000000), UINT64_C(0x7F800000));
        else
            order = order_signed(number_of(x, 32, rec->atype),
                                 number_of(y, 32, rec->atype));
    }
    return (order & accepts[rec->cmp]) != 0;
}

static bool bool_op(Word op, bool t, bool c)
{
    switch (op) {
    case W_AND: return t && c;
    case W_OR:  return t || c;
    case W_XOR: return t != c;
    default:    return t;
    }
}

/* slct: c, flushed if `ftz`, is at or above zero. */
static bool at_or_above_zero(uint32_t c, Word type, bool ftz)
{
    c = ftz ? flush(c) : c;
    uint32_t size = c & UINT32_C(0x7FFFFFFF);
    bool negative = size != c;
    if (type == W_S32)
        return !negative;
    return size <= UINT32_C(0x7F800000) && (!negative || size == 0);
}

/* Executes the record, which the target allows; false if its guard skips it. */
static bool execute(Machine *m, const Record *rec, Target target)
{
    if (rec->guarded && (m->p[rec->guard] != 0) == rec->guard_negated)
        return false;

    switch (rec->op) {
    case W_SET: case W_SETP: {
        bool t = comparison(m, rec, target);
        bool c = rec->second != W_NONE && (m->p[rec->c] != 0) != rec->c_negated;
        bool first = bool_op(rec->second, t, c);
        bool second = bool_op(rec->second, !t, c);
        if (rec->op == W_SET) {
            uint32_t truth = rec->dtype == W_F32 ? UINT32_C(0x3F800000) : UINT32_MAX;
            m->r[rec->d] = first ? truth : 0;
        } else {
            if (rec->p != DROPPED)
                m->p[rec->p] = first;
            if (rec->q != DROPPED)
                m->p[rec->q] = second;
        }
        break;
    }

    case W_SELP: case W_SLCT: {
        bool pick_a = rec->op == W_SELP ? m->p[rec->c] == 1
                                        : at_or_above_zero(m->r[rec->c], rec->btype, flushes(rec, rec->btype, target));
        unsigned from = pick_a ? rec->a : rec->b;
        switch (file_of(rec->dtype)) {
        case FILE_RS: m->rs[rec->d] = m->rs[from]; break;
        case FILE_RD: m->rd[rec->d] = m->rd[from]; break;
        default:      m->r[rec->d] = m->r[from]; break;
        }
        break;
    }

    default:        /* video */
        m->r[rec->d] = (is_simd(rec->op) ? simd_video : scalar_video)
                           (rec, m->r[rec->a], m->r[rec->b], m->r[rec->c]);
        break;
    }
    return true;
}

/* ------------------------------------------------------------------------
 * Answers, collected in one buffer
 * ------------------------------------------------------------------------ */

enum { OUTPUT_SIZE = 65536, OUTPUT_LINE_MOST = 256 };

static Byte output[OUTPUT_SIZE];
static size_t output_length;

static void flush_output(void)
{
    write_output(output, output_length);
    output_length = 0;
}

/* Makes room for one line of answer. */
static void begin_line(void)
{
    if (output_length > OUTPUT_SIZE - OUTPUT_LINE_MOST)
        flush_output();
}

static void put_byte(Byte b)
{
    output[output_length++] = b;
}

static void put(const void *from, size_t length)
{
    memcpy(output + output_length, from, length);
    output_length += length;
}

static void put_string(const char *s)
{
    put(s, strlen(s));
}

static void put_decimal(unsigned n)
{
    Byte digits[10];
    unsigned at = sizeof digits;
    do {
        digits[--at] = (Byte)('0' + n % 10);
        n /= 10;
    } while (n != 0);
    put(digits + at, sizeof digits - at);
}

static void put_hex(uint64_t n, unsigned digits)
{
    while (digits-- > 0)
        put_byte((Byte)"0123456789ABCDEF"[n >> (4 * digits) & 15]);
}

/*
 * The standard line.  Guards, heads and operands have one spelling each,
 * apart from default masks and selectors, which the reader has cut off; so
 * the texts of the line itself are joined in the standard way.  Inline, since
 * the probe calls it as well and the listing shall not become slower by that.
 */
static inline void put_standard_line(const Line *line)
{
    if (line->guarded) {
        put(line->guard_text.at, line->guard_text.length);
        put_byte(' ');
    }
    put(line->head.at, line->head.length);
    for (unsigned i = 0; i < line->operands; i++) {
        if (i > 0)
            put_byte(',');
        put_byte(' ');
        put(line->operand[i].text.at, line->operand[i].text.length);
    }
    put_byte(';');
}

/* The number and, of refusals 2 to 7, the place. */
static void put_refusal(Refusal refusal, const Line *line)
{
    put_string("refused ");
    put_decimal(refusal);
    if (has_place(refusal)) {
        put_byte(' ');
        put_decimal((unsigned)line->place);
    }
}

static void put_operand(File file, unsigned number)
{
    put_string(lent[file].name);
    put_decimal(number);
}

static void put_changed_places_of(const Machine *m, File file)
{
    for (unsigned n = 0; n < lent[file].places; n++) {
        uint64_t value = value_at(m, file, n);
        if (value == start_value(file, n))
            continue;
        begin_line();
        put_operand(file, n);
        put_byte(' ');
        put_hex(value, lent[file].digits);
        put_byte('\n');
    }
}

static void put_changed_registers(const Machine *m)
{
    for (int file = FILE_R; file < FILES; file++)
        put_changed_places_of(m, (File)file);
}

/* ------------------------------------------------------------------------
 * The listing
 * ------------------------------------------------------------------------ */

static void run_listing(const Byte *p, const Byte *end, Target target, Mode mode, Machine *m)
{
    Line line;
    Record rec;

    for (unsigned number = 1; p < end; number++) {
        const Byte *feed = memchr(p, '\n', (size_t)(end - p) + 1);
        Refusal refusal = read_line(p, (size_t)(feed - p), target, mode, &line, &rec);
        begin_line();
        put_decimal(number);
        if (refusal != ACCEPTED) {
            put_byte(' ');
            put_refusal(refusal, &line);
        } else {
            put_string(execute(m, &rec, target) ? " done " : " skipped ");
            put_standard_line(&line);
        }
        put_byte('\n');
        p = feed + 1;
    }
}

static int listing_program(Target target, Mode mode)
{
    static Byte input[INPUT_MOST + 1];
    static Machine machine;

    size_t length = read_input(input, sizeof input);
    if (length > INPUT_MOST) {
        put_string("input too long\n");
        flush_output();
        return 0;
    }
    input[length] = '\n';       /* ends a last line without its line feed */

    fill_dictionary();
    start_machine(&machine);
    run_listing(input, input + length, target, mode, &machine);
    put_changed_registers(&machine);
    flush_output();
    return 0;
}

#if defined OWN_IO || defined RAW_IO

int main(void)
{
    return listing_program(SM_30, ORDINARY);
}

#else

/* ------------------------------------------------------------------------
 * The names of the targets, in data and as arguments
 * ------------------------------------------------------------------------ */

static bool read_target(const char *name, Target *target)
{
    static const char *const names[TARGETS] = { "sm_10", "sm_13", "sm_20", "sm_30" };
    for (*target = SM_10; *target < TARGETS; ++*target)
        if (strcmp(name, names[*target]) == 0)
            return true;
    return false;
}

/* ------------------------------------------------------------------------
 * The probe.  Registers are zero at the start.  `=%r5 7FC00000` sets one, `!`
 * sets all to zero; any other line is executed and shown with what it wrote.
 * ------------------------------------------------------------------------ */

/* The greatest value that a register of the file holds; a predicate is a byte. */
static uint64_t greatest_value(File file)
{
    return file == FILE_P ? UINT8_MAX : UINT64_MAX >> (64 - 4 * lent[file].digits);
}

/* 1 to 16 hexadecimal digits in capitals; NULL if there are none, or more. */
static const Byte *read_hex(const Byte *p, uint64_t *value)
{
    const Byte *start = p;
    *value = 0;
    for (; is_digit(*p) || (*p >= 'A' && *p <= 'F'); p++)
        *value = *value << 4 | (uint64_t)(is_digit(*p) ? *p - '0' : *p - 'A' + 10);
    return p > start && p - start <= 16 ? p : NULL;
}

/* `=`, a register, a space and a value that it holds; false changes nothing. */
static bool read_setting(const Byte *p, Machine *m)
{
    Place place;
    uint64_t value;
    if (*p != '=')
        return false;
    p = read_register(p + 1, &place);
    if (p == NULL || !number_fits(place) || *p != ' ')
        return false;
    p = read_hex(p + 1, &value);
    if (p == NULL || *p != '\n' || value > greatest_value(place.file))
        return false;
    set_register(m, place.file, place.number, value);
    return true;
}

static bool has_byte_over_1(const Byte *p)
{
    for (unsigned n = 0; n < P_COUNT; n++)
        if (p[n] > 1)
            return true;
    return false;
}

static void put_destination(const Machine *m, File file, unsigned number)
{
    put_byte(' ');
    put_operand(file, number);
    put_byte('=');
    put_hex(value_at(m, file, number), lent[file].digits);
}

/* Every register that the record wrote, in the order of its operands. */
static void put_destinations(const Machine *m, const Record *rec)
{
    if (rec->op == W_SETP) {
        if (rec->p != DROPPED)
            put_destination(m, FILE_P, rec->p);
        if (rec->q != DROPPED)
            put_destination(m, FILE_P, rec->q);
    } else if (rec->op == W_SELP || rec->op == W_SLCT) {
        put_destination(m, file_of(rec->dtype), rec->d);
    } else {
        put_destination(m, FILE_R, rec->d);
    }
}

static void put_probe_answer(const Byte *p, size_t length, Target target, Mode mode, Machine *m)
{
    Line line;
    Record rec;
    Refusal refusal = read_line(p, length, target, mode, &line, &rec);
    if (refusal == ACCEPTED && has_byte_over_1(m->p))
        refusal = BAD_PREDICATE;
    if (refusal != ACCEPTED) {
        put_refusal(refusal, &line);
    } else {
        bool done = execute(m, &rec, target);
        put_string(done ? "done " : "skipped ");
        put_standard_line(&line);
        if (done)
            put_destinations(m, &rec);
    }
    put_byte('\n');
    flush_output();
}

/* The next line with a line feed behind it; of one that is too long, as much as shows that. */
static bool next_line(Byte line[LINE_MOST + 2], size_t *length)
{
    int byte;
    *length = 0;
    while ((byte = getchar()) != EOF && byte != '\n')
        if (*length <= LINE_MOST)
            line[(*length)++] = (Byte)byte;
    line[*length] = '\n';
    return byte != EOF || *length > 0;
}

static int probe(Target target, Mode mode)
{
    static const Machine zero;
    Machine machine = zero;
    Byte line[LINE_MOST + 2];
    size_t length;

    fill_dictionary();
    while (next_line(line, &length)) {
        if (length == 1 && line[0] == '!')
            machine = zero;
        else if (!read_setting(line, &machine))
            put_probe_answer(line, length, target, mode, &machine);
    }
    return 0;
}

/* ------------------------------------------------------------------------
 * Samples: the tokens of the data lines.  What SAMPLES.md does not allow ends
 * the program.
 * ------------------------------------------------------------------------ */

enum { TOKEN_MOST = 24 };

static Byte token[TOKEN_MOST + 1];      /* a line feed stands behind its bytes */
static int behind;                      /* the byte behind it: a space or a line feed */
static unsigned long data_line;

static _Noreturn void bad_data(const char *why)
{
    flush_output();
    fprintf(stderr, "alone: line %lu of the data: %s\n", data_line, why);
    exit(2);
}

static void take_token(void)
{
    unsigned length = 0;
    if (behind == '\n')
        bad_data("too few tokens");
    while ((behind = getchar()) != ' ' && behind != '\n') {
        if (behind == EOF || length == TOKEN_MOST)
            bad_data("no end of the token");
        token[length++] = (Byte)behind;
    }
    token[length] = '\n';
    if (length == 0)
        bad_data("an empty token");
}

/* Takes the first token of the next line; false at the end of the data. */
static bool take_data_line(void)
{
    data_line++;
    int first = getchar();
    if (first == EOF)
        return false;
    ungetc(first, stdin);
    behind = ' ';
    take_token();
    return true;
}

static void end_data_line(void)
{
    if (behind != '\n')
        bad_data("too many tokens");
}

/* The decimal number of 1 to 3 digits at p, 0 to most. */
static const Byte *take_number_at(const Byte *p, unsigned most, unsigned *number)
{
    const Byte *start = p;
    for (*number = 0; is_digit(*p) && p - start < 3; p++)
        *number = *number * 10 + (unsigned)(*p - '0');
    if (p == start || *number > most)
        bad_data("no number, or out of its range");
    return p;
}

static unsigned take_number(unsigned most)
{
    unsigned number;
    take_token();
    if (*take_number_at(token, most, &number) != '\n')
        bad_data("no number");
    return number;
}

/* A field that the record may not use; then it is 0. */
static unsigned take_if(bool used, unsigned most)
{
    return take_number(used ? most : 0);
}

/* ------------------------------------------------------------------------
 * Samples: records.  Words of one class stand in the order of SAMPLES.md,
 * apart from the types.
 * ------------------------------------------------------------------------ */

/* A record and what only the text of its line has when it is read. */
typedef struct {
    Record rec;
    File d_file, a_file, b_file;
    bool pair;                  /* setp: `%p|_`, not `%p` */
} Sample;

static const Word type_words[] = {
    W_B32, W_B64, W_U32, W_U64, W_S32, W_S64, W_F32, W_F64, W_B16, W_U16, W_S16
};

static const File file_choices[] = { FILE_R, FILE_RD, FILE_RS };

/* b0 to b3, h0, h1, none. */
static const Part part_choices[] = {
    { 0, 8 }, { 8, 8 }, { 16, 8 }, { 24, 8 }, { 0, 16 }, { 16, 16 }, { 0, 32 }
};

static bool take_bool(void)             { return take_number(1) == 1; }
static unsigned take_register(void)     { return take_number(999); }
static Word take_video_type(void)       { return (Word)(W_U32 + take_number(1)); }
static Word take_type(void)             { return type_words[take_number(10)]; }
static Word take_cmp(Word last)         { return (Word)(W_EQ + take_number((unsigned)(last - W_EQ))); }
static File take_file(void)             { return file_choices[take_number(2)]; }

static void take_guard(Record *rec)
{
    unsigned guard = take_number(2);
    rec->guarded = guard != 0;
    rec->guard_negated = guard == 2;
    rec->guard = take_if(rec->guarded, 999);
}

static void take_scalar(Record *rec)
{
    static const unsigned x_most[] = { 0, 5, 2 };
    rec->atype = take_video_type();
    rec->btype = take_video_type();
    unsigned form = take_number(2);
    rec->d = take_register();
    unsigned x = take_number(x_most[form]);
    rec->dpart = form == 1 ? part_choices[x] : whole_word;
    rec->second = form == 2 ? (Word)(W_ADD + x) : W_NONE;
    rec->c = take_if(form != 0, 999);
    rec->apart = part_choices[take_number(6)];
    rec->a = take_register();
    rec->bpart = part_choices[take_number(6)];
    rec->b = take_register();
}

static void take_lane_digits(unsigned sel[4])
{
    for (unsigned i = 0; i < 4; i++)
        sel[i] = take_number(255);
}

/* `op` is the opcode with 2; those with 4 stand in the same order. */
static void take_lanes(Record *rec, Word op)
{
    rec->op = take_bool() ? (Word)(op + W_VSET4 - W_VSET2) : op;
    rec->atype = take_video_type();
    rec->btype = take_video_type();
    rec->second = take_bool() ? W_ADD : W_NONE;
    rec->d = take_register();
    rec->mask = take_number(15);
    rec->a = take_register();
    take_lane_digits(rec->asel);
    rec->b = take_register();
    take_lane_digits(rec->bsel);
    rec->c = take_register();
}

static void take_places(Sample *s)
{
    unsigned form = take_number(3);
    unsigned p = take_if(form != 3, 999);
    unsigned q = take_if(form == 1 || form == 3, 999);
    s->pair = form != 0;
    s->rec.p = form == 3 ? DROPPED : p;
    s->rec.q = form == 1 || form == 3 ? q : DROPPED;
}

static void take_comparison(Sample *s)
{
    s->rec.cmp = take_cmp(W_NAN);
    unsigned op = take_number(3);
    s->rec.second = op == 0 ? W_NONE : (Word)(W_AND + op - 1);
    s->rec.c_negated = take_if(op != 0, 1) == 1;
    s->rec.c = take_if(op != 0, 999);
    s->rec.ftz = take_bool();
    s->rec.atype = take_type();
    s->a_file = take_file();
    s->rec.a = take_register();
    s->b_file = take_file();
    s->rec.b = take_register();
}

static void take_choice(Sample *s)
{
    s->rec.dtype = take_type();
    s->d_file = take_file();
    s->rec.d = take_register();
    s->a_file = take_file();
    s->rec.a = take_register();
    s->b_file = take_file();
    s->rec.b = take_register();
    s->rec.c = take_register();
}

static void take_slct(Sample *s)
{
    unsigned c_type = take_number(2);
    s->rec.op = W_SLCT;
    s->rec.btype = c_type == 0 ? W_S32 : W_F32;
    s->rec.ftz = c_type == 2;
    take_choice(s);
}

/* What follows the letter `R`. */
static void take_record(Sample *s)
{
    Record *rec = &s->rec;
    memset(s, 0, sizeof *s);
    take_guard(rec);
    switch (take_number(7)) {
    case 0:
        rec->op = (Word)(W_VADD + take_number(4));
        rec->dtype = take_video_type();
        rec->sat = take_bool();
        take_scalar(rec);
        break;
    case 1:
        rec->op = W_VSET;
        rec->dtype = W_U32;
        rec->cmp = take_cmp(W_GE);
        take_scalar(rec);
        break;
    case 2:
        rec->cmp = take_cmp(W_GE);
        take_lanes(rec, W_VSET2);
        break;
    case 3:
        rec->op = W_SET;
        rec->dtype = (Word)(W_U32 + take_number(2));
        rec->d = take_register();
        take_comparison(s);
        break;
    case 4:
        rec->op = W_SETP;
        take_places(s);
        take_comparison(s);
        break;
    case 5:
        rec->op = W_SELP;
        take_choice(s);
        break;
    case 6:
        take_slct(s);
        break;
    default: {
        Word op = (Word)(W_VADD2 + take_number(5));
        rec->dtype = take_video_type();
        rec->sat = take_bool();
        take_lanes(rec, op);
        break;
    }
    }
}

/* ------------------------------------------------------------------------
 * Samples: which records are legal.  The files of operands that have but one
 * are not in a record.
 * ------------------------------------------------------------------------ */

static bool in_file(File file, unsigned number)
{
    return number_fits((Place){ file, number });
}

/* d's selector, or OP2, comes with c. */
static bool scalar_has_c(const Record *rec)
{
    return rec->second != W_NONE || rec->dpart.width != whole_word.width;
}

/* Digits of a lane selector; lanes that a form with 2 has not hold 0. */
static bool legal_digits(const unsigned sel[4], unsigned lanes)
{
    for (unsigned i = 0; i < 4; i++)
        if (i < lanes ? sel[i] >= 2 * lanes : sel[i] != 0)
            return false;
    return true;
}

static bool legal_lanes(const Record *rec)
{
    unsigned lanes = lanes_of(rec->op);
    return rec->mask != 0 && rec->mask < 1u << lanes &&
           legal_digits(rec->asel, lanes) && legal_digits(rec->bsel, lanes) &&
           in_file(FILE_R, rec->d) && in_file(FILE_R, rec->a) &&
           in_file(FILE_R, rec->b) && in_file(FILE_R, rec->c);
}

/* a and b of the file that the type has. */
static bool legal_sources(const Sample *s, Word type)
{
    File file = file_of(type);
    return s->a_file == file && in_file(file, s->rec.a) &&
           s->b_file == file && in_file(file, s->rec.b);
}

static bool legal_comparison(const Sample *s)
{
    const Record *rec = &s->rec;
    return compares(rec->cmp, rec->atype) && (!rec->ftz || rec->atype == W_F32) &&
           (rec->second == W_NONE || in_file(FILE_P, rec->c)) &&
           legal_sources(s, rec->atype);
}

static bool legal_places(const Record *rec)
{
    return (rec->p == DROPPED || in_file(FILE_P, rec->p)) &&
           (rec->q == DROPPED || in_file(FILE_P, rec->q)) &&
           rec->p != rec->q;
}

static bool legal_choice(const Sample *s)
{
    const Record *rec = &s->rec;
    return s->d_file == file_of(rec->dtype) &&
           in_file(s->d_file, rec->d) && legal_sources(s, rec->dtype) &&
           in_file(rec->op == W_SELP ? FILE_P : FILE_R, rec->c);
}

static bool legal(const Sample *s)
{
    const Record *rec = &s->rec;
    if (rec->guarded && !in_file(FILE_P, rec->guard))
        return false;
    if (is_simd(rec->op))
        return legal_lanes(rec);
    switch (rec->op) {
    case W_SET:
        return in_file(FILE_R, rec->d) && legal_comparison(s);
    case W_SETP:
        return legal_places(rec) && legal_comparison(s);
    case W_SELP: case W_SLCT:
        return legal_choice(s);
    default:        /* scalar video */
        return in_file(FILE_R, rec->d) && in_file(FILE_R, rec->a) && in_file(FILE_R, rec->b) &&
               (!scalar_has_c(rec) || in_file(FILE_R, rec->c));
    }
}

/* ------------------------------------------------------------------------
 * Samples: the standard line of a legal record
 * ------------------------------------------------------------------------ */

/* An operand behind another one. */
static void put_next(File file, unsigned number)
{
    put_string(", ");
    put_operand(file, number);
}

static void put_modifier(Word w)
{
    if (w != W_NONE) {
        put_byte('.');
        put_string(spelling[w]);
    }
}

static void put_part(Part part)
{
    if (part.width == whole_word.width)
        return;
    put_string(part.width == 8 ? ".b" : ".h");
    put_decimal(part.shift / part.width);
}

/* The highest lane is the leftmost digit; the default is left out. */
static void put_lane_selector(const unsigned sel[4], unsigned lanes, unsigned first)
{
    bool is_default = true;
    for (unsigned i = 0; i < lanes; i++)
        if (sel[i] != first + i)
            is_default = false;
    if (is_default)
        return;
    put_string(lanes == 2 ? ".h" : ".b");
    for (unsigned i = lanes; i-- > 0;)
        put_decimal(sel[i]);
}

static void put_mask(unsigned mask, unsigned lanes)
{
    if (mask == (1u << lanes) - 1)
        return;
    put_string(lanes == 2 ? ".h" : ".b");
    for (unsigned i = lanes; i-- > 0;)
        if ((mask >> i & 1) != 0)
            put_decimal(i);
}

static void put_scalar_operands(const Record *rec)
{
    put_operand(FILE_R, rec->d);
    put_part(rec->dpart);
    put_next(FILE_R, rec->a);
    put_part(rec->apart);
    put_next(FILE_R, rec->b);
    put_part(rec->bpart);
    if (scalar_has_c(rec))
        put_next(FILE_R, rec->c);
}

static void put_lane_operands(const Record *rec)
{
    unsigned lanes = lanes_of(rec->op);
    put_operand(FILE_R, rec->d);
    put_mask(rec->mask, lanes);
    put_next(FILE_R, rec->a);
    put_lane_selector(rec->asel, lanes, 0);
    put_next(FILE_R, rec->b);
    put_lane_selector(rec->bsel, lanes, lanes);
    put_next(FILE_R, rec->c);
}

static void put_place(unsigned number)
{
    if (number == DROPPED)
        put_byte('_');
    else
        put_operand(FILE_P, number);
}

static void put_comparison_operands(const Sample *s)
{
    const Record *rec = &s->rec;
    if (rec->op == W_SET) {
        put_operand(FILE_R, rec->d);
    } else {
        put_place(rec->p);
        if (s->pair) {
            put_byte('|');
            put_place(rec->q);
        }
    }
    put_next(s->a_file, rec->a);
    put_next(s->b_file, rec->b);
    if (rec->second != W_NONE) {
        put_string(rec->c_negated ? ", !" : ", ");
        put_operand(FILE_P, rec->c);
    }
}

static void put_choice_operands(const Sample *s)
{
    put_operand(s->d_file, s->rec.d);
    put_next(s->a_file, s->rec.a);
    put_next(s->b_file, s->rec.b);
    put_next(s->rec.op == W_SELP ? FILE_P : FILE_R, s->rec.c);
}

static bool is_vset(Word op) { return op == W_VSET || op == W_VSET2 || op == W_VSET4; }

/* Modifiers in the order of document 01's table. */
static void put_head(const Record *rec)
{
    put_string(spelling[rec->op]);
    switch (rec->op) {
    case W_SET: case W_SETP:
        put_modifier(rec->cmp);
        put_modifier(rec->second);
        put_modifier(rec->ftz ? W_FTZ : W_NONE);
        put_modifier(rec->op == W_SET ? rec->dtype : W_NONE);
        put_modifier(rec->atype);
        break;
    case W_SELP: case W_SLCT:
        put_modifier(rec->ftz ? W_FTZ : W_NONE);
        put_modifier(rec->dtype);
        put_modifier(rec->op == W_SLCT ? rec->btype : W_NONE);
        break;
    default:        /* video */
        put_modifier(is_vset(rec->op) ? W_NONE : rec->dtype);
        put_modifier(rec->atype);
        put_modifier(rec->btype);
        put_modifier(is_vset(rec->op) ? rec->cmp : W_NONE);
        put_modifier(rec->sat ? W_SAT : W_NONE);
        put_modifier(rec->second);
        break;
    }
}

static void put_record(const Sample *s)
{
    const Record *rec = &s->rec;
    if (rec->guarded) {
        put_string(rec->guard_negated ? "@!" : "@");
        put_operand(FILE_P, rec->guard);
        put_byte(' ');
    }
    put_head(rec);
    put_byte(' ');
    switch (rec->op) {
    case W_SET: case W_SETP:    put_comparison_operands(s); break;
    case W_SELP: case W_SLCT:   put_choice_operands(s); break;
    default:                    (is_simd(rec->op) ? put_lane_operands : put_scalar_operands)(rec); break;
    }
    put_byte(';');
}

/* ------------------------------------------------------------------------
 * Samples: writing
 * ------------------------------------------------------------------------ */

enum { BUFFER_MOST = 80, MARGIN = 8, ROOM = MARGIN + BUFFER_MOST + MARGIN };

/* Stores the standard line of a legal record and returns its length. */
static size_t standard_line(const Sample *s, Byte *to)
{
    size_t start = output_length;
    put_record(s);
    size_t length = output_length - start;
    output_length = start;      /* it was only collected there */
    memcpy(to, output + start, length);
    return length;
}

/* The length of the line, or minus the refusal. */
static int write_record(const Sample *s, Byte *buffer, size_t size)
{
    if (!legal(s))
        return -NOT_LEGAL;
    Byte line[LINE_MOST];
    size_t length = standard_line(s, line);
    if (length > size)
        return -SHORT_BUFFER;
    memcpy(buffer, line, length);
    return (int)length;
}

/*
 * Puts the answer for a buffer of `size` bytes, which begins behind a margin,
 * and `!` if the buffer and what lies around it are not as they have to be.
 */
static int put_written(const Sample *s, size_t size)
{
    Byte room[ROOM], wanted[ROOM];
    memset(room, '#', ROOM);
    memset(wanted, '#', ROOM);
    int answer = write_record(s, room + MARGIN, size);
    if (answer >= 0)
        standard_line(s, wanted + MARGIN);
    put_string(answer < 0 ? " -" : " ");
    put_decimal((unsigned)(answer < 0 ? -answer : answer));
    if (memcmp(room, wanted, ROOM) != 0)
        put_byte('!');
    return answer;
}

static void put_record_answer(const Sample *s)
{
    begin_line();
    put_byte(legal(s) ? '+' : '8');
    int length = put_written(s, BUFFER_MOST);
    if (length >= 0) {
        put_written(s, (size_t)length);
        put_written(s, (size_t)length - 1);
        put_written(s, 0);
        put_byte(' ');
        put_record(s);
    }
    put_byte('\n');
}

/* ------------------------------------------------------------------------
 * Samples: runs
 * ------------------------------------------------------------------------ */

enum { VALUES_MOST = 32, OPEN_MOST = 2 };

/* Lent files, with one place more than they should have. */
typedef struct {
    uint64_t value[FILES][R_COUNT + 1];
    unsigned length[FILES];
} Files;

typedef struct {
    Files files;
    Target target;
    unsigned opened;
    Place open[OPEN_MOST];
} Setup;

static uint64_t values[VALUES_MOST];    /* of the last line `V` */
static unsigned value_count;

static void start_files(Files *files)
{
    for (int file = FILE_R; file < FILES; file++) {
        files->length[file] = lent[file].places;
        for (unsigned n = 0; n <= lent[file].places; n++)
            files->value[file][n] = start_value((File)file, n);
    }
}

static bool usual_lengths(const Files *files)
{
    for (int file = FILE_R; file < FILES; file++)
        if (files->length[file] != lent[file].places)
            return false;
    return true;
}

/* As much of the value as the register holds. */
static void set_place(Files *files, Place place, uint64_t value)
{
    files->value[place.file][place.number] = value & greatest_value(place.file);
}

typedef enum { RUN_DONE, RUN_SKIPPED, RUN_REFUSED } Run;

static Run execute_record(const Sample *s, Target target, Files *files, Refusal *refusal)
{
    Machine m;
    for (int file = FILE_R; file < FILES; file++)
        for (unsigned n = 0; n < lent[file].places; n++)
            set_register(&m, (File)file, n, files->value[file][n]);
    *refusal = !legal(s) ? NOT_LEGAL
             : target < needed_target(&s->rec) ? TOO_OLD
             : !usual_lengths(files) ? BAD_LENGTHS
             : has_byte_over_1(m.p) ? BAD_PREDICATE : ACCEPTED;
    if (*refusal != ACCEPTED)
        return RUN_REFUSED;
    bool done = execute(&m, &s->rec, target);
    for (int file = FILE_R; file < FILES; file++)
        for (unsigned n = 0; n < lent[file].places; n++)
            files->value[file][n] = value_at(&m, (File)file, n);
    return done ? RUN_DONE : RUN_SKIPPED;
}

static void put_changed_places(const Files *before, const Files *after)
{
    for (int file = FILE_R; file < FILES; file++)
        for (unsigned n = 0; n <= lent[file].places; n++) {
            if (after->value[file][n] == before->value[file][n])
                continue;
            put_byte(lent[file].letter);
            put_decimal(n);
            put_byte('=');
            put_hex(after->value[file][n], lent[file].digits);
        }
}

static void put_run(const Sample *s, Target target, const Files *before)
{
    Files after = *before;
    Refusal refusal;
    Run run = execute_record(s, target, &after, &refusal);
    put_byte((Byte)"+~-"[run]);
    if (run == RUN_REFUSED)
        put_decimal(refusal);
    put_changed_places(before, &after);
}

static void put_runs(const Sample *s, const Setup *setup)
{
    unsigned rows = setup->opened == OPEN_MOST ? value_count : 1;
    unsigned columns = setup->opened > 0 ? value_count : 1;
    for (unsigned row = 0; row < rows; row++) {
        for (unsigned column = 0; column < columns; column++) {
            Files files = setup->files;
            if (setup->opened == OPEN_MOST)
                set_place(&files, setup->open[0], values[row]);
            if (setup->opened > 0)
                set_place(&files, setup->open[setup->opened - 1], values[column]);
            begin_line();
            if (column > 0)
                put_byte(' ');
            put_run(s, setup->target, &files);
        }
        put_byte('\n');
    }
}

/* `r3=7FC00000`, or `r3` alone: an open register. */
static void take_place(File file, Setup *setup)
{
    Place place = { file, 0 };
    uint64_t value;
    const Byte *p = take_number_at(token + 1, lent[file].places, &place.number);
    if (*p == '=') {
        p = read_hex(p + 1, &value);
        if (p == NULL || value > greatest_value(file))
            bad_data("no value of the register");
        set_place(&setup->files, place, value);
    } else {
        if (setup->opened == OPEN_MOST || value_count == 0)
            bad_data("too many open registers, or no values for them");
        setup->open[setup->opened++] = place;
    }
    if (*p != '\n')
        bad_data("no token of a line X");
}

static void take_length(File file, Setup *setup)
{
    if (*take_number_at(token + 1, lent[file].places + 1, &setup->files.length[file]) != '\n')
        bad_data("no length");
}

/* `T13`: the target is sm_13. */
static void take_target(Setup *setup)
{
    char name[TOKEN_MOST + 3] = "sm_";
    for (unsigned i = 1; token[i] != '\n'; i++)
        name[i + 2] = (char)token[i];
    if (!read_target(name, &setup->target))
        bad_data("no target");
}

/* What follows the letter `X`. */
static void take_setup(Setup *setup)
{
    setup->opened = 0;
    setup->target = SM_30;
    start_files(&setup->files);
    while (behind != '\n') {
        File file = FILE_R;
        take_token();
        if (token[0] == 'T') {
            take_target(setup);
            continue;
        }
        while (file < FILES && (token[0] | 0x20) != lent[file].letter)
            file++;
        if (file == FILES)
            bad_data("no token of a line X");
        if (token[0] == lent[file].letter)
            take_place(file, setup);
        else
            take_length(file, setup);
    }
}

/* What follows the letter `V`. */
static void take_values(void)
{
    for (value_count = 0; behind != '\n'; value_count++) {
        if (value_count == VALUES_MOST)
            bad_data("too many values");
        take_token();
        const Byte *p = read_hex(token, &values[value_count]);
        if (p == NULL || *p != '\n')
            bad_data("no value");
    }
}

static int samples(void)
{
    Sample sample;
    Setup setup;
    bool has_record = false;

    while (take_data_line()) {
        Byte letter = token[1] == '\n' ? token[0] : 0;
        if (letter == 'R') {
            take_record(&sample);
            has_record = true;
            end_data_line();
            put_record_answer(&sample);
        } else if (letter == 'X' && has_record) {
            take_setup(&setup);
            put_runs(&sample, &setup);
        } else if (letter == 'V') {
            take_values();
        } else {
            bad_data("no letter of a data line, or X with no record");
        }
    }
    flush_output();
    return 0;
}

/* What the arguments ask for. */
typedef struct {
    const char *name;           /* of the target, or NULL */
    Mode mode;
    const char *work;           /* `--probe` or `--samples`, or NULL: the listing program */
} Asked;

/* NAME, or NAME and `strict`. */
static bool read_words(int count, char **word, Asked *asked)
{
    asked->name = word[0];
    asked->mode = count == 2 ? STRICT : ORDINARY;
    return count == 1 || (count == 2 && strcmp(word[1], "strict") == 0);
}

/* Options, in any order, each at most once. */
static bool read_options(int count, char **option, Asked *asked)
{
    for (int i = 0; i < count; i++) {
        if (strcmp(option[i], "--target") == 0 && i + 1 < count && asked->name == NULL)
            asked->name = option[++i];
        else if (strcmp(option[i], "--strict") == 0 && asked->mode == ORDINARY)
            asked->mode = STRICT;
        else if ((strcmp(option[i], "--probe") == 0 || strcmp(option[i], "--samples") == 0) && asked->work == NULL)
            asked->work = option[i];
        else
            return false;
    }
    return true;
}

int main(int argc, char **argv)
{
    Target target = SM_30;
    Asked asked = { NULL, ORDINARY, NULL };
    bool words = argc > 1 && argv[1][0] != '-';
    bool known = words ? read_words(argc - 1, argv + 1, &asked) : read_options(argc - 1, argv + 1, &asked);
    bool is_samples = asked.work != NULL && strcmp(asked.work, "--samples") == 0;
    if (!known || (is_samples && argc > 2)) {
        fputs("usage: alone [NAME [strict] | [--target NAME] [--strict] [--probe] | --samples]\n", stderr);
        return 2;
    }
    if (asked.name != NULL && !read_target(asked.name, &target)) {
        fprintf(stderr, "alone: no target has the name %s\n", asked.name);
        return 2;
    }
    if (is_samples)
        return samples();
    return asked.work != NULL ? probe(target, asked.mode) : listing_program(target, asked.mode);
}

#endif
