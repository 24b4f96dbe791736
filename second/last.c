/* last WORD < listing: request T-11 by the documents and FORM-LAST.md alone, as NOTES-T-11.md explains it (numbers in brackets are its choices).
   A full reading from the front: for each word, `%r0` to `%r63`, the last accepted line that has it as destination is kept.
   last --kinds < listing: how often each kind of event occurred among the questions after `%r0` to `%r64` there, `NUMBER KIND`; it fails if the first operand and the record disagree on the destination.
   A line is read by alone.c, which is taken in as it stands. */
#define main alone_main
#include "alone.c"
#undef main
#include <stdarg.h>

enum { LISTING_TOO_LONG = 22 };

typedef struct {
    unsigned line;              /* its number, from 1; 0 if there is none so far */
    size_t start, length;       /* without its line feed */
} Writer;

static Byte listing[INPUT_MOST + 3];    /* one byte more shows that it is too long, one line feed behind it; room for faulty variants */
static size_t size;
static Writer writer[R_COUNT + 1];      /* by number; room for faulty variants */

/* Whether the line, which is accepted, has a word as destination: d is the first operand [10] [12] [13]; `%rs`, `%rd` and `%p` are other files [11]. */
static bool word_written(const Line *line, unsigned *number)
{
    const Operand *d = &line->operand[0];
    *number = d->first.number;
    return d->first.file == FILE_R;
}

static Refusal read_at(size_t start, size_t length, Line *line, Record *rec)
{
    return judge_line(listing + start, length, SM_30, ORDINARY, line, rec);     /* [5] [6] */
}

static size_t feed_behind(size_t start)
{
    while (listing[start] != '\n')
        start++;
    return start;
}

static void read_from_the_front(void)
{
    Line line;
    Record rec;
    unsigned n = 0, d = 0;
    listing[size] = '\n';               /* ends a last line without its line feed */
    for (size_t start = 0, end; start < size; start = end + 1) {        /* [1] [2] [3] */
        end = feed_behind(start);
        n++;                            /* [4] */
        if (read_at(start, end - start, &line, &rec) != ACCEPTED)       /* [9] */
            continue;
        if (word_written(&line, &d))    /* guarded or not [7] [16]; a later one takes the place of an earlier one [14] */
            writer[d] = (Writer){ n, start, end - start };
    }
}

/* The request's refusal for a register, 0 if there is none [23] [24]. */
static unsigned refusal_for(unsigned number)
{
    if (size > INPUT_MOST)
        return LISTING_TOO_LONG;
    if (number >= R_COUNT)
        return BAD_NUMBER;
    return 0;
}

static void put_refused(unsigned refusal)
{
    put_string("refused ");
    put_decimal(refusal);
}

/* The answer of the request: the distance of the line's first byte from the end of the listing [17] [18]. */
static void put_distance(unsigned number)
{
    unsigned refusal = refusal_for(number);
    put_operand(FILE_R, number);
    put_byte(' ');
    if (refusal != 0)
        put_refused(refusal);
    else if (writer[number].line == 0)
        put_string("none");             /* [20] */
    else
        put_decimal((unsigned)(size - writer[number].start));
    put_byte('\n');
}

static void put_last(unsigned number)
{
    unsigned refusal = refusal_for(number);
    if (refusal != 0) {
        put_refused(refusal);
    } else if (writer[number].line == 0) {
        put_string("none");
    } else {
        const Writer *w = &writer[number];
        Line line;
        Record rec;
        read_at(w->start, w->length, &line, &rec);
        put_decimal(w->line);
        put_byte(' ');
        put_standard_line(&line);       /* [26] */
    }
    put_byte('\n');
}

/* `%rN` [25] */
static bool read_word(const char *word, unsigned *number)
{
    Place place;
    const Byte *end = read_register((const Byte *)word, &place);
    if (end == NULL || *end != '\0' || place.file != FILE_R)
        return false;
    *number = place.number;
    return true;
}

static int kinds(void);

int main(int argc, char **argv)
{
    const char *word = argc == 2 ? argv[1] : "";
    bool all = strcmp(word, "distances") == 0, of_kinds = strcmp(word, "--kinds") == 0;
    unsigned number = 0;
    if (!all && !of_kinds && !read_word(word, &number)) {
        fputs("usage: last %rN | distances | --kinds < listing\n", stderr);
        return 2;
    }
    fill_dictionary();
    size = read_input(listing, INPUT_MOST + 1);
    if (of_kinds)
        return kinds();
    if (size <= INPUT_MOST)
        read_from_the_front();
    if (!all)
        put_last(number);
    for (number = 0; all && number <= R_COUNT; number++)        /* [27] */
        put_distance(number);
    flush_output();
    return 0;
}

/* ------------------------------------------------------------------------
 * The kinds of events, counted by a second walk through the listing.  It asks
 * alone.c for the refusals and finds destinations by the record's operation.
 * ------------------------------------------------------------------------ */

enum { KINDS_MOST = 400, NAME_MOST = 80 };

static struct {
    char name[NAME_MOST];
    unsigned long count;
} kind[KINDS_MOST];
static unsigned kind_count;

static _Noreturn void stop(const char *why, const char *what)
{
    fprintf(stderr, "last --kinds: %s: %s\n", why, what);
    exit(1);
}

static unsigned kind_of(const char *name)
{
    unsigned i = 0;
    while (i < kind_count && strcmp(kind[i].name, name) != 0)
        i++;
    return i;
}

static void declare(const char *format, ...)
{
    char name[NAME_MOST];
    va_list list;
    va_start(list, format);
    vsnprintf(name, sizeof name, format, list);
    va_end(list);
    if (kind_of(name) < kind_count || kind_count == KINDS_MOST)
        stop("declared twice, or too many", name);
    strcpy(kind[kind_count++].name, name);
}

static void hit(const char *format, ...)
{
    char name[NAME_MOST];
    va_list list;
    va_start(list, format);
    vsnprintf(name, sizeof name, format, list);
    va_end(list);
    unsigned i = kind_of(name);
    if (i == kind_count)
        stop("not declared", name);
    kind[i].count++;
}

static void hit_if(bool occurred, const char *name)
{
    if (occurred)
        hit("%s", name);
}

/* What may lie behind the found line, since the register was last written. */
#define EVENTS \
    E(REF_1, "behind it: refused 1, with it as destination") \
    E(REF_2, "behind it: refused 2, with it named first") \
    E(REF_3, "behind it: refused 3, with it as destination") \
    E(REF_4, "behind it: refused 4, with it as destination") \
    E(REF_5, "behind it: refused 5, with it as destination") \
    E(REF_6, "behind it: refused 6, with it as destination") \
    E(REF_7, "behind it: refused 7, with that number twice") \
    E(REF_A, "behind it: a refused line, with it as another operand") \
    E(SRC_A, "behind it: a source a") \
    E(SRC_B, "behind it: a source b") \
    E(SRC_C, "behind it: a source c") \
    E(RD, "behind it: %rd with that number as destination") \
    E(RS, "behind it: %rs with that number as destination") \
    E(P_ONE, "behind it: %p with that number alone as destination") \
    E(P_DROP, "behind it: %p with that number and _") \
    E(DROP_P, "behind it: _ and %p with that number") \
    E(P_FIRST, "behind it: %p with that number first of two") \
    E(P_SECOND, "behind it: %p with that number second of two") \
    E(GUARD, "behind it: %p with that number as guard") \
    E(EMPTY, "behind it: an empty line") \
    E(BLANK, "behind it: a line of blanks") \
    E(RETURN, "behind it: accepted but for a carriage return, with it as destination") \
    E(UNENDED, "behind it: accepted but for a missing semicolon, with it as destination") \
    E(TAIL, "behind it: the tail of a line over 160 bytes, with it as destination") \
    E(HEADED, "behind it: a line over 160 bytes that is all right but for its length")

enum {
#define E(name, text) E_##name,
    EVENTS
#undef E
    EVENT_COUNT
};

static const char *const event_text[] = {
#define E(name, text) text,
    EVENTS
#undef E
};

typedef struct {
    uint64_t events;                    /* since it was last written */
    unsigned writers;
    bool guarded_before, bare_before;   /* writers before the last one */
    bool was_guarded;                   /* the last one */
} Seen;

static Seen seen[1000];

static void note(unsigned number, unsigned event) { seen[number].events |= UINT64_C(1) << event; }

static void note_all(unsigned event)
{
    for (unsigned n = 0; n < R_COUNT; n++)
        note(n, event);
}

static bool has_event(unsigned n, unsigned event) { return (seen[n].events >> event & 1) != 0; }

/* The destination by the operation of the record [10]. */
static bool word_by_record(const Record *rec, unsigned *number)
{
    *number = rec->d;
    if (rec->op == W_SETP)
        return false;
    if (rec->op == W_SELP || rec->op == W_SLCT)
        return rec->dtype == W_B32 || rec->dtype == W_U32 || rec->dtype == W_S32 || rec->dtype == W_F32;
    return true;
}

/* Whether these bytes and a line feed behind them were accepted with a word as destination. */
static bool would_write(const Byte *p, size_t length, const char *more, unsigned *number)
{
    static Byte copy[LINE_MOST + 3];
    Line line;
    Record rec;
    size_t behind = strlen(more);
    if (length + behind > LINE_MOST)
        return false;
    memcpy(copy, p, length);
    memcpy(copy + length, more, behind);
    copy[length + behind] = '\n';
    return judge_line(copy, length + behind, SM_30, ORDINARY, &line, &rec) == ACCEPTED && word_by_record(&rec, number);
}

static void note_refused(const Byte *p, size_t length, Refusal refusal)
{
    Line line;
    unsigned d;
    size_t blanks = 0;
    while (blanks < length && is_blank(p[blanks]))
        blanks++;
    if (length == 0)
        note_all(E_EMPTY);
    else if (blanks == length)
        note_all(E_BLANK);
    if (length > 0 && p[length - 1] == '\r' && would_write(p, length - 1, "", &d))
        note(d, E_RETURN);
    if (would_write(p, length, ";", &d))
        note(d, E_UNENDED);
    if (refusal == TOO_LONG) {
        for (size_t tail = length - 1; tail > length - LINE_MOST; tail--)
            if (would_write(p + tail, length - tail, "", &d))
                note(d, E_TAIL);
        if (would_write(p + blanks, length - blanks, "", &d))
            note(d, E_HEADED);
        else
            while (length > LINE_MOST && is_blank(p[length - 1]))
                if (would_write(p, --length, "", &d))
                    note(d, E_HEADED);
    }
    if (refusal == NO_SHAPE) {
        for (size_t i = 0; i + 2 < length; i++) {
            if (p[i] != '%' || p[i + 1] != 'r' || !is_digit(p[i + 2]))
                continue;
            unsigned n = (unsigned)(p[i + 2] - '0');
            if (i + 3 < length && is_digit(p[i + 3]))
                n = 10 * n + (unsigned)(p[i + 3] - '0');
            note(n, E_REF_2);
            return;
        }
        return;
    }
    if (!read_shape(p, &line))
        return;
    for (unsigned i = 0; i < line.operands && i < OPERANDS_KEPT; i++) {
        const Operand *o = &line.operand[i];
        if (o->form != NEGATED && o->first.file == FILE_R)
            note(o->first.number, i > 0 ? E_REF_A : E_REF_1 + (unsigned)refusal - 1);
    }
    if (refusal == SAME_PLACES)
        note(line.operand[0].first.number, E_REF_7);
}

static void note_accepted(const Line *line, const Record *rec)
{
    unsigned d, by_operand;
    bool writes = word_by_record(rec, &d);
    if (writes != word_written(line, &by_operand) || (writes && d != by_operand))
        stop("the first operand is not the destination of the record", spelling[rec->op]);
    if (writes) {
        Seen *s = &seen[d];
        s->events = 0;
        *(s->was_guarded ? &s->guarded_before : &s->bare_before) |= s->writers > 0;
        s->was_guarded = line->guarded;
        s->writers++;
    }
    for (unsigned i = 1; i < line->operands; i++) {
        const Operand *o = &line->operand[i];
        if (o->first.file == FILE_R && !(writes && o->first.number == d))
            note(o->first.number, E_SRC_A + i - 1);
    }
    if (line->guarded)
        note(line->guard.number, E_GUARD);
    if (writes)
        return;
    if (rec->op != W_SETP)
        note(d, file_of(rec->dtype) == FILE_RD ? E_RD : E_RS);
    else if (line->operand[0].form != PAIR)
        note(rec->p, E_P_ONE);
    else if (rec->q == DROPPED)
        note(rec->p, E_P_DROP);
    else if (rec->p == DROPPED)
        note(rec->q, E_DROP_P);
    else {
        note(rec->p, E_P_FIRST);
        note(rec->q, E_P_SECOND);
    }
}

static const char *const part_names[] = { "b0", "b1", "b2", "b3", "h0", "h1" };

static const char *part_name(Part part)
{
    return part_names[part.width == 8 ? part.shift / 8 : 4 + part.shift / 16];
}

static const char *width_name(Word type) { return is_wide(type) ? "64" : is_half(type) ? "16" : "32"; }

static void declare_kinds(void)
{
    static const char *const plain[] = {
        "listing: no byte", "listing: under 100 bytes", "listing: under 1,000 bytes", "listing: under 10,000 bytes", "listing: under 65,535 bytes",
        "listing: 65,535 bytes", "listing: 65,536 bytes", "listing: 65,537 bytes or more",
        "listing: ends in a line feed", "listing: ends in an empty line", "listing: last line without a line feed, accepted", "listing: last line without a line feed, refused",
        "listing: no accepted line", "listing: a NUL byte", "listing: a byte over 127", "listing: a carriage return", "listing: over 999 lines",
        "found: the first line", "found: the last line", "found: neither the first nor the last line", "found: the only line",
        "found: the only writer", "found: the second writer", "found: a later writer",
        "found: no guard", "found: a guard", "found: a guard with !", "found: guarded, and an unguarded writer before it", "found: unguarded, and a guarded writer before it",
        "found: a space in front", "found: a tab in front", "found: blanks before a guard", "found: a space behind", "found: a tab behind",
        "found: written as the standard line", "found: written otherwise", "found: with a default mask or selector",
        "found: without a line feed", "found: without a line feed, blanks in front", "found: of 159 bytes", "found: of 160 bytes",
        "found: refused in strict reading", "found: refused before sm_13", "found: refused before sm_20", "found: refused before sm_30",
        "found: also a", "found: also b", "found: also c", "found: %r0", "found: %r63", "found: a number of one digit", "found: a number of two digits",
        "found: at the first byte of 65,536",
        "none: named in no line", "none: a source", "none: in a refused line", "none: %rd with that number", "none: %rs with that number", "none: %p with that number",
        "none: no byte", "refused 6", "refused 22", "refused 22 and not 6"
    };
    static const Word second[] = { W_ADD, W_MIN, W_MAX }, words[] = { W_B32, W_U32, W_S32, W_F32 }, dtypes[] = { W_U32, W_S32, W_F32 }, bools[] = { W_NONE, W_AND, W_OR, W_XOR };
    static const char *const widths[] = { "16", "32", "64" };
    for (unsigned i = 0; i < sizeof plain / sizeof plain[0]; i++)
        declare("%s", plain[i]);
    for (unsigned i = 0; i < EVENT_COUNT; i++)
        declare("%s", event_text[i]);
    for (unsigned i = 2; i <= 5; i++)
        declare("found: a distance of %u digits", i);
    for (unsigned i = 1; i <= 5; i++)
        declare("found: a line number of %u digits", i);
    for (int op = W_VADD; op <= W_SLCT; op++)
        if (op != W_SETP)
            declare("found: %s", spelling[op]);
    for (int of = 0; of < 2; of++) {
        const char *name = of == 0 ? "scalar arithmetic" : "vset";
        declare("found: %s, three operands", name);
        for (unsigned i = 0; i < 3; i++)
            declare("found: %s, OP2 %s", name, spelling[second[i]]);
        for (unsigned i = 0; i < 6; i++)
            declare("found: %s, merge %s", name, part_names[i]);
    }
    declare("found: scalar arithmetic, sat");
    for (unsigned lanes = 2; lanes <= 4; lanes += 2)
        for (int add = 0; add < 2; add++)
            for (int mask = 0; mask < 2; mask++) {
                declare("found: vset%u%s, %s mask", lanes, add ? " add" : "", mask ? "a" : "full");
                for (int sat = 0; sat < 2; sat++)
                    declare("found: arithmetic with %u%s%s, %s mask", lanes, sat ? " sat" : "", add ? " add" : "", mask ? "a" : "full");
            }
    for (unsigned i = 0; i < 3; i++)
        for (unsigned j = 0; j < 3; j++)
            declare("found: set, dtype %s, %s bits", spelling[dtypes[i]], widths[j]);
    for (unsigned i = 0; i < 4; i++)
        declare("found: set, BoolOp %s", bools[i] == W_NONE ? "none" : spelling[bools[i]]);
    declare("found: set, c with !");
    declare("found: set, ftz");
    for (unsigned i = 0; i < 4; i++) {
        declare("found: selp %s", spelling[words[i]]);
        declare("found: slct %s s32", spelling[words[i]]);
        declare("found: slct %s f32", spelling[words[i]]);
        declare("found: slct ftz %s f32", spelling[words[i]]);
    }
}

static unsigned digits_of(size_t n)
{
    unsigned digits = 1;
    for (; n > 9; n /= 10)
        digits++;
    return digits;
}

static void hit_form(const Record *rec, unsigned operands)
{
    hit("found: %s", spelling[rec->op]);
    if (is_simd(rec->op)) {
        unsigned lanes = lanes_of(rec->op);
        const char *mask = rec->mask == (1u << lanes) - 1 ? "full" : "a", *add = rec->second == W_ADD ? " add" : "";
        if (rec->op == W_VSET2 || rec->op == W_VSET4)
            hit("found: vset%u%s, %s mask", lanes, add, mask);
        else
            hit("found: arithmetic with %u%s%s, %s mask", lanes, rec->sat ? " sat" : "", add, mask);
    } else if (rec->op == W_SET) {
        hit("found: set, dtype %s, %s bits", spelling[rec->dtype], width_name(rec->atype));
        hit("found: set, BoolOp %s", rec->second == W_NONE ? "none" : spelling[rec->second]);
        hit_if(rec->second != W_NONE && rec->c_negated, "found: set, c with !");
        hit_if(rec->ftz, "found: set, ftz");
    } else if (rec->op == W_SELP) {
        hit("found: selp %s", spelling[rec->dtype]);
    } else if (rec->op == W_SLCT) {
        hit("found: slct%s %s %s", rec->ftz ? " ftz" : "", spelling[rec->dtype], spelling[rec->btype]);
    } else {
        const char *name = rec->op == W_VSET ? "vset" : "scalar arithmetic";
        if (rec->second != W_NONE)
            hit("found: %s, OP2 %s", name, spelling[rec->second]);
        else if (operands == 3)
            hit("found: %s, three operands", name);
        else
            hit("found: %s, merge %s", name, part_name(rec->dpart));
        hit_if(rec->op != W_VSET && rec->sat, "found: scalar arithmetic, sat");
    }
}

static void hit_found(unsigned n, unsigned lines)
{
    const Writer *w = &writer[n];
    const Byte *p = listing + w->start;
    size_t distance = size - w->start;
    Line line;
    Record rec;
    if (read_at(w->start, w->length, &line, &rec) != ACCEPTED)
        stop("refused when read again", "found line");
    hit("found: a distance of %u digits", digits_of(distance));
    hit("found: a line number of %u digits", digits_of(w->line));
    hit_if(w->line == 1, "found: the first line");
    hit_if(w->line == lines, "found: the last line");
    hit_if(w->line != 1 && w->line != lines, "found: neither the first nor the last line");
    hit_if(lines == 1, "found: the only line");
    hit(seen[n].writers == 1 ? "found: the only writer" : seen[n].writers == 2 ? "found: the second writer" : "found: a later writer");
    hit(!line.guarded ? "found: no guard" : line.guard_negated ? "found: a guard with !" : "found: a guard");
    hit_if(line.guarded && seen[n].bare_before, "found: guarded, and an unguarded writer before it");
    hit_if(!line.guarded && seen[n].guarded_before, "found: unguarded, and a guarded writer before it");
    hit_if(p[0] == ' ', "found: a space in front");
    hit_if(p[0] == '\t', "found: a tab in front");
    hit_if(is_blank(p[0]) && line.guarded, "found: blanks before a guard");
    hit_if(p[w->length - 1] == ' ', "found: a space behind");
    hit_if(p[w->length - 1] == '\t', "found: a tab behind");
    size_t before = output_length;
    put_standard_line(&line);
    bool standard = output_length - before == w->length && memcmp(output + before, p, w->length) == 0;
    output_length = before;
    hit(standard ? "found: written as the standard line" : "found: written otherwise");
    bool shortened = false;
    for (unsigned i = 0; i < line.operands; i++)
        shortened |= line.operand[i].text.at[line.operand[i].text.length] == '.';
    hit_if(shortened, "found: with a default mask or selector");
    hit_if(distance == w->length, "found: without a line feed");
    hit_if(distance == w->length && is_blank(p[0]), "found: without a line feed, blanks in front");
    hit_if(w->length == 159, "found: of 159 bytes");
    hit_if(w->length == 160, "found: of 160 bytes");
    hit_if(is_against_itself(&rec), "found: refused in strict reading");
    hit_if(needed_target(&rec) == SM_13, "found: refused before sm_13");
    hit_if(needed_target(&rec) == SM_20, "found: refused before sm_20");
    hit_if(needed_target(&rec) == SM_30, "found: refused before sm_30");
    for (unsigned i = 1; i < line.operands; i++)
        if (line.operand[i].first.file == FILE_R && line.operand[i].first.number == n)
            hit("found: also %c", "dabc"[i]);
    hit_if(n == 0, "found: %r0");
    hit_if(n == 63, "found: %r63");
    hit(n < 10 ? "found: a number of one digit" : "found: a number of two digits");
    hit_if(distance == INPUT_MOST, "found: at the first byte of 65,536");
    hit_form(&rec, line.operands);
    for (unsigned event = 0; event < EVENT_COUNT; event++)
        if (has_event(n, event))
            hit("%s", event_text[event]);
}

static void hit_none(unsigned n)
{
    bool source = has_event(n, E_SRC_A) || has_event(n, E_SRC_B) || has_event(n, E_SRC_C), refused = has_event(n, E_REF_A);
    for (unsigned event = E_REF_1; event <= E_REF_6; event++)
        refused |= has_event(n, event);
    hit_if(!source && !refused, "none: named in no line");
    hit_if(source, "none: a source");
    hit_if(refused, "none: in a refused line");
    hit_if(has_event(n, E_RD), "none: %rd with that number");
    hit_if(has_event(n, E_RS), "none: %rs with that number");
    hit_if(has_event(n, E_P_ONE) || has_event(n, E_P_DROP) || has_event(n, E_DROP_P) || has_event(n, E_P_FIRST) || has_event(n, E_P_SECOND), "none: %p with that number");
    hit_if(size == 0, "none: no byte");
}

static void hit_questions(void)
{
    Line line;
    Record rec;
    unsigned lines = 0, accepted = 0;
    Refusal last = ACCEPTED;
    read_from_the_front();
    for (size_t start = 0, end; start < size; start = end + 1) {
        end = feed_behind(start);
        lines++;
        last = read_at(start, end - start, &line, &rec);
        if (last == ACCEPTED) {
            accepted++;
            note_accepted(&line, &rec);
        } else {
            note_refused(listing + start, end - start, last);
        }
    }
    hit(size == 0 ? "listing: no byte" : size < 100 ? "listing: under 100 bytes" : size < 1000 ? "listing: under 1,000 bytes" : size < 10000 ? "listing: under 10,000 bytes" :
        size < 65535 ? "listing: under 65,535 bytes" : size == 65535 ? "listing: 65,535 bytes" : "listing: 65,536 bytes");
    if (size > 0 && listing[size - 1] == '\n')
        hit(size == 1 || listing[size - 2] == '\n' ? "listing: ends in an empty line" : "listing: ends in a line feed");
    else if (size > 0)
        hit(last == ACCEPTED ? "listing: last line without a line feed, accepted" : "listing: last line without a line feed, refused");
    hit_if(accepted == 0, "listing: no accepted line");
    hit_if(memchr(listing, '\0', size) != NULL, "listing: a NUL byte");
    hit_if(memchr(listing, '\r', size) != NULL, "listing: a carriage return");
    size_t over = 0;
    while (over < size && listing[over] < 128)
        over++;
    hit_if(over < size, "listing: a byte over 127");
    hit_if(lines > 999, "listing: over 999 lines");
    for (unsigned n = 0; n < R_COUNT; n++) {
        if (writer[n].line != 0)
            hit_found(n, lines);
        else
            hit_none(n);
    }
}

static int kinds(void)
{
    declare_kinds();
    if (size <= INPUT_MOST)
        hit_questions();
    else
        hit("listing: 65,537 bytes or more");
    for (unsigned n = 0; n <= R_COUNT; n++) {
        unsigned refusal = refusal_for(n);
        hit_if(refusal == 22, "refused 22");
        hit_if(refusal == 22 && n == R_COUNT, "refused 22 and not 6");
        hit_if(refusal == 6, "refused 6");
    }
    for (unsigned i = 0; i < kind_count; i++)
        printf("%lu %s\n", kind[i].count, kind[i].name);
    return fflush(stdout) == 0 ? 0 : 1;
}
