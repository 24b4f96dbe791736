/* asks SEED: a listing for the program of FORM-LAST.md, 0 to 65,536 bytes and now and then more, the same for the same seed.
   asks --kind KIND SIZE: SIZE bytes of one kind: `lines` different accepted lines, `line` one accepted line again and again, `feeds` line feeds, `bytes` one line of letters, `front` an accepted line and then line feeds.
   Drafts of lines, accepted and nearly accepted, are made by generate.c, which is taken in as it stands; their registers are drawn here, from a pool that changes a few times on the way,
   so that some registers are written again and again and some lie far back. Knows nothing of last.c. */
#define main generate_main
#include "generate.c"
#undef main

enum { MADE_MOST = 1100000, ROOM = 1000000 };

static Byte made[MADE_MOST];
static size_t made_size;

static void add_bytes(const void *from, size_t length)
{
    if (length > MADE_MOST - made_size)
        length = MADE_MOST - made_size;
    memcpy(made + made_size, from, length);
    made_size += length;
}

static void add_byte(Byte b) { add_bytes(&b, 1); }

/* What a seed chooses for its whole listing. */
static size_t wanted;               /* bytes, about or exactly */
static bool exactly;
static unsigned wrong;              /* percent of lines that are nearly accepted */
static unsigned guards, odd, lengths;   /* percent of guards, of odd blanks, of lines of 158 to 162 bytes */
static unsigned phases;             /* pools, one after the other */
static unsigned reserved;           /* the first line's register, in no later pool; 64 if none */

static unsigned pool[64], pooled;

static void choose_pool(void)
{
    static const unsigned sizes[] = { 1, 1, 2, 3, 4, 6, 8, 12, 16, 24, 32, 40, 64, 64, 64, 64 };
    static const unsigned edges[] = { 0, 1, 5, 9, 10, 15, 16, 31, 32, 50, 62, 63 };
    unsigned most = PICK(sizes);
    pooled = 0;
    while (pooled < most) {
        unsigned n = percent(30) ? PICK(edges) : percent(30) ? below(16) : below(64);
        if (n != reserved)
            pool[pooled++] = n;
    }
}

static unsigned from_pool(void) { return pool[below(pooled)]; }

/* The registers of the text with numbers of the pool, each with that chance; a number over its file's size stays. */
static void renumber(char *text, unsigned chance)
{
    char to[2 * TEXT_MOST];
    size_t length = 0;
    unsigned before = 1000;
    for (const char *from = text; *from != '\0' && length < TEXT_MOST - 8;) {
        if (*from != '%' || (from[1] != 'r' && from[1] != 'p')) {
            to[length++] = *from++;
            continue;
        }
        int file = from[1] == 'r' && (from[2] == 'd' || from[2] == 's') ? 3 : 2;
        unsigned size = from[1] == 'p' ? 16 : file == 3 ? 32 : 64, n = 0;
        const char *number = from + file;
        if (*number < '0' || *number > '9' || strspn(number, "0123456789") > 3 || (n = (unsigned)atoi(number)) >= size || !percent(chance)) {
            to[length++] = *from++;
            continue;
        }
        bool again = n == before;
        n = from_pool() % size;
        if (n == before && !again)      /* a pair of two stays one */
            n = (n + 1) % size;
        before = n;
        length += (size_t)snprintf(to + length, 8, "%.*s%u", file, from, n);
        from = number + strspn(number, "0123456789");
    }
    to[length] = '\0';
    memcpy(text, to, length + 1);
}

static void renumber_draft(Draft *d)
{
    renumber(d->guard, 70);
    for (unsigned i = 0; i < d->operands; i++)
        renumber(d->operand[i], i == 0 ? 100 : 75);
}

static void good_draft(Draft *d)
{
    if (percent(20)) {          /* selp and slct with a word as destination, setp: the rest chooses them seldom */
        unsigned opcode = percent(30) ? 21 : percent(30) ? 22 : 23;
        for (int tries = 0; tries < 6; tries++) {
            draft_opcode(d, opcode);
            if (opcode == 21 || (d->operand[0][2] >= '0' && d->operand[0][2] <= '9'))
                break;
        }
    } else {
        draft_opcode(d, percent(80) ? some_opcode() : below(OPCODES));
    }
    renumber_draft(d);
    d->guard[0] = '\0';
    if (percent(guards)) {
        const char *sign = some_sign();
        snprintf(d->guard, TEXT_MOST, "@%s%%p%u", sign, from_pool() % 16);
    }
}

static void render_good(const Draft *d, Line *line)
{
    unsigned gap[GAPS];
    if (percent(lengths)) {
        render_long(d, line);
        return;
    }
    if (percent(odd))
        odd_gaps(gap);
    else
        standard_gaps(gap);
    if (percent(8))
        gap[0] = 1 + below(6);
    if (percent(8))
        gap[4] = 1 + below(6);
    render(d, gap, line);
}

static void add_line(const Line *line)
{
    add_bytes(line->bytes, line->length);
    add_byte('\n');
}

static void wrong_opcode(Draft *d)
{
    static const char *const near[] = { "vavrg", "vadd3", "vset8", "add", "sub", "mov", "setq", "sel", "slctp", "vmad", "vset1", "vadd44", "set2", "vabsdif", "selp2" };
    snprintf(d->name[0], TEXT_MOST, "%s", PICK(near));
}

/* A line of over 160 bytes, with an accepted line at its end, its start or in the middle. */
static void add_too_long(const Line *line)
{
    static const unsigned some[] = { 100, 129, 130, 160, 161, 200, 300, 500, 1000 };
    static const char fillers[] = "x  \t;,%";
    Byte filler = (Byte)PICK(fillers);
    unsigned n = PICK(some);
    if (filler == '\0')
        filler = ' ';
    if (n > wanted / 2 + 130)
        n = 130;
    bool front = percent(70);
    for (unsigned i = 0; front && i < n; i++)
        add_byte(filler);
    add_bytes(line->bytes, line->length);
    for (unsigned i = 0; !front && i < n; i++)
        add_byte(filler);
    add_byte('\n');
}

/* A line that is nearly accepted, or nothing like a line. */
static void add_wrong_line(void)
{
    static const Byte strange[] = { 0, '\r', '\v', '\f', 0x80, 0xA0, 0xFF, 0x7F, 0x1A };
    Draft d;
    Line line;
    good_draft(&d);
    render_good(&d, &line);
    switch (below(30)) {
    case 0: case 1: spoil_byte(&line); break;
    case 2: spoil_names(&d); render_good(&d, &line); break;
    case 3: case 4: spoil_operands(&d); render_good(&d, &line); break;
    case 5: spoil_number(&d); render_good(&d, &line); break;
    case 6: spoil_guard(&d); render_good(&d, &line); break;
    case 7: insert_hostile(&line); break;
    case 8: case 9: miss_modifiers(&d); renumber_draft(&d); render_good(&d, &line); break;
    case 10: case 11: miss_operands(&d); renumber_draft(&d); render_good(&d, &line); break;
    case 12: case 13: miss_numbers(&d); renumber_draft(&d); render_good(&d, &line); break;
    case 14: {
        unsigned p = from_pool() % 16;
        miss_pair(&d);
        renumber_draft(&d);
        snprintf(d.operand[0], TEXT_MOST, "%%p%u|%%p%u", p, p);
        render_good(&d, &line);
        break;
    }
    case 15: draft_lane_miss(&d); renumber_draft(&d); render_good(&d, &line); break;
    case 16: broken_shape(&line, below(PIECES)); break;
    case 17: if (percent(50)) crowded(&line); else random_tokens(&line); break;
    case 18: random_bytes(&line); break;
    case 19: case 20: line.length = 0; break;
    case 21: line.length = 0; put_blanks(&line, percent(80) ? 1 + below(6) : 159 + below(3)); break;
    case 22: case 23: insert_byte(&line, line.length, '\r'); break;
    case 24: add_bytes(line.bytes, line.length); add_byte('\r'); break;     /* and the same line behind it */
    case 25: case 26: {
        Byte *semicolon = memchr(line.bytes, ';', line.length);
        if (semicolon != NULL)
            line.length = (size_t)(semicolon - line.bytes);
        break;
    }
    case 27: add_too_long(&line); return;
    case 28: wrong_opcode(&d); render_good(&d, &line); break;
    default: {
        size_t at = percent(50) ? 0 : line.length;
        insert_byte(&line, at, PICK(strange));
        break;
    }
    }
    add_line(&line);
}

static void add_good_line(void)
{
    Draft d;
    Line line;
    good_draft(&d);
    render_good(&d, &line);
    add_line(&line);
}

static void choose(unsigned long seed)
{
    static const size_t first_sizes[] = { 0, 65536, 1, 65537, 65535, 300, 65536, 70000, 40, 65534, 1500, 65538, 30, 65536, 150, 66000 };
    static const size_t fulls[] = { 65536, 65536, 65536, 65535, 65537, 60000, 65536, 40000 };
    static const unsigned wrongs[] = { 0, 5, 10, 20, 30, 30, 40, 50, 70, 90, 97 };
    static const unsigned chances[] = { 0, 10, 25, 25, 50, 100 };
    state = seed * UINT64_C(0x9FB21C651E98DF25) + 11;
    next();
    exactly = seed <= 16;
    unsigned kind = below(100);
    if (seed <= 16) {
        wanted = first_sizes[(seed + 15) % 16];
    } else if (kind < 30) {
        wanted = below(400);
    } else if (kind < 64) {
        wanted = 400 + below(3600);
    } else if (kind < 92) {
        wanted = 4000 + below(12000);
    } else {
        wanted = PICK(fulls);
        exactly = true;
    }
    wrong = percent(4) ? 100 : PICK(wrongs);
    guards = PICK(chances);
    odd = PICK(chances);
    lengths = percent(20) ? 30 : 4;
    phases = 1 + below(5);
    reserved = 64;
    half_chance = percent(80) ? 25 : 60;
    choose_pool();
    if (percent(40))
        reserved = 1 + below(62);
}

/* The end of the listing. */
static void finish(void)
{
    static const size_t least = 30;
    unsigned kind = below(100);
    if (wanted == 0)
        return;
    if (exactly && made_size > wanted) {
        if (kind < 40) {                        /* cut, mostly in the middle of a line */
            made_size = wanted;
            return;
        }
        do                                      /* back to the end of an earlier line .. */
            made_size--;
        while (made_size > 0 && (made_size > wanted || made[made_size - 1] != '\n' || (kind >= 80 && wanted - made_size < least && wanted >= least)));
        if (kind >= 80) {                       /* .. and an accepted line behind it, filled up by blanks or line feeds in front */
            char text[64];
            unsigned n = from_pool();
            int length = snprintf(text, sizeof text, "selp.b32 %%r%u,%%r%u,%%r%u,%%p0;", n, n, n);
            if ((size_t)length > wanted - made_size)
                length = (int)(wanted - made_size);
            bool blanks = percent(50);
            while (made_size + (size_t)length < wanted)
                add_byte(blanks && wanted - made_size < 150 ? ' ' : '\n');
            add_bytes(text, (size_t)length);
            return;
        }
        Byte filler = kind < 60 ? '\n' : ' ';
        while (made_size < wanted)
            add_byte(filler);
        return;
    }
    if (kind < 30 && made_size > 0 && made[made_size - 1] == '\n') {
        made_size--;
    } else if (kind < 45 && made_size > 0) {
        made_size -= below(made_size < 60 ? (unsigned)made_size : 60);
    } else if (kind < 55) {
        for (unsigned i = 1 + below(4); i > 0; i--)
            add_byte(percent(70) ? '\n' : ' ');
    }
}

static void make(unsigned long seed)
{
    choose(seed);
    if (wanted > 0 && reserved < 64) {
        Draft d;
        Line line;
        unsigned opcode = below(OPCODES);
        draft_opcode(&d, opcode == 21 ? 20 : opcode);
        if (d.operand[0][1] == 'r' && d.operand[0][2] >= '0' && d.operand[0][2] <= '9') {
            char rest[TEXT_MOST];
            snprintf(rest, sizeof rest, "%s", d.operand[0] + 2 + strspn(d.operand[0] + 2, "0123456789"));
            snprintf(d.operand[0], TEXT_MOST, "%%r%u%.30s", reserved, rest);
        }
        render_good(&d, &line);
        add_line(&line);
        choose_pool();
    }
    if (wanted > 20000 && percent(10))           /* high line numbers */
        for (unsigned n = 5000 + below(20000); n > 0; n--)
            add_byte('\n');
    unsigned phase = 1;
    while (made_size < wanted || (exactly && wanted > 0 && made_size <= wanted)) {
        if (phase < phases && made_size > wanted / phases * phase) {
            phase++;
            choose_pool();
        }
        if (percent(wrong))
            add_wrong_line();
        else
            add_good_line();
    }
    finish();
}

static void make_kind(const char *kind, size_t size)
{
    static const char *const heads[] = { "vadd.u32.u32.u32", "vset.u32.u32.lt", "set.lt.u32.s32", "vmin.s32.s32.s32.sat", "set.eq.f32.f32" };
    char text[80];
    for (unsigned i = 0; made_size < size; i++) {
        if (strcmp(kind, "lines") == 0)
            snprintf(text, sizeof text, "%s %%r%u, %%r%u, %%r%u;\n", heads[i % COUNT(heads)], i * 7 % 61, i % 64, i * 3 % 64);
        else if (strcmp(kind, "line") == 0 || (strcmp(kind, "front") == 0 && i == 0))
            snprintf(text, sizeof text, "vadd.u32.u32.u32 %%r5, %%r1, %%r2;\n");
        else
            snprintf(text, sizeof text, "%s", strcmp(kind, "bytes") == 0 ? "x" : "\n");
        add_bytes(text, strlen(text));
    }
    made_size = size;
}

int main(int argc, char **argv)
{
    unsigned long size = argc == 4 ? strtoul(argv[3], NULL, 10) : 0;
    if (argc == 4 && strcmp(argv[1], "--kind") == 0 && size <= ROOM) {
        make_kind(argv[2], size);
    } else if (argc == 2 && argv[1][0] >= '0' && argv[1][0] <= '9') {
        make(strtoul(argv[1], NULL, 10));
    } else {
        fprintf(stderr, "usage: asks SEED | asks --kind KIND SIZE\n");
        return 2;
    }
    return fwrite(made, 1, made_size, stdout) == made_size && fflush(stdout) == 0 ? 0 : 1;
}
