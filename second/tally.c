/* tally FLOOR < reads: request T-13 by the documents and FORM.md alone, as NOTES-T-13.md explains it (numbers in brackets are its choices).
   tally --kinds FLOOR < reads: how often each kind of event occurred there, `NUMBER KIND`; it fails if count and history disagree on washed. */
#include <stdint.h>
#include <stdio.h>
#include <string.h>

enum { most_bytes = 65536, most_tags = 32, votes_needed = 5, passes_to_wash = 3 };

struct read {
    uint32_t tag, pass;
    unsigned char bytes[8];       /* of both words */
};

struct entry {
    uint32_t tag, last;
    int count;                    /* 1 to 3 */
    long passes;                  /* counted passes in its history, without a bound [13] */
};

struct tally {
    struct entry held[most_tags + 2];     /* in the order of coming [14]; room for faulty variants */
    int number;
};

/* The reading of a line [16]. Each reader takes what it reads from the front, *at to end, and says whether it was there. */

static int read_number(const unsigned char **at, const unsigned char *end, uint32_t *value)
{
    const unsigned char *first = *at;
    uint64_t number = 0;
    int digits = 0;
    while (*at < end && **at >= '0' && **at <= '9') {
        if (digits == 10) return 0;               /* eleven digits: over 4294967295 or with a leading zero */
        number = number * 10 + (uint64_t)(**at - '0');
        digits++;
        (*at)++;
    }
    if (digits == 0) return 0;
    if (digits > 1 && *first == '0') return 0;
    if (number > 4294967295u) return 0;
    *value = (uint32_t)number;
    return 1;
}

static int read_digit(const unsigned char **at, const unsigned char *end, int *value)
{
    if (*at == end) return 0;
    int byte = *(*at)++;
    if (byte >= '0' && byte <= '9') { *value = byte - '0'; return 1; }
    if (byte >= 'A' && byte <= 'F') { *value = byte - 'A' + 10; return 1; }
    return 0;
}

static int read_word(const unsigned char **at, const unsigned char *end, unsigned char bytes[4])
{
    for (int i = 0; i < 4; i++) {
        int high, low;
        if (!read_digit(at, end, &high)) return 0;
        if (!read_digit(at, end, &low)) return 0;
        bytes[i] = (unsigned char)(high * 16 + low);
    }
    return 1;
}

static int read_blank(const unsigned char **at, const unsigned char *end)
{
    return *at < end && *(*at)++ == ' ';
}

static int read_line(const unsigned char *line, size_t length, struct read *r)
{
    const unsigned char *at = line, *end = line + length;
    return read_number(&at, end, &r->tag)
        && read_blank(&at, end)
        && read_number(&at, end, &r->pass)
        && read_blank(&at, end)
        && read_word(&at, end, r->bytes)
        && read_blank(&at, end)
        && read_word(&at, end, r->bytes + 4)
        && at == end;
}

/* The request itself. */

static int vote_of(const struct read *r, int floor)     /* [1] [2] [3] */
{
    int vote = 0;
    for (int i = 0; i < 8; i++) {
        int byte = r->bytes[i];
        if (byte >= floor) vote++;
    }
    return vote;
}

static struct entry *find(struct tally *t, uint32_t tag)
{
    for (int i = 0; i < t->number; i++) {
        if (t->held[i].tag == tag) return &t->held[i];
    }
    return NULL;
}

enum answer { counted, duplicate, weak, refused_19, refused_20 };

/* value: the count if counted, the vote if weak */
static enum answer take(struct tally *t, const struct read *r, int floor, int *value)
{
    int vote = vote_of(r, floor);
    struct entry *e = find(t, r->tag);
    if (vote < votes_needed) {                          /* [4] [5] */
        *value = vote;
        return weak;
    }
    if (e == NULL) {                                    /* [10] [11] */
        if (t->number == most_tags) return refused_20;
        e = &t->held[t->number];
        t->number++;
        e->tag = r->tag;
        e->count = 0;
        e->passes = 0;
    } else {
        if (r->pass == e->last) return duplicate;       /* [6] */
        if (r->pass < e->last) return refused_19;       /* [7] [8] */
    }
    e->last = r->pass;                                  /* [9] */
    e->passes++;
    if (e->count < 3) e->count++;
    *value = e->count;
    return counted;
}

/* Input and output. */

static unsigned char input[most_bytes + 1];

static int hex_digit(char c)
{
    const char *digits = "0123456789ABCDEF", *place = c == '\0' ? NULL : strchr(digits, c);
    return place == NULL ? -1 : (int)(place - digits);
}

static void print_answer(long n, enum answer a, int value)
{
    switch (a) {
    case counted: printf("%ld counted %d\n", n, value); break;
    case duplicate: printf("%ld duplicate\n", n); break;
    case weak: printf("%ld weak %d\n", n, value); break;
    case refused_19: printf("%ld refused 19\n", n); break;
    case refused_20: printf("%ld refused 20\n", n); break;
    }
}

static void print_tally(const struct tally *t)
{
    for (int i = 0; i < t->number; i++) {
        const struct entry *e = &t->held[i];
        printf("%lu %lu %d", (unsigned long)e->tag, (unsigned long)e->last, e->count);
        if (e->passes >= passes_to_wash) printf(" washed");
        printf("\n");
    }
}

static int kinds(size_t size, int floor);

int main(int argc, char **argv)
{
    int with_kinds = argc == 3 && strcmp(argv[1], "--kinds") == 0;
    const char *argument = with_kinds ? argv[2] : argc == 2 ? argv[1] : "";
    int high = -1, low = -1;
    if (strlen(argument) == 2) {
        high = hex_digit(argument[0]);
        low = hex_digit(argument[1]);
    }
    if (high < 0 || low < 0) {
        fprintf(stderr, "usage: tally [--kinds] FLOOR < reads, FLOOR two hexadecimal digits, capitals\n");
        return 2;
    }
    int floor = high * 16 + low;
    size_t size = fread(input, 1, sizeof input, stdin);
    if (with_kinds) return kinds(size, floor);
    if (size > most_bytes) {                            /* [17] */
        printf("input too long\n");
        return 0;
    }
    struct tally t = { .number = 0 };
    long n = 0;
    size_t start = 0;
    while (start < size) {                              /* [15] */
        size_t end = start;
        while (end < size && input[end] != '\n') end++;
        n++;
        struct read r;
        int value = 0;
        if (read_line(input + start, end - start, &r)) {
            enum answer a = take(&t, &r, floor, &value);
            print_answer(n, a, value);
        } else {
            printf("%ld not a read\n", n);
        }
        start = end + 1;
    }
    print_tally(&t);
    return fflush(stdout) == 0 ? 0 : 1;
}

/* The kinds of events, counted by a second walk through the input: it asks take() for the answers and looks at the tally before and after. */

#define KINDS \
    K(lines, "total: lines") \
    K(reads, "total: reads") \
    K(counted_new, "counted 1, a new tag") \
    K(counted_new_31, "counted 1, a new tag with 31 held") \
    K(counted_2_one, "counted 2, one higher") \
    K(counted_2_far, "counted 2, far higher") \
    K(counted_3_one, "counted 3 from 2, one higher") \
    K(counted_3_far, "counted 3 from 2, far higher") \
    K(counted_33_one, "counted 3 from 3, one higher") \
    K(counted_33_far, "counted 3 from 3, far higher") \
    K(counted_middle, "counted, from under 2147483648 to there or over it") \
    K(counted_half, "counted, at least 2147483648 higher") \
    K(counted_last_dup, "counted 3 from 3, then a duplicate of that number") \
    K(counted_last_lower, "counted 3 from 3, then the number that was last before") \
    K(counted_tag_0, "counted, tag 0") \
    K(counted_tag_top, "counted, tag 4294967295") \
    K(counted_tag_high, "counted, tag over 2147483647") \
    K(counted_pass_0, "counted, pass number 0") \
    K(counted_pass_top, "counted, pass number 4294967295") \
    K(duplicate_1, "duplicate at 1") \
    K(duplicate_2, "duplicate at 2") \
    K(duplicate_3, "duplicate at 3") \
    K(duplicate_0, "duplicate, pass number 0") \
    K(duplicate_top, "duplicate, pass number 4294967295") \
    K(lower_1_one, "refused 19 at 1, one lower") \
    K(lower_1_far, "refused 19 at 1, far lower") \
    K(lower_2_one, "refused 19 at 2, one lower") \
    K(lower_2_far, "refused 19 at 2, far lower") \
    K(lower_3_one, "refused 19 at 3, one lower") \
    K(lower_3_far, "refused 19 at 3, far lower") \
    K(lower_half, "refused 19, at least 2147483648 lower") \
    K(lower_top, "refused 19 after 4294967295") \
    K(full, "refused 20") \
    K(full_tag_0, "refused 20, tag 0") \
    K(full_tag_top, "refused 20, tag 4294967295") \
    K(weak_0, "weak 0") \
    K(weak_1, "weak 1") \
    K(weak_2, "weak 2") \
    K(weak_3, "weak 3") \
    K(weak_4, "weak 4") \
    K(strong_5, "strong with vote 5") \
    K(strong_6, "strong with vote 6") \
    K(strong_7, "strong with vote 7") \
    K(strong_8, "strong with vote 8") \
    K(weak_duplicate, "weak although a duplicate") \
    K(weak_lower, "weak although lower") \
    K(weak_higher_1, "weak although higher, at 1") \
    K(weak_higher_2, "weak although higher, at 2") \
    K(weak_higher_3, "weak although higher, at 3") \
    K(weak_new, "weak, a new tag") \
    K(weak_new_31, "weak, a new tag with 31 held") \
    K(weak_new_32, "weak although a new tag with 32 held") \
    K(held_32_counted_2, "counted 2 with 32 held") \
    K(held_32_counted_3, "counted 3 from 2 with 32 held") \
    K(held_32_counted_33, "counted 3 from 3 with 32 held") \
    K(held_32_duplicate, "duplicate with 32 held") \
    K(held_32_lower, "refused 19 with 32 held") \
    K(held_32_weak, "weak, a held tag with 32 held") \
    K(by_equal, "strong by bytes equal to the floor") \
    K(by_one_under, "weak for bytes one under the floor") \
    K(by_sign_strong, "strong, weak if bytes had a sign") \
    K(by_sign_weak, "weak, strong if bytes had a sign") \
    K(first_twice_weak, "strong, weak if the first word were taken twice") \
    K(first_twice_strong, "weak, strong if the first word were taken twice") \
    K(second_twice_weak, "strong, weak if the second word were taken twice") \
    K(second_twice_strong, "weak, strong if the second word were taken twice") \
    K(five_0, "five votes, one by byte 1") \
    K(five_1, "five votes, one by byte 2") \
    K(five_2, "five votes, one by byte 3") \
    K(five_3, "five votes, one by byte 4") \
    K(five_4, "five votes, one by byte 5") \
    K(five_5, "five votes, one by byte 6") \
    K(five_6, "five votes, one by byte 7") \
    K(five_7, "five votes, one by byte 8") \
    K(floor_00, "read with floor 00") \
    K(floor_01, "read with floor 01") \
    K(floor_low, "read with a floor of 02 to 7E") \
    K(floor_7f, "read with floor 7F") \
    K(floor_80, "read with floor 80") \
    K(floor_81, "read with floor 81") \
    K(floor_high, "read with a floor of 82 to FE") \
    K(floor_ff, "read with floor FF") \
    K(no_empty, "not a read: empty line") \
    K(no_nul, "not a read: a NUL byte") \
    K(no_over_7f, "not a read: a byte over 7F") \
    K(no_blank_front, "not a read: a blank in front") \
    K(no_blank_behind, "not a read: a blank behind") \
    K(no_tab_front, "not a read: a tab in front") \
    K(no_tab_behind, "not a read: a tab behind") \
    K(no_return_behind, "not a read: a carriage return behind") \
    K(no_byte_behind, "not a read: another byte behind") \
    K(no_tab, "not a read: a tab for a blank") \
    K(no_two_1, "not a read: two blanks after the tag") \
    K(no_two_2, "not a read: two blanks after the pass number") \
    K(no_two_3, "not a read: two blanks between the words") \
    K(no_field_1, "not a read: one field") \
    K(no_field_2, "not a read: two fields") \
    K(no_field_3, "not a read: three fields") \
    K(no_field_5, "not a read: one field too many") \
    K(no_tag_zero, "not a read: tag with a leading zero") \
    K(no_tag_32, "not a read: tag 4294967296") \
    K(no_tag_ten, "not a read: tag of ten digits too large") \
    K(no_tag_more, "not a read: tag of more than ten digits") \
    K(no_tag_sign, "not a read: tag with a sign") \
    K(no_tag_none, "not a read: an empty tag") \
    K(no_tag_other, "not a read: tag with another byte") \
    K(no_pass_zero, "not a read: pass number with a leading zero") \
    K(no_pass_32, "not a read: pass number 4294967296") \
    K(no_pass_ten, "not a read: pass number of ten digits too large") \
    K(no_pass_more, "not a read: pass number of more than ten digits") \
    K(no_pass_sign, "not a read: pass number with a sign") \
    K(no_pass_none, "not a read: an empty pass number") \
    K(no_pass_other, "not a read: pass number with another byte") \
    K(no_first_small, "not a read: small letters in the first word") \
    K(no_first_7, "not a read: first word of seven digits") \
    K(no_first_9, "not a read: first word of nine digits") \
    K(no_first_none, "not a read: an empty first word") \
    K(no_first_other, "not a read: first word with another byte or length") \
    K(no_second_small, "not a read: small letters in the second word") \
    K(no_second_7, "not a read: second word of seven digits") \
    K(no_second_9, "not a read: second word of nine digits") \
    K(no_second_none, "not a read: an empty second word") \
    K(no_second_other, "not a read: second word with another byte or length") \
    K(no_other, "not a read: more than one thing wrong") \
    K(last_read, "last line without a line feed: a read") \
    K(last_no_read, "last line without a line feed: not a read") \
    K(input_empty, "input: empty") \
    K(input_full, "input: 65,536 bytes") \
    K(input_long, "input: too long") \
    K(input_no_read, "input: lines and none of them a read") \
    K(input_weak, "input: reads and all of them weak") \
    K(input_many, "input: over 1,000 lines") \
    K(input_few, "input: 1 to 10 lines") \
    K(input_order, "input: tags come in an order that is not rising") \
    K(input_order_weak, "input: a tag was read weak before one that came before it") \
    K(end_0, "input: ends with 0 tags") \
    K(end_1, "input: ends with 1 tag") \
    K(end_some, "input: ends with 2 to 30 tags") \
    K(end_31, "input: ends with 31 tags") \
    K(end_32, "input: ends with 32 tags") \
    K(end_32_none_refused, "input: ends with 32 tags, none refused") \
    K(end_at_1, "tag at 1 at the end") \
    K(end_at_2, "tag at 2 at the end") \
    K(end_washed, "tag washed at the end by exactly 3 passes") \
    K(end_washed_more, "tag washed at the end by more than 3 passes")

#define K(name, text) kind_##name,
enum { KINDS number_of_kinds };
#undef K
#define K(name, text) text,
static const char *const kind_names[] = { KINDS };
#undef K
static long kind_counts[number_of_kinds];

static void kind(int k) { kind_counts[k]++; }

static void kind_if(int holds, int k) { if (holds) kind(k); }

static void kinds_of_vote(const struct read *r, int floor)
{
    int vote = vote_of(r, floor), equal = 0, one_under = 0, by_sign = 0, word[2] = { 0, 0 };
    kind(vote < 5 ? kind_weak_0 + vote : kind_strong_5 + vote - 5);
    for (int i = 0; i < 8; i++) {
        int byte = r->bytes[i];
        equal += byte == floor;
        one_under += byte + 1 == floor;
        by_sign += (byte + 128) % 256 >= (floor + 128) % 256;
        word[i / 4] += byte >= floor;
        kind_if(vote == 5 && byte >= floor, kind_five_0 + i);
    }
    kind_if(vote >= 5 && vote - equal < 5, kind_by_equal);
    kind_if(vote < 5 && vote + one_under >= 5, kind_by_one_under);
    kind_if(vote >= 5 && by_sign < 5, kind_by_sign_strong);
    kind_if(vote < 5 && by_sign >= 5, kind_by_sign_weak);
    kind_if(vote >= 5 && 2 * word[0] < 5, kind_first_twice_weak);
    kind_if(vote < 5 && 2 * word[0] >= 5, kind_first_twice_strong);
    kind_if(vote >= 5 && 2 * word[1] < 5, kind_second_twice_weak);
    kind_if(vote < 5 && 2 * word[1] >= 5, kind_second_twice_strong);
    kind(floor == 0x00 ? kind_floor_00 : floor == 0x01 ? kind_floor_01 : floor == 0x7F ? kind_floor_7f : floor == 0x80 ? kind_floor_80
        : floor == 0x81 ? kind_floor_81 : floor == 0xFF ? kind_floor_ff : floor < 0x80 ? kind_floor_low : kind_floor_high);
}

/* held and before: the number of tags held before the read, and the tag's entry then if it was held */
static void kinds_of_answer(const struct read *r, enum answer a, int held, const struct entry *before)
{
    static struct { uint32_t tag, number, before; int there; } moved;     /* the last read that was counted 3 from 3 */
    const uint32_t half = 2147483648u, top = 4294967295u;
    int one = before != NULL && (r->pass > before->last ? r->pass - before->last : before->last - r->pass) == 1;
    kind_if(moved.there && moved.tag == r->tag && moved.number == r->pass && a == duplicate, kind_counted_last_dup);
    kind_if(moved.there && moved.tag == r->tag && moved.before == r->pass && a == refused_19, kind_counted_last_lower);
    moved.there = 0;
    switch (a) {
    case counted:
        if (before == NULL) {
            kind(kind_counted_new);
            kind_if(held == 31, kind_counted_new_31);
        } else {
            kind((before->count == 1 ? kind_counted_2_one : before->count == 2 ? kind_counted_3_one : kind_counted_33_one) + !one);
            kind_if(before->last < half && r->pass >= half, kind_counted_middle);
            kind_if(r->pass - before->last >= half, kind_counted_half);
            kind_if(held == 32, before->count == 1 ? kind_held_32_counted_2 : before->count == 2 ? kind_held_32_counted_3 : kind_held_32_counted_33);
            moved.tag = r->tag;
            moved.number = r->pass;
            moved.before = before->last;
            moved.there = before->count == 3;
        }
        kind_if(r->tag == 0, kind_counted_tag_0);
        kind_if(r->tag == top, kind_counted_tag_top);
        kind_if(r->tag >= half, kind_counted_tag_high);
        kind_if(r->pass == 0, kind_counted_pass_0);
        kind_if(r->pass == top, kind_counted_pass_top);
        break;
    case duplicate:
        kind(kind_duplicate_1 + before->count - 1);
        kind_if(r->pass == 0, kind_duplicate_0);
        kind_if(r->pass == top, kind_duplicate_top);
        kind_if(held == 32, kind_held_32_duplicate);
        break;
    case weak:
        if (before == NULL) {
            kind(held == 32 ? kind_weak_new_32 : held == 31 ? kind_weak_new_31 : kind_weak_new);
        } else {
            kind(r->pass == before->last ? kind_weak_duplicate : r->pass < before->last ? kind_weak_lower : kind_weak_higher_1 + before->count - 1);
            kind_if(held == 32, kind_held_32_weak);
        }
        break;
    case refused_19:
        kind((before->count == 1 ? kind_lower_1_one : before->count == 2 ? kind_lower_2_one : kind_lower_3_one) + !one);
        kind_if(before->last - r->pass >= half, kind_lower_half);
        kind_if(before->last == top, kind_lower_top);
        kind_if(held == 32, kind_held_32_lower);
        break;
    case refused_20:
        kind(kind_full);
        kind_if(r->tag == 0, kind_full_tag_0);
        kind_if(r->tag == top, kind_full_tag_top);
        break;
    }
}

enum { right, zero, too_large_by_one, ten, more, sign, no_number, other_number, small, seven, nine, no_word, other_word };

static int number_is(const unsigned char *field, size_t length)
{
    size_t digits = 0;
    while (digits < length && field[digits] >= '0' && field[digits] <= '9') digits++;
    if (length > 1 && (field[0] == '+' || field[0] == '-')) return sign;
    if (length == 0) return no_number;
    if (digits < length) return other_number;
    if (length > 1 && field[0] == '0') return zero;
    if (length > 10) return more;
    if (length < 10 || memcmp(field, "4294967295", 10) <= 0) return right;
    return memcmp(field, "4294967296", 10) == 0 ? too_large_by_one : ten;
}

static int word_is(const unsigned char *field, size_t length)
{
    size_t capital = 0, little = 0;
    for (size_t i = 0; i < length; i++) {
        if (field[i] != '\0' && strchr("0123456789ABCDEF", field[i]) != NULL) capital++;
        else if (field[i] >= 'a' && field[i] <= 'f') little++;
    }
    if (length == 8 && capital == 8) return right;
    if (length == 8 && capital + little == 8) return small;
    if (length == 0) return no_word;
    if (capital == length && length == 7) return seven;
    if (capital == length && length == 9) return nine;
    return other_word;
}

static int is_read(const unsigned char *line, size_t length)
{
    struct read r;
    return read_line(line, length, &r);
}

static void kind_of_no_read(const unsigned char *line, size_t length)
{
    if (length == 0) { kind(kind_no_empty); return; }
    if (memchr(line, '\0', length) != NULL) { kind(kind_no_nul); return; }
    for (size_t i = 0; i < length; i++) {
        if (line[i] > 0x7F) { kind(kind_no_over_7f); return; }
    }
    if (is_read(line + 1, length - 1) && line[0] == ' ') { kind(kind_no_blank_front); return; }
    if (is_read(line + 1, length - 1) && line[0] == '\t') { kind(kind_no_tab_front); return; }
    int last = line[length - 1];
    if (is_read(line, length - 1) && word_is(line + length - 9, 9) != nine) {
        kind(last == ' ' ? kind_no_blank_behind : last == '\t' ? kind_no_tab_behind : last == '\r' ? kind_no_return_behind : kind_no_byte_behind);
        return;
    }
    unsigned char copy[64];
    if (length <= sizeof copy && memchr(line, '\t', length) != NULL) {
        for (size_t i = 0; i < length; i++) copy[i] = line[i] == '\t' ? ' ' : line[i];
        if (is_read(copy, length)) { kind(kind_no_tab); return; }
    }
    const unsigned char *field[6];
    size_t lengths[6], fields = 0, start = 0;
    for (size_t i = 0; i <= length; i++) {
        if (i < length && line[i] != ' ') continue;
        if (fields == 6) { kind(kind_no_other); return; }
        field[fields] = line + start;
        lengths[fields++] = i - start;
        start = i + 1;
    }
    for (size_t i = 1; i <= 3 && fields == 5; i++) {
        if (lengths[i] != 0 || length > sizeof copy) continue;
        size_t before = (size_t)(field[i] - line);
        memcpy(copy, line, before);
        memcpy(copy + before, field[i] + 1, length - before - 1);
        if (is_read(copy, length - 1)) { kind(kind_no_two_1 + (int)i - 1); return; }
    }
    if (fields < 4) { kind(kind_no_field_1 + (int)fields - 1); return; }
    if (fields == 5) { kind(kind_no_field_5); return; }
    if (fields > 5) { kind(kind_no_other); return; }
    int is[4] = { number_is(field[0], lengths[0]), number_is(field[1], lengths[1]), word_is(field[2], lengths[2]), word_is(field[3], lengths[3]) };
    int wrong = -1;
    for (int i = 0; i < 4; i++) {
        if (is[i] == right) continue;
        if (wrong >= 0) { kind(kind_no_other); return; }
        wrong = i;
    }
    kind(wrong == 0 ? kind_no_tag_zero + is[0] - zero : wrong == 1 ? kind_no_pass_zero + is[1] - zero
        : wrong == 2 ? kind_no_first_small + is[2] - small : kind_no_second_small + is[3] - small);
}

static int kinds_of_end(const struct tally *t)
{
    int n = t->number, falls = 0;
    long refused = kind_counts[kind_full];
    kind(n == 0 ? kind_end_0 : n == 1 ? kind_end_1 : n <= 30 ? kind_end_some : n == 31 ? kind_end_31 : kind_end_32);
    kind_if(n == 32 && refused == 0, kind_end_32_none_refused);
    for (int i = 0; i < n; i++) {
        const struct entry *e = &t->held[i];
        if (i > 0 && e->tag < e[-1].tag) falls = 1;
        if ((e->count == 3) != (e->passes >= 3) || (e->count < 3 && e->count != e->passes)) {
            fprintf(stderr, "tag %lu: count %d, but %ld counted passes in its history\n", (unsigned long)e->tag, e->count, e->passes);
            return 3;
        }
        kind(e->passes == 1 ? kind_end_at_1 : e->passes == 2 ? kind_end_at_2 : e->passes == 3 ? kind_end_washed : kind_end_washed_more);
    }
    kind_if(falls, kind_input_order);
    return 0;
}

static int kinds(size_t size, int floor)
{
    int status = 0;
    if (size > most_bytes) {
        kind(kind_input_long);
    } else {
        struct tally t = { .number = 0 };
        uint32_t early[64];                 /* tags read weak before they were held */
        int earlies = 0, order = 0;
        size_t start = 0;
        while (start < size) {
            size_t end = start;
            while (end < size && input[end] != '\n') end++;
            struct read r;
            kind(kind_lines);
            if (read_line(input + start, end - start, &r)) {
                int held = t.number, value;
                struct entry before, *e = find(&t, r.tag);
                if (e != NULL) before = *e;
                enum answer a = take(&t, &r, floor, &value);
                kind(kind_reads);
                kinds_of_vote(&r, floor);
                kinds_of_answer(&r, a, held, e != NULL ? &before : NULL);
                if (a == weak && e == NULL && earlies < 64) early[earlies++] = r.tag;
                if (a == counted && e == NULL) {
                    for (int i = 0; i < earlies; i++) order |= early[i] != r.tag && find(&t, early[i]) == NULL;
                }
                kind_if(end == size, kind_last_read);
            } else {
                kind_of_no_read(input + start, end - start);
                kind_if(end == size, kind_last_no_read);
            }
            start = end + 1;
        }
        long lines = kind_counts[kind_lines], reads = kind_counts[kind_reads];
        kind_if(size == 0, kind_input_empty);
        kind_if(size == most_bytes, kind_input_full);
        kind_if(lines > 0 && reads == 0, kind_input_no_read);
        kind_if(lines > 1000, kind_input_many);
        kind_if(lines >= 1 && lines <= 10, kind_input_few);
        kind_if(order, kind_input_order_weak);
        long strong = 0;
        for (int k = kind_strong_5; k <= kind_strong_8; k++) strong += kind_counts[k];
        kind_if(reads > 0 && strong == 0, kind_input_weak);
        status = kinds_of_end(&t);
    }
    for (int k = 0; k < number_of_kinds; k++) printf("%ld %s\n", kind_counts[k], kind_names[k]);
    return status;
}
