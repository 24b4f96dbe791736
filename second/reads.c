/* reads SEED SIZE FLOOR: at most SIZE bytes of input lines for the program of FORM.md, the same for the same arguments; votes lie around five for FLOOR.
   reads --plan FIRST LAST: the size and the floor for each seed, `SEED SIZE FLOOR`.
   reads --bytes FIRST LAST: each byte value at the places FIRST to LAST (0 to 51) of lines. Knows nothing of tally.c. */
#include <stdint.h>
#include <stdio.h>
#include <stdlib.h>
#include <string.h>

/* Random numbers: splitmix64. */
static uint64_t state;

static uint64_t next(void)
{
    uint64_t z = (state += 0x9E3779B97F4A7C15u);
    z = (z ^ (z >> 30)) * 0xBF58476D1CE4E5B9u;
    z = (z ^ (z >> 27)) * 0x94D049BB133111EBu;
    return z ^ (z >> 31);
}

static uint32_t below(uint32_t n) { return (uint32_t)(next() % n); }

static int percent(uint32_t p) { return below(100) < p; }

static const uint32_t top = 4294967295u;

/* What a seed chooses for its whole input. */
static int tags;                   /* different tags that are read */
static uint32_t tag[64], near[64]; /* the tags, and the pass number that the next one of each lies near */
static uint32_t higher;            /* percent of reads with a higher pass number */
static uint32_t far;               /* of these: percent that go far */
static uint32_t wrong;             /* percent of lines that are no reads */
static uint32_t weak;              /* percent of reads that are to be weak */
static int sweep;                  /* tags come one after the other first */

static uint32_t any_tag(void)
{
    static const uint32_t special[] = { 0, 1, 2, 255, 256, 257, 65535, 65536, 65537, 16777217, 2147483647, 2147483648u, 2147483649u, 4294967294u, 4294967295u };
    switch (below(5)) {
    case 0: return special[below(sizeof special / sizeof special[0])];
    case 1: {
        uint32_t bit = 1u << below(32);
        return bit + below(10);
    }
    case 2: return (uint32_t)next();
    default: return below(100);
    }
}

static uint32_t first_pass(void)
{
    switch (below(12)) {
    case 0: return 0;
    case 1: return 1;
    case 2: return 2147483646u + below(3);
    case 3: return top - below(3);
    case 4: return (uint32_t)next();
    case 5: return 255u + below(3);
    case 6: return 65534u + below(3);
    default: return below(200);
    }
}

static void choose(void)
{
    static const int numbers[] = { 1, 1, 2, 2, 3, 4, 5, 8, 16, 30, 31, 31, 32, 32, 33, 33, 34, 34, 36, 40 };
    static const uint32_t highers[] = { 2, 5, 10, 25, 25, 40, 60 };
    static const uint32_t wrongs[] = { 0, 2, 5, 5, 10, 10, 20 };
    static const uint32_t weaks[] = { 10, 30, 40, 50 };
    tags = numbers[below(sizeof numbers / sizeof numbers[0])];
    for (int i = 0; i < tags;) {
        tag[i] = i < 32 || percent(50) ? any_tag() : percent(50) ? 0 : top;
        int again = 0;
        for (int j = 0; j < i; j++) again |= tag[j] == tag[i];
        if (again) continue;
        near[i] = first_pass();
        i++;
    }
    higher = highers[below(sizeof highers / sizeof highers[0])];
    far = percent(50) ? 5 : 30;
    wrong = percent(4) ? 100 : wrongs[below(sizeof wrongs / sizeof wrongs[0])];
    weak = percent(4) ? 100 : weaks[below(sizeof weaks / sizeof weaks[0])];
    sweep = percent(50);
}

/* A byte at or above the floor, or one under it (there is none under 00). */
static int vote_byte(int floor)
{
    int byte;
    switch (below(8)) {
    case 0: case 1: case 2: return floor;
    case 3: byte = floor + 1; break;
    case 4: byte = 0x7F + (int)below(3); break;
    case 5: byte = 0xFF; break;
    default: byte = floor + (int)below((uint32_t)(256 - floor)); break;
    }
    return byte >= floor && byte <= 0xFF ? byte : floor;
}

static int no_vote_byte(int floor)
{
    int byte;
    if (floor == 0) return 0;
    switch (below(8)) {
    case 0: case 1: case 2: return floor - 1;
    case 3: byte = floor - 2; break;
    case 4: byte = 0x7F + (int)below(3); break;
    case 5: byte = 0; break;
    default: byte = (int)below((uint32_t)floor); break;
    }
    return byte >= 0 && byte < floor ? byte : floor - 1;
}

static void words(char text[2][12], int floor)
{
    static const int weaks[] = { 0, 1, 2, 3, 3, 4, 4, 4, 4, 4 }, strongs[] = { 5, 5, 5, 5, 5, 6, 6, 7, 8, 8 };
    int votes = percent(weak) ? weaks[below(10)] : strongs[below(10)], bytes[8], left = votes;
    for (int i = 0; i < 8; i++) {
        int here = (int)below((uint32_t)(8 - i)) < left;
        left -= here;
        bytes[i] = here ? vote_byte(floor) : no_vote_byte(floor);
    }
    for (int w = 0; w < 2; w++) sprintf(text[w], "%02X%02X%02X%02X", bytes[4 * w], bytes[4 * w + 1], bytes[4 * w + 2], bytes[4 * w + 3]);
}

/* The pass number of the next read of tag i: equal, near or far, and where it goes from there. */
static uint32_t pass_of(int i)
{
    uint32_t now = near[i], pass;
    if (percent(higher)) {
        if (percent(far)) pass = percent(85) ? now + 2 + below(50) : percent(95) ? now + below(top - now < 1000000 ? top - now + 1 : 1000000) : now / 2 + 2147483648u;
        else pass = now + 1;
        if (pass < now) pass = percent(10) ? top : now;
        near[i] = pass;
        return pass;
    }
    switch (below(20)) {
    case 0: case 1: case 2: case 3: case 4: case 5: return now == 0 ? now : now - 1;
    case 6: case 7: return now < 2 ? 0 : now - 2 - below(now < 12 ? now - 1 : 10);
    case 8: return below(3);
    case 9: return now == 0 ? 0 : (uint32_t)(next() % now);
    default: return now;
    }
}

static const char hexadecimal[] = "0123456789ABCDEF";

/* Lines that are no reads: one thing wrong in a line that would be one (with the last kinds sometimes nothing wrong, as a random byte may fit). */
static int spoilt(char *line, char a[64], char b[64], char w[2][12])
{
    char *number = percent(50) ? a : b, *word = w[below(2)];
    static const char signs[] = "+-";
    static const char *const large[] = { "4294967296", "4294967296", "4294967297", "4294967300", "4294967305", "4294967395", "4294968295", "4300000000", "5000000000", "9999999999" };
    static const char *const more[] = { "10000000000", "42949672950", "42949672960", "18446744073709551615", "18446744073709551616", "18446744073709551617", "36893488147419103233", "99999999999999999999",
        "340282366920938463463374607431768211457", "100000000000000000000000000000000000000000000000000000000001" };
    int length, place = (int)below(3), byte;
    switch (below(27)) {
    case 0: return 0;
    case 1: return sprintf(line, " %s %s %s %s", a, b, w[0], w[1]);
    case 2: return sprintf(line, "%s %s %s %s ", a, b, w[0], w[1]);
    case 3: return sprintf(line, "%s %s %s %s\r", a, b, w[0], w[1]);
    case 4: return percent(50) ? sprintf(line, "\t%s %s %s %s", a, b, w[0], w[1]) : sprintf(line, "%s %s %s %s\t", a, b, w[0], w[1]);
    case 5: return sprintf(line, "%s%s%s%s%s%s%s", a, place == 0 ? "  " : " ", b, place == 1 ? "  " : " ", w[0], place == 2 ? "  " : " ", w[1]);
    case 6: return sprintf(line, "%s%s%s%s%s%s%s", a, place == 0 ? "\t" : " ", b, place == 1 ? "\t" : " ", w[0], place == 2 ? "\t" : " ", w[1]);
    case 7: case 8:
        place = percent(80) ? 1 : 3;
        memmove(number + place, number, strlen(number) + 1);
        memset(number, '0', (size_t)place);
        break;
    case 9: case 10: strcpy(number, large[below(10)]); break;
    case 11: case 12: strcpy(number, more[below(10)]); break;
    case 13:
        memmove(number + 1, number, strlen(number) + 1);
        number[0] = signs[below(2)];
        break;
    case 14:
        byte = 33 + (int)below(94);
        number[below((uint32_t)strlen(number))] = (char)byte;
        break;
    case 15: case 16:
        place = (int)below(8);
        word[place] = percent(70) ? "abcdef"[below(6)] : (char)(33 + below(94));
        if (percent(20)) memcpy(word, "fFaA90bc", 8);
        break;
    case 17: word[7] = '\0'; break;
    case 18: word[8] = hexadecimal[below(16)]; word[9] = '\0'; break;
    case 19: return percent(34) ? sprintf(line, "%s", a) : percent(50) ? sprintf(line, "%s %s", a, b) : sprintf(line, "%s %s %s", a, b, w[0]);
    case 20: return sprintf(line, "%s %s %s %s %s", a, b, w[0], w[1], percent(50) ? w[0] : b);
    case 21:
        if (percent(50)) number[0] = '\0'; else word[0] = '\0';
        break;
    case 22:
        length = sprintf(line, "%s %s %s %s", a, b, w[0], w[1]);
        line[below((uint32_t)length)] = '\0';
        return length;
    case 23:
        length = sprintf(line, "%s %s %s %s", a, b, w[0], w[1]);
        line[below((uint32_t)length)] |= (char)0x80;
        return length;
    case 24:
        length = sprintf(line, "%s %s %s %s", a, b, w[0], w[1]);
        line[length] = (char)(percent(30) ? 0 : 33 + below(15));
        return length + 1;
    case 25:
        length = (int)below(percent(10) ? 200 : 40);
        for (int i = 0; i < length; i++) line[i] = (char)(percent(30) ? ' ' : percent(50) ? hexadecimal[below(16)] : (char)below(256));
        for (int i = 0; i < length; i++) if (line[i] == '\n') line[i] = '\v';
        return length;
    default:
        length = sprintf(line, "%s %s %s %s", a, b, w[0], w[1]);
        byte = percent(50) ? 32 : 1 + (int)below(9);
        line[below((uint32_t)length)] = (char)byte;
        return length;
    }
    return sprintf(line, "%s %s %s %s", a, b, w[0], w[1]);
}

static int one_line(char *line, long n, int floor)
{
    char a[64], b[64], w[2][12];
    int i = sweep && n < 2L * tags ? (int)(n / 2) : (int)below((uint32_t)tags);
    sprintf(a, "%lu", (unsigned long)tag[i]);
    sprintf(b, "%lu", (unsigned long)pass_of(i));
    words(w, floor);
    if (percent(wrong)) return spoilt(line, a, b, w);
    return sprintf(line, "%s %s %s %s", a, b, w[0], w[1]);
}

/* Each byte value once at each place: place 0 alone on a line; 1 to 25 in place of that byte of a read; 26 to 51 put in before it, 51 behind the last. */
static void bytes_at(int place)
{
    static const char line[] = "123 456 789ABCDE F0123456";
    for (int byte = 0; byte < 256; byte++) {
        int before = place == 0 ? 0 : place <= 25 ? place - 1 : place - 26, after = place == 0 ? 25 : place <= 25 ? place : place - 26;
        fwrite(line, 1, (size_t)before, stdout);
        putchar(byte);
        fwrite(line + after, 1, (size_t)(25 - after), stdout);
        putchar('\n');
    }
}

/* The plan: every other seed a long input, and all sizes and floors that matter. */
static void plan(unsigned long seed)
{
    static const long sizes[] = { 65536, 40, 65535, 3000, 65536, 700, 65537, 22, 65536, 1200, 65534, 0, 65536, 150, 70000, 1 };
    static const int floors[] = { 0x80, 0x01, 0xFF, 0x40, 0x7F, 0x81, 0x00, 0xC0, 0x02, 0xFE, 0x7E, 0x80, 0x01 };
    static const long fulls[] = { 65536, 65000, 65536, 60000 };
    state = seed * 0xD1342543DE82EF95u + 7;
    next();
    long size = seed <= 16 ? sizes[(seed + 15) % 16] : seed % 2 == 1 ? fulls[below(4)] : (long)below(percent(50) ? 300 : 4000);
    int floor = seed % 16 < 13 ? floors[(seed * 5 + seed / 16) % 13] : (int)below(256);
    printf("%lu %ld %02X\n", seed, size, floor);
}

int main(int argc, char **argv)
{
    if (argc == 4 && strcmp(argv[1], "--plan") == 0) {
        unsigned long first = strtoul(argv[2], NULL, 10), last = strtoul(argv[3], NULL, 10);
        for (unsigned long seed = first; seed <= last; seed++) plan(seed);
        return 0;
    }
    if (argc == 4 && strcmp(argv[1], "--bytes") == 0) {
        int first = atoi(argv[2]), last = atoi(argv[3]);
        if (first < 0 || last > 51) return 2;
        for (int place = first; place <= last; place++) bytes_at(place);
        return fflush(stdout) == 0 ? 0 : 1;
    }
    char *end = NULL;
    long floor = argc == 4 && strlen(argv[3]) == 2 ? strtol(argv[3], &end, 16) : -1;
    if (floor < 0 || *end != '\0') {
        fprintf(stderr, "usage: reads SEED SIZE FLOOR | reads --plan FIRST LAST | reads --bytes FIRST LAST\n");
        return 2;
    }
    state = strtoul(argv[1], NULL, 10) * 0x9FB21C651E98DF25u + 13;
    next();
    choose();
    long size = strtol(argv[2], NULL, 10), done = 0;
    int cut = percent(50), unfinished = percent(40);     /* cut: SIZE bytes exactly, mostly in the middle of a line; unfinished: the last line feed is left out */
    for (long n = 0;; n++) {
        char line[512];
        int length = one_line(line, n, (int)floor);
        line[length++] = '\n';
        if (done + length > size) {
            if (cut) fwrite(line, 1, (size_t)(size - done), stdout);
            else if (unfinished && done + length - 1 <= size) fwrite(line, 1, (size_t)(length - 1), stdout);
            break;
        }
        fwrite(line, 1, (size_t)length, stdout);
        done += length;
    }
    return fflush(stdout) == 0 ? 0 : 1;
}
