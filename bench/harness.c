// harness time FILE..              times both judges on each file, alternating, in this one process
// harness check COMMANDS ANSWERS   holds both against the answers to the `judge HEX` lines, then against each other on changed inputs
#include <stdint.h>
#include <stdio.h>
#include <stdlib.h>
#include <string.h>
#include <time.h>
#include "gurandepi.h"

uint64_t plain_judge(const uint8_t *s, size_t n);

enum { ROUNDS = 41, ROOM = 1 << 20 };
static uint8_t octets[ROOM];

static uint64_t ours(const uint8_t *s, size_t n) {
    struct gurandepi_answer a = gurandepi_judge(s, n);
    return a.number << 40 | a.segment << 20 | a.place;
}

static double now(void) {
    struct timespec t;
    clock_gettime(CLOCK_PROCESS_CPUTIME_ID, &t);    // others use the machine too
    return t.tv_sec * 1e9 + t.tv_nsec;
}

static uint64_t sink;

static double spent(uint64_t (*f)(const uint8_t *, size_t), size_t n, int times) {
    double t = now();
    for (int i = 0; i < times; i++) sink += f(octets, n);
    return (now() - t) / times;
}

static int by_size(const void *a, const void *b) {
    double x = *(const double *)a, y = *(const double *)b;
    return (x > y) - (x < y);
}

static void say(uint64_t v, char *out) {
    if (v == 0) strcpy(out, "ok");
    else sprintf(out, "refused %u %u %u", (unsigned)(v >> 40), (unsigned)(v & 0xFFFFF), (unsigned)(v >> 20 & 0xFFFFF));
}

static int time_file(const char *path) {
    FILE *f = fopen(path, "rb");
    if (!f) return perror(path), 1;
    size_t n = fread(octets, 1, ROOM, f);
    fclose(f);
    char a[40], b[40];
    say(ours(octets, n), a);
    say(plain_judge(octets, n), b);
    double x[ROUNDS], y[ROUNDS], once = spent(ours, n, 1);
    int times = once > 1e6 ? 1 : (int)(1e6 / once) + 1;
    int rounds = once > 5e6 ? 11 : ROUNDS;
    for (int r = 0; r < rounds; r++) {
        x[r] = spent(ours, n, times);
        y[r] = spent(plain_judge, n, times);
    }
    qsort(x, rounds, sizeof *x, by_size);
    qsort(y, rounds, sizeof *y, by_size);
    double p = x[0], q = y[0], pm = x[rounds / 2], qm = y[rounds / 2];
    const char *name = strrchr(path, '/') ? strrchr(path, '/') + 1 : path;
    printf("%-20s %6zu  %8.3f %8.3f  %8.3f %8.3f  %6.2f %6.2f  %9.4f %9.4f  %s%s\n", name, n, p / n, pm / n, q / n, qm / n, p / q, pm / qm,
           p / 1e6, q / 1e6, a, strcmp(a, b) ? " BUT PLAIN DIFFERS" : "");
    return strcmp(a, b) != 0;
}

static int hex(int c) { return c >= '0' && c <= '9' ? c - '0' : c >= 'a' && c <= 'f' ? c - 'a' + 10 : -1; }

// The octets of a `judge HEX` line; -1 if it is none.
static long decode(const char *line) {
    if (strncmp(line, "judge ", 6)) return -1;
    const char *p = line + 6;
    size_t n = strlen(p);
    if (!strcmp(p, "-")) return 0;
    if (n == 0 || n % 2 || n / 2 > ROOM) return -1;
    for (size_t i = 0; i < n; i += 2) {
        if (hex(p[i]) < 0 || hex(p[i + 1]) < 0) return -1;
        octets[i / 2] = hex(p[i]) * 16 + hex(p[i + 1]);
    }
    return n / 2;
}

static uint32_t seed = 1;
static uint32_t any(uint32_t below) {
    seed = seed * 1664525 + 1013904223;
    return (uint64_t)seed * below >> 32;
}

// One to three octets put, taken out, doubled or swapped, mostly such as matter.
static size_t change(uint8_t *s, size_t n) {
    static const char likely[] = "'+:?*.,0123456789UNHTZSABCXYQK \x7f\xa0";
    for (uint32_t k = any(3) + 1; k > 0 && n > 1 && n < ROOM - 1; k--) {
        size_t i = any(n), m = any(n);
        uint8_t b = s[i];
        switch (any(4)) {
        case 0: s[i] = likely[any(sizeof likely - 1)]; break;
        case 1: memmove(s + i, s + i + 1, n-- - i - 1); break;
        case 2: memmove(s + i + 1, s + i, n++ - i); break;
        default: s[i] = s[m], s[m] = b;
        }
    }
    return n;
}

static void chomp(char *s) { s[strcspn(s, "\n")] = 0; }

static int check(const char *commands, const char *answers) {
    FILE *c = fopen(commands, "r"), *w = fopen(answers, "r");
    if (!c || !w) return perror(commands), 1;
    char *line = NULL, *want = NULL, a[40], b[40];
    size_t l = 0, m = 0;
    unsigned all = 0, mine = 0, plain = 0, changed = 0, alike = 0;
    static uint8_t kept[ROOM];
    while (getline(&line, &l, c) > 0 && getline(&want, &m, w) > 0) {
        chomp(line), chomp(want);
        long n = decode(line);
        if (n < 0) continue;
        say(ours(octets, n), a);
        say(plain_judge(octets, n), b);
        all++;
        mine += !strcmp(a, want);
        plain += !strcmp(b, want);
        if (strcmp(b, want)) printf("line %u: plain says %s, not %s\n", all, b, want);
        memcpy(kept, octets, n);
        for (int i = 0; i < 500 && n < 5000; i++) {
            memcpy(octets, kept, n);
            size_t k = change(octets, n);
            uint64_t p = ours(octets, k), q = plain_judge(octets, k);
            changed++;
            alike += p == q;
            if (p != q && changed - alike < 9) {
                say(p, a), say(q, b);
                printf("line %u changed: ours %s, plain %s: %.*s\n", all, a, b, (int)k, octets);
            }
        }
    }
    printf("%s: %u judge lines, ours right on %u, plain on %u; of %u changed inputs they agree on %u\n", commands, all, mine, plain, changed, alike);
    return mine != all || plain != all || alike != changed;
}

int main(int argc, char **argv) {
    if (argc == 4 && !strcmp(argv[1], "check")) return check(argv[2], argv[3]);
    if (argc < 3 || strcmp(argv[1], "time")) return fputs("usage: harness time FILE.. | check COMMANDS ANSWERS\n", stderr), 2;
    printf("%-20s %6s  %17s  %17s  %13s  %19s\n", "", "", "ours, ns an octet", "plain, ns/octet", "ours / plain", "best, ms");
    printf("%-20s %6s  %8s %8s  %8s %8s  %6s %6s  %9s %9s  %s\n", "file", "octets", "best", "median", "best", "median", "best", "median", "ours", "plain", "answer");
    int bad = 0;
    for (int i = 2; i < argc; i++) bad |= time_file(argv[i]);
    return bad;
}
