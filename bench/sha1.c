// SHA-1 of one part, ours (the exported calls, over crates/sha) beside a plain one in C (plain_sha1, of sha1_plain.c).
// Each is run on the same octets, in turns, and the fastest of the runs counts. The digests are compared first.
#include <stdint.h>
#include <stdio.h>
#include <stdlib.h>
#include <string.h>
#include <time.h>
#include "gurandepi.h"

struct slice {
    const uint8_t *octets;
    uint64_t length;
};

uint64_t plain_sha1(const struct slice *);

// the first eight octets of the digest
static uint64_t rattle_sha1(const struct slice *p) {
    struct gurandepi_digest d = gurandepi_sha1_finish(gurandepi_sha1_feed(gurandepi_sha1_start(), p->octets, p->length).state);
    uint64_t n = 0;
    for (int i = 0; i < 8; i++)
        n = n << 8 | d.octets[i];
    return n;
}

static double now(void) {
    struct timespec t;
    clock_gettime(CLOCK_PROCESS_CPUTIME_ID, &t);    // others use the machine too
    return (double)t.tv_sec * 1e9 + (double)t.tv_nsec;
}

static volatile uint64_t kept;

static double run(uint64_t (*f)(const struct slice *), const struct slice *p, int times) {
    double from = now();
    for (int i = 0; i < times; i++)
        kept += f(p);
    return (now() - from) / times / (double)p->length;
}

int main(void) {
    static uint8_t octets[65536];
    uint32_t x = 1;
    for (size_t i = 0; i < sizeof octets; i++) {
        x = x * 1103515245 + 12345;
        octets[i] = (uint8_t)(x >> 16);
    }
    for (uint64_t n = 0; n < 1000; n++) {
        struct slice p = {octets, n};
        if (rattle_sha1(&p) != plain_sha1(&p)) {
            printf("sha1: the digests of %llu octets differ\n", (unsigned long long)n);
            return 1;
        }
    }
    const uint64_t sizes[] = {65536, 4096, 82};
    for (int k = 0; k < 3; k++) {
        struct slice p = {octets, sizes[k]};
        int times = (int)(4194304 / sizes[k]);
        double ours = 1e9, plain = 1e9;
        for (int i = 0; i < 25; i++) {
            double o = run(rattle_sha1, &p, times), q = run(plain_sha1, &p, times);
            ours = o < ours ? o : ours;
            plain = q < plain ? q : plain;
        }
        printf("sha1 %llu octets: ours %.2f ns an octet, plain C %.2f, ours/plain %.2f\n", (unsigned long long)sizes[k], ours, plain, ours / plain);
    }
    return 0;
}
