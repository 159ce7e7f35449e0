/*
 * How far the old returns of a year were off:   year FILE..
 *
 * Each file takes the sum that the last one left; the year starts at zero. Prints for each file its loads, their exact
 * kilograms, the old sum, what the file added to it and the difference so far, and at the end the year's. Exit status 0: no
 * file was refused.
 */
#include "gurandepi.h"
#include <stdio.h>

/* One octet more than an interchange may have, so that a file that is too long is refused and not cut. */
static uint8_t interchange[GURANDEPI_LONGEST + 1];

/* The year so far. */
static uint32_t bits;
static uint64_t sum, loads, kilograms;

static long long difference(void) {
    return (long long)sum - (long long)kilograms;
}

static int add(int ordinal, const char *path) {
    struct gurandepi_oldsum r;
    size_t length;
    FILE *file = fopen(path, "rb");
    if (file == NULL) {
        fprintf(stderr, "year: cannot open %s\n", path);
        return 2;
    }
    length = fread(interchange, 1, sizeof interchange, file);
    fclose(file);
    r = gurandepi_old_sum_bits(interchange, length, bits);
    if (r.number != GURANDEPI_OK) {
        printf("file %d refused %llu at %llu segment %llu\n", ordinal, (unsigned long long)r.number, (unsigned long long)r.place,
               (unsigned long long)r.segment);
        return 1;
    }
    loads += r.loads;
    kilograms += r.kilograms;
    printf("file %d loads %llu kilograms %llu oldsum %llu added %lld", ordinal, (unsigned long long)r.loads,
           (unsigned long long)r.kilograms, (unsigned long long)r.sum, (long long)r.sum - (long long)sum);
    sum = r.sum;
    bits = r.bits;
    printf(" difference %lld\n", difference());
    return 0;
}

int main(int argc, char **argv) {
    int i, status;
    for (i = 1; i < argc; i++)
        if ((status = add(i, argv[i])) != 0) return status;
    printf("year loads %llu kilograms %llu oldsum %llu difference %lld\n", (unsigned long long)loads,
           (unsigned long long)kilograms, (unsigned long long)sum, difference());
    return 0;
}
