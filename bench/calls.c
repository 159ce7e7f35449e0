// calls DELIVERIES AUTACK GS1 YEAR    times every exported call on the delivery file, the old sum on a file of the example year, against the plain judge
// on the same octets, in this one process
#include <stdint.h>
#include <stdio.h>
#include <stdlib.h>
#include <string.h>
#include <time.h>
#include "gurandepi.h"

uint64_t plain_judge(const uint8_t *s, size_t n);

enum { ROUNDS = 21, ROOM = 1 << 17 };
static uint8_t octets[ROOM], autack[ROOM], gs1[ROOM], year[ROOM], out[ROOM], reg[ROOM], form3[ROOM];
static size_t size, autack_size, gs1_size, year_size, reg_size, form3_size;
static uint64_t sink;

#define TEXT(t) (const uint8_t *)(t), sizeof(t) - 1

static uint64_t plain(void) { return plain_judge(octets, size); }
static uint64_t judge(void) { return gurandepi_judge(octets, size).number; }
static uint64_t totals(void) { return gurandepi_totals(octets, size, TEXT("M8")).number; }
static uint64_t scope1(void) { return gurandepi_scope1(octets, size, TEXT("M8"), TEXT("A8")).number; }
static uint64_t scope2(void) { return gurandepi_scope2(octets, size, TEXT("M8"), TEXT("B8")).number; }
static uint64_t f01(void) { return gurandepi_f01(autack, autack_size, octets, size, TEXT("K1"), TEXT("F1")).number; }
static uint64_t scope3(void) { return gurandepi_scope3(gs1, gs1_size, octets, size, TEXT("K1"), TEXT("G1")).number; }
static uint64_t value(void) { return gurandepi_value(octets, size, TEXT("M8"), TEXT("A8"), out, ROOM).number; }
static uint64_t seal_octets(void) { return gurandepi_seal_octets(octets, size, TEXT("M8"), TEXT("C8"), 2, out, ROOM).number; }
static uint64_t seal(void) { return gurandepi_seal(octets, size, TEXT("M8"), TEXT("C8"), 2, octets, 256, out, ROOM).number; }
static uint64_t register_write(void) { return gurandepi_register_write(octets, size, reg, ROOM).number; }
static uint64_t register_check(void) { return gurandepi_register_check(octets, size, reg, reg_size).number; }
static uint64_t write_signed(void) { return gurandepi_register_write_signed(octets, size, form3, ROOM).number; }
static uint64_t check_signed(void) { return gurandepi_register_check_signed(octets, size, form3, form3_size).number; }
static uint64_t old_to_signed(void) { return gurandepi_register_old_to_signed(reg, reg_size, out, ROOM).number; }
static uint64_t signed_to_old(void) { return gurandepi_register_signed_to_old(form3, form3_size, out, ROOM).number; }
static uint64_t plain_year(void) { return plain_judge(year, year_size); }
static uint64_t judge_year(void) { return gurandepi_judge(year, year_size).number; }
static uint64_t old_sum(void) { return gurandepi_old_sum(year, year_size, 0).number; }
static uint64_t message_old_sum(void) { return gurandepi_message_old_sum(year, year_size, TEXT("M25"), 0).number; }

static double now(void) {
    struct timespec t;
    clock_gettime(CLOCK_PROCESS_CPUTIME_ID, &t);    // others use the machine too
    return t.tv_sec * 1e9 + t.tv_nsec;
}

static double best(uint64_t (*f)(void), uint64_t (*beside)(void), double *other) {
    double b = 1e18, o = 1e18;
    for (int r = 0; r < ROUNDS; r++) {
        double t = now();
        for (int i = 0; i < 10; i++) sink += f();
        double u = now();
        for (int i = 0; i < 10; i++) sink += beside();
        double v = now();
        if ((u - t) / 10 < b) b = (u - t) / 10;
        if ((v - u) / 10 < o) o = (v - u) / 10;
    }
    *other = o;
    return b;
}

static size_t read_file(const char *path, uint8_t *into) {
    FILE *f = fopen(path, "rb");
    if (!f) exit((perror(path), 1));
    size_t n = fread(into, 1, ROOM, f);
    fclose(f);
    return n;
}

struct row { const char *name; uint64_t (*call)(void); };

static void rows(const struct row *row, size_t count, uint64_t (*beside)(void), size_t octets) {
    printf("%-16s %10s %10s %8s   on %zu octets\n", "call", "ns/octet", "plain", "ratio", octets);
    for (size_t k = 0; k < count; k++) {
        uint64_t number = row[k].call();
        double other, t = best(row[k].call, beside, &other);
        printf("%-16s %10.3f %10.3f %8.2f%s\n", row[k].name, t / octets, other / octets, t / other, number ? "   REFUSED" : "");
        if (number) exit(1);
    }
}

int main(int argc, char **argv) {
    if (argc != 5) return 2;
    size = read_file(argv[1], octets);
    autack_size = read_file(argv[2], autack);
    gs1_size = read_file(argv[3], gs1);
    year_size = read_file(argv[4], year);
    reg_size = gurandepi_register_write(octets, size, reg, ROOM).length;
    form3_size = gurandepi_register_write_signed(octets, size, form3, ROOM).length;
    static const struct row calls[] = {
        {"judge", judge}, {"totals", totals}, {"scope1", scope1}, {"scope2", scope2}, {"f01", f01}, {"scope3", scope3}, {"value", value},
        {"seal_octets", seal_octets}, {"seal", seal}, {"register_write", register_write}, {"register_check", register_check},
        {"write_signed", write_signed}, {"check_signed", check_signed}, {"old_to_signed", old_to_signed}, {"signed_to_old", signed_to_old}};
    static const struct row sums[] = {{"judge", judge_year}, {"old_sum", old_sum}, {"message_old_sum", message_old_sum}};
    rows(calls, sizeof calls / sizeof *calls, plain, size);
    rows(sums, sizeof sums / sizeof *sums, plain_year, year_size);
    return 0;
}
