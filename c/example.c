/*
 * What an auditor's program does with the library:   example FILE MESSAGE REFERENCE
 *
 * Judges the interchange in FILE, totals the loads of MESSAGE (its 0062), writes the interchange's register and checks it;
 * seals the message under REFERENCE, and checks what was sealed. Exit status 0: all was carried out.
 */
#include "gurandepi.h"
#include <stdio.h>
#include <string.h>

/* One octet more than an interchange may have, so that a file that is too long is refused and not cut. */
static uint8_t interchange[GURANDEPI_LONGEST + 1];
static uint8_t kept[GURANDEPI_LONGEST], octets[GURANDEPI_LONGEST], sealed[GURANDEPI_LONGEST], signature[256], value[256];

/* A reference, as it is lent: its octets and how many. */
#define LENT(name) (const uint8_t *)(name), strlen(name)

static int refused(const char *what, uint64_t number, uint64_t place, uint64_t segment) {
    if (number == GURANDEPI_OK) return 0;
    printf("%s: refused %llu at %llu segment %llu\n", what, (unsigned long long)number, (unsigned long long)place,
           (unsigned long long)segment);
    return 1;
}

static int audit(size_t length, const char *message) {
    struct gurandepi_answer verdict = gurandepi_judge(interchange, length);
    struct gurandepi_loads totals;
    struct gurandepi_written written;
    if (refused("judge", verdict.number, verdict.place, verdict.segment)) return 1;
    printf("accepted, %zu octets\n", length);

    totals = gurandepi_totals(interchange, length, LENT(message));
    if (refused("totals", totals.number, totals.place, totals.segment)) return 1;
    printf("message %s: %llu loads, %lld g\n", message, (unsigned long long)totals.loads, (long long)totals.grams);

    written = gurandepi_register_write(interchange, length, kept, sizeof kept);
    if (refused("register", written.number, written.place, written.segment)) return 1;
    verdict = gurandepi_register_check(interchange, length, kept, (size_t)written.length);
    if (refused("register check", verdict.number, verdict.place, verdict.segment)) return 1;
    printf("register of %llu octets, written and checked\n", (unsigned long long)written.length);
    return 0;
}

/* Key work is the caller's: two octets stand in for the signature of `length` octets. */
static size_t sign(const uint8_t *from, size_t length, uint8_t *to) {
    (void)from;
    (void)length;
    to[0] = 0x0F;
    to[1] = 0xA0;
    return 2;
}

/* Of the sealed interchange: the octets that are sealed are those that were signed, and the value is the signature. */
static int check(size_t length, const char *message, const char *header, size_t octets_length, size_t signature_length) {
    struct gurandepi_parts parts = gurandepi_scope1(sealed, length, LENT(message), LENT(header));
    size_t first = (size_t)(parts.header_end - parts.header_start), second = (size_t)(parts.body_end - parts.body_start);
    struct gurandepi_written written;
    if (refused("scope 1", parts.number, parts.place, parts.segment)) return 1;
    if (first + second != octets_length || memcmp(octets, sealed + parts.header_start, first) != 0 ||
        memcmp(octets + first, sealed + parts.body_start, second) != 0)
        return 1;
    written = gurandepi_value(sealed, length, LENT(message), LENT(header), value, sizeof value);
    if (refused("value", written.number, written.place, written.segment)) return 1;
    if (written.length != signature_length || memcmp(value, signature, signature_length) != 0) return 1;
    printf("checked: %zu and %zu octets sealed, a value of %zu octets\n", first, second, signature_length);
    return 0;
}

static int seal(size_t length, const char *message, const char *header) {
    struct gurandepi_written written;
    size_t octets_length, signature_length;
    written = gurandepi_seal_octets(interchange, length, LENT(message), LENT(header), GURANDEPI_FILTER_HEX, octets,
                                    sizeof octets);
    if (refused("seal", written.number, written.place, written.segment)) return 1;
    octets_length = (size_t)written.length;
    signature_length = sign(octets, octets_length, signature);
    written = gurandepi_seal(interchange, length, LENT(message), LENT(header), GURANDEPI_FILTER_HEX, signature,
                             signature_length, sealed, sizeof sealed);
    if (refused("seal", written.number, written.place, written.segment)) return 1;
    printf("sealed under %s: %llu octets\n", header, (unsigned long long)written.length);
    return check((size_t)written.length, message, header, octets_length, signature_length);
}

int main(int argc, char **argv) {
    FILE *file;
    size_t length;
    if (argc != 4) {
        fprintf(stderr, "usage: example FILE MESSAGE REFERENCE\n");
        return 2;
    }
    file = fopen(argv[1], "rb");
    if (file == NULL) {
        fprintf(stderr, "example: cannot open %s\n", argv[1]);
        return 2;
    }
    length = fread(interchange, 1, sizeof interchange, file);
    fclose(file);
    return audit(length, argv[2]) || seal(length, argv[2], argv[3]);
}
