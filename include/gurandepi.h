/*
 * Gurandepi: judges EDIFACT interchanges, hands back what is sealed in them and its digest, recovers signature values, totals
 * loads, seals a message, writes, checks and moves a register, and adds up the old sum of the returns. C11 and later, C++11
 * and later; link libgurandepi.a (x86-64 Linux).
 *
 * How the calls are made
 *
 *   - Octets are lent as a pointer and a length. A length may be anything, 0 too; a pointer is never NULL, not even where
 *     the length is 0 ("" serves). What is lent as `const` is only read, and may be lent twice in one call.
 *   - An interchange is the whole file: UNA where there is one, UNB to UNZ, nothing else.
 *   - `message` is the content of a message's 0062 (in UNH), `header` the content of a security header's 0534 (in USH):
 *     the octets without release characters, and without a final 0. Spaces at the end don't count.
 *   - `out` is the caller's own buffer for a result. It overlaps nothing else that is lent in the same call.
 *   - A call keeps nothing, allocates nothing and writes nothing but `out`: any number of threads may call at a time. It
 *     takes less than 1 MB of stack.
 *
 * What is given back
 *
 *   Every answer is a struct of numbers. `number` is 0 where the call was carried out, else the number of the refusal,
 *   from the table below. `place` says where: the first octet of the segment (or of the octet) that is at fault, counted
 *   from 0 in the lent interchange; 0 where the table says so. `segment` says which segment stands at that place, for a
 *   printed list: UNB is 1, UNA counts as none, and the end of the input, or what stands after UNZ, counts as the next
 *   segment. It is 0 for the refusals 1 and 2, and for those from 13 on.
 *   Places come as `start` and `end`: from the octet at `start` up to, but not with, the one at `end`.
 *
 *   On a refusal every other number of the answer is 0, and `out` is left as it was, every octet of it. Where a call
 *   writes `length` octets, they stand at the front of `out`, and the octets of `out` behind them are left as they were.
 *
 *   For equal octets lent, the answer and the octets left in `out` are always the same. What they are is proved for every
 *   call: crates/gurandepi in the sources.
 */
#ifndef GURANDEPI_H
#define GURANDEPI_H

#include <stddef.h>
#include <stdint.h>

#ifdef __cplusplus
extern "C" {
#endif

/*
 * The version of this interface: of what is declared here, and of what is said of it here.
 * MINOR grows where a program written by the header before goes on compiling and working: a call or a constant is new, or a
 * call carries out what it refused before. MAJOR grows, and MINOR is 0 again, where such a program has to be looked at: a
 * declaration is changed or gone, or for equal octets another answer is given. The library has no version of its own: take
 * both from one tree.
 */
#define GURANDEPI_MAJOR 5
#define GURANDEPI_MINOR 2

/*
 * The octets of the longest interchange, and of the longest result. An `out` of so many octets has room for every result:
 * with it a call refuses with 15 only where no `out` would do.
 */
#define GURANDEPI_LONGEST 65535

/*
 * The refusals. A file has one: numbers 1 and 2 are looked for first, then the segments are gone through in order, and the
 * first bad one decides. Every call on an interchange judges it in this way before all else, so that each may refuse with 1
 * to 12; 13, 18, 16, 14, 19 and 15 are looked for after that, in this order. The moves of a register are lent no interchange:
 * they refuse with 17, then 19, then 15.
 */
enum gurandepi_number {
    GURANDEPI_OK = 0,               /* no refusal */
    GURANDEPI_BAD_LENGTH = 1,       /* no octets, or more than 65,535. Place: 0 */
    GURANDEPI_BAD_UNA = 2,          /* UNA is too short or names service characters that are not allowed. Place: 0 */
    GURANDEPI_BAD_OCTET = 3,        /* an octet outside the repertoire of the interchange. Place: the octet */
    GURANDEPI_BAD_SEGMENT = 4,      /* a segment without terminator, or with a bad tag. Place: the segment */
    GURANDEPI_NO_UNB = 5,           /* the first segment is not UNB, or there is none. Place: the segment, or the end */
    GURANDEPI_UNKNOWN_SYNTAX = 6,   /* the syntax identifier or version in UNB is unknown, or UNOD in another version than 2;
                                       or UNA names a repetition character in version 2 or 3. Place: UNB */
    GURANDEPI_OUT_OF_ORDER = 7,     /* a segment out of order; the input ends early; octets after UNZ. Place: the segment,
                                       the end, the first octet after UNZ */
    GURANDEPI_BAD_ELEMENT = 8,      /* a checked element is missing or malformed. Place: the segment */
    GURANDEPI_BAD_REFERENCE = 9,    /* a reference differs, repeats or has no partner. Place: the segment */
    GURANDEPI_BAD_COUNT = 10,       /* a count of segments or messages, or a control total, differs. Place: UNT or UNZ */
    GURANDEPI_BAD_SCOPE = 11,       /* the scope code of a security header. Place: USH */
    GURANDEPI_BAD_AMOUNT = 12,      /* the amount of a load. Place: QTY */
    GURANDEPI_NOT_FOUND = 13,       /* no such message, header, F01 run or message of scope 3; or the register is not this
                                       interchange's. Place: 0 */
    GURANDEPI_BAD_VALUE = 14,       /* the filter of a value is unknown, its text is bad or empty; or a value cannot be
                                       written in this interchange. Place: 0 */
    GURANDEPI_NO_ROOM = 15,         /* the result is longer than `out`, or than 65,535 octets; or more than 2^32 - 1 octets
                                       are fed. Place: 0 */
    GURANDEPI_NOT_SEALABLE = 16,    /* sealing: the reference is not allowed or already used in the message; the filter or
                                       the length of the value is not allowed; nine headers already; an AUTACK. Place: 0 */
    GURANDEPI_BAD_REGISTER = 17,    /* moving: the stored register starts otherwise than its form, is cut, has a number that
                                       is overlong or too large, or octets left over; or it has grams of 2^63 or more and
                                       is moved to the form with signed grams. Place: 0 */
    GURANDEPI_NOT_SHA1 = 18,        /* digest of a range: no USA stands directly after the header's USH, or it names another
                                       code than 16 in 0527, or repeats. Place: 0 */
    GURANDEPI_NEGATIVE_TOTAL = 19,  /* writing or moving to the old form of a register: a total is below zero. Place: 0 */
    GURANDEPI_BAD_LOAD = 23,        /* the old sum: a load that is not whole kilograms from 0 to 100,000. Place: 0 */
    GURANDEPI_BAD_SUM = 24          /* the old sum: the sum handed in is no whole number from 0 to 1,073,741,824 (minus zero is
                                       none); or a running sum passes that limit before it is rounded. Place: 0 */
};

/* How the value of a seal is written (0505): the `filter` of the sealing calls, which refuse every other with 16. */
enum gurandepi_filter {
    GURANDEPI_FILTER_HEX = 2,       /* hexadecimal; a value of 1 to 256 octets, in an interchange of version 2 of 1 to 128 */
    GURANDEPI_FILTER_BASE64 = 7     /* base 64; a value of 1 to 384 octets. Not in version 2 */
};

/* Carried out, or refused. */
struct gurandepi_answer {
    uint64_t number;
    uint64_t place;
    uint64_t segment;
};

/* The loads of a message and the sum of their amounts, exact, in grams: below zero where more was tipped back than loaded. */
struct gurandepi_loads {
    uint64_t number;
    uint64_t place;
    uint64_t segment;
    uint64_t loads;
    int64_t grams;
};

/* Two parts of the lent interchange, which are sealed as if joined: the header group and the body. */
struct gurandepi_parts {
    uint64_t number;
    uint64_t place;
    uint64_t segment;
    uint64_t header_start;
    uint64_t header_end;
    uint64_t body_start;
    uint64_t body_end;
};

/* One part of a lent interchange. */
struct gurandepi_range {
    uint64_t number;
    uint64_t place;
    uint64_t segment;
    uint64_t start;
    uint64_t end;
};

/* So many octets were written to the front of `out`. */
struct gurandepi_written {
    uint64_t number;
    uint64_t place;
    uint64_t segment;
    uint64_t length;
};

/*
 * A message under way, for its digest: the caller keeps it, and looks into it or changes it at his own risk. It may be copied,
 * and the copies fed apart.
 */
struct gurandepi_sha1 {
    uint32_t a;
    uint32_t b;
    uint32_t c;
    uint32_t d;
    uint32_t e;
    uint8_t buffer[64];
    uint64_t count;
};

/* The message with one part more; or, where `number` is not 0, as it was. */
struct gurandepi_fed {
    uint64_t number;
    uint64_t place;
    uint64_t segment;
    struct gurandepi_sha1 state;
};

/* A digest of SHA-1. */
struct gurandepi_digest {
    uint64_t number;
    uint64_t place;
    uint64_t segment;
    uint8_t octets[20];
};

/*
 * The old sum that is left: kilograms in single precision, in file order, one rounding for each addition. It is a whole
 * number, at most 1,073,741,824: `sum` in whole kilograms, `bits` the 32 bits of the single precision number, `single` that
 * number itself. How many loads were added, and their exact kilograms.
 */
struct gurandepi_oldsum {
    uint64_t number;
    uint64_t place;
    uint64_t segment;
    uint64_t sum;
    uint32_t bits;
    float single;
    uint64_t loads;
    uint64_t kilograms;
};

/* Is this an interchange without fault? Refuses with 1 to 12. */
struct gurandepi_answer gurandepi_judge(const uint8_t *interchange, size_t interchange_length);

/* The loads of a message; an AUTACK has none. Refuses with 1 to 12; 13: no such message. */
struct gurandepi_loads gurandepi_totals(const uint8_t *interchange, size_t interchange_length,
                                        const uint8_t *message, size_t message_length);

/*
 * What a header of scope 1 seals: the header group from its USH, and the message's body. An empty body starts and ends where
 * it would stand. Refuses with 1 to 12; 13: no such message, or no such header of scope 1.
 */
struct gurandepi_parts gurandepi_scope1(const uint8_t *interchange, size_t interchange_length,
                                        const uint8_t *message, size_t message_length,
                                        const uint8_t *header, size_t header_length);

/*
 * What a header of scope 2 seals: from its USH up to the UST that belongs to it. Refuses with 1 to 12; 13: no such message,
 * or no such header of scope 2.
 */
struct gurandepi_range gurandepi_scope2(const uint8_t *interchange, size_t interchange_length,
                                        const uint8_t *message, size_t message_length,
                                        const uint8_t *header, size_t header_length);

/*
 * What a header of scope F01 seals: in the interchange that the AUTACK refers to, from the first UNH to the last UNT of the
 * messages that are no AUTACK. `autack` is the interchange with the AUTACK, `message` is the AUTACK's 0062; `referenced` is
 * the other interchange, and may be the same one. The places are places in `referenced`.
 * Refuses with 1 to 12, for `autack` first and then for `referenced`; 13: no such message or header of scope F01, no USY
 * names the header, `referenced` is another interchange than the one referred to, holds no message but AUTACKs, or has an
 * AUTACK between the others.
 * A refusal with 1 to 12 does not say which of the two is refused, and so in which of them `place` lies and `segment` is
 * counted. gurandepi_judge on `autack` does: where it refuses, this is that refusal; where it accepts, `referenced` is the
 * one refused.
 */
struct gurandepi_range gurandepi_f01(const uint8_t *autack, size_t autack_length,
                                     const uint8_t *referenced, size_t referenced_length,
                                     const uint8_t *message, size_t message_length,
                                     const uint8_t *header, size_t header_length);

/*
 * What a header of scope 3 seals, in an AUTACK of the GS1 subset (EAN001 in UNH): in the interchange that the AUTACK refers
 * to, from the UNH through the UNT of the message that it names. Lent, answered and refused with 1 to 12 as gurandepi_f01.
 * 13: no such message or header of scope 3, no USY names the header, `referenced` is another interchange than the one
 * referred to, or has no message of that 0062 that is no AUTACK.
 */
struct gurandepi_range gurandepi_scope3(const uint8_t *autack, size_t autack_length,
                                        const uint8_t *referenced, size_t referenced_length,
                                        const uint8_t *message, size_t message_length,
                                        const uint8_t *header, size_t header_length);

/*
 * The value that a header's seal carries, of any scope, as octets: read by the filter that the header names (hexadecimal,
 * where an odd number of digits is read as if one 0 stood before them, or base 64; in an interchange of version 2
 * hexadecimal or EDC, code 6). Refuses with 1 to 12; 13: no such message or header; 14: the filter is unknown in this
 * version, the text is bad, empty or not there; 15.
 */
struct gurandepi_written gurandepi_value(const uint8_t *interchange, size_t interchange_length,
                                         const uint8_t *message, size_t message_length,
                                         const uint8_t *header, size_t header_length,
                                         uint8_t *out, size_t out_length);

/*
 * Sealing a message, in two calls: the first writes the octets to be signed; the caller signs them; the second writes the
 * interchange with the message sealed by a header of scope 1. In it gurandepi_scope1 for `reference` gives the octets that
 * the first call wrote, and gurandepi_value gives `value`; ranges of scopes 1 and 2 that were there keep their octets.
 * `reference` is the new header's 0534: 1 to 14 of A to Z and 0 to 9, new in the message. `filter`, of enum
 * gurandepi_filter, says how `value` is written, and how many octets it may have. The trailer is that of the interchange's
 * own version.
 * Both refuse with 1 to 12; 13: no such message; 16; 15. The second also with 14, before 15: the interchange's repertoire
 * or service characters cannot write this value.
 */
struct gurandepi_written gurandepi_seal_octets(const uint8_t *interchange, size_t interchange_length,
                                               const uint8_t *message, size_t message_length,
                                               const uint8_t *reference, size_t reference_length, uint64_t filter,
                                               uint8_t *out, size_t out_length);

struct gurandepi_written gurandepi_seal(const uint8_t *interchange, size_t interchange_length,
                                        const uint8_t *message, size_t message_length,
                                        const uint8_t *reference, size_t reference_length, uint64_t filter,
                                        const uint8_t *value, size_t value_length,
                                        uint8_t *out, size_t out_length);

/*
 * The register of an interchange, in the old form: the count of messages in 4 octets, then for each message 20: the place of
 * its UNH (4), its length to the end of UNT (4), its loads (4), their grams (8); the highest octet first in each number.
 * In the form with signed grams: the octet 3, then the same numbers in the same order, each in groups of seven bits, the
 * lowest group first, the high bit set on all but the last, in as few groups as hold it. There the grams are doubled, and
 * those below zero are twice their magnitude less one. The smaller form is the same with the octet 2, and with the grams as
 * they are; it is read and no longer written. Each form has calls of its own.
 * Both refuse with 1 to 12; 19, the first alone: a total is below zero; 15.
 */
struct gurandepi_written gurandepi_register_write(const uint8_t *interchange, size_t interchange_length,
                                                  uint8_t *out, size_t out_length);

struct gurandepi_written gurandepi_register_write_signed(const uint8_t *interchange, size_t interchange_length,
                                                         uint8_t *out, size_t out_length);

/*
 * Is `kept` the register of this interchange, in the old form, the smaller one or that with signed grams, octet for octet?
 * Each refuses with 1 to 12; 13: it is not. Where a total is below zero, no octets are, but in the last form.
 */
struct gurandepi_answer gurandepi_register_check(const uint8_t *interchange, size_t interchange_length,
                                                 const uint8_t *kept, size_t kept_length);

struct gurandepi_answer gurandepi_register_check_small(const uint8_t *interchange, size_t interchange_length,
                                                       const uint8_t *kept, size_t kept_length);

struct gurandepi_answer gurandepi_register_check_signed(const uint8_t *interchange, size_t interchange_length,
                                                        const uint8_t *kept, size_t kept_length);

/*
 * A stored register in another form: from the old form to that with signed grams and back, and from the smaller one to
 * either. Its places and lengths are compared with nothing. Where neither is refused, there and back gives the same octets.
 * `stored` may be longer than 65,535 octets, the result not. Each refuses with 17: `stored` is no register of that form, that
 * is it starts otherwise, is cut, has octets left over, a number in more groups than it needs, a count above 65,535, a grams
 * number of 2^64 or more or another number of 2^32 or more; or, to the form with signed grams, it has grams of 2^63 or more;
 * 19, to the old form: a total is below zero; 15.
 */
struct gurandepi_written gurandepi_register_old_to_signed(const uint8_t *stored, size_t stored_length,
                                                          uint8_t *out, size_t out_length);

struct gurandepi_written gurandepi_register_signed_to_old(const uint8_t *stored, size_t stored_length,
                                                          uint8_t *out, size_t out_length);

struct gurandepi_written gurandepi_register_small_to_signed(const uint8_t *stored, size_t stored_length,
                                                            uint8_t *out, size_t out_length);

struct gurandepi_written gurandepi_register_small_to_old(const uint8_t *stored, size_t stored_length,
                                                         uint8_t *out, size_t out_length);

/*
 * SHA-1 by FIPS 180-4, of octets that come by parts: start, feed each part, finish. However the octets are cut, the digest is
 * that of the octets joined. A state is handed in by value and comes back; a part may be empty. A feed refuses with 15 where
 * more than 2^32 - 1 octets would be fed in all: the state then is the one that was handed in, and may be finished. Finish
 * refuses nothing, and the state may be fed on after it.
 */
struct gurandepi_sha1 gurandepi_sha1_start(void);

struct gurandepi_fed gurandepi_sha1_feed(struct gurandepi_sha1 state, const uint8_t *part, size_t part_length);

struct gurandepi_digest gurandepi_sha1_finish(struct gurandepi_sha1 state);

/*
 * The digest of what a header seals: of exactly the octets that gurandepi_scope1 (its two parts joined), gurandepi_scope2,
 * gurandepi_f01 or gurandepi_scope3 gives for the same arguments. Each refuses as that call does; then with 18, if the first
 * USA directly after the header's USH does not name SHA-1, that is code 16 in 0527, the fourth component of its first element,
 * unrepeated.
 */
struct gurandepi_digest gurandepi_digest_scope1(const uint8_t *interchange, size_t interchange_length,
                                                const uint8_t *message, size_t message_length,
                                                const uint8_t *header, size_t header_length);

struct gurandepi_digest gurandepi_digest_scope2(const uint8_t *interchange, size_t interchange_length,
                                                const uint8_t *message, size_t message_length,
                                                const uint8_t *header, size_t header_length);

struct gurandepi_digest gurandepi_digest_f01(const uint8_t *autack, size_t autack_length,
                                             const uint8_t *referenced, size_t referenced_length,
                                             const uint8_t *message, size_t message_length,
                                             const uint8_t *header, size_t header_length);

struct gurandepi_digest gurandepi_digest_scope3(const uint8_t *autack, size_t autack_length,
                                                const uint8_t *referenced, size_t referenced_length,
                                                const uint8_t *message, size_t message_length,
                                                const uint8_t *header, size_t header_length);

/*
 * The old sum with the loads of all messages of the file, in order. `before` is the sum that the last file left, 0 with the
 * year. What the file adds differs from its exact kilograms by at most 32 for each load. Refuses with 1 to 12; then 24 for
 * `before`; then by load in order 23 or 24.
 */
struct gurandepi_oldsum gurandepi_old_sum(const uint8_t *interchange, size_t interchange_length, float before);

/* The same, with `before` as the 32 bits of its single precision pattern. */
struct gurandepi_oldsum gurandepi_old_sum_bits(const uint8_t *interchange, size_t interchange_length, uint32_t before);

/* The old sum with the loads of one message. Refuses with 1 to 12; 13: no such message; then as the calls above. */
struct gurandepi_oldsum gurandepi_message_old_sum(const uint8_t *interchange, size_t interchange_length,
                                                   const uint8_t *message, size_t message_length, float before);

/* The same, with `before` as the 32 bits of its single precision pattern. */
struct gurandepi_oldsum gurandepi_message_old_sum_bits(const uint8_t *interchange, size_t interchange_length,
                                                        const uint8_t *message, size_t message_length, uint32_t before);

#ifdef __cplusplus
}
#endif

#endif
