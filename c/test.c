/*
 * Holds the exported calls against the desk's cases:   test COMMANDS ANSWERS
 *
 * Each command is carried out by its exported call, and the answer line made of what comes back is compared. Each is made
 * twice, and everything lent lies between guard octets that are complements of each other in the two turns, as is what the
 * lent buffer held before: so one write outside the result shows in at least one turn, and so does an answer that depends on
 * an octet that was not lent. After each call every lent octet, and every guard, has to be as it was, but for the octets
 * of the result. A result is also written into a buffer of exactly its length, and refused in one that is shorter; a register
 * that was written is checked, and moved to what is written in the other form; one that was moved is moved back, or on; what was
 * sealed is judged, and its octets and value are recovered, and its digest is that of the octets to be signed. A digest of a
 * range is compared with that of the octets that the range call gives, and octets are hashed by the case's parts and one by
 * one. Interchanges of 65,535 octets and of one more are made and tried, and stored registers of 65,535 messages and of one
 * more.
 * `report`, and lines that the desk answers `bad`, have no exported call; they are passed over and counted.
 */
#include "gurandepi.h"
#include <stdio.h>
#include <stdlib.h>
#include <string.h>

/* No result is longer than GURANDEPI_LONGEST, so that a longer buffer is as good as one of an octet more. */
enum { GUARD = 256, MOST = 150000, BUFFER = GURANDEPI_LONGEST + 1, WORDS = 8, SHOWN = 20 };

struct lent {
    uint8_t now[GUARD + MOST + GUARD];
    uint8_t before[GUARD + MOST + GUARD];
    size_t length;
};

static struct lent lent[WORDS];     /* by the place of the argument */
static uint64_t number[WORDS];
static const char *kind;            /* of a digest */
static size_t written;              /* by this call, into the last argument */
static char said[2 * MOST];
static char commands[1 << 24], answers[1 << 24];
static unsigned failed, compared, passed_over, checked, sealed_hex, sealed_base64, hashed;
static unsigned long line;

#define OCTETS(i) (lent[i].now + GUARD), lent[i].length

static void fault(const char *what, const char *more) {
    if (failed++ < SHOWN) printf("line %lu: %s%.200s\n", line, what, more);
}

/* ---- answers as the desk prints them */

static void tell(uint64_t refusal, uint64_t place, uint64_t segment, const uint64_t *own, unsigned count) {
    char *to = said;
    unsigned i;
    if (refusal != 0) {
        for (i = 0; i < count; i++)
            if (own[i] != 0) fault("a refusal gives back a number that is not 0", "");
        snprintf(said, sizeof said, "refused %llu %llu %llu", (unsigned long long)refusal, (unsigned long long)place,
                 (unsigned long long)segment);
        return;
    }
    if (place != 0 || segment != 0) fault("a place or a segment without a refusal", "");
    to += snprintf(to, 8, "ok");
    for (i = 0; i < count; i++) to += snprintf(to, 32, " %llu", (unsigned long long)own[i]);
}

static void tell_written(struct gurandepi_written r, unsigned out) {
    size_t i;
    if (r.number != 0 || r.place != 0 || r.segment != 0 || r.length > lent[out].length) {
        tell(r.number, r.place, r.segment, &r.length, 1);
        return;
    }
    written = (size_t)r.length;
    snprintf(said, sizeof said, written == 0 ? "ok -" : "ok ");
    for (i = 0; i < written; i++) snprintf(said + 3 + 2 * i, 3, "%02x", (unsigned)lent[out].now[GUARD + i]);
}

static void tell_digest(struct gurandepi_digest r) {
    unsigned i;
    tell(r.number, r.place, r.segment, NULL, 0);
    if (r.number == 0) said[2] = ' ';
    for (i = 0; i < 20; i++) {
        if (r.number == 0) snprintf(said + 3 + 2 * i, 3, "%02x", (unsigned)r.octets[i]);
        else if (r.octets[i] != 0) fault("a refusal gives back an octet that is not 0", "");
    }
}

/* Field by field: what lies between the fields is nobody's. */
static int same_state(const struct gurandepi_sha1 *s, const struct gurandepi_sha1 *t) {
    return s->a == t->a && s->b == t->b && s->c == t->c && s->d == t->d && s->e == t->e && s->count == t->count &&
           memcmp(s->buffer, t->buffer, sizeof s->buffer) == 0;
}

/* ---- the calls */

static void make_judge(void) {
    struct gurandepi_answer r = gurandepi_judge(OCTETS(0));
    tell(r.number, r.place, r.segment, NULL, 0);
}

static void make_totals(void) {
    struct gurandepi_loads r = gurandepi_totals(OCTETS(0), OCTETS(1));
    tell(r.number, r.place, r.segment, &r.loads, 1);
    if (r.number == GURANDEPI_OK)
        snprintf(said + strlen(said), 32, " %lld", (long long)r.grams);
    else if (r.grams != 0)
        fault("grams with a refusal", "");
}

static void make_scope1(void) {
    struct gurandepi_parts r = gurandepi_scope1(OCTETS(0), OCTETS(1), OCTETS(2));
    uint64_t own[] = {r.header_start, r.header_end, r.body_start, r.body_end};
    tell(r.number, r.place, r.segment, own, 4);
}

static void make_scope2(void) {
    struct gurandepi_range r = gurandepi_scope2(OCTETS(0), OCTETS(1), OCTETS(2));
    uint64_t own[] = {r.start, r.end};
    tell(r.number, r.place, r.segment, own, 2);
}

/* A refusal with 1 to 12 is that of the AUTACK's interchange where this is refused, else that of the other. */
static void look_whose(struct gurandepi_range r) {
    struct gurandepi_answer own = gurandepi_judge(OCTETS(0));
    if (own.number == GURANDEPI_OK) own = gurandepi_judge(OCTETS(1));
    if (r.number != own.number || r.place != own.place || r.segment != own.segment)
        fault("a refusal of neither interchange", "");
}

typedef struct gurandepi_range across(const uint8_t *, size_t, const uint8_t *, size_t, const uint8_t *, size_t, const uint8_t *, size_t);

/* A call on two interchanges. Where they are equal, the very same octets may be lent for both. */
static void make_across(across *call) {
    struct gurandepi_range r = call(OCTETS(0), OCTETS(1), OCTETS(2), OCTETS(3));
    uint64_t own[] = {r.start, r.end};
    if (lent[0].length == lent[1].length && memcmp(lent[0].now, lent[1].now, GUARD + lent[0].length) == 0) {
        struct gurandepi_range one = call(OCTETS(0), OCTETS(0), OCTETS(2), OCTETS(3));
        if (memcmp(&r, &one, sizeof r) != 0) fault("another answer where one interchange is lent twice", "");
    }
    if (r.number != GURANDEPI_OK && r.number <= GURANDEPI_BAD_AMOUNT) look_whose(r);
    tell(r.number, r.place, r.segment, own, 2);
}

static void make_f01(void) {
    make_across(gurandepi_f01);
}

static void make_scope3(void) {
    make_across(gurandepi_scope3);
}

static void make_value(void) {
    tell_written(gurandepi_value(OCTETS(0), OCTETS(1), OCTETS(2), OCTETS(3)), 3);
}

static void make_seal_octets(void) {
    tell_written(gurandepi_seal_octets(OCTETS(0), OCTETS(1), OCTETS(2), number[3], OCTETS(4)), 4);
}

static void make_seal(void) {
    tell_written(gurandepi_seal(OCTETS(0), OCTETS(1), OCTETS(2), number[3], OCTETS(4), OCTETS(5)), 5);
}

static struct gurandepi_digest digest_of(const uint8_t *x, size_t x_length, const uint8_t *y, size_t y_length);

/* The interchange that was just sealed is accepted; under the reference it has the octets to be signed, and the value. */
static void seal_back(void) {
    static uint8_t octets[BUFFER], value[BUFFER];
    const uint8_t *sealed = lent[5].now + GUARD;
    struct gurandepi_parts at = gurandepi_scope1(sealed, written, OCTETS(1), OCTETS(2));
    size_t header = (size_t)(at.header_end - at.header_start), body = (size_t)(at.body_end - at.body_start);
    struct gurandepi_written o = gurandepi_seal_octets(OCTETS(0), OCTETS(1), OCTETS(2), number[3], octets, BUFFER);
    struct gurandepi_written v = gurandepi_value(sealed, written, OCTETS(1), OCTETS(2), value, BUFFER);
    if (gurandepi_judge(sealed, written).number != GURANDEPI_OK) fault("what was sealed is refused", "");
    if (at.number != 0 || o.number != 0 || o.length != header + body || memcmp(octets, sealed + at.header_start, header) != 0 ||
        memcmp(octets + header, sealed + at.body_start, body) != 0)
        fault("what was sealed has other octets than those to be signed", "");
    if (memcmp(digest_of(octets, (size_t)o.length, octets, 0).octets, gurandepi_digest_scope1(sealed, written, OCTETS(1), OCTETS(2)).octets, 20) != 0)
        fault("what was sealed has another digest than the octets to be signed", "");
    if (number[3] == GURANDEPI_FILTER_HEX) sealed_hex++;
    if (number[3] == GURANDEPI_FILTER_BASE64) sealed_base64++;
    if (v.number != 0 || v.length != lent[4].length || memcmp(value, lent[4].now + GUARD, lent[4].length) != 0)
        fault("what was sealed has another value", "");
}

/* ---- the register: each form has calls of its own; the desk's numbers for them are 1, the old form, 2, the smaller one, which is
   only read, and 3, that with signed grams */

static struct gurandepi_written write_form(uint64_t form, const uint8_t *of, size_t length, uint8_t *to, size_t room) {
    if (form == 1) return gurandepi_register_write(of, length, to, room);
    return gurandepi_register_write_signed(of, length, to, room);
}

static struct gurandepi_answer check_form(uint64_t form, const uint8_t *of, size_t length, const uint8_t *kept, size_t size) {
    if (form == 1) return gurandepi_register_check(of, length, kept, size);
    if (form == 2) return gurandepi_register_check_small(of, length, kept, size);
    return gurandepi_register_check_signed(of, length, kept, size);
}

static struct gurandepi_written move_from(uint64_t form, uint64_t other, const uint8_t *stored, size_t size, uint8_t *to, size_t room) {
    if (form == 1) return gurandepi_register_old_to_signed(stored, size, to, room);
    if (form == 3) return gurandepi_register_signed_to_old(stored, size, to, room);
    if (other == 1) return gurandepi_register_small_to_old(stored, size, to, room);
    return gurandepi_register_small_to_signed(stored, size, to, room);
}

/* The other one of the forms that are written. */
static uint64_t other_of(uint64_t form) {
    return 4 - form;
}

static int alike(struct gurandepi_written a, const uint8_t *x, struct gurandepi_written b, const uint8_t *y) {
    return a.number == b.number && a.length == b.length && memcmp(x, y, (size_t)a.length) == 0;
}

static void make_register(void) {
    tell_written(write_form(number[1], OCTETS(0), OCTETS(2)), 2);
}

/* The register that was just written is the interchange's; moved, it is what is written in the other form, or refused as that is;
   cut by an octet, or with another octet, it is not the interchange's. */
static void check_back(void) {
    static uint8_t moved[BUFFER], other_form[BUFFER];
    uint8_t *kept = lent[2].now + GUARD;
    uint64_t form = number[1], whole = check_form(form, OCTETS(0), kept, written).number, cut, other;
    struct gurandepi_written m = move_from(form, other_of(form), kept, written, moved, BUFFER);
    struct gurandepi_written o = write_form(other_of(form), OCTETS(0), other_form, BUFFER);
    if (!alike(m, moved, o, other_form))
        fault("a register that was written is not moved to the other one", "");
    cut = check_form(form, OCTETS(0), kept, written - 1).number;
    kept[written - 1] ^= 1;
    other = check_form(form, OCTETS(0), kept, written).number;
    if (whole != GURANDEPI_OK || cut != GURANDEPI_NOT_FOUND || other != GURANDEPI_NOT_FOUND)
        fault("a register that was written is not told from others", "");
    checked++;
}

static void make_move(void) {
    tell_written(move_from(number[0], number[1], OCTETS(2), OCTETS(3)), 3);
}

/* The register that was just moved moves back to the one that it was, where that is not too long. There is no way back to the smaller
   form: from it the way to the other form is the same by this one. */
static void move_back(void) {
    static uint8_t back[BUFFER], straight[BUFFER];
    uint64_t from = number[0], to = number[1];
    struct gurandepi_written r = move_from(to, other_of(to), lent[3].now + GUARD, written, back, BUFFER);
    if (from == 2) {
        if (!alike(r, back, move_from(2, other_of(to), OCTETS(2), straight, BUFFER), straight))
            fault("a register that was moved does not move on as it would have", "");
    } else if (lent[2].length > GURANDEPI_LONGEST ? r.number != GURANDEPI_NO_ROOM
                                                  : r.number != 0 || r.length != lent[2].length || memcmp(back, lent[2].now + GUARD, lent[2].length) != 0)
        fault("a register that was moved is not moved back", "");
}

static void make_check(void) {
    struct gurandepi_answer r = check_form(number[1], OCTETS(0), OCTETS(2));
    tell(r.number, r.place, r.segment, NULL, 0);
}

/* The digest of two parts, one after the other. */
static struct gurandepi_digest digest_of(const uint8_t *x, size_t x_length, const uint8_t *y, size_t y_length) {
    struct gurandepi_fed fed = gurandepi_sha1_feed(gurandepi_sha1_start(), x, x_length);
    fed = gurandepi_sha1_feed(fed.state, y, y_length);
    if (fed.number != 0 || fed.place != 0 || fed.segment != 0) fault("octets are not fed", "");
    return gurandepi_sha1_finish(fed.state);
}

/* The digest is that of the octets that the range call gives; where it refuses with 18, the range call gives some. */
static void look_digested(struct gurandepi_digest r, uint64_t refusal, const uint8_t *from, uint64_t a, uint64_t b, uint64_t c, uint64_t d) {
    struct gurandepi_digest own = digest_of(from + a, (size_t)(b - a), from + c, (size_t)(d - c));
    if (r.number == 0 && memcmp(r.octets, own.octets, 20) != 0) fault("a digest of other octets than the range call's", "");
    if (r.number != (refusal == 0 && r.number != 0 ? (uint64_t)GURANDEPI_NOT_SHA1 : refusal)) fault("another refusal than the range call's", "");
}

static void make_digest(void) {
    struct gurandepi_digest r;
    if (strcmp(kind, "1") == 0) {
        struct gurandepi_parts at = gurandepi_scope1(OCTETS(1), OCTETS(3), OCTETS(4));
        r = gurandepi_digest_scope1(OCTETS(1), OCTETS(3), OCTETS(4));
        look_digested(r, at.number, lent[1].now + GUARD, at.header_start, at.header_end, at.body_start, at.body_end);
    } else if (strcmp(kind, "2") == 0) {
        struct gurandepi_range at = gurandepi_scope2(OCTETS(1), OCTETS(3), OCTETS(4));
        r = gurandepi_digest_scope2(OCTETS(1), OCTETS(3), OCTETS(4));
        look_digested(r, at.number, lent[1].now + GUARD, at.start, at.end, at.end, at.end);
    } else {
        int whole = strcmp(kind, "3") == 0;
        struct gurandepi_range at = (whole ? gurandepi_scope3 : gurandepi_f01)(OCTETS(1), OCTETS(2), OCTETS(3), OCTETS(4));
        r = (whole ? gurandepi_digest_scope3 : gurandepi_digest_f01)(OCTETS(1), OCTETS(2), OCTETS(3), OCTETS(4));
        look_digested(r, at.number, lent[2].now + GUARD, at.start, at.end, at.end, at.end);
    }
    tell_digest(r);
}

/* ---- the old sum: its 32 bits come as octets, the first one highest */

static uint32_t bits_lent(void) {
    const uint8_t *b = lent[0].now + GUARD;
    return (uint32_t)b[0] << 24 | (uint32_t)b[1] << 16 | (uint32_t)b[2] << 8 | b[3];
}

/* Handed in by its bits and as a float it gives the same, and so it does in whole kilograms, as a float and by its bits. */
static void tell_sum(struct gurandepi_oldsum r, struct gurandepi_oldsum by_float) {
    uint64_t own[] = {r.sum, r.bits, r.loads, r.kilograms};
    uint32_t bits;
    memcpy(&bits, &r.single, sizeof bits);
    if (memcmp(&r, &by_float, sizeof r) != 0) fault("another old sum by the float than by its bits", "");
    if (bits != r.bits || (uint64_t)r.single != r.sum) fault("the old sum differs from its bits or its float", "");
    if (r.sum > 1073741824) fault("the old sum passes the limit", "");
    if (r.number != 0) tell(r.number, r.place, r.segment, own, 4);
    else snprintf(said, sizeof said, "ok %08lx", (unsigned long)r.bits);
}

static void make_old_sum(void) {
    uint32_t bits = bits_lent();
    float before;
    memcpy(&before, &bits, sizeof before);
    tell_sum(gurandepi_old_sum_bits(OCTETS(1), bits), gurandepi_old_sum(OCTETS(1), before));
}

static void make_message_old_sum(void) {
    uint32_t bits = bits_lent();
    float before;
    memcpy(&before, &bits, sizeof before);
    tell_sum(gurandepi_message_old_sum_bits(OCTETS(1), OCTETS(2), bits), gurandepi_message_old_sum(OCTETS(1), OCTETS(2), before));
}

/* The arguments: h octets, n a number, c the length of the lent buffer, k the kind of a digest. */
static struct call {
    const char *name, *form;
    void (*make)(void);
    unsigned carried_out, refused;
} calls[] = {
    {"judge", "h", make_judge, 0, 0},
    {"totals", "hh", make_totals, 0, 0},
    {"scope1", "hhh", make_scope1, 0, 0},
    {"scope2", "hhh", make_scope2, 0, 0},
    {"f01", "hhhh", make_f01, 0, 0},
    {"scope3", "hhhh", make_scope3, 0, 0},
    {"value", "hhhc", make_value, 0, 0},
    {"sealoct", "hhhnc", make_seal_octets, 0, 0},
    {"seal", "hhhnhc", make_seal, 0, 0},
    {"regwrite", "hnc", make_register, 0, 0},
    {"regmove", "nnhc", make_move, 0, 0},
    {"digest", "khhhh", make_digest, 0, 0},
    {"oldsum", "hh", make_old_sum, 0, 0},
    {"oldsum", "hhh", make_message_old_sum, 0, 0},
    {"regcheck", "hnh", make_check, 0, 0},
};
enum { CALLS = sizeof calls / sizeof *calls, CHECK = CALLS - 1 };

/* ---- what is lent */

static int half(char c) {
    if (c >= '0' && c <= '9') return c - '0';
    if (c >= 'a' && c <= 'f') return c - 'a' + 10;
    return -1;
}

static void guard(struct lent *l, size_t length, unsigned turn) {
    size_t i;
    l->length = length;
    for (i = 0; i < GUARD + length + GUARD; i++) l->now[i] = (uint8_t)((i * 167 + 13) ^ (turn == 0 ? 0 : 255));
}

/* 1 where the word is no octets in hex. */
static int lend_hex(struct lent *l, const char *word, unsigned turn) {
    size_t i, length = strcmp(word, "-") == 0 ? 0 : strlen(word) / 2;
    if (length > MOST || (length != 0 && strlen(word) % 2 != 0)) return 1;
    guard(l, length, turn);
    for (i = 0; i < length; i++) {
        int high = half(word[2 * i]), low = half(word[2 * i + 1]);
        if (high < 0 || low < 0) return 1;
        l->now[GUARD + i] = (uint8_t)(high * 16 + low);
    }
    return 0;
}

/* A lent buffer has the length that the case names, but no more than `room`. */
static int lend(unsigned i, char letter, const char *word, size_t room, unsigned turn) {
    if (letter == 'h' && lend_hex(&lent[i], word, turn) != 0) return 1;
    if (letter != 'h') number[i] = strtoull(word, NULL, 10);
    if (letter == 'k') kind = word;
    if (letter == 'n' || letter == 'k') guard(&lent[i], 0, turn);
    if (letter == 'c') guard(&lent[i], number[i] < room ? (size_t)number[i] : room, turn);
    memcpy(lent[i].before, lent[i].now, GUARD + lent[i].length + GUARD);
    return 0;
}

static void look_back(const char *form) {
    unsigned i;
    for (i = 0; form[i] != 0; i++) {
        size_t own = form[i] == 'c' ? written : 0, all = GUARD + lent[i].length + GUARD;
        if (memcmp(lent[i].now, lent[i].before, GUARD) != 0) fault("octets in front of a lent buffer were written", "");
        if (memcmp(lent[i].now + GUARD + own, lent[i].before + GUARD + own, all - GUARD - own) != 0)
            fault("octets that are none of the result were written", "");
    }
}

/* ---- a case */

/* 1 where the arguments cannot be read. `room` is the length of the lent buffer, where the call has one. */
static int make(const struct call *call, char *words[], size_t room, const char *answer, unsigned turn) {
    unsigned i;
    written = 0;
    for (i = 0; call->form[i] != 0; i++)
        if (words[i + 1] == NULL || lend(i, call->form[i], words[i + 1], room, turn) != 0) {
            fault("the test cannot read the arguments of ", words[0]);
            return 1;
        }
    call->make();
    look_back(call->form);
    if (strcmp(said, answer) != 0 && failed++ < SHOWN) printf("line %lu: expected %.200s\n    got %.200s\n", line, answer, said);
    return 0;
}

/* What was written fits a buffer of exactly its length, and is refused in one that is shorter by 1. */
static void fit(const struct call *call, char *words[], const char *answer) {
    size_t length = written;
    make(call, words, length, answer, 0);
    if (length != 0) make(call, words, length - 1, "refused 15 0 0", 1);
}

static void compare(struct call *call, char *words[], const char *answer) {
    unsigned turn;
    for (turn = 0; turn < 2; turn++)
        if (make(call, words, BUFFER, answer, turn) != 0) return;
    compared++;
    if (said[0] == 'o') call->carried_out++;
    else call->refused++;
    if (call->make == make_register && written != 0) check_back();
    if (call->make == make_move && written != 0) move_back();
    if (call->make == make_seal && written != 0) seal_back();
    if (said[0] == 'o' && call->form[strlen(call->form) - 1] == 'c') fit(call, words, answer);
}

/* `sha1 PART ..`: the parts, fed as they stand and octet by octet. A state that nothing is fed to stays as it was. */
static void hash(char *text, const char *answer) {
    struct gurandepi_fed whole, single;
    size_t i;
    whole.state = single.state = gurandepi_sha1_start();
    for (text = strchr(text, ' '); text != NULL;) {
        char *word = text + 1;
        text = strchr(word, ' ');
        if (text != NULL) *text = 0;
        if (lend_hex(&lent[0], word, 0) != 0) {
            fault("the test cannot read the part ", word);
            return;
        }
        whole = gurandepi_sha1_feed(whole.state, OCTETS(0));
        for (i = 0; i < lent[0].length; i++) single = gurandepi_sha1_feed(single.state, lent[0].now + GUARD + i, 1);
        if (!same_state(&whole.state, &single.state)) fault("another state where octets are fed one by one", "");
    }
    tell_digest(gurandepi_sha1_finish(whole.state));
    if (strcmp(said, answer) != 0) fault("another digest than ", answer);
    compared++;
    hashed++;
}

/* "15 where more than 2^32 - 1 octets are fed, which changes nothing" */
static void hash_most(void) {
    struct gurandepi_sha1 full = gurandepi_sha1_start();
    struct gurandepi_fed fed;
    full.count = 4294967292;
    fed = gurandepi_sha1_feed(full, (const uint8_t *)"abcd", 4);
    if (fed.number != GURANDEPI_NO_ROOM || fed.place != 0 || fed.segment != 0) fault("2^32 octets are fed", "");
    if (!same_state(&fed.state, &full)) fault("a feed that is refused changes the state", "");
    fed = gurandepi_sha1_feed(full, (const uint8_t *)"abc", 3);
    if (fed.number != 0 || fed.state.count != 4294967295) fault("2^32 - 1 octets are not fed", "");
}

static void command(char *text, const char *answer) {
    char *words[WORDS + 1] = {text};
    unsigned i, count = 1;
    if (strcmp(answer, "bad") == 0) {
        passed_over++;
        return;
    }
    if (strncmp(text, "sha1", 4) == 0) {
        hash(text, answer);
        return;
    }
    for (; *text != 0; text++)
        if (*text == ' ' && count < WORDS) {
            *text = 0;
            words[count++] = text + 1;
        }
    for (i = 0; i < CALLS; i++)
        if (strcmp(words[0], calls[i].name) == 0 && (strcmp(words[0], "oldsum") != 0 || strlen(calls[i].form) + 1 == count)) {
            compare(&calls[i], words, answer);
            return;
        }
    if (strcmp(words[0], "report") == 0) passed_over++;
    else fault("no exported call for ", words[0]);
}

/* ---- long interchanges: the cases have none */

static size_t put(size_t at, const char *text) {
    memcpy(lent[0].now + GUARD + at, text, strlen(text));
    return at + strlen(text);
}

/* The i-th of the shortest references that there are: 0 to Z, 00 to ZZ, 000 to ZZZ. */
static const char *name_of(unsigned i) {
    static const char digits[] = "0123456789ABCDEFGHIJKLMNOPQRSTUVWXYZ";
    static char name[4];
    unsigned length = i < 36 ? 1 : i < 36 + 1296 ? 2 : 3, k;
    i -= length == 1 ? 0 : length == 2 ? 36 : 36 + 1296;
    for (k = length; k > 0; k--, i /= 36) name[k - 1] = digits[i % 36];
    name[length] = 0;
    return name;
}

/* So many messages in so many octets. The last has a load of a kilogram, and a text that fills up. Lends it, and a buffer. */
static void lend_long(unsigned messages, size_t length) {
    char text[64];
    unsigned i;
    size_t at, rest;
    guard(&lent[0], length, 0);
    at = put(0, "UNB+UNOC:4+A+B+20240105:0700+R1'");
    for (i = 0; i + 1 < messages; i++) {
        snprintf(text, sizeof text, "UNH+%s+A'UNT+2+", name_of(i));
        at = put(put(put(at, text), name_of(i)), "'");
    }
    snprintf(text, sizeof text, "UNH+%s+A'QTY+1:1:KGM'FTX+", name_of(i));
    at = put(at, text);
    snprintf(text, sizeof text, "'UNT+4+%s'UNZ+%u+R1'", name_of(i), messages);
    rest = length - at - strlen(text);
    memset(lent[0].now + GUARD + at, 'X', rest);
    put(at + rest, text);
    memcpy(lent[0].before, lent[0].now, sizeof lent[0].now);
}

static void lend_octets(unsigned i, const void *octets, size_t length) {
    guard(&lent[i], length, 0);
    memcpy(lent[i].now + GUARD, octets, length);
    memcpy(lent[i].before, lent[i].now, sizeof lent[i].now);
}

/* The answer starts with `answer`. */
static void held(const char *form, void (*make)(void), const char *answer) {
    written = 0;
    make();
    look_back(form);
    if (strncmp(said, answer, strlen(answer)) != 0) fault("of a long interchange: got ", said);
    compared++;
}

/* Written in a form, checked, and moved to the other. */
static void long_register(uint64_t form, const char *answer, const char *back, const char *moved) {
    static uint8_t kept[BUFFER];
    number[1] = form;
    lend_octets(2, kept, BUFFER);
    held("hnc", make_register, answer);
    memcpy(kept, lent[2].now + GUARD, written);
    lend_octets(2, kept, written);
    held("hnh", make_check, back);
    number[0] = form;
    number[1] = other_of(form);
    lend_octets(3, kept, BUFFER);
    held("nnhc", make_move, moved);
}

/* In the old form a register of 3,276 messages has 65,524 octets, one of 3,277 has 65,544; in that with signed grams both are short. */
static void long_ones(void) {
    lend_long(3276, GURANDEPI_LONGEST);
    held("h", make_judge, "ok");
    lend_octets(1, name_of(3275), strlen(name_of(3275)));
    held("hh", make_totals, "ok 1 1000");
    lend_octets(1, "", 0);
    long_register(1, "ok 00000ccc", "ok", "ok 03cc19");
    long_register(3, "ok 03cc19", "ok", "ok 00000ccc");
    lend_long(3277, GURANDEPI_LONGEST);
    held("h", make_judge, "ok");
    long_register(1, "refused 15 0 0", "refused 13 0 0", "refused 17 0 0");
    long_register(3, "ok 03cd19", "ok", "refused 15 0 0");
    lend_long(3276, GURANDEPI_LONGEST + 1);
    held("h", make_judge, "refused 1 0 0");
    long_register(1, "refused 1 0 0", "refused 1 0 0", "refused 17 0 0");
    long_register(3, "refused 1 0 0", "refused 1 0 0", "refused 17 0 0");
}

/* ---- stored registers of many messages, all numbers 0: 65,535 are moved as far as there is room, one more is no register */

static void long_move(const char *what, uint64_t form, size_t length, uint64_t refusal, size_t result) {
    static uint8_t out[BUFFER];
    struct gurandepi_written r = move_from(form, form == 1 ? 3 : 1, (const uint8_t *)commands, length, out, BUFFER);
    if (r.number != refusal || r.length != result) fault("of a long register: ", what);
    compared++;
}

static void long_moves(void) {
    uint8_t *stored = (uint8_t *)commands;      /* read and answered by now */
    size_t all = 65535;
    memset(stored, 0, sizeof commands);
    stored[2] = stored[3] = 255;
    long_move("65,535 messages, old", 1, 4 + 20 * all, GURANDEPI_NO_ROOM, 0);
    long_move("65,535 messages, old, cut", 1, 4 + 20 * all - 1, GURANDEPI_BAD_REGISTER, 0);
    stored[1] = 1;
    stored[2] = stored[3] = 0;
    long_move("65,536 messages, old", 1, 4 + 20 * (all + 1), GURANDEPI_BAD_REGISTER, 0);
    stored[1] = 0;
    stored[2] = 0x3f;
    stored[3] = 0xfe;
    long_move("16,382 messages, old", 1, 4 + 20 * 16382, GURANDEPI_OK, 3 + 4 * 16382);
    memset(stored, 0, 8);
    stored[0] = 2;
    stored[1] = stored[2] = 255;
    stored[3] = 3;
    long_move("65,535 messages, small", 2, 4 + 4 * all, GURANDEPI_NO_ROOM, 0);
    long_move("65,535 messages, small, and an octet", 2, 4 + 4 * all + 1, GURANDEPI_BAD_REGISTER, 0);
    stored[1] = stored[2] = 128;
    stored[3] = 4;
    long_move("65,536 messages, small", 2, 4 + 4 * (all + 1), GURANDEPI_BAD_REGISTER, 0);
}

static char *read_all(const char *path, char *to, size_t room) {
    FILE *file = fopen(path, "rb");
    size_t length = file == NULL ? 0 : fread(to, 1, room, file);
    if (length == 0 || length == room) {
        fprintf(stderr, "test: cannot read %s\n", path);
        exit(2);
    }
    fclose(file);
    if (to[length - 1] != '\n') to[length++] = '\n';
    return to + length;
}

/* The line at `*rest`, ended by a 0, or NULL. */
static char *next_line(char **rest, const char *end) {
    char *start = *rest, *at = start;
    if (start == end) return NULL;
    while (*at != '\n') at++;
    *at = 0;
    *rest = at + 1;
    return start;
}

int main(int argc, char **argv) {
    char *asked = commands, *told = answers, *asked_end, *told_end, *text, *answer;
    unsigned i;
    if (argc != 3) {
        fprintf(stderr, "usage: test COMMANDS ANSWERS\n");
        return 2;
    }
    asked_end = read_all(argv[1], commands, sizeof commands - 1);
    told_end = read_all(argv[2], answers, sizeof answers - 1);
    for (line = 1; (text = next_line(&asked, asked_end)) != NULL; line++) {
        answer = next_line(&told, told_end);
        if (answer == NULL) {
            fault("no answer to this line", "");
            break;
        }
        command(text, answer);
    }
    if (told != told_end) fault("more answers than commands", "");
    long_ones();
    long_moves();
    hash_most();
    calls[CHECK].carried_out += checked;
    for (i = 0; i < CALLS; i++)
        if (calls[i].carried_out == 0 || calls[i].refused == 0) fault("no case carried out, or none refused, of ", calls[i].name);
    if (sealed_hex == 0 || sealed_base64 == 0) fault("no case sealed with hexadecimal, or none with base 64", "");
    if (hashed == 0) fault("no case of sha1", "");
    printf("%u cases compared, %u passed over (report, bad), %u failed\n", compared, passed_over, failed);
    return failed != 0;
}
