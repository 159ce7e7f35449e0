/* The exported calls over what module makes of crates/gurandepi_c: there a struct goes in and comes back by a pointer. `rt lib` makes such wrappers itself,
   once the crate is proved. */
#include "gurandepi.h"

void inner_judge(struct gurandepi_answer *, const uint8_t *, size_t);
void inner_totals(struct gurandepi_loads *, const uint8_t *, size_t, const uint8_t *, size_t);
void inner_scope1(struct gurandepi_parts *, const uint8_t *, size_t, const uint8_t *, size_t, const uint8_t *, size_t);
void inner_scope2(struct gurandepi_range *, const uint8_t *, size_t, const uint8_t *, size_t, const uint8_t *, size_t);
void inner_f01(struct gurandepi_range *, const uint8_t *, size_t, const uint8_t *, size_t, const uint8_t *, size_t, const uint8_t *, size_t);
void inner_scope3(struct gurandepi_range *, const uint8_t *, size_t, const uint8_t *, size_t, const uint8_t *, size_t, const uint8_t *, size_t);
void inner_value(struct gurandepi_written *, const uint8_t *, size_t, const uint8_t *, size_t, const uint8_t *, size_t, uint8_t *, size_t);
void inner_seal_octets(struct gurandepi_written *, const uint8_t *, size_t, const uint8_t *, size_t, const uint8_t *, size_t, uint64_t, uint8_t *, size_t);
void inner_seal(struct gurandepi_written *, const uint8_t *, size_t, const uint8_t *, size_t, const uint8_t *, size_t, uint64_t, const uint8_t *, size_t, uint8_t *, size_t);
void inner_register_write(struct gurandepi_written *, const uint8_t *, size_t, uint8_t *, size_t);
void inner_register_write_signed(struct gurandepi_written *, const uint8_t *, size_t, uint8_t *, size_t);
void inner_register_check(struct gurandepi_answer *, const uint8_t *, size_t, const uint8_t *, size_t);
void inner_register_check_small(struct gurandepi_answer *, const uint8_t *, size_t, const uint8_t *, size_t);
void inner_register_check_signed(struct gurandepi_answer *, const uint8_t *, size_t, const uint8_t *, size_t);
void inner_register_old_to_signed(struct gurandepi_written *, const uint8_t *, size_t, uint8_t *, size_t);
void inner_register_signed_to_old(struct gurandepi_written *, const uint8_t *, size_t, uint8_t *, size_t);
void inner_register_small_to_signed(struct gurandepi_written *, const uint8_t *, size_t, uint8_t *, size_t);
void inner_register_small_to_old(struct gurandepi_written *, const uint8_t *, size_t, uint8_t *, size_t);

void inner_sha1_start(struct gurandepi_sha1 *);
void inner_sha1_feed(struct gurandepi_fed *, const struct gurandepi_sha1 *, const uint8_t *, size_t);
void inner_sha1_finish(struct gurandepi_digest *, const struct gurandepi_sha1 *);
void inner_digest_scope1(struct gurandepi_digest *, const uint8_t *, size_t, const uint8_t *, size_t, const uint8_t *, size_t);
void inner_digest_scope2(struct gurandepi_digest *, const uint8_t *, size_t, const uint8_t *, size_t, const uint8_t *, size_t);
void inner_digest_f01(struct gurandepi_digest *, const uint8_t *, size_t, const uint8_t *, size_t, const uint8_t *, size_t, const uint8_t *, size_t);
void inner_digest_scope3(struct gurandepi_digest *, const uint8_t *, size_t, const uint8_t *, size_t, const uint8_t *, size_t, const uint8_t *, size_t);
void inner_old_sum(struct gurandepi_oldsum *, const uint8_t *, size_t, float);
void inner_old_sum_bits(struct gurandepi_oldsum *, const uint8_t *, size_t, uint32_t);
void inner_message_old_sum(struct gurandepi_oldsum *, const uint8_t *, size_t, const uint8_t *, size_t, float);
void inner_message_old_sum_bits(struct gurandepi_oldsum *, const uint8_t *, size_t, const uint8_t *, size_t, uint32_t);

#define OCTETS(name) name, name##_length
#define ROOM out, out_length

struct gurandepi_answer gurandepi_judge(const uint8_t *interchange, size_t interchange_length) {
    struct gurandepi_answer r;
    inner_judge(&r, OCTETS(interchange));
    return r;
}

struct gurandepi_loads gurandepi_totals(const uint8_t *interchange, size_t interchange_length, const uint8_t *message, size_t message_length) {
    struct gurandepi_loads r;
    inner_totals(&r, OCTETS(interchange), OCTETS(message));
    return r;
}

struct gurandepi_parts gurandepi_scope1(const uint8_t *interchange, size_t interchange_length, const uint8_t *message, size_t message_length,
                                        const uint8_t *header, size_t header_length) {
    struct gurandepi_parts r;
    inner_scope1(&r, OCTETS(interchange), OCTETS(message), OCTETS(header));
    return r;
}

struct gurandepi_range gurandepi_scope2(const uint8_t *interchange, size_t interchange_length, const uint8_t *message, size_t message_length,
                                        const uint8_t *header, size_t header_length) {
    struct gurandepi_range r;
    inner_scope2(&r, OCTETS(interchange), OCTETS(message), OCTETS(header));
    return r;
}

struct gurandepi_range gurandepi_f01(const uint8_t *autack, size_t autack_length, const uint8_t *referenced, size_t referenced_length,
                                     const uint8_t *message, size_t message_length, const uint8_t *header, size_t header_length) {
    struct gurandepi_range r;
    inner_f01(&r, OCTETS(autack), OCTETS(referenced), OCTETS(message), OCTETS(header));
    return r;
}

struct gurandepi_range gurandepi_scope3(const uint8_t *autack, size_t autack_length, const uint8_t *referenced, size_t referenced_length,
                                        const uint8_t *message, size_t message_length, const uint8_t *header, size_t header_length) {
    struct gurandepi_range r;
    inner_scope3(&r, OCTETS(autack), OCTETS(referenced), OCTETS(message), OCTETS(header));
    return r;
}

struct gurandepi_written gurandepi_value(const uint8_t *interchange, size_t interchange_length, const uint8_t *message, size_t message_length,
                                         const uint8_t *header, size_t header_length, uint8_t *out, size_t out_length) {
    struct gurandepi_written r;
    inner_value(&r, OCTETS(interchange), OCTETS(message), OCTETS(header), ROOM);
    return r;
}

struct gurandepi_written gurandepi_seal_octets(const uint8_t *interchange, size_t interchange_length, const uint8_t *message,
                                               size_t message_length, const uint8_t *reference, size_t reference_length, uint64_t filter,
                                               uint8_t *out, size_t out_length) {
    struct gurandepi_written r;
    inner_seal_octets(&r, OCTETS(interchange), OCTETS(message), OCTETS(reference), filter, ROOM);
    return r;
}

struct gurandepi_written gurandepi_seal(const uint8_t *interchange, size_t interchange_length, const uint8_t *message, size_t message_length,
                                        const uint8_t *reference, size_t reference_length, uint64_t filter, const uint8_t *value,
                                        size_t value_length, uint8_t *out, size_t out_length) {
    struct gurandepi_written r;
    inner_seal(&r, OCTETS(interchange), OCTETS(message), OCTETS(reference), filter, OCTETS(value), ROOM);
    return r;
}

struct gurandepi_written gurandepi_register_write(const uint8_t *interchange, size_t interchange_length, uint8_t *out, size_t out_length) {
    struct gurandepi_written r;
    inner_register_write(&r, OCTETS(interchange), ROOM);
    return r;
}

struct gurandepi_answer gurandepi_register_check(const uint8_t *interchange, size_t interchange_length, const uint8_t *kept,
                                                 size_t kept_length) {
    struct gurandepi_answer r;
    inner_register_check(&r, OCTETS(interchange), OCTETS(kept));
    return r;
}

struct gurandepi_written gurandepi_register_write_signed(const uint8_t *interchange, size_t interchange_length, uint8_t *out,
                                                         size_t out_length) {
    struct gurandepi_written r;
    inner_register_write_signed(&r, OCTETS(interchange), ROOM);
    return r;
}

struct gurandepi_answer gurandepi_register_check_small(const uint8_t *interchange, size_t interchange_length, const uint8_t *kept,
                                                       size_t kept_length) {
    struct gurandepi_answer r;
    inner_register_check_small(&r, OCTETS(interchange), OCTETS(kept));
    return r;
}

struct gurandepi_answer gurandepi_register_check_signed(const uint8_t *interchange, size_t interchange_length, const uint8_t *kept,
                                                        size_t kept_length) {
    struct gurandepi_answer r;
    inner_register_check_signed(&r, OCTETS(interchange), OCTETS(kept));
    return r;
}

struct gurandepi_written gurandepi_register_old_to_signed(const uint8_t *stored, size_t stored_length, uint8_t *out, size_t out_length) {
    struct gurandepi_written r;
    inner_register_old_to_signed(&r, OCTETS(stored), ROOM);
    return r;
}

struct gurandepi_written gurandepi_register_signed_to_old(const uint8_t *stored, size_t stored_length, uint8_t *out, size_t out_length) {
    struct gurandepi_written r;
    inner_register_signed_to_old(&r, OCTETS(stored), ROOM);
    return r;
}

struct gurandepi_written gurandepi_register_small_to_signed(const uint8_t *stored, size_t stored_length, uint8_t *out, size_t out_length) {
    struct gurandepi_written r;
    inner_register_small_to_signed(&r, OCTETS(stored), ROOM);
    return r;
}

struct gurandepi_written gurandepi_register_small_to_old(const uint8_t *stored, size_t stored_length, uint8_t *out, size_t out_length) {
    struct gurandepi_written r;
    inner_register_small_to_old(&r, OCTETS(stored), ROOM);
    return r;
}

struct gurandepi_sha1 gurandepi_sha1_start(void) {
    struct gurandepi_sha1 r;
    inner_sha1_start(&r);
    return r;
}

struct gurandepi_fed gurandepi_sha1_feed(struct gurandepi_sha1 state, const uint8_t *part, size_t part_length) {
    struct gurandepi_fed r;
    inner_sha1_feed(&r, &state, OCTETS(part));
    return r;
}

struct gurandepi_digest gurandepi_sha1_finish(struct gurandepi_sha1 state) {
    struct gurandepi_digest r;
    inner_sha1_finish(&r, &state);
    return r;
}

struct gurandepi_digest gurandepi_digest_scope1(const uint8_t *interchange, size_t interchange_length, const uint8_t *message,
                                                size_t message_length, const uint8_t *header, size_t header_length) {
    struct gurandepi_digest r;
    inner_digest_scope1(&r, OCTETS(interchange), OCTETS(message), OCTETS(header));
    return r;
}

struct gurandepi_digest gurandepi_digest_scope2(const uint8_t *interchange, size_t interchange_length, const uint8_t *message,
                                                size_t message_length, const uint8_t *header, size_t header_length) {
    struct gurandepi_digest r;
    inner_digest_scope2(&r, OCTETS(interchange), OCTETS(message), OCTETS(header));
    return r;
}

struct gurandepi_digest gurandepi_digest_f01(const uint8_t *autack, size_t autack_length, const uint8_t *referenced, size_t referenced_length,
                                             const uint8_t *message, size_t message_length, const uint8_t *header, size_t header_length) {
    struct gurandepi_digest r;
    inner_digest_f01(&r, OCTETS(autack), OCTETS(referenced), OCTETS(message), OCTETS(header));
    return r;
}

struct gurandepi_digest gurandepi_digest_scope3(const uint8_t *autack, size_t autack_length, const uint8_t *referenced, size_t referenced_length,
                                                const uint8_t *message, size_t message_length, const uint8_t *header, size_t header_length) {
    struct gurandepi_digest r;
    inner_digest_scope3(&r, OCTETS(autack), OCTETS(referenced), OCTETS(message), OCTETS(header));
    return r;
}

struct gurandepi_oldsum gurandepi_old_sum(const uint8_t *interchange, size_t interchange_length, float before) {
    struct gurandepi_oldsum r;
    inner_old_sum(&r, OCTETS(interchange), before);
    return r;
}

struct gurandepi_oldsum gurandepi_old_sum_bits(const uint8_t *interchange, size_t interchange_length, uint32_t before) {
    struct gurandepi_oldsum r;
    inner_old_sum_bits(&r, OCTETS(interchange), before);
    return r;
}

struct gurandepi_oldsum gurandepi_message_old_sum(const uint8_t *interchange, size_t interchange_length,
                                                  const uint8_t *message, size_t message_length, float before) {
    struct gurandepi_oldsum r;
    inner_message_old_sum(&r, OCTETS(interchange), OCTETS(message), before);
    return r;
}

struct gurandepi_oldsum gurandepi_message_old_sum_bits(const uint8_t *interchange, size_t interchange_length,
                                                       const uint8_t *message, size_t message_length, uint32_t before) {
    struct gurandepi_oldsum r;
    inner_message_old_sum_bits(&r, OCTETS(interchange), OCTETS(message), before);
    return r;
}
