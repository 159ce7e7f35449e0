// SHA-1 in plain C, as RFC 3174 writes it: a schedule of eighty words, four loops of twenty rounds.
#include <stdint.h>
#include <string.h>
struct slice {
    const uint8_t *octets;
    uint64_t length;
};
static uint32_t turned(uint32_t x, int n) {
    return x << n | x >> (32 - n);
}

static void compress(uint32_t *h, const uint8_t *s) {
    uint32_t w[80];
    for (int t = 0; t < 16; t++)
        w[t] = (uint32_t)s[4 * t] << 24 | (uint32_t)s[4 * t + 1] << 16 | (uint32_t)s[4 * t + 2] << 8 | s[4 * t + 3];
    for (int t = 16; t < 80; t++)
        w[t] = turned(w[t - 3] ^ w[t - 8] ^ w[t - 14] ^ w[t - 16], 1);
    uint32_t a = h[0], b = h[1], c = h[2], d = h[3], e = h[4], x;
    for (int t = 0; t < 20; t++) {
        x = turned(a, 5) + ((b & c) | (~b & d)) + e + w[t] + 0x5a827999;
        e = d, d = c, c = turned(b, 30), b = a, a = x;
    }
    for (int t = 20; t < 40; t++) {
        x = turned(a, 5) + (b ^ c ^ d) + e + w[t] + 0x6ed9eba1;
        e = d, d = c, c = turned(b, 30), b = a, a = x;
    }
    for (int t = 40; t < 60; t++) {
        x = turned(a, 5) + ((b & c) | (b & d) | (c & d)) + e + w[t] + 0x8f1bbcdc;
        e = d, d = c, c = turned(b, 30), b = a, a = x;
    }
    for (int t = 60; t < 80; t++) {
        x = turned(a, 5) + (b ^ c ^ d) + e + w[t] + 0xca62c1d6;
        e = d, d = c, c = turned(b, 30), b = a, a = x;
    }
    h[0] += a, h[1] += b, h[2] += c, h[3] += d, h[4] += e;
}

uint64_t plain_sha1(const struct slice *p) {
    uint32_t h[5] = {0x67452301, 0xefcdab89, 0x98badcfe, 0x10325476, 0xc3d2e1f0};
    const uint8_t *s = p->octets;
    uint64_t left = p->length;
    for (; 64 <= left; left -= 64, s += 64)
        compress(h, s);
    uint8_t end[128] = {0};
    memcpy(end, s, left);
    end[left] = 128;
    uint64_t size = left < 56 ? 64 : 128;
    for (int i = 0; i < 8; i++)
        end[size - 1 - i] = (uint8_t)(8 * p->length >> 8 * i);
    for (uint64_t i = 0; i < size; i += 64)
        compress(h, end + i);
    return (uint64_t)h[0] << 32 | h[1];
}
