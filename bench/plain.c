/* Plain portable SHA-256 in C, the measure that the proved one is held to: the same shape (the whole schedule, then the rounds), a context fed in pieces. */
#include "plain.h"
#include <string.h>

static const uint32_t K[64] = {
    0x428a2f98, 0x71374491, 0xb5c0fbcf, 0xe9b5dba5, 0x3956c25b, 0x59f111f1, 0x923f82a4, 0xab1c5ed5,
    0xd807aa98, 0x12835b01, 0x243185be, 0x550c7dc3, 0x72be5d74, 0x80deb1fe, 0x9bdc06a7, 0xc19bf174,
    0xe49b69c1, 0xefbe4786, 0x0fc19dc6, 0x240ca1cc, 0x2de92c6f, 0x4a7484aa, 0x5cb0a9dc, 0x76f988da,
    0x983e5152, 0xa831c66d, 0xb00327c8, 0xbf597fc7, 0xc6e00bf3, 0xd5a79147, 0x06ca6351, 0x14292967,
    0x27b70a85, 0x2e1b2138, 0x4d2c6dfc, 0x53380d13, 0x650a7354, 0x766a0abb, 0x81c2c92e, 0x92722c85,
    0xa2bfe8a1, 0xa81a664b, 0xc24b8b70, 0xc76c51a3, 0xd192e819, 0xd6990624, 0xf40e3585, 0x106aa070,
    0x19a4c116, 0x1e376c08, 0x2748774c, 0x34b0bcb5, 0x391c0cb3, 0x4ed8aa4a, 0x5b9cca4f, 0x682e6ff3,
    0x748f82ee, 0x78a5636f, 0x84c87814, 0x8cc70208, 0x90befffa, 0xa4506ceb, 0xbef9a3f7, 0xc67178f2};

#define ROTR(n, x) (((x) >> (n)) | ((x) << (32 - (n))))

void plain_compress(uint32_t h[8], const uint8_t *p) {
    uint32_t w[64];
    for (int t = 0; t < 16; t++)
        w[t] = (uint32_t)p[4 * t] << 24 | (uint32_t)p[4 * t + 1] << 16 | (uint32_t)p[4 * t + 2] << 8 | p[4 * t + 3];
    for (int t = 16; t < 64; t++) {
        uint32_t x = w[t - 15], y = w[t - 2];
        w[t] = (ROTR(17, y) ^ ROTR(19, y) ^ (y >> 10)) + w[t - 7] + (ROTR(7, x) ^ ROTR(18, x) ^ (x >> 3)) + w[t - 16];
    }
    uint32_t a = h[0], b = h[1], c = h[2], d = h[3], e = h[4], f = h[5], g = h[6], k = h[7];
    for (int t = 0; t < 64; t++) {
        uint32_t t1 = k + (ROTR(6, e) ^ ROTR(11, e) ^ ROTR(25, e)) + ((e & f) ^ (~e & g)) + K[t] + w[t];
        uint32_t t2 = (ROTR(2, a) ^ ROTR(13, a) ^ ROTR(22, a)) + ((a & b) ^ (a & c) ^ (b & c));
        k = g, g = f, f = e, e = d + t1, d = c, c = b, b = a, a = t1 + t2;
    }
    h[0] += a, h[1] += b, h[2] += c, h[3] += d, h[4] += e, h[5] += f, h[6] += g, h[7] += k;
}

void plain_init(plain_context *c) {
    static const uint32_t start[8] = {0x6a09e667, 0xbb67ae85, 0x3c6ef372, 0xa54ff53a,
                                      0x510e527f, 0x9b05688c, 0x1f83d9ab, 0x5be0cd19};
    memcpy(c->h, start, sizeof start);
    c->length = 0;
}

void plain_update(plain_context *c, const uint8_t *p, size_t n) {
    size_t used = c->length % 64;
    c->length += n;
    if (used) {
        size_t room = 64 - used;
        if (n < room) {
            memcpy(c->buffer + used, p, n);
            return;
        }
        memcpy(c->buffer + used, p, room);
        plain_compress(c->h, c->buffer);
        p += room, n -= room;
    }
    for (; n >= 64; p += 64, n -= 64)
        plain_compress(c->h, p);
    memcpy(c->buffer, p, n);
}

void plain_final(plain_context *c, uint8_t out[32]) {
    size_t used = c->length % 64;
    uint64_t bits = c->length * 8;
    c->buffer[used++] = 0x80;
    if (used > 56) {
        memset(c->buffer + used, 0, 64 - used);
        plain_compress(c->h, c->buffer);
        used = 0;
    }
    memset(c->buffer + used, 0, 56 - used);
    for (int i = 0; i < 8; i++)
        c->buffer[56 + i] = (uint8_t)(bits >> (56 - 8 * i));
    plain_compress(c->h, c->buffer);
    for (int i = 0; i < 32; i++)
        out[i] = (uint8_t)(c->h[i / 4] >> (24 - 8 * (i % 4)));
}

void plain_digest(const uint8_t *p, size_t n, uint8_t out[32]) {
    plain_context c;
    plain_init(&c);
    plain_update(&c, p, n);
    plain_final(&c, out);
}

void plain_pieces(const uint8_t *p, size_t n, size_t piece, uint8_t out[32]) {
    plain_context c;
    plain_init(&c);
    for (size_t i = 0; i < n; i += piece)
        plain_update(&c, p + i, n - i < piece ? n - i : piece);
    plain_final(&c, out);
}
