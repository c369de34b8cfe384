#ifndef PLAIN_H
#define PLAIN_H
#include <stddef.h>
#include <stdint.h>

typedef struct {
    uint32_t h[8];
    uint8_t buffer[64];
    uint64_t length;
} plain_context;

void plain_compress(uint32_t h[8], const uint8_t *block);
void plain_init(plain_context *c);
void plain_update(plain_context *c, const uint8_t *p, size_t n);
void plain_final(plain_context *c, uint8_t out[32]);
void plain_digest(const uint8_t *p, size_t n, uint8_t out[32]);
void plain_pieces(const uint8_t *p, size_t n, size_t piece, uint8_t out[32]);
#endif
