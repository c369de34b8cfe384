#include "lms.h"
#include "compressions.h"
#include "plain.h"
#include <string.h>

enum { D_PBLC = 0x8080, D_MESG = 0x8181, D_LEAF = 0x8282, D_INTR = 0x8383 };

typedef struct {
    const uint8_t *at;
    size_t length;
} part;

lms_parameters lms_parameters_of(const uint8_t *key) {
    int height = 5 * (key[3] - 4);
    return key[7] == 4 ? (lms_parameters){8, 34, height} : (lms_parameters){4, 67, height};
}

size_t lms_path_at(lms_parameters p) { return LMS_HASHES_AT + 32 * (size_t)p.chains + 4; }

size_t lms_signature_length(lms_parameters p) { return lms_path_at(p) + 32 * (size_t)p.height; }

static uint32_t leaf_number(const uint8_t *signature) {
    return (uint32_t)signature[0] << 24 | (uint32_t)signature[1] << 16 | (uint32_t)signature[2] << 8 | signature[3];
}

/* Every hash of the RFC: identifier, number, two bytes, and what is hashed. */
static size_t hash(const uint8_t *key, uint32_t number, int mark, part a, part b, uint8_t out[32]) {
    uint8_t head[22];
    memcpy(head, key + 8, 16);
    for (int i = 0; i < 4; i++)
        head[16 + i] = (uint8_t)(number >> (24 - 8 * i));
    head[20] = (uint8_t)(mark >> 8);
    head[21] = (uint8_t)mark;
    plain_context c;
    plain_init(&c);
    plain_update(&c, head, sizeof head);
    plain_update(&c, a.at, a.length);
    plain_update(&c, b.at, b.length);
    plain_final(&c, out);
    return compressions_of(sizeof head + a.length + b.length);
}

static int digit(const uint8_t *digits, int width, int i) { return width == 8 ? digits[i] : digits[i / 2] >> (i % 2 ? 0 : 4) & 15; }

/* Behind the 32 bytes of a digest, the checksum of their digits. */
static void append_checksum(uint8_t digits[34], int width) {
    int sum = 0;
    for (int i = 0; i < 256 / width; i++)
        sum += (1 << width) - 1 - digit(digits, width, i);
    sum <<= width == 8 ? 0 : 4;
    digits[32] = (uint8_t)(sum >> 8);
    digits[33] = (uint8_t)sum;
}

/* Chain i, from this digit to its end, in place. */
static size_t walk_chain(const uint8_t *key, uint32_t q, int i, int from, int width, uint8_t y[32]) {
    size_t count = 0;
    for (int j = from; j < (1 << width) - 1; j++) {
        uint8_t step = (uint8_t)j;
        count += hash(key, q, i, (part){&step, 1}, (part){y, 32}, y);
    }
    return count;
}

/* The message's digest and its checksum, whose digits say where the chains begin. */
static size_t read_digits(const uint8_t *key, const uint8_t *signature, const uint8_t *message, size_t length, uint8_t digits[34]) {
    size_t count = hash(key, leaf_number(signature), D_MESG, (part){signature + 8, 32}, (part){message, length}, digits);
    append_checksum(digits, lms_parameters_of(key).width);
    return count;
}

size_t lms_steps(const uint8_t *key, const uint8_t *signature, const uint8_t *message, size_t length) {
    lms_parameters p = lms_parameters_of(key);
    uint8_t digits[34];
    size_t steps = 0;
    read_digits(key, signature, message, length, digits);
    for (int i = 0; i < p.chains; i++)
        steps += (size_t)((1 << p.width) - 1 - digit(digits, p.width, i));
    return steps;
}

size_t lms_leaf(const uint8_t *key, const uint8_t *signature, const uint8_t *message, size_t length, uint8_t leaf[32]) {
    lms_parameters p = lms_parameters_of(key);
    uint32_t q = leaf_number(signature);
    uint8_t digits[34], ends[67 * 32], one_time[32];
    size_t hashes = 32 * (size_t)p.chains;
    size_t count = read_digits(key, signature, message, length, digits);
    memcpy(ends, signature + LMS_HASHES_AT, hashes);
    for (int i = 0; i < p.chains; i++)
        count += walk_chain(key, q, i, digit(digits, p.width, i), p.width, ends + 32 * i);
    count += hash(key, q, D_PBLC, (part){ends, hashes}, (part){ends, 0}, one_time);
    return count + hash(key, (1u << p.height) + q, D_LEAF, (part){one_time, 32}, (part){one_time, 0}, leaf);
}

size_t lms_climb(const uint8_t *key, const uint8_t *signature, const uint8_t leaf[32], uint8_t top[32]) {
    lms_parameters p = lms_parameters_of(key);
    const uint8_t *path = signature + lms_path_at(p);
    size_t count = 0;
    memcpy(top, leaf, 32);
    for (uint32_t node = (1u << p.height) + leaf_number(signature); node > 1; node /= 2, path += 32) {
        part below = {top, 32}, beside = {path, 32};
        count += node % 2 ? hash(key, node / 2, D_INTR, beside, below, top) : hash(key, node / 2, D_INTR, below, beside, top);
    }
    return count;
}
