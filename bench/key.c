#include "key.h"
#include "input.h"
#include "lms.h"
#include <string.h>

enum { LMS_TYPE = 6, OTS_TYPE = 3 };

static void put(uint8_t *at, uint32_t number) {
    for (int i = 0; i < 4; i++)
        at[i] = (uint8_t)(number >> (24 - 8 * i));
}

void put_types(uint8_t *key, uint8_t lms_type, uint8_t ots_type) {
    put(key, lms_type);
    put(key + 4, ots_type);
}

void put_leaf(const uint8_t *key, uint32_t q, uint8_t *signature) {
    put(signature, q);
    memcpy(signature + 4, key + 4, 4);
    memcpy(signature + lms_path_at(lms_parameters_of(key)) - 4, key, 4);
}

void key_for(uint8_t manifests[2][LERTXUNO_MANIFEST_LENGTH], key_pair *out) {
    fill(out->key, sizeof out->key);
    put_types(out->key, LMS_TYPE, OTS_TYPE);
    size_t path = lms_path_at(lms_parameters_of(out->key));
    uint8_t leaves[2][32];
    for (uint32_t q = 0; q < 2; q++) {
        uint8_t *s = out->signatures[q];
        fill(s, KEY_SIGNATURE_LENGTH);
        put_leaf(out->key, q, s);
        out->compressions[q] = lms_leaf(out->key, s, manifests[q], LERTXUNO_MANIFEST_LENGTH, leaves[q]);
    }
    for (int q = 0; q < 2; q++) {
        memcpy(out->signatures[q] + path, leaves[1 - q], sizeof leaves[q]);
        out->compressions[q] += lms_climb(out->key, out->signatures[q], leaves[q], out->key + LMS_TOP_AT);
    }
}
