/* A key for measuring, and two signatures that are valid under it, over two manifests of the caller's choice.
   No secret is needed for that, because the key is chosen last: any bytes of the right types are a signature that leads to some top hash. For both to lead
   to the same one they are those of the first two leaves, and the path of each begins with the other's leaf. LM-OTS type 3, LMS type 6: of the two types with
   test data, the one whose verdict takes fewer compressions, and so hides less of what else a message costs. */
#ifndef KEY_H
#define KEY_H
#include "lertxuno.h"

enum { KEY_SIGNATURE_LENGTH = 2508 };

typedef struct {
    uint8_t key[LERTXUNO_KEY_LENGTH];
    uint8_t signatures[2][KEY_SIGNATURE_LENGTH];
    /* What the verdict on each takes. */
    size_t compressions[2];
} key_pair;

void key_for(uint8_t manifests[2][LERTXUNO_MANIFEST_LENGTH], key_pair *out);

/* Makes a key of these types of any 56 bytes. */
void put_types(uint8_t *key, uint8_t lms_type, uint8_t ots_type);

/* Makes a signature by this leaf, of the key's types, of any bytes as long as they say. */
void put_leaf(const uint8_t *key, uint32_t q, uint8_t *signature);
#endif
