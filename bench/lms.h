/* RFC 8554 in plain C: where a signature leads, and how many compressions the way takes. A signature is valid if it leads to the key's top hash. Types of the
   key: LM-OTS 3 or 4, LMS 5 to 9; the signature is as long as they say. */
#ifndef LMS_H
#define LMS_H
#include <stddef.h>
#include <stdint.h>

enum { LMS_TOP_AT = 24, LMS_HASHES_AT = 40 };

typedef struct {
    int width, chains, height;
} lms_parameters;

lms_parameters lms_parameters_of(const uint8_t *key);

size_t lms_signature_length(lms_parameters p);

/* Where the path's first hash stands in a signature. */
size_t lms_path_at(lms_parameters p);

/* How many steps the chains take. */
size_t lms_steps(const uint8_t *key, const uint8_t *signature, const uint8_t *message, size_t length);

/* From the message to the leaf (algorithm 4b, and the first hash of 6a). Both return the number of compressions. */
size_t lms_leaf(const uint8_t *key, const uint8_t *signature, const uint8_t *message, size_t length, uint8_t leaf[32]);

/* From the leaf to the top (the rest of 6a). */
size_t lms_climb(const uint8_t *key, const uint8_t *signature, const uint8_t leaf[32], uint8_t top[32]);
#endif
