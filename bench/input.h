#ifndef INPUT_H
#define INPUT_H
#include <stddef.h>
#include <stdint.h>

/* Bytes with no pattern that a predictor could learn, the same in every run. */
static inline void fill(uint8_t *p, size_t length) {
    for (size_t i = 0; i < length; i++)
        p[i] = (uint8_t)(i * 2654435761u >> 13);
}
#endif
