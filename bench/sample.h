/* A key, a signature that is valid under it and its message, one behind the other in a file (crates/vectors/data). */
#ifndef SAMPLE_H
#define SAMPLE_H
#include "lertxuno.h"

typedef struct {
    uint8_t bytes[8192];
    const uint8_t *signature, *message;
    size_t signature_length, message_length;
} sample;

void read_sample(const char *path, sample *s);

/* The library's verdict, which must be that it is valid. */
void judge_sample(const sample *s);
#endif
