/* What one build of the library is measured on beside another (against.c). */
#ifndef BUILD_H
#define BUILD_H
#include "turns.h"
#include <stddef.h>
#include <stdint.h>

typedef struct {
    const char *name;
    side side;
} job;

enum { JOBS = 8, IMAGE_JOBS = 5 };

typedef struct {
    /* Makes the input, and reads two samples of signatures. */
    void (*start)(char **paths);
    job jobs[JOBS];
    /* Makes all messages of an image, and loads it into a device. */
    void (*load)(size_t length, uint32_t block_length);
    job image_jobs[IMAGE_JOBS];
} build;
#endif
