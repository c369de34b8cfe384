/* This build of the library beside another one, in one process and by turns: the time of each job with either, and how many times as fast this one is. */
#include "build.h"
#include <stdio.h>

extern const build this_build, other_build;

enum { ROUNDS = 60 };

static void measure(const job *other, const job *own) {
    const side sides[] = {other->side, own->side};
    double best[2];
    turns(ROUNDS, 2, sides, best);
    printf("%-28s %14.3f %14.3f %10.2f\n", own->name, best[0] * 1e6, best[1] * 1e6, best[0] / best[1]);
    fflush(stdout);
}

/* Of a length that both builds take. */
static void measure_image(size_t length, uint32_t block_length) {
    other_build.load(length, block_length);
    this_build.load(length, block_length);
    printf("image of %zu bytes, L = %u\n", length, (unsigned)block_length);
    for (int i = 0; i < IMAGE_JOBS; i++)
        measure(&other_build.image_jobs[i], &this_build.image_jobs[i]);
}

int main(int count, char **words) {
    if (count != 3)
        return 1;
    other_build.start(words + 1);
    this_build.start(words + 1);
    printf("%-28s %14s %14s %10s\n", "microseconds", "other", "this", "ratio");
    for (int i = 0; i < JOBS; i++)
        measure(&other_build.jobs[i], &this_build.jobs[i]);
    measure_image(1536 << 10, 1024);
    measure_image(384 << 10, 256);
    measure_image(96 << 10, 64);
    return 0;
}
