#include "turns.h"
#include <time.h>

/* The processor's time for this program: what others take of the machine is not in it. */
static double now(void) {
    struct timespec t;
    clock_gettime(CLOCK_PROCESS_CPUTIME_ID, &t);
    return (double)t.tv_sec + (double)t.tv_nsec * 1e-9;
}

static void take(const side *s, double *best) {
    double start = now();
    for (int i = 0; i < s->calls; i++)
        s->run(s->with);
    double t = (now() - start) / s->calls;
    if (t < *best)
        *best = t;
}

void turns(int rounds, int count, const side *sides, double *best) {
    for (int i = 0; i < count; i++)
        best[i] = 1e9;
    for (int r = 0; r < rounds; r++)
        for (int i = 0; i < count; i++)
            take(&sides[i], &best[i]);
}
