/* Things measured by turns, so that whatever else the machine does falls on all. */
#ifndef TURNS_H
#define TURNS_H

/* What is measured: `calls` calls of run, on the same argument. */
typedef struct {
    void (*run)(const void *with);
    const void *with;
    int calls;
} side;

/* The best time of one call of each of so many sides in so many rounds, in seconds. */
void turns(int rounds, int count, const side *sides, double *best);
#endif
