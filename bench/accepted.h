#ifndef ACCEPTED_H
#define ACCEPTED_H
#include "lertxuno.h"
#include <stdio.h>
#include <stdlib.h>

/* A refused call measures nothing. */
static inline void accepted(uint32_t answer) {
    if (answer != LERTXUNO_ACCEPTED) {
        printf("refused: %u\n", (unsigned)answer);
        exit(1);
    }
}
#endif
