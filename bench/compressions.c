#include "compressions.h"
#include "input.h"
#include "lertxuno.h"

static uint8_t message[1 << 20];

size_t compressions_of(size_t length) { return (length + 9 + 63) / 64; }

size_t tree_compressions(size_t n, size_t block_length) {
    return n * compressions_of(block_length) + (n - 1) * compressions_of(2 * LERTXUNO_HASH_LENGTH);
}

size_t tree_depth(size_t n) {
    size_t depth = 0;
    while ((size_t)1 << depth < n)
        depth++;
    return depth;
}

/* How many blocks stand below the hashes that the messages carry: below the highest of message 1 the right half; the others are those of the halves' own messages. */
static size_t below_carried(size_t n) {
    if (n == 1)
        return 0;
    size_t k = (size_t)1 << (tree_depth(n) - 1);
    return n - k + below_carried(k) + below_carried(n - k);
}

/* The messages carry n - 1 hashes: so many of these subtrees there are, each with an inner node less than blocks. */
size_t messages_compressions(size_t n, size_t block_length) {
    size_t blocks = below_carried(n);
    return blocks * compressions_of(block_length) + (blocks - (n - 1)) * compressions_of(2 * LERTXUNO_HASH_LENGTH);
}

size_t path_compressions(size_t depth, size_t block_length) {
    return 2 * (compressions_of(block_length) + depth * compressions_of(2 * LERTXUNO_HASH_LENGTH));
}

static void digest(const void *with) {
    (void)with;
    uint8_t out[LERTXUNO_HASH_LENGTH];
    lertxuno_digest(message, sizeof message, out);
}

side long_digest(void) {
    fill(message, sizeof message);
    return (side){digest, NULL, 1};
}

double ratio(double seconds, size_t count, double digest_seconds) {
    double one = digest_seconds / (double)compressions_of(sizeof message);
    return seconds / (one * (double)count);
}
