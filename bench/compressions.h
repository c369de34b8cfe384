/* The measure that the proved code is held to: SHA-256 compressions, each at the time that one takes in a long digest of the same library. */
#ifndef COMPRESSIONS_H
#define COMPRESSIONS_H
#include "turns.h"
#include <stddef.h>

/* Of a message of so many bytes. */
size_t compressions_of(size_t length);

/* Of the tree over n blocks: each block once, and each of the n - 1 inner nodes. */
size_t tree_compressions(size_t n, size_t block_length);

/* Of all block messages of n blocks, with no hash kept between two: each hash that one carries is worked out from its blocks. */
size_t messages_compressions(size_t n, size_t block_length);

/* The depth of the tree over n blocks: that of its deepest leaves. */
size_t tree_depth(size_t n);

/* Of a path update of a leaf at this depth: the old block and the new one, and the inner nodes above each. */
size_t path_compressions(size_t depth, size_t block_length);

/* The long digest, one of 1 MiB, to measure by turns with what is held to it. */
side long_digest(void);

/* Of a time to that of so many compressions, where the long digest took digest_seconds. */
double ratio(double seconds, size_t count, double digest_seconds);
#endif
