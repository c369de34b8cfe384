/* The sender: the time of all block messages of an image, and of a path update of its first block, each as a multiple of the time of its manifest, which works
   out the tree once; and which multiple of the tree's compressions the messages take. */
#include "accepted.h"
#include "compressions.h"
#include "input.h"

enum { ROUNDS = 30, MODEL = 7, SERIAL = 1 };

static uint8_t image[LERTXUNO_MAX_BLOCKS * LERTXUNO_MAX_BLOCK_LENGTH], out[2048];

typedef struct {
    size_t length;
    uint32_t block_length, n;
} size;

static void send_manifest(const void *with) {
    const size *s = with;
    size_t written;
    accepted(lertxuno_manifest(image, s->length, s->block_length, MODEL, SERIAL, out, sizeof out, &written));
}

static void send_blocks(const void *with) {
    const size *s = with;
    size_t written;
    for (uint32_t i = 1; i <= s->n; i++)
        accepted(lertxuno_block(image, s->length, s->block_length, i, out, sizeof out, &written));
}

static void send_path_update(const void *with) {
    const size *s = with;
    size_t written;
    accepted(lertxuno_path_update(image, s->length, s->block_length, MODEL, SERIAL, 1, image, 0, out, sizeof out, &written));
}

/* An image of the most blocks. */
static void measure(uint32_t block_length) {
    const size s = {(size_t)LERTXUNO_MAX_BLOCKS * block_length, block_length, LERTXUNO_MAX_BLOCKS};
    const side sides[] = {{send_manifest, &s, 1}, {send_blocks, &s, 1}, {send_path_update, &s, 1}};
    double best[3];
    turns(ROUNDS, 3, sides, best);
    printf("%10zu %8u %8u %12.2f %12.2f %12.2f %12.2f %12.2f %12.2f\n", s.length, block_length, s.n, best[0] * 1e3, best[1] * 1e3, best[1] / best[0],
           (double)messages_compressions(s.n, block_length) / tree_compressions(s.n, block_length), best[2] * 1e3, best[2] / best[0]);
}

int main(void) {
    fill(image, sizeof image);
    printf("%10s %8s %8s %12s %12s %12s %12s %12s %12s\n", "image", "L", "n", "manifest, ms", "messages, ms", "ratio", "compressions", "path, ms", "ratio");
    measure(1024);
    measure(256);
    measure(64);
    return 0;
}
