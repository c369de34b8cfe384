/* The device: the time of a whole download, of its last block, of an update of one block, of a path update of the same block and of the boot check, against the
   SHA-256 compressions that each cannot avoid: the signature's verdict's; of the tree each block and each inner node once for the block messages, and once more
   for the last one, twice for an update, once for the boot check; for a path update those of the block's path, for the old block and for the new one; and
   those that the blocks of one call report themselves. And the same beside the verdict, which is most of what a path update takes. */
#include "compressions.h"
#include "device.h"

enum { ROUNDS = 400 };

static messages made;
static device_memory device;

static void download(const void *with) {
    (void)with;
    take_download(&device, &made, made.n);
}

static void update(const void *with) { take_update_again(&device, &made, with); }

static void verdict(const void *with) { judge(&made, with); }

/* The device as it waits for its last block: the other blocks are in the flash. */
static uint8_t waiting[LERTXUNO_STATE_LENGTH];

static void wait_for_last(void) {
    take_download(&device, &made, made.n - 1);
    memcpy(waiting, device.state, sizeof waiting);
}

static void last_block(const void *with) {
    memcpy(device.state, waiting, sizeof waiting);
    take(&device, with);
}

static void boot_check(const void *with) {
    (void)with;
    pass_boot_check(&device);
}

static void print(const char *name, double seconds, size_t count, double digest_seconds) {
    printf("%-12s %10zu %8u %8u %12.3f %12zu %12.2f %12zu", name, made.length, made.block_length, made.n, seconds * 1e3, count,
           ratio(seconds, count, digest_seconds), device.reported);
}

/* The sides by turns, the first of which is a call to the device; what its blocks report is that of one call. */
static void measure_sides(int count, const side *sides, double *best) {
    turns(ROUNDS, count, sides, best);
    device.reported = 0;
    sides[0].run(sides[0].with);
}

/* One call without a verdict. */
static void measure_alone(const char *name, void (*run)(const void *), const message *with, size_t count) {
    const side sides[] = {{run, with, 1}, long_digest()};
    double best[2];
    measure_sides(2, sides, best);
    print(name, best[0], count, best[1]);
    puts("");
}

/* One call with the message that carries the signature, which takes so many compressions for the verdict and so many beside it. */
static void measure(const char *name, void (*run)(const void *), const message *carrier, size_t of_verdict, size_t beside) {
    const side sides[] = {{run, carrier, 1}, {verdict, carrier, 1}, long_digest()};
    double best[3];
    measure_sides(3, sides, best);
    double rest = best[0] - best[1];
    print(name, best[0], of_verdict + beside, best[2]);
    printf(" %12.1f %12zu %12.2f\n", rest * 1e6, beside, ratio(rest, beside, best[2]));
}

static void measure_all(size_t n, uint32_t block_length) {
    make_messages(n * block_length, block_length, &made);
    const size_t *of_verdict = made.key.compressions;
    size_t tree = tree_compressions(made.n, block_length);
    measure("download", download, &made.program, of_verdict[0], 2 * tree);
    if (memcmp(device.flash, made.image, made.length) != 0) {
        puts("the flash does not begin with the image");
        exit(1);
    }
    wait_for_last();
    measure_alone("last block", last_block, &made.blocks[made.n - 1], compressions_of(block_length) + tree);
    measure_alone("boot check", boot_check, NULL, tree);
    measure("update", update, &made.update, of_verdict[1], 2 * tree);
    measure("path update", update, &made.path_update, of_verdict[1], path_compressions(tree_depth(made.n), block_length));
}

int main(void) {
    printf("%97s %s\n", "", "beside the verdict");
    printf("%-12s %10s %8s %8s %12s %12s %12s %12s %12s %12s %12s\n", "", "image", "L", "n", "milliseconds", "compressions", "ratio", "reported",
           "microseconds", "compressions", "ratio");
    measure_all(64, 1024);
    measure_all(256, 1024);
    measure_all(LERTXUNO_MAX_BLOCKS, 1024);
    measure_all(LERTXUNO_MAX_BLOCKS, 256);
    measure_all(LERTXUNO_MAX_BLOCKS, 64);
    return 0;
}
