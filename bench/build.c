/* Compiled once for each build of the library, with which it is linked into an object that gives nothing away but `one_build` (bench/against). */
#include "build.h"
#include "device.h"
#include "input.h"
#include "sample.h"

void bench_pieces(const uint8_t *message, size_t length, size_t piece, uint8_t out[32]);

static uint8_t input[1 << 20], hash[32], out[1 << 12];
static sample samples[2];
static messages made;
static device_memory device;

static void start(char **paths) {
    fill(input, sizeof input);
    for (int i = 0; i < 2; i++)
        read_sample(paths[i], &samples[i]);
}

static void digest(const void *length) { lertxuno_digest(input, *(const size_t *)length, hash); }

static void pieces(const void *piece) { bench_pieces(input, sizeof input, *(const size_t *)piece, hash); }

static void verdict(const void *with) { judge_sample(with); }

static void download(const void *with) {
    (void)with;
    take_download(&device, &made, made.n);
}

static void update(const void *message) { take_update_again(&device, &made, message); }

static void manifest(const void *with) {
    (void)with;
    size_t written;
    accepted(lertxuno_manifest(made.image, made.length, made.block_length, MODEL, OLD_SERIAL, out, sizeof out, &written));
}

static void blocks(const void *with) {
    (void)with;
    size_t written;
    for (uint32_t number = 1; number <= made.n; number++)
        accepted(lertxuno_block(made.image, made.length, made.block_length, number, out, sizeof out, &written));
}

static void load(size_t length, uint32_t block_length) {
    make_messages(length, block_length, &made);
    take_download(&device, &made, made.n);
}

static const size_t one = 1, sixteen = 16, short_length = 55, block_length = 64, long_length = sizeof input;

const build one_build = {start,
                         {{"digest, 1 MiB", {digest, &long_length, 2}},
                          {"digest, 64 bytes", {digest, &block_length, 10000}},
                          {"digest, 55 bytes", {digest, &short_length, 20000}},
                          {"digest, 1 MiB by 64", {pieces, &block_length, 2}},
                          {"digest, 1 MiB by 16", {pieces, &sixteen, 2}},
                          {"digest, 1 MiB by 1", {pieces, &one, 1}},
                          {"verdict, type 4, height 5", {verdict, &samples[0], 2}},
                          {"verdict, type 3, height 10", {verdict, &samples[1], 8}}},
                         load,
                         {{"download", {download, NULL, 1}},
                          {"update", {update, &made.update, 1}},
                          {"path update", {update, &made.path_update, 1}},
                          {"manifest", {manifest, NULL, 1}},
                          {"all block messages", {blocks, NULL, 1}}}};
