/* A download and an update, both sides in one program: the sender has its program from a text, makes a bundle of all messages, and the device takes it block
 * by block, each with a budget of SHA-256 compressions, then a new last one. Before the last block of the download somebody swaps the board (19), and after it
 * a byte changes: the boot check tells.
 *
 *     (cd crates/capi && rt lib) && mkdir -p target
 *     gcc -Wall -Wextra -Werror -Iinclude -o target/download examples/download.c crates/capi/out/libcapi.a
 *
 * The key and the signatures are samples. In the field a manifest is signed by whoever holds the key's secret part. */
#include "lertxuno.h"
#include "sample.h"
#include <stdio.h>
#include <stdlib.h>
#include <string.h>

/* Five blocks; the last one has 44 bytes. */
enum { IMAGE_LENGTH = 300, BLOCK_LENGTH = 64, BLOCKS = LERTXUNO_BLOCKS(IMAGE_LENGTH, BLOCK_LENGTH), MODEL = 7, SERIAL = 1, BASE = 0x08000000 };

static uint8_t image[IMAGE_LENGTH];

/* What goes over the radio: the block messages, the new program's message, and a trailer of four bytes, the distance back to that message's start. Message i,
 * from 0, ends where the next one starts; the new program's is the last. */
static uint8_t bundle[4096];
static size_t starts[BLOCKS + 2];

/* What the device keeps: in a drive, the stored state, in pages of its own, and the program memory. Power cuts are left out here (docs/INTEGRATION.md,
 * 'Power loss'; an update then needs a copy of the flash). Straight behind the program this one has travel heights, which are no part of
 * any image: it lends the bytes before them and no more, so that a program too long for these is refused (8, area). */
static const uint8_t heights[] = {72, 105, 118};
static uint8_t state[LERTXUNO_STATE_LENGTH];
static uint8_t flash[IMAGE_LENGTH + sizeof heights];

static void expect(const char *what, uint32_t answer, uint32_t due) {
    printf("%-24s %u %s\n", what, (unsigned)answer, lertxuno_refusal_word(answer));
    if (answer != due)
        exit(1);
}

/* The sender's side. */

/* The supplier delivers the program as Intel HEX. */
static void read_text(void) {
    size_t line;
    expect("sender, Intel HEX", lertxuno_ihex(sample_text, sizeof sample_text - 1, BASE, sizeof image, image, sizeof image, &line), LERTXUNO_ACCEPTED);
    /* An image that begins a byte later: the first data record, in line 2, names a byte before it, and the image is left as it is. */
    expect("sender, another place", lertxuno_ihex(sample_text, sizeof sample_text - 1, BASE + 1, sizeof image, image, sizeof image, &line), LERTXUNO_PLACE);
    if (line != 2)
        exit(1);
}

static void sign(void) {
    uint8_t manifest[LERTXUNO_MANIFEST_LENGTH], hash[LERTXUNO_HASH_LENGTH];
    size_t length, count;
    expect("sender, manifest", lertxuno_manifest(image, sizeof image, BLOCK_LENGTH, MODEL, SERIAL, manifest, sizeof manifest, &length), LERTXUNO_ACCEPTED);
    count = lertxuno_digest(manifest, length, hash);
    printf("%-24s %02x%02x.., compressions: %u\n", "SHA-256 of the manifest", hash[0], hash[1], (unsigned)count);
    expect("signature", lertxuno_verify(sample_key, sizeof sample_key, manifest, length, sample_signature, sizeof sample_signature), LERTXUNO_ACCEPTED);
}

static void make_bundle(void) {
    size_t at = 0, length;
    for (uint32_t i = 0; i < BLOCKS; i++) {
        starts[i] = at;
        expect("sender, block", lertxuno_block(image, sizeof image, BLOCK_LENGTH, i + 1, bundle + at, sizeof bundle - at, &length), LERTXUNO_ACCEPTED);
        at += length;
    }
    starts[BLOCKS] = at;
    expect("sender, program", lertxuno_program(image, sizeof image, BLOCK_LENGTH, MODEL, SERIAL, sample_signature, sizeof sample_signature,
                                               bundle + at, sizeof bundle - at, &length), LERTXUNO_ACCEPTED);
    at += length;
    starts[BLOCKS + 1] = at;
    for (int i = 0; i < 4; i++)
        bundle[at + i] = (uint8_t)(length >> (24 - 8 * i));
}

/* The device's side. */

/* What the last accepted message reported: compressions for a block, 0 for another kind. */
static uint32_t compressions;

static uint32_t take(const uint8_t *message, size_t length, uint32_t budget) {
    return lertxuno_receive(state, sizeof state, flash, IMAGE_LENGTH, message, length, budget, &compressions);
}

static uint32_t receive(uint32_t i, uint32_t budget) { return take(bundle + starts[i], starts[i + 1] - starts[i], budget); }

/* What the next block costs: the least budget that it is taken with. A drive that wakes for fewer compressions would wait for a longer wake-up. */
static uint32_t budget_due(void) {
    uint32_t cost;
    expect("device, cost due", lertxuno_block_cost(state, sizeof state, &cost), LERTXUNO_ACCEPTED);
    return cost;
}

/* Where the device is: what it would tell the sender. */
static void report(uint32_t stage, uint32_t next) {
    uint32_t status[LERTXUNO_STATUS_NUMBERS];
    expect("device, status", lertxuno_status(state, sizeof state, status), LERTXUNO_ACCEPTED);
    printf("stage %u, block %u of %u\n", (unsigned)status[LERTXUNO_STATUS_STAGE], (unsigned)status[LERTXUNO_STATUS_NEXT],
           (unsigned)status[LERTXUNO_STATUS_BLOCKS]);
    if (status[LERTXUNO_STATUS_STAGE] != stage || status[LERTXUNO_STATUS_NEXT] != next)
        exit(1);
}

/* The compressions that this drive wakes for, and the most that a verdict under its key takes: the sample's has signature type 4 (34 chains) and height 5. */
enum { WAKE_UP = 9000, VERDICT = LERTXUNO_MAX_VERDICT_COST(34, 5) };

/* A message with a manifest is judged to its end once it is begun: a drive waits for a wake-up that has the most that it may take. */
static void wait_for(uint32_t most) {
    printf("%-24s %u, wake-up: %u\n", "with a verdict, at most", (unsigned)most, (unsigned)WAKE_UP);
    if (WAKE_UP < most)
        exit(1);
}

static void take_block(uint32_t i) {
    size_t due;
    report(LERTXUNO_LOADING, i + 1);
    expect("device, length due", lertxuno_block_message_length(state, sizeof state, &due), LERTXUNO_ACCEPTED);
    if (due != starts[i + 1] - starts[i])
        exit(1);
    uint32_t budget = budget_due();
    uint8_t *first = bundle + starts[i] + LERTXUNO_BLOCK_HEAD;
    *first ^= 1;
    expect("device, damaged block", receive(i, budget), LERTXUNO_MISMATCH);
    *first ^= 1;
    expect("device, too little", receive(i, budget - 1), LERTXUNO_SPENT);
    expect("device, block", receive(i, budget), LERTXUNO_ACCEPTED);
    printf("compressions: %u\n", (unsigned)compressions);
    if (compressions != budget)
        exit(1);
    expect("device, the same again", receive(i, budget), (uint32_t)(i + 1 < BLOCKS ? LERTXUNO_TURN : LERTXUNO_STAGE));
}

/* What firmware asks at each start, before it runs the program. */
static uint32_t boot_check(void) { return lertxuno_boot_check(state, sizeof state, flash, IMAGE_LENGTH); }

/* The board was swapped while the last block was on its way: the other blocks are not there, and the program does not become complete. With the board put back
 * it goes on. */
static void swap_board(void) {
    uint8_t board[IMAGE_LENGTH];
    memcpy(board, flash, sizeof board);
    memset(flash, 0xFF, sizeof board);
    expect("device, another board", receive(BLOCKS - 1, budget_due()), LERTXUNO_ALTERED);
    memcpy(flash, board, sizeof board);
}

/* A byte of the program is not what it was: the device is complete still, and the boot check finds it. */
static void touch_board(void) {
    expect("device, boot check", boot_check(), LERTXUNO_ACCEPTED);
    flash[0] ^= 1;
    expect("device, a byte altered", boot_check(), LERTXUNO_ALTERED);
    flash[0] ^= 1;
    expect("device, and put back", boot_check(), LERTXUNO_ACCEPTED);
}

/* The image's last byte changes, and so its last block. Its answer depends on that block of the flash and no other. Only blocks look at their budget. */
static void update(void) {
    uint8_t message[LERTXUNO_MAX_PATH_UPDATE_LENGTH];
    size_t length;
    image[IMAGE_LENGTH - 1] ^= 1;
    expect("sender, path update", lertxuno_path_update(image, sizeof image, BLOCK_LENGTH, MODEL, SERIAL + 1, BLOCKS, sample_update_signature,
                                                       sizeof sample_update_signature, message, sizeof message, &length), LERTXUNO_ACCEPTED);
    /* One for the old block of 44 bytes and one for the new one, and 4 for the one hash beside its way to the root. */
    wait_for(VERDICT + 1 + 1 + 4);
    expect("device, path update", take(message, length, 0), LERTXUNO_ACCEPTED);
    /* The same as kind 3, for which a device reads its whole flash, twice. This one has that serial already, and does not come so far. */
    expect("sender, update", lertxuno_update(image, sizeof image, BLOCK_LENGTH, MODEL, SERIAL + 1, BLOCKS, sample_update_signature,
                                             sizeof sample_update_signature, message, sizeof message, &length), LERTXUNO_ACCEPTED);
    expect("device, the same again", take(message, length, 0), LERTXUNO_SERIAL);
}

int main(void) {
    read_text();
    memcpy(flash + IMAGE_LENGTH, heights, sizeof heights);
    sign();
    make_bundle();
    lertxuno_fresh(MODEL, sample_key, state);
    report(LERTXUNO_IDLE, 0);
    wait_for(VERDICT);
    expect("device, program", receive(BLOCKS, 0), LERTXUNO_ACCEPTED);
    expect("device, boot check", boot_check(), LERTXUNO_STAGE);
    for (uint32_t i = 0; i < BLOCKS; i++) {
        if (i + 1 == BLOCKS)
            swap_board();
        take_block(i);
    }
    report(LERTXUNO_COMPLETE, 0);
    touch_board();
    update();
    if (memcmp(flash, image, sizeof image) != 0 || memcmp(flash + IMAGE_LENGTH, heights, sizeof heights) != 0)
        return 1;
    puts("the flash has the image, and behind it the travel heights as before");
    return 0;
}
