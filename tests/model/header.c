/* What the header types by hand, against what the library does: words, limits, lengths, the places of a state's fields, and null pointers to no bytes. */
#include "../../examples/sample.h"
#include "lertxuno.h"
#include <stdio.h>
#include <string.h>

/* Of the program that the sample's signature is over, and of the sample's key. LAST is the last block's length. */
enum { IMAGE_LENGTH = 300, BLOCK_LENGTH = 64, BLOCKS = 5, LAST = 44, MODEL = 7, SERIAL = 1, CHAINS = 34, HEIGHT = 5 };

/* The longest, and a byte more. */
static uint8_t image[LERTXUNO_MAX_BLOCKS * LERTXUNO_MAX_BLOCK_LENGTH + 1];
static const size_t longest = sizeof image - 1;
/* Behind the image a byte of the caller's. */
enum { BEHIND = 0x5A };
static uint8_t flash[IMAGE_LENGTH + 1];
/* For an image of the most blocks. */
static uint8_t large_flash[LERTXUNO_MAX_BLOCKS * BLOCK_LENGTH];
static uint8_t signature[LERTXUNO_MAX_SIGNATURE_LENGTH];
/* Ample, so that a length that the header has too short is told and not overrun. */
static uint8_t state[4096], out[8192];
static uint32_t status[16], compressions;
static size_t written;
static int wrong;

static void expect_true(const char *what, int holds) {
    if (!holds) {
        printf("wrong: %s\n", what);
        wrong = 1;
    }
}

static void expect(const char *what, size_t got, size_t due) {
    if (got != due) {
        printf("wrong: %s: %lu, not %lu\n", what, (unsigned long)got, (unsigned long)due);
        wrong = 1;
    }
}

/* Document 01's table with the changes' refusals, and what stands for a number behind it. */
static void words(void) {
    static const char *const due[] = {"accepted", "state", "kind", "short", "version", "size", "model", "serial",
                                      "area", "unsigned", "stage", "turn", "length", "unlike", "mismatch", "path", "text", "place", "twice",
                                      "altered", "spent", "unknown"};
    for (uint32_t answer = 0; answer < sizeof due / sizeof *due; answer++) {
        if (strcmp(lertxuno_refusal_word(answer), due[answer]) != 0) {
            printf("wrong: word of answer %u: %s\n", (unsigned)answer, lertxuno_refusal_word(answer));
            wrong = 1;
        }
    }
}

static uint32_t manifest(size_t image_length, uint32_t block_length) {
    return lertxuno_manifest(image, image_length, block_length, MODEL, SERIAL, out, sizeof out, &written);
}

/* The papers' numbers, and those that follow from them. */
static void numbers(void) {
    expect("most blocks", LERTXUNO_MAX_BLOCKS, 1536);
    expect("most hashes", LERTXUNO_MAX_HASHES, 11);
    expect("longest image", longest, 1572864);
    expect("longest signature", LERTXUNO_MAX_SIGNATURE_LENGTH, 2988);
    expect("longest new program", LERTXUNO_MAX_PROGRAM_LENGTH, 3037);
    expect("longest block message", LERTXUNO_MAX_BLOCK_MESSAGE_LENGTH, 1379);
    expect("longest update", LERTXUNO_MAX_UPDATE_LENGTH, 4063);
    expect("longest path update", LERTXUNO_MAX_PATH_UPDATE_LENGTH, 4415);
    expect("most compressions of a block", LERTXUNO_MAX_BLOCK_COST, 29199);
    expect("state's hashes", LERTXUNO_STATE_HASHES, 112);
    expect("state's length", LERTXUNO_STATE_LENGTH, 464);
}

/* By RFC 8554's types, and by height. */
static void verdict_costs(void) {
    static const size_t type_4[] = {8446, 8456, 8466, 8476, 8486}, type_3[] = {1037, 1047, 1057, 1067, 1077};
    for (size_t i = 0; i < 5; i++) {
        const size_t height = 5 * (i + 1);
        expect("most compressions of a verdict, type 4", LERTXUNO_MAX_VERDICT_COST(34, height), type_4[i]);
        expect("most compressions of a verdict, type 3", LERTXUNO_MAX_VERDICT_COST(67, height), type_3[i]);
    }
}

static void limits(void) {
    size_t most = (size_t)LERTXUNO_MAX_BLOCKS * BLOCK_LENGTH;
    expect("most blocks", manifest(most, BLOCK_LENGTH), LERTXUNO_ACCEPTED);
    expect("manifest's length", written, LERTXUNO_MANIFEST_LENGTH);
    expect("most blocks and a byte", manifest(most + 1, BLOCK_LENGTH), LERTXUNO_SIZE);
    expect("longest image", manifest(longest, LERTXUNO_MAX_BLOCK_LENGTH), LERTXUNO_ACCEPTED);
    expect("longest image and a byte", manifest(longest + 1, LERTXUNO_MAX_BLOCK_LENGTH), LERTXUNO_SIZE);
    expect("twice the longest block", manifest(IMAGE_LENGTH, 2 * LERTXUNO_MAX_BLOCK_LENGTH), LERTXUNO_SIZE);
}

/* The message that the sender has just written. */
static void expect_message(const char *what, uint32_t answer, size_t kind, size_t length) {
    expect(what, answer, LERTXUNO_ACCEPTED);
    expect(what, out[0], kind);
    expect(what, written, length);
}

static void longest_messages(void) {
    const uint32_t most = LERTXUNO_MAX_BLOCK_LENGTH;
    uint32_t answer = lertxuno_program(image, longest, most, MODEL, SERIAL, signature, sizeof signature, out, sizeof out, &written);
    expect_message("longest new program", answer, LERTXUNO_PROGRAM, LERTXUNO_MAX_PROGRAM_LENGTH);
    answer = lertxuno_block(image, longest, most, 1, out, sizeof out, &written);
    expect_message("longest block message", answer, LERTXUNO_BLOCK, LERTXUNO_MAX_BLOCK_MESSAGE_LENGTH);
    answer = lertxuno_update(image, longest, most, MODEL, SERIAL, 1, signature, sizeof signature, out, sizeof out, &written);
    expect_message("longest update", answer, LERTXUNO_UPDATE, LERTXUNO_MAX_UPDATE_LENGTH);
    answer = lertxuno_path_update(image, longest, most, MODEL, SERIAL, 1, signature, sizeof signature, out, sizeof out, &written);
    expect_message("longest path update", answer, LERTXUNO_PATH_UPDATE, LERTXUNO_MAX_PATH_UPDATE_LENGTH);
}

/* An image a byte longer than a block: its second block has that byte alone. */
static void one_byte(void) {
    expect("block of one byte, a byte too little room", lertxuno_block(image, 257, 256, 2, out, LERTXUNO_BLOCK_HEAD, &written), LERTXUNO_AREA);
    uint32_t answer = lertxuno_block(image, 257, 256, 2, out, LERTXUNO_BLOCK_HEAD + 1, &written);
    expect_message("block of one byte", answer, LERTXUNO_BLOCK, LERTXUNO_BLOCK_HEAD + 1);
}

static uint32_t ihex(const char *text, uint32_t base, size_t length, size_t room, size_t *line) {
    return lertxuno_ihex((const uint8_t *)text, strlen(text), base, length, out, room, line);
}

/* A text and length, at address 65,535. */
static void expect_ihex(const char *what, const char *text, size_t length, uint32_t due, size_t due_line) {
    size_t line = SIZE_MAX;
    expect(what, ihex(text, 65535, length, sizeof out, &line), due);
    expect(what, line, due_line);
}

/* The Intel HEX reader. The image has two bytes of one record, on either side of 64 KiB, and one that no record names. */
static void intel_hex(void) {
    static const char end[] = ":00000001FF\n", text[] = ":02FFFF000102fd\r\n:00000001FF\n";
    size_t line = SIZE_MAX;
    memset(out, BEHIND, sizeof out);
    expect_ihex("no end", "", 3, LERTXUNO_TEXT, 1);
    expect_ihex("no end behind a line", ":02FFFF000102FD\n", 3, LERTXUNO_TEXT, 2);
    expect_ihex("a line without LF", ":00000001FF", 3, LERTXUNO_TEXT, 1);
    expect_ihex("a byte outside", text, 1, LERTXUNO_PLACE, 1);
    expect_ihex("a byte twice", ":02FFFF000102FD\n:02FFFF000102FD\n:00000001FF\n", 3, LERTXUNO_TWICE, 2);
    expect_ihex("no byte", end, 0, LERTXUNO_SIZE, 0);
    expect_ihex("longest image and a byte", end, LERTXUNO_MAX_IHEX_LENGTH + 1, LERTXUNO_SIZE, 0);
    expect("last byte above all addresses", ihex(end, UINT32_MAX, 2, sizeof out, &line), LERTXUNO_SIZE);
    expect("a byte too little room", ihex(end, 0, 3, 2, &line), LERTXUNO_AREA);
    expect("what is refused", out[0], BEHIND);
    expect_ihex("a text", text, 3, LERTXUNO_ACCEPTED, 0);
    expect_true("its image", memcmp(out, "\x01\x02\xFF", 3) == 0);
    expect("the byte behind its image", out[3], BEHIND);
    expect("longest image", lertxuno_ihex((const uint8_t *)end, strlen(end), 0, LERTXUNO_MAX_IHEX_LENGTH, image, sizeof image, &line), LERTXUNO_ACCEPTED);
}

static void state_length(void) {
    memset(status, 0xFF, sizeof status);
    lertxuno_fresh(MODEL, sample_key, state);
    expect("status of a fresh state", lertxuno_status(state, LERTXUNO_STATE_LENGTH, status), LERTXUNO_ACCEPTED);
    expect("stage of a fresh state", status[LERTXUNO_STATUS_STAGE], LERTXUNO_IDLE);
    expect("last number of its status", status[LERTXUNO_STATUS_NUMBERS - 1], 0);
    expect("what stands behind it", status[LERTXUNO_STATUS_NUMBERS], UINT32_MAX);
    expect("status of a byte less", lertxuno_status(state, LERTXUNO_STATE_LENGTH - 1, status), LERTXUNO_STATE);
    expect("status of a byte more", lertxuno_status(state, LERTXUNO_STATE_LENGTH + 1, status), LERTXUNO_STATE);
}

/* The state of a device that waits for this block of an image, but for the hashes that it holds; the manifest stands in out too. */
static void loading(size_t image_length, uint32_t block_length, uint32_t number) {
    lertxuno_fresh(MODEL, sample_key, state);
    manifest(image_length, block_length);
    state[LERTXUNO_STATE_STAGE + 1] = LERTXUNO_LOADING;
    state[LERTXUNO_STATE_NEXT] = (uint8_t)(number >> 8);
    state[LERTXUNO_STATE_NEXT + 1] = (uint8_t)number;
    memcpy(state + LERTXUNO_STATE_MANIFEST, out, LERTXUNO_MANIFEST_LENGTH);
}

/* The block that costs most: the last one of the longest image. */
static void most_cost(void) {
    loading(longest, LERTXUNO_MAX_BLOCK_LENGTH, LERTXUNO_MAX_BLOCKS);
    expect("cost of the last block of the longest image", lertxuno_block_cost(state, LERTXUNO_STATE_LENGTH, &compressions), LERTXUNO_ACCEPTED);
    expect("cost of the last block of the longest image", compressions, LERTXUNO_MAX_BLOCK_COST);
}

/* A device that is loading an image of the most blocks: after block 1 the hashes of that message fill all the room that its state has for them. The block
 * takes two compressions, and two for each of these. */
static void most_hashes(void) {
    const size_t most = sizeof large_flash, hashes = LERTXUNO_MAX_HASHES * LERTXUNO_HASH_LENGTH, carried = LERTXUNO_BLOCK_HEAD + BLOCK_LENGTH;
    image[most - 1] = 1; /* else two of the hashes would be equal */
    loading(most, BLOCK_LENGTH, 1);
    memcpy(state + LERTXUNO_STATE_LENGTH - LERTXUNO_HASH_LENGTH, out + LERTXUNO_MANIFEST_LENGTH - LERTXUNO_HASH_LENGTH, LERTXUNO_HASH_LENGTH);
    lertxuno_block(image, most, BLOCK_LENGTH, 1, out, sizeof out, &written);
    expect("hashes of block 1 of the most", written, carried + hashes);
    expect("block 1 of the most", lertxuno_receive(state, LERTXUNO_STATE_LENGTH, large_flash, most, out, written, UINT32_MAX, &compressions),
           LERTXUNO_ACCEPTED);
    expect("cost of block 1 of the most", compressions, 2 + 2 * LERTXUNO_MAX_HASHES);
    expect_true("hashes held after it", memcmp(state + LERTXUNO_STATE_HASHES, out + carried, hashes) == 0);
}

/* A field of the state, at its offset and in the status. */
static void expect_field(const char *what, size_t offset, size_t length, uint32_t in_status, size_t due) {
    size_t in_state = 0;
    for (size_t i = 0; i < length; i++)
        in_state = in_state << 8 | state[offset + i];
    expect(what, in_state, due);
    expect(what, in_status, due);
}

static void fields(size_t stage, size_t next, size_t serial) {
    expect("status", lertxuno_status(state, LERTXUNO_STATE_LENGTH, status), LERTXUNO_ACCEPTED);
    expect_field("model", LERTXUNO_STATE_MODEL, 4, status[LERTXUNO_STATUS_MODEL], MODEL);
    expect_true("key", memcmp(state + LERTXUNO_STATE_KEY, sample_key, sizeof sample_key) == 0);
    expect_field("stage", LERTXUNO_STATE_STAGE, 2, status[LERTXUNO_STATUS_STAGE], stage);
    expect_field("next number", LERTXUNO_STATE_NEXT, 2, status[LERTXUNO_STATUS_NEXT], next);
    expect("block count", status[LERTXUNO_STATUS_BLOCKS], BLOCKS);
    expect_field("block length", LERTXUNO_STATE_MANIFEST + 2, 2, status[LERTXUNO_STATUS_BLOCK_LENGTH], BLOCK_LENGTH);
    expect_field("serial", LERTXUNO_STATE_MANIFEST + 8, 4, status[LERTXUNO_STATUS_SERIAL], serial);
    expect_field("image length", LERTXUNO_STATE_MANIFEST + 12, 4, status[LERTXUNO_STATUS_IMAGE_LENGTH], IMAGE_LENGTH);
}

/* A call with a null pointer and length 0 for each array of its arguments in turn: what is copied may be empty, all else is refused. */
static void null_readers(void) {
    const uint8_t empty[] = {0xe3, 0xb0, 0xc4, 0x42, 0x98, 0xfc, 0x1c, 0x14, 0x9a, 0xfb, 0xf4, 0xc8, 0x99, 0x6f, 0xb9, 0x24,
                             0x27, 0xae, 0x41, 0xe4, 0x64, 0x9b, 0x93, 0x4c, 0xa4, 0x95, 0x99, 0x1b, 0x78, 0x52, 0xb8, 0x55};
    size_t due, line;
    expect("compressions of null", lertxuno_digest(NULL, 0, out), 1);
    expect_true("digest of null", memcmp(out, empty, sizeof empty) == 0);
    expect("null key", lertxuno_verify(NULL, 0, out, 48, sample_signature, sizeof sample_signature), LERTXUNO_UNSIGNED);
    expect("null message", lertxuno_verify(sample_key, sizeof sample_key, NULL, 0, sample_signature, sizeof sample_signature), LERTXUNO_UNSIGNED);
    expect("null signature", lertxuno_verify(sample_key, sizeof sample_key, out, 48, NULL, 0), LERTXUNO_UNSIGNED);
    expect("null text", lertxuno_ihex(NULL, 0, 0, 1, out, sizeof out, &line), LERTXUNO_TEXT);
    expect("line of a null text", line, 1);
    expect("text into null", lertxuno_ihex((const uint8_t *)"", 0, 0, 1, NULL, 0, &line), LERTXUNO_AREA);
    expect("status of null", lertxuno_status(NULL, 0, status), LERTXUNO_STATE);
    expect("length due by null", lertxuno_block_message_length(NULL, 0, &due), LERTXUNO_STATE);
    expect("cost due by null", lertxuno_block_cost(NULL, 0, &compressions), LERTXUNO_STATE);
}

typedef uint32_t sender_update(const uint8_t *, size_t, uint32_t, uint32_t, uint32_t, uint32_t, const uint8_t *, size_t, uint8_t *, size_t, size_t *);

static void null_update(sender_update *sender, size_t kind, size_t length) {
    expect("update, null image", sender(NULL, 0, 256, MODEL, SERIAL, 1, signature, 1, out, sizeof out, &written), LERTXUNO_SIZE);
    expect("update into null", sender(image, 257, 256, MODEL, SERIAL, 2, signature, 1, NULL, 0, &written), LERTXUNO_AREA);
    uint32_t answer = sender(image, 257, 256, MODEL, SERIAL, 2, NULL, 0, out, sizeof out, &written);
    expect_message("update, null signature", answer, kind, length);
}

static void null_sender(void) {
    expect("manifest, null image", lertxuno_manifest(NULL, 0, 256, MODEL, SERIAL, out, sizeof out, &written), LERTXUNO_SIZE);
    expect("manifest into null", lertxuno_manifest(image, 257, 256, MODEL, SERIAL, NULL, 0, &written), LERTXUNO_AREA);
    expect("program, null image", lertxuno_program(NULL, 0, 256, MODEL, SERIAL, signature, 1, out, sizeof out, &written), LERTXUNO_SIZE);
    expect("program into null", lertxuno_program(image, 257, 256, MODEL, SERIAL, signature, 1, NULL, 0, &written), LERTXUNO_AREA);
    uint32_t answer = lertxuno_program(image, 257, 256, MODEL, SERIAL, NULL, 0, out, sizeof out, &written);
    expect_message("program, null signature", answer, LERTXUNO_PROGRAM, LERTXUNO_PROGRAM_HEAD);
    expect("block, null image", lertxuno_block(NULL, 0, 256, 1, out, sizeof out, &written), LERTXUNO_SIZE);
    expect("block into null", lertxuno_block(image, 257, 256, 2, NULL, 0, &written), LERTXUNO_AREA);
    null_update(lertxuno_update, LERTXUNO_UPDATE, LERTXUNO_UPDATE_HEAD + 1);
    null_update(lertxuno_path_update, LERTXUNO_PATH_UPDATE, LERTXUNO_UPDATE_HEAD + 1 + LERTXUNO_HASH_LENGTH);
}

/* The same for the device, with the message that the sender has just written: no byte of a flash is too few, and no byte is no message. */
static void null_device(void) {
    expect("null flash", lertxuno_receive(state, LERTXUNO_STATE_LENGTH, NULL, 0, out, written, UINT32_MAX, &compressions), LERTXUNO_AREA);
    expect("null message", lertxuno_receive(state, LERTXUNO_STATE_LENGTH, flash, sizeof flash, NULL, 0, UINT32_MAX, &compressions), LERTXUNO_KIND);
    expect("null state", lertxuno_receive(NULL, 0, flash, sizeof flash, out, written, UINT32_MAX, &compressions), LERTXUNO_STATE);
    expect("boot check, null state", lertxuno_boot_check(NULL, 0, flash, sizeof flash), LERTXUNO_STATE);
}

static uint32_t receive_within(uint32_t budget, size_t flash_length) {
    return lertxuno_receive(state, LERTXUNO_STATE_LENGTH, flash, flash_length, out, written, budget, &compressions);
}

static uint32_t receive(size_t flash_length) { return receive_within(UINT32_MAX, flash_length); }

static uint32_t boot_check(size_t flash_length) {
    return lertxuno_boot_check(state, LERTXUNO_STATE_LENGTH, flash, flash_length);
}

/* The message that the sender has just written: refused for a flash of a byte less than the image or of none, and a block for a budget of one less; then
 * taken. It reports its cost, 0 where it is no block. */
static void taken(const char *what, uint32_t cost, size_t flash_length) {
    compressions = UINT32_MAX;
    null_device();
    expect(what, receive(IMAGE_LENGTH - 1), LERTXUNO_AREA);
    if (cost != 0)
        expect(what, receive_within(cost - 1, flash_length), LERTXUNO_SPENT);
    expect("compressions of what is refused", compressions, UINT32_MAX);
    expect(what, receive_within(cost, flash_length), LERTXUNO_ACCEPTED);
    expect("compressions", compressions, cost);
}

static void expect_flash(void) {
    expect_true("flash, the image", memcmp(flash, image, IMAGE_LENGTH) == 0);
    expect("flash, the byte behind the image", flash[IMAGE_LENGTH], BEHIND);
}

/* The message that the sender has just written: refused while another byte stands first in the
 * flash. */
static void altered(const char *what, size_t flash_length) {
    flash[0] ^= 1;
    expect(what, receive(flash_length), LERTXUNO_ALTERED);
    flash[0] ^= 1;
}

/* The boot check of a complete device. */
static void booted(size_t flash_length) {
    expect("boot check", boot_check(flash_length), LERTXUNO_ACCEPTED);
    expect("boot check, a byte too little flash", boot_check(IMAGE_LENGTH - 1), LERTXUNO_AREA);
    expect("boot check, null flash", lertxuno_boot_check(state, LERTXUNO_STATE_LENGTH, NULL, 0), LERTXUNO_AREA);
    expect("boot check, a state of a byte less",
           lertxuno_boot_check(state, LERTXUNO_STATE_LENGTH - 1, flash, flash_length), LERTXUNO_STATE);
    flash[0] ^= 1;
    expect("boot check, altered", boot_check(flash_length), LERTXUNO_ALTERED);
    flash[0] ^= 1;
}

/* A whole block takes two compressions, and so does each hash; the last one, which is shorter, takes one, and one more in the tree. */
static const uint32_t costs[BLOCKS] = {2 + 3 * 2, 2, 2 + 2, 2, 1 + 4 * 2 + 1 + 4 * 2};

static void block(uint32_t number, size_t flash_length) {
    size_t due = 0;
    lertxuno_block(image, IMAGE_LENGTH, BLOCK_LENGTH, number, out, sizeof out, &written);
    expect_true("block's place in its message", out[LERTXUNO_BLOCK_HEAD] == image[(number - 1) * BLOCK_LENGTH]);
    expect("length due", lertxuno_block_message_length(state, LERTXUNO_STATE_LENGTH, &due), LERTXUNO_ACCEPTED);
    expect("length due", due, written);
    expect("cost due", lertxuno_block_cost(state, LERTXUNO_STATE_LENGTH, &compressions), LERTXUNO_ACCEPTED);
    expect("cost due", compressions, costs[number - 1]);
    expect("boot check while loading", boot_check(flash_length), LERTXUNO_STAGE);
    if (number == BLOCKS)
        altered("last block over an altered flash", flash_length);
    taken("block", costs[number - 1], flash_length);
}

/* The sample's program, from a fresh device to a complete one. */
static void download(size_t flash_length) {
    for (size_t i = 0; i < IMAGE_LENGTH; i++)
        image[i] = (uint8_t)(7 * i + 3);
    memset(flash, BEHIND, sizeof flash);
    lertxuno_fresh(MODEL, sample_key, state);
    lertxuno_program(image, IMAGE_LENGTH, BLOCK_LENGTH, MODEL, SERIAL, sample_signature, sizeof sample_signature, out, sizeof out, &written);
    expect("cost due while idle", lertxuno_block_cost(state, LERTXUNO_STATE_LENGTH, &compressions), LERTXUNO_STAGE);
    taken("new program", 0, flash_length);
    fields(LERTXUNO_LOADING, 1, SERIAL);
    /* The only hash held is the root, the manifest's last field. */
    expect_true("held root", memcmp(state + LERTXUNO_STATE_LENGTH - LERTXUNO_HASH_LENGTH, state + LERTXUNO_STATE_HASHES - LERTXUNO_HASH_LENGTH,
                                    LERTXUNO_HASH_LENGTH) == 0);
    for (uint32_t number = 1; number <= BLOCKS; number++)
        block(number, flash_length);
    expect("last block's message", written, LERTXUNO_BLOCK_HEAD + LAST);
    fields(LERTXUNO_COMPLETE, 0, SERIAL);
    expect_flash();
    booted(flash_length);
}

/* The sample's update, of the last block; `hashes` are those that its message has. */
static void update(sender_update *sender, size_t hashes, size_t flash_length) {
    const size_t least = LERTXUNO_UPDATE_HEAD + LAST + hashes * LERTXUNO_HASH_LENGTH;
    image[IMAGE_LENGTH - 1] ^= 1;
    sender(image, IMAGE_LENGTH, BLOCK_LENGTH, MODEL, SERIAL + 1, BLOCKS, sample_update_signature, sizeof sample_update_signature, out, sizeof out, &written);
    expect("update's length", written, least + sizeof sample_update_signature);
    written = least - 1;
    expect("update without its last hash or byte", receive(flash_length), LERTXUNO_LENGTH);
    written = least;
    expect("update without signature", receive(flash_length), LERTXUNO_UNSIGNED);
    written = least + sizeof sample_update_signature;
    if (sender == lertxuno_update)
        altered("update of an altered flash", flash_length);
    taken("update", 0, flash_length);
    fields(LERTXUNO_COMPLETE, 0, SERIAL + 1);
    expect_flash();
    booted(flash_length);
}

int main(void) {
    words();
    numbers();
    verdict_costs();
    limits();
    longest_messages();
    one_byte();
    intel_hex();
    state_length();
    most_cost();
    most_hashes();
    null_readers();
    null_sender();
    expect("key's length", LERTXUNO_KEY_LENGTH, sizeof sample_key);
    expect("signature's length", LERTXUNO_SIGNATURE_LENGTH(CHAINS, HEIGHT), sizeof sample_signature);
    expect("image's blocks", LERTXUNO_BLOCKS(IMAGE_LENGTH, BLOCK_LENGTH), BLOCKS);
    download(IMAGE_LENGTH);
    update(lertxuno_update, 0, IMAGE_LENGTH);
    download(sizeof flash);
    update(lertxuno_path_update, 1, sizeof flash);
    return wrong;
}
