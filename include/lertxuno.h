/* Lertxuno: updates for motor drives. Sender, Intel HEX reader, device, signature verdict and SHA-256 for C.
 *
 * Every function ends, for all inputs. Those that return a number give 0, or the number of the first refusal that applies (enum lertxuno_refusal); after a
 * refusal whatever the function could have written is as it was, but for lertxuno_ihex's *line. lertxuno_digest and lertxuno_fresh refuse nothing: the one
 * returns what it took, the other nothing. Nothing is allocated, kept between calls, read or written but through the arguments, so calls on different memory
 * may run at the same time.
 *
 * The caller's part: a pointer is not null, unless a length of 0 goes with it; it has as many bytes as its length, or its array type, says; and memory that a
 * function writes (out, written, line, length, compressions, state, flash) overlaps no other argument. What firmware must do around the calls is in
 * docs/INTEGRATION.md.
 *
 * The library is for x86-64 Linux, on processors of the level x86-64-v2 (SSE4.2), which it does not test. Of the C library it needs memcpy and memset. Stack
 * of a call there, at most about: 3.6 KB for lertxuno_receive, lertxuno_boot_check and the sender's functions, 4.5 KB for lertxuno_ihex, 2 KB for
 * lertxuno_verify, 1 KB for lertxuno_digest, 100 bytes for the others. The time of lertxuno_ihex grows with its text, which it reads twice. Otherwise time
 * goes into SHA-256 compressions, each over 64 bytes ('What a block costs', below): a signature's verdict takes, on average, about 4,480 (signature type 4,
 * height 5) or 560 (type 3, height 10); it depends on what is signed, and is LERTXUNO_MAX_VERDICT_COST at most over a manifest. The sender's functions take
 * those of the tree over the whole image, lertxuno_path_update about twice as many, and lertxuno_block those of the part that its hashes stand for. Measured
 * time: docs/MEASURED.md; stack and code of each function: docs/INTEGRATION.md.
 *
 * Words: a program is an image, cut into blocks, and its manifest, which is signed. Numbers are big-endian.
 */
#ifndef LERTXUNO_H
#define LERTXUNO_H

#include <stddef.h>
#include <stdint.h>

#ifdef __cplusplus
extern "C" {
#endif

enum lertxuno_refusal {
    LERTXUNO_ACCEPTED = 0,
    LERTXUNO_STATE = 1,     /* the state makes no sense, or holds a program of more than LERTXUNO_MAX_BLOCKS blocks */
    LERTXUNO_KIND = 2,      /* empty message, or its kind is not 1 to 4 */
    LERTXUNO_SHORT = 3,     /* fewer bytes than the kind's least */
    LERTXUNO_VERSION = 4,   /* the manifest's version is not 1 */
    LERTXUNO_SIZE = 5,      /* block length not allowed, image empty, or more than LERTXUNO_MAX_BLOCKS blocks; Intel HEX: length or last address not allowed */
    LERTXUNO_MODEL = 6,     /* the manifest's model is not the device's */
    LERTXUNO_SERIAL = 7,    /* the manifest's serial is not above the device's */
    LERTXUNO_AREA = 8,      /* flash or output buffer too short */
    LERTXUNO_UNSIGNED = 9,  /* the signature is not valid */
    LERTXUNO_STAGE = 10,    /* a block, its length or its cost and not loading; an update of either kind or the boot check and not complete */
    LERTXUNO_TURN = 11,     /* not the next block; for updates and sender: no block of the image */
    LERTXUNO_LENGTH = 12,   /* block: not the length due; update: shorter than its block and hashes need. A longer update is one with a longer signature: 9 */
    LERTXUNO_UNLIKE = 13,   /* the update's block length or image length differs from the complete one's */
    LERTXUNO_MISMATCH = 14, /* the hash worked out differs from the one held or signed */
    LERTXUNO_PATH = 15,     /* path update: the old block with the message's hashes does not lead to the current root */
    LERTXUNO_TEXT = 16,     /* Intel HEX: a broken line, or no end record */
    LERTXUNO_PLACE = 17,    /* Intel HEX: a byte outside the image */
    LERTXUNO_TWICE = 18,    /* Intel HEX: a byte named a second time */
    LERTXUNO_ALTERED = 19,  /* update of kind 3, last block (with it in place), boot check: the tree over the flash lacks the current root */
    LERTXUNO_SPENT = 20     /* block: it costs more compressions than the budget has */
};

/* An answer's word, for logs: "accepted" for 0, and "unknown" for a number that no function returns. */
static inline const char *lertxuno_refusal_word(uint32_t answer) {
    switch (answer) {
    case LERTXUNO_ACCEPTED: return "accepted";
    case LERTXUNO_STATE: return "state";
    case LERTXUNO_KIND: return "kind";
    case LERTXUNO_SHORT: return "short";
    case LERTXUNO_VERSION: return "version";
    case LERTXUNO_SIZE: return "size";
    case LERTXUNO_MODEL: return "model";
    case LERTXUNO_SERIAL: return "serial";
    case LERTXUNO_AREA: return "area";
    case LERTXUNO_UNSIGNED: return "unsigned";
    case LERTXUNO_STAGE: return "stage";
    case LERTXUNO_TURN: return "turn";
    case LERTXUNO_LENGTH: return "length";
    case LERTXUNO_UNLIKE: return "unlike";
    case LERTXUNO_MISMATCH: return "mismatch";
    case LERTXUNO_PATH: return "path";
    case LERTXUNO_TEXT: return "text";
    case LERTXUNO_PLACE: return "place";
    case LERTXUNO_TWICE: return "twice";
    case LERTXUNO_ALTERED: return "altered";
    case LERTXUNO_SPENT: return "spent";
    default: return "unknown";
    }
}

/* Order of the device's refusals, the first that applies: always 1, 2, 3; then new program 4, 5, 6, 7, 8, 9; block 10, 8, 11, 12, 20, 14, and the last
 * block then 19; update 10, 4, 5, 6, 7, 13, 8, 19, 11, 12, 9, 14; path update 10, 4, 5, 6, 7, 13, 8, 11, 12, 9, 15, 14. The boot check's: 1, 10, 8, 19. The
 * sender's: 5, 11, 8. The Intel HEX reader's: 5, 8, then line by line 16, 17, 18. */

/* Sizes. A block has 64, 128, 256, 512 or 1,024 bytes, but for an image's last one, which ends with the image. The flash must have as many bytes as the
 * image; what it has beyond them is the caller's. */
#define LERTXUNO_BLOCKS(image_length, block_length) (((image_length) + (block_length) - 1) / (block_length))

/* A signature's length, from the key's types: chains 67 for signature type 3 and 34 for type 4, height 5, 10, 15, 20, 25 for tree types 5 to 9. */
#define LERTXUNO_SIGNATURE_LENGTH(chains, height) (12 + 32 * ((chains) + 1 + (height)))

/* The most compressions of a verdict over a manifest, from the same two, whatever manifest and signature hold: 8,415 steps of the chains for signature type 4
 * and 990 for type 3, which a digest of 32 zero bytes would take; 2 for what is signed, 18 or 34 for the chains' ends, 1 for the leaf, 2 for each level of the tree.
 * For heights 5 to 25: type 4 8,446, 8,456, 8,466, 8,476, 8,486; type 3 1,037, 1,047, 1,057, 1,067, 1,077. */
#define LERTXUNO_MAX_VERDICT_COST(chains, height) (((chains) == 67 ? 1027 : 8436) + 2 * (height))

enum {
    LERTXUNO_HASH_LENGTH = 32,
    LERTXUNO_KEY_LENGTH = 56,   /* tree type (4), signature type (4), identifier (16), top hash (32): an LMS key, without HSS's four bytes in front */
    LERTXUNO_MAX_BLOCKS = 1536,
    LERTXUNO_MAX_BLOCK_LENGTH = 1024,
    LERTXUNO_MAX_HASHES = 11,   /* the most that a message carries, and the most that a device holds */
    LERTXUNO_MAX_BLOCK_COST = 29199, /* the most that a block message costs: the last of 1,536 blocks of 1,024 bytes; a budget that suffices for every block */
    LERTXUNO_MAX_SIGNATURE_LENGTH = LERTXUNO_SIGNATURE_LENGTH(67, 25)
};

/* Manifest: version (2), block length (2), model (4), serial (4), image length (4), root (32).
 * Messages, by their first byte:
 *   1, new program   kind (1), manifest, signature over it
 *   2, block         kind (1), number from 1 (2), block, hashes (32 each); how many follows from number and block count, 0 to 11
 *   3, update        kind (1), new manifest, number (2), new block, signature over the new manifest
 *   4, path update   kind (1), new manifest, number (2), new block, hashes (32 each), signature over the new manifest; the hashes are the siblings from the
 *                    block's leaf to the root, lowest first, and their number is the leaf's depth, 0 to 11 */
enum lertxuno_kind { LERTXUNO_PROGRAM = 1, LERTXUNO_BLOCK = 2, LERTXUNO_UPDATE = 3, LERTXUNO_PATH_UPDATE = 4 };

/* Room for the sender's output, and the longest message of each kind. */
enum {
    LERTXUNO_MANIFEST_LENGTH = 48,
    LERTXUNO_PROGRAM_HEAD = 1 + LERTXUNO_MANIFEST_LENGTH,    /* and the signature */
    LERTXUNO_BLOCK_HEAD = 3,                                 /* and the block and its hashes */
    LERTXUNO_UPDATE_HEAD = 1 + LERTXUNO_MANIFEST_LENGTH + 2, /* and the block, for a path update its hashes, and the signature */
    LERTXUNO_MAX_PROGRAM_LENGTH = LERTXUNO_PROGRAM_HEAD + LERTXUNO_MAX_SIGNATURE_LENGTH,
    LERTXUNO_MAX_BLOCK_MESSAGE_LENGTH = LERTXUNO_BLOCK_HEAD + LERTXUNO_MAX_BLOCK_LENGTH + LERTXUNO_HASH_LENGTH * LERTXUNO_MAX_HASHES,
    LERTXUNO_MAX_UPDATE_LENGTH = LERTXUNO_UPDATE_HEAD + LERTXUNO_MAX_BLOCK_LENGTH + LERTXUNO_MAX_SIGNATURE_LENGTH,
    LERTXUNO_MAX_PATH_UPDATE_LENGTH = LERTXUNO_MAX_UPDATE_LENGTH + LERTXUNO_HASH_LENGTH * LERTXUNO_MAX_HASHES
};

/* SHA-256 (FIPS 180-4) of the message. Returns how many compressions it took: the length plus 9, over 64, rounded up. */
size_t lertxuno_digest(const uint8_t *message, size_t message_length, uint8_t out[LERTXUNO_HASH_LENGTH]);

/* RFC 8554: 0 if this is a valid LMS signature over the message under the key, else LERTXUNO_UNSIGNED. Keys of LM-OTS type 3 or 4 and LMS type 5 to 9. */
uint32_t lertxuno_verify(const uint8_t *key, size_t key_length, const uint8_t *message, size_t message_length,
                         const uint8_t *signature, size_t signature_length);

/* The sender. Each function writes its bytes to the start of out, which has room for `room` bytes, and their number to *written; bytes behind them stay.
 * It refuses LERTXUNO_SIZE, LERTXUNO_TURN, LERTXUNO_AREA, in this order; out and *written are then as before. Block numbers count from 1. A signature is
 * copied, not checked, and serial 0, which no device takes, is written like any other. */

/* The manifest alone, for signing: LERTXUNO_MANIFEST_LENGTH bytes. */
uint32_t lertxuno_manifest(const uint8_t *image, size_t image_length, uint32_t block_length, uint32_t model, uint32_t serial,
                           uint8_t *out, size_t room, size_t *written);

/* Kind 1, new program: the manifest and the signature over it. */
uint32_t lertxuno_program(const uint8_t *image, size_t image_length, uint32_t block_length, uint32_t model, uint32_t serial,
                          const uint8_t *signature, size_t signature_length, uint8_t *out, size_t room, size_t *written);

/* Kind 2: one block. */
uint32_t lertxuno_block(const uint8_t *image, size_t image_length, uint32_t block_length, uint32_t number,
                        uint8_t *out, size_t room, size_t *written);

/* Kind 3, update to this image, which differs from the complete one in this block at most; the signature is over this image's manifest. */
uint32_t lertxuno_update(const uint8_t *image, size_t image_length, uint32_t block_length, uint32_t model, uint32_t serial, uint32_t number,
                         const uint8_t *signature, size_t signature_length, uint8_t *out, size_t room, size_t *written);

/* Kind 4, path update: the same update with the hashes beside the block's way to the root, so that the device's answer depends on that block of its flash and
 * on no other. */
uint32_t lertxuno_path_update(const uint8_t *image, size_t image_length, uint32_t block_length, uint32_t model, uint32_t serial, uint32_t number,
                              const uint8_t *signature, size_t signature_length, uint8_t *out, size_t room, size_t *written);

/* Intel HEX: the image of `length` bytes that a text denotes, its first byte at address base. Accepted: the image is at the start of out, which has room for
 * `room` bytes; bytes behind it stay. A byte that the text does not name is 0xFF.
 *
 * A line is ':', then pairs of digits, in either case, for count (1 byte), address (2), type (1), data (count bytes) and checksum (1), which sum to 0 modulo
 * 256, then LF or CR LF, the last line too. Type 00 has data, which may be none and then names no byte; 01, without data, is the end record, and nothing
 * stands behind its line; 04, with two bytes, is the upper half of the addresses to come, 0 before any. The address field of 01 and 04 is not looked at. Any
 * other type is a broken line, and so are an empty line, blanks, and whatever stands behind the end record's line. A byte's address is the upper half times
 * 65,536, plus the record's address, plus the byte's position, modulo 2 to the power 32; so no wrap at 64 KiB.
 *
 * Refused, before any line: LERTXUNO_SIZE for a length outside 1 to LERTXUNO_MAX_IHEX_LENGTH or a last byte above address 4,294,967,295, LERTXUNO_AREA for
 * too little room. Then the earliest line at fault, and of that the first that applies: LERTXUNO_TEXT, LERTXUNO_PLACE, LERTXUNO_TWICE; *line is its number,
 * from 1. A missing end record is LERTXUNO_TEXT at the line after the last. In all other cases *line is 0. */
enum { LERTXUNO_MAX_IHEX_LENGTH = 32768 };

uint32_t lertxuno_ihex(const uint8_t *text, size_t text_length, uint32_t base, size_t length, uint8_t *out, size_t room, size_t *line);

/* The device. Its whole state is LERTXUNO_STATE_LENGTH bytes, which the caller keeps, across power loss too (docs/INTEGRATION.md: in which order state and
 * flash are made durable). The bytes of a state are those between an offset below and the next. */
enum {
    LERTXUNO_STATE_MODEL = 0,
    LERTXUNO_STATE_KEY = 4,
    LERTXUNO_STATE_STAGE = LERTXUNO_STATE_KEY + LERTXUNO_KEY_LENGTH,         /* 2 bytes, enum lertxuno_stage */
    LERTXUNO_STATE_NEXT = LERTXUNO_STATE_STAGE + 2,                          /* 2 bytes, next block while loading, from 1; else written as 0, means nothing */
    LERTXUNO_STATE_MANIFEST = LERTXUNO_STATE_NEXT + 2,                       /* means nothing while idle */
    LERTXUNO_STATE_HASHES = LERTXUNO_STATE_MANIFEST + LERTXUNO_MANIFEST_LENGTH, /* the held hashes, at the end and in block order; how many follows from
                                                                                manifest and next number. What stands before them means nothing: a new
                                                                                program zeroes it, later messages leave in it what they find. */
    LERTXUNO_STATE_LENGTH = LERTXUNO_STATE_HASHES + LERTXUNO_HASH_LENGTH * LERTXUNO_MAX_HASHES /* a stored state that is longer: docs/INTEGRATION.md,
                                                                                                  'The stored state' */
};

enum lertxuno_stage { LERTXUNO_IDLE = 0, LERTXUNO_LOADING = 1, LERTXUNO_COMPLETE = 2 };

/* Makes the state of a fresh device: idle, with this model and key. */
void lertxuno_fresh(uint32_t model, const uint8_t key[LERTXUNO_KEY_LENGTH], uint8_t state[LERTXUNO_STATE_LENGTH]);

/* What a block costs, in SHA-256 compressions. A digest takes its length plus 9, over 64, rounded up: 2, 3, 5, 9, 17 for a whole block of 64, 128, 256, 512,
 * 1,024 bytes, 2 for two hashes. A block message costs its comparison: the block's digest, by the bytes that the block has, and 2 for each hash that it
 * carries. The last block costs the tree over the whole image besides: each block's digest, its own a second time, and 2 for each of the n - 1 inner nodes.
 * With blocks of 256 bytes and n = 8, message 1 costs 11, message 2 costs 5, message 8 costs 59; an image of one byte costs 2.
 *
 * A budget goes with each message, and only a block looks at it: LERTXUNO_SPENT exactly if the block costs more; a budget of just the cost suffices.
 * lertxuno_block_cost tells beforehand which does.
 *
 * Of all block messages before the last the first one costs most. The program wake prints up to how many blocks the messages before the last fit a given
 * number of compressions (docs/SHOWROOM.md).
 *
 * No budget covers the rest: a signature's verdict (new program, update, path update), whose compressions depend on what is signed, at most
 * LERTXUNO_MAX_VERDICT_COST; beside the verdict, for an update the tree over the whole image twice, and for a path update the digests of the old block and of
 * the new one and 4 for each hash; and the boot check, the tree over the whole image once. */

/* Hands a whole message to the device. Accepted: state and flash are those after it, and *compressions is what an accepted block cost, or 0 for the other
 * kinds; the pointer is not null, whatever the kind. Refused: all three are as before. Bytes that encode no state (another length, another stage than 0, 1, 2)
 * are refused with LERTXUNO_STATE. Every byte of the flash from the manifest's image length on is as before, the manifest being that of the state after the
 * call. The contract compares memory before and after the call; that nothing is written before the last test has passed follows from the types: the functions
 * that judge are handed flash and hashes read-only. Writes are plain stores: memory that needs programming commands needs a copy in RAM, programmed from that
 * after the call; what is judged is then that copy (docs/INTEGRATION.md, 'One message'). An update needs such a copy in any case, if a power cut is not to
 * lose the program (there, 'Power loss'). */
uint32_t lertxuno_receive(uint8_t *state, size_t state_length, uint8_t *flash, size_t flash_length, const uint8_t *message, size_t message_length,
                          uint32_t budget, uint32_t *compressions);

/* What a state holds, as numbers, by their place in the array that lertxuno_status writes. */
enum {
    LERTXUNO_STATUS_STAGE = 0,        /* enum lertxuno_stage */
    LERTXUNO_STATUS_NEXT = 1,         /* the next block while loading, from 1; else 0 */
    LERTXUNO_STATUS_BLOCKS = 2,       /* the program's blocks; 0 while idle, as are the last three */
    LERTXUNO_STATUS_MODEL = 3,
    LERTXUNO_STATUS_SERIAL = 4,       /* a new manifest's must be above it */
    LERTXUNO_STATUS_IMAGE_LENGTH = 5,
    LERTXUNO_STATUS_BLOCK_LENGTH = 6,
    LERTXUNO_STATUS_NUMBERS = 7       /* how many there are */
};

/* Reads a state, which stays as it is. LERTXUNO_STATE for one that makes no sense, as lertxuno_receive would refuse it; out is then as before. */
uint32_t lertxuno_status(const uint8_t *state, size_t state_length, uint32_t out[LERTXUNO_STATUS_NUMBERS]);

/* Writes to *length how many bytes the next block message has. LERTXUNO_STATE as above, LERTXUNO_STAGE where the device is not loading; *length is then as
 * before. */
uint32_t lertxuno_block_message_length(const uint8_t *state, size_t state_length, size_t *length);

/* Writes to *compressions what the next block costs: the least budget that suffices for it, and what lertxuno_receive reports once it is accepted. It follows
 * from the state alone, before the block is there. LERTXUNO_STATE and LERTXUNO_STAGE as for its length; *compressions is then as before. */
uint32_t lertxuno_block_cost(const uint8_t *state, size_t state_length, uint32_t *compressions);

/* The boot check: 0 where the device is complete and the tree over its flash has the root of its manifest, whoever wrote the flash. Else the first that
 * applies of LERTXUNO_STATE as above, LERTXUNO_STAGE where the device is not complete, LERTXUNO_AREA where the flash is shorter than the image, and
 * LERTXUNO_ALTERED. State and flash are only read. What 0 proves, and when to call this: docs/INTEGRATION.md. */
uint32_t lertxuno_boot_check(const uint8_t *state, size_t state_length, const uint8_t *flash, size_t flash_length);

#ifdef __cplusplus
}
#endif

#endif
