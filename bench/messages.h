/* The messages of a download, and of an update of one block after it, of either kind: made by the sender's functions, signed under a key for measuring. */
#ifndef MESSAGES_H
#define MESSAGES_H
#include "key.h"

enum { MODEL = 7, OLD_SERIAL = 1, NEW_SERIAL = 2, LONGEST_IMAGE = LERTXUNO_MAX_BLOCKS * LERTXUNO_MAX_BLOCK_LENGTH };

typedef struct {
    const uint8_t *bytes;
    size_t length;
} message;

/* lertxuno_update or lertxuno_path_update. */
typedef typeof(lertxuno_update) update_function;

typedef struct {
    uint8_t image[LONGEST_IMAGE];
    size_t length;
    uint32_t block_length, n, updated; /* the last: the number of the block that an update changes */
    key_pair key;
    message program, blocks[LERTXUNO_MAX_BLOCKS], update, path_update;
    /* The bytes of all messages, one behind the other. */
    uint8_t room[2 * LONGEST_IMAGE];
    size_t used;
} messages;

/* For an image of so many bytes. */
void make_messages(size_t length, uint32_t block_length, messages *m);
#endif
