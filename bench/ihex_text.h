/* Intel HEX text as objcopy writes it: large digits, the upper half of the addresses first. The image is below the next 64 KiB. */
#ifndef IHEX_TEXT_H
#define IHEX_TEXT_H
#include "lertxuno.h"

enum {
    IHEX_BASE = 0x08000000,
    /* Upper half, each byte in a record of its own, and end. */
    IHEX_TEXT_ROOM = 17 + 15 * LERTXUNO_MAX_IHEX_LENGTH + 13 + 1
};

/* Writes the text of an image at IHEX_BASE, in records of so many bytes, each line with this end, and a NUL behind it. Gives its length. */
size_t ihex_text(const uint8_t *image, size_t length, size_t record, const char *end, char *text);
#endif
