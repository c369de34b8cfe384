#include "ihex_text.h"
#include <stdio.h>

/* Gives where the next line starts. */
static char *put(char *at, unsigned type, size_t address, const uint8_t *data, size_t count, const char *end) {
    size_t sum = count + (address >> 8) + address + type;
    at += sprintf(at, ":%02zX%04zX%02X", count, address, type);
    for (size_t i = 0; i < count; i++) {
        sum += data[i];
        at += sprintf(at, "%02X", data[i]);
    }
    return at + sprintf(at, "%02X%s", (unsigned)(-sum & 0xFF), end);
}

size_t ihex_text(const uint8_t *image, size_t length, size_t record, const char *end, char *text) {
    const uint8_t upper[] = {IHEX_BASE >> 24, IHEX_BASE >> 16 & 0xFF};
    char *at = put(text, 4, 0, upper, sizeof upper, end);
    for (size_t i = 0; i < length; i += record)
        at = put(at, 0, i, image + i, length - i < record ? length - i : record, end);
    return (size_t)(put(at, 1, 0, NULL, 0, end) - text);
}
