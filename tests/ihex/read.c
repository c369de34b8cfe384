/* One call of lertxuno_ihex: read BASE LENGTH TEXT ROOM, the last two being how many bytes of standard input are the text and, behind it, the buffer. Prints
 * answer, line and the buffer after the call, in hex. */
#define _DEFAULT_SOURCE
#include "lertxuno.h"
#include <stdio.h>
#include <stdlib.h>
#include <sys/mman.h>
#include <unistd.h>

static void expect(int holds, const char *what) {
    if (!holds) {
        perror(what);
        exit(1);
    }
}

/* So many bytes of standard input, under this protection, right before a page that nobody may touch. */
static uint8_t *lent(size_t length, int protection) {
    size_t page = (size_t)sysconf(_SC_PAGESIZE), pages = (length + page - 1) / page * page;
    uint8_t *start = mmap(NULL, pages + page, PROT_READ | PROT_WRITE, MAP_PRIVATE | MAP_ANONYMOUS, -1, 0);
    expect(start != MAP_FAILED, "memory");
    uint8_t *bytes = start + pages - length;
    expect(fread(bytes, 1, length, stdin) == length, "standard input");
    expect(mprotect(start, pages, protection) == 0 && mprotect(start + pages, page, PROT_NONE) == 0, "protection");
    return bytes;
}

int main(int count, char **words) {
    if (count != 5)
        return 1;
    uint32_t base = (uint32_t)strtoul(words[1], NULL, 10);
    size_t length = strtoul(words[2], NULL, 10), text_length = strtoul(words[3], NULL, 10), room = strtoul(words[4], NULL, 10);
    const uint8_t *text = lent(text_length, PROT_READ);
    uint8_t *buffer = lent(room, PROT_READ | PROT_WRITE);
    /* No line's number, so that one that is not written shows. */
    size_t line = SIZE_MAX;
    uint32_t answer = lertxuno_ihex(text, text_length, base, length, buffer, room, &line);
    printf("%u %zu ", (unsigned)answer, line);
    for (size_t i = 0; i < room; i++)
        printf("%02x", buffer[i]);
    putchar('\n');
    return 0;
}
