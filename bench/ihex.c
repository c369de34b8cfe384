/* Intel HEX: the time of texts of the longest image, with records as objcopy writes them and with one byte in each; and beside it that of objcopy on the same
   text, a program of its own. A text of one byte shows what of it is its start. */
#include "accepted.h"
#include "ihex_text.h"
#include "input.h"
#include "turns.h"
#include <spawn.h>
#include <string.h>
#include <sys/wait.h>
#include <time.h>
#include <unistd.h>

extern char **environ;

enum { ROUNDS = 200, OBJCOPY_ROUNDS = 50, LENGTH = LERTXUNO_MAX_IHEX_LENGTH };

static uint8_t image[LENGTH], out[LENGTH];

typedef struct {
    const char *name;
    size_t image_length, record;
    const char *end;
    char text[IHEX_TEXT_ROOM];
    size_t length;
} sample;

static sample samples[] = {{.name = "16 bytes a record, CR LF", .image_length = LENGTH, .record = 16, .end = "\r\n"},
                           {.name = "16 bytes a record, LF", .image_length = LENGTH, .record = 16, .end = "\n"},
                           {.name = "1 byte a record, CR LF", .image_length = LENGTH, .record = 1, .end = "\r\n"},
                           {.name = "1 byte in all, CR LF", .image_length = 1, .record = 1, .end = "\r\n"}};
enum { SAMPLES = sizeof samples / sizeof samples[0] };

static void expect(int holds, const char *what) {
    if (!holds) {
        printf("wrong: %s\n", what);
        exit(1);
    }
}

static void read_text(const void *with) {
    const sample *s = with;
    size_t line;
    accepted(lertxuno_ihex((const uint8_t *)s->text, s->length, IHEX_BASE, s->image_length, out, sizeof out, &line));
}

static double elapsed(void) {
    struct timespec t;
    clock_gettime(CLOCK_MONOTONIC, &t);
    return (double)t.tv_sec + (double)t.tv_nsec * 1e-9;
}

static double objcopy_once(void) {
    static char *const words[] = {"objcopy", "-I", "ihex", "-O", "binary", "ihex.hex", "ihex.bin", NULL};
    pid_t child;
    int status;
    double start = elapsed();
    expect(posix_spawnp(&child, words[0], NULL, NULL, words, environ) == 0 && waitpid(child, &status, 0) == child && status == 0, "objcopy");
    return elapsed() - start;
}

static double objcopy(const sample *s) {
    double best = 1e9;
    FILE *f = fopen("ihex.hex", "wb");
    expect(f && fwrite(s->text, 1, s->length, f) == s->length && fclose(f) == 0, "ihex.hex");
    for (int r = 0; r < OBJCOPY_ROUNDS; r++) {
        double t = objcopy_once();
        if (t < best)
            best = t;
    }
    f = fopen("ihex.bin", "rb");
    expect(f && fread(out, 1, sizeof out, f) == s->image_length && fclose(f) == 0 && memcmp(out, image, s->image_length) == 0, "objcopy's image");
    return best;
}

int main(int count, char **words) {
    if (count != 2 || chdir(words[1]) != 0)
        return 1;
    side sides[SAMPLES];
    double best[SAMPLES];
    fill(image, sizeof image);
    for (int i = 0; i < SAMPLES; i++) {
        sample *s = &samples[i];
        s->length = ihex_text(image, s->image_length, s->record, s->end, s->text);
        sides[i] = (side){read_text, s, 10};
        read_text(s);
        expect(memcmp(out, image, s->image_length) == 0, "the image");
    }
    turns(ROUNDS, SAMPLES, sides, best);
    printf("%-34s %10s %12s %12s %12s\n", "Intel HEX", "text", "microseconds", "MB/s", "objcopy");
    for (int i = 0; i < SAMPLES; i++)
        printf("%-34s %10zu %12.2f %12.0f %12.0f\n", samples[i].name, samples[i].length, best[i] * 1e6, (double)samples[i].length / best[i] * 1e-6,
               objcopy(&samples[i]) * 1e6);
    puts("objcopy: microseconds of objcopy -I ihex -O binary on the same text, elapsed time, its start and its files included");
    return 0;
}
