/* SHA-256: the proved digest beside a plain one in C and libcrypto's, on the same input, in one run. Prints a table: the time of the proved digest, and
   how many times as fast it is as each of the others (above 1: the proved one is faster).
   libcrypto reads OPENSSL_ia32cap once, as it starts, so each of its rows is measured by a process of its own that this one starts. */
#include "input.h"
#include "plain.h"
#include "turns.h"
#include <openssl/sha.h>
#include <stdio.h>
#include <stdlib.h>
#include <string.h>

void bench_digest(const uint8_t *message, size_t length, uint8_t out[32]);
void bench_pieces(const uint8_t *message, size_t length, size_t piece, uint8_t out[32]);

static void crypto_digest(const uint8_t *p, size_t n, uint8_t out[32]) { SHA256(p, n, out); }

static void crypto_pieces(const uint8_t *p, size_t n, size_t piece, uint8_t out[32]) {
    SHA256_CTX c;
    SHA256_Init(&c);
    for (size_t i = 0; i < n; i += piece)
        SHA256_Update(&c, p + i, n - i < piece ? n - i : piece);
    SHA256_Final(out, &c);
}

typedef struct {
    void (*digest)(const uint8_t *, size_t, uint8_t *);
    void (*pieces)(const uint8_t *, size_t, size_t, uint8_t *);
} kind;

static const kind proved = {bench_digest, bench_pieces}, plain = {plain_digest, plain_pieces}, crypto = {crypto_digest, crypto_pieces};

static const struct {
    const char *name;
    size_t length, piece;
    int calls;
} cases[] = {{"1 MiB", 1 << 20, 0, 4},        {"64 bytes", 64, 0, 20000},        {"55 bytes", 55, 0, 40000},
             {"1 MiB by 64", 1 << 20, 64, 4}, {"1 MiB by 16", 1 << 20, 16, 4}, {"1 MiB by 1", 1 << 20, 1, 2}};
enum { CASES = sizeof cases / sizeof cases[0], ROUNDS = 25 };

static uint8_t input[1 << 20];

typedef struct {
    const kind *kind;
    int c;
} job;

static void run(const kind *k, int c, uint8_t out[32]) {
    if (cases[c].piece)
        k->pieces(input, cases[c].length, cases[c].piece, out);
    else
        k->digest(input, cases[c].length, out);
}

static void run_job(const void *with) {
    const job *j = with;
    uint8_t out[32];
    run(j->kind, j->c, out);
}

static void both(const kind *a, const kind *b, int c, double best[2]) {
    const job x = {a, c}, y = {b, c};
    const side sides[] = {{run_job, &x, cases[c].calls}, {run_job, &y, cases[c].calls}};
    turns(ROUNDS, 2, sides, best);
}

static void compare(const char *name, const kind *k) {
    printf("%-34s", name);
    for (int c = 0; c < CASES; c++) {
        uint8_t x[32], y[32];
        run(&proved, c, x);
        run(k, c, y);
        if (memcmp(x, y, 32)) {
            printf("\nthe digests differ: %s\n", cases[c].name);
            exit(1);
        }
        double best[2];
        both(&proved, k, c, best);
        printf("%12.2f", best[1] / best[0]);
    }
    printf("\n");
    fflush(stdout);
}

static void other(const char *self, const char *name, const char *caps) {
    char line[512];
    snprintf(line, sizeof line, "%s '%s' '%s'", caps, self, name);
    if (system(line)) {
        printf("%s: not measured\n", name);
        exit(1);
    }
}

int main(int count, char **words) {
    fill(input, sizeof input);
    if (count == 2) {
        compare(words[1], &crypto);
        return 0;
    }
    printf("%-34s", "");
    for (int c = 0; c < CASES; c++)
        printf("%12s", cases[c].name);
    printf("\n%-34s", "proved, microseconds");
    for (int c = 0; c < CASES; c++) {
        double best[2];
        both(&proved, &proved, c, best);
        printf("%12.2f", best[0] * 1e6);
    }
    printf("\nhow many times as fast as\n");
    fflush(stdout);
    compare("  plain C, gcc -O3", &plain);
    other(words[0], "  libcrypto, scalar code", "OPENSSL_ia32cap='~0x1000020000000000:~0x20000128'");
    other(words[0], "  libcrypto, no SHA instructions", "OPENSSL_ia32cap=':~0x20000000'");
    other(words[0], "  libcrypto", "env");
    return 0;
}
