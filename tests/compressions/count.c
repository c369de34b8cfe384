/* count ADDRESS: counts the compressions that calls of the library make, by a breakpoint where the library's compression function starts (in base sixteen) in
   this very program. A copy of that function elsewhere, inlined say, would not be counted, and the numbers would differ. */
#define _GNU_SOURCE /* the registers' names */
#include "compressions.h"
#include "lms.h"
#include "messages.h"
#include <signal.h>
#include <stdio.h>
#include <stdlib.h>
#include <string.h>
#include <sys/mman.h>
#include <ucontext.h>

/* Of x86-64. */
enum { BREAKPOINT = 0xCC, SINGLE_STEP = 0x100, PAGE = 4096 };

/* Of each pair of types and each length. */
enum { VERDICTS = 2 };

static uint8_t *entry, first_byte;
static volatile size_t made;

/* At the breakpoint the old byte is put back for one instruction, after which a second trap comes, and the breakpoint is set again. */
static void trap(int number, siginfo_t *information, void *context) {
    (void)number;
    (void)information;
    greg_t *registers = ((ucontext_t *)context)->uc_mcontext.gregs;
    if (*entry == BREAKPOINT) {
        made++;
        *entry = first_byte;
        registers[REG_RIP]--;
        registers[REG_EFL] |= SINGLE_STEP;
    } else {
        *entry = BREAKPOINT;
        registers[REG_EFL] &= ~(greg_t)SINGLE_STEP;
    }
}

static void set_breakpoint(const char *address) {
    struct sigaction action = {.sa_sigaction = trap, .sa_flags = SA_SIGINFO};
    entry = (uint8_t *)strtoul(address, NULL, 16);
    void *page = (void *)((uintptr_t)entry / PAGE * PAGE);
    if (sigaction(SIGTRAP, &action, NULL) != 0 || mprotect(page, PAGE, PROT_READ | PROT_WRITE | PROT_EXEC) != 0) {
        perror("breakpoint");
        exit(1);
    }
    first_byte = *entry;
    *entry = BREAKPOINT;
}

static unsigned passed, failed;
static messages sent;
static uint8_t state[LERTXUNO_STATE_LENGTH], flash[LONGEST_IMAGE];
static uint32_t reported;
/* What the calls are about, for expect. */
static char about[64];

static void expect(const char *what, size_t number, int holds) {
    if (holds) {
        passed++;
        return;
    }
    failed++;
    printf("wrong: %s, %s %zu: made %zu, reported %u\n", about, what, number, made, (unsigned)reported);
}

static uint32_t receive(const message *m, uint32_t budget) {
    made = 0;
    return lertxuno_receive(state, sizeof state, flash, sent.length, m->bytes, m->length, budget, &reported);
}

/* A message of another kind than 2, which reports nothing. */
static void take(const char *what, const message *m, size_t due) {
    uint32_t answer = receive(m, 0);
    expect(what, due, answer == LERTXUNO_ACCEPTED && reported == 0 && made == due);
}

/* The tree over the image, whose last block may be short. */
static size_t tree(void) {
    size_t whole = sent.length / sent.block_length, rest = sent.length % sent.block_length;
    size_t blocks = whole * compressions_of(sent.block_length) + (rest ? compressions_of(rest) : 0);
    return blocks + (sent.n - 1) * compressions_of(2 * LERTXUNO_HASH_LENGTH);
}

/* Refused, after so many compressions. */
static void refused(const char *what, const message *m, uint32_t budget, uint32_t refusal, size_t due) {
    uint32_t answer = receive(m, budget);
    expect(what, due, answer == refusal && made == due);
}

/* Where the budget is too small none are made; a damaged block takes its comparison's alone, and a last one over an altered flash all. */
static void refused_blocks(const message *m, uint32_t number, uint32_t cost) {
    size_t comparison = number == sent.n ? cost - tree() : cost;
    uint8_t bytes[LERTXUNO_MAX_BLOCK_MESSAGE_LENGTH];
    const message damaged = {bytes, m->length};
    memcpy(bytes, m->bytes, m->length);
    bytes[LERTXUNO_BLOCK_HEAD] ^= 1;
    refused("spent block", m, cost - 1, LERTXUNO_SPENT, 0);
    refused("damaged block", &damaged, cost, LERTXUNO_MISMATCH, comparison);
    if (number == sent.n && number > 1) {
        flash[0] ^= 1;
        refused("last block over an altered flash", m, cost, LERTXUNO_ALTERED, cost);
        flash[0] ^= 1;
    }
}

static void block(uint32_t number) {
    const message *m = &sent.blocks[number - 1];
    uint32_t cost = 0;
    made = 0;
    uint32_t answer = lertxuno_block_cost(state, sizeof state, &cost);
    expect("cost of block", number, answer == LERTXUNO_ACCEPTED && made == 0);
    refused_blocks(m, number, cost);
    answer = receive(m, cost);
    expect("block", number, answer == LERTXUNO_ACCEPTED && reported == cost && made == cost);
}

static void boot_check(void) {
    made = 0;
    uint32_t answer = lertxuno_boot_check(state, sizeof state, flash, sent.length);
    expect("boot check", tree(), answer == LERTXUNO_ACCEPTED && made == tree());
}

/* A download, the boot check, and an update of either kind of the complete program: of a block as long as all others. */
static void program(uint32_t block_length, uint32_t n, size_t last) {
    make_messages((n - 1) * block_length + last, block_length, &sent);
    snprintf(about, sizeof about, "L %u, T %zu", (unsigned)block_length, sent.length);
    lertxuno_fresh(MODEL, sent.key.key, state);
    take("program", &sent.program, sent.key.compressions[0]);
    for (uint32_t number = 1; number <= n; number++)
        block(number);
    boot_check();
    if (last < block_length)
        return;
    uint8_t complete[sizeof state];
    memcpy(complete, state, sizeof state);
    take("path update", &sent.path_update, sent.key.compressions[1] + path_compressions(tree_depth(n), block_length));
    memcpy(state, complete, sizeof state);
    memcpy(flash, sent.image, sent.length);
    take("update", &sent.update, sent.key.compressions[1] + 2 * tree());
}

static void digest(size_t length) {
    uint8_t out[LERTXUNO_HASH_LENGTH];
    strcpy(about, "digests");
    made = 0;
    size_t count = lertxuno_digest(sent.image, length, out);
    expect("digest", length, made == count && count == compressions_of(length));
}

/* What a verdict is over: a manifest, or as many bytes as the longest that document 02 has (change 13). The signature has room for one that is too long. */
static uint8_t key[LERTXUNO_KEY_LENGTH], text[54], signature[LERTXUNO_MAX_SIGNATURE_LENGTH + LERTXUNO_HASH_LENGTH];

/* Random bytes, the same in every run. */
static void draw(uint8_t *p, size_t length) {
    while (length--)
        *p++ = (uint8_t)(rand() >> 8);
}

/* Refused, after so many compressions. */
static void unsigned_after(const char *what, size_t due, size_t text_length, size_t signature_length) {
    made = 0;
    uint32_t answer = lertxuno_verify(key, sizeof key, text, text_length, signature, signature_length);
    expect(what, due, answer == LERTXUNO_UNSIGNED && made == due);
}

/* A random signature by a random leaf, under a random key of these types. It leads to another top hash than the key's, which is only seen in the end: all is
   hashed. */
static void verdict(uint8_t lms_type, uint8_t ots_type, size_t text_length) {
    uint8_t leaf[LERTXUNO_HASH_LENGTH], top[LERTXUNO_HASH_LENGTH];
    draw(key, sizeof key);
    draw(text, sizeof text);
    draw(signature, sizeof signature);
    put_types(key, lms_type, ots_type);
    lms_parameters p = lms_parameters_of(key);
    put_leaf(key, (uint32_t)rand() % (1u << p.height), signature);
    size_t due = lms_leaf(key, signature, text, text_length, leaf) + lms_climb(key, signature, leaf, top);
    unsigned_after("verdict", due, text_length, lms_signature_length(p));
    /* With the most steps in the place of its own it costs just the header's most. */
    size_t fixed = due - lms_steps(key, signature, text, text_length), most_steps = p.width == 8 ? 8415 : 990;
    expect("most of a verdict", due, fixed + most_steps == (size_t)LERTXUNO_MAX_VERDICT_COST(p.chains, p.height));
}

static void unhashed(const char *what, size_t signature_length) { unsigned_after(what, 0, LERTXUNO_MANIFEST_LENGTH, signature_length); }

/* The last signature with all other types at this place. */
static void other_types(size_t at, size_t length) {
    uint8_t right = signature[at];
    for (uint8_t type = 0; type < 12; type++) {
        signature[at] = type;
        if (type != right)
            unhashed("signature of another type", length);
    }
    signature[at] = right;
}

/* What the last signature's length, types and leaf number tell comes before all hashing. */
static void misfits(void) {
    lms_parameters p = lms_parameters_of(key);
    const size_t length = lms_signature_length(p), lengths[] = {0, 4, length - LERTXUNO_HASH_LENGTH, length - 1, length + 1, length + LERTXUNO_HASH_LENGTH};
    const uint32_t leaves[] = {1u << p.height, UINT32_MAX};
    for (size_t i = 0; i < sizeof lengths / sizeof *lengths; i++)
        unhashed("signature of another length", lengths[i]);
    other_types(7, length);
    other_types(lms_path_at(p) - 1, length);
    for (size_t i = 0; i < sizeof leaves / sizeof *leaves; i++) {
        put_leaf(key, leaves[i], signature);
        unhashed("leaf beyond the tree", length);
    }
}

static void verdicts(uint8_t lms_type, uint8_t ots_type) {
    snprintf(about, sizeof about, "LMS type %u, LM-OTS type %u", (unsigned)lms_type, (unsigned)ots_type);
    for (int round = 0; round < VERDICTS; round++) {
        verdict(lms_type, ots_type, LERTXUNO_MANIFEST_LENGTH);
        verdict(lms_type, ots_type, sizeof text);
    }
    misfits();
}

int main(int count, char **words) {
    static const uint32_t block_lengths[] = {64, 256, 1024}, counts[] = {1, 2, 3, 8};
    if (count != 2)
        return 1;
    set_breakpoint(words[1]);
    for (size_t l = 0; l < sizeof block_lengths / sizeof *block_lengths; l++) {
        const size_t lasts[] = {1, 55, 56, block_lengths[l]};
        for (size_t i = 0; i < 16; i++)
            program(block_lengths[l], counts[i / 4], lasts[i % 4]);
    }
    for (size_t length = 0; length < 200; length++)
        digest(length);
    digest(LERTXUNO_MAX_BLOCK_LENGTH);
    for (uint8_t lms_type = 5; lms_type <= 9; lms_type++) {
        verdicts(lms_type, 3);
        verdicts(lms_type, 4);
    }
    printf("%u passed, %u failed\n", passed, failed);
    return failed != 0;
}
