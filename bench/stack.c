/* The stack that a call uses: it runs on a painted one, and what is not painted any more was used, less the same for an empty call. The most blocks,
   where the tree is deepest, and the longest image of Intel HEX. A part that a function reserves below its deepest write is not seen. A call that has a
   goal and uses more is marked, and fails the run. */
#include "device.h"
#include "ihex_text.h"
#include <string.h>
#include <ucontext.h>

enum { PAINT = 0xA5, BLOCK_LENGTH = 64 };

/* The goals, in bytes. */
enum { NONE = 0, PROGRAM_OR_BLOCK = 4096, UPDATE = 5120, SENDER = 4608 };

static uint8_t stack[1 << 16];
static messages made;
static device_memory device;
static uint8_t out[LERTXUNO_MAX_IHEX_LENGTH];
static size_t written;
static char text[IHEX_TEXT_ROOM];
static size_t text_length, line;
static uint32_t status[LERTXUNO_STATUS_NUMBERS], compressions;

static void nothing(void) {}

static void make_fresh(void) { lertxuno_fresh(MODEL, made.key.key, device.state); }

static void take_program(void) { take(&device, &made.program); }

static void read_status(void) { accepted(lertxuno_status(device.state, sizeof device.state, status)); }

static void read_length(void) { accepted(lertxuno_block_message_length(device.state, sizeof device.state, &written)); }

static void read_cost(void) { accepted(lertxuno_block_cost(device.state, sizeof device.state, &compressions)); }

static void take_most_blocks(void) { take_blocks(&device, &made, made.n - 1); }

static void take_last_block(void) { take(&device, &made.blocks[made.n - 1]); }

static void boot_check(void) { pass_boot_check(&device); }

static void take_update(void) { take_update_again(&device, &made, &made.update); }

static void take_path_update(void) { take_update_again(&device, &made, &made.path_update); }

static void send_manifest(void) {
    accepted(lertxuno_manifest(made.image, made.length, BLOCK_LENGTH, MODEL, OLD_SERIAL, out, sizeof out, &written));
}

static void send_program(void) {
    accepted(lertxuno_program(made.image, made.length, BLOCK_LENGTH, MODEL, OLD_SERIAL, made.key.signatures[0], KEY_SIGNATURE_LENGTH, out, sizeof out,
                              &written));
}

static void send_all_blocks(void) {
    for (uint32_t i = 1; i <= made.n; i++)
        accepted(lertxuno_block(made.image, made.length, BLOCK_LENGTH, i, out, sizeof out, &written));
}

static void send_either(update_function *make) {
    accepted(make(made.image, made.length, BLOCK_LENGTH, MODEL, NEW_SERIAL, made.n, made.key.signatures[1], KEY_SIGNATURE_LENGTH, out, sizeof out,
                  &written));
}

static void send_update(void) { send_either(lertxuno_update); }

static void send_path_update(void) { send_either(lertxuno_path_update); }

static void read_ihex(void) {
    accepted(lertxuno_ihex((const uint8_t *)text, text_length, IHEX_BASE, LERTXUNO_MAX_IHEX_LENGTH, out, sizeof out, &line));
}

static void verify(void) { judge(&made, &made.program); }

static void digest(void) { lertxuno_digest(made.image, made.length, out); }

static size_t used_by(void (*call)(void)) {
    static ucontext_t here, there;
    memset(stack, PAINT, sizeof stack);
    getcontext(&there);
    there.uc_stack.ss_sp = stack;
    there.uc_stack.ss_size = sizeof stack;
    there.uc_link = &here;
    makecontext(&there, call, 0);
    swapcontext(&here, &there);
    size_t unused = 0;
    while (unused < sizeof stack && stack[unused] == PAINT)
        unused++;
    return sizeof stack - unused;
}

static int missed = 0;

static void measure(const char *name, void (*call)(void), size_t goal) {
    size_t used = used_by(call) - used_by(nothing);
    printf("%-34s %8zu", name, used);
    if (goal != NONE)
        printf(" %8zu%s", goal, used > goal ? "  MISSED" : "");
    putchar('\n');
    missed |= goal != NONE && used > goal;
}

int main(void) {
    make_messages(LERTXUNO_MAX_BLOCKS * BLOCK_LENGTH, BLOCK_LENGTH, &made);
    text_length = ihex_text(made.image, LERTXUNO_MAX_IHEX_LENGTH, 16, "\r\n", text);
    printf("%-34s %8s %8s\n", "stack", "bytes", "goal");
    measure("device, fresh", make_fresh, NONE);
    measure("device, program", take_program, PROGRAM_OR_BLOCK);
    measure("device, status", read_status, NONE);
    measure("device, block_message_length", read_length, NONE);
    measure("device, block_cost", read_cost, NONE);
    measure("device, all blocks but the last", take_most_blocks, PROGRAM_OR_BLOCK);
    measure("device, last block", take_last_block, PROGRAM_OR_BLOCK);
    measure("device, boot check", boot_check, NONE);
    measure("device, update", take_update, UPDATE);
    measure("device, path update", take_path_update, UPDATE);
    measure("sender, manifest", send_manifest, SENDER);
    measure("sender, program", send_program, SENDER);
    measure("sender, all blocks", send_all_blocks, SENDER);
    measure("sender, update", send_update, SENDER);
    measure("sender, path update", send_path_update, SENDER);
    measure("ihex", read_ihex, NONE);
    measure("verify", verify, NONE);
    measure("digest", digest, NONE);
    return missed;
}
