/* The device that takes the messages: the bytes that its caller keeps, and the compressions that its blocks have reported. */
#ifndef DEVICE_H
#define DEVICE_H
#include "accepted.h"
#include "messages.h"
#include <string.h>

typedef struct {
    uint8_t state[LERTXUNO_STATE_LENGTH];
    uint8_t flash[LONGEST_IMAGE];
    size_t reported;
} device_memory;

/* With a budget that suffices. A library without budgets takes none, and reports nothing (bench/against). */
static inline void take(device_memory *d, const message *m) {
#ifdef WITHOUT_BUDGETS
    accepted(lertxuno_receive(d->state, sizeof d->state, d->flash, sizeof d->flash, m->bytes, m->length));
#else
    uint32_t compressions;
    accepted(lertxuno_receive(d->state, sizeof d->state, d->flash, sizeof d->flash, m->bytes, m->length, UINT32_MAX, &compressions));
    d->reported += compressions;
#endif
}

/* The first so many blocks. */
static inline void take_blocks(device_memory *d, const messages *m, uint32_t count) {
    for (uint32_t i = 0; i < count; i++)
        take(d, &m->blocks[i]);
}

static inline void pass_boot_check(const device_memory *d) { accepted(lertxuno_boot_check(d->state, sizeof d->state, d->flash, sizeof d->flash)); }

/* Puts back what an update replaced: the program's manifest, and the old block. */
static inline void undo_update(device_memory *d, const messages *m) {
    size_t at = (size_t)(m->updated - 1) * m->block_length;
    memcpy(d->state + LERTXUNO_STATE_MANIFEST, m->program.bytes + 1, LERTXUNO_MANIFEST_LENGTH);
    memcpy(d->flash + at, m->image + at, m->block_length);
}

/* A download, from a fresh device on, up to so many blocks. */
static inline void take_download(device_memory *d, const messages *m, uint32_t count) {
    lertxuno_fresh(MODEL, m->key.key, d->state);
    take(d, &m->program);
    take_blocks(d, m, count);
}

/* An update of either kind, again and again: the one before is undone first. */
static inline void take_update_again(device_memory *d, const messages *m, const message *update) {
    undo_update(d, m);
    take(d, update);
}

/* The verdict alone on a message that has one: its manifest stands behind the kind, its signature at the end. */
static inline void judge(const messages *m, const message *carrier) {
    accepted(lertxuno_verify(m->key.key, sizeof m->key.key, carrier->bytes + 1, LERTXUNO_MANIFEST_LENGTH,
                             carrier->bytes + carrier->length - KEY_SIGNATURE_LENGTH, KEY_SIGNATURE_LENGTH));
}
#endif
