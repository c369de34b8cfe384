#include "messages.h"
#include "accepted.h"
#include "input.h"

/* The old block and the new one differ in a byte. */
static void toggle(messages *m) { m->image[(m->updated - 1) * m->block_length] ^= 1; }

static uint8_t *end(messages *m) { return m->room + m->used; }

static size_t left(const messages *m) { return sizeof m->room - m->used; }

static message keep(messages *m, uint32_t answer, size_t length) {
    accepted(answer);
    message made = {end(m), length};
    m->used += length;
    return made;
}

static void make_program(messages *m) {
    size_t length;
    uint32_t answer = lertxuno_program(m->image, m->length, m->block_length, MODEL, OLD_SERIAL, m->key.signatures[0], KEY_SIGNATURE_LENGTH,
                                       end(m), left(m), &length);
    m->program = keep(m, answer, length);
}

static void make_block(messages *m, uint32_t number) {
    size_t length;
    uint32_t answer = lertxuno_block(m->image, m->length, m->block_length, number, end(m), left(m), &length);
    m->blocks[number - 1] = keep(m, answer, length);
}

static message make_update(messages *m, update_function *make) {
    size_t length;
    toggle(m);
    uint32_t answer = make(m->image, m->length, m->block_length, MODEL, NEW_SERIAL, m->updated, m->key.signatures[1], KEY_SIGNATURE_LENGTH,
                           end(m), left(m), &length);
    toggle(m);
    return keep(m, answer, length);
}

static void make_key(messages *m) {
    uint8_t manifests[2][LERTXUNO_MANIFEST_LENGTH];
    size_t written;
    for (uint32_t i = 0; i < 2; i++) {
        accepted(lertxuno_manifest(m->image, m->length, m->block_length, MODEL, OLD_SERIAL + i, manifests[i], sizeof manifests[i], &written));
        toggle(m);
    }
    key_for(manifests, &m->key);
}

void make_messages(size_t length, uint32_t block_length, messages *m) {
    fill(m->image, length);
    m->length = length;
    m->block_length = block_length;
    m->n = (uint32_t)((length + block_length - 1) / block_length);
    m->updated = m->n / 2 + 1; /* as deep in the tree as any, for every n */
    m->used = 0;
    make_key(m);
    make_program(m);
    for (uint32_t number = 1; number <= m->n; number++)
        make_block(m, number);
    m->update = make_update(m, lertxuno_update);
    m->path_update = make_update(m, lertxuno_path_update);
}
