#include "sample.h"
#include "accepted.h"
#include "lms.h"
#include <stdio.h>
#include <stdlib.h>

void read_sample(const char *path, sample *s) {
    FILE *f = fopen(path, "rb");
    if (!f) {
        perror(path);
        exit(1);
    }
    size_t length = fread(s->bytes, 1, sizeof s->bytes, f);
    fclose(f);
    s->signature = s->bytes + LERTXUNO_KEY_LENGTH;
    s->signature_length = lms_signature_length(lms_parameters_of(s->bytes));
    s->message = s->signature + s->signature_length;
    s->message_length = length - LERTXUNO_KEY_LENGTH - s->signature_length;
}

void judge_sample(const sample *s) {
    accepted(lertxuno_verify(s->bytes, LERTXUNO_KEY_LENGTH, s->message, s->message_length, s->signature, s->signature_length));
}
