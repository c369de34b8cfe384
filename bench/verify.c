/* LMS: the proved verdict on two of RFC 8554's signatures, against the SHA-256 compressions it cannot avoid; beside these the most that a verdict of the same
   types takes over a manifest. */
#include "compressions.h"
#include "lms.h"
#include "sample.h"
#include <stdio.h>
#include <stdlib.h>
#include <string.h>

enum { ROUNDS = 40 };

static void verify(const void *with) { judge_sample(with); }

static size_t compressions(const sample *s) {
    uint8_t leaf[32], top[32];
    size_t count = lms_leaf(s->bytes, s->signature, s->message, s->message_length, leaf);
    count += lms_climb(s->bytes, s->signature, leaf, top);
    if (memcmp(top, s->bytes + LMS_TOP_AT, sizeof top)) {
        puts("the signature does not lead to the key's top hash");
        exit(1);
    }
    return count;
}

static void measure(const char *path, const char *name) {
    static sample s;
    read_sample(path, &s);
    size_t count = compressions(&s);
    const side sides[] = {{verify, &s, 1}, long_digest()};
    double best[2];
    turns(ROUNDS, 2, sides, best);
    lms_parameters p = lms_parameters_of(s.bytes);
    printf("%-24s %12.0f %12zu %12d %12.2f\n", name, best[0] * 1e6, count, LERTXUNO_MAX_VERDICT_COST(p.chains, p.height), ratio(best[0], count, best[1]));
}

int main(int count, char **words) {
    if (count != 3)
        return 1;
    printf("%-24s %12s %12s %12s %12s\n", "verdict", "microseconds", "compressions", "at most", "ratio");
    measure(words[1], "type 4, height 5");
    measure(words[2], "type 3, height 10");
    return 0;
}
