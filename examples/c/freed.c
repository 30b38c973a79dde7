/* Which nodes a retire, a manage or a portion freed: those of the process that were Retired before the step and are Free after it. All of
 * it under the domain's lock, so that no other step comes between. */
#include "qsense.h"
#include <stdio.h>

enum { NODES = 4 };

static uint32_t words[QSENSE_MOST_WORDS];
static size_t len;

/* Takes a step, and prints which nodes it freed. */
static int freed(const char *name, uint32_t kind, uint32_t node, uint32_t guest) {
    bool was_retired[NODES];
    for (uint32_t i = 0; i < NODES; i++) was_retired[i] = qsense_node_state(words, len, i) == QSENSE_STATE_RETIRED;
    qsense_answer answer = qsense_step(words, len, kind, 0, 0, node, guest);
    if (answer.refusal != QSENSE_ACCEPTED) return 1;
    printf("%s: %u freed:", name, answer.value);
    for (uint32_t i = 0; i < NODES && answer.value > 0; i++)
        if (was_retired[i] && qsense_node_state(words, len, i) == QSENSE_STATE_FREE) printf(" %u", i); /* here its memory goes back */
    printf("\n");
    return 0;
}

/* Nodes 0 to 2 taken, published and removed. */
static uint32_t removed(void) {
    static const uint32_t kinds[] = {QSENSE_KIND_ALLOCATE, QSENSE_KIND_PUBLISH, QSENSE_KIND_REMOVE};
    uint32_t refusals = 0;
    for (uint32_t i = 0; i < 3; i++)
        for (uint32_t j = 0; j < 3; j++) refusals += qsense_step(words, len, kinds[j], 0, 0, i, 70 + i).refusal;
    return refusals;
}

/* Two ticks: what is Retired is then older than T = 1. */
static uint32_t older(void) {
    uint32_t refusals = qsense_step(words, len, QSENSE_KIND_TICK, 0, 0, 0, 0).refusal;
    return refusals + qsense_step(words, len, QSENSE_KIND_TICK, 0, 0, 0, 0).refusal;
}

int main(void) {
    len = qsense_length(1, 1, NODES);
    if (qsense_make(words, len, 1, 1, NODES, 1, 1, 2, 0).refusal != QSENSE_ACCEPTED || removed() != 0) return 1;
    if (freed("retire 0", QSENSE_KIND_RETIRE, 0, 0) || older() != 0) return 1;
    if (freed("retire 1", QSENSE_KIND_RETIRE, 1, 0)) return 1; /* the second, and C is 2: the path falls back, and a scan follows */
    for (int i = 0; i < 6; i++)                                /* alone, with Q = 1, the sixth manage frees */
        if (freed("manage", QSENSE_KIND_MANAGE, 0, 0)) return 1;
    if (freed("retire 2", QSENSE_KIND_RETIRE, 2, 0) || older() != 0) return 1;
    return freed("portion", QSENSE_KIND_PORTION, 0, NODES);
}
