/* Each refusal of the calls once, by its name, and each state of a node as it is read from the words. */
#include "qsense.h"
#include <stdio.h>

#define STEP(kind, process, hazard, node, guest) qsense_step(words, len, QSENSE_KIND_##kind, process, hazard, node, guest).refusal

static uint32_t words[QSENSE_MOST_WORDS];
static size_t len;

static void refused(const char *name, uint32_t expected, uint32_t found) {
    printf("%-15s %2u%s\n", name, found, found == expected ? "" : ", not as the header says");
}

#define REFUSED(name, answer) refused(#name, QSENSE_REFUSED_##name, answer)

/* A fresh domain of 2 processes, 1 hazard each and 2 nodes, with T = 2, Q = C = 1 and E = 0. */
static uint32_t made(void) {
    len = qsense_length(2, 1, 2);
    return qsense_make(words, len, 2, 1, 2, 2, 1, 1, 0).refusal;
}

/* Node 0 published by process 0, and protected by process 1 in its hazard 0. */
static uint32_t protected_node(void) {
    uint32_t refusals = made();
    refusals += STEP(ALLOCATE, 0, 0, 0, 70);
    refusals += STEP(PUBLISH, 0, 0, 0, 0);
    refusals += STEP(PROTECT, 1, 0, 0, 0);
    return refusals;
}

static void of_any_domain(void) {
    REFUSED(PARAMETER, qsense_make(words, len, 0, 1, 2, 2, 1, 1, 0).refusal);
    REFUSED(LENGTH, qsense_make(words, len - 1, 2, 1, 2, 2, 1, 1, 0).refusal);
    REFUSED(MALFORMED, qsense_reachable(words, len - 1).refusal);
    REFUSED(KIND, qsense_step(words, len, QSENSE_KIND_PORTION + 1, 0, 0, 0, 0).refusal);
    REFUSED(PROCESS, STEP(MANAGE, 2, 0, 0, 0));
    REFUSED(HAZARD, STEP(PROTECT, 0, 1, 0, 0));
    REFUSED(NODE, STEP(ALLOCATE, 0, 0, 2, 0));
    REFUSED(LIMIT, qsense_portion(words, len, 0, 0, 0).refusal);
    REFUSED(STATE, STEP(PUBLISH, 0, 0, 1, 0));
    REFUSED(NOT_ASSIGNED, STEP(CHECK, 0, 0, 0, 0));
    REFUSED(BUFFER_EMPTY, STEP(DRAIN, 0, 0, 0, 0));
    REFUSED(ATTENDANCE, STEP(JOIN, 0, 0, 0, 0));
    REFUSED(HEIR, STEP(LEAVE, 0, 0, 0, 0));
}

static void of_a_protected_node(void) {
    REFUSED(NOT_VALIDATED, STEP(USE, 1, 0, 0, 0));
    REFUSED(BURDENED, STEP(LEAVE, 1, 0, 0, 0));
    REFUSED(HAZARD_ASSIGNED, STEP(MANAGE, 1, 0, 0, 0));
    uint32_t others = STEP(REMOVE, 0, 0, 0, 0);
    REFUSED(OWNER, others + STEP(RETIRE, 1, 0, 0, 0));
    REFUSED(NOT_REACHABLE, STEP(CHECK, 1, 0, 0, 0));
    for (uint32_t i = qsense_process_stores(words, len, 1); i < QSENSE_STORES; i++) others += STEP(CLEAR, 1, 0, 0, 0);
    REFUSED(BUFFER_FULL, others + STEP(CLEAR, 1, 0, 0, 0));
    others += STEP(TICK, 0, 0, 0, 0);
    others += STEP(TICK, 0, 0, 0, 0);
    REFUSED(FLUSH_DUE, others + STEP(TICK, 0, 0, 0, 0));
    words[QSENSE_HEAD - 3] = UINT32_MAX; /* the clock */
    REFUSED(CLOCK, others + STEP(TICK, 0, 0, 0, 0));
}

static void state(const char *name, uint32_t expected, uint32_t steps) {
    uint32_t found = qsense_node_state(words, len, 0);
    printf("%-15s %2u%s\n", name, found, found == expected && steps == QSENSE_ACCEPTED ? "" : ", not as the header says");
}

int main(void) {
    if (made() != QSENSE_ACCEPTED) return 1;
    of_any_domain();
    if (protected_node() != QSENSE_ACCEPTED) return 1;
    of_a_protected_node();
    state("Free", QSENSE_STATE_FREE, made());
    state("Allocated", QSENSE_STATE_ALLOCATED, STEP(ALLOCATE, 0, 0, 0, 70));
    state("Reachable", QSENSE_STATE_REACHABLE, STEP(PUBLISH, 0, 0, 0, 0));
    state("Removed", QSENSE_STATE_REMOVED, STEP(REMOVE, 0, 0, 0, 0));
    state("Reachable", QSENSE_STATE_REACHABLE, STEP(REINSERT, 0, 0, 0, 0));
    state("Removed", QSENSE_STATE_REMOVED, STEP(REMOVE, 0, 0, 0, 0));
    state("Retired", QSENSE_STATE_RETIRED, STEP(RETIRE, 0, 0, 0, 0));
    printf("path %u\n", qsense_read_path(words, len)); /* C = 1: the first retire leaves the fast path */
    return qsense_read_path(words, len) != QSENSE_PATH_FALLBACK;
}
