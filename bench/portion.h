/* Part of plain.c: a portion of a scan, which ends after so many Retired nodes of the process or past the last node. */
#ifndef PORTION_H
#define PORTION_H

#include "retire.h"
#include "words.h"

#include <string.h>

/* Goes from a->next upward, and leaves there the node to go on from. */
static void examine(uint32_t *w, uint32_t p, uint32_t limit, qsense_portion_answer *a) {
    bool seen[MAX_NODES + 1] = {false};
    mark(w, p, seen);
    const uint32_t m = w[M], clock = w[CLOCK], young = delay(w);
    uint32_t c = a->next, examined = 0, freed = 0;
    for (uint32_t *x = node_at(w, c); c < m && examined < limit; c++, x += NODE) {
        if (x[STATE] != RETIRED || x[OWNER] != p) continue;
        examined++;
        if (clock - x[RETIRED_AT] > young && !seen[c + 1]) {
            memset(x, 0, NODE * sizeof *x);
            freed++;
        }
    }
    a->examined = examined;
    a->freed = freed;
    a->next = c;
}

/* Of a process that is present. How many nodes are left is for the caller to count, where that is asked. */
static qsense_portion_answer portion(uint32_t *w, uint32_t p, uint32_t start, uint32_t limit) {
    if (start >= w[M]) return (qsense_portion_answer){.refusal = 7};
    if (!within(limit, 1, MAX_LIMIT)) return (qsense_portion_answer){.refusal = 23};
    qsense_portion_answer a = {.next = start};
    examine(w, p, limit, &a);
    return a;
}

static qsense_answer portion_step(uint32_t *w, uint32_t p, uint32_t start, uint32_t limit) {
    const qsense_portion_answer a = portion(w, p, start, limit);
    return (qsense_answer){a.refusal, a.freed};
}

#endif
