/* Part of plain.c: the steps on hazards and the store buffer. */
#ifndef HAZARDS_H
#define HAZARDS_H

#include "words.h"

#include <string.h>

static bool has_assigned(uint32_t *w, uint32_t p) {
    for (uint32_t h = 0; h < w[K]; h++)
        if (hazard_at(w, p, h)[ASSIGNED] != 0) return true;
    return false;
}

/* What the process x sees in each of its own hazards: the node of the last pending store to it, or else the visible one. */
static void own_nodes(const uint32_t *x, uint32_t k, uint32_t *nodes) {
    const uint32_t *hazards = x + PROCESS, *s = hazards + HAZARD * k;
    for (uint32_t h = 0; h < k; h++) nodes[h] = hazards[HAZARD * h + VISIBLE];
    for (uint32_t i = 0; i < x[PENDING]; i++, s += STORE) nodes[s[STORE_HAZARD]] = s[STORE_NODE];
}

static void add_store(uint32_t *w, uint32_t p, uint32_t h, uint32_t stored) {
    uint32_t *x = process_at(w, p);
    uint32_t *s = stores_of(w, p) + STORE * x[PENDING]++;
    s[STORE_HAZARD] = h;
    s[STORE_NODE] = stored;
    s[STORE_TIME] = w[CLOCK];
}

static qsense_answer assign(uint32_t *w, uint32_t p, uint32_t h, uint32_t stored) {
    if (process_at(w, p)[PENDING] == STORES) return refused(13);
    uint32_t *z = hazard_at(w, p, h);
    z[ASSIGNED] = stored;
    z[VALIDATED] = 0;
    add_store(w, p, h, stored);
    return accepted(0);
}

static qsense_answer protect(uint32_t *w, uint32_t p, uint32_t h, uint32_t c) {
    if (c >= w[M]) return refused(7);
    return assign(w, p, h, c + 1);
}

static qsense_answer check(uint32_t *w, uint32_t p, uint32_t h) {
    uint32_t *z = hazard_at(w, p, h);
    if (z[ASSIGNED] == 0) return refused(10);
    if (node_at(w, z[ASSIGNED] - 1)[STATE] != REACHABLE) return refused(11);
    z[VALIDATED] = 1;
    return accepted(0);
}

static qsense_answer use(uint32_t *w, uint32_t p, uint32_t h) {
    const uint32_t *z = hazard_at(w, p, h);
    if (z[VALIDATED] == 0) return refused(12);
    return accepted(node_at(w, z[ASSIGNED] - 1)[GUEST]);
}

static qsense_answer drain(uint32_t *w, uint32_t p) {
    uint32_t *x = process_at(w, p), *s = stores_of(w, p);
    if (x[PENDING] == 0) return refused(14);
    hazard_at(w, p, s[STORE_HAZARD])[VISIBLE] = s[STORE_NODE];
    x[PENDING]--;
    memmove(s, s + STORE, STORE * x[PENDING] * sizeof *s);
    memset(s + STORE * x[PENDING], 0, STORE * sizeof *s);
    return accepted(0);
}

static qsense_answer flush(uint32_t *w, uint32_t p) {
    uint32_t *x = process_at(w, p), *s = stores_of(w, p);
    for (uint32_t i = 0; i < x[PENDING]; i++)
        hazard_at(w, p, s[STORE * i + STORE_HAZARD])[VISIBLE] = s[STORE * i + STORE_NODE];
    memset(s, 0, STORE * x[PENDING] * sizeof *s);
    x[PENDING] = 0;
    return accepted(0);
}

#endif
