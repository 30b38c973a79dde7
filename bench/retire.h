/* Part of plain.c: retire, with its scan and the switch to the fallback path. */
#ifndef RETIRE_H
#define RETIRE_H

#include "hazards.h"
#include "words.h"

#include <string.h>

static void clear_presence(uint32_t *w) {
    for (uint32_t p = 0; p < w[N]; p++) process_at(w, p)[PRESENCE] = 0;
}

/* How many Retired nodes a process has from a node upward. */
static uint32_t retired_from(uint32_t *w, uint32_t p, uint32_t start) {
    uint32_t count = 0;
    for (uint32_t c = start; c < w[M]; c++) {
        const uint32_t *x = node_at(w, c);
        count += x[STATE] == RETIRED && x[OWNER] == p;
    }
    return count;
}

static void mark_own(uint32_t *w, uint32_t p, bool *seen) {
    uint32_t nodes[MAX_HAZARDS];
    own_nodes(process_at(w, p), w[K], nodes);
    for (uint32_t h = 0; h < w[K]; h++) seen[nodes[h]] = true;
}

/* Nodes in hazards are marked first, as in Michael's scan, so that each node is looked up and not searched for. */
static void mark(uint32_t *w, uint32_t p, bool *seen) {
    for (uint32_t q = 0; q < w[N]; q++) {
        if (q == p)
            mark_own(w, p, seen);
        else
            for (uint32_t h = 0; h < w[K]; h++) seen[hazard_at(w, q, h)[VISIBLE]] = true;
    }
}

static uint32_t scan(uint32_t *w, uint32_t p) {
    bool seen[MAX_NODES + 1] = {false};
    mark(w, p, seen);
    const uint32_t young = delay(w);
    uint32_t freed = 0;
    for (uint32_t c = 0; c < w[M]; c++) {
        uint32_t *x = node_at(w, c);
        if (x[STATE] == RETIRED && x[OWNER] == p && w[CLOCK] - x[RETIRED_AT] > young && !seen[c + 1]) {
            memset(x, 0, NODE * sizeof *x);
            freed++;
        }
    }
    return freed;
}

static qsense_answer retire(uint32_t *w, uint32_t p, uint32_t c) {
    if (c >= w[M]) return refused(7);
    uint32_t *x = node_at(w, c);
    if (x[STATE] != REMOVED) return refused(8);
    if (x[OWNER] != p) return refused(9);
    x[STATE] = RETIRED;
    x[RETIRED_AT] = w[CLOCK];
    x[LIMBO] = process_at(w, p)[LOCAL_EPOCH];
    if (w[PATH] == FAST) {
        if (retired_from(w, p, 0) < w[C]) return accepted(0);
        w[PATH] = FALLBACK;
        clear_presence(w);
    }
    return accepted(scan(w, p));
}

#endif
