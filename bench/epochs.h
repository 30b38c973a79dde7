/* Part of plain.c: the clock, and the epochs that manage moves on. */
#ifndef EPOCHS_H
#define EPOCHS_H

#include "hazards.h"
#include "words.h"

#include <string.h>

static qsense_answer tick(uint32_t *w) {
    if (w[CLOCK] == UINT32_MAX) return refused(15);
    const uint32_t due = delay(w);
    for (uint32_t p = 0; p < w[N]; p++) {
        const uint32_t *s = stores_of(w, p);
        for (uint32_t i = 0; i < process_at(w, p)[PENDING]; i++)
            if (w[CLOCK] - s[STORE * i + STORE_TIME] >= due) return refused(16);
    }
    w[CLOCK]++;
    return accepted(0);
}

/* Whether every process that is present has this value in this word. */
static bool all_equal(uint32_t *w, uint32_t field, uint32_t value) {
    for (uint32_t p = 0; p < w[N]; p++) {
        const uint32_t *x = process_at(w, p);
        if (x[PRESENT] == 1 && x[field] != value) return false;
    }
    return true;
}

static uint32_t free_limbo(uint32_t *w, uint32_t p, uint32_t limbo) {
    uint32_t freed = 0;
    for (uint32_t c = 0; c < w[M]; c++) {
        uint32_t *x = node_at(w, c);
        if (x[STATE] == RETIRED && x[OWNER] == p && x[LIMBO] == limbo) {
            memset(x, 0, NODE * sizeof *x);
            freed++;
        }
    }
    return freed;
}

static uint32_t quiescent(uint32_t *w, uint32_t p) {
    uint32_t *x = process_at(w, p);
    if (x[LOCAL_EPOCH] != w[EPOCH]) {
        x[LOCAL_EPOCH] = w[EPOCH];
        return free_limbo(w, p, w[EPOCH]);
    }
    if (all_equal(w, LOCAL_EPOCH, w[EPOCH])) w[EPOCH] = (w[EPOCH] + 1) % 3;
    return 0;
}

static qsense_answer manage(uint32_t *w, uint32_t p) {
    if (has_assigned(w, p)) return refused(17);
    uint32_t *x = process_at(w, p);
    x[CALLS] = (x[CALLS] + 1) % w[Q];
    if (x[CALLS] != 0) return accepted(0);
    x[PRESENCE] = 1;
    if (w[PATH] == FALLBACK) {
        if (!all_equal(w, PRESENCE, 1)) return accepted(0);
        w[PATH] = FAST;
    }
    return accepted(quiescent(w, p));
}

#endif
