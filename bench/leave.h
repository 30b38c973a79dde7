/* Part of plain.c: processes that leave, and hand over their Retired nodes, and that join again. Whether a process takes part at all is
 * its word PRESENT; PRESENCE is whether it has checked in on the fallback path. */
#ifndef LEAVE_H
#define LEAVE_H

#include "hazards.h"
#include "words.h"

static bool holds_unretired(uint32_t *w, uint32_t p) {
    const uint32_t *end = node_at(w, w[M]);
    for (const uint32_t *x = node_at(w, 0); x < end; x += NODE)
        if (x[OWNER] == p && (x[STATE] == ALLOCATED || x[STATE] == REMOVED)) return true;
    return false;
}

/* The Retired nodes of p become those of heir, as if it had retired them now. */
static void hand_over(uint32_t *w, uint32_t p, uint32_t heir) {
    const uint32_t clock = w[CLOCK], limbo = process_at(w, heir)[LOCAL_EPOCH], *end = node_at(w, w[M]);
    for (uint32_t *x = node_at(w, 0); x < end; x += NODE) {
        if (x[STATE] == RETIRED && x[OWNER] == p) {
            x[OWNER] = heir;
            x[RETIRED_AT] = clock;
            x[LIMBO] = limbo;
        }
    }
}

static qsense_answer leave(uint32_t *w, uint32_t p, uint32_t heir) {
    uint32_t *x = process_at(w, p);
    if (x[PENDING] != 0 || has_assigned(w, p) || holds_unretired(w, p)) return refused(21);
    if (heir >= w[N] || heir == p || process_at(w, heir)[PRESENT] == 0) return refused(22);
    hand_over(w, p, heir);
    x[LOCAL_EPOCH] = x[CALLS] = x[PRESENCE] = x[PRESENT] = 0;
    return accepted(0);
}

static qsense_answer join(uint32_t *w, uint32_t p) {
    uint32_t *x = process_at(w, p);
    x[LOCAL_EPOCH] = w[EPOCH];
    x[PRESENT] = 1;
    return accepted(0);
}

#endif
