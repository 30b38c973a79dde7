/* Part of plain.c: are any words a well-formed domain? It leaves at the first that is wrong. */
#ifndef CHECK_H
#define CHECK_H

#include "words.h"

static bool process_well_formed(const uint32_t *p, uint32_t k, uint32_t m, uint32_t q, uint32_t clock) {
    if (p[LOCAL_EPOCH] > 2 || p[CALLS] >= q || p[PRESENCE] > 1 || p[PENDING] > STORES || p[PRESENT] > 1) return false;
    const uint32_t *h = p + PROCESS;
    for (uint32_t i = 0; i < k; i++, h += HAZARD) {
        if (h[VISIBLE] > m || h[ASSIGNED] > m || h[VALIDATED] > 1) return false;
        if (h[VALIDATED] == 1 && h[ASSIGNED] == 0) return false;
    }
    const uint32_t *s = h;
    uint32_t i = 0;
    for (; i < p[PENDING]; i++, s += STORE)
        if (s[STORE_HAZARD] >= k || s[STORE_NODE] > m || s[STORE_TIME] > clock) return false;
    for (; i < STORES; i++, s += STORE)
        if ((s[STORE_HAZARD] | s[STORE_NODE] | s[STORE_TIME]) != 0) return false;
    return true;
}

static bool node_well_formed(const uint32_t *x, uint32_t n, uint32_t clock) {
    switch (x[STATE]) {
    case FREE: return (x[OWNER] | x[GUEST] | x[RETIRED_AT] | x[LIMBO]) == 0;
    case ALLOCATED:
    case REMOVED: return x[OWNER] < n && (x[RETIRED_AT] | x[LIMBO]) == 0;
    case REACHABLE: return (x[OWNER] | x[RETIRED_AT] | x[LIMBO]) == 0;
    case RETIRED: return x[OWNER] < n && x[RETIRED_AT] <= clock && x[LIMBO] <= 2;
    default: return false;
    }
}

/* Goes once over the nodes: each is checked and counted. */
static bool well_formed_counted(const uint32_t *w, size_t len, uint32_t *reachable) {
    if (len < HEAD) return false;
    if (!within(w[T], 1, 1000) || !within(w[Q], 1, 1000) || !within(w[C], 1, 256) || !within(w[E], 0, 1000)) return false;
    if (w[PATH] > FALLBACK || w[EPOCH] > 2) return false;
    if (len != plain_length(w[N], w[K], w[M])) return false;
    const uint32_t n = w[N], k = w[K], m = w[M], q = w[Q], clock = w[CLOCK];
    const uint32_t *at = w + HEAD;
    for (uint32_t p = 0; p < n; p++, at += process_width(k))
        if (!process_well_formed(at, k, m, q, clock)) return false;
    uint32_t count = 0;
    for (uint32_t c = 0; c < m; c++, at += NODE) {
        if (!node_well_formed(at, n, clock)) return false;
        count += at[STATE] == REACHABLE;
    }
    *reachable = count;
    return true;
}

static bool well_formed(const uint32_t *w, size_t len) {
    uint32_t unused;
    return well_formed_counted(w, len, &unused);
}

#endif
