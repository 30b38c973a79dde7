/* Part of plain.c: why a node is still waiting, the first that is true of four answers, and who is behind in epochs. */
#ifndef WHY_H
#define WHY_H

#include "hazards.h"
#include "words.h"

enum { NOT_RETIRED = 1, YOUNG, SEEN, READY }; /* answers */
enum { NOT_ASKED, NOBODY, SOMEBODY };         /* who is behind */

/* The lowest of k hazards, so many words apart, with this node; k where none has it. */
static uint32_t hazard_with(const uint32_t *nodes, uint32_t apart, uint32_t k, uint32_t stored) {
    for (uint32_t h = 0; h < k; h++)
        if (nodes[apart * h] == stored) return h;
    return k;
}

/* Whether the owner sees the node in a hazard, and in which: of the lowest process the lowest. */
static void ask_hazards(const uint32_t *w, uint32_t owner, uint32_t stored, qsense_why_answer *a) {
    const uint32_t n = w[N], k = w[K];
    const uint32_t *x = w + HEAD;
    a->answer = READY;
    for (uint32_t q = 0; q < n; q++, x += process_width(k)) {
        uint32_t own[MAX_HAZARDS], h;
        if (q == owner) {
            own_nodes(x, k, own);
            h = hazard_with(own, 1, k, stored);
        } else {
            h = hazard_with(x + PROCESS + VISIBLE, HAZARD, k, stored);
        }
        if (h < k) {
            a->answer = SEEN;
            a->process = q;
            a->hazard = h;
            return;
        }
    }
}

static void ask_node(const uint32_t *w, const uint32_t *x, uint32_t stored, qsense_why_answer *a) {
    if (x[STATE] != RETIRED) {
        a->answer = NOT_RETIRED;
        a->state = x[STATE];
        return;
    }
    const uint32_t age = w[CLOCK] - x[RETIRED_AT], young = delay(w);
    if (age <= young) {
        a->answer = YOUNG;
        a->ticks = young - age + 1;
        return;
    }
    ask_hazards(w, x[OWNER], stored, a);
}

/* The lowest process that is present and not at the global epoch. */
static void ask_epochs(const uint32_t *w, qsense_why_answer *a) {
    if (w[PATH] != FAST) return;
    const uint32_t n = w[N], width = process_width(w[K]), epoch = w[EPOCH];
    const uint32_t *x = w + HEAD;
    a->behind = NOBODY;
    for (uint32_t p = 0; p < n; p++, x += width) {
        if (x[PRESENT] == 1 && x[LOCAL_EPOCH] != epoch) {
            a->behind = SOMEBODY;
            a->behind_process = p;
            return;
        }
    }
}

static qsense_why_answer why(const uint32_t *w, size_t len, uint32_t c) {
    qsense_why_answer a = {0};
    if (c >= w[M]) {
        a.refusal = 7;
        return a;
    }
    ask_node(w, w + len - NODE * (w[M] - c), c + 1, &a);
    ask_epochs(w, &a);
    return a;
}

#endif
