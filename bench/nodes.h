/* Part of plain.c: the steps on one node, but for its retirement. */
#ifndef NODES_H
#define NODES_H

#include "words.h"

static qsense_answer allocate(uint32_t *w, uint32_t p, uint32_t c, uint32_t guest) {
    if (c >= w[M]) return refused(7);
    uint32_t *x = node_at(w, c);
    if (x[STATE] != FREE) return refused(8);
    x[STATE] = ALLOCATED;
    x[OWNER] = p;
    x[GUEST] = guest;
    return accepted(0);
}

static qsense_answer publish(uint32_t *w, uint32_t p, uint32_t c) {
    if (c >= w[M]) return refused(7);
    uint32_t *x = node_at(w, c);
    if (x[STATE] != ALLOCATED) return refused(8);
    if (x[OWNER] != p) return refused(9);
    x[STATE] = REACHABLE;
    x[OWNER] = 0;
    return accepted(0);
}

static qsense_answer remove_node(uint32_t *w, uint32_t p, uint32_t c) {
    if (c >= w[M]) return refused(7);
    uint32_t *x = node_at(w, c);
    if (x[STATE] != REACHABLE) return refused(8);
    x[STATE] = REMOVED;
    x[OWNER] = p;
    return accepted(0);
}

static qsense_answer reinsert(uint32_t *w, uint32_t p, uint32_t c) {
    if (c >= w[M]) return refused(7);
    uint32_t *x = node_at(w, c);
    if (x[STATE] != REMOVED) return refused(8);
    if (x[OWNER] != p) return refused(9);
    x[STATE] = REACHABLE;
    x[OWNER] = 0;
    return accepted(0);
}

#endif
