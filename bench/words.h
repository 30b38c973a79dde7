/* The words of a domain for plain C: their names, where each row starts, and an answer made of two numbers. */
#ifndef WORDS_H
#define WORDS_H

#include "plain.h"

enum { N, K, M, T, Q, C, E, CLOCK, PATH, EPOCH, HEAD };           /* the words of the head, and their number; so below */
enum { LOCAL_EPOCH, CALLS, PRESENCE, PENDING, PRESENT, PROCESS }; /* of a process, before its hazards and its stores */
enum { VISIBLE, ASSIGNED, VALIDATED, HAZARD };                    /* of a hazard; a node is held as node + 1, 0 for none */
enum { STORE_HAZARD, STORE_NODE, STORE_TIME, STORE };             /* of a pending store */
enum { STATE, OWNER, GUEST, RETIRED_AT, LIMBO, NODE };            /* of a node */
enum { FREE, ALLOCATED, REACHABLE, REMOVED, RETIRED };            /* states of a node */
enum { FAST, FALLBACK };
enum { ALLOCATE = 1, PUBLISH, PROTECT, CHECK, USE, CLEAR, REMOVE, RETIRE, DRAIN, FLUSH, TICK, MANAGE, CLEAR_PRESENCE,
       REINSERT, LEAVE, JOIN, PORTION, PAST_KINDS };              /* kinds, and the number past the last */
enum { STORES = 8, MAX_HAZARDS = 8, MAX_NODES = 256, MAX_LIMIT = 256 };

static qsense_answer refused(uint32_t number) {
    return (qsense_answer){number, 0};
}

static qsense_answer accepted(uint32_t value) {
    return (qsense_answer){0, value};
}

static bool within(uint32_t x, uint32_t low, uint32_t high) {
    return x >= low && x <= high;
}

static uint32_t process_width(uint32_t k) {
    return PROCESS + HAZARD * k + STORE * STORES;
}

static uint32_t *process_at(uint32_t *w, uint32_t p) {
    return w + HEAD + p * process_width(w[K]);
}

static uint32_t *hazard_at(uint32_t *w, uint32_t p, uint32_t h) {
    return process_at(w, p) + PROCESS + HAZARD * h;
}

static uint32_t *stores_of(uint32_t *w, uint32_t p) {
    return hazard_at(w, p, w[K]);
}

static uint32_t *node_at(uint32_t *w, uint32_t c) {
    return process_at(w, w[N]) + NODE * c;
}

/* No store stays pending for more ticks than this: a flush comes within T, and up to E late. */
static uint32_t delay(const uint32_t *w) {
    return w[T] + w[E];
}

#endif
