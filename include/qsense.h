/* Furtaqyl for C and C++: memory reclamation by QSense on words that the caller lends.
 *
 * The pointer rule. Words lent to a call, steps and answers too, are the caller's alone during it: as many as the length says, aligned,
 * alive, and neither written nor read by anybody else meanwhile (const ones may be read), so a host has one lock a domain. Slices lent to
 * one call may not overlap. A pointer may be NULL only where its length is 0.
 *
 * A domain has N processes, K hazards a process and M nodes, each counted from 0, and lives in qsense_length(N, K, M) words of the
 * caller's. All that the library knows is in these words; it keeps no memory of its own. Every call takes any words, any lengths and any
 * numbers: what does not fit is refused, and a refused call changes no word.
 *
 * docs/HOST.md has the decisions that a host must make. */
#ifndef QSENSE_H
#define QSENSE_H

#include <stdbool.h>
#include <stddef.h>
#include <stdint.h>

/* The version of this header and of the archive that it comes with. */
#define QSENSE_VERSION_MAJOR 0
#define QSENSE_VERSION_MINOR 10
#define QSENSE_VERSION_PATCH 0
#define QSENSE_VERSION (QSENSE_VERSION_MAJOR * 10000 + QSENSE_VERSION_MINOR * 100 + QSENSE_VERSION_PATCH)
#define QSENSE_QUOTED_(x) #x
#define QSENSE_QUOTED(x) QSENSE_QUOTED_(x)
#define QSENSE_VERSION_STRING \
    QSENSE_QUOTED(QSENSE_VERSION_MAJOR) "." QSENSE_QUOTED(QSENSE_VERSION_MINOR) "." QSENSE_QUOTED(QSENSE_VERSION_PATCH)

/* An answer that nobody looks at is a mistake: a refused call has done nothing. With QSENSE_STRICT defined the compiler warns of one. */
#if !defined(QSENSE_STRICT)
#define QSENSE_LOOK_AT_IT
#elif defined(__GNUC__) || defined(__clang__)
#define QSENSE_LOOK_AT_IT __attribute__((warn_unused_result))
#elif defined(__cplusplus) && __cplusplus >= 201703L
#define QSENSE_LOOK_AT_IT [[nodiscard]]
#else
#define QSENSE_LOOK_AT_IT
#endif

#ifdef __cplusplus
extern "C" {
#endif

/* The kinds of steps, each with the fields that it reads. */
enum qsense_kind {
    QSENSE_KIND_ALLOCATE = 1,        /* (process, node, guest)    Free to Allocated, with this owner and guest */
    QSENSE_KIND_PUBLISH = 2,         /* (process, node)           Allocated to Reachable, without an owner */
    QSENSE_KIND_PROTECT = 3,         /* (process, hazard, node)   assigns the node to the hazard, not validated; the store is pending */
    QSENSE_KIND_CHECK = 4,           /* (process, hazard)         validates the hazard */
    QSENSE_KIND_USE = 5,             /* (process, hazard)         value: the guest of the assigned node */
    QSENSE_KIND_CLEAR = 6,           /* (process, hazard)         assigns no node to the hazard, in the same way as protect */
    QSENSE_KIND_REMOVE = 7,          /* (process, node)           Reachable to Removed, with this owner */
    QSENSE_KIND_RETIRE = 8,          /* (process, node)           Removed to Retired, then perhaps a scan; value: nodes freed */
    QSENSE_KIND_DRAIN = 9,           /* (process)                 commits the oldest pending store */
    QSENSE_KIND_FLUSH = 10,          /* (process)                 commits all pending stores */
    QSENSE_KIND_TICK = 11,           /* ()                        the clock moves on */
    QSENSE_KIND_MANAGE = 12,         /* (process)                 every Q-th call is a quiescent state; value: nodes freed */
    QSENSE_KIND_CLEAR_PRESENCE = 13, /* ()                        no process has checked in: all presence words 0 */
    QSENSE_KIND_REINSERT = 14,       /* (process, node)           Removed to Reachable, without an owner */
    QSENSE_KIND_LEAVE = 15,          /* (process, heir)           the process is absent; its Retired nodes are the heir's */
    QSENSE_KIND_JOIN = 16,           /* (process)                 the process is present again, at the global epoch */
    QSENSE_KIND_PORTION = 17         /* (process, start, limit)   a scan of at most so many nodes; value: nodes freed */
};

/* Why a call is refused. Of those that a call asks, the first in this order that holds is answered. */
enum qsense_refusal {
    QSENSE_ACCEPTED = 0,
    QSENSE_REFUSED_PARAMETER = 1,        /* if a parameter is out of its range */
    QSENSE_REFUSED_LENGTH = 2,           /* if the slice is not as long as qsense_length says */
    QSENSE_REFUSED_MALFORMED = 3,        /* if the words are no well-formed domain */
    QSENSE_REFUSED_KIND = 4,             /* if the kind is not 1 to 17 */
    QSENSE_REFUSED_PROCESS = 5,          /* if the process is not below N */
    QSENSE_REFUSED_ATTENDANCE = 20,      /* if the process is absent, or, to join, present */
    QSENSE_REFUSED_BURDENED = 21,        /* if a leaver has a hazard assigned, a store pending, or an Allocated or Removed node */
    QSENSE_REFUSED_HEIR = 22,            /* if the heir is not below N, is the leaver, or is absent */
    QSENSE_REFUSED_HAZARD = 6,           /* if the hazard is not below K */
    QSENSE_REFUSED_NODE = 7,             /* if the node, or the start of a portion, is not below M */
    QSENSE_REFUSED_LIMIT = 23,           /* if the limit is not 1 to 256 */
    QSENSE_REFUSED_STATE = 8,            /* if the node is not Free (allocate), Allocated (publish), Reachable (remove), Removed (retire, reinsert) */
    QSENSE_REFUSED_OWNER = 9,            /* if the process does not own it */
    QSENSE_REFUSED_NOT_ASSIGNED = 10,    /* if the hazard has no node assigned */
    QSENSE_REFUSED_NOT_REACHABLE = 11,   /* if that node is not Reachable */
    QSENSE_REFUSED_NOT_VALIDATED = 12,   /* if the hazard is not validated */
    QSENSE_REFUSED_BUFFER_FULL = 13,     /* if the process has 8 stores pending */
    QSENSE_REFUSED_BUFFER_EMPTY = 14,    /* if it has none */
    QSENSE_REFUSED_CLOCK = 15,           /* if the clock is at 4294967295 */
    QSENSE_REFUSED_FLUSH_DUE = 16,       /* if a store of any process has been pending for T + E ticks */
    QSENSE_REFUSED_HAZARD_ASSIGNED = 17, /* if a hazard of the process has a node assigned */
    QSENSE_REFUSED_BOOK_SIZE = 18,       /* by the programs alone: if a book has more than 65,536 bytes */
    QSENSE_REFUSED_BOOK_TRAILER = 19     /* by the programs alone: if its trailer is wrong */
};

enum qsense_state {
    QSENSE_STATE_FREE = 0,
    QSENSE_STATE_ALLOCATED = 1,
    QSENSE_STATE_REACHABLE = 2,
    QSENSE_STATE_REMOVED = 3,
    QSENSE_STATE_RETIRED = 4
};

enum qsense_path { QSENSE_PATH_FAST = 0, QSENSE_PATH_FALLBACK = 1 };

/* What a call answers: refusal is 0 where it was accepted and else says why not, value is 0 unless said. */
typedef struct {
    uint32_t refusal;
    uint32_t value;
} qsense_answer;

/* How many words a domain takes: 10 + n * (29 + 3 * k) + 5 * m, from 47 to 2138. 0 if n, k or m is out of range.
 * It reads and changes no words and is never refused. */
QSENSE_LOOK_AT_IT uint32_t qsense_length(uint32_t n, uint32_t k, uint32_t m);

/* Makes a fresh domain in words, whatever they held: its parameters first, in this order, 1 in the word present of each process, and 0
 * in every other word.
 *   n  N, processes, 1 to 16
 *   k  K, hazards of each process, 1 to 8
 *   m  M, nodes, 1 to 256
 *   t  T, 1 to 1000: within so many ticks a store is visible, if flushes come in time
 *   q  Q, 1 to 1000: every Q-th manage of a process acts
 *   c  C, 1 to 256: a process with so many Retired nodes leaves the fast path
 *   e  E, 0 to 1000: a flush may come so many ticks late
 * The value is 0. Refused, with no word changed, with
 *   1  if a parameter is out of range
 *   2  if len is not qsense_length(n, k, m) */
QSENSE_LOOK_AT_IT qsense_answer qsense_make(uint32_t *words, size_t len, uint32_t n, uint32_t k, uint32_t m, uint32_t t,
                                            uint32_t q, uint32_t c, uint32_t e);

/* Takes one step of a kind. Only the fields that stand with the kind above are read.
 * The heir of a leave is a second process, and stands in the field of the node. The start of a portion is a node and stands there too; its
 * limit stands in the field of the guest. An absent process takes no step but a join; neither the global epoch nor the way back to the fast
 * path waits for it. Its hazards and its pending stores still count. What a leaver hands over is as if retired by its heir now.
 * A retire on the fallback path scans; one on the fast path with which its process has C or more Retired nodes switches to the fallback path
 * and scans. A scan frees the Retired nodes of the process that were retired more than T + E ticks ago and that it sees in no hazard: its own
 * hazards count as the node of the last pending store to them, or else as the visible one, those of others as the visible one. A portion does
 * the same to a part of them, on either path, and switches none; qsense_portion says to which.
 * On the fast path a Retired node waits for manages: it is freed by the end of seven rounds, stretches of steps in each of which every process
 * that is present has at least Q accepted ones, if the path stays fast and its owner does not leave meanwhile.
 * The value is 0 where none is named. Refused, with value 0 and no word changed, with the first number of
 *    3  if the words are no well-formed domain
 *    4  if the kind is not 1 to 17
 *    5  if the process is not below N (all but 11 and 13)
 *   20  if the process is absent (all but 11, 13 and 16), present (16)
 *   21  if the process has a node assigned to a hazard, a pending store, or an Allocated or Removed node (15)
 *   22  if the heir is not below N, is the process itself, or is absent (15)
 *    6  if the hazard is not below K (3 to 6)
 *    7  if the node is not below M (1, 2, 3, 7, 8, 14), or the start is not (17)
 *   23  if the limit is not 1 to 256 (17)
 *    8  if the node is not Free (1), Allocated (2), Reachable (7), Removed (8, 14)
 *    9  if the process does not own it (2, 8, 14)
 *   10  if the hazard has no node assigned (4)
 *   11  if that node is not Reachable (4)
 *   12  if the hazard is not validated (5)
 *   13  if the process has 8 pending stores (3, 6)
 *   14  if it has none (9)
 *   15  if the clock is at 4294967295 (11)
 *   16  if a pending store of any process is T + E ticks old or older (11)
 *   17  if a hazard of the process has a node assigned (12) */
QSENSE_LOOK_AT_IT qsense_answer qsense_step(uint32_t *words, size_t len, uint32_t kind, uint32_t process, uint32_t hazard,
                                            uint32_t node, uint32_t guest);

/* Counts the Reachable nodes: the value. It changes no word. Refused with
 *   3  if the words are no well-formed domain */
QSENSE_LOOK_AT_IT qsense_answer qsense_reachable(const uint32_t *words, size_t len);

/* The first that is true of a node, and who is behind in epochs. */
enum qsense_why_kind {
    QSENSE_WHY_REFUSED = 0,
    QSENSE_WHY_NOT_RETIRED = 1, /* state says what it is */
    QSENSE_WHY_YOUNG = 2,       /* retired at most T + E ticks ago; ticks says how much older it must be for a scan to free it */
    QSENSE_WHY_VISIBLE = 3,     /* its owner sees it in a hazard, as a scan by it would; process and hazard say in which */
    QSENSE_WHY_READY = 4        /* a scan by its owner would free it now */
};

enum qsense_behind {
    QSENSE_BEHIND_NOT_ASKED = 0, /* on the fallback path */
    QSENSE_BEHIND_NOBODY = 1,    /* each present process is at the global epoch */
    QSENSE_BEHIND_PROCESS = 2    /* behind_process is at another one */
};

/* Why a node is still waiting. A number that is not said to be anything is 0.
 *   refusal         0, or 3 or 7
 *   answer          one of enum qsense_why_kind
 *   state           not Retired: its state, 0 Free, 1 Allocated, 2 Reachable, 3 Removed
 *   ticks           too young: how much older it must be for a scan to free it, whether the clock can come to that or not
 *   process         visible: the lowest process with such a hazard
 *   hazard          visible: the lowest such hazard of that process
 *   behind          one of enum qsense_behind
 *   behind_process  the lowest present process at another epoch than the global one, if there is one and the path is fast */
typedef struct {
    uint32_t refusal;
    uint32_t answer;
    uint32_t state;
    uint32_t ticks;
    uint32_t process;
    uint32_t hazard;
    uint32_t behind;
    uint32_t behind_process;
} qsense_why_answer;

/* Says why a node is still waiting. The owner may be present or absent. It changes no word. Refused, with every other number 0, with the
 * first number of
 *   3  if the words are no well-formed domain
 *   7  if the node is not below M */
QSENSE_LOOK_AT_IT qsense_why_answer qsense_why(const uint32_t *words, size_t len, uint32_t node);

/* What a portion of a scan did. All numbers after the first are 0 if it is refused.
 *   refusal         0, or 3, 5, 20, 7 or 23
 *   freed           how many of the examined nodes were freed
 *   examined        how many Retired nodes of the process were met, before the step, from the start up to next, which is left out
 *   next            the node to go on from: the one after the last that was examined, if those were as many as the limit; else M
 *   left            how many Retired nodes the process still has from next upward */
typedef struct {
    uint32_t refusal;
    uint32_t freed;
    uint32_t examined;
    uint32_t next;
    uint32_t left;
} qsense_portion_answer;

/* Takes a step of kind 17, a portion of a scan, and says how far it came; words and freed are those of qsense_step. It goes over the nodes
 * from start upward and examines the Retired ones of the process, until it has examined as many as the limit or there are no more nodes.
 * Of those it frees what a scan by the process frees.
 * Where it is accepted next is greater than start, so a caller that goes on from next until it is M comes to an end; such portions from 0
 * to M, with no other step between them, leave the words that one whole scan leaves. Refused, with every other number 0 and no word changed
 * (next too: a loop that does not look at the refusal never ends), with the first number of
 *    3  if the words are no well-formed domain
 *    5  if the process is not below N
 *   20  if the process is absent
 *    7  if the start is not below M
 *   23  if the limit is not 1 to 256 */
QSENSE_LOOK_AT_IT qsense_portion_answer qsense_portion(uint32_t *words, size_t len, uint32_t process, uint32_t start,
                                                       uint32_t limit);

/* Takes a list of steps, five words each in the order of qsense_step, and writes an answer for each, two words each: refusal, value.
 * Answers and words are those of qsense_step called for one after another, with its numbers; the words are checked once.
 * It returns true, also for an empty list. It returns false and writes nothing, neither words nor answers, if steps_len is not 5 * j with
 * answers_len = 2 * j for any j. */
QSENSE_LOOK_AT_IT bool qsense_run(uint32_t *words, size_t len, const uint32_t *steps, size_t steps_len, uint32_t *answers,
                                  size_t answers_len);

/* Readers of a domain's words, for a host that shows or logs them; the pointer rule holds. They ask nothing and are total: none reads past
 * len, and each answers 0 if there is no such process, hazard, store or node. What they say is meant of words that a call accepts.
 * A hazard and a store hold a node as node + 1, and 0 for none. */
enum qsense_layout {
    QSENSE_HEAD = 10,        /* N, K, M, T, Q, C, E, the clock, the path, the global epoch; then the processes */
    QSENSE_LEAD = 5,         /* of a process: local epoch, calls, presence, how many stores are pending, present; then its hazards */
    QSENSE_HAZARD = 3,       /* of a hazard: visible node, assigned node, validated; after the last hazard the stores */
    QSENSE_STORE = 3,        /* of a pending store: hazard, node, time, the oldest first; after the last process the nodes */
    QSENSE_STORES = 8,       /* places for the stores of a process */
    QSENSE_NODE = 5,         /* of a node: state, owner, guest, when it was retired, limbo list */
    QSENSE_MOST_WORDS = 2138 /* of the greatest domain */
};

static inline uint32_t qsense_word(const uint32_t *words, size_t len, uint64_t at) { return at < len ? words[at] : 0; }

/* The head. */
#define QSENSE_HEAD_READER(name, at) \
    static inline uint32_t qsense_read_##name(const uint32_t *words, size_t len) { return qsense_word(words, len, at); }
QSENSE_HEAD_READER(processes, 0)  /* N */
QSENSE_HEAD_READER(hazards, 1)    /* K */
QSENSE_HEAD_READER(nodes, 2)      /* M */
QSENSE_HEAD_READER(visibility, 3) /* T */
QSENSE_HEAD_READER(quiescence, 4) /* Q */
QSENSE_HEAD_READER(fallback, 5)   /* C */
QSENSE_HEAD_READER(lateness, 6)   /* E */
QSENSE_HEAD_READER(clock, 7)
QSENSE_HEAD_READER(path, 8) /* one of enum qsense_path */
QSENSE_HEAD_READER(epoch, 9)

static inline uint64_t qsense_process_width(const uint32_t *words, size_t len) {
    return QSENSE_LEAD + QSENSE_HAZARD * (uint64_t)qsense_read_hazards(words, len) + QSENSE_STORE * QSENSE_STORES;
}

static inline uint32_t qsense_process_word(const uint32_t *words, size_t len, uint32_t process, uint64_t at) {
    if (process >= qsense_read_processes(words, len)) return 0;
    return qsense_word(words, len, QSENSE_HEAD + qsense_process_width(words, len) * process + at);
}

/* A process: its lead. */
#define QSENSE_PROCESS_READER(name, at) \
    static inline uint32_t qsense_process_##name(const uint32_t *words, size_t len, uint32_t process) { \
        return qsense_process_word(words, len, process, at); \
    }
QSENSE_PROCESS_READER(epoch, 0)
QSENSE_PROCESS_READER(calls, 1)
QSENSE_PROCESS_READER(presence, 2)
QSENSE_PROCESS_READER(stores, 3)
QSENSE_PROCESS_READER(present, 4)

/* A hazard of a process. */
#define QSENSE_HAZARD_READER(name, at) \
    static inline uint32_t qsense_hazard_##name(const uint32_t *words, size_t len, uint32_t process, uint32_t hazard) { \
        if (hazard >= qsense_read_hazards(words, len)) return 0; \
        return qsense_process_word(words, len, process, QSENSE_LEAD + QSENSE_HAZARD * (uint64_t)hazard + at); \
    }
QSENSE_HAZARD_READER(visible, 0)
QSENSE_HAZARD_READER(assigned, 1)
QSENSE_HAZARD_READER(validated, 2)

/* The i-th pending store of a process, the oldest first. */
#define QSENSE_STORE_READER(name, at) \
    static inline uint32_t qsense_store_##name(const uint32_t *words, size_t len, uint32_t process, uint32_t i) { \
        if (i >= QSENSE_STORES) return 0; \
        return qsense_process_word(words, len, process, qsense_process_width(words, len) - QSENSE_STORE * (QSENSE_STORES - i) + at); \
    }
QSENSE_STORE_READER(hazard, 0)
QSENSE_STORE_READER(node, 1)
QSENSE_STORE_READER(time, 2)

/* A node. */
#define QSENSE_NODE_READER(name, at) \
    static inline uint32_t qsense_node_##name(const uint32_t *words, size_t len, uint32_t node) { \
        if (node >= qsense_read_nodes(words, len)) return 0; \
        return qsense_word(words, len, QSENSE_HEAD + qsense_process_width(words, len) * qsense_read_processes(words, len) + \
                                           QSENSE_NODE * (uint64_t)node + at); \
    }
QSENSE_NODE_READER(state, 0) /* one of enum qsense_state */
QSENSE_NODE_READER(owner, 1)
QSENSE_NODE_READER(guest, 2)
QSENSE_NODE_READER(retired_at, 3)
QSENSE_NODE_READER(limbo, 4)

#undef QSENSE_HEAD_READER
#undef QSENSE_PROCESS_READER
#undef QSENSE_HAZARD_READER
#undef QSENSE_STORE_READER
#undef QSENSE_NODE_READER

#ifdef __cplusplus
}
#endif

#endif
