/* The rules of document 01 in plain C: the words are checked before each step, with an exit at the first that is wrong. The parts are
 * headers, so that gcc has all of it in one piece. */
#include "plain.h"

#include "check.h"
#include "epochs.h"
#include "hazards.h"
#include "leave.h"
#include "nodes.h"
#include "portion.h"
#include "retire.h"
#include "why.h"
#include "words.h"

#include <string.h>

static qsense_answer step_known(uint32_t *w, uint32_t kind, uint32_t p, uint32_t h, uint32_t c, uint32_t guest) {
    if (!within(kind, ALLOCATE, PAST_KINDS - 1)) return refused(4);
    if (kind != TICK && kind != CLEAR_PRESENCE) {
        if (p >= w[N]) return refused(5);
        if (process_at(w, p)[PRESENT] != (kind != JOIN)) return refused(20);
    }
    if (within(kind, PROTECT, CLEAR) && h >= w[K]) return refused(6);
    switch (kind) {
    case ALLOCATE: return allocate(w, p, c, guest);
    case PUBLISH: return publish(w, p, c);
    case PROTECT: return protect(w, p, h, c);
    case CHECK: return check(w, p, h);
    case USE: return use(w, p, h);
    case CLEAR: return assign(w, p, h, 0);
    case REMOVE: return remove_node(w, p, c);
    case RETIRE: return retire(w, p, c);
    case DRAIN: return drain(w, p);
    case FLUSH: return flush(w, p);
    case TICK: return tick(w);
    case MANAGE: return manage(w, p);
    case REINSERT: return reinsert(w, p, c);
    case LEAVE: return leave(w, p, c);
    case JOIN: return join(w, p);
    case PORTION: return portion_step(w, p, c, guest);
    default: clear_presence(w); return accepted(0);
    }
}

uint32_t plain_length(uint32_t n, uint32_t k, uint32_t m) {
    if (!within(n, 1, 16) || !within(k, 1, 8) || !within(m, 1, MAX_NODES)) return 0;
    return HEAD + n * process_width(k) + NODE * m;
}

qsense_answer plain_make(uint32_t *words, size_t len, uint32_t n, uint32_t k, uint32_t m, uint32_t t, uint32_t q,
                         uint32_t c, uint32_t e) {
    uint32_t length = plain_length(n, k, m);
    if (length == 0 || !within(t, 1, 1000) || !within(q, 1, 1000) || !within(c, 1, 256) || !within(e, 0, 1000)) return refused(1);
    if (len != length) return refused(2);
    const uint32_t parameters[] = {n, k, m, t, q, c, e};
    memset(words, 0, len * sizeof *words);
    memcpy(words, parameters, sizeof parameters);
    for (uint32_t p = 0; p < n; p++) process_at(words, p)[PRESENT] = 1;
    return accepted(0);
}

qsense_answer plain_step(uint32_t *words, size_t len, uint32_t kind, uint32_t process, uint32_t hazard, uint32_t node,
                         uint32_t guest) {
    if (!well_formed(words, len)) return refused(3);
    return step_known(words, kind, process, hazard, node, guest);
}

/* Not inlined: else plain_why and plain_portion would call the check that counts, which takes longer. */
__attribute__((noinline)) bool plain_well_formed(const uint32_t *words, size_t len) {
    return well_formed(words, len);
}

qsense_answer plain_reachable(const uint32_t *words, size_t len) {
    uint32_t count;
    return well_formed_counted(words, len, &count) ? accepted(count) : refused(3);
}

qsense_answer plain_reachable_in_two(const uint32_t *words, size_t len) {
    if (!well_formed(words, len)) return refused(3);
    const uint32_t *x = words + len - NODE * words[M];
    uint32_t count = 0;
    for (uint32_t c = 0; c < words[M]; c++, x += NODE) count += x[STATE] == REACHABLE;
    return accepted(count);
}

qsense_why_answer plain_why(const uint32_t *words, size_t len, uint32_t node) {
    if (!plain_well_formed(words, len)) return (qsense_why_answer){.refusal = 3};
    return why(words, len, node);
}

qsense_portion_answer plain_portion(uint32_t *words, size_t len, uint32_t process, uint32_t start, uint32_t limit) {
    if (!plain_well_formed(words, len)) return (qsense_portion_answer){.refusal = 3};
    if (process >= words[N]) return (qsense_portion_answer){.refusal = 5};
    if (process_at(words, process)[PRESENT] == 0) return (qsense_portion_answer){.refusal = 20};
    qsense_portion_answer a = portion(words, process, start, limit);
    if (a.refusal == 0) a.left = retired_from(words, process, a.next);
    return a;
}

static bool fit(size_t steps_len, size_t answers_len) {
    return steps_len % 5 == 0 && answers_len % 2 == 0 && steps_len / 5 == answers_len / 2;
}

bool plain_run(uint32_t *words, size_t len, const uint32_t *steps, size_t steps_len, uint32_t *answers, size_t answers_len) {
    if (!fit(steps_len, answers_len)) return false;
    for (const uint32_t *s = steps; s < steps + steps_len; s += 5, answers += 2) {
        qsense_answer a = plain_step(words, len, s[0], s[1], s[2], s[3], s[4]);
        answers[0] = a.refusal;
        answers[1] = a.value;
    }
    return true;
}

bool plain_run_trusting(uint32_t *words, size_t len, const uint32_t *steps, size_t steps_len, uint32_t *answers,
                        size_t answers_len) {
    if (!fit(steps_len, answers_len)) return false;
    bool good = well_formed(words, len);
    for (const uint32_t *s = steps; s < steps + steps_len; s += 5, answers += 2) {
        qsense_answer a = good ? step_known(words, s[0], s[1], s[2], s[3], s[4]) : refused(3);
        answers[0] = a.refusal;
        answers[1] = a.value;
    }
    return true;
}
