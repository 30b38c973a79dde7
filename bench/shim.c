/* Stands in for the libraries: the calls of qsense.h and, last, the benchmark's own, answered by plain C. For work on the harness where
 * there is no library. */
#include "plain.h"

uint32_t qsense_length(uint32_t n, uint32_t k, uint32_t m) {
    return plain_length(n, k, m);
}

qsense_answer qsense_make(uint32_t *words, size_t len, uint32_t n, uint32_t k, uint32_t m, uint32_t t, uint32_t q,
                          uint32_t c, uint32_t e) {
    return plain_make(words, len, n, k, m, t, q, c, e);
}

qsense_answer qsense_step(uint32_t *words, size_t len, uint32_t kind, uint32_t process, uint32_t hazard, uint32_t node,
                          uint32_t guest) {
    return plain_step(words, len, kind, process, hazard, node, guest);
}

qsense_answer qsense_reachable(const uint32_t *words, size_t len) {
    return plain_reachable(words, len);
}

qsense_why_answer qsense_why(const uint32_t *words, size_t len, uint32_t node) {
    return plain_why(words, len, node);
}

qsense_portion_answer qsense_portion(uint32_t *words, size_t len, uint32_t process, uint32_t start, uint32_t limit) {
    return plain_portion(words, len, process, start, limit);
}

bool qsense_run(uint32_t *words, size_t len, const uint32_t *steps, size_t steps_len, uint32_t *answers, size_t answers_len) {
    return plain_run(words, len, steps, steps_len, answers, answers_len);
}

bool bench_well_formed(const uint32_t *words, size_t len) {
    return plain_well_formed(words, len);
}

qsense_answer bench_reachable_in_two(const uint32_t *words, size_t len) {
    return plain_reachable_in_two(words, len);
}
