/* The rules of document 01 in plain C, the baseline of the benchmark. Each call has the meaning of its namesake in qsense.h. */
#ifndef PLAIN_H
#define PLAIN_H

#include "../include/qsense.h"

uint32_t plain_length(uint32_t n, uint32_t k, uint32_t m);
qsense_answer plain_make(uint32_t *words, size_t len, uint32_t n, uint32_t k, uint32_t m, uint32_t t, uint32_t q,
                         uint32_t c, uint32_t e);
qsense_answer plain_step(uint32_t *words, size_t len, uint32_t kind, uint32_t process, uint32_t hazard, uint32_t node, uint32_t guest);
bool plain_run(uint32_t *words, size_t len, const uint32_t *steps, size_t steps_len, uint32_t *answers, size_t answers_len);
qsense_why_answer plain_why(const uint32_t *words, size_t len, uint32_t node);
qsense_portion_answer plain_portion(uint32_t *words, size_t len, uint32_t process, uint32_t start, uint32_t limit);

/* Whether the words are those of a well-formed domain. */
bool plain_well_formed(const uint32_t *words, size_t len);

/* Goes once over the nodes: each is checked and counted. */
qsense_answer plain_reachable(const uint32_t *words, size_t len);

/* plain_reachable that checks all words, and then goes over the nodes again to count. */
qsense_answer plain_reachable_in_two(const uint32_t *words, size_t len);

/* plain_run that checks the words once and then trusts its own steps, which nothing proves. */
bool plain_run_trusting(uint32_t *words, size_t len, const uint32_t *steps, size_t steps_len, uint32_t *answers, size_t answers_len);

#endif
