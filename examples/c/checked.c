/* One process publishes a node, another claims and uses it; then the first retires it, asks why it waits, and frees it by a scan in
 * portions. */
#include "qsense.h"
#include <stdio.h>
#include <stdlib.h>

static uint32_t words[QSENSE_MOST_WORDS]; /* room for the greatest domain */
static size_t len;

/* A step that is to be accepted: its value. A host that does not look at the refusal does not know whether anything was done. */
static uint32_t step(uint32_t kind, uint32_t process, uint32_t hazard, uint32_t node, uint32_t guest) {
    qsense_answer answer = qsense_step(words, len, kind, process, hazard, node, guest);
    if (answer.refusal != QSENSE_ACCEPTED) {
        printf("kind %u is refused with %u\n", kind, answer.refusal);
        exit(1);
    }
    return answer.value;
}

int main(void) {
    len = qsense_length(2, 1, 2); /* 2 processes, 1 hazard each, 2 nodes */
    qsense_answer made = qsense_make(words, len, 2, 1, 2, 3, 1, 1, 0);
    step(QSENSE_KIND_ALLOCATE, 0, 0, 0, 70);             /* process 0 allocates node 0 for guest 70 */
    step(QSENSE_KIND_PUBLISH, 0, 0, 0, 0);               /* and publishes it */
    step(QSENSE_KIND_PROTECT, 1, 0, 0, 0);               /* process 1 protects it by its hazard 0 */
    step(QSENSE_KIND_CHECK, 1, 0, 0, 0);                 /* and checks that it is still Reachable */
    uint32_t guest = step(QSENSE_KIND_USE, 1, 0, 0, 0);  /* from now on it may use it */
    qsense_answer twice = qsense_step(words, len, QSENSE_KIND_ALLOCATE, 1, 0, 0, 71); /* node 0 is not Free */
    qsense_answer reachable = qsense_reachable(words, len);
    printf("made %u, guest %u, refused %u, reachable %u\n", made.refusal, guest, twice.refusal, reachable.value);
    step(QSENSE_KIND_FLUSH, 1, 0, 0, 0);                 /* process 1 flushes its store: the hazard is visible */
    step(QSENSE_KIND_REMOVE, 0, 0, 0, 0);                /* process 0 removes node 0 */
    step(QSENSE_KIND_RETIRE, 0, 0, 0, 0);                /* and retires it */
    qsense_why_answer young = qsense_why(words, len, 0); /* QSENSE_WHY_YOUNG: too young to be freed */
    for (uint32_t i = 0; i < young.ticks; i++) step(QSENSE_KIND_TICK, 0, 0, 0, 0);
    qsense_why_answer seen = qsense_why(words, len, 0);  /* QSENSE_WHY_VISIBLE: old enough, and visible in a hazard */
    printf("why %u, %u ticks; ", young.answer, young.ticks);
    printf("then why %u, process %u, hazard %u\n", seen.answer, seen.process, seen.hazard);
    step(QSENSE_KIND_CLEAR, 1, 0, 0, 0);                 /* process 1 clears its hazard */
    step(QSENSE_KIND_FLUSH, 1, 0, 0, 0);                 /* and flushes that store */
    for (uint32_t node = 0; node < 2;) {                 /* process 0 scans, one node a portion, to the last of 2 */
        qsense_portion_answer part = qsense_portion(words, len, 0, node, 1);
        if (part.refusal != QSENSE_ACCEPTED) return 1;
        printf("from %u: freed %u, examined %u, next %u, left %u\n", node, part.freed, part.examined, part.next, part.left);
        node = part.next;                                /* other steps may come between */
    }
    return 0;
}
