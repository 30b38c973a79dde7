/* One process publishes a node, another claims and uses it; then the first retires it, asks why it waits, and frees it by a scan in
 * portions. */
#include "qsense.h"
#include <stdio.h>

int main(void) {
    uint32_t words[2138]; /* room for the greatest domain */
    size_t len = qsense_length(2, 1, 2);
    qsense_answer made = qsense_make(words, len, 2, 1, 2, 3, 1, 1, 0);
    qsense_step(words, len, 1, 0, 0, 0, 70);                       /* process 0 allocates node 0 for guest 70 */
    qsense_step(words, len, 2, 0, 0, 0, 0);                        /* and publishes it */
    qsense_step(words, len, 3, 1, 0, 0, 0);                        /* process 1 protects it by its hazard 0 */
    qsense_step(words, len, 4, 1, 0, 0, 0);                        /* and checks that it is still Reachable */
    qsense_answer used = qsense_step(words, len, 5, 1, 0, 0, 0);   /* from now on it may use it */
    qsense_answer twice = qsense_step(words, len, 1, 1, 0, 0, 71); /* node 0 is not Free */
    qsense_answer reachable = qsense_reachable(words, len);
    printf("made %u, guest %u, refused %u, reachable %u\n", made.refusal, used.value, twice.refusal, reachable.value);
    qsense_step(words, len, 10, 1, 0, 0, 0);                       /* process 1 flushes its store: the hazard is visible */
    qsense_step(words, len, 7, 0, 0, 0, 0);                        /* process 0 removes node 0 */
    qsense_step(words, len, 8, 0, 0, 0, 0);                        /* and retires it */
    qsense_why_answer young = qsense_why(words, len, 0);           /* 2: too young to be freed */
    for (uint32_t i = 0; i < young.ticks; i++) qsense_step(words, len, 11, 0, 0, 0, 0);
    qsense_why_answer seen = qsense_why(words, len, 0);            /* 3: old enough, and visible in a hazard */
    printf("why %u, %u ticks; ", young.answer, young.ticks);
    printf("then why %u, process %u, hazard %u\n", seen.answer, seen.process, seen.hazard);
    qsense_step(words, len, 6, 1, 0, 0, 0);                        /* process 1 clears its hazard */
    qsense_step(words, len, 10, 1, 0, 0, 0);                       /* and flushes that store */
    for (uint32_t node = 0; node < 2;) {                           /* process 0 scans, one node a portion, to the last of 2 */
        qsense_portion_answer part = qsense_portion(words, len, 0, node, 1);
        if (part.refusal != 0) return 1;
        printf("from %u: freed %u, examined %u, next %u, left %u\n", node, part.freed, part.examined, part.next, part.left);
        node = part.next;                                          /* other steps may come between */
    }
    return 0;
}
