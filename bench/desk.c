/* The program `desk` over plain C, the baseline of the benchmark: reads a step book from standard input and prints its answers. */
#include "plain.h"

#include <stdio.h>
#include <string.h>

enum { GREATEST = 65536, PARAMETERS = 28, STEP = 12, TRAILER = 12, MOST_WORDS = 2138 };

static uint8_t book[GREATEST + 1];
static uint32_t words[MOST_WORDS];

static uint32_t word(const uint8_t *bytes) {
    return bytes[0] | (uint32_t)bytes[1] << 8 | (uint32_t)bytes[2] << 16 | (uint32_t)bytes[3] << 24;
}

static int refused(int number) {
    printf("refused %d\n", number);
    return 0;
}

int main(void) {
    size_t size = fread(book, 1, sizeof book, stdin);
    if (ferror(stdin)) {
        fputs("desk: cannot read\n", stderr);
        return 1;
    }
    if (size > GREATEST) return refused(18);
    if (size < TRAILER) return refused(19);
    const uint8_t *trailer = book + size - TRAILER;
    uint64_t count = word(trailer), distance = word(trailer + 4);
    if (memcmp(trailer + 8, "QBAK", 4) != 0 || distance != PARAMETERS + STEP * count + TRAILER || distance > size) return refused(19);
    const uint8_t *at = book + size - distance;
    uint32_t p[PARAMETERS / 4];
    for (size_t i = 0; i < PARAMETERS / 4; i++, at += 4) p[i] = word(at);
    uint32_t length = plain_length(p[0], p[1], p[2]);
    if (plain_make(words, length, p[0], p[1], p[2], p[3], p[4], p[5], p[6]).refusal != 0) return refused(1);
    printf("desk %u %u %u %u %u %u %u\n", p[0], p[1], p[2], p[3], p[4], p[5], p[6]);
    for (uint64_t i = 0; i < count; i++, at += STEP) {
        qsense_answer a = plain_step(words, length, at[0], at[1], at[2], word(at + 4), word(at + 8));
        printf("%u %u %u %u %u\n", (uint32_t)i, at[0], a.refusal, a.value, plain_reachable(words, length).value);
    }
    printf("end %u %u %u\n", words[7], words[8], plain_reachable(words, length).value);
    return 0;
}
