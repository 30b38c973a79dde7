/* A host that records a step book as it goes, byte by byte, so that it is the same on every machine; here the paper's run, which is written
 * to standard output: examples/first.book. A book starts at a fresh domain and holds at most BOOK_STEPS steps, the refused ones too. */
#include "qsense.h"
#include <stdio.h>

enum { BOOK_BYTES = 65536, BOOK_PARAMETERS = 7, BOOK_STEP = 12, BOOK_TRAILER = 12 };
enum { BOOK_STEPS = (BOOK_BYTES - 4 * BOOK_PARAMETERS - BOOK_TRAILER) / BOOK_STEP };

typedef struct {
    unsigned char bytes[BOOK_BYTES];
    size_t used;
    uint32_t steps;
} book;

static void put_byte(book *b, uint32_t number) { b->bytes[b->used++] = (unsigned char)number; }

static void put_word(book *b, uint32_t number) {
    for (int shift = 0; shift < 32; shift += 8) put_byte(b, number >> shift & 255);
}

static void begin(book *b, const uint32_t parameters[BOOK_PARAMETERS]) {
    b->used = 0;
    b->steps = 0;
    for (int i = 0; i < BOOK_PARAMETERS; i++) put_word(b, parameters[i]);
}

/* A kind, a process or a hazard has one byte; one that is greater is refused in the same way as 255, which stands for it. */
static uint32_t in_a_byte(uint32_t number) { return number < 255 ? number : 255; }

/* Records a step; false if the book is full, and then nothing is written. */
static bool record(book *b, uint32_t kind, uint32_t process, uint32_t hazard, uint32_t node, uint32_t guest) {
    if (b->steps == BOOK_STEPS) return false;
    put_byte(b, in_a_byte(kind));
    put_byte(b, in_a_byte(process));
    put_byte(b, in_a_byte(hazard));
    put_byte(b, 0);
    put_word(b, node);
    put_word(b, guest);
    b->steps++;
    return true;
}

/* The trailer, which may be written at any time to save what there is: later steps go over it. */
static size_t end(book *b) {
    size_t at = b->used;
    uint32_t distance = (uint32_t)b->used + BOOK_TRAILER;
    put_word(b, b->steps);
    put_word(b, distance);
    for (const char *mark = "QBAK"; *mark; mark++) put_byte(b, (unsigned char)*mark);
    size_t size = b->used;
    b->used = at;
    return size;
}

static const uint32_t parameters[BOOK_PARAMETERS] = {2, 1, 2, 3, 1, 1, 0};
static const uint32_t steps[][5] = {
    {QSENSE_KIND_ALLOCATE, 0, 0, 0, 70}, {QSENSE_KIND_PUBLISH, 0, 0, 0, 0}, {QSENSE_KIND_PROTECT, 1, 0, 0, 0},
    {QSENSE_KIND_CHECK, 1, 0, 0, 0},     {QSENSE_KIND_REMOVE, 0, 0, 0, 0},  {QSENSE_KIND_RETIRE, 0, 0, 0, 0},
    {QSENSE_KIND_TICK, 0, 0, 0, 0},      {QSENSE_KIND_TICK, 0, 0, 0, 0},    {QSENSE_KIND_TICK, 0, 0, 0, 0},
    {QSENSE_KIND_TICK, 0, 0, 0, 0},      {QSENSE_KIND_FLUSH, 1, 0, 0, 0},   {QSENSE_KIND_TICK, 0, 0, 0, 0},
    {QSENSE_KIND_USE, 1, 0, 0, 0},
};

int main(void) {
    static uint32_t words[QSENSE_MOST_WORDS];
    static book recorded;
    const uint32_t *p = parameters;
    size_t len = qsense_length(p[0], p[1], p[2]);
    if (qsense_make(words, len, p[0], p[1], p[2], p[3], p[4], p[5], p[6]).refusal != QSENSE_ACCEPTED) return 1;
    begin(&recorded, parameters);
    qsense_answer last = {0, 0};
    for (size_t i = 0; i < sizeof steps / sizeof steps[0]; i++) {
        const uint32_t *s = steps[i];
        if (!record(&recorded, s[0], s[1], s[2], s[3], s[4])) return 1; /* full: see docs/HOST.md */
        last = qsense_step(words, len, s[0], s[1], s[2], s[3], s[4]);
    }
    size_t size = end(&recorded);
    return fwrite(recorded.bytes, 1, size, stdout) != size || last.value != 70;
}
