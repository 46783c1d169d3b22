/* Baseline for `shipgate convert` on captures of the messages of sentences.c: the same work on the same bytes, in C. */
#include "capture.h"
#include "sentences.h"

#include <string.h>

/* Why a line has no sentence: it has none of the forms of a line, or is too long. */
enum { FORM = 1, LONG = 2 };

/* The number of a message's parameter group. Only groups whose PS is no destination have sentences here. */
static uint32_t group(uint32_t id) { return id >> 8 & 0x3FFFF; }

static char *report(char *at, int rule, uint64_t number) {
    memcpy(at, "rule ", 5);
    at = put_number(at + 5, (uint64_t)rule);
    memcpy(at, " line=", 6);
    at = put_number(at + 6, number);
    *at++ = '\n';
    return at;
}

static int line(uint64_t number, const char *text, size_t len) {
    char out[SENTENCES * SENTENCE], *end = out;
    uint32_t id;
    uint8_t data[8];
    if (len == 0) return 0;
    int held = len <= LONGEST ? read_frame(text, len, &id, data) : -1;
    int rule = held >= 0 ? put_sentences(group(id), data, (size_t)held, &end) : len > LONGEST ? LONG : FORM;
    if (rule) end = report(end, rule, number);
    return put(out, (size_t)(end - out));
}

int main(void) { return each_line(line); }
