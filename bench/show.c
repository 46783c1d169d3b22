/* Baseline for `shipgate show` on captures of frames: the same lines of the same bytes, in C. */
#include "capture.h"
#include "sentences.h"

#include <string.h>

/* Appends a key of so many bytes, with what stands before and behind it, and its number. */
static char *put_part(char *at, const char *key, size_t len, uint64_t number) {
    memcpy(at, key, len);
    return put_number(at + len, number);
}

static int line(uint64_t number, const char *text, size_t len) {
    char out[96], *end = out;
    uint32_t id;
    uint8_t data[8];
    if (len == 0) return 0;
    int held = len <= LONGEST ? read_frame(text, len, &id, data) : -1;
    end = put_part(end, "line=", 5, number);
    if (held < 0) {
        end = put_part(end, " rule ", 6, len > LONGEST ? 2 : 1);
    } else {
        uint32_t group = id >> 8 & 0x3FFFF, has_destination = (group >> 8 & 0xFF) < 240, low = group & 0xFF;
        end = put_part(end, " prio=", 6, id >> 26);
        end = put_part(end, " pgn=", 5, has_destination ? group - low : group);
        end = put_part(end, " src=", 5, id & 0xFF);
        end = put_part(end, " dst=", 5, has_destination ? low : 255);
        end = put_part(end, " len=", 5, (uint64_t)held);
    }
    *end++ = '\n';
    return put(out, (size_t)(end - out));
}

int main(void) { return each_line(line); }
