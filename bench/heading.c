/* The least that turns a capture of true headings into sentences, as `shipgate convert` does. It looks for the lines' ends and takes
   the heading from its place. It checks nothing: neither a form nor a length, neither the message nor the range of its value; and
   it knows no other line than (SSSSSSSSSS.UUUUUU) can0 IIIIIIII#DATA. A line is read where it lies in a piece of 64 KiB, and
   written where it is gathered with others. */
#include <stdint.h>
#include <string.h>
#include <unistd.h>

enum { PIECE = 65536, ROOM = 32768, SENTENCE = 20, HEADING = 36 };

static char buffer[PIECE], waiting[ROOM];

static unsigned digit(char c) { return (unsigned)(c <= '9' ? c - '0' : c - 'A' + 10); }

static unsigned byte(const char *digits) { return digit(digits[0]) << 4 | digit(digits[1]); }

static char *put_heading(char *at, uint64_t raw) {
    static const char hex[] = "0123456789ABCDEF";
    unsigned tenths = (unsigned)((raw * 180000000000000 + 1570796326794896) / 3141592653589793 % 3600);
    char *start = at;
    memcpy(at, "$HEHDT,", 7);
    at += 7;
    if (tenths >= 1000) *at++ = (char)('0' + tenths / 1000);
    if (tenths >= 100) *at++ = (char)('0' + tenths / 100 % 10);
    *at++ = (char)('0' + tenths / 10 % 10);
    *at++ = '.';
    *at++ = (char)('0' + tenths % 10);
    *at++ = ',';
    *at++ = 'T';
    uint8_t sum = 0;
    for (char *c = start + 1; c < at; c++) sum ^= (uint8_t)*c;
    *at++ = '*';
    *at++ = hex[sum >> 4];
    *at++ = hex[sum & 15];
    *at++ = '\r';
    *at++ = '\n';
    return at;
}

static int flush(char **end) {
    ssize_t len = *end - waiting;
    *end = waiting;
    return len == 0 || write(1, waiting, (size_t)len) == len ? 0 : -1;
}

int main(void) {
    size_t len = 0;
    char *end = waiting;
    for (ssize_t n; (n = read(0, buffer + len, PIECE - len)) > 0;) {
        char *start = buffer, *lf;
        len += (size_t)n;
        while ((lf = memchr(start, '\n', len - (size_t)(start - buffer)))) {
            if (end > waiting + ROOM - SENTENCE && flush(&end)) return 4;
            end = put_heading(end, byte(start + HEADING) | byte(start + HEADING + 2) << 8);
            start = lf + 1;
        }
        len -= (size_t)(start - buffer);
        memmove(buffer, start, len);
        if (flush(&end)) return 4;
    }
    return 0;
}
