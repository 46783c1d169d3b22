/* What the baselines share. A capture is read in pieces of 64 KiB, one line of at most 4096 bytes is held, and 32 KiB are
   written at a time. */
#include "capture.h"

#include <string.h>
#include <unistd.h>

enum { PIECE = 65536, ROOM = 32768 };

static char buffer[PIECE];
static char waiting[ROOM];
static size_t waiting_len;

static int flush(void) {
    for (size_t at = 0; at < waiting_len;) {
        ssize_t n = write(1, waiting + at, waiting_len - at);
        if (n <= 0) return -1;
        at += (size_t)n;
    }
    waiting_len = 0;
    return 0;
}

int put(const char *text, size_t len) {
    if (len > ROOM - waiting_len && flush()) return -1;
    memcpy(waiting + waiting_len, text, len);
    waiting_len += len;
    return 0;
}

static int hex(char c) {
    if (c >= '0' && c <= '9') return c - '0';
    if (c >= 'A' && c <= 'F') return c - 'A' + 10;
    if (c >= 'a' && c <= 'f') return c - 'a' + 10;
    return -1;
}

static int is_digit(char c) { return c >= '0' && c <= '9'; }

static int hex_bytes(const char *digits, size_t count, uint8_t *out) {
    for (size_t i = 0; i < count; i++) {
        int high = hex(digits[2 * i]), low = hex(digits[2 * i + 1]);
        if (high < 0 || low < 0) return 0;
        out[i] = (uint8_t)(high * 16 + low);
    }
    return 1;
}

/* The frame behind a time, of which at least 16 bytes are there. */
static int read_behind_time(const char *text, size_t len, uint32_t *id, uint8_t *data) {
    if (memcmp(text, ") can0 ", 7) != 0 || text[15] != '#') return -1;
    uint8_t bytes[4];
    if (!hex_bytes(text + 7, 4, bytes)) return -1;
    *id = (uint32_t)bytes[0] << 24 | (uint32_t)bytes[1] << 16 | (uint32_t)bytes[2] << 8 | bytes[3];
    size_t digits = len - 16;
    if (digits > 16 || digits % 2 || *id >= 1u << 29) return -1;
    if (!hex_bytes(text + 16, digits / 2, data)) return -1;
    return (int)(digits / 2);
}

/* Takes the digits from a place, at most so many, behind those of the number so far. Answers where they end. */
static size_t take_digits(const char *line, size_t at, size_t end, uint64_t *number) {
    uint64_t value = *number;
    for (; at < end && is_digit(line[at]); at++) value = value * 10 + (uint64_t)(line[at] - '0');
    *number = value;
    return at;
}

int read_frame(const char *line, size_t len, uint32_t *id, uint8_t *data) {
    size_t at = 0;
    if (len == 0 || line[at++] != '(') return -1;
    size_t seconds = 0;
    while (at < len && is_digit(line[at])) at++, seconds++;
    if (seconds < 1 || seconds > 10 || len - at < 23 || line[at] != '.') return -1;
    for (size_t i = 1; i < 7; i++)
        if (!is_digit(line[at + i])) return -1;
    return read_behind_time(line + at + 7, len - at - 7, id, data);
}

int read_moment_and_frame(const char *line, size_t len, uint64_t *moment, uint32_t *id, uint8_t *data) {
    *moment = 0;
    if (len == 0 || line[0] != '(') return -1;
    size_t point = take_digits(line, 1, len < 11 ? len : 11, moment);
    if (point < 2 || len - point < 23 || line[point] != '.') return -1;
    if (take_digits(line, point + 1, point + 7, moment) != point + 7) return -1;
    return read_behind_time(line + point + 7, len - point - 7, id, data);
}

static size_t without_cr(const char *text, size_t len) {
    return len > 0 && text[len - 1] == '\r' ? len - 1 : len;
}

int each_line(int (*line)(uint64_t number, const char *text, size_t len)) {
    size_t len = 0;
    uint64_t number = 0, total = 0;
    int skipping = 0;
    for (;;) {
        if (flush()) return 4;
        ssize_t n = read(0, buffer + len, PIECE - len);
        if (n < 0) return 5;
        if (n == 0) break;
        total += (uint64_t)n;
        if (total > (uint64_t)1 << 40) return 8;
        len += (size_t)n;
        size_t start = 0;
        char *lf;
        while ((lf = memchr(buffer + start, '\n', len - start))) {
            size_t raw = (size_t)(lf - buffer) - start;
            number++;
            if (skipping ? line(number, buffer, LONGEST + 1) : line(number, buffer + start, without_cr(buffer + start, raw))) return 4;
            skipping = 0;
            start += raw + 1;
        }
        len -= start;
        memmove(buffer, buffer + start, len);
        if (len > LONGEST + 1) len = 0, skipping = 1;
    }
    number++;
    if (skipping ? line(number, buffer, LONGEST + 1) : line(number, buffer, without_cr(buffer, len))) return 4;
    return flush() ? 4 : 0;
}
