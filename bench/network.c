/* Baseline for `shipgate replay` with network.toml, on captures of datagrams with one true heading each: the frames for the bus, in C.

   It checks of a line all that stands in it: its form (S.UUUUUU) udp0 GGGG#DATA, and that moments don't go back; of the datagram the
   header; of its line the TAG block with its source, its number and its sum, and the sentence with its talker, its field, its unit, its
   sum and its end; and the range of the heading. It ends with status 4 at a line that breaks one of these, which shipgate would report.

   Before the gateway's address is sure, 250 ms from the start, it says that a line isn't passed on, as shipgate does.

   It leaves out the configuration file, which it has in its words; all other lines, sentences, values of TAG blocks and sources; the bus,
   so that its address stays its own; and the choice between sources, of which there is one. */
#include "capture.h"

#include <string.h>

enum { MOST_DATA = 80, READY = 250000, FULL_TURN = 62832, OUTPUT = 64 };

static int started;
static uint64_t now, start;

static int digit_of(char c) { return c >= '0' && c <= '9' ? c - '0' : -1; }

static int hex_of(char c) { return c >= 'A' && c <= 'F' ? c - 'A' + 10 : digit_of(c); }

static char *put_text(char *at, const char *text) {
    size_t len = strlen(text);
    memcpy(at, text, len);
    return at + len;
}

static char *put_digits(char *at, uint64_t number, int width) {
    for (int i = width - 1; i >= 0; i--, number /= 10) at[i] = (char)('0' + number % 10);
    return at + width;
}

static char *put_moment(char *at) {
    int width = 1;
    for (uint64_t seconds = now / 1000000; seconds > 9; seconds /= 10) width++;
    *at++ = '(';
    at = put_digits(at, now / 1000000, width);
    *at++ = '.';
    return put_text(put_digits(at, now % 1000000, 6), ") ");
}

static int put_line(const char *text) {
    char line[2 * OUTPUT], *end = put_text(put_text(put_moment(line), text), "\n");
    return put(line, (size_t)(end - line));
}

/* The number of so many digits at most, at least one. Answers where they end, or NULL. */
static const char *read_number(const char *at, const char *end, int most, uint64_t *number) {
    const char *first = at;
    for (*number = 0; at < end && at - first < most && digit_of(*at) >= 0; at++) *number = *number * 10 + (uint64_t)digit_of(*at);
    return at > first ? at : NULL;
}

/* Whether the text behind a place is this. Answers where it ends, or NULL. */
static const char *read_text(const char *at, const char *end, const char *text) {
    size_t len = strlen(text);
    return at && (size_t)(end - at) >= len && memcmp(at, text, len) == 0 ? at + len : NULL;
}

/* The sum of the bytes from a place, and behind them `*` and its two digits. Answers where they end, or NULL. */
static const char *read_sum(const char *from, const char *at, const char *end) {
    uint8_t sum = 0;
    if (!at || end - at < 3 || *at != '*') return NULL;
    for (const char *c = from; c < at; c++) sum ^= (uint8_t)*c;
    return hex_of(at[1]) * 16 + hex_of(at[2]) == sum ? at + 3 : NULL;
}

/* The heading of a datagram, in ten-thousandths of a radian, or -1. */
static int64_t read_heading(const char *at, const char *end) {
    uint64_t number, whole, tenths;
    if (end - at < 8 || memcmp(at, "UdPbC\0\\", 7) != 0) return -1;
    const char *block = at + 7;
    at = read_text(block, end, "s:II0002,n:");
    if (!at || !(at = read_number(at, end, 3, &number)) || number == 0) return -1;
    at = read_text(read_sum(block, at, end), end, "\\$");
    if (!at) return -1;
    const char *sentence = at;
    at = read_text(at, end, "IIHDT,");
    if (!at || !(at = read_number(at, end, 3, &whole)) || !(at = read_text(at, end, ".")) || !(at = read_number(at, end, 1, &tenths))) return -1;
    at = read_text(read_sum(sentence, read_text(at, end, ",T"), end), end, "\r\n");
    if (at != end) return -1;
    uint64_t raw = ((whole * 10 + tenths) * 3141592653589793 + 90000000000000) / 180000000000000;
    return raw <= FULL_TURN ? (int64_t)raw : -1;
}

/* The moment and the bytes of a line. Answers how many bytes there are, or -1. */
static int read_datagram(const char *text, size_t len, uint64_t *moment, char *bytes) {
    const char *end = text + len, *at = read_text(text, end, "(");
    uint64_t seconds, micros;
    if (!at || !(at = read_number(at, end, 10, &seconds)) || !(at = read_text(at, end, "."))) return -1;
    const char *point = at;
    if (!(at = read_number(at, end, 6, &micros)) || at - point != 6 || !(at = read_text(at, end, ") udp0 NAVD#"))) return -1;
    size_t digits = (size_t)(end - at);
    if (digits > 2 * MOST_DATA || digits % 2) return -1;
    for (size_t i = 0; i < digits / 2; i++) {
        int high = hex_of(at[2 * i]), low = hex_of(at[2 * i + 1]);
        if (high < 0 || low < 0) return -1;
        bytes[i] = (char)(high * 16 + low);
    }
    *moment = seconds * 1000000 + micros;
    return (int)(digits / 2);
}

/* The heading as a frame (PGN 127250), low byte first. */
static int send(uint64_t raw) {
    static const char hex[] = "0123456789ABCDEF";
    char frame[] = "can0 09F112FB#FF0000FF7FFF7FFC";
    frame[16] = hex[raw >> 4 & 15];
    frame[17] = hex[raw & 15];
    frame[18] = hex[raw >> 12 & 15];
    frame[19] = hex[raw >> 8 & 15];
    return put_line(frame);
}

static int line(uint64_t number, const char *text, size_t len) {
    char bytes[MOST_DATA];
    uint64_t moment;
    (void)number;
    if (len == 0) return 0;
    int held = len > LONGEST ? -1 : read_datagram(text, len, &moment, bytes);
    if (held < 0 || moment < now) return -1;
    now = moment;
    if (!started) {
        started = 1;
        start = now;
        if (put_line("can0 18EEFFFB#0100C0FF008232C0") || put_line("can0 18EAFFFB#00EE00")) return -1;
    }
    int64_t raw = read_heading(bytes, bytes + held);
    if (raw < 0) return -1;
    return now - start < READY ? put_line("rule 45 at=6") : send((uint64_t)raw);
}

int main(void) { return each_line(line); }
