/* Baseline for `shipgate replay` with ships.toml, on captures of fast packets of PGN 129038: the reports of ships around as AIVDM, in C.

   It checks of a line all that stands in it, by the form (S.UUUUUU) can0 IIIIIIII#DATA, and its length; that moments don't go back; that
   a frame is of this message and of the receiver that is known; of a fast packet the sequence, the counter, and the bytes that each frame
   owes; and of a report its kind, the ship's number and the range of each value. It ends with status 4 at a line that breaks one of the
   first ones, which shipgate would report.

   It leaves out the configuration file, which it has in its words; all other lines and messages; frames that come twice; and that messages
   grow old, since here none does. */
#include "capture.h"
#include "sentences.h"

#include <string.h>

enum { RECEIVER = 43, LEAST = 26, MOST = 223, GROUP = 129038, GAP = 750000, COUNTS = 999, REPORT = 96, PACKET = 128, BITS = 168 };

static int started;
static uint64_t now;

/* The message in the making: its length, or 0 where none is; what came of it; byte 0 of the next frame; and when the last came. */
static size_t length, held;
static uint8_t payload[MOST + 7], next;
static uint64_t last;

/* How many lines were said. */
static unsigned said;

static char *put_moment(char *at) {
    *at++ = '(';
    at = put_number(at, now / 1000000);
    *at++ = '.';
    return put_text(put_digits(at, now % 1000000, 6), ") ");
}

static int end_line(const char *line, char *end) {
    *end++ = '\n';
    return put(line, (size_t)(end - line));
}

/* The claim of the own address, and the request for all others. */
static int start(void) {
    char line[REPORT];
    started = 1;
    if (end_line(line, put_text(put_moment(line), "can0 18EEFFFB#0100C0FF008232C0"))) return -1;
    return end_line(line, put_text(put_moment(line), "can0 18EAFFFB#00EE00"));
}

static uint64_t number_at(size_t place, int bytes) {
    uint64_t value = 0;
    for (int i = bytes - 1; i >= 0; i--) value = value << 8 | payload[place + (size_t)i];
    return value;
}

/* The value times a fraction, rounded to the nearest whole number, halves away from zero. */
static uint64_t times(uint64_t value, uint64_t num, uint64_t den) { return (value * num + den / 2) / den; }

/* A place in ten-thousandths of a minute, or what stands for none, in so many bits. */
static uint64_t place_at(size_t place, int32_t most, int64_t none, int bits) {
    int32_t raw = (int32_t)number_at(place, 4);
    int64_t minutes = none;
    if (raw >= -most && raw <= most) minutes = raw < 0 ? -(int64_t)times((uint64_t)-(int64_t)raw, 3, 50) : (int64_t)times((uint64_t)raw, 3, 50);
    return (uint64_t)minutes & ((UINT64_C(1) << bits) - 1);
}

static uint64_t angle_at(size_t place, uint64_t num, uint64_t turn, uint64_t none) {
    uint64_t raw = number_at(place, 2);
    return raw <= 62832 ? times(raw, num, 3141592653589793) % turn : none;
}

static uint64_t speed_at(size_t place) {
    uint64_t raw = number_at(place, 2), tenths = times(raw, 90, 463);
    return raw > 65532 ? 1023 : tenths < 1022 ? tenths : 1022;
}

/* Appends so many bits of a number to those of the report, the highest first. */
static void append(uint8_t *sixes, int *at, uint64_t value, int bits) {
    for (int i = bits - 1; i >= 0; i--, ++*at) sixes[*at / 6] = (uint8_t)(sixes[*at / 6] << 1 | (value >> i & 1));
}

/* The report of 168 bits (ITU-R M.1371, messages 1 to 3), six of them in each byte. */
static void report_of(uint8_t *sixes) {
    int at = 0;
    append(sixes, &at, payload[0] & 63, 6);
    append(sixes, &at, payload[0] >> 6, 2);
    append(sixes, &at, number_at(1, 4), 30);
    append(sixes, &at, payload[25] & 15, 4);
    append(sixes, &at, 128, 8);
    append(sixes, &at, speed_at(16), 10);
    append(sixes, &at, payload[13] & 1, 1);
    append(sixes, &at, place_at(5, 1800000000, 181 * 600000, 28), 28);
    append(sixes, &at, place_at(9, 900000000, 91 * 600000, 27), 27);
    append(sixes, &at, angle_at(14, 180000000000000, 3600, 3600), 12);
    append(sixes, &at, angle_at(21, 18000000000000, 360, 511), 9);
    append(sixes, &at, payload[13] >> 2, 6);
    append(sixes, &at, payload[25] >> 4 & 3, 2);
    append(sixes, &at, 0, 3);
    append(sixes, &at, payload[13] >> 1 & 1, 1);
    append(sixes, &at, number_at(18, 3) & 0x7FFFF, 19);
}

/* One datagram: the header, a TAG block with the source and the number of the line, and the sentence. */
static int say(void) {
    static const char digits[] = "0123456789ABCDEF";
    char packet[PACKET] = "UdPbC", line[REPORT + 2 * PACKET];
    uint8_t sixes[BITS / 6] = {0};
    report_of(sixes);
    said = said % COUNTS + 1;
    char *block = packet + 6, *at = put_number(put_text(block, "\\s:II0001,n:"), said);
    *(at = put_check(block, at)) = '\\';
    char *sentence = at + 1;
    at = put_text(sentence, "!AIVDM,1,1,,");
    *at++ = number_at(18, 3) >> 19 ? 'B' : 'A';
    *at++ = ',';
    for (int i = 0; i < BITS / 6; i++) *at++ = (char)(sixes[i] + (sixes[i] < 40 ? 48 : 56));
    at = put_text(put_check(sentence, put_text(at, ",0")), "\r\n");
    char *end = put_text(put_moment(line), "udp0 TGTD#");
    for (const char *c = packet; c < at; c++) {
        *end++ = digits[(uint8_t)*c / 16];
        *end++ = digits[(uint8_t)*c % 16];
    }
    return end_line(line, end);
}

/* What isn't a report of a ship of class A that was heard on a channel is nothing to tell. */
static int complete(void) {
    unsigned kind = payload[0] & 63;
    size_t came = length;
    length = 0;
    if (came < LEAST || kind < 1 || kind > 3 || number_at(1, 4) > 999999999 || number_at(18, 3) >> 19 > 1) return -1;
    return say();
}

static int feed(const uint8_t *data, size_t len) {
    size_t from = 1;
    if (len < 2) return -1;
    if (data[0] % 32 == 0) {
        if (length != 0 || data[1] < 1 || data[1] > MOST) return -1;
        length = data[1];
        held = 0;
        next = data[0];
        from = 2;
    }
    if (length == 0 || data[0] != next || (held != 0 && now - last > GAP)) return -1;
    size_t left = length - held, part = left < 8 - from ? left : 8 - from;
    if (len < from + part) return -1;
    memcpy(payload + held, data + from, part);
    held += part;
    next++;
    last = now;
    return held == length ? complete() : 0;
}

static int line(uint64_t number, const char *text, size_t len) {
    uint64_t moment;
    uint32_t id;
    uint8_t data[8];
    (void)number;
    if (len == 0) return 0;
    int bytes = len > LONGEST ? -1 : read_moment_and_frame(text, len, &moment, &id, data);
    if (bytes < 0 || moment < now || (id & 0xFF) != RECEIVER || (id >> 8 & 0x3FFFF) != GROUP) return -1;
    now = moment;
    if (!started && start()) return -1;
    return feed(data, (size_t)bytes);
}

int main(void) { return each_line(line); }
