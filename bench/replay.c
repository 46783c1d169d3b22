/* Baseline for `shipgate replay` with replay.toml, on captures of fast packets of PGN 129029: the same lines of the same bytes, in C.

   It checks of a line all that stands in it, by the form (S.UUUUUU) can0 IIIIIIII#DATA, and its length; that moments don't go back;
   that a frame isn't from the gateway's own address, and that its sender is one of the presets; of a fast packet the sequence, the
   counter, the bytes that each frame owes, frames that came twice, and that the next one comes within 750 ms; of a message its length
   and the range of each value; and of the choice between senders how old the last position of each better one is. It reports what
   breaks one of these as shipgate does.

   It leaves out the configuration file, which it has in its words; claims, requests, sessions and all other messages, so that its
   table of senders never changes; other interfaces, datagrams, ticks, text behind the data and identifiers that aren't of 29 bits,
   each of which it takes for a wrong form; the limit of open messages, which four senders don't reach; and what goes to the bus. */
#include "capture.h"
#include "sentences.h"

#include <string.h>

enum { OWN = 251, GNSS = 129029, SENDERS = 4, GAP = 750000, TIMEOUT = 100000, COUNTS = 999, REPORT = 96, PACKET = 256 };

/* The rules that it reports. */
enum { FORM = 1, LONG, MOMENT_BACK, UNCLAIMED = 10, ORDER, ORPHAN, LENGTH, RESTARTED, EXPIRED = 16, OWN_ADDRESS_USED = 24 };

/* A sender, by its address, and its rank by its NAME. */
struct sender {
    unsigned address, rank;
    /* The message in the making: its length, or 0 where none is; what came of it; byte 0 of the next frame; and when the last came. */
    size_t length, held;
    uint8_t payload[224], next;
    uint64_t last;
    /* Whether its last message had a position, and when it came. */
    int usable;
    uint64_t noted;
};

/* In the order of their addresses, in which overdue messages are reported. */
static struct sender senders[SENDERS] = {
    {.address = 7, .rank = 3}, {.address = 12, .rank = 1}, {.address = 40, .rank = 0}, {.address = 200, .rank = 2}};

/* The moment of the last event, one before which no message is overdue, and how many lines were said. */
static int started;
static uint64_t now, quiet_until = UINT64_MAX;
static unsigned said;

static char *put_moment(char *at) {
    *at++ = '(';
    at = put_number(at, now / 1000000);
    *at++ = '.';
    return put_text(put_digits(at, now % 1000000, 6), ") ");
}

static char *put_rule(char *at, int rule) { return put_number(put_text(put_moment(at), "rule "), (uint64_t)rule); }

static int end_line(const char *line, char *end) {
    *end++ = '\n';
    return put(line, (size_t)(end - line));
}

static int report(int rule) {
    char line[REPORT];
    return end_line(line, put_rule(line, rule));
}

static int report_line(int rule, uint64_t number) {
    char line[REPORT];
    return end_line(line, put_number(put_text(put_rule(line, rule), " line="), number));
}

static int report_source(int rule, unsigned address, uint32_t pgn) {
    char line[REPORT], *end = put_number(put_text(put_rule(line, rule), " src="), address);
    return end_line(line, put_number(put_text(end, " pgn="), pgn));
}

/* The claim of the own address, and the request for all others. */
static int start(void) {
    char line[REPORT];
    started = 1;
    if (end_line(line, put_text(put_moment(line), "can0 18EEFFFB#0100C0FF008232C0"))) return -1;
    return end_line(line, put_text(put_moment(line), "can0 18EAFFFB#00EE00"));
}

static char *put_hex(char *at, const char *bytes, size_t len) {
    static const char digits[] = "0123456789ABCDEF";
    for (size_t i = 0; i < len; i++) {
        uint8_t byte = (uint8_t)bytes[i];
        *at++ = digits[byte / 16];
        *at++ = digits[byte % 16];
    }
    return at;
}

/* One datagram: the header, a TAG block with the source and the number of the line, and the sentence. */
static int say(const struct fix *fix) {
    char packet[PACKET] = "UdPbC", line[REPORT + 2 * PACKET];
    char *block = packet + 6, *end = put_text(block, "\\s:II0001,n:");
    end = put_check(block, put_number(end, said + 1));
    *end++ = '\\';
    said = (said + 1) % COUNTS;
    end = put_gga(end, fix);
    return end_line(line, put_hex(put_text(put_moment(line), "udp0 NAVD#"), packet, (size_t)(end - packet)));
}

/* Whether a better sender had a position lately. */
static int is_outranked(const struct sender *s) {
    for (const struct sender *other = senders; other < senders + SENDERS; other++)
        if (other->rank < s->rank && other->usable && now - other->noted <= TIMEOUT) return 1;
    return 0;
}

static int complete(struct sender *s) {
    struct fix fix;
    int rule = read_fix(s->payload, s->length, &fix), outranked = is_outranked(s);
    s->length = 0;
    if (rule) return report_source(rule, s->address, GNSS);
    s->usable = fix.has_position;
    s->noted = now;
    return outranked ? 0 : say(&fix);
}

static int add(struct sender *s, const uint8_t *part, size_t len) {
    memcpy(s->payload + s->held, part, len);
    s->held += len;
    s->next++;
    s->last = now;
    if (s->held == s->length) return complete(s);
    if (quiet_until > now + GAP) quiet_until = now + GAP;
    return 0;
}

static int give_up(struct sender *s, int rule) {
    s->length = 0;
    return report_source(rule, s->address, GNSS);
}

static int open(struct sender *s, const uint8_t *data, size_t len) {
    if (len < 2 || data[1] < 1 || data[1] > 223) return give_up(s, LENGTH);
    size_t first = data[1] < 6 ? data[1] : 6;
    if (len < 2 + first) return give_up(s, LENGTH);
    if (s->length != 0 && report_source(RESTARTED, s->address, GNSS)) return -1;
    s->length = data[1];
    s->held = 0;
    s->next = data[0];
    return add(s, data + 2, first);
}

/* Whether the last frame came again: it isn't the first one, so that it held 7 bytes of the message. */
static int is_again(const struct sender *s, const uint8_t *data, size_t len) {
    return len == 8 && s->next % 32 > 1 && data[0] == s->next - 1 && memcmp(data + 1, s->payload + s->held - 7, 7) == 0;
}

static int feed(struct sender *s, const uint8_t *data, size_t len) {
    if (len == 0 || data[0] % 32 == 0) return open(s, data, len);
    if (s->length == 0) return report_source(ORPHAN, s->address, GNSS);
    if (is_again(s, data, len)) return 0;
    if (data[0] != s->next) return give_up(s, ORDER);
    size_t left = s->length - s->held, part = left < 7 ? left : 7;
    return len < 1 + part ? give_up(s, LENGTH) : add(s, data + 1, part);
}

/* Gives up what is overdue, and looks for the next moment at which something may be. */
static int end_overdue(void) {
    quiet_until = UINT64_MAX;
    for (struct sender *s = senders; s < senders + SENDERS; s++) {
        if (s->length == 0) continue;
        if (now - s->last > GAP && give_up(s, EXPIRED)) return -1;
        if (s->length != 0 && quiet_until > s->last + GAP) quiet_until = s->last + GAP;
    }
    return 0;
}

static int frame(uint32_t id, const uint8_t *data, size_t len) {
    uint32_t source = id & 0xFF, group = id >> 8 & 0x3FFFF, has_destination = (group >> 8 & 0xFF) < 240;
    if (source == OWN) return report_source(OWN_ADDRESS_USED, source, has_destination ? group - (group & 0xFF) : group);
    if (group != GNSS) return 0;
    for (struct sender *s = senders; s < senders + SENDERS; s++)
        if (s->address == source) return feed(s, data, len);
    return report_source(UNCLAIMED, source, GNSS);
}

static int line(uint64_t number, const char *text, size_t len) {
    uint64_t moment;
    uint32_t id;
    uint8_t data[8];
    if (len == 0) return 0;
    if (len > LONGEST) return report_line(LONG, number);
    int held = read_moment_and_frame(text, len, &moment, &id, data);
    if (held < 0) return report_line(FORM, number);
    if (moment < now) return report(MOMENT_BACK);
    now = moment;
    if (!started && start()) return -1;
    if (now > quiet_until && end_overdue()) return -1;
    return frame(id, data, (size_t)held);
}

int main(void) { return each_line(line); }
