/* Draws, messages with drawn values, and lines. */
#include "messages.h"

#include <inttypes.h>
#include <stdio.h>
#include <string.h>

static char digits[2 * 223];
static size_t count;

/* The minimal standard of Park and Miller. */
uint64_t draw(uint64_t n) {
    static uint64_t drawn = 7;
    drawn = drawn * 16807 % 2147483647;
    return drawn % n;
}

static uint64_t draw_up_to(uint64_t most) {
    if (most < 2147483647) return draw(most + 1);
    uint64_t high = draw(2147483647);
    return (high * 2147483647 + draw(2147483647)) % (most + 1);
}

void begin(void) { count = 0; }

void fixed(const char *text) {
    size_t len = strlen(text);
    memcpy(digits + count, text, len);
    count += len;
}

void number(uint64_t value, int width) {
    static const char hex[] = "0123456789ABCDEF";
    for (; width > 0; width--, value >>= 8) {
        digits[count++] = hex[value >> 4 & 15];
        digits[count++] = hex[value & 15];
    }
}

static void up_to(uint64_t most, int width) { number(draw(50) ? draw_up_to(most) : UINT64_MAX, width); }

static void to_either_side(uint64_t most, int width) {
    uint64_t value = UINT64_MAX >> (65 - 8 * width);
    if (draw(50)) {
        int positive = draw(2) != 0;
        value = draw_up_to(most);
        if (!positive) value = -value;
    }
    number(value, width);
}

void true_heading(void) {
    up_to(62832, 2);
    fixed("FF7FFF7FFC");
}

void magnetic_heading(void) {
    up_to(62832, 2);
    to_either_side(31416, 2);
    to_either_side(31416, 2);
    fixed("FD");
}

void rate_of_turn(void) {
    fixed("FF");
    to_either_side(930842268, 4);
    fixed("FFFFFF");
}

void rudder(void) {
    fixed("00FFFF7F");
    to_either_side(15708, 2);
    fixed("FFFF");
}

void water_speed(void) {
    fixed("FF");
    up_to(65532, 2);
    fixed("FFFFFFFFFF");
}

void depth(void) {
    fixed("FF");
    up_to(1200000, 4);
    to_either_side(32764, 2);
    up_to(252, 1);
}

void position(void) {
    to_either_side(900000000, 4);
    to_either_side(1800000000, 4);
}

void course(void) {
    fixed("FF");
    number(252 + draw(2), 1);
    up_to(62832, 2);
    up_to(65532, 2);
    fixed("FFFF");
}

void wind(void) {
    fixed("FF");
    up_to(65532, 2);
    up_to(62832, 2);
    number(248 + draw(5), 1);
    fixed("FFFF");
}

void clock_time(void) {
    fixed("FFFF");
    up_to(65532, 2);
    up_to(863999999, 4);
}

void date(void) {
    up_to(65532, 2);
    up_to(863999999, 4);
    fixed("FF7F");
}

void gnss(void) {
    fixed("00");
    up_to(65532, 2);
    up_to(863999999, 4);
    to_either_side(900000000000000000, 8);
    to_either_side(1800000000000000000, 8);
    to_either_side(9999900000, 8);
    number(draw(16) << 4, 1);
    fixed("FC");
    up_to(252, 1);
    up_to(9999, 2);
    fixed("FF7F");
    to_either_side(99990, 4);
    fixed("00");
}

void ship(void) {
    number((1 + draw(3)) | draw(4) << 6, 1);
    number(draw(1000000000), 4);
    to_either_side(1800000000, 4);
    to_either_side(900000000, 4);
    number(draw(256), 1);
    up_to(62832, 2);
    up_to(65532, 2);
    number(draw(1 << 20), 3);
    up_to(62832, 2);
    fixed("FF7F");
    number(draw(64) | 0xC0, 1);
    fixed("FF");
}

void next_frame(struct sender *sender) {
    size_t length = sender->of_ships ? 27 : 43;
    if (sender->frames == 0) {
        begin();
        if (sender->of_ships) ship();
        else gnss();
        memcpy(sender->message, digits, 2 * length);
    }
    begin();
    number(sender->sequence << 5 | sender->frames, 1);
    if (sender->frames == 0) number(length, 1);
    size_t at = sender->frames == 0 ? 0 : 14 * sender->frames - 2, left = 2 * length - at;
    size_t part = left < 16 - count ? left : 16 - count;
    memcpy(digits + count, sender->message + at, part);
    count += part;
    while (count < 16) fixed("FF");
    if (++sender->frames == (length + 7) / 7) {
        sender->frames = 0;
        sender->sequence = (sender->sequence + 1) % 8;
    }
}

static void put_time(uint64_t moment) { printf("(%" PRIu64 ".%06" PRIu64 ") ", moment / 1000000, moment % 1000000); }

void put_frame(uint64_t moment, uint32_t id) {
    put_time(moment);
    printf("can0 %08" PRIX32 "#%.*s\n", id, (int)count, digits);
}

void put_datagram(uint64_t moment, const char *bytes, size_t len) {
    put_time(moment);
    fputs("udp0 NAVD#", stdout);
    for (size_t i = 0; i < len; i++) printf("%02X", (unsigned char)bytes[i]);
    putchar('\n');
}

void put_tick(uint64_t moment) {
    put_time(moment);
    puts("tick");
}
