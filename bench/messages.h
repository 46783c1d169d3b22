/* What the captures of lines.c are made of: draws, the messages of devices, and the lines that hold them. */
#ifndef MESSAGES_H
#define MESSAGES_H

#include <stddef.h>
#include <stdint.h>

/* Identifiers of messages, each with the source 0. */
enum {
    CLOCK = 0x0DF01000,
    RUDDER = 0x09F10D00,
    HEADING = 0x09F11200,
    RATE = 0x09F11300,
    SPEED = 0x09F50300,
    DEPTH = 0x0DF50B00,
    POSITION = 0x09F80100,
    COURSE = 0x09F80200,
    GNSS = 0x0DF80500,
    SHIP = 0x11F80E00,
    DATE = 0x0DF80900,
    WIND = 0x09FD0200,
    LOG = 0x19F51300,
    CLAIM = 0x18EEFF00,
    REQUEST = 0x18EAFF00,
};

/* A draw from 0 to below n, which is at most 2^31 - 1; the same ones each time. */
uint64_t draw(uint64_t n);

/* Begins a new message. */
void begin(void);

/* Appends bytes, given as hexadecimal digits. */
void fixed(const char *text);

/* Appends a number in so many bytes, the lowest first. */
void number(uint64_t value, int width);

/* Append all of a message behind what it begins with. One value in 50 is not available. */
void true_heading(void);
void magnetic_heading(void);
void rate_of_turn(void);
void rudder(void);
void water_speed(void);
void depth(void);
void position(void);
void course(void);
void wind(void);
void clock_time(void);
void date(void);
void gnss(void);
void ship(void);

/* A sender of fast packets, of satellite fixes or of ships around: the message, how many of its frames came, and its sequence. */
struct sender {
    uint8_t address;
    int of_ships;
    char message[2 * 43];
    unsigned frames, sequence;
};

/* Makes the sender's next frame the message in the making. */
void next_frame(struct sender *sender);

/* The lines of a moment in microseconds: the message in the making as a frame, so many bytes as a datagram, and a tick. */
void put_frame(uint64_t moment, uint32_t id);
void put_datagram(uint64_t moment, const char *bytes, size_t len);
void put_tick(uint64_t moment);

#endif
