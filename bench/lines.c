/* Writes a capture to measure with, the same bytes each time: `lines KIND COUNT [OPEN]`, COUNT lines behind those that the kind begins
   with.

   headings   true headings from many addresses
   singles    the messages in one frame that convert.c knows, in turn
   positions  fast packets of the four senders of replay.toml, in an order that is drawn
   position   those of the first sender alone
   network    for network.toml: datagrams with a true heading each
   ships      for ships.toml: fast packets with the position report of a ship each
   bus        for bus.toml: fast packets of which frames are lost, messages in one frame, devices that come and go, requests, ticks, and
              datagrams of which some are damaged
   held       fast packets of one sender within 750 ms, while OPEN others are open; before them the claims of all senders */
#include "messages.h"

#include <stdio.h>
#include <stdlib.h>
#include <string.h>

#define START UINT64_C(1700000000000000)

static struct sender senders[4] = {{.address = 40}, {.address = 12}, {.address = 200}, {.address = 7}};

static void put_heading(uint64_t i) {
    begin();
    number(i, 1);
    number(draw(62833), 2);
    fixed("FF7FFF7FFC");
    put_frame(START + i * 10000, HEADING | i % 252);
}

static void put_single(uint64_t i) {
    static const uint32_t ids[7] = {HEADING, POSITION, COURSE, DEPTH, WIND, CLOCK, DATE};
    begin();
    switch (i % 7) {
    case 0: fixed("FF"), true_heading(); break;
    case 1: position(); break;
    case 2: course(); break;
    case 3: depth(); break;
    case 4: wind(); break;
    case 5: clock_time(); break;
    default: date(); break;
    }
    put_frame(START + i * 10000, ids[i % 7] | i % 252);
}

static void put_position(uint64_t i) {
    static uint64_t moment = START;
    (void)i;
    moment += 10000 + draw(10000);
    struct sender *sender = &senders[draw(4)];
    next_frame(sender);
    put_frame(moment, GNSS | sender->address);
}

static void put_position_of_one(uint64_t i) {
    next_frame(&senders[0]);
    put_frame(START + i * 10000, GNSS | senders[0].address);
}

static void put_ship(uint64_t i) {
    static struct sender receiver = {.address = 43, .of_ships = 1};
    next_frame(&receiver);
    put_frame(START + i * 10000, SHIP | receiver.address);
}

/* The address of a device, by its number. Its NAME has the number too. The first four are those of the senders. */
static const uint8_t devices[10] = {40, 12, 200, 7, 23, 24, 35, 36, 50, 60};

enum { COMPASS = 4, SECOND_COMPASS, SOUNDER, LOG_METER, VANE, STEERING, DEVICES };

static void put_claim(uint64_t moment, uint32_t address, uint64_t device) {
    begin();
    number(UINT64_C(0xC0788C00FFC00001) + device, 8);
    put_frame(moment, CLAIM | address);
}

/* A frame of a fast packet. One in a hundred before it was lost. */
static void put_piece(uint64_t moment) {
    struct sender *sender = &senders[draw(4)];
    if (draw(100) == 0) next_frame(sender);
    next_frame(sender);
    put_frame(moment, GNSS | sender->address);
}

static void put_instrument(uint64_t moment) {
    uint32_t id;
    begin();
    switch (draw(10)) {
    case 0: id = HEADING | devices[COMPASS], fixed("FF"), true_heading(); break;
    case 1: id = HEADING | devices[SECOND_COMPASS], fixed("FF"), true_heading(); break;
    case 2: id = HEADING | devices[SECOND_COMPASS], fixed("FF"), magnetic_heading(); break;
    case 3: id = RATE | devices[COMPASS], rate_of_turn(); break;
    case 4: id = RUDDER | devices[STEERING], rudder(); break;
    case 5: id = SPEED | devices[LOG_METER], water_speed(); break;
    case 6: id = DEPTH | devices[SOUNDER], depth(); break;
    case 7: id = POSITION | devices[0], position(); break;
    case 8: id = COURSE | devices[0], course(); break;
    default: id = WIND | devices[VANE], wind(); break;
    }
    put_frame(moment, id);
}

/* A device claims its address, or says that it has none. */
static void put_coming(uint64_t moment) {
    uint64_t device = draw(DEVICES);
    put_claim(moment, draw(4) ? devices[device] : 254, device);
}

/* Writes a line of a datagram, and answers its length. */
static size_t put_line(char *out, const char *source, unsigned number_of_line, const char *body) {
    char block[32];
    unsigned sum = 0, block_sum = 0;
    snprintf(block, sizeof block, "s:%s,n:%u", source, number_of_line);
    for (const char *c = block; *c; c++) block_sum ^= (unsigned char)*c;
    for (const char *c = body; *c; c++) sum ^= (unsigned char)*c;
    return (size_t)sprintf(out, "\\%s*%02X\\$%s*%02X\r\n", block, block_sum, body, sum);
}

static void put_heading_of_bridge(uint64_t i) {
    char body[80], bytes[160] = "UdPbC";
    unsigned drawn = (unsigned)draw(3600);
    snprintf(body, sizeof body, "IIHDT,%u.%u,T", drawn / 10, drawn % 10);
    put_datagram(START + i * 10000, bytes, 6 + put_line(bytes + 6, "II0002", (unsigned)(i % 999 + 1), body));
}

/* A datagram of the bridge, as a whole or damaged in one byte, or of a source that isn't heard. */
static void put_sentence(uint64_t moment) {
    static unsigned counted;
    char body[80], bytes[160] = "UdPbC";
    unsigned drawn = (unsigned)draw(3600);
    switch (draw(5)) {
    case 0: snprintf(body, sizeof body, "IIHDT,%u.%u,T", drawn / 10, drawn % 10); break;
    case 1: snprintf(body, sizeof body, "IIXTE,A,A,%u.%03u,L,N", drawn / 1000, drawn % 1000); break;
    case 2: snprintf(body, sizeof body, "SDDPT,%u.%u,,", drawn / 10, drawn % 10); break;
    case 3: snprintf(body, sizeof body, "WIMWV,%u.%u,R,%u.0,N,A", drawn / 10, drawn % 10, drawn % 50); break;
    default:
        snprintf(body, sizeof body, "GPGGA,%02u1530.25,%02u30.5000,N,%03u12.2500,E,1,09,1.05,12.3,M,17.8,M,,", drawn % 24, drawn % 60, drawn % 180);
    }
    counted = counted % 999 + 1;
    size_t len = 6 + put_line(bytes + 6, draw(50) ? "II0002" : "II0009", counted, body);
    if (draw(30) == 0) bytes[6 + draw(len - 6)] ^= 1;
    put_datagram(moment, bytes, len);
}

static void put_request(uint64_t moment) {
    begin();
    number(draw(2) ? 60928 : 126996, 3);
    put_frame(moment, REQUEST | devices[COMPASS]);
}

static void put_bus(uint64_t i) {
    static uint64_t moment = START;
    moment += 200 + draw(1800);
    uint64_t share = draw(100);
    if (i < DEVICES) put_claim(moment, devices[i], i);
    else if (share < 45) put_piece(moment);
    else if (share < 88) put_instrument(moment);
    else if (share < 89) put_coming(moment);
    else if (share < 98) put_sentence(moment);
    else if (share < 99) put_request(moment);
    else put_tick(moment);
}

/* The other senders while a fast packet is held: 252 addresses, from the first 4 of which two messages are open. */
enum { HELD = 127, OWN = 251, OTHERS = 252 };

static uint32_t other(uint64_t i) {
    uint32_t address = (uint32_t)(i % OTHERS);
    address += address >= HELD;
    return address + (address >= OWN);
}

static void put_openers(uint64_t open) {
    put_claim(START, HELD, OTHERS);
    for (uint64_t i = 0; i < OTHERS; i++) put_claim(START, other(i), i);
    for (uint64_t i = 0; i < open; i++) {
        begin();
        fixed("00DF010203040506");
        put_frame(START, (i < OTHERS ? GNSS : LOG) | other(i));
    }
}

/* Two frames a microsecond, so that 1,500,000 of them come before any of the open ones is overdue. */
static void put_held(uint64_t i) {
    static struct sender sender = {.address = HELD};
    next_frame(&sender);
    put_frame(START + i / 2, GNSS | sender.address);
}

static const struct kind {
    const char *name;
    void (*put)(uint64_t i);
} kinds[] = {{"headings", put_heading}, {"singles", put_single}, {"positions", put_position}, {"position", put_position_of_one},
            {"network", put_heading_of_bridge}, {"ships", put_ship}, {"bus", put_bus}, {"held", put_held}};

int main(int words, char **word) {
    if (words < 3) return 2;
    uint64_t lines = strtoull(word[2], NULL, 10);
    if (words > 3) put_openers(strtoull(word[3], NULL, 10));
    for (size_t k = 0; k < sizeof kinds / sizeof *kinds; k++) {
        if (strcmp(word[1], kinds[k].name) != 0) continue;
        for (uint64_t i = 0; i < lines; i++) kinds[k].put(i);
        return 0;
    }
    return 2;
}
