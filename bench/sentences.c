/* The work of shipgate on a payload, for the baselines: values out of bytes, raw values into units, and the sentences of true
   heading, position, course and speed, depth, wind and time, and of the satellite receiver's message in several frames. Other
   messages are not converted. */
#include "sentences.h"

#include <string.h>

static const struct value none = {0, 0};

/* The largest raw values. */
enum {
    ANGLE = 62832,
    SPEED = 65532,
    DEPTH = 1200000,
    OFFSET = 32764,
    RANGE = 252,
    LATITUDE = 900000000,
    LONGITUDE = 1800000000,
    DATE = 65532,
    TIME = 863999999,
    HDOP = 9999,
    SEPARATION = 99990,
};

/* Those of the satellite receiver's message. */
#define FINE_LATITUDE INT64_C(900000000000000000)
#define FINE_LONGITUDE INT64_C(1800000000000000000)
#define ALTITUDE INT64_C(9999900000)

struct payload {
    const uint8_t *data;
    size_t len;
};

/* The number of these bytes, the lowest first, if they are all there. */
static int number_at(struct payload p, size_t place, size_t width, uint64_t *number) {
    if (place + width > p.len) return 0;
    *number = 0;
    for (size_t i = width; i-- > 0;) *number = *number << 8 | p.data[place + i];
    return 1;
}

static struct value unsigned_at(struct payload p, size_t place, size_t width, int64_t most) {
    uint64_t number;
    if (!number_at(p, place, width, &number) || (int64_t)number > most) return none;
    return (struct value){1, (int64_t)number};
}

static struct value signed_at(struct payload p, size_t place, size_t width, int64_t most) {
    uint64_t number;
    if (!number_at(p, place, width, &number)) return none;
    uint64_t sign = (uint64_t)1 << (8 * width - 1);
    int64_t raw = (int64_t)((number ^ sign) - sign);
    if (raw < -most || raw > most) return none;
    return (struct value){1, raw};
}

static struct value only_if(int meant, struct value v) { return meant ? v : none; }

/* A fraction from raw values, and the decimals that are printed. */
struct unit {
    uint64_t num, den;
    int places;
};

static const struct unit degrees = {180000000000000, 3141592653589793, 1};
static const struct unit knots = {900, 463, 2};
static const struct unit kilometres_per_hour = {18, 5, 2};
static const struct unit metres_per_second = {1, 1, 2};
static const struct unit metres = {1, 1, 2};
static const struct unit feet = {125, 381, 1};
static const struct unit fathoms = {125, 2286, 1};
static const struct unit offset_metres = {1, 10, 2};
static const struct unit range_metres = {100, 1, 1};
static const struct unit minutes = {3, 50, 4};
static const struct unit fine_minutes = {3, 50000000000, 4};
static const struct unit altitude_metres = {1, 100000, 1};
static const struct unit separation_metres = {1, 10, 1};
static const struct unit hundredths = {1, 1, 2};

/* The count of the unit's last decimals without its sign, rounded once to the nearest, halves up. Each range times
   its fraction's numerator fits 64 bits. */
static uint64_t size(int64_t raw, struct unit unit) {
    uint64_t magnitude = raw < 0 ? -(uint64_t)raw : (uint64_t)raw;
    return (magnitude * unit.num + unit.den / 2) / unit.den;
}

char *put_text(char *at, const char *text) {
    size_t len = strlen(text);
    memcpy(at, text, len);
    return at + len;
}

char *put_digits(char *at, uint64_t number, int width) {
    for (int i = width; i-- > 0; number /= 10) at[i] = (char)('0' + number % 10);
    return at + width;
}

char *put_number(char *at, uint64_t number) {
    int width = 1;
    for (uint64_t rest = number; rest >= 10; rest /= 10) width++;
    return put_digits(at, number, width);
}

/* The count with the last digits behind a point. */
static char *put_count(char *at, uint64_t count, int places) {
    uint64_t power = 1;
    for (int i = 0; i < places; i++) power *= 10;
    at = put_number(at, count / power);
    *at++ = '.';
    return put_digits(at, count % power, places);
}

static char *put_decimal(char *at, struct value v, struct unit unit) {
    if (!v.there) return at;
    uint64_t count = size(v.raw, unit);
    if (v.raw < 0 && count > 0) *at++ = '-';
    return put_count(at, count, unit.places);
}

/* An angle in degrees, all round being zero. */
static char *put_angle(char *at, struct value v) {
    return v.there ? put_count(at, size(v.raw, degrees) % 3600, 1) : at;
}

/* Degrees of so many digits and minutes, a comma, and the letter of the side, which is the first one for zero. */
static char *put_coordinate(char *at, struct value v, struct unit unit, int width, char positive, char negative) {
    if (!v.there) return put_text(at, ",");
    uint64_t count = size(v.raw, unit);
    at = put_digits(at, count / 600000, width);
    at = put_digits(at, count % 600000 / 10000, 2);
    *at++ = '.';
    at = put_digits(at, count % 10000, 4);
    *at++ = ',';
    *at++ = v.raw < 0 && count > 0 ? negative : positive;
    return at;
}

/* A time of day, cut off to hundredths of a second. */
static char *put_time(char *at, struct value v) {
    if (!v.there) return at;
    uint64_t hundredths = (uint64_t)v.raw / 100;
    at = put_digits(at, hundredths / 360000, 2);
    at = put_digits(at, hundredths / 6000 % 60, 2);
    at = put_digits(at, hundredths / 100 % 60, 2);
    *at++ = '.';
    return put_digits(at, hundredths % 100, 2);
}

/* Day, month and year of a day counted from 1970-01-01, with a comma before each. The calendar is counted from
   0000-03-01, so that a leap day is the last of its year; 400 years have 146097 days. */
static char *put_date(char *at, struct value v) {
    if (!v.there) return put_text(at, ",,,");
    uint32_t days = (uint32_t)v.raw + 719468, in_era = days % 146097;
    uint32_t year = (in_era - in_era / 1460 + in_era / 36524 - in_era / 146096) / 365;
    uint32_t in_year = in_era - (365 * year + year / 4 - year / 100);
    uint32_t from_march = (5 * in_year + 2) / 153;
    uint32_t month = from_march < 10 ? from_march + 3 : from_march - 9;
    *at++ = ',';
    at = put_digits(at, in_year - (153 * from_march + 2) / 5 + 1, 2);
    *at++ = ',';
    at = put_digits(at, month, 2);
    *at++ = ',';
    return put_digits(at, days / 146097 * 400 + year + (month <= 2), 4);
}

char *put_check(const char *start, char *at) {
    static const char digits[] = "0123456789ABCDEF";
    uint8_t sum = 0;
    for (const char *byte = start + 1; byte < at; byte++) sum ^= (uint8_t)*byte;
    *at++ = '*';
    *at++ = digits[sum / 16];
    *at++ = digits[sum % 16];
    return at;
}

/* The end of the sentence that began at its start. */
static char *put_sum(const char *start, char *at) { return put_text(put_check(start, at), "\r\n"); }

static char *put_hdt(char *start, struct value heading) {
    char *at = put_text(start, "$HEHDT,");
    at = put_angle(at, heading);
    return put_sum(start, put_text(at, ",T"));
}

static char *put_gll(char *start, struct value latitude, struct value longitude) {
    int there = latitude.there && longitude.there;
    char *at = put_text(start, "$GPGLL,");
    at = put_coordinate(at, only_if(there, latitude), minutes, 2, 'N', 'S');
    *at++ = ',';
    at = put_coordinate(at, only_if(there, longitude), minutes, 3, 'E', 'W');
    return put_sum(start, put_text(at, there ? ",,A,A" : ",,V,N"));
}

/* A direction, true or magnetic, and a speed in knots and in another unit. */
static char *put_vector(char *at, int magnetic, struct value angle, struct value speed, struct unit other) {
    at = put_angle(at, only_if(!magnetic, angle));
    at = put_text(at, ",T,");
    at = put_angle(at, only_if(magnetic, angle));
    at = put_text(at, ",M,");
    at = put_decimal(at, speed, knots);
    at = put_text(at, ",N,");
    return put_decimal(at, speed, other);
}

static char *put_vtg(char *start, int magnetic, struct value course, struct value speed) {
    char *at = put_vector(put_text(start, "$GPVTG,"), magnetic, course, speed, kilometres_per_hour);
    return put_sum(start, put_text(at, course.there || speed.there ? ",K,A" : ",K,N"));
}

static char *put_dpt(char *start, struct value depth, struct value offset, struct value range) {
    char *at = put_text(start, "$SDDPT,");
    at = put_decimal(at, depth, metres);
    *at++ = ',';
    at = put_decimal(at, offset, offset_metres);
    *at++ = ',';
    return put_sum(start, put_decimal(at, range, range_metres));
}

static char *put_dbt(char *start, struct value depth) {
    char *at = put_text(start, "$SDDBT,");
    at = put_decimal(at, depth, feet);
    at = put_text(at, ",f,");
    at = put_decimal(at, depth, metres);
    at = put_text(at, ",M,");
    at = put_decimal(at, depth, fathoms);
    return put_sum(start, put_text(at, ",F"));
}

static char *put_mwv(char *start, char reference, struct value speed, struct value angle) {
    char *at = put_text(start, "$WIMWV,");
    at = put_angle(at, angle);
    *at++ = ',';
    *at++ = reference;
    *at++ = ',';
    at = put_decimal(at, speed, knots);
    return put_sum(start, put_text(at, angle.there || speed.there ? ",N,A" : ",N,V"));
}

static char *put_mwd(char *start, int magnetic, struct value speed, struct value angle) {
    char *at = put_vector(put_text(start, "$WIMWD,"), magnetic, angle, speed, metres_per_second);
    return put_sum(start, put_text(at, ",M"));
}

static char *put_zda(char *start, struct value date, struct value time) {
    char *at = put_text(start, "$GPZDA,");
    at = put_time(at, time);
    at = put_date(at, date);
    return put_sum(start, put_text(at, ",00,00"));
}

/* By PGN, as in canboat's tables. */

static int heading(struct payload p, char **end) {
    if (p.len < 8) return SHORT_MESSAGE;
    if (p.data[7] % 4 != 0) return NOT_CONVERTED;
    *end = put_hdt(*end, unsigned_at(p, 1, 2, ANGLE));
    return 0;
}

static int depth(struct payload p, char **end) {
    if (p.len < 5) return SHORT_MESSAGE;
    struct value below = unsigned_at(p, 1, 4, DEPTH);
    *end = put_dpt(*end, below, signed_at(p, 5, 2, OFFSET), unsigned_at(p, 7, 1, RANGE));
    *end = put_dbt(*end, below);
    return 0;
}

static int position(struct payload p, char **end) {
    if (p.len < 8) return SHORT_MESSAGE;
    *end = put_gll(*end, signed_at(p, 0, 4, LATITUDE), signed_at(p, 4, 4, LONGITUDE));
    return 0;
}

static int course(struct payload p, char **end) {
    if (p.len < 6) return SHORT_MESSAGE;
    int reference = p.data[1] % 4;
    if (reference > 1) return NOT_CONVERTED;
    *end = put_vtg(*end, reference, unsigned_at(p, 2, 2, ANGLE), unsigned_at(p, 4, 2, SPEED));
    return 0;
}

static int wind(struct payload p, char **end) {
    if (p.len < 6) return SHORT_MESSAGE;
    struct value speed = unsigned_at(p, 1, 2, SPEED), angle = unsigned_at(p, 3, 2, ANGLE);
    int reference = p.data[5] % 8;
    switch (reference) {
    case 0:
    case 1: *end = put_mwd(*end, reference, speed, angle); return 0;
    case 2: *end = put_mwv(*end, 'R', speed, angle); return 0;
    case 3:
    case 4: *end = put_mwv(*end, 'T', speed, angle); return 0;
    default: return NOT_CONVERTED;
    }
}

static int date_and_time(struct payload p, size_t least, size_t place, char **end) {
    if (p.len < least) return SHORT_MESSAGE;
    *end = put_zda(*end, unsigned_at(p, place, 2, DATE), unsigned_at(p, place + 2, 4, TIME));
    return 0;
}

int put_sentences(uint32_t pgn, const uint8_t *data, size_t len, char **end) {
    struct payload p = {data, len};
    switch (pgn) {
    case 126992: return date_and_time(p, 8, 2, end);
    case 127250: return heading(p, end);
    case 128267: return depth(p, end);
    case 129025: return position(p, end);
    case 129026: return course(p, end);
    case 129033: return date_and_time(p, 6, 0, end);
    case 130306: return wind(p, end);
    default: return NOT_CONVERTED;
    }
}

int read_fix(const uint8_t *data, size_t len, struct fix *fix) {
    struct payload p = {data, len};
    if (len < 32) return SHORT_MESSAGE;
    fix->time = unsigned_at(p, 3, 4, TIME);
    fix->latitude = signed_at(p, 7, 8, FINE_LATITUDE);
    fix->longitude = signed_at(p, 15, 8, FINE_LONGITUDE);
    fix->altitude = signed_at(p, 23, 8, ALTITUDE);
    fix->method = data[31] / 16 <= 8 ? data[31] / 16 : 0;
    fix->satellites = unsigned_at(p, 33, 1, RANGE);
    fix->hdop = unsigned_at(p, 34, 2, HDOP);
    fix->separation = signed_at(p, 38, 4, SEPARATION);
    fix->has_position = fix->latitude.there && fix->longitude.there;
    return 0;
}

/* A number of at least two digits. */
static char *put_satellites(char *at, struct value v) {
    if (!v.there) return at;
    if (v.raw < 10) *at++ = '0';
    return put_number(at, (uint64_t)v.raw);
}

char *put_gga(char *start, const struct fix *fix) {
    int there = fix->has_position;
    char *at = put_time(put_text(start, "$GPGGA,"), fix->time);
    *at++ = ',';
    at = put_coordinate(at, only_if(there, fix->latitude), fine_minutes, 2, 'N', 'S');
    *at++ = ',';
    at = put_coordinate(at, only_if(there, fix->longitude), fine_minutes, 3, 'E', 'W');
    *at++ = ',';
    *at++ = (char)('0' + (there ? fix->method : 0));
    *at++ = ',';
    at = put_satellites(at, fix->satellites);
    *at++ = ',';
    at = put_decimal(at, fix->hdop, hundredths);
    *at++ = ',';
    at = put_decimal(at, fix->altitude, altitude_metres);
    at = put_text(at, ",M,");
    at = put_decimal(at, fix->separation, separation_metres);
    return put_sum(start, put_text(at, ",M,,"));
}
