/* What the baselines say of a payload. */
#ifndef SENTENCES_H
#define SENTENCES_H

#include <stddef.h>
#include <stdint.h>

/* The most bytes of one sentence, and the most sentences of one reading. */
enum { SENTENCE = 82, SENTENCES = 2 };

/* Why a frame has no sentence: its message is not converted, or is too short. */
enum { NOT_CONVERTED = 5, SHORT_MESSAGE = 22 };

/* A raw value, if there is one. */
struct value {
    int there;
    int64_t raw;
};

/* What the message of a satellite receiver says, PGN 129029. */
struct fix {
    struct value time, latitude, longitude, altitude, satellites, hdop, separation;
    int method, has_position;
};

/* Append a text, the number in decimal digits, its last digits, so many, and the sum of what stands behind a start. Each answers
   the end. */
char *put_text(char *at, const char *text);
char *put_number(char *at, uint64_t number);
char *put_digits(char *at, uint64_t number, int width);
char *put_check(const char *start, char *at);

/* Appends the sentences of a message in one frame and moves the end behind them. Answers 0, or the rule that says why
   there are none. */
int put_sentences(uint32_t pgn, const uint8_t *data, size_t len, char **end);

/* Reads a message of PGN 129029. Answers 0, or that it is too short. */
int read_fix(const uint8_t *data, size_t len, struct fix *fix);

/* Appends its sentence and answers the end. */
char *put_gga(char *start, const struct fix *fix);

#endif
