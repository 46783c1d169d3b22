/* What the baselines share: the lines of a capture in, text out. */
#ifndef CAPTURE_H
#define CAPTURE_H

#include <stddef.h>
#include <stdint.h>

/* The longest line. A longer one is handed over as one byte more, and is not held. */
enum { LONGEST = 4096 };

/* Hands over each line of standard input, numbered from 1, until one answers other than 0. Answers the status. */
int each_line(int (*line)(uint64_t number, const char *text, size_t len));

/* The frame of a line, as (S.UUUUUU) can0 IIIIIIII#DATA: answers the data's length, or -1. */
int read_frame(const char *line, size_t len, uint32_t *id, uint8_t *data);

/* The same, with the moment in microseconds. */
int read_moment_and_frame(const char *line, size_t len, uint64_t *moment, uint32_t *id, uint8_t *data);

/* Lets a text be written to standard output. Answers 0, or -1 where a write fails. */
int put(const char *text, size_t len);

#endif
