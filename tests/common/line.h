/*
 * line.h - a line of a listing, read byte by byte, so that it may be of any length
 * (document 01, "A listing, and edges"): a command and its arguments in decimal
 * digits, parted by single spaces. A set-up may name any number of yards here: that a listing
 * keeps to one is the listing program's rule.
 */
#ifndef COMMON_LINE_H
#define COMMON_LINE_H

#include <stdbool.h>
#include <stddef.h>
#include <stdint.h>

#include "calls.h"

enum { LINE_COMMAND = 8, LINE_TEXT = 100 };

/* What is known of the bytes so far. */
struct line {
	char command[LINE_COMMAND];
	size_t command_bytes;
	size_t numbers;
	size_t digits; /* of the last number */
	uint64_t number[CALL_ARGUMENTS];
	bool bad;
};

/* A line with no byte. */
void line_start(struct line *line);

/* The line with one byte more, which is no newline. */
void line_byte(struct line *line, unsigned char byte);

/* The call that the line is; false if it is bad. */
bool line_call(const struct line *line, struct call *call);

/* The line that the call is, without a newline. */
void line_text(const struct call *call, char text[LINE_TEXT]);

/* The call that a text is; false if it is bad. */
bool line_read(const char *text, struct call *call);

/* The five words of an answer as a line. */
void line_answer(const uint32_t *answer, char text[LINE_TEXT]);

#endif /* COMMON_LINE_H */
