/*
 * listing.c - the listing program of document 01, over the reference: one call a
 * line in, five words or "bad" a line out. It keeps to one yard: a set-up of any other
 * number is bad (document 02, request 8). It reads the file that its argument names, or the
 * standard input.
 */
#include <stdbool.h>
#include <stdio.h>

#include "calls.h"
#include "line.h"
#include "product_table.h"

enum { LISTING_WORDS = 16000 };

static uint32_t memory[LISTING_WORDS];

/* The call that the line is; false if it is bad. */
static bool listed_call(const struct line *line, struct call *call)
{
	return line_call(line, call) && (call->name != CALL_SETUP || call_sizes(call).yards == 1);
}

static void answer_line(const struct line *line)
{
	uint32_t answer[PT_ANSWER_WORDS];
	char text[LINE_TEXT];
	struct call call;

	if (!listed_call(line, &call)) {
		puts("bad");
		return;
	}
	call_make(&tested, memory, LISTING_WORDS, answer, PT_ANSWER_WORDS, &call);
	line_answer(answer, text);
	puts(text);
}

/* Answers each line; a last line without a newline counts if it has a byte. */
static void answer_lines(FILE *file)
{
	struct line line;
	bool begun = false;
	int byte;

	line_start(&line);
	while ((byte = getc(file)) != EOF) {
		if (byte != '\n') {
			line_byte(&line, (unsigned char)byte);
			begun = true;
			continue;
		}
		answer_line(&line);
		line_start(&line);
		begun = false;
	}
	if (begun)
		answer_line(&line);
}

int main(int arguments, char **argument)
{
	FILE *file = stdin;

	if (arguments > 2) {
		fprintf(stderr, "usage: %s [FILE]\n", argument[0]);
		return 2;
	}
	if (arguments == 2)
		file = fopen(argument[1], "rb");
	if (file == NULL) {
		perror(argument[1]);
		return 1;
	}
	answer_lines(file);
	if (ferror(file) || fflush(stdout) != 0) {
		perror("listing");
		return 1;
	}
	return 0;
}
