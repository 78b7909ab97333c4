/*
 * input.c - reading a memory. Bytes are words of the machine's own order; a text has numbers, decimal or with 0x before
 * them, parted by blanks, commas or lines. What stands before a colon in a line is an address and is left out, so that
 * what gdb prints can be taken as it is.
 */
#define _POSIX_C_SOURCE 200809L
#include "input.h"

#include <ctype.h>
#include <errno.h>
#include <stdio.h>
#include <stdlib.h>
#include <string.h>

enum { FIRST_ROOM = 1 << 15, MOST_WORDS = 1 << 26 }; /* far more than a table has */

static bool complain(const char *name, const char *what)
{
	fprintf(stderr, PROGRAM ": %s: %s\n", name, what);
	return false;
}

/* Makes room for one word more. */
static bool make_room(const char *name, struct input *input, size_t *room)
{
	uint32_t *more;

	if (input->words < *room)
		return true;
	if (*room >= MOST_WORDS)
		return complain(name, "too long for a memory");
	*room = *room == 0 ? FIRST_ROOM : 2 * *room;
	more = realloc(input->word, *room * sizeof *more);
	if (more == NULL)
		return complain(name, strerror(errno));
	input->word = more;
	return true;
}

/* Words as bytes; what is left at the end must be none. */
static bool read_bytes(FILE *file, const char *name, struct input *input)
{
	size_t room = 0, got = sizeof(uint32_t);

	while (got == sizeof(uint32_t)) {
		if (!make_room(name, input, &room))
			return false;
		got = fread(&input->word[input->words], 1, sizeof(uint32_t), file);
		if (got == sizeof(uint32_t))
			input->words++;
	}
	return got == 0 || ferror(file) || complain(name, "its length in bytes is no multiple of four: not words, or cut off");
}

/* The number at @text, whose end comes back in @end; false if there is none of 32 bits. */
static bool read_number(const char *text, char **end, uint32_t *number)
{
	unsigned long long value;

	if (!isdigit((unsigned char)*text))
		return false;
	errno = 0;
	value = strtoull(text, end, strncmp(text, "0x", 2) == 0 ? 16 : 10);
	*number = (uint32_t)value;
	return errno == 0 && value <= UINT32_MAX && (**end == '\0' || strchr(" \t\r\n,", **end) != NULL);
}

/* The numbers of a line, behind an address where there is one. */
static bool read_line(const char *name, char *line, struct input *input, size_t *room)
{
	char *colon = strchr(line, ':'), *at = colon == NULL ? line : colon + 1, *end;

	while (*(at += strspn(at, " \t\r\n,")) != '\0') {
		if (!make_room(name, input, room))
			return false;
		if (!read_number(at, &end, &input->word[input->words])) {
			fprintf(stderr, PROGRAM ": %s: no number of 32 bits after %zu words: %.*s\n", name, input->words,
				(int)strcspn(at, " \t\r\n,"), at);
			return false;
		}
		input->words++;
		at = end;
	}
	return true;
}

static bool read_text(FILE *file, const char *name, struct input *input)
{
	char *line = NULL;
	size_t length = 0, room = 0;
	bool well = true;

	while (well && getline(&line, &length, file) >= 0)
		well = read_line(name, line, input, &room);
	free(line);
	return well;
}

bool input_read(const char *name, bool text, struct input *input)
{
	bool standard = strcmp(name, "-") == 0, well;
	FILE *file = standard ? stdin : fopen(name, "rb");

	*input = (struct input){ NULL, 0 };
	if (file == NULL)
		return complain(name, strerror(errno));
	errno = 0;
	well = text ? read_text(file, name, input) : read_bytes(file, name, input);
	if (well && ferror(file))
		well = complain(name, strerror(errno));
	if (!standard)
		fclose(file);
	return well && (input->words > 0 || complain(name, "empty: there is no word in it"));
}
