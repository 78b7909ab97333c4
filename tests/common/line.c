/*
 * line.c - the text of a listing's line.
 */
#include "line.h"

#include <inttypes.h>
#include <stdio.h>
#include <string.h>

void line_start(struct line *line)
{
	memset(line, 0, sizeof *line);
}

static void command_byte(struct line *line, unsigned char byte)
{
	if (line->command_bytes == LINE_COMMAND)
		line->bad = true;
	else
		line->command[line->command_bytes++] = (char)byte;
}

/* A space ends the command or a number, which has a digit, and begins a number. */
static void space_byte(struct line *line)
{
	if (line->numbers == CALL_ARGUMENTS || (line->numbers > 0 && line->digits == 0)) {
		line->bad = true;
		return;
	}
	line->numbers++;
	line->digits = 0;
}

static void number_byte(struct line *line, unsigned char byte)
{
	uint64_t *number = &line->number[line->numbers - 1];
	unsigned digit = byte - (unsigned)'0';

	if (byte < '0' || byte > '9' || *number > (UINT64_MAX - digit) / 10) {
		line->bad = true;
		return;
	}
	*number = *number * 10 + digit;
	line->digits++;
}

void line_byte(struct line *line, unsigned char byte)
{
	if (line->bad)
		return;
	if (byte == ' ')
		space_byte(line);
	else if (line->numbers == 0)
		command_byte(line, byte);
	else
		number_byte(line, byte);
}

static bool command_is(const struct line *line, const char *command)
{
	return line->command_bytes == strlen(command) &&
		memcmp(line->command, command, line->command_bytes) == 0;
}

bool line_call(const struct line *line, struct call *call)
{
	int name = 0;

	while (name < CALLS && !command_is(line, call_forms[name].command))
		name++;
	if (line->bad || name == CALLS || line->numbers != call_arguments((enum call_name)name))
		return false;
	if (line->numbers > 0 && line->digits == 0)
		return false;
	call->name = (enum call_name)name;
	for (uint32_t n = 0; n < CALL_ARGUMENTS; n++) {
		if (!call_argument_fits(call->name, n, line->number[n]))
			return false;
		call->argument[n] = line->number[n];
	}
	return true;
}

void line_text(const struct call *call, char text[LINE_TEXT])
{
	int at = snprintf(text, LINE_TEXT, "%s", call_forms[call->name].command);

	for (uint32_t n = 0; n < call_arguments(call->name); n++)
		at += snprintf(text + at, LINE_TEXT - (size_t)at, " %" PRIu64, call->argument[n]);
}

bool line_read(const char *text, struct call *call)
{
	struct line line;

	line_start(&line);
	for (const char *byte = text; *byte != '\0'; byte++)
		line_byte(&line, (unsigned char)*byte);
	return line_call(&line, call);
}

void line_answer(const uint32_t *answer, char text[LINE_TEXT])
{
	snprintf(text, LINE_TEXT, "%" PRIu32 " %" PRIu32 " %" PRIu32 " %" PRIu32 " %" PRIu32,
		answer[0], answer[1], answer[2], answer[3], answer[4]);
}
