/*
 * steps.c - lists of steps, and their text.
 */
#include "steps.h"

#include <inttypes.h>
#include <stdio.h>
#include <stdlib.h>
#include <string.h>

#include "line.h"

_Static_assert((int)STEP_TEXT >= (int)LINE_TEXT, "a call's line has room");

void steps_add(struct steps *steps, const struct step *step)
{
	if (steps->count == STEPS_MOST) {
		fprintf(stderr, "a list is longer than %d steps\n", STEPS_MOST);
		exit(2);
	}
	steps->step[steps->count++] = *step;
}

void steps_call(struct steps *steps, const struct call *call)
{
	steps_add(steps, &(struct step){ .kind = STEP_CALL, .call = *call });
}

void steps_remove(struct steps *steps, uint32_t at, uint32_t count)
{
	memmove(&steps->step[at], &steps->step[at + count],
		(steps->count - at - count) * sizeof steps->step[0]);
	steps->count -= count;
}

uint8_t step_digit(uint64_t n)
{
	return (uint8_t)('0' + (n * 7 + 9) % 10);
}

struct step step_digits(uint64_t bytes)
{
	struct step step = { .kind = STEP_READ, .number = bytes };

	for (uint32_t n = 0; n < LABEL_MOST && n < bytes; n++)
		step.text[n] = step_digit(n);
	return step;
}

bool step_is_label(const struct step *step)
{
	return step->kind == STEP_READ || step->kind == STEP_WRITE;
}

bool step_is_made(const struct step *step)
{
	return step->kind == STEP_CALL || step_is_label(step);
}

uint32_t steps_calls(const struct steps *steps)
{
	uint32_t calls = 0;

	for (uint32_t n = 0; n < steps->count; n++)
		calls += step_is_made(&steps->step[n]) ? 1u : 0u;
	return calls;
}

bool steps_are_calls(const struct steps *steps)
{
	for (uint32_t n = 0; n < steps->count; n++)
		if (steps->step[n].kind != STEP_CALL)
			return false;
	return true;
}

/* ---- texts: bytes between quotes */

enum { BYTE_TEXT = 4 }; /* the most that a byte takes */
_Static_assert((int)STEP_TEXT >= LABEL_MOST * BYTE_TEXT + (int)sizeof "read ''", "a text has room");

static bool prints(uint8_t byte)
{
	return byte >= ' ' && byte <= '~' && byte != '\'' && byte != '\\';
}

static void read_text(const struct step *step, char text[STEP_TEXT])
{
	char *at = text;

	if (step->number > LABEL_MOST) {
		sprintf(text, "digits %" PRIu64, step->number);
		return;
	}
	at += sprintf(at, "read '");
	for (uint32_t n = 0; n < step->number; n++)
		at += sprintf(at, prints(step->text[n]) ? "%c" : "\\x%02x", step->text[n]);
	sprintf(at, "'");
}

/* The bytes after the first quote, up to the last; false if there are none, or too many. */
static bool read_bytes(const char *text, struct step *step)
{
	unsigned byte;

	for (step->number = 0; *text != '\0' && strcmp(text, "'") != 0; step->number++) {
		bool escaped = sscanf(text, "\\x%2x", &byte) == 1;

		if (step->number == LABEL_MOST)
			return false;
		step->text[step->number] = escaped ? (uint8_t)byte : (uint8_t)*text;
		text += escaped ? BYTE_TEXT : 1;
	}
	return *text == '\'';
}

void step_text(const struct step *step, char text[STEP_TEXT])
{
	switch (step->kind) {
	case STEP_POKE:
		snprintf(text, STEP_TEXT, "poke %" PRIu64 " %" PRIu32, step->number, step->value);
		break;
	case STEP_LEND:
		snprintf(text, STEP_TEXT, "lend %" PRIu64, step->number);
		break;
	case STEP_ANSWER:
		snprintf(text, STEP_TEXT, "answer %" PRIu64, step->number);
		break;
	case STEP_MEND:
		snprintf(text, STEP_TEXT, "mend");
		break;
	case STEP_READ:
		read_text(step, text);
		break;
	case STEP_WRITE:
		snprintf(text, STEP_TEXT, "write %" PRIu64 " %" PRIu64, step->number, step->code);
		break;
	case STEP_CHAIN:
		snprintf(text, STEP_TEXT, "chain %" PRIu64, step->number);
		break;
	default:
		line_text(&step->call, text);
	}
}

bool step_read(const char *text, struct step *step)
{
	memset(step, 0, sizeof *step);
	step->kind = STEP_CALL;
	if (sscanf(text, "poke %" SCNu64 " %" SCNu32, &step->number, &step->value) == 2)
		step->kind = STEP_POKE;
	else if (sscanf(text, "lend %" SCNu64, &step->number) == 1)
		step->kind = STEP_LEND;
	else if (sscanf(text, "answer %" SCNu64, &step->number) == 1)
		step->kind = STEP_ANSWER;
	else if (strcmp(text, "mend") == 0)
		step->kind = STEP_MEND;
	else if (sscanf(text, "write %" SCNu64 " %" SCNu64, &step->number, &step->code) == 2)
		step->kind = STEP_WRITE;
	else if (sscanf(text, "chain %" SCNu64, &step->number) == 1)
		step->kind = STEP_CHAIN;
	else if (sscanf(text, "digits %" SCNu64, &step->number) == 1)
		*step = step_digits(step->number);
	else if (strncmp(text, "read '", strlen("read '")) == 0 && read_bytes(text + strlen("read '"), step))
		step->kind = STEP_READ;
	else
		return line_read(text, &step->call);
	return true;
}
