/*
 * labels.c - the label reader and the label writer (document 02, request 2), by way of the
 * fourteen digits of a code. Neither has a memory.
 */
#include <inttypes.h>
#include <stdio.h>
#include <stdlib.h>
#include <string.h>

#include "reference.h"

enum { FOURTEEN = 14 };

/* The three lengths, the shortest first. */
static const size_t lengths[] = { 8, 13, FOURTEEN };
enum { LENGTHS = sizeof lengths / sizeof lengths[0] };

static uint32_t answer_label(uint32_t *answer, uint32_t status, uint32_t first, uint32_t second)
{
	const uint32_t words[PT_ANSWER_WORDS] = { status, first, second, 0, 0 };

	memcpy(answer, words, sizeof words);
	return status;
}

/* ASCII digits into a code, filled with zeros on the left to fourteen. */
uint32_t ref_label_read(const uint8_t *text, size_t bytes, uint32_t *answer, size_t answer_words)
{
	char filled[FOURTEEN + 1] = "00000000000000";
	uint64_t code;
	int length = 0;

	if (answer_words < PT_ANSWER_WORDS)
		return PT_SHORT_ANSWER;
	while (length < LENGTHS && lengths[length] != bytes)
		length++;
	if (length == LENGTHS)
		return answer_label(answer, PT_WRONG_LABEL, 0, 0);
	memcpy(filled + FOURTEEN - bytes, text, bytes);
	if (strspn(filled, "0123456789") != FOURTEEN)
		return answer_label(answer, PT_WRONG_LABEL, 0, 0);
	code = strtoull(filled, NULL, 10);
	return answer_label(answer, PT_OK, (uint32_t)(code & UINT32_MAX), (uint32_t)(code >> 32));
}

/* The shortest of the three lengths into the lent text; the bytes after it are left. */
uint32_t ref_label_write(uint8_t *text, size_t bytes, uint32_t *answer, size_t answer_words,
		uint64_t code)
{
	char filled[FOURTEEN + 1];
	size_t zeros;
	int length = 0;

	if (answer_words < PT_ANSWER_WORDS)
		return PT_SHORT_ANSWER;
	if (code > PT_MAX_CODE)
		return answer_label(answer, PT_OUT_OF_RANGE, 0, 0);
	snprintf(filled, sizeof filled, "%014" PRIu64, code % (PT_MAX_CODE + 1));
	zeros = strspn(filled, "0");
	while (lengths[length] + zeros < FOURTEEN)
		length++;
	if (bytes < lengths[length])
		return answer_label(answer, PT_WRONG_LABEL, 0, 0);
	memcpy(text, filled + FOURTEEN - lengths[length], lengths[length]);
	return answer_label(answer, PT_OK, (uint32_t)lengths[length], 0);
}
