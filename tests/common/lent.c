/*
 * lent.c - calls on a lent memory, with the checks that every call owes.
 */
#include "lent.h"

#include <inttypes.h>
#include <stdio.h>
#include <stdlib.h>
#include <string.h>

#include "compare.h"
#include "line.h"
#include "reference.h"
#include "words.h"

void lent_check(bool holds, const char *condition, const char *file, int line)
{
	if (holds)
		return;
	fflush(stdout);
	fprintf(stderr, "%s:%d: not so: %s\n", file, line, condition);
	exit(1);
}

void lent_start(struct lent *lent)
{
	for (size_t n = 0; n < LENT_WORDS; n++)
		lent->memory[n] = FILL;
	lent->words = LENT_WORDS;
}

struct call lent_call(const char *text)
{
	struct call call;

	if (!line_read(text, &call)) {
		fprintf(stderr, "bad line: %s\n", text);
		exit(1);
	}
	return call;
}

/* Says what differs, with the first word of the memory that does, and ends the program. */
static void fault(const struct call *call, enum difference difference, const struct left *left,
		const uint32_t *expected)
{
	char text[LINE_TEXT], name[WORD_TEXT];
	size_t n = 0;

	line_text(call, text);
	fflush(stdout);
	fprintf(stderr, "%s: %s\n", text, difference_texts[difference]);
	while (expected != NULL && n < LENT_WORDS && expected[n] == left->memory[n])
		n++;
	if (expected != NULL && n < LENT_WORDS) {
		word_name(sizes_of(expected), n, name);
		fprintf(stderr, "%s: %" PRIu32 ", and not %" PRIu32 "\n", name, left->memory[n], expected[n]);
	}
	exit(1);
}

static void fill_answer(uint32_t answer[LENT_ANSWER])
{
	for (size_t n = 0; n < LENT_ANSWER; n++)
		answer[n] = FILL;
}

uint32_t lent_make(struct lent *lent, const struct call *call)
{
	struct left left = { lent->memory, lent->words, lent->answer, LENT_ANSWER, 0 };
	uint32_t before[LENT_WORDS], answer[LENT_ANSWER];
	struct left expected = { before, lent->words, answer, LENT_ANSWER, 0 };
	enum difference difference;

	memcpy(before, lent->memory, sizeof before);
	fill_answer(lent->answer);
	left.status = call_make(&tested, lent->memory, lent->words, lent->answer, LENT_ANSWER, call);
	difference = owed(before, &left);
	if (difference != SAME)
		fault(call, difference, &left, NULL);
	CHECK(memcmp(before + lent->words, lent->memory + lent->words,
		(LENT_WORDS - lent->words) * sizeof before[0]) == 0);
	if (tested.setup == reference.setup)
		return left.status;
	fill_answer(answer);
	expected.status = call_make(&reference, before, lent->words, answer, LENT_ANSWER, call);
	difference = alike(&expected, &left);
	if (difference != SAME)
		fault(call, difference, &left, before);
	return left.status;
}

void lent_expect(struct lent *lent, const char *line, const char *answer)
{
	struct call call = lent_call(line);
	char got[LINE_TEXT];

	lent_make(lent, &call);
	line_answer(lent->answer, got);
	if (strcmp(got, answer) != 0) {
		fflush(stdout);
		fprintf(stderr, "%s: %s, and not %s\n", line, got, answer);
		exit(1);
	}
}

void lent_play(struct lent *lent, const struct lent_step *steps, size_t count)
{
	for (size_t n = 0; n < count; n++)
		lent_expect(lent, steps[n].call, steps[n].answer);
}

static uint32_t *record(uint32_t *memory, int body, uint32_t words, uint32_t n)
{
	return memory + layout_of(sizes_of(memory)).first[body] + words * n;
}

uint32_t *lent_global(uint32_t *memory)
{
	return record(memory, BODY_GLOBAL, GLOBAL_WORDS, 0);
}

uint32_t *lent_cabinet(uint32_t *memory, uint32_t n)
{
	return record(memory, BODY_CABINETS, CABINET_WORDS, n);
}

uint32_t *lent_lane(uint32_t *memory, uint32_t n)
{
	return record(memory, BODY_LANES, LANE_WORDS, n);
}

uint32_t *lent_slot(uint32_t *memory, uint32_t n)
{
	return record(memory, BODY_SLOTS, SLOT_WORDS, n);
}

uint32_t *lent_yard(uint32_t *memory, uint32_t n)
{
	return record(memory, BODY_YARDS, YARD_WORDS, n);
}

uint64_t lent_count(const uint32_t *counts, uint32_t kind)
{
	const uint32_t *count = counts + COUNT_WORDS * kind;

	return (uint64_t)count[COUNT_HIGH] << 32 | count[COUNT_LOW];
}

void lent_put_count(uint32_t *counts, uint32_t kind, uint64_t count)
{
	counts[COUNT_WORDS * kind + COUNT_LOW] = (uint32_t)count;
	counts[COUNT_WORDS * kind + COUNT_HIGH] = (uint32_t)(count >> 32);
}

uint32_t lent_queue_length(uint32_t *memory, const uint32_t *queue)
{
	uint32_t length = 0;
	uint32_t slot = queue[QUEUE_FIRST];

	for (; slot != PT_NONE; slot = lent_slot(memory, slot)[SLOT_QUEUE_LINK])
		length++;
	return length;
}
