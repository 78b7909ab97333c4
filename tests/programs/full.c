/*
 * full.c - the lists that fill tables (full.h), on what is tried beside the C version: every
 * answer, every word and every byte of a text, legality, and the ledger of demand 3 as long as
 * no word was poked. What the lists expect is compared with what the C version answers: counts,
 * slots, and the sentence that a memory breaks. A difference is shrunk and printed.
 */
#include <inttypes.h>
#include <stdio.h>
#include <stdlib.h>

#include "full.h"
#include "lent.h"
#include "record.h"
#include "reference.h"

enum { SHRINK_SECONDS = 20 };

static struct beside beside;
static struct record record;
static struct full full;
static uint64_t calls, words;

static void report(const char *list)
{
	uint32_t count = steps_calls(&record.steps);

	record_shrink(&record, &beside, SHRINK_SECONDS);
	printf("full: a difference in list %s, shrunk from %" PRIu32 " calls:\n", list, count);
	record_print(&record, "tried", "the C version", stdout);
	exit(1);
}

/* What the C version answers, or the sentence that the memory breaks. */
static uint32_t value_of(uint32_t word)
{
	return word == FULL_SENTENCE ? (uint32_t)ref_broken(beside.before, beside.words) : beside.expected_answer[word];
}

/* Compares what is expected of a step, from the number @next on; returns the next one. */
static uint32_t check_expected(const char *list, uint32_t step, uint32_t next)
{
	char text[STEP_TEXT];

	for (; next < full.count && full.expected[next].step == step; next++, words++) {
		const struct full_word *word = &full.expected[next];

		if (value_of(word->word) == word->value)
			continue;
		step_text(&full.steps.step[step], text);
		printf("full: list %s, step %" PRIu32 ", %s: word %" PRIu32 " is %" PRIu32 ", and not %" PRIu32 "\n", list, step,
			text, word->word, value_of(word->word), word->value);
		exit(1);
	}
	return next;
}

static void play(const char *list)
{
	uint32_t next = 0;

	record_start(&record);
	beside_start(&beside, &tested, &reference);
	for (uint32_t n = 0; n < full.steps.count; n++) {
		if (record_step(&record, &beside, &full.steps.step[n]) != SAME)
			report(list);
		next = check_expected(list, n, next);
	}
	CHECK(next == full.count);
	calls += steps_calls(&full.steps);
}

int main(void)
{
	uint32_t played = 0;

	for (uint32_t n = 0; n < full_count; n++) {
		if (full_lists[n].vast && !beside_vast()) {
			printf("full: list %s not tried: the system refuses the address space\n", full_lists[n].name);
			continue;
		}
		full_make(&full, n);
		play(full_lists[n].name);
		played++;
	}
	printf("full: %" PRIu32 " lists, %" PRIu64 " calls, %" PRIu64 " words as expected\n", played, calls, words);
	CHECK(played > 0 && calls > 0);
	return 0;
}
