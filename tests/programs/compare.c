/*
 * compare.c - what is tried beside the C version, on lists that are drawn for many sizes:
 * every answer and every word, on memories that end at a page which may not be touched, some
 * of them damaged or too short on the way, with the ledger of demand 3 beside lists that are
 * not. A difference is shrunk and printed. Usage: compare [SEED [CALLS]], the calls of each
 * size; a run is made again by its seed.
 */
#include <inttypes.h>
#include <stdio.h>
#include <stdlib.h>

#include "causes.h"
#include "draw.h"
#include "lent.h"
#include "record.h"
#include "sentences.h"

enum { LIST = 1500, SHRINK_SECONDS = 60 };

static struct beside beside;
static struct record record;
static struct tally tally;

static void report(uint64_t seed)
{
	uint32_t calls = steps_calls(&record.steps);

	record_shrink(&record, &beside, SHRINK_SECONDS);
	printf("compare: a difference, seed %" PRIu64 ", shrunk from %" PRIu32 " calls:\n", seed, calls);
	record_print(&record, "tried", "the C version", stdout);
	exit(1);
}

/* The cause that is answered is the first in the call's order of those that apply, each by itself. */
static void check_cause(void)
{
	const uint32_t *cause = call_forms[beside.call.name].cause;
	uint32_t causes = causes_of(beside.before, beside.words, &beside.call);

	while (*cause != PT_OK && !(causes >> *cause & 1u))
		cause++;
	CHECK(beside.expected.status == *cause);
}

/* How often a wrong check digit was met beside each cause that is tested after it: an older record, a missing code, a full table. */
static void print_wrong_digits(bool often)
{
	static const struct {
		enum call_name call;
		uint32_t cause;
	} beside_17[] = {
		{ CALL_ADD, PT_CODE_PRESENT }, { CALL_ADD, PT_NO_FREE_SLOT },
		{ CALL_REPLACE, PT_CODE_MISSING }, { CALL_REPLACE, PT_NO_FREE_SLOT },
	};
	enum { OFTEN = 100 };

	printf("compare: wrong check digits beside another cause:");
	for (size_t n = 0; n < sizeof beside_17 / sizeof beside_17[0]; n++) {
		uint64_t met = tally.before[beside_17[n].call][PT_WRONG_DIGIT][beside_17[n].cause];

		printf(" %s %" PRIu32 ": %" PRIu64, call_forms[beside_17[n].call].command, beside_17[n].cause, met);
		CHECK(!often || met >= OFTEN);
	}
	printf("\n");
}

/* How many labels were read and written, and refused by each cause. */
static void print_labels(bool often)
{
	enum { OFTEN = 100 };

	printf("compare: labels read %" PRIu64 ", 18: %" PRIu64 "; written %" PRIu64 ", 11: %" PRIu64 ", 18: %" PRIu64 "\n",
		tally.labels[0][PT_OK], tally.labels[0][PT_WRONG_LABEL], tally.labels[1][PT_OK],
		tally.labels[1][PT_OUT_OF_RANGE], tally.labels[1][PT_WRONG_LABEL]);
	CHECK(!often || (tally.labels[0][PT_OK] >= OFTEN && tally.labels[0][PT_WRONG_LABEL] >= OFTEN &&
		tally.labels[1][PT_OK] >= OFTEN && tally.labels[1][PT_OUT_OF_RANGE] >= OFTEN &&
		tally.labels[1][PT_WRONG_LABEL] >= OFTEN));
}

/* How many lookups the ends of their sections dropped, by where they stood. */
static void check_dropped(bool often)
{
	enum { OFTEN = 100 };

	printf("compare: ");
	print_dropped(&tally);
	for (int n = 0; n < DROPPED; n++)
		CHECK(!often || tally.dropped[n] >= OFTEN);
}

/* How many passes, clocks and offs there were of lanes at the edges, and one past the last. */
static void check_placed(bool often)
{
	enum { OFTEN = 100 };

	printf("compare: ");
	print_placed(&tally);
	for (int n = 0; n < PLACED; n++)
		CHECK(!often || tally.placed[n] >= OFTEN);
}

/* How many lookups took as many steps as they may. */
static void check_attained(bool often)
{
	enum { OFTEN = 100 };

	printf("compare: ");
	print_attained(&tally);
	CHECK(!often || tally.attained >= OFTEN);
}

/* How many clocks and offs brought slots to done lines. */
static void check_moved(bool often)
{
	enum { OFTEN = 100 };

	printf("compare: ");
	print_moved(&tally);
	for (int n = 0; n < MOVED; n++)
		CHECK(!often || tally.moved[n] >= OFTEN);
}

/* One list; returns the calls that were made. */
static uint32_t play(const struct list *list, uint64_t seed, uint32_t calls)
{
	static struct drawer drawer;
	uint32_t made = 0;

	drawer_start(&drawer, list, seed, seed % 4 == 0);
	record_start(&record);
	beside_start(&beside, &tested, &reference);
	beside.at_start = seed % 2 == 0;
	while (made < calls && record.steps.count < STEPS_MOST) {
		struct step step = drawer_next(&drawer, beside.memory, beside.words);

		record_step(&record, &beside, &step);
		if (!step_is_made(&step))
			continue;
		made++;
		if (step_is_label(&step))
			tally_label(&tally, &beside, &step);
		else
			tally_call(&tally, &beside);
		if (record.difference != SAME)
			report(seed);
		if (step.kind == STEP_CALL && beside.expected.status != PT_OK && beside.expected.status != PT_SHORT_ANSWER)
			check_cause();
	}
	return made;
}

int main(int argc, char **argv)
{
	uint64_t first = argc > 1 ? strtoull(argv[1], NULL, 10) : 2000;
	uint64_t seed = first;

	for (uint32_t n = 0; n < draw_lists_count; n++)
		CHECK((draw_lists[n].sizes.yards == 1) == (n < draw_lists_of_one_yard));
	for (uint32_t n = 0; n < draw_lists_count; n++) {
		uint32_t calls = argc > 2 ? (uint32_t)strtoul(argv[2], NULL, 10) : draw_lists[n].calls;

		for (uint32_t made = 0; made < calls; seed++)
			made += play(&draw_lists[n], seed, calls - made < LIST ? calls - made : LIST);
	}
	for (int name = 0; name < CALLS && argc == 1; name++)
		CHECK(tally.accepted[name] > 0);
	for (uint32_t cause = PT_BAD_SIZE; cause <= LAST_CAUSE && argc == 1; cause++) {
		uint64_t met = 0;

		for (int name = 0; name < CALLS; name++)
			met += tally.refused[name][cause];
		CHECK(met > 0);
	}
	print_wrong_digits(argc == 1);
	print_labels(argc == 1);
	check_dropped(argc == 1);
	check_placed(argc == 1);
	check_attained(argc == 1);
	check_moved(argc == 1);
	printf("compare: seed %" PRIu64 ", %" PRIu64 " calls, %" PRIu64 " slots handed back\n", first,
		tally.calls, tally.accepted[CALL_HAND_BACK]);
	return 0;
}
