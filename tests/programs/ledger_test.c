/*
 * ledger_test.c - lists of calls and answers on which the ledger of demand 3 finds a
 * fault, each beside one on which it finds none; among them lookups that take one step more
 * than they may, clocks that say one slot more or less than came to done queues, and sections
 * of lanes of eight yards.
 */
#include <stdio.h>
#include <stdlib.h>
#include <string.h>

#include "ledger.h"
#include "lent.h"

static struct ledger ledger;
static struct lent lent;
static uint32_t before[LENT_WORDS]; /* the last call on it */

static bool attained; /* the figure, by the last step that was fed */

/* Feeds the steps; returns the fault of the last one. The others have none. */
static const char *feed(const struct lent_step *steps, size_t count)
{
	const char *fault = NULL;

	ledger_reset(&ledger);
	for (size_t n = 0; n < count; n++) {
		struct call call = lent_call(steps[n].call);
		uint32_t answer[PT_ANSWER_WORDS];
		char *text = (char *)steps[n].answer;

		CHECK(fault == NULL);
		for (size_t word = 0; word < PT_ANSWER_WORDS; word++)
			answer[word] = (uint32_t)strtoul(text, &text, 10);
		attained = ledger_attains(&ledger, &call, answer);
		fault = ledger_feed(&ledger, &call, answer);
	}
	return fault;
}

#define FEED(steps) feed(steps, sizeof(steps) / sizeof((steps)[0]))
/* The list with another last answer. */
#define FAULT(steps, last) fault(steps, sizeof(steps) / sizeof((steps)[0]), last)

static const char *fault(const struct lent_step *steps, size_t count, const char *last)
{
	struct lent_step changed[32];

	CHECK(count <= 32);
	memcpy(changed, steps, count * sizeof changed[0]);
	changed[count - 1].answer = last;
	return feed(changed, count);
}

static bool says(const char *fault, const char *part)
{
	return fault != NULL && strstr(fault, part) != NULL;
}

static void test_whole_search(void)
{
	static const struct lent_step present[] = {
		{ "setup 1 1 2 3", "0 175 0 0 0" }, { "add 0 17 25 1", "0 0 0 0 0" },
		{ "begin 1", "0 0 0 0 0" }, { "start 1 17", "0 0 0 0 0" },
		{ "step 1", "0 1 0 25 1" },
	};
	static const struct lent_step absent[] = {
		{ "setup 1 1 2 3", "0 175 0 0 0" }, { "add 0 17 25 1", "0 0 0 0 0" },
		{ "begin 1", "0 0 0 0 0" }, { "start 1 529", "0 0 0 0 0" },
		{ "step 1", "0 0 0 0 0" }, { "step 1", "0 2 0 0 0" },
	};

	CHECK(FEED(present) == NULL);
	CHECK(says(FAULT(present, "0 2 0 0 0"), "explains"));
	CHECK(says(FAULT(present, "0 1 1 25 1"), "explains"));
	CHECK(says(FAULT(present, "0 1 0 26 1"), "explains"));
	CHECK(says(FAULT(present, "0 1 0 25 0"), "explains"));
	CHECK(FEED(absent) == NULL);
	CHECK(says(FAULT(absent, "0 1 0 25 1"), "explains"));
	CHECK(says(FAULT(absent, "0 2 1 0 0"), "explains"));
}

/* Instants before the start explain nothing, those from it on do. */
static void test_instants(void)
{
	static const struct lent_step during[] = {
		{ "setup 1 1 2 3", "0 175 0 0 0" }, { "add 0 17 25 1", "0 0 0 0 0" },
		{ "begin 1", "0 0 0 0 0" }, { "start 1 17", "0 0 0 0 0" },
		{ "rep 0 17 26 2", "0 1 0 0 0" }, { "del 0 17", "0 1 0 0 0" },
		{ "add 0 17 27 3", "0 2 0 0 0" }, { "step 1", "0 1 1 26 2" },
	};
	static const struct lent_step before[] = {
		{ "setup 1 1 2 3", "0 175 0 0 0" }, { "add 0 17 25 1", "0 0 0 0 0" },
		{ "begin 1", "0 0 0 0 0" }, { "rep 0 17 26 2", "0 1 0 0 0" },
		{ "start 1 17", "0 0 0 0 0" }, { "step 1", "0 1 1 26 2" },
	};
	static const struct lent_step replaced[] = {
		{ "setup 1 1 2 3", "0 175 0 0 0" }, { "add 0 17 25 1", "0 0 0 0 0" },
		{ "begin 1", "0 0 0 0 0" }, { "start 1 17", "0 0 0 0 0" },
		{ "rep 0 17 26 2", "0 1 0 0 0" }, { "step 1", "0 1 0 25 1" },
	};

	CHECK(FEED(during) == NULL);
	CHECK(FAULT(during, "0 1 0 25 1") == NULL);
	CHECK(FAULT(during, "0 1 2 27 3") == NULL);
	CHECK(FAULT(during, "0 2 0 0 0") == NULL);
	CHECK(says(FAULT(during, "0 1 1 25 1"), "explains"));
	CHECK(FEED(before) == NULL);
	CHECK(says(FAULT(before, "0 1 0 25 1"), "explains"));
	/* At no instant is a replaced code absent. */
	CHECK(FEED(replaced) == NULL);
	CHECK(says(FAULT(replaced, "0 2 0 0 0"), "explains"));
}

/* An end strikes the lane's lookup: no step of it is taken after that, and its instants explain nothing. */
static void test_dropped(void)
{
	static const struct ledger_lane at_rest;
	static const struct lent_step step[] = {
		{ "setup 1 1 2 3", "0 175 0 0 0" }, { "add 0 17 25 1", "0 0 0 0 0" },
		{ "begin 1", "0 0 0 0 0" }, { "start 1 17", "0 0 0 0 0" },
		{ "end 1", "0 0 0 0 0" }, { "step 1", "10 0 0 0 0" },
	};
	static const struct lent_step other_code[] = {
		{ "setup 1 1 2 3", "0 175 0 0 0" }, { "add 0 17 25 1", "0 0 0 0 0" },
		{ "add 0 24 26 2", "0 1 0 0 0" }, { "begin 1", "0 0 0 0 0" },
		{ "start 1 17", "0 0 0 0 0" }, { "end 1", "0 0 0 0 0" },
		{ "begin 1", "0 0 0 0 0" }, { "start 1 24", "0 0 0 0 0" },
		{ "step 1", "0 1 1 26 2" },
	};
	static const struct lent_step same_code[] = {
		{ "setup 1 1 2 3", "0 175 0 0 0" }, { "add 0 17 25 1", "0 0 0 0 0" },
		{ "begin 1", "0 0 0 0 0" }, { "start 1 17", "0 0 0 0 0" },
		{ "del 0 17", "0 0 0 0 0" }, { "end 1", "0 0 0 0 0" },
		{ "begin 1", "0 0 0 0 0" }, { "start 1 17", "0 0 0 0 0" },
		{ "step 1", "0 2 0 0 0" },
	};

	CHECK(FEED(step) == NULL);
	CHECK(memcmp(&ledger.lane[1], &at_rest, sizeof at_rest) == 0);
	CHECK(says(FAULT(step, "0 0 0 0 0"), "no lookup running"));
	CHECK(says(FAULT(step, "0 1 0 25 1"), "no lookup running"));
	CHECK(says(FAULT(step, "0 2 0 0 0"), "no lookup running"));
	CHECK(FEED(other_code) == NULL);
	CHECK(says(FAULT(other_code, "0 1 0 25 1"), "explains"));
	CHECK(FEED(same_code) == NULL);
	CHECK(says(FAULT(same_code, "0 1 0 25 1"), "explains"));
}

/* A lookup that stood on a removed slot when it was dropped keeps it from nobody. */
static void test_dropped_on_removed(void)
{
	static const struct lent_step ended[] = {
		{ "setup 1 1 3 3", "0 205 0 0 0" }, { "add 0 17 25 1", "0 0 0 0 0" },
		{ "begin 2", "0 0 0 0 0" }, { "start 2 17", "0 0 0 0 0" },
		{ "del 0 17", "0 0 0 0 0" }, { "end 2", "0 0 0 0 0" },
		{ "back 0", "0 0 0 0 0" },
	};
	static const struct lent_step open[] = {
		{ "setup 1 1 3 3", "0 205 0 0 0" }, { "add 0 17 25 1", "0 0 0 0 0" },
		{ "begin 1", "0 0 0 0 0" }, { "begin 2", "0 0 0 0 0" },
		{ "start 1 17", "0 0 0 0 0" }, { "start 2 17", "0 0 0 0 0" },
		{ "del 0 17", "0 0 0 0 0" }, { "end 2", "0 0 0 0 0" },
		{ "back 0", "16 0 0 0 0" },
	};

	CHECK(FEED(ended) == NULL);
	CHECK(FEED(open) == NULL); /* another section of the removal is open */
	CHECK(says(FAULT(open, "0 0 0 0 0"), "before a section"));
}

/* What the ledger has of a lane's section and lookup says which calls cannot be accepted. */
static void test_misplaced(void)
{
	static const struct lent_step begin[] = {
		{ "setup 1 1 2 3", "0 175 0 0 0" }, { "begin 1", "0 0 0 0 0" },
		{ "begin 0", "0 0 0 0 0" }, { "begin 1", "7 0 0 0 0" },
	};
	static const struct lent_step end[] = {
		{ "setup 1 1 2 3", "0 175 0 0 0" }, { "begin 1", "0 0 0 0 0" },
		{ "start 1 17", "0 0 0 0 0" }, { "end 1", "0 0 0 0 0" }, { "end 1", "8 0 0 0 0" },
	};
	static const struct lent_step outside[] = {
		{ "setup 1 1 2 3", "0 175 0 0 0" }, { "begin 1", "0 0 0 0 0" },
		{ "end 1", "0 0 0 0 0" }, { "start 1 17", "8 0 0 0 0" },
	};
	static const struct lent_step beside[] = {
		{ "setup 1 1 2 3", "0 175 0 0 0" }, { "begin 1", "0 0 0 0 0" },
		{ "start 1 17", "0 0 0 0 0" }, { "start 1 24", "9 0 0 0 0" },
	};
	static const struct lent_step answered[] = {
		{ "setup 1 1 2 3", "0 175 0 0 0" }, { "begin 1", "0 0 0 0 0" },
		{ "start 1 17", "0 0 0 0 0" }, { "step 1", "0 2 0 0 0" }, { "step 1", "10 0 0 0 0" },
	};

	CHECK(FEED(begin) == NULL);
	CHECK(says(FAULT(begin, "0 0 0 0 0"), "inside a section"));
	CHECK(FEED(end) == NULL);
	CHECK(says(FAULT(end, "0 0 0 0 0"), "not open"));
	CHECK(FEED(outside) == NULL);
	CHECK(says(FAULT(outside, "0 0 0 0 0"), "outside a section"));
	CHECK(FEED(beside) == NULL);
	CHECK(says(FAULT(beside, "0 0 0 0 0"), "another runs"));
	CHECK(FEED(answered) == NULL);
	CHECK(says(FAULT(answered, "0 0 0 0 0"), "no lookup running"));
}

static void test_hand_back(void)
{
	static const struct lent_step open[] = {
		{ "setup 1 1 3 3", "0 205 0 0 0" }, { "add 0 17 25 1", "0 0 0 0 0" },
		{ "begin 2", "0 0 0 0 0" }, { "del 0 17", "0 0 0 0 0" },
		{ "begin 1", "0 0 0 0 0" }, { "back 0", "16 0 0 0 0" },
	};
	static const struct lent_step ended[] = {
		{ "setup 1 1 3 3", "0 205 0 0 0" }, { "add 0 17 25 1", "0 0 0 0 0" },
		{ "begin 2", "0 0 0 0 0" }, { "del 0 17", "0 0 0 0 0" },
		{ "begin 1", "0 0 0 0 0" }, { "end 2", "0 0 0 0 0" },
		{ "begin 2", "0 0 0 0 0" }, { "back 0", "0 0 0 0 0" },
	};
	static const struct lent_step twice[] = {
		{ "setup 1 1 3 3", "0 205 0 0 0" }, { "add 0 17 25 1", "0 0 0 0 0" },
		{ "del 0 17", "0 0 0 0 0" }, { "back 0", "0 0 0 0 0" },
		{ "back 0", "16 0 0 0 0" },
	};
	static const struct lent_step setup_anew[] = {
		{ "setup 1 1 3 3", "0 205 0 0 0" }, { "add 0 17 25 1", "0 0 0 0 0" },
		{ "del 0 17", "0 0 0 0 0" }, { "setup 1 1 3 0", "1 0 0 0 0" },
		{ "setup 1 1 3 3", "0 205 0 0 0" }, { "back 0", "16 0 0 0 0" },
	};

	CHECK(FEED(open) == NULL);
	CHECK(says(FAULT(open, "0 0 0 0 0"), "before a section"));
	CHECK(says(FAULT(open, "0 1 0 0 0"), "not out"));
	CHECK(FEED(ended) == NULL); /* a section that began later does not count */
	CHECK(FEED(twice) == NULL);
	CHECK(says(FAULT(twice, "0 0 0 0 0"), "not out"));
	CHECK(FEED(setup_anew) == NULL);
	CHECK(says(FAULT(setup_anew, "0 0 0 0 0"), "not out"));
}

static void test_slots(void)
{
	static const struct lent_step adds[] = {
		{ "setup 1 1 2 3", "0 175 0 0 0" }, { "add 0 17 25 1", "0 0 0 0 0" },
		{ "add 0 24 25 1", "0 1 0 0 0" },
	};
	static const struct lent_step removed[] = {
		{ "setup 1 1 2 3", "0 175 0 0 0" }, { "add 0 17 25 1", "0 0 0 0 0" },
		{ "add 0 24 25 1", "0 1 0 0 0" }, { "del 0 17", "0 0 0 0 0" },
	};

	CHECK(FEED(adds) == NULL);
	CHECK(says(FAULT(adds, "0 0 0 0 0"), "in use"));
	CHECK(FAULT(adds, "14 0 0 0 0") == NULL);
	CHECK(FEED(removed) == NULL);
	CHECK(says(FAULT(removed, "0 1 0 0 0"), "removed slot"));
	CHECK(says(FAULT(removed, "0 2 0 0 0"), "removed slot"));
}

/* While the finder's section is open the slot holds what was found. */
static void test_kept(void)
{
	static const char *const lines[] = {
		"setup 1 1 2 3", "add 0 64424509457 25 1", "begin 1", "start 1 64424509457", "step 1",
		"del 0 64424509457",
	};
	struct call end = { CALL_END, { 1 } };
	uint32_t *slot;

	lent_start(&lent);
	for (size_t n = 0; n < sizeof lines / sizeof lines[0]; n++) {
		struct call call = lent_call(lines[n]);

		CHECK(lent_make(&lent, &call) == PT_OK);
		CHECK(ledger_feed(&ledger, &call, lent.answer) == NULL);
		CHECK(ledger_kept(&ledger, lent.memory) == NULL);
	}
	slot = lent_slot(lent.memory, 0);
	for (int word = SLOT_CODE; word <= SLOT_MATERIAL; word++) {
		slot[word]++;
		CHECK(says(ledger_kept(&ledger, lent.memory), "lost its record"));
		slot[word]--;
	}
	CHECK(ledger_kept(&ledger, lent.memory) == NULL);
	slot[SLOT_DEPOSIT] = 0;
	CHECK(lent_make(&lent, &end) == PT_OK);
	CHECK(ledger_feed(&ledger, &end, lent.answer) == NULL);
	CHECK(ledger_kept(&ledger, lent.memory) == NULL);
}

/* ---- how long a lookup can take */

#define GOING "0 0 0 0 0"
#define ABSENT "0 2 0 0 0"

/* The last step is number n + 1 of its lookup: it may answer, and may not go on. */
#define CHECK_LAST(steps) \
	CHECK(FEED(steps) == NULL && attained); \
	CHECK(says(FAULT(steps, GOING), "by step n + 1") && !attained)

/* With two records on the chain: no answer by step two, and by step three there is one. */
static void test_figure(void)
{
	static const struct lent_step two[] = {
		{ "setup 1 1 2 4", "0 181 0 0 0" }, { "add 0 192 1 1", "0 0 0 0 0" },
		{ "add 0 512 2 2", "0 1 0 0 0" }, { "begin 1", "0 0 0 0 0" },
		{ "start 1 0", "0 0 0 0 0" }, { "step 1", GOING }, { "step 1", GOING },
		{ "step 1", ABSENT },
	};
	static const struct lent_step sooner[] = {
		{ "setup 1 1 2 4", "0 181 0 0 0" }, { "add 0 192 1 1", "0 0 0 0 0" },
		{ "add 0 512 2 2", "0 1 0 0 0" }, { "begin 1", "0 0 0 0 0" },
		{ "start 1 192", "0 0 0 0 0" }, { "step 1", GOING }, { "step 1", "0 1 0 1 1" },
	};
	static const struct lent_step two_lanes[] = {
		{ "setup 1 1 2 4", "0 181 0 0 0" }, { "add 0 192 1 1", "0 0 0 0 0" },
		{ "begin 0", "0 0 0 0 0" }, { "begin 1", "0 0 0 0 0" },
		{ "start 0 0", "0 0 0 0 0" }, { "start 1 0", "0 0 0 0 0" },
		{ "step 0", GOING }, { "step 1", GOING }, { "step 0", ABSENT }, { "step 1", ABSENT },
	};

	CHECK_LAST(two);
	CHECK(ledger_fault_of(FAULT(two, GOING)) == FAULT_OF_FIGURE);
	CHECK(ledger_fault_of(FAULT(two, "0 1 0 1 1")) == FAULT_OF_DEMAND_3);
	CHECK(FEED(sooner) == NULL && !attained);
	CHECK(FAULT(sooner, GOING) == NULL); /* one step is left */
	CHECK_LAST(two_lanes);
}

/* What other calls do after the start neither adds steps nor takes any away. */
static void test_figure_meanwhile(void)
{
	static const struct lent_step added[] = {
		{ "setup 1 1 2 4", "0 181 0 0 0" }, { "add 0 192 1 1", "0 0 0 0 0" },
		{ "add 0 512 2 2", "0 1 0 0 0" }, { "begin 1", "0 0 0 0 0" },
		{ "start 1 0", "0 0 0 0 0" }, { "add 0 1472 3 3", "0 2 0 0 0" },
		{ "step 1", GOING }, { "add 0 1984 4 4", "0 3 0 0 0" }, { "step 1", GOING },
		{ "step 1", ABSENT },
	};
	static const struct lent_step deleted[] = {
		{ "setup 1 1 2 4", "0 181 0 0 0" }, { "add 0 192 1 1", "0 0 0 0 0" },
		{ "add 0 512 2 2", "0 1 0 0 0" }, { "begin 1", "0 0 0 0 0" },
		{ "start 1 0", "0 0 0 0 0" }, { "del 0 512", "0 1 0 0 0" },
		{ "step 1", GOING }, { "del 0 192", "0 0 0 0 0" }, { "step 1", GOING },
		{ "step 1", ABSENT },
	};
	static const struct lent_step replaced[] = {
		{ "setup 1 1 2 4", "0 181 0 0 0" }, { "add 0 192 1 1", "0 0 0 0 0" },
		{ "begin 1", "0 0 0 0 0" }, { "start 1 0", "0 0 0 0 0" },
		{ "rep 0 192 2 2", "0 1 0 0 0" }, { "step 1", GOING },
		{ "rep 0 192 3 3", "0 2 1 0 0" }, { "step 1", ABSENT },
	};

	CHECK_LAST(added);
	CHECK_LAST(deleted);
	CHECK_LAST(replaced);
}

/* Entries of the code's chain count, those of the start's instant alone. */
static void test_figure_counts(void)
{
	static const struct lent_step others[] = {
		{ "setup 1 1 2 4", "0 181 0 0 0" }, { "add 0 17 1 1", "0 0 0 0 0" },
		{ "add 0 24 2 2", "0 1 0 0 0" }, { "begin 1", "0 0 0 0 0" },
		{ "start 1 0", "0 0 0 0 0" }, { "step 1", ABSENT },
	};
	static const struct lent_step removed[] = {
		{ "setup 1 1 2 4", "0 181 0 0 0" }, { "add 0 192 1 1", "0 0 0 0 0" },
		{ "add 0 512 2 2", "0 1 0 0 0" }, { "del 0 192", "0 0 0 0 0" },
		{ "begin 1", "0 0 0 0 0" }, { "start 1 0", "0 0 0 0 0" }, { "step 1", GOING },
		{ "step 1", ABSENT },
	};
	static const struct lent_step replaced[] = {
		{ "setup 1 1 2 4", "0 181 0 0 0" }, { "add 0 192 1 1", "0 0 0 0 0" },
		{ "rep 0 192 2 2", "0 1 0 0 0" }, { "begin 1", "0 0 0 0 0" },
		{ "start 1 0", "0 0 0 0 0" }, { "step 1", GOING }, { "step 1", ABSENT },
	};
	static const struct lent_step itself[] = { /* the code's own entry is on its chain */
		{ "setup 1 1 2 4", "0 181 0 0 0" }, { "add 0 0 1 1", "0 0 0 0 0" },
		{ "begin 1", "0 0 0 0 0" }, { "start 1 0", "0 0 0 0 0" },
		{ "del 0 0", "0 0 0 0 0" }, { "step 1", GOING }, { "step 1", ABSENT },
	};

	CHECK_LAST(others);
	CHECK_LAST(removed);
	CHECK_LAST(replaced);
	CHECK_LAST(itself);
}

/* An end drops the lookup, however few steps it had left; a new start counts anew. */
static void test_figure_dropped(void)
{
	static const struct lent_step anew[] = {
		{ "setup 1 1 2 4", "0 181 0 0 0" }, { "add 0 192 1 1", "0 0 0 0 0" },
		{ "begin 1", "0 0 0 0 0" }, { "start 1 0", "0 0 0 0 0" }, { "step 1", GOING },
		{ "end 1", "0 0 0 0 0" }, { "add 0 512 2 2", "0 1 0 0 0" },
		{ "begin 1", "0 0 0 0 0" }, { "start 1 0", "0 0 0 0 0" }, { "step 1", GOING },
		{ "step 1", GOING }, { "step 1", ABSENT },
	};
	static const struct lent_step again[] = { /* in the same section */
		{ "setup 1 1 2 4", "0 181 0 0 0" }, { "add 0 192 1 1", "0 0 0 0 0" },
		{ "begin 1", "0 0 0 0 0" }, { "start 1 192", "0 0 0 0 0" },
		{ "step 1", "0 1 0 1 1" }, { "start 1 0", "0 0 0 0 0" }, { "step 1", GOING },
		{ "step 1", ABSENT },
	};

	CHECK_LAST(anew);
	CHECK_LAST(again);
}

/* No step is refused while its lookup runs, whatever the cause. */
static void test_figure_refused(void)
{
	static const struct lent_step runs[] = {
		{ "setup 1 1 2 4", "0 181 0 0 0" }, { "add 0 192 1 1", "0 0 0 0 0" },
		{ "begin 1", "0 0 0 0 0" }, { "start 1 0", "0 0 0 0 0" },
		{ "start 1 0", "9 0 0 0 0" }, { "step 0", "10 0 0 0 0" }, { "step 2", "4 0 0 0 0" },
		{ "step 4294967295", "4 0 0 0 0" }, { "step 1", GOING },
	};

	CHECK(FEED(runs) == NULL);
	CHECK(says(FAULT(runs, "10 0 0 0 0"), "refused while") && !attained);
	CHECK(ledger_fault_of(FAULT(runs, "5 0 0 0 0")) == FAULT_OF_FIGURE);
	CHECK(ledger_fault_of(FAULT(runs, "3 0 0 0 0")) == FAULT_OF_FIGURE);
}

/* ---- what comes to done queues */

/* A call, and how many slots it brings to done queues. */
struct count {
	const char *line;
	uint32_t moved;
};

/* Judges the call with another fourth number: that is a fault. */
static void check_miscounted(const struct ledger *then, const struct call *call, uint32_t number)
{
	static struct ledger wrong;
	uint32_t answer[PT_ANSWER_WORDS];

	wrong = *then;
	memcpy(answer, lent.answer, sizeof answer);
	answer[4] = number;
	CHECK(ledger_fault_of(ledger_judge(&wrong, call, answer, before, lent.memory)) == FAULT_OF_COUNT);
}

/* The memory's part: nothing was moved, or the slot that is handed back is there still. */
static void check_unmoved(const struct ledger *then, const struct call *call)
{
	static struct ledger wrong;

	wrong = *then;
	CHECK(ledger_fault_of(ledger_judge(&wrong, call, lent.answer, before, before)) == FAULT_OF_COUNT);
}

static void count(const struct count *step)
{
	static struct ledger then;
	struct call call = lent_call(step->line);

	then = ledger;
	memcpy(before, lent.memory, sizeof before);
	CHECK(lent_make(&lent, &call) == PT_OK);
	CHECK(ledger_judge(&ledger, &call, lent.answer, before, lent.memory) == NULL);
	CHECK(ledger_moved(&call, lent.answer, before, lent.memory) == step->moved);
	if (call.name == CALL_CLOCK) {
		CHECK(lent.answer[4] == step->moved);
		check_miscounted(&then, &call, step->moved + 1);
		check_miscounted(&then, &call, step->moved - 1);
	} else if (call.name == CALL_OFF) {
		CHECK(lent.answer[4] == 0);
	}
	if ((call.name == CALL_CLOCK && step->moved > 0) || call.name == CALL_HAND_BACK)
		check_unmoved(&then, &call);
}

static void count_all(const struct count *steps, size_t length)
{
	lent_start(&lent);
	for (size_t n = 0; n < length; n++)
		count(&steps[n]);
}

#define COUNT_ALL(steps) count_all(steps, sizeof(steps) / sizeof((steps)[0]))

/* Clocks of a lane's slots, and of a lane's and the global one's together. */
static void test_counted(void)
{
	static const struct count both[] = {
		{ "setup 1 1 3 8", 0 }, { "add 0 17 1 1", 0 }, { "add 0 24 1 1", 0 }, { "add 0 31 1 1", 0 },
		{ "del 1 31", 0 }, { "clock 1", 0 }, { "del 0 17", 0 }, { "del 2 24", 0 }, { "off 2", 0 },
		{ "clock 0", 0 }, { "pass 0 0", 0 }, { "pass 1 0", 0 }, { "clock 1", 0 }, { "clock 0", 0 },
		{ "clock 1", 1 }, { "pass 1 0", 0 }, { "clock 1", 0 }, { "pass 0 0", 0 }, { "clock 0", 2 },
		{ "back 0", 0 }, { "back 0", 0 }, { "back 1", 0 },
	};

	COUNT_ALL(both);
	CHECK(ledger.done == 0);
	count(&(struct count){ "setup 1 1 2 3", 0 }); /* begins anew */
	CHECK(ledger.done == 0);
}

/* What an off brings there it does not answer; a lane's own done slots were counted before. */
static void test_counted_off(void)
{
	static const struct count global[] = {
		{ "setup 1 1 3 8", 0 }, { "add 0 17 1 1", 0 }, { "del 2 17", 0 }, { "off 2", 0 },
		{ "clock 0", 0 }, { "pass 0 0", 0 }, { "clock 0", 0 }, { "off 1", 1 },
	};
	static const struct count own[] = {
		{ "setup 1 1 2 4", 0 }, { "add 0 17 1 1", 0 }, { "del 1 17", 0 }, { "clock 1", 0 },
		{ "clock 0", 0 }, { "pass 0 0", 0 }, { "clock 0", 0 }, { "pass 1 0", 0 },
		{ "clock 1", 1 }, { "off 1", 0 },
	};
	static const struct call off = { CALL_OFF, { 1 } };

	COUNT_ALL(global);
	CHECK(ledger.done == 1);
	ledger.done = 0; /* the same off, as if it had moved nothing */
	CHECK(ledger_fault_of(ledger_judge(&ledger, &off, lent.answer, lent.memory, lent.memory)) == FAULT_OF_COUNT);
	COUNT_ALL(own);
	CHECK(ledger.done == 1);
	count(&(struct count){ "back 0", 0 });
	CHECK(ledger.done == 0);
}

/* A slot that leaves a done queue otherwise, or comes to one, is missed or too many. */
static void test_counted_memory(void)
{
	static const struct count steps[] = {
		{ "setup 1 1 1 3", 0 }, { "add 0 17 1 1", 0 }, { "add 0 24 1 1", 0 }, { "del 0 17", 0 },
		{ "clock 0", 0 }, { "pass 0 0", 0 }, { "clock 0", 1 },
	};
	static const struct call awaited = { .name = CALL_AWAITED };
	static const uint32_t answer[PT_ANSWER_WORDS];
	uint32_t *done;

	COUNT_ALL(steps);
	done = lent_lane(lent.memory, 0) + LANE_DONE;
	CHECK(ledger_judge(&ledger, &awaited, answer, lent.memory, lent.memory) == NULL);
	done[QUEUE_LENGTH] = 2; /* the slots are counted along the links */
	CHECK(ledger_judge(&ledger, &awaited, answer, lent.memory, lent.memory) == NULL);
	done[QUEUE_FIRST] = PT_NONE;
	CHECK(ledger_fault_of(ledger_judge(&ledger, &awaited, answer, lent.memory, lent.memory)) == FAULT_OF_COUNT);
	done[QUEUE_FIRST] = 0;
	lent_slot(lent.memory, 0)[SLOT_QUEUE_LINK] = 1;
	CHECK(ledger_fault_of(ledger_judge(&ledger, &awaited, answer, lent.memory, lent.memory)) == FAULT_OF_COUNT);
	lent_slot(lent.memory, 1)[SLOT_QUEUE_LINK] = 0; /* round and round: counted once */
	CHECK(ledger_fault_of(ledger_judge(&ledger, &awaited, answer, lent.memory, lent.memory)) == FAULT_OF_COUNT);
	lent_slot(lent.memory, 0)[SLOT_QUEUE_LINK] = PT_NONE - 1; /* out of the table */
	CHECK(ledger_judge(&ledger, &awaited, answer, lent.memory, lent.memory) == NULL);
}

/* Sections of lanes of all yards are kept apart: a slot waits for each of them, and for no other. */
static void test_many_lanes(void)
{
	static const struct lent_step waits[] = {
		{ "setup 8 8 8 3", "0 15545 0 0 0" }, { "add 0 17 25 1", "0 0 0 0 0" },
		{ "begin 0", "0 0 0 0 0" }, { "begin 63", "0 0 0 0 0" }, { "begin 64", "0 0 0 0 0" },
		{ "begin 511", "0 0 0 0 0" }, { "start 511 17", "0 0 0 0 0" }, { "del 7 17", "0 0 0 0 0" },
		{ "begin 448", "0 0 0 0 0" }, { "step 511", "0 1 0 25 1" }, { "end 64", "0 0 0 0 0" },
		{ "end 0", "0 0 0 0 0" }, { "end 63", "0 0 0 0 0" }, { "begin 63", "0 0 0 0 0" },
		{ "back 7", "16 0 0 0 0" },
	};
	static const struct lent_step ended[] = {
		{ "setup 8 8 8 3", "0 15545 0 0 0" }, { "add 0 17 25 1", "0 0 0 0 0" },
		{ "begin 511", "0 0 0 0 0" }, { "del 7 17", "0 0 0 0 0" }, { "begin 448", "0 0 0 0 0" },
		{ "end 511", "0 0 0 0 0" }, { "back 7", "0 0 0 0 0" },
	};
	static const struct lent_step beyond[] = {
		{ "setup 8 8 8 3", "0 15545 0 0 0" }, { "begin 512", "4 0 0 0 0" },
	};

	CHECK(FEED(waits) == NULL);
	CHECK(ledger_reading(&ledger, 511) && ledger_reading(&ledger, 448) && !ledger_reading(&ledger, 64));
	CHECK(says(FAULT(waits, "0 0 0 0 0"), "before a section")); /* lane 511's is open */
	CHECK(FEED(ended) == NULL); /* 448's began later */
	CHECK(FEED(beyond) == NULL);
	CHECK(says(FAULT(beyond, "0 0 0 0 0"), "beyond"));
}

int main(void)
{
	test_whole_search();
	test_instants();
	test_dropped();
	test_dropped_on_removed();
	test_misplaced();
	test_hand_back();
	test_slots();
	test_kept();
	test_figure();
	test_figure_meanwhile();
	test_figure_counts();
	test_figure_dropped();
	test_figure_refused();
	test_counted();
	test_counted_off();
	test_counted_memory();
	test_many_lanes();
	puts("ledger: true lists pass, false ones are found");
	return 0;
}
