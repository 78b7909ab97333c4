/*
 * listing-ledger.c - lists fed to the ledger of demand 3, and what it holds at some of
 * their instants: document 01's listing at twelve, those of the definitions' computed ledger
 * (crate cases, Ledgers), and a list in which the end of a section drops its lookup. The
 * ledger keeps of a removed slot's sections those still open, and how many slots came to
 * done queues and were not handed back.
 */
#include <stdio.h>
#include <string.h>

#include "ledger.h"
#include "lent.h"

/* The calls after the set-up; instant k is the end of call k. */
static const struct lent_step listing[] = {
	{ "add 0 17 25 1", "0 0 0 0 0" }, { "begin 1", "0 0 0 0 0" },
	{ "start 1 17", "0 0 0 0 0" }, { "del 0 17", "0 0 0 0 0" },
	{ "step 1", "0 1 0 25 1" }, { "clock 0", "0 1 1 1 0" },
	{ "clock 1", "0 1 1 1 0" }, { "pass 0 0", "0 0 0 0 0" },
	{ "clock 0", "0 1 1 1 0" }, { "pass 1 0", "7 0 0 0 0" },
	{ "end 1", "0 0 0 0 0" }, { "pass 1 0", "0 0 0 0 0" },
	{ "clock 1", "0 2 1 0 0" }, { "back 0", "16 0 0 0 0" },
	{ "clock 0", "0 2 1 0 1" }, { "back 0", "0 0 0 0 0" },
	{ "awaited", "0 0 4294967295 3 0" },
};

/* The section ends while its lookup of 17 runs; the lane's next lookup is answered. */
static const struct lent_step taken_back[] = {
	{ "add 0 17 25 1", "0 0 0 0 0" }, { "begin 1", "0 0 0 0 0" },
	{ "start 1 17", "0 0 0 0 0" }, { "del 0 17", "0 0 0 0 0" },
	{ "end 1", "0 0 0 0 0" }, { "step 1", "10 0 0 0 0" },
	{ "begin 1", "0 0 0 0 0" }, { "start 1 17", "0 0 0 0 0" },
	{ "step 1", "0 2 0 0 0" }, { "end 1", "0 0 0 0 0" },
};

/* What the ledger holds of slot 0 and of lane 1; it holds nothing else. */
struct book {
	size_t instant;
	bool entered;  /* 17 with deposit 25 and material 1, in slot 0 */
	bool reading;  /* lane 1's section */
	bool searches; /* lane 1's lookup of 17 */
	bool out;      /* slot 0 */
	uint64_t sections; /* open still, of those of its removal: bit 1 is lane 1's */
	uint64_t done;	   /* slots */
};

static const struct book listing_books[] = {
	{ 0, false, false, false, false, 0, 0 },
	{ 1, true, false, false, false, 0, 0 },
	{ 2, true, true, false, false, 0, 0 },
	{ 3, true, true, true, false, 0, 0 },
	{ 4, false, true, true, true, 2, 0 },
	{ 5, false, true, false, true, 2, 0 },
	{ 10, false, true, false, true, 2, 0 },
	{ 11, false, false, false, true, 0, 0 },
	{ 14, false, false, false, true, 0, 0 },
	{ 15, false, false, false, true, 0, 1 },
	{ 16, false, false, false, false, 0, 0 },
	{ 17, false, false, false, false, 0, 0 },
};

static const struct book taken_back_books[] = {
	{ 3, true, true, true, false, 0, 0 },
	{ 4, false, true, true, true, 2, 0 },
	{ 5, false, false, false, true, 0, 0 },
	{ 6, false, false, false, true, 0, 0 },
	{ 7, false, true, false, true, 0, 0 },
	{ 8, false, true, true, true, 0, 0 },
	{ 9, false, true, false, true, 0, 0 },
	{ 10, false, false, false, true, 0, 0 },
};

static struct lent lent;
static struct ledger ledger;

static void check_slots(const struct book *book)
{
	for (size_t slot = 0; slot < LEDGER_SLOTS; slot++) {
		const struct ledger_slot *held = &ledger.slot[slot];
		bool first = slot == 0;

		CHECK((held->entered != 0) == (first && book->entered));
		CHECK((held->out != 0) == (first && book->out));
		CHECK(held->sections[0] == (first ? book->sections : 0));
		if (held->entered)
			CHECK(held->code == 17 && held->deposit == 25 && held->material == 1);
	}
}

static void check_lanes(const struct book *book)
{
	for (size_t lane = 0; lane < LEDGER_LANES; lane++) {
		const struct ledger_lane *held = &ledger.lane[lane];
		bool second = lane == 1;

		CHECK(ledger_reading(&ledger, (uint32_t)lane) == (second && book->reading));
		CHECK((held->lookup != 0) == (second && book->searches));
		if (held->lookup)
			CHECK(held->code == 17);
	}
}

/* Makes the calls from one instant to another, each with its answer. */
static void make_calls(const struct lent_step *calls, size_t from, size_t to)
{
	static uint32_t before[LENT_WORDS];

	for (size_t n = from; n < to; n++) {
		struct call call = lent_call(calls[n].call);

		memcpy(before, lent.memory, sizeof before);
		lent_expect(&lent, calls[n].call, calls[n].answer);
		CHECK(ledger_judge(&ledger, &call, lent.answer, before, lent.memory) == NULL);
	}
}

/* Looks at the ledger at the instants of the books. */
static void keep_books(const struct lent_step *calls, const struct book *books, size_t count)
{
	lent_start(&lent);
	lent_expect(&lent, "setup 1 1 2 3", "0 175 0 0 0");
	ledger_reset(&ledger);
	for (size_t n = 0; n < count; n++) {
		make_calls(calls, n == 0 ? 0 : books[n - 1].instant, books[n].instant);
		check_slots(&books[n]);
		check_lanes(&books[n]);
		CHECK(ledger.done == books[n].done);
	}
}

#define COUNT(list) (sizeof(list) / sizeof((list)[0]))
#define KEEP(list) \
	CHECK(list##_books[COUNT(list##_books) - 1].instant == COUNT(list)); \
	keep_books(list, list##_books, COUNT(list##_books))

int main(void)
{
	KEEP(listing);
	KEEP(taken_back);
	printf("the listing's ledger at %zu instants, one with a dropped lookup at %zu\n",
		COUNT(listing_books), COUNT(taken_back_books));
	return 0;
}
