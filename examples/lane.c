/*
 * lane.c - a lane's round, call by call: the smallest program over the library. Two lanes
 * share a table; lane 1 reads a label and finds its product while lane 0 deletes it, and the
 * slot comes back only after lane 1 has moved on, which it does in the middle of a lookup.
 *
 * In the repository, and where the library is installed:
 *
 *     ./build lib && cc -Iinclude examples/lane.c target/libproduct_table.a -o target/lane && target/lane
 *     cc lane.c $(pkg-config --cflags --libs product_table) -o lane && ./lane
 */
#include <inttypes.h>
#include <stdio.h>
#include <stdlib.h>

#include "product_table.h"

enum { YARDS = 1, CABINETS = 1, LANES = 2, SLOTS = 16 };

#define CODE  UINT64_C(4006381333931)
#define LABEL "4006381333931" /* what stands on the bottle */

/* The memory is yours: the library keeps nothing between calls. */
static uint32_t memory[PT_WORDS(YARDS, CABINETS, LANES, SLOTS)];
static uint32_t answer[PT_ANSWER_WORDS];

#define LENT memory, sizeof memory / sizeof memory[0], answer, PT_ANSWER_WORDS

/*
 * Prints a call and its answer, and a refusal in words; every status is looked at, and this
 * one is expected.
 */
static void expect(const char *call, uint32_t status, uint32_t expected)
{
	printf("%-46s %" PRIu32 " %" PRIu32 " %" PRIu32 " %" PRIu32 " %" PRIu32 "\n", call,
		answer[0], answer[1], answer[2], answer[3], answer[4]);
	if (status != PT_OK)
		printf("  %s\n", pt_message(status));
	if (status != expected) {
		fflush(stdout);
		fprintf(stderr, "lane: expected was %s\n", pt_message(expected));
		exit(1);
	}
}

static void say(const char *what)
{
	printf("\n%s\n", what);
}

/* A lookup takes one step a call; other lanes' calls may come between the steps. */
static void look_up(uint32_t lane, uint64_t code)
{
	expect("start: the lookup stands at the chain's head", pt_start(LENT, lane, code), PT_OK);
	do
		expect("step: outcome, slot, deposit, material", pt_step(LENT, lane), PT_OK);
	while (answer[1] == PT_GOING);
	if (answer[1] == PT_FOUND)
		printf("  found: %" PRIu32 " cents, material %" PRIu32 "\n", answer[3], answer[4]);
	else
		printf("  absent\n");
}

/*
 * A bottle on the lane's belt: its label is bytes with a length, which counts no closing
 * NUL. The code comes in two words. Without one there is nothing to look up.
 */
static void take_bottle(uint32_t lane, const char *label, size_t bytes, uint32_t expected)
{
	expect("label_read: code low, code high",
		pt_label_read((const uint8_t *)label, bytes, answer, PT_ANSWER_WORDS), expected);
	if (answer[0] == PT_OK)
		look_up(lane, (uint64_t)answer[2] << 32 | answer[1]);
	else
		printf("  the bottle goes back\n");
}

/* A lane between two customers: it reads nothing, says so, and drives grace periods on. */
static void pass_and_clock(uint32_t lane)
{
	expect("pass: a bottle was dropped", pt_pass(LENT, lane, PT_BOTTLE_DROPPED), PT_OK);
	expect("clock: current, largest, runs, slots moved", pt_clock(LENT, lane), PT_OK);
}

int main(void)
{
	say("The table is set up, once, and the office enters a product by lane 0.");
	expect("setup: the words that it takes", pt_setup(LENT, YARDS, CABINETS, LANES, SLOTS), PT_OK);
	expect("add: the slot", pt_add(LENT, 0, CODE, 25, PT_MAX_MATERIAL), PT_OK);

	say("Lane 1 reads. What it finds stays as it is until its section ends.");
	expect("begin", pt_begin(LENT, 1), PT_OK);
	take_bottle(1, "96385 74", PT_LABEL_8, PT_WRONG_LABEL);
	take_bottle(1, LABEL, PT_LABEL_13, PT_OK);

	say("Lane 0 deletes the product meanwhile. The slot is retired, not free.");
	expect("delete: the slot", pt_delete(LENT, 0, CODE), PT_OK);
	expect("clock of lane 0 begins a grace period", pt_clock(LENT, 0), PT_OK);
	pass_and_clock(0);
	expect("hand_back is refused: lane 1 may still read", pt_hand_back(LENT, 0),
		PT_NOTHING_DONE);

	say("Lane 1 takes its snapshot. Its customer takes the next bottle back, and the lane leaves:\n"
		"the section ends without the lookup's answer. It passes, and the grace period ends.");
	expect("clock of lane 1", pt_clock(LENT, 1), PT_OK);
	expect("pass is refused inside a section", pt_pass(LENT, 1, PT_IDLE), PT_IN_SECTION);
	expect("start: the next bottle", pt_start(LENT, 1, CODE), PT_OK);
	expect("end: the lookup is dropped", pt_end(LENT, 1), PT_OK);
	expect("step is refused: no lookup is running", pt_step(LENT, 1), PT_NO_LOOKUP);
	pass_and_clock(1);

	say("Lane 0's next clock moves the slot to its done queue, and says so: its last number is how\n"
		"many it moved. The slot is handed back.");
	expect("clock of lane 0", pt_clock(LENT, 0), PT_OK);
	expect("hand_back: the slot", pt_hand_back(LENT, 0), PT_OK);
	expect("awaited: lanes, lowest, free, retired", pt_awaited(LENT), PT_OK);
	return 0;
}
