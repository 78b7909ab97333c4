/*
 * full.c - the lists that fill tables.
 */
#include "full.h"

#include <stdio.h>
#include <stdlib.h>

#include "codes.h"
#include "layout.h"
#include "reference.h"

#define COUNT(list) (uint32_t)(sizeof(list) / sizeof((list)[0]))

/* Numbers beside which a width or a bound may end. */
static const uint32_t edge_lanes[] = { 0, 31, 32, 63, 64, 127, 128, 255, 256, 257, 510, 511 };
static const uint32_t edge_slots[] = { 0, 31, 32, 63, 64, 127, 128, 255, 256, 257, 511, 512, 1022, 1023 };

enum { ALL_LANES = 512, ALL_SLOTS = PT_MAX_SLOTS, ANSWER_STATUS = 0, ANSWER_MOVED = 4 };

/* Whether so many are next to one of these numbers. */
static bool at_edge(uint32_t count)
{
	for (uint32_t n = 0; n < COUNT(edge_slots); n++)
		if (count == edge_slots[n] || count == edge_slots[n] + 1)
			return true;
	return false;
}

/* ---- steps, and what is expected of the last one */

static void expect(struct full *full, uint32_t word, uint32_t value)
{
	if (full->count == FULL_EXPECTED) {
		fprintf(stderr, "a list expects more than %d words\n", FULL_EXPECTED);
		exit(2);
	}
	full->expected[full->count++] = (struct full_word){ full->steps.count - 1, word, value };
}

/* A call, of which the first word of its answer is expected. */
static void make(struct full *full, uint32_t status, struct call call)
{
	steps_call(&full->steps, &call);
	expect(full, ANSWER_STATUS, status);
}

/* A call of a lane that is accepted. */
static void take(struct full *full, enum call_name name, uint32_t lane, uint64_t argument)
{
	make(full, PT_OK, (struct call){ name, { lane, argument } });
}

static void other(struct full *full, enum step_kind kind, uint64_t number, uint32_t value)
{
	steps_add(&full->steps, &(struct step){ .kind = kind, .number = number, .value = value });
}

static void poke(struct full *full, uint32_t address, uint32_t value)
{
	other(full, STEP_POKE, address, value);
}

static void set_up(struct full *full, struct sizes sizes)
{
	make(full, PT_OK, call_setup(sizes));
	expect(full, 1, layout_of(sizes).total);
}

static void awaited(struct full *full, uint32_t pending, uint32_t lowest, uint32_t slots, uint32_t retired)
{
	make(full, PT_OK, (struct call){ .name = CALL_AWAITED });
	expect(full, 1, pending);
	expect(full, 2, lowest);
	expect(full, 3, slots);
	expect(full, 4, retired);
}

/* The memory breaks that sentence first; after that it is as it was. */
static void not_legal(struct full *full, enum legal_sentence sentence)
{
	make(full, PT_NOT_LEGAL, (struct call){ .name = CALL_AWAITED });
	expect(full, FULL_SENTENCE, sentence);
	other(full, STEP_MEND, 0, 0);
}

/* ---- addresses */

static const uint32_t record_words[BODIES] = {
	[BODY_GLOBAL] = GLOBAL_WORDS,
	[BODY_CABINETS] = CABINET_WORDS,
	[BODY_LANES] = LANE_WORDS,
	[BODY_SLOTS] = SLOT_WORDS,
	[BODY_YARDS] = YARD_WORDS,
};

/* The address of a word of record @n of a body. */
static uint32_t address(struct sizes sizes, int body, uint32_t n, uint32_t word)
{
	return layout_of(sizes).first[body] + record_words[body] * n + word;
}

/* ---- records: one that is replaced again and again, and those of one chain */

#define CODE CODE_OF_ALL(1)

static const struct sizes two_lanes = { 1, 1, 2, ALL_SLOTS };
static const struct sizes small = { 1, 1, 2, 8 };

static void add(struct full *full, uint32_t lane, uint64_t code, uint32_t n)
{
	make(full, PT_OK, (struct call){ CALL_ADD, { lane, code, n, n % (PT_MAX_MATERIAL + 1) } });
}

/* Lane 0 replaces the record so often, and so retires as many slots. */
static void replace(struct full *full, uint32_t times)
{
	for (uint32_t n = 0; n < times; n++)
		make(full, PT_OK, (struct call){ CALL_REPLACE, { 0, CODE, n, n % (PT_MAX_MATERIAL + 1) } });
}

/* All slots are retired by lane 0, in their order; at the edges it is asked how many are free, and how many are retired. */
static void retire_all(struct full *full, bool ask)
{
	add(full, 0, CODE, 0);
	for (uint32_t n = 1; n < ALL_SLOTS; n++) {
		replace(full, 1);
		expect(full, 1, n);
		expect(full, 2, n - 1);
		if (ask && at_edge(n))
			awaited(full, 0, PT_NONE, ALL_SLOTS - 1 - n, n);
	}
	make(full, PT_NO_FREE_SLOT, (struct call){ CALL_REPLACE, { 0, CODE } });
	make(full, PT_NO_FREE_SLOT, (struct call){ CALL_ADD, { 0, 0 } });
	take(full, CALL_DELETE, 0, CODE);
	expect(full, 1, ALL_SLOTS - 1);
	if (ask)
		awaited(full, 0, PT_NONE, 0, ALL_SLOTS);
}

/* Lanes from @first on take their snapshots and pass: the grace period that waits for them ends. */
static void lanes_pass(struct full *full, uint32_t first, uint32_t count)
{
	for (uint32_t l = first; l < first + count; l++) {
		take(full, CALL_CLOCK, l, 0);
		take(full, CALL_PASS, l, PT_IDLE);
		take(full, CALL_CLOCK, l, 0);
	}
}

/* ---- lookups on every kind of slot */

/* A lane looks a code up, and stands on each of the edge slots: two steps, wherever they lead. */
static void stand(struct full *full, struct sizes sizes, uint32_t lane, uint64_t code)
{
	for (uint32_t n = 0; n < COUNT(edge_slots); n++) {
		take(full, CALL_BEGIN, lane, 0);
		take(full, CALL_START, lane, code);
		poke(full, address(sizes, BODY_LANES, lane, LANE_POSITION), edge_slots[n]);
		take(full, CALL_STEP, lane, 0);
		steps_call(&full->steps, &(struct call){ CALL_STEP, { lane } }); /* where the first was no answer */
		take(full, CALL_END, lane, 0);
	}
}

/* The code of the slot on which it stands, another of its chain, and one of another chain; 0 is what a free slot holds. */
static void stand_as(struct full *full, struct sizes sizes, uint32_t lane)
{
	stand(full, sizes, lane, CODE);
	stand(full, sizes, lane, CODE + CHAINS);
	stand(full, sizes, lane, 0);
}

static void stand_each(struct full *full)
{
	stand_as(full, two_lanes, 1);
}

/* ---- queues */

/* Slots come back to the free queue, which has so many, in the order of their numbers. */
static void hand_back(struct full *full, uint32_t lane, uint32_t count, uint32_t slots, uint32_t retired)
{
	for (uint32_t n = 0; n < count; n++) {
		take(full, CALL_HAND_BACK, lane, 0);
		expect(full, 1, n);
		if (at_edge(n + 1))
			awaited(full, 0, PT_NONE, slots + n + 1, retired - n - 1);
	}
}

/* 1,024 slots through the next, current and done queue of a lane, and back. */
static void make_lane_queues(struct full *full)
{
	set_up(full, two_lanes);
	retire_all(full, true);
	take(full, CALL_CLOCK, 0, 0);
	awaited(full, 2, 0, 0, ALL_SLOTS);
	lanes_pass(full, 0, 2);
	take(full, CALL_CLOCK, 0, 0);
	expect(full, ANSWER_MOVED, ALL_SLOTS);
	hand_back(full, 0, ALL_SLOTS, 0, ALL_SLOTS);
	make(full, PT_NOTHING_DONE, (struct call){ CALL_HAND_BACK, { 0 } });
	add(full, 0, CODE, 0);
	expect(full, 1, 0);
}

enum { HALF = 511 }; /* of the slots but two */

/* Nearly all through the global queues: a lane leaves with two queues, which become one; later one with a done queue. */
static void make_global_queues(struct full *full)
{
	set_up(full, two_lanes);
	add(full, 0, CODE, 0);
	replace(full, HALF);
	take(full, CALL_CLOCK, 0, 0);
	replace(full, HALF);
	take(full, CALL_OFF, 0, 0);
	awaited(full, 1, 1, 1, 2 * HALF);
	lanes_pass(full, 1, 1);
	take(full, CALL_PASS, 1, PT_IDLE);
	take(full, CALL_CLOCK, 1, 0);
	expect(full, ANSWER_MOVED, 2 * HALF);
	hand_back(full, 1, HALF, 1, 2 * HALF);
	take(full, CALL_ON, 0, 0);
	replace(full, HALF);
	take(full, CALL_CLOCK, 0, 0);
	lanes_pass(full, 0, 2);
	take(full, CALL_CLOCK, 0, 0);
	expect(full, ANSWER_MOVED, HALF);
	take(full, CALL_OFF, 0, 0);
	awaited(full, 0, PT_NONE, 1, 2 * HALF);
	take(full, CALL_HAND_BACK, 1, 0);
	expect(full, 1, HALF);
}

/* The global next queue, and lookups on its slots: it waits while a slot of another lane is the global current queue. */
static void make_global_next(struct full *full)
{
	static const struct sizes three_lanes = { 1, 1, 3, ALL_SLOTS };

	set_up(full, three_lanes);
	add(full, 1, 0, 0);
	take(full, CALL_DELETE, 1, 0);
	take(full, CALL_OFF, 1, 0);
	add(full, 0, CODE, 0);
	replace(full, 2 * HALF);
	take(full, CALL_OFF, 0, 0);
	awaited(full, 1, 2, 0, 2 * HALF + 1);
	stand_as(full, three_lanes, 2);
	lanes_pass(full, 2, 1);
	expect(full, ANSWER_MOVED, 1);
	awaited(full, 1, 2, 0, 2 * HALF + 1);
	lanes_pass(full, 2, 1);
	expect(full, ANSWER_MOVED, 2 * HALF);
	take(full, CALL_HAND_BACK, 2, 0);
	expect(full, 1, 0);
	take(full, CALL_HAND_BACK, 2, 0);
	expect(full, 1, 1);
	awaited(full, 0, PT_NONE, 2, 2 * HALF - 1);
}

/* ---- records and chains */

/* A lookup by lane 1 of a record that stands @links from its chain's head. */
static void look_up(struct full *full, uint64_t code, uint32_t links, uint32_t slot)
{
	take(full, CALL_START, 1, code);
	for (uint32_t n = 0; n < links; n++) {
		take(full, CALL_STEP, 1, 0);
		expect(full, 1, PT_GOING);
	}
	take(full, CALL_STEP, 1, 0);
	expect(full, 1, PT_FOUND);
	expect(full, 2, slot);
}

/* 1,024 records on all chains; each is the head of its chain when it comes. */
static void add_all(struct full *full)
{
	for (uint32_t n = 0; n < ALL_SLOTS; n++) {
		add(full, 0, CODE_OF_ALL(n), n);
		expect(full, 1, n);
		if (at_edge(n))
			look_up(full, CODE_OF_ALL(n), 0, n);
	}
}

/* The right codes of chain 0, by their number. */
static uint64_t chained_code(uint32_t n)
{
	static uint64_t codes[ALL_SLOTS + 1];
	static uint32_t last; /* that is known; the first is 0 */

	for (; last < n; last++)
		codes[last + 1] = next_code(codes[last]);
	return codes[n];
}

/* Records on one chain: the last that is added stands first. */
static void add_chain(struct full *full, uint32_t count)
{
	for (uint32_t n = 0; n < count; n++)
		add(full, 0, chained_code(n), n);
}

enum { LONG_CHAIN = 270, LONG_SLOTS = 290 };

/* Two records that have the same code, by how far they are from the last slot and from the first: at the ends, near and far. */
static const struct {
	uint32_t from_last, from_first;
} twice[] = {
	{ 0, 0 }, { 0, 1 }, { 1, 0 }, { 0, 2 }, { 2, 0 }, { 255, 0 }, { 256, 0 }, { 257, 0 }, { 0, 255 }, { 0, 256 }, { 0, 257 },
};

/* A record of a chain of all slots gets the code of another. */
static void break_pair(struct full *full, struct sizes sizes, uint32_t slot, uint32_t as)
{
	poke(full, address(sizes, BODY_SLOTS, slot, SLOT_CODE + CODE_LOW), (uint32_t)chained_code(as));
	not_legal(full, LEGAL_TWICE);
}

/* Pairs about the ends of the chain, neighbours at the edges, and those that are so far from each other. */
static void break_pairs(struct full *full, struct sizes sizes, uint32_t count)
{
	for (uint32_t n = 0; n < COUNT(twice); n++)
		break_pair(full, sizes, count - 1 - twice[n].from_last, twice[n].from_first);
	for (uint32_t n = 1; n < COUNT(edge_slots) && edge_slots[n] < count; n++) {
		break_pair(full, sizes, edge_slots[n], edge_slots[n] - 1);
		break_pair(full, sizes, count - edge_slots[n], count - 1 - edge_slots[n]);
		break_pair(full, sizes, count - 1, count - 1 - edge_slots[n]);
		break_pair(full, sizes, edge_slots[n], 0);
	}
}

/* A lookup of a code that has no record, to the end, while records on which it stands are deleted and replaced. */
static void look_past_changes(struct full *full)
{
	take(full, CALL_START, 1, chained_code(LONG_CHAIN));
	for (uint32_t n = 0; n < LONG_CHAIN; n++) {
		uint64_t code = chained_code(LONG_CHAIN - 1 - n);

		if (at_edge(n) && n % 2 == 0)
			take(full, CALL_DELETE, 0, code);
		else if (at_edge(n))
			make(full, PT_OK, (struct call){ CALL_REPLACE, { 0, code, n, 1 } });
		take(full, CALL_STEP, 1, 0);
		expect(full, 1, PT_GOING);
	}
	take(full, CALL_STEP, 1, 0);
	expect(full, 1, PT_ABSENT);
}

/* A chain that is walked to its end, by lookups and by the office. */
static void make_chain(struct full *full)
{
	static const struct sizes sizes = { 1, 1, 2, LONG_SLOTS };

	set_up(full, sizes);
	add_chain(full, LONG_CHAIN);
	break_pairs(full, sizes, LONG_CHAIN);
	take(full, CALL_BEGIN, 1, 0);
	look_up(full, chained_code(0), LONG_CHAIN - 1, 0);
	look_past_changes(full);
	for (uint32_t n = 0; n < LONG_CHAIN; n += LONG_CHAIN - 1) {
		make(full, n == 0 ? PT_CODE_PRESENT : PT_OK, (struct call){ CALL_ADD, { 0, chained_code(n) } });
		make(full, PT_OK, (struct call){ CALL_REPLACE, { 0, chained_code(n) } });
		take(full, CALL_DELETE, 0, chained_code(n));
		make(full, PT_CODE_MISSING, (struct call){ CALL_DELETE, { 0, chained_code(n) } });
	}
}

/* ---- lanes */

static const struct sizes largest = { PT_MAX_YARDS, PT_MAX_CABINETS, PT_MAX_LANES, ALL_SLOTS };
static const struct sizes one_yard = { 1, PT_MAX_CABINETS, PT_MAX_LANES, ALL_SLOTS };

/* A lane adds and deletes a record, and asks for a grace period. */
static void ask_for_period(struct full *full, uint32_t lane)
{
	add(full, lane, CODE, 0);
	take(full, CALL_DELETE, lane, CODE);
	take(full, CALL_CLOCK, lane, 0);
}

/* The last lane asks for a grace period, and all others leave, so that each is once the lowest one awaited. */
static void leave_upwards(struct full *full, struct sizes sizes)
{
	uint32_t last = sizes_lanes(sizes) - 1;

	set_up(full, sizes);
	ask_for_period(full, last);
	awaited(full, last + 1, 0, ALL_SLOTS - 1, 1);
	for (uint32_t l = 0; l < last; l++) {
		take(full, CALL_OFF, l, 0);
		awaited(full, last - l, l + 1, ALL_SLOTS - 1, 1);
	}
	make(full, PT_LAST_LANE, (struct call){ CALL_OFF, { last } });
	take(full, CALL_PASS, last, PT_IDLE);
	take(full, CALL_CLOCK, last, 0);
	take(full, CALL_HAND_BACK, last, 0);
}

/* The first lane does, and the others leave from the last on. */
static void leave_downwards(struct full *full, struct sizes sizes)
{
	set_up(full, sizes);
	ask_for_period(full, 0);
	for (uint32_t l = sizes_lanes(sizes) - 1; l > 0; l--) {
		take(full, CALL_OFF, l, 0);
		if (at_edge(l))
			awaited(full, l, 0, ALL_SLOTS - 1, 1);
	}
	make(full, PT_LAST_LANE, (struct call){ CALL_OFF, { 0 } });
	take(full, CALL_PASS, 0, PT_IDLE);
	take(full, CALL_CLOCK, 0, 0);
	take(full, CALL_HAND_BACK, 0, 0);
}

/* With all others off, a lane comes for the one that was alone, and has a grace period of its own. */
static void alone_online(struct full *full, struct sizes sizes)
{
	uint32_t last = 0;

	for (uint32_t n = 1; n < COUNT(edge_lanes) && edge_lanes[n] < sizes_lanes(sizes); n++) {
		uint32_t lane = edge_lanes[n];

		take(full, CALL_ON, lane, 0);
		make(full, PT_ONLINE, (struct call){ CALL_ON, { lane } });
		take(full, CALL_OFF, last, 0);
		make(full, PT_OFFLINE, (struct call){ CALL_CLOCK, { last } });
		ask_for_period(full, lane);
		awaited(full, 1, lane, ALL_SLOTS - 1, 1);
		make(full, PT_LAST_LANE, (struct call){ CALL_OFF, { lane } });
		take(full, CALL_PASS, lane, PT_IDLE);
		take(full, CALL_CLOCK, lane, 0);
		expect(full, ANSWER_MOVED, 1);
		take(full, CALL_HAND_BACK, lane, 0);
		last = lane;
	}
}

static void make_upwards(struct full *full)
{
	leave_upwards(full, largest);
}

static void make_downwards(struct full *full)
{
	leave_downwards(full, largest);
	alone_online(full, largest);
}

static void make_one_yard(struct full *full)
{
	leave_upwards(full, one_yard);
	leave_downwards(full, one_yard);
	alone_online(full, one_yard);
}

/* The bits of a lane, of its cabinet and of its yard are poked: a running grace period waits for it. */
static void poke_pending(struct full *full, uint32_t lane)
{
	uint32_t yard = lane / (PT_MAX_CABINETS * PT_MAX_LANES), cabinet = lane / PT_MAX_LANES;

	poke(full, address(largest, BODY_CABINETS, cabinet, CABINET_PENDING), 1u << lane % PT_MAX_LANES);
	poke(full, address(largest, BODY_YARDS, yard, YARD_PENDING), 1u << cabinet % PT_MAX_CABINETS);
	poke(full, address(largest, BODY_GLOBAL, 0, GLOBAL_PENDING), 1u << yard);
	poke(full, address(largest, BODY_GLOBAL, 0, GLOBAL_LARGEST_GENERATION), 1);
}

/* Each as the only one off, and as the only one awaited. */
static void make_only_lanes(struct full *full)
{
	for (uint32_t n = 0; n < COUNT(edge_lanes); n++) {
		uint32_t lane = edge_lanes[n], next = (lane + 1) % ALL_LANES;

		set_up(full, largest);
		take(full, CALL_OFF, lane, 0);
		ask_for_period(full, next);
		awaited(full, ALL_LANES - 1, lane == 0 ? 1 : 0, ALL_SLOTS - 1, 1);
		take(full, CALL_ON, lane, 0);
		set_up(full, largest);
		poke_pending(full, lane);
		awaited(full, 1, lane, ALL_SLOTS, 0);
		take(full, CALL_CLOCK, next, 0);
		lanes_pass(full, lane, 1);
		awaited(full, 0, PT_NONE, ALL_SLOTS, 0);
	}
}

/* Calls that the edge lanes make by turns: each has its section, its lookup and its slots. */
static const struct {
	enum call_name name;
	uint32_t status;
	uint32_t argument;
} turns[] = {
	{ CALL_BEGIN, PT_OK, 0 }, { CALL_BEGIN, PT_IN_SECTION, 0 }, { CALL_STEP, PT_NO_LOOKUP, 0 }, { CALL_START, PT_OK, 0 },
	{ CALL_START, PT_IN_LOOKUP, 0 }, { CALL_STEP, PT_OK, 0 }, { CALL_OFF, PT_IN_SECTION, 0 }, { CALL_PASS, PT_IN_SECTION, 0 },
	{ CALL_STEP, PT_OK, 0 }, { CALL_END, PT_OK, 0 }, { CALL_START, PT_NO_SECTION, 0 }, { CALL_PASS, PT_OK, 3 },
	{ CALL_CLOCK, PT_OK, 0 }, { CALL_HAND_BACK, PT_NOTHING_DONE, 0 },
};

/* All lookups run at once; half of them have their answer, and half are dropped. */
static void make_turns(struct full *full)
{
	uint32_t lanes = COUNT(edge_lanes);

	set_up(full, largest);
	add_chain(full, lanes);
	for (uint32_t n = 0; n < COUNT(turns) * lanes; n++) {
		uint32_t own = n % lanes, turn = n / lanes;
		bool looks = turns[turn].name == CALL_START;

		make(full, turns[turn].status, (struct call){ turns[turn].name,
			{ edge_lanes[own], looks ? chained_code(lanes - 2 - own % 2) : turns[turn].argument } });
	}
	for (uint32_t n = 0; n < lanes; n++) {
		take(full, CALL_DELETE, edge_lanes[n], chained_code(n));
		take(full, CALL_CLOCK, edge_lanes[n], 0);
		awaited(full, ALL_LANES, 0, ALL_SLOTS - lanes, n + 1);
	}
}

/* ---- sentences of legality */

enum { MASK_OF_EIGHT = 255, FIRST_BIT = 1, EIGHTH_BIT = 128, NINTH_BIT = 256 };

/* A word of a record, and the sentence that it breaks. */
struct wrong {
	uint32_t word, value;
	enum legal_sentence sentence;
};

enum { CODE_BEYOND_HIGH = 23284 }; /* the high word of a code above the limit */

#define WRONG_QUEUE(at) \
	{ (at) + QUEUE_FIRST, ALL_SLOTS, LEGAL_LINKS }, { (at) + QUEUE_LAST, ALL_SLOTS, LEGAL_LINKS }, \
	{ (at) + QUEUE_LAST, 0, LEGAL_EMPTY_ENDS }, { (at) + QUEUE_FIRST, 0, LEGAL_ONCE }, \
	{ (at) + QUEUE_LENGTH, 1, LEGAL_LENGTHS }, { (at) + QUEUE_LENGTH, 256, LEGAL_LENGTHS }

/* Of a lane that is online, in no section, with nothing in its queues. */
static const struct wrong wrong_lanes[] = {
	{ LANE_FLAGS, FLAGS | FLAG_ONLINE, LEGAL_FLAGS },
	{ LANE_FLAGS, 1u << 31 | FLAG_ONLINE, LEGAL_FLAGS },
	{ LANE_FLAGS, FLAG_READING, LEGAL_OFFLINE },
	{ LANE_FLAGS, FLAG_ONLINE | FLAG_LOOKUP, LEGAL_LOOKUP_IN_SECTION },
	{ LANE_FLAGS, FLAG_ONLINE | FLAG_SNAPSHOT, LEGAL_SNAPSHOT_PENDING },
	{ LANE_SNAPSHOT, 1, LEGAL_SNAPSHOTS_REST },
	{ LANE_SNAPSHOT + COUNT_WORDS * KINDS - 1, 1, LEGAL_SNAPSHOTS_REST },
	{ LANE_GENERATION, 1, LEGAL_GENERATIONS_REST },
	WRONG_QUEUE(LANE_NEXT), WRONG_QUEUE(LANE_CURRENT), WRONG_QUEUE(LANE_DONE),
	{ LANE_CODE + CODE_LOW, 1, LEGAL_LOOKUPS_REST },
	{ LANE_CODE + CODE_HIGH, 1, LEGAL_LOOKUPS_REST },
	{ LANE_POSITION, 0, LEGAL_LOOKUPS_REST },
};

/* Of one whose lookup runs. */
static const struct wrong wrong_lookups[] = {
	{ LANE_CODE + CODE_HIGH, CODE_BEYOND_HIGH, LEGAL_FIELDS },
	{ LANE_POSITION, ALL_SLOTS, LEGAL_LINKS },
};

/* Of a slot that is free and not the last of its queue. */
static const struct wrong wrong_free[] = {
	{ SLOT_CODE + CODE_LOW, 1, LEGAL_FREE_SLOTS },
	{ SLOT_CODE + CODE_HIGH, 1, LEGAL_FREE_SLOTS },
	{ SLOT_CODE + CODE_HIGH, CODE_BEYOND_HIGH, LEGAL_FIELDS },
	{ SLOT_DEPOSIT, 1, LEGAL_FREE_SLOTS },
	{ SLOT_DEPOSIT, PT_MAX_DEPOSIT + 1, LEGAL_FIELDS },
	{ SLOT_MATERIAL, 1, LEGAL_FREE_SLOTS },
	{ SLOT_MATERIAL, PT_MAX_MATERIAL + 1, LEGAL_FIELDS },
	{ SLOT_CHAIN_LINK, 0, LEGAL_FREE_SLOTS },
	{ SLOT_CHAIN_LINK, ALL_SLOTS, LEGAL_LINKS },
	{ SLOT_QUEUE_LINK, ALL_SLOTS, LEGAL_LINKS },
	{ SLOT_QUEUE_LINK, 0, LEGAL_ONCE },
};

/* Of a slot with a record; the first ones also of one that is retired. */
enum { WRONG_RETIRED = 4 };
static const struct wrong wrong_records[] = {
	{ SLOT_CODE + CODE_HIGH, CODE_BEYOND_HIGH, LEGAL_FIELDS },
	{ SLOT_DEPOSIT, PT_MAX_DEPOSIT + 1, LEGAL_FIELDS },
	{ SLOT_MATERIAL, PT_MAX_MATERIAL + 1, LEGAL_FIELDS },
	{ SLOT_CHAIN_LINK, ALL_SLOTS, LEGAL_LINKS },
	{ SLOT_QUEUE_LINK, ALL_SLOTS, LEGAL_LINKS },
	{ SLOT_QUEUE_LINK, 0, LEGAL_LINKS_REST },
};

static void break_record(struct full *full, struct sizes sizes, int body, uint32_t n, const struct wrong *wrong)
{
	poke(full, address(sizes, body, n, wrong->word), wrong->value);
	not_legal(full, wrong->sentence);
}

static void break_each(struct full *full, struct sizes sizes, int body, uint32_t n, const struct wrong *wrong,
		uint32_t count)
{
	for (uint32_t w = 0; w < count; w++)
		break_record(full, sizes, body, n, &wrong[w]);
}

/* Slot 0 is taken out of the free queue, and is a lane's queue. */
static void poke_queue(struct full *full, uint32_t lane, uint32_t queue)
{
	poke(full, address(largest, BODY_GLOBAL, 0, GLOBAL_FREE + QUEUE_FIRST), 1);
	poke(full, address(largest, BODY_GLOBAL, 0, GLOBAL_FREE + QUEUE_LENGTH), ALL_SLOTS - 1);
	poke(full, address(largest, BODY_SLOTS, 0, SLOT_QUEUE_LINK), PT_NONE);
	poke(full, address(largest, BODY_LANES, lane, queue + QUEUE_FIRST), 0);
	poke(full, address(largest, BODY_LANES, lane, queue + QUEUE_LAST), 0);
	poke(full, address(largest, BODY_LANES, lane, queue + QUEUE_LENGTH), 1);
}

static void poke_current(struct full *full, uint32_t lane, uint32_t generation)
{
	poke_queue(full, lane, LANE_CURRENT);
	poke(full, address(largest, BODY_LANES, lane, LANE_GENERATION), generation);
}

/* An offline lane with a slot in one of its queues; below, the words of a lookup. */
static void break_offline(struct full *full, uint32_t lane)
{
	static const uint32_t queues[] = { LANE_NEXT, LANE_CURRENT, LANE_DONE };

	for (uint32_t n = 0; n < COUNT(queues); n++) {
		poke_queue(full, lane, queues[n]);
		poke(full, address(largest, BODY_LANES, lane, LANE_FLAGS), 0);
		not_legal(full, LEGAL_OFFLINE);
	}
}

static void break_lookup(struct full *full, uint32_t lane)
{
	for (uint32_t n = 0; n < COUNT(wrong_lookups); n++) {
		poke(full, address(largest, BODY_LANES, lane, LANE_FLAGS), FLAG_ONLINE | FLAG_READING | FLAG_LOOKUP);
		break_record(full, largest, BODY_LANES, lane, &wrong_lookups[n]);
	}
}

/* A fresh table of the largest sizes, broken at its lanes. */
static void make_wrong_lanes(struct full *full)
{
	set_up(full, largest);
	for (uint32_t w = 0; w < COUNT(wrong_lanes); w++)
		for (uint32_t n = 0; n < COUNT(edge_lanes); n++)
			break_record(full, largest, BODY_LANES, edge_lanes[n], &wrong_lanes[w]);
	for (uint32_t n = 0; n < COUNT(edge_lanes); n++) {
		break_offline(full, edge_lanes[n]);
		break_lookup(full, edge_lanes[n]);
	}
}

/* The mask of a lane's cabinet without its bit, while all lanes are pending. */
static void poke_bit_gone(struct full *full, uint32_t lane)
{
	poke(full, address(largest, BODY_CABINETS, lane / PT_MAX_LANES, CABINET_PENDING),
		MASK_OF_EIGHT & ~(1u << lane % PT_MAX_LANES));
}

/* With all lanes pending: an offline one with its bit, a snapshot without, generations that do not fit. */
static void break_pending(struct full *full, uint32_t lane)
{
	uint32_t flags = address(largest, BODY_LANES, lane, LANE_FLAGS);

	poke(full, flags, 0);
	not_legal(full, LEGAL_OFFLINE);
	poke_bit_gone(full, lane);
	poke(full, flags, FLAG_ONLINE | FLAG_SNAPSHOT);
	not_legal(full, LEGAL_SNAPSHOT_PENDING);
	poke_current(full, lane, 2);
	not_legal(full, LEGAL_LANE_GENERATION);
	poke_current(full, lane, 1u << 31);
	not_legal(full, LEGAL_LANE_GENERATION);
	poke_current(full, lane, 0);
	poke_bit_gone(full, lane);
	not_legal(full, LEGAL_LANE_GENERATION);
}

/* The masks of every cabinet and of every yard: a bit out of range, none where one is due. */
static void break_masks(struct full *full)
{
	static const struct wrong cabinet[] = {
		{ CABINET_PENDING, NINTH_BIT, LEGAL_MASKS }, { CABINET_PENDING, 0, LEGAL_CABINET_BITS },
	};
	static const struct wrong yard[] = {
		{ YARD_PENDING, MASK_OF_EIGHT | NINTH_BIT, LEGAL_MASKS },
		{ YARD_PENDING, MASK_OF_EIGHT & ~EIGHTH_BIT, LEGAL_CABINET_BITS },
	};

	for (uint32_t n = 0; n < PT_MAX_YARDS * PT_MAX_CABINETS; n++)
		break_each(full, largest, BODY_CABINETS, n, cabinet, COUNT(cabinet));
	for (uint32_t n = 0; n < PT_MAX_YARDS; n++) {
		break_each(full, largest, BODY_YARDS, n, yard, COUNT(yard));
		break_record(full, largest, BODY_GLOBAL, 0, &(struct wrong){ GLOBAL_PENDING, MASK_OF_EIGHT & ~(1u << n), LEGAL_YARD_BITS });
	}
	break_record(full, largest, BODY_GLOBAL, 0, &(struct wrong){ GLOBAL_PENDING, MASK_OF_EIGHT | NINTH_BIT, LEGAL_MASKS });
}

/* All lanes are pending, and none has slots. */
static void poke_all_pending(struct full *full)
{
	for (uint32_t n = 0; n < PT_MAX_YARDS * PT_MAX_CABINETS; n++)
		poke(full, address(largest, BODY_CABINETS, n, CABINET_PENDING), MASK_OF_EIGHT);
	for (uint32_t n = 0; n < PT_MAX_YARDS; n++)
		poke(full, address(largest, BODY_YARDS, n, YARD_PENDING), MASK_OF_EIGHT);
	poke(full, address(largest, BODY_GLOBAL, 0, GLOBAL_PENDING), MASK_OF_EIGHT);
	poke(full, address(largest, BODY_GLOBAL, 0, GLOBAL_LARGEST_GENERATION), 1);
	awaited(full, ALL_LANES, 0, ALL_SLOTS, 0);
}

static void make_wrong_pending(struct full *full)
{
	set_up(full, largest);
	poke_all_pending(full);
	for (uint32_t n = 0; n < COUNT(edge_lanes); n++)
		break_pending(full, edge_lanes[n]);
	break_masks(full);
}

/* The mask of yards as if a grace period waited for one of a yard's lanes. */
static void poke_yard_pending(struct full *full, uint32_t yard)
{
	poke(full, address(largest, BODY_GLOBAL, 0, GLOBAL_LARGEST_GENERATION), 1);
	poke(full, address(largest, BODY_GLOBAL, 0, GLOBAL_PENDING), 1u << yard);
}

/* A bit of every cabinet and of every yard while no lane of it is pending, and a lane that is pending without it. */
static void make_wrong_bits(struct full *full)
{
	set_up(full, largest);
	for (uint32_t n = 0; n < PT_MAX_YARDS * PT_MAX_CABINETS; n++)
		break_record(full, largest, BODY_CABINETS, n, &(struct wrong){ CABINET_PENDING, EIGHTH_BIT, LEGAL_CABINET_BITS });
	for (uint32_t n = 0; n < PT_MAX_YARDS; n++) {
		poke_yard_pending(full, n);
		break_record(full, largest, BODY_YARDS, n, &(struct wrong){ YARD_PENDING, EIGHTH_BIT, LEGAL_CABINET_BITS });
		poke_yard_pending(full, n);
		not_legal(full, LEGAL_YARD_BITS);
		poke(full, address(largest, BODY_CABINETS, n * PT_MAX_CABINETS, CABINET_PENDING), FIRST_BIT);
		break_record(full, largest, BODY_YARDS, n, &(struct wrong){ YARD_PENDING, FIRST_BIT, LEGAL_YARD_BITS });
	}
}

/* Lengths that another width would take for the right one, and a last slot that is another. */
static void break_queue(struct full *full, struct sizes sizes, int body, uint32_t queue)
{
	static const uint32_t lengths[] = { 0, 255, 256, 768, ALL_SLOTS - 1, ALL_SLOTS + 1, ALL_SLOTS + 256, ALL_SLOTS + 65536, 1u << 31 };
	static const uint32_t lasts[] = { 0, 255, 256, ALL_SLOTS - 2, PT_NONE };

	for (uint32_t n = 0; n < COUNT(lengths); n++)
		break_record(full, sizes, body, 0, &(struct wrong){ queue + QUEUE_LENGTH, lengths[n], LEGAL_LENGTHS });
	for (uint32_t n = 0; n < COUNT(lasts); n++)
		break_record(full, sizes, body, 0, &(struct wrong){ queue + QUEUE_LAST, lasts[n], LEGAL_LASTS });
}

/* Every chain's head: out of range, and a slot that is free. */
static void break_heads(struct full *full)
{
	for (uint32_t n = 0; n < CHAINS; n++) {
		break_record(full, two_lanes, BODY_GLOBAL, 0, &(struct wrong){ GLOBAL_CHAINS + n, ALL_SLOTS, LEGAL_LINKS });
		break_record(full, two_lanes, BODY_GLOBAL, 0, &(struct wrong){ GLOBAL_CHAINS + n, n, LEGAL_ONCE });
	}
}

/* A fresh table, broken at its chains and at its free slots. */
static void make_wrong_free(struct full *full)
{
	set_up(full, two_lanes);
	break_heads(full);
	for (uint32_t n = 0; n < COUNT(edge_slots); n++) {
		break_each(full, two_lanes, BODY_SLOTS, edge_slots[n], wrong_free, COUNT(wrong_free));
		poke(full, address(two_lanes, BODY_SLOTS, edge_slots[n], SLOT_QUEUE_LINK), edge_slots[n]);
		not_legal(full, LEGAL_ONCE);
	}
	break_queue(full, two_lanes, BODY_GLOBAL, GLOBAL_FREE);
}

/* The number of the record of the same chain that is farthest from a record's slot. */
static uint32_t same_chain(uint32_t slot)
{
	uint32_t n = slot < ALL_SLOTS / 2 ? ALL_SLOTS - 1 : 0;

	while (CODE_OF_ALL(n) % CHAINS != CODE_OF_ALL(slot) % CHAINS)
		n += slot < ALL_SLOTS / 2 ? -1u : 1u;
	return n;
}

/* ---- slots with records, and retired ones */

/* A slot with the record of a code: its words, the chain of its code, a chain that comes round. */
static void break_chained(struct full *full, struct sizes sizes, uint32_t slot, uint64_t code)
{
	break_each(full, sizes, BODY_SLOTS, slot, wrong_records, COUNT(wrong_records));
	break_record(full, sizes, BODY_SLOTS, slot, &(struct wrong){ SLOT_CODE + CODE_LOW, (uint32_t)code + 1, LEGAL_CHAINS });
	break_record(full, sizes, BODY_SLOTS, slot, &(struct wrong){ SLOT_CHAIN_LINK, slot, LEGAL_ONCE });
}

/* A table of records on all chains, broken at its slots, and a code twice. */
static void break_records(struct full *full)
{
	for (uint32_t n = 0; n < COUNT(edge_slots); n++) {
		uint32_t slot = edge_slots[n], as = (uint32_t)CODE_OF_ALL(same_chain(slot));

		break_chained(full, two_lanes, slot, CODE_OF_ALL(slot));
		break_record(full, two_lanes, BODY_SLOTS, slot, &(struct wrong){ SLOT_CODE + CODE_LOW, as, LEGAL_TWICE });
	}
}

/* 1,024 records on all chains and no free slot; then records go. */
static void make_records(struct full *full)
{
	set_up(full, two_lanes);
	take(full, CALL_BEGIN, 1, 0);
	add_all(full);
	take(full, CALL_END, 1, 0);
	make(full, PT_NO_FREE_SLOT, (struct call){ CALL_ADD, { 0, CODE_OF_ALL(ALL_SLOTS) } });
	make(full, PT_NO_FREE_SLOT, (struct call){ CALL_REPLACE, { 0, CODE_OF_ALL(0) } });
	make(full, PT_CODE_PRESENT, (struct call){ CALL_ADD, { 0, CODE_OF_ALL(0) } });
	awaited(full, 0, PT_NONE, 0, 0);
	break_records(full);
	stand_each(full);
	for (uint32_t n = 0; n < COUNT(edge_slots); n++) {
		take(full, CALL_DELETE, 0, CODE_OF_ALL(edge_slots[n]));
		expect(full, 1, edge_slots[n]);
		awaited(full, 0, PT_NONE, 0, n + 1);
	}
}

/* All slots on one chain. */
static void make_one_chain(struct full *full)
{
	static const struct sizes sizes = { 1, 1, 1, ALL_SLOTS };

	set_up(full, sizes);
	other(full, STEP_CHAIN, ALL_SLOTS, 0);
	awaited(full, 0, PT_NONE, 0, 0);
	break_pairs(full, sizes, ALL_SLOTS);
	for (uint32_t n = 0; n < COUNT(edge_slots); n++)
		break_chained(full, sizes, edge_slots[n], chained_code(edge_slots[n]));
	make(full, PT_CODE_PRESENT, (struct call){ CALL_ADD, { 0, chained_code(0) } });
	make(full, PT_CODE_MISSING, (struct call){ CALL_REPLACE, { 0, chained_code(ALL_SLOTS) } });
	make(full, PT_NO_FREE_SLOT, (struct call){ CALL_REPLACE, { 0, chained_code(0) } });
	take(full, CALL_DELETE, 0, chained_code(0));
	expect(full, 1, 0);
	take(full, CALL_DELETE, 0, chained_code(ALL_SLOTS / 2));
	expect(full, 1, ALL_SLOTS / 2);
	take(full, CALL_DELETE, 0, chained_code(ALL_SLOTS - 1));
	expect(full, 1, ALL_SLOTS - 1);
	awaited(full, 0, PT_NONE, 0, 3);
}

/* A queue of all slots, broken at its slots, and odd and legal there: chains that come round. */
static void break_retired(struct full *full)
{
	break_queue(full, two_lanes, BODY_LANES, LANE_NEXT);
	for (uint32_t n = 0; n < COUNT(edge_slots); n++) {
		uint32_t slot = edge_slots[n], link = address(two_lanes, BODY_SLOTS, slot, SLOT_QUEUE_LINK);

		poke(full, link, slot);
		not_legal(full, LEGAL_ONCE);
		poke(full, link, slot == ALL_SLOTS - 1 ? 0 : PT_NONE);
		not_legal(full, LEGAL_ONCE);
		break_each(full, two_lanes, BODY_SLOTS, slot, wrong_records, WRONG_RETIRED);
		poke(full, address(two_lanes, BODY_SLOTS, slot, SLOT_CHAIN_LINK), slot);
		awaited(full, 0, PT_NONE, 0, ALL_SLOTS);
	}
}

/* Lookups on free slots, and on those of a lane's next, current and done queue and of the global done queue. */
static void make_retired(struct full *full)
{
	set_up(full, two_lanes);
	stand_each(full);
	retire_all(full, false);
	break_retired(full);
	stand_each(full);
	take(full, CALL_CLOCK, 0, 0);
	stand_each(full);
	lanes_pass(full, 0, 2);
	take(full, CALL_CLOCK, 0, 0);
	expect(full, ANSWER_MOVED, ALL_SLOTS);
	stand_each(full);
	take(full, CALL_OFF, 0, 0);
	stand_each(full);
}

/* On those of the global current queue; an off moves them all on. */
static void make_retired_globally(struct full *full)
{
	set_up(full, two_lanes);
	retire_all(full, false);
	take(full, CALL_OFF, 0, 0);
	stand_each(full);
	lanes_pass(full, 1, 1);
	awaited(full, 0, PT_NONE, 0, ALL_SLOTS);
	take(full, CALL_HAND_BACK, 1, 0);
	expect(full, 1, 0);
}

/* A slot is found, comes back, and takes another record of the same chain: the first is absent then. */
static void make_reused(struct full *full)
{
	enum { TIMES = 4 };

	set_up(full, (struct sizes){ 1, 1, 2, 1 });
	for (uint32_t n = 0; n < TIMES; n++) {
		add(full, 0, chained_code(n), n);
		take(full, CALL_BEGIN, 1, 0);
		take(full, CALL_START, 1, chained_code(n));
		take(full, CALL_STEP, 1, 0);
		expect(full, 1, PT_FOUND);
		if (n > 0) {
			take(full, CALL_START, 1, chained_code(n - 1));
			take(full, CALL_STEP, 1, 0);
			expect(full, 1, PT_GOING);
		}
		take(full, CALL_END, 1, 0);
		take(full, CALL_DELETE, 0, chained_code(n));
		take(full, CALL_CLOCK, 0, 0);
		lanes_pass(full, 0, 2);
		take(full, CALL_CLOCK, 0, 0);
		take(full, CALL_HAND_BACK, 0, 0);
	}
}

/* ---- numbers: sizes, arguments, counts and generations */

/* What some width leaves of a number that is so much larger: the number. */
static const uint32_t beyond[] = { 1u << 8, 1u << 16, 1u << 24, 1u << 31 };

/* Set-ups of sizes that are too large, and that a width would take for good ones. */
static void too_large(struct full *full, uint32_t argument, uint32_t most)
{
	struct call call = call_setup((struct sizes){ 1, 1, 1, 1 });

	call.argument[argument] = most + 1;
	make(full, PT_BAD_SIZE, call);
	call.argument[argument] = PT_NONE;
	make(full, PT_BAD_SIZE, call);
	for (uint32_t n = most < beyond[0] ? 0 : 1; n < COUNT(beyond); n++) {
		call.argument[argument] = beyond[n] + most;
		make(full, PT_BAD_SIZE, call);
		call.argument[argument] = beyond[n] + 1;
		make(full, PT_BAD_SIZE, call);
	}
}

/* A set-up with a word too few, and with as many as it takes. */
static void set_up_exactly(struct full *full, struct sizes sizes)
{
	uint32_t total = layout_of(sizes).total;

	other(full, STEP_LEND, total - 1, 0);
	make(full, PT_SHORT_MEMORY, call_setup(sizes));
	other(full, STEP_LEND, total, 0);
	set_up(full, sizes);
	awaited(full, 0, PT_NONE, sizes.slots, 0);
}

static const uint32_t size_limits[] = { PT_MAX_YARDS, PT_MAX_CABINETS, PT_MAX_LANES, PT_MAX_SLOTS };

/* Every choice of least and most. */
static void set_up_limits(struct full *full)
{
	for (uint32_t n = 0; n < 1u << COUNT(size_limits); n++)
		set_up_exactly(full, (struct sizes){ n & 1 ? PT_MAX_YARDS : 1, n & 2 ? PT_MAX_CABINETS : 1,
			n & 4 ? PT_MAX_LANES : 1, n & 8 ? PT_MAX_SLOTS : 1 });
}

/* These, slots about the edges, and sizes that are too large. */
static void make_sizes(struct full *full)
{
	set_up_limits(full);
	for (uint32_t n = 1; n < COUNT(edge_slots); n++)
		set_up_exactly(full, (struct sizes){ 1, 1, 1, edge_slots[n] });
	for (uint32_t argument = 0; argument < COUNT(size_limits); argument++)
		too_large(full, argument, size_limits[argument]);
}

/* Each call with a lane that is none, and that a width would take for lane 1. */
static void no_lanes(struct full *full, uint32_t lane)
{
	for (int name = CALL_SETUP + 1; name < CALLS; name++)
		if (call_forms[name].kind[0] == KIND_LANE)
			make(full, PT_NO_LANE, (struct call){ (enum call_name)name, { lane } });
}

/* A record of which an argument is out of range, and none. */
static void out_of_range(struct full *full, uint64_t code, uint32_t deposit, uint32_t material)
{
	make(full, PT_OUT_OF_RANGE, (struct call){ CALL_ADD, { 0, code, deposit, material } });
	make(full, PT_OUT_OF_RANGE, (struct call){ CALL_REPLACE, { 0, code, deposit, material } });
}

/* The largest deposits and materials, and what they are when they are found. */
static void largest_records(struct full *full)
{
	static const uint32_t deposits[] = { 255, 256, 65535, 65536, PT_MAX_DEPOSIT };

	take(full, CALL_BEGIN, 1, 0);
	for (uint32_t n = 0; n < COUNT(deposits); n++) {
		make(full, PT_OK, (struct call){ n == 0 ? CALL_ADD : CALL_REPLACE, { 0, CODE, deposits[n], PT_MAX_MATERIAL } });
		take(full, CALL_START, 1, CODE);
		take(full, CALL_STEP, 1, 0);
		expect(full, 3, deposits[n]);
		expect(full, 4, PT_MAX_MATERIAL);
	}
}

enum { LIMIT_BITS = 47, CODE_BITS = 64 }; /* of the largest code, and of any */

static void make_arguments(struct full *full)
{
	set_up(full, small);
	no_lanes(full, sizes_lanes(small));
	no_lanes(full, PT_NONE);
	largest_records(full);
	for (uint32_t n = 0; n < COUNT(beyond); n++) {
		no_lanes(full, beyond[n] + 1);
		out_of_range(full, CODE, beyond[n] <= PT_MAX_DEPOSIT ? 1u << 17 : beyond[n] + 1, 0);
		out_of_range(full, CODE, 0, beyond[n] + 1);
		make(full, PT_OUT_OF_RANGE, (struct call){ CALL_PASS, { 0, beyond[n] + 1 } });
	}
	for (uint32_t bit = LIMIT_BITS; bit < CODE_BITS; bit++) {
		out_of_range(full, (UINT64_C(1) << bit) + CODE, 0, 0);
		make(full, PT_OUT_OF_RANGE, (struct call){ CALL_DELETE, { 0, (UINT64_C(1) << bit) + CODE } });
		make(full, PT_OUT_OF_RANGE, (struct call){ CALL_START, { 1, (UINT64_C(1) << bit) + CODE } });
	}
}

enum { MANY = 260 }; /* past what a byte counts */

/* A lane passes often, and its grace periods are many. */
static void make_often(struct full *full)
{
	set_up(full, (struct sizes){ 1, 1, 1, 1 });
	for (uint32_t n = 0; n < MANY; n++)
		take(full, CALL_PASS, 0, n % 2 == 0 ? PT_IDLE : n / 2 % KINDS);
	for (uint32_t n = 0; n < MANY; n++) {
		ask_for_period(full, 0);
		expect(full, 1, n + 1);
		take(full, CALL_PASS, 0, n % KINDS);
		take(full, CALL_CLOCK, 0, 0);
		expect(full, 1, n + 2);
		expect(full, ANSWER_MOVED, 1);
		take(full, CALL_HAND_BACK, 0, 0);
	}
}

/* The same about the ends of wider numbers: counts, and generations. */
static void make_wide(struct full *full)
{
	static const struct sizes sizes = { 1, 1, 1, 1 };

	for (uint32_t n = 0; n < COUNT(beyond); n++)
		for (uint32_t below = 1; below <= 2; below++) {
			set_up(full, sizes);
			poke(full, address(sizes, BODY_GLOBAL, 0, GLOBAL_CURRENT_GENERATION), beyond[n] - below);
			poke(full, address(sizes, BODY_GLOBAL, 0, GLOBAL_LARGEST_GENERATION), beyond[n] - below - 1);
			poke(full, address(sizes, BODY_LANES, 0, LANE_COUNTS + COUNT_LOW), beyond[n] - 1);
			poke(full, address(sizes, BODY_LANES, 0, LANE_COUNTS + COUNT_HIGH), beyond[n] - 1);
			ask_for_period(full, 0);
			expect(full, 1, beyond[n] - below);
			take(full, CALL_PASS, 0, PT_IDLE);
			take(full, CALL_CLOCK, 0, 0);
			expect(full, 1, beyond[n] - below + 1);
			take(full, CALL_HAND_BACK, 0, 0);
		}
}

/* ---- texts, and lengths that a width would take for others */

/* A text of so many bytes is read, and codes of each length are written into one. */
static void text(struct full *full, uint64_t bytes)
{
	static const uint64_t codes[] = { 17, 9999999999994, PT_MAX_CODE, PT_MAX_CODE + 1 };
	struct step digits = step_digits(bytes);

	steps_add(&full->steps, &digits);
	expect(full, ANSWER_STATUS, bytes == PT_LABEL_8 || bytes == PT_LABEL_13 || bytes == PT_LABEL_14 ? PT_OK : PT_WRONG_LABEL);
	for (uint32_t n = 0; n < COUNT(codes); n++) {
		const uint32_t lengths[] = { PT_LABEL_8, PT_LABEL_13, PT_LABEL_14 };

		steps_add(&full->steps, &(struct step){ .kind = STEP_WRITE, .number = bytes, .code = codes[n] });
		expect(full, ANSWER_STATUS, codes[n] > PT_MAX_CODE ? PT_OUT_OF_RANGE : bytes < lengths[n] ? PT_WRONG_LABEL : PT_OK);
	}
}

static void texts(struct full *full, uint64_t first, uint64_t last)
{
	for (uint64_t bytes = first; bytes <= last; bytes++)
		text(full, bytes);
}

static void make_texts(struct full *full)
{
	texts(full, 0, 20);
	texts(full, 255, 270);
	texts(full, 65536, 65550);
}

/* Powers of two whose multiples are 0 in some width, in words or in bytes. */
static const uint64_t widths[] = { 1u << 16, 1u << 24, 1u << 30, 1u << 31, UINT64_C(1) << 32, UINT64_C(1) << 33 };

static void make_long_texts(struct full *full)
{
	for (uint32_t n = 1; n < COUNT(widths); n++) {
		texts(full, widths[n] - 1, widths[n] + 1);
		texts(full, widths[n] + PT_LABEL_8 - 1, widths[n] + PT_LABEL_8);
		texts(full, widths[n] + PT_LABEL_13 - 1, widths[n] + PT_LABEL_14 + 1);
	}
}

/* The calls on a memory and an answer of such lengths; each set-up leaves few words lent. */
static void use(struct full *full, struct sizes sizes, uint64_t words)
{
	other(full, STEP_LEND, words, 0);
	make(full, PT_OK, call_setup(sizes));
	other(full, STEP_LEND, words, 0);
	add(full, 0, CODE, 0);
	take(full, CALL_BEGIN, 0, 0);
	take(full, CALL_START, 0, CODE);
	take(full, CALL_STEP, 0, 0);
	expect(full, 1, PT_FOUND);
	take(full, CALL_END, 0, 0);
	make(full, PT_OK, (struct call){ CALL_REPLACE, { 0, CODE } });
	take(full, CALL_DELETE, 0, CODE);
	take(full, CALL_CLOCK, 0, 0);
	take(full, CALL_PASS, 0, PT_IDLE);
	take(full, CALL_CLOCK, 0, 0);
	take(full, CALL_OFF, 1, 0);
	take(full, CALL_ON, 1, 0);
	make(full, PT_OK, (struct call){ .name = CALL_AWAITED });
	make(full, PT_NO_LANE, (struct call){ CALL_HAND_BACK, { PT_NONE } });
}

static void make_long_memories(struct full *full)
{
	uint32_t total = layout_of(small).total;

	for (uint32_t n = 0; n < COUNT(widths); n++) {
		use(full, small, widths[n]);
		use(full, small, widths[n] + 1);
		use(full, small, widths[n] + total - 1);
		use(full, largest, widths[n] + layout_of(largest).total - 1);
	}
}

/* The calls, and the label functions, with so many words of answer. */
static void answer(struct full *full, uint64_t words)
{
	other(full, STEP_ANSWER, words, 0);
	use(full, small, layout_of(small).total);
	texts(full, PT_LABEL_13, PT_LABEL_14);
}

/* Of each width what leaves no word, and what leaves one too few. */
static void make_long_answers(struct full *full)
{
	answer(full, NINTH_BIT);
	answer(full, NINTH_BIT + PT_ANSWER_WORDS - 1);
	for (uint32_t n = 0; n < COUNT(widths); n++) {
		answer(full, widths[n] - 1);
		answer(full, widths[n]);
		answer(full, widths[n] + PT_ANSWER_WORDS - 1);
	}
}

/* ---- */

/* What a short list shows stands first. */
const struct full_list full_lists[] = {
	{ "sizes", true, false, make_sizes },
	{ "arguments", true, false, make_arguments },
	{ "wide", false, false, make_wide },
	{ "reused", true, false, make_reused },
	{ "texts", false, false, make_texts },
	{ "long-texts", false, true, make_long_texts },
	{ "long-memories", false, true, make_long_memories },
	{ "long-answers", false, true, make_long_answers },
	{ "only-lanes", false, false, make_only_lanes },
	{ "turns", false, false, make_turns },
	{ "wrong-lanes", false, false, make_wrong_lanes },
	{ "wrong-pending", false, false, make_wrong_pending },
	{ "wrong-bits", false, false, make_wrong_bits },
	{ "wrong-free", false, false, make_wrong_free },
	{ "one-chain", false, false, make_one_chain },
	{ "chain", true, false, make_chain },
	{ "records", true, false, make_records },
	{ "lane-queues", true, false, make_lane_queues },
	{ "global-queues", true, false, make_global_queues },
	{ "global-next", true, false, make_global_next },
	{ "retired", true, false, make_retired },
	{ "retired-globally", true, false, make_retired_globally },
	{ "often", true, false, make_often },
	{ "one-yard", true, false, make_one_yard },
	{ "downwards", false, false, make_downwards },
	{ "upwards", false, false, make_upwards },
};

const uint32_t full_count = COUNT(full_lists);

void full_make(struct full *full, uint32_t n)
{
	full->steps.count = 0;
	full->count = 0;
	full_lists[n].make(full);
}
