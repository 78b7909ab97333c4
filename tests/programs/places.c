/*
 * places.c - yard, cabinet and place of a lane (document 02, requests 4 and 8): every lane of
 * every table of one yard of 1 to 8 cabinets of 1 to 8 lanes, of tables of 2 to 8 yards, and
 * numbers that are no lane. Where a lane stands is known here by counting: numbers go up place
 * by place, cabinet by cabinet and yard by yard. What each call leaves is written down so, and
 * compared with every word.
 */
#include <inttypes.h>
#include <stdio.h>
#include <stdlib.h>
#include <string.h>

#include "lent.h"
#include "reference.h"
#include "table.h"
#include "words.h"

enum { SLOTS = 2, CODE = 17 };

/* A lane, as it is counted. */
struct counted {
	uint32_t number, yard, cabinet, place;
	uint32_t all; /* the number of its cabinet among those of all yards */
};

static struct lent lent;
static uint32_t expected[LENT_WORDS];

/* The table's sizes, and its lanes in the order of their numbers. */
static struct sizes sizes = { .slots = SLOTS };
static uint32_t count;
static struct counted counted[TABLE_LANES];

static void count_lanes(void)
{
	uint32_t all = 0;

	count = 0;
	for (uint32_t yard = 0; yard < sizes.yards; yard++)
		for (uint32_t cabinet = 0; cabinet < sizes.cabinets; cabinet++, all++)
			for (uint32_t place = 0; place < sizes.lanes; place++, count++)
				counted[count] = (struct counted){ count, yard, cabinet, place, all };
}

/* Says which word is not as expected, and ends the program. */
static void check_words(const struct counted *lane)
{
	char name[WORD_TEXT];
	size_t n = 0;

	if (memcmp(lent.memory, expected, sizeof expected) == 0)
		return;
	while (lent.memory[n] == expected[n])
		n++;
	word_name(sizes, n, name);
	fprintf(stderr, "%" PRIu32 " yards of %" PRIu32 " cabinets of %" PRIu32 " lanes, lane %" PRIu32 ": %s: %" PRIu32
		", and not %" PRIu32 "\n", sizes.yards, sizes.cabinets, sizes.lanes, lane->number, name, lent.memory[n],
		expected[n]);
	exit(1);
}

static uint32_t ask(enum call_name name, uint32_t lane, uint32_t argument)
{
	return lent_make(&lent, &(struct call){ name, { lane, argument } });
}

/* An accepted call, after which the words are those expected. */
static void make(enum call_name name, const struct counted *lane, uint32_t argument)
{
	CHECK(ask(name, lane->number, argument) == PT_OK);
	check_words(lane);
}

static void set_up(void)
{
	struct call setup = call_setup(sizes);

	lent_start(&lent);
	CHECK(lent_make(&lent, &setup) == PT_OK);
}

/* A grace period that a lane begins; from here on the words are expected. */
static void begin_period(uint32_t lane)
{
	CHECK(ask(CALL_ADD, lane, CODE) == PT_OK);
	CHECK(ask(CALL_DELETE, lane, CODE) == PT_OK);
	CHECK(ask(CALL_CLOCK, lane, 0) == PT_OK);
	memcpy(expected, lent.memory, sizeof expected);
}

/* ---- the masks, as they are expected */

static uint32_t *lane_mask(const struct counted *lane)
{
	return &lent_cabinet(expected, lane->all)[CABINET_PENDING];
}

static uint32_t *cabinet_mask(const struct counted *lane)
{
	return &lent_yard(expected, lane->yard)[YARD_PENDING];
}

static uint32_t *yard_mask(void)
{
	return &lent_global(expected)[GLOBAL_PENDING];
}

/* The bits of all lanes, but for one that may be left out. */
static void set_bits(const struct counted *without)
{
	*yard_mask() = 0;
	for (uint32_t n = 0; n < count; n++)
		*lane_mask(&counted[n]) = *cabinet_mask(&counted[n]) = 0;
	for (uint32_t n = 0; n < count; n++)
		if (&counted[n] != without) {
			*lane_mask(&counted[n]) |= 1u << counted[n].place;
			*cabinet_mask(&counted[n]) |= 1u << counted[n].cabinet;
			*yard_mask() |= 1u << counted[n].yard;
		}
}

/* The bit goes, the cabinet's with the last one in it, and the yard's with its last cabinet's. Whether bits remain. */
static bool clear_bit(const struct counted *lane)
{
	*lane_mask(lane) &= ~(1u << lane->place);
	if (*lane_mask(lane) == 0)
		*cabinet_mask(lane) &= ~(1u << lane->cabinet);
	if (*cabinet_mask(lane) == 0)
		*yard_mask() &= ~(1u << lane->yard);
	return *yard_mask() != 0;
}

/* ---- pass and clock */

/* The grace period is over, by the clock of a lane; the slot is done if the lane removed it. */
static void end_period(const struct counted *lane)
{
	uint32_t *words = lent_lane(expected, lane->number);

	lent_global(expected)[GLOBAL_CURRENT_GENERATION]++;
	if (words[LANE_CURRENT + QUEUE_FIRST] == PT_NONE)
		return;
	memcpy(words + LANE_DONE, words + LANE_CURRENT, QUEUE_WORDS * sizeof *words);
	words[LANE_CURRENT + QUEUE_FIRST] = words[LANE_CURRENT + QUEUE_LAST] = PT_NONE;
	words[LANE_CURRENT + QUEUE_LENGTH] = 0;
	words[LANE_GENERATION] = 0;
}

/* A lane with its bit takes its snapshot, passes and shows it. */
static void let_pass(const struct counted *lane, uint32_t kind)
{
	uint32_t *words = lent_lane(expected, lane->number);

	words[LANE_FLAGS] |= FLAG_SNAPSHOT;
	memcpy(words + LANE_SNAPSHOT, words + LANE_COUNTS, COUNT_WORDS * KINDS * sizeof *words);
	make(CALL_CLOCK, lane, 0);
	words[LANE_COUNTS + COUNT_WORDS * kind]++;
	make(CALL_PASS, lane, kind);
	words[LANE_FLAGS] &= ~(uint32_t)FLAG_SNAPSHOT;
	memset(words + LANE_SNAPSHOT, 0, COUNT_WORDS * KINDS * sizeof *words);
	if (!clear_bit(lane))
		end_period(lane);
	make(CALL_CLOCK, lane, 0);
}

/* Lanes that are tried alone: all of a table that is not large, and else those at the edges. */
static bool alone(const struct counted *lane)
{
	enum { LARGE = 64 };
	bool at_edge = lane->place == 0 || lane->place == sizes.lanes - 1;

	return count <= LARGE || (at_edge && (lane->cabinet == 0 || lane->cabinet == sizes.cabinets - 1));
}

/* Each lane alone; then all in order of their numbers, and all from the last to the first. */
static void test_passes(void)
{
	for (uint32_t n = 0; n < count; n++) {
		if (!alone(&counted[n]))
			continue;
		set_up();
		begin_period(0);
		set_bits(NULL);
		check_words(&counted[0]);
		let_pass(&counted[n], n & 3u);
	}
	for (uint32_t order = 0; order < 2; order++) {
		set_up();
		begin_period(0);
		for (uint32_t n = 0; n < count; n++)
			let_pass(&counted[order == 0 ? n : count - 1 - n], order);
		CHECK(*yard_mask() == 0);
	}
}

/* ---- off and on */

/* A lane goes off while all are awaited, and comes back; another removed the slot. */
static void test_off(const struct counted *lane)
{
	uint32_t *words = lent_lane(expected, lane->number);

	set_up();
	begin_period(lane->number == 0 ? 1 : 0);
	CHECK(clear_bit(lane));
	words[LANE_FLAGS] = 0;
	make(CALL_OFF, lane, 0);
	CHECK(ask(CALL_PASS, lane->number, 0) == PT_OFFLINE && ask(CALL_CLOCK, lane->number, 0) == PT_OFFLINE);
	words[LANE_FLAGS] = FLAG_ONLINE;
	make(CALL_ON, lane, 0);
	make(CALL_CLOCK, lane, 0); /* it has no bit, and takes no snapshot */
	words[LANE_COUNTS + COUNT_WORDS * 3]++;
	make(CALL_PASS, lane, 3);
}

/* A grace period begins while a lane is off: the bits are those of all the others. */
static void test_left_out(const struct counted *lane)
{
	set_up();
	CHECK(ask(CALL_OFF, lane->number, 0) == PT_OK);
	begin_period(lane->number == 0 ? 1 : 0);
	set_bits(lane);
	check_words(lane);
}

/* ---- what is asked of every memory, and of all lanes */

/* The masks that are expected, in a memory that is lent; the status of a call on it. */
static uint32_t awaited(void)
{
	memcpy(lent.memory, expected, sizeof expected);
	return ask(CALL_AWAITED, 0, 0);
}

/* With its bit alone the lane is the lowest one awaited. */
static void test_awaited(const struct counted *lane)
{
	set_up();
	begin_period(0);
	for (uint32_t n = 0; n < count; n++)
		if (n != lane->number)
			clear_bit(&counted[n]);
	lent_lane(expected, 0)[LANE_FLAGS] = FLAG_ONLINE; /* lane 0's snapshot goes with its bit */
	CHECK(awaited() == PT_OK && lent.answer[1] == 1 && lent.answer[2] == lane->number);
}

/* A snapshot asks for the lane's own bit, and for no other. */
static void test_snapshot(const struct counted *lane)
{
	const struct counted *other = &counted[lane->number + 1 < count ? lane->number + 1 : 0];

	set_up();
	begin_period(0);
	lent_lane(expected, 0)[LANE_FLAGS] = FLAG_ONLINE;
	lent_lane(expected, lane->number)[LANE_FLAGS] = FLAG_ONLINE | FLAG_SNAPSHOT;
	if (other != lane) {
		clear_bit(other);
		CHECK(awaited() == PT_OK);
		set_bits(NULL);
	}
	clear_bit(lane);
	CHECK(awaited() == PT_NOT_LEGAL && ref_broken(expected, lent.words) == LEGAL_SNAPSHOT_PENDING);
}

/* ---- numbers that are no lane */

static void test_no_lane(uint32_t number)
{
	for (int name = 0; name < CALLS; name++)
		if (call_forms[name].kind[0] == KIND_LANE) {
			CHECK(ask((enum call_name)name, number, 0) == PT_NO_LANE);
			check_words(&(struct counted){ .number = number });
		}
}

/* Every call that names a lane, beside a running grace period. */
static void test_no_lanes(void)
{
	set_up();
	begin_period(0);
	test_no_lane(count);
	test_no_lane(count + 1);
	test_no_lane(count + sizes.lanes);
	test_no_lane(count + sizes.cabinets * sizes.lanes);
	test_no_lane(PT_NONE);
}

/* ---- tables */

/* Where the C version says that a lane stands. */
static void test_where(void)
{
	static struct table table;

	table.sizes = sizes;
	for (uint32_t n = 0; n < count; n++) {
		struct place at = table_place(&table, n);

		CHECK(at.yard == counted[n].yard && at.cabinet == counted[n].cabinet && at.place == counted[n].place);
		CHECK(table_cabinet(&table, at.yard, at.cabinet) == counted[n].all);
	}
}

static void test_table(void)
{
	test_passes();
	test_no_lanes();
	for (uint32_t n = 0; n < count; n++) {
		if (!alone(&counted[n]))
			continue;
		test_awaited(&counted[n]);
		test_snapshot(&counted[n]);
		if (count == 1) /* the last lane online stays */
			continue;
		test_off(&counted[n]);
		test_left_out(&counted[n]);
	}
}

/* The tables whose lanes make calls: all of one yard; of more, few and many cabinets and lanes. */
static bool makes_calls(void)
{
	bool cabinets = sizes.cabinets <= 2 || sizes.cabinets == PT_MAX_CABINETS;
	bool lanes = sizes.lanes == 1 || sizes.lanes == 3 || sizes.lanes == PT_MAX_LANES;

	return sizes.yards == 1 || (cabinets && lanes && (count <= 64 || sizes.yards == PT_MAX_YARDS));
}

int main(void)
{
	uint32_t tables = 0, lanes = 0, all = 0;

	for (sizes.yards = 1; sizes.yards <= PT_MAX_YARDS; sizes.yards++)
		for (sizes.cabinets = 1; sizes.cabinets <= PT_MAX_CABINETS; sizes.cabinets++)
			for (sizes.lanes = 1; sizes.lanes <= PT_MAX_LANES; sizes.lanes++) {
				count_lanes();
				CHECK(count == sizes_lanes(sizes));
				test_where();
				all += count;
				if (!makes_calls())
					continue;
				test_table();
				tables++;
				lanes += count;
			}
	printf("places: %" PRIu32 " lanes of 512 tables where counting says, calls of %" PRIu32 " of them, in %" PRIu32
		" tables\n", all, lanes, tables);
	return 0;
}
