/*
 * yards.c - masks of three levels (document 02, request 8): tables of 1 to 8 yards, a grace
 * period whose last lane is in the last yard, the only online lane of a cabinet and of a yard
 * that goes offline, the lowest pending lane across yards, lanes up to 511, and numbers that
 * are no lane. The masks are written out after each call.
 */
#include <inttypes.h>
#include <stdio.h>

#include "lent.h"

static struct lent lent;

/* The masks of a table of two yards of two cabinets of two lanes. */
struct masks {
	uint32_t yards, cabinets[2], lanes[4];
};

/* A call, its answer, and the masks that it leaves. */
struct row {
	struct lent_step step;
	struct masks masks;
};

static void check_masks(const char *call, const struct masks *masks)
{
	bool same = lent_global(lent.memory)[GLOBAL_PENDING] == masks->yards;

	for (uint32_t y = 0; y < 2; y++)
		same = same && *lent_yard(lent.memory, y) == masks->cabinets[y];
	for (uint32_t c = 0; c < 4; c++)
		same = same && *lent_cabinet(lent.memory, c) == masks->lanes[c];
	if (!same)
		fprintf(stderr, "%s: other masks\n", call);
	CHECK(same);
}

static void play(const struct row *rows, size_t count)
{
	lent_start(&lent);
	for (size_t n = 0; n < count; n++) {
		lent_expect(&lent, rows[n].step.call, rows[n].step.answer);
		check_masks(rows[n].step.call, &rows[n].masks);
	}
}

#define PLAY(rows) play(rows, sizeof(rows) / sizeof((rows)[0]))

#define NO_MASKS { 0, { 0, 0 }, { 0, 0, 0, 0 } }
#define ALL_MASKS { 3, { 3, 3 }, { 3, 3, 3, 3 } }

/* Lane by lane; the last one is in the last yard, and its clock ends the period. */
static void test_last_yard(void)
{
	static const struct row rows[] = {
		{ { "setup 2 2 2 4", "0 365 0 0 0" }, NO_MASKS },
		{ { "add 0 17 1 1", "0 0 0 0 0" }, NO_MASKS },
		{ { "del 0 17", "0 0 0 0 0" }, NO_MASKS },
		{ { "awaited", "0 0 4294967295 3 1" }, NO_MASKS },
		{ { "clock 0", "0 1 1 1 0" }, ALL_MASKS },
		{ { "awaited", "0 8 0 3 1" }, ALL_MASKS },
		{ { "pass 0 0", "0 0 0 0 0" }, ALL_MASKS },
		{ { "clock 0", "0 1 1 1 0" }, { 3, { 3, 3 }, { 2, 3, 3, 3 } } },
		{ { "awaited", "0 7 1 3 1" }, { 3, { 3, 3 }, { 2, 3, 3, 3 } } },
		{ { "clock 1", "0 1 1 1 0" }, { 3, { 3, 3 }, { 2, 3, 3, 3 } } },
		{ { "pass 1 1", "0 0 0 0 0" }, { 3, { 3, 3 }, { 2, 3, 3, 3 } } },
		/* the first cabinet's bit goes, and the yard's stays: its second cabinet is pending */
		{ { "clock 1", "0 1 1 1 0" }, { 3, { 2, 3 }, { 0, 3, 3, 3 } } },
		{ { "awaited", "0 6 2 3 1" }, { 3, { 2, 3 }, { 0, 3, 3, 3 } } },
		{ { "clock 3", "0 1 1 1 0" }, { 3, { 2, 3 }, { 0, 3, 3, 3 } } },
		{ { "pass 3 0", "0 0 0 0 0" }, { 3, { 2, 3 }, { 0, 3, 3, 3 } } },
		{ { "clock 3", "0 1 1 1 0" }, { 3, { 2, 3 }, { 0, 1, 3, 3 } } },
		{ { "clock 2", "0 1 1 1 0" }, { 3, { 2, 3 }, { 0, 1, 3, 3 } } },
		{ { "pass 2 3", "0 0 0 0 0" }, { 3, { 2, 3 }, { 0, 1, 3, 3 } } },
		/* the yard's bit goes with its last cabinet's; the period runs on */
		{ { "clock 2", "0 1 1 1 0" }, { 2, { 0, 3 }, { 0, 0, 3, 3 } } },
		{ { "awaited", "0 4 4 3 1" }, { 2, { 0, 3 }, { 0, 0, 3, 3 } } },
		{ { "clock 5", "0 1 1 1 0" }, { 2, { 0, 3 }, { 0, 0, 3, 3 } } },
		{ { "pass 5 0", "0 0 0 0 0" }, { 2, { 0, 3 }, { 0, 0, 3, 3 } } },
		{ { "clock 5", "0 1 1 1 0" }, { 2, { 0, 3 }, { 0, 0, 1, 3 } } },
		{ { "off 4", "0 0 0 0 0" }, { 2, { 0, 2 }, { 0, 0, 0, 3 } } },
		{ { "awaited", "0 2 6 3 1" }, { 2, { 0, 2 }, { 0, 0, 0, 3 } } },
		{ { "off 6", "0 0 0 0 0" }, { 2, { 0, 2 }, { 0, 0, 0, 2 } } },
		{ { "back 0", "16 0 0 0 0" }, { 2, { 0, 2 }, { 0, 0, 0, 2 } } },
		{ { "clock 7", "0 1 1 1 0" }, { 2, { 0, 2 }, { 0, 0, 0, 2 } } },
		{ { "pass 7 2", "0 0 0 0 0" }, { 2, { 0, 2 }, { 0, 0, 0, 2 } } },
		{ { "clock 7", "0 2 1 0 0" }, NO_MASKS },
		{ { "clock 0", "0 2 1 0 1" }, NO_MASKS },
		{ { "back 0", "0 0 0 0 0" }, NO_MASKS },
		{ { "awaited", "0 0 4294967295 4 0" }, NO_MASKS },
	};

	PLAY(rows);
}

/* The only online lane of a cabinet, and then of a yard, goes offline while it is pending; no bit is left there. */
static void test_only_lane(void)
{
	static const struct row rows[] = {
		{ { "setup 2 2 2 4", "0 365 0 0 0" }, NO_MASKS },
		{ { "off 5", "0 0 0 0 0" }, NO_MASKS },
		{ { "off 6", "0 0 0 0 0" }, NO_MASKS },
		{ { "add 7 17 1 1", "0 0 0 0 0" }, NO_MASKS },
		{ { "del 7 17", "0 0 0 0 0" }, NO_MASKS },
		{ { "clock 7", "0 1 1 1 0" }, { 3, { 3, 3 }, { 3, 3, 1, 2 } } },
		{ { "awaited", "0 6 0 3 1" }, { 3, { 3, 3 }, { 3, 3, 1, 2 } } },
		{ { "off 4", "0 0 0 0 0" }, { 3, { 3, 2 }, { 3, 3, 0, 2 } } },
		{ { "off 7", "0 0 0 0 0" }, { 1, { 3, 0 }, { 3, 3, 0, 0 } } }, /* with the slot that it removed */
		{ { "awaited", "0 4 0 3 1" }, { 1, { 3, 0 }, { 3, 3, 0, 0 } } },
		{ { "on 7", "0 0 0 0 0" }, { 1, { 3, 0 }, { 3, 3, 0, 0 } } },
		{ { "clock 7", "0 1 2 1 0" }, { 1, { 3, 0 }, { 3, 3, 0, 0 } } }, /* it has no bit, and takes no snapshot */
		{ { "off 0", "0 0 0 0 0" }, { 1, { 3, 0 }, { 2, 3, 0, 0 } } },
		{ { "off 1", "0 0 0 0 0" }, { 1, { 2, 0 }, { 0, 3, 0, 0 } } },
		{ { "off 2", "0 0 0 0 0" }, { 1, { 2, 0 }, { 0, 2, 0, 0 } } },
		/* the last pending lane of all: the period ends, and the next one, which is requested, waits for lane 7 alone */
		{ { "off 3", "0 0 0 0 0" }, { 2, { 0, 2 }, { 0, 0, 0, 2 } } },
		{ { "awaited", "0 1 7 3 1" }, { 2, { 0, 2 }, { 0, 0, 0, 2 } } },
		{ { "off 7", "15 0 0 0 0" }, { 2, { 0, 2 }, { 0, 0, 0, 2 } } },
		{ { "clock 7", "0 2 2 1 0" }, { 2, { 0, 2 }, { 0, 0, 0, 2 } } },
		{ { "pass 7 0", "0 0 0 0 0" }, { 2, { 0, 2 }, { 0, 0, 0, 2 } } },
		{ { "clock 7", "0 3 2 0 1" }, NO_MASKS },
		{ { "back 7", "0 0 0 0 0" }, NO_MASKS },
	};

	PLAY(rows);
}

/* A yard without an online lane gets no bit when a period begins, and a cabinet neither. */
static void test_yard_offline(void)
{
	static const struct row rows[] = {
		{ { "setup 2 2 2 4", "0 365 0 0 0" }, NO_MASKS },
		{ { "off 0", "0 0 0 0 0" }, NO_MASKS }, { { "off 1", "0 0 0 0 0" }, NO_MASKS },
		{ { "off 2", "0 0 0 0 0" }, NO_MASKS }, { { "off 3", "0 0 0 0 0" }, NO_MASKS },
		{ { "off 6", "0 0 0 0 0" }, NO_MASKS }, { { "off 7", "0 0 0 0 0" }, NO_MASKS },
		{ { "add 5 17 1 1", "0 0 0 0 0" }, NO_MASKS }, { { "del 5 17", "0 0 0 0 0" }, NO_MASKS },
		{ { "clock 5", "0 1 1 1 0" }, { 2, { 0, 1 }, { 0, 0, 3, 0 } } },
		{ { "awaited", "0 2 4 3 1" }, { 2, { 0, 1 }, { 0, 0, 3, 0 } } },
		{ { "on 0", "0 0 0 0 0" }, { 2, { 0, 1 }, { 0, 0, 3, 0 } } },
		{ { "clock 0", "0 1 1 1 0" }, { 2, { 0, 1 }, { 0, 0, 3, 0 } } },
		{ { "off 4", "0 0 0 0 0" }, { 2, { 0, 1 }, { 0, 0, 2, 0 } } },
		{ { "off 5", "0 0 0 0 0" }, { 1, { 1, 0 }, { 1, 0, 0, 0 } } }, /* the slot is the global queue's, and waits anew */
		{ { "awaited", "0 1 0 3 1" }, { 1, { 1, 0 }, { 1, 0, 0, 0 } } },
	};

	PLAY(rows);
}

static uint32_t ask(enum call_name name, uint32_t lane, uint32_t argument)
{
	return lent_make(&lent, &(struct call){ name, { lane, argument } });
}

static void let_pass(uint32_t lane)
{
	CHECK(ask(CALL_CLOCK, lane, 0) == PT_OK && ask(CALL_PASS, lane, PT_IDLE) == PT_OK);
	CHECK(ask(CALL_CLOCK, lane, 0) == PT_OK);
}

/* How many lanes are pending, and the lowest. */
static void check_awaited(uint32_t pending, uint32_t lowest)
{
	CHECK(ask(CALL_AWAITED, 0, 0) == PT_OK && lent.answer[1] == pending && lent.answer[2] == lowest);
}

/* So many yards of three cabinets of two lanes: all pending, then one after another passes, from the first lane on. */
static void test_yards(uint32_t yards)
{
	struct sizes sizes = { yards, 3, 2, 2 };
	struct call setup = call_setup(sizes);
	uint32_t lanes = yards * 6;

	lent_start(&lent);
	CHECK(lent_make(&lent, &setup) == PT_OK && lent.answer[1] == 95 + yards + 3 * yards + 30 * lanes + 12);
	CHECK(ask(CALL_ADD, lanes - 1, 17) == PT_OK && ask(CALL_DELETE, lanes - 1, 17) == PT_OK);
	CHECK(ask(CALL_CLOCK, lanes - 1, 0) == PT_OK && lent.answer[3] == 1);
	CHECK(lent_global(lent.memory)[GLOBAL_PENDING] == (1u << yards) - 1);
	for (uint32_t lane = 0; lane < lanes; lane++) {
		check_awaited(lanes - lane, lane);
		CHECK(lent_global(lent.memory)[GLOBAL_PENDING] == (1u << yards) - (1u << lane / 6));
		let_pass(lane);
	}
	check_awaited(0, PT_NONE);
	CHECK(ask(CALL_HAND_BACK, lanes - 1, 0) == PT_OK); /* its own clock was the last */
}

/* Every call of a number that is no lane: the product of the three, more, and what cabinets × lanes would allow. */
static void test_no_lane(void)
{
	static const uint32_t numbers[] = { 24, 25, 26, 63, 64, 511, 512, PT_NONE };

	lent_start(&lent);
	lent_expect(&lent, "setup 3 4 2 2", "0 842 0 0 0");
	lent_expect(&lent, "begin 8", "0 0 0 0 0"); /* past the lanes of one yard */
	lent_expect(&lent, "begin 23", "0 0 0 0 0");
	for (size_t n = 0; n < sizeof numbers / sizeof numbers[0]; n++)
		for (int name = 0; name < CALLS; name++)
			if (call_forms[name].kind[0] == KIND_LANE)
				CHECK(ask((enum call_name)name, numbers[n], 0) == PT_NO_LANE);
}

/* All 512 lanes: sections, lookups and passes of the last one, and of those about 64. */
static void test_all_lanes(void)
{
	static const struct lent_step steps[] = {
		{ "setup 8 8 8 4", "0 15551 0 0 0" }, { "add 511 17 1 1", "0 0 0 0 0" },
		{ "begin 64", "0 0 0 0 0" }, { "start 64 17", "0 0 0 0 0" }, { "step 64", "0 1 0 1 1" },
		{ "del 63 17", "0 0 0 0 0" }, { "clock 63", "0 1 1 1 0" }, { "awaited", "0 512 0 3 1" },
		{ "begin 511", "0 0 0 0 0" }, { "begin 512", "4 0 0 0 0" }, { "clock 512", "4 0 0 0 0" },
		{ "off 0", "0 0 0 0 0" }, { "awaited", "0 511 1 3 1" },
	};

	lent_start(&lent);
	LENT_PLAY(&lent, steps);
	for (uint32_t lane = 1; lane < 511; lane++)
		if (lane != 64)
			let_pass(lane);
	check_awaited(2, 64);
	CHECK(lent_global(lent.memory)[GLOBAL_PENDING] == 0x82);
	CHECK(*lent_yard(lent.memory, 1) == 1 && *lent_yard(lent.memory, 7) == 0x80);
	CHECK(*lent_cabinet(lent.memory, 8) == 1 && *lent_cabinet(lent.memory, 63) == 0x80);
	lent_expect(&lent, "end 511", "0 0 0 0 0");
	let_pass(511);
	check_awaited(1, 64);
	lent_expect(&lent, "back 63", "16 0 0 0 0"); /* lane 64's section is open */
	lent_expect(&lent, "end 64", "0 0 0 0 0");
	let_pass(64);
	check_awaited(0, PT_NONE);
	lent_expect(&lent, "clock 63", "0 2 1 0 1");
	lent_expect(&lent, "back 63", "0 0 0 0 0");
}

int main(void)
{
	test_last_yard();
	test_only_lane();
	test_yard_offline();
	for (uint32_t yards = 1; yards <= PT_MAX_YARDS; yards++)
		test_yards(yards);
	test_no_lane();
	test_all_lanes();
	puts("yards: masks of three levels, as written out");
	return 0;
}
