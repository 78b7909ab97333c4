/*
 * selftest.c - executed cases of the fourteen calls: the words of a set-up, every
 * cause and the order of the causes, limits, wraps, chains, dropped lookups, grace
 * periods, lanes on and off, lengths of queues, short answers, and the words past the
 * total.
 */
#include <stdio.h>
#include <stdlib.h>
#include <string.h>

#include "draw.h"
#include "lent.h"
#include "reference.h"

static struct lent lent;

#define EMPTY PT_NONE, PT_NONE, 0 /* a queue: first, last, length */
#define COUNTS(last) 0, 0, 0, 0, 0, 0, last, 0 /* of the four kinds: low word, high word each */

/* Addresses here are the papers' numbers, and not those of layout.h. */
static void test_words_of_setup(void)
{
	static const uint32_t contents[15] = { 4, 1, 1, 2, 15, 80, 95, 1, 96, 30, 126, 12, 138, 1, 1 };
	static const uint32_t queues[13] = { 0, 1, 2, EMPTY, EMPTY, EMPTY, 0 }; /* and the generation */
	static const uint32_t lane[30] = {
		1, COUNTS(0), COUNTS(0), 0, EMPTY, EMPTY, EMPTY, 0, 0, PT_NONE
	};
	static const uint32_t slots[12] = {
		0, 0, 0, 0, PT_NONE, 1, 0, 0, 0, 0, PT_NONE, PT_NONE
	};
	uint32_t expected[139];

	for (int n = 0; n < 139; n++)
		expected[n] = PT_NONE;
	memcpy(expected, contents, sizeof contents);
	expected[15] = 1; /* current generation */
	expected[16] = 0; /* largest requested */
	expected[17] = 0; /* yard mask */
	memcpy(expected + 82, queues, sizeof queues); /* free, next, current, done */
	expected[95] = 0; /* lane mask */
	memcpy(expected + 96, lane, sizeof lane);
	memcpy(expected + 126, slots, sizeof slots);
	expected[138] = 0; /* cabinet mask */

	lent_start(&lent);
	lent_expect(&lent, "setup 1 1 1 2", "0 139 0 0 0");
	CHECK(lent.memory[0] == PT_VERSION);
	CHECK(memcmp(lent.memory, expected, sizeof expected) == 0);
}

static void test_words_of_calls(void)
{
	static const struct lent_step steps[] = {
		{ "setup 1 1 2 3", "0 175 0 0 0" },
		{ "add 0 64424509457 25 1", "0 0 0 0 0" }, /* 15 * 2^32 + 17 */
		{ "add 0 17 26 2", "0 1 0 0 0" },
		{ "begin 1", "0 0 0 0 0" },
		{ "start 1 64424509457", "0 0 0 0 0" },
		{ "del 0 17", "0 1 0 0 0" },
		{ "pass 0 3", "0 0 0 0 0" },
		{ "clock 0", "0 1 1 1 0" },
	};
	static const uint32_t lane0[30] = {
		9, COUNTS(1), COUNTS(1), 1, EMPTY, 1, 1, 1, EMPTY, 0, 0, PT_NONE
	};
	static const uint32_t lane1[30] = {
		7, COUNTS(0), COUNTS(0), 0, EMPTY, EMPTY, EMPTY, 17, 15, 1
	};
	static const uint32_t slots[18] = {
		17, 15, 25, 1, PT_NONE, PT_NONE, 17, 0, 26, 2, 0, PT_NONE,
		0, 0, 0, 0, PT_NONE, PT_NONE
	};

	lent_start(&lent);
	LENT_PLAY(&lent, steps);
	CHECK(lent.memory[15] == 1 && lent.memory[16] == 1 && lent.memory[17] == 1);
	CHECK(lent.memory[18 + 17] == 0);
	CHECK(lent.memory[82] == 2 && lent.memory[83] == 2 && lent.memory[84] == 1);
	CHECK(lent.memory[95] == 3);
	CHECK(memcmp(lent.memory + 96, lane0, sizeof lane0) == 0);
	CHECK(memcmp(lent.memory + 126, lane1, sizeof lane1) == 0);
	CHECK(memcmp(lent.memory + 156, slots, sizeof slots) == 0);
	CHECK(lent.memory[174] == 1); /* the yard's cabinet mask, the last word */
}

static void test_totals(void)
{
	uint32_t *memory = lent.memory;
	uint32_t answer[PT_ANSWER_WORDS];

	lent_start(&lent);
	for (uint32_t y = 1; y <= 8; y++)
		for (uint32_t c = 1; c <= 8; c++)
			for (uint32_t m = 1; m <= 8; m++)
				for (uint32_t s = y == 1 ? 1 : 3; s <= 1024; s += y == 1 ? 93 : 1021) {
					size_t total = 95 + y + y * c + 30 * y * c * m + 6 * s;

					CHECK(PT_WORDS(y, c, m, s) == total);
					CHECK(tested.setup(memory, total, answer, 5, y, c, m, s) == 0);
					CHECK(answer[1] == total && ref_legal(memory, total));
					CHECK(tested.setup(memory, total - 1, answer, 5, y, c, m, s) == 2);
				}
}

/* The contents of tables with yards, by the papers' numbers. */
static void test_contents(void)
{
	static const uint32_t contents[][15] = {
		{ 4, 2, 3, 4, 15, 80, 95, 4, 99, 360, 459, 24, 483, 2, 2 },
		{ 4, 8, 8, 1024, 15, 80, 95, 8, 103, 1920, 2023, 6144, 8167, 1, 1 },
		{ 4, 8, 8, 1024, 15, 80, 95, 64, 159, 15360, 15519, 6144, 21663, 8, 8 },
	};

	lent_start(&lent);
	lent_expect(&lent, "setup 2 2 3 4", "0 485 0 0 0");
	CHECK(memcmp(lent.memory, contents[0], sizeof contents[0]) == 0);
	lent_expect(&lent, "setup 1 8 8 1024", "0 8168 0 0 0");
	CHECK(memcmp(lent.memory, contents[1], sizeof contents[1]) == 0);
	lent_expect(&lent, "setup 8 8 8 1024", "0 21671 0 0 0");
	CHECK(memcmp(lent.memory, contents[2], sizeof contents[2]) == 0);
}

static void test_setup_refusals(void)
{
	static const struct lent_step sizes[] = {
		{ "setup 0 1 1 1", "1 0 0 0 0" }, { "setup 9 1 1 1", "1 0 0 0 0" },
		{ "setup 9 8 8 1024", "1 0 0 0 0" }, { "setup 4294967295 1 1 1", "1 0 0 0 0" },
		{ "setup 1 0 1 1", "1 0 0 0 0" }, { "setup 1 9 1 1", "1 0 0 0 0" },
		{ "setup 1 1 0 1", "1 0 0 0 0" }, { "setup 1 1 9 1", "1 0 0 0 0" },
		{ "setup 1 1 1 0", "1 0 0 0 0" }, { "setup 1 1 1 1025", "1 0 0 0 0" },
		{ "setup 1 8 8 0", "1 0 0 0 0" }, { "setup 1 8 8 1025", "1 0 0 0 0" },
		{ "setup 1 4294967295 1 1", "1 0 0 0 0" }, { "setup 1 1 4294967295 1", "1 0 0 0 0" },
		{ "setup 1 1 1 4294967295", "1 0 0 0 0" },
		{ "setup 1 65536 65536 1", "1 0 0 0 0" },
	};

	lent_start(&lent);
	LENT_PLAY(&lent, sizes);
	lent.words = 0; /* the size is tested first */
	LENT_PLAY(&lent, sizes);
	lent_expect(&lent, "setup 1 1 1 1", "2 0 0 0 0");
	lent.words = 21670;
	lent_expect(&lent, "setup 8 8 8 1024", "2 0 0 0 0");
	lent.words = 21671;
	lent_expect(&lent, "setup 8 8 8 1024", "0 21671 0 0 0");
	lent_expect(&lent, "awaited", "0 0 4294967295 1024 0");
	lent.words = 8167;
	lent_expect(&lent, "setup 1 8 8 1024", "2 0 0 0 0");
	lent.words = 8168;
	lent_expect(&lent, "setup 1 8 8 1024", "0 8168 0 0 0");
	lent_expect(&lent, "awaited", "0 0 4294967295 1024 0");
	/* A refused set-up leaves the table; an accepted one begins another. */
	lent_expect(&lent, "setup 1 8 8 1025", "1 0 0 0 0");
	lent_expect(&lent, "begin 63", "0 0 0 0 0");
	lent_expect(&lent, "setup 1 1 1 1", "0 133 0 0 0");
	lent_expect(&lent, "begin 0", "0 0 0 0 0");
}

/* Every call but set-up refuses a memory that is not legal, before any other cause. */
static void test_not_legal(void)
{
	static const struct lent_step steps[] = {
		{ "add 0 55 1 1", "3 0 0 0 0" }, { "rep 0 55 1 1", "3 0 0 0 0" },
		{ "del 0 55", "3 0 0 0 0" }, { "begin 0", "3 0 0 0 0" },
		{ "end 0", "3 0 0 0 0" }, { "start 0 55", "3 0 0 0 0" },
		{ "step 0", "3 0 0 0 0" }, { "pass 0 0", "3 0 0 0 0" },
		{ "clock 0", "3 0 0 0 0" }, { "on 0", "3 0 0 0 0" },
		{ "off 0", "3 0 0 0 0" }, { "back 0", "3 0 0 0 0" },
		{ "awaited", "3 0 0 0 0" }, { "add 99 18446744073709551615 1 1", "3 0 0 0 0" },
	};

	lent_start(&lent);
	LENT_PLAY(&lent, steps);
	lent.words = 0;
	LENT_PLAY(&lent, steps);
	lent.words = LENT_WORDS;
	memset(lent.memory, 0, sizeof lent.memory);
	LENT_PLAY(&lent, steps);
	/* A table that was legal, lent one word short. */
	lent_expect(&lent, "setup 1 1 2 3", "0 175 0 0 0");
	lent.words = 174;
	LENT_PLAY(&lent, steps);
	lent.words = 175;
	lent_expect(&lent, "begin 0", "0 0 0 0 0");
}

/* Causes 4, 5, 6 and 15. */
static void test_lanes(void)
{
	static const struct lent_step steps[] = {
		{ "setup 1 1 2 2", "0 169 0 0 0" },
		{ "add 2 55 1 1", "4 0 0 0 0" }, { "rep 2 55 1 1", "4 0 0 0 0" },
		{ "del 2 55", "4 0 0 0 0" }, { "begin 2", "4 0 0 0 0" },
		{ "end 2", "4 0 0 0 0" }, { "start 2 55", "4 0 0 0 0" },
		{ "step 2", "4 0 0 0 0" }, { "pass 2 0", "4 0 0 0 0" },
		{ "clock 2", "4 0 0 0 0" }, { "on 2", "4 0 0 0 0" },
		{ "off 2", "4 0 0 0 0" }, { "back 2", "4 0 0 0 0" },
		{ "clock 64", "4 0 0 0 0" }, { "clock 4294967295", "4 0 0 0 0" },
		{ "add 2 18446744073709551615 100001 8", "4 0 0 0 0" },
		{ "on 1", "6 0 0 0 0" }, { "off 1", "0 0 0 0 0" },
		{ "add 1 55 1 1", "5 0 0 0 0" }, { "rep 1 55 1 1", "5 0 0 0 0" },
		{ "del 1 55", "5 0 0 0 0" }, { "begin 1", "5 0 0 0 0" },
		{ "end 1", "5 0 0 0 0" }, { "start 1 55", "5 0 0 0 0" },
		{ "step 1", "5 0 0 0 0" }, { "pass 1 0", "5 0 0 0 0" },
		{ "clock 1", "5 0 0 0 0" }, { "off 1", "5 0 0 0 0" },
		{ "back 1", "5 0 0 0 0" }, { "add 1 18446744073709551615 1 1", "5 0 0 0 0" },
		{ "pass 1 4", "5 0 0 0 0" },
		{ "off 0", "15 0 0 0 0" }, { "on 0", "6 0 0 0 0" },
		{ "awaited", "0 0 4294967295 2 0" },
		{ "on 1", "0 0 0 0 0" }, { "on 1", "6 0 0 0 0" },
		{ "off 0", "0 0 0 0 0" }, { "off 1", "15 0 0 0 0" },
		/* One lane alone is the last one. */
		{ "setup 1 1 1 1", "0 133 0 0 0" }, { "off 0", "15 0 0 0 0" },
	};

	lent_start(&lent);
	LENT_PLAY(&lent, steps);
}

/* Causes 7 to 10. */
static void test_sections(void)
{
	static const struct lent_step steps[] = {
		{ "setup 1 1 2 2", "0 169 0 0 0" },
		{ "end 0", "8 0 0 0 0" }, { "start 0 55", "8 0 0 0 0" },
		{ "start 0 18446744073709551615", "8 0 0 0 0" },
		{ "step 0", "10 0 0 0 0" },
		{ "begin 0", "0 0 0 0 0" }, { "begin 0", "7 0 0 0 0" },
		{ "pass 0 0", "7 0 0 0 0" }, { "pass 0 4", "7 0 0 0 0" },
		{ "off 0", "7 0 0 0 0" },
		{ "step 0", "10 0 0 0 0" },
		{ "start 0 18446744073709551615", "11 0 0 0 0" },
		{ "start 0 55", "0 0 0 0 0" }, { "start 0 55", "9 0 0 0 0" },
		{ "start 0 18446744073709551615", "9 0 0 0 0" },
		{ "begin 0", "7 0 0 0 0" }, { "clock 0", "0 1 0 0 0" },
		{ "step 1", "10 0 0 0 0" }, { "end 1", "8 0 0 0 0" },
		{ "step 0", "0 2 0 0 0" }, { "step 0", "10 0 0 0 0" },
		{ "start 0 55", "0 0 0 0 0" }, { "step 0", "0 2 0 0 0" },
		{ "end 0", "0 0 0 0 0" }, { "end 0", "8 0 0 0 0" },
		/* A section ends while its lookup runs. */
		{ "begin 0", "0 0 0 0 0" }, { "start 0 55", "0 0 0 0 0" },
		{ "end 0", "0 0 0 0 0" }, { "step 0", "10 0 0 0 0" }, { "end 0", "8 0 0 0 0" },
		/* The section is tested before the last lane online. */
		{ "off 1", "0 0 0 0 0" }, { "begin 0", "0 0 0 0 0" },
		{ "off 0", "7 0 0 0 0" }, { "end 0", "0 0 0 0 0" },
		{ "off 0", "15 0 0 0 0" },
	};

	lent_start(&lent);
	LENT_PLAY(&lent, steps);
}

/* Causes 11 to 14 and 16. */
static void test_records(void)
{
	static const struct lent_step steps[] = {
		{ "setup 1 1 2 2", "0 169 0 0 0" },
		{ "add 0 18446744073709551615 1 1", "11 0 0 0 0" },
		{ "add 0 18446744073709551615 1 1", "11 0 0 0 0" },
		{ "add 0 55 100001 1", "11 0 0 0 0" }, { "add 0 55 1 8", "11 0 0 0 0" },
		{ "add 0 55 4294967295 4294967295", "11 0 0 0 0" },
		{ "add 0 9999999999994 100000 7", "0 0 0 0 0" },
		{ "add 0 9999999999994 100001 7", "11 0 0 0 0" },
		{ "add 0 9999999999994 1 1", "12 0 0 0 0" },
		{ "rep 0 18446744073709551615 1 1", "11 0 0 0 0" },
		{ "rep 0 9999999999994 100001 1", "11 0 0 0 0" },
		{ "rep 0 9999999999994 1 8", "11 0 0 0 0" },
		{ "del 0 18446744073709551615", "11 0 0 0 0" },
		{ "rep 0 55 1 1", "13 0 0 0 0" }, { "del 0 55", "13 0 0 0 0" },
		{ "add 1 55 1 1", "0 1 0 0 0" },
		{ "add 0 62 1 1", "14 0 0 0 0" }, { "add 0 55 1 1", "12 0 0 0 0" },
		{ "rep 0 62 1 1", "13 0 0 0 0" }, { "rep 0 55 1 1", "14 0 0 0 0" },
		{ "back 0", "16 0 0 0 0" },
		{ "pass 0 3", "0 0 0 0 0" }, { "pass 0 4", "11 0 0 0 0" },
		{ "pass 0 4294967295", "11 0 0 0 0" },
		{ "del 1 9999999999994", "0 0 0 0 0" }, { "del 1 9999999999994", "13 0 0 0 0" },
		{ "back 1", "16 0 0 0 0" }, { "add 0 62 1 1", "14 0 0 0 0" },
		{ "del 0 55", "0 1 0 0 0" }, { "rep 0 55 1 1", "13 0 0 0 0" },
		{ "awaited", "0 0 4294967295 0 2" },
	};

	lent_start(&lent);
	LENT_PLAY(&lent, steps);
}

/* The largest code, whose check digit is wrong, one more, and the largest that is right. */
static void test_code_limit(void)
{
	static const struct lent_step steps[] = {
		{ "setup 1 1 1 3", "0 145 0 0 0" },
		{ "add 0 9999999999999 1 1", "17 0 0 0 0" },
		{ "add 0 9999999999994 1 1", "0 0 0 0 0" },
		{ "add 0 10000000000000 1 1", "17 0 0 0 0" },
		{ "add 0 100000000000000 1 1", "11 0 0 0 0" },
		{ "add 0 99999999999999 1 1", "17 0 0 0 0" },
		{ "add 0 99999999999997 1 1", "0 1 0 0 0" },
		{ "rep 0 100000000000000 1 1", "11 0 0 0 0" },
		{ "rep 0 99999999999999 2 2", "17 0 0 0 0" },
		{ "rep 0 99999999999997 2 2", "0 2 1 0 0" },
		{ "begin 0", "0 0 0 0 0" },
		{ "start 0 100000000000000", "11 0 0 0 0" },
		{ "start 0 99999999999999", "0 0 0 0 0" }, { "step 0", "0 2 0 0 0" },
		{ "start 0 99999999999997", "0 0 0 0 0" }, { "step 0", "0 1 2 2 2" },
		{ "del 0 100000000000000", "11 0 0 0 0" },
		{ "del 0 99999999999999", "13 0 0 0 0" },
		{ "del 0 99999999999997", "0 2 0 0 0" },
	};

	lent_start(&lent);
	LENT_PLAY(&lent, steps);
}

/* Check digits of labels, and where their test stands among the others. */
static void test_check_digits(void)
{
	static const struct lent_step steps[] = {
		{ "setup 1 1 2 2", "0 169 0 0 0" },
		{ "add 0 5901234123457 1 1", "0 0 0 0 0" }, { "add 0 4006381333931 1 1", "0 1 0 0 0" },
		/* One digit mistyped; neighbours exchanged, which differ by 5 in the last one. */
		{ "rep 0 5901234123458 1 1", "17 0 0 0 0" }, { "rep 0 5907234123457 1 1", "17 0 0 0 0" },
		{ "rep 0 9501234123457 1 1", "17 0 0 0 0" }, { "rep 0 4006831333931 1 1", "13 0 0 0 0" },
		/* After the lane and the range, before what the table holds. */
		{ "add 2 18 1 1", "4 0 0 0 0" }, { "add 0 18 1 8", "11 0 0 0 0" },
		{ "add 0 18 100001 1", "11 0 0 0 0" }, { "rep 0 18 1 8", "11 0 0 0 0" },
		{ "add 0 18 1 1", "17 0 0 0 0" }, { "rep 0 18 1 1", "17 0 0 0 0" },
		{ "add 0 17 1 1", "14 0 0 0 0" }, { "rep 0 17 1 1", "13 0 0 0 0" },
		{ "del 0 18", "13 0 0 0 0" },
		{ "off 1", "0 0 0 0 0" }, { "add 1 18 1 1", "5 0 0 0 0" },
	};

	lent_start(&lent);
	LENT_PLAY(&lent, steps);
}

/* An older record of code 18: it is legal, found and deleted; the office does not enter it again. */
static void test_older_record(void)
{
	static const struct lent_step records[] = {
		{ "setup 1 1 1 2", "0 139 0 0 0" }, { "add 0 338 1 1", "0 0 0 0 0" },
		{ "add 0 17 2 2", "0 1 0 0 0" },
	};
	static const struct lent_step steps[] = {
		{ "begin 0", "0 0 0 0 0" }, { "start 0 18", "0 0 0 0 0" }, { "step 0", "0 1 0 1 1" },
		/* The table is full, the code is present, and its check digit is wrong. */
		{ "add 0 18 1 1", "17 0 0 0 0" }, { "rep 0 18 2 2", "17 0 0 0 0" },
		{ "del 0 18", "0 0 0 0 0" }, { "del 0 18", "13 0 0 0 0" },
		{ "start 0 18", "0 0 0 0 0" }, { "step 0", "0 2 0 0 0" },
		{ "end 0", "0 0 0 0 0" }, { "clock 0", "0 1 1 1 0" }, { "pass 0 0", "0 0 0 0 0" },
		{ "clock 0", "0 2 1 0 1" }, { "back 0", "0 0 0 0 0" },
		{ "add 0 18 1 1", "17 0 0 0 0" }, { "add 0 31 1 1", "0 0 0 0 0" },
	};

	lent_start(&lent);
	LENT_PLAY(&lent, records);
	lent_slot(lent.memory, 0)[SLOT_CODE + CODE_LOW] = 18;
	CHECK(ref_legal(lent.memory, lent.words));
	LENT_PLAY(&lent, steps);
}

/* Chains: heads, a slot in the middle, a slot under a reader. */
static void test_chains(void)
{
	static const struct lent_step six_calls[] = {
		{ "setup 1 1 1 4", "0 151 0 0 0" },
		{ "add 0 192 10 1", "0 0 0 0 0" }, { "add 0 0 20 2", "0 1 0 0 0" },
		{ "begin 0", "0 0 0 0 0" }, { "start 0 192", "0 0 0 0 0" },
		{ "del 0 0", "0 1 0 0 0" },
		{ "step 0", "0 0 0 0 0" }, { "step 0", "0 1 0 10 1" },
	};
	static const struct lent_step replaced[] = {
		{ "setup 1 1 2 8", "0 205 0 0 0" },
		{ "add 0 0 10 0", "0 0 0 0 0" }, { "add 0 192 11 1", "0 1 0 0 0" },
		{ "add 0 512 12 2", "0 2 0 0 0" },
		/* A reader past the head finds the new slot in the old one's place. */
		{ "begin 0", "0 0 0 0 0" }, { "start 0 192", "0 0 0 0 0" },
		{ "step 0", "0 0 0 0 0" }, { "rep 1 192 13 3", "0 3 1 0 0" },
		{ "step 0", "0 1 1 11 1" }, { "start 0 192", "0 0 0 0 0" },
		{ "step 0", "0 0 0 0 0" }, { "step 0", "0 1 3 13 3" },
		/* A reader on a slot that is replaced, then deleted, goes on behind it. */
		{ "start 0 0", "0 0 0 0 0" }, { "step 0", "0 0 0 0 0" },
		{ "rep 1 192 14 4", "0 4 3 0 0" }, { "del 1 192", "0 4 0 0 0" },
		{ "step 0", "0 0 0 0 0" }, { "step 0", "0 1 0 10 0" },
		{ "start 0 192", "0 0 0 0 0" }, { "step 0", "0 0 0 0 0" },
		{ "step 0", "0 0 0 0 0" }, { "step 0", "0 2 0 0 0" },
		/* The end of the chain goes, then its head. */
		{ "del 1 0", "0 0 0 0 0" }, { "del 1 512", "0 2 0 0 0" },
		{ "start 0 512", "0 0 0 0 0" }, { "step 0", "0 2 0 0 0" },
		{ "awaited", "0 0 4294967295 3 5" },
	};


	lent_start(&lent);
	LENT_PLAY(&lent, six_calls);
	LENT_PLAY(&lent, replaced);
}

/* ---- a section ends while its lookup runs (document 02, request 3) */

static struct lent plain; /* the same calls without a lookup */

/* Chain 0 is the slots 2, 1, 0 with the codes 512, 192, 0. */
static const struct lent_step chain_of_three[] = {
	{ "setup 1 1 2 6", "0 193 0 0 0" }, { "add 0 0 10 0", "0 0 0 0 0" },
	{ "add 0 192 11 1", "0 1 0 0 0" }, { "add 0 512 12 2", "0 2 0 0 0" },
};

enum { DROP_STEPS = 6 };

/* A lookup of lane 1, where it stands when its section ends, and the lane's next one. */
struct drop {
	uint32_t position;
	struct lent_step lookup[DROP_STEPS], next[DROP_STEPS];
};

#define GOING { "step 1", "0 0 0 0 0" }

static const struct drop drops[] = {
	/* At the head. */
	{ 2, { { "start 1 0", "0 0 0 0 0" } },
		{ { "start 1 192", "0 0 0 0 0" }, GOING, { "step 1", "0 1 1 11 1" } } },
	/* On the slot of its code, a step before the answer. */
	{ 2, { { "start 1 512", "0 0 0 0 0" } },
		{ { "start 1 0", "0 0 0 0 0" }, GOING, GOING, { "step 1", "0 1 0 10 0" } } },
	/* In the middle, and on the last slot. */
	{ 1, { { "start 1 0", "0 0 0 0 0" }, GOING },
		{ { "start 1 512", "0 0 0 0 0" }, { "step 1", "0 1 2 12 2" } } },
	{ 0, { { "start 1 1472", "0 0 0 0 0" }, GOING, GOING },
		{ { "start 1 192", "0 0 0 0 0" }, GOING, { "step 1", "0 1 1 11 1" } } },
	/* At none: the chain is walked to its end, or has no slot. */
	{ PT_NONE, { { "start 1 1472", "0 0 0 0 0" }, GOING, GOING, GOING },
		{ { "start 1 512", "0 0 0 0 0" }, { "step 1", "0 1 2 12 2" } } },
	{ PT_NONE, { { "start 1 17", "0 0 0 0 0" } },
		{ { "start 1 512", "0 0 0 0 0" }, { "step 1", "0 1 2 12 2" } } },
	/* On a slot that was deleted: the head, and in the middle. */
	{ 2, { { "start 1 0", "0 0 0 0 0" }, { "del 0 512", "0 2 0 0 0" } },
		{ { "start 1 192", "0 0 0 0 0" }, { "step 1", "0 1 1 11 1" } } },
	{ 1, { { "start 1 0", "0 0 0 0 0" }, GOING, { "del 0 192", "0 1 0 0 0" } },
		{ { "start 1 192", "0 0 0 0 0" }, GOING, GOING, { "step 1", "0 2 0 0 0" } } },
	/* On a slot that was replaced: by another lane, by its own, twice. */
	{ 1, { { "start 1 0", "0 0 0 0 0" }, GOING, { "rep 0 192 13 3", "0 3 1 0 0" } },
		{ { "start 1 192", "0 0 0 0 0" }, GOING, { "step 1", "0 1 3 13 3" } } },
	{ 2, { { "start 1 192", "0 0 0 0 0" }, { "rep 1 512 13 3", "0 3 2 0 0" },
			{ "rep 1 512 14 4", "0 4 3 0 0" } },
		{ { "start 1 512", "0 0 0 0 0" }, { "step 1", "0 1 4 14 4" } } },
	/* A second lookup of the section, after one that was answered. */
	{ 1, { { "start 1 512", "0 0 0 0 0" }, { "step 1", "0 1 2 12 2" },
			{ "start 1 0", "0 0 0 0 0" }, GOING },
		{ { "start 1 192", "0 0 0 0 0" }, GOING, { "step 1", "0 1 1 11 1" } } },
};

static void play_drop(struct lent *on, const struct lent_step steps[DROP_STEPS])
{
	for (int n = 0; n < DROP_STEPS && steps[n].call != NULL; n++)
		lent_expect(on, steps[n].call, steps[n].answer);
}

/* The calls that are none of the lookup's. */
static void play_others(struct lent *on, const struct lent_step steps[DROP_STEPS])
{
	for (int n = 0; n < DROP_STEPS && steps[n].call != NULL; n++) {
		enum call_name name = lent_call(steps[n].call).name;

		if (name != CALL_START && name != CALL_STEP)
			lent_expect(on, steps[n].call, steps[n].answer);
	}
}

/* An online lane outside every section: its flags, and its lookup's three words at rest. */
static void check_lane_at_rest(uint32_t lane)
{
	const uint32_t *words = lent_lane(lent.memory, lane);

	CHECK(words[LANE_FLAGS] == FLAG_ONLINE);
	CHECK(words[LANE_CODE + CODE_LOW] == 0 && words[LANE_CODE + CODE_HIGH] == 0);
	CHECK(words[LANE_POSITION] == PT_NONE);
}

/* After the end every word is as if there had been no lookup, and the lane begins anew. */
static void test_drop(const struct drop *drop)
{
	static const struct lent_step begun_again[] = {
		{ "step 1", "10 0 0 0 0" }, { "end 1", "8 0 0 0 0" },
		{ "start 1 24", "8 0 0 0 0" }, { "begin 1", "0 0 0 0 0" },
		{ "step 1", "10 0 0 0 0" },
	};

	lent_start(&lent);
	lent_start(&plain);
	LENT_PLAY(&lent, chain_of_three);
	LENT_PLAY(&plain, chain_of_three);
	lent_expect(&lent, "begin 1", "0 0 0 0 0");
	lent_expect(&plain, "begin 1", "0 0 0 0 0");
	play_drop(&lent, drop->lookup);
	play_others(&plain, drop->lookup);
	CHECK(lent_lane(lent.memory, 1)[LANE_POSITION] == drop->position);
	lent_expect(&lent, "start 1 24", "9 0 0 0 0");
	lent_expect(&lent, "end 1", "0 0 0 0 0");
	lent_expect(&plain, "end 1", "0 0 0 0 0");
	check_lane_at_rest(1);
	CHECK(memcmp(lent.memory, plain.memory, sizeof lent.memory) == 0);
	LENT_PLAY(&lent, begun_again);
	play_drop(&lent, drop->next);
}

/*
 * A slot is removed in lane 1's section, while its lookup stands before it, on it, behind
 * it or at none, or while there is no lookup. The lane ends its section, and the slot comes
 * back after the same calls.
 */
static void test_drop_holds_nothing(void)
{
	static const struct lent_step lookups[][DROP_STEPS] = {
		{ { NULL, NULL } },
		{ { "start 1 0", "0 0 0 0 0" } },
		{ { "start 1 0", "0 0 0 0 0" }, GOING },
		{ { "start 1 0", "0 0 0 0 0" }, GOING, GOING },
		{ { "start 1 1472", "0 0 0 0 0" }, GOING, GOING, GOING },
		{ { "start 1 17", "0 0 0 0 0" } },
	};
	static const struct lent_step reclaimed[] = {
		{ "del 0 192", "0 1 0 0 0" }, { "clock 0", "0 1 1 1 0" }, { "clock 1", "0 1 1 1 0" },
		{ "pass 0 0", "0 0 0 0 0" }, { "clock 0", "0 1 1 1 0" }, { "pass 1 0", "7 0 0 0 0" },
		{ "awaited", "0 1 1 3 1" }, { "end 1", "0 0 0 0 0" }, { "awaited", "0 1 1 3 1" },
		{ "clock 1", "0 1 1 1 0" }, { "back 0", "16 0 0 0 0" }, { "pass 1 0", "0 0 0 0 0" },
		{ "clock 1", "0 2 1 0 0" }, { "back 0", "16 0 0 0 0" }, { "clock 0", "0 2 1 0 1" },
		{ "back 0", "0 1 0 0 0" }, { "awaited", "0 0 4294967295 4 0" },
	};

	for (size_t n = 0; n < sizeof lookups / sizeof lookups[0]; n++) {
		lent_start(&lent);
		LENT_PLAY(&lent, chain_of_three);
		lent_expect(&lent, "begin 1", "0 0 0 0 0");
		play_drop(&lent, lookups[n]);
		LENT_PLAY(&lent, reclaimed);
		check_lane_at_rest(1);
	}
}

/* Off after a dropped lookup; the slot on which it stood was the lane's own, and comes back. */
static void test_drop_and_off(void)
{
	static const struct lent_step steps[] = {
		{ "begin 1", "0 0 0 0 0" }, { "start 1 0", "0 0 0 0 0" }, GOING,
		{ "off 1", "7 0 0 0 0" }, { "end 1", "0 0 0 0 0" }, { "off 1", "0 0 0 0 0" },
		{ "step 1", "5 0 0 0 0" }, { "on 1", "0 0 0 0 0" }, { "begin 1", "0 0 0 0 0" },
		{ "step 1", "10 0 0 0 0" }, { "start 1 512", "0 0 0 0 0" },
		{ "step 1", "0 1 2 12 2" },
		/* The same beside a running grace period. */
		{ "start 1 0", "0 0 0 0 0" }, GOING, { "del 1 192", "0 1 0 0 0" },
		{ "clock 1", "0 1 1 1 0" }, { "clock 0", "0 1 1 1 0" }, { "pass 0 0", "0 0 0 0 0" },
		{ "clock 0", "0 1 1 1 0" }, { "awaited", "0 1 1 3 1" }, { "end 1", "0 0 0 0 0" },
		{ "off 1", "0 0 0 0 0" }, { "back 0", "16 0 0 0 0" }, { "clock 0", "0 2 2 1 0" },
		{ "pass 0 0", "0 0 0 0 0" }, { "clock 0", "0 3 2 0 1" }, { "back 0", "0 1 0 0 0" },
		{ "on 1", "0 0 0 0 0" }, { "step 1", "10 0 0 0 0" },
	};

	lent_start(&lent);
	LENT_PLAY(&lent, chain_of_three);
	LENT_PLAY(&lent, steps);
	check_lane_at_rest(1);
}

/* The lookup of another lane goes on; both words of a code go to rest, in any cabinet. */
static void test_drop_of_one_lane(void)
{
	static const struct lent_step steps[] = {
		{ "setup 1 2 2 4", "0 242 0 0 0" }, { "add 0 64424509457 25 1", "0 0 0 0 0" },
		{ "add 0 17 26 2", "0 1 0 0 0" }, { "begin 2", "0 0 0 0 0" },
		{ "begin 3", "0 0 0 0 0" }, { "start 2 64424509457", "0 0 0 0 0" },
		{ "start 3 64424509457", "0 0 0 0 0" }, { "step 2", "0 0 0 0 0" },
		{ "step 3", "0 0 0 0 0" }, { "end 3", "0 0 0 0 0" },
		{ "step 3", "10 0 0 0 0" }, { "step 2", "0 1 0 25 1" },
	};

	lent_start(&lent);
	LENT_PLAY(&lent, steps);
	check_lane_at_rest(3);
}

static void test_dropped_lookups(void)
{
	for (size_t n = 0; n < sizeof drops / sizeof drops[0]; n++)
		test_drop(&drops[n]);
	test_drop_holds_nothing();
	test_drop_and_off();
	test_drop_of_one_lane();
}

/* ---- */

/* Codes are compared in both their words. */
static void test_high_words(void)
{
	static const struct lent_step steps[] = {
		{ "setup 1 1 1 2", "0 139 0 0 0" }, { "add 0 64424509457 10 1", "0 0 0 0 0" },
		{ "del 0 17", "13 0 0 0 0" }, { "begin 0", "0 0 0 0 0" },
		{ "start 0 17", "0 0 0 0 0" }, { "step 0", "0 0 0 0 0" },
		{ "step 0", "0 2 0 0 0" }, { "add 0 17 11 2", "0 1 0 0 0" },
		{ "start 0 64424509457", "0 0 0 0 0" }, { "step 0", "0 0 0 0 0" },
		{ "step 0", "0 1 0 10 1" },
	};

	lent_start(&lent);
	LENT_PLAY(&lent, steps);
}

/* The free queue gives its first slot and takes slots at its end. */
static void test_free_queue(void)
{
	static const struct lent_step steps[] = {
		{ "setup 1 1 1 3", "0 145 0 0 0" },
		{ "add 0 17 1 1", "0 0 0 0 0" }, { "add 0 24 1 1", "0 1 0 0 0" },
		{ "del 0 24", "0 1 0 0 0" }, { "del 0 17", "0 0 0 0 0" },
		{ "clock 0", "0 1 1 1 0" }, { "pass 0 2", "0 0 0 0 0" },
		{ "clock 0", "0 2 1 0 2" },
		{ "back 0", "0 1 0 0 0" }, { "awaited", "0 0 4294967295 2 1" },
		{ "back 0", "0 0 0 0 0" }, { "back 0", "16 0 0 0 0" },
		{ "add 0 31 1 1", "0 2 0 0 0" }, { "add 0 48 1 1", "0 1 0 0 0" },
		{ "add 0 55 1 1", "0 0 0 0 0" }, { "add 0 62 1 1", "14 0 0 0 0" },
	};

	lent_start(&lent);
	LENT_PLAY(&lent, steps);
}

/*
 * The pass after @count carries the low word into the high one, or wraps both to 0, and the
 * count differs then from its snapshot.
 */
static void test_count_grows(uint32_t kind, uint64_t count)
{
	static const struct lent_step before[] = {
		{ "setup 1 1 2 2", "0 169 0 0 0" }, { "add 0 55 1 1", "0 0 0 0 0" },
		{ "del 0 55", "0 0 0 0 0" },
	};
	struct call pass = { CALL_PASS, { 0, kind, 0, 0 } };
	uint32_t *lane;

	lent_start(&lent);
	LENT_PLAY(&lent, before);
	lane = lent_lane(lent.memory, 0);
	lent_put_count(lane + LANE_COUNTS, kind, count);
	lent_expect(&lent, "clock 0", "0 1 1 1 0");
	CHECK(lent_count(lane + LANE_SNAPSHOT, kind) == count);
	lent_expect(&lent, "clock 0", "0 1 1 1 0");
	lent_expect(&lent, "awaited", "0 2 0 1 1");
	CHECK(lent_make(&lent, &pass) == 0 && lent_count(lane + LANE_COUNTS, kind) == count + 1);
	lent_expect(&lent, "clock 0", "0 1 1 1 0");
	lent_expect(&lent, "awaited", "0 1 1 1 1");
	CHECK(lent_count(lane + LANE_SNAPSHOT, kind) == 0 && !(lane[LANE_FLAGS] & FLAG_SNAPSHOT));
}

/* The low words are the papers': a count of kind k stands at 1 + 2k of its lane, its snapshot at 9 + 2k. */
static void test_count_words(uint32_t kind)
{
	struct call pass = { CALL_PASS, { 1, kind, 0, 0 } };
	uint32_t *lane;

	lent_start(&lent);
	lent_expect(&lent, "setup 1 1 2 2", "0 169 0 0 0");
	lane = lent.memory + 96 + 30;
	lane[1 + 2 * kind] = 4294967295u;
	lane[2 + 2 * kind] = 6;
	CHECK(lent_make(&lent, &pass) == 0 && lane[1 + 2 * kind] == 0 && lane[2 + 2 * kind] == 7);
	lane[1 + 2 * kind] = lane[2 + 2 * kind] = 4294967295u;
	CHECK(lent_make(&lent, &pass) == 0 && lane[1 + 2 * kind] == 0 && lane[2 + 2 * kind] == 0);
	CHECK(lent_make(&lent, &pass) == 0 && lane[1 + 2 * kind] == 1 && lane[2 + 2 * kind] == 0);
}

/* Counts that differ from the snapshot in the high word alone let the lane go, and so do those in the low one. */
static void test_count_halves(uint32_t kind)
{
	static const struct lent_step before[] = {
		{ "setup 1 1 2 2", "0 169 0 0 0" }, { "add 0 55 1 1", "0 0 0 0 0" },
		{ "del 0 55", "0 0 0 0 0" }, { "clock 0", "0 1 1 1 0" }, { "clock 0", "0 1 1 1 0" },
		{ "awaited", "0 2 0 1 1" },
	};

	for (uint32_t half = COUNT_LOW; half <= COUNT_HIGH; half++) {
		lent_start(&lent);
		LENT_PLAY(&lent, before);
		lent_lane(lent.memory, 0)[LANE_COUNTS + COUNT_WORDS * kind + half] = 1;
		lent_expect(&lent, "clock 0", "0 1 1 1 0");
		lent_expect(&lent, "awaited", "0 1 1 1 1");
	}
}

static void test_later(void)
{
	CHECK(ref_later(0, 4294967295u) && !ref_later(4294967295u, 0));
	CHECK(!ref_later(0, 0) && !ref_later(4294967295u, 4294967295u));
	CHECK(ref_later(2147483647u, 0) && !ref_later(2147483648u, 0));
	CHECK(!ref_later(0, 2147483648u) && ref_later(0, 2147483649u));
	CHECK(ref_later(8, 7) && !ref_later(7, 8));
}

/* Two grace periods, one before the wrap of the generations and one after it. */
static void test_generation_wraps(void)
{
	static const struct lent_step records[] = {
		{ "setup 1 1 2 4", "0 181 0 0 0" },
		{ "add 0 17 1 1", "0 0 0 0 0" }, { "add 0 24 1 1", "0 1 0 0 0" },
		{ "del 0 17", "0 0 0 0 0" },
	};
	static const struct lent_step requested[] = {
		{ "clock 0", "0 4294967295 4294967295 1 0" },
		{ "del 1 24", "0 1 0 0 0" }, { "clock 1", "0 4294967295 0 1 0" },
		{ "awaited", "0 2 0 2 2" },
	};
	static const struct lent_step ended[] = {
		{ "pass 0 0", "0 0 0 0 0" }, { "clock 0", "0 4294967295 0 1 0" },
		{ "awaited", "0 1 1 2 2" },
		{ "pass 1 0", "0 0 0 0 0" }, { "clock 1", "0 0 0 1 0" },
		{ "back 0", "16 0 0 0 0" }, { "clock 0", "0 0 0 1 1" },
		{ "back 0", "0 0 0 0 0" }, { "back 1", "16 0 0 0 0" },
		{ "pass 0 1", "0 0 0 0 0" }, { "clock 0", "0 0 0 1 0" },
		{ "pass 1 1", "0 0 0 0 0" }, { "clock 1", "0 1 0 0 1" },
		{ "back 1", "0 1 0 0 0" }, { "awaited", "0 0 4294967295 4 0" },
	};
	uint32_t *global, *lane;

	lent_start(&lent);
	LENT_PLAY(&lent, records);
	global = lent_global(lent.memory);
	global[GLOBAL_CURRENT_GENERATION] = 4294967295u;
	global[GLOBAL_LARGEST_GENERATION] = 4294967294u;
	LENT_PLAY(&lent, requested);
	/* Generation 0 is one like the others: the queue is not empty. */
	lane = lent_lane(lent.memory, 1);
	CHECK(lane[LANE_GENERATION] == 0 && lane[LANE_CURRENT + QUEUE_FIRST] == 1);
	LENT_PLAY(&lent, ended);
}

/* A grace period that ends at the wrap, with no other requested. */
static void test_generation_wraps_idle(void)
{
	static const struct lent_step records[] = {
		{ "setup 1 1 1 2", "0 139 0 0 0" },
		{ "add 0 17 1 1", "0 0 0 0 0" }, { "del 0 17", "0 0 0 0 0" },
	};
	static const struct lent_step steps[] = {
		{ "clock 0", "0 4294967295 4294967295 1 0" }, { "pass 0 0", "0 0 0 0 0" },
		{ "clock 0", "0 0 4294967295 0 1" }, { "back 0", "0 0 0 0 0" },
		{ "clock 0", "0 0 4294967295 0 0" }, { "awaited", "0 0 4294967295 2 0" },
	};
	uint32_t *global;

	lent_start(&lent);
	LENT_PLAY(&lent, records);
	global = lent_global(lent.memory);
	global[GLOBAL_CURRENT_GENERATION] = 4294967295u;
	global[GLOBAL_LARGEST_GENERATION] = 4294967294u;
	LENT_PLAY(&lent, steps);
}

/* A global queue of generation 0, the current one. */
static void test_global_generation_zero(void)
{
	static const struct lent_step records[] = {
		{ "setup 1 1 2 4", "0 181 0 0 0" },
		{ "add 0 17 1 1", "0 0 0 0 0" }, { "del 0 17", "0 0 0 0 0" },
	};
	static const struct lent_step steps[] = {
		{ "off 0", "0 0 0 0 0" }, { "clock 1", "0 0 0 1 0" },
		{ "back 1", "16 0 0 0 0" }, { "awaited", "0 1 1 3 1" },
		{ "pass 1 0", "0 0 0 0 0" }, { "clock 1", "0 1 0 0 1" },
		{ "back 1", "0 0 0 0 0" },
	};
	uint32_t *global;

	lent_start(&lent);
	LENT_PLAY(&lent, records);
	global = lent_global(lent.memory);
	global[GLOBAL_CURRENT_GENERATION] = 0;
	global[GLOBAL_LARGEST_GENERATION] = 4294967295u;
	LENT_PLAY(&lent, steps);
}

/* Pending lanes over two cabinets: their number and the lowest. */
static void test_pending(void)
{
	static const struct lent_step steps[] = {
		{ "setup 1 2 2 3", "0 236 0 0 0" },
		{ "add 0 17 1 1", "0 0 0 0 0" }, { "del 3 17", "0 0 0 0 0" },
		{ "awaited", "0 0 4294967295 2 1" }, { "clock 0", "0 1 0 0 0" },
		{ "clock 3", "0 1 1 1 0" }, { "awaited", "0 4 0 2 1" },
		/* A pass before the snapshot does not count, nor one without a clock. */
		{ "pass 0 0", "0 0 0 0 0" }, { "clock 0", "0 1 1 1 0" },
		{ "awaited", "0 4 0 2 1" }, { "clock 0", "0 1 1 1 0" },
		{ "awaited", "0 4 0 2 1" }, { "pass 0 0", "0 0 0 0 0" },
		{ "awaited", "0 4 0 2 1" }, { "clock 0", "0 1 1 1 0" },
		{ "awaited", "0 3 1 2 1" },
		{ "pass 3 1", "0 0 0 0 0" }, { "clock 3", "0 1 1 1 0" },
		{ "awaited", "0 2 1 2 1" },
		{ "clock 1", "0 1 1 1 0" }, { "pass 1 2", "0 0 0 0 0" },
		{ "clock 1", "0 1 1 1 0" }, { "awaited", "0 1 2 2 1" },
		/* An open section keeps the lane from passing. */
		{ "begin 2", "0 0 0 0 0" }, { "clock 2", "0 1 1 1 0" },
		{ "pass 2 0", "7 0 0 0 0" }, { "clock 2", "0 1 1 1 0" },
		{ "awaited", "0 1 2 2 1" }, { "end 2", "0 0 0 0 0" },
		{ "clock 2", "0 1 1 1 0" }, { "pass 2 0", "0 0 0 0 0" },
		{ "clock 2", "0 2 1 0 0" }, { "awaited", "0 0 4294967295 2 1" },
		{ "back 3", "16 0 0 0 0" }, { "clock 3", "0 2 1 0 1" },
		{ "back 2", "16 0 0 0 0" }, { "back 3", "0 0 0 0 0" },
	};

	lent_start(&lent);
	LENT_PLAY(&lent, steps);
	CHECK(lent_cabinet(lent.memory, 0)[CABINET_PENDING] == 0);
	CHECK(lent_cabinet(lent.memory, 1)[CABINET_PENDING] == 0);
}

/* Off: current, then next, go to the global next queue, done to the global done. */
static void test_off_queues(void)
{
	static const struct lent_step retired[] = {
		{ "setup 1 1 2 6", "0 193 0 0 0" },
		{ "add 0 17 1 1", "0 0 0 0 0" }, { "add 0 24 1 1", "0 1 0 0 0" },
		{ "add 0 31 1 1", "0 2 0 0 0" }, { "add 0 48 1 1", "0 3 0 0 0" },
		{ "del 0 17", "0 0 0 0 0" }, { "clock 0", "0 1 1 1 0" },
		{ "clock 1", "0 1 1 1 0" }, { "pass 1 0", "0 0 0 0 0" },
		{ "clock 1", "0 1 1 1 0" }, { "pass 0 0", "0 0 0 0 0" },
		{ "clock 0", "0 2 1 0 1" }, /* slot 0 is done */
		{ "del 0 31", "0 2 0 0 0" }, { "clock 0", "0 2 2 1 0" }, /* slot 2 is current */
		{ "del 0 24", "0 1 0 0 0" }, { "del 0 48", "0 3 0 0 0" }, /* 1 and 3 are next */
		{ "off 0", "0 0 0 0 0" }, { "awaited", "0 1 1 2 4" },
	};
	static const struct lent_step reclaimed[] = {
		{ "back 1", "0 0 0 0 0" }, { "back 1", "16 0 0 0 0" },
		{ "clock 1", "0 2 3 1 0" }, { "pass 1 0", "0 0 0 0 0" },
		{ "clock 1", "0 3 3 1 0" }, { "back 1", "16 0 0 0 0" },
		{ "pass 1 3", "0 0 0 0 0" }, { "clock 1", "0 4 3 0 3" },
		{ "back 1", "0 2 0 0 0" }, { "back 1", "0 1 0 0 0" },
		{ "back 1", "0 3 0 0 0" }, { "back 1", "16 0 0 0 0" },
	};
	uint32_t *global, *lane;

	lent_start(&lent);
	LENT_PLAY(&lent, retired);
	global = lent_global(lent.memory);
	CHECK(global[GLOBAL_CURRENT + QUEUE_FIRST] == 2 && global[GLOBAL_CURRENT + QUEUE_LAST] == 3);
	CHECK(global[GLOBAL_CURRENT + QUEUE_LENGTH] == 3 && global[GLOBAL_DONE + QUEUE_LENGTH] == 1);
	CHECK(global[GLOBAL_GENERATION] == 3 && global[GLOBAL_NEXT + QUEUE_FIRST] == PT_NONE);
	lane = lent_lane(lent.memory, 0);
	CHECK(lane[LANE_FLAGS] == 0 && lane[LANE_GENERATION] == 0);
	CHECK(lane[LANE_COUNTS] == 1); /* counts are kept */
	LENT_PLAY(&lent, reclaimed);
}

/* A current queue whose generation is over still goes to the global next queue. */
static void test_off_queue_over(void)
{
	static const struct lent_step steps[] = {
		{ "setup 1 1 2 4", "0 181 0 0 0" },
		{ "add 0 17 1 1", "0 0 0 0 0" }, { "del 0 17", "0 0 0 0 0" },
		{ "clock 0", "0 1 1 1 0" }, { "pass 0 0", "0 0 0 0 0" },
		{ "clock 0", "0 1 1 1 0" }, { "clock 1", "0 1 1 1 0" },
		{ "pass 1 0", "0 0 0 0 0" }, { "clock 1", "0 2 1 0 0" },
		{ "off 0", "0 0 0 0 0" }, { "back 1", "16 0 0 0 0" },
		{ "clock 1", "0 2 2 1 0" }, { "awaited", "0 1 1 3 1" },
		{ "pass 1 0", "0 0 0 0 0" }, { "clock 1", "0 3 2 0 1" },
		{ "back 1", "0 0 0 0 0" },
	};

	lent_start(&lent);
	LENT_PLAY(&lent, steps);
}

/* Off drops the lane's bit, and ends the grace period only with the last one. */
static void test_off_last_bit(void)
{
	static const struct lent_step steps[] = {
		{ "setup 1 1 3 6", "0 223 0 0 0" },
		{ "add 0 17 1 1", "0 0 0 0 0" }, { "del 0 17", "0 0 0 0 0" },
		{ "clock 0", "0 1 1 1 0" }, { "pass 0 0", "0 0 0 0 0" },
		{ "clock 0", "0 1 1 1 0" }, { "off 1", "0 0 0 0 0" },
		{ "awaited", "0 1 2 5 1" }, { "off 2", "0 0 0 0 0" },
		{ "awaited", "0 0 4294967295 5 1" }, { "clock 0", "0 2 1 0 1" },
		{ "back 0", "0 0 0 0 0" },
		/* With no grace period a lane ends none. */
		{ "on 1", "0 0 0 0 0" }, { "off 1", "0 0 0 0 0" },
		{ "clock 0", "0 2 1 0 0" },
	};

	lent_start(&lent);
	LENT_PLAY(&lent, steps);
}

/* Off ends a grace period, and the requested one begins without the lane. */
static void test_off_next_begun(void)
{
	static const struct lent_step steps[] = {
		{ "setup 1 1 3 6", "0 223 0 0 0" },
		{ "add 0 17 1 1", "0 0 0 0 0" }, { "add 0 24 1 1", "0 1 0 0 0" },
		{ "del 0 17", "0 0 0 0 0" }, { "clock 0", "0 1 1 1 0" },
		{ "del 1 24", "0 1 0 0 0" }, { "clock 1", "0 1 2 1 0" },
		{ "pass 0 0", "0 0 0 0 0" }, { "clock 0", "0 1 2 1 0" },
		{ "pass 1 0", "0 0 0 0 0" }, { "clock 1", "0 1 2 1 0" },
		{ "awaited", "0 1 2 4 2" },
		{ "off 2", "0 0 0 0 0" }, { "awaited", "0 2 0 4 2" },
		/* A lane that comes back has no bit, and ends no grace period. */
		{ "on 2", "0 0 0 0 0" }, { "awaited", "0 2 0 4 2" },
		{ "pass 2 0", "0 0 0 0 0" }, { "clock 2", "0 2 2 1 0" },
		{ "off 2", "0 0 0 0 0" }, { "awaited", "0 2 0 4 2" },
		{ "clock 0", "0 2 2 1 1" }, { "back 0", "0 0 0 0 0" },
		{ "back 1", "16 0 0 0 0" },
	};

	lent_start(&lent);
	LENT_PLAY(&lent, steps);
}

/* Its retired slot waits for a grace period after the one that begins. */
static void test_off_next_begun_with_slot(void)
{
	static const struct lent_step steps[] = {
		{ "setup 1 1 3 6", "0 223 0 0 0" },
		{ "add 0 17 1 1", "0 0 0 0 0" }, { "add 0 24 1 1", "0 1 0 0 0" },
		{ "add 0 31 1 1", "0 2 0 0 0" },
		{ "del 0 17", "0 0 0 0 0" }, { "clock 0", "0 1 1 1 0" },
		{ "del 1 24", "0 1 0 0 0" }, { "clock 1", "0 1 2 1 0" },
		{ "pass 0 0", "0 0 0 0 0" }, { "clock 0", "0 1 2 1 0" },
		{ "pass 1 0", "0 0 0 0 0" }, { "clock 1", "0 1 2 1 0" },
		{ "del 2 31", "0 2 0 0 0" }, { "off 2", "0 0 0 0 0" },
		{ "clock 0", "0 2 3 1 1" }, { "awaited", "0 2 0 3 3" },
	};

	lent_start(&lent);
	LENT_PLAY(&lent, steps);
	CHECK(lent_global(lent.memory)[GLOBAL_GENERATION] == 3);
}

/* With both waiting the lane's queue gets the current generation, the global one more. */
static void test_lane_before_global(void)
{
	static const struct lent_step steps[] = {
		{ "setup 1 1 3 8", "0 235 0 0 0" },
		{ "add 0 17 1 1", "0 0 0 0 0" }, { "add 0 24 1 1", "0 1 0 0 0" },
		{ "add 0 31 1 1", "0 2 0 0 0" },
		{ "del 2 17", "0 0 0 0 0" }, { "off 2", "0 0 0 0 0" },
		{ "del 1 24", "0 1 0 0 0" }, { "off 1", "0 0 0 0 0" },
		{ "awaited", "0 1 0 5 2" },
		{ "clock 0", "0 1 1 1 0" }, { "del 0 31", "0 2 0 0 0" },
		{ "pass 0 0", "0 0 0 0 0" }, { "clock 0", "0 2 3 1 1" },
		{ "back 0", "0 0 0 0 0" }, { "back 0", "16 0 0 0 0" },
	};

	lent_start(&lent);
	LENT_PLAY(&lent, steps);
	CHECK(lent_lane(lent.memory, 0)[LANE_GENERATION] == 2);
	CHECK(lent_global(lent.memory)[GLOBAL_GENERATION] == 3);
}

/* Hand-back takes from the lane's done queue first, then from the global one. */
static void test_hand_back_order(void)
{
	static const struct lent_step steps[] = {
		{ "setup 1 1 2 4", "0 181 0 0 0" },
		{ "add 0 17 1 1", "0 0 0 0 0" }, { "add 0 24 1 1", "0 1 0 0 0" },
		{ "del 1 17", "0 0 0 0 0" }, { "off 1", "0 0 0 0 0" },
		{ "clock 0", "0 1 1 1 0" }, { "pass 0 0", "0 0 0 0 0" },
		{ "clock 0", "0 2 1 0 1" }, /* slot 0 is done globally */
		{ "del 0 24", "0 1 0 0 0" }, { "clock 0", "0 2 2 1 0" },
		{ "pass 0 0", "0 0 0 0 0" }, { "clock 0", "0 3 2 0 1" },
		{ "back 0", "0 1 0 0 0" }, { "back 0", "0 0 0 0 0" },
	};

	lent_start(&lent);
	LENT_PLAY(&lent, steps);
}

/* ---- lengths of queues (document 02, request 6) */

/* The three words of a queue at one of the papers' addresses. */
static void check_queue(uint32_t address, uint32_t first, uint32_t last, uint32_t length)
{
	CHECK(lent.memory[address] == first && lent.memory[address + 1] == last &&
		lent.memory[address + 2] == length);
}

static void check_empty(uint32_t address)
{
	check_queue(address, PT_NONE, PT_NONE, 0);
}

/* The papers' worked list: its last clock moves a slot of the lane and one of the global queue. */
static void test_lengths_of_both(void)
{
	static const struct lent_step waiting[] = {
		{ "setup 1 1 3 8", "0 235 0 0 0" }, { "add 0 17 1 1", "0 0 0 0 0" },
		{ "add 0 24 1 1", "0 1 0 0 0" }, { "add 0 31 1 1", "0 2 0 0 0" },
		{ "del 1 31", "0 2 0 0 0" }, { "clock 1", "0 1 1 1 0" },
		{ "del 0 17", "0 0 0 0 0" }, { "del 2 24", "0 1 0 0 0" }, { "off 2", "0 0 0 0 0" },
		{ "awaited", "0 2 0 5 3" },
	};
	static const struct lent_step done[] = {
		{ "clock 0", "0 1 2 1 0" }, { "pass 0 0", "0 0 0 0 0" }, { "pass 1 0", "0 0 0 0 0" },
		{ "clock 1", "0 1 2 1 0" }, { "clock 0", "0 2 2 1 0" }, { "clock 1", "0 2 2 1 1" },
		{ "pass 1 0", "0 0 0 0 0" }, { "clock 1", "0 2 2 1 0" }, { "pass 0 0", "0 0 0 0 0" },
		{ "clock 0", "0 3 2 0 2" }, { "awaited", "0 0 4294967295 5 3" },
	};
	static const struct lent_step reclaimed[] = {
		{ "clock 0", "0 3 2 0 0" }, { "back 0", "0 0 0 0 0" }, { "awaited", "0 0 4294967295 6 2" },
		{ "back 0", "0 1 0 0 0" }, { "back 0", "16 0 0 0 0" }, { "back 1", "0 2 0 0 0" },
		{ "awaited", "0 0 4294967295 8 0" },
	};

	lent_start(&lent);
	LENT_PLAY(&lent, waiting);
	check_queue(82, 3, 7, 5);  /* free */
	check_empty(85);	   /* global next, current and done */
	check_queue(88, 1, 1, 1);
	check_empty(91);
	check_queue(114, 0, 0, 1); /* lane 0's */
	check_empty(117);
	check_empty(120);
	check_empty(144);	   /* lane 1's */
	check_queue(147, 2, 2, 1);
	check_empty(150);
	LENT_PLAY(&lent, done);
	check_empty(85);
	check_empty(88);
	check_queue(91, 1, 1, 1);
	check_empty(114);
	check_empty(117);
	check_queue(120, 0, 0, 1);
	check_empty(144);
	check_empty(147);
	check_queue(150, 2, 2, 1);
	for (uint32_t address = 174; address <= 180; address += 3) /* lane 2's, which is off */
		check_empty(address);
	LENT_PLAY(&lent, reclaimed);
	check_queue(82, 3, 2, 8);
	check_empty(91);
	check_empty(120);
	check_empty(150);
}

/* A clock says what it moved, and not what is done; the queue has the sum, in the order. */
static void test_lengths_joined(void)
{
	static const struct lent_step steps[] = {
		{ "setup 1 1 1 8", "0 175 0 0 0" }, { "add 0 17 1 1", "0 0 0 0 0" },
		{ "add 0 24 1 1", "0 1 0 0 0" }, { "rep 0 17 2 2", "0 2 0 0 0" },
		{ "clock 0", "0 1 1 1 0" }, { "pass 0 0", "0 0 0 0 0" }, { "clock 0", "0 2 1 0 1" },
		{ "del 0 24", "0 1 0 0 0" }, { "del 0 17", "0 2 0 0 0" },
		{ "clock 0", "0 2 2 1 0" }, { "pass 0 0", "0 0 0 0 0" }, { "clock 0", "0 3 2 0 2" },
		{ "awaited", "0 0 4294967295 5 3" },
	};
	static const struct lent_step reclaimed[] = {
		{ "back 0", "0 0 0 0 0" }, { "back 0", "0 1 0 0 0" }, { "back 0", "0 2 0 0 0" },
		{ "back 0", "16 0 0 0 0" },
	};

	lent_start(&lent);
	LENT_PLAY(&lent, steps);
	check_queue(82, 3, 7, 5);
	check_queue(120, 0, 2, 3);
	LENT_PLAY(&lent, reclaimed);
	check_queue(82, 3, 2, 8);
	check_empty(120);
}

/* An off joins three queues to the global next one, and one to the global done one. */
static void test_lengths_off(void)
{
	static const struct lent_step steps[] = {
		{ "setup 1 1 3 8", "0 235 0 0 0" }, { "add 0 17 1 1", "0 0 0 0 0" },
		{ "add 0 24 1 1", "0 1 0 0 0" }, { "add 0 31 1 1", "0 2 0 0 0" },
		{ "add 0 48 1 1", "0 3 0 0 0" }, { "del 1 17", "0 0 0 0 0" },
		{ "off 1", "0 0 0 0 0" },			   /* slot 0: globally current */
		{ "on 1", "0 0 0 0 0" }, { "del 1 24", "0 1 0 0 0" },
		{ "off 1", "0 0 0 0 0" },			   /* slot 1: globally next */
		{ "del 2 31", "0 2 0 0 0" }, { "clock 2", "0 1 2 1 0" }, /* slot 2: lane 2's current */
		{ "del 2 48", "0 3 0 0 0" }, { "off 2", "0 0 0 0 0" },
		{ "awaited", "0 1 0 4 4" },
	};

	lent_start(&lent);
	LENT_PLAY(&lent, steps);
	check_queue(85, 1, 3, 3);
	check_queue(88, 0, 0, 1);
	check_empty(91);
	CHECK(lent.memory[94] == 1); /* the generation of the global current queue */
}

/* The last lane awaited goes off: slots come to the global done queue, and are not answered. */
static void test_lengths_off_ends(void)
{
	static const struct lent_step steps[] = {
		{ "setup 1 1 3 8", "0 235 0 0 0" }, { "add 0 17 1 1", "0 0 0 0 0" },
		{ "del 2 17", "0 0 0 0 0" }, { "off 2", "0 0 0 0 0" }, { "clock 0", "0 1 1 1 0" },
		{ "pass 0 0", "0 0 0 0 0" }, { "clock 0", "0 1 1 1 0" }, { "off 1", "0 0 0 0 0" },
		{ "awaited", "0 0 4294967295 7 1" },
	};

	lent_start(&lent);
	LENT_PLAY(&lent, steps);
	check_empty(88);
	check_queue(91, 0, 0, 1);
	lent_expect(&lent, "clock 0", "0 2 1 0 0");
	lent_expect(&lent, "back 0", "0 0 0 0 0");
}

/* ---- */

/* With fewer than five answer words nothing is written, whatever else is wrong. */
static void test_short_answers(void)
{
	static const struct list list = { { 1, 1, 2, 3 }, 4, 0, 1 };
	static const uint32_t fill[4] = { FILL, FILL, FILL, FILL };
	uint32_t before[LENT_WORDS];
	uint64_t seed = 5;

	memcpy(before, lent.memory, sizeof before);
	for (int name = 0; name < CALLS; name++)
		for (size_t length = 0; length < 5; length++) {
			struct call call = draw_arguments(&seed, &list, (enum call_name)name);
			uint32_t *answer = length > 0 ? malloc(length * sizeof *answer) : NULL;

			CHECK(length == 0 || answer != NULL);
			if (length > 0)
				memcpy(answer, fill, length * sizeof *answer);
			CHECK(call_make(&tested, lent.memory, lent.words, answer, length,
					&call) == 4294967295u);
			CHECK(length == 0 || memcmp(answer, fill, length * sizeof *answer) == 0);
			CHECK(memcmp(lent.memory, before, sizeof before) == 0);
			free(answer);
		}
}

static void test_short_answers_first(void)
{
	static const struct lent_step steps[] = {
		{ "setup 1 1 2 3", "0 175 0 0 0" }, { "add 0 55 1 1", "0 0 0 0 0" },
		{ "begin 1", "0 0 0 0 0" },
	};

	lent_start(&lent);
	test_short_answers();
	LENT_PLAY(&lent, steps);
	test_short_answers();
	lent.words = 0;
	test_short_answers();
}

/* A length of 0 with no memory at all. */
static void test_no_memory(void)
{
	uint32_t answer[PT_ANSWER_WORDS];

	CHECK(tested.setup(NULL, 0, answer, 5, 1, 1, 1, 1) == 2 && answer[0] == 2);
	CHECK(tested.clock(NULL, 0, answer, 5, 0) == 3 && answer[0] == 3);
	CHECK(tested.clock(NULL, 0, NULL, 0, 0) == 4294967295u);
}

/* The words past the total change no answer; lent_make sees that they stay. */
static void test_words_past_total(void)
{
	static const struct lent_step steps[] = {
		{ "setup 1 1 2 3", "0 175 0 0 0" }, { "add 0 17 25 1", "0 0 0 0 0" },
		{ "begin 1", "0 0 0 0 0" }, { "start 1 17", "0 0 0 0 0" },
		{ "del 0 17", "0 0 0 0 0" }, { "step 1", "0 1 0 25 1" },
		{ "clock 0", "0 1 1 1 0" }, { "off 0", "0 0 0 0 0" },
		{ "end 1", "0 0 0 0 0" }, { "clock 1", "0 1 2 1 0" },
		{ "awaited", "0 1 1 2 1" },
	};

	for (uint32_t fill = 0; fill < 3; fill++)
		for (size_t words = 175; words < 180; words++) {
			lent_start(&lent);
			for (size_t n = 175; n < LENT_WORDS; n++)
				lent.memory[n] = fill == 0 ? 0 : fill == 1 ? 1 : PT_NONE;
			lent.words = words;
			LENT_PLAY(&lent, steps);
		}
}

int main(void)
{
	test_words_of_setup();
	test_words_of_calls();
	test_totals();
	test_contents();
	test_setup_refusals();
	test_not_legal();
	test_lanes();
	test_sections();
	test_records();
	test_code_limit();
	test_check_digits();
	test_older_record();
	test_chains();
	test_dropped_lookups();
	test_high_words();
	test_free_queue();
	for (uint32_t kind = 0; kind < KINDS; kind++) {
		test_count_grows(kind, 4294967294u);
		test_count_grows(kind, 4294967295u);
		test_count_grows(kind, UINT64_C(18446744069414584319)); /* 2^64 - 2^32 - 1: high word the last but one */
		test_count_grows(kind, UINT64_MAX);
		test_count_words(kind);
		test_count_halves(kind);
	}
	test_later();
	test_generation_wraps();
	test_generation_wraps_idle();
	test_global_generation_zero();
	test_pending();
	test_off_queues();
	test_off_queue_over();
	test_off_last_bit();
	test_off_next_begun();
	test_off_next_begun_with_slot();
	test_lane_before_global();
	test_hand_back_order();
	test_lengths_of_both();
	test_lengths_joined();
	test_lengths_off();
	test_lengths_off_ends();
	test_short_answers_first();
	test_no_memory();
	test_words_past_total();
	puts("selftest: all cases as expected");
	return 0;
}
