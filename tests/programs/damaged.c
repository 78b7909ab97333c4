/*
 * damaged.c - which memories are refused: those of damages.h; every length of a queue made
 * another; every bit of every mask turned; a table of version 3, and words of other versions;
 * every single word of a table changed; and words of no meaning.
 */
#include <stdio.h>
#include <stdlib.h>
#include <string.h>

#include "damages.h"
#include "draw.h"
#include "lent.h"
#include "reference.h"

/* Addresses in the rich table. */
#define GLOBAL(word) (CONTENTS_WORDS + (word))
#define CABINET(c) (GLOBAL(GLOBAL_WORDS) + CABINET_WORDS * (c))
#define LANE(l, word) (CABINET(DAMAGES_ALL_CABINETS) + LANE_WORDS * (l) + (word))
#define SLOT(s, word) (LANE(DAMAGES_ALL_LANES, 0) + SLOT_WORDS * (s) + (word))
#define YARD(y) (SLOT(DAMAGES_SLOTS, 0) + YARD_WORDS * (y))
enum { TABLE_WORDS = YARD(DAMAGES_YARDS) };

#define SIZES { DAMAGES_YARDS, DAMAGES_CABINETS, DAMAGES_LANES, DAMAGES_SLOTS }

static struct lent lent;
static uint32_t fresh[LENT_WORDS];
static uint32_t rich[LENT_WORDS];
static const struct call setup = { CALL_SETUP, SIZES };

/* A call of that name for such a table; every argument is in range, mostly. */
static struct call one(int name)
{
	static const struct list list = { SIZES, 6, 0, 1 };
	static uint64_t seed = 3;

	return name == CALL_SETUP ? setup : draw_arguments(&seed, &list, (enum call_name)name);
}

static void build(void)
{
	lent_start(&lent);
	for (size_t n = 0; n < rich_count; n++) {
		struct call call = lent_call(rich_calls[n]);

		CHECK(lent_make(&lent, &call) == 0);
		if (n == 0)
			memcpy(fresh, lent.memory, sizeof fresh);
	}
	memcpy(rich, lent.memory, sizeof rich);
	CHECK(rich[GLOBAL(GLOBAL_CURRENT_GENERATION)] == 3);
	CHECK(rich[GLOBAL(GLOBAL_LARGEST_GENERATION)] == 4);
	CHECK(rich[LANE(0, LANE_POSITION)] == 2 && rich[LANE(0, LANE_DONE)] == 6);
	CHECK(rich[LANE(1, LANE_CURRENT)] == 3 && rich[LANE(1, LANE_NEXT)] == 2);
	CHECK(rich[LANE(2, LANE_CURRENT)] == 5 && rich[LANE(2, LANE_GENERATION)] == 4);
	CHECK(rich[GLOBAL(GLOBAL_CURRENT)] == 8 && rich[GLOBAL(GLOBAL_NEXT)] == 10);
	CHECK(rich[GLOBAL(GLOBAL_DONE)] == 7 && rich[GLOBAL(GLOBAL_CHAINS)] == 1);
	CHECK(rich[GLOBAL(GLOBAL_PENDING)] == 3 && rich[YARD(0)] == 1 && rich[YARD(1)] == 1 && rich[YARD(2)] == 0);
	CHECK(rich[CABINET(0)] == 3 && rich[CABINET(1)] == 0 && rich[CABINET(2)] == 1 && rich[CABINET(3)] == 0);
}

static void damage(const struct damage *damage)
{
	memcpy(lent.memory, damage->base == BASE_RICH ? rich : fresh, sizeof lent.memory);
	damage_memory(lent.memory, damage);
}

/* Every call but set-up refuses what is lent; lent_make sees that no word changes. */
static void check_all_refuse(void)
{
	for (int name = CALL_ADD; name < CALLS; name++) {
		struct call call = one(name);

		CHECK(lent_make(&lent, &call) == PT_NOT_LEGAL);
	}
}

/* The memory breaks the sentence first and is refused; a set-up makes a fresh table of it. */
static void check_refused(const struct damage *damage)
{
	if (ref_broken(lent.memory, lent.words) != damage->sentence) {
		fprintf(stderr, "accepted, or broken otherwise, against: %s\n", damage->what);
		exit(1);
	}
	check_all_refuse();
	CHECK(lent_make(&lent, &setup) == PT_OK && lent.answer[1] == TABLE_WORDS);
	CHECK(memcmp(lent.memory, fresh, TABLE_WORDS * sizeof fresh[0]) == 0);
}

/* No call refuses the memory for not being legal; lent_make sees what it leaves. */
static void check_accepted(const struct damage *odd)
{
	for (int name = CALL_SETUP; name < CALLS; name++) {
		struct call call = one(name);

		damage(odd);
		if (!ref_legal(lent.memory, lent.words)) {
			fprintf(stderr, "refused: %s\n", odd->what);
			exit(1);
		}
		CHECK(lent_make(&lent, &call) != PT_NOT_LEGAL);
	}
}

#define COUNT(list) (sizeof(list) / sizeof((list)[0]))

static void test_sentences(void)
{
	bool met[LEGAL_SENTENCES + 1] = { false };

	for (size_t n = 0; n < damage_count; n++) {
		met[damages[n].sentence] = true;
		if (damages[n].sentence == LEGAL_SENTENCES) {
			check_accepted(&damages[n]);
			continue;
		}
		damage(&damages[n]);
		check_refused(&damages[n]);
	}
	for (int sentence = 0; sentence <= LEGAL_SENTENCES; sentence++)
		CHECK(met[sentence]);
}

/* ---- lengths of queues (document 02, request 6) */

enum { QUEUES = 4 + 3 * DAMAGES_ALL_LANES };
static uint32_t queues[QUEUES]; /* their addresses */

static void find_queues(void)
{
	static const uint32_t of_global[] = { GLOBAL_FREE, GLOBAL_NEXT, GLOBAL_CURRENT, GLOBAL_DONE };
	static const uint32_t of_lane[] = { LANE_NEXT, LANE_CURRENT, LANE_DONE };
	uint32_t count = 0;

	for (size_t n = 0; n < COUNT(of_global); n++)
		queues[count++] = GLOBAL(of_global[n]);
	for (uint32_t lane = 0; lane < DAMAGES_ALL_LANES; lane++)
		for (size_t n = 0; n < COUNT(of_lane); n++)
			queues[count++] = LANE(lane, of_lane[n]);
	CHECK(count == QUEUES);
}

/* One more, one less, 0 and 4,294,967,295, where that is not the length; returns how many. */
static uint32_t test_queue_length(enum base base, uint32_t queue)
{
	uint32_t *memory = base == BASE_RICH ? rich : fresh, length = memory[queue + QUEUE_LENGTH];
	const uint32_t values[] = { length + 1, length - 1, 0, PT_NONE };
	uint32_t tried = 0;

	CHECK(length == lent_queue_length(memory, memory + queue));
	for (size_t n = 0; n < COUNT(values); n++) {
		const struct damage another = { base, LEGAL_LENGTHS, "length of a queue",
			{ { queue + QUEUE_LENGTH, values[n] } } };

		if (values[n] == length)
			continue;
		damage(&another);
		check_refused(&another);
		tried++;
	}
	return tried;
}

static void test_queue_lengths(void)
{
	uint32_t tried = 0;

	for (uint32_t n = 0; n < QUEUES; n++) {
		tried += test_queue_length(BASE_FRESH, queues[n]);
		tried += test_queue_length(BASE_RICH, queues[n]);
	}
	printf("damaged: %u memories with another length of a queue\n", tried);
}

/* ---- masks of three levels (document 02, request 8) */

/*
 * A bit of a mask, turned. The memory is still legal if that is the bit of an online lane that
 * holds no snapshot and has no line one before, and its cabinet has another one.
 */
static bool turned_is_legal(uint32_t address, uint32_t bit)
{
	return address == CABINET(0) && bit == 0; /* lane 0's of the rich table, beside lane 1's */
}

static void test_mask(uint32_t address)
{
	for (uint32_t bit = 0; bit < 32; bit++) {
		memcpy(lent.memory, rich, sizeof lent.memory);
		lent.memory[address] ^= 1u << bit;
		CHECK(ref_legal(lent.memory, lent.words) == turned_is_legal(address, bit));
		if (!turned_is_legal(address, bit))
			check_all_refuse();
	}
}

static void test_masks(void)
{
	test_mask(GLOBAL(GLOBAL_PENDING));
	for (uint32_t yard = 0; yard < DAMAGES_YARDS; yard++)
		test_mask(YARD(yard));
	for (uint32_t cabinet = 0; cabinet < DAMAGES_ALL_CABINETS; cabinet++)
		test_mask(CABINET(cabinet));
}

/* ---- tables of other versions */

/* What version 3 had of a table of one yard: twelve words of contents, no fifth body, the cabinet mask in the house. */
static size_t put_version_3(uint32_t *memory)
{
	static const uint32_t contents[] = { 3, 2, 2, 16, 12, 80, 92, 2, 94, 120, 214, 96 };
	uint32_t cabinets = *lent_yard(memory, 0);
	size_t total = PT_WORDS(1, 2, 2, 16) - YARD_WORDS;

	lent_global(memory)[GLOBAL_PENDING] = cabinets;
	memmove(memory + COUNT(contents), memory + CONTENTS_WORDS, (total - CONTENTS_WORDS) * sizeof *memory);
	memcpy(memory, contents, sizeof contents);
	return total - CONTENTS_WORDS + COUNT(contents);
}

/* As it was, also with other versions' words, and with more words lent than it had. */
static void test_version_3(const char *const *calls, size_t count)
{
	enum { OLD_TOTAL = 310 }; /* 92 + 2 + 30 * 4 + 6 * 16 */
	static const size_t lengths[] = { OLD_TOTAL, OLD_TOTAL + 3, OLD_TOTAL + 4, LENT_WORDS };

	lent_start(&lent);
	for (size_t n = 0; n < count; n++) {
		struct call call = lent_call(calls[n]);

		CHECK(lent_make(&lent, &call) == PT_OK);
	}
	CHECK(put_version_3(lent.memory) == OLD_TOTAL);
	for (uint32_t version = 1; version <= PT_VERSION; version++)
		for (size_t n = 0; n < COUNT(lengths); n++) {
			lent.memory[CONTENTS_VERSION] = version;
			lent.words = lengths[n];
			check_all_refuse();
		}
	lent_expect(&lent, "setup 1 2 2 16", "0 314 0 0 0"); /* a fresh table, to move on */
	lent_expect(&lent, "awaited", "0 0 4294967295 16 0");
}

/* A table of this version with the word of another. */
static void test_other_version(const uint32_t *memory, uint32_t version)
{
	memcpy(lent.memory, memory, sizeof lent.memory);
	CHECK(ref_legal(lent.memory, lent.words));
	lent.memory[CONTENTS_VERSION] = version;
	check_all_refuse();
}

static void test_versions(void)
{
	static const uint32_t others[] = { 0, 1, 2, 3, 5, PT_NONE };
	static const char *const calls[] = { "setup 1 2 2 16", "add 0 17 1 1", "del 0 17", "begin 3", "clock 0" };

	test_version_3(calls, 1);
	test_version_3(calls, COUNT(calls)); /* a section open, a period running */
	for (size_t n = 0; n < COUNT(others); n++) {
		test_other_version(fresh, others[n]);
		test_other_version(rich, others[n]);
	}
}

/* ---- */

/* The total is not above the length. */
static void test_lengths(void)
{
	for (size_t words = 0; words <= TABLE_WORDS; words++) {
		uint32_t *exact = malloc((words > 0 ? words : 1) * sizeof *exact);

		CHECK(exact != NULL);
		memcpy(exact, rich, words * sizeof *exact);
		CHECK(ref_legal(exact, words) == (words == TABLE_WORDS));
		free(exact);
	}
	memcpy(lent.memory, rich, sizeof lent.memory);
	lent.words = TABLE_WORDS - 1;
	check_all_refuse();
	lent.words = LENT_WORDS;
}

/* A lookup goes on from an odd memory by the rule alone. */
static void test_odd_lookups(void)
{
	/* Round and round among retired slots, then out of them by a poke. */
	memcpy(lent.memory, rich, sizeof lent.memory);
	lent.memory[SLOT(2, SLOT_CHAIN_LINK)] = 3;
	lent.memory[SLOT(3, SLOT_CHAIN_LINK)] = 2;
	for (int n = 0; n < 9; n++)
		lent_expect(&lent, "step 0", "0 0 0 0 0");
	CHECK(lent.memory[LANE(0, LANE_POSITION)] == 3);
	lent.memory[SLOT(3, SLOT_CHAIN_LINK)] = 0;
	lent_expect(&lent, "step 0", "0 0 0 0 0");
	lent_expect(&lent, "step 0", "0 1 0 10 1");
	/* A free slot holds code 0, and is found as that. */
	memcpy(lent.memory, rich, sizeof lent.memory);
	lent.memory[LANE(0, LANE_POSITION)] = 12;
	lent_expect(&lent, "step 0", "0 1 12 0 0");
	/* A section ends with its lookup on a free slot. */
	memcpy(lent.memory, rich, sizeof lent.memory);
	lent.memory[LANE(0, LANE_POSITION)] = 12;
	lent_expect(&lent, "end 0", "0 0 0 0 0");
	lent_expect(&lent, "step 0", "10 0 0 0 0");
	/* All lanes offline: a lane goes on, and no call but on finds a lane online. */
	memcpy(lent.memory, fresh, sizeof lent.memory);
	for (uint32_t l = 0; l < DAMAGES_ALL_LANES; l++)
		lent_lane(lent.memory, l)[LANE_FLAGS] = 0;
	lent_expect(&lent, "clock 0", "5 0 0 0 0");
	lent_expect(&lent, "off 0", "5 0 0 0 0");
	lent_expect(&lent, "on 2", "0 0 0 0 0");
	lent_expect(&lent, "clock 2", "0 1 0 0 0");
	lent_expect(&lent, "off 2", "15 0 0 0 0");
}

/* Checks a memory that may be legal or not: refused as a whole, or all is well. */
static uint32_t check_either(const struct call *call)
{
	bool legal = ref_legal(lent.memory, lent.words);
	uint32_t status = lent_make(&lent, call);

	CHECK(call->name == CALL_SETUP ? status == PT_OK : (status == PT_NOT_LEGAL) == !legal);
	return legal ? 1 : 0;
}

/* Every word of the rich table, each with the values that are borderline somewhere. */
static void test_every_word(void)
{
	static const uint32_t values[] = {
		0, 1, 2, 3, 4, 5, 6, 7, 8, 10, 11, 14, 15, 16, 17, 63, 64, 192, 512, 529, 560, 2147483647u,
		2147483648u, PT_NONE - 1, PT_NONE
	};
	uint32_t legal = 0, tried = 0;

	for (uint32_t address = 0; address < TABLE_WORDS; address++)
		for (size_t n = 0; n < COUNT(values); n++) {
			struct call call = one((int)(tried % CALLS));

			memcpy(lent.memory, rich, sizeof lent.memory);
			lent.memory[address] = values[n];
			legal += check_either(&call);
			tried++;
		}
	printf("damaged: %u memories of one changed word, %u of them legal\n", tried, legal);
	CHECK(legal > 0 && legal < tried);
}

/* Three words changed at a time, with small values. */
static void test_random_words(void)
{
	uint64_t random = 7;
	uint32_t legal = 0, tried = 0;

	while (tried < 6000) {
		struct call call = one((int)(tried % CALLS));

		memcpy(lent.memory, tried % 2 ? rich : fresh, sizeof lent.memory);
		for (int n = 0; n < 3; n++)
			lent.memory[draw_below(&random, TABLE_WORDS)] =
				draw_below(&random, 18) - 1u;
		legal += check_either(&call);
		tried++;
	}
	printf("damaged: %u memories of three changed words, %u of them legal\n", tried, legal);
}

/* Words of no meaning, of any length, behind contents that agree and behind others. */
static void test_no_meaning(void)
{
	uint64_t random = 11;

	for (uint32_t n = 0; n < 3000; n++) {
		uint32_t words = draw_below(&random, TABLE_WORDS + 20);
		uint32_t below = n % 3 == 0 ? PT_NONE : n % 3 == 1 ? 2 : DAMAGES_SLOTS + 1;
		uint32_t *exact = malloc((words > 0 ? words : 1) * sizeof *exact);

		CHECK(exact != NULL);
		for (uint32_t at = 0; at < words; at++)
			exact[at] = draw_below(&random, below) - (n % 2);
		if (n % 4 != 0)
			memcpy(exact, rich, sizeof *exact *
				(words < CONTENTS_WORDS ? words : CONTENTS_WORDS));
		CHECK(!ref_legal(exact, words));
		free(exact);
	}
}

int main(void)
{
	build();
	CHECK(TABLE_WORDS == 560 && PT_WORDS(3, 2, 2, 16) == 560);
	find_queues();
	test_sentences();
	test_queue_lengths();
	test_masks();
	test_versions();
	test_lengths();
	test_odd_lookups();
	test_every_word();
	test_random_words();
	test_no_meaning();
	printf("damaged: %zu memories of changed words, each by its sentence\n", damage_count);
	return 0;
}
