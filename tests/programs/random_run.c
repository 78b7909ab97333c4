/*
 * random_run.c - long lists of calls from fixed seeds on tables of many sizes. After
 * each call: the memory is legal, a refused call changed nothing, the ledger of
 * demand 3 finds no fault, and a second memory of exactly the total answered alike. By
 * the ledger a lookup with n records on its chain at the start is answered by step n + 1
 * of its lane; how many were answered no sooner is counted. By the ledger, too, what clocks
 * answer adds up to the slots in done queues and those handed back, but for what offs moved.
 */
#include <inttypes.h>
#include <stdio.h>
#include <stdlib.h>
#include <string.h>

#include "draw.h"
#include "ledger.h"
#include "lent.h"

static const struct list lists[] = {
	{ { 1, 1, 1, 1 }, 2, 1000, 1 },
	{ { 1, 1, 2, 3 }, 4, 4000, 4294967290u },
	{ { 1, 2, 1, 2 }, 3, 2000, 1 },
	{ { 1, 1, 3, 8 }, 9, 3000, 4294967290u },
	{ { 1, 2, 2, 5 }, 6, 3000, 2147483640u },
	{ { 1, 2, 4, 16 }, 14, 3000, 1 },
	{ { 1, 3, 3, 12 }, 20, 2000, 4294967294u },
	{ { 1, 8, 1, 20 }, 12, 2000, 1 },
	{ { 1, 1, 8, 40 }, 44, 2000, 4294967280u },
	{ { 1, 4, 4, 100 }, 60, 2000, 1 },
	{ { 1, 8, 8, 1024 }, 400, 1500, 4294967295u },
	{ { 2, 1, 1, 3 }, 4, 3000, 4294967290u },
	{ { 2, 2, 2, 8 }, 9, 3000, 1 },
	{ { 3, 2, 1, 6 }, 8, 2000, 2147483640u },
	{ { 8, 1, 1, 12 }, 10, 2000, 1 },
	{ { 8, 8, 8, 1024 }, 400, 400, 1 },
};

static struct lent lent;
static uint32_t before[LENT_WORDS]; /* the last call */
static struct ledger ledger;
static uint64_t seed;
static uint32_t *exact; /* the second memory */

/* What all lists reached. */
static uint32_t accepted[CALLS], refused[LAST_CAUSE + 1];
static uint32_t found, absent, dropped, attained, periods;
static uint32_t moving[CALLS], moved; /* calls that brought slots to done queues; slots of clocks */

static uint32_t draw(uint32_t below)
{
	return draw_below(&seed, below);
}

static void complain(const struct call *call, const char *fault)
{
	fprintf(stderr, "%s %" PRIu64 " %" PRIu64 " %" PRIu64 " %" PRIu64 ": %s\n",
		call_forms[call->name].command, call->argument[0], call->argument[1],
		call->argument[2], call->argument[3], fault);
	exit(1);
}

/* Whether the call is an end and the ledger has a lookup of its lane. */
static bool drops(const struct call *call)
{
	return call->name == CALL_END && call->argument[0] < LEDGER_LANES &&
		ledger.lane[call->argument[0]].lookup;
}

static void count_answer(const struct call *call, uint32_t generation)
{
	if (lent.answer[0] != PT_OK) {
		CHECK(lent.answer[0] <= LAST_CAUSE);
		refused[lent.answer[0]]++;
		return;
	}
	accepted[call->name]++;
	if (call->name == CALL_STEP && lent.answer[1] == PT_FOUND)
		found++;
	if (call->name == CALL_STEP && lent.answer[1] == PT_ABSENT)
		absent++;
	if (lent_global(lent.memory)[GLOBAL_CURRENT_GENERATION] == generation + 1)
		periods++;
	moving[call->name] += ledger_moved(call, lent.answer, before, lent.memory) > 0 ? 1 : 0;
	moved += call->name == CALL_CLOCK ? lent.answer[4] : 0;
}

/* The ledger of demand 3; a call on a memory lent short is none of the list. */
static void judge(const struct call *call)
{
	const char *fault;

	if (lent.words == LENT_WORDS) {
		attained += ledger_attains(&ledger, call, lent.answer) ? 1 : 0;
		fault = ledger_judge(&ledger, call, lent.answer, before, lent.memory);
	} else {
		fault = ledger_kept(&ledger, lent.memory);
	}
	if (fault != NULL)
		complain(call, fault);
}

/* Makes the call with all checks; @length is that of the second memory. */
static void make(const struct call *call, size_t length)
{
	uint32_t generation = lent_global(lent.memory)[GLOBAL_CURRENT_GENERATION];
	uint32_t answer[PT_ANSWER_WORDS];
	bool unfinished = drops(call);

	memcpy(before, lent.memory, sizeof before);
	lent_make(&lent, call);
	dropped += unfinished && lent.answer[0] == PT_OK ? 1 : 0;
	call_make(&tested, exact, length, answer, PT_ANSWER_WORDS, call);
	CHECK(memcmp(answer, lent.answer, sizeof answer) == 0);
	CHECK(memcmp(exact, lent.memory, length * sizeof *exact) == 0);
	judge(call);
	count_answer(call, generation);
}

/* Makes the call with both memories a word short. */
static void make_short(const struct call *call, size_t total)
{
	lent.words = total - 1;
	make(call, total - 1);
	lent.words = LENT_WORDS;
}

/* A lane finishes its lookup and its section, passes, and reclaims a slot. */
static void let_pass(uint32_t lane, size_t total)
{
	do
		make(&(struct call){ CALL_STEP, { lane } }, total);
	while (lent.answer[0] == PT_OK && lent.answer[1] == PT_GOING);
	make(&(struct call){ CALL_END, { lane } }, total);
	make(&(struct call){ CALL_CLOCK, { lane } }, total);
	make(&(struct call){ CALL_PASS, { lane, draw(4) } }, total);
	make(&(struct call){ CALL_CLOCK, { lane } }, total);
	make(&(struct call){ CALL_HAND_BACK, { lane } }, total);
	if (draw(2) == 0)
		make(&(struct call){ CALL_BEGIN, { lane } }, total);
}

/* Many lanes pass, so that grace periods end; some may stay in their sections. */
static void let_many_pass(uint32_t lanes, size_t total)
{
	uint32_t staying = draw(3);

	for (uint32_t l = 0; l < lanes; l++)
		if (staying == 0 || draw(4) != 0)
			let_pass(l, total);
}

/* A lane leaves with slots that it removed. */
static void let_leave(const struct list *list, size_t total)
{
	static struct call calls[LEAVING_CALLS];
	uint32_t count = draw_leaving(&seed, list, calls);

	for (uint32_t n = 0; n < count; n++)
		make(&calls[n], total);
}

static void set_up(const struct list *list, size_t total)
{
	struct call setup = call_setup(list->sizes);
	uint32_t *global;

	lent_start(&lent);
	memcpy(exact, lent.memory, total * sizeof *exact);
	ledger_reset(&ledger);
	lent_make(&lent, &setup);
	CHECK(lent.answer[1] == total);
	/* The list may begin at any generation; the ledger does not see it. */
	global = lent_global(lent.memory);
	global[GLOBAL_CURRENT_GENERATION] = list->generation;
	global[GLOBAL_LARGEST_GENERATION] = list->generation - 1u;
	for (uint32_t l = 0; l < sizes_lanes(list->sizes); l++)
		for (uint32_t kind = 0; kind < KINDS; kind++) /* about to carry, or to wrap */
			lent_put_count(lent_lane(lent.memory, l) + LANE_COUNTS, kind,
				(draw(2) == 0 ? PT_NONE : UINT64_MAX) - draw(4));
	memcpy(exact, lent.memory, total * sizeof *exact);
	make_short(&setup, total);
}

static void run(const struct list *list)
{
	size_t total = layout_of(list->sizes).total;
	uint32_t lanes = sizes_lanes(list->sizes);

	exact = malloc(total * sizeof *exact);
	CHECK(exact != NULL);
	set_up(list, total);
	for (uint32_t n = 0; n < list->calls; n++) {
		struct call call = draw_call(&seed, list);

		if (draw(300) == 0)
			make_short(&call, total);
		else
			make(&call, total);
		if (draw(20 + 10 * lanes) == 0)
			let_many_pass(lanes, total);
		if (lanes > 1 && draw(40 + 20 * lanes) == 0)
			let_leave(list, total);
	}
	free(exact);
}

int main(void)
{
	uint32_t calls = 0;

	for (size_t n = 0; n < sizeof lists / sizeof lists[0]; n++) {
		seed = 1000 + n;
		run(&lists[n]);
	}
	for (int name = 0; name < CALLS; name++) {
		CHECK(accepted[name] > 0);
		calls += accepted[name];
	}
	for (uint32_t cause = PT_BAD_SIZE; cause <= LAST_CAUSE; cause++) {
		CHECK(refused[cause] > 0);
		calls += refused[cause];
	}
	CHECK(found > 0 && absent > 0 && dropped > 0 && attained > 0 && periods > 0);
	CHECK(moving[CALL_CLOCK] > 0 && moving[CALL_OFF] > 0);
	printf("random run: %" PRIu32 " calls, %" PRIu32 " found, %" PRIu32 " absent, %" PRIu32
		" dropped, %" PRIu32 " answered by step n + 1 and no sooner, %" PRIu32
		" grace periods\nrandom run: %" PRIu32 " clocks moved %" PRIu32 " slots into done queues, %" PRIu32
		" offs moved some; %" PRIu32 " slots handed back\n",
		calls, found, absent, dropped, attained, periods, moving[CALL_CLOCK], moved,
		moving[CALL_OFF], accepted[CALL_HAND_BACK]);
	return 0;
}
