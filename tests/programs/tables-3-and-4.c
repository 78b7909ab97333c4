/*
 * tables-3-and-4.c - the two state walkthroughs of source document 000 (Tables 3 and
 * 4) as calls, on two cabinets of four lanes, with the paper's columns read from the
 * words after each row; then a list on which document 01 and the paper's order of
 * steps differ. A row of the paper that is a part of a call stands with that call.
 *
 * The paper's print is off in two places, and its own rules give what is expected
 * here: in rows 19 to 24 of Table 4 the one callback has generation 4, and not 5; in
 * rows 24 and 25 the count of context switches is still 4, and not 5. Where the paper
 * leaves stale words (snapshots, a list's generation), document 01 writes rest values.
 */
#include <inttypes.h>
#include <stdio.h>
#include <string.h>

#include "codes.h"
#include "lent.h"

/* Lane 0's queues: lengths, and the generation of the current one. */
struct queues {
	uint32_t next, current, generation, done;
};

/* What a row's calls leave: all words of the paper's table, as lane 0 sees them. */
struct row {
	const char *rows;
	const char *calls; /* parted by semicolons; "others A B" is lanes A to B */
	uint32_t current, largest, cabinets, lanes;
	uint32_t counts[KINDS]; /* syncpoint, syscall, usertrap, swtch */
	bool held;
	uint32_t snapshot[KINDS];
	struct queues queues;
	const char *remark;
};

/* Lane 0's snapshot: its counts, or none, which the paper shows as X. */
#define HELD(syncpoint, syscall, usertrap, swtch) true, { syncpoint, syscall, usertrap, swtch }
#define CLEAR false, { 0, 0, 0, 0 }

static const struct row table_3[] = {
	{ "1", "", 1, 0, 0x0, 0x0, { 0, 0, 0, 0 }, CLEAR,
		{ 0, 0, 0, 0 }, "" },
	{ "2", "del 0 109", 1, 0, 0x0, 0x0, { 0, 0, 0, 0 }, CLEAR,
		{ 1, 0, 0, 0 }, "" },
	{ "3", "pass 0 0", 1, 0, 0x0, 0x0, { 1, 0, 0, 0 }, CLEAR,
		{ 1, 0, 0, 0 }, "" },
	{ "4-6", "clock 0", 1, 1, 0x3, 0xf, { 1, 0, 0, 0 }, HELD(1, 0, 0, 0),
		{ 0, 1, 1, 0 }, "" },
	{ "7", "pass 0 1", 1, 1, 0x3, 0xf, { 1, 1, 0, 0 }, HELD(1, 0, 0, 0),
		{ 0, 1, 1, 0 }, "" },
	{ "8", "pass 0 3", 1, 1, 0x3, 0xf, { 1, 1, 0, 1 }, HELD(1, 0, 0, 0),
		{ 0, 1, 1, 0 }, "" },
	{ "9", "pass 0 2", 1, 1, 0x3, 0xf, { 1, 1, 1, 1 }, HELD(1, 0, 0, 0),
		{ 0, 1, 1, 0 }, "" },
	{ "10", "others 1 7", 1, 1, 0x1, 0x1, { 1, 1, 1, 1 }, HELD(1, 0, 0, 0),
		{ 0, 1, 1, 0 }, "" },
	{ "11-13", "clock 0", 2, 1, 0x0, 0x0, { 1, 1, 1, 1 }, CLEAR,
		{ 0, 0, 0, 1 }, "" },
	{ "14", "back 0", 2, 1, 0x0, 0x0, { 1, 1, 1, 1 }, CLEAR,
		{ 0, 0, 0, 0 }, "" },
};

#define PRINT " (the paper prints 1/5 for 1/4)"

static const struct row table_4[] = {
	{ "1", "", 2, 1, 0x0, 0x0, { 1, 1, 1, 1 }, CLEAR,
		{ 0, 0, 0, 0 }, "" },
	{ "2", "del 1 116", 2, 1, 0x0, 0x0, { 1, 1, 1, 1 }, CLEAR,
		{ 0, 0, 0, 0 }, "" },
	{ "3", "clock 0", 2, 1, 0x0, 0x0, { 1, 1, 1, 1 }, CLEAR,
		{ 0, 0, 0, 0 }, "" },
	{ "4", "pass 0 1", 2, 1, 0x0, 0x0, { 1, 2, 1, 1 }, CLEAR,
		{ 0, 0, 0, 0 }, "" },
	{ "5", "clock 1", 2, 2, 0x3, 0xf, { 1, 2, 1, 1 }, CLEAR,
		{ 0, 0, 0, 0 }, "" },
	{ "6", "pass 1 2", 2, 2, 0x3, 0xf, { 1, 2, 1, 1 }, CLEAR,
		{ 0, 0, 0, 0 }, "" },
	{ "7", "del 0 123", 2, 2, 0x3, 0xf, { 1, 2, 1, 1 }, CLEAR,
		{ 1, 0, 0, 0 }, "" },
	{ "8", "clock 1", 2, 2, 0x3, 0xd, { 1, 2, 1, 1 }, CLEAR,
		{ 1, 0, 0, 0 }, "" },
	{ "9", "del 0 130", 2, 2, 0x3, 0xd, { 1, 2, 1, 1 }, CLEAR,
		{ 2, 0, 0, 0 }, "" },
	{ "10", "clock 0", 2, 3, 0x3, 0xd, { 1, 2, 1, 1 }, HELD(1, 2, 1, 1),
		{ 0, 2, 3, 0 }, "" },
	{ "11", "pass 0 3", 2, 3, 0x3, 0xd, { 1, 2, 1, 2 }, HELD(1, 2, 1, 1),
		{ 0, 2, 3, 0 }, "" },
	{ "12", "del 0 147", 2, 3, 0x3, 0xd, { 1, 2, 1, 2 }, HELD(1, 2, 1, 1),
		{ 1, 2, 3, 0 }, "" },
	{ "13", "others 2 3", 2, 3, 0x3, 0x1, { 1, 2, 1, 2 }, HELD(1, 2, 1, 1),
		{ 1, 2, 3, 0 }, "" },
	{ "14", "clock 0", 2, 3, 0x2, 0x0, { 1, 2, 1, 2 }, CLEAR,
		{ 1, 2, 3, 0 }, "" },
	{ "15", "others 4 7", 3, 3, 0x3, 0xf, { 1, 2, 1, 2 }, CLEAR,
		{ 1, 2, 3, 0 }, "" },
	{ "16", "clock 0", 3, 3, 0x3, 0xf, { 1, 2, 1, 2 }, HELD(1, 2, 1, 2),
		{ 1, 2, 3, 0 }, "" },
	{ "17", "pass 0 3", 3, 3, 0x3, 0xf, { 1, 2, 1, 3 }, HELD(1, 2, 1, 2),
		{ 1, 2, 3, 0 }, "" },
	{ "18", "others 1 7", 3, 3, 0x1, 0x1, { 1, 2, 1, 3 }, HELD(1, 2, 1, 2),
		{ 1, 2, 3, 0 }, "" },
	{ "19", "clock 0", 4, 4, 0x3, 0xf, { 1, 2, 1, 3 }, HELD(1, 2, 1, 3),
		{ 0, 1, 4, 2 }, PRINT },
	{ "20", "back 0; back 0", 4, 4, 0x3, 0xf, { 1, 2, 1, 3 }, HELD(1, 2, 1, 3),
		{ 0, 1, 4, 0 }, PRINT },
	{ "21", "pass 0 3", 4, 4, 0x3, 0xf, { 1, 2, 1, 4 }, HELD(1, 2, 1, 3),
		{ 0, 1, 4, 0 }, PRINT },
	{ "22", "clock 0", 4, 4, 0x3, 0xe, { 1, 2, 1, 4 }, CLEAR,
		{ 0, 1, 4, 0 }, PRINT },
	{ "23", "others 1 7", 5, 4, 0x0, 0x0, { 1, 2, 1, 4 }, CLEAR,
		{ 0, 1, 4, 0 }, PRINT },
	{ "24", "clock 0", 5, 4, 0x0, 0x0, { 1, 2, 1, 4 }, CLEAR,
		{ 0, 0, 0, 1 }, PRINT },
	{ "25", "back 0", 5, 4, 0x0, 0x0, { 1, 2, 1, 4 }, CLEAR,
		{ 0, 0, 0, 0 }, "" },
};

static struct lent lent;

static void make(const char *line)
{
	struct call call = lent_call(line);

	CHECK(lent_make(&lent, &call) == PT_OK);
}

/* The lanes from @from to @to each take a snapshot, pass and show it. */
static void others(uint32_t from, uint32_t to)
{
	for (uint32_t lane = from; lane <= to; lane++) {
		struct call clock = { CALL_CLOCK, { lane } };
		struct call pass = { CALL_PASS, { lane, PT_IDLE } };

		CHECK(lent_make(&lent, &clock) == PT_OK);
		CHECK(lent_make(&lent, &pass) == PT_OK);
		CHECK(lent_make(&lent, &clock) == PT_OK);
	}
}

static void make_all(const char *calls)
{
	while (*calls != '\0') {
		size_t length = strcspn(calls, ";");
		char line[32];
		unsigned from, to;

		CHECK(length < sizeof line);
		memcpy(line, calls, length);
		line[length] = '\0';
		if (sscanf(line, "others %u %u", &from, &to) == 2)
			others(from, to);
		else
			make(line);
		calls += length;
		calls += strspn(calls, "; ");
	}
}

static void check_row(const struct row *row)
{
	uint32_t *memory = lent.memory;
	const uint32_t *global = lent_global(memory);
	const uint32_t *lane = lent_lane(memory, 0);

	CHECK(global[GLOBAL_CURRENT_GENERATION] == row->current);
	CHECK(global[GLOBAL_LARGEST_GENERATION] == row->largest);
	CHECK(global[GLOBAL_PENDING] == (row->cabinets != 0)); /* the one yard */
	CHECK(lent_yard(memory, 0)[YARD_PENDING] == row->cabinets);
	CHECK(lent_cabinet(memory, 0)[CABINET_PENDING] == row->lanes);
	for (uint32_t kind = 0; kind < KINDS; kind++) {
		CHECK(lent_count(lane + LANE_COUNTS, kind) == row->counts[kind]);
		CHECK(lent_count(lane + LANE_SNAPSHOT, kind) == row->snapshot[kind]);
	}
	CHECK(((lane[LANE_FLAGS] & FLAG_SNAPSHOT) != 0) == row->held);
	CHECK(lent_queue_length(memory, lane + LANE_NEXT) == row->queues.next);
	CHECK(lent_queue_length(memory, lane + LANE_CURRENT) == row->queues.current);
	CHECK(lent_queue_length(memory, lane + LANE_DONE) == row->queues.done);
	CHECK(lane[LANE_GENERATION] == row->queues.generation);
}

static void replay(const char *table, const struct row *rows, size_t count)
{
	for (size_t n = 0; n < count; n++) {
		const struct row *row = &rows[n];

		printf("%s row %-5s %-15s", table, row->rows, row->calls);
		make_all(row->calls);
		check_row(row);
		printf(" %" PRIu32 "/%" PRIu32 " %#3" PRIx32 " %#3" PRIx32 "  next %" PRIu32
			", current %" PRIu32 "/%" PRIu32 ", done %" PRIu32 "%s\n",
			row->current, row->largest, row->cabinets, row->lanes,
			row->queues.next, row->queues.current, row->queues.generation,
			row->queues.done, row->remark);
	}
}

#define REPLAY(table, rows) replay(table, rows, sizeof(rows) / sizeof((rows)[0]))

/*
 * Lane 2's clock ends a grace period, begins the requested one and then advances its
 * queue, which so gets a generation after that: 3. The paper advances before, and
 * gives it 2. Both are safe.
 */
static void replay_three_lanes(void)
{
	static const struct lent_step steps[] = {
		{ "setup 1 1 3 4", "0 211 0 0 0" },
		{ "add 0 17 1 1", "0 0 0 0 0" }, { "add 0 24 1 1", "0 1 0 0 0" },
		{ "add 0 31 1 1", "0 2 0 0 0" },
		{ "del 0 17", "0 0 0 0 0" }, { "del 1 24", "0 1 0 0 0" },
		{ "clock 0", "0 1 1 1 0" }, { "pass 0 0", "0 0 0 0 0" },
		{ "clock 0", "0 1 1 1 0" }, { "clock 1", "0 1 2 1 0" },
		{ "pass 1 0", "0 0 0 0 0" }, { "clock 1", "0 1 2 1 0" },
		{ "clock 2", "0 1 2 1 0" }, { "del 2 31", "0 2 0 0 0" },
		{ "pass 2 0", "0 0 0 0 0" }, { "clock 2", "0 2 3 1 0" },
	};

	lent_start(&lent);
	LENT_PLAY(&lent, steps);
	CHECK(lent_lane(lent.memory, 2)[LANE_CURRENT + QUEUE_FIRST] == 2);
	CHECK(lent_lane(lent.memory, 2)[LANE_GENERATION] == 3);
	puts("three lanes: lane 2's queue has generation 3 (the paper's order gives 2)");
}

int main(void)
{
	lent_start(&lent);
	make("setup 1 2 4 16");
	for (uint32_t n = 0; n < 5; n++) { /* 109, 116, 123, 130, 147 */
		struct call add = { CALL_ADD, { 0, CODE_OF_ALL(10 + n), 25, 1 } };

		CHECK(lent_make(&lent, &add) == PT_OK);
	}
	REPLAY("table 3", table_3);
	REPLAY("table 4", table_4);
	lent_expect(&lent, "awaited", "0 0 4294967295 15 1");
	CHECK(lent_queue_length(lent.memory, lent_lane(lent.memory, 1) + LANE_DONE) == 1);
	replay_three_lanes();
	return 0;
}
