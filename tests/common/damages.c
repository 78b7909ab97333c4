/*
 * damages.c - the rich table, and what is done to it and to a fresh one.
 */
#include "damages.h"

#include "layout.h"

/* Addresses in a table of the sizes of damages.h. */
#define GLOBAL(word) (CONTENTS_WORDS + (word))
#define CABINET(c) (GLOBAL(GLOBAL_WORDS) + CABINET_WORDS * (c))
#define LANE(l, word) (CABINET(DAMAGES_ALL_CABINETS) + LANE_WORDS * (l) + (word))
#define SNAPSHOT(l, kind, half) LANE(l, LANE_SNAPSHOT + COUNT_WORDS * (kind) + (half))
#define SLOT(s, word) (LANE(DAMAGES_ALL_LANES, 0) + SLOT_WORDS * (s) + (word))
#define YARD(y) (SLOT(DAMAGES_SLOTS, 0) + YARD_WORDS * (y))

/* 100,000,000,000,000 in two words. */
enum { CODE_BEYOND_LOW = 276447232, CODE_BEYOND_HIGH = 23283 };

#define NONE PT_NONE

/* The three words of a queue at an address, as pokes. */
#define QUEUE(at, first, last, length) \
	{ (at) + QUEUE_FIRST, first }, { (at) + QUEUE_LAST, last }, { (at) + QUEUE_LENGTH, length }
#define EMPTY(at) QUEUE(at, NONE, NONE, 0)

/* Slot 0 is taken out of the fresh table's free queue. */
#define FIRST_TAKEN \
	{ GLOBAL(GLOBAL_FREE + QUEUE_FIRST), 1 }, { GLOBAL(GLOBAL_FREE + QUEUE_LENGTH), 15 }, \
	{ SLOT(0, SLOT_QUEUE_LINK), NONE }

/*
 * The rich table, generations 3 and 4: lane 0 reads with a lookup on slot 2, is
 * pending, and has slot 6 done; lane 1 is pending with a snapshot, slot 3 current
 * and slot 2 next; lane 2 is online without a bit, slot 5 current; lane 3 is offline.
 * Lanes 0 and 1 are those of yard 0's cabinet 0, 2 and 3 of its cabinet 1. Lane 4, the
 * first of yard 1, is pending; all other lanes of yards 1 and 2 are offline. Globally slots 8 and 9 are current, 10 is next, 7 is done. Chain 0 is 1, 0 and
 * chain 17 is 4; slots 11 to 15 are free.
 */
const char *const rich_calls[] = {
	"setup 3 2 2 16", "off 4", "off 5", "off 6", "off 7", "off 8", "off 9", "off 10", "off 11",
	"add 0 0 10 1", "add 0 192 11 2", "add 0 512 12 3", "add 0 1472 13 4",
	"add 0 17 14 5", "add 0 529 15 6", "add 0 55 16 7", "add 0 62 17 0", "add 0 79 18 1",
	"add 0 86 19 2", "add 0 93 20 3",
	"del 0 55", "clock 0", "clock 1", "clock 2", "clock 3", "pass 0 0", "pass 1 1",
	"pass 2 2", "pass 3 3", "clock 1", "clock 2", "clock 3", "clock 0",
	"del 3 62", "clock 3", "clock 0", "clock 1", "clock 2", "pass 0 0", "pass 1 1",
	"pass 2 2", "pass 3 3", "clock 0", "clock 1", "clock 2", "clock 3",
	"on 4", "del 3 79", "clock 3", "del 3 86", "off 3", "del 2 93", "off 2", "on 2",
	"begin 0", "start 0 0", "step 0",
	"del 1 1472", "clock 1", "del 1 512", "del 2 529", "clock 2",
};

const size_t rich_count = sizeof rich_calls / sizeof rich_calls[0];

const struct damage damages[] = {
	{ BASE_RICH, LEGAL_CONTENTS, "contents agree", { { CONTENTS_VERSION, 1 } } },
	{ BASE_RICH, LEGAL_CONTENTS, "contents agree", { { CONTENTS_VERSION, 2 } } },
	{ BASE_RICH, LEGAL_CONTENTS, "contents agree", { { CONTENTS_VERSION, 3 } } },
	{ BASE_RICH, LEGAL_CONTENTS, "contents agree", { { CONTENTS_VERSION, 5 } } },
	{ BASE_RICH, LEGAL_CONTENTS, "contents agree", { { CONTENTS_CABINETS, 0 } } },
	{ BASE_RICH, LEGAL_CONTENTS, "contents agree", { { CONTENTS_CABINETS, 1 } } },
	{ BASE_RICH, LEGAL_CONTENTS, "contents agree", { { CONTENTS_CABINETS, 9 } } },
	{ BASE_RICH, LEGAL_CONTENTS, "contents agree", { { CONTENTS_LANES, 0 } } },
	{ BASE_RICH, LEGAL_CONTENTS, "contents agree", { { CONTENTS_LANES, 1 } } },
	{ BASE_RICH, LEGAL_CONTENTS, "contents agree", { { CONTENTS_LANES, 9 } } },
	{ BASE_RICH, LEGAL_CONTENTS, "contents agree", { { CONTENTS_SLOTS, 0 } } },
	{ BASE_RICH, LEGAL_CONTENTS, "contents agree", { { CONTENTS_SLOTS, 15 } } },
	{ BASE_RICH, LEGAL_CONTENTS, "contents agree", { { CONTENTS_SLOTS, 1025 } } },
	{ BASE_RICH, LEGAL_CONTENTS, "contents agree", { { CONTENTS_SLOTS, NONE } } },
	{ BASE_RICH, LEGAL_CONTENTS, "contents agree", { { CONTENTS_BODIES + 0, 16 } } },
	{ BASE_RICH, LEGAL_CONTENTS, "contents agree", { { CONTENTS_BODIES + 1, 79 } } },
	{ BASE_RICH, LEGAL_CONTENTS, "contents agree", { { CONTENTS_BODIES + 2, 0 } } },
	{ BASE_RICH, LEGAL_CONTENTS, "contents agree", { { CONTENTS_BODIES + 3, 2 } } },
	{ BASE_RICH, LEGAL_CONTENTS, "contents agree", { { CONTENTS_BODIES + 4, NONE } } },
	{ BASE_RICH, LEGAL_CONTENTS, "contents agree", { { CONTENTS_BODIES + 5, 88 } } },
	{ BASE_RICH, LEGAL_CONTENTS, "contents agree", { { CONTENTS_BODIES + 6, 182 } } },
	{ BASE_RICH, LEGAL_CONTENTS, "contents agree", { { CONTENTS_BODIES + 7, 95 } } },
	{ BASE_RICH, LEGAL_CONTENTS, "contents agree", { { CONTENTS_BODIES + 8, 0 } } },
	{ BASE_RICH, LEGAL_CONTENTS, "contents agree", { { CONTENTS_BODIES + 8, YARD(0) + 1 } } },
	{ BASE_RICH, LEGAL_CONTENTS, "contents agree", { { CONTENTS_BODIES + 9, 2 } } },
	{ BASE_RICH, LEGAL_CONTENTS, "contents agree", { { CONTENTS_BODIES + 9, NONE } } },
	{ BASE_RICH, LEGAL_CONTENTS, "contents agree", { { CONTENTS_YARDS, 0 } } },
	{ BASE_RICH, LEGAL_CONTENTS, "contents agree", { { CONTENTS_YARDS, 2 } } },
	{ BASE_RICH, LEGAL_CONTENTS, "contents agree", { { CONTENTS_YARDS, 4 } } },
	{ BASE_RICH, LEGAL_CONTENTS, "contents agree", { { CONTENTS_YARDS, 9 } } },
	{ BASE_RICH, LEGAL_CONTENTS, "contents agree", { { CONTENTS_YARDS, 2 }, { CONTENTS_CABINETS, 3 } } },

	{ BASE_RICH, LEGAL_FLAGS, "flags in range", { { LANE(2, LANE_FLAGS), 17 } } },
	{ BASE_RICH, LEGAL_FLAGS, "flags in range", { { LANE(2, LANE_FLAGS), 2147483649u } } },
	{ BASE_RICH, LEGAL_MASKS, "yard mask in range", { { GLOBAL(GLOBAL_PENDING), 11 } } },
	{ BASE_RICH, LEGAL_MASKS, "yard mask in range", { { GLOBAL(GLOBAL_PENDING), 259 } } },
	{ BASE_RICH, LEGAL_MASKS, "yard mask in range", { { GLOBAL(GLOBAL_PENDING), 2147483651u } } },
	{ BASE_RICH, LEGAL_MASKS, "cabinet masks in range", { { YARD(0), 5 } } },
	{ BASE_RICH, LEGAL_MASKS, "cabinet masks in range", { { YARD(1), 2147483649u } } },
	{ BASE_RICH, LEGAL_MASKS, "cabinet masks in range", { { YARD(2), 4 }, { GLOBAL(GLOBAL_PENDING), 7 } } },
	{ BASE_RICH, LEGAL_MASKS, "lane masks in range", { { CABINET(0), 7 } } },
	{ BASE_RICH, LEGAL_MASKS, "lane masks in range", { { CABINET(0), 2147483651u } } },
	{ BASE_RICH, LEGAL_MASKS, "lane masks in range", { { CABINET(2), 5 } } },
	{ BASE_RICH, LEGAL_MASKS, "lane masks in range", { { CABINET(5), 4 }, { YARD(2), 2 }, { GLOBAL(GLOBAL_PENDING), 7 } } },

	{ BASE_RICH, LEGAL_LINKS, "links in range", { { GLOBAL(GLOBAL_CHAINS + 2), 16 } } },
	{ BASE_RICH, LEGAL_LINKS, "links in range", { { GLOBAL(GLOBAL_CHAINS + 63), NONE - 1 } } },
	{ BASE_RICH, LEGAL_LINKS, "links in range", { { GLOBAL(GLOBAL_FREE + QUEUE_FIRST), 16 } } },
	{ BASE_RICH, LEGAL_LINKS, "links in range", { { GLOBAL(GLOBAL_FREE + QUEUE_LAST), 16 } } },
	{ BASE_RICH, LEGAL_LINKS, "links in range", { { GLOBAL(GLOBAL_NEXT + QUEUE_FIRST), 16 } } },
	{ BASE_RICH, LEGAL_LINKS, "links in range", { { GLOBAL(GLOBAL_CURRENT + QUEUE_FIRST), 16 } } },
	{ BASE_RICH, LEGAL_LINKS, "links in range", { { GLOBAL(GLOBAL_DONE + QUEUE_FIRST), 16 } } },
	{ BASE_RICH, LEGAL_LINKS, "links in range", { { LANE(3, LANE_NEXT + QUEUE_FIRST), 16 } } },
	{ BASE_RICH, LEGAL_LINKS, "links in range", { { LANE(3, LANE_CURRENT + QUEUE_LAST), NONE - 1 } } },
	{ BASE_RICH, LEGAL_LINKS, "links in range", { { LANE(0, LANE_DONE + QUEUE_FIRST), 16 } } },
	{ BASE_RICH, LEGAL_LINKS, "links in range", { { LANE(0, LANE_POSITION), 16 } } },
	{ BASE_RICH, LEGAL_LINKS, "links in range", { { SLOT(6, SLOT_CHAIN_LINK), 16 } } },
	{ BASE_RICH, LEGAL_LINKS, "links in range", { { SLOT(6, SLOT_CHAIN_LINK), NONE - 1 } } },
	{ BASE_RICH, LEGAL_LINKS, "links in range", { { SLOT(15, SLOT_QUEUE_LINK), 16 } } },

	{ BASE_RICH, LEGAL_FIELDS, "fields in range", { { SLOT(6, SLOT_CODE + CODE_LOW), CODE_BEYOND_LOW },
			{ SLOT(6, SLOT_CODE + CODE_HIGH), CODE_BEYOND_HIGH } } },
	{ BASE_RICH, LEGAL_FIELDS, "fields in range", { { SLOT(6, SLOT_CODE + CODE_HIGH), NONE } } },
	{ BASE_RICH, LEGAL_FIELDS, "fields in range", { { SLOT(6, SLOT_DEPOSIT), 100001 } } },
	{ BASE_RICH, LEGAL_FIELDS, "fields in range", { { SLOT(6, SLOT_MATERIAL), 8 } } },
	{ BASE_RICH, LEGAL_FIELDS, "fields in range", { { SLOT(0, SLOT_DEPOSIT), 100001 } } },
	{ BASE_RICH, LEGAL_FIELDS, "fields in range", { { SLOT(0, SLOT_MATERIAL), 8 } } },
	{ BASE_RICH, LEGAL_FIELDS, "fields in range", { { LANE(0, LANE_CODE + CODE_LOW), CODE_BEYOND_LOW },
			{ LANE(0, LANE_CODE + CODE_HIGH), CODE_BEYOND_HIGH } } },
	{ BASE_RICH, LEGAL_FIELDS, "fields in range", { { LANE(0, LANE_CODE + CODE_HIGH), CODE_BEYOND_HIGH + 1 } } },

	{ BASE_RICH, LEGAL_ONCE, "each slot in one place", { { GLOBAL(GLOBAL_CHAINS + 17), NONE } } },
	{ BASE_RICH, LEGAL_ONCE, "each slot in one place", { { GLOBAL(GLOBAL_CHAINS + 0), 0 } } },
	{ BASE_RICH, LEGAL_ONCE, "each slot in one place", { { GLOBAL(GLOBAL_CHAINS + 9), 10 } } },
	{ BASE_RICH, LEGAL_ONCE, "each slot in one place", { { SLOT(0, SLOT_CHAIN_LINK), 1 } } },
	{ BASE_RICH, LEGAL_ONCE, "each slot in one place", { { SLOT(0, SLOT_CHAIN_LINK), 0 } } },
	{ BASE_RICH, LEGAL_ONCE, "each slot in one place", { { SLOT(0, SLOT_CHAIN_LINK), 6 } } },
	{ BASE_RICH, LEGAL_ONCE, "each slot in one place", { { SLOT(15, SLOT_QUEUE_LINK), 11 } } },
	{ BASE_RICH, LEGAL_ONCE, "each slot in one place", { { SLOT(9, SLOT_QUEUE_LINK), 10 } } },
	{ BASE_RICH, LEGAL_ONCE, "each slot in one place", { { SLOT(9, SLOT_QUEUE_LINK), 10 },
			QUEUE(GLOBAL(GLOBAL_CURRENT), 8, 10, 3) } },
	{ BASE_RICH, LEGAL_ONCE, "each slot in one place", { { SLOT(6, SLOT_QUEUE_LINK), 0 } } },
	{ BASE_RICH, LEGAL_ONCE, "each slot in one place", { { SLOT(6, SLOT_QUEUE_LINK), 0 },
			QUEUE(LANE(0, LANE_DONE), 6, 0, 2) } },
	{ BASE_RICH, LEGAL_ONCE, "each slot in one place", { { SLOT(13, SLOT_QUEUE_LINK), 15 },
			{ GLOBAL(GLOBAL_FREE + QUEUE_LENGTH), 4 } } },
	{ BASE_RICH, LEGAL_ONCE, "each slot in one place", { QUEUE(LANE(0, LANE_NEXT), 2, 2, 1) } },
	{ BASE_RICH, LEGAL_ONCE, "each slot in one place", { EMPTY(LANE(0, LANE_DONE)) } },

	{ BASE_RICH, LEGAL_LASTS, "queues agree with last", { { GLOBAL(GLOBAL_FREE + QUEUE_LAST), 14 } } },
	{ BASE_RICH, LEGAL_LASTS, "queues agree with last", { { GLOBAL(GLOBAL_FREE + QUEUE_LAST), NONE } } },
	{ BASE_RICH, LEGAL_LASTS, "queues agree with last", { { GLOBAL(GLOBAL_CURRENT + QUEUE_LAST), 8 } } },
	{ BASE_RICH, LEGAL_LASTS, "queues agree with last", { { GLOBAL(GLOBAL_NEXT + QUEUE_LAST), 9 } } },
	{ BASE_RICH, LEGAL_LASTS, "queues agree with last", { { GLOBAL(GLOBAL_DONE + QUEUE_LAST), NONE } } },
	{ BASE_RICH, LEGAL_LASTS, "queues agree with last", { { LANE(0, LANE_DONE + QUEUE_LAST), NONE } } },
	{ BASE_RICH, LEGAL_EMPTY_ENDS, "ends of an empty queue", { { LANE(0, LANE_NEXT + QUEUE_LAST), 6 } } },
	{ BASE_RICH, LEGAL_EMPTY_ENDS, "ends of an empty queue", { { LANE(3, LANE_CURRENT + QUEUE_LAST), 0 } } },
	{ BASE_RICH, LEGAL_LASTS, "queues agree with last", { { LANE(1, LANE_NEXT + QUEUE_LAST), 3 } } },

	/* The rich table's lines, one more each; damaged.c tries other lengths of each. */
	{ BASE_RICH, LEGAL_LENGTHS, "length of a queue", { { GLOBAL(GLOBAL_FREE + QUEUE_LENGTH), 6 } } },
	{ BASE_RICH, LEGAL_LENGTHS, "length of a queue", { { GLOBAL(GLOBAL_NEXT + QUEUE_LENGTH), 2 } } },
	{ BASE_RICH, LEGAL_LENGTHS, "length of a queue", { { GLOBAL(GLOBAL_CURRENT + QUEUE_LENGTH), 3 } } },
	{ BASE_RICH, LEGAL_LENGTHS, "length of a queue", { { GLOBAL(GLOBAL_DONE + QUEUE_LENGTH), 2 } } },
	{ BASE_RICH, LEGAL_LENGTHS, "length of a queue", { { LANE(0, LANE_NEXT + QUEUE_LENGTH), 1 } } },
	{ BASE_RICH, LEGAL_LENGTHS, "length of a queue", { { LANE(0, LANE_CURRENT + QUEUE_LENGTH), 1 } } },
	{ BASE_RICH, LEGAL_LENGTHS, "length of a queue", { { LANE(0, LANE_DONE + QUEUE_LENGTH), 2 } } },
	{ BASE_RICH, LEGAL_LENGTHS, "length of a queue", { { LANE(1, LANE_NEXT + QUEUE_LENGTH), 2 } } },
	{ BASE_RICH, LEGAL_LENGTHS, "length of a queue", { { LANE(1, LANE_CURRENT + QUEUE_LENGTH), 2 } } },
	{ BASE_RICH, LEGAL_LENGTHS, "length of a queue", { { LANE(1, LANE_DONE + QUEUE_LENGTH), 1 } } },
	{ BASE_RICH, LEGAL_LENGTHS, "length of a queue", { { LANE(2, LANE_NEXT + QUEUE_LENGTH), 1 } } },
	{ BASE_RICH, LEGAL_LENGTHS, "length of a queue", { { LANE(2, LANE_CURRENT + QUEUE_LENGTH), 2 } } },
	{ BASE_RICH, LEGAL_LENGTHS, "length of a queue", { { LANE(2, LANE_DONE + QUEUE_LENGTH), 1 } } },
	{ BASE_RICH, LEGAL_LENGTHS, "length of a queue", { { LANE(3, LANE_NEXT + QUEUE_LENGTH), 1 } } },
	{ BASE_RICH, LEGAL_LENGTHS, "length of a queue", { { LANE(3, LANE_CURRENT + QUEUE_LENGTH), 1 } } },
	{ BASE_RICH, LEGAL_LENGTHS, "length of a queue", { { LANE(3, LANE_DONE + QUEUE_LENGTH), 1 } } },
	/* As many in all, and in other lines. */
	{ BASE_RICH, LEGAL_LENGTHS, "length of a queue", { { GLOBAL(GLOBAL_FREE + QUEUE_LENGTH), 4 },
			{ GLOBAL(GLOBAL_NEXT + QUEUE_LENGTH), 2 } } },
	{ BASE_RICH, LEGAL_LENGTHS, "length of a queue", { { LANE(0, LANE_NEXT + QUEUE_LENGTH), 1 },
			{ LANE(0, LANE_DONE + QUEUE_LENGTH), 0 } } },

	{ BASE_RICH, LEGAL_CHAINS, "chain of the code", { { SLOT(4, SLOT_CODE + CODE_LOW), 18 } } },
	{ BASE_RICH, LEGAL_CHAINS, "chain of the code", { { SLOT(0, SLOT_CODE + CODE_LOW), 63 } } },
	{ BASE_RICH, LEGAL_CHAINS, "chain of the code", { { GLOBAL(GLOBAL_CHAINS + 17), NONE },
			{ GLOBAL(GLOBAL_CHAINS + 18), 4 } } },
	{ BASE_RICH, LEGAL_TWICE, "no code twice", { { SLOT(0, SLOT_CODE + CODE_LOW), 192 } } },
	{ BASE_RICH, LEGAL_TWICE, "no code twice", { { SLOT(1, SLOT_CODE + CODE_LOW), 0 } } },

	{ BASE_RICH, LEGAL_SNAPSHOTS_REST, "snapshot counts at rest", { { SNAPSHOT(0, 0, COUNT_LOW), 1 } } },
	{ BASE_RICH, LEGAL_SNAPSHOTS_REST, "snapshot counts at rest", { { SNAPSHOT(0, 0, COUNT_HIGH), 1 } } },
	{ BASE_RICH, LEGAL_SNAPSHOTS_REST, "snapshot counts at rest", { { SNAPSHOT(0, 1, COUNT_HIGH), NONE } } },
	{ BASE_RICH, LEGAL_SNAPSHOTS_REST, "snapshot counts at rest", { { SNAPSHOT(0, 3, COUNT_LOW), NONE } } },
	{ BASE_RICH, LEGAL_SNAPSHOTS_REST, "snapshot counts at rest", { { SNAPSHOT(2, 3, COUNT_HIGH), 1 } } },
	{ BASE_RICH, LEGAL_SNAPSHOTS_REST, "snapshot counts at rest", { { SNAPSHOT(3, 1, COUNT_LOW), 1 } } },
	{ BASE_RICH, LEGAL_SNAPSHOTS_REST, "snapshot counts at rest", { { SNAPSHOT(3, 2, COUNT_HIGH), 1 } } },
	{ BASE_RICH, LEGAL_LOOKUPS_REST, "lookup words at rest", { { LANE(1, LANE_CODE + CODE_LOW), 1 } } },
	{ BASE_RICH, LEGAL_LOOKUPS_REST, "lookup words at rest", { { LANE(1, LANE_CODE + CODE_HIGH), 1 } } },
	{ BASE_RICH, LEGAL_LOOKUPS_REST, "lookup words at rest", { { LANE(1, LANE_POSITION), 0 } } },
	{ BASE_RICH, LEGAL_GENERATIONS_REST, "generation at rest", { { LANE(0, LANE_GENERATION), 3 } } },
	{ BASE_RICH, LEGAL_GENERATIONS_REST, "generation at rest", { { LANE(3, LANE_GENERATION), NONE } } },
	{ BASE_RICH, LEGAL_LINKS_REST, "queue link at rest", { { SLOT(0, SLOT_QUEUE_LINK), 1 } } },
	{ BASE_RICH, LEGAL_LINKS_REST, "queue link at rest", { { SLOT(4, SLOT_QUEUE_LINK), 4 } } },

	{ BASE_RICH, LEGAL_OFFLINE, "offline: no section", { { LANE(3, LANE_FLAGS), FLAG_READING } } },
	{ BASE_RICH, LEGAL_OFFLINE, "offline: no mask bit", { { YARD(0), 3 }, { CABINET(1), 2 } } },
	{ BASE_RICH, LEGAL_OFFLINE, "offline: no mask bit", { { CABINET(2), 3 } } },
	{ BASE_RICH, LEGAL_OFFLINE, "offline: no mask bit", {
		{ GLOBAL(GLOBAL_PENDING), 7 }, { YARD(2), 2 }, { CABINET(5), 2 } } },
	{ BASE_RICH, LEGAL_OFFLINE, "offline: no next queue", {
		EMPTY(LANE(0, LANE_DONE)), QUEUE(LANE(3, LANE_NEXT), 6, 6, 1) } },
	{ BASE_RICH, LEGAL_OFFLINE, "offline: no current queue", {
		EMPTY(LANE(0, LANE_DONE)), QUEUE(LANE(3, LANE_CURRENT), 6, 6, 1),
		{ LANE(3, LANE_GENERATION), 3 } } },
	{ BASE_RICH, LEGAL_OFFLINE, "offline: no done queue", {
		EMPTY(LANE(0, LANE_DONE)), QUEUE(LANE(3, LANE_DONE), 6, 6, 1) } },

	{ BASE_RICH, LEGAL_LOOKUP_IN_SECTION, "lookup in a section", { { LANE(0, LANE_FLAGS), FLAG_ONLINE | FLAG_LOOKUP } } },
	{ BASE_RICH, LEGAL_SNAPSHOT_PENDING, "snapshot with a bit", { { LANE(2, LANE_FLAGS), FLAG_ONLINE | FLAG_SNAPSHOT } } },
	{ BASE_RICH, LEGAL_CABINET_BITS, "cabinet's bit, set wrongly", { { YARD(0), 3 } } },
	{ BASE_RICH, LEGAL_CABINET_BITS, "cabinet's bit, set wrongly", { { YARD(1), 3 } } },
	{ BASE_RICH, LEGAL_CABINET_BITS, "cabinet's bit, set wrongly", { { GLOBAL(GLOBAL_PENDING), 7 }, { YARD(2), 1 } } },
	{ BASE_RICH, LEGAL_CABINET_BITS, "cabinet's bit, of another", { { YARD(0), 2 } } },
	{ BASE_RICH, LEGAL_CABINET_BITS, "cabinet's bit, missing", { { CABINET(1), 1 } } },
	{ BASE_RICH, LEGAL_CABINET_BITS, "cabinet's bit, missing", { { GLOBAL(GLOBAL_PENDING), 1 }, { YARD(1), 0 } } },
	{ BASE_RICH, LEGAL_CABINET_BITS, "the lane's bit is missing", { { CABINET(2), 0 } } },
	{ BASE_RICH, LEGAL_YARD_BITS, "yard's bit, set wrongly", { { GLOBAL(GLOBAL_PENDING), 7 } } },
	{ BASE_RICH, LEGAL_YARD_BITS, "yard's bit, of another", { { GLOBAL(GLOBAL_PENDING), 5 } } },
	{ BASE_RICH, LEGAL_YARD_BITS, "yard's bit, missing", { { GLOBAL(GLOBAL_PENDING), 1 } } },
	{ BASE_RICH, LEGAL_YARD_BITS, "yard's bit, missing", { { GLOBAL(GLOBAL_PENDING), 2 } } },
	{ BASE_RICH, LEGAL_YARD_BITS, "the bits of a yard are missing", { { YARD(1), 0 }, { CABINET(2), 0 } } },

	{ BASE_RICH, LEGAL_FREE_SLOTS, "free slot clear", { { SLOT(11, SLOT_CODE + CODE_LOW), 1 } } },
	{ BASE_RICH, LEGAL_FREE_SLOTS, "free slot clear", { { SLOT(12, SLOT_CODE + CODE_HIGH), 1 } } },
	{ BASE_RICH, LEGAL_FREE_SLOTS, "free slot clear", { { SLOT(13, SLOT_DEPOSIT), 1 } } },
	{ BASE_RICH, LEGAL_FREE_SLOTS, "free slot clear", { { SLOT(14, SLOT_MATERIAL), 1 } } },
	{ BASE_RICH, LEGAL_FREE_SLOTS, "free slot clear", { { SLOT(15, SLOT_CHAIN_LINK), 15 } } },

	{ BASE_RICH, LEGAL_LARGEST, "largest requested", { { GLOBAL(GLOBAL_LARGEST_GENERATION), 5 } } },
	{ BASE_RICH, LEGAL_LARGEST, "largest requested", { { GLOBAL(GLOBAL_LARGEST_GENERATION), 2 } } },
	{ BASE_RICH, LEGAL_LARGEST, "largest requested", { { GLOBAL(GLOBAL_LARGEST_GENERATION), 2147483651u } } },

	{ BASE_RICH, LEGAL_LANE_GENERATION, "lane generation", { { LANE(1, LANE_GENERATION), 1 } } },
	{ BASE_RICH, LEGAL_LANE_GENERATION, "lane generation", { { LANE(1, LANE_GENERATION), 0 } } },
	{ BASE_RICH, LEGAL_LANE_GENERATION, "lane generation", { { LANE(1, LANE_GENERATION), 5 } } },
	{ BASE_RICH, LEGAL_LANE_GENERATION, "lane generation", { { LANE(1, LANE_GENERATION), 2147483652u } } },
	{ BASE_RICH, LEGAL_LANE_GENERATION, "lane generation not later than the largest", {
		{ GLOBAL(GLOBAL_LARGEST_GENERATION), 3 }, { GLOBAL(GLOBAL_GENERATION), 3 },
		{ LANE(2, LANE_GENERATION), 3 } } },
	{ BASE_RICH, LEGAL_LANE_GENERATION, "lane generation one before without a bit", { { LANE(2, LANE_GENERATION), 2 } } },
	{ BASE_RICH, LEGAL_GLOBAL_GENERATION, "global generation", { { GLOBAL(GLOBAL_GENERATION), 2 } } },
	{ BASE_RICH, LEGAL_GLOBAL_GENERATION, "global generation", { { GLOBAL(GLOBAL_GENERATION), 5 } } },
	{ BASE_RICH, LEGAL_GLOBAL_GENERATION, "global generation not later than the largest", {
		{ GLOBAL(GLOBAL_LARGEST_GENERATION), 3 }, { LANE(1, LANE_GENERATION), 3 },
		{ LANE(2, LANE_GENERATION), 3 } } },

	{ BASE_FRESH, LEGAL_CONTENTS, "contents agree", { { CONTENTS_VERSION, 0x04000000 } } },
	{ BASE_FRESH, LEGAL_LENGTHS, "length of a queue", { { GLOBAL(GLOBAL_FREE + QUEUE_LENGTH), 15 } } },
	{ BASE_FRESH, LEGAL_LENGTHS, "length of a queue", { { GLOBAL(GLOBAL_FREE + QUEUE_LENGTH), 0 } } },
	{ BASE_FRESH, LEGAL_LENGTHS, "length of a queue", { { GLOBAL(GLOBAL_FREE + QUEUE_LENGTH), NONE } } },
	{ BASE_FRESH, LEGAL_LENGTHS, "length of a queue", { { LANE(0, LANE_DONE + QUEUE_LENGTH), NONE } } },
	{ BASE_FRESH, LEGAL_GENERATIONS_REST, "generation at rest", { { GLOBAL(GLOBAL_GENERATION), 1 } } },
	{ BASE_FRESH, LEGAL_OFFLINE, "offline: no section", { { LANE(0, LANE_FLAGS), FLAG_READING } } },
	{ BASE_FRESH, LEGAL_SNAPSHOT_PENDING, "snapshot with a bit", { { LANE(0, LANE_FLAGS), FLAG_ONLINE | FLAG_SNAPSHOT } } },
	{ BASE_FRESH, LEGAL_LOOKUP_IN_SECTION, "lookup in a section", { { LANE(0, LANE_FLAGS), FLAG_ONLINE | FLAG_LOOKUP } } },
	{ BASE_FRESH, LEGAL_CABINET_BITS, "cabinet's bit, set wrongly", { { GLOBAL(GLOBAL_PENDING), 1 }, { YARD(0), 1 },
		{ GLOBAL(GLOBAL_LARGEST_GENERATION), 1 } } },
	{ BASE_FRESH, LEGAL_CABINET_BITS, "cabinet's bit, missing", { { CABINET(0), 1 } } },
	{ BASE_FRESH, LEGAL_CABINET_BITS, "cabinet's bit, missing", { { CABINET(5), 2 } } },
	{ BASE_FRESH, LEGAL_YARD_BITS, "yard's bit, set wrongly", { { GLOBAL(GLOBAL_PENDING), 4 },
		{ GLOBAL(GLOBAL_LARGEST_GENERATION), 1 } } },
	{ BASE_FRESH, LEGAL_YARD_BITS, "yard's bit, missing", { { YARD(2), 2 }, { CABINET(5), 3 } } },
	{ BASE_FRESH, LEGAL_LARGEST, "largest requested", { { GLOBAL(GLOBAL_LARGEST_GENERATION), 1 } } },
	{ BASE_FRESH, LEGAL_LARGEST, "largest requested", { { GLOBAL(GLOBAL_LARGEST_GENERATION), NONE } } },
	{ BASE_FRESH, LEGAL_LARGEST, "largest requested", { { GLOBAL(GLOBAL_CURRENT_GENERATION), 2 } } },
	{ BASE_FRESH, LEGAL_LARGEST, "largest requested", { { GLOBAL(GLOBAL_PENDING), 1 }, { YARD(0), 1 }, { CABINET(0), 1 } } },
	{ BASE_FRESH, LEGAL_LARGEST, "largest requested", { { GLOBAL(GLOBAL_PENDING), 4 }, { YARD(2), 2 }, { CABINET(5), 2 } } },
	/* With no grace period running, a lane's current queue is one before at most. */
	{ BASE_FRESH, LEGAL_LANE_GENERATION, "lane generation not later than the largest", {
		FIRST_TAKEN, QUEUE(LANE(0, LANE_CURRENT), 0, 0, 1), { LANE(0, LANE_GENERATION), 1 } } },
	{ BASE_FRESH, LEGAL_GLOBAL_GENERATION, "global generation", {
		FIRST_TAKEN, QUEUE(GLOBAL(GLOBAL_CURRENT), 0, 0, 1), { GLOBAL(GLOBAL_GENERATION), 0 } } },

	{ BASE_RICH, LEGAL_SENTENCES, "retired slots in a cycle of chain links", {
		{ SLOT(2, SLOT_CHAIN_LINK), 3 }, { SLOT(3, SLOT_CHAIN_LINK), 2 },
		{ SLOT(8, SLOT_CHAIN_LINK), 8 } } },
	{ BASE_RICH, LEGAL_SENTENCES, "retired slots with any code, also a chained one", {
		{ SLOT(2, SLOT_CODE + CODE_LOW), 0 }, { SLOT(3, SLOT_CODE + CODE_LOW), 0 } } },
	{ BASE_RICH, LEGAL_SENTENCES, "older records, with wrong check digits", {
		{ SLOT(0, SLOT_CODE + CODE_LOW), 64 }, { SLOT(4, SLOT_CODE + CODE_LOW), 81 } } },
	{ BASE_RICH, LEGAL_SENTENCES, "retired slot linked to a free one", { { SLOT(2, SLOT_CHAIN_LINK), 15 } } },
	{ BASE_RICH, LEGAL_SENTENCES, "lookup on a slot of another chain", { { LANE(0, LANE_POSITION), 4 } } },
	{ BASE_RICH, LEGAL_SENTENCES, "lookup on a free slot", { { LANE(0, LANE_POSITION), 11 } } },
	{ BASE_RICH, LEGAL_SENTENCES, "lookup at the end", { { LANE(0, LANE_POSITION), NONE } } },
	{ BASE_RICH, LEGAL_SENTENCES, "largest code in a lookup", { { LANE(0, LANE_CODE + CODE_LOW), CODE_BEYOND_LOW - 1 },
		{ LANE(0, LANE_CODE + CODE_HIGH), CODE_BEYOND_HIGH } } },
	{ BASE_RICH, LEGAL_SENTENCES, "snapshot with a queue one before", { { LANE(1, LANE_GENERATION), 2 } } },
	{ BASE_RICH, LEGAL_SENTENCES, "queues at the current generation", {
		{ LANE(1, LANE_GENERATION), 3 }, { LANE(2, LANE_GENERATION), 3 },
		{ GLOBAL(GLOBAL_GENERATION), 3 }, { GLOBAL(GLOBAL_LARGEST_GENERATION), 3 } } },
	{ BASE_RICH, LEGAL_SENTENCES, "counts of an offline lane", { { LANE(3, LANE_COUNTS), NONE },
		{ LANE(3, LANE_COUNTS + COUNT_HIGH), NONE } } },
	{ BASE_RICH, LEGAL_SENTENCES, "snapshot far from the counts", { { SNAPSHOT(1, 2, COUNT_LOW), 77 } } },
	{ BASE_RICH, LEGAL_SENTENCES, "snapshot far from the counts", { { SNAPSHOT(1, 2, COUNT_HIGH), NONE } } },
	{ BASE_RICH, LEGAL_SENTENCES, "a period that waits for one lane", { { CABINET(0), 2 }, { CABINET(2), 0 }, { YARD(1), 0 },
		{ GLOBAL(GLOBAL_PENDING), 1 } } },
	{ BASE_FRESH, LEGAL_SENTENCES, "a period that waits for the last lane", { { GLOBAL(GLOBAL_PENDING), 4 }, { YARD(2), 2 },
		{ CABINET(5), 2 }, { GLOBAL(GLOBAL_LARGEST_GENERATION), 1 } } },
	{ BASE_RICH, LEGAL_SENTENCES, "generations at the wrap", {
		{ GLOBAL(GLOBAL_CURRENT_GENERATION), NONE },
		{ GLOBAL(GLOBAL_LARGEST_GENERATION), 0 },
		{ LANE(1, LANE_GENERATION), 0 }, { LANE(2, LANE_GENERATION), NONE },
		{ GLOBAL(GLOBAL_GENERATION), 0 } } },

	{ BASE_FRESH, LEGAL_SENTENCES, "all lanes offline", { { LANE(0, LANE_FLAGS), 0 }, { LANE(1, LANE_FLAGS), 0 },
		{ LANE(2, LANE_FLAGS), 0 }, { LANE(3, LANE_FLAGS), 0 }, { LANE(4, LANE_FLAGS), 0 }, { LANE(5, LANE_FLAGS), 0 },
		{ LANE(6, LANE_FLAGS), 0 }, { LANE(7, LANE_FLAGS), 0 }, { LANE(8, LANE_FLAGS), 0 }, { LANE(9, LANE_FLAGS), 0 },
		{ LANE(10, LANE_FLAGS), 0 }, { LANE(11, LANE_FLAGS), 0 } } },
	{ BASE_FRESH, LEGAL_SENTENCES, "no grace period and a global next queue", {
		FIRST_TAKEN, QUEUE(GLOBAL(GLOBAL_NEXT), 0, 0, 1) } },
	{ BASE_FRESH, LEGAL_SENTENCES, "a current queue of generation 0", {
		FIRST_TAKEN, QUEUE(LANE(0, LANE_CURRENT), 0, 0, 1) } },
	{ BASE_FRESH, LEGAL_SENTENCES, "any current generation", { { GLOBAL(GLOBAL_CURRENT_GENERATION), 2147483648u },
		{ GLOBAL(GLOBAL_LARGEST_GENERATION), 2147483647u } } },
};

const size_t damage_count = sizeof damages / sizeof damages[0];

void damage_memory(uint32_t *memory, const struct damage *damage)
{
	for (int n = 0; n < POKES; n++)
		if (damage->poke[n].address != 0 || damage->poke[n].value != 0)
			memory[damage->poke[n].address] = damage->poke[n].value;
}
