/*
 * facts.c - what the drawings show, as lines for the program make: the words of a memory
 * from layout.h, the states of the C version after each call of a listing, and its masks at
 * some moments of a grace period.
 * Usage: facts LISTING
 */
#include <inttypes.h>
#include <stdio.h>
#include <string.h>

#include "calls.h"
#include "line.h"
#include "reference.h"
#include "table.h"
#include "lent.h"

/* A field of a record: its first word, how many, and what it is. */
struct field {
	const char *record;
	uint32_t first, words;
	const char *text;
};

static const struct field fields[] = {
	{ "contents", CONTENTS_VERSION, 1, "version, 4" },
	{ "contents", CONTENTS_CABINETS, 1, "cabinets of each yard C, 1 to 8" },
	{ "contents", CONTENTS_LANES, 1, "lanes of each cabinet M, 1 to 8" },
	{ "contents", CONTENTS_SLOTS, 1, "slots S, 1 to 1,024" },
	{ "contents", CONTENTS_BODIES, 2 * BODIES, "first word and length of each body" },
	{ "contents", CONTENTS_YARDS, CONTENTS_WORDS - CONTENTS_YARDS, "yards Y, 1 to 8" },
	{ "global", GLOBAL_CURRENT_GENERATION, 1, "current generation" },
	{ "global", GLOBAL_LARGEST_GENERATION, 1, "largest generation requested" },
	{ "global", GLOBAL_PENDING, 1, "mask of pending yards" },
	{ "global", GLOBAL_CHAINS, CHAINS, "chain heads" },
	{ "global", GLOBAL_FREE, QUEUE_WORDS, "free queue: first, last, length" },
	{ "global", GLOBAL_NEXT, QUEUE_WORDS, "next queue: first, last, length" },
	{ "global", GLOBAL_CURRENT, QUEUE_WORDS, "current queue: first, last, length" },
	{ "global", GLOBAL_DONE, QUEUE_WORDS, "done queue: first, last, length" },
	{ "global", GLOBAL_GENERATION, GLOBAL_WORDS - GLOBAL_GENERATION, "generation of current" },
	{ "cabinet", CABINET_PENDING, CABINET_WORDS, "mask of pending lanes" },
	{ "lane", LANE_FLAGS, 1, "flags: online, section, lookup, snapshot" },
	{ "lane", LANE_COUNTS, COUNT_WORDS * KINDS, "quiescent counts: low, high each" },
	{ "lane", LANE_SNAPSHOT, COUNT_WORDS * KINDS, "snapshot counts: low, high each" },
	{ "lane", LANE_GENERATION, 1, "generation of current" },
	{ "lane", LANE_NEXT, QUEUE_WORDS, "next queue: first, last, length" },
	{ "lane", LANE_CURRENT, QUEUE_WORDS, "current queue: first, last, length" },
	{ "lane", LANE_DONE, QUEUE_WORDS, "done queue: first, last, length" },
	{ "lane", LANE_CODE, CODE_WORDS, "lookup: code low, code high" },
	{ "lane", LANE_POSITION, LANE_WORDS - LANE_POSITION, "lookup: position" },
	{ "slot", SLOT_CODE, CODE_WORDS, "code low, code high" },
	{ "slot", SLOT_DEPOSIT, 1, "deposit" },
	{ "slot", SLOT_MATERIAL, 1, "material" },
	{ "slot", SLOT_CHAIN_LINK, 1, "chain link" },
	{ "slot", SLOT_QUEUE_LINK, SLOT_WORDS - SLOT_QUEUE_LINK, "queue link" },
	{ "yard", YARD_PENDING, YARD_WORDS, "mask of pending cabinets" },
};

static void print_sizes(const char *what, struct sizes sizes)
{
	printf("%s %" PRIu32 " %" PRIu32 " %" PRIu32 " %" PRIu32 "\n", what, sizes.yards, sizes.cabinets, sizes.lanes,
		sizes.slots);
}

static void print_layout(struct sizes sizes)
{
	static const char *const names[BODIES] = { "global", "cabinets", "lanes", "slots", "yards" };
	struct layout layout = layout_of(sizes);

	print_sizes("sizes", sizes);
	printf("body contents 0 %d\n", CONTENTS_WORDS);
	for (int body = 0; body < BODIES; body++)
		printf("body %s %" PRIu32 " %" PRIu32 "\n", names[body], layout.first[body],
			layout.length[body]);
	printf("total %" PRIu32 "\n", layout.total);
	for (size_t n = 0; n < sizeof fields / sizeof fields[0]; n++)
		printf("field %s %" PRIu32 " %" PRIu32 " %s\n", fields[n].record, fields[n].first,
			fields[n].words, fields[n].text);
}

/* ---- the states of a listing */

static bool in_queue(const struct table *t, struct queue queue, uint32_t slot)
{
	uint32_t s = queue.first;

	while (s != PT_NONE && s != slot)
		s = t->slot[s].queue_link;
	return s == slot;
}

static bool in_chain(const struct table *t, uint32_t slot)
{
	for (int chain = 0; chain < CHAINS; chain++)
		for (uint32_t s = t->heads[chain]; s != PT_NONE; s = t->slot[s].chain_link)
			if (s == slot)
				return true;
	return false;
}

/* The queue of an owner that has the slot, or NULL. */
static const char *queue_of(const struct table *t, const struct retired *retired, uint32_t slot)
{
	if (in_queue(t, retired->next, slot))
		return "next";
	if (in_queue(t, retired->current, slot))
		return "current";
	return in_queue(t, retired->done, slot) ? "done" : NULL;
}

static void print_slot(const struct table *t, uint32_t slot)
{
	if (in_chain(t, slot)) {
		printf("slot %" PRIu32 " chain\n", slot);
		return;
	}
	if (in_queue(t, t->free, slot)) {
		printf("slot %" PRIu32 " free\n", slot);
		return;
	}
	for (uint32_t l = 0; l < table_lanes(t); l++)
		if (queue_of(t, &t->lane[l].retired, slot) != NULL)
			printf("slot %" PRIu32 " %s of lane %" PRIu32 "\n", slot,
				queue_of(t, &t->lane[l].retired, slot), l);
	if (queue_of(t, &t->global, slot) != NULL)
		printf("slot %" PRIu32 " global %s\n", slot, queue_of(t, &t->global, slot));
}

static void print_state(const uint32_t *memory)
{
	struct table t;

	table_read(&t, memory);
	printf("engine %" PRIu32 " %" PRIu32 " %d\n", t.current, t.largest,
		t.pending_yards != 0);
	for (uint32_t l = 0; l < table_lanes(&t); l++)
		printf("lane %" PRIu32 " %d %d %d %d %d\n", l, (t.lane[l].flags & FLAG_ONLINE) != 0,
			(t.lane[l].flags & FLAG_READING) != 0, (t.lane[l].flags & FLAG_LOOKUP) != 0,
			(t.lane[l].flags & FLAG_SNAPSHOT) != 0, table_pending(&t, l));
	for (uint32_t s = 0; s < t.sizes.slots; s++)
		print_slot(&t, s);
}

static void print_listing(FILE *listing)
{
	static struct lent lent;
	char line[100];

	lent_start(&lent);
	while (fgets(line, sizeof line, listing) != NULL) {
		struct call call;

		line[strcspn(line, "\n")] = '\0';
		call = lent_call(line);
		lent_make(&lent, &call);
		printf("call %s\nanswer", line);
		for (size_t n = 0; n < PT_ANSWER_WORDS; n++)
			printf(" %" PRIu32, lent.answer[n]);
		printf("\n");
		print_state(lent.memory);
	}
}

/* ---- the masks of a grace period */

/* The table whose masks are drawn. */
enum { YARDS = 2, CABINETS = 2, LANES = 3, SLOTS = 4 };
static const struct sizes drawn = { YARDS, CABINETS, LANES, SLOTS };
static uint32_t memory[PT_WORDS(YARDS, CABINETS, LANES, SLOTS)];
static uint32_t answer[PT_ANSWER_WORDS];

#define LENT memory, sizeof memory / sizeof memory[0], answer, PT_ANSWER_WORDS

/* Where the masks of each level stand: the first word of each. */
static void print_levels(void)
{
	struct layout layout = layout_of(drawn);

	print_sizes("site", drawn);
	printf("level yards %" PRIu32 "\n", layout.first[BODY_GLOBAL] + GLOBAL_PENDING);
	printf("level cabinets %" PRIu32 "\n", layout.first[BODY_YARDS] + YARD_PENDING);
	printf("level lanes %" PRIu32 "\n", layout.first[BODY_CABINETS] + CABINET_PENDING);
}

static void print_masks(const char *level, const uint32_t *masks, uint32_t count)
{
	printf("masks %s", level);
	for (uint32_t n = 0; n < count; n++)
		printf(" %" PRIu32, masks[n]);
	printf("\n");
}

/* The masks now, which lanes are online, and what is said of the moment. */
static void print_moment(const char *text)
{
	struct table t;

	table_read(&t, memory);
	printf("moment %s\n", text);
	print_masks("yards", &t.pending_yards, 1);
	print_masks("cabinets", t.pending_cabinets, drawn.yards);
	print_masks("lanes", t.pending_lanes, sizes_cabinets(drawn));
	printf("online");
	for (uint32_t l = 0; l < table_lanes(&t); l++)
		printf(" %d", (t.lane[l].flags & FLAG_ONLINE) != 0);
	printf("\n");
}

/* The lane has its snapshot and passes; its next clock clears its bit. */
static void pass(uint32_t lane)
{
	CHECK(ref_clock(LENT, lane) == PT_OK);
	CHECK(ref_pass(LENT, lane, PT_IDLE) == PT_OK);
}

static void clear(const uint32_t *lanes, size_t count)
{
	for (size_t n = 0; n < count; n++) {
		pass(lanes[n]);
		CHECK(ref_clock(LENT, lanes[n]) == PT_OK);
	}
}

/* A period that begins, a clock that clears three levels, and the one that ends the period. */
static void print_tree(void)
{
	enum { CODE = 17, OFFLINE = 7, OF_YARD_0 = 4 };
	static const uint32_t first[] = { 0, 1, 2, 3, 5, 6, 10 }, then[] = { 8, 11, 9 };

	print_levels();
	CHECK(ref_setup(LENT, drawn.yards, drawn.cabinets, drawn.lanes, drawn.slots) == PT_OK);
	CHECK(ref_off(LENT, OFFLINE) == PT_OK);
	CHECK(ref_add(LENT, 0, CODE, 0, 0) == PT_OK);
	CHECK(ref_delete(LENT, 0, CODE) == PT_OK);
	CHECK(ref_clock(LENT, 0) == PT_OK);
	print_moment("A grace period begins: the bits of all online lanes, of their cabinets and of their yards are set.");
	clear(first, sizeof first / sizeof first[0]);
	pass(OF_YARD_0);
	print_moment("Clocks clear lanes' bits: of yard 0 lane 4 alone is pending now, and it has passed.");
	CHECK(ref_clock(LENT, OF_YARD_0) == PT_OK);
	print_moment("Lane 4's clock clears upward: its cabinet's last bit goes, so the cabinet's goes, and so the yard's.");
	clear(then, sizeof then / sizeof then[0]);
	print_moment("The last clock ends the grace period: lanes 8, 11 and then 9 have followed, and the yard mask is 0.");
}

int main(int arguments, char **argument)
{
	FILE *listing = arguments == 2 ? fopen(argument[1], "r") : NULL;

	CHECK(listing != NULL);
	print_layout((struct sizes){ PT_MAX_YARDS, PT_MAX_CABINETS, PT_MAX_LANES, PT_MAX_SLOTS });
	print_listing(listing);
	print_tree();
	fclose(listing);
	return 0;
}
