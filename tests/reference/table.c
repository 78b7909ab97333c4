/*
 * table.c - reading a table from the words of its memory, and writing it back
 * (document 01, "The memory"; counts of 64 bits: document 02, request 7; yards: request 8);
 * where a lane stands (requests 4 and 8).
 */
#include "table.h"

bool sizes_in_range(struct sizes sizes)
{
	return sizes.yards >= 1 && sizes.yards <= PT_MAX_YARDS &&
		sizes.cabinets >= 1 && sizes.cabinets <= PT_MAX_CABINETS &&
		sizes.lanes >= 1 && sizes.lanes <= PT_MAX_LANES &&
		sizes.slots >= 1 && sizes.slots <= PT_MAX_SLOTS;
}

struct layout layout_of(struct sizes sizes)
{
	struct layout layout = { .length = {
		[BODY_GLOBAL] = GLOBAL_WORDS,
		[BODY_CABINETS] = CABINET_WORDS * sizes_cabinets(sizes),
		[BODY_LANES] = LANE_WORDS * sizes_lanes(sizes),
		[BODY_SLOTS] = SLOT_WORDS * sizes.slots,
		[BODY_YARDS] = YARD_WORDS * sizes.yards,
	} };
	uint32_t at = CONTENTS_WORDS;

	for (int body = 0; body < BODIES; body++) {
		layout.first[body] = at;
		at += layout.length[body];
	}
	layout.total = at;
	return layout;
}

enum { SUBTRACTIONS = 7 }; /* at most: there are at most eight yards, and eight cabinets in each */

/* The size is subtracted until what is left is below it; returns how often. */
static uint32_t subtract(uint32_t *left, uint32_t size)
{
	uint32_t times = 0;

	while (times < SUBTRACTIONS && *left >= size) {
		*left -= size;
		times++;
	}
	return times;
}

/* First the lanes of a yard, and then those of a cabinet; what is left is the place. */
struct place table_place(const struct table *table, uint32_t lane)
{
	struct place at = { .place = lane };

	at.yard = subtract(&at.place, table->sizes.cabinets * table->sizes.lanes);
	at.cabinet = subtract(&at.place, table->sizes.lanes);
	return at;
}

static uint64_t read_code(const uint32_t *word)
{
	return (uint64_t)word[CODE_HIGH] << 32 | word[CODE_LOW];
}

static void write_code(uint32_t *word, uint64_t code)
{
	word[CODE_LOW] = (uint32_t)code;
	word[CODE_HIGH] = (uint32_t)(code >> 32);
}

static uint64_t read_count(const uint32_t *word)
{
	return (uint64_t)word[COUNT_HIGH] << 32 | word[COUNT_LOW];
}

static void write_count(uint32_t *word, uint64_t count)
{
	word[COUNT_LOW] = (uint32_t)count;
	word[COUNT_HIGH] = (uint32_t)(count >> 32);
}

static struct queue read_queue(const uint32_t *word)
{
	return (struct queue){ .first = word[QUEUE_FIRST], .last = word[QUEUE_LAST],
		.length = word[QUEUE_LENGTH] };
}

static void write_queue(uint32_t *word, struct queue queue)
{
	word[QUEUE_FIRST] = queue.first;
	word[QUEUE_LAST] = queue.last;
	word[QUEUE_LENGTH] = queue.length;
}

static void read_global(struct table *table, const uint32_t *word)
{
	table->current = word[GLOBAL_CURRENT_GENERATION];
	table->largest = word[GLOBAL_LARGEST_GENERATION];
	table->pending_yards = word[GLOBAL_PENDING];
	for (int chain = 0; chain < CHAINS; chain++)
		table->heads[chain] = word[GLOBAL_CHAINS + chain];
	table->free = read_queue(word + GLOBAL_FREE);
	table->global.next = read_queue(word + GLOBAL_NEXT);
	table->global.current = read_queue(word + GLOBAL_CURRENT);
	table->global.done = read_queue(word + GLOBAL_DONE);
	table->global.generation = word[GLOBAL_GENERATION];
}

static void write_global(const struct table *table, uint32_t *word)
{
	word[GLOBAL_CURRENT_GENERATION] = table->current;
	word[GLOBAL_LARGEST_GENERATION] = table->largest;
	word[GLOBAL_PENDING] = table->pending_yards;
	for (int chain = 0; chain < CHAINS; chain++)
		word[GLOBAL_CHAINS + chain] = table->heads[chain];
	write_queue(word + GLOBAL_FREE, table->free);
	write_queue(word + GLOBAL_NEXT, table->global.next);
	write_queue(word + GLOBAL_CURRENT, table->global.current);
	write_queue(word + GLOBAL_DONE, table->global.done);
	word[GLOBAL_GENERATION] = table->global.generation;
}

static void read_lane(struct lane *lane, const uint32_t *word)
{
	lane->flags = word[LANE_FLAGS];
	for (int kind = 0; kind < KINDS; kind++) {
		lane->counts[kind] = read_count(word + LANE_COUNTS + COUNT_WORDS * kind);
		lane->snapshot[kind] = read_count(word + LANE_SNAPSHOT + COUNT_WORDS * kind);
	}
	lane->retired.generation = word[LANE_GENERATION];
	lane->retired.next = read_queue(word + LANE_NEXT);
	lane->retired.current = read_queue(word + LANE_CURRENT);
	lane->retired.done = read_queue(word + LANE_DONE);
	lane->code = read_code(word + LANE_CODE);
	lane->position = word[LANE_POSITION];
}

static void write_lane(const struct lane *lane, uint32_t *word)
{
	word[LANE_FLAGS] = lane->flags;
	for (int kind = 0; kind < KINDS; kind++) {
		write_count(word + LANE_COUNTS + COUNT_WORDS * kind, lane->counts[kind]);
		write_count(word + LANE_SNAPSHOT + COUNT_WORDS * kind, lane->snapshot[kind]);
	}
	word[LANE_GENERATION] = lane->retired.generation;
	write_queue(word + LANE_NEXT, lane->retired.next);
	write_queue(word + LANE_CURRENT, lane->retired.current);
	write_queue(word + LANE_DONE, lane->retired.done);
	write_code(word + LANE_CODE, lane->code);
	word[LANE_POSITION] = lane->position;
}

static void read_slot(struct slot *slot, const uint32_t *word)
{
	slot->code = read_code(word + SLOT_CODE);
	slot->deposit = word[SLOT_DEPOSIT];
	slot->material = word[SLOT_MATERIAL];
	slot->chain_link = word[SLOT_CHAIN_LINK];
	slot->queue_link = word[SLOT_QUEUE_LINK];
}

static void write_slot(const struct slot *slot, uint32_t *word)
{
	write_code(word + SLOT_CODE, slot->code);
	word[SLOT_DEPOSIT] = slot->deposit;
	word[SLOT_MATERIAL] = slot->material;
	word[SLOT_CHAIN_LINK] = slot->chain_link;
	word[SLOT_QUEUE_LINK] = slot->queue_link;
}

void table_read(struct table *table, const uint32_t *memory)
{
	struct layout layout = layout_of(sizes_of(memory));

	table->sizes = sizes_of(memory);
	read_global(table, memory + layout.first[BODY_GLOBAL]);
	for (uint32_t y = 0; y < table->sizes.yards; y++)
		table->pending_cabinets[y] = memory[layout.first[BODY_YARDS] + YARD_WORDS * y + YARD_PENDING];
	for (uint32_t c = 0; c < sizes_cabinets(table->sizes); c++)
		table->pending_lanes[c] = memory[layout.first[BODY_CABINETS] + CABINET_WORDS * c + CABINET_PENDING];
	for (uint32_t l = 0; l < table_lanes(table); l++)
		read_lane(&table->lane[l], memory + layout.first[BODY_LANES] + LANE_WORDS * l);
	for (uint32_t s = 0; s < table->sizes.slots; s++)
		read_slot(&table->slot[s], memory + layout.first[BODY_SLOTS] + SLOT_WORDS * s);
}

static void write_contents(const struct table *table, uint32_t *word)
{
	struct layout layout = layout_of(table->sizes);

	word[CONTENTS_VERSION] = LAYOUT_VERSION;
	word[CONTENTS_CABINETS] = table->sizes.cabinets;
	word[CONTENTS_LANES] = table->sizes.lanes;
	word[CONTENTS_SLOTS] = table->sizes.slots;
	for (int body = 0; body < BODIES; body++) {
		word[CONTENTS_BODIES + 2 * body] = layout.first[body];
		word[CONTENTS_BODIES + 2 * body + 1] = layout.length[body];
	}
	word[CONTENTS_YARDS] = table->sizes.yards;
}

void table_write(const struct table *table, uint32_t *memory)
{
	struct layout layout = layout_of(table->sizes);

	write_contents(table, memory);
	write_global(table, memory + layout.first[BODY_GLOBAL]);
	for (uint32_t c = 0; c < sizes_cabinets(table->sizes); c++)
		memory[layout.first[BODY_CABINETS] + CABINET_WORDS * c + CABINET_PENDING] = table->pending_lanes[c];
	for (uint32_t l = 0; l < table_lanes(table); l++)
		write_lane(&table->lane[l], memory + layout.first[BODY_LANES] + LANE_WORDS * l);
	for (uint32_t s = 0; s < table->sizes.slots; s++)
		write_slot(&table->slot[s], memory + layout.first[BODY_SLOTS] + SLOT_WORDS * s);
	for (uint32_t y = 0; y < table->sizes.yards; y++)
		memory[layout.first[BODY_YARDS] + YARD_WORDS * y + YARD_PENDING] = table->pending_cabinets[y];
}
