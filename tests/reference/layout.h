/*
 * layout.h - where the words of a table's memory stand (document 01, "The memory"; a queue's
 * length: document 02, request 6; counts of two words: request 7; yards: request 8).
 * Each record is the list of its words in their order; lengths and totals follow.
 */
#ifndef REFERENCE_LAYOUT_H
#define REFERENCE_LAYOUT_H

#include <stdint.h>

enum { LAYOUT_VERSION = 4, CHAINS = 64, KINDS = 4 };

/* Words of a queue, its two ends and its length, of a code, and of a count. */
enum { QUEUE_FIRST, QUEUE_LAST, QUEUE_LENGTH, QUEUE_WORDS };
enum { CODE_LOW, CODE_HIGH, CODE_WORDS };
enum { COUNT_LOW, COUNT_HIGH, COUNT_WORDS };

/* The bodies after the contents, in their order. */
enum { BODY_GLOBAL, BODY_CABINETS, BODY_LANES, BODY_SLOTS, BODY_YARDS, BODIES };

enum contents_word {
	CONTENTS_VERSION,
	CONTENTS_CABINETS, /* in each yard */
	CONTENTS_LANES, /* in each cabinet */
	CONTENTS_SLOTS,
	CONTENTS_BODIES, /* first word and length of each */
	CONTENTS_YARDS = CONTENTS_BODIES + 2 * BODIES,
	CONTENTS_WORDS
};

enum global_word {
	GLOBAL_CURRENT_GENERATION,
	GLOBAL_LARGEST_GENERATION,
	GLOBAL_PENDING, /* mask of yards */
	GLOBAL_CHAINS,
	GLOBAL_FREE = GLOBAL_CHAINS + CHAINS,
	GLOBAL_NEXT = GLOBAL_FREE + QUEUE_WORDS,
	GLOBAL_CURRENT = GLOBAL_NEXT + QUEUE_WORDS,
	GLOBAL_DONE = GLOBAL_CURRENT + QUEUE_WORDS,
	GLOBAL_GENERATION = GLOBAL_DONE + QUEUE_WORDS, /* of the current queue */
	GLOBAL_WORDS
};

enum cabinet_word {
	CABINET_PENDING, /* mask of lanes */
	CABINET_WORDS
};

enum lane_word {
	LANE_FLAGS,
	LANE_COUNTS,
	LANE_SNAPSHOT = LANE_COUNTS + COUNT_WORDS * KINDS,
	LANE_GENERATION = LANE_SNAPSHOT + COUNT_WORDS * KINDS, /* of the current queue */
	LANE_NEXT,
	LANE_CURRENT = LANE_NEXT + QUEUE_WORDS,
	LANE_DONE = LANE_CURRENT + QUEUE_WORDS,
	LANE_CODE = LANE_DONE + QUEUE_WORDS, /* of the lookup */
	LANE_POSITION = LANE_CODE + CODE_WORDS,
	LANE_WORDS
};

/* Bits of a lane's flags. */
enum lane_flag {
	FLAG_ONLINE = 1,
	FLAG_READING = 2,
	FLAG_LOOKUP = 4,
	FLAG_SNAPSHOT = 8,
	FLAGS = 16 /* flags are below this */
};

enum slot_word {
	SLOT_CODE,
	SLOT_DEPOSIT = SLOT_CODE + CODE_WORDS,
	SLOT_MATERIAL,
	SLOT_CHAIN_LINK,
	SLOT_QUEUE_LINK,
	SLOT_WORDS
};

enum yard_word {
	YARD_PENDING, /* mask of its cabinets */
	YARD_WORDS
};

/* The sizes of a table, in the order of a set-up's arguments. */
struct sizes {
	uint32_t yards;
	uint32_t cabinets; /* in each yard */
	uint32_t lanes;	   /* in each cabinet */
	uint32_t slots;
};

/* The cabinets of all yards, and the lanes of all cabinets. */
static inline uint32_t sizes_cabinets(struct sizes sizes)
{
	return sizes.yards * sizes.cabinets;
}

static inline uint32_t sizes_lanes(struct sizes sizes)
{
	return sizes_cabinets(sizes) * sizes.lanes;
}

/* The sizes that the contents of a memory tell. */
static inline struct sizes sizes_of(const uint32_t *memory)
{
	return (struct sizes){ memory[CONTENTS_YARDS], memory[CONTENTS_CABINETS],
		memory[CONTENTS_LANES], memory[CONTENTS_SLOTS] };
}

/* First word and length of each body of a table, and the total. */
struct layout {
	uint32_t first[BODIES];
	uint32_t length[BODIES];
	uint32_t total;
};

/* The layout for sizes in range. */
struct layout layout_of(struct sizes sizes);

#endif /* REFERENCE_LAYOUT_H */
