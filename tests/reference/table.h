/*
 * table.h - a table as C structs, read from the words of its memory and written
 * back to them. A lane is a CPU, a cabinet a quad of the paper; yards stand above cabinets.
 */
#ifndef REFERENCE_TABLE_H
#define REFERENCE_TABLE_H

#include <stdbool.h>
#include <stddef.h>
#include <stdint.h>

#include "layout.h"
#include "product_table.h"

/* A queue of slots: its ends, both none while it is empty, and how many slots it has. */
struct queue {
	uint32_t first;
	uint32_t last;
	uint32_t length;
};

/* An owner's queues of retired slots: those of a lane, or the global ones. */
struct retired {
	uint32_t generation; /* of the current queue, 0 while that is empty */
	struct queue next;
	struct queue current;
	struct queue done;
};

struct lane {
	uint32_t flags;
	uint64_t counts[KINDS]; /* quiescent states by kind */
	uint64_t snapshot[KINDS];
	struct retired retired;
	uint64_t code; /* of the lookup */
	uint32_t position;
};

struct slot {
	uint64_t code;
	uint32_t deposit;
	uint32_t material;
	uint32_t chain_link;
	uint32_t queue_link;
};

/* The most cabinets of all yards, and lanes of all cabinets. */
enum { TABLE_CABINETS = PT_MAX_YARDS * PT_MAX_CABINETS, TABLE_LANES = TABLE_CABINETS * PT_MAX_LANES };

struct table {
	struct sizes sizes;
	uint32_t current; /* generation */
	uint32_t largest; /* generation requested */
	uint32_t pending_yards;
	uint32_t heads[CHAINS];
	struct queue free;
	struct retired global;
	uint32_t pending_cabinets[PT_MAX_YARDS];
	uint32_t pending_lanes[TABLE_CABINETS];
	struct lane lane[TABLE_LANES];
	struct slot slot[PT_MAX_SLOTS];
};

/* Where a lane stands: its yard, its cabinet there, and its place in that. */
struct place {
	uint32_t yard;
	uint32_t cabinet; /* of the yard */
	uint32_t place;
};

/* The number of a cabinet among those of all yards. */
static inline uint32_t table_cabinet(const struct table *table, uint32_t yard, uint32_t cabinet)
{
	return yard * table->sizes.cabinets + cabinet;
}

/* The number of lanes of all cabinets. */
static inline uint32_t table_lanes(const struct table *table)
{
	return sizes_lanes(table->sizes);
}

/* Where a lane stands that there is, by its number; nothing is divided. */
struct place table_place(const struct table *table, uint32_t lane);

/* Whether the running grace period waits for the lane that stands there. */
static inline bool place_pending(const struct table *table, struct place at)
{
	return table->pending_lanes[table_cabinet(table, at.yard, at.cabinet)] >> at.place & 1u;
}

/* The same of a lane by its number. */
static inline bool table_pending(const struct table *table, uint32_t lane)
{
	return place_pending(table, table_place(table, lane));
}

/* Whether generation @a is later than @b: their wrapping difference is 1 to 2^31 - 1. */
static inline bool generation_later(uint32_t a, uint32_t b)
{
	uint32_t ahead = a - b;

	return ahead >= 1 && ahead <= 2147483647u;
}

/* Whether the sizes of a table are in range. */
bool sizes_in_range(struct sizes sizes);

/* Reads a memory whose contents agree with its sizes and its length. */
void table_read(struct table *table, const uint32_t *memory);

/* Writes the contents and all bodies, the words below the total and no other. */
void table_write(const struct table *table, uint32_t *memory);

/* Reads the memory if it is legal; returns whether it is. */
bool table_read_legal(struct table *table, const uint32_t *memory, size_t words);

#endif /* REFERENCE_TABLE_H */
