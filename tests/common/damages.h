/*
 * damages.h - memories with changed words: for each sentence of documents 01 and 02 on legal
 * memories, words that break it and, where one can be found, no other; and odd memories
 * that are legal all the same.
 */
#ifndef COMMON_DAMAGES_H
#define COMMON_DAMAGES_H

#include <stddef.h>
#include <stdint.h>

#include "reference.h"

/* The sizes of the tables that are damaged. */
enum {
	DAMAGES_YARDS = 3,
	DAMAGES_CABINETS = 2,
	DAMAGES_LANES = 2,
	DAMAGES_SLOTS = 16,
	DAMAGES_ALL_CABINETS = DAMAGES_YARDS * DAMAGES_CABINETS,
	DAMAGES_ALL_LANES = DAMAGES_ALL_CABINETS * DAMAGES_LANES
};

/* The calls that make the rich table, a set-up first; the set-up alone makes the fresh one. */
extern const char *const rich_calls[];
extern const size_t rich_count;

enum base { BASE_FRESH, BASE_RICH };

enum { POKES = 12 };

/* Words that are changed; no poke has address 0 and value 0 but the unused ones. */
struct damage {
	enum base base;
	enum legal_sentence sentence; /* that breaks; LEGAL_SENTENCES: the memory is legal */
	const char *what;
	struct poke {
		uint32_t address;
		uint32_t value;
	} poke[POKES];
};

extern const struct damage damages[];
extern const size_t damage_count;

/* Changes the words. */
void damage_memory(uint32_t *memory, const struct damage *damage);

#endif /* COMMON_DAMAGES_H */
