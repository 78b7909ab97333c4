/*
 * full.h - lists that fill tables: every size limit is reached, and what calls count, walk or
 * number goes past 31, 63, 255 and 256 and to its end, so that a count, a bound or a length
 * that is too narrow shows: 1,024 slots in the queues, chains of 270 and of 1,024, all 512
 * lanes, a sentence of legality broken at lanes and slots of these numbers, lookups on every
 * kind of slot, long texts, and lengths beyond 2^32. The trial plays them, tests/run does, and
 * the fuzzer's seeds begin with them.
 */
#ifndef COMMON_FULL_H
#define COMMON_FULL_H

#include <stdbool.h>
#include <stdint.h>

#include "steps.h"

enum {
	FULL_EXPECTED = 12000,
	FULL_SENTENCE = PT_ANSWER_WORDS /* in place of a word: the sentence of legality that the memory breaks */
};

/* A list, and what some of its calls answer, in the order of the steps. */
struct full {
	struct steps steps;
	uint32_t count;
	struct full_word {
		uint32_t step, word, value;
	} expected[FULL_EXPECTED];
};

struct full_list {
	const char *name;
	bool listing; /* its calls alone, on one yard, are a list too */
	bool vast;    /* it needs address space that the system may refuse (beside.h) */
	void (*make)(struct full *full);
};

extern const struct full_list full_lists[];
extern const uint32_t full_count;

/* The list with that number. */
void full_make(struct full *full, uint32_t n);

#endif /* COMMON_FULL_H */
