/*
 * damage.c - the legality check of the library beside that of the C version, on a
 * million damaged memories: one to three words of a legal table changed, each to a
 * value that stands near one of document 01's ranges or is copied from another word;
 * words of no meaning; and every length from 0 to 200. Ends with 0 if all agree.
 */
#include <stdbool.h>
#include <stdint.h>
#include <stdio.h>
#include <stdlib.h>
#include <string.h>

#include "draw.h"
#include "layout.h"
#include "reference.h"

extern bool pt_legal(const uint32_t *memory, size_t words);

enum { MOST_OF_A_SIZE = 3, FEW_SLOTS = 12, MANY_SLOTS = 100, TOTAL = PT_WORDS(MOST_OF_A_SIZE, MOST_OF_A_SIZE, MOST_OF_A_SIZE, MANY_SLOTS), PAST = 2 };
enum { WORDS = TOTAL + PAST, TRIES = 1000000, CALLS_OF_A_TABLE = 400, LONGEST = 200 };

static uint32_t memory[WORDS];
static uint32_t damaged[WORDS];
static uint64_t seed = 20261115;
static unsigned long legal_count;
static unsigned long compared;

/* Numbers that look random, the same in every run. */
static uint32_t pick(uint32_t below)
{
	return draw_below(&seed, below);
}

/* A table of random sizes after random calls; its total. */
static uint32_t build(void)
{
	const struct sizes sizes = {
		.yards = 1 + pick(MOST_OF_A_SIZE),
		.cabinets = 1 + pick(MOST_OF_A_SIZE),
		.lanes = 1 + pick(MOST_OF_A_SIZE),
		.slots = 1 + pick(pick(8) == 0 ? MANY_SLOTS : FEW_SLOTS)
	};
	const struct list list = { .sizes = sizes, .codes = 16, .generation = 1 };
	struct call call = { CALL_SETUP, { sizes.yards, sizes.cabinets, sizes.lanes, sizes.slots } };
	uint32_t answer[PT_ANSWER_WORDS];
	uint32_t total = layout_of(sizes).total;

	memset(memory, 0, sizeof(memory));
	for (int n = 0; n < CALLS_OF_A_TABLE; n++) {
		call_make(&reference, memory, WORDS, answer, PT_ANSWER_WORDS, &call);
		do
			call = draw_call(&seed, &list);
		while (call.name == CALL_SETUP);
	}
	return total;
}

/* Changes one word. */
static void damage_at(uint32_t at, uint32_t total)
{
	damaged[at] = draw_word(&seed, damaged, total, at);
}

static void compare(size_t words)
{
	uint32_t *exact = calloc(words == 0 ? 1 : words, sizeof(uint32_t));
	bool mine;
	bool other;

	if (exact == NULL)
		exit(2);
	if (words > 0)
		memcpy(exact, damaged, words * sizeof(uint32_t)); /* a word past the length is a fault */
	mine = pt_legal(exact, words);
	other = ref_legal(exact, words);
	free(exact);
	compared++;
	legal_count += mine;
	if (mine != other) {
		size_t i;

		printf("damage: the library says %d, the C version %d, on %zu words:\n", mine, other, words);
		for (i = 0; i < words; i++)
			printf("%u ", (unsigned)damaged[i]);
		printf("\n");
		exit(1);
	}
}

int main(void)
{
	uint32_t total = 0;
	unsigned long n;
	size_t words;

	for (n = 0; n < TRIES; n++) {
		uint32_t changes = 1 + pick(3);

		if (n % 500 == 0)
			total = build();
		memcpy(damaged, memory, sizeof(memory));
		if (n % 10 == 9) { /* words of no meaning behind good contents */
			for (words = CONTENTS_WORDS; words < total; words++)
				if (pick(2) == 0)
					damage_at((uint32_t)words, total);
		} else if (n % 10 != 0) {
			while (changes-- > 0)
				damage_at(pick(total), total);
		}
		compare(n % 97 == 0 ? total - pick(PAST + 1) : total + pick(PAST + 1));
	}
	for (n = 0; n < 50; n++)
		for (words = 0; words <= LONGEST; words++) {
			if (words == 0)
				total = build();
			memcpy(damaged, memory, sizeof(memory));
			if (n % 2 == 1)
				damage_at(pick(CONTENTS_WORDS + PAST), total);
			compare(words);
		}
	printf("damage: %lu memories, %lu of them legal, all decided alike\n", compared, legal_count);
	return 0;
}
