/*
 * lent.h - what the tests share: checks that end the program, and a lent memory on
 * which calls are made that are written as lines of a listing.
 */
#ifndef COMMON_LENT_H
#define COMMON_LENT_H

#include <stdbool.h>
#include <stddef.h>
#include <stdint.h>

#include "calls.h"
#include "compare.h"
#include "layout.h"
#include "product_table.h"

enum {
	LENT_SPARE = 236, /* words past the total of the largest table */
	LENT_WORDS = PT_WORDS(PT_MAX_YARDS, PT_MAX_CABINETS, PT_MAX_LANES, PT_MAX_SLOTS) + LENT_SPARE,
	LENT_ANSWER = PT_ANSWER_WORDS + 3 /* three words more, which stay */
};

struct lent {
	uint32_t memory[LENT_WORDS];
	size_t words; /* how many are lent */
	uint32_t answer[LENT_ANSWER];
};

/* A call as a line, and its answer as a line. */
struct lent_step {
	const char *call;
	const char *answer;
};

/* Ends the program with the place of the check, unless the condition holds. */
#define CHECK(condition) lent_check(condition, #condition, __FILE__, __LINE__)
void lent_check(bool holds, const char *condition, const char *file, int line);

/* Starts with all words lent, all of them fill. */
void lent_start(struct lent *lent);

/* The call that the line is; the line is not bad. */
struct call lent_call(const char *line);

/*
 * Makes the call and checks what holds of every call: the status is returned, the
 * answer past the fifth word stays, a refusal is followed by four times 0 and changes
 * no word, an accepted call leaves a legal memory and the words past the total. If
 * the library is tried, the reference answers alike and leaves the same words.
 */
uint32_t lent_make(struct lent *lent, const struct call *call);

/* Makes the call of the line and checks the answer. */
void lent_expect(struct lent *lent, const char *line, const char *answer);

/* Expects each step of a list. */
void lent_play(struct lent *lent, const struct lent_step *steps, size_t count);
#define LENT_PLAY(lent, steps) lent_play(lent, steps, sizeof(steps) / sizeof((steps)[0]))

/* The words of a body's record @n, or of the global body, in a memory that is set up. */
uint32_t *lent_global(uint32_t *memory);
uint32_t *lent_cabinet(uint32_t *memory, uint32_t n);
uint32_t *lent_lane(uint32_t *memory, uint32_t n);
uint32_t *lent_slot(uint32_t *memory, uint32_t n);
uint32_t *lent_yard(uint32_t *memory, uint32_t n);

/* The count of a kind among four, of which each takes two words, low word first. */
uint64_t lent_count(const uint32_t *counts, uint32_t kind);
void lent_put_count(uint32_t *counts, uint32_t kind, uint64_t count);

/* The number of slots in the queue with these words, counted along the links of a legal memory. */
uint32_t lent_queue_length(uint32_t *memory, const uint32_t *queue);

#endif /* COMMON_LENT_H */
