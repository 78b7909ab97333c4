/*
 * compare.h - what a call left behind: what is owed of it whatever it does, and how it
 * differs from what another implementation left. Every run that compares does it here.
 */
#ifndef COMMON_COMPARE_H
#define COMMON_COMPARE_H

#include <stddef.h>
#include <stdint.h>

enum difference {
	SAME,
	DIFFERS_STATUS,	     /* another status */
	DIFFERS_RETURNED,    /* the status returned is not the answer's first word */
	DIFFERS_ANSWER,	     /* another word of the answer */
	DIFFERS_PAST_ANSWER, /* a word of the answer that stays */
	DIFFERS_REFUSED,     /* a refused call left other words, or answered more than its number */
	DIFFERS_PAST_TOTAL,  /* a word past the total */
	DIFFERS_WORDS,	     /* another word of the memory */
	DIFFERS_OUTSIDE,     /* a word that is not lent */
	DIFFERS_NOT_LEGAL,   /* an accepted call left a memory that is not legal */
	DIFFERS_LEDGER,	     /* the ledger of demand 3 finds fault */
	DIFFERS_TEXT,	     /* another byte of a label's text */
	DIFFERENCES
};

/* Each in words. */
extern const char *const difference_texts[DIFFERENCES];

/* What stands where no call may write. */
#define FILL 0xa5a5a5a5u

/* The words lent, as a call left them, and the status that it returned. */
struct left {
	uint32_t *memory;
	size_t words;
	uint32_t *answer; /* all of it FILL before the call */
	size_t answer_words;
	uint32_t status;
};

/* What is owed of any call on the memory @before. */
enum difference owed(const uint32_t *before, const struct left *left);

/* How what a call left differs from what is expected, from the same memory. */
enum difference alike(const struct left *expected, const struct left *left);

/* Both of the status and the answer alone. */
enum difference owed_answer(const struct left *left);
enum difference alike_answer(const struct left *expected, const struct left *left);

/* The total of a table whose contents stand in the memory, 0 if their sizes are none. */
size_t total_of(const uint32_t *memory);

#endif /* COMMON_COMPARE_H */
