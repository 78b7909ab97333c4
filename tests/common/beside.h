/*
 * beside.h - an implementation beside another that judges it: each step is taken on both,
 * from one memory, and every answer and every word is compared (compare.h). Without a judge
 * the implementation goes on from its own memory, and legality and the ledger of demand 3
 * judge alone. Without an implementation, as for a listing program, the judge goes alone.
 *
 * What is lent ends, or begins, where a page lies that may be neither read nor written.
 * A label function's text is lent so too; it goes by its answer and the bytes of the text.
 * A length beyond what is held here is lent as address space: it begins with what is held,
 * and the rest may be neither read nor written.
 */
#ifndef COMMON_BESIDE_H
#define COMMON_BESIDE_H

#include <stdbool.h>

#include "calls.h"
#include "compare.h"
#include "ledger.h"
#include "steps.h"

enum {
	BESIDE_PAST = 16, /* words past the total of the largest table */
	BESIDE_WORDS = PT_WORDS(PT_MAX_YARDS, PT_MAX_CABINETS, PT_MAX_LANES, PT_MAX_SLOTS) + BESIDE_PAST,
	BESIDE_ANSWER = PT_ANSWER_WORDS + 3
};

struct beside {
	const struct interface *tried;
	const struct interface *judge;
	bool at_start; /* what is lent begins at the edge of the page, and does not end there */
	bool all_lent; /* a set-up leaves all words lent, and not few past its total */

	uint32_t memory[BESIDE_WORDS]; /* between calls */
	uint32_t before[BESIDE_WORDS]; /* the last call */
	uint32_t mended[BESIDE_WORDS]; /* as the last accepted call left it */
	size_t words, answer_words, mended_words; /* that are held */
	size_t told_words, told_answer; /* the lengths that calls are told: these, or more */
	struct ledger ledger;
	bool fed; /* the ledger knows all that happened since the set-up */

	/* The last call. */
	struct call call;
	uint32_t expected_answer[BESIDE_ANSWER];
	struct left expected, left;
	uint8_t expected_text[LABEL_MOST], left_text[LABEL_MOST]; /* of a label function */
	enum difference difference;
	const char *fault; /* of the ledger */
	bool attained; /* it was step n + 1 of its lookup, and answered it */
	uint32_t moved; /* slots that it brought to done queues, by the ledger */
};

/* A memory of no meaning, all of it lent. */
void beside_start(struct beside *beside, const struct interface *tried,
		const struct interface *judge);

/* Whether lengths beyond what is held can be told: the system gives the address space. */
bool beside_vast(void);

/* Takes a step; returns the difference that it shows. A call's status is in the outcomes. */
enum difference beside_step(struct beside *beside, const struct step *step);
enum difference beside_call(struct beside *beside, const struct call *call);

/* Takes the steps from a new start; returns how many were taken before the one that differs. */
uint32_t beside_steps(struct beside *beside, const struct interface *tried,
		const struct interface *judge, const struct steps *steps);

#endif /* COMMON_BESIDE_H */
