/*
 * sentences.h - which sentences of documents 01 and 02 a call tries, and which of them a
 * difference breaks. What is tried is read off the memory before and after the call as the
 * judge left it; the engine that is tried is not asked.
 */
#ifndef COMMON_SENTENCES_H
#define COMMON_SENTENCES_H

#include <stdbool.h>
#include <stdint.h>

#include "beside.h"
#include "reference.h"

enum sentence {
#define SECTION(text)
#define SENTENCE(NAME, text) SENTENCE_##NAME,
#include "sentences.def"
	SENTENCES
};

/* Where a lookup stood that the end of its section dropped. */
enum dropped { DROPPED_AT_HEAD, DROPPED_ON_CHAIN, DROPPED_OFF_CHAINS, DROPPED_AT_NONE, DROPPED };

/* Where a lane stood that passed, had its clock or went off; and calls refused that named no lane. */
enum placed {
	PLACED_IN_FIRST,	/* cabinet 0 of yard 0: nothing is subtracted */
	PLACED_AT_START,	/* the first place of another cabinet: 0 is left */
	PLACED_IN_EIGHTH,	/* the eighth cabinet: its size is subtracted seven times */
	PLACED_IN_OTHER_YARD,	/* not yard 0 */
	PLACED_IN_EIGHTH_YARD,	/* the eighth yard: its size is subtracted seven times */
	PLACED_PAST,		/* the first number that is no lane */
	PLACED
};

/*
 * What brought slots to done lines: a clock, to its lane's, to the house's, or to both; or an
 * off, besides its lane's own.
 */
enum moved { MOVED_TO_LANE, MOVED_TO_HOUSE, MOVED_TO_BOTH, MOVED_BY_OFF, MOVED };

/*
 * How often each was tried, how often it did not hold, and how often that is not known: a
 * program's answer differs, and since the table's set-up it was tried.
 */
struct tally {
	uint64_t tried[SENTENCES];
	uint64_t broken[SENTENCES];
	uint64_t doubted[SENTENCES];
	bool since_setup[SENTENCES]; /* tried since the last set-up, by a program whose memory is not seen */
	uint64_t calls;
	uint64_t accepted[CALLS];
	uint64_t refused[CALLS][LAST_CAUSE + 1];
	uint64_t labels[2][PT_WRONG_LABEL + 1]; /* read and written: 0, and by cause */
	uint64_t dropped[DROPPED]; /* lookups */
	uint64_t placed[PLACED];
	uint64_t attained; /* lookups that step n + 1 answered, and none before it */
	uint64_t moved[MOVED];
	/* how often a cause was answered while another of the call's applied as well */
	uint64_t before[CALLS][LAST_CAUSE + 1][LAST_CAUSE + 1];
};

/* The words of a sentence of legality. */
const char *legal_text(enum legal_sentence sentence);

/* How many lookups were dropped, by where they stood: a line. */
void print_dropped(const struct tally *tally);

/* How many passes, clocks and offs there were, by where the lane stood, and calls of no lane: a line. */
void print_placed(const struct tally *tally);

/* How many lookups were answered by step n + 1 and no sooner: a line. */
void print_attained(const struct tally *tally);

/* How many clocks and offs brought slots to done lines: a line. */
void print_moved(const struct tally *tally);

/* Adds the last call of a run that has a judge, and its difference. */
void tally_call(struct tally *tally, const struct beside *beside);

/* Adds the last step, of a label function, and its difference. */
void tally_label(struct tally *tally, const struct beside *beside, const struct step *step);

/* What is found of a call where there is no judge but the ledger. */
struct verdict {
	bool fault;
	enum ledger_fault of; /* what it is of */
	bool attained;	      /* step n + 1 answers the lookup */
	bool counted;	      /* the memory was asked for the slots in done lines */
};

/* Adds the last call of a list that is judged by the ledger alone. */
void tally_judged(struct tally *tally, const struct call *call, const uint32_t *answer, struct verdict verdict);

/* Adds the last call of such a list where it left what no call may leave, whatever the ledger says. */
void tally_owed(struct tally *tally, const struct beside *beside);

/* Adds to a tally what another has of sentences that did not hold, or may not have. */
void tally_blame(struct tally *tally, const struct tally *blamed);

/* The sentences of a tally that did not hold, or may not have, a line each, from the particular to the general. */
void print_blamed(const struct tally *blamed);

/* The report: a line a sentence, and then those again that did not hold. Returns whether all that were tried held. */
bool tally_print(const struct tally *tally);

#endif /* COMMON_SENTENCES_H */
