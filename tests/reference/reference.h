/*
 * reference.h - the calls of product_table.h once more, in C, as something to
 * compare with: written from documents 01 and 02 alone, with structs and loops. What each
 * call does, answers and refuses stands in product_table.h under the prefix pt_.
 */
#ifndef REFERENCE_H
#define REFERENCE_H

#include <stdbool.h>
#include <stddef.h>
#include <stdint.h>

#include "calls.h"

/* The sentences on legal memories, of documents 01 and 02, in the order in which they are tested. */
enum legal_sentence {
	LEGAL_CONTENTS, /* contents agree with the sizes, and the total is not above the length */
	LEGAL_FLAGS,
	LEGAL_MASKS,
	LEGAL_LINKS,
	LEGAL_FIELDS,
	LEGAL_EMPTY_ENDS, /* ends of an empty line */
	LEGAL_ONCE,	  /* each slot in exactly one chain or line */
	LEGAL_LASTS,	  /* lines agree with first and last */
	LEGAL_LENGTHS,	  /* and with their lengths (document 02) */
	LEGAL_CHAINS,	  /* chained slots on the chain of their code */
	LEGAL_TWICE,	  /* no code twice */
	LEGAL_SNAPSHOTS_REST,
	LEGAL_LOOKUPS_REST,
	LEGAL_GENERATIONS_REST,
	LEGAL_LINKS_REST, /* a slot outside every line */
	LEGAL_OFFLINE,
	LEGAL_LOOKUP_IN_SECTION,
	LEGAL_SNAPSHOT_PENDING,
	LEGAL_CABINET_BITS,
	LEGAL_YARD_BITS, /* (document 02) */
	LEGAL_FREE_SLOTS,
	LEGAL_LARGEST,
	LEGAL_LANE_GENERATION,
	LEGAL_GLOBAL_GENERATION,
	LEGAL_SENTENCES
};

/* The first sentence that the memory breaks, or LEGAL_SENTENCES. Safe on any words of any length. */
enum legal_sentence ref_broken(const uint32_t *memory, size_t words);

enum { BROKEN_WORDS = 5 };

/* A sentence that the memory breaks, and the first place where it does. */
struct broken {
	enum legal_sentence sentence;
	bool unjudged; /* its words are not reached: an earlier sentence is broken by a link that leads astray */
	bool astray;   /* such a link is among the words */
	size_t count;  /* of the words that show it, the first of them the one in question */
	uint32_t word[BROKEN_WORDS];
	bool settled; /* the others settle what the first would have to hold, */
	uint32_t right; /* which is this */
};

/*
 * Every sentence that the memory breaks, in the order of their tests, and those that cannot be
 * judged for them; returns how many. If the contents do not agree, that is the only one.
 * Safe on any words of any length.
 */
size_t ref_all_broken(const uint32_t *memory, size_t words, struct broken broken[LEGAL_SENTENCES]);

/* Whether the memory is legal. */
bool ref_legal(const uint32_t *memory, size_t words);

/* Whether generation @a is later than generation @b. */
bool ref_later(uint32_t a, uint32_t b);

#define ARGUMENT(n, KIND) , argument_##KIND
#define CALL(NAME, name, word, command, weight, arguments, causes) uint32_t ref_##name(LENT_AS(word) arguments);
#include "calls.def"

uint32_t ref_label_read(LABEL_READ_LENT);
uint32_t ref_label_write(LABEL_WRITE_LENT, uint64_t code);

#endif /* REFERENCE_H */
