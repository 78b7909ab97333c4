/*
 * blame.h - which sentences of documents 01 and 02 a difference breaks, of those that the call
 * tries: a status its cause or the sentence of legality; a word of the memory every rule of
 * the call that settles such words, and the sentence of legality that the memory breaks; an
 * answer the sentence on answers. Where several rules settle a word, all of them count as
 * broken. In doubt are what a call did not do that was refused, and beside a rule that is
 * broken what lies below all rules: the records, a lane's place, and when a period runs.
 */
#ifndef COMMON_BLAME_H
#define COMMON_BLAME_H

#include <stdbool.h>
#include <stdint.h>

#include "beside.h"
#include "sentences.h"

/* A set of sentences. */
struct tries {
	bool of[SENTENCES];
};

/* The sentence on a cause, and that on legal memories which is broken, or that on them all. */
enum sentence cause_sentence(uint32_t cause);
enum sentence legal_sentence_of(enum legal_sentence broken);

/* What a difference is put down to, for certain or perhaps. */
struct blamed {
	struct tries broken, doubted;
};

/* Those that the last call of a run with a judge breaks, of the ones that it tries. */
void blame(struct blamed *blamed, const struct tries *tries, const struct beside *beside);

/* Adds those that are broken by what no call may leave, where there is no judge. */
void blame_owed(struct tries *broken, const struct beside *beside);

/* Adds those that a fault of the ledger breaks. */
void blame_ledger(struct tries *broken, enum ledger_fault of);

/* All sentences in the order in which they are named, from the particular to the general. */
void blame_order(enum sentence order[SENTENCES]);

#endif /* COMMON_BLAME_H */
