/*
 * alphabet.h - a tiny table of an exhaustive search, and the calls that are made in each of
 * its states; exhaustive.c says which, and why so few numbers stand for all.
 */
#ifndef EXHAUSTIVE_ALPHABET_H
#define EXHAUSTIVE_ALPHABET_H

#include <stdint.h>

#include "calls.h"

enum {
	ALPHABET = 100,
	MANY_PASSES = CALLS, /* stands for a call's name */
	CODES = 2	     /* at most */
};

/* A table and its alphabet. */
struct table_form {
	struct sizes sizes;
	uint32_t codes;
	uint32_t absent; /* 1: lookups, too, of a code that no record has */
	uint32_t kinds;
	uint32_t changing, reading; /* masks of the lanes that change records, and that read */
	uint32_t around;	    /* 1: counts come round to their snapshots */
	uint32_t generation;	    /* the current one of every state */
	uint64_t count;		    /* every snapshot, and every count without one */
	uint32_t levels;	    /* calls of the longest lists; 0: no bound */
};

/* The table that is searched, and all its lanes. */
extern const struct table_form *form;
extern uint32_t lanes;

/* Codes of chain 0; the first is 0, as in free slots. */
extern uint32_t codes[CODES];

extern struct call alphabet[ALPHABET];
extern uint32_t letters;

/* Makes the alphabet of a table, which is searched from here on. */
void make_alphabet(const struct table_form *of);

/* Prints a call of it as a line, on standard error. */
void print_letter(const struct call *call);

#endif /* EXHAUSTIVE_ALPHABET_H */
