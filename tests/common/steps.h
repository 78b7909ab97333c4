/*
 * steps.h - a list of steps, as runs draw, judge, shrink and print it: calls, and what may
 * be done between calls to a memory that is lent. As text a step is a line, a call's that of
 * a listing, but that a set-up may name any number of yards.
 */
#ifndef COMMON_STEPS_H
#define COMMON_STEPS_H

#include <stdbool.h>
#include <stddef.h>
#include <stdint.h>

#include "calls.h"

enum step_kind {
	STEP_CALL,
	STEP_POKE,   /* "poke A V": the word at address A becomes V */
	STEP_LEND,   /* "lend N": N words of the memory are lent from here on, also more than any table takes */
	STEP_ANSWER, /* "answer N": N words of answer are lent from here on */
	STEP_MEND,   /* "mend": the words of the last accepted call are back, and all is lent */
	STEP_READ,   /* "read 'TEXT'": the label reader on these bytes; a byte as \xHH where it does not print;
		      * "digits N": on N digits, where that is more than LABEL_MOST */
	STEP_WRITE,  /* "write N C": the label writer on a text of N bytes, with the code C */
	STEP_CHAIN,  /* "chain N": a table just set up has N records on chain 0, in its first slots, as N adds leave it */
};

enum { LABEL_MOST = 24 }; /* bytes of a text that a step holds, and that are printed */

struct step {
	enum step_kind kind;
	struct call call;
	uint64_t number; /* of a poke the address, of a label function the bytes lent */
	uint32_t value;
	uint64_t code;		  /* of a label that is written */
	uint8_t text[LABEL_MOST]; /* of one that is read; what follows are digits */
};

enum { STEPS_MOST = 6000 };

/* A list. It begins on a memory of no meaning, all of it lent. */
struct steps {
	uint32_t count;
	struct step step[STEPS_MOST];
};

/* Appends a step; the list has room. */
void steps_add(struct steps *steps, const struct step *step);
void steps_call(struct steps *steps, const struct call *call);

/* Removes @count steps from @at on. */
void steps_remove(struct steps *steps, uint32_t at, uint32_t count);

/* A step that reads so many digits, of any number, and byte @n of them. */
struct step step_digits(uint64_t bytes);
uint8_t step_digit(uint64_t n);

/* Whether the step is one of a label function, and whether it makes a call of any kind. */
bool step_is_label(const struct step *step);
bool step_is_made(const struct step *step);

/* How many of them make a call, and whether all are calls on a memory. */
uint32_t steps_calls(const struct steps *steps);
bool steps_are_calls(const struct steps *steps);

/* The line of a step, without a newline; and the step of a line, false if it is none. */
enum { STEP_TEXT = 120 };
void step_text(const struct step *step, char text[STEP_TEXT]);
bool step_read(const char *text, struct step *step);

#endif /* COMMON_STEPS_H */
