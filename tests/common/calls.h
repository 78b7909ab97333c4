/*
 * calls.h - a call as a value, for lists of calls, and the interface it is made on. The
 * calls stand in calls.def; here are the kinds of their arguments.
 */
#ifndef COMMON_CALLS_H
#define COMMON_CALLS_H

#include <stdbool.h>
#include <stddef.h>
#include <stdint.h>

#include "layout.h"
#include "product_table.h"

enum call_name {
#define ARGUMENT(n, KIND)
#define CALL(NAME, name, word, command, weight, arguments, causes) CALL_##NAME,
#include "calls.def"
	CALLS
};

/* What an argument is. Codes have 64 bits, all others 32. */
enum kind {
	KIND_NONE, /* after the last argument */
	KIND_YARDS,
	KIND_CABINETS,
	KIND_LANES,
	KIND_SLOTS,
	KIND_LANE,
	KIND_CODE,
	KIND_DEPOSIT,
	KIND_MATERIAL,
	KIND_KIND
};

typedef uint32_t argument_YARDS, argument_CABINETS, argument_LANES, argument_SLOTS,
	argument_LANE, argument_DEPOSIT, argument_MATERIAL, argument_KIND;
typedef uint64_t argument_CODE;

/* LAST_CAUSE: of the calls; a label's own cause comes after it. */
enum { CALL_ARGUMENTS = 4, CALL_CAUSES = 8, LAST_CAUSE = PT_WRONG_DIGIT };

/* A call; arguments that it does not take are 0. */
struct call {
	enum call_name name;
	uint64_t argument[CALL_ARGUMENTS];
};

/* A call's row of calls.def. */
struct call_form {
	const char *name;
	const char *command;
	uint32_t weight;
	enum kind kind[CALL_ARGUMENTS + 1]; /* of each argument */
	uint32_t cause[CALL_CAUSES];        /* in the order of the tests; PT_OK after the last */
};

extern const struct call_form call_forms[CALLS];

/* How many arguments the call takes. */
uint32_t call_arguments(enum call_name name);

/* Whether argument @n of the call is no wider than its kind allows. */
bool call_argument_fits(enum call_name name, uint32_t n, uint64_t value);

/* The call's argument of that kind, or @none where it takes none. */
uint64_t call_argument(const struct call *call, enum kind kind, uint64_t none);

/* The sizes that a set-up names, and the set-up of a table of some sizes. */
struct sizes call_sizes(const struct call *setup);
struct call call_setup(struct sizes sizes);

/* What the call functions take first, with the words of the memory as they take them. */
#define LENT_AS(word) word *memory, size_t words, uint32_t *answer, size_t answer_words
#define CALL_LENT LENT_AS(uint32_t)

/* The same of the two label functions, which have a text and no memory. */
#define LABEL_READ_LENT const uint8_t *text, size_t bytes, uint32_t *answer, size_t answer_words
#define LABEL_WRITE_LENT uint8_t *text, size_t bytes, uint32_t *answer, size_t answer_words

/* The calls of one implementation, and its label functions. */
struct interface {
#define ARGUMENT(n, KIND) , argument_##KIND
#define CALL(NAME, name, word, command, weight, arguments, causes) uint32_t (*name)(LENT_AS(word) arguments);
#include "calls.def"
	uint32_t (*label_read)(LABEL_READ_LENT);
	uint32_t (*label_write)(LABEL_WRITE_LENT, uint64_t code);
};

extern const struct interface reference;

/* What the tests try: the reference, or the library where TEST_LIBRARY is defined. */
extern const struct interface tested;

/* Makes the call. Each argument fits. */
uint32_t call_make(const struct interface *interface, CALL_LENT, const struct call *call);

#endif /* COMMON_CALLS_H */
