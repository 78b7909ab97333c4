/*
 * calls.c - calls as values: their forms, and how each is made.
 */
#include "calls.h"

#include "reference.h"

const struct interface reference = {
#define ARGUMENT(n, KIND)
#define CALL(NAME, name, word, command, weight, arguments, causes) .name = ref_##name,
#include "calls.def"
	.label_read = ref_label_read,
	.label_write = ref_label_write,
};

#ifdef TEST_LIBRARY
#define TESTED(name) pt_##name
#else
#define TESTED(name) ref_##name
#endif

const struct interface tested = {
#define ARGUMENT(n, KIND)
#define CALL(NAME, name, word, command, weight, arguments, causes) .name = TESTED(name),
#include "calls.def"
	.label_read = TESTED(label_read),
	.label_write = TESTED(label_write),
};

#define CAUSES(...) __VA_ARGS__

const struct call_form call_forms[CALLS] = {
#define ARGUMENT(n, KIND) [n] = KIND_##KIND,
#define CALL(NAME, name, word, command, weight, arguments, causes) \
	[CALL_##NAME] = { #name, command, weight, { arguments KIND_NONE }, { causes, PT_OK } },
#include "calls.def"
};

uint32_t call_arguments(enum call_name name)
{
	uint32_t n = 0;

	while (call_forms[name].kind[n] != KIND_NONE)
		n++;
	return n;
}

bool call_argument_fits(enum call_name name, uint32_t n, uint64_t value)
{
	return call_forms[name].kind[n] == KIND_CODE || value <= UINT32_MAX;
}

uint64_t call_argument(const struct call *call, enum kind kind, uint64_t none)
{
	for (uint32_t n = 0; n < call_arguments(call->name); n++)
		if (call_forms[call->name].kind[n] == kind)
			return call->argument[n];
	return none;
}

struct sizes call_sizes(const struct call *setup)
{
	return (struct sizes){ (uint32_t)setup->argument[0], (uint32_t)setup->argument[1],
		(uint32_t)setup->argument[2], (uint32_t)setup->argument[3] };
}

struct call call_setup(struct sizes sizes)
{
	return (struct call){ CALL_SETUP, { sizes.yards, sizes.cabinets, sizes.lanes, sizes.slots } };
}

uint32_t call_make(const struct interface *interface, CALL_LENT, const struct call *call)
{
	switch (call->name) {
#define ARGUMENT(n, KIND) , (argument_##KIND)call->argument[n]
#define CALL(NAME, name, word, command, weight, arguments, causes) \
	case CALL_##NAME: \
		return interface->name(memory, words, answer, answer_words arguments);
#include "calls.def"
	default:
		return PT_SHORT_ANSWER; /* no call */
	}
}
