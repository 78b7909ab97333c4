/*
 * shrink.c - steps are left out in ever smaller runs, then in pairs; sizes, lanes, codes and
 * the other arguments are made smaller, each change kept only if the list still shows it. Of
 * a long list the steps that are alike are not looked at one by one.
 */
#include "shrink.h"

#include "codes.h"
#include "words.h"

struct shrinking {
	struct steps *steps; /* the best so far */
	shrink_shows *shows;
	void *context;
	uint32_t tests; /* left */
};

static struct steps candidate;

/* What the numbers of a list add up to; past any table's a number counts no more. */
static uint64_t weight(const struct steps *steps)
{
	uint64_t sum = 0;

	for (uint32_t n = 0; n < steps->count; n++)
		for (uint32_t a = 0; a < CALL_ARGUMENTS; a++)
			sum += steps->step[n].call.argument[a] < UINT64_C(1) << 47 ?
				steps->step[n].call.argument[a] : UINT64_C(1) << 47;
	return sum;
}

/* Takes the candidate if it shows it. */
static bool attempt(struct shrinking *shrinking)
{
	if (shrinking->tests == 0)
		return false;
	shrinking->tests--;
	if (!shrinking->shows(&candidate, shrinking->context))
		return false;
	*shrinking->steps = candidate;
	return true;
}

/* A list with more steps is long: it is made for something that takes many. */
enum { LONG = 100 };

static bool is_long(const struct steps *steps)
{
	return steps->count > LONG;
}

static bool same_call(const struct step *a, const struct step *b)
{
	return a->kind == b->kind && (a->kind != STEP_CALL || a->call.name == b->call.name);
}

/*
 * How far to go on from a run that has to stay. Of a long list the whole stretch of the same
 * call is passed over: which of them are left out makes no difference.
 */
static uint32_t passed_over(const struct steps *steps, uint32_t at, uint32_t run)
{
	uint32_t stretch = 1;

	while (is_long(steps) && at + stretch < steps->count && same_call(&steps->step[at], &steps->step[at + stretch]))
		stretch++;
	return stretch > run ? stretch : run;
}

/* Leaves out runs of steps, from half of the list down to single ones. */
static bool leave_out(struct shrinking *shrinking)
{
	struct steps *steps = shrinking->steps;
	bool shorter = false;

	for (uint32_t run = steps->count / 2 + 1; run > 0; run /= 2)
		for (uint32_t at = 0; at + run <= steps->count;) {
			candidate = *steps;
			steps_remove(&candidate, at, run);
			if (attempt(shrinking))
				shorter = true;
			else
				at += passed_over(steps, at, run);
		}
	return shorter;
}

enum { PAIRS_MOST = 24 };

/* Leaves out two steps that go together, of a list that is short. */
static bool leave_out_pair(struct shrinking *shrinking)
{
	struct steps *steps = shrinking->steps;

	if (steps->count > PAIRS_MOST)
		return false;
	for (uint32_t a = 0; a < steps->count; a++)
		for (uint32_t b = a + 1; b < steps->count; b++) {
			candidate = *steps;
			steps_remove(&candidate, b, 1);
			steps_remove(&candidate, a, 1);
			if (attempt(shrinking))
				return true;
		}
	return false;
}

/* Writes @to for @from, and the other way round, in every argument of a kind. */
static void exchange(struct steps *steps, enum kind kind, uint64_t from, uint64_t to)
{
	for (uint32_t n = 0; n < steps->count; n++) {
		struct call *call = &steps->step[n].call;

		for (uint32_t a = 0; steps->step[n].kind == STEP_CALL && a < call_arguments(call->name); a++)
			if (call_forms[call->name].kind[a] != kind)
				continue;
			else if (call->argument[a] == from)
				call->argument[a] = to;
			else if (call->argument[a] == to)
				call->argument[a] = from;
	}
}

/* After a set-up's sizes changed: pokes up to the next set-up go to the same words as before. */
static void move_pokes(struct steps *steps, uint32_t setup, const struct call *old)
{
	struct sizes from = call_sizes(old), to = call_sizes(&steps->step[setup].call);

	for (uint32_t n = setup + 1; n < steps->count; n++) {
		struct step *step = &steps->step[n];

		if (step->kind == STEP_CALL && step->call.name == CALL_SETUP)
			return;
		if (step->kind == STEP_POKE) {
			size_t moved = word_moved(from, step->number, to);

			step->number = moved == SIZE_MAX ? UINT32_MAX : (uint32_t)moved;
		}
	}
}

/* Smaller values for an argument of a kind, from small ones on; false after the last. */
static bool smaller(enum kind kind, uint64_t value, uint32_t n, uint64_t *to)
{
	static const uint64_t sizes[] = { 1, 2, 3, 4 };

	switch (kind) {
	case KIND_YARDS:
	case KIND_CABINETS:
	case KIND_LANES:
	case KIND_SLOTS:
		*to = n < sizeof sizes / sizeof sizes[0] ? sizes[n] : value;
		break;
	case KIND_CODE: /* the first of all, and of chain 0 */
		*to = n < 6 ? (n % 2 == 0 ? CODE_OF_ALL(n / 2) : CODE_OF_CHAIN(0, n / 2)) : value;
		break;
	default:
		*to = n;
	}
	return n < 6 && *to < value;
}

static bool one_for_all(enum kind kind)
{
	return kind == KIND_LANE || kind == KIND_CODE;
}

/* Makes an argument of a call smaller: a lane or a code in the whole list. */
static bool make_smaller(struct shrinking *shrinking, uint32_t at, uint32_t argument)
{
	const struct call *call = &shrinking->steps->step[at].call;
	enum kind kind = call_forms[call->name].kind[argument];
	uint64_t value = call->argument[argument], to;

	for (uint32_t n = 0; smaller(kind, value, n, &to) || (kind == KIND_CODE && n < 6); n++) {
		if (to >= value)
			continue;
		candidate = *shrinking->steps;
		if (one_for_all(kind))
			exchange(&candidate, kind, value, to);
		else
			candidate.step[at].call.argument[argument] = to;
		if (call->name == CALL_SETUP)
			move_pokes(&candidate, at, call);
		if (weight(&candidate) < weight(shrinking->steps) && attempt(shrinking))
			return true;
	}
	return false;
}

/* Whether a step has arguments that may become smaller: of a long list those of set-ups alone. */
static bool has_smaller(const struct steps *steps, uint32_t at)
{
	return steps->step[at].kind == STEP_CALL && (!is_long(steps) || steps->step[at].call.name == CALL_SETUP);
}

static bool simplify(struct shrinking *shrinking)
{
	bool simpler = false;

	for (uint32_t at = 0; at < shrinking->steps->count; at++)
		for (uint32_t n = 0; has_smaller(shrinking->steps, at) &&
				n < call_arguments(shrinking->steps->step[at].call.name); n++)
			simpler |= make_smaller(shrinking, at, n);
	return simpler;
}

void shrink(struct steps *steps, shrink_shows *shows, void *context, uint32_t tests)
{
	struct shrinking shrinking = { steps, shows, context, tests };

	leave_out(&shrinking);
	while (simplify(&shrinking) || leave_out(&shrinking) || leave_out_pair(&shrinking))
		if (is_long(steps))
			return;
		else
			leave_out(&shrinking);
}
