/*
 * belt.c - how long a lookup can take (document 02, request 5): with n records on the chain
 * when it starts, a lookup has its answer by step n + 1 of its lane. For every n up to 64 and
 * some up to 1,024, all slots of the largest table of one yard on one chain: a code that is absent takes
 * n + 1 steps, the code in place j takes j. Then the same while other calls come before every
 * step: records are added, those ahead of the reader, under it and behind it are replaced and
 * deleted, and the slots for this are handed back meanwhile, retired before its section began.
 * The steps are counted here; the ledger of demand 3 counts them too. The C version, which
 * compares each record with every other in each call, is spared the larger tables.
 */
#include <inttypes.h>
#include <stdio.h>
#include <stdlib.h>
#include <string.h>

#include "codes.h"
#include "ledger.h"
#include "lent.h"

enum {
	CHAIN = 17,
	CODES = 2 * PT_MAX_SLOTS + 1,
	OFFICE = 0,   /* the lane that changes records */
	EVERY = 64,   /* every n up to it */
	SPARED = 200, /* most slots for the C version */
	LARGE = 400   /* slots from which on the table has all lanes of a yard */
};

#define NO_CODE (PT_MAX_CODE + 1)

/* What other calls do before each step. */
struct meanwhile {
	const char *name;
	void (*change)(uint64_t code);
	uint64_t (*code)(void);
	uint32_t slots; /* that it takes each time */
	bool of_each;	/* so many for each record on the chain */
	bool shortens;	/* the reader's way, by every other record */
	uint32_t more;	/* records of a longer chain that it is tried on */
};

static uint32_t memory[PT_WORDS(1, PT_MAX_CABINETS, PT_MAX_LANES, PT_MAX_SLOTS)];
static uint32_t before[PT_WORDS(1, PT_MAX_CABINETS, PT_MAX_LANES, PT_MAX_SLOTS)]; /* the call */
static uint32_t answer[PT_ANSWER_WORDS];
static struct ledger ledger;

/* Codes of one chain; the first is never entered, the next ones are in their places at the start. */
static uint64_t codes[CODES];
static uint32_t records; /* at the start */
static uint32_t entered; /* of the codes, so far */
static uint32_t reader;	 /* the last lane */
static uint64_t passed;	 /* the code of the record that the reader has passed last */
static const char *what; /* is done meanwhile */

/* Over all lookups. */
static uint64_t lookups, steps, attained, between;

static void find_codes(void)
{
	uint32_t count = 0;

	for (uint64_t code = CHAIN; count < CODES; code += CHAINS)
		if (code_is_right(code))
			codes[count++] = code;
}

/* ---- calls */

static void complain(const struct call *call, const char *fault)
{
	fprintf(stderr, "belt: n = %" PRIu32 ", %s: %s: %s\n", records, what,
		call_forms[call->name].command, fault);
	exit(1);
}

/* Makes a call, which the ledger judges; returns the status. */
static uint32_t make(const struct call *call)
{
	const char *fault;

	memcpy(before, memory, sizeof before);
	call_make(&tested, memory, sizeof memory / sizeof memory[0], answer, PT_ANSWER_WORDS, call);
	attained += ledger_attains(&ledger, call, answer) ? 1 : 0;
	fault = ledger_judge(&ledger, call, answer, before, memory);
	if (fault != NULL)
		complain(call, fault);
	return answer[0];
}

static void must(enum call_name name, uint32_t lane, uint64_t code)
{
	struct call call = { name, { lane, code } };

	if (make(&call) != PT_OK)
		complain(&call, "refused");
}

/* ---- what is done meanwhile */

static void change(enum call_name name, uint64_t code)
{
	must(name, OFFICE, code);
	between++;
}

/* A slot comes back that was retired before the section began, and is the only free one. */
static void enter(enum call_name name, uint64_t code)
{
	change(CALL_HAND_BACK, 0);
	change(name, code);
}

static bool present(uint64_t code)
{
	for (uint32_t slot = 0; slot < LEDGER_SLOTS; slot++)
		if (ledger.slot[slot].entered && ledger.slot[slot].code == code)
			return true;
	return false;
}

static uint64_t code_in(uint32_t slot)
{
	const uint32_t *words;

	if (slot == PT_NONE)
		return NO_CODE;
	words = lent_slot(memory, slot);
	return (uint64_t)words[SLOT_CODE + CODE_HIGH] << 32 | words[SLOT_CODE + CODE_LOW];
}

/* The code of the record on which the reader stands, of the next one and of the last one; and one not yet entered. */
static uint64_t under(void)
{
	return code_in(lent_lane(memory, reader)[LANE_POSITION]);
}

static uint64_t ahead(void)
{
	uint32_t slot = lent_lane(memory, reader)[LANE_POSITION];

	return code_in(slot == PT_NONE ? PT_NONE : lent_slot(memory, slot)[SLOT_CHAIN_LINK]);
}

static uint64_t behind(void)
{
	return passed;
}

static uint64_t fresh(void)
{
	return codes[++entered];
}

static void add(uint64_t code)
{
	enter(CALL_ADD, code);
}

static void replace(uint64_t code)
{
	if (present(code))
		enter(CALL_REPLACE, code);
}

static void delete(uint64_t code)
{
	if (present(code))
		change(CALL_DELETE, code);
}

/* The record goes, and comes again at the chain's head. */
static void move(uint64_t code)
{
	if (!present(code))
		return;
	delete(code);
	add(code);
}

static void replace_each(uint64_t code)
{
	(void)code;
	for (uint32_t place = 1; place <= records; place++)
		replace(codes[place]);
}

static void do_all(uint64_t code)
{
	add(code);
	replace(behind());
	replace(ahead());
	move(under());
	delete(behind());
}

static const struct meanwhile meanwhiles[] = {
	{ "records are added", add, fresh, 1, false, false, 511 },
	{ "the record ahead is replaced", replace, ahead, 1, false, false, 100 },
	{ "the record under the reader is replaced", replace, under, 1, false, false, 511 },
	{ "the record behind is replaced", replace, behind, 1, false, false, 100 },
	{ "each record is replaced", replace_each, under, 1, true, false, 0 },
	{ "the record ahead is deleted", delete, ahead, 0, false, true, PT_MAX_SLOTS },
	{ "the record under the reader is deleted", delete, under, 0, false, false, PT_MAX_SLOTS },
	{ "the record behind is deleted", delete, behind, 0, false, false, PT_MAX_SLOTS },
	{ "the record under the reader moves to the head", move, under, 1, false, false, 100 },
	{ "all of this is done", do_all, fresh, 4, false, false, 100 },
};

/* ---- the table */

/* All lanes pass, so that what was removed is done. */
static void let_pass(void)
{
	for (uint32_t n = 0; n < 2; n++)
		for (uint32_t lane = 0; lane <= reader; lane++) {
			must(CALL_CLOCK, lane, 0);
			must(CALL_PASS, lane, 0);
			must(CALL_CLOCK, lane, 0);
		}
}

/* The first codes in their places, and so many slots that are done; none is free. */
static void set_up(uint32_t spare)
{
	uint32_t slots = records + spare > 0 ? records + spare : 1;
	struct sizes sizes = { 1, slots < LARGE ? 1 : PT_MAX_CABINETS, slots < LARGE ? 2 : PT_MAX_LANES, slots };
	struct call setup = call_setup(sizes);

	CHECK(make(&setup) == PT_OK);
	reader = sizes_lanes(sizes) - 1;
	entered = records + spare;
	for (uint32_t place = entered; place > 0; place--) { /* the spare ones stand between the others */
		if (place <= records)
			must(CALL_ADD, OFFICE, codes[place]);
		if (place <= spare)
			must(CALL_ADD, OFFICE, codes[records + place]);
	}
	for (uint32_t n = 1; n <= spare; n++)
		must(CALL_DELETE, OFFICE, codes[records + n]);
	if (spare > 0)
		let_pass();
	must(CALL_BEGIN, reader, 0);
}

/* ---- lookups */

/* The steps up to the answer, which is @outcome. */
static uint32_t look_up(uint64_t code, const struct meanwhile *meanwhile, uint32_t outcome)
{
	uint32_t taken = 0;

	passed = NO_CODE;
	must(CALL_START, reader, code);
	do {
		if (meanwhile != NULL)
			meanwhile->change(meanwhile->code());
		passed = under();
		must(CALL_STEP, reader, 0);
		taken++;
	} while (answer[1] == PT_GOING);
	CHECK(answer[1] == outcome);
	lookups++;
	steps += taken;
	return taken;
}

static void check_steps(uint32_t taken, uint32_t expected)
{
	if (taken == expected)
		return;
	fprintf(stderr, "belt: n = %" PRIu32 ", %s: %" PRIu32 " steps, and not %" PRIu32 "\n", records, what,
		taken, expected);
	exit(1);
}

/* Every place of a short chain, and the first and last ones of a long one. */
static void test_still(void)
{
	what = "nothing is done";
	set_up(0);
	check_steps(look_up(codes[0], NULL, PT_ABSENT), records + 1);
	for (uint32_t place = 1; place <= records; place++)
		if (records <= EVERY || place <= 2 || place + 1 >= records)
			check_steps(look_up(codes[place], NULL, PT_FOUND), place);
}

/* How many slots it takes while a lookup takes as many steps as it may. */
static uint32_t spare_slots(const struct meanwhile *meanwhile)
{
	uint32_t each = meanwhile->of_each ? meanwhile->slots * records : meanwhile->slots;

	return each * (records + 1);
}

/* A code that is absent, and the one in the last place. */
static void test_meanwhile(const struct meanwhile *meanwhile)
{
	uint32_t spare = spare_slots(meanwhile);
	uint64_t before = attained;

	what = meanwhile->name;
	set_up(spare);
	if (meanwhile->shortens) {
		check_steps(look_up(codes[0], meanwhile, PT_ABSENT), records - records / 2 + 1);
		return;
	}
	check_steps(look_up(codes[0], meanwhile, PT_ABSENT), records + 1);
	CHECK(attained == before + 1);
	if (records == 0)
		return;
	set_up(spare);
	check_steps(look_up(codes[records], meanwhile, PT_FOUND), records);
}

static bool has_room(uint32_t slots)
{
	return slots <= (tested.setup == reference.setup ? (uint32_t)SPARED : PT_MAX_SLOTS);
}

static void test_records(void)
{
	test_still();
	for (size_t n = 0; n < sizeof meanwhiles / sizeof meanwhiles[0]; n++) {
		const struct meanwhile *meanwhile = &meanwhiles[n];

		if (has_room(records + spare_slots(meanwhile)) && (records <= EVERY || records == meanwhile->more))
			test_meanwhile(meanwhile);
	}
}

int main(void)
{
	static const uint32_t more[] = { 65, 100, 127, 128, 256, 511, 512, 1023, PT_MAX_SLOTS };
	enum { MORE = sizeof more / sizeof more[0] };

	find_codes();
	for (uint32_t n = 0; n <= EVERY + MORE; n++) {
		records = n <= EVERY ? n : more[n - EVERY - 1];
		if (has_room(records))
			test_records();
	}
	CHECK(attained > 0);
	printf("belt: %" PRIu64 " lookups, %" PRIu64 " steps, %" PRIu64 " calls before them; %" PRIu64
		" answered by step n + 1 and no sooner\n",
		lookups, steps, between, attained);
	return 0;
}
