/*
 * ledger.c - the ledger of demand 3. An entry is kept at its slot, and stays there while the
 * slot is out. So a whole search is the slot that it gives, or LEDGER_ABSENT, and a lookup's
 * instants are the set of these: a slot that leaves the table during a lookup is out with the
 * lookup's section, and cannot come back before that has ended. Of the sums of request 6 only
 * the difference is kept: what came to done queues and was not handed back. The slots there
 * are counted along the links; no length is asked.
 */
#include "ledger.h"

#include <stddef.h>
#include <string.h>

#include "layout.h"
#include "product_table.h"

_Static_assert(sizeof(struct ledger_slot) == 24 + 8 * LEDGER_SET(LEDGER_LANES), "no padding");
_Static_assert(sizeof(struct ledger_lane) == 16 + 8 * (LEDGER_SET(LEDGER_SLOTS + 1) + LEDGER_SET(LEDGER_SLOTS)),
	"no padding");
_Static_assert(sizeof(struct ledger) == sizeof(struct ledger_slot) * LEDGER_SLOTS +
	sizeof(struct ledger_lane) * LEDGER_LANES + 8 * LEDGER_SET(LEDGER_LANES) + 8, "no padding");

static const char BEYOND[] = "a lane or slot is beyond the ledger's capacity";

/* The faults of the figure. */
static const char LATE[] = "a lookup has no answer by step n + 1 of its lane";
static const char REFUSED[] = "a step was refused while its lookup runs";

/* The fault of what comes to done queues. */
static const char MISCOUNTED[] = "the slots in done queues and those handed back are not those that came there";

enum ledger_fault ledger_fault_of(const char *fault)
{
	if (fault == LATE || fault == REFUSED)
		return FAULT_OF_FIGURE;
	return fault == MISCOUNTED ? FAULT_OF_COUNT : FAULT_OF_DEMAND_3;
}

void ledger_reset(struct ledger *ledger)
{
	memset(ledger, 0, sizeof *ledger);
}

/* ---- sets of lanes or slots */

enum { SET_BITS = 64 }; /* of a word */

static bool set_has(const uint64_t *set, uint32_t number)
{
	return set[number / SET_BITS] >> number % SET_BITS & 1u;
}

static void set_put(uint64_t *set, uint32_t number)
{
	set[number / SET_BITS] |= UINT64_C(1) << number % SET_BITS;
}

static void set_drop(uint64_t *set, uint32_t number)
{
	set[number / SET_BITS] &= ~(UINT64_C(1) << number % SET_BITS);
}

/* The first number in the set from @from on, or @numbers. */
static uint32_t set_next(const uint64_t *set, uint32_t from, uint32_t numbers)
{
	while (from < numbers && !set_has(set, from))
		from += set[from / SET_BITS] == 0 ? SET_BITS - from % SET_BITS : 1;
	return from < numbers ? from : numbers;
}

/* Goes through a set. */
#define FOR_EACH(n, set, numbers) \
	for (uint32_t n = set_next(set, 0, numbers); n < (numbers); n = set_next(set, n + 1, numbers))

bool ledger_reading(const struct ledger *ledger, uint32_t lane)
{
	return set_has(ledger->reading, lane);
}

/* ---- entries */

/* The slot of the code's entry, or LEDGER_ABSENT: what a whole search for the code gives at this instant. */
static uint32_t entry_of(const struct ledger *ledger, uint64_t code)
{
	uint32_t slot = 0;

	while (slot < LEDGER_SLOTS &&
			!(ledger->slot[slot].entered && ledger->slot[slot].code == code))
		slot++;
	return slot;
}

/* How many entries are on the code's chain. */
static uint32_t entries_on_chain(const struct ledger *ledger, uint64_t code)
{
	uint32_t entries = 0;

	for (uint32_t slot = 0; slot < LEDGER_SLOTS; slot++)
		entries += ledger->slot[slot].entered && ledger->slot[slot].code % CHAINS == code % CHAINS ?
			1u : 0u;
	return entries;
}

/* Notes this instant for a lane's lookup. */
static void note_instant(struct ledger *ledger, struct ledger_lane *lane)
{
	set_put(lane->search, entry_of(ledger, lane->code));
}

/* Notes the instant of a change of the code's entry for all lookups of the code, which run in open sections. */
static void note_change(struct ledger *ledger, uint64_t code)
{
	FOR_EACH(l, ledger->reading, LEDGER_LANES)
		if (ledger->lane[l].lookup && ledger->lane[l].code == code)
			note_instant(ledger, &ledger->lane[l]);
}

static const char *enter(struct ledger *ledger, const struct call *call, uint32_t slot)
{
	if (slot >= LEDGER_SLOTS)
		return BEYOND;
	if (ledger->slot[slot].entered || ledger->slot[slot].out)
		return "a slot in use was given to a record";
	ledger->slot[slot] = (struct ledger_slot){
		.code = call->argument[1],
		.deposit = (uint32_t)call->argument[2],
		.material = (uint32_t)call->argument[3],
		.entered = 1,
	};
	return NULL;
}

/* Strikes the code's entry; its slot is then out, with every section open now. */
static const char *strike(struct ledger *ledger, uint64_t code, uint32_t slot)
{
	if (slot >= LEDGER_SLOTS)
		return BEYOND;
	if (entry_of(ledger, code) != slot)
		return "the removed slot is not that of the code's entry";
	ledger->slot[slot].entered = 0;
	ledger->slot[slot].out = 1;
	memcpy(ledger->slot[slot].sections, ledger->reading, sizeof ledger->reading);
	return NULL;
}

static const char *feed_add(struct ledger *ledger, const struct call *call, const uint32_t *answer)
{
	if (entry_of(ledger, call->argument[1]) != LEDGER_ABSENT)
		return "a code was added that has an entry";
	return enter(ledger, call, answer[1]);
}

static const char *feed_replace(struct ledger *ledger, const struct call *call,
		const uint32_t *answer)
{
	const char *fault = strike(ledger, call->argument[1], answer[2]);

	return fault != NULL ? fault : enter(ledger, call, answer[1]);
}

/* A change of the code's entry is one instant, so no search finds a code absent that is replaced. */
static const char *feed_change(struct ledger *ledger, const struct call *call, const uint32_t *answer)
{
	const char *fault = call->name == CALL_ADD ? feed_add(ledger, call, answer) :
		call->name == CALL_REPLACE ? feed_replace(ledger, call, answer) :
		strike(ledger, call->argument[1], answer[1]);

	if (fault == NULL)
		note_change(ledger, call->argument[1]);
	return fault;
}

/* The lane has no lookup from here on: it was answered, or dropped. */
static void strike_lookup(struct ledger_lane *lane)
{
	memset(lane->search, 0, sizeof lane->search);
	lane->lookup = 0;
	lane->code = 0;
}

/* Ends the lane's section and strikes its lookup, if it has one: nothing more is asked of it. */
static void feed_end(struct ledger *ledger, uint32_t l)
{
	struct ledger_lane *lane = &ledger->lane[l];

	set_drop(ledger->reading, l);
	strike_lookup(lane);
	memset(lane->find, 0, sizeof lane->find);
	for (uint32_t slot = 0; slot < LEDGER_SLOTS; slot++)
		set_drop(ledger->slot[slot].sections, l);
}

static void feed_start(struct ledger *ledger, struct ledger_lane *lane, uint64_t code)
{
	lane->lookup = entries_on_chain(ledger, code) + 1;
	lane->code = code;
	note_instant(ledger, lane);
}

/* Whether a whole search at an instant of the lane's lookup gives the answer of a step that ends it. */
static bool explained(const struct ledger *ledger, const struct ledger_lane *lane, const uint32_t *answer)
{
	const struct ledger_slot *slot;

	if (answer[1] == PT_ABSENT)
		return set_has(lane->search, LEDGER_ABSENT) && answer[2] == 0 && answer[3] == 0 && answer[4] == 0;
	if (answer[1] != PT_FOUND || answer[2] >= LEDGER_SLOTS || !set_has(lane->search, answer[2]))
		return false;
	slot = &ledger->slot[answer[2]];
	return slot->deposit == answer[3] && slot->material == answer[4];
}

static const char *feed_step(const struct ledger *ledger, struct ledger_lane *lane, const uint32_t *answer)
{
	if (answer[1] == PT_GOING)
		return --lane->lookup == 0 ? LATE : NULL;
	if (!explained(ledger, lane, answer))
		return "no instant of the lookup explains its answer";
	strike_lookup(lane);
	if (answer[1] == PT_FOUND)
		set_put(lane->find, answer[2]);
	return NULL;
}

static const char *feed_hand_back(struct ledger *ledger, uint32_t slot)
{
	if (slot >= LEDGER_SLOTS)
		return BEYOND;
	if (!ledger->slot[slot].out)
		return "a slot was handed back that is not out";
	if (set_next(ledger->slot[slot].sections, 0, LEDGER_LANES) < LEDGER_LANES)
		return "a slot was handed back before a section of its removal ended";
	ledger->slot[slot] = (struct ledger_slot){ .out = 0 };
	return NULL;
}

/* What an accepted call contradicts of the lane's section and lookup, or NULL. */
static const char *misplaced(const struct ledger *ledger, uint32_t l, enum call_name name)
{
	bool reading = ledger_reading(ledger, l), looking = ledger->lane[l].lookup != 0;

	switch (name) {
	case CALL_BEGIN: return reading ? "a section began inside a section" : NULL;
	case CALL_END: return reading ? NULL : "a section ended that is not open";
	case CALL_START:
		if (!reading)
			return "a lookup started outside a section";
		return looking ? "a lookup started while another runs" : NULL;
	case CALL_STEP: return looking ? NULL : "a step was taken with no lookup running";
	default: return NULL;
	}
}

/* Whether the call is a step of a lane whose lookup runs. */
static bool step_of_lookup(const struct ledger *ledger, const struct call *call)
{
	return call->name == CALL_STEP && call->argument[0] < LEDGER_LANES &&
		ledger->lane[call->argument[0]].lookup != 0;
}

bool ledger_attains(const struct ledger *ledger, const struct call *call, const uint32_t *answer)
{
	return step_of_lookup(ledger, call) && answer[0] == PT_OK && answer[1] != PT_GOING &&
		ledger->lane[call->argument[0]].lookup == 1;
}

const char *ledger_feed(struct ledger *ledger, const struct call *call, const uint32_t *answer)
{
	uint32_t lane = (uint32_t)call->argument[0];
	const char *fault;

	if (answer[0] != PT_OK)
		return step_of_lookup(ledger, call) ? REFUSED : NULL;
	if (call->name == CALL_SETUP) {
		ledger_reset(ledger);
		return NULL;
	}
	if (lane >= LEDGER_LANES)
		return BEYOND;
	fault = misplaced(ledger, lane, call->name);
	if (fault != NULL)
		return fault;
	switch (call->name) {
	case CALL_ADD:
	case CALL_REPLACE:
	case CALL_DELETE: return feed_change(ledger, call, answer);
	case CALL_STEP: return feed_step(ledger, &ledger->lane[lane], answer);
	case CALL_HAND_BACK: return feed_hand_back(ledger, answer[1]);
	case CALL_START:
		feed_start(ledger, &ledger->lane[lane], call->argument[1]);
		return NULL;
	case CALL_BEGIN:
		set_put(ledger->reading, lane);
		return NULL;
	case CALL_END:
		feed_end(ledger, lane);
		return NULL;
	default:
		return NULL;
	}
}

/* The first word of a body. */
static const uint32_t *body_of(const uint32_t *memory, int body)
{
	return memory + layout_of(sizes_of(memory)).first[body];
}

/* Whether the words of a slot hold its entry, or what that was. */
static bool slot_holds(const uint32_t *word, const struct ledger_slot *slot)
{
	return word[SLOT_CODE + CODE_LOW] == (uint32_t)slot->code &&
		word[SLOT_CODE + CODE_HIGH] == (uint32_t)(slot->code >> 32) &&
		word[SLOT_DEPOSIT] == slot->deposit && word[SLOT_MATERIAL] == slot->material;
}

/* Whether the memory holds what the lane has found. */
static bool finds_kept(const struct ledger *ledger, const struct ledger_lane *lane, const uint32_t *slots,
		uint32_t count)
{
	FOR_EACH(n, lane->find, LEDGER_SLOTS)
		if (n >= count || !slot_holds(slots + SLOT_WORDS * n, &ledger->slot[n]))
			return false;
	return true;
}

const char *ledger_kept(const struct ledger *ledger, const uint32_t *memory)
{
	const uint32_t *slots = body_of(memory, BODY_SLOTS);

	FOR_EACH(l, ledger->reading, LEDGER_LANES)
		if (!finds_kept(ledger, &ledger->lane[l], slots, memory[CONTENTS_SLOTS]))
			return "a found slot lost its record in the finder's section";
	return NULL;
}

/* ---- what comes to done queues */

/* Marks the slots of a queue along their links, up to one that is marked; returns how many. */
static uint32_t mark_queue(const uint32_t *memory, const uint32_t *queue, bool marked[LEDGER_SLOTS])
{
	const uint32_t *slots = body_of(memory, BODY_SLOTS);
	uint32_t slot = queue[QUEUE_FIRST], count = 0;

	while (slot < LEDGER_SLOTS && slot < memory[CONTENTS_SLOTS] && !marked[slot]) {
		marked[slot] = true;
		count++;
		slot = slots[SLOT_WORDS * slot + SLOT_QUEUE_LINK];
	}
	return count;
}

/* The slots in all done queues. */
static uint32_t slots_done(const uint32_t *memory)
{
	bool marked[LEDGER_SLOTS] = { false };
	uint32_t count = mark_queue(memory, body_of(memory, BODY_GLOBAL) + GLOBAL_DONE, marked);
	const uint32_t *lanes = body_of(memory, BODY_LANES);

	for (uint32_t l = 0; l < sizes_lanes(sizes_of(memory)); l++)
		count += mark_queue(memory, lanes + LANE_WORDS * l + LANE_DONE, marked);
	return count;
}

/* The slots that stood in the global current queue and stand in the global done queue. */
static uint32_t moved_globally(const uint32_t *before, const uint32_t *after)
{
	bool current[LEDGER_SLOTS] = { false }, done[LEDGER_SLOTS] = { false };
	uint32_t moved = 0;

	mark_queue(before, body_of(before, BODY_GLOBAL) + GLOBAL_CURRENT, current);
	mark_queue(after, body_of(after, BODY_GLOBAL) + GLOBAL_DONE, done);
	for (uint32_t slot = 0; slot < LEDGER_SLOTS; slot++)
		moved += current[slot] && done[slot] ? 1u : 0u;
	return moved;
}

uint32_t ledger_moved(const struct call *call, const uint32_t *answer, const uint32_t *before,
		const uint32_t *after)
{
	if (answer[0] != PT_OK)
		return 0;
	switch (call->name) {
	case CALL_CLOCK: return answer[4];
	case CALL_OFF: return moved_globally(before, after); /* its own done queue was counted before */
	default: return 0;
	}
}

const char *ledger_counted(struct ledger *ledger, const struct call *call, const uint32_t *answer,
		const uint32_t *before, const uint32_t *after)
{
	ledger->done += ledger_moved(call, answer, before, after);
	ledger->done -= call->name == CALL_HAND_BACK && answer[0] == PT_OK ? 1u : 0u;
	return ledger->done == slots_done(after) ? NULL : MISCOUNTED;
}

const char *ledger_judge(struct ledger *ledger, const struct call *call, const uint32_t *answer,
		const uint32_t *before, const uint32_t *after)
{
	const char *fault = ledger_feed(ledger, call, answer);

	if (fault == NULL)
		fault = ledger_kept(ledger, after);
	return fault != NULL ? fault : ledger_counted(ledger, call, answer, before, after);
}
