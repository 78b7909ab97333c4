/*
 * sentences.c - what a call tries, read off the judge's memory before and after it.
 */
#include "sentences.h"

#include <inttypes.h>
#include <stdio.h>
#include <string.h>

#include "blame.h"
#include "causes.h"
#include "codes.h"
#include "reference.h"
#include "table.h"

static const char *const texts[SENTENCES] = {
#define SECTION(text)
#define SENTENCE(NAME, text) [SENTENCE_##NAME] = text,
#include "sentences.def"
};

/* Those that answers do not show. */
static const bool unseen[SENTENCES] = {
#define SECTION(text)
#define SENTENCE(NAME, text)
#define UNSEEN(NAME) [SENTENCE_##NAME] = true,
#include "sentences.def"
};

const char *legal_text(enum legal_sentence sentence)
{
	return texts[legal_sentence_of(sentence)];
}

/* ---- what a refused call tries */

/* Whether the call's lane is the first number that is none. */
static bool first_past(const struct beside *beside)
{
	return call_argument(&beside->call, KIND_LANE, 0) == sizes_lanes(sizes_of(beside->before));
}

static void refused_tries(struct tally *tally, struct tries *tries, const struct beside *beside)
{
	uint32_t cause = beside->expected.status;
	uint32_t causes = causes_of(beside->before, beside->words, &beside->call);

	tries->of[SENTENCE_CAUSE_RETURNED] = true;
	tries->of[cause_sentence(cause)] = true;
	tries->of[SENTENCE_DIGIT_WEIGHTS] = cause == PT_WRONG_DIGIT;
	tries->of[SENTENCE_CAUSE_9] = cause == PT_IN_LOOKUP;
	if (cause == PT_NOT_LEGAL) {
		tries->of[legal_sentence_of(ref_broken(beside->before, beside->words))] = true;
		tries->of[SENTENCE_VERSION] = beside->words > CONTENTS_VERSION &&
			beside->before[CONTENTS_VERSION] != LAYOUT_VERSION;
	}
	tally->refused[beside->call.name][cause]++;
	tries->of[SENTENCE_PRODUCT] = cause == PT_NO_LANE;
	tries->of[SENTENCE_YARD_SIZES] = cause == PT_BAD_SIZE;
	if (cause == PT_NO_LANE && first_past(beside))
		tally->placed[PLACED_PAST]++;
	for (uint32_t other = 1; other <= LAST_CAUSE; other++)
		if (other != cause && causes >> other & 1u) {
			tries->of[SENTENCE_CAUSE_FIRST] = true;
			tally->before[beside->call.name][cause][other]++;
		}
}

/* ---- what an accepted call tries */

static bool ends_differ(struct queue a, struct queue b)
{
	return a.first != b.first || a.last != b.last;
}

static bool retired_differ(const struct retired *a, const struct retired *b)
{
	return ends_differ(a->next, b->next) || ends_differ(a->current, b->current) ||
		ends_differ(a->done, b->done);
}

/* What becomes of an owner's lines in a clock or an off. */
static void owner_tries(struct tries *tries, const struct table *then, const struct table *now,
		const struct retired *before, const struct retired *after)
{
	bool begun = after->current.first != PT_NONE && after->current.first != before->current.first;

	tries->of[SENTENCE_ADVANCE] |= retired_differ(before, after);
	tries->of[SENTENCE_LATER] |= before->current.first != PT_NONE;
	tries->of[SENTENCE_STEP_2] |= begun;
	tries->of[SENTENCE_TRAP_JOINED] |= begun && then->pending_yards != 0 &&
		after->generation == now->current + 1;
}

/* Whether a lane's bit is gone, or has come. */
static bool bits_moved(const struct table *then, const struct table *now)
{
	return memcmp(then->pending_lanes, now->pending_lanes,
		sizes_cabinets(then->sizes) * sizeof then->pending_lanes[0]) != 0;
}

static void period_tries(struct tries *tries, const struct table *then, const struct table *now,
		uint32_t lane)
{
	bool ended = now->current != then->current;

	tries->of[SENTENCE_PERIOD_RUNS] = true;
	tries->of[SENTENCE_END_PERIOD] = ended;
	tries->of[SENTENCE_BEGIN_PERIOD] = now->pending_yards != 0 && (ended || then->pending_yards == 0);
	tries->of[SENTENCE_CABINET_BIT_GOES] = ended || bits_moved(then, now);
	tries->of[SENTENCE_YARD_BITS] = ended || bits_moved(then, now);
	tries->of[SENTENCE_TRAP_SNAPSHOT] = then->lane[lane].flags & FLAG_SNAPSHOT &&
		(ended || !(now->lane[lane].flags & FLAG_SNAPSHOT));
	owner_tries(tries, then, now, &then->lane[lane].retired, &now->lane[lane].retired);
	owner_tries(tries, then, now, &then->global, &now->global);
}

static bool grew(struct queue before, struct queue after)
{
	return after.length > before.length;
}

/* Whether slots went to a line that had some, in a clock or an off. */
static bool joined(const struct table *then, const struct table *now, const struct call *call, uint32_t lane)
{
	const struct retired *own = &then->lane[lane].retired;
	bool to_done = then->global.done.length > 0 && grew(then->global.done, now->global.done);

	if (call->name == CALL_CLOCK)
		return to_done || (own->done.length > 0 && grew(own->done, now->lane[lane].retired.done));
	return call->name == CALL_OFF && (to_done ||
		(then->global.next.length > 0) + (own->current.length > 0) + (own->next.length > 0) >= 2);
}

/* To which done lines a clock brought slots, or an off besides its lane's own; MOVED: to none. */
static enum moved where_moved(const struct table *then, const struct table *now, const struct call *call,
		uint32_t lane)
{
	bool to_lane = grew(then->lane[lane].retired.done, now->lane[lane].retired.done);
	bool to_house = grew(then->global.done, now->global.done);

	if (call->name == CALL_OFF)
		return now->global.done.length > then->global.done.length + then->lane[lane].retired.done.length ?
			MOVED_BY_OFF : MOVED;
	if (call->name != CALL_CLOCK || !(to_lane || to_house))
		return MOVED;
	return to_lane && to_house ? MOVED_TO_BOTH : to_lane ? MOVED_TO_LANE : MOVED_TO_HOUSE;
}

/* What a call tries of the lines' lengths; of a program the words are not seen. */
static void length_tries(struct tally *tally, struct tries *tries, const struct table *then,
		const struct table *now, const struct call *call, uint32_t lane, bool seen)
{
	enum moved moved = where_moved(then, now, call, lane);

	tries->of[SENTENCE_LENGTHS] = seen && (then->free.length != now->free.length ||
		retired_differ(&then->lane[lane].retired, &now->lane[lane].retired) ||
		retired_differ(&then->global, &now->global));
	tries->of[SENTENCE_JOINED] = joined(then, now, call, lane);
	tries->of[SENTENCE_MOVED] = call->name == CALL_CLOCK;
	tries->of[SENTENCE_OFF_ZEROS] = call->name == CALL_OFF;
	if (moved != MOVED)
		tally->moved[moved]++;
}

/* Whether a slot stands in a chain. */
static bool chained(const struct table *table, uint32_t slot)
{
	uint32_t s = table->heads[table->slot[slot].code % CHAINS];

	while (s != PT_NONE && s != slot)
		s = table->slot[s].chain_link;
	return s == slot;
}

static void table_tries(struct tries *tries, const struct table *then, const struct call *call,
		const uint32_t *answer, uint32_t lane)
{
	uint32_t removed = call->name == CALL_DELETE ? answer[1] : answer[2];

	switch (call->name) {
	case CALL_ADD:
		tries->of[SENTENCE_ADD] = true;
		break;
	case CALL_REPLACE:
		tries->of[SENTENCE_REPLACE] = true;
		tries->of[SENTENCE_TRAP_REPLACE] =
			then->heads[call_argument(call, KIND_CODE, 0) % CHAINS] != removed;
		/* fall through */
	case CALL_DELETE:
		tries->of[SENTENCE_REMOVED] = true;
		tries->of[SENTENCE_TRAP_CHAINED] = then->slot[removed].chain_link != PT_NONE;
		break;
	case CALL_START:
		tries->of[SENTENCE_START] = true;
		break;
	case CALL_STEP:
		tries->of[SENTENCE_STEP] = true;
		tries->of[SENTENCE_STEP_ENDS] = true;
		tries->of[SENTENCE_TRAP_CHAINED] = then->lane[lane].position != PT_NONE &&
			!chained(then, then->lane[lane].position);
		break;
	case CALL_HAND_BACK:
		tries->of[SENTENCE_HAND_BACK] = true;
		break;
	default:
		break;
	}
}

/* Whether a clock has to look at the high word of some count. */
static bool counts_wide(const struct lane *lane)
{
	uint64_t all = 0;

	for (int kind = 0; kind < KINDS; kind++)
		all |= lane->counts[kind] | lane->snapshot[kind];
	return all > UINT32_MAX;
}

static void lane_tries(struct tries *tries, const struct table *then, const struct table *now,
		const struct call *call, uint32_t lane)
{
	tries->of[SENTENCE_LANE_NUMBER] = lane > 0;
	switch (call->name) {
	case CALL_BEGIN:
	case CALL_END:
		tries->of[SENTENCE_LEDGER_SECTIONS] = true;
		break;
	case CALL_PASS:
		tries->of[SENTENCE_PASS] = true;
		tries->of[SENTENCE_COUNTS] = true;
		tries->of[SENTENCE_WIDE_COUNTS] = true;
		tries->of[SENTENCE_COUNT_WRAPS] = then->lane[lane].counts[call->argument[1]] == UINT64_MAX;
		break;
	case CALL_CLOCK:
		tries->of[SENTENCE_CLOCK] = true;
		tries->of[SENTENCE_COUNTS] = true;
		tries->of[SENTENCE_WIDE_COUNTS] = counts_wide(&then->lane[lane]);
		period_tries(tries, then, now, lane);
		break;
	case CALL_ON:
		tries->of[SENTENCE_ON] = true;
		break;
	case CALL_OFF:
		tries->of[SENTENCE_OFF] = true;
		tries->of[SENTENCE_CURRENT_TO_NEXT] =
			then->lane[lane].retired.current.first != PT_NONE;
		period_tries(tries, then, now, lane);
		break;
	default:
		break;
	}
}

/* What an accepted call that names a code tries of check digits. */
static void digit_tries(struct tries *tries, const struct call *call)
{
	bool enters = call->name == CALL_ADD || call->name == CALL_REPLACE;

	tries->of[SENTENCE_DIGIT_RIGHT] = enters;
	tries->of[SENTENCE_DIGIT_WEIGHTS] = enters;
	tries->of[SENTENCE_DIGIT_OLDER] = !enters && !code_is_right(call_argument(call, KIND_CODE, 0));
}

static enum dropped where_dropped(const struct table *table, const struct lane *lane)
{
	if (lane->position == PT_NONE)
		return DROPPED_AT_NONE;
	if (!chained(table, lane->position))
		return DROPPED_OFF_CHAINS;
	return table->heads[lane->code % CHAINS] == lane->position ? DROPPED_AT_HEAD : DROPPED_ON_CHAIN;
}

/* What the end of a section tries whose lookup runs. */
static void dropped_tries(struct tally *tally, struct tries *tries, const struct table *then,
		const struct call *call, uint32_t lane)
{
	if (call->name != CALL_END || !(then->lane[lane].flags & FLAG_LOOKUP))
		return;
	tries->of[SENTENCE_END_UNFINISHED] = true;
	tries->of[SENTENCE_LOOKUP_DROPPED] = true;
	tries->of[SENTENCE_CAUSE_9] = true;
	tally->dropped[where_dropped(then, &then->lane[lane])]++;
}

/* What a call tries that names a lane. */
static void place_tries(struct tally *tally, struct tries *tries, const struct table *then,
		const struct call *call, uint32_t lane)
{
	struct place at = table_place(then, lane);

	tries->of[SENTENCE_SUBTRACTED] = at.cabinet > 0;
	tries->of[SENTENCE_YARD_SUBTRACTED] = at.yard > 0;
	tries->of[SENTENCE_PLACES_SAME] = true;
	if (call->name != CALL_PASS && call->name != CALL_CLOCK && call->name != CALL_OFF)
		return;
	tally->placed[PLACED_IN_FIRST] += at.yard == 0 && at.cabinet == 0 ? 1u : 0u;
	tally->placed[PLACED_AT_START] += (at.yard > 0 || at.cabinet > 0) && at.place == 0 ? 1u : 0u;
	tally->placed[PLACED_IN_EIGHTH] += at.cabinet == PT_MAX_CABINETS - 1 ? 1u : 0u;
	tally->placed[PLACED_IN_OTHER_YARD] += at.yard > 0 ? 1u : 0u;
	tally->placed[PLACED_IN_EIGHTH_YARD] += at.yard == PT_MAX_YARDS - 1 ? 1u : 0u;
}

/* What an accepted step tries that the ledger judges: it may go on, or answers in time. */
static void figure_tries(struct tries *tries, const struct call *call, const uint32_t *answer)
{
	tries->of[SENTENCE_FIGURE] = call->name == CALL_STEP;
	tries->of[SENTENCE_FIGURE_LISTS] = call->name == CALL_STEP && answer[1] != PT_GOING;
}

/* What an accepted call tries of slots that come to done lines, or go; an off does not say what it moved. */
static void sum_tries(struct tries *tries, const struct call *call, bool seen)
{
	tries->of[SENTENCE_ADD_UP] = call->name == CALL_CLOCK || call->name == CALL_HAND_BACK ||
		(seen && call->name == CALL_OFF);
}

static void accepted_tries(struct tally *tally, struct tries *tries, const struct beside *beside)
{
	static struct table then, now;
	uint32_t lane = (uint32_t)call_argument(&beside->call, KIND_LANE, 0);

	tries->of[SENTENCE_ANSWER] = true;
	tries->of[SENTENCE_NONE] = beside->tried != NULL || (beside->call.name == CALL_AWAITED && beside->expected_answer[2] == PT_NONE);
	for (int record = SENTENCE_CONTENTS; record <= SENTENCE_SLOTS; record++)
		tries->of[record] = beside->tried != NULL;
	tries->of[SENTENCE_YARDS] = beside->tried != NULL;
	if (beside->call.name == CALL_SETUP) {
		tries->of[SENTENCE_SET_UP] = true;
		tries->of[SENTENCE_TOTAL] = true;
		tries->of[SENTENCE_YARD_SIZES] = true;
		tries->of[SENTENCE_VERSION] = beside->tried != NULL;
		tries->of[SENTENCE_LENGTHS] = beside->tried != NULL;
		return;
	}
	tries->of[SENTENCE_LEGAL] = true;
	digit_tries(tries, &beside->call);
	table_read(&then, beside->before);
	table_read(&now, beside->memory);
	if (call_argument(&beside->call, KIND_LANE, PT_NONE) != PT_NONE)
		place_tries(tally, tries, &then, &beside->call, lane);
	dropped_tries(tally, tries, &then, &beside->call, lane);
	if (beside->fed) {
		figure_tries(tries, &beside->call, beside->expected_answer);
		sum_tries(tries, &beside->call, beside->tried != NULL);
	}
	length_tries(tally, tries, &then, &now, &beside->call, lane, beside->tried != NULL);
	table_tries(tries, &then, &beside->call, beside->expected_answer, lane);
	lane_tries(tries, &then, &now, &beside->call, lane);
}

static void call_tries(struct tally *tally, struct tries *tries, const struct beside *beside)
{
	tries->of[SENTENCE_CALLED] = beside->tried != NULL;
	tries->of[SENTENCE_LISTING_PROGRAM] = beside->tried == NULL;
	tries->of[SENTENCE_LISTING_WORDS] = beside->tried == NULL && (beside->expected.status == PT_NOT_LEGAL ||
		(beside->expected.status == PT_OK && beside->call.name == CALL_SETUP));
	if (beside->expected.status == PT_SHORT_ANSWER) {
		tries->of[SENTENCE_SHORT_ANSWER] = true;
		return;
	}
	tries->of[SENTENCE_FIVE_WORDS] = true;
	tries->of[SENTENCE_WIDTHS] = call_argument(&beside->call, KIND_CODE, 0) > UINT32_MAX;
	tries->of[SENTENCE_CODE_LIMIT] = call_argument(&beside->call, KIND_CODE, 0) >= FIRST_OF_14_DIGITS;
	if (beside->words > CONTENTS_WORDS && beside->tried != NULL) {
		size_t total = total_of(beside->memory);

		tries->of[SENTENCE_PAST_TOTAL] = total != 0 && beside->words > total;
	}
	if (beside->expected.status == PT_OK) {
		tally->accepted[beside->call.name]++;
		accepted_tries(tally, tries, beside);
	} else {
		refused_tries(tally, tries, beside);
	}
}

static void tally_add(struct tally *tally, const struct tries *tries, const struct blamed *blamed)
{
	tally->calls++;
	for (int n = 0; n < SENTENCES; n++) {
		tally->tried[n] += tries->of[n] || blamed->broken.of[n] || blamed->doubted.of[n] ? 1u : 0u;
		tally->broken[n] += blamed->broken.of[n] ? 1u : 0u;
		tally->doubted[n] += blamed->doubted.of[n] ? 1u : 0u;
	}
}

/* Leaves out the sentences that no answer shows. */
static void leave_unseen(struct tries *tries)
{
	for (int n = 0; n < SENTENCES; n++)
		tries->of[n] &= !unseen[n];
}

/*
 * A program: what it keeps is not seen, so that an answer which differs may come of any call
 * since the set-up, and all that these tried is in doubt.
 */
static void doubt_since_setup(struct tally *tally, const struct beside *beside, const struct tries *tries,
		struct blamed *blamed)
{
	bool begins = beside->call.name == CALL_SETUP && beside->expected.status == PT_OK;

	for (int n = 0; n < SENTENCES; n++) {
		tally->since_setup[n] = tries->of[n] || (tally->since_setup[n] && !begins);
		blamed->doubted.of[n] |= beside->difference != SAME && tally->since_setup[n] && !blamed->broken.of[n];
	}
}

void tally_call(struct tally *tally, const struct beside *beside)
{
	struct tries tries = { { false } };
	struct blamed blamed;

	call_tries(tally, &tries, beside);
	blame(&blamed, &tries, beside);
	tally->attained += beside->attained ? 1 : 0;
	if (beside->tried == NULL) {
		leave_unseen(&tries);
		leave_unseen(&blamed.broken);
		leave_unseen(&blamed.doubted);
		doubt_since_setup(tally, beside, &tries, &blamed);
	}
	tally_add(tally, &tries, &blamed);
}

/* ---- labels */

void tally_label(struct tally *tally, const struct beside *beside, const struct step *step)
{
	static const enum sentence sentences[2][2] = { /* read and written; accepted and refused */
		{ SENTENCE_LABEL_READ, SENTENCE_LABEL_READ_REFUSED },
		{ SENTENCE_LABEL_WRITTEN, SENTENCE_LABEL_WRITE_REFUSED },
	};
	struct tries tries = { { false } };
	struct blamed blamed = { 0 };
	uint32_t status = beside->expected.status;
	int written = step->kind == STEP_WRITE;
	enum sentence sentence = status == PT_SHORT_ANSWER ? SENTENCE_SHORT_ANSWER : sentences[written][status != PT_OK];

	tries.of[sentence] = true;
	blamed.broken.of[sentence] = beside->difference != SAME;
	if (status <= PT_WRONG_LABEL)
		tally->labels[written][status]++;
	tally_add(tally, &tries, &blamed);
}

/* ---- the ledger's */

/* What an accepted call tries that the ledger judges. */
static void ledger_tries(struct tries *tries, const struct call *call, const uint32_t *answer)
{
	bool answered = call->name == CALL_STEP && answer[1] != PT_GOING;

	switch (call->name) {
	case CALL_ADD: tries->of[SENTENCE_LEDGER_ADD] = true; break;
	case CALL_REPLACE:
	case CALL_DELETE:
		tries->of[SENTENCE_LEDGER_REPLACE] = true;
		tries->of[SENTENCE_LEDGER_OUT] = true;
		break;
	case CALL_BEGIN:
	case CALL_END: tries->of[SENTENCE_LEDGER_SECTIONS] = true; break;
	case CALL_START: tries->of[SENTENCE_LEDGER_START] = true; break;
	case CALL_STEP:
		tries->of[SENTENCE_LEDGER_STEP] = answered;
		tries->of[SENTENCE_LEDGER_SEARCH] = answered;
		tries->of[SENTENCE_LEDGER_INSTANT] = answered;
		tries->of[SENTENCE_LEDGER_ANSWERED] = answered;
		break;
	case CALL_HAND_BACK: tries->of[SENTENCE_LEDGER_BACK] = true; break;
	default: tries->of[SENTENCE_LEDGER_OTHERS] = true; break;
	}
}

void tally_judged(struct tally *tally, const struct call *call, const uint32_t *answer, struct verdict verdict)
{
	struct tries tries = { { false } };
	struct blamed blamed = { 0 };
	bool fault = verdict.fault && verdict.of == FAULT_OF_DEMAND_3;

	tally->attained += verdict.attained ? 1 : 0;
	tries.of[SENTENCE_LEDGER_FED] = true;
	tries.of[SENTENCE_LEDGER_DEMAND] = true;
	tries.of[SENTENCE_LEDGER_REFUSED] = answer[0] != PT_OK;
	if (verdict.fault)
		blame_ledger(&blamed.broken, verdict.of);
	if (answer[0] == PT_OK) {
		figure_tries(&tries, call, answer);
		ledger_tries(&tries, call, answer);
	}
	if (answer[0] == PT_OK && verdict.counted)
		sum_tries(&tries, call, true);
	for (int n = SENTENCE_LEDGER_REFUSED; n <= SENTENCE_LEDGER_INSTANT; n++)
		blamed.broken.of[n] = fault && tries.of[n];
	blamed.broken.of[SENTENCE_LEDGER_ANSWERED] = fault && tries.of[SENTENCE_LEDGER_ANSWERED];
	tally_add(tally, &tries, &blamed);
}

void tally_owed(struct tally *tally, const struct beside *beside)
{
	struct tries tries = { { false } };
	struct blamed blamed = { 0 };

	tries.of[SENTENCE_LEDGER_FED] = true;
	blame_owed(&blamed.broken, beside);
	tally_add(tally, &tries, &blamed);
}

/* ---- blame */

void tally_blame(struct tally *tally, const struct tally *blamed)
{
	for (int n = 0; n < SENTENCES; n++) {
		tally->tried[n] += blamed->broken[n] > 0 || blamed->doubted[n] > 0 ? 1u : 0u;
		tally->broken[n] += blamed->broken[n] > 0 ? 1u : 0u;
		tally->doubted[n] += blamed->doubted[n] > 0 ? 1u : 0u;
	}
}

/* A sentence, or where it is long its first words. */
static void print_short(const char *text)
{
	enum { MOST = 110 };
	size_t length = strlen(text);

	if (length <= MOST) {
		printf("%s\n", text);
		return;
	}
	for (length = MOST; text[length] != ' '; length--)
		;
	printf("%.*s ..\n", (int)length, text);
}

/* Those of @counts that are not 0, after a word about the first. */
static void print_named(const uint64_t counts[SENTENCES], const enum sentence order[SENTENCES], const char *about)
{
	for (int n = 0; n < SENTENCES; n++)
		if (counts[order[n]] > 0) {
			printf("  %-12s ", about);
			print_short(texts[order[n]]);
			about = "";
		}
}

void print_blamed(const struct tally *blamed)
{
	enum sentence order[SENTENCES];

	blame_order(order);
	print_named(blamed->broken, order, "put down to");
	print_named(blamed->doubted, order, "in doubt");
}

/* ---- the report */

void print_dropped(const struct tally *tally)
{
	printf("lookups dropped: %" PRIu64 " at the head, %" PRIu64 " further on, %" PRIu64
		" on a slot of no chain, %" PRIu64 " at none\n",
		tally->dropped[DROPPED_AT_HEAD], tally->dropped[DROPPED_ON_CHAIN],
		tally->dropped[DROPPED_OFF_CHAINS], tally->dropped[DROPPED_AT_NONE]);
}

void print_placed(const struct tally *tally)
{
	printf("passes, clocks and offs: %" PRIu64 " in cabinet 0, %" PRIu64 " at the first place of another, %" PRIu64
		" in the eighth of a yard, %" PRIu64 " in another yard than 0, %" PRIu64 " in the eighth; %" PRIu64
		" calls of the first number that is no lane\n",
		tally->placed[PLACED_IN_FIRST], tally->placed[PLACED_AT_START], tally->placed[PLACED_IN_EIGHTH],
		tally->placed[PLACED_IN_OTHER_YARD], tally->placed[PLACED_IN_EIGHTH_YARD], tally->placed[PLACED_PAST]);
}

void print_attained(const struct tally *tally)
{
	printf("lookups answered by step n + 1 and no sooner: %" PRIu64 "\n", tally->attained);
}

void print_moved(const struct tally *tally)
{
	printf("slots came to done lines: by %" PRIu64 " clocks to the lane's, by %" PRIu64 " to the house's, by %" PRIu64
		" to both; by %" PRIu64 " offs\n",
		tally->moved[MOVED_TO_LANE], tally->moved[MOVED_TO_HOUSE], tally->moved[MOVED_TO_BOTH],
		tally->moved[MOVED_BY_OFF]);
}

static void print_line(const struct tally *tally, enum sentence n)
{
	if (tally->tried[n] == 0)
		printf("%13s  not tried      %s\n", "-", texts[n]);
	else if (tally->broken[n] > 0)
		printf("%13" PRIu64 "  DIFFERS %6" PRIu64 " %s\n", tally->tried[n], tally->broken[n], texts[n]);
	else if (tally->doubted[n] > 0)
		printf("%13" PRIu64 "  in doubt %5" PRIu64 " %s\n", tally->tried[n], tally->doubted[n], texts[n]);
	else
		printf("%13" PRIu64 "  held           %s\n", tally->tried[n], texts[n]);
}

/* Those that did not hold, once more; returns whether all that were tried held. */
static bool print_broken(const struct tally *tally)
{
	uint32_t tried = 0, broken = 0, doubted = 0;

	for (int n = 0; n < SENTENCES; n++) {
		tried += tally->tried[n] > 0 ? 1u : 0u;
		broken += tally->broken[n] > 0 ? 1u : 0u;
		doubted += tally->broken[n] == 0 && tally->doubted[n] > 0 ? 1u : 0u;
	}
	printf("\n%" PRIu32 " sentences tried, %" PRIu32 " held, %" PRIu32 " differ, %" PRIu32 " in doubt, %" PRIu32
		" not tried\n", tried, tried - broken - doubted, broken, doubted, SENTENCES - tried);
	for (int n = 0; n < SENTENCES; n++)
		if (tally->broken[n] > 0)
			printf("  differs: %s\n", texts[n]);
	return broken + doubted == 0;
}

bool tally_print(const struct tally *tally)
{
	printf("        tried\n");
#define SECTION(text) printf("%s\n", text);
#define SENTENCE(NAME, text) print_line(tally, SENTENCE_##NAME);
#include "sentences.def"
	return print_broken(tally);
}
