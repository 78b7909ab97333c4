/*
 * blame.c - the sentences that a difference breaks.
 */
#include "blame.h"

#include <stdlib.h>
#include <string.h>

#include "reference.h"
#include "table.h"

#define COUNT(list) (uint32_t)(sizeof(list) / sizeof((list)[0]))

static const enum sentence legal_sentences[LEGAL_SENTENCES] = {
	[LEGAL_CONTENTS] = SENTENCE_LEGAL_CONTENTS,
	[LEGAL_FLAGS] = SENTENCE_LEGAL_FLAGS,
	[LEGAL_MASKS] = SENTENCE_LEGAL_MASKS,
	[LEGAL_LINKS] = SENTENCE_LEGAL_LINKS,
	[LEGAL_FIELDS] = SENTENCE_LEGAL_FIELDS,
	[LEGAL_EMPTY_ENDS] = SENTENCE_LEGAL_EMPTY_ENDS,
	[LEGAL_ONCE] = SENTENCE_LEGAL_ONCE,
	[LEGAL_LASTS] = SENTENCE_LEGAL_LASTS,
	[LEGAL_LENGTHS] = SENTENCE_LEGAL_LENGTHS,
	[LEGAL_CHAINS] = SENTENCE_LEGAL_CHAINS,
	[LEGAL_TWICE] = SENTENCE_LEGAL_TWICE,
	[LEGAL_SNAPSHOTS_REST] = SENTENCE_LEGAL_SNAPSHOTS_REST,
	[LEGAL_LOOKUPS_REST] = SENTENCE_LEGAL_LOOKUPS_REST,
	[LEGAL_GENERATIONS_REST] = SENTENCE_LEGAL_GENERATIONS_REST,
	[LEGAL_LINKS_REST] = SENTENCE_LEGAL_LINKS_REST,
	[LEGAL_OFFLINE] = SENTENCE_LEGAL_OFFLINE,
	[LEGAL_LOOKUP_IN_SECTION] = SENTENCE_LEGAL_LOOKUP_IN_SECTION,
	[LEGAL_SNAPSHOT_PENDING] = SENTENCE_LEGAL_SNAPSHOT_PENDING,
	[LEGAL_CABINET_BITS] = SENTENCE_LEGAL_CABINET_BITS,
	[LEGAL_YARD_BITS] = SENTENCE_LEGAL_YARD_BITS,
	[LEGAL_FREE_SLOTS] = SENTENCE_LEGAL_FREE_SLOTS,
	[LEGAL_LARGEST] = SENTENCE_LEGAL_LARGEST,
	[LEGAL_LANE_GENERATION] = SENTENCE_LEGAL_LANE_GENERATION,
	[LEGAL_GLOBAL_GENERATION] = SENTENCE_LEGAL_GLOBAL_GENERATION,
};

enum sentence legal_sentence_of(enum legal_sentence broken)
{
	return broken < LEGAL_SENTENCES ? legal_sentences[broken] : SENTENCE_LEGAL;
}

enum sentence cause_sentence(uint32_t cause)
{
	if (cause == PT_BAD_SIZE || cause == PT_SHORT_MEMORY)
		return SENTENCE_CAUSE_SET_UP;
	if (cause == PT_WRONG_DIGIT)
		return SENTENCE_DIGIT_REFUSED;
	return cause == PT_NOT_LEGAL ? SENTENCE_CAUSE_NOT_LEGAL : SENTENCE_CAUSE_OTHERS;
}

/* ---- rules, and the words that they settle */

/* Kinds of words. */
enum {
	OF_CURRENT = 1u << 0,	      /* the current generation */
	OF_LARGEST = 1u << 1,	      /* the largest requested */
	OF_MASKS = 1u << 2,	      /* of all levels */
	OF_CHAINS = 1u << 3,	      /* heads and chain links */
	OF_QUEUES = 1u << 4,	      /* their ends, and the links of slots in them */
	OF_LENGTHS = 1u << 5,	      /* of queues */
	OF_GENERATIONS = 1u << 6,     /* of current queues */
	OF_RECORDS = 1u << 7,	      /* code, deposit and material of a slot */
	OF_COUNTS = 1u << 8,	      /* of passes */
	OF_SNAPSHOT_FLAG = 1u << 9,
	OF_SNAPSHOT_COUNTS = 1u << 10,
	OF_LOOKUP = 1u << 11,	      /* its flag, code and position */
	OF_LANE_STATE = 1u << 12,     /* the flags of a lane that is on, and of an open section */
	OF_CONTENTS = 1u << 13,
	OF_SNAPSHOT = OF_SNAPSHOT_FLAG | OF_SNAPSHOT_COUNTS,
	OF_ADVANCE = OF_QUEUES | OF_GENERATIONS | OF_LARGEST,
	OF_PERIOD = OF_MASKS | OF_CURRENT | OF_LARGEST | OF_GENERATIONS,
	OF_ALL = ~(uint32_t)OF_LENGTHS & 0x3fffu /* lengths have a sentence of their own */
};

/* From the particular to the general. What a rule settles perhaps it settles by another one. */
static const struct {
	enum sentence rule;
	uint32_t settles, perhaps;
} rules[] = {
	{ SENTENCE_END_UNFINISHED, OF_LANE_STATE, 0 },
	{ SENTENCE_COUNT_WRAPS, OF_COUNTS, 0 },
	{ SENTENCE_WIDE_COUNTS, OF_COUNTS | OF_SNAPSHOT, OF_CURRENT },
	{ SENTENCE_LOOKUP_DROPPED, OF_LOOKUP, 0 },
	{ SENTENCE_JOINED, OF_QUEUES | OF_LENGTHS, 0 },
	{ SENTENCE_LENGTHS, OF_LENGTHS, 0 },
	{ SENTENCE_CURRENT_TO_NEXT, OF_QUEUES | OF_GENERATIONS, 0 },
	{ SENTENCE_REMOVED, OF_QUEUES, 0 },
	{ SENTENCE_PASS, OF_COUNTS, 0 },
	{ SENTENCE_START, OF_LOOKUP, 0 },
	{ SENTENCE_STEP, OF_LOOKUP, 0 },
	{ SENTENCE_STEP_ENDS, OF_LOOKUP, 0 },
	{ SENTENCE_YARD_BITS, 0, OF_MASKS | OF_CURRENT },
	{ SENTENCE_CABINET_BIT_GOES, 0, OF_MASKS | OF_CURRENT },
	{ SENTENCE_END_PERIOD, OF_CURRENT, OF_MASKS },
	{ SENTENCE_ADVANCE, OF_ADVANCE, OF_MASKS },
	{ SENTENCE_STEP_2, OF_LARGEST | OF_GENERATIONS, OF_MASKS },
	{ SENTENCE_BEGIN_PERIOD, OF_MASKS, 0 },
	{ SENTENCE_COUNTS, OF_COUNTS | OF_SNAPSHOT_COUNTS, 0 },
	{ SENTENCE_SET_UP, OF_ALL, 0 },
	{ SENTENCE_ADD, OF_ALL, 0 },
	{ SENTENCE_REPLACE, OF_ALL, 0 },
	{ SENTENCE_HAND_BACK, OF_ALL, 0 },
	{ SENTENCE_CLOCK, OF_ALL, 0 },
	{ SENTENCE_ON, OF_ALL, 0 },
	{ SENTENCE_OFF, OF_ALL, 0 },
	{ SENTENCE_LEDGER_SECTIONS, OF_LANE_STATE, 0 }, /* all that is said of begin and end */
	{ SENTENCE_PERIOD_RUNS, OF_PERIOD, 0 },
	{ SENTENCE_LATER, OF_ADVANCE, 0 },
};

/* Traps, how a place is worked out, and what a status shows: named first, since they are broken only where that is seen. */
static const enum sentence shown[] = {
	SENTENCE_TRAP_SNAPSHOT, SENTENCE_TRAP_JOINED, SENTENCE_TRAP_REPLACE, SENTENCE_TRAP_CHAINED,
	SENTENCE_YARD_SUBTRACTED, SENTENCE_SUBTRACTED, SENTENCE_DIGIT_OLDER, SENTENCE_END_UNFINISHED,
	SENTENCE_CAUSE_FIRST, SENTENCE_CODE_LIMIT,
};

/* What may be said of many differences: named last. */
static const enum sentence general[] = {
	SENTENCE_CAUSE_SET_UP, SENTENCE_CAUSE_NOT_LEGAL, SENTENCE_CAUSE_OTHERS, SENTENCE_MOVED, SENTENCE_OFF_ZEROS,
	SENTENCE_ANSWER, SENTENCE_LEGAL, SENTENCE_LISTING, SENTENCE_STARS,
};

/* What lies below all rules: in doubt where another sentence is broken as well. */
static const enum sentence below[] = {
	SENTENCE_PERIOD_RUNS, SENTENCE_LATER, SENTENCE_LANE_NUMBER, SENTENCE_PLACES_SAME, SENTENCE_HOUSE,
	SENTENCE_CABINETS, SENTENCE_LANES, SENTENCE_SLOTS, SENTENCE_YARDS,
};

/* Where a sentence stands in a list, or @count. */
static uint32_t place_in(const enum sentence *list, uint32_t count, enum sentence sentence)
{
	uint32_t n = 0;

	while (n < count && list[n] != sentence)
		n++;
	return n;
}

static uint32_t place_in_rules(enum sentence sentence)
{
	uint32_t n = 0;

	while (n < COUNT(rules) && rules[n].rule != sentence)
		n++;
	return n;
}

/*
 * Where a sentence is named: those that are shown, those of no list in the papers' order, rules,
 * those of legality, the general ones, and what lies below.
 */
static uint32_t rank(enum sentence sentence)
{
	uint32_t n;

	if ((n = place_in(shown, COUNT(shown), sentence)) < COUNT(shown))
		return n;
	if ((n = place_in_rules(sentence)) < COUNT(rules))
		return 2 * SENTENCES + n;
	if ((n = place_in(legal_sentences, LEGAL_SENTENCES, sentence)) < LEGAL_SENTENCES)
		return 3 * SENTENCES + n;
	if ((n = place_in(general, COUNT(general), sentence)) < COUNT(general))
		return 4 * SENTENCES + n;
	if ((n = place_in(below, COUNT(below), sentence)) < COUNT(below))
		return 5 * SENTENCES + n;
	return SENTENCES + (uint32_t)sentence;
}

static int by_rank(const void *a, const void *b)
{
	uint32_t first = rank(*(const enum sentence *)a), second = rank(*(const enum sentence *)b);

	return (first > second) - (first < second);
}

void blame_order(enum sentence order[SENTENCES])
{
	for (int n = 0; n < SENTENCES; n++)
		order[n] = (enum sentence)n;
	qsort(order, SENTENCES, sizeof order[0], by_rank);
}

/* ---- words that differ */

static uint32_t kind_of_queue(uint32_t word)
{
	return word % QUEUE_WORDS == QUEUE_LENGTH ? OF_LENGTHS : OF_QUEUES;
}

static uint32_t kind_in_house(uint32_t at)
{
	switch (at) {
	case GLOBAL_CURRENT_GENERATION: return OF_CURRENT;
	case GLOBAL_LARGEST_GENERATION: return OF_LARGEST;
	case GLOBAL_PENDING: return OF_MASKS;
	case GLOBAL_GENERATION: return OF_GENERATIONS;
	default: return at < GLOBAL_FREE ? OF_CHAINS : kind_of_queue(at - GLOBAL_FREE);
	}
}

/* Of the flags it is told which differ. */
static uint32_t kind_in_lane(uint32_t at, uint32_t bits)
{
	if (at == LANE_FLAGS)
		return (bits & FLAG_SNAPSHOT ? OF_SNAPSHOT_FLAG : 0u) | (bits & FLAG_LOOKUP ? OF_LOOKUP : 0u) |
			(bits & ~(uint32_t)(FLAG_SNAPSHOT | FLAG_LOOKUP) ? OF_LANE_STATE : 0u);
	if (at < LANE_SNAPSHOT)
		return OF_COUNTS;
	if (at < LANE_GENERATION)
		return OF_SNAPSHOT_COUNTS;
	if (at == LANE_GENERATION)
		return OF_GENERATIONS;
	return at < LANE_CODE ? kind_of_queue(at - LANE_NEXT) : OF_LOOKUP;
}

static uint32_t kind_in_slot(uint32_t at)
{
	return at == SLOT_CHAIN_LINK ? OF_CHAINS : at == SLOT_QUEUE_LINK ? OF_QUEUES : OF_RECORDS;
}

/* The body in which a word stands, or -1: the contents. */
static int body_of(const struct layout *layout, uint32_t n)
{
	int body = BODIES - 1;

	while (body >= 0 && n < layout->first[body])
		body--;
	return body;
}

/* The kind of word @n, of which @bits differ. */
static uint32_t kind_of(const struct layout *layout, uint32_t n, uint32_t bits)
{
	int body = body_of(layout, n);
	uint32_t at = body < 0 ? n : n - layout->first[body];

	switch (body) {
	case BODY_GLOBAL: return kind_in_house(at);
	case BODY_LANES: return kind_in_lane(at % LANE_WORDS, bits);
	case BODY_SLOTS: return kind_in_slot(at % SLOT_WORDS);
	case BODY_CABINETS:
	case BODY_YARDS: return OF_MASKS;
	default: return OF_CONTENTS;
	}
}

/*
 * Whether a word that differs may do so by a wrong place: a lane mask, a word of a lane that
 * the call does not name, or the snapshot that a clock takes, since that goes by the mask.
 */
static bool goes_by_place(const struct beside *beside, const struct layout *layout, uint32_t n)
{
	uint64_t own = layout->first[BODY_LANES] + LANE_WORDS * call_argument(&beside->call, KIND_LANE, 0);

	if (n < layout->first[BODY_CABINETS] || n >= layout->first[BODY_SLOTS])
		return false;
	if (n < own || n >= own + LANE_WORDS)
		return true;
	return n == own + LANE_FLAGS && beside->call.name == CALL_CLOCK && !(beside->before[n] & FLAG_SNAPSHOT);
}

/* The record that holds a word which differs. */
static void blame_record(struct tries *broken, const struct layout *layout, uint32_t n)
{
	static const enum sentence records[BODIES] = {
		[BODY_GLOBAL] = SENTENCE_HOUSE,
		[BODY_CABINETS] = SENTENCE_CABINETS,
		[BODY_LANES] = SENTENCE_LANES,
		[BODY_SLOTS] = SENTENCE_SLOTS,
		[BODY_YARDS] = SENTENCE_YARDS,
	};
	int body = body_of(layout, n);

	broken->of[body < 0 ? SENTENCE_CONTENTS : records[body]] = true;
	broken->of[SENTENCE_VERSION] |= n == CONTENTS_VERSION;
	broken->of[SENTENCE_YARD_SIZES] |= n == CONTENTS_YARDS;
}

/* What a lane's place settles. */
static void blame_place(struct tries *broken, const struct tries *tries)
{
	static const enum sentence places[] = { SENTENCE_SUBTRACTED, SENTENCE_YARD_SUBTRACTED, SENTENCE_LANE_NUMBER,
		SENTENCE_PLACES_SAME };

	for (uint32_t n = 0; n < COUNT(places); n++)
		broken->of[places[n]] |= tries->of[places[n]];
}

/* The records of the words that differ, and of an accepted call whether these go by a place; the kinds of the words. */
static uint32_t blame_words(struct tries *broken, const struct tries *tries, const struct beside *beside)
{
	struct layout layout = layout_of(sizes_of(beside->memory));
	uint32_t kinds = 0;

	for (uint32_t n = 0; n < layout.total && n < beside->words; n++) {
		uint32_t bits = beside->memory[n] ^ beside->left.memory[n];

		if (bits == 0)
			continue;
		kinds |= kind_of(&layout, n, bits);
		if (beside->left.status != PT_OK)
			continue;
		blame_record(broken, &layout, n);
		if (goes_by_place(beside, &layout, n))
			blame_place(broken, tries);
	}
	return kinds;
}

/* The rules that settle words of these kinds, of those that the call tries; how many settle them for certain. */
static uint32_t blame_rules(struct tries *broken, struct tries *doubted, const struct tries *tries, uint32_t kinds)
{
	uint32_t blamed = 0;

	for (uint32_t n = 0; n < COUNT(rules); n++) {
		bool settles = (rules[n].settles & kinds) != 0, perhaps = (rules[n].perhaps & kinds) != 0;

		broken->of[rules[n].rule] |= tries->of[rules[n].rule] && settles;
		doubted->of[rules[n].rule] |= tries->of[rules[n].rule] && !settles && perhaps;
		blamed += tries->of[rules[n].rule] && settles ? 1u : 0u;
	}
	return blamed;
}

/* ---- traps and masks, as the words show them */

/* Whether a cabinet's bit stands exactly while one of its lanes' does, and a yard's while one of its cabinets' does. */
static bool cabinet_bits_agree(const struct table *table)
{
	for (uint32_t c = 0; c < sizes_cabinets(table->sizes); c++)
		if ((table->pending_cabinets[c / table->sizes.cabinets] >> c % table->sizes.cabinets & 1u) !=
				(table->pending_lanes[c] != 0))
			return false;
	return true;
}

static bool yard_bits_agree(const struct table *table)
{
	for (uint32_t y = 0; y < table->sizes.yards; y++)
		if ((table->pending_yards >> y & 1u) != (table->pending_cabinets[y] != 0))
			return false;
	return true;
}

static bool counts_at_rest(const uint64_t *count)
{
	return (count[0] | count[1] | count[2] | count[3]) == 0;
}
_Static_assert(KINDS == 4, "these are all");

/* The lane has its bit no more, or the period is another, and the snapshot is there still, or what it counted. */
static bool kept_snapshot(const struct table *expected, const struct table *left, uint32_t lane, uint32_t period)
{
	const struct lane *now = &left->lane[lane];

	if (!(now->flags & FLAG_SNAPSHOT))
		return !counts_at_rest(now->snapshot);
	if (table_pending(left, lane) && left->current == period)
		return false;
	return !(expected->lane[lane].flags & FLAG_SNAPSHOT) ||
		memcmp(expected->lane[lane].snapshot, now->snapshot, sizeof now->snapshot) != 0;
}

/* An owner's slots wait for the period that runs, and not for the next. */
static bool joined_running(const struct table *table, const struct retired *expected, const struct retired *left)
{
	return left->generation != expected->generation && left->current.first != PT_NONE &&
		left->generation == table->current;
}

static void blame_shown(struct tries *broken, const struct tries *tries, const struct beside *beside)
{
	static struct table expected, left;
	const struct call *call = &beside->call;
	uint32_t lane = (uint32_t)call_argument(call, KIND_LANE, 0), chain = call_argument(call, KIND_CODE, 0) % CHAINS;
	uint32_t removed = beside->expected_answer[call->name == CALL_DELETE ? 1 : 2];
	bool unlinked;

	if (memcmp(beside->memory, beside->left.memory, CONTENTS_WORDS * sizeof *beside->memory) != 0)
		return;
	table_read(&expected, beside->memory);
	table_read(&left, beside->left.memory);
	broken->of[SENTENCE_TRAP_SNAPSHOT] = tries->of[SENTENCE_TRAP_SNAPSHOT] &&
		kept_snapshot(&expected, &left, lane, beside->before[CONTENTS_WORDS + GLOBAL_CURRENT_GENERATION]);
	broken->of[SENTENCE_TRAP_JOINED] = tries->of[SENTENCE_TRAP_JOINED] &&
		(joined_running(&left, &expected.lane[lane].retired, &left.lane[lane].retired) ||
		joined_running(&left, &expected.global, &left.global));
	broken->of[SENTENCE_TRAP_REPLACE] = tries->of[SENTENCE_TRAP_REPLACE] && left.heads[chain] != expected.heads[chain];
	broken->of[SENTENCE_CABINET_BIT_GOES] = tries->of[SENTENCE_CABINET_BIT_GOES] && !cabinet_bits_agree(&left);
	broken->of[SENTENCE_YARD_BITS] = tries->of[SENTENCE_YARD_BITS] && !yard_bits_agree(&left);
	unlinked = tries->of[SENTENCE_REMOVED] && left.slot[removed].chain_link != expected.slot[removed].chain_link;
	broken->of[SENTENCE_REMOVED] |= unlinked;
	broken->of[SENTENCE_TRAP_CHAINED] = tries->of[SENTENCE_TRAP_CHAINED] && (unlinked || call->name == CALL_STEP);
}

/* An accepted call left a memory that is not legal. */
static void blame_legality(struct tries *broken, const struct left *left)
{
	enum legal_sentence sentence = ref_broken(left->memory, left->words);

	if (left->status != PT_OK || sentence == LEGAL_SENTENCES)
		return;
	broken->of[SENTENCE_LEGAL] = true;
	broken->of[legal_sentence_of(sentence)] = true;
}

/* All that an accepted call left in the memory; of a program that is not seen. */
static void blame_memory(struct tries *broken, struct tries *doubted, const struct tries *tries,
		const struct beside *beside)
{
	uint32_t kinds;

	if (beside->tried == NULL)
		return;
	kinds = blame_words(broken, tries, beside);
	if (kinds == 0)
		return;
	if (kinds & OF_QUEUES && beside->call.name != CALL_SETUP &&
			ref_broken(beside->left.memory, beside->left.words) != LEGAL_LENGTHS)
		kinds &= ~(uint32_t)OF_LENGTHS; /* they agree with the queues, which differ */
	if (blame_rules(broken, doubted, tries, kinds) == 0)
		blame_rules(broken, doubted, tries, OF_ALL); /* a word that the call leaves */
	blame_shown(broken, tries, beside);
	blame_legality(broken, &beside->left);
}

/* What a call did not do that was refused. */
static void doubt_memory(struct tries *doubted, const struct tries *tries, const struct beside *beside)
{
	struct tries none = { { false } };

	if (beside->tried == NULL)
		return;
	blame_rules(doubted, doubted, tries, blame_words(&none, tries, beside) & OF_ALL);
	for (int n = SENTENCE_TRAP_CHAINED; n <= SENTENCE_TRAP_SNAPSHOT; n++)
		doubted->of[n] |= tries->of[n];
}

/* ---- statuses and answers */

/* Words of a clock's answer, and of awaited's. */
enum { CLOCK_RUNS = 3, CLOCK_MOVED = 4, AWAITED_LANES = 1, AWAITED_LOWEST = 2 };

/* Where a check digit is said to be wrong, or not said so; of an add and a replace alone that is asked. */
static void blame_digits(struct tries *broken, const struct tries *tries, const struct call *call, uint32_t given)
{
	broken->of[SENTENCE_DIGIT_RIGHT] |= tries->of[SENTENCE_DIGIT_RIGHT];
	broken->of[SENTENCE_DIGIT_WEIGHTS] |= tries->of[SENTENCE_DIGIT_WEIGHTS];
	broken->of[SENTENCE_DIGIT_OLDER] |= given == PT_WRONG_DIGIT && call->name != CALL_ADD && call->name != CALL_REPLACE;
}

/* The sentences of a cause that was not answered, and of one that was; PT_OK is none. */
static void blame_causes(struct tries *broken, const struct tries *tries, const struct call *call, uint32_t missed,
		uint32_t given)
{
	if (missed != PT_OK)
		broken->of[cause_sentence(missed)] = true;
	if (given != PT_OK)
		broken->of[given <= LAST_CAUSE ? cause_sentence(given) : SENTENCE_ANSWER] = true;
	broken->of[SENTENCE_LEGAL] |= given == PT_NOT_LEGAL;
	broken->of[SENTENCE_PRODUCT] |= missed == PT_NO_LANE || given == PT_NO_LANE;
	broken->of[SENTENCE_YARD_SIZES] |= missed == PT_BAD_SIZE || given == PT_BAD_SIZE;
	broken->of[SENTENCE_CODE_LIMIT] |= tries->of[SENTENCE_CODE_LIMIT] &&
		(missed == PT_OUT_OF_RANGE || given == PT_OUT_OF_RANGE);
	broken->of[SENTENCE_CAUSE_9] |= missed == PT_IN_LOOKUP || (given == PT_IN_LOOKUP && tries->of[SENTENCE_CAUSE_9]);
	if (missed == PT_WRONG_DIGIT || given == PT_WRONG_DIGIT)
		blame_digits(broken, tries, call, given);
}

/* Whether a cause that is answered stands before the one that is expected, or is none of the call's. */
static bool stands_before(const struct call *call, uint32_t given, uint32_t expected)
{
	const uint32_t *cause = call_forms[call->name].cause;
	bool passed = false;

	for (; *cause != PT_OK && *cause != given; cause++)
		passed |= *cause == expected;
	return *cause == PT_OK || !passed;
}

/* The sentence on legal memories that this one breaks, which was not seen. */
static void blame_not_legal(struct tries *broken, const struct tries *tries)
{
	for (int n = 0; n < LEGAL_SENTENCES; n++)
		broken->of[legal_sentences[n]] |= tries->of[legal_sentences[n]];
	broken->of[SENTENCE_VERSION] |= tries->of[SENTENCE_VERSION];
}

/*
 * Causes are tested in their order: where one is answered that stands before the expected one,
 * it does not apply, and the expected one was not reached; otherwise the expected one was missed.
 */
static void blame_status(struct tries *broken, struct tries *doubted, const struct tries *tries,
		const struct beside *beside)
{
	uint32_t expected = beside->expected.status, status = beside->left.status;

	if (expected == PT_SHORT_ANSWER || status == PT_SHORT_ANSWER) {
		broken->of[SENTENCE_SHORT_ANSWER] = true;
		return;
	}
	blame_causes(doubted, tries, &beside->call, expected, status);
	if (status != PT_OK && stands_before(&beside->call, status, expected)) {
		blame_causes(broken, tries, &beside->call, PT_OK, status);
	} else {
		blame_causes(broken, tries, &beside->call, expected, PT_OK);
		broken->of[SENTENCE_CAUSE_FIRST] = status != PT_OK && tries->of[SENTENCE_CAUSE_FIRST];
	}
	if (expected == PT_NOT_LEGAL)
		blame_not_legal(broken, tries);
	broken->of[SENTENCE_END_UNFINISHED] = tries->of[SENTENCE_END_UNFINISHED];
	if (expected == PT_OK)
		doubt_memory(doubted, tries, beside);
}

/* What awaited says of lanes goes by their places. */
static void doubt_awaited(struct tries *doubted, const uint32_t *expected, const uint32_t *answer, struct sizes sizes)
{
	if (expected[AWAITED_LANES] == answer[AWAITED_LANES] && expected[AWAITED_LOWEST] == answer[AWAITED_LOWEST])
		return;
	doubted->of[SENTENCE_LANE_NUMBER] = true;
	doubted->of[SENTENCE_PLACES_SAME] = true;
	doubted->of[SENTENCE_SUBTRACTED] = sizes.cabinets > 1;
	doubted->of[SENTENCE_YARD_SUBTRACTED] = sizes.yards > 1;
	doubted->of[SENTENCE_NONE] = expected[AWAITED_LOWEST] == PT_NONE;
}

/* An answer that differs: the sentence on answers, and what the paper says of that call's answer besides. */
static void blame_answer(struct tries *broken, struct tries *doubted, const struct tries *tries,
		const struct beside *beside)
{
	const uint32_t *expected = beside->expected.answer, *answer = beside->left.answer;
	enum call_name name = beside->call.name;

	broken->of[SENTENCE_ANSWER] = true;
	broken->of[SENTENCE_TOTAL] = name == CALL_SETUP;
	broken->of[SENTENCE_STEP] = name == CALL_STEP;
	broken->of[SENTENCE_OFF_ZEROS] = name == CALL_OFF;
	broken->of[SENTENCE_LOOKUP_DROPPED] = name == CALL_END && tries->of[SENTENCE_LOOKUP_DROPPED];
	broken->of[SENTENCE_PERIOD_RUNS] = name == CALL_CLOCK && expected[CLOCK_RUNS] != answer[CLOCK_RUNS];
	broken->of[SENTENCE_MOVED] = name == CALL_CLOCK && expected[CLOCK_MOVED] != answer[CLOCK_MOVED];
	if (name == CALL_AWAITED)
		doubt_awaited(doubted, expected, answer, sizes_of(beside->memory));
	blame_memory(broken, doubted, tries, beside);
}

static void blame_difference(struct tries *broken, struct tries *doubted, const struct tries *tries,
		const struct beside *beside)
{
	switch (beside->difference) {
	case SAME: break;
	case DIFFERS_STATUS: blame_status(broken, doubted, tries, beside); break;
	case DIFFERS_PAST_ANSWER:
		broken->of[beside->expected.status == PT_SHORT_ANSWER ? SENTENCE_SHORT_ANSWER :
			SENTENCE_FIVE_WORDS] = true;
		break;
	case DIFFERS_ANSWER: blame_answer(broken, doubted, tries, beside); break;
	case DIFFERS_WORDS: blame_memory(broken, doubted, tries, beside); break;
	case DIFFERS_LEDGER: blame_ledger(broken, ledger_fault_of(beside->fault)); break;
	default: blame_owed(broken, beside); break;
	}
}

/* Whether one is broken that does not lie below all rules. */
static bool one_above(const struct tries *broken)
{
	for (int n = 0; n < SENTENCES; n++)
		if (broken->of[n] && place_in(below, COUNT(below), (enum sentence)n) == COUNT(below))
			return true;
	return false;
}

/* What lies below all rules is in doubt beside one that is broken. */
static void doubt_below(struct blamed *blamed)
{
	for (uint32_t n = 0; n < COUNT(below); n++) {
		blamed->doubted.of[below[n]] |= blamed->broken.of[below[n]];
		blamed->broken.of[below[n]] = false;
	}
}

void blame(struct blamed *blamed, const struct tries *tries, const struct beside *beside)
{
	memset(blamed, 0, sizeof *blamed);
	blame_difference(&blamed->broken, &blamed->doubted, tries, beside);
	if (one_above(&blamed->broken))
		doubt_below(blamed);
	for (int n = 0; n < SENTENCES; n++)
		blamed->doubted.of[n] &= !blamed->broken.of[n];
}

void blame_owed(struct tries *broken, const struct beside *beside)
{
	switch (beside->difference) {
	case DIFFERS_REFUSED: broken->of[SENTENCE_CAUSE_RETURNED] = true; break;
	case DIFFERS_PAST_TOTAL: broken->of[SENTENCE_PAST_TOTAL] = true; break;
	case DIFFERS_OUTSIDE: broken->of[SENTENCE_CALLED] = true; break;
	case DIFFERS_NOT_LEGAL: blame_legality(broken, &beside->left); break;
	case DIFFERS_STATUS: broken->of[SENTENCE_SHORT_ANSWER] = true; break;
	default: broken->of[SENTENCE_FIVE_WORDS] = true; break;
	}
}

/* Of how long a lookup can take, of what comes to done lines, or of demand 3. */
void blame_ledger(struct tries *broken, enum ledger_fault of)
{
	broken->of[SENTENCE_FIGURE] = of == FAULT_OF_FIGURE;
	broken->of[SENTENCE_FIGURE_LISTS] = of == FAULT_OF_FIGURE;
	broken->of[SENTENCE_ADD_UP] = of == FAULT_OF_COUNT;
	broken->of[SENTENCE_LEDGER_DEMAND] = of == FAULT_OF_DEMAND_3;
}
