/*
 * exhaustive.c - every state that lists of calls reach on a tiny table, breadth first. A
 * state is a memory with the ledger of demand 3 beside it: two lists that leave the same
 * words but owe different things are two states. In each state every call of an alphabet
 * is made on the library and checked: the C version answers alike and leaves the same
 * words; a refusal left every word; an accepted call left a legal memory and the words
 * past the total; the ledger finds no fault in the answer, nor in the slots that the open
 * sections have found. So every lookup that no end drops has its answer by step n + 1 of its
 * lane, n being the records on the chain when it started; how often no sooner is counted. And
 * what all clocks have answered adds up, with what offs moved, to the slots in done queues
 * and those handed back: the ledger keeps the difference, so that this adds no states.
 *
 * The alphabet, of which each table below takes a part: one or two codes of one chain,
 * one of them 0 as in free slots, added with deposit and material 1 and replaced with 2;
 * lookups of these and of a code of the chain that no record has, which pass every record;
 * quiescent states of some kinds; begin, start, step, and end wherever a lookup stands;
 * clock, on, off, hand-back, awaited and set-up. The smallest tables also take calls that
 * every state refuses.
 *
 * Why it ends. Generations and counts grow without bound, but the rules only compare them,
 * and answer the generation. So memories that differ by a shift of all generations are one state, and
 * so are those that differ by a shift of a lane's count and snapshot of one kind, or of
 * the count alone where no snapshot is held; the search goes on from the one that has the
 * generation and the snapshots named below. A count ahead of its snapshot is 1, 2 and so
 * on ahead, which differ alike: 1 stands for all of them but the last, UINT64_MAX ahead, from
 * which a pass brings the count round to its snapshot. Where a table says "around" that
 * last one is reached at once, by "many passes"; elsewhere lists that long are left out.
 * Nothing else is: on a table without a bound of levels the search covers lists of any
 * length of its calls.
 */
#include <inttypes.h>
#include <stdbool.h>
#include <stdio.h>
#include <stdlib.h>
#include <string.h>

#include "alphabet.h"
#include "compare.h"
#include "layout.h"
#include "ledger.h"
#include "lent.h"
#include "progress.h"
#include "reference.h"

/* In the order of the fields of alphabet.h. */
static const struct table_form forms[] = {
	{ { 1, 1, 1, 1 }, 2, 1, 4, 1, 1, 1, 1, 0, 0 },
	{ { 1, 1, 1, 2 }, 2, 1, 2, 1, 1, 1, 1, 0, 0 },
	{ { 1, 1, 1, 2 }, 2, 0, 2, 1, 1, 1, PT_NONE, UINT64_MAX, 0 },
	{ { 1, 1, 1, 3 }, 2, 1, 1, 1, 1, 1, 1, 0, 14 },
	{ { 1, 1, 2, 1 }, 2, 0, 1, 3, 3, 1, 1, 0, 0 },
	{ { 1, 1, 3, 1 }, 1, 0, 1, 1, 6, 1, 1, 0, 0 },
	{ { 2, 1, 1, 1 }, 2, 0, 1, 3, 3, 1, 1, 0, 0 },
	{ { 3, 1, 1, 1 }, 1, 0, 1, 1, 6, 1, 1, 0, 0 },
	{ { 2, 2, 1, 1 }, 1, 0, 1, 1, 4, 0, 1, 0, 0 },
	{ { 2, 1, 2, 1 }, 1, 0, 1, 2, 8, 0, 1, 0, 0 },
	{ { 1, 1, 2, 2 }, 2, 1, 1, 1, 2, 1, 1, 0, 0 },
	{ { 1, 2, 1, 2 }, 2, 0, 1, 1, 2, 1, PT_NONE, PT_NONE, 0 },
	{ { 1, 1, 2, 2 }, 1, 0, 1, 3, 3, 1, 1, 0, 0 },
	{ { 1, 1, 2, 2 }, 2, 0, 1, 3, 3, 1, 1, 0, 10 },
	{ { 2, 1, 1, 2 }, 2, 0, 1, 1, 2, 1, PT_NONE, PT_NONE, 0 },
};

enum {
	PAST = 4, /* words past the total */
	WORDS = CONTENTS_WORDS + GLOBAL_WORDS + CABINET_WORDS * LEDGER_LANES +
		LANE_WORDS * LEDGER_LANES + SLOT_WORDS * LEDGER_SLOTS + YARD_WORDS * LEDGER_LANES,
	LEDGER_WORDS = sizeof(struct ledger) / sizeof(uint32_t),
	PACKED = WORDS + LEDGER_WORDS,
	PACKED_CODE = 100,   /* stands for the first code in a byte; plain words are below */
};

struct state {
	uint32_t memory[WORDS + PAST];
	struct ledger ledger;
};

/* A state in a byte a word, and how it was reached. */
struct kept {
	int8_t word[PACKED];
	uint32_t parent;
	uint32_t call; /* of the alphabet */
	uint32_t level;
};

static size_t total;
static uint32_t contents[CONTENTS_WORDS];

static struct kept *kept;
static size_t states, room;
static uint32_t *place; /* of each state, by hash; 0: none, else its number and 1 */
static size_t places;

/* Whether the C version is compared; else legality and the ledger judge alone. */
static bool compared = true;
static double begun; /* the run */

/* Over all tables. */
static uint64_t all_states, calls, accepted[CALLS], refused[LAST_CAUSE + 1], outcomes[3];
static uint64_t dropped; /* lookups, by the ends of their sections */
static uint64_t attained; /* the figure, by lookups that step n + 1 answered */
static uint64_t moving[CALLS]; /* calls that brought slots to done queues */
static uint64_t moved_more;    /* clocks that brought more than one */

/* ---- where the words stand */

static uint32_t *lane_words(uint32_t *memory, uint32_t lane)
{
	return memory + layout_of(form->sizes).first[BODY_LANES] + LANE_WORDS * lane;
}

/* ---- a state's one form */

static void shift_counts(uint32_t *lane, uint32_t kind)
{
	uint64_t ahead = lent_count(lane + LANE_COUNTS, kind) - lent_count(lane + LANE_SNAPSHOT, kind);

	lent_put_count(lane + LANE_COUNTS, kind, form->count);
	if (!(lane[LANE_FLAGS] & FLAG_SNAPSHOT))
		return;
	lent_put_count(lane + LANE_SNAPSHOT, kind, form->count);
	if (ahead != 0)
		lent_put_count(lane + LANE_COUNTS, kind, form->count + (ahead == UINT64_MAX ? ahead : 1));
}

static void shift_generation(uint32_t *generation, const uint32_t *current_queue, uint32_t by)
{
	if (current_queue[QUEUE_FIRST] != PT_NONE)
		*generation += by;
}

static void shift(uint32_t *memory)
{
	uint32_t *global = memory + CONTENTS_WORDS;
	uint32_t by = form->generation - global[GLOBAL_CURRENT_GENERATION];

	global[GLOBAL_CURRENT_GENERATION] += by;
	global[GLOBAL_LARGEST_GENERATION] += by;
	shift_generation(&global[GLOBAL_GENERATION], &global[GLOBAL_CURRENT], by);
	for (uint32_t l = 0; l < lanes; l++) {
		uint32_t *lane = lane_words(memory, l);

		shift_generation(&lane[LANE_GENERATION], &lane[LANE_CURRENT], by);
		for (uint32_t kind = 0; kind < KINDS; kind++)
			shift_counts(lane, kind);
	}
}

/* A word as a byte: none and what is little less, small numbers, and the codes. */
static int8_t packed_word(uint32_t word)
{
	for (uint32_t n = 1; n < CODES; n++)
		if (word == codes[n])
			return (int8_t)(PACKED_CODE + n);
	if (word < PACKED_CODE || word >= PT_NONE - INT8_MAX)
		return (int8_t)(uint8_t)word;
	fprintf(stderr, "exhaustive: a word of %" PRIu32 " does not fit a byte\n", word);
	exit(2);
}

static uint32_t unpacked_word(int8_t byte)
{
	return byte >= PACKED_CODE ? codes[byte - PACKED_CODE] : (uint32_t)byte;
}

static void pack(struct kept *to, const struct state *state)
{
	uint32_t ledger[LEDGER_WORDS];

	memset(to->word, 0, sizeof to->word);
	memcpy(ledger, &state->ledger, sizeof ledger);
	for (size_t n = CONTENTS_WORDS; n < total; n++)
		to->word[n] = packed_word(state->memory[n]);
	for (size_t n = 0; n < LEDGER_WORDS; n++)
		to->word[WORDS + n] = packed_word(ledger[n]);
}

static void unpack(struct state *state, const struct kept *from)
{
	uint32_t ledger[LEDGER_WORDS];

	memcpy(state->memory, contents, sizeof contents);
	for (size_t n = CONTENTS_WORDS; n < total; n++)
		state->memory[n] = unpacked_word(from->word[n]);
	for (size_t n = total; n < WORDS + PAST; n++)
		state->memory[n] = FILL;
	for (size_t n = 0; n < LEDGER_WORDS; n++)
		ledger[n] = unpacked_word(from->word[WORDS + n]);
	memcpy(&state->ledger, ledger, sizeof ledger);
}

/* ---- the states met */

static uint64_t hash_of(const struct kept *state)
{
	uint64_t hash = UINT64_C(0xcbf29ce484222325);

	for (size_t n = 0; n < PACKED; n++)
		hash = (hash ^ (uint8_t)state->word[n]) * UINT64_C(0x100000001b3);
	return hash ^ hash >> 29;
}

/* Where the state stands among the places, or would stand. */
static size_t place_of(const struct kept *state)
{
	size_t at = hash_of(state) & (places - 1);

	while (place[at] != 0 &&
			memcmp(kept[place[at] - 1].word, state->word, sizeof state->word) != 0)
		at = (at + 1) & (places - 1);
	return at;
}

static void *resized(void *old, size_t count, size_t size)
{
	void *new = realloc(old, count * size);

	if (new == NULL) {
		fprintf(stderr, "exhaustive: no memory for %zu states\n", count);
		exit(2);
	}
	return new;
}

static void make_room(void)
{
	room = room == 0 ? 4096 : 2 * room;
	places = 2 * room;
	kept = resized(kept, room, sizeof *kept);
	place = resized(place, places, sizeof *place);
	memset(place, 0, places * sizeof *place);
	for (size_t n = 0; n < states; n++)
		place[place_of(&kept[n])] = (uint32_t)n + 1;
}

/* Keeps the state unless it was met before. */
static void meet(struct state *state, uint32_t parent, uint32_t call, uint32_t level)
{
	size_t at;

	if (states == room)
		make_room();
	shift(state->memory);
	pack(&kept[states], state);
	at = place_of(&kept[states]);
	if (place[at] != 0)
		return;
	kept[states].parent = parent;
	kept[states].call = call;
	kept[states].level = level;
	place[at] = (uint32_t)++states;
}

/* ---- calls */

static void print_list(uint32_t state)
{
	if (state == 0)
		return;
	print_list(kept[state].parent);
	print_letter(&alphabet[kept[state].call]);
}

static void fault(uint32_t state, const struct call *call, const char *what)
{
	const char *archive = getenv("ARCHIVE");

	progress_clear();
	fflush(stdout);
	fprintf(stderr, "exhaustive: after the set-up and\n");
	print_list(state);
	print_letter(call);
	fprintf(stderr, "exhaustive: %s\nFAILED exhaustive, table %zu\n  again, alone: tests/exhaustive/run %s--table %zu %s\n",
		what, (size_t)(form - forms) + 1, compared ? "" : "--ledger ", (size_t)(form - forms) + 1,
		archive != NULL ? archive : "");
	exit(1);
}

/* What is owed of any call, and how the C version does it, from the same memory. */
static enum difference judge(const struct call *call, const uint32_t *before, const struct left *left)
{
	uint32_t memory[WORDS + PAST], answer[PT_ANSWER_WORDS];
	struct left expected = { memory, total, answer, PT_ANSWER_WORDS, 0 };
	enum difference difference = owed(before, left);

	if (memcmp(before + total, left->memory + total, PAST * sizeof *before) != 0)
		return DIFFERS_OUTSIDE;
	if (difference != SAME || !compared)
		return difference;
	memcpy(memory, before, sizeof memory);
	expected.status = call_make(&reference, memory, total, answer, PT_ANSWER_WORDS, call);
	return alike(&expected, left);
}

static void count_answer(const struct call *call, const uint32_t *answer)
{
	calls++;
	if (answer[0] != PT_OK) {
		refused[answer[0]]++;
		return;
	}
	accepted[call->name]++;
	if (call->name == CALL_STEP)
		outcomes[answer[1]]++;
}

/* Whether the call, if it is accepted, drops a lookup. */
static bool drops(const struct state *state, const struct call *call)
{
	return call->name == CALL_END && state->ledger.lane[call->argument[0]].lookup;
}

/* A count that is ahead of its snapshot comes to the last number before it. */
static void many_passes(const struct state *from, uint32_t number, uint32_t at)
{
	const struct call *call = &alphabet[at];
	uint32_t kind = (uint32_t)call->argument[1];
	struct state state = *from;
	uint32_t *lane = lane_words(state.memory, (uint32_t)call->argument[0]);

	if (!(lane[LANE_FLAGS] & FLAG_SNAPSHOT) || lane[LANE_FLAGS] & FLAG_READING ||
			lent_count(lane + LANE_COUNTS, kind) != form->count + 1)
		return;
	lent_put_count(lane + LANE_COUNTS, kind, form->count - 1);
	meet(&state, number, at, kept[number].level + 1);
}

static void make(const struct state *from, uint32_t number, uint32_t at)
{
	const struct call *call = &alphabet[at];
	uint32_t answer[PT_ANSWER_WORDS];
	struct state state = *from;
	struct left left = { state.memory, total, answer, PT_ANSWER_WORDS, 0 };
	enum difference difference;
	const char *what;

	left.status = call_make(&tested, state.memory, total, answer, PT_ANSWER_WORDS, call);
	difference = judge(call, from->memory, &left);
	what = difference != SAME ? difference_texts[difference] :
		ledger_judge(&state.ledger, call, answer, from->memory, state.memory);
	if (what != NULL)
		fault(number, call, what);
	count_answer(call, answer);
	if (left.status != PT_OK)
		return;
	attained += ledger_attains(&from->ledger, call, answer) ? 1 : 0;
	dropped += drops(from, call) ? 1 : 0;
	moving[call->name] += ledger_moved(call, answer, from->memory, state.memory) > 0 ? 1 : 0;
	moved_more += call->name == CALL_CLOCK && answer[4] > 1 ? 1 : 0;
	meet(&state, number, at, kept[number].level + 1);
}

/* ---- the search */

static void print_counts(void)
{
	printf("accepted:");
	for (int name = 0; name < CALLS; name++)
		printf(" %s %" PRIu64, call_forms[name].command, accepted[name]);
	printf("\nrefused, by cause:");
	for (uint32_t cause = PT_BAD_SIZE; cause <= LAST_CAUSE; cause++)
		printf(" %" PRIu32 ": %" PRIu64, cause, refused[cause]);
	printf("\nsteps: %" PRIu64 " going, %" PRIu64 " found, %" PRIu64 " absent; lookups dropped: %" PRIu64
		", answered by step n + 1 and no sooner: %" PRIu64 "\n",
		outcomes[PT_GOING], outcomes[PT_FOUND], outcomes[PT_ABSENT], dropped, attained);
	printf("clocks that moved slots into done queues: %" PRIu64 ", %" PRIu64 " of them more than one; offs: %" PRIu64 "\n",
		moving[CALL_CLOCK], moved_more, moving[CALL_OFF]);
}

static void start(void)
{
	struct call setup = call_setup(form->sizes);
	struct state state;
	uint32_t answer[PT_ANSWER_WORDS];

	total = layout_of(form->sizes).total;
	for (size_t n = 0; n < WORDS + PAST; n++)
		state.memory[n] = FILL;
	ledger_reset(&state.ledger);
	if (call_make(&tested, state.memory, total, answer, PT_ANSWER_WORDS, &setup) != PT_OK) {
		fprintf(stderr, "exhaustive: set-up is refused\n");
		exit(1);
	}
	memcpy(contents, state.memory, sizeof contents); /* the same in every state */
	states = 0;
	make_room();
	meet(&state, 0, 0, 0);
}

/* Returns the level of the last state that was met. */
static uint32_t search(void)
{
	uint32_t level = 0;

	for (uint32_t number = 0; number < states; number++) {
		struct state state;

		level = kept[number].level;
		if (form->levels != 0 && level == form->levels)
			break;
		unpack(&state, &kept[number]);
		progress("exhaustive: table %zu of %zu, %" PRIu32 " of %zu states so far, %.0f s",
			(size_t)(form - forms) + 1, sizeof forms / sizeof forms[0], number, states,
			seconds_now() - begun);
		for (uint32_t at = 0; at < letters; at++)
			if (alphabet[at].name == (enum call_name)MANY_PASSES)
				many_passes(&state, number, at);
			else
				make(&state, number, at);
	}
	return level;
}

static void run(void)
{
	uint64_t before = calls;
	double since = seconds_now();
	uint32_t level;

	room = 0;
	make_alphabet(form);
	start();
	level = search();
	progress_clear();
	all_states += states;
	printf("%" PRIu32 " x %" PRIu32 " x %" PRIu32 " x %" PRIu32 ", codes %" PRIu32 "%s, kinds %" PRIu32
		"%s, lanes that change %#" PRIx32 ", that read %#" PRIx32 ", generation %" PRIu32
		": %zu states, %" PRIu64 " calls, %s %" PRIu32 " deep, %.1f s\n",
		form->sizes.yards, form->sizes.cabinets, form->sizes.lanes, form->sizes.slots, form->codes,
		form->absent ? " and one absent" : "", form->kinds,
		form->around ? " around" : "", form->changing, form->reading, form->generation,
		states, calls - before, form->levels == 0 ? "all, at most" : "those at most",
		level, seconds_now() - since);
	fflush(stdout);
}

/* Usage: exhaustive [--ledger] [TABLE]: without the C version, or one of the tables alone. */
int main(int arguments, char **argument)
{
	size_t tables = sizeof forms / sizeof forms[0], only = 0;

	for (int n = 1; n < arguments; n++)
		if (strcmp(argument[n], "--ledger") == 0)
			compared = false;
		else
			only = strtoul(argument[n], NULL, 10);
	if (only > tables) {
		fprintf(stderr, "exhaustive: there are %zu tables\n", tables);
		return 2;
	}
	begun = seconds_now();
	if (!compared)
		printf("exhaustive: judged by legality and the ledger alone\n");
	for (size_t n = 0; n < tables; n++) {
		form = &forms[n];
		if (only == 0 || only == n + 1)
			run();
	}
	print_counts();
	printf("exhaustive: %zu tables, %" PRIu64 " states, %" PRIu64 " calls, no fault\n",
		only == 0 ? tables : 1, all_states, calls);
	return 0;
}
