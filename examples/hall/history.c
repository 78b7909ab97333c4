/*
 * history.c - the recorded calls of the hall, judged after it has closed: they are made
 * once more on the C version, which must answer alike, and fed to the ledger of demand 3.
 * Every answered lookup is explained by one instant between its start and its answer, what
 * a lane found stood in its slot until the lane's section ended, and no slot was handed back
 * before the sections that were open at its removal had ended. A lookup that was dropped,
 * since the customer took the bottle back, had no answer and held nothing up. Every other one
 * was answered by step n + 1 of its lane, n being the records on the chain when it started,
 * whatever the offices and the other lanes did meanwhile; some took as many. After every call
 * the fourth numbers of all clocks, which a display may add up, and the slots that offs
 * brought to the global done queue are the slots in done queues and those handed back.
 *
 * What the server did for lanes that died, their ends and offs, are calls of the list like all others.
 *
 * A lane maker needs nothing of this file.
 */
#include "hall.h"

#include <inttypes.h>
#include <stdio.h>
#include <stdlib.h>
#include <string.h>

#include "calls.h" /* a call as a value */
#include "ledger.h"
#include "reference.h"

struct event {
	struct call call;
	uint32_t answer[PT_ANSWER_WORDS];
};

static struct event *events;
static size_t length, room;
static struct ledger ledger;
static size_t words;
static uint32_t memory[MOST_WORDS], before[MOST_WORDS]; /* the C version's, and as it was before the call */

static void note(struct call call, const uint32_t *answer)
{
	if (length == room) {
		room = room == 0 ? 65536 : 2 * room;
		events = realloc(events, room * sizeof *events);
		if (events == NULL) {
			fprintf(stderr, "hall: no memory for the history\n");
			exit(1);
		}
	}
	events[length].call = call;
	memcpy(events[length].answer, answer, sizeof events[length].answer);
	length++;
}

void history_setup(const struct site *site, const uint32_t *answer)
{
	note((struct call){ CALL_SETUP, { site->yards, site->cabinets, site->lanes, site->slots } }, answer);
}

/* ---- a request as a call of the list */

static const enum call_name names[SERVER_CALLS] = {
	[SERVER_ADD] = CALL_ADD,
	[SERVER_REPLACE] = CALL_REPLACE,
	[SERVER_DELETE] = CALL_DELETE,
	[SERVER_BEGIN] = CALL_BEGIN,
	[SERVER_END] = CALL_END,
	[SERVER_START] = CALL_START,
	[SERVER_STEP] = CALL_STEP,
	[SERVER_PASS] = CALL_PASS,
	[SERVER_CLOCK] = CALL_CLOCK,
	[SERVER_ON] = CALL_ON,
	[SERVER_OFF] = CALL_OFF,
	[SERVER_HAND_BACK] = CALL_HAND_BACK,
	[SERVER_AWAITED] = CALL_AWAITED,
};

static uint64_t argument_of(const struct server_request *request, enum kind kind)
{
	switch (kind) {
	case KIND_LANE:
		return request->lane;
	case KIND_CODE:
		return request->code;
	case KIND_DEPOSIT:
		return request->deposit;
	case KIND_MATERIAL:
		return request->material;
	case KIND_KIND:
		return request->kind;
	default:
		return 0; /* a size: no request has one */
	}
}

void history_note(const struct server_request *request, const uint32_t *answer)
{
	struct call call = { .name = names[request->call] };

	for (uint32_t n = 0; n < call_arguments(call.name); n++)
		call.argument[n] = argument_of(request, call_forms[call.name].kind[n]);
	note(call, answer);
}

/* ---- the judge */

/* What the history holds. */
struct tally {
	uint64_t accepted[CALLS], refused, mistyped, lookups[3], taken_back, periods;
	uint64_t attained; /* lookups that step n + 1 answered, and none before it */
	uint64_t moved[CALLS]; /* slots that clocks and offs brought to done queues */
	uint64_t added[3]; /* by labels of 8, 13 and 14 digits */
};

/* The first codes whose labels have 13 and 14 digits. */
#define FIRST_OF_13 UINT64_C(100000000)
#define FIRST_OF_14 UINT64_C(10000000000000)

static void tally_event(struct tally *tally, const struct event *event, uint32_t *generation)
{
	if (event->answer[0] != PT_OK) {
		tally->refused++;
		tally->mistyped += event->answer[0] == PT_WRONG_DIGIT ? 1 : 0;
		return;
	}
	tally->accepted[event->call.name]++;
	tally->moved[event->call.name] += ledger_moved(&event->call, event->answer, before, memory);
	if (event->call.name == CALL_ADD) {
		uint64_t code = call_argument(&event->call, KIND_CODE, 0);

		tally->added[(code >= FIRST_OF_13) + (code >= FIRST_OF_14)]++;
	}
	if (event->call.name == CALL_STEP)
		tally->lookups[event->answer[1]]++;
	if (event->call.name == CALL_CLOCK) {
		tally->periods += event->answer[1] - *generation;
		*generation = event->answer[1];
	}
}

/* Whether the call ends a section whose lookup runs, by the ledger before it. */
static bool takes_back(const struct event *event)
{
	return event->call.name == CALL_END && event->answer[0] == PT_OK &&
		ledger.lane[event->call.argument[0]].lookup;
}

/* The fault of one call, on the C version's memory, or NULL. */
static const char *judge_event(const struct event *event)
{
	uint32_t answer[PT_ANSWER_WORDS];

	memcpy(before, memory, words * sizeof before[0]);
	call_make(&reference, memory, words, answer, PT_ANSWER_WORDS, &event->call);
	if (memcmp(answer, event->answer, sizeof answer) != 0)
		return "the C version answers otherwise";
	return ledger_judge(&ledger, &event->call, event->answer, before, memory);
}

static void print_tally(const struct tally *tally)
{
	printf("hall: lookups %" PRIu64 " found, %" PRIu64 " absent, %" PRIu64
		" taken back, %" PRIu64 " answered by step n + 1 and no sooner, %" PRIu64
		" steps on the way; grace periods %" PRIu64 "\nhall:",
		tally->lookups[PT_FOUND], tally->lookups[PT_ABSENT], tally->taken_back, tally->attained,
		tally->lookups[PT_GOING], tally->periods);
	for (int name = 0; name < CALLS; name++)
		printf(" %s %" PRIu64, call_forms[name].command, tally->accepted[name]);
	printf(", refused %" PRIu64 ", %" PRIu64 " of them mistyped codes\n", tally->refused, tally->mistyped);
	printf("hall: slots that came to done queues: %" PRIu64 " by clocks, as they say, and %" PRIu64
		" by offs; handed back: %" PRIu64 "\n",
		tally->moved[CALL_CLOCK], tally->moved[CALL_OFF], tally->accepted[CALL_HAND_BACK]);
	printf("hall: added by labels of 8, 13 and 14 digits %" PRIu64 ", %" PRIu64 ", %" PRIu64 "\n",
		tally->added[0], tally->added[1], tally->added[2]);
}

/* At the end, with no slot in a done queue: all that came there were handed back. */
static bool all_back(const struct tally *tally)
{
	return tally->moved[CALL_CLOCK] > 0 &&
		tally->moved[CALL_CLOCK] + tally->moved[CALL_OFF] == tally->accepted[CALL_HAND_BACK];
}

bool history_judge(const struct site *site)
{
	struct tally tally = { .refused = 0 };
	uint32_t generation = 1;
	const char *fault = NULL;

	words = site_words(site);
	ledger_reset(&ledger);
	for (size_t n = 0; n < length && fault == NULL; n++) {
		tally.taken_back += takes_back(&events[n]) ? 1 : 0;
		tally.attained += ledger_attains(&ledger, &events[n].call, events[n].answer) ? 1 : 0;
		fault = judge_event(&events[n]);
		tally_event(&tally, &events[n], &generation);
		if (fault != NULL)
			printf( "hall: FAULT in call %zu, %s of lane %" PRIu64 ": %s\n", n,
				call_forms[events[n].call.name].command,
				events[n].call.argument[0], fault);
	}
	print_tally(&tally);
	if (fault == NULL)
		printf("hall: %zu calls judged: one instant explains each answered lookup, step n + 1 answers it\n"
			"hall: at the latest, finds were kept, no slot was handed back early, clocks' numbers add up,\n"
			"hall: and the C version answers alike\n",
			length);
	if (tally.taken_back == 0)
		printf("hall: NO bottle was taken back\n");
	if (tally.attained == 0)
		printf("hall: NO lookup took n + 1 steps\n");
	if (!all_back(&tally))
		printf("hall: NOT as many slots were handed back as came to done queues\n");
	free(events);
	return fault == NULL && tally.taken_back > 0 && tally.attained > 0 && all_back(&tally);
}
