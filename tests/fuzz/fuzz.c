/*
 * fuzz.c - the library beside the C version, on calls and memories that libFuzzer makes of
 * bytes (stream.h). Each step is taken on both and judged as in every comparison (beside.h):
 * status, answer and every word; what stays; legality; and the ledger of demand 3, which
 * counts the steps of lookups and what comes to done queues too, as long as nothing was
 * damaged. A difference is shrunk and printed, and ends the run.
 *
 * The library is not compiled with the sanitizers. So memory and answer end where a page
 * begins that may be neither read nor written: a word past what is lent ends the run, and
 * so does a byte past a label's text.
 */
#include <inttypes.h>
#include <stdbool.h>
#include <stdio.h>
#include <stdlib.h>

#include "layout.h"
#include "record.h"
#include "stream.h"

int LLVMFuzzerTestOneInput(const uint8_t *bytes, size_t count);

enum {
	LONGEST = 400,	/* operations of one stream */
	ROUND_LANES = 100, /* that make calls in a round, at most: the next round goes on behind them */
	ROUND_STEPS = 1 + 3 * ROUND_LANES,
	SHRINK_SECONDS = 30, /* the time of a stream is bounded */
	AWAITED_LOWEST = 2 /* of the answer to awaited, the lowest pending lane */
};

static struct beside beside;
static struct record record;
static uint64_t calls, streams, accepted[CALLS], refused[LAST_CAUSE + 1], short_answers, fed;
static uint64_t labels[2][PT_WRONG_LABEL + 1]; /* read and written: 0, and by cause */
static uint64_t dropped; /* lookups, by the ends of their sections */
static uint64_t attained; /* lookups that step n + 1 answered, and none before it */
static uint64_t moving[CALLS]; /* calls that brought slots to done queues */
static uint64_t in_yards; /* accepted calls on tables of several */

static void report(void)
{
	printf("fuzz: %" PRIu64 " streams, %" PRIu64 " calls compared, %" PRIu64
		" of them judged by the ledger; %" PRIu64 " short answers\nfuzz: accepted",
		streams, calls, fed, short_answers);
	for (int name = 0; name < CALLS; name++)
		printf(" %s %" PRIu64, call_forms[name].command, accepted[name]);
	printf("\nfuzz: refused");
	for (uint32_t cause = PT_BAD_SIZE; cause <= LAST_CAUSE; cause++)
		printf(" %" PRIu32 ": %" PRIu64, cause, refused[cause]);
	printf("\nfuzz: lookups dropped %" PRIu64 ", answered by step n + 1 and no sooner %" PRIu64, dropped, attained);
	printf("\nfuzz: clocks that moved slots into done queues %" PRIu64 ", offs %" PRIu64, moving[CALL_CLOCK],
		moving[CALL_OFF]);
	printf("\nfuzz: accepted calls on tables of several yards %" PRIu64, in_yards);
	printf("\nfuzz: labels read %" PRIu64 ", 18: %" PRIu64 "; written %" PRIu64 ", 11: %" PRIu64 ", 18: %" PRIu64 "\n",
		labels[0][PT_OK], labels[0][PT_WRONG_LABEL], labels[1][PT_OK], labels[1][PT_OUT_OF_RANGE],
		labels[1][PT_WRONG_LABEL]);
}

/* Whether the last call, which was accepted, ended a section with its lookup running. */
static bool dropped_lookup(const struct call *call)
{
	struct layout layout = layout_of(sizes_of(beside.before));

	return call->name == CALL_END && beside.before[layout.first[BODY_LANES] +
		LANE_WORDS * call->argument[0] + LANE_FLAGS] & FLAG_LOOKUP;
}

static void count_call(const struct call *call, uint32_t status)
{
	calls++;
	fed += beside.fed ? 1 : 0;
	attained += beside.attained ? 1 : 0;
	moving[call->name] += beside.moved > 0 ? 1 : 0;
	in_yards += status == PT_OK && beside.memory[CONTENTS_YARDS] > 1 ? 1 : 0;
	if (status == PT_SHORT_ANSWER)
		short_answers++;
	else if (status != PT_OK)
		refused[status]++;
	else
		accepted[call->name]++;
	if (status == PT_OK && dropped_lookup(call))
		dropped++;
}

/* ---- a difference */

static void fault(void)
{
	record_shrink(&record, &beside, SHRINK_SECONDS);
	fprintf(stderr, "fuzz: a difference, or a fault\n");
	record_print(&record, "the library", "the C version", stderr);
	abort();
}

/* ---- operations as steps */

static void take(const struct step *step)
{
	record_step(&record, &beside, step);
	if (record.difference != SAME)
		fault();
	if (step->kind == STEP_CALL)
		count_call(&step->call, beside.left.status);
	else if (step_is_label(step) && beside.left.status != PT_SHORT_ANSWER)
		labels[step->kind == STEP_WRITE][beside.left.status]++;
}

static void take_call(const struct call *call)
{
	take(&(struct step){ .kind = STEP_CALL, .call = *call });
}

static void take_other(enum step_kind kind, uint32_t number, uint32_t value)
{
	take(&(struct step){ .kind = kind, .number = number, .value = value });
}

/* The sizes of the table, or some numbers if there is none. */
static struct sizes sizes_now(void)
{
	struct sizes sizes = sizes_of(beside.memory);

	return (struct sizes){ sizes.yards % (PT_MAX_YARDS + 1), sizes.cabinets % (PT_MAX_CABINETS + 1),
		sizes.lanes % (PT_MAX_LANES + 1), sizes.slots % (PT_MAX_SLOTS + 1) };
}

/* How many words a number lends, of a memory that takes so many. */
static uint32_t lent(uint32_t number, uint32_t total)
{
	if (number < 16)
		return total + number - 8;
	if (number < 32)
		return number - 16;
	return number;
}

static void damage(struct stream *stream, uint32_t operation)
{
	uint32_t at = (uint32_t)stream_bytes(stream, 2), words = (uint32_t)beside.words;
	uint32_t value = operation == POKE ? stream_number(stream) : (uint32_t)stream_bytes(stream, 2);

	if (words == 0)
		return;
	take_other(STEP_POKE, at % words, operation == POKE ? value : beside.memory[value % words]);
}

/* How far below its last number a count is put, by the bits of COUNT's byte. */
static uint32_t below_last(uint32_t byte)
{
	return byte >> 3 & 3u;
}

static uint32_t lanes_of_table(void)
{
	return sizes_lanes(sizes_now());
}

/* A count of the table is about to carry, or to wrap. */
static void count_last(struct stream *stream)
{
	uint32_t lane = stream_lane(stream, lanes_of_table()), byte = stream_byte(stream);
	uint32_t at = layout_of(sizes_now()).first[BODY_LANES] + LANE_WORDS * lane + LANE_COUNTS +
		COUNT_WORDS * (byte & 3u);

	if (lane >= lanes_of_table())
		return;
	take_other(STEP_POKE, at + COUNT_LOW, PT_NONE - below_last(byte));
	take_other(STEP_POKE, at + COUNT_HIGH, byte & 4u ? PT_NONE : 0);
}

/* The lowest lane that the running grace period waits for; 0 where there is none. */
static uint32_t lowest_pending(void)
{
	take_call(&(struct call){ .name = CALL_AWAITED });
	if (beside.left.status != 0 || beside.expected_answer[AWAITED_LOWEST] == PT_NONE)
		return 0;
	return beside.expected_answer[AWAITED_LOWEST];
}

/* Grace periods end and begin where no lane reads. */
static void round_of_lanes(void)
{
	uint32_t lanes = lanes_of_table(), first = lowest_pending();

	for (uint32_t lane = first; lane < lanes && lane - first < ROUND_LANES; lane++) {
		take_call(&(struct call){ CALL_CLOCK, { lane } });
		if (beside.left.status == PT_NOT_LEGAL)
			return;
		take_call(&(struct call){ CALL_PASS, { lane } });
		take_call(&(struct call){ CALL_CLOCK, { lane } });
	}
}

static void take_label(struct stream *stream, enum step_kind kind)
{
	struct step label = stream_label(stream, kind);

	take(&label);
}

static void operate_call(struct stream *stream, enum call_name name)
{
	struct call call = stream_call(stream, name, lanes_of_table());

	take_call(&call);
}

static void operate(struct stream *stream)
{
	uint32_t operation = stream_byte(stream) % OPERATIONS;

	switch (operation) {
	case POKE:
	case COPY:
		damage(stream, operation);
		break;
	case LEND:
		take_other(STEP_LEND, lent(stream_number(stream), layout_of(sizes_now()).total), 0);
		break;
	case ANSWER:
		take_other(STEP_ANSWER, stream_byte(stream) % (BESIDE_ANSWER + 1), 0);
		break;
	case MEND:
		take_other(STEP_MEND, 0, 0);
		break;
	case ROUND:
		round_of_lanes();
		break;
	case COUNT:
		count_last(stream);
		break;
	case READ:
	case WRITE:
		take_label(stream, operation == READ ? STEP_READ : STEP_WRITE);
		break;
	default:
		operate_call(stream, (enum call_name)operation);
	}
}

int LLVMFuzzerTestOneInput(const uint8_t *bytes, size_t count)
{
	struct stream stream = { bytes, count };

	if (streams++ == 0)
		atexit(report);
	record_start(&record);
	beside_start(&beside, &tested, &reference);
	for (int n = 0; n < LONGEST && stream.left > 0 && record.steps.count + ROUND_STEPS < STEPS_MOST; n++)
		operate(&stream);
	if (getenv("FUZZ_SAY") != NULL)
		record_print(&record, "the library", "the C version", stdout);
	return 0;
}
