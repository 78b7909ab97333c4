/*
 * beside.c - one step on two implementations.
 */
#define _GNU_SOURCE
#include "beside.h"

#include <stdio.h>
#include <stdlib.h>
#include <string.h>
#include <sys/mman.h>

#include "codes.h"
#include "layout.h"
#include "table.h"

enum {
	OUTSIDE = 16, /* words beside what is lent that are looked at after each call */
	EDGE_WORDS = 32768, /* of a stretch between two forbidden pages */
	LENT_PAST = 8, /* words past the total that a set-up leaves lent */
	EDGE_BYTES = EDGE_WORDS * sizeof(uint32_t),
	TEXT_MOST = EDGE_BYTES - OUTSIDE, /* bytes of a text between two forbidden pages */
	TEXT_FAR = 4096 /* bytes of a longer one that are looked at */
};

/* Of address space of which the first EDGE_BYTES may be touched. */
static const size_t VAST_BYTES = (size_t)1 << 36, VAST_WORDS = ((size_t)1 << 36) / sizeof(uint32_t);

/* A stretch of words between two pages that may not be touched. */
static void *guarded(void)
{
	uint32_t *start = mmap(NULL, 3 * EDGE_BYTES, PROT_READ | PROT_WRITE, MAP_PRIVATE | MAP_ANONYMOUS, -1, 0);

	if (start == MAP_FAILED || mprotect(start, EDGE_BYTES, PROT_NONE) != 0 ||
			mprotect(start + 2 * EDGE_WORDS, EDGE_BYTES, PROT_NONE) != 0) {
		perror("a page that may not be touched");
		exit(2);
	}
	return start + EDGE_WORDS;
}

_Static_assert(BESIDE_WORDS + OUTSIDE <= EDGE_WORDS, "a memory has room between the pages");

/* What is lent as address space: of a memory, of an answer, of a text. NULL where the system refuses it. */
enum vast { VAST_MEMORY, VAST_ANSWER, VAST_TEXT, VASTS };

static void *vast(enum vast of)
{
	static void *start[VASTS];

	if (start[of] == NULL) {
		void *space = mmap(NULL, VAST_BYTES, PROT_NONE, MAP_PRIVATE | MAP_ANONYMOUS | MAP_NORESERVE, -1, 0);

		if (space == MAP_FAILED || mprotect(space, EDGE_BYTES, PROT_READ | PROT_WRITE) != 0)
			return NULL;
		start[of] = space;
	}
	return start[of];
}

bool beside_vast(void)
{
	return vast(VAST_MEMORY) != NULL && vast(VAST_ANSWER) != NULL && vast(VAST_TEXT) != NULL;
}

/* The stretch's words that are lent, at one of its edges, and those beside them filled. */
static uint32_t *lend(uint32_t *stretch, size_t words, bool at_start)
{
	uint32_t *lent = at_start ? stretch : stretch + EDGE_WORDS - words;

	for (size_t n = 0; n < OUTSIDE; n++)
		*(at_start ? lent + words + n : lent - 1 - n) = FILL;
	return lent;
}

static bool outside_kept(const uint32_t *lent, size_t words, bool at_start)
{
	for (size_t n = 0; n < OUTSIDE; n++)
		if (*(at_start ? lent + words + n : lent - 1 - n) != FILL)
			return false;
	return true;
}

static void fill(uint32_t *word, size_t count)
{
	for (size_t n = 0; n < count; n++)
		word[n] = FILL;
}

/* How much of a length is held, and what is told: the same, or all of it as address space. */
static void lend_length(size_t number, size_t most, size_t *held, size_t *told)
{
	*held = number < most ? number : most;
	*told = *held;
	if (number > most && beside_vast())
		*told = number < VAST_WORDS ? number : VAST_WORDS;
}

static void lend_words(struct beside *beside, size_t words)
{
	lend_length(words, BESIDE_WORDS, &beside->words, &beside->told_words);
}

static void lend_answer(struct beside *beside, size_t words)
{
	lend_length(words, BESIDE_ANSWER, &beside->answer_words, &beside->told_answer);
}

static void lend_all(struct beside *beside)
{
	lend_words(beside, BESIDE_WORDS);
	lend_answer(beside, BESIDE_ANSWER);
}

void beside_start(struct beside *beside, const struct interface *tried,
		const struct interface *judge)
{
	beside->tried = tried;
	beside->judge = judge;
	beside->mended_words = 0;
	beside->fed = false;
	beside->fault = NULL;
	beside->difference = SAME;
	lend_all(beside);
	fill(beside->memory, BESIDE_WORDS);
}

/* Makes the call by the judge, on the memory between calls. */
static void make_expected(struct beside *beside)
{
	fill(beside->expected_answer, BESIDE_ANSWER);
	beside->expected = (struct left){ beside->memory, beside->words, beside->expected_answer,
		beside->answer_words, 0 };
	beside->expected.status = call_make(beside->judge, beside->memory, beside->told_words,
			beside->expected_answer, beside->told_answer, &beside->call);
}

/* Where what is told begins: at an edge of a stretch, or of the address space. */
static bool begins(const struct beside *beside, size_t held, size_t told)
{
	return beside->at_start || told > held;
}

/* An answer is lent, filled; and whether what lies beside it was kept. */
static void lend_left_answer(struct beside *beside)
{
	static uint32_t *stretch;
	struct left *left = &beside->left;
	bool far = beside->told_answer > beside->answer_words;

	if (stretch == NULL)
		stretch = guarded();
	left->answer_words = beside->answer_words;
	left->answer = lend(far ? vast(VAST_ANSWER) : stretch, left->answer_words, far || beside->at_start);
	fill(left->answer, left->answer_words);
}

static bool answer_outside_kept(const struct beside *beside)
{
	return outside_kept(beside->left.answer, beside->left.answer_words,
		begins(beside, beside->answer_words, beside->told_answer));
}

/* Makes the call by the implementation that is tried, on words at the edge of a page. */
static enum difference make_tried(struct beside *beside)
{
	static uint32_t *stretch;
	struct left *left = &beside->left;
	bool far = beside->told_words > beside->words, at_start = begins(beside, beside->words, beside->told_words);

	if (stretch == NULL)
		stretch = guarded();
	left->words = beside->words;
	left->memory = lend(far ? vast(VAST_MEMORY) : stretch, left->words, at_start);
	memcpy(left->memory, beside->before, left->words * sizeof *left->memory);
	lend_left_answer(beside);
	left->status = call_make(beside->tried, left->memory, beside->told_words, left->answer,
			beside->told_answer, &beside->call);
	return outside_kept(left->memory, left->words, at_start) && answer_outside_kept(beside) ?
		SAME : DIFFERS_OUTSIDE;
}

/* Whether the ledger has room for the table that a set-up makes. */
static bool has_room(const struct call *setup)
{
	return sizes_lanes(call_sizes(setup)) <= LEDGER_LANES && call_sizes(setup).slots <= LEDGER_SLOTS;
}

/* Demand 3, the figure of lookups and what comes to done queues, on tables that the ledger has room for. */
static enum difference judged(struct beside *beside, const struct left *left)
{
	if (left->status == PT_SHORT_ANSWER)
		return SAME;
	if (left->status == PT_OK && beside->call.name == CALL_SETUP)
		beside->fed = has_room(&beside->call);
	if (!beside->fed || beside->words < total_of(beside->memory)) /* lent short: none of the list */
		return SAME;
	beside->attained = ledger_attains(&beside->ledger, &beside->call, left->answer);
	beside->moved = ledger_moved(&beside->call, left->answer, beside->before, beside->memory);
	beside->fault = ledger_judge(&beside->ledger, &beside->call, left->answer, beside->before,
			beside->memory);
	return beside->fault == NULL ? SAME : DIFFERS_LEDGER;
}

/* Keeps the words for STEP_MEND. */
static void keep_words(struct beside *beside)
{
	memcpy(beside->mended, beside->memory, beside->words * sizeof beside->mended[0]);
	beside->mended_words = beside->words;
}

/* The same where the call answered the total: few words past it stay lent. */
static void accept_words(struct beside *beside, const struct left *left)
{
	if (!beside->all_lent && beside->words > left->answer[1] + LENT_PAST)
		lend_words(beside, left->answer[1] + LENT_PAST);
	keep_words(beside);
}

enum difference beside_call(struct beside *beside, const struct call *call)
{
	const struct left *left = beside->tried != NULL ? &beside->left : &beside->expected;
	enum difference difference = SAME;

	beside->call = *call;
	beside->attained = false;
	beside->moved = 0;
	memcpy(beside->before, beside->memory, beside->words * sizeof beside->before[0]);
	if (beside->judge != NULL)
		make_expected(beside);
	if (beside->tried != NULL)
		difference = make_tried(beside);
	if (difference == SAME && beside->judge != NULL && beside->tried != NULL)
		difference = alike(&beside->expected, &beside->left);
	if (difference == SAME)
		difference = owed(beside->before, left);
	if (beside->judge == NULL)
		memcpy(beside->memory, left->memory, left->words * sizeof beside->memory[0]);
	if (difference == SAME)
		difference = judged(beside, left);
	if (difference == SAME && left->status == PT_OK && beside->call.name == CALL_SETUP)
		accept_words(beside, left);
	else if (difference == SAME && left->status == PT_OK)
		keep_words(beside);
	beside->difference = difference;
	return difference;
}

/* ---- labels */

#define FILL_BYTE 0xa5u /* of FILL */

/* How many bytes of a text lie where they can be looked at, and how many of these a step holds. */
static size_t text_held(const struct step *step)
{
	return step->number <= TEXT_MOST ? step->number : TEXT_FAR;
}

static size_t text_kept(const struct step *step)
{
	return step->number < LABEL_MOST ? step->number : LABEL_MOST;
}

/* Byte @n of the text that is lent to a label function, before it. */
static uint8_t label_byte(const struct step *step, size_t n)
{
	if (step->kind != STEP_READ)
		return FILL_BYTE;
	return n < LABEL_MOST ? step->text[n] : step_digit(n);
}

static void label_text(const struct step *step, uint8_t *text, size_t bytes)
{
	for (size_t n = 0; n < bytes; n++)
		text[n] = label_byte(step, n);
}

/* Whether the bytes that no label reaches are as they were. */
static bool rest_kept(const struct step *step, const uint8_t *text)
{
	for (size_t n = text_kept(step); n < text_held(step); n++)
		if (text[n] != label_byte(step, n))
			return false;
	return true;
}

static uint32_t label_make(const struct interface *interface, const struct step *step, uint8_t *text,
		uint32_t *answer, size_t answer_words)
{
	return step->kind == STEP_READ ? interface->label_read(text, step->number, answer, answer_words) :
		interface->label_write(text, step->number, answer, answer_words, step->code);
}

/* The text's bytes at an edge of the stretch, those beside them filled; and whether these were kept. */
static uint8_t *lend_text(uint8_t *stretch, size_t bytes, bool at_start)
{
	uint8_t *lent = at_start ? stretch : stretch + EDGE_BYTES - bytes;

	memset(at_start ? lent + bytes : lent - OUTSIDE, FILL_BYTE, OUTSIDE);
	return lent;
}

static bool text_outside_kept(const uint8_t *lent, size_t bytes, bool at_start)
{
	for (size_t n = 0; n < OUTSIDE; n++)
		if (*(at_start ? lent + bytes + n : lent - 1 - n) != FILL_BYTE)
			return false;
	return true;
}

/* By the implementation that is tried, on bytes and words at the edge of a page. */
static enum difference label_tried(struct beside *beside, const struct step *step)
{
	static uint8_t *stretch;
	bool far = step->number > TEXT_MOST, at_start = begins(beside, text_held(step), step->number);
	uint8_t *text;

	if (stretch == NULL)
		stretch = guarded();
	text = lend_text(far ? vast(VAST_TEXT) : stretch, text_held(step), at_start);
	label_text(step, text, text_held(step));
	beside->left.words = 0;
	lend_left_answer(beside);
	beside->left.status = label_make(beside->tried, step, text, beside->left.answer, beside->told_answer);
	memcpy(beside->left_text, text, text_kept(step));
	if (!text_outside_kept(text, text_held(step), at_start) || !answer_outside_kept(beside))
		return DIFFERS_OUTSIDE;
	return rest_kept(step, text) ? SAME : DIFFERS_TEXT;
}

/* Whether a text of such a length can be lent. */
static bool can_lend(const struct step *step)
{
	return step->number <= TEXT_MOST || (step->number <= VAST_BYTES && beside_vast());
}

/* On both; there are always both. The judge is told the length, and lent as much as labels reach. */
static enum difference beside_label(struct beside *beside, const struct step *step)
{
	enum difference difference;

	if (!can_lend(step))
		return SAME;
	fill(beside->expected_answer, BESIDE_ANSWER);
	label_text(step, beside->expected_text, text_kept(step));
	beside->expected = (struct left){ beside->memory, 0, beside->expected_answer, beside->answer_words, 0 };
	beside->expected.status = label_make(beside->judge, step, beside->expected_text,
			beside->expected_answer, beside->told_answer);
	difference = label_tried(beside, step);
	if (difference == SAME)
		difference = alike_answer(&beside->expected, &beside->left);
	if (difference == SAME)
		difference = owed_answer(&beside->left);
	if (difference == SAME && memcmp(beside->expected_text, beside->left_text, text_kept(step)) != 0)
		difference = beside->expected.status == PT_OK ? DIFFERS_TEXT : DIFFERS_REFUSED;
	beside->difference = difference;
	return difference;
}

/* ---- a chain that takes no calls */

/* Records on chain 0 of a table that has just been set up: the last that was added stands first. */
static void chain_records(struct table *table, uint32_t count)
{
	uint64_t code = 0;

	for (uint32_t n = 0; n < count; n++, code = next_code(code))
		table->slot[n] = (struct slot){ .code = code, .chain_link = n > 0 ? n - 1 : PT_NONE, .queue_link = PT_NONE };
	table->heads[0] = count > 0 ? count - 1 : PT_NONE;
	table->free.first = count < table->sizes.slots ? count : PT_NONE;
	table->free.last = count < table->sizes.slots ? table->free.last : PT_NONE;
	table->free.length -= count;
}

static void write_chain(struct beside *beside, uint64_t count)
{
	static struct table table;

	beside->fed = false;
	if (!table_read_legal(&table, beside->memory, beside->words) || table.free.length != table.sizes.slots)
		return;
	chain_records(&table, count < table.sizes.slots ? (uint32_t)count : table.sizes.slots);
	table_write(&table, beside->memory);
}

enum difference beside_step(struct beside *beside, const struct step *step)
{
	switch (step->kind) {
	case STEP_READ:
	case STEP_WRITE:
		return beside_label(beside, step);
	case STEP_POKE:
		beside->fed = false;
		if (step->number < BESIDE_WORDS)
			beside->memory[step->number] = step->value;
		return SAME;
	case STEP_CHAIN:
		write_chain(beside, step->number);
		return SAME;
	case STEP_LEND:
		lend_words(beside, step->number);
		return SAME;
	case STEP_ANSWER:
		lend_answer(beside, step->number);
		return SAME;
	case STEP_MEND:
		memcpy(beside->memory, beside->mended, beside->mended_words * sizeof beside->memory[0]);
		lend_all(beside);
		if (beside->mended_words > 0)
			lend_words(beside, beside->mended_words);
		return SAME;
	default:
		return beside_call(beside, &step->call);
	}
}

uint32_t beside_steps(struct beside *beside, const struct interface *tried,
		const struct interface *judge, const struct steps *steps)
{
	uint32_t n = 0;

	beside_start(beside, tried, judge);
	while (n < steps->count && beside_step(beside, &steps->step[n]) == SAME)
		n++;
	return n;
}
