/*
 * record.c - lists with their answers, and how they are printed.
 */
#include "record.h"

#include <inttypes.h>
#include <string.h>

#include "layout.h"
#include "line.h"
#include "progress.h"
#include "reference.h"
#include "sentences.h"
#include "shrink.h"

void record_start(struct record *record)
{
	record->steps.count = 0;
	record->under_way = false;
	record->difference = SAME;
	record->fault[0] = '\0';
	record->compared = false;
	record->silent = false;
	record->differing = 0;
}

static void note_words(struct record *record, const struct beside *beside)
{
	for (uint32_t n = 0; n < beside->words; n++) {
		if (beside->memory[n] == beside->left.memory[n])
			continue;
		if (record->differing < RECORD_WORDS) {
			word_name(sizes_of(beside->memory), n, record->word[record->differing].name);
			record->word[record->differing].address = n;
			record->word[record->differing].expected = beside->memory[n];
			record->word[record->differing].left = beside->left.memory[n];
		}
		record->differing++;
	}
}

static void note_difference(struct record *record, const struct beside *beside, const struct step *step)
{
	const struct left *left = beside->tried != NULL ? &beside->left : &beside->expected;

	if (beside->fault != NULL)
		snprintf(record->fault, RECORD_TEXT, "%s", beside->fault);
	record->compared = beside->judge != NULL && beside->tried != NULL;
	record->status = left->status;
	record->answer_words = (uint32_t)left->answer_words;
	memcpy(record->left_answer, left->answer, left->answer_words * sizeof left->answer[0]);
	if (!record->compared)
		return;
	record->expected_status = beside->expected.status;
	if (record->expected_status == PT_NOT_LEGAL && record->difference == DIFFERS_STATUS)
		snprintf(record->fault, RECORD_TEXT, "the memory is not legal, against \"%.110s\"",
			legal_text(ref_broken(beside->before, beside->words)));
	memcpy(record->expected_answer, beside->expected.answer,
		left->answer_words * sizeof left->answer[0]);
	if (step_is_label(step)) {
		memcpy(record->expected_text, beside->expected_text, sizeof record->expected_text);
		memcpy(record->left_text, beside->left_text, sizeof record->left_text);
	} else {
		note_words(record, beside);
	}
}

enum difference record_step(struct record *record, struct beside *beside, const struct step *step)
{
	const struct left *left;
	uint32_t at = record->steps.count;

	steps_add(&record->steps, step);
	if (!step_is_made(step))
		return beside_step(beside, step);
	record->under_way = true;
	record->difference = beside_step(beside, step);
	record->under_way = false;
	left = beside->tried != NULL ? &beside->left : &beside->expected;
	memset(record->answer[at], 0, sizeof record->answer[at]);
	if (left->status == PT_SHORT_ANSWER)
		record->answer[at][0] = PT_SHORT_ANSWER;
	else if (left->answer_words >= PT_ANSWER_WORDS)
		memcpy(record->answer[at], left->answer, sizeof record->answer[at]);
	if (record->difference != SAME)
		note_difference(record, beside, step);
	return record->difference;
}

/* What is shortened beside what, and until when. */
struct shortening {
	struct beside *beside;
	const struct interface *tried, *judge;
	double until;
};

static bool still_differs(const struct steps *steps, void *context)
{
	const struct shortening *of = context;

	return seconds_now() < of->until && beside_steps(of->beside, of->tried, of->judge, steps) < steps->count;
}

void record_shrink(struct record *record, struct beside *beside, double seconds)
{
	enum { TESTS = 20000 };
	static struct steps steps;
	struct shortening of = { beside, beside->tried, beside->judge, seconds_now() + seconds };

	steps = record->steps;
	if (still_differs(&steps, &of))
		shrink(&steps, still_differs, &of, TESTS);
	record_start(record);
	beside_start(beside, of.tried, of.judge);
	for (uint32_t n = 0; n < steps.count && record->difference == SAME; n++)
		record_step(record, beside, &steps.step[n]);
}

void record_list(const struct record *record, FILE *file)
{
	char text[STEP_TEXT];

	for (uint32_t n = 0; n < record->steps.count; n++) {
		step_text(&record->steps.step[n], text);
		fprintf(file, "%s\n", text);
	}
}

void print_answer(const char *who, const uint32_t *answer, uint32_t words, uint32_t status, FILE *file)
{
	fprintf(file, "      %-22s", who);
	if (words < PT_ANSWER_WORDS)
		fprintf(file, " returned %" PRIu32 ", %" PRIu32 " words of answer", status, words);
	for (uint32_t n = 0; n < words; n++)
		if (answer[n] != FILL)
			fprintf(file, " %" PRIu32, answer[n]);
		else if (n < PT_ANSWER_WORDS)
			fprintf(file, " unwritten");
	if (words >= PT_ANSWER_WORDS && answer[0] != status)
		fprintf(file, ", returned %" PRIu32, status);
	fprintf(file, "\n");
}

static void print_words(const struct record *record, FILE *file)
{
	char expected[WORD_TEXT], left[WORD_TEXT];

	if (record->differing == 0)
		return;
	fprintf(file, "  words that differ: %" PRIu32 "\n      %-44s %8s  %12s  %12s\n",
		record->differing, "word", "address", "expected", "engine");
	for (uint32_t n = 0; n < record->differing && n < RECORD_WORDS; n++) {
		word_value(record->word[n].expected, expected);
		word_value(record->word[n].left, left);
		fprintf(file, "      %-44s %8" PRIu32 "  %12s  %12s\n", record->word[n].name,
			record->word[n].address, expected, left);
	}
	if (record->differing > RECORD_WORDS)
		fprintf(file, "      .. and %" PRIu32 " more\n", record->differing - RECORD_WORDS);
}

/* The text that a label function left, as far as labels reach, as the line that reads it. */
static void print_text(const char *who, uint64_t bytes, const uint8_t *text, FILE *file)
{
	struct step step = { .kind = STEP_READ, .number = bytes < LABEL_MOST ? bytes : LABEL_MOST };
	char line[STEP_TEXT];

	memcpy(step.text, text, step.number);
	step_text(&step, line);
	fprintf(file, "      %-22s %s\n", who, line + strlen("read "));
}

static void print_texts(const struct record *record, const char *engine, const char *judge, FILE *file)
{
	const struct step *last = &record->steps.step[record->steps.count - 1];

	if (last->kind != STEP_WRITE)
		return;
	fprintf(file, "  the text after it\n");
	print_text(judge, last->number, record->expected_text, file);
	print_text(engine, last->number, record->left_text, file);
}

/* What stands beside a step that is no call. */
static void remark(const struct step *step, struct sizes sizes, char text[WORD_TEXT + 8])
{
	char name[WORD_TEXT];

	switch (step->kind) {
	case STEP_POKE:
		word_name(sizes, step->number, name);
		snprintf(text, WORD_TEXT + 8, "(%s)", name);
		break;
	case STEP_LEND:
		snprintf(text, WORD_TEXT + 8, "(so many words of the memory are lent)");
		break;
	case STEP_ANSWER:
		snprintf(text, WORD_TEXT + 8, "(so many words of answer are lent)");
		break;
	case STEP_CHAIN:
		snprintf(text, WORD_TEXT + 8, "(so many records of chain 0, in the first slots)");
		break;
	default:
		snprintf(text, WORD_TEXT + 8, "(the words of the last accepted call)");
	}
}

/* All steps with what was answered, but for the last if the list ended there. */
static void print_steps(const struct record *record, FILE *file)
{
	struct sizes sizes = { 0 };
	char text[STEP_TEXT], answer[WORD_TEXT + 8];
	bool ended = record->under_way || record->difference != SAME;

	for (uint32_t n = 0; n < record->steps.count; n++) {
		const struct step *step = &record->steps.step[n];

		step_text(step, text);
		if (!step_is_made(step))
			remark(step, sizes, answer);
		else if (ended && n + 1 == record->steps.count)
			snprintf(answer, sizeof answer, "<- here");
		else if (record->answer[n][0] == PT_SHORT_ANSWER)
			snprintf(answer, sizeof answer, "returned %" PRIu32, PT_SHORT_ANSWER);
		else
			line_answer(record->answer[n], answer);
		if (step->kind == STEP_CALL && step->call.name == CALL_SETUP && record->answer[n][0] == PT_OK)
			sizes = call_sizes(&step->call);
		fprintf(file, "      %-32s %s\n", text, answer);
	}
}

void record_print(const struct record *record, const char *engine, const char *judge, FILE *file)
{
	print_steps(record, file);
	if (record->under_way)
		fprintf(file, "  it does not return\n");
	else if (record->difference != SAME)
		fprintf(file, "  %s%s%s\n", difference_texts[record->difference],
			record->fault[0] != '\0' ? ": " : "", record->fault);
	if (record->under_way || record->difference == SAME)
		return;
	if (record->compared)
		print_answer(judge, record->expected_answer, record->answer_words,
			record->expected_status, file);
	if (!record->silent)
		print_answer(engine, record->left_answer, record->answer_words, record->status, file);
	print_words(record, file);
	print_texts(record, engine, judge, file);
}
