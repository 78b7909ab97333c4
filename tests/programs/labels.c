/*
 * labels.c - the label reader and the label writer: every length, every byte value at every
 * place, codes about every length and the limit, short answers; drawn texts and codes beside
 * the C version; and a label that is read, written and read again. Texts lie at both edges of
 * a page that may not be touched (beside.h).
 */
#include <inttypes.h>
#include <stdio.h>
#include <string.h>

#include "codes.h"
#include "draw.h"
#include "lent.h"
#include "record.h"

static struct beside beside;
static struct record record;
static uint64_t read_count, written_count, refused_count;

/* A step's line is read as that step. */
static void check_line(const struct step *step)
{
	char line[STEP_TEXT];
	struct step again;

	step_text(step, line);
	CHECK(step_read(line, &again));
	CHECK(again.kind == step->kind && again.number == step->number && again.code == step->code);
	CHECK(memcmp(again.text, step->text, step->number) == 0 || step->kind != STEP_READ);
}

/* Takes a step at both edges; ends the program with the step if it differs. */
static void take(const struct step *step)
{
	check_line(step);
	for (int edge = 0; edge < 2; edge++) {
		beside.at_start = edge == 1;
		record_start(&record);
		if (record_step(&record, &beside, step) != SAME) {
			record_print(&record, "tried", "the C version", stderr);
			CHECK(false);
		}
	}
	if (beside.left.status != PT_OK)
		refused_count++;
	else if (step->kind == STEP_READ)
		read_count++;
	else
		written_count++;
}

static struct step reading(const void *text, size_t bytes)
{
	struct step step = { .kind = STEP_READ, .number = (uint32_t)bytes };

	memcpy(step.text, text, bytes);
	return step;
}

/* Takes the step and expects the answer's five words. */
static void expect(const struct step *step, uint32_t status, uint32_t first, uint32_t second)
{
	const uint32_t answer[PT_ANSWER_WORDS] = { status, first, second, 0, 0 };

	take(step);
	CHECK(beside.left.status == status);
	CHECK(memcmp(beside.left.answer, answer, sizeof answer) == 0);
}

static void expect_code(const char *text, uint64_t code)
{
	struct step step = reading(text, strlen(text));

	expect(&step, PT_OK, (uint32_t)code, (uint32_t)(code >> 32));
}

/* Writes into so many bytes, and expects the label and the bytes after it as they were. */
static void expect_label(uint32_t bytes, uint64_t code, const char *label)
{
	struct step step = { .kind = STEP_WRITE, .number = bytes, .code = code };
	uint32_t length = (uint32_t)strlen(label);

	expect(&step, PT_OK, length, 0);
	CHECK(memcmp(beside.left_text, label, length) == 0);
	for (uint32_t n = length; n < bytes; n++)
		CHECK(beside.left_text[n] == (FILL & 0xff));
}

static void expect_refused(uint32_t bytes, uint64_t code, uint32_t cause)
{
	struct step step = { .kind = STEP_WRITE, .number = bytes, .code = code };

	expect(&step, cause, 0, 0);
	for (uint32_t n = 0; n < bytes; n++)
		CHECK(beside.left_text[n] == (FILL & 0xff));
}

static bool is_label_length(uint32_t bytes)
{
	return bytes == PT_LABEL_8 || bytes == PT_LABEL_13 || bytes == PT_LABEL_14;
}

/* Every length from 0 to 20, of digits alone. */
static void test_lengths(void)
{
	for (uint32_t bytes = 0; bytes <= 20; bytes++) {
		struct step step = reading("98765432109876543210", bytes);

		if (is_label_length(bytes))
			take(&step);
		else
			expect(&step, PT_WRONG_LABEL, 0, 0);
		CHECK((beside.left.status == PT_OK) == is_label_length(bytes));
	}
}

/* Every byte value at every place. */
static void test_bytes(void)
{
	for (uint32_t bytes = 0; bytes <= PT_LABEL_14; bytes++)
		for (uint32_t at = 0; is_label_length(bytes) && at < bytes; at++)
			for (int byte = 0; byte <= UINT8_MAX; byte++) {
				struct step step = reading("12345678901234", bytes);

				step.text[at] = (uint8_t)byte;
				take(&step);
				CHECK((beside.left.status == PT_OK) == (byte >= '0' && byte <= '9'));
			}
}

static void test_codes(void)
{
	expect_code("96385074", 96385074);
	expect_code("4006381333931", 4006381333931);
	expect_code("10012345678902", 10012345678902);
	expect_code("0000096385074", 96385074);
	expect_code("00000096385074", 96385074);
	expect_code("00000001", 1); /* the check digit is not judged */
	expect_code("99999999999999", PT_MAX_CODE);
	expect_label(20, 0, "00000000");
	expect_label(20, 99999999, "99999999");
	expect_label(20, 100000000, "0000100000000");
	expect_label(20, 9999999999999, "9999999999999");
	expect_label(20, 10000000000000, "10000000000000");
	expect_label(20, PT_MAX_CODE, "99999999999999");
}

/* Every lent length, for a code of each length and past the limit. */
static void test_room(void)
{
	for (uint32_t bytes = 0; bytes <= 20; bytes++) {
		if (bytes < PT_LABEL_8)
			expect_refused(bytes, 96385074, PT_WRONG_LABEL);
		else
			expect_label(bytes, 96385074, "96385074");
		if (bytes < PT_LABEL_13)
			expect_refused(bytes, 4006381333931, PT_WRONG_LABEL);
		else
			expect_label(bytes, 4006381333931, "4006381333931");
		if (bytes < PT_LABEL_14)
			expect_refused(bytes, 10012345678902, PT_WRONG_LABEL);
		else
			expect_label(bytes, 10012345678902, "10012345678902");
		expect_refused(bytes, PT_MAX_CODE + 1, PT_OUT_OF_RANGE);
		expect_refused(bytes, UINT64_MAX, PT_OUT_OF_RANGE);
	}
}

/* With fewer than five words nothing is done. */
static void test_short_answers(void)
{
	struct step read = reading("96385074", PT_LABEL_8), write = { .kind = STEP_WRITE, .number = 14, .code = 17 };

	for (size_t words = 0; words < PT_ANSWER_WORDS; words++) {
		beside_step(&beside, &(struct step){ .kind = STEP_ANSWER, .number = words });
		take(&read);
		CHECK(beside.left.status == PT_SHORT_ANSWER);
		take(&write);
		CHECK(beside.left.status == PT_SHORT_ANSWER && beside.left_text[0] == (FILL & 0xff));
	}
	beside_step(&beside, &(struct step){ .kind = STEP_ANSWER, .number = BESIDE_ANSWER });
}

static uint64_t code_read(void)
{
	return (uint64_t)beside.left.answer[2] << 32 | beside.left.answer[1];
}

/* A label that was read, rewritten and read again is the same code, and has the same check digit. */
static void check_again(const struct step *label)
{
	struct step write = { .kind = STEP_WRITE, .number = label->number }, again;
	uint64_t code;

	take(label);
	if (beside.left.status != PT_OK)
		return;
	code = code_read();
	write.code = code;
	take(&write); /* a text as long as the label is long enough */
	CHECK(beside.left.status == PT_OK && beside.left.answer[1] <= label->number);
	again = reading(beside.left_text, beside.left.answer[1]);
	take(&again);
	CHECK(beside.left.status == PT_OK && code_read() == code);
}

static void test_drawn(void)
{
	uint64_t seed = 2;

	for (int n = 0; n < 50000; n++) {
		struct step step = draw_label(&seed);

		if (step.kind == STEP_READ)
			check_again(&step);
		else
			take(&step);
	}
}

int main(void)
{
	beside_start(&beside, &tested, &reference);
	test_lengths();
	test_bytes();
	test_codes();
	test_room();
	test_short_answers();
	test_drawn();
	CHECK(read_count > 20000 && written_count > 20000 && refused_count > 20000);
	printf("labels: %" PRIu64 " read, %" PRIu64 " written, %" PRIu64 " refused, each at both edges of a page\n",
		read_count, written_count, refused_count);
	return 0;
}
