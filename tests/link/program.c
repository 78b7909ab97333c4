/*
 * program.c - links with the library, as C and as C++: each call once, its answer against
 * the rules of documents 01 and 02, a table in a memory from malloc, one with two yards, and labels. Prints
 * "linked, " and the shared library's name with the memory's version word, and ends with 0.
 */
#include <stdio.h>
#include <stdlib.h>
#include <string.h>

#include "product_table.h"

static uint32_t answer[PT_ANSWER_WORDS];
static int wrong;

static void is(const char *call, uint32_t status, uint32_t a, uint32_t b, uint32_t c,
		uint32_t d, uint32_t e)
{
	if (status == a && answer[0] == a && answer[1] == b && answer[2] == c && answer[3] == d &&
			answer[4] == e)
		return;
	fprintf(stderr, "%s: %lu %lu %lu %lu %lu, status %lu\n", call, (unsigned long)answer[0],
		(unsigned long)answer[1], (unsigned long)answer[2], (unsigned long)answer[3],
		(unsigned long)answer[4], (unsigned long)status);
	wrong = 1;
}

static uint8_t text[] = "################"; /* longer than every label */

static void text_is(const char *call, const char *expected)
{
	if (memcmp(text, expected, sizeof text) == 0)
		return;
	fprintf(stderr, "%s: the text is %s\n", call, (const char *)text);
	wrong = 1;
}

/* The two label functions, which take a text and no memory. */
static void labels(void)
{
#define LABEL(digits) (const uint8_t *)digits, sizeof digits - 1, answer, PT_ANSWER_WORDS
	is("label_read, 8", pt_label_read(LABEL("96385074")), 0, 96385074, 0, 0, 0);
	is("label_read, 13", pt_label_read(LABEL("4006381333931")), 0, 3471814059u, 932, 0, 0);
	is("label_read, 14", pt_label_read(LABEL("99999999999999")), 0, 276447231, 23283, 0, 0);
	is("label_read, 9", pt_label_read(LABEL("963850740")), 18, 0, 0, 0, 0);
	is("label_read, a blank", pt_label_read(LABEL("96385 74")), 18, 0, 0, 0, 0);
	is("label_read, a NUL", pt_label_read(LABEL("9638507\0")), 18, 0, 0, 0, 0);
#define TEXT(bytes) text, bytes, answer, PT_ANSWER_WORDS
	is("label_write, short", pt_label_write(TEXT(13), 10000000000007), 18, 0, 0, 0, 0);
	is("label_write, limit", pt_label_write(TEXT(14), PT_MAX_CODE + 1), 11, 0, 0, 0, 0);
	text_is("label_write, refused", "################");
	is("label_write, 14", pt_label_write(TEXT(14), 10000000000007), 0, 14, 0, 0, 0);
	text_is("label_write, 14", "10000000000007##");
	is("label_write, 13", pt_label_write(TEXT(14), 4006381333931), 0, 13, 0, 0, 0);
	text_is("label_write, 13", "40063813339317##");
	is("label_write, 8", pt_label_write(TEXT(sizeof text), 17), 0, 8, 0, 0, 0);
	text_is("label_write, 8", "00000017339317##");
	is("label_read, rewritten", pt_label_read(TEXT(8)), 0, 17, 0, 0, 0);
	if (pt_label_read(text, 8, answer, 4) != PT_SHORT_ANSWER)
		wrong = 1;
}

/* Two yards of one lane each: the grace period waits for both. */
static void yards(void)
{
	uint32_t memory[PT_WORDS(2, 1, 1, 1)];

#define TWO memory, sizeof memory / sizeof memory[0], answer, PT_ANSWER_WORDS
	is("setup, two yards", pt_setup(TWO, 2, 1, 1, 1), 0, 165, 0, 0, 0);
	is("setup, nine yards", pt_setup(TWO, 9, 1, 1, 1), 1, 0, 0, 0, 0);
	is("add", pt_add(TWO, 1, 17, 25, 1), 0, 0, 0, 0, 0);
	is("delete", pt_delete(TWO, 1, 17), 0, 0, 0, 0, 0);
	is("clock", pt_clock(TWO, 1), 0, 1, 1, 1, 0);
	is("off", pt_off(TWO, 0), 0, 0, 0, 0, 0);
	is("awaited", pt_awaited(TWO), 0, 1, 1, 0, 1);
	is("clock, no lane", pt_clock(TWO, 2), 4, 0, 0, 0, 0);
}

int main(void)
{
	size_t words = PT_WORDS(1, 1, 2, 3);
	uint32_t *memory = (uint32_t *)malloc(words * sizeof *memory);

	if (memory == NULL)
		return 2;
#define LENT memory, words, answer, PT_ANSWER_WORDS
	is("setup", pt_setup(LENT, 1, 1, 2, 3), 0, 175, 0, 0, 0);
	is("add", pt_add(LENT, 0, 17, 25, 1), 0, 0, 0, 0, 0);
	is("replace", pt_replace(LENT, 0, 17, 30, 2), 0, 1, 0, 0, 0);
	is("begin", pt_begin(LENT, 1), 0, 0, 0, 0, 0);
	is("start", pt_start(LENT, 1, 17), 0, 0, 0, 0, 0);
	is("delete", pt_delete(LENT, 0, 17), 0, 1, 0, 0, 0);
	is("step", pt_step(LENT, 1), 0, 1, 1, 30, 2);
	is("end", pt_end(LENT, 1), 0, 0, 0, 0, 0);
	is("clock", pt_clock(LENT, 0), 0, 1, 1, 1, 0);
	is("awaited", pt_awaited(LENT), 0, 2, 0, 1, 2);
	is("off", pt_off(LENT, 1), 0, 0, 0, 0, 0);
	is("on", pt_on(LENT, 1), 0, 0, 0, 0, 0);
	is("pass", pt_pass(LENT, 0, PT_CHANGED_OVER), 0, 0, 0, 0, 0);
	is("clock", pt_clock(LENT, 0), 0, 2, 1, 0, 2);
	is("hand_back", pt_hand_back(LENT, 0), 0, 0, 0, 0, 0);
	if (pt_awaited(memory, words, answer, 4) != PT_SHORT_ANSWER)
		wrong = 1;
	yards();
	labels();
	if (!wrong)
		printf("linked, libproduct_table.so.%lu\n", (unsigned long)memory[0]);
	free(memory);
	return wrong;
}
