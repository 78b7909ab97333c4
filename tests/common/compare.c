/*
 * compare.c - two outcomes of one call.
 */
#include "compare.h"

#include <stdbool.h>
#include <string.h>

#include "layout.h"
#include "product_table.h"
#include "reference.h"
#include "table.h"

const char *const difference_texts[DIFFERENCES] = {
	[SAME] = "no difference",
	[DIFFERS_STATUS] = "another status",
	[DIFFERS_RETURNED] = "the status returned is not the answer's first word",
	[DIFFERS_ANSWER] = "another answer",
	[DIFFERS_PAST_ANSWER] = "a word of the answer changed that stays",
	[DIFFERS_REFUSED] = "a refused call changed a word, or answered more than its number",
	[DIFFERS_PAST_TOTAL] = "a word past the total changed",
	[DIFFERS_WORDS] = "other words of the memory",
	[DIFFERS_OUTSIDE] = "a word changed that is not lent",
	[DIFFERS_NOT_LEGAL] = "an accepted call left a memory that is not legal",
	[DIFFERS_LEDGER] = "the ledger of demand 3 finds fault",
	[DIFFERS_TEXT] = "other bytes of the text",
};

size_t total_of(const uint32_t *memory)
{
	return sizes_in_range(sizes_of(memory)) ? layout_of(sizes_of(memory)).total : 0;
}

/* Whether @count words from @from on are @value, all of them. */
static bool all_are(const uint32_t *word, size_t from, size_t count, uint32_t value)
{
	for (size_t n = from; n < count; n++)
		if (word[n] != value)
			return false;
	return true;
}

static bool same_words(const uint32_t *a, const uint32_t *b, size_t from, size_t count)
{
	return count <= from || memcmp(a + from, b + from, (count - from) * sizeof *a) == 0;
}

/* How many words of the answer are written. */
static size_t written_of(const struct left *left)
{
	return left->answer_words < PT_ANSWER_WORDS ? 0 : PT_ANSWER_WORDS;
}

enum difference owed_answer(const struct left *left)
{
	size_t written = written_of(left);

	if (!all_are(left->answer, written, left->answer_words, FILL))
		return DIFFERS_PAST_ANSWER;
	if ((written == 0) != (left->status == PT_SHORT_ANSWER))
		return DIFFERS_STATUS;
	if (written != 0 && left->answer[0] != left->status)
		return DIFFERS_RETURNED;
	if (left->status != PT_OK && written != 0 && !all_are(left->answer, 1, written, 0))
		return DIFFERS_REFUSED;
	return SAME;
}

enum difference owed(const uint32_t *before, const struct left *left)
{
	enum difference difference = owed_answer(left);

	if (difference != SAME)
		return difference;
	if (left->status != PT_OK)
		return same_words(before, left->memory, 0, left->words) ? SAME : DIFFERS_REFUSED;
	if (!ref_legal(left->memory, left->words))
		return DIFFERS_NOT_LEGAL;
	return same_words(before, left->memory, total_of(left->memory), left->words) ?
		SAME : DIFFERS_PAST_TOTAL;
}

enum difference alike_answer(const struct left *expected, const struct left *left)
{
	size_t written = written_of(left);

	if (left->status != expected->status)
		return DIFFERS_STATUS;
	if (written > 0 && left->answer[0] != expected->answer[0])
		return DIFFERS_RETURNED;
	if (!same_words(expected->answer, left->answer, written, left->answer_words))
		return DIFFERS_PAST_ANSWER;
	if (!same_words(expected->answer, left->answer, 0, written))
		return expected->status == PT_OK ? DIFFERS_ANSWER : DIFFERS_REFUSED;
	return SAME;
}

enum difference alike(const struct left *expected, const struct left *left)
{
	enum difference difference = alike_answer(expected, left);
	size_t total = expected->words;

	if (difference != SAME)
		return difference;
	if (expected->status == PT_OK)
		total = total_of(expected->memory);
	if (!same_words(expected->memory, left->memory, 0, total))
		return expected->status == PT_OK ? DIFFERS_WORDS : DIFFERS_REFUSED;
	return same_words(expected->memory, left->memory, total, expected->words) ?
		SAME : DIFFERS_PAST_TOTAL;
}
