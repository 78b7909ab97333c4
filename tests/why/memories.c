/*
 * memories.c - memories for the program that says why a memory is refused: those of damages.h, each written to a file of
 * its own; and what the C version's test notes of many more, judged here.
 * Usage: memories DIRECTORY   Prints a line for each file: its number, the status that awaited gets on a copy, by the
 * archive that is linked or else by the C version, whether the memory is legal, the changed words' addresses, and, last and
 * after a bar, the first sentence that it breaks.
 */
#include <inttypes.h>
#include <stdio.h>
#include <stdlib.h>
#include <string.h>

#include "damages.h"
#include "draw.h"
#include "lent.h"
#include "reference.h"
#include "sentences.h"

enum { TABLE_WORDS = PT_WORDS(DAMAGES_YARDS, DAMAGES_CABINETS, DAMAGES_LANES, DAMAGES_SLOTS), PATH = 1000 };

static struct lent lent;
static uint32_t base[2][TABLE_WORDS]; /* fresh and rich */

static void build(void)
{
	lent_start(&lent);
	for (size_t n = 0; n < rich_count; n++) {
		struct call call = lent_call(rich_calls[n]);

		CHECK(lent_make(&lent, &call) == PT_OK);
		memcpy(base[n == 0 ? BASE_FRESH : BASE_RICH], lent.memory, sizeof base[0]);
	}
}

/* ---- files */

static void write_words(const char *directory, const char *name, const uint32_t *word, size_t words)
{
	char path[PATH];
	FILE *file;

	CHECK(snprintf(path, sizeof path, "%s/%s", directory, name) < (int)sizeof path);
	file = fopen(path, "wb");
	CHECK(file != NULL && fwrite(word, sizeof *word, words, file) == words && fclose(file) == 0);
}

static uint32_t awaited_on_copy(const uint32_t *word)
{
	uint32_t copy[TABLE_WORDS], answer[PT_ANSWER_WORDS];

	memcpy(copy, word, sizeof copy);
	return tested.awaited(copy, TABLE_WORDS, answer, PT_ANSWER_WORDS);
}

static void write_damage(const char *directory, size_t number)
{
	const struct damage *damage = &damages[number];
	uint32_t word[TABLE_WORDS];
	char name[PATH];

	memcpy(word, base[damage->base], sizeof word);
	damage_memory(word, damage);
	snprintf(name, sizeof name, "%zu", number);
	write_words(directory, name, word, TABLE_WORDS);
	printf("%zu %" PRIu32 " %s", number, awaited_on_copy(word), damage->sentence == LEGAL_SENTENCES ? "legal" : "not");
	for (int n = 0; n < POKES; n++)
		if (damage->poke[n].address != 0 || damage->poke[n].value != 0)
			printf(" %" PRIu32, damage->poke[n].address);
	printf("|%s\n", damage->sentence == LEGAL_SENTENCES ? "" : legal_text(damage->sentence));
}

/* ---- what is noted of a memory */

static bool names(const struct broken *broken, uint32_t address)
{
	for (size_t n = 0; n < broken->count; n++)
		if (broken->word[n] == address)
			return true;
	return false;
}

/* The first sentence is the first, each word noted is one of the memory, and one that is settled holds something else. */
static size_t check_noted(const uint32_t *word, size_t words, struct broken *broken)
{
	size_t count = ref_all_broken(word, words, broken);

	CHECK(ref_broken(word, words) == (count == 0 ? LEGAL_SENTENCES : broken[0].sentence));
	for (size_t n = 0; n < count; n++) {
		CHECK(n == 0 || (!broken[0].unjudged && broken[n].sentence > broken[n - 1].sentence));
		CHECK(broken[n].unjudged == (broken[n].count == 0) || words < CONTENTS_WORDS);
		for (size_t w = 0; w < broken[n].count; w++)
			CHECK(broken[n].word[w] < words);
		CHECK(!broken[n].settled || word[broken[n].word[0]] != broken[n].right);
	}
	return count;
}

/* Whether a slot is met twice or not at all: any link on a way there, or away from it, may be the one that was changed. */
static bool links_lead_wrong(const struct broken *broken, size_t count)
{
	for (size_t n = 0; n < count; n++)
		if (broken[n].sentence == LEGAL_ONCE)
			return true;
	return false;
}

/* One word changed: it is named, unless it is a link and the walks go wrong. */
static bool check_one_word(uint32_t address, uint32_t value)
{
	struct broken broken[LEGAL_SENTENCES];
	uint32_t word[TABLE_WORDS];
	size_t count;
	bool named = false;

	memcpy(word, base[BASE_RICH], sizeof word);
	word[address] = value;
	count = check_noted(word, TABLE_WORDS, broken);
	for (size_t n = 0; n < count; n++)
		named = named || names(&broken[n], address);
	if (count > 0 && !named && !links_lead_wrong(broken, count)) {
		fprintf(stderr, "memories: word %" PRIu32 " with %" PRIu32 " breaks %s and is not named\n", address, value,
			legal_text(broken[0].sentence));
		exit(1);
	}
	return named;
}

static void test_every_word(void)
{
	static const uint32_t values[] = { 0, 1, 2, 3, 4, 5, 7, 8, 11, 15, 16, 17, 64, 192, 2147483648u, PT_NONE - 1, PT_NONE };
	uint32_t named = 0;

	for (uint32_t address = 0; address < TABLE_WORDS; address++)
		for (size_t n = 0; n < sizeof values / sizeof values[0]; n++)
			named += check_one_word(address, values[n]) ? 1 : 0;
	CHECK(named > 0);
	fprintf(stderr, "memories: %" PRIu32 " of one changed word are refused and name it\n", named);
}

/* Words of no meaning behind contents that agree, and fewer words than the table has. */
static void test_any_words(void)
{
	struct broken broken[LEGAL_SENTENCES];
	uint64_t random = 5;

	for (uint32_t n = 0; n < 3000; n++) {
		uint32_t words = n % 2 ? TABLE_WORDS : draw_below(&random, TABLE_WORDS);
		uint32_t *word = malloc((words > 0 ? words : 1) * sizeof *word);

		CHECK(word != NULL);
		memcpy(word, base[BASE_RICH], words * sizeof *word);
		for (uint32_t at = CONTENTS_WORDS; at < words; at++)
			if (draw_below(&random, 1 + n % 97) == 0)
				word[at] = draw_below(&random, DAMAGES_SLOTS + 1) - 1u;
		check_noted(word, words, broken);
		free(word);
	}
}

int main(int arguments, char **argument)
{
	CHECK(arguments == 2);
	build();
	test_every_word();
	test_any_words();
	for (size_t n = 0; n < damage_count; n++)
		write_damage(argument[1], n);
	return 0;
}
