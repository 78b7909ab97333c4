/*
 * why.c - why a memory is refused with status 3: every sentence of documents 01 and 02 that it breaks, by the C version's
 * own legality test, each with the first words that show it.
 * Usage: product-table-why [--text] FILE   The status is 0 if the memory is legal, 1 if it is not, 2 if that cannot be told.
 */
#include <inttypes.h>
#include <stdio.h>
#include <string.h>

#include "input.h"
#include "reference.h"
#include "sentences.h"
#include "table.h"
#include "words.h"

enum { LEGAL = 0, NOT_LEGAL = 1, TROUBLE = 2 };

/* The papers' words. */
static const char *const texts[SENTENCES] = {
#define SECTION(text)
#define SENTENCE(NAME, text) [SENTENCE_##NAME] = text,
#include "sentences.def"
};

#define RULE(NAME, wanted) [LEGAL_##NAME] = { SENTENCE_LEGAL_##NAME, wanted }

static const struct {
	enum sentence sentence;
	const char *wanted; /* where the sentence leaves it open */
} rules[LEGAL_SENTENCES] = {
	RULE(CONTENTS, NULL),
	RULE(FLAGS, "flags are below 16: bit 0 on, 1 section open, 2 lookup running, 3 snapshot held"),
	RULE(MASKS, "the yard mask has bits for the yards alone, a yard's for its cabinets, a cabinet's for its lanes"),
	RULE(LINKS, "a link, an end and a position are none or below the number of slots"),
	RULE(FIELDS, "a code is at most 99,999,999,999,999, a deposit 100,000, a material 7"),
	RULE(EMPTY_ENDS, NULL),
	RULE(ONCE, NULL),
	RULE(LASTS, NULL),
	RULE(LENGTHS, NULL),
	RULE(CHAINS, NULL),
	RULE(TWICE, NULL),
	RULE(SNAPSHOTS_REST, NULL),
	RULE(LOOKUPS_REST, NULL),
	RULE(GENERATIONS_REST, NULL),
	RULE(LINKS_REST, NULL),
	RULE(OFFLINE, NULL),
	RULE(LOOKUP_IN_SECTION, NULL),
	RULE(SNAPSHOT_PENDING, NULL),
	RULE(CABINET_BITS, NULL),
	RULE(YARD_BITS, NULL),
	RULE(FREE_SLOTS, NULL),
	RULE(LARGEST, NULL),
	RULE(LANE_GENERATION, "not later than the largest requested, and one before under a running period only with its bit set"),
	RULE(GLOBAL_GENERATION, "again not later than the largest requested"),
};

/* ---- words */

static void value_text(uint32_t value, char text[WORD_TEXT])
{
	snprintf(text, WORD_TEXT, value == PT_NONE ? "%" PRIu32 " (none)" : "%" PRIu32, value);
}

/* A word's name, address and value; words of the contents are named whatever the sizes are. */
static void print_word(const struct input *input, uint32_t address)
{
	const struct sizes any = { 1, 1, 1, 1 };
	char name[WORD_TEXT], value[WORD_TEXT];

	word_name(address < CONTENTS_WORDS ? any : sizes_of(input->word), address, name);
	value_text(input->word[address], value);
	printf("  %s (word %" PRIu32 "): %s", name, address, value);
}

static void print_words(const struct input *input, const struct broken *broken)
{
	char right[WORD_TEXT];

	for (size_t n = 0; n < broken->count; n++) {
		print_word(input, broken->word[n]);
		value_text(broken->right, right);
		if (n == 0 && broken->settled)
			printf(", it would have to be %s", right);
		putchar('\n');
	}
}

/* ---- what is said of a sentence beyond its words */

/* The version word with its bytes in the other order. */
#define TURNED(version) ((uint32_t)(version) << 24)

static void print_version(uint32_t version)
{
	if (version >= 1 && version < LAYOUT_VERSION)
		printf("  version %" PRIu32 ": a table of an older version; set up a fresh one and enter its records again\n", version);
	else if (version == 0)
		printf("  version 0: no set-up was made on these words, or they were cleared\n");
	else if (version == TURNED(LAYOUT_VERSION))
		printf("  the bytes of the words stand in the other order\n");
}

static void print_contents(const struct input *input)
{
	if (input->word[CONTENTS_VERSION] != LAYOUT_VERSION)
		print_version(input->word[CONTENTS_VERSION]);
	if (input->words < CONTENTS_WORDS) {
		printf("  the contents take %d words; here are %zu\n", CONTENTS_WORDS, input->words);
		return;
	}
	if (input->word[CONTENTS_VERSION] != LAYOUT_VERSION)
		return;
	if (!sizes_in_range(sizes_of(input->word)))
		printf("  yards, cabinets and lanes are 1 to %u, slots 1 to %u\n", PT_MAX_LANES, PT_MAX_SLOTS);
	else if (layout_of(sizes_of(input->word)).total > input->words)
		printf("  a table of these sizes takes %" PRIu32 " words; here are %zu\n",
			layout_of(sizes_of(input->word)).total, input->words);
}

/* The slot that is met twice, or that is not met; then the first word named is its own. */
static void print_once(const struct input *input, const struct broken *broken)
{
	struct layout layout = layout_of(sizes_of(input->word));

	if (broken->astray)
		printf("  the first two of these lead to slot %" PRIu32 "\n", input->word[broken->word[0]]);
	else
		printf("  no chain and no line has slot %" PRIu32 "; the head named is that of its code's chain\n",
			(broken->word[0] - layout.first[BODY_SLOTS]) / SLOT_WORDS);
}

static void print_broken(const struct input *input, const struct broken *broken)
{
	const char *wanted = rules[broken->sentence].wanted;

	printf("broken: %s\n", texts[rules[broken->sentence].sentence]);
	print_words(input, broken);
	if (wanted != NULL)
		printf("  %s\n", wanted);
	if (broken->sentence == LEGAL_CONTENTS)
		print_contents(input);
	if (broken->sentence == LEGAL_ONCE)
		print_once(input, broken);
}

/* ---- the verdict */

static void print_not_legal(const char *name, const struct input *input, const struct broken *broken, size_t count)
{
	printf("%s: not legal\n", name);
	for (size_t n = 0; n < count; n++)
		if (!broken[n].unjudged)
			print_broken(input, &broken[n]);
	for (size_t n = 0; n < count; n++)
		if (broken[n].unjudged)
			printf("not judged, since links lead astray: %s\n", texts[rules[broken[n].sentence].sentence]);
	if (broken[0].sentence == LEGAL_CONTENTS)
		printf("no other sentence can be judged\n");
}

static uint32_t retired_slots(const struct retired *retired)
{
	return retired->next.length + retired->current.length + retired->done.length;
}

/* What stands in a legal table. */
struct counts {
	uint32_t online, reading, lookups, pending, retired;
};

static struct counts count(const struct table *table)
{
	struct counts counts = { .retired = retired_slots(&table->global) };

	for (uint32_t l = 0; l < table_lanes(table); l++) {
		const struct lane *lane = &table->lane[l];

		counts.online += lane->flags & FLAG_ONLINE ? 1 : 0;
		counts.reading += lane->flags & FLAG_READING ? 1 : 0;
		counts.lookups += lane->flags & FLAG_LOOKUP ? 1 : 0;
		counts.pending += table_pending(table, l) ? 1 : 0;
		counts.retired += retired_slots(&lane->retired);
	}
	return counts;
}

static void print_legal(const char *name, const struct input *input)
{
	static struct table table;
	struct counts counts;

	table_read(&table, input->word);
	counts = count(&table);
	printf("%s: legal\n", name);
	printf("version %d, yards %" PRIu32 ", cabinets %" PRIu32 ", lanes %" PRIu32 ", slots %" PRIu32 ": %" PRIu32 " words of %zu\n",
		LAYOUT_VERSION, table.sizes.yards, table.sizes.cabinets, table.sizes.lanes, table.sizes.slots,
		layout_of(table.sizes).total, input->words);
	printf("lanes on %" PRIu32 " of %" PRIu32 ", sections open %" PRIu32 ", lookups running %" PRIu32 ", lanes awaited %" PRIu32
		"; records %" PRIu32 ", slots free %" PRIu32 ", in other lines %" PRIu32 "\n",
		counts.online, table_lanes(&table), counts.reading, counts.lookups, counts.pending,
		table.sizes.slots - table.free.length - counts.retired, table.free.length, counts.retired);
}

static int judge(const char *name, const struct input *input)
{
	struct broken broken[LEGAL_SENTENCES];
	size_t count = ref_all_broken(input->word, input->words, broken);

	if (count == 0)
		print_legal(name, input);
	else
		print_not_legal(name, input, broken, count);
	return count == 0 ? LEGAL : NOT_LEGAL;
}

static void usage(FILE *to)
{
	fprintf(to, "usage: " PROGRAM " [--text] FILE\n\n"
		"Says whether the memory in FILE, 32-bit words, is legal, or which sentences it breaks and where.\n"
		"  --text  the file has numbers, parted by blanks; what stands before a colon in a line is left out\n"
		"  -       for FILE: standard input\n"
		"The status is 0 if the memory is legal, 1 if it is not, 2 if that cannot be told.\n");
}

int main(int arguments, char **argument)
{
	bool text = arguments > 1 && strcmp(argument[1], "--text") == 0;
	const char *name = arguments == (text ? 3 : 2) ? argument[arguments - 1] : NULL;
	struct input input;
	int verdict;

	if (name != NULL && strcmp(name, "--help") == 0) {
		usage(stdout);
		return LEGAL;
	}
	if (name == NULL || (name[0] == '-' && name[1] != '\0')) {
		usage(stderr);
		return TROUBLE;
	}
	if (!input_read(name, text, &input))
		return TROUBLE;
	verdict = judge(name, &input);
	if (fflush(stdout) == 0 && !ferror(stdout))
		return verdict;
	perror(PROGRAM ": standard output");
	return TROUBLE;
}
