/*
 * parts.c - the lists of a trial: the cases of documents 01 and 02, every cause with its neighbours,
 * damaged memories, lengths at the edge of a page, labels, full tables, and lists that are drawn.
 */
#include "trial.h"

#include <inttypes.h>
#include <stdio.h>
#include <stdlib.h>
#include <string.h>

#include "causes.h"
#include "codes.h"
#include "damages.h"
#include "draw.h"
#include "full.h"
#include "layout.h"

#define COUNT(list) (uint32_t)(sizeof(list) / sizeof((list)[0]))

/* ---- the listings and the cases that document 01 marks */

enum { CASE_STEPS = 20 };

/* Cases of document 01, "A listing, and edges", as document 02 changes them, and its own; the answers are the judge's. */
static const char *const stars[][CASE_STEPS] = {
	{ "lend 8167", "setup 1 8 8 1024", "lend 8168", "setup 1 8 8 1024", "awaited" },
	{ "lend 21670", "setup 8 8 8 1024", "lend 21671", "setup 8 8 8 1024", "awaited" },
	{ "setup 1 1 1 0", "setup 1 1 1 1025", "setup 1 8 8 1024" },
	{ "setup 1 1 1 4", "add 0 9999999999999 1 1", "add 0 9999999999994 1 1", "add 0 10000000000000 1 1",
		"rep 0 9999999999999 1 1", "rep 0 9999999999994 2 2", "del 0 9999999999999", "del 0 9999999999994" },
	{ "setup 1 1 1 4", "add 0 99999999999999 1 1", "add 0 99999999999997 1 1", "add 0 100000000000000 1 1",
		"rep 0 99999999999999 1 1", "rep 0 99999999999997 2 2", "rep 0 100000000000000 2 2", "begin 0",
		"start 0 100000000000000", "start 0 99999999999999", "step 0", "step 0", "step 0",
		"del 0 100000000000000", "del 0 99999999999999", "del 0 99999999999997" },
	{ "setup 1 1 2 2", "clock 2", "clock 1" },
	{ "setup 1 1 1 2", "poke 15 4294967295", "poke 16 4294967294", "add 0 17 1 1", "del 0 17",
		"clock 0", "pass 0 0", "clock 0", "back 0", "add 0 17 1 1", "del 0 17", "clock 0" },
	{ "setup 1 1 1 1", "add 0 17 1 1", "rep 0 24 1 1" },
	{ "setup 1 1 1 4", "add 0 192 10 1", "add 0 0 20 2", "begin 0", "start 0 192", "del 0 0",
		"step 0", "step 0" },
	{ "setup 1 1 1 4", "add 0 5901234123457 1 1", "add 0 4006381333931 1 1", "add 0 5901234123458 1 1",
		"add 0 9501234123457 1 1", "add 0 4006831333931 1 1" },
	{ "setup 1 1 1 2", "add 0 338 1 1", "poke 126 18", "begin 0", "start 0 18", "step 0", "rep 0 18 1 1",
		"add 0 18 1 1", "del 0 18", "awaited" }, /* an older record in slot 0 */
	/* a lookup is dropped at the head, further on, at none, on a deleted slot, on a replaced one */
	{ "setup 1 1 1 4", "add 0 0 1 1", "add 0 192 2 2", "begin 0", "start 0 0", "end 0", "step 0", "begin 0",
		"step 0", "start 0 192", "start 0 0", "step 0", "end 0" },
	{ "setup 1 1 2 4", "add 0 0 1 1", "add 0 192 2 2", "begin 1", "start 1 0", "step 1", "end 1", "off 1",
		"on 1", "begin 1", "start 1 192", "step 1" },
	{ "setup 1 1 1 4", "begin 0", "start 0 64424509457", "end 0", "add 0 64424509457 1 1", "begin 0",
		"start 0 64424509457", "end 0", "begin 0", "start 0 17", "step 0", "end 0", "begin 0", "step 0" },
	{ "setup 1 1 2 4", "add 0 0 1 1", "add 0 192 2 2", "begin 1", "start 1 0", "del 0 192", "clock 0", "clock 1",
		"pass 0 0", "clock 0", "end 1", "pass 1 0", "clock 1", "clock 0", "back 0", "step 1", "awaited" },
	{ "setup 1 1 2 4", "add 0 0 1 1", "add 0 192 2 2", "begin 1", "start 1 0", "step 1", "rep 1 0 3 3", "clock 1",
		"clock 0", "end 1", "off 1", "pass 0 0", "clock 0", "pass 0 0", "clock 0", "back 0", "on 1", "step 1" },
	/* first places, last places, the eighth cabinet and no lane, while all are awaited, or all but one */
	{ "setup 1 8 1 2", "add 0 17 1 1", "del 0 17", "clock 0", "clock 7", "pass 7 0", "clock 7", "clock 1", "pass 1 0",
		"clock 1", "off 6", "on 6", "clock 6", "pass 8 0", "clock 8", "off 8", "awaited" },
	{ "setup 1 8 8 2", "add 0 17 1 1", "del 0 17", "clock 0", "clock 63", "pass 63 3", "clock 63", "clock 56", "pass 56 0",
		"clock 56", "off 55", "off 8", "on 8", "pass 64 0", "clock 64", "off 64", "awaited" },
	{ "setup 1 2 3 2", "off 3", "add 2 17 1 1", "del 2 17", "clock 2", "pass 2 0", "clock 2", "clock 3", "on 3", "clock 3",
		"clock 5", "pass 5 0", "clock 5", "off 4", "clock 6", "clock 4294967295", "awaited" },
	{ "setup 1 1 8 2", "add 0 17 1 1", "del 0 17", "clock 0", "clock 7", "pass 7 0", "clock 7", "off 6", "clock 8", "awaited" },
	/* a lookup takes n + 1 steps: with two records on its chain, of which the others make more, and with none */
	{ "setup 1 1 2 8", "add 0 192 1 1", "add 0 512 2 2", "begin 1", "start 1 0", "add 0 1472 3 3", "step 1", "rep 0 192 4 4",
		"rep 0 512 5 5", "step 1", "del 0 192", "add 0 192 6 6", "step 1", "step 1", "start 1 1472", "end 1" },
	{ "setup 1 1 2 4", "begin 1", "start 1 0", "add 0 192 1 1", "add 0 0 2 2", "step 1", "step 1", "start 1 64", "rep 0 0 3 3",
		"step 1", "del 0 192", "step 1", "step 1", "step 1" },
	/* two lines joined to one; slots come to a done line that has some; by an off; a lane's own done slots */
	{ "setup 1 1 2 4", "add 0 17 1 1", "add 0 24 1 1", "add 0 31 1 1", "del 0 17", "clock 0", "del 0 24", "del 0 31", "off 0",
		"awaited", "clock 1", "pass 1 0", "clock 1", "pass 1 0", "clock 1", "back 1", "back 1", "back 1", "back 1" },
	{ "setup 1 1 1 8", "add 0 17 1 1", "add 0 24 1 1", "add 0 31 1 1", "del 0 17", "clock 0", "pass 0 0", "clock 0", "del 0 24",
		"del 0 31", "clock 0", "pass 0 0", "clock 0", "awaited", "back 0", "awaited", "back 0", "back 0", "back 0" },
	{ "setup 1 1 3 8", "add 0 17 1 1", "del 2 17", "off 2", "clock 0", "pass 0 0", "clock 0", "off 1", "awaited", "clock 0",
		"back 0", "awaited" },
	{ "setup 1 1 2 4", "add 0 17 1 1", "add 0 24 1 1", "del 1 17", "clock 1", "clock 0", "pass 0 0", "clock 0", "pass 1 0",
		"clock 1", "del 1 24", "off 1", "clock 0", "pass 0 0", "clock 0", "awaited", "back 0", "back 0", "back 0" },
	/* a table with the version word of another, and with lengths that do not agree */
	{ "setup 1 1 1 2", "poke 0 1", "awaited", "clock 0", "poke 0 2", "awaited", "poke 0 3", "awaited", "poke 0 5", "awaited",
		"poke 0 4", "awaited" },
	{ "setup 1 1 1 2", "poke 84 1", "awaited", "poke 84 3", "awaited", "poke 84 2", "poke 116 1", "clock 0", "poke 116 0",
		"poke 119 1", "clock 0", "poke 119 0", "poke 122 1", "back 0", "poke 122 0", "awaited" },
	/* a count carries into its high word, and wraps; one that differs from its snapshot in the high word alone */
	{ "setup 1 1 1 2", "add 0 17 1 1", "del 0 17", "poke 97 4294967295", "clock 0", "clock 0", "pass 0 0", "clock 0", "back 0" },
	{ "setup 1 1 1 2", "add 0 17 1 1", "del 0 17", "poke 97 4294967295", "poke 98 4294967295", "clock 0", "clock 0",
		"pass 0 0", "clock 0", "back 0" },
	{ "setup 1 1 1 2", "add 0 17 1 1", "del 0 17", "clock 0", "poke 98 1", "clock 0", "back 0" },
	/* yards: none and nine; the last lane of two yards ends the period; yards and cabinets that differ */
	{ "setup 0 1 1 1", "setup 9 1 1 1", "setup 8 1 1 1", "begin 7", "begin 8", "awaited" },
	{ "setup 2 1 1 2", "add 0 17 1 1", "del 0 17", "clock 0", "pass 0 0", "clock 0", "awaited", "clock 1", "pass 1 0",
		"clock 1", "clock 0", "back 0", "awaited" },
	{ "setup 2 2 1 2", "add 3 17 1 1", "del 3 17", "clock 3", "awaited", "off 0", "awaited", "off 1", "awaited", "clock 2",
		"pass 2 0", "clock 2", "awaited", "pass 3 0", "clock 3", "back 3", "begin 4" },
	{ "setup 3 2 1 2", "off 1", "off 2", "off 3", "add 5 17 1 1", "del 5 17", "clock 5", "awaited", "off 0", "awaited",
		"off 4", "awaited", "pass 5 0", "clock 5", "on 2", "clock 2", "awaited" },
	{ "setup 8 8 8 2", "add 0 17 1 1", "del 511 17", "clock 511", "awaited", "clock 64", "pass 64 0", "clock 64", "clock 448",
		"pass 448 0", "clock 448", "off 63", "off 0", "awaited", "clock 512", "begin 512", "on 512" },
	/* masks of each level: a bit that is set wrongly, one that is missing, one that is out of range */
	{ "setup 2 2 1 2", "poke 17 1", "awaited", "poke 17 0", "poke 231 1", "awaited", "poke 231 0", "poke 95 1", "awaited",
		"poke 95 0", "awaited" },
	{ "setup 2 2 1 2", "add 0 17 1 1", "del 0 17", "clock 0", "poke 17 2", "awaited", "poke 17 7", "awaited", "poke 17 3",
		"awaited" },
	{ "setup 2 2 1 2", "add 0 17 1 1", "del 0 17", "clock 0", "poke 232 2", "awaited", "poke 232 7", "awaited", "poke 232 3",
		"poke 98 0", "awaited", "poke 98 3", "awaited", "poke 98 1", "awaited" },
};

/* The files of tests/listing that are lists of calls. */
static const char *const listings[] = { "document-01", "causes", "dropped-lookups", "line-lengths" };

/* Those that have bad lines, for programs, with what their lines try. */
static const struct {
	const char *name;
	enum sentence sentence;
} texts[] = { { "bad-lines", SENTENCE_LISTING_PROGRAM }, { "one-yard", SENTENCE_LISTING_YARD } };

static void play_listing(const char *name)
{
	char path[400], line[STEP_TEXT];
	FILE *file;

	snprintf(path, sizeof path, "%s/%s.in", trial.listings, name);
	file = fopen(path, "r");
	if (file == NULL) {
		perror(path);
		exit(2);
	}
	while (fgets(line, sizeof line, file) != NULL) {
		line[strcspn(line, "\n")] = '\0';
		player_line(line);
	}
	fclose(file);
}

static bool line_is_call(const char *line)
{
	struct step step;

	return step_read(line, &step) && step.kind == STEP_CALL;
}

/* What a program cannot be told is left out of its lists. */
static void play_star(const char *const *lines)
{
	for (uint32_t n = 0; n < CASE_STEPS && lines[n] != NULL; n++)
		if (trial.program == NULL || line_is_call(lines[n]))
			player_line(lines[n]);
}

static uint32_t case_lists(void)
{
	return COUNT(listings) + COUNT(stars) + (trial.program != NULL ? COUNT(texts) : 0);
}

/* The sentence counts as broken until the list has come to its end. */
static void play_case(uint32_t n)
{
	enum sentence sentence = n == 0 ? SENTENCE_LISTING : SENTENCE_STARS;

	if (n >= COUNT(listings) + COUNT(stars)) {
		program_text(texts[n - COUNT(listings) - COUNT(stars)].name, texts[n - COUNT(listings) - COUNT(stars)].sentence);
		return;
	}
	shared->tally.tried[sentence]++;
	shared->tally.broken[sentence]++;
	player_start(false);
	if (n < COUNT(listings))
		play_listing(listings[n]);
	else
		play_star(stars[n - COUNT(listings)]);
	player_end();
	shared->tally.broken[sentence]--;
}

/* ---- every cause with each of its neighbours */

/* States of a table of two lanes and three slots, one of each group; lane 0 is asked. */
static const char *const older_states[][CASE_STEPS] = {
	{ NULL },
	{ "add 1 338 1 1", "poke 156 18" }, /* slot 0 has an older record: code 18 */
};
static const char *const done_states[][CASE_STEPS] = {
	{ NULL },
	{ "add 0 31 1 1", "del 0 31", "clock 0", "pass 0 0", "clock 0", "clock 1", "pass 1 0",
		"clock 1", "clock 0" }, /* lane 0's done line has a slot */
	{ "add 1 31 1 1", "del 1 31", "off 1", "clock 0", "pass 0 0", "clock 0", "on 1" },
};
static const char *const record_states[][CASE_STEPS] = {
	{ NULL },
	{ "add 1 17 1 1" },
	{ "add 1 17 1 1", "add 1 24 1 1", "add 1 48 1 1" },
	{ "add 1 17 1 1", "add 1 24 1 1", "add 1 48 1 1", "del 1 17" },
};
static const char *const lane_states[][CASE_STEPS] = {
	{ NULL },
	{ "begin 0" },
	{ "begin 0", "start 0 17" },
	{ "off 0" },
	{ "off 1" },
	{ "off 1", "begin 0", "start 0 17" },
};

static uint32_t cause_lists(void)
{
	return COUNT(older_states) * COUNT(done_states) * COUNT(record_states) * COUNT(lane_states);
}

/* Values for an argument: in range, at its end, and past it. */
static uint32_t choices(enum kind kind, uint64_t choice[6])
{
	static const struct {
		uint32_t count;
		uint64_t value[6];
	} of[] = {
		[KIND_YARDS] = { 4, { 0, 1, PT_MAX_YARDS, PT_MAX_YARDS + 1 } },
		[KIND_CABINETS] = { 3, { 0, 1, PT_MAX_CABINETS + 1 } },
		[KIND_LANES] = { 3, { 0, 2, PT_MAX_LANES + 1 } },
		[KIND_SLOTS] = { 3, { 0, 3, PT_MAX_SLOTS + 1 } },
		[KIND_LANE] = { 4, { 0, 1, 2, PT_NONE } },
		[KIND_CODE] = { 5, { 17, 79, 18, PT_MAX_CODE + 1, UINT64_MAX } }, /* 18: a wrong check digit */
		[KIND_DEPOSIT] = { 3, { 0, PT_MAX_DEPOSIT + 1, PT_NONE } },
		[KIND_MATERIAL] = { 3, { 0, PT_MAX_MATERIAL + 1, PT_NONE } },
		[KIND_KIND] = { 3, { 0, PT_MAX_KIND + 1, PT_NONE } },
	};

	memcpy(choice, of[kind].value, sizeof of[kind].value);
	return of[kind].count;
}

/* Argument by argument; makes the call if some cause applies, so that the state stays. */
static void play_refused(struct call *call, uint32_t argument)
{
	uint64_t choice[6];
	uint32_t count;

	if (argument == call_arguments(call->name)) {
		if (causes_of(player.beside.memory, player.beside.words, call) != 0)
			player_call(call);
		return;
	}
	count = choices(call_forms[call->name].kind[argument], choice);
	for (uint32_t n = 0; n < count; n++) {
		call->argument[argument] = choice[n];
		play_refused(call, argument + 1);
	}
}

static void play_all_refused(void)
{
	for (int name = 0; name < CALLS; name++) {
		struct call call = { .name = (enum call_name)name };

		play_refused(&call, 0);
	}
}

static void play_lend(uint32_t words)
{
	player_step(&(struct step){ .kind = STEP_LEND, .number = words });
}

static void play_causes(uint32_t n)
{
	uint32_t older = n % COUNT(older_states), lists = n / COUNT(older_states);
	uint32_t done = lists % COUNT(done_states), rest = lists / COUNT(done_states);

	player_start(false);
	if (n == 0)
		play_all_refused(); /* a memory that is not set up */
	player_line("setup 1 1 2 3");
	play_star(older_states[older]);
	play_star(done_states[done]);
	play_star(record_states[rest % COUNT(record_states)]);
	play_star(lane_states[rest / COUNT(record_states)]);
	play_all_refused();
	if (trial.program == NULL) {
		uint32_t words = (uint32_t)player.beside.words;

		play_lend((uint32_t)PT_WORDS(1, 1, 2, 3) - 1);
		play_all_refused();
		play_lend(0);
		play_all_refused();
		play_lend(words);
	}
	player_end();
}

/* ---- damaged memories */

/* Calls on a tiny table after each of which every word is changed. */
static const char *const tiny_calls[] = {
	"setup 2 1 1 3", "add 0 0 1 1", "add 0 192 2 2", "begin 1", "start 1 0", "del 0 192", "clock 0",
	"step 1", "del 1 0", "clock 1", "step 1", "end 1", "pass 0 0", "clock 0", "pass 1 0", "clock 1",
	"clock 0", "off 1", "clock 0",
};

static const struct list damaged_list = {
	{ DAMAGES_YARDS, DAMAGES_CABINETS, DAMAGES_LANES, DAMAGES_SLOTS }, 8, 0, 1
};

static uint32_t damage_lists(void)
{
	return COUNT(tiny_calls) + (uint32_t)damage_count;
}

static void play_rich(size_t calls)
{
	for (size_t n = 0; n < calls; n++)
		player_line(rich_calls[n]);
}

static void play_poke(uint32_t at, uint32_t value)
{
	player_step(&(struct step){ .kind = STEP_POKE, .number = at, .value = value });
}

/* One sentence of legality at a time: each call on the memory, the set-up last. */
static void play_sentence(const struct damage *damage, uint64_t *seed)
{
	play_rich(damage->base == BASE_RICH ? rich_count : 1);
	for (int n = 0; n < POKES; n++)
		if (damage->poke[n].address != 0 || damage->poke[n].value != 0)
			play_poke(damage->poke[n].address, damage->poke[n].value);
	for (int name = CALL_SETUP + 1; name < CALLS; name++) {
		struct call call = draw_arguments(seed, &damaged_list, (enum call_name)name);

		player_call(&call);
	}
	player_line(rich_calls[0]);
}

/* Every word below the total, each changed to some values; the memory is mended each time. */
static void play_words(uint32_t calls)
{
	uint32_t total = (uint32_t)PT_WORDS(2, 1, 1, 3);

	for (uint32_t n = 0; n < calls; n++)
		player_line(tiny_calls[n]);
	for (uint32_t at = 0; at < total; at++) {
		uint32_t word = player.beside.memory[at];
		const uint32_t values[] = { word + 1, word - 1, word ^ 0x80000000u, 0, 1, 2, 3, PT_NONE };

		for (uint32_t n = 0; n < COUNT(values); n++) {
			if (values[n] == word)
				continue;
			play_poke(at, values[n]);
			player_line("awaited");
			play_poke(at, word);
		}
	}
}

static void play_damages(uint32_t n)
{
	uint64_t seed = trial.seed * 1000 + n;

	player_start(false);
	if (n < COUNT(tiny_calls))
		play_words(n + 1);
	else
		play_sentence(&damages[n - COUNT(tiny_calls)], &seed);
}

/* ---- memories and answers of every length, at both edges of a page */

static const struct sizes edge_sizes[] = {
	{ 1, 1, 1, 1 }, { 1, 1, 2, 3 }, { 2, 2, 1, 4 }, { 1, 8, 8, 1024 }, { 8, 8, 8, 1024 },
};

static uint32_t edge_lists(void)
{
	return 2 * COUNT(edge_sizes);
}

/* Each call with so many words lent; what is accepted changes the table, which is fine. */
static void play_lengths(const struct list *list, enum step_kind kind, uint32_t from, uint32_t to,
		uint64_t *seed)
{
	for (uint32_t words = from; words <= to; words++) {
		player_step(&(struct step){ .kind = kind, .number = words });
		for (int name = CALL_SETUP + 1; name < CALLS; name++) {
			struct call call = draw_arguments(seed, list, (enum call_name)name);

			player_call(&call);
		}
	}
}

static void play_edges(uint32_t n)
{
	const struct list list = { edge_sizes[n / 2], 6, 0, 1 };
	const struct call setup = call_setup(list.sizes);
	uint32_t total = layout_of(list.sizes).total;
	uint64_t seed = trial.seed * 1000 + n;

	player_start(false);
	player.beside.at_start = n % 2 == 1;
	for (uint32_t words = total > 200 ? total - 2 : 0; words <= total + 2; words++) {
		play_lend(words);
		player_call(&setup);
	}
	play_lend(total);
	play_lengths(&list, STEP_ANSWER, 0, PT_ANSWER_WORDS + 3, &seed);
	play_lengths(&list, STEP_LEND, total > 200 ? total - 4 : 0, total + 2, &seed);
	play_lengths(&list, STEP_LEND, 0, 30, &seed);
}

/* ---- labels: every length and every byte at every place, codes about every length, at both edges of a page */

static const uint32_t label_lengths[] = { PT_LABEL_8, PT_LABEL_13, PT_LABEL_14 };

static uint32_t label_lists(void)
{
	return 2 * (COUNT(label_lengths) + 1);
}

static void play_bytes(uint32_t length)
{
	for (uint32_t at = 0; at < length; at++)
		for (uint32_t byte = 0; byte <= UINT8_MAX; byte++) {
			struct step step = step_digits(length);

			step.text[at] = (uint8_t)byte;
			player_step(&step);
		}
}

static void play_label_lengths(void)
{
	static const uint64_t codes[] = { 0, 17, 99999999, 100000000, 9999999999999, 10000000000000,
		PT_MAX_CODE - 2, PT_MAX_CODE, PT_MAX_CODE + 1, UINT64_MAX };

	for (uint32_t bytes = 0; bytes <= 20; bytes++) {
		struct step step = step_digits(bytes);

		player_step(&step);
		for (uint32_t n = 0; n < COUNT(codes); n++)
			player_step(&(struct step){ .kind = STEP_WRITE, .number = bytes, .code = codes[n] });
	}
}

static void play_labels(uint32_t n)
{
	player_start(false);
	player.beside.at_start = n % 2 == 1;
	if (n / 2 < COUNT(label_lengths)) {
		play_bytes(label_lengths[n / 2]);
		return;
	}
	for (uint32_t words = 0; words <= PT_ANSWER_WORDS + 3; words++) {
		player_step(&(struct step){ .kind = STEP_ANSWER, .number = words });
		play_label_lengths();
	}
}

/* ---- full tables */

/* Whether a list can be tried on this engine, and on this system. */
static bool tries_full(uint32_t n)
{
	return (trial.program == NULL || full_lists[n].listing) && (!full_lists[n].vast || beside_vast());
}

/* How many can; says so where the system is in the way. */
static uint32_t full_tables(void)
{
	uint32_t lists = 0;

	if (trial.program == NULL && !beside_vast())
		printf("  lengths beyond 2^32: not tried, the system refuses the address space\n");
	for (uint32_t n = 0; n < full_count; n++)
		lists += tries_full(n) ? 1u : 0u;
	return lists;
}

/* The number of the list that comes so many after the first that can. */
static uint32_t full_number(uint32_t after)
{
	uint32_t n = 0;

	while (!tries_full(n) || after-- > 0)
		n++;
	return n;
}

/* Of a program's lists the calls alone. */
static void play_full(uint32_t list)
{
	static struct full full;

	full_make(&full, full_number(list));
	player_start(false);
	for (uint32_t n = 0; n < full.steps.count; n++)
		if (trial.program == NULL || full.steps.step[n].kind == STEP_CALL)
			player_step(&full.steps.step[n]);
	player_end();
}

/* ---- lists that are drawn */

enum { DRAWN_CALLS = 250, DRAWN_LISTS_OF_A_PROGRAM = 12 };

static void play_drawn_list(const struct list *list, uint64_t seed, bool calls_only)
{
	static struct drawer drawer;
	uint32_t calls = 0;

	drawer_start(&drawer, list, seed, calls_only);
	while (calls < DRAWN_CALLS) {
		struct step step = drawer_next(&drawer, player.beside.memory, player.beside.words);

		player_step(&step);
		calls += step_is_made(&step) ? 1u : 0u;
	}
}

/* A program is run for several lists at once. */
static void play_drawn(uint32_t n, bool by_ledger, bool calls_only)
{
	uint64_t seed = (trial.seed << 32) + n;
	uint32_t lists = trial.program != NULL ? DRAWN_LISTS_OF_A_PROGRAM : 1;
	uint32_t sizes = trial.program != NULL ? draw_lists_of_one_yard : draw_lists_count;

	player_start(by_ledger);
	player.beside.at_start = n % 2 == 1;
	for (uint32_t m = 0; m < lists; m++)
		play_drawn_list(&draw_lists[(n * lists + m) % sizes], seed + m * 7919, calls_only);
	player_end();
}

static void play_random(uint32_t n)
{
	play_drawn(n, false, trial.program != NULL || n / draw_lists_count % 3 == 2);
}

static void play_judged(uint32_t n)
{
	play_drawn(n, true, true);
}

const struct part parts[] = {
	{ "the listings and the cases of documents 01 and 02", true, false, case_lists, play_case, 0 },
	{ "every cause with each of its neighbours", true, false, cause_lists, play_causes, 0 },
	{ "damaged memories, a sentence of legality at a time", false, false, damage_lists, play_damages, 0 },
	{ "every length at the edge of a page", false, false, edge_lists, play_edges, 0 },
	{ "labels: every length, every byte at every place", false, false, label_lists, play_labels, 0 },
	{ "full tables: all slots, long chains, all lanes", true, false, full_tables, play_full, 0 },
	{ "drawn lists, on many sizes", true, false, NULL, play_random, 0.75 },
	{ "drawn lists, judged by the ledger of demand 3", true, true, NULL, play_judged, 0.25 },
};

const uint32_t part_count = COUNT(parts);
