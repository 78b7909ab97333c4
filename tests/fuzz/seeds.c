/*
 * seeds.c - makes the fuzzer's seeds: a file of bytes (stream.h) for each name in a text
 * such as seeds.txt, lists that fill tables (full.h), as far as a stream has room for them,
 * and lists of calls that look random, on tables of several sizes.
 * Usage: seeds TEXT DIRECTORY
 */
#include <inttypes.h>
#include <stdio.h>
#include <stdlib.h>
#include <string.h>

#include "draw.h"
#include "full.h"
#include "lent.h"
#include "stream.h"

enum { NAME = 200, LINE = 200 };

static FILE *seed;

static void seed_open(const char *directory, const char *name)
{
	char path[2 * NAME];

	if (seed != NULL)
		CHECK(fclose(seed) == 0);
	CHECK((size_t)snprintf(path, sizeof path, "%s/%s", directory, name) < sizeof path);
	seed = fopen(path, "wb");
	CHECK(seed != NULL);
}

static void put(uint64_t value, unsigned bytes)
{
	for (unsigned n = 0; n < bytes; n++)
		CHECK(putc((int)(value >> 8 * n & 0xffu), seed) != EOF);
}

static void put_raw(uint32_t value)
{
	put(RAW, 1);
	put(value, 4);
}

static void put_number(uint32_t value)
{
	if (value < EDGES)
		put(value, 1);
	else
		put_raw(value);
}

static void put_code(uint64_t code)
{
	for (uint32_t byte = 0; byte < EDGES; byte++)
		if (spread(byte) == code) {
			put(byte, 1);
			return;
		}
	put(RAW, 1);
	put(code, 8);
}

static void put_call(const struct call *call)
{
	put(call->name, 1);
	for (uint32_t n = 0; n < call_arguments(call->name); n++)
		if (call_forms[call->name].kind[n] == KIND_CODE)
			put_code(call->argument[n]);
		else if (call_forms[call->name].kind[n] == KIND_LANE && call->argument[n] >= LANES)
			put_raw((uint32_t)call->argument[n]);
		else
			put_number((uint32_t)call->argument[n]);
}

static void put_label(const struct step *step)
{
	put(step->kind == STEP_READ ? READ : WRITE, 1);
	put(step->number, 1);
	if (step->kind == STEP_WRITE)
		put_code(step->code);
	for (uint32_t n = 0; step->kind == STEP_READ && n < step->number; n++)
		if (step->text[n] >= '0' && step->text[n] <= '9') {
			put(step->text[n] - '0', 1);
		} else {
			put(BYTES, 1);
			put(step->text[n], 1);
		}
}

/* The operation that a word alone is, or OPERATIONS. */
static uint32_t plain_operation(const char *line)
{
	static const struct {
		const char *word;
		uint32_t operation;
	} plain[] = { { "mend", MEND }, { "round", ROUND } };

	for (size_t n = 0; n < sizeof plain / sizeof plain[0]; n++)
		if (strcmp(line, plain[n].word) == 0)
			return plain[n].operation;
	return OPERATIONS;
}

/* A line that stands for itself so many times: "repeat N LINE"; the line, and how often. */
static const char *repeated(const char *line, uint32_t *times)
{
	int read = 0;

	*times = 1;
	if (sscanf(line, "repeat %" SCNu32 " %n", times, &read) == 1)
		return line + read;
	return line;
}

/* An operation that is no call, or else the call that the line is. */
static void put_line(const char *line)
{
	uint32_t a, b;
	struct step step;
	struct call call;

	if (sscanf(line, "poke %" SCNu32 " %" SCNu32, &a, &b) == 2) {
		put(POKE, 1);
		put(a, 2);
		put_number(b);
	} else if (sscanf(line, "copy %" SCNu32 " %" SCNu32, &a, &b) == 2) {
		put(COPY, 1);
		put(a, 2);
		put(b, 2);
	} else if (sscanf(line, "lend %" SCNu32, &a) == 1) {
		put(LEND, 1);
		put_number(a);
	} else if (sscanf(line, "answer %" SCNu32, &a) == 1) {
		put(ANSWER, 1);
		put(a, 1);
	} else if (sscanf(line, "count %" SCNu32 " %" SCNu32, &a, &b) == 2) {
		put(COUNT, 1);
		put_number(a);
		put(b, 1);
	} else if (plain_operation(line) != OPERATIONS) {
		put(plain_operation(line), 1);
	} else if (step_read(line, &step) && step_is_label(&step)) {
		put_label(&step);
	} else {
		call = lent_call(line);
		put_call(&call);
	}
}

static void put_lines(const char *line)
{
	uint32_t times;

	for (line = repeated(line, &times); times > 0; times--)
		put_line(line);
}

static void make_written(const char *path, const char *directory)
{
	FILE *text = fopen(path, "r");
	char line[LINE], name[NAME];

	CHECK(text != NULL);
	while (fgets(line, sizeof line, text) != NULL) {
		line[strcspn(line, "\n")] = '\0';
		if (sscanf(line, "[%199[a-z0-9-]]", name) == 1)
			seed_open(directory, name);
		else if (line[0] != '#' && line[0] != '\0')
			put_lines(line);
	}
	fclose(text);
}

/* ---- lists that fill tables */

/* Those of which a stream has room for the whole, or for parts that begin with the set-up. */
static const char *const filling[] = { "reused", "wide", "arguments", "wrong-lanes", "wrong-free" };

enum { STREAM_BYTES = 1400, STREAM_STEPS = 390 }; /* below what tests/fuzz/run and fuzz.c take */

static void put_step(const struct step *step)
{
	char line[STEP_TEXT];

	step_text(step, line);
	put_line(line);
}

/* The steps from @from on that a stream has room for, after the set-up; returns the next. */
static uint32_t put_part(const struct steps *steps, uint32_t from)
{
	uint32_t n = from;

	put_step(&steps->step[0]);
	for (; n < steps->count && n - from < STREAM_STEPS && ftell(seed) < STREAM_BYTES; n++)
		put_step(&steps->step[n]);
	return n;
}

static void make_filling(const char *directory, const char *list)
{
	static struct full full;
	char name[NAME];
	uint32_t n = 0, part = 1;

	while (n < full_count && strcmp(full_lists[n].name, list) != 0)
		n++;
	CHECK(n < full_count);
	full_make(&full, n);
	for (uint32_t at = 1; at < full.steps.count; part++) {
		snprintf(name, sizeof name, "full-%s-%" PRIu32, list, part);
		seed_open(directory, name);
		at = put_part(&full.steps, at);
	}
}

/* A list of calls on a table: many of the calls are accepted. */
static void put_random(struct sizes sizes, uint32_t count)
{
	uint64_t state = sizes.yards * 1000 + sizes.cabinets * 100 + sizes.lanes * 10 + sizes.slots;
	const struct list list = { sizes, 8, count, 1 };
	struct call call = call_setup(sizes);

	put_call(&call);
	for (uint32_t n = 0; n < count; n++) {
		call = draw_call(&state, &list);
		put_call(&call);
		if (n % 20 == 19)
			put(ROUND, 1);
	}
}

int main(int arguments, char **argument)
{
	static const struct sizes sizes[] = {
		{ 1, 1, 1, 1 }, { 1, 1, 1, 2 }, { 1, 1, 2, 2 }, { 1, 1, 2, 4 }, { 1, 1, 3, 3 }, { 1, 2, 1, 3 },
		{ 1, 2, 2, 6 }, { 1, 2, 3, 8 }, { 1, 8, 1, 8 }, { 1, 1, 8, 16 }, { 2, 1, 1, 3 }, { 2, 2, 1, 4 },
		{ 2, 1, 2, 4 }, { 2, 2, 2, 8 }, { 3, 2, 1, 6 }, { 8, 1, 1, 8 },
	};
	char name[NAME];

	CHECK(arguments == 3);
	make_written(argument[1], argument[2]);
	for (size_t n = 0; n < sizeof filling / sizeof filling[0]; n++)
		make_filling(argument[2], filling[n]);
	for (size_t n = 0; n < sizeof sizes / sizeof sizes[0]; n++) {
		snprintf(name, sizeof name, "random-%" PRIu32 "-%" PRIu32 "-%" PRIu32 "-%" PRIu32, sizes[n].yards,
			sizes[n].cabinets, sizes[n].lanes, sizes[n].slots);
		seed_open(argument[2], name);
		put_random(sizes[n], 100);
	}
	CHECK(seed == NULL || fclose(seed) == 0);
	return 0;
}
