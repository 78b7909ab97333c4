/*
 * alphabet.c - the calls that are made in each state of a tiny table.
 */
#include "alphabet.h"

#include <inttypes.h>
#include <stdio.h>
#include <stdlib.h>

#include "codes.h"
#include "layout.h"
#include "line.h"

const struct table_form *form;
uint32_t lanes;
uint32_t codes[CODES];
struct call alphabet[ALPHABET];
uint32_t letters;

static void letter(enum call_name name, uint64_t a, uint64_t b, uint64_t c, uint64_t d)
{
	if (letters == ALPHABET) {
		fprintf(stderr, "exhaustive: the alphabet is too long\n");
		exit(2);
	}
	alphabet[letters++] = (struct call){ name, { a, b, c, d } };
}

/* The calls of a lane with a code. */
static void code_letters(uint32_t lane, uint64_t code)
{
	if (form->changing >> lane & 1u) {
		letter(CALL_ADD, lane, code, 1, 1);
		letter(CALL_REPLACE, lane, code, 2, 2);
		letter(CALL_DELETE, lane, code, 0, 0);
	}
	if (form->reading >> lane & 1u)
		letter(CALL_START, lane, code, 0, 0);
}

static void pass_letters(uint32_t lane)
{
	for (uint32_t kind = 0; kind < form->kinds; kind++) {
		letter(CALL_PASS, lane, kind, 0, 0);
		if (form->around)
			letter((enum call_name)MANY_PASSES, lane, kind, 0, 0);
	}
}

static void lane_letters(uint32_t lane)
{
	for (uint32_t n = 0; n < form->codes; n++)
		code_letters(lane, codes[n]);
	if (form->absent && form->reading >> lane & 1u)
		letter(CALL_START, lane, wrong_code(codes[0]), 0, 0);
	if (form->reading >> lane & 1u) {
		letter(CALL_BEGIN, lane, 0, 0, 0);
		letter(CALL_STEP, lane, 0, 0, 0);
		letter(CALL_END, lane, 0, 0, 0);
	}
	pass_letters(lane);
	letter(CALL_CLOCK, lane, 0, 0, 0);
	letter(CALL_ON, lane, 0, 0, 0);
	letter(CALL_OFF, lane, 0, 0, 0);
	letter(CALL_HAND_BACK, lane, 0, 0, 0);
}

/* The set-up of a table of some sizes. */
static void setup_letter(struct sizes sizes)
{
	letter(CALL_SETUP, sizes.yards, sizes.cabinets, sizes.lanes, sizes.slots);
}

/* Calls that are refused in every state. */
static void refused_letters(void)
{
	struct sizes no_yard = form->sizes, more_yards = form->sizes, more_slots = form->sizes;

	no_yard.yards = 0;
	more_yards.yards++; /* there are no words for it, nor for another slot */
	more_slots.slots++;
	setup_letter(no_yard);
	setup_letter(more_yards);
	setup_letter(more_slots);
	letter(CALL_ADD, 0, PT_MAX_CODE + 1, 1, 1);
	for (uint32_t n = 0; n < form->codes; n++) { /* wrong check digits; delete takes them, and finds no record */
		letter(CALL_ADD, 0, wrong_code(codes[n]), 1, 1);
		letter(CALL_REPLACE, 0, wrong_code(codes[n]), 2, 2);
		letter(CALL_DELETE, 0, wrong_code(codes[n]), 0, 0);
	}
	letter(CALL_PASS, 0, KINDS, 0, 0);
	for (int name = CALL_ADD; name < CALL_AWAITED; name++)
		letter((enum call_name)name, lanes, 0, 0, 0);
}

void make_alphabet(const struct table_form *of)
{
	form = of;
	lanes = sizes_lanes(form->sizes);
	for (uint32_t n = 0; n < CODES; n++)
		codes[n] = (uint32_t)CODE_OF_CHAIN(0, n);
	letters = 0;
	setup_letter(form->sizes);
	letter(CALL_AWAITED, 0, 0, 0, 0);
	for (uint32_t lane = 0; lane < lanes; lane++)
		lane_letters(lane);
	if (lanes * form->sizes.slots <= 2)
		refused_letters();
}

void print_letter(const struct call *call)
{
	char text[LINE_TEXT];

	if (call->name == (enum call_name)MANY_PASSES) {
		fprintf(stderr, "  many passes of lane %" PRIu64 "\n", call->argument[0]);
		return;
	}
	line_text(call, text);
	fprintf(stderr, "  %s\n", text);
}
