/*
 * words.c - the records of a memory, field by field, with document 01's names.
 */
#include "words.h"

#include <inttypes.h>
#include <stdio.h>

#include "table.h"

/* A field of a record: where it begins, and what its words are. */
struct field {
	uint32_t first;
	const char *name;
	const char *const *parts; /* of its words; none: their number */
};

static const char *const line[] = { "first", "last", "length" };
static const char *const halves[] = { "low word", "high word" };
static const char *const kinds[] = {
	"kind 0 idle, low word", "kind 0 idle, high word",
	"kind 1 bottle dropped, low word", "kind 1 bottle dropped, high word",
	"kind 2 door open, low word", "kind 2 door open, high word",
	"kind 3 changed over, low word", "kind 3 changed over, high word",
};
static const char *const bodies[] = {
	"first word of the house", "length of the house", "first word of the cabinets",
	"length of the cabinets", "first word of the lanes", "length of the lanes",
	"first word of the slots", "length of the slots", "first word of the yards",
	"length of the yards",
};

/* Each list ends at the record's length. */
static const struct field contents[] = {
	{ CONTENTS_VERSION, "version", NULL },
	{ CONTENTS_CABINETS, "cabinets per yard", NULL },
	{ CONTENTS_LANES, "lanes per cabinet", NULL },
	{ CONTENTS_SLOTS, "slots", NULL },
	{ CONTENTS_BODIES, "bodies", bodies },
	{ CONTENTS_YARDS, "yards", NULL },
	{ CONTENTS_WORDS, NULL, NULL },
};

static const struct field house[] = {
	{ GLOBAL_CURRENT_GENERATION, "current generation", NULL },
	{ GLOBAL_LARGEST_GENERATION, "largest generation requested", NULL },
	{ GLOBAL_PENDING, "yard mask", NULL },
	{ GLOBAL_CHAINS, "chain head", NULL },
	{ GLOBAL_FREE, "free line", line },
	{ GLOBAL_NEXT, "next line", line },
	{ GLOBAL_CURRENT, "current line", line },
	{ GLOBAL_DONE, "done line", line },
	{ GLOBAL_GENERATION, "house generation", NULL },
	{ GLOBAL_WORDS, NULL, NULL },
};

static const struct field cabinet[] = {
	{ CABINET_PENDING, "lane mask", NULL },
	{ CABINET_WORDS, NULL, NULL },
};

static const struct field lane[] = {
	{ LANE_FLAGS, "flags", NULL },
	{ LANE_COUNTS, "pass count", kinds },
	{ LANE_SNAPSHOT, "snapshot count", kinds },
	{ LANE_GENERATION, "generation", NULL },
	{ LANE_NEXT, "next line", line },
	{ LANE_CURRENT, "current line", line },
	{ LANE_DONE, "done line", line },
	{ LANE_CODE, "lookup code", halves },
	{ LANE_POSITION, "lookup position", NULL },
	{ LANE_WORDS, NULL, NULL },
};

static const struct field slot[] = {
	{ SLOT_CODE, "code", halves },
	{ SLOT_DEPOSIT, "deposit", NULL },
	{ SLOT_MATERIAL, "material", NULL },
	{ SLOT_CHAIN_LINK, "chain link", NULL },
	{ SLOT_QUEUE_LINK, "line link", NULL },
	{ SLOT_WORDS, NULL, NULL },
};

static const struct field yard[] = {
	{ YARD_PENDING, "cabinet mask", NULL },
	{ YARD_WORDS, NULL, NULL },
};

/* The name of word @at of a record that is called @record. */
static void field_name(const struct field *field, const char *record, uint32_t at,
		char text[WORD_TEXT])
{
	uint32_t part;

	while (at >= field[1].first)
		field++;
	part = at - field->first;
	if (field->parts != NULL)
		snprintf(text, WORD_TEXT, "%s, %s, %s", record, field->name, field->parts[part]);
	else if (field[1].first - field->first > 1)
		snprintf(text, WORD_TEXT, "%s, %s %" PRIu32, record, field->name, part);
	else
		snprintf(text, WORD_TEXT, "%s, %s", record, field->name);
}

static const struct {
	const char *record;
	const struct field *fields;
	uint32_t words;
} records[BODIES] = {
	[BODY_GLOBAL] = { "house", house, GLOBAL_WORDS },
	[BODY_CABINETS] = { "cabinet", cabinet, CABINET_WORDS },
	[BODY_LANES] = { "lane", lane, LANE_WORDS },
	[BODY_SLOTS] = { "slot", slot, SLOT_WORDS },
	[BODY_YARDS] = { "yard", yard, YARD_WORDS },
};

/* The layout for any sizes; its total is 0 where they are out of range. */
static struct layout layout_for(struct sizes sizes)
{
	return sizes_in_range(sizes) ? layout_of(sizes) : (struct layout){ .total = 0 };
}

/* The body of an address from the contents' end on, below the total. */
static int body_of(const struct layout *layout, size_t address)
{
	int body = BODIES - 1;

	while (address < layout->first[body])
		body--;
	return body;
}

void word_name(struct sizes sizes, size_t address, char text[WORD_TEXT])
{
	struct layout layout = layout_for(sizes);
	char record[WORD_TEXT / 2] = "house";
	int body;

	if (address >= layout.total) {
		snprintf(text, WORD_TEXT, layout.total == 0 ? "word %zu" : "word %zu, past the total",
			address);
		return;
	}
	if (address < CONTENTS_WORDS) {
		field_name(contents, "contents", (uint32_t)address, text);
		return;
	}
	body = body_of(&layout, address);
	address -= layout.first[body];
	if (body != BODY_GLOBAL)
		snprintf(record, sizeof record, "%s %zu", records[body].record,
			address / records[body].words);
	field_name(records[body].fields, record, (uint32_t)(address % records[body].words), text);
}

size_t word_moved(struct sizes sizes, size_t address, struct sizes other)
{
	struct layout from = layout_for(sizes), to = layout_for(other);
	int body;

	if (address >= from.total)
		return to.total + (address - from.total);
	if (address < CONTENTS_WORDS)
		return address;
	body = body_of(&from, address);
	address -= from.first[body];
	return address < to.length[body] ? to.first[body] + address : SIZE_MAX;
}

void word_value(uint32_t value, char text[WORD_TEXT])
{
	if (value == PT_NONE)
		snprintf(text, WORD_TEXT, "none");
	else
		snprintf(text, WORD_TEXT, "%" PRIu32, value);
}
