/*
 * draw.c - numbers, words and calls, drawn.
 */
#include "draw.h"

#include "causes.h"
#include "codes.h"
#include "layout.h"

const struct list draw_lists[] = {
	{ { 1, 1, 1, 1 }, 2, 30000, 1 },
	{ { 1, 1, 2, 2 }, 3, 30000, 4294967295u },
	{ { 1, 1, 2, 3 }, 4, 30000, 4294967290u },
	{ { 1, 2, 1, 2 }, 3, 30000, 1 },
	{ { 1, 1, 4, 3 }, 3, 30000, 2147483647u },
	{ { 1, 2, 2, 5 }, 6, 30000, 2147483640u },
	{ { 1, 1, 3, 8 }, 9, 30000, 4294967290u },
	{ { 1, 2, 4, 16 }, 14, 30000, 1 },
	{ { 1, 3, 3, 12 }, 20, 30000, 4294967294u },
	{ { 1, 8, 1, 20 }, 12, 30000, 1 },
	{ { 1, 4, 4, 100 }, 60, 10000, 1 },
	{ { 1, 8, 8, 1024 }, 400, 2000, 4294967295u },
	{ { 2, 1, 1, 2 }, 3, 30000, 1 },
	{ { 2, 2, 2, 6 }, 6, 30000, 4294967290u },
	{ { 3, 1, 2, 5 }, 6, 30000, 2147483647u },
	{ { 2, 3, 1, 8 }, 9, 30000, 1 },
	{ { 8, 1, 1, 10 }, 8, 30000, 4294967295u },
	{ { 3, 2, 3, 16 }, 14, 10000, 1 },
	{ { 8, 8, 8, 1024 }, 400, 400, 1 },
};

const uint32_t draw_lists_count = sizeof draw_lists / sizeof draw_lists[0];
const uint32_t draw_lists_of_one_yard = 12; /* the first so many */

uint32_t draw_below(uint64_t *seed, uint32_t below)
{
	uint64_t mixed;

	*seed += UINT64_C(0x9e3779b97f4a7c15);
	mixed = (*seed ^ *seed >> 30) * UINT64_C(0xbf58476d1ce4e5b9);
	mixed = (mixed ^ mixed >> 27) * UINT64_C(0x94d049bb133111eb);
	return (uint32_t)((mixed >> 32) % below);
}

/* One in @often is drawn from the @beyond numbers after the last that is in range. */
static uint32_t in_range(uint64_t *seed, uint32_t count, uint32_t often, uint32_t beyond)
{
	return draw_below(seed, often) == 0 ? count + draw_below(seed, beyond) : draw_below(seed, count);
}

/* Right codes of lists: half of them share chain 0, the others a low word, so that they differ in the high one alone; half of these have fourteen digits. */
static uint64_t draw_right_code(uint64_t *seed, const struct list *list)
{
	static uint64_t codes[DRAW_CODES]; /* each is found once; 0 is not yet found, or itself */
	uint32_t n = draw_below(seed, list->codes);

	if (codes[n] == 0)
		codes[n] = n % 2 == 0 ? CODE_OF_CHAIN(0, n / 2) :
			n % 4 == 1 ? CODE_OF_LOW_WORD(5, n / 4) : CODE_NEAR_LIMIT(5, n / 4);
	return codes[n];
}

/* The codes of lists: one of sixty is past the range, one of ten has a wrong check digit. */
static uint64_t draw_code(uint64_t *seed, const struct list *list)
{
	uint64_t code = draw_right_code(seed, list);

	if (draw_below(seed, 60) == 0)
		return PT_MAX_CODE + 1 + draw_below(seed, 2);
	return draw_below(seed, 10) == 0 ? wrong_code(code) : code;
}

static uint64_t draw_argument(uint64_t *seed, const struct list *list, enum kind kind)
{
	switch (kind) {
	case KIND_YARDS: return draw_below(seed, 8) != 0 ? list->sizes.yards : draw_below(seed, 2) == 0 ? 0 : PT_MAX_YARDS + 1;
	case KIND_CABINETS: return list->sizes.cabinets;
	case KIND_LANES: return draw_below(seed, 3) == 0 ? list->sizes.lanes : PT_MAX_LANES + 1;
	case KIND_SLOTS: return list->sizes.slots;
	case KIND_LANE: return in_range(seed, sizes_lanes(list->sizes), 50, 3);
	case KIND_CODE: return draw_code(seed, list);
	case KIND_DEPOSIT: return in_range(seed, PT_MAX_DEPOSIT + 1, 60, 2);
	case KIND_MATERIAL: return in_range(seed, PT_MAX_MATERIAL + 1, 60, 2);
	case KIND_KIND: return in_range(seed, PT_MAX_KIND + 1, 60, 2);
	default: return 0;
	}
}

static enum call_name draw_name(uint64_t *seed)
{
	uint32_t sum = 0, at;
	int name = 0;

	for (int n = 0; n < CALLS; n++)
		sum += call_forms[n].weight;
	at = draw_below(seed, sum);
	while (at >= call_forms[name].weight)
		at -= call_forms[name++].weight;
	return (enum call_name)name;
}

struct call draw_arguments(uint64_t *seed, const struct list *list, enum call_name name)
{
	struct call call = { .name = name };

	for (uint32_t n = 0; n < call_arguments(name); n++)
		call.argument[n] = draw_argument(seed, list, call_forms[name].kind[n]);
	return call;
}

struct call draw_call(uint64_t *seed, const struct list *list)
{
	enum call_name name = draw_name(seed);

	return draw_arguments(seed, list, name);
}

/* ---- a lane that leaves */

/* Calls that are gathered. */
struct gathered {
	struct call *calls;
	uint32_t count;
};

static void gather(struct gathered *gathered, enum call_name name, uint32_t lane, uint64_t argument)
{
	gathered->calls[gathered->count++] = (struct call){ name, { lane, argument } };
}

/* A lane removes some records, as far as they are there, and makes a call. */
static void gather_removal(struct gathered *gathered, uint64_t *seed, const struct list *list, uint32_t lane,
		enum call_name then)
{
	enum { CODES = 3 };

	for (uint32_t n = 0; n < CODES; n++)
		gather(gathered, CALL_DELETE, lane, draw_right_code(seed, list));
	gather(gathered, then, lane, 0);
}

static void gather_pass(struct gathered *gathered, uint32_t lane, enum call_name then)
{
	gather(gathered, CALL_CLOCK, lane, 0);
	gather(gathered, CALL_PASS, lane, PT_IDLE);
	gather(gathered, then, lane, 0);
}

uint32_t draw_leaving(uint64_t *seed, const struct list *list, struct call calls[LEAVING_CALLS])
{
	uint32_t lanes = sizes_lanes(list->sizes), first = draw_below(seed, lanes);
	uint32_t last = (first + 1 + draw_below(seed, lanes - 1)) % lanes;
	struct gathered gathered = { calls, 0 };

	for (uint32_t l = 0; l < lanes; l++)
		gather(&gathered, CALL_END, l, 0);
	gather_removal(&gathered, seed, list, first, CALL_CLOCK);
	gather_removal(&gathered, seed, list, first, CALL_OFF);
	gather_removal(&gathered, seed, list, last, CALL_CLOCK);
	for (uint32_t round = 0; round < 2; round++) {
		for (uint32_t l = 0; l < lanes; l++)
			if (l != first && l != last)
				gather_pass(&gathered, l, CALL_CLOCK);
		gather_pass(&gathered, last, round == 1 && draw_below(seed, 2) == 0 ? CALL_OFF : CALL_CLOCK);
	}
	gather(&gathered, CALL_ON, first, 0);
	gather(&gathered, CALL_ON, last, 0);
	return gathered.count;
}

uint32_t draw_word(uint64_t *seed, const uint32_t *memory, size_t total, size_t at)
{
	static const uint32_t edges[] = {
		0, 1, 2, 3, 7, 8, 15, 16, 64, 65, 255, 256, PT_MAX_SLOTS - 1, PT_MAX_SLOTS,
		PT_MAX_SLOTS + 1, PT_MAX_DEPOSIT, PT_MAX_DEPOSIT + 1, (uint32_t)PT_MAX_CODE,
		(uint32_t)(PT_MAX_CODE + 1), (uint32_t)(PT_MAX_CODE >> 32),
		(uint32_t)(PT_MAX_CODE >> 32) + 1, 0x7fffffff, 0x80000000, PT_NONE - 1, PT_NONE
	};

	switch (draw_below(seed, 7)) {
	case 0: return memory[at] + 1;
	case 1: return memory[at] - 1;
	case 2: return memory[at] ^ 1u << draw_below(seed, 32);
	case 3: return edges[draw_below(seed, sizeof edges / sizeof edges[0])];
	case 4: return draw_below(seed, 16);
	case 5: return memory[draw_below(seed, (uint32_t)total)];
	default: return draw_below(seed, PT_NONE);
	}
}

/* ---- labels */

/* A code that takes so many digits at most; often the largest of them, or the next. */
static uint64_t draw_wide_code(uint64_t *seed)
{
	uint64_t limit = 1;

	for (uint32_t digits = draw_below(seed, 18); digits > 0; digits--)
		limit *= 10;
	if (draw_below(seed, 3) == 0)
		return limit - draw_below(seed, 2);
	return ((uint64_t)draw_below(seed, PT_NONE) << 32 | draw_below(seed, PT_NONE)) % limit;
}

/* One of the three lengths, or any. */
static uint32_t draw_bytes(uint64_t *seed)
{
	static const uint32_t lengths[] = { PT_LABEL_8, PT_LABEL_13, PT_LABEL_14 };
	uint32_t n = draw_below(seed, 5);

	return n < 3 ? lengths[n] : draw_below(seed, LABEL_MOST + 1);
}

struct step draw_label(uint64_t *seed)
{
	struct step step = { .kind = draw_below(seed, 2) == 0 ? STEP_READ : STEP_WRITE };

	step.number = draw_bytes(seed);
	if (step.kind == STEP_WRITE) {
		step.code = draw_wide_code(seed);
		return step;
	}
	for (uint32_t n = 0; n < step.number; n++)
		step.text[n] = (uint8_t)('0' + draw_below(seed, 10));
	if (step.number > 0 && draw_below(seed, 3) == 0) /* a byte that may be another */
		step.text[draw_below(seed, step.number)] = (uint8_t)draw_below(seed, 256);
	return step;
}

/* ---- steps */

static void ahead(struct drawer *drawer, enum step_kind kind, uint32_t number, uint32_t value)
{
	drawer->step[drawer->ahead++] = (struct step){ .kind = kind, .number = number, .value = value };
}

static void ahead_call(struct drawer *drawer, const struct call *call)
{
	drawer->step[drawer->ahead++] = (struct step){ .kind = STEP_CALL, .call = *call };
}

static void ahead_drawn(struct drawer *drawer, uint32_t count)
{
	while (count-- > 0) {
		struct call call = draw_call(&drawer->seed, drawer->list);

		ahead_call(drawer, &call);
	}
}

static void ahead_setup(struct drawer *drawer)
{
	struct call setup = call_setup(drawer->list->sizes);

	ahead_call(drawer, &setup);
}

void drawer_start(struct drawer *drawer, const struct list *list, uint64_t seed, bool calls_only)
{
	drawer->seed = seed;
	drawer->list = list;
	drawer->calls_only = calls_only;
	drawer->ahead = 0;
	drawer->taken = 0;
	ahead_setup(drawer);
	if (calls_only || list->generation == 1)
		return;
	ahead(drawer, STEP_POKE, CONTENTS_WORDS + GLOBAL_CURRENT_GENERATION, list->generation);
	ahead(drawer, STEP_POKE, CONTENTS_WORDS + GLOBAL_LARGEST_GENERATION, list->generation - 1u);
	for (uint32_t kind = 0; kind < KINDS; kind++) { /* lane 0's counts are about to carry, or to wrap */
		uint32_t at = layout_of(list->sizes).first[BODY_LANES] + LANE_COUNTS + COUNT_WORDS * kind;

		ahead(drawer, STEP_POKE, at + COUNT_LOW, PT_NONE - draw_below(&drawer->seed, 3));
		ahead(drawer, STEP_POKE, at + COUNT_HIGH, draw_below(&drawer->seed, 2) == 0 ? 0 : PT_NONE);
	}
}

/* A lane takes two steps and ends its section, with its lookup where that still runs, passes and hands back; perhaps it begins again. */
static void ahead_lane(struct drawer *drawer, uint32_t lane)
{
	uint32_t kind = draw_below(&drawer->seed, KINDS);

	ahead_call(drawer, &(struct call){ CALL_STEP, { lane } });
	ahead_call(drawer, &(struct call){ CALL_STEP, { lane } });
	ahead_call(drawer, &(struct call){ CALL_END, { lane } });
	ahead_call(drawer, &(struct call){ CALL_CLOCK, { lane } });
	ahead_call(drawer, &(struct call){ CALL_PASS, { lane, kind } });
	ahead_call(drawer, &(struct call){ CALL_CLOCK, { lane } });
	ahead_call(drawer, &(struct call){ CALL_HAND_BACK, { lane } });
	if (draw_below(&drawer->seed, 3) == 0)
		ahead_call(drawer, &(struct call){ CALL_BEGIN, { lane } });
}

/* Most lanes do so, so that grace periods end; some may stay in their sections. */
static void ahead_lanes(struct drawer *drawer)
{
	uint32_t staying = draw_below(&drawer->seed, 3);

	for (uint32_t l = 0; l < sizes_lanes(drawer->list->sizes); l++)
		if (staying == 0 || draw_below(&drawer->seed, 4) != 0)
			ahead_lane(drawer, l);
}

/* A lane leaves with slots that it removed. */
static void ahead_leaving(struct drawer *drawer)
{
	static struct call calls[LEAVING_CALLS];
	uint32_t count = draw_leaving(&drawer->seed, drawer->list, calls);

	for (uint32_t n = 0; n < count; n++)
		ahead_call(drawer, &calls[n]);
}

/*
 * A customer takes a bottle back: a lane's section ends with its lookup unfinished, after
 * some steps, and perhaps on a slot that another lane has just removed.
 */
static void ahead_taken_back(struct drawer *drawer, const uint32_t *memory, size_t words)
{
	enum { STEPS = 4 }; /* more than the chains of small tables have */
	static struct table table;
	uint64_t code = draw_code(&drawer->seed, drawer->list);
	uint32_t lanes = sizes_lanes(drawer->list->sizes);
	uint32_t lane = draw_below(&drawer->seed, lanes), other = draw_below(&drawer->seed, lanes), slot;

	if (!table_read_legal(&table, memory, words))
		return;
	ahead_call(drawer, &(struct call){ CALL_BEGIN, { lane } });
	ahead_call(drawer, &(struct call){ CALL_START, { lane, code } });
	slot = table.heads[code % CHAINS];
	for (uint32_t steps = draw_below(&drawer->seed, STEPS); steps > 0; steps--) {
		ahead_call(drawer, &(struct call){ CALL_STEP, { lane } });
		slot = slot != PT_NONE ? table.slot[slot].chain_link : PT_NONE;
	}
	if (slot != PT_NONE && draw_below(&drawer->seed, 2) == 0)
		ahead_call(drawer, draw_below(&drawer->seed, 2) == 0 ?
			&(struct call){ CALL_DELETE, { other, table.slot[slot].code } } :
			&(struct call){ CALL_REPLACE, { other, table.slot[slot].code, 3, 3 } });
	ahead_call(drawer, &(struct call){ CALL_END, { lane } });
	ahead_call(drawer, &(struct call){ CALL_STEP, { lane } });
}

/* The address of a word; one in four is a mask, of any of the three levels. */
static uint32_t draw_address(uint64_t *seed, struct sizes sizes)
{
	struct layout layout = layout_of(sizes);

	if (draw_below(seed, 4) != 0)
		return draw_below(seed, layout.total);
	switch (draw_below(seed, 3)) {
	case 0: return layout.first[BODY_GLOBAL] + GLOBAL_PENDING;
	case 1: return layout.first[BODY_YARDS] + draw_below(seed, layout.length[BODY_YARDS]);
	default: return layout.first[BODY_CABINETS] + draw_below(seed, layout.length[BODY_CABINETS]);
	}
}

static void ahead_damage(struct drawer *drawer, const uint32_t *memory, uint32_t total)
{
	for (uint32_t n = 1 + draw_below(&drawer->seed, 3); n > 0; n--) {
		uint32_t at = draw_address(&drawer->seed, drawer->list->sizes);

		ahead(drawer, STEP_POKE, at, draw_word(&drawer->seed, memory, total, at));
	}
	ahead_drawn(drawer, 1 + draw_below(&drawer->seed, 3));
	ahead(drawer, STEP_MEND, 0, 0);
}

/*
 * A record becomes an older one: its slot holds a wrong code of the same chain, as one that
 * was entered before check digits were asked for. The memory stays legal. Then come calls
 * with that code.
 */
static void ahead_older(struct drawer *drawer, const uint32_t *memory, size_t words)
{
	static struct table table;
	const struct list *list = drawer->list;
	uint64_t right = draw_right_code(&drawer->seed, list), wrong = wrong_code(right);
	uint32_t lane = draw_below(&drawer->seed, sizes_lanes(list->sizes)), slot, at;

	if (!table_read_legal(&table, memory, words) || slot_of(&table, wrong) != PT_NONE)
		return;
	slot = slot_of(&table, right);
	if (slot == PT_NONE)
		return;
	at = layout_of(table.sizes).first[BODY_SLOTS] + SLOT_WORDS * slot + SLOT_CODE;
	ahead(drawer, STEP_POKE, at + CODE_LOW, (uint32_t)wrong);
	ahead(drawer, STEP_POKE, at + CODE_HIGH, (uint32_t)(wrong >> 32));
	ahead_call(drawer, &(struct call){ CALL_ADD, { lane, wrong, 1, 1 } });
	ahead_call(drawer, &(struct call){ CALL_REPLACE, { lane, wrong, 2, 2 } });
	if (draw_below(&drawer->seed, 4) == 0)
		ahead_call(drawer, &(struct call){ CALL_DELETE, { lane, wrong } });
}

/* A call, or the table's set-up, with fewer words lent than belong to it. */
static void ahead_short(struct drawer *drawer, enum step_kind kind, uint32_t below, size_t whole)
{
	ahead(drawer, kind, draw_below(&drawer->seed, below), 0);
	if (draw_below(&drawer->seed, 4) == 0)
		ahead_setup(drawer);
	else
		ahead_drawn(drawer, 1);
	ahead(drawer, kind, (uint32_t)whole, 0);
}

enum { LIKELY_TRIES = 6, LIKELY_SLOTS = 100 };

/* Every other call is drawn until it is accepted, on a table that is not too large for that. */
static void ahead_likely(struct drawer *drawer, const uint32_t *memory, size_t words)
{
	struct call call = draw_call(&drawer->seed, drawer->list);
	bool likely = drawer->list->sizes.slots <= LIKELY_SLOTS && draw_below(&drawer->seed, 2) == 0;

	for (uint32_t n = 0; likely && n < LIKELY_TRIES && causes_of(memory, words, &call) != 0; n++)
		call = draw_call(&drawer->seed, drawer->list);
	ahead_call(drawer, &call);
}

struct step drawer_next(struct drawer *drawer, const uint32_t *memory, size_t words)
{
	const struct list *list = drawer->list;
	uint32_t total = layout_of(list->sizes).total, lanes = sizes_lanes(list->sizes);

	if (drawer->taken == drawer->ahead) {
		drawer->taken = drawer->ahead = 0;
		if (!drawer->calls_only && draw_below(&drawer->seed, 40) == 0)
			ahead_older(drawer, memory, words); /* first: it goes by the memory as it is */
		if (draw_below(&drawer->seed, 40) == 0)
			ahead_taken_back(drawer, memory, words);
		if (!drawer->calls_only && draw_below(&drawer->seed, 10) == 0)
			drawer->step[drawer->ahead++] = draw_label(&drawer->seed);
		if (draw_below(&drawer->seed, 20 + 10 * lanes) == 0)
			ahead_lanes(drawer);
		if (lanes > 1 && draw_below(&drawer->seed, 40 + 20 * lanes) == 0)
			ahead_leaving(drawer);
		if (!drawer->calls_only && draw_below(&drawer->seed, 12) == 0)
			ahead_damage(drawer, memory, total);
		if (!drawer->calls_only && draw_below(&drawer->seed, 100) == 0)
			ahead_short(drawer, STEP_LEND, total + 1, words);
		if (!drawer->calls_only && draw_below(&drawer->seed, 100) == 0)
			ahead_short(drawer, STEP_ANSWER, PT_ANSWER_WORDS + 1, PT_ANSWER_WORDS + 3);
		ahead_likely(drawer, memory, words);
	}
	return drawer->step[drawer->taken++];
}
