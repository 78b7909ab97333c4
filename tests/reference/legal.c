/*
 * legal.c - which memories are legal (document 01, "The memory"; document 02: lengths,
 * request 6, and yards, request 8): one function for each sentence. Any words of any length are safe to judge:
 * no link is followed before its range is known, and a walk ends at the first slot it
 * meets twice. A length bounds no walk: it is compared with what a walk has met.
 * A sentence that does not hold notes the words that show it.
 */
#include "reference.h"
#include "table.h"

/* ---- where a sentence is broken */

/* Where a word of a body stands: of any, of the global one, of a lane's record, of a slot's. */
static uint32_t body_word(const struct table *t, int body, uint32_t word)
{
	return layout_of(t->sizes).first[body] + word;
}

static uint32_t global_word(const struct table *t, uint32_t word)
{
	return body_word(t, BODY_GLOBAL, word);
}

static uint32_t lane_word(const struct table *t, uint32_t lane, uint32_t word)
{
	return body_word(t, BODY_LANES, LANE_WORDS * lane + word);
}

static uint32_t slot_word(const struct table *t, uint32_t slot, uint32_t word)
{
	return body_word(t, BODY_SLOTS, SLOT_WORDS * slot + word);
}

/* Where a mask stands: that of a yard's cabinets, of a cabinet's lanes, and the one that has a lane's bit. */
static uint32_t yard_word(const struct table *t, uint32_t yard)
{
	return body_word(t, BODY_YARDS, YARD_WORDS * yard + YARD_PENDING);
}

static uint32_t cabinet_word(const struct table *t, uint32_t cabinet)
{
	return body_word(t, BODY_CABINETS, CABINET_WORDS * cabinet + CABINET_PENDING);
}

static uint32_t mask_word(const struct table *t, uint32_t lane)
{
	struct place at = table_place(t, lane);

	return cabinet_word(t, table_cabinet(t, at.yard, at.cabinet));
}

static bool noted(const struct broken *broken, uint32_t word)
{
	for (size_t n = 0; n < broken->count; n++)
		if (broken->word[n] == word)
			return true;
	return false;
}

/* Notes the words that break a sentence, each once; returns false. */
static bool note(struct broken *broken, const uint32_t *words, size_t count)
{
	broken->count = 0;
	broken->settled = false;
	for (size_t n = 0; n < count; n++)
		if (!noted(broken, words[n]))
			broken->word[broken->count++] = words[n];
	return false;
}

#define COUNT(list) (sizeof(list) / sizeof((list)[0]))
#define WORDS(...) (const uint32_t[]){ __VA_ARGS__ }, COUNT(((const uint32_t[]){ __VA_ARGS__ }))
#define BREAKS(broken, ...) note(broken, WORDS(__VA_ARGS__))

/* The same where the other words settle what the first would have to hold. */
static bool note_settled(struct broken *broken, uint32_t right, const uint32_t *words, size_t count)
{
	note(broken, words, count);
	broken->settled = true;
	broken->right = right;
	return false;
}

#define IS_NOT(broken, right, ...) note_settled(broken, right, WORDS(__VA_ARGS__))

/* ---- the sentences */

/* The words that hold the sizes. */
#define SIZES CONTENTS_YARDS, CONTENTS_CABINETS, CONTENTS_LANES, CONTENTS_SLOTS

/* A body's first word or its length is not what the sizes make it. */
static bool body_differs(const uint32_t *memory, const struct layout *layout, uint32_t body, struct broken *broken)
{
	uint32_t first = CONTENTS_BODIES + 2 * body;

	if (memory[first] != layout->first[body])
		return IS_NOT(broken, layout->first[body], first, SIZES);
	return IS_NOT(broken, layout->length[body], first + 1, SIZES);
}

/* Contents agree with the sizes, and the total is not above the length. */
static bool contents_agree(const uint32_t *memory, size_t words, struct broken *broken)
{
	struct layout layout;

	if (words < CONTENTS_WORDS)
		return false; /* no word shows it */
	if (memory[CONTENTS_VERSION] != LAYOUT_VERSION)
		return IS_NOT(broken, LAYOUT_VERSION, CONTENTS_VERSION);
	if (!sizes_in_range(sizes_of(memory)))
		return BREAKS(broken, SIZES);
	layout = layout_of(sizes_of(memory));
	for (uint32_t body = 0; body < BODIES; body++)
		if (memory[CONTENTS_BODIES + 2 * body] != layout.first[body] ||
				memory[CONTENTS_BODIES + 2 * body + 1] != layout.length[body])
			return body_differs(memory, &layout, body, broken);
	return layout.total <= words || BREAKS(broken, SIZES);
}

/* Flags are in range. */
static bool flags_in_range(const struct table *t, struct broken *broken)
{
	for (uint32_t l = 0; l < table_lanes(t); l++)
		if (t->lane[l].flags >= FLAGS)
			return BREAKS(broken, lane_word(t, l, LANE_FLAGS));
	return true;
}

/* Masks are in range: that of the yards, those of each yard's cabinets, those of each cabinet's lanes. */
static bool masks_in_range(const struct table *t, struct broken *broken)
{
	if (t->pending_yards >> t->sizes.yards != 0)
		return BREAKS(broken, global_word(t, GLOBAL_PENDING));
	for (uint32_t y = 0; y < t->sizes.yards; y++)
		if (t->pending_cabinets[y] >> t->sizes.cabinets != 0)
			return BREAKS(broken, yard_word(t, y));
	for (uint32_t c = 0; c < sizes_cabinets(t->sizes); c++)
		if (t->pending_lanes[c] >> t->sizes.lanes != 0)
			return BREAKS(broken, cabinet_word(t, c));
	return true;
}

static bool link_in_range(const struct table *t, uint32_t link)
{
	return link == PT_NONE || link < t->sizes.slots;
}

/* What is asked of each queue. */
typedef bool queue_question(const struct table *t, struct queue queue, bool marked[]);

static bool of_retired(const struct table *t, const struct retired *retired,
		queue_question *holds, bool marked[])
{
	return holds(t, retired->next, marked) && holds(t, retired->current, marked) &&
		holds(t, retired->done, marked);
}

static bool of_each_queue(const struct table *t, queue_question *holds, bool marked[])
{
	if (!holds(t, t->free, marked) || !of_retired(t, &t->global, holds, marked))
		return false;
	for (uint32_t l = 0; l < table_lanes(t); l++)
		if (!of_retired(t, &t->lane[l].retired, holds, marked))
			return false;
	return true;
}

/* A queue, and where its words stand. */
struct found_queue {
	struct queue queue;
	uint32_t at;
};

enum { OWNED_QUEUES = 3 }; /* next, current and done, in this order */

/* Queue @n in the order of of_each_queue: the free one, the global ones, those of each lane. */
static struct found_queue queue_number(const struct table *t, uint32_t n)
{
	uint32_t owner = (n - 1) / OWNED_QUEUES, which = (n - 1) % OWNED_QUEUES, next;
	const struct retired *retired;

	if (n == 0)
		return (struct found_queue){ t->free, global_word(t, GLOBAL_FREE) };
	retired = owner == 0 ? &t->global : &t->lane[owner - 1].retired;
	next = owner == 0 ? global_word(t, GLOBAL_NEXT) : lane_word(t, owner - 1, LANE_NEXT);
	return (struct found_queue){
		which == 0 ? retired->next : which == 1 ? retired->current : retired->done, next + QUEUE_WORDS * which
	};
}

static uint32_t queue_count(const struct table *t)
{
	return 1 + OWNED_QUEUES * (1 + table_lanes(t));
}

/* The first queue of which the question does not hold; there is one. */
static struct found_queue failing_queue(const struct table *t, queue_question *holds)
{
	uint32_t n = 0;

	while (n < queue_count(t) - 1 && holds(t, queue_number(t, n).queue, NULL))
		n++;
	return queue_number(t, n);
}

static bool ends_in_range(const struct table *t, struct queue queue, bool marked[])
{
	(void)marked;
	return link_in_range(t, queue.first) && link_in_range(t, queue.last);
}

static bool note_ends(const struct table *t, struct broken *broken)
{
	struct found_queue found = failing_queue(t, ends_in_range);

	return BREAKS(broken, found.at + (link_in_range(t, found.queue.first) ? QUEUE_LAST : QUEUE_FIRST));
}

/* Links are in range: chain heads, ends of queues, links of slots, positions. */
static bool links_in_range(const struct table *t, struct broken *broken)
{
	for (uint32_t chain = 0; chain < CHAINS; chain++)
		if (!link_in_range(t, t->heads[chain]))
			return BREAKS(broken, global_word(t, GLOBAL_CHAINS + chain));
	if (!of_each_queue(t, ends_in_range, NULL))
		return note_ends(t, broken);
	for (uint32_t l = 0; l < table_lanes(t); l++)
		if (!link_in_range(t, t->lane[l].position))
			return BREAKS(broken, lane_word(t, l, LANE_POSITION));
	for (uint32_t s = 0; s < t->sizes.slots; s++) {
		if (!link_in_range(t, t->slot[s].chain_link))
			return BREAKS(broken, slot_word(t, s, SLOT_CHAIN_LINK));
		if (!link_in_range(t, t->slot[s].queue_link))
			return BREAKS(broken, slot_word(t, s, SLOT_QUEUE_LINK));
	}
	return true;
}

/* Notes the one of a slot's fields that is not in range. */
static bool note_field(const struct table *t, uint32_t slot, struct broken *broken)
{
	if (t->slot[slot].deposit > PT_MAX_DEPOSIT)
		return BREAKS(broken, slot_word(t, slot, SLOT_DEPOSIT));
	if (t->slot[slot].material > PT_MAX_MATERIAL)
		return BREAKS(broken, slot_word(t, slot, SLOT_MATERIAL));
	return BREAKS(broken, slot_word(t, slot, SLOT_CODE + CODE_LOW), slot_word(t, slot, SLOT_CODE + CODE_HIGH));
}

/* Fields are in range: those of every slot, and the code of every lookup. */
static bool fields_in_range(const struct table *t, struct broken *broken)
{
	for (uint32_t s = 0; s < t->sizes.slots; s++)
		if (t->slot[s].code > PT_MAX_CODE || t->slot[s].deposit > PT_MAX_DEPOSIT ||
				t->slot[s].material > PT_MAX_MATERIAL)
			return note_field(t, s, broken);
	for (uint32_t l = 0; l < table_lanes(t); l++)
		if (t->lane[l].code > PT_MAX_CODE)
			return BREAKS(broken, lane_word(t, l, LANE_CODE + CODE_LOW), lane_word(t, l, LANE_CODE + CODE_HIGH));
	return true;
}

static bool empty_ends(const struct table *t, struct queue queue, bool marked[])
{
	(void)t;
	(void)marked;
	return queue.first != PT_NONE || queue.last == PT_NONE;
}

/* The slot that a walk along a queue meets last. */
static uint32_t walked_last(const struct table *t, struct queue queue)
{
	uint32_t last = PT_NONE;

	for (uint32_t s = queue.first; s != PT_NONE; s = t->slot[s].queue_link)
		last = s;
	return last;
}

/* Notes that a queue's last is not what its slots make it. */
static bool note_last(const struct table *t, struct broken *broken, queue_question *holds)
{
	struct found_queue found = failing_queue(t, holds);

	return IS_NOT(broken, walked_last(t, found.queue), found.at + QUEUE_LAST, found.at + QUEUE_FIRST);
}

/* The ends of an empty queue are none, both. */
static bool ends_at_rest(const struct table *t, struct broken *broken)
{
	return of_each_queue(t, empty_ends, NULL) || note_last(t, broken, empty_ends);
}

/* Marks the slots of a chain; false if one was marked before. */
static bool mark_chain(const struct table *t, uint32_t head, bool marked[])
{
	for (uint32_t s = head; s != PT_NONE; s = t->slot[s].chain_link) {
		if (marked[s])
			return false;
		marked[s] = true;
	}
	return true;
}

/* Marks the slots of a queue; false if one was marked before. */
static bool mark_queue(const struct table *t, struct queue queue, bool marked[])
{
	for (uint32_t s = queue.first; s != PT_NONE; s = t->slot[s].queue_link) {
		if (marked[s])
			return false;
		marked[s] = true;
	}
	return true;
}

/* A word that leads to a slot, and the chain head or the first of a queue from which it was reached. */
struct lead {
	uint32_t by;
	uint32_t from;
};

/* Of each slot what led to it first, 0 where nothing did; and where a slot is met twice, what led to it then. */
struct leads {
	struct lead to[PT_MAX_SLOTS];
	struct lead before;
	struct lead again;
};

/* Follows chain links, or queue links, from the word @from on, which holds @first; false if a slot is met that was met before. */
static bool follow(const struct table *t, struct leads *leads, uint32_t from, uint32_t first, uint32_t link)
{
	struct lead lead = { from, from };

	for (uint32_t s = first; s != PT_NONE; s = link == SLOT_CHAIN_LINK ? t->slot[s].chain_link : t->slot[s].queue_link) {
		if (leads->to[s].by != 0) {
			leads->again = lead;
			leads->before = leads->to[s];
			return false;
		}
		leads->to[s] = lead;
		lead.by = slot_word(t, s, link);
	}
	return true;
}

/* Notes what leads to one slot twice; there is one that two words lead to. */
static bool note_twice(const struct table *t, struct broken *broken)
{
	struct leads leads = { .again = { 0, 0 } };
	bool once = true;

	for (uint32_t chain = 0; chain < CHAINS && once; chain++)
		once = follow(t, &leads, global_word(t, GLOBAL_CHAINS + chain), t->heads[chain], SLOT_CHAIN_LINK);
	for (uint32_t n = 0; n < queue_count(t) && once; n++) {
		struct found_queue found = queue_number(t, n);

		once = follow(t, &leads, found.at + QUEUE_FIRST, found.queue.first, SLOT_QUEUE_LINK);
	}
	broken->astray = true;
	return BREAKS(broken, leads.again.by, leads.before.by, leads.again.from, leads.before.from);
}

/* Notes a slot to which no word leads: its code, its links, and the head of its code's chain. */
static bool note_nowhere(const struct table *t, uint32_t slot, struct broken *broken)
{
	return BREAKS(broken, slot_word(t, slot, SLOT_CODE + CODE_LOW), slot_word(t, slot, SLOT_CODE + CODE_HIGH),
		slot_word(t, slot, SLOT_CHAIN_LINK), slot_word(t, slot, SLOT_QUEUE_LINK),
		global_word(t, GLOBAL_CHAINS + t->slot[slot].code % CHAINS));
}

/* Each slot stands in exactly one chain or queue. */
static bool each_slot_once(const struct table *t, struct broken *broken)
{
	bool marked[PT_MAX_SLOTS] = { false };

	for (int chain = 0; chain < CHAINS; chain++)
		if (!mark_chain(t, t->heads[chain], marked))
			return note_twice(t, broken);
	if (!of_each_queue(t, mark_queue, marked))
		return note_twice(t, broken);
	for (uint32_t s = 0; s < t->sizes.slots; s++)
		if (!marked[s])
			return note_nowhere(t, s, broken);
	return true;
}

static bool last_agrees(const struct table *t, struct queue queue, bool marked[])
{
	(void)marked;
	return walked_last(t, queue) == queue.last;
}

/* Queues agree with first and last. */
static bool lasts_agree(const struct table *t, struct broken *broken)
{
	return of_each_queue(t, last_agrees, NULL) || note_last(t, broken, last_agrees);
}

/* The number of slots that a walk along a queue meets. */
static uint32_t walked_length(const struct table *t, struct queue queue)
{
	uint32_t slots = 0;

	for (uint32_t s = queue.first; s != PT_NONE; s = t->slot[s].queue_link)
		slots++;
	return slots;
}

static bool length_agrees(const struct table *t, struct queue queue, bool marked[])
{
	uint32_t slots = walked_length(t, queue);

	(void)marked;
	return slots == queue.length;
}

static bool note_length(const struct table *t, struct broken *broken)
{
	struct found_queue found = failing_queue(t, length_agrees);

	return IS_NOT(broken, walked_length(t, found.queue), found.at + QUEUE_LENGTH, found.at + QUEUE_FIRST,
		found.at + QUEUE_LAST);
}

/* Lengths agree with the queues: each is the number of its queue's slots. */
static bool lengths_agree(const struct table *t, struct broken *broken)
{
	return of_each_queue(t, length_agrees, NULL) || note_length(t, broken);
}

/* Chained slots are on chain (code mod 64). */
static bool codes_on_chains(const struct table *t, struct broken *broken)
{
	for (uint32_t chain = 0; chain < CHAINS; chain++)
		for (uint32_t s = t->heads[chain]; s != PT_NONE; s = t->slot[s].chain_link)
			if (t->slot[s].code % CHAINS != chain)
				return BREAKS(broken, slot_word(t, s, SLOT_CODE + CODE_LOW),
					slot_word(t, s, SLOT_CODE + CODE_HIGH), global_word(t, GLOBAL_CHAINS + chain));
	return true;
}

/* The next slot of @slot's chain that holds its code, or none. */
static uint32_t code_again(const struct table *t, uint32_t slot)
{
	uint32_t s = t->slot[slot].chain_link;

	while (s != PT_NONE && t->slot[s].code != t->slot[slot].code)
		s = t->slot[s].chain_link;
	return s;
}

static bool note_codes(const struct table *t, uint32_t slot, uint32_t other, struct broken *broken)
{
	return BREAKS(broken, slot_word(t, slot, SLOT_CODE + CODE_LOW), slot_word(t, slot, SLOT_CODE + CODE_HIGH),
		slot_word(t, other, SLOT_CODE + CODE_LOW), slot_word(t, other, SLOT_CODE + CODE_HIGH));
}

/* No code twice. */
static bool no_code_twice(const struct table *t, struct broken *broken)
{
	for (uint32_t chain = 0; chain < CHAINS; chain++)
		for (uint32_t s = t->heads[chain]; s != PT_NONE; s = t->slot[s].chain_link)
			if (code_again(t, s) != PT_NONE)
				return note_codes(t, s, code_again(t, s), broken);
	return true;
}

/* Snapshot counts without a snapshot are 0. */
static bool snapshots_at_rest(const struct table *t, struct broken *broken)
{
	for (uint32_t l = 0; l < table_lanes(t); l++)
		for (uint32_t kind = 0; kind < KINDS; kind++)
			if (!(t->lane[l].flags & FLAG_SNAPSHOT) && t->lane[l].snapshot[kind] != 0)
				return BREAKS(broken, lane_word(t, l, LANE_SNAPSHOT + COUNT_WORDS * kind + COUNT_LOW),
					lane_word(t, l, LANE_SNAPSHOT + COUNT_WORDS * kind + COUNT_HIGH),
					lane_word(t, l, LANE_FLAGS));
	return true;
}

/* Without a lookup its code is 0 and its position none. */
static bool lookups_at_rest(const struct table *t, struct broken *broken)
{
	for (uint32_t l = 0; l < table_lanes(t); l++)
		if (!(t->lane[l].flags & FLAG_LOOKUP) &&
				(t->lane[l].code != 0 || t->lane[l].position != PT_NONE))
			return BREAKS(broken, lane_word(t, l, LANE_CODE + CODE_LOW), lane_word(t, l, LANE_CODE + CODE_HIGH),
				lane_word(t, l, LANE_POSITION), lane_word(t, l, LANE_FLAGS));
	return true;
}

static bool generation_at_rest(const struct retired *retired)
{
	return retired->current.first != PT_NONE || retired->generation == 0;
}

/* A generation is 0 while its current queue is empty. */
static bool generations_at_rest(const struct table *t, struct broken *broken)
{
	for (uint32_t l = 0; l < table_lanes(t); l++)
		if (!generation_at_rest(&t->lane[l].retired))
			return IS_NOT(broken, 0, lane_word(t, l, LANE_GENERATION), lane_word(t, l, LANE_CURRENT + QUEUE_FIRST));
	return generation_at_rest(&t->global) ||
		IS_NOT(broken, 0, global_word(t, GLOBAL_GENERATION), global_word(t, GLOBAL_CURRENT + QUEUE_FIRST));
}

/* A slot outside every queue, so a chained one, has queue link none. */
static bool queue_links_at_rest(const struct table *t, struct broken *broken)
{
	for (int chain = 0; chain < CHAINS; chain++)
		for (uint32_t s = t->heads[chain]; s != PT_NONE; s = t->slot[s].chain_link)
			if (t->slot[s].queue_link != PT_NONE)
				return IS_NOT(broken, PT_NONE, slot_word(t, s, SLOT_QUEUE_LINK));
	return true;
}

/* An offline lane has no section, no queues and no mask bit. */
static bool offline_at_rest(const struct table *t, struct broken *broken)
{
	for (uint32_t l = 0; l < table_lanes(t); l++) {
		const struct retired *retired = &t->lane[l].retired;

		if (t->lane[l].flags & FLAG_ONLINE)
			continue;
		if (t->lane[l].flags & FLAG_READING || table_pending(t, l))
			return BREAKS(broken, lane_word(t, l, LANE_FLAGS), mask_word(t, l));
		if (retired->next.first != PT_NONE || retired->current.first != PT_NONE ||
				retired->done.first != PT_NONE)
			return BREAKS(broken, lane_word(t, l, LANE_FLAGS), lane_word(t, l, LANE_NEXT + QUEUE_FIRST),
				lane_word(t, l, LANE_CURRENT + QUEUE_FIRST), lane_word(t, l, LANE_DONE + QUEUE_FIRST));
	}
	return true;
}

/* A lookup runs only in an open section. */
static bool lookups_in_sections(const struct table *t, struct broken *broken)
{
	for (uint32_t l = 0; l < table_lanes(t); l++)
		if (t->lane[l].flags & FLAG_LOOKUP && !(t->lane[l].flags & FLAG_READING))
			return BREAKS(broken, lane_word(t, l, LANE_FLAGS));
	return true;
}

/* A snapshot is held only with the mask bit set. */
static bool snapshots_pending(const struct table *t, struct broken *broken)
{
	for (uint32_t l = 0; l < table_lanes(t); l++)
		if (t->lane[l].flags & FLAG_SNAPSHOT && !table_pending(t, l))
			return BREAKS(broken, lane_word(t, l, LANE_FLAGS), mask_word(t, l));
	return true;
}

/* A cabinet's bit is set exactly when its lane mask is not 0. */
static bool cabinets_agree(const struct table *t, struct broken *broken)
{
	for (uint32_t y = 0; y < t->sizes.yards; y++)
		for (uint32_t c = 0; c < t->sizes.cabinets; c++)
			if ((t->pending_cabinets[y] >> c & 1u) != (t->pending_lanes[table_cabinet(t, y, c)] != 0))
				return BREAKS(broken, yard_word(t, y), cabinet_word(t, table_cabinet(t, y, c)));
	return true;
}

/* A yard's bit is set exactly when its cabinet mask is not 0. */
static bool yards_agree(const struct table *t, struct broken *broken)
{
	for (uint32_t y = 0; y < t->sizes.yards; y++)
		if ((t->pending_yards >> y & 1u) != (t->pending_cabinets[y] != 0))
			return BREAKS(broken, global_word(t, GLOBAL_PENDING), yard_word(t, y));
	return true;
}

/* Free slots hold code, deposit and material 0 and chain link none. */
static bool free_slots_clear(const struct table *t, struct broken *broken)
{
	for (uint32_t s = t->free.first; s != PT_NONE; s = t->slot[s].queue_link)
		if (t->slot[s].code != 0 || t->slot[s].deposit != 0 ||
				t->slot[s].material != 0 || t->slot[s].chain_link != PT_NONE)
			return BREAKS(broken, slot_word(t, s, SLOT_CODE + CODE_LOW), slot_word(t, s, SLOT_CODE + CODE_HIGH),
				slot_word(t, s, SLOT_DEPOSIT), slot_word(t, s, SLOT_MATERIAL),
				slot_word(t, s, SLOT_CHAIN_LINK));
	return true;
}

/* The words of the generations, of which a grace period's masks decide. */
#define GENERATIONS(t) \
	global_word(t, GLOBAL_LARGEST_GENERATION), global_word(t, GLOBAL_CURRENT_GENERATION), global_word(t, GLOBAL_PENDING)

/*
 * With the yard mask 0, the largest requested is the current less 1; otherwise
 * it is the current or one more.
 */
static bool largest_agrees(const struct table *t, struct broken *broken)
{
	if (t->pending_yards == 0)
		return t->largest == t->current - 1u || IS_NOT(broken, t->current - 1u, GENERATIONS(t));
	return t->largest == t->current || t->largest == t->current + 1u || BREAKS(broken, GENERATIONS(t));
}

/* Notes the generation of a lane's current queue. */
static bool note_generation(const struct table *t, uint32_t lane, struct broken *broken)
{
	return BREAKS(broken, lane_word(t, lane, LANE_GENERATION), GENERATIONS(t), mask_word(t, lane));
}

/*
 * A lane's current queue has a generation one before, at, or one after the current,
 * not later than the largest requested, and one before under a running grace period
 * only with its bit set.
 */
static bool lane_generations_agree(const struct table *t, struct broken *broken)
{
	for (uint32_t l = 0; l < table_lanes(t); l++) {
		uint32_t generation = t->lane[l].retired.generation;
		bool before = generation == t->current - 1u;

		if (t->lane[l].retired.current.first == PT_NONE)
			continue;
		if (!before && generation != t->current && generation != t->current + 1u)
			return note_generation(t, l, broken);
		if (generation_later(generation, t->largest))
			return note_generation(t, l, broken);
		if (before && t->pending_yards != 0 && !table_pending(t, l))
			return note_generation(t, l, broken);
	}
	return true;
}

/* The global one is at or one after, again not later than the largest requested. */
static bool global_generation_agrees(const struct table *t, struct broken *broken)
{
	uint32_t generation = t->global.generation;

	if (t->global.current.first == PT_NONE)
		return true;
	if ((generation == t->current || generation == t->current + 1u) && !generation_later(generation, t->largest))
		return true;
	return BREAKS(broken, global_word(t, GLOBAL_GENERATION), GENERATIONS(t));
}

/* After the contents. The walks come after the tests that make them safe. */
static bool (*const sentences[LEGAL_SENTENCES])(const struct table *table, struct broken *broken) = {
	[LEGAL_FLAGS] = flags_in_range,
	[LEGAL_MASKS] = masks_in_range,
	[LEGAL_LINKS] = links_in_range,
	[LEGAL_FIELDS] = fields_in_range,
	[LEGAL_EMPTY_ENDS] = ends_at_rest,
	[LEGAL_ONCE] = each_slot_once,
	[LEGAL_LASTS] = lasts_agree,
	[LEGAL_LENGTHS] = lengths_agree,
	[LEGAL_CHAINS] = codes_on_chains,
	[LEGAL_TWICE] = no_code_twice,
	[LEGAL_SNAPSHOTS_REST] = snapshots_at_rest,
	[LEGAL_LOOKUPS_REST] = lookups_at_rest,
	[LEGAL_GENERATIONS_REST] = generations_at_rest,
	[LEGAL_LINKS_REST] = queue_links_at_rest,
	[LEGAL_OFFLINE] = offline_at_rest,
	[LEGAL_LOOKUP_IN_SECTION] = lookups_in_sections,
	[LEGAL_SNAPSHOT_PENDING] = snapshots_pending,
	[LEGAL_CABINET_BITS] = cabinets_agree,
	[LEGAL_YARD_BITS] = yards_agree,
	[LEGAL_FREE_SLOTS] = free_slots_clear,
	[LEGAL_LARGEST] = largest_agrees,
	[LEGAL_LANE_GENERATION] = lane_generations_agree,
	[LEGAL_GLOBAL_GENERATION] = global_generation_agrees,
};

/* Sentences that follow links: they are judged where links are in range and lead to no slot twice. */
static const bool follows[LEGAL_SENTENCES] = {
	[LEGAL_ONCE] = true,
	[LEGAL_LASTS] = true,
	[LEGAL_LENGTHS] = true,
	[LEGAL_CHAINS] = true,
	[LEGAL_TWICE] = true,
	[LEGAL_LINKS_REST] = true,
	[LEGAL_FREE_SLOTS] = true,
};

/* Reads the memory and returns the first sentence that it breaks. */
static enum legal_sentence read_broken(struct table *table, const uint32_t *memory, size_t words)
{
	struct broken broken;
	int sentence = LEGAL_FLAGS;

	if (!contents_agree(memory, words, &broken))
		return LEGAL_CONTENTS;
	table_read(table, memory);
	while (sentence < LEGAL_SENTENCES && sentences[sentence](table, &broken))
		sentence++;
	return (enum legal_sentence)sentence;
}

bool table_read_legal(struct table *table, const uint32_t *memory, size_t words)
{
	return read_broken(table, memory, words) == LEGAL_SENTENCES;
}

enum legal_sentence ref_broken(const uint32_t *memory, size_t words)
{
	struct table table;

	return read_broken(&table, memory, words);
}

/* Judges the sentences after the contents; after a link that leads astray none that follows links. */
static size_t judge_sentences(const struct table *table, struct broken *broken)
{
	size_t count = 0;
	bool astray = false;

	for (int sentence = LEGAL_FLAGS; sentence < LEGAL_SENTENCES; sentence++) {
		struct broken *next = &broken[count];

		*next = (struct broken){ .sentence = (enum legal_sentence)sentence };
		if (astray && follows[sentence])
			next->unjudged = true;
		else if (sentences[sentence](table, next))
			continue;
		next->astray = next->astray || sentence == LEGAL_LINKS;
		astray = astray || next->astray;
		count++;
	}
	return count;
}

size_t ref_all_broken(const uint32_t *memory, size_t words, struct broken broken[LEGAL_SENTENCES])
{
	struct table table;

	broken[0] = (struct broken){ .sentence = LEGAL_CONTENTS };
	if (!contents_agree(memory, words, &broken[0]))
		return 1;
	table_read(&table, memory);
	return judge_sentences(&table, broken);
}

bool ref_legal(const uint32_t *memory, size_t words)
{
	struct table table;

	return table_read_legal(&table, memory, words);
}
