/*
 * reference.c - the fourteen calls on a table of structs. Each call reads the memory,
 * tests its causes in their order, does its work on the structs and writes them back,
 * so that a refusal changes no word.
 */
#include "reference.h"

#include <string.h>

#include "table.h"

static const struct queue EMPTY = { .first = PT_NONE, .last = PT_NONE, .length = 0 };

static bool queue_empty(struct queue queue)
{
	return queue.first == PT_NONE;
}

/* Moves all slots of a queue to the end of another, in their order; its length becomes the sum. */
static void queue_join(struct table *t, struct queue *to, struct queue *from)
{
	if (queue_empty(*from))
		return;
	if (queue_empty(*to))
		to->first = from->first;
	else
		t->slot[to->last].queue_link = from->first;
	to->last = from->last;
	to->length += from->length;
	*from = EMPTY;
}

/* Appends a slot that stands in no queue. */
static void queue_append(struct table *t, struct queue *queue, uint32_t slot)
{
	struct queue one = { .first = slot, .last = slot, .length = 1 };

	t->slot[slot].queue_link = PT_NONE;
	queue_join(t, queue, &one);
}

/* Takes the first slot out of a queue that is not empty. */
static uint32_t queue_take(struct table *t, struct queue *queue)
{
	uint32_t slot = queue->first;

	queue->first = t->slot[slot].queue_link;
	if (queue_empty(*queue))
		queue->last = PT_NONE;
	queue->length--;
	t->slot[slot].queue_link = PT_NONE;
	return slot;
}

/* The slots of an owner's queues; none is walked. */
static uint32_t retired_length(const struct retired *retired)
{
	return retired->next.length + retired->current.length + retired->done.length;
}

/* The head or link that leads to the code's slot, or the none at the chain's end. */
static uint32_t *chain_place(struct table *t, uint64_t code)
{
	uint32_t *link = &t->heads[code % CHAINS];

	while (*link != PT_NONE && t->slot[*link].code != code)
		link = &t->slot[*link].chain_link;
	return link;
}

bool ref_later(uint32_t a, uint32_t b)
{
	return generation_later(a, b);
}

static bool period_running(const struct table *t)
{
	return t->pending_yards != 0;
}

/* Sets the bit of a lane, of its cabinet and of its yard. */
static void set_bits(struct table *t, struct place at)
{
	t->pending_lanes[table_cabinet(t, at.yard, at.cabinet)] |= 1u << at.place;
	t->pending_cabinets[at.yard] |= 1u << at.cabinet;
	t->pending_yards |= 1u << at.yard;
}

/* Drops the bit of a lane; a cabinet's goes with its last lane's, a yard's with its last cabinet's. */
static void drop_bits(struct table *t, struct place at)
{
	uint32_t *lanes = &t->pending_lanes[table_cabinet(t, at.yard, at.cabinet)];

	*lanes &= ~(1u << at.place);
	if (*lanes != 0)
		return;
	t->pending_cabinets[at.yard] &= ~(1u << at.cabinet);
	if (t->pending_cabinets[at.yard] == 0)
		t->pending_yards &= ~(1u << at.yard);
}

/* Begin period: sets the bits of all online lanes, their cabinets and their yards. */
static void period_begin(struct table *t)
{
	uint32_t l = 0; /* counted up, yard by yard, cabinet by cabinet and place by place */

	for (uint32_t y = 0; y < t->sizes.yards; y++)
		for (uint32_t c = 0; c < t->sizes.cabinets; c++)
			for (uint32_t p = 0; p < t->sizes.lanes; p++, l++)
				if (t->lane[l].flags & FLAG_ONLINE)
					set_bits(t, (struct place){ y, c, p });
}

/* End period: the next generation, and its grace period if one is requested. */
static void period_end(struct table *t)
{
	t->current++;
	if (!generation_later(t->current, t->largest))
		period_begin(t);
}

/* Advances an owner's queues; returns how many slots it moved into the done queue. */
static uint32_t retired_advance(struct table *t, struct retired *retired)
{
	uint32_t moved = 0;
	bool running;

	if (!queue_empty(retired->current) && generation_later(t->current, retired->generation)) {
		moved = retired->current.length;
		queue_join(t, &retired->done, &retired->current);
		retired->generation = 0;
	}
	if (!queue_empty(retired->current) || queue_empty(retired->next))
		return moved;
	running = period_running(t);
	queue_join(t, &retired->current, &retired->next);
	retired->generation = t->current + (running ? 1u : 0u);
	if (generation_later(retired->generation, t->largest))
		t->largest = retired->generation;
	if (!running)
		period_begin(t);
	return moved;
}

/* Drops the lane's snapshot, and its bit there, and ends the grace period if none remain. */
static void lane_passed(struct table *t, uint32_t lane, struct place at)
{
	bool pending = place_pending(t, at);

	t->lane[lane].flags &= ~(uint32_t)FLAG_SNAPSHOT;
	memset(t->lane[lane].snapshot, 0, sizeof t->lane[lane].snapshot);
	drop_bits(t, at);
	if (pending && !period_running(t))
		period_end(t);
}

static bool counts_differ(const struct lane *lane)
{
	for (int kind = 0; kind < KINDS; kind++)
		if (lane->counts[kind] != lane->snapshot[kind])
			return true;
	return false;
}

static uint32_t lanes_online(const struct table *t)
{
	uint32_t online = 0;

	for (uint32_t l = 0; l < table_lanes(t); l++)
		online += t->lane[l].flags & FLAG_ONLINE ? 1u : 0u;
	return online;
}

static void lane_at_rest(struct lane *lane)
{
	memset(lane, 0, sizeof *lane);
	lane->retired = (struct retired){ .next = EMPTY, .current = EMPTY, .done = EMPTY };
	lane->position = PT_NONE;
}

/* A lookup that is over, answered or dropped: its flag is cleared, its words go to rest. */
static void lookup_at_rest(struct lane *lane)
{
	lane->flags &= ~(uint32_t)FLAG_LOOKUP;
	lane->code = 0;
	lane->position = PT_NONE;
}

static void slot_at_rest(struct slot *slot)
{
	memset(slot, 0, sizeof *slot);
	slot->chain_link = PT_NONE;
	slot->queue_link = PT_NONE;
}

/* Writes the five words of an answer and returns the status. */
static uint32_t reply(uint32_t *answer, uint32_t status,
		uint32_t first, uint32_t second, uint32_t third, uint32_t fourth)
{
	answer[0] = status;
	answer[1] = first;
	answer[2] = second;
	answer[3] = third;
	answer[4] = fourth;
	return status;
}

static uint32_t refuse(uint32_t *answer, uint32_t cause)
{
	return reply(answer, cause, 0, 0, 0, 0);
}

/* Writes the table back and answers status 0. */
static uint32_t finish(const struct table *t, uint32_t *memory, uint32_t *answer,
		uint32_t first, uint32_t second, uint32_t third)
{
	table_write(t, memory);
	return reply(answer, PT_OK, first, second, third, 0);
}

/* Reads the table for a call that names a lane: causes 3 and 4. */
static uint32_t open_lane(struct table *t, const uint32_t *memory, size_t words, uint32_t lane)
{
	if (!table_read_legal(t, memory, words))
		return PT_NOT_LEGAL;
	if (lane >= table_lanes(t))
		return PT_NO_LANE;
	return PT_OK;
}

/* Reads the table for a call of an online lane: causes 3, 4 and 5. */
static uint32_t open_online(struct table *t, const uint32_t *memory, size_t words, uint32_t lane)
{
	uint32_t cause = open_lane(t, memory, words, lane);

	if (cause == PT_OK && !(t->lane[lane].flags & FLAG_ONLINE))
		return PT_OFFLINE;
	return cause;
}

uint32_t ref_setup(uint32_t *memory, size_t words, uint32_t *answer, size_t answer_words,
		uint32_t yards, uint32_t cabinets, uint32_t lanes, uint32_t slots)
{
	struct table t = { .sizes = { yards, cabinets, lanes, slots } };
	uint32_t total;

	if (answer_words < PT_ANSWER_WORDS)
		return PT_SHORT_ANSWER;
	if (!sizes_in_range(t.sizes))
		return refuse(answer, PT_BAD_SIZE);
	total = layout_of(t.sizes).total;
	if (words < total)
		return refuse(answer, PT_SHORT_MEMORY);

	t.current = 1;
	t.largest = 0;
	for (int chain = 0; chain < CHAINS; chain++)
		t.heads[chain] = PT_NONE;
	t.free = EMPTY;
	t.global = (struct retired){ .next = EMPTY, .current = EMPTY, .done = EMPTY };
	for (uint32_t l = 0; l < table_lanes(&t); l++) {
		lane_at_rest(&t.lane[l]);
		t.lane[l].flags = FLAG_ONLINE;
	}
	for (uint32_t s = 0; s < slots; s++) {
		slot_at_rest(&t.slot[s]);
		queue_append(&t, &t.free, s);
	}
	return finish(&t, memory, answer, total, 0, 0);
}

static bool record_in_range(uint64_t code, uint32_t deposit, uint32_t material)
{
	return code <= PT_MAX_CODE && deposit <= PT_MAX_DEPOSIT && material <= PT_MAX_MATERIAL;
}

enum { FIRST_WEIGHT = 3, SECOND_WEIGHT = 1, TEN = 10 };

/*
 * From the right, leaving out the check digit, weights run 3, 1, 3 and so on; the check digit
 * brings the sum to a multiple of ten. Zeros on the left weigh nothing.
 */
static bool check_digit_right(uint64_t code)
{
	uint32_t check = (uint32_t)(code % TEN), sum = 0, place = 0;

	for (uint64_t rest = code / TEN; rest > 0; rest /= TEN)
		sum += (uint32_t)(rest % TEN) * (place++ % 2 == 0 ? FIRST_WEIGHT : SECOND_WEIGHT);
	return (sum + check) % TEN == 0;
}

/* Takes the first free slot for a record. */
static uint32_t take_free(struct table *t, uint64_t code, uint32_t deposit, uint32_t material)
{
	uint32_t slot = queue_take(t, &t->free);

	t->slot[slot].code = code;
	t->slot[slot].deposit = deposit;
	t->slot[slot].material = material;
	return slot;
}

uint32_t ref_add(uint32_t *memory, size_t words, uint32_t *answer, size_t answer_words,
		uint32_t lane, uint64_t code, uint32_t deposit, uint32_t material)
{
	struct table t;
	uint32_t cause, slot;

	if (answer_words < PT_ANSWER_WORDS)
		return PT_SHORT_ANSWER;
	cause = open_online(&t, memory, words, lane);
	if (cause != PT_OK)
		return refuse(answer, cause);
	if (!record_in_range(code, deposit, material))
		return refuse(answer, PT_OUT_OF_RANGE);
	if (!check_digit_right(code))
		return refuse(answer, PT_WRONG_DIGIT);
	if (*chain_place(&t, code) != PT_NONE)
		return refuse(answer, PT_CODE_PRESENT);
	if (queue_empty(t.free))
		return refuse(answer, PT_NO_FREE_SLOT);

	slot = take_free(&t, code, deposit, material);
	t.slot[slot].chain_link = t.heads[code % CHAINS];
	t.heads[code % CHAINS] = slot;
	return finish(&t, memory, answer, slot, 0, 0);
}

uint32_t ref_replace(uint32_t *memory, size_t words, uint32_t *answer, size_t answer_words,
		uint32_t lane, uint64_t code, uint32_t deposit, uint32_t material)
{
	struct table t;
	uint32_t cause, *place, old, slot;

	if (answer_words < PT_ANSWER_WORDS)
		return PT_SHORT_ANSWER;
	cause = open_online(&t, memory, words, lane);
	if (cause != PT_OK)
		return refuse(answer, cause);
	if (!record_in_range(code, deposit, material))
		return refuse(answer, PT_OUT_OF_RANGE);
	if (!check_digit_right(code))
		return refuse(answer, PT_WRONG_DIGIT);
	place = chain_place(&t, code);
	if (*place == PT_NONE)
		return refuse(answer, PT_CODE_MISSING);
	if (queue_empty(t.free))
		return refuse(answer, PT_NO_FREE_SLOT);

	old = *place;
	slot = take_free(&t, code, deposit, material);
	t.slot[slot].chain_link = t.slot[old].chain_link;
	*place = slot;
	queue_append(&t, &t.lane[lane].retired.next, old);
	return finish(&t, memory, answer, slot, old, 0);
}

uint32_t ref_delete(uint32_t *memory, size_t words, uint32_t *answer, size_t answer_words,
		uint32_t lane, uint64_t code)
{
	struct table t;
	uint32_t cause, *place, old;

	if (answer_words < PT_ANSWER_WORDS)
		return PT_SHORT_ANSWER;
	cause = open_online(&t, memory, words, lane);
	if (cause != PT_OK)
		return refuse(answer, cause);
	if (code > PT_MAX_CODE)
		return refuse(answer, PT_OUT_OF_RANGE);
	place = chain_place(&t, code);
	if (*place == PT_NONE)
		return refuse(answer, PT_CODE_MISSING);

	old = *place;
	*place = t.slot[old].chain_link;
	queue_append(&t, &t.lane[lane].retired.next, old);
	return finish(&t, memory, answer, old, 0, 0);
}

uint32_t ref_begin(uint32_t *memory, size_t words, uint32_t *answer, size_t answer_words,
		uint32_t lane)
{
	struct table t;
	uint32_t cause;

	if (answer_words < PT_ANSWER_WORDS)
		return PT_SHORT_ANSWER;
	cause = open_online(&t, memory, words, lane);
	if (cause != PT_OK)
		return refuse(answer, cause);
	if (t.lane[lane].flags & FLAG_READING)
		return refuse(answer, PT_IN_SECTION);

	t.lane[lane].flags |= FLAG_READING;
	return finish(&t, memory, answer, 0, 0, 0);
}

uint32_t ref_end(uint32_t *memory, size_t words, uint32_t *answer, size_t answer_words,
		uint32_t lane)
{
	struct table t;
	uint32_t cause;

	if (answer_words < PT_ANSWER_WORDS)
		return PT_SHORT_ANSWER;
	cause = open_online(&t, memory, words, lane);
	if (cause != PT_OK)
		return refuse(answer, cause);
	if (!(t.lane[lane].flags & FLAG_READING))
		return refuse(answer, PT_NO_SECTION);

	/* A lookup unfinished is dropped, and gives no answer. */
	t.lane[lane].flags &= ~(uint32_t)FLAG_READING;
	lookup_at_rest(&t.lane[lane]);
	return finish(&t, memory, answer, 0, 0, 0);
}

uint32_t ref_start(uint32_t *memory, size_t words, uint32_t *answer, size_t answer_words,
		uint32_t lane, uint64_t code)
{
	struct table t;
	uint32_t cause;

	if (answer_words < PT_ANSWER_WORDS)
		return PT_SHORT_ANSWER;
	cause = open_online(&t, memory, words, lane);
	if (cause != PT_OK)
		return refuse(answer, cause);
	if (!(t.lane[lane].flags & FLAG_READING))
		return refuse(answer, PT_NO_SECTION);
	if (t.lane[lane].flags & FLAG_LOOKUP)
		return refuse(answer, PT_IN_LOOKUP);
	if (code > PT_MAX_CODE)
		return refuse(answer, PT_OUT_OF_RANGE);

	t.lane[lane].flags |= FLAG_LOOKUP;
	t.lane[lane].code = code;
	t.lane[lane].position = t.heads[code % CHAINS];
	return finish(&t, memory, answer, 0, 0, 0);
}

/* The outcome of a step; moves the position unless it is found or absent. */
static uint32_t lookup_step(const struct table *t, struct lane *lane)
{
	if (lane->position == PT_NONE)
		return PT_ABSENT;
	if (t->slot[lane->position].code == lane->code)
		return PT_FOUND;
	lane->position = t->slot[lane->position].chain_link;
	return PT_GOING;
}

uint32_t ref_step(uint32_t *memory, size_t words, uint32_t *answer, size_t answer_words,
		uint32_t lane)
{
	struct table t;
	uint32_t cause, outcome, slot;

	if (answer_words < PT_ANSWER_WORDS)
		return PT_SHORT_ANSWER;
	cause = open_online(&t, memory, words, lane);
	if (cause != PT_OK)
		return refuse(answer, cause);
	if (!(t.lane[lane].flags & FLAG_LOOKUP))
		return refuse(answer, PT_NO_LOOKUP);

	outcome = lookup_step(&t, &t.lane[lane]);
	slot = t.lane[lane].position;
	if (outcome != PT_GOING)
		lookup_at_rest(&t.lane[lane]);
	table_write(&t, memory);
	if (outcome != PT_FOUND)
		return reply(answer, PT_OK, outcome, 0, 0, 0);
	return reply(answer, PT_OK, outcome, slot, t.slot[slot].deposit, t.slot[slot].material);
}

uint32_t ref_pass(uint32_t *memory, size_t words, uint32_t *answer, size_t answer_words,
		uint32_t lane, uint32_t kind)
{
	struct table t;
	uint32_t cause;

	if (answer_words < PT_ANSWER_WORDS)
		return PT_SHORT_ANSWER;
	cause = open_online(&t, memory, words, lane);
	if (cause != PT_OK)
		return refuse(answer, cause);
	if (t.lane[lane].flags & FLAG_READING)
		return refuse(answer, PT_IN_SECTION);
	if (kind >= KINDS)
		return refuse(answer, PT_OUT_OF_RANGE);

	t.lane[lane].counts[kind]++; /* of 64 bits: after the largest comes 0 */
	return finish(&t, memory, answer, 0, 0, 0);
}

uint32_t ref_clock(uint32_t *memory, size_t words, uint32_t *answer, size_t answer_words,
		uint32_t lane)
{
	struct table t;
	struct lane *own;
	struct place at;
	uint32_t cause, moved;

	if (answer_words < PT_ANSWER_WORDS)
		return PT_SHORT_ANSWER;
	cause = open_online(&t, memory, words, lane);
	if (cause != PT_OK)
		return refuse(answer, cause);

	own = &t.lane[lane];
	at = table_place(&t, lane);
	if (own->flags & FLAG_SNAPSHOT && counts_differ(own))
		lane_passed(&t, lane, at);
	moved = retired_advance(&t, &own->retired);
	moved += retired_advance(&t, &t.global);
	if (place_pending(&t, at) && !(own->flags & FLAG_SNAPSHOT)) {
		own->flags |= FLAG_SNAPSHOT;
		memcpy(own->snapshot, own->counts, sizeof own->snapshot);
	}
	table_write(&t, memory);
	return reply(answer, PT_OK, t.current, t.largest, period_running(&t) ? 1 : 0, moved);
}

uint32_t ref_on(uint32_t *memory, size_t words, uint32_t *answer, size_t answer_words,
		uint32_t lane)
{
	struct table t;
	uint32_t cause;

	if (answer_words < PT_ANSWER_WORDS)
		return PT_SHORT_ANSWER;
	cause = open_lane(&t, memory, words, lane);
	if (cause != PT_OK)
		return refuse(answer, cause);
	if (t.lane[lane].flags & FLAG_ONLINE)
		return refuse(answer, PT_ONLINE);

	/* An offline lane has empty queues and no bit already; its counts are kept. */
	t.lane[lane].flags |= FLAG_ONLINE;
	return finish(&t, memory, answer, 0, 0, 0);
}

uint32_t ref_off(uint32_t *memory, size_t words, uint32_t *answer, size_t answer_words,
		uint32_t lane)
{
	struct table t;
	struct retired *own;
	uint32_t cause;

	if (answer_words < PT_ANSWER_WORDS)
		return PT_SHORT_ANSWER;
	cause = open_online(&t, memory, words, lane);
	if (cause != PT_OK)
		return refuse(answer, cause);
	if (t.lane[lane].flags & FLAG_READING)
		return refuse(answer, PT_IN_SECTION);
	if (lanes_online(&t) == 1)
		return refuse(answer, PT_LAST_LANE);

	/* Offline first: a grace period that begins in this call leaves the lane out. */
	t.lane[lane].flags &= ~(uint32_t)FLAG_ONLINE;
	own = &t.lane[lane].retired;
	queue_join(&t, &t.global.next, &own->current);
	queue_join(&t, &t.global.next, &own->next);
	queue_join(&t, &t.global.done, &own->done);
	own->generation = 0;
	lane_passed(&t, lane, table_place(&t, lane));
	retired_advance(&t, &t.global); /* how many it moves is not answered */
	return finish(&t, memory, answer, 0, 0, 0);
}

uint32_t ref_hand_back(uint32_t *memory, size_t words, uint32_t *answer, size_t answer_words,
		uint32_t lane)
{
	struct table t;
	struct queue *done;
	uint32_t cause, slot;

	if (answer_words < PT_ANSWER_WORDS)
		return PT_SHORT_ANSWER;
	cause = open_online(&t, memory, words, lane);
	if (cause != PT_OK)
		return refuse(answer, cause);
	done = &t.lane[lane].retired.done;
	if (queue_empty(*done))
		done = &t.global.done;
	if (queue_empty(*done))
		return refuse(answer, PT_NOTHING_DONE);

	slot = queue_take(&t, done);
	slot_at_rest(&t.slot[slot]);
	queue_append(&t, &t.free, slot);
	return finish(&t, memory, answer, slot, 0, 0);
}

uint32_t ref_awaited(const uint32_t *memory, size_t words, uint32_t *answer, size_t answer_words)
{
	struct table t;
	uint32_t pending = 0, lowest = PT_NONE, retired;

	if (answer_words < PT_ANSWER_WORDS)
		return PT_SHORT_ANSWER;
	if (!table_read_legal(&t, memory, words))
		return refuse(answer, PT_NOT_LEGAL);

	retired = retired_length(&t.global);
	for (uint32_t l = 0; l < table_lanes(&t); l++) {
		retired += retired_length(&t.lane[l].retired);
		if (!table_pending(&t, l))
			continue;
		pending++;
		if (lowest == PT_NONE)
			lowest = l;
	}
	return reply(answer, PT_OK, pending, lowest, t.free.length, retired);
}
