/*
 * draw.h - what looks random and is the same in every run: numbers, words that may fit
 * where others stood, and calls for a table of some sizes.
 */
#ifndef COMMON_DRAW_H
#define COMMON_DRAW_H

#include <stddef.h>
#include <stdint.h>

#include "calls.h"
#include "steps.h"

enum { DRAW_CODES = 400 };

/* A list: sizes of the table, codes in use (DRAW_CODES at most), calls, and the first generation. */
struct list {
	struct sizes sizes;
	uint32_t codes, calls, generation;
};

/* The sizes on which implementations are compared: first those of one yard, a dozen, which a listing can have. */
extern const struct list draw_lists[];
extern const uint32_t draw_lists_count, draw_lists_of_one_yard;

/* A number below @below, which is not 0. */
uint32_t draw_below(uint64_t *seed, uint32_t below);

/* A call on such a table; most are in range, and each argument is sometimes not. */
struct call draw_call(uint64_t *seed, const struct list *list);

/* The same with the call's name chosen. */
struct call draw_arguments(uint64_t *seed, const struct list *list, enum call_name name);

/*
 * A lane goes off with slots that it removed, which wait in the global queues then; the
 * others pass, and pass again, and the last one ends the grace period, by its clock with
 * slots that it removed itself or by going off as well. Returns how many calls that is. The
 * table has two lanes or more.
 */
enum { LEAVING_CALLS = 16 + 7 * PT_MAX_YARDS * PT_MAX_CABINETS * PT_MAX_LANES };
uint32_t draw_leaving(uint64_t *seed, const struct list *list, struct call calls[LEAVING_CALLS]);

/* A word for the address @at: near what stands there, about a range, another word's, or any. */
uint32_t draw_word(uint64_t *seed, const uint32_t *memory, size_t total, size_t at);

/* A step of a label function: texts and codes that are labels, nearly labels, or none. */
struct step draw_label(uint64_t *seed);

/* Where the drawing of a list's steps stands. */
enum { DRAWN_AHEAD = 9000 };
struct drawer {
	uint64_t seed;
	const struct list *list;
	bool calls_only; /* as for a listing: no word is poked, all is lent */
	uint32_t ahead, taken;
	struct step step[DRAWN_AHEAD]; /* drawn, of which so many are taken */
};

/* A list from its set-up on. */
void drawer_start(struct drawer *drawer, const struct list *list, uint64_t seed, bool calls_only);

/*
 * The next step, on the memory as it is: mostly a call; a call on a memory or an answer that
 * is too short; calls on a memory of which some words are changed, after which they are as
 * they were; a record that becomes an older one, with a wrong check digit; a label that is
 * read or written; a section that ends with its lookup unfinished; now and then all lanes end
 * their sections, pass and hand back, or a lane leaves with slots that it removed.
 */
struct step drawer_next(struct drawer *drawer, const uint32_t *memory, size_t words);

#endif /* COMMON_DRAW_H */
