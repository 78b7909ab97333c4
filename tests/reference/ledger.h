/*
 * ledger.h - the ledger of demand 3 (documents 01 and 02), kept beside a list of calls.
 * It is fed each call with its answer, and the memory is asked apart. It finds fault when
 *   a lookup's answer is that of a whole search at no instant from the lookup's start
 *     to the one before the answering step;
 *   a section begins inside another, or one ends that is not open; a lookup starts outside
 *     a section, or while another of its lane runs; a lane takes a step whose lookup was
 *     answered, or dropped by the end of its section;
 *   a slot is handed back that is not out, or while a section that was open when it
 *     was removed has not ended;
 *   a found slot does not hold what was found while the finder's section is open;
 *   a lookup has no answer by step n + 1 of its lane, or a step is refused before it has
 *     one; n are the entries on the code's chain when the lookup starts (request 5);
 *   the slots in all done queues and the hand-backs so far are not as many as the fourth
 *     numbers of all clocks so far add up to, and the slots that offs moved from the
 *     global current queue into the global done queue (request 6).
 * What a found slot holds is asked of the memory, by ledger_kept(), and so are the slots in
 * done queues, by ledger_counted(). Nothing is asked of a lookup that was dropped. A call on
 * a memory that is damaged or lent short, or with an answer lent short, is none of the list
 * and is not fed. A ledger is a plain value with no pointers, no padding and 0 in its unused
 * parts: assign it to copy it, compare its bytes. Its capacity may be set where it is
 * compiled.
 */
#ifndef REFERENCE_LEDGER_H
#define REFERENCE_LEDGER_H

#include <stdbool.h>
#include <stdint.h>

#include "calls.h"

#ifndef LEDGER_LANES
#define LEDGER_LANES 512
#endif
#ifndef LEDGER_SLOTS
#define LEDGER_SLOTS 1024
#endif

/* A set of lanes or of slots: bit n % 64 of word n / 64 is number n. */
#define LEDGER_SET(numbers) (((numbers) + 63) / 64)

struct ledger_slot {
	uint64_t code; /* of its entry, kept while the slot is out */
	uint32_t deposit;
	uint32_t material;
	uint32_t entered; /* 1: the slot of an entry */
	uint32_t out;     /* 1: removed and not handed back */
	uint64_t sections[LEDGER_SET(LEDGER_LANES)]; /* of an out slot: lanes, whose sections of its removal are still open */
};

/* What a whole search gives where the code has no entry, among the slots. */
#define LEDGER_ABSENT LEDGER_SLOTS

struct ledger_lane {
	uint64_t code;	 /* of its lookup */
	uint64_t lookup; /* the steps that its lookup has left, the answering one too; 0: none is running */
	uint64_t search[LEDGER_SET(LEDGER_SLOTS + 1)]; /* slots that whole searches give at the lookup's instants so far */
	uint64_t find[LEDGER_SET(LEDGER_SLOTS)];       /* slots that were found in the open section */
};

struct ledger {
	struct ledger_slot slot[LEDGER_SLOTS];
	struct ledger_lane lane[LEDGER_LANES];
	uint64_t reading[LEDGER_SET(LEDGER_LANES)]; /* lanes with an open section */
	uint64_t done; /* slots that came to done queues, less those handed back */
};

/* The ledger at instant 0, the end of a set-up. */
void ledger_reset(struct ledger *ledger);

/*
 * Feeds a call and the five words of its answer. An accepted set-up begins another
 * list. Returns NULL, or the fault in words; the ledger is then of no more use.
 */
const char *ledger_feed(struct ledger *ledger, const struct call *call, const uint32_t *answer);

/*
 * Whether the call, which is fed next with this answer, is step n + 1 of its lookup and
 * answers it: the figure is attained.
 */
bool ledger_attains(const struct ledger *ledger, const struct call *call, const uint32_t *answer);

/* Whether the lane has an open section. */
bool ledger_reading(const struct ledger *ledger, uint32_t lane);

/* What a fault is of: demand 3, how long a lookup can take, or what comes to done queues. */
enum ledger_fault { FAULT_OF_DEMAND_3, FAULT_OF_FIGURE, FAULT_OF_COUNT };
enum ledger_fault ledger_fault_of(const char *fault);

/* Whether the memory's slots hold what was found in the sections open now, as above. */
const char *ledger_kept(const struct ledger *ledger, const uint32_t *memory);

/*
 * How many slots the call brought to done queues: a clock by its answer, an off by the
 * memory before and after it; all others none.
 */
uint32_t ledger_moved(const struct call *call, const uint32_t *answer, const uint32_t *before,
		const uint32_t *after);

/*
 * Adds them to the ledger, to which the call was fed, and takes the slot of a hand-back off.
 * Whether so many stand in done queues after the call, as above.
 */
const char *ledger_counted(struct ledger *ledger, const struct call *call, const uint32_t *answer,
		const uint32_t *before, const uint32_t *after);

/* All of it: feeds the call, and asks the memory before and after it. */
const char *ledger_judge(struct ledger *ledger, const struct call *call, const uint32_t *answer,
		const uint32_t *before, const uint32_t *after);

#endif /* REFERENCE_LEDGER_H */
