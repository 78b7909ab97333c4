/*
 * trial.h - a trial of an engine: what its files share. A part is a row of lists; each list
 * is played in a process of its own (child.c), in which the engine may crash or hang, and
 * whose steps and tally lie in memory that outlives it.
 */
#ifndef TRIAL_H
#define TRIAL_H

#include <stdbool.h>
#include <stdint.h>

#include "progress.h"
#include "record.h"
#include "sentences.h"

/* ---- what is tried, and beside what: engine.c */

/* The engine's calls; NULL for a program that speaks the listing. Ends the run if there are none. */
const struct interface *engine_open(const char *path);

/* The judge, and its name. */
extern const struct interface judge;
extern const char judge_name[];

/* ---- one trial */

struct trial {
	const char *name;	/* of the engine */
	const char *program;	/* the command of a program that speaks the listing, or NULL */
	const char *folder;	/* for the lists of this trial; made when there is one */
	const char *scratch;	/* a folder of this trial alone, gone at its end */
	const char *listings;	/* tests/listing */
	const struct interface *engine;
	uint64_t seed;
	uint64_t calls; /* of the lists that are drawn; 0: by time */
	double seconds;
	bool first; /* the trial ends with the first difference */
	bool quiet; /* what the engine prints is kept from the report */
};

extern struct trial trial;

enum { ERRORS_TEXT = 640, SIZES_MOST = 64 };

/* What a process that plays a list leaves behind. */
struct shared {
	struct record record;
	struct tally tally;
	struct tally blamed;	/* of a list that is shrunk, by itself */
	uint64_t ticks;		/* goes on as long as calls return */
	struct steps wanted;	/* a list to play, while a difference is shrunk */
	bool by_ledger;		/* that list has no judge but the ledger */
	double limit;		/* seconds in which a program has to print something */
	bool unstarted;		/* the program's command cannot be started */
	char errors[ERRORS_TEXT]; /* the first lines on standard error, of the last list */
	struct sizes sizes[SIZES_MOST]; /* of the tables that were set up since this was emptied */
	uint32_t sizes_count;
};

extern struct shared *shared;

/* How a list ended. The process ends with that status, from EXIT_DONE on. */
enum end { END_DONE, END_DIFFERS, END_CRASHED, END_HANGS, ENDS };
enum { EXIT_DONE = 40 };

/* ---- the player, in the process of a list: player.c */

struct player {
	struct beside beside;
	struct record *record;
	struct tally *tally; /* NULL: nothing is counted */
	bool by_ledger;
};

extern struct player player;

/* Starts a list; @by_ledger: with the ledger of demand 3 for its judge, and no other. */
void player_start(bool by_ledger);

/* Takes a step, or a line of it. Does not return if the engine differs. */
void player_step(const struct step *step);
void player_line(const char *line);
void player_call(const struct call *call);

/* The end of a list; here a program that speaks the listing is run. */
void player_end(void);

/* Notes the sizes of a table that was set up. */
void player_sizes(const struct call *setup);

/* Plays a list that is given. */
void player_steps(const struct steps *steps, bool by_ledger);

/* ---- a program that speaks the listing: program.c */

/* Runs it on the calls of the record and compares; does not return if it differs. */
void program_play(struct player *player);

/* Runs it on the lines of a file, and compares with those of another; each line tries the sentence. */
void program_text(const char *name, enum sentence sentence);

/* ---- parts: parts.c */

struct part {
	const char *name;
	bool for_programs; /* that speak the listing */
	bool by_ledger;
	uint32_t (*lists)(void); /* how many; NULL: drawn, as many as there is time for */
	void (*play)(uint32_t n);
	double share; /* of the time or the calls that are given for what is drawn */
};

extern const struct part parts[];
extern const uint32_t part_count;

/* ---- processes: child.c */

/*
 * Runs @play in a process of its own, and says how it ended; @signal is what ended it. The
 * first lines that it printed on standard error are in shared.
 */
enum end child_run(void (*play)(void *context), void *context, double limit, int *signal);

#endif /* TRIAL_H */
