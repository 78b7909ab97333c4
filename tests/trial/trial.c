/*
 * trial.c - says whether an engine conforms to documents 01 and 02, and where it first differs:
 * parts of lists, each list in a process of its own; a report by sentences; the first
 * difference, crash and hang, each shrunk to a short list. docs/TRIAL.md says how to read it.
 * Usage: trial [--seconds N] [--seed N] [--calls N] [--first yes] [--program COMMAND] [--replay FILE]
 *              --name NAME --folder FOLDER --scratch FOLDER --listings FOLDER [LIBRARY]
 * tests/trial/run has looked at the values.
 */
#define _GNU_SOURCE
#include "trial.h"

#include <inttypes.h>
#include <signal.h>
#include <stdio.h>
#include <stdlib.h>
#include <string.h>
#include <sys/mman.h>
#include <sys/stat.h>

#include "draw.h"
#include "progress.h"
#include "shrink.h"

enum { LISTS_SHRUNK = 3000, PROGRAMS_SHRUNK = 300 };

/* Seconds in which no call returned; the shorter ones once a hang was seen, and while it is shrunk. */
static const double HANGS_AFTER = 10, HANGS_AGAIN_AFTER = 2, HANGS_AFTER_SHRINKING = 1;
static const double SHRINKING_SECONDS = 60;

/* A part ends early when so many of its lists have ended so. */
static const uint32_t most[ENDS] = { [END_DIFFERS] = 25, [END_CRASHED] = 25, [END_HANGS] = 2 };

struct trial trial = { .seed = 1, .seconds = 20, .quiet = true };
struct shared *shared;

/* The first list that ended so, with what ended it; what the ledger finds stands apart. */
enum { FOUND_DIFFERENCE, FOUND_CRASH, FOUND_HANG, FOUND_LEDGER, FOUND };
static struct found {
	bool there;
	enum end end;
	const struct part *part;
	uint32_t list, calls;
	int signal;
	struct record record;
	struct tally blamed; /* the sentences that the list breaks */
	char errors[ERRORS_TEXT];
} found[FOUND];

static double begun;
static bool over_at_once;		 /* --first, and there is a first */
static bool short_of_sizes;		 /* a part did not come to all of its sizes */
static char first_errors[ERRORS_TEXT]; /* of the first list that had some on standard error, unless they were shown */
static bool errors_shown;

static const char *tried_name(void)
{
	return trial.program != NULL ? "the program" : "the engine";
}

static void could_not(const char *why, const char *errors)
{
	progress_clear();
	fprintf(stderr, "trial: could not be made: %s\n%s", why, errors);
	exit(2);
}

/* Runs a list; a command that cannot be started ends the trial. */
static enum end run_list(void (*play)(void *context), void *context, double limit, int *signal)
{
	enum end end = child_run(play, context, limit, signal);

	if (shared->unstarted)
		could_not("the command cannot be started", shared->errors);
	if (first_errors[0] == '\0')
		memcpy(first_errors, shared->errors, sizeof first_errors);
	return end;
}

static void say_progress(const struct part *part, uint32_t lists, uint32_t of)
{
	char of_text[24] = "";

	if (of != UINT32_MAX)
		snprintf(of_text, sizeof of_text, " of %" PRIu32, of);
	progress("%s: %" PRIu32 "%s lists, %" PRIu64 " calls, %.0f s", part->name, lists, of_text,
		shared->tally.calls, seconds_now() - begun);
}

/* ---- lists */

struct asked {
	const struct part *part;
	uint32_t list;
};

static void play_asked(void *context)
{
	const struct asked *asked = context;

	player.tally = &shared->tally;
	asked->part->play(asked->list);
}

/* The sentences that broke since @before was taken. */
static void blame_since(struct tally *blamed, const struct tally *before)
{
	for (int n = 0; n < SENTENCES; n++) {
		blamed->broken[n] = shared->tally.broken[n] - before->broken[n];
		blamed->doubted[n] = shared->tally.doubted[n] - before->doubted[n];
	}
}

/* Keeps the first list that ended so; returns it, or NULL if there was one before. */
static struct found *keep(const struct asked *asked, enum end end, int signal, const struct tally *before)
{
	struct found *first = &found[end == END_DIFFERS && shared->record.difference == DIFFERS_LEDGER ?
		FOUND_LEDGER : end - END_DIFFERS];

	if (end != END_DIFFERS && trial.program == NULL && shared->record.steps.count > 0) {
		shared->tally.tried[SENTENCE_CALLED]++; /* the process did not say so itself */
		shared->tally.broken[SENTENCE_CALLED]++;
	}
	if (first->there)
		return NULL;
	first->there = true;
	first->end = end;
	first->part = asked->part;
	first->list = asked->list;
	first->signal = signal;
	first->calls = steps_calls(&shared->record.steps);
	first->record = shared->record;
	memcpy(first->errors, shared->errors, sizeof first->errors);
	blame_since(&first->blamed, before);
	return first;
}

/* ---- shrinking */

/* The list that is wanted; what it tries and breaks goes to @context, a tally, or nowhere. */
static void play_wanted(void *context)
{
	player.tally = context;
	player_steps(&shared->wanted, shared->by_ledger);
}

static double shrinking_until;

/* How a list ends, played alone. */
static enum end end_of(const struct steps *steps, double limit, int *signal)
{
	shared->wanted = *steps;
	return run_list(play_wanted, NULL, limit, signal);
}

static bool ends_so(const struct steps *steps, void *context)
{
	const enum end *end = context;
	int signal;

	if (seconds_now() > shrinking_until)
		return false;
	return end_of(steps, *end == END_HANGS ? HANGS_AFTER_SHRINKING : HANGS_AFTER, &signal) == *end;
}

/*
 * The sentences that the list breaks which is wanted, also in the report's table; one that
 * the ledger judges is played beside the judge as well, which tells where it first differs.
 */
static void blame_wanted(struct found *first)
{
	int signal;

	memset(&shared->blamed, 0, sizeof shared->blamed);
	run_list(play_wanted, &shared->blamed, HANGS_AFTER, &signal);
	if (shared->by_ledger) {
		shared->by_ledger = false;
		run_list(play_wanted, &shared->blamed, HANGS_AFTER, &signal);
	}
	tally_blame(&shared->tally, &shared->blamed);
	first->blamed = shared->blamed;
}

/* Shortens a found list; false if it does not end so again. */
static bool shorten(struct found *first)
{
	static struct steps steps;
	uint32_t tests = trial.program != NULL || first->end == END_HANGS ? PROGRAMS_SHRUNK : LISTS_SHRUNK;

	steps = first->record.steps;
	shared->by_ledger = first->part->by_ledger;
	shrinking_until = seconds_now() + SHRINKING_SECONDS;
	if (steps.count == 0 || !ends_so(&steps, &first->end))
		return false;
	shrink(&steps, ends_so, &first->end, tests);
	if (end_of(&steps, HANGS_AFTER, &first->signal) != first->end)
		return false;
	first->record = shared->record;
	memcpy(first->errors, shared->errors, sizeof first->errors);
	if (first->end == END_DIFFERS)
		blame_wanted(first);
	return true;
}

/* ---- what is found */

static const char *const found_names[FOUND] = { "difference", "crash", "hang", "fault that the ledger finds" };
static const char *const found_files[FOUND] = { "difference", "crash", "hang", "fault" };

/* How the engine ended, and what the judge answers. */
static void say_end(const struct record *record, enum end end, int signal)
{
	static struct beside beside;

	if (end == END_DIFFERS)
		return;
	if (end == END_CRASHED && signal != 0)
		printf("  the engine was ended by signal %d (%s)%s\n", signal, strsignal(signal),
			signal == SIGSEGV || signal == SIGBUS ? ": it may have touched a word that is not lent" : "");
	else if (end == END_CRASHED)
		printf("  the engine ended the process\n");
	else
		printf("  %s\n", trial.program != NULL ? "the program does not end, and printed nothing more for ten seconds" :
			"no call returned for ten seconds");
	beside_steps(&beside, NULL, &judge, &record->steps);
	print_answer(judge_name, beside.expected_answer, (uint32_t)beside.expected.answer_words,
		beside.expected.status, stdout);
}

/* Writes the list to a file, and says how to replay it. */
static void save(const struct record *record, const char *name)
{
	char path[400];
	FILE *file;

	mkdir(trial.folder, 0777); /* it may be there */
	snprintf(path, sizeof path, "%s/first-%s", trial.folder, name);
	file = fopen(path, "w");
	if (file == NULL) {
		perror(path);
		exit(2);
	}
	record_list(record, file);
	fclose(file);
	printf("  to replay it:  ./build trial --replay %s %s%s%s\n", path,
		trial.program != NULL ? "--listing '" : "", trial.name, trial.program != NULL ? "'" : "");
	if (steps_are_calls(&record->steps))
		printf("  by the proved program:  ./listing %s\n", path);
}

static void print_errors(const char *errors)
{
	const char *line = errors;

	errors_shown |= line[0] != '\0';
	for (size_t length; *line != '\0'; line += length + (line[length] == '\n')) {
		length = strcspn(line, "\n");
		printf("      | %.*s\n", (int)length, line);
	}
}

/* The list, step by step, and how it ended. */
static void print_list(const struct found *first, bool again)
{
	if (again)
		printf(", shrunk from %" PRIu32 " calls to %" PRIu32 "\n", first->calls,
			steps_calls(&first->record.steps));
	else
		printf(", %" PRIu32 " calls; played alone the list does not show it again\n", first->calls);
	record_print(&first->record, tried_name(), judge_name, stdout);
	say_end(&first->record, first->end, first->signal);
}

/* Shrinks and prints it, when it is found. */
static void print_found(struct found *first)
{
	int which = (int)(first - found);
	bool again;

	progress_clear();
	progress("the first %s is shrunk", found_names[which]);
	again = shorten(first);
	progress_clear();
	printf("\nThe first %s, in: %s, list %" PRIu32, found_names[which], first->part->name, first->list);
	if (first->record.steps.count == 0)
		printf("\n  %s\n", first->record.fault);
	else
		print_list(first, again);
	print_blamed(&first->blamed);
	if (first->errors[0] != '\0')
		printf("  %s's standard error begins\n", tried_name());
	print_errors(first->errors);
	if (first->record.steps.count > 0)
		save(&first->record, found_files[which]);
	printf("\n");
	fflush(stdout);
}

/* ---- parts */

/* How many of the sizes on which lists are drawn were set up, and how many there are. */
static uint32_t sizes_drawn(void)
{
	uint32_t drawn = 0;

	for (uint32_t n = 0; n < shared->sizes_count; n++)
		for (uint32_t m = 0; m < draw_lists_count; m++)
			drawn += memcmp(&draw_lists[m].sizes, &shared->sizes[n], sizeof shared->sizes[n]) == 0 ? 1u : 0u;
	return drawn;
}

static uint32_t sizes_to_draw(void)
{
	return trial.program != NULL ? draw_lists_of_one_yard : draw_lists_count;
}

/* What a part came to. */
struct come {
	uint32_t lists; /* that it has */
	uint32_t ended[ENDS];
	uint64_t calls; /* that were made before it */
	double since;	/* less the time that shrinking took */
	bool cut;	/* too many of its lists did not end well */
};

/* Whether a part that is drawn has had its share. */
static bool over(const struct part *part, const struct come *come)
{
	if (trial.calls > 0)
		return (double)(shared->tally.calls - come->calls) >= part->share * (double)trial.calls;
	return seconds_now() - come->since >= part->share * trial.seconds;
}

/* Whether another list of the part is played: a drawn part has every size once, whatever its share. */
static bool goes_on(const struct part *part, const struct come *come, uint32_t list)
{
	if (come->cut || over_at_once || list >= come->lists)
		return false;
	return part->lists != NULL || !over(part, come) ||
		(list < sizes_to_draw() && sizes_drawn() < sizes_to_draw());
}

/* The sizes of a part's tables; of a drawn part also how many there are to be, where they are fewer. */
static void print_sizes(const struct part *part)
{
	char text[32] = "";

	if (part->lists == NULL && sizes_drawn() < sizes_to_draw())
		snprintf(text, sizeof text, "%" PRIu32 " of %" PRIu32, sizes_drawn(), sizes_to_draw());
	else if (shared->sizes_count > 0)
		snprintf(text, sizeof text, "%" PRIu32, part->lists == NULL ? sizes_drawn() : shared->sizes_count);
	printf(" %8s %-5s", text, text[0] == '\0' ? "" : strcmp(text, "1") == 0 ? "size" : "sizes");
}

/* The line of a part: how many lists and calls were made, on how many sizes, and how many lists did not end well. */
static void print_part(const struct part *part, const struct come *come)
{
	const uint32_t *ended = come->ended;
	uint32_t bad = ended[END_DIFFERS] + ended[END_CRASHED] + ended[END_HANGS];

	progress_clear();
	printf("  %-52s %6" PRIu32 " lists %9" PRIu64 " calls", part->name, ended[END_DONE] + bad,
		shared->tally.calls - come->calls);
	print_sizes(part);
	printf(" %6.1f s", seconds_now() - come->since);
	if (bad == 0)
		printf("  no difference\n");
	else
		printf("  %" PRIu32 " differ, %" PRIu32 " crash, %" PRIu32 " hang%s\n", ended[END_DIFFERS],
			ended[END_CRASHED], ended[END_HANGS], come->cut ? "; the part ends here" : "");
	fflush(stdout);
}

/* A list that did not end well; the first of its kind is shown at once. */
static void take_end(struct come *come, const struct asked *asked, enum end end, int signal, const struct tally *before)
{
	double found_at = seconds_now();
	struct found *first = keep(asked, end, signal, before);

	come->cut = come->ended[end] >= most[end];
	if (first == NULL)
		return;
	print_found(first);
	come->since += seconds_now() - found_at;
	over_at_once = trial.first;
}

static void run_part(const struct part *part)
{
	static struct tally before;
	struct come come = { .lists = part->lists != NULL ? part->lists() : UINT32_MAX,
		.calls = shared->tally.calls, .since = seconds_now() };

	shared->sizes_count = 0;
	for (uint32_t list = 0; goes_on(part, &come, list); list++) {
		struct asked asked = { part, list };
		double limit = found[FOUND_HANG].there ? HANGS_AGAIN_AFTER : HANGS_AFTER;
		int signal;
		enum end end;

		before = shared->tally;
		end = run_list(play_asked, &asked, limit, &signal);
		come.ended[end]++;
		if (end != END_DONE)
			take_end(&come, &asked, end, signal, &before);
		say_progress(part, list + 1, come.lists);
	}
	short_of_sizes |= part->lists == NULL && sizes_drawn() < sizes_to_draw();
	print_part(part, &come);
}

/* ---- the report */

static void print_calls(void)
{
	printf("\nCalls: accepted, and refused by cause; in brackets how often another cause applied as well\n");
	for (int name = 0; name < CALLS; name++) {
		printf("  %-8s %9" PRIu64 " ", call_forms[name].command, shared->tally.accepted[name]);
		for (const uint32_t *cause = call_forms[name].cause; *cause != PT_OK; cause++) {
			uint64_t before = 0;

			for (uint32_t other = 0; other <= LAST_CAUSE; other++)
				before += shared->tally.before[name][*cause][other];
			printf("  %" PRIu32 ": %" PRIu64 " (%" PRIu64 ")", *cause,
				shared->tally.refused[name][*cause], before);
		}
		printf("\n");
	}
	printf("  %-8s %9" PRIu64 "   18: %" PRIu64 "\n", "read", shared->tally.labels[0][PT_OK],
		shared->tally.labels[0][PT_WRONG_LABEL]);
	printf("  %-8s %9" PRIu64 "   11: %" PRIu64 "  18: %" PRIu64 "\n", "write", shared->tally.labels[1][PT_OK],
		shared->tally.labels[1][PT_OUT_OF_RANGE], shared->tally.labels[1][PT_WRONG_LABEL]);
	printf("  ");
	print_dropped(&shared->tally);
	printf("  ");
	print_placed(&shared->tally);
	printf("  ");
	print_attained(&shared->tally);
	printf("  ");
	print_moved(&shared->tally);
}

/* How many pairs of a call's causes were met at once, of those that do not exclude each other. */
static uint32_t pairs_met(void)
{
	uint32_t pairs = 0;

	for (int name = 0; name < CALLS; name++)
		for (uint32_t cause = 0; cause <= LAST_CAUSE; cause++)
			for (uint32_t other = 0; other <= LAST_CAUSE; other++)
				pairs += shared->tally.before[name][cause][other] > 0 ? 1u : 0u;
	return pairs;
}

static bool nothing_found(void)
{
	for (int which = 0; which < FOUND; which++)
		if (found[which].there)
			return false;
	return true;
}

static void print_tables(bool *conforms)
{
	print_calls();
	printf("  %" PRIu32 " pairs of a call and two of its causes that applied at once\n", pairs_met());
	printf("\nSentences of documents 01 and 02, as docs/TRACE.md has them\n");
	*conforms &= tally_print(&shared->tally);
}

/* The report; returns whether the engine conforms. With the first difference as an end there are no tables. */
static bool report(void)
{
	bool conforms = nothing_found();

	if (!over_at_once)
		print_tables(&conforms);
	if (first_errors[0] != '\0' && !errors_shown)
		printf("\n%s's standard error, of the first list that has some, begins\n", tried_name());
	if (!errors_shown)
		print_errors(first_errors);
	if (conforms && short_of_sizes)
		could_not("a part that is drawn did not come to all of its sizes", "");
	printf("\n%s, beside %s, seed %" PRIu64 ": %" PRIu64 " calls in %.1f s\n%s\n", trial.name, judge_name,
		trial.seed, shared->tally.calls, seconds_now() - begun, conforms ? "conforms" : "differs");
	return conforms;
}

/* ---- a list that is given */

static void read_list(const char *path)
{
	char line[STEP_TEXT];
	struct step step;
	FILE *file = fopen(path, "r");

	if (file == NULL) {
		perror(path);
		exit(2);
	}
	shared->wanted.count = 0;
	while (fgets(line, sizeof line, file) != NULL) {
		line[strcspn(line, "\n")] = '\0';
		if (!step_read(line, &step)) {
			fprintf(stderr, "trial: no step: %s\n", line);
			exit(2);
		}
		steps_add(&shared->wanted, &step);
	}
	fclose(file);
}

static bool replay(const char *path)
{
	enum end end;
	int signal;

	read_list(path);
	trial.quiet = false;
	end = run_list(play_wanted, NULL, HANGS_AFTER, &signal);
	record_print(&shared->record, tried_name(), judge_name, stdout);
	if (end != END_DONE)
		say_end(&shared->record, end, signal);
	puts(end == END_DONE ? "no difference" : "differs");
	return end == END_DONE;
}

/* ---- */

static void usage(void)
{
	fprintf(stderr, "usage: trial [--seconds N] [--seed N] [--calls N] [--first yes] [--program COMMAND] "
		"[--replay FILE] --name NAME --folder FOLDER --scratch FOLDER --listings FOLDER [LIBRARY]\n");
	exit(2);
}

/* Reads the options; the list to replay, or NULL. */
static const char *options(int arguments, char **argument, const char **library)
{
	const char *list = NULL;
	int n = 1;

	for (; n + 1 < arguments && strncmp(argument[n], "--", 2) == 0; n += 2) {
		const char *option = argument[n] + 2, *value = argument[n + 1];

		if (strcmp(option, "seconds") == 0)
			trial.seconds = strtod(value, NULL);
		else if (strcmp(option, "seed") == 0)
			trial.seed = strtoull(value, NULL, 10);
		else if (strcmp(option, "calls") == 0)
			trial.calls = strtoull(value, NULL, 10);
		else if (strcmp(option, "program") == 0)
			trial.program = value;
		else if (strcmp(option, "replay") == 0)
			list = value;
		else if (strcmp(option, "name") == 0)
			trial.name = value;
		else if (strcmp(option, "folder") == 0)
			trial.folder = value;
		else if (strcmp(option, "scratch") == 0)
			trial.scratch = value;
		else if (strcmp(option, "first") == 0)
			trial.first = true;
		else if (strcmp(option, "listings") == 0)
			trial.listings = value;
		else
			usage();
	}
	*library = n < arguments ? argument[n] : "";
	if (trial.name == NULL || trial.folder == NULL || trial.scratch == NULL || trial.listings == NULL || n + 1 < arguments)
		usage();
	return list;
}

int main(int arguments, char **argument)
{
	const char *library, *list = options(arguments, argument, &library);

	begun = seconds_now();
	shared = mmap(NULL, sizeof *shared, PROT_READ | PROT_WRITE, MAP_SHARED | MAP_ANONYMOUS, -1, 0);
	if (shared == MAP_FAILED) {
		perror("trial");
		return 2;
	}
	if (trial.program == NULL)
		trial.engine = engine_open(library);
	if (list != NULL)
		return replay(list) ? 0 : 1;
	printf("The trial of %s, beside %s, seed %" PRIu64 "\n", trial.name, judge_name, trial.seed);
	for (uint32_t n = 0; n < part_count && !over_at_once; n++)
		if (trial.program == NULL || parts[n].for_programs)
			run_part(&parts[n]);
		else
			printf("  %-52s not for a listing program\n", parts[n].name);
	return report() ? 0 : 1;
}
