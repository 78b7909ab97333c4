/*
 * program.c - a program that speaks the listing: it gets the calls of a list as lines, and
 * its lines are compared with the judge's answers, or judged by the ledger.
 */
#define _GNU_SOURCE
#include "trial.h"

#include <inttypes.h>
#include <signal.h>
#include <stdio.h>
#include <stdlib.h>
#include <string.h>
#include <sys/stat.h>
#include <sys/wait.h>
#include <unistd.h>

#include "line.h"

enum { PATH = 400, TEXT = 300 };

/* What the shell ends with where it cannot start a command. */
enum { NOT_EXECUTABLE = 126, NOT_FOUND = 127, SIGNALS = 128 };

static void path_of(char path[PATH], const char *name)
{
	snprintf(path, PATH, "%s/%s", trial.scratch, name);
}

static FILE *opened(const char *path, const char *mode)
{
	FILE *file = fopen(path, mode);

	if (file == NULL) {
		perror(path);
		exit(2);
	}
	return file;
}

static void start_program(const char *in, const char *out)
{
	setpgid(0, 0); /* what it starts is ended with it */
	if (freopen(in, "r", stdin) == NULL || freopen(out, "w", stdout) == NULL)
		_exit(NOT_EXECUTABLE);
	execl("/bin/sh", "sh", "-c", trial.program, (char *)NULL);
	_exit(NOT_EXECUTABLE);
}

static uint64_t bytes_of(const char *path)
{
	struct stat file;

	return stat(path, &file) == 0 ? (uint64_t)file.st_size : 0;
}

/* How a program ended: by itself, with this status, or as it printed nothing for too long. */
struct ended {
	bool in_time;
	int status;
};

/* Waits for it as long as it prints something now and then, and not more than it has to. */
static struct ended wait_for(pid_t program, const char *out, uint64_t most)
{
	struct ended ended = { true, 0 };
	double since = seconds_now();
	uint64_t bytes = 0;

	while (waitpid(program, &ended.status, WNOHANG) == 0) {
		uint64_t now = bytes_of(out);

		shared->ticks++; /* this process does not hang */
		if (now != bytes)
			since = seconds_now();
		bytes = now;
		ended.in_time = seconds_now() - since <= shared->limit;
		if (!ended.in_time || bytes > most) {
			kill(-program, SIGKILL);
			kill(program, SIGKILL);
			waitpid(program, &ended.status, 0);
			break;
		}
		usleep(500);
	}
	return ended;
}

/* Runs the program on so many lines. Does not return if there is none. */
static struct ended run_program(const char *in, const char *out, uint32_t lines)
{
	struct ended ended;
	pid_t program;

	fflush(NULL);
	program = fork();
	if (program < 0)
		exit(2);
	if (program == 0)
		start_program(in, out);
	ended = wait_for(program, out, ((uint64_t)lines + 1) * TEXT);
	if (WIFEXITED(ended.status) && bytes_of(out) == 0 &&
			(WEXITSTATUS(ended.status) == NOT_FOUND || WEXITSTATUS(ended.status) == NOT_EXECUTABLE)) {
		shared->unstarted = true;
		_exit(2);
	}
	return ended;
}

/* A line without its newline; false at the end. */
static bool next_line(FILE *file, char text[TEXT])
{
	if (fgets(text, TEXT, file) == NULL)
		return false;
	text[strcspn(text, "\n")] = '\0';
	return true;
}

/* The five words of a line as document 01 writes them. */
static bool read_answer(const char *text, uint32_t answer[PT_ANSWER_WORDS])
{
	char again[LINE_TEXT];

	if (sscanf(text, "%" SCNu32 " %" SCNu32 " %" SCNu32 " %" SCNu32 " %" SCNu32, &answer[0],
			&answer[1], &answer[2], &answer[3], &answer[4]) != PT_ANSWER_WORDS)
		return false;
	line_answer(answer, again);
	return strcmp(text, again) == 0;
}

/* The list ends with step @at, at which the program answers otherwise, or not at all. */
static void differ(struct player *player, uint32_t at, enum difference difference,
		const char *fault, const uint32_t *answer, enum end end)
{
	struct record *record = player->record;

	record->steps.count = at + 1;
	record->difference = difference;
	record->compared = difference != DIFFERS_LEDGER;
	record->silent = answer == NULL;
	record->answer_words = PT_ANSWER_WORDS;
	record->expected_status = record->answer[at][0];
	memcpy(record->expected_answer, record->answer[at], sizeof record->answer[at]);
	snprintf(record->fault, RECORD_TEXT, "%s", fault);
	if (answer != NULL) {
		record->status = answer[0];
		memcpy(record->left_answer, answer, sizeof record->answer[at]);
	}
	_exit(EXIT_DONE + end);
}

/*
 * Counts the calls whose answers were compared, so many from the first on, as the judge makes
 * them; of the last the answer that was given where it is another.
 */
static void count(struct player *player, uint32_t compared, enum difference difference, uint32_t *answer)
{
	struct beside *beside = &player->beside;

	if (player->tally == NULL || player->by_ledger)
		return;
	beside_start(beside, NULL, &judge);
	memset(player->tally->since_setup, 0, sizeof player->tally->since_setup);
	for (uint32_t n = 0; n < compared; n++) {
		beside_step(beside, &player->record->steps.step[n]);
		if (n + 1 == compared && difference != SAME) {
			beside->difference = difference;
			beside->left = (struct left){ beside->memory, beside->words, answer, PT_ANSWER_WORDS, answer[0] };
		}
		tally_call(player->tally, beside);
	}
}

/* What it prints is not as the listing's lines are, after so many that were compared. */
static void blame_program(struct player *player, uint32_t compared)
{
	if (player->tally == NULL)
		return;
	count(player, compared, SAME, NULL);
	player->tally->tried[SENTENCE_LISTING_PROGRAM]++;
	player->tally->broken[SENTENCE_LISTING_PROGRAM]++;
}

static enum difference difference_of(const uint32_t *expected, const uint32_t *answer)
{
	if (expected[0] != answer[0])
		return DIFFERS_STATUS;
	if (memcmp(expected, answer, PT_ANSWER_WORDS * sizeof *answer) == 0)
		return SAME;
	return expected[0] == PT_OK ? DIFFERS_ANSWER : DIFFERS_REFUSED;
}

static void judge_line(struct player *player, uint32_t at, const char *text)
{
	uint32_t *expected = player->record->answer[at], answer[PT_ANSWER_WORDS] = { 0 };
	const struct call *call = &player->record->steps.step[at].call;
	enum difference difference;
	char fault[RECORD_TEXT];

	if (!read_answer(text, answer)) {
		snprintf(fault, sizeof fault, "the program prints \"%.80s\", which is no five words", text);
		blame_program(player, at);
		differ(player, at, DIFFERS_ANSWER, fault, NULL, END_DIFFERS);
	}
	if (call->name == CALL_SETUP && answer[0] == PT_OK)
		player_sizes(call);
	if (player->by_ledger) {
		bool attained = ledger_attains(&player->beside.ledger, call, answer);
		const char *found = ledger_feed(&player->beside.ledger, call, answer);

		if (player->tally != NULL)
			tally_judged(player->tally, call, answer, (struct verdict){
				.fault = found != NULL,
				.of = ledger_fault_of(found),
				.attained = attained,
			});
		memcpy(expected, answer, sizeof answer); /* what was answered, for the record */
		if (found != NULL)
			differ(player, at, DIFFERS_LEDGER, found, answer, END_DIFFERS);
		return;
	}
	difference = difference_of(expected, answer);
	if (difference == SAME)
		return;
	count(player, at + 1, difference, answer);
	differ(player, at, difference, "", answer, END_DIFFERS);
}

/* How the program ended, where that is worth a word. */
static void end_text(struct ended ended, char text[RECORD_TEXT])
{
	int status = WIFEXITED(ended.status) ? WEXITSTATUS(ended.status) : SIGNALS + WTERMSIG(ended.status);

	text[0] = '\0';
	if (status > SIGNALS)
		snprintf(text, RECORD_TEXT, "; it was ended by signal %d (%s)", status - SIGNALS, strsignal(status - SIGNALS));
	else if (status != 0)
		snprintf(text, RECORD_TEXT, "; it ended with status %d", status);
}

/* The program printed @lines lines, and then no more. */
static void too_few(struct player *player, uint32_t lines, struct ended ended)
{
	char fault[RECORD_TEXT], end[RECORD_TEXT] = "";

	if (ended.in_time)
		end_text(ended, end);
	blame_program(player, lines);
	snprintf(fault, sizeof fault, "the program %s%s%.100s", ended.in_time ? "" : "does not end; it ",
		lines == 0 ? "prints nothing" : "prints no line for this call", end);
	player->record->under_way = !ended.in_time;
	differ(player, lines, DIFFERS_ANSWER, fault, NULL, ended.in_time ? END_DIFFERS : END_HANGS);
}

void program_play(struct player *player)
{
	uint32_t calls = player->record->steps.count, lines = 0;
	char in[PATH], out[PATH], text[TEXT];
	struct ended ended;
	FILE *file;

	if (calls == 0)
		return;
	path_of(in, "calls");
	path_of(out, "answers");
	file = opened(in, "w");
	record_list(player->record, file);
	fclose(file);
	ended = run_program(in, out, calls);
	ledger_reset(&player->beside.ledger);
	file = opened(out, "r");
	while (lines < calls && next_line(file, text))
		judge_line(player, lines++, text);
	if (lines < calls)
		too_few(player, lines, ended);
	if (next_line(file, text)) {
		blame_program(player, lines);
		differ(player, lines - 1, DIFFERS_ANSWER, "the program prints more lines than it got",
			NULL, END_DIFFERS);
	}
	fclose(file);
	if (!ended.in_time)
		too_few(player, lines - 1, ended);
	count(player, lines, SAME, NULL);
}

void program_text(const char *name, enum sentence sentence)
{
	char in[PATH], expected[PATH], out[PATH], want[TEXT], got[TEXT];
	FILE *wanted, *printed;
	uint32_t line = 1;

	snprintf(in, PATH, "%s/%s.in", trial.listings, name);
	snprintf(expected, PATH, "%s/%s.out", trial.listings, name);
	path_of(out, "answers");
	record_start(&shared->record);
	run_program(in, out, (uint32_t)bytes_of(in));
	wanted = opened(expected, "r");
	printed = opened(out, "r");
	for (; next_line(wanted, want); line++) {
		shared->tally.tried[sentence]++;
		if (next_line(printed, got) && strcmp(want, got) == 0)
			continue;
		shared->tally.broken[sentence]++;
		shared->record.difference = DIFFERS_ANSWER;
		snprintf(shared->record.fault, RECORD_TEXT,
			"line %" PRIu32 " of tests/listing/%s.in: expected \"%.40s\", the program prints \"%.40s\"",
			line, name, want, feof(printed) ? "" : got);
		_exit(EXIT_DONE + END_DIFFERS);
	}
	fclose(wanted);
	fclose(printed);
}
