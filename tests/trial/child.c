/*
 * child.c - a list in a process of its own: an engine that crashes ends that process, and
 * one that hangs is ended after a time in which no call returned.
 */
#define _GNU_SOURCE
#include "trial.h"

#include <signal.h>
#include <stdio.h>
#include <stdlib.h>
#include <string.h>
#include <sys/resource.h>
#include <sys/types.h>
#include <sys/wait.h>
#include <time.h>
#include <unistd.h>

static void pause_briefly(void)
{
	nanosleep(&(struct timespec){ .tv_nsec = 100000 }, NULL);
}

static enum end end_of(int status, int *signal)
{
	*signal = WIFSIGNALED(status) ? WTERMSIG(status) : 0;
	if (!WIFEXITED(status) || WEXITSTATUS(status) < EXIT_DONE || WEXITSTATUS(status) >= EXIT_DONE + ENDS)
		return END_CRASHED; /* also an engine that ends the process by itself */
	return (enum end)(WEXITSTATUS(status) - EXIT_DONE);
}

/* The file of what is printed on standard error. */
static FILE *errors(const char *mode, FILE *instead)
{
	char path[400];

	snprintf(path, sizeof path, "%s/errors", trial.scratch);
	return instead != NULL ? freopen(path, mode, instead) : fopen(path, mode);
}

/* Its first lines, as far as there is room. */
static void read_errors(void)
{
	enum { LINES = 5, LINE = ERRORS_TEXT / LINES };
	FILE *file = trial.quiet ? errors("r", NULL) : NULL;
	char *at = shared->errors;

	*at = '\0';
	for (int n = 0; n < LINES && file != NULL && fgets(at, LINE, file) != NULL; n++)
		at += strlen(at);
	if (file != NULL)
		fclose(file);
}

/* In the child: what an engine prints goes to a file, at once, so that it is there after a crash, and not without end. */
static void make_quiet(void)
{
	enum { MOST = 1 << 26 }; /* bytes of a file */

	if (freopen("/dev/null", "w", stdout) == NULL || errors("w", stderr) == NULL ||
			setvbuf(stderr, NULL, _IONBF, 0) != 0 ||
			setrlimit(RLIMIT_FSIZE, &(struct rlimit){ MOST, MOST }) != 0)
		_exit(EXIT_DONE + END_CRASHED);
}

static pid_t start(void (*play)(void *context), void *context)
{
	pid_t child;

	fflush(NULL);
	child = fork();
	if (child < 0) {
		perror("trial: fork");
		exit(2);
	}
	if (child == 0) {
		if (trial.quiet)
			make_quiet();
		play(context);
		_exit(EXIT_DONE + END_DONE);
	}
	return child;
}

static enum end wait_for(pid_t child, double limit, int *signal)
{
	uint64_t ticks = shared->ticks;
	double since = seconds_now();
	int status;

	for (;;) {
		pid_t ended = waitpid(child, &status, WNOHANG);

		if (ended == child)
			return end_of(status, signal);
		if (shared->ticks != ticks) {
			ticks = shared->ticks;
			since = seconds_now();
		}
		if (seconds_now() - since > limit)
			break;
		pause_briefly();
	}
	kill(child, SIGKILL);
	waitpid(child, &status, 0);
	*signal = 0;
	return END_HANGS;
}

enum end child_run(void (*play)(void *context), void *context, double limit, int *signal)
{
	enum end end;

	shared->limit = limit;
	end = wait_for(start(play, context), limit, signal);
	read_errors();
	return end;
}
