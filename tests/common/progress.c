/*
 * progress.c - one line that is rewritten, or a line now and then.
 */
#define _GNU_SOURCE
#include "progress.h"

#include <stdarg.h>
#include <stdbool.h>
#include <stdio.h>
#include <time.h>
#include <unistd.h>

static const double ON_A_TERMINAL = 0.2, ELSEWHERE = 10; /* seconds between two lines */

static double last;
static bool shown; /* the rewritten line stands on the terminal */

double seconds_now(void)
{
	struct timespec time;

	clock_gettime(CLOCK_MONOTONIC, &time);
	return (double)time.tv_sec + (double)time.tv_nsec / 1e9;
}

void progress(const char *format, ...)
{
	bool terminal = isatty(STDERR_FILENO);
	double now = seconds_now();
	va_list values;

	if (last == 0 && !terminal)
		last = now;
	if (now - last < (terminal ? ON_A_TERMINAL : ELSEWHERE))
		return;
	last = now;
	if (terminal)
		fprintf(stderr, "\r\033[K");
	va_start(values, format);
	vfprintf(stderr, format, values);
	va_end(values);
	if (!terminal)
		fprintf(stderr, "\n");
	shown = terminal;
}

void progress_clear(void)
{
	if (shown)
		fprintf(stderr, "\r\033[K");
	shown = false;
}
