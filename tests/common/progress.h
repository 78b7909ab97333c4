/*
 * progress.h - how far a long run is, on standard error: on a terminal one line that is
 * rewritten, elsewhere a plain line every ten seconds at most. tests/progress.sh does the
 * same for scripts.
 */
#ifndef COMMON_PROGRESS_H
#define COMMON_PROGRESS_H

/* How far it is; may be called as often as one likes. */
void progress(const char *format, ...);

/* Before a line of the run's own is printed. */
void progress_clear(void);

/* Seconds since some moment. */
double seconds_now(void);

#endif /* COMMON_PROGRESS_H */
