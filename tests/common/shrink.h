/*
 * shrink.h - shortens a list of steps that shows something, until no step can be left out,
 * and makes its numbers small.
 */
#ifndef COMMON_SHRINK_H
#define COMMON_SHRINK_H

#include <stdbool.h>

#include "steps.h"

/* Whether a list still shows it. */
typedef bool shrink_shows(const struct steps *steps, void *context);

/* The list shows it, and does so at the end. At most @tests lists are tried on the way. */
void shrink(struct steps *steps, shrink_shows *shows, void *context, uint32_t tests);

#endif /* COMMON_SHRINK_H */
