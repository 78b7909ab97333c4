/*
 * causes.h - which causes of documents 01 and 02 apply to a call, each by itself: of those
 * the first in the call's order (calls.def) is the one that is answered. Written from the
 * tables, row by row.
 */
#ifndef COMMON_CAUSES_H
#define COMMON_CAUSES_H

#include <stddef.h>
#include <stdint.h>

#include "calls.h"
#include "table.h"

/* The slot of the code's record in its chain, or none. */
uint32_t slot_of(const struct table *table, uint64_t code);

/* The causes that apply, bit n for cause n. What cannot be told of a memory that is not legal does not. */
uint32_t causes_of(const uint32_t *memory, size_t words, const struct call *call);

#endif /* COMMON_CAUSES_H */
