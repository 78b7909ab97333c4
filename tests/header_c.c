/*
 * header_c.c - product_table.h as C: every function with its type, every number of
 * documents 01 and 02. Compiled and not run.
 */
#include "product_table.h"

#define LENT uint32_t *, size_t, uint32_t *, size_t

/* One function of each type in each list. */
uint32_t (*const header_setup)(LENT, uint32_t, uint32_t, uint32_t, uint32_t) = pt_setup;
uint32_t (*const header_record[])(LENT, uint32_t, uint64_t, uint32_t, uint32_t) = {
	pt_add, pt_replace,
};
uint32_t (*const header_code[])(LENT, uint32_t, uint64_t) = {
	pt_delete, pt_start,
};
uint32_t (*const header_lane[])(LENT, uint32_t) = {
	pt_begin, pt_end, pt_step, pt_clock, pt_on, pt_off, pt_hand_back,
};
uint32_t (*const header_pass)(LENT, uint32_t, uint32_t) = pt_pass;
uint32_t (*const header_awaited)(const LENT) = pt_awaited; /* only reads the memory */
uint32_t (*const header_label_read)(const uint8_t *, size_t, uint32_t *, size_t) = pt_label_read;
uint32_t (*const header_label_write)(uint8_t *, size_t, uint32_t *, size_t, uint64_t) =
	pt_label_write;
const char *(*const header_message)(uint32_t) = pt_message;

/* A table may be lent as an array of its total, and a text as one of the longest label. */
uint32_t header_memory[PT_WORDS(PT_MAX_YARDS, PT_MAX_CABINETS, PT_MAX_LANES, PT_MAX_SLOTS)];
uint32_t header_answer[PT_ANSWER_WORDS];
uint8_t header_text[PT_LABEL_14];

_Static_assert(sizeof header_memory / sizeof header_memory[0] == 21671, "full size");
_Static_assert(PT_WORDS(1, 1, 2, 3) == 175 && PT_WORDS(1, 1, 1 + 1, 2 + 1) == 175, "total");
_Static_assert(PT_WORDS(1, 8, 8, 1024) == 8168 && PT_WORDS(2, 2, 3, 4) == 485, "total");
_Static_assert(PT_VERSION == 4, "version");
_Static_assert(sizeof header_answer / sizeof header_answer[0] == 5, "answer");

_Static_assert(PT_OK == 0 && PT_BAD_SIZE == 1 && PT_SHORT_MEMORY == 2 && PT_NOT_LEGAL == 3 &&
	PT_NO_LANE == 4 && PT_OFFLINE == 5 && PT_ONLINE == 6 && PT_IN_SECTION == 7 &&
	PT_NO_SECTION == 8 && PT_IN_LOOKUP == 9 && PT_NO_LOOKUP == 10 && PT_OUT_OF_RANGE == 11 &&
	PT_CODE_PRESENT == 12 && PT_CODE_MISSING == 13 && PT_NO_FREE_SLOT == 14 &&
	PT_LAST_LANE == 15 && PT_NOTHING_DONE == 16 && PT_WRONG_DIGIT == 17 &&
	PT_WRONG_LABEL == 18, "refusals");
_Static_assert(PT_SHORT_ANSWER == UINT32_MAX && PT_NONE == UINT32_MAX, "none");
_Static_assert(PT_GOING == 0 && PT_FOUND == 1 && PT_ABSENT == 2, "outcomes");
_Static_assert(PT_IDLE == 0 && PT_BOTTLE_DROPPED == 1 && PT_DOOR_OPEN == 2 &&
	PT_CHANGED_OVER == 3 && PT_MAX_KIND == 3, "kinds");
_Static_assert(PT_MAX_YARDS == 8 && PT_MAX_CABINETS == 8 && PT_MAX_LANES == 8 && PT_MAX_SLOTS == 1024, "sizes");
_Static_assert(PT_MAX_CODE == 99999999999999 && PT_MAX_DEPOSIT == 100000 &&
	PT_MAX_MATERIAL == 7, "fields");
_Static_assert(PT_LABEL_8 == 8 && PT_LABEL_13 == 13 && PT_LABEL_14 == 14, "labels");
