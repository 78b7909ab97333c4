/*
 * header_cpp.cpp - product_table.h as C++: every function with its type and C linkage.
 * Compiled and not run.
 */
#include "product_table.h"

/* Included a second time, it declares nothing twice. */
#include "product_table.h"

extern "C" {
typedef uint32_t header_setup_type(uint32_t *, size_t, uint32_t *, size_t,
		uint32_t, uint32_t, uint32_t, uint32_t);
typedef uint32_t header_record_type(uint32_t *, size_t, uint32_t *, size_t,
		uint32_t, uint64_t, uint32_t, uint32_t);
typedef uint32_t header_code_type(uint32_t *, size_t, uint32_t *, size_t, uint32_t, uint64_t);
typedef uint32_t header_lane_type(uint32_t *, size_t, uint32_t *, size_t, uint32_t);
typedef uint32_t header_pass_type(uint32_t *, size_t, uint32_t *, size_t, uint32_t, uint32_t);
typedef uint32_t header_awaited_type(const uint32_t *, size_t, uint32_t *, size_t);
typedef uint32_t header_label_read_type(const uint8_t *, size_t, uint32_t *, size_t);
typedef uint32_t header_label_write_type(uint8_t *, size_t, uint32_t *, size_t, uint64_t);
}

/* The sixteen functions in a table. */
struct header_calls {
	header_setup_type *setup;
	header_record_type *add, *replace;
	header_code_type *remove, *start;
	header_lane_type *begin, *end, *step, *clock, *on, *off, *hand_back;
	header_pass_type *pass;
	header_awaited_type *awaited;
	header_label_read_type *label_read;
	header_label_write_type *label_write;
};

extern const header_calls header_calls_of_library;
const header_calls header_calls_of_library = {
	pt_setup, pt_add, pt_replace, pt_delete, pt_start, pt_begin, pt_end, pt_step, pt_clock,
	pt_on, pt_off, pt_hand_back, pt_pass, pt_awaited, pt_label_read, pt_label_write,
};

extern const char *const header_message;
const char *const header_message = pt_message(PT_OK);

uint32_t header_memory[PT_WORDS(PT_MAX_YARDS, PT_MAX_CABINETS, PT_MAX_LANES, PT_MAX_SLOTS)];

static_assert(sizeof header_memory / sizeof header_memory[0] == 21671, "full size");
static_assert(PT_VERSION == 4, "version");
static_assert(PT_MAX_CODE == 99999999999999, "codes");
static_assert(PT_WRONG_LABEL == 18, "refusals");
static_assert(PT_LABEL_8 == 8 && PT_LABEL_13 == 13 && PT_LABEL_14 == 14, "labels");
static_assert(PT_SHORT_ANSWER == 4294967295 && PT_NONE == 4294967295, "none");
