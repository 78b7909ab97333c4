/*
 * record.h - the steps of a list as they are taken, with the answers that were given, and
 * the difference that ended it: what is shrunk, printed and replayed. A record is a plain
 * value; a process that dies leaves it as far as it came.
 */
#ifndef COMMON_RECORD_H
#define COMMON_RECORD_H

#include <stdbool.h>
#include <stdio.h>

#include "beside.h"
#include "steps.h"
#include "words.h"

enum { RECORD_WORDS = 12, RECORD_TEXT = 160 };

struct record {
	struct steps steps;
	uint32_t answer[STEPS_MOST][PT_ANSWER_WORDS]; /* of each step that makes a call */
	bool under_way;				      /* the last step has not returned */

	/* The difference of the last step. */
	enum difference difference;
	char fault[RECORD_TEXT]; /* more about it, or empty */
	bool compared;		 /* there is an expected answer */
	bool silent;		 /* there is no other */
	uint32_t expected_status, status, answer_words;
	uint32_t expected_answer[BESIDE_ANSWER], left_answer[BESIDE_ANSWER];
	uint8_t expected_text[LABEL_MOST], left_text[LABEL_MOST]; /* of a label function */
	uint32_t differing; /* words of the memory, of which the first are here */
	struct {
		char name[WORD_TEXT];
		uint32_t address, expected, left;
	} word[RECORD_WORDS];
};

void record_start(struct record *record);

/* Takes a step and records it; returns the difference that it shows. */
enum difference record_step(struct record *record, struct beside *beside, const struct step *step);

/*
 * Shortens the list of a record that ends with a difference, as long as it still does so on
 * what stands beside each other there, and records that. It takes so many seconds, at most.
 */
void record_shrink(struct record *record, struct beside *beside, double seconds);

/* Prints the list with its answers and the difference; @engine is what was tried. */
void record_print(const struct record *record, const char *engine, const char *judge, FILE *file);

/* Prints an answer of any length, with the status that was returned. */
void print_answer(const char *who, const uint32_t *answer, uint32_t words, uint32_t status, FILE *file);

/* Prints the list alone, a line a step. */
void record_list(const struct record *record, FILE *file);

#endif /* COMMON_RECORD_H */
