/*
 * input.h - a memory from a file: its words as they stand in the machine's memory, or as numbers in a text.
 */
#ifndef WHY_INPUT_H
#define WHY_INPUT_H

#include <stdbool.h>
#include <stddef.h>
#include <stdint.h>

#define PROGRAM "product-table-why" /* in messages */

struct input {
	uint32_t *word;
	size_t words;
};

/* Reads the file, or standard input for "-". Says on standard error why not, and returns false, if it cannot. */
bool input_read(const char *name, bool text, struct input *input);

#endif /* WHY_INPUT_H */
