/*
 * words.h - the name of a word of the memory in document 01's terms, as "lane 3, current
 * line, last".
 */
#ifndef COMMON_WORDS_H
#define COMMON_WORDS_H

#include <stddef.h>
#include <stdint.h>

#include "layout.h"

enum { WORD_TEXT = 100 };

/* The name of the word at an address, in a table of these sizes. */
void word_name(struct sizes sizes, size_t address, char text[WORD_TEXT]);

/* Where that word stands in a table of other sizes, or SIZE_MAX if it has no such record. */
size_t word_moved(struct sizes sizes, size_t address, struct sizes other);

/* A value, where none is called so. */
void word_value(uint32_t value, char text[WORD_TEXT]);

#endif /* COMMON_WORDS_H */
