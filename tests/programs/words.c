/*
 * words.c - each word of a table has a name of its own in document 01's terms, and is found
 * again in a table of other sizes.
 */
#include <stdio.h>
#include <string.h>

#include "lent.h"
#include "words.h"

enum { MOST = 600 };

static const struct sizes sizes = { 3, 2, 2, 16 };
static const struct sizes larger = { 4, 2, 3, 20 };

static bool named(size_t address, const char *name)
{
	char text[WORD_TEXT];

	word_name(sizes, address, text);
	return strcmp(text, name) == 0;
}

/* Addresses are the papers': contents 15, house 80, a cabinet 1, a lane 30, a slot 6, a yard 1. */
static void test_names(void)
{
	enum { LANES = 95 + 6, SLOTS = LANES + 12 * 30, YARDS = SLOTS + 16 * 6 };

	CHECK(named(0, "contents, version") && named(1, "contents, cabinets per yard"));
	CHECK(named(11, "contents, bodies, length of the slots"));
	CHECK(named(12, "contents, bodies, first word of the yards"));
	CHECK(named(13, "contents, bodies, length of the yards") && named(14, "contents, yards"));
	CHECK(named(15, "house, current generation") && named(17, "house, yard mask"));
	CHECK(named(18 + 17, "house, chain head 17"));
	CHECK(named(83, "house, free line, last") && named(84, "house, free line, length"));
	CHECK(named(87, "house, next line, length") && named(90, "house, current line, length"));
	CHECK(named(93, "house, done line, length") && named(94, "house, house generation"));
	CHECK(named(96, "cabinet 1, lane mask") && named(LANES - 1, "cabinet 5, lane mask"));
	CHECK(named(LANES, "lane 0, flags") && named(LANES + 3 * 30 + 22, "lane 3, current line, last"));
	CHECK(named(LANES + 20, "lane 0, next line, length") && named(LANES + 26, "lane 0, done line, length"));
	CHECK(named(LANES + 27, "lane 0, lookup code, low word") && named(LANES + 29, "lane 0, lookup position"));
	CHECK(named(LANES + 1, "lane 0, pass count, kind 0 idle, low word"));
	CHECK(named(LANES + 30 + 8, "lane 1, pass count, kind 3 changed over, high word"));
	CHECK(named(LANES + 9, "lane 0, snapshot count, kind 0 idle, low word"));
	CHECK(named(LANES + 16, "lane 0, snapshot count, kind 3 changed over, high word"));
	CHECK(named(LANES + 17, "lane 0, generation"));
	CHECK(named(SLOTS, "slot 0, code, low word") && named(YARDS - 1, "slot 15, line link"));
	CHECK(named(YARDS, "yard 0, cabinet mask") && named(YARDS + 2, "yard 2, cabinet mask"));
	CHECK(named(YARDS + 3, "word 560, past the total"));
}

static void test_each(void)
{
	static char names[MOST][WORD_TEXT];
	size_t total = PT_WORDS(3, 2, 2, 16);

	CHECK(total < MOST);
	for (size_t n = 0; n < total; n++) {
		char moved[WORD_TEXT];

		word_name(sizes, n, names[n]);
		word_name(larger, word_moved(sizes, n, larger), moved);
		CHECK(strcmp(names[n], moved) == 0);
		CHECK(word_moved(larger, word_moved(sizes, n, larger), sizes) == n);
		for (size_t other = 0; other < n; other++)
			CHECK(strcmp(names[n], names[other]) != 0);
	}
	CHECK(word_moved(larger, PT_WORDS(4, 2, 3, 20) - 1, sizes) == SIZE_MAX); /* no yard 3 */
}

int main(void)
{
	test_names();
	test_each();
	puts("words: each has its name");
	return 0;
}
