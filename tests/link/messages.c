/*
 * messages.c - pt_message(): every status has a text that begins with its name, no two texts
 * are alike, and a number that is no status has one too. statuses.def has STATUS(PT_OK) and
 * the others, as the header defines them. Ends with 0.
 */
#include <stdio.h>
#include <string.h>

#include "product_table.h"

static const struct {
	const char *name;
	uint32_t status;
} statuses[] = {
#define STATUS(name) { #name, name },
#include "statuses.def"
};

enum { STATUSES = sizeof statuses / sizeof statuses[0] };

/* Whether the text is the name, a colon, a blank and more. */
static int names(const char *text, const char *name)
{
	size_t length = strlen(name);

	return strncmp(text, name, length) == 0 && strncmp(text + length, ": ", 2) == 0 &&
		text[length + 2] != '\0';
}

/* The first status whose text is this one; STATUSES where there is none. */
static size_t first_with(const char *text)
{
	size_t n = 0;

	while (n < STATUSES && strcmp(pt_message(statuses[n].status), text) != 0)
		n++;
	return n;
}

/* A number next to a status that is none. */
static int is_unknown(uint32_t number)
{
	const char *text = pt_message(number);

	return names(text, "unknown") && first_with(text) == STATUSES;
}

int main(void)
{
	int wrong = 0;

	for (size_t n = 0; n < STATUSES; n++)
		if (!names(pt_message(statuses[n].status), statuses[n].name) ||
				first_with(pt_message(statuses[n].status)) != n) {
			printf("%s: %s\n", statuses[n].name, pt_message(statuses[n].status));
			wrong = 1;
		}
	if (!is_unknown(PT_WRONG_LABEL + 1) || !is_unknown(PT_SHORT_ANSWER - 1)) {
		printf("a number that is no status: %s\n", pt_message(PT_WRONG_LABEL + 1));
		wrong = 1;
	}
	return wrong;
}
