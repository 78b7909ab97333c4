/*
 * codes.c - the right codes: all digits but the last are any number, and the last follows. All others are wrong.
 */
#include "codes.h"

#include "layout.h"

enum { TEN = 10 };

/* The right code whose digits but the last are those of @number. */
static uint64_t completed(uint64_t number)
{
	uint32_t sum = 0, weight = 3; /* of the digit before the last */

	for (uint64_t rest = number; rest > 0; rest /= TEN) {
		sum += (uint32_t)(rest % TEN) * weight;
		weight = 4 - weight;
	}
	return number * TEN + (TEN - sum % TEN) % TEN;
}

bool code_is_right(uint64_t code)
{
	return completed(code / TEN) == code;
}

uint64_t wrong_code(uint64_t code)
{
	do
		code += CHAINS;
	while (code_is_right(code));
	return code;
}

uint64_t next_code(uint64_t code)
{
	do
		code += CHAINS;
	while (!code_is_right(code));
	return code;
}

uint64_t right_code(uint64_t modulus, uint64_t rest, uint64_t k)
{
	uint64_t code = rest;

	if (modulus == 1)
		return completed(k);
	for (;; code += modulus)
		if (code_is_right(code) && k-- == 0)
			return code;
}
