/*
 * codes.c - the right codes are those of the rule, read from the digits as text, and wrong ones are not.
 */
#include <inttypes.h>
#include <stdio.h>
#include <string.h>

#include "codes.h"
#include "lent.h"

/* The rule, on so many digits, from the left: the last weighs 1, the one before it 3, and so on in turn. */
static bool right_in_digits(uint64_t code, int count)
{
	char digits[32];
	int sum = 0;

	snprintf(digits, sizeof digits, "%0*" PRIu64, count, code);
	for (int n = 0; n < count; n++)
		sum += (digits[n] - '0') * ((count - 1 - n) % 2 == 0 ? 1 : 3);
	return sum % 10 == 0;
}

static bool right_by_text(uint64_t code)
{
	return right_in_digits(code, 14);
}

/* Request 1's: counted from the left, the first twelve of thirteen weigh 1, 3, 1, 3 and so on. */
static bool right_from_left(uint64_t code)
{
	char digits[32];
	int sum = 0;

	snprintf(digits, sizeof digits, "%013" PRIu64, code);
	for (int n = 0; n < 12; n++)
		sum += (digits[n] - '0') * (n % 2 == 0 ? 1 : 3);
	return (sum + digits[12] - '0') % 10 == 0;
}

/* The k-th from 0 of those that leave @rest, found one after another. */
static void check_codes(uint64_t modulus, uint64_t rest, uint64_t count)
{
	uint64_t code = rest;

	for (uint64_t k = 0; k < count; code += modulus)
		if (right_by_text(code))
			CHECK(right_code(modulus, rest, k++) == code);
}

int main(void)
{
	static const uint64_t first[] = { 0, 17, 24, 31, 48, 55, 62, 79, 86, 93, 109, 116 };
	static const uint64_t chain_0[] = { 0, 192, 512, 1472, 1984, 2240, 2752, 3520 };

	for (size_t k = 0; k < sizeof first / sizeof first[0]; k++)
		CHECK(CODE_OF_ALL(k) == first[k]);
	for (size_t k = 0; k < sizeof chain_0 / sizeof chain_0[0]; k++)
		CHECK(CODE_OF_CHAIN(0, k) == chain_0[k]);
	check_codes(1, 0, 2000);
	for (uint32_t chain = 0; chain < CHAINS; chain++)
		check_codes(CHAINS, chain, 40);
	check_codes(UINT64_C(1) << 32, 17, 40);
	for (uint64_t k = 0; k < 100; k++)
		CHECK(right_by_text(CODE_NEAR_LIMIT(5, k)) && CODE_NEAR_LIMIT(5, k) % (UINT64_C(1) << 32) == 5 &&
			CODE_NEAR_LIMIT(5, k) >= FIRST_OF_14_DIGITS && CODE_NEAR_LIMIT(5, k) <= PT_MAX_CODE);
	for (uint64_t code = 0; code < 5000; code++)
		CHECK(code_is_right(code) == right_by_text(code));
	CHECK(code_is_right(PT_MAX_CODE - 2) && !code_is_right(PT_MAX_CODE));
	for (uint64_t code = 0; code < 5000; code++) /* zeros on the left do not count */
		for (int count = 4; count <= 20; count++)
			CHECK(right_in_digits(code, count) == right_by_text(code));
	for (uint64_t code = 0; code < UINT64_C(10000000000000); code += UINT64_C(1234567891))
		CHECK(right_from_left(code) == right_by_text(code));
	CHECK(code_is_right(96385074) && code_is_right(4006381333931) && code_is_right(10012345678902));
	for (uint64_t code = 0; code < 5000; code++)
		CHECK(!right_by_text(wrong_code(code)) && wrong_code(code) % CHAINS == code % CHAINS);
	puts("codes: those with right check digits, and no others; wrong ones of the same chain");
	return 0;
}
