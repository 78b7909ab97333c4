/*
 * codes.h - codes whose check digit is right, for every test, example and measurement that
 * enters records, and codes whose check digit is wrong, for what the office mistypes and for
 * older records. From the right, leaving out the check digit, the digits weigh 3, 1, 3 and so
 * on, and the check digit brings the sum to a multiple of ten (GS1).
 * One code of each ten is right: 0, 17, 24, 31, 48, 55, 62, 79, ..; of chain 0: 0, 192, 512,
 * 1472, 1984, ..
 */
#ifndef COMMON_CODES_H
#define COMMON_CODES_H

#include <stdbool.h>
#include <stdint.h>

/* The @k-th right code, from 0, of @rest, @rest + @modulus and so on. */
uint64_t right_code(uint64_t modulus, uint64_t rest, uint64_t k);

/* The @k-th right code of all, of a chain, and of those with a given low word. */
#define CODE_OF_ALL(k) right_code(1, 0, k)
#define CODE_OF_CHAIN(chain, k) right_code(64, chain, k)
#define CODE_OF_LOW_WORD(low, k) right_code(UINT64_C(1) << 32, low, k)

/* The same of those of fourteen digits: near the limit, with a given low word. */
#define CODE_NEAR_LIMIT(low, k) right_code(UINT64_C(1) << 32, (UINT64_C(22000) << 32) + (low), k)
#define FIRST_OF_14_DIGITS UINT64_C(10000000000000)

/* Whether the check digit is right. */
bool code_is_right(uint64_t code);

/* The next code of the same chain whose check digit is wrong, and the next that is right. */
uint64_t wrong_code(uint64_t code);
uint64_t next_code(uint64_t code);

#endif /* COMMON_CODES_H */
