/*
 * reading.c - pt_awaited() only reads the memory: it answers on one that is mapped for reading
 * alone, where a store would end the program. Ends with 0.
 */
#define _DEFAULT_SOURCE
#include <stdio.h>
#include <sys/mman.h>

#include "product_table.h"

enum { BYTES = 1 << 16, WORDS = BYTES / sizeof(uint32_t), SLOTS = 3 };

int main(void)
{
	uint32_t answer[PT_ANSWER_WORDS];
	uint32_t *memory = mmap(NULL, BYTES, PROT_READ | PROT_WRITE, MAP_PRIVATE | MAP_ANONYMOUS, -1, 0);

	if (memory == MAP_FAILED || pt_setup(memory, WORDS, answer, PT_ANSWER_WORDS, 1, 1, 2, SLOTS) != PT_OK ||
			mprotect(memory, BYTES, PROT_READ) != 0) {
		perror("reading");
		return 2;
	}
	return pt_awaited(memory, WORDS, answer, PT_ANSWER_WORDS) != PT_OK || answer[3] != SLOTS;
}
