/*
 * engine.c - the engine that is tried and the judge. The engine is linked as an archive
 * (ENGINE_ARCHIVE), or loaded as a shared library, or is a program that speaks the listing.
 * The judge is the proved library, whose functions bear the prefix proved_ here, or with
 * JUDGE_REFERENCE the C version.
 */
#define _GNU_SOURCE
#include "trial.h"

#include <dlfcn.h>
#include <stdio.h>
#include <stdlib.h>
#include <string.h>

#include "reference.h"

#ifdef JUDGE_REFERENCE
#define JUDGE(name) ref_##name
const char judge_name[] = "the C version";
#else
#define JUDGE(name) proved_##name
const char judge_name[] = "the proved library";
#define ARGUMENT(n, KIND) , argument_##KIND
#define CALL(NAME, name, word, command, weight, arguments, causes) uint32_t proved_##name(LENT_AS(word) arguments);
#include "calls.def"
uint32_t proved_label_read(LABEL_READ_LENT);
uint32_t proved_label_write(LABEL_WRITE_LENT, uint64_t code);
#endif

const struct interface judge = {
#define ARGUMENT(n, KIND)
#define CALL(NAME, name, word, command, weight, arguments, causes) .name = JUDGE(name),
#include "calls.def"
	.label_read = JUDGE(label_read),
	.label_write = JUDGE(label_write),
};

#ifdef ENGINE_ARCHIVE

const struct interface *engine_open(const char *path)
{
	static const struct interface engine = {
#define ARGUMENT(n, KIND)
#define CALL(NAME, name, word, command, weight, arguments, causes) .name = pt_##name,
#include "calls.def"
		.label_read = pt_label_read,
		.label_write = pt_label_write,
	};

	(void)path;
	return &engine;
}

#else

/* A function of the library; says so and counts if it is missing. */
static void *function(void *library, const char *name, uint32_t *missing)
{
	void *found = dlsym(library, name);

	if (found == NULL) {
		printf("trial: the library has no function %s\n", name);
		++*missing;
	}
	return found;
}

const struct interface *engine_open(const char *path)
{
	static struct interface engine;
	uint32_t missing = 0;
	void *library = dlopen(path, RTLD_NOW | RTLD_LOCAL);
	void *found;

	if (library == NULL) {
		fprintf(stderr, "trial: could not be made: the library is not loaded: %s\n", dlerror());
		exit(2);
	}
#define FUNCTION(name) \
	found = function(library, "pt_" #name, &missing); \
	memcpy(&engine.name, &found, sizeof found);
#define ARGUMENT(n, KIND)
#define CALL(NAME, name, word, command, weight, arguments, causes) FUNCTION(name)
#include "calls.def"
	FUNCTION(label_read)
	FUNCTION(label_write)
	if (missing > 0) {
		puts("differs");
		exit(1);
	}
	return &engine;
}

#endif
