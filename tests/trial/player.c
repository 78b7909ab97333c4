/*
 * player.c - a list, step by step: the engine beside the judge, or before the ledger.
 */
#define _GNU_SOURCE
#include "trial.h"

#include <stdio.h>
#include <stdlib.h>
#include <string.h>
#include <unistd.h>

struct player player;

void player_start(bool by_ledger)
{
	player.record = &shared->record;
	player.by_ledger = by_ledger;
	record_start(player.record);
	beside_start(&player.beside, trial.program != NULL ? NULL : trial.engine,
		by_ledger && trial.program == NULL ? NULL : &judge);
	player.beside.all_lent = trial.program != NULL;
}

void player_sizes(const struct call *setup)
{
	struct sizes sizes = call_sizes(setup);
	uint32_t n = 0;

	if (player.tally != &shared->tally)
		return;
	while (n < shared->sizes_count && memcmp(&shared->sizes[n], &sizes, sizeof sizes) != 0)
		n++;
	if (n == shared->sizes_count && n < SIZES_MOST)
		shared->sizes[shared->sizes_count++] = sizes;
}

/* What the ledger says of the last call, or what no call may leave. */
static void count_judged(void)
{
	enum difference difference = player.record->difference;

	if (difference != SAME && difference != DIFFERS_LEDGER)
		tally_owed(player.tally, &player.beside);
	else
		tally_judged(player.tally, &player.beside.call, player.beside.left.answer, (struct verdict){
			.fault = difference != SAME,
			.of = ledger_fault_of(player.beside.fault),
			.attained = player.beside.attained,
			.counted = true,
		});
}

/* A program's steps are counted when its answers are compared. */
static void count(const struct step *step)
{
	if (player.tally == NULL || trial.program != NULL)
		return;
	if (step_is_label(step)) {
		tally_label(player.tally, &player.beside, step);
		return;
	}
	if (step->call.name == CALL_SETUP && player.beside.left.status == PT_OK)
		player_sizes(&step->call);
	if (player.by_ledger)
		count_judged();
	else
		tally_call(player.tally, &player.beside);
}

/* A program that speaks the listing keeps to one yard: what it cannot be told is left out of its lists. */
static bool told(const struct step *step)
{
	return trial.program == NULL || step->kind != STEP_CALL || step->call.name != CALL_SETUP ||
		call_sizes(&step->call).yards == 1;
}

void player_step(const struct step *step)
{
	enum difference difference;

	if (!told(step))
		return;
	shared->ticks++;
	difference = record_step(player.record, &player.beside, step);
	shared->ticks++;
	if (!step_is_made(step))
		return;
	count(step);
	if (difference != SAME)
		_exit(EXIT_DONE + END_DIFFERS);
}

void player_line(const char *line)
{
	struct step step;

	if (!step_read(line, &step)) {
		fprintf(stderr, "trial: no step: %s\n", line);
		exit(2);
	}
	player_step(&step);
}

void player_call(const struct call *call)
{
	player_step(&(struct step){ .kind = STEP_CALL, .call = *call });
}

void player_end(void)
{
	if (trial.program != NULL)
		program_play(&player);
}

void player_steps(const struct steps *steps, bool by_ledger)
{
	player_start(by_ledger);
	for (uint32_t n = 0; n < steps->count; n++)
		player_step(&steps->step[n]);
	player_end();
}
