/*
 * hall.c - the lanes of a site and an office in each yard. Each is a process; they send their calls to this process, which
 * lends the memory and makes the calls (server.c), one after another. No one holds a lock, and a lane's lookup is interleaved
 * step by step with the offices' changes. The site has two yards and 64 lanes, or as many as a table can have: eight yards of
 * eight cabinets of eight lanes, 512.
 * Meanwhile some lanes are killed in the middle of a section, as computers fail: the hall goes on without them, and one
 * comes back, by a new process.
 * Usage: hall [full] [SECONDS [SEED]]
 *
 * To embed the library in the program of a lane computer, take server.c, which uses nothing of this file.
 */
#define _DEFAULT_SOURCE
#include "hall.h"

#include <inttypes.h>
#include <signal.h>
#include <stdio.h>
#include <stdlib.h>
#include <string.h>
#include <sys/socket.h>
#include <sys/types.h>
#include <sys/wait.h>
#include <time.h>
#include <unistd.h>

enum { SECONDS = 5, GRACE_SECONDS = 300, CLOSING_ROUNDS = 10, ROUND_MILLISECONDS = 100 };

/* Two yards, for which any machine has the processes, and the most that a table can have. */
static const struct site two_yards = { .yards = 2, .cabinets = 4, .lanes = 8, .slots = 160 };
static const struct site full = {
	.yards = PT_MAX_YARDS, .cabinets = PT_MAX_CABINETS, .lanes = PT_MAX_LANES, .slots = PT_MAX_SLOTS
};

static const struct site *site = &two_yards;
static uint32_t memory[MOST_WORDS]; /* of which as many are lent as the site takes */
static struct server server;
static pid_t processes[MOST_CLIENTS]; /* 0: not started, or gone */
static double begun, seconds; /* when the hall opened, and for how long it is open */
static uint64_t seed;
static uint64_t calls;

/* Ends the clients that were started, each by its number, and waits until they are gone. */
static void end_clients(void)
{
	for (uint32_t n = 0; n < MOST_CLIENTS; n++)
		if (processes[n] > 0)
			kill(processes[n], SIGKILL);
	for (uint32_t n = 0; n < MOST_CLIENTS; n++)
		if (processes[n] > 0)
			waitpid(processes[n], NULL, 0);
}

static double now(void)
{
	struct timespec time;

	clock_gettime(CLOCK_MONOTONIC, &time);
	return (double)time.tv_sec + (double)time.tv_nsec / 1e9;
}

/* ---- lanes that die */

enum { DEATHS = 4 };

static struct {
	uint32_t lane[DEATHS];
	uint32_t count;
	bool back; /* the first of them, by a new computer */
} dead;

/* When death number @n is due: the times of all, and of the coming back, are as far from each other as from the hall's ends. */
static double due(uint32_t n)
{
	return begun + seconds * (n + 1) / (DEATHS + 2);
}

/* Half of them die with a lookup running, which the call has just started, half of them without. */
static enum server_call last_call(uint32_t n)
{
	return n % 2 == 0 ? SERVER_START : SERVER_BEGIN;
}

/*
 * A call was made and is not answered yet: its client waits. A lane that is due to die is killed here, so that it is in its section
 * for sure.
 */
static void made(uint32_t client, const struct server_request *request, const uint32_t *answer)
{
	history_note(request, answer);
	calls++;
	if (client >= site_lanes(site) || answer[0] != PT_OK)
		return; /* an office, or the server itself */
	if (dead.count == DEATHS || request->call != last_call(dead.count) || now() < due(dead.count))
		return;
	kill(processes[client], SIGKILL);
	waitpid(processes[client], NULL, 0);
	processes[client] = 0;
	dead.lane[dead.count++] = client;
}

/* ---- the processes */

static void become_client(uint32_t number, int connection, bool again)
{
	struct client client = {
		.number = number,
		.lanes = site_lanes(site),
		.connection = connection,
		.random = seed * site_clients(site) + number + 1,
	};

	for (uint32_t n = 0; n < server.clients; n++)
		if (server.client[n].connection >= 0)
			close(server.client[n].connection);
	if (number >= client.lanes)
		office_serve(&client);
	else if (again)
		lane_come_back(&client);
	else
		lane_serve(&client);
	exit(0);
}

/* The machine has no socket or no process left for a client. */
static void too_many(const char *what, uint32_t client)
{
	perror(what);
	fprintf(stderr, "hall: %" PRIu32 " lanes and %" PRIu32 " offices are as many processes, each with a socket; number %" PRIu32
		" is one too many here (ulimit -u, ulimit -n)\n",
		site_lanes(site), site->yards, client + 1);
	end_clients();
	exit(1);
}

/* Starts a client's process, for the first time or in the place of one that died. */
static void start_client(uint32_t number, bool again)
{
	int ends[2]; /* the server's and the client's */

	if (socketpair(AF_UNIX, SOCK_SEQPACKET, 0, ends) != 0)
		too_many("hall: socketpair", number);
	processes[number] = fork();
	if (processes[number] < 0)
		too_many("hall: fork", number);
	if (processes[number] == 0) {
		close(ends[0]);
		become_client(number, ends[1], again);
	}
	close(ends[1]); /* the connection ends with the client */
	server_connect(&server, number, ends[0], number < site_lanes(site) ? number : SERVER_NO_LANE);
}

/* The first lane that died, once all have: a new computer takes its place. */
static void come_back(void)
{
	if (dead.back || dead.count < DEATHS || now() < due(DEATHS) || server.client[dead.lane[0]].connection >= 0)
		return;
	start_client(dead.lane[0], true);
	dead.back = true;
}

/* Something hangs, or the run is broken off: it has failed, and no client stays. */
static void give_up(int signal_number)
{
	(void)signal_number;
	end_clients();
	_exit(1);
}

/* How many of the clients, but for those that died and were waited for, ended otherwise than well. */
static uint32_t count_failed(void)
{
	uint32_t failed = 0;
	int status;

	for (uint32_t n = 0; n < site_clients(site); n++) {
		if (processes[n] == 0)
			continue;
		if (waitpid(processes[n], &status, 0) != processes[n] || !WIFEXITED(status) ||
				WEXITSTATUS(status) != 0)
			failed++;
		processes[n] = 0; /* gone: its number may belong to another process now */
	}
	return failed;
}

/* ---- the hall closes */

static uint32_t make(enum server_call call, uint32_t lane, uint32_t *answer)
{
	const struct server_request request = {
		.call = call, .lane = lane, .kind = call == SERVER_PASS ? PT_CHANGED_OVER : 0
	};

	return server_make(&server, SERVER_ITSELF, &request, answer);
}

/* Every lane that is on passes and reclaims until no slot is retired; returns whether that came. */
static bool reclaim_all(void)
{
	uint32_t answer[PT_ANSWER_WORDS];

	for (int n = 0; n < CLOSING_ROUNDS; n++) {
		for (uint32_t lane = 0; lane < site_lanes(site); lane++) {
			make(SERVER_CLOCK, lane, answer);
			make(SERVER_PASS, lane, answer);
			make(SERVER_CLOCK, lane, answer);
			while (make(SERVER_HAND_BACK, lane, answer) == PT_OK)
				;
		}
		if (make(SERVER_AWAITED, 0, answer) == PT_OK && answer[4] == 0)
			return true;
	}
	return false;
}

/* Serves until each client has gone; when the time is over they are told to. A busy machine gets the time that the deaths take. */
static void serve(void)
{
	begun = now();
	while (server_round(&server, ROUND_MILLISECONDS)) {
		come_back();
		server.closing = dead.back && now() >= begun + seconds;
	}
}

/* Whether lanes died, each in its section, and the server took each of them off; and one came back. */
static bool deaths_survived(void)
{
	printf("hall: %" PRIu32 " lanes died, %" PRIu32 " of them in a section, which was ended for them; %" PRIu32 " were taken off, %" PRIu32
		" left on as the only one; %d came on again by a new computer\n",
		server.died, server.ended, server.off, server.last, dead.back ? 1 : 0);
	return server.died == DEATHS && server.ended == DEATHS && server.off == DEATHS && dead.back;
}

/* Opens the hall, serves, closes it; returns whether all clients ended well but those that were killed. */
static bool open_hall(void)
{
	double taken;
	uint32_t failed;

	for (uint32_t n = 0; n < site_clients(site); n++)
		start_client(n, false);
	signal(SIGALRM, give_up);
	signal(SIGINT, give_up);
	signal(SIGTERM, give_up);
	alarm((unsigned)seconds + GRACE_SECONDS);
	serve();
	taken = now() - begun;
	failed = count_failed();
	printf("hall: %" PRIu32 " lanes and %" PRIu32 " offices, %" PRIu32 " x %" PRIu32 " x %" PRIu32 " x %" PRIu32 ": %" PRIu64
		" calls in %.1f s, %.0f a second\n",
		site_lanes(site), site->yards, site->yards, site->cabinets, site->lanes, site->slots, calls, taken, (double)calls / taken);
	if (failed > 0)
		printf("hall: %" PRIu32 " of %" PRIu32 " processes failed\n", failed, site_clients(site));
	return deaths_survived() && failed == 0;
}

/* Sets the table up and runs the hall; returns whether all was well. */
static bool run(void)
{
	uint32_t answer[PT_ANSWER_WORDS];
	bool served, reclaimed, explained;

	if (pt_setup(memory, site_words(site), answer, PT_ANSWER_WORDS, site->yards, site->cabinets, site->lanes, site->slots) != PT_OK) {
		fprintf(stderr, "hall: set-up is refused, %s\n", pt_message(answer[0]));
		return false;
	}
	history_setup(site, answer);
	server_start(&server, memory, site_words(site));
	server.made = made;
	served = open_hall();
	reclaimed = reclaim_all();
	alarm(0);
	printf("hall: closed; %s retired slot came back\n", reclaimed ? "every" : "NOT every");
	explained = history_judge(site);
	return served && reclaimed && explained;
}

int main(int arguments, char **argument)
{
	const char *name = argument[0];

	if (arguments > 1 && strcmp(argument[1], "full") == 0) {
		site = &full;
		arguments--;
		argument++;
	}
	seconds = arguments > 1 ? atof(argument[1]) : SECONDS;
	seed = arguments > 2 ? strtoull(argument[2], NULL, 10) : 1;
	if (seconds <= 0 || arguments > 3) {
		fprintf(stderr, "usage: %s [full] [SECONDS [SEED]]\n", name);
		return 2;
	}
	return run() ? 0 : 1;
}
