/*
 * server.c - the only place that makes calls on the memory. The order in which requests are taken is all the agreement that
 * there is between lanes and offices.
 */
#define _DEFAULT_SOURCE
#include "server.h"

#include <errno.h>
#include <poll.h>
#include <string.h>
#include <sys/socket.h>
#include <unistd.h>

const char *const server_names[SERVER_CALLS] = {
	[SERVER_ADD] = "add",
	[SERVER_REPLACE] = "replace",
	[SERVER_DELETE] = "delete",
	[SERVER_BEGIN] = "begin",
	[SERVER_END] = "end",
	[SERVER_START] = "start",
	[SERVER_STEP] = "step",
	[SERVER_PASS] = "pass",
	[SERVER_CLOCK] = "clock",
	[SERVER_ON] = "on",
	[SERVER_OFF] = "off",
	[SERVER_HAND_BACK] = "hand-back",
	[SERVER_AWAITED] = "awaited",
};

/* ---- calls */

static uint32_t call(const struct server *server, const struct server_request *of, uint32_t *answer)
{
	uint32_t *memory = server->memory;
	const size_t words = server->words, five = PT_ANSWER_WORDS;

	switch (of->call) {
	case SERVER_ADD:
		return pt_add(memory, words, answer, five, of->lane, of->code, of->deposit, of->material);
	case SERVER_REPLACE:
		return pt_replace(memory, words, answer, five, of->lane, of->code, of->deposit, of->material);
	case SERVER_DELETE:
		return pt_delete(memory, words, answer, five, of->lane, of->code);
	case SERVER_BEGIN:
		return pt_begin(memory, words, answer, five, of->lane);
	case SERVER_END:
		return pt_end(memory, words, answer, five, of->lane);
	case SERVER_START:
		return pt_start(memory, words, answer, five, of->lane, of->code);
	case SERVER_STEP:
		return pt_step(memory, words, answer, five, of->lane);
	case SERVER_PASS:
		return pt_pass(memory, words, answer, five, of->lane, of->kind);
	case SERVER_CLOCK:
		return pt_clock(memory, words, answer, five, of->lane);
	case SERVER_ON:
		return pt_on(memory, words, answer, five, of->lane);
	case SERVER_OFF:
		return pt_off(memory, words, answer, five, of->lane);
	case SERVER_HAND_BACK:
		return pt_hand_back(memory, words, answer, five, of->lane);
	default:
		return pt_awaited(memory, words, answer, five);
	}
}

uint32_t server_make(struct server *server, uint32_t client, const struct server_request *request, uint32_t *answer)
{
	uint32_t status = call(server, request, answer);

	if (server->made != NULL)
		server->made(client, request, answer);
	return status;
}

/* ---- lanes whose computer is gone */

static uint32_t make_itself(struct server *server, enum server_call name, uint32_t lane)
{
	const struct server_request request = { .call = name, .lane = lane };
	uint32_t answer[PT_ANSWER_WORDS];

	return server_make(server, SERVER_ITSELF, &request, answer);
}

/* Takes a lane off that has no computer and no section; one that is off already stays so. */
static void take_off(struct server *server, uint32_t lane)
{
	uint32_t status = make_itself(server, SERVER_OFF, lane);

	if (status == PT_LAST_LANE)
		server->left_on = lane;
	else if (lane == server->left_on)
		server->left_on = SERVER_NO_LANE;
	server->last += status == PT_LAST_LANE ? 1 : 0;
	server->off += status == PT_OK ? 1 : 0;
}

/* The client's connection has ended. A lane that was told to leave and has no section open left in good order. */
static void lose(struct server *server, struct server_client *client)
{
	bool ended;

	close(client->connection);
	client->connection = -1;
	if (client->lane == SERVER_NO_LANE)
		return;
	ended = make_itself(server, SERVER_END, client->lane) == PT_OK;
	if (client->told && !ended)
		return;
	server->died++;
	server->ended += ended ? 1 : 0;
	take_off(server, client->lane);
}

/* ---- clients */

void server_start(struct server *server, uint32_t *memory, size_t words)
{
	*server = (struct server){ .memory = memory, .words = words, .left_on = SERVER_NO_LANE };
	for (uint32_t n = 0; n < SERVER_MOST_CLIENTS; n++)
		server->client[n].connection = -1;
}

void server_connect(struct server *server, uint32_t client, int connection, uint32_t lane)
{
	server->client[client] = (struct server_client){ .connection = connection, .lane = lane };
	if (client >= server->clients)
		server->clients = client + 1;
	if (lane == server->left_on)
		server->left_on = SERVER_NO_LANE; /* it has a computer again */
}

static void respond(struct server *server, struct server_client *client, const uint32_t *answer)
{
	struct server_response response = { .closing = server->closing };

	memcpy(response.answer, answer, sizeof response.answer);
	if (send(client->connection, &response, sizeof response, MSG_NOSIGNAL) != (ssize_t)sizeof response)
		lose(server, client);
	else
		client->told = server->closing;
}

/* Serves a request of the client. One that is no request ends its connection, as its death would. */
static void serve(struct server *server, uint32_t number)
{
	struct server_client *client = &server->client[number];
	struct server_request request;
	uint32_t answer[PT_ANSWER_WORDS], status;
	ssize_t got = recv(client->connection, &request, sizeof request, MSG_TRUNC);

	if (got < 0 && errno == EINTR)
		return;
	if (got != (ssize_t)sizeof request || request.call >= SERVER_CALLS) {
		lose(server, client);
		return;
	}
	status = server_make(server, number, &request, answer);
	respond(server, client, answer);
	if (request.call == SERVER_ON && status == PT_OK && server->left_on != SERVER_NO_LANE)
		take_off(server, server->left_on); /* it is no longer the only one on */
}

static bool connected(const struct server *server)
{
	for (uint32_t n = 0; n < server->clients; n++)
		if (server->client[n].connection >= 0)
			return true;
	return false;
}

/* Waits for the clients, of which those without a connection are passed over; returns what poll() does. */
static int wait_for(const struct server *server, struct pollfd *waiting, int milliseconds)
{
	for (uint32_t n = 0; n < server->clients; n++)
		waiting[n] = (struct pollfd){ .fd = server->client[n].connection, .events = POLLIN };
	return poll(waiting, server->clients, milliseconds);
}

bool server_round(struct server *server, int milliseconds)
{
	struct pollfd waiting[SERVER_MOST_CLIENTS];
	int ready = wait_for(server, waiting, milliseconds);

	if (ready < 0)
		return errno == EINTR && connected(server);
	for (uint32_t n = 0; n < server->clients && ready > 0; n++)
		if (waiting[n].revents != 0)
			serve(server, n);
	return connected(server);
}
