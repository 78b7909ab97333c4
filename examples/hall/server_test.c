/*
 * server_test.c - what the server does for lanes that die, on a table of one cabinet with two lanes. The clients are this
 * process's own ends of their connections: a request is sent, a round is served, the response is there.
 */
#define _DEFAULT_SOURCE
#include "server.h"

#include <stdio.h>
#include <stdlib.h>
#include <sys/socket.h>
#include <unistd.h>

enum { LANES = 2, SLOTS = 4, OFFICE = LANES, CLIENTS, CODE = 17, WORDS = PT_WORDS(1, 1, LANES, SLOTS) };

static uint32_t memory[WORDS];
static struct server server;
static int end[CLIENTS]; /* of each client */
static uint32_t made_itself; /* calls that the server made on its own */

static void check(bool holds, const char *condition, int line)
{
	if (holds)
		return;
	fprintf(stderr, "server_test: line %d: %s does not hold\n", line, condition);
	exit(1);
}

#define CHECK(condition) check(condition, #condition, __LINE__)

static void made(uint32_t client, const struct server_request *request, const uint32_t *answer)
{
	(void)request;
	(void)answer;
	made_itself += client == SERVER_ITSELF ? 1 : 0;
}

static void connect_client(uint32_t client)
{
	int ends[2];

	CHECK(socketpair(AF_UNIX, SOCK_SEQPACKET, 0, ends) == 0);
	server_connect(&server, client, ends[0], client == OFFICE ? SERVER_NO_LANE : client);
	end[client] = ends[1];
}

/* A fresh table and the three clients. */
static void open_server(void)
{
	uint32_t answer[PT_ANSWER_WORDS];

	CHECK(pt_setup(memory, WORDS, answer, PT_ANSWER_WORDS, 1, 1, LANES, SLOTS) == PT_OK);
	server_start(&server, memory, WORDS);
	server.made = made;
	made_itself = 0;
	for (uint32_t client = 0; client < CLIENTS; client++)
		connect_client(client);
}

static void close_server(void)
{
	for (uint32_t client = 0; client < CLIENTS; client++)
		if (end[client] >= 0)
			close(end[client]);
	while (server_round(&server, 0))
		;
}

/* The client's process is gone. */
static void die(uint32_t client)
{
	close(end[client]);
	end[client] = -1;
	server_round(&server, 0);
}

/* The status of a client's call for a lane. */
static uint32_t ask(uint32_t client, enum server_call call, uint32_t lane)
{
	const struct server_request request = { .call = call, .lane = lane, .code = CODE };
	struct server_response response;

	CHECK(send(end[client], &request, sizeof request, 0) == (ssize_t)sizeof request);
	CHECK(server_round(&server, 0));
	CHECK(recv(end[client], &response, sizeof response, MSG_DONTWAIT) == (ssize_t)sizeof response);
	CHECK(response.closing == (server.closing ? 1u : 0u));
	return response.answer[0];
}

/* Lane 1 dies with a lookup running: its section ends, the lookup is dropped, the lane is off, and the office goes on. */
static void test_in_a_lookup(void)
{
	open_server();
	CHECK(ask(OFFICE, SERVER_ADD, 1) == PT_OK);
	CHECK(ask(1, SERVER_BEGIN, 1) == PT_OK && ask(1, SERVER_START, 1) == PT_OK);
	CHECK(ask(OFFICE, SERVER_DELETE, 1) == PT_OK); /* lane 1 has a retired slot, which goes over to the others */
	die(1);
	CHECK(server.died == 1 && server.ended == 1 && server.off == 1 && server.last == 0 && made_itself == 2);
	CHECK(ask(OFFICE, SERVER_DELETE, 1) == PT_OFFLINE && ask(OFFICE, SERVER_ADD, 0) == PT_OK);
	/* Its slot comes back though nothing is heard of it any more. */
	for (int n = 0; n < 3; n++)
		CHECK(ask(0, SERVER_CLOCK, 0) == PT_OK && ask(0, SERVER_PASS, 0) == PT_OK);
	CHECK(ask(0, SERVER_HAND_BACK, 0) == PT_OK);
	/* A new computer: the lane comes on, with no section and no lookup. */
	connect_client(1);
	CHECK(ask(1, SERVER_ON, 1) == PT_OK && ask(1, SERVER_END, 1) == PT_NO_SECTION && ask(1, SERVER_STEP, 1) == PT_NO_LOOKUP);
	close_server();
}

/* The only lane on dies: it stays on with its section ended, until another comes on. */
static void test_last_lane(void)
{
	open_server();
	CHECK(ask(1, SERVER_OFF, 1) == PT_OK && ask(0, SERVER_BEGIN, 0) == PT_OK);
	die(0);
	CHECK(server.died == 1 && server.ended == 1 && server.off == 0 && server.last == 1 && server.left_on == 0);
	CHECK(ask(OFFICE, SERVER_ADD, 0) == PT_OK && ask(OFFICE, SERVER_END, 0) == PT_NO_SECTION);
	CHECK(ask(1, SERVER_ON, 1) == PT_OK);
	CHECK(server.off == 1 && server.left_on == SERVER_NO_LANE && ask(OFFICE, SERVER_PASS, 0) == PT_OFFLINE);
	close_server();
}

/* The only lane on dies, and a new computer takes its place: it is on already, and stays so. */
static void test_last_lane_again(void)
{
	open_server();
	CHECK(ask(1, SERVER_OFF, 1) == PT_OK);
	die(0);
	connect_client(0);
	CHECK(ask(0, SERVER_ON, 0) == PT_ONLINE && server.left_on == SERVER_NO_LANE);
	die(1); /* off already: nothing is left to do */
	CHECK(server.died == 2 && server.ended == 0 && server.off == 0 && server.left_on == SERVER_NO_LANE);
	CHECK(ask(0, SERVER_PASS, 0) == PT_OK);
	close_server();
}

/* An office that dies holds nothing up. */
static void test_office(void)
{
	open_server();
	die(OFFICE);
	CHECK(server.died == 0 && made_itself == 0 && ask(0, SERVER_PASS, 0) == PT_OK);
	close_server();
}

/* What is no request ends the connection. */
static void test_no_request(void)
{
	const struct server_request beyond = { .call = SERVER_CALLS };
	const char longer[sizeof beyond + 1] = { 0 };

	open_server();
	CHECK(send(end[0], &beyond, sizeof beyond, 0) > 0 && send(end[1], longer, sizeof longer, 0) > 0);
	CHECK(send(end[OFFICE], longer, 1, 0) > 0 && !server_round(&server, 0));
	CHECK(server.died == 2 && server.off == 1 && server.left_on == 1);
	close_server();
}

/* A lane that is told and leaves has not died; one that leaves in its section has. */
static void test_closing(void)
{
	open_server();
	server.closing = true;
	CHECK(ask(0, SERVER_PASS, 0) == PT_OK && ask(1, SERVER_BEGIN, 1) == PT_OK);
	die(0);
	CHECK(server.died == 0);
	die(1);
	CHECK(server.died == 1 && server.ended == 1 && server.off == 1);
	close_server();
}

int main(void)
{
	test_in_a_lookup();
	test_last_lane();
	test_last_lane_again();
	test_office();
	test_no_request();
	test_closing();
	puts("server: it survives the death of its clients");
	return 0;
}
