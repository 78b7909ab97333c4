/*
 * server.h - what the program of a lane computer needs: one process lends the memory of a table and makes the calls that
 * its clients ask for, one after another. It uses the library's header alone; take server.h and server.c as they are.
 *
 * A client is a lane's computer or an office, at the other end of a socket of type SOCK_SEQPACKET. It sends a request and
 * waits for the response; between two requests of one client any number of others may be served. No one holds a lock.
 *
 * A lane's computer may die at any moment. Its connection ends then, and the server does what the lane cannot do any more: it
 * ends the lane's section, which drops a running lookup, and takes the lane off, which hands its retired slots over. Without
 * that no grace period would end again. A lane that is the only one on cannot be taken off (PT_LAST_LANE): it stays on, its
 * section ended, until another comes on or a new computer takes its place.
 */
#ifndef HALL_SERVER_H
#define HALL_SERVER_H

#include <stdbool.h>
#include <stddef.h>
#include <stdint.h>

#include "product_table.h"

/* The calls that a client may ask for; the set-up is its owner's. */
enum server_call {
	SERVER_ADD,
	SERVER_REPLACE,
	SERVER_DELETE,
	SERVER_BEGIN,
	SERVER_END,
	SERVER_START,
	SERVER_STEP,
	SERVER_PASS,
	SERVER_CLOCK,
	SERVER_ON,
	SERVER_OFF,
	SERVER_HAND_BACK,
	SERVER_AWAITED,
	SERVER_CALLS
};

extern const char *const server_names[SERVER_CALLS];

/* What a client sends: a call and its arguments; those that it does not take are 0. */
struct server_request {
	uint32_t call; /* enum server_call */
	uint32_t lane;
	uint64_t code;
	uint32_t deposit;
	uint32_t material;
	uint32_t kind;
	uint32_t spare; /* 0: the record has no padding */
};

/* What it gets back. */
struct server_response {
	uint32_t answer[PT_ANSWER_WORDS];
	uint32_t closing; /* 1: the server closes; the client may end its work and leave */
};

#define SERVER_NO_LANE PT_NONE

struct server_client {
	int connection; /* -1: none */
	uint32_t lane;	/* whose computer it is; SERVER_NO_LANE: an office */
	bool told;	/* that the server closes: to leave outside a section is no death then */
};

enum { SERVER_MOST_CLIENTS = PT_MAX_YARDS * (PT_MAX_CABINETS * PT_MAX_LANES + 1) };

struct server {
	uint32_t *memory; /* a table that is set up; lent to the calls, and to no one else */
	size_t words;
	bool closing;	  /* set by the owner: clients are told */
	/* Called after each call, before it is answered; may be NULL. Calls that the server makes itself have SERVER_ITSELF for the client. */
	void (*made)(uint32_t client, const struct server_request *request, const uint32_t *answer);
	struct server_client client[SERVER_MOST_CLIENTS];
	uint32_t clients; /* how many of these there are, connected or not */
	uint32_t left_on; /* the lane that is on and has no computer, or SERVER_NO_LANE */
	uint32_t died;	  /* lanes whose computer was gone before it was told to leave, or in a section */
	uint32_t ended;	  /* of these: sections that the server ended, */
	uint32_t off;	  /* lanes that it took off, */
	uint32_t last;	  /* and refusals with PT_LAST_LANE */
};

#define SERVER_ITSELF PT_NONE

/* A server with no client, on a table that is set up. */
void server_start(struct server *server, uint32_t *memory, size_t words);

/* Takes client @client's connection. A lane whose computer died is off, and comes on by its new computer's own call. */
void server_connect(struct server *server, uint32_t client, int connection, uint32_t lane);

/* Makes a call on the memory; returns the status. */
uint32_t server_make(struct server *server, uint32_t client, const struct server_request *request, uint32_t *answer);

/*
 * Waits for requests, at most so long, and serves one of each client that sent one; sees to those that are gone. Returns
 * whether a client is connected; false, with errno set, if it cannot wait for them.
 */
bool server_round(struct server *server, int milliseconds);

#endif /* HALL_SERVER_H */
