/*
 * hall.h - what the programs of the hall share: a site's sizes, the products, and a client's side of the
 * server (server.h).
 */
#ifndef HALL_H
#define HALL_H

#include <stdbool.h>
#include <stddef.h>
#include <stdint.h>

#include "codes.h"
#include "product_table.h"
#include "server.h"

/* A site, by the sizes that set-up takes. */
struct site {
	uint32_t yards;
	uint32_t cabinets; /* of a yard */
	uint32_t lanes;    /* of a cabinet */
	uint32_t slots;
};

/* The most that a site has. */
enum {
	MOST_CLIENTS = SERVER_MOST_CLIENTS, /* each yard has an office */
	MOST_WORDS = PT_WORDS(PT_MAX_YARDS, PT_MAX_CABINETS, PT_MAX_LANES, PT_MAX_SLOTS)
};

enum { PRODUCTS = 120 };

/* The lanes of all cabinets; as clients they come first, and the offices after them. */
static inline uint32_t site_lanes(const struct site *site)
{
	return site->yards * site->cabinets * site->lanes;
}

static inline uint32_t site_clients(const struct site *site)
{
	return site_lanes(site) + site->yards;
}

static inline size_t site_words(const struct site *site)
{
	return PT_WORDS(site->yards, site->cabinets, site->lanes, site->slots);
}

/*
 * Codes of eight chains, with right check digits, so that a lookup takes several steps. A
 * third each has labels of 8, 13 and 14 digits: what is added for the longer ones weighs 10
 * and is a multiple of 64, so that check digit and chain stay.
 */
static inline uint64_t product_code(uint32_t product)
{
	static const uint64_t added[] = { 0, UINT64_C(4000006000000), UINT64_C(10000007000000) };

	return added[product % 3] + CODE_OF_CHAIN(8 * (product % 8), product / 8);
}

/* A client's side. */
struct client {
	uint32_t number;
	uint32_t lanes; /* of the site */
	int connection; /* to the server */
	uint64_t random;
	bool closing;
	uint32_t answer[PT_ANSWER_WORDS];
};

/* ---- clients.c: what a lane and an office do until the hall closes */

void lane_serve(struct client *client);
void office_serve(struct client *client);

/* A new computer in the place of a lane's that died. */
void lane_come_back(struct client *client);

/* ---- history.c: the calls in their order, and the ledger's verdict on them */

void history_setup(const struct site *site, const uint32_t *answer);
void history_note(const struct server_request *request, const uint32_t *answer);

/* Prints what happened; returns whether there was no fault. */
bool history_judge(const struct site *site);

#endif /* HALL_H */
