/*
 * clients.c - a lane and an office of the hall, each a process of its own. They know
 * nothing of the memory: they ask for calls and get five words back. The labels of products
 * they write and read themselves, which takes no memory. No one holds a lock.
 * Between two steps of a lane's lookup any number of other calls may come.
 *
 * What a lane owes to the others: it reports a quiescent state (pass) outside its sections
 * and makes a clock now and then. A lane that stops doing so while it is online keeps
 * retired slots from being reclaimed; before a longer rest it goes off. It may end its
 * section whenever its customer goes: a lookup that runs is dropped with it.
 */
#define _DEFAULT_SOURCE
#include "hall.h"

#include <inttypes.h>
#include <stdio.h>
#include <stdlib.h>
#include <string.h>
#include <sys/socket.h>
#include <unistd.h>

/* ---- asking */

static uint32_t draw(struct client *client, uint32_t below)
{
	client->random = client->random * UINT64_C(6364136223846793005) +
		UINT64_C(1442695040888963407);
	return (uint32_t)((client->random >> 33) % below);
}

/* Asks for a call; returns the status. */
static uint32_t ask(struct client *client, struct server_request request)
{
	struct server_response response;

	if (send(client->connection, &request, sizeof request, MSG_NOSIGNAL) != (ssize_t)sizeof request ||
			recv(client->connection, &response, sizeof response, 0) != (ssize_t)sizeof response) {
		fprintf(stderr, "hall: client %" PRIu32 " hears nothing\n", client->number);
		exit(1);
	}
	memcpy(client->answer, response.answer, sizeof client->answer);
	if (response.closing)
		client->closing = true;
	return client->answer[0];
}

/* A call that this client has no reason to see refused. */
static void must(struct client *client, struct server_request request)
{
	uint32_t status = ask(client, request);

	if (status != PT_OK) {
		fprintf(stderr, "hall: client %" PRIu32 ": %s is refused, %s\n",
			client->number, server_names[request.call], pt_message(status));
		exit(1);
	}
}

/* A lane's call that takes its number alone. */
static struct server_request own(const struct client *lane, enum server_call call)
{
	return (struct server_request){ .call = call, .lane = lane->number };
}

static void pass(struct client *lane, uint32_t kind)
{
	must(lane, (struct server_request){ .call = SERVER_PASS, .lane = lane->number, .kind = kind });
}

static void start(struct client *lane, uint64_t code)
{
	must(lane, (struct server_request){ .call = SERVER_START, .lane = lane->number, .code = code });
}

/* ---- labels */

/* The bytes of a label; no closing NUL comes after them. */
struct label {
	uint8_t text[PT_LABEL_14];
	uint32_t length;
};

/* The label of a code, as it is printed. */
static struct label printed(uint64_t code)
{
	struct label label = { .length = 0 };
	uint32_t answer[PT_ANSWER_WORDS];

	if (pt_label_write(label.text, sizeof label.text, answer, PT_ANSWER_WORDS, code) != PT_OK) {
		fprintf(stderr, "hall: no label of %" PRIu64 "\n", code);
		exit(1);
	}
	label.length = answer[1];
	return label;
}

/* Reads the code of a label; returns the status. */
static uint32_t read_label(const struct label *label, uint64_t *code)
{
	uint32_t answer[PT_ANSWER_WORDS];
	uint32_t status = pt_label_read(label->text, label->length, answer, PT_ANSWER_WORDS);

	*code = (uint64_t)answer[2] << 32 | answer[1];
	return status;
}

/* The code of a product, as its label is read: the same that was printed. */
static uint64_t by_label(uint64_t printed_code)
{
	struct label label = printed(printed_code);
	uint64_t code;

	if (read_label(&label, &code) == PT_OK && code == printed_code)
		return code;
	fprintf(stderr, "hall: the label of %" PRIu64 " is not read\n", printed_code);
	exit(1);
}

/* ---- a lane */

static void look_up(struct client *lane, uint64_t code)
{
	start(lane, code);
	do
		must(lane, own(lane, SERVER_STEP));
	while (lane->answer[1] == PT_GOING);
}

/* A bottle that the customer takes back: the lane leaves its lookup after a few steps. */
static void look_up_halfway(struct client *lane, uint64_t code)
{
	uint32_t steps = draw(lane, 4);

	start(lane, code);
	while (steps-- > 0 && lane->answer[1] == PT_GOING) /* 0 in the start's answer too */
		must(lane, own(lane, SERVER_STEP));
}

/* The code of a bottle, by its label; the table may have no such product. */
static uint64_t draw_bottle(struct client *lane)
{
	return by_label(product_code(draw(lane, PRODUCTS + PRODUCTS / 10)));
}

/* One customer: some bottles in one section, of which the last may be taken back. */
static void serve_customer(struct client *lane)
{
	uint32_t bottles = 1 + draw(lane, 4);

	must(lane, own(lane, SERVER_BEGIN));
	while (bottles-- > 0) {
		look_up(lane, draw_bottle(lane));
		if (draw(lane, 4) == 0)
			must(lane, own(lane, SERVER_CLOCK)); /* a clock may come at any time */
	}
	if (draw(lane, 8) == 0)
		look_up_halfway(lane, draw_bottle(lane));
	must(lane, own(lane, SERVER_END)); /* it waits for no answer */
	pass(lane, PT_BOTTLE_DROPPED);
}

/* Reclaims what this lane's done queue has, or else the global one. */
static void reclaim(struct client *lane)
{
	while (ask(lane, own(lane, SERVER_HAND_BACK)) == PT_OK)
		;
	if (lane->answer[0] != PT_NOTHING_DONE) {
		fprintf(stderr, "hall: hand-back is refused, %s\n", pt_message(lane->answer[0]));
		exit(1);
	}
}

/* A rest: off first, so that no grace period waits for the lane. */
static void rest(struct client *lane)
{
	if (ask(lane, own(lane, SERVER_OFF)) == PT_LAST_LANE)
		return;
	usleep(1000 + draw(lane, 5000));
	must(lane, own(lane, SERVER_ON));
}

void lane_serve(struct client *lane)
{
	while (!lane->closing) {
		serve_customer(lane);
		must(lane, own(lane, SERVER_CLOCK));
		if (draw(lane, 8) == 0)
			reclaim(lane);
		if (draw(lane, 40) == 0)
			rest(lane);
		if (draw(lane, 10) == 0)
			pass(lane, PT_DOOR_OPEN);
	}
}

/* A lane that was left on, being the only one, is on already. */
void lane_come_back(struct client *lane)
{
	uint32_t status = ask(lane, own(lane, SERVER_ON));

	if (status != PT_OK && status != PT_ONLINE) {
		fprintf(stderr, "hall: a new computer of lane %" PRIu32 " is refused, %s\n", lane->number, pt_message(status));
		exit(1);
	}
	lane_serve(lane);
}

/* ---- an office */

enum { TEN = 10 };

/* Its changes are made by a lane that is online; another one where this one is not. */
static uint32_t change(struct client *office, enum server_call name, uint64_t code)
{
	struct server_request request = {
		.call = name,
		.code = code,
		.deposit = name == SERVER_DELETE ? 0 : draw(office, 100),
		.material = name == SERVER_DELETE ? 0 : draw(office, PT_MAX_MATERIAL + 1),
	};
	uint32_t status;

	do {
		request.lane = draw(office, office->lanes);
		status = ask(office, request);
	} while (status == PT_OFFLINE);
	return status;
}

/* A label with one byte mistyped makes no entry, whatever the label and the byte. */
static void mistype(struct client *office, enum server_call name, uint64_t printed_code)
{
	struct label label = printed(printed_code);
	uint8_t *byte = &label.text[draw(office, label.length)];
	bool letter = draw(office, 4) == 0; /* no digit, or a wrong one */
	uint64_t code;
	uint32_t status;

	*byte = letter ? 'O' : (uint8_t)('0' + (*byte - '0' + 1 + draw(office, TEN - 1)) % TEN);
	status = read_label(&label, &code);
	if (!letter && status == PT_OK)
		status = change(office, name, code);
	if (status == (letter ? PT_WRONG_LABEL : PT_WRONG_DIGIT))
		return;
	fprintf(stderr, "hall: a mistyped label is answered with %s\n", pt_message(status));
	exit(1);
}

void office_serve(struct client *office)
{
	static const enum server_call names[] = { SERVER_ADD, SERVER_ADD, SERVER_REPLACE, SERVER_DELETE };

	while (!office->closing) {
		enum server_call name = names[draw(office, 4)];
		uint64_t code = product_code(draw(office, PRODUCTS));

		if (name != SERVER_DELETE && draw(office, 10) == 0)
			mistype(office, name, code);
		switch (change(office, name, by_label(code))) {
		case PT_OK:
		case PT_CODE_PRESENT:
		case PT_CODE_MISSING:
			break;
		case PT_NO_FREE_SLOT: /* the lanes reclaim; a look at what they wait for */
			must(office, (struct server_request){ .call = SERVER_AWAITED });
			break;
		default:
			fprintf(stderr, "hall: a change is refused, %s\n",
				pt_message(office->answer[0]));
			exit(1);
		}
	}
}
