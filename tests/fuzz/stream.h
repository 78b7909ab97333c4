/*
 * stream.h - calls and damages as bytes, for the fuzzer: what its bytes mean, and how
 * the seeds are written. Any bytes are a stream, and each byte changed is a stream near
 * by. An operation is one byte, modulo OPERATIONS, and then its arguments:
 *   a call (below CALLS), its arguments as numbers, codes where it takes codes;
 *   POKE, an address and a number: a word of the memory changes;
 *   COPY, two addresses: a word is written over another;
 *   LEND, a number: how many words of the memory are lent from here on, below 16 that
 *     many more than the total less 8, below 32 that many less 16, else the number;
 *   ANSWER, a byte: how many words of answer are lent from here on;
 *   MEND: what the last accepted call left is put back, and everything is lent again;
 *   ROUND: an awaited, then lanes from the lowest pending one on, at most 100, make the calls
 *     clock, pass 0 and clock;
 *   READ, a byte: a label of so many bytes, modulo LABEL_MOST and one, is read, and then its
 *     bytes follow: one below BYTES is a digit by its last, one from there on comes before
 *     the byte that is meant;
 *   WRITE, a byte and a code: the code's label is written into so many bytes;
 *   COUNT, a lane and a byte: a count of the lane, whose kind are the byte's two low bits, is
 *     about to carry its low word, or with the next bit to wrap: 0 to 3 passes, by the two
 *     bits after, bring it there.
 * A number is a byte below EDGES for itself, one of the edges, or RAW and four bytes,
 * low byte first. A lane is a number too, but bytes from LANES to EDGES count down from the
 * first number that is no lane. A code is a byte below EDGES for one of 32 codes, a code
 * about the limit, or RAW and eight bytes. An address is two bytes, modulo the words lent.
 */
#ifndef FUZZ_STREAM_H
#define FUZZ_STREAM_H

#include <stddef.h>
#include <stdint.h>

#include "calls.h"
#include "codes.h"
#include "product_table.h"
#include "steps.h"

enum {
	POKE = CALLS,
	COPY,
	LEND,
	ANSWER,
	MEND,
	ROUND,
	READ,
	WRITE,
	COUNT,
	OPERATIONS
};

enum { LANES = 0x40, BYTES = 0xc8, EDGES = 0xe0, RAW = 0xf0 };

static const uint32_t edges[RAW - EDGES] = {
	PT_NONE, PT_NONE - 1, 0x7fffffffu, 0x80000000u, 1023, 1024, 1025, PT_MAX_DEPOSIT,
	PT_MAX_DEPOSIT + 1, (uint32_t)PT_MAX_CODE, (uint32_t)PT_MAX_CODE + 1,
	(uint32_t)(PT_MAX_CODE >> 32), (uint32_t)(PT_MAX_CODE >> 32) + 1, 256, 65535, 65536,
};

/*
 * The code that a byte below EDGES is: four right codes of each of two chains, of each
 * another of fourteen digits with the same low word, and of each of these sixteen a wrong
 * one of its chain.
 */
static inline uint64_t spread(uint32_t byte)
{
	static uint64_t codes[32]; /* each is found once; 0 is not yet found, or itself */
	uint32_t n = byte & 31u;

	if (codes[n] == 0) {
		codes[n] = CODE_OF_CHAIN(n & 4u ? 17 : 0, n & 3u);
		if (n & 8u)
			codes[n] = CODE_NEAR_LIMIT((uint32_t)codes[n], 0);
		if (n & 16u)
			codes[n] = wrong_code(codes[n]);
	}
	return codes[n];
}

/* What is left of a stream. */
struct stream {
	const uint8_t *at;
	size_t left;
};

/* The next byte, 0 at the end. */
static inline uint32_t stream_byte(struct stream *stream)
{
	if (stream->left == 0)
		return 0;
	stream->left--;
	return *stream->at++;
}

static inline uint64_t stream_bytes(struct stream *stream, unsigned count)
{
	uint64_t value = 0;

	for (unsigned n = 0; n < count; n++)
		value |= (uint64_t)stream_byte(stream) << 8 * n;
	return value;
}

/* The number that begins with a byte. */
static inline uint32_t stream_rest(struct stream *stream, uint32_t byte)
{
	if (byte < EDGES)
		return byte;
	return byte < RAW ? edges[byte - EDGES] : (uint32_t)stream_bytes(stream, 4);
}

static inline uint32_t stream_number(struct stream *stream)
{
	return stream_rest(stream, stream_byte(stream));
}

static inline uint32_t stream_lane(struct stream *stream, uint32_t lanes)
{
	uint32_t byte = stream_byte(stream);

	return byte >= LANES && byte < EDGES ? lanes - (byte - LANES) % (lanes + 1) : stream_rest(stream, byte);
}

static inline uint64_t stream_code(struct stream *stream)
{
	uint32_t byte = stream_byte(stream);

	if (byte < EDGES)
		return spread(byte);
	if (byte < RAW)
		return PT_MAX_CODE - 8 + (byte - EDGES);
	return stream_bytes(stream, 8);
}

/* The call whose operation byte was read, for a table of so many lanes. */
static inline struct call stream_call(struct stream *stream, enum call_name name, uint32_t lanes)
{
	struct call call = { .name = name };

	for (uint32_t n = 0; n < call_arguments(name); n++)
		if (call_forms[name].kind[n] == KIND_CODE)
			call.argument[n] = stream_code(stream);
		else if (call_forms[name].kind[n] == KIND_LANE)
			call.argument[n] = stream_lane(stream, lanes);
		else
			call.argument[n] = stream_number(stream);
	return call;
}

/* The step of a label function whose operation byte was read. */
static inline struct step stream_label(struct stream *stream, enum step_kind kind)
{
	struct step step = { .kind = kind, .number = stream_byte(stream) % (LABEL_MOST + 1) };

	if (kind == STEP_WRITE)
		step.code = stream_code(stream);
	for (uint32_t n = 0; kind == STEP_READ && n < step.number; n++) {
		uint32_t byte = stream_byte(stream);

		step.text[n] = (uint8_t)(byte < BYTES ? '0' + byte % 10 : stream_byte(stream));
	}
	return step;
}

#endif /* FUZZ_STREAM_H */
