/*
 * causes.c - the table of causes of documents 01 and 02, a function a row.
 */
#include "causes.h"

#include <stdbool.h>

#include "codes.h"
#include "reference.h"

/* A call on a table, for causes 4 and above. */
struct asked {
	const struct table *table; /* legal */
	const struct call *call;
	uint32_t lane;		   /* none where the call takes no lane */
	uint64_t code;
};

static const struct lane *lane_of(const struct asked *asked)
{
	return asked->lane < table_lanes(asked->table) ? &asked->table->lane[asked->lane] : NULL;
}

static bool flag(const struct asked *asked, uint32_t flag)
{
	return lane_of(asked) != NULL && (lane_of(asked)->flags & flag) != 0;
}

/* Whether there is such a lane, and it is online. */
static bool online(const struct asked *asked)
{
	return flag(asked, FLAG_ONLINE);
}

uint32_t slot_of(const struct table *table, uint64_t code)
{
	uint32_t s = table->heads[code % CHAINS];

	while (s != PT_NONE && table->slot[s].code != code)
		s = table->slot[s].chain_link;
	return s;
}

static bool code_present(const struct asked *asked)
{
	return slot_of(asked->table, asked->code) != PT_NONE;
}

static bool out_of_range(const struct call *call)
{
	return call_argument(call, KIND_CODE, 0) > PT_MAX_CODE ||
		call_argument(call, KIND_DEPOSIT, 0) > PT_MAX_DEPOSIT ||
		call_argument(call, KIND_MATERIAL, 0) > PT_MAX_MATERIAL ||
		call_argument(call, KIND_KIND, 0) > PT_MAX_KIND;
}

static bool only_lane(const struct asked *asked)
{
	uint32_t others = 0;

	for (uint32_t l = 0; l < table_lanes(asked->table); l++)
		others += l != asked->lane && asked->table->lane[l].flags & FLAG_ONLINE ? 1u : 0u;
	return online(asked) && others == 0;
}

static bool nothing_done(const struct asked *asked)
{
	return lane_of(asked) != NULL && asked->table->global.done.first == PT_NONE &&
		lane_of(asked)->retired.done.first == PT_NONE;
}

static bool applies(const struct asked *asked, uint32_t cause)
{
	switch (cause) {
	case PT_NO_LANE: return asked->lane >= table_lanes(asked->table);
	case PT_OFFLINE: return lane_of(asked) != NULL && !online(asked);
	case PT_ONLINE: return online(asked);
	case PT_IN_SECTION: return flag(asked, FLAG_READING);
	case PT_NO_SECTION: return lane_of(asked) != NULL && !flag(asked, FLAG_READING);
	case PT_IN_LOOKUP: return flag(asked, FLAG_LOOKUP);
	case PT_NO_LOOKUP: return lane_of(asked) != NULL && !flag(asked, FLAG_LOOKUP);
	case PT_OUT_OF_RANGE: return out_of_range(asked->call);
	case PT_CODE_PRESENT: return code_present(asked);
	case PT_CODE_MISSING: return !code_present(asked);
	case PT_NO_FREE_SLOT: return asked->table->free.first == PT_NONE;
	case PT_LAST_LANE: return only_lane(asked);
	case PT_NOTHING_DONE: return nothing_done(asked);
	case PT_WRONG_DIGIT: return !code_is_right(asked->code);
	default: return false;
	}
}

static uint32_t setup_causes(size_t words, const struct call *call)
{
	struct sizes sizes = call_sizes(call);

	if (!sizes_in_range(sizes))
		return 1u << PT_BAD_SIZE | (words == 0 ? 1u << PT_SHORT_MEMORY : 0u);
	return words < layout_of(sizes).total ? 1u << PT_SHORT_MEMORY : 0u;
}

uint32_t causes_of(const uint32_t *memory, size_t words, const struct call *call)
{
	static struct table table;
	struct asked asked = { &table, call, (uint32_t)call_argument(call, KIND_LANE, 0),
		call_argument(call, KIND_CODE, 0) };
	uint32_t causes = 0;

	if (call->name == CALL_SETUP)
		return setup_causes(words, call);
	if (!table_read_legal(&table, memory, words)) {
		causes |= 1u << PT_NOT_LEGAL;
		causes |= asked.lane >= TABLE_LANES ? 1u << PT_NO_LANE : 0u;
		return causes | (out_of_range(call) ? 1u << PT_OUT_OF_RANGE : 0u);
	}
	for (const uint32_t *cause = call_forms[call->name].cause; *cause != PT_OK; cause++)
		causes |= applies(&asked, *cause) ? 1u << *cause : 0u;
	return causes;
}
