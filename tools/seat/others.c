/* The managers that the last sweep saw, as the process told of them. */
#include <stdlib.h>
#include <string.h>
#include "seat.h"

enum { OPENSM_KEY = 1 };	/* the process's SM_Key if none is given */

static struct other *others;
static size_t count, room;

void read_others(const char *text)
{
	struct other it;

	for (count = 0; *text; text = strchr(text, '\n') + 1) {
		if (sscanf(text, "manager %27s guid %" SCNx64 " priority %u key %" SCNu64 " state %15s", it.place,
			   &it.guid, &it.priority, &it.key, it.state) != 5)
			continue;
		if (count == room) {
			room = 2 * room + 8;
			others = more(others, room, sizeof *others);
		}
		others[count++] = it;
	}
}

const struct other *other_at(size_t place)
{
	return place < count ? &others[place] : NULL;
}

uint64_t own_key(void)
{
	return seat.sm_key ? strtoull(seat.sm_key, NULL, 16) : OPENSM_KEY;
}

/* Returns whether the process counts a manager as one of its subnet. */
static int is_heard(const struct other *other)
{
	return !own_key() || other->key == own_key();
}

/* Returns whether a manager wins over one of this priority and GUID. */
static int is_above(const struct other *other, unsigned priority, uint64_t guid)
{
	return other->priority > priority || (other->priority == priority && other->guid < guid);
}

int wins(const struct other *other)
{
	return is_above(other, seat.priority, own_port.guid);
}

const struct other *greatest_heard(const char *state, const char *or_state)
{
	const struct other *greatest = NULL, *it;

	for (it = others; it < others + count; it++)
		if (is_heard(it) && (!strcmp(it->state, state) || (or_state && !strcmp(it->state, or_state))) &&
		    (!greatest || is_above(it, greatest->priority, greatest->guid)))
			greatest = it;
	return greatest;
}
