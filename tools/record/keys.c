/*
 * Management keys (M_Keys): one for all ports, and those of single ports by their GUIDs, in the form in which OpenSM
 * keeps them (guid2mkey): lines `0xGUID 0xKEY`. Which port a path or a LID reaches, replies tell.
 */
#include <errno.h>
#include <inttypes.h>
#include <stdlib.h>
#include <string.h>
#include "record.h"

enum { LONGEST_LINE = 256, MOST_DIGITS = 16, LIDS = 65536 };

struct key {
	uint64_t guid, key;
	unsigned line;
};

/* A path that reaches a port with a key of its own, or with none any more. */
struct reached {
	uint8_t hops, port[MOST_HOPS];
	const struct key *key;
};

static struct key *keys;
static size_t key_count;
static struct reached *paths;	/* open addressing; a free place has no key */
static size_t path_count, path_room;
static const struct key **by_lid, none;	/* none: of a port without a key of its own */

/* Returns what follows a number in hex digits with 0x before it, which is put into `value`, or NULL if there is none. */
static const char *hex_in(const char *text, uint64_t *value)
{
	size_t digits;

	text += strspn(text, " \t");
	if (text[0] != '0' || (text[1] != 'x' && text[1] != 'X'))
		return NULL;
	text += 2;
	digits = strspn(text, "0123456789abcdefABCDEF");
	if (!digits || digits > MOST_DIGITS)
		return NULL;
	*value = strtoull(text, NULL, 16);
	return text + digits;
}

/* Reads a line, and returns whether it has a key, or ends. */
static int has_key(const char *path, unsigned number, const char *line, struct key *key)
{
	const char *rest = line + strspn(line, " \t\r\n");

	if (!*rest || *rest == '#')
		return 0;
	rest = hex_in(line, &key->guid);
	if (rest && (*rest == ' ' || *rest == '\t'))
		rest = hex_in(rest, &key->key);
	else
		rest = NULL;
	if (!rest || rest[strspn(rest, " \t\r\n")])
		end(USAGE, "%s: line %u is not 0xGUID 0xKEY, each of 1 to %d hex digits", path, number, MOST_DIGITS);
	if (!key->guid)
		end(USAGE, "%s: line %u: no port has GUID 0", path, number);
	key->line = number;
	return 1;
}

static int by_guid(const void *one, const void *other)
{
	const struct key *a = one, *b = other;

	return a->guid != b->guid ? (a->guid < b->guid ? -1 : 1) : (a->line > b->line) - (a->line < b->line);
}

void read_keys(const char *path)
{
	FILE *file = fopen(path, "r");
	char line[LONGEST_LINE];
	size_t room = 0, i;
	unsigned number = 0;
	struct key key;

	if (!file)
		end(USAGE, "cannot read %s: %s", path, strerror(errno));
	while (fgets(line, sizeof line, file)) {
		number++;
		if (!strchr(line, '\n') && !feof(file))
			end(USAGE, "%s: line %u is too long, or no text", path, number);
		if (!has_key(path, number, line, &key))
			continue;
		if (key_count == room) {
			room = 2 * room + 64;
			keys = more(keys, room, sizeof *keys);
		}
		keys[key_count++] = key;
	}
	if (ferror(file))
		end(USAGE, "cannot read %s: %s", path, strerror(errno));
	fclose(file);
	if (!key_count)
		end(USAGE, "%s has no line 0xGUID 0xKEY", path);
	qsort(keys, key_count, sizeof *keys, by_guid);
	for (i = 1; i < key_count; i++)
		if (keys[i].guid == keys[i - 1].guid)
			end(USAGE, "%s: GUID 0x%016" PRIx64 " is in line %u and in line %u", path, keys[i].guid,
			    keys[i - 1].line, keys[i].line);
	by_lid = more(NULL, LIDS, sizeof *by_lid);
	memset(by_lid, 0, LIDS * sizeof *by_lid);
}

static const struct key *key_for(uint64_t guid)
{
	size_t low = 0, high = key_count;

	while (low < high) {
		size_t middle = (low + high) / 2;

		if (keys[middle].guid == guid)
			return &keys[middle];
		if (keys[middle].guid < guid)
			low = middle + 1;
		else
			high = middle;
	}
	return &none;
}

/* Returns the place of a path, or that where it would stand. There is a free place. */
static struct reached *place_of(const uint8_t *port, uint8_t hops)
{
	uint64_t hash = hops;
	size_t i;

	for (i = 0; i < hops; i++)
		hash = (hash ^ port[i]) * 0x100000001b3u;
	for (i = (hash ^ hash >> 32) & (path_room - 1); paths[i].key; i = (i + 1) & (path_room - 1))
		if (paths[i].hops == hops && !memcmp(paths[i].port, port, hops))
			break;
	return &paths[i];
}

static void make_room(void)
{
	struct reached *old = paths;
	size_t count = path_room, i;

	path_room = path_room ? 2 * path_room : 256;
	paths = more(NULL, path_room, sizeof *paths);
	memset(paths, 0, path_room * sizeof *paths);
	for (i = 0; i < count; i++)
		if (old[i].key)
			*place_of(old[i].port, old[i].hops) = old[i];
	free(old);
}

void note_reached(const uint8_t *port, uint8_t hops, uint64_t guid)
{
	const struct key *key = key_for(guid);
	struct reached *place;

	if (!key_count || hops > MOST_HOPS)
		return;
	if (2 * path_count >= path_room)
		make_room();
	place = place_of(port, hops);
	if (!place->key) {
		if (key == &none)
			return;
		path_count++;
		place->hops = hops;
		memcpy(place->port, port, hops);
	}
	place->key = key;
}

static const struct key *key_by_path(const uint8_t *port, uint8_t hops)
{
	const struct reached *place = path_room && hops <= MOST_HOPS ? place_of(port, hops) : NULL;

	return place && place->key ? place->key : &none;
}

void note_lids(const uint8_t *port, uint8_t hops, uint16_t first, unsigned lmc)
{
	const struct key *key = key_by_path(port, hops);
	unsigned lid;

	for (lid = first; by_lid && lid && lid < first + (1u << lmc) && lid < LIDS; lid++)
		by_lid[lid] = key;
}

uint64_t key_of_path(const uint8_t *port, uint8_t hops)
{
	const struct key *key = key_by_path(port, hops);

	return key == &none ? options.m_key : key->key;
}

uint64_t key_of_lid(uint16_t lid)
{
	const struct key *key = by_lid && by_lid[lid] ? by_lid[lid] : &none;

	return key == &none ? options.m_key : key->key;
}
