/* The SL-to-VL maps of switches: for each level, the lane of packets from one port to another. */
#include <stdlib.h>
#include <string.h>
#include "record.h"

enum { LEVELS = 16, DROPS = 15, PORTS = 256 };

/* Returns how many ports of a switch are up; `place`, if given, gets the number of each among them. */
static size_t ports_up(const struct node *node, uint8_t *place)
{
	size_t count = 0;
	int port;

	for (port = 1; node->carries && port < PORTS; port++)
		if (node->carries[port]) {
			if (place)
				place[port] = count;
			count++;
		}
	return count;
}

/* Returns the map of packets from one port to another. Those from port 0 come first. */
static uint8_t *map_of(const struct node *node, int into, int out)
{
	uint8_t place[PORTS];
	size_t count = ports_up(node, place);

	return node->maps + LEVELS * ((into ? place[into] + 1u : 0) * count + place[out]);
}

static void take_map(const struct request *request, uint8_t *reply)
{
	const struct node *node = find(request->guid);
	int into = request->modifier >> 8, out = request->modifier & 255, level, lane;
	uint8_t *map;

	if (!is_good(request, reply))
		return;
	map = map_of(node, into, out);
	for (level = 0; level < LEVELS; level++) {
		lane = reply[ATTRIBUTE + level / 2] >> (level % 2 ? 0 : 4) & 15;
		map[level] = lane < node->carries[out] ? lane : DROPS;
	}
}

/* Returns whether packets can come into a switch by a port: port 0 sends them. */
static int comes_by(const struct node *node, int port)
{
	return port == 0 || node->carries[port];
}

/* Asks for a map, unless the port that packets leave by has none: then they take lane 0. */
static void ask_map(const struct node *node, int into, int out)
{
	if (node->carries[out] == ALONE)
		memset(map_of(node, into, out), 0, LEVELS);
	else
		ask(&node->path, LANE_TABLE, into << 8 | out, node->guid);
}

int read_lanes(void)
{
	struct node *node;
	size_t i, count;
	int into, out, lacks = 0;

	for (i = 0; i < known_nodes(); i++) {
		node = node_at(i);
		count = ports_up(node, NULL);
		if (!count)
			continue;
		node->maps = more(NULL, (count + 1) * count, LEVELS);
		memset(node->maps, DROPS, (count + 1) * count * LEVELS);
		for (into = 0; into < PORTS; into++)
			for (out = 1; comes_by(node, into) && out < PORTS; out++)
				if (node->carries[out])
					ask_map(node, into, out);
	}
	ask_all(take_map);
	for (i = 0; i < known_nodes(); i++)
		lacks |= node_at(i)->type == SWITCH && node_at(i)->lacks & (1 | 4);
	return !lacks;
}

static int by_lanes(const void *one, const void *other)
{
	return memcmp(one, other, LEVELS);
}

static size_t count_maps(void)
{
	size_t i, count, all = 0;

	for (i = 0; i < known_nodes(); i++) {
		count = ports_up(node_at(i), NULL);
		all += (count + 1) * count;
	}
	return all;
}

/* Finds the map that most pairs of ports have. Returns 0 if there is none. */
static int find_usual(uint8_t *usual)
{
	size_t i, count, first, best = 0, all = 0, room = count_maps();
	uint8_t *maps = more(NULL, room + 1, LEVELS);

	for (i = 0; i < known_nodes(); i++) {
		count = ports_up(node_at(i), NULL);
		if (count)
			memcpy(maps + LEVELS * all, node_at(i)->maps, (count + 1) * count * LEVELS);
		all += (count + 1) * count;
	}
	qsort(maps, all, LEVELS, by_lanes);
	for (i = first = 0; i < all; i++) {
		if (by_lanes(maps + LEVELS * first, maps + LEVELS * i))
			first = i;
		if (i - first + 1 > best) {
			best = i - first + 1;
			memcpy(usual, maps + LEVELS * first, LEVELS);
		}
	}
	free(maps);
	return best > 0;
}

static void print_map(FILE *file, const uint8_t *map)
{
	int level;

	for (level = 0; level < LEVELS; level++)
		fprintf(file, "%02x", map[level]);
	fprintf(file, "\n");
}

/* Prints the usual map and those that differ, once the nodes are sorted. A map without a reply drops all packets. */
void print_lanes(FILE *file)
{
	const struct node *node;
	uint8_t usual[LEVELS];
	int into, out;
	size_t i;

	if (!find_usual(usual))
		return;
	fprintf(file, "lanes ");
	print_map(file, usual);
	for (i = 0; i < known_nodes(); i++) {
		node = node_at(i);
		for (into = 0; node->maps && into < PORTS; into++)
			for (out = 1; comes_by(node, into) && out < PORTS; out++)
				if (node->carries[out] && by_lanes(map_of(node, into, out), usual)) {
					fprintf(file, "sl2vl %016llx %d %d ", (unsigned long long) node->guid, into, out);
					print_map(file, map_of(node, into, out));
				}
	}
}
