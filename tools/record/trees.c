/* The multicast forwarding tables of switches: by which ports each copies the packets of a group. */
#include <stdlib.h>
#include <string.h>
#include "record.h"

enum { IN_BLOCK = 32, IN_MASK = 16, FIRST_GROUP = 0xC000, MOST_GROUPS = 0x3FFF, LACKS_GROUPS = 8 };

/* Returns how many masks an entry has: one for each 16 ports, port 0 among them. */
static size_t masks_of(const struct node *node)
{
	return node->ports / IN_MASK + 1;
}

static void take_masks(const struct request *request, uint8_t *reply)
{
	struct node *node = find(request->guid);
	size_t block = request->modifier & 0x1ff, position = request->modifier >> 28, i;

	if (!is_good(request, reply))
		return;
	for (i = 0; i < IN_BLOCK; i++)
		node->groups[(block * IN_BLOCK + i) * masks_of(node) + position] = get(reply + ATTRIBUTE + 2 * i, 2);
}

/* Returns how many groups a switch may have entries for: up to its top, if it reports one, or else as many as fit. */
static size_t groups_of(const struct node *node)
{
	size_t room = node->group_room < MOST_GROUPS ? node->group_room : MOST_GROUPS;

	if (node->group_top >= FIRST_GROUP - 1 && node->group_top < FIRST_GROUP + room)
		return node->group_top - (FIRST_GROUP - 1);
	return room;
}

int read_trees(void)
{
	struct node *node;
	size_t i, block, position, blocks;
	int lacks = 0;

	for (i = 0; i < known_nodes(); i++) {
		node = node_at(i);
		blocks = (groups_of(node) + IN_BLOCK - 1) / IN_BLOCK;
		if (node->type != SWITCH || !blocks)
			continue;
		node->groups = more(NULL, blocks * IN_BLOCK * masks_of(node), sizeof *node->groups);
		memset(node->groups, 0, blocks * IN_BLOCK * masks_of(node) * sizeof *node->groups);
		for (block = 0; block < blocks; block++)
			for (position = 0; position < masks_of(node); position++)
				ask(&node->path, MULTICAST_TABLE, position << 28 | block, node->guid);
	}
	ask_all(take_masks);
	for (i = 0; i < known_nodes(); i++)
		lacks |= node_at(i)->type == SWITCH && node_at(i)->lacks & (2 | LACKS_GROUPS);
	return !lacks;
}

/* Prints the ports of a group at a switch, if there are any. */
static void print_group(FILE *file, const struct node *node, size_t group)
{
	const uint16_t *masks = node->groups + group * masks_of(node);
	size_t port, some = 0;

	for (port = 0; port < masks_of(node) * IN_MASK; port++) {
		if (!(masks[port / IN_MASK] >> port % IN_MASK & 1))
			continue;
		if (!some++)
			fprintf(file, "group %04zx %016llx", FIRST_GROUP + group, (unsigned long long) node->guid);
		fprintf(file, " %zu", port);
	}
	if (some)
		fprintf(file, "\n");
}

void print_trees(FILE *file)
{
	const struct node *node;
	size_t i, group;

	fprintf(file, "groups\n");
	for (i = 0; i < known_nodes(); i++) {
		node = node_at(i);
		for (group = 0; node->groups && group < groups_of(node); group++)
			print_group(file, node, group);
	}
}
