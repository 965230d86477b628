/* What is asked: each node breadth first, each port of it, and what is behind those that are up; then the tables. */
#include <stdlib.h>
#include <string.h>
#include "record.h"

enum { DOWN = 1, ACTIVE = 4, MOST_LANES = 15, PORTS = 256 };

static struct node *nodes;
static size_t node_count, node_room;
static uint32_t *index_of, index_room;	/* open addressing: index in nodes, plus 1 */
static struct lid *lids;
static size_t lid_count, lid_room;
static void (*seen)(const struct request *request, const uint8_t *reply);
static int missing;	/* missing replies about known nodes, except those about lanes */
static uint16_t to_manager;
static uint8_t level_to_manager;

size_t known_nodes(void)
{
	return node_count;
}

static uint32_t *place_of(uint64_t guid)
{
	uint32_t i = (guid * 0x9e3779b97f4a7c15u >> 32) & (index_room - 1);

	while (index_of[i] && nodes[index_of[i] - 1].guid != guid)
		i = (i + 1) & (index_room - 1);
	return &index_of[i];
}

struct node *node_at(size_t place)
{
	return &nodes[place];
}

struct node *find(uint64_t guid)
{
	uint32_t at = index_room ? *place_of(guid) : 0;

	return at ? &nodes[at - 1] : NULL;
}

static void make_room(void)
{
	size_t i;

	node_room = node_room ? 2 * node_room : 256;
	nodes = more(nodes, node_room, sizeof *nodes);
	index_room = 2 * node_room;
	index_of = more(index_of, index_room, sizeof *index_of);
	memset(index_of, 0, index_room * sizeof *index_of);
	for (i = 0; i < node_count; i++)
		*place_of(nodes[i].guid) = i + 1;
}

static struct node *learn(uint64_t guid, uint8_t type, const struct path *path)
{
	struct node *node;

	if (node_count == node_room)
		make_room();
	node = &nodes[node_count];
	memset(node, 0, sizeof *node);
	node->guid = guid;
	node->type = type;
	node->path = *path;
	*place_of(guid) = ++node_count;
	return node;
}

static void ask_port(const struct request *request, uint64_t guid, uint8_t type, uint8_t arrival, int port)
{
	struct request *asked = ask(&request->path, PORT_INFO, port, guid);

	asked->arrival = arrival;
	asked->type = type;
}

/* Asks a switch for all its ports, and an adapter for the port that was reached, by its number; 0 would also mean
   that port. */
static void on_node_info(const struct request *request, const uint8_t *info)
{
	uint64_t guid = get(info + 12, 8);
	uint8_t type = info[2], ports = info[3], local = info[36];
	struct node *node = find(guid);
	int port, is_new = !node;

	if (is_new)
		node = learn(guid, type, &request->path);
	node->ports = ports;
	if (node->type == SWITCH) {
		if (!is_new)
			return;
		ask(&request->path, SWITCH_INFO, 0, guid);
		for (port = 0; port <= ports; port++)
			ask_port(request, guid, type, local, port);
	} else if (!node->asked[local]) {
		node->asked[local] = 1;
		ask_port(request, guid, type, local, local);
	}
}

static void note_lid(const struct request *request, const uint8_t *info)
{
	if (lid_count == lid_room) {
		lid_room = lid_room ? 2 * lid_room : 256;
		lids = more(lids, lid_room, sizeof *lids);
	}
	lids[lid_count++] = (struct lid) { get(info + 16, 2), request->guid, request->modifier, info[34] & 7 };
	if (request->path.hops == 0 && !to_manager) {
		to_manager = get(info + 18, 2);
		level_to_manager = info[36] & 15;
	}
}

size_t known_lids(void)
{
	return lid_count;
}

const struct lid *lid_at(size_t place)
{
	return &lids[place];
}

uint16_t lid_of_manager(void)
{
	return to_manager;
}

uint8_t level_of_manager(void)
{
	return level_to_manager;
}

/* Notes how many lanes of data a port of a switch carries, by OperationalVLs: 1, 2, 4, 8 or 15. */
static void note_lanes(const struct request *request, const uint8_t *info)
{
	struct node *node = find(request->guid);
	uint8_t operational = info[43] >> 4;

	if (!node->carries) {
		node->carries = more(NULL, PORTS, 1);
		memset(node->carries, 0, PORTS);
	}
	/* 0 and undefined numbers leave all lanes. VLCap says whether there is more than one. */
	node->carries[request->modifier] = info[37] >> 4 == 1 ? ALONE :
		operational >= 1 && operational <= 4 ? 1 << (operational - 1) : MOST_LANES;
}

static void on_port_info(const struct request *request, const uint8_t *info)
{
	uint8_t state = info[32] & 15, port = request->modifier;
	struct path path = request->path;
	struct request *asked;

	if (request->type != SWITCH || port == 0)
		note_lid(request, info);
	if (state <= DOWN || state > ACTIVE)
		return;
	if (request->type == SWITCH && port && options.lanes)
		note_lanes(request, info);
	if (request->type == SWITCH ? port == 0 || port == request->arrival : path.hops > 0)
		return;
	if (path.hops == MOST_HOPS) {
		counts.too_far++;
		return;
	}
	path.port[++path.hops] = port;
	asked = ask(&path, NODE_INFO, 0, request->guid);
	asked->context = VIA;
	asked->via_port = port;
}

static void note_gap(const struct request *request)
{
	struct node *node = request->context == ABOUT ? find(request->guid) : NULL;

	missing += request->attribute != NODE_INFO && request->attribute != LANE_TABLE &&
		   request->attribute != MULTICAST_TABLE;
	if (node && request->attribute != NODE_DESCRIPTION)
		node->lacks |= request->attribute == PORT_INFO ? 1 : request->attribute == LANE_TABLE ? 4 :
			       request->attribute == MULTICAST_TABLE ? 8 : 2;
}

int is_good(const struct request *request, uint8_t *reply)
{
	const char *fault;
	char text[80];

	if (!reply) {
		counts.silent++;
		note_gap(request);
		say_of(request, "no answer");
		return 0;
	}
	/*
	 * A request over no hops never leaves the machine. Linux raises its hop pointer to 1 on the way to the local
	 * agent, and drivers with an agent in software return the answer like this; the standard has 0 at the end.
	 */
	if (reply[7] == 0 && reply[6] == 1) {
		reply[6] = 0;
		counts.pointers++;
	}
	fault = fault_of(request, reply);
	counts.replies++;
	if (!fault)
		return 1;
	if (strcmp(fault, "Status"))
		snprintf(text, sizeof text, "left out: %s", fault);
	else
		snprintf(text, sizeof text, "left out: Status 0x%04x", (unsigned) get(reply + 4, 2) & 0x7fff);
	counts.left_out++;
	note_gap(request);
	say_of(request, text);
	return 0;
}

static void note_switch(struct node *node, const uint8_t *info)
{
	node->top = get(info + 6, 2);
	node->group_room = get(info + 4, 2);
	node->group_top = get(info + 18, 2);
}

static void take(const struct request *request, uint8_t *reply)
{
	if (!is_good(request, reply))
		return;
	if (request->attribute == NODE_INFO) {
		note_reached(request->path.port + 1, request->path.hops, get(reply + ATTRIBUTE + 20, 8));
		on_node_info(request, reply + ATTRIBUTE);
	} else if (request->attribute == PORT_INFO) {
		on_port_info(request, reply + ATTRIBUTE);
	} else {
		note_switch(find(request->guid), reply + ATTRIBUTE);
	}
	seen(request, reply);
}

void sweep(void (*by)(const struct request *request, const uint8_t *reply))
{
	struct path here = { 0 };

	seen = by;
	ask(&here, NODE_INFO, 0, 0)->context = START;
	ask_all(take);
}

static void take_block(const struct request *request, uint8_t *reply)
{
	if (is_good(request, reply))
		memcpy(find(request->guid)->table + BLOCK * request->modifier, reply + ATTRIBUTE, BLOCK);
}

int read_tables(void)
{
	size_t i, blocks, block;

	for (i = 0; i < node_count; i++)
		if (nodes[i].type == SWITCH) {
			blocks = nodes[i].top / BLOCK + 1;
			nodes[i].table = more(NULL, blocks, BLOCK);
			for (block = 0; block < blocks; block++)
				ask(&nodes[i].path, FORWARDING_TABLE, block, nodes[i].guid);
		}
	ask_all(take_block);
	return !missing;
}

static void take_name(const struct request *request, uint8_t *reply)
{
	struct node *node = find(request->guid);

	if (!is_good(request, reply) || !reply[ATTRIBUTE])
		return;
	node->name = more(NULL, BLOCK + 1, 1);
	memcpy(node->name, reply + ATTRIBUTE, BLOCK);
	node->name[BLOCK] = 0;
}

void read_names(void)
{
	size_t i;

	for (i = 0; i < node_count; i++)
		ask(&nodes[i].path, NODE_DESCRIPTION, 0, nodes[i].guid);
	ask_all(take_name);
}

static int by_lid(const void *one, const void *other)
{
	const struct lid *a = one, *b = other;

	if (a->lid != b->lid)
		return a->lid < b->lid ? -1 : 1;
	if (a->guid != b->guid)
		return a->guid < b->guid ? -1 : 1;
	return a->port - b->port;
}

static int by_guid(const void *one, const void *other)
{
	const struct node *a = one, *b = other;

	return (a->guid > b->guid) - (a->guid < b->guid);
}

static void print_switch(FILE *file, const struct node *node)
{
	int i, entries = (node->top / BLOCK + 1) * BLOCK;

	fprintf(file, "switch %016llx top %u\n", (unsigned long long) node->guid, node->top);
	for (i = 0; i < entries; i++) {
		if (i % BLOCK == 0)
			fprintf(file, "block %d ", i / BLOCK);
		fprintf(file, i % BLOCK == BLOCK - 1 ? "%02x\n" : "%02x", node->table[i]);
	}
}

static int by_name(const void *one, const void *other)
{
	struct node *const *a = one, *const *b = other;

	return strcmp((const char *) (*a)->name, (const char *) (*b)->name);
}

void sort_found(void)
{
	if (lid_count)
		qsort(lids, lid_count, sizeof *lids, by_lid);
	qsort(nodes, node_count, sizeof *nodes, by_guid);
}

/* Prints the names of nodes, which must be sorted. */
void print_names(FILE *file)
{
	struct node **named = more(NULL, node_count, sizeof *named);
	size_t i, count = 0;

	for (i = 0; i < node_count; i++)
		if (nodes[i].name)
			named[count++] = &nodes[i];
	qsort(named, count, sizeof *named, by_name);
	for (i = 1; i < count; i++)
		if (!by_name(&named[i - 1], &named[i]))
			named[i - 1]->is_shared = named[i]->is_shared = 1;
	free(named);
	for (i = 0; i < node_count; i++)
		if (nodes[i].name)
			print_name(file, nodes[i].guid, nodes[i].name, nodes[i].is_shared);
}

/* Prints tables in the form of a plan, without switches whose table was not read whole, once all is sorted. */
void print_tables(FILE *file)
{
	size_t i;

	for (i = 0; i < lid_count; i++)
		if (lids[i].lid) {
			fprintf(file, "lid %u %016llx/%u", lids[i].lid, (unsigned long long) lids[i].guid, lids[i].port);
			if (lids[i].lmc)
				fprintf(file, " lmc %u", lids[i].lmc);
			fprintf(file, "\n");
		}
	for (i = 0; i < node_count; i++)
		if (nodes[i].type == SWITCH && !(nodes[i].lacks & 2))
			print_switch(file, &nodes[i]);
}
