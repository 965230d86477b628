/* Why tables must not be written into a subnet: they are those of another subnet, are cut, or lead packets astray. */
#include <stdlib.h>
#include <string.h>
#include "send.h"

enum { MOST_SAID = 20 };
enum fate { OPEN, UNDER_WAY, ARRIVES, LOST, ASTRAY };

static unsigned long reasons;

#define reason(...) (++reasons <= MOST_SAID ? say(__VA_ARGS__) : (void) 0)
#define LONG(guid) ((unsigned long long) (guid))

/* A switch that packets go through, by its index among the switches. */
struct hop {
	struct node *node;
	const struct table *table;
	int32_t next[NO_WAY + 1];	/* by port: the index of the next switch; NO_CABLE, or ADAPTER_THERE */
};

enum { NO_CABLE = -1, ADAPTER_THERE = -2 };

static struct hop *hops;
static size_t hop_count;

int is_end_port(const struct node *node, uint8_t number)
{
	const struct port *port = port_of(node, number);

	return port && port->guid && (node->type == SWITCH ? number == 0 : number > 0);
}

static void judge_ports(const struct node *node, const struct wanted *wanted)
{
	unsigned number, silent = 0, first = 0;

	for (number = 0; node->shape && number <= node->shape->ports; number++) {
		const struct port *port = port_of(node, number);

		if (is_end_port(node, number) && !range_of(wanted, node->guid, number))
			reason("port %016llx/%u has no LID in the tables: are these of this subnet?", LONG(node->guid), number);
		if (number && is_up(port) && !port->far_port && !silent++)
			first = number;
	}
	if (silent && !choices.silent)
		reason("port %016llx/%u is up, as %u of its node are, and nothing tells what is joined to it (--silent)",
		       LONG(node->guid), first, silent);
}

static void judge_switch(const struct node *node, const struct wanted *wanted)
{
	const struct table *table = table_of(wanted, node->guid);
	uint32_t lid;

	if (!table && !node->lacks)
		reason("switch %016llx has no table", LONG(node->guid));
	if (table && table->top < wanted->greatest)
		reason("switch %016llx has top %u, and the greatest LID is %u: is it cut?", LONG(node->guid), table->top,
		       wanted->greatest);
	for (lid = wanted->greatest + 1; table && lid <= table->top; lid++)
		if (table->entries[lid] != NO_WAY) {
			reason("switch %016llx has an entry for LID %u, above the greatest", LONG(node->guid), lid);
			break;
		}
	if (node->lacks && !choices.silent)
		reason("switch %016llx did not answer all that was asked (--silent)", LONG(node->guid));
	if (table && get(node->shape->info, 2) <= table->top && node->shape->has_info)
		reason("switch %016llx has room for %u entries, and top %u is beyond", LONG(node->guid),
		       (unsigned) get(node->shape->info, 2), table->top);
}

static void judge_range(const struct range *range)
{
	const struct node *node = find(range->guid);
	const struct port *port = port_of(node, range->port);
	unsigned old, count = range->last - range->first + 1;

	if (choices.silent && (!port || !port->has_info))
		return;
	if (!is_end_port(node, range->port) || !port->has_info) {
		reason("LID %u: there is no end port %016llx/%u: are these tables of this subnet?", range->first,
		       LONG(range->guid), range->port);
		return;
	}
	old = get(port->info + 16, 2);
	if (old && old != range->first && !choices.move_lids)
		reason("LID %u: port %016llx/%u has LID %u now, and what talks to it would break (--move-lids)", range->first,
		       LONG(range->guid), range->port, old);
	if (range->first % count || (count > 1 && node->type == SWITCH))
		reason("LID %u of port %016llx/%u cannot be the first of %u", range->first, LONG(range->guid), range->port, count);
}

static int by_port_guid(const void *one, const void *other)
{
	uint64_t a = *(const uint64_t *) one, b = *(const uint64_t *) other;

	return (a > b) - (a < b);
}

static void judge_guids(void)
{
	uint64_t *guids = NULL;
	size_t count = 0, i;
	unsigned number;

	for (i = 0; i < known_nodes(); i++)
		for (number = 0; node_at(i)->shape && number <= node_at(i)->shape->ports; number++)
			if (is_end_port(node_at(i), number)) {
				guids = more(guids, count + 1, sizeof *guids);
				guids[count++] = port_of(node_at(i), number)->guid;
			}
	if (count)
		qsort(guids, count, sizeof *guids, by_port_guid);
	for (i = 1; i < count; i++)
		if (guids[i] == guids[i - 1])
			reason("two ports have the GUID %016llx", LONG(guids[i]));
	free(guids);
}

static int32_t place_of_hop(const struct node *node)
{
	size_t i;

	for (i = 0; i < hop_count; i++)
		if (hops[i].node == node)
			return i;
	return NO_CABLE;
}

/* Lists the switches with a table and, for each port, where a packet that leaves by it arrives. */
static void lay_out(const struct wanted *wanted)
{
	int32_t *place = more(NULL, known_nodes() + 1, sizeof *place);
	const struct table *table;
	struct node *far;
	size_t i;
	int port;

	for (i = 0; i < known_nodes(); i++)
		if (node_at(i)->type == SWITCH && (table = table_of(wanted, node_at(i)->guid))) {
			hops = more(hops, hop_count + 1, sizeof *hops);
			hops[hop_count] = (struct hop) { .node = node_at(i), .table = table };
			place[i] = hop_count++;
		}
	for (i = 0; i < hop_count; i++)
		for (port = 0; port <= NO_WAY; port++) {
			hops[i].next[port] = NO_CABLE;
			if (port == 0 || port == NO_WAY || !across(hops[i].node, port, &far))
				continue;
			hops[i].next[port] = far->type == SWITCH && table_of(wanted, far->guid) ? place[far - node_at(0)] : ADAPTER_THERE;
		}
	free(place);
}

/* Returns the switch that a LID's owner is or is wired to; `port` gets the port by which packets leave that switch
   for the owner. */
static int32_t home_of(const struct range *range, uint8_t *port)
{
	struct node *node = find(range->guid), *far;
	struct port *there;

	*port = 0;
	if (!node)
		return NO_CABLE;
	if (node->type == SWITCH)
		return place_of_hop(node);
	there = across(node, range->port, &far);
	if (!there)
		return NO_CABLE;
	*port = there - far->shape->port;
	return far->type == SWITCH ? place_of_hop(far) : NO_CABLE;
}

/* Returns how a packet for a LID ends at a switch, or OPEN if it goes on to *next. */
static enum fate ends_at(size_t at, uint32_t lid, int is_home, uint8_t home_port, int32_t *next)
{
	uint8_t port = hops[at].table->entries[lid];
	unsigned long long guid = hops[at].node->guid;

	if (is_home && port == home_port)
		return ARRIVES;
	if (port == NO_WAY)
		return LOST;
	*next = hops[at].next[port];
	if (port == 0)
		reason("a packet for LID %u ends at switch %016llx, which does not own it", lid, guid);
	else if (*next == NO_CABLE)
		reason("a packet for LID %u leaves switch %016llx by port %u, which has no cable that is up", lid, guid, port);
	else if (*next == ADAPTER_THERE)
		reason("a packet for LID %u leaves switch %016llx by port %u to a port that does not own it", lid, guid, port);
	else
		return OPEN;
	return ASTRAY;
}

/* Follows packets for a LID from every switch, and returns from how many of these there is no way. */
static unsigned long follow(const struct range *range, uint32_t lid, uint8_t *fate, uint32_t *passed)
{
	uint8_t home_port;
	int32_t home = home_of(range, &home_port), at;
	unsigned long lost = 0;
	size_t start, count;
	enum fate found;

	memset(fate, OPEN, hop_count);
	for (start = 0; start < hop_count; start++) {
		for (count = 0, at = start, found = OPEN; fate[at] == OPEN; ) {
			fate[at] = UNDER_WAY;
			passed[count++] = at;
			found = ends_at(at, lid, at == home, home_port, &at);
			if (found != OPEN)
				break;
		}
		if (found == OPEN && count && fate[at] == UNDER_WAY)
			reason("a packet for LID %u goes round, through switch %016llx", lid, LONG(hops[at].node->guid));
		if (found == OPEN)
			found = fate[at] == UNDER_WAY ? ASTRAY : fate[at];
		while (count)
			fate[passed[--count]] = found;
		lost += fate[start] == LOST;
	}
	return lost;
}

/* Returns whether a range can be judged. That of a silent port cannot. */
static int is_judged(const struct range *range)
{
	const struct port *port = port_of(find(range->guid), range->port);

	return port && port->has_info;
}

static unsigned long judge_ways(const struct wanted *wanted)
{
	uint8_t *fate = more(NULL, known_nodes() + 1, 1);
	uint32_t *passed = more(NULL, known_nodes() + 1, sizeof *passed), lid;
	unsigned long lost = 0;
	size_t i;

	lay_out(wanted);
	for (i = 0; i < wanted->range_count; i++)
		for (lid = wanted->ranges[i].first; is_judged(&wanted->ranges[i]) && lid <= wanted->ranges[i].last; lid++)
			lost += follow(&wanted->ranges[i], lid, fate, passed);
	free(fate);
	free(passed);
	return lost;
}

void judge(const struct wanted *wanted)
{
	unsigned long lost;
	size_t i;

	if (!wanted->range_count || !wanted->table_count)
		end(REFUSED, "nothing is written: the tables have no %s", wanted->range_count ? "switch" : "LIDs");
	if (what_is_disputed())
		reason("facts are disputed, as %s", what_is_disputed());
	if (wanted->shared)
		reason("LID %u is given to a second port, or is out of order", wanted->shared);
	for (i = 0; i < wanted->table_count; i++)
		if (!find(wanted->tables[i].guid) || find(wanted->tables[i].guid)->type != SWITCH)
			reason("switch %016llx is none of this subnet", LONG(wanted->tables[i].guid));
	for (i = 0; i < known_nodes(); i++) {
		judge_ports(node_at(i), wanted);
		if (node_at(i)->type == SWITCH)
			judge_switch(node_at(i), wanted);
	}
	for (i = 0; i < wanted->range_count; i++)
		judge_range(&wanted->ranges[i]);
	judge_guids();
	if (!reasons) {
		lost = judge_ways(wanted);
		if (lost && !reasons && !choices.holes)
			reason("%lu pairs of a switch and a LID have no way: is the subnet in pieces? (--holes)", lost);
	}
	if (reasons)
		end(REFUSED, "nothing is written; reasons: %lu", reasons);
}
