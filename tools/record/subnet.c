/* What a sweep finds besides the nodes: their ports, the far ends, and the attributes from which Sets are made. */
#include <stdlib.h>
#include <string.h>
#include "send.h"

enum { DOWN = 1, ACTIVE = 4 };

static char disputed[96];

static void dispute(const char *what, uint64_t guid, unsigned port)
{
	if (!disputed[0])
		snprintf(disputed, sizeof disputed, "`%s` of %016llx/%u", what, (unsigned long long) guid, port);
}

const char *what_is_disputed(void)
{
	return disputed[0] ? disputed : NULL;
}

struct port *port_of(const struct node *node, uint8_t port)
{
	return node && node->shape && port <= node->shape->ports ? &node->shape->port[port] : NULL;
}

static struct shape *shape_of(struct node *node, uint8_t ports)
{
	size_t size = sizeof *node->shape + (ports + 1) * sizeof *node->shape->port;

	if (!node->shape) {
		node->shape = more(NULL, size, 1);
		memset(node->shape, 0, size);
		node->shape->ports = ports;
	}
	return node->shape;
}

static void point_at(uint64_t guid, uint8_t number, uint64_t far_guid, uint8_t far_port)
{
	struct port *port = port_of(find(guid), number);

	if (!port)
		return;
	if (port->far_port && (port->far_guid != far_guid || port->far_port != far_port))
		dispute("link", guid, number);
	port->far_guid = far_guid;
	port->far_port = far_port;
}

static void note_node(const struct request *request, const uint8_t *info)
{
	uint64_t guid = get(info + 12, 8), port_guid = get(info + 20, 8);
	uint8_t type = info[2], ports = info[3], local = info[36], own = type == SWITCH ? 0 : local;
	struct node *node = find(guid);
	struct port *port;

	if (node->type != type || shape_of(node, ports)->ports != ports) {
		dispute("node", guid, 0);
		return;
	}
	port = port_of(node, own);
	if (port->guid && port->guid != port_guid)
		dispute("portguid", guid, own);
	if (!port->guid)
		port->path = request->path;
	port->guid = port_guid;
	if (request->context == VIA) {
		point_at(guid, local, request->guid, request->via_port);
		point_at(request->guid, request->via_port, guid, local);
	}
}

static void note_port(const struct request *request, const uint8_t *info)
{
	struct port *port = port_of(find(request->guid), request->modifier);

	if (!port)
		return;
	memcpy(port->info, info, BLOCK);
	port->has_info = 1;
	if (request->type == SWITCH)
		port->path = request->path;
}

void note_reply(const struct request *request, const uint8_t *reply)
{
	struct shape *shape;

	if (request->attribute == NODE_INFO) {
		note_node(request, reply + ATTRIBUTE);
	} else if (request->attribute == PORT_INFO) {
		note_port(request, reply + ATTRIBUTE);
	} else {
		shape = find(request->guid)->shape;
		memcpy(shape->info, reply + ATTRIBUTE, BLOCK);
		shape->has_info = 1;
	}
}

int is_up(const struct port *port)
{
	uint8_t state = port->info[32] & 15;

	return port->has_info && state > DOWN && state <= ACTIVE;
}

struct port *across(const struct node *node, uint8_t number, struct node **far)
{
	struct port *port = port_of(node, number), *other;

	if (!port || !port->far_port || !is_up(port))
		return NULL;
	*far = find(port->far_guid);
	other = port_of(*far, port->far_port);
	if (!other || !is_up(other) || other == port || other->far_guid != node->guid || other->far_port != number)
		return NULL;
	return other;
}
