/*
 * Requests of hosts for subnet administration (SA). As master, the process answers them. If it has no answer, because a
 * sweep or a writing runs, the seat is silent where a later answer may be another one: hosts try again. All else it
 * refuses at once, so that hosts do not wait. A seat that is not master is silent: hosts then ask the master.
 */
#include <string.h>
#include <infiniband/umad.h>
#include "seat.h"

enum { CLASS_VERSION = 2, SA_KEY = 36, OFFSET = 44, RMPP_TYPE = 25, RMPP_FLAGS = 26, NOT_SUPPORTED = 0x000c };
enum { RMPP_DATA = 1, RMPP_ACTIVE = 1 };
enum { CLASS_PORT_INFO = 0x01, NODE_RECORD = 0x11, PORT_INFO_RECORD = 0x12, PATH_RECORD = 0x35, MEMBER_RECORD = 0x38 };
#define Q_KEY 0x80010000	/* of queue pair 1, to which answers go */

static int agent = -1;

int open_administration(int umad)
{
	long methods[16 / sizeof(long)] = {
		1 << GET | 1 << SET | 1 << GET_TABLE | 1 << GET_TRACE_TABLE | 1 << GET_MULTI | 1 << DELETE
	};

	/* Without RMPP a request has one packet, whatever its sender says. So has a table, whose RMPP fields the process
	 * fills in. */
	agent = umad_register(umad, ADMINISTRATION_CLASS, CLASS_VERSION, 0, methods);
	return agent;
}

void close_administration(int umad)
{
	umad_unregister(umad, agent);
}

/* Makes a refusal of a request, in its place. */
static void make_refusal(uint8_t *packet)
{
	uint8_t method = packet[3];

	packet[3] = RESPONSE | (method == SET ? GET : method == GET_TRACE_TABLE ? GET_TABLE : method);
	put(packet + 4, 2, NOT_SUPPORTED);
	packet[RMPP_FLAGS] = 0;
	memset(packet + SA_KEY, 0, 8);
	if (method == GET_TABLE)
		put(packet + OFFSET, 2, 0);
}

/* Asks the process. If it has an answer, puts that in the place of the request, and returns 1. */
static int is_answered(uint8_t *packet, unsigned lid)
{
	char hex[2 * PACKET + 1], word[2 * PACKET + 32];
	const char *told;

	write_packet(packet, hex);
	snprintf(word, sizeof word, "sa %s from %u", hex, lid);
	told = shown(word);
	if (strncmp(told, "sa ", 3))
		return 0;
	read_packet(told + 3, packet);
	return 1;
}

/* Returns whether the process answers such requests, sooner or later. */
static int may_be_answered(const uint8_t *packet)
{
	unsigned attribute = get(packet + 16, 2);

	if (attribute == CLASS_PORT_INFO)
		return packet[3] == GET;
	if (attribute == MEMBER_RECORD)
		return seat.multicast && packet[3] != GET_TRACE_TABLE && packet[3] != GET_MULTI;
	return (packet[3] == GET || packet[3] == GET_TABLE)
	       && (attribute == NODE_RECORD || attribute == PORT_INFO_RECORD || attribute == PATH_RECORD);
}

/* Says once, or with --verbose each time, that a host is refused. */
static void note_refusal(const uint8_t *packet, unsigned lid)
{
	static int is_said;

	if (!is_said || options.verbose)
		note(INFO, "a host asks for what the subnet administration does not have, and is refused: LID %u, "
		     "attribute 0x%04x", lid, (unsigned) get(packet + 16, 2));
	is_said = 1;
}

/* Returns whether a packet is none of RMPP, or has data. A host acknowledges a table by a packet with the table's method
   and no R bit, which is no request. */
static int has_data(const uint8_t *packet)
{
	return !(packet[RMPP_FLAGS] & RMPP_ACTIVE) || packet[RMPP_TYPE] == RMPP_DATA;
}

void administer(int umad, uint8_t *buffer)
{
	static uint8_t answer[512];
	const ib_mad_addr_t host = *umad_get_mad_addr(buffer);
	uint8_t *packet = umad_get_mad(answer);
	int is_refused;

	memcpy(packet, umad_get_mad(buffer), PACKET);
	if (packet[3] & RESPONSE || !has_data(packet) || seat.dry_run || !is_master())
		return;
	if (!is_answered(packet, ntohs(host.lid))) {
		if (may_be_answered(packet))
			return;
		make_refusal(packet);
	}
	is_refused = get(packet + 4, 2) == NOT_SUPPORTED;
	if (is_refused)
		note_refusal(packet, ntohs(host.lid));
	umad_set_addr(answer, ntohs(host.lid), ntohl(host.qpn), host.sl, (int) Q_KEY);
	umad_set_pkey(answer, host.pkey_index);
	if (umad_send(umad, agent, answer, PACKET, 0, 0) < 0)
		return;
	carried.hosts_answered += !is_refused;
	carried.hosts_refused += is_refused;
}
