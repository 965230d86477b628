/*
 * Requests, and their replies in the order of the requests.
 *
 * Several requests are out at a time. Replies come in any order and wait for their turn, so what is asked next, and
 * what is written, does not depend on which reply was faster.
 */
#include <errno.h>
#include <signal.h>
#include <stdlib.h>
#include <string.h>
#include <infiniband/umad.h>
#include "record.h"

enum { DIRECTED_CLASS = 0x81, GET = 1, SET = 2, GRACE_MS = 2000 };
enum state { WAITS, ANSWERED, GIVEN_UP };

/* A request that is out, or whose reply waits for its turn. */
struct slot {
	struct request request;
	uint32_t number;
	enum state state;
	int tries;
	uint8_t reply[PACKET];
};

static struct request *list;
static size_t head, tail, room;
static struct slot slots[MOST_OUT];
static unsigned first, out;
static uint32_t number = 1;
static int umad = -1, agent;
static volatile sig_atomic_t is_stopped;

void open_port(void)
{
	struct own_port port;

	umad = open_own_port(&port);
	agent = umad_register(umad, DIRECTED_CLASS, 1, 0, NULL);
	if (agent < 0)
		end(NO_FABRIC, "cannot register for directed routes at %s: %s", port.name, strerror(-agent));
}

void close_port(void)
{
	umad_unregister(umad, agent);
	umad_close_port(umad);
}

int opened_port(void)
{
	return umad;
}

struct request *ask(const struct path *path, uint16_t attribute, uint32_t modifier, uint64_t guid)
{
	struct request *request;

	if (tail == room) {
		room = room ? 2 * room : 1024;
		list = more(list, room, sizeof *list);
	}
	request = &list[tail++];
	memset(request, 0, sizeof *request);
	request->path = *path;
	request->attribute = attribute;
	request->modifier = modifier;
	request->context = ABOUT;
	request->guid = guid;
	return request;
}

size_t asked_and_waiting(void)
{
	return tail - head + out;
}

static void send_again(struct slot *slot)
{
	static uint8_t buffer[512];
	uint8_t *packet = umad_get_mad(buffer);
	int fault;

	memset(buffer, 0, sizeof buffer);
	umad_set_addr(buffer, 0xffff, 0, 0, 0);
	packet[0] = 1;
	packet[1] = DIRECTED_CLASS;
	packet[2] = 1;
	packet[3] = slot->request.value ? SET : GET;
	packet[7] = slot->request.path.hops;
	put(packet + 8, 8, slot->number);	/* the kernel keeps the low half */
	put(packet + 16, 2, slot->request.attribute);
	put(packet + 20, 4, slot->request.modifier);
	put(packet + 24, 8, key_of_path(slot->request.path.port + 1, slot->request.path.hops));
	memset(packet + 32, 0xff, 4);
	if (slot->request.value)
		memcpy(packet + ATTRIBUTE, slot->request.value, BLOCK);
	memcpy(packet + 128 + 1, slot->request.path.port + 1, slot->request.path.hops);
	slot->state = WAITS;
	counts.again += slot->tries++ > 0;
	counts.sent++;
	fault = umad_send(umad, agent, buffer, PACKET, options.timeout_ms, 0);
	if (fault < 0)
		end(NO_FABRIC, "cannot send: %s", strerror(errno ? errno : -fault));
}

static void no_answer(struct slot *slot)
{
	if (slot->tries < options.tries && !is_stopped)
		send_again(slot);
	else
		slot->state = GIVEN_UP;
}

static struct slot *slot_at(unsigned place)
{
	return &slots[(first + place) % MOST_OUT];
}

static int answers(const uint8_t *packet, const struct request *request)
{
	return get(packet + 16, 2) == request->attribute && get(packet + 20, 4) == request->modifier &&
	       packet[7] == request->path.hops;
}

/* Takes a packet from the kernel: a reply, or an unanswered request that comes back with a status. */
static void sort_in(const uint8_t *packet, int status)
{
	unsigned i;

	for (i = 0; i < out; i++) {
		struct slot *slot = slot_at(i);

		if (slot->state != WAITS || packet[1] != DIRECTED_CLASS || (uint32_t) get(packet + 8, 8) != slot->number)
			continue;
		if (status) {
			no_answer(slot);
		} else if (answers(packet, &slot->request)) {
			memcpy(slot->reply, packet, PACKET);
			slot->state = ANSWERED;
		}
		return;
	}
}

static void receive(void)
{
	static uint8_t buffer[512];
	int length = PACKET, fault;
	unsigned i;

	errno = 0;
	fault = umad_recv(umad, buffer, &length, options.timeout_ms + GRACE_MS);
	if (fault >= 0) {
		sort_in(umad_get_mad(buffer), umad_status(buffer));
		return;
	}
	fault = errno ? errno : -fault;
	if (fault == EINTR)
		return;
	if (fault != ETIMEDOUT && fault != EWOULDBLOCK && fault != EAGAIN)
		end(NO_FABRIC, "cannot receive: %s", strerror(fault));
	for (i = 0; i < out; i++)	/* the kernel returned nothing for these: no answer */
		if (slot_at(i)->state == WAITS)
			no_answer(slot_at(i));
}

void stop_asking(void)
{
	is_stopped = 1;
}

void ask_all(void (*take)(const struct request *request, uint8_t *reply))
{
	while (out || head < tail) {
		if (is_stopped)
			head = tail;
		while (out < (unsigned) options.outstanding && head < tail) {
			struct slot *slot = slot_at(out++);

			slot->request = list[head++];
			slot->number = number++;
			slot->tries = 0;
			send_again(slot);
		}
		if (out)	/* nothing is, if asking was stopped meanwhile */
			receive();
		while (out && slots[first].state != WAITS) {
			struct slot *slot = &slots[first];

			first = (first + 1) % MOST_OUT;
			out--;
			take(&slot->request, slot->state == ANSWERED ? slot->reply : NULL);
		}
		progress(known_nodes(), asked_and_waiting());
	}
}
