/*
 * Packets between the port and the process that decides: byte for byte as printed and as received, except for the
 * TransactionID of a request. Linux keeps only half of that, so requests are numbered here, and answers get their own
 * numbers back. Which requests go out when, and which are sent again, the process says,
 * but for those of light sweeps (light.c).
 */
#include <errno.h>
#include <fcntl.h>
#include <stdlib.h>
#include <string.h>
#include <unistd.h>
#include <infiniband/umad.h>
#include "seat.h"

/* SMInfo may take longer than the rest: a manager answers late while it plans. */
enum { SM_INFO_TIMES = 3, AT_ONCE = 64, CLOCK_SHIFT = 12, IS_SM = 2, MOST_KEPT = 4 * MOST_OUT };

/* A request that went out. */
struct out {
	struct packet packet;	/* as it goes out, except for its number */
	uint8_t tid[8];		/* as the manager gave it */
	uint32_t number;
};

/* A request without an answer. */
struct silent {
	struct path path;
	int has_path;	/* 0 if it goes by a LID */
	char text[SILENT_TEXT];
};

static int umad = -1, directed, routed, issm = -1;
static struct out outs[MOST_KEPT];	/* the oldest first */
static int out_count;
static uint32_t next_number;
static struct silent silent[MOST_SILENT];
static size_t silent_count;

/* Becomes the port's only subnet manager: the open file says so to the kernel. */
void be_manager(void)
{
	char path[256];

	if (issm >= 0)
		return;
	if (umad_get_issm_path(own_port.adapter, own_port.number, path, sizeof path))
		end(NO_FABRIC, "%s has no file by which it says that a subnet manager is here", own_port.name);
	issm = open(path, O_RDWR | O_NONBLOCK | O_CLOEXEC);
	if (issm < 0)
		end(NO_FABRIC, "cannot open %s: %s%s", path, strerror(errno),
		    errno == EAGAIN || errno == EBUSY ? ": another subnet manager is at this port" : "");
}

void be_no_manager(void)
{
	if (issm >= 0)
		close(issm);
	issm = -1;
}

void announce_manager(void)
{
	if (issm < 0)
		return;
	be_no_manager();
	be_manager();
}

void open_seat(void)
{
	long methods[16 / sizeof(long)] = { 1 << GET | 1 << SET | 1 << TRAP | 1 << TRAP_REPRESS };
	int hosts;

	umad = open_own_port(&own_port);
	fcntl(umad_get_fd(umad), F_SETFD, FD_CLOEXEC);
	directed = umad_register(umad, DIRECTED_CLASS, 1, 0, methods);
	routed = umad_register(umad, LID_ROUTED_CLASS, 1, 0, methods);
	hosts = open_administration(umad);
	if (directed < 0 || routed < 0 || hosts < 0)
		end(NO_FABRIC, "cannot register as a subnet manager at %s: %s", own_port.name,
		    strerror(directed < 0 ? -directed : routed < 0 ? -routed : -hosts));
	/* The numbers of an earlier process are not used again soon. */
	next_number = (uint32_t) time(NULL) << CLOCK_SHIFT | 1;
}

void close_seat(void)
{
	be_no_manager();
	umad_unregister(umad, directed);
	umad_unregister(umad, routed);
	close_administration(umad);
	umad_close_port(umad);
}

void let_pass(void)
{
	double until = now() + 2 * options.timeout_ms / 1000.0;
	static uint8_t buffer[512];
	int length;

	while (now() < until && !is_ended()) {
		length = PACKET;
		umad_recv(umad, buffer, &length, options.timeout_ms);
	}
}

static int is_answer(const uint8_t *packet)
{
	return packet[3] & RESPONSE || packet[3] == TRAP_REPRESS;
}

static int is_directed(const uint8_t *packet)
{
	return packet[1] == DIRECTED_CLASS;
}

/* Sends a packet. One that cannot be sent counts as lost. */
static void send_out(const struct packet *packet, int timeout_ms)
{
	static uint8_t buffer[512];
	int fault;

	memset(buffer, 0, sizeof buffer);
	umad_set_addr(buffer, is_directed(packet->bytes) ? NO_LID : packet->lid, 0, 0, 0);
	memcpy(umad_get_mad(buffer), packet->bytes, PACKET);
	carried.sent++;
	carried.repressed += packet->bytes[3] == TRAP_REPRESS;
	errno = 0;
	fault = umad_send(umad, is_directed(packet->bytes) ? directed : routed, buffer, PACKET, timeout_ms, 0);
	if (fault == -ENODEV || errno == ENODEV)
		end(NO_FABRIC, "%s is gone", own_port.name);
	if (fault < 0 && options.verbose)
		note(WARNING, "cannot send: %s", strerror(errno ? errno : -fault));
}

/* Puts the management key of the port to which a packet goes into it, if keys were given: into a request, and into a
   TrapRepress, which agents check too. */
static void put_key(struct packet *packet)
{
	uint8_t *bytes = packet->bytes;

	if ((!options.m_key && !options.m_keys) || bytes[3] & RESPONSE)
		return;
	put(bytes + 24, 8, is_directed(bytes) ? key_of_path(bytes + 128 + 1, bytes[7]) : key_of_lid(packet->lid));
}

/* Returns the place of the request that went out under a number of the manager, or -1. */
static int place_of_tid(const uint8_t *tid)
{
	int i;

	for (i = 0; i < out_count; i++)
		if (!memcmp(outs[i].tid, tid, sizeof outs[i].tid))
			return i;
	return -1;
}

static void forget(int place)
{
	out_count--;
	memmove(outs + place, outs + place + 1, (out_count - place) * sizeof *outs);
}

uint32_t number_request(struct packet *packet)
{
	put(packet->bytes + 8, 8, next_number);	/* the kernel keeps the low half */
	put_key(packet);
	return next_number++;
}

void send_numbered(const struct packet *packet)
{
	int is_info = get(packet->bytes + 16, 2) == SM_INFO;

	send_out(packet, options.timeout_ms * (is_info ? SM_INFO_TIMES : 1));
}

/* Keeps a request that goes out for the first time, under a number of its own, and returns it. */
static struct out *keep_out(const struct packet *packet)
{
	struct out *out;

	if (out_count == MOST_KEPT)
		forget(0);	/* the process waits for it no longer */
	out = &outs[out_count++];
	out->packet = *packet;
	memcpy(out->tid, packet->bytes + 8, sizeof out->tid);
	out->number = number_request(&out->packet);
	carried.sets += packet->bytes[3] == SET;
	return out;
}

/* Sends a request that the process printed, for the first time or again. */
static void send_request(const struct packet *packet)
{
	int place = place_of_tid(packet->bytes + 8);
	struct out *out = place < 0 ? keep_out(packet) : &outs[place];

	carried.again += place >= 0;
	send_numbered(&out->packet);
}

void send_packet(const struct packet *packet)
{
	struct packet copy = *packet;

	if (!is_answer(packet->bytes)) {
		send_request(packet);
		return;
	}
	put_key(&copy);
	send_out(&copy, 0);
}

void drop_all(void)
{
	out_count = 0;
}

void begin_silent(void)
{
	silent_count = 0;
}

size_t silent_requests(void)
{
	return silent_count;
}

const char *silent_request(size_t place)
{
	return silent[place].text;
}

const struct path *silent_path(size_t place)
{
	return silent[place].has_path ? &silent[place].path : NULL;
}

void note_silent(const uint8_t *packet)
{
	struct silent *it = &silent[silent_count];
	char *text = it->text;
	int i, length = 0, place = place_of_tid(packet + 8);

	if (place >= 0)
		forget(place);
	carried.given_up++;
	if (silent_count == MOST_SILENT)
		return;
	silent_count++;
	it->has_path = is_directed(packet);
	it->path.hops = packet[7];
	memcpy(it->path.port, packet + 128, sizeof it->path.port);
	length = snprintf(text, SILENT_TEXT, is_directed(packet) ? "path 0" : "by LID");
	for (i = 1; is_directed(packet) && i <= packet[7] && length < SILENT_TEXT - 48; i++)
		length += snprintf(text + length, SILENT_TEXT - length, ",%u", packet[128 + i]);
	snprintf(text + length, SILENT_TEXT - length, " %s 0x%04x modifier %u", packet[3] == SET ? "Set" : "Get",
		 (unsigned) get(packet + 16, 2), (unsigned) get(packet + 20, 4));
}

static int place_of(const uint8_t *packet)
{
	int i;

	for (i = 0; i < out_count; i++)
		if (outs[i].number == (uint32_t) get(packet + 8, 8))
			return i;
	return -1;
}

void write_packet(const uint8_t *packet, char *hex)
{
	static const char digits[] = "0123456789abcdef";
	int i;

	for (i = 0; i < PACKET; i++) {
		hex[2 * i] = digits[packet[i] >> 4];
		hex[2 * i + 1] = digits[packet[i] & 15];
	}
	hex[2 * PACKET] = 0;
}

/* Tells the process of a received packet. */
static void give(const uint8_t *packet, unsigned lid)
{
	char hex[2 * PACKET + 1];

	write_packet(packet, hex);
	tell("packet %s from %u", hex, is_directed(packet) ? NO_LID : lid);
}

/* Says again that a manager is here, if the port has lost that (IsSM): other managers would not ask this one. ibsim
   clears it when it finds that an earlier process is dead. */
static void keep_manager(const uint8_t *packet)
{
	uint32_t modifier = get(packet + 20, 4);

	if (issm < 0 || !is_directed(packet) || packet[7] || get(packet + 16, 2) != PORT_INFO ||
	    get(packet + 4, 2) & 0x7fff || (modifier && modifier != (uint32_t) own_port.number) ||
	    get(packet + ATTRIBUTE + 20, 4) & IS_SM)
		return;
	note(WARNING, "the port does not say that a manager is here: it is said again");
	announce_manager();
}

/* Notes which port a request by a directed route reached, and its LIDs, for its key. */
static void note_port(const uint8_t *request, const uint8_t *packet)
{
	const uint8_t *info = packet + ATTRIBUTE, *path = request + 128 + 1;

	if (!is_directed(request) || get(packet + 4, 2) & 0x7fff)
		return;
	if (get(packet + 16, 2) == NODE_INFO)
		note_reached(path, request[7], get(info + 20, 8));
	if (get(packet + 16, 2) == PORT_INFO)
		note_lids(path, request[7], get(info + 16, 2), info[34] & 7);
}

int is_answer_to(const uint8_t *packet, const uint8_t *request)
{
	return packet[1] == request[1] && get(packet + 16, 2) == get(request + 16, 2) &&
	       get(packet + 20, 4) == get(request + 20, 4);
}

/* Ends if the node reports another GUID or port than the manager was given. */
static void check_own_port(const uint8_t *packet)
{
	const uint8_t *info = packet + ATTRIBUTE;

	if (!is_directed(packet) || packet[7] || get(packet + 16, 2) != NODE_INFO || get(packet + 4, 2) & 0x7fff)
		return;
	if (get(info + 20, 8) != own_port.guid || info[36] != own_port.number)
		end(NO_FABRIC, "%s has GUID %016llx, and its node tells %016llx and port %u", own_port.name,
		    (unsigned long long) own_port.guid, (unsigned long long) get(info + 20, 8), info[36]);
}

/* Linux leaves 1 here if a path has no hops; the standard has 0. */
static void mend_pointer(uint8_t *packet)
{
	if (is_directed(packet) && packet[7] == 0 && packet[6] == 1) {
		packet[6] = 0;
		carried.pointers++;
	}
}

/* Passes an answer to the process. */
static void on_answer(uint8_t *packet, unsigned lid)
{
	int place = place_of(packet);
	struct out out;

	if (place >= 0)
		out = outs[place];
	if (place < 0 || !is_answer_to(packet, out.packet.bytes)) {
		mend_pointer(packet);
		carried.late += !take_light(packet);
		return;
	}
	carried.answered++;
	mend_pointer(packet);
	memcpy(packet + 8, out.tid, sizeof out.tid);
	check_own_port(packet);
	keep_manager(packet);
	note_port(out.packet.bytes, packet);
	forget(place);
	give(packet, lid);
}

/* Passes on a trap, which the process represses if it is master. */
static void on_trap(const uint8_t *packet, unsigned lid)
{
	carried.traps++;
	heard_trap(get(packet + ATTRIBUTE + 4, 2), lid);
	give(packet, lid);
}

/* Passes on a request of another manager. */
static void on_request(const uint8_t *packet, unsigned lid)
{
	carried.requests++;
	give(packet, lid);
}

/* Takes a packet. A request that the kernel returns with a status has no answer: the process knows when. */
static void sort_in(uint8_t *packet, unsigned lid, int status)
{
	if (status)
		return;
	if (packet[3] & RESPONSE)
		on_answer(packet, lid);
	else if (packet[3] == TRAP)
		on_trap(packet, lid);
	else if (packet[3] != TRAP_REPRESS)
		on_request(packet, lid);
}

/* Receives a packet, and returns whether there was one. */
static int receive(int wait_ms)
{
	static uint8_t buffer[512];
	int length = PACKET, fault;

	errno = 0;
	fault = umad_recv(umad, buffer, &length, wait_ms);
	if (fault >= 0) {
		if (((uint8_t *) umad_get_mad(buffer))[1] == ADMINISTRATION_CLASS)
			administer(umad, buffer);
		else
			sort_in(umad_get_mad(buffer), ntohs(umad_get_mad_addr(buffer)->lid), umad_status(buffer));
		return 1;
	}
	fault = errno ? errno : -fault;
	if (fault != EINTR && fault != ETIMEDOUT && fault != EWOULDBLOCK && fault != EAGAIN)
		end(NO_FABRIC, "cannot receive: %s", strerror(fault));
	return 0;
}

void carry(int wait_ms)
{
	int count;

	/* Takes all that is there before the time is told: the process may have planned for long. */
	for (count = 0; count < AT_ONCE && receive(count ? 0 : wait_ms); count++)
		;
}
