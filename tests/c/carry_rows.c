/*
 * Drives what seat carries (carry.c, administration.c) by a script on standard input, with a port and a process of its
 * own. tests/carry.rows has the script's lines. Each thing that is done is a line of output.
 */
#include <errno.h>
#include <stdarg.h>
#include <stdlib.h>
#include <string.h>
#include <infiniband/umad.h>
#include "../../tools/seat/seat.h"

enum { LONGEST = 4096, HEAD = 64, STATUS = 4, MOST_QUEUED = 128, CLOCK = 1700000000, TID = 8, KEY = 24, RMPP = 24 };
/* The number that the first request gets: that of the clock. */
#define FIRST (((uint32_t) CLOCK << 12) | 1)

/* A packet that waits at the port, and how it came. */
struct waiting {
	uint8_t bytes[PACKET], status;
	ib_mad_addr_t from;
};

const char *tool = "carry_rows", *called = "carry_rows";
struct seat_options seat;
struct options options = { .timeout_ms = 200 };
struct own_port own_port = { .guid = 0x101, .number = 1, .name = "port 1", .adapter = "mlx" };
struct carried carried;
static struct waiting queue[MOST_QUEUED];
static int queued, taken, send_fault, receive_fault, master, ended, is_hushed, runs_light;
static int sa_status = -1;	/* of an answer to a host, if there is one */
static uint8_t given[PACKET];	/* the packet that the process printed last, or that came last */
static ib_mad_addr_t address;	/* to which a packet goes */
static int partition;
static double clock_now;

static void act(const char *format, ...) __attribute__((format(printf, 1, 2)));

static void act(const char *format, ...)
{
	va_list values;

	if (is_hushed)
		return;
	va_start(values, format);
	vprintf(format, values);
	va_end(values);
	printf("\n");
}

double now(void)
{
	return clock_now;
}

time_t time(time_t *at)
{
	(void) at;
	return CLOCK;
}

int is_ended(void)
{
	return ended;
}

int is_master(void)
{
	return master;
}

void note(enum level level, const char *format, ...)
{
	char text[1024];
	va_list values;

	va_start(values, format);
	vsnprintf(text, sizeof text, format, values);
	va_end(values);
	act("<%d> %s", level, text);
}

void end(int status, const char *format, ...)
{
	char text[1024];
	va_list values;

	va_start(values, format);
	vsnprintf(text, sizeof text, format, values);
	va_end(values);
	act("end %d %s", status, text);
	fflush(stdout);
	_Exit(0);
}

uint64_t get(const uint8_t *bytes, int count)
{
	uint64_t value = 0;

	while (count--)
		value = value << 8 | *bytes++;
	return value;
}

void put(uint8_t *bytes, int count, uint64_t value)
{
	while (count--) {
		bytes[count] = value;
		value >>= 8;
	}
}

/* Keys: a path's is 0x1000 and its last port, a LID's is 0x2000 and the LID. */
uint64_t key_of_path(const uint8_t *port, uint8_t hops)
{
	return 0x1000 + (hops ? port[hops - 1] : 0);
}

uint64_t key_of_lid(uint16_t lid)
{
	return 0x2000 + lid;
}

void note_reached(const uint8_t *port, uint8_t hops, uint64_t guid)
{
	act("reached %016llx by %u hops, the last by port %u", (unsigned long long) guid, hops, hops ? port[hops - 1] : 0);
}

void note_lids(const uint8_t *port, uint8_t hops, uint16_t first, unsigned lmc)
{
	act("LID %u, LMC %u by %u hops, the last by port %u", first, lmc, hops, hops ? port[hops - 1] : 0);
}

void heard_trap(unsigned number, unsigned lid)
{
	act("trap %u of LID %u", number, lid);
}

/* Names the bytes, apart from fields that are shown, in which a packet is another one than was given. */
static const char *other_bytes(const uint8_t *bytes, char *text, size_t room)
{
	int i, length = 0;

	*text = 0;
	for (i = 8; i < PACKET; i++)
		if (bytes[i] != given[i] && (i < TID || i >= TID + 8) && (i < KEY || i >= KEY + 8))
			length += snprintf(text + length, room - length, "%s%d", length ? "," : ", other bytes: ", i);
	return text;
}

/* Writes a number of a request: n0 for the first, or all of it for another one. */
static const char *number_of(const uint8_t *bytes, char *text, size_t room)
{
	uint64_t number = get(bytes + TID, 8);

	if (number >= FIRST && number < (uint64_t) FIRST + 1000)
		snprintf(text, room, "n%u", (unsigned) (number - FIRST));
	else
		snprintf(text, room, "%llu", (unsigned long long) number);
	return text;
}

static void show(const char *what, const uint8_t *bytes, const char *rest)
{
	char number[24], others[LONGEST];

	act("%s class %u method %u status %u attribute %u modifier %u tid %s key %llx pointer %u%s%s", what, bytes[1],
	    bytes[3], (unsigned) get(bytes + 4, 2), (unsigned) get(bytes + 16, 2), (unsigned) get(bytes + 20, 4),
	    number_of(bytes, number, sizeof number), (unsigned long long) get(bytes + KEY, 8), bytes[6], rest,
	    other_bytes(bytes, others, sizeof others));
}

/* The process. */
void tell(const char *format, ...)
{
	uint8_t bytes[PACKET];
	char line[LONGEST], rest[32];
	unsigned lid;
	va_list values;

	va_start(values, format);
	vsnprintf(line, sizeof line, format, values);
	va_end(values);
	if (strncmp(line, "packet ", 7) || sscanf(line + 7 + 2 * PACKET, " from %u", &lid) != 1)
		abort();
	read_packet(line + 7, bytes);
	snprintf(rest, sizeof rest, " from %u", lid);
	show("told", bytes, rest);
}

/* Reads the hex digits of a packet. */
void read_packet(const char *hex, uint8_t *bytes)
{
	char digits[3] = "";
	unsigned i;

	for (i = 0; i < PACKET; i++) {
		memcpy(digits, hex + 2 * i, 2);
		bytes[i] = strtoul(digits, NULL, 16);
	}
}

/* Its answer to a request for subnet administration: the request with the R bit and a status, if it has an answer. */
const char *shown(const char *word)
{
	static char line[LONGEST];
	uint8_t bytes[PACKET];
	char rest[32], hex[2 * PACKET + 1];
	unsigned lid;

	if (strncmp(word, "sa ", 3) || sscanf(word + 3 + 2 * PACKET, " from %u", &lid) != 1)
		abort();
	read_packet(word + 3, bytes);
	snprintf(rest, sizeof rest, " from %u", lid);
	show("asked", bytes, rest);
	if (sa_status < 0)
		return "";
	bytes[3] |= RESPONSE;
	put(bytes + 4, 2, sa_status);
	write_packet(bytes, hex);
	snprintf(line, sizeof line, "sa %s to %u\n", hex, lid);
	return line;
}

/* A light sweep, which takes answers if it runs. */
int take_light(uint8_t *packet)
{
	if (runs_light)
		act("the light sweep takes tid %u", (unsigned) (get(packet + TID, 8) - FIRST));
	return runs_light;
}

/* The port. */
int open_own_port(struct own_port *port)
{
	(void) port;
	return 0;
}

int umad_register(int port, int class, int version, uint8_t rmpp, long methods[])
{
	(void) port, (void) version, (void) rmpp, (void) methods;
	return class;
}

int umad_unregister(int port, int agent)
{
	(void) port, (void) agent;
	return 0;
}

int umad_close_port(int port)
{
	return port;
}

int umad_get_fd(int port)
{
	(void) port;
	return STATUS;
}

int umad_get_issm_path(const char *adapter, int number, char *path, int room)
{
	(void) adapter;
	act("port %d says that a manager is here", number);
	return snprintf(path, room, "/dev/null") < 0;
}

void *umad_get_mad(void *umad)
{
	return (char *) umad + HEAD;
}

int umad_status(void *umad)
{
	return *((uint8_t *) umad + STATUS);
}

ib_mad_addr_t *umad_get_mad_addr(void *umad)
{
	(void) umad;
	return &queue[taken - 1].from;
}

int umad_set_addr(void *umad, int lid, int queue_pair, int level, int key)
{
	(void) umad, (void) key;
	address = (ib_mad_addr_t) { .lid = lid, .qpn = queue_pair, .sl = level };
	return 0;
}

int umad_set_pkey(void *umad, int index)
{
	(void) umad;
	partition = index;
	return 0;
}

int umad_send(int port, int agent, void *umad, int length, int timeout_ms, int retries)
{
	int fault = send_fault;
	char what[32], rest[96];

	(void) port;
	snprintf(what, sizeof what, "agent %d sends", agent);
	if (agent == ADMINISTRATION_CLASS)
		snprintf(rest, sizeof rest, " to %u, queue pair %u, level %u, partition %d", address.lid,
			 (unsigned) address.qpn, address.sl, partition);
	else
		snprintf(rest, sizeof rest, " to %u, in %d ms", address.lid, timeout_ms);
	show(what, umad_get_mad(umad), rest);
	if (length != PACKET || retries)
		abort();
	send_fault = 0;
	errno = fault;
	return -fault;
}

int umad_recv(int port, void *umad, int *length, int timeout_ms)
{
	int fault = receive_fault ? receive_fault : ETIMEDOUT;

	(void) port, (void) timeout_ms;
	if (receive_fault || taken == queued) {
		clock_now += timeout_ms / 1000.0;
		receive_fault = 0;
		errno = fault;
		return -fault;
	}
	*length = PACKET;
	((uint8_t *) umad)[STATUS] = queue[taken].status;
	memcpy(umad_get_mad(umad), queue[taken].bytes, PACKET);
	memcpy(given, queue[taken++].bytes, PACKET);
	return 1;
}

/* The script. Puts hops, separated by commas, into a packet. */
static void put_hops(uint8_t *bytes, char *text)
{
	char *hop = strtok(text, ",");

	for (bytes[7] = 0; hop; hop = strtok(NULL, ","))
		bytes[128 + ++bytes[7]] = atoi(hop);
}

/* Puts hex digits into an attribute, from a byte on: AT:DIGITS. */
static void put_data(uint8_t *bytes, const char *text)
{
	char *digits, two[3] = "";
	uint8_t *at = bytes + ATTRIBUTE + strtoul(text, &digits, 10);

	for (digits++; *digits; digits += 2) {
		memcpy(two, digits, 2);
		*at++ = strtoul(two, NULL, 16);
	}
}

/* Reads a number: n0 is that of the first request, and h0 has the same lower half. */
static uint64_t number_in_word(const char *text)
{
	uint64_t half = *text == 'h' ? 0xabcdef0100000000 : 0;

	return *text == 'n' || half ? half + FIRST + strtoull(text + 1, NULL, 10) : strtoull(text, NULL, 0);
}

/* Reads a packet's words: what a field has, behind its name. In all other bytes no two neighbors are equal. Returns its
   LID. */
static unsigned packet_in(char *words, struct waiting *packet)
{
	unsigned lid = 0, i;
	char *at, *word, *value;
	uint8_t *bytes = packet->bytes;

	for (i = 0; i < PACKET; i++)
		bytes[i] = 7 * i + 3;
	memset(packet->bytes, 0, 8);
	bytes[0] = bytes[2] = 1;
	bytes[RMPP + 2] &= ~1;
	packet->status = 0;
	packet->from = (ib_mad_addr_t) { .qpn = htonl(1), .sl = 6, .pkey_index = 5 };
	for (word = strtok_r(words, " ", &at); word; word = strtok_r(NULL, " ", &at)) {
		value = strchr(word, '=');
		*value++ = 0;
		if (!strcmp(word, "hops"))
			put_hops(bytes, value);
		else if (!strcmp(word, "data"))
			put_data(bytes, value);
		else if (!strcmp(word, "lid"))
			lid = atoi(value);
		else if (!strcmp(word, "lost"))
			packet->status = atoi(value);
		else if (!strcmp(word, "class"))
			bytes[1] = atoi(value);
		else if (!strcmp(word, "method"))
			bytes[3] = atoi(value);
		else if (!strcmp(word, "status"))
			put(bytes + 4, 2, atoi(value));
		else if (!strcmp(word, "pointer"))
			bytes[6] = atoi(value);
		else if (!strcmp(word, "tid"))
			put(bytes + TID, 8, number_in_word(value));
		else if (!strcmp(word, "attribute"))
			put(bytes + 16, 2, atoi(value));
		else if (!strcmp(word, "modifier"))
			put(bytes + 20, 4, strtoul(value, NULL, 10));
		else if (!strcmp(word, "rmpp"))
			bytes[RMPP + 1] = atoi(value), bytes[RMPP + 2] |= 1;
		else if (!strcmp(word, "key"))
			put(bytes + KEY, 8, atoi(value));
		else
			abort();
	}
	packet->from.lid = htons(lid);
	return lid;
}

static void print_packet(char *words)
{
	struct waiting packet;
	struct packet printed = { .lid = packet_in(words, &packet) };

	memcpy(printed.bytes, packet.bytes, PACKET);
	memcpy(given, packet.bytes, PACKET);
	send_packet(&printed);
}

static void print_many(unsigned first, unsigned count)
{
	char words[LONGEST];

	while (count--) {
		snprintf(words, sizeof words, "tid=%u class=1 method=1 attribute=17 modifier=9 lid=4 key=0", first++);
		print_packet(words);
	}
}

static void set_number(const char *name, int value)
{
	if (!strcmp(name, "verbose"))
		options.verbose = value;
	else if (!strcmp(name, "m-key"))
		options.m_key = value;
	else if (!strcmp(name, "dry-run"))
		seat.dry_run = value;
	else if (!strcmp(name, "master"))
		master = value;
	else if (!strcmp(name, "sa"))
		sa_status = value;
	else if (!strcmp(name, "light"))
		runs_light = value;
	else if (!strcmp(name, "hush"))
		is_hushed = value;
	else if (!strcmp(name, "send-fails"))
		send_fault = value;
	else if (!strcmp(name, "receive-fails"))
		receive_fault = value;
	else
		abort();
}

static void show_silent(void)
{
	const struct path *path;
	size_t i;

	act("%zu without an answer", silent_requests());
	for (i = 0; i < silent_requests(); i++) {
		path = silent_path(i);
		if (path)
			act("%s, %u hops, the last by port %u", silent_request(i), path->hops,
			    path->hops ? path->port[path->hops] : 0);
		else
			act("%s, no path", silent_request(i));
	}
}

static void show_counts(void)
{
	act("sent %lu again %lu answered %lu given up %lu late %lu requests %lu traps %lu repressed %lu pointers %lu sets %lu "
	    "hosts %lu refused %lu", carried.sent, carried.again, carried.answered, carried.given_up, carried.late, carried.requests,
	    carried.traps, carried.repressed, carried.pointers, carried.sets, carried.hosts_answered,
	    carried.hosts_refused);
}

static void take(char *line)
{
	char name[32];
	unsigned first, count;
	struct waiting packet;
	int value;

	if (!strncmp(line, "print ", 6))
		print_packet(line + 6);
	else if (!strncmp(line, "comes ", 6))
		packet_in(line + 6, &queue[queued++]);
	else if (sscanf(line, "many %u %u", &first, &count) == 2)
		print_many(first, count);
	else if (sscanf(line, "set %31s %d", name, &value) == 2)
		set_number(name, value);
	else if (!strncmp(line, "silent ", 7)) {
		packet_in(line + 7, &packet);
		note_silent(packet.bytes);
	} else if (!strcmp(line, "carry"))
		carry(20);
	else if (!strcmp(line, "left"))
		act("%d left", queued - taken);
	else if (!strcmp(line, "pass"))
		let_pass();
	else if (!strcmp(line, "drop"))
		drop_all();
	else if (!strcmp(line, "begin silent"))
		begin_silent();
	else if (!strcmp(line, "silent"))
		show_silent();
	else if (!strcmp(line, "counts"))
		show_counts();
	else if (!strcmp(line, "manager"))
		be_manager();
	else if (!strcmp(line, "no manager"))
		be_no_manager();
	else if (!strcmp(line, "announce"))
		announce_manager();
	else
		abort();
}

int main(void)
{
	static char line[LONGEST];

	setvbuf(stdout, NULL, _IOLBF, 0);
	open_seat();
	while (fgets(line, sizeof line, stdin)) {
		line[strcspn(line, "\n")] = 0;
		take(line);
	}
	return 0;
}
