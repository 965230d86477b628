/*
 * The service levels of paths, as the subnet administration (SA) gives them to hosts: a Get of PathRecord for each
 * pair of an end port and a LID of another end port. Several requests are out at a time, and answers come in any
 * order.
 */
#include <errno.h>
#include <stdlib.h>
#include <string.h>
#include <infiniband/umad.h>
#include "record.h"

enum { SA_CLASS = 3, SA_VERSION = 2, GET = 1, ANSWER = 0x81, PATH_RECORD = 0x35, GRACE_MS = 2000 };
enum { MASK_AT = 48, RECORD_AT = 56, DLID_AT = 40, SLID_AT = 42, PATHS_AT = 49, LEVEL_AT = 53 };
enum { OF_DLID = 1 << 4, OF_SLID = 1 << 5, OF_PATHS = 1 << 12, BUSY = 1, NOT_SUPPORTED = 0x0c };
enum { LEVELS = 16, NONE = 255, FEW_LINES = 20, MOST_SILENT = 8 };
#define WELL_KNOWN_KEY 0x80010000u

/* A request that waits for its answer: from the port of a source to a LID. */
struct query {
	size_t source;
	uint16_t lid;
	uint32_t number;
	int tries;
};

static struct query queries[MOST_OUT];
static int out, agent;
static uint8_t *levels;		/* by source and LID */
static const struct lid **owners;	/* by LID */
static size_t greatest, next_source;
static uint32_t next_lid, number = 1;
static unsigned long without, answers;
static int is_silent;	/* MOST_SILENT queries had no answer, and none had one: no more are sent */
static int is_unsupported;	/* nor if such queries are not supported */

static uint8_t *level_of(size_t source, size_t lid)
{
	return &levels[source * (greatest + 1) + lid];
}

/* Returns whether the level of packets from a source to a LID is asked for. */
static int is_asked(size_t source, size_t lid)
{
	const struct lid *from = lid_at(source), *to = owners[lid];

	return to && to != from && (!options.adapters || (from->port && to->port));
}

/* Lists the owners of LIDs, and returns how many ports have a LID. */
static size_t list_owners(void)
{
	size_t i, lid, last, count = 0;

	for (i = 0; i < known_lids(); i++) {
		last = lid_at(i)->lid ? lid_at(i)->lid + (1u << lid_at(i)->lmc) - 1 : 0;
		count += last > 0;
		if (last > greatest)
			greatest = last;
	}
	owners = more(NULL, greatest + 1, sizeof *owners);
	memset(owners, 0, (greatest + 1) * sizeof *owners);
	for (i = 0; i < known_lids(); i++)
		for (lid = lid_at(i)->lid; lid_at(i)->lid && lid < lid_at(i)->lid + (1u << lid_at(i)->lmc); lid++)
			owners[lid] = lid_at(i);
	levels = more(NULL, known_lids() * (greatest + 1) + 1, 1);
	memset(levels, NONE, known_lids() * (greatest + 1) + 1);
	return count;
}

static void send_query(struct query *query)
{
	static uint8_t buffer[512];
	uint8_t *packet = umad_get_mad(buffer);
	int fault;

	memset(buffer, 0, sizeof buffer);
	umad_set_addr(buffer, lid_of_manager(), 1, level_of_manager(), WELL_KNOWN_KEY);
	packet[0] = 1;
	packet[1] = SA_CLASS;
	packet[2] = SA_VERSION;
	packet[3] = GET;
	put(packet + 8, 8, query->number);	/* the kernel keeps the low half */
	put(packet + 16, 2, PATH_RECORD);
	put(packet + MASK_AT, 8, OF_DLID | OF_SLID | OF_PATHS);
	put(packet + RECORD_AT + DLID_AT, 2, query->lid);
	put(packet + RECORD_AT + SLID_AT, 2, lid_at(query->source)->lid);
	packet[RECORD_AT + PATHS_AT] = 1;
	counts.again += query->tries++ > 0;
	counts.sent++;
	fault = umad_send(opened_port(), agent, buffer, PACKET, options.timeout_ms, 0);
	if (fault < 0)
		end(NO_FABRIC, "cannot send: %s", strerror(errno ? errno : -fault));
}

/* Takes the next pair of a port and a LID of another one. Returns 0 if there is none. */
static int next_pair(struct query *query)
{
	for (; next_source < known_lids(); next_source++, next_lid = 0)
		for (; lid_at(next_source)->lid && next_lid <= greatest; next_lid++)
			if (is_asked(next_source, next_lid)) {
				*query = (struct query) { .source = next_source, .lid = next_lid++, .number = number++ };
				return 1;
			}
	return 0;
}

static void say_of_pair(const struct query *query, const char *what, unsigned status)
{
	if (++without > FEW_LINES && !options.verbose)
		return;
	say(status ? "PathRecord from LID %u to LID %u: %s 0x%04x" : "PathRecord from LID %u to LID %u: %s",
	    lid_at(query->source)->lid, query->lid, what, status);
}

static void close_query(int place)
{
	queries[place] = queries[--out];
}

/* Sends a query again, or gives it up. */
static void no_answer(int place)
{
	if (queries[place].tries < options.tries) {
		send_query(&queries[place]);
		return;
	}
	counts.silent++;
	say_of_pair(&queries[place], "no answer", 0);
	close_query(place);
	is_silent = !answers && without >= MOST_SILENT;
}

static void take_answer(int place, const uint8_t *packet)
{
	const struct query *query = &queries[place];
	const uint8_t *record = packet + RECORD_AT;
	unsigned status = get(packet + 4, 2);

	if (status == BUSY) {
		no_answer(place);
		return;
	}
	counts.replies++;
	answers++;
	is_unsupported |= status == NOT_SUPPORTED;
	if (status || get(record + DLID_AT, 2) != query->lid || get(record + SLID_AT, 2) != lid_at(query->source)->lid) {
		counts.left_out++;
		say_of_pair(query, status ? "left out: status" : "left out: it is of another path", status);
	} else {
		*level_of(query->source, query->lid) = record[LEVEL_AT] & 15;
	}
	close_query(place);
}

static void sort_in(const uint8_t *packet, int status)
{
	int i;

	for (i = 0; i < out; i++)
		if (packet[1] == SA_CLASS && (uint32_t) get(packet + 8, 8) == queries[i].number) {
			if (status)
				no_answer(i);
			else if (packet[3] == ANSWER && get(packet + 16, 2) == PATH_RECORD)
				take_answer(i, packet);
			return;
		}
}

static void receive(void)
{
	static uint8_t buffer[512];
	int length = PACKET, fault, i;

	errno = 0;
	fault = umad_recv(opened_port(), buffer, &length, options.timeout_ms + GRACE_MS);
	if (fault >= 0) {
		sort_in(umad_get_mad(buffer), umad_status(buffer));
		return;
	}
	fault = errno ? errno : -fault;
	if (fault == EINTR)
		return;
	if (fault != ETIMEDOUT && fault != EWOULDBLOCK && fault != EAGAIN)
		end(NO_FABRIC, "cannot receive: %s", strerror(fault));
	for (i = out - 1; i >= 0; i--)
		no_answer(i);
}

int read_levels(void)
{
	if (!list_owners())
		end(NO_FABRIC, "no port has a LID, so there are no paths; no file is written");
	if (!lid_of_manager())
		end(NO_FABRIC, "this machine's port knows no subnet manager, which would give the levels; no file is written");
	agent = umad_register(opened_port(), SA_CLASS, SA_VERSION, 0, NULL);
	if (agent < 0)
		end(NO_FABRIC, "cannot register for the subnet administration: %s", strerror(-agent));
	stage = "asks for levels";
	for (;;) {
		while (!is_silent && !is_unsupported && out < options.outstanding && next_pair(&queries[out]))
			send_query(&queries[out++]);
		if (!out)
			break;
		receive();
		progress(known_nodes(), out);
	}
	umad_unregister(opened_port(), agent);
	if (is_silent)
		say("the subnet administration at LID %u does not answer, so no levels are read", lid_of_manager());
	if (is_unsupported)
		say("the subnet administration at LID %u gives no paths, so no levels are read; a seat gives none",
		    lid_of_manager());
	return !without;
}

/* Finds the level that most pairs have. Returns whether each pair has a level. */
static int find_usual(int *usual)
{
	unsigned long count[LEVELS] = { 0 };
	size_t source, lid;
	int level, lacks = 0;

	for (source = 0; source < known_lids(); source++)
		for (lid = 1; lid_at(source)->lid && lid <= greatest; lid++) {
			level = *level_of(source, lid);
			if (level < LEVELS)
				count[level]++;
			else
				lacks |= owners[lid] && owners[lid] != lid_at(source);
		}
	for (*usual = level = 0; level < LEVELS; level++)
		if (count[level] > count[*usual])
			*usual = level;
	return !lacks;
}

static void print_block(FILE *file, size_t source, size_t first, int usual, int is_whole)
{
	const struct lid *own = lid_at(source);
	int i, level, is_begun = 0;
	uint8_t row[BLOCK];

	for (i = 0; i < BLOCK; i++) {
		level = first + i <= greatest ? *level_of(source, first + i) : NONE;
		row[i] = is_whole && level == usual ? NONE : level;
		is_begun |= row[i] != NONE;
	}
	if (!is_begun)
		return;
	fprintf(file, "levels %016llx/%u %zu ", (unsigned long long) own->guid, own->port, first / BLOCK);
	for (i = 0; i < BLOCK; i++)
		fprintf(file, i == BLOCK - 1 ? "%02x\n" : "%02x", row[i]);
}

static int by_end(const void *one, const void *other)
{
	const struct lid *a = lid_at(*(const size_t *) one), *b = lid_at(*(const size_t *) other);

	return a->guid != b->guid ? (a->guid < b->guid ? -1 : 1) : a->port - b->port;
}

/* Prints the levels. A level for all other packets is among them only if no pair lacks a level. */
void print_levels(FILE *file)
{
	size_t *sources = more(NULL, known_lids() + 1, sizeof *sources), i, first;
	int usual, is_whole = find_usual(&usual);

	for (i = 0; i < known_lids(); i++)
		sources[i] = i;
	if (known_lids())
		qsort(sources, known_lids(), sizeof *sources, by_end);
	if (is_whole)
		fprintf(file, "level %d\n", usual);
	for (i = 0; i < known_lids(); i++)
		for (first = 0; lid_at(sources[i])->lid && first <= greatest; first += BLOCK)
			print_block(file, sources[i], first, usual, is_whole);
	free(sources);
}
