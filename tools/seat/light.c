/* Light sweeps, each in place of a sweep, while nothing is left to write: each switch is asked for SwitchInfo alone. The
   process says whom to ask, and whether an answer is as its last sweep read it. Where one is not, or there is none, the
   process is asked for a sweep. */
#include <string.h>
#include "seat.h"

/* A request to a switch. */
struct light {
	struct packet packet;		/* as it goes out */
	uint8_t tid[8];			/* as the process gave it */
	uint32_t number;		/* as it goes out */
	int tries, is_answered;
	unsigned long long deadline;
};

static struct light *lights;
static size_t count, room, sent, out;	/* of the first `sent`, `out` wait for their answers */
static unsigned long long due;

void keep_light(const char *hex)
{
	struct light *it;

	if (count == room) {
		room = 2 * room + MOST_OUT;
		lights = more(lights, room, sizeof *lights);
	}
	it = &lights[count++];
	memset(it, 0, sizeof *it);
	it->packet.lid = NO_LID;
	read_packet(hex, it->packet.bytes);
	memcpy(it->tid, it->packet.bytes + 8, sizeof it->tid);
}

/* Ends a light sweep, or the wait for one. */
static void forget_lights(void)
{
	count = sent = out = 0;
	due = clock_ms() + 1000ULL * seat.sweep_seconds;
}

/* Ends a light sweep, and asks for a sweep. */
static void look(const char *why)
{
	if (options.verbose)
		note(INFO, "%s: a sweep is asked for", why);
	forget_lights();
	tell("look");
}

static void begin_lights(void)
{
	count = sent = out = 0;
	shown("light");
	if (!count && !manager_is_gone())
		look("no light sweep will do");
}

static void send_light(struct light *it)
{
	it->tries++;
	it->deadline = clock_ms() + options.timeout_ms;
	send_numbered(&it->packet);
}

/* Sends the next requests, as many as may be out at a time. */
static void send_next(void)
{
	for (; sent < count && out < (size_t) options.outstanding; sent++, out++) {
		lights[sent].number = number_request(&lights[sent].packet);
		send_light(&lights[sent]);
	}
}

/* Sends late requests again. Returns 0 if one was sent as often as it may be. */
static int send_late(void)
{
	unsigned long long clock = clock_ms();
	size_t i;

	for (i = 0; i < sent && out; i++) {
		if (lights[i].is_answered || clock < lights[i].deadline)
			continue;
		if (lights[i].tries == options.tries)
			return 0;
		carried.again++;
		send_light(&lights[i]);
	}
	return 1;
}

void sweep_lightly(void)
{
	if (!seat.heavy_seconds)
		return;
	if (!rests()) {
		forget_lights();
		return;
	}
	if (!count && clock_ms() >= due)
		begin_lights();
	if (count && !send_late())
		look("a switch does not answer a light sweep");
	send_next();
}

/* Returns the request of a light sweep that waits for this answer, or NULL. */
static struct light *asked_by(const uint8_t *packet)
{
	size_t i;

	for (i = 0; i < sent; i++)
		if (!lights[i].is_answered && lights[i].number == (uint32_t) get(packet + 8, 8) &&
		    is_answer_to(packet, lights[i].packet.bytes))
			return &lights[i];
	return NULL;
}

/* Returns whether the process says that an answer is as its last sweep read it. */
static int is_same(const uint8_t *packet)
{
	char line[6 + 2 * PACKET + 1] = "light ";

	write_packet(packet, line + 6);
	return !strcmp(shown(line), "light same\n");
}

int take_light(uint8_t *packet)
{
	struct light *it = asked_by(packet);

	if (!it)
		return 0;
	carried.answered++;
	if (!rests()) {
		forget_lights();
		return 1;
	}
	it->is_answered = 1;
	out--;
	memcpy(packet + 8, it->tid, sizeof it->tid);
	if (!is_same(packet)) {
		look("a switch is not as it was");
	} else if (!out && sent == count) {
		if (options.verbose)
			note(INFO, "a light sweep: %zu switches are as they were", count);
		forget_lights();
		heard_light();
	}
	return 1;
}
