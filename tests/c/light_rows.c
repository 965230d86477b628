/*
 * Drives the light sweeps of seat (light.c) by a script on standard input, with a port, a process and a clock of its own.
 * tests/light.rows has the script's lines. Each thing that is done is a line of output.
 */
#include <stdarg.h>
#include <stdlib.h>
#include <string.h>
#include "../../tools/seat/seat.h"

enum { LONGEST = 4096, TID = 8, MOST_ASKED = 100, FIRST_TID = 700, FIRST_NUMBER = 40 };

const char *tool = "light_rows", *called = "light_rows";
struct seat_options seat = { .sweep_seconds = 10, .heavy_seconds = 60 };
struct options options = { .timeout_ms = 200, .tries = 2, .outstanding = 16 };
struct carried carried;
static unsigned asked[MOST_ASKED];	/* the last port of the path to each switch that the process asks next */
static struct packet went[MOST_ASKED];	/* the requests that went out, each once */
static int asked_count, went_count, taken, is_resting, is_gone, is_hushed, says_same = 1;
static double clock_now;
static uint32_t next_number = FIRST_NUMBER;

static void act(const char *format, ...) __attribute__((format(printf, 1, 2)));

static void act(const char *format, ...)
{
	va_list values;

	if (is_hushed)
		return;
	va_start(values, format);
	vprintf(format, values);
	va_end(values);
	printf("\n");
}

void note(enum level level, const char *format, ...)
{
	char text[1024];
	va_list values;

	va_start(values, format);
	vsnprintf(text, sizeof text, format, values);
	va_end(values);
	act("<%d> %s", level, text);
}

void *more(void *old, size_t count, size_t size)
{
	return realloc(old, count * size);
}

uint64_t get(const uint8_t *bytes, int count)
{
	uint64_t value = 0;

	while (count--)
		value = value << 8 | *bytes++;
	return value;
}

void put(uint8_t *bytes, int count, uint64_t value)
{
	while (count--) {
		bytes[count] = value;
		value >>= 8;
	}
}

void heard_light(void)
{
	act("it is counted");
}

int rests(void)
{
	return is_resting;
}

int manager_is_gone(void)
{
	return is_gone;
}

unsigned long long clock_ms(void)
{
	return clock_now * 1000;
}

void read_packet(const char *hex, uint8_t *bytes)
{
	char digits[3] = "";
	int i;

	for (i = 0; i < PACKET; i++) {
		memcpy(digits, hex + 2 * i, 2);
		bytes[i] = strtoul(digits, NULL, 16);
	}
}

void write_packet(const uint8_t *packet, char *hex)
{
	int i;

	for (i = 0; i < PACKET; i++)
		snprintf(hex + 2 * i, 3, "%02x", packet[i]);
}

/* The port. */
int is_answer_to(const uint8_t *packet, const uint8_t *request)
{
	return packet[1] == request[1] && get(packet + 16, 2) == get(request + 16, 2);
}

uint32_t number_request(struct packet *packet)
{
	put(packet->bytes + TID, 8, next_number);
	went[went_count++] = *packet;
	return next_number++;
}

void send_numbered(const struct packet *packet)
{
	act("request %u goes out by port %u%s", (unsigned) get(packet->bytes + TID, 8), packet->bytes[129],
	    packet->lid == NO_LID ? "" : ", to a LID");
}

/* The process. */
static void ask_switches(void)
{
	char hex[2 * PACKET + 1];
	struct packet packet = { 0 };
	int i;

	for (i = 0; i < asked_count; i++) {
		packet.bytes[1] = DIRECTED_CLASS;
		packet.bytes[3] = GET;
		put(packet.bytes + TID, 8, FIRST_TID + i);
		packet.bytes[129] = asked[i];
		write_packet(packet.bytes, hex);
		keep_light(hex);
	}
}

const char *shown(const char *word)
{
	uint8_t bytes[PACKET];

	if (!strcmp(word, "light")) {
		act("the process is asked whom to ask");
		ask_switches();
		return "";
	}
	if (strncmp(word, "light ", 6) || strlen(word + 6) != 2 * PACKET)
		abort();
	read_packet(word + 6, bytes);
	act("the process is shown the answer to %u", (unsigned) get(bytes + TID, 8));
	return says_same ? "light same\n" : "light changed\n";
}

void tell(const char *format, ...)
{
	char line[LONGEST];
	va_list values;

	va_start(values, format);
	vsnprintf(line, sizeof line, format, values);
	va_end(values);
	act("told %s", line);
}

/* The script. */
static void set_asked(char *words)
{
	char *word = strtok(words, " ");

	for (asked_count = 0; word; word = strtok(NULL, " "))
		asked[asked_count++] = atoi(word);
}

/* Has the answer to a request come: of another class, as it is changed, or as the last sweep read it. */
static void answer(unsigned number, const char *how)
{
	uint8_t bytes[PACKET];

	memcpy(bytes, went[number - FIRST_NUMBER].bytes, PACKET);
	bytes[3] |= RESPONSE;
	if (!strcmp(how, "class"))
		bytes[1] = LID_ROUTED_CLASS;
	says_same = strcmp(how, "changed");
	if (!take_light(bytes))
		act("that is no answer to a light sweep");
}

static void set_number(const char *name, int value)
{
	if (!strcmp(name, "heavy"))
		seat.heavy_seconds = value;
	else if (!strcmp(name, "sweep"))
		seat.sweep_seconds = value;
	else if (!strcmp(name, "outstanding"))
		options.outstanding = value;
	else if (!strcmp(name, "tries"))
		options.tries = value;
	else if (!strcmp(name, "verbose"))
		options.verbose = value;
	else if (!strcmp(name, "rests"))
		is_resting = value;
	else if (!strcmp(name, "gone"))
		is_gone = value;
	else if (!strcmp(name, "hush"))
		is_hushed = value;
	else
		abort();
}

static void take(char *line)
{
	char name[32], how[32] = "same";
	unsigned number;
	double seconds;
	int value;

	if (!strncmp(line, "switches", 8))
		set_asked(line + 8);
	else if (sscanf(line, "set %31s %d", name, &value) == 2)
		set_number(name, value);
	else if (sscanf(line, "wait %lf", &seconds) == 1)
		clock_now += seconds;
	else if (sscanf(line, "answer %u %31s", &number, how) >= 1)
		answer(number, how);
	else if (sscanf(line, "many %d", &asked_count) == 1)
		memset(asked, 0, sizeof asked);
	else if (!strcmp(line, "all"))
		for (; taken < went_count; taken++)
			answer(FIRST_NUMBER + taken, "same");
	else if (!strcmp(line, "turn"))
		sweep_lightly();
	else if (!strcmp(line, "counts"))
		act("again %lu answered %lu", carried.again, carried.answered);
	else
		abort();
}

int main(void)
{
	static char line[LONGEST];

	setvbuf(stdout, NULL, _IOLBF, 0);
	while (fgets(line, sizeof line, stdin)) {
		line[strcspn(line, "\n")] = 0;
		take(line);
	}
	return 0;
}
