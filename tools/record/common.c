/* What record and send share besides requests: how they end, what they say, numbers, memory. */
#include <errno.h>
#include <inttypes.h>
#include <stdarg.h>
#include <stdlib.h>
#include <string.h>
#include <sys/stat.h>
#include <time.h>
#include <unistd.h>
#include "record.h"

enum { FEW_LINES = 20, WIDEST = 100 };
/* Seconds until a terminal shows progress, and between updates. */
#define FIRST_LINE 2.0
#define NEXT_LINE 0.5

struct options options = { .timeout_ms = 500, .tries = 4, .outstanding = 4 };
struct counts counts;
const char *stage = "asks";
const char *called;
static int is_shown;

static int has_terminal(void)
{
	return !options.quiet && isatty(STDERR_FILENO);
}

void clear_line(void)
{
	if (is_shown)
		fprintf(stderr, "\r\033[K");
	is_shown = 0;
}

/* Returns whether standard error goes to the journal of systemd, which then takes the level of a line from its
   beginning. */
static int is_in_journal(void)
{
	static int known = -1;
	const char *stream = getenv("JOURNAL_STREAM");
	unsigned long long device, file;
	struct stat own;

	if (known < 0)
		known = stream && sscanf(stream, "%llu:%llu", &device, &file) == 2 && !fstat(STDERR_FILENO, &own) &&
			own.st_dev == device && own.st_ino == file;
	return known;
}

/* Begins a line. */
static void begin_line(enum level level)
{
	clear_line();
	if (is_in_journal())
		fprintf(stderr, "<%d>", level);
	fprintf(stderr, "%s: ", tool);
}

/* Ends by _exit: in exit, a simulator's library in place of libibumad waits forever while a port is open. */
void end(int status, const char *format, ...)
{
	va_list values;

	begin_line(ERROR);
	va_start(values, format);
	vfprintf(stderr, format, values);
	va_end(values);
	fprintf(stderr, "\n");
	remove_begun_files();
	_exit(status);
}

void say_at(enum level level, const char *format, ...)
{
	va_list values;

	begin_line(level);
	va_start(values, format);
	vfprintf(stderr, format, values);
	va_end(values);
	fprintf(stderr, "\n");
}

void say(const char *format, ...)
{
	va_list values;

	begin_line(INFO);
	va_start(values, format);
	vfprintf(stderr, format, values);
	va_end(values);
	fprintf(stderr, "\n");
}

void *more(void *old, size_t count, size_t size)
{
	void *memory = realloc(old, count * size);

	if (!memory)
		end(NO_MEMORY, "out of memory");
	return memory;
}

uint64_t get(const uint8_t *bytes, int count)
{
	uint64_t value = 0;

	while (count--)
		value = value << 8 | *bytes++;
	return value;
}

void put(uint8_t *bytes, int count, uint64_t value)
{
	while (count--) {
		bytes[count] = value;
		value >>= 8;
	}
}

static const char *name_of(uint16_t attribute)
{
	return attribute == NODE_DESCRIPTION ? "NodeDescription" : attribute == NODE_INFO ? "NodeInfo" :
	       attribute == SWITCH_INFO ? "SwitchInfo" : attribute == PORT_INFO ? "PortInfo" :
	       attribute == LANE_TABLE ? "SLtoVLMappingTable" :
	       attribute == MULTICAST_TABLE ? "MulticastForwardingTable" : "LinearForwardingTable";
}

/* Says `what` of a request, named by its path in the form that smpquery -D takes. */
void say_of(const struct request *request, const char *what)
{
	unsigned long long guid = request->guid;
	int i;

	if (counts.silent + counts.left_out > FEW_LINES && !options.verbose)
		return;
	clear_line();
	fprintf(stderr, "%s: path 0", tool);
	for (i = 1; i <= request->path.hops; i++)
		fprintf(stderr, ",%u", request->path.port[i]);
	fprintf(stderr, " %s%s", request->value ? "Set of " : "", name_of(request->attribute));
	if (request->attribute == FORWARDING_TABLE)
		fprintf(stderr, " block %u", request->modifier);
	if (request->attribute == PORT_INFO)
		fprintf(stderr, " of port %u", request->modifier);
	if (request->attribute == MULTICAST_TABLE)
		fprintf(stderr, " block %u position %u", request->modifier & 0x1ff, request->modifier >> 28);
	if (request->attribute == LANE_TABLE)
		fprintf(stderr, " from port %u to port %u", request->modifier >> 8, request->modifier & 255);
	if (request->context == ABOUT)
		fprintf(stderr, " of node %016llx", guid);
	if (request->context == VIA)
		fprintf(stderr, " behind port %u of node %016llx", request->via_port, guid);
	fprintf(stderr, ": %s\n", what);
}

double now(void)
{
	struct timespec time;

	clock_gettime(CLOCK_MONOTONIC, &time);
	return time.tv_sec + time.tv_nsec * 1e-9;
}

void progress(size_t nodes, size_t waiting)
{
	static double next;
	char line[WIDEST + 1];

	if (!next)
		next = now() + FIRST_LINE;
	if (!has_terminal() || now() < next)
		return;
	next = now() + NEXT_LINE;
	snprintf(line, sizeof line, "%s: %s, %lu replies, %zu nodes, %zu requests wait, %lu without a reply", tool, stage,
		counts.replies, nodes, waiting, counts.silent);
	fprintf(stderr, "\r\033[K%s", line);
	fflush(stderr);
	is_shown = 1;
}

uint64_t number_in(const char *text, const char *what, uint64_t least, uint64_t most)
{
	unsigned long long value;
	char *rest;

	errno = 0;
	value = strtoull(text, &rest, 0);
	if (errno || rest == text || *rest || strchr(text, '-') || value < least || value > most)
		end(USAGE, "%s takes a number from %" PRIu64 " to %" PRIu64 ", not %s", what, least, most, text);
	return value;
}

/* Prints the usage with the name by which the program was called. An installed copy has another one. */
void print_usage(FILE *file, const char *text)
{
	const char *name = strrchr(called, '/');

	fprintf(file, "usage: %s%s", name ? name + 1 : called, text);
}

int take_shared_option(int letter, const char *text)
{
	switch (letter) {
	case 'C': options.adapter = (char *) text; return 1;
	case 'P': options.port = number_in(text, "--port", 1, 254); return 1;
	case 'n': options.outstanding = number_in(text, "--outstanding", 1, MOST_OUT); return 1;
	case 't': options.timeout_ms = number_in(text, "--timeout", 1, 600000); return 1;
	case 'r': options.tries = 1 + number_in(text, "--retries", 0, 100); return 1;
	case 'k': options.m_key = number_in(text, "--m-key", 0, UINT64_MAX); return 1;
	case 'K': options.m_keys = (char *) text; return 1;
	case 'q': options.quiet = 1; return 1;
	case 'v': options.verbose = 1; return 1;
	default: return 0;
	}
}
