/*
 * Drives what seat makes of the notes of its process (notes.c, changes.c, others.c) by a script on standard input, with a
 * clock, a port and a process of its own. tests/notes.rows has the script's lines. Each thing that is done is a line of
 * output, with the seconds since the start.
 */
#include <stdarg.h>
#include <stdlib.h>
#include <string.h>
#include "../../tools/seat/seat.h"

enum { LONGEST = 4096, MOST_ANSWERS = 16, CLOCK = 1700000000, BEGIN = 1000, NO_PATH = 255 };
#define WAIT 0.03125	/* seconds that it waits for packets */

/* What the process answers to a line that begins with a word. */
struct answer {
	char word[32], text[LONGEST];
};

const char *tool = "notes_rows", *called = "notes_rows";
struct seat_options seat = { .sweep_seconds = 10, .poll_ms = 1000 };
struct options options;
struct own_port own_port = { .guid = 0x101, .number = 1, .name = "port 1" };
struct carried carried;
static struct answer answers[MOST_ANSWERS];
static double clock_now = BEGIN;
static int gone, silent, is_hushed;
static struct path paths[MOST_SILENT];	/* of what has no answer; `hops` is NO_PATH for none */
static unsigned long long wake = NEVER;
static char told_by_leave[LONGEST];	/* the notes of the answer to `leave` */

static void act(const char *format, ...) __attribute__((format(printf, 1, 2)));

static void act(const char *format, ...)
{
	va_list values;

	if (is_hushed)
		return;
	printf("%g ", clock_now - BEGIN);
	va_start(values, format);
	vprintf(format, values);
	va_end(values);
	printf("\n");
}

/* The clock. */
double now(void)
{
	return clock_now;
}

time_t time(time_t *at)
{
	time_t value = CLOCK + (time_t) (clock_now - BEGIN);

	if (at)
		*at = value;
	return value;
}

/* What is said. */
void note(enum level level, const char *format, ...)
{
	char text[1024];
	va_list values;

	va_start(values, format);
	vsnprintf(text, sizeof text, format, values);
	va_end(values);
	act("<%d> %s", level, text);
}

void end(int status, const char *format, ...)
{
	(void) format;
	act("end %d", status);
	fflush(stdout);
	_Exit(0);
}

void *more(void *old, size_t count, size_t size)
{
	void *memory = realloc(old, count * size);

	if (!memory)
		abort();
	return memory;
}

/* The process. */
const char *shown(const char *word)
{
	size_t i;

	for (i = 0; i < MOST_ANSWERS; i++)
		if (!strcmp(word, answers[i].word))
			return answers[i].text;
	return "";
}

void tell(const char *format, ...)
{
	char line[LONGEST];
	va_list values;

	va_start(values, format);
	vsnprintf(line, sizeof line, format, values);
	va_end(values);
	act("tell %s", line);
	heard_notes(told_by_leave);
}

unsigned long long wake_time(void)
{
	return wake;
}

void tell_time_if_due(void)
{
}

/* Reads the path of a packet in place of its digits: ports behind 0, or 00 for none. */
void read_packet(const char *hex, uint8_t *bytes)
{
	memset(bytes, 0, PACKET);
	bytes[7] = strcmp(hex, "00") ? 0 : NO_PATH;
	for (; (hex = strchr(hex, ',')); hex++)
		bytes[128 + ++bytes[7]] = atoi(hex + 1);
}

int manager_is_gone(void)
{
	return gone;
}

/* The port. */
void drop_all(void)
{
	act("drop");
}

void announce_manager(void)
{
	act("announce");
}

void close_seat(void)
{
	act("close");
}

void be_no_manager(void)
{
	act("no manager");
}

void carry(int wait_ms)
{
	(void) wait_ms;
	clock_now += WAIT;
}

void begin_silent(void)
{
	silent = 0;
}

void note_silent(const uint8_t *packet)
{
	struct path *path = &paths[silent++];

	path->hops = packet[7];
	memcpy(path->port, packet + 128, sizeof path->port);
}

size_t silent_requests(void)
{
	return silent;
}

const char *silent_request(size_t place)
{
	return place ? "another request" : "a request";
}

const struct path *silent_path(size_t place)
{
	return paths[place].hops == NO_PATH ? NULL : &paths[place];
}

void write_status(const struct standing *status)
{
	act("status %s sweeps %lu generation %d whole %d writings %lu written %d settled %d", status->state, status->sweeps,
	    (int) (status->generation - CLOCK), status->is_whole, status->writings, status->is_written, status->is_settled);
}

uint32_t newest_in(const char *name)
{
	return strtoul(name, NULL, 10);
}

/* The script. Sets an answer, whose lines are separated by `|`. */
static void set_answer(const char *word, char *text)
{
	size_t i = 0;

	while (i < MOST_ANSWERS - 1 && *answers[i].word && strcmp(answers[i].word, word))
		i++;
	snprintf(answers[i].word, sizeof answers[i].word, "%s", word);
	snprintf(answers[i].text, sizeof answers[i].text, "%s%s", text, *text ? "\n" : "");
	for (text = answers[i].text; *text; text++)
		if (*text == '|')
			*text = '\n';
}

/* Has it read a node name map, whose lines are separated by `|`. */
static void give_names(const char *text)
{
	FILE *file = tmpfile();
	char path[32];

	for (; *text; text++)
		putc(*text == '|' ? '\n' : *text, file);
	fflush(file);
	snprintf(path, sizeof path, "/dev/fd/%d", fileno(file));
	read_name_map(path);
	fclose(file);
}

/* Ends each of the notes by a line feed; they are separated by `|`. */
static void end_each(char *notes)
{
	char *at;

	strcat(notes, "|");
	for (at = notes; (at = strchr(at, '|')); *at = '\n')
		;
}

static void hear(char *notes)
{
	end_each(notes);
	if (seat.dry_run)
		end_dry_run_if(notes);
	heard_notes(notes);
	if (status_of_once() >= 0)
		act("exit %d", status_of_once());
}

static void wait(double seconds)
{
	clock_now += seconds;
	look_at_time();
	if (status_of_once() >= 0)
		act("exit %d", status_of_once());
}

static void set_number(const char *name, double value)
{
	if (!strcmp(name, "priority"))
		seat.priority = value;
	else if (!strcmp(name, "partial"))
		seat.partial = value;
	else if (!strcmp(name, "once"))
		seat.once = value;
	else if (!strcmp(name, "dry-run"))
		seat.dry_run = value;
	else if (!strcmp(name, "verbose"))
		options.verbose = value;
	else if (!strcmp(name, "hush"))
		is_hushed = value;
	else if (!strcmp(name, "gone"))
		gone = value;
	else if (!strcmp(name, "wake"))
		wake = value;
	else
		abort();
}

/* Has it leave, and the process note this. */
static void leave_with(const char *notes)
{
	snprintf(told_by_leave, sizeof told_by_leave - 1, "%s", notes);
	end_each(told_by_leave);
	leave();
}

static void take(char *line)
{
	char word[32] = "", name[32] = "";
	double value = 0;
	unsigned number, lid;
	int at = 0;

	if (sscanf(line, "answer %31s %n", word, &at) == 1 && at)
		set_answer(word, line + at);
	else if (!strncmp(line, "names ", 6))
		give_names(line + 6);
	else if (sscanf(line, "set %31s %lf", name, &value) == 2)
		set_number(name, value);
	else if (sscanf(line, "wait %lf", &value) == 1)
		wait(value);
	else if (sscanf(line, "trap %u %u", &number, &lid) == 2)
		heard_trap(number, lid);
	else if (sscanf(line, "after %31s", name) == 1)
		options.after = strdup(name);
	else if (sscanf(line, "leave %n", &at) == 0 && at)
		leave_with(line + at);
	else if (!strcmp(line, "leave"))
		leave();
	else if (sscanf(line, "note %n", &at) == 0 && at)
		hear(line + at);
	else if (!strcmp(line, "rests"))
		act(rests() ? "rests" : "does not rest");
	else if (!strcmp(line, "begin"))
		act("newest %d", (int) (begin_notes() - CLOCK));
	else
		abort();
}

int main(void)
{
	static char line[LONGEST];

	setvbuf(stdout, NULL, _IOLBF, 0);
	while (fgets(line, sizeof line, stdin)) {
		line[strcspn(line, "\n")] = 0;
		take(line);
	}
	return 0;
}
