/*
 * Drives what seat does with its process (manager.c) by a script on standard input: with a clock of its own, and this
 * program itself as the process, which does what the variable CHILD says. tests/child.rows has the script's lines. Each
 * thing that is done is a line of output.
 */
#define _GNU_SOURCE
#include <errno.h>
#include <poll.h>
#include <signal.h>
#include <stdarg.h>
#include <stdlib.h>
#include <string.h>
#include <sys/syscall.h>
#include <unistd.h>
#include "../../tools/seat/seat.h"

enum { LONGEST = 4096, MOST_ARGUMENTS = 64, LONG = 200000, MIB = 1 << 20 };
/* A wait of the program takes a tenth of its time. */
enum { SHARE = 10 };
#define LOOK 0.125	/* seconds that a look counts for that finds nothing */
enum { PROCESSOR = 1000 };	/* the clock of the process */

const char *tool = "child_rows", *called = "child_rows";
struct seat_options seat = { .sweep_seconds = 10, .poll_ms = 1000 };
struct options options = { .timeout_ms = 200, .tries = 4, .outstanding = 16 };
struct own_port own_port = { .guid = 0x101, .number = 1, .name = "port 1" };
struct carried carried;
static double clock_now, marked;
static int ended, is_hushed, works_ms;	/* how long the process works between two looks */
static long worked_ms;
static double longer;	/* seconds that the next look takes besides, if it finds something */
static char *plain;	/* this program without what the compiler adds */

/* Texts of the script are kept to the end. */
const char *__asan_default_options(void);

const char *__asan_default_options(void)
{
	return "detect_leaks=0";
}

static int rest(double seconds)
{
	struct timespec wait = { .tv_sec = seconds, .tv_nsec = (seconds - (long) seconds) * 1e9 };

	return nanosleep(&wait, NULL);
}

/* The process. Says the text, whose lines are separated by `|`, and then a dot. */
static void say_lines(char *text)
{
	char *at;

	for (at = text; (at = strchr(at, '|')); *at = '\n')
		;
	printf("%s%s.\n", text, *text ? "\n" : "");
}

static void say_long(void)
{
	int i;

	for (i = 0; i < LONG; i++)
		putchar('x');
	printf("\nwake 7\n.\n");
}

/* Says a line in two pieces. */
static void say_halves(void)
{
	printf("wake 1");
	fflush(stdout);
	rest(0.02);
	printf("2\n.\n");
}

/* Says packets, of which each second one goes to a LID. */
static void say_packets(int count)
{
	int i, k;

	for (k = 0; k < count; k++) {
		printf("send ");
		for (i = 0; i < PACKET; i++)
			printf("%02x", (i + 11 * k) & 255);
		printf(k % 2 ? " to %d\n" : "\n", 40 + k);
	}
	say_lines(strdup("note sent|wake 77"));
}

/* Says requests of a light sweep. */
static void say_light(int count)
{
	int i, k;

	for (k = 0; k < count; k++) {
		printf("light ");
		for (i = 0; i < PACKET; i++)
			printf("%02x", (i + 11 * k) & 255);
		printf("\n");
	}
	say_lines(strdup(""));
}

static void do_next(char *what, char *line, int count, char **words)
{
	int i;

	if (!strcmp(what, "dot"))
		say_lines(strdup(""));
	else if (!strncmp(what, "say ", 4))
		say_lines(what + 4);
	else if (!strcmp(what, "echo"))
		printf("%s.\n", line);
	else if (!strcmp(what, "words"))
		for (i = 1; i < count; i++)
			printf("%s%s", words[i], i < count - 1 ? " " : "\n.\n");
	else if (!strcmp(what, "variables"))
		printf("preload %d notify %d watchdog %d\n.\n", !!getenv("LD_PRELOAD"), !!getenv("NOTIFY_SOCKET"),
		       !!getenv("WATCHDOG_USEC"));
	else if (!strncmp(what, "exit ", 5))
		exit(atoi(what + 5));
	else if (!strncmp(what, "die ", 4))
		kill(getpid(), atoi(what + 4));
	else if (!strcmp(what, "long"))
		say_long();
	else if (!strcmp(what, "halves"))
		say_halves();
	else if (!strncmp(what, "packets ", 8))
		say_packets(atoi(what + 8));
	else if (!strncmp(what, "light ", 6))
		say_light(atoi(what + 6));
	else if (!strncmp(what, "rests ", 6)) {
		rest(atof(what + 6));
		printf("rested\n.\n");
	} else if (!strcmp(what, "half")) {
		printf("wake 9");
		exit(1);
	} else if (!strcmp(what, "takes")) {
		printf("%s\n.\n", malloc(64UL * MIB) ? "given" : "refused");
	} else if (!strcmp(what, "closes")) {
		close(STDOUT_FILENO);
	}
	fflush(stdout);
}

/* Does one thing of CHILD, whose things are separated by `;`, for each line; `hangs` is to do nothing. */
static int be_process(int count, char **words)
{
	static char line[LONGEST];
	char *next = strdup(getenv("CHILD")), *what = strsep(&next, ";");

	if (!strncmp(what, "at once ", 8)) {
		do_next(what + 8, line, count, words);
		what = strsep(&next, ";");
	}
	while (fgets(line, sizeof line, stdin) && what) {
		do_next(what, line, count, words);
		what = strsep(&next, ";");
	}
	/* One that is stubborn goes on after its input has ended. */
	if (getenv("STUBBORN"))
		for (;;)
			pause();
	return 0;
}

/* The program. */
static void act(const char *format, ...) __attribute__((format(printf, 1, 2)));

static void act(const char *format, ...)
{
	va_list values;

	if (is_hushed)
		return;
	va_start(values, format);
	vprintf(format, values);
	va_end(values);
	printf("\n");
}

double now(void)
{
	return clock_now;
}

/* A look at what the process says. The one that finds something may take longer. */
int poll(struct pollfd *files, nfds_t count, int wait_ms)
{
	int ready = syscall(SYS_poll, files, count, wait_ms / SHARE);

	if (!ready)
		clock_now += LOOK;
	if (ready > 0) {
		clock_now += longer;
		longer = 0;
	}
	return ready;
}

/* The processor time of the process, which is asked for at each look. */
int clock_getcpuclockid(pid_t whose, clockid_t *clock)
{
	(void) whose;
	*clock = PROCESSOR;
	return 0;
}

int clock_gettime(clockid_t clock, struct timespec *time)
{
	if (clock != PROCESSOR)
		return syscall(SYS_clock_gettime, clock, time);
	worked_ms += works_ms;
	*time = (struct timespec) { .tv_sec = worked_ms / 1000, .tv_nsec = worked_ms % 1000 * 1000000L };
	return 0;
}

int usleep(useconds_t micros)
{
	return rest(micros / 1e6 / SHARE);
}

int is_ended(void)
{
	return ended;
}

void note(enum level level, const char *format, ...)
{
	char text[1024];
	va_list values;

	va_start(values, format);
	vsnprintf(text, sizeof text, format, values);
	va_end(values);
	act("<%d> %s", level, text);
}

void end(int status, const char *format, ...)
{
	char text[1024];
	va_list values;

	va_start(values, format);
	vsnprintf(text, sizeof text, format, values);
	va_end(values);
	act("end %d %s", status, text);
	fflush(stdout);
	_Exit(0);
}

void *more(void *old, size_t count, size_t size)
{
	void *memory = realloc(old, count * size);

	if (!memory)
		abort();
	return memory;
}

void notify_alive(void)
{
}

void keep_light(const char *hex)
{
	printf("asks %.4s\n", hex);
}

void send_packet(const struct packet *packet)
{
	act("sends %02x%02x..%02x to %u", packet->bytes[0], packet->bytes[1], packet->bytes[PACKET - 1], packet->lid);
}

void heard_notes(const char *notes)
{
	act("notes %.*s", (int) strcspn(notes, "\n"), notes);
	if (strchr(notes, '\n')[1])
		heard_notes(strchr(notes, '\n') + 1);
}

void end_dry_run_if(const char *notes)
{
	act("dry run: %.*s", (int) strcspn(notes, "\n"), notes);
}

/* The script. */
static void set_text(const char *name, char *text)
{
	if (!strcmp(name, "program"))
		seat.program = text;
	else if (!strcmp(name, "sm-key"))
		seat.sm_key = text;
	else if (!strcmp(name, "lmc"))
		seat.lmc = text;
	else if (!strcmp(name, "routing"))
		seat.routing = text;
	else if (!strcmp(name, "roots"))
		seat.roots = text;
	else if (!strcmp(name, "order"))
		seat.order = text;
	else
		setenv(name, text, 1);
}

static void set_number(const char *name, int value)
{
	const struct {
		const char *name;
		int *place;
	} numbers[] = {
		{ "priority", &seat.priority }, { "sweep", &seat.sweep_seconds }, { "heavy", &seat.heavy_seconds }, { "poll", &seat.poll_ms },
		{ "timeout", &options.timeout_ms }, { "tries", &options.tries }, { "outstanding", &options.outstanding },
		{ "partial", &seat.partial }, { "dry-run", &seat.dry_run }, { "child-memory", &seat.child_mbytes },
		{ "child-time", &seat.child_seconds }, { "ended", &ended }, { "hush", &is_hushed },
		{ "works", &works_ms },
	};
	size_t i;

	for (i = 0; i < sizeof numbers / sizeof *numbers; i++)
		if (!strcmp(name, numbers[i].name))
			*numbers[i].place = value;
}

static void show_shown(const char *word)
{
	char *text = strdup(shown(word)), *at = text, *line;

	while ((line = strsep(&at, "\n")) && at)
		act(strlen(line) < LONGEST / 2 ? "shows %s" : "shows a line that begins with %.9s", line);
	free(text);
}

static void show_wake(void)
{
	if (wake_time() == NEVER)
		act("wakes never");
	else
		act("wakes at %llu", wake_time());
}

static void take(char *line)
{
	char name[32], text[LONGEST] = "";
	double seconds;
	int value, at = 0;

	if (sscanf(line, "set %31s %d", name, &value) == 2)
		set_number(name, value);
	else if (sscanf(line, "text %31s %n", name, &at) == 1 && at)
		set_text(name, strdup(line + at));
	else if (sscanf(line, "start %d", &value) == 1)
		start_manager(value);
	else if (!strncmp(line, "tell ", 5))
		tell("%s", line + 5);
	else if (sscanf(line, "long %d", &value) == 1)
		tell("%s", (char *) memset(text, 'y', value));
	else if (sscanf(line, "show %31s", name) == 1)
		show_shown(name);
	else if (sscanf(line, "wait %lf", &seconds) == 1)
		clock_now += seconds;
	else if (sscanf(line, "pause %lf", &seconds) == 1)
		longer = seconds;
	else if (!strcmp(line, "await"))
		while (!manager_is_gone())
			rest(0.01);
	else if (!strcmp(line, "plain"))
		seat.program = plain;
	else if (!strcmp(line, "clock"))
		act("clock %llu", clock_ms());
	else if (!strcmp(line, "mark"))
		marked = clock_now;
	else if (!strcmp(line, "passed"))
		act("passed %g", clock_now - marked);
	else if (!strcmp(line, "wake"))
		show_wake();
	else if (!strcmp(line, "gone"))
		act("gone %d", manager_is_gone());
	else if (!strcmp(line, "stop"))
		stop_manager();
	else
		abort();
}

int main(int count, char **words)
{
	static char line[LONGEST], path[LONGEST], other[LONGEST + 8];
	char *name = strrchr(*words, '/');

	if (count > 1 && !strcmp(words[1], "manage"))
		return be_process(count, words);
	signal(SIGPIPE, SIG_IGN);
	setvbuf(stdout, NULL, _IOLBF, 0);
	/* The process is found on the path, by a name that is the same in each run. */
	if (!name)
		abort();
	snprintf(path, sizeof path, "%.*s", (int) (name - *words), *words);
	snprintf(other, sizeof other, "%s/plain", path);
	setenv("PATH", path, 1);
	plain = strrchr(other, '/') + 1;
	seat.program = name + 1;
	setenv("NOTIFY_SOCKET", "x", 1);
	setenv("WATCHDOG_USEC", "1", 1);
	while (fgets(line, sizeof line, stdin)) {
		line[strcspn(line, "\n")] = 0;
		take(line);
	}
	return 0;
}
