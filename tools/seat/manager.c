/* The process of `ibsm manage` that decides: a line is written to it, and its answer is read up to the line with a
   dot. A process that hangs is killed. */
#include <errno.h>
#include <poll.h>
#include <signal.h>
#include <stdarg.h>
#include <stdlib.h>
#include <string.h>
#include <sys/resource.h>
#include <sys/wait.h>
#include <unistd.h>
#include "seat.h"

/* While an answer is waited for, it is looked each LOOK_MS milliseconds whether the process does anything. It hangs if
   IDLE_LOOKS in a row found that it had used no processor time, or if it has not answered after ANSWER_LOOKS. After a
   signal it gets LAST_LOOKS, and once its input is closed END_LOOKS. */
#define MOST_STEP 2.0	/* seconds that a look may take */
enum { LOOK_MS = 100, IDLE_LOOKS = 50, ANSWER_LOOKS = 3000, LAST_LOOKS = 30, END_LOOKS = 20 };
enum { LONGEST_LINE = 600, MOST_WORDS = 32, USAGE_STATUS = 2, REFUSED_STATUS = 3, NOT_FOUND = 127 };

static pid_t process;
static int to = -1, from = -1, is_gone = 1, has_answered;
static char *answer, *notes, *input;
static double used_before;	/* processor time of the process before it was told the last line */
static size_t answer_length, answer_room, notes_length, notes_room, input_begin, input_end, input_room;
static struct packet *printed;	/* the packets that the answer has */
static size_t printed_count, printed_room;
static unsigned long long wake;
static double waited;	/* seconds in which an answer was waited for */

int manager_is_gone(void)
{
	siginfo_t told = { 0 };

	if (!is_gone && !waitid(P_PID, process, &told, WEXITED | WNOHANG | WNOWAIT))
		is_gone = told.si_pid != 0;
	return is_gone;
}

/* Runs the program in the child, without the library loaded before libumad. */
static void become(char **words, const int *in, const int *out)
{
	struct rlimit most = { (rlim_t) seat.child_mbytes << 20, (rlim_t) seat.child_mbytes << 20 };

	unsetenv("LD_PRELOAD");
	unsetenv("NOTIFY_SOCKET");
	unsetenv("WATCHDOG_USEC");
	if (seat.child_mbytes && setrlimit(RLIMIT_AS, &most)) {
		fprintf(stderr, "%s: cannot limit memory: %s\n", tool, strerror(errno));
		_exit(NOT_FOUND);
	}
	dup2(in[0], STDIN_FILENO);
	dup2(out[1], STDOUT_FILENO);
	close(in[0]);
	close(in[1]);
	close(out[0]);
	close(out[1]);
	signal(SIGPIPE, SIG_DFL);
	signal(SIGHUP, SIG_IGN);	/* it ends with its input */
	signal(SIGINT, SIG_IGN);
	execvp(*words, words);
	fprintf(stderr, "%s: cannot run %s: %s\n", tool, *words, strerror(errno));
	_exit(NOT_FOUND);
}

/* Adds an option with a text, unless the text is NULL. */
static void add_option(char **words, int *count, char *name, char *value)
{
	if (!value)
		return;
	words[(*count)++] = name;
	words[(*count)++] = value;
}

/* Adds an option with a number, whose text is kept in the given place. */
static void add_number(char **words, int *count, char *name, unsigned long value, char *text, size_t room)
{
	snprintf(text, room, "%lu", value);
	add_option(words, count, name, text);
}

void start_manager(uint32_t newest)
{
	char guid[17], port[12], priority[12], numbers[6][24], *words[MOST_WORDS] = { seat.program, "manage" };
	int in[2], out[2], count = 2, period = seat.heavy_seconds ? seat.heavy_seconds : seat.sweep_seconds;

	snprintf(guid, sizeof guid, "%016llx", (unsigned long long) own_port.guid);
	snprintf(port, sizeof port, "%d", own_port.number);
	snprintf(priority, sizeof priority, "%d", seat.priority);
	add_option(words, &count, "--sm-key", seat.sm_key);
	add_option(words, &count, "--lmc", seat.lmc);
	add_option(words, &count, "--routing", seat.routing);
	add_option(words, &count, "--roots", seat.roots);
	add_option(words, &count, "--order", seat.order);
	add_number(words, &count, "--every", 1000UL * period, numbers[0], sizeof numbers[0]);
	add_number(words, &count, "--poll", seat.poll_ms, numbers[1], sizeof numbers[1]);
	add_number(words, &count, "--timeout", options.timeout_ms, numbers[2], sizeof numbers[2]);
	add_number(words, &count, "--tries", options.tries, numbers[3], sizeof numbers[3]);
	add_number(words, &count, "--outstanding", options.outstanding, numbers[4], sizeof numbers[4]);
	add_number(words, &count, "--newest", newest, numbers[5], sizeof numbers[5]);
	if (!seat.partial)
		words[count++] = "--strict";
	if (seat.multicast)
		words[count++] = "--multicast";
	words[count++] = guid;
	words[count++] = port;
	words[count++] = priority;
	if (pipe(in) || pipe(out))
		end(NO_FABRIC, "cannot make a pipe: %s", strerror(errno));
	process = fork();
	if (process < 0)
		end(NO_FABRIC, "cannot start %s: %s", seat.program, strerror(errno));
	if (!process)
		become(words, in, out);
	close(in[0]);
	close(out[1]);
	to = in[1];
	from = out[0];
	input_begin = input_end = 0;
	is_gone = has_answered = 0;
}

/* Waits for the end of the process, and returns how it ended. One that goes on is killed. */
static int status_at_end(void)
{
	int looks, status = 0;

	for (looks = 0; !waitpid(process, &status, WNOHANG); looks++) {
		if (looks == END_LOOKS)
			kill(process, SIGKILL);
		usleep(1000 * LOOK_MS);
	}
	return status;
}

/* Closes the process's input, which ends it, and waits for that. */
void stop_manager(void)
{
	int status;

	if (!process)
		return;
	close(to);
	close(from);
	is_gone = 1;
	if (is_ended())
		kill(process, SIGTERM);
	status = status_at_end();
	process = 0;
	if (WIFEXITED(status) && (WEXITSTATUS(status) == USAGE_STATUS || WEXITSTATUS(status) == REFUSED_STATUS))
		end(WEXITSTATUS(status), "%s manage takes none of these options, or not these files", seat.program);
	if (WIFEXITED(status) && WEXITSTATUS(status) == NOT_FOUND)
		end(NO_FABRIC, "there is no program %s: build it by ./ibsm, or name one by --ibsm", seat.program);
	if (!is_ended())
		note(WARNING, "the process of %s manage has ended with %s %d", seat.program,
		     WIFSIGNALED(status) ? "signal" : "status",
		     WIFSIGNALED(status) ? WTERMSIG(status) : WEXITSTATUS(status));
}

static void write_line(const char *line, size_t length)
{
	ssize_t count;

	while (length && !is_gone) {
		count = write(to, line, length);
		if (count < 0 && errno == EINTR)
			continue;
		if (count < 0) {
			is_gone = 1;
			return;
		}
		line += count;
		length -= count;
	}
}

/* Returns the seconds of processor time that the process has used. */
static double time_used(void)
{
	struct timespec used = { 0 };
	clockid_t clock;

	if (!clock_getcpuclockid(process, &clock))
		clock_gettime(clock, &used);
	return used.tv_sec + used.tv_nsec * 1e-9;
}

/* Returns whether the process hangs after so many looks, the last of which found it idle. Until its first answer it may
   be compiled, which others do in its place. */
static int hangs(int looks, int idle)
{
	return has_answered && (looks == ANSWER_LOOKS || idle == IDLE_LOOKS);
}

/* Returns whether the process, which has used so much since its start, took too long for an answer. */
static int is_too_long(double used)
{
	return seat.child_seconds && used - used_before > seat.child_seconds;
}

/* Counts the time since a moment, which becomes now, as waited for the process: it may take long, and that is no pause.
   A longer step is one: the seat stood still. */
static void count_waiting(double *since)
{
	double time = now(), step = time - *since;

	if (step < MOST_STEP)
		waited += step;
	*since = time;
}

unsigned long long clock_ms(void)
{
	return (now() - waited) * 1000;
}

/* Waits until the process has printed something or is gone. Returns 0 if it hangs, or does not answer soon after a signal
   has ended the program. */
static int wait_for_output(void)
{
	struct pollfd file = { .fd = from, .events = POLLIN };
	int looks, idle = 0, last = 0, ready;
	double used = time_used(), before, began = now();

	for (looks = 0; !hangs(looks, idle) && !is_too_long(used) && last < LAST_LOOKS; looks++) {
		notify_alive();
		ready = poll(&file, 1, LOOK_MS);
		count_waiting(&began);
		if (ready > 0)
			return 1;
		if (ready < 0 && errno != EINTR)
			return 0;
		before = used;
		used = time_used();
		idle = used > before ? 0 : idle + 1;
		last += is_ended();
	}
	if (!is_ended())
		note(WARNING, "the process of %s manage %s, and is killed", seat.program,
		     is_too_long(used) ? "takes longer than --child-time for an answer" : "hangs");
	kill(process, SIGKILL);
	return 0;
}

/* Returns the next line that the process printed, ended by 0, or NULL if it is gone. */
static char *read_line(void)
{
	size_t seen = input_begin;
	ssize_t count;
	char *end;

	for (;;) {
		end = input_end > seen ? memchr(input + seen, '\n', input_end - seen) : NULL;
		if (end) {
			char *line = input + input_begin;

			*end = 0;
			input_begin = end - input + 1;
			return line;
		}
		if (input_begin)
			memmove(input, input + input_begin, input_end - input_begin);
		input_end -= input_begin;
		input_begin = 0;
		seen = input_end;
		if (input_room - input_end < LONGEST_LINE) {
			input_room = input_room ? 2 * input_room : 1 << 16;
			input = more(input, input_room, 1);
		}
		count = wait_for_output() ? read(from, input + input_end, input_room - input_end) : 0;
		if (count <= 0)
			return NULL;
		input_end += count;
	}
}

static int digit(int letter)
{
	return letter <= '9' ? letter - '0' : letter - 'a' + 10;
}

void read_packet(const char *hex, uint8_t *bytes)
{
	int i;

	for (i = 0; i < PACKET; i++)
		bytes[i] = digit(hex[2 * i]) << 4 | digit(hex[2 * i + 1]);
}

/* Keeps a packet that the process prints. */
static void take_packet(const char *hex)
{
	const char *lid = strstr(hex, " to ");
	struct packet *packet;

	if (printed_count == printed_room) {
		printed_room = 2 * printed_room + MOST_OUT;
		printed = more(printed, printed_room, sizeof *printed);
	}
	packet = &printed[printed_count++];
	packet->lid = lid ? strtoul(lid + 4, NULL, 10) : NO_LID;
	read_packet(hex, packet->bytes);
}

/* Adds a line to a text. */
static void add_line(char **text, size_t *length, size_t *room, const char *line)
{
	size_t count = strlen(line);

	if (*room < *length + count + 2) {
		*room = 2 * (*length + count + 2);
		*text = more(*text, *room, 1);
	}
	memcpy(*text + *length, line, count);
	*length += count;
	(*text)[(*length)++] = '\n';
	(*text)[*length] = 0;
}

static void take_line(const char *line)
{
	if (!strncmp(line, "send ", 5))
		take_packet(line + 5);
	else if (!strncmp(line, "light ", 6) && strlen(line + 6) == 2 * PACKET)
		keep_light(line + 6);
	else if (!strncmp(line, "note ", 5))
		add_line(&notes, &notes_length, &notes_room, line + 5);
	else if (!strncmp(line, "wake ", 5))
		wake = strcmp(line, "wake never") ? strtoull(line + 5, NULL, 10) : NEVER;
	else
		add_line(&answer, &answer_length, &answer_room, line);
}

/* Writes a line to the process, behind the time, and takes its answer. */
static void tell_by(const char *format, va_list values)
{
	char line[LONGEST_LINE + 2], *told;
	int length = snprintf(line, sizeof line, "%llu ", clock_ms());

	length += vsnprintf(line + length, sizeof line - 1 - length, format, values);
	if (length > LONGEST_LINE)
		end(NO_FABRIC, "a line to %s manage is longer than %d letters", seat.program, LONGEST_LINE);
	line[length++] = '\n';
	answer_length = notes_length = printed_count = 0;
	used_before = seat.child_seconds ? time_used() : 0;
	write_line(line, length);
	while (!is_gone) {
		told = read_line();
		if (!told) {
			is_gone = 1;
		} else if (!strcmp(told, ".")) {
			has_answered = 1;
			break;
		} else {
			take_line(told);
		}
	}
}

/* Writes a word to the process, behind the time, and takes its answer. */
static void tell_word(const char *format, ...)
{
	va_list values;

	va_start(values, format);
	tell_by(format, values);
	va_end(values);
}

const char *shown(const char *word)
{
	tell_word("%s", word);
	return answer_length ? answer : "";
}

/* Sends what the answer has, and then looks at its notes: these may ask the process. */
static void act_on_answer(void)
{
	char *told = notes_length ? strdup(notes) : NULL;
	size_t i;

	if (notes_length && !told)
		end(NO_MEMORY, "out of memory");
	if (seat.dry_run && told)
		end_dry_run_if(told);
	for (i = 0; i < printed_count; i++)
		send_packet(&printed[i]);
	if (told)
		heard_notes(told);
	free(told);
}

void tell(const char *format, ...)
{
	va_list values;

	va_start(values, format);
	tell_by(format, values);
	va_end(values);
	act_on_answer();
}

unsigned long long wake_time(void)
{
	return wake;
}
