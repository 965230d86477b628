/*
 * seat: the port and the clock of a subnet manager whose decisions are those of `ibsm manage`.
 *
 * It carries packets between the two, byte for byte, and tells the process the time. The only packets that it makes itself
 * are refusals of what hosts ask and the process does not have.
 * The manual page, seat.1, has the options and exit statuses.
 */
#include <errno.h>
#include <getopt.h>
#include <signal.h>
#include <stdarg.h>
#include <stdlib.h>
#include <string.h>
#include <unistd.h>
#include "seat.h"

enum { WAIT_MS = 20, MOST_STARTS = 3 };
#define SHORT_LIFE 5.0	/* seconds; a process that ends sooner will do so again */

const char *tool = "seat";
struct seat_options seat = { .sweep_seconds = 10, .poll_ms = 1000 };
struct own_port own_port;
struct carried carried;
static volatile sig_atomic_t ended_by, hung_up;

static const char usage_text[] =
" [OPTION]...\n"
"Runs `ibsm manage` as subnet manager at a port: carries its packets, and tells it the time.\n"
"Of subnet administration it has single records, and joins with --multicast: while it is master, no host has more,\n"
"whatever else runs, so without --multicast IPoIB and most of rdma_cm do not work. Only OpenSM as master, with `send` or\n"
"`round --direct`, keeps it. A whole plan is written at once, not by steps: meanwhile packets that arrived before can be\n"
"lost or go round.\n"
"\n"
"  -p, --priority N       of this manager, 0 to 15 (0)\n"
"      --sm-key HEX       its SM_Key, 1 to 16 hex digits: that of the other managers, and not 0 beside OpenSM (1, as\n"
"                         OpenSM has it if its sm_key is not set)\n"
"  -l, --lmc N            an adapter's port has 2^N LIDs, 0 to 7 (0)\n"
"  -R, --routing RULE     the rule of routing, as of `ibsm plan` (spread)\n"
"  -f, --roots FILE       with spread: the switches from which it counts distances\n"
"  -o, --order FILE       with spread or balance: the order by which it grows\n"
"      --multicast        also write one multicast tree with all adapters in it, and answer hosts that join groups\n"
"  -i, --ibsm PROGRAM     the program; else the one beside this one, that of this checkout, or ibsm on the path\n"
"  -s, --sweep S          as master, a sweep each S seconds, 1 to 60 (10)\n"
"      --heavy S          as master, a sweep each S seconds, 1 to 3600, and each --sweep seconds a light one, which asks\n"
"                         switches alone\n"
"  -m, --poll MS          as standby, the master is polled each MS milliseconds (1000)\n"
"  -a, --after FILE       number sweeps above the newest of this recording or store, and by the clock\n"
"  -d, --dry-run          sweep once, print the plan, and write nothing\n"
"      --once             bring the subnet up, and end: with 0 if it is up, and else with 1\n"
"  -S, --status FILE      what it is at, as JSON\n"
"  -N, --names FILE       a node name map: the log calls nodes by it\n"
"      --partial          write also where requests have no answer, after the fourth such sweep in a row\n"
"      --child-memory MB  what memory the program may take, in megabytes; else it is not limited\n"
"      --child-time S     what processor time an answer of the program may take, in seconds; else it is not limited\n"
"  -C, --ca NAME          the adapter, as mlx5_0; else the first with a port that is up\n"
"  -P, --port N           its port\n"
"  -n, --outstanding N    requests that are out at a time, 1 to 64 (16)\n"
"  -t, --timeout MS       what an answer may take, in milliseconds (200); three times that of another manager\n"
"  -r, --retries N        how often a request is sent again, 0 to 100 (3)\n"
"  -k, --m-key KEY        management key (M_Key) of the subnet, which is put into requests (0)\n"
"  -K, --m-keys FILE      keys of ports, in place of that of the subnet: lines 0xGUID 0xKEY, as in OpenSM's guid2mkey\n"
"  -v, --verbose          also say each sweep and trap\n"
"  -h, --help             this text\n"
"  -V, --version          the version\n"
"\n"
"It goes on until SIGTERM or SIGINT. As master it then hands over to a standby, if there is one. SIGHUP makes it\n"
"sweep.\n"
"\n"
"The exit status is 0 where a signal ended it, a dry run had every answer, or --once brought the subnet up; 1 where a\n"
"dry run or --once did not; 2 where the command line is wrong; 3 where the program refuses a file; 4 without a subnet,\n"
"the program, or the right to be its manager; 5 without memory.\n";

int is_ended(void)
{
	return ended_by != 0;
}

void note(enum level level, const char *format, ...)
{
	struct timespec time;
	char text[400], stamp[16];
	struct tm parts;
	va_list values;

	if (options.quiet)
		return;
	va_start(values, format);
	vsnprintf(text, sizeof text, format, values);
	va_end(values);
	clock_gettime(CLOCK_REALTIME, &time);
	strftime(stamp, sizeof stamp, "%H:%M:%S", localtime_r(&time.tv_sec, &parts));
	say_at(level, "%s.%03ld %s", stamp, time.tv_nsec / 1000000, text);
}

static void on_signal(int number)
{
	if (number == SIGHUP)
		hung_up = 1;
	else
		ended_by = number;
}

static void catch_signals(void)
{
	struct sigaction action = { .sa_handler = on_signal };	/* no SA_RESTART: waiting calls are interrupted */

	sigaction(SIGINT, &action, NULL);
	sigaction(SIGTERM, &action, NULL);
	sigaction(SIGHUP, &action, NULL);
	signal(SIGPIPE, SIG_IGN);
	signal(SIGXFSZ, SIG_IGN);
}

enum { PARTIAL = 256, MULTICAST, SM_KEY, ONCE, HEAVY, CHILD_MEMORY, CHILD_TIME };

static const struct option words[] = {
	{ "priority", 1, 0, 'p' }, { "sm-key", 1, 0, SM_KEY }, { "lmc", 1, 0, 'l' }, { "routing", 1, 0, 'R' },
	{ "roots", 1, 0, 'f' },
	{ "order", 1, 0, 'o' }, { "multicast", 0, 0, MULTICAST }, { "ibsm", 1, 0, 'i' }, { "sweep", 1, 0, 's' }, { "heavy", 1, 0, HEAVY },
	{ "poll", 1, 0, 'm' },
	{ "after", 1, 0, 'a' }, { "dry-run", 0, 0, 'd' }, { "status", 1, 0, 'S' }, { "names", 1, 0, 'N' },
	{ "partial", 0, 0, PARTIAL }, { "once", 0, 0, ONCE },
	{ "child-memory", 1, 0, CHILD_MEMORY }, { "child-time", 1, 0, CHILD_TIME }, { "ca", 1, 0, 'C' },
	{ "port", 1, 0, 'P' }, { "outstanding", 1, 0, 'n' }, { "timeout", 1, 0, 't' }, { "retries", 1, 0, 'r' },
	{ "m-key", 1, 0, 'k' }, { "m-keys", 1, 0, 'K' },
	{ "quiet", 0, 0, 'q' }, { "verbose", 0, 0, 'v' }, { "help", 0, 0, 'h' }, { "version", 0, 0, 'V' }, { 0 }
};

/* Returns the text of an SM_Key if it is 1 to 16 hex digits, and else ends. */
static char *key_in(char *text)
{
	size_t digits = strspn(text, "0123456789abcdefABCDEF");

	if (text[digits] || !digits || digits > 16) {
		fprintf(stderr, "%s: --sm-key takes 1 to 16 hex digits, not %s\n", called, text);
		exit(USAGE);
	}
	return text;
}

static void take_option(int letter)
{
	if (take_shared_option(letter, optarg))
		return;
	switch (letter) {
	case 'p': seat.priority = number_in(optarg, "--priority", 0, 15); break;
	case SM_KEY: seat.sm_key = key_in(optarg); break;
	case 'l': seat.lmc = optarg; break;
	case 'R': seat.routing = optarg; break;
	case 'f': seat.roots = optarg; break;
	case 'o': seat.order = optarg; break;
	case 'i': seat.program = optarg; break;
	case 's': seat.sweep_seconds = number_in(optarg, "--sweep", 1, 60); break;
	case HEAVY: seat.heavy_seconds = number_in(optarg, "--heavy", 1, 3600); break;
	case 'm': seat.poll_ms = number_in(optarg, "--poll", 1, 600000); break;
	case 'a': options.after = optarg; break;
	case 'd': seat.dry_run = 1; break;
	case 'S': seat.status_file = optarg; break;
	case 'N': seat.names_file = optarg; break;
	case MULTICAST: seat.multicast = 1; break;
	case PARTIAL: seat.partial = 1; break;
	case ONCE: seat.once = 1; break;
	case CHILD_MEMORY: seat.child_mbytes = number_in(optarg, "--child-memory", 1, 1 << 30); break;
	case CHILD_TIME: seat.child_seconds = number_in(optarg, "--child-time", 1, 86400); break;
	case 'h': print_usage(stdout, usage_text); exit(WHOLE);
	case 'V': puts("ibsm-seat " VERSION); exit(WHOLE);
	default: print_usage(stderr, usage_text); exit(USAGE);
	}
}

static void parse(int count, char **texts)
{
	int letter;

	called = texts[0];
	options.timeout_ms = 200;
	options.outstanding = 16;
	seat.routing = "spread";
	while ((letter = getopt_long(count, texts, "p:l:R:f:o:i:s:m:a:dS:N:C:P:n:t:r:k:K:qvhV", words, NULL)) != -1)
		take_option(letter);
	if (optind != count)
		take_option('?');
	if (seat.once && seat.dry_run)
		end(USAGE, "--once writes, and --dry-run does not");
	if (!seat.program)
		seat.program = the_program();
	if (options.m_keys)
		read_keys(options.m_keys);
	if (seat.names_file)
		read_name_map(seat.names_file);
}

/* Starts the process. Packets of an earlier process are dropped before the new one gets its first line. */
static void start(void)
{
	static double started;
	static int short_lives;

	short_lives = started && now() - started < SHORT_LIFE ? short_lives + 1 : 0;
	if (short_lives == MOST_STARTS)
		end(NO_FABRIC, "%s manage ends soon, each time", seat.program);
	drop_all();
	let_pass();
	started = now();
	start_manager(begin_notes());
	shown("state");	/* waits until the process answers */
	if (manager_is_gone())
		return;
	if (!seat.dry_run)
		be_manager();
	notify("READY=1");
	tell("%s", "");
}

void tell_time_if_due(void)
{
	notify_alive();
	if (clock_ms() >= wake_time())
		tell("%s", "");
}

/* Returns for how long a packet is waited, in milliseconds: until the process is to be told the time, but not for long,
   since a signal may come. */
static int wait_ms(void)
{
	unsigned long long clock = clock_ms(), wake = wake_time();

	return wake <= clock ? 0 : wake - clock < WAIT_MS ? (int) (wake - clock) : WAIT_MS;
}

int main(int count, char **texts)
{
	parse(count, texts);
	catch_signals();
	open_seat();
	note(INFO, "%s, GUID %016llx, priority %d", own_port.name, (unsigned long long) own_port.guid, seat.priority);
	start();
	while (!is_ended() && status_of_once() < 0) {
		carry(wait_ms());
		if (hung_up) {
			hung_up = 0;
			note(INFO, "a sweep is asked for");
			tell("look");
		}
		tell_time_if_due();
		sweep_lightly();
		look_at_time();
		if (manager_is_gone() && !is_ended()) {
			stop_manager();
			start();
		}
	}
	notify("STOPPING=1");
	leave();
	stop_manager();
	close_seat();
	if (is_ended())
		note(NOTICE, "ended by signal %d", ended_by);
	else
		note(NOTICE, "ended, since --once says so");
	return !seat.once ? WHOLE : status_of_once() < 0 ? NOT_WHOLE : status_of_once();
}
