/*
 * record: asks the nodes of an InfiniBand subnet what they are, and keeps the replies in a recording for ibsm.
 *
 * It sends only Gets, over directed routes and, with --levels, to the subnet administration. So it changes nothing,
 * and a subnet manager may run meanwhile. The manual page, record.1, has the options and exit statuses.
 */
#include <errno.h>
#include <getopt.h>
#include <signal.h>
#include <stdlib.h>
#include <string.h>
#include <time.h>
#include <unistd.h>
#include "record.h"

const char *tool = "record";
static struct whole_file report;

static const char usage_text[] =
" [OPTION]... FILE\n"
"Asks the nodes of the InfiniBand subnet behind a port, and writes what they answer to FILE, a recording for ibsm.\n"
"Nothing in the subnet is changed.\n"
"\n"
"  -C, --ca NAME          the adapter, as mlx5_0; else the first with a port that is up\n"
"  -P, --port N           its port\n"
"  -g, --generation N     the number of this sweep, 1 to 4294967295; else the time in seconds\n"
"  -a, --after FILE       number this sweep one above the newest of this recording or store\n"
"  -n, --outstanding N    requests that are out at a time, 1 to 64 (4)\n"
"  -t, --timeout MS       what a reply may take, in milliseconds (500)\n"
"  -r, --retries N        how often a request is sent again, 0 to 100 (3)\n"
"  -k, --m-key KEY        management key (M_Key) of the subnet (0)\n"
"  -K, --m-keys FILE      keys of ports, in place of that of the subnet: lines 0xGUID 0xKEY, as in OpenSM's guid2mkey\n"
"  -T, --tables FILE      also read the forwarding tables, and write them with the LIDs in the form of a plan\n"
"  -p, --partial          write the tables also where replies are missing, without the switches and ports that lack them\n"
"  -N, --names FILE       also ask for names, and write them as a node name map of infiniband-diags\n"
"  -L, --lanes FILE       also read the SL-to-VL maps of switches, and write them for `ibsm audit --lanes`\n"
"  -S, --levels           with --lanes, also ask the subnet administration for the service level from each end port to\n"
"                         each LID, and write them there too\n"
"  -A, --adapters         with --levels, ask for paths between ports of adapters alone\n"
"  -M, --multicast FILE   also read the multicast tables of switches, and write them for `ibsm trees`\n"
"  -q, --quiet            neither progress nor a summary\n"
"  -v, --verbose          name every request without a reply, not only the first 20\n"
"  -h, --help             this text\n"
"  -V, --version          the version\n"
"\n"
"One of these files may be -, which is standard output.\n"
"\n"
"The exit status is 0 where all answered; 1 where FILE is written and something is missing; 2 where the command\n"
"line is wrong; 4 without a subnet, or where a file cannot be written; 5 without memory.\n";

static void on_signal(int number)
{
	remove_begun_files();
	_exit(SIGNALLED + number);
}

static const struct option words[] = {
	{ "ca", 1, 0, 'C' }, { "port", 1, 0, 'P' }, { "generation", 1, 0, 'g' }, { "outstanding", 1, 0, 'n' },
	{ "timeout", 1, 0, 't' }, { "retries", 1, 0, 'r' }, { "m-key", 1, 0, 'k' }, { "m-keys", 1, 0, 'K' },
	{ "tables", 1, 0, 'T' }, { "names", 1, 0, 'N' }, { "after", 1, 0, 'a' }, { "partial", 0, 0, 'p' }, { "lanes", 1, 0, 'L' },
	{ "levels", 0, 0, 'S' }, { "adapters", 0, 0, 'A' }, { "multicast", 1, 0, 'M' },
	{ "quiet", 0, 0, 'q' }, { "verbose", 0, 0, 'v' }, { "help", 0, 0, 'h' }, { "version", 0, 0, 'V' }, { 0 }
};

static void take_option(int letter)
{
	if (take_shared_option(letter, optarg))
		return;
	switch (letter) {
	case 'g': options.generation = number_in(optarg, "--generation", 1, UINT32_MAX); break;
	case 'T': options.tables = optarg; break;
	case 'N': options.names = optarg; break;
	case 'L': options.lanes = optarg; break;
	case 'M': options.trees = optarg; break;
	case 'S': options.levels = 1; break;
	case 'A': options.adapters = 1; break;
	case 'p': options.partial = 1; break;
	case 'a': options.after = optarg; break;
	case 'h': print_usage(stdout, usage_text); exit(WHOLE);
	case 'V': puts("ibsm-record " VERSION); exit(WHOLE);
	default: print_usage(stderr, usage_text); exit(USAGE);
	}
}

/* Refuses options that name the same file for two outputs. */
static void tell_apart(void)
{
	const char *names[] = { options.file, options.tables, options.names, options.lanes, options.trees };
	int i, j, count = sizeof names / sizeof *names;

	for (i = 0; i < count; i++)
		for (j = 0; j < i; j++)
			if (names[i] && names[j] && !strcmp(names[i], names[j]))
				end(USAGE, "the recording, the tables, the names, the lanes and the trees cannot be one file");
}

static void parse(int count, char **texts)
{
	int letter;

	called = texts[0];
	while ((letter = getopt_long(count, texts, "C:P:g:n:t:r:k:K:T:N:L:M:SAa:pqvhV", words, NULL)) != -1)
		take_option(letter);
	if (optind + 1 != count)
		take_option('?');
	options.file = texts[optind];
	tell_apart();
	if (options.levels && !options.lanes)
		end(USAGE, "--levels goes with --lanes");
	if (options.adapters && !options.levels)
		end(USAGE, "--adapters goes with --levels");
	if (options.after && options.generation)
		end(USAGE, "--after and --generation both number the sweep");
	if (options.m_keys)
		read_keys(options.m_keys);
}

/* Numbers the sweep: by the option, above a file's generation, or by the clock. */
static void number_sweep(void)
{
	uint32_t clock = time(NULL), newest;

	if (!options.after) {
		options.generation = options.generation ? options.generation : clock;
		return;
	}
	newest = newest_in(options.after);
	if (newest == UINT32_MAX)
		end(USAGE, "%s has generation %u, and none comes after it", options.after, newest);
	options.generation = newest + 1;
	if (newest >= clock)
		say("the clock of this machine is behind %s, which has generation %u, by %u s: "
		    "what is recorded here by the clock counts as older", options.after, newest, newest - clock);
}

static void summary(double seconds)
{
	fprintf(stderr, "record: %s: generation %u, %lu replies of %zu nodes, %lu requests in %.2f s (%lu sent again)",
		options.file, options.generation, counts.kept, known_nodes(), counts.sent, seconds, counts.again);
	if (counts.pointers)
		fprintf(stderr, "; hop pointer of %lu replies of this machine set to 0", counts.pointers);
	fprintf(stderr, "\n");
}

static void keep_reply(const struct request *request, const uint8_t *reply)
{
	keep(&report, request, reply);
}

/* Puts a file that was asked for in place, if there is a text for it. */
static void finish(struct whole_file *file, const char *name, int is_there)
{
	if (name && is_there)
		commit_file(file);
}

static int record(struct whole_file *tables, struct whole_file *names, struct whole_file *lanes, struct whole_file *trees)
{
	double begun = now();
	int has_tables = 0, has_lanes = 0, has_trees = 0;

	sweep(keep_reply);
	if (!counts.kept)
		end(NO_FABRIC, "nothing answered, not even this machine's own port; no file is written");
	if (options.tables)
		has_tables = read_tables() || options.partial;
	if (options.lanes)
		has_lanes = read_lanes() || options.partial;
	if (options.trees)
		has_trees = read_trees() || options.partial;
	if (options.names)
		read_names();	/* the last to find nodes by GUID: a missing name is not a gap in the tables */
	sort_found();
	if (options.levels)
		has_lanes &= read_levels() || options.partial;
	if (has_tables)
		print_tables(tables->file);
	if (options.names)
		print_names(names->file);
	if (has_lanes)
		print_lanes(lanes->file);
	if (has_lanes && options.levels)
		print_levels(lanes->file);
	if (has_trees)
		print_trees(trees->file);
	clear_line();
	commit_file(&report);
	finish(tables, options.tables, has_tables);
	finish(names, options.names, 1);
	finish(lanes, options.lanes, has_lanes);
	finish(trees, options.trees, has_trees);
	remove_begun_files();
	close_port();
	if (!options.quiet)
		summary(now() - begun);
	if (options.tables && !has_tables)
		say("%s is not written, since replies that it needs are missing", options.tables);
	if (options.lanes && !has_lanes)
		say("%s is not written, since replies that it needs are missing", options.lanes);
	if (options.trees && !has_trees)
		say("%s is not written, since replies that it needs are missing", options.trees);
	if (!counts.silent && !counts.left_out && !counts.too_far)
		return WHOLE;
	say("NOT WHOLE: %lu requests without a reply, %lu replies left out, %lu ports over %d hops away",
	    counts.silent, counts.left_out, counts.too_far, MOST_HOPS);
	return NOT_WHOLE;
}

int main(int count, char **texts)
{
	static struct whole_file tables, names, lanes, trees;

	parse(count, texts);
	number_sweep();
	signal(SIGINT, on_signal);
	signal(SIGTERM, on_signal);
	signal(SIGHUP, on_signal);
	signal(SIGXFSZ, SIG_IGN);	/* the write fails instead */
	signal(SIGPIPE, SIG_IGN);
	open_port();
	begin_file(&report, options.file);
	if (options.tables)
		begin_file(&tables, options.tables);
	if (options.names)
		begin_file(&names, options.names);
	if (options.lanes)
		begin_file(&lanes, options.lanes);
	if (options.trees)
		begin_file(&trees, options.trees);
	if (fwrite("IBSMREP1", 8, 1, report.file) != 1)
		end(NO_FABRIC, "cannot write %s: %s", options.file, strerror(errno));
	return record(&tables, &names, &lanes, &trees);
}
