/* What the process says that it did, for the log, the status file and --once. Nothing is decided here but when a seat with
   --once ends, and whether a light sweep may come. */
#include <stdlib.h>
#include <string.h>
#include <unistd.h>
#include "seat.h"

enum { LINK_STATE_CHANGED = 128, CAPABILITIES_CHANGED = 144 };
enum { LEAVING_MS = 20 };	/* for which a packet is waited meanwhile */
enum { MOST_FAILURES = 4 };	/* in a row, with --once */
#define LEAVING 3.0	/* seconds that a manager may take to take over from one that ends */
#define YIELDING 15.0	/* seconds that a master over which this manager wins may take to hand over, with --once */

static struct standing status;
static char state[16], *kept_plan;
static char heard[240];	/* the first trap since the last writing, as it is told */
static unsigned more_heard, left_not_active, left_of_others;
static int failures, end_status = -1, has_handed_over, is_sweeping;
static uint32_t newest;
static double began, given_up;	/* with --once, when it is given up to wait for the master; 0 for not yet */

int status_of_once(void)
{
	return seat.once ? end_status : -1;
}

/* With --once, has the program end with a status, and says why if that is not 0. */
static void end_once(const char *why)
{
	if (!seat.once || end_status >= 0)
		return;
	end_status = why ? NOT_WHOLE : WHOLE;
	if (why)
		note(ERROR, "NOT UP: %s", why);
}

int is_master(void)
{
	return !strcmp(state, "master");
}

int rests(void)
{
	return is_master() && status.is_settled && !is_sweeping;
}

static int is_standby(void)
{
	return !strcmp(state, "standby");
}

/* Returns the GUID of the node that holds a LID by what was written, or 0. */
static uint64_t owner_of(unsigned lid)
{
	const char *line = kept_plan ? kept_plan : "";
	unsigned first, port, lmc;
	uint64_t guid;
	int count;

	for (; *line; line = strchr(line, '\n') + 1) {
		lmc = 0;
		if (strncmp(line, "lid ", 4))
			continue;
		count = scan_line(line, "lid %u %" SCNx64 "/%u lmc %u", &first, &guid, &port, &lmc);
		if (count >= 3 && lid >= first && lid < first + (1u << lmc))
			return guid;
	}
	return 0;
}

/* Keeps the first trap since the last writing, with the name of its sender, and counts the others. */
static void keep_trap(unsigned number, unsigned lid)
{
	uint64_t guid;
	size_t length;

	if (*heard) {
		more_heard++;
		return;
	}
	guid = owner_of(lid);
	length = snprintf(heard, sizeof heard, "trap %u from LID %u", number, lid);
	if (guid) {
		char name[128];

		print_node(name, sizeof name, guid);
		snprintf(heard + length, sizeof heard - length, " (%s)", name);
	}
}

/* Writes what was heard since the last writing, and forgets it. */
static void take_heard(char *text, size_t room)
{
	snprintf(text, room, "%s", heard);
	if (more_heard) {
		size_t length = strlen(text);

		snprintf(text + length, room - length, ", %u more traps", more_heard);
	}
	*heard = 0;
	more_heard = 0;
}

void heard_trap(unsigned number, unsigned lid)
{
	if (options.verbose)
		note(INFO, "trap %u from LID %u", number, lid);
	if (number == LINK_STATE_CHANGED || number == CAPABILITIES_CHANGED)
		keep_trap(number, lid);
}

static void keep_text(char **kept, const char *text)
{
	free(*kept);
	*kept = text ? strdup(text) : NULL;
	if (text && !*kept)
		end(NO_MEMORY, "out of memory");
}

static size_t lines_with(const char *text, const char *word)
{
	size_t count = 0, length = strlen(word);

	for (; text && *text; text = strchr(text, '\n') + 1)
		count += !strncmp(text, word, length);
	return count;
}

static int length_of_line(const char *text)
{
	return strcspn(text, "\n");
}

/* Forgets what was written: others may have changed it. */
static void forget_written(void)
{
	keep_text(&kept_plan, NULL);
	status.is_settled = 0;
	left_not_active = left_of_others = 0;
}

static void heard_state(const char *word)
{
	const char *upper = !strcmp(word, "master") ? "MASTER" : !strcmp(word, "standby") ? "STANDBY" :
		!strcmp(word, "discovering") ? "DISCOVERING" : "NOT ACTIVE";

	note(NOTICE, "%s", upper);
	snprintf(state, sizeof state, "%s", word);
	forget_written();
	given_up = 0;
	if (!strcmp(word, "not-active"))
		end_once("another manager has disabled this one");
	status.state_since = time(NULL);
	write_status(&status);
}

static void heard_failure(void)
{
	if (++failures >= MOST_FAILURES * (seat.partial ? 2 : 1))
		end_once("it failed too often");
}

static void heard_sweep(void)
{
	newest++;
	is_sweeping = 1;
	began = now();
	status.generation = newest;
	status.sweep_began = time(NULL);
	status.sweeps++;
	begin_silent();
}

void heard_light(void)
{
	status.light_sweeps++;
	write_status(&status);
}

static void read_progress(void)
{
	status.unanswered = status.too_far = status.silent = 0;
	sscanf(shown("progress"), "progress done unanswered %lu toofar %lu", &status.unanswered, &status.too_far);
	sscanf(shown("silent"), "silent %lu", &status.silent);
	status.sweep_ended = time(NULL);
	read_others(shown("managers"));
}

/* Says which requests have no answer, and where their paths lead by what the sweep saw all the same. */
static void say_silent(void)
{
	char place[200];
	size_t i;

	note(WARNING, "NOT WHOLE: %lu requests without an answer (%lu of other managers), %lu ports over %d hops away",
	     status.unanswered, status.silent, status.too_far, MOST_HOPS);
	if (silent_requests())
		read_places(shown("facts"));
	for (i = 0; i < silent_requests() && (i < 5 || options.verbose); i++) {
		print_place(place, sizeof place, silent_path(i));
		note(WARNING, "no answer: %s%s", silent_request(i), place);
	}
}

/* Says which master the sweep saw, if there is one besides this manager. */
static void say_master(void)
{
	const struct other *master = greatest_heard("master", NULL);

	if (!master)
		return;
	if (is_master()) {
		note(WARNING, "ANOTHER MASTER: %s, priority %u", called_as(master), master->priority);
		status.is_settled = 0;
	} else if (!given_up)
		given_up = now() + (wins(master) ? 0 : YIELDING);
}

static void heard_swept(int is_whole)
{
	is_sweeping = 0;
	read_progress();
	status.is_whole = is_whole;
	if (options.verbose)
		note(INFO, "swept in %.3f s, %s", now() - began, is_whole ? "all is answered" : "not whole");
	if (!is_whole) {
		say_silent();
		heard_failure();
	}
	say_master();
	write_status(&status);
}

/* Keeps the plan that is written, and says what it changes if another one was written before. */
static void keep_plan(void)
{
	char why[300], *old = kept_plan;

	kept_plan = NULL;
	keep_text(&kept_plan, shown("plan"));
	if (old && strcmp(old, kept_plan)) {
		take_heard(why, sizeof why);
		note_changes(why, old, kept_plan, shown("facts"));
	}
	free(old);
	note_cables(shown("facts"));
}

/* Says why a plan that was written before is written again. */
static void say_cause(const char *cause)
{
	unsigned not_active, of_others;

	if (!strcmp(cause, "again"))
		note(INFO, "the same plan is written again: it may not stand any more");
	else if (sscanf(cause, "inactive %u foreign %u", &not_active, &of_others) == 2)
		note(INFO, "the same plan is written again: %u ports are in Initialize or Armed, %u name another master",
		     not_active, of_others);
}

static void heard_write(const char *cause)
{
	if (!status.is_whole)
		note(WARNING, "what is known is planned all the same, since --partial says so");
	say_cause(cause);
	began = now();
	keep_plan();
	status.is_settled = 0;
	status.lids = lines_with(kept_plan, "lid ");
	status.switches = lines_with(kept_plan, "switch ");
	status.writings++;
}

static void heard_written(int is_written)
{
	status.is_written = is_written;
	status.written_at = time(NULL);
	if (is_written) {
		note(NOTICE, "SUBNET UP: %zu LIDs, %zu switches, written in %.3f s", status.lids, status.switches,
		     now() - began);
	} else {
		note(WARNING, "NOT WRITTEN: some of it was not answered");
		forget_written();
		heard_failure();
	}
	write_status(&status);
}

static void say_left(unsigned count, unsigned *left, const char *what)
{
	if (count > *left)
		note(WARNING, "%u ports %s", count, what);
	*left = count;
}

/* Hears that nothing is left to write, but for what so many ports need. */
static void heard_settled(unsigned not_active, unsigned of_others)
{
	say_left(not_active, &left_not_active, "stay in Initialize or Armed");
	say_left(of_others, &left_of_others, "name another master still");
	if (*heard) {
		char why[300];

		take_heard(why, sizeof why);
		note(INFO, "%s; nothing is to be written", why);
	}
	failures = 0;
	status.is_settled = 1;
	end_once(!status.is_whole ? "requests have no answer" : not_active ? "ports are not Active" :
		 of_others ? "ports name another master" : NULL);
	write_status(&status);
}

/* Says who gets the subnet: the greatest manager that the sweep saw, or the greatest master if this one yields. */
static void say_heir(const char *what, const char *or_state)
{
	const struct other *heir = greatest_heard("master", or_state);

	if (!heir)
		heir = greatest_heard("standby", NULL);
	if (heir)
		note(NOTICE, "%s to %s, priority %u", what, called_as(heir), heir->priority);
	has_handed_over = 1;
}

static void heard_announce(void)
{
	const struct other *master = greatest_heard("master", NULL);

	if (master && !is_master())
		note(NOTICE, "the master %s, priority %u, is to hand over", called_as(master), master->priority);
	announce_manager();
}

/* Says why the manager does not write: it has no plan, or refuses to write it. */
static void heard_refusal(const char *word)
{
	const char *plan = shown("plan");

	if (!strcmp(word, "judge") && !strncmp(plan, "refused ", 8))
		note(WARNING, "NOT WRITTEN: there is no plan: %.*s", length_of_line(plan + 8), plan + 8);
	else
		note(WARNING, "%s: the manager refuses", strcmp(word, "sweep") ? "NOT WRITTEN" : "NOT SWEPT");
	forget_written();
	heard_failure();
}

static void heard_unanswered(const char *hex)
{
	uint8_t bytes[PACKET];

	read_packet(hex, bytes);
	note_silent(bytes);
}

/* Hears that the manager stood still, so that another one may have written meanwhile. */
static void heard_pause(void)
{
	note(WARNING, "nothing was done for a while: the subnet is looked at anew");
	status.is_settled = 0;
	write_status(&status);
}

/* Returns what follows a word in a note, or NULL if the note begins otherwise. */
static const char *behind(const char *told, const char *word)
{
	size_t length = strlen(word);

	return strncmp(told, word, length) ? NULL : told + length;
}

static void heard_note(const char *told)
{
	unsigned not_active, of_others;
	const char *rest;

	if ((rest = behind(told, "state ")))
		heard_state(rest);
	else if ((rest = behind(told, "unanswered ")))
		heard_unanswered(rest);
	else if ((rest = behind(told, "swept ")))
		heard_swept(!strcmp(rest, "yes"));
	else if ((rest = behind(told, "written ")))
		heard_written(!strcmp(rest, "yes"));
	else if ((rest = behind(told, "refused ")))
		heard_refusal(rest);
	else if (sscanf(told, "settled inactive %u foreign %u", &not_active, &of_others) == 2)
		heard_settled(not_active, of_others);
	else if (!strcmp(told, "sweep"))
		heard_sweep();
	else if ((rest = behind(told, "write ")))
		heard_write(rest);
	else if (!strcmp(told, "handover"))
		say_heir("HANDOVER", "standby");
	else if (!strcmp(told, "yield"))
		say_heir("YIELDS", NULL);
	else if (!strcmp(told, "announce"))
		heard_announce();
	else if (!strcmp(told, "rediscover"))
		note(WARNING, "nobody is master");
	else if (!strcmp(told, "paused"))
		heard_pause();
}

/* Cuts the first line off a text, ends it by 0, and returns it. */
static char *take_line(char **text)
{
	char *line = *text, *end = strchr(line, '\n');

	*end = 0;
	*text = end + 1;
	return line;
}

void heard_notes(const char *notes)
{
	char *copy = NULL, *rest;

	keep_text(&copy, notes);
	for (rest = copy; *rest && !manager_is_gone();)
		heard_note(take_line(&rest));
	free(copy);
}

void end_dry_run_if(const char *notes)
{
	const char *plan;

	if (!strstr(notes, "swept ") || manager_is_gone())
		return;
	status.is_whole = strstr(notes, "swept yes\n") != NULL;
	read_progress();
	plan = shown("plan");
	fputs(plan, stdout);
	if (fflush(stdout))
		end(NO_FABRIC, "cannot write standard output");
	close_seat();
	if (!status.is_whole)
		end(NOT_WHOLE, "NOT WHOLE: %lu requests without an answer", status.unanswered);
	_exit(WHOLE);
}

uint32_t begin_notes(void)
{
	uint32_t clock = time(NULL) - 1;

	*state = 0;
	status.state = state;
	forget_written();
	has_handed_over = is_sweeping = 0;
	if (options.after && !newest)
		newest = newest_in(options.after);
	if (newest < clock)
		newest = clock;
	heard_state("discovering");	/* a new process does not say that */
	return newest;
}

void look_at_time(void)
{
	if (given_up && now() >= given_up && is_standby())
		end_once("another manager is master");
}

void leave(void)
{
	double until = now() + LEAVING;

	if (!is_master() || manager_is_gone())
		return;
	status.is_settled = 0;
	drop_all();	/* the heir writes anew */
	be_no_manager();	/* or else its first sweep would find a master here, and it would stand by again */
	has_handed_over = 0;
	tell("leave");
	while (wake_time() != NEVER && now() < until && !manager_is_gone()) {
		carry(LEAVING_MS);
		tell_time_if_due();
	}
	if (is_master() && has_handed_over)
		note(NOTICE, "nobody takes over");
}
