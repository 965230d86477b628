/* The state of seat, as a file of JSON that is whole at any time. */
#include <errno.h>
#include <stdlib.h>
#include <string.h>
#include <unistd.h>
#include "seat.h"

static void print_time(FILE *file, const char *name, time_t at)
{
	if (at)
		fprintf(file, "\"%s\": %lld", name, (long long) at);
	else
		fprintf(file, "\"%s\": null", name);
}

static void print_sweep(FILE *file, const struct standing *status)
{
	size_t i;

	fprintf(file, " \"sweep\": {\"count\": %lu, \"light\": %lu, \"generation\": %u, ", status->sweeps,
		status->light_sweeps, status->generation);
	print_time(file, "began", status->sweep_began);
	fprintf(file, ", ");
	print_time(file, "ended", status->sweep_ended);
	fprintf(file,
		", \"whole\": %s, \"unanswered\": %lu, \"managers_silent\": %lu, \"too_far\": %lu},\n \"silent\": [",
		status->is_whole ? "true" : "false", status->unanswered, status->silent, status->too_far);
	for (i = 0; i < silent_requests(); i++)
		fprintf(file, "%s\"%s\"", i ? ", " : "", silent_request(i));
	fprintf(file, "],\n");
}

static void print_managers(FILE *file)
{
	const struct other *it;
	size_t i;

	fprintf(file, " \"managers\": [");
	for (i = 0; (it = other_at(i)); i++)
		fprintf(file, "%s{\"guid\": \"%016" PRIx64 "\", \"priority\": %u, \"state\": \"%s\"}", i ? ", " : "",
			it->guid, it->priority, it->state);
	fprintf(file, "],\n");
}

static void print_counts(FILE *file)
{
	fprintf(file, " \"packets\": {\"sent\": %lu, \"sent_again\": %lu, \"answered\": %lu, \"given_up\": %lu, "
		"\"late\": %lu, \"asked_by_others\": %lu, \"traps\": %lu, \"repressed\": %lu, \"pointers_set\": %lu, "
		"\"sets\": %lu, \"hosts_answered\": %lu, \"hosts_refused\": %lu}\n",
		carried.sent, carried.again, carried.answered, carried.given_up, carried.late, carried.requests,
		carried.traps, carried.repressed, carried.pointers, carried.sets, carried.hosts_answered,
		carried.hosts_refused);
}

static void print_status(FILE *file, const struct standing *status)
{
	fprintf(file, "{\"version\": \"%s\", \"state\": \"%s\", ", VERSION, status->state);
	print_time(file, "since", status->state_since);
	fprintf(file, ", \"port\": \"%s\", \"guid\": \"%016" PRIx64 "\", \"priority\": %d,\n", own_port.name,
		own_port.guid, seat.priority);
	print_sweep(file, status);
	fprintf(file, " \"writing\": {\"count\": %lu, ", status->writings);
	print_time(file, "ended", status->written_at);
	fprintf(file, ", \"written\": %s, \"settled\": %s, \"lids\": %zu, \"switches\": %zu},\n",
		status->is_written ? "true" : "false", status->is_settled ? "true" : "false", status->lids,
		status->switches);
	print_managers(file);
	print_counts(file);
	fprintf(file, "}\n");
}

/* Tells systemd what the manager is at, if that has changed. */
static void notify_status(const struct standing *status)
{
	static char told[160];
	char text[sizeof told];

	char written[64] = "nothing is written";

	if (status->is_written)
		snprintf(written, sizeof written, "%zu LIDs and %zu switches are written", status->lids, status->switches);
	snprintf(text, sizeof text, "%s; %s; the last sweep %s", status->state, written,
		 status->is_whole ? "had every answer" : "lacked answers, or is under way");
	if (strcmp(text, told))
		notify("STATUS=%s", text);
	strcpy(told, text);
}

/* Writes the status file. A failure is reported once, and the manager goes on. */
void write_status(const struct standing *status)
{
	static char *temporary;
	static int is_said;
	size_t size;
	FILE *file;
	int fault;

	notify_status(status);
	if (!seat.status_file)
		return;
	if (!temporary) {
		size = strlen(seat.status_file) + 32;
		temporary = more(NULL, size, 1);
		snprintf(temporary, size, "%s.%ld", seat.status_file, (long) getpid());
	}
	file = fopen(temporary, "w");
	fault = !file;
	if (file) {
		print_status(file, status);
		fault = ferror(file);
		fault |= fclose(file) != 0;
	}
	if (!fault && !rename(temporary, seat.status_file)) {
		is_said = 0;
		return;
	}
	if (!is_said)
		note(WARNING, "cannot write %s: %s", seat.status_file, strerror(errno));
	is_said = 1;
	unlink(temporary);
}
