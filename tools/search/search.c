/*
 * search: looks for an order of switches by which the busiest channel of the plan of `ibsm plan --routing balance`
 * carries less. tools/find-order runs it. It reads the graph of switches from standard input, and prints lines for
 * that tool.
 */
#include <signal.h>
#include <stdarg.h>
#include <stdio.h>
#include <stdlib.h>
#include <string.h>
#include "search.h"

void end(int status, const char *format, ...)
{
	va_list values;

	fprintf(stderr, "search: ");
	va_start(values, format);
	vfprintf(stderr, format, values);
	va_end(values);
	fprintf(stderr, "\n");
	fflush(stdout);
	_Exit(status);
}

static void print_figures(const char *word, const struct figures *figures)
{
	printf("%s %lu %lu\n", word, (unsigned long)figures->most, (unsigned long)figures->sum);
	fflush(stdout);
}

/* Computes the order to begin with: what grows from the one that was read, or else the one that the rule takes. */
static void begin(struct search *search, struct graph *graph)
{
	struct room *room = room_of(graph);
	int *list = room_for(graph->switches, sizeof *list);

	search->best.order = room_for(graph->switches, sizeof *search->best.order);
	if (graph->start)
		memcpy(list, graph->start, graph->switches * sizeof *list);
	else
		tried_order(graph, room, list);
	grow(graph, list, search->best.order);
	search->best.figures = balanced_loads(room, search->best.order);
	free(list);
	free_room(room);
}

int main(int count, char **words)
{
	static struct graph graph;
	struct search search = { .graph = &graph };
	struct sigaction action = { .sa_handler = stop_search };
	int i;

	sigaction(SIGINT, &action, NULL);
	sigaction(SIGTERM, &action, NULL);
	if (count != 5)
		end(USAGE, "usage: search SEED THREADS SECONDS TRIALS");
	search.seed = strtoull(words[1], NULL, 10);
	search.threads = atoi(words[2]);
	search.seconds = atof(words[3]);
	search.trials = strtoul(words[4], NULL, 10);
	read_graph(&graph);
	begin(&search, &graph);
	search.bound = least_possible(&graph);
	printf("bound %lu\n", (unsigned long)search.bound);
	print_figures("start", &search.best.figures);
	printf("trials %lu\n", improve(&search));
	print_figures("found", &search.best.figures);
	printf("order");
	for (i = 0; i < graph.switches; i++)
		printf(" %d", search.best.order[i]);
	printf("\n");
	if (fflush(stdout) || ferror(stdout))
		end(UNWRITTEN, "standard output cannot be written");
	return WHOLE;
}
