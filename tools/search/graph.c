/* The graph of switches as tools/find-order writes it, and what the rule derives from it whatever the order is. */
#include <stdio.h>
#include <stdlib.h>
#include <string.h>
#include "search.h"

enum { MOST_WEIGHT = 65536, MOST_NUMBER = 65536 };

void *room_for(size_t count, size_t size)
{
	void *memory = calloc(count ? count : 1, size);

	if (!memory)
		end(NO_MEMORY, "out of memory");
	return memory;
}

static int number_read(int least, int most)
{
	long value;

	if (scanf("%ld", &value) != 1 || value < least || value > most)
		end(REFUSED, "standard input is no graph of tools/find-order");
	return value;
}

/* Reads the channels, which come in ascending order of switch and port. */
static void read_channels(struct graph *graph)
{
	int i;

	graph->channels = number_read(0, INT32_MAX);
	graph->channel = room_for(graph->channels, sizeof *graph->channel);
	graph->first = room_for(graph->switches + 1, sizeof *graph->first);
	for (i = 0; i < graph->channels; i++) {
		graph->channel[i].from = number_read(0, graph->switches - 1);
		graph->channel[i].port = number_read(1, 255);
		graph->channel[i].to = number_read(0, graph->switches - 1);
		graph->first[graph->channel[i].from + 1]++;
	}
	for (i = 0; i < graph->switches; i++)
		graph->first[i + 1] += graph->first[i];
}

/* Reads the adapters, in ascending order of switch and port, and returns their ports. */
static int *read_adapters(struct graph *graph)
{
	int i, *ports;

	graph->adapters = number_read(0, INT32_MAX);
	ports = room_for(graph->adapters, sizeof *ports);
	graph->adapters_at = room_for(graph->switches, sizeof *graph->adapters_at);
	graph->first_adapter = room_for(graph->switches + 1, sizeof *graph->first_adapter);
	for (i = 0; i < graph->adapters; i++) {
		graph->adapters_at[number_read(0, graph->switches - 1)]++;
		ports[i] = number_read(1, 255);
	}
	for (i = 0; i < graph->switches; i++)
		graph->first_adapter[i + 1] = graph->first_adapter[i] + graph->adapters_at[i];
	return ports;
}

void read_graph(struct graph *graph)
{
	int i, *ports;

	graph->switches = number_read(0, INT32_MAX / 256);
	graph->is_last = number_read(0, 1);
	read_channels(graph);
	ports = read_adapters(graph);
	number_adapters(graph, ports);
	free(ports);
	if (number_read(0, 1)) {
		graph->start = room_for(graph->switches, sizeof *graph->start);
		for (i = 0; i < graph->switches; i++)
			graph->start[i] = number_read(0, graph->switches - 1);
	}
}

/* Writes to `far` the number of wires to each switch from the nearest of those that have 0 there, or -1 if no
   wires lead to it. */
static void measure(const struct graph *graph, int *far)
{
	int i, s, c, to, count = 0, *waiting = room_for(graph->switches, sizeof *waiting);

	for (s = 0; s < graph->switches; s++) {
		far[s] = far[s] == 0 ? 0 : -1;
		if (far[s] == 0)
			waiting[count++] = s;
	}
	for (i = 0; i < count; i++)
		for (c = graph->first[waiting[i]]; c < graph->first[waiting[i] + 1]; c++) {
			to = graph->channel[c].to;
			if (far[to] < 0) {
				far[to] = far[waiting[i]] + 1;
				waiting[count++] = to;
			}
		}
	free(waiting);
}

void distances(const struct graph *graph, int start, int *far)
{
	int s;

	for (s = 0; s < graph->switches; s++)
		far[s] = s != start;
	measure(graph, far);
}

/* Computes the level of each switch: its distance from the nearest switch with adapters, or 0 if it reaches none. */
static void find_levels(struct graph *graph)
{
	int s;

	graph->level = room_for(graph->switches, sizeof *graph->level);
	for (s = 0; s < graph->switches; s++)
		graph->level[s] = !graph->adapters_at[s];
	measure(graph, graph->level);
	for (s = 0; s < graph->switches; s++)
		if (graph->level[s] < 0)
			graph->level[s] = 0;
}

/* Computes the digit weights from the levels of switches. */
static void weigh(struct graph *graph)
{
	int n = graph->switches, s, c, higher, *level = graph->level, *width = room_for(n + 1, sizeof *width);
	uint64_t *weight = room_for(n + 1, sizeof *weight);

	for (s = 0; s < n; s++) {
		for (higher = 0, c = graph->first[s]; c < graph->first[s + 1]; c++)
			higher += level[graph->channel[c].to] > level[s];
		if (width[level[s]] < higher)
			width[level[s]] = higher;
	}
	weight[0] = 1;
	for (s = 0; s < n; s++) {
		weight[s + 1] = weight[s] * (width[s] ? width[s] : 1);
		if (weight[s + 1] > MOST_WEIGHT)
			weight[s + 1] = MOST_WEIGHT;
	}
	for (s = 0; s < n; s++)
		graph->weight[s] = weight[level[s]];
	free(width);
	free(weight);
}

/* Returns the least neighbor of a switch, or the number of switches if it has none. */
static int least_neighbor(const struct graph *graph, int s)
{
	int c, least = graph->switches;

	for (c = graph->first[s]; c < graph->first[s + 1]; c++)
		if (graph->channel[c].to < least)
			least = graph->channel[c].to;
	return least;
}

/* Computes the number of each switch's first adapter from its leaf number. */
static void number_leaves(struct graph *graph, int most)
{
	int n = graph->switches, s, leaf, before, *least = room_for(n, sizeof *least);

	for (s = 0; s < n; s++)
		least[s] = least_neighbor(graph, s);
	for (s = 0; s < n; s++) {
		for (before = 0, leaf = 0; leaf < n; leaf++)
			before += graph->adapters_at[leaf]
				&& (least[leaf] < least[s] || (least[leaf] == least[s] && leaf < s));
		graph->number[s] = before % MOST_NUMBER * most;
	}
	free(least);
}

void number_adapters(struct graph *graph, const int *ports)
{
	int s, i, most = 0;

	graph->number = room_for(graph->switches, sizeof *graph->number);
	graph->weight = room_for(graph->switches, sizeof *graph->weight);
	graph->lids = room_for(graph->adapters, sizeof *graph->lids);
	for (s = 0; s < graph->switches; s++)
		if (graph->adapters_at[s] > most)
			most = graph->adapters_at[s];
	number_leaves(graph, most);
	find_levels(graph);
	weigh(graph);
	for (s = 0; s < graph->switches; s++)
		for (i = graph->first_adapter[s]; i < graph->first_adapter[s + 1]; i++)
			graph->lids[graph->first_adapter[s]
				+ (graph->number[s] + ports[i]) % MOST_NUMBER % graph->adapters_at[s]]++;
	for (i = 0; i < graph->adapters; i++)
		graph->is_uneven |= graph->lids[i] != 1;
}
