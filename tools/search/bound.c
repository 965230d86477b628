/* What the busiest channel carries at least, whatever the routes are. If each channel has a weight, packets between two
   switches cross at least the weight of the lightest way between them. So the busiest channel carries at least the sum
   of these weights over all pairs, divided by the sum of the channels' weights. */
#include <math.h>
#include <stdlib.h>
#include <string.h>
#include "search.h"

/* Weights are changed MOST_ROUNDS times, or less often if that takes more than MOST_STEPS steps. */
enum { MOST_ROUNDS = 200 };
#define MOST_STEPS 3e8

/* Weights and loads of channels; of each switch the weight of its lightest way to a target, the channel that it takes,
   and its packets; and the switches that have such a way, the nearest first. */
struct ways {
	const struct graph *graph;
	double *weight, *load, *far, *packets;
	int *exit, *in_turn, count;
};

/* Takes the nearest switch that is left; notes the ways through it. Returns whether there was one. Wires lead both ways,
   and `back` has for each channel the one in the other direction. */
static int go_nearest(struct ways *ways, const int *back, char *is_done)
{
	const struct graph *graph = ways->graph;
	int s, c, from, nearest = -1;

	for (s = 0; s < graph->switches; s++)
		if (!is_done[s] && ways->far[s] < INFINITY && (nearest < 0 || ways->far[s] < ways->far[nearest]))
			nearest = s;
	if (nearest < 0)
		return 0;
	is_done[nearest] = 1;
	ways->in_turn[ways->count++] = nearest;
	for (c = graph->first[nearest]; c < graph->first[nearest + 1]; c++) {
		from = graph->channel[c].to;
		if (ways->far[nearest] + ways->weight[back[c]] < ways->far[from]) {
			ways->far[from] = ways->far[nearest] + ways->weight[back[c]];
			ways->exit[from] = back[c];
		}
	}
	return 1;
}

/* Adds the loads of packets to a target by lightest ways, and returns the sum of the weights that they cross. */
static double add_target(struct ways *ways, const int *back, int target, char *is_done)
{
	const struct graph *graph = ways->graph;
	double sum = 0;
	int s, i;

	memset(is_done, 0, graph->switches);
	for (s = 0; s < graph->switches; s++) {
		ways->far[s] = s == target ? 0 : INFINITY;
		ways->packets[s] = (double)graph->adapters_at[s] * graph->adapters_at[target];
	}
	for (ways->count = 0; go_nearest(ways, back, is_done);)
		;
	for (i = ways->count - 1; i > 0; i--) {
		s = ways->in_turn[i];
		sum += (double)graph->adapters_at[s] * graph->adapters_at[target] * ways->far[s];
		ways->load[ways->exit[s]] += ways->packets[s];
		ways->packets[graph->channel[ways->exit[s]].to] += ways->packets[s];
	}
	return sum;
}

/* Returns for each channel one in the other direction. Of several wires side by side, the first goes with the first. */
static int *reversed(const struct graph *graph)
{
	int *back = room_for(graph->channels, sizeof *back), c, d, before;

	for (c = 0; c < graph->channels; c++) {
		const struct channel *own = &graph->channel[c];

		for (before = 0, d = graph->first[own->from]; d < c; d++)
			before += graph->channel[d].to == own->to;
		for (d = graph->first[own->to]; graph->channel[d].to != own->from || before--; d++)
			;
		back[c] = d;
	}
	return back;
}

/* Makes channels heavier, the more the busier they are. */
static void change_weights(struct ways *ways, int round)
{
	double most = 0;
	int c;

	for (c = 0; c < ways->graph->channels; c++)
		most = fmax(most, ways->load[c]);
	for (c = 0; most > 0 && c < ways->graph->channels; c++)
		ways->weight[c] *= exp(ways->load[c] / most / (2 + 0.02 * round));
}

/* Returns the bound by the weights of the channels between different switches. */
static double bound_by_weights(struct ways *ways, const int *back, char *is_done)
{
	const struct graph *graph = ways->graph;
	double sum = 0, all = 0;
	int c, target;

	memset(ways->load, 0, graph->channels * sizeof *ways->load);
	for (c = 0; c < graph->channels; c++)
		all += graph->channel[c].from == graph->channel[c].to ? 0 : ways->weight[c];
	for (target = 0; target < graph->switches; target++)
		if (graph->adapters_at[target])
			sum += add_target(ways, back, target, is_done);
	return all > 0 ? sum / all : 0;
}

/* Returns the pairs that the busiest wire of switch `s` carries at least, those to its adapters. */
static double bound_by_switch(const struct graph *graph, int s, int *far)
{
	double joined = 0, wires = 0;
	int t, c;

	distances(graph, s, far);
	for (t = 0; t < graph->switches; t++)
		joined += far[t] > 0 ? graph->adapters_at[t] : 0;
	for (c = graph->first[s]; c < graph->first[s + 1]; c++)
		wires += graph->channel[c].to != s;
	return wires > 0 ? joined * graph->adapters_at[s] / wires : 0;
}

/* Returns what the busiest channel carries at least. */
uint64_t least_possible(const struct graph *graph)
{
	int n = graph->switches, m = graph->channels, i, *back = reversed(graph);
	struct ways ways = {
		graph, room_for(m, sizeof(double)), room_for(m, sizeof(double)), room_for(n, sizeof(double)),
		room_for(n, sizeof(double)), room_for(n, sizeof(int)), room_for(n, sizeof(int)), 0
	};
	double rounds = MOST_STEPS / ((double)n * n * (n + 1)), least = 0;
	char *is_done = room_for(n, 1);

	for (i = 0; i < n; i++)
		least = fmax(least, bound_by_switch(graph, i, ways.in_turn));
	for (i = 0; i < m; i++)
		ways.weight[i] = 1;
	for (i = 0; i < MOST_ROUNDS && i + 1 <= rounds; i++) {
		least = fmax(least, bound_by_weights(&ways, back, is_done));
		change_weights(&ways, i);
	}
	/* A sum of rounded numbers may be a little too great. */
	return ceil(least * (1 - 1e-9));
}
