/* What channels carry by an order of switches: trial loads, and those by the choices of the rule `balance`
   (docs/MODEL.md, "Routes"). Switches are their positions in the order. */
#include <stdlib.h>
#include <string.h>
#include "search.h"

/* GROUP is the number of bits in a word. */
enum { PACKETS = 65536, ROUNDS = 3, GROUP = 64 };

/* A wire to a switch at a position, and the channel that it is. */
struct wire {
	int to, channel;
};

/* What is counted in. A word has a bit for each of the GROUP targets that are labelled together. */
struct room {
	const struct graph *graph;
	/* The graph by position: of each its first wire (then the number of wires), adapters, level and weight;
	   the wires; and where each switch is. Then the positions that have adapters, which are the targets. */
	int *first, *sent, *level, *weight, *position, *targets, targets_count;
	struct wire *wires;
	/* Of each position the targets towards which it has a label, got one in this round or the last one, and
	   has the label Up; of each wire those towards which it is a candidate. */
	uint64_t *known, *fresh, *last, *up, *marks;
	/* The candidates towards one target: of each position its first (then their number), and whether one leads
	   to a higher level; and the positions that have any, each after those that its candidates lead to. */
	int *first_exit, *in_turn, count;
	struct wire *exits;
	char *leads_higher;
	/* By channel: loads, and the loads that an audit counts. By position, and for trials also by target:
	   packets on their way. By position: the wire that it takes to the adapter whose choices are made. By
	   adapter and position: the number of the candidate chosen. */
	uint64_t *loads, *counted, *packets;
	struct wire *taken;
	uint8_t *choices;
};

struct room *room_of(const struct graph *graph)
{
	struct room *room = room_for(1, sizeof *room);
	int **numbers[] = {
		&room->sent, &room->level, &room->weight, &room->position, &room->targets, &room->in_turn,
	};
	uint64_t **words[] = { &room->known, &room->fresh, &room->last, &room->up };
	int n = graph->switches, m = graph->channels;
	size_t i;

	room->graph = graph;
	for (i = 0; i < sizeof numbers / sizeof *numbers; i++)
		*numbers[i] = room_for(n, sizeof(int));
	for (i = 0; i < sizeof words / sizeof *words; i++)
		*words[i] = room_for(n, sizeof(uint64_t));
	room->first = room_for(n + 1, sizeof(int));
	room->first_exit = room_for(n + 1, sizeof(int));
	room->wires = room_for(m, sizeof(struct wire));
	room->exits = room_for(m, sizeof(struct wire));
	room->taken = room_for(n, sizeof(struct wire));
	room->marks = room_for(m, sizeof(uint64_t));
	room->loads = room_for(m, sizeof(uint64_t));
	room->counted = room_for(m, sizeof(uint64_t));
	room->packets = room_for((size_t)n * GROUP, sizeof(uint64_t));
	room->leads_higher = room_for(n, 1);
	return room;
}

void free_room(struct room *room)
{
	void *parts[] = {
		room->first, room->sent, room->level, room->weight, room->position, room->targets, room->wires,
		room->known, room->fresh, room->last, room->up, room->marks, room->first_exit, room->in_turn,
		room->exits, room->leads_higher, room->loads, room->counted, room->packets, room->taken,
		room->choices, room,
	};
	size_t i;

	for (i = 0; i < sizeof parts / sizeof *parts; i++)
		free(parts[i]);
}

const uint64_t *loads_of(const struct room *room)
{
	return room->loads;
}

const uint64_t *audited(const struct room *room)
{
	return room->counted;
}

/* Takes in the graph by the positions of switches in an order. */
static void arrange(struct room *room, const int *order)
{
	const struct graph *graph = room->graph;
	int p, c, count = 0;

	room->targets_count = 0;
	for (p = 0; p < graph->switches; p++) {
		room->position[order[p]] = p;
		if (graph->adapters_at[order[p]])
			room->targets[room->targets_count++] = p;
	}
	for (p = 0; p < graph->switches; p++) {
		room->first[p] = count;
		room->sent[p] = graph->adapters_at[order[p]];
		room->level[p] = graph->level[order[p]];
		room->weight[p] = graph->weight[order[p]];
		for (c = graph->first[order[p]]; c < graph->first[order[p] + 1]; c++)
			room->wires[count++] = (struct wire){ room->position[graph->channel[c].to], c };
	}
	room->first[graph->switches] = count;
	memset(room->loads, 0, graph->channels * sizeof *room->loads);
}

/* Gives a position the labels of a round, and marks its candidates. Returns whether it got any. */
static int label_at(struct room *room, int p)
{
	uint64_t reached, down = 0, up = 0, open = ~room->known[p];
	int i, to;

	for (i = room->first[p]; i < room->first[p + 1]; i++) {
		to = room->wires[i].to;
		reached = room->last[to] & open;
		/* A wire that leads down counts if it leads to the label Down. */
		if (to > p)
			down |= reached &= ~room->up[to];
		else
			up |= reached;
		room->marks[i] |= reached;
	}
	room->fresh[p] = up | down;
	room->known[p] |= up | down;
	room->up[p] |= up;
	return room->fresh[p] != 0;
}

/* Labels the positions towards a group of targets, of which `first` is the first. Returns how many targets that
   are. */
static int label(struct room *room, int first)
{
	size_t n = room->graph->switches, size = n * sizeof(uint64_t);
	int count = room->targets_count - first < GROUP ? room->targets_count - first : GROUP, k, is_going = 1;
	uint64_t *other;
	size_t p;

	memset(room->up, 0, size);
	memset(room->last, 0, size);
	memset(room->marks, 0, room->graph->channels * sizeof *room->marks);
	for (k = 0; k < count; k++)
		room->last[room->targets[first + k]] = (uint64_t)1 << k;
	memcpy(room->known, room->last, size);
	while (is_going) {
		for (is_going = 0, p = 0; p < n; p++)
			is_going |= label_at(room, p);
		other = room->last;
		room->last = room->fresh;
		room->fresh = other;
	}
	return count;
}

/* Finds the candidates towards target `k` of the group, and in which order positions choose among them. */
static void find_exits(struct room *room, int k)
{
	int n = room->graph->switches, p, i, count = 0;
	uint64_t bit = (uint64_t)1 << k;

	for (p = 0; p < n; p++) {
		room->first_exit[p] = count;
		room->leads_higher[p] = 0;
		for (i = room->first[p]; i < room->first[p + 1]; i++)
			if (room->marks[i] & bit) {
				room->exits[count++] = room->wires[i];
				room->leads_higher[p] |= room->level[room->wires[i].to] > room->level[p];
			}
	}
	room->first_exit[n] = count;
	room->count = 0;
	for (p = n - 1; p >= 0; p--)
		if (!(room->up[p] & bit) && room->first_exit[p] < room->first_exit[p + 1])
			room->in_turn[room->count++] = p;
	for (p = 0; p < n; p++)
		if (room->up[p] & bit)
			room->in_turn[room->count++] = p;
}

static struct figures figures_of(const struct graph *graph, const uint64_t *loads)
{
	struct figures figures = { 0 };
	int c;

	for (c = 0; c < graph->channels; c++) {
		figures.sum += loads[c];
		figures.squares += (double)loads[c] * loads[c];
		if (loads[c] > figures.most)
			figures.most = loads[c];
	}
	return figures;
}

int are_even(const struct graph *graph, const struct figures *figures)
{
	uint64_t mean = graph->channels ? figures->sum / graph->channels : 0;

	return figures->most - mean <= mean / 8;
}

/* Shares the packets at a position evenly among its candidates, towards the targets whose bits are in `those`. */
static void share(struct room *room, int p, uint64_t those)
{
	uint64_t part[GROUP], bits, load;
	int count[GROUP] = { 0 }, i, k, to;

	for (i = room->first[p]; i < room->first[p + 1]; i++)
		for (bits = room->marks[i] & those; bits; bits &= bits - 1)
			count[__builtin_ctzll(bits)]++;
	for (bits = those; bits; bits &= bits - 1) {
		k = __builtin_ctzll(bits);
		part[k] = room->packets[(size_t)p * GROUP + k];
		part[k] = count[k] > 1 ? part[k] / count[k] : part[k];
	}
	for (i = room->first[p]; i < room->first[p + 1]; i++) {
		to = room->wires[i].to;
		for (load = 0, bits = room->marks[i] & those; bits; bits &= bits - 1) {
			k = __builtin_ctzll(bits);
			load += part[k];
			room->packets[(size_t)to * GROUP + k] += part[k];
		}
		room->loads[room->wires[i].channel] += load;
	}
}

/* Returns the figures of an order's trial loads. */
struct figures trial_loads(struct room *room, const int *order)
{
	int n = room->graph->switches, first, count, p, k;

	arrange(room, order);
	for (first = 0; first < room->targets_count; first += GROUP) {
		count = label(room, first);
		for (p = 0; p < n; p++)
			for (k = 0; k < count; k++)
				room->packets[(size_t)p * GROUP + k] =
					(uint64_t)PACKETS * room->sent[p] * room->sent[room->targets[first + k]];
		for (p = n - 1; p >= 0; p--)
			share(room, p, room->up[p]);
		for (p = 0; p < n; p++)
			share(room, p, room->known[p] & ~room->up[p]);
	}
	return figures_of(room->graph, room->loads);
}

/* Makes the first choices for an adapter with a number. */
static void choose_first(struct room *room, int number, uint8_t *choices)
{
	int i, p, digits;

	for (i = 0; i < room->count; i++) {
		p = room->in_turn[i];
		digits = room->leads_higher[p] ? number / room->weight[p] : number;
		choices[p] = (digits + p) % (room->first_exit[p + 1] - room->first_exit[p]);
	}
}

/* Adds to loads, or takes off them, what all adapters send to an adapter by its choices, `times` times. */
static void count_packets(struct room *room, const uint8_t *choices, uint64_t *loads, int64_t times)
{
	const struct wire *exit;
	int i, p;

	for (p = 0; p < room->graph->switches; p++)
		room->packets[p] = room->sent[p] * times;
	for (i = room->count - 1; i >= 0; i--) {
		p = room->in_turn[i];
		exit = &room->exits[room->first_exit[p] + choices[p]];
		loads[exit->channel] += room->packets[p];
		room->packets[exit->to] += room->packets[p];
	}
}

/* Returns the greatest load on the way that begins by a wire. */
static uint64_t peak_on(const struct room *room, struct wire wire)
{
	uint64_t peak = room->loads[wire.channel];

	for (wire = room->taken[wire.to]; wire.channel >= 0; wire = room->taken[wire.to])
		if (room->loads[wire.channel] > peak)
			peak = room->loads[wire.channel];
	return peak;
}

/* Makes the choices for an adapter at a target anew, by the loads of all others. */
static void choose_anew(struct room *room, int target, uint8_t *choices)
{
	uint64_t peak, least;
	struct wire wire;
	int i, k, p, best;

	count_packets(room, choices, room->loads, -1);
	room->taken[target].channel = -1;
	for (i = 0; i < room->count; i++) {
		p = room->in_turn[i];
		best = room->first_exit[p];
		if (best + 1 < room->first_exit[p + 1]) {
			least = peak_on(room, room->exits[best]);
			for (k = best + 1; k < room->first_exit[p + 1]; k++) {
				peak = peak_on(room, room->exits[k]);
				if (peak < least) {
					least = peak;
					best = k;
				}
			}
		}
		choices[p] = best - room->first_exit[p];
		room->taken[p] = room->exits[best];
		for (wire = room->taken[p]; room->sent[p] && wire.channel >= 0; wire = room->taken[wire.to])
			room->loads[wire.channel] += room->sent[p];
	}
}

/* Makes the choices of a round for all adapters at the switch `s`, once the candidates towards it are found. */
static void choose_for(struct room *room, int s, int round)
{
	const struct graph *graph = room->graph;
	uint8_t *choices = room->choices + (size_t)graph->first_adapter[s] * graph->switches;
	int i;

	for (i = 0; i < graph->adapters_at[s]; i++, choices += graph->switches)
		if (round) {
			choose_anew(room, room->position[s], choices);
		} else {
			choose_first(room, graph->number[s] + i, choices);
			count_packets(room, choices, room->loads, 1);
		}
}

/* Counts the loads of the adapters at the switch `s` as an audit does, once the candidates towards it are found. */
static void count_lids(struct room *room, int s)
{
	const struct graph *graph = room->graph;
	int i;

	for (i = graph->first_adapter[s]; i < graph->first_adapter[s + 1]; i++)
		if (graph->lids[i])
			count_packets(room, room->choices + (size_t)i * graph->switches, room->counted, graph->lids[i]);
}

/* Makes the choices of a round for all adapters or, if `round` is ROUNDS, counts loads by the choices as an audit
   does. */
static void go_round(struct room *room, const int *order, int round)
{
	int first, count, k, s;

	for (first = 0; first < room->targets_count; first += GROUP) {
		count = label(room, first);
		for (k = 0; k < count; k++) {
			find_exits(room, k);
			s = order[room->targets[first + k]];
			if (round < ROUNDS)
				choose_for(room, s, round);
			else
				count_lids(room, s);
		}
	}
}

/* Notes the loads of the round so far. Those that an audit counts differ from those by which choices are made if the
   adapters at a switch are at ports whose numbers take the same choices. */
static void note_loads(struct room *room, const int *order)
{
	size_t size = room->graph->channels * sizeof *room->loads;

	if (room->graph->is_uneven) {
		memset(room->counted, 0, size);
		go_round(room, order, ROUNDS);
	} else {
		memcpy(room->counted, room->loads, size);
	}
}

/* Returns what an audit of the plan tells of loads: those of the round whose busiest channel carries least. */
struct figures balanced_loads(struct room *room, const int *order)
{
	struct figures figures = { 0 }, least = { 0 };
	int round;

	if (!room->choices)
		room->choices = room_for((size_t)room->graph->adapters * room->graph->switches, 1);
	arrange(room, order);
	for (round = 0; round < ROUNDS && (!round || !are_even(room->graph, &figures)); round++) {
		go_round(room, order, round);
		figures = figures_of(room->graph, room->loads);
		if (!round || figures.most < least.most) {
			least = figures;
			note_loads(room, order);
		}
	}
	return figures_of(room->graph, room->counted);
}
