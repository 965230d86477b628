/* Orders of switches: as they grow from a list, and those that the rule `balance` tries. */
#include <limits.h>
#include <stdlib.h>
#include <string.h>
#include "search.h"

enum { TRIED_ROOTS = 8 };

/* A heap of ranks, the least first. A rank may be there twice. */
struct heap {
	int *ranks, count;
};

static void put_in(struct heap *heap, int rank)
{
	int at = heap->count++;

	for (; at && heap->ranks[(at - 1) / 2] > rank; at = (at - 1) / 2)
		heap->ranks[at] = heap->ranks[(at - 1) / 2];
	heap->ranks[at] = rank;
}

static int take_least(struct heap *heap)
{
	int least = heap->ranks[0], last = heap->ranks[--heap->count], at = 0, child;

	while ((child = 2 * at + 1) < heap->count) {
		if (child + 1 < heap->count && heap->ranks[child + 1] < heap->ranks[child])
			child++;
		if (heap->ranks[child] >= last)
			break;
		heap->ranks[at] = heap->ranks[child];
		at = child;
	}
	heap->ranks[at] = last;
	return least;
}

/* Writes to `grown` the switches in the order that grows as `list` has them. A switch that no text can name is
   taken to be the last of the list. */
void grow(const struct graph *graph, const int *list, int *grown)
{
	int n = graph->switches, i, s, c, count = 0, at = 0;
	int *rank = room_for(n, sizeof *rank), *by_rank = room_for(n, sizeof *by_rank);
	char *is_placed = room_for(n, 1);
	struct heap beside = { room_for(graph->channels, sizeof(int)), 0 };

	for (i = 0; i < n; i++)
		if (!graph->is_last || list[i])
			by_rank[count++] = list[i];
	if (count < n)
		by_rank[count] = 0;
	for (i = 0; i < n; i++)
		rank[by_rank[i]] = i;
	for (count = 0; count < n;) {
		s = by_rank[beside.count ? take_least(&beside) : at++];
		if (is_placed[s])
			continue;
		is_placed[s] = 1;
		grown[count++] = s;
		for (c = graph->first[s]; c < graph->first[s + 1]; c++)
			if (!is_placed[graph->channel[c].to])
				put_in(&beside, rank[graph->channel[c].to]);
	}
	free(beside.ranks);
	free(is_placed);
	free(by_rank);
	free(rank);
}

/* The key of a switch: how remote it is, and its distance from the least remote switch of its component. */
struct key {
	uint64_t remote;
	int far, index;
};

static int compare_keys(const void *one, const void *other)
{
	const struct key *a = one, *b = other;

	if (a->remote != b->remote)
		return a->remote < b->remote ? -1 : 1;
	if (a->far != b->far)
		return a->far < b->far ? -1 : 1;
	return a->index < b->index ? -1 : 1;
}

/* Returns how remote a switch is with these distances: the sum of their squares, each as often as there are adapters
   at the far switch, and once more. */
static uint64_t remoteness(const struct graph *graph, const int *far)
{
	uint64_t sum = 0;
	int s;

	for (s = 0; s < graph->switches; s++)
		if (far[s] >= 0)
			sum += (uint64_t)far[s] * far[s] * (1 + graph->adapters_at[s]);
	return sum;
}

/* Returns whether a switch comes before another one as the first of its component. */
static int is_nearer(const struct key *one, const struct key *other)
{
	return one->remote < other->remote || (one->remote == other->remote && one->index < other->index);
}

/* Notes in the keys of a component, to which switch `s` belongs, how far its switches are from the first of it.
   `far` is written over. */
static void measure_component(const struct graph *graph, int s, struct key *keys, int *far)
{
	int t, first = s;

	distances(graph, s, far);
	for (t = 0; t < graph->switches; t++)
		if (far[t] >= 0 && is_nearer(&keys[t], &keys[first]))
			first = t;
	distances(graph, first, far);
	for (t = 0; t < graph->switches; t++)
		if (far[t] >= 0)
			keys[t].far = far[t];
}

/* Writes to `list` the switches by their keys. */
static void list_by_keys(const struct graph *graph, int *list)
{
	int n = graph->switches, s, *far = room_for(n, sizeof *far);
	struct key *keys = room_for(n, sizeof *keys);

	for (s = 0; s < n; s++) {
		distances(graph, s, far);
		keys[s] = (struct key){ remoteness(graph, far), -1, s };
	}
	for (s = 0; s < n; s++)
		if (keys[s].far < 0)
			measure_component(graph, s, keys, far);
	qsort(keys, n, sizeof *keys, compare_keys);
	for (s = 0; s < n; s++)
		list[s] = keys[s].index;
	free(keys);
	free(far);
}

/* Writes to `starts` the switches from which orders by depth are tried: the first of `list`, and then those that are
   farthest from all before them, the first in `list` of several. Returns how many they are. */
static int find_starts(const struct graph *graph, const int *list, int *starts)
{
	int n = graph->switches, count = 0, i, s, best, *far = room_for(n, sizeof *far), *near = room_for(n, sizeof *near);

	for (s = 0; s < n; s++)
		near[s] = INT_MAX;
	for (; count < n && count < TRIED_ROOTS; count++) {
		best = list[0];
		for (i = 1; i < n; i++)
			if (near[list[i]] > near[best])
				best = list[i];
		starts[count] = best;
		distances(graph, best, far);
		for (s = 0; s < n; s++)
			if (far[s] >= 0 && far[s] < near[s])
				near[s] = far[s];
	}
	free(near);
	free(far);
	return count;
}

/* How an order by depth grows: the ranks of switches by key, whether greater ones come first, the placed switches,
   and of each switch how many wires it has to placed ones, or -1 if it is placed. */
struct depth {
	const struct graph *graph;
	const int *rank;
	int is_backwards, count, *found, *wires;
};

/* Returns whether switch `a` comes before switch `b`, both with a wire to the same placed switch. */
static int goes_before(const struct depth *depth, int a, int b)
{
	if (depth->wires[a] != depth->wires[b])
		return depth->wires[a] > depth->wires[b];
	return depth->is_backwards ? depth->rank[a] > depth->rank[b] : depth->rank[a] < depth->rank[b];
}

static void place(struct depth *depth, int s)
{
	const struct graph *graph = depth->graph;
	int c;

	depth->found[depth->count++] = s;
	depth->wires[s] = -1;
	for (c = graph->first[s]; c < graph->first[s + 1]; c++)
		if (depth->wires[graph->channel[c].to] >= 0)
			depth->wires[graph->channel[c].to]++;
}

/* Returns the unplaced neighbor of switch `s` that comes next, or -1 if it has none. */
static int next_beside(const struct depth *depth, int s)
{
	int c, to, best = -1;

	for (c = depth->graph->first[s]; c < depth->graph->first[s + 1]; c++) {
		to = depth->graph->channel[c].to;
		if (depth->wires[to] >= 0 && (best < 0 || goes_before(depth, to, best)))
			best = to;
	}
	return best;
}

/* Writes to depth->found the switches in order of depth from `root`. `list` has them by key. */
static void list_by_depth(struct depth *depth, const int *list, int root)
{
	int n = depth->graph->switches, i, best, open = 0, *stack = room_for(n, sizeof *stack);

	memset(depth->wires, 0, n * sizeof *depth->wires);
	depth->count = 0;
	place(depth, root);
	stack[open++] = root;
	while (depth->count < n) {
		/* A switch whose neighbors are all placed is not looked at again. */
		for (best = -1; open && (best = next_beside(depth, stack[open - 1])) < 0;)
			open--;
		for (i = 0; best < 0; i++)
			if (depth->wires[list[depth->is_backwards ? n - 1 - i : i]] >= 0)
				best = list[depth->is_backwards ? n - 1 - i : i];
		place(depth, best);
		stack[open++] = best;
	}
	free(stack);
}

/* Writes to `grown` the order by which the rule `balance` plans if none is named. */
void tried_order(const struct graph *graph, struct room *room, int *grown)
{
	int n = graph->switches, i, count, starts[TRIED_ROOTS], *list = room_for(n, sizeof *list);
	int *rank = room_for(n, sizeof *rank), *other = room_for(n, sizeof *other);
	struct depth depth = { graph, rank, 0, 0, room_for(n, sizeof(int)), room_for(n, sizeof(int)) };
	struct figures least, figures;

	list_by_keys(graph, list);
	for (i = 0; i < n; i++)
		rank[list[i]] = i;
	grow(graph, list, grown);
	least = trial_loads(room, grown);
	if (!are_even(graph, &least)) {
		count = find_starts(graph, list, starts);
		for (i = 0; i < 2 * count; i++) {
			depth.is_backwards = i >= count;
			list_by_depth(&depth, list, starts[i % count]);
			grow(graph, depth.found, other);
			figures = trial_loads(room, other);
			if (figures.most < least.most) {
				least = figures;
				memcpy(grown, other, n * sizeof *grown);
			}
		}
	}
	free(depth.wires);
	free(depth.found);
	free(other);
	free(rank);
	free(list);
}
