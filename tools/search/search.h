/* The search for an order of switches: the graph that it reads, orders, loads of channels, and trials. */
#ifndef SEARCH_H
#define SEARCH_H

#include <stddef.h>
#include <stdint.h>

enum { WHOLE = 0, USAGE = 2, REFUSED = 3, UNWRITTEN = 4, NO_MEMORY = 5 };

/* A wire between switches, taken from one switch to another. */
struct channel {
	int from, port, to;
};

/* Switches have indices in ascending order of GUID. */
struct graph {
	int switches, channels, adapters;
	int is_last; /* whether switch 0 comes after all that an order names: a text cannot name its GUID, which is 0 */
	struct channel *channel; /* by switch, then by port */
	int *first; /* of each switch its first channel; then the number of channels */
	int *adapters_at;
	int *first_adapter; /* of each switch the number of adapters at switches before it */
	int *lids; /* of each adapter the number of LIDs that take its choices */
	int *number; /* of each switch the number of its first adapter, for first choices */
	int *level, *weight; /* of each switch its level, and the digit weight of that */
	int is_uneven; /* whether any adapter's choices serve more or fewer LIDs than one */
	int *start; /* the switches in the order to begin with, or NULL */
};

/* How busy channels are by an order: what the busiest carries, and sums of loads and of their squares. */
struct figures {
	uint64_t most, sum;
	double squares;
};

/* What loads are counted in. Everything is by position in the order that is judged. */
struct room;

/* An order, and how busy channels are by it. */
struct order {
	int *order;
	struct figures figures;
};

/* What is asked for, the best order so far, and how far the search is. */
struct search {
	const struct graph *graph;
	uint64_t seed;
	int threads;
	double seconds;
	unsigned long trials; /* of each thread; if 0, the seconds count */
	uint64_t bound; /* no order can be better than this */
	struct order best;
	int leg;
	double began, seconds_of_leg;
	unsigned long trials_of_leg;
};

void *room_for(size_t count, size_t size);
void end(int status, const char *format, ...) __attribute__((format(printf, 2, 3), noreturn));

void read_graph(struct graph *graph);
void number_adapters(struct graph *graph, const int *ports);
/* Writes to `far` the number of wires from switch `start` to each switch, or -1 if no wires lead there. */
void distances(const struct graph *graph, int start, int *far);

void grow(const struct graph *graph, const int *list, int *grown);
void tried_order(const struct graph *graph, struct room *room, int *grown);

struct room *room_of(const struct graph *graph);
void free_room(struct room *room);
struct figures trial_loads(struct room *room, const int *order);
struct figures balanced_loads(struct room *room, const int *order);
int are_even(const struct graph *graph, const struct figures *figures);
/* The loads of channels that were computed last: by trials or choices, and as an audit counts them. */
const uint64_t *loads_of(const struct room *room);
const uint64_t *audited(const struct room *room);

uint64_t least_possible(const struct graph *graph);

void stop_search(int number);
unsigned long improve(struct search *search);

#endif
