/* Trials of orders by simulated annealing, in legs. In each, every thread goes its own way from the best order so
   far, by random numbers of its own. Legs take turns: in one, orders are judged by their trial loads, in the next
   one by the loads that an audit tells, which takes longer. */
#include <math.h>
#include <pthread.h>
#include <stdatomic.h>
#include <stdio.h>
#include <stdlib.h>
#include <string.h>
#include <time.h>
#include "search.h"

/* LEGS is even. NEAR is by how many positions most switches are moved at most. Of TRIALS_PER_EXACT trials one goes
   by what an audit tells. */
enum { LEGS = 4, NEAR = 5, TRIALS_PER_EXACT = 16 };
/* With more adapters times switches there is one leg alone, by trial loads. */
#define MOST_EXACT 3e5
/* The temperature at first, as a part of what is judged, by trial loads and by those of an audit, with at most MANY
   switches. With more, a move changes less of what is judged. */
static const double heat[] = { 0.003, 0.002 };
#define MANY 100.0
/* In a leg by trial loads, what an audit tells is computed if these are lower than of the last such order by this. */
#define BETTER 0.99
/* Seconds between lines of progress, and between looks whether threads have ended. */
#define TOLD 0.5
#define LOOK 0.02

struct thread {
	struct search *search;
	struct room *room;
	pthread_t id;
	uint64_t random;
	int *now, *next, *list; /* orders, and a list from which one grows */
	int is_exact;
	double energy;
	struct order best;
	atomic_ulong most; /* of the best so far, for progress */
};

static atomic_int is_stopped, ended;
static atomic_ulong trials;

void stop_search(int number)
{
	(void)number;
	is_stopped = 1;
}

static double seconds(void)
{
	struct timespec time;

	clock_gettime(CLOCK_MONOTONIC, &time);
	return time.tv_sec + time.tv_nsec / 1e9;
}

/* Returns the next random number (splitmix64). */
static uint64_t drawn(struct thread *thread)
{
	uint64_t bits = thread->random += 0x9e3779b97f4a7c15;

	bits = (bits ^ bits >> 30) * 0xbf58476d1ce4e5b9;
	bits = (bits ^ bits >> 27) * 0x94d049bb133111eb;
	return bits ^ bits >> 31;
}

/* Returns a random number over 0 and at most 1. */
static double drawn_part(struct thread *thread)
{
	return ((drawn(thread) >> 11) + 1) * 0x1p-53;
}

static int is_less(const struct figures *one, const struct figures *other)
{
	return one->most < other->most || (one->most == other->most && one->squares < other->squares);
}

/* Returns a mean of loads in which the busiest channels count most: that of the 16th powers. */
static double energy_of(const struct graph *graph, const uint64_t *loads, uint64_t most)
{
	double sum = 0, power;
	int c, i;

	for (c = 0; c < graph->channels; c++) {
		power = (double)loads[c] / most;
		for (i = 0; i < 4; i++)
			power *= power;
		sum += power;
	}
	return most * pow(sum, 1.0 / 16);
}

/* Computes the loads of an order, and notes the order if they are the best so far. */
static struct figures note(struct thread *thread, const int *order)
{
	struct figures figures = balanced_loads(thread->room, order);

	if (is_less(&figures, &thread->best.figures)) {
		thread->best.figures = figures;
		memcpy(thread->best.order, order, thread->search->graph->switches * sizeof *order);
		thread->most = figures.most;
	}
	return figures;
}

static double judge(struct thread *thread, const int *order)
{
	struct figures figures = thread->is_exact ? note(thread, order) : trial_loads(thread->room, order);
	const uint64_t *loads = thread->is_exact ? audited(thread->room) : loads_of(thread->room);

	return figures.most ? energy_of(thread->search->graph, loads, figures.most) : 0;
}

/* Draws an order: the one that grows if one switch of the current order is moved, mostly by a few positions. */
static void draw(struct thread *thread)
{
	int n = thread->search->graph->switches, from = drawn(thread) % n, to = drawn(thread) % n, *list = thread->list;

	if (drawn(thread) % 3) {
		to = from + (int)(drawn(thread) % (2 * NEAR + 1)) - NEAR;
		to = to < 0 ? 0 : to >= n ? n - 1 : to;
	}
	memcpy(list, thread->now, n * sizeof *list);
	if (from < to)
		memmove(list + from, list + from + 1, (to - from) * sizeof *list);
	else
		memmove(list + to + 1, list + to, (from - to) * sizeof *list);
	list[to] = thread->now[from];
	grow(thread->search->graph, list, thread->next);
}

/* Returns what part of a leg is over after `done` trials of it. If no order can be better, a thread ends; if the
   search ends by time, all do. */
static double part_over(const struct thread *thread, unsigned long done)
{
	const struct search *search = thread->search;
	int is_best = thread->best.figures.most <= search->bound;

	if (is_best && !search->trials)
		is_stopped = 1;
	if (is_best || is_stopped)
		return 1;
	if (search->trials)
		return done < search->trials_of_leg ? (double)done / search->trials_of_leg : 1;
	return search->seconds > 0 ? (seconds() - search->began) / search->seconds_of_leg : 1;
}

static void *go_leg(void *argument)
{
	struct thread *thread = argument;
	struct search *search = thread->search;
	size_t size = search->graph->switches * sizeof(int);
	double part, energy, least, heated = heat[search->leg % 2] * fmin(1, MANY / search->graph->switches);
	unsigned long done = 0;
	int *other;

	memcpy(thread->now, search->best.order, size);
	thread->energy = least = judge(thread, thread->now);
	for (; (part = part_over(thread, done)) < 1; done++, trials++) {
		draw(thread);
		energy = judge(thread, thread->next);
		if (energy > thread->energy * (1 - heated * (1 - part) * log(drawn_part(thread))))
			continue;
		other = thread->now;
		thread->now = thread->next;
		thread->next = other;
		thread->energy = energy;
		if (!thread->is_exact && energy < BETTER * least) {
			least = energy;
			note(thread, thread->now);
		}
	}
	if (!thread->is_exact)
		note(thread, thread->now);
	ended++;
	return NULL;
}

/* Waits until all threads have ended, and prints how far they are. */
static void follow(const struct search *search, const struct thread *threads)
{
	struct timespec pause = { 0, LOOK * 1e9 };
	double told = seconds();
	uint64_t most;
	int i;

	while (ended < search->threads) {
		nanosleep(&pause, NULL);
		if (seconds() - told < TOLD)
			continue;
		told = seconds();
		for (most = search->best.figures.most, i = 0; i < search->threads; i++)
			if (threads[i].most < most)
				most = threads[i].most;
		printf("at %lu %lu\n", (unsigned long)trials, (unsigned long)most);
		fflush(stdout);
	}
}

static void begin_thread(struct search *search, struct thread *thread, int number)
{
	size_t n = search->graph->switches;

	if (!thread->room) {
		thread->search = search;
		thread->room = room_of(search->graph);
		thread->now = room_for(n, sizeof(int));
		thread->next = room_for(n, sizeof(int));
		thread->list = room_for(n, sizeof(int));
		thread->best.order = room_for(n, sizeof(int));
	}
	thread->random = search->seed;
	thread->random = drawn(thread) + number;
	thread->random = drawn(thread) + search->leg;
	thread->is_exact = search->leg % 2;
	thread->best.figures = search->best.figures;
	thread->most = search->best.figures.most;
	memcpy(thread->best.order, search->best.order, n * sizeof(int));
}

static void run_threads(struct search *search, struct thread *threads)
{
	int i;

	ended = 0;
	for (i = 0; i < search->threads; i++)
		begin_thread(search, &threads[i], i);
	for (i = 0; i < search->threads; i++)
		if (pthread_create(&threads[i].id, NULL, go_leg, &threads[i]))
			end(NO_MEMORY, "out of memory for threads");
	follow(search, threads);
	for (i = 0; i < search->threads; i++)
		pthread_join(threads[i].id, NULL);
}

/* Goes a leg, and notes the best order of all threads. */
static void run_leg(struct search *search, struct thread *threads)
{
	int i;

	run_threads(search, threads);
	for (i = 0; i < search->threads; i++)
		if (is_less(&threads[i].best.figures, &search->best.figures)) {
			search->best.figures = threads[i].best.figures;
			memcpy(search->best.order, threads[i].best.order, search->graph->switches * sizeof(int));
		}
}

/* Improves search->best until the time or the number of trials is over, or a signal comes. Returns the number of
   trials. */
unsigned long improve(struct search *search)
{
	struct thread *threads = room_for(search->threads, sizeof *threads);
	int legs = (double)search->graph->adapters * search->graph->switches > MOST_EXACT ? 1 : LEGS;
	unsigned long exact = legs > 1 ? search->trials / TRIALS_PER_EXACT : 0;

	for (search->leg = 0; search->leg < legs; search->leg++) {
		if (is_stopped || search->best.figures.most <= search->bound)
			break;
		search->began = seconds();
		search->seconds_of_leg = search->seconds / legs;
		search->trials_of_leg = (search->leg % 2 ? exact : search->trials - exact) / (legs > 1 ? legs / 2 : 1);
		run_leg(search, threads);
	}
	return trials;
}
