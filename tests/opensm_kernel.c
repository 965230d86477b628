/*
 * A library to load before OpenSM's over ibsim, for what OpenSM needs and ibsim lacks:
 *   - A request without an answer is sent again, and then comes back with the status ETIMEDOUT, as from Linux.
 *     Otherwise OpenSM waits for good for a manager that is stopped.
 *   - Traps of OpenSM are repressed: the next receive returns the last trap, with the method TrapRepress. OpenSM waits
 *     for that before it sweeps again, and ibsim drops each TrapRepress.
 *   - If the variable LOSE_TRAPS is set, traps of others do not reach OpenSM.
 */
#define _GNU_SOURCE
#include <dlfcn.h>
#include <errno.h>
#include <pthread.h>
#include <stdint.h>
#include <stdlib.h>
#include <string.h>
#include <time.h>
#include <infiniband/umad.h>

enum { PACKET = 256, ROUTED_CLASS = 1, TRAP = 5, TRAP_REPRESS = 7, RESPONSE = 0x80, MOST = 1024, LOOK_MS = 20 };
enum { BUFFER = sizeof(ib_user_mad_t) + PACKET };

/* A request that waits for its answer. */
struct request {
	_Alignas(8) uint8_t buffer[BUFFER];
	int agent, timeout_ms, again;	/* again: how often it may be sent once more; agent: -1 if there is no request */
	double deadline;
};

static pthread_mutex_t lock = PTHREAD_MUTEX_INITIALIZER;
static struct request requests[MOST], trap = { .agent = -1 };
static int count;

static int really_send(int port, const struct request *request)
{
	static int (*real)(int, int, void *, int, int, int);
	_Alignas(8) uint8_t buffer[BUFFER];

	if (!real)
		real = dlsym(RTLD_NEXT, "umad_send");
	memcpy(buffer, request->buffer, BUFFER);
	return real(port, request->agent, buffer, PACKET, request->timeout_ms, 0);
}

static double now(void)
{
	struct timespec time;

	clock_gettime(CLOCK_MONOTONIC, &time);
	return time.tv_sec + time.tv_nsec * 1e-9;
}

static uint8_t *packet_of(const struct request *request)
{
	return umad_get_mad((void *) request->buffer);
}

int umad_send(int port, int agent, void *umad, int length, int timeout_ms, int retries)
{
	struct request request = { .agent = agent, .timeout_ms = timeout_ms, .again = retries };
	const uint8_t *packet;

	memcpy(request.buffer, umad, sizeof(ib_user_mad_t) + (length < PACKET ? length : PACKET));
	packet = packet_of(&request);
	request.deadline = now() + timeout_ms / 1000.0;
	pthread_mutex_lock(&lock);
	if (packet[1] == ROUTED_CLASS && packet[3] == TRAP)
		trap = request;
	else if (timeout_ms > 0 && !(packet[3] & RESPONSE) && count < MOST)
		requests[count++] = request;
	pthread_mutex_unlock(&lock);
	return really_send(port, &request);
}

/* Returns a request to its sender, with a status. */
static int give_back(const struct request *request, int status, void *umad, int *length)
{
	memcpy(umad, request->buffer, BUFFER);
	((ib_user_mad_t *) umad)->status = status;
	((ib_user_mad_t *) umad)->agent_id = request->agent;
	*length = PACKET;
	return request->agent;
}

/* Looks for something to give back. Returns the agent that gets it, or -1. Sends again what is late. */
static int take_late(int port, void *umad, int *length)
{
	int i, agent = -1;

	pthread_mutex_lock(&lock);
	if (trap.agent >= 0) {
		packet_of(&trap)[3] = TRAP_REPRESS;
		agent = give_back(&trap, 0, umad, length);
		trap.agent = -1;
	}
	for (i = 0; i < count && agent < 0; i++) {
		if (requests[i].deadline > now())
			continue;
		if (requests[i].again--) {
			requests[i].deadline = now() + requests[i].timeout_ms / 1000.0;
			really_send(port, &requests[i]);
		} else {
			agent = give_back(&requests[i], ETIMEDOUT, umad, length);
			requests[i--] = requests[--count];
		}
	}
	pthread_mutex_unlock(&lock);
	return agent;
}

/* Takes the request that a packet answers off the list. Returns whether OpenSM is to get the packet. */
static int is_for_opensm(void *umad)
{
	const uint8_t *packet = umad_get_mad(umad);
	int i, is_known = !(packet[3] & RESPONSE);

	pthread_mutex_lock(&lock);
	for (i = 0; i < count && !is_known; i++)
		if (!memcmp(packet_of(&requests[i]) + 12, packet + 12, 4)) {
			requests[i] = requests[--count];
			is_known = 1;
		}
	pthread_mutex_unlock(&lock);
	return is_known && !(getenv("LOSE_TRAPS") && packet[1] == ROUTED_CLASS && packet[3] == TRAP);
}

int umad_recv(int port, void *umad, int *length, int timeout_ms)
{
	static int (*real)(int, void *, int *, int);
	double end = now() + timeout_ms / 1000.0;
	int agent, room = *length, wait;

	if (!real)
		real = dlsym(RTLD_NEXT, "umad_recv");
	for (;;) {
		agent = room >= PACKET ? take_late(port, umad, length) : -1;
		if (agent >= 0)
			return agent;
		*length = room;
		wait = timeout_ms >= 0 && timeout_ms < LOOK_MS ? timeout_ms : LOOK_MS;
		agent = real(port, umad, length, wait);
		if (agent >= 0 && is_for_opensm(umad))
			return agent;
		if (timeout_ms >= 0 && now() >= end)
			return agent < 0 ? agent : -ETIMEDOUT;
	}
}
