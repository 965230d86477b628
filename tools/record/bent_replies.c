/*
 * For tests: loaded before libumad, it bends replies that record or send receives, as the variable BEND says.
 *   pointer   answers over no hops come back with hop pointer 1
 *   status    PortInfo of port 2 is refused with status 0x001C
 *   near      the same, by nodes one hop away
 *   type      a node two hops away says that it is of type 9
 *   names     nodes one hop away and farther have the same name, with a quote and a control character
 *   unnamed   nodes one hop away do not give their names
 *   lanes     SL-to-VL maps of packets that leave by port 2 are refused with status 0x001C
 *   narrow    ports 2 carry only lanes 0 and 1
 *   single    ports 2 have only lane 0, and maps of packets that leave by them are refused as by `lanes`
 *   slow      each reply takes 100 milliseconds
 *   stop      the fifth Set comes with an interrupt
 *   other     the answer to the fifth Set has another first entry
 *   refuse    the fifth Set is refused with status 0x001C
 *   untrapped traps do not come
 * Each packet is appended to the file that the variable PACKETS names, as a line: `out` or `in`, and its hex digits.
 */
#define _GNU_SOURCE
#include <dlfcn.h>
#include <errno.h>
#include <signal.h>
#include <stdint.h>
#include <stdio.h>
#include <stdlib.h>
#include <string.h>
#include <unistd.h>
#include <infiniband/umad.h>

enum { SET = 2, TRAP = 5, FIFTH = 5, PACKET = 256 };

static int sets;
static uint64_t fifth;	/* its TransactionID */

static void keep_packet(const char *word, const uint8_t *packet)
{
	static FILE *file;
	const char *name = getenv("PACKETS");
	int i;

	if (!name)
		return;
	if (!file && !(file = fopen(name, "a")))
		abort();
	fprintf(file, "%s ", word);
	for (i = 0; i < PACKET; i++)
		fprintf(file, "%02x", packet[i]);
	fprintf(file, "\n");
	fflush(file);
}

int umad_send(int port, int agent, void *buffer, int length, int timeout_ms, int tries)
{
	int (*real)(int, int, void *, int, int, int) =
		(int (*)(int, int, void *, int, int, int)) dlsym(RTLD_NEXT, "umad_send");
	uint8_t *packet = umad_get_mad(buffer);
	const char *bend = getenv("BEND");

	keep_packet("out", packet);
	if (packet[3] == SET && ++sets == FIFTH) {
		memcpy(&fifth, packet + 8, sizeof fifth);
		if (bend && !strcmp(bend, "stop"))
			raise(SIGINT);
	}
	return real(port, agent, buffer, length, timeout_ms, tries);
}

static int is_fifth(const uint8_t *packet)
{
	return sets >= FIFTH && !memcmp(packet + 12, (uint8_t *) &fifth + 4, 4);
}

int umad_recv(int port, void *buffer, int *length, int timeout_ms)
{
	int (*real)(int, void *, int *, int) = (int (*)(int, void *, int *, int)) dlsym(RTLD_NEXT, "umad_recv");
	int agent = real(port, buffer, length, timeout_ms);
	uint8_t *packet = umad_get_mad(buffer);
	const char *bend = getenv("BEND");

	if (agent >= 0 && !umad_status(buffer))
		keep_packet("in", packet);
	if (agent < 0 || !bend)
		return agent;
	if (!strcmp(bend, "untrapped") && packet[1] == 1 && packet[3] == TRAP) {
		errno = EAGAIN;
		return -EAGAIN;
	}
	if (!strcmp(bend, "slow"))
		usleep(100000);
	if (!strcmp(bend, "pointer") && packet[7] == 0)
		packet[6] = 1;
	if (!strcmp(bend, "status") && packet[17] == 0x15 && packet[23] == 2)
		packet[5] = 0x1c;
	if (!strcmp(bend, "near") && packet[17] == 0x15 && packet[23] == 2 && packet[7] == 1)
		packet[5] = 0x1c;
	if (!strcmp(bend, "single") && packet[17] == 0x15 && packet[23] == 2)
		packet[64 + 37] = packet[64 + 43] = 1 << 4;
	if ((!strcmp(bend, "lanes") || !strcmp(bend, "single")) && packet[17] == 0x17 && packet[23] == 2)
		packet[5] = 0x1c;
	if (!strcmp(bend, "narrow") && packet[17] == 0x15 && packet[23] == 2)
		packet[64 + 43] = 2 << 4;
	if (!strcmp(bend, "type") && packet[17] == 0x11 && packet[7] == 2)
		packet[64 + 2] = 9;
	if (!strcmp(bend, "names") && packet[17] == 0x10 && packet[7] >= 1)
		strcpy((char *) packet + 64, "a\"b\n\xfc");
	if (!strcmp(bend, "unnamed") && packet[17] == 0x10 && packet[7] == 1)
		packet[5] = 0x0c;
	if (!strcmp(bend, "other") && is_fifth(packet))
		packet[64] ^= 1;
	if (!strcmp(bend, "refuse") && is_fifth(packet))
		packet[5] = 0x1c;
	return agent;
}
