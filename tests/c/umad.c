/*
 * A stand-in for libibumad: a port whose packets go to the socket that the variable AGENTS numbers, where a test answers
 * each of them. A message there is the packet; one that comes has its status before it, 0 or that of a request which
 * comes back without an answer. The variable PORT_GUID has the port's GUID in hex digits.
 */
#include <endian.h>
#include <errno.h>
#include <poll.h>
#include <stdio.h>
#include <stdlib.h>
#include <string.h>
#include <unistd.h>
#include <infiniband/umad.h>

enum { STATUS = 4, HEAD = 64, PACKET = 256, PORT = 1, AGENT = 1, ACTIVE = 4, NO_LID = 0xffff };

static int agents(void)
{
	const char *number = getenv("AGENTS");

	return number ? atoi(number) : -1;
}

int umad_init(void)
{
	return 0;
}

int umad_get_cas_names(char names[][UMAD_CA_NAME_LEN], int most)
{
	if (most < 1 || agents() < 0)
		return 0;
	strcpy(names[0], "agents0");
	return 1;
}

int umad_get_port(const char *adapter, int number, umad_port_t *port)
{
	if ((adapter && strcmp(adapter, "agents0")) || (number && number != PORT))
		return -ENODEV;
	memset(port, 0, sizeof *port);
	strcpy(port->ca_name, "agents0");
	strcpy(port->link_layer, "InfiniBand");
	port->portnum = PORT;
	port->state = ACTIVE;
	if (getenv("PORT_GUID"))
		port->port_guid = htobe64(strtoull(getenv("PORT_GUID"), NULL, 16));
	return 0;
}

int umad_release_port(umad_port_t *port)
{
	(void) port;
	return 0;
}

int umad_open_port(const char *adapter, int number)
{
	(void) adapter, (void) number;
	return 0;
}

int umad_close_port(int port)
{
	return port;
}

int umad_register(int port, int class, int version, uint8_t rmpp, long methods[])
{
	(void) port, (void) class, (void) version, (void) rmpp, (void) methods;
	return AGENT;
}

int umad_unregister(int port, int agent)
{
	(void) port, (void) agent;
	return 0;
}

void *umad_get_mad(void *umad)
{
	return (char *) umad + HEAD;
}

int umad_status(void *umad)
{
	return *((uint8_t *) umad + STATUS);
}

ib_mad_addr_t *umad_get_mad_addr(void *umad)
{
	static ib_mad_addr_t sender = { .lid = NO_LID };

	(void) umad;
	return &sender;
}

int umad_get_fd(int port)
{
	(void) port;
	return agents();
}

int umad_get_issm_path(const char *adapter, int number, char *path, int room)
{
	(void) adapter, (void) number;
	return snprintf(path, room, "/dev/null") < 0;
}

int umad_set_pkey(void *umad, int index)
{
	(void) umad, (void) index;
	return 0;
}

int umad_set_addr(void *umad, int lid, int queue_pair, int level, int key)
{
	(void) umad, (void) lid, (void) queue_pair, (void) level, (void) key;
	return 0;
}

int umad_send(int port, int agent, void *umad, int length, int timeout_ms, int retries)
{
	(void) port, (void) agent, (void) timeout_ms, (void) retries;
	return write(agents(), umad_get_mad(umad), length) == length ? 0 : -EIO;
}

int umad_recv(int port, void *umad, int *length, int timeout_ms)
{
	struct pollfd file = { .fd = agents(), .events = POLLIN };
	uint8_t message[1 + PACKET];
	ssize_t count;

	(void) port;
	if (poll(&file, 1, timeout_ms) <= 0) {
		errno = ETIMEDOUT;
		return -ETIMEDOUT;
	}
	count = read(agents(), message, sizeof message);
	if (count != sizeof message || *length < PACKET) {
		errno = count < 0 ? errno : EIO;
		return -errno;
	}
	((uint8_t *) umad)[STATUS] = message[0];
	memcpy(umad_get_mad(umad), message + 1, PACKET);
	*length = PACKET;
	return AGENT;
}
