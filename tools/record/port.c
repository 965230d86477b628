/* The port of this machine that sends requests. */
#include <endian.h>
#include <errno.h>
#include <string.h>
#include <infiniband/umad.h>
#include "record.h"

/* Chooses the port of the options if it can carry requests. */
static void choose(struct own_port *own)
{
	umad_port_t port;

	if (umad_get_port(options.adapter, options.port, &port))
		end(NO_FABRIC, "there is no InfiniBand port%s%s%s; `ibstat` lists those there are",
		    options.adapter ? " of adapter " : "", options.adapter ? options.adapter : "",
		    options.port ? " with that number" : "");
	snprintf(own->adapter, sizeof own->adapter, "%s", port.ca_name);
	snprintf(own->name, sizeof own->name, "%s port %d", port.ca_name, port.portnum);
	own->number = port.portnum;
	own->guid = be64toh(port.port_guid);
	if (port.link_layer[0] && strcmp(port.link_layer, "InfiniBand") && strcmp(port.link_layer, "IB"))
		end(NO_FABRIC, "%s is %s, not InfiniBand", own->name, port.link_layer);
	if (port.state == 1)
		end(NO_FABRIC, "%s is down, with no fabric behind it", own->name);
	umad_release_port(&port);
}

int open_own_port(struct own_port *own)
{
	char adapters[UMAD_MAX_DEVICES][UMAD_CA_NAME_LEN];
	int umad;

	if (umad_init() < 0 || umad_get_cas_names(adapters, UMAD_MAX_DEVICES) <= 0)
		end(NO_FABRIC, "this machine has no InfiniBand devices");
	choose(own);
	umad = umad_open_port(options.adapter, options.port);
	if (umad == -EACCES || umad == -EPERM)
		end(NO_FABRIC, "cannot open %s: %s (only root may, mostly)", own->name, strerror(-umad));
	if (umad < 0)
		end(NO_FABRIC, "cannot open %s: %s", own->name, strerror(-umad));
	return umad;
}
