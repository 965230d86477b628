/* What the parts of send share: what the subnet is and holds, and the tables that it is to hold. */
#ifndef SEND_H
#define SEND_H

#include "record.h"

enum { MOST_PORTS = 254, NO_WAY = 255, GREATEST_LID = 0xbfff };

/* A port of a node: all ports of a switch, and those of an adapter that were reached. */
struct port {
	struct path path;	/* the path by which it is asked and set */
	uint64_t guid;		/* of an end port; 0 if unknown */
	uint64_t far_guid;	/* the port at the far end; far_port is 0 if unknown */
	uint8_t far_port;
	uint8_t has_info;
	uint8_t info[BLOCK];	/* PortInfo as it was read */
};

struct shape {
	uint8_t ports;
	uint8_t has_info;
	uint8_t info[BLOCK];	/* SwitchInfo as it was read */
	struct port port[];	/* from port 0 on */
};

/* The LIDs of an end port in TABLES. */
struct range {
	uint64_t guid;
	uint16_t first, last;
	uint8_t port;
};

/* A switch in TABLES: its entries in whole blocks, up to its top. */
struct table {
	uint64_t guid;
	uint16_t top;
	uint32_t blocks;
	uint8_t *entries;
};

struct wanted {
	struct range *ranges;
	struct table *tables;
	size_t range_count, table_count;
	uint32_t greatest;	/* the greatest LID, or 0 */
	uint16_t shared;	/* a LID that two lines give, or that is out of order, or 0 */
};

struct choices {
	int dry_run, move_lids, holes, silent;
};

extern struct choices choices;

/* subnet.c: what replies say, for judging and setting. */
void note_reply(const struct request *request, const uint8_t *reply);
/* Returns the first fact of which replies say different things, or NULL. */
const char *what_is_disputed(void);
struct port *port_of(const struct node *node, uint8_t port);
int is_up(const struct port *port);
/* Returns the far end of the cable in a port, and its node, if both ends report it and are up, or else NULL. */
struct port *across(const struct node *node, uint8_t port, struct node **far);

/* wanted.c: TABLES, or why they are refused. */
void read_wanted(const char *name, struct wanted *wanted);
const struct table *table_of(const struct wanted *wanted, uint64_t guid);
const struct range *range_of(const struct wanted *wanted, uint64_t guid, uint8_t port);

/* judge.c: ends with status 3 where TABLES must not be written. */
void judge(const struct wanted *wanted);
int is_end_port(const struct node *node, uint8_t port);

#endif
