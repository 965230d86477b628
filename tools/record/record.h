/* What the parts of record and send share. Numbers in packets have their most significant byte first. */
#ifndef RECORD_H
#define RECORD_H

#include <stddef.h>
#include <stdint.h>
#include <stdio.h>

enum { NODE_DESCRIPTION = 0x10, NODE_INFO = 0x11, SWITCH_INFO = 0x12, PORT_INFO = 0x15, LANE_TABLE = 0x17 };
enum { FORWARDING_TABLE = 0x19, MULTICAST_TABLE = 0x1b };
enum { ALONE = 16 };	/* a port has only data lane 0, and no SL-to-VL map */
enum context { START, VIA, ABOUT };
enum node_type { ADAPTER = 1, SWITCH = 2, ROUTER = 3 };
enum { MOST_HOPS = 63, MOST_OUT = 64, PACKET = 256, ATTRIBUTE = 64, BLOCK = 64 };
enum status { WHOLE = 0, NOT_WHOLE = 1, USAGE = 2, REFUSED = 3, NO_FABRIC = 4, NO_MEMORY = 5, SIGNALLED = 128 };

/* A directed route; port[1] is the sender's own port. */
struct path {
	uint8_t hops;
	uint8_t port[MOST_HOPS + 1];
};

struct request {
	struct path path;
	uint16_t attribute;
	uint32_t modifier;
	uint8_t context, via_port;
	uint64_t guid;		/* the node that is asked about, or the one before the last hop */
	uint8_t arrival, type;	/* of the node that is asked about: the port that was reached, and its type */
	const uint8_t *value;	/* 64 bytes of a Set, which must stay in place until it is answered; NULL for a Get */
};

struct options {
	char *adapter, *file, *tables, *names, *lanes, *trees, *after, *m_keys;
	int port, timeout_ms, tries, outstanding, quiet, verbose, partial, levels, adapters;
	uint32_t generation;
	uint64_t m_key;
};

struct counts {
	unsigned long sent, again, replies, kept, silent, left_out, too_far, pointers;
};

extern struct options options;
extern struct counts counts;
extern const char *tool;	/* the name under which it speaks */
extern const char *called;	/* the first word of its command line */
extern const char *stage;	/* what it does now, to show as progress */

/* Levels of lines on standard error, as syslog has them. */
enum level { ERROR = 3, WARNING = 4, NOTICE = 5, INFO = 6 };

/* common.c: says why, removes the files that were begun, and ends. */
void end(int status, const char *format, ...) __attribute__((noreturn, format(printf, 2, 3)));
void say(const char *format, ...) __attribute__((format(printf, 1, 2)));
void say_at(enum level level, const char *format, ...) __attribute__((format(printf, 2, 3)));
void clear_line(void);
void *more(void *old, size_t count, size_t size);
void say_of(const struct request *request, const char *what);
void progress(size_t nodes, size_t waiting);
double now(void);
uint64_t number_in(const char *text, const char *what, uint64_t least, uint64_t most);
void print_usage(FILE *file, const char *text);
/* Takes an option that the tools share. Returns 0 if it is not one. */
int take_shared_option(int letter, const char *text);
uint64_t get(const uint8_t *bytes, int count);
void put(uint8_t *bytes, int count, uint64_t value);

/* keys.c: management keys (M_Keys). A path's ports are those that it leaves by, the first one this machine's. */
/* Reads the keys of ports by their GUIDs, or ends. */
void read_keys(const char *path);
/* Notes that a path reaches the port with a GUID. */
void note_reached(const uint8_t *port, uint8_t hops, uint64_t guid);
/* Notes that the port that a path reaches has 2^lmc LIDs, from `first` on, or none if that is 0. */
void note_lids(const uint8_t *port, uint8_t hops, uint16_t first, unsigned lmc);
/* Returns the key of the port that a path or a LID was last seen to reach, or that of all if it has none of its own. */
uint64_t key_of_path(const uint8_t *port, uint8_t hops);
uint64_t key_of_lid(uint16_t lid);

/* port.c: the port of this machine that the options name, or the first that is up. */
struct own_port {
	char name[64], adapter[32];
	uint64_t guid;
	int number;
};
/* Opens the port and returns libibumad's number for it, or ends. */
int open_own_port(struct own_port *port);

/* ask.c: requests, and their replies in the order of the requests. */
void open_port(void);
void close_port(void);
int opened_port(void);	/* libibumad's number for the port */
struct request *ask(const struct path *path, uint16_t attribute, uint32_t modifier, uint64_t guid);
size_t asked_and_waiting(void);
/* Sends all requests, and those that `take` adds; a reply is NULL if none came. */
void ask_all(void (*take)(const struct request *request, uint8_t *reply));
/* Stops sending: waiting requests do not go out. A signal handler may call it. */
void stop_asking(void);

/* report.c: files that are whole or absent. */
struct whole_file {
	FILE *file;
	char *name, *temporary;
	char *text;	/* the text of standard output, with its size */
	size_t size;
};
void begin_file(struct whole_file *file, char *name);
void commit_file(struct whole_file *file);
void remove_begun_files(void);
const char *fault_of(const struct request *request, const uint8_t *reply);
void keep(struct whole_file *file, const struct request *request, const uint8_t *reply);

/* sweep.c */
struct lid {
	uint16_t lid;
	uint64_t guid;
	uint8_t port, lmc;	/* it has 2^lmc LIDs, from lid on */
};
struct node {
	uint64_t guid;
	uint8_t type, ports;
	struct path path;	/* the first path that reached it */
	uint16_t top;		/* a switch's top, and its table in whole blocks up to there */
	uint8_t *table;
	uint16_t group_room, group_top;	/* for how many groups a switch has room, and its greatest one, if it tells that */
	uint16_t *groups;	/* by group from C000 on, the ports to which a switch copies it, as masks of 16 */
	uint8_t lacks;		/* a missing reply: 1 about a port, 2 about its table, 4 about its lanes, 8 about groups */
	uint8_t asked[256];	/* an adapter's ports whose PortInfo was asked */
	uint8_t *name;		/* ends with 0; NULL if it was not asked for or given */
	int is_shared;		/* another node has this name too */
	struct shape *shape;	/* what send knows of it */
	uint8_t *carries;	/* by port of a switch: how many lanes of data it carries, 0 if it is not up; or ALONE */
	uint8_t *maps;		/* the lane of each level, from port 0 and each port that is up to each port that is up */
};
/* Asks all nodes, and passes each reply that is taken to `seen`. */
void sweep(void (*seen)(const struct request *request, const uint8_t *reply));
size_t known_nodes(void);
struct node *node_at(size_t place);
struct node *find(uint64_t guid);
/* Returns whether there is a reply that ibsm takes, or says why not. */
int is_good(const struct request *request, uint8_t *reply);
/* Reads the forwarding tables. Returns 0 if a reply about a known node is missing. */
int read_tables(void);
void print_tables(FILE *file);
/* Asks each node for its name; a silent node has none. */
void read_names(void);
void print_names(FILE *file);
/* Sorts the nodes and the LIDs, so none is found by its GUID afterwards. */
void sort_found(void);
size_t known_lids(void);
const struct lid *lid_at(size_t place);
/* The LID and the level by which the subnet manager of this machine's port is reached; 0 if none is known. */
uint16_t lid_of_manager(void);
uint8_t level_of_manager(void);

/* lanes.c: the SL-to-VL maps of switches. Returns 0 if a reply is missing. */
int read_lanes(void);
void print_lanes(FILE *file);

/* trees.c: the multicast forwarding tables of switches. Returns 0 if a reply is missing. */
int read_trees(void);
void print_trees(FILE *file);

/* levels.c: the service levels that the subnet administration gives. Returns 0 if an answer is missing. */
int read_levels(void);
void print_levels(FILE *file);

/* names.c */
void print_name(FILE *file, uint64_t guid, const uint8_t *name, int is_shared);

/* generation.c: returns the newest generation of a recording or a store file, including its floor; 0 if it has none. */
uint32_t newest_in(const char *name);

#endif
