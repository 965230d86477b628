/* What the parts of seat share: a port, and a process of `ibsm manage` that decides what goes out by it, and when. */
#ifndef SEAT_H
#define SEAT_H

#include <inttypes.h>
#include <limits.h>
#include <time.h>
#include "../record/record.h"

enum { SM_INFO = 0x20, MASTER = 3, HANDOVER = 1, NO_LID = 0xffff };
enum class { LID_ROUTED_CLASS = 0x01, ADMINISTRATION_CLASS = 0x03, DIRECTED_CLASS = 0x81 };
enum method { GET = 1, SET = 2, TRAP = 5, TRAP_REPRESS = 7, RESPONSE = 0x80 };
enum administration_method { GET_TABLE = 0x12, GET_TRACE_TABLE = 0x13, GET_MULTI = 0x14, DELETE = 0x15 };

struct seat_options {
	char *program, *status_file, *names_file, *sm_key, *lmc, *routing, *roots, *order;
	int priority, sweep_seconds, heavy_seconds, poll_ms, dry_run, partial, multicast, once;	/* no heavy_seconds: 0 */
	int child_mbytes, child_seconds;	/* what the process may take, 0 for as much as it likes */
};

/* Counts of what was carried since the start. */
struct carried {
	unsigned long sent, again, answered, given_up, late, requests, traps, repressed, pointers;
	unsigned long sets, hosts_answered, hosts_refused;
};

extern struct seat_options seat;
extern struct own_port own_port;
extern struct carried carried;

/* seat.c: says a line with the time of day. */
void note(enum level level, const char *format, ...) __attribute__((format(printf, 2, 3)));
/* Returns whether a signal has ended the program. */
int is_ended(void);
/* Tells the process the time if it wants to be told it by now. */
void tell_time_if_due(void);

/* notify.c: tells systemd a line, if it runs this program as a service that tells. */
void notify(const char *format, ...) __attribute__((format(printf, 1, 2)));
/* Tells systemd in time that the program runs, if it asks for that. */
void notify_alive(void);

/* program.c: returns the path of the program that stands beside seat or at the top of its checkout, or its mere name, to
   be looked for on the path. */
char *the_program(void);

/* A packet as it goes out or came. */
struct packet {
	uint16_t lid;	/* NO_LID if it goes by the path that it carries */
	uint8_t bytes[PACKET];
};

/* manager.c: the process that decides. */
/* Starts it. It numbers its sweeps above `newest`. */
void start_manager(uint32_t newest);
void stop_manager(void);
int manager_is_gone(void);
/* Writes a line to the process, behind the time. Sends the packets of its answer, and looks at its notes. */
void tell(const char *format, ...) __attribute__((format(printf, 1, 2)));
/* Asks the process what a word shows, and returns it, kept until the next line. */
const char *shown(const char *word);
/* Returns the time that the process is told, in milliseconds. It stands still while the process is waited for. */
unsigned long long clock_ms(void);
/* Returns when the process wants to be told the time next, or NEVER. */
unsigned long long wake_time(void);
#define NEVER ULLONG_MAX
/* Reads a packet's hex digits. */
void read_packet(const char *hex, uint8_t *bytes);

/* carry.c: packets. */
void open_seat(void);
void close_seat(void);
/* Has the port say that a manager is here. Others ask it then, so the process has to answer. */
void be_manager(void);
/* Has the port not say so any more. */
void be_no_manager(void);
/* Has the port say anew that a manager is here: its agent then sends trap 144, and the master sweeps. */
void announce_manager(void);
/* Waits, and drops what comes, until no request of an earlier process can be answered any more. */
void let_pass(void);
/* Writes a packet as hex digits, 2 * PACKET of them, and ends the text. */
void write_packet(const uint8_t *packet, char *hex);
/* Sends a packet that the process printed. */
void send_packet(const struct packet *packet);
/* Receives for `wait_ms` at most, and passes on what comes. */
void carry(int wait_ms);
/* Forgets the requests that are out. */
void drop_all(void);
/* Unanswered requests since a sweep began, as texts; at most MOST_SILENT are kept. */
enum { MOST_SILENT = 20, SILENT_TEXT = 120 };
void begin_silent(void);
size_t silent_requests(void);
const char *silent_request(size_t place);
/* Returns the path of such a request, or NULL if it goes by a LID. */
const struct path *silent_path(size_t place);
/* Notes a request without an answer, with its path in the form that smpquery -D takes. */
void note_silent(const uint8_t *packet);

/* Gives a request a number of its own, and the key of the port to which it goes. Returns the number. */
uint32_t number_request(struct packet *packet);
/* Sends a request that has these. */
void send_numbered(const struct packet *packet);
/* Returns whether a packet has the class, attribute and modifier of a request. */
int is_answer_to(const uint8_t *packet, const uint8_t *request);

/* light.c: sweeps that ask switches alone. */
/* Keeps a request that the process prints. */
void keep_light(const char *hex);
/* Begins a light sweep if one is due, or goes on with the one that runs. */
void sweep_lightly(void);
/* Takes an answer to a light sweep. Returns 0 if it is none. */
int take_light(uint8_t *packet);

/* administration.c: requests of hosts. */
/* Takes requests for subnet administration at a port. Returns a number less than 0 if another process has them. */
int open_administration(int umad);
void close_administration(int umad);
/* As master, sends the process's answer to a received request, or refuses it. */
void administer(int umad, uint8_t *buffer);

/* notes.c: what the process says that it did. */
/* Begins anew, for a new process. Returns the generation above which it numbers its sweeps. */
uint32_t begin_notes(void);
/* Looks at the notes of an answer, a line each: says them, writes the status file, and announces the manager. */
void heard_notes(const char *notes);
/* Prints the plan and ends, if one of these notes is that a sweep is over. */
void end_dry_run_if(const char *notes);
/* Returns whether the process is master, as far as it has told. */
int is_master(void);
/* Returns whether it is master, nothing is left to write, and it does not sweep, as far as it has told. */
int rests(void);
/* With --once, returns the exit status once the subnet is up or cannot be brought up, and before that -1. */
int status_of_once(void);
/* Notes a trap. */
void heard_trap(unsigned number, unsigned lid);
/* Counts a light sweep that found each switch as it was. */
void heard_light(void);
/* Looks, with --once, whether the master is waited for in vain. */
void look_at_time(void);
/* As master, hands over to the greatest master or standby that the last sweep saw, and waits until it takes over, but not
   for long. */
void leave(void);

/* others.c: the managers that the last sweep saw. */
struct other {
	char place[28], state[16];	/* the node's GUID and its port; a word, or a number if it is no state */
	uint64_t guid, key;
	unsigned priority;
};
/* Takes the process's answer to `managers`. What other_at and greatest_heard returned before is gone then. */
void read_others(const char *text);
/* Returns a manager, or NULL after the last one. */
const struct other *other_at(size_t place);
uint64_t own_key(void);
/* Returns whether a manager wins over this one. */
int wins(const struct other *other);
/* Returns the greatest manager that the process hears and that is in one of two states, or NULL. */
const struct other *greatest_heard(const char *state, const char *or_state);

/* changes.c: what a writing changes, and where a path leads. */
/* Reads the first line of a text as sscanf does. That looks for the end of the text at each call, which takes seconds in
   all for the lines of a large subnet. */
int scan_line(const char *text, const char *format, ...) __attribute__((format(scanf, 2, 3)));
/* Reads a node name map, and ends if it is none. */
void read_name_map(const char *path);
/* Writes a node's name, or its GUID if the map does not have it. */
void print_node(char *text, size_t room, uint64_t guid);
/* Returns a manager's GUID, behind the name of its node if the map has that. The next call's text takes its place. */
const char *called_as(const struct other *other);
/* Keeps the links of a text of facts, and which node has the seat's port, for places. */
void read_places(const char *facts);
/* Writes the place to which a path leads, behind ": ": the last node on the way that is known, and the port by which the
   path goes on. Writes nothing if there is no path, or not even the first node is known. */
void print_place(char *text, size_t room, const struct path *path);
/* Keeps the cables of a text of facts. */
void note_cables(const char *facts);
/* Notes why a plan is written, how many cables are otherwise than those that are kept, and how many entries differ. */
void note_changes(const char *why, const char *old, const char *new, const char *facts);

/* status.c */
struct standing {
	const char *state;
	uint32_t generation;
	time_t sweep_began, sweep_ended, written_at, state_since;
	unsigned long unanswered, silent, too_far, sweeps, light_sweeps, writings;
	int is_whole, is_written, is_settled;
	size_t lids, switches;
};
void write_status(const struct standing *status);

#endif
