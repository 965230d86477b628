/*
 * send: writes tables into an InfiniBand subnet by directed Sets, where they differ from what it holds.
 *
 * It first reads the subnet, as record does, and judges the tables. Then it sets LIDs, then blocks, then tops, each
 * kind once all Sets before it are answered. The manual page, send.1, has the options and exit statuses.
 */
#include <getopt.h>
#include <signal.h>
#include <stdlib.h>
#include <string.h>
#include <unistd.h>
#include "send.h"

const char *tool = "send";
struct choices choices;

static const char usage_text[] =
" [OPTION]... TABLES\n"
"Writes into the InfiniBand subnet behind a port what it holds otherwise than TABLES, a text in the form of `ibsm plan`:\n"
"LIDs, blocks of forwarding tables, tops. What it wrote is compared with each answer, and read back.\n"
"\n"
"  -d, --dry-run          write nothing, and print what would be written\n"
"  -m, --move-lids        ports may lose the LID that they have\n"
"  -H, --holes            there may be no way from some switch to some LID, as in tables of `ibsm next`\n"
"  -s, --silent           ports may be up where nothing tells what is joined to them; what is silent is left as it is\n"
"  -C, --ca NAME          the adapter, as mlx5_0; else the first with a port that is up\n"
"  -P, --port N           its port\n"
"  -n, --outstanding N    requests that are out at a time, 1 to 64 (4)\n"
"  -t, --timeout MS       what a reply may take, in milliseconds (500)\n"
"  -r, --retries N        how often a request is sent again, 0 to 100 (3)\n"
"  -k, --m-key KEY        management key (M_Key) of the subnet (0)\n"
"  -K, --m-keys FILE      keys of ports, in place of that of the subnet: lines 0xGUID 0xKEY, as in OpenSM's guid2mkey\n"
"  -q, --quiet            neither progress nor a summary\n"
"  -v, --verbose          name every request without a reply, not only the first 20\n"
"  -h, --help             this text\n"
"  -V, --version          the version\n"
"\n"
"TABLES may be -, which is standard input.\n"
"\n"
"The exit status is 0 where the subnet holds TABLES; 1 where some of it could not be written; 2 where the command line\n"
"is wrong; 3 where TABLES are refused, and nothing is written; 4 without a subnet, or where it or TABLES cannot be read;\n"
"5 without memory; 128 and the signal's number where one ended it.\n";

/* What to set, with the old LID or top and the new one. */
struct order {
	struct path path;
	uint64_t guid;
	uint32_t modifier;
	uint16_t attribute, was, will;
	uint8_t type, entries;
	uint8_t value[BLOCK];
};

static struct order *orders;
static size_t order_count, order_room;
static unsigned long written, faults;
static volatile sig_atomic_t stopped_by, is_writing;

static void on_signal(int number)
{
	if (!is_writing || stopped_by)
		_exit(SIGNALLED + number);
	stopped_by = number;
	stop_asking();
}

static const struct option words[] = {
	{ "dry-run", 0, 0, 'd' }, { "move-lids", 0, 0, 'm' }, { "holes", 0, 0, 'H' }, { "silent", 0, 0, 's' },
	{ "ca", 1, 0, 'C' }, { "port", 1, 0, 'P' }, { "outstanding", 1, 0, 'n' }, { "timeout", 1, 0, 't' },
	{ "retries", 1, 0, 'r' }, { "m-key", 1, 0, 'k' }, { "m-keys", 1, 0, 'K' },
	{ "quiet", 0, 0, 'q' }, { "verbose", 0, 0, 'v' }, { "help", 0, 0, 'h' }, { "version", 0, 0, 'V' }, { 0 }
};

static void take_option(int letter)
{
	if (take_shared_option(letter, optarg))
		return;
	switch (letter) {
	case 'd': choices.dry_run = 1; break;
	case 'm': choices.move_lids = 1; break;
	case 'H': choices.holes = 1; break;
	case 's': choices.silent = 1; break;
	case 'h': print_usage(stdout, usage_text); exit(WHOLE);
	case 'V': puts("ibsm-send " VERSION); exit(WHOLE);
	default: print_usage(stderr, usage_text); exit(USAGE);
	}
}

static char *parse(int count, char **texts)
{
	int letter;

	called = texts[0];
	while ((letter = getopt_long(count, texts, "dmHsC:P:n:t:r:k:K:qvhV", words, NULL)) != -1)
		take_option(letter);
	if (optind + 1 != count)
		take_option('?');
	if (options.m_keys)
		read_keys(options.m_keys);
	return texts[optind];
}

static struct order *add(const struct node *node, const struct path *path, uint16_t attribute, uint32_t modifier)
{
	struct order *order;

	if (order_count == order_room) {
		order_room = order_room ? 2 * order_room : 256;
		orders = more(orders, order_room, sizeof *orders);
	}
	order = &orders[order_count++];
	memset(order, 0, sizeof *order);
	order->path = *path;
	order->guid = node->guid;
	order->type = node->type;
	order->attribute = attribute;
	order->modifier = modifier;
	return order;
}

/*
 * Returns the LID of the subnet's manager, as this machine's port reports it, or its new one in TABLES; 0 if unknown.
 * The first node that a sweep finds is this machine's.
 */
static uint16_t manager_lid(const struct wanted *wanted)
{
	struct node *here = node_at(0);
	unsigned number, told = 0;
	size_t i;

	for (number = 0; number <= here->shape->ports; number++)
		if (here->shape->port[number].has_info && !told)
			told = get(here->shape->port[number].info + 18, 2);
	for (i = 0; told && i < wanted->range_count; i++) {
		struct port *port = port_of(find(wanted->ranges[i].guid), wanted->ranges[i].port);

		if (port && port->has_info && get(port->info + 16, 2) == told)
			return wanted->ranges[i].first;
	}
	return told;
}

/*
 * Sets the LID, the LMC and the manager's LID in PortInfo as it was read. Fields whose value must not be written back
 * as it was read get "no change".
 */
static void change_port(uint8_t *info, const struct range *range, uint16_t manager)
{
	unsigned lmc = 0;

	while ((1u << lmc) < range->last - range->first + 1u)
		lmc++;
	put(info + 16, 2, range->first);
	if (manager)
		put(info + 18, 2, manager);
	info[29] = 0;			/* LinkWidthEnabled */
	info[32] &= 0xf0;		/* PortState */
	info[33] = 0;			/* PortPhysicalState, LinkDownDefaultState */
	info[34] = (info[34] & 0xf8) | lmc;
	info[35] &= 0xf0;		/* LinkSpeedEnabled */
	info[51] &= 0x7f;		/* ClientReregister */
	info[63] &= 0xe0;		/* LinkSpeedExtEnabled */
}

static void order_lids(const struct wanted *wanted)
{
	uint16_t manager = manager_lid(wanted);
	struct order *order;
	size_t i;

	for (i = 0; i < wanted->range_count; i++) {
		const struct range *range = &wanted->ranges[i];
		struct node *node = find(range->guid);
		struct port *port = port_of(node, range->port);
		unsigned count;

		if (!port || !port->has_info)
			continue;
		count = 1u << (port->info[34] & 7);
		if (get(port->info + 16, 2) == range->first && count == range->last - range->first + 1u)
			continue;
		order = add(node, &port->path, PORT_INFO, range->port);
		order->was = get(port->info + 16, 2);
		order->will = range->first;
		memcpy(order->value, port->info, BLOCK);
		change_port(order->value, range, manager);
	}
}

/* Adds orders for the blocks that differ. A block above the held top was not read, and is always written. */
static void order_blocks(const struct wanted *wanted)
{
	uint32_t block;
	size_t i;
	int entry;

	for (i = 0; i < wanted->table_count; i++) {
		const struct table *table = &wanted->tables[i];
		struct node *node = find(table->guid);

		for (block = 0; !(node->lacks & 2) && block < table->blocks; block++) {
			const uint8_t *will = table->entries + BLOCK * block;
			const uint8_t *was = block <= node->top / BLOCK ? node->table + BLOCK * block : NULL;
			struct order *order;

			if (was && !memcmp(was, will, BLOCK))
				continue;
			order = add(node, &node->path, FORWARDING_TABLE, block);
			memcpy(order->value, will, BLOCK);
			for (entry = 0; entry < BLOCK; entry++)
				order->entries += !was || was[entry] != will[entry];
		}
	}
}

/* Adds orders for the tops that differ. PortStateChange stays, since only the manager clears it. */
static void order_tops(const struct wanted *wanted)
{
	struct order *order;
	size_t i;

	for (i = 0; i < wanted->table_count; i++) {
		const struct table *table = &wanted->tables[i];
		struct node *node = find(table->guid);

		if (node->lacks & 2 || node->top == table->top)
			continue;
		order = add(node, &node->path, SWITCH_INFO, 0);
		order->was = node->top;
		order->will = table->top;
		memcpy(order->value, node->shape->info, BLOCK);
		put(order->value + 6, 2, table->top);
		order->value[11] &= ~4;
	}
}

/* Returns whether an attribute has the value to set; of PortInfo and SwitchInfo only the changed fields count. */
static int is_as_ordered(const struct order *order, const uint8_t *value)
{
	if (order->attribute == FORWARDING_TABLE)
		return !memcmp(value, order->value, BLOCK);
	if (order->attribute == SWITCH_INFO)
		return get(value + 6, 2) == order->will;
	return get(value + 16, 2) == order->will && (value[34] & 7) == (order->value[34] & 7);
}

/* The order of the next answer. Answers come in the order of the requests. */
static size_t next_order;

static void take_answer(const struct request *request, uint8_t *reply)
{
	const struct order *order = &orders[next_order++];

	if (stopped_by && !reply)
		return;
	if (!is_good(request, reply)) {
		faults++;
	} else if (!is_as_ordered(order, reply + ATTRIBUTE)) {
		say_of(request, request->value ? "the answer is otherwise than what was set" :
		       "it is held otherwise than it was set");
		faults++;
	} else {
		written += request->value != NULL;
	}
	if (request->value && faults)
		stop_asking();	/* later orders may be worth nothing without it */
}

/* Sends the orders from `first` up to `last`, and waits for all answers; Sets stop at the first failure. */
static void send_orders(size_t first, size_t last, int is_set)
{
	struct request *request;
	size_t i;

	for (i = first; i < last; i++) {
		request = ask(&orders[i].path, orders[i].attribute, orders[i].modifier, orders[i].guid);
		request->type = orders[i].type;
		request->value = is_set ? orders[i].value : NULL;
	}
	next_order = first;
	ask_all(take_answer);
}

static void print_orders(size_t lids, size_t blocks)
{
	size_t i;

	for (i = 0; i < order_count; i++) {
		const struct order *order = &orders[i];
		unsigned long long guid = order->guid;

		if (order->attribute == PORT_INFO)
			printf("lid %016llx/%u %u > %u\n", guid, order->modifier, order->was, order->will);
		else if (order->attribute == SWITCH_INFO)
			printf("switch %016llx top %u > %u\n", guid, order->was, order->will);
		else
			printf("switch %016llx block %u entries %u\n", guid, order->modifier, order->entries);
	}
	printf("to write: %zu LIDs, %zu blocks, %zu tops\n", lids, blocks - lids, order_count - blocks);
	if (fflush(stdout))
		end(NO_FABRIC, "cannot write standard output");
}

static void write_and_read_back(size_t lids, size_t blocks)
{
	is_writing = 1;
	stage = "writes";
	send_orders(0, lids, 1);
	if (!faults && !stopped_by)
		send_orders(lids, blocks, 1);
	if (!faults && !stopped_by)
		send_orders(blocks, order_count, 1);
	is_writing = 0;
	if (stopped_by)
		end(SIGNALLED + stopped_by, "stopped: %lu of %zu Sets are answered, each of a whole block, LID or top", written,
		    order_count);
	if (faults)
		end(NOT_WHOLE, "NOT WRITTEN: %lu of %zu Sets are answered", written, order_count);
	stage = "reads back";
	send_orders(0, order_count, 0);
	if (faults)
		end(NOT_WHOLE, "NOT HELD: %lu of %zu that were set", faults, order_count);
}

static void read_subnet(void)
{
	size_t i, lacking = 0;

	stage = "reads";
	sweep(note_reply);
	if (!known_nodes())
		end(NO_FABRIC, "nothing answered, not even this machine's own port");
	read_tables();
	for (i = 0; i < known_nodes(); i++)
		lacking += node_at(i)->lacks != 0;
	if (lacking && choices.silent)
		say("%zu nodes did not answer all that was asked, and are left as they are", lacking);
}

int main(int count, char **texts)
{
	static struct wanted wanted;
	const char *path = parse(count, texts);
	size_t lids, blocks;
	double begun = now();

	signal(SIGINT, on_signal);
	signal(SIGTERM, on_signal);
	signal(SIGHUP, on_signal);
	signal(SIGPIPE, SIG_IGN);
	read_wanted(path, &wanted);
	open_port();
	read_subnet();
	judge(&wanted);
	order_lids(&wanted);
	lids = order_count;
	order_blocks(&wanted);
	blocks = order_count;
	order_tops(&wanted);
	clear_line();
	if (choices.dry_run)
		print_orders(lids, blocks);
	else
		write_and_read_back(lids, blocks);
	close_port();
	clear_line();
	if (!options.quiet && !choices.dry_run)
		say("%zu LIDs, %zu blocks, %zu tops are written and read back in %.2f s", lids, blocks - lids, order_count - blocks,
		    now() - begun);
	return WHOLE;
}
