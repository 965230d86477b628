/* What a writing changes, for the log: cables that are gone or new, and entries. And where a path leads. Nodes are called
   by a node name map. */
#include <errno.h>
#include <stdarg.h>
#include <stdlib.h>
#include <string.h>
#include "seat.h"

enum { LONGEST_NAME = 128, LONGEST_LINE = 512 };

struct named {
	uint64_t guid;
	char name[LONGEST_NAME];
};

struct link {
	uint64_t guid, far;
	unsigned port, far_port;
};

struct links {
	struct link *all;
	size_t count, room;
};

static struct named *names;
static size_t name_count;
static struct links before, after, known;
static uint64_t own_node;	/* the GUID of the node of the seat's port, or 0 if that is not known */

static int by_guid(const void *one, const void *other)
{
	uint64_t a = ((const struct named *) one)->guid, b = ((const struct named *) other)->guid;

	return a < b ? -1 : a > b;
}

void read_name_map(const char *path)
{
	FILE *file = fopen(path, "r");
	char line[LONGEST_LINE];
	struct named it;
	size_t room = 0;

	if (!file)
		end(NO_FABRIC, "cannot read %s: %s", path, strerror(errno));
	while (fgets(line, sizeof line, file)) {
		if (sscanf(line, " 0x%16" SCNx64 " \"%127[^\"]\"", &it.guid, it.name) != 2)
			continue;
		if (name_count == room) {
			room = 2 * room + 64;
			names = more(names, room, sizeof *names);
		}
		names[name_count++] = it;
	}
	if (ferror(file))
		end(NO_FABRIC, "cannot read %s: %s", path, strerror(errno));
	fclose(file);
	if (!name_count)
		end(REFUSED, "%s is no node name map: it has no line 0xGUID \"name\"", path);
	qsort(names, name_count, sizeof *names, by_guid);
}

/* Returns the name of a node, or NULL if the map does not have it. */
static const char *name_of(uint64_t guid)
{
	struct named key = { .guid = guid };
	const struct named *found = name_count ? bsearch(&key, names, name_count, sizeof key, by_guid) : NULL;

	return found ? found->name : NULL;
}

void print_node(char *text, size_t room, uint64_t guid)
{
	const char *name = name_of(guid);

	if (name)
		snprintf(text, room, "%s", name);
	else
		snprintf(text, room, "%016" PRIx64, guid);
}

const char *called_as(const struct other *other)
{
	static char text[LONGEST_NAME + 32];
	const char *name = name_of(strtoull(other->place, NULL, 16));

	if (name)
		snprintf(text, sizeof text, "%s (%016" PRIx64 ")", name, other->guid);
	else
		snprintf(text, sizeof text, "%016" PRIx64, other->guid);
	return text;
}

static const char *next_line(const char *line)
{
	line = strchr(line, '\n');
	return line ? line + 1 : "";
}

int scan_line(const char *text, const char *format, ...)
{
	char line[LONGEST_LINE];
	va_list values;
	int count;

	snprintf(line, sizeof line, "%.*s", (int) strcspn(text, "\n"), text);
	va_start(values, format);
	count = vsscanf(line, format, values);
	va_end(values);
	return count;
}

static int by_end(const void *one, const void *other)
{
	const struct link *a = one, *b = other;

	return a->guid != b->guid ? (a->guid < b->guid ? -1 : 1) : (int) a->port - (int) b->port;
}

/* Reads the links in a text of facts. They are sorted by their ends. */
static void read_links(const char *facts, struct links *links)
{
	struct link it;

	for (links->count = 0; *facts; facts = next_line(facts)) {
		if (strncmp(facts, "link ", 5) ||
		    scan_line(facts, "link %" SCNx64 "/%u %" SCNx64 "/%u", &it.guid, &it.port, &it.far, &it.far_port) != 4)
			continue;
		if (links->count == links->room) {
			links->room = 2 * links->room + 64;
			links->all = more(links->all, links->room, sizeof *links->all);
		}
		links->all[links->count++] = it;
	}
}

/* Returns 1 for a link from the lesser end of its cable, by which that is counted, and else 0. */
static unsigned cables_of(const struct link *link)
{
	return link->guid < link->far || (link->guid == link->far && link->port <= link->far_port);
}

/* Counts the cables that only one of two lists has. */
static void count_cables(unsigned *gone, unsigned *come)
{
	const struct link *a = before.all, *b = after.all;
	size_t i = 0, j = 0;
	int order, is_kept;

	*gone = *come = 0;
	while (i < before.count || j < after.count) {
		order = i == before.count ? 1 : j == after.count ? -1 : by_end(a + i, b + j);
		is_kept = !order && a[i].far == b[j].far && a[i].far_port == b[j].far_port;
		if (order <= 0)
			*gone += is_kept ? 0 : cables_of(a + i);
		if (order >= 0)
			*come += is_kept ? 0 : cables_of(b + j);
		i += order <= 0;
		j += order >= 0;
	}
}

/* Returns the line of the first switch in the text of a plan from a line on, or its end, and its GUID. */
static const char *switch_from(const char *line, uint64_t *guid)
{
	while (*line && (strncmp(line, "switch ", 7) || scan_line(line, "switch %" SCNx64, guid) != 1))
		line = next_line(line);
	return line;
}

/* Returns the hex digits of a block's entries if the line is one, and else NULL. */
static const char *digits_in(const char *line)
{
	const char *blank = strncmp(line, "block ", 6) ? NULL : strchr(line + 6, ' ');

	return blank ? blank + 1 : NULL;
}

/* Counts the entries in which the blocks below two lines differ. */
static unsigned long count_entries(const char *one, const char *other)
{
	unsigned long count = 0;
	const char *a, *b;
	int i;

	for (;;) {
		one = next_line(one);
		other = next_line(other);
		a = digits_in(one);
		b = digits_in(other);
		if (!a || !b)
			return count;
		for (i = 0; a[i] && b[i] && a[i] != '\n' && b[i] != '\n' && a[i + 1] && b[i + 1]; i += 2)
			count += a[i] != b[i] || a[i + 1] != b[i + 1];
	}
}

static void count_all(const char *old, const char *new, unsigned long *entries, unsigned long *switches)
{
	uint64_t a = 0, b = 0;
	unsigned long count;
	int is_old, is_new;

	*entries = *switches = 0;
	old = switch_from(old, &a);
	new = switch_from(new, &b);
	while (*old && *new) {
		is_old = a <= b;
		is_new = b <= a;
		count = is_old && is_new ? count_entries(old, new) : 0;
		*entries += count;
		*switches += count > 0;
		if (is_old)
			old = switch_from(next_line(old), &a);
		if (is_new)
			new = switch_from(next_line(new), &b);
	}
}

void read_places(const char *facts)
{
	unsigned port, generation, nodes = 0;
	uint64_t node, guid;

	read_links(facts, &known);
	for (own_node = 0; *facts; facts = next_line(facts)) {
		if (strncmp(facts, "portguid ", 9) ||
		    scan_line(facts, "portguid %" SCNx64 "/%u %" SCNx64 " @%u", &node, &port, &guid, &generation) != 4 ||
		    guid != own_port.guid || port != (unsigned) own_port.number)
			continue;
		own_node = nodes++ ? 0 : node;	/* one GUID of two nodes tells nothing */
	}
}

/* Returns the link of a port, or NULL if it is not known. */
static const struct link *link_of(uint64_t node, unsigned port)
{
	struct link key = { .guid = node, .port = port };

	return known.count ? bsearch(&key, known.all, known.count, sizeof key, by_end) : NULL;
}

void print_place(char *text, size_t room, const struct path *path)
{
	const struct link *link;
	char name[LONGEST_NAME];
	uint64_t node = own_node;
	int i;

	*text = 0;
	if (path && !path->hops)
		snprintf(text, room, ": at the seat's own port");
	if (!path || !path->hops || !node)
		return;
	for (i = 1; i < path->hops && (link = link_of(node, path->port[i])); i++)
		node = link->far;
	print_node(name, sizeof name, node);
	snprintf(text, room, ": behind port %u of %s", path->port[i], name);
}

void note_cables(const char *facts)
{
	read_links(facts, &before);
}

/* Adds what follows to a text, behind "; " if the text has something. */
static void add(char *text, size_t room, unsigned long count, const char *one, const char *many)
{
	size_t length = strlen(text);

	if (count)
		snprintf(text + length, room - length, "%s%lu %s", length ? "; " : "", count, count == 1 ? one : many);
}

void note_changes(const char *why, const char *old, const char *new, const char *facts)
{
	char text[LONGEST_LINE];
	unsigned long entries, switches;
	unsigned gone, come;
	size_t length;

	count_all(old, new, &entries, &switches);
	read_links(facts, &after);
	count_cables(&gone, &come);
	snprintf(text, sizeof text, "%s", why);
	add(text, sizeof text, gone, "cable gone", "cables gone");
	add(text, sizeof text, come, "cable new", "cables new");
	length = strlen(text);
	snprintf(text + length, sizeof text - length, "%s%lu entries on %lu switches", length ? "; " : "", entries,
		 switches);
	note(INFO, "%s", text);
}
