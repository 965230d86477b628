/* TABLES, a text in the form of `ibsm plan`, read whole before anything is written. */
#include <errno.h>
#include <stdlib.h>
#include <string.h>
#include "send.h"

enum { MOST_LINE = 256, DIGITS = 2 * BLOCK, MOST_LMC = 7 };

static const char *name;
static unsigned long line_number;

/* How a file begins that is not TABLES, and what it is. */
static const struct {
	const char *begins, *told;
} others[] = {
	{ "IBSMREP1", "a recording" }, { "IBSMSTO", "a store file" }, { "node ", "a text of facts" },
	{ "floor ", "a text of facts" }, { "Unicast lids", "a dump of forwarding tables" },
	{ "pairs ", "an audit" },
};

/* Ends if a first line is that of a file of another kind. */
static void refuse_others(const char *line)
{
	size_t i;

	for (i = 0; i < sizeof others / sizeof *others; i++)
		if (!strncmp(line, others[i].begins, strlen(others[i].begins)))
			end(REFUSED, "%s: this is %s; TABLES is what `ibsm plan` or `ibsm next` prints, or `record --tables` "
			    "writes", name, others[i].told);
}

static void refuse(const char *line)
{
	end(REFUSED, "%s: line %lu is no line of a plan: %.60s", name, line_number, line);
}

/* Reads a decimal number of at most `most` at *text, and moves *text past it. */
static int number_at(const char **text, unsigned long most, unsigned long *value)
{
	const char *first = *text;

	for (*value = 0; **text >= '0' && **text <= '9'; ++*text) {
		*value = 10 * *value + (**text - '0');
		if (*value > most)
			return 0;
	}
	return *text != first;
}

static int word_at(const char **text, const char *word)
{
	size_t length = strlen(word);

	if (strncmp(*text, word, length))
		return 0;
	*text += length;
	return 1;
}

static int digit(char letter)
{
	return letter >= '0' && letter <= '9' ? letter - '0' : letter >= 'a' && letter <= 'f' ? letter - 'a' + 10 : -1;
}

static int guid_at(const char **text, uint64_t *guid)
{
	int i;

	for (*guid = 0, i = 0; i < 16; i++, ++*text) {
		if (digit(**text) < 0)
			return 0;
		*guid = *guid << 4 | digit(**text);
	}
	return 1;
}

static int take_lids(struct wanted *wanted, const char *line)
{
	unsigned long lid, port, lmc = 0, last;
	uint64_t guid;

	if (!word_at(&line, "lid ") || !number_at(&line, GREATEST_LID, &lid) || !word_at(&line, " ") ||
	    !guid_at(&line, &guid) || !word_at(&line, "/") || !number_at(&line, MOST_PORTS, &port))
		return 0;
	if (word_at(&line, " lmc ") && (!number_at(&line, MOST_LMC, &lmc) || !lmc))
		return 0;
	last = lid + (1UL << lmc) - 1;
	if (*line || !lid || last > GREATEST_LID)
		return 0;
	if (lid <= wanted->greatest && !wanted->shared)
		wanted->shared = lid;
	wanted->ranges = more(wanted->ranges, wanted->range_count + 1, sizeof *wanted->ranges);
	wanted->ranges[wanted->range_count++] = (struct range) { guid, lid, last, port };
	if (last > wanted->greatest)
		wanted->greatest = last;
	return 1;
}

static void close_table(const struct wanted *wanted)
{
	const struct table *last;

	if (!wanted->table_count)
		return;
	last = wanted->tables + wanted->table_count - 1;
	if (last->blocks != last->top / BLOCK + 1u)
		end(REFUSED, "%s: switch %016llx has %u blocks for top %u: is it cut?", name, (unsigned long long) last->guid,
		    last->blocks, last->top);
}

static int take_switch(struct wanted *wanted, const char *line)
{
	unsigned long top;
	uint64_t guid;

	if (!word_at(&line, "switch ") || !guid_at(&line, &guid) || !word_at(&line, " top ") ||
	    !number_at(&line, GREATEST_LID, &top) || *line)
		return 0;
	close_table(wanted);
	if (wanted->table_count && wanted->tables[wanted->table_count - 1].guid >= guid)
		return 0;
	wanted->tables = more(wanted->tables, wanted->table_count + 1, sizeof *wanted->tables);
	wanted->tables[wanted->table_count++] = (struct table) { guid, top, 0, more(NULL, top / BLOCK + 1, BLOCK) };
	return 1;
}

static int take_block(struct wanted *wanted, const char *line)
{
	struct table *table;
	unsigned long number;
	uint8_t *entry;
	int i;

	if (!wanted->table_count)
		return 0;
	table = wanted->tables + wanted->table_count - 1;
	if (!word_at(&line, "block ") || !number_at(&line, GREATEST_LID / BLOCK, &number) ||
	    number != table->blocks || number > table->top / BLOCK || !word_at(&line, " ") || strlen(line) != DIGITS)
		return 0;
	entry = table->entries + BLOCK * table->blocks++;
	for (i = 0; i < DIGITS; i += 2) {
		if (digit(line[i]) < 0 || digit(line[i + 1]) < 0)
			return 0;
		*entry++ = digit(line[i]) << 4 | digit(line[i + 1]);
	}
	return 1;
}

static int by_end(const void *one, const void *other)
{
	const struct range *a = one, *b = other;

	return a->guid != b->guid ? (a->guid < b->guid ? -1 : 1) : a->port - b->port;
}

void read_wanted(const char *path, struct wanted *wanted)
{
	FILE *file = strcmp(path, "-") ? fopen(path, "r") : stdin;
	char line[MOST_LINE];
	size_t length;

	name = strcmp(path, "-") ? path : "standard input";
	if (!file)
		end(NO_FABRIC, "cannot read %s: %s", name, strerror(errno));
	while (fgets(line, sizeof line, file)) {
		if (!line_number++)
			refuse_others(line);
		length = strlen(line);
		if (!length || line[length - 1] != '\n') {
			if (feof(file))
				end(REFUSED, "%s: its last line has no end: is it cut?", name);
			refuse(line);
		}
		line[length - 1] = 0;
		if (!take_block(wanted, line) && !take_lids(wanted, line) && !take_switch(wanted, line))
			refuse(line);
	}
	if (ferror(file))
		end(NO_FABRIC, "cannot read %s: %s", name, strerror(errno));
	close_table(wanted);
	if (file != stdin)
		fclose(file);
	if (wanted->range_count)
		qsort(wanted->ranges, wanted->range_count, sizeof *wanted->ranges, by_end);
}

const struct table *table_of(const struct wanted *wanted, uint64_t guid)
{
	size_t low = 0, high = wanted->table_count, middle;

	while (low < high) {
		middle = (low + high) / 2;
		if (wanted->tables[middle].guid == guid)
			return &wanted->tables[middle];
		if (wanted->tables[middle].guid < guid)
			low = middle + 1;
		else
			high = middle;
	}
	return NULL;
}

const struct range *range_of(const struct wanted *wanted, uint64_t guid, uint8_t port)
{
	struct range key = { .guid = guid, .port = port };

	return wanted->range_count ? bsearch(&key, wanted->ranges, wanted->range_count, sizeof key, by_end) : NULL;
}
