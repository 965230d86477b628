/* Names of nodes as a node name map of infiniband-diags: lines `0xGUID "name"`. */
#include <string.h>
#include "record.h"

/* Prints a name, with \xHH for what would end the name or the line and for what is not ASCII. */
static void print_escaped(FILE *file, const uint8_t *name)
{
	for (; *name; name++)
		if (*name < ' ' || *name > '~' || *name == '"' || *name == '\\')
			fprintf(file, "\\x%02x", *name);
		else
			putc(*name, file);
}

/* Prints a line of a map. A shared name is followed by the GUID, so that it is unique. */
void print_name(FILE *file, uint64_t guid, const uint8_t *name, int is_shared)
{
	fprintf(file, "0x%016llx \"", (unsigned long long) guid);
	print_escaped(file, name);
	if (is_shared)
		fprintf(file, " %016llx", (unsigned long long) guid);
	fprintf(file, "\"\n");
}
