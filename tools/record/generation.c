/* The newest generation in a recording or a store file, so that the next recording counts as newer. */
#include <errno.h>
#include <string.h>
#include "record.h"

enum { MAGIC = 8, REPORT = 272, CELL = 32, HEADER = 8 };

/* The offset of the first record, the length of a record, and the offset of the generation in it. */
struct form {
	const char *magic;
	int first, size, generation;
};

static const struct form forms[] = {
	{ "IBSMREP1", MAGIC, REPORT, 0 },
	{ "IBSMSTO1", MAGIC, CELL, 4 },
	{ "IBSMSTO2", MAGIC + HEADER, CELL, 4 },
};

static const struct form *form_of(const uint8_t *magic)
{
	unsigned i;

	for (i = 0; i < sizeof forms / sizeof *forms; i++)
		if (!memcmp(magic, forms[i].magic, MAGIC))
			return &forms[i];
	return NULL;
}

uint32_t newest_in(const char *name)
{
	const struct form *form = NULL;
	uint8_t bytes[REPORT];
	uint32_t newest = 0, generation;
	FILE *file = fopen(name, "rb");
	size_t count;

	if (!file)
		end(NO_FABRIC, "cannot read %s: %s", name, strerror(errno));
	if (fread(bytes, MAGIC, 1, file) == 1)
		form = form_of(bytes);
	if (!form)
		end(NO_FABRIC, "%s is neither a recording nor a store file of ibsm", name);
	if (form->first > MAGIC) {
		if (fread(bytes, HEADER, 1, file) != 1)
			end(NO_FABRIC, "%s is cut", name);
		newest = get(bytes, 4);	/* its floor: older facts do not count */
	}
	while ((count = fread(bytes, 1, form->size, file)) == (size_t) form->size) {
		generation = get(bytes + form->generation, 4);
		if (generation > newest)
			newest = generation;
	}
	if (ferror(file))
		end(NO_FABRIC, "cannot read %s: %s", name, strerror(errno));
	if (count)
		end(NO_FABRIC, "%s is cut", name);
	fclose(file);
	return newest;
}
