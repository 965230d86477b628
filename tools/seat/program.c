/* The program `ibsm` that belongs to this copy of seat. */
#include <limits.h>
#include <string.h>
#include <unistd.h>
#include "seat.h"

/* Where seat is made in a checkout, whose top has the program's launcher. */
static const char *const made_in[] = { "/tools/seat/out", "/tools/record/out" };

/* Cuts the end off a folder's path, if it has that end. */
static void cut_end(char *folder, const char *end)
{
	size_t length = strlen(folder), rest = strlen(end);

	if (length >= rest && !strcmp(folder + length - rest, end))
		folder[length - rest] = 0;
}

/* Returns whether a folder has the program, whose path then takes the folder's place. */
static int has_program(char *folder)
{
	size_t length = strlen(folder);

	strcpy(folder + length, "/ibsm");
	if (!access(folder, X_OK))
		return 1;
	folder[length] = 0;
	return 0;
}

char *the_program(void)
{
	static char path[PATH_MAX + sizeof "/ibsm"];
	ssize_t length = readlink("/proc/self/exe", path, PATH_MAX);
	size_t i;

	if (length <= 0)
		return "ibsm";
	path[length] = 0;
	*strrchr(path, '/') = 0;
	if (has_program(path))
		return path;
	for (i = 0; i < sizeof made_in / sizeof *made_in; i++)
		cut_end(path, made_in[i]);
	return has_program(path) ? path : "ibsm";
}
