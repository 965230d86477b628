/* The recording, and which replies it takes. Files are written under another name, and renamed once whole. */
#include <errno.h>
#include <signal.h>
#include <stdlib.h>
#include <string.h>
#include <sys/stat.h>
#include <unistd.h>
#include "record.h"

enum { MOST_FILES = 4, MOST_PORTS = 254, CLASS = 0x81, ANSWER = 0x81, RECORD_HEAD = 16 };

static char *begun[MOST_FILES];

/* Removes files that were begun. Signal handlers call it too. */
void remove_begun_files(void)
{
	int i;

	for (i = 0; i < MOST_FILES; i++)
		if (begun[i])
			unlink(begun[i]);
}

static char **place_of(const char *temporary)
{
	int i = 0;

	while (begun[i] != temporary)
		i++;
	return &begun[i];
}

/* Keeps standard output until it is whole, since a reader could not see that it is cut. */
static void begin_output(struct whole_file *file)
{
	file->name = "standard output";
	file->file = open_memstream(&file->text, &file->size);
	if (!file->file)
		end(NO_MEMORY, "out of memory");
}

void begin_file(struct whole_file *file, char *name)
{
	size_t size = strlen(name) + 32;
	struct stat found;
	sigset_t all, before;

	if (!strcmp(name, "-")) {
		begin_output(file);
		return;
	}
	if (!stat(name, &found) && !S_ISREG(found.st_mode))	/* renaming would replace a device */
		end(NO_FABRIC, "cannot write %s: it is no regular file", name);
	file->name = name;
	file->temporary = more(NULL, size, 1);
	snprintf(file->temporary, size, "%s.%ld", name, (long) getpid());
	sigfillset(&all);	/* no signal may come between making the file and noting it */
	sigprocmask(SIG_BLOCK, &all, &before);
	file->file = fopen(file->temporary, "wbx");
	if (file->file)
		*place_of(NULL) = file->temporary;
	sigprocmask(SIG_SETMASK, &before, NULL);
	if (!file->file)
		end(NO_FABRIC, "cannot write %s: %s", name, strerror(errno));
}

void commit_file(struct whole_file *file)
{
	if (!file->temporary) {
		if (fclose(file->file))
			end(NO_MEMORY, "out of memory");
		if (fwrite(file->text, 1, file->size, stdout) != file->size || fflush(stdout))
			end(NO_FABRIC, "cannot write %s: %s", file->name, strerror(errno));
		return;
	}
	if (ferror(file->file) || fflush(file->file) || fsync(fileno(file->file)) || fclose(file->file) ||
	    rename(file->temporary, file->name))
		end(NO_FABRIC, "cannot write %s: %s", file->name, strerror(errno));
	*place_of(file->temporary) = NULL;
}

static const char *fault_of_node(const struct request *request, const uint8_t *info)
{
	uint8_t type = info[2], ports = info[3], local = info[36];

	if (type < ADAPTER || type > ROUTER)
		return "NodeType";
	if (ports < 1 || ports > MOST_PORTS || local > ports)
		return "Port";
	if (local == 0 && !(request->context == START && type == SWITCH))
		return "Port";
	return NULL;
}

/*
 * Returns why ibsm would refuse the reply, by the names of docs/FORMATS.md, or NULL if it would take it. ibsm refuses
 * a whole file for one bad record.
 */
const char *fault_of(const struct request *request, const uint8_t *reply)
{
	uint8_t pointer = reply[6], hops = reply[7];

	if (reply[0] != 1)
		return "BaseVersion";
	if (reply[1] != CLASS)
		return "Class";
	if (reply[2] != 1)
		return "ClassVersion";
	if (hops > MOST_HOPS)
		return "HopCount";
	if (pointer > hops + 1)
		return "HopPointer";
	if (get(reply + 32, 4) != 0xffffffff)
		return "DrLid";
	if (reply[3] != ANSWER)
		return "Method";
	if (!(reply[4] & 0x80) || pointer)
		return "Direction";
	if (get(reply + 4, 2) & 0x7fff)
		return "Status";
	if (request->attribute == PORT_INFO && request->modifier > MOST_PORTS)
		return "Modifier";
	return request->attribute == NODE_INFO ? fault_of_node(request, reply + ATTRIBUTE) : NULL;
}

void keep(struct whole_file *file, const struct request *request, const uint8_t *reply)
{
	uint8_t head[RECORD_HEAD] = { 0 };

	put(head, 4, options.generation);
	head[4] = request->context;
	head[5] = request->context == VIA ? request->via_port : 0;
	put(head + 8, 8, request->context == START ? 0 : request->guid);
	if (fwrite(head, RECORD_HEAD, 1, file->file) != 1 || fwrite(reply, PACKET, 1, file->file) != 1)
		end(NO_FABRIC, "cannot write %s: %s", file->name, strerror(errno));
	counts.kept++;
}
