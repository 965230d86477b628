/*
 * A library to load before a program (LD_PRELOAD): it refuses one of the program's calls, or cuts it short.
 *
 * REFUSE names the kind of call. REFUSE_AT names the call: its number from 1, or `K+N` for N calls from the K-th on, or
 * `every`. The kinds:
 *   alloc               an allocation answers that there is no memory
 *   memory-open         opening a file answers that there is no memory
 *   read, write, open   the call fails
 *   again-read, again-write, late-read, late-write
 *                       the call fails since it would have to wait, or since it took too long
 *   interrupted-read, interrupted-write
 *                       the call is interrupted before a byte is moved
 *   empty-write         a write takes no byte
 *   short-read, short-write
 *                       the call moves one byte
 * Writes are those to standard output. `say`, `again-say`, `late-say`, `interrupted-say`, `empty-say` and `short-say`
 * are the kinds of writes to standard error. At the end the number of calls of the kind is written to the file
 * REFUSE_COUNT. Threads are not considered.
 */
#define _GNU_SOURCE
#include <dlfcn.h>
#include <errno.h>
#include <fcntl.h>
#include <stdarg.h>
#include <stdio.h>
#include <stdlib.h>
#include <string.h>
#include <sys/syscall.h>
#include <sys/types.h>
#include <sys/uio.h>
#include <unistd.h>

void *__libc_malloc(size_t);
void *__libc_calloc(size_t, size_t);
void *__libc_realloc(void *, size_t);
void *__libc_memalign(size_t, size_t);

static unsigned long calls;

static const char *kind(void)
{
	const char *text = getenv("REFUSE");

	return text ? text : "";
}

/* Returns whether this is the call to refuse. */
static int is_now(const char *wanted)
{
	const char *at = getenv("REFUSE_AT");
	unsigned long first, count = 1;
	char *rest;

	if (strcmp(kind(), wanted) != 0)
		return 0;
	calls++;
	if (!at)
		return 0;
	if (strcmp(at, "every") == 0)
		return 1;
	first = strtoul(at, &rest, 10);
	if (*rest == '+')
		count = strtoul(rest + 1, NULL, 10);
	return calls >= first && calls - first < count;
}

static void *no_memory(void)
{
	errno = ENOMEM;
	return NULL;
}

void *malloc(size_t size)
{
	return is_now("alloc") ? no_memory() : __libc_malloc(size);
}

void *calloc(size_t count, size_t size)
{
	return is_now("alloc") ? no_memory() : __libc_calloc(count, size);
}

void *realloc(void *old, size_t size)
{
	return is_now("alloc") ? no_memory() : __libc_realloc(old, size);
}

void *memalign(size_t align, size_t size)
{
	return is_now("alloc") ? no_memory() : __libc_memalign(align, size);
}

void *aligned_alloc(size_t align, size_t size)
{
	return memalign(align, size);
}

int posix_memalign(void **into, size_t align, size_t size)
{
	void *given = memalign(align, size);

	if (!given)
		return ENOMEM;
	*into = given;
	return 0;
}

/* The ways in which a call fails, with their errors. */
enum { FAILURES = 4 };
static const int errors[FAILURES] = { EIO, EAGAIN, ETIMEDOUT, EINTR };

ssize_t read(int fd, void *into, size_t count)
{
	static const char *const kinds[FAILURES] = { "read", "again-read", "late-read", "interrupted-read" };
	ssize_t (*real)(int, void *, size_t) = dlsym(RTLD_NEXT, "read");
	int i;

	for (i = 0; i < FAILURES; i++)
		if (is_now(kinds[i])) {
			errno = errors[i];
			return -1;
		}
	if (count > 1 && is_now("short-read"))
		count = 1;
	return real(fd, into, count);
}

/* How a write ends: as asked, with one of the failures, with no byte written, or with one. */
enum answer { AS_ASKED, FAILS, TAKES_NONE = FAILS + FAILURES, TAKES_ONE };

static enum answer answer_to_write(int fd, size_t count)
{
	static const char *const kinds[2][FAILURES + 2] = {
		{ "write", "again-write", "late-write", "interrupted-write", "empty-write", "short-write" },
		{ "say", "again-say", "late-say", "interrupted-say", "empty-say", "short-say" },
	};
	int i;

	if (fd != 1 && fd != 2)
		return AS_ASKED;
	for (i = 0; i < FAILURES + (count > 1 ? 2 : 1); i++)
		if (is_now(kinds[fd - 1][i]))
			return FAILS + i;
	return AS_ASKED;
}

static ssize_t not_written(enum answer answer)
{
	if (answer == TAKES_NONE)
		return 0;
	errno = errors[answer - FAILS];
	return -1;
}

ssize_t write(int fd, const void *from, size_t count)
{
	ssize_t (*real)(int, const void *, size_t) = dlsym(RTLD_NEXT, "write");
	enum answer answer = answer_to_write(fd, count);

	if (answer == AS_ASKED || answer == TAKES_ONE)
		return real(fd, from, answer == TAKES_ONE ? 1 : count);
	return not_written(answer);
}

ssize_t writev(int fd, const struct iovec *from, int count)
{
	ssize_t (*real)(int, const struct iovec *, int) = dlsym(RTLD_NEXT, "writev");
	enum answer answer = answer_to_write(fd, count > 0 ? from[0].iov_len : 0);

	if (answer == TAKES_ONE) {
		struct iovec one = { from[0].iov_base, 1 };

		return real(fd, &one, 1);
	}
	return answer == AS_ASKED ? real(fd, from, count) : not_written(answer);
}

static int refused_open(void)
{
	int refused = is_now("open"), memoryless = is_now("memory-open");

	if (refused || memoryless)
		errno = refused ? EACCES : ENOMEM;
	return refused || memoryless;
}

int open(const char *path, int flags, ...)
{
	int (*real)(const char *, int, ...) = dlsym(RTLD_NEXT, "open");
	va_list rest;
	mode_t mode;

	va_start(rest, flags);
	mode = flags & O_CREAT ? va_arg(rest, mode_t) : 0;
	va_end(rest);
	return refused_open() ? -1 : real(path, flags, mode);
}

int openat(int folder, const char *path, int flags, ...)
{
	int (*real)(int, const char *, int, ...) = dlsym(RTLD_NEXT, "openat");
	va_list rest;
	mode_t mode;

	va_start(rest, flags);
	mode = flags & O_CREAT ? va_arg(rest, mode_t) : 0;
	va_end(rest);
	return refused_open() ? -1 : real(folder, path, flags, mode);
}

__attribute__((destructor)) static void tell(void)
{
	const char *path = getenv("REFUSE_COUNT");
	char text[32];
	int fd, length;

	if (!path)
		return;
	length = snprintf(text, sizeof text, "%lu\n", calls);
	fd = creat(path, 0600);
	if (fd < 0)
		return;
	if (syscall(SYS_write, fd, text, (size_t)length) != length)
		unlink(path);
	close(fd);
}
