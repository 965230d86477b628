/* What systemd is told over the socket that it names: that the manager is ready, what it is at, and that it runs. */
#include <errno.h>
#include <stdarg.h>
#include <stdlib.h>
#include <string.h>
#include <sys/socket.h>
#include <sys/un.h>
#include <unistd.h>
#include "seat.h"

enum { LONGEST = 240 };

void notify(const char *format, ...)
{
	struct sockaddr_un address = { .sun_family = AF_UNIX };
	const char *name = getenv("NOTIFY_SOCKET");
	size_t length = name ? strlen(name) : 0;
	char text[LONGEST];
	va_list values;
	int door;

	/* A name that begins with @ is of the abstract ones, whose first byte is 0. */
	if (length < 2 || length > sizeof address.sun_path || (*name != '/' && *name != '@'))
		return;
	va_start(values, format);
	vsnprintf(text, sizeof text, format, values);
	va_end(values);
	memcpy(address.sun_path, name, length);
	if (*name == '@')
		address.sun_path[0] = 0;
	door = socket(AF_UNIX, SOCK_DGRAM | SOCK_CLOEXEC, 0);
	if (door < 0)
		return;
	/* What cannot be told, as where nobody hears, does not stop the manager. */
	if (sendto(door, text, strlen(text), MSG_NOSIGNAL | MSG_DONTWAIT, (struct sockaddr *) &address,
		   offsetof(struct sockaddr_un, sun_path) + length) < 0 && options.verbose)
		note(WARNING, "cannot tell %s: %s", name, strerror(errno));
	close(door);
}

/* Returns the seconds within which systemd wants to be told that the manager runs, or 0. */
static double watched(void)
{
	const char *period = getenv("WATCHDOG_USEC"), *process = getenv("WATCHDOG_PID");

	if (!period || (process && strtol(process, NULL, 10) != getpid()))
		return 0;
	return strtod(period, NULL) / 1e6;
}

void notify_alive(void)
{
	static double period = -1, told;

	if (period < 0)
		period = watched();
	if (period <= 0 || (told && now() < told + period / 2))
		return;
	told = now();
	notify("WATCHDOG=1");
}
