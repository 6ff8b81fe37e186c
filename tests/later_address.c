// Lets the first calls of bind in the program that it is preloaded into find that this machine has no such address: as
// many as TRIES says. A sleep lasts a hundredth of its time.
#define _GNU_SOURCE
#include <errno.h>
#include <stdlib.h>
#include <sys/socket.h>
#include <sys/syscall.h>
#include <time.h>
#include <unistd.h>

int bind(int socket, const struct sockaddr *address, socklen_t size)
{
	static long count;
	const char *tries = getenv("TRIES");
	if (tries && count++ < atol(tries)) {
		errno = EADDRNOTAVAIL;
		return -1;
	}
	return (int)syscall(SYS_bind, socket, address, size);
}

int nanosleep(const struct timespec *wanted, struct timespec *left)
{
	long long time = (wanted->tv_sec * 1000000000LL + wanted->tv_nsec) / 100;
	struct timespec shorter = { time / 1000000000, time % 1000000000 };
	return (int)syscall(SYS_nanosleep, &shorter, left);
}
