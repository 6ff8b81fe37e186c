// Divides how long a socket waits to read and to write in the program that it is preloaded into by 300, or by what
// SHORTER says, and adds each as it was asked for, in seconds, to the file that WAITS names. Where LATER is set, its
// clock is set forward by so many seconds.
#define _GNU_SOURCE
#include <stdio.h>
#include <stdlib.h>
#include <sys/socket.h>
#include <sys/syscall.h>
#include <sys/time.h>
#include <time.h>
#include <unistd.h>

static void write_down(int option, long seconds)
{
	const char *name = getenv("WAITS");
	FILE *file = name ? fopen(name, "a") : NULL;
	if (!file)
		return;
	fprintf(file, "%s %ld\n", option == SO_RCVTIMEO ? "read" : "write", seconds);
	fclose(file);
}

int setsockopt(int socket, int level, int option, const void *value, socklen_t size)
{
	struct timeval shorter;
	const char *divisor = getenv("SHORTER");
	if (level == SOL_SOCKET && (option == SO_RCVTIMEO || option == SO_SNDTIMEO) && size == sizeof shorter) {
		shorter = *(const struct timeval *)value;
		write_down(option, shorter.tv_sec);
		shorter.tv_sec /= divisor ? atol(divisor) : 300;
		value = &shorter;
	}
	return (int)syscall(SYS_setsockopt, socket, level, option, value, size);
}

int clock_gettime(clockid_t clock, struct timespec *moment)
{
	int answer = (int)syscall(SYS_clock_gettime, clock, moment);
	const char *later = getenv("LATER");
	if (answer == 0 && clock == CLOCK_REALTIME && later)
		moment->tv_sec += atol(later);
	return answer;
}
