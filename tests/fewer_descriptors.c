// Lets the program that it is preloaded into open no descriptor from DESCRIPTORS on, once it has asked for the time of
// day, sets its clock forward by LATER seconds, and divides its sleeps by 10. Each sleep stands in milliseconds, a line
// each, in the file that SLEEPS names, which is open from the beginning on: another program may change the limit at any
// time.
#define _GNU_SOURCE
#include <fcntl.h>
#include <stdio.h>
#include <stdlib.h>
#include <sys/resource.h>
#include <sys/syscall.h>
#include <time.h>
#include <unistd.h>

// A descriptor that no limit of the tests leaves to the program.
#define HIGH 60

static int sleeps = -1;

__attribute__((constructor)) static void open_sleeps(void)
{
	const char *name = getenv("SLEEPS");
	struct rlimit limit, more;
	if (!name || getrlimit(RLIMIT_NOFILE, &limit) != 0)
		return;
	more = limit;
	more.rlim_cur = limit.rlim_max;
	setrlimit(RLIMIT_NOFILE, &more);
	int low = open(name, O_CREAT | O_WRONLY | O_APPEND, 0600);
	sleeps = fcntl(low, F_DUPFD_CLOEXEC, HIGH);
	if (sleeps < 0)
		abort();
	close(low);
	setrlimit(RLIMIT_NOFILE, &limit);
}

int clock_gettime(clockid_t clock, struct timespec *moment)
{
	static int asked;
	const char *descriptors = getenv("DESCRIPTORS");
	const char *later = getenv("LATER");
	struct rlimit limit;
	if (clock == CLOCK_REALTIME && descriptors && !asked++ && getrlimit(RLIMIT_NOFILE, &limit) == 0) {
		limit.rlim_cur = (rlim_t)atol(descriptors);
		setrlimit(RLIMIT_NOFILE, &limit);
	}
	int answer = (int)syscall(SYS_clock_gettime, clock, moment);
	if (answer == 0 && clock == CLOCK_REALTIME && later)
		moment->tv_sec += atol(later);
	return answer;
}

int nanosleep(const struct timespec *asked, struct timespec *left)
{
	char line[40];
	long milliseconds = asked->tv_sec * 1000 + asked->tv_nsec / 1000000;
	struct timespec shorter = { 0, milliseconds * 100000 };
	int size = snprintf(line, sizeof line, "%ld\n", milliseconds);
	if (sleeps >= 0 && syscall(SYS_write, sleeps, line, size) != size)
		abort();
	return (int)syscall(SYS_nanosleep, &shorter, left);
}
