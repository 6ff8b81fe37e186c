// Sets the clocks of the program that it is preloaded into. The file that SHIFT names holds the seconds by which the
// wall clock is set, and the file that ADVANCE names those by which both clocks are ahead; they are read whenever a
// clock is asked for. The monotonic clock goes FASTER times as fast, and waits for events are that much shorter; with
// ADVANCE none lasts longer than 10 ms, so that the program sees that its clocks have moved.
#define _GNU_SOURCE
#include <fcntl.h>
#include <stdlib.h>
#include <sys/epoll.h>
#include <sys/syscall.h>
#include <time.h>
#include <unistd.h>

static long faster(void)
{
	const char *text = getenv("FASTER");
	return text ? atol(text) : 1;
}

// The seconds in the file that this variable names; none where there is no file.
static long seconds_in(const char *variable)
{
	char text[32] = { 0 };
	const char *name = getenv(variable);
	int file = name ? (int)syscall(SYS_openat, AT_FDCWD, name, O_RDONLY) : -1;
	if (file < 0)
		return 0;
	long size = syscall(SYS_read, file, text, sizeof text - 1);
	syscall(SYS_close, file);
	return size > 0 ? atol(text) : 0;
}

static void speed_up(struct timespec *moment)
{
	static struct timespec first;
	if (first.tv_sec == 0)
		first = *moment;
	long long passed = (moment->tv_sec - first.tv_sec) * 1000000000LL + moment->tv_nsec - first.tv_nsec;
	passed = passed * faster() + first.tv_nsec;
	moment->tv_sec = first.tv_sec + passed / 1000000000;
	moment->tv_nsec = passed % 1000000000;
}

int clock_gettime(clockid_t clock, struct timespec *moment)
{
	int answer = (int)syscall(SYS_clock_gettime, clock, moment);
	if (answer == 0 && clock == CLOCK_REALTIME)
		moment->tv_sec += seconds_in("SHIFT") + seconds_in("ADVANCE");
	if (answer == 0 && clock == CLOCK_MONOTONIC) {
		speed_up(moment);
		moment->tv_sec += seconds_in("ADVANCE");
	}
	return answer;
}

int epoll_wait(int poll, struct epoll_event *events, int most, int timeout)
{
	if (timeout > 0)
		timeout = (int)((timeout + faster() - 1) / faster());
	if (timeout > 10 && getenv("ADVANCE"))
		timeout = 10;
	return (int)syscall(SYS_epoll_pwait, poll, events, most, timeout, NULL, 8);
}
