// Sets the clock of the program that it is preloaded into forward, by so many seconds as LATER says, or holds it at the
// second that HELD says.
#define _GNU_SOURCE
#include <stdlib.h>
#include <sys/syscall.h>
#include <time.h>
#include <unistd.h>

int clock_gettime(clockid_t clock, struct timespec *moment)
{
	int answer = (int)syscall(SYS_clock_gettime, clock, moment);
	const char *later = getenv("LATER");
	const char *held = getenv("HELD");
	if (answer == 0 && clock == CLOCK_REALTIME && later)
		moment->tv_sec += atol(later);
	if (answer == 0 && clock == CLOCK_REALTIME && held) {
		moment->tv_sec = atol(held);
		moment->tv_nsec = 0;
	}
	return answer;
}
