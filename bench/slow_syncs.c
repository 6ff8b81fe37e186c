// A device whose syncs take longer: each fdatasync and fsync takes SYNC_WAIT microseconds more. bench/load.py builds
// it.
#define _GNU_SOURCE
#include <dlfcn.h>
#include <errno.h>
#include <stdlib.h>
#include <time.h>

static void wait_more(void)
{
    const char *text = getenv("SYNC_WAIT");
    long micros = text ? atol(text) : 0;
    struct timespec left = { micros / 1000000, micros % 1000000 * 1000 };
    int kept = errno;
    while (nanosleep(&left, &left) != 0) {
    }
    errno = kept;
}

int fdatasync(int file)
{
    static int (*sync)(int);
    if (!sync)
        sync = (int (*)(int))dlsym(RTLD_NEXT, "fdatasync");
    int answer = sync(file);
    wait_more();
    return answer;
}

int fsync(int file)
{
    static int (*sync)(int);
    if (!sync)
        sync = (int (*)(int))dlsym(RTLD_NEXT, "fsync");
    int answer = sync(file);
    wait_more();
    return answer;
}
