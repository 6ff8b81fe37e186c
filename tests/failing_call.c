// Lets one call that the program it is preloaded into makes of a spool's files fail, and no further one: the call of
// the number in FAILED_CALL, counted from 0. Sizes that are asked for, reads, writes, cuts and syncs count. Where
// LONGER is set, each file is said to have so many octets more than it has.
#define _GNU_SOURCE
#include <errno.h>
#include <fcntl.h>
#include <stdio.h>
#include <stdlib.h>
#include <string.h>
#include <sys/stat.h>
#include <sys/syscall.h>
#include <unistd.h>

// Whether the call is of a file of a spool, and the one that fails.
static int fails(int file)
{
	static long number = 0;
	char link[40], name[4096];
	snprintf(link, sizeof link, "/proc/self/fd/%d", file);
	long size = syscall(SYS_readlinkat, AT_FDCWD, link, name, sizeof name - 1);
	if (size < 0)
		return 0;
	name[size] = 0;
	char *end = strrchr(name, '/');
	if (!end || strncmp(end, "/relay.spool", 12) != 0)
		return 0;
	const char *chosen = getenv("FAILED_CALL");
	if (!chosen || atol(chosen) != number++)
		return 0;
	errno = EIO;
	return 1;
}

int statx(int file, const char *name, int flags, unsigned mask, struct statx *about)
{
	if (*name == 0 && fails(file))
		return -1;
	int answer = syscall(SYS_statx, file, name, flags, mask, about);
	if (answer == 0 && *name == 0 && getenv("LONGER"))
		about->stx_size += atol(getenv("LONGER"));
	return answer;
}

ssize_t pread(int file, void *octets, size_t count, off_t place)
{
	return fails(file) ? -1 : syscall(SYS_pread64, file, octets, count, place);
}

ssize_t pwrite(int file, const void *octets, size_t count, off_t place)
{
	return fails(file) ? -1 : syscall(SYS_pwrite64, file, octets, count, place);
}

int ftruncate(int file, off_t size)
{
	return fails(file) ? -1 : syscall(SYS_ftruncate, file, size);
}

int fsync(int file)
{
	return fails(file) ? -1 : syscall(SYS_fsync, file);
}

int fdatasync(int file)
{
	return fails(file) ? -1 : syscall(SYS_fdatasync, file);
}
