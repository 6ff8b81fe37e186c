// Writes down each call of the device of the program that it is preloaded into, a line each in the file that CALLS
// names, and lets some fail: the sync of the number in FAILED_SYNC, the write of the number in FULL_WRITE for want of
// space, and the write of the number in HALF_WRITE does half. They are counted from 1, and a folder's syncs aren't, nor
// what is done with the file that keeps room beside a spool. Where HEAD_WRITE is set, the first write of the gate of a
// head fails: it was done where that says "done". While the file that FAILED_ROOM names is there, all fails that is
// done with the file that keeps room.
#define _GNU_SOURCE
#include <errno.h>
#include <fcntl.h>
#include <stdarg.h>
#include <stdio.h>
#include <stdlib.h>
#include <string.h>
#include <sys/stat.h>
#include <sys/syscall.h>
#include <unistd.h>

static void note(const char *form, ...)
{
	char line[100];
	va_list words;
	va_start(words, form);
	int size = vsnprintf(line, sizeof line, form, words);
	va_end(words);
	const char *name = getenv("CALLS");
	int calls = name ? syscall(SYS_openat, AT_FDCWD, name, O_CREAT | O_WRONLY | O_APPEND, 0600) : -1;
	if (calls < 0 || syscall(SYS_write, calls, line, size) != size)
		abort();
	syscall(SYS_close, calls);
}

// Whether this is the file that keeps room.
static int keeps_room(int file)
{
	char link[40], name[4096];
	snprintf(link, sizeof link, "/proc/self/fd/%d", file);
	long size = syscall(SYS_readlinkat, AT_FDCWD, link, name, sizeof name);
	return size >= 5 && memcmp(name + size - 5, ".room", 5) == 0;
}

// Whether the call of this number is the one that the variable names.
static int is_chosen(const char *variable, long number)
{
	const char *chosen = getenv(variable);
	return chosen && atol(chosen) == number;
}

// Whether a call of this file fails since it is the one that keeps room.
static int has_no_room(int file)
{
	const char *name = getenv("FAILED_ROOM");
	if (!name || !keeps_room(file) || syscall(SYS_faccessat, AT_FDCWD, name, F_OK) != 0)
		return 0;
	errno = EIO;
	return 1;
}

int open(const char *name, int flags, ...)
{
	va_list words;
	va_start(words, flags);
	mode_t mode = flags & O_CREAT ? va_arg(words, mode_t) : 0;
	va_end(words);
	int file = syscall(SYS_openat, AT_FDCWD, name, flags, mode);
	struct stat about;
	if (file >= 0 && fstat(file, &about) == 0 && S_ISDIR(about.st_mode))
		note("open folder %s\n", name);
	else
		note("open %s, mode %o\n", name, mode);
	return file;
}

ssize_t pwrite(int file, const void *octets, size_t count, off_t place)
{
	static long number = 0, heads = 0;
	if (has_no_room(file))
		return -1;
	if (keeps_room(file))
		return syscall(SYS_pwrite64, file, octets, count, place);
	if (getenv("HEAD_WRITE") && count == 1 && place == 8 && heads++ == 0) {
		if (strcmp(getenv("HEAD_WRITE"), "done") == 0)
			syscall(SYS_pwrite64, file, octets, count, place);
		note("write of a head's gate: failed\n");
		errno = EIO;
		return -1;
	}
	number++;
	if (is_chosen("FULL_WRITE", number)) {
		note("write %zu octets at %lld: no space\n", count, (long long)place);
		errno = ENOSPC;
		return -1;
	}
	if (is_chosen("HALF_WRITE", number))
		count /= 2;
	note("write %zu octets at %lld\n", count, (long long)place);
	return syscall(SYS_pwrite64, file, octets, count, place);
}

static int sync_by(long call, int file)
{
	static long number = 0;
	struct stat about;
	if (fstat(file, &about) == 0 && S_ISDIR(about.st_mode)) {
		note("sync folder\n");
		return syscall(call, file);
	}
	if (has_no_room(file))
		return -1;
	if (keeps_room(file))
		return syscall(call, file);
	number++;
	if (is_chosen("FAILED_SYNC", number)) {
		note("sync: failed\n");
		errno = EIO;
		return -1;
	}
	note("sync\n");
	return syscall(call, file);
}

int fsync(int file)
{
	return sync_by(SYS_fsync, file);
}

int fdatasync(int file)
{
	return sync_by(SYS_fdatasync, file);
}

int ftruncate(int file, off_t size)
{
	return has_no_room(file) ? -1 : syscall(SYS_ftruncate, file, size);
}
