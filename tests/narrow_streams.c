// Lets the program that it is preloaded into read standard input an octet at a call, and write three at most to
// standard output. After as many octets as READ_CUT or WRITE_CUT says such a call fails once, with the number in FAULT.
#define _GNU_SOURCE
#include <errno.h>
#include <stdlib.h>
#include <sys/syscall.h>
#include <unistd.h>

// What passed over a stream, and where it is to fail; -1 for nowhere.
struct stream {
	long passed, cut;
};

static struct stream input = {0, -1}, output = {0, -1};

static long number_in(const char *variable, long other)
{
	const char *number = getenv(variable);
	return number ? atol(number) : other;
}

__attribute__((constructor)) static void set_up(void)
{
	input.cut = number_in("READ_CUT", -1);
	output.cut = number_in("WRITE_CUT", -1);
}

static int fails(struct stream *stream)
{
	if (stream->passed != stream->cut)
		return 0;
	stream->cut = -1;
	errno = number_in("FAULT", EIO);
	return 1;
}

static ssize_t pass(struct stream *stream, ssize_t count)
{
	if (count > 0)
		stream->passed += count;
	return count;
}

ssize_t read(int file, void *octets, size_t count)
{
	if (file != STDIN_FILENO)
		return syscall(SYS_read, file, octets, count);
	if (fails(&input))
		return -1;
	return pass(&input, syscall(SYS_read, file, octets, count < 1 ? count : 1));
}

ssize_t write(int file, const void *octets, size_t count)
{
	if (file != STDOUT_FILENO)
		return syscall(SYS_write, file, octets, count);
	if (fails(&output))
		return -1;
	size_t most = 3;
	if (output.cut >= 0 && output.cut - output.passed < 3)
		most = output.cut - output.passed;
	return pass(&output, syscall(SYS_write, file, octets, count < most ? count : most));
}
