// Lets the program that it is preloaded into read little from a connection, the first that it takes or makes, and write
// three octets at most to it at a call. A read gives READ_SIZE octets at most, and those of one line where READ_LINES
// is set. After as many octets as READ_CUT or WRITE_CUT says such a call fails once. READS and WRITES say how many
// octets the first calls give or take, a number and a space each; 0 stands for one that would block. The calls after
// those give and take all.
#define _GNU_SOURCE
#include <errno.h>
#include <netinet/in.h>
#include <netinet/tcp.h>
#include <stdlib.h>
#include <string.h>
#include <sys/socket.h>
#include <sys/syscall.h>
#include <unistd.h>

// What passed over the connection one way, and where it is to fail; -1 for nowhere. What its next calls take at most.
struct way {
	long passed, cut;
	const char *sizes;
};

static struct way in = {0, -1, NULL}, out = {0, -1, NULL};
static long most_read = 65536;
static int by_lines = 0, connection = -1;

static long number_in(const char *variable, long other)
{
	const char *number = getenv(variable);
	return number ? atol(number) : other;
}

__attribute__((constructor)) static void set_up(void)
{
	in.cut = number_in("READ_CUT", -1);
	out.cut = number_in("WRITE_CUT", -1);
	in.sizes = getenv("READS");
	out.sizes = getenv("WRITES");
	most_read = number_in("READ_SIZE", 65536);
	by_lines = number_in("READ_LINES", 0);
}

static int fails(struct way *way, int fault)
{
	if (way->passed != way->cut)
		return 0;
	way->cut = -1;
	errno = fault;
	return 1;
}

// How many octets the next call gives or takes at most: this many where nothing is said of it.
static long most_of(struct way *way, long other)
{
	if (!way->sizes)
		return other;
	if (!*way->sizes)
		return 65536;
	char *rest;
	long most = strtol(way->sizes, &rest, 10);
	way->sizes = *rest ? rest + 1 : rest;
	return most;
}

static int blocks(long most)
{
	errno = EAGAIN;
	return most == 0;
}

static ssize_t pass(struct way *way, ssize_t count)
{
	if (count > 0)
		way->passed += count;
	return count;
}

// Chooses the connection if it is the first. Its octets go at once: none wait for others, nor are lost with a reset.
static void choose(int file)
{
	int yes = 1;
	if (connection >= 0 || file < 0)
		return;
	connection = file;
	setsockopt(file, IPPROTO_TCP, TCP_NODELAY, &yes, sizeof yes);
}

int accept4(int listener, struct sockaddr *address, socklen_t *size, int flags)
{
	int file = syscall(SYS_accept4, listener, address, size, flags);
	choose(file);
	return file;
}

int connect(int file, const struct sockaddr *address, socklen_t size)
{
	choose(file);
	return syscall(SYS_connect, file, address, size);
}

static ssize_t take(int file, void *octets, size_t count, int flags)
{
	return syscall(SYS_recvfrom, file, octets, count, flags, NULL, NULL);
}

ssize_t recv(int file, void *octets, size_t count, int flags)
{
	if (file != connection)
		return take(file, octets, count, flags);
	if (fails(&in, ECONNRESET))
		return -1;
	long most = most_of(&in, most_read);
	if (blocks(most))
		return -1;
	if (count > (size_t)most)
		count = most;
	if (by_lines) {
		ssize_t there = take(file, octets, count, flags | MSG_PEEK);
		char *end = there > 0 ? memchr(octets, '\n', there) : NULL;
		if (end)
			count = end + 1 - (char *)octets;
	}
	return pass(&in, take(file, octets, count, flags));
}

// What the peer has said and nobody has read is read first: else it would be told of a reset, and what is still to be
// sent would be lost.
int close(int file)
{
	char octets[256];
	if (file == connection && shutdown(file, SHUT_WR) == 0)
		while (take(file, octets, sizeof octets, 0) > 0)
			continue;
	return syscall(SYS_close, file);
}

ssize_t send(int file, const void *octets, size_t count, int flags)
{
	if (file != connection)
		return syscall(SYS_sendto, file, octets, count, flags, NULL, 0);
	if (fails(&out, EPIPE))
		return -1;
	long most = most_of(&out, 3);
	if (blocks(most))
		return -1;
	if (out.cut >= 0 && out.cut - out.passed < most)
		most = out.cut - out.passed;
	return pass(&out, syscall(SYS_sendto, file, octets, count < (size_t)most ? count : (size_t)most, flags, NULL, 0));
}
