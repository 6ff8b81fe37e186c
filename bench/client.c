// A client for measurements: hands in messages at one connection, or at one each. When it is there, and connected where
// it keeps its connection, it writes a line, and waits for one; then it hands in, writes the moments of the monotonic
// clock at which that began and ended as a line, and stays until its input ends.
//
//   client PORT COUNT OCTETS kept|each
#define _GNU_SOURCE
#include <netinet/in.h>
#include <netinet/tcp.h>
#include <stdio.h>
#include <stdlib.h>
#include <string.h>
#include <sys/socket.h>
#include <time.h>
#include <unistd.h>

static const char group[] = "MAIL FROM:<a@out.example>\r\nRCPT TO:<b@out.example>\r\nDATA\r\n";

// A connection, and what was read from it and isn't used yet.
struct link {
	int socket;
	size_t size;
	char held[4096];
};

static void fail(const char *text)
{
	fprintf(stderr, "client: %s\n", text);
	exit(1);
}

static void say(struct link *link, const char *text, size_t length)
{
	while (length > 0) {
		ssize_t count = write(link->socket, text, length);
		if (count <= 0)
			fail("the relay hung up");
		text += count;
		length -= (size_t)count;
	}
}

// Reads so many replies, each of which has to be 2yz or 354.
static void hear(struct link *link, int count)
{
	while (count > 0) {
		char *end = memmem(link->held, link->size, "\r\n", 2);
		if (!end) {
			ssize_t more = read(link->socket, link->held + link->size, sizeof link->held - link->size);
			if (more <= 0)
				fail("the relay hung up");
			link->size += (size_t)more;
			continue;
		}
		if (end - link->held < 4 || (link->held[0] != '2' && memcmp(link->held, "354", 3) != 0))
			fail("a reply says that something is wrong");
		if (link->held[3] == ' ')
			count--;
		link->size -= (size_t)(end + 2 - link->held);
		memmove(link->held, end + 2, link->size);
	}
}

static void begin(struct link *link, int port)
{
	struct sockaddr_in place = {
		.sin_family = AF_INET, .sin_port = htons((unsigned short)port), .sin_addr.s_addr = htonl(INADDR_LOOPBACK)};
	int on = 1;
	link->size = 0;
	link->socket = socket(AF_INET, SOCK_STREAM, 0);
	if (connect(link->socket, (struct sockaddr *)&place, sizeof place))
		fail("nobody listens");
	setsockopt(link->socket, IPPROTO_TCP, TCP_NODELAY, &on, sizeof on);
	hear(link, 1);
	say(link, "EHLO client.example\r\n", 21);
	hear(link, 1);
}

static void end(struct link *link)
{
	say(link, "QUIT\r\n", 6);
	hear(link, 1);
	close(link->socket);
}

// A content of so many octets, in lines of 64 and one of 1 to 64 more, with its end and the next message's commands.
static char *text_of(size_t octets, size_t *length)
{
	static const char head[] = "Subject: load\r\n\r\n", behind[] = ".\r\n";
	char *text = malloc(octets + sizeof behind + sizeof group);
	if (!text || octets < sizeof head + 2)
		fail("the octets are too many or too few");
	memset(text, 'x', octets);
	memcpy(text, head, sizeof head - 1);
	for (size_t place = sizeof head - 1 + 62; place + 2 < octets; place += 64)
		memcpy(text + place, "\r\n", 2);
	memcpy(text + octets - 2, "\r\n", 2);
	memcpy(text + octets, behind, sizeof behind - 1);
	*length = octets + sizeof behind - 1;
	memcpy(text + *length, group, sizeof group);
	return text;
}

// Hands in so many messages. A text, and the group before the next one, are one write (RFC 2920).
static void hand_in(struct link *link, const char *text, size_t length, long count)
{
	say(link, group, sizeof group - 1);
	hear(link, 3);
	for (; count > 1; count--) {
		say(link, text, length + sizeof group - 1);
		hear(link, 4);
	}
	say(link, text, length);
	hear(link, 1);
}

static double now(void)
{
	struct timespec at;
	clock_gettime(CLOCK_MONOTONIC, &at);
	return (double)at.tv_sec + (double)at.tv_nsec / 1e9;
}

// Says that it is ready, and waits for a line.
static void await_word(void)
{
	int octet;
	puts("ready");
	fflush(stdout);
	while ((octet = getchar()) != '\n')
		if (octet == EOF)
			exit(0);
}

int main(int count, char **words)
{
	static struct link link;
	if (count != 5)
		fail("the words are PORT COUNT OCTETS kept|each");
	int port = atoi(words[1]), is_kept = strcmp(words[4], "kept") == 0;
	long messages = atol(words[2]);
	size_t length;
	char *text = text_of((size_t)atol(words[3]), &length);
	if (is_kept)
		begin(&link, port);
	await_word();
	double begun = now();
	if (is_kept)
		hand_in(&link, text, length, messages);
	for (; !is_kept && messages > 0; messages--) {
		begin(&link, port);
		hand_in(&link, text, length, 1);
		end(&link);
	}
	printf("%.6f %.6f\n", begun, now());
	fflush(stdout);
	while (getchar() != EOF)
		;
	return 0;
}
