// A next hop for measurements: answers every command well, up to 32 connections side by side, until so many contents
// have come. It writes its port as a line, and ends after the last content.
//
//   sink COUNT
#define _GNU_SOURCE
#include <netinet/in.h>
#include <netinet/tcp.h>
#include <pthread.h>
#include <stdatomic.h>
#include <stdio.h>
#include <stdlib.h>
#include <string.h>
#include <sys/socket.h>
#include <unistd.h>

#define SIDE_BY_SIDE 32

// A connection: what was read from it and isn't used yet, and the replies that aren't written yet.
struct link {
	int socket;
	size_t size, said;
	char held[1 << 17], replies[1 << 12];
};

static atomic_long awaited;
static int listener;

// Writes the replies; whether all of them went out.
static int flush(struct link *link)
{
	size_t said = link->said;
	link->said = 0;
	return said == 0 || write(link->socket, link->replies, said) == (ssize_t)said;
}

// Reads more after what is held, when all replies are written; whether there was some.
static int more(struct link *link)
{
	if (!flush(link))
		return 0;
	ssize_t count = read(link->socket, link->held + link->size, sizeof link->held - link->size);
	if (count <= 0)
		return 0;
	link->size += (size_t)count;
	return 1;
}

static void drop(struct link *link, size_t count)
{
	link->size -= count;
	memmove(link->held, link->held + count, link->size);
}

// Says a reply. Those to commands that came together go out together (RFC 2920).
static int say(struct link *link, const char *text)
{
	size_t length = strlen(text);
	if (link->said + length > sizeof link->replies && !flush(link))
		return 0;
	memcpy(link->replies + link->said, text, length);
	link->said += length;
	return 1;
}

// Reads a dot text to its end, and forgets it. An empty one has no line before its period.
static int pass_content(struct link *link)
{
	while (link->size < 3)
		if (!more(link))
			return 0;
	if (memcmp(link->held, ".\r\n", 3) == 0) {
		drop(link, 3);
		return 1;
	}
	for (;;) {
		char *end = memmem(link->held, link->size, "\r\n.\r\n", 5);
		if (end) {
			drop(link, (size_t)(end - link->held) + 5);
			return 1;
		}
		if (link->size > 4)
			drop(link, link->size - 4);
		if (!more(link))
			return 0;
	}
}

// Takes a content; whether the connection goes on. The program ends after the last one, when its reply is written.
static int take_content(struct link *link)
{
	if (!say(link, "354 go on\r\n") || !flush(link) || !pass_content(link))
		return 0;
	int is_said = say(link, "250 taken\r\n") && flush(link);
	if (atomic_fetch_sub(&awaited, 1) == 1)
		exit(0);
	return is_said;
}

// Answers a command; whether the connection goes on.
static int answer(struct link *link, const char *line)
{
	if (strncasecmp(line, "EHLO", 4) == 0)
		return say(link, "250-sink.example\r\n250-PIPELINING\r\n250 DSN\r\n");
	if (strncasecmp(line, "DATA", 4) == 0)
		return take_content(link);
	if (strncasecmp(line, "QUIT", 4) == 0) {
		say(link, "221 closing\r\n");
		flush(link);
		return 0;
	}
	return say(link, "250 ok\r\n");
}

static void converse(struct link *link)
{
	char line[8];
	int goes_on = say(link, "220 sink.example ready\r\n");
	while (goes_on) {
		char *end = memmem(link->held, link->size, "\r\n", 2);
		if (!end) {
			goes_on = more(link);
			continue;
		}
		snprintf(line, sizeof line, "%.*s", (int)(end - link->held), link->held);
		drop(link, (size_t)(end - link->held) + 2);
		goes_on = answer(link, line);
	}
}

// Takes one connection after another. Each thread waits for its own, so that none has to be started for a connection.
static void *take_connections(void *given)
{
	struct link *link = given;
	int on = 1;
	for (;;) {
		link->socket = accept(listener, NULL, NULL);
		if (link->socket < 0)
			exit(1);
		link->size = link->said = 0;
		setsockopt(link->socket, IPPROTO_TCP, TCP_NODELAY, &on, sizeof on);
		converse(link);
		close(link->socket);
	}
	return NULL;
}

int main(int count, char **words)
{
	static struct link links[SIDE_BY_SIDE];
	struct sockaddr_in place = {.sin_family = AF_INET, .sin_addr.s_addr = htonl(INADDR_LOOPBACK)};
	socklen_t length = sizeof place;
	listener = socket(AF_INET, SOCK_STREAM, 0);
	if (count != 2 || bind(listener, (struct sockaddr *)&place, length) || listen(listener, 128)
	    || getsockname(listener, (struct sockaddr *)&place, &length))
		return 1;
	awaited = atol(words[1]);
	printf("%d\n", ntohs(place.sin_port));
	fflush(stdout);
	for (int number = 1; number < SIDE_BY_SIDE; number++) {
		pthread_t thread;
		if (pthread_create(&thread, NULL, take_connections, &links[number]))
			return 1;
	}
	take_connections(&links[0]);
}
