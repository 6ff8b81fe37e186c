// The least that a relay does, for measurements: the dialogues, writes and syncs of relayd in the same turns, with
// fixed replies and records of the same size, and nothing else. It judges nothing, knows no timeout and keeps no book.
// What it takes is what any relay takes that answers a client after two syncs and holds a dialogue of five turns for
// each message that it hands on.
//
//   floor init  PORT HOP FILE
//   floor serve PORT HOP FILE [--rounds ROUNDS]
//   floor push  PORT HOP FILE
//   floor list  PORT HOP FILE
//
// It listens on PORT, hands on to HOP, and keeps its messages in FILE, all of them of one size.
#define _GNU_SOURCE
#include <fcntl.h>
#include <netinet/in.h>
#include <netinet/tcp.h>
#include <stdint.h>
#include <stdio.h>
#include <stdlib.h>
#include <string.h>
#include <sys/socket.h>
#include <unistd.h>

// The octets of a record before its content, those of its time stamp line among them, and of an outcome's record. The
// last octet of a record is the gate of the next.
#define HEAD 173
#define STAMP 118
#define OUTCOME 43

static const char greeting[] = "220 relay.example ESMTP relay ready\r\n";
static const char offers[] = "250-relay.example\r\n250-PIPELINING\r\n250-CHUNKING\r\n250 DSN\r\n";
static const char taken_group[] = "250 sender OK\r\n250 recipient OK\r\n354 end with a line of one period\r\n";
static const char queued[] = "250 queued as 1\r\n";
static const char closing[] = "221 relay.example closing\r\n";
static const char group[] = "MAIL FROM:<a@out.example>\r\nRCPT TO:<b@out.example>\r\n";

// What was read from a connection and isn't used yet.
struct link {
	int socket;
	size_t size;
	char held[1 << 21];
};

static struct link client, hop;
static int file, hop_port;
static off_t end;

static void fail(const char *text)
{
	fprintf(stderr, "floor: %s\n", text);
	exit(1);
}

static void say(struct link *link, const char *text, size_t length)
{
	while (length > 0) {
		ssize_t count = write(link->socket, text, length);
		if (count <= 0)
			fail("the other end hung up");
		text += count;
		length -= (size_t)count;
	}
}

// Reads more after what is held; whether there was some.
static int more(struct link *link)
{
	ssize_t count = read(link->socket, link->held + link->size, sizeof link->held - link->size);
	if (count <= 0)
		return 0;
	link->size += (size_t)count;
	return 1;
}

static void drop(struct link *link, size_t count)
{
	link->size -= count;
	memmove(link->held, link->held + count, link->size);
}

// Adds a record as a spool does: the octets after the end, a sync, the gate before them, a sync.
static void add(const char *octets, size_t length)
{
	if (pwrite(file, octets, length, end) != (ssize_t)length || fdatasync(file)
	    || pwrite(file, "\1", 1, end - 1) != 1 || fdatasync(file))
		fail("the file failed");
	end += (off_t)length;
}

// Reads until so many lines have come, and forgets them.
static void hear(struct link *link, int lines)
{
	size_t place = 0;
	while (lines > 0) {
		char *line_end = memmem(link->held + place, link->size - place, "\r\n", 2);
		if (line_end) {
			place = (size_t)(line_end - link->held) + 2;
			lines--;
		} else if (!more(link))
			fail("the next hop hung up");
	}
	drop(link, place);
}

static void set_up(struct link *link)
{
	int on = 1;
	link->size = 0;
	setsockopt(link->socket, IPPROTO_TCP, TCP_NODELAY, &on, sizeof on);
}

// Writes the time stamp line and the content of a record, and their end. What stands after the content is put back.
static void say_text(char *record, size_t length)
{
	char behind[3], *content_end = record + length - 1;
	memcpy(behind, content_end, sizeof behind);
	memcpy(content_end, ".\r\n", sizeof behind);
	say(&hop, record + HEAD - STAMP, (size_t)(content_end - record) - HEAD + STAMP + sizeof behind);
	memcpy(content_end, behind, sizeof behind);
}

// Hands the text of a record on, at a connection of its own, adds the outcome, and writes the line of that.
static void hand_on(long number, char *record, size_t length)
{
	static const char outcome[OUTCOME];
	struct sockaddr_in place = {.sin_family = AF_INET, .sin_port = htons((unsigned short)hop_port),
		.sin_addr.s_addr = htonl(INADDR_LOOPBACK)};
	char line[64];
	hop.socket = socket(AF_INET, SOCK_STREAM, 0);
	if (connect(hop.socket, (struct sockaddr *)&place, sizeof place))
		fail("no next hop listens");
	set_up(&hop);
	hear(&hop, 1);
	say(&hop, "EHLO relay.example\r\n", 20);
	hear(&hop, 3);
	say(&hop, group, sizeof group - 1);
	hear(&hop, 2);
	say(&hop, "DATA\r\n", 6);
	hear(&hop, 1);
	say_text(record, length);
	hear(&hop, 1);
	add(outcome, sizeof outcome);
	say(&hop, "QUIT\r\n", 6);
	close(hop.socket);
	int count = snprintf(line, sizeof line, "%ld next.example ended\n", number);
	if (write(1, line, (size_t)count) != count)
		fail("the output failed");
}

// Reads a client's connection until this text has come; where it ends, counted from the first octet that is held, and 0
// where the client hangs up.
static size_t await(const char *text)
{
	size_t length = strlen(text), looked = 0;
	char *found;
	while (!(found = memmem(client.held + looked, client.size - looked, text, length))) {
		looked = client.size < length ? 0 : client.size - length + 1;
		if (!more(&client))
			return 0;
	}
	return (size_t)(found - client.held) + length;
}

// Takes a content behind its time stamp line into a record, and adds that. The record's length is answered; 0 where the
// client hangs up.
static size_t take_content(char *record)
{
	size_t length = await("\r\n.\r\n");
	if (length == 0)
		return 0;
	uint32_t size = (uint32_t)(HEAD + length - 3 + 1);
	memcpy(record, &size, sizeof size);
	memcpy(record + HEAD, client.held, length - 3);
	record[size - 1] = 0;
	add(record, size);
	drop(&client, length);
	return size;
}

// Serves a client to its end; the length of its last record is answered. Replies to what came together go out together.
static size_t serve_client(char *record)
{
	size_t length = 0;
	set_up(&client);
	say(&client, greeting, sizeof greeting - 1);
	while (more(&client)) {
		char replies[256] = "", first = client.held[0];
		if (first == 'S' && (length = take_content(record)) > 0)
			strcat(replies, queued);
		if (client.size > 0 && client.held[0] == 'M' && await("DATA\r\n") > 0) {
			strcat(replies, taken_group);
			client.size = 0;
		}
		if (first == 'E' && await("\r\n") > 0)
			strcat(replies, offers);
		if (first == 'Q' && await("\r\n") > 0)
			strcat(replies, closing);
		if (replies[0] == 0)
			return 0;
		if (first == 'E' || first == 'Q')
			client.size = 0;
		say(&client, replies, strlen(replies));
		if (first == 'Q')
			return length;
	}
	return length;
}

static void serve(int port, long rounds)
{
	static char record[1 << 21];
	struct sockaddr_in place = {
		.sin_family = AF_INET, .sin_port = htons((unsigned short)port), .sin_addr.s_addr = htonl(INADDR_LOOPBACK)};
	int listener = socket(AF_INET, SOCK_STREAM, 0), on = 1;
	setsockopt(listener, SOL_SOCKET, SO_REUSEADDR, &on, sizeof on);
	if (bind(listener, (struct sockaddr *)&place, sizeof place) || listen(listener, 128))
		fail("no listening there");
	memset(record, 'r', HEAD);
	for (long round = 1; round <= rounds; round++) {
		client.socket = accept(listener, NULL, NULL);
		size_t length = serve_client(record);
		close(client.socket);
		if (length > 0)
			hand_on(round, record, length);
	}
}

// The length of the records, which stand in the file from its second octet on, all of one size.
static uint32_t record_length(void)
{
	uint32_t length = 0;
	if (end > 1 && pread(file, &length, sizeof length, 1) != sizeof length)
		fail("the file can't be read");
	return length;
}

// Reads the file whole, and hands each message on.
static void push(void)
{
	size_t size = (size_t)end, length = record_length();
	char *records = malloc(size + 3);
	if (!records || pread(file, records, size, 0) != (ssize_t)size)
		fail("the file can't be read");
	for (size_t place = 1; place < size; place += length)
		hand_on((long)(place / length) + 1, records + place, length);
}

// A line for each message.
static void list(void)
{
	uint32_t length = record_length();
	for (off_t place = 1; place < end; place += length)
		printf("%ld 0 <b@out.example> 0\n", (long)(place / length) + 1);
}

int main(int count, char **words)
{
	if (count != 5 && count != 7)
		fail("the words are init|serve|push|list PORT HOP FILE [--rounds ROUNDS]");
	hop_port = atoi(words[3]);
	file = open(words[4], O_RDWR | O_CREAT, 0600);
	end = lseek(file, 0, SEEK_END);
	if (strcmp(words[1], "init") == 0)
		return ftruncate(file, 0) || pwrite(file, "", 1, 0) != 1 || fdatasync(file);
	if (strcmp(words[1], "serve") == 0)
		serve(atoi(words[2]), count == 7 ? atol(words[6]) : 1);
	if (strcmp(words[1], "push") == 0)
		push();
	if (strcmp(words[1], "list") == 0)
		list();
	return 0;
}
