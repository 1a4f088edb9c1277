/*
 * A host with threads over the cache: a writer inserts upstream answers and publishes each next
 * snapshot, and readers ask, each by a handle of its own. The messages are those of a file of
 * frames (docs/FRAMES.md) on standard input.
 *
 *     cc -std=c11 -pthread -Iinclude examples/threads.c -ldnsreplay -o threads
 *     ./threads < frames
 */
#include "dnsreplay.h"
#include <pthread.h>
#include <stdio.h>
#include <stdlib.h>

enum { READERS = 3, ROUNDS = 20, QUERY = 1, UPSTREAM = 2 };

struct message {
	int kind;
	uint32_t now;
	size_t length;
	const uint8_t *octets;
};

/* A handle, and the place of the next one: the one stays open until the other is. */
struct seat {
	dnsreplay handles[2];
	int current;
};

/* What the writer published, and how often. `lock` guards `number`, `current` and that handle; the
 * other handle is the writer's. */
static pthread_mutex_t lock = PTHREAD_MUTEX_INITIALIZER;
static struct seat published = {{DNSREPLAY_CLOSED, DNSREPLAY_CLOSED}, 0};
static unsigned long number;

static uint8_t input[1 << 24];
static size_t input_length;

static void check(int32_t code)
{
	if (code != DNSREPLAY_OK) {
		fprintf(stderr, "code %d\n", (int)code);
		exit(1);
	}
}

/* The message of the frame at the offset, which goes on to the next; false where there is none. */
static bool next_message(size_t *at, struct message *message)
{
	const uint8_t *frame = input + *at;
	if (*at + 8 > input_length)
		return false;
	message->kind = frame[0];
	message->now = (uint32_t)frame[2] << 24 | (uint32_t)frame[3] << 16 | (uint32_t)frame[4] << 8 |
	               frame[5];
	message->length = (size_t)frame[6] << 8 | frame[7];
	message->octets = frame + 8;
	if (message->length > input_length - *at - 8)
		return false;
	*at += 8 + message->length;
	return true;
}

/* Publishes what the writer's handle has: readers copy it from then on. What was published twice
 * before is closed, which frees what no other handle has, while nobody waits for it. */
static void publish(dnsreplay *mine)
{
	dnsreplay *next = &published.handles[!published.current];
	dnsreplay_close(next);
	check(dnsreplay_copy(mine, next));
	pthread_mutex_lock(&lock);
	published.current = !published.current;
	number++;
	pthread_mutex_unlock(&lock);
}

/* Goes on to what was published last, where that is newer. The lock is held for a copy: two small
 * blocks of memory. */
static bool catch_up(struct seat *mine, unsigned long *seen)
{
	dnsreplay *before = &mine->handles[mine->current], *next = &mine->handles[!mine->current];
	bool is_newer;
	pthread_mutex_lock(&lock);
	is_newer = number != *seen;
	if (is_newer)
		check(dnsreplay_copy(&published.handles[published.current], next));
	*seen = number;
	pthread_mutex_unlock(&lock);
	if (is_newer) {
		dnsreplay_close(before);
		mine->current = !mine->current;
	}
	return is_newer;
}

struct told {
	unsigned long queries, answered, snapshots;
};

static void ask(struct seat *mine, const struct message *message, struct told *told)
{
	uint8_t reply[DNSREPLAY_MAX_REPLY] = {0};
	size_t written = 0;
	int32_t code = dnsreplay_query(&mine->handles[mine->current], message->octets, message->length,
	                               message->now, reply, sizeof reply, &written);
	told->queries++;
	if (code == DNSREPLAY_OK)
		told->answered++; /* a server sends `written` octets of `reply`, and else resolves the query */
}

static void *reader(void *place)
{
	struct told *told = place;
	struct seat mine = {{DNSREPLAY_CLOSED, DNSREPLAY_CLOSED}, 0};
	unsigned long seen = 0;
	for (int round = 0; round < ROUNDS; round++) {
		struct message message;
		for (size_t at = 0; next_message(&at, &message);) {
			if (message.kind != QUERY)
				continue;
			told->snapshots += catch_up(&mine, &seen);
			ask(&mine, &message, told);
		}
	}
	dnsreplay_close(&mine.handles[mine.current]); /* refused where nothing was asked */
	return NULL;
}

static unsigned long insert_all(dnsreplay *mine)
{
	struct message message;
	unsigned long refused = 0;
	for (size_t at = 0; next_message(&at, &message);) {
		dnsreplay_counts counts = {0, 0};
		if (message.kind != UPSTREAM)
			continue;
		if (dnsreplay_insert(mine, message.octets, message.length, message.now, &counts) == DNSREPLAY_OK)
			publish(mine);
		else
			refused++;
	}
	return refused;
}

int main(void)
{
	pthread_t threads[READERS];
	struct told told[READERS] = {{0, 0, 0}};
	dnsreplay mine = DNSREPLAY_CLOSED;
	unsigned long refused = 0;
	if (dnsreplay_version() != DNSREPLAY_VERSION)
		return 1;
	input_length = fread(input, 1, sizeof input, stdin);
	check(dnsreplay_open(&mine));
	publish(&mine);
	for (int i = 0; i < READERS; i++)
		if (pthread_create(&threads[i], NULL, reader, &told[i]) != 0)
			return 1;
	for (int round = 0; round < ROUNDS; round++)
		refused += insert_all(&mine);
	for (int i = 0; i < READERS; i++) {
		pthread_join(threads[i], NULL);
		printf("reader %d: %lu queries, %lu answered, by %lu snapshots\n", i, told[i].queries,
		       told[i].answered, told[i].snapshots);
	}
	printf("writer: %lu published, %lu refused, %zu records\n", number, refused,
	       dnsreplay_records(&mine));
	dnsreplay_close(&published.handles[0]); /* refused where nothing was stored */
	dnsreplay_close(&published.handles[1]);
	check(dnsreplay_close(&mine));
	return 0;
}
