/* The frames of docs/FRAMES.md on standard input over the library, for one worker: what `dnsreplay replay --workers 1` writes. */
#include "dnsreplay.h"
#include <stdio.h>

enum { QUERY = 1, REPLY = 1, FORWARD, STORED, REFUSED, DROPPED, ERROR, STATUS_NO_MEMORY = 6 };

static uint8_t input[1 << 26];

static void put(int kind, uint32_t version, const uint8_t *body, size_t length)
{
	uint8_t head[8] = {(uint8_t)kind,           0,
	                   (uint8_t)(version >> 24), (uint8_t)(version >> 16),
	                   (uint8_t)(version >> 8),  (uint8_t)version,
	                   (uint8_t)(length >> 8),   (uint8_t)length};
	fwrite(head, 1, sizeof head, stdout);
	fwrite(body, 1, length, stdout);
}

/* Where there is no memory the handle answers as before, so the call is made once more. */
static int insert(dnsreplay *cache, const uint8_t *message, size_t length, uint32_t now, uint32_t *version)
{
	dnsreplay_counts counts = {0, 0};
	int32_t code = dnsreplay_insert(cache, message, length, now, &counts);
	if (code == DNSREPLAY_NO_MEMORY)
		code = dnsreplay_insert(cache, message, length, now, &counts);
	if (code == DNSREPLAY_OK) {
		uint8_t body[4] = {(uint8_t)(counts.stored >> 8), (uint8_t)counts.stored, (uint8_t)(counts.skipped >> 8),
		                   (uint8_t)counts.skipped};
		put(STORED, ++*version, body, sizeof body);
	} else {
		uint8_t body = (uint8_t)(-16 - code);
		if (code == DNSREPLAY_NO_MEMORY || counts.stored != 0 || counts.skipped != 0)
			return 1;
		put(REFUSED, 0, &body, 1);
	}
	return 0;
}

static int query(dnsreplay *cache, const uint8_t *message, size_t length, uint32_t now, uint32_t version)
{
	static uint8_t reply[DNSREPLAY_MAX_REPLY];
	size_t written = 0;
	switch (dnsreplay_query(cache, message, length, now, reply, sizeof reply, &written)) {
	case DNSREPLAY_OK: put(REPLY, version, reply, written); return 0;
	case DNSREPLAY_FORWARD: put(FORWARD, version, reply, written); return 0;
	case DNSREPLAY_DROPPED: put(DROPPED, 0, reply, written); return 0;
	case DNSREPLAY_ERROR: put(ERROR, 0, reply, written); return 0;
	default: return 1;
	}
}

int main(void)
{
	size_t length = fread(input, 1, sizeof input, stdin);
	uint32_t version = 0;
	dnsreplay cache = DNSREPLAY_CLOSED;
	int wrong = 0;
	if (dnsreplay_version() != DNSREPLAY_VERSION)
		return 1;
	if (dnsreplay_open(&cache) != DNSREPLAY_OK && dnsreplay_open(&cache) != DNSREPLAY_OK)
		return STATUS_NO_MEMORY;
	for (size_t at = 0; at + 8 <= length && !wrong;) {
		const uint8_t *frame = input + at, *message = frame + 8;
		uint32_t now = (uint32_t)frame[2] << 24 | (uint32_t)frame[3] << 16 | (uint32_t)frame[4] << 8 | frame[5];
		size_t octets = (size_t)frame[6] << 8 | frame[7];
		at += 8 + octets;
		wrong = frame[0] == QUERY ? query(&cache, message, octets, now, version) : insert(&cache, message, octets, now, &version);
	}
	return wrong || dnsreplay_close(&cache) != DNSREPLAY_OK || dnsreplay_close(&cache) != DNSREPLAY_WRONG_STATE;
}
