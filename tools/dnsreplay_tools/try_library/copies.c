/* So many copies, each closed again, of a handle into which the answers among the frames on standard input went. */
#include "dnsreplay.h"
#include <stdio.h>
#include <stdlib.h>

enum { UPSTREAM = 2 };

static uint8_t input[1 << 26];

int main(int count, char **words)
{
	size_t length = fread(input, 1, sizeof input, stdin);
	dnsreplay cache = DNSREPLAY_CLOSED, other = DNSREPLAY_CLOSED;
	dnsreplay_counts counts = {0, 0};
	if (count != 2 || dnsreplay_open(&cache) != DNSREPLAY_OK)
		return 1;
	for (size_t at = 0; at + 8 <= length;) {
		const uint8_t *frame = input + at;
		uint32_t now = (uint32_t)frame[2] << 24 | (uint32_t)frame[3] << 16 | (uint32_t)frame[4] << 8 | frame[5];
		size_t octets = (size_t)frame[6] << 8 | frame[7];
		if (frame[0] == UPSTREAM && dnsreplay_insert(&cache, frame + 8, octets, now, &counts) != DNSREPLAY_OK)
			return 1;
		at += 8 + octets;
	}
	for (long left = atol(words[1]); left > 0; left--)
		if (dnsreplay_copy(&cache, &other) != DNSREPLAY_OK || dnsreplay_close(&other) != DNSREPLAY_OK)
			return 1;
	return dnsreplay_close(&cache) != DNSREPLAY_OK;
}
