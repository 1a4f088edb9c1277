// The calls from C++, each code that needs no message: what they return, and what they leave.
#include "dnsreplay.h"
#include <cstdio>
#include <cstring>

static int failed = 0;

static void check(bool holds, const char *what)
{
	if (!holds) {
		std::printf("wrong: %s\n", what);
		failed = 1;
	}
}

// The stored example: an answer that denies a.example TXT by its NSEC record, and that query (docs/FRAMES.md).
static uint8_t answer[1024], question[512];
static size_t answer_length, question_length;

static bool read_example()
{
	uint8_t head[8];
	for (int kind = 0; std::fread(head, 1, sizeof head, stdin) == sizeof head;) {
		size_t length = static_cast<size_t>(head[6] << 8 | head[7]);
		uint8_t *place = (kind = head[0]) == 2 ? answer : question;
		if (length > (kind == 2 ? sizeof answer : sizeof question) || std::fread(place, 1, length, stdin) != length)
			return false;
		(kind == 2 ? answer_length : question_length) = length;
	}
	return answer_length != 0 && question_length != 0;
}

static const uint32_t NOW = 1000000000;

static void by_room(dnsreplay *cache)
{
	uint8_t whole[DNSREPLAY_MAX_REPLY], room[DNSREPLAY_MAX_REPLY + 1];
	size_t length = 77, written = 77;
	std::memset(whole, 0x55, sizeof whole);
	check(dnsreplay_query(cache, question, question_length, NOW, whole, sizeof whole, &length) == DNSREPLAY_OK, "an answer");
	check(length >= 12 && length < sizeof whole && whole[length] == 0x55, "behind the reply nothing is written");
	std::memset(room, 0xAA, sizeof room);
	check(dnsreplay_query(cache, question, question_length, NOW, room, length - 1, &written) == DNSREPLAY_NO_ROOM, "one octet too small");
	check(written == 77 && room[0] == 0xAA && room[length - 2] == 0xAA, "without room nothing is written");
	check(dnsreplay_query(cache, question, question_length, NOW, room, length, &written) == DNSREPLAY_OK, "room for just the reply");
	check(written == length && std::memcmp(room, whole, length) == 0 && room[length] == 0xAA, "the same reply");
}

int main()
{
	dnsreplay cache = DNSREPLAY_CLOSED, other = DNSREPLAY_CLOSED;
	dnsreplay_counts counts = {7, 7};
	uint8_t room[DNSREPLAY_MAX_REPLY] = {0};
	size_t written = 77;
	check(read_example(), "the example on standard input");
	check(dnsreplay_version() == DNSREPLAY_VERSION, "the version");

	check(dnsreplay_close(&cache) == DNSREPLAY_WRONG_STATE, "close a closed one");
	check(dnsreplay_records(&cache) == 0, "records of a closed one");
	check(dnsreplay_copy(&cache, &other) == DNSREPLAY_WRONG_STATE, "copy a closed one");
	check(dnsreplay_insert(&cache, answer, answer_length, NOW, &counts) == DNSREPLAY_WRONG_STATE && counts.stored == 7, "insert into it");
	check(dnsreplay_query(&cache, question, question_length, NOW, room, sizeof room, &written) == DNSREPLAY_WRONG_STATE && written == 77,
	      "ask it");

	check(dnsreplay_open(&cache) == DNSREPLAY_OK && dnsreplay_open(&cache) == DNSREPLAY_WRONG_STATE, "open twice");
	check(dnsreplay_query(&cache, question, question_length, NOW, room, sizeof room, &written) == DNSREPLAY_FORWARD && written == 0, "forward");
	check(dnsreplay_query(&cache, question, 11, NOW, room, sizeof room, &written) == DNSREPLAY_DROPPED && written == 0, "dropped");
	check(dnsreplay_query(&cache, question, 12, NOW, room, sizeof room, &written) == DNSREPLAY_ERROR && written == 12, "an error");
	check(dnsreplay_copy(&cache, &other) == DNSREPLAY_OK && dnsreplay_copy(&cache, &other) == DNSREPLAY_WRONG_STATE, "copy twice");
	check(dnsreplay_insert(&cache, answer, 11, NOW, &counts) == DNSREPLAY_NOT_A_MESSAGE && counts.stored == 7, "a short answer");
	check(dnsreplay_insert(&cache, answer, answer_length, NOW, &counts) == DNSREPLAY_OK && counts.stored != 0 && counts.skipped == 0, "insert");
	check(dnsreplay_records(&cache) == counts.stored && dnsreplay_records(&other) == 0, "an insert changes one handle");
	by_room(&cache);
	check(dnsreplay_query(&other, question, question_length, NOW, room, sizeof room, &written) == DNSREPLAY_FORWARD, "the copy as before");
	check(dnsreplay_close(&cache) == DNSREPLAY_OK && dnsreplay_close(&cache) == DNSREPLAY_WRONG_STATE, "close twice");
	check(dnsreplay_records(&other) == 0 && dnsreplay_close(&other) == DNSREPLAY_OK, "close the copy");
	return failed;
}
