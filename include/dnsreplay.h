/*
 * dnsreplay.h: the aggressive cache of a validating DNS resolver (RFC 8198), for C.
 *
 * A name or a type that held, validated denials prove absent is denied at once, so that floods of
 * random names don't reach the authoritative servers. The host gives the cache the octets of
 * validated answers; it asks it with the octets of queries, and gets the octets of a reply, or the
 * word to resolve the query itself.
 *
 *     dnsreplay cache = DNSREPLAY_CLOSED;
 *     dnsreplay_counts counts = {0, 0};
 *     static uint8_t reply[DNSREPLAY_MAX_REPLY];
 *     size_t written = 0;
 *
 *     if (dnsreplay_open(&cache) != DNSREPLAY_OK)
 *             return no_memory();
 *     dnsreplay_insert(&cache, answer, answer_length, now, &counts);
 *     switch (dnsreplay_query(&cache, query, query_length, now, reply, sizeof reply, &written)) {
 *     case DNSREPLAY_OK:
 *     case DNSREPLAY_ERROR:
 *             send(client, reply, written, 0);
 *             break;
 *     case DNSREPLAY_FORWARD:
 *             resolve(query, query_length);
 *             break;
 *     case DNSREPLAY_DROPPED:
 *             break;
 *     }
 *     dnsreplay_close(&cache);
 *
 * WHAT IS PROVED, AND WHAT THE CALLER OWES. What each call does is proved for every argument that
 * its comment allows: which code it returns and exactly when, the octets that it writes, what the
 * handle stands for after it, and that an answer (OK) says what every zone says of which the
 * records that it used are true. Nothing checks the C program. So each "must" below is the
 * caller's: the places that are passed are distinct, valid and initialised, only the library has
 * filled a handle, and a handle serves one call at a time. Where one isn't kept nothing is
 * promised, as with any C library. AD in an answer is taken at its word: the cache verifies no
 * signature. Insert nothing that the resolver hasn't validated.
 *
 * HANDLES. A handle, `dnsreplay`, is a snapshot of the cache: an insert changes the handle that it
 * is given, and no copy of it. The caller owns the words of the handle and may place them anywhere;
 * what they stand for is the library's. A handle must begin as DNSREPLAY_CLOSED, must never be
 * copied by assignment or memcpy while it is open (use dnsreplay_copy), and is freed by
 * dnsreplay_close. Its fields are private. A handle that is closed twice is refused by
 * DNSREPLAY_WRONG_STATE.
 *
 * THREADS. A handle serves one call at a time, and a query is a call. So give each thread a handle
 * of its own, by dnsreplay_copy, which takes two small blocks of memory and no time that grows with
 * the cache: copies share all records. Calls on different handles may run at the same time, also
 * where these are copies of one another; no call waits, takes a lock, starts a thread or sleeps. To
 * publish inserts, one thread inserts into a handle of its own and copies it to the readers by
 * whatever the host has: a mutex held for the copy, a queue, RCU. A handle may go to another thread
 * in the order that a mutex, the start or join of a thread, or a sequentially consistent atomic
 * gives.
 *
 * MEMORY. Memory is taken by malloc and realloc and given back by free. A call that finds none
 * returns DNSREPLAY_NO_MEMORY, and all is as it was. dnsreplay_query, dnsreplay_close and
 * dnsreplay_records never need more: closing gives back, and a query and a count take none. A
 * snapshot holds 131,072 records at most: what expires first makes room. Copies that stay open keep
 * what they hold. 64 kB of stack are enough.
 *
 * THE REST OF THE PROCESS. Beside these three functions the library calls memcpy, memmove and
 * memset, and nothing else. No call aborts, raises a signal, prints, or reads a file, the clock or
 * the environment, and nothing is kept but behind handles. Call none from a signal handler, or in
 * the child of a fork of a process with threads before exec.
 *
 * TIME. `now` is in seconds since 1970, modulo 2^32 (RFC 4034, section 3.1.5, reads the times of
 * signatures so). Give the host's clock. A smaller moment than that of an insert is allowed and
 * safe; the TTLs are then those of the insert.
 */
#ifndef DNSREPLAY_H
#define DNSREPLAY_H

#include <stdbool.h>
#include <stddef.h>
#include <stdint.h>

#ifdef __cplusplus
extern "C" {
#endif

/* The header's version, which a program compares with dnsreplay_version(). */
#define DNSREPLAY_VERSION 1

/* The most octets of a reply. A buffer of so many is never too small. */
#define DNSREPLAY_MAX_REPLY 1232

/*
 * What calls return. Codes from 0 are outcomes, those below 0 faults, after which all is as it was:
 * handles, counts and buffers. Those from -17 on are of an insert, of which the first cause in the
 * order below is told.
 */
enum {
	/* Done; of a query, that the reply is an answer or a denial. */
	DNSREPLAY_OK = 0,
	/* Of a query: the records held prove no answer, so the host resolves it. There is no reply. */
	DNSREPLAY_FORWARD = 1,
	/* Of a query: it has fewer than 12 octets, or is a response, and gets no reply. */
	DNSREPLAY_DROPPED = 2,
	/* Of a query: the reply tells its fault, by RCODE 1 (FORMERR), 4 (NOTIMP) or 16 (BADVERS). */
	DNSREPLAY_ERROR = 3,
	/* There is no memory. */
	DNSREPLAY_NO_MEMORY = -1,
	/* The reply has more octets than the buffer. */
	DNSREPLAY_NO_ROOM = -2,
	/* The handle is closed where it has to be open, or the other way round. */
	DNSREPLAY_WRONG_STATE = -3,
	/* The octets aren't a message of one question. */
	DNSREPLAY_NOT_A_MESSAGE = -17,
	/* The message isn't the response to a standard query. */
	DNSREPLAY_NOT_AN_ANSWER = -18,
	/* The message is truncated: TC is set. */
	DNSREPLAY_TRUNCATED = -19,
	/* Its extended RCODE is neither 0 (NOERROR) nor 3 (NXDOMAIN). */
	DNSREPLAY_OTHER_RCODE = -23,
	/* It wasn't validated: AD is clear. */
	DNSREPLAY_NOT_VALIDATED = -20,
	/* It has no signed RRset that is stored. */
	DNSREPLAY_NOTHING_STORED = -21
};

/* A handle of one snapshot. Its fields are private. */
typedef struct dnsreplay {
	void *at_;
	bool is_open_;
} dnsreplay;

/* How every handle begins. */
#define DNSREPLAY_CLOSED { NULL, false }

/* How much of an answer was stored. */
typedef struct dnsreplay_counts {
	uint64_t stored;  /* records, each a signed RRset or a denial record */
	uint32_t skipped; /* groups of records of one owner name, type and class that aren't stored */
} dnsreplay_counts;

/*
 * Opens a closed handle on a cache that holds nothing. `cache` must be a handle. It returns OK,
 * NO_MEMORY, or WRONG_STATE where the handle was open.
 */
int32_t dnsreplay_open(dnsreplay *cache);

/*
 * Closes an open handle; what no other handle has is freed, in time that grows with it. It returns
 * OK, or WRONG_STATE where the handle was closed, and then nothing is done.
 */
int32_t dnsreplay_close(dnsreplay *cache);

/*
 * Opens `other`, a closed handle, on the snapshot of `cache`, an open one, which stays as it is.
 * They must be two handles. It returns OK, NO_MEMORY, or WRONG_STATE where `cache` was closed or
 * `other` open.
 */
int32_t dnsreplay_copy(dnsreplay *cache, dnsreplay *other);

/*
 * Stores what a validated answer has at a moment: the handle goes on to the next snapshot. `octets`
 * has `length` of them, the whole DNS message with AD set (no TCP length before it), and may be any
 * octets. It must not be NULL, not even for 0 octets, nor overlap `counts` or the handle. `counts`
 * must be initialised. It returns OK and writes `counts`; or else NO_MEMORY, WRONG_STATE where the
 * handle was closed, or why nothing is stored, by a code from -17 on, and the handle and `counts`
 * are as they were.
 */
int32_t dnsreplay_insert(dnsreplay *cache, const uint8_t *octets, size_t length, uint32_t now,
                         dnsreplay_counts *counts);

/*
 * Asks with a query's octets (any octets, as for dnsreplay_insert) at a moment. `room` is the
 * number of octets at `reply`. It and `*written` must be initialised memory and overlap nothing
 * else that is passed, and no pointer may be NULL. It returns OK or ERROR, and the reply is at
 * `reply`, within the client's EDNS limit, and `*written` the number of its octets, behind which
 * `reply` stays as it was; or FORWARD or DROPPED, and `*written` is 0; or NO_ROOM, or WRONG_STATE
 * where the handle was closed, and nothing is written. The handle stays as it is. The ID, the
 * question's octets and the flags RD and CD come back as asked; AD is set in an answer where the
 * query had AD or DO. Class IN alone is answered, and an alias is the host's to follow.
 */
int32_t dnsreplay_query(dnsreplay *cache, const uint8_t *octets, size_t length, uint32_t now,
                        uint8_t *reply, size_t room, size_t *written);

/*
 * Returns how many records the snapshot holds; 0 where the handle is closed. The handle stays as it
 * is.
 */
size_t dnsreplay_records(dnsreplay *cache);

/* Returns the DNSREPLAY_VERSION of the library that was linked. */
uint32_t dnsreplay_version(void);

#ifdef __cplusplus
}
#endif
#endif
