/*
 * libsfu: one conference of a selective forwarding unit for RTP (RFC 7667, section 3.7), as a machine that opens no socket, reads no
 * clock and starts no thread. The datagrams that come are given to it with the moment at which they came, and what is to be sent is
 * taken from it; ICE, DTLS and SRTP are its caller's.
 *
 * What is said here of a call's answer is proved, for every call that keeps to "The caller's part". The words of the definitions
 * stand in the library's repository.
 *
 *     sfu_conference room = SFU_CLOSED;
 *     sfu_open(&room, text, strlen(text));
 *     sfu_hear(&room, now, endpoint, bytes, count);            for each datagram, without its SRTP
 *     while ((next = sfu_next_out(&room, buffer, sizeof buffer)).fault == SFU_DONE)
 *         send(next.endpoint, buffer, next.size);
 *     sfu_close(&room);
 *
 * Endpoints and legs are named by their numbers, which are their places in the settings, from 0. Moments are milliseconds since the
 * opening, by a clock that never goes back: the first reports are due once the first slot of `report_ms` has passed. A moment before an earlier one
 * is safe, too.
 *
 * The caller's part. Nothing here tests it:
 *   - No pointer is null, also if the count beside it is 0: then any other address does.
 *   - Each array has as many elements as the count beside it says, set by the caller if they are read; it is aligned as C aligns
 *     its type, and overlaps nothing else of the call. Until the call returns nobody writes to what it reads, and nobody touches
 *     what it writes.
 *   - A slot (sfu_conference) is SFU_CLOSED before its first call. From then on only the library writes to it. It may be moved, but
 *     of two copies of an open slot only one is ever used again: a copy that is used after the other was closed isn't found out.
 *   - One call at a time has a slot. Each slot stays on the thread that opened it; several slots may be used by as many threads at
 *     once, since calls share nothing.
 *   - malloc, realloc and free are those of one allocator, which aligns to 16 bytes what is of 16 bytes or more. A call isn't made
 *     from a signal handler, nor in the forked child of a process with threads.
 *   - A slot that is open when it is let go keeps its memory: sfu_close gives it back.
 *
 * Each call returns. It makes no system call but those of malloc and free. It is tested, not proved, that memory is given back and that
 * 1024 KiB of stack are enough (they are, by all that was tried; 512 are not).
 */
#ifndef SFU_H
#define SFU_H

#include <stdbool.h>
#include <stddef.h>
#include <stdint.h>

#ifdef __cplusplus
extern "C" {
#endif

/* The library's version. */
#define SFU_VERSION "1.0.0"

/* How many requests are announced for an endpoint's media at most. */
#define SFU_MAX_REQUESTS 256

/* The numbers of what is answered. */
enum sfu_fault {
    /* It was done. */
    SFU_DONE = 0,
    /* The slot holds no conference: it was never opened, or was closed. */
    SFU_IS_CLOSED = 1,
    /* The slot holds a conference, so no other one is opened in it. */
    SFU_OPEN = 2,
    /* There was no memory; nothing was done. */
    SFU_NO_MEMORY = 3,
    /* The text is no TOML document. */
    SFU_NOT_TOML = 4,
    /* A key of the settings isn't there, isn't known, or has a value of another kind or beyond its range. */
    SFU_BAD_KEY = 5,
    /* Such a key of the endpoint of the number that is told. */
    SFU_BAD_ENDPOINT = 6,
    /* Such a key of the leg of the number that is told; also if its two endpoints are one, or those of an earlier leg. */
    SFU_BAD_LEG = 7,
    /* Two of the unit, the endpoints and the legs have one source. */
    SFU_SAME_SSRC = 8,
    /* The settings have as many workers as is told, and not one. */
    SFU_WORKERS = 9,
    /* Something waits since an earlier call met no memory; nothing was done. */
    SFU_BUSY = 10,
    /* What was asked was done; for all that follows there was no memory, and it waits for sfu_settle. */
    SFU_UNSETTLED = 11,
    /* Nothing is to be sent. */
    SFU_NOTHING = 12,
    /* There is no room for as much as is told. */
    SFU_NO_ROOM = 13,
    /* There is no endpoint of this number. */
    SFU_NO_ENDPOINT = 14
};

/* A slot for a conference. Its fields are the library's. */
typedef struct sfu_conference {
    uint32_t is_open;
    void *at;
} sfu_conference;

/* A slot that holds none. */
#define SFU_CLOSED \
    { 0, NULL }

/* What sfu_open answers. */
typedef struct sfu_opened {
    uint32_t fault;  /* SFU_DONE, or why no conference was opened */
    uint64_t number; /* of the endpoint or the leg that SFU_BAD_ENDPOINT and SFU_BAD_LEG speak of, from 0; of workers; else 0 */
} sfu_opened;

/* What sfu_next_out answers. */
typedef struct sfu_next {
    uint32_t fault;    /* SFU_DONE, SFU_NOTHING, or why nothing is handed out */
    uint32_t endpoint; /* where the datagram goes: also with SFU_NO_ROOM; else 0 */
    size_t size;       /* how many bytes it has: also with SFU_NO_ROOM; else 0 */
} sfu_next;

/* A rate request by the parts of its word (RFC 5104, section 4.2.1.1). The rate is mantissa * 2^exponent bits per second. */
typedef struct sfu_request {
    uint32_t ssrc;     /* the owner, the receiver that asks */
    uint32_t exponent; /* 0 to 63 */
    uint32_t mantissa; /* 0 to 131071; 0 asks for no media at all */
    uint32_t overhead; /* bytes of header per packet, 0 to 511 */
} sfu_request;

/* What sfu_announced answers. */
typedef struct sfu_set {
    uint32_t fault; /* SFU_DONE, or why no requests are told */
    size_t count;   /* how many requests are announced: also with SFU_NO_ROOM; else 0 */
} sfu_set;

/*
 * An entry of a certificate for a request that is announced, with a pair that this request forbids and every other announced one
 * permits: so many packets with so many bits of net media in so many seconds. Packets and bits are below 2^100, and come in two halves:
 * the number is high * 2^64 + low.
 */
typedef struct sfu_kept {
    uint64_t packets_high;
    uint64_t packets_low;
    uint64_t bits_high;
    uint64_t bits_low;
    uint32_t seconds; /* 1 to 16383 */
    uint32_t place;   /* the request's place in the array of live ones, from 0 */
} sfu_kept;

/*
 * An entry for a request that isn't announced: p times what the request at place a asks for, and q times that of the one at b, both
 * announced, make r times its own, or a stricter one (docs/FORMATS.md, "The certificate"). Each number is below 65536.
 */
typedef struct sfu_implied {
    uint32_t place; /* the request's place in the array of live ones, from 0 */
    uint32_t a;     /* the places of two announced requests, or twice that of one */
    uint32_t b;
    uint32_t p; /* how often the requests at a, at b and at place count */
    uint32_t q;
    uint32_t r;
} sfu_implied;

/* What sfu_certified answers. */
typedef struct sfu_certificate {
    uint32_t fault; /* SFU_DONE, or why nothing is told */
    size_t live;    /* how many requests are live, how many of them are announced, and how many aren't: */
    size_t kept;    /* also with SFU_NO_ROOM; else 0 */
    size_t implied;
} sfu_certificate;

/* What sfu_beyond answers. */
typedef struct sfu_entries {
    uint32_t fault;   /* SFU_DONE or SFU_IS_CLOSED */
    uint64_t entries; /* how many entries of feedback were passed over since the opening; it stays at UINT64_MAX once there */
} sfu_entries;

/* What sfu_waiting answers. */
typedef struct sfu_wait {
    uint32_t fault; /* SFU_DONE or SFU_IS_CLOSED */
    size_t tasks;   /* tasks of the ingress, with the notification that waits */
    size_t jobs;    /* jobs in the worker's ring */
    size_t hands;   /* 1 if the worker has something in hand, else 0 */
} sfu_wait;

/*
 * Opens a conference in a slot that holds none.
 *
 *   text, text_size   its settings, as `sfu replay` reads them (docs/FORMATS.md, "Settings"), with one worker; text_size bytes. Of the keys
 *                     that bound what one client may cost the others `entry_limit` counts here (sfu_hear); 256 is more than an honest
 *                     client sends
 *
 * Refused as SFU_OPEN; as SFU_NO_MEMORY; by the first fault of the text: SFU_NOT_TOML, SFU_BAD_KEY, SFU_BAD_ENDPOINT, SFU_BAD_LEG,
 * SFU_SAME_SSRC; as SFU_WORKERS. Then the slot is as it was.
 */
sfu_opened sfu_open(sfu_conference *conference, const uint8_t *text, size_t text_size);

/*
 * A datagram came from an endpoint: it is heard, and all that follows from it is done. What is to be sent waits after what was to be
 * sent before.
 *
 *   moment              when it came, in milliseconds
 *   endpoint            the number of the endpoint it came from; of a number that no endpoint has it is dropped
 *   bytes, bytes_size   the datagram: RTP or RTCP (RFC 5761), in the clear
 *
 * Refused as SFU_IS_CLOSED; as SFU_BUSY, exactly if something waits, and as SFU_NO_MEMORY: then nothing was done. SFU_UNSETTLED: it
 * was heard, and the rest of what follows waits for sfu_settle. A datagram that is no RTP or RTCP, or isn't the endpoint's to send, is
 * SFU_DONE, too: nothing follows from it.
 *
 * Of its feedback the first `entry_limit` entries are heard, in the order of packets and entries, a PLI as one; those beyond are passed over,
 * and counted (sfu_beyond). All of it is read first, so that a fault refuses it wherever that stands. Without that key, or with 0, all that is asked
 * for is done, however much that is: a NACK of 64 KB has 16,000 entries, and each is a job; one that a path carries in one piece has some 370.
 */
uint32_t sfu_hear(sfu_conference *conference, uint64_t moment, uint16_t endpoint, const uint8_t *bytes, size_t bytes_size);

/*
 * It is this moment, in milliseconds: what has come with time is done (reports, timeouts, requests for key frames), with all that
 * follows. To be called every 10 to 100 ms. Refused as sfu_hear is.
 */
uint32_t sfu_tick(sfu_conference *conference, uint64_t moment);

/*
 * The leg of this number is selected from this moment on, in milliseconds, or not, with all that follows: its subscriber gets its
 * publisher's media, or doesn't. Refused as sfu_hear is; of a number that no leg has nothing follows.
 */
uint32_t sfu_select(sfu_conference *conference, uint64_t moment, uint16_t leg, bool on);

/*
 * What waits since a call met no memory is done. Refused as SFU_IS_CLOSED; as SFU_UNSETTLED if there is no memory: then the first
 * of it was done, and the rest waits.
 */
uint32_t sfu_settle(sfu_conference *conference);

/*
 * Hands out the datagram that is to be sent next: the next call gives the one after it.
 *
 *   room, room_size   where its bytes go, and how many fit; 2048 are enough if no datagram that comes is longer than 1500
 *
 * SFU_DONE: the datagram's bytes stand at the front of room, and the rest of it is as it was. Refused as SFU_IS_CLOSED; as SFU_NOTHING,
 * if nothing is to be sent; as SFU_NO_ROOM: then the answer says how many bytes the datagram has, and it is still the next. A refusal
 * leaves room as it was.
 */
sfu_next sfu_next_out(sfu_conference *conference, uint8_t *room, size_t room_size);

/*
 * Tells what is announced for an endpoint's media (TMMBN, RFC 5104): of the rate requests that are live for it, the smallest set that
 * permits what all of them together permit.
 *
 *   endpoint          the number of the endpoint that sends the media
 *   room, room_size   where the requests go, by rising overhead, and how many fit: SFU_MAX_REQUESTS are always enough
 *
 * Refused as SFU_IS_CLOSED; as SFU_NO_ENDPOINT; as SFU_NO_ROOM: then the answer says how many there are. A refusal leaves room as it was.
 */
sfu_set sfu_announced(sfu_conference *conference, uint16_t endpoint, sfu_request *room, size_t room_size);

/*
 * Tells which rate requests are live for an endpoint's media, and shows that what is announced for it is right: by a certificate, whose
 * places count these requests. Its kept entries are those of the announced ones. It holds, and anybody can check it: the structs have
 * the members of those in tmmbr.h, whose tmmbr_check takes the same numbers, and `sfu check` reads the same as text.
 *
 *   endpoint                the number of the endpoint that sends the media
 *   live, live_room         where the requests go, by rising SSRC, and how many fit
 *   kept, kept_room         where the entries of the announced ones go, by rising overhead, and how many fit
 *   implied, implied_room   where those of the others go, by rising place, and how many fit
 *
 * SFU_MAX_REQUESTS are always enough for each. Refused as SFU_IS_CLOSED; as SFU_NO_ENDPOINT; as SFU_NO_ROOM, if one of the three has no
 * room: then the answer says how many there are of each. A refusal leaves the arrays as they were.
 */
sfu_certificate sfu_certified(sfu_conference *conference, uint16_t endpoint, sfu_request *live, size_t live_room, sfu_kept *kept,
                              size_t kept_room, sfu_implied *implied, size_t implied_room);

/*
 * Tells how many entries of feedback sfu_hear passed over since the opening, since their datagrams had more than `entry_limit`. Refused as
 * SFU_IS_CLOSED.
 */
sfu_entries sfu_beyond(sfu_conference *conference);

/* Tells what waits: nothing, unless a call met no memory. Refused as SFU_IS_CLOSED. */
sfu_wait sfu_waiting(sfu_conference *conference);

/*
 * Closes the conference: its memory is given back, and what waits is lost. The slot holds none then, and may be opened again. Refused as
 * SFU_IS_CLOSED, so a second time, too.
 */
uint32_t sfu_close(sfu_conference *conference);

#ifdef __cplusplus
}
#endif

#endif
