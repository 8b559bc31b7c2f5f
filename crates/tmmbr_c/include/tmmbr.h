/*
 * libtmmbr: the smallest set of rate requests that bounds a media sender as all of them do (TMMBR and TMMBN, RFC 5104), with a
 * certificate that shows it, and a checker of such certificates.
 *
 * What is said here of a call's answer is proved, for every input that keeps to "The caller's part". The words of the
 * definitions, and the certificate of an example worked out by hand, stand in the library's repository.
 *
 * What a request permits. A media sender sends some packets with some bits of net media in some seconds; a byte of header in a
 * packet takes 8 bits more. A request of a rate (bits per second) and an overhead (bytes of header per packet) permits this
 * where
 *
 *     bits + 8 * overhead * packets <= rate * seconds
 *
 * and forbids it if the left side is greater. A set of requests permits what each of them does.
 *
 * The caller's part. Nothing here tests it:
 *   - No pointer is null, also if the count beside it is 0: then any other address does.
 *   - Each array has as many elements as the count beside it says, set by the caller if they are read; it is aligned as C
 *     aligns its type, and overlaps no other array of the call. Until the call returns nobody writes to what it reads, and
 *     nobody touches what it writes.
 *   - A state (tmmbr_state) is TMMBR_NO_STATE before its first call. From then on only the library writes to it. It may be moved,
 *     but of two copies of an open state only one is ever used again: a copy that is used after the other was closed isn't found
 *     out. One call at a time has a state, and a state stays on the thread that opened it. One that is open when it is let go
 *     keeps its memory: tmmbr_close gives it back.
 *   - malloc, realloc and free, which tmmbr_open and tmmbr_close call, are those of one allocator, which aligns to 16 bytes what is
 *     of 16 bytes or more.
 *   - A call takes up to 128 KiB of stack.
 *
 * Each call returns. tmmbr_announced and tmmbr_check allocate nothing, keep nothing, and read and write nothing but their arrays: any
 * number of threads may call at once. A state keeps the live requests of one media sender from call to call, with what is announced for
 * them, in some 32 KiB that tmmbr_open allocates; changes of it allocate nothing. States share nothing.
 */
#ifndef TMMBR_H
#define TMMBR_H

#include <stddef.h>
#include <stdint.h>

#ifdef __cplusplus
extern "C" {
#endif

/* The library's version. */
#define TMMBR_VERSION "1.0.0"

/* How many requests a call takes, and how many kept entries and how many implied ones a certificate may have. */
#define TMMBR_MAX_REQUESTS 256

/*
 * The numbers of what is answered. 1 to 5 are the conditions of a certificate, in the order in which they are looked at; from 6
 * on are refusals.
 */
enum tmmbr_fault {
    /* It is done: the set is announced; the certificate holds; the state is changed. */
    TMMBR_DONE = 0,
    /* A place is beyond the requests or named twice, or a neighbour (a, b) is the place of no kept entry. */
    TMMBR_PLACE = 1,
    /* A kept entry's request permits its pair. */
    TMMBR_PAIR_PERMITTED = 2,
    /* The request at the place forbids the pairs of two kept entries. */
    TMMBR_TWO_PAIRS = 3,
    /* The request at the place doesn't follow from its neighbours as its implied entry says. */
    TMMBR_NOT_IMPLIED = 4,
    /* No entry has the place. */
    TMMBR_NOT_NAMED = 5,
    /* More requests, kept entries or implied ones than TMMBR_MAX_REQUESTS. */
    TMMBR_TOO_MANY = 6,
    /* A number of the request at the place is out of range. */
    TMMBR_REQUEST_RANGE = 7,
    /* The request at the place has the SSRC of an earlier one. */
    TMMBR_SAME_SSRC = 8,
    /* The kept entries or the implied ones have no room in the array for them. */
    TMMBR_NO_ROOM = 9,
    /* A number of the kept entry at the place is out of range. */
    TMMBR_KEPT_RANGE = 10,
    /* A number of the implied entry at the place is out of range. */
    TMMBR_IMPLIED_RANGE = 11,
    /* The state isn't open: it was never opened, or was closed. */
    TMMBR_CLOSED = 12,
    /* The state is open, so it isn't opened again. */
    TMMBR_OPEN = 13,
    /* There was no memory. */
    TMMBR_NO_MEMORY = 14,
    /* TMMBR_MAX_REQUESTS are live, and none of them is the owner's. */
    TMMBR_FULL = 15,
    /* The owner has no live request. */
    TMMBR_NOT_LIVE = 16
};

/*
 * A rate request by the parts of its word (RFC 5104, section 4.2.1.1). The rate is mantissa * 2^exponent bits per second. Of a
 * word in host order, exponent is word >> 26, mantissa is word >> 9 & 0x1ffff, and overhead is word & 0x1ff.
 */
typedef struct tmmbr_request {
    uint32_t ssrc;     /* the owner, the receiver that asks; any number */
    uint32_t exponent; /* 0 to 63 */
    uint32_t mantissa; /* 0 to 131071; 0 asks for no media at all */
    uint32_t overhead; /* bytes of header per packet, 0 to 511 */
} tmmbr_request;

/*
 * An entry of a certificate for a request that is announced, with a pair that this request forbids and every other announced
 * one permits: so many packets with so many bits of net media in so many seconds. Packets and bits are below 2^100, and come
 * in two halves: the number is high * 2^64 + low.
 */
typedef struct tmmbr_kept {
    uint64_t packets_high;
    uint64_t packets_low;
    uint64_t bits_high;
    uint64_t bits_low;
    uint32_t seconds; /* 1 to 16383 */
    uint32_t place;   /* the request's place in the array of requests, from 0; below 65536 */
} tmmbr_kept;

/*
 * An entry for a request that isn't announced. p times the inequality of the request at place a, and q times that at place b,
 * both announced, make r times its own, or a stricter one:
 *
 *     1 <= r <= p + q,  r * overhead <= p * overhead of a + q * overhead of b,  p * rate of a + q * rate of b <= r * rate
 *
 * so what those two permit it permits. Each number is below 65536.
 */
typedef struct tmmbr_implied {
    uint32_t place; /* the request's place, from 0 */
    uint32_t a;     /* the places of two announced requests, or twice that of one */
    uint32_t b;
    uint32_t p; /* how often the requests at a, at b and at place count */
    uint32_t q;
    uint32_t r;
} tmmbr_implied;

/* What tmmbr_announced answers. */
typedef struct tmmbr_answer {
    uint32_t fault;   /* TMMBR_DONE, or why the requests are refused */
    uint32_t place;   /* the place that TMMBR_REQUEST_RANGE and TMMBR_SAME_SSRC speak of, the first one; else 0 */
    uint32_t kept;    /* how many requests are announced, each with a kept entry: also with TMMBR_NO_ROOM; else 0 */
    uint32_t implied; /* how many aren't, each with an implied entry: also with TMMBR_NO_ROOM; else 0 */
} tmmbr_answer;

/* What tmmbr_check answers. */
typedef struct tmmbr_verdict {
    uint32_t fault; /* TMMBR_DONE, the first condition that fails, or why the numbers are refused */
    uint32_t place; /* the least place that the fault speaks of; 0 if it speaks of none */
} tmmbr_verdict;

/*
 * Announces the smallest set of the requests that permits what all of them together permit.
 *
 *   asked, asked_count      the requests, in any order, one at most of each SSRC; 0 to TMMBR_MAX_REQUESTS
 *   kept, kept_room         where the kept entries go, by rising overhead, and how many fit: asked_count is always enough
 *   implied, implied_room   where the implied entries go, in any order, and how many fit: asked_count is always enough
 *
 * The announced requests are those at the places of the kept entries. No smaller set of the requests permits the same. Where
 * several sets are as small, which one is announced depends on the requests alone, and not on their order: of requests with one
 * rate and one overhead the one of the least SSRC. The certificate that is written holds, as tmmbr_check says, too; what stands
 * behind its entries in the arrays is left as it was.
 *
 * Refused, in this order: TMMBR_TOO_MANY, TMMBR_REQUEST_RANGE, TMMBR_SAME_SSRC, TMMBR_NO_ROOM. The answer to the last one says
 * how many entries there are. A refusal leaves both arrays as they were.
 */
tmmbr_answer tmmbr_announced(const tmmbr_request *asked, size_t asked_count, tmmbr_kept *kept, size_t kept_room,
                             tmmbr_implied *implied, size_t implied_room);

/*
 * Checks a certificate, whoever made it.
 *
 *   asked, asked_count      the requests, in any order, also several of one SSRC; 0 to TMMBR_MAX_REQUESTS
 *   kept, kept_count        the kept entries, in any order; 0 to TMMBR_MAX_REQUESTS
 *   implied, implied_count  the implied entries, in any order; 0 to TMMBR_MAX_REQUESTS
 *
 * TMMBR_DONE is answered exactly if all five conditions hold. Then the requests at the places of the kept entries permit
 * what all of the requests together permit, and no smaller set of them does. Else the answer is the first condition that
 * fails, and the least place where it does.
 *
 * Refused, in this order, before any condition is looked at: TMMBR_TOO_MANY, TMMBR_REQUEST_RANGE, TMMBR_KEPT_RANGE,
 * TMMBR_IMPLIED_RANGE; the place is the first one in its array.
 */
tmmbr_verdict tmmbr_check(const tmmbr_request *asked, size_t asked_count, const tmmbr_kept *kept, size_t kept_count,
                          const tmmbr_implied *implied, size_t implied_count);

/* ---- a state: the live requests of one media sender, one at most of each SSRC, changed one by one */

typedef struct tmmbr_state {
    uint32_t is_open; /* the library's own */
    void *at;
} tmmbr_state;

/* A state before its first call. */
#define TMMBR_NO_STATE {0, NULL}

/* What tmmbr_set answers. */
typedef struct tmmbr_change {
    uint32_t fault;   /* TMMBR_DONE, or why the request is refused */
    uint32_t changed; /* 1 if the announced set changed: other requests in it, or another spelling of one; else 0 */
} tmmbr_change;

/* What tmmbr_live answers. */
typedef struct tmmbr_live_count {
    uint32_t fault; /* TMMBR_DONE, or why nothing is written */
    uint32_t count; /* how many requests are live: also with TMMBR_NO_ROOM; else 0 */
} tmmbr_live_count;

/*
 * Opens a state: no request is live.
 *
 * Refused as TMMBR_OPEN; as TMMBR_NO_MEMORY. Then it is as it was.
 */
uint32_t tmmbr_open(tmmbr_state *state);

/*
 * Puts a request among the live ones, in place of its owner's if that has one. The others stay as they are.
 *
 *   asked   the request
 *
 * Refused, in this order: TMMBR_CLOSED, TMMBR_REQUEST_RANGE, TMMBR_FULL. Then nothing changed.
 */
tmmbr_change tmmbr_set(tmmbr_state *state, const tmmbr_request *asked);

/*
 * Removes the live request of an owner. The others stay as they are.
 *
 *   ssrc    the owner
 *
 * Refused, in this order: TMMBR_CLOSED, TMMBR_NOT_LIVE. Then nothing changed.
 */
uint32_t tmmbr_remove(tmmbr_state *state, uint32_t ssrc);

/*
 * Tells which requests are live, by rising SSRC.
 *
 *   live, live_room   where they go, and how many fit: TMMBR_MAX_REQUESTS are always enough
 *
 * What stands behind them in the array is left as it was. Refused, in this order: TMMBR_CLOSED, TMMBR_NO_ROOM. Then the array is as it
 * was.
 */
tmmbr_live_count tmmbr_live(tmmbr_state *state, tmmbr_request *live, size_t live_room);

/*
 * Announces the smallest set of the live requests that permits what all of them together permit: what tmmbr_announced answers for them,
 * given by rising SSRC as tmmbr_live gives them, which the places count.
 *
 *   kept, kept_room         where the kept entries go, and how many fit
 *   implied, implied_room   where the implied entries go, and how many fit
 *
 * Refused, in this order: TMMBR_CLOSED, TMMBR_NO_ROOM. Then both arrays are as they were. The answer's place is 0.
 */
tmmbr_answer tmmbr_of(tmmbr_state *state, tmmbr_kept *kept, size_t kept_room, tmmbr_implied *implied, size_t implied_room);

/* Closes a state: its memory is given back. Refused as TMMBR_CLOSED, so a second time, too. It may be opened again. */
uint32_t tmmbr_close(tmmbr_state *state);

#ifdef __cplusplus
}
#endif

#endif
