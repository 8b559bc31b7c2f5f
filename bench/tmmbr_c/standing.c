/*
 * Changes a state of libtmmbr as standard input says, and prints what it holds after each line:
 *
 *     s SSRC EXPONENT MANTISSA OVERHEAD   puts a request
 *     r SSRC                              removes one
 *     n                                   closes the state, and opens another
 *
 * A line has the fault, whether the announced set changed (of a removal 0), how many are live, kept and implied, and the entries as
 * driver.c prints them. Arrays have room for as much as there is and no more. Exits with 1 where tmmbr_announced answers otherwise for
 * the live requests, tmmbr_check refuses the certificate, or a call with too little room writes.
 */
#include <inttypes.h>
#include <stdio.h>
#include <stdlib.h>
#include <string.h>

#include "tmmbr.h"

static tmmbr_state state = TMMBR_NO_STATE;

static void need(int holds, const char *what)
{
    if (!holds) {
        fprintf(stderr, "standing: %s\n", what);
        exit(1);
    }
}

static uint32_t number(void)
{
    uint32_t n;

    if (scanf("%" SCNu32, &n) != 1)
        exit(2);
    return n;
}

/* Room for so many elements, in which every byte is 0xa5; never null. */
static void *room(size_t count, size_t size)
{
    size_t bytes = count * size;
    void *at = malloc(bytes ? bytes : 1);

    if (!at)
        exit(3);
    memset(at, 0xa5, bytes ? bytes : 1);
    return at;
}

static void show(uint32_t fault, uint32_t changed)
{
    tmmbr_request none;
    tmmbr_answer sizes, answer, again;
    tmmbr_live_count count = tmmbr_live(&state, &none, 0);
    tmmbr_request *live;
    tmmbr_kept *kept, *kept_again;
    tmmbr_implied *implied, *implied_again;
    tmmbr_verdict verdict;
    uint32_t i;

    live = (tmmbr_request *)room(count.count, sizeof *live);
    need(tmmbr_live(&state, live, count.count).fault == TMMBR_DONE, "tmmbr_live has no room");
    kept = (tmmbr_kept *)room(count.count, sizeof *kept);
    implied = (tmmbr_implied *)room(count.count, sizeof *implied);
    sizes = tmmbr_of(&state, kept, 0, implied, 0);
    need(sizes.kept + sizes.implied == count.count, "the entries aren't as many as the requests");
    need(count.count == 0 || sizes.fault == TMMBR_NO_ROOM, "too little room is enough");
    for (i = 0; i < count.count * sizeof *kept; i++)
        need(((unsigned char *)kept)[i] == 0xa5, "a call without room wrote");
    free(kept);
    free(implied);

    kept = (tmmbr_kept *)room(sizes.kept, sizeof *kept);
    implied = (tmmbr_implied *)room(sizes.implied, sizeof *implied);
    kept_again = (tmmbr_kept *)room(sizes.kept, sizeof *kept);
    implied_again = (tmmbr_implied *)room(sizes.implied, sizeof *implied);
    answer = tmmbr_of(&state, kept, sizes.kept, implied, sizes.implied);
    need(answer.fault == TMMBR_DONE && answer.kept == sizes.kept && answer.implied == sizes.implied, "tmmbr_of has no room");
    again = tmmbr_announced(live, count.count, kept_again, sizes.kept, implied_again, sizes.implied);
    need(!memcmp(&answer, &again, sizeof again), "tmmbr_announced answers otherwise");
    need(!memcmp(kept, kept_again, answer.kept * sizeof *kept), "tmmbr_announced keeps otherwise");
    need(!memcmp(implied, implied_again, answer.implied * sizeof *implied), "tmmbr_announced implies otherwise");
    verdict = tmmbr_check(live, count.count, kept, answer.kept, implied, answer.implied);
    need(verdict.fault == TMMBR_DONE, "tmmbr_check refuses");

    printf("%" PRIu32 " %" PRIu32 " %" PRIu32 " %" PRIu32 " %" PRIu32, fault, changed, count.count, answer.kept, answer.implied);
    for (i = 0; i < count.count; i++)
        printf(" %" PRIu32 " %" PRIu32 " %" PRIu32 " %" PRIu32, live[i].ssrc, live[i].exponent, live[i].mantissa, live[i].overhead);
    for (i = 0; i < answer.kept; i++)
        printf(" %" PRIu64 " %" PRIu64 " %" PRIu64 " %" PRIu64 " %" PRIu32 " %" PRIu32, kept[i].packets_high, kept[i].packets_low,
               kept[i].bits_high, kept[i].bits_low, kept[i].seconds, kept[i].place);
    for (i = 0; i < answer.implied; i++)
        printf(" %" PRIu32 " %" PRIu32 " %" PRIu32 " %" PRIu32 " %" PRIu32 " %" PRIu32, implied[i].place, implied[i].a,
               implied[i].b, implied[i].p, implied[i].q, implied[i].r);
    printf("\n");
    free(live);
    free(kept);
    free(implied);
    free(kept_again);
    free(implied_again);
}

/* What is refused of a state that isn't open, or is. */
static void try_closed(void)
{
    tmmbr_request asked = {17, 0, 1000, 40};
    tmmbr_kept kept;
    tmmbr_implied implied;

    need(tmmbr_close(&state) == TMMBR_CLOSED, "a closed one closes");
    need(tmmbr_set(&state, &asked).fault == TMMBR_CLOSED, "a closed one takes a request");
    need(tmmbr_remove(&state, 17) == TMMBR_CLOSED, "a closed one lets a request go");
    need(tmmbr_live(&state, &asked, 1).fault == TMMBR_CLOSED, "a closed one has live requests");
    need(tmmbr_of(&state, &kept, 1, &implied, 1).fault == TMMBR_CLOSED, "a closed one announces");
    need(tmmbr_open(&state) == TMMBR_DONE, "no memory");
    need(tmmbr_open(&state) == TMMBR_OPEN, "an open one opens");
}

int main(void)
{
    char what;

    try_closed();
    while (scanf(" %c", &what) == 1) {
        if (what == 's') {
            tmmbr_request asked;
            tmmbr_change change;

            asked.ssrc = number();
            asked.exponent = number();
            asked.mantissa = number();
            asked.overhead = number();
            change = tmmbr_set(&state, &asked);
            show(change.fault, change.changed);
        } else if (what == 'r') {
            show(tmmbr_remove(&state, number()), 0);
        } else if (what == 'n') {
            need(tmmbr_close(&state) == TMMBR_DONE, "an open one doesn't close");
            try_closed();
        } else
            return 2;
    }
    return tmmbr_close(&state) != TMMBR_DONE;
}
