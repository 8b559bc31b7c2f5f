/*
 * Calls libtmmbr for each line of standard input, which has numbers parted by spaces, and prints what it answers. Arrays are as
 * long as is said and no longer, so that valgrind sees what goes beyond.
 *
 *     a KEPT_ROOM IMPLIED_ROOM N, then N requests   announces: the answer, the entries, and "kept" if something else was written
 *     c N K I, then N requests, K kept, I implied   checks: the verdict
 */
#include <inttypes.h>
#include <stdio.h>
#include <stdlib.h>
#include <string.h>

#include "tmmbr.h"

static uint64_t number(void)
{
    uint64_t n;

    if (scanf("%" SCNu64, &n) != 1)
        exit(2);
    return n;
}

/* Room for so many elements, in which every byte is 0xa5; never null. */
static void *room(size_t count, size_t size)
{
    size_t bytes = count * size;
    void *at = malloc(bytes ? bytes : 1);

    if (!at)
        exit(3);
    memset(at, 0xa5, bytes ? bytes : 1);
    return at;
}

/* Whether each byte from `from` to `to` is 0xa5 yet. */
static int untouched(const void *at, size_t from, size_t to)
{
    const unsigned char *byte = (const unsigned char *)at;

    for (; from < to; from++)
        if (byte[from] != 0xa5)
            return 0;
    return 1;
}

static tmmbr_request *requests(size_t count)
{
    tmmbr_request *asked = (tmmbr_request *)room(count, sizeof *asked);
    size_t i;

    for (i = 0; i < count; i++) {
        asked[i].ssrc = (uint32_t)number();
        asked[i].exponent = (uint32_t)number();
        asked[i].mantissa = (uint32_t)number();
        asked[i].overhead = (uint32_t)number();
    }
    return asked;
}

static void announce(void)
{
    size_t kept_room = (size_t)number(), implied_room = (size_t)number(), count = (size_t)number(), i;
    tmmbr_request *asked = requests(count);
    tmmbr_kept *kept = (tmmbr_kept *)room(kept_room, sizeof *kept);
    tmmbr_implied *implied = (tmmbr_implied *)room(implied_room, sizeof *implied);
    tmmbr_answer answer = tmmbr_announced(asked, count, kept, kept_room, implied, implied_room);
    size_t kept_count = answer.fault ? 0 : answer.kept, implied_count = answer.fault ? 0 : answer.implied;

    printf("%" PRIu32 " %" PRIu32 " %" PRIu32 " %" PRIu32, answer.fault, answer.place, answer.kept, answer.implied);
    for (i = 0; i < kept_count; i++)
        printf(" %" PRIu64 " %" PRIu64 " %" PRIu64 " %" PRIu64 " %" PRIu32 " %" PRIu32, kept[i].packets_high, kept[i].packets_low,
               kept[i].bits_high, kept[i].bits_low, kept[i].seconds, kept[i].place);
    for (i = 0; i < implied_count; i++)
        printf(" %" PRIu32 " %" PRIu32 " %" PRIu32 " %" PRIu32 " %" PRIu32 " %" PRIu32, implied[i].place, implied[i].a,
               implied[i].b, implied[i].p, implied[i].q, implied[i].r);
    if (!untouched(kept, kept_count * sizeof *kept, kept_room * sizeof *kept)
        || !untouched(implied, implied_count * sizeof *implied, implied_room * sizeof *implied))
        printf(" kept");
    printf("\n");
    free(asked);
    free(kept);
    free(implied);
}

static void check(void)
{
    size_t count = (size_t)number(), kept_count = (size_t)number(), implied_count = (size_t)number(), i;
    tmmbr_request *asked = requests(count);
    tmmbr_kept *kept = (tmmbr_kept *)room(kept_count, sizeof *kept);
    tmmbr_implied *implied = (tmmbr_implied *)room(implied_count, sizeof *implied);
    tmmbr_verdict verdict;

    for (i = 0; i < kept_count; i++) {
        kept[i].packets_high = number();
        kept[i].packets_low = number();
        kept[i].bits_high = number();
        kept[i].bits_low = number();
        kept[i].seconds = (uint32_t)number();
        kept[i].place = (uint32_t)number();
    }
    for (i = 0; i < implied_count; i++) {
        implied[i].place = (uint32_t)number();
        implied[i].a = (uint32_t)number();
        implied[i].b = (uint32_t)number();
        implied[i].p = (uint32_t)number();
        implied[i].q = (uint32_t)number();
        implied[i].r = (uint32_t)number();
    }
    verdict = tmmbr_check(asked, count, kept, kept_count, implied, implied_count);
    printf("%" PRIu32 " %" PRIu32 "\n", verdict.fault, verdict.place);
    free(asked);
    free(kept);
    free(implied);
}

int main(void)
{
    char what;

    while (scanf(" %c", &what) == 1) {
        if (what == 'a')
            announce();
        else if (what == 'c')
            check();
        else
            return 2;
    }
    return 0;
}
