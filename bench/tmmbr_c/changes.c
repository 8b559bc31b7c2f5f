/*
 * Prints what one change of a state of 64 live requests costs: tmmbr_set alone, and with tmmbr_of after it. All are announced, 8 are, or
 * one is; the shapes are those of bench/bounding_set, which prints what Bounds::set costs, alone. A time is the least of 200 rounds, in
 * each of which every owner changes once, to a rate 1 less or back.
 */
#define _GNU_SOURCE
#include <stdio.h>
#include <string.h>
#include <time.h>

#include "tmmbr.h"

enum { LIVE = 64, ROUNDS = 200 };

static tmmbr_state state = TMMBR_NO_STATE;
static tmmbr_kept kept[LIVE];
static tmmbr_implied implied[LIVE];

static tmmbr_request request(const char *which, uint32_t n, uint32_t less)
{
    tmmbr_request r = {n, 0, 65500 + n * n - less, n};

    if (!strcmp(which, "eight") && n % 8)
        r.mantissa += 100;
    if (!strcmp(which, "one"))
        r.mantissa = 6000 - 2 * n - less;
    return r;
}

/* Nanoseconds of one change, and how many are announced. */
static double time_of(const char *which, int reads, uint32_t *announced)
{
    double least = 0;
    int round;

    for (round = 0; round < ROUNDS; round++) {
        struct timespec begin, end;
        double time;
        uint32_t n;

        clock_gettime(CLOCK_MONOTONIC, &begin);
        for (n = 1; n <= LIVE; n++) {
            tmmbr_request r = request(which, n, (uint32_t)round % 2);

            if (tmmbr_set(&state, &r).fault)
                return -1;
            if (reads)
                *announced = tmmbr_of(&state, kept, LIVE, implied, LIVE).kept;
        }
        clock_gettime(CLOCK_MONOTONIC, &end);
        time = ((double)(end.tv_sec - begin.tv_sec) * 1e9 + (double)(end.tv_nsec - begin.tv_nsec)) / LIVE;
        if (round == 0 || time < least)
            least = time;
    }
    return least;
}

int main(void)
{
    static const char *const which[] = {"all", "eight", "one"};
    size_t w;

    for (w = 0; w < 3; w++) {
        uint32_t announced = 0;
        double set, read;

        if (tmmbr_open(&state))
            return 1;
        set = time_of(which[w], 0, &announced);
        read = time_of(which[w], 1, &announced);
        printf("%-5s %d live, %2u announced: a change %6.0f ns, and its set read %6.0f ns\n", which[w], LIVE, announced, set, read);
        if (tmmbr_close(&state))
            return 1;
    }
    return 0;
}
