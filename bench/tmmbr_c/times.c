/*
 * Prints how long the two calls without a state take, and how much stack any call takes: for 0, 8, 64 and 256 owners, of whom all are
 * announced, or one is, or a half. Each time is the least of 5,000 calls.
 */
#define _GNU_SOURCE
#include <pthread.h>
#include <stdio.h>
#include <string.h>
#include <sys/mman.h>
#include <time.h>

#include "tmmbr.h"

enum { RUNS = 5000, STACK = 1 << 20 };

static tmmbr_request asked[TMMBR_MAX_REQUESTS];
static tmmbr_kept kept[TMMBR_MAX_REQUESTS];
static tmmbr_implied implied[TMMBR_MAX_REQUESTS];
static tmmbr_answer answer;
static tmmbr_verdict verdict;
static size_t count;
static tmmbr_state state = TMMBR_NO_STATE;
static tmmbr_request live[TMMBR_MAX_REQUESTS];
static uint32_t refused;

static void *nothing(void *unused)
{
    return unused;
}

static void *announce(void *unused)
{
    answer = tmmbr_announced(asked, count, kept, TMMBR_MAX_REQUESTS, implied, TMMBR_MAX_REQUESTS);
    return unused;
}

static void *check(void *unused)
{
    verdict = tmmbr_check(asked, count, kept, answer.kept, implied, answer.implied);
    return unused;
}

/* Opens a state, sets all that is asked, reads it, removes it, and closes the state. */
static void *keep(void *unused)
{
    size_t i;

    refused = tmmbr_open(&state);
    for (i = 0; i < count; i++)
        refused |= tmmbr_set(&state, &asked[i]).fault;
    refused |= tmmbr_live(&state, live, TMMBR_MAX_REQUESTS).fault;
    refused |= tmmbr_of(&state, kept, TMMBR_MAX_REQUESTS, implied, TMMBR_MAX_REQUESTS).fault;
    for (i = 0; i < count; i++)
        refused |= tmmbr_remove(&state, asked[i].ssrc);
    refused |= tmmbr_close(&state);
    return unused;
}

/* Nanoseconds of one call. */
static double time_of(void *(*call)(void *))
{
    double least = 0;
    int run;

    for (run = 0; run < RUNS; run++) {
        struct timespec begin, end;
        double time;

        clock_gettime(CLOCK_MONOTONIC, &begin);
        call(NULL);
        clock_gettime(CLOCK_MONOTONIC, &end);
        time = (double)(end.tv_sec - begin.tv_sec) * 1e9 + (double)(end.tv_nsec - begin.tv_nsec);
        if (run == 0 || time < least)
            least = time;
    }
    return least;
}

/* Bytes of stack that a thread has written that makes these calls. */
static size_t stack_of(void *(*call)(void *))
{
    unsigned char *stack = mmap(NULL, STACK, PROT_READ | PROT_WRITE, MAP_PRIVATE | MAP_ANONYMOUS, -1, 0);
    pthread_attr_t attributes;
    pthread_t thread;
    size_t low = 0;

    if (stack == MAP_FAILED)
        return 0;
    memset(stack, 0xa5, STACK);
    pthread_attr_init(&attributes);
    pthread_attr_setstack(&attributes, stack, STACK);
    pthread_create(&thread, &attributes, call, NULL);
    pthread_join(thread, NULL);
    while (low < STACK && stack[low] == 0xa5)
        low++;
    munmap(stack, STACK);
    return STACK - low;
}

/* Owners in an order of their own, with as many bytes of header as their number. */
static void ask(const char *which)
{
    size_t i;

    for (i = 0; i < count; i++) {
        uint32_t n = (uint32_t)i + 1;

        asked[i].ssrc = n * 167 % 1009;
        asked[i].exponent = 0;
        asked[i].overhead = n;
        asked[i].mantissa = 65500 + n * n;
        if (!strcmp(which, "one"))
            asked[i].mantissa = 6000 - 2 * n;
        else if (!strcmp(which, "half") && n % 2)
            asked[i].mantissa = 65500 + n * n + 2;
    }
}

int main(void)
{
    static const size_t counts[] = {0, 8, 64, 256};
    static const char *const which[] = {"all", "half", "one"};
    size_t most = 0, stack, own = stack_of(nothing), w, c;

    for (w = 0; w < 3; w++)
        for (c = 0; c < 4; c++) {
            count = counts[c];
            ask(which[w]);
            stack = stack_of(keep) - own;
            most = stack > most ? stack : most;
            stack = stack_of(announce) - own;
            most = stack > most ? stack : most;
            stack = stack_of(check) - own;
            most = stack > most ? stack : most;
            if (refused || answer.fault || verdict.fault)
                return 1;
            printf("%-5s %3zu owners, %3u announced: announced %8.0f ns, check %8.0f ns\n", which[w], count, answer.kept,
                   time_of(announce), time_of(check));
        }
    printf("stack: %zu bytes at most\n", most);
    return most > 128 * 1024;
}
