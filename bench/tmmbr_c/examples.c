/*
 * Each call of libtmmbr by the worked examples of docs/EXAMPLES.md, and each of its refusals but that for want of memory. It ends at the
 * first answer that is another one; `.ci/c_libraries` runs it.
 */
#undef NDEBUG
#include <assert.h>
#include <stdio.h>
#include <string.h>

#include "tmmbr.h"

/* The owners of example 4, with an exponent of 0. */
static const tmmbr_request THREE[3] = {{19, 0, 62000, 30}, {17, 0, 64000, 40}, {18, 0, 60000, 20}};

/* The certificate of example 4, for owners in that order. */
static const tmmbr_kept KEPT[2] = {{0, 4000, 0, 9020001, 161, 2}, {0, 68000, 0, 8960001, 480, 1}};
static const tmmbr_implied IMPLIED[1] = {{0, 2, 1, 10, 10, 20}};

static int is_kept(const tmmbr_kept *a, const tmmbr_kept *b)
{
    return a->packets_high == b->packets_high && a->packets_low == b->packets_low && a->bits_high == b->bits_high
        && a->bits_low == b->bits_low && a->seconds == b->seconds && a->place == b->place;
}

static int is_implied(const tmmbr_implied *a, const tmmbr_implied *b)
{
    return a->place == b->place && a->a == b->a && a->b == b->b && a->p == b->p && a->q == b->q && a->r == b->r;
}

static void announces_example_4(void)
{
    tmmbr_kept kept[3], other_kept;
    tmmbr_implied implied[2], other_implied;
    tmmbr_answer answer;

    memset(kept, 0xa5, sizeof kept);
    memset(implied, 0xa5, sizeof implied);
    other_kept = kept[2];
    other_implied = implied[1];
    answer = tmmbr_announced(THREE, 3, kept, 3, implied, 2);
    assert(answer.fault == TMMBR_DONE && answer.kept == 2 && answer.implied == 1);
    assert(is_kept(&kept[0], &KEPT[0]) && is_kept(&kept[1], &KEPT[1]) && is_implied(&implied[0], &IMPLIED[0]));
    assert(is_kept(&kept[2], &other_kept) && is_implied(&implied[1], &other_implied));
}

/* Example 6: 131071 * 2^63 packets, which is 65535 * 2^64 + 2^63, and one bit more. */
static void announces_the_largest_word(void)
{
    const tmmbr_request asked = {17, 63, 131071, 511};
    const tmmbr_kept wanted = {65535, (uint64_t)1 << 63, 65535, ((uint64_t)1 << 63) + 1, 4089, 0};
    tmmbr_kept kept;
    tmmbr_implied none;
    tmmbr_answer answer = tmmbr_announced(&asked, 1, &kept, 1, &none, 0);

    assert(answer.fault == TMMBR_DONE && answer.kept == 1 && answer.implied == 0 && is_kept(&kept, &wanted));
}

static void refuses_requests(void)
{
    static tmmbr_request many[TMMBR_MAX_REQUESTS + 1];
    tmmbr_request asked[3];
    tmmbr_kept kept[2] = {{0, 0, 0, 0, 7, 0}, {0, 0, 0, 0, 7, 0}};
    tmmbr_implied implied[1] = {{0, 0, 0, 0, 0, 7}};
    tmmbr_answer answer;

    memcpy(asked, THREE, sizeof asked);
    asked[2].ssrc = 19;
    answer = tmmbr_announced(asked, 3, kept, 2, implied, 1);
    assert(answer.fault == TMMBR_SAME_SSRC && answer.place == 2);
    asked[1].overhead = 512;
    answer = tmmbr_announced(asked, 3, kept, 2, implied, 1);
    assert(answer.fault == TMMBR_REQUEST_RANGE && answer.place == 1);
    answer = tmmbr_announced(many, TMMBR_MAX_REQUESTS + 1, kept, 2, implied, 1);
    assert(answer.fault == TMMBR_TOO_MANY && answer.place == 0);
    answer = tmmbr_announced(THREE, 3, kept, 1, implied, 1);
    assert(answer.fault == TMMBR_NO_ROOM && answer.kept == 2 && answer.implied == 1);
    assert(kept[0].seconds == 7 && kept[1].seconds == 7 && implied[0].r == 7);
}

static int is_verdict(tmmbr_verdict verdict, uint32_t fault, uint32_t place)
{
    return verdict.fault == fault && verdict.place == place;
}

static void checks_example_4(void)
{
    tmmbr_request asked[3];
    tmmbr_kept kept[2];

    assert(is_verdict(tmmbr_check(THREE, 3, KEPT, 2, IMPLIED, 1), TMMBR_DONE, 0));
    assert(is_verdict(tmmbr_check(THREE, 3, KEPT, 2, IMPLIED, 0), TMMBR_NOT_NAMED, 0));
    /* Owner 17 permits the pair of 18. */
    memcpy(kept, KEPT, sizeof kept);
    kept[1] = KEPT[0];
    kept[1].place = 1;
    assert(is_verdict(tmmbr_check(THREE, 3, kept, 2, IMPLIED, 1), TMMBR_PAIR_PERMITTED, 0));
    /* Of example 5, in which owner 19 asks for 1 bit per second less. */
    memcpy(asked, THREE, sizeof asked);
    asked[0].mantissa = 61999;
    assert(is_verdict(tmmbr_check(asked, 3, KEPT, 2, IMPLIED, 1), TMMBR_NOT_IMPLIED, 0));
    kept[1].seconds = 0;
    assert(is_verdict(tmmbr_check(asked, 3, kept, 2, IMPLIED, 1), TMMBR_KEPT_RANGE, 1));
}

/* Whether the request is put, and the announced set changed or not. */
static int is_put(tmmbr_state *state, const tmmbr_request *asked, uint32_t changed)
{
    tmmbr_change change = tmmbr_set(state, asked);

    return change.fault == TMMBR_DONE && change.changed == changed;
}

/* Whether there are so many entries of each kind. */
static int has_entries(tmmbr_state *state, uint32_t kept, uint32_t implied)
{
    tmmbr_kept some_kept[3];
    tmmbr_implied some_implied[2];
    tmmbr_answer answer = tmmbr_of(state, some_kept, 3, some_implied, 2);

    return answer.fault == TMMBR_DONE && answer.kept == kept && answer.implied == implied;
}

static void changes_to_example_4_and_back(void)
{
    const tmmbr_request beyond = {18, 0, 60000, 512};
    tmmbr_state state = TMMBR_NO_STATE;
    tmmbr_request live[3];
    tmmbr_live_count count;

    assert(tmmbr_live(&state, live, 3).fault == TMMBR_CLOSED && tmmbr_close(&state) == TMMBR_CLOSED);
    assert(tmmbr_open(&state) == TMMBR_DONE && tmmbr_open(&state) == TMMBR_OPEN);
    assert(is_put(&state, &THREE[0], 1) && is_put(&state, &THREE[1], 1) && is_put(&state, &THREE[2], 1));
    assert(is_put(&state, &THREE[2], 0) && tmmbr_set(&state, &beyond).fault == TMMBR_REQUEST_RANGE);
    assert(has_entries(&state, 2, 1));
    count = tmmbr_live(&state, live, 3);
    assert(count.fault == TMMBR_DONE && count.count == 3);
    assert(live[0].ssrc == 17 && live[0].overhead == 40 && live[2].ssrc == 19 && live[2].mantissa == 62000);
    count = tmmbr_live(&state, live, 2);
    assert(count.fault == TMMBR_NO_ROOM && count.count == 3);
    assert(tmmbr_remove(&state, 17) == TMMBR_DONE && tmmbr_remove(&state, 17) == TMMBR_NOT_LIVE);
    assert(has_entries(&state, 2, 0));
    assert(tmmbr_close(&state) == TMMBR_DONE && tmmbr_close(&state) == TMMBR_CLOSED);
}

/* As many owners as may be live, and one more. */
static void is_full(void)
{
    tmmbr_state state = TMMBR_NO_STATE;
    tmmbr_request asked = {0, 0, 1000, 40};

    assert(tmmbr_open(&state) == TMMBR_DONE);
    for (; asked.ssrc < TMMBR_MAX_REQUESTS; asked.ssrc++)
        assert(tmmbr_set(&state, &asked).fault == TMMBR_DONE);
    assert(tmmbr_set(&state, &asked).fault == TMMBR_FULL);
    assert(tmmbr_close(&state) == TMMBR_DONE);
}

int main(void)
{
    announces_example_4();
    announces_the_largest_word();
    refuses_requests();
    checks_example_4();
    changes_to_example_4_and_back();
    is_full();
    printf("as the examples say\n");
    return 0;
}
