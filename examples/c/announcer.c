/*
 * Announces the smallest set of the rate requests that it reads, with its certificate, by libtmmbr: what a server does each time
 * a TMMBR comes.
 *
 *     cc -std=c99 announcer.c $(pkg-config --cflags --libs tmmbr) -o announcer
 *     printf '17 01f40028\n18 01d4c014\n19 01e4601e\n' | ./announcer
 *
 * Each line has an owner's SSRC in decimal and the word of its TMMBR entry in hexadecimal (RFC 5104, section 4.2.1.1). An owner
 * that asks again has its last request. What is printed is what `sfu bound` prints. Status 1 and a line on the error output for
 * a line that can't be read, or if the library refuses.
 */
#include <inttypes.h>
#include <stdint.h>
#include <stdio.h>

#include "tmmbr.h"

struct requests {
    tmmbr_request asked[TMMBR_MAX_REQUESTS];
    uint32_t count;
};

static tmmbr_request request_of(uint32_t ssrc, uint32_t word)
{
    tmmbr_request request;

    request.ssrc = ssrc;
    request.exponent = word >> 26;
    request.mantissa = word >> 9 & 0x1ffff;
    request.overhead = word & 0x1ff;
    return request;
}

static uint32_t word_of(tmmbr_request request)
{
    return request.exponent << 26 | request.mantissa << 9 | request.overhead;
}

/* Puts a request, in place of an earlier one of the same owner; whether there was room. */
static int put(struct requests *all, tmmbr_request request)
{
    uint32_t i;

    for (i = 0; i < all->count; i++) {
        if (all->asked[i].ssrc == request.ssrc) {
            all->asked[i] = request;
            return 1;
        }
    }
    if (all->count == TMMBR_MAX_REQUESTS) {
        return 0;
    }
    all->asked[all->count++] = request;
    return 1;
}

/* Prints high * 2^64 + low in decimal digits. */
static void print_number(uint64_t high, uint64_t low)
{
    uint32_t limb[4];
    char digits[40];
    int from = (int)sizeof digits, some, i;

    limb[0] = (uint32_t)(high >> 32);
    limb[1] = (uint32_t)high;
    limb[2] = (uint32_t)(low >> 32);
    limb[3] = (uint32_t)low;
    digits[--from] = '\0';
    do {
        uint64_t rest = 0;

        some = 0;
        for (i = 0; i < 4; i++) {
            rest = rest << 32 | limb[i];
            limb[i] = (uint32_t)(rest / 10);
            rest %= 10;
            some = some || limb[i] != 0;
        }
        digits[--from] = (char)('0' + (int)rest);
    } while (some);
    printf("%s", digits + from);
}

static void print_kept(const struct requests *all, tmmbr_kept kept)
{
    tmmbr_request request = all->asked[kept.place];

    printf("kept %" PRIu32 " %08" PRIx32 " pair ", request.ssrc, word_of(request));
    print_number(kept.packets_high, kept.packets_low);
    putchar(' ');
    print_number(kept.bits_high, kept.bits_low);
    printf(" %" PRIu32 "\n", kept.seconds);
}

static void print_implied(const struct requests *all, tmmbr_implied implied)
{
    tmmbr_request request = all->asked[implied.place];

    printf("implied %" PRIu32 " %08" PRIx32 " by %" PRIu32 " %" PRIu32, request.ssrc, word_of(request),
           all->asked[implied.a].ssrc, all->asked[implied.b].ssrc);
    printf(" times %" PRIu32 " %" PRIu32 " %" PRIu32 "\n", implied.p, implied.q, implied.r);
}

/* Announces the set; whether the library did. */
static int announce(const struct requests *all)
{
    static tmmbr_kept kept[TMMBR_MAX_REQUESTS];
    static tmmbr_implied implied[TMMBR_MAX_REQUESTS];
    tmmbr_answer answer;
    uint32_t i;

    answer = tmmbr_announced(all->asked, all->count, kept, TMMBR_MAX_REQUESTS, implied, TMMBR_MAX_REQUESTS);
    if (answer.fault != TMMBR_DONE) {
        fprintf(stderr, "refused: %" PRIu32 " at place %" PRIu32 "\n", answer.fault, answer.place);
        return 0;
    }
    for (i = 0; i < answer.kept; i++) {
        print_kept(all, kept[i]);
    }
    for (i = 0; i < answer.implied; i++) {
        print_implied(all, implied[i]);
    }
    return 1;
}

int main(void)
{
    static struct requests all;
    char line[64];
    unsigned number = 0;

    while (fgets(line, sizeof line, stdin)) {
        uint32_t ssrc, word;
        char more;

        number++;
        if (sscanf(line, "%" SCNu32 " %" SCNx32 " %c", &ssrc, &word, &more) != 2) {
            fprintf(stderr, "line %u: no owner and word\n", number);
            return 1;
        }
        if (!put(&all, request_of(ssrc, word))) {
            fprintf(stderr, "line %u: one owner more than %d\n", number, TMMBR_MAX_REQUESTS);
            return 1;
        }
    }
    return announce(&all) && fflush(stdout) == 0 ? 0 : 1;
}
