/*
 * Announces the set for the requests of three receivers, and checks its certificate: example 4 of docs/EXAMPLES.md, by libtmmbr.
 *
 *     cc -std=c99 announced.c $(pkg-config --cflags --libs tmmbr) && ./a.out
 */
#include <inttypes.h>
#include <stdint.h>
#include <stdio.h>

#include "tmmbr.h"

enum { COUNT = 3 };

/* What the entry of a TMMBR asks for: the SSRC of the packet's sender, and the entry's word in host order. */
static tmmbr_request request_of(uint32_t ssrc, uint32_t word)
{
    tmmbr_request request;

    request.ssrc = ssrc;
    request.exponent = word >> 26;
    request.mantissa = word >> 9 & 0x1ffff;
    request.overhead = word & 0x1ff;
    return request;
}

static uint32_t word_of(tmmbr_request request)
{
    return request.exponent << 26 | request.mantissa << 9 | request.overhead;
}

/* Prints high * 2^64 + low in decimal digits. */
static void print_number(uint64_t high, uint64_t low)
{
    uint32_t limb[4];
    char digits[40];
    int from = (int)sizeof digits, some, i;

    limb[0] = (uint32_t)(high >> 32);
    limb[1] = (uint32_t)high;
    limb[2] = (uint32_t)(low >> 32);
    limb[3] = (uint32_t)low;
    digits[--from] = '\0';
    do {
        uint64_t rest = 0;

        some = 0;
        for (i = 0; i < 4; i++) {
            rest = rest << 32 | limb[i];
            limb[i] = (uint32_t)(rest / 10);
            rest %= 10;
            some = some || limb[i] != 0;
        }
        digits[--from] = (char)('0' + (int)rest);
    } while (some);
    printf("%s", digits + from);
}

int main(void)
{
    tmmbr_request asked[COUNT];
    tmmbr_kept kept[COUNT];
    tmmbr_implied implied[COUNT];
    tmmbr_answer answer;
    tmmbr_verdict verdict;
    uint32_t i;

    asked[0] = request_of(17, 0x01f40028);
    asked[1] = request_of(18, 0x01d4c014);
    asked[2] = request_of(19, 0x01e4601e);

    answer = tmmbr_announced(asked, COUNT, kept, COUNT, implied, COUNT);
    if (answer.fault != TMMBR_DONE) {
        fprintf(stderr, "refused: %" PRIu32 " at place %" PRIu32 "\n", answer.fault, answer.place);
        return 1;
    }
    for (i = 0; i < answer.kept; i++) {
        tmmbr_request request = asked[kept[i].place];

        printf("kept %" PRIu32 " %08" PRIx32 " pair ", request.ssrc, word_of(request));
        print_number(kept[i].packets_high, kept[i].packets_low);
        putchar(' ');
        print_number(kept[i].bits_high, kept[i].bits_low);
        printf(" %" PRIu32 "\n", kept[i].seconds);
    }
    for (i = 0; i < answer.implied; i++) {
        tmmbr_request request = asked[implied[i].place];

        printf("implied %" PRIu32 " %08" PRIx32 " by %" PRIu32 " %" PRIu32, request.ssrc, word_of(request),
               asked[implied[i].a].ssrc, asked[implied[i].b].ssrc);
        printf(" times %" PRIu32 " %" PRIu32 " %" PRIu32 "\n", implied[i].p, implied[i].q, implied[i].r);
    }

    verdict = tmmbr_check(asked, COUNT, kept, answer.kept, implied, answer.implied);
    printf("%s\n", verdict.fault == TMMBR_DONE ? "yes" : "no");
    return verdict.fault == TMMBR_DONE ? 0 : 1;
}
