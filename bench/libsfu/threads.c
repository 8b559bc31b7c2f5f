/*
 * Several conferences side by side, one thread each: every one of THREADS threads opens a slot of its own, plays the same packets and
 * requests in it RUNS times, and adds up what it is given to send. All sums are to be the same.
 *
 *     threads SETTINGS
 */
#include <assert.h>
#include <pthread.h>
#include <sfu.h>
#include <stdio.h>
#include <string.h>

enum { THREADS = 8, RUNS = 40, PACKETS = 200, TEXT = 65536 };

static char text[TEXT];
static size_t text_size;

/* Adds the bytes of all that is to be sent to a sum. */
static void add_sends(sfu_conference *slot, uint64_t *sum) {
    uint8_t room[2048];
    sfu_next next;
    while ((next = sfu_next_out(slot, room, sizeof room)).fault == SFU_DONE)
        for (size_t k = 0; k < next.size; k++)
            *sum = *sum * 1099511628211u + room[k] + next.endpoint;
    assert(next.fault == SFU_NOTHING);
}

static void *play(void *at) {
    static const uint8_t report[] = {0x80, 0xc9, 0, 1, 0, 0, 0, 17};
    static const uint8_t request[] = {0x83, 0xcd, 0, 4, 0, 0, 0, 17, 0, 0, 0, 0, 0, 0, 1, 1, 0, 7, 0xd0, 0x28};
    uint64_t *sum = at;
    *sum = 14695981039346656037u;
    for (int run = 0; run < RUNS; run++) {
        sfu_conference slot = SFU_CLOSED;
        assert(sfu_open(&slot, (const uint8_t *)text, text_size).fault == SFU_DONE);
        assert(sfu_hear(&slot, 0, 1, report, sizeof report) == SFU_DONE);
        for (unsigned seq = 0; seq < PACKETS; seq++) {
            uint8_t packet[200] = {0x80, 0x60, (uint8_t)(seq >> 8), (uint8_t)seq, 0, 0, 0, (uint8_t)seq, 0, 0, 0, 16};
            memset(packet + 12, (int)seq, sizeof packet - 12);
            assert(sfu_hear(&slot, seq, 0, packet, sizeof packet) == SFU_DONE);
            if (seq == PACKETS / 2)
                assert(sfu_hear(&slot, seq, 1, request, sizeof request) == SFU_DONE);
            assert(sfu_tick(&slot, seq) == SFU_DONE);
            add_sends(&slot, sum);
        }
        assert(sfu_close(&slot) == SFU_DONE);
    }
    return NULL;
}

int main(int argc, char **argv) {
    pthread_t threads[THREADS];
    uint64_t sums[THREADS];
    FILE *file = argc > 1 ? fopen(argv[1], "rb") : NULL;
    assert(file);
    text_size = fread(text, 1, TEXT, file);
    fclose(file);
    for (int k = 0; k < THREADS; k++)
        assert(pthread_create(&threads[k], NULL, play, &sums[k]) == 0);
    for (int k = 0; k < THREADS; k++)
        assert(pthread_join(threads[k], NULL) == 0);
    for (int k = 1; k < THREADS; k++)
        assert(sums[k] == sums[0]);
    printf("%d threads, %d conferences each: the same is sent\n", THREADS, RUNS);
    return 0;
}
