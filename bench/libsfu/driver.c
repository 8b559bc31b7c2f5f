/*
 * Plays a script of `sfu replay` over libsfu, as examples/rust's replay does, and prints the same: what is sent, and for each `show` the
 * set, what is live, and the certificate.
 *
 *     driver SETTINGS [NUMBER] < SCRIPT
 *
 * With NUMBER, the library's call of malloc or realloc after so many others gives nothing, and what met no memory is asked for again, or
 * settled: so what is printed is to be the same. It ends in 9 where there were fewer calls. Misuse that the header numbers is tried, too:
 * each call of a slot that was never opened, of one that was closed, and a second sfu_open; each answer is to be the header's.
 */
#include <assert.h>
#include <sfu.h>
#include <stdio.h>
#include <stdlib.h>
#include <string.h>

enum { TEXT = 65536, LINE = 140000 };

/* How many calls are left until the one that gives nothing; below 0 none does. */
static long left = -1;
static int failed;

void *__real_malloc(size_t size);
void *__real_realloc(void *at, size_t size);

static int fails(void) {
    if (left < 0 || left-- > 0)
        return 0;
    failed = 1;
    return 1;
}

void *__wrap_malloc(size_t size) { return fails() ? NULL : __real_malloc(size); }
void *__wrap_realloc(void *at, size_t size) { return fails() ? NULL : __real_realloc(at, size); }

/* Each call of a slot that holds no conference says so, and changes nothing. */
static void closed(sfu_conference *slot) {
    uint8_t room[4] = {1, 2, 3, 4};
    sfu_request request = {1, 2, 3, 4};
    sfu_kept kept = {.place = 7};
    sfu_implied implied = {.place = 7};
    assert(sfu_hear(slot, 0, 0, room, 4) == SFU_IS_CLOSED && sfu_tick(slot, 0) == SFU_IS_CLOSED);
    assert(sfu_select(slot, 0, 0, true) == SFU_IS_CLOSED && sfu_settle(slot) == SFU_IS_CLOSED);
    assert(sfu_next_out(slot, room, 4).fault == SFU_IS_CLOSED && room[0] == 1);
    assert(sfu_announced(slot, 0, &request, 1).fault == SFU_IS_CLOSED && request.ssrc == 1);
    assert(sfu_certified(slot, 0, &request, 1, &kept, 1, &implied, 1).fault == SFU_IS_CLOSED && request.ssrc == 1);
    assert(kept.place == 7 && implied.place == 7);
    assert(sfu_beyond(slot).fault == SFU_IS_CLOSED && sfu_beyond(slot).entries == 0);
    assert(sfu_waiting(slot).fault == SFU_IS_CLOSED && sfu_close(slot) == SFU_IS_CLOSED);
}

static unsigned long word(const sfu_request *r) {
    return (unsigned long)r->exponent << 26 | (unsigned long)r->mantissa << 9 | r->overhead;
}

/* Memory for so many elements; of none, too. */
static void *room_of(size_t count, size_t size) {
    void *at = calloc(count + !count, size);
    assert(at);
    return at;
}

/* Prints what is live, and the certificate. Each array is just as long as it has to be, after one that is an element too short. */
static void certify(sfu_conference *slot, unsigned endpoint) {
    uint16_t number = (uint16_t)endpoint;
    sfu_request no_request;
    sfu_kept no_kept;
    sfu_implied no_implied;
    sfu_certificate told = sfu_certified(slot, number, &no_request, 0, &no_kept, 0, &no_implied, 0);
    size_t count = told.live, keeps = told.kept, implies = told.implied;
    sfu_request *live = room_of(count, sizeof *live);
    sfu_kept *kept = room_of(keeps, sizeof *kept);
    sfu_implied *implied = room_of(implies, sizeof *implied);
    assert(told.fault == (count ? SFU_NO_ROOM : SFU_DONE) && keeps + implies == count);
    if (count)
        assert(sfu_certified(slot, number, live, count - 1, kept, keeps, implied, implies).fault == SFU_NO_ROOM);
    if (keeps)
        assert(sfu_certified(slot, number, live, count, kept, keeps - 1, implied, implies).fault == SFU_NO_ROOM);
    if (implies)
        assert(sfu_certified(slot, number, live, count, kept, keeps, implied, implies - 1).fault == SFU_NO_ROOM);
    told = sfu_certified(slot, number, live, count, kept, keeps, implied, implies);
    assert(told.fault == SFU_DONE && told.live == count && told.kept == keeps && told.implied == implies);
    printf("live");
    for (size_t k = 0; k < count; k++)
        printf(" %08lx %08lx", (unsigned long)live[k].ssrc, word(&live[k]));
    printf("\n");
    for (size_t k = 0; k < keeps; k++)
        printf("kept %lu %016llx%016llx %016llx%016llx %lu\n", (unsigned long)kept[k].place, (unsigned long long)kept[k].packets_high,
               (unsigned long long)kept[k].packets_low, (unsigned long long)kept[k].bits_high, (unsigned long long)kept[k].bits_low,
               (unsigned long)kept[k].seconds);
    for (size_t k = 0; k < implies; k++)
        printf("implied %lu %lu %lu %lu %lu %lu\n", (unsigned long)implied[k].place, (unsigned long)implied[k].a,
               (unsigned long)implied[k].b, (unsigned long)implied[k].p, (unsigned long)implied[k].q, (unsigned long)implied[k].r);
    free(live);
    free(kept);
    free(implied);
}

static void show(sfu_conference *slot, unsigned endpoint) {
    sfu_request *room = calloc(SFU_MAX_REQUESTS, sizeof *room);
    sfu_set set = sfu_announced(slot, (uint16_t)endpoint, room, 0);
    /* (of no room it is said how much is wanted, and just that is enough) */
    if (set.fault == SFU_NO_ROOM) {
        sfu_request *just = calloc(set.count, sizeof *just);
        assert(sfu_announced(slot, (uint16_t)endpoint, just, set.count - 1).fault == SFU_NO_ROOM);
        set = sfu_announced(slot, (uint16_t)endpoint, just, set.count);
        memcpy(room, just, set.count * sizeof *just);
        free(just);
    }
    assert(set.fault == SFU_DONE || set.fault == SFU_NO_ENDPOINT);
    printf("set %u", endpoint);
    for (size_t k = 0; k < set.count; k++)
        printf(" %08lx %08lx", (unsigned long)room[k].ssrc, word(&room[k]));
    printf("\n");
    free(room);
    if (set.fault == SFU_DONE)
        certify(slot, endpoint);
}

/* Prints what is to be sent. Each buffer is just as long as the datagram, after one that is a byte too short. */
static void print_sends(sfu_conference *slot) {
    for (;;) {
        sfu_next next = sfu_next_out(slot, (uint8_t *)"", 0);
        uint8_t *room;
        if (next.fault == SFU_NOTHING)
            return;
        assert(next.fault == SFU_NO_ROOM && next.size > 0);
        room = calloc(next.size, 1);
        assert(room && sfu_next_out(slot, room, next.size - 1).fault == SFU_NO_ROOM);
        next = sfu_next_out(slot, room, next.size);
        assert(next.fault == SFU_DONE);
        printf("send %lu ", (unsigned long)next.endpoint);
        for (size_t k = 0; k < next.size; k++)
            printf("%02x", room[k]);
        printf("\n");
        free(room);
    }
}

/* One event; asked for again where there was no memory and it wasn't done. */
static void play(sfu_conference *slot, const char *line) {
    unsigned long long moment;
    unsigned number;
    char on[4];
    int at = 0;
    uint32_t fault;
    if (sscanf(line, "hear %llu %u %n", &moment, &number, &at) == 2 && at) {
        size_t count = strcspn(line + at, "\n") / 2;
        uint8_t *bytes = calloc(count + !count, 1);
        for (size_t k = 0; k < count; k++) {
            unsigned byte;
            assert(sscanf(line + at + 2 * k, "%2x", &byte) == 1);
            bytes[k] = (uint8_t)byte;
        }
        do
            fault = sfu_hear(slot, moment, (uint16_t)number, bytes, count);
        while (fault == SFU_NO_MEMORY);
        free(bytes);
    } else if (sscanf(line, "tick %llu", &moment) == 1) {
        do
            fault = sfu_tick(slot, moment);
        while (fault == SFU_NO_MEMORY);
    } else if (sscanf(line, "select %llu %u %3s", &moment, &number, on) == 3) {
        do
            fault = sfu_select(slot, moment, (uint16_t)number, strcmp(on, "on") == 0);
        while (fault == SFU_NO_MEMORY);
    } else if (sscanf(line, "show %u", &number) == 1) {
        show(slot, number);
        return;
    } else {
        assert(strncmp(line, "settle", 6) == 0);
        fault = sfu_settle(slot);
    }
    if (fault == SFU_UNSETTLED) {
        sfu_wait wait = sfu_waiting(slot);
        assert(wait.fault == SFU_DONE && wait.tasks + wait.jobs + wait.hands > 0);
        assert(sfu_tick(slot, 0) == SFU_BUSY);
        while (fault == SFU_UNSETTLED)
            fault = sfu_settle(slot);
    }
    assert(fault == SFU_DONE);
    print_sends(slot);
}

int main(int argc, char **argv) {
    static char text[TEXT], line[LINE];
    sfu_conference slot = SFU_CLOSED;
    sfu_opened opened;
    FILE *file = argc > 1 ? fopen(argv[1], "rb") : NULL;
    size_t size = file ? fread(text, 1, TEXT, file) : 0;
    closed(&slot);
    left = argc > 2 ? atol(argv[2]) : -1;
    while ((opened = sfu_open(&slot, (const uint8_t *)text, size)).fault == SFU_NO_MEMORY)
        closed(&slot);
    if (opened.fault != SFU_DONE) {
        printf("fault %lu %llu\n", (unsigned long)opened.fault, (unsigned long long)opened.number);
        closed(&slot);
        return 1;
    }
    assert(sfu_open(&slot, (const uint8_t *)text, size).fault == SFU_OPEN);
    fclose(file);
    setvbuf(stdout, NULL, _IOLBF, BUFSIZ);
    printf("begin\n");
    while (fgets(line, LINE, stdin)) {
        if (line[0] != '\n' && line[0] != '#')
            play(&slot, line);
    }
    left = -1;
    assert(sfu_close(&slot) == SFU_DONE);
    closed(&slot);
    return argc > 2 && !failed ? 9 : 0;
}
