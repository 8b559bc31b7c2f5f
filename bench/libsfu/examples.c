/*
 * Each call of libsfu by the bytes of example 21 of docs/EXAMPLES.md, and each of its refusals but those for want of memory. It ends at
 * the first answer that is another one; `.ci/c_libraries` runs it.
 */
#undef NDEBUG
#include <assert.h>
#include <sfu.h>
#include <stdio.h>
#include <string.h>

enum { COMPOUND = 44 };

/* The settings of examples/room.toml, with one worker, in pieces of which one may be replaced. */
#define ROOM(WORKERS, RING, SECOND, PUBLISHER, OUT)                                                                                   \
    "workers = " WORKERS "\n" RING "history = 128\ntimeout_ms = 1000\nreport_ms = 60000\npli_gap_ms = 500\nunit_ssrc = 9\n"            \
    "cname = \"sfu\"\n[[endpoint]]\nssrc = 16\n[[endpoint]]\n" SECOND " = 17\n[[leg]]\nsubscriber = 1\npublisher = " PUBLISHER "\n"     \
    "out_ssrc = " OUT "\nfirst_seq = 100\n"

static const char THIS[] = ROOM("1", "ring = 8\n", "ssrc", "0", "257");
/* The same, of which one entry of a datagram is heard. */
static const char LIMITED[] = ROOM("1", "ring = 8\nentry_limit = 1\n", "ssrc", "0", "257");

static const uint8_t PACKET[14] = {0x80, 0x60, 0, 7, 0, 0, 0x0b, 0xb8, 0, 0, 0, 16, 0xaa, 0xbb};
/* The same under the leg's source and number. */
static const uint8_t SENT_ON[14] = {0x80, 0x60, 0, 100, 0, 0, 0x0b, 0xb8, 0, 0, 1, 1, 0xaa, 0xbb};
static const uint8_t REPORT[8] = {0x80, 0xc9, 0, 1, 0, 0, 0, 17};
/* 17 asks for at most 1,000 bits per second, with 40 bytes of header, of what it gets under source 257. */
static const uint8_t REQUEST[20] = {0x83, 0xcd, 0, 4, 0, 0, 0, 17, 0, 0, 0, 0, 0, 0, 1, 1, 0, 7, 0xd0, 0x28};
/* What each compound of the unit begins with; what 16 is asked for that; what 17 is told of it. */
static const uint8_t HEAD[24] = {0x80, 0xc9, 0, 1, 0, 0, 0, 9, 0x81, 0xca, 0, 3, 0, 0, 0, 9, 1, 3, 0x73, 0x66, 0x75, 0, 0, 0};
static const uint8_t ASKED[20] = {0x83, 0xcd, 0, 4, 0, 0, 0, 17, 0, 0, 0, 0, 0, 0, 0, 16, 0, 7, 0xd0, 0x28};
static const uint8_t TOLD[20] = {0x84, 0xcd, 0, 4, 0, 0, 1, 1, 0, 0, 0, 0, 0, 0, 0, 17, 0, 7, 0xd0, 0x28};

/* The next datagram is the head and these bytes, and goes to this endpoint. */
static void hands(sfu_conference *slot, uint32_t endpoint, const uint8_t *end) {
    uint8_t room[COMPOUND] = {0};
    sfu_next next = sfu_next_out(slot, room, COMPOUND - 1);
    assert(next.fault == SFU_NO_ROOM && next.size == COMPOUND && room[0] == 0);
    next = sfu_next_out(slot, room, COMPOUND);
    assert(next.fault == SFU_DONE && next.endpoint == endpoint && next.size == COMPOUND);
    assert(memcmp(room, HEAD, sizeof HEAD) == 0 && memcmp(room + sizeof HEAD, end, 20) == 0);
}

static int is_limit(const sfu_request *it) {
    return it->ssrc == 17 && it->exponent == 0 && it->mantissa == 1000 && it->overhead == 40;
}

static void announces(sfu_conference *slot) {
    sfu_request room[2];
    sfu_set set = sfu_announced(slot, 0, room, 0);
    assert(set.fault == SFU_NO_ROOM && set.count == 1);
    set = sfu_announced(slot, 0, room, 2);
    assert(set.fault == SFU_DONE && set.count == 1 && is_limit(&room[0]));
    assert(sfu_announced(slot, 2, room, 2).fault == SFU_NO_ENDPOINT);
}

/* Its certificate is that of example 1. */
static void certifies(sfu_conference *slot) {
    sfu_request live[2] = {{7, 0, 0, 0}, {7, 0, 0, 0}};
    sfu_kept kept[2] = {{.place = 7}, {.place = 7}};
    sfu_implied none;
    sfu_certificate told = sfu_certified(slot, 0, live, 1, kept, 0, &none, 0);
    assert(told.fault == SFU_NO_ROOM && live[0].ssrc == 7);
    told = sfu_certified(slot, 0, live, 0, kept, 1, &none, 0);
    assert(told.fault == SFU_NO_ROOM && kept[0].place == 7);
    told = sfu_certified(slot, 0, live, 2, kept, 2, &none, 0);
    assert(told.fault == SFU_DONE && told.live == 1 && told.kept == 1 && told.implied == 0 && is_limit(&live[0]));
    assert(kept[0].packets_high == 0 && kept[0].packets_low == 1000 && kept[0].bits_high == 0 && kept[0].bits_low == 1001);
    assert(kept[0].seconds == 321 && kept[0].place == 0);
    assert(sfu_certified(slot, 2, live, 2, kept, 2, &none, 0).fault == SFU_NO_ENDPOINT);
}

/* Then a packet goes on, and nothing is left to do or to be sent once the leg is switched off and a moment has passed. */
static void ends(sfu_conference *slot) {
    uint8_t room[sizeof SENT_ON];
    sfu_next next;
    sfu_wait wait;
    assert(sfu_hear(slot, 30, 0, PACKET, sizeof PACKET) == SFU_DONE);
    next = sfu_next_out(slot, room, sizeof room);
    assert(next.fault == SFU_DONE && next.endpoint == 1 && next.size == sizeof SENT_ON && memcmp(room, SENT_ON, sizeof room) == 0);
    assert(sfu_select(slot, 40, 0, false) == SFU_DONE && sfu_tick(slot, 50) == SFU_DONE && sfu_settle(slot) == SFU_DONE);
    assert(sfu_next_out(slot, room, sizeof room).fault == SFU_NOTHING);
    wait = sfu_waiting(slot);
    assert(wait.fault == SFU_DONE && wait.tasks == 0 && wait.jobs == 0 && wait.hands == 0);
}

static void serves_a_conference(void) {
    sfu_conference slot = SFU_CLOSED;
    assert(sfu_open(&slot, (const uint8_t *)THIS, strlen(THIS)).fault == SFU_DONE);
    assert(sfu_open(&slot, (const uint8_t *)THIS, strlen(THIS)).fault == SFU_OPEN);
    assert(sfu_hear(&slot, 0, 0, PACKET, sizeof PACKET) == SFU_DONE && sfu_hear(&slot, 0, 1, REPORT, sizeof REPORT) == SFU_DONE);
    assert(sfu_hear(&slot, 10, 1, REQUEST, sizeof REQUEST) == SFU_DONE);
    hands(&slot, 0, ASKED);
    hands(&slot, 1, TOLD);
    announces(&slot);
    certifies(&slot);
    ends(&slot);
    assert(sfu_close(&slot) == SFU_DONE && sfu_close(&slot) == SFU_IS_CLOSED);
}

/* The next datagram is the packet under this number of the leg, and goes to 17; there may be none. */
static int is_sent_on(sfu_conference *slot, uint8_t number) {
    uint8_t room[sizeof SENT_ON];
    sfu_next next = sfu_next_out(slot, room, sizeof room);
    return next.fault == SFU_DONE && next.endpoint == 1 && next.size == sizeof room && room[1] == 0x60 && room[3] == number;
}

/* Two packets go on to 17, which asks for both again: how much of that is heard the settings say. */
static void hears_so_many_entries(const char *text, int is_limited) {
    static const uint8_t AGAIN[20] = {0x81, 0xcd, 0, 4, 0, 0, 0, 17, 0, 0, 1, 1, 0, 100, 0, 0, 0, 101, 0, 0};
    sfu_conference slot = SFU_CLOSED;
    uint8_t packet[sizeof PACKET];
    sfu_entries beyond;
    memcpy(packet, PACKET, sizeof packet);
    assert(sfu_open(&slot, (const uint8_t *)text, strlen(text)).fault == SFU_DONE);
    assert(sfu_hear(&slot, 0, 0, PACKET, sizeof PACKET) == SFU_DONE && sfu_hear(&slot, 0, 1, REPORT, sizeof REPORT) == SFU_DONE);
    assert(sfu_hear(&slot, 10, 0, packet, sizeof packet) == SFU_DONE && is_sent_on(&slot, 100));
    packet[3] = 8;
    assert(sfu_hear(&slot, 10, 0, packet, sizeof packet) == SFU_DONE && is_sent_on(&slot, 101));
    assert(sfu_hear(&slot, 20, 1, AGAIN, sizeof AGAIN) == SFU_DONE && is_sent_on(&slot, 100));
    assert(is_sent_on(&slot, 101) == !is_limited);
    beyond = sfu_beyond(&slot);
    assert(beyond.fault == SFU_DONE && beyond.entries == (uint64_t)is_limited && sfu_close(&slot) == SFU_DONE);
}

static void refuses_where_none_is_open(void) {
    sfu_conference slot = SFU_CLOSED;
    sfu_request request;
    sfu_kept kept;
    sfu_implied implied;
    uint8_t room[1];
    assert(sfu_close(&slot) == SFU_IS_CLOSED && sfu_hear(&slot, 0, 0, PACKET, sizeof PACKET) == SFU_IS_CLOSED);
    assert(sfu_tick(&slot, 0) == SFU_IS_CLOSED && sfu_select(&slot, 0, 0, true) == SFU_IS_CLOSED && sfu_settle(&slot) == SFU_IS_CLOSED);
    assert(sfu_next_out(&slot, room, 1).fault == SFU_IS_CLOSED && sfu_announced(&slot, 0, &request, 1).fault == SFU_IS_CLOSED);
    assert(sfu_certified(&slot, 0, &request, 1, &kept, 1, &implied, 1).fault == SFU_IS_CLOSED);
    assert(sfu_waiting(&slot).fault == SFU_IS_CLOSED && sfu_beyond(&slot).fault == SFU_IS_CLOSED);
}

/* The text opens none, for this reason. */
static void is_refused(const char *text, uint32_t fault, uint64_t number) {
    sfu_conference slot = SFU_CLOSED;
    sfu_opened opened = sfu_open(&slot, (const uint8_t *)text, strlen(text));
    assert(opened.fault == fault && opened.number == number && sfu_close(&slot) == SFU_IS_CLOSED);
}

static void opens_no_conference(void) {
    is_refused("workers =", SFU_NOT_TOML, 0);
    is_refused(ROOM("1", "", "ssrc", "0", "257"), SFU_BAD_KEY, 0);
    is_refused(ROOM("1", "ring = 8\n", "ssrc", "0", "16"), SFU_SAME_SSRC, 0);
    is_refused(ROOM("1", "ring = 8\n", "src", "0", "257"), SFU_BAD_ENDPOINT, 1);
    is_refused(ROOM("1", "ring = 8\n", "ssrc", "9", "257"), SFU_BAD_LEG, 0);
    is_refused(ROOM("2", "ring = 8\n", "ssrc", "0", "257"), SFU_WORKERS, 2);
}

int main(void) {
    serves_a_conference();
    hears_so_many_entries(LIMITED, 1);
    hears_so_many_entries(THIS, 0);
    refuses_where_none_is_open();
    opens_no_conference();
    printf("as the examples say\n");
    return 0;
}
