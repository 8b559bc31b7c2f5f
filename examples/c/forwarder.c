/*
 * A selective forwarding unit on one UDP socket, over libsfu: what an endpoint sends goes to the others as the settings say.
 *
 *     cc -O2 forwarder.c $(pkg-config --cflags --libs sfu) -o forwarder
 *     ./forwarder SETTINGS IP:PORT IP:PORT..
 *
 * SETTINGS are a room's, with one worker, as `sfu replay` reads them; `entry_limit` bounds what one datagram may ask for. The first address is where it listens, the others are those of
 * the endpoints, by their numbers (IPv4). It says `serving` once it listens. An empty datagram from endpoint 0 ends it: then it prints
 * what is announced for each endpoint and what it did. A server has ICE, DTLS and SRTP where this has recvfrom and sendto; the calls of the library are the same.
 */
#define _POSIX_C_SOURCE 200809L
#include <arpa/inet.h>
#include <errno.h>
#include <poll.h>
#include <sfu.h>
#include <stdio.h>
#include <stdlib.h>
#include <string.h>
#include <sys/socket.h>
#include <time.h>
#include <unistd.h>

enum { MAX_ENDPOINTS = 256, TICK_MS = 10, ROOM = 65536 };

static uint64_t heard, sent, dropped;

static int die(const char *what, unsigned long number) {
    fprintf(stderr, "forwarder: %s %lu\n", what, number);
    return 1;
}

/* Milliseconds since the first call: a clock that never goes back. */
static uint64_t now(void) {
    static uint64_t begin;
    struct timespec t;
    uint64_t all;
    clock_gettime(CLOCK_MONOTONIC, &t);
    all = (uint64_t)t.tv_sec * 1000 + (uint64_t)t.tv_nsec / 1000000;
    begin = begin ? begin : all;
    return all - begin;
}

/* Reads IP:PORT; 0 if it is none. */
static int read_address(const char *text, struct sockaddr_in *address) {
    char ip[INET_ADDRSTRLEN];
    unsigned port;
    memset(address, 0, sizeof *address);
    address->sin_family = AF_INET;
    if (sscanf(text, "%15[0-9.]:%5u", ip, &port) != 2 || port > 65535)
        return 0;
    address->sin_port = htons((uint16_t)port);
    return inet_pton(AF_INET, ip, &address->sin_addr) == 1;
}

/* Reads a file of up to `room` bytes; -1 if it can't. */
static long read_file(const char *path, char *text, size_t room) {
    FILE *file = fopen(path, "rb");
    size_t count;
    if (!file)
        return -1;
    count = fread(text, 1, room, file);
    fclose(file);
    return count < room ? (long)count : -1;
}

/* The number of the endpoint at this address; -1 if it is a stranger's. */
static int endpoint_at(const struct sockaddr_in *endpoints, int count, const struct sockaddr_in *from) {
    for (int k = 0; k < count; k++)
        if (endpoints[k].sin_port == from->sin_port && endpoints[k].sin_addr.s_addr == from->sin_addr.s_addr)
            return k;
    return -1;
}

/* Sends all that waits to be sent. A server whose socket is full would keep the datagram, and go on later. */
static void send_all(sfu_conference *conference, int port, const struct sockaddr_in *endpoints) {
    static uint8_t room[ROOM];
    sfu_next next;
    while ((next = sfu_next_out(conference, room, sizeof room)).fault == SFU_DONE) {
        const struct sockaddr_in *to = &endpoints[next.endpoint];
        if (sendto(port, room, next.size, 0, (const struct sockaddr *)to, sizeof *to) == (ssize_t)next.size)
            sent++;
        else
            dropped++;
    }
}

/* What the call met: nothing, or no memory, which passes. */
static void settle(sfu_conference *conference, uint32_t fault) {
    if (fault == SFU_UNSETTLED || fault == SFU_BUSY)
        while (sfu_settle(conference) == SFU_UNSETTLED)
            poll(NULL, 0, 1);
}

static void print_announced(sfu_conference *conference, int endpoint) {
    sfu_request requests[SFU_MAX_REQUESTS];
    sfu_set set = sfu_announced(conference, (uint16_t)endpoint, requests, SFU_MAX_REQUESTS);
    printf("announced %d", endpoint);
    for (size_t k = 0; set.fault == SFU_DONE && k < set.count; k++) {
        const sfu_request *r = &requests[k];
        printf(" %lu %08lx", (unsigned long)r->ssrc,
               (unsigned long)r->exponent << 26 | (unsigned long)r->mantissa << 9 | (unsigned long)r->overhead);
    }
    printf("\n");
}

/* Serves until endpoint 0 sends an empty datagram. */
static void serve(sfu_conference *conference, int port, const struct sockaddr_in *endpoints, int count) {
    static uint8_t bytes[ROOM];
    uint64_t ticked = now();
    for (;;) {
        struct pollfd wait = {port, POLLIN, 0};
        struct sockaddr_in from;
        socklen_t from_size = sizeof from;
        uint64_t moment;
        if (poll(&wait, 1, TICK_MS) > 0) {
            ssize_t size = recvfrom(port, bytes, sizeof bytes, 0, (struct sockaddr *)&from, &from_size);
            int endpoint = size < 0 ? -1 : endpoint_at(endpoints, count, &from);
            if (size == 0 && endpoint == 0)
                return;
            if (endpoint >= 0) {
                settle(conference, sfu_hear(conference, now(), (uint16_t)endpoint, bytes, (size_t)size));
                heard++;
            }
        }
        moment = now();
        if (moment - ticked >= TICK_MS) {
            settle(conference, sfu_tick(conference, moment));
            ticked = moment;
        }
        send_all(conference, port, endpoints);
    }
}

int main(int argc, char **argv) {
    static char text[ROOM];
    static struct sockaddr_in own, endpoints[MAX_ENDPOINTS];
    sfu_conference conference = SFU_CLOSED;
    sfu_opened opened;
    int count = argc - 3, port;
    long size;
    if (count < 1 || count > MAX_ENDPOINTS || !read_address(argv[2], &own))
        return die("wants SETTINGS IP:PORT IP:PORT.., and endpoints up to", MAX_ENDPOINTS);
    for (int k = 0; k < count; k++)
        if (!read_address(argv[k + 3], &endpoints[k]))
            return die("no address: that of endpoint", (unsigned long)k);
    if ((size = read_file(argv[1], text, sizeof text)) < 0)
        return die("can't read the settings, or they are too long:", sizeof text);
    opened = sfu_open(&conference, (const uint8_t *)text, (size_t)size);
    if (opened.fault != SFU_DONE)
        return die("no settings: fault", opened.fault);
    port = socket(AF_INET, SOCK_DGRAM, 0);
    if (port < 0 || bind(port, (const struct sockaddr *)&own, sizeof own) != 0)
        return die("can't listen:", (unsigned long)errno);
    fprintf(stderr, "serving %s\n", argv[2]);
    serve(&conference, port, endpoints, count);
    for (int k = 0; k < count; k++)
        print_announced(&conference, k);
    printf("heard %lu sent %lu dropped %lu\n", (unsigned long)heard, (unsigned long)sent, (unsigned long)dropped);
    close(port);
    return sfu_close(&conference) == SFU_DONE ? 0 : 1;
}
