#!/usr/bin/env python3
"""How often `sfu serve` asks for memory for a packet, once all rings are full: requests.py PROGRAM. Takes seconds; wants a C compiler (cc).

One publisher sends packets of 1,200 bytes to four subscribers, whose rings keep 64. A library before the C library's counts requests, and says on a
signal how many there were. Status 0 where 1,000 packets ask for none, with one worker; with two it prints how many they ask for.
"""
import os
import re
import signal
import socket
import struct
import subprocess
import sys
import tempfile
import time

SUBSCRIBERS, PACKETS, RING = 4, 1000, 64
COUNTER = r"""
#define _GNU_SOURCE
#include <dlfcn.h>
#include <signal.h>
#include <stdatomic.h>
#include <stdio.h>
#include <stdlib.h>
#include <unistd.h>

static atomic_long count;

void *malloc(size_t size) {
    static void *(*next)(size_t);
    if (!next) next = dlsym(RTLD_NEXT, "malloc");
    atomic_fetch_add(&count, 1);
    return next(size);
}

void *realloc(void *old, size_t size) {
    static void *(*next)(void *, size_t);
    if (!next) next = dlsym(RTLD_NEXT, "realloc");
    atomic_fetch_add(&count, 1);
    return next(old, size);
}

static void say(int number) {
    char line[64];
    int length = snprintf(line, sizeof line, "requests %ld\n", atomic_load(&count));
    if (write(2, line, length) < 0) _exit(1);
}

__attribute__((constructor)) static void begin(void) { signal(SIGUSR1, say); }
"""


def bound():
    it = socket.socket(socket.AF_INET, socket.SOCK_DGRAM)
    it.bind(("127.0.0.1", 0))
    it.settimeout(2)
    return it


def settings(workers, port, clients):
    lines = [f"workers = {workers}", f"ring = {RING}", "history = 1024", "timeout_ms = 86400000", "report_ms = 86400000"]
    lines += ["pli_gap_ms = 500", "unit_ssrc = 9", 'cname = "sfu"', f'listen = "127.0.0.1:{port}"']
    for number, client in enumerate(clients):
        lines += ["[[endpoint]]", f"ssrc = {16 + number}", f'address = "127.0.0.1:{client.getsockname()[1]}"']
    for number in range(1, len(clients)):
        lines += ["[[leg]]", f"subscriber = {number}", "publisher = 0", f"out_ssrc = {256 + number}"]
    return "\n".join(lines) + "\n"


def counted(program, workers, work):
    """Returns how many requests 1,000 packets made, after the rings were full."""
    clients = [bound() for _ in range(SUBSCRIBERS + 1)]
    with bound() as free:
        port = free.getsockname()[1]
    with open(f"{work}/room.toml", "w", encoding="utf-8") as it:
        it.write(settings(workers, port, clients))
    env = {**os.environ, "LD_PRELOAD": f"{work}/counter.so"}
    unit = subprocess.Popen([program, "serve", f"{work}/room.toml"], stderr=subprocess.PIPE, env=env, text=True)
    try:
        if not unit.stderr.readline().startswith("serving"):
            sys.exit("it doesn't serve")
        for number, client in enumerate(clients):
            client.sendto(struct.pack(">BBHI", 0x80, 201, 1, 16 + number), ("127.0.0.1", port))
        time.sleep(0.3)
        number = 0

        def send(count):
            nonlocal number
            for _ in range(count):
                packet = struct.pack(">BBHII", 0x80, 96, number & 0xFFFF, number, 16) + bytes(1188)
                clients[0].sendto(packet, ("127.0.0.1", port))
                number += 1
                for subscriber in clients[1:]:
                    subscriber.recv(2048)

        def requests():
            unit.send_signal(signal.SIGUSR1)
            while True:
                said = re.match(r"requests (\d+)", unit.stderr.readline())
                if said:
                    return int(said[1])

        send(4 * RING)
        before = requests()
        send(PACKETS)
        return requests() - before
    finally:
        unit.kill()
        unit.wait()


def main():
    program = os.path.abspath(sys.argv[1])
    with tempfile.TemporaryDirectory() as work:
        with open(f"{work}/counter.c", "w", encoding="utf-8") as it:
            it.write(COUNTER)
        subprocess.run(["cc", "-O2", "-shared", "-fPIC", "-o", f"{work}/counter.so", f"{work}/counter.c", "-ldl"], check=True)
        made = [counted(program, workers, work) for workers in (1, 2)]
    for workers, requests in zip((1, 2), made):
        print(f"{workers} worker{'s' * (workers > 1)}: {requests} requests for memory for {PACKETS} packets to {SUBSCRIBERS} subscribers")
    return 0 if made[0] == 0 else 1


if __name__ == "__main__":
    sys.exit(main())
