#!/usr/bin/env python3
"""The unit stands still, again and again, while a publisher sends: a stall is no flood, and nobody is gone.

    bench/field/stalls.py SFU [SECONDS] [--without]

SFU is the built program. A publisher sends 500 packets a second to one subscriber, for 4 seconds if nothing else is said, while the unit is stopped for
0.2 s (SIGSTOP) and goes on (SIGCONT), again and again; a third endpoint only says that it is there, each second. Then all of them are silent and the unit is stopped for LONG seconds,
more than their timeout. Prints how many packets came, how many were let go as flooded, who is present at the end, and how much wasn't lived; ends with status 1 if a packet
is missing though the system dropped nothing, if one was let go, if somebody is gone, or if what wasn't lived isn't what it must be: the long stop but for `stall_ms`. With
`--without` the file has no `stall_ms`, to see what happens then. With one worker and with two. By hand: nothing of it is proved.
"""

import os
import select
import signal
import socket
import struct
import subprocess
import sys
import tempfile
import threading
import time

SETTINGS = """workers = {}
ring = 64
history = 1024
timeout_ms = 3000
report_ms = 60000
pli_gap_ms = 500
flood_limit = 1
{}unit_ssrc = 9
cname = "sfu"
listen = "127.0.0.1:{}"
"""
ENDPOINT = """
[[endpoint]]
ssrc = {}
address = "127.0.0.1:{}"
"""
LEG = """
[[leg]]
subscriber = 1
publisher = 0
out_ssrc = 257
"""
RATE, STALL, PAUSE, LONG, STALL_MS = 500, 0.2, 0.2, 5, 1000
SOURCES = (16, 17, 18)


def bound_socket():
    it = socket.socket(socket.AF_INET, socket.SOCK_DGRAM)
    it.setsockopt(socket.SOL_SOCKET, socket.SO_RCVBUF, 1 << 22)
    it.bind(("127.0.0.1", 0))
    return it


def report(source):
    return struct.pack("!BBHI", 0x80, 201, 1, source)


def play(program, seconds, workers, bound, folder):
    publisher, subscriber, third, free = everybody = [bound_socket() for _ in range(4)]
    unit_at = free.getsockname()
    free.close()
    file, control = os.path.join(folder, "room.toml"), os.path.join(folder, "control")
    with open(file, "w") as out:
        out.write(SETTINGS.format(workers, bound, unit_at[1]))
        for source, it in zip(SOURCES, everybody):
            out.write(ENDPOINT.format(source, it.getsockname()[1]))
        out.write(LEG)
    unit = subprocess.Popen([program, "serve", file, "--control", control], stdout=subprocess.DEVNULL, stderr=subprocess.PIPE)
    unit.stderr.readline()
    came, is_over = set(), threading.Event()

    def ask(*words):
        return subprocess.run([program, "ask", control, *words], check=True, capture_output=True, text=True).stdout

    def receive():
        while not is_over.is_set():
            if select.select([subscriber], [], [], 0.1)[0]:
                datagram = subscriber.recv(2048)
                if datagram[1] == 96:
                    came.add(struct.unpack_from("!I", datagram, 12)[0])

    receiver = threading.Thread(target=receive, daemon=True)
    try:
        for source, it in list(zip(SOURCES, everybody))[1:]:
            it.sendto(report(source), unit_at)
        time.sleep(0.1)
        receiver.start()
        began = time.monotonic()
        sent, stalls, reports = 0, 0, 0
        while (now := time.monotonic() - began) < seconds:
            while sent < now * RATE:
                publisher.sendto(struct.pack("!BBHII", 0x80, 96, sent % 65536, 3000 * sent % 2**32, 16) + struct.pack("!I", sent) + bytes(1000), unit_at)
                sent += 1
            while reports < now:
                for source, it in list(zip(SOURCES, everybody))[1:]:
                    it.sendto(report(source), unit_at)
                reports += 1
            turn, place = divmod(now, PAUSE + STALL)
            if place >= PAUSE and stalls <= turn:
                unit.send_signal(signal.SIGSTOP)
                stalls = turn + 1
            elif place < PAUSE:
                unit.send_signal(signal.SIGCONT)
            time.sleep(0.0005)
        unit.send_signal(signal.SIGCONT)
        time.sleep(0.5)
        before = counts_of(ask("counts"))
        unit.send_signal(signal.SIGSTOP)
        time.sleep(LONG)
        unit.send_signal(signal.SIGCONT)
        time.sleep(0.1)
        after = counts_of(ask("counts"))
    finally:
        is_over.set()
        unit.kill()
    flooded, unread = after["flooded"], after.get("unread", 0)
    unlived = after["stalled"] - before["stalled"]
    print(f"workers {workers}: {len(came)} of {sent} packets came over {int(stalls)} stalls, {flooded} were let go as flooded; unread {unread}")
    print(f"workers {workers}: after {LONG} s {after['present']} of {len(SOURCES)} are present; {unlived} ms weren't lived, {before['stalled']} before")
    is_missing = len(came) + flooded < sent and not unread
    # (the unit looked at the clock some milliseconds before it was stopped, and some after it went on)
    wanted = LONG * 1000 - STALL_MS if bound else 0
    is_other = abs(unlived - wanted) > 200
    return is_missing or flooded > 0 or is_other or after["present"] < len(SOURCES)


def counts_of(text):
    words = text.split()
    return dict(zip(words[::2], map(int, words[1::2])))


if __name__ == "__main__":
    asked = [it for it in sys.argv[1:] if it != "--without"]
    if len(asked) not in (1, 2):
        sys.exit(__doc__)
    faults = 0
    for count in (1, 2):
        with tempfile.TemporaryDirectory() as room:
            faults += play(asked[0], int(asked[1]) if len(asked) == 2 else 4, count, "" if "--without" in sys.argv else f"stall_ms = {STALL_MS}\n", room)
    sys.exit(1 if faults else 0)
