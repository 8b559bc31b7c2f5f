#!/usr/bin/env python3
"""Sixteen subscribers lose packets and ask for them again, while a seventeenth asks for all that there is, again and again.

    bench/field/hostile.py SFU [SECONDS] [--without]

SFU is the built program. A publisher sends 500 packets a second, for 10 seconds if nothing else is said. Each of sixteen subscribers loses 2 % of
what comes to it, what is sent again as well, and asks for what it misses as soon as it sees the gap, and each ASK_AGAIN seconds after that (RFC 4585,
section 6.2.1). The seventeenth sends a NACK of MANY entries a hundred times a second, each for seventeen numbers. Prints how much of what was sent the
sixteen missed in the end, at worst, and how much went to the seventeenth by the unit's own counts; ends with status 1 if more than 0.2 % is missing, or if
more went to the seventeenth than came of the publisher and `resend_share` percent. With `--without` the file has none of the keys, to see what
happens then. By hand: nothing of it is proved.
"""

import os
import random
import select
import socket
import struct
import subprocess
import sys
import tempfile
import time

SETTINGS = """workers = 1
ring = 512
history = 1024
timeout_ms = 60000
report_ms = 60000
pli_gap_ms = 500
{}unit_ssrc = 9
cname = "sfu"
listen = "127.0.0.1:{}"

[[endpoint]]
ssrc = 16
address = "127.0.0.1:{}"
"""
SHARE = 50
BOUNDS = f"resend_gap_ms = 50\nresend_share = {SHARE}\nflood_limit = 100\n"
ENDPOINT = """
[[endpoint]]
ssrc = {}
address = "127.0.0.1:{}"
"""
LEG = """
[[leg]]
subscriber = {}
publisher = 0
out_ssrc = {}
"""
HONEST, RATE, LOSS = 16, 500, 0.02
# When a packet is asked for again that didn't come, when it is given up, and when the last ones may still come, in seconds.
ASK_AGAIN, TOO_OLD, GRACE = 0.06, 0.8, 1.0
# How many entries the hostile one sends in a datagram, and how often, in seconds.
MANY, OFTEN = 1000, 0.01


def bound_socket():
    it = socket.socket(socket.AF_INET, socket.SOCK_DGRAM)
    it.setsockopt(socket.SOL_SOCKET, socket.SO_RCVBUF, 1 << 22)
    it.bind(("127.0.0.1", 0))
    it.setblocking(False)
    return it


def nack(sender, media, entries):
    """A generic NACK (RFC 4585, section 6.2.1)."""
    body = struct.pack("!II", sender, media) + b"".join(struct.pack("!HH", pid % 65536, blp) for pid, blp in entries)
    return struct.pack("!BBH", 0x81, 205, len(body) // 4) + body


def report(sender):
    return struct.pack("!BBHI", 0x80, 201, 1, sender)


def entries_for(numbers):
    """The entries that name these numbers, which rise."""
    entries = []
    for number in numbers:
        if entries and 0 < number - entries[-1][0] <= 16:
            entries[-1][1] |= 1 << (number - entries[-1][0] - 1)
        else:
            entries.append([number, 0])
    return entries


class Subscriber:
    """Who sees each packet or loses it, and asks for what is missing."""

    def __init__(self, place):
        self.socket = bound_socket()
        self.source, self.media = 17 + place, 257 + place
        self.came, self.missing, self.highest, self.twice = set(), {}, None, 0

    def take(self, datagram, now):
        if datagram[1] != 96 or random.random() < LOSS:
            return
        number = struct.unpack_from("!H", datagram, 2)[0]
        self.twice += number in self.came
        self.came.add(number)
        self.missing.pop(number, None)
        if self.highest is not None:
            for skipped in range(self.highest + 1, number):
                self.missing[skipped] = [now, 0]
        self.highest = number if self.highest is None else max(self.highest, number)

    def ask(self, now, unit):
        wanted = []
        for number, times in sorted(self.missing.items()):
            if now - times[0] < TOO_OLD and now - times[1] >= ASK_AGAIN:
                times[1] = now
                wanted.append(number)
        if wanted:
            self.socket.sendto(nack(self.source, self.media, entries_for(wanted)), unit)


def play(program, seconds, bounds, folder):
    publisher, free = bound_socket(), bound_socket()
    unit_at = free.getsockname()
    free.close()
    subscribers = [Subscriber(place) for place in range(HONEST)]
    hostile = Subscriber(HONEST)
    everybody = subscribers + [hostile]
    file, control = os.path.join(folder, "room.toml"), os.path.join(folder, "control")
    with open(file, "w") as out:
        out.write(SETTINGS.format(bounds, unit_at[1], publisher.getsockname()[1]))
        for it in everybody:
            out.write(ENDPOINT.format(it.source, it.socket.getsockname()[1]))
        for place, it in enumerate(everybody):
            out.write(LEG.format(1 + place, it.media))
    unit = subprocess.Popen([program, "serve", file, "--control", control], stdout=subprocess.DEVNULL, stderr=subprocess.PIPE)
    unit.stderr.readline()

    def ask(*words):
        return subprocess.run([program, "ask", control, *words], check=True, capture_output=True, text=True).stdout

    try:
        sent, got = exchange(publisher, subscribers, hostile, unit_at, seconds)
        rows = [line.split() for line in ask("legs").splitlines()]
        counts = ask("counts").split()
    finally:
        unit.kill()
    packets, resent = (int(rows[HONEST][rows[HONEST].index(word) + 1]) for word in ("packets", "resent"))
    counts = dict(zip(counts[::2], map(int, counts[1::2])))
    worst = max(sent - len(it.came) for it in subscribers) / sent
    repeats = sum(it.twice for it in subscribers)
    resends = sum(int(row[row.index("resent") + 1]) for row in rows[:HONEST])
    print(f"{sent} packets sent; the sixteen missed {100 * worst:.2f} % at worst after repair, and got {repeats} of {resends} resends twice")
    print(f"to the seventeenth {packets} packets, {resent} of them again ({got} arrived); held {counts.get('held', 0)}, unread {counts.get('unread', 0)}")
    return 1 if worst > 0.002 or resent > sent * SHARE // 100 + RATE else 0


def exchange(publisher, subscribers, hostile, unit_at, seconds):
    by_file = {it.socket.fileno(): it for it in subscribers}
    looks = select.poll()
    for it in subscribers + [hostile]:
        looks.register(it.socket, select.POLLIN)
        it.socket.sendto(report(it.source), unit_at)
    time.sleep(0.1)
    began = time.monotonic()
    sent, got, next_hostile = 0, 0, began
    while (now := time.monotonic()) < began + seconds + GRACE:
        while sent < min(seconds, now - began) * RATE:
            publisher.sendto(struct.pack("!BBHII", 0x80, 96, sent % 65536, 3000 * sent % 2**32, 16) + bytes(1000), unit_at)
            sent += 1
        if now >= next_hostile and now < began + seconds:
            next_hostile = now + OFTEN
            last = max(sent, 17)
            entries = [(last - 17 * (place % 30 + 1), 0xFFFF) for place in range(MANY)]
            hostile.socket.sendto(nack(hostile.source, hostile.media, entries), unit_at)
        for handle, _ in looks.poll(1):
            it = by_file.get(handle)
            try:
                while True:
                    datagram = (it or hostile).socket.recv(65535)
                    if it:
                        it.take(datagram, now)
                    else:
                        got += datagram[1] == 96
            except BlockingIOError:
                pass
        for it in subscribers:
            it.ask(now, unit_at)
    return sent, got


if __name__ == "__main__":
    words = [it for it in sys.argv[1:] if it != "--without"]
    if len(words) not in (1, 2):
        sys.exit(__doc__)
    with tempfile.TemporaryDirectory() as room:
        sys.exit(play(words[0], int(words[1]) if len(words) == 2 else 10, "" if "--without" in sys.argv else BOUNDS, room))
