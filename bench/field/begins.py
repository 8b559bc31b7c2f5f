#!/usr/bin/env python3
"""A leg begins, is switched off and on, and ends, again and again, while its publisher sends: is a picture asked for at once, and who is
told that the other end is gone?

    bench/field/begins.py SFU [ROUNDS]

SFU is the built program. In each round a subscriber comes, is switched off and on by the control, and leaves; it comes again, the
publisher leaves and comes back, and the subscriber leaves. For one worker and for two it prints how long after each beginning the PLI was at the publisher, the
goodbyes, and what came to an endpoint once it had said goodbye. Ends with status 1 if a PLI or a goodbye is missing, if a packet of the leg
comes after its goodbye, or if anything comes to who left, GRACE seconds after that. By hand: nothing of it is proved.
"""

import os
import select
import socket
import struct
import subprocess
import sys
import tempfile
import time

SETTINGS = """workers = {}
ring = 64
history = 1024
timeout_ms = 60000
report_ms = 60000
pli_gap_ms = 0
early_pictures = true
leg_goodbyes = true
unit_ssrc = 9
cname = "sfu"
listen = "127.0.0.1:{}"

[[endpoint]]
ssrc = 16
address = "127.0.0.1:{}"

[[endpoint]]
ssrc = 17
address = "127.0.0.1:{}"

[[leg]]
subscriber = 1
publisher = 0
out_ssrc = 257
"""
# How long an answer is waited for, and what was on its way when somebody left, in seconds.
PATIENCE, GRACE = 2, 0.02
# A receiver report of this source, and its goodbye (RFC 3550, sections 6.4.2 and 6.6).
REPORT, GOODBYE = "!BBHI", "!BBHIBBHI"


def report(source):
    return struct.pack(REPORT, 0x80, 201, 1, source)


def goodbye(source):
    return struct.pack(GOODBYE, 0x80, 201, 1, source, 0x81, 203, 1, source)


def packets(datagram):
    """The RTCP packets of a datagram (RFC 3550, section 6.1): packet type, format, body."""
    at = 0
    while at + 4 <= len(datagram):
        first, kind, words = struct.unpack_from("!BBH", datagram, at)
        end = at + 4 * (words + 1)
        yield kind, first & 31, datagram[at + 4 : end]
        at = end


def says(datagram, kind, form):
    """Whether it is RTCP and has such a packet."""
    return 192 <= datagram[1] <= 223 and any((it[0], it[1]) == (kind, form) for it in packets(datagram))


def is_picture_asked(datagram):
    return says(datagram, 206, 1)


def is_goodbye(datagram):
    return says(datagram, 203, 1) and struct.pack("!BBHI", 0x81, 203, 1, 257) in datagram


class Room:
    """A unit with a publisher and a subscriber, and what went wrong."""

    def __init__(self, program, workers, folder):
        self.publisher, self.subscriber, free = (socket.socket(socket.AF_INET, socket.SOCK_DGRAM) for _ in range(3))
        for it in (self.publisher, self.subscriber, free):
            it.bind(("127.0.0.1", 0))
        self.at = free.getsockname()
        free.close()
        self.program, self.control = program, os.path.join(folder, "control")
        file = os.path.join(folder, "room.toml")
        with open(file, "w") as out:
            out.write(SETTINGS.format(workers, self.at[1], self.publisher.getsockname()[1], self.subscriber.getsockname()[1]))
        self.unit = subprocess.Popen([program, "serve", file, "--control", self.control], stdout=subprocess.DEVNULL, stderr=subprocess.PIPE)
        self.unit.stderr.readline()
        self.seq, self.faults, self.waits, self.goodbyes = 0, [], [], 0

    def media(self):
        """One packet more of the publisher (RFC 3550, section 5.1)."""
        self.publisher.sendto(struct.pack("!BBHII", 0x80, 96, self.seq % 65536, 3000 * self.seq % 2**32, 16) + bytes(1000), self.at)
        self.seq += 1

    def select(self, word):
        subprocess.run([self.program, "ask", self.control, "select", "0", word], check=True, stdout=subprocess.DEVNULL)

    def wait_for(self, what, at, is_it, since):
        """Sends media until it comes; how long that took since then."""
        while time.monotonic() < since + PATIENCE:
            self.media()
            while select.select([at], [], [], 0.001)[0]:
                if is_it(at.recv(2048)):
                    return time.monotonic() - since
        self.faults.append(f"no {what}")
        return None

    def begin(self, what, act):
        """What is done so that a leg begins: the PLI has to come."""
        self.drain(self.publisher)
        since = time.monotonic()
        act()
        took = self.wait_for(f"picture was asked for {what}", self.publisher, is_picture_asked, since)
        if took is not None:
            self.waits.append(took)

    def drain(self, it):
        came = []
        while select.select([it], [], [], 0)[0]:
            came.append(it.recv(2048))
        return came

    def quiet(self, who, it):
        """Nothing comes to who left."""
        time.sleep(GRACE)
        self.drain(it)
        for _ in range(100):
            self.media()
            time.sleep(0.0005)
        if came := self.drain(it):
            self.faults.append(f"{len(came)} datagrams came to the {who} after its goodbye")

    def round(self):
        self.media()
        self.begin("as a subscriber came", lambda: self.subscriber.sendto(report(17), self.at))
        self.select("off")
        self.begin("as it was switched on", lambda: self.select("on"))
        self.subscriber.sendto(goodbye(17), self.at)
        self.quiet("subscriber", self.subscriber)
        self.begin("as it came again", lambda: self.subscriber.sendto(report(17), self.at))
        for _ in range(50):
            self.media()
        self.publisher.sendto(goodbye(16), self.at)
        self.said_goodbye()
        time.sleep(GRACE)
        if came := self.drain(self.subscriber):
            self.faults.append(f"{len(came)} datagrams came after the leg's goodbye")
        self.begin("as the publisher came again", self.media)
        self.subscriber.sendto(goodbye(17), self.at)
        self.quiet("subscriber", self.subscriber)

    def said_goodbye(self):
        """The leg's goodbye comes, after all of its packets."""
        until, last = time.monotonic() + PATIENCE, None
        while time.monotonic() < until:
            if select.select([self.subscriber], [], [], 0.01)[0]:
                last = self.subscriber.recv(2048)
                if is_goodbye(last):
                    self.goodbyes += 1
                    return
        self.faults.append("no goodbye of the leg")


def play(program, workers, rounds):
    with tempfile.TemporaryDirectory() as folder:
        room = Room(program, workers, folder)
        try:
            for _ in range(rounds):
                room.round()
        finally:
            room.unit.kill()
    waits = sorted(room.waits)
    shown = f"{1000 * waits[len(waits) // 2]:.1f} ms in the middle, {1000 * waits[-1]:.1f} at most" if waits else "never"
    print(f"workers {workers}: {rounds} rounds, {len(waits)} of {4 * rounds} pictures asked for, {shown}; {room.goodbyes} goodbyes of the leg")
    for fault in sorted(set(room.faults)):
        print(f"  {room.faults.count(fault)} times: {fault}")
    return bool(room.faults)


if __name__ == "__main__":
    if len(sys.argv) not in (2, 3):
        sys.exit(__doc__)
    results = [play(sys.argv[1], workers, int(sys.argv[2]) if len(sys.argv) == 3 else 20) for workers in (1, 2)]
    sys.exit(1 if any(results) else 0)
