#!/usr/bin/env python3
"""Two subscribers ask one publisher at once, again and again, through `sfu serve` with two workers. After each pair the bound that the
publisher was asked for last, and the set that each subscriber was told last, have to be those of both requests together.

    bench/field/bounds.py SFU [PAIRS]

SFU is the built program. Prints how many pairs ended wrong, and ends with status 1 if any did. By hand: nothing of it is proved.
"""

import os
import random
import select
import socket
import struct
import subprocess
import sys
import tempfile
import time

LIFTED = 0xFFFFFE00
PUBLISHER = 18
SETTINGS = """workers = 2
ring = 8
history = 1024
timeout_ms = 86400000
report_ms = 60000
pli_gap_ms = 500
unit_ssrc = 9
cname = "sfu"
listen = "127.0.0.1:{}"
{}
[[leg]]
subscriber = 0
publisher = 2
out_ssrc = 257

[[leg]]
subscriber = 1
publisher = 2
out_ssrc = 258
"""
ENDPOINT = """
[[endpoint]]
ssrc = {}
address = "127.0.0.1:{}"
"""


def bound_socket():
    """A socket on a free port of the loopback interface."""
    it = socket.socket(socket.AF_INET, socket.SOCK_DGRAM)
    it.bind(("127.0.0.1", 0))
    it.setblocking(False)
    return it


def packets(datagram):
    """The RTCP packets of a datagram (RFC 3550, section 6.1): packet type, format, body."""
    at = 0
    while at + 4 <= len(datagram):
        first, kind, words = struct.unpack_from("!BBH", datagram, at)
        end = at + 4 * (words + 1)
        yield kind, first & 31, datagram[at + 4 : end]
        at = end


def drained(it):
    """All datagrams that came."""
    while True:
        try:
            yield it.recv(65535)
        except BlockingIOError:
            return


def tmmbr(owner, leg, word):
    """A receiver report, and a TMMBR of this owner for this leg's source (RFC 5104, section 4.2.1.1)."""
    return struct.pack("!BBHI", 0x80, 201, 1, owner) + struct.pack("!BBHIIII", 0x83, 205, 4, owner, 0, leg, word)


class Room:
    """The three ends, and what each was told last."""

    def __init__(self):
        self.ends = [bound_socket() for _ in range(3)]
        self.bounds = {}
        self.sets = [None, None]

    def look(self):
        for datagram in drained(self.ends[2]):
            for kind, form, body in packets(datagram):
                if (kind, form) == (205, 3):
                    owner, word = struct.unpack_from("!I", body)[0], struct.unpack_from("!I", body, 12)[0]
                    self.bounds[owner] = word
        for at in (0, 1):
            for datagram in drained(self.ends[at]):
                for kind, form, body in packets(datagram):
                    if (kind, form) == (205, 4):
                        self.sets[at] = list(struct.iter_unpack("!II", body[8:]))

    def is_as(self, owner, word):
        """The publisher is bound by this request alone, and both subscribers were told so."""
        bound = [(of, asked) for of, asked in self.bounds.items() if asked != LIFTED]
        return bound == [(owner, word)] and self.sets == [[(owner, word)]] * 2


def main(program, pairs):
    listener = bound_socket()
    port = listener.getsockname()[1]
    listener.close()
    room = Room()
    ends = "".join(ENDPOINT.format(16 + at, end.getsockname()[1]) for at, end in enumerate(room.ends))
    with tempfile.TemporaryDirectory() as folder:
        file = os.path.join(folder, "room.toml")
        with open(file, "w") as out:
            out.write(SETTINGS.format(port, ends))
        unit = subprocess.Popen([program, "serve", file], stdout=subprocess.DEVNULL, stderr=subprocess.PIPE)
        unit.stderr.readline()
        try:
            return ask(room, ("127.0.0.1", port), pairs)
        finally:
            unit.kill()


def ask(room, unit, pairs):
    for at, end in enumerate(room.ends):
        end.sendto(struct.pack("!BBHI", 0x80, 201, 1, 16 + at), unit)
    time.sleep(0.1)
    wrong = 0
    began = time.time()
    for _pair in range(pairs):
        # Two rates that differ: the lower one is the set, whoever asked for it.
        rates = random.sample(range(1, 1 << 17), 2)
        words = [rate << 9 | 40 for rate in rates]
        for at in random.sample((0, 1), 2):
            room.ends[at].sendto(tmmbr(16 + at, 257 + at, words[at]), unit)
        lower = 0 if rates[0] < rates[1] else 1
        give_up = time.time() + 0.2
        while True:
            room.look()
            if room.is_as(16 + lower, words[lower]):
                break
            if time.time() > give_up:
                wrong += 1
                break
            select.select(room.ends, [], [], 0.05)
    print(f"{pairs} pairs in {time.time() - began:.0f} s, {wrong} ended wrong")
    return 1 if wrong else 0


if __name__ == "__main__":
    if len(sys.argv) not in (2, 3):
        sys.exit(__doc__)
    sys.exit(main(sys.argv[1], int(sys.argv[2]) if len(sys.argv) == 3 else 5000))
