#!/usr/bin/env python3
"""What a publisher is asked for again, through `sfu serve` with one worker and with two: it loses the first TMMBR; it starts anew, with a
goodbye and without; it comes after its subscriber asked; and it comes after its subscriber left.

    bench/field/repeats.py SFU [--without]

SFU is the built program. Prints what was seen, a line each, and ends with status 1 if it isn't what has to be seen. With `--without` the
file has no `repeat_ms`, to see what happens then. By hand: nothing of it is proved.
"""

import os
import select
import socket
import struct
import subprocess
import sys
import tempfile
import time

REPEAT = 0.4
TIMEOUT = 2.0
SETTINGS = """workers = {}
ring = 8
history = 1024
timeout_ms = 2000
report_ms = 60000
pli_gap_ms = 500
unit_ssrc = 9
cname = "sfu"
listen = "127.0.0.1:{}"
{}
[[endpoint]]
ssrc = 16
address = "127.0.0.1:{}"

[[endpoint]]
ssrc = 17
address = "127.0.0.1:{}"

[[leg]]
subscriber = 1
publisher = 0
out_ssrc = 257
"""
PUBLISHER, SUBSCRIBER, LEG = 16, 17, 257
# At most 1,000 bit/s, without overhead (RFC 5104, section 4.2.1.1).
WORD = 0x0007D028


def bound_socket():
    """A socket on a free port of the loopback interface."""
    it = socket.socket(socket.AF_INET, socket.SOCK_DGRAM)
    it.bind(("127.0.0.1", 0))
    return it


def packets(datagram):
    """The RTCP packets of a datagram (RFC 3550, section 6.1): packet type, format, body."""
    at = 0
    while at + 4 <= len(datagram):
        first, kind, words = struct.unpack_from("!BBH", datagram, at)
        end = at + 4 * (words + 1)
        yield kind, first & 31, datagram[at + 4 : end]
        at = end


def entries(body):
    """The entries of a TMMBR or a TMMBN: a source and a word each."""
    return [struct.unpack_from("!II", body, at) for at in range(8, len(body) - 7, 8)]


def report(sender):
    """A receiver report that says no more than that the sender is there (RFC 3550, section 6.4.2)."""
    return struct.pack("!BBHI", 0x80, 201, 1, sender)


def goodbye(sender):
    return report(sender) + struct.pack("!BBHI", 0x81, 203, 1, sender)


def tmmb(fmt, sender, ssrc):
    """A report, and a TMMBR (3) or a TMMBN (4) with one entry (RFC 5104, sections 4.2.1 and 4.2.2)."""
    return report(sender) + struct.pack("!BBHIIII", 0x80 | fmt, 205, 4, sender, 0, ssrc, WORD)


class Room:
    """A unit that is served, and its two peers."""

    def __init__(self, program, workers, key, folder):
        self.publisher, self.subscriber = bound_socket(), bound_socket()
        listener = bound_socket()
        self.unit_at = listener.getsockname()
        listener.close()
        file = os.path.join(folder, "room.toml")
        self.control = os.path.join(folder, "control")
        with open(file, "w") as out:
            ports = self.publisher.getsockname()[1], self.subscriber.getsockname()[1]
            out.write(SETTINGS.format(workers, self.unit_at[1], key, *ports))
        self.program = program
        words = [program, "serve", file, "--control", self.control]
        self.unit = subprocess.Popen(words, stdout=subprocess.DEVNULL, stderr=subprocess.PIPE)
        self.unit.stderr.readline()
        self.seq = 0

    def end(self):
        self.unit.kill()
        self.unit.wait()

    def say(self, who, datagram):
        who.sendto(datagram, self.unit_at)

    def media(self):
        """The publisher sends a packet (RFC 3550, section 5.1)."""
        self.seq += 1
        self.say(self.publisher, struct.pack("!BBHII", 0x80, 96, self.seq % 65536, 3000 * self.seq, PUBLISHER) + b"x")

    def after(self, seconds, is_media=True, is_there=True):
        """Goes on for so long: the moments after which the publisher was asked for the word, and the subscriber was told a set. The publisher
        sends a packet each 20 ms, and the subscriber a report each 200 ms, unless they don't."""
        start, asked, told, turns = time.monotonic(), [], [], 0
        while time.monotonic() < start + seconds:
            if is_media:
                self.media()
            if is_there and turns % 10 == 0:
                self.say(self.subscriber, report(SUBSCRIBER))
            turns += 1
            until = time.monotonic() + 0.02
            while (left := until - time.monotonic()) > 0:
                for it in select.select([self.publisher, self.subscriber], [], [], left)[0]:
                    datagram = it.recv(65535)
                    if not 192 <= datagram[1] <= 223:
                        continue
                    moment = time.monotonic() - start
                    for kind, fmt, body in packets(datagram):
                        if it is self.publisher and (kind, fmt) == (205, 3) and (PUBLISHER, WORD) in entries(body):
                            asked.append(moment)
                        if it is self.subscriber and (kind, fmt) == (205, 4) and (SUBSCRIBER, WORD) in entries(body):
                            told.append(moment)
        return asked, told

    def refused(self):
        """How much of the subscriber's was refused."""
        lines = subprocess.run([self.program, "ask", self.control, "refusals"], capture_output=True, text=True).stdout
        return [line for line in lines.splitlines() if line.startswith("endpoint 1 ")]


def milliseconds(moments):
    return "never" if not moments else ", ".join(f"{1000 * moment:.0f}" for moment in moments) + " ms"


def play(room, see):
    # A request that comes before its publisher is there.
    room.say(room.subscriber, report(SUBSCRIBER))
    room.say(room.subscriber, tmmb(3, SUBSCRIBER, LEG))
    room.after(0.5, is_media=False)
    refused = room.refused()
    see("a request before its publisher was refused", refused or "not at all", not refused)
    room.seq = 100
    asked, told = room.after(0.2)
    see("as the publisher came it was asked after", milliseconds(asked), len(asked) == 1 and asked[0] < 0.1)
    see("and the subscriber was told the set after", milliseconds(told), bool(told) and told[0] < 0.1)
    # The publisher doesn't say that it heard: it is asked again each REPEAT.
    asked, _ = room.after(4 * REPEAT)
    see("while it said nothing it was asked after", milliseconds(asked), 2 <= len(asked) <= 5 and asked[0] <= 2 * REPEAT)
    room.say(room.publisher, tmmb(4, PUBLISHER, SUBSCRIBER))
    asked, _ = room.after(4 * REPEAT)
    see("after its TMMBN it was asked after", milliseconds(asked), not asked)
    # It starts anew.
    room.say(room.publisher, goodbye(PUBLISHER))
    room.after(0.3, is_media=False)
    room.seq = 30000
    asked, _ = room.after(0.2)
    see("once it came after a goodbye, after", milliseconds(asked), len(asked) == 1 and asked[0] < 0.1)
    room.say(room.publisher, tmmb(4, PUBLISHER, SUBSCRIBER))
    room.after(TIMEOUT + 1.5, is_media=False)
    room.seq = 50000
    asked, _ = room.after(0.2)
    see("once it came after a silence, after", milliseconds(asked), len(asked) == 1 and asked[0] < 0.1)
    asked, _ = room.after(3 * REPEAT)
    see("and, since it forgot what it had told, after", milliseconds(asked), bool(asked) and asked[0] <= 2 * REPEAT)
    # The subscriber leaves.
    room.say(room.subscriber, goodbye(SUBSCRIBER))
    room.after(0.2, is_there=False)
    room.say(room.publisher, goodbye(PUBLISHER))
    room.after(0.2, is_media=False, is_there=False)
    asked, _ = room.after(3 * REPEAT, is_there=False)
    see("once its subscriber had left, after", milliseconds(asked), not asked)
    asked, _ = room.after(3 * REPEAT)
    see("and once that was back and hadn't asked, after", milliseconds(asked), not asked)


def main(program, key):
    failed = 0
    for workers in (1, 2):
        with tempfile.TemporaryDirectory() as folder:
            room = Room(program, workers, key, folder)

            def see(what, seen, is_right):
                nonlocal failed
                failed += not is_right
                print(f"workers {workers}: {what}: {seen}{'' if is_right else '   WRONG'}", flush=True)

            try:
                play(room, see)
            finally:
                room.end()
    return 1 if failed else 0


if __name__ == "__main__":
    words = [it for it in sys.argv[1:] if it != "--without"]
    if len(words) != 1:
        sys.exit(__doc__)
    sys.exit(main(words[0], "" if "--without" in sys.argv else f"repeat_ms = {REPEAT * 1000:.0f}\n"))
