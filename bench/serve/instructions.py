#!/usr/bin/env python3
"""How many instructions `sfu serve` takes for a datagram, outside the kernel: instructions.py [--learn] PROGRAM [FILE]. Wants valgrind; takes
minutes.

What else the machine does changes none of it, unlike time. One worker, one publisher and one subscriber: a packet of 1,200 bytes that is sent on, and from
the subscriber a report with SDES, and NACKs of packets that aren't kept. Callgrind counts a run with 4,000 of them and one with none; what is printed is
the difference, for each. With FILE the unit has the rules of that file of settings (examples/serve.toml), with --learn it learns both SSRCs.
"""
import os
import re
import signal
import socket
import struct
import subprocess
import sys
import tempfile
import time

PUBLISHER, SUBSCRIBER, LEG, NOT_KEPT = 16, 17, 4096, 30000
# How many packets come first, so that the ring is full; how many datagrams are counted, and how many wait at most.
FIRST, COUNTED, AT_ONCE = 600, 4000, 40
RULES = ("new_starts", "strict_ssrc", "repeat_ms", "resend_gap_ms", "resend_share", "request_gap_ms", "flood_limit", "entry_limit", "stall_ms")
SETTINGS = """workers = 1
ring = 512
history = 1024
timeout_ms = 86400000
report_ms = 86400000
pli_gap_ms = 500
unit_ssrc = 9
cname = "sfu"
listen = "127.0.0.1:{}"
[[endpoint]]
ssrc = 16
address = "127.0.0.1:{}"
[[endpoint]]
ssrc = 17
address = "127.0.0.1:{}"
[[leg]]
subscriber = 1
publisher = 0
out_ssrc = 4096
"""


def packet(number):
    return struct.pack(">BBHII", 0x80, 96, number & 0xFFFF, number, PUBLISHER) + bytes(1188)


def report():
    """A receiver report with a block of the leg, and a source description (RFC 3550, sections 6.4.2 and 6.5)."""
    block = struct.pack(">IIIIII", LEG, 0, FIRST - 1, 0, 0, 0)
    name = b"ann@home"
    return struct.pack(">BBHI", 0x81, 201, 7, SUBSCRIBER) + block + struct.pack(">BBHIBB", 0x81, 202, 4, SUBSCRIBER, 1, len(name)) + name + bytes(2)


def nack(entries):
    """A NACK, of which each entry asks for one packet (RFC 4585, section 6.2.1)."""
    head = struct.pack(">BBHII", 0x81, 205, 2 + entries, SUBSCRIBER, LEG)
    return head + b"".join(struct.pack(">HH", NOT_KEPT + number, 0) for number in range(entries))


def bound():
    it = socket.socket(socket.AF_INET, socket.SOCK_DGRAM)
    it.setsockopt(socket.SOL_SOCKET, socket.SO_RCVBUF, 1 << 22)
    it.bind(("127.0.0.1", 0))
    it.settimeout(60)
    return it


def rules_of(file):
    with open(file, encoding="utf-8") as it:
        return "".join(line for line in it if line.split("=")[0].strip() in RULES)


def waiting(port):
    """How many bytes wait at the unit's socket; ends where a datagram was dropped there."""
    with open("/proc/net/udp", encoding="utf-8") as it:
        rows = [line.split() for line in it if line.split()[1].endswith(f":{port:04X}")]
    if rows[0][-1] != "0":
        sys.exit("a datagram was dropped")
    return int(rows[0][4].split(":")[1], 16)


class Unit:
    """The program in valgrind, with a full ring."""

    def __init__(self, program, settings, work):
        self.publisher, self.subscriber = bound(), bound()
        with bound() as free:
            self.at = free.getsockname()
        file = os.path.join(work, "room.toml")
        with open(file, "w", encoding="utf-8") as it:
            it.write(settings.format(self.at[1], self.publisher.getsockname()[1], self.subscriber.getsockname()[1]))
        words = ["valgrind", "--tool=callgrind", "--callgrind-out-file=/dev/null", program, "serve", file]
        self.process = subprocess.Popen(words, stderr=subprocess.PIPE, stdout=subprocess.DEVNULL, text=True)
        while not (line := self.process.stderr.readline()).startswith("serving"):
            if not line:
                sys.exit("it doesn't serve")
        self.number = 0
        self.subscriber.sendto(struct.pack(">BBHI", 0x80, 201, 1, SUBSCRIBER), self.at)
        self.send_packets(FIRST)

    def send_packets(self, count):
        for _ in range(count):
            self.publisher.sendto(packet(self.number), self.at)
            self.number += 1
            while 192 <= self.subscriber.recv(2048)[1] < 224:
                pass

    def send(self, datagram, count):
        """As many at once as may wait, and a moment between, in which the unit may be held up."""
        for sent in range(count):
            if sent % AT_ONCE == 0:
                while waiting(self.at[1]) > 0:
                    time.sleep(0.001)
                time.sleep(0.002)
            self.subscriber.sendto(datagram, self.at)
        while waiting(self.at[1]) > 0:
            time.sleep(0.001)
        # (a packet that comes after them is sent on once they are done)
        self.send_packets(1)

    def end(self):
        """Ends it, and returns how many instructions it took."""
        self.process.send_signal(signal.SIGTERM)
        said = self.process.communicate()[1]
        self.publisher.close()
        self.subscriber.close()
        return int(re.search(r"Collected : (\d+)", said)[1])


def counted(program, settings, work, datagram):
    """How many instructions a datagram takes; without one, a packet that is sent on."""
    totals = []
    for count in (0, COUNTED):
        unit = Unit(program, settings, work)
        if datagram is None:
            unit.send_packets(count + 1)
        else:
            unit.send(datagram, count)
        totals.append(unit.end())
    return (totals[1] - totals[0]) / COUNTED


def main():
    learns, (program, *file) = "--learn" in sys.argv, [it for it in sys.argv[1:] if it != "--learn"]
    settings = (rules_of(file[0]) if file else "") + SETTINGS
    if learns:
        settings = re.sub(r"(?m)^ssrc = \d+", 'ssrc = "learn"', settings)
    program = os.path.abspath(program)
    rows = [("packet, sent on", None), ("report and SDES", report()), ("NACK of 1 entry", nack(1)), ("NACK of 256 entries", nack(256))]
    with tempfile.TemporaryDirectory() as work:
        for name, datagram in rows:
            print(f"{name}: {counted(program, settings, work, datagram):.0f} instructions", flush=True)


main()
