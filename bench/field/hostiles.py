"""Clients that mean no good, one of each kind, and who isn't a client at all. For `soak.py`.

What comes to them nobody reads: the system drops it, and that costs little. Each has what it does in a second, by a generator of its own.
"""

import random
import socket
import struct

from bounds import bound_socket, tmmbr
from hostile import entries_for, nack, report
from repeats import goodbye

FIRST = 64
# Rates of 1,000 and of 2,000 kbit/s with 40 bytes of overhead.
WORDS = [4 << 26 | mantissa << 9 | 40 for mantissa in (62500, 125000)]
ENTRIES = 256


class Hostile:
    """An endpoint with a leg from a client that behaves; it says that it is there each second, and does its kind of harm `often` times a second, if clients send 50 packets in one."""

    name, often, is_quiet = "", 1, False

    def __init__(self, soak, place):
        self.soak, self.source, self.socket = soak, FIRST + place, bound_socket()
        self.rng = random.Random(f"{soak.seed} {self.name}")
        # The source of the leg to it.
        self.leg, self.did = 0, 0

    def say(self, datagram):
        try:
            self.socket.sendto(datagram, self.soak.at)
        except BlockingIOError:
            return
        self.did += 1

    def report(self):
        self.say(report(self.source))

    def harm(self):
        raise NotImplementedError


class Fuzzer(Hostile):
    """Datagrams that a client might send, with changes; one in eight is random bytes."""

    name, often, is_quiet = "fuzzed datagrams", 100, True

    def plain(self):
        rng, source, leg = self.rng, self.source, self.leg
        kind = rng.randrange(8)
        if kind < 2:
            return struct.pack("!BBHII", 0x80, 96, rng.randrange(65536), rng.randrange(2**32), source) + rng.randbytes(rng.randrange(200))
        if kind == 2:
            return report(source) + struct.pack("!BBHIBB", 0x81, 202, 2, source, 1, 3) + b"abc" + bytes(1)
        if kind == 3:
            return struct.pack("!BBHI", 0x81, 200, 12, source) + rng.randbytes(20) + struct.pack("!I", leg) + rng.randbytes(20)
        if kind == 4:
            return nack(source, leg, [(rng.randrange(65536), rng.randrange(65536)) for _ in range(rng.randrange(4))])
        if kind == 5:
            return report(source) + struct.pack("!BBHII", 0x81, 206, 2, source, leg)
        if kind == 6:
            return goodbye(source)
        return tmmbr(source, leg, rng.randrange(2**32))

    def harm(self):
        rng = self.rng
        if rng.random() < 0.125:
            return self.say(rng.randbytes(rng.randrange(80)))
        datagram = bytearray(self.plain())
        for _ in range(rng.randrange(8)):
            kind = rng.randrange(4)
            if kind == 0 and datagram:
                datagram[rng.randrange(len(datagram))] = rng.randrange(256)
            elif kind == 1 and len(datagram) > 3:
                datagram[rng.choice((0, 1, 2, 3))] ^= 1 << rng.randrange(8)
            elif kind == 2:
                del datagram[rng.randrange(len(datagram) + 1) :]
            else:
                datagram += self.plain()
        self.say(bytes(datagram[:1400]))


class Resends(Hostile):
    """NACKs of 1,000 entries, which name 17,000 packets (RFC 4585, section 6.2.1)."""

    name, often = "NACKs", 20

    def harm(self):
        first = self.rng.randrange(65536)
        self.say(nack(self.source, self.leg, entries_for(range(first, first + 17000))))


class Rates(Hostile):
    """TMMBRs with 256 entries, two words in turn."""

    name, is_quiet = "TMMBRs", True

    def __init__(self, soak, place):
        super().__init__(soak, place)
        # (without a gap between requests each entry is some dozen datagrams of the unit)
        self.often = 20 if soak.has_gap else 3

    def harm(self):
        entries = b"".join(struct.pack("!II", self.leg, WORDS[place % 2]) for place in range(ENTRIES))
        self.say(struct.pack("!BBHII", 0x83, 205, 2 + 2 * ENTRIES, self.source, 0) + entries)


class Comings(Hostile):
    """It comes, and says goodbye."""

    name, often = "comings and BYEs", 100

    def harm(self):
        self.say(report(self.source))
        self.say(goodbye(self.source))


class Packets(Hostile):
    """A flood of packets, whose numbers begin anew now and then; they go to another of these."""

    name, often, BURST = "packets", 100, 20

    def __init__(self, soak, place):
        super().__init__(soak, place)
        self.number = 0

    def harm(self):
        if self.rng.random() < 0.01:
            self.number = self.rng.randrange(65536)
        for _ in range(self.BURST):
            self.number += 1
            self.say(struct.pack("!BBHII", 0x80, 96, self.number % 65536, 90 * self.number % 2**32, self.source) + bytes(100))


class Strangers(Hostile):
    """It is no endpoint, and speaks as one of those that behave."""

    name, often = "forged datagrams", 100

    def report(self):
        pass

    def harm(self):
        rng = self.rng
        client = rng.choice(self.soak.clients)
        leg = rng.choice(list(client.legs))
        kind = rng.randrange(4)
        if kind == 0:
            self.say(struct.pack("!BBHII", 0x80, 96, rng.randrange(65536), rng.randrange(2**32), client.source) + bytes(100))
        elif kind == 1:
            self.say(goodbye(client.source))
        elif kind == 2:
            self.say(tmmbr(client.source, leg, rng.choice(WORDS)))
        else:
            self.say(nack(client.source, leg, [(rng.randrange(65536), 65535)]))


class Connections(Hostile):
    """Connections to the control that come and go, some behind half a line, some a while later."""

    name, often = "connections", 50

    def __init__(self, soak, place):
        super().__init__(soak, place)
        self.there = []

    def report(self):
        pass

    def harm(self):
        if len(self.there) > 6 or self.there and self.rng.random() < 0.5:
            self.there.pop(0).close()
        it = socket.socket(socket.AF_UNIX)
        it.setblocking(False)
        try:
            it.connect(self.soak.unit.control)
            if self.rng.random() < 0.3:
                it.send(self.rng.choice((b"sel", b"counts\n", b"x\n")))
        except OSError:
            it.close()
            return
        self.did += 1
        if self.rng.random() < 0.2:
            self.there.append(it)
        else:
            it.close()


# Those that are endpoints come first.
KINDS = (Fuzzer, Resends, Rates, Comings, Packets, Strangers, Connections)
ENDPOINTS = 5
