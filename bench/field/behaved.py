"""A client that behaves: it publishes and subscribes, loses some of it on the way and asks for that again, and knows what it lost. For `soak.py`.

Each packet has its publisher's number and its own, from 0 on, through all that happens: its index. So a subscriber knows which ones there were, whatever their sequence
numbers are: the index and a shift, which stays as long as neither end of the leg left or began anew.
"""

import random
import struct
from collections import deque

from bounds import LIFTED, packets, tmmbr
from hostile import entries_for, nack, report
from repeats import goodbye
from room import sender_report
from served import wide_socket

HEADER, OWN = struct.Struct("!BBHII"), struct.Struct("!BI")
FILLING = bytes(range(150))
# The clock of timestamps, in hertz.
CLOCK = 90000
# How close to a beginning or an end, in seconds, a packet may miss its subscriber, as with several workers.
EDGE = 0.25
# So many packets of one that began aren't lost, by which the unit knows that.
SURE = 3
# When a packet is asked for again that isn't there, and how often at most.
ASK_AGAIN, ASK_MOST = 0.3, 4
# A request is sent so often, so far apart in seconds; the last one isn't lost.
REQUESTS, REQUEST_EACH = 3, 0.4
# How long after it left RTCP may come to somebody, in seconds.
LEFT = 2
# A set is told anew once both ends are there: what was on its way before is passed over for so long, in seconds of what the unit has done.
SETTLED = 0.3


class Ways:
    """What is lost on the ways between the clients and the unit: of a packet its seed, its ends, its index and how often it came decide, and not the clock."""

    def __init__(self, seed, media, control):
        rng = random.Random(f"{seed} ways")
        self.control, self.table = control, bytes(rng.random() < media for _ in range(65536))

    def loses(self, publisher, subscriber, index, times):
        return self.table[(40503 * index + 7919 * publisher + 104729 * subscriber + 31337 * times) % 65536]


class Leg:
    """What comes of a publisher to a subscriber."""

    def __init__(self, soak, publisher, subscriber, source):
        self.soak, self.publisher, self.subscriber, self.source = soak, publisher, subscriber, source
        # The shifts, each with the index from which on it is; the newest packet: its index, its number, and when it was sent; whether what is before the next one is nobody's.
        self.shifts, self.newest, self.number, self.moment, self.begins = [], None, 0, 0, True
        # Indexes that aren't there, how often they were asked for, and when; which were asked for, and how often those came.
        self.missing, self.asked = {}, {}

    def take(self, number, index, timestamp):
        faults = self.soak.faults
        sent = self.publisher.sent.get(index)
        if sent is None and index in self.asked:
            # (what was asked for may come long after, if the unit is busy)
            self.missing.pop(index, None)
            return
        if sent is None:
            is_old = index < self.publisher.index and index not in self.publisher.dropped
            faults.add("a packet came long after it was sent" if is_old else "a packet came that nobody had sent", f"{index} of {self.publisher.number} to {self.subscriber.number}")
            return
        self.soak.seen = max(self.soak.seen, sent[0])
        if sent[2] != timestamp:
            faults.add("a packet came with another timestamp")
        mark = 1 << self.subscriber.number
        if sent[1] & mark and index not in self.asked:
            faults.add("a packet came twice that wasn't asked for", f"{index} of {self.publisher.number} to {self.subscriber.number}")
        sent[1] |= mark
        self.soak.came += 1
        if not self.subscriber.is_in:
            if not self.subscriber.is_silent and sent[0] > self.subscriber.edge + EDGE + self.soak.known:
                faults.add("a packet came to who had left before it was sent", f"{index} of {self.publisher.number} to {self.subscriber.number}")
            return
        if self.newest is None or index > self.newest:
            self.go_on(number, index, sent[0])
        elif next((shift for first, shift in reversed(self.shifts) if first <= index), None) != (number - index) % 65536:
            faults.add("a packet came again under another number")
        self.lose(index)

    def go_on(self, number, index, moment):
        """A packet came that is newer than all before."""
        shift = (number - index) % 65536
        first = index if self.begins else self.newest + 1
        self.begins = False
        if not self.shifts or self.shifts[-1][1] != shift:
            if self.newest is not None:
                if not 0 < (number - self.number) % 65536 < 32768:
                    self.soak.faults.add("a number was used again", f"{number} after {self.number}")
                if max(self.publisher.edge, self.subscriber.edge) < self.moment - EDGE - self.soak.known:
                    self.soak.faults.add("a number isn't as far from the one before as its publisher's", f"{number} after {self.number}, {index} after {self.newest}")
            self.shifts = self.shifts[-7:] + [(index, shift)]
            self.missing.clear()
            first = index
        for skipped in range(max(first, index - 200), index):
            self.missing[skipped] = [0, 0]
        self.newest, self.number, self.moment = index, number, moment

    def lose(self, index):
        """The packet is lost on the rest of its way, or is there from now on."""
        times = self.asked.get(index, 0)
        if self.soak.ways.loses(self.publisher.number, 1 + self.subscriber.number, index, times):
            self.soak.lost_down += 1
            if index >= self.shifts[-1][0]:
                self.missing.setdefault(index, [0, 0])
        elif self.missing.pop(index, None) is not None:
            self.soak.repaired += 1
        if index in self.asked:
            self.asked[index] = times + 1

    def wanted(self, now):
        """The numbers of what is to be asked for by now, rising by their indexes."""
        numbers = []
        for index, state in sorted(self.missing.items()):
            if now - state[1] < ASK_AGAIN:
                continue
            if state[0] == ASK_MOST:
                del self.missing[index]
                self.soak.unrepaired += index not in self.publisher.dropped
                continue
            state[:] = state[0] + 1, now
            self.asked.setdefault(index, 1)
            numbers.append(index + self.shifts[-1][1])
        while len(self.asked) > 4096:
            del self.asked[next(iter(self.asked))]
        return numbers


class Client:
    """A client: what it sent, who it hears, what it asked for, and what it was told."""

    def __init__(self, soak, number):
        self.soak, self.number, self.source = soak, number, 16 + number
        self.socket, self.rng = wide_socket(), random.Random(f"{soak.seed} client {number}")
        self.index, self.sure = 0, SURE
        # What was sent and may still come: by index, when, to whom it came, and its timestamp; and what was lost on the way to the unit.
        self.sent, self.dropped = {}, deque(maxlen=4096)
        self.is_in, self.is_silent, self.edge, self.edges = False, False, -1, deque(maxlen=16)
        # Its legs by their sources; what bounds it, by owner; what it asked for, and which set it was told, by publisher.
        self.legs, self.bounds, self.asked, self.told = {}, {}, {}, {}
        self.asked_at, self.notifies = 0, False
        self.number_anew()

    def number_anew(self):
        self.shift, self.ticks = self.rng.randrange(65536), self.rng.randrange(2**32)

    def say(self, datagram):
        self.socket.sendto(datagram, self.soak.at)

    def loses(self):
        """Whether a datagram of RTCP is lost on its way."""
        is_lost = self.rng.random() < self.soak.ways.control
        self.soak.lost_control += is_lost
        return is_lost

    # ---- comes, goes, begins anew

    def turn(self, is_in):
        """From now on it is there or not, or another one: what it was told holds no more."""
        now = self.soak.now()
        self.is_in, self.is_silent, self.edge, self.sure = is_in, False, now, SURE
        self.edges.append((now, is_in))
        self.bounds.clear()
        self.told.clear()
        for leg in self.legs.values():
            leg.missing.clear()
            leg.begins = True
        for other in self.soak.clients:
            other.told.pop(self.number, None)

    def come(self):
        """It is there, and asks for what it wants at once: that is what it wanted, if it had fallen silent."""
        self.turn(True)
        self.say(report(self.source))
        for publisher, word in list(self.asked.items()):
            self.ask(publisher, word)

    def leave(self):
        self.say(goodbye(self.source))
        self.asked.clear()
        self.turn(False)

    def fall_silent(self):
        self.turn(False)
        self.is_silent = True

    def begin_anew(self):
        """It crashed, and is there again at once with other numbers (RFC 3550, appendix A.1)."""
        self.asked.clear()
        self.turn(True)
        before = self.shift
        while not 5000 < (self.shift - before) % 65536 < 60000:
            self.number_anew()

    # ---- each so often

    def send(self):
        """The next packet, which may be lost on the way."""
        if not self.is_in:
            return
        index = self.index
        self.index += 1
        timestamp = (self.ticks + CLOCK // self.soak.rate * index) % 2**32
        is_sure = self.sure > 0
        self.sure -= is_sure
        if not is_sure and self.soak.ways.loses(self.number, 0, index, 0):
            self.dropped.append(index)
            self.soak.lost_up += 1
            return
        self.sent[index] = [self.soak.now(), 0, timestamp]
        self.soak.sent += 1
        self.say(HEADER.pack(0x80, 96, (index + self.shift) % 65536, timestamp, self.source) + OWN.pack(self.number, index) + FILLING)

    def report(self):
        if self.is_in:
            self.say(sender_report(self.source, int(self.soak.now() * 2**32) + 2**40))
            self.notify_soon()

    def ask_for_packets(self):
        if self.is_in:
            now = self.soak.now()
            for leg in self.legs.values():
                if leg.missing and (numbers := leg.wanted(now)):
                    self.say(nack(self.source, leg.source, entries_for(numbers)))

    # ---- rates

    def ask(self, publisher, word, left=REQUESTS):
        """Asks a publisher for a rate, and again, unless it asked for another meanwhile."""
        if left < REQUESTS and (not self.is_in or self.asked.get(publisher) != word):
            return
        self.asked[publisher] = word
        if left == REQUESTS:
            self.asked_at = self.soak.now()
        if left == 1 or not self.loses():
            self.say(tmmbr(self.source, self.soak.source_of(publisher, self.number), word))
        if left > 1:
            self.soak.after(REQUEST_EACH, lambda: self.ask(publisher, word, left - 1))

    def notify_soon(self):
        if not self.notifies:
            self.notifies = True
            self.soak.after(0.02, self.notify)

    def notify(self):
        """Says what bounds it (RFC 5104, section 4.2.2)."""
        self.notifies = False
        if self.is_in and not self.loses():
            body = struct.pack("!II", self.source, 0) + b"".join(struct.pack("!II", *it) for it in sorted(self.bounds.items()))
            self.say(report(self.source) + struct.pack("!BBH", 0x84, 205, len(body) // 4) + body)

    # ---- what comes

    def receive(self):
        try:
            while True:
                datagram = self.socket.recv(4096)
                if datagram[1] == 96:
                    self.hear(datagram)
                elif self.is_in:
                    self.hear_control(datagram)
                elif not self.is_silent and self.soak.has_seen(self.edge + LEFT):
                    self.soak.faults.add("RTCP came to who had left", datagram[:20].hex())
        except BlockingIOError:
            pass

    def hear(self, datagram):
        _, _, number, timestamp, source = HEADER.unpack_from(datagram)
        leg = self.legs.get(source)
        publisher, index = OWN.unpack_from(datagram, HEADER.size) if len(datagram) == HEADER.size + OWN.size + len(FILLING) else (None, None)
        if not leg or publisher != leg.publisher.number or datagram[HEADER.size + OWN.size :] != FILLING:
            self.soak.faults.add("a packet came that isn't its publisher's", datagram[:20].hex())
        else:
            leg.take(number, index, timestamp)

    def hear_control(self, datagram):
        for kind, form, body in packets(datagram):
            if (kind, form) == (205, 4):
                leg = self.legs.get(struct.unpack_from("!I", body)[0])
                if leg and self.soak.has_seen(max(self.edge, leg.publisher.edge) + SETTLED + self.soak.known):
                    self.told[leg.publisher.number] = dict(struct.iter_unpack("!II", body[8:]))
            elif (kind, form) == (205, 3) and self.soak.has_seen(self.edge + self.soak.known) and not self.loses():
                owner = struct.unpack_from("!I", body)[0]
                for source, word in struct.iter_unpack("!II", body[8:]):
                    if source != self.source:
                        continue
                    if word == LIFTED:
                        self.bounds.pop(owner, None)
                    else:
                        self.bounds[owner] = word
                self.notify_soon()

    # ---- what should have come

    def was_in(self, moment):
        """Whether it was there at that moment, and for a while before and after it."""
        was = False
        for edge, is_in in self.edges:
            if moment - EDGE - self.soak.known <= edge <= moment + EDGE:
                return False
            if edge < moment:
                was = is_in
        return was

    def judge(self, until):
        """Looks who was there to get what was sent before that moment."""
        for index in list(self.sent):
            moment, came, _ = self.sent[index]
            if moment >= until:
                return
            del self.sent[index]
            if any(moment < edge <= moment + EDGE for edge, _ in self.edges):
                continue
            there = [it for it in self.soak.clients if it is not self and it.was_in(moment)]
            missed = [it.number for it in there if not came >> it.number & 1]
            self.soak.expected += len(there)
            if missed and not came:
                self.soak.lost_whole += 1
            elif missed:
                self.soak.lost_part += len(missed)
                self.soak.faults.add("a packet came to some and not to others", f"{index} of {self.number} at {moment:.2f} s not to {missed}")
