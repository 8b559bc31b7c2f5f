#!/usr/bin/env python3
"""One subscriber asks a hundred times a second for 256 rates in a datagram, beside 31 others, while a publisher sends.

    bench/field/asks.py SFU [SECONDS] [--without]

SFU is the built program; the rules are those of examples/serve.toml, with `request_gap_ms = 100`. A publisher sends 600 packets a second to 32 subscribers, for 10 seconds if
nothing else is said. One of them sends OFTEN datagrams a second, each a TMMBR (RFC 5104, section 4.2.1) with 256 entries for its own leg: two words in turn, and then one word
again and again; with one worker and with two. Prints what the others missed; how many TMMBNs a second came to one of the others (a round each, as all are told of one change),
how many TMMBRs to the publisher, how many answers to who asks; and by these how many calls a second the publisher's desk records, and after how many years it is full (2^31
calls). Ends with status 1 if the others miss a packet, if in any second more than 1 + 1000 / gap rounds come, if a desk lives less than a year, or if what holds at the end
isn't what was asked for last. With `--without` the file has no `request_gap_ms`, to see what happens then, and the status is 0.

Each endpoint has a port of its own for RTCP, so that notifications drive no packet out of a client's buffer; what isn't read of them the system counts as dropped, and so do we.
By hand: nothing of it is proved.
"""

import select
import struct
import sys
import tempfile
import time

from bounds import bound_socket, drained, packets
from dropped import dropped_by_system
from hostile import ENDPOINT, report
from served import HOST, LEG, Unit, free_port, number_in, port_of, rules, wide_socket

GAP = 100
SUBSCRIBERS, RATE, OFTEN, ENTRIES = 32, 600, 100, 256
PUBLISHER, FIRST, FIRST_LEG = 16, 17, 257
# Rates of 1,000 and of 2,000 kbit/s with 40 bytes of overhead (RFC 5104, section 4.2.1.1): an exponent of 4.
WORDS = [4 << 26 | mantissa << 9 | 40 for mantissa in (62500, 125000)]
# How often everybody says that it is there, and the publisher what bounds it, and what may still be on its way at the end, in seconds.
REPORTS, NOTIFIES, GRACE = 2, 0.2, 1.5
DESK_CALLS, YEAR = 2**31, 365.25 * 86400


class End:
    """An endpoint: a socket for packets and one for RTCP."""

    def __init__(self, source):
        self.source, self.media, self.control = source, wide_socket(), bound_socket()
        self.came = set()

    def settings(self):
        return ENDPOINT.format(self.source, port_of(self.media)) + f'rtcp_address = "{HOST}:{port_of(self.control)}"\n'

    def dropped(self):
        return dropped_by_system(port_of(self.media)), dropped_by_system(port_of(self.control))


def feedback(kind, sender, entries):
    """A TMMBR (3) or a TMMBN (4) with these entries."""
    body = struct.pack("!II", sender, 0) + b"".join(struct.pack("!II", *it) for it in entries)
    return struct.pack("!BBH", 0x80 | kind, 205, len(body) // 4) + body


def count(it, kind):
    """How many packets of this feedback came there meanwhile, and the entries of the last one."""
    came, last = 0, None
    for datagram in drained(it):
        for packet, form, body in packets(datagram):
            if (packet, form) == (205, kind):
                came, last = came + 1, list(struct.iter_unpack("!II", body[8:]))
    return came, last


class Play:
    """A run: who is there, and what was counted."""

    def __init__(self, at):
        self.at = at
        self.publisher = End(PUBLISHER)
        self.hostile, *self.others = self.subscribers = [End(FIRST + place) for place in range(SUBSCRIBERS)]
        self.sent, self.asked, self.answers, self.requests, self.bounds = 0, None, 0, 0, {}
        # The moments at which one of the others was told of a set.
        self.rounds = []
        self.files = {it.media.fileno(): it for it in self.others}
        self.looks = select.poll()
        for it in (*self.files, *(it.control for it in (self.publisher, self.hostile, self.others[0]))):
            self.looks.register(it, select.POLLIN)

    def settings(self, **other):
        text = rules(listen=f'"{self.at[0]}:{self.at[1]}"', **other) + self.publisher.settings()
        text += "".join(it.settings() for it in self.subscribers)
        return text + "".join(LEG.format(1 + place, 0, FIRST_LEG + place) for place in range(SUBSCRIBERS))

    def say(self, who, datagram):
        who.control.sendto(datagram, self.at)

    def look(self):
        """Takes what came, for a millisecond at most if nothing does."""
        for handle, _ in self.looks.poll(1):
            if it := self.files.get(handle):
                it.came.update(struct.unpack_from("!I", datagram, 12)[0] for datagram in drained(it.media) if datagram[1] == 96)
        told, _ = count(self.others[0].control, 4)
        self.rounds += [time.monotonic()] * told
        self.answers += count(self.hostile.control, 4)[0]
        asked, last = count(self.publisher.control, 3)
        self.requests += asked
        if last:
            self.bounds = {FIRST: last[-1][1]}

    def run(self, seconds, words):
        """So many seconds of media and of the attack."""
        for it in self.subscribers:
            self.say(it, report(it.source))
        time.sleep(0.2)
        began, attacks, reports, notified = time.monotonic(), 0, 1, 0
        while (now := time.monotonic() - began) < seconds:
            while self.sent < now * RATE:
                header = struct.pack("!BBHII", 0x80, 96, self.sent % 65536, 150 * self.sent % 2**32, PUBLISHER)
                self.publisher.media.sendto(header + struct.pack("!I", self.sent) + bytes(1000), self.at)
                self.sent += 1
            while attacks < (now - 0.5) * OFTEN:
                entries = [(FIRST_LEG, words[place % len(words)]) for place in range(ENTRIES)]
                self.say(self.hostile, feedback(3, FIRST, entries))
                attacks, self.asked = attacks + 1, entries[-1][1]
            while reports < now / REPORTS:
                for it in self.subscribers:
                    self.say(it, report(it.source))
                reports += 1
            if now > notified + NOTIFIES and self.bounds:
                notified = now
                self.say(self.publisher, report(PUBLISHER) + feedback(4, PUBLISHER, self.bounds.items()))
            self.look()
        until = time.monotonic() + GRACE
        while time.monotonic() < until:
            self.look()
        return attacks


def most_in_a_second(moments):
    first, most = 0, 0
    for place, moment in enumerate(moments):
        while moments[first] <= moment - 1:
            first += 1
        most = max(most, place - first + 1)
    return most


def play(program, seconds, workers, gap, name, words, folder):
    it = Play((HOST, free_port()))
    settings = it.settings(workers=workers, request_gap_ms=gap)
    unit = Unit(program, folder, settings)
    try:
        attacks = it.run(seconds, words)
        unread, cost = unit.counts().get("unread", 0), unit.cpu()
        holds = [line.split()[1:3] for line in unit.ask("show", "0").splitlines() if line.startswith(("kept ", "implied "))]
    finally:
        unit.end()
    title = f"workers {workers}, {name}"
    media = [end.dropped()[0] for end in it.others]
    missed = [max(0, it.sent - len(end.came) - lost) for end, lost in zip(it.others, media)]
    watched, answers, requests = (end.dropped()[1] for end in (it.others[0], it.hostile, it.publisher))
    rounds, most = len(it.rounds) + watched, most_in_a_second(it.rounds)
    lasted = attacks / OFTEN
    told, answered, asked = (number / lasted for number in (rounds, it.answers + answers, it.requests + requests))
    ticks = 1000 / number_in(settings, "tick_ms", 50) * (2 if number_in(settings, "request_ms", 0) else 1)
    calls = answered + ticks
    years = DESK_CALLS / calls / YEAR
    print(f"{title}: of {it.sent} packets each the others missed {sum(missed)} in all, {max(missed)} at worst; unread {unread}; their own sockets dropped {sum(media)}")
    print(f"{title}: a second {told:.1f} rounds of notifications ({most} in one at most), {asked:.1f} TMMBRs to the publisher, {answered:.1f} answers to who asks; "
          f"the unit took {cost / (seconds + GRACE):.2f} of a processor")
    print(f"{title}: a desk records {calls:.0f} calls a second, and is full after {years:.3f} years", flush=True)
    if not gap:
        return False
    is_held = [str(FIRST), f"{it.asked:08x}"] in holds
    if not is_held:
        print(f"{title}: {it.asked:08x} was asked for last, and these hold: {holds}")
    # (what isn't read at a socket has no moment: that is more than there may be)
    return any(missed) or most + watched > 1 + 1000 / gap or years < 1 or not is_held


if __name__ == "__main__":
    asked = [it for it in sys.argv[1:] if it != "--without"]
    if len(asked) not in (1, 2):
        sys.exit(__doc__)
    faults = 0
    for count_of_workers in (1, 2):
        for name, words in (("two words in turn", WORDS), ("one word", WORDS[:1])):
            with tempfile.TemporaryDirectory() as room:
                faults += play(asked[0], int(asked[1]) if len(asked) == 2 else 10, count_of_workers, None if "--without" in sys.argv else GAP, name, words, room)
    sys.exit(1 if faults else 0)
