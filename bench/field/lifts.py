#!/usr/bin/env python3
"""What comes of a lost lift, through `sfu serve` with one worker and with two. First one subscriber leaves, and its publisher doesn't hear that its bound is
lifted, once without a TMMBN and once with some that go on naming it. Then eight subscribers come, ask, change what they ask for, and leave, while one of 20
datagrams is lost on the way to the publisher and back: each time that nobody asks any more, the publisher has to keep to just the announced set.

    bench/field/lifts.py SFU [--without] [MOMENTS]

SFU is the built program, MOMENTS how many such quiet moments there are (100). Prints what was seen, a line each, and ends with status 1 if it isn't what has to be
seen. With `--without` the file has no `repeat_ms`, to see what happens then. By hand: nothing of it is proved.
"""

import os
import random
import select
import struct
import subprocess
import sys
import tempfile
import time

from repeats import PUBLISHER, REPEAT, WORD, bound_socket, entries, goodbye, milliseconds, packets, report

# The word of no limit (RFC 5104, section 4.2.1.1).
NO_LIMIT = 0xFFFFFE00
SUBSCRIBERS = 8
LOSS = 0.05
# How long nobody asks before it is looked what the publisher keeps to.
QUIET = 8 * REPEAT
# A publisher that notifies does so for each TMMBR, and so often.
TELLS = 0.2
SETTINGS = """workers = {}
ring = 8
history = 65536
timeout_ms = 60000
report_ms = 60000
pli_gap_ms = 500
unit_ssrc = 9
cname = "sfu"
listen = "127.0.0.1:{}"
{}
[[endpoint]]
ssrc = 16
address = "127.0.0.1:{}"
"""
SUBSCRIBER = """
[[endpoint]]
ssrc = {}
address = "127.0.0.1:{}"

[[leg]]
subscriber = {}
publisher = 0
out_ssrc = {}
"""


def ssrc_of(number):
    return 16 + number


def tmmb(fmt, sender, list_of_entries):
    """A TMMBR (3) or a TMMBN (4) with these entries (RFC 5104, sections 4.2.1 and 4.2.2)."""
    head = struct.pack("!BBHII", 0x80 | fmt, 205, 2 + 2 * len(list_of_entries), sender, 0)
    return head + b"".join(struct.pack("!II", *it) for it in list_of_entries)


class Publisher:
    """One that keeps to what it hears, as it names it in its TMMBNs, if it sends any (RFC 5104, section 4.2.2)."""

    def __init__(self, notifies, loss):
        self.notifies, self.loss = notifies, loss
        self.bounds, self.lifts, self.asks = {}, [], 0
        # How often in a row each owner's lift was lost, since it was asked for last.
        self.lost = {}
        self.is_deaf = False

    def hears(self, datagram, moment):
        """Whether it heard anything of a datagram: a TMMBR each."""
        heard = False
        for kind, fmt, body in packets(datagram):
            if (kind, fmt) != (205, 3):
                continue
            (owner,) = struct.unpack_from("!I", body)
            for ssrc, word in entries(body):
                if ssrc != PUBLISHER:
                    continue
                if word == NO_LIMIT:
                    self.lifts.append(moment)
                self.asks += word != NO_LIMIT
                self.lost[owner] = self.lost.get(owner, 0) + 1 if word == NO_LIMIT else 0
                if self.is_deaf or random.random() < self.loss:
                    continue
                heard, self.lost[owner] = True, 0
                self.bounds.pop(owner, None)
                if word != NO_LIMIT:
                    self.bounds[owner] = word
        return heard

    def notice(self):
        return tmmb(4, PUBLISHER, sorted(self.bounds.items()))


class Field:
    """A unit that is served, one publisher, and subscribers."""

    def __init__(self, program, workers, key, folder):
        self.sockets = [bound_socket() for _ in range(1 + SUBSCRIBERS)]
        listener = bound_socket()
        self.unit_at = listener.getsockname()
        listener.close()
        file = os.path.join(folder, "room.toml")
        self.control = os.path.join(folder, "control")
        ports = [it.getsockname()[1] for it in self.sockets]
        with open(file, "w") as out:
            out.write(SETTINGS.format(workers, self.unit_at[1], key, ports[0]))
            for number in range(1, 1 + SUBSCRIBERS):
                out.write(SUBSCRIBER.format(ssrc_of(number), ports[number], number, 256 + number))
        self.program = program
        words = [program, "serve", file, "--control", self.control]
        self.unit = subprocess.Popen(words, stdout=subprocess.DEVNULL, stderr=subprocess.PIPE)
        self.unit.stderr.readline()
        self.publisher = Publisher(False, 0)

    def end(self):
        self.unit.kill()
        self.unit.wait()

    def say(self, number, datagram):
        self.sockets[number].sendto(datagram, self.unit_at)

    def come(self, publisher):
        """Another publisher in place of the one before: that leaves, and says nothing more, and this one comes."""
        self.publisher.notifies = False
        self.say(0, goodbye(PUBLISHER))
        self.after(0.2)
        self.publisher = publisher
        self.say(0, report(PUBLISHER))
        self.after(0.2)

    def ask(self, number, word):
        self.say(number, report(ssrc_of(number)) + tmmb(3, ssrc_of(number), [(256 + number, word)]))

    def leave(self, number):
        self.say(number, goodbye(ssrc_of(number)))

    def notify(self):
        if random.random() >= self.publisher.loss:
            self.say(0, self.publisher.notice())

    def after(self, seconds):
        """Goes on for so long: the moments after which a lift was sent to the publisher."""
        start, self.publisher.lifts, told = time.monotonic(), [], 0.0
        while (moment := time.monotonic() - start) < seconds:
            if self.publisher.notifies and moment >= told:
                told = moment + TELLS
                self.notify()
            for it in select.select(self.sockets, [], [], 0.02)[0]:
                datagram = it.recv(65535)
                if it is self.sockets[0] and self.publisher.hears(datagram, time.monotonic() - start) and self.publisher.notifies:
                    self.notify()
        return self.publisher.lifts

    def announced(self):
        """The set that is announced for the publisher, as the unit says it."""
        words = [self.program, "ask", self.control, "show", "0"]
        digits = subprocess.run(words, capture_output=True, text=True).stdout.split()[0]
        return dict(entries(bytes.fromhex(digits)[4:]))


def is_close(moments, first, count):
    """So many moments, the first of them by then, and the others a REPEAT apart."""
    gaps = [later - moment for moment, later in zip(moments, moments[1:])]
    return len(moments) == count and moments[0] < first and all(abs(gap - REPEAT) < REPEAT / 2 for gap in gaps[1:])


def play_one(field, see):
    # One that never notifies, and doesn't hear that the bound is lifted.
    field.come(Publisher(False, 0))
    field.ask(1, WORD)
    field.after(3 * REPEAT)
    field.publisher.is_deaf = True
    field.leave(1)
    lifts = field.after(6 * REPEAT)
    see("without a TMMBN it was lifted after", milliseconds(lifts), is_close(lifts, 0.1, 3))
    # One that goes on naming the owner.
    field.come(Publisher(True, 0))
    field.ask(1, WORD)
    field.after(3 * REPEAT)
    asks = field.publisher.asks
    field.publisher.is_deaf = True
    field.leave(1)
    lifts = field.after(6 * REPEAT)
    see("while its TMMBN named the owner, after", milliseconds(lifts), 5 <= len(lifts) <= 6 and lifts[0] < 0.1)
    field.publisher.is_deaf = False
    field.after(2 * REPEAT)
    see("it kept to", field.publisher.bounds or "nothing", not field.publisher.bounds)
    lifts = field.after(4 * REPEAT)
    see("and once it named nobody, after", milliseconds(lifts), not lifts)
    see("of the set it was asked again", field.publisher.asks - asks, field.publisher.asks == asks)
    # One that names itself and a stranger.
    field.publisher.bounds = {PUBLISHER: WORD, 99: WORD}
    lifts = field.after(4 * REPEAT)
    see("while it named itself and a stranger, after", milliseconds(lifts), not lifts)


def play_many(field, notifies, moments, see):
    for number in range(1, 1 + SUBSCRIBERS):
        field.leave(number)
    field.come(Publisher(notifies, LOSS))
    there, too_many, missing, tighter, thrice = set(), 0, 0, 0, 0
    for _ in range(moments):
        for _ in range(6):
            number = random.randint(1, SUBSCRIBERS)
            if number in there and random.random() < 0.6:
                field.leave(number)
                there.discard(number)
            else:
                # A rate of 1,000 to 8,000 bit/s with an overhead of 40 or 60 (RFC 5104, section 4.2.1.1).
                field.ask(number, (random.randint(1000, 8000) << 9) | random.choice((40, 60)))
                there.add(number)
            field.after(0.1)
        for number in (0, *there):
            field.say(number, report(ssrc_of(number)))
        field.after(QUIET)
        wanted, kept = field.announced(), field.publisher.bounds
        # Without a TMMBN a lift is sent three times: who was lost as often is kept to.
        lost = {owner for owner in kept if not notifies and owner not in wanted and field.publisher.lost[owner] >= 3}
        gone = {owner for owner in kept if owner not in wanted} - lost
        thrice, too_many = thrice + bool(lost), too_many + bool(gone)
        tighter += any(kept[owner] >> 9 < min((word >> 9 for word in wanted.values()), default=1 << 23) for owner in gone)
        missing += any(kept.get(owner) != word for owner, word in wanted.items())
    name = "with TMMBNs" if notifies else "without a TMMBN"
    seen = f"{too_many}, tighter than the set in {tighter}, one missing in {missing}; one whose lift was lost three times in {thrice}"
    see(f"{name}, of {moments} quiet moments an owner too many in", seen, not too_many + missing)


def main(program, key, moments):
    random.seed(5104)
    failed = 0
    for workers in (1, 2):
        with tempfile.TemporaryDirectory() as folder:
            field = Field(program, workers, key, folder)

            def see(what, seen, is_right):
                nonlocal failed
                failed += not is_right
                print(f"workers {workers}: {what}: {seen}{'' if is_right else '   WRONG'}", flush=True)

            try:
                play_one(field, see)
                for notifies in (True, False):
                    play_many(field, notifies, moments, see)
            finally:
                field.end()
    return 1 if failed else 0


if __name__ == "__main__":
    words = [it for it in sys.argv[1:] if it != "--without"]
    if not 1 <= len(words) <= 2:
        sys.exit(__doc__)
    repeat = "" if "--without" in sys.argv else f"repeat_ms = {REPEAT * 1000:.0f}\n"
    sys.exit(main(words[0], repeat, int(words[1]) if len(words) == 2 else 100))
