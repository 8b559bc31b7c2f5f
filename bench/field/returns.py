#!/usr/bin/env python3
"""Who was away isn't taken for another, and what isn't heeded costs nothing: through `sfu serve` with one worker and with two, by the rules of
examples/serve.toml.

    bench/field/returns.py SFU [--without] [TIMES]

- Somebody publishes, says goodbye, comes back with a report and a TMMBR, and then publishes under other numbers, TIMES times (20): each packet
  has to come, under a number that wasn't used before, its receiver hears one BYE each time (`leg_goodbyes`), and the bound lives.
- A publisher of 500 packets a second is cut off for 6.5 s, a tenth as many times: each packet has to come, 3,250 numbers further on than the last
  one before, without a BYE.
- Somebody NACKs 256 packets at once, of which `entry_limit` has 8 heeded: these come again; the others come once each is NACKed by itself,
  at once (`resend_gap_ms`), and are counted as `beyond` before.

SFU is the built program. Prints what was seen, and ends with status 1 if it isn't what has to be seen. With `--without` the file has no `new_starts`, no
`entry_limit`. By hand: nothing of it is proved.
"""

import random
import select
import struct
import sys
import tempfile
import time

from repeats import WORD, goodbye, packets, report
from served import HOST, LEG, Unit, free_port, port_of, rules, wide_socket

ANN, BOB, LEG_TO_BOB, LEG_TO_ANN = 16, 17, 257, 258
RUN, RATE, OUTAGE, CLOCK = 50, 500, 6.5, 90000
HEEDED, NACKED = 8, 256


def media(source, number, timestamp):
    """A packet (RFC 3550, section 5.1)."""
    return struct.pack("!BBHII", 0x80, 96, number & 0xFFFF, timestamp & 0xFFFFFFFF, source) + bytes(100)


def nack(sender, source, numbers):
    """A NACK of these numbers, an entry each (RFC 4585, section 6.2.1)."""
    return struct.pack("!BBHII", 0x81, 205, 2 + len(numbers), sender, source) + b"".join(struct.pack("!HH", it & 0xFFFF, 0) for it in numbers)


class Pair:
    """Two who see each other, at a unit."""

    def __init__(self, program, workers, folder, **keys):
        self.ann, self.bob, port = wide_socket(), wide_socket(), free_port()
        settings = rules(workers=workers, ring=512, leg_goodbyes="true", listen=f'"{HOST}:{port}"', **keys)
        for source, it in ((ANN, self.ann), (BOB, self.bob)):
            settings += f'[[endpoint]]\nssrc = {source}\naddress = "{HOST}:{port_of(it)}"\n'
        settings += LEG.format(1, 0, LEG_TO_BOB) + LEG.format(0, 1, LEG_TO_ANN)
        self.unit, self.at = Unit(program, folder, settings), (HOST, port)
        self.say(self.ann, report(ANN))

    def say(self, who, datagram):
        who.sendto(datagram, self.at)

    def heard(self, who, seconds):
        """What came until nothing came for so long: the numbers of packets, and how many BYEs of a leg."""
        numbers, byes = [], 0
        while select.select([who], [], [], seconds)[0]:
            datagram = who.recv(65535)
            if 192 <= datagram[1] <= 223:
                byes += sum(kind == 203 and struct.unpack_from("!I", body)[0] in (LEG_TO_ANN, LEG_TO_BOB) for kind, _, body in packets(datagram))
            else:
                numbers.append(struct.unpack_from("!H", datagram, 2)[0])
        return numbers, byes


def back_again(pair, times, see):
    sent = came = byes = bound = 0
    used, again = set(), 0
    for _ in range(times):
        for part in range(2):
            pair.say(pair.ann, report(ANN))
            first, moment = random.randrange(65536), random.randrange(2**32)
            for number in range(RUN):
                pair.say(pair.bob, media(BOB, first + number, moment + 1800 * number))
                time.sleep(0.001)
            sent += RUN
            numbers, heard = pair.heard(pair.ann, 0.1)
            came, byes, again = came + len(numbers), byes + heard, again + len(used & set(numbers))
            used |= set(numbers)
            if part == 0:
                pair.say(pair.bob, goodbye(BOB))
                time.sleep(0.05)
                pair.say(pair.bob, report(BOB) + struct.pack("!BBHIIII", 0x83, 205, 4, BOB, 0, LEG_TO_BOB, WORD))
                time.sleep(0.2)
        bound += f"kept {BOB} {WORD:08x}" in pair.unit.ask("show", "0")
        pair.say(pair.bob, goodbye(BOB))
        byes += pair.heard(pair.ann, 0.1)[1]
    see(f"{times} times somebody left, came back, asked and published elsewhere: of {sent} packets came", came, came == sent)
    see("numbers used again", again, again == 0)
    see("BYEs that the receiver heard", byes, byes == 2 * times)
    see("bounds that lived", bound, bound == times)


def cut_off(pair, times, see):
    sent, wrong, number, start = 0, 0, random.randrange(65536), time.monotonic()
    numbers, byes, jumps = [], 0, []

    def run(seconds):
        nonlocal sent, number
        pair.say(pair.ann, report(ANN))
        for _ in range(int(seconds * RATE)):
            pair.say(pair.bob, media(BOB, number, int((time.monotonic() - start) * CLOCK)))
            sent, number = sent + 1, number + 1
            time.sleep(1 / RATE)

    run(1)
    came, _ = pair.heard(pair.ann, 0.1)
    numbers += came
    for _ in range(times):
        time.sleep(OUTAGE)
        number += int(OUTAGE * RATE)
        run(1)
        came, heard = pair.heard(pair.ann, 0.1)
        if came and numbers:
            jumps.append((came[0] - numbers[-1]) & 0xFFFF)
        numbers, byes = numbers + came, byes + heard
    wrong = sum(it != int(OUTAGE * RATE) + 1 for it in jumps)
    see(f"{times} outages of {OUTAGE} s at {RATE} a second: of {sent} packets came", len(numbers), len(numbers) == sent)
    see("gaps that don't show the loss", wrong, wrong == 0 and len(jumps) == times)
    see("BYEs that the receiver heard", byes, byes == 0)


def unheeded(pair, see):
    # (as many as may be NACKed within a share of the second's packets)
    first = random.randrange(65536)
    for number in range(2 * NACKED):
        pair.say(pair.bob, media(BOB, first + number, 1800 * number))
        time.sleep(0.0005)
    numbers, _ = pair.heard(pair.ann, 0.1)
    wanted = numbers[-NACKED:]
    beyond = pair.unit.counts()["beyond"]
    pair.say(pair.ann, nack(ANN, LEG_TO_ANN, wanted))
    again, _ = pair.heard(pair.ann, 0.1)
    see(f"of {NACKED} packets that were NACKed at once came again", len(again), again == wanted[:HEEDED])
    beyond = pair.unit.counts()["beyond"] - beyond
    see("entries beyond the limit", beyond, beyond == NACKED - HEEDED)
    rest = wanted[HEEDED : 4 * HEEDED]
    for number in rest:
        pair.say(pair.ann, nack(ANN, LEG_TO_ANN, [number]))
    again, _ = pair.heard(pair.ann, 0.1)
    see(f"of {len(rest)} of the others, NACKed at once by themselves", len(again), again == rest)


def main(program, without, times):
    failed = 0
    for workers in (1, 2):

        def see(what, seen, is_right):
            nonlocal failed
            failed += not is_right
            print(f"workers {workers}: {what}: {seen}{'' if is_right else ', which is wrong'}", flush=True)

        starts = {"new_starts": None} if without else {}
        limit = {"entry_limit": None if without else HEEDED}
        with tempfile.TemporaryDirectory() as folder:
            for play, keys in (
                (lambda pair, see: back_again(pair, times, see), starts),
                (lambda pair, see: cut_off(pair, max(times // 10, 1), see), starts),
                (unheeded, limit),
            ):
                pair = Pair(program, workers, folder, **keys)
                try:
                    play(pair, see)
                finally:
                    pair.unit.end()
    return 1 if failed else 0


if __name__ == "__main__":
    words = [it for it in sys.argv[1:] if it != "--without"]
    if not 1 <= len(words) <= 2:
        sys.exit(__doc__)
    sys.exit(main(words[0], "--without" in sys.argv, int(words[1]) if len(words) == 2 else 20))
