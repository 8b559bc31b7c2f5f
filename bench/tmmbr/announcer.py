#!/usr/bin/env python3
"""Compares what `examples/c/announcer.c` prints of random requests with what `sfu bound` prints.

    announcer.py ANNOUNCER SFU [SETS [SEED]]

ANNOUNCER is that program, linked with libtmmbr; SFU is the built `sfu`. So many sets (300) of 0 to 256 requests, some of one owner again.
The status is 0 if all are the same.
"""
import random
import subprocess
import sys

MEDIA = 1


def requests(chance):
    """Owners and words: rates from few bits to many, close ones and equal ones among them."""
    count = chance.choice([0, 1, 2, 3, 8, 30, 64, 256])
    near = chance.random() < 0.5
    owners = chance.sample(range(2**32), count)
    for _ in range(count // 5):
        owners.append(chance.choice(owners[:count]))
    chance.shuffle(owners)
    for owner in owners:
        exponent = chance.randrange(2) if near else chance.randrange(47)
        mantissa = chance.randrange(60_000, 131_072) if near else chance.randrange(131_072)
        yield owner, exponent << 26 | mantissa << 9 | chance.randrange(512)


def main(announcer, sfu, sets=300, seed=1):
    chance = random.Random(seed)
    lines = 0
    for number in range(sets):
        asked = list(requests(chance))
        words = "".join(f"{owner} {word:08x}\n" for owner, word in asked)
        datagrams = "".join(f"83cd0004{owner:08x}00000000{MEDIA:08x}{word:08x}\n" for owner, word in asked)
        here = subprocess.run([announcer], input=words, capture_output=True, text=True)
        there = subprocess.run([sfu, "bound", "--sender", str(MEDIA)], input=datagrams, capture_output=True, text=True)
        wanted = [line for line in there.stdout.splitlines() if line.split()[0] in ("kept", "implied")]
        if (here.returncode, there.returncode) != (0, 0) or here.stdout.splitlines() != wanted:
            print(f"set {number} of seed {seed} differs:\n{words}")
            return 1
        lines += len(wanted)
    print(f"announcer: {sets} sets, {lines} lines, each as sfu bound prints it")
    return 0


if __name__ == "__main__":
    sys.exit(main(*sys.argv[1:3], *map(int, sys.argv[3:])))
