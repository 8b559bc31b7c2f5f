#!/usr/bin/env python3
"""Random sequences of changes for bench/tmmbr_c/standing.c, and what it must print for them.

    steps.py steps SEED COUNT     prints COUNT changes, and an end of a state now and then
    steps.py compare STEPS OUT    compares the driver's output with what the definitions say, by model.py

Live requests are a dictionary here. What is announced for them is found anew after each change.
"""
import random
import sys

import model

DONE, REQUEST_RANGE, NOT_LIVE = 0, 7, 16


def number(rng, few, most):
    return rng.choice([rng.randrange(few), rng.randrange(few), rng.randrange(most)])


def steps(seed, count):
    rng = random.Random(seed)
    owners, left = 8, 0
    for _ in range(count):
        if left == 0:
            print("n")
            owners, left = rng.randint(1, 8), rng.randint(1, 120)
            few, most = rng.choice([(4, 8), (3, 100), (40, 131072)])
            zero = rng.random() < 0.3
        left -= 1
        ssrc = rng.choice([rng.randrange(owners), rng.randrange(owners) * 0x10000001])
        if rng.random() < 0.35:
            print("r", ssrc)
            continue
        mantissa = number(rng, few, most) + (0 if zero else 1)
        exponent = rng.choice([0, 0, 0, 1, 2, 63 if rng.random() < 0.1 else 3])
        overhead = number(rng, 6, 512)
        if rng.random() < 0.01:
            overhead = 512
        print("s", ssrc, exponent, min(mantissa, 131072), overhead)


def stood(live):
    """The live requests by rising SSRC, and the places of those that are announced."""
    requests = [(ssrc, *live[ssrc]) for ssrc in sorted(live)]
    return requests, model.announced(requests)


def line(fault, changed, requests, places):
    kept, implied = model.certificate(requests, places)
    words = [fault, changed, len(requests), len(kept), len(implied)]
    for r in requests:
        words += r
    for (packets, bits, seconds), place in kept:
        words += [packets >> 64, packets % 2**64, bits >> 64, bits % 2**64, seconds, place]
    for entry in implied:
        words += entry
    return " ".join(map(str, words))


def compare(steps_path, out_path):
    live, spelled, count, wrong = {}, [], 0, 0
    requests, places = [], []
    with open(steps_path) as given, open(out_path) as out:
        for said in given:
            what, *words = said.split()
            if what == "n":
                live, spelled, requests, places = {}, [], [], []
                continue
            words, fault, before = list(map(int, words)), DONE, dict(live)
            if what == "r":
                fault = DONE if live.pop(words[0], None) is not None else NOT_LIVE
            elif words[1] > 63 or words[2] > 131071 or words[3] > 511:
                fault = REQUEST_RANGE
            else:
                live[words[0]] = tuple(words[1:])
            if live != before:
                requests, places = stood(live)
            now = [requests[p] for p in places]
            changed = int(what == "s" and now != spelled)
            spelled = now
            wanted, found = line(fault, changed, requests, places), out.readline().rstrip("\n")
            count += 1
            if wanted != found:
                wrong += 1
                if wrong < 4:
                    print(f"{said.strip()}\n  wanted {wanted}\n  found  {found}", file=sys.stderr)
        if out.read():
            wrong += 1
    print(f"{count} changes: {count - wrong} as the model says")
    return 1 if wrong or not count else 0


if __name__ == "__main__":
    if len(sys.argv) == 4 and sys.argv[1] == "steps":
        steps(int(sys.argv[2]), int(sys.argv[3]))
    elif len(sys.argv) == 4 and sys.argv[1] == "compare":
        sys.exit(compare(sys.argv[2], sys.argv[3]))
    else:
        sys.exit(__doc__)
