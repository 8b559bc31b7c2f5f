#!/usr/bin/env python3
"""Random requests and certificates for bench/tmmbr_c/driver.c, and what it must answer for them.

    model.py cases SEED COUNT     prints COUNT lines for the driver
    model.py compare CASES OUT    compares the driver's output with what the definitions say

Which set is announced is found here by the definition: where each request leaves how much for media, looked at at every packet
rate where something changes and between any two of these. There is no hull, no sort by overhead and no walk. All numbers are
whole; a packet rate is a pair (packets, seconds).
"""
import random
import sys
from functools import cmp_to_key
from itertools import combinations

MOST = 256
DONE, PLACE, PAIR_PERMITTED, TWO_PAIRS, NOT_IMPLIED, NOT_NAMED = range(6)
TOO_MANY, REQUEST_RANGE, SAME_SSRC, NO_ROOM, KEPT_RANGE, IMPLIED_RANGE = range(6, 12)


def rate(r):
    return r[2] << r[1]


def overhead(r):
    return r[3]


def permits(r, pair):
    packets, bits, seconds = pair
    return bits + 8 * overhead(r) * packets <= rate(r) * seconds


# ---- the announced set


def left(r, at):
    """What the request leaves for media at a packet rate, times its seconds."""
    packets, seconds = at
    return rate(r) * seconds - 8 * overhead(r) * packets


def packet_rates(requests):
    """The packet rates at which something may change, and one between any two neighbours and beyond the last."""
    ends = {(0, 1)}
    for r in requests:
        if overhead(r):
            ends.add((rate(r), 8 * overhead(r)))
    for r, s in combinations(requests, 2):
        if overhead(r) < overhead(s) and rate(r) <= rate(s):
            ends.add((rate(s) - rate(r), 8 * (overhead(s) - overhead(r))))
        elif overhead(r) > overhead(s) and rate(r) >= rate(s):
            ends.add((rate(r) - rate(s), 8 * (overhead(r) - overhead(s))))
    ends = sorted(ends, key=cmp_to_key(lambda a, b: a[0] * b[1] - b[0] * a[1]))
    between = [(a[0] + b[0], a[1] + b[1]) for a, b in zip(ends, ends[1:])]
    return ends + between + [(ends[-1][0] + ends[-1][1], ends[-1][1])]


def is_faithful(choice, requests, rates):
    """Whether the choice permits exactly what the requests permit."""
    for at in rates:
        whole = min((left(r, at) for r in requests), default=None)
        part = min((left(r, at) for r in choice), default=None)
        if whole != part and not (whole is not None and part is not None and whole < 0 and part < 0):
            return False
    return True


def is_essential(x, requests, rates):
    """Whether the request forbids a pair that all requests of other lines permit."""
    others = [y for y in requests if (rate(y), overhead(y)) != (rate(x), overhead(x))]
    for at in rates:
        others_leave = min((left(y, at) for y in others), default=None)
        if others_leave is None or others_leave >= 0 and others_leave > left(x, at):
            return True
    return False


def announced(requests):
    """The places of the announced requests, by rising overhead."""
    places = range(len(requests))
    stops = [p for p in places if rate(requests[p]) == 0]
    everything = [p for p in stops if overhead(requests[p]) > 0]
    if everything:
        return [min(everything, key=lambda p: (-overhead(requests[p]), requests[p][0]))]
    if stops:
        kept = [min(stops, key=lambda p: requests[p][0])]
        far = [p for p in places if overhead(requests[p]) > 0]
        if far:

            def order(p, q):
                a, b = requests[p], requests[q]
                reaches = rate(a) * overhead(b) - rate(b) * overhead(a)
                return reaches or overhead(a) - overhead(b) or a[0] - b[0]

            kept.append(min(far, key=cmp_to_key(order)))
        return kept
    rates = packet_rates(requests)
    kept = []
    for p in places:
        x = requests[p]
        same = [y for y in requests if (rate(y), overhead(y)) == (rate(x), overhead(x))]
        if x[0] == min(y[0] for y in same) and is_essential(x, requests, rates):
            kept.append(p)
    return sorted(kept, key=lambda p: overhead(requests[p]))


def certificate(requests, places):
    """The pairs of the announced requests and the multipliers of the others, as docs/FORMATS.md has them."""
    kept = [requests[p] for p in places]
    if len(kept) == 2 and rate(kept[0]) == 0:
        pairs = [(0, 1, 1), (rate(kept[1]) + 1, 0, 8 * overhead(kept[1]))]
    else:
        ends = [(0, 1)]
        for x, y in zip(kept, kept[1:]):
            ends.append((rate(y) - rate(x), 8 * (overhead(y) - overhead(x))))
        if kept:
            ends.append((rate(kept[-1]), 8 * overhead(kept[-1])))
        pairs = []
        for x, a, b in zip(kept, ends, ends[1:]):
            packets, seconds = a[0] + b[0], a[1] + b[1]
            pairs.append((packets, rate(x) * seconds - 8 * overhead(x) * packets + 1, seconds))
    implied = []
    for p in sorted(set(range(len(requests))) - set(places), key=lambda p: requests[p][0]):
        h = overhead(requests[p])
        if h <= overhead(kept[0]):
            implied.append((p, places[0], places[0], 1, 0, 1))
        elif h >= overhead(kept[-1]):
            implied.append((p, places[-1], places[-1], h, 0, overhead(kept[-1])))
        else:
            i = max(i for i, x in enumerate(kept) if overhead(x) <= h)
            a, b = overhead(kept[i]), overhead(kept[i + 1])
            implied.append((p, places[i], places[i + 1], b - h, h - a, b - a))
    return [(pair, p) for pair, p in zip(pairs, places)], implied


# ---- a certificate, condition by condition


def in_range(r):
    return r[1] < 64 and r[2] < 2**17 and r[3] < 2**9


def verdict(requests, kept, implied):
    if len(requests) > MOST or len(kept) > MOST or len(implied) > MOST:
        return (TOO_MANY, 0)
    for at, r in enumerate(requests):
        if not in_range(r):
            return (REQUEST_RANGE, at)
    for at, ((packets, bits, seconds), place) in enumerate(kept):
        if packets >= 2**100 or bits >= 2**100 or not 1 <= seconds < 2**14 or place >= 2**16:
            return (KEPT_RANGE, at)
    for at, entry in enumerate(implied):
        if max(entry) >= 2**16:
            return (IMPLIED_RANGE, at)
    n = len(requests)
    kept_places = [p for _, p in kept]
    named = kept_places + [i[0] for i in implied]
    if any(p >= n for p in named) or len(set(named)) < len(named):
        return (PLACE, 0)
    if any(i[1] not in kept_places or i[2] not in kept_places for i in implied):
        return (PLACE, 0)
    if any(permits(requests[p], pair) for pair, p in kept):
        return (PAIR_PERMITTED, 0)
    for at, r in enumerate(requests):
        if sum(not permits(r, pair) for pair, _ in kept) > 1:
            return (TWO_PAIRS, at)
    entry_of = {i[0]: i for i in implied}
    for at, x in enumerate(requests):
        if at in entry_of:
            _, a, b, p, q, r = entry_of[at]
            a, b = requests[a], requests[b]
            if not (
                1 <= r <= p + q
                and r * overhead(x) <= p * overhead(a) + q * overhead(b)
                and p * rate(a) + q * rate(b) <= r * rate(x)
            ):
                return (NOT_IMPLIED, at)
    for at in range(n):
        if at not in named:
            return (NOT_NAMED, at)
    return (DONE, 0)


# ---- what the driver must print


def refusal(requests):
    if len(requests) > MOST:
        return (TOO_MANY, 0)
    for at, r in enumerate(requests):
        if not in_range(r):
            return (REQUEST_RANGE, at)
    seen = set()
    for at, r in enumerate(requests):
        if r[0] in seen:
            return (SAME_SSRC, at)
        seen.add(r[0])
    return None


def answer(requests, kept_room, implied_room):
    refused = refusal(requests)
    if refused:
        return [*refused, 0, 0]
    places = announced(requests)
    if len(requests) <= 6:
        prove_smallest(requests, places)
    kept, implied = certificate(requests, places)
    assert verdict(requests, kept, implied) == (DONE, 0)
    sizes = [len(kept), len(implied)]
    if len(kept) > kept_room or len(implied) > implied_room:
        return [NO_ROOM, 0, *sizes]
    return [DONE, 0, *sizes, *flat(kept, implied)]


def prove_smallest(requests, places):
    """By looking at every smaller choice."""
    rates = packet_rates(requests)
    assert is_faithful([requests[p] for p in places], requests, rates)
    for size in range(len(places)):
        for choice in combinations(requests, size):
            assert not is_faithful(choice, requests, rates)


def flat(kept, implied):
    numbers = []
    for (packets, bits, seconds), place in kept:
        numbers += [packets >> 64, packets % 2**64, bits >> 64, bits % 2**64, seconds, place]
    for entry in implied:
        numbers += entry
    return numbers


# ---- random cases


def some_requests(rng):
    """Small lists, in which lines are equal, meet in one point or where nothing is left for media, or have a rate of 0."""
    kind = rng.randrange(8)
    count = rng.choice([0, 1, 2, 3, 3, 4, 4, 5, 5, 6, 6, 7, 9, 12])
    ssrcs = rng.sample(range(1, 40) if rng.random() < 0.8 else range(2**32), count)
    requests = []
    for n, ssrc in enumerate(ssrcs):
        if kind == 0:
            r = (0, rng.randrange(1, 25), rng.randrange(0, 5))
        elif kind == 1:  # several spellings of few rates
            r = (rng.randrange(0, 4), rng.choice([1, 2, 4, 8]), rng.randrange(0, 3))
        elif kind == 2:  # rates of 0 among others
            r = (rng.randrange(0, 3), rng.choice([0, 0, 3, 5, 8]), rng.randrange(0, 4))
        elif kind == 3:  # lines through one point
            h = rng.randrange(0, 8)
            r = (0, 7 * 8 * h + 20 + rng.choice([0, 0, 0, 1]), h)
        elif kind == 4:  # lines that meet where nothing is left
            h = rng.randrange(1, 6)
            r = (0, 11 * h + rng.choice([0, 0, 0, 1]), h)
        elif kind == 5:  # the ends of the ranges
            r = (rng.choice([0, 1, 62, 63]), rng.choice([1, 2, 131070, 131071]), rng.choice([0, 1, 510, 511]))
        elif kind == 6:  # a parabola: all are kept, or nearly all
            h = rng.randrange(0, 30)
            r = (0, 500 + h * h + rng.choice([0, 0, 1]), h)
        else:
            r = (rng.randrange(64), rng.randrange(2**17), rng.randrange(2**9))
        requests.append((ssrc, *r))
    return requests


def spoil(rng, requests):
    """A fault, or none."""
    requests = list(requests)
    kind = rng.randrange(10)
    if requests and kind == 0:
        at = rng.randrange(len(requests))
        r = list(requests[at])
        field = rng.randrange(1, 4)
        r[field] = rng.choice([[64, 255], [2**17, 2**32 - 1], [512, 2**16]][field - 1])
        requests[at] = tuple(r)
    elif len(requests) > 1 and kind == 1:
        a, b = rng.sample(range(len(requests)), 2)
        requests[a] = (requests[b][0], *requests[a][1:])
    elif kind == 2 and rng.random() < 0.1:
        requests = [(n, 0, 1 + n, n % 512) for n in range(257)]
    return requests


def changed(rng, requests, kept, implied):
    """A certificate with some number of it changed, or an entry or two."""
    kept = [[list(pair), place] for pair, place in kept]
    implied = [list(i) for i in implied]
    for _ in range(rng.choice([0, 1, 1, 1, 2])):
        kind = rng.randrange(8)
        if kind == 0 and kept:
            k = rng.choice(kept)
            field = rng.randrange(3)
            k[0][field] = max(0, k[0][field] + rng.choice([-1, 1, 2, -2, 1000]))
        elif kind == 1 and kept:
            k = rng.choice(kept)
            field, most = rng.choice([(0, 2**100), (1, 2**100), (2, 2**14)])
            k[0][field] = rng.choice([most - 1, most, 0])
        elif kind == 2 and kept:
            rng.choice(kept)[1] = rng.choice([0, 1, len(requests), 65535, 65536])
        elif kind == 3 and implied:
            i = rng.choice(implied)
            field = rng.randrange(6)
            i[field] = max(0, i[field] + rng.choice([-1, 1, 2]))
        elif kind == 4 and implied:
            rng.choice(implied)[rng.randrange(6)] = rng.choice([0, 65535, 65536])
        elif kind == 5 and kept:
            kept.pop(rng.randrange(len(kept)))
        elif kind == 6 and implied:
            implied.pop(rng.randrange(len(implied)))
        elif kept:
            a, b = rng.choice(kept), rng.choice(kept)
            a[0] = list(b[0])
    rng.shuffle(kept)
    rng.shuffle(implied)
    return [(tuple(pair), place) for pair, place in kept], [tuple(i) for i in implied]


def asked_numbers(requests):
    return [n for r in requests for n in r]


def case(rng):
    requests = some_requests(rng)
    if rng.random() < 0.5:
        requests = spoil(rng, requests)
        room = len(requests)
        rooms = [room, room] if rng.random() < 0.7 else [rng.randrange(room + 1), rng.randrange(room + 1)]
        return ["a", *rooms, len(requests), *asked_numbers(requests)]
    kept, implied = changed(rng, requests, *certificate(requests, announced(requests)))
    if rng.random() < 0.05:
        requests = spoil(rng, requests)
    if rng.random() < 0.1 and requests:
        requests[rng.randrange(len(requests))] = rng.choice(requests)
    return ["c", len(requests), len(kept), len(implied), *asked_numbers(requests), *flat(kept, implied)]


def expected(words):
    numbers = iter(map(int, words[1:]))

    def take(count, width):
        return [tuple(next(numbers) for _ in range(width)) for _ in range(count)]

    if words[0] == "a":
        kept_room, implied_room, count = (next(numbers) for _ in range(3))
        return answer(take(count, 4), kept_room, implied_room)
    count, kept_count, implied_count = (next(numbers) for _ in range(3))
    requests = take(count, 4)
    kept = [((ph << 64 | pl, bh << 64 | bl, s), place) for ph, pl, bh, bl, s, place in take(kept_count, 6)]
    return list(verdict(requests, kept, take(implied_count, 6)))


def main():
    if sys.argv[1] == "cases":
        rng = random.Random(int(sys.argv[2]))
        for _ in range(int(sys.argv[3])):
            print(*case(rng))
        return
    counts = {}
    with open(sys.argv[2]) as cases, open(sys.argv[3]) as out:
        for line, printed in zip(cases, out, strict=True):
            words = line.split()
            wanted = expected(words)
            if printed.split() != [str(n) for n in wanted]:
                sys.exit(f"for {line}it printed {printed}and not {wanted}")
            key = ("announced" if words[0] == "a" else "check", wanted[0])
            counts[key] = counts.get(key, 0) + 1
    for (call, fault), count in sorted(counts.items()):
        print(f"{call}: fault {fault} {count} times, as the definitions say")


if __name__ == "__main__":
    main()
