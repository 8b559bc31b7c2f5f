#!/usr/bin/env python3
"""Random sets of requests for bench/tmmbr_c/driver.c and for bound.c, and what the driver must print.

    sets.py make SEED COUNT   prints COUNT sets, as both read them
    sets.py model SETS OUT    compares the driver's output with bench/tmmbr_c/model.py
"""
import random
import sys
from pathlib import Path

sys.path.insert(0, str(Path(__file__).resolve().parent.parent / "tmmbr_c"))
import model  # noqa: E402


def make(seed, count):
    rng = random.Random(seed)
    for _ in range(count):
        requests = model.some_requests(rng)
        print("a", len(requests), len(requests), len(requests), *model.asked_numbers(requests))


def requests_of(line):
    numbers = list(map(int, line.split()[4:]))
    return [tuple(numbers[at : at + 4]) for at in range(0, len(numbers), 4)]


def compare_model(sets, out):
    """Each set's announced places and certificate, by the definitions; of the first 10,000 also that nothing smaller does."""
    for number, (line, printed) in enumerate(zip(sets, out, strict=True)):
        requests = requests_of(line)
        places = model.announced(requests)
        if number < 10000 and len(requests) <= 6:
            model.prove_smallest(requests, places)
        kept, implied = model.certificate(requests, places)
        wanted = [model.DONE, 0, len(kept), len(implied), *model.flat(kept, implied)]
        if printed.split() != [str(n) for n in wanted]:
            sys.exit(f"for {line}it printed {printed}and not {wanted}")
    print(f"{number + 1} sets: the library's answer is the model's")


def main():
    what, *rest = sys.argv[1:]
    if what == "make":
        make(int(rest[0]), int(rest[1]))
        return
    with open(rest[0]) as sets, open(rest[1]) as out:
        compare_model(sets, out)


if __name__ == "__main__":
    main()
