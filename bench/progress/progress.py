#!/usr/bin/env python3
"""Runs commands on long inputs with the error output on a pseudo terminal, and looks at what stands there.

    progress.py PROGRAM [LINES]

PROGRAM is the built program (crates/sfu_main/out/sfu_main, or ./sfu), LINES how many lines the inputs have (1,000,000 if it isn't said).
Each line says what was tried, and `ok` or what came instead; the status is 0 if all is ok. A program that reads LINES lines in less than
a quarter of a second says nothing of them, as it should: take more lines then.
"""
import os
import pty
import re
import subprocess
import sys
import tempfile
import threading

TOP = os.path.dirname(os.path.dirname(os.path.dirname(os.path.realpath(__file__))))
LINE = re.compile(rb"\rline (\d+) of (\d+)")
ERASED = b"\r\x1b[K"
# A request of 17 to 1, as example 1 of docs/EXAMPLES.md has it.
ASKED = b"83cd00040000001100000000000000010007d028\n"
HEARD = b"hear 0 0 80c9000100000010\n"


def drained(descriptor, into):
    while True:
        try:
            some = os.read(descriptor, 65536)
        except OSError:
            return
        if not some:
            return
        into.append(some)


def run(program, words, given, terminals):
    """The status, what was printed, and what was said. `terminals` has the streams that are one terminal: 2, or 1 and 2."""
    with tempfile.TemporaryFile() as script:
        script.write(given)
        script.seek(0)
        leader, follower = pty.openpty()
        child = subprocess.Popen([program, *words], stdin=script, stdout=follower if 1 in terminals else subprocess.PIPE,
                                 stderr=follower if 2 in terminals else subprocess.PIPE, cwd=TOP)
        os.close(follower)
        shown, printed, said = [], [], []
        readers = [threading.Thread(target=drained, args=it) for it in
                   [(leader, shown)] + [(stream.fileno(), into) for stream, into in ((child.stdout, printed), (child.stderr, said)) if stream]]
        for reader in readers:
            reader.start()
        status = child.wait()
        for reader in readers:
            reader.join()
        os.close(leader)
        return status, b"".join(shown), b"".join(printed), b"".join(said)


class Judge:
    def __init__(self):
        self.failed = False

    def say(self, what, fault):
        self.failed |= fault is not None
        print(f"{what}: {fault or 'ok'}")


def fault_of_shown(shown, count, rest=b""):
    """What is wrong with what stood on a terminal: lines that rise, of so many, each taken away before the rest, which is said last."""
    numbers = [(int(line), int(of)) for line, of in LINE.findall(shown)]
    if not numbers:
        return f"no line: {shown[:200]!r}"
    if numbers != sorted(numbers) or {of for _, of in numbers} != {count} or numbers[-1][0] > count:
        return f"wrong lines: {numbers[:3]} .. {numbers[-3:]}"
    if LINE.sub(b"", shown).replace(b"\r\n", b"\n") != ERASED + rest:
        return f"it isn't taken away once, at the end: {LINE.sub(b'', shown)[:200]!r}"
    return None


def main():
    program = os.path.abspath(sys.argv[1])
    count = int(sys.argv[2]) if len(sys.argv) > 2 else 1_000_000
    judge = Judge()
    asked = ASKED * count
    live = b"#\n" * (count - 1) + b"kept 17 0007d028 pair 1000 1001 321\n"
    replay = ["replay", "examples/room.toml"]
    with tempfile.TemporaryDirectory() as folder:
        certificate = f"{folder}/certificate"
        with open(certificate, "wb") as file:
            file.write(live)
        tried = [("bound", ["bound", "--sender", "1"], asked, 0, b""),
                 ("draw", ["draw", "--sender", "1"], asked, 0, b""),
                 ("check", ["check", certificate], b"", 0, b""),
                 ("replay", replay, HEARD * count, 0, b""),
                 ("bound, whose last line is refused", ["bound", "--sender", "1"], ASKED * (count - 1) + b"g\n", 4, f"line {count}: hex\n".encode())]
        for name, words, given, wanted, rest in tried:
            plain = run(program, words, given, ())
            quiet = None if plain[0] == wanted and plain[3] == rest else f"status {plain[0]}, said {plain[3][:200]!r}"
            judge.say(f"{name}, to a pipe: nothing of lines", quiet)
            status, shown, printed, _ = run(program, words, given, (2,))
            same = None if (status, printed) == (plain[0], plain[2]) else f"status {status}, printed {printed[:200]!r}"
            judge.say(f"{name}, to a terminal: lines, and then {rest!r}", fault_of_shown(shown, count, rest))
            judge.say(f"{name}, to a terminal: the same is printed", same)
        short = run(program, ["bound", "--sender", "1"], ASKED, (2,))
        judge.say("bound of one line, to a terminal: nothing of lines", None if not short[1] else f"{short[1][:200]!r}")
        both = run(program, ["bound", "--sender", "1"], asked, (1, 2))
        plain = run(program, ["bound", "--sender", "1"], ASKED, ())
        judge.say("bound, all to one terminal: the line is taken away before what is printed", fault_of_shown(both[1], count, plain[2]))
        script = HEARD * count + b"show 0\n"
        both = run(program, replay, script, (1, 2))
        plain = run(program, replay, HEARD + b"show 0\n", ())
        judge.say("replay, all to one terminal: the line is taken away before what is printed", fault_of_shown(both[1], count + 1, plain[2]))
    return judge.failed


if __name__ == "__main__":
    sys.exit(main())
