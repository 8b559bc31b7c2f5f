#!/usr/bin/env python3
"""How long who asks in order waits beside a flood of connections, beside peers that hold all places, and without descriptors.

    flood.py COMMAND..

COMMAND starts the program, as `crates/sfu_main/out/sfu_main` or `./sfu --unproved` (of which the last part is left out, since another process starts it). Each part has one unit, which is asked for its counts as
`sfu ask` does it, by one connection and one line, 0.1 s after the last answer. Who is told that it is full asks again 0.1 s later, and its
time goes on. A line says how many were answered, the longest time that one took, and how often one was told that it is full:

- alone;
- while 4,000 connections come and go in three seconds: each is closed as soon as it is there;
- the same, each with half a line, and each that stays for 50 ms;
- while eight peers that say two bytes, an `x` and the end of a line, each 8 s are there;
- the same, who come back as soon as they are let go;
- while the unit is given no more descriptors (`ulimit -n 3`), for 4 s, and after that: how often it said so, too.

The status is 1 if an answer took longer than the 5 s after which `sfu ask` gives up, or if the unit didn't say that it has no descriptors, or
more than once in a second. By hand: nothing of it is proved.
"""

import heapq
import resource
import socket
import subprocess
import sys
import tempfile
import threading
import time
from collections import namedtuple

SETTINGS = """workers = 1
ring = 8
history = 128
timeout_ms = 86400000
report_ms = 60000
pli_gap_ms = 500
unit_ssrc = 9
cname = "sfu@localhost"
listen = "127.0.0.1:0"
[[endpoint]]
ssrc = 16
address = "127.0.0.1:46200"
[[endpoint]]
ssrc = 17
address = "127.0.0.1:46202"
[[leg]]
subscriber = 1
publisher = 0
out_ssrc = 257
"""
CONNECTIONS, SECONDS = 4000, 3
ASK_EACH, GIVES_UP, PATIENCE = 0.1, 5, 60
PEERS, SAY_EACH = 8, 8
# After a flood the unit is asked so many seconds more, and beside peers so many.
AFTER, BESIDE = 3, 20
# For so many seconds the unit may have no more descriptors than its three streams, and it says so.
SHORT, STREAMS, SHORTAGE = 4, 3, "control: no descriptors\n"

# A unit: its control's socket, its process, and the lines of its error output so far.
Unit = namedtuple("Unit", "path pid said")


def connected(path):
    it = socket.socket(socket.AF_UNIX)
    it.settimeout(PATIENCE)
    it.connect(path)
    return it


def answer_to(path, deadline):
    """The last line of what comes for one request, and nothing if none comes by then."""
    came = b""
    try:
        with connected(path) as it:
            it.sendall(b"counts\n")
            while not came.endswith((b"ok\n", b"refused full\n")):
                it.settimeout(max(0.001, deadline - time.monotonic()))
                more = it.recv(65536)
                if not more:
                    return b""
                came += more
    except OSError:
        return b""
    return came.splitlines()[-1]


class Asking(threading.Thread):
    """Asks again and again until it is told to end."""

    def __init__(self, path):
        super().__init__()
        self.path, self.is_over, self.times, self.full = path, False, [], 0
        self.start()

    def run(self):
        while not self.is_over:
            began = time.monotonic()
            while time.monotonic() < began + PATIENCE:
                last = answer_to(self.path, began + PATIENCE)
                if last == b"ok":
                    break
                self.full += last == b"refused full"
                time.sleep(ASK_EACH)
            self.times.append(time.monotonic() - began)
            time.sleep(ASK_EACH)

    def end(self, what):
        """Says how it was; returns whether an answer took too long."""
        self.is_over = True
        self.join()
        longest = max(self.times)
        took = f"the longest took {1000 * longest:.0f} ms" if longest < PATIENCE else f"one had none within {PATIENCE} s"
        print(f"{what}: {len(self.times)} asked, {took}, told full {self.full} times", flush=True)
        return longest > GIVES_UP


def flood(path, words, stay):
    """Connections come as evenly as they can be made, each with these words, and are closed after so many seconds."""
    began, there = time.monotonic(), []
    for number in range(CONNECTIONS):
        time.sleep(max(0, began + number * SECONDS / CONNECTIONS - time.monotonic()))
        try:
            it = connected(path)
            if words:
                it.sendall(words)
        except OSError:
            continue
        heapq.heappush(there, (time.monotonic() + stay, number, it))
        while there and there[0][0] <= time.monotonic():
            heapq.heappop(there)[2].close()
    for _, _, it in there:
        it.close()
    return time.monotonic() - began


class Holding(threading.Thread):
    """A peer that says two bytes each 8 s, and comes back once it is let go, or doesn't."""

    def __init__(self, path, comes_back):
        super().__init__(daemon=True)
        self.path, self.comes_back, self.is_over = path, comes_back, False
        self.start()

    def run(self):
        while not self.is_over:
            try:
                with connected(self.path) as it:
                    self.stay(it)
            except OSError:
                pass
            self.is_over = self.is_over or not self.comes_back

    def stay(self, it):
        it.settimeout(0.05)
        due = time.monotonic()
        while not self.is_over:
            if time.monotonic() >= due:
                it.sendall(b"x\n")
                due += SAY_EACH
            try:
                if it.recv(64) in (b"", b"refused full\n"):
                    return
            except socket.timeout:
                pass


def alone(path):
    asking = Asking(path)
    time.sleep(AFTER)
    return asking.end("alone")


def beside_flood(path, what, words, stay):
    asking = Asking(path)
    took = flood(path, words, stay)
    time.sleep(AFTER)
    return asking.end(f"beside {CONNECTIONS} connections in {took:.1f} s, {what}")


def beside_peers(path, comes_back):
    peers = [Holding(path, comes_back) for _ in range(PEERS)]
    time.sleep(3)
    asking = Asking(path)
    time.sleep(BESIDE)
    is_late = asking.end(f"beside {PEERS} that say two bytes each {SAY_EACH} s{', and come back' if comes_back else ''}")
    for it in peers:
        it.is_over = True
    for it in peers:
        it.join()
    return is_late


def without_descriptors(unit):
    """The unit keeps what it has open, and is given nothing more for a while."""
    few, most = resource.prlimit(unit.pid, resource.RLIMIT_NOFILE)
    asking = Asking(unit.path)
    time.sleep(1)
    resource.prlimit(unit.pid, resource.RLIMIT_NOFILE, (STREAMS, most))
    time.sleep(SHORT)
    lines = unit.said.count(SHORTAGE)
    resource.prlimit(unit.pid, resource.RLIMIT_NOFILE, (few, most))
    time.sleep(AFTER)
    is_late = asking.end(f"without descriptors for {SHORT} s")
    print(f"it said so {lines} times then, and {unit.said.count(SHORTAGE) - lines} times after that")
    return is_late or not 1 <= lines <= SHORT + 1


def unit_of(command, room, part):
    """Runs one part beside a unit of its own."""
    file, path = f"{room}/room.toml", f"{room}/control"
    with open(file, "w") as out:
        out.write(SETTINGS)
    unit = subprocess.Popen([*command, "serve", file, "--control", path], stdout=subprocess.DEVNULL, stderr=subprocess.PIPE, text=True)
    try:
        while line := unit.stderr.readline():
            if line.startswith("serving "):
                break
        else:
            sys.exit("the unit doesn't serve")
        said = []
        threading.Thread(target=lambda: said.extend(unit.stderr), daemon=True).start()
        return part(Unit(path, unit.pid, said))
    finally:
        unit.terminate()
        unit.wait()


def main(*command):
    parts = [
        lambda unit: alone(unit.path),
        lambda unit: beside_flood(unit.path, "closed at once", b"", 0),
        lambda unit: beside_flood(unit.path, "with half a line", b"sel", 0),
        lambda unit: beside_flood(unit.path, "that stay for 50 ms", b"", 0.05),
        lambda unit: beside_peers(unit.path, False),
        lambda unit: beside_peers(unit.path, True),
    ]
    if len(command) == 1:
        parts.append(without_descriptors)
    is_late = False
    for part in parts:
        with tempfile.TemporaryDirectory() as room:
            is_late |= unit_of(command, room, part)
    return 1 if is_late else 0


if __name__ == "__main__":
    sys.exit(main(*sys.argv[1:]))
