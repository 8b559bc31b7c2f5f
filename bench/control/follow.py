#!/usr/bin/env python3
"""Peers that follow what happens in a unit, one of which never reads, while media go through it.

    follow.py PROGRAM

With one worker and with two: forty endpoints come and go 25 times a second. Who reads has to be told each that it saw, in turn. Who doesn't
read until much has happened has to find lines as the other has them, `ended slow` behind them, and the end; who never does has to be let go. No
packet of the publisher may come late by more than a tenth of a second meanwhile, nor may the unit take more than a megabyte. Each line says
what was looked at, and `ok` or what came instead; the status is 0 if all are.
"""
import os
import socket
import subprocess
import sys
import tempfile
import threading
import time

PROGRAM = os.path.abspath(sys.argv[1])
HOST, UNIT, PUBLISHER, SUBSCRIBER, GUESTS = "127.0.0.1", 45224, 46220, 46222, 46230
COUNT = 40
LATE = 0.1
ENDPOINT = '[[endpoint]]\nssrc = {}\naddress = "{}:{}"\n'
SETTINGS = f"""workers = {{workers}}
ring = 8
history = 128
timeout_ms = 86400000
report_ms = 60000
pli_gap_ms = 500
unit_ssrc = 9
cname = "sfu@localhost"
listen = "{HOST}:{UNIT}"
""" + ENDPOINT.format(16, HOST, PUBLISHER) + ENDPOINT.format(17, HOST, SUBSCRIBER) + "".join(
    ENDPOINT.format(100 + it, HOST, GUESTS + it) for it in range(COUNT)
) + "[[leg]]\nsubscriber = 1\npublisher = 0\nout_ssrc = 257\n"
FAULTS = 0


def say(what, is_so, otherwise=""):
    global FAULTS
    print(f"{what}: {'ok' if is_so else f'NOT SO: {otherwise}'}", flush=True)
    FAULTS += not is_so


def bound(port):
    it = socket.socket(socket.AF_INET, socket.SOCK_DGRAM)
    it.bind((HOST, port))
    return it


def rtcp(kind, ssrc):
    """A receiver report without blocks (201), or a BYE (203)."""
    return bytes([0x80 + (kind == 203), kind, 0, 1]) + ssrc.to_bytes(4, "big")


class Room(threading.Thread):
    """Sends a packet each 20 ms, and has the guests come and go each 40."""

    def __init__(self):
        super().__init__(daemon=True)
        self.out, self.back = bound(PUBLISHER), bound(SUBSCRIBER)
        self.guests = [bound(GUESTS + it) for it in range(COUNT)]
        self.back.settimeout(0.2)
        self.back.sendto(rtcp(201, 17), (HOST, UNIT))
        self.late, self.came, self.number, self.is_over = 0, 0, 0, False
        self.sent = {}
        self.reader = threading.Thread(target=self.receive, daemon=True)
        self.reader.start()
        self.start()

    def run(self):
        while not self.is_over:
            self.sent[self.number] = time.monotonic()
            payload = self.number.to_bytes(4, "big")
            header = bytes([0x80, 96]) + (self.number % 65536).to_bytes(2, "big") + bytes(4) + bytes([0, 0, 0, 16])
            self.out.sendto(header + payload, (HOST, UNIT))
            if self.number % 2:
                kind = 201 if self.number % 4 == 1 else 203
                for it, guest in enumerate(self.guests):
                    guest.sendto(rtcp(kind, 100 + it), (HOST, UNIT))
            self.number += 1
            time.sleep(0.02)

    def receive(self):
        while not self.is_over:
            try:
                datagram = self.back.recv(2048)
            except socket.timeout:
                continue
            if datagram[1] == 96:
                number = int.from_bytes(datagram[12:16], "big")
                self.came += 1
                self.late = max(self.late, time.monotonic() - self.sent[number])

    def end(self):
        time.sleep(0.3)
        self.is_over = True
        self.join()
        self.reader.join()
        for it in (self.out, self.back, *self.guests):
            it.close()


def follow(control):
    it = socket.socket(socket.AF_UNIX)
    it.connect(control)
    it.sendall(b"events\n")
    it.settimeout(15)
    return it


def rest_of(it):
    """What comes until the end; None where that doesn't come in time."""
    came = b""
    try:
        while more := it.recv(65536):
            came += more
    except socket.timeout:
        return None
    except ConnectionResetError:
        pass
    return came


class Reader(threading.Thread):
    """Reads all that a follower is told."""

    def __init__(self, control):
        super().__init__(daemon=True)
        self.it, self.told = follow(control), None
        self.start()

    def run(self):
        self.told = rest_of(self.it)


def memory(unit):
    with open(f"/proc/{unit.pid}/status") as it:
        return next(int(line.split()[1]) for line in it if line.startswith("VmRSS"))


def in_turn(lines):
    """Whether each came and went in turn."""
    there = set()
    for line in lines:
        word, _, number = line.partition(b" ")
        if (word == b"joined") == (number in there):
            return False
        (there.add if word == b"joined" else there.discard)(number)
    return True


def play(workers, room):
    file, control = f"{room}/room{workers}.toml", f"{room}/control{workers}"
    with open(file, "w") as out:
        out.write(SETTINGS.format(workers=workers))
    unit = subprocess.Popen([PROGRAM, "serve", file, "--control", control], stdout=subprocess.DEVNULL, stderr=subprocess.PIPE, text=True)
    unit.stderr.readline()
    name = f"workers {workers}"
    try:
        reader, late, never = Reader(control), follow(control), follow(control)
        time.sleep(0.5)
        before = memory(unit)
        media = Room()
        time.sleep(25)
        slow = rest_of(late)
        media.end()
        after = memory(unit)
        say(f"{name}: who reads late is told that it is slow, and let go", slow is not None and slow.endswith(b"\nended slow\n"), f"{(slow or b'')[-60:]}")
        gone = rest_of(never)
        say(f"{name}: who never reads is let go", gone is not None, "it is still there")
        say(f"{name}: of {media.number} packets {media.came} came, the slowest after {1000 * media.late:.0f} ms",
            media.came >= media.number - 2 and media.late < LATE)
        say(f"{name}: the unit took {after - before} KiB more", after - before < 1024)
        subprocess.run([PROGRAM, "ask", control, "stop"], check=True, timeout=10)
        unit.wait(10)
        reader.join(10)
        told = (reader.told or b"").split(b"\n")[:-1]
        say(f"{name}: who reads was told {len(told)} lines, each in turn", told[:1] == [b"ok"] and len(told) > 1000 and in_turn(told[1:]), f"{told[:5]} .. {told[-5:]}")
        seen = (slow or b"").split(b"\n")[:-2]
        say(f"{name}: who read late found {len(seen)} lines as the other has them", seen == told[:len(seen)], "others")
    finally:
        unit.kill()
        unit.wait()


with tempfile.TemporaryDirectory() as where:
    for count in (1, 2):
        play(count, where)
sys.exit(FAULTS > 0)
