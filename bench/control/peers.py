#!/usr/bin/env python3
"""Peers of the control's socket that mean no good, while media go through the unit.

    peers.py PROGRAM

With one worker and with two: peers that say nothing, half a line, a megabyte without an end, and one that asks again and again and never
reads. Each has to be let go, a ninth has to be told that it is full, whoever asks in order has to be answered meanwhile, and no packet of
the publisher may come late by more than a tenth of a second. Then a unit where one listens already, and one where a killed one left its
socket. Each line says what was looked at, and `ok` or what came instead; the status is 0 if all are.
"""
import os
import signal
import socket
import subprocess
import sys
import tempfile
import threading
import time

PROGRAM = os.path.abspath(sys.argv[1])
HOST, UNIT, PUBLISHER, SUBSCRIBER = "127.0.0.1", 45204, 46200, 46202
SETTINGS = f"""workers = {{workers}}
ring = 8
history = 128
timeout_ms = 86400000
report_ms = 60000
pli_gap_ms = 500
unit_ssrc = 9
cname = "sfu@localhost"
listen = "{HOST}:{UNIT}"
[[endpoint]]
ssrc = 16
address = "{HOST}:{PUBLISHER}"
[[endpoint]]
ssrc = 17
address = "{HOST}:{SUBSCRIBER}"
[[leg]]
subscriber = 1
publisher = 0
out_ssrc = 257
"""
LATE = 0.1
FAULTS = 0


def say(what, is_so, otherwise=""):
    global FAULTS
    print(f"{what}: {'ok' if is_so else f'NOT SO: {otherwise}'}", flush=True)
    FAULTS += not is_so


def serve(file, control):
    unit = subprocess.Popen([PROGRAM, "serve", file, "--control", control], stdout=subprocess.PIPE, stderr=subprocess.PIPE, text=True)
    return unit, unit.stderr.readline()


def ask(control, *words):
    return subprocess.run([PROGRAM, "ask", control, *words], capture_output=True, text=True, timeout=10)


class Media(threading.Thread):
    """Sends a packet each 20 ms, and notes when each comes."""

    def __init__(self):
        super().__init__(daemon=True)
        self.out, self.back = (socket.socket(socket.AF_INET, socket.SOCK_DGRAM) for _ in range(2))
        self.out.bind((HOST, PUBLISHER))
        self.back.bind((HOST, SUBSCRIBER))
        self.back.settimeout(0.2)
        self.back.sendto(bytes([0x80, 201, 0, 1, 0, 0, 0, 17]), (HOST, UNIT))
        self.sent, self.came, self.is_over = {}, {}, False
        self.reader = threading.Thread(target=self.receive, daemon=True)
        self.reader.start()
        self.start()

    def run(self):
        number = 0
        while not self.is_over:
            payload = number.to_bytes(4, "big")
            self.sent[number] = time.monotonic()
            self.out.sendto(bytes([0x80, 96]) + (number % 65536).to_bytes(2, "big") + bytes(4) + bytes([0, 0, 0, 16]) + payload, (HOST, UNIT))
            number += 1
            time.sleep(0.02)

    def receive(self):
        while not self.is_over:
            try:
                datagram = self.back.recv(2048)
            except socket.timeout:
                continue
            if datagram[1] == 96:
                self.came[int.from_bytes(datagram[12:16], "big")] = time.monotonic()

    def end(self):
        time.sleep(0.5)
        self.is_over = True
        self.join()
        self.reader.join()
        self.out.close()
        self.back.close()
        missing = [n for n in self.sent if n not in self.came and n < len(self.sent) - 10]
        slowest = max(self.came[n] - self.sent[n] for n in self.came)
        return missing, slowest


def peer(control, words=b""):
    it = socket.socket(socket.AF_UNIX)
    it.connect(control)
    it.settimeout(0.5)
    if words:
        it.sendall(words)
    return it


def all_of(it, seconds):
    """What comes until it is let go; None where it isn't in time."""
    came, end = b"", time.monotonic() + seconds
    while time.monotonic() < end:
        try:
            more = it.recv(65536)
        except socket.timeout:
            continue
        except ConnectionResetError:
            return came
        if not more:
            return came
        came += more
    return None


def endless(it, words, seconds):
    """Sends these words again and again and never reads; whether it was let go in time."""
    end = time.monotonic() + seconds
    while time.monotonic() < end:
        try:
            it.sendall(words)
        except socket.timeout:
            pass
        except (BrokenPipeError, ConnectionResetError):
            return True
    return False


def play(workers, room):
    file, control = f"{room}/room{workers}.toml", f"{room}/control{workers}"
    with open(file, "w") as out:
        out.write(SETTINGS.format(workers=workers))
    unit, _ = serve(file, control)
    try:
        media = Media()
        time.sleep(1)
        name = f"workers {workers}"
        silent = [peer(control) for _ in range(3)]
        half = [peer(control, b"sel") for _ in range(3)]
        answered = ask(control, "counts")
        say(f"{name}: who asks in order beside six that don't is answered", answered.returncode == 0 and answered.stdout.startswith("present"),
            f"{answered}")
        more = [peer(control) for _ in range(2)]
        time.sleep(0.2)
        ninth = all_of(peer(control), 3)
        say(f"{name}: a ninth is told so", ninth == b"refused full\n", f"{ninth}")
        let_go = [all_of(it, 15) for it in silent + half + more]
        say(f"{name}: who says nothing, or half a line, is let go", all(it is not None for it in let_go), f"{let_go}")
        long = peer(control, b"x" * 1000)
        say(f"{name}: a line without an end is refused", all_of(long, 3) == b"refused long\n", "else")
        million = peer(control)
        say(f"{name}: so is a megabyte of it", endless(million, b"x" * 65536, 5), "it is still there")
        say(f"{name}: who never reads is let go", endless(peer(control), b"metrics\n" * 100, 30), "it is still there")
        many = 0
        for _ in range(300):
            try:
                peer(control).close()
                many += 1
            except (BlockingIOError, ConnectionRefusedError):
                pass
        began = time.monotonic()
        answered = ask(control, "counts")
        while answered.returncode != 0 and time.monotonic() < began + 20:
            answered = ask(control, "counts")
        say(f"{name}: after {many} that came and went at once an answer takes {time.monotonic() - began:.1f} s", answered.returncode == 0,
            f"{answered}")
        missing, slowest = media.end()
        say(f"{name}: of {len(media.sent)} packets none is missing, the slowest took {1000 * slowest:.0f} ms", not missing and slowest < LATE,
            f"{missing[:10]}")
        second = subprocess.run([PROGRAM, "serve", file, "--control", control], capture_output=True, text=True)
        say(f"{name}: another unit at the same socket", (second.returncode, second.stderr.splitlines()[:1]) == (5, ["control: in use"]),
            f"{second}")
        unit.send_signal(signal.SIGKILL)
        unit.communicate()
        say(f"{name}: a killed unit leaves its socket", os.path.exists(control), "it is gone")
        nobody = ask(control, "counts")
        say(f"{name}: nobody listens there", (nobody.returncode, nobody.stderr) == (5, "nobody listens\n"), f"{nobody}")
        unit, line = serve(file, control)
        answered = ask(control, "counts")
        say(f"{name}: the next unit takes it over", line.startswith("serving") and answered.returncode == 0, f"{line} {answered}")
        stopped = ask(control, "stop")
        unit.communicate(timeout=10)
        say(f"{name}: it is stopped, and the socket is gone", (stopped.returncode, unit.returncode, os.path.exists(control)) == (0, 0, False),
            f"{stopped} {unit.returncode}")
    finally:
        unit.kill()


def main():
    with tempfile.TemporaryDirectory() as room:
        for workers in (1, 2):
            play(workers, room)
    return 1 if FAULTS else 0


if __name__ == "__main__":
    sys.exit(main())
