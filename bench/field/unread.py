#!/usr/bin/env python3
"""Nobody reads what `sfu serve --status 1` says: the media go on.

    unread.py PROGRAM [SECONDS]

The unit's error output is a pipe of 4,096 bytes that is full and isn't read. A publisher sends 50 packets a second to one subscriber, for
so many seconds (80; after some 65 there is no room for lines any more), and no second may pass without a packet of it. Then the pipe is
read to its end while the unit goes on: the last line says how many weren't said. At the end it is stopped, and has to be gone within three
seconds.
"""
import fcntl
import os
import re
import socket
import subprocess
import sys
import tempfile
import threading
import time

PROGRAM = os.path.abspath(sys.argv[1])
SECONDS = int(sys.argv[2]) if len(sys.argv) > 2 else 80
HOST, UNIT, PUBLISHER, SUBSCRIBER = "127.0.0.1", 45104, 46100, 46102
SETTINGS = f"""workers = 1
ring = 8
history = 128
timeout_ms = 86400000
report_ms = 60000
pli_gap_ms = 500
unit_ssrc = 9
cname = "sfu@localhost"
listen = "{HOST}:{UNIT}"
[[endpoint]]
ssrc = 16
address = "{HOST}:{PUBLISHER}"
[[endpoint]]
ssrc = 17
address = "{HOST}:{SUBSCRIBER}"
[[leg]]
subscriber = 1
publisher = 0
out_ssrc = 257
"""
FAULTS = 0


def say(what, is_so, otherwise=""):
    global FAULTS
    print(f"{what}: {'ok' if is_so else f'NOT SO: {otherwise}'}", flush=True)
    FAULTS += not is_so


def fill(end):
    """Fills the pipe, whoever reads of it."""
    os.set_blocking(end, False)
    try:
        while True:
            os.write(end, b"#")
    except BlockingIOError:
        pass
    os.set_blocking(end, True)


def bound(port):
    it = socket.socket(socket.AF_INET, socket.SOCK_DGRAM)
    it.bind((HOST, port))
    return it


def main():
    with tempfile.TemporaryDirectory() as room:
        file, control = f"{room}/room.toml", f"{room}/control"
        with open(file, "w") as out:
            out.write(SETTINGS)
        read, write = os.pipe()
        fcntl.fcntl(write, fcntl.F_SETPIPE_SZ, 4096)
        unit = subprocess.Popen([PROGRAM, "serve", file, "--status", "1", "--control", control], stderr=write, stdout=subprocess.DEVNULL)
        first = b""
        while b"serving" not in first:
            first += os.read(read, 1)
        fill(write)
        publisher, subscriber = bound(PUBLISHER), bound(SUBSCRIBER)
        subscriber.sendto(bytes([0x80, 201, 0, 1, 0, 0, 0, 17]), (HOST, UNIT))
        came, is_over = [], threading.Event()

        def receive():
            subscriber.settimeout(0.2)
            while not is_over.is_set():
                try:
                    if subscriber.recv(2048)[1] == 96:
                        came.append(time.monotonic())
                except socket.timeout:
                    pass

        receiver = threading.Thread(target=receive, daemon=True)
        receiver.start()
        began, number = time.monotonic(), 0

        def send_until(end):
            nonlocal number
            while time.monotonic() < end:
                header = bytes([0x80, 96]) + (number % 65536).to_bytes(2, "big") + (number * 1800 % 2**32).to_bytes(4, "big")
                publisher.sendto(header + bytes([0, 0, 0, 16]) + b"media", (HOST, UNIT))
                number += 1
                time.sleep(0.02)

        send_until(began + SECONDS)
        looked = [began, *came, time.monotonic()]
        longest = max(b - a for a, b in zip(looked, looked[1:]))
        say(f"{len(came)} of {number} packets came while nobody read, none more than a second after the one before",
            longest < 1 and number - len(came) < 10, f"{longest:.1f} s without one")
        said = os.read(read, 4096)
        reader = threading.Thread(target=lambda: [chunks.append(os.read(read, 4096)) for _ in range(100)], daemon=True)
        chunks = [said]
        reader.start()
        send_until(time.monotonic() + 4)
        lines = re.findall(rb"present [^\n]*", b"".join(chunks))
        last = lines[-1].decode() if lines else "nothing"
        print(f"  {len(lines)} lines once it was read; the last: {last}")
        if SECONDS >= 80:
            say("the last line says how many weren't said", " unsaid " in last, last)
        asked = time.monotonic()
        stopped = subprocess.run([PROGRAM, "ask", control, "stop"], capture_output=True)
        try:
            unit.wait(3)
        except subprocess.TimeoutExpired:
            unit.kill()
        say(f"it was gone {1000 * (time.monotonic() - asked):.0f} ms after it was stopped", stopped.returncode == 0 and unit.returncode == 0,
            f"{stopped} {unit.returncode}")
        is_over.set()
    return 1 if FAULTS else 0


if __name__ == "__main__":
    sys.exit(main())
