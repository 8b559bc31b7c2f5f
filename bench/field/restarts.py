#!/usr/bin/env python3
"""A publisher starts anew again and again under the same SSRC, with other sequence numbers and timestamps each time, while a subscriber
watches: each packet has to come, under a number that wasn't used before. Of two runs the second follows the first at once, so that with
two workers packets of the first may still wait when the second begins. Each third run begins 2 to 99 numbers behind the last one.

    bench/field/restarts.py SFU [RESTARTS]

SFU is the built program. Prints, with one worker and with two, how many packets were sent and came, how often a number came twice or late,
and what the unit counted; ends with status 1 if a packet is missing, or a number came twice. With `--without` after SFU the file has no
`new_starts`, to see what happens then. By hand: nothing of it is proved.
"""

import os
import random
import select
import socket
import struct
import subprocess
import sys
import tempfile
import time

SETTINGS = """workers = {}
ring = 64
history = 1024
timeout_ms = 60000
report_ms = 60000
pli_gap_ms = 500
unit_ssrc = 9
cname = "sfu"
listen = "127.0.0.1:{}"
{}
[[endpoint]]
ssrc = 16
address = "127.0.0.1:{}"

[[endpoint]]
ssrc = 17
address = "127.0.0.1:{}"

[[leg]]
subscriber = 1
publisher = 0
out_ssrc = 257
first_seq = 100
"""
PACKETS = 40


def bound_socket():
    """A socket on a free port of the loopback interface."""
    it = socket.socket(socket.AF_INET, socket.SOCK_DGRAM)
    it.bind(("127.0.0.1", 0))
    return it


def packet(seq, timestamp):
    """An RTP packet of the source 16 (RFC 3550, section 5.1); its payload is the number of its run and its place there."""
    return struct.pack("!BBHII", 0x80, 96, seq % 65536, timestamp % 2**32, 16)


def main(program, restarts, rule):
    return max(serve(program, restarts, rule, workers) for workers in (1, 2))


def serve(program, restarts, rule, workers):
    publisher, subscriber = bound_socket(), bound_socket()
    listener = bound_socket()
    unit_at = listener.getsockname()
    listener.close()
    with tempfile.TemporaryDirectory() as folder:
        file, control = os.path.join(folder, "room.toml"), os.path.join(folder, "control")
        with open(file, "w") as out:
            out.write(SETTINGS.format(workers, unit_at[1], rule, publisher.getsockname()[1], subscriber.getsockname()[1]))
        unit = subprocess.Popen([program, "serve", file, "--control", control], stdout=subprocess.DEVNULL, stderr=subprocess.PIPE)
        unit.stderr.readline()
        try:
            sent, came, twice = play(publisher, subscriber, unit_at, restarts)
            said = [subprocess.run([program, "ask", control, it], capture_output=True, text=True).stdout for it in ("legs", "counts")]
        finally:
            unit.kill()
    print(f"workers {workers}: {restarts} restarts, {sent} packets sent, {came} came; {twice} numbers came twice or late")
    print("   ", "; ".join("".join(said).splitlines()), flush=True)
    return 1 if came < sent or twice else 0


def play(publisher, subscriber, unit_at, restarts):
    """How many packets were sent and came, and how many numbers came twice or late."""
    subscriber.sendto(struct.pack("!BBHI", 0x80, 201, 1, 17), unit_at)
    time.sleep(0.05)
    came, twice, highest, seq = set(), 0, None, 0
    for run in range(restarts + 1):
        if run % 3 == 2:
            seq += PACKETS - 1 - random.randrange(2, 100)
            timestamp += random.randrange(2**25, 2**31)
        else:
            seq, timestamp = seq + random.randrange(5000, 60000), random.randrange(2**32)
        for place in range(PACKETS):
            publisher.sendto(packet(seq + place, timestamp + 3000 * place) + struct.pack("!HB", run, place), unit_at)
        while (run % 2 or run == restarts) and select.select([subscriber], [], [], 0.05)[0]:
            datagram = subscriber.recv(2048)
            if datagram[1] != 96:
                continue
            number = struct.unpack_from("!H", datagram, 2)[0]
            if highest is not None and not 0 < (number - highest) % 65536 < 32768:
                twice += 1
            highest = number
            came.add(datagram[12:])
    return (restarts + 1) * PACKETS, len(came), twice


if __name__ == "__main__":
    words = [it for it in sys.argv[1:] if it != "--without"]
    if len(words) not in (1, 2):
        sys.exit(__doc__)
    sys.exit(main(words[0], int(words[1]) if len(words) == 2 else 20, "" if "--without" in sys.argv else "new_starts = true\n"))
