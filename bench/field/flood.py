#!/usr/bin/env python3
"""One endpoint floods the unit with rubbish, while another one's media go to a third.

    bench/field/flood.py SFU [SECONDS] [--without] [--goings] [--strangers]

SFU is the built program. A publisher sends 500 packets a second to one subscriber, for 10 seconds if nothing else is said. Each 20 ms another endpoint sends
BURST datagrams in a row: RTCP that holds thousands of empty packets, so that each is dear to read. Prints how many of the publisher's packets came,
what of the flood was heard and what wasn't, by endpoint, and the processor time of the unit; ends with status 1 if a packet of the publisher is missing
though the system dropped nothing, if one was beyond the limit, if more of the flood was heard than may be in that time and a second more, or if a line of counts doesn't begin with the time (`--log-time`). With
`--without` the file has no `flood_limit`. With `--goings` there are two workers, and the other endpoint, which is sent the publisher's packets, too,
comes and goes: every other datagram is its goodbye, so that rows change with each. With `--strangers` the flood comes from an address that is
nobody's. By hand: nothing of it is proved.
"""

import os
import re
import select
import socket
import struct
import subprocess
import sys
import tempfile
import threading
import time

SETTINGS = """workers = {}
ring = 64
history = 1024
timeout_ms = 60000
report_ms = 60000
pli_gap_ms = 500
{}unit_ssrc = 9
cname = "sfu"
listen = "127.0.0.1:{}"

[[endpoint]]
ssrc = 16
address = "127.0.0.1:{}"

[[endpoint]]
ssrc = 17
address = "127.0.0.1:{}"

[[endpoint]]
ssrc = 18
address = "127.0.0.1:{}"

[[leg]]
subscriber = 1
publisher = 0
out_ssrc = 257
"""
SECOND_LEG = """
[[leg]]
subscriber = 2
publisher = 0
out_ssrc = 258
"""
# A datagram a millisecond: twice what the publisher sends, and a third of the flood.
LIMIT, MOST = "flood_limit = 1\n", 1
RATE, PAUSE, BURST = 500, 0.02, 60
# Packets of application-defined RTCP without a body (RFC 3550, section 6.7), after an empty report of source 18.
HERE = struct.pack("!BBHI", 0x80, 201, 1, 18)
RUBBISH = [HERE + struct.pack("!BBH", 0x80, 204, 0) * 500]
# It comes, and it goes (RFC 3550, section 6.6).
GOINGS = [HERE, HERE + struct.pack("!BBHI", 0x81, 203, 1, 18)]


def bound_socket():
    it = socket.socket(socket.AF_INET, socket.SOCK_DGRAM)
    it.setsockopt(socket.SOL_SOCKET, socket.SO_RCVBUF, 1 << 22)
    it.bind(("127.0.0.1", 0))
    return it


def cpu_seconds(pid):
    """User and system time of a process, by /proc/PID/stat."""
    with open(f"/proc/{pid}/stat") as stat:
        fields = stat.read().rsplit(")", 1)[1].split()
    return (int(fields[11]) + int(fields[12])) / os.sysconf("SC_CLK_TCK")


def play(program, seconds, limit, goings, strangers, folder):
    publisher, subscriber, flooder, stranger, free = (bound_socket() for _ in range(5))
    unit_at = free.getsockname()
    free.close()
    file, control = os.path.join(folder, "room.toml"), os.path.join(folder, "control")
    with open(file, "w") as out:
        ports = (it.getsockname()[1] for it in (publisher, subscriber, flooder))
        out.write(SETTINGS.format(2 if goings else 1, limit, unit_at[1], *ports) + (SECOND_LEG if goings else ""))
    unit = subprocess.Popen([program, "serve", file, "--log-time", "--status", "1", "--control", control], stdout=subprocess.DEVNULL, stderr=subprocess.PIPE, text=True)
    unit.stderr.readline()
    lines = []
    reader = threading.Thread(target=lambda: lines.extend(unit.stderr), daemon=True)
    reader.start()

    def ask(word):
        return subprocess.run([program, "ask", control, word], check=True, capture_output=True, text=True).stdout

    came, is_over = set(), threading.Event()

    def receive():
        while not is_over.is_set():
            if select.select([subscriber], [], [], 0.1)[0]:
                datagram = subscriber.recv(2048)
                if datagram[1] == 96:
                    came.add(struct.unpack_from("!I", datagram, 12)[0])

    receiver = threading.Thread(target=receive, daemon=True)
    try:
        subscriber.sendto(struct.pack("!BBHI", 0x80, 201, 1, 17), unit_at)
        time.sleep(0.1)
        receiver.start()
        began = time.monotonic()
        sent, flood, next_burst = 0, 0, began
        while (now := time.monotonic()) < began + seconds:
            while sent < (now - began) * RATE:
                header = struct.pack("!BBHII", 0x80, 96, sent % 65536, 3000 * sent % 2**32, 16)
                publisher.sendto(header + struct.pack("!I", sent) + bytes(1000), unit_at)
                sent += 1
            if now >= next_burst:
                next_burst += PAUSE
                for number in range(BURST):
                    (stranger if strangers else flooder).sendto((GOINGS if goings else RUBBISH)[number % (1 + goings)], unit_at)
                flood += BURST
            time.sleep(0.0005)
        time.sleep(1.5)
        cost = cpu_seconds(unit.pid)
        words = ask("counts").split()
        counts = dict(zip(words[::2], map(int, words[1::2])))
        metrics = ask("metrics")
        passed_ms = (time.monotonic() - began) * 1000
        ask("stop")
        unit.wait(5)
    finally:
        is_over.set()
        unit.kill()
    reader.join(2)
    own, flooded = (int(re.search(rf'^sfu_endpoint_flooded_total\{{endpoint="{it}",.*\}} (\d+)$', metrics, re.M).group(1)) for it in (0, 2))
    lines = [it for it in lines if " present " in it or it.startswith("present")]
    timed = [it for it in lines if re.match(r"\d{4}-\d\d-\d\dT\d\d:\d\d:\d\dZ present ", it)]
    print(f"{len(came)} of {sent} packets came, {own} were beyond the limit themselves; of {flood} datagrams of the other one {flooded} weren't heard; unread {counts.get('unread', 0)}; the unit took {cost:.2f} s of processor time")
    print(f"{len(timed)} of {len(lines)} lines begin with the time; the last: {lines[-1].strip() if lines else 'none'}")
    is_missing = len(came) + own < sent and not counts.get("unread", 0)
    # (the system drops what it has no room for, of either)
    heard = flood - flooded - counts.get("unread", 0)
    is_over = limit and not strangers and heard > MOST * (passed_ms + 1000)
    return 1 if is_missing or own or is_over or not lines or len(timed) < len(lines) else 0


if __name__ == "__main__":
    asked = [it for it in sys.argv[1:] if it not in ("--without", "--goings", "--strangers")]
    if len(asked) not in (1, 2):
        sys.exit(__doc__)
    with tempfile.TemporaryDirectory() as room:
        sys.exit(play(asked[0], int(asked[1]) if len(asked) == 2 else 10, "" if "--without" in sys.argv else LIMIT, "--goings" in sys.argv, "--strangers" in sys.argv, room))
