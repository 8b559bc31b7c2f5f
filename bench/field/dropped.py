#!/usr/bin/env python3
"""A unit is held up while a stranger sends: what the system drops meanwhile has to be counted, and the rest as a stranger's.

    bench/field/dropped.py SFU [DATAGRAMS]

SFU is the built program. The unit is stopped by a signal, so many datagrams are sent to it, 1,000 if nothing else is said, and it goes on.
Prints what the unit says that it heard of strangers and that was dropped, and what the system says; ends with status 1 if these aren't all
that was sent, or the stranger isn't listed. By hand: nothing of it is proved.
"""

import os
import signal
import socket
import subprocess
import sys
import tempfile
import time

SETTINGS = """workers = 1
ring = 8
history = 128
timeout_ms = 60000
report_ms = 60000
pli_gap_ms = 500
unit_ssrc = 9
cname = "sfu"
listen = "127.0.0.1:{}"

[[endpoint]]
ssrc = 16
address = "127.0.0.1:1"
"""
# How long the unit has to look at what the system says, in seconds: it looks once a second.
PATIENCE = 2.5


def bound_socket():
    it = socket.socket(socket.AF_INET, socket.SOCK_DGRAM)
    it.bind(("127.0.0.1", 0))
    return it


def dropped_by_system(port):
    """The last word of the row of the socket at this port of 127.0.0.1."""
    with open("/proc/net/udp") as table:
        return sum(int(row.split()[-1]) for row in table if row.split()[1] == f"0100007F:{port:04X}")


def play(program, datagrams, folder):
    stranger, free = bound_socket(), bound_socket()
    port = free.getsockname()[1]
    free.close()
    file, control = os.path.join(folder, "room.toml"), os.path.join(folder, "control")
    with open(file, "w") as out:
        out.write(SETTINGS.format(port))
    unit = subprocess.Popen([program, "serve", file, "--control", control], stdout=subprocess.DEVNULL, stderr=subprocess.PIPE)
    unit.stderr.readline()

    def ask(word):
        return subprocess.run([program, "ask", control, word], check=True, capture_output=True, text=True).stdout

    try:
        unit.send_signal(signal.SIGSTOP)
        for _ in range(datagrams):
            stranger.sendto(b"\x80\x60" + bytes(1400), ("127.0.0.1", port))
        unit.send_signal(signal.SIGCONT)
        time.sleep(PATIENCE)
        words = ask("counts").split()
        counts = dict(zip(words[::2], map(int, words[1::2])))
        listed = ask("strangers").split()
        system = dropped_by_system(port)
    finally:
        unit.kill()
    print(f"{datagrams} sent: strangers {counts['strangers']}, unread {counts['unread']}; the system dropped {system}; listed: {' '.join(listed[:3])}")
    at = f"127.0.0.1:{stranger.getsockname()[1]}"
    is_listed = listed[:3] == [at, "datagrams", str(counts["strangers"])]
    return 0 if is_listed and counts["unread"] == system and counts["strangers"] + system == datagrams else 1


if __name__ == "__main__":
    if len(sys.argv) not in (2, 3):
        sys.exit(__doc__)
    with tempfile.TemporaryDirectory() as room:
        sys.exit(play(sys.argv[1], int(sys.argv[2]) if len(sys.argv) == 3 else 1000, room))
