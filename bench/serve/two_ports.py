#!/usr/bin/env python3
"""Tries `sfu serve` on the loopback interface with clients that need no help: RTP and RTCP on ports of their own, several endpoints at
one address, a receiver that never speaks, a compound of two sources, and strangers.

    two_ports.py PROGRAM [WORKERS]

PROGRAM is the built program (crates/sfu_main/out/sfu_main, or ./sfu). Each line says what was tried, and `ok` or what came instead;
the status is 0 if all is ok.
"""
import os
import re
import signal
import socket
import subprocess
import sys
import tempfile
import time

UNIT, PEER = 9, "127.0.0.1"
MEDIA, CONTROL = 46000, 46001


def rtp(ssrc, seq, payload=b"\xaa\xbb"):
    return bytes([0x80, 96]) + seq.to_bytes(2, "big") + (3000 * seq).to_bytes(4, "big") + ssrc.to_bytes(4, "big") + payload


def rr(ssrc):
    return bytes([0x80, 201, 0, 1]) + ssrc.to_bytes(4, "big")


def bye(ssrc):
    return bytes([0x81, 203, 0, 1]) + ssrc.to_bytes(4, "big")


def tmmbr(ssrc, media, word):
    return bytes([0x83, 205, 0, 4]) + ssrc.to_bytes(4, "big") + bytes(4) + media.to_bytes(4, "big") + word.to_bytes(4, "big")


def port(number):
    s = socket.socket(socket.AF_INET, socket.SOCK_DGRAM)
    s.bind((PEER, number))
    s.settimeout(0.5)
    return s


def all_of(s, seconds=0.5):
    """What comes to a socket, until nothing comes for so long."""
    came = []
    s.settimeout(seconds)
    while True:
        try:
            came.append(s.recvfrom(65535))
        except socket.timeout:
            return came


SETTINGS = f"""
workers = %d
ring = 64
history = 128
timeout_ms = 1500
report_ms = 60000
request_ms = 0
pli_gap_ms = 500
unit_ssrc = {UNIT}
cname = "sfu"
listen = "{PEER}:{MEDIA}"
listen_rtcp = "{PEER}:{CONTROL}"
# sound and picture of one client, from one port, RTCP from the next
[[endpoint]]
ssrc = 16
address = "{PEER}:46100"
rtcp_address = "{PEER}:46101"
[[endpoint]]
ssrc = 17
address = "{PEER}:46100"
rtcp_address = "{PEER}:46101"
# who only listens
[[endpoint]]
ssrc = 18
address = "{PEER}:46200"
rtcp_address = "{PEER}:46201"
receive_only = true
[[leg]]
subscriber = 2
publisher = 0
out_ssrc = 257
first_seq = 100
[[leg]]
subscriber = 2
publisher = 1
out_ssrc = 258
first_seq = 500
"""

failed = 0


def say(what, ok, came=""):
    global failed
    failed += not ok
    print(f"{what}: {'ok' if ok else came}")


def main():
    workers = int(sys.argv[2]) if len(sys.argv) > 2 else 1
    with tempfile.NamedTemporaryFile("w", suffix=".toml", delete=False) as f:
        f.write(SETTINGS % workers)
    client, client_rtcp, watcher, watcher_rtcp = map(port, (46100, 46101, 46200, 46201))
    stranger = port(46300)
    unit = subprocess.Popen([sys.argv[1], "serve", f.name, "--status", "1"], stderr=subprocess.PIPE, text=True, start_new_session=True)
    try:
        # ./sfu says more before the program does.
        first = next((line.strip() for line in unit.stderr if line.startswith("serving ")), "")
        say("says where it listens", first == f"serving {PEER}:{MEDIA} rtcp {PEER}:{CONTROL}", first)
        # A compound of both of the client's sources makes both present; who only listens is so by itself.
        client_rtcp.sendto(rr(16) + rr(17), (PEER, CONTROL))
        time.sleep(0.3)
        for seq in range(3):
            client.sendto(rtp(16, seq), (PEER, MEDIA))
            client.sendto(rtp(17, seq), (PEER, MEDIA))
        came = all_of(watcher)
        seen = sorted((int.from_bytes(d[8:12], "big"), int.from_bytes(d[2:4], "big")) for d, _ in came)
        say("sound and picture of one port come under their sources", seen == [(257, n) for n in (100, 101, 102)] + [(258, n) for n in (500, 501, 502)], seen)
        say("media leave from the port for media", {a[1] for _, a in came} == {MEDIA}, {a for _, a in came})
        # Who only listens says nothing for longer than the timeout, and still gets media.
        time.sleep(2)
        client.sendto(rtp(16, 3), (PEER, MEDIA))
        say("who only listens stays", len(all_of(watcher)) == 1, "gone")
        # A request goes up on the ports of RTCP.
        watcher_rtcp.sendto(tmmbr(18, 257, 0x0007D028), (PEER, CONTROL))
        up = all_of(client_rtcp)
        told = [d for d, a in up if tmmbr(18, 16, 0x0007D028) in d and a[1] == CONTROL]
        say("a request goes to the publisher's port for RTCP", len(told) == 1, up)
        down = all_of(watcher_rtcp)
        say("its notification comes back there", any(a[1] == CONTROL and b"\x84\xcd" in d for d, a in down), down)
        say("no RTCP comes to a port for media", not any(192 <= d[1] <= 223 for d, _ in all_of(watcher, 0.2) + all_of(client, 0.2)), "RTCP")
        # A goodbye counts until its sender is heard again.
        watcher_rtcp.sendto(bye(18), (PEER, CONTROL))
        time.sleep(0.1)
        all_of(watcher, 0.2)
        client.sendto(rtp(16, 4), (PEER, MEDIA))
        client_rtcp.sendto(rr(16) + rr(17), (PEER, CONTROL))
        time.sleep(1.8)
        client.sendto(rtp(16, 5), (PEER, MEDIA))
        say("after its goodbye it gets nothing", not all_of(watcher), "media")
        watcher_rtcp.sendto(rr(18), (PEER, CONTROL))
        time.sleep(0.1)
        client.sendto(rtp(16, 6), (PEER, MEDIA))
        say("heard again it gets media", len(all_of(watcher)) == 1, "nothing")
        # Strangers: from another address, and from the shared one with a source that nobody has.
        stranger.sendto(rtp(16, 7), (PEER, MEDIA))
        client.sendto(rtp(99, 7), (PEER, MEDIA))
        client_rtcp.sendto(rr(16) + rr(99) + rr(17), (PEER, CONTROL))
        say("strangers' media go nowhere", not all_of(watcher), "media")
        time.sleep(1.2)
    finally:
        os.killpg(unit.pid, signal.SIGKILL)
        lines = unit.stderr.read().splitlines()
        os.unlink(f.name)
    last = lines[-1] if lines else ""
    count = re.search(r"strangers (\d+)", last)
    say("three strangers are counted", bool(count) and count.group(1) == "3", last)
    print(last)
    return 1 if failed else 0


sys.exit(main())
