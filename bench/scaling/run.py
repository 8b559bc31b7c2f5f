#!/usr/bin/env python3
"""Prints what one conference costs on this machine: memory and processor time, idle and with media.

    bench/scaling/run.py PROGRAM [SECONDS]

PROGRAM is the built program, crates/sfu_main/out/sfu_main. Each room is served by a process of its own on the loopback interface:
everybody publishes, and is seen by as many others as said. First all are present and silent, for so many seconds (10); then each
publisher sends packets of 1,200 bytes until each leg has kept as many as its ring holds.
"""
import os
import resource
import socket
import subprocess
import sys
import tempfile
import time

PAGE = os.sysconf("SC_PAGE_SIZE")
UNDER_WAY = 32
# endpoints, legs of each endpoint, ring
ROOMS = [(2, 1, 512), (8, 7, 8), (8, 7, 64), (8, 7, 512), (32, 31, 64), (256, 1, 64), (256, 16, 8)]


def settings(unit, sockets, legs, ring):
    lines = [
        f"workers = 1\nring = {ring}\nhistory = 1024\ntimeout_ms = 86400000\nreport_ms = 5000\npli_gap_ms = 500",
        f'unit_ssrc = 9\ncname = "sfu"\nlisten = "127.0.0.1:{unit}"',
    ]
    for k, it in enumerate(sockets):
        lines.append(f'[[endpoint]]\nssrc = {16 + k}\naddress = "127.0.0.1:{it.getsockname()[1]}"')
    for k in range(len(sockets)):
        for step in range(1, legs + 1):
            publisher = (k + step) % len(sockets)
            lines.append(f"[[leg]]\nsubscriber = {k}\npublisher = {publisher}\nout_ssrc = {65536 + 256 * k + step}")
    return "\n".join(lines) + "\n"


def nanoseconds(pid):
    """Returns the processor time of all threads of a process."""
    taken = 0
    for task in os.listdir(f"/proc/{pid}/task"):
        with open(f"/proc/{pid}/task/{task}/schedstat", encoding="ascii") as it:
            taken += int(it.read().split()[0])
    return taken


def kilobytes(pid):
    with open(f"/proc/{pid}/statm", encoding="ascii") as it:
        return int(it.read().split()[1]) * PAGE // 1024


def drain(sockets):
    """Returns how many packets of media have come."""
    come = 0
    for it in sockets:
        while True:
            try:
                come += (it.recv(2000)[1] & 0x7F) == 96
            except BlockingIOError:
                break
    return come


def measure(program, seconds, endpoints, legs, ring):
    sockets = [socket.socket(socket.AF_INET, socket.SOCK_DGRAM) for _ in range(endpoints + 1)]
    for it in sockets:
        it.bind(("127.0.0.1", 0))
        it.setblocking(False)
    unit = sockets.pop()
    at = unit.getsockname()
    with tempfile.NamedTemporaryFile("w", suffix=".toml") as file:
        file.write(settings(at[1], sockets, legs, ring))
        file.flush()
        unit.close()
        served = subprocess.Popen([program, "serve", file.name], stderr=subprocess.PIPE)
        try:
            served.stderr.readline()
            for k, it in enumerate(sockets):
                it.sendto(bytes.fromhex("80c90001") + (16 + k).to_bytes(4, "big"), at)
            time.sleep(1)
            before = nanoseconds(served.pid)
            time.sleep(seconds)
            idle, resting = (nanoseconds(served.pid) - before) / seconds / 1e9, kilobytes(served.pid)
            drain(sockets)
            before, out = nanoseconds(served.pid), 0
            for number in range(ring):
                for k, it in enumerate(sockets):
                    head = bytes([0x80, 96]) + number.to_bytes(2, "big") + bytes(4) + (16 + k).to_bytes(4, "big")
                    it.sendto(head + bytes(1188), at)
                    # So that no receive buffer fills: wait until what was sent on has come.
                    want = legs * (number * endpoints + k + 1)
                    until = time.monotonic() + 5
                    while out < want - UNDER_WAY and time.monotonic() < until:
                        out += drain(sockets)
            until = time.monotonic() + 2
            while out < legs * ring * endpoints and time.monotonic() < until:
                out += drain(sockets)
            each = (nanoseconds(served.pid) - before) / max(out, 1)
            return resting, kilobytes(served.pid), idle, each, out, legs * ring * endpoints
        finally:
            served.kill()
            served.wait()
            for it in sockets:
                it.close()


def main(program, seconds="10"):
    soft, hard = resource.getrlimit(resource.RLIMIT_NOFILE)
    resource.setrlimit(resource.RLIMIT_NOFILE, (min(hard, 4096), hard))
    print("endpoints legs ring | MB silent | MB with media | % of a processor silent | us a packet out | came")
    for endpoints, legs, ring in ROOMS:
        resting, busy, idle, each, came, sent = measure(program, int(seconds), endpoints, legs, ring)
        print(
            f"{endpoints:4} {endpoints * legs:5} {ring:4} | {resting / 1024:6.1f} | {busy / 1024:6.1f} | {100 * idle:5.2f} |"
            f" {each / 1000:5.2f} | {came} of {sent}",
            flush=True,
        )


if __name__ == "__main__":
    main(*sys.argv[1:])
