#!/usr/bin/env python3
"""What recording costs: processor time of `sfu serve` for each packet of 1,200 bytes that it takes in and sends on to one subscriber, with and
without `--record`.

    cost.py PROGRAM [PACKETS [FOLDER [PAIRS]]]

PROGRAM is the built program (crates/sfu_main/out/sfu_main). 50,000 packets a run unless it is said; records stand in FOLDER while it runs,
else in the system's folder for such files. Runs come in pairs, one without and one with a record, every other pair the other way round: 7
pairs with one worker and 7 with two unless it is said. What counts is user's and system's time of all threads
(/proc/PID/task/*/schedstat), the median of the pairs' differences; their least and greatest say how much other work on the machine
disturbs. Up to 32 packets are under way, and what is lost ends the run. Before each run a file as long as its record is written to FOLDER
and deleted, so that both kinds of run find memory that was used before: the host of a virtual machine takes back what isn't, and its next
use costs 2 us a page then, whoever it is.
"""
import glob
import os
import signal
import socket
import statistics
import subprocess
import sys
import tempfile

HOST, UNIT, SENDER, WATCHER = "127.0.0.1", 47200, 47201, 47202

SETTINGS = f"""workers = %d
ring = 512
history = 128
timeout_ms = 60000
report_ms = 5000
pli_gap_ms = 500
unit_ssrc = 9
cname = "sfu"
listen = "{HOST}:{UNIT}"
[[endpoint]]
ssrc = 16
address = "{HOST}:{SENDER}"
[[endpoint]]
ssrc = 17
address = "{HOST}:{WATCHER}"
receive_only = true
[[leg]]
subscriber = 1
publisher = 0
out_ssrc = 257
"""


def port(number):
    s = socket.socket(socket.AF_INET, socket.SOCK_DGRAM)
    s.setsockopt(socket.SOL_SOCKET, socket.SO_RCVBUF, 4 << 20)
    s.bind((HOST, number))
    s.settimeout(2)
    return s


def use_memory(folder, size):
    """Uses as much memory for files as so many bytes take, and gives it back."""
    block, path = bytes(1 << 20), os.path.join(folder, "used")
    with open(path, "wb") as it:
        for _ in range(0, size, len(block)):
            it.write(block)
    os.unlink(path)


def nanoseconds(pid):
    return sum(int(open(path).read().split()[0]) for path in glob.glob(f"/proc/{pid}/task/*/schedstat"))


def run(program, folder, workers, packets, is_recorded):
    """Nanoseconds for each packet."""
    file, record = os.path.join(folder, "room.toml"), os.path.join(folder, "record")
    open(file, "w").write(SETTINGS % workers)
    if os.path.exists(record):
        os.unlink(record)
    use_memory(folder, packets * 2_500)
    words = [program, "serve", file] + (["--record", record, "--record-limit", "4000000000"] if is_recorded else [])
    sender, watcher = port(SENDER), port(WATCHER)
    unit = subprocess.Popen(words, stderr=subprocess.PIPE, text=True)
    try:
        assert "serving" in unit.stderr.readline()
        payload = bytes(1188)

        def exchange(first, count):
            sent = came = first
            while came < first + count:
                while sent < first + count and sent - came < 32:
                    head = bytes([0x80, 96]) + (sent % 65536).to_bytes(2, "big") + sent.to_bytes(4, "big") + (16).to_bytes(4, "big")
                    sender.sendto(head + payload, (HOST, UNIT))
                    sent += 1
                datagram = watcher.recv(2048)
                if not 192 <= datagram[1] <= 223:
                    came += 1

        exchange(0, 2000)
        before = nanoseconds(unit.pid)
        exchange(2000, packets)
        return (nanoseconds(unit.pid) - before) / packets, os.path.getsize(record) if is_recorded else 0
    finally:
        unit.send_signal(signal.SIGKILL)
        unit.communicate()
        sender.close()
        watcher.close()


def spread(values):
    return f"{statistics.median(values):.2f} us ({min(values):.2f} to {max(values):.2f})"


def main():
    program = os.path.abspath(sys.argv[1])
    packets = int(sys.argv[2]) if len(sys.argv) > 2 else 50000
    pairs = int(sys.argv[4]) if len(sys.argv) > 4 else 7
    with tempfile.TemporaryDirectory(dir=sys.argv[3] if len(sys.argv) > 3 else None) as folder:
        for workers in (1, 2):
            costs = {False: [], True: []}
            for pair in range(pairs):
                for is_recorded in (False, True) if pair % 2 == 0 else (True, False):
                    cost, size = run(program, folder, workers, packets, is_recorded)
                    costs[is_recorded].append(cost / 1000)
                    if is_recorded:
                        record = size
            more = [with_it - without for without, with_it in zip(costs[False], costs[True])]
            print(
                f"workers {workers}, {pairs} pairs: {spread(costs[False])} without, {spread(costs[True])} recorded, {spread(more)} more;"
                f" {record} bytes",
                flush=True,
            )


main()
