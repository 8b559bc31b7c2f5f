#!/usr/bin/env python3
"""What it costs a unit that people and Prometheus look at it.

    bench/page/cost.py SFU FOLDER [--minutes M] [--stretch S] [--packets A_SECOND]

SFU is the built program. Eight publishers send so many packets of 1,200 bytes a second each, as a camera at 1.4 Mbit/s does, and everyone
sees everyone. For M minutes one unit is looked at: headless chromium, if it is there, has the page open, which brings itself up to date each
two seconds, and a scraper reads `/metrics` each second. Beside each stretch of S seconds of that stands one in which browser, scraper
and page are stopped (SIGSTOP), in the order looked at, alone, alone, looked at; so the machine's own drift is in both. Where there are
several processors the unit has the first one for itself, and all else the others: what they do to each other's caches is no part of it. Said of each
pair: what the unit's process took, all its threads (`/proc/PID/task/*/schedstat`), of each datagram that it sent; at the end what being
looked at adds, over all pairs, with the standard error, and how many milliseconds of processor time that is in a second: with few packets
(`--packets 2`) that alone is seen. Ends with status 1 if it adds 3 % or more. By hand: nothing of it is proved.
"""

import argparse
import glob
import http.client
import os
import shutil
import signal
import socket
import statistics
import struct
import subprocess
import sys
import tempfile
import threading
import time

ENDPOINTS = 8
PAYLOAD = 1_200
HEAD = """workers = 1
ring = 512
history = 1024
timeout_ms = 60000
report_ms = 5000
pli_gap_ms = 500
unit_ssrc = 9
cname = "sfu"
listen = "127.0.0.1:{unit}"
"""


def free_port(kind):
    with socket.socket(socket.AF_INET, kind) as it:
        it.bind(("127.0.0.1", 0))
        return it.getsockname()[1]


def write_settings(path, unit, ports):
    with open(path, "w", encoding="ascii") as it:
        it.write(HEAD.format(unit=unit))
        for number, port in enumerate(ports):
            it.write(f'\n[[endpoint]]\nssrc = {16 + number}\naddress = "127.0.0.1:{port}"\n')
        for publisher in range(ENDPOINTS):
            for subscriber in range(ENDPOINTS):
                if publisher != subscriber:
                    it.write(f"\n[[leg]]\npublisher = {publisher}\nsubscriber = {subscriber}\n"
                             f"out_ssrc = {1000 + ENDPOINTS * publisher + subscriber}\n")


class Load(threading.Thread):
    """Eight who send, and ask each other for rates; what comes to them is left to the system."""

    def __init__(self, unit, sockets, packets):
        super().__init__(daemon=True)
        self.unit, self.sockets, self.packets, self.ends = unit, sockets, packets, False

    def run(self):
        number, due = 0, time.monotonic()
        while not self.ends:
            for at, it in enumerate(self.sockets):
                head = struct.pack(">BBHII", 0x80, 96, number & 0xFFFF, number * 1500 & 0xFFFFFFFF, 16 + at)
                it.sendto(head + bytes(PAYLOAD), ("127.0.0.1", self.unit))
                if number % 300 == at:
                    it.sendto(self.asks(at), ("127.0.0.1", self.unit))
            number += 1
            due += 1 / self.packets
            time.sleep(max(0, due - time.monotonic()))

    def asks(self, at):
        """A TMMBR to the next one (RFC 5104, section 4.2.1): so many kilobits, so much overhead."""
        media = 1000 + ENDPOINTS * ((at + 1) % ENDPOINTS) + at
        return struct.pack(">BBHIIII", 0x83, 205, 4, 16 + at, 0, media, (3 << 26) | (100_000 << 9) | (40 + at))


def processor_seconds(pid):
    taken = 0
    for task in glob.glob(f"/proc/{pid}/task/*/schedstat"):
        with open(task, encoding="ascii") as it:
            taken += int(it.read().split()[0])
    return taken / 1e9


def sent(program, control):
    words = subprocess.run([program, "ask", control, "counts"], capture_output=True, timeout=20, check=True).stdout.split()
    return int(words[words.index(b"sent") + 1])


class Lookers:
    """A browser and a scraper at a page of their own, who look or rest."""

    def __init__(self, program, control):
        self.port = free_port(socket.SOCK_STREAM)
        page = [program, "page", control, f"127.0.0.1:{self.port}"]
        self.processes = [subprocess.Popen(page, stderr=subprocess.PIPE, start_new_session=True)]
        self.processes[0].stderr.readline()
        self.profile = tempfile.mkdtemp(prefix="sfu-page-")
        chromium = shutil.which("chromium")
        if chromium:
            self.processes.append(subprocess.Popen(
                [chromium, "--headless", "--no-sandbox", "--disable-gpu", f"--user-data-dir={self.profile}",
                 "--remote-debugging-port=0", f"http://127.0.0.1:{self.port}/"],
                stdout=subprocess.DEVNULL, stderr=subprocess.DEVNULL, start_new_session=True))
        self.looking, self.ends, self.scraped = threading.Event(), threading.Event(), []
        self.looking.set()
        self.scraper = threading.Thread(target=self.scrape, daemon=True)
        self.scraper.start()

    def scrape(self):
        while not self.ends.is_set():
            self.looking.wait()
            try:
                it = http.client.HTTPConnection("127.0.0.1", self.port, timeout=5)
                it.request("GET", "/metrics")
                self.scraped.append(it.getresponse().status)
                it.close()
            except OSError:
                self.scraped.append(0)
            self.ends.wait(1)

    def signal(self, number):
        for it in self.processes:
            os.killpg(it.pid, number)

    def look(self):
        self.signal(signal.SIGCONT)
        self.looking.set()

    def rest(self):
        # (a request under way is answered first)
        self.looking.clear()
        time.sleep(0.2)
        self.signal(signal.SIGSTOP)

    def leave(self):
        self.ends.set()
        self.look()
        self.scraper.join()
        self.signal(signal.SIGKILL)
        for it in self.processes:
            it.wait(20)
        shutil.rmtree(self.profile, ignore_errors=True)
        return self.scraped.count(200), len(self.scraped)


def part():
    """Leaves the first processor to the unit, if there are others: from now on this process, and what it starts, runs on those."""
    first, *others = sorted(os.sched_getaffinity(0))
    if others:
        os.sched_setaffinity(0, others)
    return first


class Unit:
    """A unit under a load of its own, and what it has taken and sent so far."""

    def __init__(self, program, folder, packets, processor):
        self.program, self.control, settings = program, f"{folder}/control", f"{folder}/room.toml"
        self.sockets = []
        for _ in range(ENDPOINTS):
            it = socket.socket(socket.AF_INET, socket.SOCK_DGRAM)
            it.bind(("127.0.0.1", 0))
            self.sockets.append(it)
        port = free_port(socket.SOCK_DGRAM)
        write_settings(settings, port, [it.getsockname()[1] for it in self.sockets])
        self.process = subprocess.Popen(
            [program, "serve", settings, "--control", self.control], stdout=subprocess.DEVNULL, stderr=subprocess.PIPE)
        self.process.stderr.readline()
        for task in os.listdir(f"/proc/{self.process.pid}/task"):
            os.sched_setaffinity(int(task), [processor])
        self.load = Load(port, self.sockets, packets)
        self.load.start()

    def stretch(self, seconds):
        """Microseconds of processor time for a datagram that is sent in so many seconds, and how many are."""
        before, packets = processor_seconds(self.process.pid), sent(self.program, self.control)
        time.sleep(seconds)
        after, packets = processor_seconds(self.process.pid), sent(self.program, self.control) - packets
        if packets < seconds * self.load.packets * ENDPOINTS * (ENDPOINTS - 1) / 2:
            sys.exit(f"not so: {packets} datagrams in {seconds} s")
        return 1e6 * (after - before) / packets

    def end(self):
        self.load.ends = True
        self.load.join()
        self.process.kill()
        self.process.wait()
        for it in self.sockets:
            it.close()


def pair_of(unit, lookers, seconds, looked_at_first):
    """What a datagram costs alone and looked at."""
    cost = {}
    for looked_at in (looked_at_first, not looked_at_first):
        (lookers.look if looked_at else lookers.rest)()
        time.sleep(1)
        cost[looked_at] = unit.stretch(seconds)
    return cost[False], cost[True]


def main():
    words = argparse.ArgumentParser()
    words.add_argument("program")
    words.add_argument("folder")
    words.add_argument("--minutes", type=float, default=10)
    words.add_argument("--stretch", type=float, default=10)
    words.add_argument("--packets", type=int, default=150)
    asked = words.parse_args()
    os.makedirs(asked.folder, exist_ok=True)
    if not shutil.which("chromium"):
        print("no chromium: only a scraper looks")
    unit, lookers = Unit(asked.program, asked.folder, asked.packets, part()), None
    try:
        lookers = Lookers(asked.program, unit.control)
        time.sleep(3)
        alone, looked, added = [], [], []
        for pair in range(max(2, round(asked.minutes * 30 / asked.stretch))):
            one, other = pair_of(unit, lookers, asked.stretch, pair % 2 == 0)
            alone.append(one)
            looked.append(other)
            added.append(100 * (other / one - 1))
            print(f"pair {pair + 1}: {one:.3f} us a datagram alone, {other:.3f} looked at, {added[-1]:+.2f} %", flush=True)
        fine, scrapes = lookers.leave()
        lookers = None
        print(f"scraped {fine} of {scrapes} times")
        if fine < scrapes - 3:
            sys.exit("not so: the page doesn't answer")
    finally:
        if lookers:
            lookers.leave()
        unit.end()
    more = [other - one for one, other in zip(alone, looked)]
    each_second = asked.packets * ENDPOINTS * (ENDPOINTS - 1) / 1000
    mean, error, base = statistics.mean(more), statistics.stdev(more) / len(more) ** 0.5, statistics.mean(alone)
    share = 100 * mean / base
    print(f"{base:.3f} us a datagram alone; being looked at adds {mean:+.3f} (standard error {error:.3f}), {share:+.2f} % ({100 * error / base:.2f}),"
          f" {len(more)} pairs; {each_second * mean:+.2f} ms ({each_second * error:.2f}) to {each_second * base:.1f} in a second; load {os.getloadavg()[0]:.1f}")
    if share >= 3:
        sys.exit("not so: 3 % or more")


main()
