#!/usr/bin/env python3
"""Records `sfu serve` on the loopback interface, replays the record, and compares what the unit sent with what the replay says.

    record.py PROGRAM [COUNT [SEED]]

PROGRAM is the built program (crates/sfu_main/out/sfu_main, or ./sfu). COUNT random datagrams (3,000 if it isn't said), among them packets
with gaps and late ones, reports, feedback, goodbyes and rubbish, and a selection after every fifty, come to a unit with one worker, then to
one with two, then to one that is killed in the middle; then a record begins and ends by the control in the middle of a run. Each line says
what was compared, and `ok` or what came instead; the status is 0 if all is ok.
"""
import hashlib
import os
import random
import re
import resource
import signal
import socket
import subprocess
import sys
import tempfile
import threading
import time

HOST, UNIT, SOURCES = "127.0.0.1", 9, (16, 17, 18, 19)
LEGS = [(s, p) for s in range(4) for p in range(4) if s != p]
OUT = 256
MEDIA = 47000


def u32(n):
    return n.to_bytes(4, "big")


def rtp(ssrc, seq, payload):
    return bytes([0x80, 96]) + (seq % 65536).to_bytes(2, "big") + u32(3000 * seq % 2**32) + u32(ssrc) + payload


def rtcp(count, kind, body):
    return bytes([0x80 | count, kind]) + (len(body) // 4).to_bytes(2, "big") + body


def settings(workers):
    lines = [f"workers = {workers}", "ring = 64", "history = 128", "timeout_ms = 3000", "report_ms = 500", "pli_gap_ms = 200",
             f"unit_ssrc = {UNIT}", 'cname = "sfu@localhost"', f'listen = "{HOST}:{MEDIA}"', "new_starts = true"]
    for number, ssrc in enumerate(SOURCES):
        lines += ["[[endpoint]]", f"ssrc = {ssrc}", f'address = "{HOST}:{MEDIA + 10 + number}"']
    for number, (subscriber, publisher) in enumerate(LEGS):
        lines += ["[[leg]]", f"subscriber = {subscriber}", f"publisher = {publisher}", f"out_ssrc = {OUT + number}"]
    return "\n".join(lines) + "\n"


class Client:
    """An endpoint: what it says next, and all that came to it."""

    def __init__(self, number, rng):
        self.number, self.ssrc, self.rng = number, SOURCES[number], rng
        self.seq, self.came = rng.randrange(65536), []
        self.socket = socket.socket(socket.AF_INET, socket.SOCK_DGRAM)
        self.socket.setsockopt(socket.SOL_SOCKET, socket.SO_RCVBUF, 4 << 20)
        self.socket.bind((HOST, MEDIA + 10 + number))
        self.socket.settimeout(0.2)
        self.going = True
        self.thread = threading.Thread(target=self.listen)
        self.thread.start()

    def listen(self):
        while self.going:
            try:
                self.came.append(self.socket.recvfrom(65535)[0])
            except socket.timeout:
                pass

    def end(self):
        self.going = False
        self.thread.join()
        self.socket.close()

    def packet(self):
        rng = self.rng
        draw = rng.random()
        if draw < 0.05:
            self.seq += rng.randrange(1, 6)
        seq = self.seq - rng.randrange(1, 8) if draw > 0.95 else self.seq
        if seq == self.seq:
            self.seq += 1
        return rtp(self.ssrc, seq, rng.randbytes(rng.randrange(1, 1200)))

    def legs(self):
        return [OUT + n for n, (subscriber, _) in enumerate(LEGS) if subscriber == self.number]

    def feedback(self):
        rng, own = self.rng, u32(self.ssrc)
        media = u32(rng.choice(self.legs()))
        kind = rng.randrange(8)
        if kind == 0:  # a receiver report that is empty, and a description
            return rtcp(0, 201, own) + rtcp(1, 202, own + b"\x01\x03abc" + bytes(3))
        if kind == 1:
            return rtcp(0, 200, own + bytes(20))
        if kind == 2:
            kept = [bytes_[2:4] for bytes_ in self.came[-50:] if bytes_[8:12] == media]
            lost = rng.choice(kept) if kept else rng.randbytes(2)
            return rtcp(1, 205, own + media + lost + rng.choice([b"\0\0", b"\0\3"]))
        if kind == 3:
            return rtcp(1, 206, own + media)
        if kind in (4, 5):
            word = (rng.randrange(6, 14) << 26) | (rng.randrange(1, 2**17) << 9) | rng.randrange(20, 60)
            return rtcp(3, 205, own + bytes(4) + media + u32(word))
        if kind == 6:
            return rtcp(0, 201, own) + rtcp(1, 206, own + media) + rtcp(3, 205, own + bytes(4) + media + u32(0xfffffe00))
        return rng.randbytes(rng.randrange(1, 60))

    def next_datagram(self, is_alone):
        """With threads who leaves in the datagram in which it asks may be gone before it asks, so it does so in one thread alone."""
        draw = self.rng.random()
        if draw < 0.002:
            return rtcp(1, 203, u32(self.ssrc))
        if draw < 0.012 and is_alone:
            return self.feedback() + rtcp(1, 203, u32(self.ssrc))
        return self.packet() if draw < 0.8 else self.feedback()


def ask(path, line):
    with socket.socket(socket.AF_UNIX) as s:
        s.settimeout(5)
        s.connect(path)
        s.sendall(line.encode() + b"\n")
        answer = b""
        while not answer.endswith((b"ok\n", b"\n")) or not answer:
            answer += s.recv(4096)
        return answer.decode()


class Unit:
    def __init__(self, program, folder, workers, words=(), is_recorded=True, **how):
        self.program, self.file = program, os.path.join(folder, f"room{workers}.toml")
        self.record = os.path.join(folder, f"record{workers}.script")
        self.control = os.path.join(folder, "control")
        for path in (self.record,):
            if os.path.exists(path):
                os.unlink(path)
        open(self.file, "w").write(settings(workers))
        self.process = subprocess.Popen(
            [program, "serve", self.file, "--status", "1", "--control", self.control,
             *(["--record", self.record] if is_recorded else []), *words],
            stdout=subprocess.PIPE, stderr=subprocess.PIPE, text=True, **how)
        line = self.process.stderr.readline()
        while not line.startswith("serving"):
            assert line, "it didn't begin"
            line = self.process.stderr.readline()

    def end(self):
        """Stops it; the lines of counts that it wrote."""
        answer = ask(self.control, "stop")
        assert answer == "ok\n", answer
        out, errors = self.process.communicate(timeout=30)
        assert self.process.returncode == 0, (out, errors)
        return errors

    def kill(self):
        self.process.send_signal(signal.SIGKILL)
        self.process.communicate()

    def replayed(self, *options):
        """What the replay sends: by endpoint, the datagrams in order; its status, and what it says on the error output."""
        with open(self.record, "rb") as script:
            done = subprocess.run([self.program, "replay", self.file, *options], stdin=script, capture_output=True, text=True)
        sent = [[] for _ in SOURCES]
        for line in done.stdout.splitlines():
            words = line.split()
            if words[0] == "send":
                sent[int(words[1])].append(bytes.fromhex(words[2]))
        return sent, done.returncode, done.stderr


def play(clients, unit, rng, count, pace, rest=0):
    """So many random datagrams, with a selection after every fifty. Where a rest is given, it comes before and after each datagram of RTCP,
    so that no packet is on its way to a worker when somebody comes or goes, and no two requests are."""
    to = (HOST, MEDIA)
    control = unit.control
    if rest:
        for client in clients:
            client.socket.sendto(rtcp(0, 201, u32(client.ssrc)), to)
            time.sleep(rest)
    for number in range(count):
        client = rng.choice(clients)
        datagram = client.next_datagram(not rest)
        is_media = len(datagram) >= 12 and datagram[1] == 96
        if not is_media:
            time.sleep(rest)
        client.socket.sendto(datagram, to)
        time.sleep(pace if is_media else max(pace, rest))
        if number % 50 == 49:
            time.sleep(0.03)
            leg, switch = rng.randrange(len(LEGS)), rng.choice(("on", "off"))
            if number % 500 == 499:
                done = subprocess.run([unit.program, "ask", control, "select", str(leg), switch], capture_output=True)
                assert done.returncode == 0, done
            else:
                answer = ask(control, f"select {leg} {switch}")
                assert answer == "ok\n", answer
            time.sleep(0.03)
    time.sleep(0.3)


def by_leg(datagrams):
    """The RTP of each leg, in order."""
    legs = {}
    for bytes_ in datagrams:
        if len(bytes_) >= 12 and not 192 <= bytes_[1] <= 223:
            legs.setdefault(int.from_bytes(bytes_[8:12], "big"), []).append(bytes_)
    return legs


def control_of(datagrams):
    return [b for b in datagrams if len(b) < 12 or 192 <= b[1] <= 223]


def says_goodbye(datagram):
    """Whether a packet of this compound is a BYE (RFC 3550, section 6.6); the unit sends none but at its end."""
    place = 0
    while datagram in control_of([datagram]) and place + 4 <= len(datagram):
        if datagram[place + 1] == 203:
            return True
        place += 4 * (int.from_bytes(datagram[place + 2:place + 4], "big") + 1)
    return False


def first_difference(a, b):
    for place, (x, y) in enumerate(zip(a, b)):
        if x != y:
            return f"datagram {place}: {x[:40].hex()} was sent, {y[:40].hex()} is replayed"
    return f"{len(a)} were sent, {len(b)} are replayed"


FAULTS = 0


def say(what, is_so, otherwise=""):
    global FAULTS
    print(f"{what}: {'ok' if is_so else 'NOT SO: ' + otherwise}", flush=True)
    FAULTS += not is_so


def run(program, folder, workers, count, seed, pace, rest):
    rng = random.Random(seed)
    unit = Unit(program, folder, workers)
    clients = [Client(number, rng) for number in range(len(SOURCES))]
    try:
        play(clients, unit, rng, count, pace, rest)
        errors = unit.end()
        time.sleep(0.3)
    finally:
        for client in clients:
            client.end()
        unit.kill()
    return unit, clients, errors


def whole(program, folder, workers, count, seed, pace, rest):
    unit, clients, errors = run(program, folder, workers, count, seed, pace, rest)
    sent, status, said = unit.replayed()
    name = f"workers {workers}"
    mode = os.stat(unit.record).st_mode & 0o777
    say(f"{name}: the record is its owner's alone", mode == 0o600, oct(mode))
    say(f"{name}: it is played to its end", status == 0 and said == "", f"{status} {said}")
    last = [line for line in errors.splitlines() if line.startswith("present")][-1:]
    print(f"  {''.join(last)}; {os.path.getsize(unit.record)} bytes")
    for client in clients:
        # (the goodbye of `stop` is the socket's, and follows from no event)
        came, replay = [datagram for datagram in client.came if not says_goodbye(datagram)], sent[client.number]
        if workers == 1:
            say(f"{name}: all {len(came)} datagrams to endpoint {client.number}, in order", came == replay, first_difference(came, replay))
            continue
        legs, others = by_leg(came), by_leg(replay)
        for leg in sorted(set(legs) | set(others)):
            a, b = legs.get(leg, []), others.get(leg, [])
            say(f"{name}: the {len(a)} packets of leg {leg - OUT}, in order", a == b, first_difference(a, b))
        a, b = control_of(came), control_of(replay)
        say(f"{name}: the {len(a)} datagrams of RTCP to endpoint {client.number}, in any order", sorted(a) == sorted(b),
            f"{len(a)} were sent, {len(b)} are replayed")


def killed(program, folder, count, seed):
    rng = random.Random(seed)
    unit = Unit(program, folder, 1)
    clients = [Client(number, rng) for number in range(len(SOURCES))]
    try:
        play(clients, unit, rng, count, 0.0005)
        unit.kill()
        time.sleep(0.3)
    finally:
        for client in clients:
            client.end()
    sent, status, said = unit.replayed()
    lines = open(unit.record, "rb").read().split(b"\n")
    cut = re.fullmatch(r"line (\d+): text\n", said)
    at_end = status == 0 or (cut and int(cut[1]) == len(lines))
    say("killed: the record is played to its last whole line", at_end, f"{status} {said} {len(lines)}")
    for client in clients:
        replay = sent[client.number]
        say(f"killed: {len(replay)} of {len(client.came)} datagrams to endpoint {client.number} are replayed, from the first on",
            client.came[:len(replay)] == replay and len(replay) > 0, first_difference(client.came, replay))


def ends_early(program, folder, seed, why, most, words=(), **how):
    """A record that ends before its unit: the unit goes on, says so, and what was written is played."""
    rng = random.Random(seed)
    unit = Unit(program, folder, 1, words, **how)
    clients = [Client(number, rng) for number in range(len(SOURCES))]
    try:
        play(clients, unit, rng, 300, 0.002)
        time.sleep(2.5)
        play(clients, unit, rng, 100, 0.002)
        time.sleep(1.2)
        errors = unit.end()
    finally:
        for client in clients:
            client.end()
        unit.kill()
    last = [line for line in errors.splitlines() if line.startswith("present")][-1]
    size = os.path.getsize(unit.record)
    say(f"ended {why}: the unit goes on and says so", last.endswith(f"ended {why}"), last)
    say(f"ended {why}: the record has {size} bytes", 0 < size <= most, str(most))
    say(f"ended {why}: the unit says so many", f" recorded {size} " in last, last)
    sent, status, said = unit.replayed()
    for client in clients:
        replay = sent[client.number]
        is_so = client.came[:len(replay)] == replay and len(client.came) > len(replay) > 0
        say(f"ended {why}: {len(replay)} of {len(client.came)} datagrams to endpoint {client.number} are replayed", is_so, f"{status} {said}")


def by_control(program, folder, workers, seed):
    """A record that begins and ends in the middle of a run, for who asks by the control."""
    rng = random.Random(seed)
    unit = Unit(program, folder, workers, is_recorded=False)
    clients = [Client(number, rng) for number in range(len(SOURCES))]
    name = f"by control, workers {workers}"

    def asked(*words):
        return subprocess.run([program, "ask", unit.control, *words], capture_output=True, text=True)

    try:
        play(clients, unit, rng, 200, 0.001)
        assert ask(unit.control, "select 0 off") == "ok\n" and ask(unit.control, "select 1 on") == "ok\n"
        legs = [line.split() for line in asked("legs").stdout.splitlines()]
        off = [words[0] for words in legs if words[5] == "off"]
        say(f"{name}: there is no record to end", (asked("record", "off").returncode, asked("record", "off").stderr) == (4, "unrecorded\n"))
        recording = subprocess.Popen([program, "ask", unit.control, "record", unit.record])
        # (whoever asks before this one is answered would be the one who gets the record)
        while not os.path.exists(unit.record):
            time.sleep(0.05)
        say(f"{name}: one record at a time", asked("record").stderr == "recorded\n")
        sent = {}
        for client in clients:
            client.socket = Noting(client.socket, sent.setdefault(client.number, []))
        play(clients, unit, rng, 400, 0.001)
        say(f"{name}: the record ends", asked("record", "off").returncode == 0)
        say(f"{name}: who asked ends with it", recording.wait(5) == 0)
        play(clients, unit, rng, 50, 0.001)
        # a second one, printed, until its reader is gone
        printing = subprocess.Popen([program, "ask", unit.control, "record"], stdout=subprocess.PIPE)
        first = printing.stdout.readline()
        printing.kill()
        play(clients, unit, rng, 200, 0.005)
        say(f"{name}: a second record is printed", first.startswith(b"# sfu "), str(first))
        again = asked("record", unit.record)
        say(f"{name}: a file that is there is never replaced", (again.returncode, again.stderr) == (5, "record: exists\n"), str(again))
        time.sleep(1.5)
        errors = unit.end()
    finally:
        for client in clients:
            client.end()
        unit.kill()
    last = [line for line in errors.splitlines() if line.startswith("present")][-1]
    say(f"{name}: a reader that is gone ends its record", "ended failed" in last, last)
    say(f"{name}: the record is its owner's alone", os.stat(unit.record).st_mode & 0o777 == 0o600)
    lines = open(unit.record).read().splitlines()
    head = [line.split() for line in lines[:4]]
    is_head = [words[:2] for words in head[:2]] == [["#", "sfu"], ["#", "settings"]] and head[3][:3] == ["#", "begins", "in"]
    say(f"{name}: its head says that it begins in the middle", is_head, str(lines[:4]))
    with open(unit.file, "rb") as settings:
        digest = hashlib.sha256(settings.read()).hexdigest()
    say(f"{name}: its head names the settings", head[1][2:] == [digest], str(lines[1]))
    moment = head[3][-1]
    wanted = [line for leg in off for line in (f"select {moment} {leg} off", "follow")]
    say(f"{name}: the {len(off)} legs that were off are so from its start", lines[4:4 + len(wanted)] == wanted, str(lines[4:12]))
    heard = {number: [] for number in range(len(SOURCES))}
    for line in lines:
        words = line.split()
        if words[0] == "hear":
            heard[int(words[2])].append(bytes.fromhex(words[3]))
    for number, datagrams in sorted(sent.items()):
        # (what follows the end of the record was sent, too)
        say(f"{name}: the {len(heard[number])} datagrams of endpoint {number}, in order", datagrams[:len(heard[number])] == heard[number] != [],
            first_difference(datagrams, heard[number]))
    done = subprocess.run([program, "replay", unit.file], stdin=open(unit.record, "rb"), capture_output=True, text=True)
    say(f"{name}: it is played to its end", done.returncode == 0 and "send " in done.stdout, done.stderr)


class Noting:
    """A socket of which is noted what is sent; datagrams that the unit doesn't hear (none of them, here) apart."""

    def __init__(self, plain, sent):
        self.plain, self.sent = plain, sent

    def sendto(self, datagram, to):
        if datagram:
            self.sent.append(datagram)
        return self.plain.sendto(datagram, to)

    def __getattr__(self, name):
        return getattr(self.plain, name)


def limited():
    resource.setrlimit(resource.RLIMIT_FSIZE, (50000, 50000))


def refuses_a_file(program, folder):
    unit = Unit(program, folder, 1)
    again = subprocess.run([program, "serve", unit.file, "--record", unit.record, "--ticks", "1"], capture_output=True, text=True)
    say("a file that is there is never replaced", again.returncode == 5 and "record: exists" in again.stderr, str(again))
    unit.end()


def main():
    program = os.path.abspath(sys.argv[1])
    count = int(sys.argv[2]) if len(sys.argv) > 2 else 3000
    seed = int(sys.argv[3]) if len(sys.argv) > 3 else 1
    with tempfile.TemporaryDirectory() as folder:
        whole(program, folder, 1, count, seed, 0.0005, 0)
        whole(program, folder, 2, count, seed + 1, 0.001, 0.02)
        killed(program, folder, count, seed + 2)
        ends_early(program, folder, seed + 3, "limit", 60000, ("--record-limit", "60000"))
        # a file that may not grow beyond so many bytes stands for a disk that is full
        ends_early(program, folder, seed + 4, "failed", 50000, preexec_fn=limited, restore_signals=False)
        refuses_a_file(program, folder)
        for workers in (1, 2):
            by_control(program, folder, workers, seed + 5)
    sys.exit(1 if FAULTS else 0)


main()
