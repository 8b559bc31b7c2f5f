#!/usr/bin/env python3
"""A unit is steered by `sfu ask` while a publisher sends to a subscriber: what it tells has to be what was sent.

    bench/control/room.py SFU
    bench/control/room.py --reports COMMAND..

SFU is the built program; with `--reports` COMMAND starts it, as `./sfu --unproved`, and only what reports say is tried. With one worker and with two: a leg is switched off and on ten times, and its numbers have no gap; `present`,
`legs` and `metrics` count the packets that came and went; `refusals` says what was refused of whom; a NACK brings a packet again, which is counted; a user other than the unit's is
refused by the system (if this runs as root); and `stop` says goodbye to who is present, and to nobody else. In a room of its own clients send
reports with known blocks: `reports` and `metrics` tell what those say, with the round trip of a client that holds a sender report and says
so, and what the unit reported to the publisher. Ends with status 1 at the first thing that isn't so. By hand: nothing of it is proved.
"""

import os
import re
import socket
import struct
import subprocess
import sys
import tempfile
import time

SETTINGS = """workers = {workers}
ring = 64
history = 1024
timeout_ms = 60000
report_ms = {report_ms}
pli_gap_ms = 0
unit_ssrc = 9
cname = "sfu"
listen = "127.0.0.1:{unit}"

[[endpoint]]
ssrc = 16
name = "ann"
address = "127.0.0.1:{publisher}"
rtpmap = ["96 H264/90000"]

[[endpoint]]
ssrc = 17
cname = "ben@192.0.2.8"
address = "127.0.0.1:{subscriber}"

[[endpoint]]
ssrc = 18
address = "127.0.0.1:{absent}"

[[leg]]
subscriber = 1
publisher = 0
out_ssrc = 257
first_seq = 100

[[leg]]
subscriber = 2
publisher = 0
out_ssrc = 258
"""
# The labels of both that come, and of the leg between them.
ANN, BEN = 'endpoint="0",name="ann"', 'endpoint="1",name="ben@192.0.2.8"'
ANN_TO_BEN = 'leg="0",publisher="ann",subscriber="ben@192.0.2.8"'
# RTP packets of a turn; their payload has so many bytes.
PACKETS, PAYLOAD = 20, 50
TURNS = 10
NOBODY = 65534
# The publisher's NTP time, what blocks name of it, and how many milliseconds a subscriber holds a report longer than it says.
NTP, LSR, AWAY_MS = 0x0001222233334444, 0x22223333, 40
REPORT_MS = 500
# A round trip is told up to so many milliseconds too large, since processes wait for their turn.
LATE_MS = 15


def bound_socket():
    it = socket.socket(socket.AF_INET, socket.SOCK_DGRAM)
    it.bind(("127.0.0.1", 0))
    it.settimeout(0.3)
    return it


def ask(program, path, *words):
    done = subprocess.run([program, "ask", path, *words], capture_output=True, text=True, timeout=20)
    if done.returncode:
        sys.exit(f"ask {' '.join(words)}: status {done.returncode}: {done.stderr}")
    return done.stdout


def received(at):
    """What comes to a socket until nothing comes for a while."""
    all_of_it = []
    try:
        while True:
            all_of_it.append(at.recv(4096))
    except TimeoutError:
        return all_of_it


def is_rtcp(datagram):
    return 192 <= datagram[1] <= 223


def packets_of(compound):
    """The RTCP packets of a compound: type, count, body (RFC 3550, section 6.4.1)."""
    while compound:
        first, kind, words = struct.unpack("!BBH", compound[:4])
        yield kind, first & 31, compound[4 : 4 + 4 * words]
        compound = compound[4 + 4 * words :]


def wants(what, found, wanted):
    if found != wanted:
        sys.exit(f"{what}: {found!r}, and not {wanted!r}")


def is_refused(path):
    """Whether a connection of another user is refused by the system."""
    child = os.fork()
    if child == 0:
        os.setgid(NOBODY)
        os.setuid(NOBODY)
        try:
            socket.socket(socket.AF_UNIX).connect(path)
        except PermissionError:
            os._exit(0)
        os._exit(1)
    return os.waitstatus_to_exitcode(os.waitpid(child, 0)[1]) == 0


def play(program, workers, folder):
    publisher, subscriber, absent, listener = (bound_socket() for _ in range(4))
    unit_at = listener.getsockname()
    listener.close()
    file, path = os.path.join(folder, f"room{workers}.toml"), os.path.join(folder, f"control{workers}")
    with open(file, "w") as out:
        ports = {"publisher": publisher, "subscriber": subscriber, "absent": absent}
        ports = {name: it.getsockname()[1] for name, it in ports.items()}
        out.write(SETTINGS.format(workers=workers, report_ms=60000, unit=unit_at[1], **ports))
    unit = subprocess.Popen([program, "serve", file, "--control", path], stdout=subprocess.PIPE, stderr=subprocess.PIPE, text=True)
    try:
        unit.stderr.readline()
        wants("never heard", ask(program, path, "present").count(" absent never heard refused 0 name "), 3)
        subscriber.sendto(struct.pack("!BBHI", 0x80, 201, 1, 17), unit_at)
        seq, came = 7, []
        for turn in range(TURNS):
            for on in ("on", "off"):
                ask(program, path, "select", "0", on)
                time.sleep(0.05)
                for _ in range(PACKETS):
                    publisher.sendto(struct.pack("!BBHII", 0x80, 96, seq % 65536, 3000 * seq, 16) + bytes(PAYLOAD), unit_at)
                    seq += 1
                time.sleep(0.05)
                came += [it for it in received(subscriber) if not is_rtcp(it)]
        numbers = [struct.unpack("!H", it[2:4])[0] for it in came]
        wants("numbers", numbers, list(range(100, 100 + TURNS * PACKETS)))
        # the last packet is asked for again (RFC 4585, section 6.2.1)
        ask(program, path, "select", "0", "on")
        last = numbers[-1]
        subscriber.sendto(struct.pack("!BBHIIHH", 0x81, 205, 3, 17, 257, last, 0), unit_at)
        again = [it for it in received(subscriber) if not is_rtcp(it)]
        wants("sent again", [it for it in again], [came[-1]])
        # and one that was never sent, before the first
        subscriber.sendto(struct.pack("!BBHIIHH", 0x81, 205, 3, 17, 257, 99, 0), unit_at)
        wants("what was never sent", [it for it in received(subscriber) if not is_rtcp(it)], [])
        sent = TURNS * PACKETS + 1
        legs = [re.sub(r" stay \d+ ", " stay S ", it) for it in ask(program, path, "legs").splitlines()]
        wants("leg 0", legs[0], f"0 from 0 to 1 on stay S packets {sent} octets {sent * PAYLOAD} resent 1 missed 1 next {last + 1} skipped 0 publisher ann subscriber ben@192.0.2.8")
        wants("leg 1", legs[1], "1 from 0 to 2 on stay none packets 0 octets 0 resent 0 missed 0 next none skipped 0 publisher ann subscriber 2")
        # a packet of version 1 is refused (RFC 3550, section 5.1), and so is a PLI about a source that is no leg's
        subscriber.sendto(struct.pack("!BBHII", 0x40, 96, 7, 3000, 17), unit_at)
        for _ in range(2):
            subscriber.sendto(struct.pack("!BBHII", 0x81, 206, 2, 17, 999), unit_at)
        time.sleep(0.05)
        wants("refusals", ask(program, path, "refusals").splitlines(), [
            "endpoint 1 rtp 2 times 1: an RTP packet of another version than 2",
            "endpoint 1 room 3 times 2: no such leg, or no stay on it",
        ])
        present = ask(program, path, "present").splitlines()
        wants("refused in all", [re.search(r" refused (\d+) ", it)[1] for it in present], ["0", "3", "0"])
        wants("names", [it.split()[-1] for it in present], ["ann", "ben@192.0.2.8", "2"])
        for line, state in zip(present, ("present heard", "present heard", "absent never heard")):
            if state not in line:
                sys.exit(f"present: {line}")
        metrics = ask(program, path, "metrics").splitlines()
        for line in (
            f'sfu_rtp_packets_received_total{{{ANN}}} {2 * TURNS * PACKETS}',
            f'sfu_received_bytes_total{{{ANN}}} {2 * TURNS * PACKETS * (12 + PAYLOAD)}',
            f'sfu_nacks_received_total{{{BEN}}} 2',
            f'sfu_leg_packets_missed_total{{{ANN_TO_BEN}}} 1',
            f'sfu_refused_total{{{BEN},kind="room",reason="3"}} 2',
            f'sfu_endpoint_present{{{BEN}}} 1',
            'sfu_endpoint_present{endpoint="2",name="2"} 0',
            f'sfu_leg_packets_sent_total{{{ANN_TO_BEN}}} {sent}',
            f'sfu_leg_packets_resent_total{{{ANN_TO_BEN}}} 1',
            f'sfu_leg_on{{{ANN_TO_BEN}}} 1',
        ):
            if line not in metrics:
                sys.exit(f"metrics have no {line}")
        # a request of the subscriber for 1,000 bits per second with 40 bytes of header (RFC 5104, section 4.2.1)
        subscriber.sendto(struct.pack("!BBHIIII", 0x83, 205, 4, 17, 0, 257, 0x0007d028), unit_at)
        time.sleep(0.2)
        shown = ask(program, path, "show", "0")
        wants("what is announced", [it.split()[:3] for it in shown.splitlines() if it.startswith("kept")], [["kept", "17", "0007d028"]])
        checked = subprocess.run([program, "check", "/dev/stdin"], input=shown, capture_output=True, text=True)
        wants("what sfu check says of it", (checked.returncode, checked.stdout), (0, "yes\n"))
        if os.geteuid() == 0:
            wants("another user is refused", is_refused(path), True)
        received(publisher)
        ask(program, path, "stop")
        printed, _ = unit.communicate(timeout=10)
        wants("status", unit.returncode, 0)
        wants("report", printed.splitlines()[0].split()[0], "heard")
        for name, it, sources in (("subscriber", subscriber, [257, 9]), ("publisher", publisher, [9]), ("absent", absent, None)):
            byes = [[struct.unpack("!I", body[:4])[0] for kind, _, body in packets_of(d) if kind == 203] for d in received(it) if is_rtcp(d)]
            wants(f"goodbyes to the {name}", [b for b in byes if b], [] if sources is None else [sources])
    finally:
        unit.kill()
    print(f"workers {workers}: {sent} packets, numbers without a gap over {TURNS} turns, counts and goodbyes as they should be")


def asked_there(path, words):
    """What the unit answers at its socket, without the last line."""
    with socket.socket(socket.AF_UNIX) as at:
        at.settimeout(20)
        at.connect(path)
        at.sendall(words.encode() + b"\n")
        answer = b""
        while not answer.endswith(b"ok\n"):
            more = at.recv(65536)
            if not more or answer.startswith(b"refused"):
                sys.exit(f"{words}: {answer!r}")
            answer += more
    return answer[:-3].decode()


def block(source, fraction, lost, jitter, lsr, held_ms):
    """A report block (RFC 3550, section 6.4.1)."""
    return struct.pack("!IB3sIIII", source, fraction, lost.to_bytes(3, "big", signed=True), 7, jitter, lsr, held_ms * 65536 // 1000)


def receiver_report(sender, *blocks):
    return struct.pack("!BBHI", 0x80 | len(blocks), 201, 1 + 6 * len(blocks), sender) + b"".join(blocks)


def sender_report(sender, ntp, *blocks):
    return struct.pack("!BBHIQIII", 0x80 | len(blocks), 200, 6 + 6 * len(blocks), sender, ntp, 0, 0, 0) + b"".join(blocks)


def awaited_report(subscriber):
    """Waits for a sender report of the leg with the publisher's NTP time."""
    until = time.monotonic() + 20
    while time.monotonic() < until:
        for datagram in received(subscriber):
            for kind, _, body in packets_of(datagram) if is_rtcp(datagram) else ():
                if kind == 200 and struct.unpack("!IQ", body[:12]) == (257, NTP):
                    return
    sys.exit("no sender report came")


def next_report(subscriber):
    """The moment at which the next sender report of the leg comes."""
    subscriber.settimeout(20)
    while True:
        datagram = subscriber.recv(4096)
        came = time.monotonic()
        if is_rtcp(datagram) and any(kind == 200 for kind, _, _ in packets_of(datagram)):
            subscriber.settimeout(0.3)
            return came


def blocks_sent(publisher):
    """Fraction, packets lost and jitter of the blocks about the publisher that the unit sent it meanwhile."""
    publisher.settimeout(0.02)
    for datagram in received(publisher):
        for kind, count, body in packets_of(datagram) if is_rtcp(datagram) else ():
            if kind == 201 and count == 1 and body[4:8] == struct.pack("!I", 16):
                yield body[8], int.from_bytes(body[9:12], "big", signed=True), struct.unpack("!I", body[16:20])[0]


def last_block_told(publisher, path):
    """The last block that the unit sent the publisher, and what it tells of it."""
    last = None
    for _ in range(20):
        last = list(blocks_sent(publisher))[-1:] or last
        told = [it for it in asked_there(path, "reports").splitlines() if it.startswith("publisher")]
        meanwhile = list(blocks_sent(publisher))
        if last and not meanwhile:
            return last[0], told
        last = meanwhile[-1:] or last
    sys.exit("the unit reports without a pause")


def play_reports(command, workers, folder):
    publisher, subscriber, other, listener = (bound_socket() for _ in range(4))
    unit_at = listener.getsockname()
    listener.close()
    file, path = os.path.join(folder, f"reports{workers}.toml"), os.path.join(folder, f"reports{workers}")
    with open(file, "w") as out:
        ports = {"publisher": publisher, "subscriber": subscriber, "absent": other}
        ports = {name: it.getsockname()[1] for name, it in ports.items()}
        out.write(SETTINGS.format(workers=workers, report_ms=REPORT_MS, unit=unit_at[1], **ports))
    unit = subprocess.Popen([*command, "serve", file, "--control", path], stdout=subprocess.PIPE, stderr=subprocess.PIPE, text=True)
    try:
        while not unit.stderr.readline().startswith("serving"):
            wants("the unit runs", unit.poll(), None)
        wants("no report", asked_there(path, "reports"), "")
        subscriber.sendto(receiver_report(17), unit_at)
        other.sendto(receiver_report(18), unit_at)
        # numbers 8 and 9 are lost on the way
        for seq in (*range(1, 8), *range(10, 20)):
            publisher.sendto(struct.pack("!BBHII", 0x80, 96, seq, 90 * seq, 16) + bytes(PAYLOAD), unit_at)
        publisher.sendto(sender_report(16, NTP), unit_at)
        awaited_report(subscriber)
        came = next_report(subscriber)
        time.sleep(0.1)
        held = round((time.monotonic() - came) * 1000)
        subscriber.sendto(receiver_report(17, block(258, 1, 1, 1, 0, 0), block(257, 64, -2, 90, LSR, held - AWAY_MS)), unit_at)
        # what an endpoint says of a leg to another is passed over
        other.sendto(receiver_report(18, block(257, 255, 9, 9, 0, 0)), unit_at)
        time.sleep(0.1)
        shape = r"leg 0 from 0 to 1 fraction 64 lost -2 jitter 90 round_trip_ms (\d+) heard \d+ ms ago"
        told = asked_there(path, "reports").splitlines()
        found = [re.fullmatch(shape, it) for it in told if it.startswith("leg")]
        if len(found) != 1 or not found[0]:
            sys.exit(f"reports: {told}")
        trip = int(found[0][1])
        if not AWAY_MS - 1 <= trip <= AWAY_MS + LATE_MS:
            sys.exit(f"round trip: {trip} ms, and not {AWAY_MS}")
        # a sender report has blocks, too; from one that names no report, or another, or says it held it for a minute, no round trip is known
        for fraction, lsr, held in ((128, 0, 0), (129, LSR + 1, 0), (130, LSR, 60000)):
            subscriber.sendto(sender_report(17, NTP, block(257, fraction, 3, 7, lsr, held)), unit_at)
            time.sleep(0.1)
            told = [it.split(" heard")[0] for it in asked_there(path, "reports").splitlines() if it.startswith("leg")]
            wants("the next block", told, [f"leg 0 from 0 to 1 fraction {fraction} lost 3 jitter 7 round_trip_ms {trip}"])
        (fraction, lost, jitter), told = last_block_told(publisher, path)
        wants("packets lost of the publisher", lost, 2)
        wants("the publisher", [it.split(" sent")[0] for it in told], [f"publisher 0 fraction {fraction} lost 2 jitter {jitter}"])
        metrics = asked_there(path, "metrics").splitlines()
        for line in (
            f'sfu_leg_reported_loss_ratio{{{ANN_TO_BEN}}} {130 / 256:.8f}',
            f'sfu_leg_reported_lost_packets{{{ANN_TO_BEN}}} 3',
            f'sfu_leg_reported_jitter_seconds{{{ANN_TO_BEN}}} 0.{7 * 10**6 // 90000:06}',
            f'sfu_leg_round_trip_seconds{{{ANN_TO_BEN}}} {trip / 1000:.3f}',
            f'sfu_publisher_reported_lost_packets{{{ANN}}} 2',
            f'sfu_publisher_reported_jitter_seconds{{{ANN}}} {jitter // 90000}.{jitter * 10**6 // 90000 % 10**6:06}',
        ):
            if line not in metrics:
                sys.exit(f"metrics have no {line}")
        wants("metrics of who reported nothing", [it for it in metrics if it.startswith("sfu_leg_r") and 'leg="1"' in it], [])
        asked_there(path, "stop")
        unit.communicate(timeout=20)
        wants("status", unit.returncode, 0)
    finally:
        unit.terminate()
    print(f"workers {workers}: reports are told as they were sent, with a round trip of {trip} ms for {AWAY_MS}")


def main(words):
    with tempfile.TemporaryDirectory() as folder:
        # others may enter the folder: what refuses them is the file's mode
        os.chmod(folder, 0o755)
        if words[0] == "--reports":
            for workers in (1, 2):
                play_reports([os.path.realpath(words[1]), *words[2:]], workers, folder)
            return
        program = os.path.realpath(words[0])
        for workers in (1, 2):
            play(program, workers, folder)
            play_reports([program], workers, folder)


if __name__ == "__main__":
    main(sys.argv[1:])
