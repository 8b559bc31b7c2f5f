#!/usr/bin/env python3
"""Switches a leg between two GStreamer ends off and on while `sfu serve` runs and is recorded, and replays the record.

    switched.py PROGRAM [TIMES]

PROGRAM is the built program; the leg is switched so many times (10). A relay stands between the unit and each end, on loopback, keeps
what the unit sent, and asks for a picture (PLI) in the receiver's name once the leg is on again; the publisher makes no key frame unless
it is asked. Each line says what was looked at, and `ok` or what came instead; the status is 0 if all are. Wanted: what `run.py` wants of
GStreamer.
"""
import socket
import subprocess
import sys
import threading
import time

from run import HOST, OUT, PROGRAM, SOURCE, TWO, UNIT, Run, gst_frames, gst_receive, gst_send, settings, wait_for

TIMES = int(sys.argv[2]) if len(sys.argv) > 2 else 10
OFF, ON = 1.0, 2.0
RATE = 15
FAULTS = 0


class Between(threading.Thread):
    """Hands datagrams on between the unit and an end's port, both ways, and keeps those of the unit with the time at which they came."""

    def __init__(self, port, unit, end):
        super().__init__(daemon=True)
        self.socket = socket.socket(socket.AF_INET, socket.SOCK_DGRAM)
        self.socket.bind((HOST, port))
        self.socket.settimeout(0.2)
        self.unit, self.end, self.came, self.is_over = (HOST, unit), (HOST, end), [], False
        self.start()

    def run(self):
        while not self.is_over:
            try:
                datagram, sender = self.socket.recvfrom(65535)
            except socket.timeout:
                continue
            if sender == self.unit:
                self.came.append((time.monotonic(), datagram))
                self.socket.sendto(datagram, self.end)
            else:
                self.socket.sendto(datagram, self.unit)


def say(what, is_so, otherwise=""):
    global FAULTS
    print(f"{what}: {'ok' if is_so else f'NOT SO: {otherwise}'}", flush=True)
    FAULTS += not is_so


def u32(number):
    return number.to_bytes(4, "big")


def asks_for_a_picture():
    """An empty report of the receiver, and a PLI for its leg (RFC 4585, section 6.3.1)."""
    return bytes([0x80, 201, 0, 1]) + u32(SOURCE + 1) + bytes([0x81, 206, 0, 2]) + u32(SOURCE + 1) + u32(OUT)


def begins_picture(datagram):
    """Whether this RTP packet begins a key frame of VP8 (RFC 7741, sections 4.2 and 4.3)."""
    payload = datagram[12 + 4 * (datagram[0] & 15):]
    if len(payload) < 2 or payload[0] & 0x17 != 0x10:
        return False
    place = 1
    if payload[0] & 0x80:
        more = payload[1]
        place = 2
        if more & 0x80:
            place += 2 if payload[place] & 0x80 else 1
        place += (more >> 6 & 1) + bool(more & 0x30)
    return len(payload) > place and payload[place] & 1 == 0


def select(control, switch):
    done = subprocess.run([PROGRAM, "ask", control, "select", "0", switch], capture_output=True, text=True)
    say(f"select 0 {switch}", (done.returncode, done.stdout, done.stderr) == (0, "", ""), f"{done}")


def replayed(file, record):
    """The datagrams that the replay sends, by endpoint."""
    with open(record, "rb") as script:
        done = subprocess.run([PROGRAM, "replay", file], stdin=script, capture_output=True, text=True)
    say("the record is played to its end", (done.returncode, done.stderr) == (0, ""), f"{done.returncode} {done.stderr}")
    sent = {0: [], 1: []}
    for line in done.stdout.splitlines():
        words = line.split()
        if words[0] == "send":
            sent[int(words[1])].append(bytes.fromhex(words[2]))
    return sent


def is_rtcp(datagram):
    return 192 <= datagram[1] <= 223


def main():
    with Run() as run:
        # The unit sends to relays, and hears from them: RTP of the publisher alone comes from where GStreamer sends.
        publisher = TWO.format(46000, 46021)
        subscriber = TWO.format(46012, 46013)
        file = settings(run.room, publisher, [subscriber], "VP8", two_ports=True)
        control, record = f"{run.room}/control", f"{run.room}/record"
        run.serve(file, "--control", control, "--record", record)
        media, reports = Between(46012, UNIT, 46002), Between(46013, UNIT + 1, 46003)
        back = Between(46021, UNIT + 1, 46001)
        gst_receive(run, "VP8", 46002, reports=46013)
        time.sleep(2)
        reports.socket.sendto(asks_for_a_picture(), (HOST, UNIT + 1))
        gst_send(run, "VP8", frames=100000, rate=RATE, keys=100000, reports=46021)
        time.sleep(3)
        say("there is a picture at first", any(begins_picture(d) for _, d in media.came), f"{len(media.came)} packets")
        for _ in range(TIMES):
            select(control, "off")
            time.sleep(0.2)
            before = len(media.came)
            time.sleep(OFF)
            say("  nothing comes while it is off", len(media.came) == before, f"{len(media.came) - before} packets")
            select(control, "on")
            time.sleep(0.3)
            asked = time.monotonic()
            reports.socket.sendto(asks_for_a_picture(), (HOST, UNIT + 1))
            time.sleep(ON)
            new = [(at, d) for at, d in media.came[before:]]
            picture = [at - asked for at, d in new if at > asked and begins_picture(d)]
            say(f"  a picture again, {1000 * picture[0]:.0f} ms after it was asked for" if picture else "  a picture again", bool(picture),
                f"{len(new)} packets, no key frame")
        frames = gst_frames(run.log("receiver"))
        done = subprocess.run([PROGRAM, "ask", control, "stop"], capture_output=True, text=True)
        say("stop", done.returncode == 0, f"{done}")
        time.sleep(1)
        for it in (media, reports, back):
            it.is_over = True
        numbers = [int.from_bytes(d[2:4], "big") for _, d in media.came]
        new, again, gaps = numbers[:1], 0, []
        for number in numbers[1:]:
            if 0 < (number - new[-1]) % 65536 < 32768:
                gaps += [(new[-1], number)] if (number - new[-1]) % 65536 != 1 else []
                new.append(number)
            else:
                again += 1
        say(f"numbers of {len(new)} packets rise by one, {TIMES} switches among them; {again} came again", not gaps, f"{gaps}")
        print(f"  {frames} frames were decoded")
        sent = replayed(file, record)
        for what, came, wanted in [
            ("RTP to the receiver", media.came, [d for d in sent[1] if not is_rtcp(d)]),
            ("RTCP to the receiver", reports.came, [d for d in sent[1] if is_rtcp(d)]),
            ("RTCP to the publisher", back.came, [d for d in sent[0] if is_rtcp(d)]),
        ]:
            # (the goodbyes of `stop` are the socket's, and no event's)
            came = [d for _, d in came if not says_goodbye(d)]
            first = next((n for n, (a, b) in enumerate(zip(came, wanted)) if a != b), min(len(came), len(wanted)))
            say(f"{len(came)} datagrams, {what}, are replayed byte for byte", came == wanted, f"{len(wanted)} replayed, unlike from {first} on")
    return 1 if FAULTS else 0


def says_goodbye(datagram):
    """Whether a packet of this compound is a BYE (RFC 3550, section 6.6)."""
    place = 0
    while is_rtcp(datagram) and place + 4 <= len(datagram):
        if datagram[place + 1] == 203:
            return True
        place += 4 * (int.from_bytes(datagram[place + 2:place + 4], "big") + 1)
    return False


if __name__ == "__main__":
    sys.exit(main())
