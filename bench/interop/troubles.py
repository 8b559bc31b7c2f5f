#!/usr/bin/env python3
"""The ten minutes of an operator: makes each trouble of a conference with real clients, and looks whether the unit says what is wrong.

    troubles.py PROGRAM [TROUBLE..] [--times N]

PROGRAM is the built program. FFmpeg publishes, FFmpeg and GStreamer watch, all on loopback, by the rules of examples/serve.toml. Without TROUBLE all are made, each
in a conference of its own. A line of the table says how many seconds after a trouble was made, and after it could first be seen, `sfu ask PATH why LEG` said
it, how many until the page did, and what one command, `sfu replay` with these options, says of the record. Of a trouble in which nothing is sent the page has
to begin with that line. The unit is started anew N times (20), by turns after SIGKILL and SIGTERM (at `stop` it says goodbye, which ends FFmpeg); then the
table says how long FFmpeg showed no picture.

What can be seen first: a client's first packet; of a viewer that died the moment from which on its last report isn't shown; of loss the unit's first report to
the publisher that says so.

The status is 1 if `why` was later than WITHIN seconds, the page later than PAGE_WITHIN after that or begins with something else, the replay says nothing of it, or the
viewer was dark for longer than WITHIN. Wanted: what `run.py` wants of FFmpeg and GStreamer. By hand: nothing of it is proved.
"""

import dataclasses
import datetime
import os
import random
import re
import selectors
import signal
import socket
import subprocess
import sys
import threading
import time
import urllib.request

TIMES, WORDS = 20, sys.argv[1:]
if "--times" in WORDS:
    place = WORDS.index("--times")
    TIMES = int(WORDS[place + 1])
    WORDS = WORDS[:place] + WORDS[place + 2:]
if not WORDS:
    sys.exit(__doc__)
sys.path.append(os.path.join(os.path.dirname(os.path.dirname(os.path.realpath(__file__))), "field"))

from run import HOST, ONLY, OUT, PROGRAM, PUBLISHER, SOURCE, UNIT, Run, gst_receive, say, wait_for
from served import LEG, rules

# In seconds: how soon `why` has to be right, and how soon the page, which asks each two; and when a trouble is given up.
WITHIN, PAGE_WITHIN, GIVE_UP = 2.0, 5.0, 30.0
# By docs/FORMATS.md a report is shown for three of its intervals, and for so long at least.
SHOWN = 15.0
# The ports of FFmpeg, that publishes, and of those that watch: FFmpeg and GStreamer.
MEDIA, SEEN_BY_FFMPEG, SEEN_BY_GSTREAMER = 46000, 46002, 46004
OTHER_SOURCE, OTHER_PORT, BEHIND_RELAY = 555, 46010, 46020
LOSS = 0.05
RATE = 25
# What `why` says of a leg on which all is well.
FLOWS = r"sent; the subscriber (only listens, [^;]*|reports); [1-9]\d* packets a second"
LEG_LINE = re.compile(r"leg (\d+) from \S+ to \S+: (.*)")


def room(folder):
    """The settings of one publisher and two that watch, in a file there."""
    text = rules(listen=f'"{HOST}:{UNIT}"', listen_rtcp=f'"{HOST}:{UNIT + 1}"')
    text += f'[[endpoint]]\nssrc = {SOURCE}\n{PUBLISHER}\nrtpmap = ["96 H264/90000"]\nfmtp = ["96 packetization-mode=1"]\n'
    for number, port in ((1, SEEN_BY_FFMPEG), (2, SEEN_BY_GSTREAMER)):
        text += f"[[endpoint]]\nssrc = {SOURCE + number}\n{ONLY.format(port, port + 1)}\n"
    text += LEG.format(1, 0, OUT) + LEG.format(2, 0, OUT + 1)
    with open(f"{folder}/room.toml", "w") as file:
        file.write(text)
    return f"{folder}/room.toml"


def waits(what, until):
    """When this is so; None if it isn't by then."""
    while time.monotonic() < until:
        if what():
            return time.monotonic()
        time.sleep(0.02)
    return None


class Viewer:
    """FFmpeg, that shows what a session description says, and when each picture was there."""

    def __init__(self, sdp):
        words = ["ffmpeg", "-loglevel", "error", "-protocol_whitelist", "file,rtp,udp", "-analyzeduration", "1M", "-i", sdp]
        words += ["-fps_mode", "passthrough", "-f", "framecrc", "-flush_packets", "1", "-"]
        self.process = subprocess.Popen(words, stdin=subprocess.DEVNULL, stdout=subprocess.PIPE, stderr=subprocess.DEVNULL)
        self.pictures = []
        threading.Thread(target=self.look, daemon=True).start()

    def look(self):
        for line in self.process.stdout:
            if not line.startswith(b"#"):
                self.pictures.append(time.monotonic())

    def dark(self, since):
        """The longest time without a picture from then on."""
        before = max((it for it in self.pictures if it <= since), default=since)
        times = [before, *(it for it in self.pictures if it > since), time.monotonic()]
        return max(b - a for a, b in zip(times, times[1:]))


class WiFi(threading.Thread):
    """Stands between the publisher and the unit, and loses a share of what goes either way once it is bad."""

    def __init__(self):
        super().__init__(daemon=True)
        self.is_bad, self.is_over, self.chance = False, False, random.Random(1)
        self.ways = selectors.DefaultSelector()
        for number in range(2):
            # From the port that the unit knows, and at the one to which the publisher sends.
            outer, inner = (socket.socket(socket.AF_INET, socket.SOCK_DGRAM) for _ in range(2))
            outer.bind((HOST, MEDIA + number))
            inner.bind((HOST, BEHIND_RELAY + number))
            self.ways.register(inner, selectors.EVENT_READ, (outer, (HOST, UNIT + number)))
            self.ways.register(outer, selectors.EVENT_READ, (inner, (HOST, OTHER_PORT + number)))
        self.start()

    def run(self):
        while not self.is_over:
            for key, _ in self.ways.select(0.2):
                datagram = key.fileobj.recv(65535)
                by, to = key.data
                if not self.is_bad or self.chance.random() >= LOSS:
                    by.sendto(datagram, to)
        for key in list(self.ways.get_map().values()):
            key.fileobj.close()


class Conference(Run):
    """A unit that is steered, recorded and shown by a page; who publishes, and who watches."""

    def __enter__(self):
        self.file, self.control, self.records, self.viewer = room(self.room), f"{self.room}/control", 0, None
        with socket.socket() as free:
            free.bind((HOST, 0))
            self.page = f"http://{HOST}:{free.getsockname()[1]}"
        return self

    def __exit__(self, *fault):
        if self.viewer:
            self.viewer.process.kill()
            self.viewer.process.wait()
        super().__exit__(*fault)

    @property
    def record(self):
        return f"{self.room}/record{self.records}"

    def begin(self):
        """Starts the unit, which goes on with the numbers of the one before."""
        self.records += 1
        words = ["serve", self.file, "--control", self.control, "--record", self.record, "--numbers", f"{self.room}/numbers"]
        self.unit = self.start("unit", [PROGRAM, *words])
        if not waits(lambda: "serving" in self.log("unit"), time.monotonic() + GIVE_UP):
            raise SystemExit("the unit doesn't serve: " + self.log("unit"))

    def publish(self, to=UNIT, port=MEDIA, source=SOURCE):
        words = ["ffmpeg", "-loglevel", "error", "-re", "-f", "lavfi", "-i", f"testsrc=size=320x240:rate={RATE}"]
        words += ["-c:v", "libx264", "-preset", "ultrafast", "-tune", "zerolatency", "-g", str(RATE), "-pix_fmt", "yuv420p"]
        words += ["-payload_type", "96", "-ssrc", str(source), "-f", "rtp", f"rtp://{HOST}:{to}?localrtpport={port}&localrtcpport={port + 1}"]
        self.publisher = self.start("publisher", words)

    def watch(self):
        """Starts the page, and both that watch."""
        self.start("page", [PROGRAM, "page", self.control, self.page.removeprefix("http://")])
        self.viewer = Viewer(self.sdp(self.file, 1))
        gst_receive(self, "H.264", SEEN_BY_GSTREAMER)
        self.gstreamer, _ = self.running[-1]

    def is_well(self):
        """Whether media come to both, and GStreamer reports."""
        said = LEG_LINE.findall(self.ask("why"))
        return len(said) >= 2 and all(re.match(FLOWS, it) for _, it in said) and "reports" in said[1][1] and len(self.viewer.pictures) > RATE

    def settled(self):
        if not waits(self.is_well, time.monotonic() + GIVE_UP):
            raise SystemExit(f"media don't come: {self.ask('why')}{self.log('publisher')}{self.log('receiver')[-500:]}")
        time.sleep(1)

    def ask(self, *words):
        return subprocess.run([PROGRAM, "ask", self.control, *words], capture_output=True, text=True).stdout

    def why(self, leg):
        """Why nothing comes on the leg, or what it is sent, and what else is said with it."""
        lines = self.ask("why", str(leg)).splitlines() or [""]
        match = LEG_LINE.match(lines[0])
        return "\n".join([match[2] if match else "", *lines[1:]])

    def lossy_report(self):
        """When the unit's first report that tells the publisher of loss was sent."""
        end = time.monotonic() + GIVE_UP
        while time.monotonic() < end:
            match = re.search(r"^publisher 0 fraction [1-9]\d* .* sent (\d+) ms ago$", self.ask("reports"), re.M)
            if match:
                return time.monotonic() - int(match[1]) / 1000
            time.sleep(0.02)
        return None

    def next_report(self):
        """When the next report of GStreamer came."""
        def ago_ms():
            match = re.search(r"^leg 1 .* heard (\d+) ms ago$", self.ask("reports"), re.M)
            return int(match[1]) if match else 0
        before = ago_ms()
        while (now := ago_ms()) >= before:
            before = now
            time.sleep(0.02)
        return time.monotonic() - now / 1000

    def shown(self, path):
        try:
            with urllib.request.urlopen(self.page + path, timeout=5) as answer:
                return answer.read().decode()
        except OSError:
            return ""

    def first_of_page(self, leg):
        """The line with which the page begins, by the pattern of its own script; where it has none, what is said of this leg at `/why`."""
        pattern, lines = re.search(r"TROUBLE = /(.*?)/,", self.shown("/")), self.shown("/why").splitlines()
        troubles = [it for it in lines if pattern and re.match(pattern[1], it)]
        said = [LEG_LINE.fullmatch(it) for it in troubles or lines]
        return next((it[2] for it in said if it and (troubles or it[1] == str(leg))), "")

    def replay(self, *options):
        with open(self.record) as script:
            end = subprocess.run([PROGRAM, "replay", self.file, *options], stdin=script, capture_output=True, text=True)
        return end.stdout.splitlines()

    def kill(self, process):
        process.kill()
        process.wait()

    def stop(self):
        self.ask("stop")
        wait_for(self.unit, 10)


@dataclasses.dataclass
class Trouble:
    """What has to be seen of a trouble that was made."""

    leg: int
    # What `why` says from then on; when it was made, and when it can be seen first (None: it couldn't).
    says: str
    made: float
    seen: float
    # What the replay is asked for, and what a line of it says then.
    options: list
    named: object


def says(pattern):
    """A line of a replay that this fits."""
    return lambda line: re.search(pattern, line)


def other_source(conference):
    """The publisher starts anew under another SSRC."""
    made = time.monotonic()
    conference.kill(conference.publisher)
    conference.publish(source=OTHER_SOURCE)
    came = waits(lambda: f"under ssrc {OTHER_SOURCE}" in conference.ask("present"), time.monotonic() + GIVE_UP)
    reason = f"from the publisher's address packets come under SSRC {OTHER_SOURCE}, the last "
    return Trouble(0, reason, made, came, ["--only-leg", "0"], says("^refused room 2$"))


def other_port(conference):
    """The publisher starts anew and sends from another port."""
    made = time.monotonic()
    conference.kill(conference.publisher)
    conference.publish(port=OTHER_PORT)
    came = waits(lambda: f":{OTHER_PORT} " in conference.ask("strangers"), time.monotonic() + GIVE_UP)
    reason = f"under the publisher's SSRC packets come from {HOST}:{OTHER_PORT}, the last "
    return Trouble(0, reason, made, came, ["--events", "--only-leg", "0"], says(rf"^# stranger {HOST}:{OTHER_PORT} ssrc {SOURCE} at \d+$"))


def leg_off(conference):
    """Somebody switches the leg off."""
    made = time.monotonic()
    conference.ask("select", "0", "off")
    return Trouble(0, "off$", made, made, ["--only-leg", "0"], says(r"^select \d+ 0 off$"))


def viewer_dead(conference):
    """GStreamer is killed: what it said last is shown for three intervals of its reports, and no more."""
    heard = [conference.next_report() for _ in range(2)]
    made = time.monotonic()
    conference.kill(conference.gstreamer)
    reason = r"sent; the subscriber doesn't report, the last [1-9]\d{4} ms ago"
    shown_for = max(SHOWN, 3 * (heard[1] - heard[0]))
    return Trouble(1, reason, made, heard[1] + shown_for, ["--events", "--only-endpoint", "2"], says(r"^# made in its name, heard at \d+$"))


def lossy(conference):
    """The publisher's Wi-Fi loses a share of its packets."""
    made = time.monotonic()
    conference.wifi.is_bad = True
    reason = r"sent; packets are lost on the way from the publisher; [1-9]\d* packets a second"
    return Trouble(1, reason, made, conference.lossy_report(), ["--only-endpoint", "0"], has_loss)


def packets_of(datagram):
    """The RTCP packets of a datagram (RFC 3550, section 6.1)."""
    while len(datagram) >= 4 and 192 <= datagram[1] <= 223:
        length = 4 * (int.from_bytes(datagram[2:4], "big") + 1)
        yield datagram[:length]
        datagram = datagram[length:]


def datagram_in(line):
    """The datagram that a line of a replay ends with."""
    digits = line.rpartition(" ")[2]
    return bytes.fromhex(digits) if re.fullmatch("([0-9a-f]{2})+", digits) else b""


def has_loss(line):
    """Whether a report of the unit says to the publisher that it loses a share near LOSS (RFC 3550, section 6.4.2)."""
    return line.startswith("send 0 ") and any(it[1] == 201 and it[0] & 31 and 3 <= it[12] <= 40 for it in packets_of(datagram_in(line)))


TROUBLES = {
    "other-ssrc": ("the publisher under another SSRC", other_source),
    "other-port": ("the publisher from another port", other_port),
    "off": ("the leg off", leg_off),
    "dead": ("the viewer killed", viewer_dead),
    "loss": ("the publisher on Wi-Fi, 5 % lost", lossy),
}


def meet(name):
    """Makes a trouble, prints its line, and returns how much of it isn't as it has to be."""
    title, make = TROUBLES[name]
    with Conference() as conference:
        conference.begin()
        conference.watch()
        conference.wifi = WiFi() if name == "loss" else None
        conference.publish(*((BEHIND_RELAY, OTHER_PORT) if conference.wifi else ()))
        conference.settled()
        trouble = make(conference)
        until = max(trouble.seen or 0, time.monotonic()) + GIVE_UP
        said = waits(lambda: re.match(trouble.says, conference.why(trouble.leg)), until)
        words = conference.why(trouble.leg).splitlines()[0]
        shown = said and waits(lambda: re.match(trouble.says, conference.first_of_page(trouble.leg)), said + GIVE_UP)
        time.sleep(1)
        conference.stop()
        named = [it for it in conference.replay(*trouble.options) if trouble.named(it)]
        if conference.wifi:
            conference.wifi.is_over = True
            conference.wifi.join()
    late, page_late = (between(trouble.seen, it) for it in (said, shown))
    faults = [late is None or late > WITHIN, page_late is None or page_late > WITHIN + PAGE_WITHIN, not named]
    options = " ".join(trouble.options)
    say(f"| {title} | {seconds(between(trouble.made, said))} | {seconds(late)} | {words} | {seconds(page_late)} | `{options}`: {len(named)} lines, {short(named)} "
        f"| {'NOT SO' if any(faults) else 'ok'} |")
    return sum(faults)


def between(one, other):
    return other - one if one and other else None


def seconds(it):
    return "never" if it is None else f"{max(it, 0):.1f}"


def short(lines):
    return f"as `{lines[-1][:60]}`" if lines else "none"


def begins_at(clock, lines):
    """Whether what is replayed begins at this time by the wall clock, give and take a second: that is when the unit was started."""
    first = next((it.partition(" ")[0] for it in lines if not it.startswith("#")), "")
    if not re.fullmatch(r"\d{4}-\d\d-\d\dT\d\d:\d\d:\d\d\.\d{3}Z", first):
        return False
    return abs(datetime.datetime.fromisoformat(first.replace("Z", "+00:00")).timestamp() - clock) < 1


def anew():
    """Starts the unit anew under viewers, again and again; prints the line, and returns how much isn't as it has to be."""
    darks, rights, named = [], [], 0
    with Conference() as conference:
        conference.begin()
        conference.watch()
        conference.publish()
        conference.settled()
        for number in range(TIMES):
            since = time.monotonic()
            conference.unit.send_signal(signal.SIGTERM if number % 2 else signal.SIGKILL)
            conference.unit.wait()
            conference.begin()
            began, clock = time.monotonic(), time.time()
            right = waits(lambda: re.match(FLOWS, conference.why(0)), began + GIVE_UP)
            rights.append(right - began if right else GIVE_UP)
            time.sleep(3)
            darks.append(conference.viewer.dark(since))
            named += begins_at(clock, conference.replay("--events", "--utc"))
        conference.stop()
    faults = [max(darks) > WITHIN, max(rights) > WITHIN, named < TIMES]
    say(f"| the unit anew, {TIMES} times | | {seconds(max(rights))} at worst | FFmpeg dark for {sorted(darks)[TIMES // 2]:.2f} s in the middle, "
        f"{max(darks):.2f} s at worst | | `--events --utc`: {named} of {TIMES} begin then | {'NOT SO' if any(faults) else 'ok'} |")
    return sum(faults)


def main():
    names = WORDS[1:] or [*TROUBLES, "anew"]
    say("| Trouble | `why` after it was made | after it could be seen | It says | The page | The replay | |\n|---|---|---|---|---|---|---|")
    return 1 if sum(anew() if it == "anew" else meet(it) for it in names) else 0


if __name__ == "__main__":
    if any(it not in (*TROUBLES, "anew") for it in WORDS[1:]):
        sys.exit(__doc__)
    sys.exit(main())
