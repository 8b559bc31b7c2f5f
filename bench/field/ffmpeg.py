#!/usr/bin/env python3
"""FFmpeg publishes H.264 under one SSRC, is killed and started anew at once, again and again, while GStreamer watches: a picture of the
new run has to be decoded within two seconds of each start.

    bench/field/ffmpeg.py SFU [TIMES]

SFU is the built program; FFmpeg is started so many times anew (20), with one worker and then with two. It makes a key frame each second,
since it hears no PLI. Each run has another size of picture than the one before, by which the decoded ones are told apart. Prints how
long it took in the middle and at worst, from when FFmpeg was started; ends with status 1 if a picture didn't come within two seconds.
With `--without` the file has no `new_starts`, to see what happens then. Wanted: ffmpeg with libx264, gst-launch-1.0 with the plugins
of bench/interop. By hand: nothing of it is proved.
"""

import os
import re
import socket
import statistics
import subprocess
import sys
import tempfile
import threading
import time

HOST, SOURCE, OUT = "127.0.0.1", 16, 257
RATE, SIZES, WITHIN = 25, [(320, 240), (352, 288)], 2.0
# How long each run publishes at least; one that brings no picture is given up after so long.
RUN, GIVE_UP = 1.5, 10.0
SETTINGS = """workers = {workers}
ring = 512
history = 128
timeout_ms = 15000
report_ms = 1000
pli_gap_ms = 500
early_pictures = true
strict_ssrc = false
{rule}unit_ssrc = 9
cname = "sfu"
listen = "127.0.0.1:{unit}"
listen_rtcp = "127.0.0.1:{unit_rtcp}"

[[endpoint]]
ssrc = 16
address = "127.0.0.1:{publisher}"
rtcp_address = "127.0.0.1:{publisher_rtcp}"

[[endpoint]]
ssrc = 17
address = "127.0.0.1:{receiver}"
rtcp_address = "127.0.0.1:{receiver_rtcp}"
receive_only = true

[[leg]]
subscriber = 1
publisher = 0
out_ssrc = 257
"""


def two_ports():
    """A free even port of the loopback interface, the next one being free, too (RFC 3550, section 11)."""
    while True:
        with socket.socket(socket.AF_INET, socket.SOCK_DGRAM) as media, socket.socket(socket.AF_INET, socket.SOCK_DGRAM) as control:
            media.bind((HOST, 0))
            port = media.getsockname()[1]
            if port % 2:
                continue
            try:
                control.bind((HOST, port + 1))
            except OSError:
                continue
            return port


class Watcher:
    """GStreamer, which decodes what comes to a port, and when it decoded a picture of each size last."""

    def __init__(self, port, reports):
        caps = "application/x-rtp,media=video,clock-rate=90000,encoding-name=H264,payload=96"
        pipeline = (
            f"rtpbin name=b latency=200 udpsrc port={port} caps={caps} ! b.recv_rtp_sink_0 "
            "b. ! rtph264depay ! h264parse ! avdec_h264 ! video/x-raw,format=I420 ! fakesink silent=false sync=false "
            f"b.send_rtcp_src_0 ! udpsink host={HOST} port={reports} bind-port={port + 1} sync=false async=false "
            f"udpsrc port={port + 1} reuse=true ! b.recv_rtcp_sink_0"
        )
        self.seen, self.frames, self.words = {}, 0, []
        self.process = subprocess.Popen(["gst-launch-1.0", "-v", *pipeline.split()], stdout=subprocess.PIPE, stderr=subprocess.STDOUT, text=True)
        threading.Thread(target=self.look, daemon=True).start()

    def look(self):
        for line in self.process.stdout:
            if "last-message = " not in line:
                self.words.append(line)
            elif found := re.search(r"chain .*?\((\d+) bytes", line):
                self.frames += 1
                self.seen[int(found.group(1))] = time.monotonic()


def started(unit, port, size):
    """FFmpeg, that publishes pictures of this size from this port."""
    width, height = size
    words = ["ffmpeg", "-loglevel", "error", "-re", "-f", "lavfi", "-i", f"testsrc=size={width}x{height}:rate={RATE}"]
    words += ["-c:v", "libx264", "-preset", "ultrafast", "-tune", "zerolatency", "-g", str(RATE), "-pix_fmt", "yuv420p"]
    words += ["-payload_type", "96", "-ssrc", str(SOURCE), "-f", "rtp"]
    return subprocess.Popen([*words, f"rtp://{HOST}:{unit}?localrtpport={port}&localrtcpport={port + 1}"], stdin=subprocess.DEVNULL, stdout=subprocess.DEVNULL)


def run_once(watcher, unit, port, size):
    """Starts FFmpeg, waits for a picture of it, and kills it. Returns after how many seconds that came; None if it didn't."""
    octets = size[0] * size[1] * 3 // 2
    began = time.monotonic()
    publisher = started(unit, port, size)
    try:
        came = None
        while came is None and time.monotonic() < began + GIVE_UP:
            time.sleep(0.005)
            last = watcher.seen.get(octets, 0)
            came = last - began if last > began else None
        time.sleep(max(0, began + RUN - time.monotonic()))
        return came
    finally:
        publisher.kill()
        publisher.wait()


def play(program, times, rule, workers, folder):
    unit, publisher, receiver = (two_ports() for _ in range(3))
    file = os.path.join(folder, "room.toml")
    with open(file, "w") as out:
        out.write(SETTINGS.format(
            workers=workers, rule=rule, unit=unit, unit_rtcp=unit + 1, publisher=publisher, publisher_rtcp=publisher + 1,
            receiver=receiver, receiver_rtcp=receiver + 1,
        ))
    watcher = Watcher(receiver, unit + 1)
    served = subprocess.Popen([program, "serve", file, "--control", f"{folder}/control"], stdout=subprocess.DEVNULL, stderr=subprocess.PIPE)
    served.stderr.readline()
    time.sleep(2)
    took, late = [], 0
    try:
        for number in range(times + 1):
            came = run_once(watcher, unit, publisher, SIZES[number % 2])
            if number > 0:
                took.append(GIVE_UP if came is None else came)
                late += took[-1] > WITHIN
        legs = subprocess.run([program, "ask", f"{folder}/control", "legs"], capture_output=True, text=True).stdout.splitlines()
    finally:
        for process in (served, watcher.process):
            process.kill()
            process.wait()
    print(
        f"workers {workers}: {times} starts, a picture after {statistics.median(took):.2f} s in the middle, {max(took):.2f} s at worst; "
        f"{late} later than {WITHIN:g} s; {watcher.frames} pictures decoded; {legs[0] if legs else 'no leg'}",
        flush=True,
    )
    if not watcher.frames:
        print("".join(watcher.words[-5:]), end="")
    return late


if __name__ == "__main__":
    asked = [it for it in sys.argv[1:] if it != "--without"]
    if len(asked) not in (1, 2):
        sys.exit(__doc__)
    how_often = int(asked[1]) if len(asked) == 2 else 20
    kept = "" if "--without" in sys.argv else "new_starts = true\n"
    all_late = 0
    for count in (1, 2):
        with tempfile.TemporaryDirectory() as room:
            all_late += play(os.path.abspath(asked[0]), how_often, kept, count, room)
    sys.exit(1 if all_late else 0)
