#!/usr/bin/env python3
"""Clients that choose their SSRC, on the loopback interface: FFmpeg without `-ssrc` and GStreamer without `ssrc=`, at known addresses.

    seats.py PROGRAM [TIMES]

PROGRAM is the built program. FFmpeg publishes to a GStreamer that watches, and GStreamer to an FFmpeg, all with `ssrc = "learn"`. Each publisher is ended and
begins anew TIMES times (4), under another SSRC each time: by turns after SIGINT, at which it says goodbye, and after SIGKILL, when it waits until the unit has given
its SSRC up (`timeout_ms` and a second). A line says how many seconds after the unit had learned the new SSRC the viewer showed a picture.

The status is 1 if one of these is later than WITHIN, or if nothing came. Wanted: what `run.py` wants of FFmpeg and GStreamer. By hand: nothing of it is
proved.
"""
import re
import signal
import subprocess
import sys
import time

if len(sys.argv) < 2:
    sys.exit(__doc__)

from run import GST_ENCODE, HOST, ONLY, OUT, PROGRAM, TOP, TWO, UNIT, Run, gst, gst_frames, gst_receive, say, wait_for
from troubles import Viewer, waits

TIMES = int(sys.argv[2]) if len(sys.argv) > 2 else 4
# In seconds: how soon a picture has to be there, how long the unit keeps an SSRC under which nothing comes, and when a trial is given up.
WITHIN, KEPT, GIVE_UP = 2.0, 2.0, 20.0
RATE = 25
FFMPEG, GSTREAMER, SEEN_BY_GSTREAMER, SEEN_BY_FFMPEG = 46000, 46010, 46020, 46030


class Room(Run):
    """A unit, FFmpeg and GStreamer, that publish, and one of each that watches the other's."""

    def __enter__(self):
        self.control = f"{self.room}/control"
        text = TOP.format(workers=1).replace("timeout_ms = 15000", "timeout_ms = 1000") + f'listen_rtcp = "{HOST}:{UNIT + 1}"\n'
        for port, where in ((FFMPEG, TWO), (GSTREAMER, TWO), (SEEN_BY_GSTREAMER, ONLY), (SEEN_BY_FFMPEG, ONLY)):
            text += f'[[endpoint]]\nssrc = "learn"\n{where.format(port, port + 1)}\n'
            if where == TWO:
                text += 'rtpmap = ["96 H264/90000"]\nfmtp = ["96 packetization-mode=1"]\n'
        for publisher, subscriber in ((0, 2), (1, 3)):
            text += f"[[leg]]\nsubscriber = {subscriber}\npublisher = {publisher}\nout_ssrc = {OUT + publisher}\n"
        self.file = f"{self.room}/room.toml"
        with open(self.file, "w") as file:
            file.write(text)
        self.serve(self.file, "--control", self.control)
        gst_receive(self, "H.264", SEEN_BY_GSTREAMER)
        self.viewer = Viewer(self.sdp(self.file, 3))
        return self

    def __exit__(self, *fault):
        self.viewer.process.kill()
        self.viewer.process.wait()
        super().__exit__(*fault)

    def ffmpeg(self):
        words = ["ffmpeg", "-loglevel", "error", "-re", "-f", "lavfi", "-i", f"testsrc=size=320x240:rate={RATE}"]
        words += ["-c:v", "libx264", "-preset", "ultrafast", "-tune", "zerolatency", "-g", str(RATE), "-pix_fmt", "yuv420p", "-payload_type", "96"]
        return self.start("ffmpeg", [*words, "-f", "rtp", f"rtp://{HOST}:{UNIT}?localrtpport={FFMPEG}&localrtcpport={FFMPEG + 1}"])

    def gstreamer(self):
        """With rtpbin, which reports, and hears what the unit asks for."""
        encode = GST_ENCODE["H.264"].format(keys=RATE)
        source = f"videotestsrc is-live=true ! video/x-raw,width=320,height=240,framerate={RATE}/1 ! {encode} ! b.send_rtp_sink_0"
        media = f"b.send_rtp_src_0 ! udpsink host={HOST} port={UNIT} bind-port={GSTREAMER} sync=false"
        reports = f"b.send_rtcp_src_0 ! udpsink host={HOST} port={UNIT + 1} bind-port={GSTREAMER + 1} sync=false async=false"
        return gst(self, "gstreamer", f"rtpbin name=b rtp-profile=avpf {source} {media} {reports} udpsrc port={GSTREAMER + 1} reuse=true ! b.recv_rtcp_sink_0")

    def learned(self, endpoint):
        """Under which SSRC the client of this endpoint sends, as `present` has it; None if that isn't known."""
        said = subprocess.run([PROGRAM, "ask", self.control, "present"], capture_output=True, text=True).stdout
        match = re.search(rf"^{endpoint} ssrc .* sends (\d+)", said, re.M)
        return match and match[1]

    def pictures(self, endpoint):
        """How many pictures of this publisher were shown."""
        return gst_frames(self.log("receiver")) if endpoint == 0 else len(self.viewer.pictures)

    def begin(self, endpoint, before):
        """A publisher begins: it, its SSRC, and how many seconds later that was learned, and there was a picture; None for what didn't come."""
        since, shown = time.monotonic(), self.pictures(endpoint)
        process = (self.ffmpeg, self.gstreamer)[endpoint]()
        learned = waits(lambda: self.learned(endpoint) not in (None, before), since + GIVE_UP)
        picture = learned and waits(lambda: self.pictures(endpoint) > shown, since + GIVE_UP)
        return process, self.learned(endpoint), learned and learned - since, picture and picture - since


def main():
    late = 0
    with Room() as room:
        for endpoint, name in ((0, "FFmpeg to GStreamer"), (1, "GStreamer to FFmpeg")):
            process, source, *_ = room.begin(endpoint, None)
            for number in range(TIMES):
                time.sleep(3)
                process.send_signal((signal.SIGINT, signal.SIGKILL)[number % 2])
                wait_for(process, 10)
                # (what the viewer still has of the one before is shown by then)
                time.sleep((1, KEPT + 0.5)[number % 2])
                process, source, learned, picture = room.begin(endpoint, source)
                late += picture is None or picture > WITHIN
                how = ("a goodbye", "a kill, and the silence")[number % 2]
                when = [f"after {it:.2f} s" if it else "never" for it in (learned, picture)]
                say(f"{name}, after {how}: under {source}, known {when[0]}, a picture {when[1]}")
            process.kill()
        say(room.counts())
    sys.exit(1 if late else 0)


main()
