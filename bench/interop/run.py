#!/usr/bin/env python3
"""Tries `sfu serve` with FFmpeg, GStreamer and VLC on the loopback interface, and prints a table.

    run.py PROGRAM [ROW..]

PROGRAM is the built program. Each row is one run: who publishes, who receives, frames sent, frames decoded by each receiver, and the
unit's counts. Rows whose programs aren't installed are left out. With tshark, all that the unit sent is looked through. Wanted:
Debian's ffmpeg, gstreamer1.0-tools, gstreamer1.0-plugins-base, -good, -bad, -ugly, gstreamer1.0-libav, tshark, vlc-bin, vlc-plugin-base.
"""
import os
import random
import re
import shutil
import signal
import socket
import subprocess
import sys
import tempfile
import threading
import time

HOST, UNIT = "127.0.0.1", 45004
FRAMES, RATE = 60, 15
SOURCE, OUT = 16, 257
PROGRAM = os.path.abspath(sys.argv[1])

TOP = """workers = {workers}
ring = 512
history = 128
timeout_ms = 15000
report_ms = 500
pli_gap_ms = 300
unit_ssrc = 9
cname = "sfu@localhost"
strict_ssrc = false
listen = "127.0.0.1:45004"
"""
CODECS = {
    "H.264": ("96 H264/90000", "96 packetization-mode=1"),
    "VP8": ("96 VP8/90000", None),
    "Opus": ("111 opus/48000/2", None),
    "MPEG-TS": ("33 MP2T/90000", None),
}
FFMPEG_IN = ["-re", "-f", "lavfi", "-i", f"testsrc=size=320x240:rate={RATE}", "-frames:v", str(FRAMES)]
FFMPEG_CODEC = {
    "H.264": ["-c:v", "libx264", "-preset", "ultrafast", "-tune", "zerolatency", "-g", "15", "-pix_fmt", "yuv420p", "-payload_type", "96"],
    "VP8": ["-c:v", "libvpx", "-deadline", "realtime", "-cpu-used", "8", "-g", "15", "-b:v", "300k", "-payload_type", "96"],
}
GST_ENCODE = {
    "H.264": "x264enc tune=zerolatency speed-preset=ultrafast key-int-max={keys} ! rtph264pay config-interval=-1 pt=96",
    "VP8": "vp8enc deadline=1 cpu-used=8 keyframe-max-dist={keys} ! rtpvp8pay pt=96",
}
GST_DECODE = {"H.264": "rtph264depay ! h264parse ! avdec_h264", "VP8": "rtpvp8depay ! vp8dec"}


def say(words):
    print(words, flush=True)


def settings(room, publisher, subscribers, codec, two_ports=False, workers=1):
    """Writes a room of one publisher and its subscribers, and returns the file's name."""
    rtpmap, fmtp = CODECS[codec]
    text = TOP.format(workers=workers)
    if two_ports:
        text += 'listen_rtcp = "127.0.0.1:45005"\n'
    text += f"[[endpoint]]\nssrc = {SOURCE}\n{publisher}\nrtpmap = [\"{rtpmap}\"]\n"
    if fmtp:
        text += f'fmtp = ["{fmtp}"]\n'
    for number, subscriber in enumerate(subscribers):
        text += f"[[endpoint]]\nssrc = {SOURCE + 1 + number}\n{subscriber}\n"
    for number in range(len(subscribers)):
        text += f"[[leg]]\nsubscriber = {number + 1}\npublisher = 0\nout_ssrc = {OUT + number}\n"
    name = f"{room}/room.toml"
    with open(name, "w") as file:
        file.write(text)
    return name


class Run:
    """The programs of one row, in a folder of their own; all are ended at its end."""

    def __init__(self):
        self.room, self.running = tempfile.mkdtemp(prefix="interop"), []

    def __enter__(self):
        return self

    def __exit__(self, *fault):
        for process, log in reversed(self.running):
            if process.poll() is None:
                process.send_signal(signal.SIGINT)
                try:
                    process.wait(5)
                except subprocess.TimeoutExpired:
                    process.kill()
                    process.wait()
            log.close()
        shutil.rmtree(self.room, ignore_errors=True)

    def start(self, name, words):
        log = open(f"{self.room}/{name}.log", "wb")
        process = subprocess.Popen(words, stdout=log, stderr=subprocess.STDOUT, stdin=subprocess.DEVNULL, cwd=self.room)
        self.running.append((process, log))
        return process

    def log(self, name):
        with open(f"{self.room}/{name}.log", "rb") as file:
            return file.read().decode(errors="replace")

    def serve(self, file, *more):
        self.start("unit", [PROGRAM, "serve", file, "--status", "1", *more])
        for _ in range(200):
            if "serving" in self.log("unit"):
                return
            time.sleep(0.1)
        raise SystemExit("the unit doesn't serve: " + self.log("unit"))

    def counts(self):
        lines = re.findall(r"present .*", self.log("unit"))
        return lines[-1] if lines else "no counts"

    def sdp(self, file, endpoint, name="stream.sdp", plain=False):
        """What `sfu sdp` prints, in a file; `plain` for who opens no profile with feedback."""
        text = subprocess.run([PROGRAM, "sdp", file, str(endpoint)], capture_output=True, check=True).stdout
        text = text.replace(b"RTP/AVPF", b"RTP/AVP") if plain else text
        with open(f"{self.room}/{name}", "wb") as out:
            out.write(text)
        return f"{self.room}/{name}"

    def sniff(self):
        if shutil.which("tshark"):
            self.start("sniff", ["tshark", "-q", "-i", "lo", "-w", f"{self.room}/unit.pcap", "-f", f"udp and (src port {UNIT} or src port {UNIT + 1})"])
            time.sleep(2)

    def malformed(self):
        """How many of the unit's packets tshark finds malformed, of how many."""
        name = f"{self.room}/unit.pcap"
        if not os.path.exists(name):
            return "not looked at"
        def count(what):
            words = ["tshark", "-r", name, "-d", "udp.port==45004,rtp", "-d", "udp.port==45005,rtcp", "-o", "rtp.heuristic_rtp:TRUE", "-Y", what]
            return len(subprocess.run(words, capture_output=True).stdout.splitlines())
        return f"{count('_ws.malformed')} of {count('udp')}"


def ffmpeg_send(run, codec, query="localrtpport=46000&localrtcpport=46001"):
    words = ["ffmpeg", "-loglevel", "error", *FFMPEG_IN, *FFMPEG_CODEC[codec]]
    return run.start("publisher", words + ["-ssrc", str(SOURCE), "-f", "rtp", f"rtp://{HOST}:{UNIT}?{query}"])


def ffmpeg_receive(run, sdp, name="receiver"):
    words = ["ffmpeg", "-loglevel", "info", "-protocol_whitelist", "file,rtp,udp", "-analyzeduration", "1M", "-i", sdp]
    return run.start(name, words + ["-fps_mode", "passthrough", "-f", "null", "-"])


def ffmpeg_frames(log):
    frames = re.findall(r"frame= *(\d+)", log)
    return int(frames[-1]) if frames else 0


def gst(run, name, pipeline):
    return run.start(name, ["gst-launch-1.0", "-e", "-v", *pipeline.split()])


def gst_frames(log):
    return len(re.findall(r"last-message = .?chain ", log))


def report_port(port, reports):
    """From where reports leave: the port where they come, since the unit knows that one; to a relay, from any. Of two sockets of one port the
    system gives what comes to either, by a hash that changes with each start of the machine."""
    return f" bind-port={port}" if reports == UNIT + 1 else ""


def gst_send(run, codec, frames=FRAMES, rate=RATE, keys=15, reports=UNIT + 1):
    """A publisher with rtpbin: RTP from 46000, reports from and to 46001; a key frame each so many frames."""
    encode = GST_ENCODE[codec].format(keys=keys)
    bound = report_port(46001, reports)
    gst(run, "publisher", f"rtpbin name=b rtp-profile=avpf videotestsrc is-live=true num-buffers={frames} ! video/x-raw,width=320,height=240,framerate={rate}/1 ! {encode} ssrc={SOURCE} ! b.send_rtp_sink_0 b.send_rtp_src_0 ! udpsink host={HOST} port={UNIT} bind-port=46000 sync=false b.send_rtcp_src_0 ! udpsink host={HOST} port={reports}{bound} sync=false async=false udpsrc port=46001 reuse=true ! b.recv_rtcp_sink_0")


def gst_receive(run, codec, port, name="receiver", feedback="", reports=UNIT + 1):
    """A receiver with rtpbin: RTP at the port, reports from and to the next."""
    encoding = {"H.264": "H264", "VP8": "VP8"}[codec]
    caps = f"application/x-rtp,media=video,clock-rate=90000,encoding-name={encoding},payload=96{feedback}"
    bound = report_port(port + 1, reports)
    gst(run, name, f"rtpbin name=b rtp-profile=avpf do-retransmission=true latency=400 udpsrc port={port} caps={caps} ! b.recv_rtp_sink_0 b. ! {GST_DECODE[codec]} ! fakesink silent=false sync=false b.send_rtcp_src_0 ! udpsink host={HOST} port={reports}{bound} sync=false async=false udpsrc port={port + 1} reuse=true ! b.recv_rtcp_sink_0")


class Lossy(threading.Thread):
    """Stands between the unit and a receiver: loses 2 % of the RTP, and hands RTCP on both ways."""

    def __init__(self, port, to):
        super().__init__(daemon=True)
        self.sockets = []
        for number in (port, port + 1):
            it = socket.socket(socket.AF_INET, socket.SOCK_DGRAM)
            it.bind((HOST, number))
            it.settimeout(0.2)
            self.sockets.append(it)
        self.to, self.lost, self.passed, self.nacks, self.resent, self.over = to, 0, 0, 0, 0, False
        self.seen, self.chance = set(), random.Random(1)

    def run(self):
        back = threading.Thread(target=self.reports, daemon=True)
        back.start()
        while not self.over:
            try:
                datagram, _ = self.sockets[0].recvfrom(65535)
            except socket.timeout:
                continue
            number = datagram[2:4]
            self.resent += number in self.seen
            self.seen.add(number)
            if self.chance.random() < 0.02:
                self.lost += 1
            else:
                self.passed += 1
                self.sockets[0].sendto(datagram, (HOST, self.to))

    def reports(self):
        while not self.over:
            try:
                datagram, sender = self.sockets[1].recvfrom(65535)
            except socket.timeout:
                continue
            if sender[1] == UNIT + 1:
                self.sockets[1].sendto(datagram, (HOST, self.to + 1))
            else:
                self.nacks += nacks_in(datagram)
                self.sockets[1].sendto(datagram, (HOST, UNIT + 1))


def nacks_in(datagram):
    count, place = 0, 0
    while place + 4 <= len(datagram):
        count += datagram[place + 1] == 205 and datagram[place] & 31 == 1
        place += 4 * (int.from_bytes(datagram[place + 2:place + 4], "big") + 1)
    return count


def row(name, sent, decoded, run, more=""):
    say(f"| {name} | {sent} | {decoded} | {run.counts()} | {run.malformed()} | {more} |")


def wait_for(process, seconds=60):
    try:
        process.wait(seconds)
    except subprocess.TimeoutExpired:
        process.kill()


TWO = 'address = "127.0.0.1:{0}"\nrtcp_address = "127.0.0.1:{1}"'
ONLY = TWO + "\nreceive_only = true"
PUBLISHER = TWO.format(46000, 46001)


def ffmpeg_to_ffmpeg(codec, learn=False):
    with Run() as run:
        publisher = 'address = "learn"\nlearn_from = "127.0.0.0/8"' if learn else PUBLISHER
        file = settings(run.room, publisher, [ONLY.format(46002, 46003)], codec, two_ports=True)
        run.sniff()
        run.serve(file)
        ffmpeg_receive(run, run.sdp(file, 1))
        time.sleep(2)
        wait_for(ffmpeg_send(run, codec))
        time.sleep(2)
        how = ", publisher learned" if learn else ""
        row(f"FFmpeg to FFmpeg, {codec}, two ports{how}", FRAMES, ffmpeg_frames(run.log("receiver")), run)


def ffmpeg_alone(codec):
    """The same without the unit, to compare."""
    with Run() as run:
        file = settings(run.room, PUBLISHER, [ONLY.format(46002, 46003)], codec, two_ports=True)
        ffmpeg_receive(run, run.sdp(file, 1))
        time.sleep(2)
        words = ["ffmpeg", "-loglevel", "error", *FFMPEG_IN, *FFMPEG_CODEC[codec]]
        wait_for(run.start("publisher", words + ["-f", "rtp", f"rtp://{HOST}:46002"]))
        time.sleep(2)
        say(f"| FFmpeg to FFmpeg, {codec}, without the unit | {FRAMES} | {ffmpeg_frames(run.log('receiver'))} | | | |")


def ffmpeg_sound():
    with Run() as run:
        file = settings(run.room, PUBLISHER, [ONLY.format(46002, 46003)], "Opus", two_ports=True)
        run.sniff()
        run.serve(file)
        sdp = run.sdp(file, 1)
        run.start("receiver", ["ffmpeg", "-loglevel", "info", "-protocol_whitelist", "file,rtp,udp", "-i", sdp, "-f", "null", "-"])
        time.sleep(2)
        words = ["ffmpeg", "-loglevel", "error", "-re", "-f", "lavfi", "-i", "sine=frequency=440:sample_rate=48000", "-t", "4", "-c:a", "libopus", "-payload_type", "111"]
        wait_for(run.start("publisher", words + ["-ssrc", str(SOURCE), "-f", "rtp", f"rtp://{HOST}:{UNIT}?localrtpport=46000&localrtcpport=46001"]))
        time.sleep(2)
        times = re.findall(r"time=(\S+)", run.log("receiver"))
        row("FFmpeg to FFmpeg, Opus, two ports", "4 s", times[-1] if times else "nothing", run)


def gst_to_gst(codec, loss=False, frames=FRAMES, rate=RATE):
    with Run() as run:
        file = settings(run.room, PUBLISHER, [ONLY.format(46012, 46013) if loss else ONLY.format(46002, 46003)], codec, two_ports=True)
        run.sniff()
        run.serve(file)
        lossy = None
        if loss:
            lossy = Lossy(46012, 46002)
            lossy.start()
        if loss:
            gst_receive(run, codec, 46002, feedback=",rtcp-fb-nack=(boolean)true", reports=46013)
        else:
            gst_receive(run, codec, 46002)
        time.sleep(2)
        gst_send(run, codec, frames, rate)
        wait_for(run.running[-1][0], frames / rate + 30)
        time.sleep(2)
        more = ""
        if lossy:
            lossy.over = True
            more = f"{lossy.lost} lost, {lossy.nacks} NACKs, {lossy.resent} resent"
        row(f"GStreamer to GStreamer, {codec}, two ports" + (", 2 % lost" if loss else ""), frames, gst_frames(run.log("receiver")), run, more)


def gst_by_sdp(codec):
    """GStreamer opens what `sfu sdp` prints, as it is."""
    with Run() as run:
        file = settings(run.room, PUBLISHER, [ONLY.format(46002, 46003)], codec, two_ports=True)
        run.sniff()
        run.serve(file)
        gst(run, "receiver", f"filesrc location={run.sdp(file, 1)} ! sdpdemux latency=400 ! {GST_DECODE[codec]} ! fakesink silent=false sync=false")
        time.sleep(2)
        gst_send(run, codec)
        wait_for(run.running[-1][0], FRAMES / RATE + 30)
        time.sleep(2)
        row(f"GStreamer to GStreamer by its session description, {codec}, two ports", FRAMES, gst_frames(run.log("receiver")), run)


def gst_sound_and_picture(one_port=False):
    """Sound and picture of one client from one port; they come to a port each, or to one."""
    with Run() as run:
        text = TOP.format(workers=1) + 'listen_rtcp = "127.0.0.1:45005"\n'
        for number, (ssrc, codec) in enumerate([(16, "VP8"), (17, "Opus")]):
            text += f'[[endpoint]]\nssrc = {ssrc}\n{PUBLISHER}\nrtpmap = ["{CODECS[codec][0]}"]\n'
        for number in range(2):
            port = 46002 if one_port else 46002 + 2 * number
            text += f"[[endpoint]]\nssrc = {18 + number}\n{ONLY.format(port, port + 1)}\n"
        for number in range(2):
            text += f"[[leg]]\nsubscriber = {2 + number}\npublisher = {number}\nout_ssrc = {OUT + number}\n"
        file = f"{run.room}/room.toml"
        with open(file, "w") as out:
            out.write(text)
        run.sniff()
        run.serve(file)
        caps = "application/x-rtp,media=audio,clock-rate=48000,encoding-name=OPUS,payload=111"
        if one_port:
            picture = "application/x-rtp,media=video,clock-rate=90000,encoding-name=VP8,payload=96"
            gst(run, "receiver", f"udpsrc port=46002 caps=application/x-rtp,clock-rate=90000 ! rtpptdemux name=d d.src_96 ! capssetter replace=true caps={picture} ! rtpjitterbuffer latency=400 ! {GST_DECODE['VP8']} ! filesink buffer-mode=unbuffered location=picture d.src_111 ! capssetter replace=true caps={caps} ! rtpjitterbuffer latency=400 ! rtpopusdepay ! opusdec ! audio/x-raw,rate=48000,channels=1 ! filesink buffer-mode=unbuffered location=sound")
        else:
            gst_receive(run, "VP8", 46002)
            gst(run, "sound", f"rtpbin name=b latency=400 udpsrc port=46004 caps={caps} ! b.recv_rtp_sink_0 b. ! rtpopusdepay ! fakesink silent=false sync=false b.send_rtcp_src_0 ! udpsink host={HOST} port={UNIT + 1} bind-port=46005 sync=false async=false")
        time.sleep(2)
        gst(run, "publisher", f"rtpbin name=b funnel name=f ! udpsink host={HOST} port={UNIT} bind-port=46000 sync=false funnel name=g ! udpsink host={HOST} port={UNIT + 1} bind-port=46001 sync=false async=false videotestsrc is-live=true num-buffers={FRAMES} ! video/x-raw,width=320,height=240,framerate={RATE}/1 ! {GST_ENCODE['VP8'].format(keys=15)} ssrc=16 ! b.send_rtp_sink_0 b.send_rtp_src_0 ! f. b.send_rtcp_src_0 ! g. audiotestsrc is-live=true num-buffers=200 samplesperbuffer=960 ! audio/x-raw,rate=48000,channels=1 ! opusenc ! rtpopuspay pt=111 ssrc=17 ! b.send_rtp_sink_1 b.send_rtp_src_1 ! f. b.send_rtcp_src_1 ! g.")
        wait_for(run.running[-1][0])
        time.sleep(2)
        if one_port:
            # (YUV 4:2:0 of 320 by 240; 20 ms of 16-bit sound)
            picture, sound = (os.path.getsize(f"{run.room}/{it}") / size for it, size in (("picture", 115200), ("sound", 1920)))
            picture, sound = f"{picture:g}", f"{sound:g}"
        else:
            picture, sound = (gst_frames(run.log(it)) for it in ("receiver", "sound"))
        to = ", to one port" if one_port else ""
        row(f"GStreamer to GStreamer, VP8 and Opus from one port{to}", f"{FRAMES}, 200 of sound", f"{picture}, {sound} of sound", run)


def ffmpeg_to_gst(codec):
    with Run() as run:
        file = settings(run.room, PUBLISHER, [ONLY.format(46002, 46003)], codec, two_ports=True)
        run.sniff()
        run.serve(file)
        gst_receive(run, codec, 46002)
        time.sleep(2)
        wait_for(ffmpeg_send(run, codec))
        time.sleep(2)
        row(f"FFmpeg to GStreamer, {codec}, two ports", FRAMES, gst_frames(run.log("receiver")), run)


def gst_to_vlc(by_sdp=False):
    """VLC as Debian has it is without live555: of a session description it takes the address alone, of the plain profile, and reads MPEG-TS
    there. The stream is a second item after the description's, which a run without a window comes to with --loop."""
    with Run() as run:
        file = settings(run.room, PUBLISHER, [ONLY.format(46002, 46003)], "MPEG-TS", two_ports=True)
        run.sniff()
        run.serve(file)
        seen = f"{run.room}/seen.ts"
        media = ["--loop", run.sdp(file, 1, plain=True)] if by_sdp else ["rtp://@127.0.0.1:46002"]
        words = ["cvlc", "-v", "--no-audio", "--vout", "dummy", *media, f"--sout=#std{{access=file,mux=ts,dst={seen}}}"]
        if os.geteuid() == 0:
            os.chmod(run.room, 0o777)
            words = ["setpriv", "--reuid=65534", "--regid=65534", "--clear-groups", "env", f"HOME={run.room}", *words]
        run.start("receiver", words)
        time.sleep(4)
        gst(run, "publisher", f"rtpbin name=b videotestsrc is-live=true num-buffers={FRAMES} ! video/x-raw,width=320,height=240,framerate={RATE}/1 ! x264enc tune=zerolatency speed-preset=ultrafast key-int-max=15 ! h264parse ! mpegtsmux alignment=7 ! rtpmp2tpay pt=33 ssrc={SOURCE} ! b.send_rtp_sink_0 b.send_rtp_src_0 ! udpsink host={HOST} port={UNIT} bind-port=46000 sync=false b.send_rtcp_src_0 ! udpsink host={HOST} port={UNIT + 1} bind-port=46001 sync=false async=false")
        wait_for(run.running[-1][0])
        time.sleep(3)
        frames = 0
        if os.path.exists(seen):
            words = ["ffprobe", "-v", "error", "-count_frames", "-select_streams", "v", "-show_entries", "stream=nb_read_frames", "-of", "csv=p=0", seen]
            out = re.findall(rb"\d+", subprocess.run(words, capture_output=True).stdout)
            frames = int(out[0]) if out else 0
        how = " by its session description" if by_sdp else ""
        row(f"GStreamer to VLC{how}, H.264 in MPEG-TS, two ports", FRAMES, frames, run)


def plis_of_three():
    """Three receivers ask for a picture at once, twice: the first of them goes up at once, and those that wait for the gap are one."""
    with Run() as run:
        file = settings(run.room, 'address = "127.0.0.1:46000"', [f'address = "127.0.0.1:{46002 + n}"' for n in range(3)], "H.264")
        run.serve(file)
        publisher = socket.socket(socket.AF_INET, socket.SOCK_DGRAM)
        publisher.bind((HOST, 46000))
        receivers = []
        for number in range(3):
            it = socket.socket(socket.AF_INET, socket.SOCK_DGRAM)
            it.bind((HOST, 46002 + number))
            receivers.append(it)
        report = lambda ssrc: bytes([0x80, 201, 0, 1]) + ssrc.to_bytes(4, "big")
        publisher.sendto(bytes([0x80, 96, 0, 1]) + bytes(4) + SOURCE.to_bytes(4, "big") + b"x", (HOST, UNIT))
        for number, it in enumerate(receivers):
            it.sendto(report(SOURCE + 1 + number), (HOST, UNIT))
        time.sleep(2)

        def ask(who):
            for number in who:
                pli = bytes([0x81, 206, 0, 2]) + (SOURCE + 1 + number).to_bytes(4, "big") + (OUT + number).to_bytes(4, "big")
                receivers[number].sendto(report(SOURCE + 1 + number) + pli, (HOST, UNIT))

        def came(seconds):
            plis, end = 0, time.monotonic() + seconds
            publisher.settimeout(0.02)
            while time.monotonic() < end:
                plis += sum(plis_in(d) for d in drain(publisher))
            return plis

        came(0.1)
        ask(range(3))
        at_once, later = came(0.15), came(1)
        row("three PLIs at once", 3, at_once, run, f"PLIs at the publisher within 150 ms; when the gap of 300 ms has passed {later} more, of the two that waited")
        ask([0])
        first = came(0.1)
        ask(range(3))
        row("one PLI, and three within its gap", f"{first} and 3", came(1), run, "PLIs at the publisher of the three")


def learned(workers):
    """A subscriber whose address is learned: one that comes later from elsewhere is a stranger, until the first says goodbye."""
    with Run() as run:
        file = settings(run.room, 'address = "127.0.0.1:46000"', ['address = "learn"'], "H.264", workers=workers)
        run.serve(file)
        here = [socket.socket(socket.AF_INET, socket.SOCK_DGRAM) for _ in range(3)]
        for number, it in enumerate(here):
            it.bind((HOST, 46000 + 2 * number))
            it.settimeout(0.4)
        publisher, first, second = here
        report = bytes([0x80, 201, 0, 1]) + (SOURCE + 1).to_bytes(4, "big")
        goodbye = bytes([0x81, 203, 0, 1]) + (SOURCE + 1).to_bytes(4, "big")
        seen = []
        for number, (it, words) in enumerate([(first, [report]), (second, [report]), (first, [goodbye]), (second, [report])]):
            for word in words:
                it.sendto(word, (HOST, UNIT))
            time.sleep(0.3)
            for it in here:
                drain(it)
            media = bytes([0x80, 96]) + number.to_bytes(2, "big") + bytes(4) + SOURCE.to_bytes(4, "big") + b"x"
            publisher.sendto(media, (HOST, UNIT))
            time.sleep(0.3)
            came = [sum(d[1] == 96 for d in drain(it)) for it in (first, second)]
            seen.append("first" if came == [1, 0] else "second" if came == [0, 1] else "nobody" if came == [0, 0] else str(came))
        time.sleep(1)
        row(f"a learned subscriber, {workers} workers", 4, ", ".join(seen), run, "wanted: first, first, nobody, second; 1 stranger")


def drain(it):
    came = []
    while True:
        try:
            came.append(it.recv(65535))
        except socket.timeout:
            return came


def plis_in(datagram):
    count, place = 0, 0
    while place + 4 <= len(datagram):
        count += datagram[place + 1] == 206 and datagram[place] & 31 == 1
        place += 4 * (int.from_bytes(datagram[place + 2:place + 4], "big") + 1)
    return count


ROWS = {
    "ffmpeg-alone": lambda: ffmpeg_alone("H.264"),
    "ffmpeg-h264": lambda: ffmpeg_to_ffmpeg("H.264"),
    "ffmpeg-learned": lambda: ffmpeg_to_ffmpeg("H.264", learn=True),
    "ffmpeg-vp8": lambda: ffmpeg_to_ffmpeg("VP8"),
    "ffmpeg-opus": ffmpeg_sound,
    "gst-h264": lambda: gst_to_gst("H.264"),
    "gst-vp8": lambda: gst_to_gst("VP8"),
    "gst-sdp-h264": lambda: gst_by_sdp("H.264"),
    "gst-sdp-vp8": lambda: gst_by_sdp("VP8"),
    "gst-loss": lambda: gst_to_gst("VP8", loss=True),
    "gst-loss-long": lambda: gst_to_gst("VP8", loss=True, frames=3000, rate=50),
    "gst-both": gst_sound_and_picture,
    "gst-both-one-port": lambda: gst_sound_and_picture(one_port=True),
    "ffmpeg-gst": lambda: ffmpeg_to_gst("H.264"),
    "gst-vlc": gst_to_vlc,
    "gst-vlc-sdp": lambda: gst_to_vlc(by_sdp=True),
    "plis": plis_of_three,
    "learned": lambda: learned(1),
    "learned-threads": lambda: learned(2),
}

if __name__ == "__main__":
    say("| Run | Sent | Decoded | The unit's counts | Malformed | |\n|---|---|---|---|---|---|")
    for name in sys.argv[2:] or ROWS:
        ROWS[name]()
