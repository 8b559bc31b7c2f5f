#!/usr/bin/env python3
"""Tries `contrib/pcap2script` on captures that are written here byte by byte: pcap of both byte orders, with micro- and nanoseconds, and
pcapng; Ethernet with and without a VLAN tag, loopback, raw IP and Linux's "any"; IPv4 and IPv6.

    pcap.py [PROGRAM]

Each line says what was tried, and `ok` or what came instead; the status is 0 if all is ok. With PROGRAM (the built program, or ./sfu) the
script is played, too.
"""
import os
import socket
import struct
import subprocess
import sys
import tempfile

HERE = os.path.dirname(os.path.abspath(__file__))
TOOL = os.path.join(HERE, "..", "..", "contrib", "pcap2script")

SETTINGS = """workers = 1
ring = 8
history = 128
timeout_ms = 100
report_ms = 60000
tick_ms = 10
pli_gap_ms = 0
unit_ssrc = 9
cname = "sfu"
listen = "%(any)s:5004"   # where the unit is
listen_rtcp = "%(any)s:5005"
new_starts = true
strict_ssrc = false
[[endpoint]]
ssrc = 16
address = "%(one)s:6000"
rtcp_address = "%(one)s:6001"
[[endpoint]]
ssrc = 17
address = "%(one)s:6000"
rtcp_address = "%(one)s:6001"
[[endpoint]]
ssrc = 18
address = "%(two)s:6000"
receive_only = true
[[leg]]
subscriber = 2
publisher = 0
out_ssrc = 257
"""

V4 = {"any": "0.0.0.0", "one": "192.0.2.7", "two": "192.0.2.8", "unit": "192.0.2.1"}
V6 = {"any": "[::]", "one": "[2001:db8::7]", "two": "[2001:db8::8]", "unit": "[2001:db8::1]"}


def rtp(seq, ssrc, timestamp=0):
    return bytes([0x80, 96]) + seq.to_bytes(2, "big") + timestamp.to_bytes(4, "big") + ssrc.to_bytes(4, "big") + b"\xaa"


RR = bytes.fromhex("80c9000100000010")
# a PLI for leg 257 under a source that is made up
PLI = bytes.fromhex("81ce0002000000ff00000101")

# (milliseconds, from whom, port there, port of the unit, datagram)
SENT = [
    (0, "one", 6000, 5004, rtp(65535, 16)),
    (3, "one", 6001, 5005, RR + bytes.fromhex("80c9000100000011")),  # a compound of both
    (12, "two", 6000, 5004, PLI),
    (25, "one", 6000, 5004, rtp(30000, 16)),  # far, until the next one follows it
    (25, "one", 6000, 5004, rtp(30001, 16)),  # it began anew
    (25, "one", 6000, 5004, rtp(29999, 16)),  # late
    (25, "one", 6000, 5004, rtp(29990, 16, 2**31)),  # no more behind, but with another timestamp: far
    (25, "one", 6000, 5004, rtp(29991, 16, 2**31)),  # it began anew
    (26, "two", 6001, 5004, rtp(1, 18)),  # a stranger
    (27, "one", 6000, 5006, rtp(2, 16)),  # to somebody else
    (33, "one", 6000, 5004, rtp(100, 17, 0)),
    (38, "one", 6000, 5004, rtp(101, 17, 450)),
    (58, "one", 6000, 5004, rtp(5000, 17, 2250)),  # its timestamp went on with the clock: no beginning
    (58, "one", 6001, 5005, bytes.fromhex("81cb000100000011")),
    (59, "one", 6000, 5004, rtp(9, 17)),  # the first one after its BYE
    (60, "unit", 5004, 6000, rtp(3, 16)),  # from the unit
]

WANTED = f"""hear 0 2 80c9000100000012
tick 0
hear 0 0 {rtp(65535, 16).hex()}
hear 3 0 80c9000100000010
hear 3 1 80c9000100000011
tick 10
hear 12 2 81ce00020000001200000101
tick 20
hear 25 0 81cb000100000010
hear 25 0 {rtp(30000, 16).hex()}
hear 25 0 {rtp(30001, 16).hex()}
hear 25 0 {rtp(29999, 16).hex()}
hear 25 0 81cb000100000010
hear 25 0 {rtp(29990, 16, 2**31).hex()}
hear 25 0 {rtp(29991, 16, 2**31).hex()}
tick 30
hear 33 1 {rtp(100, 17, 0).hex()}
hear 38 1 {rtp(101, 17, 450).hex()}
tick 40
hear 50 2 80c9000100000012
tick 50
hear 58 1 {rtp(5000, 17, 2250).hex()}
hear 58 1 81cb000100000011
hear 59 1 {rtp(9, 17).hex()}
"""
WANTED = "".join(f"{line}\nfollow\n" for line in WANTED.splitlines())


def ip(names, source, source_port, port, datagram, is_v6):
    udp = struct.pack("!HHHH", source_port, port, 8 + len(datagram), 0) + datagram
    hosts = [names[source].strip("[]"), names["unit"].strip("[]")]
    if is_v6:
        a, b = (socket.inet_pton(socket.AF_INET6, host) for host in hosts)
        # a header of options stands before UDP
        return struct.pack("!IHBB", 6 << 28, len(udp) + 8, 0, 64) + a + b + bytes([17, 0, 1, 4, 0, 0, 0, 0]) + udp
    a, b = (socket.inet_pton(socket.AF_INET, host) for host in hosts)
    return struct.pack("!BBHHHBBH", 0x46, 0, 24 + len(udp), 0, 0, 64, 17, 0) + a + b + bytes([1, 1, 1, 0]) + udp


def frame(link, packet, is_v6, tagged):
    kind = b"\x86\xdd" if is_v6 else b"\x08\x00"
    if link == 1:
        return bytes(12) + (b"\x81\x00\x00\x05" if tagged else b"") + kind + packet
    if link == 0:
        return struct.pack("<I", 30 if is_v6 else 2) + packet
    if link == 113:
        return bytes(14) + kind + packet
    if link == 276:
        return kind + bytes(18) + packet
    return packet


def pcap(frames, link, order, nano):
    out = struct.pack(order + "IHHiIII", 0xA1B23C4D if nano else 0xA1B2C3D4, 2, 4, 0, 0, 65535, link)
    for ms, data in frames:
        seconds, rest = divmod(ms + 1_790_000_000_000, 1000)
        out += struct.pack(order + "IIII", seconds, rest * (10**6 if nano else 1000) + 7, len(data), len(data)) + data
    return out


def pcapng(frames, link, order):
    def block(kind, body):
        body += bytes(-len(body) % 4)
        return struct.pack(order + "II", kind, 12 + len(body)) + body + struct.pack(order + "I", 12 + len(body))

    out = block(0x0A0D0D0A, struct.pack(order + "IHHq", 0x1A2B3C4D, 1, 0, -1))
    out += block(1, struct.pack(order + "HHI", link, 0, 0) + struct.pack(order + "HHB3x", 9, 1, 9) + bytes(4))
    out += block(5, bytes(12))  # statistics, which are passed over
    for ms, data in frames:
        at = (ms + 1_790_000_000_000) * 10**6 + 7
        out += block(6, struct.pack(order + "IIIII", 0, at >> 32, at & 0xFFFFFFFF, len(data), len(data)) + data)
    return out


def main():
    faults = 0

    def say(what, is_so, came):
        nonlocal faults
        print(f"{what}: {'ok' if is_so else came}")
        faults += not is_so

    with tempfile.TemporaryDirectory() as folder:
        for is_v6, names in ((False, V4), (True, V6)):
            file = os.path.join(folder, f"room{int(is_v6)}.toml")
            open(file, "w").write(SETTINGS % names)
            version = "IPv6" if is_v6 else "IPv4"
            for link, tagged, name in ((1, False, "Ethernet"), (1, True, "VLAN"), (0, False, "loopback"), (101, False, "raw"),
                                       (113, False, "any"), (276, False, "any, version 2")):
                frames = [(ms, frame(link, ip(names, who, at, port, data, is_v6), is_v6, tagged)) for ms, who, at, port, data in SENT]
                frames.insert(3, (13, bytes(12) + b"\x08\x06" + bytes(28)) if link == 1 else frames[-1])
                for form, text in (("pcap", pcap(frames, link, "<", False)), ("pcap, big-endian", pcap(frames, link, ">", False)),
                                   ("pcap, nanoseconds", pcap(frames, link, "<", True)), ("pcapng", pcapng(frames, link, "<")),
                                   ("pcapng, big-endian", pcapng(frames, link, ">"))):
                    done = subprocess.run([TOOL, file], input=text, capture_output=True)
                    is_so = done.returncode == 0 and done.stdout.decode() == WANTED and b"1 strangers, 0 far, 0 frag" in done.stderr
                    say(f"{version}, {name}, {form}", is_so, (done.stdout + done.stderr).decode())
            # half a packet at the end
            done = subprocess.run([TOOL, file], input=text[:-9], capture_output=True)
            say(f"{version}, cut off at the end", done.returncode == 0 and done.stdout.decode() == WANTED, done.stdout + done.stderr)
        if len(sys.argv) > 1:
            done = subprocess.run([sys.argv[1], "replay", file], input=WANTED, capture_output=True, text=True)
            # the second packet, under the leg's source and the number after the first one's
            again = rtp(30001, 257).replace((30001).to_bytes(2, "big"), b"\x00\x01", 1).hex()
            say("it is played", done.returncode == 0 and f"send 2 {again}\n" in done.stdout, done.stdout + done.stderr)
    sys.exit(1 if faults else 0)


main()
