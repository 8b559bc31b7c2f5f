#!/usr/bin/env python3
"""Builds libsfu's callers and compares what they do with the program: bench/libsfu/run.py [SCRIPTS [SEED]]

So many random scripts, 30 if nothing else is said. By hand; wants rt, gcc, g++ and python3, and takes rustc and valgrind if they are
there. Datagrams go over 127.0.0.1 alone. SFU, if set, is the program that is compared with (./sfu if not); LIBSFU a library that is
built already, and not to be built by `rt lib`.
"""
import os
import random
import re
import resource
import select
import shutil
import socket
import subprocess
import sys
import tempfile
import time
from pathlib import Path

HERE = Path(__file__).resolve().parent
sys.path.insert(0, str(HERE.parent / "tmmbr_c"))
import model  # noqa: E402

TOP = HERE.parent.parent
CRATE = TOP / "crates/sfu_c"
SFU = os.environ.get("SFU", str(TOP / "sfu")).split()
FLAGS = ["-O2", "-Wall", "-Wextra", "-Werror", "-I", str(CRATE / "include")]
SANITIZE = ["-g", "-fsanitize=address,undefined", "-fno-sanitize-recover=all"]
WRAP = ["-Wl,--wrap=malloc", "-Wl,--wrap=realloc"]
# The library asks the C library for nothing else; and the compiler's own for one division of 128 bits.
WANTED = {"malloc", "realloc", "free", "memcpy", "memmove", "memset", "memcmp", "bcmp", "__udivti3"}

ENDPOINTS = 4
SETTINGS = """workers = 1
ring = 16
history = 128
timeout_ms = 1000000
report_ms = 60000
pli_gap_ms = 500
unit_ssrc = 9
cname = "sfu"
""" + "".join(f"[[endpoint]]\nssrc = {16 + k}\n" for k in range(ENDPOINTS)) + "".join(
    f"[[leg]]\nsubscriber = {to}\npublisher = {of}\nout_ssrc = {256 + 16 * of + to}\nfirst_seq = {100 * to}\n"
    for of in range(2) for to in range(ENDPOINTS) if of != to
)


def run(*words, **how):
    return subprocess.run([str(word) for word in words], check=True, **how)


def output(*words, **how):
    return run(*words, capture_output=True, text=True, **how).stdout


# ---- what is built


def build(at):
    library = Path(os.environ["LIBSFU"]) if "LIBSFU" in os.environ else None
    if not library:
        run("rt", "lib", cwd=CRATE, stdout=subprocess.DEVNULL, stderr=subprocess.DEVNULL)
        library = CRATE / "out/libsfu_c.a"
    run(CRATE / "pack", library, at / "libsfu.a")
    wants = {line.split()[-1] for line in output("nm", "-u", at / "libsfu.a").splitlines() if " U " in line}
    gives = {line.split()[-1] for line in output("nm", "--defined-only", at / "libsfu.a").splitlines() if " T " in line}
    if wants - gives - WANTED:
        sys.exit(f"the library wants {wants - gives - WANTED}")
    c = ["-std=c99", "-pedantic"]
    run("gcc", *FLAGS, *c, "-o", at / "driver", HERE / "driver.c", at / "libsfu.a", *WRAP)
    run("gcc", *FLAGS, *c, *SANITIZE, "-o", at / "driver_asan", HERE / "driver.c", at / "libsfu.a", *WRAP)
    run("gcc", *FLAGS, *c, "-o", at / "forwarder", TOP / "examples/c/forwarder.c", at / "libsfu.a")
    run("gcc", *FLAGS, *c, *SANITIZE, "-o", at / "forwarder_asan", TOP / "examples/c/forwarder.c", at / "libsfu.a")
    threads = [*FLAGS, *c, "-pthread", HERE / "threads.c", at / "libsfu.a"]
    run("gcc", *threads, "-o", at / "threads")
    run("gcc", *threads, "-g", "-fsanitize=thread", "-o", at / "threads_tsan")
    # (the header is C++, too)
    main_of = "int main() { sfu_conference slot = SFU_CLOSED; return sfu_close(&slot) != SFU_IS_CLOSED; }"
    (at / "header.cc").write_text(f"#include <sfu.h>\n{main_of}\n")
    run("g++", *FLAGS, "-std=c++11", "-pedantic", "-o", at / "header", at / "header.cc", at / "libsfu.a")
    run(at / "header")
    if shutil.which("rustc"):
        rust = TOP / "examples/rust"
        rustc = ["rustc", "--edition", "2021", "-O", "-D", "warnings", "-L", at]
        run(*rustc, "--crate-type", "rlib", "--crate-name", "sfu", "-l", "static=sfu", "-o", at / "libsfu.rlib", rust / "src/lib.rs")
        run(*rustc, "-o", at / "replay", "--extern", f"sfu={at}/libsfu.rlib", rust / "examples/replay.rs")
    print("built: the header is C99 and C++11, and the library wants the C library's memory alone")


def compare_numbers():
    """The library's numbers are the header's."""
    renamed = {"CLOSED": "IS_CLOSED"}
    library = dict(re.findall(r"pub const ([A-Z_]+): u32 = (\d+);", (CRATE / "src/faults.rt").read_text()))
    header = dict(re.findall(r"^    SFU_([A-Z_]+) = (\d+)", (CRATE / "include/sfu.h").read_text(), re.M))
    if {renamed.get(name, name): number for name, number in library.items()} != header:
        sys.exit("the header's numbers aren't the library's")
    rust = dict(re.findall(r"pub const ([A-Z_]+): u32 = (\d+);", (TOP / "examples/rust/src/ffi.rs").read_text()))
    if any(header[name] != number for name, number in rust.items()):
        sys.exit("the Rust wrapper's numbers aren't the header's")
    print(f"numbers: the header's {len(header)} are the library's and the wrapper's")


# ---- datagrams, by RFC 3550, 4585 and 5104


def rtp(rng, publisher, seq, stamp):
    payload = rng.randbytes(rng.choice([0, 1, 20, 160, 1100]))
    return bytes([0x80, 0x60 | rng.choice([0, 0x80])]) + seq.to_bytes(2, "big") + words(stamp, 16 + publisher) + payload


def words(*numbers):
    return b"".join(number.to_bytes(4, "big") for number in numbers)


def feedback(count, kind, sender, media, rest):
    return bytes([0x80 | count, kind]) + (2 + len(rest) // 4).to_bytes(2, "big") + words(sender, media) + rest


def some_datagram(rng, sequences):
    """A datagram of an endpoint, with its number."""
    kind = rng.choice(["rtp"] * 8 + ["rr", "tmmbr", "tmmbr", "nack", "pli", "bye", "noise"])
    endpoint = rng.randrange(ENDPOINTS)
    own = 16 + endpoint
    publisher = rng.randrange(2)
    out = 256 + 16 * publisher + endpoint
    if kind == "rtp":
        sequences[publisher] = (sequences[publisher] + rng.choice([1, 1, 1, 1, 2, -1])) % 65536
        return publisher, rtp(rng, publisher, sequences[publisher], 3000 * sequences[publisher] % 2**32)
    if kind == "rr":
        return endpoint, bytes([0x80, 0xC9, 0, 1]) + words(own)
    if kind == "tmmbr":
        word = rng.choice([0, 0, 3, 10]) << 26 | rng.choice([0, 500, 1000, 64000, 131071]) << 9 | rng.choice([0, 20, 28, 40, 511])
        return endpoint, feedback(3, 205, own, 0, words(out, word))
    if kind == "nack":
        return endpoint, feedback(1, 205, own, out, words(rng.randrange(100, 500) << 16 | rng.choice([0, 1, 0x8001])))
    if kind == "pli":
        return endpoint, feedback(1, 206, own, out, b"")
    if kind == "bye":
        return endpoint, bytes([0x81, 0xCB, 0, 1]) + words(own)
    return endpoint, rng.randbytes(rng.randrange(1, 40))


def some_script(rng, count):
    """Lines of a script, each event with a settle after it."""
    moment, lines, sequences = 0, [], [rng.randrange(65536) for _ in range(2)]
    for _ in range(count):
        moment += rng.choice([0, 1, 10, 200])
        happens = rng.randrange(20)
        if happens == 0:
            lines.append(f"tick {moment}")
        elif happens == 1:
            lines.append(f"select {moment} {rng.randrange(7)} {rng.choice(['on', 'off'])}")
        elif happens == 2:
            lines.append(f"show {rng.randrange(3)}")
            continue
        else:
            endpoint, datagram = some_datagram(rng, sequences)
            lines.append(f"hear {moment} {endpoint} {datagram.hex()}")
        lines.append("settle")
    return "".join(line + "\n" for line in lines)


# ---- against `sfu replay`


def told_by_replay(text):
    """What the program printed, as the callers of the library print it: what is sent, and the sets."""
    lines = []
    for line in text.splitlines():
        if line.startswith("send "):
            lines.append(line)
        elif re.fullmatch("[0-9a-f]+", line):
            # (a TMMBN: RFC 5104, section 4.2.2)
            entries = line[24:]
            lines.append("set " + " ".join(entries[k : k + 8] for k in range(0, len(entries), 8)))
    return [line.strip() for line in lines]


def told_by_caller(text):
    """The same, as the caller printed it, and the certificates that stand beside the sets."""
    lines, certificates = [], []
    for line in text.splitlines():
        if line.startswith(("live", "kept", "implied")):
            certificates.append(line)
        elif line != "begin":
            lines.append(re.sub(r"^set \d+", "set", line).strip())
    return lines, certificates


def wanted_certificates(text):
    """For what is live the certificate that bench/tmmbr_c's model finds by the definitions, as callers print it."""
    lines = []
    for line in text.splitlines():
        if not line.startswith("live"):
            continue
        numbers = [int(number, 16) for number in line.split()[1:]]
        live = [(ssrc, word >> 26, word >> 9 & 0x1FFFF, word & 0x1FF) for ssrc, word in zip(numbers[::2], numbers[1::2])]
        kept, implied = model.certificate(live, model.announced(live))
        lines.append(line)
        lines += [f"kept {place} {packets:032x} {bits:032x} {seconds}" for (packets, bits, seconds), place in kept]
        lines += [" ".join(map(str, ["implied", *entry])) for entry in implied]
    return lines


def compare_replay(at, scripts, seed):
    settings = at / "settings.toml"
    settings.write_text(SETTINGS)
    one = at / "room.toml"
    one.write_text((TOP / "examples/room.toml").read_text().replace("workers = 2", "workers = 1"))
    rng = random.Random(seed)
    cases = [(one, (TOP / "examples/room.script").read_text())] + [(settings, some_script(rng, 200)) for _ in range(scripts)]
    sends = sets = shown = 0
    for number, (at_settings, script) in enumerate(cases):
        wanted = told_by_replay(output(*SFU, "replay", at_settings, input=script))
        callers = [[at / "driver"], [at / "driver_asan"]] + [[at / "replay"]] * (at / "replay").exists()
        if number < 3 and shutil.which("valgrind"):
            callers.append(["valgrind", "-q", "--error-exitcode=9", "--leak-check=full", at / "driver"])
        for caller in callers:
            text = output(*caller, at_settings, input=script)
            told, certificates = told_by_caller(text)
            if certificates != wanted_certificates(text):
                sys.exit(f"script {number}, {caller}: not the certificates of the model")
            if told != wanted:
                (at / "wanted").write_text("\n".join(wanted))
                (at / "told").write_text("\n".join(told))
                sys.exit(f"script {number}, {caller}: not what `sfu replay` printed: {at}")
        sends += sum(line.startswith("send") for line in wanted)
        shown += len(certificates)
        sets += sum(line.startswith("set") for line in wanted)
    names = "C, with the sanitizers, and Rust" if (at / "replay").exists() else "C, and with the sanitizers"
    print(f"{len(cases)} scripts: {sends} datagrams and {sets} sets, in {names}, are those of `sfu replay`")
    print(f"{shown} lines of certificates are the model's")


def compare_stack(at, seed):
    """The same is sent with the stack that the header speaks of."""
    size = int(re.search(r"(\d+) KiB of stack", (CRATE / "include/sfu.h").read_text())[1]) * 1024
    script = some_script(random.Random(seed + 2000), 200)
    wanted = output(at / "driver", at / "settings.toml", input=script)
    short = lambda: resource.setrlimit(resource.RLIMIT_STACK, (size, size))  # noqa: E731
    if output(at / "driver", at / "settings.toml", input=script, preexec_fn=short) != wanted:
        sys.exit("with a short stack it isn't the same")
    print(f"stack: {size // 1024} KiB are enough")


def compare_threads(at):
    for program in ("threads", "threads_tsan"):
        said = output(at / program, at / "room.toml")
    print(said.strip())


def compare_without_memory(at, seed):
    """Whichever call of malloc gives nothing, what is sent in the end is the same."""
    script = some_script(random.Random(seed + 1000), 60)
    settings = at / "settings.toml"
    wanted = output(at / "driver_asan", settings, input=script)
    number = 0
    while True:
        done = subprocess.run([at / "driver_asan", settings, str(number)], input=script, capture_output=True, text=True)
        if done.returncode == 9:
            break
        if done.returncode or done.stdout != wanted:
            sys.exit(f"without allocation {number}: status {done.returncode}\n{done.stderr}")
        number += 1
    print(f"without memory: {number} runs, each without one allocation, send the same")


# ---- against `sfu serve`


def free_ports(count):
    held = [socket.socket(socket.AF_INET, socket.SOCK_DGRAM) for _ in range(count)]
    for it in held:
        it.bind(("127.0.0.1", 0))
    ports = [it.getsockname()[1] for it in held]
    for it in held:
        it.close()
    return ports


def drain(sockets, quiet):
    """What came to each, until nothing has come for so many seconds."""
    came = [[] for _ in sockets]
    while True:
        ready, _, _ = select.select(sockets, [], [], quiet)
        if not ready:
            return came
        for it in ready:
            came[sockets.index(it)].append(it.recv(65536))


def play_over_udp(command, port, ports, datagrams, count=None):
    """Has a unit serve a recorded run; returns what came to each endpoint, in order: so many datagrams in all, if that is known."""
    sockets = []
    for number in ports:
        sockets.append(socket.socket(socket.AF_INET, socket.SOCK_DGRAM))
        sockets[-1].bind(("127.0.0.1", number))
    unit = subprocess.Popen([str(word) for word in command], stdout=subprocess.PIPE, stderr=subprocess.PIPE, text=True)
    try:
        while not (line := unit.stderr.readline()).startswith("serving"):
            if not line:
                sys.exit(f"{command} doesn't serve")
        came = [[] for _ in ports]
        for endpoint, datagram in datagrams:
            sockets[endpoint].sendto(datagram, ("127.0.0.1", port))
            for all_of, more in zip(came, drain(sockets, 0.02)):
                all_of.extend(more)
        late = time.monotonic() + 30
        while True:
            for all_of, more in zip(came, drain(sockets, 0.5)):
                all_of.extend(more)
            if count is None or sum(map(len, came)) >= count or time.monotonic() > late:
                break
        sockets[0].sendto(b"", ("127.0.0.1", port))
        time.sleep(0.2)
        if unit.poll() is None and "serve" in map(str, command):
            unit.terminate()
        out, err = unit.communicate(timeout=60)
    finally:
        if unit.poll() is None:
            unit.kill()
        for it in sockets:
            it.close()
    return came, out, err


def compare_serve(at, seed):
    port, *ports = free_ports(ENDPOINTS + 1)
    rng = random.Random(seed)
    sequences = [7, 65530]
    datagrams = [(k, bytes([0x80, 0xC9, 0, 1]) + words(16 + k)) for k in range(ENDPOINTS)]
    while len(datagrams) < 250:
        datagrams.append(some_datagram(rng, sequences))
    # (a report, and a PLI that has to wait, depend on the clock, so none is in the run)
    text = SETTINGS.replace("report_ms = 60000", "report_ms = 3600000").replace("pli_gap_ms = 500", "pli_gap_ms = 0")
    (at / "room_udp.toml").write_text(text)
    served = text.replace("unit_ssrc", f'listen = "127.0.0.1:{port}"\nunit_ssrc')
    for number, of_endpoint in enumerate(ports):
        served = served.replace(f"ssrc = {16 + number}\n", f'ssrc = {16 + number}\naddress = "127.0.0.1:{of_endpoint}"\n', 1)
    (at / "serve.toml").write_text(served)
    wanted, _, said = play_over_udp([*SFU, "serve", at / "serve.toml"], port, ports, datagrams)
    if not any(wanted):
        sys.exit(f"`sfu serve` sent nothing:\n{said}")
    addresses = [f"127.0.0.1:{number}" for number in (port, *ports)]
    ways = [[at / "forwarder"], [at / "forwarder_asan"]]
    if shutil.which("valgrind"):
        ways.append(["valgrind", "-q", "--error-exitcode=9", "--leak-check=full", at / "forwarder"])
    for way in ways:
        count = sum(map(len, wanted))
        came, out, err = play_over_udp([*way, at / "room_udp.toml", *addresses], port, ports, datagrams, count)
        if came != wanted or err:
            differs = [(number, len(a), len(b)) for number, (a, b) in enumerate(zip(came, wanted)) if a != b]
            sys.exit(f"{way}: not what `sfu serve` sent: {differs}\n{err}")
    print(f"served: of {len(datagrams)} datagrams {sum(map(len, wanted))} came of `sfu serve`, and the same of the forwarder")
    print(out.strip().splitlines()[-1])


def main():
    scripts = int(sys.argv[1]) if len(sys.argv) > 1 else 30
    seed = int(sys.argv[2]) if len(sys.argv) > 2 else 1
    with tempfile.TemporaryDirectory(prefix="libsfu.") as at:
        at = Path(at)
        compare_numbers()
        build(at)
        compare_replay(at, scripts, seed)
        compare_threads(at)
        compare_stack(at, seed)
        compare_without_memory(at, seed)
        compare_serve(at, seed)


if __name__ == "__main__":
    main()
