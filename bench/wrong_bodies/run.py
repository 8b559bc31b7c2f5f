#!/usr/bin/env python3
"""Tries the wrong bodies beside this file again: run.py [--jobs N] [NAME..]

Each stands in a file NAME.body, which is named after its list (machine, program) and a number, or after what it does. Its first lines are
comments: the function, the mistake, and what is to be known of what refuses it. Then

    crate: NAME                     the crate that it is in
    refused by: clause FUNCTION     the prover refuses it: `rt check --only FUNCTION` in that crate
    refused by: test CRATE TEST     that test fails, in a run before any proof: `rt try --test` in CRATE
    refused by: case NAME           that case of cases/ fails, on the program as it is compiled before any proof

and then what is changed, one place after another:

    file: PATH                      in the repository
    old: LINE                       these lines, which stand there once, one after another,
    new: LINE                       give way to these; with no such line they are taken out

Each is tried in a copy of the tree that this file is in, which has links to what is built there: for clauses the crates below have to
be built (tools/build.py). It is refused if what it says refuses it, and nothing else is wrong with it. The status is 0 if each was.
"""
import os
import re
import shutil
import signal
import subprocess
import sys
import tempfile
import threading
import time

HERE = os.path.dirname(os.path.abspath(__file__))
TOP = os.path.dirname(os.path.dirname(HERE))
# What is said of a proof that names what is no longer there, and of what cites that proof.
GONE = re.compile(r"(note: )?(\./)?proofs/.*(has no field|is not in scope|has no `|was not admitted)")
# How long one may take, in seconds.
LIMIT = 900
# The settings of a unit that serves while its program is copied.
SETTINGS = """listen = "127.0.0.1:0"
workers = 1
ring = 64
history = 128
timeout_ms = 86400000
report_ms = 60000
pli_gap_ms = 500
unit_ssrc = 9
cname = "sfu"

[[endpoint]]
ssrc = 16
address = "127.0.0.1:9"

[[endpoint]]
ssrc = 17
address = "127.0.0.1:10"

[[leg]]
subscriber = 1
publisher = 0
out_ssrc = 257
first_seq = 100
"""


class Wrong(Exception):
    """The file, or the try, isn't what it should be."""


class Body:
    def __init__(self, name):
        self.name, self.crate, self.by, self.changes = name, None, None, []
        with open(f"{HERE}/{name}.body", encoding="utf-8") as it:
            lines = it.read().split("\n")
        file, old, new = None, [], []
        for line in [*lines, "file: "]:
            word, _, text = line.partition(": ") if ": " in line else (line.rstrip(":"), "", "")
            if line.startswith("#") or not line.strip():
                continue
            if word == "crate":
                self.crate = text
            elif word == "refused by":
                self.by = text.split()
            elif word == "old":
                if new:
                    self.changes.append((file, old, new))
                    old, new = [], []
                old.append(text)
            elif word == "new":
                new.append(text)
            elif word == "file":
                if old:
                    self.changes.append((file, old, new))
                file, old, new = text, [], []
            else:
                raise Wrong(f"{name}: a line that is not read: {line}")
        if not self.crate or not self.by or not self.changes:
            raise Wrong(f"{name}: no crate, nothing that refuses it, or no change")

    def apply(self, top):
        for file, old, new in self.changes:
            path = f"{top}/{file}"
            with open(path, encoding="utf-8") as it:
                text = it.read()
            before = "".join(f"{line}\n" for line in old)
            if ("\n" + text).count("\n" + before) != 1:
                raise Wrong(f"{self.name}: in {file} its lines stand {text.count(before)} times: {old[0]}")
            at = ("\n" + text).index("\n" + before)
            text = text[:at] + "".join(f"{line}\n" for line in new) + text[at + len(before) :]
            # (the file may have another name in the tree that was copied)
            os.remove(path)
            with open(path, "w", encoding="utf-8") as it:
                it.write(text)


def copied(to):
    """A copy of the tree by links, but for what only git reads."""
    subprocess.run(["cp", "-al", *[f"{TOP}/{it}" for it in sorted(os.listdir(TOP)) if it != ".git"], to], check=True)


def said_by(words, folder):
    ran = subprocess.run(words, cwd=folder, stdout=subprocess.PIPE, stderr=subprocess.STDOUT, timeout=LIMIT, check=False)
    return ran.returncode, ran.stdout.decode("utf-8", "replace")


def last_of(text, count=6):
    return "\n".join(text.strip().split("\n")[-count:])


def refused_by_clause(top, body):
    (function,) = body.by[1:]
    status, said = said_by(["rt", "check", "--only", function, "--jobs", "1"], f"{top}/crates/{body.crate}")
    if "logic=not-proved" in said or "it is not proved" in said or f"fn {function}: not proved" in said:
        if re.search(r"^\S+\.rt:\d+:\d+: error\[", said, re.M):
            raise Wrong(f"it does not compile:\n{last_of(said, 12)}")
        told = [it for it in said.split("\n") if "it is not proved" in it or ": error" in it]
        # (a goal that lost its name lost its answer: that it is open shows nothing)
        gone = next((it for it in told if GONE.match(it)), None)
        if gone:
            raise Wrong(f"a proof names what the change takes away, which says nothing of the clause: {gone}")
        return True, told[0] if told else f"{function} is not proved"
    if status == 0:
        return False, "it is proved"
    raise Wrong(last_of(said, 12))


def end(ran):
    """Ends a run: what it started first, with the group of each (a test that waits in vain would go on), then itself."""
    started = subprocess.run(["pgrep", "-P", str(ran.pid)], stdout=subprocess.PIPE, text=True, check=False).stdout.split()
    for pid in map(int, started):
        try:
            if os.getpgid(pid) == pid:
                os.killpg(pid, signal.SIGKILL)
            else:
                os.kill(pid, signal.SIGKILL)
        except ProcessLookupError:
            continue
    ran.kill()


def refused_by_test(top, body):
    """Ends with the test: those behind it may wait in vain, too."""
    crate, test = body.by[1:]
    words = ["rt", "try", "--test", "--seconds", "100"]
    ran = subprocess.Popen(words, cwd=f"{top}/crates/{crate}", stdout=subprocess.PIPE, stderr=subprocess.STDOUT, text=True, errors="replace")
    limit = threading.Timer(LIMIT, end, [ran])
    limit.start()
    said, failed = "", None
    for line in ran.stdout:
        said += line
        if test in line and "FAILED" in line:
            failed = line.strip()
            end(ran)
            break
    ran.stdout.close()
    status = ran.wait()
    limit.cancel()
    if failed:
        return True, failed
    if re.search(r"^\S+\.rt:\d+:\d+: error\[", said, re.M):
        raise Wrong(f"it does not compile:\n{last_of(said, 12)}")
    if status != 0:
        raise Wrong(f"the run fails, but not at the test:\n{last_of(said)}")
    return False, "the tests pass"


def program_of(top):
    """The program, compiled with checks and before any proof: `rt try` runs it in a folder of its own, from where it is copied."""
    room = tempfile.mkdtemp(dir=os.path.dirname(top))
    with open(f"{room}/unit.toml", "w", encoding="utf-8") as it:
        it.write(SETTINGS)
    log = f"{room}/log"
    words = ["rt", "try", "--seconds", "600", "--data", f"{os.path.basename(room)}.toml={room}/unit.toml", "--", "serve", f"{os.path.basename(room)}.toml", "--ticks", "1000000"]
    with open(log, "wb") as to:
        ran = subprocess.Popen(words, cwd=f"{top}/crates/sfu_main", stdout=to, stderr=to)
    mark = os.path.basename(room) + ".toml"
    try:
        until = time.monotonic() + LIMIT
        while time.monotonic() < until:
            for pid in filter(str.isdigit, os.listdir("/proc")):
                try:
                    with open(f"/proc/{pid}/cmdline", "rb") as it:
                        given = it.read().decode("utf-8", "replace").split("\0")
                    # (a loader may have been given it)
                    found = [word for word in given if word.endswith("/program")]
                    if mark in given and found:
                        shutil.copyfile(found[0], f"{room}/program")
                        os.chmod(f"{room}/program", 0o755)
                        os.kill(int(pid), 9)
                        return f"{room}/program"
                except (OSError, ProcessLookupError):
                    continue
            if ran.poll() is not None:
                break
            time.sleep(0.5)
        with open(log, encoding="utf-8", errors="replace") as it:
            raise Wrong(f"it does not compile, or does not serve:\n{last_of(it.read(), 12)}")
    finally:
        ran.wait()


def refused_by_case(top, body):
    program = program_of(top)
    status, said = said_by([f"{top}/.ci/cases", "--program", program, *body.by[1:]], top)
    if status == 0:
        return False, "the case passes"
    if body.by[1] not in said:
        raise Wrong(f"it fails, but not in the case:\n{last_of(said)}")
    return True, last_of(said, 3)


WAYS = {"clause": refused_by_clause, "test": refused_by_test, "case": refused_by_case}


def tried(name):
    room = tempfile.mkdtemp(prefix="wrong-", dir=os.path.dirname(TOP))
    top = f"{room}/tree"
    os.mkdir(top)
    try:
        body = Body(name)
        copied(top)
        body.apply(top)
        is_refused, why = WAYS[body.by[0]](top, body)
        return ("refused" if is_refused else "NOT REFUSED"), why
    except (Wrong, OSError, subprocess.SubprocessError, KeyError) as fault:
        return "NOT TRIED", str(fault)
    finally:
        shutil.rmtree(room, ignore_errors=True)


def main():
    words, jobs = sys.argv[1:], 1
    if words[:1] == ["--jobs"]:
        jobs, words = int(words[1]), words[2:]
    names = words or sorted(it[:-5] for it in os.listdir(HERE) if it.endswith(".body"))
    left, told, alone = list(reversed(names)), {}, threading.Lock()

    def work():
        while True:
            with alone:
                if not left:
                    return
                name = left.pop()
            came = tried(name)
            with alone:
                told[name] = came[0]
                print(f"{name}: {came[0]}: {came[1]}", flush=True)

    threads = [threading.Thread(target=work) for _ in range(jobs)]
    for it in threads:
        it.start()
    for it in threads:
        it.join()
    refused = sum(it == "refused" for it in told.values())
    print(f"{refused} of {len(names)} are refused")
    return 0 if refused == len(names) else 1


if __name__ == "__main__":
    sys.exit(main())
