#!/usr/bin/env python3
"""Builds a program or a library, proving the libraries below it side by side: tools/build.py CRATE

crates.txt says what stands on what. A library is proved by `rt lib` once those below it are, the one with the longest chain
above it first, as many at a time as processors (RT_JOBS, if set) and memory allow; processors that no other library waits for
go to those that begin, if these have enough to prove. Crates that it doesn't stand on, as those of tests, are left out. `rt run`
then proves and compiles the program itself.

One `rt` holds every crate below its own until it ends, so each library is proved in a room: a folder with the sources, and with
hard links to what is built below. `rt` takes a built library by the sum of its sources, wherever it lies. What is proved goes
back to the tree's out/ folders, also of a library that isn't done, so that the next build goes on from there.

Another copy of the tree is made ready for work on a crate by this, too; or by `cp -a`, or hard links (`cp -al`), of whole crates with their
out/ folders, times kept, if the lines of crates.txt are the same. What `rt check` and `rt lib` made in one copy the others on the machine go on
from. What `rt ci` proved carries over by tools/kept_libraries.py.

Linux shares processors among sessions before it looks at `nice`: a build beside scripts that `setsid` started gets one share of several.
`echo -15 > /proc/PID/autogroup` gives it most of them, and 19 least.

Status 0: built; 1: something isn't proved; else a signal's.
"""
import fcntl
import os
import re
import shutil
import signal
import subprocess
import sys
import time

TOP = os.path.dirname(os.path.dirname(os.path.realpath(__file__)))
# What of a crate rt reads, and what it makes of it.
SOURCES, MADE = ("src", "specs", "proofs"), ("incremental", "rlib")
MOST_JOBS = 4
# Seconds of a processor that a check takes: for any crate, to prove each line of src/, and to load each line below. What specs/ and proofs/ have
# is read in little. (Fitted to 31 crates on one machine: only the ratios matter. Long bodies over many type parameters take up to twice that.)
ANY_TAKES, LINE_TAKES, LINE_BELOW_TAKES = 7, 0.117, 0.001
# Each job loads what lies below, which is loaded once more behind them: with less than so much to prove for that, a check ends no sooner by several.
LOADS = 3
# Bytes that a check takes at most: for any crate, each line of its sources, each line below it, each job beside the first.
LEAST, EACH_LINE, EACH_LINE_BELOW, EACH_JOB = 1_200_000_000, 100_000, 25_000, 1_000_000_000
# The statuses of an rt whose check was killed, as it is for want of memory, though it had one job.
KILLED = (-signal.SIGKILL, 256 - signal.SIGKILL, 128 + signal.SIGKILL)
# Seconds between two looks at what runs.
LOOK_EACH = 0.2


def say(text):
    print(f"sfu: {text}", file=sys.stderr, flush=True)


def clock(seconds):
    return f"{int(seconds) // 60}:{int(seconds) % 60:02}"


def number_in(file, pattern):
    try:
        with open(file, encoding="utf-8") as it:
            return int(re.search(pattern, it.read())[1])
    except (OSError, TypeError):
        return None


def processors():
    if os.environ.get("RT_JOBS", "").isdigit():
        return max(int(os.environ["RT_JOBS"]), 1)
    found = len(os.sched_getaffinity(0))
    quota, period = (number_in("/sys/fs/cgroup/cpu.max", it) for it in (r"^(\d+)", r" (\d+)"))
    return min(found, max(quota // period, 1)) if quota and period else found


def free_memory():
    found = 1024 * (number_in("/proc/meminfo", r"MemAvailable:\s+(\d+)") or 0)
    limit = number_in("/sys/fs/cgroup/memory.max", r"(\d+)")
    held = number_in("/sys/fs/cgroup/memory.stat", r"anon (\d+)")
    return found if limit is None or held is None else min(found, limit - held)


def memory_held(pid):
    """Returns how many bytes a process and all that it started hold."""
    try:
        held = number_in(f"/proc/{pid}/statm", r"\d+ (\d+)") * os.sysconf("SC_PAGE_SIZE")
        for task in os.listdir(f"/proc/{pid}/task"):
            with open(f"/proc/{pid}/task/{task}/children", encoding="utf-8") as it:
                held += sum(memory_held(child) for child in it.read().split())
        return held
    except (OSError, TypeError):
        return 0


def locked(folder):
    """Returns what keeps each rt out of a crate's folder until it is closed, or None while one works in it."""
    held = os.open(folder, os.O_RDONLY)
    try:
        fcntl.flock(held, fcntl.LOCK_EX | fcntl.LOCK_NB)
    except BlockingIOError:
        os.close(held)
        return None
    except OSError:
        # Some file systems have no locks.
        pass
    return held


def link(file, to):
    try:
        os.link(file, to)
    except OSError:
        shutil.copy2(file, to)


def link_all(source, to):
    """Links a folder's files into a new folder, or copies those that can't be linked."""
    if os.path.isdir(source):
        shutil.copytree(source, to, copy_function=link)


def move(part, source, to):
    """Moves what rt made from one out/ to another, into the place of what is there."""
    if os.path.isdir(f"{source}/{part}"):
        os.makedirs(to, exist_ok=True)
        shutil.rmtree(f"{to}/{part}", ignore_errors=True)
        shutil.move(f"{source}/{part}", f"{to}/{part}")


class Crate:
    """A line of crates.txt, and how far the crate is."""

    def __init__(self, line):
        head, _, uses = line.partition(":")
        self.line, self.name, self.uses = line, head.split()[0], re.findall(r"[\w-]+", uses)
        self.folder = f"{TOP}/crates/{self.name}"
        self.out, self.log = f"{self.folder}/out", f"{self.folder}/out/build.log"
        self.below, self.above, self.jobs = [], [], 1
        # The lines of its sources, and of their bodies; and the seconds of the longest chain of crates from this one up.
        self.lines = self.bodies = self.chain = 0
        self.rt = self.lock = None
        # Seconds of processor time that its check took.
        self.worked = 0
        self.is_done = self.is_told = self.is_alone = self.waits = False

    def count_lines(self):
        for part in SOURCES:
            for at, _, names in os.walk(f"{self.folder}/{part}"):
                for name in names:
                    with open(f"{at}/{name}", "rb") as it:
                        lines = it.read().count(b"\n")
                    self.lines += lines
                    self.bodies += lines if part == "src" else 0

    def lines_below(self):
        return sum(it.lines for it in self.below)

    def proving(self):
        return LINE_TAKES * self.bodies

    def loading(self):
        return ANY_TAKES + LINE_BELOW_TAKES * self.lines_below()

    def most_jobs(self):
        return MOST_JOBS if self.proving() >= LOADS * self.loading() else 1

    def need(self, jobs):
        return LEAST + EACH_LINE * self.lines + EACH_LINE_BELOW * self.lines_below() + EACH_JOB * (jobs - 1)

    def will_take(self):
        """Returns the bytes that the crate's check hasn't taken yet and may take."""
        return max(self.need(self.jobs) - memory_held(self.rt.pid), 0)

    def start(self, folder, *words):
        os.makedirs(self.out, exist_ok=True)
        self.began = time.monotonic()
        with open(self.log, "wb") as log:
            how = {"stdin": subprocess.DEVNULL, "stdout": log, "stderr": subprocess.STDOUT}
            self.rt = subprocess.Popen(["rt", *words], cwd=folder, **how)

    def has_ended(self):
        """Whether rt has ended; then its status and its processor time are noted."""
        if self.rt.returncode is None:
            pid, status, used = os.wait4(self.rt.pid, os.WNOHANG)
            if pid:
                self.rt.returncode = os.waitstatus_to_exitcode(status)
                self.worked = used.ru_utime + used.ru_stime
        return self.rt.returncode is not None

    def took(self):
        return f"{clock(time.monotonic() - self.began)}, {clock(self.worked)} of processor time"

    def said(self):
        with open(self.log, encoding="utf-8", errors="replace") as it:
            return it.read().rstrip("\n").split("\n")

    # A library is proved in its room, and the tree's folder is locked meanwhile.

    def take(self, room):
        """Locks the crate's folder, and takes back what a build that was killed left in the room; False while an rt works on it."""
        self.lock = locked(self.folder)
        if self.lock is None:
            return False
        here = f"{room}/crates/{self.name}"
        if os.path.islink(here):
            shutil.rmtree(room)
        left = locked(here) if os.path.isdir(here) else None
        if os.path.isdir(here) and left is None:
            self.release()
            return False
        if left is not None:
            self.leave(room)
            os.close(left)
        # (what a killed rt wrote while its room was taken down)
        shutil.rmtree(room, ignore_errors=True)
        return True

    def enter(self, room):
        here = f"{room}/crates/{self.name}"
        for crate in [*self.below, self]:
            for part in SOURCES:
                link_all(f"{crate.folder}/{part}", f"{room}/crates/{crate.name}/{part}")
        for crate in self.below:
            link_all(f"{crate.out}/rlib", f"{room}/crates/{crate.name}/out/rlib")
        for part in MADE:
            move(part, self.out, f"{here}/out")
        with open(f"{room}/crates.txt", "w", encoding="utf-8") as it:
            it.write("".join(f"{crate.line}\n" for crate in [*self.below, self]))
        self.start(here, "lib", "--jobs", str(self.jobs))

    def leave(self, room):
        for part in MADE:
            move(part, f"{room}/crates/{self.name}/out", self.out)
        shutil.rmtree(room, ignore_errors=True)
        # rt tells other copies of the repository on this machine that the work lies in the room.
        os.makedirs(f"{room}/crates", exist_ok=True)
        os.symlink(self.folder, f"{room}/crates/{self.name}")

    def release(self):
        os.close(self.lock)
        self.lock = None


def every_crate():
    """Returns all crates of crates.txt, by name."""
    with open(f"{TOP}/crates.txt", encoding="utf-8") as it:
        lines = [line.partition("#")[0].strip() for line in it]
    return {crate.name: crate for crate in map(Crate, filter(None, lines))}


def crates_for(name):
    """Returns the libraries to prove for a crate, each after those that it stands on, and the program, if the crate is one."""
    found, order = every_crate(), []

    def visit(crate):
        if crate in order:
            return
        for low in (found[name] for name in crate.uses if name in found):
            visit(low)
            low.above.append(crate)
            crate.below += [it for it in [*low.below, low] if it not in crate.below]
        crate.count_lines()
        order.append(crate)

    if name not in found:
        sys.exit(f"sfu: crates.txt has no crate {name}")
    visit(found[name])
    for crate in reversed(order):
        crate.chain = crate.proving() + crate.loading() + max((it.chain for it in crate.above), default=0)
    is_program = os.path.isfile(f"{found[name].folder}/src/main.rt")
    return (order[:-1], order[-1]) if is_program else (order, None)


class Build:
    def __init__(self, libraries, program, rooms):
        self.libraries, self.program, self.rooms, self.lanes = libraries, program, rooms, processors()
        self.running, self.began = [], time.monotonic()

    def say(self, text):
        say(f"{clock(time.monotonic() - self.began):>6}  {text}")

    def says_waiting(self, crate):
        if not crate.waits:
            self.say(f"{crate.name} waits for another rt, which works on it or below it")
        crate.waits = True

    def says_failed(self, crate):
        self.say(f"{crate.name} is not proved. The last lines of {os.path.relpath(crate.log, TOP)}:")
        print(*crate.said()[-20:], sep="\n", file=sys.stderr, flush=True)

    def room(self, library):
        return f"{self.rooms}/{library.name}"

    def begin_some(self):
        """Begins as many libraries as may run now."""
        left = [it for it in self.libraries if not it.is_done and it not in self.running]
        ready = sorted((it for it in left if all(low.is_done for low in it.below)), key=lambda it: -it.chain)
        for at, library in enumerate(ready):
            idle = self.lanes - sum(it.jobs for it in self.running)
            if idle <= 0 or any(it.is_alone for it in [*self.running, library]) and self.running:
                return
            # The ready ones share what is idle, the first of them what is left over.
            library.jobs = 1 if library.is_alone else min(-(-idle // (len(ready) - at)), library.most_jobs())
            free = free_memory() - sum(it.will_take() for it in self.running)
            while library.jobs > 1 and library.need(library.jobs) > free:
                library.jobs -= 1
            if self.running and library.need(library.jobs) > free:
                continue
            if not library.take(self.room(library)):
                self.says_waiting(library)
                continue
            self.running.append(library)
            library.enter(self.room(library))

    def tell(self, library):
        """Says that a library is being proved, once its prover says anything: of one that is up to date rt says nothing."""
        if not library.is_told and os.path.getsize(library.log):
            library.is_told = True
            self.say(f"{library.name} is being proved" + (f", by {library.jobs} jobs" if library.jobs > 1 else ""))

    def end(self, library):
        """Takes in what came of a library, and returns whether the build goes on."""
        status = library.rt.returncode
        if status in KILLED and not library.is_alone:
            library.is_alone = True
            self.say(f"{library.name} was killed, most likely for want of memory: again, once nothing else runs")
            return True
        if status:
            self.says_failed(library)
            return False
        library.is_done = True
        if library.is_told:
            left = sum(not it.is_done for it in self.libraries) + bool(self.program)
            self.say(f"{library.name} is proved, in {library.took()}; {left} left")
        return True

    def prove_libraries(self):
        try:
            while not all(it.is_done for it in self.libraries):
                self.begin_some()
                time.sleep(LOOK_EACH)
                for library in [*self.running]:
                    self.tell(library)
                    if not library.has_ended():
                        continue
                    self.running.remove(library)
                    library.leave(self.room(library))
                    library.release()
                    if not self.end(library):
                        return False
        finally:
            for library in self.running:
                if library.rt:
                    library.rt.terminate()
            for library in self.running:
                if library.rt:
                    library.rt.wait()
                library.leave(self.room(library))
                library.release()
        as_before = sum(not it.is_told for it in self.libraries)
        if as_before:
            self.say(f"{as_before} of {len(self.libraries)} libraries were proved before, and haven't changed")
        return True

    def build_program(self):
        """Proves the program itself and compiles it."""
        it = self.program
        # (rt builds what it runs: an empty input is enough)
        it.start(it.folder, "run", "--jobs", str(min(self.lanes, it.most_jobs())), "--", "bound", "--sender", "0")
        self.say(f"{it.name} is being proved and compiled")
        try:
            while not it.has_ended():
                time.sleep(LOOK_EACH)
                if any(line.startswith("rt: waiting for") for line in it.said()[-2:]):
                    self.says_waiting(it)
        finally:
            if not it.has_ended():
                it.rt.terminate()
                it.rt.wait()
        if it.rt.returncode:
            self.says_failed(it)
            return False
        os.utime(f"{it.out}/{it.name}")
        self.say(f"{it.name} is built, in {it.took()}")
        return True


def only_build():
    """Waits until no other build and no rt ci works in this tree, and returns the folder for rooms."""
    git = f"{TOP}/.git"
    if os.path.isdir(git):
        # (rt ci holds this file while it runs)
        held, rooms = os.open(f"{git}/rt-ci.lock", os.O_RDWR | os.O_CREAT, 0o644), f"{git}/sfu-build"
    else:
        held, rooms = os.open(TOP, os.O_RDONLY), f"{TOP}/.sfu-build"
    try:
        fcntl.flock(held, fcntl.LOCK_EX | fcntl.LOCK_NB)
    except BlockingIOError:
        say("another build, or rt ci, works in this tree: this one waits until it has ended")
        fcntl.flock(held, fcntl.LOCK_EX)
    except OSError:
        pass
    return rooms


def main(name):
    def stop(number, _):
        sys.exit(128 + number)

    for number in (signal.SIGINT, signal.SIGTERM, signal.SIGHUP):
        signal.signal(number, stop)
    rooms = only_build()
    build = Build(*crates_for(name), rooms)
    say(f"{len(build.libraries)} libraries are proved, side by side: {build.lanes} processors, {free_memory() / 1e9:.0f} GB of free memory")
    say("what the prover prints goes to crates/NAME/out/build.log")
    if build.program:
        say("for a look before any proof, in another shell: ./sfu --unproved COMMAND ARGS..")
    is_built = build.prove_libraries() and (build.program is None or build.build_program())
    if not os.path.isdir(f"{TOP}/.git"):
        shutil.rmtree(rooms, ignore_errors=True)
    return 0 if is_built else 1


if __name__ == "__main__":
    sys.exit(main(*sys.argv[1:]))
