"""A unit with the rules of `examples/serve.toml`: its settings, its start, and what is looked at of it. For scripts beside this one."""

import ctypes
import os
import socket
import subprocess
import sys
import time

from flood import cpu_seconds
from hostile import ENDPOINT
from stalls import counts_of

TOP = os.path.dirname(os.path.dirname(os.path.dirname(os.path.realpath(__file__))))
HOST = "127.0.0.1"
LEG = """
[[leg]]
subscriber = {}
publisher = {}
out_ssrc = {}
"""
# Bytes of a receive buffer that is wide, and how it is had beyond what the system allows (socket(7), SO_RCVBUFFORCE).
WIDE, SO_RCVBUFFORCE = 8 << 20, 33
# The number of the system call by which a descriptor of another process is had (pidfd_getfd(2)).
PIDFD_GETFD = 438
# How long a unit may take to begin, in seconds.
PATIENCE = 20


def rules(**other):
    """The keys of the example above its endpoints, but for these ones, which have other values; one that is None is left out."""
    lines = []
    with open(f"{TOP}/examples/serve.toml") as text:
        for line in text:
            if line.startswith("["):
                break
            key = line.partition("=")[0].strip()
            if key and not line.startswith("#") and key not in other:
                lines.append(line)
    return "".join(lines) + "".join(f"{key} = {value}\n" for key, value in other.items() if value is not None)


def number_in(settings, key, otherwise):
    """A number among settings, if it is there."""
    for line in settings.splitlines():
        name, _, value = line.partition("=")
        if name.strip() == key:
            return int(value)
    return otherwise


def widen(it):
    try:
        it.setsockopt(socket.SOL_SOCKET, SO_RCVBUFFORCE, WIDE)
    except PermissionError:
        it.setsockopt(socket.SOL_SOCKET, socket.SO_RCVBUF, WIDE)


def wide_socket():
    """A socket on a free port of the loopback interface."""
    it = socket.socket(socket.AF_INET, socket.SOCK_DGRAM)
    widen(it)
    it.bind((HOST, 0))
    it.setblocking(False)
    return it


def port_of(it):
    return it.getsockname()[1]


def free_port():
    with socket.socket(socket.AF_INET, socket.SOCK_DGRAM) as it:
        it.bind((HOST, 0))
        return port_of(it)


class Unit:
    """A unit that serves by these settings, in this folder."""

    def __init__(self, program, folder, settings):
        self.program, self.control, self.said = program, os.path.join(folder, "control"), os.path.join(folder, "said")
        file = os.path.join(folder, "room.toml")
        with open(file, "w") as out:
            out.write(settings)
        with open(self.said, "w") as said:
            words = [program, "serve", file, "--control", self.control]
            self.process = subprocess.Popen(words, stdin=subprocess.DEVNULL, stdout=subprocess.DEVNULL, stderr=said)
        self.pid = self.process.pid
        until = time.monotonic() + PATIENCE
        while "serving " not in self.words():
            if self.process.poll() is not None or time.monotonic() > until:
                self.end()
                sys.exit(f"the unit doesn't serve: {self.words()}")
            time.sleep(0.01)

    def words(self):
        """What it said on its error output so far."""
        with open(self.said) as said:
            return said.read()

    def ask(self, *words):
        return subprocess.run([self.program, "ask", self.control, *words], check=True, capture_output=True, text=True).stdout

    def counts(self):
        return counts_of(self.ask("counts"))

    def cpu(self):
        return cpu_seconds(self.pid)

    def resident(self):
        """Kilobytes of its memory that are there (VmRSS of proc(5))."""
        with open(f"/proc/{self.pid}/status") as status:
            return next(int(line.split()[1]) for line in status if line.startswith("VmRSS:"))

    def widen(self):
        """Gives its UDP sockets wide receive buffers, as docs/OPERATING.md advises; whether that can be done."""
        handle, system = os.pidfd_open(self.pid), ctypes.CDLL(None, use_errno=True)
        try:
            for number in os.listdir(f"/proc/{self.pid}/fd"):
                if not os.readlink(f"/proc/{self.pid}/fd/{number}").startswith("socket:"):
                    continue
                copy = system.syscall(PIDFD_GETFD, handle, int(number), 0)
                if copy < 0:
                    return False
                with socket.socket(fileno=copy) as it:
                    if it.family == socket.AF_INET and it.type == socket.SOCK_DGRAM:
                        widen(it)
        finally:
            os.close(handle)
        return True

    def end(self):
        self.process.kill()
        self.process.wait()
