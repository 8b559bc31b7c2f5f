#!/usr/bin/env python3
"""Twelve clients that behave, each of which publishes to the others, and beside them one of each kind that doesn't, for an hour on one unit.

    bench/field/soak.py SFU [MINUTES] [--seed N] [--workers N] [--rate PACKETS] [--loss PERCENT] [--rtcp-loss PERCENT]

SFU is the built program; the rules are those of examples/serve.toml. Everybody sends 50 packets a second (`--rate`, by which go the
hostile ones, too: a program that is compiled with checks wants 5). They leave and come back, fall silent for longer than their timeout, begin
anew with other numbers, lose 1 percent of packets on each way (`--loss`) and 5 of the RTCP about rates (`--rtcp-loss`), ask for packets and for rates again. The unit stands
still (SIGSTOP) for 0.3 to 1.5 s now and then. Beside them somebody sends fuzzed datagrams, NACKs of 1,000 entries, TMMBRs of 256, BYEs, a flood of packets, datagrams in the
name of others, and connects to the control. What is lost, who comes and goes and when is the seed's choice (`--seed`, 1), and when all of it meets is the clock's.

Each minute a line says what was seen, and at the end another; status 1 if

- a packet didn't come to who was there, though it wasn't lost on the way: to none, beyond what the system dropped at the unit's or the clients' sockets (`unread`), or to
  some; or came twice unasked, changed, from who wasn't to be heard, or to who had left;
- a number isn't as far from the one before as the publisher's was, or was used again;
- in a quiet moment, two a minute, somebody isn't present who is there; the unit has other requests of those that behave than they made; the set that it announces isn't the one
  that the definition gives for all its requests (bench/tmmbr_c/model.py); a publisher is bound by another one; or a subscriber was told another one last;
- a datagram was beyond `flood_limit`, a send failed, a job was lost, or after five minutes and more the unit has more memory than after its first ones;
- the unit ended, or doesn't answer.

This takes less than half a processor. The unit's sockets are given a receive buffer as docs/OPERATING.md advises, if that may be done. By hand: nothing of it is proved.
"""

import argparse
import heapq
import os
import random
import selectors
import signal
import socket
import sys
import tempfile
import time
from collections import Counter, deque

BENCH = os.path.dirname(os.path.dirname(os.path.realpath(__file__)))
sys.path[1:1] = [f"{BENCH}/control", f"{BENCH}/tmmbr_c"]

import model  # noqa: E402
from behaved import Client, Leg, Ways  # noqa: E402
from dropped import dropped_by_system  # noqa: E402
from hostile import ENDPOINT  # noqa: E402
from hostiles import ENDPOINTS, FIRST, KINDS  # noqa: E402
from served import HOST, LEG, Unit, free_port, port_of, rules  # noqa: E402
from stalls import counts_of  # noqa: E402

CLIENTS, RATE = 12, 50
FIRST_LEG, FIRST_HOSTILE_LEG = 1000, 2000
# Of each CYCLE seconds the last QUIET are quiet; after SETTLE of these it is looked whether all is as it must be.
CYCLE, QUIET, SETTLE = 30, 9, 6.5
# How far things are apart that happen to clients, and stalls, in seconds: between these.
TURNS, STALLS, STALL = (1, 3), (6, 14), (0.3, 1.5)
# How long somebody is away, or silent, and how many are at once, at most.
AWAY, SILENT, MOST_AWAY = (2, 8), (18, 22), 3
# So many seconds of silence are sure to be too short to time out, and these to be enough (a stall isn't lived for longer than a second).
STILL_THERE, TIMED_OUT = 12, 17.5
# So many publishers are asked at once.
ASKED = 3
# A request is made again so often, before it is a minute old.
REFRESH = 20
# A packet is lost that didn't come though others came that were sent so many seconds later; and how far a quiet moment may be from what the unit has done.
FINAL, BEHIND = 5, 2
# How many seconds after a turn the unit may be stopped, and how long after it went on somebody may come or go.
APART = 0.7
# When the unit's memory is what it will be, in seconds or as a share of a run that is too short to tell; how much it may grow, by shares and kilobytes.
WARM, WARM_SHARE, GROWS, GROWS_BY = 150, 0.4, 1.02, 1024
# How long an answer of the control is waited for before it is asked for once more, in seconds.
PATIENCE = 5


class Faults:
    """What went wrong, how often, and the first of each."""

    def __init__(self, soak):
        self.soak, self.count, self.first = soak, Counter(), {}

    def add(self, what, which=""):
        self.count[what] += 1
        self.first.setdefault(what, f"at {self.soak.now():.1f} s: {which}")

    def words(self):
        return [f"WRONG {times} times: {what} (first {self.first[what]})" for what, times in self.count.items()]


class Asker:
    """Asks the control one question after another, while all else goes on."""

    def __init__(self, soak):
        self.soak, self.questions, self.it, self.came, self.turn = soak, deque(), None, b"", 0

    def ask(self, words, then):
        self.questions.append((words, then))
        if len(self.questions) == 1:
            self.begin()

    def begin(self):
        """Asks the first question, over the connection that is there, if one is."""
        self.turn += 1
        self.came = b""
        try:
            if not self.it:
                self.it = socket.socket(socket.AF_UNIX)
                self.it.setblocking(False)
                self.it.connect(self.soak.unit.control)
                self.soak.selector.register(self.it, selectors.EVENT_READ, self.hear)
            self.it.send(self.questions[0][0].encode() + b"\n")
        except OSError:
            self.again()
            return
        turn = self.turn
        self.soak.after(PATIENCE, lambda: self.turn == turn and self.questions and self.again())

    def close(self):
        if self.it:
            if self.it.fileno() in self.soak.selector.get_map():
                self.soak.selector.unregister(self.it)
            self.it.close()
            self.it = None

    def again(self):
        """What was said or wasn't is no answer: a new connection, a little later."""
        self.close()
        self.turn += 1
        turn = self.turn
        self.soak.after(0.2, lambda: self.turn == turn and self.questions and self.begin())

    def hear(self):
        try:
            more = self.it.recv(65536)
        except BlockingIOError:
            return
        except OSError:
            more = b""
        self.came += more
        if self.came.endswith(b"ok\n") and (self.came == b"ok\n" or self.came.endswith(b"\nok\n")):
            text = self.came[:-3].decode()
            _, then = self.questions.popleft()
            self.turn += 1
            if not self.questions:
                self.close()
            then(text)
            if self.questions and self.it:
                self.begin()
        elif not more or self.came.startswith(b"refused"):
            self.again()


class Soak:
    """The room, the clock, and what was seen."""

    def __init__(self, program, seconds, seed, workers, rate, loss, rtcp_loss, folder):
        self.seed, self.seconds, self.rate, self.at = seed, seconds, rate, (HOST, free_port())
        # So many seconds after somebody began anew the unit knows it, by two packets.
        self.known = 2.5 / rate
        self.rng = random.Random(f"{seed} turns")
        self.ways, self.faults = Ways(seed, loss / 100, rtcp_loss / 100), Faults(self)
        self.sent = self.came = self.expected = self.lost_up = self.lost_down = self.lost_control = self.lost_whole = self.lost_part = 0
        self.repaired = self.unrepaired = self.quiets = self.sets = self.unjudged = self.turns = self.stalls = self.timed_out = self.kept = 0
        self.is_stalled, self.went_on, self.latest, self.is_over = False, 0, 0, False
        # When the latest packet was sent that came to anybody: what was sent before it the unit has done, since all comes to one socket.
        self.seen = 0
        self.events, self.order, self.selector = [], 0, selectors.DefaultSelector()
        settings = rules(listen=f'"{self.at[0]}:{self.at[1]}"', **({"workers": workers} if workers else {}))
        self.has_gap = "request_gap_ms" in settings
        self.clients = [Client(self, number) for number in range(CLIENTS)]
        self.hostiles = [kind(self, place) for place, kind in enumerate(KINDS)]
        for it in self.clients:
            self.selector.register(it.socket, selectors.EVENT_READ, it.receive)
        self.unit = Unit(program, folder, settings + self.room())
        width = "wide receive buffers" if self.unit.widen() else "the system's receive buffers, which a stall may fill"
        print(f"seed {seed}: {CLIENTS} clients and {len(KINDS)} hostile ones; the unit's sockets have {width}", flush=True)
        self.asker = Asker(self)
        self.began, self.cost, self.unit_cost = time.monotonic(), time.process_time(), self.unit.cpu()
        self.warm = None

    def room(self):
        """Who is there, and who is sent what."""
        everybody = [*self.clients, *self.hostiles[:ENDPOINTS]]
        text = "".join(ENDPOINT.format(it.source, port_of(it.socket)) for it in everybody)
        for subscriber in self.clients:
            for publisher in self.clients:
                if subscriber is not publisher:
                    source = self.source_of(publisher.number, subscriber.number)
                    subscriber.legs[source] = Leg(self, publisher, subscriber, source)
                    text += LEG.format(subscriber.number, publisher.number, source)
        for place, it in enumerate(self.hostiles[:ENDPOINTS]):
            it.leg = FIRST_HOSTILE_LEG + place
            text += LEG.format(CLIENTS + place, place, it.leg)
        # (what the flood of packets is goes to who asks for packets)
        names = [it.name for it in self.hostiles]
        return text + LEG.format(CLIENTS + names.index("NACKs"), CLIENTS + names.index("packets"), FIRST_HOSTILE_LEG + ENDPOINTS)

    def source_of(self, publisher, subscriber):
        return FIRST_LEG + CLIENTS * subscriber + publisher

    # ---- time

    def now(self):
        return time.monotonic() - self.began

    def after(self, seconds, act):
        self.order += 1
        heapq.heappush(self.events, (self.now() + seconds, self.order, act))

    def each(self, seconds, act, first=None):
        """Does it so far apart from now on, by the clock: what is late isn't left out."""
        due = [self.now() + (seconds if first is None else first)]

        def again():
            act()
            due[0] += seconds
            self.order += 1
            heapq.heappush(self.events, (due[0], self.order, again))

        self.order += 1
        heapq.heappush(self.events, (due[0], self.order, again))

    def is_past(self, moment, seconds):
        return self.now() > moment + seconds

    def has_seen(self, moment):
        return self.seen > moment

    def is_quiet(self):
        return self.now() % CYCLE >= CYCLE - QUIET

    def between(self, bounds):
        return self.rng.uniform(*bounds)

    # ---- what happens

    def may_turn(self):
        """Whether somebody may come or go: nothing of the kind is on its way while the unit stands still, nor while it is quiet."""
        return not self.is_quiet() and not self.is_stalled and self.is_past(self.went_on, APART)

    def turn(self):
        """Something happens to somebody."""
        self.after(self.between(TURNS), self.turn)
        it, kind, away, silent = self.rng.choice(self.clients), self.rng.random(), self.between(AWAY), self.between(SILENT)
        if not self.may_turn() or not it.is_in or not self.is_past(it.edge, 1 + self.known):
            return
        self.turns += 1
        has_room = sum(not it.is_in for it in self.clients) < MOST_AWAY
        if kind < 0.3 and has_room:
            it.leave()
            self.after(away, lambda: self.come(it))
        elif kind < 0.4 and has_room and self.until_look() < STILL_THERE and self.is_past(it.asked_at, 2):
            it.fall_silent()
            self.after(TIMED_OUT, lambda: self.asker.ask("present", lambda text: self.note_kept(it, text)))
            self.after(silent, lambda: self.come(it))
        elif kind < 0.65:
            it.begin_anew()
            self.after(1 + self.known, lambda: self.ask(it))
        else:
            self.ask(it)
            return
        self.latest = self.now()

    def until_look(self):
        """How many seconds from now on it is looked at what holds."""
        return (CYCLE - QUIET + SETTLE - self.now() % CYCLE) % CYCLE

    def note_kept(self, it, text):
        """Somebody is gone by now, since it was silent for its timeout, or is kept."""
        if it.is_silent:
            self.timed_out += 1
            self.kept += text.splitlines()[it.number].split()[5] == "present"

    def come(self, it):
        if not self.may_turn():
            self.after(0.25, lambda: self.come(it))
            return
        it.come()
        self.latest = self.now()
        self.after(1 + self.known, lambda: self.ask(it))

    def ask(self, it):
        """It asks some for a rate of 200 to 3,000 kbit/s, with 20 to 60 bytes of overhead, once it is known to be there."""
        others = it.rng.sample([other.number for other in self.clients if other is not it], ASKED)
        words = [5 << 26 | it.rng.randrange(200000 // 32, 3000000 // 32) << 9 | it.rng.randrange(20, 61) for _ in others]
        if it.is_in and not self.is_quiet() and self.is_past(it.edge, APART + self.known):
            for publisher, word in zip(others, words):
                it.ask(publisher, word)

    def refresh(self, it):
        if it.is_in and not self.is_quiet():
            for publisher, word in list(it.asked.items()):
                it.ask(publisher, word)

    def stall(self):
        if self.is_quiet() or not self.is_past(self.latest, APART + self.known):
            self.after(0.25, self.stall)
            return
        self.stalls += 1
        self.is_stalled = True
        self.unit.process.send_signal(signal.SIGSTOP)
        self.after(self.between(STALL), self.go_on)
        self.after(self.between(STALLS), self.stall)

    def go_on(self):
        self.unit.process.send_signal(signal.SIGCONT)
        self.is_stalled, self.went_on = False, self.now()

    def harm(self, it):
        if not (it.is_quiet and self.is_quiet()):
            it.harm()

    def judge(self):
        """What was sent so long before what came last has come, or is lost."""
        for it in self.clients:
            it.receive()
        for it in self.clients:
            it.judge(self.seen - FINAL)

    # ---- a quiet moment

    def look(self):
        """Nobody has asked for anything for a while: the unit is asked what holds."""
        if not self.has_seen(self.now() - BEHIND):
            self.unjudged += 1
            return
        answers, cycle = {}, int(self.now() / CYCLE)
        there = [it for it in self.clients if it.is_in]

        def note(what, text):
            answers[what] = text
            if len(answers) == 1 + len(there):
                if int(self.now() / CYCLE) == cycle:
                    self.compare(there, answers)
                else:
                    self.unjudged += 1

        self.asker.ask("present", lambda text: note(None, text))
        for it in there:
            self.asker.ask(f"show {it.number}", lambda text, number=it.number: note(number, text))

    def compare(self, there, answers):
        self.quiets += 1
        rows = [line.split() for line in answers[None].splitlines()]
        present = {int(words[0]) for words in rows if words[5] == "present"}
        for it in self.clients:
            if (it.number in present) != (it.is_in or it.is_silent):
                self.faults.add("somebody isn't present who is there, or is who isn't", f"{it.number}, {rows[it.number]}")
        for it in there:
            self.sets += 1
            self.compare_set(it, answers[it.number])

    def compare_set(self, publisher, text):
        lines = [line.split() for line in text.splitlines()]
        live = {int(words[1]): int(words[2], 16) for words in lines if words[0] in ("kept", "implied")}
        announced = {int(words[1]): int(words[2], 16) for words in lines if words[0] == "kept"}
        asked = {it.source: it.asked[publisher.number] for it in self.clients if publisher.number in it.asked}
        known = {owner: word for owner, word in live.items() if owner < FIRST}
        which = f"publisher {publisher.number}: "
        if known != asked:
            self.faults.add("the unit has other requests than were made", which + f"{sorted(known.items())}, and not {sorted(asked.items())}")
        requests = [(owner, word >> 26, word >> 9 & 0x1FFFF, word & 0x1FF) for owner, word in live.items()]
        wanted = {requests[place][0]: live[requests[place][0]] for place in model.announced(requests)}
        if announced != wanted:
            self.faults.add("the announced set isn't the smallest one", which + f"{announced}, and not {wanted}")
        if publisher.bounds != announced:
            self.faults.add("a publisher is bound by another set", which + f"{publisher.bounds}, and not {announced}")
        for it in self.clients:
            told = it.told.get(publisher.number)
            if it.is_in and told is not None and told != announced:
                self.faults.add("a subscriber was told another set", which + f"{it.number} was told {told}, and not {announced}")

    # ---- what is said

    def minute(self):
        self.asker.ask("counts", self.say)

    def say(self, text):
        counts, now = counts_of(text), self.now()
        resident = self.unit.resident()
        if self.warm is None and now >= min(WARM, WARM_SHARE * self.seconds):
            self.warm = resident
        dropped = sum(dropped_by_system(port_of(it.socket)) for it in self.clients)
        print(
            f"{now / 60:.1f} minutes, {self.turns} turns, {self.stalls} stalls: {self.sent} packets sent and {self.lost_up} lost on the way; "
            f"{self.came} came of {self.expected} that are known to have to, {self.lost_down} were lost after that and {self.repaired} repaired, {self.unrepaired} not; "
            f"to nobody {self.lost_whole}, to some and not to others {self.lost_part}; {self.quiets} quiet moments, {self.sets} sets ({self.unjudged} moments too late); of {self.timed_out} that were silent for {TIMED_OUT} s {self.kept} were kept; "
            f"unread {counts.get('unread', 0)}, stalled {counts['stalled']} ms, flooded {counts['flooded']}, far {counts['far']}, strangers {counts['strangers']}, dropped at clients {dropped}; "
            f"{resident} KB, the unit {(self.unit.cpu() - self.unit_cost) / now:.2f} of a processor, this {(time.process_time() - self.cost) / now:.2f}",
            flush=True,
        )
        for words in self.faults.words():
            print("  " + words, flush=True)
        if self.is_over:
            self.finish(counts, resident, dropped)

    def finish(self, counts, resident, dropped):
        if self.lost_whole > counts.get("unread", 0) + dropped:
            self.faults.add("packets came to nobody that the system didn't drop", f"{self.lost_whole}")
        for name in ("flooded", "failed", "lost"):
            if counts[name]:
                self.faults.add(f"{name} isn't 0", f"{counts[name]}")
        if not self.quiets:
            self.faults.add("there was no quiet moment")
        if self.seconds >= 2 * WARM and resident > GROWS * self.warm + GROWS_BY:
            self.faults.add("the unit's memory grew")
        print(f"memory: {self.warm} KB after the first minutes, {resident} KB at the end")
        print("; ".join(f"{it.did} {it.name}" for it in self.hostiles))
        self.is_done = True

    def run(self):
        self.is_done = False
        for it in self.clients:
            it.come()
            self.after(1 + self.known, lambda it=it: self.ask(it))
            self.each(1 / self.rate, it.send, it.number / self.rate / CLIENTS)
            self.each(1, it.report, 0.3 + it.number / CLIENTS)
            self.each(0.1, it.ask_for_packets, it.number / 10 / CLIENTS)
            self.each(REFRESH, lambda it=it: self.refresh(it), REFRESH * (1 + it.number / CLIENTS))
        for it in self.hostiles:
            it.report()
            self.each(1, it.report)
            self.each(RATE / self.rate / it.often, lambda it=it: self.harm(it), 1)
        self.each(0.5, self.judge)
        self.each(CYCLE, self.look, CYCLE - QUIET + SETTLE)
        self.each(60, self.minute)
        self.after(1, self.turn)
        self.after(5, self.stall)
        self.after(min(WARM, WARM_SHARE * self.seconds), self.minute)
        self.after(self.seconds, self.end)
        try:
            while not self.is_done and self.unit.process.poll() is None and self.now() < self.seconds + 2 * CYCLE:
                self.step()
        finally:
            status = self.unit.process.poll()
            self.unit.end()
        if not self.is_done:
            self.faults.add("the unit ended, or doesn't answer", f"{status} {self.unit.words()[-500:]!r}")
        for words in self.faults.words():
            print(words)
        return 1 if self.faults.count else 0

    def step(self):
        """What is due is done, and what came is taken."""
        now = self.now()
        while self.events and self.events[0][0] <= now:
            heapq.heappop(self.events)[2]()
        wait = max(0, self.events[0][0] - self.now())
        for key, _ in self.selector.select(min(wait, 0.05)):
            key.data()

    def end(self):
        if self.is_stalled:
            self.go_on()
        self.judge()
        self.is_over = True
        self.minute()


def main():
    words = argparse.ArgumentParser(description=__doc__, formatter_class=argparse.RawDescriptionHelpFormatter)
    words.add_argument("program", metavar="SFU")
    words.add_argument("minutes", metavar="MINUTES", nargs="?", type=float, default=60)
    words.add_argument("--seed", type=int, default=1)
    words.add_argument("--workers", type=int)
    words.add_argument("--rate", type=int, default=RATE)
    words.add_argument("--loss", type=float, default=1)
    words.add_argument("--rtcp-loss", type=float, default=5)
    asked = words.parse_args()
    with tempfile.TemporaryDirectory() as folder:
        return Soak(asked.program, asked.minutes * 60, asked.seed, asked.workers, asked.rate, asked.loss, asked.rtcp_loss, folder).run()


if __name__ == "__main__":
    sys.exit(main())
