#!/usr/bin/env python3
"""Tries the edits that `rt ci` doesn't try: edits.py [--apart] [CRATE | CRATE/NAME ..]; all of every crate in edits/, if none is named. edits.py
--look, which .ci/names calls, only lists those that don't fit the sources any more.

Each is edits/CRATE/NAME.edit, written as those of crates/CRATE/must-fail are. It is refused if the function whose body it changes isn't proved
with it. That is asked of many at once: a function's proof cites of another only its contract, so edits of different functions don't meet,
unless one of these calls the other. The edits of a crate are put into groups by that, and a group is one check, by one job, in a copy of the
crate:

- of the functions that the group changes, their proofs are checked, with all that stands in their folders of proofs/;
- every other function of the crate is taken by its contract: its proof there is a hole, which the check goes past (--allow-holes). That the
  crate is proved as it stands isn't asked again but demanded: `rt ci` has kept its proof, and those of the libraries below, on this machine,
  by the sums of their files, and gives these libraries. With --after, which the gate says, it has passed in this tree just now; where it had
  no room to keep them they are taken as it left them;
- one check comes before, with no edit: each function that one changes is proved there, over the contracts of the others. So what is refused
  later is refused for the edit.

An edit counts as refused if a goal of its function stays open, or an answer to one is no proof any more: of each the first is printed. It
doesn't count that a function calls one that isn't proved, that the prover could not tell, or that the front end turns the edit away (it
doesn't compile: mend it). Where the groups leave it open, the edit is tried alone, by the check of the whole crate that rt makes of it; so is one
of more than bodies that no function naming what it changes refuses. Where all that is refused is a proof's word for what the edit took away,
that is said, since it shows little.

With --apart each is tried alone by `rt must-fail CRATE ..`, in a copy of the tree, which takes some thirty seconds for each, and the proof of the crate first.
RT_JOBS then says how many checks go side by side; what was tried before, and what it stands on, isn't tried again.

The last line is `N refused, M not`, and the status is 0 only if each was refused.
"""
import json
import os
import re
import resource
import shutil
import signal
import subprocess
import sys
import tempfile

HERE = os.path.dirname(os.path.abspath(__file__))
TOP = os.path.dirname(os.path.dirname(HERE))
sys.path.insert(0, f"{TOP}/tools")
sys.dont_write_bytecode = True
from kept_libraries import Libraries

# What rt says of an edit that was refused: by the prover, or by a limit of it.
REFUSED = re.compile(r"must-fail (\w+/\S+\.edit): refused, as it must be")
# What is said of a proof that names what is no longer there, and of what cites that proof.
GONE = re.compile(r"has no field|is not in scope|has no `|was not admitted|is no name")
ONE_JOB = ["--jobs", "1"]
FALSE = ", and is false for some values"
# A check that is killed is made so many times: most likely it was for memory, which others held.
TRIES = 2


def put_in(crate, names, top):
    """Puts edits of a crate where rt looks for them, and returns what it calls them."""
    theirs = f"{top}/crates/{crate}/must-fail"
    shutil.rmtree(theirs, ignore_errors=True)
    os.mkdir(theirs)
    for name in names:
        shutil.copy2(f"{HERE}/edits/{crate}/{name}", theirs)
    return {f"{crate}/{it}" for it in names}


def edits_in(crate):
    return sorted(os.listdir(f"{HERE}/edits/{crate}"))


def text_of(path):
    with open(path, encoding="utf-8") as it:
        return it.read()


class Edit:
    """A file of edits/CRATE: what it changes, one line after another, and whom to ask about that."""

    def __init__(self, crate, name):
        self.label, self.path, self.changes = f"{crate}/{name}", f"{HERE}/edits/{crate}/{name}", []
        # The functions that are asked; whether it changes more than their bodies; and whether it is tried in a check of its own.
        self.asked, self.is_of_more, self.is_apart = [], False, False
        file = old = ""
        for kind, _, text in (line.partition(": ") for line in text_of(self.path).splitlines()):
            if kind == "file":
                file = text
            elif kind == "old":
                old = text
            elif kind in ("new", "new:"):
                self.changes.append((file, old, text))

    def applied(self, folder, texts):
        """Returns texts, by their path in the crate's folder, as the edit leaves them, or None if it doesn't fit."""
        texts = dict(texts)
        for file, old, new in self.changes:
            if file not in texts and os.path.isfile(f"{folder}/{file}"):
                texts[file] = text_of(f"{folder}/{file}")
            if texts.get(file, "").count(old) != 1:
                return None
            texts[file] = texts[file].replace(old, new)
        return texts

    def lines(self, folder):
        """Yields the lines that it changes: the file, the line's number from 0, and the line before and after."""
        for file, text in (self.applied(folder, {}) or {}).items():
            for at, (before, after) in enumerate(zip(text_of(f"{folder}/{file}").split("\n"), text.split("\n"))):
                if before != after:
                    yield file, at, before, after


def misfits():
    """Yields each edit whose old lines don't stand once in the file that it names, after those before them gave way."""
    for crate in sorted(os.listdir(f"{HERE}/edits")):
        for edit in (Edit(crate, it) for it in edits_in(crate)):
            if edit.applied(f"{TOP}/crates/{crate}", {}) is None:
                yield f"bench/wrong_bodies/edits/{edit.label}: its old line doesn't stand once in crates/{crate}"


class Function:
    """A function of a crate's sources, found by their layout: the line of its head, that on which its body opens, and its last one."""

    HEAD = re.compile(r"( *)(?:pub(?:\([^)]*\))? )?(const )?(?:unsafe )?(?:extern \"C\" )?fn (\w+)")

    def __init__(self, file, module, owner, lines, at):
        self.file, self.module, self.owner, self.first = file, module, owner, at
        indent, is_const, self.last_word = self.HEAD.match(lines[at]).groups()
        ends = lambda line, marks: not line.startswith(indent + " ") and line.endswith(marks)
        while not ends(lines[at], ("{", "}", ";")):
            at += 1
        self.opens = at
        # (a constant may be computed by it)
        self.has_body = lines[at][-1] != ";" and not is_const
        while not ends(lines[at], ("}", ";")):
            at += 1
        self.last = at
        self.text = "\n".join(lines[self.first : self.last + 1])
        self.words = set(re.findall(r"\w+", re.sub(r"//.*", "", self.text)))

    def holds(self, file, line):
        return self.file == file and self.first <= line <= self.last

    def has_in_body(self, line, before, after):
        """Returns whether this change of a line of it leaves its head as it is."""
        if self.first == self.last:
            return self.has_body and before.partition("{")[0] == after.partition("{")[0]
        return self.has_body and self.opens < line < self.last

    def is_named(self, name):
        """Returns whether checks may name it so, below the crate and its module: a method of Ring<Vec<u8>> as Ring+Vec+u8::find, and one of Table's
        Absorb<Batch> as TableAbsorbBatch::take."""
        *path, last = name.split("::")
        kind, trait = self.owner or ("", "")
        owner = f"{kind}.*{trait}.*" if trait else rf"{kind}(\+.*)?"
        return last == self.last_word and (re.fullmatch(owner, path[-1]) is not None if kind and path else not kind)


def owner_of(head):
    """Returns the type and the trait of an impl, or the trait that has its own bodies and ''."""
    is_trait = re.match(r"(?:pub(?:\([^)]*\))? )?trait (\w+)", head)
    if is_trait:
        return is_trait[1], ""
    depth, plain = 0, ""
    for it in head.replace("->", ""):
        depth -= it == ">"
        plain += it if not depth and it != ">" else ""
        depth += it == "<"
    plain = plain.replace("<", "").split(" where ")[0]
    trait, _, kind = plain.removeprefix("impl").rpartition(" for ")
    word = lambda it: (re.findall(r"\w+", it) or [""])[-1]
    return word(kind), word(trait)


def module_of(file):
    return [it for it in file.removesuffix(".rt").split("/")[1:] if it not in ("lib", "main", "mod")]


def functions_of(folder):
    """Returns the functions of the files below a folder src/."""
    found = []
    for at, _, names in sorted(os.walk(f"{folder}/src")):
        for name in sorted(it for it in names if it.endswith(".rt")):
            file = os.path.relpath(f"{at}/{name}", folder)
            module = module_of(file)
            lines, around, line = text_of(f"{at}/{name}").split("\n"), [], 0
            while line < len(lines):
                text = lines[line]
                indent = len(text) - len(text.lstrip(" "))
                if around and text == " " * around[-1][0] + "}":
                    around.pop()
                elif re.match(r" *(?:pub(?:\([^)]*\))? )?(?:impl\b|trait |mod \w+ \{)", text):
                    end = line
                    while not lines[end].endswith(("{", "}", ";")):
                        end += 1
                    if lines[end].endswith("{"):
                        inside = re.match(r" *(?:pub(?:\([^)]*\))? )?mod (\w+)", text)
                        around.append((indent, inside and inside[1], None if inside else owner_of(" ".join(lines[line : end + 1]).strip())))
                    line = end
                elif Function.HEAD.match(text):
                    function = Function(file, module + [it for _, it, _ in around if it], around[-1][2] if around else None, lines, line)
                    found.append(function)
                    line = function.last
                line += 1
    return found


def homes_of(folder):
    """Returns the module of each type, by the type's name."""
    found = {}
    for at, _, names in os.walk(f"{folder}/src"):
        for name in (it for it in names if it.endswith(".rt")):
            for kind in re.findall(r"(?m)^(?:pub(?:\([^)]*\))? )?(?:struct|enum|trait) (\w+)", text_of(f"{at}/{name}")):
                found[kind] = module_of(os.path.relpath(f"{at}/{name}", folder))
    return found


class Room(Libraries):
    """A copy of the crates, with libraries that `rt ci` has kept; or, if it ended in this tree just now, those that it left."""

    def __init__(self, room, is_after):
        self.top, self.is_after = f"{room}/tree", is_after
        os.makedirs(f"{self.top}/crates")
        for name in ("crates.txt", "HANDLES"):
            shutil.copy2(f"{TOP}/{name}", self.top)
        for crate in os.listdir(f"{TOP}/crates"):
            for part in ("src", "specs", "proofs"):
                if os.path.isdir(f"{TOP}/crates/{crate}/{part}"):
                    shutil.copytree(f"{TOP}/crates/{crate}/{part}", f"{self.top}/crates/{crate}/{part}")
        super().__init__(self.top)

    def give(self, crate):
        is_given, left = super().give(crate), f"{TOP}/crates/{crate.name}/out/rlib"
        if is_given or not self.is_after:
            return is_given
        # (a static library leaves none)
        if os.path.isdir(left):
            shutil.copytree(left, f"{crate.folder}/out/rlib")
        return crate.is_static or os.path.isdir(left)


class Tried:
    """A check of some functions of a crate, and what it says of each."""

    def __init__(self, ran):
        self.status, self.lines = ran.returncode, ran.stdout.split("\n")
        self.ended = any(it.startswith("only=") for it in self.lines)
        self.said = {it[1]: it[2] for it in (re.match(r"fn (\S+): (.*)", line) for line in self.lines) if it}

    def turned_away(self):
        """Returns the front end's errors, with the file and the line of each."""
        at = [re.match(r"(?:\./)?(src/\S+\.rt):(\d+):\d+: error\b.*", it) for it in self.lines]
        return [] if self.ended else [(it[1], int(it[2]) - 1, it[0]) for it in at if it]

    def is_proved(self, name):
        return self.said.get(name, "").startswith(("no holes", "depends on a hole", "proved"))


class Asked:
    """What is asked of one crate: edits of it, its functions, and what they are called."""

    def __init__(self, room, name, edits):
        self.room, self.name, self.crate, self.seconds = room, name, room.crates[name], 0.0
        self.folder, self.kept = f"{room.top}/crates/{name}", f"{room.top}/checked-{name}"
        self.functions, self.homes = functions_of(self.folder), homes_of(self.folder)
        # What is said of each function as it was built: its name, and whom it calls.
        self.calls = {}
        built = f"{self.crate.rlib}/toolchain/mir.json"
        if os.path.isfile(built):
            theirs = {it[0].partition("::")[2]: json.dumps(it[1:]) for it in json.loads(text_of(built))}
            for it, body in theirs.items():
                self.calls[it] = {other for other in re.findall(rf'"{name}::([^"]+)"', body) if other in theirs and other != it}
        self.names = {it: self.name_of(it) for it in self.functions}
        self.edits = [Edit(name, it) for it in edits]
        for edit in self.edits:
            self.read(edit)

    def name_of(self, function):
        """Returns how checks name a function, below the crate, or None if that isn't clear."""
        depth = 2 if function.owner else 1
        if self.calls:
            found = [it for it in self.calls if function.is_named(it)]
            # (a method goes by its type's module, wherever it stands)
            found = [it for it in found if it.split("::")[:-depth] == function.module] or (found if function.owner else [])
            return found[0] if len(found) == 1 else None
        kind, trait = function.owner or ("", "")
        module = function.module if trait else self.homes.get(kind, function.module)
        return "::".join([*module, *([kind + trait] if kind else []), function.last_word])

    def own(self, function):
        """Returns what begins the names of a function's closures."""
        parts = self.names[function].split("::")
        at = len(parts) - (2 if function.owner else 1)
        return "::".join([*parts[:at], "fn", *parts[at:], ""])

    def is_own(self, name, function):
        return name == self.names[function] or name.startswith(self.own(function))

    def read(self, edit):
        """Notes whom to ask about an edit: the functions whose bodies it changes; of what is no body, as a constant, those that name it."""
        for file, at, before, after in edit.lines(self.folder):
            found = next((it for it in self.functions if it.holds(file, at)), None)
            if found and found.has_in_body(at, before, after):
                edit.asked.append(found)
            else:
                edit.is_of_more, word = True, (re.findall(r"\b[A-Z][A-Z0-9_]+\b", before) or [""])[0]
                edit.asked += [it for it in self.functions if word in it.words and it.has_body]
        edit.asked = [it for it in self.functions if it in edit.asked]
        if not all(self.names[it] for it in edit.asked):
            edit.asked = []
        edit.is_apart = edit.is_of_more or not edit.asked

    def meet(self, one, other):
        """Returns whether two edits can't be told apart in one check."""
        if one.is_apart or other.is_apart or {*one.asked} & {*other.asked}:
            return True
        return any(self.is_called(a, b) or self.is_called(b, a) for a in one.asked for b in other.asked)

    def is_called(self, callee, caller):
        """Returns whether one function calls the other: as it was built, or else by the words of its body."""
        if not self.calls:
            return callee.last_word in caller.words
        own = [it for it in self.calls if self.is_own(it, caller)]
        return any(self.is_own(it, callee) for name in own for it in self.calls[name])

    def grouped(self, edits):
        groups = []
        for edit in edits:
            group = next((it for it in groups if not any(self.meet(edit, other) for other in it)), None)
            if group is None:
                groups.append([edit])
            else:
                group.append(edit)
        return groups

    def check(self, edits, asked):
        """Checks these functions, with these edits, over the contracts of all others."""
        texts = {}
        for edit in edits:
            texts = edit.applied(self.folder, texts)
        with tempfile.TemporaryDirectory(dir=self.room.top) as room:
            for part in ("src", "specs", "proofs"):
                if os.path.isdir(f"{self.folder}/{part}"):
                    shutil.copytree(f"{self.folder}/{part}", f"{room}/{part}")
            for path, text in texts.items():
                with open(f"{room}/{path}", "w", encoding="utf-8") as it:
                    it.write(text)
            every = [*self.calls] if self.calls else [it for it in self.names.values() if it]
            for name in every:
                if "+" not in name and "::fn::" not in f"::{name}" and not any(self.is_own(name, it) for it in asked):
                    self.take(name, room)
            words = [*self.crate.words(ONE_JOB, keeps=False), "--allow-holes", "--incremental", self.kept]
            for name in sorted({self.names[it] for it in asked}):
                words += ["--only", name]
            rt = self.room.rt.rtlib
            how = {"cwd": room, "stdin": subprocess.DEVNULL, "stdout": subprocess.PIPE, "stderr": subprocess.STDOUT, "errors": "replace"}
            for _ in range(TRIES):
                began = children_took()
                ran = subprocess.run([*rt.guarded(), rt.RATTLE, "check", *words], **how, check=False)
                self.seconds += children_took() - began
                if ran.returncode != -signal.SIGKILL:
                    break
        log = os.environ.get("EDITS_LOG")
        if log:
            with open(log, "a", encoding="utf-8") as it:
                it.write(f"== {self.name}: {' '.join(it.label for it in edits)}\n{ran.stdout}")
        return Tried(ran)

    def take(self, name, room):
        """Has a function taken by its contract: its proof there is a hole."""
        folder = f"{room}/proofs/{name.replace('::', '/')}"
        os.makedirs(folder, exist_ok=True)
        for it in ("Answers", "Invariants"):
            if os.path.isfile(f"{folder}/{it}.antt"):
                os.remove(f"{folder}/{it}.antt")
        *_, last = name.split("::")
        with open(f"{folder}/Proof.antt", "w", encoding="utf-8") as it:
            it.write(f"use Rattle.{self.name}.proofs.{name.replace('::', '.')}.Statement as stated\n\n")
            it.write(f"pub {last}_spec : {{M : Type 1}} → stated.statement M\n{last}_spec = ?\n")

    def goals(self, tried, function):
        """Returns the goals of a function that stay open, as they are told, and whether each shows something of a contract; none, if
        it calls one that isn't proved."""
        refused = {it for it, said in tried.said.items() if said.startswith(("not proved", "no proof"))}
        own = {it for it in refused if self.is_own(it.partition("::")[2], function)}
        if any({*re.findall(r"`([^`]+)`", tried.said[it].partition("it calls ")[2])} & (refused - own) for it in own):
            return []
        folder, closures = (f"proofs/{it.replace('::', '/')}" for it in (self.names[function], self.own(function)))
        goals = []
        for line in tried.lines if own else []:
            answer = re.match(r"(?:\./)?(proofs/\S+)\.antt(?::\d+:\d+)?: error: (.*)", line)
            if answer and (os.path.dirname(answer[1]) == folder or answer[1].startswith(closures)):
                goals.append((goal_in(answer[2]), not GONE.search(answer[2])))
            note = re.match(r"note: (src/\S+\.rt):(\d+):\d+: (.*not proved.*)", line)
            if note and function.holds(note[1], int(note[2]) - 1):
                goals.append((goal_in(note[3]), True))
        return goals

    def judge(self, tried, edit):
        """Returns whether an edit is refused, and what to say; or None, where the check leaves that open."""
        goals = [(self.names[it], *goal) for it in edit.asked for goal in self.goals(tried, it)]
        # (the one that is surely false says most)
        for name, goal, shows in sorted(goals, key=lambda it: (not it[2], FALSE not in it[1]))[:1]:
            return True, f"refused: {name}, {goal}{'' if shows else ', only since a proof names what the edit takes away'}"
        if all(tried.is_proved(f"{self.name}::{self.names[it]}") for it in edit.asked):
            return False, f"NOT REFUSED: {', '.join(self.names[it] for it in edit.asked)} is proved with it"
        return None

    def judged(self, group):
        """Tries a group, and yields each edit of it of which the check says something: whether it is refused, and what to say; or None, if it has to be tried apart."""
        if not group[0].asked:
            yield group[0], self.judged_whole(group[0])
            return
        tried = self.check(group, [it for it in self.functions if any(it in edit.asked for edit in group)])
        errors = tried.turned_away()
        blamed = [edit for edit in group if any(it.holds(file, at) for it in edit.asked for file, at, _ in errors)] or group
        for edit in group:
            verdict = self.judge(tried, edit) if tried.ended else None
            if len(group) == 1 and errors:
                verdict = False, f"it doesn't compile: {errors[0][2]}"
            elif len(group) == 1 and (not verdict or edit.is_of_more and not verdict[0]):
                verdict = self.judged_whole(edit)
            if verdict or not errors or edit in blamed:
                yield edit, verdict

    def judged_whole(self, edit):
        """Tries an edit alone, as rt does."""
        began = children_took()
        kind, said = self.room.rt.must_fail(self.crate, edit.path, ONE_JOB, self.kept)
        self.seconds += children_took() - began
        return kind in (self.room.rt.REFUSED, self.room.rt.AT_LIMIT), f"alone, {said.partition('.edit: ')[2]}"

    def run(self):
        """Tries the crate's edits, says of each what came of it, and returns how many were refused."""
        verdicts = {it: (False, "its old line doesn't stand once in the crate") for it in self.edits if it.applied(self.folder, {}) is None}
        left = [it for it in self.edits if it not in verdicts]
        asked = [it for it in self.functions if any(it in edit.asked for edit in left)]
        before = self.check([], asked)
        if not before.ended:
            print("\n".join([f"{self.name}: none is tried, since a check without them says nothing:", *before.lines[-12:]]))
            return 0
        for it in asked:
            name = f"{self.name}::{self.names[it]}"
            if not before.is_proved(name):
                print(f"{name} isn't proved over the contracts of the others: {before.said.get(name, 'the check does not speak of it')}", flush=True)
                for edit in (edit for edit in left if it in edit.asked):
                    edit.asked, edit.is_apart = [], True
        while left:
            for edit, verdict in self.judged(self.grouped(left)[0]):
                edit.is_apart = True
                if verdict:
                    verdicts[edit] = verdict
                    left.remove(edit)
                    print(f"{edit.label}: {verdict[1]}", flush=True)
        refused = sum(it for it, _ in verdicts.values())
        print(f"{self.name}: {refused} refused, {len(self.edits) - refused} not, in {self.seconds / 60:.1f} minutes of processor time", flush=True)
        return refused


def goal_in(said):
    """Returns the goal that a line speaks of: an answer's error begins with its name, and a note has it in brackets."""
    goal = re.findall(r"^`([^`]+)`:", said) or re.findall(r"\(`([^`]+)`\)", said)
    return f"`{goal[-1]}` stays open{FALSE if 'is false' in said else ''}" if goal else said[:160]


def children_took():
    used = resource.getrusage(resource.RUSAGE_CHILDREN)
    return used.ru_utime + used.ru_stime


def try_apart(asked, room):
    """Tries each edit alone, as `rt ci` does, and returns the labels of all and of those that were refused."""
    top, refused = f"{room}/tree", set()
    os.mkdir(top)
    parts = [f"{TOP}/{it}" for it in sorted(os.listdir(TOP)) if it != ".git"]
    subprocess.run(["cp", "-al", *parts, top], check=True)
    edits = set().union(*(put_in(crate, names, top) for crate, names in asked.items()))
    ran = subprocess.Popen(["rt", "must-fail", *asked], cwd=top, stdout=subprocess.PIPE, stderr=subprocess.STDOUT, text=True, errors="replace")
    for line in ran.stdout:
        print(line, end="", flush=True)
        refused.update(REFUSED.findall(line))
    status = ran.wait()
    left = sorted(edits - refused)
    print("".join(f"not refused: {it}\n" for it in left), end="")
    print(f"{len(edits) - len(left)} refused, {len(left)} not")
    return 1 if left else status


def try_together(asked, room, is_after):
    """Tries the edits of each crate in groups."""
    copy, refused, every = Room(room, is_after), 0, 0
    for crate, names in asked.items():
        every += len(names)
        lacking = copy.lacking(crate)
        if lacking:
            print(f"{crate}: none is tried, since no `rt ci` on this machine has kept the proof of {lacking} as it stands: `rt ci {lacking}`")
        else:
            refused += Asked(copy, crate, names).run()
    print(f"{refused} refused, {every - refused} not")
    return 1 if refused < every else 0


def main(*words):
    if words == ("--look",):
        found = list(misfits())
        print("".join(f"{it}\n" for it in found), end="")
        return 1 if found else 0
    flags, asked = [it for it in words if it in ("--apart", "--after")], {}
    for word in [it for it in words if it not in flags] or sorted(os.listdir(f"{HERE}/edits")):
        crate, _, name = word.partition("/")
        if not os.path.exists(f"{HERE}/edits/{crate}/{name and name + '.edit'}") or not os.path.isdir(f"{TOP}/crates/{crate}"):
            print(f"{word}: there is no such crate or edit in edits/", file=sys.stderr)
            return 2
        asked[crate] = [*asked.get(crate, []), *([f"{name}.edit"] if name else edits_in(crate))]
    # (apart, what is built is linked from this tree)
    room = tempfile.mkdtemp(prefix="wrong-", dir=os.path.dirname(TOP) if "--apart" in flags else None)
    signal.signal(signal.SIGTERM, lambda *_: sys.exit(128 + signal.SIGTERM))
    try:
        return try_apart(asked, room) if "--apart" in flags else try_together(asked, room, "--after" in flags)
    finally:
        shutil.rmtree(room, ignore_errors=True)


if __name__ == "__main__":
    sys.exit(main(*sys.argv[1:]))
