#!/usr/bin/env python3
"""Tries the edits of attacks/ crate after crate, and adds a line for each to attacks/RESULTS.csv as soon as it is known.

    tools/try_attacks.py [--sample N] [--until HH:MM] [--aside] [--lanes N] CRATE ..   tries what is not known; with no CRATE, of all crates
    tools/try_attacks.py --open      proves nothing: lists the edits that no result speaks of, and those that were not refused
    tools/try_attacks.py --table     proves nothing: prints the table of docs/ATTACKS.md, and puts RESULTS.csv in order

A line of RESULTS.csv is crate, edit, outcome, date, commit, the sum of all that was read (the crate's sources, specs and proofs, the edit, the
libraries below, the toolchain), and why. The last line of an edit counts. An edit whose sum is known is not tried again, so a later run tries only
what changed, and a run that is stopped loses nothing. The libraries below a crate must be built (rt ci or rt check builds them): a crate
that lacks one is passed over.

An edit inside the bodies of functions is checked by `rt check --only` of these functions: every other function knows them by their contracts
alone. Any other edit needs a check of the whole crate (--whole). An edit is tried only where the right bodies are proved: where the crate was
built from the same text, or else by a check of these functions first.

The outcomes, and how the two kinds of refusal are told apart:

    refused                     a clause is false or stays open. The prover found values at which a clause (or a callee's premise) is false;
                                or a goal stays open that has no answer beside it, so that the search alone closes it for the right body
    refused by a proof alone    no more was seen than that an answer, a proof or an invariant beside the function does not fit the wrong body:
                                it names a fact that the edit took away, or its terms have another type. The clauses may be right or too weak
    let through                 the functions are still proved: a clause is missing, or the edit changes nothing that matters
    does not apply              the edit does not fit the sources, or what it makes does not compile
    no verdict                  the prover met a limit, or memory or the given time ran out: said again by a later run

Edits of different functions of a crate are checked together, --together at a time: a function is checked by the contracts of the others
alone, so each verdict is that of its own edit. An edit that such a check says nothing of, or would let through, is tried once more by itself.

With --aside an edit that was refused by a proof alone is tried once more with the answers of its functions set aside, and so are the right
bodies. It counts as refused where the prover then finds values, or where a goal is open that is closed for the right bodies in the same state.
This is dear (each goal is searched), so it has its own limit, --aside-seconds. What still is not told apart needs
somebody who reads the clauses and says which one the edit breaks: --looked CRATE EDIT CLAUSE makes it refused, and keeps
both reasons.
"""
import argparse
import concurrent.futures
import contextlib
import csv
import datetime
import hashlib
import os
import re
import shutil
import signal
import subprocess
import sys
import tempfile
import threading
import time

from attacks import toolchain

ROOT = os.path.dirname(os.path.dirname(os.path.abspath(__file__)))
RESULTS = f"{ROOT}/attacks/RESULTS.csv"
HEAD = ["crate", "edit", "outcome", "date", "commit", "sum", "why"]
REFUSED, ALONE, THROUGH, NOT, NONE = (
    "refused",
    "refused by a proof alone",
    "let through",
    "does not apply",
    "no verdict",
)
ORDER = (REFUSED, ALONE, THROUGH, NOT, NONE)
FALSE = "the facts known there allow values at which"
# a proof file that names what the edit took away, and what cites that proof
NAMES = re.compile(r"(has no field|is not in scope|has no `|was not admitted)")
APPENDS = threading.Lock()


def edits():
    """Returns the names of the edits of attacks/, by crate."""
    found = {}
    for crate in sorted(os.listdir(f"{ROOT}/attacks")):
        folder = f"{ROOT}/attacks/{crate}"
        if os.path.isdir(folder):
            names = sorted(it[: -len(".edit")] for it in os.listdir(folder) if it.endswith(".edit"))
            if names:
                found[crate] = names
    return found


def read_results():
    """Returns the last line of each edit."""
    if not os.path.exists(RESULTS):
        return {}
    with open(RESULTS, encoding="utf-8", newline="") as it:
        return {
            (row["crate"], row["edit"]): {name: row.get(name) or "" for name in HEAD} for row in csv.DictReader(it)
        }


def write_results(rows, there):
    """Writes the last line of each edit that still is there, in order."""
    with open(f"{RESULTS}.new", "w", encoding="utf-8", newline="") as it:
        out = csv.DictWriter(it, HEAD, lineterminator="\n")
        out.writeheader()
        out.writerows(rows[key] for key in sorted(rows) if key[1] in there.get(key[0], ()))
    os.replace(f"{RESULTS}.new", RESULTS)


def append(row):
    with APPENDS, open(RESULTS, "a", encoding="utf-8", newline="") as it:
        csv.DictWriter(it, HEAD, lineterminator="\n").writerow(row)
        it.flush()
        os.fsync(it.fileno())


def pairs_of(path):
    """Returns the file and the old text of each pair of an edit."""
    file, found = "", []
    with open(path, encoding="utf-8") as it:
        for line in it.read().split("\n"):
            if line.startswith("file:"):
                file = line[len("file:") :].strip()
            elif line.startswith("old:"):
                found.append((file, line[len("old:") :].removeprefix(" ")))
    return found


def replaced(crate, paths):
    """Returns the texts of the files that these edits change, with all of them, or None where one does not fit beside the others."""
    texts = {}
    for path in paths:
        file, old = "", None
        with open(path, encoding="utf-8") as it:
            lines = it.read().split("\n")
        for line in lines:
            word, _, rest = line.partition(":")
            rest = rest.removeprefix(" ")
            if word == "file":
                file = rest.strip()
                if file not in texts:
                    with open(f"{crate.folder}/{file}", encoding="utf-8") as it:
                        texts[file] = it.read()
            elif word == "old":
                old = rest
            elif word == "new":
                if not old or texts.get(file, "").count(old) != 1:
                    return None
                texts[file] = texts[file].replace(old, rest)
    return texts


def function_at(text, at, file):
    """Returns the path of the function whose body has that place of a file of src/, or None where it is in no body."""
    module = re.sub(r"^src/|(/mod)?\.rt$", "", file).replace("/", "::")
    module = "" if module in ("lib", "main") else f"{module}::"
    lines, place = text.split("\n"), text.count("\n", 0, at)
    begin = next(
        (
            it
            for it in range(place, -1, -1)
            if re.match(r"( {4})?(pub(\([^)]*\))? )?((const|unsafe) )*fn \w+", lines[it])
        ),
        None,
    )
    if begin is None:
        return None
    indent = re.match(r" *", lines[begin])[0]
    end = next(
        (
            it
            for it in range(begin, len(lines))
            if lines[it] == f"{indent}}}" or it == begin and lines[it].endswith(("}", ";"))
        ),
        len(lines),
    )
    opened = next(
        (
            it
            for it in range(begin, end + 1)
            if it < len(lines)
            and (
                lines[it] == f"{indent}{{"
                or re.match(r"[^{]*(\)|\w|>|\]) \{$", lines[it])
                and not re.match(r" *(ensures|requires|ghost)", lines[it])
            )
        ),
        end,
    )
    if not opened <= place < max(end, begin + 1):
        return None
    name = re.search(r"fn (\w+)", lines[begin])[1]
    if indent:
        head = next(
            (
                lines[it]
                for it in range(begin, -1, -1)
                if re.match(r"(pub(\([^)]*\))? )?(unsafe )?(impl|trait)\b", lines[it])
            ),
            "",
        )
        head = re.sub(r"<[^<>]*>", "", re.sub(r"<[^<>]*>", "", re.sub(r"<[^<>]*>", "", head)))
        trait = re.match(r"(?:pub(?:\([^)]*\))? )?trait (\w+)", head)
        of = re.match(r"(?:unsafe )?impl (?:([\w:]+) for )?&?(?:'\w+ )?(?:mut )?([\w:]+)", head)
        if not trait and not of:
            return None
        owner = trait[1] if trait else of[2].split("::")[-1] + (of[1] or "").split("::")[-1]
        name = f"{owner}::{name}"
    return module + name


def functions_of(crate, path):
    """Returns the functions whose bodies an edit changes, or None where it changes something else."""
    found = set()
    for file, old in pairs_of(path):
        if re.match(r"(pub )?use ", old):
            # (what it brings in is named in a body)
            continue
        with open(f"{crate.folder}/{file}", encoding="utf-8") as it:
            text = it.read()
        at = text.find(old)
        name = file.startswith("src/") and at >= 0 and function_at(text, at + len(old) - len(old.lstrip()), file)
        if not name:
            return None
        found.add(name)
    return sorted(found)


class Ran:
    """What a check said."""

    def __init__(self, status, text, why=""):
        self.status, self.text, self.why = status, text, why
        self.lines = text.rstrip("\n").split("\n")

    def is_proved(self):
        return self.status == 0

    def values(self):
        """Returns the first line that tells of values at which a goal is false."""
        return next((it for it in self.lines if FALSE in it), "")

    def failed(self):
        """Returns the functions that are not proved themselves, whatever they call."""
        told = [re.match(r"fn ([\w:+]+): (no proof|not proved|could not tell)(.*)", it) for it in self.lines]
        return [it[1] for it in told if it and "it calls" not in it[3]]

    def open_goals(self):
        """Returns the goals, by function, that the search left open."""
        found = set()
        for line in self.lines:
            told = re.match(r"fn ([\w:+]+): (?:no proof|not proved).*`search` did not prove (.*)", line)
            for goal in re.findall(r"`([^`]+)`", told[2]) if told else ():
                found.add((told[1], goal))
        return found


class Part(Ran):
    """What a check of several edits said of some functions."""

    def __init__(self, ran, texts, functions):
        self.functions, self.texts = functions, texts
        super().__init__(1, "\n".join([*filter(self.is_of, ran.lines), "only="]))

    def is_of(self, line):
        told = re.match(r"fn \w+?::([\w:+]+):", line)
        if told:
            return told[1] in self.functions
        told = re.search(r"(?<![\w/])(?:\./)?proofs/([\w/+]+)/\w+\.antt:", line)
        if told:
            return told[1].replace("/", "::") in self.functions
        told = re.search(r"(?<![\w/])(?:\./)?(src/[\w/]+\.rt):(\d+):\d+:", line)
        if not told or told[1] not in self.texts:
            return False
        text = self.texts[told[1]]
        lines = text.split("\n")
        number = int(told[2])
        # (a complaint of a contract stands at the head of the function, or in a clause)
        for place in range(number - 1, min(number + 40, len(lines))):
            at = sum(len(it) + 1 for it in lines[:place])
            name = function_at(text, at, told[1])
            if name:
                return name in self.functions
        return False

    def is_told(self):
        """Returns whether each function has a verdict, and one is not proved for itself, whatever it calls."""
        told = dict(re.match(r"fn \w+?::([\w:+]+): (.*)", it).groups() for it in self.lines if it.startswith("fn "))
        own = [it for it in told.values() if it != "proved" and not it.startswith("no proof: it calls")]
        return set(told) >= set(self.functions) and own != []


def apart(tries, count):
    """Splits tries into groups of at most so many, of which no two change one function."""
    groups = []
    for one in tries:
        group = next(
            (it for it in groups if len(it) < count and not any(set(one[3]) & set(other[3]) for other in it)), None
        )
        if group is None:
            groups.append(group := [])
        group.append(one)
    return groups


class Room:
    """A copy of a crate in which its edits are checked one after the other, over one folder of kept work."""

    def __init__(self, rt, crate, said):
        self.rt, self.crate, self.said, self.guard = rt, crate, said, rt.rtlib.guarded()
        self.at = tempfile.mkdtemp(prefix=f"attacks-{crate.name}-")
        os.mkdir(f"{self.at}/kept")
        os.mkdir(f"{self.at}/crate")
        self.fill()

    def fill(self):
        for part in self.rt.rtlib.PARTS:
            if os.path.isdir(f"{self.crate.folder}/{part}"):
                shutil.rmtree(f"{self.at}/crate/{part}", ignore_errors=True)
                shutil.copytree(f"{self.crate.folder}/{part}", f"{self.at}/crate/{part}")

    def close(self):
        shutil.rmtree(self.at, ignore_errors=True)

    def check(self, texts, functions, more=(), aside=False, seconds=None):
        """Checks the crate with these texts in place of its own: these functions, or all."""
        self.fill()
        for path, text in texts.items():
            with open(f"{self.at}/crate/{path}", "w", encoding="utf-8") as it:
                it.write(text)
        for name in functions if aside else ():
            for file in self.answers(name):
                os.remove(file)
        words = [
            self.rt.rtlib.RATTLE,
            "check",
            *self.crate.words(["--jobs", "1"], keeps=False),
            "--incremental",
            f"{self.at}/kept",
        ]
        words += [it for name in functions or () for it in ("--only", name)] + list(more)
        return self.run(words, seconds or self.said.seconds)

    def answers(self, name):
        """Returns the file of answers of a function, where it has one."""
        at = f"{self.at}/crate/proofs/{name.replace('::', '/')}/Answers.antt"
        return [at] if os.path.isfile(at) else []

    def run(self, words, seconds):
        """Runs a check within its time and memory. Its words go to a file."""
        why = ""
        with open(f"{self.at}/said", "wb") as out:
            how = {"cwd": f"{self.at}/crate", "stdin": subprocess.DEVNULL, "stdout": out, "stderr": subprocess.STDOUT}
            with subprocess.Popen([*self.guard, *words], **how) as run:
                while True:
                    try:
                        run.wait(1)
                        break
                    except subprocess.TimeoutExpired:
                        late, great = spent(run.pid) > seconds, held(run.pid) > self.said.memory * 2**20
                        if late or great:
                            why = (
                                f"stopped after {seconds} seconds of a processor"
                                if late
                                else f"stopped at {self.said.memory} GB"
                            )
                            for it in [run.pid, *copies_of(run.pid)]:
                                with contextlib.suppress(OSError):
                                    os.kill(it, signal.SIGKILL)
        with open(f"{self.at}/said", encoding="utf-8", errors="replace") as it:
            return Ran(run.returncode, it.read(), why)


def copies_of(pid):
    """Returns the processes that a check forked."""
    found = []
    with contextlib.suppress(OSError):
        for it in os.listdir(f"/proc/{pid}/task"):
            with open(f"/proc/{pid}/task/{it}/children", encoding="ascii") as file:
                found += [int(one) for one in file.read().split()]
    return found


def spent(pid):
    """Returns how many seconds of a processor a process has had."""
    try:
        with open(f"/proc/{pid}/stat", encoding="ascii", errors="replace") as it:
            return sum(map(int, it.read().rpartition(")")[2].split()[11:15])) / os.sysconf("SC_CLK_TCK")
    except OSError:
        return 0


def held(pid):
    """Returns what a process holds, in KiB."""
    try:
        with open(f"/proc/{pid}/status", encoding="ascii", errors="replace") as it:
            return int((re.search(r"VmRSS:\s+(\d+)", it.read()) or [0, 0])[1])
    except OSError:
        return 0


def short(line):
    return re.sub(r"\s+", " ", line.replace("./", "", 1) if line.startswith("./") else line)[:180]


def outcome_of(rt, ran, texts):
    """Returns what the check of an edit came to, and why."""
    if ran.why:
        return NONE, ran.why
    bad = next((it for it in ran.lines if rt.unread(it, texts)), "")
    if bad and ran.status == 1:
        return NOT, f"cannot be read: {short(bad)}"
    if ran.is_proved():
        return THROUGH, ""
    if (
        ran.status == 1
        and any(re.search(r"\berror\[[\w-]+\]", it) for it in ran.lines)
        and not re.match(r"logic=|only=", ran.lines[-1])
    ):
        return NOT, "does not compile: " + short(next(it for it in ran.lines if re.search(r"\berror\[", it)))
    if ran.status == 3 or not re.match(r"logic=not-proved|only=", ran.lines[-1]):
        limit = next((it for it in ran.lines if rt.LIMITS.search(it)), ran.lines[-1])
        return NONE, f"status {ran.status}: {short(limit)}"
    if ran.values():
        return REFUSED, f"values: {short(ran.values())}"
    goals = sorted(ran.open_goals())
    if goals:
        return REFUSED, f"open: {' '.join('`'.join(['', goal, '']) + ' of ' + name for name, goal in goals)[:160]}"
    told = [it for it in ran.lines if re.match(r"(note: )?\S+:\d+:\d+:", it)]
    told = [it for it in told if ": error" in it] or told or ran.lines
    other = next((it for it in told if not NAMES.search(it)), "")
    return ALONE, f"type: {sides(ran, other)}" if other else f"name: {short(told[0])}"


def sides(ran, line):
    """Returns a complaint of an answer in short: where, and in what the goal and the answer differ."""
    at = ran.lines.index(line)
    told = " ".join(ran.lines[at : at + 3])
    found = re.search(
        r"(\S+:\d+):\d+: error: `([^`]+)`:.*?"
        r"differ only where one has `([^`]*)` \(expected\).*?the other has `([^`]*)`",
        told,
    )
    return (
        f"{found[1].removeprefix('./')} {found[2]}: the goal has `{found[3][:70]}`, its answer `{found[4][:70]}`"
        if found
        else short(line)
    )


def told_apart(room, honest, texts, functions):
    """Tries an edit that was refused by a proof alone with the answers set aside."""
    if not functions or not any(room.answers(it) for it in functions):
        return ALONE, "no answer to set aside"
    key, limit = tuple(functions), room.said.aside_seconds
    if key not in honest:
        honest[key] = room.check({}, functions, ["--allow-holes"], True, limit)
    ran = room.check(texts, functions, ["--allow-holes"], True, limit)
    if ran.why:
        return ALONE, f"answers aside: {ran.why}"
    if ran.values():
        return REFUSED, f"answers aside, values: {short(ran.values())}"
    more = ran.open_goals() - honest[key].open_goals() if not honest[key].why else set()
    if more:
        return REFUSED, "answers aside, open: " + " ".join(f"`{goal}` of {name}" for name, goal in sorted(more))[:160]
    return ALONE, "answers aside: no goal more is open than for the right body"


def sum_of(rt, crate, name, seen):
    with open(f"{ROOT}/attacks/{crate.name}/{name}.edit", "rb") as it:
        return hashlib.sha256(repr((rt.stamp_of(crate, seen), name, it.read())).encode()).hexdigest()[:16]


def chosen(names, count):
    """Returns so many of the names, from all over the list."""
    return names if not count or len(names) <= count else [names[it * len(names) // count] for it in range(count)]


class Work:
    def __init__(self, rt, said):
        self.rt, self.said, self.rows, self.seen = rt, said, read_results(), {}
        self.day = datetime.date.today().isoformat()
        self.commit = subprocess.run(
            ["git", "-C", ROOT, "rev-parse", "--short=8", "HEAD"], capture_output=True, text=True
        ).stdout.strip()
        self.worst = 0

    def is_late(self):
        return bool(self.said.until) and datetime.datetime.now().strftime("%H:%M") >= self.said.until

    def note(self, crate, name, sum, outcome, why, begun):
        row = dict(zip(HEAD, (crate.name, name, outcome, self.day, self.commit, sum, why)))
        append(row)
        self.rows[crate.name, name] = row
        self.worst |= outcome != REFUSED
        print(
            f"{datetime.datetime.now():%H:%M:%S} {time.time() - begun:4.0f} s  {crate.name} {name}: {outcome}: {why}",
            flush=True,
        )

    def open_of(self, crate, names):
        """Returns the edits of the crate of which nothing is known, with their sums. What was not told apart is tried again where answers are set aside."""
        found = []
        for name in names:
            sum, row = sum_of(self.rt, crate, name, self.seen), self.rows.get((crate.name, name), {})
            again = (
                row.get("outcome") == NONE
                or self.said.aside
                and row.get("outcome") == ALONE
                and "aside" not in row["why"]
            )
            if row.get("sum") != sum or again:
                found.append((name, sum))
        return found

    def crate(self, crate, names):
        """Tries the edits of a crate."""
        if self.is_late():
            return
        left = self.open_of(crate, chosen(names, self.said.sample))
        lacking = [it.name for it in crate.below() if not it.is_built()]
        if lacking and left:
            print(
                f"{crate.name}: passed over, since these libraries are not built here: {' '.join(lacking[:6])}",
                flush=True,
            )
            return
        tries = []
        for name, sum in left:
            path = f"{ROOT}/attacks/{crate.name}/{name}.edit"
            texts, why = self.rt.read_edit(path, crate.folder)
            if why:
                self.note(crate, name, sum, NOT, short(why), time.time())
            else:
                tries.append((name, sum, texts, functions_of(crate, path)))
        if tries:
            room = Room(self.rt, crate, self.said)
            try:
                self.room(room, crate, tries)
            finally:
                room.close()

    def are_right(self, room, crate, tries):
        """Returns whether the right bodies are proved: where the crate itself is built, the run that built it saw that."""
        if crate.is_built():
            return True
        begun, known = time.time(), sorted({it for one in tries for it in one[3] or ()})
        ran = room.check({}, known, seconds=self.said.first_seconds)
        print(
            f"{crate.name}: the right bodies: {time.time() - begun:.0f} s, {ran.why or short(ran.lines[-1])}",
            flush=True,
        )
        if not ran.is_proved():
            print("\n".join(f"    {it[:220]}" for it in ran.lines[:12]), flush=True)
        return ran.is_proved()

    def room(self, room, crate, tries):
        if not self.said.whole:
            tries = [it for it in tries if it[3]]
        if not tries or not self.are_right(room, crate, tries):
            return
        honest = {}
        alone = [it for it in tries if it[3] is None or self.is_kept_alone(crate, it)]
        for group in apart([it for it in tries if it not in alone], self.said.together):
            if self.is_late():
                return
            alone += self.group(room, crate, group) if len(group) > 1 else group
        # those of one function one after the other; those that need the whole crate last
        for one in sorted(alone, key=lambda it: (it[3] is None, it[3] or [])):
            if self.is_late():
                return
            self.one(room, crate, one, honest)

    def is_kept_alone(self, crate, one):
        """Returns whether it is known of an edit that a proof alone refuses it, and answers are to be set aside."""
        row = self.rows.get((crate.name, one[0]), {})
        return self.said.aside and row.get("sum") == one[1] and row.get("outcome") == ALONE

    def group(self, room, crate, group):
        """Tries edits of different functions by one check, and returns those of which it says nothing."""
        begun = time.time()
        texts = replaced(crate, [f"{ROOT}/attacks/{crate.name}/{it[0]}.edit" for it in group])
        if texts is None:
            return group
        functions = sorted({name for it in group for name in it[3]})
        ran = room.check(texts, functions, seconds=self.said.seconds * 2)
        lost = {it.partition("::")[2] for it in ran.failed()} - set(functions)
        if ran.why or lost or ran.status != 1 or not ran.lines[-1].startswith("only="):
            return group
        left = []
        for one in group:
            part = Part(ran, texts, one[3])
            outcome, why = outcome_of(self.rt, part, one[2]) if part.is_told() else (NONE, "")
            if outcome == REFUSED or outcome == ALONE and not self.said.aside and why:
                self.note(crate, one[0], one[1], outcome, why, begun)
            else:
                left.append(one)
        return left

    def one(self, room, crate, one, honest):
        """Tries an edit by itself."""
        name, sum, texts, functions = one
        begun, row = time.time(), self.rows.get((crate.name, name), {})
        if self.is_kept_alone(crate, one):
            outcome, why = ALONE, row["why"]
        else:
            ran, own = room.check(texts, functions), {it.rpartition("::")[2] for it in functions or ()}
            if ran.status == 2 and functions and not ran.why:
                # (the function has another name than is read here: its module stands for it)
                functions = sorted({re.sub(r"(::[A-Z]\w*)?::\w+$", "", it) for it in functions})
                ran = room.check(texts, functions)
            outcome, why = outcome_of(self.rt, ran, texts)
            if self.said.show:
                print("\n".join(f"    {it[:220]}" for it in ran.lines[:60]), flush=True)
            lost = [
                it
                for it in ran.failed()
                if functions
                and it.rpartition("::")[2] not in own
                and not any(it.partition("::")[2].startswith(one) for one in functions)
            ]
            if lost and outcome in (REFUSED, ALONE):
                outcome, why = NONE, f"another function is not proved either: {lost[0]}"
        if outcome == ALONE and self.said.aside:
            first = why
            outcome, why = told_apart(room, honest, texts, functions)
            why = why if outcome == REFUSED else f"{why}; {first}"
        self.note(crate, name, sum, outcome, why, begun)


def show_open(rows, there):
    """Prints the edits that nobody saw refused, and returns how many."""
    count = 0
    for crate, names in there.items():
        for name in names:
            outcome = rows.get((crate, name), {}).get("outcome", "untried")
            if outcome != REFUSED:
                print(f"{crate} {name}: {outcome}")
                count += 1
    print(f"{sum(map(len, there.values()))} edits, {count} not seen refused")
    return count


def counted(rows, crate, names):
    """Returns of a crate's edits how many there are, how many were refused by whom, and how many have no such end: let through, no verdict, not tried."""
    told = [rows.get((crate, it), {"outcome": "untried", "why": ""}) for it in names]
    seen = [it["outcome"] for it in told]
    looked = sum(it["outcome"] == REFUSED and it["why"].partition(":")[0] in ("looked", "") for it in told)
    refused = seen.count(REFUSED) - looked
    return [len(names), refused, looked, seen.count(ALONE), len(names) - seen.count(REFUSED) - seen.count(ALONE)]


def show_table(rows, there):
    """Prints how the edits of each crate ended, two crates a line, and the crates of which none was tried."""
    tried = {crate: names for crate, names in there.items() if any((crate, it) in rows for it in names)}
    cells = [[f"`{crate}`", *counted(rows, crate, names)] for crate, names in tried.items()]
    cells.append(["all of these", *[sum(it) for it in list(zip(*cells))[1:]]])
    half = (len(cells) + 1) // 2
    heads = ["Crate", "Edits", "Values", "Reader", "Proof", "Left"]
    print(f"| {' | '.join(heads + heads)} |")
    print("|---|" + "---|" * (2 * len(heads) - 1))
    for left, right in zip(cells[:half], cells[half:] + [[""] * len(heads)]):
        print(f"| {' | '.join(str(it or '') for it in left + right)} |")
    none = [f"`{it}` {len(names)}" for it, names in there.items() if it not in tried]
    print(f"\nOf these none was tried: {', '.join(none)}." if none else "")


def main():
    words = argparse.ArgumentParser(description=__doc__, formatter_class=argparse.RawDescriptionHelpFormatter)
    words.add_argument("--open", action="store_true", help="list what no run has seen refused")
    words.add_argument(
        "--looked",
        nargs=3,
        metavar=("CRATE", "EDIT", "CLAUSE"),
        help="note that somebody saw which clause a refused edit breaks",
    )
    words.add_argument("--table", action="store_true", help="print the table by crate")
    words.add_argument("--sample", type=int, default=0, help="at most so many of each crate, from all over its list")
    words.add_argument("--edit", action="append", help="these edits alone")
    words.add_argument("--until", default="", help="begin no check after this time of day, HH:MM")
    words.add_argument("--whole", action="store_true", help="also those edits that need a check of the whole crate")
    words.add_argument("--aside", action="store_true", help="set answers aside where a proof alone refused")
    words.add_argument("--together", type=int, default=6, help="so many edits of different functions by one check")
    words.add_argument("--lanes", type=int, default=1, help="so many crates side by side")
    words.add_argument(
        "--seconds", type=int, default=420, help="the most that a try may take, in seconds of a processor"
    )
    words.add_argument(
        "--first-seconds",
        type=int,
        default=1500,
        help="the most that the right bodies may take, in seconds of a processor",
    )
    words.add_argument(
        "--aside-seconds",
        type=int,
        default=240,
        help="the most that a try without answers may take, in seconds of a processor",
    )
    words.add_argument("--memory", type=int, default=4, help="the most that a check may hold, in GB")
    words.add_argument("--show", action="store_true", help="print what the prover says")
    words.add_argument("crates", nargs="*")
    said = words.parse_args()
    there, rows = edits(), read_results()
    if said.open:
        return 1 if show_open(rows, there) else 0
    if said.looked:
        crate, edit, clause = said.looked
        row = rows.get((crate, edit))
        if not row or row["outcome"] != ALONE:
            sys.exit("only an edit that a proof alone refused is looked at")
        append({**row, "outcome": REFUSED, "why": f"looked: {clause}; {row['why']}"})
        return 0
    if said.table:
        write_results(rows, there)
        show_table(rows, there)
        return 0
    lacking = [it for it in said.crates if it not in there]
    if lacking:
        sys.exit(f"attacks/ has no edits of {' '.join(lacking)}")
    rt = toolchain()
    os.chdir(ROOT)
    os.environ.pop(rt.rtlib.ALLOW_C, None)
    rt.rtlib.guarded()
    crates = {it.name: it for it in rt.rtlib.crates_below(ROOT)}
    work = Work(rt, said)
    with concurrent.futures.ThreadPoolExecutor(said.lanes) as lanes:
        for it in [
            lanes.submit(work.crate, crates[name], [it for it in there[name] if not said.edit or it in said.edit])
            for name in said.crates or there
        ]:
            it.result()
    return work.worst


if __name__ == "__main__":
    sys.exit(main())
