#!/usr/bin/env python3
"""Takes the power away from a folder of packages, by a model of a disk: what a reported request did stands, and what is left is a world.

Usage: power_folder.py [--program PROGRAM] [--opener PROGRAM] [--keep FOLDER] [--seed N] [STATES]      (1; 400)

PROGRAM is the proved one, or SHEETDESK, where none is named; it may be a Python file as bench/plain_folder.py, or "./sheetdesk --unproved" with an opener. One import of
samples/archive.csv is run under `strace`, which writes down each call that makes, writes, cuts, syncs or removes a file, with all its
bytes. Each state is one that a disk may be left in after the first so many of these calls:

- of a file stays what was there at its last sync; each later write or cut is lost, or there, or there in part (some of its bytes);
- a file that was made or removed is so for sure once its folder was synced.

Where all later changes are kept, that is what a killed program leaves. Then the program opens what is left, or the opener where one is
named: with bench/plain_folder.py stock SQLite reads what the program wrote. Every request whose line was reported must stand, and at
most one more; each live package is to the byte as it was then; a second import of the list goes on from there (as in kill_folder.py).
--keep copies the folder that the import itself made, for torture/stock_folder.sh. What must come is worked out by the second
machine. Status 0 where all is as it must be; else 1, with the first state that is not.
"""

import argparse
import os
import random
import re
import shutil
import subprocess
import sys
from collections import Counter

import kill_folder
from kill_folder import ARCHIVE, AT, FRAME, LIST, REPORT, Wrong, begun, expect, folder_of, named_or_proved, program, right, stands

CALLS = "openat,open,creat,pwrite64,write,fsync,fdatasync,ftruncate,unlink,unlinkat,rename,renameat,renameat2,pwritev,writev,fallocate"
CALL = re.compile(r"(\d+) +(\w+)\((.*)\) += (-?\d+)(?:<.*?>(?:\(deleted\))?)?[^>]*$")
REPORT_LINE = re.compile(rb"line,request,seq,refusal\n|\d+,[0-9a-f-]{36},\d+,\d+\n")
FILE = re.compile(r"(\d+)<([^>]*)>(\(deleted\))?")
TEXT = re.compile(r'"((?:\\x[0-9a-f]{2})*)"')


def unspelled(text):
    """The bytes of a text of strace's, each spelled by two digits."""
    return bytes.fromhex(text.replace("\\x", ""))


class Node:
    """A file's content: what is on the disk for sure, and what was done to it since."""

    def __init__(self, content=b""):
        self.settled, self.pending = bytes(content), []

    def left(self, draw, chance):
        """What a loss of power leaves, where each change since the last sync is kept at this chance."""
        content = bytearray(self.settled)
        for change, at, data in self.pending:
            if draw.random() >= chance:
                continue
            if change == "cut":
                del content[at:]
                content.extend(bytes(at - len(content)))
                continue
            first, last = 0, len(data)
            if chance < 1 and draw.random() < 0.3:
                first, last = sorted(draw.randint(0, len(data)) for _ in range(2))
            content.extend(bytes(max(0, at + last - len(content))))
            content[at + first:at + last] = data[first:last]
        return bytes(content)

    def sync(self):
        self.settled, self.pending = self.left(random, 1), []


class Disk:
    """The files of one folder."""

    def __init__(self, folder):
        self.folder, self.pending = folder, []
        self.settled = {}
        for name in os.listdir(folder):
            with open(os.path.join(folder, name), "rb") as file:
                self.settled[name] = Node(file.read())
        self.now = dict(self.settled)

    def name_of(self, path):
        return os.path.relpath(path, self.folder) if path.startswith(self.folder + "/") else None

    def make(self, name):
        if name not in self.now:
            self.now[name] = Node()
            self.pending.append((name, self.now[name]))

    def remove(self, name):
        del self.now[name]
        self.pending.append((name, None))

    def sync_names(self):
        self.settled, self.pending = dict(self.now), []

    def left(self, draw, chance):
        names = dict(self.settled)
        for name, node in self.pending:
            if draw.random() < chance:
                if node is None:
                    names.pop(name, None)
                else:
                    names[name] = node
        return {name: node.left(draw, chance) for name, node in names.items()}


def event_of(name, words, answer, folder):
    """What a call does to the files of a folder or to the report: the kind, the path, the bytes and the place; or None."""
    texts = [unspelled(text) for text in TEXT.findall(words)]
    if name in ("openat", "open", "creat"):
        path = texts[0].decode()
        if not path.startswith(folder):
            return None
        right("O_TRUNC" not in words and name != "creat", f"a call that is not understood: {name} {words[:200]}")
        return ("make", path, b"", 0) if "O_CREAT" in words else None
    if name in ("unlink", "unlinkat"):
        return ("remove", texts[-1].decode(), b"", 0) if texts[-1].decode().startswith(folder) else None
    file = FILE.match(words)
    if name == "write" and texts and REPORT_LINE.fullmatch(texts[0]):
        return "report", "", texts[0], 0
    path = "" if file is None else unspelled(file[2]).decode() if file[2].startswith("\\x") else file[2]
    if file is None or file[3] or not path.startswith(folder):
        return None
    if name == "pwrite64":
        return "write", path, texts[0][:answer], int(words.rsplit(", ", 1)[1])
    if name == "ftruncate":
        return "cut", path, b"", int(words.rsplit(", ", 1)[1])
    right(name in ("fsync", "fdatasync"), f"a call that is not understood: {name} {words[:200]}")
    return "sync", path, b"", 0


def events_of(folder, words):
    """What one run does to the files of a folder and to its report, in its order."""
    trace = os.path.join(kill_folder.work, "trace")
    strace = ["strace", "-f", "--seccomp-bpf", "-y", "-xx", "-s", "4000000", "-o", trace, "-e", f"trace={kill_folder.known(CALLS.split(','))}"]
    ran = subprocess.run([*strace, *program, *words], stdin=subprocess.DEVNULL, stdout=subprocess.PIPE, check=False)
    right((ran.returncode, ran.stdout.decode()) == (0, REPORT), f"an import under strace: status {ran.returncode}")
    events, reporting = [], None
    with open(trace, encoding="utf-8") as lines:
        for line in lines:
            found = CALL.match(line)
            if found is None or found[4].startswith("-"):
                continue
            event = event_of(found[2], found[3], int(found[4]), folder)
            # A line may go on through other programs: the first that writes one counts.
            if event and event[0] == "report":
                reporting = reporting or found[1]
                if found[1] != reporting:
                    continue
            if event:
                events.append(event)
    return events


def carry(disk, event):
    """Does one of them to the model; answers how many lines were reported by it."""
    what, path, data, at = event
    if what == "report":
        return data.count(b"\n")
    if what == "sync" and path == disk.folder:
        disk.sync_names()
        return 0
    name = disk.name_of(path)
    if name is None:
        return 0
    if what == "make":
        disk.make(name)
    elif what == "remove":
        disk.remove(name)
    elif what == "sync":
        disk.now[name].sync()
    else:
        disk.now[name].pending.append((what, at, data))
    return 0


def lose_power(events, start, at, draw, chance):
    """The folder as it may be left after so many events; answers how many records were reported by then."""
    disk = Disk(start)
    lines = sum(carry(disk, (what, path.replace(FOLDER, start, 1), data, place)) for what, path, data, place in events[:at])
    left = folder_of("left")
    os.mkdir(left)
    for name, content in disk.left(draw, chance).items():
        with open(os.path.join(left, name), "wb") as file:
            file.write(content)
    return left, max(0, lines - 1)


FOLDER = ""


def main():
    global FOLDER
    words = argparse.ArgumentParser(description=__doc__, formatter_class=argparse.RawDescriptionHelpFormatter)
    words.add_argument("--program")
    words.add_argument("--opener")
    words.add_argument("--keep", metavar="FOLDER")
    words.add_argument("--seed", type=int, default=1)
    words.add_argument("states", type=int, nargs="?", default=400)
    said = words.parse_args()
    said.program = said.program or named_or_proved()
    draw, told, status = random.Random(said.seed), Counter(), 0
    with kill_folder.room() as kill_folder.work:
        try:
            os.mkdir(os.path.join(kill_folder.work, "empty"))
            kill_folder.use(said.opener or said.program)
            expect(["init", "--archive", ARCHIVE, "--at", AT, "--frame", FRAME, os.path.join(kill_folder.work, "empty")], 0, f"archive {ARCHIVE}\n")
            FOLDER, start = begun(), begun("start")
            kill_folder.use(said.program)
            events = events_of(FOLDER, ["import", FOLDER, LIST])
            if said.keep:
                shutil.copytree(FOLDER, said.keep)
            kill_folder.use(said.opener or said.program)
            print(f"{len(events)} calls: {dict(Counter(what for what, *_ in events))}", flush=True)
            for number in range(said.states):
                at, chance = draw.randint(0, len(events)), [0, 0.5, 0.9, draw.random(), 1][number % 5]
                left, count = lose_power(events, start, at, draw, chance)
                try:
                    ahead = stands(left, count) - count
                except Wrong as wrong:
                    raise Wrong(f"power lost after {at} of {len(events)} calls, with {count} records reported, later changes kept at {chance:.2f}: {wrong}") from None
                told["one request more stood" if ahead else "what was reported stood"] += 1
        except (Wrong, subprocess.TimeoutExpired) as wrong:
            print(f"wrong: {wrong}", file=sys.stderr)
            status = 1
    print(f"{sum(told.values())} states: {dict(told)}")
    sys.exit(status)


if __name__ == "__main__":
    main()
