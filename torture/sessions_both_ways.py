#!/usr/bin/env python3
"""Every command prints the same with a desk and without: all sessions of the gate, carried out both ways.

Usage: sessions_both_ways.py [--jobs N] [--whole] [FOLDER ..]     (only the lines over these folders; else all)
       SHEETDESK=PROGRAM sessions_both_ways.py ..                 over another program than the proved one

The lines are those of `crates/sheetdesk/data/sessions.txt`, which has those of the README's first session
(`samples/first_session.txt`). Each is a command of its own, in two copies of the data. In one of them no desk runs; in
the other a desk serves the folder of the line. Standard output, standard error, the exit status and the file that is
written must be the same bytes, and without a desk standard output is also what the gate has. Each line that is not is
printed with both, and the folder is then copied, so that the lines behind it begin alike. Folders have no part in each
other, so they go side by side.

What no desk can have a part in is carried out in both copies without one: `init`, `rehearse`, `serve`, `holds`,
`completions`, wrong words, and all commands over a folder that does not open. `mkdir` and `rm` are done by this script.
Comments, lines that are none of a session and sessions are passed over. The last lines count all of that. Status 0
where all lines agree.
"""

import argparse
import collections
import concurrent.futures
import itertools
import os
import shutil
import signal
import subprocess
import sys
import tempfile
import threading

from running_desk import TOP, free_port

from program import program

PROGRAM = program()
CRATE = os.path.join(TOP, "crates", "sheetdesk")
# A folder of the sessions whose log they remove.
LOGLESS = "whole"
# The archive of the sample.
ARCHIVE = "6f0d3a52-9c1e-4b7a-8f24-1d5be07c9a10"
WITHOUT = {"init", "rehearse", "serve", "holds", "completions"}
# Options with a value behind them.
VALUED = {"--archive", "--as", "--at", "--box", "--code", "--count", "--frame", "--from", "--geometry", "--label"}
VALUED |= {"--last", "--names", "--points", "--qgis", "--request", "--serve", "--tiles", "--type", "--zoom"}
MOST_SHOWN = 600
# Longer than an unproved program takes for a line.
PATIENCE = 1200

ports, port_lock = set(), threading.Lock()


def new_port():
    """A port that is free, and that no other thread has."""
    with port_lock:
        for _ in range(1000):
            port = free_port()
            if port not in ports:
                ports.add(port)
                return port
    sys.exit("no port is free")


class Line:
    """A line of the sessions: where it stands, its words, its folder, and what it reads."""

    def __init__(self, number, text):
        self.number, self.text = number, text
        typed, _, self.given = text.partition(" < ")
        words = typed.split(" ")
        self.words = words[1:] if words[0] == "./sheetdesk" else None
        self.kind = (self.words or [""])[0] if self.words is not None else words[0]
        self.places = list(self.placed())
        if self.kind == "mkdir":
            self.path = words[-1]
            self.folder = os.path.normpath(self.path)
        elif self.kind == "rm":
            self.path = words[-1]
            self.folder = os.path.normpath(os.path.dirname(self.path) or self.path)
        else:
            has_folder = self.kind not in {"rehearse", "holds", "completions"} and self.places
            self.folder = os.path.normpath(self.places[0]) if has_folder else None

    def placed(self):
        """The words behind the command that are no options and no values of such."""
        words = iter((self.words or [])[1:])
        for word in words:
            if word in VALUED:
                next(words, None)
            elif not word.startswith("-"):
                yield word

    def written(self):
        """The file that is written, if any."""
        return self.places[2] if self.kind == "get" and len(self.places) > 2 else None


class Side:
    """A copy of the data, and the desk in it, if any."""

    def __init__(self, room):
        self.room = room
        self.desk, self.served = None, None

    def run(self, line, sample):
        """What a command prints, how it ends, and the file that it writes."""
        given = subprocess.DEVNULL
        if line.given:
            given = open(os.path.join(self.room, line.given), "rb")
        elif line.kind == "rehearse" and ARCHIVE in line.words:
            # (the first of them reads all that there is)
            given = open(sample, "rb")
        try:
            done = subprocess.run(
                [PROGRAM, *line.words], cwd=self.room, stdin=given, capture_output=True, check=False, timeout=PATIENCE
            )
        finally:
            if given != subprocess.DEVNULL:
                given.close()
        kept, path = b"no file", line.written() and os.path.join(self.room, line.written())
        if path and os.path.isfile(path):
            with open(path, "rb") as it:
                kept = it.read()
        status = b"%d" % done.returncode
        return {"standard output": done.stdout, "standard error": done.stderr, "status": status, "file": kept}

    def serve(self, folder):
        """Whether a desk serves the folder; one is begun where none is there."""
        if self.desk and self.served == folder and self.desk.poll() is None:
            return True
        self.end()
        desk = subprocess.Popen(
            [PROGRAM, "serve", folder, str(new_port())],
            cwd=self.room,
            stdin=subprocess.DEVNULL,
            stdout=subprocess.PIPE,
            stderr=subprocess.PIPE,
        )
        said = desk.stderr.readline()
        if said.startswith(b"listening"):
            self.desk, self.served = desk, folder
            return True
        desk.communicate()
        return False

    def end(self):
        """Ends the desk, if one is there."""
        if self.desk:
            self.desk.send_signal(signal.SIGTERM)
            self.desk.communicate()
            self.desk, self.served = None, None


class Pair:
    """Both copies, and what was found of their lines."""

    def __init__(self, room, whole):
        self.alone, self.beside = (Side(os.path.join(room, name)) for name in ("alone", "beside"))
        self.whole = whole
        self.ways, self.differing = collections.Counter(), []

    def by_hand(self, line):
        """Makes a folder, or removes a file."""
        self.beside.end()
        for side in (self.alone, self.beside):
            path = os.path.join(side.room, line.path)
            try:
                os.mkdir(path) if line.kind == "mkdir" else os.remove(path)
            except OSError:
                # (the line is there for that fault)
                pass
        self.ways["mkdir or rm, by this script"] += 1

    def way(self, line):
        """How the second copy carries a line out."""
        if line.kind in {"rehearse", "holds", "completions"}:
            return "without a desk: no folder"
        if line.kind in WITHOUT:
            self.beside.end()
            return f"without a desk: {line.kind}"
        if line.folder == LOGLESS:
            return "without a desk: its log is removed, which has what a desk did that was ended"
        if not line.folder:
            return "without a desk: no folder"
        if not os.path.isdir(os.path.join(self.beside.room, line.folder)):
            return "without a desk: the folder is not there"
        if self.beside.serve(line.folder):
            return "with a desk"
        return "without a desk: the folder does not open"

    def again(self, folder):
        """Makes the folder of the second copy like that of the first."""
        self.beside.end()
        first, second = (os.path.join(side.room, folder) for side in (self.alone, self.beside))
        shutil.rmtree(second, ignore_errors=True)
        if os.path.isdir(first):
            shutil.copytree(first, second)

    def shown(self, bytes_):
        text = bytes_.decode(errors="replace")
        return text if self.whole or len(text) <= MOST_SHOWN else f"{text[:MOST_SHOWN]}.. ({len(bytes_)} bytes)"

    def note(self, line, alone, beside, names):
        """Prints in what the two differ."""
        self.differing.append(line)
        parts = [f"line {line.number}: {line.text}"]
        for what in alone:
            if alone[what] != beside[what]:
                for name, side in zip(names, (alone, beside)):
                    parts.append(f"  {what} {name}:\n{self.shown(side[what])}")
        print("\n".join(parts), flush=True)

    def lacks_input(self, line):
        """Whether the file is not there that a line reads."""
        return bool(line.given) and not os.path.isfile(os.path.join(self.alone.room, line.given))

    def carry_out(self, line, sample):
        """Carries a line out both ways."""
        if line.kind in {"mkdir", "rm"}:
            self.by_hand(line)
            return
        if line.words is None or line.kind == "session":
            self.ways["passed over: a session in a session, or no line of one"] += 1
            return
        if self.lacks_input(line):
            self.ways["passed over: what it reads is not there"] += 1
            return
        alone = self.alone.run(line, sample)
        self.ways[self.way(line)] += 1
        beside = self.beside.run(line, sample)
        if alone != beside:
            self.note(line, alone, beside, ("without a desk", "with a desk"))
            if line.folder:
                self.again(line.folder)
        elif printed(alone) != line.printed:
            self.note(line, {"it": printed(alone)}, {"it": line.printed}, ("prints", "prints at the gate"))


def printed(found):
    """What a session prints of a line behind it."""
    status = found["status"]
    return found["standard output"] + (b"" if status == b"0" else b"status %s\n" % status)


def read_lines():
    """The lines that are no comments, each with what the gate prints of it."""
    with open(os.path.join(CRATE, "data", "sessions.txt"), encoding="utf-8") as it:
        texts = it.read().splitlines()
    with open(os.path.join(CRATE, "stdout"), "rb") as it:
        whole = it.read()
    are_typed = [bool(text) and not text.startswith("#") for text in texts]
    heads = [("$ " if is_typed else "").encode() + text.encode() + b"\n" for is_typed, text in zip(are_typed, texts)]
    lines, at = [], 0
    for index, head in enumerate(heads):
        assert whole.startswith(head, at), f"line {index + 1} does not stand in the output of the gate"
        at += len(head)
        if are_typed[index]:
            behind = next((later for later in range(index + 1, len(heads)) if are_typed[later]), len(heads) - 1)
            line = Line(index + 1, texts[index])
            end = whole.index(b"".join(heads[index + 1 : behind + 1]), at) if index + 1 < len(heads) else len(whole)
            line.printed, at = whole[at:end], end
            lines.append(line)
    return lines


def groups_of(lines):
    """The lines over each folder, in their order. What lies in a folder is of its group."""
    groups = collections.defaultdict(list)
    for line in lines:
        parts = (line.folder or "").split("/")
        groups["/".join(parts[:2] if parts[0] == "folders" else parts[:1])].append(line)
    return groups


def carried_out(room, folder, lines, whole):
    """Carries out the lines over one folder, in copies of their own."""
    for name in ("alone", "beside"):
        shutil.copytree(os.path.join(CRATE, "data"), os.path.join(room, name))
    pair = Pair(room, whole)
    try:
        for line in lines:
            pair.carry_out(line, os.path.join(CRATE, "stdin"))
    finally:
        pair.beside.end()
        shutil.rmtree(room)
    print(f"{folder or 'no folder'}: {len(lines)} lines, {len(pair.differing)} differ", file=sys.stderr, flush=True)
    return pair


def read_words():
    parser = argparse.ArgumentParser(description=__doc__, formatter_class=argparse.RawDescriptionHelpFormatter)
    parser.add_argument("--jobs", type=int, default=os.cpu_count(), help="how many folders are worked in at once")
    parser.add_argument("--whole", action="store_true", help="print long texts whole")
    parser.add_argument("folders", nargs="*", metavar="FOLDER")
    return parser.parse_args()


def main():
    asked = read_words()
    groups = groups_of(read_lines())
    if asked.folders:
        groups = {folder: lines for folder, lines in groups.items() if folder in asked.folders}
    ways, differing = collections.Counter(), []
    with tempfile.TemporaryDirectory() as room, concurrent.futures.ThreadPoolExecutor(asked.jobs) as workers:
        begun = itertools.count()
        works = [
            workers.submit(carried_out, os.path.join(room, str(next(begun))), folder, lines, asked.whole)
            for folder, lines in groups.items()
        ]
        for work in concurrent.futures.as_completed(works):
            pair = work.result()
            ways += pair.ways
            differing += pair.differing
    for way, count in sorted(ways.items(), key=lambda item: -item[1]):
        print(f"{count:5} {way}")
    counted = collections.Counter(line.kind for line in differing).most_common()
    kinds = ", ".join(f"{kind} {count}" for kind, count in counted)
    verdict = f"{len(differing)} differ: {kinds}" if differing else "all print the same both ways"
    print(f"{sum(ways.values())} lines, {ways['with a desk']} with a desk: {verdict}")
    return 1 if differing else 0


if __name__ == "__main__":
    sys.exit(main())
