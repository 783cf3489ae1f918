#!/usr/bin/env python3
"""Runs random request lists through `sheetdesk rehearse` and through the second machine of samples/reference.py, and compares what they print.

Usage: compare_with_reference.py [--program PROGRAM] [SEED [LISTS [REQUESTS [BROKEN]]]]      (1 12 3000 300)

LISTS lists of REQUESTS requests each: all six commands, the three mappings, loans of loans to the greatest depth, splits of both
modes, merges with right and wrong tickets, clashes of places, torn links, few identities and places so that they meet, repeats,
values at and past each limit. Then BROKEN short lists, most of them no request list at all, and as many command lines, for what the
program refuses to read. Standard output and the exit status must agree byte for byte; at the first difference the list and both
outputs are kept in /tmp/sheetdesk-difference-SEED, and the status is 1. The second machine's world is held against its receipts after
each list. At the end it says how many requests were compared, by command and by reply. PROGRAM is the proved one, or
SHEETDESK, where none is named; it may be bench/plain_rehearse.py.
"""

import argparse
import collections
import os
import subprocess
import sys

TOP = os.path.join(os.path.dirname(os.path.abspath(__file__)), "..")
sys.path[:0] = [os.path.join(TOP, "samples"), os.path.join(TOP, "bench")]
sys.dont_write_bytecode = True

import reference
from broken_lists import BrokenLists
from machine.lists import HEADER
from machine.world import audit
from program import program
from random_lists import ARCHIVE
from random_values import FRAMES

CREATED = "2024-05-01T08:00:00.000Z"


def keep(folder, files):
    os.makedirs(folder, exist_ok=True)
    for name, content in files.items():
        with open(os.path.join(folder, name), "wb") as out:
            out.write(content)


class Comparison:
    def __init__(self, program, seed):
        self.program = program
        self.seed = seed
        self.replies, self.commands, self.depths = collections.Counter(), collections.Counter(), collections.Counter()

    def run(self, frame, text, archive=ARCHIVE, at=CREATED):
        words = ["rehearse", f"--archive={archive}", f"--at={at}", f"--frame={frame}"]
        ran = subprocess.run([self.program, *words], input=text, stdout=subprocess.PIPE, stderr=subprocess.PIPE)
        return ran.stdout, ran.returncode, ran.stderr

    def compare(self, frame, text):
        done = reference.rehearse(ARCHIVE, frame, text)
        audit(done.world)
        wrote, ended, complained = self.run(frame, text)
        if (wrote, ended, complained) != (done.text.encode(), done.status, b""):
            folder = f"/tmp/sheetdesk-difference-{self.seed}"
            keep(folder, {"list.csv": text, "wanted": done.text.encode(), "written": wrote, "errors": complained, "frame": frame.encode()})
            sys.exit(f"they differ (status {ended}, wanted {done.status}): see {folder}")
        self.count(done)
        return done.requests

    def count(self, done):
        for request, reply in zip(done.requests, done.replies):
            accepted = isinstance(reply, reference.Receipt)
            self.replies[0 if accepted else reply.number] += 1
            self.commands[f"{request['command']} {'accepted' if accepted else 'refused'}"] += 1
        self.depths.update(package.depth for package in done.world.packages.values())

    def compare_words(self, archive, at, frame):
        """What the program says of the words, over a list of no request."""
        header = (",".join(HEADER) + "\n").encode()
        what = reference.refused_word(archive, at, frame)
        wanted, status = (f"refused: {what}\n", 1) if what else reference.rehearse(archive, frame, header)[:2]
        found = self.run(frame, header, archive, at)
        if found != (wanted.encode(), status, b""):
            sys.exit(f"they differ over the words {(archive, at, frame)}: {found}, wanted {wanted!r} and {status}")
        return what or "read"


def told(counter):
    return ", ".join(f"{name}: {count}" for name, count in sorted(counter.items()))


def main():
    words = argparse.ArgumentParser(description=__doc__, formatter_class=argparse.RawDescriptionHelpFormatter)
    words.add_argument("--program")
    for name, number in [("seed", 1), ("lists", 12), ("requests", 3000), ("broken", 300)]:
        words.add_argument(name, type=int, nargs="?", default=number)
    said = words.parse_args()
    made, comparison = BrokenLists(said.seed), Comparison(said.program or program(), said.seed)
    for number in range(said.lists):
        frame = FRAMES[number % len(FRAMES)]
        if len(comparison.compare(frame, made.long_list(frame, said.requests))) != said.requests:
            sys.exit(f"list {number} was no list")
    short, lines = collections.Counter(), collections.Counter()
    for _ in range(said.broken):
        short["read" if comparison.compare(FRAMES[0], made.broken_list(FRAMES[0])) else "refused or empty"] += 1
        lines[comparison.compare_words(*made.words())] += 1
    print(f"seed {said.seed}: {said.lists} lists and {sum(comparison.replies.values())} requests in all, no difference")
    print("by reply (0 accepted or repeated):", told(comparison.replies))
    print("by command:", told(comparison.commands))
    print("live packages at the end, by depth:", told(comparison.depths))
    print("short lists:", told(short), "| command lines:", told(lines))


if __name__ == "__main__":
    main()
