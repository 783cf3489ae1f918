#!/usr/bin/env python3
"""Gives random lists to `sheetdesk` from files, and compares the lines on standard error with those of the second machine.

Usage: list_faults.py [--program PROGRAM] [SEED [LISTS [IMPORTS]]]      (1 400 8)

Most of the lists are none: a field of another form, a record of another length, another header, or torn bytes. The line has to name the record and
the column that samples/machine/list_faults.py names, to the byte; of a text that is a list nothing may be said. At the first difference
the list is kept in /tmp/sheetdesk-list-SEED.csv, and the status is 1. Then IMPORTS lists of requests are carried out in a folder each: the first 20
refusals and the number of the others have to be those of the second machine.
"""

import argparse
import collections
import os
import re
import subprocess
import sys
import tempfile

TOP = os.path.join(os.path.dirname(os.path.abspath(__file__)), "..")
sys.path[:0] = [os.path.join(TOP, "samples"), os.path.join(TOP, "bench")]
sys.dont_write_bytecode = True

import reference
from broken_lists import BrokenLists
from machine.list_faults import fault_line
from program import program
from random_lists import ARCHIVE
from random_values import FRAMES

REASONS = """IdReused UnknownPackage PackageUsed BadText TooLarge IdentityUsed UnknownItem WrongKind BadPlace OutOfFrame PlaceTaken LinkThere UnknownLink
    Linked BadRectangle TooDeep NothingToLend CutLink Foreign Stale LoanOpen Collides TooMany""".split()
WORDS = ["rehearse", f"--archive={ARCHIVE}", "--at=2024-05-01T08:00:00.000Z", f"--frame={FRAMES[0]}"]


def said(path, text):
    """What the program says on standard error of a list in a file."""
    with open(path, "wb") as out:
        out.write(text)
    with open(path, "rb") as given:
        return run(WORDS, given).stderr.decode()


def run(words, given=None):
    return subprocess.run([PROGRAM, *words], stdin=given, stdout=subprocess.PIPE, stderr=subprocess.PIPE)


def carried(reply):
    """What stands behind the name of a reason, by what the second machine knows."""
    texts = {
        18: "item {} is linked with an item that stays",
        20: "the last receipt is {}",
        21: "loan {} is not home",
        22: "the place of tile {} is taken",
    }
    return ": " + texts[reply.number].format(reply.detail) if reply.number in texts else ""


def refusal_lines(replies):
    """A line for each of the first refusals, and how many there are besides."""
    refused = [(number, reply) for number, reply in enumerate(replies, 1) if not isinstance(reply, reference.Receipt)]
    lines = [f"record {number}: refusal {reply.number} {REASONS[reply.number - 1]}{carried(reply)}\n" for number, reply in refused[:20]]
    return lines + [f"and {len(refused) - 20} more\n"] * (len(refused) > 20)


def imported(path, text):
    """What an import of a list into a new folder says on standard error, and what it has to say."""
    with open(path, "wb") as out:
        out.write(text)
    with tempfile.TemporaryDirectory() as room:
        folder = os.path.join(room, "sheets")
        os.mkdir(folder)
        made = run(["init", folder, *WORDS[1:]])
        assert made.returncode == 0, made
        return run(["import", folder, path]).stderr.decode(), "".join(refusal_lines(reference.rehearse(ARCHIVE, FRAMES[0], text).replies))


given = argparse.ArgumentParser()
given.add_argument("--program")
given.add_argument("seed", nargs="?", type=int, default=1)
given.add_argument("lists", nargs="?", type=int, default=400)
given.add_argument("imports", nargs="?", type=int, default=8)
asked = given.parse_args()
PROGRAM = asked.program or program()
made, kinds = BrokenLists(asked.seed), collections.Counter()
path = f"/tmp/sheetdesk-list-{asked.seed}.csv"
for _ in range(asked.lists):
    text = made.broken_list(FRAMES[0])
    line = fault_line(text)
    wanted = "" if line is None else line + "\n"
    found = said(path, text)
    if found != wanted:
        sys.exit(f"they differ: {found!r}, wanted {wanted!r}: see {path}")
    kinds[re.sub("[0-9]+", "N", line or "a list")] += 1
for number in range(asked.imports):
    found, wanted = imported(path, made.long_list(FRAMES[0], 20 + 40 * number))
    if found != wanted:
        sys.exit(f"an import says {found!r}, wanted {wanted!r}: see {path}")
    kinds["an import, and its refusals"] += 1
os.remove(path)
for kind, count in kinds.most_common():
    print(f"{count:5} {kind}")
