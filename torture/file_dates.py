#!/usr/bin/env python3
"""Reads the files of a register by stock SQLite after each request of a random list: moments of the last change, and row numbers.

Usage: file_dates.py [REQUESTS [SEED]]     (400 1) over the proved program; SHEETDESK=PROGRAM takes another

After a new receipt each package that the request changed says the request's moment in each row of gpkg_contents. Each other package says
what it said. An item that stays in its package keeps its row number. A refused request, and one that comes again, changes no file in any of
this. Which requests get a receipt is asked of the second machine (samples/machine). Status 0 where all is so; else 1, with the first request
of which it is not.
"""

import os
import shutil
import sqlite3
import subprocess
import sys
import tempfile
from collections import Counter

TOP = os.path.join(os.path.dirname(os.path.abspath(__file__)), "..")
sys.path[:0] = [os.path.join(TOP, "samples"), os.path.join(TOP, "bench")]
sys.dont_write_bytecode = True

from machine.lists import HEADER
from program import program
from random_lists import ARCHIVE, Lists

FRAME = "25832,500000000,5900000000,540960000,5961440000,256,256,4,3,2,3"
CREATED = "2024-05-01T08:00:00.000Z"


def run(words):
    ran = subprocess.run([program(), *words], stdout=subprocess.PIPE, stderr=subprocess.PIPE)
    if ran.returncode not in (0, 1):
        sys.exit(f"{words}: status {ran.returncode}, {ran.stderr.decode()}")


def changed_by(fields):
    """The packages that an accepted request changes and that live on."""
    if fields["command"] == "split":
        return {fields["package"], fields["other"]}
    return {fields["other"] if fields["command"] == "merge" else fields["package"]}


def said_by(folder, package):
    """The moments of the last change, and the row number of each item, by a file."""
    conn = sqlite3.connect(os.path.join(folder, f"{package}.gpkg"))
    try:
        moments = {moment for (moment,) in conn.execute("SELECT last_change FROM gpkg_contents")}
        return moments, {uuid: (kind, at) for uuid, kind, at in conn.execute("SELECT uuid, kind, local_id FROM sheet_identity")}
    finally:
        conn.close()


def differences(before, after, changed, moment):
    """What is not as it has to be, package by package. changed is empty where no receipt is new."""
    for package, (moments, numbers) in after.items():
        if package in changed and moments != {moment}:
            yield f"{package} says {sorted(moments)}, and the request's moment is {moment}"
        if package not in before:
            continue
        if package not in changed and (moments, numbers) != before[package]:
            yield f"{package} was not changed, and its file says something else"
        old = before[package][1]
        for uuid in old.keys() & numbers.keys():
            if old[uuid] != numbers[uuid]:
                yield f"item {uuid} of {package} had the number {old[uuid]}, and has {numbers[uuid]}"


def main():
    if len(sys.argv) > 3 or not all(word.isdecimal() for word in sys.argv[1:]):
        sys.exit(__doc__)
    requests, seed = (int(word) for word in sys.argv[1:] + ["400", "1"][len(sys.argv) - 1:])
    lists, counts = Lists(seed), Counter()
    lists.begin(FRAME)
    room = tempfile.mkdtemp()
    folder, path = os.path.join(room, "register"), os.path.join(room, "list.csv")
    os.mkdir(folder)
    try:
        run(["init", "--archive", ARCHIVE, "--at", CREATED, "--frame", FRAME, folder])
        before = {ARCHIVE: said_by(folder, ARCHIVE)}
        for number in range(1, requests + 1):
            fields, receipts = lists.record(), len(lists.world.receipts)
            text = lists.text([HEADER, lists.as_texts(fields)])
            is_new = len(lists.world.receipts) > receipts
            with open(path, "wb") as file:
                file.write(text)
            run(["import", folder, path])
            after = {package: said_by(folder, package) for package in lists.world.packages}
            changed = changed_by(fields) if is_new else set()
            wrong = list(differences(before, after, changed, fields["at"]))
            if wrong:
                sys.exit(f"request {number} ({fields['command']}), seed {seed}: " + "; ".join(wrong))
            counts[f"{fields['command']} {'new' if is_new else 'not new'}"] += 1
            before = after
    finally:
        shutil.rmtree(room)
    print(f"{requests} requests: " + ", ".join(f"{name} {count}" for name, count in sorted(counts.items())))


if __name__ == "__main__":
    main()
