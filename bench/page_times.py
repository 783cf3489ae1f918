#!/usr/bin/env python3
"""Times the page of a register beside an audit of the same folder, in one run.

Usage: page_times.py [--folder FOLDER] [--links | --loans] [--names] [ROUNDS [COUNT..]]

(3 rounds of 10000 and 100000 items, a third each tiles, media and rows; FOLDER is where temporary files are, memory where there is some.)
With --links each row is linked to a tile as well, so that there are as many links as rows. With --loans each item is a tile that was lent
and came home, so that there are three receipts an item. With --names each tile has a name.

In each round the two take turns. Times are by the clock, in seconds: the median of the rounds with the least and the greatest. The page
may take a second longer than the audit. The last line says whether it did; status 1 where it took more than that.
"""

import argparse
import functools
import os
import statistics
import subprocess
import sys
import tempfile
import time

from program import program as built
from timed_lists import ARCHIVE, AT, FRAME, HEADER, List, additions, small_splits

program = functools.cache(built)
MEMORY = "/dev/shm" if os.path.isdir("/dev/shm") else None
ALLOWED = 1.0


def linked(count):
    """Tiles, media and rows in turn, and a link of each row to the tile before it."""
    made = List()
    for number in range(count // 3):
        tile = made.tile(number)
        made.medium(number)
        row = made.row(number, number * 7919 % 1048576, 1 + number * 104729 % 1048576)
        made.link("link", "rows_tiles", row, tile)
    return made.lines


def is_tile(line):
    fields = line.split(",")
    return fields[2] == "add" and fields[6] == "tile"


def name_tiles(folder, lines):
    with open(os.path.join(folder, "names.csv"), "w", encoding="utf-8") as to:
        to.write("uuid,name\n" + "".join(f"{line.split(',')[4]},sheet {number}\n" for number, line in enumerate(filter(is_tile, lines))))


def lines_of(count, said):
    if said.loans:
        return small_splits(3 * count).lines
    return linked(count) if said.links else additions(count).lines


def made_in(place, lines):
    folder, path = os.path.join(place, "maps"), os.path.join(place, "list.csv")
    os.mkdir(folder)
    with open(path, "w", encoding="utf-8") as to:
        to.write(HEADER + "".join(lines))
    subprocess.run([program(), "init", folder, "--archive", ARCHIVE, "--at", AT, "--frame", FRAME], check=True, stdout=subprocess.DEVNULL)
    report = subprocess.run([program(), "import", folder, path], check=True, stdout=subprocess.PIPE, text=True).stdout
    assert all(line.endswith(",0") for line in report.splitlines()[1:]), "a request was refused"
    return folder


def timed(words):
    begun = time.monotonic()
    printed = subprocess.run([program(), *words], check=True, stdout=subprocess.PIPE).stdout
    return time.monotonic() - begun, len(printed)


def spelled(times):
    return f"{statistics.median(times):.2f} ({min(times):.2f} to {max(times):.2f})"


def measure(count, said):
    """Whether the page of so many items keeps within what it may take."""
    lines = lines_of(count, said)
    with tempfile.TemporaryDirectory(dir=said.folder) as room:
        folder = made_in(room, lines)
        if said.names:
            name_tiles(folder, lines)
        took, size = {"audit": [], "report": []}, 0
        for _ in range(said.rounds):
            for word, times in took.items():
                seconds, size = timed([word, folder])
                times.append(seconds)
    more = statistics.median(took["report"]) - statistics.median(took["audit"])
    print(f"{count} items: audit {spelled(took['audit'])} s, report {spelled(took['report'])} s, {more:.2f} s longer, {size} bytes", flush=True)
    return more <= ALLOWED


def main():
    words = argparse.ArgumentParser(description=__doc__, formatter_class=argparse.RawDescriptionHelpFormatter)
    words.add_argument("--folder", default=MEMORY)
    kinds = words.add_mutually_exclusive_group()
    kinds.add_argument("--links", action="store_true")
    kinds.add_argument("--loans", action="store_true")
    words.add_argument("--names", action="store_true")
    words.add_argument("rounds", nargs="?", type=int, default=3)
    words.add_argument("counts", nargs="*", type=int, default=[10000, 100000])
    said = words.parse_args()
    kept = [measure(count, said) for count in said.counts or [10000, 100000]]
    print("kept: each page took at most a second longer than the audit" if all(kept) else "NOT KEPT: a page took more than a second longer than the audit")
    sys.exit(not all(kept))


if __name__ == "__main__":
    main()
