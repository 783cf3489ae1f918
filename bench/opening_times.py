#!/usr/bin/env python3
"""Times the opening of a folder of ten packages by `sheetdesk audit`, and plain Python that reads and hashes the same files, in one run.

Usage: opening_times.py [--folder FOLDER] [--program PROGRAM] [--engine] [ROUNDS [COUNT..]]
       opening_times.py --read FOLDER

(5 rounds of 10000 and 100000 items; FOLDER is where temporary files are, which should be on a disk.)

An archive takes in COUNT items, a third each tiles, media and rows, with a link for each tile, and lends nine tenths of them by nine
splits: by an import of the program, in memory, which is copied. In each round three take their turns over the same files:

- sheetdesk: `audit`, which looks at all that an opening certifies.
- reading: Python over stock SQLite, each row of each table once, and the SHA-256 of the content of each tile, medium and row (--read).
- auditing: `plain_folder.py audit`, Python that looks at the same as the program.
- engine, with --engine: `engine_floor.py`, the toolchain's engine that opens the same files and does nothing else.

Times are by the clock and of the processor, less those of the same command over an archive with nothing in it: the median of the rounds
with the least and the greatest, in seconds; the exponent from the count before; and how many times as long as reading each took. Told
too is the greatest resident memory.
"""

import argparse
import hashlib
import math
import os
import shutil
import sqlite3
import statistics
import sys
import tempfile

from engine_floor import engine, files_of
from folder_times import MEMORY, SIDES, made_of, run
from program import program
from timed_lists import List

WIDTH = 400
PARTS = 10
TILE = 256
SIZE = 1048576
OTHERS = ["gpkg_spatial_ref_sys", "gpkg_contents", "gpkg_tile_matrix_set", "gpkg_tile_matrix", "gpkgext_relations", "sheet_package",
          "sheet_identity", "tiles_media", "rows_media", "rows_tiles", "sheet_receipts", "sheet_items"]
COMMANDS = {"sheetdesk": ("sheetdesk", ["audit"]), "reading": ("reading", ["--read"]), "auditing": ("Python", ["audit"])}
ENGINE = ("engine", ["open"])


class Blocks(List):
    """Ten blocks of tiles side by side, each tile with a medium and a row on it."""

    def tile_at(self, column, row):
        identity = next(self.identities)
        self.put("add", f"{identity},,tile,12,{column},{row},,,,,,,,{(b'PNG sheet %d %d' % (column, row)).hex()}")
        return identity

    def block(self, part, count):
        for number in range(count):
            column, row = part * WIDTH + number % WIDTH, number // WIDTH
            self.link("link", "tiles_media", self.tile_at(column, row), self.medium(number))
            self.row(number, column * TILE + number % TILE, SIZE - row * TILE - number % TILE)

    def lend(self, part, count):
        child, last = next(self.identities), (count - 1) // WIDTH
        self.put("split", f",{child},strict,12,{part * WIDTH},0,{part * WIDTH + WIDTH - 1},{last},,,,,,")


def ten_packages(count):
    made, each = Blocks(), count // PARTS // 3
    for part in range(PARTS):
        made.block(part, each)
    for part in range(1, PARTS):
        made.lend(part, each)
    return made.lines, each * PARTS * 3


def read(folder):
    """Reads all rows of each file, and answers the number of items, that of the receipts, and a digest of the items' own."""
    items, receipts, all_digests = 0, 0, 0
    for name in sorted(os.listdir(folder)):
        if not name.endswith(".gpkg"):
            continue
        conn = sqlite3.connect(os.path.join(folder, name))
        contents = [
            *(b"tile %d %d %d\n" % (zoom, column, row) + data for _, zoom, column, row, data in conn.execute("SELECT * FROM sheet_tiles")),
            *(b"media " + text.encode() + b"\n" + data for _, data, text in conn.execute("SELECT * FROM sheet_media")),
            *(b"row %d %d %d\n" % (x, y, code) + label.encode() for _, x, y, code, label in conn.execute("SELECT * FROM sheet_rows")),
        ]
        for content in contents:
            all_digests ^= int.from_bytes(hashlib.sha256(content).digest(), "big")
        items += len(contents)
        for table in OTHERS:
            rows = conn.execute(f"SELECT * FROM {table}").fetchall()
            receipts += len(rows) if table == "sheet_receipts" else 0
        conn.close()
    return items, receipts, all_digests


def words_for(side, words, folder):
    return [*words, *files_of(folder)] if side == "engine" else [*words, folder]


def spelled(values):
    return f"{statistics.median(values):7.2f} ({min(values):.2f} to {max(values):.2f})"


def measure(count, rounds, place, before):
    """The rounds of one count; answers the medians by the side, and the number of items."""
    lines, items = ten_packages(count)
    receipts = len(lines)
    with tempfile.TemporaryDirectory(dir=MEMORY) as memory:
        made = shutil.copytree(made_of("sheetdesk", lines, memory), os.path.join(place, "made"))
    empty = made_of("sheetdesk", [], place)
    good = f"good {receipts}\n"
    due = {"sheetdesk": good, "auditing": good, "reading": f"{items} items, {receipts} receipts", "engine": "0"}
    took = {name: [] for name in COMMANDS}
    idle = {}
    for name, (side, words) in COMMANDS.items():
        runs = [run(side, words_for(side, words, empty)) for _ in range(5)]
        idle[name] = [statistics.median(getattr(each, what) for each in runs) for what in ("clock", "processor")]
    os.sync()
    for _ in range(rounds):
        for name, (side, words) in COMMANDS.items():
            ran = run(side, words_for(side, words, made))
            if not ran.printed.decode().startswith(due[name]):
                sys.exit(f"{name}: wanted {due[name]!r}; came {ran.printed!r}")
            took[name].append((ran.clock - idle[name][0], ran.processor - idle[name][1], ran.memory))
    size = sum(os.path.getsize(os.path.join(made, name)) for name in os.listdir(made)) / 1e6
    print(f"{items} items in {PARTS} packages of {size:.1f} MB, {receipts} receipts", flush=True)
    middles = {name: [statistics.median(each[at] for each in runs) for at in (0, 1)] for name, runs in took.items()}
    for name, runs in took.items():
        grown = ""
        if before:
            grown = "; exponents " + ", ".join(f"{math.log(new / was) / math.log(items / before[1]):.2f}" for new, was in zip(middles[name], before[0][name]))
        times = ", ".join(f"{one / other:.2f}" for one, other in zip(middles[name], middles["reading"]))
        print(f"  {name:9} s by the clock {spelled([each[0] for each in runs])}, of the processor {spelled([each[1] for each in runs])}, "
              f"{times} times reading{grown}; at most {max(each[2] for each in runs) / 1024:.0f} MiB", flush=True)
    shutil.rmtree(made)
    shutil.rmtree(empty)
    return middles, items


def main():
    words = argparse.ArgumentParser(description=__doc__, formatter_class=argparse.RawDescriptionHelpFormatter)
    words.add_argument("--folder")
    words.add_argument("--program")
    words.add_argument("--engine", action="store_true")
    words.add_argument("--read", metavar="FOLDER")
    words.add_argument("numbers", type=int, nargs="*")
    said = words.parse_args()
    if said.read:
        items, receipts, digest = read(said.read)
        print(f"{items} items, {receipts} receipts, {digest:064x}")
        return
    SIDES["sheetdesk"] = [said.program or program()]
    SIDES["reading"] = [sys.executable, os.path.abspath(__file__)]
    if said.engine:
        SIDES["engine"], COMMANDS["engine"] = [engine()], ENGINE
    rounds, counts = [*said.numbers, 5][0], said.numbers[1:] or [10000, 100000]
    print(f"load {os.getloadavg()[0]:.1f} at the start, {rounds} rounds")
    before = None
    with tempfile.TemporaryDirectory(dir=said.folder) as place:
        for count in counts:
            before = measure(count, rounds, place, before)
    print(f"load {os.getloadavg()[0]:.1f} at the end")


if __name__ == "__main__":
    main()
