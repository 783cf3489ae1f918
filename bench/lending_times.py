#!/usr/bin/env python3
"""Times splits and merges of a rehearsal by what stands beside them: what they do not move, and other live packages.

Usage: lending_times.py [--program PROGRAM] [ROUNDS [QUESTION..]]      (3; all of cut, split, packages)

- cut: a strict split of 1,000 tiles out of 10,000 and 100,000, refused since one tile has a link to a medium that a tile elsewhere has
  too; so the cut is found, and nothing is moved. The rectangle has its tiles in one block of 32 columns at one zoom.
- split: 100 tiles lent out of 1,000, 10,000 and 100,000, and brought home.
- packages: a request that is kept, one that is refused, an addition, and a small split with its merge, where 1, 16 and 256 packages live.

A list is run with so many of the requests in question at its end, and without them: the difference of the times of the processor,
divided by how many they are. Each is run ROUNDS times in turn; printed are the median, the least and the greatest of the differences
within a round, in microseconds a request (a split with its merge counts as one). What is printed is held against the second machine
once for each list of at most 20,000 requests. PROGRAM is the proved one, or SHEETDESK, where none is named; it may be bench/plain_rehearse.py.
"""

import argparse
import os
import resource
import statistics
import subprocess
import sys
import time

HERE = os.path.dirname(os.path.abspath(__file__))
sys.path.insert(0, os.path.join(HERE, "..", "samples"))
sys.dont_write_bytecode = True

import reference
from program import program as named_or_proved
from timed_lists import ARCHIVE, AT, FRAME, HEADER, List

WORDS = ["rehearse", "--archive", ARCHIVE, "--at", AT, "--frame", FRAME]
WIDTH = 32
ZOOM = 12


class Lending(List):
    """Tiles of the deepest zoom, in blocks of so many columns; packages come and go."""

    def __init__(self):
        super().__init__()
        self.seq = 0

    def put(self, command, rest, package=ARCHIVE, is_refused=False):
        super().put(command, rest, package)
        self.seq += not is_refused

    def tile_at(self, column, row):
        identity = next(self.identities)
        self.put("add", f"{identity},,tile,{ZOOM},{column},{row},,,,,,,,{(b'PNG sheet %d %d' % (column, row)).hex()}")
        return identity

    def block(self, number, count):
        """So many tiles side by side; the block of the number lies east of those before it, or south where no room is left."""
        east, south = number % (4096 // WIDTH) * WIDTH, number // (4096 // WIDTH) * (count // WIDTH + 1)
        return [self.tile_at(east + at % WIDTH, south + at // WIDTH) for at in range(count)]

    def lend(self, rows, is_refused=False):
        """The first block, of so many rows."""
        child = next(self.identities)
        self.put("split", f",{child},strict,{ZOOM},0,0,{WIDTH - 1},{rows - 1},,,,,,", is_refused=is_refused)
        return child

    def lend_tile(self, column, row):
        child = next(self.identities)
        self.put("split", f",{child},strict,{ZOOM},{column},{row},{column},{row},,,,,,")
        return child


def torn_cut(stands, asked):
    """1,000 tiles in a block and all others elsewhere; a medium is linked to a tile of either."""
    made = Lending()
    inside = made.block(0, 1000)
    outside = [tile for number in range(1, stands // 1000) for tile in made.block(number, 1000)]
    medium = made.medium(1)
    made.link("link", "tiles_media", inside[500], medium)
    made.link("link", "tiles_media", outside[0], medium)
    for _ in range(asked):
        made.lend(1000 // WIDTH + 1, is_refused=True)
    return made


def there_and_back(stands, asked):
    """100 tiles are lent and come home, and the others stay."""
    made = Lending()
    for number in range(stands // 100):
        made.block(number, 100)
    for _ in range(asked):
        child = made.lend(100 // WIDTH + 1)
        made.merge(child, made.seq)
    return made


def among_packages(live, ask):
    """As many live packages, of a tile each; then what is asked."""
    made = Lending()
    kept = len(made.lines)
    for number in range(300):
        made.tile_at(number, 4095)
    for number in range(live - 1):
        made.lend_tile(number, 4095)
    return ask(made, kept)


def kept(asked):
    def ask(made, first):
        made.lines += [made.lines[first + number % 200] for number in range(asked)]
        return made
    return ask


def refused(asked):
    """An item that is nowhere is deleted."""
    def ask(made, _):
        for _ in range(asked):
            made.put("delete", f"{next(made.identities)},,,,,,,,,,,,,", is_refused=True)
        return made
    return ask


def added(asked):
    def ask(made, _):
        for number in range(asked):
            made.tile_at(number % 4096, number // 4096)
        return made
    return ask


def one_tile_there_and_back(asked):
    def ask(made, _):
        for _ in range(asked):
            child = made.lend_tile(299, 4095)
            made.merge(child, made.seq)
        return made
    return ask


CASES = {
    "cut": [(f"1,000 tiles, the cut alone, of {stands:,}", 200, lambda asked, stands=stands: torn_cut(stands, asked)) for stands in (10_000, 100_000)],
    "split": [(f"100 tiles there and back, of {stands:,}", 100, lambda asked, stands=stands: there_and_back(stands, asked)) for stands in (1_000, 10_000, 100_000)],
    "packages": [
        (f"{name}, {live} live", asked, lambda asked, live=live, ask=ask: among_packages(live, ask(asked)))
        for name, asked, ask, most in (
            ("kept", 10_000, kept, 256),
            ("refused", 10_000, refused, 256),
            ("added", 10_000, added, 256),
            ("one tile there and back", 500, one_tile_there_and_back, 255),
        )
        for live in (1, 16, most)
    ],
}


def processor_seconds():
    used = resource.getrusage(resource.RUSAGE_CHILDREN)
    return used.ru_utime + used.ru_stime


def run(program, text):
    start, clock = processor_seconds(), time.monotonic()
    ran = subprocess.run([program, *WORDS], input=text, stdout=subprocess.PIPE, check=True)
    return processor_seconds() - start, time.monotonic() - clock, ran.stdout


def is_right(made, printed):
    if len(made.lines) > 20_000:
        return True
    return reference.rehearse(ARCHIVE, FRAME, made.text()).text.encode() == printed


def tell(program, name, asked, case, rounds):
    with_them, without = case(asked), case(0)
    found, clocks, base = [], [], []
    for at in range(rounds):
        fewer, fewer_clock, _ = run(program, without.text())
        more, more_clock, printed = run(program, with_them.text())
        if at == 0 and not is_right(with_them, printed):
            sys.exit(f"{name}: the second machine prints another text")
        found.append(1e6 * (more - fewer) / asked)
        clocks.append(1e6 * (more_clock - fewer_clock) / asked)
        base.append(fewer)
    found.sort()
    print(f"{name:45} {asked:6}: {statistics.median(found):10.1f} us of the processor ({found[0]:.1f} to {found[-1]:.1f}), "
          f"{statistics.median(clocks):10.1f} of the clock; the list without them {statistics.median(base):.2f} s", flush=True)


def main():
    words = argparse.ArgumentParser(description=__doc__, formatter_class=argparse.RawDescriptionHelpFormatter)
    words.add_argument("--program")
    words.add_argument("rounds", type=int, nargs="?", default=3)
    words.add_argument("questions", nargs="*")
    said = words.parse_args()
    ours = said.program or named_or_proved()
    print(f"load {os.getloadavg()[0]:.1f} at the start, {said.rounds} rounds")
    for question in said.questions or CASES:
        for name, asked, case in CASES[question]:
            tell(ours, name, asked, case, said.rounds)
    print(f"load {os.getloadavg()[0]:.1f} at the end")


if __name__ == "__main__":
    main()
