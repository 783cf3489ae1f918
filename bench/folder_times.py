#!/usr/bin/env python3
"""Times `sheetdesk` over a folder of packages, and the same work by plain_folder.py over stock SQLite, in one run.

Usage: folder_times.py [--folder FOLDER] [--case NAME].. [--side sheetdesk|Python].. [--program PROGRAM] [ROUNDS [COUNT..]]
       folder_times.py --memory [COUNT..]

(3 rounds of 1000 and 10000; all cases, both sides; FOLDER is where temporary files are, which should be on a disk.)

- additions: an import of COUNT additions, a third each tiles, media and rows.
- mixed: of ten requests six additions, two links, one that takes a link off, one that deletes.
- repeats: an import of COUNT additions that were carried out before.
- small splits: an import of COUNT requests, splits of one tile each and their merges, at most 64 loans at a time, beside COUNT/2 tiles.
- one large split: an import of two requests, which lend COUNT items and bring them home; a third of them are links.
- manifest, audit: of an archive that took in COUNT items.

Each request is committed by itself and waits for the disk, on either side; and both sides open a folder with all that an audit looks
at. The folders that a case begins with are made in memory by the side's own import, before, and copied. In each round the sides take
turns; both must print the same, and no request may be refused. Times are by the clock and of the processor, less those of the same
command over an archive with nothing in it (for Python that is the interpreter's start): the median of the rounds with the least and
the greatest, for each request or item in microseconds; then the exponent with which the time of the whole grew from the count before,
and how many times as long as Python the program took.

--memory: the greatest resident memory of an import of COUNT additions, and of an audit after it (10000 and 100000), of either side.
"""

import argparse
import math
import os
import shutil
import statistics
import subprocess
import sys
import tempfile
import time
from collections import deque, namedtuple

from program import program
from timed_lists import ARCHIVE, AT, FRAME, HEADER, MOST_LOANS, List, additions, mixed

HERE = os.path.dirname(os.path.abspath(__file__))
# The first is filled in when words are read.
SIDES = {"sheetdesk": [], "Python": [sys.executable, os.path.join(HERE, "plain_folder.py")]}
MEMORY = "/dev/shm" if os.path.isdir("/dev/shm") else None

# What stands before, the words of what is timed, a list for it or None, and how many things that is.
Case = namedtuple("Case", "before words timed things")
Took = namedtuple("Took", "clock processor memory printed")


def listed(lines):
    return (HEADER + "".join(lines)).encode()


def of_additions(count):
    return Case([], "import", additions(count).lines, count)


def of_mixed(count):
    return Case([], "import", mixed(count).lines, count)


def of_repeats(count):
    lines = additions(count).lines
    return Case(lines, "import", lines, count)


def of_small_splits(count):
    made, loans = List(), deque()
    for number in range(count // 2):
        made.tile(number)
    first = len(made.lines)
    for number in range(count // 2):
        child = next(made.identities)
        made.split(child, 12, number % 4096, number // 4096)
        loans.append((child, len(made.lines)))
        if len(loans) == MOST_LOANS:
            made.merge(*loans.popleft())
    while loans:
        made.merge(*loans.popleft())
    return Case(made.lines[:first], "import", made.lines[first:], len(made.lines) - first)


def of_one_large_split(count):
    made = List()
    for number in range(count // 3):
        made.link("link", "tiles_media", made.tile(number), made.medium(number))
    first = len(made.lines)
    child = next(made.identities)
    made.split(child, 0, 0, 0)
    made.merge(child, len(made.lines))
    return Case(made.lines[:first], "import", made.lines[first:], first)


def of_manifest(count):
    return Case(additions(count).lines, "manifest", None, count)


def of_audit(count):
    return Case(additions(count).lines, "audit", None, count)


CASES = {"additions": of_additions, "mixed": of_mixed, "repeats": of_repeats, "small splits": of_small_splits, "one large split": of_one_large_split, "manifest": of_manifest, "audit": of_audit}


def run(side, words):
    """What a program takes, by itself."""
    with tempfile.TemporaryFile() as printed:
        start = time.perf_counter()
        ran = subprocess.Popen([*SIDES[side], *words], stdout=printed)
        _, status, used = os.wait4(ran.pid, 0)
        took = time.perf_counter() - start
        ran.returncode = os.waitstatus_to_exitcode(status)
        if ran.returncode != 0:
            sys.exit(f"{side} {words}: status {ran.returncode}")
        printed.seek(0)
        return Took(took, used.ru_utime + used.ru_stime, used.ru_maxrss, printed.read())


def made_of(side, lines, place):
    """A folder in which a list was carried out, and the list's file."""
    folder = tempfile.mkdtemp(dir=place)
    run(side, ["init", "--archive", ARCHIVE, "--at", AT, "--frame", FRAME, folder])
    if lines:
        path = os.path.join(place, "before.csv")
        with open(path, "wb") as file:
            file.write(listed(lines))
        refuse_none(run(side, ["import", folder, path]).printed)
    return folder


def refuse_none(report):
    if not all(line.endswith(b",0") for line in report.splitlines()[1:]):
        sys.exit("a request was refused")


def timed(side, case, begun, place, lines):
    """What a case takes over a copy of the folder that it begins with."""
    folder = os.path.join(place, "timed")
    shutil.copytree(begun, folder)
    words = [case.words, folder] + ([ARCHIVE] if case.words == "manifest" else [])
    if case.timed is not None:
        path = os.path.join(place, "timed.csv")
        with open(path, "wb") as file:
            file.write(listed(lines))
        words.append(path)
    # So that what was copied is not written while the program waits for its own.
    os.sync()
    took = run(side, words)
    shutil.rmtree(folder)
    if case.words == "import":
        refuse_none(took.printed)
    return took


def each_thing(took, idle, case):
    return [1e6 * (getattr(took, name) - getattr(idle, name)) / case.things for name in ("clock", "processor")]


def idle_of(side, case, empty, place):
    runs = [timed(side, case, empty, place, []) for _ in range(5)]
    return Took(*(statistics.median(getattr(each, name) for each in runs) for name in ("clock", "processor")), 0, b"")


def spelled(values):
    return f"{statistics.median(values):8.1f} ({min(values):.1f} to {max(values):.1f})"


def tell(name, count, side, costs, before, things):
    """One line of a case; answers the medians."""
    clock, processor = ([cost[at] for cost in costs] for at in (0, 1))
    middles = statistics.median(clock), statistics.median(processor)
    growth = ""
    if before:
        fewer, old = before
        grown = [1 + math.log(new / was) / math.log(things / fewer) if min(new, was) > 0 else float("nan") for new, was in zip(middles, old)]
        growth = f"  exponents {grown[0]:.2f}, {grown[1]:.2f}"
    print(f"{side:9} {name:15} {count:6}: us each by the clock {spelled(clock)}, of the processor {spelled(processor)}{growth}", flush=True)
    return middles


def measure(said, place, memory):
    for name in said.cases or CASES:
        before = {}
        for count in said.counts or [1000, 10000]:
            case = CASES[name](count)
            begun = {side: made_of(side, case.before, memory) for side in said.sides}
            empty = {side: made_of(side, [], memory) for side in said.sides}
            idle = {side: idle_of(side, case, empty[side], place) for side in said.sides}
            costs = {side: [] for side in said.sides}
            for _ in range(said.rounds):
                printed = set()
                for side in said.sides:
                    took = timed(side, case, begun[side], place, case.timed)
                    costs[side].append(each_thing(took, idle[side], case))
                    printed.add(took.printed)
                if len(printed) != 1:
                    sys.exit(f"{name}, {count}: the sides do not print the same")
            middles = {side: tell(name, count, side, costs[side], before.get(side), case.things) for side in said.sides}
            before = {side: (case.things, middles[side]) for side in said.sides}
            if len(middles) == 2:
                ratios = [one / other if min(one, other) > 0 else float("nan") for one, other in zip(middles["sheetdesk"], middles["Python"])]
                print(f"{'':9} {name:15} {count:6}: sheetdesk takes {ratios[0]:.2f} times as long as Python by the clock, {ratios[1]:.2f} of the processor", flush=True)
            for folder in [*begun.values(), *empty.values()]:
                shutil.rmtree(folder)


def measure_memory(said, memory):
    for count in said.counts or [10000, 100000]:
        for side in said.sides:
            lines, empty = additions(count).lines, made_of(side, [], memory)
            path = os.path.join(memory, "list.csv")
            with open(path, "wb") as file:
                file.write(listed(lines))
            size = os.path.getsize(path) / 1e6
            del lines
            took = run(side, ["import", empty, path])
            refuse_none(took.printed)
            audit = run(side, ["audit", empty])
            packages = sum(os.path.getsize(os.path.join(empty, name)) for name in os.listdir(empty)) / 1e6
            shutil.rmtree(empty)
            print(f"{side:9} {count:6} additions, a list of {size:.1f} MB, packages of {packages:.1f} MB: import at most {took.memory / 1024:.0f} MiB in "
                  f"{took.processor:.1f} s of the processor, audit {audit.memory / 1024:.0f} MiB in {audit.processor:.1f} s", flush=True)


def main():
    words = argparse.ArgumentParser(description=__doc__, formatter_class=argparse.RawDescriptionHelpFormatter)
    words.add_argument("--folder")
    words.add_argument("--program")
    words.add_argument("--memory", action="store_true")
    words.add_argument("--case", action="append", choices=CASES, dest="cases")
    words.add_argument("--side", action="append", choices=SIDES, dest="sides")
    words.add_argument("numbers", type=int, nargs="*")
    said = words.parse_args()
    said.sides = said.sides or list(SIDES)
    said.rounds, said.counts = (3, said.numbers) if said.memory else ([*said.numbers, 3][0], said.numbers[1:])
    SIDES["sheetdesk"] = [said.program or program()]
    print(f"load {os.getloadavg()[0]:.1f} at the start" + ("" if said.memory else f", {said.rounds} rounds"))
    with tempfile.TemporaryDirectory(dir=said.folder) as place, tempfile.TemporaryDirectory(dir=MEMORY) as memory:
        if said.memory:
            measure_memory(said, memory)
        else:
            measure(said, place, memory)
    print(f"load {os.getloadavg()[0]:.1f} at the end")


if __name__ == "__main__":
    main()
