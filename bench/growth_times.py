#!/usr/bin/env python3
"""How time and memory of the program grow with a register: each work over more and more, and the exponent from the size before.

Usage: growth_times.py [--folder FOLDER] [--case NAME].. [--program PROGRAM] [--hold] [COUNT..]

(10000 and 100000; 1000000 reaches the limit of a kind, and takes some ten minutes and gigabytes of memory. FOLDER is where the files are:
/dev/shm unless said, so that no disk is measured. All cases unless some are named.)

- rows: an import of COUNT survey marks into one archive, with a commit each; then an audit and a manifest of it, and one mark more.
- split: all of COUNT tiles lent in one loan, which comes home.
- loans: COUNT/10 loans of one mark, each lent and brought home before the next; one package file has to be left.
- live: as many loans of one mark as may live (255) beside COUNT marks; then `status`.

Each work is a process of its own. Times are by the clock, of one run; memory is the greatest resident memory. No request may be refused.
With --hold the status is 1 where loans grow by an exponent of more than 1.1, or a manifest takes more than 60 MB beside an audit.
"""

import argparse
import math
import os
import shutil
import sys
import tempfile

import folder_times
from folder_times import made_of, refuse_none, run
from program import program
from timed_lists import ARCHIVE, HEADER, List

LIVE = 255
MOST_EXPONENT, MOST_BESIDE = 1.1, 60 * 1000 * 1000


def kept(place, made):
    """A file with the requests of a list."""
    path = os.path.join(place, "list.csv")
    with open(path, "w", encoding="ascii") as out:
        out.write(HEADER)
        out.writelines(made.lines)
    return path


def carry_out(place, folder, made):
    took = run("sheetdesk", ["import", folder, kept(place, made)])
    refuse_none(took.printed)
    return took


def of_rows(place, count):
    folder, made = made_of("sheetdesk", [], place), List()
    for number in range(count):
        made.spread_row(number)
    yield "additions", count, carry_out(place, folder, made)
    yield "audit", count, run("sheetdesk", ["audit", folder])
    yield "manifest", count, run("sheetdesk", ["manifest", folder, ARCHIVE])
    made.lines.clear()
    made.row(count, 5, 5)
    yield "one mark more", count, carry_out(place, folder, made)
    shutil.rmtree(folder)


def of_split(place, count):
    folder, made = made_of("sheetdesk", [], place), List()
    for number in range(count):
        made.tile(number)
    carry_out(place, folder, made)
    made.lines.clear()
    child = next(made.identities)
    made.split(child, 0, 0, 0)
    yield "one split", count, carry_out(place, folder, made)
    made.lines.clear()
    made.merge(child, count + 1)
    yield "its merge", count, carry_out(place, folder, made)
    shutil.rmtree(folder)


def of_loans(place, count):
    folder, made = made_of("sheetdesk", [], place), List()
    made.row(0, 5, 5)
    for number in range(count // 10):
        child = next(made.identities)
        made.split(child, 0, 0, 0)
        made.merge(child, len(made.lines))
    yield "loans", count // 10, carry_out(place, folder, made)
    left = [name for name in os.listdir(folder) if name.endswith(".gpkg")]
    if len(left) != 1:
        sys.exit(f"{len(left)} package files are left")
    shutil.rmtree(folder)


def of_live(place, count):
    folder, made = made_of("sheetdesk", [], place), List()
    # on the first sheets of the finest zoom, a mark each; the others elsewhere
    for number in range(LIVE):
        made.row(number, 256 * number + 5, 1048576 - 5)
    for number in range(count):
        made.row(number, number % 1048576, 5)
    for number in range(LIVE):
        made.split(next(made.identities), 12, number, 0)
    yield "255 loans", count, carry_out(place, folder, made)
    yield "status of 256", count, run("sheetdesk", ["status", folder])
    shutil.rmtree(folder)


CASES = {"rows": of_rows, "split": of_split, "loans": of_loans, "live": of_live}


def grown(before, took, count):
    """The exponent with which the time grew, where the work was done before over less."""
    if before is None:
        return None
    fewer, earlier = before
    return math.log(took.clock / earlier.clock) / math.log(count / fewer)


def broken(work, took, exponent, audit):
    """What does not hold of a work; nothing where all does."""
    if work == "loans" and exponent is not None and exponent > MOST_EXPONENT:
        return f"loans grow by an exponent of {exponent:.2f}"
    # memory is in KiB
    if work == "manifest" and (took.memory - audit.memory) * 1024 > MOST_BESIDE:
        return f"a manifest takes {(took.memory - audit.memory) / 1024:.0f} MiB beside an audit"
    return None


def main():
    words = argparse.ArgumentParser(description=__doc__, formatter_class=argparse.RawDescriptionHelpFormatter)
    words.add_argument("--folder", default=folder_times.MEMORY)
    words.add_argument("--program")
    words.add_argument("--hold", action="store_true")
    words.add_argument("--case", action="append", choices=CASES, dest="cases")
    words.add_argument("counts", type=int, nargs="*")
    said = words.parse_args()
    folder_times.SIDES["sheetdesk"] = [said.program or program()]
    print(f"{'work':14} {'things':>8} {'seconds':>9} {'MiB':>7}  exponent   (load {os.getloadavg()[0]:.1f})")
    faults = []
    for name in said.cases or CASES:
        before = {}
        for count in said.counts or [10000, 100000]:
            with tempfile.TemporaryDirectory(dir=said.folder) as place:
                for work, things, took in CASES[name](place, count):
                    exponent = grown(before.get(work), took, things)
                    told = "" if exponent is None else f"{exponent:.2f}"
                    print(f"{work:14} {things:8} {took.clock:9.2f} {took.memory / 1024:7.0f}  {told}", flush=True)
                    before[work] = things, took
                    fault = broken(work, took, exponent, before.get("audit", (0, took))[1])
                    faults += [fault] if fault else []
    print("; ".join(["no request was refused", *faults]))
    return 1 if said.hold and faults else 0


if __name__ == "__main__":
    sys.exit(main())
