#!/usr/bin/env python3
"""Times `sheetdesk rehearse` on lists of each kind, and the same work by plain_rehearse.py over stock SQLite, in memory and in one run.

Usage: rehearse_times.py [--list NAME].. [--side sheetdesk|Python].. [ROUNDS [COUNT..]]      (3 100 1000 10000; all lists, both sides)

The lists are those of timed_lists.py: additions, rows in order, mixed, one split of all, small splits, kept repeats; each has COUNT
requests or a few less. In each round each list is run through both, a short one so often that 4,000 requests come together; both must
print the same. Times are of the processor, since neither side waits for anything: the median of the whole runs of the round, less
that of the list of no request in the same round (for Python that is the interpreter's start). Printed are the median, the least and
the greatest of the rounds, for each request in microseconds, and the exponent with which the time of the whole list grew from the
list before: 1 where a request costs the same however many there are.
"""

import argparse
import math
import os
import resource
import statistics
import subprocess
import sys

from program import program
from timed_lists import ARCHIVE, AT, FRAME, HEADER, LISTS

HERE = os.path.dirname(os.path.abspath(__file__))
WORDS = ["rehearse", "--archive", ARCHIVE, "--at", AT, "--frame", FRAME]
SIDES = {
    # Filled in when words are read.
    "sheetdesk": [],
    "Python": [sys.executable, os.path.join(HERE, "plain_rehearse.py"), *WORDS],
}


def processor_seconds():
    """The seconds of processor of all programs that were run and have ended."""
    used = resource.getrusage(resource.RUSAGE_CHILDREN)
    return used.ru_utime + used.ru_stime


def run(side, text):
    start = processor_seconds()
    ran = subprocess.run(SIDES[side], input=text, stdout=subprocess.PIPE, check=True)
    return processor_seconds() - start, ran.stdout


def median_run(side, text, times):
    """The median of the seconds of so many runs, and what the last one printed."""
    runs = [run(side, text) for _ in range(times)]
    return statistics.median(took for took, _ in runs), runs[-1][1]


def refused_lines(printed):
    """The lines of the report that tell of a refusal: the lists have none."""
    report = printed.split(b"\npackage ", 1)[0].split(b"\n")[1:]
    return [line for line in report if not line.endswith(b",0")]


def one_round(sides, lists):
    """Seconds for each side, list and count, less those of the empty list."""
    seconds, idle = {}, {side: median_run(side, HEADER.encode(), 21)[0] for side in sides}
    for (name, count), made in lists.items():
        printed = set()
        for side in sides:
            took, text = median_run(side, made.text(), max(1, 4000 // count))
            seconds[side, name, count] = took - idle[side]
            printed.add(text)
        if len(printed) != 1 or refused_lines(text):
            sys.exit(f"{name}, {count} requests: they do not print the same, or a request was refused")
    return seconds


def tell(measured, sides, lists):
    for side in sides:
        before = {}
        for (name, count), made in lists.items():
            number = len(made.lines)
            each = sorted(1e6 * seconds[side, name, count] / number for seconds in measured)
            middle = statistics.median(each)
            growth = ""
            if name in before and min(middle, before[name][1]) > 0:
                fewer, cost = before[name]
                growth = f"  exponent {1 + math.log(middle / cost) / math.log(number / fewer):.2f}"
            print(f"{side:9} {name:16} {number:6} requests: {middle:7.1f} us a request ({each[0]:.1f} to {each[-1]:.1f}){growth}", flush=True)
            before[name] = number, middle


def main():
    words = argparse.ArgumentParser(description=__doc__, formatter_class=argparse.RawDescriptionHelpFormatter)
    words.add_argument("--list", action="append", choices=LISTS, dest="names")
    words.add_argument("--side", action="append", choices=SIDES, dest="sides")
    words.add_argument("rounds", type=int, nargs="?", default=3)
    words.add_argument("counts", type=int, nargs="*")
    said = words.parse_args()
    sides = said.sides or list(SIDES)
    lists = {(name, count): LISTS[name](count) for name in said.names or LISTS for count in said.counts or [100, 1000, 10000]}
    if "sheetdesk" in sides:
        SIDES["sheetdesk"] = [program(), *WORDS]
    print(f"load {os.getloadavg()[0]:.1f} at the start, {said.rounds} rounds")
    tell([one_round(sides, lists) for _ in range(said.rounds)], sides, lists)
    print(f"load {os.getloadavg()[0]:.1f} at the end")


if __name__ == "__main__":
    main()
