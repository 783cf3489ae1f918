#!/usr/bin/env python3
"""Runs a command, as a check or the gate, and tells which functions its checks spent their time on.

Usage: tools/check_times.py [--rows N] [--keep FILE] COMMAND..      e.g. tools/check_times.py rt ci test_pure

A check puts each module into a folder of temporary files as soon as it is checked (TMPDIR/rattle-logic-built-locked-PID-N). Once a second its
processor time, and which modules are new, are read; the time between is shared out by the moments at which the modules were written. So a module
costs what came before it: the first of a crate has the loading of the libraries below. Nothing is traced, so no check is slower for it. All checks
of the machine are seen that write there meanwhile.

When the command has ended, standard error has for each check its crate, its kind and minutes of the processor, and the N dearest functions in
seconds (20 where none is given); after all, the N dearest of all checks. --keep FILE writes the same there as CSV each minute, so a run that is
stopped tells what it saw. The exit status is the command's.
"""

import argparse
import collections
import csv
import os
import subprocess
import sys
import tempfile
import threading
import time

TICKS = os.sysconf("SC_CLK_TCK")
FOLDER = "rattle-logic-built-locked-"
ENDING = ".oantt"


def text_of(path):
    with open(path, encoding="utf-8", errors="replace") as it:
        return it.read()


def work_of(pid):
    """What a process checks, as crate and kind, or None where it is no check."""
    words = text_of(f"/proc/{pid}/cmdline").split("\0")
    if os.path.basename(words[0]) != "rattle" or "--crate-name" not in words:
        return None
    folder = os.readlink(f"/proc/{pid}/cwd")
    kind = "edit" if "/rt-edit-" in folder else "tests" if "--test" in words else words[1]
    return f"{words[words.index('--crate-name') + 1]} {kind}"


def seconds_of(pid):
    """Seconds of the processor that a process has taken."""
    fields = text_of(f"/proc/{pid}/stat").rsplit(")", 1)[1].split()
    return (int(fields[11]) + int(fields[12])) / TICKS


def function_of(module):
    """The function or type that a module is of: its last names that begin with a capital are those of parts of a proof."""
    parts = module.removesuffix(ENDING).split("-", 2)[-1].split(".")
    while len(parts) > 2 and parts[-1][:1].isupper():
        parts.pop()
    return ".".join(parts)


class Check:
    """One check: which of its modules were seen, and what each function cost."""

    def __init__(self, work):
        self.work, self.seen, self.seconds, self.moment = work, set(), 0.0, None
        self.costs = collections.Counter()

    def note(self, seconds, modules):
        """Shares the time since the last look out to the modules that are new, by the moments at which they were written."""
        spent, self.seconds = seconds - self.seconds, seconds
        start = self.moment or modules[0][0]
        whole = modules[-1][0] - start
        for moment, module in modules:
            share = (moment - start) / whole if whole > 0 else 1 / len(modules)
            self.costs[function_of(module)] += spent * share
            start = max(start, moment) if whole > 0 else start
            self.seen.add(module)
        self.moment = modules[-1][0]


def look(folder, checks):
    """Looks once at the folder of a check."""
    pid = os.path.basename(folder).removeprefix(FOLDER).split("-")[0]
    if folder not in checks:
        work = work_of(pid)
        if work is None:
            return
        checks[folder] = Check(work)
    check = checks[folder]
    seconds = seconds_of(pid)
    with os.scandir(folder) as files:
        modules = sorted((it.stat().st_mtime_ns, it.name) for it in files if it.name.endswith(ENDING) and it.name not in check.seen)
    if modules:
        check.note(seconds, modules)


def watch(ended, checks, keep):
    """Looks at all checks once a second, until it is told to end."""
    kept = time.monotonic()
    while not ended.wait(1):
        for name in os.listdir(tempfile.gettempdir()):
            if name.startswith(FOLDER):
                try:
                    look(os.path.join(tempfile.gettempdir(), name), checks)
                except (OSError, IndexError, ValueError):
                    # it ended meanwhile
                    pass
        if keep and time.monotonic() - kept > 60:
            kept = time.monotonic()
            write(keep, checks)


def rows_of(checks):
    """Crate and kind, function and seconds, the dearest first."""
    found = [(check.work, function, cost) for check in checks.values() for function, cost in check.costs.items()]
    return sorted(found, key=lambda row: -row[2])


def write(path, checks):
    with open(path, "w", encoding="utf-8", newline="") as it:
        table = csv.writer(it)
        table.writerow(["check", "function", "seconds"])
        table.writerows((work, function, f"{cost:.1f}") for work, function, cost in rows_of(checks) if cost >= 0.5)


def tell(checks, rows):
    for check in sorted(checks.values(), key=lambda it: it.work):
        print(f"{check.work}: {check.seconds / 60:.1f} minutes", file=sys.stderr)
        for function, cost in check.costs.most_common(rows):
            print(f"  {cost:7.1f} {function}", file=sys.stderr)
    print("all", file=sys.stderr)
    for work, function, cost in rows_of(checks)[:rows]:
        print(f"  {cost:7.1f} {work} {function}", file=sys.stderr)


def main():
    parser = argparse.ArgumentParser(description=__doc__, formatter_class=argparse.RawDescriptionHelpFormatter)
    parser.add_argument("--rows", type=int, default=20)
    parser.add_argument("--keep")
    parser.add_argument("command", nargs=argparse.REMAINDER)
    given = parser.parse_args()
    if not given.command:
        parser.error("no command")
    checks, ended = {}, threading.Event()
    watcher = threading.Thread(target=watch, args=[ended, checks, given.keep], daemon=True)
    watcher.start()
    status = subprocess.run(given.command, check=False).returncode
    ended.set()
    watcher.join()
    if given.keep:
        write(given.keep, checks)
    tell(checks, given.rows)
    return status


if __name__ == "__main__":
    sys.exit(main())
