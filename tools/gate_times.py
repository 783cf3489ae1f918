#!/usr/bin/env python3
"""Runs a command, as the gate, and tells what each crate's checks and builds took of the processors while it ran.

Usage: tools/gate_times.py COMMAND..        e.g. RT_JOBS=4 tools/gate_times.py rt ci --anew

What the command prints goes to standard output as it comes. When it has ended, standard error has a line for each crate and kind of work (its
proof, its tests, its edits, the compiler of its tests or of a program): minutes of the processor, and the greatest memory of one process;
then the sum, and the minutes by the clock. It looks at all processes of the machine once a second (/proc), so it counts those of other runs too,
and the last second of a process may be missed. The exit status is the command's.
"""

import os
import subprocess
import sys
import threading
import time

TICKS = os.sysconf("SC_CLK_TCK")
PAGE = os.sysconf("SC_PAGE_SIZE")


def words_of(pid):
    with open(f"/proc/{pid}/cmdline", encoding="utf-8", errors="replace") as it:
        return it.read().split("\0")


def crate_of(words):
    return words[words.index("--crate-name") + 1] if "--crate-name" in words else ""


def work_of(pid, words):
    """The crate and the kind of work of a process, or None if it is none of the toolchain's."""
    program = os.path.basename(words[0])
    if program == "rattle":
        crate, folder = crate_of(words), os.readlink(f"/proc/{pid}/cwd")
        if "/rt-edit-" in folder:
            return crate, "edits"
        return (crate, "tests" if "--test" in words else "proof") if crate else None
    if program == "clang":
        # it is a child of the build that it works for
        with open(f"/proc/{pid}/stat", encoding="utf-8") as it:
            parent = it.read().rsplit(")", 1)[1].split()[1]
        return crate_of(words_of(parent)), "compiler"
    return None


def cost_of(pid):
    """Seconds of the processor and bytes of memory."""
    with open(f"/proc/{pid}/stat", encoding="utf-8") as it:
        found = it.read().rsplit(")", 1)[1].split()
    return (int(found[11]) + int(found[12])) / TICKS, int(found[21]) * PAGE


def look(seen):
    for pid in filter(str.isdigit, os.listdir("/proc")):
        try:
            words = words_of(pid)
            work = words[0] and work_of(pid, words)
            if work:
                seconds, size = cost_of(pid)
                key = (pid, *work)
                seen[key] = max(seconds, seen.get(key, (0, 0))[0]), max(size, seen.get(key, (0, 0))[1])
        except (OSError, ValueError, IndexError):
            # it ended meanwhile
            pass


def watch(seen, ended):
    while not ended.wait(1):
        look(seen)


def table(before, seen):
    """The rows, dearest first; of what ran before the command did, what it took since."""
    rows = {}
    for key, (seconds, size) in seen.items():
        had = rows.get(key[1:], (0, 0))
        rows[key[1:]] = had[0] + seconds - before.get(key, (0, 0))[0], max(had[1], size)
    return sorted(rows.items(), key=lambda row: -row[1][0])


def main():
    if len(sys.argv) < 2:
        sys.exit(__doc__)
    before, seen, ended, start = {}, {}, threading.Event(), time.time()
    look(before)
    watcher = threading.Thread(target=watch, args=[seen, ended], daemon=True)
    watcher.start()
    status = subprocess.run(sys.argv[1:], check=False).returncode
    ended.set()
    watcher.join()
    rows = table(before, seen)
    for (crate, kind), (seconds, size) in rows:
        print(f"{crate:20} {kind:9} {seconds / 60:6.1f} min {size / 1e9:5.1f} GB", file=sys.stderr)
    print(f"all of it {sum(cost[0] for _, cost in rows) / 60:.1f} minutes of the processor, {(time.time() - start) / 60:.1f} by the clock", file=sys.stderr)
    return status


if __name__ == "__main__":
    sys.exit(main())
