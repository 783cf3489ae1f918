#!/usr/bin/env python3
"""Imports a long list from a file, and measures the time and the greatest memory: a list is read twice, and not held.

Usage: list_memory.py [--folder FOLDER] [--most MEGABYTES] [--served] [ADDITIONS]
       SHEETDESK=PROGRAM list_memory.py ..    over another program than the proved one

(1,000,000 additions in 200 MB; FOLDER is where temporary files are, memory where there is some.) The additions are a third each tiles, media
and marks. The report must have a line for each, in their order, and none refused; `audit` must count as many receipts. With `--served` the
list goes to a desk that serves the folder, and it is the memory of the client that is measured. Status 0 where all is so.
"""

import argparse
import os
import signal
import subprocess
import sys
import tempfile
import time

from running_desk import free_port

from program import program
from timed_lists import ARCHIVE, AT, FRAME, HEADER, spread

MEMORY = "/dev/shm" if os.path.isdir("/dev/shm") else None
# How long a desk may take to listen, in seconds.
PATIENCE = 60


def content(at):
    """The fields of an addition behind its identity."""
    if at % 3 == 0:
        return f",tile,12,{at % 4096},{at // 4096},,,,,,,,{(b'PNG sheet %d' % at).hex()}"
    if at % 3 == 1:
        return f",media,,,,,,,,,,image/png,{(b'PNG legend %d' % at).hex()}"
    return f",row,,,,,,{at * 7919 % 1048576},{1 + at * 104729 % 1048576},{at % 1000},,mark {at},"


def write_list(path, count):
    requests, identities = spread(9), spread(1)
    with open(path, "w", encoding="ascii") as to:
        to.write(HEADER)
        for at in range(count):
            to.write(f"{next(requests)},{AT},add,{ARCHIVE},{next(identities)},{content(at)}\n")


def look_at_report(path, count):
    """Each request has its line, its own receipt and no refusal."""
    requests = spread(9)
    with open(path, encoding="ascii") as report:
        assert next(report) == "line,request,seq,refusal\n", "the first line is another"
        for at in range(1, count + 1):
            line = next(report, "")
            assert line == f"{at},{next(requests)},{at},0\n", f"line {at}: {line!r}"
        assert not report.read(1), "there are more lines than requests"


def begin_desk(runs, folder):
    """A desk over the folder, which listens."""
    words = [runs, "serve", folder, str(free_port())]
    desk = subprocess.Popen(words, stdin=subprocess.DEVNULL, stdout=subprocess.DEVNULL, stderr=subprocess.DEVNULL)
    begun = time.monotonic()
    while not os.path.exists(os.path.join(folder, "sheetdesk.desk")):
        if desk.poll() is not None or time.monotonic() - begun > PATIENCE:
            desk.kill()
            sys.exit("the desk does not listen")
        time.sleep(0.05)
    return desk


def imported(runs, folder, path, report):
    """The seconds that an import takes, and its greatest memory in megabytes."""
    begun = time.monotonic()
    with open(report, "wb") as to:
        ran = subprocess.Popen([runs, "import", folder, path], stdin=subprocess.DEVNULL, stdout=to)
        _, status, used = os.wait4(ran.pid, 0)
    ran.returncode = os.waitstatus_to_exitcode(status)
    assert ran.returncode == 0, f"import ended with status {ran.returncode}"
    return time.monotonic() - begun, used.ru_maxrss * 1024 / 1e6


def tried(runs, room, count, served):
    folder, path, report = (os.path.join(room, name) for name in ("maps", "list.csv", "report.csv"))
    os.mkdir(folder)
    made = [runs, "init", folder, "--archive", ARCHIVE, "--at", AT, "--frame", FRAME]
    subprocess.run(made, check=True, stdout=subprocess.DEVNULL)
    write_list(path, count)
    desk = begin_desk(runs, folder) if served else None
    try:
        seconds, most = imported(runs, folder, path, report)
    finally:
        if desk:
            desk.send_signal(signal.SIGTERM)
            desk.wait()
    look_at_report(report, count)
    said = subprocess.run([runs, "audit", folder], check=True, stdout=subprocess.PIPE, text=True).stdout
    assert said.splitlines()[0] == f"good {count}", said
    return seconds, most, os.path.getsize(path) / 1e6


def main():
    words = argparse.ArgumentParser(description=__doc__, formatter_class=argparse.RawDescriptionHelpFormatter)
    words.add_argument("--folder", default=MEMORY)
    words.add_argument("--most", type=int, default=200)
    words.add_argument("--served", action="store_true")
    words.add_argument("additions", nargs="?", type=int, default=1_000_000)
    said = words.parse_args()
    with tempfile.TemporaryDirectory(dir=said.folder) as room:
        seconds, most, size = tried(program(), room, said.additions, said.served)
    who = "the client of a desk" if said.served else "import"
    print(f"{said.additions:,} additions, {size:.0f} MB: {who} took {seconds:.1f} s, {most:.1f} MB at most", flush=True)
    if most > said.most:
        sys.exit(f"more than {said.most} MB")


if __name__ == "__main__":
    main()
