#!/usr/bin/env python3
"""Measures the greatest memory of commands that look at a package of many bytes, beside an audit of the same folder.

Usage: look_memory.py [--folder FOLDER] [TILES [BYTES]]

(2048 tiles of 20000 bytes; FOLDER is where temporary files are, memory where there is some.) Each command looks three times; the audit
is what each opening takes. A line a command: megabytes at most, and how many more than the audit.
"""

import argparse
import os
import random
import subprocess
import sys
import tempfile

from program import program
from timed_lists import ARCHIVE, AT, FRAME, HEADER, spread

MEMORY = "/dev/shm" if os.path.isdir("/dev/shm") else None
# So many tiles come in one list.
LISTED = 128
LOOKS = {
    "audit": ["audit"],
    "manifest": ["manifest", ARCHIVE],
    "export": ["export", ARCHIVE],
    "map": ["map"],
    "map --zoom 12": ["map", "--zoom", "12"],
    "report": ["report"],
}


def lists_of(count, size):
    """Lists that add so many tiles of random bytes."""
    requests, identities, draw = spread(9), spread(1), random.Random(7)
    for first in range(0, count, LISTED):
        yield HEADER + "".join(
            f"{next(requests)},{AT},add,{ARCHIVE},{next(identities)},,tile,12,{at % 4096},{at // 4096},,,,,,,,{draw.randbytes(size).hex()}\n"
            for at in range(first, min(first + LISTED, count)))


def made_in(runs, place, count, size):
    folder, path = os.path.join(place, "maps"), os.path.join(place, "list.csv")
    os.mkdir(folder)
    subprocess.run([runs, "init", folder, "--archive", ARCHIVE, "--at", AT, "--frame", FRAME], check=True, stdout=subprocess.DEVNULL)
    for text in lists_of(count, size):
        with open(path, "w", encoding="utf-8") as to:
            to.write(text)
        report = subprocess.run([runs, "import", folder, path], check=True, stdout=subprocess.PIPE, text=True).stdout
        assert all(line.endswith(",0") for line in report.splitlines()[1:]), "a request was refused"
    return folder


def greatest(runs, folder, words):
    """The greatest memory of a command, in megabytes."""
    ran = subprocess.Popen([runs, words[0], folder, *words[1:]], stdout=subprocess.DEVNULL)
    _, status, used = os.wait4(ran.pid, 0)
    ran.returncode = os.waitstatus_to_exitcode(status)
    if ran.returncode != 0:
        sys.exit(f"{words}: status {ran.returncode}")
    return used.ru_maxrss * 1024 / 1e6


def main():
    words = argparse.ArgumentParser(description=__doc__, formatter_class=argparse.RawDescriptionHelpFormatter)
    words.add_argument("--folder", default=MEMORY)
    words.add_argument("tiles", nargs="?", type=int, default=2048)
    words.add_argument("bytes", nargs="?", type=int, default=20_000)
    said = words.parse_args()
    runs = program()
    with tempfile.TemporaryDirectory(dir=said.folder) as place:
        folder = made_in(runs, place, said.tiles, said.bytes)
        audit = None
        for name, look in LOOKS.items():
            most = max(greatest(runs, folder, look) for _ in range(3))
            audit = most if audit is None else audit
            print(f"{name:14}: {said.tiles} tiles of {said.bytes} bytes, {most:6.1f} MB at most, {most - audit:6.1f} more than the audit", flush=True)


if __name__ == "__main__":
    main()
