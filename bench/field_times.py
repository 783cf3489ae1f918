#!/usr/bin/env python3
"""Times how an edited file comes home, beside plain Python that reads the file and compares SHA-256, in one run.

Usage: field_times.py [--folder FOLDER] [--tiles COUNT] [--bytes SIZE] [--changed NUMBER] [--engine] [ROUNDS]

(3 rounds of 10000 tiles of 20000 bytes, 10 of them changed; FOLDER is where temporary files are.)

The program makes an archive with the tiles, and exports it; stock sqlite3 makes the file, and changes some tiles by SQL. Then, in turns:

- sheetdesk: `holds | sqlite3 crew.gpkg > holds.csv`, and then `bring --dry-run --summary < holds.csv`; the last round brings in earnest.
- audit: the folder opened, and nothing asked of it: what each command without a desk takes first.
- engine, with --engine: `engine_floor.py`, the toolchain's engine that opens the archive's file and does nothing else.
- Python: opens the file by its sqlite3, reads each tile, and compares its SHA-256 with a dictionary of those before; tells which differ.
  It opens no register, keeps no list and checks nothing else.

Times are by the clock: the median of the rounds with the least and the greatest. The greatest resident memory is told
of `bring`, of the audit and of the engine.
"""

import argparse
import hashlib
import os
import random
import shutil
import statistics
import subprocess
import sys
import tempfile
import time

from engine_floor import opened as opened_by_engine
from program import program

ARCHIVE, AT = "a0000000-0000-4000-8000-000000000000", "2026-05-04T07:30:00.000Z"
FRAME = "25832,0,0,102400000,102400000,256,256,0,1,400,400"
HEADER = "request,at,command,package,identity,other,kind,zoom,column,row,last_column,last_row,x,y,code,ticket,text,data\n"


def uuid_of(number):
    return f"{number:08x}-0000-4000-8000-000000000000"


def tiles(count, size):
    rng = random.Random(7)
    for number in range(count):
        yield number, number % 400, number // 400, rng.randbytes(size)


def made(sheetdesk, room, count, size):
    """An archive with the tiles, and its export as a file; the digest of each place."""
    folder, path, listed = (os.path.join(room, name) for name in ("maps", "crew.gpkg", "first.csv"))
    os.mkdir(folder)
    subprocess.run([sheetdesk, "init", folder, "--archive", ARCHIVE, "--at", AT, "--frame", FRAME], check=True, stdout=subprocess.DEVNULL)
    digests = {}
    with open(listed, "w", encoding="ascii") as out:
        out.write(HEADER)
        for number, column, row, data in tiles(count, size):
            digests[0, column, row] = hashlib.sha256(data).digest()
            out.write(f"{uuid_of(number + 1)},{AT},add,{ARCHIVE},{uuid_of(number + 1)},,tile,0,{column},{row},,,,,,,,{data.hex()}\n")
    report = subprocess.run([sheetdesk, "import", folder, listed], check=True, stdout=subprocess.PIPE).stdout
    assert report.count(b",0\n") == count, "an addition was refused"
    os.remove(listed)
    with subprocess.Popen([sheetdesk, "export", folder, ARCHIVE], stdout=subprocess.PIPE) as told:
        subprocess.run(["sqlite3", "-bail", path], stdin=told.stdout, check=True)
    return folder, path, digests


def change(path, count, changed):
    """Every so many-th tile gets other bytes."""
    numbers = range(1, count + 1, count // changed)
    sql = "".join(f"UPDATE sheet_tiles SET tile_data = randomblob(length(tile_data)) WHERE id = {number};" for number in list(numbers)[:changed])
    subprocess.run(["sqlite3", "-bail", path, f"BEGIN; {sql} COMMIT;"], check=True)


def by_python(path, digests):
    """In an interpreter of its own, as the program is a process of its own. The digests are there before the clock starts."""
    import sqlite3

    start = time.perf_counter()
    database = sqlite3.connect(path)
    rows = database.execute("SELECT zoom_level, tile_column, tile_row, tile_data FROM sheet_tiles")
    differ = sum(digests.get((zoom, column, row)) != hashlib.sha256(data).digest() for zoom, column, row, data in rows)
    database.close()
    return time.perf_counter() - start, differ


def by_program(sheetdesk, folder, path, held, *options):
    """The list, and what is made of it; the time of each, what was printed, and the greatest memory of the second."""
    start = time.perf_counter()
    text = subprocess.run([sheetdesk, "holds"], check=True, stdout=subprocess.PIPE).stdout
    with open(held, "wb") as out:
        subprocess.run(["sqlite3", path], input=text, stdout=out, check=True)
    listed = time.perf_counter()
    with open(held, "rb") as given:
        ran = subprocess.Popen([sheetdesk, "bring", folder, ARCHIVE, "--at", AT, *options], stdin=given, stdout=subprocess.PIPE)
        printed = ran.stdout.read()
        _, status, used = os.wait4(ran.pid, 0)
        ran.returncode = os.waitstatus_to_exitcode(status)
    assert ran.returncode == 0, printed
    return listed - start, time.perf_counter() - listed, printed, used.ru_maxrss


def audited(sheetdesk, folder, count):
    """How long the folder takes to open, and with how much memory."""
    start = time.perf_counter()
    ran = subprocess.Popen([sheetdesk, "audit", folder], stdout=subprocess.PIPE)
    said = ran.stdout.read()
    _, status, used = os.wait4(ran.pid, 0)
    took = time.perf_counter() - start
    ran.returncode = os.waitstatus_to_exitcode(status)
    assert ran.returncode == 0 and said.decode() == f"good {count}\n", said
    return took, used.ru_maxrss


def shown(times):
    return f"{statistics.median(times):.2f} s ({min(times):.2f} to {max(times):.2f})"


def main():
    words = argparse.ArgumentParser(description=__doc__, formatter_class=argparse.RawDescriptionHelpFormatter)
    words.add_argument("--folder")
    words.add_argument("--tiles", type=int, default=10_000)
    words.add_argument("--bytes", type=int, default=20_000)
    words.add_argument("--changed", type=int, default=10)
    words.add_argument("--engine", action="store_true")
    words.add_argument("rounds", type=int, nargs="?", default=3)
    given = words.parse_args()
    sheetdesk, room = program(), tempfile.mkdtemp(dir=given.folder)
    try:
        folder, path, digests = made(sheetdesk, room, given.tiles, given.bytes)
        change(path, given.tiles, given.changed)
        held, plain, opened, alone, lists, brings, memory = os.path.join(room, "holds.csv"), [], [], [], [], [], 0
        for number in range(given.rounds):
            took, differ = by_python(path, digests)
            assert differ == given.changed, differ
            plain.append(took)
            opened.append(audited(sheetdesk, folder, given.tiles))
            if given.engine:
                alone.append(opened_by_engine(folder))
            options = ["--dry-run", "--summary"] if number < given.rounds - 1 else []
            listed, brought, printed, used = by_program(sheetdesk, folder, path, held, *options)
            right = f"0 unlinks, {given.changed} deletes, {given.changed} adds, 0 links\n" if options else None
            assert printed.decode() == right if options else printed.count(b",0\n") == 2 * given.changed, printed[:500]
            lists.append(listed)
            brings.append(brought)
            memory = max(memory, used)
        whole = [one + two for one, two in zip(lists, brings)]
        print(f"{given.tiles} tiles of {given.bytes} bytes, {given.changed} changed; {given.rounds} rounds")
        print(f"holds and sqlite3   {shown(lists)}")
        print(f"bring               {shown(brings)}, {memory / 1024:.0f} MB")
        print(f"both                {shown(whole)}")
        print(f"audit               {shown([it[0] for it in opened])}, {max(it[1] for it in opened) / 1024:.0f} MB")
        if alone:
            print(f"the engine's open   {shown([it[0] for it in alone])}, {max(it[2] for it in alone) / 1024:.0f} MB")
        print(f"Python, SHA-256     {shown(plain)}")
        print(f"{statistics.median(whole) / statistics.median(plain):.1f} times as long as Python")
    finally:
        shutil.rmtree(room, ignore_errors=True)


if __name__ == "__main__":
    sys.path[:0] = [os.path.dirname(os.path.abspath(__file__))]
    main()
