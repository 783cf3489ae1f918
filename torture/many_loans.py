#!/usr/bin/env python3
"""Loans that come home in numbers and leave no file, and as many loans as may live.

Usage: many_loans.py [LOANS]     over the proved program; SHEETDESK=PROGRAM takes another

First so many loans (100) are lent, one after the other, and each comes home. The archive's file has to be the only package file then, and no loan has
left another. One loan more comes home, and its file is put back from a copy, as where a removal was stopped. `tidy` has to remove that one, and to leave
the archive, its log and the lock alone; the packages and the receipts have to be as before. Files that are not the register's have to stay. Last, 255
loans of one mark each live beside the archive, and `status` of them has to take at most 600 MB. Status 0 where all is so. What has to come is worked out
here, by hand.
"""
import os
import resource
import shutil
import sqlite3
import subprocess
import sys
import tempfile

HERE = os.path.dirname(os.path.abspath(__file__))
MOST = 600 * 1024
LEFT, OPEN, LITTLE = 2000, 256, 300 * 1024
MOMENT = "2024-05-01T08:00:00.000Z"
ARCHIVE = "a0000000-0000-4000-8000-000000000000"
MAKING = ["--archive", ARCHIVE, "--at", MOMENT, "--frame", "25832,0,0,4096,4096,256,256,0,3,1,1"]
WIDE = ["--archive", ARCHIVE, "--at", MOMENT, "--frame", "25832,0,0,65536,65536,256,256,0,1,256,256"]
HEADER = "request,at,command,package,identity,other,kind,zoom,column,row,last_column,last_row,x,y,code,ticket,text,data\n"


def program():
    named = os.environ.get("SHEETDESK")
    return [named] if named else [os.path.join(HERE, "..", "sheetdesk")]


def run(*words, status=0):
    done = subprocess.run([*program(), *words], capture_output=True, text=True)
    assert done.returncode == status, (words, done)
    return done.stdout


def uuid(front, number):
    return f"{front}0000000-0000-4000-8000-{number:012}"


def list_of(folder, records, front="9"):
    """A file with these records, each a request without its UUID."""
    path = os.path.join(folder, "list.csv")
    with open(path, "w", encoding="utf-8") as out:
        out.write(HEADER + "".join(f"{uuid(front, number)},{MOMENT},{record}\n" for number, record in enumerate(records, 1)))
    return path


def lent_and_home(count):
    yield f"add,{ARCHIVE},{uuid('0', 1)},,row,,,,,,3000,1000,7,,gate,"
    for number in range(1, count + 1):
        yield lent(uuid("b", number))
        yield home(uuid("b", number), 2 * number)


def lent(loan):
    return f"split,{ARCHIVE},,{loan},strict,0,0,0,0,0,,,,,,"


def home(loan, ticket):
    return f"merge,{loan},,{ARCHIVE},,,,,,,,,,{ticket},,"


def living(count):
    """So many marks, each lent in a loan of its own."""
    for number in range(count):
        yield f"add,{ARCHIVE},{uuid('0', number + 1)},,row,,,,,,{256 * number},65536,0,,,"
    for number in range(count):
        yield f"split,{ARCHIVE},,{uuid('c', number + 1)},strict,0,{number},0,{number},0,,,,,,"


def put_back(room, maps, loan, ticket):
    """A loan whose file stands in the folder after it came home."""
    file, copy = os.path.join(maps, f"{loan}.gpkg"), os.path.join(room, "copy.gpkg")
    run("import", maps, list_of(room, [lent(loan)], "8"))
    shutil.copyfile(file, copy)
    run("import", maps, list_of(room, [home(loan, ticket)], "7"))
    assert not os.path.exists(file), file
    shutil.copyfile(copy, file)


def come_home(room, count):
    maps = os.path.join(room, "maps")
    os.mkdir(maps)
    run("init", *MAKING, maps)
    report = run("import", maps, list_of(room, lent_and_home(count)))
    assert report.endswith(f",{2 * count + 1},0\n"), report[-200:]
    left = set(os.listdir(maps))
    assert left - {f"{ARCHIVE}.gpkg-wal"} == {f"{ARCHIVE}.gpkg", "sheetdesk.lock"}, sorted(left)
    assert len(run("status", maps).splitlines()) == 2
    put_back(room, maps, uuid("b", count + 1), 2 * count + 2)
    assert run("status", maps).splitlines()[2:] == ["strays 1"]
    others = {"notes.txt": b"", uuid("d", 1) + ".gpkg": b"", uuid("b", 0)[:-1] + ".gpkg-wal": b""}
    for name, content in others.items():
        with open(os.path.join(maps, name), "wb") as out:
            out.write(content)
    before = run("manifest", maps, ARCHIVE)
    removed = run("tidy", maps).splitlines()
    assert f"removed {uuid('b', count + 1)}.gpkg" in removed and all(line.startswith("removed b0000000-") for line in removed), removed
    left = sorted(os.listdir(maps))
    # the blank store has a log since it was opened
    wanted = [f"{ARCHIVE}.gpkg", f"{ARCHIVE}.gpkg-wal", uuid("d", 1) + ".gpkg", uuid("d", 1) + ".gpkg-wal"]
    assert left == sorted([*wanted, "notes.txt", "sheetdesk.lock", uuid("b", 0)[:-1] + ".gpkg-wal"]), left
    assert run("status", maps).splitlines()[2:] == ["strays 1"]
    assert run("tidy", maps) == ""
    assert run("audit", maps) == f"good {2 * count + 3}\n"
    assert run("manifest", maps, ARCHIVE) == before


def left_files(maps, loan, count):
    """Copies of a loan's file, each of a loan of its own that came home."""
    file = os.path.join(maps, f"{loan}.gpkg")
    for number in range(1, count + 1):
        name = uuid("e", number)
        copy = os.path.join(maps, f"{name}.gpkg")
        shutil.copyfile(file, copy)
        store = sqlite3.connect(copy, isolation_level=None)
        store.execute("UPDATE sheet_package SET package = ?", (name,))
        store.close()


def narrow():
    resource.setrlimit(resource.RLIMIT_NOFILE, (OPEN, OPEN))


def run_narrow(*words):
    """What a command prints with few files open, and its memory in kilobytes."""
    process = subprocess.Popen([*program(), *words], stdout=subprocess.PIPE, text=True, preexec_fn=narrow)
    printed = process.stdout.read()
    _, status, used = os.wait4(process.pid, 0)
    assert status == 0, (words, status, printed[-200:])
    return printed, used.ru_maxrss


def left_behind(room):
    maps = os.path.join(room, "left")
    os.mkdir(maps)
    run("init", *WIDE, maps)
    run("import", maps, list_of(room, living(2)))
    before = run("status", maps)
    left_files(maps, uuid("c", 1), LEFT)
    printed, size = run_narrow("status", maps)
    assert printed == before + f"strays {LEFT}\n", printed[-200:]
    removed, tidied = run_narrow("tidy", maps)
    files = [line for line in removed.splitlines() if line.endswith(".gpkg")]
    assert files == [f"removed {uuid('e', number)}.gpkg" for number in range(1, LEFT + 1)], files[:3]
    assert run("status", maps) == before
    return max(size, tidied)


def live(room, count):
    maps = os.path.join(room, "wide")
    os.mkdir(maps)
    run("init", *WIDE, maps)
    report = run("import", maps, list_of(room, living(count)))
    assert report.endswith(f",{2 * count},0\n"), report[-200:]
    return maps


def taken(maps, count):
    """The memory of a `status`, in kilobytes, by a child of its own."""
    code = "import resource, subprocess, sys; done = subprocess.run(sys.argv[1:], capture_output=True, text=True);"
    code += "print(len(done.stdout.splitlines()), resource.getrusage(resource.RUSAGE_CHILDREN).ru_maxrss)"
    done = subprocess.run([sys.executable, "-c", code, *program(), "status", maps], capture_output=True, text=True, check=True)
    lines, size = map(int, done.stdout.split())
    assert lines == count + 2, done.stdout
    return size


def main():
    count = int(sys.argv[1]) if sys.argv[1:] else 100
    with tempfile.TemporaryDirectory() as room:
        come_home(room, count)
        most = left_behind(room)
        print(f"{LEFT} files beside three live packages, {OPEN} open at most: {most / 1024:.0f} MB")
        assert most <= LITTLE, most
        maps = live(room, 255)
        size = taken(maps, 255)
        print(f"{count} loans came home and left one file; a status of 256 live packages took {size / 1024:.0f} MB")
        assert size <= MOST, size


if __name__ == "__main__":
    main()
