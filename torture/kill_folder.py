#!/usr/bin/env python3
"""Stops `sheetdesk` at each of its write calls over a folder, takes its disk away, and damages its files: what is left must be a world.

Usage: kill_folder.py [--program PROGRAM] [--step N] [--flips N] [PART..]      (1; 400; all of import init first disk space readonly damage flips)

PROGRAM is the proved one, or SHEETDESK, where none is named; it may be a Python file as bench/plain_folder.py. The list is that of samples/archive.csv: a hundred requests
with loans of loans and merges. All that must come is worked out by the second machine (samples/reference.py) or by hand.

- import: `strace` kills the program right before the Nth of all calls that write, sync, cut, make or remove a file, for each N (each
  STEPth) until the import ends by itself. What was reported is a beginning of the report. Then an audit is killed at one of its own
  calls; the next one says `good n`, where n is what was reported, or one receipt more; each live package is to the byte as it was then;
  a second import of the list reports what is due of a list that comes twice, and leaves the packages that it must.
- init: likewise; then an audit says `good 0`, or `NoArchive` where no archive was made; and there the same `init` makes it, and leaves no file but
  its own and its log.
- first: packages that stock SQLite took back to the first version; an opening of them is killed at each of its calls. The next one finds
  the same world, and each live package is of the second version then.
- disk: the same calls of an import fail, from the Nth on: writes for want of room, or syncs with an error. The import says so, and no
  more than the request in which it was met is in doubt; all the rest as above, with the disk back.
- space: the same in a file system in memory that is too small, for several sizes (where it may be mounted).
- readonly: a folder that cannot be written: StoreFault, and no file is changed.
- damage: files replaced by rubbish, cut, renamed, exchanged, old, or other than files: the fault by its name, or the world as before.
  (torture/folder_session.sh makes each of the nine faults by SQL.)
- flips: one bit of a file is turned, at random places: a fault by its name, or a world whose packages are as before. Told are which.

No file of a package is changed by an opening that finds a fault. Status 0 where all is as it must be; else 1, with the first that is not.
It needs strace, and works in /dev/shm where there is one, since a killed program loses nothing that it wrote.
"""

import argparse
import contextlib
import os
import random
import re
import shlex
import shutil
import sqlite3
import subprocess
import sys
import tempfile
from collections import Counter
from functools import lru_cache

HERE = os.path.dirname(os.path.abspath(__file__))
TOP = os.path.dirname(HERE)
sys.path[:0] = [os.path.join(TOP, "samples"), os.path.join(TOP, "bench")]
sys.dont_write_bytecode = True

import reference
from program import program as named_or_proved

ARCHIVE = "6f0d3a52-9c1e-4b7a-8f24-1d5be07c9a10"
SURVEY = "9e87f694-2da1-502c-b23b-ebc6916abeb6"
OTHER = "c0000000-0000-4000-8000-000000000000"
AT = "2026-03-02T07:30:00.000Z"
FRAME = "25832,500000000,5900000000,540960000,5961440000,256,256,4,3,2,3"
FAULTS = "NoArchive TwoArchives NotAPackage TwoCopies MissingPackage ForeignFrame Dangling OutOfAccount Altered StoreFault".split()
WRITES = "write pwrite64 writev pwritev pwritev2 fsync fdatasync sync_file_range ftruncate fallocate unlink unlinkat rename renameat renameat2".split()
MAKES = ["openat", "open", "creat"]
LIST = os.path.join(TOP, "samples", "archive.csv")
LIMIT = 120
work = None
program = []


class Wrong(Exception):
    """The argument says what is not as it must be."""


def right(is_so, what):
    if not is_so:
        raise Wrong(what)


# What must come, by the second machine.

def records_of(text):
    """The bytes of each record: a field in quotes may hold an end of line."""
    records = [b""]
    for line in text.splitlines(keepends=True):
        if records[-1].count(b'"') % 2 == 0:
            records.append(b"")
        records[-1] += line
    return records[1:]


with open(LIST, "rb") as listed:
    HEADER, *RECORDS = records_of(listed.read())


class Due:
    """After the records of a list: its report, the number of receipts, and the manifest of each live package."""

    def __init__(self, records):
        done = reference.rehearse(ARCHIVE, FRAME, HEADER + b"".join(records))
        self.lines = [reference.report_line(number, *each) for number, each in enumerate(zip(done.requests, done.replies), 1)]
        self.receipts = len(done.world.receipts)
        self.manifests = {uuid: reference.manifest(package) for uuid, package in done.world.packages.items()}


@lru_cache(maxsize=None)
def after(count):
    """After the first so many records."""
    return Due(RECORDS[:count])


@lru_cache(maxsize=None)
def again(count):
    """After them and then the whole list; with the report of the second part."""
    due = Due(RECORDS[:count] + RECORDS)
    due.report = reference.REPORT_HEADER + "\n" + "".join(f"{number},{line.split(',', 1)[1]}" for number, line in enumerate(due.lines[count:], 1))
    return due


REPORT = reference.REPORT_HEADER + "\n" + "".join(after(len(RECORDS)).lines)


# The program.

def use(words):
    """A program, with words before all others where it has any."""
    path, *others = shlex.split(words)
    program[:] = [sys.executable] * path.endswith(".py") + [os.path.abspath(path), *others]


def room():
    return tempfile.TemporaryDirectory(dir="/dev/shm" if os.path.isdir("/dev/shm") else None)


# What standard error tells of a list that was carried out.
TOLD = re.compile(r"record \d+: refusal .*\n|and \d+ more\n")


class Ran:
    def __init__(self, words, under=(), **how):
        ran = subprocess.run([*under, *program, *words], stdin=subprocess.DEVNULL, stdout=subprocess.PIPE, stderr=subprocess.PIPE, timeout=LIMIT, **how)
        # What standard error says in plain words, behind the line of a fault and of the refusals of a list, is left out.
        lines = [line for line in ran.stderr.decode().splitlines(keepends=True) if not TOLD.fullmatch(line)]
        self.status, self.out, self.err = ran.returncode, ran.stdout.decode(), "".join(line for line in lines if ran.returncode != 3 or line.startswith("store: "))

    def __str__(self):
        return f"status {self.status}, {self.out[-300:]!r}, {self.err[-300:]!r}"


def expect(words, status, out, err=""):
    ran = Ran(words)
    right((ran.status, ran.out, ran.err) == (status, out, err), f"{words}: wanted status {status}, {out[-300:]!r}, {err!r}; came {ran}")


def traced(folder, words):
    """The calls of an undisturbed run that change something, each with its number among those of its name."""
    trace = os.path.join(work, "trace")
    ran = Ran(words, under=["strace", "-f", "-o", trace, "-e", f"trace={known(WRITES + MAKES)}"])
    right(ran.status == 0, f"{words} under strace: {ran}")
    counts, calls = Counter(), []
    with open(trace, encoding="utf-8", errors="replace") as lines:
        for line in lines:
            found = re.match(r"\d+ +(\w+)\(", line)
            if found is None:
                continue
            counts[found[1]] += 1
            if found[1] in WRITES or "O_CREAT" in line or found[1] == "creat":
                calls.append((found[1], counts[found[1]]))
    return calls


def known(names):
    """These calls, as strace takes them: it passes over a name that this machine has not."""
    return ",".join("?" + name for name in names)


def killed(words, call):
    name, number = call
    return Ran(words, under=["strace", "-f", "-o", "/dev/null", "-e", f"trace={name}", "-e", f"inject={name}:signal=KILL:when={number}"])


def failing(words, names, error, number):
    return Ran(words, under=["strace", "-f", "-o", "/dev/null", "-e", f"trace={known(names)}", "-e", f"inject={known(names)}:error={error}:when={number}+"])


# Folders.

def folder_of(name):
    path = os.path.join(work, name)
    shutil.rmtree(path, ignore_errors=True)
    return path


def begun(name="folder"):
    """A folder with an empty archive."""
    path = folder_of(name)
    shutil.copytree(os.path.join(work, "empty"), path)
    return path


def whole(name="folder"):
    """A folder in which the list was carried out."""
    path = folder_of(name)
    shutil.copytree(os.path.join(work, "full"), path)
    return path


def file_of(folder, package):
    return os.path.join(folder, f"{package}.gpkg")


def packages_in(folder):
    """The bytes of each package's file, links followed; none of a file that says nothing. An empty file is a database without tables, of which the
    engine writes the one page that says so when it closes it."""
    found = {}
    for name in os.listdir(folder):
        path = os.path.join(folder, name)
        if name.endswith(".gpkg") and os.path.isfile(path):
            with open(path, "rb") as file:
                content = file.read()
            found[name] = b"" if is_blank(content) else content
    return found


def is_blank(content):
    """Whether this is a database of one page with no table: a header (SQLite's file format, section 1.3), and a leaf with no cell (section 1.6)."""
    return len(content) == 4096 and content[:16] == b"SQLite format 3\0" and content[100] == 13 and content[103:105] == b"\0\0"


def holds(folder, due):
    """Each live package is as it must be."""
    for package, manifest in due.manifests.items():
        expect(["manifest", folder, package], 0, manifest)


def reported(ran):
    """How many records were reported, and whether the last line tells of a store that failed."""
    lines = ran.out.splitlines(keepends=True)
    if not lines:
        return 0, False
    has_failed = len(lines) > 1 and bool(re.fullmatch(r"\d+,[0-9a-f-]{36},0,2[45]\n", lines[-1]))
    told = lines[:-1] if has_failed else lines
    right("".join(told) == "".join(REPORT.splitlines(keepends=True)[:len(told)]), f"reported was no beginning of the report: {ran}")
    return len(told) - 1, has_failed


def stands(folder, count):
    """The folder is as after so many records or one more; a second import goes on from there. Answers how many they were."""
    ran = Ran(["audit", folder])
    candidates = [number for number in (count, count + 1) if number <= len(RECORDS) and ran.out == f"good {after(number).receipts}\n"]
    right(ran.status == 0 and ran.err == "" and candidates, f"after {count} reported records an audit says: {ran}")
    holds(folder, after(candidates[0]))
    due = again(candidates[0])
    expect(["import", folder, LIST], 0, due.report)
    expect(["audit", folder], 0, f"good {due.receipts}\n")
    holds(folder, due)
    return candidates[0]


# The parts.

def part_import(said):
    calls = traced(begun(), ["import", os.path.join(work, "folder"), LIST])
    audit_calls = len(traced(whole(), ["audit", os.path.join(work, "folder")]))
    draw, ahead, tried = random.Random(1), 0, 0
    for at in range(0, len(calls), said.step):
        folder = begun()
        ran = killed(["import", folder, LIST], calls[at])
        right(ran.status in (-9, 137), f"import, killed at call {at + 1}, {calls[at]}: {ran}")
        count, _ = reported(ran)
        # The opening of what was left is stopped too, at one of its calls.
        opening = killed(["audit", folder], ("fdatasync" if draw.random() < 0.3 else draw.choice(["fsync", "pwrite64", "ftruncate"]), draw.randint(1, audit_calls)))
        right(opening.status in (0, -9, 137), f"an audit that was killed: {opening}")
        try:
            ahead += stands(folder, count) > count
        except Wrong as wrong:
            raise Wrong(f"killed at call {at + 1} of {len(calls)}, {calls[at]}: {wrong}") from None
        tried += 1
    folder = begun()
    expect(["import", folder, LIST], 0, REPORT)
    holds(folder, after(len(RECORDS)))
    print(f"import: {len(calls)} calls {dict(Counter(name for name, _ in calls))}; killed at {tried} of them, "
          f"{ahead} times one request more stood than was reported", flush=True)


def part_init(said):
    def words(folder):
        return ["init", "--archive", ARCHIVE, "--at", AT, "--frame", FRAME, folder]

    path = folder_of("folder")
    os.mkdir(path)
    calls, said_of = traced(path, words(path)), Counter()
    for call in calls:
        path = folder_of("folder")
        os.mkdir(path)
        ran = killed(words(path), call)
        right(ran.status in (-9, 137), f"init, killed at {call}: {ran}")
        ran = Ran(["audit", path])
        right((ran.status, ran.out, ran.err) in [(0, "good 0\n", ""), (3, "NoArchive\n", "")], f"init, killed at {call}, then an audit: {ran}")
        said_of[ran.out.strip()] += 1
        if ran.status == 0:
            expect(["import", path, LIST], 0, REPORT)
        else:
            expect(words(path), 0, f"archive {ARCHIVE}\n")
            left = [name for name in os.listdir(path) if name != "sheetdesk.lock" and (not name.startswith(f"{ARCHIVE}.gpkg") or "-new" in name)]
            right(not left, f"init, killed at {call}, then whole: {left}")
            expect(["audit", path], 0, "good 0\n")
    print(f"init: {len(calls)} calls, killed at each: {dict(said_of)}", flush=True)


def versions(folder, due):
    """The version that each live package says, by stock SQLite."""
    found = set()
    for package in due.manifests:
        with contextlib.closing(sqlite3.connect(file_of(folder, package))) as store:
            found |= set(store.execute("SELECT version FROM sheet_package"))
    return {version for (version,) in found}


def taken_back(folder):
    """Each package is one of the first version, which had no table of the third mapping."""
    for name in os.listdir(folder):
        if name.endswith(".gpkg"):
            with contextlib.closing(sqlite3.connect(os.path.join(folder, name))) as store:
                store.executescript("""
                    DROP TABLE rows_tiles;
                    DELETE FROM gpkgext_relations WHERE id = 3;
                    UPDATE sheet_package SET version = 1;
                    PRAGMA wal_checkpoint(TRUNCATE);""")


def part_first(said):
    records = [record for record in RECORDS if b"rows_tiles" not in record]
    due = Due(records)
    listed = os.path.join(work, "first.csv")
    with open(listed, "wb") as file:
        file.write(HEADER + b"".join(records))
    first, folder = begun("first"), folder_of("folder")
    expect(["import", first, listed], 0, reference.REPORT_HEADER + "\n" + "".join(due.lines))
    expect(["audit", first], 0, f"good {due.receipts}\n")
    taken_back(first)
    right(versions(first, due) == {1}, f"taken back to {versions(first, due)}")
    shutil.copytree(first, folder)
    calls = traced(folder, ["audit", folder])
    tried = 0
    for at in range(0, len(calls), said.step):
        shutil.rmtree(folder)
        shutil.copytree(first, folder)
        ran = killed(["audit", folder], calls[at])
        what = f"an opening killed at call {at + 1} of {len(calls)}, {calls[at]}"
        right(ran.status in (-9, 137), f"{what}: {ran}")
        try:
            expect(["audit", folder], 0, f"good {due.receipts}\n")
            holds(folder, due)
            right(versions(folder, due) == {2}, f"versions {versions(folder, due)}")
        except Wrong as wrong:
            raise Wrong(f"{what}: {wrong}") from None
        tried += 1
    print(f"first: {len(calls)} calls {dict(Counter(name for name, _ in calls))}; killed at {tried} of them, {len(due.manifests)} live packages brought", flush=True)


def stopped_well(ran, what):
    """An import that failed told so; or all was done, and what failed was the last copying of a log."""
    count, has_failed = reported(ran)
    if ran.status == 0:
        right(count == len(RECORDS) and not has_failed and ran.err == "", f"{what}: {ran}")
    else:
        right(ran.status == 3 and ran.err in ("store: StoreFault\n", "store: OutOfMemory\n"), f"{what}: {ran}")
        right(ran.out == "" or has_failed or count == len(RECORDS), f"{what}: no line tells of it: {ran}")
    return count


def part_disk(said):
    calls = traced(begun(), ["import", os.path.join(work, "folder"), LIST])
    counts = Counter(name for name, _ in calls)
    for names, error in ((["pwrite64", "pwritev", "ftruncate", "fallocate"], "ENOSPC"), (["fsync", "fdatasync"], "EIO"), (["pwrite64"], "EIO")):
        ends = Counter()
        # strace counts each name by itself.
        for number in range(1, max(counts[name] for name in names) + 1, said.step):
            folder = begun()
            ran = failing(["import", folder, LIST], names, error, number)
            what = f"import, {names} fail with {error} from number {number} on"
            count = stopped_well(ran, what)
            ends[ran.status, ran.err.strip()] += 1
            try:
                stands(folder, count)
            except Wrong as wrong:
                raise Wrong(f"{what}: {ran}; then {wrong}") from None
        print(f"disk: {'/'.join(names)} with {error}: {dict(ends)}", flush=True)
    folder = begun()
    with open("/dev/full", "wb") as full:
        ran = subprocess.run([*program, "import", folder, LIST], stdout=full, stderr=subprocess.PIPE, timeout=LIMIT, check=False)
    right((ran.returncode, ran.stderr) == (3, b"store: StoreFault\n"), f"import whose report finds no room: {ran}")
    stands(folder, 0)
    print("disk: a report that finds no room: nothing was carried out", flush=True)


def mounted(path, options):
    os.makedirs(path, exist_ok=True)
    return subprocess.run(["mount", "-t", "tmpfs", "-o", options, "none", path], stderr=subprocess.DEVNULL, check=False).returncode == 0


def unmount(path):
    subprocess.run(["umount", path], stderr=subprocess.DEVNULL, check=False)


def part_space(said):
    path, ends, size = os.path.join(work, "mount"), Counter(), 0
    # Until there is room for all.
    while not ends[0, ""]:
        if not mounted(path, "size=20m"):
            print("space: nothing may be mounted here, so it was not tried", flush=True)
            return
        try:
            folder = os.path.join(path, "folder")
            shutil.copytree(os.path.join(work, "empty"), folder)
            used = os.statvfs(path)
            taken = (used.f_blocks - used.f_bfree) * used.f_frsize // 1024
            subprocess.run(["mount", "-o", f"remount,size={taken + size}k", path], check=True)
            ran = Ran(["import", folder, LIST])
            count = stopped_well(ran, f"import with room for {size} KiB")
            subprocess.run(["mount", "-o", "remount,size=20m", path], check=True)
            try:
                stands(folder, count)
            except Wrong as wrong:
                raise Wrong(f"import with room for {size} KiB: {ran}; then {wrong}") from None
            ends[ran.status, ran.err.strip()] += 1
        finally:
            unmount(path)
        size += max(4 * min(said.step, 16), size // 16)
    print(f"space: file systems with room for 0 to {size} KiB more: {dict(ends)}", flush=True)


def part_readonly(said):
    path = os.path.join(work, "mount")
    if not mounted(path, "size=20m"):
        print("readonly: nothing may be mounted here, so it was not tried", flush=True)
        return
    try:
        folder = os.path.join(path, "folder")
        shutil.copytree(os.path.join(work, "full"), folder)
        before = packages_in(folder)
        subprocess.run(["mount", "-o", "remount,ro", path], check=True)
        expect(["audit", folder], 3, "StoreFault\n")
        for words in (["import", folder, LIST], ["manifest", folder, ARCHIVE]):
            expect(words, 3, "", "store: StoreFault\n")
        empty = os.path.join(path, "none")
        subprocess.run(["mount", "-o", "remount,rw", path], check=True)
        os.mkdir(empty)
        subprocess.run(["mount", "-o", "remount,ro", path], check=True)
        expect(["init", "--archive", ARCHIVE, "--at", AT, "--frame", FRAME, empty], 3, "", "store: StoreFault\n")
        right(packages_in(folder) == before and os.listdir(empty) == [], "a folder that cannot be written was changed")
        subprocess.run(["mount", "-o", "remount,rw", path], check=True)
        expect(["audit", folder], 0, f"good {after(len(RECORDS)).receipts}\n")
    finally:
        unmount(path)
    print("readonly: audit, import, manifest and init say StoreFault, and nothing is changed", flush=True)


def rubbish(count, seed=7):
    return random.Random(seed).randbytes(count)


def overwrite(package, change):
    def damage(folder):
        path = file_of(folder, package)
        with open(path, "rb") as file:
            before = file.read()
        with open(path, "wb") as file:
            file.write(change(before))
    return damage


def rename(package, name):
    return lambda folder: os.rename(file_of(folder, package), os.path.join(folder, name))


def exchange(folder):
    one, two, aside = file_of(folder, ARCHIVE), file_of(folder, SURVEY), os.path.join(folder, "aside")
    os.rename(one, aside)
    os.rename(two, one)
    os.rename(aside, two)


def copy_of(package, name):
    return lambda folder: shutil.copy(file_of(folder, package), os.path.join(folder, name))


def old_copy(package, count):
    """The file as it was after so many records."""
    def damage(folder):
        older = begun("older")
        path = os.path.join(work, "older.csv")
        with open(path, "wb") as file:
            file.write(HEADER + b"".join(RECORDS[:count]))
        expect(["import", older, path], 0, reference.REPORT_HEADER + "\n" + "".join(after(count).lines))
        shutil.copy(file_of(older, package), file_of(folder, package))
    return damage


def put(name, content):
    def damage(folder):
        with open(os.path.join(folder, name), "wb") as file:
            file.write(content)
    return damage


def as_link(folder):
    aside = os.path.join(work, "aside")
    shutil.move(file_of(folder, SURVEY), aside)
    os.symlink(aside, file_of(folder, SURVEY))


def as_second_name(folder):
    os.link(file_of(folder, SURVEY), os.path.join(folder, "second name"))


def as_folder(folder):
    os.remove(file_of(folder, SURVEY))
    os.mkdir(file_of(folder, SURVEY))


def by_sql(name, statement):
    def damage(folder):
        import sqlite3
        conn = sqlite3.connect(os.path.join(folder, name))
        conn.executescript(statement)
        conn.close()
    return damage


def lent_at(package):
    """How many records there are before the one that lends a package."""
    return next(number for number, record in enumerate(RECORDS) if record.split(b",")[2:6:3] == [b"split", package.encode()] and after(number + 1).manifests.get(package))


def last_of(package):
    """How many records there are before the last that a package accepts."""
    named = [number for number in range(len(RECORDS)) if after(number).receipts < after(number + 1).receipts and after(number).manifests.get(package) not in (None, after(number + 1).manifests.get(package))]
    return named[-1]


GOOD = "good"
OLD = "old"
DAMAGES = [
    ("the archive is rubbish", overwrite(ARCHIVE, lambda was: rubbish(len(was))), "StoreFault"),
    ("a loan is rubbish", overwrite(SURVEY, lambda was: rubbish(len(was))), "StoreFault"),
    ("a loan is rubbish behind its first hundred bytes", overwrite(SURVEY, lambda was: was[:100] + rubbish(len(was) - 100)), "StoreFault"),
    ("a loan is zeros", overwrite(SURVEY, lambda was: bytes(len(was))), "StoreFault"),
    ("the archive is cut in half", overwrite(ARCHIVE, lambda was: was[:len(was) // 2]), "StoreFault"),
    ("a loan is cut in half", overwrite(SURVEY, lambda was: was[:len(was) // 2]), "StoreFault"),
    ("a loan is cut behind its first page", overwrite(SURVEY, lambda was: was[:4096]), "StoreFault"),
    ("a loan is cut inside its head", overwrite(SURVEY, lambda was: was[:50]), "StoreFault"),
    ("a loan has no byte", overwrite(SURVEY, lambda was: b""), "MissingPackage"),
    ("the archive has no byte", overwrite(ARCHIVE, lambda was: b""), "NoArchive"),
    ("a loan has another UUID for its name", rename(SURVEY, f"{OTHER}.gpkg"), GOOD),
    ("the archive has another UUID for its name", rename(ARCHIVE, f"{OTHER}.gpkg"), GOOD),
    ("two files have each other's name", exchange, GOOD),
    ("a loan has no package's name", rename(SURVEY, "survey.gpkg"), "MissingPackage"),
    ("the archive has no package's name", rename(ARCHIVE, f"{ARCHIVE}.GPKG"), "NoArchive"),
    ("a copy of a loan under no package's name", copy_of(SURVEY, f"{SURVEY}.gpkg.bak"), GOOD),
    ("a copy of a loan over the archive", copy_of(SURVEY, f"{ARCHIVE}.gpkg"), "NoArchive"),
    ("a copy of the archive over a loan", copy_of(ARCHIVE, f"{SURVEY}.gpkg"), "TwoArchives"),
    ("a loan as it was before its last request", old_copy(SURVEY, last_of(SURVEY)), "OutOfAccount"),
    ("the archive as it was before anything", old_copy(ARCHIVE, 0), OLD),
    ("the archive as it was right after it lent", old_copy(ARCHIVE, lent_at(SURVEY) + 1), None),
    ("an empty file beside", put(f"{OTHER}.gpkg", b""), GOOD),
    ("another database beside", by_sql(f"{OTHER}.gpkg", "CREATE TABLE notes (n); INSERT INTO notes VALUES (1)"), GOOD),
    ("rubbish beside", put(f"{OTHER}.gpkg", rubbish(5000)), "StoreFault"),
    ("a journal of SQLite's beside a loan", put(f"{SURVEY}.gpkg-journal", b"\xd9\xd5\x05\xf9 a journal"), "StoreFault"),
    ("a link in the place of a loan", as_link, GOOD),
    ("a loan with a second name", as_second_name, "StoreFault"),
    ("a folder in the place of a loan", as_folder, "StoreFault"),
]
# What another program may answer: C SQLite takes a second name, and plays back a journal or passes over it.
OF_THE_PROGRAM = {"a journal of SQLite's beside a loan", "a loan with a second name"}


def part_damage(said):
    told = Counter()
    for name, damage, wanted in DAMAGES:
        if program[0] == sys.executable and name in OF_THE_PROGRAM:
            continue
        folder = whole()
        damage(folder)
        before = packages_in(folder)
        ran = Ran(["audit", folder])
        if wanted in (GOOD, OLD):
            due = after(len(RECORDS) if wanted == GOOD else 0)
            right((ran.status, ran.out, ran.err) == (0, f"good {due.receipts}\n", ""), f"{name}: wanted a good world; came {ran}")
            holds(folder, due)
        else:
            right(ran.status == 3 and ran.err == "" and (ran.out == f"{wanted}\n" if wanted else ran.out.strip() in FAULTS), f"{name}: wanted {wanted}; came {ran}")
            expect(["manifest", folder, ARCHIVE], 3, "", f"store: {ran.out}")
            expect(["import", folder, LIST], 3, "", f"store: {ran.out}")
            right(packages_in(folder) == before, f"{name}: an opening that found it changed a file")
        told[ran.out.split(" ")[0].strip()] += 1
        print(f"damage: {name}: {ran.out.strip()}", flush=True)
    print(f"damage: {sum(told.values())} kinds: {dict(told)}", flush=True)


def part_flips(said):
    draw, told = random.Random(3), Counter()
    due = after(len(RECORDS))
    for number in range(said.flips):
        folder = whole()
        path = file_of(folder, draw.choice([ARCHIVE, SURVEY]))
        with open(path, "rb") as file:
            content = bytearray(file.read())
        # Half of them among the bytes that say something.
        places = [at for at in range(len(content)) if content[at]] if number % 2 else range(len(content))
        at, bit = draw.choice(places), 1 << draw.randrange(8)
        content[at] ^= bit
        with open(path, "wb") as file:
            file.write(content)
        before, what = packages_in(folder), f"bit {bit:#x} of byte {at} of {os.path.basename(path)} is turned"
        ran = Ran(["audit", folder])
        if ran.status == 0:
            right((ran.out, ran.err) == (f"good {due.receipts}\n", ""), f"{what}: {ran}")
            holds(folder, due)
        else:
            right(ran.status == 3 and ran.err == "" and ran.out.strip() in FAULTS and ran.out.endswith("\n"), f"{what}: {ran}")
            right(packages_in(folder) == before, f"{what}: an opening that found a fault changed a file")
        told[ran.out.split(" ")[0].strip()] += 1
    print(f"flips: {said.flips} bits, each alone: {dict(told.most_common())}", flush=True)


PARTS = {name[5:]: part for name, part in list(globals().items()) if name.startswith("part_")}


def main():
    global work
    words = argparse.ArgumentParser(description=__doc__, formatter_class=argparse.RawDescriptionHelpFormatter)
    words.add_argument("--program")
    words.add_argument("--step", type=int, default=1)
    words.add_argument("--flips", type=int, default=400)
    words.add_argument("parts", nargs="*", choices=[[], *PARTS])
    said = words.parse_args()
    use(said.program or named_or_proved())
    status = 0
    with room() as work:
        os.mkdir(os.path.join(work, "empty"))
        try:
            expect(["init", "--archive", ARCHIVE, "--at", AT, "--frame", FRAME, os.path.join(work, "empty")], 0, f"archive {ARCHIVE}\n")
            shutil.copytree(os.path.join(work, "empty"), os.path.join(work, "full"))
            expect(["import", os.path.join(work, "full"), LIST], 0, REPORT)
            # A loan that came home was let go with its log beside it; the next opening copies that into its file.
            expect(["audit", os.path.join(work, "full")], 0, f"good {after(len(RECORDS)).receipts}\n")
            for name in said.parts or PARTS:
                PARTS[name](said)
        except (Wrong, subprocess.TimeoutExpired) as wrong:
            print(f"wrong: {wrong}", file=sys.stderr)
            status = 1
        finally:
            unmount(os.path.join(work, "mount"))
    sys.exit(status)


if __name__ == "__main__":
    main()
