#!/usr/bin/env python3
"""Writes the folders of packages that sessions of folders.txt open: what stock SQLite made, and damaged.

Usage: make_folders.py           writes the files that are not as they would be made, and takes away any other
       make_folders.py --check   writes nothing; status 1 where a file is not what would be made, or plain Python has another fault

An archive A takes in the first six requests of the worked example `loan that is opened again` (torture/worked_lists.txt), by which it lends
B; another the first five of `loans of loans`, by which B lends C, C lends D, and D lends E. bench/plain_folder.py carries them out over stock
SQLite. A folder is a copy of their files, of some, or of some under other names,
and a file may be changed by SQL. Files stand below crates/sheetdesk/data/folders, small ones: pages of 512 bytes, and no log.
Two files are the same where SQLite's dumps of them are, since its releases number themselves in a file. Of each folder whose files are
all of the second version, what bench/plain_audit.py finds is held against the fault that is named here.
"""

import contextlib
import io
import os
import shutil
import sqlite3
import sys
import tempfile
from collections import namedtuple

HERE = os.path.dirname(os.path.abspath(__file__))
FOLDERS = os.path.join(HERE, "..", "crates", "sheetdesk", "data", "folders")

sys.path[:0] = [os.path.join(HERE, "..", name) for name in ("bench", "torture")]
sys.dont_write_bytecode = True

import plain_audit
import plain_folder
import reference
import worked_lists
from machine.lists import read_requests

EXAMPLE, DEEP = "loan that is opened again", "loans of loans"
ARCHIVE, LOAN, OTHER, FOURTH, FIFTH = (f"{worked_lists.uuid_of(digit)}.gpkg" for digit in "abcde")

# What the first version has not: no store of it has a link of a row to a tile.
FIRST_VERSION = ["DROP TABLE rows_tiles", "DELETE FROM gpkgext_relations WHERE id = 3", "UPDATE sheet_package SET version = 1"]

BAD_CODE = "UPDATE sheet_rows SET code = -1"
TORN = "DELETE FROM sheet_identity WHERE kind = 3"
LOST = ["DELETE FROM sheet_rows", TORN]
CHANGED = "UPDATE sheet_tiles SET tile_data = X'7a'"
PASSED_OVER = [f"UPDATE {table} SET seq = 7 WHERE seq = 5" for table in ("sheet_receipts", "sheet_items")]
TAKEN_AWAY = [f"DELETE FROM {table} WHERE seq = 1" for table in ("sheet_receipts", "sheet_items")]
# A frame of twice the height.
HIGHER = [
    "UPDATE gpkg_tile_matrix_set SET max_y = 8192",
    "UPDATE gpkg_contents SET max_y = 8192",
    "UPDATE gpkg_tile_matrix SET matrix_height = 2 * matrix_height",
]


def example(name, at=0):
    """One check of a worked example, the first unless said."""
    return [check for check in worked_lists.written_out() if check.name == name][at]


def rehearsed():
    """The second machine after the example."""
    check = example(EXAMPLE)
    return reference.rehearse(worked_lists.uuid_of("a"), check.frame, worked_lists.list_of(check))


def forged():
    """The line of the addition of the second tile is that of its deletion."""
    line = rehearsed().replies[3].line.split(" ")
    return f"UPDATE sheet_receipts SET line = 'delete {line[1]} {line[2]}' WHERE seq = 4"


def put_in(seq):
    """The receipt of a number, by which one thing moved, as rows of another store."""
    found = rehearsed().replies[seq - 1]
    thing = found.moved[0]
    ends = [found.source or "", found.target or "", *found.sums()]
    receipt = (found.seq, found.request, found.at, found.line, *ends)
    moved = (found.seq, 0, thing.kind, thing.base, thing.other or "", thing.size, thing.fingerprint)
    return [f"INSERT INTO sheet_receipts VALUES {receipt}", f"INSERT INTO sheet_items VALUES {moved}"]


def in_other_words(table, columns):
    """The table with its rows, whose columns and keys are written so."""
    return [
        f"ALTER TABLE {table} RENAME TO worn",
        f"CREATE TABLE {table} ({columns}) STRICT",
        f"INSERT INTO {table} SELECT * FROM worn",
        "DROP TABLE worn",
    ]


# The same keys: a UNIQUE behind the primary key, a key from behind, references without a column and in another order.
SAME_KEYS = [
    *in_other_words(
        "sheet_identity",
        "kind INTEGER NOT NULL, local_id INTEGER NOT NULL, uuid TEXT NOT NULL, PRIMARY KEY (kind, local_id), UNIQUE (uuid)",
    ),
    *in_other_words(
        "gpkg_tile_matrix_set",
        "table_name TEXT NOT NULL, srs_id INTEGER NOT NULL REFERENCES gpkg_spatial_ref_sys, min_x INTEGER NOT NULL,"
        " min_y INTEGER NOT NULL, max_x INTEGER NOT NULL, max_y INTEGER NOT NULL, PRIMARY KEY (table_name),"
        " FOREIGN KEY (table_name) REFERENCES gpkg_contents",
    ),
    *in_other_words(
        "sheet_items",
        "seq INTEGER NOT NULL, position INTEGER NOT NULL, kind INTEGER NOT NULL, base TEXT NOT NULL, other TEXT NOT NULL,"
        " size INTEGER NOT NULL, fingerprint TEXT NOT NULL, PRIMARY KEY (position DESC, seq)",
    ),
]

# No key keeps a number from being given twice.
FOUR_TWICE = [
    *in_other_words(
        "sheet_receipts",
        "seq INTEGER NOT NULL, request TEXT NOT NULL UNIQUE, at TEXT NOT NULL, line TEXT NOT NULL,"
        " source TEXT NOT NULL, target TEXT NOT NULL, n_tiles INTEGER NOT NULL,"
        " n_media INTEGER NOT NULL, n_rows INTEGER NOT NULL,"
        " n_links INTEGER NOT NULL, n_bytes INTEGER NOT NULL",
    ),
    "UPDATE sheet_receipts SET seq = 4 WHERE seq = 5",
]


def named(name, *statements):
    """The loan's package under another name, or with another lender."""
    return [f"UPDATE sheet_package SET package = '{name[:-5]}'", *statements]


def worked_on(name):
    """The same, in which a link was taken out: its lender has not the receipt of that."""
    uuid, (tile, medium) = name[:-5], (worked_lists.uuid_of(0, number) for number in (1, 2))
    return [
        *named(name),
        "DELETE FROM tiles_media",
        f"INSERT INTO sheet_receipts VALUES (7, '{worked_lists.uuid_of(9, 10)}', '{worked_lists.MOMENTS['U']}',"
        f" 'unlink tiles_media {uuid} {tile} {medium}', '{uuid}', '', 0, 0, 0, 1, 0)",
        f"INSERT INTO sheet_items VALUES (7, 0, 4, '{tile}', '{medium}', 0, '')",
    ]


def taken_out():
    """The row of the archive is deleted, by the receipt of the next number."""
    row, uuid = rehearsed().replies[2].moved[0], ARCHIVE[:-5]
    return [
        *LOST,
        f"INSERT INTO sheet_receipts VALUES (7, '{worked_lists.uuid_of(9, 9)}', '{worked_lists.MOMENTS['U']}',"
        f" 'delete {uuid} {row.base}', '{uuid}', '', 0, 0, 1, 0, {row.size})",
        f"INSERT INTO sheet_items VALUES (7, 0, {row.kind}, '{row.base}', '', {row.size}, '{row.fingerprint}')",
    ]


# A file of a folder: the package that it is a copy of, and what is done to it.
Copy = namedtuple("Copy", "package statements")
# Its bytes, where it is no package.
NO_BYTES, NO_DATABASE, NOTES = b"", b"no database", b"B has the sheets of the quarter in the north-west.\n"


def lent(*statements):
    return Copy("lent/" + ARCHIVE, statements)


def home(*statements):
    return Copy("home/" + ARCHIVE, statements)


def loan(*statements):
    return Copy("lent/" + LOAN, statements)


def alone(*statements):
    return Copy("alone/" + ARCHIVE, statements)


def deep(digits):
    """The packages of these digits, of four loans each of which is one of the other."""
    names = [f"{worked_lists.uuid_of(digit)}.gpkg" for digit in digits]
    return {name: Copy("deep/" + name, ()) for name in names}


def blank(count):
    """So many files that hold nothing, under names of packages."""
    return {f"{worked_lists.uuid_of('f', number)}.gpkg": NO_BYTES for number in range(1, count + 1)}


# Each folder: the fault that it is, or None, and its files. Of one that has a package of the first version plain Python says nothing.
CASES = {
    "lent": (None, {ARCHIVE: lent(), LOAN: loan(), OTHER: NO_BYTES, "notes.txt": NOTES}),
    "no_archive": ("NoArchive", {LOAN: loan()}),
    "two_archives": ("TwoArchives", {ARCHIVE: lent(), OTHER: lent()}),
    "missing_package": ("MissingPackage", {ARCHIVE: lent()}),
    "two_copies": ("TwoCopies", {ARCHIVE: lent(), LOAN: loan(), OTHER: loan()}),
    "lost_table": ("NotAPackage", {ARCHIVE: lent("DROP TABLE rows_tiles"), LOAN: loan()}),
    "bad_code": ("NotAPackage", {ARCHIVE: lent(BAD_CODE), LOAN: loan()}),
    "bad_moment": ("NotAPackage", {ARCHIVE: lent(), LOAN: loan("UPDATE gpkg_contents SET last_change = ''")}),
    "foreign_frame": ("ForeignFrame", {ARCHIVE: lent(), LOAN: loan("UPDATE sheet_package SET depth = 2")}),
    "dangling": ("Dangling", {ARCHIVE: lent(TORN), LOAN: loan()}),
    "out_of_account": ("OutOfAccount", {ARCHIVE: lent(*LOST), LOAN: loan()}),
    "altered": ("Altered", {ARCHIVE: lent(CHANGED), LOAN: loan()}),
    "passed_over": ("OutOfAccount", {ARCHIVE: lent(*PASSED_OVER), LOAN: loan()}),
    "forged_line": ("OutOfAccount", {ARCHIVE: lent(forged()), LOAN: loan()}),
    "moved_receipt": ("OutOfAccount", {ARCHIVE: lent(*TAKEN_AWAY), LOAN: loan(*put_in(1))}),
    "number_twice": ("OutOfAccount", {ARCHIVE: lent(), LOAN: loan(*put_in(4))}),
    "number_twice_in_one": ("NotAPackage", {ARCHIVE: lent(*FOUR_TWICE), LOAN: loan()}),
    "higher_frame": ("ForeignFrame", {ARCHIVE: lent(), LOAN: loan(*HIGHER)}),
    # Two copies of a folder went on apart: the loan gave the number 7, and so did the archive in the other.
    "loan_went_on": (None, {ARCHIVE: lent(), LOAN: loan(*worked_on(LOAN))}),
    "archive_went_on": (None, {ARCHIVE: lent(*taken_out()), LOAN: loan()}),
    "went_on_apart": ("OutOfAccount", {ARCHIVE: lent(*taken_out()), LOAN: loan(*worked_on(LOAN))}),
    "deep": (None, deep("abcde")),
    "lost_below": ("MissingPackage", deep("abde")),
    # More files than are opened at once.
    "crowded": (None, {**deep("abcde"), **blank(29), "f1" + LOAN[2:]: loan(*named("f1" + LOAN[2:]))}),
    "lost_in_a_crowd": ("MissingPackage", {**deep("abde"), **blank(30)}),
    "same_keys": (None, {ARCHIVE: lent(*SAME_KEYS), LOAN: loan(*SAME_KEYS)}),
    # Somebody renamed the file of the loan.
    "misnamed": (None, {ARCHIVE: lent(), FOURTH: loan()}),
    "no_database": ("StoreFault", {ARCHIVE: lent(), LOAN: NO_DATABASE}),
    # Of what lies beside the archive only the loan that came home, the one that was never lent, and what is left of other packages may go.
    "untidy": (
        None,
        {
            ARCHIVE: home(),
            LOAN: loan(),
            OTHER: NO_BYTES,
            FOURTH: loan(*named(FOURTH)),
            FIFTH: loan(*named(FIFTH, f"UPDATE sheet_package SET parent = '{OTHER[:-5]}'")),
            "b1" + LOAN[2:]: loan(),
            "c1" + LOAN[2:]: loan(*worked_on("c1" + LOAN[2:])),
            "b2" + LOAN[2:] + "-wal": NO_DATABASE,
            "b3" + LOAN[2:] + "-new": NO_BYTES,
            "notes.txt": NOTES,
        },
    ),
    "first": (None, {ARCHIVE: lent(*FIRST_VERSION), LOAN: loan(*FIRST_VERSION), OTHER: NO_BYTES}),
    "mixed": (None, {ARCHIVE: lent(*FIRST_VERSION), LOAN: loan()}),
    "first_stray": (None, {ARCHIVE: alone(*FIRST_VERSION), LOAN: loan(*FIRST_VERSION)}),
    "first_bad_code": ("NotAPackage", {ARCHIVE: lent(*FIRST_VERSION, BAD_CODE), LOAN: loan(*FIRST_VERSION)}),
    "first_dangling": ("Dangling", {ARCHIVE: lent(*FIRST_VERSION, TORN), LOAN: loan(*FIRST_VERSION)}),
    "first_altered": ("Altered", {ARCHIVE: lent(*FIRST_VERSION, CHANGED), LOAN: loan(*FIRST_VERSION)}),
}


def is_of_first_version(files):
    return any(isinstance(file, Copy) and FIRST_VERSION[-1] in file.statements for file in files.values())


def make_archive(folder):
    """A new archive, as the example begins."""
    os.mkdir(folder)
    words = ["--archive", worked_lists.uuid_of("a"), "--at", worked_lists.MOMENTS["T"], "--frame", worked_lists.FRAME, folder]
    with contextlib.redirect_stdout(io.TextIOWrapper(io.BytesIO())):
        plain_folder.init(words)


def make_lent(folder, name, count):
    """The same after so many requests of an example: the last is a split, or all that follows it."""
    make_archive(folder)
    register = plain_folder.Folder(folder)
    requests = read_requests(worked_lists.list_of(example(name, -1)))[:count]
    for number, request in enumerate(requests, 1):
        assert register.apply(request) == (number, 0), request
    register.close()


def change(path, statements):
    """Carries statements out on a package, and makes its file small."""
    store = sqlite3.connect(path, isolation_level=None)
    for statement in ["PRAGMA journal_mode = DELETE", "PRAGMA page_size = 512", *statements, "VACUUM", "PRAGMA journal_mode = WAL"]:
        store.execute(statement).fetchall()
    store.close()


def make(room):
    """All folders below one."""
    made = os.path.join(room, "made")
    os.mkdir(made)
    make_archive(os.path.join(made, "alone"))
    make_lent(os.path.join(made, "lent"), EXAMPLE, 6)
    make_lent(os.path.join(made, "home"), EXAMPLE, 8)
    make_lent(os.path.join(made, "deep"), DEEP, 5)
    wanted = os.path.join(room, "folders")
    for name, (_, files) in CASES.items():
        os.makedirs(os.path.join(wanted, name))
        for file, content in files.items():
            path = os.path.join(wanted, name, file)
            if isinstance(content, Copy):
                shutil.copyfile(os.path.join(made, content.package), path)
                change(path, content.statements)
            else:
                with open(path, "wb") as out:
                    out.write(content)
    return wanted


def content_of(path):
    """What a file holds, whichever release of SQLite wrote it; None where there is none."""
    if not os.path.exists(path):
        return None
    with open(path, "rb") as found:
        head = found.read()
    if not head.startswith(b"SQLite format 3\0"):
        return head
    store = sqlite3.connect(f"file:{path}?mode=ro&immutable=1", uri=True)
    dump = list(store.iterdump())
    store.close()
    # pages of so many bytes, and the journal
    return head[16:20], dump


def files_below(folder):
    return {os.path.relpath(os.path.join(at, name), folder) for at, _, names in os.walk(folder) for name in names}


def differences(wanted):
    paths = sorted(files_below(wanted) | files_below(FOLDERS))
    return [path for path in paths if content_of(os.path.join(wanted, path)) != content_of(os.path.join(FOLDERS, path))]


def audited(folder):
    """The fault that plain Python finds in a folder, or None."""
    try:
        plain_folder.Folder(folder).close()
    except plain_audit.Fault as fault:
        return str(fault)
    return None


def wrong_faults(wanted):
    """Works on a copy, since a store that is opened may be written."""
    copies = shutil.copytree(wanted, wanted + ".audited")
    found = {name: audited(os.path.join(copies, name)) for name, (_, files) in CASES.items() if not is_of_first_version(files)}
    return [f"{name}: {fault} by plain Python, and not {CASES[name][0]}" for name, fault in found.items() if fault != CASES[name][0]]


def write(wanted):
    for path in differences(wanted):
        target = os.path.join(FOLDERS, path)
        if os.path.exists(os.path.join(wanted, path)):
            os.makedirs(os.path.dirname(target), exist_ok=True)
            shutil.copyfile(os.path.join(wanted, path), target)
        else:
            os.remove(target)


def main():
    if sys.argv[1:] not in ([], ["--check"]):
        sys.exit(__doc__)
    with tempfile.TemporaryDirectory() as room:
        wanted = make(room)
        other = wrong_faults(wanted)
        if sys.argv[1:]:
            other += [f"not as made: {path}" for path in differences(wanted)]
        else:
            write(wanted)
    sys.exit("\n".join(other) if other else 0)


if __name__ == "__main__":
    main()
