#!/usr/bin/env python3
"""Opens a register whose receipts are read in several parts, as it is and with each of some damages made by stock SQLite.

Usage: receipt_parts.py [COUNT]     (9,000 additions) over the proved program; SHEETDESK=PROGRAM takes another

An opening reads the receipts of a store some 4,000 numbers at a time, and what they moved with them. So each damage stands in another part,
at the end of one, or under a number that no receipt has. The register is made by plain Python over stock SQLite (bench/plain_folder.py). What
must be told is worked out by hand: a row out of its range or place, or without a receipt, is NotAPackage; a receipt that is missing whole is
OutOfAccount. Status 0 where all is so; else 1, with each damage of which it is not.
"""

import os
import shutil
import sqlite3
import subprocess
import sys
import tempfile

TOP = os.path.join(os.path.dirname(os.path.abspath(__file__)), "..")
sys.path.insert(0, os.path.join(TOP, "bench"))
sys.dont_write_bytecode = True

from folder_times import MEMORY, made_of
from program import program
from timed_lists import ARCHIVE, additions

MOVED = "INSERT INTO sheet_items SELECT {seq}, {position}, kind, base, other, size, fingerprint FROM sheet_items WHERE seq = 1"
DAMAGES = [
    ("UPDATE sheet_items SET kind = 9 WHERE seq = 1", "NotAPackage"),
    ("UPDATE sheet_items SET kind = 9 WHERE seq = 4000", "NotAPackage"),
    ("UPDATE sheet_items SET kind = 9 WHERE seq = 4001", "NotAPackage"),
    ("UPDATE sheet_items SET kind = 9 WHERE seq = {last}", "NotAPackage"),
    (MOVED.format(seq=-5, position=0), "NotAPackage"),
    (MOVED.format(seq=999999, position=0), "NotAPackage"),
    (MOVED.format(seq=4000, position=2), "NotAPackage"),
    ("UPDATE sheet_items SET position = 1 WHERE seq = 8000", "NotAPackage"),
    ("UPDATE sheet_receipts SET at = 'x' WHERE seq = 8001", "NotAPackage"),
    ("DELETE FROM sheet_receipts WHERE seq = 4001", "NotAPackage"),
    ("DELETE FROM sheet_receipts WHERE seq = 4001; DELETE FROM sheet_items WHERE seq = 4001", "OutOfAccount"),
    ("DELETE FROM sheet_items WHERE seq = 8001", "OutOfAccount"),
]


def told_of(folder):
    """The status of an audit, and the first word that it tells."""
    ran = subprocess.run([program(), "audit", folder], stdout=subprocess.PIPE, stderr=subprocess.PIPE, stdin=subprocess.DEVNULL)
    return ran.returncode, (ran.stdout.decode().split() or [""])[0]


def damaged(made, place, statements):
    """A copy of the folder in which these statements were carried out."""
    folder = os.path.join(place, "copy")
    shutil.rmtree(folder, ignore_errors=True)
    shutil.copytree(made, folder)
    conn = sqlite3.connect(os.path.join(folder, f"{ARCHIVE}.gpkg"))
    conn.executescript(statements)
    conn.commit()
    conn.close()
    return folder


def main():
    count = int(sys.argv[1]) if len(sys.argv) == 2 else 9000
    if len(sys.argv) > 2 or count < 8002:
        sys.exit(__doc__)
    wrong = 0
    with tempfile.TemporaryDirectory(dir=MEMORY) as place:
        made = made_of("Python", additions(count).lines, place)
        for statements, fault in [("", "good"), *DAMAGES]:
            statements = statements.format(last=count)
            found = told_of(damaged(made, place, statements))
            wanted = (0 if fault == "good" else 3, fault)
            if found != wanted:
                wrong += 1
                print(f"{statements or 'as it is'}: wanted {wanted}, came {found}")
    print(f"{len(DAMAGES) + 1} registers of {count} receipts, {wrong} not as they must be")
    sys.exit(1 if wrong else 0)


if __name__ == "__main__":
    main()
