#!/usr/bin/env python3
"""Does over a folder of packages what the program does, by stock SQLite: the same tables, indexes and transactions, and no contracts.

Usage: plain_folder.py init --archive ARCHIVE --at AT --frame FRAME FOLDER
       plain_folder.py import FOLDER FILE
       plain_folder.py manifest FOLDER PACKAGE
       plain_folder.py audit FOLDER
       plain_folder.py serve FOLDER PORT COUNT      additions alone, as plain_desk.py

A package is the file `<uuid>.gpkg`, in write-ahead mode, and each commit waits for the disk (synchronous = FULL). A request is one
transaction, which carries its receipt; a split has two more before it, in the file of its child, and a merge one. Each command opens
the folder as the program does, with all that `audit` looks at (plain_audit.py), prints the same texts and ends with the same statuses.
"""

import os
import sqlite3
import sys

sys.path.insert(0, os.path.join(os.path.dirname(os.path.abspath(__file__)), "..", "samples"))
sys.dont_write_bytecode = True

import reference
from machine.frames import Frame
from machine.lists import UUID, NoList, read_requests, read_uuid
from plain_audit import Fault, open_register
from plain_rehearse import Register, manifest
from plain_store import Store


class Folder(Register):
    """The register of a folder."""

    def __init__(self, folder):
        self.folder = folder
        self.archive, self.stores, self.frame, self.receipts = open_register(folder)

    def make(self, head, at):
        return make_in(self.folder, self.frame, head, at)

    def close(self):
        for store in self.stores.values():
            store.conn.close()


def make_in(folder, frame, head, at):
    """A new package, in place of whatever stood under its UUID."""
    name = f"{head[0]}.gpkg"
    for found in os.listdir(folder):
        if found.startswith(name):
            os.remove(os.path.join(folder, found))
    return Store.make(os.path.join(folder, name), frame, head, at)


def say(text, status=0):
    sys.stdout.buffer.write(text.encode())
    sys.stdout.buffer.flush()
    return status


def init(words):
    archive, at, frame, folder = words[1], words[3], words[5], words[6]
    if refused := reference.refused_word(archive, at, frame):
        return say(f"refused: {refused}\n", 1)
    if any(name.endswith(".gpkg") for name in os.listdir(folder)):
        return say("refused: folder holds packages\n", 1)
    archive = read_uuid(archive)
    make_in(folder, Frame.read(frame), (archive, "", 0, 0), at).conn.close()
    return say(f"archive {archive}\n")


def import_list(register, file):
    try:
        with open(file, "rb") as given:
            requests = read_requests(given.read())
    except (NoList, OSError):
        return say("refused: list\n", 1)
    say(reference.REPORT_HEADER + "\n")
    for number, request in enumerate(requests, 1):
        try:
            seq, refusal = register.apply(request)
        except (sqlite3.Error, OSError):
            say(f"{number},{request['request']},0,25\n")
            raise
        say(f"{number},{request['request']},{seq},{refusal}\n")
    return 0


def print_manifest(register, package):
    if package.lower() not in register.stores:
        return say("refused: no such package\n", 1)
    return say(manifest(register.stores[package.lower()]).split("\n", 1)[1])


def serve(register, port, count):
    # It has http.server, which is slow to load.
    import plain_desk
    plain_desk.serve(register, int(port), int(count))
    return 0


def audit(register):
    return say(f"good {register.receipts}\n")


COMMANDS = {"import": import_list, "manifest": print_manifest, "audit": audit, "serve": serve}


def carried_out(command, *words):
    if command == "init":
        return init(words)
    if command == "manifest" and UUID.fullmatch(words[1]) is None:
        return say("refused: uuid\n", 1)
    register = Folder(words[0])
    status = COMMANDS[command](register, *words[1:])
    register.close()
    return status


def main():
    if len(sys.argv) < 3 or sys.argv[1] not in {"init", *COMMANDS}:
        sys.exit(__doc__)
    try:
        sys.exit(carried_out(*sys.argv[1:]))
    except Fault as fault:
        name = str(fault)
    except (sqlite3.Error, OSError):
        name = "StoreFault"
    if sys.argv[1] == "audit":
        sys.exit(say(f"{name}\n", 3))
    sys.stderr.write(f"store: {name}\n")
    sys.exit(3)


if __name__ == "__main__":
    main()
