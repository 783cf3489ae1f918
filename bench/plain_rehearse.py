#!/usr/bin/env python3
"""Rehearses a request list over stock SQLite in memory: the same tables, indexes and transactions as the program, and no contracts.

Usage: plain_rehearse.py rehearse --archive ARCHIVE --at AT --frame FRAME < list.csv

A store a package (plain_store.py). Reading, texts and the rules of single values are those of samples/machine; each other reason is
judged by queries. A request is carried out with its receipt in one transaction; a split fills and commits the child's store first,
then the parent's; a merge commits the target's. Report and manifests are printed as the program prints them. Of the limits that no
request goes past, that of live packages alone is judged.
"""

import argparse
import os
import sys

sys.path.insert(0, os.path.join(os.path.dirname(os.path.abspath(__file__)), "..", "samples"))
sys.dont_write_bytecode = True

import plain_loans
import reference
from machine.contents import ENDS, line_of, place_of, rect_of
from machine.frames import Frame
from machine.lists import NoList, read_requests, read_uuid, spelled_record
from machine.reasons import GREATEST_DEPTH, MOST_PACKAGES, bad_text, too_large
from plain_store import KIND_NAMES, Store


class Register:
    def __init__(self, archive, at, frame):
        self.archive = archive
        self.frame = frame
        self.stores = {archive: self.make((archive, "", 0, 0), at)}
        self.receipts = 0

    def make(self, head, at):
        """A new package."""
        return Store.make(":memory:", self.frame, head, at)

    def any_store(self, question, *values):
        """The first answer of a live package that is one."""
        return next((answer for store in self.stores.values() if (answer := question(store, *values))), None)

    # Why a request is refused, by the number of the reason; 0 where it is not.

    def refusal(self, request):
        command = request["command"]
        named = [request["package"], request["other"]] if command == "merge" else [request["package"]]
        if any(package not in self.stores for package in named):
            return 2
        if command == "split" and (request["other"] == self.archive or self.any_store(Store.was_lent, request["other"])):
            return 3
        if bad_text(self, request):
            return 4
        if command == "add" and too_large(self, request):
            return 5
        return getattr(self, f"of_{command}")(self.stores[request["package"]], request)

    def of_add(self, store, request):
        if self.any_store(Store.is_used, request["identity"]):
            return 6
        if request["kind"] == "row":
            return 0 if self.frame.has_point(request["x"], request["y"]) else 10
        if request["kind"] == "media":
            return 0
        if not self.frame.has_place(*place_of(request)):
            return 9
        return 11 if store.is_taken(place_of(request)) else 0

    def of_delete(self, store, request):
        if store.key_of(request["identity"]) == (0, 0):
            return 7
        return 14 if store.is_linked(request["identity"]) else 0

    def of_link(self, store, request):
        ends = store.key_of(request["identity"]), store.key_of(request["other"])
        if (0, 0) in ends:
            return 7
        if tuple(KIND_NAMES[kind] for kind, _ in ends) != ENDS[request["kind"]]:
            return 8
        return 12 if store.has_link(request) else 0

    def of_unlink(self, store, request):
        return 0 if store.has_link(request) else 13

    def of_split(self, store, request):
        rect = rect_of(request)
        if not self.frame.has_rect(rect):
            return 15
        if store.depth >= GREATEST_DEPTH:
            return 16
        if not plain_loans.choose_start(store, self.frame, rect):
            return 17
        if request["kind"] == "follow":
            plain_loans.follow(store)
        else:
            plain_loans.add_media(store)
            if plain_loans.is_torn(store):
                return 18
        return 23 if len(self.stores) >= MOST_PACKAGES else 0

    def of_merge(self, child, request):
        into = self.stores[request["other"]]
        if child.parent != into.uuid:
            return 19
        if child.ticket != request["ticket"]:
            return 20
        if any(store.parent == child.uuid for store in self.stores.values()):
            return 21
        return 22 if any(into.is_taken(place) for place in child.places()) else 0

    # What an accepted request does.

    def change(self, request, line):
        store, command = self.stores[request["package"]], request["command"]
        store.conn.execute("BEGIN")
        moved = {"add": store.insert, "delete": store.delete}.get(command, store.change_link)(request)
        ends = ("", store.uuid) if command in ("add", "link") else (store.uuid, "")
        store.enter(self.receipts, request, line, ends, [moved])
        store.conn.execute("COMMIT")
        store.ticket = self.receipts

    def split(self, request, line):
        parent = self.stores[request["package"]]
        child = self.make((request["other"], parent.uuid, parent.depth + 1, self.receipts), request["at"])
        child.conn.execute("BEGIN")
        moved = plain_loans.carry(parent, child)
        child.date(request["at"])
        child.conn.execute("COMMIT")
        parent.conn.execute("BEGIN")
        plain_loans.take(parent)
        parent.enter(self.receipts, request, line, (parent.uuid, child.uuid), moved)
        parent.conn.execute("COMMIT")
        parent.ticket = child.ticket = self.receipts
        self.stores[child.uuid] = child

    def merge(self, request, line):
        child, into = self.stores.pop(request["package"]), self.stores[request["other"]]
        plain_loans.choose_all(child)
        into.conn.execute("BEGIN")
        moved = plain_loans.carry(child, into)
        plain_loans.bring_receipts(child, into)
        into.enter(self.receipts, request, line, (child.uuid, into.uuid), moved)
        into.conn.execute("COMMIT")
        child.conn.close()
        into.ticket = self.receipts

    def apply(self, request):
        """The number of the receipt, or 0, and that of the refusal, or 0."""
        line = line_of(request)
        kept = self.any_store(Store.kept, request["request"])
        if kept is not None:
            return (kept[1], 0) if kept[0] == line else (0, 1)
        refusal = self.refusal(request)
        if refusal:
            return 0, refusal
        self.receipts += 1
        {"split": self.split, "merge": self.merge}.get(request["command"], self.change)(request, line)
        return self.receipts, 0


def manifest(store):
    identities = store.all("SELECT * FROM sheet_identity ORDER BY kind, uuid")
    rows = [reference.item_fields(identity, store.item(kind, key)) for kind, key, identity in identities]
    rows += map(reference.link_fields, store.links())
    return f"package {store.uuid}\n{reference.MANIFEST_HEADER}\n" + "".join(map(spelled_record, rows))


def rehearse(archive, at, frame, list_bytes):
    """What is printed, and the exit status."""
    refused = reference.refused_word(archive, at, frame)
    try:
        requests = [] if refused else read_requests(list_bytes)
    except NoList:
        refused = "list"
    if refused:
        return f"refused: {refused}\n", 1
    register = Register(read_uuid(archive), at, Frame.read(frame))
    lines = [reference.REPORT_HEADER + "\n"]
    for number, request in enumerate(requests, 1):
        seq, refusal = register.apply(request)
        lines.append(f"{number},{request['request']},{seq},{refusal}\n")
    return "".join(lines) + "".join(manifest(register.stores[uuid]) for uuid in sorted(register.stores)), 0


def main():
    words = argparse.ArgumentParser(description=__doc__, formatter_class=argparse.RawDescriptionHelpFormatter)
    words.add_argument("command", choices=["rehearse"])
    for name in ("--archive", "--at", "--frame"):
        words.add_argument(name, required=True)
    said = words.parse_args()
    text, status = rehearse(said.archive, said.at, said.frame, sys.stdin.buffer.read())
    sys.stdout.buffer.write(text.encode())
    sys.exit(status)


if __name__ == "__main__":
    main()
