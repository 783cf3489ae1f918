#!/usr/bin/env python3
"""A small second machine for request lists of all six commands: what `sheetdesk rehearse` has to print, by the rules alone.

Usage: reference.py [--replies|--packages] ARCHIVE FRAME < list.csv

ARCHIVE is the UUID of the archive, FRAME its eleven numbers. The report and the manifest of each live package go to standard
output, with status 0; with --replies the reply to each request, a line of JSON each, with what a refusal carries and with the sums
of a receipt; with --packages the list of the live packages as JSON, with their sums and tickets. Where the text is no request list,
it is the line `refused: list`, with status 1.

It shares nothing with the program: one world in plain Python sets and dictionaries, nothing stored and nothing proved. A request
is judged by one function for each reason, in the order of their numbers. `audit` holds a world against its receipts.
"""

import json
import sys
from collections import namedtuple

from machine.contents import KINDS, fingerprint_of, is_moment, place_of, size_of
from machine.frames import Frame
from machine.lists import UUID, NoList, read_requests, read_uuid, spelled_record
from machine.reasons import NAMES, Refusal
from machine.world import Receipt, World, apply, held, sums_of

MANIFEST_HEADER = "kind,identity,other,zoom,column,row,x,y,code,size,fingerprint,text"
REPORT_HEADER = "line,request,seq,refusal"


def item_fields(identity, item):
    front = [item["kind"], identity, ""]
    back = [size_of(item), fingerprint_of(item)]
    if item["kind"] == "tile":
        return [*front, *place_of(item), "", "", "", *back, ""]
    if item["kind"] == "media":
        return [*front, "", "", "", "", "", "", *back, item["text"]]
    return [*front, "", "", "", item["x"], item["y"], item["code"], *back, item["text"]]


def link_fields(link):
    return [*link, "", "", "", "", "", "", 0, "", ""]


def manifest(package):
    rows = [item_fields(identity, item) for identity, item in package.items.items()] + [link_fields(link) for link in package.links]
    rows.sort(key=lambda fields: (KINDS[fields[0]], fields[1], fields[2]))
    return MANIFEST_HEADER + "\n" + "".join(map(spelled_record, rows))


def report_line(number, request, reply):
    seq, refusal = (reply.seq, 0) if isinstance(reply, Receipt) else (0, reply.number)
    return f"{number},{request['request']},{seq},{refusal}\n"


def reply_text(reply):
    """The reply as the desk has it, on one line."""
    if isinstance(reply, Refusal):
        detail = {"detail": reply.detail} if reply.detail else {}
        return json.dumps({**detail, "name": NAMES[reply.number - 1], "refusal": reply.number}, separators=(",", ":"))
    sums = dict(zip(["tiles", "media", "rows", "links", "bytes"], reply.sums()))
    ends = {"from": reply.source or "", "to": reply.target or "", "items": len(reply.moved)}
    members = {"at": reply.at, "line": reply.line, "request": reply.request, "seq": reply.seq, **ends, **sums}
    return json.dumps(members, sort_keys=True, separators=(",", ":"), ensure_ascii=False)


def sight_of(world, package):
    """A live package as the desk lists it, with the number of its loans."""
    sums = dict(zip(["tiles", "media", "rows", "links", "bytes"], sums_of(held(package))))
    loans = sum(other.parent == package.uuid for other in world.packages.values())
    return {"package": package.uuid, "parent": package.parent or "", "depth": package.depth, "loans": loans, "ticket": world.tickets[package.uuid], **sums}


def sights_text(world):
    sights = [sight_of(world, world.packages[uuid]) for uuid in sorted(world.packages)]
    return json.dumps(sights, sort_keys=True, separators=(",", ":"))


def packages_text(world):
    return "".join(f"package {uuid}\n{manifest(world.packages[uuid])}" for uuid in sorted(world.packages))


def is_good_frame(text):
    try:
        return Frame.read(text).is_good()
    except NoList:
        return False


def refused_word(archive, at, frame):
    """The first of the words of a command line that cannot be read: uuid, at or frame, or None."""
    if UUID.fullmatch(archive) is None:
        return "uuid"
    if not is_moment(at):
        return "at"
    return None if is_good_frame(frame) else "frame"


Rehearsal = namedtuple("Rehearsal", "text status requests replies world")


def rehearse(archive, frame, list_bytes):
    """What the program has to print and its exit status; then the requests, the reply to each, and the world after them."""
    world = World(read_uuid(archive), Frame.read(frame))
    try:
        requests = read_requests(list_bytes)
    except NoList:
        return Rehearsal("refused: list\n", 1, [], [], world)
    replies = [apply(world, request) for request in requests]
    lines = [report_line(number, *each) for number, each in enumerate(zip(requests, replies), 1)]
    return Rehearsal(f"{REPORT_HEADER}\n{''.join(lines)}{packages_text(world)}", 0, requests, replies, world)


def main():
    words = sys.argv[1:]
    option = words.pop(0) if words[:1] in (["--replies"], ["--packages"]) else ""
    if len(words) != 2:
        sys.exit(__doc__)
    done = rehearse(*words, sys.stdin.buffer.read())
    text = done.text
    if option == "--replies" and done.status == 0:
        text = "".join(reply_text(reply) + "\n" for reply in done.replies)
    if option == "--packages" and done.status == 0:
        text = sights_text(done.world) + "\n"
    sys.stdout.buffer.write(text.encode())
    sys.exit(done.status)


if __name__ == "__main__":
    main()
