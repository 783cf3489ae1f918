#!/usr/bin/env python3
"""Writes the sample: the request list of the archive of Nordmark, and what its rehearsal must print, by the second machine of reference.py.

Usage: make_sample.py           writes archive.csv and archive.expected.txt
       make_sample.py --check   writes nothing; status 1 where one of these files is not what would be written

The same text comes out each time: nothing is drawn at random, and the identities are UUIDs made of names. nordmark.py has the archive,
story.py what happens in it; each request there says by which number it is refused, if it is, and the second machine has to agree.
"""

import copy
import os
import sys

import nordmark
import reference
import story
from machine.lists import HEADER, read_request, spelled_record
from machine.frames import Frame
from machine.world import World, apply, audit

HERE = os.path.dirname(os.path.abspath(__file__))


class List:
    """The records of the list, each with its own request id and a moment half a minute after the one before, and the world after them."""

    def __init__(self):
        self.records = []
        self.pictures = {}
        self.world = World(nordmark.ARCHIVE, Frame.read(nordmark.FRAME))

    def add(self, command, request=None, at=None, package=nordmark.ARCHIVE, refused=0, **fields):
        number = len(self.records) + 1
        moment = f"2026-03-02T{8 + number // 120:02}:{number // 2 % 60:02}:{number % 2 * 30:02}.000Z"
        request = request or nordmark.name_uuid("request", f"{number}")
        common = {"command": command, "package": package, "request": request, "at": moment if at is None else at}
        values = {**dict.fromkeys(HEADER, ""), **fields, **common}
        record = [str(values[name]) for name in HEADER]
        reply = apply(self.world, read_request(record))
        answered = reply.number if isinstance(reply, reference.Refusal) else 0
        assert answered == refused, (number, record, reply)
        self.records.append(record)
        return request

    def tile(self, identity, place, data, **other):
        zoom, column, row = place
        return self.add("add", kind="tile", identity=identity, zoom=zoom, column=column, row=row, data=data.hex(), **other)

    def medium(self, identity, content_type, data, **other):
        return self.add("add", kind="media", identity=identity, text=content_type, data=data.hex(), **other)

    def mark(self, identity, x, y, code, label, **other):
        return self.add("add", kind="row", identity=identity, x=x, y=y, code=code, text=label, **other)

    def delete(self, identity, **other):
        return self.add("delete", identity=identity, **other)

    def link(self, mapping, base, end, **other):
        return self.add("link", kind=mapping, identity=base, other=end, **other)

    def unlink(self, mapping, base, end, **other):
        return self.add("unlink", kind=mapping, identity=base, other=end, **other)

    def split(self, child, mode, rect, **other):
        """The rectangle is its zoom, first and last column, first and last row."""
        ends = dict(zip(["zoom", "column", "last_column", "row", "last_row"], rect))
        return self.add("split", other=child, kind=mode, **ends, **other)

    def merge(self, child, into, ticket, **other):
        return self.add("merge", package=child, other=into, ticket=ticket, **other)

    def tickets(self):
        return dict(self.world.tickets)

    def picture(self, name):
        """Keeps who holds what at this place of the story, under a name."""
        self.pictures[name] = copy.deepcopy(self.world.packages)

    def text(self):
        return "".join(map(spelled_record, [HEADER, *self.records]))


def told():
    requests = List()
    story.tell(requests)
    return requests


def rehearsed():
    """The list, and what its rehearsal prints."""
    sample = told().text().encode()
    done = reference.rehearse(nordmark.ARCHIVE, nordmark.FRAME, sample)
    met = {reply.number for reply in done.replies if isinstance(reply, reference.Refusal)}
    assert done.status == 0 and met == set(range(1, 23)) - {16}, met
    audit(done.world)
    return sample, done.text


def files():
    """Each file's path and bytes."""
    sample, text = rehearsed()
    return {os.path.join(HERE, "archive.csv"): sample, os.path.join(HERE, "archive.expected.txt"): text.encode()}


def is_as_wanted(path, wanted):
    with open(path, "rb") as found:
        return found.read() == wanted


def main():
    if sys.argv[1:] == ["--check"]:
        other = [path for path, wanted in files().items() if not is_as_wanted(path, wanted)]
        sys.exit("\n".join(f"not as made: {os.path.relpath(path)}" for path in other) if other else 0)
    if sys.argv[1:]:
        sys.exit(__doc__)
    for path, wanted in files().items():
        with open(path, "wb") as out:
            out.write(wanted)


if __name__ == "__main__":
    main()
