"""Request lists to be timed, by name: each a function of a number of requests, the same list each time.

Identities and request ids are spread over all UUIDs, as those of version 4 are, but in the list `rows in order`, where identities,
requests and points ascend, so that each entry of each index comes behind all others.
"""

import random
import uuid
from collections import deque

ARCHIVE = "a0000000-0000-4000-8000-000000000000"
AT = "2024-05-01T08:00:00.000Z"
FRAME = "25832,0,0,1048576,1048576,256,256,0,13,1,1"
HEADER = "request,at,command,package,identity,other,kind,zoom,column,row,last_column,last_row,x,y,code,ticket,text,data\n"
# How many loans live at a time where there are many.
MOST_LOANS = 64


def spread(first):
    draw = random.Random(first)
    while True:
        yield str(uuid.UUID(int=draw.getrandbits(128), version=4))


def ascending(first):
    number = first << 124
    while True:
        number += 1
        yield str(uuid.UUID(int=number))


class List:
    def __init__(self, uuids=spread):
        self.requests, self.identities = uuids(9), uuids(1)
        self.lines = []

    def put(self, command, rest, package=ARCHIVE):
        self.lines.append(f"{next(self.requests)},{AT},{command},{package},{rest}\n")

    def tile(self, number):
        identity = next(self.identities)
        self.put("add", f"{identity},,tile,12,{number % 4096},{number // 4096},,,,,,,,{(b'PNG sheet %d' % number).hex()}")
        return identity

    def medium(self, number):
        identity = next(self.identities)
        self.put("add", f"{identity},,media,,,,,,,,,,image/png,{(b'PNG legend %d' % number).hex()}")
        return identity

    def row(self, number, x, y):
        identity = next(self.identities)
        self.put("add", f"{identity},,row,,,,,,{x},{y},{number % 1000},,mark {number},")
        return identity

    def spread_row(self, number):
        return self.row(number, number * 7919 % 1048576, 1 + number * 104729 % 1048576)

    def link(self, command, mapping, base, other):
        self.put(command, f"{base},{other},{mapping},,,,,,,,,,,")

    def delete(self, identity):
        self.put("delete", f"{identity},,,,,,,,,,,,,")

    def split(self, child, zoom, column, row):
        self.put("split", f",{child},strict,{zoom},{column},{row},{column},{row},,,,,,")

    def merge(self, child, ticket):
        self.put("merge", f",{ARCHIVE},,,,,,,,,,{ticket},,", package=child)

    def text(self):
        return (HEADER + "".join(self.lines)).encode()


def additions(count):
    """A third each tiles, media and rows."""
    made = List()
    for number in range(count):
        (made.tile, made.medium, made.spread_row)[number % 3](number)
    return made


def rows_in_order(count):
    made = List(ascending)
    for number in range(count):
        made.row(number, number, 1 + number)
    return made


def mixed(count):
    """Of ten requests six are additions, two links, one takes a link off and one deletes."""
    made = List()
    for group in range(count // 10):
        tiles = [made.tile(2 * group + number) for number in range(2)]
        media = [made.medium(2 * group + number) for number in range(2)]
        rows = [made.spread_row(2 * group + number) for number in range(2)]
        made.link("link", "tiles_media", tiles[0], media[0])
        made.link("link", "rows_media", rows[0], media[0])
        made.link("unlink", "rows_media", rows[0], media[0])
        made.delete(rows[1])
    return made


def one_split_of_all(count):
    """Tiles, each with a medium and a link, and rows; then one split takes all, and one merge brings it home."""
    made = List()
    for group in range((count - 2) // 4):
        made.link("link", "tiles_media", made.tile(group), made.medium(group))
        made.spread_row(group)
    child = next(made.identities)
    made.split(child, 0, 0, 0)
    made.merge(child, len(made.lines))
    return made


def small_splits(count):
    """A tile is added and lent, and the oldest of the loans comes home."""
    made, loans = List(), deque()
    for number in range(count // 3):
        made.tile(number)
        child = next(made.identities)
        made.split(child, 12, number % 4096, number // 4096)
        loans.append((child, len(made.lines)))
        if len(loans) > MOST_LOANS:
            made.merge(*loans.popleft())
    while loans and len(made.lines) < count:
        made.merge(*loans.popleft())
    return made


def kept_repeats(count):
    """Additions, and then each of them again."""
    made = additions(count // 2)
    made.lines *= 2
    return made


LISTS = {
    "additions": additions,
    "rows in order": rows_in_order,
    "mixed": mixed,
    "one split of all": one_split_of_all,
    "small splits": small_splits,
    "kept repeats": kept_repeats,
}
