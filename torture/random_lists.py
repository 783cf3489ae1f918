"""Random request lists over a world of packages: all six commands, so that most name something that is there, and many something that is not.

A list follows the world that it has come to so far (that of samples/reference.py), but for the choice of values alone: what has to
come out is asked of the list's text afterwards.
"""

from machine.contents import ENDS, place_of
from machine.frames import Frame
from machine.lists import HEADER, MAPPINGS, MODES, read_request
from machine.world import World, apply
from random_values import BAD_MOMENTS, GOOD_MOMENTS, GREATEST, LEAST, Values

ARCHIVE = "a0000000-0000-4000-8000-00000000000a"
# How often each command comes, for lists that fill, that change, that lend and bring home, that lend what is linked, that link most
# things with one another, and that lend all.
MIXES = [
    {"tile": 20, "media": 12, "row": 15, "delete": 8, "link": 18, "unlink": 6, "split": 3, "merge": 3},
    {"tile": 16, "media": 10, "row": 12, "delete": 12, "link": 22, "unlink": 12, "split": 6, "merge": 6},
    {"tile": 16, "media": 4, "row": 10, "delete": 5, "link": 8, "unlink": 3, "split": 24, "merge": 18},
    {"tile": 18, "media": 8, "row": 12, "delete": 2, "link": 26, "unlink": 2, "split": 24, "merge": 8},
    {"tile": 14, "media": 8, "row": 10, "delete": 2, "link": 54, "unlink": 2, "split": 5, "merge": 5},
    {"tile": 46, "media": 2, "row": 4, "delete": 2, "link": 2, "unlink": 2, "split": 40, "merge": 2},
]


class Lists(Values):
    def begin(self, frame):
        self.frame = Frame.read(frame)
        self.mix = self.random.choice(MIXES)
        self.spare = [self.uuid() for _ in range(self.random.choice([12, 60, 2000]))]
        self.spare += [ARCHIVE, "00000000-0000-0000-0000-000000000000", "ffffffff-ffff-ffff-ffff-ffffffffffff"]
        self.places = [self.place(self.frame) for _ in range(self.random.choice([5, 200]))]
        self.past = []
        self.world = World(ARCHIVE, self.frame)

    # Names of things, of which most are there.

    def package(self):
        """A live package, a deep one as likely as the archive, but where all is lent; or another UUID."""
        if self.chance(0.02):
            return self.random.choice([*self.spare, *self.world.lent])
        if self.mix is MIXES[-1] and self.chance(0.85):
            return ARCHIVE
        live = list(self.world.packages.values())
        depth = self.random.choice([package.depth for package in live])
        return self.random.choice([package.uuid for package in live if package.depth == depth])

    def loan(self):
        loans = [uuid for uuid in self.world.packages if uuid != ARCHIVE]
        return self.random.choice(loans) if loans and self.chance(0.97) else self.package()

    def held(self, package):
        return self.world.packages[package].items if package in self.world.packages else {}

    def identity(self, package, *kinds):
        known = [identity for identity, item in self.held(package).items() if item["kind"] in kinds]
        return self.random.choice(known) if known and self.chance(0.92) else self.random.choice(self.spare)

    def a_place(self):
        """One of any, one of a few, or one that a tile of some package has: a tile there meets it, there or when its package comes home."""
        if self.chance(0.15):
            return self.random.choice([place for package in self.world.packages.values() for place in package.places] or self.places)
        return self.random.choice(self.places) if self.chance(0.3) else self.place(self.frame)

    # The fields of each command.

    def add(self, kind):
        identity = self.random.choice(self.spare) if self.chance(0.15) else self.uuid()
        fields = {"command": "add", "kind": kind, "package": self.package(), "identity": identity}
        if kind == "tile":
            return {**fields, **dict(zip(["zoom", "column", "row"], self.a_place())), "data": self.data().hex()}
        if kind == "media":
            return {**fields, "text": self.content_type(), "data": self.data().hex()}
        return {**fields, **dict(zip("xy", self.point(self.frame))), "code": self.code(), "text": self.label()}

    def delete(self):
        package = self.package()
        return {"command": "delete", "package": package, "identity": self.identity(package, "tile", "media", "row")}

    def change_link(self, command):
        package = self.package()
        links = sorted(self.world.packages[package].links) if package in self.world.packages else []
        if links and self.chance(0.9 if command == "unlink" else 0.1):
            mapping, base, other = self.random.choice(links)
            return {"command": command, "package": package, "kind": mapping, "identity": base, "other": other}
        mapping = self.random.choice(MAPPINGS)
        kinds = [kind if self.chance(0.93) else self.random.choice(["tile", "media", "row"]) for kind in ENDS[mapping]]
        base, other = (self.identity(package, kind) for kind in kinds)
        return {"command": command, "package": package, "kind": mapping, "identity": base, "other": other}

    def rect(self, package):
        """One around a tile of the package, one of any two places, or one at or past the frame's ends."""
        places = [place_of(item) for item in self.held(package).values() if item["kind"] == "tile"]
        zoom, column, row = self.random.choice(places) if places and self.chance(0.8) else self.place(self.frame)
        last_column, last_row = column + self.random.choice([0, 0, 0, 1, 3]), row + self.random.choice([0, 0, 0, 1, 3])
        columns, rows = self.frame.matrix(zoom)
        if self.chance(0.9) and columns:
            last_column, last_row = min(last_column, columns - 1), min(last_row, rows - 1)
        if self.chance(0.15) and columns:
            column, row, last_column, last_row = 0, 0, columns - 1, rows - 1
        if self.chance(0.05):
            column, last_row = self.near(column, last_column + 1), self.near(last_row, row - 1)
        numbers = {"zoom": zoom, "column": column, "last_column": last_column, "row": row, "last_row": last_row}
        return {name: max(LEAST, min(number, GREATEST)) for name, number in numbers.items()}

    def split(self):
        package = self.package()
        child = self.random.choice([*self.spare, *self.world.lent, *self.world.packages]) if self.chance(0.06) else self.uuid()
        mode = self.random.choice(MODES)
        return {"command": "split", "package": package, "other": child, "kind": mode, **self.rect(package)}

    def merge(self):
        child = self.loan()
        known = self.world.packages.get(child)
        into = known.parent if known and known.parent and self.chance(0.93) else self.package()
        ticket = self.world.tickets.get(child, 0)
        if self.chance(0.15):
            ticket = self.near(ticket, 0, len(self.world.receipts))
        return {"command": "merge", "package": child, "other": into, "ticket": ticket}

    def fields(self):
        command = self.random.choices(list(self.mix), self.mix.values())[0]
        if command in ("tile", "media", "row"):
            return self.add(command)
        if command in ("link", "unlink"):
            return self.change_link(command)
        return {"delete": self.delete, "split": self.split, "merge": self.merge}[command]()

    # Records.

    def record(self):
        if self.past and self.chance(0.12):
            return self.repeat(dict(self.random.choice(self.past[-200:] if self.chance(0.7) else self.past)))
        fields = {**dict.fromkeys(HEADER, ""), **self.fields(), "request": self.uuid(), "at": self.moment()}
        if self.past and self.chance(0.02):
            fields["request"] = self.random.choice(self.past)["request"]
        self.past.append(fields)
        return fields

    def repeat(self, fields):
        """A request that was there, as it was or with another moment, or with something else of it changed."""
        change = self.random.choices(["none", "at", "data", "package", "identity", "other", "ticket", "cut"], [46, 28, 6, 4, 4, 4, 4, 8])[0]
        if change == "at":
            fields["at"] = self.random.choice(GOOD_MOMENTS + BAD_MOMENTS)
        elif change == "data" and fields["data"]:
            fields["data"] += "00"
        elif change == "ticket" and fields["command"] == "merge":
            fields["ticket"] = self.world.tickets.get(fields["package"], 0)
        elif change == "cut" and fields["command"] == "split":
            name = self.random.choice(["kind", "zoom", "column", "last_column", "row", "last_row"])
            fields[name] = self.random.choice(MODES) if name == "kind" else self.near(fields[name])
        elif change == "package" or change in ("identity", "other") and fields[change]:
            fields[change] = self.random.choice(self.spare)
        return fields

    def as_texts(self, fields):
        """The record of the fields, which the world of the list has then met."""
        texts = {name: str(value) for name, value in fields.items()}
        for name in ("request", "package", "identity", "other"):
            texts[name] = self.any_case(texts[name])
        if self.chance(0.2):
            texts["data"] = texts["data"].upper()
        record = [texts[name] for name in HEADER]
        apply(self.world, read_request(record))
        return record

    def spelled(self, text):
        quoted = self.chance(0.05) or any(mark in text for mark in ',"\r\n')
        return '"' + text.replace('"', '""') + '"' if quoted else text

    def text(self, records, ends=("\n",)):
        return "".join(",".join(map(self.spelled, record)) + self.random.choice(ends) for record in records).encode()

    def long_list(self, frame, requests):
        self.begin(frame)
        return self.text([HEADER] + [self.as_texts(self.record()) for _ in range(requests)])
