"""Sessions of field work: an export is edited, and what the edited file holds is brought home. What each line prints is the second machine's.

An edited file is a `File` here: it begins as the export lists it, and is edited in plain Python. Its list is a file of the session. That
stock `sqlite3` lists such a file so is tried by torture/field_rounds.py.
"""

import nordmark
from machine.changing import Refused, changes_of_words, list_of, summary_of
from machine.contents import ENDS, KINDS
from machine.frames import Frame
from machine.held_lists import HEADER
from machine.lists import read_requests
from machine.world import Receipt, World, apply
from make_sample import List

TOWN, MOLE, MOOR = (6, 0, 0), (6, 1, 0), (5, 0, 2)
HOME = nordmark.ARCHIVE
MOMENTS = [f"2026-05-{1 + number // 24:02}T{number % 24:02}:00:00.000Z" for number in range(200)]
PHOTO = b"\xff\xd8\xff\xe0the slip at low water"
TOWN_AGAIN = b"\x89PNG\r\n\x1a\nSkarvholm town, surveyed again"


def quoted(text):
    return '"' + text.replace('"', '""') + '"'


def record(kind, **fields):
    return ",".join(str({**dict.fromkeys(HEADER, ""), "kind": kind, **fields}[name]) for name in HEADER) + "\n"


class File:
    """What a file holds, by the numbers of its rows. Text stands between quotation marks, but for that of `bad`."""

    def __init__(self, heads):
        self.heads = heads
        self.items = {kind: {} for kind in ("tile", "media", "row")}
        self.links = {mapping: [] for mapping in ENDS}
        self.bad = []

    def add(self, kind, identity="", number=None, **content):
        """A new row, with the number that is free next, as SQLite gives it."""
        number = number or max(self.items[kind], default=0) + 1
        self.items[kind][number] = {**({} if kind == "tile" else {"identity": identity}), **content}
        return number

    def records(self):
        yield from self.heads
        for kind, rows in self.items.items():
            for number, fields in sorted(rows.items()):
                texts = {name: quoted(value) if name == "text" else value.hex().upper() if name == "data" else value for name, value in fields.items()}
                yield record(kind, number=number, **texts)
        for mapping, pairs in self.links.items():
            yield from (record(mapping, number=base, other=other) for base, other in sorted(pairs))
        yield from self.bad

    def text(self):
        records = list(self.records())
        return "".join([",".join(HEADER) + "\n", *records, record("end", number=len(records))]).encode()


def heads_of(frame, package=None, ticket=None):
    own = [] if package is None else [record("package", number=ticket, identity=package)]
    return [*own, record("system", number=frame.srs), record("frame", text=quoted(",".join(map(str, frame))))]


def exported(world, package):
    """The file that an export of the package makes, as it is listed."""
    held = world.packages[package]
    file, numbers = File(heads_of(world.frame, package, world.tickets[package])), {}
    for identity, item in sorted(held.items.items(), key=lambda each: (KINDS[each[1]["kind"]], each[0])):
        names = {"tile": ("zoom", "column", "row", "data"), "media": ("text", "data"), "row": ("x", "y", "code", "text")}[item["kind"]]
        numbers[identity] = file.add(item["kind"], identity, **{name: item[name] for name in names})
    for mapping, base, other in held.links:
        file.links[mapping].append((numbers[base], numbers[other]))
    return file


class Field:
    """A register in a folder, and what is done to it."""

    def __init__(self, session, folder, requests):
        self.session, self.folder, self.files, self.days = session, folder, 0, iter(MOMENTS)
        self.world = World(HOME, Frame.read(nordmark.FRAME))
        session.type(f"mkdir {folder}", "")
        session.run(f"init {folder} --archive {HOME} --at {nordmark.CREATED} --frame {nordmark.FRAME}", f"archive {HOME}\n")
        path = session.name(f"lists/{folder}.csv", requests.text().encode())
        session.run(f"import {folder} {path}", self.report(read_requests(requests.text().encode())))

    def report(self, requests):
        """Carries them out."""
        lines = ["line,request,seq,refusal\n"]
        for number, request in enumerate(requests, 1):
            reply = apply(self.world, request)
            seq, refusal = (reply.seq, 0) if isinstance(reply, Receipt) else (0, reply.number)
            lines.append(f"{number},{request['request']},{seq},{refusal}\n")
        return "".join(lines)

    def carry(self, text):
        """A list of requests, as a file of the session, is imported."""
        path = self.session.name(f"lists/{self.folder}_{len(self.session.files)}.csv", text)
        self.session.run(f"import {self.folder} {path}", self.report(read_requests(text)))

    def keep(self, text):
        """The list of a file, as a file of the session."""
        self.files += 1
        return self.session.name(f"lists/{self.folder}_held_{self.files}.csv", text)

    def whole(self, word):
        """The live package that a word names: the only one that begins with it, by four digits or more; else the word itself."""
        begun = [uuid for uuid in self.world.packages if len(word) >= 4 and uuid.startswith(word.lower())]
        return begun[0] if len(begun) == 1 else word

    def run(self, verb, package, text, options=(), at=None, more=False):
        """A line, with what it prints; after it the world is the next one. Answers the path of the list."""
        at = next(self.days) if at is None else at
        path = text if isinstance(text, str) else self.keep(text)
        words = " ".join([verb, self.folder, package, *(["--more"] if more else []), "--at", at, *options, "<", path])
        with_text = self.session.files[path]
        try:
            requests = changes_of_words(self.world, self.whole(package), at, with_text, more).requests
        except Refused as why:
            self.session.run(words, "refused: " + "".join(f"{line}\n" for line in why.args), 1)
            return path
        if "--summary" in options:
            printed = summary_of(requests)
        elif verb == "bring" and "--dry-run" not in options:
            printed = self.report(requests)
        else:
            printed = list_of(requests)
        self.session.run(words, printed)
        return path


def begun():
    """An archive with three sheets, a mark, a photograph and their links; one sheet is lent."""
    requests = List()
    for place in (TOWN, MOLE, MOOR):
        requests.tile(nordmark.sheet(*place), place, b"\x89PNG\r\n\x1a\n" + nordmark.SHEETS[place].encode())
    for name in ("light", "gauge", "church", "no-label"):
        requests.mark(nordmark.mark(name), *nordmark.MARKS[name])
    for name in ("photo-lighthouse", "level-book"):
        requests.medium(nordmark.medium(name), *nordmark.MEDIA.get(name, ("text/plain", b"levels along the sound\n")))
    requests.link("rows_media", nordmark.mark("light"), nordmark.medium("photo-lighthouse"))
    requests.link("rows_media", nordmark.mark("gauge"), nordmark.medium("photo-lighthouse"))
    requests.link("rows_tiles", nordmark.mark("light"), nordmark.sheet(*TOWN))
    requests.link("tiles_media", nordmark.sheet(*TOWN), nordmark.medium("level-book"))
    requests.split(nordmark.BOAT, "follow", (5, 0, 0, 2, 2))
    return requests


def number_of(file, kind, **wanted):
    return next(number for number, fields in file.items[kind].items() if all(fields[name] == value for name, value in wanted.items()))


def edit(file):
    """A crew's round: a label is mended, a mark moves, another goes with its link; the town is surveyed again, by a tool that gives the tile a
    new number; the slip gets a mark and a photograph, which is linked with it and with the town; the mole's sheet goes."""
    light, gauge, church = (number_of(file, "row", text=nordmark.MARKS[name][3]) for name in ("light", "gauge", "church"))
    file.items["row"][light]["text"] = 'light "Skarvholm", white flash, 6 s'
    file.items["row"][church]["x"] += 125
    del file.items["row"][gauge]
    file.links["rows_media"] = [pair for pair in file.links["rows_media"] if pair[0] != gauge]
    town = number_of(file, "tile", zoom=6, column=0)
    del file.items["tile"][town]
    again = file.add("tile", number=9, zoom=6, column=0, row=0, data=TOWN_AGAIN)
    for mapping in ("rows_tiles", "tiles_media"):
        file.links[mapping] = [tuple(again if kind == "tile" and end == town else end for kind, end in zip(ENDS[mapping], pair)) for pair in file.links[mapping]]
    del file.items["tile"][number_of(file, "tile", zoom=6, column=1)]
    slip = file.add("row", x=503000250, y=5959000500, code=340, text="slip")
    photo = file.add("media", text="image/jpeg", data=PHOTO)
    file.links["rows_media"].append((slip, photo))
    file.links["tiles_media"].append((again, photo))


def a_round(field):
    """A file that nobody edited; then a crew's round; then the same file again, and the new export."""
    same = field.keep(exported(field.world, HOME).text())
    field.run("changes", HOME, same)
    field.run("changes", HOME, same, ["--summary"])
    field.run("bring", HOME, same)
    crew = exported(field.world, HOME)
    edit(crew)
    edited = field.run("changes", HOME, crew.text())
    field.run("bring", HOME, edited, ["--dry-run", "--summary"])
    field.run("bring", HOME, edited, ["--dry-run"])
    at = next(field.days)
    field.run("bring", HOME, edited, at=at)
    field.run("bring", HOME, edited, at=at)
    field.run("changes", HOME, edited)
    field.run("changes", HOME, exported(field.world, HOME).text())
    field.session.run(f"audit {field.folder}", f"good {len(field.world.receipts)}\n")


def twins(field):
    """A mark is copied and pasted, so that its UUID stands there twice, and thrice; then one copy goes again. A UUID chooses among equal
    contents, and nothing else: in upper case, of another item or nonsense, it is no fault."""
    crew = exported(field.world, HOME)
    light = number_of(crew, "row", code=210)
    mark = crew.items["row"][light]
    crew.add("row", **mark)
    crew.add("row", **{**mark, "identity": mark["identity"].upper()})
    crew.add("row", **{**mark, "identity": nordmark.medium("level-book")})
    field.run("bring", HOME, crew.text())
    crew = exported(field.world, HOME)
    linked = {base for mapping in ("rows_media", "rows_tiles") for base, _ in crew.links[mapping]}
    alike = [number for number, fields in crew.items["row"].items() if fields["code"] == 210]
    del crew.items["row"][next(number for number in alike if number not in linked)]
    for number in crew.items["row"]:
        crew.items["row"][number]["identity"] = ""
    field.run("bring", HOME, crew.text())
    field.run("changes", HOME, exported(field.world, HOME).text())


def of_a_loan(field):
    """A crew's file of its loan comes home to the loan, and to no other package."""
    crew = exported(field.world, nordmark.BOAT)
    crew.add("row", x=500000000, y=5930000000, code=0, text="")
    path = field.run("changes", HOME, crew.text())
    field.run("bring", nordmark.BOAT.upper(), path)
    field.run("bring", nordmark.BOAT, path)


def bad_records(field):
    """What a package cannot hold, and what could not be listed: all of it is told, and nothing is changed."""
    crew = exported(field.world, HOME)
    light = number_of(crew, "row", text='light "Skarvholm", white flash, 6 s')
    crew.items["row"][light]["text"] = "two\nlines"
    for fields in ({"code": -1}, {"code": 1_000_000}, {"text": "x" * 201}, {"x": 540_960_000}, {"y": 5_900_000_000}, {"text": "x" * 200}):
        crew.add("row", **{"x": 500_000_000, "y": 5_961_440_000, "code": 0, "text": "", **fields})
    crew.add("tile", zoom=7, column=0, row=0, data=b"x")
    crew.add("tile", zoom=6, column=8, row=0, data=b"x")
    crew.add("tile", zoom=6, column=7, row=0, data=b"")
    crew.add("tile", zoom=6, column=0, row=0, data=b"the town, a second time")
    for text, data in (("", b"x"), ("image/jpeg", b""), ("Bild/jpeg; Höhe", b"x"), ("x" * 101, b"x")):
        crew.add("media", text=text, data=data)
    one, two = sorted(crew.items["row"])[:2]
    rows = crew.items["row"]
    rows[one]["identity"], rows[two]["identity"] = rows[two]["identity"], rows[one]["identity"]
    crew.bad = [record("bad", number=77, text="row geometry"), record("bad", number=78, text="row code"), record("bad", number=5, text="tile data")]
    crew.links["rows_media"].append((77, 1))
    path = field.run("changes", HOME, crew.text())
    field.run("bring", HOME, path)
    crew.bad = [record("bad", text="frame corner")]
    crew.heads = crew.heads[:2]
    field.run("bring", HOME, crew.text(), ["--dry-run"])
    field.session.run(f"audit {field.folder}", f"good {len(field.world.receipts)}\n")


def no_lists(field):
    """Texts that are no whole list, and lists of another file."""
    crew = exported(field.world, HOME)
    whole = crew.text()
    lines = whole.splitlines(keepends=True)
    field.run("bring", HOME, b"".join(lines[:-1]))
    field.run("changes", HOME, whole[: len(whole) // 2])
    field.run("changes", HOME, b"".join(lines[:3] + lines[4:]))
    field.run("changes", HOME, whole + b"\n")
    field.run("changes", HOME, b"".join(lines[1:]))
    field.run("changes", HOME, b"")
    field.run("changes", HOME, whole.replace(b"tile,", b"tyle,", 1))
    field.run("changes", HOME, whole.replace(b"row,2,", b"row,1,", 1))
    field.run("changes", HOME, whole.replace(b"\n", b"\r\n"))
    crew.links["rows_media"].append((999, 1))
    field.run("changes", HOME, crew.text())
    crew = exported(field.world, HOME)
    crew.links["rows_tiles"] += [(2, 1), (2, 1)]
    field.run("changes", HOME, crew.text())
    crew = exported(field.world, HOME)
    crew.heads[1] = record("system", number=4326)
    field.run("changes", HOME, crew.text())
    crew = exported(field.world, HOME)
    del crew.heads[1]
    field.run("changes", HOME, crew.text())
    crew = exported(field.world, HOME)
    numbers = list(field.world.frame)
    for at, value in ((1, numbers[1] + 10_240_000), (5, 512), (7, 3), (9, 4)):
        other = numbers[:at] + [value] + numbers[at + 1 :]
        crew.heads[2] = record("frame", text=quoted(",".join(map(str, other))))
        field.run("changes", HOME, crew.text())
    del crew.heads[2]
    field.run("changes", HOME, crew.text())


def refused_words(field):
    path = field.keep(exported(field.world, HOME).text())
    field.run("changes", "6f0", path)
    field.run("changes", HOME[:8].upper(), path, at="2026-05-02T12:00:00.000Z")
    field.run("bring", HOME[:4], path, at="2026-05-02T12:00:00.000Z")
    field.session.run(f"bring {field.folder} ffff < {path}", "refused: no such package\n", 1)
    field.run("bring", HOME, path, at="2026-05-01")
    field.run("bring", nordmark.HARBOUR, path)
    field.session.run(f"bring {field.folder} {HOME} --summary < {path}", "", 2)
    field.session.run(f"changes {field.folder} --more < {path}", "", 2)


def more(field):
    """Tables of another program's file: they only add, and twice the same adds nothing. Bytes of another picture are told."""
    frame = field.world.frame
    file = File(heads_of(frame))
    file.add("tile", zoom=4, column=0, row=0, data=b"\x89PNG\r\n\x1a\nSkarvholm")
    file.add("tile", zoom=6, column=0, row=0, data=TOWN_AGAIN)
    file.add("row", x=527000000, y=5931000250, code=310, text="tide gauge")
    file.add("row", x=527000000, y=5931000250, code=310, text="tide gauge")
    field.run("changes", HOME, file.text())
    field.run("changes", HOME, file.text(), more=True)
    path = field.run("bring", HOME, file.text(), more=True)
    field.run("bring", HOME, path, more=True)
    file.items["tile"][2]["data"] = b"\x89PNG\r\n\x1a\nSkarvholm town, of another series"
    field.run("bring", HOME, file.text(), more=True)
    # the same sheets in a wider frame with a zoom less: one grid
    numbers = list(frame)
    wider = [numbers[0], numbers[1], numbers[2] - 20_480_000, numbers[3] + 20_480_000, *numbers[4:8], 2, 3, 4]
    file = File([record("system", number=frame.srs), record("frame", text=quoted(",".join(map(str, wider))))])
    file.add("tile", zoom=5, column=1, row=0, data=b"\x89PNG\r\n\x1a\nSkarvholm, roads")
    field.run("bring", HOME, file.text(), more=True)
    # its own export only adds so, too
    crew = exported(field.world, HOME)
    crew.items["row"].clear()
    crew.links["rows_media"].clear()
    crew.links["rows_tiles"].clear()
    crew.add("row", x=513000001, y=5927777777, code=110, text="trig. point")
    field.run("changes", HOME, crew.text(), ["--summary"])
    field.run("bring", HOME, crew.text(), more=True)
    field.session.run(f"audit {field.folder}", f"good {len(field.world.receipts)}\n")


def with_a_mark(field, x, code, text):
    """The file of an export of now, with a mark more."""
    file = exported(field.world, HOME)
    file.add("row", x=x, y=5929000000, code=code, text=text)
    return file.text()


def not_free(field):
    """The list that `changes` printed for the archive is written for a loan by hand, and carried out there.

    So the identity of the file's new mark is used, and the file is refused. With another identity in that list it is
    the request that came before. After any other change of the package the file of a new export comes home: its mark
    gets another identity."""
    for text, other in (("beacon", {}), ("withies", {"identity": nordmark.mark("withies")})):
        path = field.run("changes", HOME, with_a_mark(field, 514000500, 410, text))
        (request,) = changes_of_words(field.world, HOME, MOMENTS[0], field.session.files[path]).requests
        field.carry(list_of([{**request, "package": nordmark.BOAT, **other}]).encode())
        field.run("changes", HOME, path)
        field.run("bring", HOME, path, ["--dry-run", "--summary"])
        field.run("bring", HOME, path)
    field.session.run(f"audit {field.folder}", f"good {len(field.world.receipts)}\n")
    field.run("bring", HOME, with_a_mark(field, 514000250, 430, "dolphin"))
    field.run("bring", HOME, with_a_mark(field, 514000500, 410, "beacon"))
    field.session.run(f"audit {field.folder}", f"good {len(field.world.receipts)}\n")


def sessions(session):
    """All of them."""
    session.show("")
    session.show("# An export is edited, and comes home.")
    field = Field(session, "field", begun())
    for part in (a_round, twins, of_a_loan, bad_records, no_lists, refused_words, more, not_free):
        session.show("")
        session.show("# " + " ".join(part.__doc__.split()) if part.__doc__ else "# Words that are refused.")
        part(field)
    return field
