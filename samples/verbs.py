"""Sessions by the verbs for people: what each types, the request that it makes, and what it prints, by the second machine.

Each verb is given its moment, the UUID of its request and that of what it makes, so that it prints the same each time. The README leaves
these options out (`as_shown`).
"""

import json
import re

import nordmark
import reference
from machine.frames import Frame
from machine.lists import FIELDS, HEADER
from machine.world import Receipt, World, apply
from reference import KINDS

TOWN, MOLE = (6, 0, 0), (6, 1, 0)
GIVEN = re.compile(r" --(?:at|request|as|archive) \S+")


def as_shown(line):
    """A typed line without what a person leaves out."""
    return GIVEN.sub("", line)


def request_text(request):
    """A request as JSON, its members in the order of the fields of a list."""
    members = {name: request[name] for name in HEADER if name in request}
    members = {name: value.hex() if isinstance(value, bytes) else value for name, value in members.items()}
    return json.dumps(members, separators=(",", ":"), ensure_ascii=False) + "\n"


def deed_of(request):
    """What a request made or moved."""
    match request["command"]:
        case "add":
            return f"added {request['identity']}\n"
        case "delete":
            return f"deleted {request['identity']}\n"
        case "link":
            return f"joined {request['identity']} {request['other']}\n"
        case "unlink":
            return f"parted {request['identity']} {request['other']}\n"
        case "split":
            columns, rows = (f"{request[name]}-{request['last_' + name]}" for name in ("column", "row"))
            return f"loan {request['other']}\nsheets {request['zoom']}/{columns}/{rows}\n"
        case "merge":
            return f"home {request['package']} {request['other']}\n"


def counts_of(receipt):
    tiles, media, rows, links, size = receipt.sums()
    return f"receipt {receipt.seq}: {tiles} tiles, {media} media, {rows} rows, {links} links, {size} bytes\n"


def names_text(names):
    """What people call packages and items, as CSV."""
    return "".join(f"{uuid},{name}\n" for uuid, name in [("uuid", "name"), *names]).encode()


class Verbs:
    """Verbs over a folder, and the world that they lead to."""

    def __init__(self, session, folder, is_shown, names=None, quiet=""):
        self.session, self.folder, self.quiet = session, folder, quiet
        self.unshown = {*FIELDS, ("merge", None)} if is_shown else set()
        self.world = World(nordmark.ARCHIVE, Frame.read(nordmark.FRAME))
        self.number = 0
        if names is None:
            session.type(f"mkdir {folder}", "")
        else:
            session.name(f"{folder}/names.csv", names_text(names))
        words = f"init {folder} --archive {nordmark.ARCHIVE} --at {nordmark.CREATED} --frame {nordmark.FRAME}"
        self.say(words, f"archive {nordmark.ARCHIVE}\n")

    def say(self, words, text, status=0):
        """Types a verb. Where it is to be quiet, it prints nothing if it ends well."""
        self.session.run(words + self.quiet, text if status or not self.quiet else "", status)

    def given(self, made):
        """The moment, the request and what it makes, and the options that give them."""
        self.number += 1
        at = f"2026-03-02T09:{self.number:02}:00.000Z"
        request = nordmark.name_uuid("verb", f"{self.folder} {self.number}")
        options = f" --at {at} --request {request}" + (f" --as {made}" if made else "")
        return {"at": at, "request": request}, options

    def do(self, verb, rest, request, made=None):
        """Types a verb that makes this request. The first of its kind is shown before, which changes nothing, where kinds are to be shown."""
        given, options = self.given(made)
        request = {**given, **request}
        reply = apply(self.world, request)
        words = f"{verb} {self.folder} {rest}{options}"
        kind = request["command"], request.get("kind")
        if kind in self.unshown:
            self.unshown.remove(kind)
            self.session.run(words + " --dry-run", request_text(request))
        if isinstance(reply, Receipt):
            self.say(words, deed_of(request) + counts_of(reply))
        else:
            self.say(words, reference.reply_text(reply) + "\n", 1)
        return words, request, reply

    def refused(self, verb, rest, why):
        """Types a verb whose words say no request."""
        self.session.run(f"{verb} {self.folder} {rest}", f"refused: {why}\n", 1)

    def add(self, package, kind, rest, identity, **fields):
        request = {"command": "add", "package": package, "identity": identity, "kind": kind, **fields}
        word = {"tile": "tile", "media": "media", "row": "mark"}[kind]
        return self.do("put", f"{package[:8]} {word} {rest}", request, identity)

    def tile(self, package, place, path, data):
        zoom, column, row = place
        rest = f"{zoom}/{column}/{row} {self.session.name(path, data)}"
        return self.add(package, "tile", rest, nordmark.sheet(*place), zoom=zoom, column=column, row=row, data=data)

    def medium(self, package, path, name, data, content_type, option=""):
        rest = self.session.name(path, data) + option
        return self.add(package, "media", rest, nordmark.medium(name), text=content_type, data=data)

    def lend(self, rest, loan, rect, package=nordmark.ARCHIVE, mode="strict"):
        ends = dict(zip(["zoom", "column", "last_column", "row", "last_row"], rect))
        request = {"command": "split", "package": package, "other": loan, "kind": mode, **ends}
        return self.do("lend", rest, request, loan)

    def bring_home(self, loan, into, digits=8, word=None):
        request = {"command": "merge", "package": loan, "other": into, "ticket": self.world.tickets[loan]}
        return self.do("return", word or loan[:digits], request)

    def tie(self, verb, first, second, mapping, base, other, package=nordmark.ARCHIVE):
        command = {"join": "link", "part": "unlink"}[verb]
        request = {"command": command, "package": package, "identity": base, "other": other, "kind": mapping}
        return self.do(verb, f"{first[:6]} {second.upper()}", request)

    def drop(self, word, identity, option="", package=nordmark.ARCHIVE):
        """An item is deleted, and its links are ended before, where that is allowed; else they are told."""
        given, _ = self.given(None)
        links = sorted(
            (link for link in self.world.packages[package].links if identity in link[1:]),
            key=lambda link: (KINDS[link[0]], *link),
        )
        words = f"drop {self.folder} {word}{option} --at {given['at']}"
        if links and not option:
            told = "".join(f"linked {base} {other}\n" for _, base, other in links)
            return self.say(words, told + "refused: linked\n", 1)
        ends = [
            {"command": "unlink", "kind": mapping, "identity": base, "other": other} for mapping, base, other in links
        ]
        text = ""
        for number, request in enumerate([*ends, {"command": "delete", "identity": identity}]):
            # (the program makes the UUIDs of these requests itself, and prints none)
            request = {
                **given,
                "request": nordmark.name_uuid("drop", f"{words} {number}"),
                "package": package,
                **request,
            }
            text += deed_of(request) + counts_of(apply(self.world, request))
        return self.say(words, text)

    def delete(self, identity):
        """An item is deleted by a request as JSON, whose UUID is given."""
        given, _ = self.given(None)
        request = {**given, "command": "delete", "package": nordmark.ARCHIVE, "identity": identity}
        path = self.session.name(f"requests/{self.folder}_{self.number}.json", json.dumps(request).encode())
        self.session.run(f"apply {self.folder} < {path}", reference.reply_text(apply(self.world, request)) + "\n")

    def tree(self, path, places, option=""):
        """The tiles of files come into the archive. The rows of a TMS run upwards."""
        given, _ = self.given(None)
        words = f"put {self.folder} {nordmark.ARCHIVE[:4]} tiles {path}{option} --at {given['at']}"
        added, passed, told = 0, 0, ""
        for number, (zoom, column, row) in enumerate(sorted(places)):
            rows = self.world.frame.matrix(zoom)[1]
            place = (zoom, column, rows - 1 - row if option else row)
            data = self.session.files[
                self.session.name(
                    f"{path}/{zoom}/{column}/{row}.png", nordmark.SHEETS.get(place, "no sheet").encode()
                )
            ]
            if option and row >= rows:
                told = "refused: place\n"
                break
            held = self.world.packages[nordmark.ARCHIVE]
            if place in held.places and held.items[held.places[place]]["data"] == data:
                passed += 1
                continue
            # (the program makes these UUIDs itself, and prints none)
            request, identity = (nordmark.name_uuid(kind, f"{words} {number}") for kind in ("tree", "leaf"))
            at = dict(zip(["zoom", "column", "row"], place))
            members = {
                "command": "add",
                "package": nordmark.ARCHIVE,
                "identity": identity,
                "kind": "tile",
                "data": data,
            }
            reply = apply(self.world, {**given, "request": request, **members, **at})
            if not isinstance(reply, Receipt):
                told = reference.reply_text(reply) + "\n"
                break
            added += 1
        self.say(words, f"added {added}, passed over {passed}\n" + told, 1 if told else 0)

    def lend_box(self, box, zoom, loan, giver="", **more):
        """What a box meets is lent: each sheet of which more than an edge lies in it."""
        west, south, east, north = (round(float(part) * 1000) for part in box.split(","))
        frame = self.world.frame
        columns, rows = (range(count) for count in frame.matrix(zoom))
        across, down = (frame.max_x - frame.min_x) // len(columns), (frame.max_y - frame.min_y) // len(rows)
        met_columns = [
            at for at in columns if frame.min_x + at * across < east and west < frame.min_x + (at + 1) * across
        ]
        met_rows = [at for at in rows if frame.max_y - at * down > south and north > frame.max_y - (at + 1) * down]
        rect = (zoom, met_columns[0], met_columns[-1], met_rows[0], met_rows[-1])
        return self.lend(f"{giver}--box {box} --zoom {zoom}", loan, rect, **more)


def first_loan(session):
    """A sheet is lent, a photograph is added to it, and it comes home."""
    verbs = Verbs(session, "sheets", False)
    verbs.tile(nordmark.ARCHIVE, TOWN, "samples/town.png", b"\x89PNG\r\n\x1a\n" + nordmark.SHEETS[TOWN].encode())
    verbs.lend("6/0/0", nordmark.HARBOUR, (6, 0, 0, 0, 0))
    photo = nordmark.MEDIA["photo-lighthouse"][1]
    verbs.medium(nordmark.HARBOUR, "samples/lighthouse.jpg", "photo-lighthouse", photo, "image/jpeg")
    verbs.bring_home(nordmark.HARBOUR, nordmark.ARCHIVE)
    return verbs.world


def come_in(verbs):
    """A mark, two media, and links of all three mappings."""
    archive, light = nordmark.ARCHIVE, nordmark.mark("light")
    photo, town = nordmark.medium("photo-lighthouse"), nordmark.sheet(*TOWN)
    fields = {"x": 502345678, "y": 5960678900, "code": 210, "text": 'light,"white"'}
    verbs.add(archive, "row", '502345.678,5960678.9 210 light,"white"', light, **fields)
    verbs.medium(archive, "samples/scan.bin", "scan-1887", b"II*\x00scan", "image/tiff", " --type image/tiff")
    verbs.medium(archive, "samples/levels.txt", "level-book", b"levels along the sound\n", "text/plain")
    verbs.tie("join", photo, light, "rows_media", light, photo)
    verbs.tie("join", light, town, "rows_tiles", light, town)
    verbs.tie("part", town, light, "rows_tiles", light, town)
    verbs.tie("join", town, nordmark.medium("scan-1887"), "tiles_media", town, nordmark.medium("scan-1887"))


def go_and_come(verbs):
    """A loan lends on. It may not come home before its own loan does."""
    archive, crew, boat = nordmark.ARCHIVE, nordmark.HARBOUR, nordmark.BOAT
    verbs.lend("5/0-1/0 --follow", crew, (5, 0, 1, 0, 0), mode="follow")
    verbs.lend(f"{crew[:8].upper()} 6/0/0", boat, (6, 0, 0, 0, 0), package=crew)
    verbs.bring_home(crew, archive)
    verbs.bring_home(boat, crew)
    verbs.bring_home(crew, archive)


def come_out(verbs):
    """What stands in items, printed and kept in a file, which is then shown as another medium."""
    folder, run = verbs.folder, verbs.session.run
    photo = nordmark.MEDIA["photo-lighthouse"][1]
    run(f"get {folder} {nordmark.medium('level-book')}", "levels along the sound\n")
    run(f"get {folder} {nordmark.medium('photo-lighthouse')[:4]} photo.jpg", "")
    given, options = verbs.given(nordmark.medium("scan-1934"))
    members = {
        "command": "add",
        "package": nordmark.ARCHIVE,
        "identity": nordmark.medium("scan-1934"),
        "kind": "media",
    }
    text = request_text({**given, **members, "text": "image/jpeg", "data": photo})
    run(f"put {folder} {nordmark.ARCHIVE} media photo.jpg{options} --dry-run", text)
    run(f"get {folder} ffff", "refused: no such item\n", 1)
    run(f"get {folder} 652 mark.txt", "refused: a name of fewer than four digits\n", 1)


def no_request(verbs):
    """Words that say none."""
    light, book = nordmark.mark("light"), nordmark.medium("level-book")
    home = nordmark.ARCHIVE[:4]
    # a loan whose UUID begins as the archive's does
    near = nordmark.ARCHIVE[:8] + "-0000-4000-8000-000000000001"
    verbs.lend("6/0/0", near, (6, 0, 0, 0, 0))
    both = f"two packages {min(nordmark.ARCHIVE, near)} {max(nordmark.ARCHIVE, near)}"
    verbs.refused("return", home, both)
    verbs.refused("manifest", home, both)
    verbs.refused("return", home[:3], "a name of fewer than four digits")
    verbs.refused("return", "ffff", "no such package")
    verbs.refused("return", nordmark.ARCHIVE, "not lent")
    verbs.refused("lend", "6/0", "area")
    verbs.refused("lend", "ffff 6/0/0", "no such package")
    verbs.refused("put", f"{near} tile 6/0-1/0 samples/town.png", "place")
    verbs.refused("put", f"{near} mark 1.2345,0 1 x", "point")
    verbs.refused("put", f"{near} mark 1,0 one x", "code")
    verbs.refused("put", f"{near} media samples/scan.bin", "type")
    verbs.refused("put", f"{near} media samples/nothing.png", "body")
    verbs.refused("join", f"{light} ffff", "no such item")
    verbs.refused("join", f"{light} {light}", "no mapping")
    verbs.refused("join", f"{book} {nordmark.sheet(*TOWN)}", "two packages hold them")
    verbs.refused("join", f"{book} {nordmark.sheet(*TOWN)} --request 1", "uuid")
    verbs.bring_home(near, nordmark.ARCHIVE, 10)


def come_to_an_end(verbs):
    """Items that are dropped: with links and without."""
    photo, book = nordmark.medium("photo-lighthouse"), nordmark.medium("level-book")
    verbs.drop(photo[:4].upper(), photo)
    verbs.drop(photo[:4], photo, " --yes")
    # (that was its only link)
    verbs.drop(nordmark.mark("light"), nordmark.mark("light"))
    verbs.refused("drop", book, "no such item")
    verbs.refused("drop", book[:3], "a name of fewer than four digits")


def every_verb(session):
    """All verbs, the first of each kind shown before it is carried out."""
    verbs = Verbs(session, "harbour", True)
    verbs.tile(nordmark.ARCHIVE, TOWN, "samples/town.png", b"\x89PNG\r\n\x1a\n" + nordmark.SHEETS[TOWN].encode())
    photo = nordmark.MEDIA["photo-lighthouse"][1]
    verbs.medium(nordmark.ARCHIVE, "samples/lighthouse.jpg", "photo-lighthouse", photo, "image/jpeg")
    come_in(verbs)
    go_and_come(verbs)
    come_out(verbs)
    no_request(verbs)
    return verbs


def by_names(session):
    """Packages and items by what people call them. A name comes before first digits, and a whole UUID before a name."""
    archive, crew = nordmark.ARCHIVE, nordmark.HARBOUR
    town, light, book = nordmark.sheet(*TOWN), nordmark.mark("light"), nordmark.medium("level-book")
    names = [
        (archive, "home"),
        (crew, "crew"),
        (town, "Skarvholm"),
        (book, "levels"),
        (light, "Pålen"),
        (archive, crew[:4]),
        (crew, archive),
    ]
    # (of the first word that two go by one is a package that is not yet there; the last says again what stands above)
    names += [(archive, "both"), (crew, "both"), (book, "pair"), (light, "pair"), (archive, "home")]
    verbs = Verbs(session, "named", False, names)
    run, data = session.run, nordmark.SHEETS[TOWN].encode()
    request = {
        "command": "add",
        "package": archive,
        "identity": town,
        "kind": "tile",
        "data": b"\x89PNG\r\n\x1a\n" + data,
    }
    verbs.do(
        "put", "home tile 6/0/0 samples/town.png", {**request, **dict(zip(["zoom", "column", "row"], TOWN))}, town
    )
    verbs.lend("home 6/0/0", crew, (6, 0, 0, 0, 0))
    medium = {
        "command": "add",
        "package": crew,
        "identity": book,
        "kind": "media",
        "text": "text/plain",
        "data": b"levels along the sound\n",
    }
    verbs.do("put", f"crew media {session.name('samples/levels.txt', medium['data'])}", medium, book)
    mark = {
        "command": "add",
        "package": crew,
        "identity": light,
        "kind": "row",
        "x": 502345678,
        "y": 5960678900,
        "code": 210,
        "text": "lights",
    }
    verbs.do("put", "crew mark 502345.678,5960678.9 210 lights", mark, light)
    link = {"command": "link", "package": crew, "identity": light, "other": book, "kind": "rows_media"}
    verbs.do("join", "levels Pålen", link)
    run("get named levels", "levels along the sound\n")
    verbs.refused("manifest", "both", f"two packages {archive} {crew}")
    verbs.refused("lend", "both 6/0/0", f"two packages {archive} {crew}")
    verbs.refused("drop", "pair", f"two items {book} {light}")
    verbs.refused("part", "levels pair", f"two items {book} {light}")
    verbs.refused("manifest", "Home", "uuid")
    verbs.refused("get", "Home", "no such item")
    return verbs, dict(reversed(names))


def trees_and_boxes(session):
    """Trees of tiles come into an archive, and what covers a box is lent."""
    verbs = Verbs(session, "tree", False)
    sheets = [(4, 0, 0), (5, 0, 0), (5, 1, 0), (5, 3, 5), (6, 0, 0), (6, 0, 4)]
    verbs.tree("samples/tree", sheets)
    verbs.tree("samples/tree", sheets)
    # (a TMS counts rows from below: the last of twelve is the first from above, and of three the middle one stays)
    verbs.tree("samples/upward", [(4, 1, 1), (6, 0, 11)], " --tms")
    # (zoom 4 has three rows: the file that is numbered 3 from below, from 0, is past the last)
    verbs.tree("samples/past", [(4, 0, 2), (4, 1, 0), (4, 1, 3), (5, 0, 5)], " --tms")
    verbs.tree("samples/beside", [(4, 1, 0), (6, 8, 0), (6, 9, 0)])
    verbs.refused("put", f"{nordmark.ARCHIVE[:4]} tiles samples/first.csv", "body")
    verbs.lend_box("500000,5951200,510240,5961440", 5, nordmark.HARBOUR)
    verbs.bring_home(nordmark.HARBOUR, nordmark.ARCHIVE)
    verbs.lend_box("505000,5950000,512000.5,5961000", 5, nordmark.BOAT)
    # (a sheet of that loan; and of the archive, which has lent it)
    corner = "500000,5956320,505120,5961440"
    verbs.lend_box(corner, 6, nordmark.SURVEY, nordmark.BOAT[:4] + " ", package=nordmark.BOAT)
    verbs.lend_box(corner, 6, nordmark.name_uuid("crew", "late"), nordmark.ARCHIVE[:5] + " ")
    verbs.refused("lend", "--box 499999.999,5951200,510240,5961440 --zoom 5", "area")
    verbs.refused("lend", "--box 500000,5951200,510240,5961440 --zoom 7", "area")
    verbs.refused("lend", "--box 500000,5951200,500000,5961440 --zoom 5", "area")
    verbs.refused("lend", "--box 500000,5951200,510240 --zoom 5", "number")
    verbs.refused("lend", "ffff --box 500000,5951200,510240,5961440 --zoom 5", "no such package")
    verbs.session.run(f"lend tree {nordmark.ARCHIVE} 5/0/0 --box 500000,5951200,510240,5961440 --zoom 5", "", 2)
    verbs.session.run("lend tree --box 500000,5951200,510240,5961440", "", 2)
    verbs.session.run("lend tree", "", 2)
    return verbs.world


def quietly(session):
    """Verbs that print nothing where they end well, and as ever where they do not."""
    verbs = Verbs(session, "hush", False, quiet=" -q")
    archive, crew = nordmark.ARCHIVE, nordmark.HARBOUR
    book, town = nordmark.medium("level-book"), nordmark.sheet(*TOWN)
    verbs.tree("samples/tree", [(4, 0, 0), (5, 0, 0), (5, 1, 0), (5, 3, 5), (6, 0, 0), (6, 0, 4)])
    verbs.tree("samples/beside", [(4, 1, 0), (6, 8, 0), (6, 9, 0)])
    verbs.medium(archive, "samples/levels.txt", "level-book", b"levels along the sound\n", "text/plain")
    verbs.quiet = " --quiet"
    verbs.lend("6/0/4", crew, (6, 0, 0, 4, 4))
    verbs.lend("6/0/4", nordmark.BOAT, (6, 0, 0, 4, 4))
    verbs.refused("return", "ffff -q", "no such package")
    verbs.bring_home(crew, archive)
    verbs.drop(book, book)
    session.run("tidy hush --quiet", "")
    # (a request that is only shown is shown)
    given, options = verbs.given(town)
    members = {
        "command": "add",
        "package": archive,
        "identity": town,
        "kind": "media",
        "text": "text/plain",
        "data": b"levels along the sound\n",
    }
    session.run(
        f"put hush {archive} media samples/levels.txt{options} --dry-run -q", request_text({**given, **members})
    )
    return verbs.world
