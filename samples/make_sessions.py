#!/usr/bin/env python3
"""Writes the sessions that the gate carries out: their lines, the files that these name, and what each line prints.

Usage: make_sessions.py           writes first.csv and what else the README names, first_session.txt, and the run that the gate makes of crates/sheetdesk
       make_sessions.py --check   writes nothing; status 1 where a file is not what would be written, or the README shows it otherwise

First the sample is rehearsed, from standard input (make_sample.py). Then an archive is made in a folder, takes in three sheets, a survey
mark and a photograph by a list, lends a sheet to a crew, which adds a mark of its own; then it is looked at, and exported. Then come the
verbs for people, of which the README shows a session (verbs.py). What the lines print is worked out by the second machine of reference.py.

Then the worked examples of torture/worked_lists.txt, which has what they must print, written out by hand. Each list is rehearsed. An
example that lends, and tells more than one reply whole or has manifests in between, is carried out in a folder too: requests of which more
is told go in one by one, as JSON, and the others as lists. Such a reply's whole text, and the table of the packages, are the second
machine's, once that agrees with all that the example tells (torture/worked_lists.py).

Last the sessions of refusals.txt and folders.txt, written out by hand as they stand there. The folders of packages that the latter opens
are make_folders.py's. Nothing here runs the program.
"""

import csv
import itertools
import json
import os
import re
import sys

import field_work
import nordmark
import reference
import verbs
from machine import arrays, holding
from machine.exports import export
from machine.fault import fault_page_of
from machine.frames import Frame
from machine.lists import read_requests
from machine.loan import loan_page_of
from machine.projects import project
from machine.drawing import drawing_of
from machine.report import page_of
from machine.world import Receipt, World
from make_sample import List, rehearsed as rehearsed_sample

HERE = os.path.dirname(os.path.abspath(__file__))
CRATE = os.path.join(HERE, "..", "crates", "sheetdesk")
DATA = os.path.join(CRATE, "data")
README = os.path.join(HERE, "..", "README.md")
BY_HAND = [os.path.join(HERE, name) for name in ("refusals.txt", "folders.txt")]
# The packages that make_folders.py makes.
FOLDERS = os.path.join(DATA, "folders")

sys.path[:0] = [os.path.join(HERE, "..", name) for name in ("bench", "torture")]
sys.dont_write_bytecode = True

import worked_lists
from desk_requests import body_of

CREW = nordmark.HARBOUR
MAKING = f"--archive {nordmark.ARCHIVE} --at {nordmark.CREATED} --frame {nordmark.FRAME}"


def told():
    """The list of the session, and the request of its split."""
    requests = List()
    town, mole, moor = (6, 0, 0), (6, 1, 0), (5, 0, 2)
    for place in (town, mole, moor):
        requests.tile(nordmark.sheet(*place), place, b"\x89PNG\r\n\x1a\n" + nordmark.SHEETS[place].encode())
    requests.mark(nordmark.mark("light"), *nordmark.MARKS["light"])
    requests.medium(nordmark.medium("photo-lighthouse"), *nordmark.MEDIA["photo-lighthouse"])
    requests.link("rows_media", nordmark.mark("light"), nordmark.medium("photo-lighthouse"))
    requests.link("rows_tiles", nordmark.mark("light"), nordmark.sheet(*town))
    lent = requests.split(CREW, "strict", (5, 0, 0, 0, 0))
    requests.mark(nordmark.mark("buoy"), 503000000, 5959000000, 220, "buoy, red", package=CREW)
    requests.delete(nordmark.sheet(*mole), refused=7)
    return requests, lent


def rehearsed(text):
    done = reference.rehearse(nordmark.ARCHIVE, nordmark.FRAME, text)
    assert done.status == 0, done.text
    return done


def report_of(done):
    return done.text.split("package ", 1)[0]


def manifest_of(done, package):
    for part in done.text.split("package ")[1:]:
        name, manifest = part.split("\n", 1)
        if name == package:
            return manifest
    raise LookupError(package)


def left(width, text):
    return text.ljust(width) + "  "


def right(width, text):
    return str(text).rjust(width) + "  "


def status_of(world):
    """A line of headings, and a line for each package, in columns of fixed widths."""
    counted = [("tiles", 7), ("media", 7), ("rows", 7), ("links", 7), ("bytes", 13)]
    heads = left(36, "package") + left(36, "parent") + right(5, "depth") + right(10, "loan")
    lines = [heads + "".join(right(width, name) for name, width in counted) + "last change\n"]
    for uuid in sorted(world.packages):
        package, sight, ticket = world.packages[uuid], reference.sight_of(world, world.packages[uuid]), world.tickets[uuid]
        ends = left(36, uuid) + left(36, package.parent or "-") + right(5, package.depth) + right(10, package.loan)
        counts = "".join(right(width, sight[name]) for name, width in counted)
        lines.append(ends + counts + (world.receipts[ticket - 1].at if ticket else "-") + "\n")
    return "".join(lines)


def log_of(world, package="", first=0, last=None):
    """A line of headings, and a line for each receipt that names a package, from a number on, and of those the last."""
    heads = right(10, "receipt") + left(24, "at") + left(6, "what") + left(36, "from") + left(36, "to") + right(7, "things")
    lines = []
    for receipt in world.receipts:
        ends = (receipt.source or "-", receipt.target or "-")
        if receipt.seq >= first and any(end.startswith(package) for end in ends):
            front = right(10, receipt.seq) + left(24, receipt.at) + left(6, receipt.line.split(" ")[0])
            lines.append(front + "".join(left(36, end) for end in ends) + right(7, len(receipt.moved)) + f"{receipt.sums()[-1]}\n")
    return heads + "bytes\n" + "".join(lines if last is None else lines[max(len(lines) - last, 0):])


def way_of(world, identity):
    """A line for each receipt that names the identity, and where its item is now."""
    lines, place = [], None
    for receipt in world.receipts:
        as_item = any(thing.kind < 4 and thing.base == identity for thing in receipt.moved)
        as_end = any(thing.kind > 3 and identity in (thing.base, thing.other) for thing in receipt.moved)
        if as_item:
            place = receipt.target
        if as_item or as_end:
            naming = "both" if as_item and as_end else "item" if as_item else "link"
            front = right(10, receipt.seq) + left(24, receipt.at) + left(36, receipt.request) + left(6, receipt.line.split(" ")[0])
            lines.append(front + left(4, naming) + left(36, receipt.source or "-") + (receipt.target or "-") + "\n")
    return "".join(lines) + ("now in " + place if place else "now nowhere") + "\n"


class Session:
    """Lines as they are typed and what comes of them, and the files that they name."""

    def __init__(self):
        self.typed = []
        self.printed = []
        self.files = {}

    def show(self, line):
        self.typed.append(line + "\n")
        self.printed.append(line + "\n")

    def type(self, line, text, status=0):
        self.typed.append(line + "\n")
        self.printed.append(f"$ {line}\n{text}" + (f"status {status}\n" if status else ""))

    def run(self, words, text, status=0):
        self.type(f"./sheetdesk {words}", text, status)

    def take(self, other):
        """Another session behind this one."""
        self.typed += other.typed
        self.printed += other.printed
        self.files.update(other.files)

    def name(self, path, content):
        """A file that a line names, by its path."""
        self.files[path] = content
        return path


def first_session():
    requests, lent = told()
    done = rehearsed(requests.text().encode())
    light = nordmark.mark("light")
    receipt = next(reply for reply in done.replies if isinstance(reply, Receipt) and reply.request == lent)
    session = Session()
    session.type("mkdir maps", "")
    session.run(f"init {MAKING} maps", f"archive {nordmark.ARCHIVE}\n")
    session.run("import maps " + session.name("samples/first.csv", requests.text().encode()), report_of(done))
    session.run("status maps", status_of(done.world))
    session.run(f"explain maps {light}", way_of(done.world, light))
    session.run(f"receipt maps {lent}", reference.reply_text(receipt) + "\n")
    session.run(f"manifest maps {CREW}", manifest_of(done, CREW))
    session.run("audit maps", f"good {len(done.world.receipts)}\n")
    return session


def verb_sessions(session):
    """The verbs for people: the session that the README shows, and all of them."""
    shown = Session()
    world = verbs.first_loan(shown)
    shown.run("log sheets", log_of(world))
    shown.run("audit sheets", f"good {len(world.receipts)}\n")
    session.take(shown)
    session.show("")
    session.show("# All verbs, the first of each kind shown before it is carried out.")
    people = verbs.every_verb(session)
    world = people.world
    session.run("status harbour", status_of(world))
    session.run("log harbour 7900", log_of(world, "7900"))
    session.run("log harbour --from 11 --last 3", log_of(world, first=11, last=3))
    session.run("log harbour DF7BE693 --last 0", log_of(world, last=0))
    session.run("log harbour --last 99 --from 15", log_of(world, first=15, last=99))
    session.run("log harbour --last few", "refused: number\n", 1)
    session.run("audit harbour", f"good {len(world.receipts)}\n")
    session.run("report harbour", page_of(world, {}, reference.reply_text))
    as_arrays(session, world)
    short_names(session, world)
    # (deleted, and found by what receipts tell)
    book = nordmark.medium("level-book")
    people.delete(book)
    session.run(f"explain harbour {book[:4].upper()}", way_of(world, book))
    verbs.come_to_an_end(people)
    session.run("status harbour", status_of(world))
    session.run("audit harbour", f"good {len(world.receipts)}\n")
    session.show("")
    session.show("# By the names that people give.")
    names(session)
    session.show("")
    session.show("# Trees of tiles, and a loan of what covers a box.")
    world = verbs.trees_and_boxes(session)
    session.run("status tree", status_of(world))
    session.run("audit tree", f"good {len(world.receipts)}\n")
    session.show("")
    session.show("# Verbs that print nothing where they end well, and bold headings.")
    quiet_and_bold(session)
    return shown


def names(session):
    """Verbs and looks by names; where names are none."""
    archive, crew, town = nordmark.ARCHIVE, nordmark.HARBOUR, nordmark.sheet(6, 0, 0)
    people, called = verbs.by_names(session)
    world = people.world
    session.run("explain named Skarvholm", way_of(world, town))
    session.run("manifest named crew", reference.manifest(world.packages[crew]))
    for word in (crew[:4], archive):
        session.run(f"manifest named {word}", reference.manifest(world.packages[archive]))
    session.run("export named crew", export(world.frame, world.packages[crew], world.tickets[crew]))
    session.run("export named crew --qgis crew.gpkg", project(world.frame, "crew.gpkg"))
    session.run("log named crew", log_of(world, crew))
    session.run("report named crew", loan_page_of(world, called, reference.reply_text, crew))
    people.bring_home(crew, archive, word="crew")
    session.run("report named crew", "refused: no such package\n", 1)
    people.drop("levels", nordmark.medium("level-book"))
    people.drop("levels", nordmark.medium("level-book"), " --yes")
    session.run("audit named", f"good {len(world.receipts)}\n")
    # (whether a list is one is not asked for a whole UUID)
    session.name("unnamed/names.csv", b"uuid;name\n")
    session.run("manifest unnamed home", "refused: names\n", 1)
    session.run(f"manifest unnamed {archive}", "", 3)


def short_names(session, world):
    """A package and an item that is looked at, by their first digits."""
    package, town = world.packages[nordmark.ARCHIVE], nordmark.sheet(6, 0, 0)
    session.run(f"manifest harbour {nordmark.ARCHIVE[:4].upper()}", reference.manifest(package))
    session.run(f"export harbour {nordmark.ARCHIVE[:14]}", export(world.frame, package, world.tickets[nordmark.ARCHIVE]))
    session.run(f"explain harbour {town[:5]}", way_of(world, town))
    session.run("manifest harbour ffff", "refused: no such package\n", 1)
    session.run("explain harbour ffff", "refused: no such identity\n", 1)
    # (no UUID begins so)
    session.run("export harbour ffff-", "refused: uuid\n", 1)


def bold(table):
    """A table whose heading is bold on a terminal (ECMA-48)."""
    heading, rest = table.split("\n", 1)
    return f"\x1b[1m{heading}\x1b[0m\n{rest}"


def quiet_and_bold(session):
    """Verbs that print nothing, and tables with a bold heading."""
    world = verbs.quietly(session)
    session.run("status hush --color", bold(status_of(world)))
    session.run("log hush --color --last 2", bold(log_of(world, last=2)))
    # (an array has no heading)
    session.run("status hush --color --json", arrays.packages_of(world, reference.sight_of))
    session.run("audit hush", f"good {len(world.receipts)}\n")


def as_arrays(session, world):
    """The same for other programs."""
    session.run("status harbour --json", arrays.packages_of(world, reference.sight_of))
    session.run("log harbour --json", arrays.ledger_of(world))
    session.run("log harbour --json 7900", arrays.ledger_of(world, "7900"))
    session.run("log --json harbour --from 11 --last 3", arrays.ledger_of(world, first=11, last=3))
    session.run("log harbour --json --last 0", arrays.ledger_of(world, last=0))
    for identity in (nordmark.mark("light"), nordmark.medium("photo-lighthouse"), nordmark.sheet(6, 0, 0)):
        session.run(f"explain harbour {identity.upper()} --json", arrays.steps_of(world, identity))
        session.run(f"explain harbour --json {identity[:6]}", arrays.steps_of(world, identity))


def exports(session):
    """The packages of the first session as SQL, and an archive with nothing in it over a frame whose numbers are all different."""
    world = rehearsed(told()[0].text().encode()).world
    for uuid in (CREW, nordmark.ARCHIVE):
        session.run(f"export maps {uuid}", export(world.frame, world.packages[uuid], world.tickets[uuid]))
    archive, frame = "a0000000-0000-4000-8000-00000000beef", "-1,-3000,-700,3001,500,17,5,4,1,353,6"
    world = World(archive, Frame.read(frame))
    session.type("mkdir oblong", "")
    session.run(f"init --archive A0000000-0000-4000-8000-00000000BeEf --at {nordmark.CREATED} --frame={frame} oblong", f"archive {archive}\n")
    session.run(f"export oblong {archive.upper()}", export(world.frame, world.packages[archive], world.tickets[archive]))
    return world


def projects(session, oblong):
    """The QGIS projects that lie beside two of them: in the second is no reference system, and its file has marks of XML in its name."""
    frame = Frame.read(nordmark.FRAME)
    session.run(f"export maps {CREW.upper()} --qgis crew.gpkg", project(frame, "crew.gpkg"))
    session.run(f"export oblong {oblong.archive} --qgis=-'<a&b>;\"ä.gpkg", project(oblong.frame, "-'<a&b>;\"ä.gpkg"))
    session.run(f"export maps {CREW[:4]} --qgis crew.gpkg", project(frame, "crew.gpkg"))
    session.run("export maps 790 --qgis crew.gpkg", "refused: uuid\n", 1)
    session.run("export maps ffff --qgis crew.gpkg", "refused: no such package\n", 1)
    session.run(f"export maps {nordmark.BOAT} --qgis crew.gpkg", "refused: no such package\n", 1)
    session.run(f"export nowhere {CREW} --qgis crew.gpkg", "", 3)
    session.run(f"export maps {CREW} --qgis", "", 2)


def names_read():
    """The sample's file of names."""
    with open(os.path.join(HERE, "names.csv"), "rb") as it:
        return it.read()


def names_called():
    return {record["uuid"]: record["name"] for record in csv.DictReader(names_read().decode().splitlines())}


UNTIED = "has a row without identity, an identity without row, or a link without row"
UNFORMED = "lacks a table of its form, or has a value out of its range"
FOREIGN = "has not the archive's frame, or is not one level below its lender"


def damages():
    """Of folders that are damaged: the fault, and what is known of it."""
    archive, loan = (worked_lists.uuid_of(digit) for digit in "ab")
    item = worked_lists.uuid_of(0, 4)
    unbalanced = ("OutOfAccount", "the receipts do not add up to what the packages hold")
    return {
        "altered": ("Altered", f"item {item} has not the content that its receipt names"),
        "missing_package": ("MissingPackage", f"package {loan} is named by an open split and has no file"),
        "no_archive": ("NoArchive", "no file says that it is the archive's"),
        "two_archives": ("TwoArchives", "two files say that they are the archive's"),
        "two_copies": ("TwoCopies", f"package {loan} is there twice"),
        "dangling": ("Dangling", f"package {archive} {UNTIED}"),
        "number_twice_in_one": ("NotAPackage", f"package {archive} {UNFORMED}"),
        "higher_frame": ("ForeignFrame", f"package {loan} {FOREIGN}"),
        **dict.fromkeys(("number_twice", "forged_line", "moved_receipt", "went_on_apart"), unbalanced),
    }


def papers(session):
    """The custody page of a loan, with names and without; what is none; and the pages of folders that do not open."""
    world = rehearsed(told()[0].text().encode()).world
    names, called = names_read(), names_called()
    session.run(f"report maps {CREW}", loan_page_of(world, {}, reference.reply_text, CREW))
    session.run(f"report maps {CREW.upper()} --names {session.name('samples/names.csv', names)}", loan_page_of(world, called, reference.reply_text, CREW))
    session.run(f"report maps {nordmark.ARCHIVE}", "refused: no such package\n", 1)
    session.run(f"report maps {CREW[:4].upper()}", loan_page_of(world, {}, reference.reply_text, CREW))
    session.run(f"report maps {nordmark.ARCHIVE[:5]}", "refused: no such package\n", 1)
    session.run("report maps harbour", "refused: uuid\n", 1)
    for words, named in (("", {}), (" --names samples/names.csv", called)):
        session.run(f"map maps{words}", drawing_of(world, named))
    session.run("map maps --names samples/nowhere.csv", "refused: names\n", 1)
    for name, text in (("header", "uuid;name\n"), ("record", f"uuid,name\n{CREW},crew\nharbour,crew\n"), ("fields", f"uuid,name\n{CREW}\n"), ("nothing", "")):
        session.run(f"report maps --names {session.name(f'samples/names_{name}.csv', text.encode())}", "refused: names\n", 1)
    session.run("report maps --names samples/nowhere.csv", "refused: names\n", 1)
    for folder, fault in damages().items():
        session.run(f"report folders/{folder}", fault_page_of(*fault), 3)
    session.run("report folders/no_database", "", 3)
    session.run("map folders/altered", "", 3)


def drawings(session, oblong):
    """The map of an archive with nothing in it over an oblong frame, and of the sample while a loan has lent on: samples/lending.svg."""
    session.run("map oblong", drawing_of(oblong, {}))
    with open(os.path.join(HERE, "archive.csv"), "rb") as it:
        requests = b"".join(it.readlines()[:58])
    done = rehearsed(requests)
    with open(os.path.join(HERE, "lending.svg"), encoding="utf-8", newline="") as it:
        drawn = it.read()
    session.type("mkdir lending", "")
    session.run(f"init {MAKING} lending", f"archive {nordmark.ARCHIVE}\n")
    session.run("import lending " + session.name("lists/lending.csv", requests), report_of(done))
    session.run("map lending --names samples/names.csv", drawn)
    called = names_called()
    session.run("report lending boat --names samples/names.csv", loan_page_of(done.world, called, reference.reply_text, nordmark.BOAT))
    session.run("report lending boat", "refused: uuid\n", 1)
    session.run("report lending boat --names samples/nowhere.csv", "refused: names\n", 1)


def making(check):
    return f"--archive {worked_lists.uuid_of('a')} --at {worked_lists.MOMENTS['T']} --frame {check.frame}"


def listings(session):
    """The SQL that lists what a file holds: of an export, and of tables and columns whose names have marks in them."""
    session.run("holds", holding.own())
    session.run('holds --tiles scans"of"1926', holding.stock('scans"of"1926'))
    points = ("Marks';--", 'the"geom', "Nummer", "name\"")
    words = [f"--{option} {word}" for option, word in zip(("points", "geometry", "code", "label"), points)]
    session.run("holds " + " ".join(words), holding.stock(None, points))
    session.run("holds --label l --code c --points p --tiles t", holding.stock("t", ("p", "geom", "c", "l")))
    session.run("holds --points p --code c", "", 2)
    session.run("holds --geometry g", "", 2)
    session.run("holds maps", "", 2)


def completions(session):
    """What bash needs to complete words: the file that torture/completions.sh tries in a real bash."""
    with open(os.path.join(HERE, "completions.bash"), encoding="utf-8") as it:
        session.run("completions bash", it.read())
    session.run("completions", "", 2)
    session.run("completions fish", "", 2)


def short(name):
    return re.sub("[^a-z0-9]+", "_", name.lower())


def rehearse(session, check, file):
    text, status = worked_lists.expected(check)
    path = session.name(f"lists/{file}.csv", worked_lists.list_of(check))
    session.run(f"rehearse {making(check)} < {path}", text, status)


def tells_more(check, at):
    """Whether an example tells more of a reply than its number."""
    reply = check.replies[at]
    return at + 1 in check.desk or "," in reply or len(reply.split(" ")) > 2


class InFolder:
    """An example carried out in a folder, to the end of one of its checks after the other."""

    def __init__(self, session, check):
        self.session = session
        self.folder = short(check.name)
        self.at = 0
        self.files = 0
        session.type(f"mkdir {self.folder}", "")
        session.run(f"init {making(check)} {self.folder}", f"archive {worked_lists.uuid_of('a')}\n")

    def file(self, kind):
        self.files += 1
        return f"{kind}/{self.folder}_{self.files}"

    def import_to(self, check, end):
        """The records up to this one, as a list."""
        records, replies = check.records[self.at : end], check.replies[self.at : end]
        text = worked_lists.LIST_HEADER + "".join(records)
        path = self.session.name(self.file("lists") + ".csv", text.encode())
        self.session.run(f"import {self.folder} {path}", worked_lists.report_of(records, replies))
        self.at = end

    def apply_one(self, request, reply):
        path = self.session.name(self.file("requests") + ".json", body_of(request).encode())
        refused = isinstance(reply, reference.Refusal)
        self.session.run(f"apply {self.folder} < {path}", reference.reply_text(reply) + "\n", 1 if refused else 0)
        self.at += 1

    def go_on(self, check, done):
        """Carries out what comes before the manifests of this check, and looks at the packages."""
        while self.at < len(check.records):
            if tells_more(check, self.at):
                self.apply_one(done.requests[self.at], done.replies[self.at])
            else:
                told = (at for at in range(self.at, len(check.records)) if tells_more(check, at))
                self.import_to(check, next(told, len(check.records)))
        self.session.run(f"status {self.folder}", status_of(done.world))
        for part in check.manifests.split("package ")[1:]:
            uuid, manifest = part.split("\n", 1)
            self.session.run(f"manifest {self.folder} {uuid}", manifest)

    def end(self, done):
        self.session.run(f"audit {self.folder}", f"good {len(done.world.receipts)}\n")


def carry_out(session, checks):
    example, done = InFolder(session, checks[0]), None
    for check in checks:
        done = reference.rehearse(worked_lists.uuid_of("a"), check.frame, worked_lists.list_of(check))
        example.go_on(check, done)
    example.end(done)


def worked(session, name, checks):
    """A worked example whose list is short."""
    session.show("")
    session.show(f"# {name}")
    for check in checks:
        worked_lists.check_reference(check)
    last = checks[-1]
    rehearse(session, last, short(name))
    whole = sum(tells_more(last, at) for at in range(len(last.records)))
    lends = any(",split," in record or ",merge," in record for record in last.records)
    # each line over a folder waits for the disk, and a program of the gate has two minutes
    if not last.fault and lends and (len(checks) > 1 or whole > 1):
        carry_out(session, checks)


def long_one(session, name, checks):
    """One whose list is long: a rehearsal for each of its manifests."""
    session.show("")
    session.show(f"# {name}")
    for number, check in enumerate(checks, 1):
        worked_lists.check_reference(check)
        rehearse(session, check, f"{short(name)}_{number}" if len(checks) > 1 else short(name))


def by_name(checks):
    """Lists of checks, each of one example."""
    names = dict.fromkeys(check.name for check in checks)
    checks = list(checks)
    return {name: [check for check in checks if check.name == name] for name in names}


def worked_sessions(session):
    for name, checks in by_name(list(worked_lists.written_out())).items():
        worked(session, name, checks)
    for name, checks in by_name(list(worked_lists.made())).items():
        if len(worked_lists.list_of(checks[-1])) < 100_000:
            long_one(session, name, checks)


def is_read(lines):
    """Whether these lines are one array, unless they tell a refusal."""
    text = "".join(line for line in lines if line.strip() and not line.startswith(("#", "$")))
    return text.startswith("refused: ") or isinstance(json.loads(text), list)


def sessions_by_hand(session):
    """Lines that begin with `$ ` are typed, those with `# ` are comments, the others are printed."""
    for path in BY_HAND:
        with open(path, encoding="utf-8") as found:
            lines = found.read().splitlines(keepends=True)
        assert all(is_read(printed) for line, printed in by_command(lines).items() if line.endswith(" --json\n"))
        session.printed += lines
        session.typed += [line.removeprefix("$ ") for line in lines if line.startswith(("$ ", "# ")) or line == "\n"]


def all_sessions():
    """The sessions of the README, and all of them."""
    first, every = first_session(), Session()
    every.show("# The sample, on standard input.")
    every.run(f"rehearse {MAKING}", rehearsed_sample()[1])
    every.show("")
    every.show("# A first list of requests.")
    every.take(first)
    every.show("")
    every.show("# Its packages as SQL, and an archive with nothing in it, over an oblong frame.")
    oblong = exports(every)
    every.show("")
    every.show("# The QGIS project that lies beside an export.")
    projects(every, oblong)
    every.show("")
    every.show("# The SQL that lists what an edited file holds, and that of another program's file.")
    listings(every)
    field_work.sessions(every)
    every.show("")
    every.show("# The custody of a loan, and folders that do not open.")
    papers(every)
    every.show("")
    every.show("# The map of all zooms, with marks and names.")
    drawings(every, oblong)
    every.show("")
    every.show("# What bash needs to complete words.")
    completions(every)
    every.show("")
    every.show("# A sheet is lent and comes home, by the verbs for people.")
    first.take(verb_sessions(every))
    worked_sessions(every)
    sessions_by_hand(every)
    return first, every


def files():
    """Each file's path and bytes."""
    first, every = all_sessions()
    made = {os.path.join(DATA, *path.split("/")): content for path, content in every.files.items()}
    beside = {os.path.join(HERE, "..", *path.split("/")): content for path, content in first.files.items()}
    return {
        **beside,
        os.path.join(HERE, "first_session.txt"): "".join(first.printed).encode(),
        os.path.join(DATA, "sessions.txt"): "".join(every.typed).encode(),
        os.path.join(CRATE, "args"): b"session\nsessions.txt\n",
        os.path.join(CRATE, "stdin"): rehearsed_sample()[0],
        os.path.join(CRATE, "stdout"): "".join(every.printed).encode(),
        os.path.join(CRATE, "status"): b"0",
        **made,
    }


def strays():
    """Files of the sessions that none of them names, apart from the packages."""
    wanted = {os.path.normpath(path) for path in files()}
    found = {os.path.normpath(os.path.join(folder, name)) for folder, _, names in os.walk(DATA) for name in names}
    return sorted(path for path in found - wanted if not path.startswith(os.path.normpath(FOLDERS) + os.sep))


def is_as_wanted(path, wanted):
    if not os.path.exists(path):
        return False
    with open(path, "rb") as found:
        return found.read() == wanted


def by_command(lines):
    """What each command of some lines prints, by the command. A command stands behind `$ `."""
    found, printed = {}, None
    for line in lines:
        if line.startswith("$ "):
            printed = found.setdefault(line, [])
        elif printed is not None:
            printed.append(line)
    return found


def shown():
    """The commands of the first session that the README shows, with what it says that they print."""
    with open(README, encoding="utf-8") as found:
        behind = found.read().partition("## A first session")[2].splitlines()
    from_first = itertools.dropwhile(lambda line: not line.startswith("    "), behind)
    lines = itertools.takewhile(lambda line: line.startswith("    "), from_first)
    return by_command(line.removeprefix("    ").rstrip() for line in lines)


def is_shown_right(said, printed):
    """Whether these are the lines that are printed, where `..` stands for any of them."""
    wanted = "".join(r"(?:.*\n)*" if line == ".." else re.escape(f"{line}\n") for line in said)
    return re.fullmatch(wanted, "".join(f"{line}\n" for line in printed)) is not None


def shown_otherwise():
    """What the README shows of its sessions, and is not so."""
    lines = [verbs.as_shown(line.rstrip("\n")) for line in "".join(all_sessions()[0].printed).splitlines()]
    printed, said = by_command(lines), shown()
    if not said:
        return ["nothing of a session"]
    return [command for command, lines in said.items() if command not in printed or not is_shown_right(lines, printed[command])]


def check():
    """What is not as it should be, a line each."""
    other = [f"not as made: {os.path.relpath(path)}" for path, wanted in files().items() if not is_as_wanted(path, wanted)]
    other += [f"named by no session: {os.path.relpath(path)}" for path in strays()]
    return other + [f"the README shows otherwise: {line}" for line in shown_otherwise()]


def write():
    for path in strays():
        os.remove(path)
    for path, wanted in files().items():
        os.makedirs(os.path.dirname(path), exist_ok=True)
        with open(path, "wb") as out:
            out.write(wanted)


def main():
    if sys.argv[1:] == ["--check"]:
        other = check()
        sys.exit("\n".join(other) if other else 0)
    if sys.argv[1:]:
        sys.exit(__doc__)
    write()


if __name__ == "__main__":
    main()
