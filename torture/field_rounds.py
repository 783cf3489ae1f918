#!/usr/bin/env python3
"""Edits exports at random, lists and brings them home: by the program, by a reading in plain Python, and by the second machine.

Usage: field_rounds.py [ROUNDS [SEED]] [--gdal]
       SHEETDESK=PROGRAM field_rounds.py ..    over another program than the proved one

In each round the program makes a register of a random list and exports a package; the text must be the second machine's. Then the file
is edited by SQL, as crews and their programs do it, and spoiled now and then; with --gdal also by ogr2ogr, ogrinfo, gdalwarp and gdaladdo
(Debian's gdal-bin). Doubles are read by `struct` and rounded as exact fractions. The list that `holds` makes stock sqlite3 print must be
that of the reading, to the byte. `changes`, `bring` and `bring --dry-run` of it must print what the second machine prints, or refuse as it
does; afterwards the package holds what the second machine's holds, the others what they held, the same list is stale, and a new export
asks for nothing. Lists that were cut, or have a record less or twice, and the same holdings with --more go there too. A register goes on
for some rounds, which the program carries out in one session at their end. Then come points of any doubles, and tables of other programs whose names have marks in them. Status 0 where nothing differed.
"""

import csv
import io
import os
import random
import shutil
import sqlite3
import struct
import subprocess
import sys
import tempfile
import uuid
import zlib
from collections import Counter
from fractions import Fraction

TOP = os.path.dirname(os.path.dirname(os.path.abspath(__file__)))
sys.path[:0] = [os.path.join(TOP, "samples")]
sys.dont_write_bytecode = True

from machine import holding
from machine.changing import Refused, changes_of_words, list_of, summary_of
from machine.contents import ENDS
from machine.exports import export
from machine.frames import Frame
from machine.held_lists import HEADER as COLUMNS
from machine.lists import HEADER as FIELDS
from machine.lists import spelled_record
from machine.world import apply
from reference import manifest, rehearse, report_line, REPORT_HEADER

HEADER = ",".join(COLUMNS)
ARCHIVE = "a0000000-0000-4000-8000-000000000000"
AT = "2026-03-02T07:30:00.000Z"
FRAMES = [
    "25832,500000000,5900000000,500512000,5900512000,256,256,0,2,1,1",
    "25832,500000000,5900000000,540960000,5961440000,256,256,4,3,2,3",
    "-1,-1024,-2048,1024,2048,2,4,3,3,4,2",
    "3857,-20037508000,-20037508000,20037508000,20037508000,1,1,0,3,2,2",
]
TABLES = {"tile": "sheet_tiles", "media": "sheet_media", "row": "sheet_rows"}
LABELS = ["", "a", "b", 'say "so"', "it's", "comma, and", " leading", "ä€😀", "x" * 200, "\ufeffbom", "1.0", "NULL", "tab\there"]
done = Counter()


def program():
    named = os.environ.get("SHEETDESK")
    return named or subprocess.run([os.path.join(TOP, "sheetdesk"), "--built"], stdout=subprocess.PIPE, check=True).stdout.decode().strip()


def random_uuid(rng):
    return str(uuid.UUID(int=rng.getrandbits(128), version=4))


# ---- a register, and its export


def png(seed, size):
    """A picture of one colour."""
    lines = (b"\0" + bytes([seed % 256, seed * 7 % 256, 90]) * size) * size
    parts = [(b"IHDR", struct.pack(">IIBBBBB", size, size, 8, 2, 0, 0, 0)), (b"IDAT", zlib.compress(lines, 9)), (b"IEND", b"")]
    return b"\x89PNG\r\n\x1a\n" + b"".join(struct.pack(">I", len(data)) + name + data + struct.pack(">I", zlib.crc32(name + data)) for name, data in parts)


class Script:
    """A session of the program: its lines, and what they have to print. It is carried out once, at the end, in one process."""

    def __init__(self, room):
        self.room, self.typed, self.wanted, self.files = room, [], [], 0

    def type(self, line, text, status=0):
        self.typed.append(line + "\n")
        self.wanted.append(f"$ {line}\n{text}" + (f"status {status}\n" if status else ""))

    def run(self, words, text, status=0, given=None):
        """A command, maybe over an input."""
        if given is not None:
            self.files += 1
            with open(os.path.join(self.room, f"given_{self.files}.csv"), "wb") as out:
                out.write(given)
            words += f" < given_{self.files}.csv"
        self.type(f"./sheetdesk {words}", text, status)

    def carry_out(self, sheetdesk):
        with open(os.path.join(self.room, "session.txt"), "w", encoding="utf-8") as out:
            out.write("".join(self.typed))
        ran = subprocess.run([sheetdesk, "session", "session.txt"], cwd=self.room, capture_output=True, check=False)
        wanted, at = "".join(self.wanted).encode(), 0
        if ran.returncode == 0 and ran.stdout == wanted:
            return
        for part in map(str.encode, self.wanted):
            came = ran.stdout[at : at + len(part)]
            if came != part:
                raise AssertionError(f"status {ran.returncode}\n{part.decode()[:3000]}\nand it printed\n{ran.stdout[at : at + 3000].decode(errors='replace')}\n{ran.stderr[-500:]}")
            at += len(part)
        raise AssertionError((ran.returncode, ran.stdout[at:], ran.stderr[-500:]))


class Register:
    """An archive that a random list filled, and the session that makes it."""

    def __init__(self, rng, room, pictures):
        self.rng, self.pictures, self.script = rng, pictures, Script(room)
        self.text = FRAMES[0] if pictures else rng.choice(FRAMES)
        self.frame = Frame.read(self.text)
        listed = self.listed().encode()
        begun = rehearse(ARCHIVE, self.text, listed)
        self.world = begun.world
        with open(os.path.join(room, "first.csv"), "wb") as out:
            out.write(listed)
        self.script.type("mkdir maps", "")
        self.script.run(f"init --archive {ARCHIVE} --at {AT} --frame={self.text} maps", f"archive {ARCHIVE}\n")
        self.script.run("import maps first.csv", begun.text.split("package ", 1)[0])

    def place(self):
        zoom = self.rng.randrange(self.frame.first_zoom, self.frame.first_zoom + self.frame.levels)
        across, down = self.frame.matrix(zoom)
        return zoom, self.rng.randrange(min(across, 4)), self.rng.randrange(min(down, 4))

    def point(self):
        return self.rng.randrange(self.frame.min_x, self.frame.max_x), self.rng.randrange(self.frame.min_y + 1, self.frame.max_y + 1)

    def data(self):
        return png(self.rng.randrange(200), 256) if self.pictures else self.rng.randbytes(self.rng.choice([1, 2, 3, 30]))

    def content(self, kind):
        if kind == "tile":
            return dict(zip(("zoom", "column", "row"), self.place())) | {"data": self.data().hex()}
        if kind == "media":
            types = ["image/png", "image/jpeg", 'a"b', "a,b", "it's"]
            return {"text": self.rng.choice(types), "data": self.rng.randbytes(self.rng.choice([1, 2, 40])).hex()}
        x, y = self.point()
        return {"x": x, "y": y, "code": self.rng.choice([0, 1, 999_999]), "text": self.rng.choice(LABELS)}

    def listed(self):
        """Additions, links and a loan, some of them refused."""
        rng, requests, named = self.rng, [], {"tile": [], "media": [], "row": []}
        for _ in range(rng.choice([4, 20, 40])):
            kind = rng.choice(["tile", "media", "row", "row"])
            named[kind].append(random_uuid(rng))
            requests.append({"command": "add", "kind": kind, "identity": named[kind][-1], **self.content(kind)})
        for _ in range(rng.choice([0, 20, 40])):
            mapping = rng.choice(list(ENDS))
            if all(named[kind] for kind in ENDS[mapping]):
                base, other = (rng.choice(named[kind]) for kind in ENDS[mapping])
                requests.append({"command": "link", "kind": mapping, "identity": base, "other": other})
        zoom, column, row = self.place()
        rect = {"zoom": zoom, "column": column, "last_column": column, "row": row, "last_row": row}
        requests.append({"command": "split", "kind": "follow", "other": random_uuid(rng), **rect})
        common = {"at": AT, "package": ARCHIVE}
        records = [[str({**dict.fromkeys(FIELDS, ""), **common, "request": random_uuid(rng), **request}[name]) for name in FIELDS] for request in requests]
        return "".join(map(spelled_record, [FIELDS, *records]))

    def exported(self, package, path):
        """Makes the file of the text that the program has to print."""
        text = export(self.frame, self.world.packages[package], self.world.tickets[package])
        self.script.run(f"export maps {package}", text)
        for end in ("", "-wal", "-shm", "-journal"):
            if os.path.exists(path + end):
                os.remove(path + end)
        subprocess.run(["sqlite3", "-bail", path], input=text.encode(), check=True)


# ---- a file, read by plain Python


def nearest(double):
    """The nearest whole thousandth, ties away from zero, as an exact fraction."""
    exact = abs(Fraction(double)) * 1000
    whole = (2 * exact.numerator + exact.denominator) // (2 * exact.denominator)
    return -whole if double < 0 else whole


def is_point(blob):
    if not isinstance(blob, bytes) or blob[:3] != b"GP\0" or len(blob) < 9 or blob[3] & 48:
        return None
    envelope = {0: 0, 1: 32, 2: 48, 3: 48, 4: 64}.get(blob[3] >> 1 & 7)
    if envelope is None:
        return None
    body = blob[8 + envelope :]
    if len(body) != 21 or body[0] > 1:
        return None
    kind, x, y = struct.unpack("<Idd" if body[0] else ">Idd", body[1:])
    if kind != 1 or not all(abs(number) < 2.0**52 for number in (x, y)):
        return None
    return nearest(x), nearest(y), struct.unpack("<i" if blob[3] & 1 else ">i", blob[4:8])[0]


def code_of(code):
    if isinstance(code, int):
        return code
    if isinstance(code, float):
        return int(code) if code == code and abs(code) < 2.0**63 and code == int(code) else None
    if isinstance(code, str) and 1 <= len(code) <= 9 and all(letter in "0123456789" for letter in code):
        return int(code)
    return None


def uuid_of(text):
    digits = isinstance(text, str) and len(text) == 36 and all((letter == "-") if at in (8, 13, 18, 23) else letter in "0123456789abcdefABCDEF" for at, letter in enumerate(text))
    return text if digits else ""


def quoted(text):
    return '"' + str(text).replace('"', '""') + '"'


def system_of(db, srs):
    found = db.execute("SELECT organization, organization_coordsys_id FROM gpkg_spatial_ref_sys WHERE srs_id = ?", (srs,)).fetchone()
    if found and found[0].upper() == "EPSG":
        return found[1]
    return srs if found and found[0].upper() == "NONE" and srs in (-1, 0) else None


def frame_of(db, table):
    """The text of the record of a frame, or why there is none."""
    sets = db.execute("SELECT srs_id, min_x, max_y FROM gpkg_tile_matrix_set WHERE table_name = ? COLLATE NOCASE", (table,)).fetchall()
    levels = db.execute("SELECT zoom_level, matrix_width, matrix_height, tile_width, tile_height, pixel_x_size, pixel_y_size FROM gpkg_tile_matrix "
                        "WHERE table_name = ? COLLATE NOCASE ORDER BY zoom_level", (table,)).fetchall()
    if len(sets) != 1:
        return "bad pyramid"
    srs, west, north = sets[0]
    system = system_of(db, srs)
    if system is None:
        return "bad system"
    if any(abs(bound * 1000 - round(bound * 1000)) > 0.001 for bound in (west, north)):
        return "bad corner"
    zooms = [level[0] for level in levels]
    if not zooms or zooms != list(range(zooms[0], zooms[0] + len(zooms))) or zooms[0] < 0 or zooms[-1] > 20:
        return "bad zooms"
    if len({level[3:5] for level in levels}) > 1:
        return "bad tiles"
    sizes = [(level[5] * 1000, level[6] * 1000) for level in levels]
    if any(abs(size - round(size)) >= 0.000001 for pair in sizes for size in pair) or any(round(size) < 1 for size in sizes[-1]):
        return "bad pixels"
    across, down = (round(size) for size in sizes[-1])
    coarser = range(len(levels) - 1, -1, -1)
    if any((round(x), round(y)) != (across << more, down << more) for more, (x, y) in zip(coarser, sizes)):
        return "bad doubling"
    columns, rows = (max((level[at] - 1 >> level[0] - zooms[0]) + 1 for level in levels) for at in (1, 2))
    wide, high = levels[0][3:5]
    west, north = round(west * 1000), round(north * 1000)
    east, south = west + columns * wide * (across << len(levels) - 1), north - rows * high * (down << len(levels) - 1)
    return ",".join(map(str, [system, west, south, east, north, wide, high, zooms[0], len(levels), columns, rows]))


class Reading:
    """The records of a file, in the order of the list."""

    def __init__(self, db):
        self.db = db
        self.records = []
        self.numbers = {kind: set() for kind in TABLES}

    def put(self, kind, number="", **fields):
        text = fields.pop("text", None)
        values = {**dict.fromkeys(HEADER.split(","), ""), **fields, "kind": kind, "number": number}
        values["text"] = "" if text is None else text if kind == "bad" else quoted(text)
        self.records.append(",".join(str(values[name]) for name in HEADER.split(",")))

    def pyramid(self, table):
        frame = frame_of(self.db, table)
        if frame.startswith("bad "):
            self.put("bad", text="frame " + frame[4:])
        else:
            self.put("frame", text=frame)

    def tiles(self, table):
        for number, *place, data in self.db.execute(f"SELECT id, zoom_level, tile_column, tile_row, tile_data FROM {holding.name(table)} ORDER BY id"):
            self.numbers["tile"].add(number)
            if all(isinstance(part, int) for part in place) and isinstance(data, bytes):
                self.put("tile", number, zoom=place[0], column=place[1], row=place[2], data=data.hex().upper())
            else:
                self.put("bad", number, text="tile data")

    def media(self):
        for number, data, kind, named in self.db.execute("SELECT id, data, content_type, uuid FROM sheet_media ORDER BY id"):
            self.numbers["media"].add(number)
            if isinstance(data, bytes) and isinstance(kind, str) and "\0" not in kind:
                self.put("media", number, identity=uuid_of(named), text=kind, data=data.hex().upper())
            else:
                self.put("bad", number, text="media data")

    def rows(self, text, system):
        for number, geometry, code, label, named in self.db.execute(text):
            self.numbers["row"].add(number)
            point = is_point(geometry)
            fault = "geometry" if point is None else "system" if system is not None and point[2] != system else "code" if code_of(code) is None else None
            if fault is None and (isinstance(label, bytes) or "\0" in str(label)):
                fault = "label"
            if fault:
                self.put("bad", number, text=f"row {fault}")
            else:
                self.put("row", number, identity=uuid_of(named), x=point[0], y=point[1], code=code_of(code), text="" if label is None else label)

    def links(self):
        was = {number: tuple(place) for number, *place in self.db.execute("SELECT id, zoom_level, tile_column, tile_row FROM sheet_tile_identity")}
        now = {tuple(place): number for number, *place in self.db.execute("SELECT id, zoom_level, tile_column, tile_row FROM sheet_tiles")}
        for mapping, kinds in ENDS.items():
            pairs = set()
            for pair in self.db.execute(f"SELECT base_id, related_id FROM {mapping}"):
                ends = [now.get(was.get(end)) if kind == "tile" and end not in self.numbers["tile"] else end for kind, end in zip(kinds, pair)]
                if all(end in self.numbers[kind] for kind, end in zip(kinds, ends)):
                    pairs.add(tuple(ends))
            for base, other in sorted(pairs):
                self.put(mapping, base, other=other)

    def text(self):
        ended = [*self.records, f"end,{len(self.records)},,,,,,,,,,"]
        return "".join(record + "\n" for record in [HEADER, *ended]).encode()


def points_system(db, table, column):
    found = db.execute("SELECT srs_id FROM gpkg_geometry_columns WHERE table_name = ? COLLATE NOCASE AND column_name = ? COLLATE NOCASE", (table, column)).fetchone()
    return found and found[0]


def read_export(path):
    db = sqlite3.connect(path)
    reading = Reading(db)
    for package, ticket in db.execute("SELECT package, ticket FROM sheet_export"):
        reading.put("package", ticket if isinstance(ticket, int) else "", identity=uuid_of(package))
    srs = points_system(db, "sheet_rows", "geom")
    if srs is not None:
        number = system_of(db, srs)
        reading.put("system", -2 if number is None else number)
    reading.pyramid("sheet_tiles")
    reading.tiles("sheet_tiles")
    reading.media()
    reading.rows("SELECT id, geom, code, label, uuid FROM sheet_rows ORDER BY id", srs)
    reading.links()
    db.close()
    return reading.text()


def listed_by(text, path):
    return subprocess.run(["sqlite3", path], input=text, stdout=subprocess.PIPE, check=True).stdout


def compare(text, path, wanted):
    came = listed_by(text, path)
    if came != wanted:
        pairs = zip(came.split(b"\n"), wanted.split(b"\n"))
        raise AssertionError(next(((one, two) for one, two in pairs if one != two), (len(came), len(wanted))))


# ---- edits by SQL


def blob_of(srs, x, y, little=True, envelope=0):
    mark = "<" if little else ">"
    size = {0: 0, 1: 32, 2: 48, 3: 48, 4: 64}[envelope]
    return b"GP\0" + bytes([int(little) | envelope << 1]) + struct.pack(mark + "i", srs) + bytes(size) + bytes([int(little)]) + struct.pack(mark + "Idd", 1, x, y)


class Crew:
    """One edit after the other, by the name of each."""

    def __init__(self, rng, register, db):
        self.rng, self.register, self.db = rng, register, db

    def some(self, table):
        numbers = [number for (number,) in self.db.execute(f"SELECT id FROM {table}")]
        return self.rng.choice(numbers) if numbers else 1

    def geometry(self):
        x, y = (bound / 1000 + self.rng.choice([0, 0, 0.0004, -0.0004, 0.0005]) for bound in self.register.point())
        return blob_of(self.register.frame.srs, x, y, self.rng.random() < 0.8, self.rng.choice([0, 0, 0, 1, 2, 4]))

    def new_point(self):
        self.db.execute("INSERT INTO sheet_rows (geom) VALUES (?)", (self.geometry(),))

    def new_mark(self):
        values = self.geometry(), self.rng.choice([0, 5, -1, 10**12, 7.0, "007"]), self.rng.choice(LABELS)
        self.db.execute("INSERT INTO sheet_rows (geom, code, label) VALUES (?, ?, ?)", values)

    def edit_label(self):
        self.db.execute("UPDATE sheet_rows SET label = ? WHERE id = ?", (self.rng.choice([None, *LABELS]), self.some("sheet_rows")))

    def move(self):
        self.db.execute("UPDATE sheet_rows SET geom = ? WHERE id = ?", (self.geometry(), self.some("sheet_rows")))

    def delete(self):
        table = self.rng.choice(list(TABLES.values()))
        self.db.execute(f"DELETE FROM {table} WHERE id = ?", (self.some(table),))

    def replace_tile(self):
        place = self.db.execute("SELECT zoom_level, tile_column, tile_row FROM sheet_tiles WHERE id = ?", (self.some("sheet_tiles"),)).fetchone()
        self.db.execute("INSERT OR REPLACE INTO sheet_tiles (zoom_level, tile_column, tile_row, tile_data) VALUES (?, ?, ?, ?)", (*(place or self.register.place()), self.register.data()))

    def new_tile(self):
        self.db.execute("INSERT OR IGNORE INTO sheet_tiles (zoom_level, tile_column, tile_row, tile_data) VALUES (?, ?, ?, ?)", (*self.register.place(), self.register.data()))

    def move_tile(self):
        self.db.execute("UPDATE OR IGNORE sheet_tiles SET zoom_level = ?, tile_column = ?, tile_row = ? WHERE id = ?", (*self.register.place(), self.some("sheet_tiles")))

    def new_photo(self):
        self.db.execute("INSERT INTO sheet_media (data) VALUES (?)", (self.rng.randbytes(5),))

    def link(self):
        mapping = self.rng.choice(list(ENDS))
        base, other = (self.some(TABLES[kind]) for kind in ENDS[mapping])
        self.db.execute(f"INSERT INTO {mapping} (base_id, related_id) VALUES (?, ?)", (base, self.rng.choice([other, other, 777])))

    def link_twice(self):
        mapping = self.rng.choice(list(ENDS))
        self.db.execute(f"INSERT INTO {mapping} (base_id, related_id) SELECT base_id, related_id FROM {mapping} LIMIT 2")

    def unlink(self):
        mapping = self.rng.choice(list(ENDS))
        self.db.execute(f"DELETE FROM {mapping} WHERE id = ?", (self.some(mapping),))

    def relink(self):
        mapping = self.rng.choice(list(ENDS))
        self.db.execute(f"UPDATE {mapping} SET base_id = base_id + 1 WHERE id = ?", (self.some(mapping),))

    def identity(self):
        texts = [None, "", "{x}", "0" * 36, "g" * 8 + "-0000-4000-8000-000000000000", 5, b"\0", random_uuid(self.rng), random_uuid(self.rng).upper(), random_uuid(self.rng) + "\0x"]
        table = self.rng.choice(["sheet_rows", "sheet_media"])
        self.db.execute(f"UPDATE {table} SET uuid = ? WHERE id = ?", (self.rng.choice(texts), self.some(table)))

    def copy(self):
        self.db.execute("INSERT INTO sheet_rows (geom, code, label, uuid) SELECT geom, code, label, uuid FROM sheet_rows WHERE id = ?", (self.some("sheet_rows"),))

    def forget_outline(self):
        self.db.execute("DELETE FROM sheet_tile_identity WHERE id = ?", (self.some("sheet_tile_identity"),))

    def touch(self):
        self.db.execute("UPDATE gpkg_contents SET last_change = '2026-05-05T05:05:05.000Z', description = 'edited'")

    # what no package holds

    def spoil_geometry(self):
        point = struct.pack("<BIdd", 1, 1, 1.0, 2.0)
        srs = struct.pack("<i", self.register.frame.srs)
        good = blob_of(self.register.frame.srs, 1.0, 2.0)
        blobs = [None, b"", b"GP", good[:-1], good + b"\0", b"GX" + good[2:], b"GP\1" + good[3:], good[:3] + b"\x0b" + good[4:], "text", 5, 1.5,
                 b"GP\0\1" + srs + struct.pack("<BII", 1, 4, 1) + point, b"GP\0\1" + srs + struct.pack("<BIddd", 1, 1001, 1.0, 2.0, 3.0),
                 b"GP\0\x11" + srs + struct.pack("<BIdd", 1, 1, float("nan"), float("nan")), b"GP\0\x21" + good[4:],
                 blob_of(self.register.frame.srs, float("inf"), 0.0), blob_of(self.register.frame.srs, 2.0**52, 0.0), blob_of(4326, 1.0, 2.0), blob_of(31466, 1.0, 2.0, False),
                 b"\0\1" + srs + struct.pack("<dddd", 1, 2, 1, 2) + b"\x7c" + struct.pack("<Idd", 1, 1.0, 2.0) + b"\xfe"]
        self.db.execute("INSERT INTO sheet_rows (geom) VALUES (?)", (self.rng.choice(blobs),))

    def spoil_values(self):
        values = [("code", 1.5), ("code", "x"), ("code", b"7"), ("code", "1234567890x"), ("code", "7\0"), ("code", 1e300), ("label", "a\0b"), ("label", b"blob"), ("label", 1.5)]
        column, value = self.rng.choice(values)
        self.db.execute(f"UPDATE sheet_rows SET {column} = ? WHERE id = ?", (value, self.some("sheet_rows")))

    def spoil_bytes(self):
        table, column, value = self.rng.choice([("sheet_tiles", "tile_data", "text"), ("sheet_tiles", "tile_column", "x"), ("sheet_tiles", "tile_row", 0.5),
                                                ("sheet_media", "data", 5), ("sheet_media", "content_type", "a\0b"), ("sheet_media", "content_type", b"x")])
        self.db.execute(f"UPDATE OR IGNORE {table} SET {column} = ? WHERE id = ?", (value, self.some(table)))

    def spoil_frame(self):
        self.db.execute(self.rng.choice([
            "UPDATE gpkg_tile_matrix_set SET min_x = min_x + 0.0003", "UPDATE gpkg_tile_matrix_set SET max_y = max_y + 0.25",
            "UPDATE gpkg_tile_matrix SET pixel_x_size = pixel_x_size / 3", "UPDATE gpkg_tile_matrix SET pixel_y_size = pixel_y_size + 1 WHERE zoom_level % 2 = 0",
            "UPDATE gpkg_tile_matrix SET tile_width = tile_width + 1 WHERE zoom_level = (SELECT max(zoom_level) FROM gpkg_tile_matrix)",
            "DELETE FROM gpkg_tile_matrix WHERE zoom_level = (SELECT min(zoom_level) FROM gpkg_tile_matrix)", "DELETE FROM gpkg_tile_matrix",
            "UPDATE gpkg_tile_matrix SET zoom_level = zoom_level * 2", "UPDATE gpkg_tile_matrix SET matrix_width = matrix_width + 1",
            "UPDATE gpkg_spatial_ref_sys SET organization = 'SR-ORG'", "UPDATE gpkg_spatial_ref_sys SET organization = 'epsg', organization_coordsys_id = 31466",
            "UPDATE sheet_export SET ticket = 'x', package = 'a,b'"]))


EDITS = [name for name in vars(Crew) if not name.startswith(("_", "spoil", "some", "geometry"))]
SPOILS = [name for name in vars(Crew) if name.startswith("spoil")]


def edit_by_sql(rng, register, path):
    db = sqlite3.connect(path)
    if rng.random() < 0.1:
        db.execute("PRAGMA journal_mode = WAL")
    # what triggers of a spatial index ask of the program that edits
    db.create_function("ST_IsEmpty", 1, lambda blob: 0)
    for name, at in (("ST_MinX", 0), ("ST_MaxX", 0), ("ST_MinY", 1), ("ST_MaxY", 1)):
        db.create_function(name, 1, lambda blob, at=at: (is_point(blob) or (0, 0))[at] / 1000)
    name = rng.choice(SPOILS) if rng.random() < 0.1 else rng.choice(EDITS)
    try:
        getattr(Crew(rng, register, db), name)()
        db.commit()
    except sqlite3.IntegrityError:
        # a NULL or a number that the table refuses; nothing was changed
        db.rollback()
    db.close()
    done["sql " + name] += 1


# ---- edits by GDAL


def edit_by_gdal(rng, register, path, folder):
    frame = register.frame
    x, y = (bound / 1000 for bound in register.point())
    place = f"AsGPB(ST_GeomFromText('POINT({x!r} {y!r})', {frame.srs}))"
    queries = {
        "insert": f"INSERT INTO sheet_rows (geom, code, label) VALUES ({place}, 3, 'by sql')",
        "label": "UPDATE sheet_rows SET label = label || '!' WHERE id % 3 = 0",
        "move": f"UPDATE sheet_rows SET geom = {place} WHERE id = 1",
        "delete": f"DELETE FROM sheet_rows WHERE id = {rng.randrange(1, 12)}",
        "medium": f"INSERT INTO sheet_media (data, content_type) VALUES (x'{rng.randbytes(3).hex()}', 'image/png')",
        "link": "INSERT INTO rows_media (base_id, related_id) SELECT max(r.id), max(m.id) FROM sheet_rows r, sheet_media m HAVING max(r.id) IS NOT NULL",
        "spatialite": f"UPDATE sheet_rows SET geom = ST_GeomFromText('POINT({x!r} {y!r})', {frame.srs}) WHERE id = 2",
        "index": "SELECT CreateSpatialIndex('sheet_rows', 'geom')",
    }
    name = rng.choice([*queries, "append", "append", "degrees", "warp", "warp", "overviews"])
    if name in queries:
        subprocess.run(["ogrinfo", "-q", path, "-update", "-sql", queries[name]], capture_output=True, check=True)
    elif name in ("append", "degrees"):
        with open(f"{folder}/p.csv", "w", encoding="utf-8") as text:
            text.write(f"x,y,code,label\n{x + 0.00031},{y - 0.00017},7,by ogr2ogr\n{x},{y},8,second\n")
        system = f"EPSG:{frame.srs}" if name == "append" else "EPSG:4326"
        options = [word for option in ("X_POSSIBLE_NAMES=x", "Y_POSSIBLE_NAMES=y", "KEEP_GEOM_COLUMNS=NO", "AUTODETECT_TYPE=YES") for word in ("-oo", option)]
        subprocess.run(["ogr2ogr", "-append", "-update", path, f"{folder}/p.csv", *options, "-a_srs", system, "-nln", "sheet_rows"], capture_output=True, check=True)
    elif name == "warp":
        pixel = (frame.max_x - frame.min_x) / 1000 / frame.tile_width / (frame.matrix_width << frame.levels - 1)
        with open(f"{folder}/r.png", "wb") as picture:
            picture.write(png(rng.randrange(200), 100))
        west, north = (bound / 1000 + sign * pixel * (rng.randrange(400) + 0.5) for bound, sign in ((frame.min_x, 1), (frame.max_y, -1)))
        with open(f"{folder}/r.wld", "w", encoding="utf-8") as text:
            text.write(f"{pixel}\n0\n0\n{-pixel}\n{west}\n{north}\n")
        system = f"EPSG:{frame.srs}"
        subprocess.run(["gdalwarp", "-q", "-s_srs", system, "-t_srs", system, f"{folder}/r.png", path], capture_output=True, check=False)
    else:
        subprocess.run(["gdaladdo", "-q", path, str(rng.choice([2, 2, 8]))], capture_output=True, check=False)
    done["gdal " + name] += 1


# ---- home again


class Home:
    """What is done with a list, by the program and by the second machine."""

    def __init__(self, register, package):
        self.register, self.package, self.world = register, package, register.world

    def prints(self, verb, *options, held, text, status=0):
        """That the program prints this of a list."""
        self.register.script.run(" ".join([verb, "maps", self.package, "--at", AT, *options]), text, status, held)
        done[f"{verb} {'refused' if status else ' '.join(options)}".strip()] += 1

    def asked(self, held, more=False):
        """The requests of the second machine, or the text by which it refuses."""
        try:
            return changes_of_words(self.world, self.package, AT, held, more).requests
        except Refused as why:
            done["refused: " + str(why.args[0]).split(" ", 1)[0]] += 1
            return "refused: " + "".join(f"{line}\n" for line in why.args)

    def looks(self, held, more=False):
        """What would be done, by `changes` or a dry run, as a list or as a line."""
        requests, options = self.asked(held, more), ["--more"] if more else []
        verb, *shown = self.register.rng.choice([("changes",), ("changes",), ("changes", "--summary"), ("bring", "--dry-run"), ("bring", "--dry-run", "--summary")])
        if isinstance(requests, str):
            self.prints(verb, *options, *shown, held=held, text=requests, status=1)
        else:
            self.prints(verb, *options, *shown, held=held, text=summary_of(requests) if "--summary" in shown else list_of(requests))
        return requests

    def brings(self, held, more=False):
        """The same, carried out. Answers whether anything was done."""
        requests, options = self.asked(held, more), ["--more"] if more else []
        if isinstance(requests, str):
            self.prints("bring", *options, held=held, text=requests, status=1)
            return False
        lines = [report_line(number, request, apply(self.world, request)) for number, request in enumerate(requests, 1)]
        self.prints("bring", *options, held=held, text=f"{REPORT_HEADER}\n{''.join(lines)}")
        done["requests"] += len(requests)
        return requests != []

    def compare(self):
        """That each package holds what the second machine's holds, and the account is good."""
        for uuid, package in sorted(self.world.packages.items()):
            self.register.script.run(f"manifest maps {uuid}", manifest(package))
        self.register.script.run("audit maps", f"good {len(self.world.receipts)}\n")


def anonymous(held):
    """The same holdings as of another program: without package and identities."""
    records = [record for record in csv.reader(io.StringIO(held.decode(), newline="")) if record[0] != "package"]
    at = COLUMNS.index("identity")
    named = [record[:at] + ([""] if record[0] != "kind" else record[at : at + 1]) + record[at + 1 :] for record in records[:-1]]
    return "".join(map(spelled_record, [*named, ["end", len(named) - 1] + [""] * (len(COLUMNS) - 2)])).encode()


def spoiled(rng, held):
    """A list that was cut, or has a record less, twice, or two exchanged."""
    lines = held.splitlines(keepends=True)
    at = rng.randrange(len(lines))
    return rng.choice([held[: rng.randrange(len(held))], b"".join(lines[:at] + lines[at + 1 :]), b"".join(lines[:at] + lines[at : at + 1] + lines[at:])])


def mend(path, told):
    """Deletes what was told, as a crew does; not where the frame itself is no frame."""
    lines = [line.split(" ") for line in told.splitlines()[1:]]
    if any(kind not in TABLES for kind, *_ in lines):
        return False
    db = sqlite3.connect(path)
    with_index = db.execute("SELECT count(*) FROM sqlite_master WHERE name LIKE 'rtree%'").fetchone()[0]
    if with_index:
        db.create_function("ST_IsEmpty", 1, lambda blob: 0)
    for kind, number, _ in lines:
        db.execute(f"DELETE FROM {TABLES[kind]} WHERE id = ?", (int(number),))
    db.commit()
    db.close()
    done["mended"] += 1
    return True


def come_home(rng, register, package, held, path, holds):
    home = Home(register, package)
    asked = home.looks(held)
    if isinstance(asked, str) and asked.startswith("refused: items\n") and mend(path, asked):
        held = read_export(path)
        compare(holds, path, held)
        home.looks(held)
    if rng.random() < 0.2:
        home.looks(spoiled(rng, held))
    if rng.random() < 0.2:
        home.looks(held, more=True)
    was_changed = home.brings(held)
    if was_changed and rng.random() < 0.5:
        home.brings(held)
    if rng.random() < 0.3:
        home.compare()
    register.exported(package, path)
    again = listed_by(holds, path)
    assert home.looks(again) == [] and (not was_changed or bag_of(again) == bag_of(held)), "the export of what came home"
    if rng.random() < 0.3:
        home.looks(anonymous(again), more=True)
    done["home again"] += 1


def bag_of(held):
    """The contents of a list, without numbers and names, and how many links of each mapping."""
    ends = [COLUMNS.index(name) for name in ("number", "identity", "other")]
    records = csv.reader(io.StringIO(held.decode(), newline=""))
    return Counter(tuple("" if at in ends or record[0] in ENDS else field for at, field in enumerate(record)) + (record[0],) for record in records if record[0] not in ("package", "end", "frame"))


# ---- rounds


def go_round(rng, register, holds, room, with_gdal):
    package = ARCHIVE if rng.random() < 0.7 else rng.choice(sorted(register.world.packages))
    path = os.path.join(room, "crew.gpkg")
    register.exported(package, path)
    compare(holds, path, read_export(path))
    for _ in range(rng.choice([1, 3, 10])):
        if with_gdal and rng.random() < 0.7:
            edit_by_gdal(rng, register, path, room)
        else:
            edit_by_sql(rng, register, path)
    wanted = read_export(path)
    compare(holds, path, wanted)
    done["rounds"] += 1
    done["records"] += wanted.count(b"\n") - 2
    done["bad records"] += wanted.count(b"\nbad,")
    come_home(rng, register, package, wanted, path, holds)


def go_rounds(rng, sheetdesk, holds, room, with_gdal, count):
    """So many, with one register."""
    register = Register(rng, room, with_gdal)
    for _ in range(count):
        go_round(rng, register, holds, room, with_gdal)
    Home(register, ARCHIVE).compare()
    register.script.carry_out(sheetdesk)


# ---- points of any doubles


def any_double(rng):
    way = rng.randrange(8)
    if way == 0:
        return rng.randrange(-(10**12), 10**12 + 1) / 1000
    if way == 1:
        return (rng.randrange(-(10**6), 10**6) * 2 + 1) / 16 * 0.125
    if way == 2:
        tie = struct.unpack("<q", struct.pack("<d", (rng.randrange(-(10**10), 10**10) + 0.5) / 1000))[0]
        return struct.unpack("<d", struct.pack("<q", tie + rng.randrange(-2, 3)))[0]
    if way == 3:
        return rng.uniform(-1e9, 1e9)
    if way == 4:
        return rng.uniform(-1, 1) * 10.0 ** rng.randrange(-320, 16)
    if way == 5:
        return rng.choice([0.0, -0.0, 0.0005, -0.0005, 5e-324, -5e-324, 2.0**52, 2.0**52 - 0.5, 0.5 - 2.0**52, 2.2250738585072014e-308, 0.001, 0.0015])
    return float(rng.randrange(-(10**9), 10**9)) if way == 6 else struct.unpack("<d", rng.randbytes(8))[0]


def go_over_points(rng, holds, room, count):
    register = Register(rng, room, False)
    path = os.path.join(room, "points.gpkg")
    register.exported(ARCHIVE, path)
    db = sqlite3.connect(path)
    for _ in range(count):
        geometry = blob_of(register.frame.srs, any_double(rng), any_double(rng), rng.random() < 0.5, rng.randrange(5))
        db.execute("INSERT INTO sheet_rows (geom) VALUES (?)", (geometry,))
    db.commit()
    db.close()
    compare(holds, path, read_export(path))
    done["points"] += count


# ---- tables of other programs


def in_capitals(name):
    """In another case, as SQLite compares names: letters of ASCII alone."""
    return "".join(letter.upper() if letter.isascii() else letter for letter in name)


def stock_file(rng, path, tiles, points):
    """A file of these tables, with columns by these names, whose words have other cases in the tables of contents."""
    table, geometry, code, label = map(holding.name, points)
    db = sqlite3.connect(path)
    db.executescript(
        "CREATE TABLE gpkg_spatial_ref_sys (srs_name TEXT, srs_id INTEGER PRIMARY KEY, organization TEXT, organization_coordsys_id INTEGER, definition TEXT, description TEXT);"
        "INSERT INTO gpkg_spatial_ref_sys VALUES ('a', 7, 'EPSG', 31466, '', ''), ('b', -1, 'NONE', -1, '', ''), ('c', 9, 'other', 9, '', '');"
        "CREATE TABLE gpkg_geometry_columns (table_name TEXT, column_name TEXT, geometry_type_name TEXT, srs_id INTEGER, z INTEGER, m INTEGER);"
        "CREATE TABLE gpkg_tile_matrix_set (table_name TEXT, srs_id INTEGER, min_x DOUBLE, min_y DOUBLE, max_x DOUBLE, max_y DOUBLE);"
        "CREATE TABLE gpkg_tile_matrix (table_name TEXT, zoom_level INTEGER, matrix_width INTEGER, matrix_height INTEGER, tile_width INTEGER, tile_height INTEGER,"
        " pixel_x_size DOUBLE, pixel_y_size DOUBLE);"
        f"CREATE TABLE {holding.name(tiles)} (id INTEGER PRIMARY KEY, zoom_level INTEGER, tile_column INTEGER, tile_row INTEGER, tile_data BLOB);"
        f"CREATE TABLE {table} ({code} ANY, {label} ANY, {geometry} BLOB);"
    )
    srs = rng.choice([7, -1, 9])
    db.execute("INSERT INTO gpkg_geometry_columns VALUES (?, ?, 'POINT', ?, 0, 0)", (in_capitals(points[0]), points[1], srs))
    db.execute("INSERT INTO gpkg_tile_matrix_set VALUES (?, ?, 1000.5, 0, 0, 2000)", (in_capitals(tiles), rng.choice([7, -1, 9])))
    for zoom in range(3):
        size = 2.5 * 2 ** (2 - zoom)
        db.execute("INSERT INTO gpkg_tile_matrix VALUES (?, ?, ?, 1, 256, 512, ?, ?)", (in_capitals(tiles), zoom + 5, rng.choice([1, 3, 4]), size, size))
        db.execute(f"INSERT INTO {holding.name(tiles)} VALUES (NULL, ?, 0, ?, ?)", (zoom + 5, zoom, rng.choice([b"\0\x89", b"", "text"])))
    for _ in range(20):
        values = rng.choice([1, 2.0, "33", None, "x"]), rng.choice(LABELS), blob_of(rng.choice([srs, srs, 3]), any_double(rng), any_double(rng), rng.random() < 0.5)
        db.execute(f"INSERT INTO {table} VALUES (?, ?, ?)", values)
    db.commit()
    db.close()


def read_stock(path, tiles, points):
    db = sqlite3.connect(path)
    reading = Reading(db)
    srs = points_system(db, *points[:2]) if points else None
    if srs is not None:
        number = system_of(db, srs)
        reading.put("system", -2 if number is None else number)
    if tiles:
        reading.pyramid(tiles)
        reading.tiles(tiles)
    if points:
        table, geometry, code, label = map(holding.name, points)
        reading.rows(f"SELECT rowid, {geometry}, {code}, {label}, NULL FROM {table} ORDER BY rowid", srs)
    db.close()
    return reading.text()


def go_over_stock(rng, sheetdesk, room):
    letters = ["a", "Z", '"', "'", "`", "]", ";", "--", " ", "/*", "\n", "ä", "%", "x"]
    words = ["".join(rng.choices(letters, k=rng.randrange(1, 8))) + str(number) for number in range(5)]
    tiles, points = words[0], tuple(words[1:])
    path = os.path.join(room, "stock.gpkg")
    stock_file(rng, path, tiles, points)
    for given in [(tiles, points), (tiles, None), (None, points)]:
        options = [] if given[0] is None else [f"--tiles={given[0]}"]
        if given[1] is not None:
            options += [f"--{option}={word}" for option, word in zip(("points", "geometry", "code", "label"), points)]
        text = subprocess.run([sheetdesk, "holds", *options], stdout=subprocess.PIPE, check=True).stdout
        assert text.decode() == holding.stock(*given), given
        compare(text, path, read_stock(path, *given))
        done["stock files"] += 1


def main():
    words = [word for word in sys.argv[1:] if word != "--gdal"]
    rounds, seed = int(words[0]) if words else 200, int(words[1]) if len(words) > 1 else 1
    with_gdal = "--gdal" in sys.argv and shutil.which("ogrinfo") is not None
    sheetdesk = program()
    holds = subprocess.run([sheetdesk, "holds"], stdout=subprocess.PIPE, check=True).stdout
    assert holds.decode() == holding.own(), "the text of holds"
    for number in range(0, rounds, 5):
        rng = random.Random(seed * 1_000_003 + number)
        with tempfile.TemporaryDirectory() as room:
            try:
                go_rounds(rng, sheetdesk, holds, room, with_gdal and number % 20 == 0, min(5, rounds - number))
                if number % 10 == 0:
                    go_over_stock(rng, sheetdesk, room)
            except BaseException:
                print(f"a round from {number} on, of seed {seed}: {done['rounds']} in all", file=sys.stderr)
                raise
    with tempfile.TemporaryDirectory() as room:
        go_over_points(random.Random(seed), holds, room, rounds * 20)
    print(", ".join(f"{name} {count}" for name, count in sorted(done.items())))


if __name__ == "__main__":
    main()
