#!/usr/bin/env python3
"""A crew's round in a real QGIS, and home again; what GDAL writes into an export; what the project beside it opens, and
what its forms offer.

Usage: /usr/bin/python3 torture/field_qgis.py [--pictures FOLDER] [--sittings COUNT [SEED]]
       SHEETDESK=PROGRAM ..    over another program than the proved one

It wants Debian's python3-qgis, gdal-bin and sqlite3. Every edit goes through QGIS's own editing sessions and forms, in a process without
windows. After the round come sittings of random edits (10 where no number is given), each brought home. The program makes the register, exports, and brings home; what it prints has to be what the second machine prints. With --pictures
the sheets and marks are drawn by QGIS before the round and after it, and kept as field-before.png and field-after.png. Status 0 where all of
it came home.

SQLite's locks are a process's own: one that opens and closes a file by itself takes from QGIS the locks that it has there. So while QGIS has
a file open, other processes look at it.
"""

import gc
import os
import random
import subprocess
import sys
import tempfile
import time

os.environ.setdefault("QT_QPA_PLATFORM", "offscreen")

from qgis.core import (
    Qgis, QgsApplication, QgsFeatureRequest, QgsGeometry, QgsMapRendererParallelJob, QgsMapSettings, QgsPointXY, QgsProcessingFeedback,
    QgsProject, QgsRectangle, QgsVectorLayerUtils,
)
from qgis.gui import QgsAttributeEditorContext, QgsAttributeForm, QgsGui, QgsRelationReferenceWidget
from qgis.PyQt.QtCore import NULL, QByteArray, QEvent, QSize
from qgis.PyQt.QtWidgets import QComboBox, QDialogButtonBox

TOP = os.path.dirname(os.path.dirname(os.path.abspath(__file__)))
sys.path[:0] = [os.path.join(TOP, "samples")]
sys.dont_write_bytecode = True

from field_pictures import colour, dock, png, tiff
from machine.changing import changes_of_words, key_of, list_of
from machine.exports import export
from machine.frames import Frame
from machine.held_lists import read_held
from machine.lists import HEADER, read_requests, spelled_record
from machine.projects import project
from machine.world import Receipt, World, apply, audit

ARCHIVE = "a0000000-0000-4000-8000-000000000000"
AT = "2026-05-04T07:30:00.000Z"
FRAME = "25832,500000000,5900000000,500512000,5900512000,256,256,0,2,1,1"
FRAME_OF = Frame.read(FRAME)
messages = []


def sheet(place):
    ground = FRAME_OF.ground(*place)
    west, north, pixel = (ground.west - FRAME_OF.min_x) / 1000, (ground.north - FRAME_OF.min_y) / 1000, (ground.east - ground.west) / 256_000
    return png(256, lambda column, row: colour(west + (column + 0.5) * pixel, north - (row + 0.5) * pixel))


# ---- the program, and the second machine beside it


def uuid_of(number):
    return f"00000000-0000-4000-8000-{number:012}"


def program():
    named = os.environ.get("SHEETDESK")
    return named or subprocess.run([os.path.join(TOP, "sheetdesk"), "--built"], stdout=subprocess.PIPE, check=True).stdout.decode().strip()


class Register:
    """A folder of the program, and the world of the second machine."""

    def __init__(self, room, requests):
        self.program, self.room, self.folder = program(), room, os.path.join(room, "maps")
        self.world = World(ARCHIVE, FRAME_OF)
        os.mkdir(self.folder)
        self.run("init", self.folder, "--archive", ARCHIVE, "--at", AT, "--frame", FRAME)
        listed = spelled_record(HEADER) + "".join(spelled_record([request.get(name, "") for name in HEADER]) for request in requests)
        with open(os.path.join(room, "first.csv"), "w", encoding="utf-8") as out:
            out.write(listed)
        for request in read_requests(listed.encode()):
            assert isinstance(apply(self.world, request), Receipt), request
        self.run("import", self.folder, os.path.join(room, "first.csv"))

    def run(self, *words, given=b""):
        done = subprocess.run([self.program, *words], input=given, capture_output=True, check=False)
        assert done.returncode == 0, (words, done.stdout[-300:], done.stderr[-300:])
        return done.stdout

    def file(self, name="crew.gpkg"):
        """The export, as a file; and the project beside it."""
        path = os.path.join(self.room, name)
        for end in ("", "-wal", "-shm", "-journal"):
            if os.path.exists(path + end):
                os.remove(path + end)
        text = self.run("export", self.folder, ARCHIVE)
        assert text.decode() == export(FRAME_OF, self.world.packages[ARCHIVE], self.world.tickets[ARCHIVE])
        subprocess.run(["sqlite3", "-bail", path], input=text, check=True)
        told = self.run("export", self.folder, ARCHIVE, "--qgis", name)
        assert told.decode() == project(FRAME_OF, name)
        with open(path.removesuffix(".gpkg") + ".qgs", "wb") as out:
            out.write(told)
        return path

    def listed(self, path):
        return subprocess.run(["sqlite3", path], input=self.run("holds"), stdout=subprocess.PIPE, check=True).stdout

    def bring(self, path):
        """Brings a file home; the requests."""
        held = self.listed(path)
        requests = changes_of_words(self.world, ARCHIVE, AT, held).requests
        shown = self.run("changes", self.folder, ARCHIVE, "--at", AT, given=held)
        assert shown.decode() == list_of(requests)
        report = self.run("bring", self.folder, ARCHIVE, "--at", AT, given=held).decode().splitlines()[1:]
        assert [line.split(",")[3] for line in report] == ["0"] * len(requests), report
        assert all(isinstance(apply(self.world, request), Receipt) for request in requests)
        audit(self.world)
        assert self.run("audit", self.folder).decode() == f"good {len(self.world.receipts)}\n"
        return requests

    def refused(self, path):
        """The lines of a refusal."""
        done = subprocess.run([self.program, "bring", self.folder, ARCHIVE, "--at", AT], input=self.listed(path), capture_output=True, check=False)
        assert done.returncode == 1, done
        return done.stdout.decode().splitlines()


PLACES = [(0, 0, 0), (1, 0, 0), (1, 1, 0), (1, 0, 1), (1, 1, 1)]
MARKS = [(96.5, 402.25, 110, "trig. point"), (300, 196, 210, "light, white flash"), (340.125, 247, 310, "gauge"), (402, 268, 340, "slip"), (160, 250, 120, "church, tower")]


def first_requests():
    items = [{"kind": "tile", "zoom": zoom, "column": column, "row": row, "data": sheet((zoom, column, row)).hex()} for zoom, column, row in PLACES]
    for x, y, code, label in MARKS:
        items.append({"kind": "row", "x": FRAME_OF.min_x + round(x * 1000), "y": FRAME_OF.min_y + round(y * 1000), "code": code, "text": label})
    items.append({"kind": "media", "text": "image/png", "data": png(16, lambda column, row: (column * 16, row * 16, 90)).hex()})
    requests = [{"command": "add", "identity": uuid_of(number), **item} for number, item in enumerate(items, 1)]
    light, photo, town = uuid_of(7), uuid_of(11), uuid_of(4)
    requests += [{"command": "link", "kind": "rows_media", "identity": light, "other": photo}, {"command": "link", "kind": "rows_tiles", "identity": light, "other": town}]
    return [{"request": uuid_of(900 + number), "at": AT, "package": ARCHIVE, **request} for number, request in enumerate(requests)]


# ---- QGIS


class Opened:
    """The project, its layers by their tables."""

    def __init__(self, path):
        messages.clear()
        self.project = QgsProject.instance()
        assert self.project.read(path.removesuffix(".gpkg") + ".qgs") and self.project.error() == "" and messages == [], messages
        self.layers = {name.removeprefix("layer_"): layer for name, layer in self.project.mapLayers().items()}

    def __enter__(self):
        return self

    def __exit__(self, *_):
        self.layers.clear()
        self.project.clear()
        gc.collect()

    def __getitem__(self, table):
        return self.layers[table]


def point(x, y):
    """In metres from the south-west corner."""
    return QgsGeometry.fromPointXY(QgsPointXY(FRAME_OF.min_x / 1000 + x, FRAME_OF.min_y / 1000 + y))


def feature(layer, geometry=None, **fields):
    """As a tool for drawing or a form makes it, with the defaults that the file names."""
    return QgsVectorLayerUtils.createFeature(layer, geometry or QgsGeometry(), {layer.fields().indexOf(name): value for name, value in fields.items()})


def numbers(layer):
    return sorted(each.id() for each in layer.getFeatures())


def mark_of(layer, label):
    return next(each for each in layer.getFeatures() if each["label"] == label)


def drawn(path, out):
    """The marks over the sheets, as QGIS draws them; how many colours there are."""
    with Opened(path) as opened:
        words = QgsMapSettings()
        words.setLayers([opened["sheet_rows"], opened["sheet_tile_identity"], opened["sheet_tiles"]])
        words.setExtent(opened["sheet_tiles"].extent())
        words.setOutputSize(QSize(512, 512))
        words.setDestinationCrs(opened.project.crs())
        job = QgsMapRendererParallelJob(words)
        job.start()
        job.waitForFinished()
        assert not job.errors(), [each.message for each in job.errors()]
        image = job.renderedImage()
        del job
    assert image.save(out) and os.path.getsize(out) < 100_000, os.path.getsize(out)
    return len({image.pixel(x, y) for x in range(0, 512, 4) for y in range(0, 512, 4)})


def adding_form(layer, geometry=None):
    """The form of a new feature, shown."""
    form = QgsAttributeForm(layer, feature(layer, geometry), QgsAttributeEditorContext())
    form.setMode(QgsAttributeEditorContext.AddFeatureMode)
    form.show()
    QgsApplication.processEvents()
    return form


def let_go(form):
    """Takes a form down at once: one that outlived its project would crash QGIS."""
    form.close()
    form.deleteLater()
    QgsApplication.sendPostedEvents(None, QEvent.DeferredDelete)


def look_at_project(path):
    """Seven layers and six relations; a form for each table that is edited, saved by its own button."""
    with Opened(path) as opened:
        assert len(opened.layers) == 7 and all(layer.isValid() for layer in opened.layers.values())
        assert opened.project.crs().authid() == "EPSG:25832"
        relations = opened.project.relationManager().relations().values()
        assert len(relations) == 6 and all(relation.isValid() for relation in relations)
        saved = {}
        for table in ("sheet_rows", "sheet_media", "rows_media", "tiles_media", "rows_tiles"):
            layer = opened[table]
            assert layer.startEditing()
            before = layer.featureCount()
            form = adding_form(layer, point(10, 10) if table == "sheet_rows" else None)
            form.save()
            saved[table] = layer.featureCount() - before
            let_go(form)
            assert layer.rollBack()
        # a medium without a file is not saved, nor is a link of which no end is chosen
        assert saved == {"sheet_rows": 1, "sheet_media": 0, "rows_media": 0, "tiles_media": 0, "rows_tiles": 0}, saved
    print("project: 7 layers, 6 relations, 5 forms")


def offered(form, relation, count):
    """The list that a form shows for this relation, once its entries are there: QGIS reads them by a thread."""
    widgets = form.findChildren(QgsRelationReferenceWidget)
    shown = [each for each in widgets if each.relation().id() == relation and each.isVisible()]
    assert len(shown) == 1, (relation, len(shown))
    boxes = [each for each in shown[0].findChildren(QComboBox) if each.isVisible()]
    assert len(boxes) == 1, (relation, len(boxes))
    for _ in range(500):
        QgsApplication.processEvents()
        if boxes[0].count() == count:
            break
        time.sleep(0.02)
    return boxes[0]


# How a list names a row.
NAMED = {
    "sheet_rows": lambda each: f"{each.id()}: {'' if each['label'] == NULL else each['label']}",
    "sheet_media": lambda each: f"{each.id()}: {each['content_type']}",
    "sheet_tile_identity": lambda each: f"{each.id()}: {each['zoom_level']}, {each['tile_column']}, {each['tile_row']}",
}
ENDS = {
    "rows_media": ("sheet_rows", "sheet_media"),
    "tiles_media": ("sheet_tile_identity", "sheet_media"),
    "rows_tiles": ("sheet_rows", "sheet_tile_identity"),
}


def link_by_form(opened, table):
    """A link by its form alone: each end is offered by its number and a word, none blank; what is chosen is in the file."""
    links = opened[table]
    assert links.startEditing()
    form = adding_form(links)
    confirm = next(box.button(QDialogButtonBox.Ok) for box in form.findChildren(QDialogButtonBox))
    wanted = {}
    for field, end in zip(("base_id", "related_id"), ENDS[table]):
        names = [NAMED[end](each) for each in opened[end].getFeatures()]
        box = offered(form, f"{table}_{field}", len(names) + 1)
        texts = [box.itemText(index) for index in range(box.count())]
        # before one is chosen the first stands there, and the link cannot be saved
        assert texts[0] == box.currentText() == QgsApplication.nullRepresentation() and not confirm.isEnabled(), (table, field, texts)
        assert sorted(texts[1:]) == sorted(names), (table, field, texts)
        chosen = max(texts[1:], key=lambda text: int(text.split(":")[0]))
        box.setCurrentIndex(texts.index(chosen))
        QgsApplication.processEvents()
        assert box.currentText() == chosen
        wanted[field] = int(chosen.split(":")[0])
    assert confirm.isEnabled()
    before = {each.id() for each in links.getFeatures()}
    assert form.save()
    let_go(form)
    assert links.commitChanges(), links.commitErrors()
    (made,) = [each for each in links.getFeatures() if each.id() not in before]
    assert {field: made[field] for field in wanted} == wanted, (table, made.attributes(), wanted)


def by_lists(register):
    """A link of each kind, chosen from the lists of its form. Of two marks one has an empty label, and one has none."""
    path = register.file("lists.gpkg")
    with Opened(path) as opened:
        marks, media = opened["sheet_rows"], opened["sheet_media"]
        assert marks.startEditing() and all(marks.addFeature(feature(marks, point(x, 30), label="")) for x in (20, 21)) and marks.commitChanges(False)
        assert marks.changeAttributeValue(max(numbers(marks)), marks.fields().indexOf("label"), None) and marks.commitChanges(), marks.commitErrors()
        assert media.startEditing() and all(media.addFeature(feature(media, data=QByteArray(b"\xff\xd8%d" % number))) for number in range(12))
        assert media.commitChanges(), media.commitErrors()
        for table in ENDS:
            link_by_form(opened, table)
        del marks, media
    asked = [request["command"] for request in register.bring(path)]
    assert sorted(asked) == ["add"] * 14 + ["link"] * 3, asked
    print("lists: 6, each entry by its number and a word; 3 links chosen from them came home")


def edit_marks(marks):
    """A label, a new mark, one deleted, one copied and pasted, one moved."""
    assert marks.startEditing()
    light = mark_of(marks, "light, white flash")
    assert marks.changeAttributeValue(light.id(), marks.fields().indexOf("label"), "light, white flash, 6 s")
    assert marks.addFeature(feature(marks, point(160.0004, 136), code=350, label="new dock"))
    assert marks.deleteFeature(mark_of(marks, "gauge").id())
    church = mark_of(marks, "church, tower")
    assert marks.addFeature(QgsVectorLayerUtils.createFeature(marks, church.geometry(), dict(enumerate(church.attributes()))))
    assert marks.changeGeometry(mark_of(marks, "slip").id(), point(404, 269.5))
    assert marks.commitChanges(), marks.commitErrors()


def add_photograph(opened):
    """A file embedded, and linked with the new mark and with the sheet below it, whose number the map gives."""
    marks, media, outlines = opened["sheet_rows"], opened["sheet_media"], opened["sheet_tile_identity"]
    assert media.startEditing() and media.addFeature(feature(media, data=QByteArray(b"\xff\xd8\xff\xe0the new dock"))) and media.commitChanges()
    dock, photo = mark_of(marks, "new dock"), max(numbers(media))
    spot = dock.geometry().asPoint()
    below = outlines.getFeatures(QgsFeatureRequest().setFilterRect(QgsRectangle(spot.x(), spot.y(), spot.x() + 0.01, spot.y() + 0.01)))
    town = max(below, key=lambda each: each["zoom_level"])
    for table, base in (("rows_media", dock.id()), ("tiles_media", town.id())):
        links = opened[table]
        assert links.startEditing() and links.addFeature(feature(links, base_id=base, related_id=photo)) and links.commitChanges()


def survey_again(room, path):
    """The dock comes as a picture of 80 metres, by GDAL: the tile below it is written anew, and gets another number."""
    picture = os.path.join(room, "dock.png")
    with open(picture, "wb") as out:
        out.write(png(80, dock))
    with open(os.path.join(room, "dock.wld"), "w", encoding="utf-8") as out:
        out.write("1\n0\n0\n-1\n500120.5\n5900175.5\n")
    subprocess.run(["gdalwarp", "-q", "-s_srs", "EPSG:25832", "-t_srs", "EPSG:25832", "-doo", "TILE_FORMAT=PNG", picture, path], check=True, capture_output=True)


def wanted_contents(marks, dock_at):
    """The codes, labels and places of marks after the round, written out by hand."""
    changed = {"light, white flash": (300, 196, 210, "light, white flash, 6 s"), "slip": (404, 269.5, 340, "slip"), "gauge": None}
    left = [changed.get(mark[3], mark) for mark in marks]
    rows = [mark for mark in left if mark] + [marks[4], (*dock_at, 350, "new dock")]
    return sorted((FRAME_OF.min_x + round(x * 1000), FRAME_OF.min_y + round(y * 1000), code, label) for x, y, code, label in rows)


def a_round(register, pictures):
    path = register.file()
    look_at_project(path)
    assert register.bring(path) == []
    before = drawn(path, os.path.join(pictures, "field-before.png"))
    path = register.file()
    with Opened(path) as opened:
        edit_marks(opened["sheet_rows"])
        add_photograph(opened)
    survey_again(register.room, path)
    requests = register.bring(path)
    counts = {command: sum(request["command"] == command for request in requests) for command in ("unlink", "delete", "add", "link")}
    # changed: the light (two links), the slip, the sheet (a link of the light); gone: the gauge; new: dock, church, photograph, two links
    assert counts == {"unlink": 2, "delete": 4, "add": 6, "link": 4}, counts
    rows = [item for item in register.world.packages[ARCHIVE].items.values() if item["kind"] == "row"]
    assert sorted((row["x"], row["y"], row["code"], row["text"]) for row in rows) == wanted_contents(MARKS, (160, 136))
    held = read_held(register.listed(path))
    again = register.file("again.gpkg")
    back = read_held(register.listed(again))
    assert sorted(map(repr, (key_of(item.content) for item in held.items.values()))) == sorted(map(repr, (key_of(item.content) for item in back.items.values())))
    assert len(held.links) == len(back.links) and register.bring(again) == []
    after = drawn(again, os.path.join(pictures, "field-after.png"))
    print("round:", ", ".join(f"{count} {command}" for command, count in counts.items()), f"- {before} colours before, {after} after")


def what_is_told(register):
    """QGIS itself refuses a code that is NULL; what it takes and the register cannot hold is told by its number."""
    path = register.file("told.gpkg")
    with Opened(path) as opened:
        marks = opened["sheet_rows"]
        code, label = (marks.fields().indexOf(name) for name in ("code", "label"))
        one, two, three = numbers(marks)[:3]
        assert marks.startEditing() and marks.changeAttributeValue(one, code, None) and not marks.commitChanges() and marks.rollBack()
        assert marks.startEditing() and marks.changeAttributeValue(one, code, 1_000_000) and marks.changeAttributeValue(two, label, "two\nlines")
        assert marks.changeGeometry(three, point(-1, 0)) and marks.addFeature(feature(marks, label="nowhere")) and marks.commitChanges()
        nowhere = max(numbers(marks))
    told = register.refused(path)
    assert told == ["refused: items", f"row {nowhere} geometry", f"row {one} code", f"row {two} text", f"row {three} point"], told
    with Opened(path) as opened:
        marks = opened["sheet_rows"]
        assert marks.startEditing() and marks.deleteFeatures([one, two, three, nowhere]) and marks.commitChanges()
    requests = register.bring(path)
    assert {request["command"] for request in requests} <= {"unlink", "delete"} and len(requests) >= 3
    print("told: 4 marks by their numbers; deleted in QGIS, and home")


def copied_without_log(register):
    """While two layers of a file are edited, what was saved stands beside it in the log: a copy of the file alone lacks it."""
    path = register.file("open.gpkg")
    alone = os.path.join(register.room, "alone.gpkg")
    with Opened(path) as opened:
        marks, media = opened["sheet_rows"], opened["sheet_media"]
        assert marks.startEditing() and media.startEditing()
        assert marks.changeAttributeValue(numbers(marks)[0], marks.fields().indexOf("label"), "saved") and marks.commitChanges()
        subprocess.run(["cp", path, alone], check=True)
        assert b'"saved"' not in register.listed(alone) and b'"saved"' in register.listed(path)
        assert media.rollBack()
        del marks, media
    subprocess.run(["cp", path, alone], check=True)
    assert b'"saved"' in register.listed(alone)
    print("copied: without its log it lacks what was saved; after QGIS let go it does not")


def by_merge(register):
    """The tool of QGIS's menus that writes a picture into the sheets of a file: only the tile below it is written."""
    sys.path.append(os.path.join(QgsApplication.pkgDataPath(), "python", "plugins"))
    import processing
    from processing.core.Processing import Processing

    Processing.initialize()
    path = register.file("merged.gpkg")
    picture = os.path.join(register.room, "merged.tif")
    tiff(picture, 300, 500, 64, dock)
    processing.run("gdal:merge", {"INPUT": [picture], "OUTPUT": path}, feedback=QgsProcessingFeedback())
    gc.collect()
    asked = [(request["command"], request.get("kind")) for request in register.bring(path)]
    assert asked == [("delete", ""), ("add", "tile")], asked
    print("merge: one tile came home")


def by_gdal(register):
    """Points that ogr2ogr appends: without -t_srs degrees stay degrees, which is told; with it they come home. A spatial index does no harm."""
    path = register.file("gdal.gpkg")
    points = os.path.join(register.room, "points.csv")
    with open(points, "w", encoding="utf-8") as out:
        out.write("lon,lat,code,label\n9.0015,53.2505,7,by ogr2ogr\n9.002,53.251,8,second\n")
    words = ["ogr2ogr", "-append", "-update", "-s_srs", "EPSG:4326", "-nln", "sheet_rows", "-oo", "X_POSSIBLE_NAMES=lon", "-oo", "Y_POSSIBLE_NAMES=lat",
             "-oo", "KEEP_GEOM_COLUMNS=NO", "-oo", "AUTODETECT_TYPE=YES"]
    subprocess.run([*words[:3], "-a_srs", "EPSG:4326", *words[5:], path, points], check=True, capture_output=True)
    told = register.refused(path)
    assert told[0] == "refused: items" and [line.split(" ")[2] for line in told[1:]] == ["point"] * 2, told
    path = register.file("gdal.gpkg")
    subprocess.run(["ogrinfo", "-q", path, "-update", "-sql", "SELECT CreateSpatialIndex('sheet_rows', 'geom')"], check=True, capture_output=True)
    subprocess.run([*words[:3], *words[3:], "-t_srs", "EPSG:25832", path, points], check=True, capture_output=True)
    assert [request["kind"] for request in register.bring(path)] == ["row", "row"]
    print("gdal: degrees are told; reprojected points and an index came home")


class Sitting:
    """Random edits, each in an editing session of its own; the names of the methods are those of the edits."""

    def __init__(self, rng, opened):
        self.rng, self.opened, self.marks = rng, opened, opened["sheet_rows"]

    def _save(self, layer, edit):
        assert layer.startEditing() and edit() and layer.commitChanges(), layer.commitErrors()

    def _some(self, layer):
        there = numbers(layer)
        return self.rng.choice(there) if there else None

    def _spot(self):
        return point(self.rng.uniform(1, 511), self.rng.uniform(1, 511))

    def _change(self, field, value):
        number = self._some(self.marks)
        if number is not None:
            self._save(self.marks, lambda: self.marks.changeAttributeValue(number, self.marks.fields().indexOf(field), value))

    def draw(self):
        self._save(self.marks, lambda: self.marks.addFeature(feature(self.marks, self._spot(), code=self.rng.randrange(9), label=self.rng.choice(["", "ä, \"b\"", "it's", "x" * 200]))))

    def draw_by_form(self):
        self._save(self.marks, lambda: self.marks.addFeature(feature(self.marks, self._spot())))

    def label(self):
        self._change("label", self.rng.choice(["a", "Höhe 3", "comma, and", None]))

    def code(self):
        self._change("code", self.rng.randrange(1_000_000))

    def forget(self):
        self._change("uuid", self.rng.choice([None, "nonsense", uuid_of(7).upper()]))

    def move(self):
        number = self._some(self.marks)
        if number is not None:
            self._save(self.marks, lambda: self.marks.changeGeometry(number, self._spot()))

    def delete(self):
        number = self._some(self.marks)
        if number is not None:
            self._save(self.marks, lambda: self.marks.deleteFeature(number))

    def paste(self):
        number = self._some(self.marks)
        if number is not None:
            old = self.marks.getFeature(number)
            self._save(self.marks, lambda: self.marks.addFeature(QgsVectorLayerUtils.createFeature(self.marks, old.geometry(), dict(enumerate(old.attributes())))))

    def give_up(self):
        assert self.marks.startEditing() and self.marks.addFeature(feature(self.marks, self._spot(), label="never")) and self.marks.rollBack()

    def save_and_go_on(self):
        assert self.marks.startEditing() and self.marks.addFeature(feature(self.marks, self._spot(), label="saved")) and self.marks.commitChanges(False)
        assert self.marks.deleteFeature(self._some(self.marks)) and self.marks.commitChanges()

    def photograph(self):
        media = self.opened["sheet_media"]
        self._save(media, lambda: media.addFeature(feature(media, data=QByteArray(self.rng.randbytes(9)))))

    def link(self):
        table, ends = self.rng.choice([*ENDS.items()])
        base, related = (self._some(self.opened[end]) for end in ends)
        if None not in (base, related):
            links = self.opened[table]
            self._save(links, lambda: links.addFeature(feature(links, base_id=base, related_id=related)))

    def unlink(self):
        links = self.opened[self.rng.choice(["rows_media", "tiles_media", "rows_tiles"])]
        number = self._some(links)
        if number is not None:
            self._save(links, lambda: links.deleteFeature(number))


EDITS = [name for name in vars(Sitting) if not name.startswith("_")]


def sittings(register, count, seed):
    rng, requests = random.Random(seed), 0
    for _ in range(count):
        path = register.file("sitting.gpkg")
        with Opened(path) as opened:
            sitting = Sitting(rng, opened)
            for name in rng.choices(EDITS, k=rng.randrange(1, 9)):
                getattr(sitting, name)()
            del sitting
        requests += len(register.bring(path))
        assert register.bring(register.file("sitting.gpkg")) == []
    print(f"sittings: {count}, {requests} requests, all accepted")


def main():
    given = sys.argv[sys.argv.index("--sittings") + 1 :] if "--sittings" in sys.argv else []
    count, seed = [*map(int, given[:2]), *[10, 1][len(given[:2]) :]]
    pictures = sys.argv[sys.argv.index("--pictures") + 1] if "--pictures" in sys.argv else None
    application = QgsApplication([], True)
    application.initQgis()
    QgsApplication.messageLog().messageReceived.connect(lambda text, tag, level: messages.append(text))
    QgsGui.editorWidgetRegistry().initEditors()
    print("QGIS", Qgis.QGIS_VERSION)
    with tempfile.TemporaryDirectory() as room:
        register = Register(room, first_requests())
        a_round(register, pictures or room)
        for trial in (by_merge, what_is_told, copied_without_log, by_gdal):
            trial(register)
        sittings(register, count, seed)
        by_lists(register)
    sys.stdout.flush()
    # what QGIS takes down at its end may crash, and has nothing to do with what was tried
    os._exit(0)


if __name__ == "__main__":
    try:
        main()
    except BaseException:
        import traceback

        traceback.print_exc()
        sys.stderr.flush()
        os._exit(1)
