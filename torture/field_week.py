#!/usr/bin/env python3
"""What the crew of docs/FIELDWORK.md does in QGIS: a label is edited, a mark deleted, a mark drawn, a photograph taken and linked with it.

Usage: /usr/bin/python3 torture/field_week.py PROJECT    (it wants Debian's python3-qgis)
"""

import gc
import os
import sys

os.environ.setdefault("QT_QPA_PLATFORM", "offscreen")

from qgis.core import QgsApplication, QgsGeometry, QgsPointXY, QgsProject, QgsVectorLayerUtils
from qgis.PyQt.QtCore import QByteArray


def feature(layer, geometry=None, **fields):
    """As a tool for drawing or a form makes it, with the defaults that the file names."""
    return QgsVectorLayerUtils.createFeature(layer, geometry or QgsGeometry(), {layer.fields().indexOf(name): value for name, value in fields.items()})


def saved(layer, *edits):
    """An editing session with these edits."""
    assert layer.startEditing()
    for edit in edits:
        assert edit()
    assert layer.commitChanges(), layer.commitErrors()


def a_week(layers):
    marks, media, links = (layers[f"layer_{table}"] for table in ("sheet_rows", "sheet_media", "rows_media"))
    number = {mark["label"]: mark.id() for mark in marks.getFeatures()}
    dock = feature(marks, QgsGeometry.fromPointXY(QgsPointXY(500160, 5900136)), code=350, label="new dock")
    saved(
        marks,
        lambda: marks.changeAttributeValue(number["light"], marks.fields().indexOf("label"), "light, white flash"),
        lambda: marks.deleteFeature(number["gauge"]),
        lambda: marks.addFeature(dock),
    )
    saved(media, lambda: media.addFeature(feature(media, data=QByteArray(b"\xff\xd8\xff\xe0the new dock"))))
    ends = {"base_id": max(mark.id() for mark in marks.getFeatures()), "related_id": max(medium.id() for medium in media.getFeatures())}
    saved(links, lambda: links.addFeature(feature(links, **ends)))


def main():
    application = QgsApplication([], True)
    application.initQgis()
    project = QgsProject.instance()
    assert project.read(sys.argv[1]) and project.error() == "", project.error()
    a_week(project.mapLayers())
    project.clear()
    gc.collect()
    # what QGIS takes down at its end may crash, after all is saved
    sys.stdout.flush()
    os._exit(0)


if __name__ == "__main__":
    if len(sys.argv) != 2:
        sys.exit(__doc__)
    try:
        main()
    except BaseException:
        import traceback

        traceback.print_exc()
        os._exit(1)
