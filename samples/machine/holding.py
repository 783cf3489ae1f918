"""The SQL that lists what a GeoPackage holds: that of an export stands in samples/holds.sql, and for another program's file its first tables are others."""

import os

HERE = os.path.dirname(os.path.abspath(__file__))
BEFORE = "CREATE TEMP VIEW sheet_matrix_set "
BEHIND = "CREATE TEMP VIEW read_places("
NOTHING = {
    "sheet_export": "'' AS package, 0 AS ticket",
    "sheet_tile_identity": "0 AS id, 0 AS zoom_level, 0 AS tile_column, 0 AS tile_row",
    "sheet_media": "0 AS id, x'' AS data, '' AS content_type, '' AS uuid",
    "tiles_media": "0 AS base_id, 0 AS related_id",
    "rows_media": "0 AS base_id, 0 AS related_id",
    "rows_tiles": "0 AS base_id, 0 AS related_id",
    "sheet_matrix_set": "0 AS srs_id, 0.0 AS min_x, 0.0 AS min_y, 0.0 AS max_x, 0.0 AS max_y",
    "sheet_matrix": "0 AS zoom_level, 0 AS matrix_width, 0 AS matrix_height, 0 AS tile_width, 0 AS tile_height,\n  0.0 AS pixel_x_size, 0.0 AS pixel_y_size",
    "sheet_tiles": "0 AS id, 0 AS zoom_level, 0 AS tile_column, 0 AS tile_row, x'' AS tile_data",
    "sheet_points_system": "0 AS srs_id",
    "sheet_rows": "0 AS id, x'' AS geom, 0 AS code, '' AS label, '' AS uuid",
}
ON_A_LINE = {"sheet_export", "tiles_media", "rows_media", "rows_tiles", "sheet_points_system"}


def own():
    with open(os.path.join(HERE, "..", "holds.sql"), encoding="utf-8") as text:
        return text.read()


def name(text):
    return '"' + text.replace('"', '""') + '"'


def literal(text):
    return "'" + text.replace("'", "''") + "'"


def view(of, text, on_a_line=False):
    return f"CREATE TEMP VIEW {of} AS{' ' if on_a_line else chr(10)}{text};\n"


def empty(*views):
    return "".join(view(of, f"SELECT {NOTHING[of]} WHERE 0", of in ON_A_LINE) for of in views)


def tiles_of(table):
    where = f"WHERE table_name = {literal(table)} COLLATE NOCASE"
    sets = view("sheet_matrix_set", f"SELECT * FROM main.gpkg_tile_matrix_set {where}") + view("sheet_matrix", f"SELECT * FROM main.gpkg_tile_matrix {where}")
    return sets + view("sheet_tiles", f"SELECT t.id, t.zoom_level, t.tile_column, t.tile_row, t.tile_data FROM main.{name(table)} t")


def points_of(table, geometry, code, label):
    where = f"WHERE table_name = {literal(table)} COLLATE NOCASE\n  AND column_name = {literal(geometry)} COLLATE NOCASE"
    columns = f"t.rowid AS id, t.{name(geometry)} AS geom, t.{name(code)} AS code, t.{name(label)} AS label, NULL AS uuid"
    return view("sheet_points_system", f"SELECT srs_id FROM main.gpkg_geometry_columns {where}") + view("sheet_rows", f"SELECT {columns} FROM main.{name(table)} t")


def stock(tiles=None, points=None):
    """Of a table of tiles, and of points by their table and its columns of geometries, codes and labels."""
    start, body = own().split(BEFORE)[0], own()[own().index(BEHIND):]
    made = start + empty("sheet_export", "sheet_tile_identity", "sheet_media", "tiles_media", "rows_media", "rows_tiles")
    made += tiles_of(tiles) if tiles is not None else empty("sheet_matrix_set", "sheet_matrix", "sheet_tiles")
    return made + (points_of(*points) if points is not None else empty("sheet_points_system", "sheet_rows")) + body
