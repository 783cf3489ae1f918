"""What a package is as SQL for other programs: the tables and rows of OGC GeoPackage 1.3 and OGC 18-000 that docs/FORMATS.md asks for, a statement a line."""

import struct

from . import styles
from .contents import ENDS, KINDS, place_of

# Each table with its columns and constraints.
TABLES = {
    "gpkg_spatial_ref_sys": "srs_name TEXT NOT NULL|srs_id INTEGER NOT NULL PRIMARY KEY|organization TEXT NOT NULL"
    "|organization_coordsys_id INTEGER NOT NULL|definition TEXT NOT NULL|description TEXT",
    "gpkg_contents": "table_name TEXT NOT NULL PRIMARY KEY|data_type TEXT NOT NULL|identifier TEXT UNIQUE|description TEXT DEFAULT ''"
    "|last_change DATETIME NOT NULL DEFAULT (strftime('%Y-%m-%dT%H:%M:%fZ','now'))|min_x DOUBLE|min_y DOUBLE|max_x DOUBLE|max_y DOUBLE"
    "|srs_id INTEGER|CONSTRAINT fk_gc_r_srs_id FOREIGN KEY (srs_id) REFERENCES gpkg_spatial_ref_sys(srs_id)",
    "gpkg_geometry_columns": "table_name TEXT NOT NULL|column_name TEXT NOT NULL|geometry_type_name TEXT NOT NULL|srs_id INTEGER NOT NULL"
    "|z TINYINT NOT NULL|m TINYINT NOT NULL|CONSTRAINT pk_geom_cols PRIMARY KEY (table_name, column_name)"
    "|CONSTRAINT uk_gc_table_name UNIQUE (table_name)|CONSTRAINT fk_gc_tn FOREIGN KEY (table_name) REFERENCES gpkg_contents(table_name)"
    "|CONSTRAINT fk_gc_srs FOREIGN KEY (srs_id) REFERENCES gpkg_spatial_ref_sys(srs_id)",
    "gpkg_tile_matrix_set": "table_name TEXT NOT NULL PRIMARY KEY|srs_id INTEGER NOT NULL|min_x DOUBLE NOT NULL|min_y DOUBLE NOT NULL"
    "|max_x DOUBLE NOT NULL|max_y DOUBLE NOT NULL|CONSTRAINT fk_gtms_table_name FOREIGN KEY (table_name) REFERENCES gpkg_contents(table_name)"
    "|CONSTRAINT fk_gtms_srs FOREIGN KEY (srs_id) REFERENCES gpkg_spatial_ref_sys(srs_id)",
    "gpkg_tile_matrix": "table_name TEXT NOT NULL|zoom_level INTEGER NOT NULL|matrix_width INTEGER NOT NULL|matrix_height INTEGER NOT NULL"
    "|tile_width INTEGER NOT NULL|tile_height INTEGER NOT NULL|pixel_x_size DOUBLE NOT NULL|pixel_y_size DOUBLE NOT NULL"
    "|CONSTRAINT pk_ttm PRIMARY KEY (table_name, zoom_level)"
    "|CONSTRAINT fk_tmm_table_name FOREIGN KEY (table_name) REFERENCES gpkg_contents(table_name)",
    "gpkg_extensions": "table_name TEXT|column_name TEXT|extension_name TEXT NOT NULL|definition TEXT NOT NULL|scope TEXT NOT NULL"
    "|CONSTRAINT ge_tce UNIQUE (table_name, column_name, extension_name)",
    "gpkgext_relations": "id INTEGER PRIMARY KEY AUTOINCREMENT|base_table_name TEXT NOT NULL|base_primary_column TEXT NOT NULL DEFAULT 'id'"
    "|related_table_name TEXT NOT NULL|related_primary_column TEXT NOT NULL DEFAULT 'id'|relation_name TEXT NOT NULL"
    "|mapping_table_name TEXT NOT NULL UNIQUE",
    "sheet_tiles": "id INTEGER PRIMARY KEY AUTOINCREMENT|zoom_level INTEGER NOT NULL|tile_column INTEGER NOT NULL|tile_row INTEGER NOT NULL"
    "|tile_data BLOB NOT NULL|UNIQUE (zoom_level, tile_column, tile_row)",
    "sheet_tile_identity": "id INTEGER PRIMARY KEY AUTOINCREMENT|geom POLYGON|uuid TEXT NOT NULL|zoom_level INTEGER NOT NULL"
    "|tile_column INTEGER NOT NULL|tile_row INTEGER NOT NULL",
    "sheet_media": "id INTEGER PRIMARY KEY AUTOINCREMENT|data BLOB NOT NULL|content_type TEXT NOT NULL DEFAULT 'image/jpeg'|uuid TEXT",
    "sheet_rows": "id INTEGER PRIMARY KEY AUTOINCREMENT|geom POINT|code INTEGER NOT NULL DEFAULT 0|label TEXT DEFAULT ''|uuid TEXT",
    **dict.fromkeys(ENDS, "id INTEGER PRIMARY KEY AUTOINCREMENT|base_id INTEGER NOT NULL|related_id INTEGER NOT NULL"),
    "sheet_export": "package TEXT NOT NULL|ticket INTEGER NOT NULL",
    "layer_styles": "id INTEGER PRIMARY KEY AUTOINCREMENT|f_table_catalog TEXT|f_table_schema TEXT|f_table_name TEXT"
    "|f_geometry_column TEXT|styleName TEXT|styleQML TEXT|styleSLD TEXT|useAsDefault BOOLEAN|description TEXT|owner TEXT|ui TEXT"
    "|update_time DATETIME DEFAULT (strftime('%Y-%m-%dT%H:%M:%fZ','now'))",
}
WGS_84 = (
    'GEOGCS["WGS 84",DATUM["WGS_1984",SPHEROID["WGS 84",6378137,298.257223563,AUTHORITY["EPSG","7030"]],AUTHORITY["EPSG","6326"]],'
    'PRIMEM["Greenwich",0,AUTHORITY["EPSG","8901"]],UNIT["degree",0.0174532925199433,AUTHORITY["EPSG","9122"]],AUTHORITY["EPSG","4326"]]'
)
SYSTEMS = [
    ("Undefined Cartesian SRS", -1, "NONE", -1, "undefined", "undefined Cartesian coordinate reference system"),
    ("Undefined geographic SRS", 0, "NONE", 0, "undefined", "undefined geographic coordinate reference system"),
    ("WGS 84 geodetic", 4326, "EPSG", 4326, WGS_84, "longitude/latitude coordinates in decimal degrees on the WGS 84 spheroid"),
]
RELATIONS = [
    (1, "sheet_tiles", "id", "sheet_media", "id", "media", "tiles_media"),
    (2, "sheet_rows", "id", "sheet_media", "id", "media", "rows_media"),
    (3, "sheet_rows", "id", "sheet_tiles", "id", "tiles", "rows_tiles"),
]


class Units(int):
    """A number of thousandths, which is written in whole units with three decimals."""


def literal(value):
    if value is None:
        return "NULL"
    if isinstance(value, Units):
        return f"{'-' if value < 0 else ''}{abs(value) // 1000}.{abs(value) % 1000:03}"
    if isinstance(value, bytes):
        return f"X'{value.hex()}'"
    if isinstance(value, str):
        return f"CAST({literal(value.encode())} AS TEXT)" if "\0" in value or "'" in value else f"'{value}'"
    return str(value)


def insert(table, *values):
    return f"INSERT INTO {table} VALUES ({','.join(map(literal, values))});\n"


def point(srs, x, y):
    """GeoPackage binary: no envelope, the lowest byte first; of the point in whole units the nearest doubles."""
    return b"GP\0\1" + struct.pack("<i", srs) + struct.pack("<BIdd", 1, 1, int(x) / 1000, int(y) / 1000)


def outline(frame, tile):
    """GeoPackage binary of the ground of a tile: a polygon of one ring, from its south-west corner eastwards."""
    ground = frame.ground(*place_of(tile))
    west, south, east, north = (int(bound) / 1000 for bound in (ground.west, ground.south, ground.east, ground.north))
    ring = [(west, south), (east, south), (east, north), (west, north), (west, south)]
    return b"GP\0\1" + struct.pack("<i", frame.srs) + struct.pack("<BIII", 1, 3, 1, len(ring)) + b"".join(struct.pack("<dd", *corner) for corner in ring)


def fixed_rows(frame, package):
    bounds = [Units(bound) for bound in (frame.min_x, frame.min_y, frame.max_x, frame.max_y)]
    own = [] if frame.srs in (-1, 0, 4326) else [(f"EPSG:{frame.srs}", frame.srs, "EPSG", frame.srs, "undefined", None)]
    yield from (insert("gpkg_spatial_ref_sys", *row) for row in SYSTEMS + own)
    columns = "table_name,data_type,identifier,description,min_x,min_y,max_x,max_y,srs_id"
    ground = {"tiles": [*bounds, frame.srs], "features": [*bounds, frame.srs], "attributes": [None] * 5}
    layers = [("sheet_tiles", "tiles"), ("sheet_rows", "features"), ("sheet_tile_identity", "features")]
    for table, kind in layers + [(table, "attributes") for table in ("sheet_media", *ENDS, "layer_styles")]:
        yield insert(f"gpkg_contents ({columns})", table, kind, table, f"package {package}", *ground[kind])
    yield insert("gpkg_geometry_columns", "sheet_rows", "geom", "POINT", frame.srs, 0, 0)
    yield insert("gpkg_geometry_columns", "sheet_tile_identity", "geom", "POLYGON", frame.srs, 0, 0)
    yield insert("gpkg_tile_matrix_set", "sheet_tiles", frame.srs, *bounds)
    for zoom in range(frame.first_zoom, frame.first_zoom + frame.levels):
        across, down = frame.matrix(zoom)
        tile = frame.ground(zoom, 0, 0)
        pixel = Units((tile.east - tile.west) // frame.tile_width), Units((tile.north - tile.south) // frame.tile_height)
        yield insert("gpkg_tile_matrix", "sheet_tiles", zoom, across, down, frame.tile_width, frame.tile_height, *pixel)
    for table in ["gpkgext_relations", *ENDS]:
        yield insert("gpkg_extensions", table, None, "gpkg_related_tables", "http://www.geopackage.org/18-000.html", "read-write")
    yield from (insert("gpkgext_relations", *row) for row in RELATIONS)
    columns = "f_table_catalog,f_table_schema,f_table_name,f_geometry_column,styleName,styleQML,useAsDefault"
    yield from (insert(f"layer_styles ({columns})", "", "", table, geometry, table, style, 1) for table, geometry, style in styles.rows())


def item_rows(frame, number, identity, item):
    if item["kind"] == "tile":
        tile = insert("sheet_tiles", number, *place_of(item), item["data"])
        return tile + insert("sheet_tile_identity", number, outline(frame, item), identity, *place_of(item))
    if item["kind"] == "media":
        return insert("sheet_media", number, item["data"], item["text"], identity)
    return insert("sheet_rows", number, point(frame.srs, item["x"], item["y"]), item["code"], item["text"], identity)


def export(frame, package, ticket):
    """A transaction. Items are numbered from 1 within their kind, in the order of their identities, as links name them."""
    numbers = {}
    for kind in ("tile", "media", "row"):
        named = sorted(identity for identity, item in package.items.items() if item["kind"] == kind)
        numbers.update((identity, number) for number, identity in enumerate(named, 1))
    items = sorted(package.items.items(), key=lambda each: (KINDS[each[1]["kind"]], each[0]))
    links = sorted(package.links, key=lambda link: (KINDS[link[0]], *link[1:]))
    return "".join([
        "BEGIN;\nPRAGMA application_id = 1196444487;\nPRAGMA user_version = 10300;\n",
        *(f"CREATE TABLE {table} ({','.join(columns.split('|'))});\n" for table, columns in TABLES.items()),
        *fixed_rows(frame, package.uuid),
        insert("sheet_export", package.uuid, ticket),
        *(item_rows(frame, numbers[identity], identity, item) for identity, item in items),
        *(insert(f"{mapping} (base_id,related_id)", numbers[base], numbers[other]) for mapping, base, other in links),
        "COMMIT;\n",
    ])
