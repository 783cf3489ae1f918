#!/usr/bin/env python3
"""Times insertions and look-ups in a package by stock SQLite: no contracts, the same tables, indexes and transactions.

Usage: plain_sqlite.py FOLDER COUNT..

For each count it makes packages in memory and on files in FOLDER, and prints lines `store step count microseconds`:
  create            the tables, the indexes and the rows that each package has, in one transaction
  insert-each       an attributes row and its identity, each pair in a transaction of its own
  insert-together   the same pairs, all in one transaction
  look-up-row       each attributes row by its number
  look-up-identity  each identity by its UUID
A file is in write-ahead mode with synchronous = FULL: each commit waits for the disk.
"""

import os
import sqlite3
import sys
import time

AT = "2026-11-22T09:00:00.000Z"

SCHEMA = """
CREATE TABLE gpkg_spatial_ref_sys (srs_name TEXT NOT NULL, srs_id INTEGER PRIMARY KEY, organization TEXT NOT NULL, organization_coordsys_id INTEGER NOT NULL, definition TEXT NOT NULL, description TEXT) STRICT
CREATE TABLE gpkg_contents (table_name TEXT PRIMARY KEY, data_type TEXT NOT NULL, identifier TEXT UNIQUE, description TEXT, last_change TEXT NOT NULL, min_x INTEGER, min_y INTEGER, max_x INTEGER, max_y INTEGER, srs_id INTEGER REFERENCES gpkg_spatial_ref_sys (srs_id)) STRICT
CREATE TABLE gpkg_tile_matrix_set (table_name TEXT PRIMARY KEY REFERENCES gpkg_contents (table_name), srs_id INTEGER NOT NULL REFERENCES gpkg_spatial_ref_sys (srs_id), min_x INTEGER NOT NULL, min_y INTEGER NOT NULL, max_x INTEGER NOT NULL, max_y INTEGER NOT NULL) STRICT
CREATE TABLE gpkg_tile_matrix (table_name TEXT REFERENCES gpkg_contents (table_name), zoom_level INTEGER NOT NULL, matrix_width INTEGER NOT NULL, matrix_height INTEGER NOT NULL, tile_width INTEGER NOT NULL, tile_height INTEGER NOT NULL, pixel_x_size INTEGER NOT NULL, pixel_y_size INTEGER NOT NULL, PRIMARY KEY (table_name, zoom_level)) STRICT
CREATE TABLE gpkgext_relations (id INTEGER PRIMARY KEY, base_table_name TEXT NOT NULL, base_primary_column TEXT NOT NULL, related_table_name TEXT NOT NULL, related_primary_column TEXT NOT NULL, relation_name TEXT NOT NULL, mapping_table_name TEXT NOT NULL UNIQUE) STRICT
CREATE TABLE sheet_tiles (id INTEGER PRIMARY KEY AUTOINCREMENT, zoom_level INTEGER NOT NULL, tile_column INTEGER NOT NULL, tile_row INTEGER NOT NULL, tile_data BLOB NOT NULL, UNIQUE (zoom_level, tile_column, tile_row)) STRICT
CREATE TABLE sheet_media (id INTEGER PRIMARY KEY AUTOINCREMENT, data BLOB NOT NULL, content_type TEXT NOT NULL) STRICT
CREATE TABLE sheet_rows (id INTEGER PRIMARY KEY AUTOINCREMENT, x INTEGER NOT NULL, y INTEGER NOT NULL, code INTEGER NOT NULL, label TEXT NOT NULL) STRICT
CREATE TABLE tiles_media (base_id INTEGER NOT NULL, related_id INTEGER NOT NULL, UNIQUE (base_id, related_id)) STRICT
CREATE TABLE rows_media (base_id INTEGER NOT NULL, related_id INTEGER NOT NULL, UNIQUE (base_id, related_id)) STRICT
CREATE TABLE rows_tiles (base_id INTEGER NOT NULL, related_id INTEGER NOT NULL, UNIQUE (base_id, related_id)) STRICT
CREATE TABLE sheet_package (id INTEGER PRIMARY KEY, version INTEGER NOT NULL, package TEXT NOT NULL, parent TEXT NOT NULL, depth INTEGER NOT NULL, loan INTEGER NOT NULL, created TEXT NOT NULL) STRICT
CREATE TABLE sheet_identity (kind INTEGER NOT NULL, local_id INTEGER NOT NULL, uuid TEXT NOT NULL UNIQUE, PRIMARY KEY (kind, local_id)) STRICT
CREATE TABLE sheet_receipts (seq INTEGER PRIMARY KEY, request TEXT NOT NULL UNIQUE, at TEXT NOT NULL, line TEXT NOT NULL, source TEXT NOT NULL, target TEXT NOT NULL, n_tiles INTEGER NOT NULL, n_media INTEGER NOT NULL, n_rows INTEGER NOT NULL, n_links INTEGER NOT NULL, n_bytes INTEGER NOT NULL) STRICT
CREATE TABLE sheet_items (seq INTEGER NOT NULL, position INTEGER NOT NULL, kind INTEGER NOT NULL, base TEXT NOT NULL, other TEXT NOT NULL, size INTEGER NOT NULL, fingerprint TEXT NOT NULL, PRIMARY KEY (seq, position)) STRICT
CREATE INDEX items_by_base ON sheet_items (base)
CREATE INDEX receipts_by_target ON sheet_receipts (target)
CREATE INDEX by_tiles_media ON tiles_media (related_id)
CREATE INDEX by_rows_media ON rows_media (related_id)
CREATE INDEX by_rows_tiles ON rows_tiles (related_id)
CREATE INDEX by_xy ON sheet_rows (x, y)
""".strip().splitlines()

# srs, bounds, tile sizes, first zoom, levels, matrix sizes of the first zoom.
FRAME = (25832, 0, 0, 4096, 4096, 256, 256, 0, 3, 1, 1)
SYSTEMS = [
    ("WGS 84", 4326, "EPSG", 4326, "profile", ""),
    ("undefined cartesian", -1, "NONE", -1, "undefined", ""),
    ("undefined geographic", 0, "NONE", 0, "undefined", ""),
]
RELATIONS = [
    (1, "sheet_tiles", "id", "sheet_media", "id", "media", "tiles_media"),
    (2, "sheet_rows", "id", "sheet_media", "id", "media", "rows_media"),
    (3, "sheet_rows", "id", "sheet_tiles", "id", "tiles", "rows_tiles"),
]


def connect(path):
    conn = sqlite3.connect(path, isolation_level=None)
    conn.execute("PRAGMA foreign_keys = ON")
    if path != ":memory:":
        # As the program has a file: by itself, which spares the file of shared memory too.
        conn.execute("PRAGMA locking_mode = EXCLUSIVE")
        conn.execute("PRAGMA journal_mode = WAL")
        conn.execute("PRAGMA synchronous = FULL")
    return conn


def fixed_rows(frame, at):
    """What each package of a frame has from its start, by the table."""
    srs, min_x, min_y, max_x, max_y, tile_width, tile_height, first_zoom, levels, matrix_width, matrix_height = frame
    bounds = min_x, min_y, max_x, max_y
    own = [(f"srs {srs}", srs, "EPSG", srs, "profile", "")]
    tables = [("sheet_tiles", "tiles"), ("sheet_media", "attributes"), ("sheet_rows", "attributes")]
    matrices = [(level, matrix_width << level, matrix_height << level) for level in range(levels)]
    return {
        "gpkg_spatial_ref_sys": SYSTEMS + own * (srs not in (4326, -1, 0)),
        "gpkg_contents": [(name, kind, name, "", at, *bounds, srs) for name, kind in tables],
        "gpkg_tile_matrix_set": [("sheet_tiles", srs, *bounds)],
        "gpkg_tile_matrix": [
            ("sheet_tiles", first_zoom + level, columns, rows, tile_width, tile_height,
             (max_x - min_x) // (columns * tile_width), (max_y - min_y) // (rows * tile_height))
            for level, columns, rows in matrices
        ],
        "gpkgext_relations": RELATIONS,
    }


def create(conn, frame=FRAME, head=("00000000-0000-0000-0000-000000000001", "", 0, 0), at=AT):
    """A new package. The head is its UUID, its parent's, its depth and the number of its loan."""
    conn.execute("BEGIN")
    for statement in SCHEMA:
        conn.execute(statement)
    for table, rows in fixed_rows(frame, at).items():
        conn.executemany(f"INSERT INTO {table} VALUES (?{', ?' * (len(rows[0]) - 1)})", rows)
    conn.execute("INSERT INTO sheet_package VALUES (?, ?, ?, ?, ?, ?, ?)", (1, 2, *head, at))
    conn.execute("COMMIT")


def uuid_of(number):
    digits = f"{number:032x}"
    return "-".join([digits[:8], digits[8:12], digits[12:16], digits[16:20], digits[20:]])


def insert(conn, number):
    conn.execute("INSERT INTO sheet_rows VALUES (?, ?, ?, ?, ?)", (number, number, 5, 7, "gate"))
    conn.execute("INSERT INTO sheet_identity VALUES (?, ?, ?)", (3, number, uuid_of(number)))


def insert_each(conn, count):
    for number in range(count):
        conn.execute("BEGIN")
        insert(conn, number)
        conn.execute("COMMIT")


def insert_together(conn, count):
    conn.execute("BEGIN")
    for number in range(count):
        insert(conn, number)
    conn.execute("COMMIT")


def look_up_rows(conn, count):
    for number in range(count):
        if conn.execute("SELECT * FROM sheet_rows WHERE id = ?", (number,)).fetchall() == []:
            sys.exit("a row is missing")


def look_up_identities(conn, count):
    for number in range(count):
        if conn.execute("SELECT * FROM sheet_identity WHERE uuid = ?", (uuid_of(number),)).fetchall() == []:
            sys.exit("an identity is missing")


def timed(store, step, count, work):
    start = time.perf_counter_ns()
    work()
    print(store, step, count, (time.perf_counter_ns() - start) // 1000, flush=True)


def measure(store, each_path, together_path, count):
    conn = connect(each_path)
    timed(store, "create", 1, lambda: create(conn))
    timed(store, "insert-each", count, lambda: insert_each(conn, count))
    conn.close()
    conn = connect(together_path)
    create(conn)
    timed(store, "insert-together", count, lambda: insert_together(conn, count))
    timed(store, "look-up-row", count, lambda: look_up_rows(conn, count))
    timed(store, "look-up-identity", count, lambda: look_up_identities(conn, count))
    conn.close()


def main():
    if len(sys.argv) < 3:
        sys.exit(__doc__)
    folder = sys.argv[1]
    os.makedirs(folder, exist_ok=True)
    for count in map(int, sys.argv[2:]):
        paths = [os.path.join(folder, f"plain-{name}-{count}.gpkg") for name in ("each", "together")]
        for path in paths:
            for end in ("", "-wal", "-shm"):
                if os.path.exists(path + end):
                    os.remove(path + end)
        measure("memory", ":memory:", ":memory:", count)
        measure("file", paths[0], paths[1], count)


if __name__ == "__main__":
    main()
