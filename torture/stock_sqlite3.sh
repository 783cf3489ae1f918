#!/usr/bin/env bash
# Whether stock SQLite takes a package file: its own checks, and the fifteen tables against the list below.
#
# Usage: stock_sqlite3.sh PACKAGE-FILE
#        stock_sqlite3.sh --init PROGRAM [WORD..]    of an archive that `PROGRAM WORD.. init` makes in a new folder
#
# Works on a copy, and runs `sqlite3` (3.37 or later, for STRICT tables), or Python's sqlite3 where there is none.
# Further tables and further indexes are no fault. Status 0: all as expected; 1: not; 2: the check could not be run.
set -euo pipefail

work=$(mktemp -d)
trap 'rm -rf "$work"' EXIT

if [ "${1-}" = --init ] && [ $# -ge 2 ]; then
  shift
  uuid=6f0d3a52-9c1e-4b7a-8f24-1d5be07c9a10
  mkdir "$work/folder"
  if ! told=$("$@" init --archive $uuid --at 2026-03-02T07:30:00.000Z \
    --frame 25832,500000000,5900000000,540960000,5961440000,256,256,4,3,2,3 "$work/folder") || [ "$told" != "archive $uuid" ]; then
    echo "init: failed, or did not print \`archive $uuid\`: $told" >&2
    exit 1
  fi
  set -- "$work/folder/$uuid.gpkg"
fi

if [ $# -ne 1 ] || [ ! -f "$1" ]; then
  echo 'usage: stock_sqlite3.sh PACKAGE-FILE' >&2
  echo '       stock_sqlite3.sh --init PROGRAM [WORD..]' >&2
  exit 2
fi
cp "$1" "$work/package"
if [ -f "$1-wal" ]; then
  cp "$1-wal" "$work/package-wal"
fi

if command -v sqlite3 >/dev/null; then
  ask() { sqlite3 -bail -noheader -list "$work/package" "$1"; }
elif command -v python3 >/dev/null; then
  ask() {
    python3 -c 'import sqlite3, sys
for row in sqlite3.connect(sys.argv[1]).execute(sys.argv[2]):
    print("|".join("" if v is None else str(v) for v in row))' "$work/package" "$1"
  }
else
  echo 'neither sqlite3 nor python3 is here' >&2
  exit 2
fi

# TABLE COLUMN TYPE, then `key N` for the Nth column of the primary key, else `not null` where it says so.
# Names: OGC GeoPackage 1.3 and OGC 18-000 for the tables gpkg_*, gpkgext_* and *_media; types and the rest: profile.
cat >"$work/columns" <<'END'
gpkg_contents table_name TEXT key 1
gpkg_contents data_type TEXT not null
gpkg_contents identifier TEXT
gpkg_contents description TEXT
gpkg_contents last_change TEXT not null
gpkg_contents min_x INTEGER
gpkg_contents min_y INTEGER
gpkg_contents max_x INTEGER
gpkg_contents max_y INTEGER
gpkg_contents srs_id INTEGER
gpkg_spatial_ref_sys srs_name TEXT not null
gpkg_spatial_ref_sys srs_id INTEGER key 1
gpkg_spatial_ref_sys organization TEXT not null
gpkg_spatial_ref_sys organization_coordsys_id INTEGER not null
gpkg_spatial_ref_sys definition TEXT not null
gpkg_spatial_ref_sys description TEXT
gpkg_tile_matrix table_name TEXT key 1
gpkg_tile_matrix zoom_level INTEGER key 2
gpkg_tile_matrix matrix_width INTEGER not null
gpkg_tile_matrix matrix_height INTEGER not null
gpkg_tile_matrix tile_width INTEGER not null
gpkg_tile_matrix tile_height INTEGER not null
gpkg_tile_matrix pixel_x_size INTEGER not null
gpkg_tile_matrix pixel_y_size INTEGER not null
gpkg_tile_matrix_set table_name TEXT key 1
gpkg_tile_matrix_set srs_id INTEGER not null
gpkg_tile_matrix_set min_x INTEGER not null
gpkg_tile_matrix_set min_y INTEGER not null
gpkg_tile_matrix_set max_x INTEGER not null
gpkg_tile_matrix_set max_y INTEGER not null
gpkgext_relations id INTEGER key 1
gpkgext_relations base_table_name TEXT not null
gpkgext_relations base_primary_column TEXT not null
gpkgext_relations related_table_name TEXT not null
gpkgext_relations related_primary_column TEXT not null
gpkgext_relations relation_name TEXT not null
gpkgext_relations mapping_table_name TEXT not null
rows_media base_id INTEGER not null
rows_media related_id INTEGER not null
rows_tiles base_id INTEGER not null
rows_tiles related_id INTEGER not null
sheet_identity kind INTEGER key 1
sheet_identity local_id INTEGER key 2
sheet_identity uuid TEXT not null
sheet_items seq INTEGER key 1
sheet_items position INTEGER key 2
sheet_items kind INTEGER not null
sheet_items base TEXT not null
sheet_items other TEXT not null
sheet_items size INTEGER not null
sheet_items fingerprint TEXT not null
sheet_media id INTEGER key 1
sheet_media data BLOB not null
sheet_media content_type TEXT not null
sheet_package id INTEGER key 1
sheet_package version INTEGER not null
sheet_package package TEXT not null
sheet_package parent TEXT not null
sheet_package depth INTEGER not null
sheet_package loan INTEGER not null
sheet_package created TEXT not null
sheet_receipts seq INTEGER key 1
sheet_receipts request TEXT not null
sheet_receipts at TEXT not null
sheet_receipts line TEXT not null
sheet_receipts source TEXT not null
sheet_receipts target TEXT not null
sheet_receipts n_tiles INTEGER not null
sheet_receipts n_media INTEGER not null
sheet_receipts n_rows INTEGER not null
sheet_receipts n_links INTEGER not null
sheet_receipts n_bytes INTEGER not null
sheet_rows id INTEGER key 1
sheet_rows x INTEGER not null
sheet_rows y INTEGER not null
sheet_rows code INTEGER not null
sheet_rows label TEXT not null
sheet_tiles id INTEGER key 1
sheet_tiles zoom_level INTEGER not null
sheet_tiles tile_column INTEGER not null
sheet_tiles tile_row INTEGER not null
sheet_tiles tile_data BLOB not null
tiles_media base_id INTEGER not null
tiles_media related_id INTEGER not null
END

cat >"$work/unique" <<'END'
gpkg_contents identifier
gpkgext_relations mapping_table_name
rows_media base_id,related_id
rows_tiles base_id,related_id
sheet_identity uuid
sheet_receipts request
sheet_tiles zoom_level,tile_column,tile_row
tiles_media base_id,related_id
END

cat >"$work/references" <<'END'
gpkg_contents srs_id gpkg_spatial_ref_sys srs_id
gpkg_tile_matrix table_name gpkg_contents table_name
gpkg_tile_matrix_set srs_id gpkg_spatial_ref_sys srs_id
gpkg_tile_matrix_set table_name gpkg_contents table_name
END

printf '%s\n' sheet_media sheet_rows sheet_tiles >"$work/autoincrement"
cut -d' ' -f1 "$work/columns" | sort -u >"$work/strict"
names=$(sed "s/.*/'&'/" "$work/strict" | paste -sd,)
failed=0

# Compares what the file has with what is expected: a word, and the query.
compare() {
  if ! ask "$2" >"$work/answer"; then
    echo "$1: could not be read"
    failed=1
    return
  fi
  LC_ALL=C sort "$work/answer" >"$work/found"
  if LC_ALL=C sort "$work/$1" | diff - "$work/found" >"$work/diff"; then
    echo "$1: as expected ($(wc -l <"$work/$1"))"
  else
    echo "$1: NOT as expected (<: expected, >: found)"
    cat "$work/diff"
    failed=1
  fi
}

integrity=$(ask 'PRAGMA integrity_check' || true)
echo "integrity_check: $integrity"
[ "$integrity" = ok ] || failed=1

if foreign=$(ask 'PRAGMA foreign_key_check'); then
  echo "foreign_key_check: ${foreign:-no row}"
  [ -z "$foreign" ] || failed=1
else
  failed=1
fi

compare columns "SELECT m.name || ' ' || c.name || ' ' || c.type || CASE WHEN c.pk > 0 THEN ' key ' || c.pk WHEN c.\"notnull\" THEN ' not null' ELSE '' END
  FROM sqlite_schema m, pragma_table_info(m.name) c WHERE m.type = 'table' AND m.name IN ($names)"
# The order of a table's columns, which the sorted comparison above does not see.
sed 's/^\([^ ]*\) \([^ ]*\) .*/\1 \2/' "$work/columns" | awk '{ print $1, n[$1]++, $2 }' >"$work/order"
compare order "SELECT m.name || ' ' || c.cid || ' ' || c.name FROM sqlite_schema m, pragma_table_info(m.name) c WHERE m.type = 'table' AND m.name IN ($names)"
compare strict "SELECT name FROM pragma_table_list WHERE schema = 'main' AND strict AND name IN ($names)"
compare unique "SELECT m.name || ' ' || (SELECT group_concat(k.name) FROM pragma_index_info(i.name) k)
  FROM sqlite_schema m, pragma_index_list(m.name) i WHERE m.type = 'table' AND m.name IN ($names) AND i.origin = 'u'"
compare references "SELECT m.name || ' ' || f.\"from\" || ' ' || f.\"table\" || ' ' || f.\"to\"
  FROM sqlite_schema m, pragma_foreign_key_list(m.name) f WHERE m.type = 'table' AND m.name IN ($names)"
compare autoincrement "SELECT name FROM sqlite_schema WHERE type = 'table' AND sql LIKE '%AUTOINCREMENT%' AND name IN ($names)"

echo 'rows a table:'
while read -r table; do
  echo "  $table $(ask "SELECT count(*) FROM $table" || echo 'could not be read')"
done <"$work/strict"
exit "$failed"
