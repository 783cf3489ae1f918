#!/usr/bin/env bash
# A package of a folder as a GeoPackage for other programs: exported, made by stock sqlite3, opened by GDAL.
#
#     torture/export_files.sh                    a folder made of the sample, by the proved program
#     torture/export_files.sh --unproved         the same by the code before any proof
#     SHEETDESK=PROGRAM torture/export_files.sh  the same by another program
#     SQL=FILE torture/export_files.sh           a text of SQL that was printed before
#
# It compares the rows of each table with the statements of the text, asks GDAL for features, a coordinate, corners and pixel sizes, and
# that a text without its end makes nothing. Tiles of the sample are no images; where the first tile is a PNG, a picture is made of the
# pyramid too. Status 0 where everything holds. It needs sqlite3, and of GDAL ogrinfo, gdalinfo and gdal_translate
# (apt-get install gdal-bin).
set -euo pipefail
top=$(cd "$(dirname "$(readlink -f "${BASH_SOURCE[0]}")")/.." && pwd)
archive=6f0d3a52-9c1e-4b7a-8f24-1d5be07c9a10
work=$(mktemp -d)
trap 'rm -rf "$work"' EXIT
fail() {
  echo "$*" >&2
  exit 1
}
sql=${SQL-}
if [ -z "$sql" ]; then
  program=("${SHEETDESK:-$top/sheetdesk}" "$@")
  sql=$work/export.sql
  mkdir "$work/folder"
  "${program[@]}" init --archive "$archive" --at 2026-03-02T07:30:00.000Z \
    --frame 25832,500000000,5900000000,540960000,5961440000,256,256,4,3,2,3 "$work/folder" >"$work/init"
  "${program[@]}" import "$work/folder" "$top/samples/archive.csv" >"$work/report"
  "${program[@]}" export "$work/folder" "$archive" >"$sql"
fi

file=$work/crew.gpkg
sqlite3 -bail "$file" <"$sql"
ask() {
  sqlite3 "$file" "$1"
}
[ "$(ask 'PRAGMA integrity_check')" = ok ] || fail "integrity"
[ -z "$(ask 'PRAGMA foreign_key_check')" ] || fail "foreign keys"
[ "$(ask 'PRAGMA application_id')" = 1196444487 ] || fail "application"
[ "$(ask 'PRAGMA user_version')" = 10300 ] || fail "version"

# Each statement of the text made a row.
for table in gpkg_spatial_ref_sys gpkg_contents gpkg_geometry_columns gpkg_tile_matrix_set gpkg_tile_matrix gpkg_extensions \
  gpkgext_relations sheet_tiles sheet_tile_identity sheet_media sheet_rows tiles_media rows_media rows_tiles sheet_export layer_styles; do
  wanted=$(grep -c "^INSERT INTO $table " "$sql" || true)
  came=$(ask "SELECT count(*) FROM $table")
  [ "$came" = "$wanted" ] || fail "$table: $came rows of $wanted"
  echo "$table $came"
done

# Each link leads to an item at both ends.
for link in 'tiles_media sheet_tiles sheet_media' 'rows_media sheet_rows sheet_media' 'rows_tiles sheet_rows sheet_tiles'; do
  read -r table base other <<<"$link"
  lost=$(ask "SELECT count(*) FROM $table WHERE base_id NOT IN (SELECT id FROM $base) OR related_id NOT IN (SELECT id FROM $other)")
  [ "$lost" = 0 ] || fail "$table: $lost links lead nowhere"
done

# Features: as many as rows, and the first where its bytes say.
count=$(ask 'SELECT count(*) FROM sheet_rows')
ogrinfo -so "$file" sheet_rows >"$work/features"
grep -q "^Feature Count: $count\$" "$work/features" || fail "features"
if [ "$count" -gt 0 ]; then
  numbers='import sys; print([float(number) for number in sys.stdin.read().split()])'
  ask 'SELECT lower(hex(geom)) FROM sheet_rows WHERE id = 1' >"$work/blob"
  wanted=$(python3 -c 'import struct,sys; print("POINT (%.12g %.12g)" % struct.unpack("<dd", bytes.fromhex(sys.stdin.read())[-16:]))' <"$work/blob")
  came=$(ogrinfo "$file" sheet_rows -fid 1 | grep -o 'POINT (.*)')
  echo "the first feature: $wanted"
  [ "$(tr -dc '0-9.e -' <<<"$came" | python3 -c "$numbers")" = "$(tr -dc '0-9.e -' <<<"$wanted" | python3 -c "$numbers")" ] ||
    fail "the first feature: $came"
fi

# Outlines: one for each tile, and the first where its place says.
tiles=$(ask 'SELECT count(*) FROM sheet_tiles')
ogrinfo -so "$file" sheet_tile_identity >"$work/outlines"
grep -q "^Feature Count: $tiles\$" "$work/outlines" || fail "outlines"
if [ "$tiles" -gt 0 ]; then
  corner='SELECT s.min_x + i.tile_column * m.tile_width * m.pixel_x_size, s.max_y - i.tile_row * m.tile_height * m.pixel_y_size
    FROM sheet_tile_identity i JOIN gpkg_tile_matrix m USING (zoom_level), gpkg_tile_matrix_set s WHERE i.id = 1'
  ogrinfo -q "$file" -dialect SQLite \
    -sql 'SELECT ST_MinX(geom) AS west, ST_MaxY(geom) AS north FROM sheet_tile_identity WHERE id = 1' >"$work/outline"
  came=$(sed -n 's/^  \(west\|north\) (Real) = //p' "$work/outline" | python3 -c 'import sys; print([float(line) for line in sys.stdin])')
  wanted=$(ask "$corner" | python3 -c 'import sys; print([float(number) for number in sys.stdin.read().split("|")])')
  echo "the first outline: $wanted"
  [ "$came" = "$wanted" ] || fail "the first outline: $came"
fi

# Other programs add to it: a point without an identity, and a link.
cp "$file" "$work/edited.gpkg"
sqlite3 -bail "$work/edited.gpkg" 'INSERT INTO sheet_rows (geom) SELECT geom FROM sheet_rows LIMIT 1;
  INSERT INTO rows_media (base_id, related_id) SELECT r.id, m.id FROM sheet_rows r, sheet_media m LIMIT 1' || fail "an edit was refused"
[ "$(sqlite3 "$work/edited.gpkg" 'PRAGMA integrity_check')" = ok ] || fail "integrity after an edit"

# The pyramid: corners of the frame and the pixel size of the zoom that GDAL shows.
if [ "$(ask 'SELECT count(*) FROM sheet_tiles')" -gt 0 ]; then
  zoom=$(ask 'SELECT max(zoom_level) FROM sheet_tiles')
  digits='import sys; print(",".join("%.15f" % float(number) for number in sys.stdin.read().split("|")))'
  size=$(ask "SELECT pixel_x_size FROM gpkg_tile_matrix WHERE zoom_level = $zoom" | python3 -c "$digits")
  corner=$(ask 'SELECT min_x, max_y FROM gpkg_tile_matrix_set' | python3 -c "$digits")
  gdalinfo "$file" >"$work/pyramid"
  grep -qF "Origin = ($corner)" "$work/pyramid" || fail "corner: not $corner"
  grep -qF "Pixel Size = ($size," "$work/pyramid" || fail "pixel size: not $size"
  if [ "$(ask 'SELECT lower(hex(substr(tile_data, 1, 4))) FROM sheet_tiles WHERE id = 1')" = 89504e47 ]; then
    gdal_translate -q -of PNG -outsize 512 0 "$file" "$work/crew.png"
    [ -s "$work/crew.png" ] || fail "picture"
    echo "picture $(wc -c <"$work/crew.png") bytes"
  fi
fi

# A text without its end makes nothing.
head -n -1 "$sql" | sqlite3 "$work/cut.gpkg"
[ "$(sqlite3 "$work/cut.gpkg" 'SELECT count(*) FROM sqlite_master')" = 0 ] || fail "a cut text made something"
echo "all holds"
