#!/usr/bin/env bash
# A folder whose packages stock SQLite takes back to the first version (no table of the third mapping, two relations,
# version 1) is opened by the program: it is as good as before, each package is brought to the second version, and each
# manifest is byte for byte what it was. Where a package taken back has lost a link that a receipt names, the fault is
# told and no package is changed.
#
#     torture/first_version_folder.sh [PROGRAM]     the proved one, or SHEETDESK, where none is named
set -euo pipefail
cd "$(dirname "$0")/.."
program=${1:-${SHEETDESK:-$(./sheetdesk --built)}}
program=$(realpath "$program")
room=$(mktemp -d)
trap 'rm -rf "$room"' EXIT

archive=6f0d3a52-9c1e-4b7a-8f24-1d5be07c9a10
frame=25832,500000000,5900000000,540960000,5961440000,256,256,4,3,2,3

# makes a folder of a list of requests
made() {
    mkdir "$room/$1"
    "$program" init --archive "$archive" --at 2026-03-02T07:30:00.000Z --frame "$frame" "$room/$1" > "$room/out"
    "$program" import "$room/$1" "$2" > "$room/out"
}

# takes each package of a folder back to the first version
taken_back() {
    python3 - "$1" <<'P'
import glob, sqlite3, sys
for path in glob.glob(sys.argv[1] + "/*.gpkg"):
    store = sqlite3.connect(path)
    store.execute("DROP TABLE rows_tiles")
    store.execute("DELETE FROM gpkgext_relations WHERE id = 3")
    store.execute("UPDATE sheet_package SET version = 1")
    store.commit()
    store.execute("PRAGMA wal_checkpoint(TRUNCATE)")
    store.close()
P
}

# each package is sound, of this version, and has so many relations
are_of() {
    python3 - "$1" "$2" "$3" <<'P'
import glob, sqlite3, sys
paths = glob.glob(sys.argv[1] + "/*.gpkg")
assert len(paths) == 2, paths
for path in paths:
    store = sqlite3.connect(path)
    assert store.execute("PRAGMA integrity_check").fetchall() == [("ok",)], path
    assert store.execute("SELECT version FROM sheet_package").fetchall() == [(int(sys.argv[2]),)], path
    assert store.execute("SELECT count(*) FROM gpkgext_relations").fetchone() == (int(sys.argv[3]),), path
    there = store.execute("SELECT count(*) FROM sqlite_master WHERE name IN ('rows_tiles', 'by_rows_tiles')").fetchone()
    assert there == ((2 if sys.argv[2] == "2" else 0),), path
P
}

# without a link of a row to a tile all is as it was
grep -v rows_tiles samples/first.csv > "$room/list.csv"
made good "$room/list.csv"
for path in "$room"/good/*.gpkg; do
    "$program" manifest "$room/good" "$(basename "$path" .gpkg)" > "$room/$(basename "$path").before"
done
taken_back "$room/good"
are_of "$room/good" 1 2
"$program" audit "$room/good" > "$room/out"
grep -q '^good 8$' "$room/out"
are_of "$room/good" 2 3
for path in "$room"/good/*.gpkg; do
    "$program" manifest "$room/good" "$(basename "$path" .gpkg)" | cmp - "$room/$(basename "$path").before"
done
echo "brought: two packages, eight receipts, each manifest as before"

# with one, what the receipts name is not there
made lost samples/first.csv
taken_back "$room/lost"
status=0
"$program" audit "$room/lost" > "$room/out" 2> "$room/told" || status=$?
[ "$status" = 3 ]
grep -q OutOfAccount "$room/out" "$room/told"
are_of "$room/lost" 1 2
echo "told: OutOfAccount, and each package is of the first version still"
