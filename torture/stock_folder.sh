#!/usr/bin/env bash
# Whether stock SQLite takes each file of a folder of packages, and finds in it what the requests must have left there.
#
#     torture/stock_folder.sh               of a folder that the proved program makes of samples/archive.csv
#     torture/stock_folder.sh --unproved    the same by the same code, before any proof
#     SHEETDESK=PROGRAM torture/stock_folder.sh    by another program
#     torture/stock_folder.sh FOLDER LIST ARCHIVE FRAME    of a folder that is there, in which LIST was carried out
#
# Of each live package: PRAGMA integrity_check and foreign_key_check of `sqlite3`; the rows of every table, counted; its head; the sums of
# its items and links; and all items, links and receipts, contents too, as bench/plain_audit.py and plain_folder.py read them by Python's
# sqlite3. Of each other file, which a loan that came home left behind: the two checks. What must be there is worked out by the second
# machine (samples/reference.py) from the list alone. Works on a copy. It needs sqlite3 from 3.37 on, and Python. Status 0 where all is
# as it must be, 1 where not.
set -euo pipefail
top=$(cd "$(dirname "$(readlink -f "${BASH_SOURCE[0]}")")/.." && pwd)
work=$(mktemp -d)
trap 'rm -rf "$work"' EXIT
if [ $# = 4 ]; then
  folder=$1 list=$2 archive=$3 frame=$4
else
  folder=$work/made list=$top/samples/archive.csv archive=6f0d3a52-9c1e-4b7a-8f24-1d5be07c9a10
  frame=25832,500000000,5900000000,540960000,5961440000,256,256,4,3,2,3
  if [ -n "${SHEETDESK-}" ]; then program=("$SHEETDESK"); else program=("$top/sheetdesk" "$@"); fi
  mkdir "$folder"
  "${program[@]}" init --archive $archive --at 2026-03-02T07:30:00.000Z --frame $frame "$folder" >/dev/null
  "${program[@]}" import "$folder" "$list" >"$work/report"
  sed '/^package /,$d' "$top/samples/archive.expected.txt" | cmp - "$work/report"
fi
cp -r "$folder" "$work/copy"

# What must be there: lines `package <uuid> <what> <value>`.
python3 - "$top" "$list" "$archive" "$frame" >"$work/due" <<'END'
import sys
from collections import Counter, defaultdict

sys.dont_write_bytecode = True
sys.path.insert(0, sys.argv[1] + "/samples")
import reference
from machine.contents import ENDS, KINDS
from machine.world import held, sums_of

with open(sys.argv[2], "rb") as given:
    done = reference.rehearse(*sys.argv[3:], given.read())
# The receipts that stand in a package: those of a loan come home with it.
stands = defaultdict(list)
for receipt in done.world.receipts:
    command = receipt.line.split(" ", 1)[0]
    if command == "merge":
        stands[receipt.target] += stands.pop(receipt.source, [])
    stands[receipt.target if command in ("add", "link", "merge") else receipt.source].append(receipt)
frame = done.world.frame
for uuid, package in sorted(done.world.packages.items()):
    things = held(package)
    counts = Counter(thing.kind for thing in things)
    tables = {
        "gpkg_spatial_ref_sys": 3 + (frame.srs not in (-1, 0, 4326)), "gpkg_contents": 3, "gpkg_tile_matrix_set": 1, "gpkg_tile_matrix": frame.levels,
        "gpkgext_relations": 3, "sheet_package": 1, "sheet_tiles": counts[1], "sheet_media": counts[2], "sheet_rows": counts[3],
        "sheet_identity": counts[1] + counts[2] + counts[3], **{mapping: counts[KINDS[mapping]] for mapping in ENDS},
        "sheet_receipts": len(stands[uuid]), "sheet_items": sum(len(receipt.moved) for receipt in stands[uuid]),
    }
    for table, count in tables.items():
        print(uuid, table, count)
    print(uuid, "head", f"1|2|{uuid}|{package.parent or ''}|{package.depth}|{package.loan}")
    print(uuid, "sums", "|".join(map(str, sums_of(things))))
    print(uuid, "last", max((receipt.seq for receipt in stands[uuid]), default=0))
print("-", "receipts", len(done.world.receipts))
END
failed=0
found() {
  [ "$1" = "$2" ] || { echo "$3: wanted $1, and found $2"; failed=1; }
}
ask() { sqlite3 -bail -noheader -list "$work/copy/$1.gpkg" "$2" 2>&1 || true; }
files=0
for file in "$work/copy"/*.gpkg; do
  name=$(basename "$file" .gpkg)
  files=$((files + 1))
  found ok "$(ask "$name" 'PRAGMA integrity_check')" "$name: integrity_check"
  found '' "$(ask "$name" 'PRAGMA foreign_key_check')" "$name: foreign_key_check"
done
values=0
while read -r package what value; do
  case $what in
    receipts) continue ;;
    head) query='SELECT id, version, package, parent, depth, loan FROM sheet_package' ;;
    sums)
      query='SELECT (SELECT count(*) FROM sheet_tiles), (SELECT count(*) FROM sheet_media), (SELECT count(*) FROM sheet_rows),
        (SELECT count(*) FROM tiles_media) + (SELECT count(*) FROM rows_media) + (SELECT count(*) FROM rows_tiles),
        (SELECT coalesce(sum(length(tile_data)), 0) FROM sheet_tiles) + (SELECT coalesce(sum(length(data)), 0) FROM sheet_media)
        + (SELECT coalesce(sum(length(CAST(label AS BLOB))), 0) FROM sheet_rows)'
      ;;
    last) query='SELECT coalesce(max(seq), 0) FROM sheet_receipts' ;;
    *) query="SELECT count(*) FROM $what" ;;
  esac
  values=$((values + 1))
  found "$value" "$(ask "$package" "$query")" "$package: $what"
done <"$work/due"
echo "$files files, integrity_check and foreign_key_check of each; $values counts, heads and sums of live packages"

# All items, links and receipts, read by Python over stock SQLite.
found "good $(sed -n 's/^- receipts //p' "$work/due")" "$(python3 "$top/bench/plain_folder.py" audit "$work/copy" || true)" 'audit by plain Python'
python3 "$top/samples/reference.py" "$archive" "$frame" <"$list" >"$work/printed"
for package in $(sed -n 's/^package //p' "$work/printed"); do
  sed -n "/^package $package\$/,/^package /{/^package /d;p}" "$work/printed" >"$work/manifest.due"
  python3 "$top/bench/plain_folder.py" manifest "$work/copy" "$package" >"$work/manifest" || true
  cmp "$work/manifest.due" "$work/manifest" || failed=1
done
echo "audit and manifests by plain Python: $(grep -c '^package ' "$work/printed") packages"
if [ "$failed" = 0 ]; then echo 'all as it must be'; fi
exit "$failed"
