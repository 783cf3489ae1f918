#!/usr/bin/env bash
# A first session over a folder of packages: an archive is made, lends and gets back, is read, audited and served; then it is damaged.
#
#     torture/folder_session.sh               over the proved program
#     torture/folder_session.sh --unproved    over the same code, before any proof
#     SHEETDESK=PROGRAM torture/folder_session.sh    over another program
#
# What must come was made without the program: reports and manifests by samples/archive.expected.txt, replies and the list of packages
# by the second machine of samples/reference.py, refusals, faults and their statuses by hand. Status 0 where everything came to the byte,
# with its status; else 1, with what was wanted and what came, at the first difference. It needs curl, Python and sqlite3 from 3.37 on,
# which finds each file whole, and does the damage.
set -euo pipefail
top=$(cd "$(dirname "$(readlink -f "${BASH_SOURCE[0]}")")/.." && pwd)
archive=6f0d3a52-9c1e-4b7a-8f24-1d5be07c9a10
at=2026-03-02T07:30:00.000Z
frame=25832,500000000,5900000000,540960000,5961440000,256,256,4,3,2,3
survey=9e87f694-2da1-502c-b23b-ebc6916abeb6
other=b0000000-0000-4000-8000-000000000001
sample=$top/samples/archive.csv
work=$(mktemp -d)
desk=
finish() {
  # The desk and what it started, where it still runs.
  if [ -n "$desk" ]; then kill -KILL -- "-$desk" 2>/dev/null || true; fi
  rm -rf "$work"
}
trap finish EXIT
if [ -n "${SHEETDESK-}" ]; then program=("$SHEETDESK"); else program=("$top/sheetdesk" "$@"); fi

differs() {
  echo "$1: wanted:" >&2
  cat "$2" >&2
  printf '\n%s: came:\n' "$1" >&2
  cat "$3" >&2
  echo >&2
  exit 1
}
steps=0
# expect STATUS OUTPUT ERRORS WORDS..: of the program with these words, over what stands on standard input. OUTPUT and ERRORS are texts, each
# with its last LF, or the files `@NAME`. Of a status that is not 0, ERRORS is how standard error begins.
expect() {
  local wanted=$1 output=$2 errors=$3 status=0
  shift 3
  steps=$((steps + 1))
  case $output in @*) cp "${output#@}" "$work/out.wanted" ;; *) printf '%s' "$output" >"$work/out.wanted" ;; esac
  printf '%s' "$errors" >"$work/err.wanted"
  "${program[@]}" "$@" >"$work/out" 2>"$work/err" || status=$?
  # What ./sheetdesk itself says of a run without a proof.
  sed -i '/^sheetdesk: nothing is proved of this run/d' "$work/err"
  # What is told of the refusals of a list that was carried out.
  sed -i '/^record [0-9]*: refusal /d; /^and [0-9]* more$/d' "$work/err"
  # Where something is told, lines in plain words may follow it.
  if [ "$wanted" != 0 ]; then
    head -n "$(grep -c '' "$work/err.wanted")" "$work/err" >"$work/err.first" && mv "$work/err.first" "$work/err"
  fi
  cmp -s "$work/out.wanted" "$work/out" || differs "$* (standard output)" "$work/out.wanted" "$work/out"
  cmp -s "$work/err.wanted" "$work/err" || differs "$* (standard error)" "$work/err.wanted" "$work/err"
  if [ "$status" != "$wanted" ]; then
    echo "$*: status $status, and not $wanted" >&2
    exit 1
  fi
}
nl=$'\n'
# Each file of the folder is whole by itself, to stock SQLite.
are_whole() {
  local file
  for file in "$1"/*.gpkg; do
    cp "$file" "$work/alone"
    rm -f "$work/alone-wal" "$work/alone-shm"
    [ "$(sqlite3 "$work/alone" 'PRAGMA integrity_check')" = ok ] || { echo "$file is not whole" >&2; exit 1; }
  done
}
# The number of items that the file of a package has by itself.
holds() {
  cp "$1/$2.gpkg" "$work/alone"
  [ "$(sqlite3 "$work/alone" 'SELECT count(*) FROM sheet_identity')" = "$3" ] || { echo "$2 has not $3 items in its one file" >&2; exit 1; }
}
# What the second machine makes of a list.
second() { python3 "$top/samples/reference.py" "$1" "$archive" "$frame" <"$2"; }
manifest_of() { sed -n "/^package $1\$/,/^package /{/^package /d;p}" "$2"; }
header=$(head -n 1 "$sample")

no_folder='the folder is not there, or cannot be read and written'
no_archive="no file says that it is the archive's"
# ---- an archive is made
maps=$work/maps
expect 3 '' "store: StoreFault${nl}$no_folder$nl" init --archive $archive --at $at --frame $frame "$maps" </dev/null
mkdir "$maps"
expect 1 "refused: uuid$nl" '' init --archive x --at x --frame x "$maps" </dev/null
expect 1 "refused: at$nl" '' init --archive $archive --at x --frame x "$maps" </dev/null
expect 1 "refused: frame$nl" '' init --archive $archive --at $at --frame 1,2 "$maps" </dev/null
[ -z "$(ls -A "$maps")" ] || { echo 'something was made of words that were refused' >&2; exit 1; }
expect 3 "NoArchive$nl" "$no_archive$nl" audit "$maps" </dev/null
expect 3 '' "store: NoArchive${nl}$no_archive$nl" apply "$maps" </dev/null
echo a note >"$maps/readme.txt"
expect 0 "archive $archive$nl" '' init --archive $archive --at $at --frame $frame "$maps" </dev/null
expect 1 "refused: folder holds packages$nl" '' init --archive $other --at $at --frame $frame "$maps" </dev/null
expect 0 "good 0$nl" '' audit "$maps" </dev/null
are_whole "$maps"

# ---- it lends and gets back
sed '/^package /,$d' "$top/samples/archive.expected.txt" >"$work/report"
receipts=$(awk -F, 'NR > 1 && $3 > most { most = $3 } END { print most }' "$work/report")
expect 0 "@$work/report" '' import "$maps" "$sample" </dev/null
for package in $archive $survey; do
  manifest_of $package "$top/samples/archive.expected.txt" >"$work/manifest"
  expect 0 "@$work/manifest" '' manifest "$maps" $package </dev/null
  holds "$maps" $package "$(grep -c -E '^(tile|media|row),' "$work/manifest")"
done
expect 1 "refused: no such package$nl" '' manifest "$maps" $other </dev/null
expect 1 "refused: uuid$nl" '' manifest "$maps" x </dev/null
expect 0 "good $receipts$nl" '' audit "$maps" </dev/null
are_whole "$maps"
# The list once more: what was accepted has its receipts, and the rest is judged again.
{ cat "$sample"; tail -n +2 "$sample"; } >"$work/twice.csv"
second --replies "$work/twice.csv" >/dev/null
python3 "$top/samples/reference.py" "$archive" "$frame" <"$work/twice.csv" | sed '/^package /,$d' |
  awk -F, -v OFS=, 'NR == 1; NR > 101 { $1 = NR - 101; print }' >"$work/report"
expect 0 "@$work/report" '' import "$maps" "$sample" </dev/null
printf 'no list\n' >"$work/bad.csv"
expect 1 "refused: list$nl" '' import "$maps" "$work/bad.csv" </dev/null
expect 1 "refused: list$nl" '' import "$maps" "$work/nowhere.csv" </dev/null
expect 3 '' "store: StoreFault${nl}$no_folder$nl" import "$work/nowhere" "$sample" </dev/null

# ---- a request alone
cat >"$work/more" <<END
a0000000-0000-4000-8000-000000000001,2026-03-03T08:00:00.000Z,add,$archive,a0000000-0000-4000-8000-0000000000f1,,media,,,,,,,,,,text/plain,6120636f6d6d61
a0000000-0000-4000-8000-000000000002,2026-03-03T08:00:30.000Z,split,$archive,,$other,strict,6,7,11,7,11,,,,,,
a0000000-0000-4000-8000-000000000003,2026-03-03T08:01:00.000Z,add,$other,a0000000-0000-4000-8000-0000000000f2,,row,,,,,,540000000,5901000000,7,,buoy,
a0000000-0000-4000-8000-000000000004,2026-03-03T08:01:30.000Z,add,$survey,a0000000-0000-4000-8000-0000000000f1,,media,,,,,,,,,,text/plain,61
END
{ cat "$work/twice.csv" "$work/more"; } >"$work/long.csv"
second --replies "$work/long.csv" | tail -n 4 >"$work/replies"
{ echo "$header"; cat "$work/more"; } | python3 "$top/bench/desk_requests.py" >"$work/requests"
number=0
while IFS= read -r request <&3 && IFS= read -r reply <&4; do
  number=$((number + 1))
  printf '%s' "$request" >"$work/request.$number"
  printf '%s\n' "$reply" >"$work/reply.$number"
done 3<"$work/requests" 4<"$work/replies"
for number in 1 1 2; do
  expect 0 "@$work/reply.$number" '' apply "$maps" <"$work/request.$number"
done
expect 1 "@$work/reply.4" '' apply "$maps" <"$work/request.4"
expect 1 "refused: body$nl" '' apply "$maps" <<<'{}'
expect 1 "refused: body$nl" '' apply "$maps" </dev/null
head -c 2200001 /dev/zero | tr '\0' ' ' >"$work/large"
expect 1 "refused: body$nl" '' apply "$maps" <"$work/large"
expect 3 '' "store: StoreFault${nl}$no_folder$nl" apply "$work/nowhere" <"$work/request.1"
expect 0 "good $((receipts + 2))$nl" '' audit "$maps" </dev/null
are_whole "$maps"

# ---- a desk
port=$(python3 -c 'import socket; s = socket.socket(); s.bind(("127.0.0.1", 0)); print(s.getsockname()[1])')
for words in "0 1" "65536 1" "x 1" "8080 0" "8080 1000001" "8080 01"; do
  # shellcheck disable=SC2086
  expect 1 "refused: number$nl" '' serve "$maps" $words </dev/null
done
expect 1 "refused: number$nl" '' serve "$work/nowhere" 0 1 </dev/null
expect 3 '' "store: StoreFault${nl}$no_folder$nl" serve "$work/nowhere" "$port" 1 </dev/null
# open_desk COUNT: a desk, which is there once it lets a client in.
open_desk() {
  setsid "${program[@]}" serve "$maps" "$port" "$1" </dev/null >"$work/desk.out" 2>"$work/desk.err" &
  desk=$!
}
# came WANTED CURL-WORDS..: what a client gets.
came() {
  local wanted=$1
  shift
  steps=$((steps + 1))
  while :; do
    if curl -sS -o "$work/came" "$@" 2>"$work/curl"; then break; fi
    kill -0 "$desk" 2>/dev/null || { cat "$work/curl" "$work/desk.err" >&2; exit 1; }
    sleep 1
  done
  cmp -s "$wanted" "$work/came" || differs "curl ${*: -1}" "$wanted" "$work/came"
}
printf '%s' "$(cat "$work/reply.3")" >"$work/reply.3.body"
{ cat "$work/twice.csv"; head -n 2 "$work/more"; } >"$work/long.csv"
second --packages "$work/long.csv" | tr -d '\n' >"$work/packages"
open_desk 5
came "$work/packages" "http://127.0.0.1:$port/packages"
# While the desk has the folder, commands ask it.
expect 0 "good $((receipts + 2))$nl" '' audit "$maps" </dev/null
expect 0 "@$work/reply.3" '' apply "$maps" <"$work/request.3"
came "$work/reply.3.body" --data-binary "@$work/request.3" "http://127.0.0.1:$port/requests"
{ cat "$work/twice.csv"; head -n 3 "$work/more"; } >"$work/long.csv"
python3 "$top/samples/reference.py" "$archive" "$frame" <"$work/long.csv" >"$work/printed"
manifest_of $other "$work/printed" >"$work/manifest"
came "$work/manifest" "http://127.0.0.1:$port/packages/$other/manifest"
status=0
wait "$desk" || status=$?
desk=
[ "$status" = 0 ] && [ ! -s "$work/desk.out" ] || { echo "the desk ended with $status" >&2; cat "$work/desk.out" "$work/desk.err" >&2; exit 1; }
expect 0 "good $((receipts + 3))$nl" '' audit "$maps" </dev/null
are_whole "$maps"

# ---- a desk that is killed: what it answered stands
cat >"$work/last" <<END
a0000000-0000-4000-8000-000000000005,2026-03-03T08:02:00.000Z,merge,$other,,$archive,,,,,,,,,,$((receipts + 3)),,
END
cat "$work/last" >>"$work/long.csv"
second --replies "$work/long.csv" | tail -n 1 | tr -d '\n' >"$work/reply"
{ echo "$header"; cat "$work/last"; } | python3 "$top/bench/desk_requests.py" | tr -d '\n' >"$work/request"
open_desk 100
came "$work/reply" --data-binary "@$work/request" "http://127.0.0.1:$port/requests"
kill -KILL -- "-$desk"
wait "$desk" 2>/dev/null || true
desk=
expect 0 "good $((receipts + 4))$nl" '' audit "$maps" </dev/null
expect 1 "refused: no such package$nl" '' manifest "$maps" $other </dev/null
python3 "$top/samples/reference.py" "$archive" "$frame" <"$work/long.csv" >"$work/printed"
manifest_of $archive "$work/printed" >"$work/manifest"
expect 0 "@$work/manifest" '' manifest "$maps" $archive </dev/null
are_whole "$maps"

# ---- damage: each of the nine faults, in a copy
damaged() {
  rm -rf "$work/copy"
  cp -r "$maps" "$work/copy"
}
# is_found FAULT NOTE
is_found() {
  expect 3 "$1$nl" "$2$nl" audit "$work/copy" </dev/null
  expect 3 '' "store: $1$nl$2$nl" manifest "$work/copy" $archive </dev/null
}
alter() { sqlite3 "$work/copy/$1.gpkg" "$2" >/dev/null; }
damaged
rm "$work/copy/$archive.gpkg"*
is_found NoArchive "$no_archive"
damaged
cp "$work/copy/$archive.gpkg" "$work/copy/c0000000-0000-4000-8000-000000000000.gpkg"
is_found TwoArchives "two files say that they are the archive's"
damaged
alter $survey 'DROP TABLE rows_tiles'
is_found NotAPackage "package $survey lacks a table of its form, or has a value out of its range"
damaged
cp "$work/copy/$survey.gpkg" "$work/copy/c0000000-0000-4000-8000-000000000000.gpkg"
split=$(sqlite3 "$work/copy/$archive.gpkg" "SELECT max(seq) FROM sheet_receipts WHERE target = '$survey' AND line LIKE 'split %'")
is_found TwoCopies "package $survey of open split $split is there twice"
damaged
rm "$work/copy/$survey.gpkg"*
is_found MissingPackage "package $survey is named by open split $split and has no file"
damaged
alter $survey 'UPDATE sheet_package SET depth = 2'
is_found ForeignFrame "package $survey of open split $split has not the archive's frame, or is not one level below its lender"
damaged
alter $archive 'DELETE FROM sheet_identity WHERE kind = 3 AND local_id = (SELECT min(local_id) FROM sheet_identity WHERE kind = 3)'
is_found Dangling "package $archive has a row without identity, an identity without row, or a link without row"
damaged
alter $archive 'UPDATE sheet_receipts SET n_bytes = n_bytes + 1 WHERE seq = 1'
is_found OutOfAccount 'the receipts do not add up to what the packages hold'
damaged
alter $archive 'DELETE FROM sheet_items WHERE seq = 1'
is_found OutOfAccount 'the receipts do not add up to what the packages hold'
damaged
alter $survey 'UPDATE sheet_tiles SET tile_data = zeroblob(length(tile_data))'
least=$(sqlite3 "$work/copy/$survey.gpkg" 'SELECT min(uuid) FROM sheet_identity WHERE kind = 1')
added=$(for one in "$archive" "$survey"; do sqlite3 "$work/copy/$one.gpkg" "SELECT seq FROM sheet_receipts WHERE line LIKE 'add % $least %'"; done)
is_found Altered "item $least has not the content that its receipt $added names"
damaged
printf 'no database' >"$work/copy/$survey.gpkg"
is_found StoreFault "$survey.gpkg cannot be opened, is no database, or too many files are open"
echo "$steps steps, each as it must be"
