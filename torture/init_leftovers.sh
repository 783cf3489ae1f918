#!/usr/bin/env bash
# What an earlier stop or a hand left in a folder, two programs at once, links and second names.
#
#     torture/init_leftovers.sh                      over the proved program
#     SHEETDESK=PROGRAM torture/init_leftovers.sh    over another program
#
# Each step says what has to come: the status, standard output and standard error, to the byte. Status 0 where all came; else 1, with what
# was wanted and what came, at the first difference. It needs nothing but bash and coreutils.
set -euo pipefail
here=$(cd "$(dirname "$(readlink -f "${BASH_SOURCE[0]}")")" && pwd)
program=${SHEETDESK-$here/../sheetdesk}
archive=a0000000-0000-4000-8000-000000000000
other=c0000000-0000-4000-8000-000000000000
at=2024-05-01T08:00:00.000Z
frame=25832,0,0,4096,4096,256,256,0,3,1,1
making=(init --archive "$archive" --at "$at" --frame "$frame")
work=$(mktemp -d)
holder=
finish() {
  if [ -n "$holder" ]; then kill -KILL "$holder" 2>/dev/null || true; fi
  rm -rf "$work"
}
trap finish EXIT
steps=0
# expect STATUS OUTPUT ERRORS WORDS..
expect() {
  local wanted=$1 output=$2 errors=$3 status=0
  shift 3
  steps=$((steps + 1))
  "$program" "$@" >"$work/out" 2>"$work/err" </dev/null || status=$?
  if [ "$(cat "$work/out"; echo .)" != "$output." ] || [ "$(cat "$work/err"; echo .)" != "$errors." ] || [ "$status" != "$wanted" ]; then
    {
      echo "step $steps, $*: wanted status $wanted and"
      printf '%s--\n%s' "$output" "$errors"
      echo "came status $status and"
      cat "$work/out"
      echo --
      cat "$work/err"
    } >&2
    exit 1
  fi
}
fails() {
  echo "$1" >&2
  exit 1
}
nl=$'\n'
# Old logs beside a name that no file has: they go before the new archive takes the name, and all commands work then.
for left in -wal -journal -shm -new -new-wal .old; do
  folder=$work/left$left
  mkdir "$folder"
  head -c 4152 /dev/zero | tr '\0' '\177' >"$folder/$archive.gpkg$left"
  expect 0 "archive $archive$nl" "" "${making[@]}" "$folder"
  expect 0 "good 0$nl" "" audit "$folder"
done
mkdir "$work/maps"
expect 0 "archive $archive$nl" "" "${making[@]}" "$work/maps"
expect 0 "good 0$nl" "" audit "$work/maps"
# A log whose place a folder takes: no archive is made, and nothing says that one was.
mkdir -p "$work/way/$archive.gpkg-wal"
expect 3 "" "store: StoreFault$nl" "${making[@]}" "$work/way"
[ ! -e "$work/way/$archive.gpkg" ] || fails "an archive was made beside a folder in the place of its log"
# A folder that holds packages, and none, and no folder at all.
expect 1 "refused: folder holds packages$nl" "" "${making[@]}" "$work/maps"
expect 3 "" "store: StoreFault${nl}the folder is not there, or cannot be read and written$nl" "${making[@]}" "$work/none"
expect 3 "" "store: StoreFault${nl}the folder is not there, or cannot be read and written$nl" status ""

# Two at once: whoever holds the lock keeps the other out, whatever the subcommand.
flock "$work/maps/sheetdesk.lock" -c "touch $work/held; exec sleep 600" &
holder=$!
for _ in $(seq 100); do [ -e "$work/held" ] && break; sleep 0.1; done
held="store: StoreFault${nl}another process may hold the folder$nl"
expect 3 "" "$held" "${making[@]}" "$work/maps"
expect 3 "" "$held" status "$work/maps"
expect 3 "" "$held" import "$work/maps" /dev/null
expect 3 "StoreFault$nl" "another process may hold the folder$nl" audit "$work/maps"
pkill -KILL -P "$holder" 2>/dev/null || true
kill -KILL "$holder" 2>/dev/null || true
wait "$holder" 2>/dev/null || true
holder=
expect 0 "good 0$nl" "" audit "$work/maps"
# A race of eight: one makes the archive.
mkdir "$work/race"
for n in 1 2 3 4 5 6 7 8; do
  "$program" init --archive "${n}0000000-0000-4000-8000-000000000000" --at "$at" --frame "$frame" "$work/race" >"$work/race.$n" 2>&1 &
done
wait
[ "$(cat "$work"/race.? | grep -c '^archive ')" = 1 ] || fails "of eight archives in one folder not one was made: $(cat "$work"/race.?)"
[ "$(ls "$work/race" | grep -c '\.gpkg$')" = 1 ] || fails "the folder holds not one package: $(ls "$work/race")"
expect 0 "good 0$nl" "" audit "$work/race"

# A second name, a link that leads nowhere, a link in place of a log: told by name and why.
cp -r "$work/maps" "$work/names"
ln "$work/names/$archive.gpkg" "$work/names/copy"
expect 3 "" "store: StoreFault$nl$archive.gpkg or its log has a second name$nl" status "$work/names"
rm "$work/names/copy"
ln -s nowhere "$work/names/$other.gpkg"
expect 3 "" "store: StoreFault$nl$other.gpkg or its log is a symbolic link$nl" status "$work/names"
rm "$work/names/$other.gpkg" "$work/names/nowhere" 2>/dev/null || true
rm -f "$work/names/$archive.gpkg-wal"
ln -s elsewhere "$work/names/$archive.gpkg-wal"
expect 3 "" "store: StoreFault$nl$archive.gpkg or its log is a symbolic link$nl" status "$work/names"
echo "all as wanted: $steps calls"
