#!/usr/bin/env bash
# The launcher ./sheetdesk and its build, over a repository of two small crates: what it keeps, and what it refuses.
#
#     torture/launcher.sh        some two minutes, of which most is proof
#
# A build in one clone serves another; a crate that is not proved gives no program, and status 4; a build that was killed is begun again;
# of two at once, one builds and the other waits; nothing is built without the toolchain. Nothing outside a temporary folder is written but
# what `rt ci` keeps. Status 0 where all is so.
set -euo pipefail
top=$(cd "$(dirname "$(readlink -f "${BASH_SOURCE[0]}")")/.." && pwd)
work=$(mktemp -d)
trap 'rm -rf "$work"' EXIT
export XDG_CACHE_HOME=$work/cache RT_JOBS=1
fail() {
  echo "$*" >&2
  exit 1
}
# A repository whose program reads lines as `tea 95`, with this comment in the crate below it.
make() {
  mkdir -p "$work/$1/crates" "$work/$1/tools"
  git init -q "$work/$1"
  (cd "$work/$1" && rt new crates/low start_lib && rt new crates/sheetdesk start_io) >/dev/null
  find "$work/$1" -name BUILD.bazel -delete
  printf '# two\nlow:\n\nsheetdesk: low\n' >"$work/$1/crates.txt"
  echo 'Handles allowed: none.' >"$work/$1/HANDLES"
  cp "$top/sheetdesk" "$work/$1/"
  cp "$top/tools/build_program.py" "$top/tools/prove_crates.py" "$top/tools/run_unproved.py" "$work/$1/tools/"
  change "$1" "$2"
}
# So that no earlier run of this script has built the same.
change() { sed -i "1s|^.*|// $2, $$ $(date +%N)|" "$work/$1/crates/low/src/lib.rt"; }
prints() { [ "$(cd "$work/$1" && echo 'tea 95' | ./sheetdesk 2>"$work/said")" = 'tea 1:35' ] || fail "$1: it did not run: $(cat "$work/said")"; }
program_of() { (cd "$work/$1" && ./sheetdesk --built 2>/dev/null); }

make one first
prints one
grep -q '^sheetdesk: built in' "$work/said" || fail 'the first call did not build'
prints one
[ ! -s "$work/said" ] || fail 'the second call said something'

cp -r "$work/one" "$work/two"
rm -rf "$work"/two/crates/*/out
prints two
[ ! -s "$work/said" ] || fail 'another clone built again'

sed -i 's/^    x$/    x - x/' "$work/two/crates/low/src/lib.rt"
status=0
(cd "$work/two" && ./sheetdesk) >"$work/out" 2>"$work/said" </dev/null || status=$?
[ "$status" = 4 ] || fail "a wrong body gave status $status"
grep -q 'it cannot be built: low not proved: see ' "$work/said" || fail "a wrong body: $(cat "$work/said")"
[ ! -s "$work/out" ] || fail 'a wrong body printed'
sed -i 's/^    x - x$/    x/' "$work/two/crates/low/src/lib.rt"

change one killed
(cd "$work/one" && exec ./sheetdesk --built) >/dev/null 2>&1 &
sleep 4
kill "$(pgrep -P $!)" && wait $! && fail 'a killed build ended well' || true
[ ! -e "$work/cache/sheetdesk/building" ] || fail 'a killed build left its copy'

cp "$work/one/crates/low/src/lib.rt" "$work/two/crates/low/src/lib.rt"
(cd "$work/one" && ./sheetdesk --built) >"$work/first" 2>"$work/first.said" &
first=$!
sleep 1
(cd "$work/two" && ./sheetdesk --built) >"$work/second" 2>"$work/second.said" &
wait "$first" && wait $! || fail 'of two at once one failed'
cmp -s "$work/first" "$work/second" || fail 'two at once made two programs'
[ "$(cat "$work/first.said" "$work/second.said" | grep -c '^sheetdesk: built in')" = 1 ] || fail 'two at once built twice'

rm -rf "$work/two/crates/sheetdesk/out"
status=0
(cd "$work/two" && PATH=/usr/bin:/bin ./sheetdesk) 2>"$work/said" </dev/null || status=$?
[ "$status" = 4 ] && grep -q 'rt is not on the path' "$work/said" || fail "without the toolchain: $status, $(cat "$work/said")"
echo 'the launcher does as it says'
