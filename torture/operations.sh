#!/usr/bin/env bash
# Goes through docs/OPERATIONS.md as one who keeps a register: backups, restoring, moving, a full disk, two registers, files of no live
# package, and folders that do not open, each mended as the page says.
#
#     torture/operations.sh                      over the proved program
#     SHEETDESK=PROGRAM torture/operations.sh    over another program
#
# What must come is counted by hand, or read by stock sqlite3. Status 0 where all came; else 1, with the step. It needs sqlite3, and for the
# full disk the right to mount a file system in memory (else that step is left out).
set -euo pipefail
top=$(cd "$(dirname "$(readlink -f "${BASH_SOURCE[0]}")")/.." && pwd)
desk=${SHEETDESK:-$("$top/sheetdesk" --built)}
archive=6f0d3a52-9c1e-4b7a-8f24-1d5be07c9a10
frame=25832,500000000,5900000000,540960000,5961440000,256,256,4,3,2,3
room=$(mktemp -d)
trap 'umount "$room/small" 2>/dev/null || true; rm -rf "$room"' EXIT
cd "$room"

fail() { echo "operations: $*" >&2; exit 1; }
# same WHAT WANTED COMMAND..: what the command prints is what is wanted
same() { local what=$1 wanted=$2 came; shift 2; came=$("$@" 2> said) || true; [ "$came" = "$wanted" ] || fail "$what: wanted '$wanted', came '$came' ($(cat said))"; }
# told WHAT TEXT COMMAND..: the command ends with status 3, and standard error has the text
told() { local what=$1 text=$2 status=0; shift 2; "$@" > came 2> said || status=$?; [ $status = 3 ] && grep -qF -- "$text" said came || fail "$what: status $status, $(cat came said)"; }
count() { sqlite3 -readonly "$1" 'SELECT count(*) FROM sheet_receipts'; }

# Every day: a list of four requests, sent twice.
head -1 "$top/samples/archive.csv" > first.csv
cat >> first.csv <<LIST
90000000-0000-4000-8000-000000000001,2026-03-02T07:30:01.000Z,add,$archive,00000000-0000-4000-8000-000000000001,,row,,,,,,510000000,5910000000,7,,gate,
90000000-0000-4000-8000-000000000002,2026-03-02T07:30:02.000Z,add,$archive,00000000-0000-4000-8000-000000000002,,tile,4,0,2,,,,,,,,89504e47
90000000-0000-4000-8000-000000000003,2026-03-02T07:30:03.000Z,add,$archive,00000000-0000-4000-8000-000000000003,,media,,,,,,,,,,image/png,89504e47
LIST
mkdir maps
same init "archive $archive" "$desk" init maps --frame "$frame" --archive $archive --at 2026-03-02T07:30:00.000Z
"$desk" import maps first.csv > report.csv
[ "$(grep -c ',0$' report.csv)" = 3 ] || fail "first list: $(cat report.csv)"
"$desk" import maps first.csv | cmp - report.csv || fail 'the same list again gives another report'
same audit 'good 3' "$desk" audit maps

# Backups: the copy says the same number; a linked copy is refused, and the two commands mend it.
cp -a maps backup
same 'the copy' 'good 3' "$desk" audit backup
cp -al maps linked
told 'a linked copy' 'has a second name' "$desk" audit linked
rm -rf maps.mended; cp -al maps maps.mended
for file in maps.mended/*.gpkg*; do cp -p "$file" "$file.tmp" && mv "$file.tmp" "$file"; done
rm -rf linked
same 'a mended copy' 'good 3' "$desk" audit maps.mended
rm -rf maps.mended
same 'after the linked copy' 'good 3' "$desk" audit maps

# Restoring: lists since then are sent again; earlier requests act once.
loan=$("$desk" lend maps 4/0/2 | sed -n 's/^loan //p')
[ -n "$loan" ] || fail 'no loan was lent'
mv maps aside
cp -a backup maps
same 'a restored folder' 'good 3' "$desk" audit maps
"$desk" import maps first.csv | cmp - report.csv || fail 'after restoring, the list gives another report'
rm -rf maps; mv aside maps
same 'with the loan' 'good 4' "$desk" audit maps

# A single file of a backup in a folder that went on is a fault, or fewer receipts.
cp -a maps mixed
cp backup/$archive.gpkg mixed/
rm -f mixed/*-wal
came=$("$desk" audit mixed 2> said) || true
[ "$came" != 'good 4' ] || fail 'an old archive was taken for the new one'

# Moving.
mv maps elsewhere
same 'a moved folder' 'good 4' "$desk" audit elsewhere
mv elsewhere maps

# Two registers: the loan of one counts for nothing in the other.
mkdir other
"$desk" init other --frame "$frame" > /dev/null
cp maps/$loan.gpkg other/
same 'a loan of another register' 'strays 1' sh -c "'$desk' status other | tail -1"
"$desk" tidy other > gone
[ ! -s gone ] && [ -e other/$loan.gpkg ] || fail 'tidy took the loan of another register'

# Folders that do not open: each fault tells what it names, and is mended as the page says.
cp -a maps bad
split=$(sqlite3 -readonly bad/$archive.gpkg "SELECT seq FROM sheet_receipts WHERE line LIKE 'split %'")
mv bad/$loan.gpkg away
told 'a loan without its file' "package $loan is named by open split $split and has no file" "$desk" status bad
same 'its fault' MissingPackage "$desk" audit bad
mv away bad/$loan.gpkg
same 'the file put back' 'good 4' "$desk" audit bad
mv bad/$archive.gpkg bad/$archive.gpkg.old
same 'no archive' NoArchive "$desk" audit bad
mv bad/$archive.gpkg.old bad/$archive.gpkg
cp bad/$loan.gpkg bad/c0000000-0000-4000-8000-000000000001.gpkg
told 'two copies' "package $loan of open split $split is there twice" "$desk" status bad
rm bad/c0000000-0000-4000-8000-000000000001.gpkg*
sqlite3 bad/$archive.gpkg "UPDATE sheet_media SET data = x'89504e48'"
medium=00000000-0000-4000-8000-000000000003
number=$(sqlite3 -readonly bad/$archive.gpkg "SELECT seq FROM sheet_receipts WHERE line LIKE 'add % $medium %'")
told 'altered bytes' "item $medium has not the content that its receipt $number names" "$desk" status bad
[ "$(sqlite3 -readonly bad/$archive.gpkg "SELECT request FROM sheet_receipts WHERE seq = $number")" != '' ] || fail 'there is no such receipt'
"$desk" report bad > fault.html || true
grep -q Altered fault.html || fail 'the page does not name the fault'

# A loan comes home, and its file goes. What an older version left, tidy takes.
cp maps/$loan.gpkg kept
"$desk" return maps $loan > /dev/null
[ ! -e maps/$loan.gpkg ] || fail 'the file of a loan that came home stays'
cp kept maps/$loan.gpkg
same 'what was left' 'strays 1' sh -c "'$desk' status maps | tail -1"
"$desk" audit maps > /dev/null
"$desk" tidy maps | grep -qx "removed $loan.gpkg" || fail 'tidy left the file of a loan that came home'
same 'after tidy' 'good 5' "$desk" audit maps
[ "$(count maps/$archive.gpkg)" = 5 ] || fail 'stock sqlite3 counts other receipts'

# A full disk: status 3, and once there is room the same list goes through.
mkdir small
if mount -t tmpfs -o size=600k tmpfs small 2> /dev/null; then
  "$desk" init small --frame "$frame" --archive $archive > /dev/null
  head -1 first.csv > long.csv
  for n in $(seq 100 300); do
    echo "90000000-0000-4000-8000-000000000$n,2026-03-02T07:31:00.000Z,add,$archive,00000000-0000-4000-8000-000000000$n,,media,,,,,,,,,,image/png,$(head -c 2000 /dev/zero | tr '\0' a)" >> long.csv
  done
  told 'a full disk' StoreFault "$desk" import small long.csv
  mount -o remount,size=20m small
  "$desk" import small long.csv > report.csv
  [ "$(grep -c ',0$' report.csv)" = 201 ] || fail "after there was room: $(tail -1 report.csv)"
  same 'after there was room' 'good 201' "$desk" audit small
else
  echo 'operations: no file system in memory may be mounted here; the full disk is left out' >&2
fi
echo 'operations: each step as the page says'
