#!/usr/bin/env bash
# A test with each of its allocations refused in turn, whether an answer changes in place of the error.
#
# Usage: failing_allocations.sh [TEST [CRATE [FIRST [LAST]]]]
#
# TEST is the full name of a test, receipt_tests::a_receipt_comes_whole_or_not_at_all of package_tables if left out. That one
# enters a receipt; where memory is refused, it sees that the table is as it was, and enters it again. Those of test_worlds,
# as allocation_tests::a_tile_is_added_or_not, send a request to a world in memory. Needs the program that `rt test` leaves in
# crates/CRATE/out, and a C compiler, for a library that stands before malloc and realloc and refuses one call. FIRST is the
# first allocation that is refused, 1 if left out: a test of test_worlds makes two worlds before the one that counts. LAST is
# the last one; all that follow, if left out.
# A run ends well where the test passes, or where it ends with the error OutOfMemory. The last line counts:
#   passed   the refusal was met inside the test, which found every answer as it is without it
#   refused  a call of the test answered OutOfMemory, and the test ended there
#   wrong    anything else; each is listed before
# Status 0: none is wrong. 1: some are. 2: the script could not run.
set -euo pipefail

test=${1:-receipt_tests::a_receipt_comes_whole_or_not_at_all}
crate=${2:-test_packages}
program=$(cd "$(dirname "$0")/.." && pwd)/crates/$crate/out/${crate}_tests
if [ ! -x "$program" ]; then
  echo "no $program: run rt test in crates/$crate" >&2
  exit 2
fi
work=$(mktemp -d)
trap 'rm -rf "$work"' EXIT

cat >"$work/refuse.c" <<'END'
#include <errno.h>
#include <stdlib.h>
#include <unistd.h>

extern void *__libc_malloc(size_t), *__libc_realloc(void *, size_t);
static unsigned long count, at;

__attribute__((constructor)) static void begin(void) {
  const char *text = getenv("REFUSE_AT");
  at = text ? strtoul(text, 0, 10) : 0;
  count = 0;
}

static int refused(void) {
  if (at == 0 || ++count != at) return 0;
  if (write(2, "refused\n", 8) < 0) _exit(99);
  errno = ENOMEM;
  return 1;
}

void *malloc(size_t size) { return refused() ? 0 : __libc_malloc(size); }
void *realloc(void *old, size_t size) { return refused() ? 0 : __libc_realloc(old, size); }
END
"${CC:-cc}" -O2 -shared -fPIC -o "$work/refuse.so" "$work/refuse.c" || exit 2

first=${3:-1} last=${4:-0}
passed=0 refused=0 wrong=0 at=$((first - 1))
while :; do
  at=$((at + 1))
  if [ "$last" -gt 0 ] && [ "$at" -gt "$last" ]; then break; fi
  status=0
  LD_PRELOAD="$work/refuse.so" REFUSE_AT=$at "$program" "$test" >"$work/said" 2>&1 || status=$?
  said=$(tr '\n' ' ' <"$work/said")
  case "$status $said" in
    "0 refused "*'test result: ok'*) passed=$((passed + 1)) ;;
    "0 "*'test result: ok'*) break ;;
    "101 refused error: OutOfMemory the test failed: its result gives status 1 ") refused=$((refused + 1)) ;;
    *)
      wrong=$((wrong + 1))
      echo "allocation $at: status $status: $said"
      [ "$wrong" -lt 100 ] || break
      ;;
  esac
done
echo "$test: allocations=$first..$((at - 1)) passed=$passed refused=$refused wrong=$wrong"
[ "$wrong" -eq 0 ]
