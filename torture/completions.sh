#!/usr/bin/env bash
# Completes words of the program in a real bash, by the text that `sheetdesk completions bash` prints, and compares.
#
# Usage: torture/completions.sh [PROGRAM]
set -euo pipefail
root=$(cd "$(dirname "$0")/.." && pwd)
program=$(readlink -f "${1:-$root/sheetdesk}")
room=$(mktemp -d)
trap 'rm -rf "$room"' EXIT
"$program" completions bash >"$room/completions.bash"
mkdir "$room/maps"
package=6f0d3a52-9c1e-4b7a-8f24-1d5be07c9a10
touch "$room/maps/$package.gpkg" "$room/a list.csv"

# Prints what the last of these words completes to.
complete_words() (
    set +u # (as in a shell at a prompt)
    cd "$room"
    source ./completions.bash
    COMP_WORDS=("$@") COMP_CWORD=$(($# - 1))
    _sheetdesk
    printf '%s\n' "${COMPREPLY[@]}"
)

count=0
check() {
    local wanted=$1 found
    shift
    found=$(complete_words "$@" | paste -sd'|')
    [ "$found" = "$wanted" ] || { echo "completions: '$*' gives '$found', and not '$wanted'"; exit 1; }
    count=$((count + 1))
}
check 'return|receipt|report|rehearse' sheetdesk re
check 'completions' sheetdesk com
check 'maps' sheetdesk status ma
check "$package" sheetdesk manifest maps 6f
check "$package" sheetdesk lend maps ''
check 'media|mark' sheetdesk put maps 6f0d m
check 'a list.csv' sheetdesk import maps a
check '--box|--zoom|--follow|--as|--at|--request|--dry-run|--quiet|--help' sheetdesk lend maps --
check '--log' sheetdesk serve maps 8080 --l
check 'bash' sheetdesk completions ''
# every verb that the program knows is among the words
known=$("$program" --help | sed -n '/^Commands:/,/^$/s/^  \([a-z]\+\) .*/\1/p' | grep -vx help | sort)
told=$(complete_words sheetdesk '' | grep -v '^--' | sort)
[ "$known" = "$told" ] || { echo "completions: the program knows other words:"; diff <(echo "$known") <(echo "$told"); exit 1; }
echo "completions: $((count + 1)) as they must be"
