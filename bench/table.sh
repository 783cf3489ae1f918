# For bench/all.sh and torture/all.sh: runs scripts one after the other, and prints a row for each.
#
#     begin WORDS..             reads [--quick] [OUT]; sets out, program, quick and top
#     each NAME TOOLS WORDS..   runs the words where all tools are there (a list, or -), and keeps what they print in OUT/NAME
#     finish                    says where all is kept; status 0 where each ended with 0
begin() {
  quick=0 failed=0
  if [ "${1-}" = --quick ]; then
    quick=1
    shift
  fi
  local given=${1-}
  if [ $# -gt 1 ] || [ "$given" != "${given#-}" ]; then
    echo "usage: $0 [--quick] [OUT]" >&2
    exit 2
  fi
  top=$(cd "$(dirname "$(readlink -f "${BASH_SOURCE[0]}")")/.." && pwd)
  out=$given
  if [ -n "$out" ]; then mkdir "$out"; else out=$(mktemp -d); fi
  program=$(realpath "${SHEETDESK:-$("$top/sheetdesk" --built)}")
  export SHEETDESK=$program
  printf '%-22s %-7s %7s  %s\n' script ended seconds 'what it said'
}

each() {
  local name=$1 tool status=0 start=$SECONDS ended=ok
  for tool in ${2//-/}; do
    if ! command -v "$tool" >/dev/null; then
      printf '%-22s %-7s %7s  %s\n' "$name" 'not run' '' "it needs $tool"
      return
    fi
  done
  shift 2
  "$@" >"$out/$name" 2>&1 </dev/null || status=$?
  [ "$status" = 0 ] || failed=1 ended="$status"
  printf '%-22s %-7s %7s  %s\n' "$name" "$ended" $((SECONDS - start)) "$(said "$out/$name")"
}

# The last line that tells something; with lines=all each of them, below the row.
said() {
  if [ "${lines-}" = all ]; then awk '!/^load/ { printf "\n    %s", $0 }' "$1"; else tail -n 1 "$1"; fi
}

finish() {
  echo "each script's lines are in $out"
  exit "$failed"
}
