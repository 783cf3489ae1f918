#!/usr/bin/env bash
# A desk and its clients: curl posts each request of the sample, gets each route and asks for each fault; jq reads each body that is JSON.
#
#     torture/desk_curl.sh               over the proved program
#     torture/desk_curl.sh --unproved    over the same code, before any proof
#     SHEETDESK=PROGRAM torture/desk_curl.sh    over another program
#
# What must come was made without the program: replies, receipts and packages by the second machine of samples/reference.py, manifests
# by samples/archive.expected.txt, faults by hand. Status 0 where everything came to the byte, with its status and its content type, and
# the program ended with 0; else 1, with what was wanted and what came, at the first difference. It needs curl, jq and Python.
set -euo pipefail
top=$(cd "$(dirname "$(readlink -f "${BASH_SOURCE[0]}")")/.." && pwd)
archive=6f0d3a52-9c1e-4b7a-8f24-1d5be07c9a10
at=2026-03-02T07:30:00.000Z
frame=25832,500000000,5900000000,540960000,5961440000,256,256,4,3,2,3
work=$(mktemp -d)
program=

finish() {
  # The program and what it started, where it still runs.
  if [ -n "$program" ]; then kill -- "-$program" 2>/dev/null || true; fi
  rm -rf "$work"
}
trap finish EXIT

count=0
# exchange STATUS TYPE CURL-WORDS..: what must come back stands on standard input. It is kept, and asked for below.
exchange() {
  count=$((count + 1))
  cat >"$work/$count.wanted"
  printf '%s %s' "$1" "$2" >"$work/$count.head"
  shift 2
  printf '%s\0' "$@" >"$work/$count.words"
}

json=application/json
port=$(python3 -c 'import socket; s = socket.socket(); s.bind(("127.0.0.1", 0)); print(s.getsockname()[1])')
desk=http://127.0.0.1:$port

# Each request of the sample, and its reply: a receipt, or a refusal.
python3 "$top/bench/desk_requests.py" <"$top/samples/archive.csv" >"$work/requests"
python3 "$top/samples/reference.py" --replies "$archive" "$frame" <"$top/samples/archive.csv" >"$work/replies"
number=0
while IFS= read -r request <&3 && IFS= read -r reply <&4; do
  number=$((number + 1))
  printf '%s' "$request" >"$work/request.$number"
  status=200
  case $reply in *'"refusal":'*) status=409 ;; esac
  exchange "$status" "$json" --data-binary "@$work/request.$number" "$desk/requests" < <(printf '%s' "$reply")
done 3<"$work/requests" 4<"$work/replies"

# What can be read then: the packages, the manifest of each, and a receipt of each command.
python3 "$top/samples/reference.py" --packages "$archive" "$frame" <"$top/samples/archive.csv" | tr -d '\n' >"$work/packages"
exchange 200 "$json" "$desk/packages" <"$work/packages"
for package in $(sed -n 's/^package //p' "$top/samples/archive.expected.txt"); do
  sed -n "/^package $package\$/,/^package /{/^package /d;p}" "$top/samples/archive.expected.txt" >"$work/manifest"
  exchange 200 text/csv "$desk/packages/$package/manifest" <"$work/manifest"
done
for command in add delete link unlink split merge; do
  number=$(grep -n -m 1 "\"line\":\"$command " "$work/replies" | cut -d : -f 1)
  id=$(jq -r .request "$work/request.$number")
  exchange 200 "$json" "$desk/receipts/$id" < <(sed -n "${number}p" "$work/replies" | tr -d '\n')
done

# The faults.
fault() {
  local status=$1 word=$2
  shift 2
  exchange "$status" "$json" "$@" < <(printf '{"fault":"%s"}' "$word")
}
fault 404 'no such path' "$desk/nothing"
fault 404 'no such path' -H 'Host: LocalHost:9000' "$desk/nothing"
fault 403 'bad origin' -H 'Host: evil.example' "$desk/packages"
fault 403 'bad origin' -H 'Host: evil.example' -X DELETE "$desk/nothing"
fault 404 'no such path' "$desk/packages//manifest"
fault 404 'no such package' "$desk/packages/7900a419-810c-58cd-bd4f-73aebcfc3c4a/manifest"
fault 404 'no such package' "$desk/packages/x/manifest"
fault 404 'no such receipt' "$desk/receipts/00000000-0000-4000-8000-000000000000"
fault 404 'no such receipt' "$desk/receipts/x"
fault 405 'bad method' "$desk/requests"
fault 405 'bad method' -X DELETE "$desk/packages"
fault 405 'bad method' --data-binary '{}' "$desk/packages"
fault 411 'no length' -X POST "$desk/requests"
fault 400 'bad request' --data-binary '{}' "$desk/requests"
fault 400 'bad request' --data-binary 'no JSON' "$desk/requests"
fault 400 'bad request' -H 'Transfer-Encoding: chunked' --data-binary '{}' "$desk/requests"
head -c 2200001 /dev/zero >"$work/large"
fault 413 'too large' -H 'Expect:' --data-binary "@$work/large" "$desk/requests"

# The desk, over an archive with nothing in it.
head -n 1 "$top/samples/archive.csv" >"$work/list"
printf 'line,request,seq,refusal\npackage %s\nkind,identity,other,zoom,column,row,x,y,code,size,fingerprint,text\n' "$archive" >"$work/printed.wanted"
setsid "${SHEETDESK:-$top/sheetdesk}" "$@" rehearse --archive "$archive" --at "$at" --frame "$frame" --serve "$port" --count "$count" <"$work/list" >"$work/printed" &
program=$!

differs() {
  echo "$1: wanted:" >&2
  cat "$2" >&2
  printf '\n%s: came:\n' "$1" >&2
  cat "$3" >&2
  echo >&2
  exit 1
}
# Until the program listens no client is let in, and is tried again; the last one that it lets in is served at once.
for number in $(seq "$count"); do
  mapfile -d '' words <"$work/$number.words"
  while :; do
    if curl -sS -o "$work/came" -w '%{http_code} %{content_type}' "${words[@]}" >"$work/came.head" 2>"$work/curl"; then break; fi
    if [ "$number" != 1 ] || ! kill -0 "$program" 2>/dev/null; then cat "$work/curl" >&2; exit 1; fi
    sleep 1
  done
  cmp -s "$work/$number.head" "$work/came.head" || differs "exchange $number, ${words[*]: -1}, head" "$work/$number.head" "$work/came.head"
  cmp -s "$work/$number.wanted" "$work/came" || differs "exchange $number, ${words[*]: -1}" "$work/$number.wanted" "$work/came"
  case $(cat "$work/came.head") in *"$json") jq -e . <"$work/came" >/dev/null ;; esac
done
status=0
wait "$program" || status=$?
program=
[ "$status" = 0 ] || { echo "the program ended with $status" >&2; exit 1; }
cmp -s "$work/printed.wanted" "$work/printed" || differs 'standard output' "$work/printed.wanted" "$work/printed"
echo "$count exchanges, each as it must be"
