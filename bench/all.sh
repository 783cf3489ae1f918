#!/usr/bin/env bash
# Measures everything: a row for each script, with its lines below it.
#
#     bench/all.sh [OUT]             an hour or more, since each commit waits for the disk
#     bench/all.sh --quick [OUT]     fewer rounds and requests: some ten minutes on a free machine
#     SHEETDESK=PROGRAM bench/all.sh ..     over another program than the proved one
#
# OUT is a new folder, in which each gets a file; a temporary one where none is named. Status 0 where each ended with 0.
set -euo pipefail
bench=$(cd "$(dirname "$(readlink -f "${BASH_SOURCE[0]}")")" && pwd)
. "$bench/table.sh"
lines=all
begin "$@"
disk=$(mktemp -d "$top/bench.XXXXXX")
trap 'rm -rf "$disk"' EXIT
rounds=$((quick ? 2 : 5))
if [ "$quick" = 1 ]; then requests=(100 1000) items=(10000); else requests=(100 1000 10000) items=(10000 100000); fi
each rehearse - "$bench/rehearse_times.py" "$rounds" "${requests[@]}"
each lending - "$bench/lending_times.py" $((quick ? 1 : 3))
each opening - "$bench/opening_times.py" --engine --folder "$disk" "$rounds" "${items[@]}"
each desk - "$bench/desk_times.py" "$rounds" $((quick ? 1000 : 3000))
each served_folder - "$bench/served_times.py" $((quick ? 1000 : 100000))
each desk_three_clients - "$bench/desk_times.py" --clients 3 "$rounds" $((quick ? 1000 : 3000))
each desk_files - "$bench/desk_times.py" --files "$disk" $((quick ? 1 : 3)) $((quick ? 300 : 3000))
if [ -d /dev/shm ]; then
  each desk_files_in_memory - "$bench/desk_times.py" --files /dev/shm $((quick ? 1 : 3)) $((quick ? 1000 : 3000))
  each page_in_memory - "$bench/page_times.py" --folder /dev/shm $((quick ? 1 : 3)) "${items[@]}"
  each folder_in_memory - "$bench/folder_times.py" --folder /dev/shm $((quick ? 1 : 5)) $((quick ? 300 : 1000)) $((quick ? 3000 : 10000))
fi
each growth - "$bench/growth_times.py" $((quick ? 1000 : 10000)) $((quick ? 10000 : 100000))
each field - "$bench/field_times.py" --engine --folder "$disk" --tiles $((quick ? 1000 : 10000)) $((quick ? 2 : 3))
each folder - "$bench/folder_times.py" --folder "$disk" $((quick ? 1 : 3)) $((quick ? 300 : 1000)) $((quick ? 1000 : 10000))
each look_memory - "$bench/look_memory.py" $((quick ? 1024 : 2048))
each folder_memory - "$bench/folder_times.py" --memory "${items[@]}"
finish
