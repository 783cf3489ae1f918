#!/usr/bin/env bash
# What a folder needs that serves for years, in one run: each number that is promised of one, and each way to stop it. A row for each script.
#
#     torture/years.sh [OUT]           half an hour on a free machine
#     torture/years.sh --quick [OUT]   smaller lists, fewer kills: some minutes
#     SHEETDESK=PROGRAM torture/years.sh ..    over another program than the proved one
#
# OUT is a new folder, in which each gets a file; a temporary one where none is named. Status 0 where each ended with 0.
set -euo pipefail
torture=$(cd "$(dirname "$(readlink -f "${BASH_SOURCE[0]}")")" && pwd)
. "$torture/../bench/table.sh"
begin "$@"
bench=$torture/../bench

# Numbers: a list of a million in 200 MB; 256 live packages in 600 MB, 2,000 strays with 256 open files in 300 MB; loans that
# grow by an exponent of 1.1 and leave one file; a manifest in 60 MB beside an audit.
each list_memory - "$torture/list_memory.py" $((quick ? 20000 : 1000000))
each many_loans - "$torture/many_loans.py" $((quick ? 30 : 400))
each loans - "$bench/growth_times.py" --hold --case loans $((quick ? 1000 : 10000)) $((quick ? 3000 : 100000))
each manifest - "$bench/growth_times.py" --hold --case rows $((quick ? 1000 : 10000)) $((quick ? 10000 : 100000))

# A life by docs/OPERATIONS.md, faults that say where, a folder that is begun twice.
each operations sqlite3 "$torture/operations.sh"
each session 'curl sqlite3' "$torture/folder_session.sh"
each list_faults - "$torture/list_faults.py" --program "$program"
each init_leftovers - "$torture/init_leftovers.sh"

# Each way to stop it: killed, no disk, no room, a folder that is not to be written, damage.
each kills strace "$torture/kill_folder.py" --step $((quick ? 61 : 13)) import
each kills_of_init strace "$torture/kill_folder.py" --step $((quick ? 29 : 5)) init first
each disk strace "$torture/kill_folder.py" --step $((quick ? 61 : 17)) disk space
each damage strace "$torture/kill_folder.py" --flips $((quick ? 10 : 100)) readonly damage flips

# Beside a desk.
each served_folder - "$torture/served_folder.py" 50
each odd_desks - "$torture/odd_desks.py"
each both_ways - "$torture/sessions_both_ways.py"
finish
