#!/usr/bin/env bash
# Hurts the program in every way that a script here knows, and compares what comes out with what must: a row for each script.
#
#     torture/all.sh [OUT]             hours: each write call is killed at, each allocation refused
#     torture/all.sh --quick [OUT]     fewer kills, states and lists: some ten minutes on a free machine
#     SHEETDESK=PROGRAM torture/all.sh ..     over another program than the proved one
#
# OUT is a new folder, in which each gets a file; a temporary one where none is named. Status 0 where each ended with 0.
# A script whose tools are missing is not run, and its row says so.
set -euo pipefail
torture=$(cd "$(dirname "$(readlink -f "${BASH_SOURCE[0]}")")" && pwd)
. "$torture/../bench/table.sh"
begin "$@"

# What comes out of lists, beside a second machine.
each worked_lists - "$torture/worked_lists.py" "$program"
if [ "$quick" = 1 ]; then lists=(1 4 1000 100); else lists=(1 12 3000 300); fi
each random_lists - "$torture/compare_with_reference.py" "${lists[@]}"
each list_faults - "$torture/list_faults.py" --program "$program"

# A folder and a desk, beside other programs.
each session 'curl sqlite3' "$torture/folder_session.sh"
each operations sqlite3 "$torture/operations.sh"
each desk 'curl jq' "$torture/desk_curl.sh"
each desk_client - "$torture/desk_client.py"
each file_dates - "$torture/file_dates.py" $((quick ? 100 : 2000))
each receipt_parts - "$torture/receipt_parts.py"
each served_folder - "$torture/served_folder.py" $((quick ? 50 : 1000))
each odd_desks - "$torture/odd_desks.py"
each foreign_page chromium "$torture/foreign_page.py"
each hostile_clients - "$torture/hostile_clients.py" $((quick ? 500 : 10000))
each stock_package - "$torture/stock_sqlite3.sh" --init "$program"
each many_loans - "$torture/many_loans.py" $((quick ? 30 : 400))
each list_memory - "$torture/list_memory.py" $((quick ? 20000 : 1000000))
each stock_folder sqlite3 "$torture/stock_folder.sh"
each first_version - "$torture/first_version_folder.sh" "$program"
each export 'sqlite3 ogrinfo gdalinfo gdal_translate' "$torture/export_files.sh"
each completions - "$torture/completions.sh"
each verbs sqlite3 "$torture/verbs.py"
each field_rounds sqlite3 "$torture/field_rounds.py" $((quick ? 40 : 1000))
if /usr/bin/python3 -c 'import qgis.core' 2>/dev/null; then
  each field_qgis 'sqlite3 gdalwarp ogr2ogr' /usr/bin/python3 "$torture/field_qgis.py"
  each field_stories 'sqlite3 gdalwarp ogr2ogr' "$torture/field_stories.sh"
else
  printf '%-22s %-7s %7s  %s\n' field_qgis 'not run' '' "it needs Debian's python3-qgis"
fi
each report_page 'chromium tidy' "$torture/report_page.py"

# Kills, a disk that fails, power that is lost, files that are damaged.
each kills strace "$torture/kill_folder.py" --step $((quick ? 29 : 1)) import
each kills_of_init strace "$torture/kill_folder.py" --step $((quick ? 5 : 1)) init first
each disk strace "$torture/kill_folder.py" --step $((quick ? 29 : 1)) disk space
each damage strace "$torture/kill_folder.py" readonly damage
each flips strace "$torture/kill_folder.py" --flips $((quick ? 100 : 400)) flips
each power strace "$torture/power_folder.py" $((quick ? 100 : 400))

# Each call that fails.
each failing_calls gcc "$torture/failing_calls.py" --step $((quick ? 2003 : 1)) --jobs "$(nproc)"
if [ -x "$top/crates/test_packages/out/test_packages_tests" ]; then
  each failing_allocations cc "$torture/failing_allocations.sh" receipt_tests::a_receipt_comes_whole_or_not_at_all test_packages 1 $((quick ? 200 : 0))
else
  printf '%-22s %-7s %7s  %s\n' failing_allocations 'not run' '' 'it needs what rt test leaves in crates/test_packages/out'
fi

# The launcher itself.
each launcher rt "$torture/launcher.sh"
finish
