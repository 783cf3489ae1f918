#!/usr/bin/env bash
# Runs the commands of docs/FIELDWORK.md as they stand there, one after the other, and compares what they print with what the page says.
#
#     torture/field_stories.sh
#     SHEETDESK=PROGRAM torture/field_stories.sh    over another program than the proved one
#
# It wants Debian's sqlite3, gdal-bin and python3-qgis. A line of the page that begins with `$ ` is a command, those below it are what it
# prints. There `..` stands for any text, and a line of it alone for any lines. What the page lets a crew do in QGIS is done by field_week.py,
# where a comment of the page says so. Status 0 where every command did as the page says.
set -euo pipefail
top=$(dirname "$(dirname "$(readlink -f "${BASH_SOURCE[0]}")")")
program=$(readlink -f "${SHEETDESK:-$("$top/sheetdesk" --built)}")
room=$(mktemp -d)
trap 'rm -rf "$room"' EXIT
mkdir "$room/bin" "$room/work"
ln -s "$program" "$room/bin/sheetdesk"
/usr/bin/python3 "$top/torture/field_pictures.py" "$room/work"
cd "$room/work"
export PATH="$room/bin:$PATH" FIELD_WEEK="$top/torture/field_week.py"
python3 - "$top/docs/FIELDWORK.md" <<'PYTHON'
import os, re, subprocess, sys

MARK = "@@ a command of the page ends"
WEEK = '/usr/bin/python3 "$FIELD_WEEK" crew.qgs 2>/dev/null'


def commands(page):
    """Each command with the lines that it has to print."""
    found, is_open = [], False
    for line in page:
        if line.startswith("    $ "):
            found.append((line[6:].rstrip("\n"), []))
            is_open = True
        elif line.startswith("    ") and is_open:
            found[-1][1].append(line[4:].rstrip("\n"))
        else:
            is_open = False
            if "field_week.py" in line and line.startswith("<!--"):
                found.append((WEEK, []))
    return found


def pattern(said):
    parts = [r"(?:.*\n)*" if line == ".." else ".*".join(map(re.escape, line.split(".."))) + r"\n" for line in said]
    return "".join(parts)


with open(sys.argv[1], encoding="utf-8") as page:
    wanted = commands(page)
script = "set -o pipefail\n" + "".join(f"{command}\necho; echo '{MARK}' $?\n" for command, _ in wanted)
with open("page.sh", "w", encoding="utf-8") as out:
    out.write(script)
done = subprocess.run(["bash", "page.sh"], stdout=subprocess.PIPE, check=False)
os.remove("page.sh")
printed = done.stdout.decode().split(f"\n{MARK} ")
failed = 0
for number, (command, said) in enumerate(wanted):
    text = printed[number] if number == 0 else printed[number].split("\n", 1)[1]
    status = printed[number + 1].split("\n", 1)[0] if number + 1 < len(printed) else "none"
    if re.fullmatch(pattern(said), text) is None or status != "0":
        failed += 1
        print(f"$ {command}\n{text}status {status}\n  and the page says\n" + "\n".join(said))
print(f"{len(wanted)} commands of the page, {failed} otherwise")
sys.exit(1 if failed else 0)
PYTHON
