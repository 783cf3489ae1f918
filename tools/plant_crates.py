#!/usr/bin/env python3
"""Has `rt plant` make wrong bodies crate after crate, and keeps in attacks/PLANTS.csv those that meet the contracts.

    tools/plant_crates.py [--until HH:MM] [--minutes N] CRATE ..   plants what is not known of these crates; with no CRATE, of all but tests
    tools/plant_crates.py --why CRATE FUNCTION BODY REASON         notes why a body may pass; FUNCTION and BODY as the list has them
    tools/plant_crates.py --open                                   proves nothing: what passes and has no reason, and which crates wait
    tools/plant_crates.py --table                                  proves nothing: puts the list in order, and counts it

A line is crate, function, kind, body, why, date, and the sum of all that was read (the crate's sources, specs and proofs, the libraries below, the
toolchain). The kinds are those of `rt plant`: `proves` (the body meets the contract), `no-ensures` (the function has no clause), `untested` (no
plant that gives up could be judged). A crate also has a line `planted`, with the counts of its last run. A crate whose sum is known is not planted
again, so a later run does what changed. A reason is kept while the same body passes; a law, whose
body is empty, gets one by itself. The libraries below a crate must be built (rt ci or rt check
builds them): a crate that lacks one is passed over. `rt plant` checks the crate first, so each crate costs at least its own proof.
"""
import argparse
import csv
import datetime
import os
import re
import subprocess
import sys

from attacks import toolchain

ROOT = os.path.dirname(os.path.dirname(os.path.abspath(__file__)))
PLANTS = f"{ROOT}/attacks/PLANTS.csv"
HEAD = ["crate", "function", "kind", "body", "why", "date", "sum"]
KINDS = ("proves", "no-ensures", "untested")
ROW = re.compile(rf"^({'|'.join(KINDS)}) +src/\S+ (.+?)(?:\(\))?(?:: (\{{.*\}}))?(?:  \(.*\))?$")
LAW = "a law: the contract of a function that does nothing"
COUNTS = re.compile(r"^plants crate=\S+ (.*)$", re.M)


def read_rows():
    """Returns the lines, by crate."""
    found = {}
    if os.path.exists(PLANTS):
        with open(PLANTS, encoding="utf-8", newline="") as it:
            for row in csv.DictReader(it):
                found.setdefault(row["crate"], []).append(row)
    return found


def write_rows(found):
    with open(f"{PLANTS}.new", "w", encoding="utf-8", newline="") as it:
        out = csv.DictWriter(it, HEAD, lineterminator="\n")
        out.writeheader()
        for crate in sorted(found):
            out.writerows(sorted(found[crate], key=lambda row: (row["kind"] != "planted", row["function"], row["body"])))
    os.replace(f"{PLANTS}.new", PLANTS)


def rows_of(crate, text, stamp, reasons):
    """Returns the lines of what a run of `rt plant` printed, or None where it came to no count."""
    counts = COUNTS.search(text)
    if not counts:
        return None
    day = datetime.date.today().isoformat()
    made = [(crate, "", "planted", "", counts[1])]
    for line in text.splitlines():
        found = ROW.match(line)
        if found:
            kind, function, body = found[1], found[2], found[3] or ""
            why = reasons.get((function, body), "") or (LAW if kind == "untested" and function.startswith("laws::") else "")
            made.append((crate, function, kind, body, why))
    return [dict(zip(HEAD, (*it, day, stamp))) for it in made]


def plant(rt, crate, said):
    """Runs `rt plant` in the crate's folder."""
    words = ["rt", "plant", "--minutes", str(said.minutes), "--max", str(said.max), "--jobs", "1"]
    ran = subprocess.run(words, cwd=crate.folder, stdout=subprocess.PIPE, stderr=subprocess.STDOUT, text=True, errors="replace")
    return ran.stdout


def is_late(until):
    return bool(until) and datetime.datetime.now().strftime("%H:%M") >= until


def plant_all(said):
    rt = toolchain()
    crates = {it.name: it for it in rt.rtlib.crates_below(ROOT)}
    lacking = [it for it in said.crates if it not in crates]
    if lacking:
        sys.exit(f"crates.txt names no {' '.join(lacking)}")
    worst = 0
    for name in said.crates or [it for it in crates if not it.startswith("test_")]:
        crate, found = crates[name], read_rows()
        stamp = rt.stamp_of(crate, {})[:16]
        if is_late(said.until):
            print(f"{name}: not begun, since it is late")
            return 1
        if any(row["kind"] == "planted" and row["sum"] == stamp for row in found.get(name, ())):
            continue
        lacks = [it.name for it in crate.below() if not it.is_built()]
        if lacks:
            print(f"{name}: passed over, since the library {lacks[0]} is not built")
            worst = 1
            continue
        text = plant(rt, crate, said)
        reasons = {(row["function"], row["body"]): row["why"] for row in found.get(name, ()) if row["kind"] != "planted"}
        made = rows_of(name, text, stamp, reasons)
        if made is None:
            print(f"{name}: no count came; the last lines were\n" + "\n".join(text.splitlines()[-3:]))
            worst = 1
            continue
        found[name] = made
        write_rows(found)
        print(f"{name}: {made[0]['why']}", flush=True)
    return worst


def note_why(crate, function, body, why):
    found = read_rows()
    mine = [row for row in found.get(crate, ()) if (row["function"], row["body"]) == (function, body) and row["kind"] != "planted"]
    if len(mine) != 1:
        sys.exit(f"attacks/PLANTS.csv has {len(mine)} such lines")
    mine[0]["why"] = why
    write_rows(found)


def show_open():
    found = read_rows()
    named = [row.split(":")[0] for row in open(f"{ROOT}/crates.txt", encoding="utf-8") if ":" in row and not row.startswith("#")]
    left = [row for rows in found.values() for row in rows if row["kind"] != "planted" and not row["why"]]
    for row in left:
        print(f"{row['crate']} {row['kind']} {row['function']} {row['body']}")
    waits = [it for it in named if it not in found and not it.startswith("test_")]
    print(f"{len(left)} that pass have no reason; {len(waits)} of {len(named)} crates wait: {' '.join(waits)}")
    return 1 if left or waits else 0


def show_table():
    found = read_rows()
    if found:
        write_rows(found)
    kinds = [row["kind"] for rows in found.values() for row in rows]
    print(", ".join(f"{kind}: {kinds.count(kind)}" for kind in ("planted", *KINDS)))


def main():
    words = argparse.ArgumentParser(description=__doc__, formatter_class=argparse.RawDescriptionHelpFormatter)
    words.add_argument("--open", action="store_true", help="list what passes and has no reason, and the crates that wait")
    words.add_argument("--table", action="store_true", help="put the list in order, and count it")
    words.add_argument("--why", nargs=4, metavar=("CRATE", "FUNCTION", "BODY", "REASON"), help="note why a body may pass")
    words.add_argument("--until", default="", help="begin no crate after this time of day, HH:MM")
    words.add_argument("--minutes", type=int, default=10, help="the most that the plants of a crate may take, behind its check")
    words.add_argument("--max", type=int, default=400, help="so many plants of a crate at most")
    words.add_argument("crates", nargs="*")
    said = words.parse_args()
    if said.open:
        return show_open()
    if said.table:
        return show_table()
    if said.why:
        return note_why(*said.why)
    return plant_all(said)


if __name__ == "__main__":
    sys.exit(main())
