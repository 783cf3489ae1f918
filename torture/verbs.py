#!/usr/bin/env python3
"""Types verbs as a person does, whose UUIDs are new: trees of tiles, boxes, drops, and names by first digits on every subcommand.

Usage: torture/verbs.py

What must come out is worked out by hand from the frame: 4.096 units across, eight sheets across at zoom 3, of 0.512 units each. The first
line that differs ends it with status 1.
"""

import json
import os
import re
import subprocess
import sys
import tempfile

TOP = os.path.join(os.path.dirname(os.path.abspath(__file__)), "..")
sys.path[:0] = [os.path.join(TOP, "bench")]
sys.dont_write_bytecode = True

from program import program

FRAME = "25832,0,0,4096,4096,256,256,0,4,1,1"
UUID = "[0-9a-f]{8}-[0-9a-f]{4}-[0-9a-f]{4}-[0-9a-f]{4}-[0-9a-f]{12}"
PROGRAM = program()
COUNT = 0


def run(words, status=0, output=None, error="", given=None):
    """Types words; output and error are patterns of all that is printed. Answers what the groups of output match."""
    global COUNT
    done = subprocess.run([PROGRAM, *words.split(" ")], input=given, capture_output=True, text=True)
    found = re.fullmatch(output, done.stdout) if output is not None else True
    if done.returncode != status or not found or not re.fullmatch(error, done.stderr):
        sys.exit(
            f"verbs: '{words}' ends with {done.returncode}:\n{done.stdout}{done.stderr}"
            f"and not with {status}:\n{output}\n{error}"
        )
    COUNT += 1
    return found.groups() if output is not None else done.stdout


def keep(path, text):
    os.makedirs(os.path.dirname(path) or ".", exist_ok=True)
    with open(path, "w", encoding="utf-8") as out:
        out.write(text)


def other(word):
    """First digits that differ in the last one, so that they name nothing here."""
    return word[:-1] + ("0" if word[-1] != "0" else "1")


def trees(archive):
    """A tree with files of other names in it; the same again; from below; with other bytes at a place."""
    for place in ("3/0/0", "3/0/7", "3/7/7", "2/3/3"):
        keep(f"tree/{place}.png", f"sheet {place}")
    for path in (
        "tree/tiles.json",
        "tree/3/0/readme.txt",
        "tree/3/0/01.png",
        "tree/3/0/-1.png",
        "tree/3/0/1.PNG",
        "tree/03/0/1.png",
        "tree/x/0/0.png",
    ):
        keep(path, "no tile")
    run(f"put maps {archive[:4]} tiles tree", 0, "added 4, passed over 0\n")
    run(f"put maps {archive[:7].upper()} tiles tree", 0, "added 0, passed over 4\n")
    # row 7 from below is row 0 from above
    keep("upward/3/1/7.png", "upper edge")
    run(f"put maps {archive} tiles upward --tms", 0, "added 1, passed over 0\n")
    keep("tree/3/0/5.png", "sheet 3/0/5")
    keep("tree/3/0/7.png", "another sheet")
    taken = r'added 1, passed over 2\n\{"name":"PlaceTaken".*\}\n'
    run(f"put maps {archive[:4]} tiles tree", 1, taken, "refusal 11 PlaceTaken.*\n")
    keep("beside/3/8/0.png", "beside")
    run(
        f"put maps {archive[:4]} tiles beside",
        1,
        r'added 0, passed over 0\n\{"name":"BadPlace".*\}\n',
        "refusal 9 BadPlace.*\n",
    )
    run(f"put maps {archive[:4]} tiles nowhere", 1, "refused: body\n", "error: nowhere: .*\n")
    os.makedirs("empty")
    run(f"put maps {archive[:4]} tiles empty", 0, "added 0, passed over 0\n")
    run(
        f"put maps {other(archive[:6])} tiles tree",
        1,
        "refused: no such package\n",
        f"no package begins with .*; do you mean {archive}\\?\n",
    )


def boxes(archive):
    """A box of which a corner is in the sheet below; whole edges alone are in no other sheet."""
    run(
        f"lend maps {archive[:4]} --box 0,0,0.512,0.512 --zoom 3 --dry-run",
        0,
        r'\{.*"column":0,"row":7,"last_column":0,"last_row":7.*\}\n',
    )
    (loan,) = run("lend maps --box 0,0,0.512,0.513 --zoom 3", 0, f"loan ({UUID})\nsheets 3/0-0/6-7\nreceipt .*\n")
    run(
        f"lend maps {other(archive[:5])} --box 0,0,0.512,0.512 --zoom 3",
        1,
        "refused: no such package\n",
        f"no package begins with .*; do you mean {archive}\\?\n",
    )
    run("lend maps --box 0,0,4.097,1 --zoom 3", 1, "refused: area\n")
    run("lend maps --box 1,1,0,0 --zoom 3", 1, "refused: area\n")
    run("lend maps --box 0,0,1 --zoom 3", 1, "refused: number\n")
    run("lend maps --box 0,0,1,1 --zoom three", 1, "refused: number\n")
    run("lend maps --box 0,0,1,1", 2, "", "(?s).*--zoom.*")
    return loan


def whole_names(archive, loan):
    """Each subcommand that names a package or an item, by first digits and by the whole UUID: they print the same."""
    for words in ("manifest maps {}", "export maps {}", "export maps {} --qgis crew.gpkg"):
        for package in (archive, loan):
            if run(words.format(package)) != run(words.format(package[:6])) or run(words.format(package)) != run(
                words.format(package[:9].upper())
            ):
                sys.exit(f"verbs: '{words}' prints another text by first digits")
        nearest = "(?s).*do you mean " + archive + r"\?\n"
        run(words.format(other(archive[:6])), 1, "refused: no such package\n", nearest)
        run(words.format(archive[:3]), 1, "refused: uuid\n")
    if run(f"report maps {loan}") != run(f"report maps {loan[:6]}"):
        sys.exit("verbs: the page of a loan is another by first digits")
    run(f"report maps {archive[:6]}", 1, "refused: no such package\n")
    subprocess.run(
        f"{PROGRAM} export maps {archive[:4]} | sqlite3 a.gpkg && {PROGRAM} holds | sqlite3 a.gpkg > held.csv",
        shell=True,
        check=True,
    )
    with open("held.csv", encoding="utf-8") as it:
        held = it.read()
    for verb in ("changes", "bring"):
        run(f"{verb} maps {archive[:4]}", 0, "[a-z_,]*\n", "", held)
        run(f"{verb} maps {other(archive[:6])}", 1, "refused: no such package\n", nearest, held)
    tile = re.search(f"tile,({UUID}),,3,1,0", run(f"manifest maps {archive}")).group(1)
    if run(f"explain maps {tile}") != run(f"explain maps {tile[:8]}"):
        sys.exit("verbs: the way of an item is another by first digits")
    run(f"get maps {tile[:8]}", 0, "upper edge")
    run(
        f"get maps {other(tile[:8])}",
        1,
        "refused: no such item\n",
        f"no item begins with .*; do you mean {tile}\\?\n",
    )
    run(
        f"explain maps {other(tile[:8])}",
        1,
        "refused: no such identity\n",
        f"no item begins with .*; do you mean {tile}\\?\n",
    )
    return tile


def names(archive, loan, tile):
    """What people call a package or an item serves in each subcommand as its UUID does."""
    called = (
        f"uuid,name\n{archive},Old harbour\n{loan},{archive[:6]}\n{tile},{archive}\n{loan},twins\n{archive},twins\n"
    )
    keep("maps/names.csv", called)
    by_name = lambda words, name: subprocess.run(
        [PROGRAM, *words.format(name).split("|")], capture_output=True, text=True
    )
    for words in (
        "manifest|maps|{}",
        "export|maps|{}",
        "export|maps|{}|--qgis|crew.gpkg",
        "log|maps|{}",
        "report|maps|{}",
    ):
        for name, uuid in (("Old harbour", archive), (archive[:6], loan), (archive, archive)):
            ends = [(it.returncode, it.stdout) for it in (by_name(words, name), by_name(words, uuid))]
            if ends[0] != ends[1]:
                sys.exit(f"verbs: '{words}' prints another text by the name {name}")
        told = by_name(words, "twins")
        if (told.returncode, told.stdout) != (1, f"refused: two packages {loan} {archive}\n"):
            sys.exit(f"verbs: '{words}' of two prints {told.stdout}")
    run(f"put maps {archive[:6]} mark 1,1 5 twins --dry-run", 0, r'\{.*"package":"' + loan + '".*\n')
    run(f"lend maps {archive[:6]} --box 0,0,0.512,0.512 --zoom 3 --dry-run", 0, r'\{.*"package":"' + loan + '".*\n')
    keep("maps/names.csv", f"uuid,name\n{archive}\n")
    for words in ("manifest maps home", "drop maps twins", "return maps 0bad"):
        run(words, 1, "refused: names\n", "names: maps/names.csv: .*\n")
    run(f"manifest maps {archive}")
    os.remove("maps/names.csv")


def two(archive, loan):
    """Items and packages whose UUIDs begin alike."""
    one, more = ("0badcafe-0000-4000-8000-00000000000" + digit for digit in "12")
    for identity in (one, more):
        run(f"put maps {archive[:4]} mark 1,1 5 twin --as {identity}", 0, f"added {identity}\nreceipt .*\n")
    for words in ("get maps 0bad", "explain maps 0badcafe", "drop maps 0badcafe-0000"):
        run(words, 1, f"refused: two items {one} {more}\n")
    near = archive[:13] + "-4000-8000-000000000000"
    run(f"lend maps 3/1/0 --as {near}", 0, f"loan {near}\n.*\n.*\n")
    both = "refused: two packages {} {}\n".format(*sorted([archive, near]))
    for words in (
        "manifest maps {}",
        "export maps {}",
        "export maps {} --qgis a.gpkg",
        "report maps {}",
        "changes maps {}",
        "put maps {} tiles tree",
        "return maps {}",
        "lend maps {} 3/0/0",
    ):
        run(words.format(archive[:8]), 1, both, "", "")
    run(f"return maps {near}", 0, f"home {near} {archive}\nreceipt .*\n")
    for identity in (one, more):
        run(f"drop maps {identity}", 0, f"deleted {identity}\nreceipt .*\n")


def drops(archive, tile):
    """An item with links stays, then goes; its requests are shown, and are what carries it out."""
    keep("levels.txt", "levels\n")
    (book,) = run(f"put maps {archive[:4]} media levels.txt", 0, f"added ({UUID})\nreceipt .*\n")
    (mark,) = run(f"put maps {archive[:4]} mark 1,1 5 light", 0, f"added ({UUID})\nreceipt .*\n")
    run(f"join maps {book[:8]} {tile[:8]}", 0, f"joined {tile} {book}\nreceipt .*\n")
    run(f"join maps {mark[:8]} {tile[:8]}", 0, f"joined {mark} {tile}\nreceipt .*\n")
    links = f"linked {tile} {book}\nlinked {mark} {tile}\n"
    for option in ("", " --dry-run"):
        run(f"drop maps {tile[:8]}{option}", 1, links + "refused: linked\n")
    before = run("log maps")
    requests = [json.loads(line) for line in run(f"drop maps {tile[:8]} --yes --dry-run").splitlines()]
    if [request["command"] for request in requests] != ["unlink", "unlink", "delete"] or run("log maps") != before:
        sys.exit(f"verbs: a drop is shown as {requests}, or changes something")
    for request in requests[:2]:
        run("apply maps", 0, ".*\n", "", json.dumps(request))
    run(f"drop maps {tile[:8]}", 0, f"deleted {tile}\nreceipt .*\n")
    run(f"explain maps {tile[:8]}", 0, "(?s).*")
    # (what comes nearest is told where another item begins with the same digit)
    run(f"drop maps {tile[:8]}", 1, "refused: no such item\n", "(no item begins with .*\n)?")
    run(f"join maps {mark[:8]} {book[:8]}", 0, f"joined {mark} {book}\nreceipt .*\n")
    run(f"drop maps {book[:8]} --yes", 0, f"parted {mark} {book}\nreceipt .*\ndeleted {book}\nreceipt .*\n")
    run(f"drop maps {mark[:8]}", 0, f"deleted {mark}\nreceipt .*\n")
    run("drop maps 0ba", 1, "refused: a name of fewer than four digits\n")


with tempfile.TemporaryDirectory() as room:
    os.chdir(room)
    os.mkdir("maps")
    (home,) = run(f"init maps --frame {FRAME}", 0, f"archive ({UUID})\n", "made at .*\n")
    trees(home)
    crew = boxes(home)
    sheet = whole_names(home, crew)
    names(home, crew, sheet)
    two(home, crew)
    drops(home, sheet)
    run(f"return maps {crew[:8]}", 0, f"home {crew} {home}\nreceipt .*\n")
    run("audit maps", 0, r"good \d+\n")
    print(f"verbs: {COUNT} lines as they must be")
