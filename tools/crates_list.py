#!/usr/bin/env python3
"""Writes crates.txt: a heading a floor, and for each crate the libraries that its own files name.

Usage: tools/crates_list.py [--check]     with --check nothing is written; status 1 where crates.txt is not what it would write

A crate names a library by `use NAME::` or `NAME::` in a .rt file, by `Rattle.NAME.` in a .rt or .antt file, and `thiserror` by its derive.
Crates stand lowest first within a floor, and the floors as they are listed here.
"""
import os
import re
import sys

TOP = os.path.dirname(os.path.dirname(os.path.realpath(__file__)))
FLOORS = [
    ("sheet: values, the model, its laws, the ledger and its judge; pure", ["sheet_", "matrix_rules", "renumbering"]),
    ("store: what SQL means, files in memory and in a folder, the shelf", ["store_"]),
    ("package: one store as typed tables", ["package_"]),
    ("register: one package as identified items and links, what moves between two, receipts", ["identity_register", "cut", "transfer", "custody", "register_"]),
    ("world: the live packages: what is asked, decided, carried out", ["world"]),
    ("opening: stores that may be anything come to a world, or to a fault", ["opening"]),
    ("request, desk: bytes to requests, answers to bytes", ["request_", "manifest_csv", "desk_"]),
    ("field: a file that another program edited", ["field_"]),
    ("command, view: subcommands that change, and that look", ["command_", "commands", "view_", "views", "cli"]),
    ("program: words come in, lines and a status go out; beside a desk, by one, and at one", ["program_"]),
    ("promises: what the whole keeps, as closed statements", ["promises"]),
    ("test: nothing but tests", ["test_"]),
    ("the program", ["sheetdesk"]),
]


def kit_libraries():
    folder = os.path.join(os.path.dirname(os.path.dirname(os.path.realpath(os.popen("command -v rt").read().strip()))), "rlibs")
    return {name[: -len(".rlib")] for name in os.listdir(folder) if name.endswith(".rlib")} - {"std", "core"}


def texts(crate):
    for folder, _, names in os.walk(os.path.join(TOP, "crates", crate)):
        if os.sep + "out" in folder:
            continue
        for name in names:
            if name.endswith((".rt", ".antt")):
                with open(os.path.join(folder, name), encoding="utf-8") as it:
                    yield name, it.read()


def named(crate, known):
    """The libraries that the crate's own files name."""
    found, paths, modules = set(), set(), set()
    for name, text in texts(crate):
        found |= set(re.findall(r"\bRattle\.(\w+)\.", text))
        if name.endswith(".rt"):
            code = re.sub(r"//[^\n]*", "", text)
            paths |= set(re.findall(r"(?<![\w:.])(\w+)::", code))
            modules |= set(re.findall(r"\bmod (\w+);", code))
            found |= {"thiserror"} if "thiserror" in code else set()
    # A module of the crate's own is no library, even where one has its name.
    found |= paths - modules
    return (found & known) - {crate}


def floor_of(crate):
    for at, (_, words) in enumerate(FLOORS):
        for word in words:
            if crate == word or (word.endswith("_") and crate.startswith(word)) or (word in ("world", "opening") and crate.startswith(word)):
                return at
    sys.exit(f"{crate}: no floor has a crate of that name: see FLOORS in tools/crates_list.py")


def lowest_first(crates, uses):
    """Each crate after those that it stands on; otherwise by floor and name."""
    left, done = sorted(crates, key=lambda it: (floor_of(it), it)), []
    while left:
        ready = [it for it in left if not (uses[it] & set(left) - {it})]
        if not ready:
            sys.exit(f"these crates stand on each other: {' '.join(left)}")
        done.append(ready[0])
        left.remove(ready[0])
    return done


def written():
    crates = {it for it in os.listdir(os.path.join(TOP, "crates")) if os.path.isdir(os.path.join(TOP, "crates", it, "src"))}
    known = crates | kit_libraries()
    uses = {it: named(it, known) for it in crates}
    order = lowest_first(crates, uses)
    lines = ["# NAME: what its own files name. Written by tools/crates_list.py"]
    for at, (heading, _) in enumerate(FLOORS):
        of_floor = [it for it in order if floor_of(it) == at]
        if of_floor:
            lines += ["", f"# {heading}"]
        for crate in of_floor:
            ours = [it for it in reversed(order) if it in uses[crate]]
            lines.append(f"{crate}: " + " ".join(ours + sorted(uses[crate] - crates)))
    return "".join(line.rstrip() + "\n" for line in lines)


def main():
    path = os.path.join(TOP, "crates.txt")
    text = written()
    if "--check" in sys.argv[1:]:
        with open(path, encoding="utf-8") as it:
            if it.read() != text:
                sys.exit("crates.txt is not what tools/crates_list.py writes")
        return
    with open(path, "w", encoding="utf-8") as it:
        it.write(text)


if __name__ == "__main__":
    main()
