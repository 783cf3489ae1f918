#!/usr/bin/env python3
"""Tries edits that turn the meaning of a crate's code: the prover must refuse the crate with each of them.

    tools/attacks.py CRATE [NAME ..]         those of attacks/CRATE, which the gate leaves out
    tools/attacks.py --gate CRATE [NAME ..]  those of crates/CRATE/must-fail, which the gate tries
    tools/attacks.py --in FOLDER CRATE       those of another folder, while they are thought out
    tools/attacks.py --apply                 proves nothing: which edits of all crates cannot be applied to the sources as they stand

The crate is to be proved first (`rt check` in its folder): each edit is checked over what that kept, in a copy. An edit has the form of
`rt must-fail`: a line `file: src/x.rt`, then pairs of lines `old: TEXT` and `new: TEXT`. A line a tried edit, with its seconds; status 1 where one
was not refused.
"""
import argparse
import os
import shutil
import sys
import tempfile
import time
from importlib.machinery import SourceFileLoader
from importlib.util import module_from_spec, spec_from_loader

ROOT = os.path.dirname(os.path.dirname(os.path.abspath(__file__)))


def toolchain():
    """The command `rt` as a module: its own check of an edit is used, so that nothing is judged otherwise here than in the gate."""
    loader = SourceFileLoader("rt", os.path.realpath(shutil.which("rt")))
    made = module_from_spec(spec_from_loader("rt", loader))
    sys.modules["rt"] = made
    loader.exec_module(made)
    remember(made.rtlib.Crate)
    return made


def remember(crate):
    """Lets a crate's sum and the libraries below it be reckoned once, and not once for each way down crates.txt: no source changes while edits are tried."""
    for name in ("stamp", "below"):
        plain, known = getattr(crate, name), {}

        def told(self, plain=plain, known=known):
            if self.name not in known:
                known[self.name] = plain(self)
            return known[self.name]

        setattr(crate, name, told)


def applied(rt):
    """Says which edits of all crates cannot be applied, and returns how many."""
    count, lost = 0, 0
    for crate in sorted(os.listdir(os.path.join(ROOT, "crates"))):
        folder = os.path.join(ROOT, "crates", crate)
        for room in (os.path.join(folder, "must-fail"), os.path.join(ROOT, "attacks", crate)):
            for name in sorted(os.listdir(room)) if os.path.isdir(room) else []:
                if name.endswith(".edit"):
                    why = rt.read_edit(os.path.join(room, name), folder)[1]
                    count, lost = count + 1, lost + bool(why)
                    if why:
                        print(f"{crate} {name}: {why}")
    print(f"{count} edits, {lost} that cannot be applied")
    return lost


def main():
    words = argparse.ArgumentParser(description=__doc__, formatter_class=argparse.RawDescriptionHelpFormatter)
    words.add_argument("--gate", action="store_true", help="the edits of the gate")
    words.add_argument("--in", dest="folder", help="a folder of edits")
    words.add_argument("--apply", action="store_true", help="only whether each can be applied")
    words.add_argument("crate", nargs="?")
    words.add_argument("names", nargs="*")
    said = words.parse_args()
    if said.apply:
        return 1 if applied(toolchain()) else 0
    if not said.crate:
        words.error("a crate is to be named")
    folder = os.path.abspath(said.folder or os.path.join(ROOT, *(("crates", said.crate, "must-fail") if said.gate else ("attacks", said.crate))))
    rt = toolchain()
    os.chdir(ROOT)
    os.environ.pop(rt.rtlib.ALLOW_C, None)
    rt.rtlib.guarded()
    crate = next((it for it in rt.rtlib.crates_below(ROOT) if it.name == said.crate), None)
    if not crate:
        sys.exit(f"{said.crate} is no crate of crates.txt")
    if not os.path.isdir(folder):
        sys.exit(f"{said.crate} has no edits: there is no folder {os.path.relpath(folder, ROOT)}")
    if not os.path.isdir(f"{crate.folder}/out/incremental"):
        sys.exit(f"{said.crate} was not checked here: run rt check in crates/{said.crate} first")
    if any(it.build_rlib(["--jobs", "1"], anew=False) for it in crate.below()):
        return 1
    there = sorted(it[: -len(".edit")] for it in os.listdir(folder) if it.endswith(".edit"))
    lacking = [it for it in said.names if it not in there]
    if lacking:
        sys.exit(f"{os.path.relpath(folder, ROOT)} has no edit {' '.join(lacking)}")
    edits = [f"{it}.edit" for it in said.names or there]
    failed = 0
    with tempfile.TemporaryDirectory(prefix="attacks-") as room:
        kept = f"{room}/kept"
        shutil.copytree(f"{crate.folder}/out/incremental", kept)
        for name in edits:
            begun = time.time()
            kind, text = rt.must_fail(crate, f"{folder}/{name}", ["--jobs", "1"], kept)
            print(f"{time.time() - begun:4.0f} s  {text}", flush=True)
            failed += kind not in (rt.REFUSED, rt.AT_LIMIT)
    print(f"{len(edits)} tried, {failed} not refused")
    return 1 if failed else 0


if __name__ == "__main__":
    sys.exit(main())
