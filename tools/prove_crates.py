#!/usr/bin/env python3
"""Proves crates as `rt ci` does, on all processors, and keeps what passed.

    tools/prove_crates.py [NAME ..]      these crates with all below them, or all: proofs, tests, edits, runs

`rt ci` is the verdict, and begins from nothing. Some toolchains keep what it proved, and others do not. Here each proof, test and edit that
passed is kept under the checksum of all that it read: the crate's files, those of each crate below it, and the toolchain. It lies in
${XDG_CACHE_HOME:-~/.cache}/sheetdesk/proofs, which its owner alone can write. A later run, in whatever clone on this machine, takes it from
there. What was not asked for in seven days goes.

The last line is 'N passed, M failed', as that of `rt ci`. Where the toolchain's command is not as this expects it, plain `rt ci` is run.
"""
import copy
import hashlib
import os
import re
import shutil
import subprocess
import sys
import tempfile
import threading
import time
from importlib.machinery import SourceFileLoader
from importlib.util import module_from_spec, spec_from_loader

# The part of the toolchain's plan of memory that is reckoned with. Most checks that were measured took under two thirds; `store_folder` took
# 95 hundredths of its plan and `store_shelf` 80. So this holds for several checks together, and not for each.
PART = 0.7
# For how many seconds what nobody asks for is kept.
LONGEST = 7 * 24 * 3600
# What the loaded command has to have, so that this can go its way.
NEEDED = ("Crate", "REACHES", "ci_from_nothing", "edits_of", "handles_of", "in_lanes", "must_fail_all", "need", "rtlib", "run", "stop_on_words")


def toolchain():
    """Returns the command `rt` as a module, or None where it has no plan of memory."""
    try:
        loader = SourceFileLoader("rt", os.path.realpath(shutil.which("rt")))
        made = module_from_spec(spec_from_loader("rt", loader))
        sys.modules["rt"] = made
        loader.exec_module(made)
    except (TypeError, OSError, SyntaxError, ImportError):
        return None
    return made if callable(getattr(made, "need", None)) and callable(getattr(made, "main", None)) else None


def say(text):
    print(f"rt: {text}", flush=True)


class Store:
    """What passed, a folder for each checksum."""

    def __init__(self):
        base = os.environ.get("XDG_CACHE_HOME", "")
        base = base if os.path.isabs(base) else os.path.join(os.path.expanduser("~"), ".cache")
        self.folder = f"{base}/sheetdesk/proofs"
        os.makedirs(self.folder, mode=0o700, exist_ok=True)

    def take(self, key, parts):
        """Puts what is kept under the key at the paths of `parts`, by its name there, and returns whether it was kept."""
        at = f"{self.folder}/{key}"
        if not os.path.isdir(at):
            return False
        try:
            os.utime(at)
            for name, to in parts.items():
                remove(to)
                os.makedirs(os.path.dirname(to), exist_ok=True)
                link(f"{at}/{name}", to)
        except OSError:
            return False
        return True

    def keep(self, key, parts):
        """Keeps what lies at the paths of `parts`, whole or not at all."""
        room = tempfile.mkdtemp(prefix="new-", dir=self.folder)
        try:
            for name, path in parts.items():
                link(path, f"{room}/{name}")
            os.rename(room, f"{self.folder}/{key}")
        except OSError:
            # (there is no room for it, or another run has kept the same)
            remove(room)

    def remove_oldest(self):
        for it in os.scandir(self.folder):
            if time.time() - it.stat().st_mtime > LONGEST:
                remove(it.path)


def remove(path):
    if os.path.isdir(path):
        shutil.rmtree(path, ignore_errors=True)
    elif os.path.lexists(path):
        os.remove(path)


def link(path, to):
    """Gives a file, or all files of a folder, a second name; nothing writes into what a build has made."""
    if os.path.isdir(path):
        shutil.copytree(path, to, copy_function=link)
        return
    try:
        os.link(path, to)
    except OSError:
        shutil.copy2(path, to)


class Prover:
    """One run over some crates of the current folder."""

    def __init__(self, rt, names):
        self.rt, self.lib, self.root, self.store = rt, rt.rtlib, os.getcwd(), Store()
        self.lib.stop = rt.stop
        rt.Crate.cuts_libraries = True
        self.lib.guarded()
        rt.Crate.allowed = rt.handles_of(self.root)
        self.lib.Crate = rt.Crate
        # (the toolchain's own goes over each way through the crates below: fifty thousand of them for the program)
        rt.Crate.stamp = lambda crate: self.sum_of(crate)
        found = {it.name: it for it in self.lib.crates_below(self.root)}
        lost = [it for it in names if it not in found]
        if lost:
            sys.exit(f"prove_crates: crates.txt has no {lost[0]}")
        wanted = {below.name for it in names or found for below in [*found[it].below(), found[it]]}
        self.crates = sorted((found[it] for it in wanted), key=lambda it: len(it.below()))
        self.sums, self.failed, self.passed, self.printing = {}, [], 0, threading.Lock()

    def sum_of(self, crate):
        """The checksum of all that a check of the crate reads."""
        if crate.folder not in self.sums:
            sum = hashlib.sha256(repr((crate.said, crate.has_c)).encode())
            with open(f"{self.rt.KIT}/KIT-ID", "rb") as it:
                sum.update(it.read())
            for path in self.lib.files_of(crate.folder):
                with open(path, "rb") as it:
                    sum.update(repr((os.path.relpath(path, crate.folder), it.read())).encode())
            sum.update(repr([self.sum_of(it) for it in crate.deps]).encode())
            self.sums[crate.folder] = sum.hexdigest()
        return self.sums[crate.folder]

    def key_of(self, crate, kind):
        sum = hashlib.sha256(f"{self.sum_of(crate)} {kind} {self.rt.Crate.allowed}".encode())
        if kind == "edits":
            for path in self.rt.edits_of(crate)[0]:
                with open(path, "rb") as it:
                    sum.update(repr((os.path.basename(path), it.read())).encode())
        return f"{crate.name}-{kind}-{sum.hexdigest()[:32]}"

    def made_by(self, crate, kind):
        """Where a check of this kind puts what others need of it."""
        out = f"{crate.folder}/out"
        if kind == "tests":
            return {"tests": f"{out}/{crate.name}_tests"}
        if crate.is_program:
            made = {"llvm": f"{out}/{crate.name}", "rattle": f"{out}/{crate.name}.by-rattle"}
            return {name: path for name, path in made.items() if name == "llvm" or os.path.isfile(path)}
        return {"rlib": os.path.dirname(crate.rlib)}

    def fault_of(self, crate):
        """Why the crate's text is refused before any proof, or None."""
        lib, rt = self.lib, self.rt
        lib.stop_on_links(crate.folder)
        lib.stop_on_unread(crate.folder, self.crates)
        lib.stop_on_text(crate, "verdict")
        rt.stop_on_words(crate)
        code = lib.code_of(crate.folder)
        beyond = [it for it, words in rt.REACHES.items() if it not in crate.allowed and re.search(words, code)]
        if beyond:
            return f"it names what only the handle {beyond[0]} reaches"
        if re.search(rt.RENAMES, code) or re.search(rt.IGNORED, code):
            return "it renames std, takes it whole, or has a test that is ignored"
        return "run rt fmt in its folder" if lib.fmt(crate.folder, "--check", crate.out) else None

    def check(self, crate, kind, given, jobs):
        """Whether the crate, or its tests, are proved, now or before."""
        if kind == "tests" and not crate.has_tests():
            return True
        what = f"{crate.name}{': its tests' if kind == 'tests' else ''}"
        if not all(given[it.name, "proof"] for it in crate.below()):
            say(f"{what} NOT PROVED{':' if kind == 'tests' else ''} for what it stands on")
            return False
        key = self.key_of(crate, kind)
        if self.store.take(key, self.made_by(crate, kind)):
            say(f"{what} is kept")
            return True
        crate, begun = copy.copy(crate), time.monotonic()
        with tempfile.TemporaryFile("w+", errors="replace") as crate.out:
            is_proved = self.prove(crate, kind, jobs)
            crate.out.seek(0)
            with self.printing:
                print("" if is_proved else crate.out.read(), end="")
                say(f"{what} {'proved' if is_proved else 'NOT PROVED'} after {time.monotonic() - begun:.0f} s")
        self.sums.clear()
        if is_proved and key == self.key_of(crate, kind):
            self.store.keep(key, self.made_by(crate, kind))
        return is_proved

    def prove(self, crate, kind, jobs):
        try:
            os.makedirs(f"{crate.folder}/out", exist_ok=True)
            fault = self.fault_of(crate) if kind == "proof" else None
            if fault:
                print(fault, file=crate.out)
                return False
            return crate.ci(["--jobs", str(jobs)], kind == "tests") == 0
        except SystemExit:
            return False

    def try_edits(self, crate, given):
        """Whether the prover refuses each edit of the crate that it must refuse."""
        good, bad = self.rt.edits_of(crate)
        if not good and not bad or not (given[crate.name, "proof"] and given[crate.name, "tests"]):
            return not bad
        key = self.key_of(crate, "edits")
        if not bad and self.store.take(key, {}):
            say(f"{crate.name}: {len(good)} edits were refused before")
            return True
        tried = self.rt.must_fail_all(crate, good, ["--jobs", "1"])
        with self.printing:
            for _, text in tried:
                say(text)
        is_well = not bad and all(it for it, _ in tried)
        if is_well:
            self.store.keep(key, {})
        return is_well

    def run_made(self, crate):
        """Whether the crate's tests and its program do what they must, as each compiler built them."""
        made = [(tests, end, f"{crate.folder}/out/{crate.name}{'_tests' if tests else ''}{end}") for tests in (False, True) for end in self.rt.BACKENDS.values()]
        there = [(tests, end) for tests, end, path in made if os.path.isfile(path) and os.path.getsize(path) and (tests or crate.is_program)]
        return all([self.rt.run(crate, tests, end) for tests, end in there])

    def tasks(self):
        made = {}
        for crate in self.crates:
            lines, needs = crate.count(rb"\n"), PART * self.rt.need(crate)
            below, name = [(it.name, "proof") for it in crate.below()], crate.name
            has_edits = bool(self.rt.edits_of(crate)[0])
            made[name, "proof"] = (below, lines, needs, lambda given, jobs, it=crate: self.check(it, "proof", given, jobs))
            made[name, "tests"] = (below, lines * crate.has_tests(), needs, lambda given, jobs, it=crate: self.check(it, "tests", given, jobs))
            waits = [(name, "proof"), (name, "tests")]
            made[name, "edits"] = (waits, lines * has_edits, needs, lambda given, jobs, it=crate: self.try_edits(it, given))
        return made

    def main(self):
        for crate in self.crates:
            remove(f"{crate.folder}/out/rlib")
        given = self.rt.in_lanes(self.tasks())
        failed = sorted({name for (name, _), is_well in given.items() if not is_well})
        failed += [it.name for it in self.crates if it.name not in failed and not self.run_made(it)]
        self.store.remove_oldest()
        say(f"FAILED: {' '.join(failed)}" if failed else "ok")
        print(f"{len(self.crates) - len(failed)} passed, {len(failed)} failed")
        return 1 if failed else 0


def main(words):
    rt = toolchain()
    if not rt:
        return subprocess.run(["rt", "ci", *words]).returncode
    if all(hasattr(rt, it) for it in NEEDED):
        return Prover(rt, words).main()
    # (a toolchain that keeps by itself what it proved)
    planned = rt.need
    rt.need = lambda crate: PART * planned(crate)
    return rt.main(["ci", *words])


if __name__ == "__main__":
    sys.stdout.reconfigure(line_buffering=True)
    sys.exit(main(sys.argv[1:]))
