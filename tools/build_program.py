#!/usr/bin/env python3
"""Builds the proved program where these sources were never built on this machine, and prints its path.

    tools/build_program.py            # ./sheetdesk calls it

The crates that the program stands on are copied to a folder of their own, and `rt ci` proves and builds them there: crate beside
crate, and at once what it proved before on this machine. The program is kept by the checksum of its sources, in
${XDG_CACHE_HOME:-~/.cache}/sheetdesk, and every clone on this machine finds it there. One build runs at a time; a second waits.

Nothing is kept of a build in which anything failed. The status is then 4, and standard error names the log.
"""
import fcntl
import hashlib
import os
import re
import selectors
import shutil
import signal
import subprocess
import sys
import tempfile
import time

ROOT = os.path.dirname(os.path.dirname(os.path.realpath(__file__)))
PROGRAM = "sheetdesk"
OUT = f"{ROOT}/crates/{PROGRAM}/out"
# What a proof reads of a crate, and what `rt ci` runs a program on.
PARTS = ("src", "specs", "proofs", "c")
RUN = ("args", "stdin", "stdout", "status", "data")
# How many programs are kept.
MOST = 8
# In bytes, the memory that one check may take, and that with which `rt ci` shares out the processors better than one a check.
CHECK, ENOUGH = 4_000_000_000, 20_000_000_000
DONE = re.compile(r"rt: (\w+) (proved|is kept|NOT PROVED(?!:))")


class Unbuilt(Exception):
    """Why the program cannot be built."""


def say(text):
    print(f"sheetdesk: {text}", file=sys.stderr, flush=True)


def lines_of(folder):
    """Returns the lines of crates.txt that the program stands on, by the names of their crates."""
    lines = {}
    with open(f"{folder}/crates.txt", encoding="utf-8") as it:
        for line in it:
            head, colon, _ = line.partition(":")
            if colon and head.strip() and not line.startswith("#"):
                lines[head.split()[0]] = line
    found, left = set(), [PROGRAM]
    while left:
        name = left.pop()
        if name in lines and name not in found:
            found.add(name)
            left += lines[name].partition(":")[2].split()
    return {name: line for name, line in lines.items() if name in found}


def files_of(folder, names, parts):
    """Returns the paths of these crates' files, in order."""
    found = []
    for name in names:
        for part in parts:
            top = f"{folder}/crates/{name}/{part}"
            found += [top] if os.path.isfile(top) else []
            for at, folders, files in os.walk(top):
                folders.sort()
                found += [f"{at}/{file}" for file in sorted(files)]
    return [os.path.relpath(it, folder) for it in found]


def content(path):
    with open(path, "rb") as it:
        return it.read()


def toolchain():
    """Returns the line by which the toolchain names itself."""
    try:
        ran = subprocess.run(["rt", "version"], stdin=subprocess.DEVNULL, stdout=subprocess.PIPE, check=True)
    except FileNotFoundError:
        raise Unbuilt("the toolchain's command rt is not on the path (docs/CONTRIBUTING.md, \"Install\")") from None
    except subprocess.CalledProcessError as error:
        raise Unbuilt(f"rt version ended with status {error.returncode}") from None
    return ran.stdout


def checksum(folder, kit, parts=PARTS):
    """Returns the checksum of all that decides what the program is, and whether it is proved."""
    lines = lines_of(folder)
    handles = content(f"{folder}/HANDLES") if os.path.isfile(f"{folder}/HANDLES") else None
    sum = hashlib.sha256(repr((kit, handles, sorted(lines.values()))).encode())
    for path in files_of(folder, lines, parts):
        sum.update(repr((path, hashlib.sha256(content(f"{folder}/{path}")).hexdigest())).encode())
    return sum.hexdigest()


def store():
    """Returns the folder in which programs are kept: this user's, or the clone's own where that cannot be written."""
    base = os.environ.get("XDG_CACHE_HOME", "")
    if not os.path.isabs(base):
        base = os.path.join(os.path.expanduser("~"), ".cache")
    for at in (f"{base}/{PROGRAM}", f"{OUT}/kept"):
        try:
            os.makedirs(at, mode=0o700, exist_ok=True)
        except OSError:
            continue
        if os.access(at, os.W_OK | os.X_OK):
            return at
    raise Unbuilt(f"neither {base}/{PROGRAM} nor {OUT}/kept can be written")


def kept(at, key):
    """Returns the program that is kept under this checksum, or None."""
    program = f"{at}/{key}/{PROGRAM}"
    if not os.access(program, os.X_OK):
        return None
    try:
        os.utime(os.path.dirname(program))
    except OSError:
        pass
    return program


def keep(made, at, key):
    """Keeps a program under a checksum, whole or not at all."""
    room = tempfile.mkdtemp(prefix="new-", dir=os.path.dirname(made))
    os.rename(made, f"{room}/{PROGRAM}")
    if not kept(at, key):
        shutil.rmtree(f"{at}/{key}", ignore_errors=True)
        os.rename(room, f"{at}/{key}")


def copy_sources(to):
    """Copies what the program stands on, as a repository of its own, without edits that must fail."""
    lines = lines_of(ROOT)
    # (rt ci holds a lock in the folder .git of a repository, and reads nothing of it)
    os.makedirs(f"{to}/.git")
    for path in [*files_of(ROOT, lines, PARTS), *files_of(ROOT, [PROGRAM], RUN)]:
        os.makedirs(os.path.dirname(f"{to}/{path}"), exist_ok=True)
        shutil.copyfile(f"{ROOT}/{path}", f"{to}/{path}")
    if os.path.isfile(f"{ROOT}/HANDLES"):
        shutil.copyfile(f"{ROOT}/HANDLES", f"{to}/HANDLES")
    with open(f"{to}/crates.txt", "w", encoding="utf-8") as it:
        it.writelines(lines.values())


class Progress:
    """Tells a terminal how far the build is, and anything else only where it begins and ends."""

    def __init__(self, total):
        self.total, self.done, self.failed, self.last = total, set(), [], ""
        self.begun, self.is_terminal = time.monotonic(), sys.stderr.isatty()

    def read(self, line):
        found = DONE.match(line)
        if not found:
            return
        if found[2] == "NOT PROVED":
            self.failed.append(found[1])
        else:
            self.done.add(found[1])
            self.last = found[1]

    def minutes(self):
        return f"{(time.monotonic() - self.begun) / 60:.1f} min"

    def show(self):
        if self.is_terminal:
            last = f", last {self.last}" if self.last else ""
            text = f"sheetdesk: {len(self.done)} of {self.total} crates proved, {self.minutes()}{last}"
            print(f"\r\033[K{text}", end="", file=sys.stderr, flush=True)

    def end(self):
        if self.is_terminal:
            print("\r\033[K", end="", file=sys.stderr, flush=True)


def free_memory():
    """Returns how much memory is free, in bytes, as the system says it."""
    with open("/proc/meminfo", encoding="ascii") as it:
        found = re.search(r"MemAvailable:\s+(\d+)", it.read())
    return 1024 * int(found[1]) if found else 0


def sharing():
    """Returns what tells `rt ci` how many checks run side by side, one a processor, where memory is short; else it goes by a plan of its own,
    in which a check that is alone gets several processors."""
    free = free_memory()
    return {} if free >= ENOUGH else {"RT_JOBS": str(max(1, min(len(os.sched_getaffinity(0)), free // CHECK)))}


def end_of(process):
    """Ends a process and all that it started, where it still runs."""
    for number in (signal.SIGTERM, signal.SIGKILL):
        try:
            os.killpg(process.pid, number)
            process.wait(timeout=5)
        except (ProcessLookupError, PermissionError, subprocess.TimeoutExpired):
            pass


def follow(process, progress, log, copy):
    """Writes to the log what the process says, and shows how far it is, until it has ended."""
    rest = b""
    with selectors.DefaultSelector() as waiting:
        waiting.register(process.stdout, selectors.EVENT_READ)
        while True:
            progress.show()
            if not waiting.select(timeout=5):
                continue
            got = os.read(process.stdout.fileno(), 65536)
            *whole, rest = (rest + got).split(b"\n")
            for line in [*whole, *([] if got else [rest])]:
                text = line.decode(errors="replace").replace(copy, ROOT)
                print(text, file=log, flush=True)
                progress.read(text)
            if not got:
                return process.wait()


def prove(copy, lock, log, progress):
    """Proves and builds the copy, and returns the exit status of that."""
    env = {**sharing(), **os.environ}
    # (it holds the lock too, should this process be killed)
    how = {"pass_fds": [lock.fileno()], "preexec_fn": os.setpgrp, "env": env, "stdin": subprocess.DEVNULL}
    words = [sys.executable, f"{ROOT}/tools/prove_crates.py"]
    process = subprocess.Popen(words, cwd=copy, stdout=subprocess.PIPE, stderr=subprocess.STDOUT, **how)
    try:
        return follow(process, progress, log, copy)
    finally:
        progress.end()
        end_of(process)


def open_log(at):
    """Opens the log of a build: in the clone, or beside what is kept where the clone cannot be written."""
    try:
        os.makedirs(OUT, exist_ok=True)
        return open(f"{OUT}/build.log", "w", encoding="utf-8")
    except OSError:
        return open(f"{at}/build.log", "w", encoding="utf-8")


def remove_oldest(at):
    """Removes the programs that were not asked for the longest time."""
    found = [it for it in os.scandir(at) if re.fullmatch("((unproved|fast)-)?[0-9a-f]{64}", it.name)]
    for it in sorted(found, key=lambda it: it.stat().st_mtime)[:-MOST]:
        shutil.rmtree(it.path, ignore_errors=True)


def build(at, lock, kit):
    """Proves and builds the program, keeps it, and returns its path."""
    # (there it is where an earlier build was killed)
    copy = f"{at}/building"
    shutil.rmtree(copy, ignore_errors=True)
    try:
        copy_sources(copy)
        key, progress = checksum(copy, kit), Progress(len(lines_of(copy)))
        say(f"building: {progress.total} crates are proved first, which takes most of an hour on 4 processors where none was proved before")
        say("(./sheetdesk --unproved WORDS.. does not wait for proofs)")
        with open_log(at) as log:
            status = prove(copy, lock, log, progress)
        made = f"{copy}/crates/{PROGRAM}/out/{PROGRAM}"
        if status or not os.path.isfile(made):
            why = f"{', '.join(progress.failed)} not proved" if progress.failed else f"rt ci ended with status {status}"
            raise Unbuilt(f"{why}: see {log.name}")
        keep(made, at, key)
        say(f"built in {progress.minutes()}")
    finally:
        shutil.rmtree(copy, ignore_errors=True)
    remove_oldest(at)
    return f"{at}/{key}/{PROGRAM}"


def locked(at):
    """Waits until no other build runs, and returns the lock, which is held until it is closed."""
    lock = open(f"{at}/lock", "w")
    try:
        fcntl.flock(lock, fcntl.LOCK_EX | fcntl.LOCK_NB)
    except BlockingIOError:
        say("waiting for another ./sheetdesk that builds on this machine")
        fcntl.flock(lock, fcntl.LOCK_EX)
    return lock


def now():
    """Returns the time, in nanoseconds, by the clock of the disk on which the sources are, where that can be asked."""
    try:
        os.makedirs(OUT, exist_ok=True)
        with tempfile.TemporaryFile(dir=OUT) as it:
            return os.fstat(it.fileno()).st_mtime_ns
    except OSError:
        return time.time_ns()


def note(program, begun):
    """Notes in the clone which program its sources are, as they stood at that time."""
    try:
        with tempfile.NamedTemporaryFile("w", prefix="built-", dir=OUT, delete=False) as it:
            it.write(f"{program}\n")
        os.utime(it.name, ns=(begun, begun))
        os.replace(it.name, f"{OUT}/built")
    except OSError:
        # (a clone that cannot be written: the checksum is taken each time)
        pass


def main():
    begun = now()
    kit, at = toolchain(), store()
    program = kept(at, checksum(ROOT, kit))
    if not program:
        with locked(at) as lock:
            # (sources may change while this waits, and another may have built them)
            begun = now()
            program = kept(at, checksum(ROOT, kit)) or build(at, lock, kit)
    note(program, begun)
    print(program)
    return 0


if __name__ == "__main__":
    for number in (signal.SIGTERM, signal.SIGHUP):
        signal.signal(number, lambda number, _: sys.exit(128 + number))
    try:
        sys.exit(main())
    except Unbuilt as why:
        say(f"it cannot be built: {why}")
    except OSError as error:
        say(f"it cannot be built: {error}")
    except KeyboardInterrupt:
        sys.exit(130)
    sys.exit(4)
