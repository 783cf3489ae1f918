#!/usr/bin/env python3
"""Times commands over a folder while its desk serves it, beside a desk of plain Python over SQLite, in one run.

Usage: served_times.py [--folder FOLDER] [--alone] [COUNT [TIMES]]     (100000 rows, 300 of each; --alone: no Python)

FOLDER is where temporary files are, memory where there is some. Told are milliseconds by the clock: the middle one of
TIMES, with the least and the greatest, of 100 the 99th, and which ones were the slowest. A command is a process of its
own, which asks the desk: its start is in its time, and is told too. An exchange is one addition over loopback, without
a process. All is done once more beside four clients, each a process, that add media all the time; told is how many they
added a second. The Python is `plain_folder.py serve` over the same rows, asked by the same bytes. What is slow in both,
or with a server that answers at once, is of the machine. Last, what `status` takes without a desk.
"""

import argparse
import contextlib
import math
import multiprocessing
import os
import shutil
import socket
import statistics
import subprocess
import sys
import tempfile
import threading
import time
import uuid

HERE = os.path.dirname(os.path.abspath(__file__))
sys.path.insert(0, os.path.join(HERE, "..", "torture"))
sys.dont_write_bytecode = True

import served_folder
from desk_times import PLAIN_FOLDER, exchange, free_port, listening
from timed_lists import ARCHIVE, AT, FRAME, HEADER, List

MEMORY = "/dev/shm" if os.path.isdir("/dev/shm") else None
FORKED = multiprocessing.get_context("fork")
MAKE = ["--archive", ARCHIVE, "--at", AT, "--frame", FRAME]


def rows(count):
    """A list that adds so many rows."""
    made = List()
    for number in range(count):
        made.row(number, number * 7919 % 1048576, 1 + number * 104729 % 1048576)
    return HEADER + "".join(made.lines)


def milliseconds(work, *words):
    begun = time.monotonic()
    work(*words)
    return (time.monotonic() - begun) * 1000


def carry_out(words, given=b"", program=None):
    """A command that ends well."""
    program = program or [served_folder.PROGRAM]
    done = subprocess.run([*program, *words], input=given, capture_output=True, check=False)
    assert done.returncode == 0, (words, done.stdout, done.stderr)


def tell(what, times):
    ranked = sorted(times)
    most = ranked[math.ceil(len(ranked) * 0.99) - 1]
    slowest = sorted(range(len(times)), key=lambda it: -times[it])[:5]
    named = ", ".join(f"{times[it]:.1f} number {it + 1}" for it in slowest)
    print(f"{what}: {statistics.median(times):.2f} ({ranked[0]:.2f} to {ranked[-1]:.1f}), 99 of 100 within {most:.1f}; {named}", flush=True)


def request(number):
    """A request that adds a medium of one byte."""
    identity = str(uuid.UUID(int=number, version=4))
    made = {"package": ARCHIVE, "identity": identity, "kind": "media", "text": "text/plain", "data": "41"}
    return served_folder.request(number, "add", **made)


class OwnDesk:
    """The desk of a folder, and what is asked of it by an exchange."""

    def __init__(self, folder):
        self.desk = served_folder.Desk(folder)

    def add(self, number):
        out, error, status = self.desk.ask(["apply", "maps"], request(number))
        assert status == 0, (out, error)

    def end(self):
        self.desk.end()


class PlainDesk:
    """The same in plain Python. It serves additions alone."""

    def __init__(self, folder):
        self.port = free_port()
        words = [*PLAIN_FOLDER, "serve", folder, str(self.port), "100000000"]
        self.process = subprocess.Popen(words, stdin=subprocess.DEVNULL, stderr=subprocess.DEVNULL)
        listening(self.port)

    def add(self, number):
        body = request(number)
        answer = exchange(self.port, b"POST /requests HTTP/1.1\r\nHost: 127.0.0.1\r\nContent-Length: %d\r\n\r\n%s" % (len(body), body))
        assert answer.startswith(b"HTTP/1.1 200 "), answer

    def end(self):
        self.process.kill()
        self.process.wait()


def add_on(desk, first, is_over, added):
    """Adds one thing after the other until it is over, each by a connection of its own."""
    number = first
    while not is_over.is_set():
        desk.add(number)
        number += 1
    added.send(number - first)


@contextlib.contextmanager
def four_clients(desk, first):
    """Four processes that add, and last how many requests they had carried out a second."""
    is_over, clients, lines = FORKED.Event(), [], []
    for it in range(4):
        ours, theirs = FORKED.Pipe()
        clients.append(FORKED.Process(target=add_on, args=(desk, first + it * 1_000_000, is_over, theirs), daemon=True))
        lines.append(ours)
    begun = time.monotonic()
    for client in clients:
        client.start()
    yield
    is_over.set()
    added = sum(line.recv() for line in lines)
    print(f"  .. while four clients add {added / (time.monotonic() - begun):.0f} a second", flush=True)
    for client in clients:
        client.join()


def nothing(times):
    """Exchanges with a server that answers at once."""
    def answer(server):
        for _ in range(times):
            with server.accept()[0] as client:
                client.recv(65536)
                client.sendall(b"HTTP/1.1 200 OK\r\n\r\n" + b"." * 400)

    with socket.create_server(("127.0.0.1", 0)) as server:
        threading.Thread(target=answer, args=[server], daemon=True).start()
        text, port = request(1), server.getsockname()[1]
        return [milliseconds(exchange, port, text) for _ in range(times)]


def commands(desk, folder, times, first, beside=""):
    """What `status` and `apply` take, each a process."""
    tell(f"status{beside}", [milliseconds(carry_out, ["status", folder]) for _ in range(times)])
    requests = [request(first + it) for it in range(times)]
    tell(f"apply{beside}", [milliseconds(carry_out, ["apply", folder], it) for it in requests])
    tell(f"an addition by an exchange{beside}", [milliseconds(desk.add, first + times + it) for it in range(times)])


def serve_own(folder, path, times):
    carry_out(["init", folder, *MAKE])
    carry_out(["import", folder, path])
    desk = OwnDesk(folder)
    try:
        tell("the start of a process (`--help`)", [milliseconds(carry_out, ["--help"]) for _ in range(times)])
        commands(desk, folder, times, 9_000_000)
        with four_clients(desk, 20_000_000):
            commands(desk, folder, times, 10_000_000, " beside four clients")
    finally:
        desk.end()
    tell("status without a desk", [milliseconds(carry_out, ["status", folder]) for _ in range(3)])


def serve_plain(folder, path, times):
    carry_out(["init", *MAKE, folder], program=PLAIN_FOLDER)
    carry_out(["import", folder, path], program=PLAIN_FOLDER)
    desk = PlainDesk(folder)
    try:
        tell("Python: an addition by an exchange", [milliseconds(desk.add, 9_000_000 + it) for it in range(times)])
        with four_clients(desk, 20_000_000):
            found = [milliseconds(desk.add, 10_000_000 + it) for it in range(times)]
            tell("Python: an addition by an exchange beside four clients", found)
    finally:
        desk.end()


def main():
    words = argparse.ArgumentParser(description=__doc__, formatter_class=argparse.RawDescriptionHelpFormatter)
    words.add_argument("--folder", default=MEMORY)
    words.add_argument("--alone", action="store_true")
    words.add_argument("count", nargs="?", type=int, default=100_000)
    words.add_argument("times", nargs="?", type=int, default=300)
    said = words.parse_args()
    room = tempfile.mkdtemp(prefix="served-", dir=said.folder)
    path = f"{room}/list.csv"
    try:
        with open(path, "w", encoding="utf-8") as to:
            to.write(rows(said.count))
        print(f"{said.count} rows, {said.times} of each, milliseconds, load {os.getloadavg()[0]:.1f}")
        for name, serve in (("own", serve_own), ("plain", serve_plain)):
            if name == "own" or not said.alone:
                os.mkdir(f"{room}/{name}")
                serve(f"{room}/{name}", path, said.times)
        tell("an exchange with a server that answers at once", nothing(said.times))
        print(f"load {os.getloadavg()[0]:.1f} at the end")
    finally:
        shutil.rmtree(room)


if __name__ == "__main__":
    main()
