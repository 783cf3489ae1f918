#!/usr/bin/env python3
"""Times additions over loopback: the desk of `sheetdesk`, and Python's http.server over stock SQLite (plain_desk.py), in one run.

Usage: desk_times.py [--files FOLDER] [--program PROGRAM] [--clients N] [ROUNDS [COUNT]]      (3 rounds of 3000 additions)

N clients (1 by itself), each a process, send COUNT additions in all, a third each tiles, media and rows, one a connection, each client
when its last is answered: with one the server waits while the client works, with three it has always something to do. Both sides get
the same bytes, and must answer the same bodies, but for the numbers of receipts where several clients come in any order. The packages are in memory (`rehearse --serve`, plain_desk.py), or with
--files in files of a new folder in FOLDER, where each addition is committed by itself and waits for the disk (`serve`, and
`plain_folder.py serve`). Told are additions a second by the clock, with the client's own work in them, and the microseconds of
processor that the server took for each, less those of a server that was asked one thing: the median of the rounds, with the
least and the greatest. What a client alone costs is told too: the same exchanges with a server that answers at once, whatever comes.
"""

import argparse
import multiprocessing
import os
import re
import shutil
import socket
import statistics
import subprocess
import sys
import tempfile
import threading
import time

HERE = os.path.dirname(os.path.abspath(__file__))
sys.path.insert(0, os.path.join(HERE, "..", "samples"))
sys.dont_write_bytecode = True

from desk_requests import body_of
from machine.lists import read_requests
from program import program
from timed_lists import ARCHIVE, AT, FRAME, HEADER, additions

PROGRAM = None
PLAIN_FOLDER = [sys.executable, os.path.join(HERE, "plain_folder.py")]
MAKE = ["--archive", ARCHIVE, "--at", AT, "--frame", FRAME]


def words_of(side, port, count, folder):
    """A server over packages in memory, or over the files of a folder."""
    if folder:
        return [*([PROGRAM] if side == "sheetdesk" else PLAIN_FOLDER), "serve", folder, str(port), str(count)]
    if side == "Python":
        return [sys.executable, os.path.join(HERE, "plain_desk.py"), str(port), str(count), ARCHIVE, AT, FRAME]
    return [PROGRAM, "rehearse", *MAKE, "--serve", str(port), "--count", str(count)]


def posts(count):
    for request in read_requests(additions(count).text()):
        body = body_of(request).encode()
        yield b"POST /requests HTTP/1.1\r\nHost: 127.0.0.1\r\nContent-Length: %d\r\n\r\n%s" % (len(body), body)


def free_port():
    with socket.socket() as taken:
        taken.bind(("127.0.0.1", 0))
        return taken.getsockname()[1]


def exchange(port, text):
    with socket.create_connection(("127.0.0.1", port)) as client:
        client.sendall(text)
        answer = b""
        while piece := client.recv(65536):
            answer += piece
    return answer


def listening(port):
    """Waits for the server, without a connection that it would count."""
    for _ in range(600):
        with open("/proc/net/tcp", encoding="ascii") as table:
            if any(f":{port:04X} 00000000:0000 0A" in line for line in table):
                return
        time.sleep(0.02)
    sys.exit("the server does not listen")


def ended(side, server):
    """The seconds of the processor that a server took until it ended."""
    _, status, used = os.wait4(server.pid, 0)
    if status != 0:
        sys.exit(f"{side} ended with {os.waitstatus_to_exitcode(status)}")
    return used.ru_utime + used.ru_stime


def new_folder(side, files):
    """A folder with a new archive, or none where the packages are in memory."""
    if not files:
        return None
    folder = tempfile.mkdtemp(dir=files)
    subprocess.run([*([PROGRAM] if side == "sheetdesk" else PLAIN_FOLDER), "init", *MAKE, folder], stdout=subprocess.DEVNULL, check=True)
    return folder


def exchanged(port, texts):
    """The seconds by the clock, and the answers."""
    start = time.perf_counter()
    answers = [exchange(port, text) for text in texts]
    return time.perf_counter() - start, answers


def client(port, texts, line):
    """A client of its own: it begins when it is told to, and tells when it ended and what it got."""
    line.recv()
    answers = [exchange(port, text) for text in texts]
    line.send((time.perf_counter(), answers))


def exchanged_by(clients, port, texts):
    """The same by several clients at once."""
    if clients == 1:
        return exchanged(port, texts)
    forked, lines = multiprocessing.get_context("fork"), []
    for at in range(clients):
        ours, theirs = forked.Pipe()
        forked.Process(target=client, args=[port, texts[at::clients], theirs], daemon=True).start()
        lines.append(ours)
    start = time.perf_counter()
    for line in lines:
        line.send(None)
    answers, ends = [b""] * len(texts), []
    for at, line in enumerate(lines):
        end, answers[at::clients] = line.recv()
        ends.append(end)
    return max(ends) - start, answers


def are_alike(clients, bodies):
    """Whether both sides answered the same, each with a receipt: the very bytes, or with the same numbers in another order."""
    numbers = [[int(found[1]) if (found := re.search(rb'"seq":(\d+)', body)) else 0 for body in side] for side in bodies]
    if clients == 1:
        return bodies[0] == bodies[1] and all(numbers[0])
    unnumbered = [[re.sub(rb'"seq":\d+', b"", body) for body in side] for side in bodies]
    return unnumbered[0] == unnumbered[1] and all(sorted(side) == list(range(1, len(side) + 1)) for side in numbers)


def run(side, texts, files, clients=1):
    """The seconds by the clock, those of the server's processor, and the answers."""
    folder, port = new_folder(side, files), free_port()
    server = subprocess.Popen(words_of(side, port, len(texts), folder), stdin=subprocess.PIPE, stdout=subprocess.DEVNULL)
    if not folder:
        server.stdin.write(HEADER.encode())
    server.stdin.close()
    listening(port)
    took, answers = exchanged_by(clients, port, texts)
    used = ended(side, server)
    if folder:
        shutil.rmtree(folder)
    return took, used, [answer.split(b"\r\n\r\n", 1)[1] for answer in answers]


def client_alone(texts):
    """The exchanges a second where the answer costs nothing."""
    def answer(server):
        for _ in texts:
            with server.accept()[0] as client:
                client.recv(65536)
                client.sendall(b"HTTP/1.1 200 OK\r\n\r\n" + b"." * 400)

    with socket.create_server(("127.0.0.1", 0)) as server:
        threading.Thread(target=answer, args=[server], daemon=True).start()
        return len(texts) / exchanged(server.getsockname()[1], texts)[0]


def spelled(values, digits):
    return f"{statistics.median(values):.{digits}f} ({min(values):.{digits}f} to {max(values):.{digits}f})"


def main():
    global PROGRAM
    words = argparse.ArgumentParser(description=__doc__, formatter_class=argparse.RawDescriptionHelpFormatter)
    words.add_argument("--files", metavar="FOLDER")
    words.add_argument("--program")
    words.add_argument("--clients", type=int, default=1)
    words.add_argument("rounds", type=int, nargs="?", default=3)
    words.add_argument("count", type=int, nargs="?", default=3000)
    said = words.parse_args()
    PROGRAM, texts = said.program or program(), list(posts(said.count))
    measured = {"sheetdesk": [], "Python": []}
    print(f"load {os.getloadavg()[0]:.1f} at the start, {said.rounds} rounds of {said.count} additions by {said.clients} at once, packages in {said.files or 'memory'}")
    for _ in range(said.rounds):
        bodies = []
        for side, runs in measured.items():
            idle = run(side, [b"GET /nothing HTTP/1.1\r\n\r\n"] if side == "sheetdesk" else texts[:1], said.files)[1]
            took, used, answers = run(side, texts, said.files, said.clients)
            runs.append((said.count / took, 1e6 * (used - idle) / said.count))
            bodies.append(answers)
        if not are_alike(said.clients, bodies):
            sys.exit("they do not answer the same, or an addition was refused")
    for side, runs in measured.items():
        print(f"{side:9} {spelled([each for each, _ in runs], 0)} additions a second, {spelled([cost for _, cost in runs], 1)} us of processor an addition")
    ratios = [ours[0] / theirs[0] for ours, theirs in zip(measured["sheetdesk"], measured["Python"])]
    costs = [theirs[1] / ours[1] for ours, theirs in zip(measured["sheetdesk"], measured["Python"])]
    print(f"sheetdesk serves {spelled(ratios, 1)} times as many, of the processor {spelled(costs, 1)}; the client alone makes {client_alone(texts):.0f} exchanges a second; load {os.getloadavg()[0]:.1f} at the end")


if __name__ == "__main__":
    main()
