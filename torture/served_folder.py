#!/usr/bin/env python3
"""A folder that is served answers as one that is not: two folders that were made alike, one of them served.

Usage: served_folder.py [COUNT]      (as many requests of each of two clerks at once; 50)
       SHEETDESK=PROGRAM served_folder.py ..    over another program than the proved one

Each line of the session is asked of the served folder twice, by the program and by the bytes of `docs/HTTP.md`, and
of the other folder by the program. All three must print the same bytes, and end with the same status. A command of
several requests is no single question, so the program alone asks it. Then the words by which the program asks for each
of its requests, clients that must be turned away, one that stops in the middle, two clerks at once beside a list, and
how long a command takes. Stock `sqlite3` has to be there. Status 0 where all is as it must be.
"""

import json
import os
import re
import shutil
import signal
import socket
import subprocess
import sys
import tempfile
import threading
import time
import uuid

from running_desk import ARCHIVE, AT, FRAME, TOP, free_port

from program import program

PROGRAM = program()
TILE = "b11a81ce-d813-5082-80f4-8b94d1743e2c"
LATER = "2026-03-03T09:00:00.000Z"


def new_id(number):
    return f"5e4b0000-0000-4000-8000-{number:012d}"


def typed(words, folder, given=b""):
    """What the program prints of the words over a folder, and how it ends."""
    words = [folder if word == "FOLDER" else word for word in words]
    done = subprocess.run([PROGRAM, *words], input=given, capture_output=True, check=False)
    return done.stdout, done.stderr, done.returncode


def body_of(words, given):
    """The body in which a command is asked."""
    parts = [b"%d\n" % len(words)]
    for word in words:
        word = word.encode()
        parts.append(b"%d\n%s\n" % (len(word), word))
    return b"".join([*parts, b"%d\n%s" % (len(given), given)])


def frames_in(answer):
    """Standard output, standard error and the status of an answer.

    The status is None where the answer has no end, and 'not here' where it says so.
    """
    out, error = b"", b""
    while answer:
        head, _, rest = answer.partition(b"\n")
        kind, number = head.split(b" ")
        if kind == b"0":
            assert not rest, rest
            return out, error, int(number)
        if kind == b"3":
            return out, error, "not here"
        part, answer = rest[: int(number)], rest[int(number) :]
        assert len(part) == int(number), "a frame that is cut"
        out, error = (out + part, error) if kind == b"1" else (out, error + part)
    return out, error, None


class Desk:
    """A desk over a folder."""

    def __init__(self, folder):
        self.folder, self.port = folder, free_port()
        words = [PROGRAM, "serve", folder, str(self.port), "--log"]
        self.said = tempfile.TemporaryFile()
        self.process = subprocess.Popen(words, stdin=subprocess.DEVNULL, stdout=subprocess.DEVNULL, stderr=self.said)
        self.key = self.wait()

    def wait(self):
        """Waits until it listens, and gives its key."""
        for _ in range(3000):
            self.said.seek(0)
            if b"listening" in self.said.read():
                break
            if self.process.poll() is not None:
                sys.exit(f"the desk ended with {self.process.returncode}")
            time.sleep(0.1)
        with open(f"{self.folder}/sheetdesk.desk", encoding="ascii") as told:
            port, key = told.read().split()
        mode = os.stat(f"{self.folder}/sheetdesk.desk").st_mode & 0o777
        assert mode == 0o600 and int(port) == self.port and len(key) == 32, (oct(mode), port, key)
        return key

    def end(self):
        self.process.send_signal(signal.SIGTERM)
        self.process.wait()

    def head(self, size, key=None, host=None, more=b""):
        host = host or f"127.0.0.1:{self.port}"
        fields = f"Host: {host}\r\nSheetdesk-Key: {key or self.key}\r\nContent-Length: {size}\r\n"
        return b"POST /commands HTTP/1.1\r\n" + fields.encode() + more + b"\r\n"

    def exchange(self, text):
        with socket.create_connection(("127.0.0.1", self.port), timeout=600) as client:
            client.sendall(text)
            answer = b""
            while piece := client.recv(65536):
                answer += piece
        return answer

    def ask(self, words, given=b""):
        """What the desk prints of the words, and how that ends."""
        body = body_of(words, given)
        answer = self.exchange(self.head(len(body)) + body)
        head, _, rest = answer.partition(b"\r\n\r\n")
        assert head.startswith(b"HTTP/1.1 200 "), answer
        return frames_in(rest)


def request(number, command, **members):
    """A request as JSON."""
    asked = {"request": new_id(number), "at": LATER, "command": command, "package": ARCHIVE, **members}
    return json.dumps(asked).encode()


def medium(number, size):
    """The record of a list that adds a medium of so many bytes."""
    return f"{new_id(number)},{LATER},add,{ARCHIVE},{new_id(number)},,media,,,,,,,,,,text/plain,{'41' * size}\n"


def written(room, name, text):
    """A new file of this text."""
    path = f"{room}/{name}"
    os.makedirs(os.path.dirname(path), exist_ok=True)
    with open(path, "wb") as file:
        file.write(text)
    return path


def imports(room):
    """Lists: one that was carried out before, a new one with refusals, none, and one that is no list."""
    with open(f"{TOP}/samples/archive.csv", "rb") as sample:
        header = sample.readline()
    records = medium(701, 3) + medium(702, 1048576) + medium(701, 4) + medium(703, 1048577) + medium(704, 1300000)
    yield ["import", "FOLDER", f"{TOP}/samples/archive.csv"], b""
    for name, text in (
        ("long.csv", header + records.encode()),
        ("empty.csv", header),
        ("nothing.csv", b""),
        ("header.csv", b"request,at\n"),
        ("record.csv", header + medium(705, 1).encode() + b"x,y\n"),
        ("column.csv", header + medium(706, 1).replace("media", "medium").encode()),
    ):
        yield ["import", "FOLDER", written(room, name, text)], b""
    yield ["import", "FOLDER", f"{room}/none.csv"], b""
    yield ["import", "FOLDER", room], b""
    yield ["log", "FOLDER", "--last", "4"], b""


def drops():
    """An item without links, and one with them, shown, refused, and dropped."""
    mark = ["put", "FOLDER", ARCHIVE, "mark", "500010,5900010", "220", "Kaj", "--at", LATER]
    for number in (801, 802, 803):
        yield [*mark, "--request", new_id(number), "--as", new_id(number)], b""
    for number in (804, 805):
        made = ["--request", new_id(number), "--as", new_id(number), "--at", LATER]
        yield ["put", "FOLDER", ARCHIVE, "media", "-", *made], b"abc"
        yield ["join", "FOLDER", new_id(802), new_id(number), "--request", new_id(number + 10), "--at", LATER], b""
    for words in (
        ["drop", "FOLDER", new_id(801), "--dry-run"],
        ["drop", "FOLDER", new_id(801), "--at", LATER],
        ["drop", "FOLDER", new_id(801)],
        ["drop", "FOLDER", new_id(802)],
        ["drop", "FOLDER", new_id(802), "--dry-run"],
        ["drop", "FOLDER", "--yes", "--dry-run", new_id(802)],
        ["drop", "FOLDER", new_id(803), "--at", "yesterday"],
        ["drop", "FOLDER", "--at", LATER, new_id(802), "--yes"],
        ["drop", "FOLDER", new_id(803), "-q"],
        ["drop", "FOLDER", new_id(803), "-q"],
        ["drop", "FOLDER", "000"],
        ["drop", "FOLDER", "zzzz", "--at", LATER],
        ["drop", "FOLDER", "5e4b"],
        ["drop", "FOLDER", "harbour"],
    ):
        yield words, b""


def held_by(twin, room, change):
    """What a file holds that was exported and changed."""
    path = f"{room}/field.gpkg"
    if os.path.exists(path):
        os.remove(path)
    text = typed(["export", "FOLDER", ARCHIVE], twin)[0]
    subprocess.run(["sqlite3", "-bail", path], input=text + change.encode(), check=True, stdout=subprocess.PIPE)
    holds = typed(["holds"], twin)[0]
    return subprocess.run(["sqlite3", path], input=holds, check=True, stdout=subprocess.PIPE).stdout


def brought(twin, room):
    """An edited file: what it changes, that brought home, and what is refused of it."""
    more = "INSERT INTO sheet_media (data, content_type) VALUES (x'616263', 'text/plain');"
    held = held_by(twin, room, f"UPDATE sheet_rows SET label = label || '!' WHERE id < 3; {more}")
    for given in (held, held[:-1], held[: len(held) // 2], b"", b"\xff" * 100000):
        yield ["changes", "FOLDER", ARCHIVE, "--at", LATER], given
        yield ["bring", "FOLDER", "6f0d", "--dry-run", "--summary", "--at", LATER], given
        if given is not held:
            yield ["bring", "FOLDER", ARCHIVE, "--at", LATER], given
    yield ["changes", "FOLDER", ARCHIVE, "--at", LATER, "--summary", "--more"], held
    yield ["bring", "FOLDER", ARCHIVE, "--at", LATER, "--dry-run"], held
    yield ["bring", "FOLDER", new_id(1), "--at", LATER], held
    yield ["bring", "FOLDER", "ffff", "--at", LATER], held
    yield ["bring", "FOLDER", ARCHIVE, "--at", "now"], held
    yield ["bring", "FOLDER", ARCHIVE, "--at", LATER], held
    # (the package has changed since)
    yield ["bring", "FOLDER", ARCHIVE, "--at", LATER], held
    yield ["bring", "FOLDER", ARCHIVE, "--more", "--at", LATER], held
    yield ["manifest", "FOLDER", ARCHIVE], b""


def trees(room):
    """A tree of tiles: added, passed over, refused in the middle, and what is no tree."""
    for place, text in (("4/1/1", b"abc"), ("5/1/1", b"def"), ("6/3/2", b"x" * 1200000), ("6/3/3", b"ghi")):
        written(room, f"tree/{place}.png", text)
    put = ["put", "FOLDER", ARCHIVE, "tiles"]
    yield [*put, f"{room}/tree", "--at", LATER], b""
    yield [*put, f"{room}/tree", "--at", LATER, "-q"], b""
    written(room, "tree/6/3/2.png", b"short")
    yield [*put, f"{room}/tree", "--at", LATER, "-q"], b""
    yield [*put, f"{room}/tree", "--at", LATER], b""
    written(room, "tree/5/1/1.png", b"another")
    yield [*put, f"{room}/tree", "--at", LATER], b""
    written(room, "far/9/99/99.png", b"far")
    yield [*put, f"{room}/far", "--at", LATER], b""
    # (row 2 from below is row 0 from above, and there is no row 3)
    written(room, "upward/4/1/2.png", b"edge")
    yield [*put, f"{room}/upward", "--tms", "--at", LATER], b""
    yield [*put, f"{room}/upward", "--at", LATER, "--tms", "-q"], b""
    written(room, "upward/4/1/3.png", b"past")
    yield [*put, f"{room}/upward", "--tms", "--at", LATER], b""
    yield [*put, f"{room}/upward", "--tms", "--at", LATER, "-q"], b""
    yield ["put", "FOLDER", "harbour", "tiles", f"{room}/upward", "--tms"], b""
    os.makedirs(f"{room}/odd/4/0/3.png")
    yield [*put, f"{room}/odd", "--at", LATER], b""
    yield [*put, f"{room}/odd", "--at", LATER, "-q"], b""
    yield [*put, f"{room}/nowhere"], b""
    yield [*put, f"{room}/tree", "--at", "noon"], b""
    for word in ("ffff", "6f0", new_id(1), "harbour"):
        yield ["put", "FOLDER", word, "tiles", f"{room}/tree", "--at", LATER], b""
    # (the identities of these tiles are new, so other texts of the two folders differ)
    yield ["status", "FOLDER"], b""


def lines():
    """Requests, a line each: answered, refused, none, empty lines, and one request over several lines."""
    place = {"x": 500000400, "y": 5900000400, "code": 1}

    def mark(number):
        members = {"identity": new_id(number), "kind": "row", "text": "Ærø", **place}
        return request(number, "add", **members)

    yield ["apply", "FOLDER"], mark(951) + b"\n" + mark(952) + b"\n"
    yield ["apply", "FOLDER"], mark(951) + b"\n\n\r\n" + mark(952) + b"\n{}\n" + mark(953)
    yield ["apply", "FOLDER"], mark(954) + b"\nx\n" + mark(951).replace(b"400", b"401") + b"\n" + mark(955) + b"\n"
    yield ["apply", "FOLDER"], mark(956).replace(b", ", b",\n") + b"\n"
    yield ["apply", "FOLDER"], b"\n" + mark(957)
    yield ["apply", "FOLDER"], mark(957) + b"\n" + b"y" * 2200001
    yield ["apply", "FOLDER"], b""


def papers(room):
    """Pages and drawings with names and without, a project, and a folder that is made tidy."""
    names = written(room, "called.csv", f"uuid,name\r\n{TILE},Hafen\r\n{ARCHIVE},chart\r\n".encode())
    bad = written(room, "bad.csv", b"uuid,name\r\nx,y\r\n")
    for more in ([], ["--names", names], ["--names", bad], ["--names", f"{room}/none.csv"]):
        yield ["report", "FOLDER", *more], b""
        yield ["map", "FOLDER", *more], b""
        yield ["map", "FOLDER", "--zoom", "4", *more], b""
        yield ["report", "FOLDER", "9e87", *more], b""
    yield ["report", "FOLDER", "chart", "--names", names], b""
    yield ["report", "FOLDER", "ffff"], b""
    yield ["report", "FOLDER", new_id(1)], b""
    yield ["export", "FOLDER", ARCHIVE, "--qgis", "crew.gpkg"], b""
    yield ["export", "FOLDER", "ffff", "--qgis", "crew.gpkg"], b""
    yield ["tidy", "FOLDER"], b""
    yield ["tidy", "FOLDER", "-q"], b""


def session(twin, room):
    """The words, and the standard input, of each line: all of them."""
    yield from singles()
    yield from imports(room)
    yield from brought(twin, room)
    yield from lines()
    yield from papers(room)
    yield ["log", "FOLDER", "--last", "20"], b""
    yield ["audit", "FOLDER"], b""
    # (the UUIDs that these make are new, so later pages of the two folders differ)
    yield from drops()
    yield from trees(room)


def singles():
    """Those of one question: looks, requests, verbs, names, and what is refused of each."""
    loan = new_id(901)
    named = ["--at", LATER, "--request"]
    place = {"x": 500000100, "y": 5900000100, "code": "FP"}
    mark = {"identity": new_id(501), "kind": "attributes", "text": "Ærø", **place}
    yield ["status", "FOLDER"], b""
    yield ["status", "FOLDER", "--json"], b""
    yield ["log", "FOLDER"], b""
    yield ["log", "FOLDER", ARCHIVE[:4], "--last", "3", "--json"], b""
    yield ["log", "FOLDER", "--from", "x"], b""
    yield ["explain", "FOLDER", TILE], b""
    yield ["explain", "FOLDER", TILE[:6], "--json"], b""
    yield ["explain", "FOLDER", "0000"], b""
    yield ["explain", "FOLDER", "harbour"], b""
    yield ["receipt", "FOLDER", "1c9943af-154f-5574-af4c-d5d2f7aa289f"], b""
    yield ["receipt", "FOLDER", new_id(1)], b""
    yield ["receipt", "FOLDER", "none"], b""
    yield ["manifest", "FOLDER", ARCHIVE], b""
    yield ["manifest", "FOLDER", ARCHIVE[:5]], b""
    yield ["manifest", "FOLDER", "ffff"], b""
    yield ["export", "FOLDER", ARCHIVE], b""
    yield ["map", "FOLDER", "--zoom", "4"], b""
    yield ["map", "FOLDER", "--zoom", "77"], b""
    yield ["audit", "FOLDER"], b""
    yield ["get", "FOLDER", TILE], b""
    yield ["get", "FOLDER", "zzzz"], b""
    yield ["apply", "FOLDER"], request(1, "add", **mark)
    yield ["apply", "FOLDER"], request(1, "add", **mark)
    yield ["apply", "FOLDER"], request(2, "add", **mark)
    yield ["apply", "FOLDER"], b"{}"
    yield ["apply", "FOLDER"], b"x" * 2200001
    where = "500000200,5900000200"
    yield ["put", "FOLDER", ARCHIVE, "mark", where, "FP", "Kaj", *named, new_id(3), "--as", new_id(503)], b""
    yield ["put", "FOLDER", "6f0d", "media", "-", *named, new_id(4), "--as", new_id(504)], b"\x89PNG\r\n\x1a\nand more"
    yield ["join", "FOLDER", new_id(503), new_id(504), *named, new_id(5)], b""
    yield ["part", "FOLDER", new_id(503), new_id(504), *named, new_id(6)], b""
    yield ["lend", "FOLDER", "4/0-3/0-1", "--follow", *named, new_id(7), "--as", loan, "--dry-run"], b""
    yield ["lend", "FOLDER", "4/0-3/0-1", "--follow", *named, new_id(7), "--as", loan], b""
    yield ["status", "FOLDER"], b""
    yield ["lend", "FOLDER", "--box", "1,2,x,4", "--zoom", "5", *named, new_id(8)], b""
    yield ["lend", "FOLDER", "nowhere", "5/0-1/0-1", *named, new_id(9), "--as", new_id(902)], b""
    yield ["return", "FOLDER", loan[:13] + "-8000", *named, new_id(10)], b""
    yield ["return", "FOLDER", loan, *named, new_id(10)], b""
    yield ["log", "FOLDER", "--last", "9"], b""
    yield ["audit", "FOLDER"], b""


def plain(told):
    """What was printed, without new UUIDs of requests."""
    out, error, status = told
    return re.sub(rb'"request":"[0-9a-f-]{36}","at":"[^"]*"', b'"request":"new"', out), error, status


def has_names(words):
    """Whether a desk is sent a file of names in place of standard input."""
    return "--names" in words and "--zoom" not in words and os.path.exists(words[-1])


def given_to_desk(words, given):
    """What a desk is sent as standard input."""
    if has_names(words):
        with open(words[-1], "rb") as names:
            return names.read()
    return given


def is_several(words):
    """Whether a line is a command of several requests that are carried out."""
    name, is_shown = words[0], "--dry-run" in words
    return name in ("import", "apply") or "tiles" in words or (name in ("bring", "drop") and not is_shown)


def compare_several(desk, twin, words, given):
    """Such a line, carried out once on each."""
    due, told = typed(words, twin, given), typed(words, desk.folder, given)
    if plain(told) != plain(due):
        sys.exit(f"served_folder: {words}: the client prints\n{told}\nand not\n{due}")
    left = [name for name in os.listdir(desk.folder) if name.startswith("sheetdesk.input")]
    assert not left, left


def compare(desk, twin, room, has_client):
    """Each line, on the folder that is not served, and on the one that is."""
    for words, given in session(twin, room):
        asked = [desk.folder if word == "FOLDER" else word for word in words]
        if is_several(words) and words[0] != "apply":
            assert desk.ask(asked, given) == (b"", b"", "not here"), words
        if is_several(words):
            if has_client:
                compare_several(desk, twin, words, given)
            continue
        if "--names" in words and words[-1].endswith("none.csv"):
            compare_several(desk, twin, words, given)
            continue
        due = typed(words, twin, given)
        told = desk.ask(asked, given_to_desk(words, given))
        if plain(told) != plain(due):
            sys.exit(f"served_folder: {words}: the desk answers\n{told}\nand not\n{due}")
        # (what was carried out once gets the same receipt again, so a line may be asked of one folder twice)
        again = typed(words, twin, given)
        if has_client and plain(told := typed(words, desk.folder, given)) != plain(again):
            sys.exit(f"served_folder: {words}: the client prints\n{told}\nand not\n{again}")
        if not has_client:
            desk.ask(asked, given)


def words_of_lists(desk, room):
    """The words by which a client asks for each request of a list, and for what a file changes."""
    add = {"identity": new_id(961), "kind": "media", "text": "text/plain", "data": "41"}
    number = int(desk.ask(["audit", "maps"])[0].split()[1]) + 1
    line = f"7,{new_id(961)},{number},0\n".encode()
    for _ in range(2):
        assert desk.ask(["row", "7"], request(961, "add", **add)) == (line, b"", 0)
    refused = desk.ask(["row", "8"], request(962, "add", **add))
    assert refused == (f"8,{new_id(962)},0,6\n".encode(), b"record 8: refusal 6 IdentityUsed\n", 0), refused
    told = desk.ask(["outcome"], request(963, "delete", identity=new_id(961)))
    assert told[0].startswith(f"deleted {new_id(961)}\nreceipt {number + 1}: ".encode()) and told[1:] == (b"", 0), told
    out, error, status = desk.ask(["outcome"], request(964, "delete", identity=new_id(961)))
    assert out.startswith(b'{"name":"UnknownItem"') and error and status == 1, (out, error, status)
    assert desk.ask(["frame"]) == (FRAME.encode(), b"", 0)
    for words in (["row", "8"], ["outcome"]):
        assert desk.ask(words, b"{}")[::2] == (b"refused: body\n", 1), words
    for words in (["row"], ["row", "x"], ["row", "1", "2"], ["outcome", "1"], ["frame", "1"], ["from"], ["from", "x", "changes"]):
        assert desk.ask(words)[2] in ("not here", 1), words
    # A file that no client wrote there is not read.
    written(room, "sheetdesk.input-1", b"x")
    for name in ("../sheetdesk.input-1", "names.csv", "sheetdesk.input-none", f"{room}/sheetdesk.input-1"):
        told = desk.ask(["from", name, "changes", "maps", ARCHIVE])
        assert told[2] in ("not here", 1, 3), (name, told)
    assert os.path.exists(f"{desk.folder}/names.csv") and os.path.exists(f"{room}/sheetdesk.input-1")


def beside_a_list(desk, room, count):
    """A list by the program while a clerk asks: each is answered while the list goes on."""
    with open(f"{TOP}/samples/archive.csv", "rb") as sample:
        header = sample.readline()
    records = "".join(medium(300000 + number, 2) for number in range(count))
    path = written(room, "beside.csv", header + records.encode())
    begun, faults, spent = time.monotonic(), [], []
    process = subprocess.Popen([PROGRAM, "import", desk.folder, path], stdout=subprocess.PIPE, stderr=subprocess.PIPE)
    reader = threading.Thread(target=lambda: spent.append((process.communicate(), time.monotonic() - begun)))
    reader.start()
    first = 400000
    while reader.is_alive():
        clerk(desk, first, 1, faults)
        first += 1
    reader.join()
    (out, error), took = spent[0]
    assert not faults and not error and process.returncode == 0, (faults[:3], error, process.returncode)
    rows = out.decode().splitlines()[1:]
    assert len(rows) == count and all(row.endswith(",0") for row in rows), rows[:3]
    assert first - 400000 > count // 20, f"{first - 400000} requests beside {count}"
    return took / count, first - 400000


def turned_away(desk):
    """What is answered to those who must not come in; nothing is changed by them."""
    body = body_of(["apply", "maps"], request(77, "delete", identity=TILE))
    before = desk.ask(["log", "maps"])
    for due, text in (
        (b"403", desk.head(len(body), key="0" * 32) + body),
        (b"403", desk.head(len(body), more=b"Origin: http://127.0.0.1:%d\r\n" % desk.port) + body),
        (b"400", desk.head(len(body), host=f"localhost:{desk.port}") + body),
        (b"400", desk.head(len(body), more=b"Host: x\r\n") + body),
        (b"411", desk.head(len(body)).replace(b"Content-Length", b"Content-Lengths") + body),
        (b"413", desk.head(2300001) + body),
        (b"400", desk.head(-1) + body),
        (b"404", b"POST /command HTTP/1.1\r\nHost: 127.0.0.1\r\nContent-Length: 0\r\n\r\n"),
        (b"404", b"GET /commands HTTP/1.1\r\nHost: 127.0.0.1\r\n\r\n"),
        (b"403", b"GET /packages HTTP/1.1\r\nHost: evil.example:%d\r\n\r\n" % desk.port),
    ):
        answer = desk.exchange(text)
        assert answer[9:12] == due, (due, text[:200], answer)
    for words in (["import", "maps", "x"], ["serve", "maps", "1"], ["init", "maps"], ["nothing"], [], ["--help"]):
        assert desk.ask(words) == (b"", b"", "not here"), words
    for bad in (b"", b"1\n", b"1\n99\nx\n0\n", b"x", b"-1\n0\n", b"0\n5\nabc"):
        answer = desk.exchange(desk.head(len(bad)) + bad)
        assert answer.partition(b"\r\n\r\n")[2] == b"3 0\n", (bad, answer)
    with socket.create_connection(("127.0.0.1", desk.port)) as client:
        client.sendall(desk.head(len(body)) + body[:-1])
    with socket.create_connection(("127.0.0.1", desk.port)) as client:
        client.sendall(desk.head(len(body))[:20])
    # (in pieces it comes in all the same)
    slow = body_of(["audit", "maps"], b"")
    with socket.create_connection(("127.0.0.1", desk.port)) as client:
        for byte in desk.head(len(slow)) + slow:
            client.sendall(bytes([byte]))
        answer = b""
        while piece := client.recv(65536):
            answer += piece
    assert b"good " in answer and answer.endswith(b"0 0\n"), answer
    assert desk.ask(["log", "maps"]) == before


def clerk(desk, first, count, faults):
    """Requests of one clerk, each answered by its receipt."""
    for number in range(first, first + count):
        identity = str(uuid.UUID(int=number, version=4))
        text = request(number, "add", identity=identity, kind="media", text="text/plain", data="41")
        out, error, status = desk.ask(["apply", "maps"], text)
        if status != 0 or error or json.loads(out)["request"] != new_id(number):
            faults.append((number, out, error, status))


def two_at_once(desk, count):
    """Two clerks at once: each request is carried out, once."""
    before, faults = int(desk.ask(["audit", "maps"])[0].split()[1]), []
    both = [threading.Thread(target=clerk, args=(desk, first, count, faults)) for first in (100000, 200000)]
    begun = time.monotonic()
    for one in both:
        one.start()
    for one in both:
        one.join()
    spent = time.monotonic() - begun
    assert not faults, faults[:3]
    after = int(desk.ask(["audit", "maps"])[0].split()[1])
    assert after == before + 2 * count, (before, after)
    return spent / (2 * count)


def each_takes(desk, words, times=20):
    """How long the middle one of some exchanges takes."""
    spent = []
    for _ in range(times):
        begun = time.monotonic()
        desk.ask(words)
        spent.append(time.monotonic() - begun)
    return sorted(spent)[times // 2]


def main(count):
    room = tempfile.mkdtemp(prefix="served-")
    served, twin = f"{room}/maps", f"{room}/twin"
    os.mkdir(served)
    for words in (
        ["init", "FOLDER", "--archive", ARCHIVE, "--at", AT, f"--frame={FRAME}"],
        ["import", "FOLDER", f"{TOP}/samples/archive.csv"],
    ):
        out, error, status = typed(words, served)
        assert status == 0, (words, out, error)
    with open(f"{served}/names.csv", "w", encoding="utf-8") as names:
        names.write(f"uuid,name\r\n{TILE},harbour\r\n")
    shutil.copytree(served, twin)
    desk = Desk(served)
    try:
        has_client = typed(["audit", "FOLDER"], served)[2] == 0
        compare(desk, twin, room, has_client)
        words_of_lists(desk, room)
        turned_away(desk)
        if has_client:
            each, beside = beside_a_list(desk, room, 10 * count)
            print(f"a list: {each * 1000:.1f} ms a request, with {beside} requests of another clerk beside it")
        print(f"two clerks at once: {two_at_once(desk, count) * 1000:.1f} ms a request")
        print(f"status: {each_takes(desk, ['status', 'maps']) * 1000:.1f} ms")
    finally:
        desk.end()
    out, error, status = typed(["audit", "FOLDER"], served)
    assert status == 0 and out.startswith(b"good "), (out, error, status)
    print("all as it must be" + ("" if has_client else "; the program is no client yet"))
    shutil.rmtree(room)


if __name__ == "__main__":
    main(int(sys.argv[1]) if len(sys.argv) > 1 else 50)
