#!/usr/bin/env python3
"""Commands over a folder whose desk answers oddly, does not answer, or is gone.

Usage: odd_desks.py
       SHEETDESK=PROGRAM odd_desks.py    over another program than the proved one

The desk is a few lines of Python: it holds the lock, says in `sheetdesk.desk` where it listens, and sends bytes that
were worked out by hand. What it was sent is compared with the request of `crates/desk_asking/specs/Requests.antt`.
Status 0 where all is as it must be.
"""

import fcntl
import json
import os
import socket
import subprocess
import sys
import tempfile
import threading

from running_desk import ARCHIVE, AT, FRAME, TOP, program

PROGRAM = program()
KEY = "0123456789abcdef0123456789abcdef"
HEAD = b"HTTP/1.1 200 OK\r\ncontent-type: application/octet-stream\r\nconnection: close\r\n\r\n"
HELD = b"store: StoreFault\nanother process may hold the folder\n"
BROKEN = b"store: StoreFault\nthe desk of the folder broke off its answer; what was asked for may be done\n"
DECLINED = b"store: StoreFault\nthe desk of the folder declined to answer\n"


def typed(*words, given=b"", where=None):
    """What the program prints of these words, and how it ends."""
    how = {"input": given, "capture_output": True, "check": False, "cwd": where, "timeout": 300}
    done = subprocess.run([PROGRAM, *words], **how)
    return done.stdout, done.stderr, done.returncode


class OddDesk:
    """Holds a folder, and answers a connection with these bytes, whatever it is asked; several, one after the other.

    With None it closes at once.
    """

    def __init__(self, folder, *answers, text=None):
        self.folder, self.answers, self.sent, self.inputs = folder, answers, [], []
        self.lock = open(f"{folder}/sheetdesk.lock", "r+b")
        fcntl.flock(self.lock, fcntl.LOCK_EX | fcntl.LOCK_NB)
        self.listener = socket.create_server(("127.0.0.1", 0))
        self.port = self.listener.getsockname()[1]
        with open(f"{folder}/sheetdesk.desk", "w", encoding="ascii") as said:
            said.write(f"{self.port} {KEY}\n" if text is None else text)
        self.thread = threading.Thread(target=self.serve, daemon=True)
        self.thread.start()

    def serve(self):
        for answer in self.answers:
            try:
                client, _ = self.listener.accept()
            except OSError:
                return
            with client:
                if answer is not None:
                    self.sent.append(self.whole_request(client))
                    client.sendall(answer)

    def whole_request(self, client):
        """A request, and what standard input stands in the folder for it."""
        sent = b""
        while not is_whole(sent):
            sent += client.recv(65536)
        for name in os.listdir(self.folder):
            if name.startswith("sheetdesk.input-"):
                with open(f"{self.folder}/{name}", "rb") as kept:
                    self.inputs.append((name, os.stat(kept.fileno()).st_mode & 0o777, kept.read()))
        return sent

    def __enter__(self):
        return self

    def __exit__(self, *_):
        self.listener.close()
        self.lock.close()


def is_whole(sent):
    """Whether a whole request has come."""
    head, end, body = sent.partition(b"\r\n\r\n")
    return bool(end) and len(body) >= int(head.lower().split(b"content-length: ")[1].split(b"\r\n")[0])


def request_of(port, words, given):
    """The bytes by which these words are asked for."""
    body = b"%d\n" % len(words)
    for word in words:
        body += b"%d\n%s\n" % (len(word.encode()), word.encode())
    body += b"%d\n%s" % (len(given), given)
    fields = f"Host: 127.0.0.1:{port}\r\nSheetdesk-Key: {KEY}\r\nContent-Length: {len(body)}\r\n\r\n"
    return f"POST /commands HTTP/1.1\r\n{fields}".encode() + body


def expect(due, told, what):
    if due != told:
        sys.exit(f"odd_desks: {what}:\n{told}\nand not\n{due}")


def answers(folder):
    """What comes of each answer: of its frames, and of those that are cut or are none."""
    for answer, due in (
        (HEAD + b"1 3\nab\n2 2\nc\n1 1\nd0 0\n", (b"ab\nd", b"c\n", 0)),
        (HEAD + b"0 1\n", (b"", b"", 1)),
        (HEAD + b"1 100000\n" + b"x" * 100000 + b"0 0\n", (b"x" * 100000, b"", 0)),
        (HEAD + b"1 2\nab1 3\ncd", (b"ab", BROKEN, 3)),
        (HEAD + b"1 2\nab", (b"ab", BROKEN, 3)),
        (HEAD + b"0 256\n", (b"", BROKEN, 3)),
        (HEAD + b"5 0\n0 0\n", (b"", BROKEN, 3)),
        (HEAD[:-2], (b"", BROKEN, 3)),
        (b"", (b"", BROKEN, 3)),
        (None, (b"", BROKEN, 3)),
        (b"HTTP/1.1 403 Forbidden\r\n\r\n", (b"", DECLINED, 3)),
        (HEAD + b"3 0\n", (b"", HELD, 3)),
    ):
        with OddDesk(folder, answer) as desk:
            expect(due, typed("status", folder), (answer or b"")[-60:])
            if answer is not None:
                desk.thread.join()
                expect([request_of(desk.port, ["status", folder], b"")], desk.sent, "what was sent")


def what_is_sent(folder, room):
    """Standard input goes along where it is read, and a file where the words name one."""
    with open(f"{room}/sheet.bin", "wb") as sheet:
        sheet.write(b"\x00bytes\n")
    put = ["put", folder, "6f0d", "media", "sheet.bin", "-q"]
    for words, given, sent in (
        (["apply", folder], b"{}\n", b"{}\n"),
        (put, b"not this", b"\x00bytes\n"),
        (["audit", folder], b"nor this", b""),
    ):
        with OddDesk(folder, HEAD + b"1 5\ndone\n0 0\n") as desk:
            told = typed(*words, given=given, where=room)
            expect((b"" if "-q" in words else b"done\n", b"", 0), told, words)
            desk.thread.join()
            expect([request_of(desk.port, words, sent)], desk.sent, words)
    with OddDesk(folder, HEAD + b"1 4\nno!\n0 1\n"):
        expect((b"no!\n", b"", 1), typed(*put, where=room), "a quiet verb that is refused")
    with OddDesk(folder, HEAD + b"1 3\n\x00\xff\n0 0\n"):
        expect((b"", b"", 0), typed("get", folder, "abcd", "kept.bin", where=room), "get into a file")
    with open(f"{room}/kept.bin", "rb") as kept:
        expect(b"\x00\xff\n", kept.read(), "what get kept")
    with OddDesk(folder, HEAD + b"1 1\nx0 0\n"):
        told = typed("put", folder, "6f0d", "media", "none.bin", where=room)
        expect((b"refused: body\n", 1), told[::2], "a file that is not there")


def uuid(number):
    return f"5e4b0000-0000-4000-8000-{number:012d}"


def answer_of(output, status=0):
    """An answer."""
    return HEAD + b"1 %d\n%s0 %d\n" % (len(output), output, status)


def record(number):
    """The record of a list, and the request that it is, as JSON."""
    given = {"request": uuid(number), "at": AT, "command": "delete", "package": ARCHIVE, "identity": uuid(number)}
    text = f"{uuid(number)},{AT},delete,{ARCHIVE},{uuid(number)},,,,,,,,,,,,,\n"
    return text, json.dumps(given, separators=(",", ":")).encode()


def lists(folder, room):
    """A list is asked request by request, until one has another status than 0 or is not answered."""
    with open(f"{TOP}/samples/archive.csv", encoding="utf-8") as sample:
        text = sample.readline() + "".join(record(number)[0] for number in (1, 2, 3))
    with open(f"{room}/list.csv", "w", encoding="utf-8") as kept:
        kept.write(text)
    head, rows = b"line,request,seq,refusal\n", [f"{number},{uuid(number)},9,0\n".encode() for number in (1, 2, 3)]
    first, fault = answer_of(rows[0]), b"store: StoreFault\n"
    stop = HEAD + b"1 %d\n%s2 %d\n%s0 3\n" % (len(rows[1]), rows[1], len(fault), fault)
    again = b" of 3 requests were answered; the same command, sent again, carries out the rest: a request acts once\n"
    for answers, due in (
        ([answer_of(row) for row in rows], (head + b"".join(rows), b"", 0)),
        ([first, stop], (head + rows[0] + rows[1], fault, 3)),
        ([first, b""], (head + rows[0], BROKEN + b"1" + again, 3)),
        ([None], (head, BROKEN + b"0" + again, 3)),
        ([first, first, HEAD + b"1 2\nab"], (head + 2 * rows[0] + b"ab", BROKEN + b"2" + again, 3)),
        ([first, b"HTTP/1.1 403 Forbidden\r\n\r\n"], (head + rows[0], DECLINED + b"1" + again, 3)),
        ([HEAD + b"3 0\n"], (head, b"store: StoreFault\nthe desk of the folder does not carry this out\n0" + again, 3)),
    ):
        with OddDesk(folder, *answers) as desk:
            expect(due, typed("import", folder, f"{room}/list.csv"), answers)
            desk.thread.join()
            due = [request_of(desk.port, ["row", str(number)], record(number)[1]) for number in (1, 2, 3)]
            expect(due[: len(desk.sent)], desk.sent, "what was sent")
    with OddDesk(folder, b"") as desk:
        given = typed("import", folder, "/dev/null")
        expect((b"refused: list\n", 1, []), (*given[::2], desk.sent), "no list")


def several(folder, room):
    """An item is dropped by what the desk shows, and an edited file comes home by the list that it answers."""
    shown = b"".join(record(number)[1] + b"\n" for number in (1, 2))
    broken = b"1 requests were answered; the same command, sent again, does the rest\n"
    for answers, due in (
        ([answer_of(shown), answer_of(b"one\n"), answer_of(b"two\n")], (b"one\ntwo\n", b"", 0)),
        ([answer_of(shown), answer_of(b"no\n", 1)], (b"no\n", b"", 1)),
        ([answer_of(shown), answer_of(b"one\n"), b""], (b"one\n", BROKEN + broken, 3)),
        ([answer_of(b"refused: linked\n", 1)], (b"refused: linked\n", b"", 1)),
        ([HEAD + b"1 2\nab"], (b"", BROKEN, 3)),
        ([HEAD + b"3 0\n"], (b"", HELD, 3)),
    ):
        with OddDesk(folder, *answers) as desk:
            expect(due, typed("drop", folder, "5e4b"), answers)
            desk.thread.join()
            due = [request_of(desk.port, ["drop", "--dry-run", folder, "5e4b"], b"")]
            due += [request_of(desk.port, ["outcome"], record(number)[1]) for number in (1, 2)]
            expect(due[: len(desk.sent)], desk.sent, "what was sent")
    with open(f"{room}/list.csv", "rb") as kept:
        text = kept.read()
    for words, answers, due in (
        (["changes", folder, ARCHIVE], [answer_of(b"so\n")], (b"so\n", b"", 0)),
        (["bring", folder, ARCHIVE, "--dry-run"], [answer_of(b"so\n", 1)], (b"so\n", b"", 1)),
        (["bring", folder, ARCHIVE], [answer_of(b"so\n", 1)], (b"so\n", b"", 1)),
        (
            ["bring", folder, ARCHIVE],
            [answer_of(text), *[answer_of(b"row\n")] * 3],
            (b"line,request,seq,refusal\n" + 3 * b"row\n", b"", 0),
        ),
        (["bring", folder, ARCHIVE], [answer_of(b"no list\n")], (b"", BROKEN, 3)),
        (["bring", folder, ARCHIVE], [HEAD + b"1 9\nrequest"], (b"", BROKEN, 3)),
        (["changes", folder, ARCHIVE], [HEAD + b"3 0\n"], (b"", HELD, 3)),
    ):
        with OddDesk(folder, *answers) as desk:
            expect(due, typed(*words, given=b"held\n" * 30000), words)
            desk.thread.join()
            [(name, mode, kept)] = desk.inputs
            expect((0o600, b"held\n" * 30000), (mode, kept), "the file for standard input")
            asked = words if words[0] == "changes" or "--dry-run" in words else ["bring", "--dry-run", *words[1:]]
            expect(request_of(desk.port, ["from", name, *asked], b""), desk.sent[0], words)
            assert not os.path.exists(f"{folder}/{name}"), name


def turned_about(folder, room):
    """A tree whose rows run upwards is turned about by the frame that the desk tells."""
    os.makedirs(f"{room}/upward/4/1")
    with open(f"{room}/upward/4/1/2.png", "wb") as sheet:
        sheet.write(b"edge")
    asked = {"request": uuid(1), "at": AT, "command": "add", "package": ARCHIVE, "identity": uuid(2), "kind": "media"}
    shown = answer_of(json.dumps({**asked, "text": "text/plain", "data": "78"}).encode() + b"\n")
    nothing, done = answer_of(b""), answer_of(b"added\n")
    for told, answers, due in (
        (FRAME, [nothing, done], (b"added 1, passed over 0\n", b"", 0)),
        (FRAME.replace(",4,3,2,3", ",5,2,4,6"), [nothing], (b"added 0, passed over 0\nrefused: place\n", b"", 1)),
        (FRAME + "\n", [], (b"", BROKEN, 3)),
        ("", [], (b"", BROKEN, 3)),
    ):
        with OddDesk(folder, shown, answer_of(told.encode()), *answers) as desk:
            expect(due, typed("put", folder, "6f0d", "tiles", f"{room}/upward", "--tms"), told)
            desk.thread.join()
            expect(request_of(desk.port, ["frame"], b"x"), desk.sent[1], "the frame")
            # (of three rows the last from below is the first from above)
            assert told != FRAME or b'"row":0' in desk.sent[3], desk.sent[3]


def not_asked(folder):
    """Commands that no desk carries out, and files that name no desk, end as beside any other process."""
    with OddDesk(folder, HEAD + b"1 1\nx0 0\n"):
        expect((b"", HELD, 3), typed("serve", folder, "1"), "serve")
    with OddDesk(folder, HEAD + b"1 1\nx0 0\n"):
        # (the words are looked at first, and what the folder holds)
        made = typed("init", folder, f"--frame={FRAME}")
        expect((b"refused: folder holds packages\n", b"", 1), made, "init")
    for text in ("", "x\n", f"0 {KEY}", f"1 {KEY.upper()}\n", f"70000 {KEY}\n"):
        with OddDesk(folder, HEAD + b"1 1\nx0 0\n", text=text):
            expect((b"", HELD, 3), typed("status", folder), repr(text))
    with OddDesk(folder, b"") as desk:
        # (a port is let go only once nobody waits at it any more)
        desk.listener.shutdown(socket.SHUT_RDWR)
        desk.thread.join()
        desk.listener.close()
        told = f"store: StoreFault\nthe desk of the folder does not answer at 127.0.0.1:{desk.port}\n".encode()
        expect((b"", told, 3), typed("status", folder), "a port where nobody listens")


def main():
    with tempfile.TemporaryDirectory(prefix="odd-") as room:
        folder = f"{room}/maps"
        os.mkdir(folder)
        made = typed("init", folder, "--archive", ARCHIVE, "--at", AT, f"--frame={FRAME}")
        expect((f"archive {ARCHIVE}\n".encode(), b"", 0), made, "init")
        expect((b"good 0\n", b"", 0), typed("audit", folder), "audit")
        answers(folder)
        what_is_sent(folder, room)
        lists(folder, room)
        several(folder, room)
        turned_about(folder, room)
        not_asked(folder)
        # A desk that was killed left its file: nobody has the folder, so the command is carried out, and the file goes.
        with open(f"{folder}/sheetdesk.desk", "w", encoding="ascii") as said:
            said.write(f"1 {KEY}\n")
        expect((b"good 0\n", b"", 0), typed("audit", folder), "audit behind a desk that was killed")
        expect(False, os.path.exists(f"{folder}/sheetdesk.desk"), "the file that it left")
    print("all as it must be")


if __name__ == "__main__":
    main()
