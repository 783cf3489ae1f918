#!/usr/bin/env python3
"""Serves additions over stock SQLite by Python's http.server: the tables, indexes and transactions of plain_rehearse.py, and no contracts.

Usage: plain_desk.py PORT COUNT ARCHIVE AT FRAME

COUNT requests, one a connection, on 127.0.0.1; the packages are in memory (`plain_folder.py serve` has them in files). `POST /requests` alone, whose body is JSON as the desk takes it; each value is read by
the rules of samples/machine. The answer is the receipt as the desk spells it, or the number of the refusal.
"""

import http.server
import json
import os
import sys

sys.path.insert(0, os.path.join(os.path.dirname(os.path.abspath(__file__)), "..", "samples"))
sys.dont_write_bytecode = True

from machine.frames import Frame
from machine.lists import COMMON, FIELDS, READERS
from plain_rehearse import Register

RECEIPT = "SELECT at, n_bytes, source, line, n_links, n_media, request, n_rows, seq, n_tiles, target FROM sheet_receipts WHERE request = ?"
NUMBERS = {"zoom", "column", "row", "last_column", "last_row", "x", "y", "code", "ticket"}


def read_request(body):
    members = json.loads(body)
    used = FIELDS[members["command"], members.get("kind", "")] | COMMON
    if members.keys() != used:
        raise ValueError("members")
    if any(type(members[name]) is not (int if name in NUMBERS else str) for name in used):
        raise ValueError("a member's form")
    return {name: READERS[name](str(members[name])) for name in used}


def receipt_text(register, request):
    names = ["at", "bytes", "from", "line", "links", "media", "request", "rows", "seq", "tiles", "to"]
    receipt = dict(zip(names, register.stores[request["package"]].one(RECEIPT, request["request"])))
    receipt["items"] = receipt["tiles"] + receipt["media"] + receipt["rows"] + receipt["links"]
    return json.dumps(receipt, sort_keys=True, separators=(",", ":"), ensure_ascii=False)


class Desk(http.server.BaseHTTPRequestHandler):
    protocol_version = "HTTP/1.1"

    def log_message(self, *_words):
        pass

    def do_POST(self):
        request = read_request(self.rfile.read(int(self.headers["Content-Length"])))
        seq, refusal = self.server.register.apply(request)
        text = (receipt_text(self.server.register, request) if seq else f'{{"refusal":{refusal}}}').encode()
        self.send_response(200 if seq else 409)
        self.send_header("content-type", "application/json")
        self.send_header("content-length", str(len(text)))
        self.send_header("connection", "close")
        self.end_headers()
        self.wfile.write(text)


def serve(register, port, count):
    server = http.server.HTTPServer(("127.0.0.1", port), Desk)
    server.register = register
    for _ in range(count):
        server.handle_request()
    server.server_close()


def main():
    port, count, archive, at, frame = sys.argv[1:]
    serve(Register(archive, at, Frame.read(frame)), int(port), int(count))


if __name__ == "__main__":
    main()
