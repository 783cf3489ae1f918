#!/usr/bin/env python3
"""Clients that mean harm, or are broken. After each of them the desk must answer the next client, and its world must be as it was.

Usage: hostile_clients.py [COUNT]      (1000 connections that are cut, and as many that are garbled)
       SHEETDESK=PROGRAM hostile_clients.py ..    over another program than the proved one

A row for each: how long the next client waited, in seconds. A connection has twenty seconds in all, so nobody waits for much more.
Status 0 where all is as it must be.
"""

import json
import random
import socket
import sys
import threading
import time

from running_desk import ARCHIVE, FRAME, TOP, Desk

from machine.world import apply
from reference import rehearse, reply_text, sights_text

# Twenty seconds of a connection, and room for a machine that has other work.
LONGEST = 30
BODY = json.dumps({
    "request": "77777777-7777-4777-8777-777777777777", "at": "2026-03-02T09:00:00.000Z", "command": "delete",
    "package": ARCHIVE, "identity": "3ace3bf7-1c26-5437-b740-ccb5d4aa8957",
}).encode()
POST = b"POST /requests HTTP/1.1\r\nHost: 127.0.0.1\r\nContent-Length: %d\r\n\r\n%s" % (len(BODY), BODY)


def drip(desk):
    """Sends a byte each second, for longer than a connection may take."""
    with desk.connect() as client:
        for byte in POST[:LONGEST + 10]:
            try:
                client.sendall(bytes([byte]))
            except OSError:
                return
            time.sleep(1)


def endless_head(desk):
    """Sends ten megabytes of a head."""
    with desk.connect() as client:
        try:
            client.sendall(b"GET /packages HTTP/1.1\r\n" + b"X: %s\r\n" % (b"x" * 1020) * 10240)
        except OSError:
            pass


def no_reader(desk):
    """Asks for the longest answer, and never reads it."""
    client = socket.socket()
    client.setsockopt(socket.SOL_SOCKET, socket.SO_RCVBUF, 2048)
    client.connect(("127.0.0.1", desk.port))
    with client:
        client.sendall(b"GET /packages/%s/manifest HTTP/1.1\r\n\r\n" % ARCHIVE.encode())
        time.sleep(LONGEST + 10)


def silent(desk):
    """Connects, and says nothing."""
    with desk.connect():
        time.sleep(LONGEST + 10)


def beside(desk, client):
    """How long another waits for an answer that comes while this client is served."""
    threading.Thread(target=client, args=[desk], daemon=True).start()
    time.sleep(0.5)
    begun = time.monotonic()
    desk.get("/packages")
    return time.monotonic() - begun


def send(desk, bytes_sent, resets):
    with desk.connect() as client:
        if resets:
            client.setsockopt(socket.SOL_SOCKET, socket.SO_LINGER, b"\1\0\0\0\0\0\0\0")
        try:
            client.sendall(bytes_sent)
            if not resets:
                client.shutdown(socket.SHUT_WR)
                while client.recv(65536):
                    pass
        except OSError:
            pass


def cut(desk, count, draw):
    """Sends a beginning of a request that would delete a sheet, and goes, or resets the connection."""
    for number in range(count):
        send(desk, POST[:draw.randrange(len(POST))], number % 2)


def garbled(desk, count, draw):
    """Sends such a request whose body is none, with some bytes of all of it changed."""
    for number in range(count):
        text = bytearray(POST.replace(b"{", b"("))
        for _ in range(draw.randrange(8)):
            text[draw.randrange(len(text))] = draw.choice(b"\0\r\n :;()/%\xff\x80aZ09")
        text = text.replace(b"{", b"(")
        send(desk, bytes(text), number % 2)


def long_list(list_bytes):
    """The list, and survey rows with long labels behind it, so that a manifest is longer than what a connection holds."""
    row = "%08d-0000-4000-8000-000000000000,2026-03-02T08:30:00.000Z,add," + ARCHIVE + ",%08d-1111-4000-8000-000000000000,,row,,,,,,%d,5960000000,1,,%s,\n"
    return list_bytes + "".join(row % (number, number, 501000000 + number, "x" * 200) for number in range(12000)).encode()


def main():
    count = int(sys.argv[1]) if sys.argv[1:] else 1000
    with open(f"{TOP}/samples/first.csv", "rb") as list_file:
        list_bytes = long_list(list_file.read())
    world = rehearse(ARCHIVE, FRAME, list_bytes).world
    packages, draw = sights_text(world), random.Random(1)
    with Desk(list_bytes) as desk:
        desk.wait()

        def is_as_it_was(name, waited):
            print(f"{name:14} {waited:6.1f}", flush=True)
            if waited > LONGEST or (came := desk.get("/packages")) != packages:
                sys.exit(f"after {name}: waited {waited:.1f} s, and {came}")

        is_as_it_was("nobody", 0)
        for client in (silent, drip, endless_head, no_reader):
            is_as_it_was(client.__name__, beside(desk, client))
        for clients in (cut, garbled):
            clients(desk, count, draw)
            begun = time.monotonic()
            desk.get("/packages")
            is_as_it_was(clients.__name__, time.monotonic() - begun)
        if (came := desk.post(BODY)) != (wanted := reply_text(apply(world, json.loads(BODY)))):
            sys.exit(f"wanted {wanted}, came {came}")
        statuses = sorted({line.rsplit(" ", 1)[1] for line in desk.lines()[1:] if line})
    print(f"the world is as it was, and the desk answers; it told of the statuses {' '.join(statuses)}")


if __name__ == "__main__":
    main()
