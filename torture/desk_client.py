#!/usr/bin/env python3
"""Lets samples/client.py lend a sheet over a desk and bring it home, and compares each answer with what must come.

Usage: desk_client.py
       SHEETDESK=PROGRAM desk_client.py    over another program than the proved one

What must come is made by the second machine (samples/reference.py). Standard error of the desk must name its port and then each
request, with its status. Status 0 where everything came to the byte, and the program ended with 0 after the last exchange.
"""

import json
import re
import subprocess
import sys

from running_desk import ARCHIVE, FRAME, TOP, Desk

from machine.world import apply
from reference import manifest, rehearse, reply_text, sights_text

# A sheet that nothing else is linked with.
SHEET = [5, 0, 2]
EXCHANGES = 5


def due(world, method, path, body):
    """What the desk must answer, by the second machine, which goes on with the request."""
    if method == "POST":
        return reply_text(apply(world, json.loads(body)))
    if path == "/packages":
        return sights_text(world)
    uuid = path.split("/")[2]
    return reply_text(world.kept[uuid]) if path.startswith("/receipts/") else manifest(world.packages[uuid]).rstrip("\n")


def told(text):
    """The exchanges that a client printed: method, path, body, and the answer."""
    for asked in re.split("^> ", text, flags=re.MULTILINE)[1:]:
        first, _, answer = asked.partition("\n< ")
        method, path, body = [*first.split(" ", 2), ""][:3]
        status, _, rest = answer.rstrip("\n").partition(" ")
        yield method, path, body, int(status), rest.replace("\n< ", "\n")


def main():
    with open(f"{TOP}/samples/first.csv", "rb") as list_file:
        list_bytes = list_file.read()
    world = rehearse(ARCHIVE, FRAME, list_bytes).world
    before = manifest(world.packages[ARCHIVE])
    with Desk(list_bytes, EXCHANGES) as desk:
        words = [sys.executable, f"{TOP}/samples/client.py", str(desk.port), ARCHIVE, *map(str, SHEET)]
        desk.wait()
        client = subprocess.run(words, stdout=subprocess.PIPE, text=True, check=True)
        exchanges = list(told(client.stdout))
        for method, path, body, status, answer in exchanges:
            wanted = due(world, method, path, body)
            if (status, answer) != (200, wanted):
                sys.exit(f"{method} {path} {body}: wanted 200 {wanted}, came {status} {answer}")
        if len(exchanges) != EXCHANGES or manifest(world.packages[ARCHIVE]) != before:
            sys.exit("the sheet is not home")
        if (ended := desk.process.wait(timeout=60)) != 0:
            sys.exit(f"the program ended with {ended}")
        lines = desk.lines()
    log = [f"{method} {path} HTTP/1.1 200" for method, path, *_ in exchanges]
    moment = r"\d{4}-\d\d-\d\dT\d\d:\d\d:\d\d\.\d{3}Z "
    came = [re.sub(f"^{moment}", "", line) for line in lines if re.match(moment, line)]
    if f"listening on 127.0.0.1:{desk.port}" not in lines or came != log:
        sys.exit(f"standard error has {lines}, and not {log}")
    print(f"{len(exchanges)} exchanges, each as it must be")


if __name__ == "__main__":
    main()
