#!/usr/bin/env python3
"""Prints the requests of a list as the desk takes them: a JSON object a line, in the order of the list.

Usage: desk_requests.py < list.csv
"""

import json
import os
import sys

sys.path.insert(0, os.path.join(os.path.dirname(os.path.abspath(__file__)), "..", "samples"))
sys.dont_write_bytecode = True

from machine.lists import read_requests


def body_of(request):
    """The members that the command uses, data as hexadecimal digits."""
    members = {name: value.hex() if isinstance(value, bytes) else value for name, value in request.items()}
    return json.dumps(members, sort_keys=True, separators=(",", ":"), ensure_ascii=False)


if __name__ == "__main__":
    for each in read_requests(sys.stdin.buffer.read()):
        sys.stdout.buffer.write(body_of(each).encode() + b"\n")
