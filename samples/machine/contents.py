"""What a request says: the size and the fingerprint of an added item, and the line of its command; the things that a receipt names."""

import hashlib
import re
from collections import namedtuple

from .frames import Rect
from .lists import MAPPINGS

KINDS = {kind: number for number, kind in enumerate(["tile", "media", "row", *MAPPINGS], 1)}
# The kinds that a mapping joins: of the base, and of the other end.
ENDS = {"tiles_media": ("tile", "media"), "rows_media": ("row", "media"), "rows_tiles": ("row", "tile")}
MOMENT = re.compile("([0-9]{4})-([0-9]{2})-([0-9]{2})T([0-9]{2}):([0-9]{2}):([0-9]{2})\\.[0-9]{3}Z")

Moved = namedtuple("Moved", "kind base other size fingerprint")


def size_of(item):
    return len(item["text"].encode()) if item["kind"] == "row" else len(item["data"])


def content_bytes(item):
    if item["kind"] == "tile":
        return b"tile %d %d %d\n" % place_of(item) + item["data"]
    if item["kind"] == "media":
        return b"media " + item["text"].encode() + b"\n" + item["data"]
    return b"row %d %d %d\n" % (item["x"], item["y"], item["code"]) + item["text"].encode()


def fingerprint_of(item):
    return hashlib.sha256(content_bytes(item)).hexdigest()


def place_of(item):
    return item["zoom"], item["column"], item["row"]


def link_of(request):
    return request["kind"], request["identity"], request["other"]


def rect_of(request):
    return Rect(*(request[name] for name in Rect._fields))


def line_of(request):
    command, package = request["command"], request["package"]
    if command == "add":
        return f"add {package} {request['identity']} {request['kind']} {size_of(request)} {fingerprint_of(request)}"
    if command == "delete":
        return f"delete {package} {request['identity']}"
    if command == "split":
        return f"split {package} {request['other']} {request['kind']} " + " ".join(map(str, rect_of(request)))
    if command == "merge":
        return f"merge {package} {request['other']} {request['ticket']}"
    return f"{command} {request['kind']} {package} {request['identity']} {request['other']}"


def item_moved(identity, item):
    return Moved(KINDS[item["kind"]], identity, "", size_of(item), fingerprint_of(item))


def link_moved(link):
    mapping, base, other = link
    return Moved(KINDS[mapping], base, other, 0, "")


def is_moment(text):
    found = MOMENT.fullmatch(text)
    if found is None:
        return False
    _, month, day, hour, minute, second = map(int, found.groups())
    return 1 <= month <= 12 and 1 <= day <= 31 and hour <= 23 and minute <= 59 and second <= 59
