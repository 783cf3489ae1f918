"""Request lists of the second machine: a CSV text becomes requests, or the fault that is met first in reading order.

A request is a dictionary of the fields that its command uses, UUIDs in lower case, numbers as numbers, data as bytes.
"""

import csv
import io
import re

csv.field_size_limit(1 << 30)

HEADER = "request,at,command,package,identity,other,kind,zoom,column,row,last_column,last_row,x,y,code,ticket,text,data".split(",")
MAPPINGS = ["tiles_media", "rows_media", "rows_tiles"]
MODES = ["strict", "follow"]

UUID = re.compile("[0-9a-fA-F]{8}(-[0-9a-fA-F]{4}){3}-[0-9a-fA-F]{12}")
NUMBER = re.compile("0|-?[1-9][0-9]*")
DATA = re.compile("([0-9a-fA-F]{2})*")


class NoList(Exception):
    """The text is no request list; the argument says why: Header, Read or Record(n), or what of a record cannot be read."""


def read_uuid(text):
    if UUID.fullmatch(text) is None:
        raise NoList("uuid")
    return text.lower()


def read_number(text):
    if NUMBER.fullmatch(text) is None or not -(1 << 63) <= int(text) < 1 << 63:
        raise NoList("number")
    return int(text)


def read_data(text):
    if DATA.fullmatch(text) is None:
        raise NoList("data")
    return bytes.fromhex(text)


def read_text(text):
    return text


READERS = {
    **dict.fromkeys(["request", "package", "identity", "other"], read_uuid),
    **dict.fromkeys(["zoom", "column", "row", "last_column", "last_row", "x", "y", "code", "ticket"], read_number),
    **dict.fromkeys(["at", "command", "kind", "text"], read_text),
    "data": read_data,
}

COMMON = {"request", "at", "command", "package"}
# What each command uses besides, by the command and its kind.
FIELDS = {
    ("add", "tile"): {"kind", "identity", "zoom", "column", "row", "data"},
    ("add", "media"): {"kind", "identity", "text", "data"},
    ("add", "row"): {"kind", "identity", "x", "y", "code", "text"},
    ("delete", ""): {"identity"},
    ("merge", ""): {"other", "ticket"},
    **{("split", mode): {"kind", "other", "zoom", "column", "last_column", "row", "last_row"} for mode in MODES},
    **{(command, mapping): {"kind", "identity", "other"} for command in ("link", "unlink") for mapping in MAPPINGS},
}


def read_request(record):
    texts = dict(zip(HEADER, record))
    used = FIELDS.get((texts["command"], texts["kind"]))
    if used is None:
        raise NoList("command")
    used = used | COMMON
    if any(text != "" for name, text in texts.items() if name not in used):
        raise NoList("a field that the command does not use")
    return {name: READERS[name](texts[name]) for name in used}


def is_utf8(record):
    """Whether no field has a byte that stands for no character; such bytes were read as lone surrogates."""
    return not any("\ud800" <= mark <= "\udfff" for text in record for mark in text)


def read_records(list_bytes):
    """The records in reading order: a byte order mark at the start and blank lines are passed over."""
    text = list_bytes.removeprefix(b"\xef\xbb\xbf").decode("utf-8", "surrogateescape")
    return (record for record in csv.reader(io.StringIO(text, newline="")) if record != [])


def read_requests(list_bytes):
    records = read_records(list_bytes)
    header = next(records, [])
    if not is_utf8(header):
        raise NoList("Read")
    if header != HEADER:
        raise NoList("Header")
    requests = []
    for number, record in enumerate(records, 1):
        if len(record) != len(HEADER) or not is_utf8(record):
            raise NoList("Read")
        try:
            requests.append(read_request(record))
        except NoList as fault:
            raise NoList(f"Record({number})") from fault
    return requests


def spelled(field):
    """A field as a record of CSV has it."""
    text = str(field)
    return '"' + text.replace('"', '""') + '"' if any(mark in text for mark in ',"\r\n') else text


def spelled_record(fields):
    return ",".join(map(spelled, fields)) + "\n"
