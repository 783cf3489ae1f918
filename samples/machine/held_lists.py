"""Lists of what a file holds: the text that `holds` makes stock sqlite3 print becomes what the file holds, or is no such list.

An item is a dictionary of its content, as a request to add it has. A number names an item within its kind and within the list alone.
"""

from collections import namedtuple

from .contents import ENDS
from .frames import Frame
from .lists import MAPPINGS, NoList, is_utf8, read_data, read_number, read_records, read_text, read_uuid

HEADER = "kind,number,other,identity,zoom,column,row,x,y,code,text,data".split(",")
CONTENTS = {"tile": {"zoom", "column", "row", "data"}, "media": {"text", "data"}, "row": {"x", "y", "code", "text"}}
# What a record of each kind uses besides its kind.
USED = {
    "package": {"number", "identity"},
    "system": {"number"},
    "frame": {"text"},
    "tile": {"number", *CONTENTS["tile"]},
    "media": {"number", "identity", *CONTENTS["media"]},
    "row": {"number", "identity", *CONTENTS["row"]},
    **dict.fromkeys(MAPPINGS, {"number", "other"}),
    "bad": {"number", "text"},
    "end": {"number"},
}
MAY_BE_EMPTY = {("media", "identity"), ("row", "identity"), ("bad", "number")}
READERS = {
    **dict.fromkeys(["number", "other", "zoom", "column", "row", "x", "y", "code"], read_number),
    "identity": read_uuid,
    "text": read_text,
    "data": read_data,
}

# items: (kind, number) to an Item; links: (mapping, base, other) by numbers; bad: number or None, and text
Held = namedtuple("Held", "package ticket system frame items links bad")
Item = namedtuple("Item", "content identity")


def read_field(kind, name, text):
    return None if text == "" and (kind, name) in MAY_BE_EMPTY else READERS[name](text)


def read_entry(record):
    if len(record) != len(HEADER) or not is_utf8(record):
        raise NoList("Read")
    texts = dict(zip(HEADER, record))
    kind = texts.pop("kind")
    used = USED.get(kind)
    if used is None or any(text != "" for name, text in texts.items() if name not in used):
        raise NoList("Record")
    return {"kind": kind, **{name: read_field(kind, name, texts[name]) for name in used}}


def only(entries):
    """The one of these, or None where there is none."""
    if len(entries) > 1:
        raise NoList("twice")
    return entries[0] if entries else None


def items_of(entries):
    items = {}
    for entry in entries:
        key = entry["kind"], entry["number"]
        if key in items:
            raise NoList("number twice")
        content = {name: entry[name] for name in ("kind", *CONTENTS[entry["kind"]])}
        items[key] = Item(content, entry.get("identity"))
    return items


def links_of(entries, items, has_bad):
    """A link whose end is no item of the list makes it none, unless something of the file could not be listed."""
    links = [(entry["kind"], entry["number"], entry["other"]) for entry in entries]
    ends = [(kind, number) for mapping, *numbers in links for kind, number in zip(ENDS[mapping], numbers)]
    if not has_bad and any(end not in items for end in ends):
        raise NoList("ends")
    return links


def read_held(list_bytes):
    """What the file holds; NoList where the text is no whole list."""
    records = read_records(list_bytes)
    if next(records, []) != HEADER:
        raise NoList("Header")
    entries = [read_entry(record) for record in records]
    if not entries or entries.pop() != {"kind": "end", "number": len(entries)}:
        raise NoList("end")
    of = {kind: [entry for entry in entries if entry["kind"] == kind] for kind in USED}
    if of["end"]:
        raise NoList("end")
    head, system, frame = (only(of[kind]) for kind in ("package", "system", "frame"))
    items = items_of([entry for kind in CONTENTS for entry in of[kind]])
    links = links_of([entry for mapping in MAPPINGS for entry in of[mapping]], items, of["bad"])
    return Held(
        head and head["identity"],
        head and head["number"],
        system and system["number"],
        frame and Frame.read(frame["text"]),
        items,
        links,
        [(entry["number"], entry["text"]) for entry in of["bad"]],
    )
