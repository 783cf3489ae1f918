#!/usr/bin/env python3
"""Writes the page of the sample, as the second machine makes it: report.html, of all of archive.csv, with the names of names.csv; and its map after record 57,
while a loan has lent on: lending.svg.

Usage: make_report.py                writes report.html and lending.svg
       make_report.py --check        writes nothing; status 1 where one of them is not what would be written, or the program's style is another
       make_report.py --middle FILE  writes the page after record 57, while a loan has lent on
       make_report.py --loan FILE    writes the custody page of the harbour crew's loan at that time
       make_report.py --fault FILE   writes the page of a folder in which an item is altered
       make_report.py --odd FILE     writes the page of a world whose texts are hostile
       make_report.py --odd-map FILE  draws that world
       make_report.py --many FILE    writes the page of a world with more receipts than a page shows
       make_report.py --odd-loan FILE  writes the custody page of a loan in that world

Nothing here runs the program.
"""

import csv
import os
import sys

import nordmark
import reference
from machine.drawing import drawing_of
from machine.fault import fault_page_of
from machine.loan import loan_page_of
from machine.report import SHOWN, page_of
from machine.world import Receipt, apply

HERE = os.path.dirname(os.path.abspath(__file__))
ODD_TEXTS = ["<script>document.title='out'</script>", "\"><img src=x onerror=alert(1)>'", "מגדלור \u202eabc\u202c منارة", "W" * 190, "]]></title></svg>&amp; &#60;b&#62;",
             "tab\there\x00\x1b[31m\x7f\x85\u2066", "", "   ", "𝔐𝔞𝔭 🗺 ﷽"]


def path(name):
    return os.path.join(HERE, name)


def names():
    with open(path("names.csv"), encoding="utf-8", newline="") as found:
        return {record["uuid"]: record["name"] for record in csv.DictReader(found)}


def world_of(lines):
    with open(path("archive.csv"), "rb") as found:
        records = found.read().split(b"\n")
    return reference.rehearse(nordmark.ARCHIVE, nordmark.FRAME, b"\n".join(records[:lines]) + b"\n").world


def many_requests():
    """A list of ten requests more than a page shows: marks, one behind the other."""
    adds = ({"request": nordmark.new(f"many request {n}"), "identity": nordmark.new(f"many {n}"), "x": 500000001 + n * 20000, "text": f"mark {n}"} for n in range(SHOWN + 10))
    head = "request,at,command,package,identity,other,kind,zoom,column,row,last_column,last_row,x,y,code,ticket,text,data\n"
    rows = (f"{a['request']},2026-03-02T09:00:00.000Z,add,{nordmark.ARCHIVE},{a['identity']},,row,,,,,,{a['x']},5915000000,1,,{a['text']},\n" for a in adds)
    return (head + "".join(rows)).encode()


def many_world():
    return reference.rehearse(nordmark.ARCHIVE, nordmark.FRAME, many_requests()).world


def odd_world():
    """Marks and a medium whose texts try to break out of the page."""
    world = world_of(58)
    for n, text in enumerate(ODD_TEXTS):
        add = {"request": nordmark.new(f"odd request {n}"), "at": "2026-03-02T09:00:00.000Z", "command": "add", "package": nordmark.ARCHIVE, "identity": nordmark.new(f"odd {n}")}
        assert isinstance(apply(world, {**add, "kind": "row", "x": 505000000 + n * 4000000, "y": 5915000000, "code": n, "text": text}), Receipt), text
    return world


def odd_names():
    return {**names(), nordmark.BOAT: "<b>boat</b> \"'&", nordmark.HARBOUR: "harbour" * 40, nordmark.SURVEY: "סירה \u202eevil", nordmark.sheet(4, 1, 0): "</span></svg><script>"}


def write(name, text):
    with open(name, "w", encoding="utf-8", newline="\n") as to:
        to.write(text)


def is_written(name, text):
    with open(path(name), encoding="utf-8", newline="") as found:
        return found.read() == text


def style_is_kept(style, crate):
    """Whether the program's constant is this style."""
    with open(path(style), encoding="utf-8") as found:
        text = found.read().replace("\\", "\\\\").replace('"', '\\"')
    with open(path(f"../crates/{crate}/src/style.rt"), encoding="utf-8") as found:
        return f"<style>\n{text}</style>" in found.read()


def main():
    words = sys.argv[1:]
    if words[:1] == ["--odd"] and len(words) == 2:
        return write(words[1], page_of(odd_world(), odd_names(), reference.reply_text))
    if words[:1] == ["--odd-map"] and len(words) == 2:
        return write(words[1], drawing_of(odd_world(), odd_names()))
    if words[:1] == ["--many"] and len(words) == 2:
        return write(words[1], page_of(many_world(), names(), reference.reply_text))
    if words[:1] == ["--middle"] and len(words) == 2:
        return write(words[1], page_of(world_of(58), names(), reference.reply_text))
    if words[:1] == ["--loan"] and len(words) == 2:
        return write(words[1], loan_page_of(world_of(58), names(), reference.reply_text, nordmark.HARBOUR))
    if words[:1] == ["--odd-loan"] and len(words) == 2:
        return write(words[1], loan_page_of(odd_world(), odd_names(), reference.reply_text, nordmark.HARBOUR))
    if words[:1] == ["--fault"] and len(words) == 2:
        return write(words[1], fault_page_of("Altered", f"item {nordmark.mark('buoy')} has not the content that its receipt names"))
    if words not in ([], ["--check"]):
        sys.exit(__doc__)
    made = {"report.html": page_of(world_of(None), names(), reference.reply_text), "lending.svg": drawing_of(world_of(58), names())}
    if not words:
        for name, text in made.items():
            write(path(name), text)
        return
    styles = style_is_kept("report.css", "view_report") and style_is_kept("drawing.css", "view_drawing")
    sys.exit(not styles or any(not is_written(name, text) for name, text in made.items()))


if __name__ == "__main__":
    main()
