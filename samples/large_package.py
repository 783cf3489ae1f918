#!/usr/bin/env python3
"""What is written of a package of more than 16 MiB, whose contents the program reads one at a time: by the second machine, as digests.

Usage: large_package.py [--list]     with --list the requests, which `rehearse` and `import` take (36 MB)

The package is the archive of test_program's `List::Large`: sixteen tiles of zoom 2, a row of four after the other, and one of zoom 1, each
of 1,048,576 bytes, the first all 1, the second all 2, and so on. A line a text: what it is of, its length, and its SHA-256
(crates/test_program/src/large_tests.rt has them). The map of one zoom is written as docs/FORMATS.md and samples/refusals.txt have it.
"""

import hashlib
import sys

import reference
from machine.drawing import drawing_of
from machine.exports import export
from machine.report import page_of

ARCHIVE, AT, FRAME = "a0000000-0000-4000-8000-000000000000", "2024-05-01T08:00:00.000Z", "25832,0,0,4096,4096,256,256,0,3,1,1"
HEADER = "request,at,command,package,identity,other,kind,zoom,column,row,last_column,last_row,x,y,code,ticket,text,data\n"
PLACES = [(2, at % 4, at // 4) for at in range(16)] + [(1, 0, 0)]


def identity(number):
    return f"00000000-0000-4000-8000-0000000000{number:02x}"


def record(number, place):
    zoom, column, row = place
    data = bytes([number]) * 1_048_576
    return f"90000000-0000-4000-8000-0000000000{number:02x},{AT},add,{ARCHIVE},{identity(number)},,tile,{zoom},{column},{row},,,,,,,,{data.hex()}\n"


def list_text():
    return HEADER + "".join(record(number, place) for number, place in enumerate(PLACES, 1))


def map_of_zoom_2():
    """A page of one package, each place 24 units, a sheet one unit inside its place."""
    lines = "".join(f"M{20 + 24 * at} 48v96" for at in range(4)) + "".join(f"M20 {48 + 24 * at}h96" for at in range(4))
    sheets = "".join(
        f'<rect x="{21 + 24 * column}" y="{49 + 24 * row}" width="22" height="22" fill="#eedd66"><title>{ARCHIVE} 2/{column}/{row}</title></rect>\n'
        for zoom, column, row in PLACES if zoom == 2)
    return (
        '<svg xmlns="http://www.w3.org/2000/svg" viewBox="0 0 480 190" width="480" height="190" font-family="Helvetica, Arial, sans-serif" font-size="11">\n'
        '<rect width="100%" height="100%" fill="#ffffff"/>\n'
        '<text x="20" y="30" font-size="16">Who holds which sheets at zoom 2, 4 by 4 places</text>\n'
        f'<path d="{lines}" fill="none" stroke="#d8d4c8" stroke-width="0.5"/>\n'
        f'<g stroke="#4a4a4a" stroke-width="0.5">\n{sheets}</g>\n'
        '<rect x="20" y="48" width="96" height="96" fill="none" stroke="#6b6250"/>\n'
        '<rect x="20" y="172" width="12" height="12" fill="#eedd66"/>\n'
        f'<text x="39" y="182"><tspan font-family="monospace">{ARCHIVE}</tspan> sheets: 16, depth: 0</text>\n'
        "</svg>\n")


def texts():
    done = reference.rehearse(ARCHIVE, FRAME, list_text().encode())
    world, package = done.world, done.world.packages[ARCHIVE]
    return {
        "manifest": reference.manifest(package),
        "export": export(world.frame, package, world.tickets[ARCHIVE]),
        "map of a zoom": map_of_zoom_2(),
        "drawing": drawing_of(world, {}),
        "page": page_of(world, {}, reference.reply_text),
    }


def main():
    if sys.argv[1:] == ["--list"]:
        sys.stdout.write(list_text())
    elif sys.argv[1:]:
        sys.exit(__doc__)
    else:
        for name, text in texts().items():
            print(f"{name}: {len(text.encode())} {hashlib.sha256(text.encode()).hexdigest()}")


if __name__ == "__main__":
    main()
