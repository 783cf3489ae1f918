#!/usr/bin/env python3
"""Times `put FOLDER PACKAGE tiles DIRECTORY` of a real pyramid, and the same work by plain Python over stock SQLite, in one run.

Usage: tree_times.py [--folder FOLDER] [--program PROGRAM] [--tree TREE] [ROUNDS [SIDE]]

(3 rounds of a picture of 1600 by 1600 pixels; FOLDER is where temporary files are, which should be on a disk; TREE is a pyramid that an
earlier run made of a picture of that size, since GDAL takes minutes.)

GDAL makes the pyramid: gdal2tiles cuts a picture of SIDE by SIDE pixels into tiles of 16 by 16, rows downwards (`--xyz`), of all zooms.
With 1600 pixels the finest zoom has 10,000 tiles. The same tree goes into a new archive by either side. Each tile is a request that is
committed by itself and waits for the disk. In each round the sides take turns. Afterwards both archives must hold the same contents at
the same places, by the manifest; a second `put` of the same tree must add nothing. Seconds by the clock: the median, the least, the greatest.
"""

import argparse
import csv
import os
import random
import shutil
import statistics
import subprocess
import sys
import tempfile
import time

from program import program
from timed_lists import ARCHIVE, AT

HERE = os.path.dirname(os.path.abspath(__file__))
sys.path.insert(0, HERE)
PIXELS = 16


def call(words, **named):
    ran = subprocess.run(words, stdout=subprocess.PIPE, stderr=subprocess.PIPE, **named)
    if ran.returncode != 0:
        sys.exit(f"{words}: status {ran.returncode}\n{ran.stderr.decode(errors='replace')[-2000:]}")
    return ran.stdout


def pyramid(place, side, zooms):
    """A tree of tiles that gdal2tiles made of a picture of noise."""
    rows = random.Random(7)
    picture = os.path.join(place, "picture.ppm")
    with open(picture, "wb") as file:
        file.write(f"P6\n{side} {side}\n255\n".encode() + rows.randbytes(3 * side * side))
    tree = os.path.join(place, "tree")
    words = ["gdal2tiles.py", "--profile=raster", "--xyz", f"--tilesize={PIXELS}", f"--zoom=0-{zooms - 1}", "--resampling=near", "--webviewer=none"]
    call([*words, picture, tree])
    return tree


def tiles_of(tree):
    """The places of a tree in order, and the paths of their files."""
    found = []
    for folder, _, names in os.walk(tree):
        parts = os.path.relpath(folder, tree).split(os.sep)
        found += [((int(parts[0]), int(parts[1]), int(name[:-4])), os.path.join(folder, name)) for name in names if len(parts) == 2 and name.endswith(".png")]
    return sorted(found)


def put_by_python(folder, tree):
    """A request a tile, each committed by itself."""
    plain = os.path.join(HERE, "plain_folder.py")
    source = f"""
import sys
sys.path[:0] = [{HERE!r}, {os.path.join(HERE, '..', 'samples')!r}]
sys.dont_write_bytecode = True
import hashlib, uuid
from plain_folder import Folder
from tree_times import tiles_of
register = Folder({folder!r})
package = {ARCHIVE!r}
for (zoom, column, row), path in tiles_of({tree!r}):
    with open(path, "rb") as file:
        data = file.read()
    request = dict(request=str(uuid.uuid4()), at={AT!r}, command="add", package=package, identity=str(uuid.uuid4()),
        kind="tile", zoom=zoom, column=column, row=row, data=data)
    seq, refusal = register.apply(request)
    assert refusal == 0, (path, refusal)
register.close()
"""
    assert os.path.isfile(plain)
    call([sys.executable, "-c", source])


def contents(manifest):
    """What stands at which place."""
    return sorted((it["zoom"], it["column"], it["row"], it["fingerprint"]) for it in csv.DictReader(manifest.decode().splitlines()))


def once(side, runs, place, tree, frame):
    """The seconds that one side takes, and what its archive then holds."""
    folder = os.path.join(place, "maps")
    os.mkdir(folder)
    call([runs, "init", "--archive", ARCHIVE, "--at", AT, "--frame", frame, folder])
    os.sync()
    start = time.perf_counter()
    if side == "Python":
        put_by_python(folder, tree)
    else:
        call([runs, "put", folder, ARCHIVE, "tiles", "--at", AT, tree])
    took = time.perf_counter() - start
    held = contents(call([runs, "manifest", folder, ARCHIVE]))
    if side != "Python":
        receipts = call([runs, "audit", folder])
        call([runs, "put", folder, ARCHIVE, "tiles", "--at", AT, tree])
        if call([runs, "audit", folder]) != receipts:
            sys.exit("a second put of the same tree added something")
    shutil.rmtree(folder)
    return took, held


def spelled(times):
    return f"{statistics.median(times):.2f} s ({min(times):.2f} to {max(times):.2f})"


def main():
    words = argparse.ArgumentParser(description=__doc__, formatter_class=argparse.RawDescriptionHelpFormatter)
    words.add_argument("--folder")
    words.add_argument("--program")
    words.add_argument("--tree")
    words.add_argument("rounds", nargs="?", type=int, default=3)
    words.add_argument("side", nargs="?", type=int, default=1600)
    said = words.parse_args()
    runs = os.path.abspath(said.program) if said.program else program()
    zooms = 1
    while PIXELS << (zooms - 1) < said.side:
        zooms += 1
    east, south = 500_000_000 + 1000 * (PIXELS << (zooms - 1)), 5_900_000_000
    frame = f"25832,500000000,{south},{east},{south + east - 500_000_000},{PIXELS},{PIXELS},0,{zooms},1,1"
    with tempfile.TemporaryDirectory(dir=said.folder) as place:
        tree = os.path.abspath(said.tree) if said.tree else pyramid(place, said.side, zooms)
        count, times, held = len(tiles_of(tree)), {"sheetdesk": [], "Python": []}, []
        for _ in range(said.rounds):
            for side, took in times.items():
                seconds, holds = once(side, runs, place, tree, frame)
                took.append(seconds)
                held.append(holds)
        if any(it != held[0] for it in held) or len(held[0]) != count:
            sys.exit("the sides do not hold the same")
        for side, took in times.items():
            print(f"{side:9}: {count} tiles in {spelled(took)}")
        print(f"sheetdesk takes {statistics.median(times['sheetdesk']) / statistics.median(times['Python']):.2f} times as long as Python")


if __name__ == "__main__":
    main()
