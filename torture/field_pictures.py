#!/usr/bin/env python3
"""Pictures of an invented coast, for trials of field work.

Usage: /usr/bin/python3 torture/field_pictures.py FOLDER    writes what the stories of docs/FIELDWORK.md begin with
                                                            (it wants Debian's python3-gdal and gdal-bin)

A picture has the same pixels each time. Coordinates are metres from the south-west corner, 500 km east and 5900 km north in EPSG:25832.
"""

import math
import os
import struct
import subprocess
import sys
import zlib

WEST, SOUTH = 500_000, 5_900_000


def height(x, y):
    """Above the sea, in metres."""
    return 30 * math.sin(x / 90) + 25 * math.cos(y / 70 + x / 210) + (y - 210) / 8


def colour(x, y):
    level = height(x, y)
    if level < 0:
        return (150, 196, 226) if level > -2 else (178, 214, 236)
    step = min(int(level), 90) // 10
    return (140, 150, 100) if level % 10 < 0.6 else (226 - 4 * step, 232 - 9 * step, 196 - 12 * step)


def dock(column, row):
    """A new dock: 80 by 80 pixels."""
    return (196, 164, 132) if 6 <= column < 74 and 6 <= row < 74 else (90, 70, 60)


def png(size, pixel):
    """A square picture of these pixels, by column and row."""
    lines = b"".join(b"\0" + bytes(part for column in range(size) for part in pixel(column, row)) for row in range(size))
    parts = [(b"IHDR", struct.pack(">IIBBBBB", size, size, 8, 2, 0, 0, 0)), (b"IDAT", zlib.compress(lines, 9)), (b"IEND", b"")]
    return b"\x89PNG\r\n\x1a\n" + b"".join(struct.pack(">I", len(data)) + name + data + struct.pack(">I", zlib.crc32(name + data)) for name, data in parts)


def tiff(path, west, north, size, pixel):
    """The same as a GeoTIFF, a metre a pixel, its north-west corner at this place."""
    from osgeo import gdal, osr

    gdal.UseExceptions()
    made = gdal.GetDriverByName("GTiff").Create(path, size, size, 3, options=["COMPRESS=DEFLATE"])
    made.SetGeoTransform((WEST + west, 1, 0, SOUTH + north, 0, -1))
    system = osr.SpatialReference()
    system.ImportFromEPSG(25832)
    made.SetProjection(system.ExportToWkt())
    lines = [[pixel(column, row) for column in range(size)] for row in range(size)]
    for band in range(3):
        made.GetRasterBand(band + 1).WriteRaster(0, 0, size, size, bytes(place[band] for line in lines for place in line))


MARKS = "lon,lat,nr,name\n9.0021,53.2561,110,trig. point\n9.0063,53.2528,210,light\n9.0102,53.2571,310,gauge\n9.0222,53.2533,120,church\n"


def begin_stories(folder):
    """Two scans, marks in degrees, the picture of a dock, and a pyramid of Web Mercator."""
    scans = os.path.join(folder, "scans")
    os.mkdir(scans)
    for name, west in (("west", 0), ("east", 1024)):
        tiff(os.path.join(scans, f"{name}.tif"), west, 1024, 1024, lambda column, row, west=west: colour(west + column + 0.5, 1023.5 - row))
    tiff(os.path.join(folder, "dock.tif"), 120, 176, 80, dock)
    points = os.path.join(folder, "points.csv")
    with open(points, "w", encoding="utf-8") as out:
        out.write(MARKS)
    options = [word for option in ("X_POSSIBLE_NAMES=lon", "Y_POSSIBLE_NAMES=lat", "KEEP_GEOM_COLUMNS=NO", "AUTODETECT_TYPE=YES") for word in ("-oo", option)]
    subprocess.run(["ogr2ogr", "-s_srs", "EPSG:4326", "-t_srs", "EPSG:4326", os.path.join(folder, "marks.shp"), points, "-nln", "marks", *options], check=True)
    words = ["gdal_translate", "-q", "-of", "GPKG", "-co", "TILING_SCHEME=GoogleMapsCompatible", "-co", "TILE_FORMAT=PNG", "-co", "RASTER_TABLE=web"]
    subprocess.run([*words, os.path.join(scans, "west.tif"), os.path.join(folder, "web.gpkg")], check=True)
    os.remove(points)


if __name__ == "__main__":
    if len(sys.argv) != 2:
        sys.exit(__doc__)
    begin_stories(sys.argv[1])
