"""Frames and rectangles of the second machine: the ground of a place, and what lies inside, as the rules say it.

A frame is eleven whole numbers; coordinates are thousandths of the reference system's unit, columns run to the east, rows to the south.
"""

from collections import namedtuple

from .lists import NoList, read_number

NAMES = "srs min_x min_y max_x max_y tile_width tile_height first_zoom levels matrix_width matrix_height"
FARTHEST = 10**12

Ground = namedtuple("Ground", "west south east north")
Rect = namedtuple("Rect", "zoom column last_column row last_row")


class Frame(namedtuple("Frame", NAMES)):
    @classmethod
    def read(cls, text):
        numbers = [read_number(part) for part in text.split(",")]
        if len(numbers) != len(cls._fields):
            raise NoList("frame")
        return cls(*numbers)

    def is_good(self):
        return self.fault() is None

    def fault(self):
        """The first rule that the frame breaks, or None."""
        bounds = [self.min_x, self.min_y, self.max_x, self.max_y]
        if not -1 <= self.srs <= 999_999:
            return "BadSrs"
        if any(abs(bound) > FARTHEST for bound in bounds) or self.min_x >= self.max_x or self.min_y >= self.max_y:
            return "BadBounds"
        if not (1 <= self.tile_width <= 4096 and 1 <= self.tile_height <= 4096):
            return "BadTile"
        if self.first_zoom < 0 or self.levels < 1 or self.first_zoom + self.levels > 21:
            return "BadZoom"
        if not (1 <= self.matrix_width <= 2 * FARTHEST and 1 <= self.matrix_height <= 2 * FARTHEST):
            return "BadMatrix"
        finest = 1 << (self.levels - 1)
        columns, rows = self.matrix_width * self.tile_width * finest, self.matrix_height * self.tile_height * finest
        even = (self.max_x - self.min_x) % columns == 0 and (self.max_y - self.min_y) % rows == 0
        return None if even else "Uneven"

    def matrix(self, zoom):
        """Columns and rows of a zoom, or none of either where the frame has not that zoom."""
        level = zoom - self.first_zoom
        return (self.matrix_width << level, self.matrix_height << level) if 0 <= level < self.levels else (0, 0)

    def has_place(self, zoom, column, row):
        columns, rows = self.matrix(zoom)
        return 0 <= column < columns and 0 <= row < rows

    def has_point(self, x, y):
        return self.min_x <= x < self.max_x and self.min_y < y <= self.max_y

    def has_rect(self, rect):
        ends = self.has_place(rect.zoom, rect.column, rect.row) and self.has_place(rect.zoom, rect.last_column, rect.last_row)
        return ends and rect.column <= rect.last_column and rect.row <= rect.last_row

    def ground(self, zoom, column, row):
        """Of a tile. The frame is good and has the place."""
        columns, rows = self.matrix(zoom)
        pixel_x = (self.max_x - self.min_x) // (columns * self.tile_width)
        pixel_y = (self.max_y - self.min_y) // (rows * self.tile_height)
        west = self.min_x + column * self.tile_width * pixel_x
        north = self.max_y - row * self.tile_height * pixel_y
        return Ground(west, north - self.tile_height * pixel_y, west + self.tile_width * pixel_x, north)

    def ground_of_rect(self, rect):
        first, last = self.ground(rect.zoom, rect.column, rect.row), self.ground(rect.zoom, rect.last_column, rect.last_row)
        return Ground(first.west, last.south, last.east, first.north)

    def tile_inside(self, rect, zoom, column, row):
        tile, whole = self.ground(zoom, column, row), self.ground_of_rect(rect)
        return whole.west <= tile.west and tile.east <= whole.east and whole.south <= tile.south and tile.north <= whole.north

    def point_inside(self, rect, x, y):
        whole = self.ground_of_rect(rect)
        return whole.west <= x < whole.east and whole.south < y <= whole.north
