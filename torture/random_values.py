"""Values for random request lists: good ones, and those at and past each limit."""

import random
import uuid

LEAST, GREATEST = -(1 << 63), (1 << 63) - 1
BOUND = 10**12

FRAMES = [
    "25832,0,0,4096,4096,256,256,0,3,1,1",
    "-1,-2048,-1024,2048,1024,16,16,3,2,2,1",
    "0,0,0,1,1,1,1,20,1,1,1",
    f"999999,-{BOUND},-{BOUND},{BOUND},{BOUND},1,1,0,1,{2 * BOUND},{2 * BOUND}",
    f"4326,-{BOUND},0,{BOUND - 10**12 % 4096},4096,4096,1,0,1,1,4096",
    "1,-3145728,-1048576,3145728,1048576,1,1,0,21,3,1",
]

GOOD_MOMENTS = [
    "2024-05-01T08:00:00.000Z", "0000-01-01T00:00:00.000Z", "9999-12-31T23:59:59.999Z", "2023-02-31T00:00:00.001Z", "2024-10-09T19:59:00.010Z",
]
BAD_MOMENTS = [
    "", "2024-00-01T08:00:00.000Z", "2024-13-01T08:00:00.000Z", "2024-05-00T08:00:00.000Z", "2024-05-32T08:00:00.000Z",
    "2024-05-01T24:00:00.000Z", "2024-05-01T08:60:00.000Z", "2024-05-01T08:00:60.000Z", "2024-05-01t08:00:00.000Z",
    "2024-05-01T08:00:00.000z", "2024-05-01T08:00:00.00Z", "2024-05-01T08:00:00.0000Z", "2024-05-01 08:00:00.000Z",
    "2024-05-01T08:00:00,000Z", "-024-05-01T08:00:00.000Z", " 2024-05-01T08:00:00.000Z", "2024-05-01T08:00:00.000Z ",
    "2024-05-01T08:00:00.000Z\n", "2024-05-0\u0661T08:00:00.000Z", "2024-05-01T08:00:0\u06610.000Z", "2024:05:01T08:00:00.000Z", "20240501T080000.000Z",
]
PIECES = ["a", "b c", ",", '"', '""', "'", "\r", "\t", "ä", "Ø", "\u20ac", "\U0001f5fa", " ", "\x00", "\x7f", ";", "=1", "\u2028", "#"]
CONTENT_TYPES = ["image/png", "image/tiff", 'text/plain; title="a,b"', "~ ", " ", "!\"#$%&'()*+,-./", "\\"]
BAD_TYPES = ["\x1f", "\x7f", "é" * 100, "a\nb", "a\rb", "image/\u00fc", "\t", "x" * 101 + "\x7f"]
NO_NUMBERS = ["", "+1", "01", "-0", "00", "1.0", "1e3", " 1", "1 ", "0x1", "9223372036854775808", "-9223372036854775809", "\u0661", "--1", "1_0", "-", "18446744073709551616"]
NO_UUIDS = [
    "", "a0000000-0000-4000-8000-00000000000", "a0000000-0000-4000-8000-00000000000ab", "a0000000000040008000000000000000a",
    "{a0000000-0000-4000-8000-00000000000a}", "g0000000-0000-4000-8000-00000000000a", "a0000000-0000-4000-80000-0000000000a",
    "urn:uuid:a0000000-0000-4000-8000-00000000000a", "a0000000_0000_4000_8000_00000000000a", "a000000000004000800000000000000a", "a0000000-0000-4000-8000-00000000000\u00e9",
]


class Values:
    def __init__(self, seed):
        self.random = random.Random(seed)

    def chance(self, share):
        return self.random.random() < share

    def uuid(self):
        return str(uuid.UUID(int=self.random.getrandbits(128)))

    def any_case(self, text):
        if self.chance(0.9):
            return text
        return text.upper() if self.chance(0.5) else "".join(self.random.choice([mark, mark.upper()]) for mark in text)

    def near(self, *borders):
        if self.chance(0.05):
            return self.random.choice([LEAST, LEAST + 1, GREATEST - 1, GREATEST, -(1 << 31), 1 << 31, 1 << 32, -1, 0])
        return max(LEAST, min(self.random.choice(borders) + self.random.choice([-1, 0, 0, 1]), GREATEST))

    def place(self, frame):
        zoom = frame.first_zoom + self.random.randrange(frame.levels)
        columns, rows = frame.matrix(zoom)
        if self.chance(0.15):
            ends = [0, columns - 1, rows - 1, columns]
            return self.near(frame.first_zoom, frame.first_zoom + frame.levels - 1), self.near(*ends), self.near(*ends)
        return zoom, self.random.randrange(columns), self.random.randrange(rows)

    def point(self, frame):
        """Any point, one about the corners of the frame, or one about those of a tile, of the first zooms most of all."""
        if self.chance(0.2):
            return self.near(frame.min_x, frame.max_x), self.near(frame.min_y, frame.max_y)
        if self.chance(0.4):
            zoom = frame.first_zoom + self.random.randrange(min(frame.levels, 3))
            ground = frame.ground(zoom, *map(self.random.randrange, frame.matrix(zoom)))
            return self.near(ground.west, ground.east), self.near(ground.south, ground.north)
        return self.random.randrange(frame.min_x, frame.max_x), self.random.randrange(frame.min_y + 1, frame.max_y + 1)

    def code(self):
        return self.near(0, 999_999) if self.chance(0.2) else self.random.randrange(1_000_000)

    def data(self):
        if self.chance(0.002):
            return b"z" * self.random.choice([1_048_575, 1_048_576, 1_048_577])
        return b"" if self.chance(0.04) else self.random.randbytes(self.random.choice([1, 2, 3, 8, 40, 300]))

    def text_of_size(self, size):
        text = "ä" * self.random.randrange(size // 2 + 1)
        return text + "x" * (size - len(text.encode()))

    def label(self):
        if self.chance(0.05):
            return self.text_of_size(self.random.choice([199, 200, 201, 202, 1000]))
        text = "".join(self.random.choices(PIECES, k=self.random.randrange(7)))
        return text + "\n" if self.chance(0.03) else text

    def content_type(self):
        if self.chance(0.08):
            return "x" * self.random.choice([0, 1, 99, 100, 101, 300])
        return self.random.choice(BAD_TYPES if self.chance(0.06) else CONTENT_TYPES)

    def moment(self):
        return self.random.choice(GOOD_MOMENTS if self.chance(0.97) else BAD_MOMENTS)
