"""Short random lists that are torn, ill spelled or no UTF-8, and words of a command line of which some cannot be read."""

from machine.lists import HEADER
from random_lists import ARCHIVE, Lists
from random_values import BAD_MOMENTS, BOUND, FRAMES, GOOD_MOMENTS, GREATEST, LEAST, NO_NUMBERS, NO_UUIDS

NUMBER_COLUMNS = [HEADER.index(name) for name in ["zoom", "column", "row", "last_column", "last_row", "x", "y", "code", "ticket"]]
UUID_COLUMNS = [HEADER.index(name) for name in ["request", "package", "identity", "other"]]
WORD_COLUMNS = [HEADER.index(name) for name in ["command", "kind"]]
WORDS = "Add,add ,split,merge,tile,TILE,tiles_media,rows_media,rows_tiles,tiles_rows,strict,follow,Follow,row,delete,link".split(",") + [""]
NO_DATA = ["0", "0g", "000", "0x00", " 00", "\u0661\u0661", "+1", "-1", ""]
FIELDS = [(NUMBER_COLUMNS, NO_NUMBERS), (UUID_COLUMNS, NO_UUIDS), (WORD_COLUMNS, WORDS), ([HEADER.index("data")], NO_DATA), (range(18), ["x", "0", " "])]
TORN = [b"\xff", b"\xc3", b"\xed\xa0\x80", b"\xf4\x90\x80\x80", b"\xc0\x80", b"\xef\xbb\xbf"]
BEGINNINGS = [b"\xef\xbb\xbf", b"\xef\xbb\xbf\xef\xbb\xbf", b"\n\n", b"\r\n", b" ", b"\xef\xbb", b""]
MARKS = [b'"', b",", b"\n", b"\r", b"\x00", b" ", b'""']
ENDS = [("\n",), ("\r\n",), ("\r",), ("\n", "\r\n", "\r", "\n\n", "\r\n\r\n")]
# Numbers about the limits of a frame.
LIMITS = [0, 1, 20, 21, 22, 4096, 4097, 999_999, 1_000_000, BOUND, BOUND + 1, -BOUND, -BOUND - 1, 2 * BOUND, 2 * BOUND + 1, LEAST, GREATEST, 1 << 32, 1 << 62]


class BrokenLists(Lists):
    def broken_list(self, frame):
        self.begin(frame)
        draw = self.random
        records = [list(HEADER)] + [self.as_texts(self.record()) for _ in range(draw.randrange(1, 9))]
        how = draw.choice([self.other_field, self.other_length, self.other_header, self.torn, None])
        if how not in (self.torn, None):
            how(records)
        text = self.text(records, draw.choice(ENDS))
        return self.torn(text) if how == self.torn else text

    def other_field(self, records):
        draw = self.random
        columns, texts = draw.choice(FIELDS)
        draw.choice(records[1:])[draw.choice(columns)] = draw.choice(texts)

    def other_length(self, records):
        record = self.random.choice(records[1:])
        self.random.choice([record.pop, lambda: record.append("")])()

    def other_header(self, records):
        header = records[0]
        self.random.choice([header.reverse, header.clear, header.pop, lambda: header.append("x"), lambda: header.__setitem__(3, "Package")])()

    def torn(self, text):
        draw = self.random
        at = draw.randrange(len(text))
        return draw.choice([
            text[:at],
            text[:at] + draw.choice(TORN) + text[at:],
            draw.choice(BEGINNINGS) + text,
            text[:at] + draw.choice(MARKS) + text[at:],
            text.rstrip(b"\r\n"),
        ])

    def words(self):
        """Three words for an archive, of which some cannot be read: frames are good ones with some of their numbers changed."""
        draw = self.random
        archive = draw.choice(NO_UUIDS) if self.chance(0.1) else self.any_case(ARCHIVE)
        at = draw.choice(BAD_MOMENTS) if self.chance(0.1) else draw.choice(GOOD_MOMENTS)
        numbers = draw.choice(FRAMES).split(",")
        for place in draw.choices(range(len(numbers)), k=draw.choice([0, 1, 1, 1, 2])):
            numbers[place] = draw.choice([*self.near_number(numbers[place]), draw.choice(NO_NUMBERS)])
        frame = ",".join(numbers)
        if self.chance(0.05):
            other = [frame + ",", frame + ",1", "," + frame, frame + " ", frame.replace(",", ";"), frame.replace(",", ", ", 1)]
            frame = draw.choice([*other, "", frame[: len(frame) // 2]])
        return archive, at, frame

    def near_number(self, text):
        old = int(text) if text.lstrip("-").isascii() and text.lstrip("-").isdigit() else 0
        return map(str, [old + 1, old - 1, old * 2, old // 2, -old, *LIMITS])
