"""What happens in the archive of Nordmark, chapter by chapter: each function writes requests into a list that knows what they are answered."""

from nordmark import ARCHIVE, BOAT, HARBOUR, MARK_LINKS, MARKS, MARKS_ON_SHEETS, MEDIA, SHEETS, SURVEY, TILE_LINKS
from nordmark import mark, medium, name_uuid, new, sheet


def open_archive(requests):
    """The sheets, media and marks come in, and what belongs to what."""
    for place, name in SHEETS.items():
        requests.tile(sheet(*place), place, b"\x89PNG\r\n\x1a\n" + name.encode())
    for name, (content_type, data) in MEDIA.items():
        requests.medium(medium(name), content_type, data)
    for name, (x, y, code, label) in MARKS.items():
        requests.mark(mark(name), x, y, code, label)
    for place, name in TILE_LINKS:
        requests.link("tiles_media", sheet(*place), medium(name))
    for name, picture in MARK_LINKS:
        requests.link("rows_media", mark(name), medium(picture))
    for name, place in MARKS_ON_SHEETS:
        requests.link("rows_tiles", mark(name), sheet(*place))


def correct_a_sheet(requests):
    """A sheet's link is taken off, it is deleted, and its second edition takes its place. A request that comes again gets its receipt again."""
    old, edition = sheet(6, 0, 0), name_uuid("tile", "6/0/0, second edition")
    requests.unlink("tiles_media", old, medium("scan-1887"))
    gone = requests.delete(old)
    requests.tile(edition, (6, 0, 0), b"\x89PNG\r\n\x1a\nSkarvholm town, second edition")
    requests.link("tiles_media", edition, medium("scan-1887"))
    requests.delete(old, request=gone)
    # The same UUIDs in upper case are the same UUIDs.
    requests.mark(mark("gate").upper(), 509000000, 5909000000, 400, "gate", package=ARCHIVE.upper())


def lend_to_the_harbour_crew(requests):
    """Sheet Skarvholm in strict mode: not while the mark book is shared with other sheets, and then once, however often it is asked for."""
    whole = (4, 0, 0, 0, 0)
    requests.split(HARBOUR, "strict", whole, refused=18)
    requests.unlink("rows_media", mark("light"), medium("mark-book"))
    lent = requests.split(HARBOUR, "strict", whole)
    requests.split(HARBOUR, "strict", whole, request=lent, at="2026-03-02T23:59:59.999Z")
    requests.split(BOAT, "strict", whole, request=lent, refused=1)


def lend_to_the_survey_crew(requests):
    """Sheet Älvsund in follow mode: the mark book goes along, and with it the trig point of the next sheet."""
    requests.split(SURVEY, "follow", (4, 1, 1, 1, 1))


def lend_on(requests):
    """The harbour crew lends the sheet of the mole on to a boat."""
    requests.split(BOAT, "strict", (6, 1, 1, 0, 0), package=HARBOUR)


def work_in_the_field(requests):
    """The boat adds a buoy with its picture, the survey crew a book of levels; the archive reprints a sheet that is not there."""
    requests.mark(mark("buoy"), 507000000, 5958000000, 220, "buoy 4, green", package=BOAT)
    requests.link("rows_tiles", mark("buoy"), sheet(6, 1, 0), package=BOAT)
    photo = medium("photo-buoy")
    sent = requests.medium(photo, "image/jpeg", b"\xff\xd8\xff\xe0buoy 4", package=BOAT)
    requests.link("rows_media", mark("buoy"), photo, package=BOAT)
    requests.medium(medium("level-book"), "text/plain", b"levels along the sound\n", package=SURVEY)
    requests.link("tiles_media", sheet(4, 1, 1), medium("level-book"), package=SURVEY)
    requests.delete(sheet(6, 1, 0), refused=7)
    requests.tile(name_uuid("tile", "6/1/0, reprint"), (6, 1, 0), b"\x89PNG\r\n\x1a\nSkarvholm mole, reprint")
    return sent, photo


def bring_home(requests, sent, photo):
    """What is lent comes home step by step; the survey crew keeps its sheet."""
    first = requests.tickets()
    requests.merge(HARBOUR, ARCHIVE, first[HARBOUR], refused=21)
    requests.merge(BOAT, ARCHIVE, first[BOAT], refused=19)
    requests.merge(BOAT, HARBOUR, first[HARBOUR], refused=20)
    requests.merge(BOAT, HARBOUR, first[BOAT])
    requests.merge(HARBOUR, ARCHIVE, requests.tickets()[HARBOUR], refused=22)
    requests.delete(name_uuid("tile", "6/1/0, reprint"))
    requests.merge(HARBOUR, ARCHIVE, requests.tickets()[HARBOUR])
    # The boat's request comes once more: its receipt is kept, though the boat's package is gone.
    requests.medium(photo, "image/jpeg", b"\xff\xd8\xff\xe0buoy 4", package=BOAT, request=sent)
    requests.mark(new("late"), 507000001, 5958000001, 220, "too late", package=BOAT, refused=2)


def be_refused(requests):
    """The other reasons, each by its number, and requests with two reasons or more, where the lower number answers."""
    legend, general, light = medium("legend-new-series"), sheet(4, 1, 0), mark("light")
    requests.split(HARBOUR, "strict", (4, 0, 0, 0, 0), refused=3)
    requests.mark(new("bad moment"), 509000003, 5909000003, 1, "", at="2026-13-02T09:00:00.000Z", refused=4)
    requests.medium(new("bad type"), "image/\u00fcber", b"data", refused=4)
    requests.mark(new("two lines"), 509000004, 5909000004, 1, "two\nlines", refused=4)
    requests.mark(new("long label"), 509000005, 5909000005, 1, "ä" * 100 + "x", refused=5)
    requests.mark(new("great code"), 509000006, 5909000006, 1000000, "", refused=5)
    requests.tile(new("empty tile"), (6, 2, 2), b"", refused=5)
    requests.tile(sheet(6, 0, 0), (6, 2, 2), b"used for good", refused=6)
    requests.link("tiles_media", general, new("nothing"), refused=7)
    requests.link("tiles_media", sheet(4, 1, 1), legend, refused=7)
    requests.link("tiles_media", light, legend, refused=8)
    requests.link("rows_tiles", general, light, refused=8)
    requests.tile(new("no column"), (6, 8, 0), b"sheet", refused=9)
    requests.tile(new("no zoom"), (7, 0, 0), b"sheet", refused=9)
    requests.mark(new("east"), 540960000, 5910000000, 1, "", refused=10)
    requests.mark(new("south"), 510000000, 5900000000, 1, "", refused=10)
    requests.tile(new("taken"), (4, 0, 0), b"sheet", refused=11)
    requests.link("tiles_media", general, legend, refused=12)
    requests.unlink("rows_media", light, medium("mark-book"), refused=13)
    requests.delete(legend, refused=14)
    requests.delete(light, refused=14)
    requests.split(new("crew"), "strict", (4, 0, 0, 2, 0), refused=15)
    requests.split(new("crew"), "follow", (4, 1, 1, 1, 1), refused=17)
    requests.mark(light, 540960000, 5910000000, 1000000, "", at="", refused=4)  # and 5, 6, 10
    requests.tile(general, (4, 0, 0), b"", refused=5)  # and 6, 11
    requests.link("rows_media", general, new("nothing"), refused=7)  # and 8
    requests.merge(SURVEY, HARBOUR, 0, at="", refused=2)  # and 4, 19, 20


def tell(requests):
    open_archive(requests)
    correct_a_sheet(requests)
    requests.picture("Before")
    lend_to_the_harbour_crew(requests)
    lend_to_the_survey_crew(requests)
    lend_on(requests)
    sent, photo = work_in_the_field(requests)
    requests.picture("On loan")
    bring_home(requests, sent, photo)
    requests.picture("After")
    be_refused(requests)
