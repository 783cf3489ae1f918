"""The archive of Nordmark, an invented country: its frame, its sheets, its media and its survey marks, and who borrows of it."""

import uuid

ARCHIVE = "6f0d3a52-9c1e-4b7a-8f24-1d5be07c9a10"
CREATED = "2026-03-02T07:30:00.000Z"
# EPSG 25832, in thousandths of a metre: 40.96 km by 61.44 km, zooms 4 to 6, pixels of 80, 40 and 20 metres at zoom 4, 5 and 6.
FRAME = "25832,500000000,5900000000,540960000,5961440000,256,256,4,3,2,3"

# (zoom, column, row) and a name: six general sheets, the regional ones and those of the towns.
SHEETS = {
    (4, 0, 0): "Skarvholm",
    (4, 1, 0): "Fjellvik",
    (4, 0, 1): "Grønås",
    (4, 1, 1): "Älvsund",
    (4, 0, 2): "Sandmo",
    (4, 1, 2): "Östnes",
    (5, 0, 0): "Skarvholm, harbour",
    (5, 1, 0): "Skarvholm, roads",
    (5, 0, 2): "Grønås, moor",
    (5, 3, 5): "Östnes, coast",
    (6, 0, 0): "Skarvholm town",
    (6, 1, 0): "Skarvholm mole",
    (6, 0, 4): "Grønås town",
    (6, 7, 11): "Östnes town",
}
NEW_SERIES = [(4, 1, 0), (4, 0, 1), (4, 0, 2), (4, 1, 2)]

# Content type and data. The bytes are opaque to the register: a few that begin as such a file does.
MEDIA = {
    "legend-new-series": ("image/png", b"\x89PNG\r\n\x1a\nlegend of the new series"),
    "legend-harbour": ("image/png", b"\x89PNG\r\n\x1a\nlegend of the harbour sheets"),
    "scan-1887": ("image/tiff", b"II*\x00scan of the survey of 1887"),
    "scan-1934": ("image/tiff", b"MM\x00*scan of the revision of 1934"),
    "mark-book": ("text/plain; charset=utf-8", "Punktbuch: Höhen über dem Pegel Älvsund\n".encode()),
    "photo-lighthouse": ("image/jpeg", b"\xff\xd8\xff\xe0the light of Skarvholm"),
}

# x, y, code, label. The first two stand on the frame's closed edges, the third just inside its open ones.
MARKS = {
    "corner-north-west": (500000000, 5961440000, 1, "grid corner NW"),
    "west-edge": (500000000, 5930000000, 1, "grid, west edge"),
    "corner-south-east": (540959999, 5900000001, 1, "grid corner SE"),
    "light": (502345678, 5960678901, 210, 'light "Skarvholm", white flash'),
    "gauge": (527000000, 5931000250, 310, "Pegel Älvsund, Nullpunkt"),
    "church": (521400125, 5938000500, 120, "St. Olav's church, tower"),
    "trig-point": (513000001, 5927777777, 110, "trig. point Grønås; stone"),
    "no-label": (515151515, 5915151515, 999999, ""),
    "zero-code": (515151516, 5915151516, 0, 'boundary stone 0, "Dreimärker"'),
}

TILE_LINKS = [
    *[(place, "legend-new-series") for place in NEW_SERIES],
    ((5, 0, 0), "legend-harbour"),
    ((5, 1, 0), "legend-harbour"),
    ((6, 0, 0), "scan-1887"),
    ((6, 1, 0), "scan-1934"),
]
MARK_LINKS = [("light", "photo-lighthouse"), ("light", "mark-book"), ("gauge", "mark-book"), ("trig-point", "mark-book")]
MARKS_ON_SHEETS = [("light", (4, 0, 0)), ("gauge", (4, 1, 1))]


def name_uuid(kind, name):
    """The same UUID each time: one made of a name (RFC 9562, version 5)."""
    return str(uuid.uuid5(uuid.NAMESPACE_URL, f"https://nordmark.example/{kind}/{name}"))


def sheet(*place):
    return name_uuid("tile", "/".join(map(str, place)))


def medium(name):
    return name_uuid("media", name)


def mark(name):
    return name_uuid("mark", name)


def new(name):
    """Something that a refused request names."""
    return name_uuid("refused", name)


HARBOUR, BOAT, SURVEY = (name_uuid("crew", name) for name in ("harbour", "boat", "survey"))
