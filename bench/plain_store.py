"""One package over stock SQLite, in memory or in a file: the tables and indexes of plain_sqlite.py, asked and changed by statements, and no contracts."""

import plain_sqlite
from machine.contents import ENDS, KINDS, item_moved, link_moved, place_of

TABLES = {1: "sheet_tiles", 2: "sheet_media", 3: "sheet_rows"}
KIND_NAMES = {1: "tile", 2: "media", 3: "row"}
COLUMNS = {1: ["zoom", "column", "row", "data"], 2: ["data", "text"], 3: ["x", "y", "code", "text"]}
# The kinds of the ends of a mapping, by number, and the mapping tables that an item of a kind may stand in.
END_KINDS = {mapping: tuple(KINDS[kind] for kind in ends) for mapping, ends in ENDS.items()}
MAPPED = {
    kind: [(mapping, column) for mapping, ends in END_KINDS.items() for end, column in zip(ends, ["base_id", "related_id"]) if end == kind]
    for kind in TABLES
}


class Store:
    """A package over a connection in which it stands."""

    def __init__(self, conn, head):
        self.conn = conn
        self.uuid, self.parent, self.depth, self.loan = head
        self.ticket = 0
        self.conn.execute("CREATE TEMP TABLE going (kind INTEGER, local_id INTEGER, PRIMARY KEY (kind, local_id))")

    @classmethod
    def make(cls, path, frame, head, at):
        conn = plain_sqlite.connect(path)
        plain_sqlite.create(conn, frame, head, at)
        return cls(conn, head)

    def all(self, query, *values):
        return self.conn.execute(query, values).fetchall()

    def one(self, query, *values):
        return self.conn.execute(query, values).fetchone()

    # Look-ups.

    def kept(self, request):
        return self.one("SELECT line, seq FROM sheet_receipts WHERE request = ?", request)

    def is_used(self, identity):
        lines = self.all("SELECT sheet_receipts.line FROM sheet_items JOIN sheet_receipts USING (seq) WHERE base = ?", identity)
        return any(line.startswith("add ") for (line,) in lines)

    def was_lent(self, child):
        return any(line.startswith("split ") for (line,) in self.all("SELECT line FROM sheet_receipts WHERE target = ?", child))

    def key_of(self, identity):
        """Kind and local key of an identity, or two that nothing has."""
        return self.one("SELECT kind, local_id FROM sheet_identity WHERE uuid = ?", identity) or (0, 0)

    def has_link(self, request):
        base, other = self.key_of(request["identity"]), self.key_of(request["other"])
        if (base[0], other[0]) != END_KINDS[request["kind"]]:
            return False
        return self.one(f"SELECT 1 FROM {request['kind']} WHERE base_id = ? AND related_id = ?", base[1], other[1]) is not None

    def is_linked(self, identity):
        kind, key = self.key_of(identity)
        return any(self.one(f"SELECT 1 FROM {table} WHERE {column} = ?", key) for table, column in MAPPED[kind])

    def is_taken(self, place):
        return self.one("SELECT 1 FROM sheet_tiles WHERE zoom_level = ? AND tile_column = ? AND tile_row = ?", *place) is not None

    def places(self):
        return self.all("SELECT zoom_level, tile_column, tile_row FROM sheet_tiles ORDER BY 1, 2, 3")

    def item(self, kind, key):
        return self.as_item(kind, self.one(f"SELECT * FROM {TABLES[kind]} WHERE id = ?", key))

    @staticmethod
    def as_item(kind, row):
        return {"kind": KIND_NAMES[kind], **dict(zip(COLUMNS[kind], row[1:]))}

    def links(self):
        """The links of the package in their order."""
        for mapping, (base, other) in END_KINDS.items():
            joins = f"JOIN sheet_identity a ON a.kind = {base} AND a.local_id = base_id JOIN sheet_identity b ON b.kind = {other} AND b.local_id = related_id"
            for ends in self.all(f"SELECT a.uuid, b.uuid FROM {mapping} {joins} ORDER BY 1, 2"):
                yield (mapping, *ends)

    # Changes, each inside a transaction, with what a receipt says of them.

    def insert(self, request):
        item = item_moved(request["identity"], request)
        kind = item.kind
        values = [*place_of(request), request["data"]] if kind == 1 else [request[name] for name in COLUMNS[kind]]
        marks = ", ?" * len(values)
        key = self.conn.execute(f"INSERT INTO {TABLES[kind]} VALUES (NULL{marks})", values).lastrowid
        self.conn.execute("INSERT INTO sheet_identity VALUES (?, ?, ?)", (kind, key, request["identity"]))
        return item

    def delete(self, request):
        kind, key = self.key_of(request["identity"])
        item = item_moved(request["identity"], self.item(kind, key))
        self.conn.execute(f"DELETE FROM {TABLES[kind]} WHERE id = ?", (key,))
        self.conn.execute("DELETE FROM sheet_identity WHERE kind = ? AND local_id = ?", (kind, key))
        return item

    def change_link(self, request):
        keys = self.key_of(request["identity"])[1], self.key_of(request["other"])[1]
        statement = "INSERT INTO {} VALUES (?, ?)" if request["command"] == "link" else "DELETE FROM {} WHERE base_id = ? AND related_id = ?"
        self.conn.execute(statement.format(request["kind"]), keys)
        return link_moved((request["kind"], request["identity"], request["other"]))

    def enter(self, seq, request, line, ends, moved):
        """The receipt of a request, with what it moved in its order, and the date of the contents."""
        counts = [sum(thing.kind == kind for thing in moved) for kind in TABLES]
        sums = [*counts, len(moved) - sum(counts), sum(thing.size for thing in moved)]
        receipt = (seq, request["request"], request["at"], line, *ends, *sums)
        self.conn.execute("INSERT INTO sheet_receipts VALUES (?, ?, ?, ?, ?, ?, ?, ?, ?, ?, ?)", receipt)
        things = [(seq, position, *thing) for position, thing in enumerate(moved)]
        self.conn.executemany("INSERT INTO sheet_items VALUES (?, ?, ?, ?, ?, ?, ?)", things)
        self.date(request["at"])

    def date(self, at):
        self.conn.execute("UPDATE gpkg_contents SET last_change = ?", (at,))
