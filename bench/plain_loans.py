"""What a split takes, and how a cut is carried from one package into another, by statements over whole sets.

The kinds and keys of what goes stand in the table `going` of the package that it leaves.
"""

from machine.contents import item_moved, link_moved
from plain_store import END_KINDS, TABLES


def span(frame, rect, zoom):
    """The first and last column and row of a zoom that lie inside a rectangle of another: whole tiles alone."""
    def ends(first, last):
        if zoom >= rect.zoom:
            return first << zoom - rect.zoom, ((last + 1) << zoom - rect.zoom) - 1
        step = 1 << rect.zoom - zoom
        return -(-first // step), (last + 1) // step - 1

    return *ends(rect.column, rect.last_column), *ends(rect.row, rect.last_row)


def choose_start(store, frame, rect):
    """Whether any tile or row is inside."""
    store.conn.execute("DELETE FROM going")
    inside = "INSERT INTO going SELECT 1, id FROM sheet_tiles WHERE zoom_level = ? AND tile_column BETWEEN ? AND ? AND tile_row BETWEEN ? AND ?"
    for zoom in range(frame.first_zoom, frame.first_zoom + frame.levels):
        store.conn.execute(inside, (zoom, *span(frame, rect, zoom)))
    columns, rows = frame.matrix(rect.zoom)
    width, height = (frame.max_x - frame.min_x) // columns, (frame.max_y - frame.min_y) // rows
    west, east = frame.min_x + rect.column * width, frame.min_x + (rect.last_column + 1) * width
    north, south = frame.max_y - rect.row * height, frame.max_y - (rect.last_row + 1) * height
    inside = "INSERT INTO going SELECT 3, id FROM sheet_rows WHERE x >= ? AND x < ? AND y > ? AND y <= ?"
    store.conn.execute(inside, (west, east, south, north))
    return store.one("SELECT 1 FROM going") is not None


def enlarge(store, mapping, near, kind, far, other_kind):
    """The other ends of the links of this mapping that have this end in the set."""
    query = f"INSERT OR IGNORE INTO going SELECT {other_kind}, {far} FROM going JOIN {mapping} ON {near} = local_id WHERE kind = {kind}"
    return store.conn.execute(query).rowcount


def add_media(store):
    for mapping, (base, other) in END_KINDS.items():
        if other == 2:
            enlarge(store, mapping, "base_id", base, "related_id", other)


def follow(store):
    """Rounds over all links until one brings nothing."""
    grown = True
    while grown:
        grown = 0
        for mapping, (base, other) in END_KINDS.items():
            grown += enlarge(store, mapping, "base_id", base, "related_id", other)
            grown += enlarge(store, mapping, "related_id", other, "base_id", base)


def is_torn(store):
    """Whether a link has one end in the set and not the other."""
    def stray(mapping, near, kind, far, other_kind):
        inside = f"SELECT {far} AS far FROM going JOIN {mapping} ON {near} = local_id WHERE kind = {kind}"
        return store.one(f"SELECT 1 FROM ({inside}) WHERE NOT EXISTS (SELECT 1 FROM going WHERE kind = {other_kind} AND local_id = far)")

    return any(
        stray(mapping, "base_id", base, "related_id", other) or stray(mapping, "related_id", other, "base_id", base)
        for mapping, (base, other) in END_KINDS.items()
    )


def choose_all(store):
    store.conn.execute("DELETE FROM going")
    store.conn.execute("INSERT INTO going SELECT kind, local_id FROM sheet_identity")


def carry(source, target):
    """Puts all that goes into the target, under keys after the greatest there; answers what a receipt says of it, in order."""
    keys, names, moved = {}, {}, []
    for kind, table in TABLES.items():
        free = target.one(f"SELECT coalesce(max(id), 0) + 1 FROM {table}")[0]
        joins = f"JOIN {table} ON id = going.local_id JOIN sheet_identity n ON n.kind = {kind} AND n.local_id = id"
        rows = source.all(f"SELECT uuid, {table}.* FROM going {joins} WHERE going.kind = {kind}")
        keys[kind] = {row[1]: free + number for number, row in enumerate(rows)}
        names[kind] = {row[1]: row[0] for row in rows}
        moved += [item_moved(row[0], source.as_item(kind, row[1:])) for row in rows]
        if rows:
            marks = ", ?" * (len(rows[0]) - 2)
            target.conn.executemany(f"INSERT INTO {table} VALUES (?{marks})", [(keys[kind][row[1]], *row[2:]) for row in rows])
            target.conn.executemany("INSERT INTO sheet_identity VALUES (?, ?, ?)", [(kind, keys[kind][row[1]], row[0]) for row in rows])
    for mapping, (base, other) in END_KINDS.items():
        pairs = source.all(f"SELECT base_id, related_id FROM going JOIN {mapping} ON base_id = local_id WHERE kind = {base}")
        target.conn.executemany(f"INSERT INTO {mapping} VALUES (?, ?)", [(keys[base][old], keys[other][end]) for old, end in pairs])
        moved += [link_moved((mapping, names[base][old], names[other][end])) for old, end in pairs]
    return sorted(moved)


def take(store):
    """Deletes all that goes, links before items."""
    for mapping, (base, _) in END_KINDS.items():
        store.conn.execute(f"DELETE FROM {mapping} WHERE base_id IN (SELECT local_id FROM going WHERE kind = {base})")
    for kind, table in TABLES.items():
        store.conn.execute(f"DELETE FROM {table} WHERE id IN (SELECT local_id FROM going WHERE kind = {kind})")
    store.conn.execute("DELETE FROM sheet_identity WHERE (kind, local_id) IN (SELECT kind, local_id FROM going)")


def bring_receipts(source, target):
    for table, marks in (("sheet_receipts", 11), ("sheet_items", 7)):
        target.conn.executemany(f"INSERT INTO {table} VALUES (?{', ?' * (marks - 1)})", source.all(f"SELECT * FROM {table}"))
