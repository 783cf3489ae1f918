"""Whether the packages of a folder stand for one register, over stock SQLite and in plain Python: all that `sheetdesk audit` looks at.

`open_register` gives the live packages, or raises the first of the nine faults. Each table of each package is read once: its form and
its values by statements, its contents for their SHA-256, its receipts to carry all that they moved from package to package again.
"""

import os
import re
import sqlite3
from collections import Counter, defaultdict, namedtuple

import plain_sqlite
from machine.contents import ENDS, KINDS, fingerprint_of, size_of
from machine.frames import Frame
from plain_store import END_KINDS, KIND_NAMES, TABLES, Store

FILE_NAME = re.compile("([0-9a-f]{8}(-[0-9a-f]{4}){3}-[0-9a-f]{12})\\.gpkg")
NUMBERS = {kind: KINDS[name] for kind, name in KIND_NAMES.items()}

Receipt = namedtuple("Receipt", "seq request line source target sums stands items")


class Fault(Exception):
    """The argument is the fault's name."""


# Forms and ranges, by statements.

def columns_of(conn):
    """The columns of each table, by its name."""
    query = "SELECT m.name, c.name FROM sqlite_schema m, pragma_table_info(m.name) c WHERE m.type = 'table' ORDER BY m.name, c.cid"
    tables = defaultdict(list)
    for table, column in conn.execute(query):
        tables[table].append(column)
    return tables


def forms():
    conn = sqlite3.connect(":memory:")
    for statement in plain_sqlite.SCHEMA:
        conn.execute(statement)
    return {table: columns for table, columns in columns_of(conn).items() if not table.startswith("sqlite_")}


FORMS = forms()


def hexadecimal(count):
    return "[0-9a-f]" * count


UUID_GLOB = "-".join(map(hexadecimal, [8, 4, 4, 4, 12]))
DIGIT = "[0-9]"
MOMENT_GLOB = f"{DIGIT * 4}-{DIGIT * 2}-{DIGIT * 2}T{DIGIT * 2}:{DIGIT * 2}:{DIGIT * 2}.{DIGIT * 3}Z"


def no_moment(column):
    def part(first, low, high):
        return f"substr({column}, {first}, 2) NOT BETWEEN '{low:02}' AND '{high:02}'"

    parts = [part(6, 1, 12), part(9, 1, 31), part(12, 0, 23), part(15, 0, 59), part(18, 0, 59)]
    return f"({column} NOT GLOB '{MOMENT_GLOB}' OR {' OR '.join(parts)})"


def no_uuid(column):
    return f"{column} NOT GLOB '{UUID_GLOB}'"


def no_key(column):
    return f"{column} NOT BETWEEN 1 AND 1000000"


# What a row is that no package has.
BAD_ROWS = {
    "sheet_tiles": f"""{no_key('id')} OR length(tile_data) NOT BETWEEN 1 AND 1048576 OR NOT EXISTS (SELECT 1 FROM gpkg_tile_matrix m
        WHERE m.zoom_level = sheet_tiles.zoom_level AND tile_column BETWEEN 0 AND matrix_width - 1 AND tile_row BETWEEN 0 AND matrix_height - 1)""",
    "sheet_media": f"{no_key('id')} OR length(data) NOT BETWEEN 1 AND 1048576 OR length(content_type) NOT BETWEEN 1 AND 100 OR content_type GLOB '*[^ -~]*'",
    "sheet_rows": f"""{no_key('id')} OR code NOT BETWEEN 0 AND 999999 OR length(CAST(label AS BLOB)) > 200 OR instr(label, char(10)) > 0
        OR NOT EXISTS (SELECT 1 FROM gpkg_tile_matrix_set WHERE x >= min_x AND x < max_x AND y > min_y AND y <= max_y)""",
    **dict.fromkeys(END_KINDS, f"{no_key('base_id')} OR {no_key('related_id')}"),
    "sheet_identity": f"kind NOT BETWEEN 1 AND 3 OR {no_key('local_id')} OR {no_uuid('uuid')}",
    "sheet_receipts": f"""seq NOT BETWEEN 1 AND 1000000000 OR {no_uuid('request')} OR {no_moment('at')} OR (source <> '' AND {no_uuid('source')})
        OR (target <> '' AND {no_uuid('target')}) OR n_tiles < 0 OR n_media < 0 OR n_rows < 0 OR n_links < 0 OR n_bytes < 0""",
    "sheet_items": f"""kind NOT BETWEEN 1 AND 6 OR {no_uuid('base')} OR CASE WHEN kind < 4 THEN other <> '' OR fingerprint NOT GLOB '{hexadecimal(64)}'
        ELSE {no_uuid('other')} OR fingerprint <> '' END OR size < 0""",
    "gpkg_contents": no_moment("last_change"),
}
LOOSE_ITEMS = """SELECT 1 FROM (SELECT seq, count(*) AS n, max(position) AS last, min(position) AS first FROM sheet_items GROUP BY seq) i
    LEFT JOIN sheet_receipts r USING (seq) WHERE r.seq IS NULL OR first <> 0 OR last <> n - 1"""
DANGLING = [
    *(f"SELECT 1 FROM {table} LEFT JOIN sheet_identity n ON n.kind = {kind} AND n.local_id = id WHERE n.uuid IS NULL" for kind, table in TABLES.items()),
    *(f"SELECT 1 FROM sheet_identity n LEFT JOIN {table} ON id = local_id WHERE n.kind = {kind} AND id IS NULL" for kind, table in TABLES.items()),
    *(
        f"SELECT 1 FROM {mapping} LEFT JOIN {TABLES[base]} b ON b.id = base_id LEFT JOIN {TABLES[other]} o ON o.id = related_id WHERE b.id IS NULL OR o.id IS NULL"
        for mapping, (base, other) in END_KINDS.items()
    ),
]


# One file.

def head_of(conn):
    """The UUID, the parent, the depth and the loan of a package, or None of a store that is none."""
    if columns_of(conn).get("sheet_package") != FORMS["sheet_package"]:
        return None
    rows = conn.execute("SELECT * FROM sheet_package").fetchall()
    if len(rows) != 1:
        return None
    number, version, uuid, parent, depth, loan, _ = rows[0]
    is_uuid = re.compile(FILE_NAME.pattern.split("\\.")[0]).fullmatch
    is_archive = (parent, depth, loan) == ("", 0, 0)
    is_loan = is_uuid(parent) and 1 <= depth <= 4 and 1 <= loan <= 1_000_000_000
    moments = conn.execute(f"SELECT 1 FROM sheet_package WHERE {no_moment('created')}").fetchone()
    return (uuid, parent, depth, loan) if (number, version) == (1, 2) and is_uuid(uuid) and (is_archive or is_loan) and not moments else None


def opened(folder):
    """A store for each file whose name is a package's and that has a head; all files are opened."""
    stores = []
    for name in sorted(os.listdir(folder)):
        path = os.path.join(folder, name)
        # An empty file has no head, and is left so: SQLite would make a database of it.
        if FILE_NAME.fullmatch(name) and not (os.path.isfile(path) and os.path.getsize(path) == 0):
            conn = plain_sqlite.connect(path)
            head = head_of(conn)
            if head is None:
                conn.close()
            else:
                stores.append(Store(conn, head))
    return stores


def claims_of(store):
    """Which loans were made here and which came home, by the number of the receipt."""
    columns = columns_of(store.conn)
    if columns.get("sheet_receipts") != FORMS["sheet_receipts"]:
        return [], []
    rows = store.all("SELECT seq, source, target, line FROM sheet_receipts WHERE line GLOB 'split *' OR line GLOB 'merge *'")
    splits = [(target, seq) for seq, _, target, line in rows if line.startswith("split ") and target]
    return splits, [(source, seq) for seq, source, _, line in rows if line.startswith("merge ")]


def frame_of(store):
    """The frame of the fixed rows, or None where they are those of no good frame."""
    sets, levels = store.all("SELECT * FROM gpkg_tile_matrix_set"), store.all("SELECT * FROM gpkg_tile_matrix ORDER BY zoom_level")
    if len(sets) != 1 or not levels:
        return None
    _, first_zoom, columns, rows, width, height, _, _ = levels[0]
    frame = Frame(*sets[0][1:], width, height, first_zoom, len(levels), columns, rows)
    if not frame.is_good():
        return None
    for table, wanted in plain_sqlite.fixed_rows(frame, "").items():
        names = ", ".join("''" if name == "last_change" else name for name in FORMS[table])
        if sorted(store.all(f"SELECT {names} FROM {table}")) != sorted(wanted):
            return None
    return frame


def is_formed(store):
    columns = columns_of(store.conn)
    if any(columns.get(table) != form for table, form in FORMS.items()) or frame_of(store) is None:
        return False
    if any(store.one(f"SELECT 1 FROM {table} WHERE {bad}") for table, bad in BAD_ROWS.items()):
        return False
    return store.one(LOOSE_ITEMS) is None


def holdings_of(store):
    """Each item with its size and fingerprint, and each link."""
    held = {}
    for kind, table in TABLES.items():
        query = f"SELECT uuid, {table}.* FROM sheet_identity JOIN {table} ON id = local_id WHERE kind = {kind}"
        for uuid, *row in store.conn.execute(query):
            item = store.as_item(kind, row)
            held[kind, uuid, ""] = size_of(item), fingerprint_of(item)
    held.update({(KINDS[mapping], *ends): (0, "") for mapping, *ends in store.links()})
    return held


def receipts_of(store):
    items = defaultdict(list)
    for seq, *thing in store.conn.execute("SELECT seq, kind, base, other, size, fingerprint FROM sheet_items ORDER BY seq, position"):
        items[seq].append(tuple(thing))
    for seq, request, line, source, target, *sums in store.conn.execute(
        "SELECT seq, request, line, source, target, n_tiles, n_media, n_rows, n_links, n_bytes FROM sheet_receipts"
    ):
        yield Receipt(seq, request, line, source, target, tuple(sums), store.uuid, items[seq])


# All receipts together.

def sums_of(things):
    """Tiles, media, rows, links and bytes of things as a receipt has them."""
    counts = Counter(min(thing[0], 4) for thing in things)
    return *(counts[kind] for kind in (1, 2, 3, 4)), sum(thing[3] for thing in things)


def fits(receipt):
    """Whether a receipt is one that its line may leave."""
    word, *rest = receipt.line.split(" ")
    things, ends = receipt.items, (receipt.source, receipt.target)
    if sums_of(things) != receipt.sums or things != sorted(things):
        return False
    if word in ("split", "merge"):
        return ends == tuple(rest[:2]) and len(rest) == (8 if word == "split" else 3)
    if len(things) != 1:
        return False
    kind, base, other, size, fingerprint = things[0]
    if word == "add" and len(rest) == 5:
        package, identity, name, told, digest = rest
        return ends == ("", package) and (kind, base, str(size), fingerprint) == (KINDS.get(name), identity, told, digest)
    if word == "delete":
        return ends == (rest[0], "") and kind < 4 and rest[1:] == [base]
    if word not in ("link", "unlink") or len(rest) != 4 or rest[0] not in ENDS:
        return False
    mapping, package, *named = rest
    return kind == KINDS[mapping] and [base, other] == named and ends == (("", package) if word == "link" else (package, ""))


def account(receipts, archive):
    """Where everything stands after all receipts, the sums of each package, its receipts, and what is said of each identity."""
    where, facts, sums = {}, {}, defaultdict(lambda: [0] * 5)
    stands, requests, lent = defaultdict(list), set(), {archive}
    for number, receipt in enumerate(receipts, 1):
        if receipt.seq != number or receipt.request in requests or not fits(receipt):
            raise Fault("OutOfAccount")
        requests.add(receipt.request)
        command = receipt.line.split(" ", 1)[0]
        if command == "split":
            if receipt.target in lent:
                raise Fault("OutOfAccount")
            lent.add(receipt.target)
        for kind, base, other, *fact in receipt.items:
            if where.get((kind, base, other), "") != receipt.source or (kind < 4 and facts.setdefault(base, fact) != fact):
                raise Fault("OutOfAccount")
            if command == "add" and (kind, base, other) in where:
                raise Fault("OutOfAccount")
            where[kind, base, other] = receipt.target
        for package, sign in ((receipt.source, -1), (receipt.target, 1)):
            sums[package] = [before + sign * more for before, more in zip(sums[package], receipt.sums)]
        if command == "merge":
            stands[receipt.target] += stands.pop(receipt.source, [])
        at_home = receipt.target if command in ("merge", "add", "link") else receipt.source
        stands[at_home].append(number)
    return where, sums, stands, facts


def judge(stores, archive):
    """Faults 8 and 9, of the live packages."""
    receipts = sorted(receipt for store in stores for receipt in receipts_of(store))
    where, sums, stands, facts = account(receipts, archive)
    held = {store.uuid: holdings_of(store) for store in stores}
    for uuid in {*held, *sums, *stands} - {""}:
        things = [(*thing, *fact) for thing, fact in held.get(uuid, {}).items()]
        if tuple(sums[uuid]) != sums_of(things) or sorted(stands[uuid]) != [each.seq for each in receipts if each.stands == uuid]:
            raise Fault("OutOfAccount")
    standing = {(uuid, *thing) for uuid, things in held.items() for thing in things}
    if standing != {(package, *thing) for thing, package in where.items() if package}:
        raise Fault("OutOfAccount")
    if any(list(fact) != facts[base] for things in held.values() for (kind, base, _), fact in things.items() if kind < 4):
        raise Fault("Altered")
    return receipts


# The register.

def reached_from(root, stores):
    """The live stores, and the open splits of all of them, each with the store where it stands."""
    reached = [root]
    for _ in stores:
        claims = [(store, *claims_of(store)) for store in reached]
        merged = [merge for _, _, merges in claims for merge in merges]
        splits = [
            (store, target, seq) for store, made, _ in claims for target, seq in made
            if not any(source == target and later > seq for source, later in merged)
        ]
        named = {(target, seq) for _, target, seq in splits}
        now = [root] + [store for store in stores if store is not root and (store.uuid, store.loan) in named]
        if now == reached:
            break
        reached = now
    return reached, splits


def open_register(folder):
    """The archive, the live packages by their UUIDs, the frame and the number of receipts. Raises a Fault."""
    try:
        stores = opened(folder)
        roots = [store for store in stores if store.depth == 0]
        if len(roots) != 1:
            raise Fault("TwoArchives" if roots else "NoArchive")
        reached, splits = reached_from(roots[0], stores)
        if not all(map(is_formed, reached)):
            raise Fault("NotAPackage")
        copies = Counter((store.uuid, store.loan) for store in reached)
        if any(copies[target, seq] > 1 for _, target, seq in splits):
            raise Fault("TwoCopies")
        if any(copies[target, seq] == 0 for _, target, seq in splits):
            raise Fault("MissingPackage")
        frame = frame_of(roots[0])
        lender = {(target, seq): (store.uuid, store.depth + 1) for store, target, seq in splits}
        loans = [store for store in reached if store is not roots[0]]
        if any(frame_of(store) != frame or lender[store.uuid, store.loan] != (store.parent, store.depth) for store in loans):
            raise Fault("ForeignFrame")
        if any(store.one(query) for store in reached for query in DANGLING):
            raise Fault("Dangling")
        receipts = judge(reached, roots[0].uuid)
    except sqlite3.Error as error:
        raise Fault("StoreFault") from error
    for store in stores:
        if store not in reached:
            store.conn.close()
    live = {store.uuid: store for store in reached}
    for receipt in receipts:
        for package in {receipt.source, receipt.target} & live.keys():
            live[package].ticket = receipt.seq
    return roots[0].uuid, live, frame, len(receipts)
