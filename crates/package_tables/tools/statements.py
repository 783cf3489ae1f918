#!/usr/bin/env python3
"""Writes what is alike in the proofs of the statements: proofs/*Statements.antt, and the answer file of each function.
Run it in the crate's folder, and then rt fmt and rt tidy. The Rust functions are written by hand; each takes the arguments of its
statement in the order of the parameters."""
import os

# a table: its module of src, its list of specs/Listed, shape, constant, type of row, word of a row as shown,
# whether its key is the rowid, its columns, the columns by which all rows are read, and its statements:
#   deletes: (function, columns)      finds: (statement, columns, forms)      alls: function
#   ranges: (statement, (column, comparison, parameter) ..), of numbers alone: all rows that pass, in any order
#   greatest: (function, column, columns), the greatest of a column where the others have these values
#   ids: the function of all numbers; has: (function, columns), whether a row is there; id_ranges: as ranges, the numbers of the rows
# The form of a find at rest has the name of its statement; the one inside a transaction has `_inside` after it.
# The mapping tables have no functions here, but the facts alone: each function of src/mappings.rt serves all, and its
# answers, which cite the facts of all by proofs/Mappings.antt, are written by hand.
INT, TEXT, BLOB = "int", "text", "blob"
REST, INSIDE = "", "_inside"
TABLES = [
    dict(file="TileStatements", module="tiles", list="tiles", shape="tile_shape", table="sheet_tiles", row="TileRow", shown="tile_shown", keyed=True,
         columns=[("id", INT), ("zoom_level", INT), ("tile_column", INT), ("tile_row", INT), ("tile_data", BLOB)], by=["id"],
         insert="insert_tile", delete=("delete_tile", ["id"]), finds=[("tile_by_id", ["id"], [REST]), ("tile_at", ["zoom_level", "tile_column", "tile_row"], [REST])],
         ranges=[("tiles_between", [("zoom_level", "=", "zoom_level"), ("tile_column", ">=", "first_column"), ("tile_column", "<=", "last_column"), ("tile_row", ">=", "first_row"), ("tile_row", "<=", "last_row")])], all="all_tiles",
         ids="tile_ids", has=[("has_tile", ["id"]), ("has_tile_at", ["zoom_level", "tile_column", "tile_row"])],
         id_ranges=[("tile_ids_between", [("zoom_level", "=", "zoom_level"), ("tile_column", ">=", "first_column"), ("tile_column", "<=", "last_column"), ("tile_row", ">=", "first_row"), ("tile_row", "<=", "last_row")])]),
    dict(file="MediumStatements", module="media", list="media", shape="medium_shape", table="sheet_media", row="MediaRow", shown="medium_shown", keyed=True,
         columns=[("id", INT), ("data", BLOB), ("content_type", TEXT)], by=["id"],
         insert="insert_medium", delete=("delete_medium", ["id"]), finds=[("medium_by_id", ["id"], [REST])], all="all_media",
         ids="medium_ids", has=[("has_medium", ["id"])]),
    dict(file="AttributeStatements", module="attributes", list="attributes", shape="attribute_shape", table="sheet_rows", row="AttributeRow", shown="attribute_shown", keyed=True,
         columns=[("id", INT), ("x", INT), ("y", INT), ("code", INT), ("label", TEXT)], by=["id"],
         insert="insert_attribute", delete=("delete_attribute", ["id"]), finds=[("attribute_by_id", ["id"], [REST])],
         ranges=[("attributes_within", [("x", ">=", "west"), ("x", "<", "east"), ("y", ">", "south"), ("y", "<=", "north")])], all="all_attributes",
         ids="attribute_ids", has=[("has_attribute", ["id"])],
         id_ranges=[("attribute_ids_within", [("x", ">=", "west"), ("x", "<", "east"), ("y", ">", "south"), ("y", "<=", "north")])]),
    dict(file="TilesMediaStatements", list="TilesMedia", shape="tiles_media_shape", table="tiles_media", row="MappingRow", shown="mapping_shown", keyed=False,
         columns=[("base_id", INT), ("related_id", INT)], by=["base_id", "related_id"],
         delete=(None, ["base_id", "related_id"]),
         finds=[("of_ends", ["base_id", "related_id"], []), ("of_base", ["base_id"], []), ("of_related", ["related_id"], [])]),
    dict(file="RowsMediaStatements", list="RowsMedia", shape="rows_media_shape", table="rows_media", row="MappingRow", shown="mapping_shown", keyed=False,
         columns=[("base_id", INT), ("related_id", INT)], by=["base_id", "related_id"],
         delete=(None, ["base_id", "related_id"]),
         finds=[("of_ends", ["base_id", "related_id"], []), ("of_base", ["base_id"], []), ("of_related", ["related_id"], [])]),
    dict(file="RowsTilesStatements", list="RowsTiles", shape="rows_tiles_shape", table="rows_tiles", row="MappingRow", shown="mapping_shown", keyed=False,
         columns=[("base_id", INT), ("related_id", INT)], by=["base_id", "related_id"],
         delete=(None, ["base_id", "related_id"]),
         finds=[("of_ends", ["base_id", "related_id"], []), ("of_base", ["base_id"], []), ("of_related", ["related_id"], [])]),
    dict(file="IdentityStatements", module="identities", list="identities", shape="identity_shape", table="sheet_identity", row="IdentityRow", shown="identity_shown", keyed=False,
         columns=[("kind", INT), ("local_id", INT), ("uuid", TEXT)], by=["kind", "local_id"],
         insert="insert_identity", delete=("delete_identity", ["kind", "local_id"]),
         finds=[("identity_by_uuid", ["uuid"], [REST, INSIDE]), ("identity_by_key", ["kind", "local_id"], [REST, INSIDE])], all="all_identities",
         greatest=("greatest_local_id", "local_id", ["kind"])),
]

RESERVED = {"data", "package", "in", "as"}
EQUALITY = "(_, _, _, _, refl, refl, refl, refl, refl, refl, refl)"
VALUE = {INT: "Int", TEXT: "Text", BLOB: "Blob"}
TYPE = {INT: "ℤ", TEXT: "List ℕ", BLOB: "List ℕ"}
SAME = {INT: "same_number", TEXT: "same_text"}
EQUAL = {INT: "int_eq", TEXT: "bytes_eq"}


def listed(t):
    """the list of a table, and the lemma that it meets what a list has to"""
    return (t["list"], "%s_listed" % t["list"]) if "module" in t else ("(pairs %s)" % t["list"], "pairs_listed %s" % t["list"])


def quoted(name):
    return "«%s»" % name if name in RESERVED else name


def kind_of(t, column):
    return dict(t["columns"])[column]


def number(t, column):
    return [name for name, _ in t["columns"]].index(column)


def place(t, column):
    k = number(t, column)
    return 0 if t["keyed"] and k == 0 else k + 1


def nested(join, parts):
    out = parts[0]
    for part in parts[1:]:
        out = join(out, part)
    return out


def test_of(t, columns):
    return nested(lambda a, b: "(both %s %s)" % (a, b), ["(equals %d %d)" % (number(t, c), j) for j, c in enumerate(columns)])


def condition(columns):
    return "(_, refl, %s)" % nested(lambda a, b: "(_, _, refl, %s, %s)" % (a, b), [EQUALITY for _ in columns])


def where(columns):
    return " AND ".join("%s = ?%d" % (c, j + 1) for j, c in enumerate(columns))


def keeps(t, columns, var):
    return " && ".join("%s %s.%s %s" % (EQUAL[kind_of(t, c)], var, c, c) for c in columns)


def same(t, columns, var):
    return nested(lambda a, b: "(both_same %s %s)" % (a, b), ["(%s %s.%s %s)" % (SAME[kind_of(t, c)], var, c, c) for c in columns])


def bound(t, columns):
    return "".join("%s %s ∷ " % (VALUE[kind_of(t, c)], c) for c in columns) + "[]"


def arguments(t, columns):
    return " ".join("(%s : %s)" % (c, TYPE[kind_of(t, c)]) for c in columns)


def text_of(name, text, t, test, by, head):
    return [
        "",
        "%s_text : (spelling : Spelling) → IsSelect (codes \"%s\") (spelled %s spelling) %s %s" % (name, text, t["table"], test, by),
        "unfolding everything",
        "%s_text spelling = record {" % name,
        "  parse = _;", "  asks = _;", "  src = _;", "  item = _;", "  parsed = refl;", "  statement = refl;", "  formats = refl;",
        "  one = one_table %s;" % " ".join(["refl"] * 15),
        "  condition = %s;" % head,
        "  enough = refl;", "  few = λ at. refl;", "  some = λ at. refl;", "  sorted = λ schema at. (_, refl, refl);",
        "}",
        "",
        "%s_plan : (spelling : Spelling) → IsPlannedSelect (spelled %s spelling) %s %s" % (name, t["table"], test, by),
        "unfolding resolving",
        "%s_plan spelling schema at h = rw (h.stored, h.by_tree) refl" % name,
    ]


def read_record(name, passing):
    return "record { test = _; by = _; selects = %s_text; planned = %s_plan; given = refl; listing = _; is = λ spelling. refl; shows = λ v x. refl; passing = %s }" % (name, name, passing)


def select_text(t, columns):
    return "SELECT * FROM %s WHERE %s" % (t["table"], where(columns))


def all_text(t):
    return "SELECT * FROM %s ORDER BY %s" % (t["table"], ", ".join(t["by"]))


def order_of(t):
    return nested(lambda a, b: "(then_cmp %s %s)" % (a, b), ["(on (λ x. x.%s) int_cmp)" % c for c in t["by"]])


def ranked(t):
    one = ["x.%s y.%s" % (c, c) for c in t["by"]]
    return [
        "",
        "pub all_ranked : IsRanked all %s" % order_of(t),
        "unfolding all",
        "all_ranked = record { keys = λ x. %s[]; keyed = λ v x. refl; total = %s; alike = λ x y. %s %s }"
        % (
            "".join("Int x.%s ∷ " % c for c in t["by"]),
            nested(lambda a, b: "then_total %s %s" % (a, b), ["(on_total (λ x. x.%s) int_cmp_total)" % c for c in t["by"]]),
            "one_number" if len(one) == 1 else "two_numbers",
            " ".join(one),
        ),
    ]


# a comparison: its word, the fact of it, and the test, where {x} is the value of the row and {p} the parameter
COMPARED = {
    "=": (None, "same_number", "int_eq {x} {p}"),
    ">=": ("Ge", "at_least", "int_le {p} {x}"),
    "<=": ("Le", "at_most", "int_le {x} {p}"),
    ">": ("Gt", "above", "int_lt {p} {x}"),
    "<": ("Lt", "below", "int_lt {x} {p}"),
}


def range_text(t, tests):
    return "SELECT * FROM %s WHERE %s" % (t["table"], " AND ".join("%s %s ?%d" % (c, op, j + 1) for j, (c, op, _) in enumerate(tests)))


def range_facts(t, name, tests):
    def one(j, c, op):
        word = COMPARED[op][0]
        return "(equals %d %d)" % (number(t, c), j) if word is None else "(compares %s %d %d)" % (word, number(t, c), j)

    test = nested(lambda a, b: "(both %s %s)" % (a, b), [one(j, c, op) for j, (c, op, _) in enumerate(tests)])
    parameters = [p for _, _, p in tests]
    kept = " && ".join(COMPARED[op][2].format(x="x." + c, p=p) for c, op, p in tests)
    alike = nested(lambda a, b: "(both_same %s %s)" % (a, b), ["(%s x.%s %s)" % (COMPARED[op][1], c, p) for c, op, p in tests])
    return text_of(name, range_text(t, tests), t, test, "[]", condition(parameters)) + [
        "",
        "pub %s : %s → IsLookUp %s %s (codes \"%s\") (%s[]) (λ x. %s)"
        % (name, " ".join("(%s : ℤ)" % p for p in parameters), t["shape"], t["shown"], range_text(t, tests), "".join("Int %s ∷ " % p for p in parameters), kept),
        "%s %s = %s" % (name, " ".join(parameters), read_record(name, "λ v x. " + alike)),
    ]


# ---- the numbers of rows, and whether a row is there: `SELECT id ..`, with no order, so that an index which has the columns
# that are read stands for the table


def ids_text(t, tests):
    where_part = " WHERE " + " AND ".join("%s %s ?%d" % (c, op, j + 1) for j, (c, op, _) in enumerate(tests)) if tests else ""
    return "SELECT %s FROM %s%s" % (t["columns"][0][0], t["table"], where_part)


def ids_facts(t, name, tests):
    def one(j, c, op):
        word = COMPARED[op][0]
        return "(equals %d %d)" % (number(t, c), j) if word is None else "(compares %s %d %d)" % (word, number(t, c), j)

    key = t["columns"][0][0]
    text = ids_text(t, tests)
    parameters = [p for _, _, p in tests]
    test = nested(lambda a, b: "(both %s %s)" % (a, b), [one(j, c, op) for j, (c, op, _) in enumerate(tests)]) if tests else "always"
    kept = " && ".join(COMPARED[op][2].format(x="x." + c, p=p) for c, op, p in tests) if tests else "true"
    alike = nested(lambda a, b: "(both_same %s %s)" % (a, b), ["(%s x.%s %s)" % (COMPARED[op][1], c, p) for c, op, p in tests]) if tests else "refl"
    over = "".join("(%s : ℤ) " % p for p in parameters)
    return [
        "",
        "%s_text : (spelling : Spelling) → IsNamed (codes \"%s\") (spelled %s spelling) (0 ∷ []) %s [] all_rows" % (name, text, t["table"], test),
        "unfolding everything",
        "%s_text spelling = record {" % name,
        "  parse = _;", "  asks = _;", "  src = _;", "  items = _;", "  parsed = refl;", "  statement = refl;", "  formats = refl;",
        "  one = over_table %s;" % " ".join(["refl"] * 12),
        "  paged = λ schema. refl;",
        "  columns = ((_, _, refl, (_, _, refl, refl, refl)), tt);",
        "  condition = %s;" % (condition(parameters) if tests else "refl"),
        "  orders = tt;",
        "  enough = refl;",
        "}",
        "",
        "%s_plan : (spelling : Spelling) → IsPlannedNamed (spelled %s spelling) (0 ∷ []) %s [] all_rows" % (name, t["table"], test),
        "unfolding resolving",
        "%s_plan spelling schema at h = rw (h.stored, h.by_tree) refl" % name,
        "",
        "pub %s : %sIsNumbering %s (λ x. x.%s) (codes \"%s\") %s (λ x. %s)"
        % (name, over + "→ " if tests else "", t["shape"], key, text, "(%s[])" % "".join("Int %s ∷ " % p for p in parameters) if tests else "[]", kept),
        "%s = record { test = _; project = _; by = _; asked = λ spelling. asked_named (%s_text spelling) (%s_plan spelling); given = refl; listing = _; is = λ spelling. refl; shows = λ v x. refl; passing = λ v x. %s }"
        % (" ".join([name] + parameters), name, name, alike),
    ]


def equalities(columns):
    return [(c, "=", c) for c in columns]


def ids_answer(t, function, name, tests, lemma, said, clause, more):
    parameters = [p for _, _, p in tests]
    read = "(%s)" % " ".join([name] + ["c.args.%s" % p for p in parameters]) if parameters else name
    bound_so = "(rw (%s) (simp (to_z-of_z, %s) refl))" % (to_sql(len(parameters)), ", ".join("c.ranges.%s" % p for p in parameters)) if parameters else "refl"
    return [
        "use Rattle.std.proofs.Common.{refl, to_z-of_z}",
        "use Rattle.package_tables.proofs.Numbering.{%s}" % lemma,
        "use Rattle.package_tables.proofs.Written.{%s_listed}" % t["list"],
        "use Rattle.package_tables.proofs.%s.{%s}" % (t["file"], name),
        "use Rattle.package_tables.proofs.%s.%s.Goals as goal" % (t["module"], function),
        "",
        "pub returns : goal.returns",
        "returns g c =",
        "    let e = c.query_all.ensures in",
        "    %s %s_listed %s (λ rows. rows.items) _ %s g.S.Store g.met.S.Store.shut_if_dirty g.met.S.Store.settled" % (lemma, t["list"], read, bound_so),
        "    c.args.conn.now c.query_all.new.self c.requires c.query_all.result e.ok e.err e.mode e.survives %sc.%s.result c.%s.ensures.%s" % (more, said, said, clause),
    ]


def range_answer(t, name, tests):
    parameters = [p for _, _, p in tests]
    return [
        "use Rattle.std.proofs.Common.{refl, to_z-of_z}",
        "use Rattle.package_tables.proofs.Looking.{looks_all}",
        "use Rattle.package_tables.proofs.%s.{known, %s}" % (t["file"], name),
        "use Rattle.package_tables.proofs.%s.%s.Goals as goal" % (t["module"], name),
        "",
        "pub returns : goal.returns",
        "returns g c =",
        "    let e = c.query_all.ensures in",
        "    looks_all known (%s %s) (λ rows. rows.items) _ (rw (%s) (simp (to_z-of_z, %s) refl)) g.S.Store g.met.S.Store.shut_if_dirty g.met.S.Store.settled"
        % (name, " ".join("c.args.%s" % p for p in parameters), to_sql(len(parameters)), ", ".join("c.ranges.%s" % p for p in parameters)),
        "    c.args.conn.now c.query_all.new.self c.requires c.query_all.result e.ok e.err e.mode e.survives (λ found. found.items) c.all_of.result c.all_of.ensures.values",
    ]


def newest_text(t):
    _, column, columns = t["greatest"]
    return "SELECT %s FROM %s WHERE %s ORDER BY %s DESC LIMIT 1" % (column, t["table"], where(columns), column)


def newest_facts(t):
    _, column, columns = t["greatest"]
    shown = "(%d ∷ [])" % number(t, column)
    test = test_of(t, columns)
    by = "((col 1 %d, descending) ∷ [])" % place(t, column)
    return [
        "",
        "newest_text : (spelling : Spelling) → IsNamed (codes \"%s\") (spelled %s spelling) %s %s %s one_row" % (newest_text(t), t["table"], shown, test, by),
        "unfolding everything",
        "newest_text spelling = record {",
        "  parse = _;", "  asks = _;", "  src = _;", "  items = _;", "  parsed = refl;", "  statement = refl;", "  formats = refl;",
        "  one = over_table %s;" % " ".join(["refl"] * 12),
        "  paged = λ schema. refl;",
        "  columns = ((_, _, refl, (_, _, refl, refl, refl)), tt);",
        "  condition = %s;" % condition(columns),
        "  orders = ((_, (_, _, refl, refl, refl), refl, refl), tt);",
        "  enough = refl;",
        "}",
        "",
        "newest_plan : (spelling : Spelling) → IsPlannedNamed (spelled %s spelling) %s %s %s one_row" % (t["table"], shown, test, by),
        "unfolding resolving",
        "newest_plan spelling schema at h = rw (h.stored, h.by_tree) refl",
        "",
        "pub newest : %s → IsNewest %s (λ x. x.%s) (codes \"%s\") (%s) (λ x. %s)" % (arguments(t, columns), t["shape"], column, newest_text(t), bound(t, columns), keeps(t, columns, "x")),
        "newest %s = record { test = _; project = _; by = _; asked = λ spelling. asked_named (newest_text spelling) (newest_plan spelling); given = refl; pass = _; shown = _; place = %d; is = λ spelling. refl; passing = λ v x. %s; begins = λ v x. refl; keyed = λ v x. refl }"
        % (" ".join(columns), place(t, column), same(t, columns, "x")),
    ]


def newest_answer(t):
    function, _, columns = t["greatest"]
    return [
        "use Rattle.std.proofs.Common.{refl, to_z-of_z}",
        "use Rattle.sqlite.specs.Held.{state}",
        "use Rattle.package_tables.proofs.Newest.{tells_greatest}",
        "use Rattle.package_tables.proofs.%s.{known, newest}" % t["file"],
        "use Rattle.package_tables.proofs.%s.%s.Goals as goal" % (t["module"], function),
        "",
        "pub returns-clause-told : goal.returns-clause-told",
        "returns-clause-told g c =",
        "    let e = c.query_all.ensures in",
        "    tells_greatest known (newest %s) (λ rows. rows.items) _ %s" % (passed(t, columns), given(t, columns)),
        "    (state g.S.Store c.args.tx.now.conn.now) (state g.S.Store c.query_all.new.self.conn.now) c.query_all.result e.ok e.err c.number_of.result c.number_of.ensures.number",
    ]


def insert_text(t):
    return "INSERT INTO %s VALUES (%s)" % (t["table"], ", ".join("?%d" % (j + 1) for j in range(len(t["columns"]))))


def delete_text(t, columns):
    return "DELETE FROM %s WHERE %s" % (t["table"], where(columns))


def stored(t):
    return "%s.stored Null row" % t["shape"] if t["keyed"] else "%s.stored (Int (next_rowid there)) row" % t["shape"]


def statements(t):
    out = [
        "-- The statements on `%s`. Written by tools/statements.py." % t["table"],
        "use Rattle.std.proofs.Common.{◌≡◌, ℕ, ℤ, List, [], ◌∷◌, Bool, true, codes, refl}",
        "use Rattle.std.specs.Prelude.{◌&&◌, bytes_eq, int_le, int_lt}",
        "use Rattle.std.specs.Ordering.{int_eq, int_cmp, on, then_cmp}",
        "use Rattle.sqlite_sql.specs.declared.ops.CompareOp.TheVariants.{Ge, Le, Gt, Lt}",
        "use Rattle.std.proofs.lemmas.Cmp.{on_total, then_total, int_cmp_total}",
        "use Rattle.sqlite.specs.Order.{Row}",
        "use Rattle.sqlite.specs.Term.{col}",
        "use Rattle.sqlite.specs.Edit.{next_rowid}",
        "use Rattle.sqlite.specs.declared.types.Value.TheVariants.{Int, Null, Text, Blob}",
        "use Rattle.sqlite_tied.specs.Compute.{everything}",
        "use Rattle.store_sql.specs.Resolving.{resolving}",
        "use Rattle.store_sql.specs.Reading.{always, equals, compares, both, ascending, descending}",
        "use Rattle.store_sql.proofs.Insert.{IsInsert, IsRow}",
        "use Rattle.store_sql.proofs.Delete.{IsDelete, IsPlannedDelete}",
        "use Rattle.store_sql.proofs.Resolve.{one_table, over_table, all_rows}",
        "use Rattle.store_sql.proofs.Select.{IsSelect, IsPlannedSelect, IsNamed, IsPlannedNamed, asked_named}",
        "use Rattle.store_sql.proofs.First.{one_row}",
        "use Rattle.package_tables.specs.Tables.{%s}" % t["table"],
        "use Rattle.package_tables.specs.Shapes.{%s, int_at, text_at, blob_at}" % t["shape"],
        "use Rattle.sheet_types.specs.declared.command.Mapping.TheVariants.{TilesMedia, RowsMedia, RowsTiles}",
        "use Rattle.package_tables.specs.Listed.{%s}" % (t["list"] if "module" in t else "pairs"),
        "use Rattle.package_tables.specs.Shown.{%s}" % t["shown"],
        "use Rattle.package_tables.specs.declared.rows.%s.{%s}" % (t["row"], t["row"]),
        "use Rattle.package_tables.proofs.Looking.{IsKnown, IsLookUp, IsRanked}",
        "use Rattle.package_tables.proofs.Newest.{IsNewest}",
        "use Rattle.package_tables.proofs.Numbering.{IsNumbering}",
        "use Rattle.package_tables.proofs.Ranking.{one_number, two_numbers}",
        "use Rattle.package_tables.proofs.Values.{same_number, same_text, at_least, at_most, above, below, both_same}",
        "use Rattle.package_tables.proofs.Written.{%s}" % listed(t)[1].split()[0],
        "",
        "pub insert_text : (spelling : Spelling) → IsInsert (codes \"%s\") (spelled %s spelling)" % (insert_text(t), t["table"]),
        "unfolding everything",
        "insert_text spelling = record { parse = _; rows = _; parsed = refl; statement = refl; formats = refl; named = refl; unstamped = refl; source = λ schema. refl }",
        "",
        "pub insert_row : (row : %s) (spelling : Spelling) (there : List Row)" % t["row"],
        "    → IsRow (spelled %s spelling) (%s[]) there (%s)" % (t["table"], "".join("%s row.%s ∷ " % (VALUE[k], c) for c, k in t["columns"]), stored(t)),
        "insert_row row spelling there = record { source = _; laid = refl; kinds = refl; placed = λ top. refl }",
    ]
    _, columns = t["delete"]
    out += [
        "",
        "pub delete_text : (spelling : Spelling) → IsDelete (codes \"%s\") (spelled %s spelling) %s" % (delete_text(t, columns), t["table"], test_of(t, columns)),
        "unfolding everything",
        "delete_text spelling = record { parse = _; where' = _; parsed = refl; statement = refl; formats = refl; named = refl; condition = %s; enough = refl }" % condition(columns),
        "",
        "pub delete_plan : (spelling : Spelling) → IsPlannedDelete (spelled %s spelling) %s" % (t["table"], test_of(t, columns)),
        "unfolding resolving",
        "delete_plan spelling schema at h = rw (h.stored, h.by_tree) refl",
        "",
        "pub known : IsKnown %s %s" % (listed(t)[0], t["shown"]),
        "known = record { is = %s; back = λ r. record { %s }; returns = λ x. refl }"
        % (listed(t)[1], "; ".join("%s = %s_at r %d" % (quoted(c), k, j) for j, (c, k) in enumerate(t["columns"]))),
    ]
    for name, columns, _ in t["finds"]:
        out += text_of(name, select_text(t, columns), t, test_of(t, columns), "[]", condition(columns))
        out += [
            "",
            "pub %s : %s → IsLookUp %s %s (codes \"%s\") (%s) (λ x. %s)" % (name, arguments(t, columns), t["shape"], t["shown"], select_text(t, columns), bound(t, columns), keeps(t, columns, "x")),
            "%s %s = %s" % (name, " ".join(columns), read_record(name, "λ v x. " + same(t, columns, "x"))),
        ]
    for name, tests in t.get("ranges", []):
        out += range_facts(t, name, tests)
    by = "(%s[])" % "".join("(col 1 %d, ascending) ∷ " % place(t, c) for c in t["by"])
    out += text_of("all", all_text(t), t, "always", by, "refl")
    out += ["", "pub all : IsLookUp %s %s (codes \"%s\") [] (λ x. true)" % (t["shape"], t["shown"], all_text(t)), "all = %s" % read_record("all", "λ v x. refl")]
    out += ranked(t)
    if "greatest" in t:
        out += newest_facts(t)
    if "ids" in t:
        out += ids_facts(t, "ids", [])
    for name, columns in t.get("has", []):
        out += ids_facts(t, name, equalities(columns))
    for name, tests in t.get("id_ranges", []):
        out += ids_facts(t, name, tests)
    return "\n".join(out) + "\n"


def to_sql(count):
    return ", ".join("c.params-to_sql%s.ensures" % ("" if j == 0 else "-%d" % (j + 1)) for j in range(count))


def ranges(t, columns):
    numbers = ["c.ranges.%s" % c for c in columns if kind_of(t, c) == INT]
    return "(to_z-of_z, %s)" % ", ".join(numbers) if numbers else None


def given(t, columns):
    if not columns:
        return "refl"
    r = ranges(t, columns)
    return "(rw (%s) %s)" % (to_sql(len(columns)), "(simp %s refl)" % r if r else "refl")


def passed(t, columns):
    """the arguments of a function, as values"""
    return " ".join("c.args.%s" % (quoted(c) if False else c) + (".now" if kind_of(t, c) != INT else "") for c in columns)


def ran(t, columns):
    r = ranges(t, columns)
    inner = "rw (%s) at (c.execute.ensures.runs clean begun)" % to_sql(len(columns))
    return "(simp %s at (%s))" % (r, inner) if r else "(%s)" % inner


STATES = [
    "    let a = c.args in",
    "    let old = state g.S.Store a.tx.now.conn.now in",
    "    let new = state g.S.Store c.execute.new.self.conn.now in",
]


def insert_answer(t):
    names = [c for c, _ in t["columns"]]
    fields = "; ".join("%s = a.%s%s" % (quoted(c), c, "" if k == INT else ".now") for c, k in t["columns"])
    laid = "(Int (pos 0), refl, refl)" if t["keyed"] else "(Int (next_rowid there), refl, refl)"
    return [
        "use Rattle.std.proofs.Common.{pos, refl, to_z-of_z}",
        "use Rattle.sqlite.specs.Held.{state}",
        "use Rattle.sqlite.specs.Edit.{next_rowid}",
        "use Rattle.sqlite.specs.declared.types.Value.TheVariants.{Int}",
        "use Rattle.package_tables.specs.declared.rows.%s.{%s}" % (t["row"], t["row"]),
        "use Rattle.package_tables.proofs.Making.{enters}",
        "use Rattle.package_tables.proofs.%s.{insert_text, insert_row}" % t["file"],
        "use Rattle.package_tables.proofs.Written.{%s_listed}" % t["list"],
        "use Rattle.package_tables.proofs.%s.%s.Goals as goal" % (t["module"], t["insert"]),
        "",
        "pub returns-clause-wrote : goal.returns-clause-wrote",
        "returns-clause-wrote g c clean begun =",
    ] + STATES + [
        "    let row : %s = record { %s } in" % (t["row"], fields),
        "    enters %s_listed row insert_text (insert_row row) (λ there. %s) old new c.execute.result _ c.settled.ensures _" % (t["list"], laid),
        "    %s" % given(t, names),
        "    (c.execute.ensures.runs clean begun)",
    ]


def delete_answer(t):
    name, columns = t["delete"]
    goes = "λ r. " + " && ".join("is_same (column r %d) (%s a.%s%s)" % (place(t, c), VALUE[kind_of(t, c)], c, "" if kind_of(t, c) == INT else ".now") for c in columns)
    tested = "λ x. " + " && ".join("%s x.%s a.%s%s" % (EQUAL[kind_of(t, c)], c, c, "" if kind_of(t, c) == INT else ".now") for c in columns)
    alike = nested(lambda a, b: "(both_same %s %s)" % (a, b), ["(%s x.%s a.%s%s)" % (SAME[kind_of(t, c)], c, c, "" if kind_of(t, c) == INT else ".now") for c in columns])
    return [
        "use Rattle.std.proofs.Common.{refl, to_z-of_z}",
        "use Rattle.std.specs.Prelude.{◌&&◌, bytes_eq}",
        "use Rattle.std.specs.Ordering.{int_eq}",
        "use Rattle.sqlite.specs.Held.{state}",
        "use Rattle.sqlite.specs.Order.{column}",
        "use Rattle.sqlite.specs.declared.types.Value.TheVariants.{Int, Text}",
        "use Rattle.store_sql.specs.Reading.{is_same}",
        "use Rattle.package_tables.proofs.Making.{leaves}",
        "use Rattle.package_tables.proofs.%s.{delete_text, delete_plan}" % t["file"],
        "use Rattle.package_tables.proofs.Written.{%s_listed}" % t["list"],
        "use Rattle.package_tables.proofs.Values.{same_number, same_text, both_same}",
        "use Rattle.package_tables.proofs.%s.%s.Goals as goal" % (t["module"], name),
        "",
        "pub returns-clause-wrote : goal.returns-clause-wrote",
        "returns-clause-wrote g c clean begun =",
    ] + STATES + [
        "    leaves %s_listed (%s) (%s) (λ v x. %s) delete_text delete_plan _ refl (λ spelling. refl) old new c.execute.result _ c.settled.ensures" % (t["list"], goes, tested, alike),
        "    %s" % ran(t, columns),
    ]


def read_answer(t, name, function, columns, inside, many):
    lemma = "looks_in_order" if many else "tells_one" if inside else "looks_one"
    step, said = ("all_of", "values") if many else ("first_of", "first")
    read = "(%s %s)" % (name, passed(t, columns)) if columns else name
    values = "(λ x. refl) all_ranked (λ found. found.items) " if many else ""
    head = [
        "use Rattle.std.proofs.Common.{refl, to_z-of_z}",
        "use Rattle.sqlite.specs.Held.{state}",
        "use Rattle.package_tables.proofs.Looking.{%s}" % lemma,
        "use Rattle.package_tables.proofs.%s.{known, %s}" % (t["file"], "all, all_ranked" if many else name),
        "use Rattle.package_tables.proofs.%s.%s.Goals as goal" % (t["module"], function),
        "",
    ]
    if inside:
        return head + [
            "pub returns-clause-told : goal.returns-clause-told",
            "returns-clause-told g c =",
            "    let e = c.query_all.ensures in",
            "    %s known %s (λ rows. rows.items) _ %s" % (lemma, read, given(t, columns)),
            "    (state g.S.Store c.args.tx.now.conn.now) (state g.S.Store c.query_all.new.self.conn.now) c.query_all.result e.ok e.err %sc.%s.result c.%s.ensures.%s" % (values, step, step, said),
        ]
    return head + [
        "pub returns : goal.returns",
        "returns g c =",
        "    let e = c.query_all.ensures in",
        "    %s known %s (λ rows. rows.items) _ %s g.S.Store g.met.S.Store.shut_if_dirty g.met.S.Store.settled" % (lemma, read, given(t, columns)),
        "    c.args.conn.now c.query_all.new.self c.requires c.query_all.result e.ok e.err e.mode e.survives %sc.%s.result c.%s.ensures.%s" % (values, step, step, said),
    ]


def write(path, lines):
    os.makedirs(os.path.dirname(path), exist_ok=True)
    with open(path, "w") as f:
        f.write(lines if isinstance(lines, str) else "\n".join(lines) + "\n")


def main():
    for t in TABLES:
        write("proofs/%s.antt" % t["file"], statements(t))
        if "module" not in t:
            continue
        folder = "proofs/%s/" % t["module"]
        write(folder + t["insert"] + "/Answers.antt", insert_answer(t))
        write(folder + t["delete"][0] + "/Answers.antt", delete_answer(t))
        for name, columns, forms in t["finds"]:
            for form in forms:
                write(folder + name + form + "/Answers.antt", read_answer(t, name, name + form, columns, form == INSIDE, False))
        for name, tests in t.get("ranges", []):
            write(folder + name + "/Answers.antt", range_answer(t, name, tests))
        if "greatest" in t:
            write(folder + t["greatest"][0] + "/Answers.antt", newest_answer(t))
        if "ids" in t:
            write(folder + t["ids"] + "/Answers.antt", ids_answer(t, t["ids"], "ids", [], "looks_ids", "numbers_of", "numbers", "(λ x. refl) refl (λ v x. refl) (λ found. found.items) "))
        for name, columns in t.get("has", []):
            write(folder + name + "/Answers.antt", ids_answer(t, name, name, equalities(columns), "looks_any", "has_any", "any", ""))
        for name, tests in t.get("id_ranges", []):
            write(folder + name + "/Answers.antt", ids_answer(t, name, name, tests, "looks_numbers", "all_of", "values", "(λ found. found.items) "))
        write(folder + t["all"] + "/Answers.antt", read_answer(t, "all", t["all"], [], False, True))


if __name__ == "__main__":
    main()
