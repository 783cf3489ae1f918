#!/usr/bin/env python3
"""Writes proofs/Texts.antt and proofs/Texts/: what each text of src/schema.rt makes of the schema that the texts before it made.

Run it in the crate's folder after an edit of the texts, and then `rt fmt`. The check decides whether what it wrote is true.
"""
import pathlib
import re

TABLES = {
    # a constant of src/schema.rt, how many tables stand before it and after it, and how many UNIQUEs it has
    "SPATIAL_REFERENCE_SYSTEMS": ("gpkg_spatial_ref_sys", 0, 1, 0),
    "CONTENTS": ("gpkg_contents", 1, 2, 2),
    "TILE_MATRIX_SETS": ("gpkg_tile_matrix_set", 2, 3, 1),
    "TILE_MATRICES": ("gpkg_tile_matrix", 3, 4, 1),
    "RELATIONS": ("gpkgext_relations", 4, 5, 1),
    "TILES": ("sheet_tiles", 5, 7, 1),
    "MEDIA": ("sheet_media", 7, 8, 0),
    "ROWS": ("sheet_rows", 8, 9, 0),
    "TILES_MEDIA": ("tiles_media", 9, 10, 1),
    "ROWS_MEDIA": ("rows_media", 10, 11, 1),
    "ROWS_TILES": ("rows_tiles", 11, 12, 1),
    "HEAD": ("sheet_package", 12, 13, 0),
    "IDENTITIES": ("sheet_identity", 13, 14, 2),
    "RECEIPTS": ("sheet_receipts", 14, 15, 1),
    "RECEIPT_ITEMS": ("sheet_items", 15, 16, 1),
}
INDEXES = {
    # the index, its table, the table's place and tree, and how many look-up indexes stand before it
    "ITEMS_BY_BASE": ("items_by_base", "sheet_items", 15, 27, 0),
    "RECEIPTS_BY_TARGET": ("receipts_by_target", "sheet_receipts", 14, 25, 1),
    "TILES_MEDIA_BY_MEDIUM": ("by_tiles_media", "tiles_media", 9, 15, 2),
    "ROWS_MEDIA_BY_MEDIUM": ("by_rows_media", "rows_media", 10, 17, 3),
    "ROWS_TILES_BY_TILE": ("by_rows_tiles", "rows_tiles", 11, 19, 4),
    "ROWS_BY_PLACE": ("by_xy", "sheet_rows", 8, 14, 5),
}

SEQUENCE = "record { free = refl; automatic = tt; utf8 = refl; open_name = refl; low = refl; reals = refl; key_reals = tt; formed = refl; fit = refl; short = refl }"

TABLE_FILE = """-- What the text of `{name}` makes.
use Rattle.std.proofs.Common.{{◌≡◌, ℕ, List, codes, inl, refl}}
use Rattle.sqlite_schema.specs.Names.{{same_name}}
use Rattle.sqlite_tied.specs.Compute.{{everything}}
use Rattle.store_sql.specs.Blank.{{MakesText, IsFree, grown}}
use Rattle.std.specs.Str.{{is_utf8, chars}}
use Rattle.std.specs.Fmt.{{digits}}
use Rattle.sqlite_value.specs.Order.{{value_cmp}}
use Rattle.sqlite_trees.specs.Sound.{{fits_kind, is_free_name, begins, same_name as same_word}}
use Rattle.store_sql.specs.Certain.{{IsAlone, FitsGrown}}
use Rattle.package_tables.specs.Tables.{{{name}}}
use Rattle.package_tables.specs.SchemaMaking.{{Extends}}
use Rattle.package_tables.specs.SchemaMade.{{first_made}}

abbrev pub text : List ℕ
text = codes "{text}"

makes : MakesText text ({name} 0)
unfolding everything
makes = (_, _, record {{ parsed = refl; statement = refl; name = refl; free = refl; defined = refl; fits = refl; whole = refl }})

free : IsFree (first_made {before} 0) (codes "{name}")
unfolding same_name
free = record {{ table = refl; view = refl; index = refl }}

alone : IsAlone text
unfolding everything
alone = record {{ statement = _; parsed = refl; names = refl; whole = refl }}

fits : FitsGrown (first_made {before} 0) text ({name} 0)
unfolding same_name is_utf8 chars lib.Utf8.encode digits fits_kind is_free_name begins same_word value_cmp lib.Ieee.is_nan lib.Ieee.lt
fits = record {{
  alone = alone;
  table = record {{ free = refl; automatic = {each}; utf8 = refl; open_name = refl; low = refl; reals = refl; key_reals = {each}; formed = refl; fit = refl; short = refl }};
  sequence = {sequence};
}}

grows : first_made {after} 0 ≡ grown (first_made {before} 0) ({name} 0)
unfolding same_name
grows = refl

pub step : Extends text (first_made {before} 0) (first_made {after} 0)
step = inl ({name} 0, makes, free, fits, grows)
"""

INDEX_FILE = """-- What the text of the index `{name}` makes.
use Rattle.std.proofs.Common.{{ℕ, List, codes, inr, refl}}
use Rattle.sqlite_schema.specs.Names.{{same_name}}
use Rattle.sqlite_tied.specs.Compute.{{everything}}
use Rattle.store_sql.specs.Known.{{HasTable}}
use Rattle.store_sql.specs.Blank.{{IsFree}}
use Rattle.store_sql.specs.Index.{{MakesIndexText}}
use Rattle.std.specs.Str.{{is_utf8, chars}}
use Rattle.std.specs.Fmt.{{digits}}
use Rattle.sqlite_value.specs.Order.{{value_cmp}}
use Rattle.sqlite_trees.specs.Sound.{{fits_kind, is_free_name, begins, same_name as same_word}}
use Rattle.store_sql.specs.Certain.{{IsAlone, FitsIndex}}
use Rattle.package_tables.specs.Tables.{{{table}}}
use Rattle.package_tables.specs.SchemaMaking.{{Extends}}
use Rattle.package_tables.specs.SchemaMade.{{{name}, first_made}}

abbrev pub text : List ℕ
text = codes "{text}"

makes : (tree : ℕ) → MakesIndexText text ({table} tree) ({name} tree 0)
unfolding everything
makes tree = (_, _, record {{ parsed = refl; statement = refl; formats = refl; table = refl; table_free = refl; name = refl; free = refl; defined = refl; whole = refl }})

has : HasTable (first_made 16 {before}) {at} ({table} {tree})
unfolding same_name
has = record {{ named = refl; there = refl; stored = refl; by_tree = refl }}

free : IsFree (first_made 16 {before}) (codes "{name}")
unfolding same_name
free = record {{ table = refl; view = refl; index = refl }}

alone : IsAlone text
unfolding everything
alone = record {{ statement = _; parsed = refl; names = refl; whole = refl }}

fits : FitsIndex (first_made 16 {before}) text ({table} {tree}) ({name} {tree} 0)
unfolding same_name is_utf8 chars lib.Utf8.encode digits fits_kind is_free_name begins same_word value_cmp lib.Ieee.is_nan lib.Ieee.lt
fits = record {{ alone = alone; free = refl; utf8 = refl; open_name = refl; low = refl; reals = refl; key_reals = refl; fit = refl; short = refl }}

pub step : Extends text (first_made 16 {before}) (first_made 16 {after})
step = inr ({at}, {table} {tree}, {name} {tree} 0, makes {tree}, has, free, fits, refl)
"""

PLAN_FILE = """-- The texts of a package's schema, run in turn.
use Rattle.std.proofs.Common.{{ℕ, List, [], ◌∷◌, refl}}
use Rattle.store_sql.specs.Blank.{{no_schema}}
use Rattle.package_tables.specs.SchemaMaking.{{ExtendsBy}}
use Rattle.package_tables.specs.SchemaMade.{{first_made, package_schema}}
{uses}

{mods}

abbrev pub texts : List (List ℕ)
texts = {texts} ∷ []

pub plan : ExtendsBy texts no_schema package_schema
plan =
{steps}
    refl{ends}
"""


def main():
    source = pathlib.Path("src/schema.rt").read_text()
    known = dict(re.findall(r'const (\w+): &str =\s*"([^"]*)";', source))
    folder = pathlib.Path("proofs/Texts")
    folder.mkdir(exist_ok=True)
    modules, steps = [], []
    for constant, (name, before, after, uniques) in TABLES.items():
        module = "".join(word.title() for word in name.split("_"))
        text = TABLE_FILE.format(name=name, text=known[constant], before=before, after=after, each="(refl, " * uniques + "tt" + ")" * uniques, sequence=SEQUENCE if after - before == 2 else "tt")
        (folder / f"{module}.antt").write_text(text)
        modules.append(module)
        steps.append(f"    (first_made {after} 0, {module}_step,")
    for constant, (name, table, at, tree, before) in INDEXES.items():
        module = "Index" + "".join(word.title() for word in name.split("_"))
        text = INDEX_FILE.format(name=name, table=table, at=at, tree=tree, before=before, after=before + 1, text=known[constant])
        (folder / f"{module}.antt").write_text(text)
        modules.append(module)
        steps.append(f"    (first_made 16 {before + 1}, {module}_step,")
    uses = "\n".join(f"use Rattle.package_creation.proofs.Texts.{m}.{{text as {m}_text, step as {m}_step}}" for m in modules)
    mods = "\n".join(f"pub mod {m}" for m in modules)
    texts = " ∷ ".join(f"{m}_text" for m in modules)
    pathlib.Path("proofs/Texts.antt").write_text(PLAN_FILE.format(uses=uses, mods=mods, texts=texts, steps="\n".join(steps), ends=")" * len(steps)))


main()
