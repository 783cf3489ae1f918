#!/usr/bin/env python3
"""Tells which public statements differ between two commits: what a caller may rely on, and not how it is done.

    tools/compare_clauses.py OLD [NEW]           NEW is HEAD where it is left out
    tools/compare_clauses.py --short OLD [NEW]   names alone, with no differences

Compared are of each crate its public functions (head, `requires`, `ensures`), public types, traits and constants, and each definition in specs/.
Comments, layout, attributes, imports, bodies and proofs do not count. Crates that were renamed meanwhile are told by the table below. What
stands in another file is the same; what stands in another crate is told as moved, and what has another name as renamed. Status 1 where a
statement differs, is new, or is gone.
"""
import argparse
import difflib
import io
import os
import re
import subprocess
import sys
import tarfile
import textwrap
from collections import Counter, defaultdict

ROOT = os.path.dirname(os.path.dirname(os.path.realpath(__file__)))
# Crates by the names that they had up to 28 November 2026.
RENAMED = dict(
    pair.split(":")
    for pair in """
    ledger_laws:sheet_laws kept_laws:sheet_kept_laws ledger:sheet_ledger balance:sheet_balance model_examples:sheet_examples sql_meaning:store_sql
    memory_files:store_memory shelves:store_shelf folder:store_folder new_packages:package_creation package_copies:package_copy
    first_version:package_v1 stored_items:package_items stored_receipts:package_receipts store_forms:package_schema lending:register_lending
    known_uuids:world_known members:world_members asking:world_queries due_loans:world_loans deciding:world_decisions carrying:world_changes
    opening:opening_faults tallies:opening_verdict verdicts:opening_verdict surveys:opening_survey first_stores:opening_v1
    judged_stores:opening_stores recovery:opening register_views:opening_laws_model kept_stores:opening_laws_store program_words:command_help
    folder_worlds:command_folder view_lines:view_text world_views:view_world histories:view_history export_sql:view_export sheet_maps:view_map
    value_tests:test_pure package_tests:test_packages world_tests:test_worlds program_tests:test_program
    """.split()
)
CLAUSE = re.compile(r"\b(?:requires|ensures|decreases)\s*\*?\s*\w*\s*$")
ITEM = re.compile(r"^(?P<indent>[ ]*)pub (?:ghost )?(?P<kind>(?:unsafe |const )?fn|struct|enum|trait|const|static|type) (?P<name>\w+)", re.M)
OWNER = re.compile(r"^(?P<head>(?:unsafe )?impl\b[^{;]*|pub trait \w+[^{;]*)\{", re.M)
GHOST = re.compile(r"^ +ghost (?P<name>\w+)\s*=\s*\{", re.M)
HEAD = re.compile(r"(?P<words>(?:(?:pub|abbrev|unfoldable|opaque|record|data|module)\s+)*)(?P<name>[^\s:(){}]+)(?P<rest>.*)", re.S)


def files_at(revision):
    """Returns the texts of a commit's sources and definitions, by crate and path."""
    packed = subprocess.run(["git", "archive", revision, "crates"], cwd=ROOT, stdout=subprocess.PIPE, check=True).stdout
    found = {}
    with tarfile.open(fileobj=io.BytesIO(packed)) as room:
        for member in room:
            at = re.fullmatch(r"crates/(\w+)/((?:src/.*\.rt)|(?:specs/.*\.antt))", member.name)
            if at:
                found[at[1], at[2]] = room.extractfile(member).read().decode()
    return found


def is_old(files):
    """Returns whether crates have the names of before."""
    crates = {crate for crate, _ in files}
    return bool(crates & (set(RENAMED) - set(RENAMED.values())))


def with_new_names(crate, text, renames):
    if not renames:
        return crate, text
    of_path = lambda it: it[1] + RENAMED.get(it[2], it[2]) + it[3]
    text = re.sub(r"(\bRattle\.)(\w+)(\.)", of_path, text)
    return RENAMED.get(crate, crate), re.sub(r"((?<![\w:]))(\w+)(::)", of_path, text)


def end_of_head(text, at):
    """Returns where a function's head ends: at its body or its semicolon, behind all clauses."""
    depth, since = 0, at
    for place in range(at, len(text)):
        it = text[place]
        if it == "{":
            if not depth and not CLAUSE.search(text, since, place):
                return place
            depth += 1
        elif it == "}":
            depth -= 1
            since = place + 1
        elif it == ";" and not depth and text.count("[", since, place) == text.count("]", since, place):
            return place
    return len(text)


def end_of_block(text, at):
    """Returns where a type ends: behind its braces, or at its semicolon."""
    depth = 0
    for place in range(at, len(text)):
        it = text[place]
        if it == ";" and not depth and text.count("[", at, place) == text.count("]", at, place):
            return place
        depth += (it == "{") - (it == "}")
        if it == "}" and not depth:
            return place + 1
    return len(text)


def owners(text):
    """Returns the impls and the public traits of a file: where each begins and ends, and its head."""
    found = []
    for it in OWNER.finditer(text):
        end = re.compile(r"^\}", re.M).search(text, it.end())
        found.append((it.start(), end.end() if end else len(text), it["head"].strip()))
    return found


def name_of(head):
    """Returns the type or the trait that an impl or a trait is of."""
    head = re.sub(r"^(?:unsafe )?impl\s*(?:<.*?>(?=\s))?|^pub trait ", "", head).strip()
    return re.match(r"[\w:]*", head)[0]


def statements_of_code(text):
    """Yields the kind, the name and the text of each public item."""
    text = re.sub(r"//[^\n]*", "", text)
    inside = owners(text)
    for it in ITEM.finditer(text):
        kind = it["kind"].split()[-1]
        owner = next((head for start, end, head in inside if start < it.start() < end), "")
        if kind == "trait":
            continue
        end = end_of_head(text, it.start()) if kind == "fn" else end_of_block(text, it.start())
        name = f"{name_of(owner)}::{it['name']}" if owner else it["name"]
        yield kind, name, f"{owner}\n{text[it.start() : end]}" if owner else text[it.start() : end]
    for start, end, head in inside:
        if head.startswith("pub trait "):
            yield "trait", name_of(head), "\n".join(trait_lines(text[start:end]))
        # What a trait's word means at a type.
        for it in GHOST.finditer(text, start, end):
            if " for " in head:
                yield "ghost", f"{' '.join(head.split())}::{it['name']}", text[it.start() : end_of_block(text, it.start())]


def trait_lines(text):
    """Yields a trait's head, and the head of each of its functions, since a default body is no promise."""
    yield text[: text.index("{")]
    rest = text[text.index("{") + 1 :]
    for it in re.finditer(r"^[ ]*(?:ghost \w+|(?:unsafe )?fn \w+|type \w+|const \w+|law \w+)", rest, re.M):
        is_fn = "fn " in it[0]
        yield rest[it.start() : end_of_head(rest, it.start()) if is_fn else end_of_block(rest, it.start())]


def statements_of_specs(text):
    """Yields the kind, the name and the text of each definition, with the equations that follow its head."""
    text = re.sub(r"(?m)(^|\s)--(?=\s|$)[^\n]*", "", text)
    parts = re.split(r"(?m)^(?=\S)", text)
    kind, name, whole = "", "", ""
    for part in parts:
        it = HEAD.match(part)
        if part.startswith("}"):
            whole += part
        if not it or part.startswith(("use ", "pub use ", "mod ", "pub mod ", "}")):
            continue
        if it["words"].endswith("module ") or part.startswith("module "):
            # Its parameters are a part of each definition that stands in it.
            head, _, inner = part.partition("where\n")
            yield from ((kind, name, f"{head}\n{said}") for kind, name, said in statements_of_specs(textwrap.dedent(inner)))
            continue
        begins = it["words"] or re.match(r"\s*:(?=\s)", it["rest"]) or re.match(r"[^=]*:\s", it["rest"].split("=")[0]) and it["name"] != name
        if begins:
            if name:
                yield kind, name, whole
            kind, name, whole = "specs", it["name"], ""
        whole += part
    if name:
        yield kind, name, whole


def statements_at(revision):
    """Returns the texts of a commit's public statements, by crate, kind and name; one name may stand for several."""
    files, found = files_at(revision), defaultdict(list)
    renames = is_old(files)
    for (crate, path), text in sorted(files.items()):
        crate, text = with_new_names(crate, text, renames)
        if crate.startswith("test_"):
            continue
        for kind, name, said in (statements_of_code if path.endswith(".rt") else statements_of_specs)(text):
            found[crate, kind, name].append(said)
    return found


def bare(text):
    """Returns a text without its layout."""
    text = re.sub(r"\s+", " ", text)
    return re.sub(r",? ?([(){}\[\],;:<>]) ?", r"\1", text).strip()


def lines_of(texts):
    return [line.strip() for text in texts for line in text.split("\n") if line.strip()]


def compare(old, new):
    """Returns what differs, as names with texts, and what stands in another crate."""
    changed, gone, come = [], defaultdict(list), defaultdict(list)
    for key in sorted({*old, *new}):
        was, now = Counter(map(bare, old.get(key, []))), Counter(map(bare, new.get(key, [])))
        if was == now:
            continue
        lost = [it for it in old.get(key, []) if (was - now)[bare(it)]]
        made = [it for it in new.get(key, []) if (now - was)[bare(it)]]
        if lost and made:
            changed.append((key, lost, made))
        else:
            for texts, into in ((lost, gone), (made, come)):
                for it in texts:
                    into[key[1], key[2], bare(it)].append((key[0], it))
    moved = []
    for key in sorted({*gone} & {*come}):
        moved += [(key, one[0], other[0]) for one, other in zip(gone[key], come[key])]
        least = min(len(gone[key]), len(come[key]))
        gone[key], come[key] = gone[key][least:], come[key][least:]
    return changed, moved, rest_of(gone), rest_of(come)


def rest_of(found):
    return sorted(((crate, kind, name), text) for (kind, name, _), texts in found.items() for crate, text in texts)


def with_word(text, old, new):
    return re.sub(rf"(?<![\w'.]){re.escape(old)}(?![\w'])", new, text)


def renames_between(gone, come):
    """Returns the new names of what is otherwise as before, by crate and old name."""
    found = {}
    for (crate, kind, name), text in gone:
        for (other, other_kind, new), other_text in come:
            if (crate, kind, name.rpartition("::")[0]) != (other, other_kind, new.rpartition("::")[0]):
                continue
            old, new = name.rpartition("::")[2], new.rpartition("::")[2]
            if old != new and bare(with_word(text, old, new)) == bare(other_text):
                found[crate, old] = new
    return found


def with_renames(statements, renames):
    """Returns statements with these new names: of their own crate, and of others where a word has one new name in all."""
    everywhere = defaultdict(set)
    for (_, old), new in renames.items():
        everywhere[old].add(new)
    made = defaultdict(list)
    for (crate, kind, name), texts in statements.items():
        mine = {old: next(iter(new)) for old, new in everywhere.items() if len(new) == 1}
        mine |= {old: new for (of, old), new in renames.items() if of == crate}
        owner, _, short = name.rpartition("::")
        whole = f"{owner}::{mine.get(short, short)}" if owner else mine.get(short, short)
        used = {old: new for old, new in mine.items() if any(old in text for text in texts)}
        for old, new in used.items():
            texts = [with_word(text, old, new) for text in texts]
        made[crate, kind, whole] += texts
    return made


def compare_with_renames(old, new):
    """Compares, and again with the names that were found to be new, until none more is found."""
    renames = {}
    while True:
        changed, moved, gone, come = compare(with_renames(old, renames) if renames else old, new)
        more = {key: name for key, name in renames_between(gone, come).items() if key not in renames}
        if not more:
            return changed, moved, gone, come, renames
        renames |= more


def tell(changed, moved, gone, come, is_short):
    for (crate, kind, name), lost, made in changed:
        print(f"changed  {crate} {kind} {name}")
        if not is_short:
            rows = difflib.unified_diff(lines_of(lost), lines_of(made), n=1, lineterm="")
            print("\n".join(f"    {row}" for row in rows if not row.startswith(("---", "+++", "@@"))))
    for word, sign, found in (("gone", "-", gone), ("new", "+", come)):
        for (crate, kind, name), text in found:
            print(f"{word:8} {crate} {kind} {name}")
            if not is_short:
                print("\n".join(f"    {sign}{line}" for line in lines_of([text])))
    for (kind, name, _), before, now in moved:
        print(f"moved    {kind} {name}: from {before} to {now}")


def main():
    words = argparse.ArgumentParser(description=__doc__, formatter_class=argparse.RawDescriptionHelpFormatter)
    words.add_argument("--short", action="store_true", help="names alone")
    words.add_argument("old")
    words.add_argument("new", nargs="?", default="HEAD")
    said = words.parse_args()
    old, new = statements_at(said.old), statements_at(said.new)
    changed, moved, gone, come, renames = compare_with_renames(old, new)
    tell(changed, moved, gone, come, said.short)
    for (crate, before), now in sorted(renames.items()):
        print(f"renamed  {crate}: {before} is now {now}")
    same = sum(map(len, new.values())) - sum(len(made) for _, _, made in changed) - len(come)
    print(f"{same} statements are the same ({len(moved)} of them moved, {len(renames)} renamed), {len(changed)} changed, {len(come)} new, {len(gone)} gone")
    return 1 if changed or gone or come else 0


if __name__ == "__main__":
    sys.exit(main())
