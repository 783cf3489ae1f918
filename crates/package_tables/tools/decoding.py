#!/usr/bin/env python3
"""Writes the answers of each `from_row`: proofs/*/*FromRow/from_row/Answers.antt, from src and specs/Shown.antt.

Run it in the crate's folder after an edit of a row, then `rt fmt` and `rt tidy`. Each goal is answered, since a search for each costs
seconds. The names of steps follow the order in which the fields stand in `from_row`: numbers first, since a text that is alive is dropped
at each exit that follows.
"""

import pathlib
import re

CALLS = {"number_at": ("number", "no_number"), "text_at": ("text", "no_text"), "bytes_at": ("bytes", "no_bytes")}
IMPL = re.compile(r"impl FromRow for (\w+Row) \{.*?specs\.Shown\.\{(\w+)\}.*?\n    \}\n\}", re.S)
FIELD = re.compile(r"(\w+): (\w+_at)\(row, (\d+)\)\?")
CLAUSE = "returns-in_err-%s-clause-none"


def steps_of(body):
    """The columns in the order in which they are read: field, call, place, and the name of the step."""
    seen, steps = {}, []
    for field, call, place in FIELD.findall(body):
        seen[call] = seen.get(call, 0) + 1
        steps.append((field, call, int(place), call if seen[call] == 1 else "%s-%d" % (call, seen[call])))
    return steps


def value_answer(steps):
    """The row is the list of the columns that were read."""
    numbers = [(place, name) for _, call, place, name in steps if call == "number_at"]
    lines = [
        "pub returns-clause-value : goal.returns-clause-value",
        "returns-clause-value c =",
        "    let count : length c.args.row.now ≡ %d = omega (arith, c.column_count.ensures, c.if-column_count-ne%d.false) in" % (len(steps), len(steps)),
    ]
    for place, name in numbers:
        lines.append("    let n%d : FitsSigned w64 c.in_ok-%s.field-0 = search rules in" % (place, name))
    facts = ", ".join("c.in_ok-%s.ensures.%s" % (name, CALLS[call][0]) for _, call, _, name in sorted(steps, key=lambda it: it[2]))
    lines.append("    simp (to_z-of_z, %s) (columns %d c.args.row.now count ∙ rw (%s) refl)" % (", ".join("n%d" % place for place, _ in numbers), len(steps), facts))
    return lines


def none_answer(shown, step, is_first):
    """A column that could not be read is in no row that shows a value."""
    field, call, place, name = step
    told = "c.from_residual" if is_first else "c.from_residual-in_err-%s" % name
    goal = CLAUSE % name
    facts = "%s.result c.in_err-%s.field-0.0 %s.ensures.1 c.in_err-%s.ensures.none" % (told, name, told, name)
    return ["", "pub %s : goal.%s" % (goal, goal), "%s c = %s %s %d c.args.row.now %s (λ x. x.%s) (λ x. refl)" % (goal, CALLS[call][1], shown, place, facts, field)]


def answers_of(module, row, shown, steps):
    lemmas = [lemma for call, (_, lemma) in CALLS.items() if any(call == it[1] for it in steps)]
    path = "%s.%sFromRow.from_row" % (module, row)
    lines = [
        "use Rattle.std.proofs.Common.{◌≡◌, ◌∙◌, length, refl, rules, arith, to_z-of_z, FitsSigned, w64}",
        "use Rattle.package_tables.specs.Shown.{%s}" % shown,
        "use Rattle.package_tables.proofs.Columns.{columns}",
        "use Rattle.package_tables.proofs.Decoding.{%s}" % ", ".join(lemmas),
        "use Rattle.package_tables.proofs.%s.Goals as goal" % path,
        "",
    ] + value_answer(steps)
    for at, step in enumerate(steps):
        lines += none_answer(shown, step, at == 0)
    return "\n".join(lines) + "\n"


def main():
    for source in sorted(pathlib.Path("src").glob("*.rt")):
        for found in IMPL.finditer(source.read_text(encoding="utf-8")):
            to = pathlib.Path("proofs", source.stem, found[1] + "FromRow", "from_row", "Answers.antt")
            to.parent.mkdir(parents=True, exist_ok=True)
            to.write_text(answers_of(source.stem, found[1], found[2], steps_of(found[0])), encoding="utf-8")


if __name__ == "__main__":
    main()
