#!/usr/bin/env python3
"""Wraps lines that have more than 120 bytes: of specs and proofs, and comments of sources.

    wrap_lines.py FILE..        in place; files .antt and .rt

A line is broken at a space, at the least depth of brackets that gives a first part of at most 118 bytes,
before an arrow or an operator where there is one. What follows is indented by four more than the line.
A field of a record that was broken behind its `=` is joined where it fits. Only spaces and ends of lines change.
"""
import re
import sys

MOST = 118
OPENING, CLOSING = "([{⟦", ")]}⟧"
BEFORE = ("→", "×", "⊎", "≡", "++", "|", "∙", "∷", "↦", "⟶")


def size(text):
    """The bytes of a text: an arrow or a Greek letter has two or three."""
    return len(text.encode("utf-8"))


def breaks(line, start):
    """The places at which the line may be broken: column, depth, and whether an operator follows or `=` stands before."""
    depth, text, found = 0, False, []
    for at, it in enumerate(line):
        if it == '"' and line[at - 1:at] != "\\":
            text = not text
        if text:
            continue
        if line.startswith("--", at) and (at == 0 or line[at - 1] == " "):
            return found
        if it in OPENING:
            depth += 1
        elif it in CLOSING:
            depth -= 1
        elif it == " " and at > start:
            rest = line[at + 1:]
            word = rest.split(" ", 1)[0]
            before = line[:at].rsplit(" ", 1)[-1]
            if word in (":", "=", "in", "where", "then", "else", ",") or before in ("λ", "let", "use", "(", "pub", "abbrev", "data", "elim"):
                continue
            if re.search(r"λ [^.]*$", line[:at]) and "." not in line[line[:at].rfind("λ"):at]:
                # (the names that a λ binds stay together)
                continue
            # (between the fields of a record; behind `=` or before an arrow; before an operator)
            good = 3 if before.endswith(";") else 2 if before in ("=", ":") or word in BEFORE[:3] else 1 if word in BEFORE else 0
            found.append((at, depth, good))
    return found


def wrapped(line):
    """The lines that stand for a line."""
    out, indent = [], len(line) - len(line.lstrip(" "))
    lead = line.lstrip(" ")
    if lead.startswith("use ") or lead.startswith("pub use "):
        return wrapped_use(line)
    if lead.startswith("--"):
        return wrapped_comment(line, indent)
    deeper = indent + (8 if lead.startswith("let ") else 4)
    while size(line) > MOST:
        start = len(line) - len(line.lstrip(" ")) + 8
        may = [it for it in breaks(line, start) if size(line[:it[0]]) <= MOST]
        if not may:
            return None
        # (a first part that is not short, at the least depth, before an operator)
        long = [it for it in may if it[0] >= 60] or may
        least = min(depth for _, depth, _ in long)
        best = [it for it in long if it[1] == least]
        most = max(good for _, _, good in best)
        at = max(it[0] for it in best if it[2] == most)
        out.append(line[:at].rstrip(" "))
        line = " " * deeper + line[at + 1:].lstrip(" ")
    return [*out, line]


def joined(lines):
    """The same with each field of a record on one line, where it was broken behind its `=` and fits."""
    out = []
    for line in lines:
        field = out and re.fullmatch(r" +«?[\w-]+»? =", out[-1])
        if field and re.fullmatch(r" +[^ ].*;", line) and size(out[-1]) + 1 + size(line.strip()) <= MOST - 18:
            out[-1] += " " + line.strip()
        else:
            out.append(line)
    return out


def wrapped_comment(line, indent):
    words, out, now = line.strip()[2:].split(), [], " " * indent + "--"
    for word in words:
        if size(now) + 1 + size(word) > MOST:
            out.append(now)
            now = " " * indent + "--"
        now += " " + word
    return [*out, now]


def wrapped_source(line):
    """The lines that stand for one of a source: a comment, a clause, or names that clauses use."""
    lead = line.lstrip(" ")
    if lead.startswith("//"):
        return wrapped_note(line)
    if lead.startswith("ghost use "):
        return [f"{it};" for it in wrapped_use(line.rstrip(";")) or [line.rstrip(";")]]
    if re.match(r"(ensures|requires|invariant|→|×|⊎|\(λ|λ|\(string_bytes|\(codes|contains \(slice|ghost \w+ = )", lead) and '"' not in lead[:1]:
        return wrapped(line) or [line]
    return [line]


def wrapped_note(line):
    """The lines that stand for a comment of a source; another line, or a row of a table, is left."""
    met = re.fullmatch(r"(\s*//[/!]?) (.*)", line)
    if not met or met[2].startswith(("|", "    ", "- ", "* ")):
        return [line]
    out, now = [], met[1]
    for word in met[2].split():
        if len(now) + 1 + len(word) > 100 and now != met[1]:
            out.append(now)
            now = met[1]
        now += " " + word
    return [*out, now]


def wrapped_use(line):
    """Two `use` lines of one module in place of one."""
    met = re.fullmatch(r"(\s*(?:pub |ghost )?use [\w.]+\.)\{(.*)\}\s*", line)
    if not met:
        return None
    names, out, now = [it.strip() for it in met[2].split(",")], [], []
    for name in names:
        if now and size(f"{met[1]}{{{', '.join([*now, name])}}}") > MOST:
            out.append(f"{met[1]}{{{', '.join(now)}}}")
            now = []
        now.append(name)
    return [*out, f"{met[1]}{{{', '.join(now)}}}"]


def main():
    left = 0
    for file in sys.argv[1:]:
        with open(file, encoding="utf-8") as it:
            lines = it.read().split("\n")
        out = []
        for line in lines:
            how = wrapped_source if file.endswith(".rt") else wrapped
            new = how(line) if size(line) > 120 else [line]
            if new is None:
                left += 1
                print(f"{file}: not wrapped: {line[:100]}")
                new = [line]
            out += new
        out = joined(out)
        squeezed = lambda text: re.sub(r"\s+", "", re.sub(r"--|//[/!]?", "", "".join(text)))
        names = lambda some: [it for it in some if not it.lstrip().startswith(("use ", "pub use ", "ghost use "))]
        if squeezed(names(lines)) != squeezed(names(out)):
            print(f"{file}: differs, left as it was")
            continue
        if out != lines:
            with open(file, "w", encoding="utf-8") as it:
                it.write("\n".join(out))
    return 0


sys.exit(main())
