#!/usr/bin/env python3
"""Lists the public functions of the crates: the clauses of each, the edits (of must-fail/, then of attacks/) that change its body or a helper's in its file, and the tests that call it.

    tools/public_functions.py            a Markdown table for each crate, at most three edits and one test a function
    tools/public_functions.py --missing  the functions that lack a clause, an edit or a test; status 1 where there is one
    tools/public_functions.py --uncalled the functions that no code names but tests; those of store_sql/src/example.rt are examples

An edit counts for the public function in whose body it stands, and for each public function of the same file that calls the function in which it
stands, directly or through others of the file. A test counts where it, or a helper, names the function before a bracket; a helper is a function, an
impl or a constant of the test's file, of a module of its crate that the file uses, or of the crates of test values. The sessions of crates/sheetdesk count as a test of what
the command line calls, directly or through others of the crates down to the stores of packages.
A law needs neither: a function with an empty body, or one with no result, no `&mut` and no handle, whose call can only give the fact of its clause.
"""
import collections
import os
import re
import sys

ROOT = os.path.dirname(os.path.dirname(os.path.abspath(__file__)))
TEST_VALUES = ["test_values", "test_worlds"]
# The crates that a line of a session goes through (crates/sheetdesk), from the words of the program on.
OF_SESSIONS = [
    "sheetdesk", "program_working", "program_keeping", "program_verbs", "program_looks", "program_serving", "program_orders", "command_ordering", "program_words", "program_output", "command_words", "command_verbs", "command_requests", "command_replies", "commands", "command_folder", "manifest_csv", "views", "view_world", "view_text", "view_map", "cli",
    "view_page", "view_report", "view_loan", "view_fault", "view_names", "world", "world_decisions", "world_loans", "world_changes", "world_queries", "register_lending",
]
CONST = re.compile(r"^(?:pub(?:\(crate\))? )?const (?P<name>\w+): .*?;$", re.M | re.S)
HEAD = re.compile(r"^(?P<indent>\s*)(?P<pub>pub(?:\((?:crate|super)\))? )?fn (?P<name>\w+)", re.M)


def read(path):
    with open(path, encoding="utf-8") as it:
        return it.read()


def sources(folder):
    """The source files of a crate below src/, by their path there."""
    found = []
    for at, folders, files in os.walk(os.path.join(folder, "src")):
        folders.sort()
        found += [os.path.relpath(os.path.join(at, it), os.path.join(folder, "src")) for it in sorted(files) if it.endswith(".rt")]
    return found


def is_open(folder, file):
    """Whether a source file is a public module, by what lib.rt says of its first folder or name."""
    name = re.split(r"[/.]", file)[0]
    return re.search(rf"^pub (mod|use) {name}\b", read(os.path.join(folder, "src", "lib.rt")), re.M) is not None or file == "lib.rt"


def functions(text):
    """The functions of a file: name, whether it is public, where its head and its body begin and where it ends, and the impl that it stands in."""
    found = []
    for head in HEAD.finditer(text):
        indent = head["indent"].replace("\n", "")
        end = re.compile(rf"^{indent}}}|^{indent}\{{\}}", re.M).search(text, head.end())
        owner = ""
        for impl in re.finditer(r"^impl(?:<[^{]*?>)? (?:[\w:<>', ]+ for )?(?P<type>\w+)[^\n]*\{", text[: head.start()], re.M):
            if indent:
                owner = impl["type"]
        is_public = head["pub"] == "pub "
        if indent and re.search(rf"^impl[^\n]* for {owner}\b", text[: head.start()], re.M):
            last = [it for it in re.finditer(r"^impl[^\n]*\{", text[: head.start()], re.M)][-1][0]
            if " for " in last:
                is_public = False
        found.append({"name": head["name"], "public": is_public, "start": head.start(), "end": end.end() if end else len(text), "owner": owner})
    return found


def is_law(text, it):
    """Whether a call of the function can only give a fact: its body is empty, or it has no result, no `&mut` and no handle."""
    whole = text[it["start"] : it["end"]]
    head = re.split(r"^\s*(?:requires|ensures)\b|\{", whole, maxsplit=1, flags=re.M)[0]
    return re.search(r"\{\}\s*$", whole) is not None or not re.search(r"->|&mut\b|\brt:|\bHostRuntime\b", head)


def clauses(text, it):
    body = text[it["start"] : it["end"]]
    named = re.findall(r"^\s*ensures\*? ?(\w+)? ?\{", body, re.M)
    return [name or "ensures" for name in named]


def edits_of(folder):
    """Of each edit, where its first change of code stands: the file and the place."""
    listed = []
    rooms = [os.path.join(folder, "must-fail"), os.path.join(ROOT, "attacks", os.path.basename(folder))]
    for room, name in [(room, name) for room in rooms if os.path.isdir(room) for name in sorted(os.listdir(room))]:
        path = ""
        for line in read(os.path.join(room, name)).split("\n"):
            if line.startswith("file: "):
                path = line[6:].strip()
            elif line.startswith("old: ") and path.endswith(".rt"):
                text = read(os.path.join(folder, path))
                listed.append((name.removesuffix(".edit"), path, text.find(line[5:])))
    return listed


def reached(names, bodies, start):
    """All functions of the file that these bodies call, by name, the first one too."""
    seen, todo = {start}, [start]
    while todo:
        body = bodies.get(todo.pop(), "")
        for name in names:
            if name not in seen and re.search(rf"\b{name}\b" if name[0].isupper() else rf"\b{name}\(", body):
                seen.add(name)
                todo.append(name)
    return seen


def helpers(crate, text):
    """The texts that a test of a file may lead to, by the names of functions, of the types of impls and of tables."""
    folders = [os.path.join(ROOT, "crates", it, "src") for it in TEST_VALUES]
    paths = [os.path.join(folder, file) for folder in folders if os.path.isdir(folder) for file in sorted(os.listdir(folder))]
    of_tests = re.findall(r"^#\[cfg\(test\)\]\nmod (\w+);", read(os.path.join(ROOT, "crates", crate, "src", "lib.rt")), re.M)
    paths += [os.path.join(ROOT, "crates", crate, "src", f"{it}.rt") for it in re.findall(r"^use crate::(\w+)::", text, re.M) if it in of_tests]
    bodies = {}
    for whole in [read(path) for path in paths if os.path.isfile(path)] + [text]:
        impls = list(re.finditer(r"^impl[^\n]* for (?P<type>\w+)[^\n]*\{.*?^\}", whole, re.M | re.S))
        own = [it for it in functions(whole) if not any(impl.start() < it["start"] < impl.end() for impl in impls)]
        bodies |= {it["name"]: whole[it["start"] : it["end"]] for it in own}
        bodies |= {it["type"]: it[0] for it in impls}
        bodies |= {it["name"]: it[0] for it in CONST.finditer(whole)}
    return bodies


def tests_by_name():
    """For each crate, the text of each test with its helpers' texts: (crate, test, text)."""
    found = []
    for crate in sorted(os.listdir(os.path.join(ROOT, "crates"))):
        for file in sources(os.path.join(ROOT, "crates", crate)):
            text = read(os.path.join(ROOT, "crates", crate, "src", file))
            if "#[test]" not in text:
                continue
            listed = functions(text)
            bodies = helpers(crate, text)
            for it in listed:
                if re.search(r"#\[test\][^\n]*\n(?:\s*(?:#|//|ghost)[^\n]*\n)*\s*$", text[: it["start"] + 1] + "\n") or "#[test]" in text[max(0, it["start"] - 200) : it["start"]].rsplit("}", 1)[-1]:
                    whole = "\n".join(bodies[name] for name in reached(set(bodies), bodies, it["name"]) if name in bodies)
                    found.append((crate, it["name"], whole))
    return [*found, ("sheetdesk", "sessions", sessions())]


def sessions():
    """The texts that a line of a session may lead to."""
    bodies = {}
    for crate in OF_SESSIONS:
        folder = os.path.join(ROOT, "crates", crate)
        for text in [read(os.path.join(folder, "src", file)) for file in sources(folder)]:
            for it in functions(text):
                bodies[it["name"]] = bodies.get(it["name"], "") + text[it["start"] : it["end"]]
    return "\n".join(bodies[name] for name in reached(set(bodies), bodies, "run"))


def rows():
    tests = tests_by_name()
    for line in read(os.path.join(ROOT, "crates.txt")).split("\n"):
        crate = line.partition(":")[0].strip()
        folder = os.path.join(ROOT, "crates", crate)
        if line.startswith("#") or not os.path.isfile(os.path.join(folder, "src", "lib.rt")):
            continue
        edits = edits_of(folder)
        for file in sources(folder):
            if "tests" in file or not is_open(folder, file):
                continue
            text = read(os.path.join(folder, "src", file))
            if text.startswith("#![cfg(test)]"):
                continue
            listed = functions(text)
            names = {it["name"] for it in listed}
            bodies = {it["name"]: text[it["start"] : it["end"]] for it in listed}
            for it in listed:
                if not it["public"]:
                    continue
                mine = reached(names - {it["name"]}, bodies | {it["name"]: text[it["start"] : it["end"]]}, it["name"]) - {it["name"]}
                spans = [(f["start"], f["end"]) for f in listed if f is it or f["name"] in mine]
                caught = [name for name, path, at in edits if path == f"src/{file}" and any(a <= at < b for a, b in spans)]
                called = [f"{owner}::{name}" for owner, name, whole in tests if re.search(rf"\b{it['name']}\(", whole)]
                own = [name for name in called if name.startswith(f"{crate}::")]
                yield crate, file, it, clauses(text, it), list(dict.fromkeys(caught)), own or called, is_law(text, it)


def code_names():
    """How often each file of code that is no test names each word, without comments and imports of specifications."""
    found = {}
    for crate in sorted(os.listdir(os.path.join(ROOT, "crates"))):
        folder = os.path.join(ROOT, "crates", crate)
        for file in [] if crate.startswith("test_") else sources(folder):
            text = re.sub(r"//[^\n]*|^ghost use [^;]*;", "", read(os.path.join(folder, "src", file)), flags=re.M)
            found[crate, file] = collections.Counter(re.findall(r"\w+", text))
    return found


def tell_uncalled():
    """Prints each public function, but for laws, that no code names but where it stands."""
    names = code_names()
    for crate, file in names:
        folder = os.path.join(ROOT, "crates", crate)
        text = read(os.path.join(folder, "src", file))
        listed = functions(text) if os.path.isfile(os.path.join(folder, "src", "lib.rt")) else []
        for it in listed:
            if it["public"] and not is_law(text, it) and sum(words[it["name"]] for words in names.values()) < 2:
                print(f"{crate} {file}: {it['name']}")


def main():
    if "--uncalled" in sys.argv:
        return tell_uncalled()
    only_missing = "--missing" in sys.argv
    lacking, tables, laws = 0, {}, {}
    for crate, file, it, said, caught, called, is_law in rows():
        module = re.sub(r"\.rt$|/mod\.rt$", "", file)
        name = f"{it['owner']}::{it['name']}" if it["owner"] else f"{module}::{it['name']}"
        lacks = [what for what, has in (("clause", said), ("edit", caught or is_law), ("test", called or is_law)) if not has]
        lacking += bool(lacks)
        if lacks and only_missing:
            print(f"{crate} {name}: no {', no '.join(lacks)}")
        if is_law:
            laws.setdefault(crate, []).append(f"`{name}`")
        else:
            test = called[0].replace(f"{crate}::", "") if called else ""
            tables.setdefault(crate, []).append(f"| `{name}` | {', '.join(said)} | {', '.join(caught[:3])} | {test} |")
    if only_missing:
        return 1 if lacking else 0
    for crate in dict.fromkeys([*tables, *laws]):
        print(f"\n### `{crate}`\n")
        if crate in tables:
            print("| Public function | Clauses | Edits | Test |\n|---|---|---|---|")
            print("\n".join(tables[crate]))
        if crate in laws:
            print(f"{chr(10) if crate in tables else ''}{len(laws[crate])} laws and examples, each the contract of a function that does nothing.")
    return 0


if __name__ == "__main__":
    sys.exit(main())
