"""What the second machine says of a text that is no request list: which record is none, and its first column that is not what it has to be."""

from machine.lists import COMMON, FIELDS, HEADER, MAPPINGS, MODES, READERS, NoList, is_utf8, read_records

# The words that the column `kind` may have, by the command.
KINDS = {"add": ["tile", "media", "row"], "link": MAPPINGS, "unlink": MAPPINGS, "split": MODES}
COMMANDS = ["add", "delete", "link", "unlink", "split", "merge"]
SAYS = {"uuid": "is no UUID", "number": "is no number", "data": "is not hexadecimal, two digits a byte"}


def one_of(text, words):
    return None if text in words else "is none of " + ", ".join(words)


def complaint(name, record):
    """What a column is not, or None where it is what it has to be. The columns before it are."""
    texts = dict(zip(HEADER, record))
    text, command = texts[name], texts["command"]
    if name == "command":
        return one_of(text, COMMANDS)
    if name == "kind" and command in KINDS:
        return one_of(text, KINDS[command])
    kinds = KINDS.get(command, [""])
    kind = texts["kind"] if texts["kind"] in kinds else kinds[0]
    used = COMMON | FIELDS.get((command, kind), set())
    if name not in used:
        return None if text == "" else "is not empty"
    try:
        READERS[name](text)
    except NoList as fault:
        return SAYS[str(fault)]
    return None


def of_any(record):
    """What is said of a record that cannot be judged, or None."""
    if not is_utf8(record):
        return "is no UTF-8"
    if len(record) != len(HEADER):
        return f"has {len(record)} fields, not 18"
    return None


def fault_line(list_bytes):
    """The line that says where the fault of a list is, or None where it is one."""
    records = read_records(list_bytes)
    header = next(records, None)
    if header is None:
        return "list: it has no record"
    if of_any(header):
        return f"list: the header {of_any(header)}"
    for name, text in zip(HEADER, header):
        if name != text:
            return f"list: the header has another name in place of '{name}'"
    for number, record in enumerate(records, 1):
        if of_any(record):
            return f"list: record {number} {of_any(record)}"
        for name in HEADER:
            said = complaint(name, record)
            if said:
                return f"list: record {number}: column '{name}' {said}"
    return None
