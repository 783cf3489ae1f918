#!/usr/bin/env python3
"""Holds the second machine of samples/reference.py, and a program where one is named, against the worked examples.

In the gate they are sessions, but for the longest (samples/make_sessions.py).

Usage: worked_lists.py [PROGRAM]      PROGRAM is ./sheetdesk, or bench/plain_rehearse.py

The examples stand in worked_lists.txt beside this file, with all that they must print, written out by hand; its head says how they
are written. Three more are made here, since they are long. Of the second machine the replies are compared too: what a refusal
carries, where a receipt comes from and goes to, its counts and its moment. The program is run on each list that an example has a
manifest or a fault for. Status 1, and the two texts, at the first difference.
"""

import hashlib
import os
import re
import subprocess
import sys
from collections import namedtuple

HERE = os.path.dirname(os.path.abspath(__file__))
sys.path.insert(0, os.path.join(HERE, "..", "samples"))
sys.dont_write_bytecode = True

import reference
from machine.lists import NoList, read_requests
from machine.world import audit

# Texts of the formats, by hand.
LIST_HEADER = "request,at,command,package,identity,other,kind,zoom,column,row,last_column,last_row,x,y,code,ticket,text,data\n"
REPORT_HEADER = "line,request,seq,refusal\n"
MANIFEST_HEADER = "kind,identity,other,zoom,column,row,x,y,code,size,fingerprint,text\n"
FRAME = "25832,0,0,4096,4096,256,256,0,3,1,1"
WIDE_FRAME = "25832,0,0,65536,65536,256,256,0,1,256,256"
MOMENTS = {"T": "2024-05-01T08:00:00.000Z", "U": "2024-05-01T09:00:00.000Z"}
FIRST_DIGITS = {"A": "a", "B": "b", "C": "c", "D": "d", "E": "e", "G": "f"}
ABBREVIATION = re.compile(r"(?<![\w.-])(?:([A-EG])|([iq])([0-9]+)|([TU]))(?![\w.-])")

# A list, the replies to its records, the desk's texts of some of them by the record's number, the manifests of all live packages in order, and the reason where it is none.
Check = namedtuple("Check", "name frame records replies desk manifests fault last_end")


def uuid_of(first_digit, number=0):
    return f"{first_digit}0000000-0000-4000-8000-{number:012}"


def in_full(text):
    """The text with each abbreviation written out."""
    def word(found):
        package, kind, number, moment = found.groups()
        if package:
            return uuid_of(FIRST_DIGITS[package])
        return MOMENTS[moment] if moment else uuid_of({"i": 0, "q": 9}[kind], int(number))

    return ABBREVIATION.sub(word, text)


def fingerprint(found):
    if found[1].startswith("hex "):
        return hashlib.sha256(bytes.fromhex(found[1][4:])).hexdigest()
    place, data = found[1].split(" ")
    return hashlib.sha256(f"tile {place.replace('/', ' ')}\n{data}".encode()).hexdigest()


def filled(text):
    """The text with each fingerprint in brackets written out."""
    return re.sub("<([^>]+)>", fingerprint, text)


def manifest_line(line):
    """A line of a manifest written out: abbreviations in its first three fields, fingerprints in brackets."""
    kind, identity, other, rest = line.split(",", 3)
    return ",".join([kind, in_full(identity), in_full(other), filled(rest)]) + "\n"


def record_line(line):
    """A record written out: all but its last six fields, which are numbers, text and data."""
    fields = line.split(",")
    return ",".join([*map(in_full, fields[:6]), *fields[6:]]) + "\n"


def checks_of(name, lines):
    """A check for each block of manifests or fault of an example."""
    frame, records, replies, desk, manifests, last_end = FRAME, [], [], {}, "", True
    for line, after in zip(lines, [*lines[1:], "-> "]):
        if line.startswith("frame "):
            frame = line[6:]
        elif line.startswith("no line end"):
            last_end = False
        elif line.startswith("refused "):
            yield Check(name, frame, records, replies, desk, "", line[8:], last_end)
        elif line.startswith("desk "):
            desk = {**desk, len(records): in_full(filled(line[5:]))}
        elif " -> " in line:
            record, reply = line.split(" -> ")
            records, replies, manifests = [*records, record_line(record)], [*replies, in_full(reply)], ""
        else:
            manifests += in_full(line) + "\n" + MANIFEST_HEADER if line.startswith("package ") else manifest_line(line)
            if "->" in after:
                yield Check(name, frame, records, replies, desk, manifests, None, last_end)


def written_out():
    with open(os.path.join(HERE, "worked_lists.txt"), encoding="utf-8") as text:
        lines = [line for line in text.read().split("\n") if line and not line.startswith("#")]
    starts = [number for number, line in enumerate(lines) if line.startswith("== ")]
    for start, end in zip(starts, [*starts[1:], len(lines)]):
        yield from checks_of(lines[start][3:], lines[start + 1 : end])


def tile_sizes():
    """A tile of the greatest size is taken; one of a byte more, and one of none, are not."""
    data = ["41" * 1_048_576, "41" * 1_048_577, ""]
    place = "tile 1 0 0\n".encode()
    yield "tile sizes", FRAME, [
        f"q1,T,add,A,i1,,tile,1,0,0,,,,,,,,{data[1]} -> refusal 5",
        f"q2,T,add,A,i1,,tile,1,0,0,,,,,,,,{data[2]} -> refusal 5",
        f"q3,T,add,A,i1,,tile,1,0,0,,,,,,,,{data[0]} -> seq 1, - to A, tiles 1, bytes 1048576",
        "package A",
        f"tile,i1,,1,0,0,,,,1048576,<hex {place.hex()}{data[0]}>,",
    ]


def many_packages():
    """256 rows, 255 loans of one each: with the archive these are the 256 packages that may live; one more is refused, where nothing else refuses it."""
    def child(k):
        return f"c0000000-0000-4000-8000-{k:012}"

    def holding(k):
        text = f"row {256 * k} 65536 0\n".encode().hex()
        return f"row,i{k + 1},,,,,{256 * k},65536,0,0,<hex {text}>,"

    lines = [f"q{k + 1},T,add,A,i{k + 1},,row,,,,,,{256 * k},65536,0,,, -> seq {k + 1}" for k in range(256)]
    for k in range(256):
        reply = "refusal 23" if k == 255 else f"seq {257 + k}, A to {child(k)}, rows 1"
        lines.append(f"q{257 + k},T,split,A,,{child(k)},strict,0,{k},0,{k},0,,,,,, -> {reply}")
    # of several reasons this one comes last; and an item still comes in
    lines.append(f"q513,T,split,A,,{child(255)},strict,0,256,0,256,0,,,,,, -> refusal 15")
    lines.append("q514,T,add,A,i256,,row,,,,,,0,65536,0,,, -> refusal 6")
    lines.append(f"q515,T,add,A,i257,,row,,,,,,{256 * 255},65535,0,,, -> seq 512")
    text = f"row {256 * 255} 65535 0\n".encode().hex()
    lines += ["package A", holding(255), f"row,i257,,,,,{256 * 255},65535,0,0,<hex {text}>,"]
    for k in range(255):
        lines += [f"package {child(k)}", holding(k)]
    yield "two hundred and fifty-six packages", WIDE_FRAME, lines


def pages():
    """n tiles, each with a byte of its own, lent in one split and brought back: around one page of 256, and of two."""
    for n in (1, 255, 256, 257, 513):
        lines, holdings = [], []
        for k in range(n):
            byte = k % 251
            content = f"tile 0 {k % 256} {k // 256}\n".encode() + bytes([byte])
            lines.append(f"q{k + 1},T,add,A,i{k + 1},,tile,0,{k % 256},{k // 256},,,,,,,,{byte:02x} -> seq {k + 1}")
            holdings.append(f"tile,i{k + 1},,0,{k % 256},{k // 256},,,,1,<hex {content.hex()}>,")
        lines.append(f"q{n + 1},T,split,A,,B,strict,0,0,0,255,255,,,,,, -> seq {n + 1}, A to B, tiles {n}, bytes {n}")
        lines += ["package A", "package B", *holdings]
        lines.append(f"q{n + 2},T,merge,B,,A,,,,,,,,,,{n + 1},, -> seq {n + 2}, B to A, tiles {n}, bytes {n}")
        yield f"pages of 256, {n} tiles", WIDE_FRAME, [*lines, "package A", *holdings]


def made():
    for examples in (tile_sizes(), many_packages(), pages()):
        for name, frame, lines in examples:
            yield from checks_of(name, [f"frame {frame}", *lines])


def list_of(check):
    text = LIST_HEADER + "".join(check.records)
    return text.encode() if check.last_end else text.encode()[:-1]


def report_of(records, replies):
    """The report of a list of these records."""
    lines = []
    for number, (record, reply) in enumerate(zip(records, replies), 1):
        word, value = re.match("(seq|refusal) ([0-9]+)", reply).groups()
        lines.append(f"{number},{record[:36]},{value if word == 'seq' else 0},{value if word == 'refusal' else 0}\n")
    return REPORT_HEADER + "".join(lines)


def expected(check):
    if check.fault:
        return "refused: list\n", 1
    return report_of(check.records, check.replies) + check.manifests, 0


def tellings(reply):
    """The ways in which an example may tell of a reply: a refusal one, a receipt the more the longer."""
    if isinstance(reply, reference.Refusal):
        return [f"refusal {reply.number} {reply.detail}".rstrip()]
    counts = zip(["tiles", "media", "rows", "links", "bytes"], reply.sums())
    moved = [f"{reply.source or '-'} to {reply.target or '-'}", *(f"{name} {count}" for name, count in counts if count)]
    return [f"seq {reply.seq}", ", ".join([f"seq {reply.seq}", *moved]), ", ".join([f"seq {reply.seq}", *moved, f"at {reply.at}"])]


def fault_of(text):
    try:
        read_requests(text)
    except NoList as fault:
        return str(fault)
    return None


def must_be(check, found, wanted):
    if found != wanted:
        sys.exit(f"{check.name}: found\n{found}\nand not\n{wanted}")


def check_reference(check):
    records, wanted = list_of(check), expected(check)
    done = reference.rehearse(uuid_of("a"), check.frame, records)
    must_be(check, fault_of(records), check.fault)
    for reply, told in zip(done.replies, check.replies):
        must_be(check, told if told in tellings(reply) else tellings(reply), told)
    for number, text in check.desk.items():
        must_be(check, reference.reply_text(done.replies[number - 1]), text)
    must_be(check, (done.text, done.status), wanted)
    audit(done.world)


def check_program(check, program):
    words = ["rehearse", f"--archive={uuid_of('a')}", f"--at={MOMENTS['T']}", f"--frame={check.frame}"]
    ran = subprocess.run([program, *words], input=list_of(check), stdout=subprocess.PIPE, stderr=subprocess.PIPE)
    must_be(check, (ran.stdout.decode(), ran.returncode, ran.stderr), (*expected(check), b""))


def main():
    if len(sys.argv) > 2:
        sys.exit(__doc__)
    checks = [*written_out(), *made()]
    for check in checks:
        check_reference(check)
        for program in sys.argv[1:]:
            check_program(check, program)
    names = len({check.name for check in checks})
    machines = " and ".join(["the second machine", *sys.argv[1:]])
    print(f"{names} examples, {len(checks)} lists, {sum(len(check.records) for check in checks)} requests: {machines} as written out")


if __name__ == "__main__":
    main()
