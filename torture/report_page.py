#!/usr/bin/env python3
"""Opens the page of a register in Chromium, without a window, and says what is wrong with it.

Usage: torture/report_page.py [PAGE..] [--pictures] [--only-machine]

Without a page: those of samples/make_report.py, which are the sample's, its middle, the custody of a loan at that time, the page of a
fault, and two hostile ones; and two drawings, the sample's and a hostile one. Then the program itself carries the sample out in a folder
up to the same time, and prints the same: the register's page, the loan's and the map with the names of samples/names.csv, as FILE and as
the folder's own, and the page of the fault once a mark was altered behind its back; and the page of a register with more receipts than
have rows, which is compared alone. They must be the second machine's to the byte. With --only-machine the program is left out. The program is the one that
SHEETDESK names, or else the proved one. The last line says whether all held; status 1 where something did not.

Of each page: tidy finds no error; every link leads to a place of the page; no request leaves it; what a browser makes of it has no
script, image or frame; no page is wider than its window, at 1280, 768 and 390, light and dark; printed it is A4. The hostile pages have
labels with markup, quotes, controls, text from right to left and a word without spaces. Of a drawing: it is XML without script or
address, and no request leaves it. With --pictures the pictures in samples/ are
made anew, of the middle. Chromium and tidy are Debian's (`apt-get install chromium tidy`).
"""

import json
import os
import re
import shutil
import sqlite3
import subprocess
import sys
import tempfile
import xml.dom.minidom

TOP = os.path.dirname(os.path.dirname(os.path.abspath(__file__)))
SAMPLES = os.path.join(TOP, "samples")
sys.path[:0] = [SAMPLES, os.path.join(TOP, "bench")]
sys.dont_write_bytecode = True

import make_report
import nordmark
from program import program

PICTURES = [("report-desk.png", "middle", 1280, 1760, ()), ("report-phone.png", "middle", 500, 1500, ("--force-dark-mode", "--blink-settings=preferredColorScheme=0")),
            ("report-loan.png", "loan", 1280, 1760, ())]
WIDTHS = [1280, 768, 390]
MACHINE = ["middle", "loan", "fault", "odd", "odd-loan", "many"]
DRAWN = ["odd-map"]
RECORDS = 58
# What the sample's page may have, in bytes.
GREATEST = 150_000


def chromium(folder, page, *words):
    command = ["chromium", "--headless", "--no-sandbox", "--disable-gpu", "--hide-scrollbars", f"--user-data-dir={folder}/profile", *words, f"file://{page}"]
    return subprocess.run(command, capture_output=True, timeout=120, check=True).stdout.decode()


def tidy_errors(page):
    told = subprocess.run(["tidy", "-eq", "-utf8", page], capture_output=True, check=False)
    return [line for line in told.stderr.decode().splitlines() if " Error: " in line]


def loose_links(text):
    """Links that lead out of the page, or to no place in it."""
    places = set(re.findall(r' id="([^"]*)"', text))
    links = re.findall(r'(?:href|src)="([^"]*)"', text) + re.findall(r"url\(([^)]*)\)", text)
    return [link for link in links if not link.startswith("#") or link[1:] not in places]


def requests_out(folder, page):
    """What a browser asked of the network while it showed the page."""
    log = os.path.join(folder, "net.json")
    chromium(folder, page, f"--log-net-log={log}", "--virtual-time-budget=2000", "--dump-dom")
    with open(log, encoding="utf-8") as found:
        text = found.read()
    told = json.loads(text if text.rstrip().endswith("}") else text.rstrip().rstrip(",") + "]}")
    urls = [event.get("params", {}).get("url", "") for event in told["events"] if isinstance(event.get("params"), dict)]
    own = ("file:", "data:", "chrome:", "chrome-", "about:", "blob:", "devtools:")
    # Chromium itself asks its maker for updates and lists; none of that has the page as its initiator.
    makers = re.compile(r"https?://([\w-]+\.)*(google|googleapis|gvt1|gstatic)\.com/")
    return sorted({url for url in urls if url and not url.startswith(own) and not makers.match(url)})


WIDTH = "<script>onload=()=>{document.documentElement.dataset.over=document.documentElement.scrollWidth-innerWidth}</script>"


def too_wide(folder, page, width):
    """By how much the page is wider than a window of this width, details open; measured in a copy that has a script for it."""
    with open(page, encoding="utf-8") as found:
        text = found.read().replace("<details", "<details open").replace("</head>", WIDTH + "</head>", 1)
    copy = os.path.join(folder, "measured.html")
    with open(copy, "w", encoding="utf-8") as to:
        # A window of Chromium is 500 wide at least, so a narrow one is a frame in it.
        to.write(text)
    frame = os.path.join(folder, "frame.html")
    with open(frame, "w", encoding="utf-8") as to:
        to.write(f'<!DOCTYPE html><iframe id="f" src="measured.html" width="{width}" height="900" style="border:0"></iframe><script>onload=()=>{{document.body.dataset.over='
                 "document.getElementById('f').contentDocument.documentElement.dataset.over}</script>")
    told = re.search(r'data-over="(-?\d+)"', chromium(folder, frame, "--allow-file-access-from-files", "--virtual-time-budget=2000", "--window-size=1600,1000", "--dump-dom"))
    return int(told.group(1)) if told else 10**6


def odd_elements(folder, page):
    """Elements that a page never has."""
    tree = chromium(folder, page, "--virtual-time-budget=1000", "--dump-dom")
    return re.findall(r"<(?:script|img|iframe|object|embed|link|base|form)\b[^>]*", tree)


def printed(folder, page):
    """The sheets of paper that it takes, or None where one is not A4."""
    paper = os.path.join(folder, "page.pdf")
    chromium(folder, page, "--no-pdf-header-footer", f"--print-to-pdf={paper}")
    with open(paper, "rb") as found:
        boxes = re.findall(rb"/MediaBox\s*\[\s*0 0 ([\d.]+) ([\d.]+)\s*\]", found.read())
    return len(boxes) if boxes and all(round(float(w)) == 595 and round(float(h)) == 842 for w, h in boxes) else None


def look_at(folder, page):
    with open(page, encoding="utf-8") as found:
        text = found.read()
    faults = tidy_errors(page) + [f"loose link {link}" for link in loose_links(text)] + [f"asks for {url}" for url in requests_out(folder, page)]
    faults += [f"has {each}" for each in odd_elements(folder, page)]
    for width in WIDTHS:
        over = too_wide(folder, page, width)
        faults += [f"{over} wider than {width}"] if over > 0 else []
    sheets = printed(folder, page)
    faults += [] if sheets else ["not printed on A4"]
    print(f"{os.path.basename(page)}: {len(text.encode())} bytes, {sheets} sheets of A4, {len(faults)} faults")
    for fault in faults:
        print("   " + fault)
    return faults


def look_at_drawing(folder, path):
    with open(path, encoding="utf-8") as found:
        text = found.read()
    parsed = xml.dom.minidom.parseString(text)
    names = {element.tagName for element in parsed.getElementsByTagName("*")}
    faults = [f"has {name}" for name in sorted(names - {"svg", "title", "style", "defs", "pattern", "path", "rect", "use", "text", "g"})]
    faults += [f"loose link {link}" for link in loose_links(text)] + [f"asks for {url}" for url in requests_out(folder, path)]
    print(f"{os.path.basename(path)}: {len(text.encode())} bytes, {len(faults)} faults")
    for fault in faults:
        print("   " + fault)
    return faults


def machine_pages(folder):
    """The second machine's pages, by their names."""
    pages = {name: os.path.join(folder, f"{name}.html") for name in MACHINE} | {name: os.path.join(folder, f"{name}.svg") for name in DRAWN}
    for name, page in pages.items():
        subprocess.run([sys.executable, os.path.join(SAMPLES, "make_report.py"), f"--{name}", page], check=True)
    return pages


def alter(package, mark):
    """Moves a mark behind the register's back."""
    with sqlite3.connect(package) as store:
        row = store.execute("SELECT local_id FROM sheet_identity WHERE kind = 3 AND uuid = ?", (mark,)).fetchone()
        store.execute("UPDATE sheet_rows SET x = x + 1 WHERE id = ?", row)
    store.close()


def founded(folder, name, requests):
    """A folder of the program's that has carried a list out."""
    maps, path = os.path.join(folder, name), os.path.join(folder, f"{name}.csv")
    os.mkdir(maps)
    with open(path, "wb") as to:
        to.write(requests)
    subprocess.run([program(), "init", maps, "--archive", nordmark.ARCHIVE, "--at", nordmark.CREATED, "--frame", nordmark.FRAME], check=True, stdout=subprocess.DEVNULL)
    subprocess.run([program(), "import", maps, path], check=True, stdout=subprocess.DEVNULL)
    return maps


def printed_to(path, *words, status=0):
    with open(path, "wb") as to:
        done = subprocess.run([program(), *words], stdout=to, stderr=subprocess.DEVNULL, check=False)
    assert done.returncode == status, (words, done.returncode)
    return path


def own_pages(folder):
    """The program's pages and drawings, each with the file that it must be the same as, by the second machine's name for it."""
    with open(os.path.join(SAMPLES, "archive.csv"), "rb") as found:
        maps = founded(folder, "maps", b"".join(found.readlines()[:RECORDS]))
    many, names = founded(folder, "many", make_report.many_requests()), os.path.join(SAMPLES, "names.csv")

    def own(name):
        return os.path.join(folder, f"own-{name}")

    pages = [("middle", printed_to(own("middle.html"), "report", maps, "--names", names)), ("loan", printed_to(own("loan.html"), "report", maps, nordmark.HARBOUR, "--names", names)),
             ("lending", printed_to(own("map.svg"), "map", maps, "--names", names)), ("many", printed_to(own("many.html"), "report", many, "--names", names))]
    shutil.copy(names, maps)
    pages += [("middle", printed_to(own("middle-2.html"), "report", maps)), ("lending", printed_to(own("map-2.svg"), "map", maps))]
    alter(os.path.join(maps, f"{nordmark.BOAT}.gpkg"), nordmark.mark("buoy"))
    return [*pages, ("fault", printed_to(own("fault.html"), "report", maps, status=3))]


def same_bytes(one, other):
    with open(one, "rb") as a, open(other, "rb") as b:
        return a.read() == b.read()


def main():
    words = sys.argv[1:]
    if "--help" in words:
        sys.exit(print(__doc__))
    pages = [os.path.abspath(word) for word in words if not word.startswith("--")]
    with tempfile.TemporaryDirectory() as folder:
        made, faults = machine_pages(folder), []
        if not pages:
            made["lending"] = os.path.join(SAMPLES, "lending.svg")
            pages = [os.path.join(SAMPLES, "report.html"), *(page for name, page in made.items() if name != "many")]
            if "--only-machine" not in words:
                own = own_pages(folder)
                faults += [f"the program's {name} is another" for name, page in own if not same_bytes(page, made[name])]
                pages += [page for name, page in own if name != "many" and not os.path.splitext(page)[0].endswith("-2")]
            size = os.path.getsize(os.path.join(SAMPLES, "report.html"))
            faults += [f"the sample's page has {size} bytes"] if size > GREATEST else []
        print("".join(f"{fault}\n" for fault in faults), end="")
        faults += [fault for page in pages for fault in (look_at_drawing if page.endswith(".svg") else look_at)(folder, page)]
        if "--pictures" in words:
            for name, page, width, height, more in PICTURES:
                chromium(folder, made[page], "--force-device-scale-factor=0.5", f"--window-size={width},{height}", f"--screenshot={os.path.join(SAMPLES, name)}", *more)
    print(f"{len(faults)} faults" if faults else "no fault: each page and drawing is as it must be")
    sys.exit(bool(faults))


if __name__ == "__main__":
    main()
