#!/usr/bin/env python3
"""A web page of another origin, open in Chromium beside a desk. It tries each way in which a page can send a request.

Usage: foreign_page.py
       SHEETDESK=PROGRAM foreign_page.py    over another program than the proved one

The page comes once from a server on another port of this machine, and once from a file, so that its origin is another one or `null`.
It deletes a sheet by `fetch`, by `XMLHttpRequest`, by a beacon and by forms, and it reads the packages. It tells its own server what it
could read. A row for each page: how many requests of it the desk refused with 403.

Status 0 where the desk refused each POST, the page could read nothing, the world is as it was, and the desk then answers a client that is
no page. Chromium is Debian's (`apt-get install chromium`).
"""

import http.server
import json
import subprocess
import sys
import tempfile
import threading

from running_desk import ARCHIVE, FRAME, TOP, Desk

from machine.world import apply
from reference import rehearse, reply_text, sights_text

DELETION = {
    "request": "77777777-7777-4777-8777-777777777777", "at": "2026-03-02T09:00:00.000Z", "command": "delete",
    "package": ARCHIVE, "identity": "3ace3bf7-1c26-5437-b740-ccb5d4aa8957",
}
# How often a page posts the deletion: a fetch, an XMLHttpRequest, a beacon, and two forms. A second fetch has to ask first, and is refused then.
POSTS = 5

PAGE = """<!doctype html><meta charset="utf-8"><title>elsewhere</title>
<iframe name="hidden"></iframe><iframe name="other"></iframe>
<form id="plain" target="hidden" method="post" enctype="text/plain" action="{desk}/requests"></form>
<form id="usual" target="other" method="post" action="{desk}/requests"></form>
<script>
const body = {body}, told = []
const tell = what => told.push(what)
const input = (form, name, value) => {{
  const made = document.createElement('input')
  made.name = name; made.value = value; form.append(made)
}}
async function all() {{
  await fetch('{desk}/requests', {{ method: 'POST', mode: 'no-cors', body }}).catch(() => 0)
  await fetch('{desk}/requests', {{ method: 'POST', headers: {{ 'Content-Type': 'application/json' }}, body }}).then(it => it.text()).then(tell).catch(() => 0)
  await new Promise(done => {{
    const asked = new XMLHttpRequest()
    asked.onloadend = () => {{ if (asked.responseText) tell(asked.responseText); done() }}
    asked.open('POST', '{desk}/requests'); asked.send(body)
  }})
  navigator.sendBeacon('{desk}/requests', body)
  // a text/plain form writes NAME=VALUE: so all is in the name, up to a field that the '=' stands in
  input(plain, body.slice(0, -1) + ',"x":"', '"}}'); plain.submit()
  input(usual, 'body', body); usual.submit()
  await fetch('{desk}/packages').then(it => it.text()).then(tell).catch(() => 0)
  await new Promise(done => setTimeout(done, 1500))
  await fetch('{told}/told', {{ method: 'POST', mode: 'no-cors', body: JSON.stringify(told) }})
}}
all()
</script>
"""


class Elsewhere(http.server.BaseHTTPRequestHandler):
    """Gives the page, and takes what it could read."""

    def do_GET(self):
        self.send_response(200)
        self.send_header("Content-Type", "text/html; charset=utf-8")
        self.end_headers()
        self.wfile.write(self.server.page)

    def do_POST(self):
        self.server.told.append(json.loads(self.rfile.read(int(self.headers["Content-Length"]))))
        self.send_response(204)
        self.end_headers()

    def log_message(self, *_):
        pass


def show(address):
    """Opens the page in Chromium, and waits until it has told what it could read."""
    with tempfile.TemporaryDirectory() as profile:
        subprocess.run(["chromium", "--headless", "--no-sandbox", "--disable-gpu", f"--user-data-dir={profile}", "--virtual-time-budget=20000",
                        "--dump-dom", address], capture_output=True, timeout=120, check=True)


def refusals(desk):
    """How many requests the desk refused with 403 so far, by method."""
    words = [line.split(" ") for line in desk.lines()[1:] if line]
    return [found[1] for found in words if found[-1] == "403"], [found for found in words if found[1] == "POST" and found[-1] != "403"]


def main():
    if "--help" in sys.argv:
        sys.exit(print(__doc__))
    with open(f"{TOP}/samples/first.csv", "rb") as list_file:
        list_bytes = list_file.read()
    world = rehearse(ARCHIVE, FRAME, list_bytes).world
    packages = sights_text(world)
    server = http.server.ThreadingHTTPServer(("127.0.0.1", 0), Elsewhere)
    server.told, here = [], f"http://127.0.0.1:{server.server_port}"
    threading.Thread(target=server.serve_forever, daemon=True).start()
    with Desk(list_bytes) as desk, tempfile.NamedTemporaryFile(suffix=".html") as file:
        desk.wait()
        server.page = PAGE.format(desk=f"http://127.0.0.1:{desk.port}", told=here, body=json.dumps(json.dumps(DELETION))).encode()
        file.write(server.page)
        file.flush()
        before = 0
        for name, address in [("another port", here + "/"), ("a file", f"file://{file.name}")]:
            show(address)
            refused, taken = refusals(desk)
            posts = refused.count("POST")
            print(f"{name:14} {posts - before:3} POST refused", flush=True)
            if taken or posts - before < POSTS:
                sys.exit(f"a page of {name}: {posts - before} POST refused, and others {taken}")
            before = posts
            if (came := desk.get("/packages")) != packages:
                sys.exit(f"a page of {name} changed the world: {came}")
        if any(server.told) or len(server.told) != 2:
            sys.exit(f"the pages told: {server.told}")
        if (came := desk.post(json.dumps(DELETION).encode())) != (wanted := reply_text(apply(world, DELETION))):
            sys.exit(f"wanted {wanted}, came {came}")
    print("the pages read nothing and changed nothing, and the desk answers")


if __name__ == "__main__":
    main()
