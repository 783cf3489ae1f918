#!/usr/bin/env python3
"""A client of the desk: lends a sheet of an archive, lists the loan, and brings it home. Plain Python, standard library alone.

Usage: client.py PORT ARCHIVE ZOOM COLUMN ROW

Each exchange is printed as two lines, `> ` and what was asked, `< ` and what was answered. Status 1 where a request was refused.
"""
import datetime
import http.client
import json
import sys
import time
import uuid


def ask(port, method, path, body=None):
    """Makes one exchange. Where no answer comes the same is asked again: a request acts once, however often it comes."""
    for _attempt in range(5):
        desk = http.client.HTTPConnection("127.0.0.1", port, timeout=30)
        try:
            desk.request(method, path, body)
            answer = desk.getresponse()
            return answer.status, answer.read().decode()
        except (OSError, http.client.HTTPException):
            time.sleep(1)
        finally:
            desk.close()
    sys.exit("the desk does not answer")


def tell(port, method, path, body=None):
    """Makes an exchange, prints it, and returns the answer. A refusal ends the program."""
    print(">", method, path, *([body] if body else []))
    status, text = ask(port, method, path, body)
    print("<", status, text.rstrip("\n").replace("\n", "\n< "))
    if status != 200:
        sys.exit(1)
    return text


def post(port, command, **members):
    """Posts a request under a new UUID, and returns that."""
    now = datetime.datetime.now(datetime.timezone.utc).strftime("%Y-%m-%dT%H:%M:%S.%f")[:23] + "Z"
    request = str(uuid.uuid4())
    tell(port, "POST", "/requests", json.dumps({"request": request, "at": now, "command": command, **members}))
    return request


def lend_and_return(port, archive, zoom, column, row):
    loan = str(uuid.uuid4())
    area = {"zoom": zoom, "column": column, "last_column": column, "row": row, "last_row": row}
    post(port, "split", package=archive, other=loan, kind="strict", **area)
    tell(port, "GET", f"/packages/{loan}/manifest")
    tickets = {package["package"]: package["ticket"] for package in json.loads(tell(port, "GET", "/packages"))}
    home = post(port, "merge", package=loan, other=archive, ticket=tickets[loan])
    tell(port, "GET", f"/receipts/{home}")


if __name__ == "__main__":
    lend_and_return(int(sys.argv[1]), sys.argv[2], *map(int, sys.argv[3:6]))
