"""Which program the scripts of bench/ and torture/ run, where their words name none."""

import os
import subprocess

TOP = os.path.dirname(os.path.dirname(os.path.abspath(__file__)))


def program():
    """The path of the program that SHEETDESK names, or else of the proved one, which is built first where it has to be."""
    given = os.environ.get("SHEETDESK")
    if given:
        return os.path.abspath(given)
    return subprocess.run([os.path.join(TOP, "sheetdesk"), "--built"], stdout=subprocess.PIPE, check=True, text=True).stdout.strip()
