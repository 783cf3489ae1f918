"""A desk over a rehearsal, for scripts that are its clients. It serves until it is stopped."""

import os
import signal
import socket
import subprocess
import sys
import tempfile
import time

TOP = os.path.dirname(os.path.dirname(os.path.abspath(__file__)))
sys.path[:0] = [os.path.join(TOP, "samples"), os.path.join(TOP, "bench")]
sys.dont_write_bytecode = True

from program import program

AT = "2026-03-02T07:30:00.000Z"
ARCHIVE = "6f0d3a52-9c1e-4b7a-8f24-1d5be07c9a10"
FRAME = "25832,500000000,5900000000,540960000,5961440000,256,256,4,3,2,3"
# Longer than an unproved program takes to carry out the longest list.
PATIENCE = 600


def free_port():
    with socket.socket() as taken:
        taken.bind(("127.0.0.1", 0))
        return taken.getsockname()[1]


class Desk:
    """The program over a list, and what it says on standard error."""

    def __init__(self, list_bytes, count=1000000):
        self.port, self.said = free_port(), tempfile.TemporaryFile()
        words = ["rehearse", "--archive", ARCHIVE, "--at", AT, "--frame", FRAME, "--log", "--serve", str(self.port), "--count", str(count)]
        self.process = subprocess.Popen([program(), *words], stdin=subprocess.PIPE, stdout=subprocess.DEVNULL, stderr=self.said)
        self.process.stdin.write(list_bytes)
        self.process.stdin.close()

    def __enter__(self):
        return self

    def __exit__(self, *_):
        if self.process.poll() is None:
            self.process.send_signal(signal.SIGKILL)
        self.process.wait()

    def lines(self):
        """What it has said so far, a line each."""
        self.said.seek(0)
        return self.said.read().decode().splitlines()

    def wait(self):
        """Waits until it says that it listens."""
        while f"listening on 127.0.0.1:{self.port}" not in self.lines():
            if self.process.poll() is not None:
                sys.exit(f"the desk ended with {self.process.returncode}: {self.lines()}")
            time.sleep(0.05)

    def connect(self):
        return socket.create_connection(("127.0.0.1", self.port), timeout=PATIENCE)

    def exchange(self, text):
        """The whole response to the bytes of a request."""
        with self.connect() as client:
            client.sendall(text)
            answer = b""
            while piece := client.recv(65536):
                answer += piece
        return answer

    def get(self, path):
        """The body of the response to a GET."""
        return self.exchange(b"GET %s HTTP/1.1\r\nHost: 127.0.0.1\r\n\r\n" % path.encode()).partition(b"\r\n\r\n")[2].decode()

    def post(self, body):
        """The body of the response to a request."""
        head = b"POST /requests HTTP/1.1\r\nHost: 127.0.0.1\r\nContent-Length: %d\r\n\r\n" % len(body)
        return self.exchange(head + body).partition(b"\r\n\r\n")[2].decode()
