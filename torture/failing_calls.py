#!/usr/bin/env python3
"""Lets each allocation, each read of standard input and each write to standard output of a whole rehearsal of the sample fail in turn, alone and with all after it, and looks at what comes out.

    torture/failing_calls.py [--step N] [--first N] [--last N] [--jobs N] [PROGRAM]

The program is the proved one, or SHEETDESK, where none is named; status 0 where all is as it must be. With a step each Nth allocation alone is
refused (each read and each write still is): all of them are 140,000 runs. --first and --last part them: those allocations alone are refused, from the
one to the other. So many runs at once as --jobs says (1).

It needs gcc, which makes a library that is loaded before the C library. What must come out:
- a read that fails: nothing but `refused: list`, status 1;
- a write that fails: a beginning of what goes out undisturbed, status 3, `store: StoreFault` on standard error;
- an allocation that fails: all of it, status 0; or a beginning of it, where the last line may be a report line of the next request with the refusal 24 or 25; or
  nothing but what a word or list that could not be read is answered with. Then the status is 3 and standard error names the fault.
No other line may differ: an answer never changes in place of the error.
"""
import argparse
import os
import subprocess
import sys
import tempfile
from collections import Counter
from concurrent.futures import ThreadPoolExecutor

ROOT = os.path.dirname(os.path.dirname(os.path.abspath(__file__)))
sys.path.insert(0, os.path.join(ROOT, "bench"))
sys.dont_write_bytecode = True

from program import program as named_or_proved

WORDS = "rehearse --archive 6f0d3a52-9c1e-4b7a-8f24-1d5be07c9a10 --at 2026-03-02T07:30:00.000Z --frame 25832,500000000,5900000000,540960000,5961440000,256,256,4,3,2,3".split()
LIBRARY = r"""
#define _GNU_SOURCE
#include <dlfcn.h>
#include <errno.h>
#include <stdlib.h>
#include <string.h>
#include <unistd.h>
static long counts[3], which[3], on[3], more[3];
static int ready;
extern void *__libc_malloc(size_t);
extern void *__libc_calloc(size_t, size_t);
extern void *__libc_realloc(void *, size_t);
extern void *__libc_memalign(size_t, size_t);
static ssize_t (*true_read)(int, void *, size_t);
static ssize_t (*true_write)(int, const void *, size_t);
__attribute__((constructor)) static void begin(void) {
  const char *names[3] = {"FAIL_MEMORY", "FAIL_READ", "FAIL_WRITE"};
  true_read = dlsym(RTLD_NEXT, "read");
  true_write = dlsym(RTLD_NEXT, "write");
  for (int i = 0; i < 3; i++) {
    const char *text = getenv(names[i]);
    on[i] = text != NULL;
    which[i] = text ? atol(text) : 0;
    more[i] = text && strchr(text, '+') != NULL;
  }
  ready = 1;
}
static int fails(int kind) {
  if (!ready) return 0;
  counts[kind]++;
  return on[kind] && (counts[kind] == which[kind] || (more[kind] && counts[kind] > which[kind]));
}
void *malloc(size_t n) { return fails(0) ? (errno = ENOMEM, (void *)0) : __libc_malloc(n); }
void *calloc(size_t a, size_t b) { return fails(0) ? (errno = ENOMEM, (void *)0) : __libc_calloc(a, b); }
void *realloc(void *p, size_t n) { return fails(0) ? (errno = ENOMEM, (void *)0) : __libc_realloc(p, n); }
void *aligned_alloc(size_t a, size_t n) { return fails(0) ? (errno = ENOMEM, (void *)0) : __libc_memalign(a, n); }
int posix_memalign(void **p, size_t a, size_t n) {
  if (fails(0)) return ENOMEM;
  *p = __libc_memalign(a, n);
  return *p ? 0 : ENOMEM;
}
ssize_t read(int fd, void *to, size_t n) { return fd == 0 && fails(1) ? (errno = EIO, -1) : true_read(fd, to, n); }
ssize_t write(int fd, const void *from, size_t n) { return fd == 1 && fails(2) ? (errno = EIO, -1) : true_write(fd, from, n); }
__attribute__((destructor)) static void end(void) {
  const char *text = getenv("COUNTS");
  char line[100];
  int at = 0;
  if (!text) return;
  for (int i = 0; i < 3; i++) {
    long n = counts[i];
    char digits[24];
    int k = 0;
    do { digits[k++] = '0' + n % 10; n /= 10; } while (n);
    while (k) line[at++] = digits[--k];
    line[at++] = i == 2 ? '\n' : ' ';
  }
  true_write(atoi(text), line, at);
}
"""


def run(program, library, listed, extra):
    given = {"PATH": os.environ.get("PATH", ""), "LD_PRELOAD": library, **extra}
    done = subprocess.run([program, *WORDS], input=listed, capture_output=True, env=given)
    return done.stdout, done.stderr, done.returncode


def counted(program, library, listed):
    """How many allocations, reads and writes an undisturbed run makes."""
    end, begin = os.pipe()
    subprocess.run([program, *WORDS], input=listed, stdout=subprocess.DEVNULL, env={"PATH": "", "LD_PRELOAD": library, "COUNTS": str(begin)}, pass_fds=[begin], check=True)
    os.close(begin)
    with os.fdopen(end) as it:
        return [int(n) for n in it.read().split()]


def is_beginning(out, whole):
    """Whether this is a beginning of the whole, where the line that would come next may tell of want of memory or a store that failed."""
    if whole.startswith(out):
        return True
    head, line = out.rstrip(b"\n").rpartition(b"\n")[::2]
    fields, at = line.split(b","), len(head) + 1
    wanted = whole[at:].split(b"\n", 1)[0].split(b",")
    return whole.startswith(head + b"\n") and len(fields) == 4 and fields[:2] == wanted[:2] and fields[2:] in ([b"0", b"24"], [b"0", b"25"])


def is_right(kind, seen, whole):
    out, error, status = seen
    if kind == "FAIL_READ":
        return (out, error, status) == (b"refused: list\n", b"", 1)
    if kind == "FAIL_WRITE":
        return whole.startswith(out) and status == 3 and error == b"store: StoreFault\n"
    if status == 0:
        return out == whole and error == b""
    return status == 3 and error in (b"store: OutOfMemory\n", b"store: StoreFault\n") and is_beginning(out, whole)


def main():
    words = argparse.ArgumentParser(description=__doc__, formatter_class=argparse.RawDescriptionHelpFormatter)
    words.add_argument("--step", type=int, default=1)
    words.add_argument("--first", type=int, default=1)
    words.add_argument("--last", type=int)
    words.add_argument("--jobs", type=int, default=1)
    words.add_argument("program", nargs="?", )
    said = words.parse_args()
    program = said.program or named_or_proved()
    with open(os.path.join(ROOT, "samples/archive.csv"), "rb") as it:
        listed = it.read()
    with open(os.path.join(ROOT, "samples/archive.expected.txt"), "rb") as it:
        whole = it.read()
    wrong = 0
    with tempfile.TemporaryDirectory() as room:
        library = os.path.join(room, "failing.so")
        subprocess.run(["gcc", "-shared", "-fPIC", "-O1", "-x", "c", "-", "-o", library, "-ldl"], input=LIBRARY.encode(), check=True)
        assert run(program, library, listed, {}) == (whole, b"", 0), "the undisturbed run"
        for kind, count in zip(("FAIL_MEMORY", "FAIL_READ", "FAIL_WRITE"), counted(program, library, listed)):
            ends, step = Counter(), said.step if kind == "FAIL_MEMORY" else 1
            first, last = (said.first, min(said.last or count, count)) if kind == "FAIL_MEMORY" else (1, count)
            tries = [extra for n in range(first, last + 1, step) for extra in (str(n), f"{n}+")]
            with ThreadPoolExecutor(said.jobs) as pool:
                for extra, seen in zip(tries, pool.map(lambda extra: run(program, library, listed, {kind: extra}), tries)):
                    ends[seen[2]] += 1
                    if not is_right(kind, seen, whole):
                        wrong += 1
                        print(f"{kind} {extra}: status {seen[2]}, {seen[0][-200:]!r}, {seen[1][-200:]!r}")
            print(f"{kind[5:].lower()}: {count} calls, of which {len(tries) // 2} were refused, alone and with all after them; runs by status: {dict(sorted(ends.items()))}")
    print(f"{wrong} wrong")
    return 1 if wrong else 0


if __name__ == "__main__":
    sys.exit(main())
