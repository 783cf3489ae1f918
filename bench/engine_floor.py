#!/usr/bin/env python3
"""What the engine alone takes to open the files of a folder: the floor below each command that opens one.

Usage: engine_floor.py [--read] [ROUNDS] FOLDER..

(3 rounds.) A program of a hundred lines over the toolchain's `sqlite` opens each package file as `store_folder` does,
and closes it; with --read it also reads each row of each table once, and keeps none. It has no code of this register.
It is proved and compiled as `sheetdesk` is, by `rt ci` in a folder of its own, once for each toolchain (some four
minutes), and kept in ${XDG_CACHE_HOME:-~/.cache}/sheetdesk. `opening_times.py --engine` and `field_times.py --engine`
run it beside the register in one run.

Times are by the clock and of the processor: the median of the rounds with the least and the greatest. Told too are the
rows that were read, and the greatest resident memory.
"""

import argparse
import hashlib
import os
import shutil
import statistics
import subprocess
import sys
import tempfile
import time

KIT = "/opt/rattle"
CRATES = "engine_floor: io sqlite sqlite_disk sqlite_pager sqlite_std_file\n"
PROGRAM = r'''//! Opens package files by the engine alone, and reads each row of each table once where that is asked.
#![tactic(auto)]

ghost use Rattle.std.specs.Prelude.{IfOk, IsTrue};
ghost use Rattle.sqlite_std_file.specs.File.{file_is_usable};

use sqlite::{Alter, Connection, Error, ErrorCode, FileStore};
use sqlite_disk::{Files, Start};
use sqlite_pager::Options;
use sqlite_std_file::{FileFrom, open as open_pair};
use std::io;
use std::process::ExitCode;

/// The files are empty, and a torn write leaves each of its bytes old or new.
#[derive(Drop)]
pub struct Empty;

impl Start for Empty {
    ghost use Rattle.std.specs.Prelude.{[], true};

    ghost log = { [] };

    ghost db = { [] };

    ghost is_mixing = { true };

    fn mixes() -> bool {
        true
    }
}

/// A store in two files.
pub type FolderStore = FileStore<FileFrom<Empty>>;

/// The database at a path and its log.
fn files_at(rt: &HostRuntime, path: &str) -> Result<Files<FileFrom<Empty>>, Error>
    ensures { IfOk result (λ files. IsTrue (file_is_usable ⟦<Empty as Start>⟧ files.log)
        × IsTrue (file_is_usable ⟦<Empty as Start>⟧ files.db)) }
{
    match open_pair(rt, path, Empty) {
        Ok(files) => Ok(files),
        Err(_) => Err(Error::SqliteFailure(ErrorCode::CannotOpen)),
    }
}

/// A connection over a file.
fn connect(rt: &HostRuntime, path: &str) -> Result<Connection<FolderStore>, Error> {
    let files = files_at(rt, path)?;
    let mut options = Options::new(7);
    options.cache_pages = 2_000;
    options.checkpoint_frames = 4_000;
    match Connection::open_files_with(rt.alloc(), files, options, false) {
        Ok(conn) => Ok(conn),
        Err((error, _)) => Err(error),
    }
}

/// How many rows a table has: each is read and let go.
fn rows_of<S: Alter>(conn: &mut Connection<S>, sql: &str) -> Result<u64, Error> {
    let mut rows = conn.query(sql, &[])?;
    let mut count: u64 = 0;
    for _ in 0..u64::MAX {
        match rows.next()? {
            Some(_) => count = count.saturating_add(1),
            None => return Ok(count),
        }
    }
    Ok(count)
}

/// The tables of a package.
const READS: [&str; 15] = [
    "SELECT * FROM gpkg_spatial_ref_sys",
    "SELECT * FROM gpkg_contents",
    "SELECT * FROM gpkg_tile_matrix_set",
    "SELECT * FROM gpkg_tile_matrix",
    "SELECT * FROM gpkgext_relations",
    "SELECT * FROM sheet_package",
    "SELECT * FROM sheet_identity",
    "SELECT * FROM tiles_media",
    "SELECT * FROM rows_media",
    "SELECT * FROM rows_tiles",
    "SELECT * FROM sheet_receipts",
    "SELECT * FROM sheet_items",
    "SELECT * FROM sheet_tiles",
    "SELECT * FROM sheet_media",
    "SELECT * FROM sheet_rows",
];

/// How many rows a file has.
fn read_all<S: Alter>(conn: &mut Connection<S>) -> Result<u64, Error> {
    let mut count: u64 = 0;
    for sql in READS {
        count = count.saturating_add(rows_of(conn, sql)?);
    }
    Ok(count)
}

/// Opens a file, and reads its rows where that is asked.
fn look(rt: &HostRuntime, path: &str, reads: bool) -> Result<u64, Error> {
    let mut conn = connect(rt, path)?;
    if reads { read_all(&mut conn) } else { Ok(0) }
}

/// Looks at each file.
fn look_all(rt: &HostRuntime, paths: &[String], reads: bool) -> Result<u64, Error> {
    let mut count: u64 = 0;
    for path in paths {
        count = count.saturating_add(look(rt, path.as_str(), reads)?);
    }
    Ok(count)
}

/// The words of the command line, the program's name first.
fn words_given(rt: &HostRuntime) -> io::Result<Vec<String>> {
    Ok(std::env::args(rt)?.collect(rt.alloc())?)
}

fn main(rt: HostRuntime) -> ExitCode {
    let Ok(words) = words_given(&rt) else {
        return ExitCode::from(2);
    };
    let words = words.as_slice();
    if words.len() < 2 {
        return ExitCode::from(0);
    }
    let reads = words[1].as_str() == "read";
    match look_all(&rt, &words[2..], reads) {
        Ok(count) => match println!(&rt; "{count}") {
            Ok(()) | Err(_) => ExitCode::from(0),
        },
        Err(_) => ExitCode::from(1),
    }
}
'''


def kept_at():
    """Where the program is kept: by its text and by the toolchain's identity."""
    with open(os.path.join(KIT, "KIT-ID"), encoding="ascii") as kit:
        name = hashlib.sha256((kit.read() + CRATES + PROGRAM).encode()).hexdigest()
    home = os.environ.get("XDG_CACHE_HOME") or os.path.expanduser("~/.cache")
    return os.path.join(home, "sheetdesk", f"engine-{name}", "engine_floor")


def build(path):
    """Proves and compiles the program, and puts it there."""
    print("engine_floor: proving and compiling the program, which takes some four minutes", file=sys.stderr, flush=True)
    with tempfile.TemporaryDirectory() as room:
        crate = os.path.join(room, "crates", "engine_floor")
        os.makedirs(os.path.join(crate, "src"))
        files = {"HANDLES": "Handles allowed: none.\n", "crates.txt": CRATES, "crates/engine_floor/src/main.rt": PROGRAM}
        for name, text in files.items():
            with open(os.path.join(room, name), "w", encoding="utf-8") as out:
                out.write(text)
        subprocess.run(["git", "init", "-q", room], check=True)
        ran = subprocess.run(["rt", "ci"], cwd=room, stdout=subprocess.PIPE, stderr=subprocess.STDOUT, text=True)
        if ran.returncode != 0:
            sys.exit(ran.stdout[-2000:])
        os.makedirs(os.path.dirname(path), exist_ok=True)
        shutil.copy2(os.path.join(crate, "out", "engine_floor"), f"{path}.new")
        os.replace(f"{path}.new", path)


def engine():
    """The path of the program, which is built first where it has to be."""
    path = kept_at()
    if not os.path.exists(path):
        build(path)
    return path


def files_of(folder):
    """The package files of a folder."""
    if not os.path.isdir(folder):
        sys.exit(f"{folder}: no folder")
    found = sorted(os.path.join(folder, name) for name in os.listdir(folder) if name.endswith(".gpkg"))
    return found or sys.exit(f"{folder}: no file of a package")


def opened(folder, reads=False):
    """What one run takes: seconds by the clock and of the processor, KiB of memory, and the number of rows."""
    start = time.perf_counter()
    ran = subprocess.Popen([engine(), "read" if reads else "open", *files_of(folder)], stdout=subprocess.PIPE)
    printed = ran.stdout.read()
    _, status, used = os.wait4(ran.pid, 0)
    took = time.perf_counter() - start
    ran.returncode = os.waitstatus_to_exitcode(status)
    if ran.returncode != 0:
        sys.exit(f"{folder}: status {ran.returncode}")
    return took, used.ru_utime + used.ru_stime, used.ru_maxrss, int(printed)


def spelled(values):
    return f"{statistics.median(values):.2f} ({min(values):.2f} to {max(values):.2f})"


def main():
    words = argparse.ArgumentParser(description=__doc__, formatter_class=argparse.RawDescriptionHelpFormatter)
    words.add_argument("--read", action="store_true")
    words.add_argument("given", nargs="+", metavar="[ROUNDS] FOLDER")
    said = words.parse_args()
    rounds = int(said.given[0]) if said.given[0].isdigit() else 3
    engine()
    for folder in said.given[said.given[0].isdigit():]:
        took = [opened(folder, said.read) for _ in range(rounds)]
        clock, processor, memory, rows = zip(*took)
        print(f"{folder}: {len(files_of(folder))} files, {rows[0]} rows; s by the clock {spelled(clock)}, "
              f"of the processor {spelled(processor)}; at most {max(memory) / 1024:.0f} MiB")


if __name__ == "__main__":
    main()
