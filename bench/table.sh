#!/usr/bin/env bash
# Times the reading of tables of 16 MiB and measures its memory, in a program of its own beside copies of the crates.
#
#     bench/table.sh
#
# Prints for each table what came of it, the time of one reading of its bytes, which lie in memory, and how far the
# reading raises the peak of memory. The time is that of six readings less that of one, in the fastest of five runs.
set -eu

root="$(dirname "$(dirname "$(readlink -f "${BASH_SOURCE[0]}")")")"
scratch="$(mktemp -d)"
trap 'rm -rf "$scratch"' EXIT

program="$scratch/crates/table_time"
mkdir -p "$program/src" "$program/proofs"
for crate in sync_values outside_io rational_time flat_model input_table; do
    mkdir "$scratch/crates/$crate"
    cp -r "$root/crates/$crate/src" "$root/crates/$crate/specs" "$root/crates/$crate/proofs" "$scratch/crates/$crate/"
done
cp "$root/HANDLES" "$scratch/"
grep -E '^(sync_values|outside_io|rational_time|flat_model|input_table):' "$root/crates.txt" >"$scratch/crates.txt"
echo 'table_time: outside_io input_table flat_model rational_time sync_values' >>"$scratch/crates.txt"
# The models of the tests serve here too.
tests="$root/crates/table_tests"
sed '/^\/\/\/ The header of 40 inputs/,$d; /^use crate::tables/d' "$tests/src/wide.rt" >"$program/src/wide.rt"
cp -r "$tests/specs" "$program/"
cp -r "$tests/proofs/wide" "$tests/proofs/Many.antt" "$tests/proofs/TestModels.antt" "$program/proofs/"
find "$program" -name '*.antt' -exec sed -i 's/Rattle\.table_tests\./Rattle.table_time./' {} +
sed -i 's/Rattle\.table_tests\./Rattle.table_time./' "$program/src/wide.rt"
printf 'pub mod Many\npub mod TestModels\n' >"$program/proofs/Lib.antt"

cat >"$program/src/main.rt" <<'PROGRAM'
//! Reads a file into memory, and its bytes as a table of so many inputs so many times: `table_time FILE INPUTS TIMES`.
//! Prints what came of the last reading.
#![tactic(auto)]

mod wide;

use input_table::{TableEnd, read_table};
use outside_io::{FileShelf, read_whole};
use std::alloc::Global;
use std::io;
use std::process::{Abort, ExitCode};
use wide::wide_model;

/// The word of a number, and 0 where there is none.
fn number(word: Option<&String>) -> u32 {
    match word {
        Some(word) => word.parse::<u32>().unwrap_or(0),
        None => 0,
    }
}

/// What came of reading the bytes as a table so many times: the number of rows, or the rule that is broken.
fn rows(
    rt: &impl Abort,
    alloc: Global,
    bytes: &[u8],
    inputs: u32,
    times: u32,
) -> Result<usize, TableEnd> {
    assert!(rt; inputs <= 1000);
    let flat = wide_model(rt, alloc, inputs as usize);
    assert!(rt; bytes.len() <= 16_777_216);
    let mut rows = 0;
    for _ in 0..times {
        match read_table(alloc, &flat, bytes) {
            Ok(table) => rows = table.times.len(),
            Err(end) => return Err(end),
        }
    }
    Ok(rows)
}

/// The bytes of a file, and none where it cannot be read.
fn file(rt: &HostRuntime, name: Option<&String>) -> Vec<u8> {
    let mut shelf = FileShelf::new(rt);
    let none = Vec::new(rt.alloc());
    match name {
        Some(name) => read_whole(rt.alloc(), &mut shelf, name.as_str(), 16_777_216).unwrap_or(none),
        None => none,
    }
}

fn words(rt: &HostRuntime) -> io::Result<Vec<String>> {
    let mut args = std::env::args(rt)?;
    let _program = args.next();
    Ok(args.collect(rt.alloc())?)
}

fn main(rt: HostRuntime) -> ExitCode {
    let Ok(words) = words(&rt) else {
        return ExitCode::from(1);
    };
    let bytes = file(&rt, words.get(0));
    let inputs = number(words.get(1));
    let times = number(words.get(2));
    let said = match rows(&rt, rt.alloc(), bytes.as_slice(), inputs, times) {
        Ok(rows) => println!(rt; "rows: {rows}"),
        Err(TableEnd::Fault { code, .. }) => println!(rt; "{code:?}"),
        Err(TableEnd::NoMemory) => println!(rt; "no memory"),
    };
    match said {
        Ok(()) => ExitCode::from(0),
        Err(_) => ExitCode::from(1),
    }
}
PROGRAM

(cd "$program" && rt run >"$scratch/said" 2>&1) || { cat "$scratch/said" >&2; exit 1; }

# Writes a table of 16 MiB: its first lines, and then as many of the rows as fit.
table() {
    python3 - "$scratch/table.csv" "$1" "$2" <<'PYTHON'
import sys

path, head, row = sys.argv[1:]
LIMIT = 16 * 1024 * 1024
head = head.encode().decode("unicode_escape")
row = row.encode().decode("unicode_escape")
with open(path, "w", newline="") as out:
    size, number = out.write(head), 0
    while True:
        # Rows a thousandth of a second apart, and values of one to five bytes.
        text = row.format(seconds=number // 1000, thousandths=number % 1000, value=number * 7919 % 2001 - 1000)
        if size + len(text) > LIMIT:
            break
        size, number = size + out.write(text), number + 1
PYTHON
}

# A case: its name, how many inputs the model has, what comes of it, the first lines and a row.
measure() {
    table "$4" "$5"
    python3 - "$program/out/table_time" "$scratch/table.csv" "$@" <<'PYTHON'
import os
import subprocess
import sys
import time

program, path, name, inputs, wanted = sys.argv[1:6]


def run(times):
    """The seconds of a run that reads the table so many times, and the most bytes of memory that it held."""
    begun = time.perf_counter()
    child = subprocess.Popen([program, path, inputs, str(times)], stdout=subprocess.PIPE)
    said = child.stdout.read().decode().strip()
    _, status, used = os.wait4(child.pid, 0)
    if status != 0 or (times > 0 and said != wanted):
        sys.exit(f"table: {name} ended with {status} and {said}")
    return time.perf_counter() - begun, used.ru_maxrss * 1024


size = os.stat(path).st_size
_, before = run(0)
_, peak = run(1)
seconds = max((min(run(6)[0] for _ in range(5)) - min(run(1)[0] for _ in range(5))) / 5, 0)
# What is refused is not read to its end.
speed = f"{size / seconds / 1e6:.0f} MB/s" if wanted.startswith("rows") else ""
print(f"{name:42} {wanted:>13} {seconds:8.4f} s {speed:>9} {(peak - before) / 1e6:6.1f} MB more")
PYTHON
}

measure "lines of two bytes, all blank" 0 "rows: 1" 'time\n0\n' '\r\n'
measure "rows of two bytes, refused at the second" 0 "I6" 'time\n' '0\n'
measure "rows of five bytes, each a sum" 0 "rows: 3355442" 'time2\n0\n' '+1/8\n'
measure "a time and 1 value" 1 "rows: 1335683" 'time,u\n' '{seconds}.{thousandths:03},{value}\n'
measure "a time and 8 values" 8 "rows: 391501" 'time,u,uu,uuu,uuuu,uuuuu,uuuuuu,uuuuuuu,uuuuuuuu\n' \
    '{seconds}.{thousandths:03},{value},{value},{value},{value},{value},{value},{value},{value}\n'
