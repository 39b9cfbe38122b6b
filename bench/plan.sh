#!/usr/bin/env bash
# Times the planning of a million instants of 1,000 classes, in a program of its own beside copies of the crates.
#
#     bench/plan.sh
#
# Prints for each set of clocks the seconds of the fastest of five runs, from the start of the program over the making
# of the plan to its last moment.
set -eu

root="$(dirname "$(dirname "$(readlink -f "${BASH_SOURCE[0]}")")")"
scratch="$(mktemp -d)"
trap 'rm -rf "$scratch"' EXIT

program="$scratch/crates/plan_time"
crates='sync_values|rational_time|flat_model|input_table|tick_tree|tick_plan'
mkdir -p "$program/src" "$program/proofs"
for crate in ${crates//|/ }; do
    mkdir "$scratch/crates/$crate"
    cp -r "$root/crates/$crate/src" "$root/crates/$crate/specs" "$root/crates/$crate/proofs" "$scratch/crates/$crate/"
done
cp "$root/HANDLES" "$scratch/"
grep -E "^($crates):" "$root/crates.txt" >"$scratch/crates.txt"
echo 'plan_time: tick_plan input_table flat_model rational_time sync_values' >>"$scratch/crates.txt"
# What the tests of plans are given serves here too.
cp "$root/crates/plan_tests/src/given.rt" "$program/src/"
cp -r "$root/crates/plan_tests/proofs/given" "$root/crates/plan_tests/proofs/Fine.antt" \
    "$root/crates/plan_tests/proofs/TestModels.antt" "$program/proofs/"
find "$program/proofs" -name '*.antt' -exec sed -i 's/Rattle\.plan_tests\./Rattle.plan_time./' {} +
printf 'mod Fine\nmod TestModels\n' >"$program/proofs/Lib.antt"

cat >"$program/src/main.rt" <<'PROGRAM'
//! Plans 1,000 classes up to their millionth instant, a thousandth of a second apart: `plan_time CLOCKS`, where CLOCKS is
//! `apart`, `periods` or `most`. Prints how many moments there were.
#![tactic(auto)]

mod given;

use Form::Every;
use given::{Form, clocking, instant, model, table};
use std::alloc::Global;
use std::io;
use std::process::{Abort, ExitCode};
use tick_plan::{GridPlan, TickSource};

/// The clock of a class.
fn clock(clocks: &[u8], class: u64) -> Form {
    if clocks == b"apart".as_slice() {
        // Each class ticks once a second, and none with another.
        Every((1, 1), (class, 1000))
    } else if clocks == b"periods".as_slice() {
        // All periods up to a second.
        Every((class.saturating_add(1), 1000), (0, 1))
    } else if class < 67 {
        // As many ticks as a plan may have: 67 classes tick at each instant from one on, each other class once.
        Every((1, 1000), (class, 1000))
    } else {
        Every((1000, 1), (class, 1000))
    }
}

/// How many moments the plan of these clocks has.
fn moments(rt: &impl Abort, alloc: Global, clocks: &[u8]) -> u64 {
    let mut forms = Vec::new(alloc);
    for class in 0..1000u64 {
        forms.push(clock(clocks, class)).expect(rt, "memory");
    }
    let flat = model(rt, alloc, false);
    let rows = table(rt, alloc, &flat, b"");
    let clocking = clocking(rt, alloc, forms.as_slice(), 1000);
    let stop = instant(rt, (999_999, 1000));
    let mut plan = GridPlan::new(alloc, &flat, &clocking, &rows, stop).expect(rt, "a plan");
    for number in 0..2_000_000u64 {
        if plan.next().is_none() {
            return number;
        }
    }
    2_000_000
}

fn words(rt: &HostRuntime) -> io::Result<Vec<String>> {
    let mut args = std::env::args(rt)?;
    let _program = args.next();
    Ok(args.collect(rt.alloc())?)
}

fn main(rt: HostRuntime) -> ExitCode {
    let Ok(words) = words(&rt) else {
        return ExitCode::from(1);
    };
    let clocks = match words.first() {
        Some(word) => word.as_bytes(),
        None => b"".as_slice(),
    };
    let moments = moments(&rt, rt.alloc(), clocks);
    match println!(rt; "{moments}") {
        Ok(()) => ExitCode::from(0),
        Err(_) => ExitCode::from(1),
    }
}
PROGRAM

(cd "$program" && rt run >"$scratch/said" 2>&1) || { cat "$scratch/said" >&2; exit 1; }
python3 - "$program/out/plan_time" <<'PYTHON'
import subprocess
import sys
import time

CLOCKS = {
    "apart": "one class at each instant",
    "periods": "periods of 1/1000 to 1, 7.5 classes at an instant",
    "most": "67 classes at each instant, as many as may be",
}

for clocks, name in CLOCKS.items():
    seconds = []
    for _ in range(5):
        begun = time.perf_counter()
        said = subprocess.run([sys.argv[1], clocks], check=True, stdout=subprocess.PIPE).stdout
        seconds.append(time.perf_counter() - begun)
    if said != b"1000001\n":
        sys.exit(f"plan: {clocks} has {said.decode().strip()} moments")
    print(f"{name:52} {min(seconds):.3f} s")
PYTHON
