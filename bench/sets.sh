#!/usr/bin/env bash
# Times the connection classes of 65,536 numbers and 200,000 pairs, in a program of its own beside copies of the crates.
#
#     bench/sets.sh
#
# Prints the seconds of the fastest of nine runs, with the start of the program and the making of the pairs in them.
set -eu

root="$(dirname "$(dirname "$(readlink -f "${BASH_SOURCE[0]}")")")"
scratch="$(mktemp -d)"
trap 'rm -rf "$scratch"' EXIT

mkdir -p "$scratch/crates/sets_time/src" "$scratch/crates/sets_time/proofs/listed"
cp -r "$root/crates/sync_values" "$root/crates/mo_connect" "$scratch/crates/"
cp "$root/HANDLES" "$scratch/"
printf 'sync_values:\nmo_connect: sync_values\nsets_time: mo_connect sync_values\n' >"$scratch/crates.txt"
# The proof of how a test lists its pairs serves here too.
sed 's/Rattle.layer_tests.proofs.connections.listed/Rattle.sets_time.proofs.listed/' \
    "$root/crates/layer_tests/proofs/connections/listed/Invariants.antt" >"$scratch/crates/sets_time/proofs/listed/Invariants.antt"

cat >"$scratch/crates/sets_time/src/main.rt" <<'PROGRAM'
//! Joins 65,536 numbers by 200,000 pairs.
#![tactic(auto)]
ghost use Rattle.std.specs.Prelude.{IfOk};
ghost use Rattle.mo_connect.specs.Chain.{AreBelow};

use mo_connect::{Pair, sets};
use std::alloc::Global;
use std::process::{Abort, ExitCode};
use sync_values::{List, NoMemory};

fn listed(
    rt: &impl Abort,
    alloc: Global,
    count: u32,
    pairs: &[(u32, u32)],
) -> Result<List<Pair>, NoMemory>
    ensures { IfOk result (AreBelow count) }
{
    let mut list = List::new(alloc);
    for (a, b) in pairs {
        assert!(rt; *a < count && *b < count);
        list.push(Pair { a: *a, b: *b })?;
    }
    Ok(list)
}

fn classes(rt: &impl Abort, alloc: Global) -> Result<usize, NoMemory> {
    let mut pairs = List::new(alloc);
    for k in 0..200_000u32 {
        pairs.push((k % 65_521, (k % 32_749) * 2))?;
    }
    Ok(sets(alloc, 65_536, &listed(rt, alloc, 65_536, pairs.as_slice())?)?.len())
}

fn main(rt: HostRuntime) -> ExitCode {
    match classes(&rt, rt.alloc()) {
        Ok(_) => ExitCode::from(0),
        Err(NoMemory) => ExitCode::from(1),
    }
}
PROGRAM

(cd "$scratch/crates/sets_time" && rt run >"$scratch/said" 2>&1) || { cat "$scratch/said" >&2; exit 1; }
python3 - "$scratch/crates/sets_time/out/sets_time" <<'PYTHON'
import subprocess
import sys
import time

seconds = []
for _ in range(9):
    begun = time.perf_counter()
    subprocess.run([sys.argv[1]], check=True)
    seconds.append(time.perf_counter() - begun)
print(f"sets of 65,536 numbers and 200,000 pairs {min(seconds):.4f} s")
PYTHON
