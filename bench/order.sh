#!/usr/bin/env bash
# Times `order`, and `stages` behind it, on large models, in a program of its own beside copies of the crates.
#
#     bench/order.sh
#
# Prints for each model the seconds of the fastest of five runs that order it, and of five that tell the stages of its
# uses too, less those of the fastest of five runs that only make it. The models: 65,536 equations in a chain that is given backwards; one equation that reads 5,000
# names, with those of the other names behind it; 20,000 equations in two chains, in each of which an equation reads a
# name of the other chain; and 839,972 conversions between the clocks of 917 names, whose parts have 40 bits.
set -eu

root="$(dirname "$(dirname "$(readlink -f "${BASH_SOURCE[0]}")")")"
scratch="$(mktemp -d)"
trap 'rm -rf "$scratch"' EXIT

mkdir -p "$scratch/crates/order_time/src" "$scratch/crates/order_time/proofs"
for crate in sync_values rational_time flat_model eq_orient eq_order moment_theory moment_order; do
    cp -r "$root/crates/$crate" "$scratch/crates/"
done
cp "$root/HANDLES" "$scratch/"
grep -E '^(sync_values|rational_time|flat_model|eq_orient|eq_order|moment_theory|moment_order):' "$root/crates.txt" >"$scratch/crates.txt"
printf 'order_time: eq_order flat_model moment_order rational_time sync_values\n' >>"$scratch/crates.txt"
# What a test does to tell that clocks can be run serves here too, with its proof.
cp "$root/crates/order_tests/src/fine.rt" "$scratch/crates/order_time/src/"
cp -r "$root/crates/order_tests/proofs/fine" "$root/crates/order_tests/proofs/Grids.antt" "$scratch/crates/order_time/proofs/"
printf 'pub mod Grids\n' >"$scratch/crates/order_time/proofs/Lib.antt"
grep -rl order_tests "$scratch/crates/order_time" | xargs sed -i 's/order_tests/order_time/g'

cat >"$scratch/crates/order_time/src/main.rt" <<'PROGRAM'
//! Makes a model that its word names by a letter, orders it where the word has a second letter, and tells the stages of
//! its uses where it has a third.
#![tactic(auto)]

mod fine;

use eq_order::order;
use fine::are_clocks;
use flat_model::{Clock, Clocking, Conversion, Equation, Expr, FlatModel, FlatName, NameKind};
use moment_order::stages;
use rational_time::make;
use std::alloc::{AllocError, Global};
use std::process::{Abort, ExitCode};
use sync_values::{ChainOp, List, Text, Value};

/// A model with its clocking.
#[derive(Drop)]
struct Large {
    flat: FlatModel,
    clocking: Clocking,
}

/// A common denominator of the clocks, near 2^40.
const GRID: u64 = 1_099_511_627_689;

fn name(alloc: Global) -> Result<FlatName, AllocError> {
    Ok(FlatName {
        text: Text::from_bytes(alloc, b"x")?,
        kind: NameKind::Integer,
        input: false,
        start: Value::Int(0),
    })
}

/// A model of so many names without equations, each name in the class of its number, or none in one.
fn bare(alloc: Global, count: u32, clocked: bool) -> Result<Large, AllocError> {
    let mut names = List::new(alloc);
    let mut of_name = List::new(alloc);
    let mut of_equation = List::new(alloc);
    for x in 0..count {
        names.push(name(alloc)?)?;
        let class = if clocked { Some(x) } else { None };
        of_name.push(class)?;
        of_equation.push(class)?;
    }
    Ok(Large {
        flat: FlatModel {
            names,
            equations: List::new(alloc),
            clauses: List::new(alloc),
        },
        clocking: Clocking {
            of_name,
            of_equation,
            clocks: List::new(alloc),
            partitions: List::new(alloc),
            sites: List::new(alloc),
        },
    })
}

fn sum(alloc: Global, first: Expr, second: Expr) -> Result<Expr, AllocError> {
    let mut parts = List::new(alloc);
    parts.push(first)?;
    parts.push(second)?;
    let mut ops = List::new(alloc);
    ops.push(ChainOp::Plus)?;
    Ok(Expr::Chain(parts, ops))
}

fn add(made: &mut Large, left: u32, right: Expr) -> Result<(), AllocError> {
    made.flat.equations.push(Equation::Valued {
        left: Expr::Read(left),
        right,
        clause: None,
    })?;
    Ok(())
}

/// Each name is the one behind it, and the last is a number.
fn chain(alloc: Global) -> Result<Large, AllocError> {
    let mut made = bare(alloc, 65_536, false)?;
    for x in 0..65_535 {
        add(&mut made, x, Expr::Read(x + 1))?;
    }
    add(&mut made, 65_535, Expr::Const(Value::Int(1)))?;
    Ok(made)
}

/// The first name is the sum of all others, which are numbers.
fn wide(alloc: Global) -> Result<Large, AllocError> {
    let mut made = bare(alloc, 5_001, false)?;
    let mut parts = List::new(alloc);
    let mut ops = List::new(alloc);
    for x in 1..5_001 {
        parts.push(Expr::Read(x))?;
        if 1 < x {
            ops.push(ChainOp::Plus)?;
        }
    }
    add(&mut made, 0, Expr::Chain(parts, ops))?;
    for x in 1..5_001 {
        add(&mut made, x, Expr::Const(Value::Int(1)))?;
    }
    Ok(made)
}

/// In each of two chains a name is the sum of the one before it in its own and in the other, the second chain given
/// backwards.
fn mutual(alloc: Global) -> Result<Large, AllocError> {
    let mut made = bare(alloc, 20_000, false)?;
    for x in 0..9_999 {
        add(
            &mut made,
            x + 1,
            sum(alloc, Expr::Read(x), Expr::Read(x + 10_000))?,
        )?;
    }
    for x in 0..9_999 {
        let back = 9_998 - x;
        add(
            &mut made,
            back + 10_001,
            sum(alloc, Expr::Read(back), Expr::Read(back + 10_000))?,
        )?;
    }
    add(&mut made, 0, Expr::Const(Value::Int(1)))?;
    add(&mut made, 10_000, Expr::Const(Value::Int(1)))?;
    Ok(made)
}

/// Each name is the sum of the conversions of all names but itself, each on a clock of its own.
fn conversions(rt: &impl Abort, alloc: Global) -> Result<Large, AllocError> {
    let mut made = bare(alloc, 917, true)?;
    for x in 0..917u32 {
        let period = make(u64::from(x) * 1_000_003 + 549_755_813_881, GRID);
        let start = make(u64::from(x) * 7_919, GRID);
        made.clocking.clocks.push(Clock::Periodic { period, start })?;
        let mut parts = List::new(alloc);
        let mut ops = List::new(alloc);
        for y in 0..917u32 {
            if y != x {
                parts.push(Expr::Convert(Conversion::NoClock, y))?;
                if !parts.is_empty() && 1 < parts.len() {
                    ops.push(ChainOp::Plus)?;
                }
            }
        }
        add(&mut made, x, Expr::Chain(parts, ops))?;
    }
    assert!(rt; made.clocking.clocks.len() == 917);
    Ok(made)
}

fn large_of(rt: &impl Abort, alloc: Global, case: Option<u8>) -> Result<Large, AllocError> {
    match case {
        Some(b'c') => chain(alloc),
        Some(b'w') => wide(alloc),
        Some(b'm') => mutual(alloc),
        _ => conversions(rt, alloc),
    }
}

/// Makes a model, and orders it. The status is 0 for an order, 1 where there is none, and 2 where it was not asked for.
fn status(rt: &impl Abort, alloc: Global, word: &[u8]) -> Result<u8, AllocError> {
    let made = large_of(rt, alloc, word.first().copied())?;
    if word.len() < 2 {
        return Ok(2);
    }
    assert!(rt; made.flat.equations.len() <= 65_536);
    assert!(rt; are_clocks(&made.clocking, GRID));
    let Ok(uses) = order(alloc, &made.flat, &made.clocking) else {
        return Ok(1);
    };
    if 2 < word.len() {
        let stages = stages(alloc, &made.flat, &made.clocking, uses.as_slice())?;
        assert!(rt; stages.len() == uses.len());
    }
    Ok(0)
}

fn main(rt: HostRuntime) -> ExitCode {
    let Ok(mut args) = std::env::args(&rt) else {
        return ExitCode::from(4);
    };
    let _program = args.next();
    let words: Result<Vec<String>, AllocError> = args.collect(rt.alloc()).map_err(|_| AllocError);
    let Ok(words) = words else {
        return ExitCode::from(4);
    };
    let Some(word) = words.get(0) else {
        return ExitCode::from(5);
    };
    match status(&rt, rt.alloc(), word.as_bytes()) {
        Ok(status) => ExitCode::from(status),
        Err(_) => ExitCode::from(3),
    }
}
PROGRAM

(cd "$scratch/crates/order_time" && rt run >"$scratch/said" 2>&1) || true
[ -x "$scratch/crates/order_time/out/order_time" ] || { cat "$scratch/said" >&2; exit 1; }
python3 - "$scratch/crates/order_time/out/order_time" <<'PYTHON'
import subprocess
import sys
import time

program = sys.argv[1]


def fastest(word, statuses):
    seconds = []
    for _ in range(5):
        begun = time.perf_counter()
        ended = subprocess.run([program, word])
        seconds.append(time.perf_counter() - begun)
        if ended.returncode not in statuses:
            sys.exit(f"bench: {word} ended with status {ended.returncode}")
    return min(seconds)


for letter, what, status in [
    ("c", "65,536 equations in a chain given backwards", 0),
    ("w", "one equation of 5,000 names", 0),
    ("m", "20,000 equations in two mutual chains", 0),
    ("v", "839,972 conversions", None),
]:
    made = fastest(letter, [2])
    statuses = [0, 1] if status is None else [status]
    ordered = fastest(letter + "o", statuses) - made
    staged = fastest(letter + "os", statuses) - made
    print(f"{what} {ordered:.4f} s, with stages {staged:.4f} s (and {made:.4f} s to make them)")
PYTHON
