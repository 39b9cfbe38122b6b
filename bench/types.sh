#!/usr/bin/env bash
# Times the types of large models, in a program of its own beside copies of the crates.
#
#     bench/types.sh [REPEATS]
#
# Prints for each model, and for one of half its size, the seconds of the fastest of REPEATS runs (5 where none is
# given): of making it before its types are known, and of making and typing it.
set -eu

root="$(dirname "$(dirname "$(readlink -f "${BASH_SOURCE[0]}")")")"
scratch="$(mktemp -d)"
trap 'rm -rf "$scratch"' EXIT

mkdir -p "$scratch/crates/types_time/src"
for crate in sync_values rational_time flat_model flat_types; do
    mkdir -p "$scratch/crates/$crate"
    for part in src specs proofs; do
        [ ! -d "$root/crates/$crate/$part" ] || cp -r "$root/crates/$crate/$part" "$scratch/crates/$crate/"
    done
done
cp "$root/HANDLES" "$scratch/"
grep -E '^(sync_values|rational_time|flat_model|flat_types):' "$root/crates.txt" >"$scratch/crates.txt"
printf 'types_time: flat_types flat_model sync_values\n' >>"$scratch/crates.txt"

cat >"$scratch/crates/types_time/src/main.rt" <<'PROGRAM'
//! Makes a large model, whose types are not known yet, and types it.
#![tactic(auto)]

use flat_model::{FlatName, NameKind, RawEq, RawExpr, RawModel};
use flat_types::{TypeEnd, typed};
use std::alloc::{AllocError, Global};
use std::process::{Abort, ExitCode};
use sync_values::{ChainOp, List, Text, Value};

/// The right side of an equation.
#[derive(Clone, Copy)]
enum Side {
    /// A sum of so many products of two factors.
    Products(u32),
    /// A sum of so many names.
    Names(u32),
    /// A sum of a number and a sum, nested so deep.
    Levels(u32),
}

/// A word, the right side of each equation, and how many there are.
const MODELS: [(&[u8], Side, u32); 6] = [
    (b"equations", Side::Products(66), 5_000),
    (b"equations-half", Side::Products(66), 2_500),
    (b"chain", Side::Names(200_000), 1),
    (b"chain-half", Side::Names(100_000), 1),
    (b"levels", Side::Levels(64), 5_000),
    (b"levels-half", Side::Levels(32), 5_000),
];

fn chain_of_two(alloc: Global, a: RawExpr, op: ChainOp, b: RawExpr) -> Result<RawExpr, AllocError> {
    let mut parts = List::new(alloc);
    let mut ops = List::new(alloc);
    let first = parts.push(a);
    let second = parts.push(b);
    ops.push(op)?;
    first.and(second).map(|()| RawExpr::Chain(parts, ops))
}

fn number(n: i64) -> RawExpr {
    RawExpr::Const(Value::Int(n))
}

/// A sum of so many names, or products of the name.
fn sum(alloc: Global, count: u32, of_products: bool) -> Result<RawExpr, AllocError> {
    let mut parts = List::new(alloc);
    let mut ops = List::new(alloc);
    for i in 0..count {
        if 0 < i {
            ops.push(ChainOp::Plus)?;
        }
        let part = if of_products {
            chain_of_two(alloc, RawExpr::Name(0), ChainOp::Times, number(2))?
        } else {
            RawExpr::Name(0)
        };
        parts.push(part)?;
    }
    Ok(RawExpr::Chain(parts, ops))
}

fn nested(alloc: Global, levels: u32) -> Result<RawExpr, AllocError> {
    let mut expr = RawExpr::Name(0);
    for _ in 0..levels {
        expr = chain_of_two(alloc, number(1), ChainOp::Plus, expr)?;
    }
    Ok(expr)
}

fn right_side(alloc: Global, of: Side) -> Result<RawExpr, AllocError> {
    match of {
        Side::Products(count) => sum(alloc, count, true),
        Side::Names(count) => sum(alloc, count, false),
        Side::Levels(levels) => nested(alloc, levels),
    }
}

fn equations(alloc: Global, right: Side, count: u32) -> Result<List<RawEq>, AllocError> {
    let mut equations = List::new(alloc);
    for _ in 0..count {
        let right = right_side(alloc, right)?;
        equations.push(RawEq {
            left: RawExpr::Name(0),
            right,
            clause: None,
        })?;
    }
    Ok(equations)
}

fn names(alloc: Global) -> Result<List<FlatName>, AllocError> {
    let text = Text::from_bytes(alloc, b"x")?;
    let mut names = List::new(alloc);
    names.push(FlatName {
        text,
        kind: NameKind::Integer,
        input: false,
        start: Value::Int(0),
    })?;
    Ok(names)
}

/// Whether a model has types, where they are asked for.
fn has_types(
    rt: &impl Abort,
    alloc: Global,
    right: Side,
    count: u32,
    is_typed: bool,
) -> Result<bool, TypeEnd> {
    let equations = equations(alloc, right, count)?;
    assert!(rt; equations.len() < 1_000_000);
    let raw = RawModel {
        names: names(alloc)?,
        equations,
        clauses: List::new(alloc),
    };
    if !is_typed {
        return Ok(true);
    }
    Ok(typed(alloc, &raw)?.equations.len() == count as usize)
}

/// Makes the model of the first word, and types it where there is a second word.
fn main(rt: HostRuntime) -> ExitCode {
    let Ok(mut args) = std::env::args(&rt) else {
        return ExitCode::from(1);
    };
    let _program = args.next();
    let Ok(words) = args.collect::<Vec<String>>(rt.alloc()) else {
        return ExitCode::from(1);
    };
    let Some(word) = words.first() else {
        return ExitCode::from(1);
    };
    for (name, right, count) in &MODELS {
        if word.as_bytes() == *name {
            let found = has_types(&rt, rt.alloc(), *right, *count, words.len() == 2);
            return ExitCode::from(if found == Ok(true) { 0 } else { 1 });
        }
    }
    ExitCode::from(1)
}
PROGRAM

(cd "$scratch/crates/types_time" && rt run >"$scratch/said" 2>&1) || [ -x "$scratch/crates/types_time/out/types_time" ] || { cat "$scratch/said" >&2; exit 1; }
python3 - "$scratch/crates/types_time/out/types_time" "${1:-5}" <<'PYTHON'
import subprocess
import sys
import time

program, repeats = sys.argv[1], int(sys.argv[2])


def fastest(*words):
    """The seconds of the fastest run with these words."""
    seconds = []
    for _ in range(repeats):
        begun = time.perf_counter()
        subprocess.run([program, *words], check=True)
        seconds.append(time.perf_counter() - begun)
    return min(seconds)


for name, said in (
    ("equations", "5,000 equations of 200 nodes"),
    ("chain", "a chain of 200,000 parts"),
    ("levels", "5,000 equations of 64 levels"),
):
    for word, size in ((f"{name}-half", f"half of {said}"), (name, said)):
        made, typed = fastest(word), fastest(word, "typed")
        print(f"{size:40} made {made:7.4f} s  made and typed {typed:7.4f} s")
PYTHON
