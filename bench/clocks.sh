#!/usr/bin/env bash
# Times the four calls of clocks on large models, in a program of its own beside copies of the crates.
#
#     bench/clocks.sh
#
# Prints for each model the seconds of each call and of all four, the fastest of five runs, and fails where the four take
# 0.3 s or more. The program is proved, like any other, and before that the crates below it, where they have changed since
# they were checked last. The models have 65,536 names: all in one class; each in a class of its own, with a clock of its
# own; each a conversion of the first; each the sum of two others, which gives 196,607 joins. The chain has 20,001
# names, of which each is a conversion of the one before and stands before it.
set -eu

root="$(dirname "$(dirname "$(readlink -f "${BASH_SOURCE[0]}")")")"
scratch="$(mktemp -d)"
trap 'rm -rf "$scratch"' EXIT

here=clocks_time
crate="$scratch/crates/$here"
below="sync_values rational_time mo_connect mo_lexer mo_parser flat_model flat_types typed_model clock_terms base_partition clock_spread sub_clock_solve clock_check clock_ready"
mkdir -p "$crate"
cp "$root/HANDLES" "$scratch/"
for name in $below; do
    cp -r "$root/crates/$name" "$scratch/crates/"
    grep "^$name:" "$root/crates.txt" >>"$scratch/crates.txt"
done
echo "$here: clock_ready clock_check sub_clock_solve base_partition clock_terms typed_model flat_types flat_model mo_parser mo_lexer rational_time sync_values sqlite_items" >>"$scratch/crates.txt"

# The names and equations of the tests, with their proofs, serve here too.
cp -r "$root/crates/clock_tests/specs" "$root/crates/clock_tests/proofs" "$root/crates/clock_tests/src" "$crate/"
rm -rf "$crate/proofs/clocking" "$crate/proofs/raw" "$crate/src/"{lib,clocking,printed,raw,rows}.rt
find "$crate" -type f -exec sed -i 's/Rattle\.clock_tests\./Rattle.clocks_time./g' {} +
sed -i 's/^fn /pub(crate) fn /' "$crate/src/names.rt"

cat >"$crate/src/main.rt" <<'PROGRAM'
//! Times the calls of clocks on large models.
#![tactic(auto)]
ghost use Rattle.std.specs.Prelude.{◌≡◌, true, All, IfOk, map};
ghost use Rattle.flat_model.specs.Counters.{all_fit};
ghost use Rattle.flat_model.specs.Models.{IsModel, AreNames};
ghost use Rattle.flat_model.specs.RawModels.{HasConstants, constants_fit, IsRawModel};
ghost use Rattle.clock_terms.specs.Said.{AreTermsOf};
ghost use Rattle.clock_terms.specs.Classing.{AreClassesOf};
ghost use Rattle.sub_clock_solve.specs.Standing.{FitTogether};
ghost use Rattle.clock_ready.specs.Laws.{HaveKnownFactors};

mod equations;
mod expressions;
mod names;

use crate::equations::are_whole;
use base_partition::classes;
use clock_check::check;
use clock_ready::fit_law;
use clock_terms::{Classes, Terms, terms};
use flat_model::{FlatModel, FlatName, NameKind, RawEq, RawExpr, RawModel};
use flat_types::typed;
use std::alloc::{AllocError, Global};
use std::process::Abort;
use std::rt::Runtime;
use std::time::Instant;
use sub_clock_solve::solve;
use sync_values::{ChainOp, List, Text, Value};
use typed_model::model_law;

#[derive(Clone, Copy)]
enum Case {
    /// Each name is equal to the one before.
    OneClass,
    /// Each name is in a clause of its own.
    OwnClasses,
    /// Each name is a conversion of the first.
    Star,
    /// Each name is a conversion of the one before, and its equation stands before that one's.
    Chain,
    /// Each name is the sum of two others.
    Joins,
}

#[tactic(auto, using(crate::proofs::Constants::constants))]
fn read(name: u32) -> RawExpr
    ensures { constants_fit result ≡ true }
{
    RawExpr::Name(name)
}

#[tactic(auto, using(crate::proofs::Constants::constants))]
fn number(value: i64) -> RawExpr
    ensures { constants_fit result ≡ true }
{
    RawExpr::Const(Value::Int(value))
}

fn with(parts: List<RawExpr>, part: RawExpr) -> Result<List<RawExpr>, AllocError>
    requires parts { all_fit (map constants_fit parts) ≡ true }
    requires part { constants_fit part ≡ true }
    ensures { IfOk result (λ more. all_fit (map constants_fit more) ≡ true) }
{
    let mut more = parts;
    more.push(part)?;
    Ok(more)
}

#[tactic(auto, using(crate::proofs::Constants::constants))]
fn call(alloc: Global, function: &[u8], parts: List<RawExpr>) -> Result<RawExpr, AllocError>
    requires { all_fit (map constants_fit parts) ≡ true }
    ensures { IfOk result (λ found. constants_fit found ≡ true) }
{
    Ok(RawExpr::Call(Text::from_bytes(alloc, function)?, parts))
}

fn previous(alloc: Global, name: u32) -> Result<RawExpr, AllocError>
    ensures { IfOk result (λ found. constants_fit found ≡ true) }
{
    let parts = with(List::new(alloc), read(name))?;
    call(alloc, b"previous", parts)
}

fn sub_sample(alloc: Global, name: u32) -> Result<RawExpr, AllocError>
    ensures { IfOk result (λ found. constants_fit found ≡ true) }
{
    let parts = with(List::new(alloc), read(name))?;
    let parts = with(parts, number(1))?;
    call(alloc, b"subSample", parts)
}

fn second(alloc: Global) -> Result<RawExpr, AllocError>
    ensures { IfOk result (λ found. constants_fit found ≡ true) }
{
    let parts = with(List::new(alloc), number(1))?;
    call(alloc, b"Clock", parts)
}

#[tactic(auto, using(crate::proofs::Constants::constants))]
fn sum(alloc: Global, a: u32, b: u32) -> Result<RawExpr, AllocError>
    ensures { IfOk result (λ found. constants_fit found ≡ true) }
{
    let parts = with(List::new(alloc), read(a))?;
    let parts = with(parts, read(b))?;
    let mut ops = List::new(alloc);
    ops.push(ChainOp::Plus)?;
    Ok(RawExpr::Chain(parts, ops))
}

/// What a name is equal to.
fn right_side(alloc: Global, case: Case, name: u32) -> Result<RawExpr, AllocError>
    ensures { IfOk result (λ found. constants_fit found ≡ true) }
{
    let Some(before) = name.checked_sub(1) else {
        return previous(alloc, name);
    };
    match case {
        Case::OneClass => Ok(read(before)),
        Case::OwnClasses => previous(alloc, name),
        Case::Star => sub_sample(alloc, 0),
        Case::Chain => sub_sample(alloc, before),
        Case::Joins => sum(
            alloc,
            name.wrapping_mul(7919) % 65_521,
            name.wrapping_mul(31) % 32_749,
        ),
    }
}

fn clause_of(case: Case, name: u32) -> Option<u32> {
    match case {
        Case::OwnClasses => Some(name),
        _ => {
            if name == 0 {
                Some(0)
            } else {
                None
            }
        }
    }
}

fn equation(alloc: Global, case: Case, name: u32) -> Result<RawEq, AllocError>
    ensures { IfOk result HasConstants }
{
    let right = right_side(alloc, case, name)?;
    let left = read(name);
    Ok(RawEq {
        left,
        right,
        clause: clause_of(case, name),
    })
}

fn name_of(case: Case, count: u32, number: u32) -> u32 {
    match case {
        Case::Chain => {
            if number == 0 {
                0
            } else {
                count.wrapping_sub(number)
            }
        }
        _ => number,
    }
}

fn all_equations(alloc: Global, case: Case, count: u32) -> Result<List<RawEq>, AllocError>
    ensures { IfOk result (All HasConstants) }
{
    let mut equations = List::new(alloc);
    for number in 0..count {
        let equation = equation(alloc, case, name_of(case, count, number))?;
        equations.push(equation)?;
    }
    Ok(equations)
}

fn all_clauses(alloc: Global, count: u32) -> Result<List<RawExpr>, AllocError>
    ensures { IfOk result (All (λ clause. constants_fit clause ≡ true)) }
{
    let mut clauses = List::new(alloc);
    for _turn in 0..count {
        let clock = second(alloc)?;
        clauses.push(clock)?;
    }
    Ok(clauses)
}

fn all_names(rt: &(impl Runtime + Abort), alloc: Global, count: u32) -> Result<List<FlatName>, AllocError>
    ensures { IfOk result AreNames }
{
    let mut names = List::new(alloc);
    for number in 0..count {
        let text = format!(in alloc; "n{number}")?;
        let name = names::name(rt, alloc, text.as_bytes(), NameKind::Integer, false);
        names::add(rt, &mut names, name)?;
    }
    Ok(names)
}

fn raw_model(rt: &(impl Runtime + Abort), alloc: Global, case: Case, count: u32) -> Result<RawModel, AllocError>
    ensures { IfOk result IsRawModel }
{
    let names = all_names(rt, alloc, count)?;
    let equations = all_equations(alloc, case, count)?;
    let clause_count = match case {
        Case::OwnClasses => count,
        _ => 1,
    };
    let clauses = all_clauses(alloc, clause_count)?;
    if !are_whole(equations.as_slice(), clauses.as_slice()) {
        panic!(rt; "a clause without equations");
    }
    Ok(RawModel {
        names,
        equations,
        clauses,
    })
}

fn flat_model(rt: &(impl Runtime + Abort), alloc: Global, raw: &RawModel) -> FlatModel
    requires { IsRawModel raw.now }
    ensures { IsModel result }
{
    model_law();
    typed(alloc, raw).expect(rt, "types")
}

fn solved(
    rt: &(impl Runtime + Abort),
    alloc: Global,
    flat: &FlatModel,
    terms: &Terms,
    classes: &Classes,
) -> std::io::Result<()>
    requires terms { AreTermsOf flat.now terms.now }
    requires classes { AreClassesOf flat.now classes.now }
    requires fit { FitTogether terms.now classes.now }
    requires factors { HaveKnownFactors terms.now }
{
    let start = Instant::now(rt)?;
    let Ok(grids) = solve(alloc, terms, classes) else {
        panic!(rt; "no clocks");
    };
    let solving = start.elapsed(rt)?.as_micros();
    let start = Instant::now(rt)?;
    let Ok(clocking) = check(alloc, flat, terms, classes, &grids) else {
        panic!(rt; "no clocking");
    };
    let checking = start.elapsed(rt)?.as_micros();
    let clocks = clocking.clocks.len();
    println!(rt; "solve {solving} check {checking} clocks {clocks}")?;
    Ok(())
}

fn timed(rt: &(impl Runtime + Abort), alloc: Global, title: &str, flat: &FlatModel) -> std::io::Result<()>
    requires { IsModel flat.now }
{
    fit_law();
    let start = Instant::now(rt)?;
    let terms = terms(alloc, flat).expect(rt, "memory");
    let finding = start.elapsed(rt)?.as_micros();
    let joins = terms.joins.len();
    let start = Instant::now(rt)?;
    let classes = classes(alloc, flat, &terms);
    let classing = start.elapsed(rt)?.as_micros();
    print!(rt; "{title} joins {joins} terms {finding} classes {classing} ")?;
    match classes {
        Ok(classes) => solved(rt, alloc, flat, &terms, &classes),
        Err(_) => Ok(()),
    }
}

fn run(
    rt: &(impl Runtime + Abort),
    alloc: Global,
    title: &str,
    case: Case,
    count: u32,
) -> std::io::Result<()> {
    let raw = raw_model(rt, alloc, case, count)?;
    let flat = flat_model(rt, alloc, &raw);
    for _turn in 0..5 {
        timed(rt, alloc, title, &flat)?;
    }
    Ok(())
}

fn main(rt: HostRuntime) -> std::io::Result<()> {
    run(&rt, rt.alloc(), "one_class", Case::OneClass, 65_536)?;
    run(&rt, rt.alloc(), "own_classes", Case::OwnClasses, 65_536)?;
    run(&rt, rt.alloc(), "star", Case::Star, 65_536)?;
    run(&rt, rt.alloc(), "chain", Case::Chain, 20_001)?;
    run(&rt, rt.alloc(), "joins", Case::Joins, 65_536)
}
PROGRAM

# Writes the proof of a function from what stands on the input.
proof() {
    mkdir -p "$crate/proofs/$1"
    cat >"$crate/proofs/$1/$2.antt"
}

proof with Answers <<'PROOF'
use Rattle.clocks_time.proofs.Constants.{more_fit}
use Rattle.clocks_time.proofs.with.Goals as goal

pub returns : goal.returns
returns c = rw c.in_ok-push.ensures.ok (more_fit c.args.parts c.args.part c.requires.parts c.requires.part)
PROOF
proof all_equations Invariants <<'PROOF'
use Rattle.std.proofs.Common.{All}
use Rattle.flat_model.specs.RawModels.{HasConstants}
use Rattle.clocks_time.proofs.all_equations.Given as goal

abbrev pub invariant-loop-number : goal.invariant-loop-number
invariant-loop-number l = All HasConstants l.equations
PROOF
proof all_equations Answers <<'PROOF'
use Rattle.flat_model.specs.RawModels.{HasConstants}
use Rattle.clocks_time.proofs.Steps.{all_push}
use Rattle.clocks_time.proofs.all_equations.Goals as goal

pub loop-number-preserved : goal.loop-number-preserved
loop-number-preserved c = rw c.in_ok-push.ensures.ok (all_push HasConstants c.loop-number.equations _ c.loop-number.invariant c.in_ok-equation.ensures)
PROOF
proof all_clauses Invariants <<'PROOF'
use Rattle.std.proofs.Common.{◌≡◌, true, All}
use Rattle.flat_model.specs.RawModels.{constants_fit}
use Rattle.clocks_time.proofs.all_clauses.Given as goal

abbrev pub invariant-loop-turn : goal.invariant-loop-turn
invariant-loop-turn l = All (λ clause. constants_fit clause ≡ true) l.clauses
PROOF
proof all_clauses Answers <<'PROOF'
use Rattle.std.proofs.Common.{◌≡◌, true}
use Rattle.flat_model.specs.RawModels.{constants_fit}
use Rattle.clocks_time.proofs.Steps.{all_push}
use Rattle.clocks_time.proofs.all_clauses.Goals as goal

pub loop-turn-preserved : goal.loop-turn-preserved
loop-turn-preserved c = rw c.in_ok-push.ensures.ok (all_push (λ clause. constants_fit clause ≡ true) c.loop-turn.clauses _ c.loop-turn.invariant c.in_ok-clock.ensures)
PROOF
proof all_names Invariants <<'PROOF'
use Rattle.flat_model.specs.Models.{AreNames}
use Rattle.clocks_time.proofs.all_names.Given as goal

abbrev pub invariant-loop-number : goal.invariant-loop-number
invariant-loop-number g l = AreNames l.names
PROOF
proof raw_model Answers <<'PROOF'
use Rattle.std.proofs.Common.{◌≡◌, subst, ap, length}
use Rattle.clocks_time.specs.Raws.{AreWhole}
use Rattle.clocks_time.proofs.Whole.{is_raw}
use Rattle.clocks_time.proofs.raw_model.Goals as goal

pub returns : goal.returns
returns g c =
    let whole = c.are_whole.ensures c.if-not-are_whole.false in
    let fit = subst (λ equations. AreWhole equations (length c.as_slice-2.result.now)) c.as_slice.ensures whole in
    is_raw c.in_ok-names.names c.in_ok-equations.equations c.in_ok-clauses.clauses c.in_ok-names.ensures
        (subst (λ clauses. AreWhole c.in_ok-equations.equations (length clauses)) c.as_slice-2.ensures fit) c.in_ok-equations.ensures c.in_ok-clauses.ensures
PROOF
proof timed Answers <<'PROOF'
use Rattle.std.proofs.Common.{rules}
use Rattle.clock_terms.specs.Said.{AreTermsOf}
use Rattle.clock_terms.specs.Classing.{AreClassesOf}
use Rattle.clocks_time.proofs.timed.Goals as goal

pub solved-requires-clause-fit : goal.solved-requires-clause-fit
solved-requires-clause-fit g c =
    let said : AreTermsOf c.args.flat.now c.expect-terms.result = search rules in
    let are : AreClassesOf c.args.flat.now c.in-Ok.classes = search rules in
    (c.fit_law.ensures c.args.flat.now c.expect-terms.result c.in-Ok.classes c.requires said are).0

pub solved-requires-clause-factors : goal.solved-requires-clause-factors
solved-requires-clause-factors g c =
    let said : AreTermsOf c.args.flat.now c.expect-terms.result = search rules in
    let are : AreClassesOf c.args.flat.now c.in-Ok.classes = search rules in
    (c.fit_law.ensures c.args.flat.now c.expect-terms.result c.in-Ok.classes c.requires said are).1
PROOF

(cd "$crate" && rt run >"$scratch/said" 2>&1) || { cat "$scratch/said" >&2; exit 1; }
python3 - "$crate/out/$here" <<'PYTHON'
import subprocess
import sys

CALLS = ["terms", "classes", "solve", "check"]
fastest = {}
said = subprocess.run([sys.argv[1]], check=True, capture_output=True, text=True).stdout
for line in said.splitlines():
    title, *words = line.split()
    told = dict(zip(words[::2], map(int, words[1::2])))
    before = fastest.get(title, told)
    fastest[title] = {word: min(told[word], before[word]) for word in told}
slow = False
for title, told in fastest.items():
    total = sum(told[call] for call in CALLS) / 1e6
    slow |= total >= 0.3
    calls = "  ".join(f"{call} {told[call] / 1e6:.3f}" for call in CALLS)
    print(f"{title:12} {told['joins']:7} joins  {told['clocks']:6} clocks  {calls}  all {total:.3f} s")
sys.exit("bench: the calls take too long" if slow else 0)
PYTHON
