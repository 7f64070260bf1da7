#!/bin/sh
# Builds orders of 10,000 issues, 50,000 and 200,000, makes 10,000 moves in each at places that a generator names and 10,000 from the
# end to the top, loads its ranks into a new order, and prints the time for each.
#
# The program is written into a copy of the repository's crates, where `rt run` proves and builds it. Nothing in the repository
# changes. It takes some minutes where the crates below haven't been proved yet, and about one where they have.
set -eu
top=$(cd "$(dirname "$0")/.." && pwd)
work=$(mktemp -d)
trap 'rm -rf "$work"' EXIT
mkdir "$work/crates"
cp "$top/HANDLES" "$work/HANDLES"
for crate in field_values rising_numbers rank_strings board; do
    cp -a "$top/crates/$crate" "$work/crates/$crate"
    grep "^$crate:" "$top/crates.txt" >> "$work/crates.txt"
done
echo "order_bench: field_values rank_strings board" >> "$work/crates.txt"
program=$work/crates/order_bench
mkdir -p "$program/src" "$program/proofs/create" "$program/proofs/move_after" "$program/proofs/move_before" "$program/proofs/append"
(cd "$work" && git init -q .)

cat > "$program/src/main.rt" <<'RATTLE'
//! Builds orders, moves issues in them, loads their ranks into a new order, and prints the time for each.
#![tactic(auto)]

use board::{Order, Place, laws};
use field_values::{IssueNo, Memory};
use rank_strings::{Rank, RankFault};
use std::alloc::Global;
use std::process::ExitCode;
use std::time::Instant;

const SIZES: [u32; 3] = [10_000, 50_000, 200_000];
const MOVES: u32 = 10_000;

/// Puts a new issue behind all others.
fn create(order: &mut Order, number: u32) -> Result<(), RankFault> {
    let issue = IssueNo(number);
    let Ok(()) = order.reserve(number as usize + 1) else {
        return Err(RankFault::Memory);
    };
    if order.place_of(issue).is_some() {
        return Ok(());
    }
    let rank = order.rank_for(None, Place::Last, 0)?;
    let _bucket = rank.bucket();
    let _ = order.issues();
    laws::moves_keep_the_order();
    order.put(issue, rank);
    Ok(())
}

/// Moves an issue behind another one.
fn move_after(order: &mut Order, issue: IssueNo, other: IssueNo) -> Result<(), RankFault> {
    if issue.0 == other.0 || order.place_of(issue).is_none() || order.place_of(other).is_none() {
        return Ok(());
    }
    let rank = order.rank_for(Some(issue), Place::After(other), 0)?;
    let _bucket = rank.bucket();
    let _ = order.issues();
    laws::moves_keep_the_order();
    order.put(issue, rank);
    Ok(())
}

/// Moves an issue before another one.
fn move_before(order: &mut Order, issue: IssueNo, other: IssueNo) -> Result<(), RankFault> {
    if issue.0 == other.0 || order.place_of(issue).is_none() || order.place_of(other).is_none() {
        return Ok(());
    }
    let rank = order.rank_for(Some(issue), Place::Before(other), 0)?;
    let _bucket = rank.bucket();
    let _ = order.issues();
    laws::moves_keep_the_order();
    order.put(issue, rank);
    Ok(())
}

fn build(order: &mut Order, issues: u32) -> Result<(), RankFault> {
    for number in 0..issues {
        create(order, number + 1)?;
    }
    Ok(())
}

/// Issues that a generator names.
fn move_some(order: &mut Order, issues: u32) -> Result<(), RankFault> {
    if issues == 0 {
        return Ok(());
    }
    let mut seed: u32 = 1;
    for _ in 0..MOVES {
        seed = seed.wrapping_mul(1_664_525).wrapping_add(1_013_904_223);
        let issue = IssueNo((seed >> 8) % issues + 1);
        seed = seed.wrapping_mul(1_664_525).wrapping_add(1_013_904_223);
        let other = IssueNo((seed >> 8) % issues + 1);
        move_after(order, issue, other)?;
    }
    Ok(())
}

/// The ranks of the issues, in the order of their numbers, as rows keep them.
fn kept_ranks(alloc: Global, order: &Order) -> Result<Vec<(Rank, IssueNo)>, Memory> {
    let mut kept = Vec::with_capacity(alloc, order.issues().len())?;
    for issue in order.issues() {
        if let Some(rank) = order.rank_of(*issue) {
            kept.push((rank.copy(alloc)?, *issue))?;
        }
    }
    kept.sort_unstable_by_key(|pair| pair.1.0);
    Ok(kept)
}

/// Puts a new issue behind all others. Says whether it is new, and its rank above all of theirs.
fn append(order: &mut Order, rank: Rank, issue: IssueNo) -> bool {
    let Ok(()) = order.reserve(issue.0 as usize + 1) else {
        return false;
    };
    if order.place_of(issue).is_some() {
        return false;
    }
    if !order.is_above_all(&rank) {
        return false;
    }
    let _ = order.issues();
    laws::ranks_that_rise();
    order.put(issue, rank);
    true
}

/// The order of these ranks, which are sorted once.
fn load(alloc: Global, kept: Vec<(Rank, IssueNo)>) -> Option<Order> {
    let mut kept = kept;
    kept.sort_unstable_by(|a, b| a.0.cmp(&b.0));
    let mut order = Order::empty(alloc);
    let Ok(()) = order.reserve(kept.len()) else {
        return None;
    };
    for (rank, issue) in kept {
        if !append(&mut order, rank, issue) {
            return None;
        }
    }
    Some(order)
}

/// Moves the last issue to the top, so many times.
fn move_up(order: &mut Order) -> Result<(), RankFault> {
    for _ in 0..MOVES {
        if let ([first, ..], [.., last]) = (order.issues(), order.issues()) {
            let (first, last) = (*first, *last);
            move_before(order, last, first)?;
        }
    }
    Ok(())
}

/// What is timed of an order of so many issues, in nanoseconds: a create, a move, a move from the end to the top, and loading a rank.
fn timed(rt: &HostRuntime, issues: u32) -> Option<[u128; 4]> {
    let mut order = Order::empty(rt.alloc());
    let begin = Instant::now(rt).ok()?;
    build(&mut order, issues).ok()?;
    let built = Instant::now(rt).ok()?;
    move_some(&mut order, issues).ok()?;
    let moved = Instant::now(rt).ok()?;
    move_up(&mut order).ok()?;
    let end = Instant::now(rt).ok()?;
    let kept = kept_ranks(rt.alloc(), &order).ok()?;
    let unloaded = Instant::now(rt).ok()?;
    let loaded = load(rt.alloc(), kept)?;
    let now = Instant::now(rt).ok()?;
    if loaded.len() != order.len() {
        return None;
    }
    Some([
        built.duration_since(begin).as_nanos().checked_div(issues as u128)?,
        moved.duration_since(built).as_nanos() / 10_000,
        end.duration_since(moved).as_nanos() / 10_000,
        now.duration_since(unloaded).as_nanos().checked_div(issues as u128)?,
    ])
}

fn main(rt: HostRuntime) -> ExitCode {
    for &issues in &SIZES {
        let Some([create, moved, up, load]) = timed(&rt, issues) else {
            return ExitCode::from(1);
        };
        let _ = println!(rt; "{issues} issues: create {create} ns, move {moved}, to the top {up}, load {load}");
    }
    ExitCode::from(0)
}
RATTLE

cat > "$program/proofs/create/Answers.antt" <<'ANTT'
use Rattle.std.proofs.Common.{◌≡◌, None, false, refl, sym, ◌∙◌, rules, arith}
use Rattle.std.proofs.lemmas.Bool.{false≢true}
use Rattle.field_values.specs.declared.numbers.IssueNo.{IssueNo}
use Rattle.board.specs.declared.place.Place.TheVariants.{Last}
use Rattle.board.specs.Order.{IsIn}
use Rattle.order_bench.proofs.create.Goals as goal

pub put-requires-clause-free : goal.put-requires-clause-free
put-requires-clause-free c =
    let issue : IssueNo = record { 0 = c.args.number } in
    let absent : IsIn c.reserve.new.self.pairs c.args.number → ⊥ = λ there. let some = c.place_of.ensures.there.1 there in let none = c.if-is_some.ensures in false≢true (none ∙ some) in
    (c.moves_keep_the_order.ensures.there c.reserve.new.self.pairs issue None Last 0 c.in_ok-rank.rank c.issues.ensures.order c.bucket-bucket.ensures.is_rank (search rules) absent c.in_ok-rank.ensures.rank).free
ANTT

cat > "$program/proofs/move_after/Answers.antt" <<'ANTT'
use Rattle.std.proofs.Common.{rules, Some, refl}
use Rattle.board.specs.declared.place.Place.TheVariants.{After}
use Rattle.order_bench.proofs.move_after.Goals as goal

pub put-requires-clause-free : goal.put-requires-clause-free
put-requires-clause-free c =
    (c.moves_keep_the_order.ensures.there c.args.order.now.pairs c.args.issue (Some c.args.issue) (After c.args.other) 0 c.in_ok-rank.rank c.issues.ensures.order c.bucket-bucket.ensures.is_rank (search rules) refl c.in_ok-rank.ensures.rank).free
ANTT

sed 's/After/Before/g; s/move_after/move_before/' "$program/proofs/move_after/Answers.antt" > "$program/proofs/move_before/Answers.antt"

cat > "$program/proofs/append/Answers.antt" <<'ANTT'
use Rattle.std.proofs.Common.{rules, ◌∙◌}
use Rattle.std.proofs.lemmas.Bool.{false≢true}
use Rattle.board.specs.Order.{IsIn}
use Rattle.order_bench.proofs.append.Goals as goal

pub put-requires-clause-free : goal.put-requires-clause-free
put-requires-clause-free c =
    let absent : IsIn c.reserve.new.self.pairs c.args.issue.0 → ⊥ = λ there. let some = c.place_of.ensures.there.1 there in let none = c.if-is_some.ensures in false≢true (none ∙ some) in
    (c.ranks_that_rise.ensures.last c.reserve.new.self.pairs c.args.issue c.args.rank c.issues.ensures.order absent (c.is_above_all.ensures.0 (search rules))).0
ANTT

cd "$program"
rt run > "$work/log" 2>&1 || { cat "$work/log"; exit 1; }
tail -3 "$work/log"
