#!/bin/sh
# Keeps the verdicts of 200 filters on 50,000 issues: writes 1,000,000 cells with ends that a generator names, and then takes all ends
# in order. Prints the time for each, and the greatest memory.
#
# The program is written into a copy of the repository's crates, where `rt run` proves and builds it. Nothing in the repository
# changes. In the copy the call that writes a cell from a truth and an end is public, since a verdict comes from a query alone.
set -eu
top=$(cd "$(dirname "$0")/.." && pwd)
work=$(mktemp -d)
trap 'rm -rf "$work"' EXIT
mkdir "$work/crates"
cp "$top/HANDLES" "$work/HANDLES"
add() {
    [ -e "$work/crates/$1" ] && return
    line=$(grep "^$1:" "$top/crates.txt")
    for lower in ${line#*:}; do
        if [ -d "$top/crates/$lower" ]; then add "$lower"; fi
    done
    line=$(grep "^$1:" "$top/crates.txt")
    name=${line%%:*}
    cp -a "$top/crates/$name" "$work/crates/$name"
    echo "$line" >> "$work/crates.txt"
}
add field_values
add jql_eval
add filter_views
sed -i -e 's/pub(crate) fn write/pub fn write/' -e '/#\[cfg(test)\]/d' -e 's/pub(crate) fn is_there/pub fn is_there/' \
    -e 's/pub(crate) fn issues/pub fn issues/' "$work/crates/filter_views/src/views.rt"
sed -i -e '/#\[cfg(test)\]/d' -e '/^mod tests;/d' "$work/crates/filter_views/src/lib.rt"
rm -rf "$work/crates/filter_views/src/tests.rt" "$work/crates/filter_views/proofs/tests"
echo "views_bench: field_values filter_views" >> "$work/crates.txt"
program=$work/crates/views_bench
mkdir -p "$program/src"
(cd "$work" && git init -q .)

cat > "$program/src/main.rt" <<'RATTLE'
//! Writes 1,000,000 cells of 200 filters and 50,000 issues, takes all ends in order, and prints the time for each.
#![tactic(auto)]

use field_values::{FilterNo, IssueNo, Memory, Moment};
use filter_views::FilterViews;
use std::process::ExitCode;
use std::time::Instant;

const FILTERS: u32 = 200;
const ISSUES: u32 = 50_000;
const SETTLES: u32 = 1_000_000;

fn add_filters(views: &mut FilterViews) -> Result<(), Memory> {
    for number in 0..FILTERS {
        let filter = FilterNo(number + 1);
        views.reserve_filter()?;
        if views.is_there(filter) {
            return Ok(());
        }
        views.add_filter(filter);
    }
    Ok(())
}

fn add_issues(views: &mut FilterViews) -> Result<(), Memory> {
    for number in 0..ISSUES {
        views.reserve_issue()?;
        if views.issues() != number as usize {
            return Ok(());
        }
        views.add_issue(IssueNo(number + 1));
    }
    Ok(())
}

/// Writes a cell, if it is there.
fn write(
    views: &mut FilterViews,
    filter: FilterNo,
    issue: IssueNo,
    holds: bool,
    end: Option<Moment>,
) {
    if !views.is_there(filter) || issue.0 == 0 || issue.0 as usize > views.issues() {
        return;
    }
    views.write(filter, issue, holds, end);
}

/// The next number of the generator.
fn next(seed: u64) -> u64 {
    seed.wrapping_mul(6_364_136_223_846_793_005)
        .wrapping_add(1_442_695_040_888_963_407)
}

fn settle_some(views: &mut FilterViews) {
    let mut seed: u64 = 1;
    for _ in 0..SETTLES {
        seed = next(seed);
        let filter = FilterNo(((seed >> 33) % 200) as u32 + 1);
        seed = next(seed);
        let issue = IssueNo(((seed >> 33) % 50_000) as u32 + 1);
        seed = next(seed);
        let end = Moment::new((seed >> 33) % 4_102_444_800);
        write(views, filter, issue, seed >> 63 == 0, end);
    }
}

/// Takes all ends in order, and answers how many they were.
fn take_all(views: &mut FilterViews) -> u32 {
    for taken in 0..SETTLES {
        let Some((_end, filter, issue)) = views.next_due() else {
            return taken;
        };
        write(views, filter, issue, false, None);
    }
    SETTLES
}

fn main(rt: HostRuntime) -> ExitCode {
    let mut views = FilterViews::empty(rt.alloc());
    let Ok(begin) = Instant::now(&rt) else {
        return ExitCode::from(1);
    };
    if add_filters(&mut views).is_err() || add_issues(&mut views).is_err() {
        return ExitCode::from(2);
    }
    let Ok(built) = Instant::now(&rt) else {
        return ExitCode::from(1);
    };
    settle_some(&mut views);
    let Ok(settled) = Instant::now(&rt) else {
        return ExitCode::from(1);
    };
    let ends = views.heap().len();
    let taken = take_all(&mut views);
    let Ok(end) = Instant::now(&rt) else {
        return ExitCode::from(1);
    };
    let build = built.duration_since(begin).as_millis();
    let settle = settled.duration_since(built).as_nanos() / 1_000_000;
    let take = end.duration_since(settled).as_millis();
    let _ = println!(rt; "200 filters and 50000 issues: {build} ms");
    let _ = println!(rt; "settle: {settle} ns each of 1000000, {ends} ends then");
    let _ = println!(rt; "all due ones taken: {take} ms for {taken}");
    ExitCode::from(0)
}
RATTLE

cd "$program"
rt run > "$work/log" 2>&1 || { cat "$work/log"; exit 1; }
tail -3 "$work/log"
built=$(find out -maxdepth 2 -type f -perm -u+x -name 'views_bench*' | head -1)
python3 -c 'import resource, subprocess, sys
subprocess.run([sys.argv[1]], stdout=subprocess.DEVNULL, check=True)
print("greatest memory:", resource.getrusage(resource.RUSAGE_CHILDREN).ru_maxrss // 1024, "MB")' "./$built"
