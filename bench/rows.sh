#!/bin/sh
# Reads 1,000,000 bodies of rows and writes each part again, and prints the time for each kind and for all.
#
# The bodies are of kinds 2 to 10 by turns; a tracker has one row of kind 1, its setup, which is read as TOML. The program is written
# into a copy of the repository's crates, where `rt run` proves and builds it. Nothing in the repository changes. It takes some minutes
# where the crates below haven't been proved yet, and about one where they have.
set -eu
top=$(cd "$(dirname "$0")/.." && pwd)
work=$(mktemp -d)
trap 'rm -rf "$work"' EXIT
mkdir "$work/crates"
cp "$top/HANDLES" "$work/HANDLES"
for crate in field_values relative_dates civil_dates field_forms name_index setup_drafts setup_reading fields request_lines change_history \
    rank_strings board rank_balancer sprints tracker_keeper; do
    cp -a "$top/crates/$crate" "$work/crates/$crate"
    grep "^$crate:" "$top/crates.txt" >> "$work/crates.txt"
done
echo "rows_bench: field_values fields tracker_keeper" >> "$work/crates.txt"
program=$work/crates/rows_bench
mkdir -p "$program/src"
(cd "$work" && git init -q .)

cat > "$program/src/main.rt" <<'RATTLE'
//! Reads 1,000,000 bodies of rows, writes each part again, and prints the time for each kind and for all.
#![tactic(auto)]

use field_values::Memory;
use fields::Setup;
use std::alloc::Global;
use std::process::ExitCode;
use std::time::Instant;
use tracker_keeper::{body_of, read_body};

/// A row's kind, its number and its body.
const ROWS: [(u8, u64, &str); 9] = [
    (2, 0, r#"{"balance":[0],"change":12,"format":2,"moment":1709251200}"#),
    (3, 1, r#"{"at":0,"author":"anna","change":1,"fields":{"points":"3","priority":"High","reporter":"anna","status":"Open","summary":"Fix login","type":"Task"},"key":"OPS-1"}"#),
    (4, 7, r#"{"at":60,"author":"anna","entries":[["status","Open","In Progress"],["assignee",null,"anna"],["points","3","2.5"]],"issue":1}"#),
    (5, 1, "0|i006bk:"),
    (6, 1, "X-1"),
    (7, 1, r#"{"close":[120,8],"name":"March","start":[60,6]}"#),
    (8, 1, r#"{"jql":"status CHANGED TO Done AFTER -1d","name":"load","owner":"anna"}"#),
    (9, 1, r#"{"filter":1,"name":"team"}"#),
    (10, 1, r#"{"members":["anna","bo","root"]}"#),
];

/// How often each of them is read and written.
const TIMES: u32 = 111_112;

/// Reads a body and writes its part again; says whether it is the same.
fn is_kept(alloc: Global, setup: &Setup, kind: u8, no: u64, body: &str) -> Result<bool, Memory> {
    match read_body(alloc, kind, no, body, setup)? {
        Some(part) => {
            let written = body_of(alloc, &part, setup)?;
            Ok(written.as_str() == body)
        }
        None => Ok(false),
    }
}

fn keep(alloc: Global, setup: &Setup, kind: u8, no: u64, body: &str) -> Result<u32, Memory> {
    let mut kept = 0u32;
    for _ in 0..TIMES {
        if is_kept(alloc, setup, kind, no, body)? {
            kept = kept.wrapping_add(1);
        }
    }
    Ok(kept)
}

fn run(rt: &HostRuntime, setup: &Setup) -> Option<()> {
    let begin = Instant::now(rt).ok()?;
    for (kind, no, body) in &ROWS {
        let before = Instant::now(rt).ok()?;
        let kept = keep(rt.alloc(), setup, *kind, *no, *body).ok()?;
        let now = Instant::now(rt).ok()?;
        let each = now.duration_since(before).as_nanos() / 111_112;
        let _ = println!(rt; "kind {kind}: {each} ns each of {kept}");
    }
    let end = Instant::now(rt).ok()?;
    let all = end.duration_since(begin).as_millis();
    let _ = println!(rt; "all: {all} ms for 1000008");
    Some(())
}

fn main(rt: HostRuntime) -> ExitCode {
    let Ok(setup) = Setup::built_in(rt.alloc()) else {
        return ExitCode::from(1);
    };
    let Ok(setup) = Box::new(rt.alloc(), setup) else {
        return ExitCode::from(1);
    };
    match run(&rt, &setup) {
        Some(()) => ExitCode::from(0),
        None => ExitCode::from(2),
    }
}
RATTLE

cd "$program"
rt run > "$work/log" 2>&1 || { cat "$work/log"; exit 1; }
tail -10 "$work/log"
