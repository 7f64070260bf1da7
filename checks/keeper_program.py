"""The program by which checks/files.py and bench/commits.py use the keeper of a file: it tells rows, puts one, or times commits."""
import os
import pathlib
import shutil
import sqlite3
import subprocess
import sys

TOP = pathlib.Path(__file__).resolve().parent.parent
NEEDED = ['field_values', 'tracker_keeper', 'keeper_told']
COMMITS = 10_000
MADE = 'CREATE TABLE kept (kind INTEGER, no INTEGER, body TEXT, PRIMARY KEY (kind, no))'

MAIN = r'''//! Opens a file and tells its rows, puts a row, or times commits.
#![tactic(auto)]

ghost use Rattle.std.specs.Prelude.{◌<◌, ◌^◌, IfSome};
ghost use Rattle.tracker_keeper.specs.Rows.{number_of};

use field_values::Text;
use keeper_told::ToldKeeper;
use sqlite::{Alter, Connection};
use std::alloc::Global;
use std::env;
use std::process::ExitCode;
use std::time::Instant;
use tracker_keeper::{KeepFault, Keeper, Row, RowOp};

const NO_STORE: u8 = 4;

const NO_MEMORY: u8 = 6;

const ROWS: u32 = 10_000;

const COMMITS: u32 = 10_000;

const BODY: &str = "01234567890123456789012345678901234567890123456789012345678901234567890123456789012345678901234567890123456789012345678901234567890123456789012345678901234567890123456789012345678901234567890123456789";

// C SQLite doesn't write a body that is as it was, so each commit has another.
fn put_of(alloc: Global, number: u32, seed: u32) -> Option<RowOp>
    ensures { IfSome result (λ op. number_of op < 2 ^ 63) }
{
    let body = format!(in alloc; "{seed} {BODY}").ok()?;
    Some(RowOp::Put(Row {
        kind: 3,
        no: u64::from(number),
        body: Text::of(body),
    }))
}

fn commit_one<K: Keeper>(alloc: Global, keeper: &mut K, number: u32, seed: u32) -> Option<()> {
    let op = put_of(alloc, number, seed)?;
    keeper.commit(&[op]).ok()
}

fn commit_two<K: Keeper>(alloc: Global, keeper: &mut K, number: u32, seed: u32) -> Option<()> {
    let one = put_of(alloc, number, seed)?;
    let two = put_of(alloc, number / 2, seed)?;
    keeper.commit(&[one, two]).ok()
}

fn commit_three<K: Keeper>(alloc: Global, keeper: &mut K, number: u32, seed: u32) -> Option<()> {
    let one = put_of(alloc, number, seed)?;
    let two = put_of(alloc, number / 2, seed)?;
    let three = put_of(alloc, number / 3, seed)?;
    keeper.commit(&[one, two, three]).ok()
}

fn commit_of<K: Keeper>(alloc: Global, keeper: &mut K, seed: u32, size: usize) -> Option<()> {
    let number = seed % ROWS;
    match size {
        1 => commit_one(alloc, keeper, number, seed),
        2 => commit_two(alloc, keeper, number, seed),
        _ => commit_three(alloc, keeper, number, seed),
    }
}

fn commit_many<K: Keeper>(alloc: Global, keeper: &mut K, size: usize) -> Option<()> {
    let mut seed: u32 = 1;
    for _ in 0..COMMITS {
        seed = seed.wrapping_mul(1_664_525).wrapping_add(1_013_904_223);
        commit_of(alloc, keeper, seed, size)?;
    }
    Some(())
}

fn over<S: Alter + Drop>(alloc: Global, conn: Connection<S>) -> Option<ToldKeeper<S>> {
    if !conn.is_autocommit() {
        return None;
    }
    Some(ToldKeeper::adopt(alloc, conn))
}

fn tell<K: Keeper>(rt: &HostRuntime, keeper: &mut K) -> u8 {
    match keeper.rows() {
        Ok(rows) => {
            for row in &rows {
                let (kind, no, body) = (row.kind, row.no, row.body.as_str());
                let _ = println!(rt; "{kind} {no} {body}");
            }
            0
        }
        Err(KeepFault::Failed) => 2,
        Err(KeepFault::Memory) => NO_MEMORY,
    }
}

fn put<K: Keeper>(alloc: Global, keeper: &mut K) -> u8 {
    if commit_one(alloc, keeper, 1, 1).is_some() { 0 } else { 2 }
}

fn time<K: Keeper>(rt: &HostRuntime, keeper: &mut K, size: usize) -> u8 {
    let Ok(begin) = Instant::now(rt) else {
        return NO_MEMORY;
    };
    if commit_many(rt.alloc(), keeper, size).is_none() {
        return 2;
    }
    let Ok(end) = Instant::now(rt) else {
        return NO_MEMORY;
    };
    let micros = end.duration_since(begin).as_micros();
    let _ = println!(rt; "{micros}");
    0
}

fn work<K: Keeper>(rt: &HostRuntime, keeper: &mut K, word: &str) -> u8 {
    match word {
        "rows" => tell(rt, keeper),
        "put" => put(rt.alloc(), keeper),
        "0" => 0,
        "1" => time(rt, keeper, 1),
        "2" => time(rt, keeper, 2),
        _ => time(rt, keeper, 3),
    }
}

fn run(rt: &HostRuntime, path: &str, word: &str) -> u8 {
    let Ok(conn) = Connection::open(rt, path) else {
        let _ = eprintln!(rt; "store");
        return NO_STORE;
    };
    let Some(mut keeper) = over(rt.alloc(), conn) else {
        return 1;
    };
    work(rt, &mut keeper, word)
}

fn main(rt: HostRuntime) -> ExitCode {
    let Ok(args) = env::args(&rt) else {
        return ExitCode::from(NO_MEMORY);
    };
    let mut args = args.skip(1);
    let Some(path) = args.next() else {
        return ExitCode::from(1);
    };
    let Some(word) = args.next() else {
        return ExitCode::from(1);
    };
    ExitCode::from(run(&rt, path.as_str(), word.as_str()))
}
'''


def stood_on(names):
    """The lines of crates.txt for the crates named and for all below them, in its order."""
    lines = {}
    for line in (TOP / 'crates.txt').read_text().splitlines():
        name, colon, below = line.partition(':')
        if colon and not name.startswith('#'):
            lines[name] = below.split()
    found, wanted = set(), list(names)
    while wanted:
        name = wanted.pop()
        if name in lines and name not in found:
            found.add(name)
            wanted.extend(lines[name])
    return {name: below for name, below in lines.items() if name in found}


def built(work):
    """The program, proved and built in a copy of the crates that it stands on."""
    (work / 'crates').mkdir()
    shutil.copy(TOP / 'HANDLES', work / 'HANDLES')
    with open(work / 'crates.txt', 'w') as it:
        for name, below in stood_on(NEEDED).items():
            shutil.copytree(TOP / 'crates' / name, work / 'crates' / name, symlinks=True)
            print(f'{name}:', *below, file=it)
        print('rows_bench: field_values tracker_keeper keeper_told sqlite sqlite_store sqlite_std_file sqlite_trees', file=it)
    program = work / 'crates' / 'rows_bench'
    (program / 'src').mkdir(parents=True)
    (program / 'src' / 'main.rt').write_text(MAIN)
    subprocess.run(['git', 'init', '-q', '.'], cwd=work, check=True)
    done = subprocess.run(['rt', 'run'], cwd=program, capture_output=True, text=True)
    found = [it for it in (program / 'out').rglob('rows_bench') if it.is_file() and os.access(it, os.X_OK)]
    if not found:
        sys.exit((done.stdout + done.stderr)[-4000:])
    return found[0]


def filled(path):
    """A file of 10,000 rows, as the keeper's table has them."""
    for suffix in ['', '-wal', '-shm']:
        pathlib.Path(f'{path}{suffix}').unlink(missing_ok=True)
    with sqlite3.connect(path) as db:
        db.execute(MADE)
        db.executemany('INSERT INTO kept VALUES (3, ?, ?)', ((number, '0' * 200) for number in range(10_000)))
    db.close()


def program_in(work, kept):
    """The program at the path `kept`, which is built where it isn't there; built in `work` where that is None."""
    if kept and kept.exists():
        return kept
    program = built(work)
    return pathlib.Path(shutil.copy(program, kept)) if kept else program
