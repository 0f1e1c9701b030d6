//! The check of another shop's log in plain Rust, written from the request's text: standard input to standard output. It keeps no table: each line
//! is judged by the list of the lines above it, walked anew. It shares no source with the function and the program that are proved.
#![allow(dead_code)]

#[path = "text.rs"]
mod text;
#[path = "verdict.rs"]
mod verdict;

use std::io::Read as _;
use text::{decimal, fields, lines};
pub use verdict::Verdict;

/// Compared by clock, then number: the fields stand in that order.
#[derive(Clone, Copy, PartialEq, Eq, PartialOrd, Ord)]
struct Id {
    clock: u64,
    txn: u32,
}

/// A key, with the version's id.
#[derive(Clone, Copy, PartialEq, Eq)]
struct Read {
    key: u8,
    id: Id,
}

/// The transaction comes first.
enum Line {
    Write(u32, u8),
    Commit(u32, u64),
    Read(u32, Read),
}

/// "Lines: kind,ticket,key,clock,author"; "unused fields are 0"; "Fields lie in document 01's ranges".
fn parse(line: &[u8]) -> Option<Line> {
    let [kind, t, k, c, a] = fields(line)?;
    let number = |field| decimal(field, u32::MAX.into()).map(|n| n as u32);
    let (t, k, c, a) = (number(t)?, decimal(k, 63)? as u8, decimal(c, u64::MAX)?, number(a)?);
    match kind {
        b"write" if t > 0 && c == 0 && a == 0 => Some(Line::Write(t, k)),
        b"commit" if t > 0 && k == 0 && c > 0 && a == 0 => Some(Line::Commit(t, c)),
        b"read" if t > 0 && c > 0 && a > 0 => Some(Line::Read(t, Read { key: k, id: Id { clock: c, txn: a } })),
        _ => None,
    }
}

// ── what the lines above say; each list has a thing once ──

fn once<T: PartialEq>(all: impl Iterator<Item = T>) -> Vec<T> {
    all.fold(Vec::new(), |mut list, x| {
        if !list.contains(&x) {
            list.push(x);
        }
        list
    })
}

/// The transactions that write or read.
fn actors(above: &[Line]) -> Vec<u32> {
    once(above.iter().filter_map(|l| match l {
        Line::Write(t, _) | Line::Read(t, _) => Some(*t),
        Line::Commit(..) => None,
    }))
}

fn write_set(above: &[Line], txn: u32) -> Vec<u8> {
    once(above.iter().filter_map(|l| match l {
        Line::Write(t, key) if *t == txn => Some(*key),
        _ => None,
    }))
}

fn read_set(above: &[Line], txn: u32) -> Vec<Read> {
    once(above.iter().filter_map(|l| match l {
        Line::Read(t, read) if *t == txn => Some(*read),
        _ => None,
    }))
}

/// The clocks of its commit lines.
fn clocks(above: &[Line], txn: u32) -> Vec<u64> {
    once(above.iter().filter_map(|l| match l {
        Line::Commit(t, clock) if *t == txn => Some(*clock),
        _ => None,
    }))
}

// ── what is wrong with a line ──

/// One more than so many.
fn too_many<T: PartialEq>(most: usize, list: &[T], x: T) -> bool {
    !list.contains(&x) && list.len() >= most
}

/// "28: a 65th ticket that writes or reads, a 9th key written or 17th key read by one ticket."
fn is_over(above: &[Line], line: &Line) -> bool {
    match line {
        Line::Write(t, key) => too_many(64, &actors(above), *t) || too_many(8, &write_set(above, *t), *key),
        Line::Commit(..) => false,
        Line::Read(t, read) => {
            let keys = once(read_set(above, *t).iter().map(|r| r.key));
            too_many(64, &actors(above), *t) || too_many(16, &keys, read.key)
        }
    }
}

/// The paper's Atomic Readset: "for any read of version i, and any key that i's transaction wrote and that was also read, the version read of that
/// key is not older than i."
fn is_atomic(above: &[Line], reads: &[Read]) -> bool {
    reads.iter().all(|r| {
        let wrote = write_set(above, r.id.txn);
        reads.iter().all(|other| !wrote.contains(&other.key) || other.id >= r.id)
    })
}

/// "A read is bad if its author has no commit line above with that clock or never wrote the key, if its reader wrote the key above, if it breaks the
/// reader's Atomic Readset, or if it takes a key at a second version."
fn is_bad_read(above: &[Line], reader: u32, read: &Read) -> bool {
    let mut reads = read_set(above, reader);
    let second_version = reads.iter().any(|r| r.key == read.key && r.id != read.id);
    reads.push(*read);
    !clocks(above, read.id.txn).contains(&read.id.clock)
        || !write_set(above, read.id.txn).contains(&read.key)
        || write_set(above, reader).contains(&read.key)
        || !is_atomic(above, &reads)
        || second_version
}

/// "A write, read or second commit by a committed ticket is bad, and a commit with no write."
fn is_bad(above: &[Line], line: &Line) -> bool {
    let is_committed = |t: &u32| !clocks(above, *t).is_empty();
    match line {
        Line::Write(t, _) => is_committed(t),
        Line::Commit(t, _) => is_committed(t) || write_set(above, *t).is_empty(),
        Line::Read(t, read) => is_committed(t) || is_bad_read(above, *t, read),
    }
}

/// "Lines go in turn; the first refused or bad one is the whole answer, with its line." "19 before 28, 28 before bad."
pub fn verdict(log: &[u8]) -> Verdict {
    let mut above = Vec::new();
    for (n, bytes) in (1..).zip(lines(log)) {
        let Some(line) = parse(bytes) else { return Verdict::Refused(19, n) };
        if is_over(&above, &line) {
            return Verdict::Refused(28, n);
        }
        if is_bad(&above, &line) {
            return Verdict::Bad(n);
        }
        above.push(line);
    }
    Verdict::Clean
}

fn main() -> std::io::Result<()> {
    let mut log = Vec::new();
    std::io::stdin().read_to_end(&mut log)?;
    println!("{}", verdict(&log));
    Ok(())
}
