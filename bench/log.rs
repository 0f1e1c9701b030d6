//! The check of another shop's log as one would write it in Rust without proofs: one pass over the lines, with a table of the transactions met.
//! Standard input to standard output, a line in memory at a time; and as a function of a log's bytes.
#![allow(dead_code)]

#[path = "../tests/verdict.rs"]
mod verdict;

use std::collections::HashMap;
use std::io::{BufRead, BufReader};
pub use verdict::Verdict;

const TXNS: usize = 64;
const WRITES: u32 = 8;
const READS: usize = 16;
const LINE: usize = 64;

/// What is wrong with a line.
enum Fault {
    Malformed,
    Over,
    Bad,
}

enum Line {
    Write { txn: u32, key: u8 },
    Commit { txn: u32, clock: u64 },
    Read { txn: u32, key: u8, clock: u64, author: u32 },
}

fn decimal(field: &[u8], max: u64) -> Option<u64> {
    if field.is_empty() || (field[0] == b'0' && field.len() > 1) {
        return None;
    }
    let n = field.iter().try_fold(0u64, |n, b| {
        let digit = b.is_ascii_digit().then(|| u64::from(b - b'0'))?;
        n.checked_mul(10)?.checked_add(digit)
    });
    n.filter(|n| *n <= max)
}

fn parse(line: &[u8]) -> Option<Line> {
    if line.len() > LINE {
        return None;
    }
    let mut fields = line.split(|b| *b == b',');
    let kind = fields.next()?;
    let mut number = |max: u64| decimal(fields.next()?, max);
    let (txn, key) = (number(u32::MAX.into())? as u32, number(63)? as u8);
    let (clock, author) = (number(u64::MAX)?, number(u32::MAX.into())? as u32);
    if fields.next().is_some() || txn == 0 {
        return None;
    }
    match kind {
        b"write" if clock == 0 && author == 0 => Some(Line::Write { txn, key }),
        b"commit" if key == 0 && clock > 0 && author == 0 => Some(Line::Commit { txn, clock }),
        b"read" if clock > 0 && author > 0 => Some(Line::Read { txn, key, clock, author }),
        _ => None,
    }
}

/// Bit k of the keys stands for key k. A read has the author's place in the table.
struct Txn {
    number: u32,
    clock: Option<u64>,
    wrote: u64,
    reads: Vec<(u8, usize)>,
}

impl Txn {
    fn wrote(&self, key: u8) -> bool {
        self.wrote >> key & 1 == 1
    }

    fn id(&self) -> (Option<u64>, u32) {
        (self.clock, self.number)
    }
}

#[derive(Default)]
struct Checker {
    txns: Vec<Txn>,
    places: HashMap<u32, usize>,
}

impl Checker {
    fn place(&self, number: u32) -> Option<usize> {
        self.places.get(&number).copied()
    }

    fn place_or_new(&mut self, number: u32) -> Result<usize, Fault> {
        if let Some(place) = self.place(number) {
            return Ok(place);
        }
        if self.txns.len() == TXNS {
            return Err(Fault::Over);
        }
        let place = self.txns.len();
        self.places.insert(number, place);
        self.txns.push(Txn { number, clock: None, wrote: 0, reads: Vec::with_capacity(READS) });
        Ok(place)
    }

    fn write(&mut self, number: u32, key: u8) -> Result<(), Fault> {
        let place = self.place_or_new(number)?;
        let txn = &mut self.txns[place];
        if !txn.wrote(key) && txn.wrote.count_ones() == WRITES {
            return Err(Fault::Over);
        }
        if txn.clock.is_some() {
            return Err(Fault::Bad);
        }
        txn.wrote |= 1 << key;
        Ok(())
    }

    fn commit(&mut self, number: u32, clock: u64) -> Result<(), Fault> {
        let place = self.place(number).ok_or(Fault::Bad)?;
        let txn = &mut self.txns[place];
        if txn.clock.is_some() || txn.wrote == 0 {
            return Err(Fault::Bad);
        }
        txn.clock = Some(clock);
        Ok(())
    }

    /// One of two reads is of a transaction that wrote the key of the other, which was read at an older version.
    fn is_fractured(&self, a: (u8, usize), b: (u8, usize)) -> bool {
        let (x, y) = (&self.txns[a.1], &self.txns[b.1]);
        (x.wrote(b.0) && y.id() < x.id()) || (y.wrote(a.0) && x.id() < y.id())
    }

    fn read(&mut self, number: u32, key: u8, clock: u64, author: u32) -> Result<(), Fault> {
        let place = self.place_or_new(number)?;
        let reader = &self.txns[place];
        let before = reader.reads.iter().find(|r| r.0 == key);
        if before.is_none() && reader.reads.len() == READS {
            return Err(Fault::Over);
        }
        let author = self.place(author).ok_or(Fault::Bad)?;
        let version = &self.txns[author];
        if reader.clock.is_some() || version.clock != Some(clock) || !version.wrote(key) || reader.wrote(key) {
            return Err(Fault::Bad);
        }
        match before {
            Some(read) if read.1 == author => Ok(()),
            Some(_) => Err(Fault::Bad),
            None if reader.reads.iter().any(|r| self.is_fractured(*r, (key, author))) => Err(Fault::Bad),
            None => {
                self.txns[place].reads.push((key, author));
                Ok(())
            }
        }
    }

    fn line(&mut self, line: &[u8]) -> Result<(), Fault> {
        match parse(line).ok_or(Fault::Malformed)? {
            Line::Write { txn, key } => self.write(txn, key),
            Line::Commit { txn, clock } => self.commit(txn, clock),
            Line::Read { txn, key, clock, author } => self.read(txn, key, clock, author),
        }
    }

    fn verdict_at(&mut self, line: &[u8], n: u64) -> Verdict {
        match self.line(line) {
            Ok(()) => Verdict::Clean,
            Err(Fault::Malformed) => Verdict::Refused(19, n),
            Err(Fault::Over) => Verdict::Refused(28, n),
            Err(Fault::Bad) => Verdict::Bad(n),
        }
    }
}

/// The verdict on a log.
pub fn verdict(log: &[u8]) -> Verdict {
    if log.is_empty() {
        return Verdict::Clean;
    }
    let mut checker = Checker::default();
    let lines = log.strip_suffix(b"\n").unwrap_or(log).split(|b| *b == b'\n');
    let mut verdicts = (1..).zip(lines).map(|(n, line)| checker.verdict_at(line, n));
    verdicts.find(|v| *v != Verdict::Clean).unwrap_or(Verdict::Clean)
}

fn main() -> std::io::Result<()> {
    let mut input = BufReader::with_capacity(1 << 16, std::io::stdin().lock());
    let (mut checker, mut line, mut n) = (Checker::default(), Vec::new(), 0);
    let mut verdict = Verdict::Clean;
    while verdict == Verdict::Clean && input.read_until(b'\n', &mut line)? > 0 {
        n += 1;
        verdict = checker.verdict_at(line.strip_suffix(b"\n").unwrap_or(&line), n);
        line.clear();
    }
    println!("{verdict}");
    Ok(())
}
