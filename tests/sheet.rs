//! The run sheet in plain Rust, written from the scope document's text: standard input to standard output.
//! Its calls are those of model.rs; it shares no source with the program that is proved.
#![allow(dead_code)]

#[path = "model.rs"]
pub mod model;
#[path = "text.rs"]
mod text;

use model::{Answer, Station, STORE};
use std::io::{Read, Write};
use text::{decimal, fields, lines};

enum Line {
    Start(u32),
    Put(u32, u8, u64),
    Get(u32, u8),
    Commit(u32, u64),
    Step(u32),
    Abort(u32),
    Collect(u8),
    Cut,
}

/// "Input: verb,ticket,key,number"; "unused fields are 0".
fn parse(line: &[u8]) -> Option<Line> {
    let [verb, t, k, n] = fields(line)?;
    let (t, k, n) = (decimal(t, u32::MAX.into())? as u32, decimal(k, 255)? as u8, decimal(n, u64::MAX)?);
    let unused = |zero: bool, line: Line| zero.then_some(line);
    match verb {
        b"start" => unused(k == 0 && n == 0, Line::Start(t)),
        b"put" => Some(Line::Put(t, k, n)),
        b"get" => unused(n == 0, Line::Get(t, k)),
        b"commit" => unused(k == 0, Line::Commit(t, n)),
        b"step" => unused(k == 0 && n == 0, Line::Step(t)),
        b"abort" => unused(k == 0 && n == 0, Line::Abort(t)),
        b"collect" => unused(t == 0 && n == 0, Line::Collect(k)),
        b"cut" => unused(t == 0 && k == 0 && n == 0, Line::Cut),
        _ => None,
    }
}

/// The output for an input's bytes.
pub fn output(input: &[u8], out: &mut impl Write) -> std::io::Result<()> {
    let (mut station, mut store) = (Station::empty(), vec![0; STORE]);
    writeln!(out, "line,answer,a,b,c")?;
    for (i, line) in lines(input).into_iter().enumerate() {
        let answer = match parse(line) {
            None => Answer::Refused(19, 0),
            Some(Line::Start(t)) => station.start(t),
            Some(Line::Put(t, k, v)) => station.put(t, k, v),
            Some(Line::Get(t, k)) => station.get(&store, t, k),
            Some(Line::Commit(t, c)) => station.commit(t, c),
            Some(Line::Step(t)) => station.step(&mut store, t),
            Some(Line::Abort(t)) => station.abort(t),
            Some(Line::Collect(d)) => station.collect(&mut store, d),
            Some(Line::Cut) => {
                let (found, answer) = Station::scan(&store);
                station = found;
                answer
            }
        };
        let (a, b, c) = answer.values();
        writeln!(out, "{},{},{},{},{}", i + 1, answer.word(), a, b, c)?;
    }
    Ok(())
}

fn main() -> std::io::Result<()> {
    let mut input = Vec::new();
    std::io::stdin().read_to_end(&mut input)?;
    let mut out = std::io::BufWriter::with_capacity(1 << 17, std::io::stdout().lock());
    output(&input, &mut out)?;
    out.flush()
}
