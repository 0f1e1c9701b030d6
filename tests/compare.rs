//! Runs the proved program and the plain Rust version on random and hostile sheets, by seed, and compares every byte.
//! The input goes through a pipe in random pieces, so that the reads of the program are cut anywhere.
//! Arguments: the program, the first seed, how many sheets.

mod hostile;
mod pipe;
mod random;
mod sheet;

use hostile::{disturb, edge, joined, noise};
use random::Random;
use std::collections::BTreeMap;

/// A value of any count of digits, every other one at the least or the greatest of its count.
fn value(r: &mut Random) -> u64 {
    let power = 10u64.pow(r.below(20) as u32);
    match r.below(4) {
        0 => power,
        1 => power - 1,
        2 => r.next() % power,
        _ => r.next(),
    }
}

/// A call on few transactions, keys and slots, so that calls meet.
fn call(r: &mut Random, txns: u64, keys: u64) -> String {
    let (t, k) = (1 + r.below(txns), r.below(keys));
    let clock = if r.one_in(60) { u64::MAX - r.below(3) } else { 1 + r.below(12) };
    match r.below(20) {
        0..=1 => format!("start,{t},0,0"),
        2..=5 => format!("put,{t},{k},{}", value(r)),
        6..=9 => format!("get,{t},{k},0"),
        10 => format!("commit,{t},0,{clock}"),
        11..=16 => format!("step,{t},0,0"),
        17 => format!("collect,0,{},0", 63 - r.below(txns + 2).min(63)),
        18 if r.one_in(3) => format!("abort,{t},0,0"),
        18 => format!("start,{t},0,0"),
        _ if r.one_in(8) => "cut,0,0,0".to_string(),
        _ => format!("step,{t},0,0"),
    }
}

/// A transaction from start to its last step, with its numbers growing, beside readers that stay: many entries come to be held and
/// superseded, and readers meet versions that do not fit.
fn transaction(r: &mut Random, n: u64, keys: u64, out: &mut Vec<String>) {
    let t = 1000 + n;
    let puts = 1 + r.below(12);
    out.push(format!("start,{t},0,0"));
    for _ in 0..puts {
        out.push(format!("put,{t},{},{}", r.below(keys), r.next() >> r.below(64)));
    }
    let reader = 1 + r.below(5);
    out.push(format!("start,{reader},0,0"));
    for _ in 0..r.below(keys.min(30)) {
        out.push(format!("get,{reader},{},0", r.below(keys)));
    }
    if r.one_in(6) {
        out.push(format!("abort,{reader},0,0"));
    }
    out.push(format!("commit,{t},0,{}", 1 + r.below(1 + n)));
    for _ in 0..puts + 2 {
        out.push(format!("step,{t},0,0"));
    }
    for _ in 0..r.below(4) {
        out.push(format!("collect,0,{},0", r.below(64)));
    }
    if r.one_in(40) {
        out.push("cut,0,0,0".to_string());
    }
}

/// A line that is close to a right one.
fn near(r: &mut Random) -> Vec<u8> {
    let verb = r.of(&["start", "put", "get", "commit", "step", "abort", "collect", "cut", "scan", "sweep", "", "putt", "PUT"]);
    let number = |r: &mut Random| if r.one_in(2) { edge(r) } else { r.below(4).to_string() };
    let (t, k, n) = (number(r), number(r), number(r));
    let mut line = format!("{verb},{t},{k},{n}").into_bytes();
    if r.one_in(3) {
        disturb(r, &mut line);
    }
    line
}

/// A sheet: of one kind, or of all mixed.
fn make(r: &mut Random) -> Vec<u8> {
    let mut lines: Vec<Vec<u8>> = Vec::new();
    let (kind, txns, keys) = (r.below(5), r.of(&[2, 3, 9, 12]), r.of(&[2, 4, 20, 66]));
    for n in 0..r.of(&[0, 1, 5, 60, 200]) {
        match if kind == 4 { r.below(4) } else { kind } {
            0 | 1 => lines.push(call(r, txns, keys).into_bytes()),
            2 => {
                let mut calls = Vec::new();
                transaction(r, n, keys, &mut calls);
                lines.extend(calls.into_iter().map(String::into_bytes));
            }
            _ if r.one_in(4) => lines.push(noise(r, b"start,0123456789")),
            _ => lines.push(near(r)),
        }
    }
    joined(r, &lines)
}

fn differ(what: &str, input: &[u8], ours: &[u8], theirs: &[u8]) -> ! {
    let path = "target/differs.csv";
    std::fs::write(path, input).expect("the sheet is kept");
    let lines = |b: &[u8]| -> Vec<String> { b.split(|c| *c == b'\n').map(|l| String::from_utf8_lossy(l).into_owned()).collect() };
    let (a, b) = (lines(ours), lines(theirs));
    let at = (0..a.len().max(b.len())).find(|i| a.get(*i) != b.get(*i)).unwrap_or(0);
    eprintln!("DIFFERENT: {what}; the sheet is in {path}");
    eprintln!("  the program: {:?}\n  the model:   {:?}", a.get(at), b.get(at));
    std::process::exit(1);
}

/// What came up: how often each word and each number of a refusal, and how often a number of each count of digits.
#[derive(Default)]
struct Seen {
    answers: BTreeMap<String, usize>,
    digits: [usize; 21],
}

fn compare(what: &str, path: &str, input: &[u8], pieces: &[usize], pause: bool, seen: &mut Seen) {
    let mut theirs = Vec::new();
    sheet::output(input, &mut theirs).expect("memory");
    let ours = pipe::output(path, input, pieces, pause);
    if ours != theirs {
        differ(what, input, &ours, &theirs);
    }
    for line in String::from_utf8(theirs).expect("ASCII").lines().skip(1) {
        let fields: Vec<&str> = line.split(',').collect();
        let name = if fields[1] == "refused" { fields[2] } else { fields[1] };
        *seen.answers.entry(name.to_string()).or_default() += 1;
        fields[2..].iter().for_each(|f| seen.digits[f.len()] += 1);
    }
}

/// A comparison that never met some answer, or a number of some count of digits, shows less than it says.
fn expect_all(seen: &Seen) {
    let words = "started kept own version none nofit closing empty done stored slipped dropped collected found 3 4 5 6 7 8 9 10 11 12 13 14 15 16 19 21";
    let missing: Vec<&str> = words.split(' ').filter(|w| !seen.answers.contains_key(*w)).collect();
    let counts: Vec<usize> = (1..=20).filter(|n| seen.digits[*n] == 0).collect();
    if !missing.is_empty() || !counts.is_empty() {
        eprintln!("TOO FEW: no sheet was answered by {missing:?}, or with a number of {counts:?} digits");
        std::process::exit(1);
    }
}

fn main() {
    let args: Vec<String> = std::env::args().collect();
    let (path, seed, count) = (&args[1], args[2].parse::<u64>().expect("a seed"), args[3].parse::<u64>().expect("a count"));
    let mut seen = Seen::default();
    for n in seed..seed + count {
        let mut r = Random(n);
        let input = make(&mut r);
        let pieces = pipe::pieces(&mut r);
        compare(&format!("seed {n}"), path, &input, &pieces, n % 8 == 0, &mut seen);
    }
    let example = std::fs::read("sheets/example.csv").expect("the example");
    for at in 0..=example.len() {
        compare(&format!("the example in two reads, cut at {at}"), path, &example, &[at], true, &mut seen);
    }
    if count >= 1000 {
        expect_all(&seen);
    }
    let (sheets, lines) = (count + example.len() as u64 + 1, seen.answers.values().sum::<usize>());
    println!("{sheets} random sheets of {lines} lines: the program and the model wrote the same bytes");
}
