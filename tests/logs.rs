//! Runs the proved program on logs by seed and compares its verdict with the model's (log.rs) and with that of the benchmark's plain version: clean
//! logs, logs in which a wrong line was planted, whose verdict is known, logs of our own store, mutated and hostile ones, and long ones.
//! The input goes through a pipe in random pieces, so that the reads of the program are cut anywhere.
//! Arguments: the program, the first seed, how many logs.

mod hostile;
mod log;
mod misshapen;
#[allow(dead_code)]
mod model;
mod ours;
mod partner;
mod pipe;
#[path = "../bench/log.rs"]
mod plain;
mod planted;
mod random;
mod spoilt;

use log::Verdict;
use planted::Planted;
use random::Random;
use std::collections::BTreeMap;

/// A log, and its verdict where it is known.
struct Case {
    what: &'static str,
    expected: Option<Verdict>,
    log: Vec<u8>,
}

impl Case {
    fn of(what: &'static str, expected: Option<Verdict>, log: Vec<u8>) -> Case {
        Case { what, expected, log }
    }

    fn planted(p: Planted) -> Case {
        Case::of(p.what, Some(p.verdict), p.log)
    }

    /// The model walks the lines above for each line: a log of several MB is too long for it.
    fn is_long(&self) -> bool {
        self.log.len() > 300_000
    }
}

fn ours(r: &mut Random) -> Case {
    let lines = ours::lines(r);
    let log = if lines.is_empty() { Vec::new() } else { hostile::joined(r, &lines) };
    Case::of("our own store's", Some(Verdict::Clean), log)
}

/// Several MB, thousands of clean lines, and then something planted.
fn long(r: &mut Random) -> Case {
    let mut shop = partner::shop(r, planted::BEFORE);
    let repeats = shop.repeats();
    if repeats.is_empty() {
        return long(r);
    }
    let mut left = 1_000_000 + r.below(3_000_000) as i64;
    while left > 0 {
        let line = &repeats[r.below(repeats.len() as u64) as usize];
        left -= line.len() as i64;
        shop.lines.push(line.clone());
    }
    Case::planted(planted::plant(shop, r))
}

fn case(seed: u64, r: &mut Random) -> Case {
    if seed % 100 == 0 {
        return long(r);
    }
    match seed % 8 {
        0..=3 => Case::planted(planted::planted(r)),
        4 => Case::of("clean", Some(Verdict::Clean), partner::clean(r)),
        5 => ours(r),
        6 => {
            let log = if r.one_in(2) { planted::planted(r).log } else { ours(r).log };
            Case::of("mutated", None, spoilt::mutated(r, log))
        }
        _ if r.one_in(2) => Case::of("mixed", None, spoilt::mixed(r)),
        _ => Case::of("hostile", None, spoilt::hostile(r)),
    }
}

/// How often each verdict came up, and each kind of log.
#[derive(Default)]
struct Seen {
    verdicts: BTreeMap<String, usize>,
    kinds: BTreeMap<&'static str, usize>,
    bytes: usize,
    reads_of_ours: usize,
}

impl Seen {
    fn count(&mut self, case: &Case, verdict: Verdict) {
        let name = match verdict {
            Verdict::Clean => "clean".to_string(),
            Verdict::Bad(_) => "bad".to_string(),
            Verdict::Refused(number, _) => number.to_string(),
        };
        *self.verdicts.entry(name).or_default() += 1;
        *self.kinds.entry(case.what).or_default() += 1;
        self.bytes += case.log.len();
        if case.what == "our own store's" {
            self.reads_of_ours += case.log.split(|b| *b == b'\n').filter(|l| l.starts_with(b"read")).count();
        }
    }

    /// A comparison that never met some verdict, or some kind of log, shows less than it says.
    fn expect_all(&self) {
        let kinds = planted::names().chain(["clean", "our own store's", "mutated", "mixed", "hostile"]);
        let missing: Vec<&str> = kinds.filter(|k| !self.kinds.contains_key(k)).collect();
        let verdicts: Vec<&str> = ["clean", "bad", "19", "28"].into_iter().filter(|v| !self.verdicts.contains_key(*v)).collect();
        if !missing.is_empty() || !verdicts.is_empty() || self.reads_of_ours < 1000 {
            eprintln!("TOO FEW: no log was {missing:?}, or judged {verdicts:?}; {} reads of our own", self.reads_of_ours);
            std::process::exit(1);
        }
    }
}

/// The verdict of all three, which is the one expected, where it is.
fn check(path: &str, seed: &str, case: &Case, pieces: &[usize], pause: bool, seen: &mut Seen) {
    let model = match case.expected {
        Some(expected) if case.is_long() => expected,
        _ => log::verdict(&case.log),
    };
    let plain = plain::verdict(&case.log).to_string();
    let program = pipe::output(path, &case.log, pieces, pause);
    let expected = case.expected.unwrap_or(model);
    if model != expected || plain != expected.to_string() || program != format!("{expected}\n").as_bytes() {
        let kept = "target/differs.csv";
        std::fs::write(kept, &case.log).expect("the log is kept");
        let program = String::from_utf8_lossy(&program);
        eprintln!("DIFFERENT: {seed}, {}; the log is in {kept}", case.what);
        eprintln!("  expected:    {expected}\n  the program: {program:?}\n  the model:   {model}\n  plain Rust:  {plain}");
        std::process::exit(1);
    }
    seen.count(case, model);
}

fn main() {
    let args: Vec<String> = std::env::args().collect();
    let (path, seed, count) = (&args[1], args[2].parse::<u64>().expect("a seed"), args[3].parse::<u64>().expect("a count"));
    let mut seen = Seen::default();
    for n in seed..seed + count {
        let mut r = Random(n);
        let case = case(n, &mut r);
        check(path, &format!("seed {n}"), &case, &pipe::pieces(&mut r), n % 5 == 0, &mut seen);
    }
    let day = Case::of("the day", None, std::fs::read("logs/day.csv").expect("the example"));
    for at in 0..=day.log.len() {
        check(path, &format!("in two reads, cut at {at}"), &day, &[at], true, &mut seen);
    }
    if count >= 1000 {
        seen.expect_all();
    }
    let verdicts: Vec<String> = seen.verdicts.iter().map(|(name, n)| format!("{name} {n}")).collect();
    println!("{count} random logs, {} MB ({}): the program and the model gave the same verdict", seen.bytes / 1_000_000, verdicts.join(", "));
}
