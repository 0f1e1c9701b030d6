//! What the program `cases` must write, worked out by the model: `cases INPUT` reads the program's input and prints its output.
//! Each title ends in `=> ANSWER | ..`, written by hand from the scope document and the requests: the answers of the case's last lines. The model
//! is held to them, a refused call to handing back what it was given, and all cases together to every refusal and every answer.
#![allow(dead_code)]
#[path = "model.rs"]
mod model;

use model::{move_between, Answer, Id, Kind, Live, Phase, Station, STORE};
use std::collections::BTreeSet;

/// A call as the run sheet writes it.
enum Call {
    Start(u32),
    Put(u32, u8, u64),
    Get(u32, u8),
    Commit(u32, u64),
    Step(u32),
    Abort(u32),
    Collect(u8),
    Cut,
}

/// Decimal without needless leading zeros.
fn decimal(field: &str) -> Option<u64> {
    let digits = !field.is_empty() && field.bytes().all(|b| b.is_ascii_digit());
    if !digits || (field.len() > 1 && field.starts_with('0')) {
        return None;
    }
    field.parse().ok()
}

fn parse(line: &str) -> Option<Call> {
    let fields: Vec<&str> = line.split(',').collect();
    let [verb, txn, key, number] = fields[..] else { return None };
    if line.len() > 64 {
        return None;
    }
    let txn = u32::try_from(decimal(txn)?).ok()?;
    let key = u8::try_from(decimal(key)?).ok()?;
    let number = decimal(number)?;
    match (verb, txn, key, number) {
        ("start", t, 0, 0) => Some(Call::Start(t)),
        ("put", t, k, v) => Some(Call::Put(t, k, v)),
        ("get", t, k, 0) => Some(Call::Get(t, k)),
        ("commit", t, 0, c) => Some(Call::Commit(t, c)),
        ("step", t, 0, 0) => Some(Call::Step(t)),
        ("abort", t, 0, 0) => Some(Call::Abort(t)),
        ("collect", 0, d, 0) => Some(Call::Collect(d)),
        ("cut", 0, 0, 0) => Some(Call::Cut),
        _ => None,
    }
}

/// A station and its store; a byte more than a store has is at hand.
#[derive(Clone)]
struct World {
    station: Station,
    bytes: Vec<u8>,
}

impl World {
    fn new(kind: Kind) -> World {
        World { station: Station::empty_of(kind), bytes: vec![0; STORE + 1] }
    }

    /// Where it is not refused, the store is the target from then on, and the station what a scan of it gives.
    fn moved(&mut self, source: usize, target: usize) -> Answer {
        let from = self.station.kind;
        let to = if from == Kind::Narrow { Kind::Wide } else { Kind::Narrow };
        let copy = self.bytes.clone();
        let answer = move_between(from, to, &copy[..source], &mut self.bytes[..target]);
        if let Answer::Moved(_) = answer {
            self.station = Station::scan_of(to, &self.bytes[..target]).0;
        }
        answer
    }

    fn act(&mut self, line: &str, size: usize) -> Answer {
        let store = &mut self.bytes[..size];
        match parse(line) {
            None => Answer::Refused(19, 0),
            Some(Call::Start(t)) => self.station.start(t),
            Some(Call::Put(t, k, v)) => self.station.put(t, k, v),
            Some(Call::Get(t, k)) => self.station.get(store, t, k),
            Some(Call::Commit(t, c)) => self.station.commit(t, c),
            Some(Call::Step(t)) => self.station.step(store, t),
            Some(Call::Abort(t)) => self.station.abort(t),
            Some(Call::Collect(d)) => self.station.collect(store, d),
            Some(Call::Cut) => {
                let (station, answer) = Station::scan_of(self.station.kind, store);
                self.station = station;
                answer
            }
        }
    }

    fn whole(&mut self, txn: u32, key: u8, number: u64) -> Answer {
        self.station.start(txn);
        self.station.put(txn, key, number);
        self.station.commit(txn, number);
        let store = &mut self.bytes[..self.station.kind.store()];
        self.station.step(store, txn);
        self.station.step(store, txn);
        self.station.step(store, txn)
    }

    /// One line, with the answer where it asks for a call.
    fn line(&mut self, line: &str) -> Option<Answer> {
        let (kind, rest) = line.split_at(1);
        match kind {
            "#" => *self = World::new(Kind::Narrow),
            "$" => *self = World::new(Kind::Wide),
            ">" => {
                let [source, target] = numbers(rest)[..] else { panic!("{line}") };
                return Some(self.moved(source as usize, target as usize));
            }
            "!" => {
                let [slot, at, byte] = numbers(rest)[..] else { panic!("{line}") };
                self.bytes[slot as usize * self.station.kind.slot() + at as usize] = byte as u8;
            }
            "~" => {
                let [field, place, i, x] = numbers(rest)[..] else { panic!("{line}") };
                edit(&mut self.station, field, place as usize, i as usize, x);
            }
            "*" => {
                let [txn, key, number] = numbers(rest)[..] else { panic!("{line}") };
                return Some(self.whole(txn as u32, key as u8, number));
            }
            "<" => {
                let (size, call) = rest.split_once(',').unwrap();
                return Some(self.act(call, size.parse().unwrap()));
            }
            "^" => {
                let [limit, size] = numbers(rest)[..] else { panic!("{line}") };
                return Some(self.station.sweep(&mut self.bytes[..size as usize], limit));
            }
            _ => return Some(self.act(line, self.station.kind.store())),
        }
        None
    }
}

/// The digits of each field; its words are for the reader.
fn numbers(fields: &str) -> Vec<u64> {
    let digits = |f: &str| f.chars().filter(char::is_ascii_digit).collect::<String>();
    fields.split(',').map(|f| digits(f).parse().unwrap()).collect()
}

/// The fields as the program's comments number them.
fn edit(station: &mut Station, field: u64, place: usize, i: usize, x: u64) {
    if field >= 20 {
        let e = &mut station.entries[place];
        match field {
            20 => e.id.txn = x as u32,
            21 => e.id.clock = x,
            22 => e.keys = x,
            _ => panic!("field {field}"),
        }
        return;
    }
    let l: &mut Live = &mut station.live[place];
    match field {
        0 => l.txn = x as u32,
        1 => l.phase = Phase::Unused,
        2 => l.phase = Phase::Open,
        3 => l.phase = Phase::Closing { slot: x as u8, clock: 80, stored: 0 },
        4..=6 => {
            let Phase::Closing { slot, clock, stored } = &mut l.phase else { panic!("place {place} is not closing") };
            match field {
                4 => *slot = x as u8,
                5 => *clock = x,
                _ => *stored = x as u8,
            }
        }
        7 => l.keys = x,
        8 => l.read_count = x as u8,
        10 => l.values[i] = x,
        11 => l.reads[i].key = x as u8,
        12 => l.reads[i].id = Id { clock: x, ..l.reads[i].id },
        13 => l.reads[i].id = Id { txn: x as u32, ..l.reads[i].id },
        _ => panic!("field {field}"),
    }
}

fn change(before: &World, after: &World) -> &'static str {
    match (before.station == after.station, before.bytes == after.bytes) {
        (true, true) => "as given",
        (true, false) => "new store",
        (false, false) => "new station and store",
        (false, true) if after.station == Station::empty_of(after.station.kind) => "empty station",
        (false, true) => "new station",
    }
}

/// A line that asks for no call: a title, or a change that is one.
fn changed(line: &str, before: &World, after: &World) -> String {
    if line.starts_with(['#', '$']) {
        return String::new();
    }
    let change = change(before, after);
    assert!(change == "new station" || change == "new store", "{line}: {change}");
    format!("; {change}")
}

fn outcome(answer: Answer, change: &str) -> String {
    let (a, b, c) = answer.values();
    format!("{},{a},{b},{c}; {change}", answer.word())
}

/// What every refusal keeps: station and store as given; the empty station for a scan.
fn keeps(line: &str, answer: Answer, before: &World, after: &World) {
    let Answer::Refused(..) = answer else { return };
    let scans = line.ends_with("cut,0,0,0");
    let station = if scans { Station::empty_of(before.station.kind) } else { before.station.clone() };
    assert!(after.station == station && after.bytes == before.bytes, "{line}: altered");
}

/// A title's claims are the outcomes of its case's last lines, or begin them.
fn held(title: &str, outcomes: &[String]) {
    let (_, claims) = title.split_once(" => ").unwrap_or_else(|| panic!("{title}: no claim"));
    let claims: Vec<&str> = claims.split(" | ").collect();
    assert!(claims.len() <= outcomes.len(), "{title}: {} outcomes", outcomes.len());
    let last = &outcomes[outcomes.len() - claims.len()..];
    for (claim, outcome) in claims.iter().zip(last) {
        let same = outcome == claim || outcome.starts_with(&format!("{claim};"));
        assert!(same, "{title}: {outcome}");
    }
}

fn main() {
    let path = std::env::args().nth(1).expect("an input");
    let text = std::fs::read_to_string(path).unwrap();
    let head = &text[..text.find('%').unwrap()];
    let mut busy = World::new(Kind::Narrow);
    for line in head.lines() {
        busy.line(line);
    }
    assert!(busy.station.sound());
    let mut world = World::new(Kind::Narrow);
    let (mut title, mut outcomes) = ("", Vec::new());
    let (mut words, mut refusals) = (BTreeSet::new(), BTreeSet::new());
    for line in text.lines() {
        if line.starts_with(['#', '$', '%']) {
            if !title.is_empty() {
                held(title, &outcomes);
            }
            (title, outcomes) = (line, Vec::new());
        }
        if line.starts_with('%') {
            world = busy.clone();
            println!("{line}");
            continue;
        }
        let before = world.clone();
        let Some(answer) = world.line(line) else {
            println!("{line}{}", changed(line, &before, &world));
            continue;
        };
        keeps(line, answer, &before, &world);
        words.insert(answer.word());
        if let Answer::Refused(n, _) = answer {
            refusals.insert(n);
        }
        let outcome = outcome(answer, change(&before, &world));
        println!("{line}: {outcome}");
        outcomes.push(outcome);
    }
    held(title, &outcomes);
    assert!(refusals.into_iter().eq(1..=23), "a refusal is missing");
    assert!(words.len() == 17, "an answer is missing");
}
