//! Export and import in plain Rust, written from the request's text: a narrow store's committed set as the commands that set it in Redis. The stream
//! is not parsed by its form: whatever versions it names are gathered, and it is taken where it is, byte for byte, the stream of what was gathered.
//! It shares no source with the functions that are proved; the scan is the model's. As a program it is handed `export` or `import`: a store on
//! standard input to its stream on standard output, or a stream to its store.
#![allow(dead_code)]

#[path = "model.rs"]
mod model;

use model::{commit_record, key_set, record, version_record, write, Answer, Entry, Kind, Station, RECORD, SLOTS, STORE, WRITES};
use std::collections::{BTreeMap, HashSet};
use std::io::{Read as _, Write as _};

/// "The lent target has 65,536 bytes"
pub const TARGET: usize = 65_536;

/// Clock and number: so tuples compare as ids do.
pub type Id = (u64, u32);

/// The write set of each committed transaction, "tickets oldest id first", "keys ascending".
pub type Committed = BTreeMap<Id, BTreeMap<u8, u64>>;

/// The number of the refusal, and the slot with 18.
pub type Refusal = (u8, u8);

// ── export ──

/// "a narrow store's committed set, scanned for one station"
pub fn committed(store: &[u8]) -> Result<Committed, Refusal> {
    let (station, answer) = Station::scan(store);
    if let Answer::Refused(number, slot) = answer {
        return Err((number, slot));
    }
    let value = |slot, n| u64::from_le_bytes(record(Kind::Narrow, store, slot, n)[RECORD - 8..].try_into().unwrap());
    let writes = |(slot, e): (usize, &Entry)| e.keys().zip(1..).map(|(key, n)| (key, value(slot, n))).collect();
    Ok(station.held().map(|(slot, e)| ((e.id.clock, e.id.txn), writes((slot, e)))).collect())
}

/// "each command an array of three bulk strings: SET, a name, a value"
fn command(name: &str, value: &str) -> String {
    format!("*3\r\n$3\r\nSET\r\n${}\r\n{name}\r\n${}\r\n{value}\r\n", name.len(), value.len())
}

/// "A ticket's versions, keys ascending, stand right before its commit, tickets oldest id first."
pub fn stream(set: &Committed) -> Vec<u8> {
    let mut stream = String::new();
    for ((clock, txn), writes) in set {
        for (key, value) in writes {
            stream += &command(&format!("v/{key}/{clock}/{txn}"), &value.to_string());
        }
        let keys: Vec<String> = writes.keys().map(u8::to_string).collect();
        stream += &command(&format!("c/{clock}/{txn}"), &keys.join(","));
    }
    stream.into_bytes()
}

/// "those past the stream keep, and its length is the answer"
pub fn export(store: &[u8], target: &mut [u8]) -> Result<usize, Refusal> {
    if store.len() != STORE || target.len() != TARGET {
        return Err((1, 0));
    }
    let stream = stream(&committed(store)?);
    target[..stream.len()].copy_from_slice(&stream);
    Ok(stream.len())
}

// ── import ──

/// Every version that is named anywhere among the lines; none where a number has no room. Numbers may be written otherwise here.
fn gathered(stream: &[u8]) -> Option<Committed> {
    let lines: Vec<&str> = std::str::from_utf8(stream).ok()?.split("\r\n").collect();
    let mut set = Committed::new();
    for (at, line) in lines.iter().enumerate() {
        let Some(name) = line.strip_prefix("v/") else { continue };
        let mut numbers = name.split('/');
        let mut next = || numbers.next();
        let (key, clock, txn) = (next()?.parse().ok()?, next()?.parse().ok()?, next()?.parse().ok()?);
        // name, the value's length, value
        let value = lines.get(at + 2)?.parse().ok()?;
        set.entry((clock, txn)).or_default().insert(key, value);
    }
    Some(set)
}

/// "Key: 0 to 63.", "Ticket: 1 to 2^32 − 1", "Clock: 1 to 2^64 − 1", "a write list (at most 8 keys"; no "repeated ticket".
fn is_committed_set(set: &Committed) -> bool {
    let mut txns = HashSet::new();
    set.iter().all(|((clock, txn), writes)| {
        let in_range = *clock >= 1 && *txn >= 1 && (1..=WRITES).contains(&writes.len()) && writes.keys().all(|key| *key <= 63);
        in_range && txns.insert(*txn)
    })
}

/// "Import takes only such a stream": none where it is not one. A set may have more transactions than a store.
pub fn read(bytes: &[u8]) -> Option<Committed> {
    gathered(bytes).filter(is_committed_set).filter(|set| stream(set) == bytes)
}

/// "clears the lent store and fills it for one station, drawers from the top"
pub fn filled(set: &Committed) -> Vec<u8> {
    let mut store = vec![0; STORE];
    for ((&(clock, txn), writes), slot) in set.iter().zip((0..SLOTS).rev()) {
        let id = model::Id { clock, txn };
        for ((key, value), n) in writes.iter().zip(1..) {
            write(Kind::Narrow, &mut store, slot, n, &version_record(*key, id, *value));
        }
        write(Kind::Narrow, &mut store, slot, 0, &commit_record(Kind::Narrow, &Entry { id, keys: key_set(writes.keys().copied()) }));
    }
    store
}

/// "27: bytes or order not of this form, or a repeated ticket, after 1. 13: more than 64 commits, after 27."
pub fn import(stream: &[u8], store: &mut [u8]) -> Result<usize, Refusal> {
    if store.len() != STORE {
        return Err((1, 0));
    }
    let set = read(stream).ok_or((27, 0))?;
    if set.len() > SLOTS {
        return Err((13, 0));
    }
    store.copy_from_slice(&filled(&set));
    Ok(set.len())
}

fn main() -> std::io::Result<()> {
    let mut input = Vec::new();
    std::io::stdin().read_to_end(&mut input)?;
    let (mut target, mut store) = (vec![0; TARGET], vec![0; STORE]);
    let output = match std::env::args().nth(1).as_deref() {
        Some("export") => export(&input, &mut target).map(|n| &target[..n]),
        Some("import") => import(&input, &mut store).map(|_| &store[..]),
        _ => panic!("export or import"),
    };
    match output {
        Ok(bytes) => std::io::stdout().write_all(bytes),
        Err((number, slot)) => {
            eprintln!("refused,{number},{slot}");
            std::process::exit(1);
        }
    }
}
