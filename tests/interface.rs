//! The proved library through its C interface, against the model in plain Rust, over narrow and wide stores: random call lists with cuts, retries,
//! collections, sweeps, full slots and places, equal and backward clocks and the greatest numbers; moves out and back; imports, taken, cut short and
//! refused, with which histories begin anew; images and stores with bytes changed, entries of no key and of too many; wrong lengths and an older
//! version's, null pointers; batches. And logs, against theirs (log.rs).
//! Answers, images and stores are compared byte for byte, and every undisturbed history is held to the cut rule after each call, and after each record
//! of a sweep. Arguments: the first seed, how many histories.

mod book;
mod committed;
mod hostile;
mod log;
mod malformed;
mod misshapen;
#[allow(dead_code)]
mod model;
mod partner;
mod planted;
mod random;
mod redis;
mod spoilt;

use book::{Book, Call};
use log::Verdict;
use malformed::{ascending, malformed, text, written};
use model::*;
use random::Random;
use redis::Refusal;
use std::collections::BTreeMap;

const IMAGE: usize = 4552;
const REQUEST: usize = 16;
const ANSWER: usize = 32;

extern "C" {
    fn gorehimu_empty(image: *mut u8, image_len: usize) -> u32;
    fn gorehimu_empty_wide(image: *mut u8, image_len: usize) -> u32;
    fn gorehimu_recover(image: *mut u8, image_len: usize, store: *const u8, store_len: usize, answer: *mut u8, answer_len: usize) -> u32;
    fn gorehimu_recover_wide(image: *mut u8, image_len: usize, store: *const u8, store_len: usize, answer: *mut u8, answer_len: usize) -> u32;
    fn gorehimu_move_out(source: *const u8, source_len: usize, target: *mut u8, target_len: usize, answer: *mut u8, answer_len: usize) -> u32;
    fn gorehimu_move_back(source: *const u8, source_len: usize, target: *mut u8, target_len: usize, answer: *mut u8, answer_len: usize) -> u32;
    fn gorehimu_export(store: *const u8, store_len: usize, target: *mut u8, target_len: usize, answer: *mut u8, answer_len: usize) -> u32;
    fn gorehimu_import(stream: *const u8, stream_len: usize, store: *mut u8, store_len: usize, answer: *mut u8, answer_len: usize) -> u32;
    fn gorehimu_call(
        image: *mut u8,
        image_len: usize,
        store: *mut u8,
        store_len: usize,
        request: *const u8,
        request_len: usize,
        answer: *mut u8,
        answer_len: usize,
    ) -> u32;
    fn gorehimu_run(
        image: *mut u8,
        image_len: usize,
        store: *mut u8,
        store_len: usize,
        requests: *const u8,
        requests_len: usize,
        answers: *mut u8,
        answers_len: usize,
    ) -> u32;
    fn gorehimu_check_log(log: *const u8, log_len: usize, answer: *mut u8, answer_len: usize) -> u32;
}

fn run(image: &mut [u8], store: &mut [u8], requests: &[u8], answers: &mut [u8]) -> u32 {
    unsafe {
        gorehimu_run(image.as_mut_ptr(), image.len(), store.as_mut_ptr(), store.len(), requests.as_ptr(), requests.len(), answers.as_mut_ptr(), answers.len())
    }
}

fn one(image: &mut [u8], store: &mut [u8], request: &[u8], answer: &mut [u8]) -> u32 {
    unsafe {
        gorehimu_call(image.as_mut_ptr(), image.len(), store.as_mut_ptr(), store.len(), request.as_ptr(), request.len(), answer.as_mut_ptr(), answer.len())
    }
}

fn empty(kind: Kind, image: &mut [u8]) -> u32 {
    let f = match kind {
        Kind::Narrow => gorehimu_empty,
        Kind::Wide => gorehimu_empty_wide,
    };
    unsafe { f(image.as_mut_ptr(), image.len()) }
}

fn recover(kind: Kind, image: &mut [u8], store: &[u8], answer: &mut [u8]) -> u32 {
    let f = match kind {
        Kind::Narrow => gorehimu_recover,
        Kind::Wide => gorehimu_recover_wide,
    };
    unsafe { f(image.as_mut_ptr(), image.len(), store.as_ptr(), store.len(), answer.as_mut_ptr(), answer.len()) }
}

fn other(kind: Kind) -> Kind {
    match kind {
        Kind::Narrow => Kind::Wide,
        Kind::Wide => Kind::Narrow,
    }
}

/// A move from a store of this kind.
fn moved(from: Kind, source: &[u8], target: &mut [u8], answer: &mut [u8]) -> u32 {
    let f = match from {
        Kind::Narrow => gorehimu_move_out,
        Kind::Wide => gorehimu_move_back,
    };
    unsafe { f(source.as_ptr(), source.len(), target.as_mut_ptr(), target.len(), answer.as_mut_ptr(), answer.len()) }
}

fn check_log(log: &[u8], answer: &mut [u8]) -> u32 {
    unsafe { gorehimu_check_log(log.as_ptr(), log.len(), answer.as_mut_ptr(), answer.len()) }
}

// ── the image, from the header's page ──

fn encode(s: &Station) -> Vec<u8> {
    let mut b = Vec::with_capacity(IMAGE);
    b.extend([s.kind.mark(), 0, 0, 0, 0, 0, 0, 0]);
    for l in &s.live {
        let (mark, slot, clock, stored) = match l.phase {
            Phase::Unused => (0, 0, 0, 0),
            Phase::Open => (1, 0, 0, 0),
            Phase::Closing { slot, clock, stored } => (2, slot, clock, stored),
        };
        b.extend([mark, slot, stored, l.read_count]);
        b.extend(l.txn.to_le_bytes());
        b.extend(clock.to_le_bytes());
        b.extend(l.keys.to_le_bytes());
        for v in &l.values {
            b.extend(v.to_le_bytes());
        }
        for r in &l.reads {
            b.extend([r.key, 0, 0, 0]);
            b.extend(r.id.txn.to_le_bytes());
            b.extend(r.id.clock.to_le_bytes());
        }
    }
    for e in &s.entries {
        b.extend(e.id.txn.to_le_bytes());
        b.extend(e.id.clock.to_le_bytes());
        b.extend(e.keys.to_le_bytes());
    }
    assert_eq!(b.len(), IMAGE);
    b
}

/// The station of an image; none where the bytes are no station's.
fn decode(b: &[u8]) -> Option<Station> {
    let four = |at: usize| u32::from_le_bytes(b[at..at + 4].try_into().unwrap());
    let eight = |at: usize| u64::from_le_bytes(b[at..at + 8].try_into().unwrap());
    let mut s = Station::empty_of(match b[0] {
        1 => Kind::Narrow,
        2 => Kind::Wide,
        _ => return None,
    });
    for (i, l) in s.live.iter_mut().enumerate() {
        let at = 8 + 408 * i;
        l.phase = match b[at] {
            0 => Phase::Unused,
            1 => Phase::Open,
            2 => Phase::Closing { slot: b[at + 1], clock: eight(at + 8), stored: b[at + 2] },
            _ => return None,
        };
        (l.read_count, l.txn, l.keys) = (b[at + 3], four(at + 4), eight(at + 16));
        for (j, v) in l.values.iter_mut().enumerate() {
            *v = eight(at + 24 + 8 * j);
        }
        for (j, r) in l.reads.iter_mut().enumerate() {
            let at = at + 152 + 16 * j;
            *r = Read { key: b[at], id: Id { clock: eight(at + 8), txn: four(at + 4) } };
        }
    }
    for (d, e) in s.entries.iter_mut().enumerate() {
        let at = 3272 + 20 * d;
        *e = Entry { id: Id { clock: eight(at + 4), txn: four(at) }, keys: eight(at + 12) };
    }
    (encode(&s) == b).then_some(s)
}

// ── requests and answers ──

const SCAN: Call = Call { verb: 8, txn: 0, key: 0, number: 0 };

fn collect(slot: usize) -> Call {
    Call { verb: 7, txn: 0, key: slot as u8, number: 0 }
}

fn sweep(limit: u64) -> Call {
    Call { verb: 9, txn: 0, key: 0, number: limit }
}

fn request(c: Call) -> [u8; REQUEST] {
    let mut r = [0; REQUEST];
    r[0] = c.verb;
    r[1] = c.key;
    r[4..8].copy_from_slice(&c.txn.to_le_bytes());
    r[8..].copy_from_slice(&c.number.to_le_bytes());
    r
}

fn kind(a: Answer) -> u64 {
    let words = ["started", "kept", "own", "version", "none", "nofit", "closing", "empty", "done", "stored", "slipped", "dropped", "collected", "found", "refused", "swept", "moved"];
    words.iter().position(|w| *w == a.word()).unwrap() as u64 + 1
}

fn numbers(all: [u64; 4]) -> Vec<u8> {
    all.iter().flat_map(|n| n.to_le_bytes()).collect()
}

fn answer(a: Answer) -> Vec<u8> {
    let (x, y, z) = a.values();
    numbers([kind(a), x, y, z])
}

fn verdict_answer(v: Verdict) -> Vec<u8> {
    match v {
        Verdict::Clean => numbers([18, 0, 0, 0]),
        Verdict::Bad(line) => numbers([19, line, 0, 0]),
        Verdict::Refused(number, line) => numbers([15, number.into(), line, 0]),
    }
}

/// Of an export or an import: the kind of its answer, the library's function, the model's. They have one form: what is read, what is written.
type Transfer = (u64, unsafe extern "C" fn(*const u8, usize, *mut u8, usize, *mut u8, usize) -> u32, fn(&[u8], &mut [u8]) -> Result<usize, Refusal>);

const EXPORT: Transfer = (20, gorehimu_export, redis::export);
const IMPORT: Transfer = (21, gorehimu_import, redis::import);

fn transfer_answer(kind: u64, outcome: Result<usize, Refusal>) -> Vec<u8> {
    match outcome {
        Ok(n) => numbers([kind, n as u64, 0, 0]),
        Err((number, slot)) => numbers([15, number.into(), slot.into(), 0]),
    }
}

/// Whether the fields that a call does not use are 0.
fn well_formed(c: Call) -> bool {
    match c.verb {
        1 | 5 | 6 => c.key == 0 && c.number == 0,
        2 => true,
        3 => c.number == 0,
        4 => c.key == 0,
        7 => c.txn == 0 && c.number == 0,
        8 => c.txn == 0 && c.key == 0 && c.number == 0,
        9 => c.txn == 0 && c.key == 0,
        _ => false,
    }
}

/// What the model makes of a call. No station is as a narrow station that is not sound.
fn by_model(station: &mut Option<Station>, store: &mut [u8], c: Call) -> Answer {
    if !well_formed(c) {
        return Answer::Refused(19, 0);
    }
    if c.verb == 8 {
        let kind = station.as_ref().map_or(Kind::Narrow, |s| s.kind);
        let (s, a) = Station::scan_of(kind, store);
        *station = Some(s);
        return a;
    }
    let Some(s) = station else {
        let by_store = [3, 5, 7, 9].contains(&c.verb);
        return Answer::Refused(if by_store && store.len() != STORE { 1 } else { 2 }, 0);
    };
    match c.verb {
        1 => s.start(c.txn),
        2 => s.put(c.txn, c.key, c.number),
        3 => s.get(store, c.txn, c.key),
        4 => s.commit(c.txn, c.number),
        5 => s.step(store, c.txn),
        6 => s.abort(c.txn),
        7 => s.collect(store, c.key),
        _ => s.sweep(store, c.number),
    }
}

// ── chance ──

/// How a history is made: few or many keys and transactions, and how often each call comes.
struct Style {
    txns: u64,
    keys: u64,
    weights: [u64; 9],
    clocks: u64,
    /// The last clocks come too, in few histories: after the last nothing more is written.
    last: bool,
}

fn style(r: &mut Random) -> Style {
    let txns = [3, 12, 40, 200, 1000][r.below(5) as usize];
    let keys = [2, 4, 12, 40, 64][r.below(5) as usize];
    // in turn: of everything; writers that fill the slots; readers; writers with many keys; collectors
    let weights = [[3, 8, 8, 4, 12, 1, 4, 0, 0], [6, 6, 0, 6, 24, 0, 0, 0, 0], [4, 3, 40, 2, 8, 0, 1, 0, 0], [2, 30, 1, 1, 8, 0, 1, 0, 0], [4, 4, 6, 4, 18, 1, 12, 0, 0]][r.below(5) as usize];
    let mut weights = weights.map(|w: u64| if w == 0 { 0 } else { w + r.below(2) });
    if r.one_in(3) {
        weights[7] = 1;
    }
    if r.one_in(2) {
        weights[8] = 1 + r.below(3);
    }
    Style { txns, keys, weights, clocks: [3, 50, u64::MAX][r.below(3) as usize], last: r.one_in(8) }
}

/// One of a list, mostly; else whatever comes.
fn one_of(r: &mut Random, list: &[u32], other: u32) -> u32 {
    if list.is_empty() || r.one_in(5) {
        other
    } else {
        list[r.below(list.len() as u64) as usize]
    }
}

fn call(r: &mut Random, z: &Style, image: &[u8], time: u64) -> Call {
    let total: u64 = z.weights.iter().sum();
    let mut pick = r.below(total);
    let mut verb = 1;
    for (i, w) in z.weights.iter().enumerate() {
        if pick < *w {
            verb = i as u8 + 1;
            break;
        }
        pick -= w;
    }
    let station = decode(image).unwrap_or_else(Station::empty);
    let live: Vec<u32> = station.live.iter().map(|l| l.txn).filter(|t| *t != 0).collect();
    let closing: Vec<u32> = station.live.iter().filter(|l| matches!(l.phase, Phase::Closing { .. })).map(|l| l.txn).collect();
    let held: Vec<u32> = station.held().map(|(d, _)| d as u32).collect();
    let fresh = 1 + r.below(z.txns) as u32;
    let txn = match r.below(60) {
        0 => 0,
        1 => u32::MAX,
        _ if verb == 1 => fresh,
        _ if verb == 5 => one_of(r, &closing, fresh),
        _ => one_of(r, &live, fresh),
    };
    let key = match r.below(80) {
        0 => 64,
        1 => 255,
        _ => r.below(z.keys) as u8,
    };
    let clock = match r.below(40) {
        0 => 0,
        1 if z.last => u64::MAX - r.below(4),
        _ if z.clocks == u64::MAX => time,
        _ => 1 + r.below(z.clocks),
    };
    let c = match verb {
        2 => Call { verb, txn, key, number: r.next() },
        3 => Call { verb, txn, key, number: 0 },
        4 => Call { verb, txn, key: 0, number: clock },
        7 => {
            let any = r.below(66) as u32;
            Call { verb, txn: 0, key: if r.one_in(50) { 200 } else { one_of(r, &held, any) as u8 }, number: 0 }
        }
        8 => SCAN,
        9 => sweep([0, 1, 2, 3 + r.below(8), 64, 64, 65, u64::MAX][r.below(8) as usize]),
        _ => Call { verb, txn, key: 0, number: 0 },
    };
    match r.below(150) {
        0 => Call { number: c.number + 1 - c.number % 2, ..c },
        1 => Call { verb: [0, 10, 255][r.below(3) as usize], ..c },
        2 => Call { txn: 1, ..c },
        3 => Call { key: 1, ..c },
        _ => c,
    }
}

#[derive(Default)]
struct Seen {
    words: BTreeMap<&'static str, u64>,
    refusals: BTreeMap<u8, u64>,
    /// Of entries that were refused for their write set: how many keys it had.
    wrong_sets: BTreeMap<u32, u64>,
    /// The imports of histories by the number of their refusal, 0 where they were taken.
    imports: BTreeMap<u8, u64>,
    /// Of those taken: how many were cut short and begun again, and with how many a history went on.
    cut_imports: u64,
    begun_anew: u64,
    calls: u64,
    logs: u64,
}

impl Seen {
    fn count(&mut self, a: Answer) {
        *self.words.entry(a.word()).or_default() += 1;
        if let Answer::Refused(n, _) = a {
            *self.refusals.entry(n).or_default() += 1;
        }
        self.calls += 1;
    }
}

/// So many whole transactions of so many keys each.
fn transactions(r: &mut Random, count: usize, keys: u8) -> Vec<Call> {
    let mut calls = Vec::new();
    for n in 0..count as u32 {
        let (txn, low) = (10_000 + n, r.below(65 - u64::from(keys)) as u8);
        let c = |verb, key, number| Call { verb, txn, key, number };
        calls.push(c(1, 0, 0));
        calls.extend((0..keys).map(|k| c(2, low + k, u64::from(n))));
        calls.push(c(4, 0, u64::from(n) + 1));
        calls.extend((0..keys + 2).map(|_| c(5, 0, 0)));
    }
    calls
}

/// Some whole transactions, most with the kind's greatest write sets, so that histories also begin with many versions or with all slots held.
fn whole(r: &mut Random, kind: Kind) -> Vec<Call> {
    let all = kind.slots();
    let count = [0, 0, 8, all / 2 - 2, all - 1, all][r.below(6) as usize];
    let keys = if r.one_in(4) { 1 + r.below(8) } else { kind.writes() as u64 };
    transactions(r, count, keys as u8)
}

/// The same calls, in one batch, by both: answers, image and store must agree.
fn compare(image: &mut Vec<u8>, store: &mut Vec<u8>, calls: &[Call], seen: &mut Seen, what: &str) -> Vec<Answer> {
    let mut station = decode(image);
    let mut model_store = store.clone();
    let mut answers = Vec::new();
    for c in calls {
        let a = by_model(&mut station, &mut model_store, *c);
        seen.count(a);
        answers.push(a);
    }
    let model_image = station.as_ref().map_or_else(|| image.clone(), encode);
    let requests: Vec<u8> = calls.iter().flat_map(|c| request(*c)).collect();
    let mut out = vec![0xaa; ANSWER * calls.len()];
    if calls.len() == 1 && calls[0].verb == 8 && well_formed(calls[0]) {
        // a scan is a recovery too
        let mut recovered = image.clone();
        let kind = station.as_ref().unwrap().kind;
        assert_eq!(recover(kind, &mut recovered, store, &mut out), 0, "{what}");
        assert!(recovered == model_image && out == answer(answers[0]), "{what}: the recovery differs");
    }
    let code = if calls.len() == 1 { one(image, store, &requests, &mut out) } else { run(image, store, &requests, &mut out) };
    assert_eq!(code, 0, "{what}");
    let expected: Vec<u8> = answers.iter().flat_map(|a| answer(*a)).collect();
    assert!(out == expected, "{what}: the answers differ; the calls are {calls:?}, the model answers {answers:?}");
    assert!(*image == model_image, "{what}: the images differ after {calls:?}");
    assert!(*store == model_store, "{what}: the stores differ after {calls:?}");
    answers
}

/// Which record a call wrote, as the header tells a host: the slot of each closing transaction, and how many version records it has stored.
struct Closings {
    kind: Kind,
    slots: BTreeMap<u32, (u8, usize)>,
}

impl Closings {
    fn of(kind: Kind) -> Closings {
        Closings { kind, slots: BTreeMap::new() }
    }

    /// Where the record that a call wrote begins in the store; none where it wrote none.
    fn written(&mut self, c: Call, a: Answer) -> Option<usize> {
        let (slot, n) = match a {
            Answer::Closing(slot) => {
                self.slots.insert(c.txn, (slot, 0));
                return None;
            }
            Answer::Stored(_) => {
                let (slot, n) = self.slots.get_mut(&c.txn).unwrap();
                *n += 1;
                (*slot, *n)
            }
            Answer::Slipped(slot) => (slot, 0),
            Answer::Collected(_) => (c.key, 0),
            _ => return None,
        };
        Some(place(self.kind, usize::from(slot), n))
    }
}

fn id_in(kind: Kind, store: &[u8], slot: usize) -> Id {
    let r = record(kind, store, slot, 0);
    Id { clock: u64::from_le_bytes(r[8..16].try_into().unwrap()), txn: u32::from_le_bytes(r[4..8].try_into().unwrap()) }
}

/// The slots that were cleared since a store was as it lasts, in the order in which the header has a host bring their commit records there.
fn cleared(kind: Kind, store: &[u8], lasting: &[u8]) -> Vec<usize> {
    let at = |d: usize| place(kind, d, 0);
    let mut slots: Vec<usize> = (0..kind.slots()).filter(|d| lasting[at(*d)] == kind.mark() && store[at(*d)] == 0).collect();
    slots.sort_by_key(|d| id_in(kind, lasting, *d));
    slots
}

fn holds(book: &Book, store: &[u8], after: &str, what: &str) {
    if let Err(e) = book.check(store) {
        panic!("{what}: the cut rule does not hold after {after}: {e}");
    }
}

/// The book takes a call with its answer; the cut rule holds of the two.
fn fed(book: &mut Book, c: Call, a: Answer, store: &[u8], what: &str) {
    book.feed(c, a);
    if let Err(e) = book.check(store) {
        panic!("{what}: the cut rule does not hold after {c:?}: {e}");
    }
}

/// One call by both; it wrote no byte but the record that its answer names, and the cut rule holds after it. A sweep is held to its collects.
fn checked(image: &mut Vec<u8>, store: &mut Vec<u8>, c: Call, book: &mut Book, closings: &mut Closings, seen: &mut Seen, what: &str) {
    let before = (image.clone(), store.clone());
    let a = compare(image, store, &[c], seen, what)[0];
    if let Answer::Swept(count) = a {
        let after = collects(closings.kind, before, store, count, book, seen, what);
        assert!(after == (image.clone(), store.clone()), "{what}: {c:?} is not its collects");
        return;
    }
    let (from, to) = closings.written(c, a).map_or((0, 0), |at| (at, at + RECORD));
    assert!(before.1[..from] == store[..from] && before.1[to..] == store[to..], "{what}: {c:?}, answered {a:?}, wrote past its record");
    fed(book, c, a, store, what);
    if let (5, Answer::Done(id)) = (c.verb, a) {
        booking(image, store, id, book, seen, what);
    }
}

/// The booking just made is the one read: a transaction that is started after an acknowledgement, and first gets a key that was written, is answered
/// that version or one closed later.
fn booking(image: &[u8], store: &[u8], id: Id, book: &Book, seen: &mut Seen, what: &str) {
    let station = decode(image).unwrap();
    let entry = *station.held().find(|(_, e)| e.id == id).expect("an entry").1;
    let taken = |t: u32| station.live.iter().any(|l| l.txn == t) || station.held().any(|(_, e)| e.id.txn == t);
    let txn = (1_000_000..).find(|t| !taken(*t)).unwrap();
    for key in entry.keys() {
        let start = Call { verb: 1, txn, key: 0, number: 0 };
        let get = Call { verb: 3, txn, key, number: 0 };
        match compare(&mut image.to_vec(), &mut store.to_vec(), &[start, get], seen, what)[..] {
            [Answer::Started, Answer::Version(value, read)] => {
                assert!(book.not_before(read, id), "{what}: after {id:?}, {key} gives {read:?}, which closed before");
                assert_eq!(Some(value), book.value(read, key), "{what}: the value of {read:?} under {key}");
            }
            [Answer::Refused(7, 0), _] => {}
            ref other => panic!("{what}: after {id:?}, {key} gives {other:?}"),
        }
    }
}

/// The image of a station that is lost: all that is known is the store's kind.
fn lost(kind: Kind) -> Vec<u8> {
    encode(&Station::empty_of(kind))
}

/// A sweep's single collects, oldest id first, and what they leave. Power may go after each of its records: what lasts then is what so many collects
/// leave, the cut rule holds of it, and the library recovers it.
fn collects(kind: Kind, before: (Vec<u8>, Vec<u8>), swept: &[u8], count: u8, book: &mut Book, seen: &mut Seen, what: &str) -> (Vec<u8>, Vec<u8>) {
    let (mut image, mut store) = before;
    let slots = cleared(kind, swept, &store);
    assert_eq!(slots.len(), usize::from(count), "{what}: the sweep's count is not that of the records it cleared");
    for d in slots {
        let mut lasting = store.clone();
        write(kind, &mut lasting, d, 0, record(kind, swept, d, 0));
        let a = compare(&mut image, &mut store, &[collect(d)], seen, what)[0];
        assert!(lasting == store, "{what}: a record of the sweep is not that of the collect of {d}");
        fed(book, collect(d), a, &lasting, what);
        compare(&mut lost(kind), &mut lasting, &[SCAN], seen, what);
    }
    (image, store)
}

/// Sweeps of a copy: limits m and n leave what m + n leaves, and their counts add; a commit record that is changed ends a sweep when its turn comes.
fn sweeps(r: &mut Random, kind: Kind, image: &[u8], store: &[u8], seen: &mut Seen, what: &str) {
    let mut after = |store: &[u8], limits: &[u64]| {
        let (mut image, mut store) = (image.to_vec(), store.to_vec());
        let calls: Vec<Call> = limits.iter().map(|n| sweep(*n)).collect();
        let count: u64 = compare(&mut image, &mut store, &calls, seen, what).iter().map(|a| a.values().0).sum();
        (count, image, store)
    };
    let limit = |r: &mut Random, most: u64| 1 + if r.one_in(2) { r.below(most) } else { r.below(most.min(4)) };
    let m = limit(r, 63);
    let n = limit(r, 64 - m);
    assert!(after(store, &[m, n]) == after(store, &[m + n]), "{what}: sweeps of {m} and {n} are not one of {}", m + n);
    let (_, _, swept) = after(store, &[64]);
    for (turn, d) in cleared(kind, &swept, store).into_iter().enumerate().take(2) {
        let mut damaged = store.to_vec();
        damaged[place(kind, d, 0) + r.below(RECORD as u64) as usize] ^= 1 + r.below(255) as u8;
        assert_eq!(after(&damaged, &[64]).0, turn as u64, "{what}: the damaged record of {d} did not end the sweep");
    }
}

/// A history from the empty station of a kind: calls one by one, the cut rule checked after each, and the same in batches; cuts between record writes,
/// each followed by a scan; moves, after which it goes on over the other kind's store; and imports, after which it begins anew.
fn history(seed: u64, first: Kind, seen: &mut Seen) {
    let mut r = Random(seed);
    let z = style(&mut r);
    let mut kind = first;
    let mut image = vec![0xaa; IMAGE];
    assert_eq!(empty(kind, &mut image), 0);
    assert!(image == encode(&Station::empty_of(kind)), "the empty image");
    let mut store = vec![0; kind.store()];
    let (mut book, mut closings) = (Book::of(kind), Closings::of(kind));
    for time in 100..300 {
        let calls: Vec<Call> = if time == 100 { whole(&mut r, kind) } else { (0..1 + r.below(8)).map(|_| call(&mut r, &z, &image, time)).collect() };
        let what = format!("{first:?} seed {seed}, time {time}");
        let before = (image.clone(), store.clone());
        for c in &calls {
            checked(&mut image, &mut store, *c, &mut book, &mut closings, seen, &what);
        }
        let (mut batch_image, mut batch_store) = before;
        compare(&mut batch_image, &mut batch_store, &calls, seen, &what);
        assert!(batch_image == image && batch_store == store, "{what}: a batch is not its calls one by one");
        if r.one_in(25) {
            cut(&mut r, &mut image, &mut store, &mut book, &mut closings, seen, &what);
        }
        if r.one_in(20) {
            if let Some(target) = moves(&mut r, kind, &store, &book, seen, &what) {
                // at times the history goes on over the target
                if r.one_in(2) {
                    (store, kind) = (target, other(kind));
                    (book, closings) = (book.moved(kind), Closings::of(kind));
                    image = lost(kind);
                    checked(&mut image, &mut store, SCAN, &mut book, &mut closings, seen, &what);
                }
            }
        }
        if r.one_in(50) {
            if let Some((imported, begun)) = imports(&mut r, &z, &store, &book, seen, &what) {
                (store, kind) = (imported, Kind::Narrow);
                (book, closings) = (begun, Closings::of(kind));
                image = lost(kind);
                checked(&mut image, &mut store, SCAN, &mut book, &mut closings, seen, &what);
            }
        }
        if r.one_in(8) {
            disturb(&mut r, &z, kind, &image, &store, seen, &what);
            write_sets(&mut r, kind, &image, &store, seen, &what);
            sweeps(&mut r, kind, &image, &store, seen, &what);
        }
    }
}

/// Power goes, at times in the middle of a sweep: the station is lost, and a scan starts the desk again.
fn cut(r: &mut Random, image: &mut Vec<u8>, store: &mut Vec<u8>, book: &mut Book, closings: &mut Closings, seen: &mut Seen, what: &str) {
    let kind = closings.kind;
    if r.one_in(2) {
        let (mut swept_image, mut swept) = (image.clone(), store.clone());
        compare(&mut swept_image, &mut swept, &[sweep(64)], seen, what);
        let slots = cleared(kind, &swept, store);
        for d in slots.iter().take(r.below(slots.len() as u64 + 1) as usize) {
            let id = id_in(kind, store, *d);
            write(kind, store, *d, 0, &[0; RECORD]);
            fed(book, collect(*d), Answer::Collected(id), store, what);
        }
    }
    *image = lost(kind);
    if kind == Kind::Narrow {
        // an image that is no station's is scanned as a narrow one's
        for b in image.iter_mut() {
            *b = r.next() as u8;
        }
    }
    checked(image, store, SCAN, book, closings, seen, what);
}

/// A move by both, into a store of whatever bytes: answer and target agree, the source stays. The target, where the move was not refused.
fn move_compared(r: &mut Random, from: Kind, source: &[u8], target_len: usize, seen: &mut Seen, what: &str) -> (Answer, Vec<u8>) {
    let before: Vec<u8> = (0..target_len).map(|_| r.next() as u8).collect();
    let (mut target, mut by_model) = (before.clone(), before.clone());
    let a = move_between(from, other(from), source, &mut by_model);
    seen.count(a);
    let (source_before, mut out) = (source.to_vec(), vec![0xaa; ANSWER]);
    assert_eq!(moved(from, source, &mut target, &mut out), 0, "{what}");
    assert!(out == answer(a), "{what}: the answers of a move differ; the model's is {a:?}");
    assert!(target == by_model, "{what}: the targets of a move differ, {a:?}");
    assert!(source == source_before, "{what}: a move wrote its source");
    if let Answer::Refused(..) = a {
        assert!(target == before, "{what}: a refused move wrote its target, {a:?}");
    }
    (a, target)
}

/// A move of a history's store: the cut rule holds of the target with the same book, its pages torn out. Back again, the same set is committed, and
/// out again come the same bytes.
fn moves(r: &mut Random, from: Kind, store: &[u8], book: &Book, seen: &mut Seen, what: &str) -> Option<Vec<u8>> {
    let to = other(from);
    let (a, target) = move_compared(r, from, store, to.store(), seen, what);
    let Answer::Moved(count) = a else { return None };
    holds(&book.moved(to), &target, "a move", what);
    let (again, back) = move_compared(r, to, &target, from.store(), seen, what);
    assert_eq!(again, Answer::Moved(count), "{what}: the move back");
    holds(&book.moved(from), &back, "a move back", what);
    assert!(move_compared(r, from, &back, to.store(), seen, what) == (a, target.clone()), "{what}: out again, other bytes");
    Some(target)
}

/// An export or an import by both, over the bytes that are there: answers and bytes agree, what is read stays, and a refusal alters no byte.
fn transfer_compared((kind, f, model): Transfer, from: &[u8], to: &mut Vec<u8>, seen: &mut Seen, what: &str) -> Result<usize, Refusal> {
    let (before, mut by_model) = (to.clone(), to.clone());
    let outcome = model(from, &mut by_model);
    let (read, mut out) = (from.to_vec(), vec![0xaa; ANSWER]);
    let code = unsafe { f(from.as_ptr(), from.len(), to.as_mut_ptr(), to.len(), out.as_mut_ptr(), out.len()) };
    assert_eq!(code, 0, "{what}");
    assert!(out == transfer_answer(kind, outcome), "{what}: the answers of a transfer differ; the model's is {outcome:?}");
    assert!(*to == by_model, "{what}: the bytes of a transfer differ, {outcome:?}");
    assert!(from == read, "{what}: a transfer wrote what it reads");
    assert!(outcome.is_ok() || *to == before, "{what}: a refused transfer wrote something, {outcome:?}");
    seen.calls += 1;
    outcome
}

/// The stream of a history's store, over the front of whatever bytes; a wide store has none.
fn exported(r: &mut Random, store: &[u8], seen: &mut Seen, what: &str) -> Option<Vec<u8>> {
    let mut target = committed::bytes(r, redis::TARGET);
    let len = transfer_compared(EXPORT, store, &mut target, seen, what).ok()?;
    target.truncate(len);
    Some(target)
}

/// A stream from elsewhere, of any set; at times one of too many transactions, one with something wrong, or one with a byte changed.
fn stream(r: &mut Random, z: &Style) -> Vec<u8> {
    let seed = r.below(10);
    let mut set = committed::by_seed(r, seed);
    // as the calls' clocks: after the last nothing more is written
    set.retain(|(clock, _), _| z.last || *clock < u64::MAX - 1000);
    let mut stream = redis::stream(&set);
    match r.below(6) {
        0 => text(&ascending(r, 65)),
        1 => {
            let few = written(&committed::set(r, 2));
            let mut wrong = malformed(r, &few, 0);
            wrong.swap_remove(r.below(wrong.len() as u64) as usize).1
        }
        2 => {
            hostile::disturb(r, &mut stream);
            stream
        }
        _ => stream,
    }
}

/// What lasts of an import where power goes in its middle: its first so many bytes, or any of its bytes, records or slots.
fn half(r: &mut Random, before: &[u8], imported: &[u8]) -> Vec<u8> {
    let (piece, end) = (r.of(&[1, RECORD, SLOT]), r.below(STORE as u64 + 1) as usize);
    if r.one_in(2) {
        return [&imported[..end], &before[end..]].concat();
    }
    before.chunks(piece).zip(imported.chunks(piece)).flat_map(|(old, new)| if r.one_in(2) { old } else { new }).copied().collect()
}

/// An import that is cut short and begun again fills the store as if it had not been cut. Of half of it nothing is promised, but both scan it the same.
fn begun_again(r: &mut Random, stream: &[u8], before: &[u8], imported: &[u8], seen: &mut Seen, what: &str) {
    let mut store = half(r, before, imported);
    compare(&mut lost(Kind::Narrow), &mut store, &[SCAN], seen, what);
    let outcome = transfer_compared(IMPORT, stream, &mut store, seen, what);
    assert!(outcome.is_ok() && store == imported, "{what}: begun again, an import comes to {outcome:?} or other bytes");
    seen.cut_imports += 1;
}

/// The store that an import makes of these bytes, at times cut short at first; none where it is refused.
fn taken(r: &mut Random, stream: &[u8], before: &[u8], seen: &mut Seen, what: &str) -> Option<Vec<u8>> {
    let mut store = before.to_vec();
    let outcome = transfer_compared(IMPORT, stream, &mut store, seen, what);
    *seen.imports.entry(outcome.map_or_else(|refusal| refusal.0, |_| 0)).or_default() += 1;
    outcome.ok()?;
    if r.one_in(3) {
        begun_again(r, stream, before, &store, seen, what);
    }
    Some(store)
}

/// An import in a history, of its store's own stream or of another, into that store or into one full of other bytes. The store and the book that begins
/// with it; none where the old history goes on: after a refusal (1 where the store is wide), and at times where the store is another.
fn imports(r: &mut Random, z: &Style, store: &[u8], book: &Book, seen: &mut Seen, what: &str) -> Option<(Vec<u8>, Book)> {
    let own = if r.one_in(2) { exported(r, store, seen, what) } else { None };
    let stream = own.clone().unwrap_or_else(|| stream(r, z));
    let same = r.one_in(2);
    let before = if same { store.to_vec() } else { committed::bytes(r, STORE) };
    let imported = taken(r, &stream, &before, seen, what)?;
    let begun = Book::imported(&redis::read(&stream).expect("the set of a stream that was taken"));
    holds(&begun, &imported, "an import", what);
    if own.is_some() {
        // the same set is committed
        holds(&book.moved(Kind::Narrow), &imported, "an export and an import", what);
    }
    let goes_on = same || r.one_in(2);
    seen.begun_anew += u64::from(goes_on);
    goes_on.then_some((imported, begun))
}

/// Stores filled to so many slots with write sets of so many keys: 22 and 23 come exactly where they should. Damaged sources, of which a move is refused
/// or moves the same as the model; wrong lengths.
fn fills(seed: u64, seen: &mut Seen) {
    let mut r = Random(seed);
    for from in [Kind::Narrow, Kind::Wide] {
        let to = other(from);
        for count in [0, 1, 2, 31, 32, 33, 64] {
            for keys in [1, 8, 9, 16] {
                if count > from.slots() || keys > from.writes() {
                    continue;
                }
                let what = format!("{from:?}, {count} slots of {keys} keys, seed {seed}");
                let (mut image, mut store) = (lost(from), vec![0; from.store()]);
                compare(&mut image, &mut store, &transactions(&mut r, count, keys as u8), seen, &what);
                let expected = match () {
                    _ if count > to.slots() => Answer::Refused(22, 0),
                    _ if count > 0 && keys > to.writes() => Answer::Refused(23, 0),
                    _ => Answer::Moved(count as u8),
                };
                assert_eq!(move_compared(&mut r, from, &store, to.store(), seen, &what).0, expected, "{what}");
                for _ in 0..20 {
                    let mut damaged = store.clone();
                    for _ in 0..1 + r.below(2) {
                        // mostly in a commit record
                        let slot = r.below(from.slots() as u64) as usize;
                        let at = if r.one_in(3) { r.below(store.len() as u64) as usize } else { place(from, slot, 0) + r.below(24) as usize };
                        damaged[at] = [0, 1, 2, r.next() as u8][r.below(4) as usize];
                    }
                    move_compared(&mut r, from, &damaged, to.store(), seen, &what);
                }
                for (source, target) in [(0, 0), (1, 0), (0, 1), (store.len(), 0), (0, to.store())] {
                    let a = move_compared(&mut r, from, &store[..store.len() - source], to.store() - target, seen, &what).0;
                    assert!(source + target == 0 || a == Answer::Refused(1, 0), "{what}: {source} and {target} bytes less, {a:?}");
                }
                // each store as the other kind's
                let a = move_compared(&mut r, to, &store, from.store(), seen, &what).0;
                assert_eq!(a, Answer::Refused(1, 0), "{what}: moved as the other kind's");
            }
        }
    }
}

/// Copies of the image and the store with bytes changed: every call must still agree.
fn disturb(r: &mut Random, z: &Style, kind: Kind, image: &[u8], store: &[u8], seen: &mut Seen, what: &str) {
    let (mut image, mut store) = (image.to_vec(), store.to_vec());
    for _ in 0..1 + r.below(3) {
        let value = if r.one_in(2) { r.below(4) as u8 } else { r.next() as u8 };
        if r.one_in(2) {
            let at = r.below(IMAGE as u64) as usize;
            image[at] = value;
        } else {
            let at = r.below(kind.store() as u64) as usize;
            store[at] = value;
        }
    }
    if r.one_in(10) {
        store.truncate(r.below(kind.store() as u64) as usize);
    }
    for _ in 0..12 {
        let calls: Vec<Call> = (0..1 + r.below(3)).map(|_| call(r, z, &image, 7)).collect();
        compare(&mut image, &mut store, &calls, seen, what);
    }
    compare(&mut image, &mut store, &[sweep(64)], seen, what);
    move_compared(r, kind, &store, other(kind).store(), seen, what);
    compare(&mut image, &mut store, &[SCAN], seen, what);
}

/// The same with another write set in an entry: of no key, of more than its kind's limit or of all, it makes the station one that is not sound, and
/// every call is refused with 2. Of one to eight keys, or sixteen, it is another entry, which may be sound.
fn write_sets(r: &mut Random, kind: Kind, image: &[u8], store: &[u8], seen: &mut Seen, what: &str) {
    let mut station = decode(image).expect("a station");
    let held: Vec<usize> = station.held().map(|(d, _)| d).collect();
    if held.is_empty() {
        return;
    }
    let d = held[r.below(held.len() as u64) as usize];
    let most = kind.writes() as u32;
    let count = [0, 1, most, most + 1, most + 1, 64, r.below(65) as u32][r.below(7) as usize];
    let e = &mut station.entries[d];
    e.keys = 0;
    while e.keys.count_ones() < count {
        e.keys |= 1 << r.below(64);
    }
    let (txn, key) = (e.id.txn, r.below(64) as u8);
    let c = |verb, txn, key, number| Call { verb, txn, key, number };
    let calls = [c(1, 77, 0, 0), c(2, 77, key, 7), c(3, 77, key, 0), c(4, txn, 0, 7), c(5, 77, 0, 0), c(6, 77, 0, 0), collect(d), sweep(64)];
    let answers = compare(&mut encode(&station), &mut store.to_vec(), &calls, seen, what);
    if !(1..=most).contains(&count) {
        assert!(answers.iter().all(|a| *a == Answer::Refused(2, 0)), "{what}: slot {d} with {count} keys: {answers:?}");
        *seen.wrong_sets.entry(count).or_default() += 1;
    }
}

/// A sound station that no history makes: any entries, and read sets that need not be atomic, so that the lower bound decides too. Neither clocks nor
/// numbers go by the slots.
fn made_up(seed: u64, kind: Kind, seen: &mut Seen) {
    let mut r = Random(seed);
    let mut station = Station::empty_of(kind);
    let mut store = vec![0; kind.store()];
    let (keys, clocks) = ([3, 6, 20, 64][r.below(4) as usize], [1, 3, 1000, u64::MAX][r.below(4) as usize]);
    let last = if r.one_in(4) { r.below(64) as usize } else { SLOTS };
    for d in 0..kind.slots() {
        if r.one_in(3) {
            continue;
        }
        let wrote = key_set((0..1 + r.below(kind.writes() as u64)).map(|_| r.below(keys) as u8));
        let clock = if d == last { u64::MAX - r.below(2) } else { 1 + r.below(clocks) };
        let e = Entry { id: Id { clock, txn: 1 + d as u32 * 37 % 64 * 3 + r.below(3) as u32 }, keys: wrote };
        write(kind, &mut store, d, 0, &commit_record(kind, &e));
        for (n, k) in e.keys().enumerate() {
            write(kind, &mut store, d, n + 1, &version_record(k, e.id, r.next()));
        }
        station.entries[d] = e;
    }
    let entries: Vec<Entry> = station.held().map(|(_, e)| *e).collect();
    for (i, l) in station.live.iter_mut().enumerate().take(1 + r.below(8) as usize) {
        (l.txn, l.phase) = (1000 + i as u32, Phase::Open);
        for k in 0..keys as u8 {
            let wrote: Vec<&Entry> = entries.iter().filter(|e| e.wrote(k)).collect();
            if !wrote.is_empty() && usize::from(l.read_count) < READS && r.one_in(2) {
                let e = wrote[r.below(wrote.len() as u64) as usize];
                l.reads[usize::from(l.read_count)] = Read { key: k, id: e.id };
                l.read_count += 1;
            }
        }
    }
    assert!(station.sound(), "seed {seed}: the made-up station is not sound");
    let image = encode(&station);
    let what = format!("made up, {kind:?}, seed {seed}");
    for txn in 1000..1008 {
        for key in 0..keys as u8 {
            compare(&mut image.clone(), &mut store.clone(), &[Call { verb: 3, txn, key, number: 0 }], seen, &what);
        }
    }
    for clock in [1, 2, 1 + r.below(1100), u64::MAX - 1, u64::MAX] {
        let calls = [(2, r.below(64) as u8, 7), (4, 0, clock), (5, 0, 0)].map(|(verb, key, number)| Call { verb, txn: 1000, key, number });
        compare(&mut image.clone(), &mut store.clone(), &calls, seen, &what);
    }
    for d in 0..64 {
        compare(&mut image.clone(), &mut store.clone(), &[collect(d)], seen, &what);
    }
    for limit in [0, 1, 2 + r.below(62), 64, 65, u64::MAX] {
        let (mut book, mut closings) = (Book::begun(kind, &store), Closings::of(kind));
        checked(&mut image.clone(), &mut store.clone(), sweep(limit), &mut book, &mut closings, seen, &what);
    }
    sweeps(&mut r, kind, &image, &store, seen, &what);
    moves(&mut r, kind, &store, &Book::begun(kind, &store), seen, &what);
}

/// Every field of every part of a busy station changed, and every byte of one slot.
fn every_byte(kind: Kind, seen: &mut Seen) {
    let (mut image, mut store) = (lost(kind), vec![0; kind.store()]);
    let last = kind.slots() - 1;
    let mut calls = Vec::new();
    let c = |verb, txn, key, number| Call { verb, txn, key, number };
    for t in 1..=6 {
        calls.push(c(1, t, 0, 0));
        for k in 0..3 {
            calls.push(c(2, t, k + t as u8, 100 + u64::from(k)));
        }
        calls.push(c(4, t, 0, u64::from(t)));
        for _ in 0..5 {
            calls.push(c(5, t, 0, 0));
        }
    }
    for t in [20, 21, 22] {
        calls.push(c(1, t, 0, 0));
        calls.push(c(3, t, 4, 0));
        calls.push(c(3, t, 7, 0));
        calls.push(c(2, t, 30, 5));
    }
    calls.push(c(4, 21, 0, 50));
    calls.push(c(4, 22, 0, 51));
    calls.push(c(5, 22, 0, 0));
    // the first four are superseded, and the fourth has been read; transaction 20 still reads key 1 of the first
    calls.push(c(1, 30, 0, 0));
    calls.extend((1..5).map(|k| c(2, 30, k, 300)));
    calls.push(c(4, 30, 0, 30));
    calls.extend((0..6).map(|_| c(5, 30, 0, 0)));
    compare(&mut image, &mut store, &calls, seen, "a busy station");
    let tries = [c(1, 77, 0, 0), c(2, 20, 1, 9), c(3, 20, 5, 0), c(5, 22, 0, 0), collect(last), collect(last - 3), sweep(1), sweep(64)];
    for at in 0..IMAGE {
        for value in (0..10).chain([63, 64, 255]) {
            let (mut i, mut s) = (image.clone(), store.clone());
            i[at] = value;
            compare(&mut i, &mut s, &tries, seen, &format!("image byte {at} is {value}"));
        }
    }
    for at in place(kind, last, 0)..kind.store() {
        for value in 0..=255 {
            let (mut i, mut s) = (image.clone(), store.clone());
            s[at] = value;
            let what = format!("store byte {at} is {value}");
            compare(&mut i.clone(), &mut s.clone(), &[sweep(2), collect(last), SCAN], seen, &what);
            compare(&mut i, &mut s, &[c(3, 20, 1, 0), collect(last), SCAN], seen, &what);
        }
    }
}

// ── another shop's log ──

/// A log by both, and the verdict; none but the answer's bytes are written.
fn judged(log: &[u8], seen: &mut Seen, what: &str) -> Verdict {
    let v = log::verdict(log);
    let (before, mut out) = (log.to_vec(), vec![0xaa; ANSWER + 2]);
    assert_eq!(check_log(log, &mut out[1..ANSWER + 1]), 0, "{what}");
    assert!(out[1..ANSWER + 1] == verdict_answer(v), "{what}: the answer on a log is not {v}:\n{}", String::from_utf8_lossy(log));
    assert!(out[0] == 0xaa && out[ANSWER + 1] == 0xaa && log == before, "{what}: a check wrote past its answer");
    seen.logs += 1;
    v
}

/// Planted, mutated, clean, mixed and hostile ones.
fn some_logs(seed: u64, seen: &mut Seen) {
    let mut r = Random(seed);
    for _ in 0..4 {
        let p = planted::planted(&mut r);
        let what = format!("seed {seed}, {}", p.what);
        assert_eq!(judged(&p.log, seen, &what), p.verdict, "{what}");
        judged(&spoilt::mutated(&mut r, p.log), seen, &what);
        for log in [partner::clean(&mut r), spoilt::mixed(&mut r), spoilt::hostile(&mut r)] {
            judged(&log, seen, &what);
        }
    }
}

/// Every prefix: the last line ends anywhere, and has its newline or not.
fn prefixes(seed: u64, seen: &mut Seen) {
    let mut r = Random(seed);
    let log = if r.one_in(2) { partner::clean(&mut r) } else { spoilt::mixed(&mut r) };
    for end in 0..=log.len().min(2000) {
        judged(&log[..end], seen, &format!("seed {seed}, the first {end} bytes"));
    }
}

/// Every line of three transactions, two keys and two clocks.
fn few_lines() -> Vec<String> {
    let mut lines = Vec::new();
    for (t, x) in (1..=3).flat_map(|t| [(t, 0), (t, 1)]) {
        lines.push(format!("write,{t},{x},0,0\n"));
        lines.push(format!("commit,{t},0,{},0\n", x + 1));
        lines.extend((1..=3).flat_map(|a| [1, 2].map(|c| format!("read,{t},{x},{c},{a}\n"))));
    }
    lines
}

/// A log with each line after it, and where that is clean with each line after that, so many lines deep.
fn deeper(log: &mut Vec<u8>, lines: &[String], depth: u32, seen: &mut Seen) {
    let len = log.len();
    for line in lines {
        log.extend(line.as_bytes());
        if judged(log, seen, "every line") == Verdict::Clean && depth > 1 {
            deeper(log, lines, depth - 1, seen);
        }
        log.truncate(len);
    }
}

/// From nothing, and from two that wrote both keys and committed at one clock.
fn every_line(seen: &mut Seen) {
    let lines = few_lines();
    deeper(&mut Vec::new(), &lines, 5, seen);
    let begun = "write,1,0,0,0\nwrite,2,0,0,0\nwrite,2,1,0,0\nwrite,1,1,0,0\ncommit,2,0,1,0\ncommit,1,0,1,0\n";
    deeper(&mut begun.into(), &lines, 4, seen);
}

/// Wrong lengths are refused, and nothing is written.
fn wrong_lengths() {
    let before = (vec![0x55; IMAGE + 8], vec![0x66; STORE], vec![8; 64], vec![0x77; 128]);
    for (i, q, a) in [(IMAGE - 1, 16, 32), (IMAGE + 1, 16, 32), (0, 16, 32), (IMAGE, 15, 32), (IMAGE, 17, 32), (IMAGE, 16, 31), (IMAGE, 16, 64), (IMAGE, 32, 32), (IMAGE, 0, 32)] {
        let (mut image, mut store, requests, mut answers) = before.clone();
        assert_eq!(run(&mut image[..i], &mut store, &requests[..q], &mut answers[..a]), 1, "lengths {i}, {q}, {a}");
        assert!((image, store, requests, answers) == before, "lengths {i}, {q}, {a}: something was written");
    }
    for (i, q, a) in [(IMAGE - 1, 16, 32), (IMAGE, 15, 32), (IMAGE, 32, 32), (IMAGE, 0, 32), (IMAGE, 16, 33), (IMAGE, 32, 64)] {
        let (mut image, mut store, requests, mut answers) = before.clone();
        assert_eq!(one(&mut image[..i], &mut store, &requests[..q], &mut answers[..a]), 1, "one call, lengths {i}, {q}, {a}");
        assert!((image, store, requests, answers) == before, "one call, lengths {i}, {q}, {a}: something was written");
    }
    for kind in [Kind::Narrow, Kind::Wide] {
        for (i, a) in [(IMAGE - 1, 32), (IMAGE, 31), (IMAGE, 0)] {
            let (mut image, store, requests, mut answers) = before.clone();
            assert_eq!(recover(kind, &mut image[..i], &store, &mut answers[..a]), 1, "{kind:?} recovery, lengths {i}, {a}");
            assert!((image, store, requests, answers) == before, "{kind:?} recovery, lengths {i}, {a}: something was written");
        }
        let mut image = vec![0x55; IMAGE - 1];
        assert_eq!(empty(kind, &mut image), 1);
        assert!(image.iter().all(|b| *b == 0x55));
        for a in [0, 31, 33] {
            let (source, mut target, mut answers) = (vec![0; kind.store()], vec![0x66; other(kind).store()], vec![0x77; a]);
            assert_eq!(moved(kind, &source, &mut target, &mut answers), 1, "a move, an answer of {a} bytes");
            assert!(target.iter().all(|b| *b == 0x66) && answers.iter().all(|b| *b == 0x77), "a move, an answer of {a} bytes: something was written");
        }
    }
    for a in [0, 31, 33, 64] {
        let mut answers = vec![0x77; a];
        assert_eq!(check_log(b"write,1,2,0,0\n", &mut answers), 1, "a log, an answer of {a} bytes");
        assert!(answers.iter().all(|b| *b == 0x77), "a log, an answer of {a} bytes: something was written");
    }
    let (mut image, mut store) = (encode(&Station::empty()), vec![0; STORE]);
    assert_eq!(run(&mut image, &mut store, &[], &mut []), 0, "no request");
}

/// An image of an older version is refused by its length, whatever is asked, and nothing is written: it is never read as one of this version.
fn older_versions() {
    let start = request(Call { verb: 1, txn: 7, key: 0, number: 0 });
    // the empty station's image was all zeros
    for (version, length, byte) in [(1, 4800, 0), (1, 4800, 0x55), (2, 4544, 0), (2, 4544, 0x55)] {
        let before = (vec![byte; length], vec![0; STORE], vec![0x77; ANSWER]);
        let refused = |what: &str, call: &dyn Fn(&mut [u8], &mut [u8], &mut [u8]) -> u32| {
            let (mut image, mut store, mut answers) = before.clone();
            assert_eq!(call(&mut image, &mut store, &mut answers), 1, "version {version}, {what}");
            assert!((image, store, answers) == before, "version {version}, {what}: something was written");
        };
        refused("a run", &|image, store, answers| run(image, store, &start, answers));
        refused("a run of nothing", &|image, store, _| run(image, store, &[], &mut []));
        refused("one call", &|image, store, answers| one(image, store, &start, answers));
        for kind in [Kind::Narrow, Kind::Wide] {
            refused("a recovery", &|image, store, answers| recover(kind, image, store, answers));
            refused("made empty", &|image, _, _| empty(kind, image));
        }
    }
}

/// Where a length is 0 the pointer may be null: no requests; no store, which the verbs that need one refuse; no log, which is clean; and, as any wrong
/// length, no image and no answer.
fn nulls() {
    use std::ptr::{null, null_mut};
    let station = encode(&Station::empty());
    let (mut image, mut store, mut out) = (station.clone(), vec![0; STORE], vec![0xaa; 3 * ANSWER]);
    let c = |verb, txn| Call { verb, txn, key: 0, number: 0 };
    unsafe {
        assert_eq!(gorehimu_run(image.as_mut_ptr(), IMAGE, store.as_mut_ptr(), STORE, null(), 0, null_mut(), 0), 0, "no requests");
        assert_eq!(gorehimu_run(image.as_mut_ptr(), IMAGE, null_mut(), 0, null(), 0, null_mut(), 0), 0, "no requests and no store");
        assert_eq!(gorehimu_empty(null_mut(), 0), 1, "no image to make empty");
        assert_eq!(gorehimu_call(null_mut(), 0, null_mut(), 0, null(), 0, null_mut(), 0), 1, "nothing at all");
        assert_eq!(gorehimu_run(null_mut(), 0, null_mut(), 0, null(), 0, null_mut(), 0), 1, "nothing to run over");
        assert_eq!(gorehimu_recover(image.as_mut_ptr(), IMAGE, store.as_ptr(), STORE, null_mut(), 0), 1, "no answer to recover to");
        assert_eq!(gorehimu_move_out(null(), 0, null_mut(), 0, null_mut(), 0), 1, "no answer to move to");
        assert_eq!(gorehimu_check_log(null(), 0, null_mut(), 0), 1, "no answer to check to");
        assert!(image == station && store.iter().all(|b| *b == 0), "something was written");

        let requests = [request(c(1, 7)), request(c(5, 7)), request(sweep(0))].concat();
        assert_eq!(gorehimu_run(image.as_mut_ptr(), IMAGE, null_mut(), 0, requests.as_ptr(), requests.len(), out.as_mut_ptr(), out.len()), 0, "a run, no store");
        assert!(out == [answer(Answer::Started), answer(Answer::Refused(1, 0)), answer(Answer::Refused(1, 0))].concat(), "a run with no store: start, step, sweep");
        assert_eq!(gorehimu_call(image.as_mut_ptr(), IMAGE, null_mut(), 0, request(c(6, 7)).as_ptr(), REQUEST, out.as_mut_ptr(), ANSWER), 0, "a call, no store");
        assert!(out[..ANSWER] == answer(Answer::Dropped) && image == station, "a call with no store: abort");
        assert_eq!(gorehimu_recover(image.as_mut_ptr(), IMAGE, null(), 0, out.as_mut_ptr(), ANSWER), 0, "a recovery, no store");
        assert!(out[..ANSWER] == answer(Answer::Refused(1, 0)) && image == station, "a recovery with no store");
        assert_eq!(gorehimu_check_log(null(), 0, out.as_mut_ptr(), ANSWER), 0, "no log");
        assert!(out[..ANSWER] == verdict_answer(Verdict::Clean), "no log is clean");
        for f in [gorehimu_move_out, gorehimu_move_back] {
            out.fill(0xaa);
            assert_eq!(f(null(), 0, null_mut(), 0, out.as_mut_ptr(), ANSWER), 0, "a move of no store");
            assert!(out[..ANSWER] == answer(Answer::Refused(1, 0)), "a move of no store");
        }
    }
}

fn main() {
    let args: Vec<u64> = std::env::args().skip(1).map(|a| a.parse().expect("a number")).collect();
    let (first, count) = (args.first().copied().unwrap_or(1), args.get(1).copied().unwrap_or(600));
    let mut seen = Seen::default();
    wrong_lengths();
    older_versions();
    nulls();
    for kind in [Kind::Narrow, Kind::Wide] {
        every_byte(kind, &mut seen);
    }
    every_line(&mut seen);
    for seed in first..first + count {
        // every third begins wide
        let kind = if seed % 3 == 0 { Kind::Wide } else { Kind::Narrow };
        history(seed, kind, &mut seen);
        made_up(seed, kind, &mut seen);
        some_logs(seed, &mut seen);
        if seed % 20 == 0 {
            fills(seed, &mut seen);
            prefixes(seed, &mut seen);
        }
    }
    if count >= 300 {
        assert_eq!(seen.words.len(), 17, "an answer never came up: {:?}", seen.words);
        for n in 1..=23 {
            assert!(seen.refusals.contains_key(&n), "refusal {n} never came up: {:?}", seen.refusals);
        }
        for n in [0, 9, 17, 64] {
            assert!(seen.wrong_sets.contains_key(&n), "an entry of {n} keys never came up: {:?}", seen.wrong_sets);
        }
        for n in [0, 1, 13, 27] {
            assert!(seen.imports.contains_key(&n), "no import was taken (0) or refused with {n}: {:?}", seen.imports);
        }
        assert!(seen.cut_imports > 0 && seen.begun_anew > 0, "no import was cut short, or no history began anew with one");
    }
    println!("{count} histories, {} calls through the C interface: the library and the model agree, the cut rule holds, and the booking just made is the one read", seen.calls);
    let outcomes: Vec<String> = seen.imports.iter().map(|(n, count)| if *n == 0 { format!("taken {count}") } else { format!("{n}: {count}") }).collect();
    println!("{} imports in them ({}), {} cut short and begun again: the cut rule holds in the {} histories that begin with one", seen.imports.values().sum::<u64>(), outcomes.join(", "), seen.cut_imports, seen.begun_anew);
    println!("{} logs through the C interface: the library and the model gave the same verdict", seen.logs);
}
