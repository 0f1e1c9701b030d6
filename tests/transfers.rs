//! Export and import through the C interface, against the model (redis.rs) and the benchmark's plain version, byte for byte: stores by seed, damaged
//! ones, wrong lengths; their streams back again, with every byte changed, dropped and doubled, cut short anywhere and with more after them; streams
//! with one thing wrong (malformed.rs); and streams of more than 64 commits. Whatever is taken is written anew by an export, and is then the very same
//! stream. Arguments: the first seed, how many stores.

mod committed;
mod hostile;
mod malformed;
#[allow(dead_code)]
mod model;
#[path = "../bench/transfer.rs"]
mod plain;
mod random;
mod redis;

use malformed::{ascending, malformed, repeated, text, written, Malformed, Written};
use model::{Kind, SLOT, SLOTS, STORE};
use random::Random;
use redis::{Committed, Refusal, TARGET};
use std::collections::BTreeMap;

const IMAGE: usize = 4552;
const ANSWER: usize = 32;
const FOUND: u64 = 14;
const REFUSED: u64 = 15;
const EXPORTED: u64 = 20;
const IMPORTED: u64 = 21;

extern "C" {
    fn gorehimu_recover(image: *mut u8, image_len: usize, store: *const u8, store_len: usize, answer: *mut u8, answer_len: usize) -> u32;
    fn gorehimu_export(store: *const u8, store_len: usize, target: *mut u8, target_len: usize, answer: *mut u8, answer_len: usize) -> u32;
    fn gorehimu_import(stream: *const u8, stream_len: usize, store: *mut u8, store_len: usize, answer: *mut u8, answer_len: usize) -> u32;
}

/// Both have the same form: what is read, what is written, the answer.
type Transfer = unsafe extern "C" fn(*const u8, usize, *mut u8, usize, *mut u8, usize) -> u32;

fn call(f: Transfer, from: &[u8], to: &mut [u8], answer: &mut [u8]) -> u32 {
    unsafe { f(from.as_ptr(), from.len(), to.as_mut_ptr(), to.len(), answer.as_mut_ptr(), answer.len()) }
}

fn numbers(all: [u64; 4]) -> Vec<u8> {
    all.iter().flat_map(|n| n.to_le_bytes()).collect()
}

fn answer(kind: u64, outcome: Result<usize, Refusal>) -> Vec<u8> {
    match outcome {
        Ok(n) => numbers([kind, n as u64, 0, 0]),
        Err((number, slot)) => numbers([REFUSED, number.into(), slot.into(), 0]),
    }
}

/// How often each outcome came up.
#[derive(Default)]
struct Tried {
    exports: BTreeMap<u8, u64>,
    imports: BTreeMap<u8, u64>,
    damaged_slots: BTreeMap<u8, u64>,
    longest: usize,
}

impl Tried {
    fn count(outcomes: &mut BTreeMap<u8, u64>, outcome: Result<usize, Refusal>) {
        *outcomes.entry(outcome.map_or_else(|refusal| refusal.0, |_| 0)).or_default() += 1;
    }

    /// A comparison that never met some outcome shows less than it says.
    fn expect_all(&self) {
        for number in [0, 1, 18] {
            assert!(self.exports.contains_key(&number), "no export was refused with {number}: {:?}", self.exports);
        }
        for number in [0, 1, 13, 27] {
            assert!(self.imports.contains_key(&number), "no import was refused with {number}: {:?}", self.imports);
        }
        assert!(self.damaged_slots.len() > 50, "few slots were damaged: {:?}", self.damaged_slots);
        assert_eq!(self.longest, 47_808, "the longest stream");
    }
}

/// Bytes that are lent, with others on either side that are not.
struct Lent {
    bytes: Vec<u8>,
    before: Vec<u8>,
}

const BESIDE: usize = 64;

impl Lent {
    fn new(r: &mut Random, len: usize) -> Lent {
        let bytes = committed::bytes(r, len + 2 * BESIDE);
        Lent { before: bytes.clone(), bytes }
    }

    fn lent(&mut self) -> &mut [u8] {
        let end = self.bytes.len() - BESIDE;
        &mut self.bytes[BESIDE..end]
    }

    fn before(&self) -> &[u8] {
        &self.before[BESIDE..self.before.len() - BESIDE]
    }

    fn is_kept_beside(&self) -> bool {
        let end = self.bytes.len() - BESIDE;
        self.bytes[..BESIDE] == self.before[..BESIDE] && self.bytes[end..] == self.before[end..]
    }
}

/// A transfer by all three, into whatever bytes: they agree, and nothing else is written. A refusal alters no byte. What was written, or the refusal.
fn compare(
    r: &mut Random,
    (kind, f): (u64, Transfer),
    model: impl FnOnce(&mut [u8]) -> Result<usize, Refusal>,
    plain: impl FnOnce(&mut [u8]) -> Result<usize, Refusal>,
    from: &[u8],
    to_len: usize,
    what: &str,
) -> (Result<usize, Refusal>, Vec<u8>) {
    let mut to = Lent::new(r, to_len);
    let (mut by_model, mut by_plain) = (to.before().to_vec(), to.before().to_vec());
    let outcome = model(&mut by_model);
    assert_eq!(plain(&mut by_plain), outcome, "{what}: plain Rust's answer is not the model's");
    assert!(by_plain == by_model, "{what}: plain Rust and the model wrote other bytes, {outcome:?}");
    let (source, mut out) = (from.to_vec(), vec![0xaa; ANSWER + 2]);
    assert_eq!(call(f, &source, to.lent(), &mut out[1..ANSWER + 1]), 0, "{what}");
    let said: Vec<u64> = out[1..ANSWER + 1].chunks(8).map(|n| u64::from_le_bytes(n.try_into().unwrap())).collect();
    assert!(out[1..ANSWER + 1] == answer(kind, outcome), "{what}: the answer is {said:?}, the model's is {outcome:?}");
    assert!(out[0] == 0xaa && out[ANSWER + 1] == 0xaa && to.is_kept_beside(), "{what}: bytes that were not lent are written");
    assert!(source == from, "{what}: what was to be read is written");
    assert!(to.lent() == by_model, "{what}: other bytes than the model's, {outcome:?}");
    if outcome.is_err() {
        assert!(to.bytes == to.before, "{what}: a refusal wrote something, {outcome:?}");
    }
    (outcome, by_model)
}

/// An export; the bytes past the stream keep.
fn export_into(r: &mut Random, store: &[u8], target_len: usize, tried: &mut Tried, what: &str) -> Result<Vec<u8>, Refusal> {
    let model = |target: &mut [u8]| {
        let before = target.to_vec();
        let outcome = redis::export(store, target);
        let from = outcome.unwrap_or(0);
        assert!(target[from..] == before[from..], "{what}: the model wrote past the stream");
        outcome
    };
    let (outcome, target) = compare(r, (EXPORTED, gorehimu_export), model, |target| plain::export(store, target), store, target_len, what);
    Tried::count(&mut tried.exports, outcome);
    if let Err((18, slot)) = outcome {
        *tried.damaged_slots.entry(slot).or_default() += 1;
    }
    outcome.map(|len| target[..len].to_vec())
}

fn export(r: &mut Random, store: &[u8], tried: &mut Tried, what: &str) -> Result<Vec<u8>, Refusal> {
    export_into(r, store, TARGET, tried, what)
}

/// An import. Where it is taken, the store is recovered with as many transactions, and its export is the very same stream.
fn import(r: &mut Random, stream: &[u8], tried: &mut Tried, what: &str) -> Result<Vec<u8>, Refusal> {
    let (outcome, store) =
        compare(r, (IMPORTED, gorehimu_import), |store| redis::import(stream, store), |store| plain::import(stream, store), stream, STORE, what);
    Tried::count(&mut tried.imports, outcome);
    let count = outcome?;
    tried.longest = tried.longest.max(stream.len());
    let (mut image, mut out) = (vec![0; IMAGE], vec![0; ANSWER]);
    let code = unsafe { gorehimu_recover(image.as_mut_ptr(), IMAGE, store.as_ptr(), STORE, out.as_mut_ptr(), ANSWER) };
    assert!(code == 0 && out == answer(FOUND, Ok(count)), "{what}: the imported store is not recovered");
    let again = export(r, &store, tried, what);
    assert!(again.as_deref() == Ok(stream), "{what}: the stream was taken, and its store has another");
    Ok(store)
}

/// The stream has this refusal.
fn refused(r: &mut Random, stream: &[u8], number: u8, tried: &mut Tried, what: &str) {
    let outcome = import(r, stream, tried, what).map(|_| "taken");
    if outcome != Err((number, 0)) {
        let kept = "target/differs.resp";
        std::fs::write(kept, stream).expect("the stream is kept");
        panic!("{what}: expected {number}, came to {outcome:?}; the stream is in {kept}");
    }
}

// ── stores ──

/// A set in a store, out and in: the same set is committed, and the slots are filled from the top, whatever was in the lent store.
fn there_and_back(r: &mut Random, set: &Committed, tried: &mut Tried, what: &str) -> (Vec<u8>, Vec<u8>) {
    let store = committed::store(r, set);
    let stream = export(r, &store, tried, what).unwrap_or_else(|e| panic!("{what}: a store is refused with {e:?}"));
    assert!(stream == text(&written(set)), "{what}: the stream is not the set's");
    let imported = import(r, &stream, tried, what).unwrap_or_else(|e| panic!("{what}: an export is refused with {e:?}"));
    assert!(redis::committed(&imported).as_ref() == Ok(set), "{what}: another set is committed after an import");
    let slot_of = |n: usize| &imported[STORE - SLOT * (n + 1)..][..SLOT];
    for ((n, (&(clock, txn), writes)), slot) in set.iter().enumerate().zip((0..SLOTS).map(slot_of)) {
        let head: Vec<u8> = [1, writes.len() as u8, 0, 0].into_iter().chain(txn.to_le_bytes()).chain(clock.to_le_bytes()).collect();
        assert!(slot.starts_with(&head), "{what}: the transaction {txn}, {n} from the oldest, is not in slot {}", 63 - n);
        let rest = &slot[24 * (writes.len() + 1)..];
        assert!(rest.iter().all(|b| *b == 0), "{what}: leftovers in slot {}", 63 - n);
    }
    assert!(imported[..STORE - SLOT * set.len()].iter().all(|b| *b == 0), "{what}: the free slots are not zero");
    (store, stream)
}

/// Bytes changed anywhere; one rule broken in one slot; a transaction in two slots.
fn damage(r: &mut Random, store: &[u8], tried: &mut Tried, what: &str) {
    for _ in 0..6 {
        let damaged = committed::damaged(r, store.to_vec());
        if let Ok(stream) = export(r, &damaged, tried, what) {
            import(r, &stream, tried, what).unwrap_or_else(|e| panic!("{what}: the export of a changed store is refused with {e:?}"));
        }
    }
    // where it is known
    let held: Vec<usize> = (0..SLOTS).filter(|d| store[d * SLOT] == 1).collect();
    let Some(&first) = held.first() else { return };
    let slot = r.of(&held);
    let with = |slot: usize, bytes: &[u8]| {
        let mut other = store.to_vec();
        other[slot * SLOT..][..SLOT].copy_from_slice(bytes);
        other
    };
    for (rule, bytes) in committed::broken(r, &store[slot * SLOT..][..SLOT]) {
        let mut broken = with(slot, &bytes);
        assert_eq!(export(r, &broken, tried, what), Err((18, slot as u8)), "{what}: slot {slot} has {rule}");
        // 1 comes before 18, and of two slots the lower
        assert_eq!(export_into(r, &broken, TARGET - 1, tried, what), Err((1, 0)), "{what}: a damaged store and a short target");
        broken[first * SLOT] = 2;
        assert_eq!(export(r, &broken, tried, what), Err((18, first as u8)), "{what}: slots {first} and {slot} are damaged");
    }
    for other in held.into_iter().filter(|d| *d > slot) {
        let copied = with(other, &store[slot * SLOT..][..SLOT]);
        assert_eq!(export(r, &copied, tried, what), Err((18, other as u8)), "{what}: slot {other} repeats slot {slot}");
    }
}

/// Stores and targets of other lengths; before anything else.
fn lengths(r: &mut Random, store: &[u8], stream: &[u8], tried: &mut Tried, what: &str) {
    let long = [store, &[0]].concat();
    for other in [&store[..0], &store[..1], &store[..STORE - 1], &long, &store[..Kind::Wide.store()]] {
        assert_eq!(export(r, other, tried, what), Err((1, 0)), "{what}: a store of {} bytes", other.len());
    }
    for target_len in [0, 1, stream.len(), 47_808, TARGET - 1, TARGET + 1, 2 * TARGET] {
        assert_eq!(export_into(r, store, target_len, tried, what), Err((1, 0)), "{what}: a target of {target_len} bytes");
    }
    let too_many = text(&ascending(r, 65));
    for store_len in [0, 1, STORE - 1, STORE + 1, Kind::Wide.store(), TARGET] {
        for bytes in [stream, b"", b"SET", &too_many] {
            let (model, plain) = (|store: &mut [u8]| redis::import(bytes, store), |store: &mut [u8]| plain::import(bytes, store));
            let (outcome, _) = compare(r, (IMPORTED, gorehimu_import), model, plain, bytes, store_len, what);
            assert_eq!(outcome, Err((1, 0)), "{what}: a store of {store_len} bytes");
            Tried::count(&mut tried.imports, outcome);
        }
    }
}

// ── streams ──

/// Every byte changed, dropped and doubled: another stream is refused, or is that of another set, which `import` sees to.
fn every_byte(r: &mut Random, stream: &[u8], tried: &mut Tried, what: &str) {
    for at in 0..stream.len() {
        let (before, byte, after) = (&stream[..at], stream[at], &stream[at + 1..]);
        let whatever = r.next() as u8;
        for other in [0, b'0', b'1', b'3', b'9', b'/', b',', b'$', b'*', b'\r', b'\n', b' ', b'v', b'c', byte ^ 1, byte ^ 0x20, byte ^ 0x80, whatever] {
            let changed = [before, &[other], after].concat();
            let taken = import(r, &changed, tried, &format!("{what}: {other} for byte {at}")).is_ok();
            let digit = byte.is_ascii_digit() && other.is_ascii_digit();
            assert!(changed == stream || !taken || digit, "{what}: {other} for byte {at}, which is {byte}, is taken");
        }
        let dropped = [before, after].concat();
        let doubled = [before, &[byte, byte], after].concat();
        refused(r, &dropped, 27, tried, &format!("{what}: byte {at} dropped"));
        refused(r, &doubled, 27, tried, &format!("{what}: byte {at} doubled"));
    }
}

/// Cut short at every length: taken only after a commit. And with each byte after it, or more.
fn ends(r: &mut Random, set: &Committed, stream: &[u8], tried: &mut Tried, what: &str) {
    let whole: Vec<usize> = written(set).iter().scan(0, |end, w| {
        *end += text(std::slice::from_ref(w)).len();
        Some(*end)
    }).collect();
    for end in 0..=stream.len() {
        let what = format!("{what}: the first {end} bytes");
        if end == 0 || whole.contains(&end) {
            assert!(import(r, &stream[..end], tried, &what).is_ok(), "{what} are refused");
        } else {
            refused(r, &stream[..end], 27, tried, &what);
        }
    }
    for byte in 0..=255 {
        refused(r, &[stream, &[byte]].concat(), 27, tried, &format!("{what}: byte {byte} after the stream"));
    }
    for more in ["\r\n", "\n", "\0\0\0\0", "*", "*3\r\n", "*0\r\n", "+OK\r\n", "*1\r\n$4\r\nQUIT\r\n"] {
        refused(r, &[stream, more.as_bytes()].concat(), 27, tried, &format!("{what}: {more:?} after the stream"));
        refused(r, &[more.as_bytes(), stream].concat(), 27, tried, &format!("{what}: {more:?} before the stream"));
    }
}

fn wrong_things(r: &mut Random, all: &[Written], most: usize, tried: &mut Tried, what: &str) {
    let at = r.below(all.len() as u64) as usize;
    let mut list: Vec<Malformed> = malformed(r, all, at);
    while list.len() > most {
        list.swap_remove(r.below(list.len() as u64) as usize);
    }
    for (wrong, stream) in list {
        refused(r, &stream, 27, tried, &format!("{what}: {wrong}, in transaction {at} of {}", all.len()));
    }
}

/// A few bytes changed anywhere, and bytes of any kind.
fn hostile(r: &mut Random, stream: &[u8], tried: &mut Tried, what: &str) {
    for _ in 0..10 {
        let mut bytes = stream.to_vec();
        (0..1 + r.below(3)).for_each(|_| hostile::disturb(r, &mut bytes));
        let _ = import(r, &bytes, tried, what);
    }
    let noise = hostile::noise(r, b"*3$SETvc/0123456789,\r\n");
    let _ = import(r, &noise, tried, what);
}

/// More commits than slots: 13 where all else is right, however many there are. 27 is judged over the whole stream.
fn too_many(r: &mut Random, tried: &mut Tried, what: &str) {
    for count in [65, 66, 100, 128, 129, 300] {
        let what = format!("{what}: {count} commits");
        let all = written(&committed::set(r, count));
        let stream = text(&all);
        refused(r, &stream, 13, tried, &what);
        assert!(import(r, &text(&all[count - 64..]), tried, &what).is_ok(), "{what}: the newest 64 are refused");
        refused(r, &stream[..stream.len() - 1], 27, tried, &what);
        refused(r, &[&stream[..], b"\r"].concat(), 27, tried, &what);
        for at in [stream.len() - 1, stream.len() - 3, r.below(stream.len() as u64) as usize] {
            let mut bytes = stream.clone();
            bytes[at] = b'x';
            refused(r, &bytes, 27, tried, &format!("{what}, x for byte {at}"));
        }
        wrong_things(r, &all, 12, tried, &what);
        // one thing wrong in the last, which has no slot
        for (wrong, stream) in malformed(r, &all, count - 1) {
            if r.one_in(12) {
                refused(r, &stream, 27, tried, &format!("{what}: {wrong} in the last"));
            }
        }
        // a ticket twice: among the first 64; across the 64th; past it; at the ends
        let last = count - 1;
        for (earlier, later) in [(0, 1), (62, 63), (0, 63), (63, 64), (0, 64), (5, last), (0, last), (63, last), (64, last), (last - 1, last)] {
            if earlier < later {
                let stream = repeated(r, count, earlier, later);
                refused(r, &stream, 27, tried, &format!("{what}, the ticket of {earlier} again at {later}"));
            }
        }
    }
}

/// A ticket twice, with ascending ids, where there are few enough: at every two places.
fn twice(r: &mut Random, tried: &mut Tried, what: &str) {
    for count in [2, 3, 8, 64] {
        let different = text(&ascending(r, count));
        assert!(import(r, &different, tried, what).is_ok(), "{what}: {count} different tickets are refused");
        for later in 1..count {
            for earlier in (0..later).filter(|n| count < 64 || n % 9 == later % 9 || *n + 1 == later) {
                let stream = repeated(r, count, earlier, later);
                refused(r, &stream, 27, tried, &format!("{what}: {count} commits, the ticket of {earlier} again at {later}"));
            }
        }
    }
}

/// By hand, from the request's text.
fn by_hand(r: &mut Random, tried: &mut Tried) {
    let stream = b"*3\r\n$3\r\nSET\r\n$9\r\nv/1/100/5\r\n$1\r\n7\r\n*3\r\n$3\r\nSET\r\n$9\r\nv/2/100/5\r\n$2\r\n40\r\n*3\r\n$3\r\nSET\r\n$7\r\nc/100/5\r\n$3\r\n1,2\r\n";
    let mut store = vec![0; STORE];
    let slot = [[1, 2, 0, 0, 5, 0, 0, 0, 100, 0, 0, 0, 0, 0, 0, 0, 1, 2, 0, 0, 0, 0, 0, 0], [1, 0, 0, 0, 5, 0, 0, 0, 100, 0, 0, 0, 0, 0, 0, 0, 7, 0, 0, 0, 0, 0, 0, 0], [2, 0, 0, 0, 5, 0, 0, 0, 100, 0, 0, 0, 0, 0, 0, 0, 40, 0, 0, 0, 0, 0, 0, 0]];
    store[63 * SLOT..][..72].copy_from_slice(&slot.concat());
    assert!(import(r, stream, tried, "by hand") == Ok(store), "the stream of the scope document's first transaction");
    assert!(import(r, b"", tried, "no bytes") == Ok(vec![0; STORE]), "the stream of an empty store");
    for byte in 0..=255 {
        refused(r, &[byte], 27, tried, &format!("byte {byte} alone"));
    }
}

/// An answer of another length: 1 is returned, and nothing is written. Where a length is 0 the pointer may be null.
fn wrong_answers_and_nulls(r: &mut Random) {
    use std::ptr::{null, null_mut};
    let mut out = vec![0x77; 64];
    for (f, to_len) in [(gorehimu_export as Transfer, TARGET), (gorehimu_import as Transfer, STORE)] {
        for answer_len in [0, 31, 33, 64] {
            let mut to = Lent::new(r, to_len);
            let from = if to_len == TARGET { vec![0; STORE] } else { Vec::new() };
            assert_eq!(call(f, &from, to.lent(), &mut out[..answer_len]), 1, "an answer of {answer_len} bytes");
            assert!(to.bytes == to.before && out.iter().all(|b| *b == 0x77), "an answer of {answer_len} bytes: something was written");
        }
        unsafe {
            assert_eq!(f(null(), 0, null_mut(), 0, null_mut(), 0), 1, "no answer");
            let mut out = [0xaa; ANSWER];
            assert_eq!(f(null(), 0, null_mut(), 0, out.as_mut_ptr(), ANSWER), 0, "nothing to read or write");
            assert!(out[..] == answer(0, Err((1, 0))), "nothing to read or write");
            let mut store = Lent::new(r, STORE);
            assert_eq!(gorehimu_import(null(), 0, store.lent().as_mut_ptr(), STORE, out.as_mut_ptr(), ANSWER), 0, "no stream");
            assert!(out[..] == answer(IMPORTED, Ok(0)) && store.lent().iter().all(|b| *b == 0) && store.is_kept_beside(), "no stream is an empty store's");
        }
    }
}

fn main() {
    let args: Vec<u64> = std::env::args().skip(1).map(|a| a.parse().expect("a number")).collect();
    let (first, count) = (args.first().copied().unwrap_or(1), args.get(1).copied().unwrap_or(200));
    let mut tried = Tried::default();
    let mut r = Random(first);
    wrong_answers_and_nulls(&mut r);
    by_hand(&mut r, &mut tried);
    twice(&mut r, &mut tried, &format!("seed {first}"));
    for seed in first..first + count {
        let (what, mut r) = (format!("seed {seed}"), Random(seed));
        let set = committed::by_seed(&mut r, seed);
        let (store, stream) = there_and_back(&mut r, &set, &mut tried, &what);
        damage(&mut r, &store, &mut tried, &what);
        hostile(&mut r, &stream, &mut tried, &what);
        if seed % 10 == 7 {
            lengths(&mut r, &store, &stream, &mut tried, &what);
        }
        if !set.is_empty() {
            let most = if set.len() <= 12 { usize::MAX } else { 20 };
            wrong_things(&mut r, &written(&set), most, &mut tried, &what);
        }
        if stream.len() < 1500 && seed % 5 == 0 || seed % 50 == 4 {
            every_byte(&mut r, &stream, &mut tried, &what);
        }
        if stream.len() < 3000 && seed % 4 == 0 || seed % 50 == 5 {
            ends(&mut r, &set, &stream, &mut tried, &what);
        }
        if seed % 50 == 9 {
            too_many(&mut r, &mut tried, &what);
        }
    }
    if count >= 100 {
        tried.expect_all();
    }
    let (exports, imports): (u64, u64) = (tried.exports.values().sum(), tried.imports.values().sum());
    let outcomes: Vec<String> = tried.imports.iter().map(|(number, n)| if *number == 0 { format!("taken {n}") } else { format!("{number}: {n}") }).collect();
    println!("{count} stores, {exports} exports and {imports} streams imported through the C interface ({}): the library and the model agree, and what is taken is exported the same", outcomes.join(", "));
}
