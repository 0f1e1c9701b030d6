//! Committed sets by seed, and stores that hold them: any keys, values and ids, in any slots, with leftovers wherever nothing is read.
#![allow(dead_code)]

use crate::model::{commit_record, key_set, place, version_record, write, Entry, Id, Kind, RECORD, SLOT, SLOTS, STORE};
use crate::random::Random;
use crate::redis::Committed;

/// A number of any count of digits, every other one at the least or the greatest of its count.
pub fn number(r: &mut Random, most: u64) -> u64 {
    let power = 10u64.pow(r.below(20) as u32);
    let n = match r.below(5) {
        0 => power,
        1 => power - 1,
        2 => r.next() % power,
        3 => most - r.below(2),
        _ => r.next(),
    };
    if n > most { n % most } else { n }
}

/// So many transactions, which need not fit a store.
pub fn set(r: &mut Random, count: usize) -> Committed {
    let (keys, most, clocks) = (r.of(&[1, 3, 12, 64]), r.of(&[1, 3, 8, 8]), r.of(&[1, 3, 1000, u64::MAX]));
    let mut txns = Vec::new();
    while txns.len() < count {
        let txn = number(r, u32::MAX.into()).max(1) as u32;
        if !txns.contains(&txn) {
            txns.push(txn);
        }
    }
    let mut set = Committed::new();
    for txn in txns {
        let clock = match clocks {
            _ if r.one_in(20) => u64::MAX - r.below(2),
            u64::MAX => number(r, u64::MAX).max(1),
            _ => 1 + r.below(clocks),
        };
        let writes = (0..1 + r.below(most)).map(|_| (r.below(keys) as u8, number(r, u64::MAX))).collect();
        set.insert((clock, txn), writes);
    }
    set
}

/// The set whose stream is the longest that a store has: 64 transactions of 8 keys, every number of the most digits.
pub fn greatest() -> Committed {
    let writes = |n: u32| (10 + n as u8 % 40..).zip([u64::MAX; 8]).collect();
    (0..SLOTS as u32).map(|n| ((u64::MAX, u32::MAX - n), writes(n))).collect()
}

/// The set of a seed: some of them are empty, full or the greatest.
pub fn by_seed(r: &mut Random, seed: u64) -> Committed {
    let count = match seed % 10 {
        0 => return greatest(),
        1 => 0,
        2 => 64,
        3 => 63,
        4 => 1 + r.below(2),
        5 | 6 => 1 + r.below(12),
        _ => 1 + r.below(64),
    } as usize;
    set(r, count)
}

pub fn bytes(r: &mut Random, len: usize) -> Vec<u8> {
    let mut bytes: Vec<u8> = (0..len.div_ceil(8)).flat_map(|_| r.next().to_le_bytes()).collect();
    bytes.truncate(len);
    bytes
}

/// A store that holds a set of at most 64, in any of its slots. Free slots and the version records above a count have whatever bytes, or zeros.
pub fn store(r: &mut Random, set: &Committed) -> Vec<u8> {
    let mut store = if r.one_in(3) { vec![0; STORE] } else { bytes(r, STORE) };
    let mut free: Vec<usize> = (0..SLOTS).collect();
    free.iter().for_each(|slot| store[slot * SLOT] = 0);
    for (&(clock, txn), writes) in set {
        let slot = free.remove(r.below(free.len() as u64) as usize);
        let id = Id { clock, txn };
        write(Kind::Narrow, &mut store, slot, 0, &commit_record(Kind::Narrow, &Entry { id, keys: key_set(writes.keys().copied()) }));
        for ((key, value), n) in writes.iter().zip(1..) {
            write(Kind::Narrow, &mut store, slot, n, &version_record(*key, id, *value));
        }
    }
    store
}

/// Some bytes changed, mostly of a commit record or of the version records below its count; or a slot copied over another, which repeats its transaction.
pub fn damaged(r: &mut Random, mut store: Vec<u8>) -> Vec<u8> {
    let any = |r: &mut Random, n: usize| r.below(n as u64) as usize;
    for _ in 0..1 + r.below(2) {
        let (slot, other) = (any(r, SLOTS), any(r, SLOTS));
        if r.one_in(4) {
            store.copy_within(other * SLOT..(other + 1) * SLOT, slot * SLOT);
            continue;
        }
        let at = match r.below(3) {
            0 => any(r, STORE),
            1 => place(Kind::Narrow, slot, 0) + any(r, RECORD),
            _ => place(Kind::Narrow, slot, 1) + any(r, 2 * RECORD),
        };
        let whatever = r.next() as u8;
        store[at] = r.of(&[0, 1, 2, 8, 9, 64, store[at] ^ 1, store[at] ^ 128, whatever]);
    }
    store
}

/// A committed slot in which one rule is broken and the others are kept: where it can be, the version records go with the commit record.
pub fn broken(r: &mut Random, slot: &[u8]) -> Vec<(String, Vec<u8>)> {
    let n = usize::from(slot[1]);
    let mut all = Vec::new();
    let mut with = |what: &str, change: &dyn Fn(&mut [u8])| {
        let mut other = slot.to_vec();
        change(&mut other);
        all.push((what.to_string(), other));
    };
    for mark in [2, 3, 255] {
        with(&format!("mark {mark}"), &|s| s[0] = mark);
    }
    with("ticket 0", &|s| s.chunks_mut(RECORD).take(n + 1).for_each(|record| record[4..8].fill(0)));
    with("clock 0", &|s| s.chunks_mut(RECORD).take(n + 1).for_each(|record| record[8..16].fill(0)));
    for key in [64, 65, 128, 255] {
        with(&format!("key {key}"), &|s| (s[15 + n], s[RECORD * n]) = (key, key));
    }
    with("count 0", &|s| {
        s[1] = 0;
        s[16..24].fill(0);
    });
    for count in [9, 10, 255] {
        with(&format!("count {count}"), &|s| s[1] = count);
    }
    for at in [2, 3] {
        with("no zero in the commit record", &|s| s[at] = 1);
    }
    if n > 1 {
        with("a key twice", &|s| (s[17], s[2 * RECORD]) = (s[16], s[RECORD]));
        with("keys not ascending", &|s| {
            s.swap(16, 17);
            s.swap(RECORD, 2 * RECORD);
        });
        with("a count too small", &|s| s[1] -= 1);
    }
    if n < 8 {
        let at = 16 + n + r.below(8 - n as u64) as usize;
        with("a key past the count", &|s| s[at] = 63);
        with("a count too great", &|s| s[1] += 1);
    }
    let version = RECORD * (1 + r.below(n as u64) as usize);
    for at in 0..16 {
        with(&format!("byte {at} of a version record"), &|s| s[version + at] ^= 1);
    }
    all
}
