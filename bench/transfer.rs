//! Export and import as one would write them in Rust without proofs: one pass over the slots or the stream, into a table of 64 on the stack, and
//! numbers parsed and written by hand. Nothing is allocated, but for the transactions' numbers of a stream that is too long for a store anyway.
#![allow(dead_code)]

use std::collections::HashSet;

const SLOTS: usize = 64;
const WRITES: usize = 8;
const RECORD: usize = 24;
const SLOT: usize = RECORD * (WRITES + 1);
const STORE: usize = SLOT * SLOTS;
const TARGET: usize = 65_536;

/// The number of the refusal, and the slot with 18.
pub type Refusal = (u8, u8);

// ── export ──

/// Compared by clock, then number; a number is committed once, so the slot does not count.
#[derive(Clone, Copy, Default, PartialEq, Eq, PartialOrd, Ord)]
struct Held {
    clock: u64,
    txn: u32,
    slot: u8,
}

fn four(bytes: &[u8]) -> u32 {
    u32::from_le_bytes(bytes[..4].try_into().unwrap())
}

fn eight(bytes: &[u8]) -> u64 {
    u64::from_le_bytes(bytes[..8].try_into().unwrap())
}

/// Whether a slot with a mark keeps the records' rules.
fn is_right(slot: &[u8]) -> bool {
    let (commit, versions) = slot.split_at(RECORD);
    let count = usize::from(commit[1]);
    if commit[0] != 1 || !(1..=WRITES).contains(&count) || commit[2..4] != [0, 0] || four(&commit[4..]) == 0 || eight(&commit[8..]) == 0 {
        return false;
    }
    let (keys, rest) = commit[16..].split_at(count);
    keys.windows(2).all(|k| k[0] < k[1])
        && keys[count - 1] < 64
        && rest.iter().all(|k| *k == 0)
        && keys.iter().zip(versions.chunks_exact(RECORD)).all(|(key, v)| v[..4] == [*key, 0, 0, 0] && v[4..16] == commit[4..16])
}

/// The committed slots, as they come.
fn scan<'a>(store: &[u8], table: &'a mut [Held; SLOTS]) -> Result<&'a mut [Held], Refusal> {
    let mut n = 0;
    for (d, slot) in (0u8..).zip(store.chunks_exact(SLOT)) {
        if slot[0] == 0 {
            continue;
        }
        let txn = four(&slot[4..]);
        if !is_right(slot) || table[..n].iter().any(|h| h.txn == txn) {
            return Err((18, d));
        }
        table[n] = Held { clock: eight(&slot[8..]), txn, slot: d };
        n += 1;
    }
    Ok(&mut table[..n])
}

/// A number's digits, or several with signs between them, built from the last on.
struct Text {
    bytes: [u8; 32],
    from: usize,
}

impl Text {
    fn new() -> Text {
        Text { bytes: [0; 32], from: 32 }
    }

    fn byte(mut self, byte: u8) -> Text {
        self.from -= 1;
        self.bytes[self.from] = byte;
        self
    }

    fn number(mut self, mut n: u64) -> Text {
        loop {
            self = self.byte(b'0' + (n % 10) as u8);
            n /= 10;
            if n == 0 {
                return self;
            }
        }
    }

    fn get(&self) -> &[u8] {
        &self.bytes[self.from..]
    }
}

/// The digits of a key or a length, below 100.
fn small(n: u8) -> ([u8; 2], usize) {
    if n < 10 { ([b'0' + n, 0], 1) } else { ([b'0' + n / 10, b'0' + n % 10], 2) }
}

struct Out<'a> {
    target: &'a mut [u8],
    len: usize,
}

impl Out<'_> {
    fn put(&mut self, bytes: &[u8]) {
        self.target[self.len..self.len + bytes.len()].copy_from_slice(bytes);
        self.len += bytes.len();
    }

    fn small(&mut self, n: u8) {
        let (digits, count) = small(n);
        self.put(&digits[..count]);
    }

    /// SET and the length of the name.
    fn set(&mut self, name_len: usize) {
        self.put(b"*3\r\n$3\r\nSET\r\n$");
        self.small(name_len as u8);
        self.put(b"\r\n");
    }

    fn version(&mut self, key: u8, id: &[u8], value: u64) {
        self.set(3 + small(key).1 + id.len());
        self.put(b"v/");
        self.small(key);
        self.put(b"/");
        self.put(id);
        let value = Text::new().number(value);
        self.put(b"\r\n$");
        self.small(value.get().len() as u8);
        self.put(b"\r\n");
        self.put(value.get());
        self.put(b"\r\n");
    }

    fn commit(&mut self, keys: &[u8], id: &[u8]) {
        self.set(2 + id.len());
        self.put(b"c/");
        self.put(id);
        let len = keys.iter().map(|k| small(*k).1 + 1).sum::<usize>() - 1;
        self.put(b"\r\n$");
        self.small(len as u8);
        self.put(b"\r\n");
        for (n, key) in keys.iter().enumerate() {
            if n > 0 {
                self.put(b",");
            }
            self.small(*key);
        }
        self.put(b"\r\n");
    }
}

/// The stream's length, where it is written.
pub fn export(store: &[u8], target: &mut [u8]) -> Result<usize, Refusal> {
    if store.len() != STORE || target.len() != TARGET {
        return Err((1, 0));
    }
    let mut table = [Held::default(); SLOTS];
    let held = scan(store, &mut table)?;
    held.sort_unstable();
    let mut out = Out { target, len: 0 };
    for h in held {
        let (commit, versions) = store[usize::from(h.slot) * SLOT..][..SLOT].split_at(RECORD);
        let keys = &commit[16..16 + usize::from(commit[1])];
        let id = Text::new().number(h.txn.into()).byte(b'/').number(h.clock);
        for (key, version) in keys.iter().zip(versions.chunks_exact(RECORD)) {
            out.version(*key, id.get(), eight(&version[16..]));
        }
        out.commit(keys, id.get());
    }
    Ok(out.len)
}

// ── import ──

#[derive(Clone, Copy, Default)]
struct Transaction {
    clock: u64,
    txn: u32,
    count: u8,
    keys: [u8; WRITES],
    values: [u64; WRITES],
}

impl Transaction {
    fn id(&self) -> (u64, u32) {
        (self.clock, self.txn)
    }

    fn keys(&self) -> &[u8] {
        &self.keys[..usize::from(self.count)]
    }
}

struct Input<'a> {
    bytes: &'a [u8],
    at: usize,
}

impl Input<'_> {
    fn literal(&mut self, text: &[u8]) -> Option<()> {
        self.bytes[self.at..].starts_with(text).then(|| self.at += text.len())
    }

    fn byte(&mut self) -> Option<u8> {
        let byte = *self.bytes.get(self.at)?;
        self.at += 1;
        Some(byte)
    }

    /// In decimal, without needless zeros; what follows is no digit.
    fn number(&mut self, max: u64) -> Option<u64> {
        let (start, mut n) = (self.at, 0u64);
        while let Some(digit) = self.bytes.get(self.at).map(|b| b.wrapping_sub(b'0')).filter(|d| *d < 10) {
            n = n.checked_mul(10)?.checked_add(digit.into())?;
            self.at += 1;
        }
        let len = self.at - start;
        (len > 0 && (len == 1 || self.bytes[start] != b'0') && n <= max).then_some(n)
    }

    /// A bulk string's length; where it ends.
    fn length(&mut self) -> Option<usize> {
        self.literal(b"$")?;
        let len = self.number(u32::MAX.into())? as usize;
        self.literal(b"\r\n")?;
        Some(self.at + len)
    }

    fn end(&mut self, at: usize) -> Option<()> {
        if self.at == at { self.literal(b"\r\n") } else { None }
    }

    fn id(&mut self) -> Option<(u64, u32)> {
        let clock = self.number(u64::MAX)?;
        self.literal(b"/")?;
        let txn = self.number(u32::MAX.into())? as u32;
        (clock > 0 && txn > 0).then_some((clock, txn))
    }

    /// One version more of a transaction, after its name's letter.
    fn version(&mut self, name_end: usize, t: &mut Transaction) -> Option<()> {
        let key = self.number(63)? as u8;
        self.literal(b"/")?;
        let id = self.id()?;
        self.end(name_end)?;
        let n = usize::from(t.count);
        if n == 0 {
            (t.clock, t.txn) = id;
        } else if n == WRITES || t.id() != id || t.keys[n - 1] >= key {
            return None;
        }
        let value_end = self.length()?;
        t.keys[n] = key;
        t.values[n] = self.number(u64::MAX)?;
        t.count += 1;
        self.end(value_end)
    }

    /// The commit of a transaction, after its name's letter.
    fn commit(&mut self, name_end: usize, t: &Transaction) -> Option<()> {
        if self.id()? != t.id() || t.count == 0 {
            return None;
        }
        self.end(name_end)?;
        let value_end = self.length()?;
        for (n, key) in t.keys().iter().enumerate() {
            if n > 0 {
                self.literal(b",")?;
            }
            if self.number(63)? != u64::from(*key) {
                return None;
            }
        }
        self.end(value_end)
    }

    /// A transaction's versions and its commit.
    fn transaction(&mut self) -> Option<Transaction> {
        let mut t = Transaction::default();
        loop {
            self.literal(b"*3\r\n$3\r\nSET\r\n")?;
            let name_end = self.length()?;
            let letter = self.byte()?;
            self.literal(b"/")?;
            match letter {
                b'v' => self.version(name_end, &mut t)?,
                b'c' => {
                    self.commit(name_end, &t)?;
                    return Some(t);
                }
                _ => return None,
            }
        }
    }
}

/// The transactions read: the first 64, and how many there are.
struct Table {
    first: [Transaction; SLOTS],
    count: usize,
    /// Of all that were read, once there are more than 64.
    txns: HashSet<u32>,
}

impl Table {
    /// None where the number was met before.
    fn add(&mut self, t: &Transaction) -> Option<()> {
        if self.count < SLOTS {
            if self.first[..self.count].iter().any(|u| u.txn == t.txn) {
                return None;
            }
            self.first[self.count] = *t;
        } else {
            if self.count == SLOTS {
                self.txns = self.first.iter().map(|u| u.txn).collect();
            }
            if !self.txns.insert(t.txn) {
                return None;
            }
        }
        self.count += 1;
        Some(())
    }

    fn read(&mut self, stream: &[u8]) -> Option<()> {
        let (mut input, mut newest) = (Input { bytes: stream, at: 0 }, (0, 0));
        while input.at < stream.len() {
            let t = input.transaction()?;
            if t.id() <= newest {
                return None;
            }
            newest = t.id();
            self.add(&t)?;
        }
        Some(())
    }
}

fn fill(slot: &mut [u8], t: &Transaction) {
    let (commit, versions) = slot.split_at_mut(RECORD);
    commit[..2].copy_from_slice(&[1, t.count]);
    commit[4..8].copy_from_slice(&t.txn.to_le_bytes());
    commit[8..16].copy_from_slice(&t.clock.to_le_bytes());
    commit[16..24].copy_from_slice(&t.keys);
    for ((key, value), version) in t.keys().iter().zip(&t.values).zip(versions.chunks_exact_mut(RECORD)) {
        version[0] = *key;
        version[4..16].copy_from_slice(&commit[4..16]);
        version[16..].copy_from_slice(&value.to_le_bytes());
    }
}

/// How many transactions the stream has, where the store is filled with them.
pub fn import(stream: &[u8], store: &mut [u8]) -> Result<usize, Refusal> {
    if store.len() != STORE {
        return Err((1, 0));
    }
    let mut table = Table { first: [Transaction::default(); SLOTS], count: 0, txns: HashSet::new() };
    table.read(stream).ok_or((27, 0))?;
    if table.count > SLOTS {
        return Err((13, 0));
    }
    store.fill(0);
    for (t, slot) in table.first[..table.count].iter().zip(store.chunks_exact_mut(SLOT).rev()) {
        fill(slot, t);
    }
    Ok(table.count)
}
