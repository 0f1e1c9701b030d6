//! A partner shop that writes a log, by chance: transactions that write, commit, and read versions that stand together. Its log is clean by the way
//! it is made; nothing here asks the model. planted.rs puts one wrong line in.
#![allow(dead_code)]

use crate::hostile::joined;
use crate::random::Random;

/// The limits of a log.
pub const TXNS: usize = 64;
const WRITES: u32 = 8;
const READS: usize = 16;

/// Bit k of the keys stands for key k. The clock is 0 until it commits. A read has the author's place in the shop. What is kept aside is moved by
/// who planted it alone.
#[derive(Default)]
pub struct Txn {
    pub number: u32,
    pub clock: u64,
    wrote: u64,
    pub reads: Vec<(u8, usize)>,
    aside: bool,
}

impl Txn {
    fn wrote(&self, key: u8) -> bool {
        self.wrote >> key & 1 == 1
    }

    fn id(&self) -> (u64, u32) {
        (self.clock, self.number)
    }
}

pub struct Shop {
    pub txns: Vec<Txn>,
    pub lines: Vec<Vec<u8>>,
    /// How many keys it uses, and how many transactions by itself.
    keys: u64,
    most: usize,
}

/// A clock near the least or the greatest, or any.
pub fn clock(r: &mut Random) -> u64 {
    match r.below(4) {
        0 => 1 + r.below(3),
        1 => u64::MAX - r.below(3),
        2 => 1 + r.below(1000),
        _ => r.next().max(1),
    }
}

fn number(r: &mut Random) -> u32 {
    match r.below(4) {
        0 => 1 + r.below(9) as u32,
        1 => u32::MAX - r.below(9) as u32,
        2 => 1 + r.below(1000) as u32,
        _ => (r.next() as u32).max(1),
    }
}

/// One of the keys of a set that is not empty.
fn key_of(r: &mut Random, set: u64) -> u8 {
    let keys: Vec<u8> = (0..64).filter(|k| set >> k & 1 == 1).collect();
    r.of(&keys)
}

impl Shop {
    pub fn new(keys: u64, most: usize) -> Shop {
        Shop { txns: Vec::new(), lines: Vec::new(), keys, most }
    }

    // ── lines ──

    /// One more line, whatever it says, and its number.
    pub fn say(&mut self, kind: &str, txn: u32, key: u8, clock: u64, author: u32) -> usize {
        self.lines.push(format!("{kind},{txn},{key},{clock},{author}").into_bytes());
        self.lines.len()
    }

    pub fn write(&mut self, t: usize, key: u8) -> usize {
        self.txns[t].wrote |= 1 << key;
        self.say("write", self.txns[t].number, key, 0, 0)
    }

    pub fn commit(&mut self, t: usize, clock: u64) -> usize {
        self.txns[t].clock = clock;
        self.say("commit", self.txns[t].number, 0, clock, 0)
    }

    /// A read of a version as it is, whether it stands together with the others or not.
    pub fn say_read(&mut self, t: usize, key: u8, author: usize) -> usize {
        let (clock, number) = self.txns[author].id();
        self.say("read", self.txns[t].number, key, clock, number)
    }

    pub fn read(&mut self, t: usize, key: u8, author: usize) -> usize {
        if !self.txns[t].reads.contains(&(key, author)) {
            self.txns[t].reads.push((key, author));
        }
        self.say_read(t, key, author)
    }

    // ── what is clean ──

    /// Of two reads, the second's key was written by the first's transaction, and is read at an older version.
    fn is_torn(&self, first: (u8, usize), second: (u8, usize)) -> bool {
        let (newer, older) = (&self.txns[first.1], &self.txns[second.1]);
        newer.wrote(second.0) && older.id() < newer.id()
    }

    /// A read that is clean. A second version of a key is torn, as each of its two transactions wrote it.
    fn fits(&self, t: usize, key: u8, author: usize) -> bool {
        let (reader, version) = (&self.txns[t], &self.txns[author]);
        let is_new = reader.reads.iter().all(|x| x.0 != key);
        version.clock != 0
            && version.wrote(key)
            && reader.clock == 0
            && !reader.wrote(key)
            && !(is_new && reader.reads.len() == READS)
            && reader.reads.iter().all(|x| !self.is_torn(*x, (key, author)) && !self.is_torn((key, author), *x))
    }

    // ── transactions ──

    /// A number that no transaction has.
    pub fn unused(&self, r: &mut Random) -> u32 {
        loop {
            let n = number(r);
            if self.txns.iter().all(|t| t.number != n) {
                return n;
            }
        }
    }

    /// A transaction that is to write or to read next: from then on it counts.
    pub fn begin(&mut self, number: u32, aside: bool) -> usize {
        self.txns.push(Txn { number, aside, ..Txn::default() });
        self.txns.len() - 1
    }

    /// An open transaction, or a new one.
    fn actor(&mut self, r: &mut Random) -> Option<usize> {
        let open: Vec<usize> = (0..self.txns.len()).filter(|t| self.txns[*t].clock == 0 && !self.txns[*t].aside).collect();
        if self.txns.len() < self.most && (open.is_empty() || r.one_in(5)) {
            let number = self.unused(r);
            return Some(self.begin(number, false));
        }
        (!open.is_empty()).then(|| r.of(&open))
    }

    /// A version that a transaction may read: one that it has read, or another.
    fn version(&self, r: &mut Random, t: usize) -> Option<(u8, usize)> {
        let committed: Vec<usize> = (0..self.txns.len()).filter(|a| self.txns[*a].clock != 0).collect();
        if committed.is_empty() {
            return None;
        }
        let reads = &self.txns[t].reads;
        let any = |r: &mut Random| {
            let author = r.of(&committed);
            (key_of(r, self.txns[author].wrote), author)
        };
        let mut tries = (0..8).map(|_| if !reads.is_empty() && r.one_in(4) { r.of(reads) } else { any(r) });
        tries.find(|x| self.fits(t, x.0, x.1))
    }

    /// A key that a transaction may write: any, or one of its own where it has eight.
    fn key(&self, r: &mut Random, t: usize) -> u8 {
        let wrote = self.txns[t].wrote;
        if wrote.count_ones() == WRITES {
            key_of(r, wrote)
        } else {
            r.below(self.keys) as u8
        }
    }

    /// An open transaction reads or writes.
    pub fn act(&mut self, r: &mut Random, t: usize) {
        let version = if r.one_in(3) { None } else { self.version(r, t) };
        match version {
            Some((key, author)) => self.read(t, key, author),
            None => self.write(t, self.key(r, t)),
        };
    }

    /// One more clean line, where there is one to write.
    fn step(&mut self, r: &mut Random) {
        let Some(t) = self.actor(r) else { return };
        if self.txns[t].wrote != 0 && r.one_in(6) {
            self.commit(t, clock(r));
        } else {
            self.act(r, t);
        }
    }

    /// At most so many clean lines.
    pub fn steps(&mut self, r: &mut Random, most: u64) {
        (0..r.below(most + 1)).for_each(|_| self.step(r));
    }

    /// Lines that stay clean however often they come: an open transaction reads again what it has read, or writes again what it has written.
    pub fn repeats(&self) -> Vec<Vec<u8>> {
        let mut repeats = Shop::new(self.keys, self.most);
        for t in self.txns.iter().filter(|t| t.clock == 0) {
            for (key, author) in t.reads.iter().filter(|x| !t.wrote(x.0)) {
                let (clock, number) = self.txns[*author].id();
                repeats.say("read", t.number, *key, clock, number);
            }
            for key in (0..64).filter(|k| t.wrote(*k)) {
                repeats.say("write", t.number, key, 0, 0);
            }
        }
        repeats.lines
    }
}

/// A shop with so many transactions at most, and its clean lines so far.
pub fn shop(r: &mut Random, most: usize) -> Shop {
    let (keys, txns) = (r.of(&[2, 4, 12, 64]), r.of(&[2, 5, 20, 64]));
    let mut shop = Shop::new(keys, most.min(txns));
    let lines = r.of(&[0, 4, 30, 120, 300]);
    shop.steps(r, lines);
    shop
}

/// The log of a shop: clean.
pub fn clean(r: &mut Random) -> Vec<u8> {
    let shop = shop(r, TXNS);
    if shop.lines.is_empty() {
        return Vec::new();
    }
    joined(r, &shop.lines)
}
