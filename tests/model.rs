//! The scope document and the requests in plain Rust: written from their text alone, sharing no source with the store that is proved.
//! The tests compare the two; the benchmarks use it as the idiomatic Rust version with the same checks.

pub const LIVE: usize = 8;
pub const SLOTS: usize = 64;
pub const WRITES: usize = 8;
pub const READS: usize = 16;
/// The room for a write set's values.
pub const VALUES: usize = 16;
pub const RECORD: usize = 24;
/// Of a narrow store, as SLOTS and WRITES.
pub const SLOT: usize = RECORD * (WRITES + 1);
pub const STORE: usize = SLOT * SLOTS;

/// "a wide store: 32 drawers of 17 slips, 13,056 bytes, write lists up to 16 keys. Its commit slip has mark 2"
#[derive(Clone, Copy, PartialEq, Eq, Debug, Default)]
pub enum Kind {
    #[default]
    Narrow,
    Wide,
}

impl Kind {
    pub fn slots(self) -> usize {
        match self {
            Kind::Narrow => SLOTS,
            Kind::Wide => 32,
        }
    }

    pub fn writes(self) -> usize {
        match self {
            Kind::Narrow => WRITES,
            Kind::Wide => 16,
        }
    }

    pub fn mark(self) -> u8 {
        match self {
            Kind::Narrow => 1,
            Kind::Wide => 2,
        }
    }

    /// The bytes of a slot and of a store.
    pub fn slot(self) -> usize {
        RECORD * (self.writes() + 1)
    }

    pub fn store(self) -> usize {
        self.slot() * self.slots()
    }
}

/// Compared by clock, then number: the fields stand in that order.
#[derive(Clone, Copy, PartialEq, Eq, PartialOrd, Ord, Debug, Default)]
pub struct Id {
    pub clock: u64,
    pub txn: u32,
}

#[derive(Clone, Copy, PartialEq, Eq, Debug, Default)]
pub enum Phase {
    #[default]
    Unused,
    Open,
    Closing { slot: u8, clock: u64, stored: u8 },
}

#[derive(Clone, Copy, PartialEq, Eq, Debug, Default)]
pub struct Read {
    pub key: u8,
    pub id: Id,
}

/// Bit k of the keys stands for key k; the values are those of the keys, ascending.
#[derive(Clone, Copy, PartialEq, Eq, Debug, Default)]
pub struct Live {
    pub txn: u32,
    pub phase: Phase,
    pub keys: u64,
    pub values: [u64; VALUES],
    pub read_count: u8,
    pub reads: [Read; READS],
}

/// Bit k of the keys stands for key k.
#[derive(Clone, Copy, PartialEq, Eq, Debug, Default)]
pub struct Entry {
    pub id: Id,
    pub keys: u64,
}

/// Of a wide store's only the first 32 entries are used.
#[derive(Clone, PartialEq, Eq, Debug)]
pub struct Station {
    pub kind: Kind,
    pub live: [Live; LIVE],
    pub entries: [Entry; SLOTS],
}

#[derive(Clone, Copy, PartialEq, Eq, Debug)]
pub enum Answer {
    Started,
    Kept,
    Own(u64),
    Version(u64, Id),
    None,
    Nofit(u8),
    Closing(u8),
    Empty,
    Done(Id),
    Stored(u8),
    Slipped(u8),
    Dropped,
    Collected(Id),
    Found(u8),
    Refused(u8, u8),
    Swept(u8),
    Moved(u8),
}

fn refused(number: u8) -> Answer {
    Answer::Refused(number, 0)
}

/// The clock that a closing transaction takes beside these: the one given or one more than the greatest, whichever is the greater. None where the
/// greatest is the last.
pub fn clock_above(given: u64, clocks: impl Iterator<Item = u64>) -> Option<u64> {
    match clocks.max() {
        None => Some(given),
        Some(c) => Some(given.max(c.checked_add(1)?)),
    }
}

/// Strictly ascending and below 64.
fn ascends(keys: impl Iterator<Item = u8>) -> bool {
    let mut low = 0;
    for key in keys {
        if u32::from(key) < low || key > 63 {
            return false;
        }
        low = u32::from(key) + 1;
    }
    true
}

/// The set of some keys below 64.
pub fn key_set(keys: impl Iterator<Item = u8>) -> u64 {
    keys.fold(0, |set, key| set | 1 << key)
}

/// The keys of a set, ascending.
fn keys_of(set: u64) -> impl Iterator<Item = u8> {
    let mut left = set;
    std::iter::from_fn(move || {
        if left == 0 {
            return None;
        }
        let key = left.trailing_zeros();
        left &= left - 1;
        Some(key as u8)
    })
}

/// Of a key below 64.
fn has(set: u64, key: u8) -> bool {
    set >> key & 1 == 1
}

/// How many keys of the set are below one.
fn below(set: u64, key: u8) -> usize {
    (set & ((1 << key) - 1)).count_ones() as usize
}

impl Live {
    /// How many keys it writes.
    pub fn written(&self) -> usize {
        self.keys.count_ones() as usize
    }

    pub fn reads(&self) -> &[Read] {
        &self.reads[..usize::from(self.read_count)]
    }

    fn put(&mut self, key: u8, value: u64) {
        let at = below(self.keys, key);
        if !has(self.keys, key) {
            let n = self.written();
            self.values.copy_within(at..n, at + 1);
            self.keys |= 1 << key;
        }
        self.values[at] = value;
    }

    fn join(&mut self, key: u8, id: Id) {
        let n = usize::from(self.read_count);
        match self.reads[..n].binary_search_by_key(&key, |r| r.key) {
            Ok(at) => self.reads[at].id = id,
            Err(at) => {
                self.reads.copy_within(at..n, at + 1);
                self.reads[at] = Read { key, id };
                self.read_count += 1;
            }
        }
    }

    /// The entry that this transaction becomes.
    fn entry(&self, clock: u64) -> Entry {
        Entry { id: Id { clock, txn: self.txn }, keys: self.keys }
    }

    fn sound(&self, station: &Station) -> bool {
        if self.phase == Phase::Unused {
            return *self == Live::default();
        }
        let (w, r) = (self.written(), usize::from(self.read_count));
        if self.txn == 0 || w > station.kind.writes() || r > READS {
            return false;
        }
        if !ascends(self.reads().iter().map(|x| x.key)) {
            return false;
        }
        if self.values[w..].iter().any(|x| *x != 0) || self.reads[r..].iter().any(|x| *x != Read::default()) {
            return false;
        }
        if !self.reads().iter().all(|x| station.held().any(|(_, e)| e.id == x.id && e.wrote(x.key))) {
            return false;
        }
        match self.phase {
            Phase::Closing { slot, clock, stored } => {
                w >= 1 && clock >= 1 && usize::from(stored) <= w + 1 && usize::from(slot) < station.kind.slots() && station.entries[usize::from(slot)] == Entry::default()
            }
            _ => true,
        }
    }
}

impl Entry {
    /// The keys written, ascending.
    pub fn keys(&self) -> impl Iterator<Item = u8> {
        keys_of(self.keys)
    }

    /// Of a key below 64.
    pub fn wrote(&self, key: u8) -> bool {
        has(self.keys, key)
    }

    /// The number of the version record of a key that it wrote: one for each key, ascending.
    fn record_of(&self, key: u8) -> usize {
        1 + below(self.keys, key)
    }

    /// The commit record's rules, as far as they are about an entry.
    fn right(&self, kind: Kind) -> bool {
        (1..=kind.writes()).contains(&(self.keys.count_ones() as usize)) && self.id.txn >= 1 && self.id.clock >= 1
    }
}

// ── records ──

fn head(a: u8, b: u8, id: Id) -> [u8; RECORD] {
    let mut r = [0; RECORD];
    r[0] = a;
    r[1] = b;
    r[4..8].copy_from_slice(&id.txn.to_le_bytes());
    r[8..16].copy_from_slice(&id.clock.to_le_bytes());
    r
}

/// Its eight key bytes are a narrow store's keys, or "the number of §5, least byte first".
pub fn commit_record(kind: Kind, e: &Entry) -> [u8; RECORD] {
    let mut r = head(kind.mark(), e.keys.count_ones() as u8, e.id);
    match kind {
        Kind::Narrow => {
            for (byte, key) in r[16..].iter_mut().zip(e.keys()) {
                *byte = key;
            }
        }
        Kind::Wide => r[16..].copy_from_slice(&e.keys.to_le_bytes()),
    }
    r
}

pub fn version_record(key: u8, id: Id, value: u64) -> [u8; RECORD] {
    let mut r = head(key, 0, id);
    r[16..].copy_from_slice(&value.to_le_bytes());
    r
}

pub fn place(kind: Kind, slot: usize, n: usize) -> usize {
    slot * kind.slot() + n * RECORD
}

pub fn record(kind: Kind, store: &[u8], slot: usize, n: usize) -> &[u8] {
    &store[place(kind, slot, n)..][..RECORD]
}

pub fn write(kind: Kind, store: &mut [u8], slot: usize, n: usize, r: &[u8]) {
    store[place(kind, slot, n)..][..RECORD].copy_from_slice(r);
}

fn value(r: &[u8]) -> u64 {
    u64::from_le_bytes(r[16..24].try_into().unwrap())
}

/// What a slot holds: nothing, an entry, or damage.
pub enum Seen {
    Free,
    Committed(Entry),
    Damaged,
}

/// The keys that a commit record names, where count and key bytes are those of a write set.
fn keys_in(kind: Kind, r: &[u8]) -> Option<u64> {
    let count = usize::from(r[1]);
    if !(1..=kind.writes()).contains(&count) {
        return None;
    }
    match kind {
        Kind::Narrow => {
            let (keys, rest) = r[16..].split_at(count);
            (ascends(keys.iter().copied()) && rest.iter().all(|k| *k == 0)).then(|| key_set(keys.iter().copied()))
        }
        // "with count equal to its ones"
        Kind::Wide => {
            let keys = u64::from_le_bytes(r[16..24].try_into().unwrap());
            (keys.count_ones() as usize == count).then_some(keys)
        }
    }
}

pub fn seen(kind: Kind, store: &[u8], slot: usize) -> Seen {
    let r = record(kind, store, slot, 0);
    if r[0] == 0 {
        return Seen::Free;
    }
    let id = Id { clock: u64::from_le_bytes(r[8..16].try_into().unwrap()), txn: u32::from_le_bytes(r[4..8].try_into().unwrap()) };
    if r[0] != kind.mark() || r[2..4] != [0, 0] || id.txn == 0 || id.clock == 0 {
        return Seen::Damaged;
    }
    let Some(keys) = keys_in(kind, r) else { return Seen::Damaged };
    let version = |(n, key): (usize, u8)| record(kind, store, slot, n + 1)[..16] == head(key, 0, id)[..16];
    if keys_of(keys).enumerate().all(version) {
        Seen::Committed(Entry { id, keys })
    } else {
        Seen::Damaged
    }
}

// ── the calls ──

impl Station {
    pub fn empty() -> Station {
        Station::empty_of(Kind::Narrow)
    }

    pub fn empty_of(kind: Kind) -> Station {
        Station { kind, live: [Live::default(); LIVE], entries: [Entry::default(); SLOTS] }
    }

    pub fn held(&self) -> impl Iterator<Item = (usize, &Entry)> {
        self.entries.iter().enumerate().filter(|(_, e)| e.id.txn != 0)
    }

    pub fn sound(&self) -> bool {
        if !self.entries.iter().all(|e| *e == Entry::default() || e.right(self.kind)) {
            return false;
        }
        if self.held().any(|(d, _)| d >= self.kind.slots()) {
            return false;
        }
        if !self.live.iter().all(|l| l.sound(self)) {
            return false;
        }
        let mut txns: Vec<u32> = self.live.iter().map(|l| l.txn).chain(self.entries.iter().map(|e| e.id.txn)).filter(|t| *t != 0).collect();
        let count = txns.len();
        txns.sort_unstable();
        txns.dedup();
        let mut slots: Vec<u8> = self.live.iter().filter_map(|l| if let Phase::Closing { slot, .. } = l.phase { Some(slot) } else { None }).collect();
        let closing = slots.len();
        slots.sort_unstable();
        slots.dedup();
        txns.len() == count && slots.len() == closing
    }

    fn live_at(&self, txn: u32) -> Option<usize> {
        self.live.iter().position(|l| l.txn == txn)
    }

    fn held_at(&self, txn: u32) -> Option<usize> {
        self.entries.iter().position(|e| e.id.txn == txn)
    }

    /// Of entries and closing transactions.
    fn clocks(&self) -> impl Iterator<Item = u64> + '_ {
        let closing = self.live.iter().filter_map(|l| if let Phase::Closing { clock, .. } = l.phase { Some(clock) } else { None });
        self.held().map(|(_, e)| e.id.clock).chain(closing)
    }

    fn highest_free(&self) -> Option<usize> {
        let closing = |d: usize| self.live.iter().any(|l| matches!(l.phase, Phase::Closing { slot, .. } if usize::from(slot) == d));
        (0..self.kind.slots()).rev().find(|d| self.entries[*d].id.txn == 0 && !closing(*d))
    }

    pub fn start(&mut self, txn: u32) -> Answer {
        if !self.sound() {
            return refused(2);
        }
        if txn == 0 {
            return refused(3);
        }
        if self.live_at(txn).is_some() || self.held_at(txn).is_some() {
            return refused(6);
        }
        let Some(i) = self.live_at(0) else { return refused(7) };
        self.live[i] = Live { txn, phase: Phase::Open, ..Live::default() };
        Answer::Started
    }

    /// The place of an open transaction, or the refusal.
    fn open(&self, txn: u32) -> Result<usize, Answer> {
        let i = self.live_at(txn).ok_or(refused(8))?;
        if self.live[i].phase == Phase::Open { Ok(i) } else { Err(refused(9)) }
    }

    pub fn put(&mut self, txn: u32, key: u8, value: u64) -> Answer {
        if !self.sound() {
            return refused(2);
        }
        if txn == 0 {
            return refused(3);
        }
        if key > 63 {
            return refused(4);
        }
        let i = match self.open(txn) {
            Ok(i) => i,
            Err(r) => return r,
        };
        let most = self.kind.writes();
        let l = &mut self.live[i];
        if l.written() == most && !has(l.keys, key) {
            return refused(11);
        }
        l.put(key, value);
        Answer::Kept
    }

    /// Algorithm 1: the slot of the version, or the answer where there is none.
    fn choose(&self, l: &Live, key: u8) -> Result<usize, Answer> {
        let written_by = |id: Id| self.held().any(|(_, e)| e.id == id && e.wrote(key));
        let bound = l.reads().iter().map(|r| r.id).filter(|id| written_by(*id)).max();
        let mut candidates: Vec<(usize, &Entry)> = self.held().filter(|(_, e)| e.wrote(key)).collect();
        if candidates.is_empty() {
            return Err(Answer::None);
        }
        candidates.sort_by_key(|(_, e)| std::cmp::Reverse(e.id));
        // the lowest, as the reads ascend by key
        let in_the_way = |e: &Entry| l.reads().iter().find(|r| e.wrote(r.key) && r.id < e.id).map(|r| r.key);
        for &(d, e) in &candidates {
            if bound.is_some_and(|b| e.id < b) {
                break;
            }
            if in_the_way(e).is_none() {
                return Ok(d);
            }
        }
        Err(Answer::Nofit(in_the_way(candidates[0].1).expect("the newest entry that wrote the key conflicts with a read")))
    }

    pub fn get(&mut self, store: &[u8], txn: u32, key: u8) -> Answer {
        if store.len() != self.kind.store() {
            return refused(1);
        }
        if !self.sound() {
            return refused(2);
        }
        if txn == 0 {
            return refused(3);
        }
        if key > 63 {
            return refused(4);
        }
        let i = match self.open(txn) {
            Ok(i) => i,
            Err(r) => return r,
        };
        let l = &self.live[i];
        if has(l.keys, key) {
            return Answer::Own(l.values[below(l.keys, key)]);
        }
        let d = match self.choose(l, key) {
            Ok(d) => d,
            Err(a) => return a,
        };
        if usize::from(l.read_count) == READS && !l.reads().iter().any(|r| r.key == key) {
            return refused(12);
        }
        let e = self.entries[d];
        let r = record(self.kind, store, d, e.record_of(key));
        if r[..16] != head(key, 0, e.id)[..16] {
            return refused(17);
        }
        self.live[i].join(key, e.id);
        Answer::Version(value(r), e.id)
    }

    pub fn commit(&mut self, txn: u32, clock: u64) -> Answer {
        if !self.sound() {
            return refused(2);
        }
        if txn == 0 {
            return refused(3);
        }
        if clock == 0 {
            return refused(5);
        }
        if let Some(d) = self.held_at(txn) {
            return Answer::Done(self.entries[d].id);
        }
        let i = match self.open(txn) {
            Ok(i) => i,
            Err(r) => return r,
        };
        if self.live[i].keys == 0 {
            self.live[i] = Live::default();
            return Answer::Empty;
        }
        let Some(d) = self.highest_free() else { return refused(13) };
        let Some(clock) = clock_above(clock, self.clocks()) else { return refused(21) };
        self.live[i].phase = Phase::Closing { slot: d as u8, clock, stored: 0 };
        Answer::Closing(d as u8)
    }

    pub fn step(&mut self, store: &mut [u8], txn: u32) -> Answer {
        if store.len() != self.kind.store() {
            return refused(1);
        }
        if !self.sound() {
            return refused(2);
        }
        if txn == 0 {
            return refused(3);
        }
        let Some(i) = self.live_at(txn) else { return refused(8) };
        let l = self.live[i];
        let Phase::Closing { slot, clock, stored } = l.phase else { return refused(10) };
        let (d, n) = (usize::from(slot), usize::from(stored));
        let e = l.entry(clock);
        if n > l.written() {
            self.live[i] = Live::default();
            self.entries[d] = e;
            return Answer::Done(e.id);
        }
        self.live[i].phase = Phase::Closing { slot, clock, stored: stored + 1 };
        if n == l.written() {
            write(self.kind, store, d, 0, &commit_record(self.kind, &e));
            return Answer::Slipped(slot);
        }
        let key = e.keys().nth(n).expect("a key is left to store");
        write(self.kind, store, d, n + 1, &version_record(key, e.id, l.values[n]));
        Answer::Stored(key)
    }

    pub fn abort(&mut self, txn: u32) -> Answer {
        if !self.sound() {
            return refused(2);
        }
        if txn == 0 {
            return refused(3);
        }
        match self.open(txn) {
            Ok(i) => {
                self.live[i] = Live::default();
                Answer::Dropped
            }
            Err(r) => r,
        }
    }

    pub fn collect(&mut self, store: &mut [u8], slot: u8) -> Answer {
        if store.len() != self.kind.store() {
            return refused(1);
        }
        if !self.sound() {
            return refused(2);
        }
        let d = usize::from(slot);
        if d >= self.kind.slots() || self.entries[d].id.txn == 0 {
            return refused(14);
        }
        if let Some(r) = self.must_stay(&self.entries[d]) {
            return r;
        }
        self.clear(store, d)
    }

    /// Why an entry may not be collected: the newest of some key it wrote, or a live transaction read it.
    fn must_stay(&self, e: &Entry) -> Option<Answer> {
        let newer = self.held().filter(|(_, f)| f.id > e.id).fold(0, |keys, (_, f)| keys | f.keys);
        if e.keys & !newer != 0 {
            return Some(refused(15));
        }
        if self.live.iter().any(|l| l.reads().iter().any(|r| r.id == e.id)) {
            return Some(refused(16));
        }
        None
    }

    /// Collects an entry that may be collected, where its commit record is the entry's.
    fn clear(&mut self, store: &mut [u8], d: usize) -> Answer {
        let e = self.entries[d];
        if *record(self.kind, store, d, 0) != commit_record(self.kind, &e) {
            return refused(17);
        }
        write(self.kind, store, d, 0, &[0; RECORD]);
        self.entries[d] = Entry::default();
        Answer::Collected(e.id)
    }

    /// "It collects the oldest id it may, looks again, and stops at the limit or when it may collect none." What 17 names "ends the sweep".
    pub fn sweep(&mut self, store: &mut [u8], limit: u64) -> Answer {
        if store.len() != self.kind.store() {
            return refused(1);
        }
        if !self.sound() {
            return refused(2);
        }
        if limit == 0 || limit > 64 {
            return refused(20);
        }
        let mut count = 0;
        while u64::from(count) < limit {
            let oldest = self.held().filter(|(_, e)| self.must_stay(e).is_none()).min_by_key(|(_, e)| e.id).map(|(d, _)| d);
            let Some(d) = oldest else { break };
            let Answer::Collected(_) = self.clear(store, d) else { break };
            count += 1;
        }
        Answer::Swept(count)
    }

    pub fn scan(store: &[u8]) -> (Station, Answer) {
        Station::scan_of(Kind::Narrow, store)
    }

    /// A refused scan hands back the empty station.
    pub fn scan_of(kind: Kind, store: &[u8]) -> (Station, Answer) {
        let mut station = Station::empty_of(kind);
        if store.len() != kind.store() {
            return (station, refused(1));
        }
        for d in 0..kind.slots() {
            match seen(kind, store, d) {
                Seen::Free => {}
                Seen::Committed(e) if station.held_at(e.id.txn).is_none() => station.entries[d] = e,
                _ => return (Station::empty_of(kind), Answer::Refused(18, d as u8)),
            }
        }
        let found = station.held().count() as u8;
        (station, Answer::Found(found))
    }
}

/// "committed drawers in order fill wide drawers from 0, all else zero. A move back does the reverse."
pub fn move_between(from: Kind, to: Kind, source: &[u8], target: &mut [u8]) -> Answer {
    if source.len() != from.store() || target.len() != to.store() {
        return refused(1);
    }
    let (station, answer) = Station::scan_of(from, source);
    let Answer::Found(found) = answer else { return answer };
    if usize::from(found) > to.slots() {
        return refused(22);
    }
    if station.held().any(|(_, e)| e.keys.count_ones() as usize > to.writes()) {
        return refused(23);
    }
    target.fill(0);
    for (filled, (d, e)) in station.held().enumerate() {
        write(to, target, filled, 0, &commit_record(to, e));
        for n in 1..=e.keys.count_ones() as usize {
            write(to, target, filled, n, record(from, source, d, n));
        }
    }
    Answer::Moved(found)
}

impl Answer {
    pub fn word(&self) -> &'static str {
        match self {
            Answer::Started => "started",
            Answer::Kept => "kept",
            Answer::Own(_) => "own",
            Answer::Version(..) => "version",
            Answer::None => "none",
            Answer::Nofit(_) => "nofit",
            Answer::Closing(_) => "closing",
            Answer::Empty => "empty",
            Answer::Done(_) => "done",
            Answer::Stored(_) => "stored",
            Answer::Slipped(_) => "slipped",
            Answer::Dropped => "dropped",
            Answer::Collected(_) => "collected",
            Answer::Found(_) => "found",
            Answer::Refused(..) => "refused",
            Answer::Swept(_) => "swept",
            Answer::Moved(_) => "moved",
        }
    }

    /// The output's fields a, b, c.
    pub fn values(&self) -> (u64, u64, u64) {
        match *self {
            Answer::Own(v) => (v, 0, 0),
            Answer::Version(v, id) => (v, id.clock, id.txn.into()),
            Answer::Closing(d) | Answer::Slipped(d) => (d.into(), 0, 0),
            Answer::Done(id) | Answer::Collected(id) => (0, id.clock, id.txn.into()),
            Answer::Nofit(k) | Answer::Stored(k) => (k.into(), 0, 0),
            Answer::Found(n) | Answer::Swept(n) | Answer::Moved(n) => (n.into(), 0, 0),
            Answer::Refused(n, d) => (n.into(), d.into(), 0),
            _ => (0, 0, 0),
        }
    }
}
