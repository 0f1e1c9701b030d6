//! The book of the scope document's cut rule, and the rule's check: pages, standing jobs and past jobs, fed each call with its answer; a sweep is fed
//! as its collects. Written from that section's text alone.

use crate::model::*;
use crate::redis::Committed;
use std::collections::BTreeMap;

#[derive(Clone, Debug, Default)]
struct Page {
    values: BTreeMap<u8, u64>,
    reads: Vec<(u8, Id)>,
    clock: u64,
}

#[derive(Clone, Debug, PartialEq)]
struct Job {
    id: Id,
    values: BTreeMap<u8, u64>,
}

#[derive(Clone, Default)]
pub struct Book {
    /// Of the store.
    kind: Kind,
    pages: BTreeMap<u32, Page>,
    standing: Vec<Job>,
    past: Vec<Job>,
    /// The ids of all that closed, in that order.
    closed: Vec<Id>,
}

/// A call with what it was handed: transaction, key or slot, value, clock or limit.
#[derive(Clone, Copy, Debug)]
pub struct Call {
    pub verb: u8,
    pub txn: u32,
    pub key: u8,
    pub number: u64,
}

/// The committed transactions that a scanned station holds, with the values in the store.
fn jobs(station: &Station, store: &[u8]) -> Vec<Job> {
    let value = |d: usize, n: usize| u64::from_le_bytes(record(station.kind, store, d, n + 1)[16..].try_into().unwrap());
    station.held().map(|(d, e)| Job { id: e.id, values: e.keys().enumerate().map(|(n, k)| (k, value(d, n))).collect() }).collect()
}

impl Book {
    /// Of a zero store.
    pub fn of(kind: Kind) -> Book {
        Book { kind, ..Book::default() }
    }

    /// A book that begins with what a store holds.
    pub fn begun(kind: Kind, store: &[u8]) -> Book {
        let standing = jobs(&Station::scan_of(kind, store).0, store);
        Book { past: standing.clone(), standing, ..Book::of(kind) }
    }

    /// The book that begins with a finished import: the stream's transactions, "its tickets and values counting as put and reported stored", so standing
    /// and past. They closed before all that follow.
    pub fn imported(set: &Committed) -> Book {
        let standing: Vec<Job> = set.iter().map(|(&(clock, txn), values)| Job { id: Id { clock, txn }, values: values.clone() }).collect();
        let closed = standing.iter().map(|j| j.id).collect();
        Book { past: standing.clone(), standing, closed, ..Book::of(Kind::Narrow) }
    }

    /// A finished move "carries the source's cut rule history up to the move over": what stands and what is past goes on, every page is torn out.
    pub fn moved(&self, to: Kind) -> Book {
        Book { kind: to, pages: BTreeMap::new(), ..self.clone() }
    }

    pub fn feed(&mut self, call: Call, answer: Answer) {
        match answer {
            Answer::Started => {
                self.pages.insert(call.txn, Page::default());
            }
            Answer::Kept => {
                self.pages.get_mut(&call.txn).unwrap().values.insert(call.key, call.number);
            }
            Answer::Version(_, id) => self.pages.get_mut(&call.txn).unwrap().reads.push((call.key, id)),
            Answer::Closing(_) => {
                let clocks = self.standing.iter().map(|j| j.id.clock).chain(self.pages.values().map(|p| p.clock));
                let clock = clock_above(call.number, clocks).expect("a transaction closes, and no clock is left");
                self.pages.get_mut(&call.txn).unwrap().clock = clock;
                self.closed.push(Id { clock, txn: call.txn });
            }
            Answer::Slipped(_) => {
                let page = &self.pages[&call.txn];
                let job = Job { id: Id { clock: page.clock, txn: call.txn }, values: page.values.clone() };
                self.standing.push(job.clone());
                self.past.push(job);
            }
            Answer::Empty | Answer::Dropped | Answer::Done(_) => {
                self.pages.remove(&call.txn);
            }
            Answer::Collected(id) => self.standing.retain(|j| j.id.txn != id.txn),
            Answer::Found(_) => self.pages.clear(),
            _ => {}
        }
    }

    /// Whether a is b, or closed after it: by the order of the calls, not by their ids.
    pub fn not_before(&self, a: Id, b: Id) -> bool {
        let place = |id: Id| self.closed.iter().rposition(|c| *c == id).unwrap();
        place(a) >= place(b)
    }

    /// The value under a key of a standing job.
    pub fn value(&self, id: Id, key: u8) -> Option<u64> {
        self.standing.iter().find(|j| j.id == id)?.values.get(&key).copied()
    }

    /// The cut rule, of a store and this book; what is wrong, where something is.
    pub fn check(&self, store: &[u8]) -> Result<(), String> {
        let (station, answer) = Station::scan_of(self.kind, store);
        if answer != Answer::Found(self.standing.len() as u8) {
            return Err(format!("the scan answers {answer:?}, {} jobs stand", self.standing.len()));
        }
        let mut found = jobs(&station, store);
        let mut standing = self.standing.clone();
        found.sort_by_key(|j| j.id);
        standing.sort_by_key(|j| j.id);
        if found != standing {
            return Err(format!("found {found:?}, standing {standing:?}"));
        }
        for key in 0..64 {
            let newest = self.past.iter().filter(|j| j.values.contains_key(&key)).max_by_key(|j| j.id);
            if let Some(j) = newest {
                if !self.standing.iter().any(|s| s.id == j.id && s.values.contains_key(&key)) {
                    return Err(format!("key {key}: the newest past job {j:?} does not stand"));
                }
            }
        }
        for (txn, page) in &self.pages {
            for (key, id) in &page.reads {
                let Some(job) = self.standing.iter().find(|j| j.id == *id && j.values.contains_key(key)) else {
                    return Err(format!("{txn} read {key} of {id:?}, which does not stand"));
                };
                for (other, seen) in &page.reads {
                    if job.values.contains_key(other) && *seen < *id {
                        return Err(format!("{txn} read {key} of {id:?}, and {other} of the older {seen:?}"));
                    }
                }
            }
        }
        Ok(())
    }
}
