//! Logs in which one line is bad or refused, planted where it is known, and so the verdict. Above it a partner's lines are clean; below it stands
//! anything, which does not count. Or a limit is reached and not passed, and the log is clean. Nothing here asks the model.
#![allow(dead_code)]

use crate::hostile::{joined, noise};
use crate::log::Verdict;
use crate::misshapen::{misshapen, near, right, FORMS, KINDS, PLAIN};
use crate::partner::{clock, shop, Shop, TXNS};
use crate::random::Random;

enum Expected {
    Clean,
    Bad,
    Over,
}

use Expected::{Bad, Clean, Over};

/// What is planted: its name, what it makes of the log, and who plants it and tells its line.
type Plant = (&'static str, Expected, fn(&mut Shop, &mut Random) -> usize);

const PLANTS: [Plant; 28] = [
    ("a dirty read", Bad, dirty_read),
    ("a read of nobody's", Bad, read_of_nobody),
    ("a read at the wrong clock", Bad, wrong_clock),
    ("a read at another's clock", Bad, clock_of_another),
    ("a commit below", Bad, commit_below),
    ("a key that the author never wrote", Bad, never_wrote),
    ("a fractured read, the newer last", Bad, fractured_by_newer),
    ("a fractured read, the older last", Bad, fractured_by_older),
    ("a second version", Bad, second_version),
    ("an own write unseen", Bad, own_write_unseen),
    ("a write after the commit", Bad, write_after_commit),
    ("a read after the commit", Bad, read_after_commit),
    ("a second commit", Bad, second_commit),
    ("a commit of a reader", Bad, commit_of_reader),
    ("a commit of nobody's", Bad, commit_of_nobody),
    ("a second version, with 16 keys read", Bad, second_version_of_16),
    ("a commit of a 65th", Bad, commit_of_65th),
    ("a read of a 65th's", Bad, read_of_65th),
    ("a 65th writes", Over, write_of_65th),
    ("a 65th reads", Over, read_by_65th),
    ("a 9th key", Over, ninth_key),
    ("a 9th key after the commit", Over, ninth_key_after_commit),
    ("a 17th key", Over, seventeenth_key),
    ("a 17th key that is no version", Over, seventeenth_of_nobody),
    ("a 17th key after the commit", Over, seventeenth_after_commit),
    ("64 transactions, and no more", Clean, all_64),
    ("8 keys written, some again", Clean, eight_keys),
    ("16 keys read, some again", Clean, sixteen_keys),
];

/// The names of all that can be planted.
pub fn names() -> impl Iterator<Item = &'static str> {
    PLANTS.iter().map(|p| p.0).chain(FORMS.iter().map(|f| f.0))
}

/// The transactions that a shop may have before: a plant needs a few more.
pub const BEFORE: usize = 56;

// ── transactions kept aside, with other lines of the shop between theirs ──

fn new(shop: &mut Shop, r: &mut Random) -> usize {
    let number = shop.unused(r);
    shop.begin(number, true)
}

fn write_all(shop: &mut Shop, r: &mut Random, t: usize, keys: &[u8]) {
    for key in keys {
        shop.write(t, *key);
        shop.steps(r, 1);
    }
}

fn author_at(shop: &mut Shop, r: &mut Random, keys: &[u8], clock: u64) -> usize {
    let a = new(shop, r);
    write_all(shop, r, a, keys);
    shop.commit(a, clock);
    a
}

fn author(shop: &mut Shop, r: &mut Random, keys: &[u8]) -> usize {
    let clock = clock(r);
    author_at(shop, r, keys, clock)
}

/// Two authors, the second newer: by its clock, or by its number where the clocks are the same. Either may commit first.
fn pair(shop: &mut Shop, r: &mut Random, older: &[u8], newer: &[u8]) -> (usize, usize) {
    let (a, b, c) = (new(shop, r), new(shop, r), clock(r));
    let d = if r.one_in(3) { c } else { clock(r) };
    let number = |t: usize| shop.txns[t].number;
    let (old, young) = if (c, number(a)) < (d, number(b)) { ((a, c), (b, d)) } else { ((b, d), (a, c)) };
    write_all(shop, r, old.0, older);
    write_all(shop, r, young.0, newer);
    let turns = if r.one_in(2) { [old, young] } else { [young, old] };
    for (t, clock) in turns {
        shop.commit(t, clock);
    }
    (old.0, young.0)
}

/// A transaction that has read this version, and perhaps read and written more since.
fn reader_of(shop: &mut Shop, r: &mut Random, key: u8, author: usize) -> usize {
    let t = new(shop, r);
    shop.read(t, key, author);
    more(shop, r, t);
    t
}

fn more(shop: &mut Shop, r: &mut Random, t: usize) {
    (0..r.below(4)).for_each(|_| shop.act(r, t));
    shop.steps(r, 2);
}

/// So many different keys.
fn keys<const N: usize>(r: &mut Random) -> [u8; N] {
    let mut all: Vec<u8> = (0..64).collect();
    std::array::from_fn(|_| all.swap_remove(r.below(all.len() as u64) as usize))
}

fn other_clock(r: &mut Random, not: u64) -> u64 {
    (0..).map(|_| clock(r)).find(|c| *c != not).expect("there are others")
}

// ── bad ──

fn dirty_read(shop: &mut Shop, r: &mut Random) -> usize {
    let ([k], a, t) = (keys(r), new(shop, r), new(shop, r));
    shop.write(a, k);
    more(shop, r, t);
    shop.say("read", shop.txns[t].number, k, clock(r), shop.txns[a].number)
}

fn read_of_nobody(shop: &mut Shop, r: &mut Random) -> usize {
    let ([k], t) = (keys(r), new(shop, r));
    more(shop, r, t);
    let nobody = shop.unused(r);
    shop.say("read", shop.txns[t].number, k, clock(r), nobody)
}

fn wrong_clock(shop: &mut Shop, r: &mut Random) -> usize {
    let [k] = keys(r);
    let (a, t) = (author(shop, r, &[k]), new(shop, r));
    let clock = other_clock(r, shop.txns[a].clock);
    more(shop, r, t);
    shop.say("read", shop.txns[t].number, k, clock, shop.txns[a].number)
}

/// Both wrote the key, and the clock is that of a commit line: of the other.
fn clock_of_another(shop: &mut Shop, r: &mut Random) -> usize {
    let [k] = keys(r);
    let a = author(shop, r, &[k]);
    let clock = other_clock(r, shop.txns[a].clock);
    author_at(shop, r, &[k], clock);
    let t = new(shop, r);
    shop.say("read", shop.txns[t].number, k, clock, shop.txns[a].number)
}

fn commit_below(shop: &mut Shop, r: &mut Random) -> usize {
    let clock = clock(r);
    let ([k], a, t) = (keys(r), new(shop, r), new(shop, r));
    shop.write(a, k);
    let line = shop.say("read", shop.txns[t].number, k, clock, shop.txns[a].number);
    shop.commit(a, clock);
    line
}

fn never_wrote(shop: &mut Shop, r: &mut Random) -> usize {
    let [k, l] = keys(r);
    let (a, _) = (author(shop, r, &[k]), author(shop, r, &[l, k]));
    let t = new(shop, r);
    shop.say_read(t, l, a)
}

fn fractured_by_newer(shop: &mut Shop, r: &mut Random) -> usize {
    let [k, l] = keys(r);
    let (older, newer) = pair(shop, r, &[l], &[k, l]);
    let t = reader_of(shop, r, l, older);
    shop.say_read(t, k, newer)
}

fn fractured_by_older(shop: &mut Shop, r: &mut Random) -> usize {
    let [k, l] = keys(r);
    let (older, newer) = pair(shop, r, &[k], &[l, k]);
    let t = reader_of(shop, r, l, newer);
    shop.say_read(t, k, older)
}

fn second_version(shop: &mut Shop, r: &mut Random) -> usize {
    let [k] = keys(r);
    let (older, newer) = pair(shop, r, &[k], &[k]);
    let (first, second) = if r.one_in(2) { (older, newer) } else { (newer, older) };
    let t = reader_of(shop, r, k, first);
    shop.say_read(t, k, second)
}

/// It may have read the key before it wrote it.
fn own_write_unseen(shop: &mut Shop, r: &mut Random) -> usize {
    let [k] = keys(r);
    let (a, t) = (author(shop, r, &[k]), new(shop, r));
    if r.one_in(2) {
        shop.read(t, k, a);
    }
    shop.write(t, k);
    more(shop, r, t);
    shop.say_read(t, k, a)
}

fn write_after_commit(shop: &mut Shop, r: &mut Random) -> usize {
    let [k, l] = keys(r);
    let a = author(shop, r, &[k]);
    shop.steps(r, 2);
    shop.say("write", shop.txns[a].number, r.of(&[k, l]), 0, 0)
}

fn read_after_commit(shop: &mut Shop, r: &mut Random) -> usize {
    let [k, l] = keys(r);
    let (a, b) = (author(shop, r, &[k]), author(shop, r, &[l]));
    shop.say_read(b, k, a)
}

fn second_commit(shop: &mut Shop, r: &mut Random) -> usize {
    let [k] = keys(r);
    let a = author(shop, r, &[k]);
    shop.steps(r, 2);
    let again = if r.one_in(2) { shop.txns[a].clock } else { clock(r) };
    shop.say("commit", shop.txns[a].number, 0, again, 0)
}

fn commit_of_reader(shop: &mut Shop, r: &mut Random) -> usize {
    let [k] = keys(r);
    let (a, t) = (author(shop, r, &[k]), new(shop, r));
    shop.read(t, k, a);
    shop.say("commit", shop.txns[t].number, 0, clock(r), 0)
}

fn commit_of_nobody(shop: &mut Shop, r: &mut Random) -> usize {
    let nobody = shop.unused(r);
    shop.say("commit", nobody, 0, clock(r), 0)
}

// ── at the limits, and one past them ──

/// All 64 write or read.
fn fill(shop: &mut Shop, r: &mut Random) {
    while shop.txns.len() < TXNS {
        let t = new(shop, r);
        shop.act(r, t);
    }
    shop.steps(r, 20);
}

fn all_64(shop: &mut Shop, r: &mut Random) -> usize {
    fill(shop, r);
    shop.lines.len()
}

fn eight_keys(shop: &mut Shop, r: &mut Random) -> usize {
    let (t, _) = full_writer(shop, r);
    shop.commit(t, clock(r))
}

fn sixteen_keys(shop: &mut Shop, r: &mut Random) -> usize {
    let (t, key, _) = full_reader(shop, r);
    shop.write(t, key)
}

fn commit_of_65th(shop: &mut Shop, r: &mut Random) -> usize {
    fill(shop, r);
    commit_of_nobody(shop, r)
}

fn read_of_65th(shop: &mut Shop, r: &mut Random) -> usize {
    let ([k], t) = (keys(r), new(shop, r));
    shop.act(r, t);
    fill(shop, r);
    let nobody = shop.unused(r);
    shop.say("read", shop.txns[t].number, k, clock(r), nobody)
}

fn write_of_65th(shop: &mut Shop, r: &mut Random) -> usize {
    fill(shop, r);
    let ([k], nobody) = (keys(r), shop.unused(r));
    shop.say("write", nobody, k, 0, 0)
}

/// Of a version that it could read, or of its own number.
fn read_by_65th(shop: &mut Shop, r: &mut Random) -> usize {
    let [k] = keys(r);
    let a = author(shop, r, &[k]);
    fill(shop, r);
    let nobody = shop.unused(r);
    let author = r.of(&[nobody, shop.txns[a].number]);
    shop.say("read", nobody, k, shop.txns[a].clock, author)
}

/// A transaction that wrote eight keys, some of them again; and another key.
fn full_writer(shop: &mut Shop, r: &mut Random) -> (usize, u8) {
    let ([ninth, first @ ..], t): ([u8; 9], usize) = (keys(r), new(shop, r));
    write_all(shop, r, t, &first);
    for _ in 0..r.below(4) {
        shop.write(t, r.of(&first));
    }
    (t, ninth)
}

fn ninth_key(shop: &mut Shop, r: &mut Random) -> usize {
    let (t, ninth) = full_writer(shop, r);
    shop.say("write", shop.txns[t].number, ninth, 0, 0)
}

fn ninth_key_after_commit(shop: &mut Shop, r: &mut Random) -> usize {
    let (t, ninth) = full_writer(shop, r);
    shop.commit(t, clock(r));
    shop.say("write", shop.txns[t].number, ninth, 0, 0)
}

/// A transaction that read 16 keys, some of them again; and another key, with a version that would stand together with them.
fn full_reader(shop: &mut Shop, r: &mut Random) -> (usize, u8, usize) {
    let all: [u8; 17] = keys(r);
    let authors = [author(shop, r, &all[..8]), author(shop, r, &all[8..16]), author(shop, r, &all[16..])];
    let t = new(shop, r);
    let order: [u8; 64] = keys(r);
    let reads: Vec<(u8, usize)> = order.iter().filter(|i| **i < 16).map(|i| (all[usize::from(*i)], authors[usize::from(*i) / 8])).collect();
    let again: Vec<(u8, usize)> = (0..r.below(4)).map(|_| r.of(&reads)).collect();
    for (key, author) in reads.into_iter().chain(again) {
        shop.read(t, key, author);
    }
    (t, all[16], authors[2])
}

fn seventeenth_key(shop: &mut Shop, r: &mut Random) -> usize {
    let (t, key, author) = full_reader(shop, r);
    shop.say_read(t, key, author)
}

fn seventeenth_of_nobody(shop: &mut Shop, r: &mut Random) -> usize {
    let (t, key, _) = full_reader(shop, r);
    let nobody = shop.unused(r);
    shop.say("read", shop.txns[t].number, key, clock(r), nobody)
}

fn seventeenth_after_commit(shop: &mut Shop, r: &mut Random) -> usize {
    let (t, key, author) = full_reader(shop, r);
    shop.write(t, key);
    shop.commit(t, clock(r));
    shop.say_read(t, key, author)
}

fn second_version_of_16(shop: &mut Shop, r: &mut Random) -> usize {
    let (t, ..) = full_reader(shop, r);
    let (key, _) = r.of(&shop.txns[t].reads);
    let another = author(shop, r, &[key]);
    shop.say_read(t, key, another)
}

// ── logs ──

pub struct Planted {
    pub what: &'static str,
    pub verdict: Verdict,
    pub log: Vec<u8>,
}

/// What stands below does not count.
fn below(shop: &mut Shop, r: &mut Random) {
    for _ in 0..r.of(&[0, 0, 1, 6, 40]) {
        match r.below(8) {
            0 => shop.lines.push(noise(r, PLAIN)),
            1 => shop.lines.push(near(r)),
            2..=3 => {
                let kind = r.of(KINDS);
                shop.lines.push(right(shop, r, kind).join(&b','));
            }
            _ => shop.steps(r, 1),
        }
    }
}

impl Expected {
    fn verdict(&self, line: u64) -> Verdict {
        match self {
            Clean => Verdict::Clean,
            Bad => Verdict::Bad(line),
            Over => Verdict::Refused(28, line),
        }
    }
}

/// A plant in the log of a shop with few enough transactions.
pub fn plant(mut shop: Shop, r: &mut Random) -> Planted {
    let at = r.below((PLANTS.len() + FORMS.len()) as u64) as usize;
    let (what, verdict) = match PLANTS.get(at) {
        Some((what, expected, plants)) => (*what, expected.verdict(plants(&mut shop, r) as u64)),
        None => {
            let form = &FORMS[at - PLANTS.len()];
            shop.lines.push(misshapen(&shop, r, form));
            (form.0, Verdict::Refused(19, shop.lines.len() as u64))
        }
    };
    if verdict != Verdict::Clean {
        below(&mut shop, r);
    }
    let mut log = joined(r, &shop.lines);
    if shop.lines.last().is_some_and(Vec::is_empty) {
        // an empty last line is one by its newline
        log.push(b'\n');
    }
    Planted { what, verdict, log }
}

/// The log of any shop, with a plant.
pub fn planted(r: &mut Random) -> Planted {
    let shop = shop(r, BEFORE);
    plant(shop, r)
}
