//! Each call whole, with its soundness test, for the proved store and for the plain Rust version, in one run: alternating rounds, the
//! least time of each. The two do the same work over the same station and must come to the same sum.

#[path = "../tests/model.rs"]
#[allow(dead_code)]
mod model;

use model::*;
use std::cmp::Reverse;
use std::hint::black_box;
use std::io::Write as _;
use std::time::Instant;

extern "C" {
    fn bench_put(rounds: u64, entries: u8, lives: u8, reads: u8, base: u8) -> u64;
    fn bench_start(rounds: u64, entries: u8, lives: u8, reads: u8, base: u8) -> u64;
    fn bench_retry(rounds: u64, entries: u8, lives: u8, reads: u8, base: u8) -> u64;
    fn bench_get(store: *const u8, len: usize, rounds: u64, entries: u8, lives: u8, reads: u8, base: u8, key: u8) -> u64;
    fn bench_transaction(store: *mut u8, len: usize, rounds: u64, entries: u8, lives: u8, reads: u8, base: u8) -> u64;
    fn bench_known(store: *mut u8, len: usize, verb: u8, rounds: u64, entries: u8, lives: u8, reads: u8, base: u8) -> u64;
    fn bench_sweep(stores: *mut u8, len: usize, entries: u8, lives: u8, reads: u8, base: u8, limit: u64) -> u64;
    fn bench_collects(stores: *mut u8, len: usize, entries: u8, lives: u8, reads: u8, base: u8, first: u8, limit: u8) -> u64;
    fn bench_scan(store: *const u8, len: usize, rounds: u64) -> u64;
    fn bench_scan_wide(store: *const u8, len: usize, rounds: u64) -> u64;
    fn bench_move_out(narrow: *const u8, narrow_len: usize, wide: *mut u8, wide_len: usize, rounds: u64) -> u64;
    fn bench_move_back(wide: *const u8, wide_len: usize, narrow: *mut u8, narrow_len: usize, rounds: u64) -> u64;
    fn bench_print(out: *mut u8, len: usize, rounds: u64, value: u64, clock: u64, txn: u32) -> u64;
}

/// As the proved side makes it: even slots wrote keys 0 to 7, odd ones 8 to 15.
fn entry(slot: u8) -> Entry {
    let keys = if slot % 2 == 0 { 255 } else { 65280 };
    Entry { id: Id { clock: u64::from(slot) + 1, txn: u32::from(slot) + 1 }, keys }
}

#[derive(Clone, Copy)]
struct Size {
    entries: u8,
    lives: u8,
    reads: u8,
    base: u8,
}

fn station(z: Size) -> Station {
    let mut s = Station::empty();
    for d in 0..z.entries {
        s.entries[usize::from(d)] = entry(d);
    }
    for i in 0..z.lives {
        let l = &mut s.live[usize::from(i)];
        l.txn = 1000 + u32::from(i);
        l.phase = Phase::Open;
        l.read_count = z.reads;
        for k in 0..z.reads {
            let d = z.base + u8::from(k >= 8);
            l.reads[usize::from(k)] = Read { key: k, id: entry(d).id };
        }
    }
    assert!(s.sound());
    s
}

fn store(z: Size) -> Vec<u8> {
    let mut s = vec![0; STORE];
    for d in 0..z.entries {
        let e = entry(d);
        let at = usize::from(d) * SLOT;
        s[at..at + RECORD].copy_from_slice(&commit_record(Kind::Narrow, &e));
        for (n, k) in e.keys().enumerate() {
            let at = at + RECORD * (n + 1);
            s[at..at + RECORD].copy_from_slice(&version_record(k, e.id, u64::from(k) + 7));
        }
    }
    s
}

fn code(a: Answer) -> u64 {
    match a {
        Answer::Started => 1,
        Answer::Kept => 2,
        Answer::Own(v) => v % 65536 + 16,
        Answer::Version(v, _) => v % 65536 + 17,
        Answer::None => 3,
        Answer::Nofit(k) => u64::from(k) + 22,
        Answer::Closing(d) => u64::from(d) + 18,
        Answer::Empty => 5,
        Answer::Done(_) => 6,
        Answer::Stored(k) => u64::from(k) + 19,
        Answer::Slipped(d) => u64::from(d) + 20,
        Answer::Dropped => 7,
        Answer::Collected(_) => 8,
        Answer::Found(n) => u64::from(n) + 21,
        Answer::Refused(n, _) => u64::from(n) + 100000,
        Answer::Swept(n) => u64::from(n) + 23,
        Answer::Moved(n) => u64::from(n) + 29,
    }
}

fn rust_put(n: u64, z: Size) -> u64 {
    let mut s = station(z);
    let mut last = 0;
    for i in 0..n {
        last = code(black_box(&mut s).put(1000, (i % 8) as u8, i));
    }
    last
}

fn rust_start(n: u64, z: Size) -> u64 {
    let mut s = station(z);
    let mut last = 0;
    for _ in 0..n {
        last = code(black_box(&mut s).start(77)) + code(black_box(&mut s).abort(77));
    }
    last
}

fn rust_retry(n: u64, z: Size) -> u64 {
    let mut s = station(z);
    let mut last = 0;
    for _ in 0..n {
        last = code(black_box(&mut s).commit(1, 5));
    }
    last
}

fn rust_get(bytes: &[u8], n: u64, z: Size, key: u8) -> u64 {
    let mut s = station(z);
    let mut last = 0;
    for _ in 0..n {
        last = code(black_box(&mut s).get(bytes, 1000, key));
    }
    last
}

/// Start, two puts, commit, four steps, and a collect of the transaction before it.
fn rust_transaction(bytes: &mut [u8], n: u64, z: Size) -> u64 {
    let mut s = station(z);
    let mut sum = 0;
    let mut before = 64;
    for i in 0..n {
        let txn = 5000 + (i % 2) as u32;
        s.start(txn);
        s.put(txn, 40, i);
        s.put(txn, 41, i);
        let closing = s.commit(txn, 1000 + i % 1000000);
        for _ in 0..4 {
            sum = code(black_box(&mut s).step(bytes, txn));
        }
        sum += code(s.collect(bytes, before));
        if let Answer::Closing(d) = closing {
            before = d;
        }
    }
    sum
}

fn rust_scan(bytes: &[u8], n: u64) -> u64 {
    let mut last = 0;
    for _ in 0..n {
        last = code(Station::scan(black_box(bytes)).1);
    }
    last
}

fn rust_move(from: Kind, to: Kind, source: &[u8], target: &mut [u8], n: u64) -> u64 {
    let mut last = 0;
    for _ in 0..n {
        last = code(move_between(from, to, black_box(source), black_box(&mut *target)));
    }
    last
}

/// A wide store with all slots held, each of so many keys.
fn wide_store(keys: u32) -> Vec<u8> {
    let mut s = vec![0; Kind::Wide.store()];
    for d in 0..Kind::Wide.slots() {
        let e = Entry { id: Id { clock: 100 + d as u64, txn: 1 + d as u32 }, keys: (1 << keys) - 1 };
        write(Kind::Wide, &mut s, d, 0, &commit_record(Kind::Wide, &e));
        for (n, k) in e.keys().enumerate() {
            write(Kind::Wide, &mut s, d, n + 1, &version_record(k, e.id, u64::from(k)));
        }
    }
    s
}

/// Wide stores: a scan of one with all slots and keys in use, and the moves of 32 slots of 8 keys.
fn wide() {
    println!("\n| wide stores | proved, µs | Rust, µs | ratio |\n|---|---|---|---|");
    let full = wide_store(16);
    unsafe {
        compare("scan, 32 slots of 16 keys", 2000, |n| bench_scan_wide(full.as_ptr(), full.len(), n), |n| {
            let mut last = 0;
            for _ in 0..n {
                last = code(Station::scan_of(Kind::Wide, black_box(&full)).1);
            }
            last
        });
        let source = wide_store(8);
        let (mut x, mut y) = (vec![7; STORE], vec![9; STORE]);
        compare(
            "move back, 32 slots of 8 keys",
            1000,
            |n| bench_move_back(source.as_ptr(), source.len(), x.as_mut_ptr(), x.len(), n),
            |n| rust_move(Kind::Wide, Kind::Narrow, &source, &mut y, n),
        );
        assert_eq!(x, y, "the two stores moved to differ");
        let (mut z, mut w) = (vec![7; source.len()], vec![9; source.len()]);
        compare(
            "move out, 32 slots of 8 keys",
            1000,
            |n| bench_move_out(x.as_ptr(), x.len(), z.as_mut_ptr(), z.len(), n),
            |n| rust_move(Kind::Narrow, Kind::Wide, &x, &mut w, n),
        );
        assert!(z == source && w == source, "out again, the stores differ");
    }
}

/// A sweep as one would write it by hand, with the tests of the model's: the entries sorted once, newest first, and what may go found in that order,
/// with the keys of all newer ones; then cleared from the oldest on.
fn sweep_once(s: &mut Station, bytes: &mut [u8], limit: u64) -> Answer {
    if bytes.len() != STORE {
        return Answer::Refused(1, 0);
    }
    if !s.sound() {
        return Answer::Refused(2, 0);
    }
    if limit == 0 || limit > 64 {
        return Answer::Refused(20, 0);
    }
    let read: Vec<Id> = s.live.iter().flat_map(|l| l.reads().iter().map(|r| r.id)).collect();
    let mut slots: Vec<usize> = s.held().map(|(d, _)| d).collect();
    slots.sort_unstable_by_key(|d| Reverse(s.entries[*d].id));
    let mut newer = 0;
    slots.retain(|d| {
        let e = &s.entries[*d];
        let superseded = e.keys & !newer == 0;
        newer |= e.keys;
        superseded && !read.contains(&e.id)
    });
    let mut count = 0;
    for d in slots.into_iter().rev().take(limit as usize) {
        let commit = &mut bytes[d * SLOT..d * SLOT + RECORD];
        if *commit != commit_record(Kind::Narrow, &s.entries[d]) {
            break;
        }
        commit.fill(0);
        s.entries[d] = Entry::default();
        count += 1;
    }
    Answer::Swept(count)
}

fn rust_sweep(stores: &mut [u8], z: Size, limit: u64) -> u64 {
    let fresh = station(z);
    let mut last = 0;
    for bytes in stores.chunks_mut(STORE) {
        let mut s = fresh.clone();
        last = code(sweep_once(black_box(&mut s), bytes, limit));
    }
    last
}

fn rust_collects(stores: &mut [u8], z: Size, first: u8, limit: u8) -> u64 {
    let fresh = station(z);
    let mut last = 0;
    for bytes in stores.chunks_mut(STORE) {
        let mut s = fresh.clone();
        for d in first..first + limit {
            last = code(black_box(&mut s).collect(bytes, d));
        }
    }
    last
}

fn rust_print(out: &mut [u8], n: u64, value: u64, id: Id) -> u64 {
    let mut last = 0;
    for i in 1..=n {
        let answer = Answer::Version(value, id);
        let (a, b, c) = answer.values();
        let mut left = &mut *black_box(&mut *out);
        let room = left.len();
        writeln!(left, "{},{},{},{},{}", i, answer.word(), a, b, c).expect("it has room");
        last = (room - left.len()) as u64;
    }
    last
}

/// Microseconds for one of n, the least of several alternating rounds.
fn compare(name: &str, n: u64, mut proved: impl FnMut(u64) -> u64, mut plain: impl FnMut(u64) -> u64) {
    let (mut a, mut b) = (f64::MAX, f64::MAX);
    for _ in 0..7 {
        let t = Instant::now();
        let x = black_box(proved(n));
        a = a.min(t.elapsed().as_secs_f64());
        let t = Instant::now();
        let y = black_box(plain(n));
        b = b.min(t.elapsed().as_secs_f64());
        assert_eq!(x, y, "{name}: the two versions differ");
    }
    let each = 1e6 / n as f64;
    println!("| {name} | {:.2} | {:.2} | {:.2} |", a * each, b * each, a / b);
}

/// The same over n stores, each its own, made anew before each round and not timed.
fn compare_over(name: &str, n: usize, fresh: &[u8], mut proved: impl FnMut(&mut [u8]) -> u64, mut plain: impl FnMut(&mut [u8]) -> u64) {
    let (mut a, mut b) = (f64::MAX, f64::MAX);
    for _ in 0..9 {
        let (mut x, mut y) = (fresh.repeat(n), fresh.repeat(n));
        let t = Instant::now();
        let p = black_box(proved(&mut x));
        a = a.min(t.elapsed().as_secs_f64());
        let t = Instant::now();
        let q = black_box(plain(&mut y));
        b = b.min(t.elapsed().as_secs_f64());
        assert_eq!(p, q, "{name}: the two versions differ");
        assert!(x == y, "{name}: the two stores differ");
    }
    let each = 1e6 / n as f64;
    println!("| {name} | {:.2} | {:.2} | {:.2} |", a * each, b * each, a / b);
}

/// Forty entries cleared: by one sweep, and by single collects in the same order.
fn clearing() {
    println!();
    println!("| forty entries cleared | proved, µs | Rust, µs | ratio |");
    println!("|---|---|---|---|");
    let typical = Size { entries: 48, lives: 2, reads: 4, base: 46 };
    let worst = Size { entries: 62, lives: 8, reads: 16, base: 0 };
    for (size, z, first) in [("typical", typical, 0), ("worst", worst, 2)] {
        let fresh = store(z);
        unsafe {
            compare_over(
                &format!("a sweep, {size}"),
                100,
                &fresh,
                |s| bench_sweep(s.as_mut_ptr(), s.len(), z.entries, z.lives, z.reads, z.base, 40),
                |s| rust_sweep(s, z, 40),
            );
            compare_over(
                &format!("collects, {size}"),
                20,
                &fresh,
                |s| bench_collects(s.as_mut_ptr(), s.len(), z.entries, z.lives, z.reads, z.base, first, 40),
                |s| rust_collects(s, z, first, 40),
            );
        }
    }
}

/// A million lines of a version's answer, with the least values and with the greatest: of one digit each, and of 20, 20 and 10.
fn printing() {
    println!();
    println!("| a thousand lines printed | proved, µs | Rust, µs | ratio |");
    println!("|---|---|---|---|");
    let (mut x, mut y) = ([0; 96], [0; 96]);
    for (name, value, id) in [("the least values", 0, Id::default()), ("the greatest", u64::MAX, Id { clock: u64::MAX, txn: u32::MAX })] {
        compare(
            name,
            1000,
            |n| unsafe { bench_print(x.as_mut_ptr(), x.len(), 1000 * n, value, id.clock, id.txn) },
            |n| rust_print(&mut y, 1000 * n, value, id),
        );
        assert_eq!(x, y, "{name}: the two lines differ");
    }
}

/// How a put's and a get's cost grows: with the entries held, and with the live transactions.
fn growth() {
    println!();
    println!("| growth | proved, µs | Rust, µs | ratio |");
    println!("|---|---|---|---|");
    let row = |what: String, z: Size| unsafe {
        compare(&format!("put, {what}"), 4000, |n| bench_put(n, z.entries, z.lives, z.reads, z.base), |n| rust_put(n, z));
        let bytes = store(z);
        compare(
            &format!("get, {what}"),
            4000,
            |n| bench_get(bytes.as_ptr(), bytes.len(), n, z.entries, z.lives, z.reads, z.base, 0),
            |n| rust_get(&bytes, n, z, 0),
        );
    };
    for entries in [0, 16, 32, 48, 64] {
        let reads = if entries == 0 { 0 } else { 4 };
        row(format!("{entries} entries"), Size { entries, lives: 2, reads, base: entries.saturating_sub(2) });
    }
    for lives in [1, 4, 8] {
        row(format!("{lives} live"), Size { entries: 16, lives, reads: 4, base: 14 });
    }
}

fn main() {
    let typical = Size { entries: 16, lives: 2, reads: 4, base: 14 };
    let worst = Size { entries: 62, lives: 8, reads: 16, base: 0 };
    println!("| call | proved, µs | Rust, µs | ratio |");
    println!("|---|---|---|---|");
    for (size, z) in [("typical", typical), ("worst", worst)] {
        let lives = if z.lives == 8 { Size { lives: 7, ..z } } else { z };
        unsafe {
            compare(&format!("start and abort, {size}"), 4000, |n| bench_start(n, z.entries, lives.lives, z.reads, z.base), |n| rust_start(n, lives));
            compare(&format!("put, {size}"), 4000, |n| bench_put(n, z.entries, z.lives, z.reads, z.base), |n| rust_put(n, z));
            compare(&format!("commit again, {size}"), 4000, |n| bench_retry(n, z.entries, z.lives, z.reads, z.base), |n| rust_retry(n, z));
            let bytes = store(z);
            compare(
                &format!("get, {size}"),
                4000,
                |n| bench_get(bytes.as_ptr(), bytes.len(), n, z.entries, z.lives, z.reads, z.base, 0),
                |n| rust_get(&bytes, n, z, 0),
            );
            let mut known = bytes.clone();
            for (verb, name) in [(2, "put"), (3, "get"), (4, "commit again")] {
                compare(
                    &format!("{name} on a station known to be sound, {size}"),
                    4000,
                    |n| bench_known(known.as_mut_ptr(), known.len(), verb, n, z.entries, z.lives, z.reads, z.base),
                    |n| match verb {
                        2 => rust_put(n, z),
                        3 => rust_get(&bytes, n, z, 0),
                        _ => rust_retry(n, z),
                    },
                );
            }
            let (mut x, mut y) = (store(z), store(z));
            compare(
                &format!("a transaction of nine calls, {size}"),
                500,
                |n| {
                    x.copy_from_slice(&store(z));
                    bench_transaction(x.as_mut_ptr(), x.len(), n, z.entries, lives.lives, z.reads, z.base)
                },
                |n| {
                    y.copy_from_slice(&store(z));
                    rust_transaction(&mut y, n, lives)
                },
            );
            assert_eq!(x, y, "the two stores differ");
            compare(&format!("scan, {size}"), 2000, |n| bench_scan(bytes.as_ptr(), bytes.len(), n), |n| rust_scan(&bytes, n));
        }
    }
    wide();
    clearing();
    printing();
    growth();
}
