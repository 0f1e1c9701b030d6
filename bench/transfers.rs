//! Export and import through the C interface, beside the plain Rust version, in one run: alternating rounds, the least time of each. The two must
//! write the same bytes. A typical store has 20 transactions of 3 keys, with the numbers of a day; the worst 64 of 8, with the greatest.

#[path = "../tests/model.rs"]
#[allow(dead_code)]
mod model;
mod transfer;

use model::{commit_record, version_record, write, Entry, Id, Kind, STORE};
use std::hint::black_box;
use std::time::Instant;

const TARGET: usize = 65_536;

extern "C" {
    fn gorehimu_export(store: *const u8, store_len: usize, target: *mut u8, target_len: usize, answer: *mut u8, answer_len: usize) -> u32;
    fn gorehimu_import(stream: *const u8, stream_len: usize, store: *mut u8, store_len: usize, answer: *mut u8, answer_len: usize) -> u32;
}

/// The a of the answer, of this kind.
fn done(kind: u64, answer: [u8; 32]) -> usize {
    let number = |n: usize| u64::from_le_bytes(answer[8 * n..8 * n + 8].try_into().unwrap());
    assert_eq!(number(0), kind, "refused with {}", number(1));
    number(1) as usize
}

fn export(store: &[u8], target: &mut [u8]) -> usize {
    let mut answer = [0; 32];
    let code = unsafe { gorehimu_export(store.as_ptr(), store.len(), target.as_mut_ptr(), target.len(), answer.as_mut_ptr(), answer.len()) };
    assert_eq!(code, 0);
    done(20, answer)
}

fn import(stream: &[u8], store: &mut [u8]) -> usize {
    let mut answer = [0; 32];
    let code = unsafe { gorehimu_import(stream.as_ptr(), stream.len(), store.as_mut_ptr(), store.len(), answer.as_mut_ptr(), answer.len()) };
    assert_eq!(code, 0);
    done(21, answer)
}

/// Transactions in slots from the top, oldest first, as a desk and an import leave them.
fn store(entries: impl Iterator<Item = Entry>, value: u64) -> Vec<u8> {
    let mut store = vec![0; STORE];
    for (e, slot) in entries.zip((0..64).rev()) {
        write(Kind::Narrow, &mut store, slot, 0, &commit_record(Kind::Narrow, &e));
        for (key, n) in e.keys().zip(1..) {
            write(Kind::Narrow, &mut store, slot, n, &version_record(key, e.id, value - u64::from(key)));
        }
    }
    store
}

fn typical() -> Vec<u8> {
    store((0..20).map(|n| Entry { id: Id { clock: 32400 + 7 * u64::from(n), txn: 1001 + n }, keys: 0b10011 << n }), 500)
}

fn worst() -> Vec<u8> {
    store((0..64).map(|n| Entry { id: Id { clock: u64::MAX - 63 + u64::from(n), txn: u32::MAX - 63 + n }, keys: 0xff << (10 + n % 40) }), u64::MAX)
}

/// Microseconds for one of n, the least of several alternating rounds.
fn compare(name: &str, n: usize, mut proved: impl FnMut() -> usize, mut plain: impl FnMut() -> usize) {
    let (mut a, mut b) = (f64::MAX, f64::MAX);
    for _ in 0..9 {
        let t = Instant::now();
        let x = (0..n).map(|_| black_box(proved())).last();
        a = a.min(t.elapsed().as_secs_f64());
        let t = Instant::now();
        let y = (0..n).map(|_| black_box(plain())).last();
        b = b.min(t.elapsed().as_secs_f64());
        assert_eq!(x, y, "{name}: the two versions differ");
    }
    let each = 1e6 / n as f64;
    println!("| {name} | {:.2} | {:.2} | {:.2} |", a * each, b * each, a / b);
}

fn main() {
    println!("| into Redis and out | proved, µs | Rust, µs | ratio |");
    println!("|---|---|---|---|");
    for (size, store) in [("typical", typical()), ("worst", worst())] {
        let (mut x, mut y) = (vec![7; TARGET], vec![7; TARGET]);
        compare(
            &format!("export, {size}"),
            500,
            || export(black_box(&store), black_box(&mut x)),
            || transfer::export(black_box(&store), black_box(&mut y)).expect("a store that is not damaged"),
        );
        assert!(x == y, "export, {size}: the two streams differ");
        let len = export(&store, &mut x);
        let stream = &x[..len];
        let (mut z, mut w) = (vec![7; STORE], vec![9; STORE]);
        compare(
            &format!("import, {size}"),
            500,
            || import(black_box(stream), black_box(&mut z)),
            || transfer::import(black_box(stream), black_box(&mut w)).expect("a stream"),
        );
        assert!(z == w, "import, {size}: the two stores differ");
    }
}
