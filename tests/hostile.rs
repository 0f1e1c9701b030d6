//! Input that is near a right one or far from it: numbers at the limits, bytes of any kind, a byte changed, the last newline left out.
#![allow(dead_code)]

use crate::random::Random;

/// A number near a limit of some field.
pub fn edge(r: &mut Random) -> String {
    let limits = [0u128, 1, 8, 9, 10, 16, 63, 64, 99, 100, 255, 256, 1 << 32, 10_000_000_000_000_000_000, 1 << 63, 1 << 64, 100_000_000_000_000_000_000];
    let n = r.of(&limits);
    (n + u128::from(r.below(3))).saturating_sub(1).to_string()
}

/// Bytes of any kind, or of the plain ones: a line or several.
pub fn noise(r: &mut Random, plain: &[u8]) -> Vec<u8> {
    let len = match r.below(12) {
        0 => 60 + r.below(10),
        1 => r.below(70_000),
        2 => 65_530 + r.below(12),
        _ => r.below(40),
    };
    let is_plain = r.one_in(2);
    (0..len).map(|_| if is_plain { r.of(plain) } else { r.next() as u8 }).collect()
}

/// A byte more, a byte less, or another byte.
pub fn disturb(r: &mut Random, bytes: &mut Vec<u8>) {
    let at = r.below(bytes.len() as u64 + 1) as usize;
    match r.below(3) {
        0 => bytes.insert(at, r.of(b",0 1\r\0\xff-+9")),
        1 if at < bytes.len() => drop(bytes.remove(at)),
        _ if at < bytes.len() => bytes[at] = r.next() as u8,
        _ => {}
    }
}

/// Lines as one input, at times without the last newline.
pub fn joined(r: &mut Random, lines: &[Vec<u8>]) -> Vec<u8> {
    let mut input = lines.join(&b'\n');
    if !r.one_in(4) {
        input.push(b'\n');
    }
    input
}
