//! Logs of which nothing is known but what the model says.
#![allow(dead_code)]

use crate::hostile::{disturb, joined, noise};
use crate::misshapen::{near, right, PLAIN};
use crate::partner::Shop;
use crate::random::Random;

/// Clean lines, and now and then one in the form that may be anything.
pub fn mixed(r: &mut Random) -> Vec<u8> {
    let mut shop = Shop::new(r.of(&[2, 3, 8]), r.of(&[3, 6, 64]));
    for _ in 0..r.of(&[2, 10, 60, 200]) {
        shop.steps(r, 8);
        let kind = r.of(&["write", "commit", "read", "read", "read"]);
        let mut line = right(&shop, r, kind);
        if kind != "commit" {
            line[2] = r.below(3).to_string().into_bytes();
        }
        shop.lines.push(line.join(&b','));
    }
    joined(r, &shop.lines)
}

/// Lines that are close to right ones, and bytes of any kind.
pub fn hostile(r: &mut Random) -> Vec<u8> {
    let lines: Vec<Vec<u8>> = (0..r.of(&[1, 2, 5])).map(|_| if r.one_in(3) { noise(r, PLAIN) } else { near(r) }).collect();
    joined(r, &lines)
}

fn mutate_lines(r: &mut Random, log: &[u8]) -> Vec<u8> {
    let mut lines: Vec<&[u8]> = log.split(|b| *b == b'\n').collect();
    let place = |r: &mut Random| r.below(lines.len() as u64) as usize;
    let (at, other) = (place(r), place(r));
    match r.below(3) {
        0 => drop(lines.remove(at)),
        1 => lines.insert(at, lines[at]),
        _ => lines.swap(at, other),
    }
    lines.join(&b'\n')
}

/// A log with a few bytes changed, dropped or doubled, or lines dropped, doubled or swapped.
pub fn mutated(r: &mut Random, mut log: Vec<u8>) -> Vec<u8> {
    for _ in 0..1 + r.below(3) {
        match r.below(4) {
            0 | 1 => log = mutate_lines(r, &log),
            2 if !log.is_empty() => {
                let at = r.below(log.len() as u64) as usize;
                log.insert(at, log[at]);
            }
            _ => disturb(r, &mut log),
        }
    }
    log
}
