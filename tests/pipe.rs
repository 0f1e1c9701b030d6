//! A program run on an input that goes through a pipe in pieces, so that its reads are cut anywhere.

use crate::random::Random;
use std::io::{ErrorKind, Read, Write};
use std::process::{ChildStdin, Command, Stdio};
use std::time::Duration;

/// The lengths of the first pieces; what is left is one more.
pub fn pieces(r: &mut Random) -> Vec<usize> {
    let most = r.of(&[1, 3, 50, 600, 5000, 100_000]);
    (0..r.below(20)).map(|_| 1 + r.below(most) as usize).collect()
}

/// A program that has its answer need not read on.
fn hand_over(stdin: &mut ChildStdin, piece: &[u8]) {
    if let Err(e) = stdin.write_all(piece) {
        assert_eq!(e.kind(), ErrorKind::BrokenPipe, "the program reads: {e}");
    }
}

/// What the program writes.
pub fn output(path: &str, input: &[u8], pieces: &[usize], pause: bool) -> Vec<u8> {
    let mut child = Command::new(path).stdin(Stdio::piped()).stdout(Stdio::piped()).spawn().expect("the program starts");
    let mut stdin = child.stdin.take().expect("a pipe");
    let mut stdout = child.stdout.take().expect("a pipe");
    let mut output = Vec::new();
    std::thread::scope(|s| {
        s.spawn(move || {
            let mut rest = input;
            for n in pieces {
                let (piece, more) = rest.split_at((*n).min(rest.len()));
                hand_over(&mut stdin, piece);
                if pause {
                    std::thread::sleep(Duration::from_micros(300));
                }
                rest = more;
            }
            hand_over(&mut stdin, rest);
        });
        stdout.read_to_end(&mut output).expect("the program writes");
    });
    let status = child.wait().expect("the program ends");
    assert!(status.success(), "the program ended with {status}");
    output
}
