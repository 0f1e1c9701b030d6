//! What is said of a log, and how it is printed.

use std::fmt;

/// "Answer clean, or the first bad line"; a refusal with its number, and its line.
#[derive(Clone, Copy, PartialEq, Eq, Debug)]
pub enum Verdict {
    Clean,
    Bad(u64),
    Refused(u8, u64),
}

impl fmt::Display for Verdict {
    fn fmt(&self, f: &mut fmt::Formatter) -> fmt::Result {
        match self {
            Verdict::Clean => write!(f, "clean"),
            Verdict::Bad(line) => write!(f, "bad,{line}"),
            Verdict::Refused(number, line) => write!(f, "refused,{number},{line}"),
        }
    }
}
