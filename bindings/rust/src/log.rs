//! The verdict on another shop's log.

use crate::{raw, ANSWER};
use std::fmt;

/// What is said of a log. Lines are counted from 1; the first that is refused or bad is the whole answer.
#[derive(Clone, Copy, Debug, PartialEq, Eq)]
pub enum Verdict {
    /// No line is bad: its readers saw read atomic isolation.
    Clean,
    /// This line is bad.
    Bad {
        /// Which.
        line: u64,
    },
    /// This line is not of the form, or a field is not in its range (refusal 19).
    Malformed {
        /// Which.
        line: u64,
    },
    /// At this line the log is over a limit (refusal 28): a 65th ticket that writes or reads, a 9th key written or a 17th key read by one ticket.
    OverLimit {
        /// Which.
        line: u64,
    },
}

/// As the program `checklog` prints it.
///
/// ```
/// assert_eq!(gorehimu::Verdict::OverLimit { line: 70 }.to_string(), "refused,28,70");
/// ```
impl fmt::Display for Verdict {
    fn fmt(&self, f: &mut fmt::Formatter<'_>) -> fmt::Result {
        match self {
            Verdict::Clean => write!(f, "clean"),
            Verdict::Bad { line } => write!(f, "bad,{line}"),
            Verdict::Malformed { line } => write!(f, "refused,19,{line}"),
            Verdict::OverLimit { line } => write!(f, "refused,28,{line}"),
        }
    }
}

/// Judges another shop's log by the paper's definitions: whether its readers saw committed work alone, and never half of a transaction beside the older
/// state of the rest. The log is lines of text, each ended by a newline, which the last may lack, of at most 64 bytes, with five fields:
/// `kind,ticket,key,clock,author`.
///
/// - `write,5,2,0,0`: ticket 5 writes key 2
/// - `commit,5,0,100,0`: ticket 5 commits, with clock 100
/// - `read,6,2,100,5`: ticket 6 reads key 2, in the version of clock 100 by ticket 5
///
/// Tickets are 1 to 2^32 - 1, keys 0 to 63, clocks 1 to 2^64 - 1, and fields that a kind does not name are 0.
///
/// ```
/// use gorehimu::{check_log, Verdict};
///
/// let day = b"write,5,2,0,0\nwrite,5,3,0,0\ncommit,5,0,100,0\nread,6,2,100,5\n";
/// assert_eq!(check_log(day), Verdict::Clean);
///
/// // ticket 7 writes both keys anew; ticket 6, which has read the old one, must not read the new one of the other
/// let torn = [&day[..], b"write,7,2,0,0\nwrite,7,3,0,0\ncommit,7,0,101,0\nread,6,3,101,7\n"].concat();
/// assert_eq!(check_log(&torn), Verdict::Bad { line: 8 });
///
/// // a read of work that is not committed
/// assert_eq!(check_log(b"write,5,2,0,0\nread,6,2,100,5"), Verdict::Bad { line: 2 });
/// assert_eq!(check_log(b"write,5,64,0,0"), Verdict::Malformed { line: 1 });
/// assert_eq!(check_log(b""), Verdict::Clean);
/// let many: String = (1..=65).map(|ticket| format!("write,{ticket},0,0,0\n")).collect();
/// assert_eq!(check_log(many.as_bytes()), Verdict::OverLimit { line: 65 });
/// ```
pub fn check_log(log: &[u8]) -> Verdict {
    let mut answer = [0; ANSWER];
    let code = unsafe { raw::gorehimu_check_log(log.as_ptr(), log.len(), answer.as_mut_ptr(), answer.len()) };
    assert_eq!(code, 0, "the answer's length is right");
    let field = |i: usize| u64::from_le_bytes(answer[8 * i..8 * i + 8].try_into().unwrap());
    match (field(0), field(1), field(2)) {
        (18, _, _) => Verdict::Clean,
        (19, line, _) => Verdict::Bad { line },
        (15, 19, line) => Verdict::Malformed { line },
        (15, 28, line) => Verdict::OverLimit { line },
        _ => unreachable!("the library writes clean, bad, or refused with 19 or 28"),
    }
}
