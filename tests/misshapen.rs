//! Lines of a log that are not of the form, or whose fields are not in their ranges, each in one known way; and lines that may be anything.
#![allow(dead_code)]

use crate::hostile::{disturb, edge};
use crate::partner::Shop;
use crate::random::Random;

pub const KINDS: &[&str] = &["write", "commit", "read"];

/// A name, the kinds of line that it is for, and how such a line loses its form or its ranges.
pub type Form = (&'static str, &'static [&'static str], fn(&mut Random, Vec<Vec<u8>>) -> Vec<u8>);

pub const FORMS: [Form; 15] = [
    ("key 64", KINDS, |r, f| with(f, 2, r.of(&["64", "65", "99", "100", "255", "256"]))),
    ("ticket 0", KINDS, |_, f| with(f, 1, "0")),
    ("clock 0", &["commit", "read"], |_, f| with(f, 3, "0")),
    ("author 0", &["read"], |_, f| with(f, 4, "0")),
    ("a write with a clock or an author", &["write"], |r, f| with(f, r.of(&[3, 4]), r.of(&["1", "7", "4294967295"]))),
    ("a commit with a key or an author", &["commit"], |r, f| with(f, r.of(&[2, 4]), r.of(&["1", "7", "63"]))),
    ("a leading zero", KINDS, leading_zero),
    ("a ticket or author too great", KINDS, |r, f| with(f, r.of(&[1, 4]), r.of(&["4294967296", "4294967297", "18446744073709551616"]))),
    ("a clock too great", KINDS, |r, f| with(f, 3, r.of(&["18446744073709551616", "18446744073709551617", "99999999999999999999", "184467440737095516150"]))),
    ("no number", KINDS, |r, f| with(f, 1 + r.below(4) as usize, r.of(&["", "-1", "+1", " 1", "1 ", "0x1", "1.0", "one", "1e1", "\u{661}"]))),
    ("fields too few or too many", KINDS, other_fields),
    ("another kind", KINDS, |r, f| with(f, 0, r.of(&["", "start", "put", "get", "cut", "Write", "READ", "writes", "rea", " commit", "write\0"]))),
    ("another byte", KINDS, another_byte),
    ("64 bytes or more", KINDS, too_long),
    ("an empty line", KINDS, |_, _| Vec::new()),
];

/// A line in its form and ranges, of transactions that the shop has or of others: it may be bad or over as well.
pub fn right(shop: &Shop, r: &mut Random, kind: &str) -> Vec<Vec<u8>> {
    let numbers: Vec<u32> = shop.txns.iter().map(|t| t.number).chain([1 + r.below(9) as u32]).collect();
    let clocks: Vec<u64> = shop.txns.iter().map(|t| t.clock).filter(|c| *c != 0).chain([1 + r.below(9)]).collect();
    let (txn, key, clock, author) = (r.of(&numbers), r.below(64), r.of(&clocks), r.of(&numbers));
    let line = match kind {
        "write" => format!("write,{txn},{key},0,0"),
        "commit" => format!("commit,{txn},0,{clock},0"),
        _ => format!("read,{txn},{key},{clock},{author}"),
    };
    line.split(',').map(|f| f.as_bytes().to_vec()).collect()
}

/// A line with another field in place of one.
fn with(mut fields: Vec<Vec<u8>>, at: usize, field: &str) -> Vec<u8> {
    fields[at] = field.as_bytes().to_vec();
    fields.join(&b',')
}

fn leading_zero(r: &mut Random, mut fields: Vec<Vec<u8>>) -> Vec<u8> {
    fields[1 + r.below(4) as usize].insert(0, b'0');
    fields.join(&b',')
}

fn other_fields(r: &mut Random, mut fields: Vec<Vec<u8>>) -> Vec<u8> {
    if r.one_in(2) {
        fields.truncate(1 + r.below(4) as usize);
    } else {
        fields.insert(1 + r.below(5) as usize, r.of(&["", "0", "1"]).into());
    }
    fields.join(&b',')
}

fn another_byte(r: &mut Random, fields: Vec<Vec<u8>>) -> Vec<u8> {
    let mut line = fields.join(&b',');
    line.insert(r.below(line.len() as u64 + 1) as usize, r.of(b" \t\r\0\xff\xef+-.;\"w_"));
    line
}

/// No line of the form is so long: with zeros before a number, or with spaces after the last.
fn too_long(r: &mut Random, mut fields: Vec<Vec<u8>>) -> Vec<u8> {
    let (len, at) = (r.of(&[64, 65, 66, 128, 5000, 65_536, 70_000]), r.of(&[1, 3, 4]));
    let more = len - fields.join(&b',').len();
    if r.one_in(2) {
        fields[at].splice(0..0, vec![b'0'; more]);
    } else {
        fields[4].extend(vec![b' '; more]);
    }
    fields.join(&b',')
}

/// A line that is of the form but for this.
pub fn misshapen(shop: &Shop, r: &mut Random, form: &Form) -> Vec<u8> {
    let kind = r.of(form.1);
    let fields = right(shop, r, kind);
    form.2(r, fields)
}

/// The bytes of most lines.
pub const PLAIN: &[u8] = b"write,commit,read,0123456789";

/// A line that is close to a right one.
pub fn near(r: &mut Random) -> Vec<u8> {
    let kind = r.of(&["write", "commit", "read", "read", "start", "", "WRITE"]);
    let number = |r: &mut Random| if r.one_in(2) { edge(r) } else { r.below(4).to_string() };
    let (t, k, c, a) = (number(r), number(r), number(r), number(r));
    let mut line = format!("{kind},{t},{k},{c},{a}").into_bytes();
    if r.one_in(3) {
        disturb(r, &mut line);
    }
    line
}
