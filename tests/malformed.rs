//! Streams with one thing wrong, each in a known way, in the place of a transaction of a set: import refuses every one of them with 27, however many
//! commits there are. Nothing here asks the model, and the right streams are written anew.
#![allow(dead_code)]

use crate::random::Random;
use crate::redis::Committed;

/// A SET: what it names and the value, whatever they are.
type Command = (String, String);

fn bulk(text: &str) -> String {
    format!("${}\r\n{text}\r\n", text.len())
}

fn resp(commands: &[Command]) -> String {
    commands.iter().map(|(name, value)| format!("*3\r\n{}{}{}", bulk("SET"), bulk(name), bulk(value))).collect()
}

/// A transaction's numbers as they are written.
#[derive(Clone)]
pub struct Written {
    clock: String,
    txn: String,
    versions: Vec<Command>,
    keys: Vec<String>,
}

impl Written {
    fn of(clock: u64, txn: u32, writes: impl Iterator<Item = (u8, u64)>) -> Written {
        let versions: Vec<Command> = writes.map(|(key, value)| (key.to_string(), value.to_string())).collect();
        let keys = versions.iter().map(|v| v.0.clone()).collect();
        Written { clock: clock.to_string(), txn: txn.to_string(), versions, keys }
    }

    /// Its versions, then its commit.
    fn commands(&self) -> Vec<Command> {
        let id = format!("{}/{}", self.clock, self.txn);
        let versions = self.versions.iter().map(|(key, value)| (format!("v/{key}/{id}"), value.clone()));
        versions.chain([(format!("c/{id}"), self.keys.join(","))]).collect()
    }

    fn text(&self) -> String {
        resp(&self.commands())
    }

    /// The same with something else.
    fn with(&self, change: impl FnOnce(&mut Written)) -> Written {
        let mut w = self.clone();
        change(&mut w);
        w
    }

    fn with_key(&self, n: usize, key: &str) -> Written {
        self.with(|w| {
            w.versions[n].0 = key.to_string();
            w.keys[n] = key.to_string();
        })
    }
}

pub fn written(set: &Committed) -> Vec<Written> {
    set.iter().map(|(&(clock, txn), writes)| Written::of(clock, txn, writes.iter().map(|(k, v)| (*k, *v)))).collect()
}

pub fn text(all: &[Written]) -> Vec<u8> {
    all.iter().flat_map(|w| w.text().into_bytes()).collect()
}

/// A number written in another way, or no number at all; or the number and what its field has no room for, so that it comes out the same where it is
/// cut off.
fn other_numbers(n: &str, rooms: &[u32]) -> Vec<String> {
    let mut all: Vec<String> = ["", "-1", "one", "\u{661}", "99999999999999999999999999999999999999999"].map(str::to_string).to_vec();
    all.extend([format!("0{n}"), format!("00{n}"), format!("+{n}"), format!(" {n}"), format!("{n} "), format!("{n}.0"), format!("{n}\0"), format!("-{n}"), format!("{n}e0")]);
    let value: u128 = n.parse().expect("a number");
    all.extend(rooms.iter().map(|bits| (value + (1 << bits)).to_string()));
    all
}

/// The numbers of one transaction.
fn numbers(w: &Written, n: usize) -> Vec<(String, String)> {
    let mut wrong = Vec::new();
    for clock in other_numbers(&w.clock, &[64]) {
        wrong.push((format!("clock {clock:?}"), w.with(|w| w.clock = clock).text()));
    }
    for txn in other_numbers(&w.txn, &[32, 64]) {
        wrong.push((format!("ticket {txn:?}"), w.with(|w| w.txn = txn).text()));
    }
    for key in other_numbers(&w.keys[n], &[6, 8, 32, 64]) {
        wrong.push((format!("key {key:?}"), w.with_key(n, &key).text()));
        wrong.push((format!("key {key:?} of a version"), w.with(|w| w.versions[n].0 = key.clone()).text()));
        wrong.push((format!("key {key:?} of a commit"), w.with(|w| w.keys[n] = key).text()));
    }
    for value in other_numbers(&w.versions[n].1, &[64]) {
        wrong.push((format!("value {value:?}"), w.with(|w| w.versions[n].1 = value).text()));
    }
    wrong.push(("key 64".to_string(), w.with_key(w.keys.len() - 1, "64").text()));
    wrong
}

/// The write set: the versions against the commit's keys.
fn write_sets(w: &Written, n: usize) -> Vec<(&'static str, String)> {
    let other = (0..64).map(|k: u8| k.to_string()).find(|k| !w.keys.contains(k)).expect("a key that was not written");
    let next = |number: &str| number.parse::<u128>().map_or(0, |n| n ^ 1).to_string();
    let nine = w.with(|w| {
        w.versions = (0..9).map(|k| (k.to_string(), "7".to_string())).collect();
        w.keys = (0..9).map(|k| k.to_string()).collect();
    });
    let mut wrong = vec![
        ("no key", w.with(|w| (w.versions, w.keys) = (Vec::new(), Vec::new())).text()),
        ("no version", w.with(|w| w.versions.clear()).text()),
        ("no key in the commit", w.with(|w| w.keys.clear()).text()),
        ("nine keys", nine.text()),
        ("nine versions", nine.with(|w| w.keys.truncate(8)).text()),
        ("nine keys in the commit", nine.with(|w| w.versions.truncate(8)).text()),
        ("a key missing in the commit", w.with(|w| drop(w.keys.remove(n))).text()),
        ("a key too many in the commit", w.with(|w| w.keys.push(other.clone())).text()),
        ("another key in the commit", w.with(|w| w.keys[n] = other.clone()).text()),
        ("a version missing", w.with(|w| drop(w.versions.remove(n))).text()),
        ("a version twice", w.with(|w| w.versions.insert(n, w.versions[n].clone())).text()),
        ("a key twice in the commit", w.with(|w| w.keys.insert(n, w.keys[n].clone())).text()),
        ("a key twice", w.with(|w| {
            w.versions.insert(n, w.versions[n].clone());
            w.keys.insert(n, w.keys[n].clone());
        }).text()),
    ];
    for (what, clock, txn) in [("a version of another clock", next(&w.clock), w.txn.clone()), ("a version of another ticket", w.clock.clone(), next(&w.txn))] {
        let mut commands = w.commands();
        commands[n].0 = format!("v/{}/{clock}/{txn}", w.keys[n]);
        wrong.push((what, resp(&commands)));
    }
    for (what, clock, txn) in [("a commit of another clock", next(&w.clock), w.txn.clone()), ("a commit of another ticket", w.clock.clone(), next(&w.txn))] {
        let mut commands = w.commands();
        commands.last_mut().expect("a commit").0 = format!("c/{clock}/{txn}");
        wrong.push((what, resp(&commands)));
    }
    if w.keys.len() > 1 {
        wrong.push(("versions not ascending", w.with(|w| w.versions.reverse()).text()));
        wrong.push(("the commit's keys not ascending", w.with(|w| w.keys.reverse()).text()));
        wrong.push(("neither ascending", w.with(|w| {
            w.versions.reverse();
            w.keys.reverse();
        }).text()));
        for between in ["", " ", ", ", ";", ",,", "/"] {
            let mut commands = w.commands();
            commands.last_mut().expect("a commit").1 = w.keys.join(between);
            wrong.push(("keys not parted by commas", resp(&commands)));
        }
    }
    for (before, after) in [(",", ""), ("", ","), (" ", ""), ("", " "), ("[", "]")] {
        let mut commands = w.commands();
        commands.last_mut().expect("a commit").1 = format!("{before}{}{after}", w.keys.join(","));
        wrong.push(("more than keys", resp(&commands)));
    }
    wrong
}

/// The order of a transaction's commands.
fn orders(w: &Written, n: usize) -> Vec<(&'static str, String)> {
    let commands = w.commands();
    let last = commands.len() - 1;
    let moved = |from: usize, to: usize| {
        let mut list = commands.clone();
        let command = list.remove(from);
        list.insert(to, command);
        resp(&list)
    };
    let doubled = [&commands[..], &commands[last..]].concat();
    vec![
        ("the commit first", moved(last, 0)),
        ("a version after the commit", moved(n, last)),
        ("the commit before a version", moved(last, n)),
        ("the commit twice", resp(&doubled)),
        ("the commit alone", resp(&commands[last..])),
        ("no commit", resp(&commands[..last])),
        ("the transaction twice", w.text().repeat(2)),
    ]
}

/// Names with other letters and signs, of one command of the transaction.
fn names(w: &Written, at: usize) -> Vec<(String, String)> {
    let commands = w.commands();
    let name = &commands[at].0;
    let others = [
        name.to_uppercase(),
        name.replacen(['v', 'c'], "w", 1),
        name.replacen(['v', 'c'], "", 1),
        name.replace('/', ":"),
        name.replacen('/', "//", 1),
        name.replacen('/', "", 1),
        format!("{name}/"),
        format!("/{name}"),
        format!(" {name}"),
        format!("{name} "),
        format!("{name}\r\n"),
        format!("{name}/1"),
        name.rsplit_once('/').expect("a name of several parts").0.to_string(),
        String::new(),
    ];
    let named = |other: String| {
        let mut list = commands.clone();
        list[at].0 = other.clone();
        (format!("the name {other:?}"), resp(&list))
    };
    others.into_iter().map(named).collect()
}

/// A part of a command's bytes instead of another.
fn replaced(command: &str, part: &str, other: &str) -> (String, String) {
    assert!(command.contains(part), "{command:?} has no {part:?}");
    (format!("{other:?} for {part:?}"), command.replacen(part, other, 1))
}

/// The bytes of one command: heads, lengths, line ends.
fn commands(w: &Written, at: usize, r: &mut Random) -> Vec<(String, String)> {
    let list = w.commands();
    let (before, after) = (resp(&list[..at]), resp(&list[at + 1..]));
    let (command, (name, value)) = (resp(&list[at..at + 1]), &list[at]);
    let mut wrong = Vec::new();
    for head in ["*2", "*4", "*", "*-1", "*03", "*3 ", "*+3", "$3", "+3", "3", " *3", "*3\r\n*3", "\r\n*3", "\0*3"] {
        wrong.push(replaced(&command, "*3", head));
    }
    for set in ["$3\r\nset", "$3\r\nSet", "$3\r\nGET", "$3\r\nSEt", "$4\r\nSETX", "$2\r\nSE", "$4\r\nSET ", "$03\r\nSET", "$+3\r\nSET", "$4\r\nSET", "$2\r\nSET", "$\r\nSET", "+SET", "SET", "$0\r\n"] {
        wrong.push(replaced(&command, "$3\r\nSET", set));
    }
    for text in [name, value] {
        let mut lengths = other_numbers(&text.len().to_string(), &[8, 16, 32, 64]);
        lengths.extend([text.len() + 1, text.len() + 2, text.len() - 1, 0].map(|n| n.to_string()));
        // the last bytes of any address
        lengths.extend([u64::MAX, u64::MAX - 1, 1 << 63, (1 << 63) - 1, u64::from(u32::MAX)].map(|n| n.to_string()));
        for length in lengths {
            wrong.push(replaced(&command, &bulk(text), &format!("${length}\r\n{text}\r\n")));
        }
        for head in ["", "+", ":", "$ "] {
            wrong.push(replaced(&command, &bulk(text), &format!("{head}{text}\r\n")));
        }
    }
    let ends: Vec<usize> = command.match_indices("\r\n").map(|m| m.0).collect();
    for end in ["", "\n", "\r", "\n\r", "\r\r\n", "\r\n\r\n", "\r\n ", "\r\n\0"] {
        let place = r.of(&ends);
        wrong.push((format!("{end:?} for a line end"), format!("{}{end}{}", &command[..place], &command[place + 2..])));
    }
    wrong.push(("an inline command".to_string(), format!("SET {name} {value}\r\n")));
    wrong.push(("two bulk strings".to_string(), format!("*3\r\n{}{}", bulk("SET"), bulk(name))));
    wrong.push(("a fourth bulk string".to_string(), format!("{command}{}", bulk("NX"))));
    wrong.push(("an array of four".to_string(), format!("{}{}", command.replacen("*3", "*4", 1), bulk("NX"))));
    wrong.push(("another command before it".to_string(), format!("*1\r\n{}{command}", bulk("MULTI"))));
    wrong.push(("the value before the name".to_string(), resp(&[(value.clone(), name.clone())])));
    wrong.into_iter().map(|(what, command)| (what, format!("{before}{command}{after}"))).collect()
}

/// What is wrong with a stream, and its bytes.
pub type Malformed = (String, Vec<u8>);

/// Of one transaction.
fn of_one(r: &mut Random, all: &[Written], at: usize) -> Vec<Malformed> {
    let (before, w, after) = (text(&all[..at]), &all[at], text(&all[at + 1..]));
    let n = r.below(w.keys.len() as u64) as usize;
    let command = r.below(w.keys.len() as u64 + 1) as usize;
    let mut wrong = numbers(w, n);
    wrong.extend(write_sets(w, n).into_iter().chain(orders(w, n)).map(|(what, text)| (what.to_string(), text)));
    wrong.extend(names(w, command));
    wrong.extend(commands(w, command, r));
    let around = |text: String| [&before[..], text.as_bytes(), &after[..]].concat();
    wrong.into_iter().map(|(what, text)| (what, around(text))).collect()
}

/// Of the order of transactions: the ids, which must ascend.
fn of_several(all: &[Written], at: usize) -> Vec<Malformed> {
    let (x, y) = (&all[at], &all[at + 1]);
    let (mut swapped, mut newest_first) = (all.to_vec(), all.to_vec());
    swapped.swap(at, at + 1);
    newest_first.reverse();
    let between = |list: Vec<Command>| [text(&all[..at]), resp(&list).into_bytes(), text(&all[at + 2..])].concat();
    let (mut a, mut b) = (x.commands(), y.commands());
    let commits = [a.pop().expect("a commit"), b.pop().expect("a commit")];
    vec![
        ("newest first".to_string(), text(&newest_first)),
        ("two in the other order".to_string(), text(&swapped)),
        ("commits after the versions of both".to_string(), between([a.clone(), b.clone(), commits.to_vec()].concat())),
        ("commits crossed".to_string(), between([a, vec![commits[1].clone()], b, vec![commits[0].clone()]].concat())),
        ("the stream twice".to_string(), text(all).repeat(2)),
    ]
}

/// Clock and ticket 0: of the oldest, so that ids ascend.
fn zeros(all: &[Written]) -> Vec<Malformed> {
    let first = |w: Written| [text(&[w]), text(&all[1..])].concat();
    vec![
        ("clock 0".to_string(), first(all[0].with(|w| w.clock = "0".to_string()))),
        ("ticket 0".to_string(), first(all[0].with(|w| w.txn = "0".to_string()))),
    ]
}

/// Every wrong thing, at a transaction of these.
pub fn malformed(r: &mut Random, all: &[Written], at: usize) -> Vec<Malformed> {
    let mut wrong = of_one(r, all, at);
    wrong.extend(zeros(all));
    if at + 1 < all.len() {
        wrong.extend(of_several(all, at));
    }
    wrong
}

/// So many transactions of one key, with ascending clocks and numbers in no order.
pub fn ascending(r: &mut Random, count: usize) -> Vec<Written> {
    let (first, step, key) = (1 + r.below(100), 1 + r.below(1 << 50), r.below(64) as u8);
    // odd, so that the numbers are different
    let factor = r.next() as u32 | 1;
    (0..count).map(|n| Written::of(first + step * n as u64, (1 + n as u32).wrapping_mul(factor), [(key, n as u64)].into_iter())).collect()
}

/// The same, where one has the number of an earlier one.
pub fn repeated(r: &mut Random, count: usize, earlier: usize, later: usize) -> Vec<u8> {
    let mut all = ascending(r, count);
    all[later].txn = all[earlier].txn.clone();
    text(&all)
}
