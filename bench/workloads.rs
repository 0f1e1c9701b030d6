//! Three whole workloads: the paper's transaction (section 6.1.2: two functions, each one write and two reads) over 64 keys with a Zipf
//! distribution, one client; a run sheet of a million lines; and another shop's log of a million lines. For the proved library through its C
//! interface and the proved programs, for the plain Rust versions, and for what a shop would use instead of the store, SQLite in memory and Redis on
//! loopback. The same keys in the same order for each. Built with `--cfg sqlite` where that library is there; Redis is asked at the port that the
//! environment's REDIS_PORT names. Alternating rounds, the least time of each. Arguments: the proved program for sheets, the plain one; the proved
//! program for logs, the plain one.

mod log;
#[path = "../tests/model.rs"]
#[allow(dead_code)]
mod model;
#[path = "../tests/random.rs"]
mod random;

use log::Verdict;
use model::{Answer, Station, STORE};
use random::Random;
use std::collections::BTreeMap;
use std::hint::black_box;
use std::io::{BufReader, Read, Write};
use std::net::TcpStream;
use std::time::Instant;

const KEYS: usize = 64;
const IMAGE: usize = 4552;

extern "C" {
    fn gorehimu_empty(image: *mut u8, image_len: usize) -> u32;
    fn gorehimu_run(
        image: *mut u8,
        image_len: usize,
        store: *mut u8,
        store_len: usize,
        requests: *const u8,
        requests_len: usize,
        answers: *mut u8,
        answers_len: usize,
    ) -> u32;
    fn gorehimu_check_log(log: *const u8, log_len: usize, answer: *mut u8, answer_len: usize) -> u32;
}

/// Keys by a Zipf distribution: rank r with a weight of 1 / r^s.
struct Zipf {
    sums: Vec<f64>,
    state: u64,
}

impl Zipf {
    fn new(s: f64) -> Zipf {
        let mut sum = 0.0;
        let sums = (1..=KEYS).map(|r| {
            sum += 1.0 / (r as f64).powf(s);
            sum
        });
        Zipf { sums: sums.collect(), state: 88172645463325252 }
    }

    fn key(&mut self) -> u8 {
        self.state ^= self.state << 13;
        self.state ^= self.state >> 7;
        self.state ^= self.state << 17;
        let x = (self.state >> 11) as f64 / (1u64 << 53) as f64 * self.sums[KEYS - 1];
        self.sums.iter().position(|s| x < *s).unwrap_or(KEYS - 1) as u8
    }
}

/// Two reads, a write, two reads, a write.
struct Job {
    reads: [u8; 4],
    writes: [(u8, u64); 2],
}

fn jobs(s: f64, n: usize) -> Vec<Job> {
    let mut z = Zipf::new(s);
    (0..n)
        .map(|i| Job { reads: [z.key(), z.key(), z.key(), z.key()], writes: [(z.key(), i as u64 + 1), (z.key(), i as u64 + 2)] })
        .collect()
}

// ── the client: what it asks, in crossings of some transactions each ──

#[derive(Clone, Copy)]
struct Call {
    verb: u8,
    txn: u32,
    key: u8,
    number: u64,
}

fn run(s: &mut Station, store: &mut [u8], c: &Call) -> Answer {
    match c.verb {
        1 => s.start(c.txn),
        2 => s.put(c.txn, c.key, c.number),
        3 => s.get(store, c.txn, c.key),
        4 => s.commit(c.txn, c.number),
        5 => s.step(store, c.txn),
        _ => s.collect(store, c.key),
    }
}

/// The client knows which slot has the newest version of each key, and so which slots it may collect. Where slots become few it writes
/// eight keys anew, each the last one of its slot.
struct Client {
    station: Station,
    store: Vec<u8>,
    txn: u32,
    newest: [Option<(u8, u64)>; KEYS],
    keys: [u8; 64],
    calls: Vec<Call>,
}

impl Client {
    fn new() -> Client {
        Client { station: Station::empty(), store: vec![0; STORE], txn: 0, newest: [None; KEYS], keys: [0; 64], calls: Vec::new() }
    }

    fn call(&mut self, verb: u8, key: u8, number: u64) -> Answer {
        let c = Call { verb, txn: if verb == 7 { 0 } else { self.txn }, key, number };
        self.calls.push(c);
        run(&mut self.station, &mut self.store, &c)
    }

    fn written(&mut self, slot: u8, key: u8, value: u64) {
        if let Some((before, _)) = self.newest[usize::from(key)].replace((slot, value)) {
            self.keys[usize::from(before)] -= 1;
        }
        self.keys[usize::from(slot)] += 1;
    }

    /// Reads, then writes; in two halves where there are two writes.
    fn transaction(&mut self, reads: &[u8], writes: &[(u8, u64)]) {
        self.txn += 1;
        self.call(1, 0, 0);
        let half = reads.len() / writes.len();
        for (i, w) in writes.iter().enumerate() {
            for k in &reads[half * i..half * i + half] {
                self.call(3, *k, 0);
            }
            self.call(2, w.0, w.1);
        }
        let clock = u64::from(self.txn);
        let Answer::Closing(slot) = self.call(4, 0, clock) else { panic!("no slot is free") };
        while !matches!(self.call(5, 0, 0), Answer::Done(_)) {}
        for w in writes {
            self.written(slot, w.0, w.1);
        }
    }

    fn collect(&mut self) {
        for d in 0..64 {
            if self.station.entries[usize::from(d)].keys != 0 && self.keys[usize::from(d)] == 0 {
                assert!(matches!(self.call(7, d, 0), Answer::Collected(_)));
            }
        }
    }

    fn make_room(&mut self, slots: usize) {
        self.collect();
        while self.station.entries.iter().filter(|e| e.keys == 0).count() < slots {
            let alone = |k: &u8| self.newest[usize::from(*k)].filter(|n| self.keys[usize::from(n.0)] == 1).map(|n| (*k, n.1));
            let again: Vec<(u8, u64)> = (0..KEYS as u8).filter_map(|k| alone(&k)).take(8).collect();
            self.transaction(&[], &again);
            self.collect();
        }
    }
}

/// The calls of each crossing.
fn crossings(jobs: &[Job], together: usize) -> Vec<Vec<Call>> {
    let mut client = Client::new();
    jobs.chunks(together)
        .map(|some| {
            client.make_room(together + 1);
            some.iter().for_each(|j| client.transaction(&j.reads, &j.writes));
            std::mem::take(&mut client.calls)
        })
        .collect()
}

fn bytes(calls: &[Call]) -> Vec<u8> {
    let mut out = Vec::new();
    for c in calls {
        out.extend([c.verb, c.key, 0, 0]);
        out.extend(c.txn.to_le_bytes());
        out.extend(c.number.to_le_bytes());
    }
    out
}

// ── the proved library and the plain version; how many transactions were acknowledged ──

fn proved(crossings: &[Vec<u8>]) -> u64 {
    let (mut image, mut store, mut answers) = (vec![0; IMAGE], vec![0; STORE], vec![0; 32 * 1024]);
    unsafe { gorehimu_empty(image.as_mut_ptr(), image.len()) };
    let mut done = 0;
    for out in crossings {
        let n = 2 * out.len();
        let code = unsafe {
            gorehimu_run(image.as_mut_ptr(), image.len(), store.as_mut_ptr(), store.len(), out.as_ptr(), out.len(), answers.as_mut_ptr(), n)
        };
        assert_eq!(code, 0);
        done += answers[..n].iter().step_by(32).filter(|k| **k == 9).count() as u64;
    }
    done
}

fn plain(crossings: &[Vec<Call>]) -> u64 {
    let (mut s, mut store) = (Station::empty(), vec![0; STORE]);
    let mut done = 0;
    for c in crossings.iter().flatten() {
        done += u64::from(matches!(run(&mut s, &mut store, c), Answer::Done(_)));
    }
    done
}

// ── a sheet: transactions of two reads and two writes over 24 keys, collects, some cuts and malformed lines ──

fn sheet(lines: usize) -> (Vec<u8>, Vec<Job>) {
    let mut state: u64 = 88172645463325252;
    let mut below = |n: u64| {
        state ^= state << 13;
        state ^= state >> 7;
        state ^= state << 17;
        (state >> 33) % n
    };
    let (mut text, mut n, mut jobs) = (Vec::new(), 0, Vec::new());
    let mut txn = 0;
    while n < lines {
        txn += 1;
        let k: [u8; 4] = std::array::from_fn(|_| below(24) as u8);
        let j = Job { reads: [k[0], k[1], k[0], k[1]], writes: [(k[2], txn), (k[3], txn)] };
        let mut line = |l: String| {
            text.extend(l.as_bytes());
            text.push(b'\n');
            n += 1;
        };
        line(format!("start,{txn},0,0"));
        line(format!("get,{txn},{},0", k[0]));
        line(format!("get,{txn},{},0", k[1]));
        line(format!("put,{txn},{},{txn}", k[2]));
        line(format!("put,{txn},{},{txn}", k[3]));
        line(format!("commit,{txn},0,{txn}"));
        (0..if k[2] == k[3] { 3 } else { 4 }).for_each(|_| line(format!("step,{txn},0,0")));
        (0..3).for_each(|_| line(format!("collect,0,{},0", below(64))));
        if below(500) == 0 {
            line("cut,0,0,0".to_string());
        }
        if below(100) == 0 {
            line(format!("put,{txn},x,0"));
        }
        jobs.push(j);
    }
    (text, jobs)
}

// ── a log: open writers, authors of eight keys each, readers of sixteen; then their reads and writes again and again, and a last line that is bad ──

struct Shop {
    writers: u32,
    authors: u32,
    readers: u32,
    /// Of the lines again, one in so many is a write.
    writes: u64,
    /// The least transaction and clock.
    txn: u32,
    clock: u64,
}

/// Numbers of a day.
const TYPICAL: Shop = Shop { writers: 8, authors: 40, readers: 16, writes: 5, txn: 1001, clock: 32400 };
/// All lines again are reads; the readers, and the two authors whose sixteen keys each of them has read, are the last of the 64; the greatest numbers.
const WORST: Shop = Shop { writers: 54, authors: 2, readers: 8, writes: u64::MAX, txn: u32::MAX - 63, clock: u64::MAX - 1 };

impl Shop {
    fn writes(&self) -> Vec<String> {
        (0..8 * self.writers).map(|n| format!("write,{},{},0,0", self.txn + n / 8, n % 8)).collect()
    }

    /// What the authors write, and their commits; the newest version of each key.
    fn authors(&self, lines: &mut Vec<String>) -> BTreeMap<u32, (u64, u32)> {
        let mut newest = BTreeMap::new();
        for n in 0..self.authors {
            let (txn, clock, first) = (self.txn + self.writers + n, self.clock + u64::from(n), 8 * n % 57);
            for key in first..first + 8 {
                lines.push(format!("write,{txn},{key},0,0"));
                newest.insert(key, (clock, txn));
            }
            lines.push(format!("commit,{txn},0,{clock},0"));
        }
        newest
    }

    /// Sixteen keys each, at the newest versions.
    fn reads(&self, r: &mut Random, newest: &BTreeMap<u32, (u64, u32)>) -> Vec<String> {
        let mut lines = Vec::new();
        for n in 0..self.readers {
            let (txn, first) = (self.txn + self.writers + self.authors + n, r.below(newest.len() as u64) as usize);
            lines.extend(newest.iter().cycle().skip(first).take(16).map(|(key, (clock, author))| format!("read,{txn},{key},{clock},{author}")));
        }
        lines
    }

    fn log(&self, lines: usize) -> Vec<u8> {
        let (mut r, writes) = (Random(1), self.writes());
        let mut log = writes.clone();
        let newest = self.authors(&mut log);
        let reads = self.reads(&mut r, &newest);
        log.extend(reads.iter().cloned());
        while log.len() < lines - 1 {
            let list = if r.one_in(self.writes) { &writes } else { &reads };
            log.push(list[r.below(list.len() as u64) as usize].clone());
        }
        // a second commit
        log.push(format!("commit,{},0,{},0", self.txn + self.writers, self.clock));
        (log.join("\n") + "\n").into_bytes()
    }
}

/// Runs a program over an input and hands back what it wrote.
fn run_program(program: &str, path: &str) -> Vec<u8> {
    let input = std::fs::File::open(path).unwrap();
    let out = std::process::Command::new(program).stdin(input).output().unwrap();
    assert!(out.status.success(), "{program}");
    out.stdout
}

// ── SQLite, in memory: a table of 64 rows, a transaction with prepared statements ──

#[cfg(sqlite)]
mod sqlite {
    use super::Job;
    use std::ffi::{c_char, c_int, c_void, CString};
    use std::ptr::null_mut;

    #[link(name = "sqlite3")]
    extern "C" {
        fn sqlite3_open(name: *const c_char, db: *mut *mut c_void) -> c_int;
        fn sqlite3_close(db: *mut c_void) -> c_int;
        fn sqlite3_exec(db: *mut c_void, sql: *const c_char, f: *mut c_void, a: *mut c_void, e: *mut c_void) -> c_int;
        fn sqlite3_prepare_v2(db: *mut c_void, sql: *const c_char, n: c_int, s: *mut *mut c_void, tail: *mut c_void) -> c_int;
        fn sqlite3_bind_int64(s: *mut c_void, i: c_int, x: i64) -> c_int;
        fn sqlite3_step(s: *mut c_void) -> c_int;
        fn sqlite3_reset(s: *mut c_void) -> c_int;
        fn sqlite3_finalize(s: *mut c_void) -> c_int;
        fn sqlite3_column_int64(s: *mut c_void, i: c_int) -> i64;
    }

    /// `reads` of each half of a transaction: 2, or 1 for a sheet's.
    pub fn run(jobs: &[Job], reads: usize) -> u64 {
        let text = |s: &str| CString::new(s).unwrap();
        let mut sum = 0;
        unsafe {
            let mut db = null_mut();
            assert_eq!(sqlite3_open(text(":memory:").as_ptr(), &mut db), 0);
            let exec = |sql: &str| assert_eq!(sqlite3_exec(db, text(sql).as_ptr(), null_mut(), null_mut(), null_mut()), 0);
            exec("create table page (key integer primary key, value integer not null)");
            let prepare = |sql: &str| {
                let mut s = null_mut();
                assert_eq!(sqlite3_prepare_v2(db, text(sql).as_ptr(), -1, &mut s, null_mut()), 0);
                s
            };
            let (begin, commit) = (prepare("begin"), prepare("commit"));
            let get = prepare("select value from page where key = ?1");
            let put = prepare("insert into page values (?1, ?2) on conflict (key) do update set value = ?2");
            let plain = |s| {
                sqlite3_step(s);
                sqlite3_reset(s);
            };
            for j in jobs {
                plain(begin);
                for half in 0..2 {
                    for k in &j.reads[reads * half..reads * half + reads] {
                        sqlite3_bind_int64(get, 1, i64::from(*k));
                        if sqlite3_step(get) == 100 {
                            sum += sqlite3_column_int64(get, 0) as u64 % 2;
                        }
                        sqlite3_reset(get);
                    }
                    sqlite3_bind_int64(put, 1, i64::from(j.writes[half].0));
                    sqlite3_bind_int64(put, 2, j.writes[half].1 as i64);
                    plain(put);
                }
                plain(commit);
            }
            for s in [begin, commit, get, put] {
                sqlite3_finalize(s);
            }
            sqlite3_close(db);
        }
        sum
    }
}

// ── Redis, on loopback: the reads of a function in one message, the writes in a MULTI at the end ──

struct Redis {
    out: TcpStream,
    input: BufReader<TcpStream>,
}

impl Redis {
    fn open(port: &str) -> Option<Redis> {
        let out = TcpStream::connect(format!("127.0.0.1:{port}")).ok()?;
        out.set_nodelay(true).ok()?;
        Some(Redis { input: BufReader::new(out.try_clone().ok()?), out })
    }

    fn send(&mut self, commands: &[Vec<String>]) {
        let mut text = String::new();
        for c in commands {
            text += &format!("*{}\r\n", c.len());
            for word in c {
                text += &format!("${}\r\n{word}\r\n", word.len());
            }
        }
        self.out.write_all(text.as_bytes()).unwrap();
    }

    fn line(&mut self) -> String {
        let mut line = Vec::new();
        let mut b = [0];
        while !line.ends_with(b"\r\n") {
            self.input.read_exact(&mut b).unwrap();
            line.push(b[0]);
        }
        String::from_utf8_lossy(&line[..line.len() - 2]).into_owned()
    }

    /// One reply of any kind.
    fn reply(&mut self) {
        let head = self.line();
        let n: i64 = head[1..].parse().unwrap_or(0);
        match &head[..1] {
            "$" if n >= 0 => {
                self.line();
            }
            "*" => (0..n).for_each(|_| self.reply()),
            _ => {}
        }
    }

    fn run(&mut self, jobs: &[Job], reads: usize) -> u64 {
        let words = |list: &[&str]| list.iter().map(|w| w.to_string()).collect::<Vec<String>>();
        for j in jobs {
            for half in 0..2 {
                let gets: Vec<Vec<String>> = j.reads[reads * half..reads * half + reads].iter().map(|k| words(&["GET", &k.to_string()])).collect();
                self.send(&gets);
                gets.iter().for_each(|_| self.reply());
            }
            let set = |w: (u8, u64)| words(&["SET", &w.0.to_string(), &w.1.to_string()]);
            self.send(&[words(&["MULTI"]), set(j.writes[0]), set(j.writes[1]), words(&["EXEC"])]);
            (0..4).for_each(|_| self.reply());
        }
        jobs.len() as u64
    }
}

/// Microseconds for one of n, the least of several rounds.
fn timed<T>(best: &mut f64, n: usize, f: impl FnOnce() -> T) -> T {
    let t = Instant::now();
    let x = black_box(f());
    *best = best.min(t.elapsed().as_secs_f64() * 1e6 / n as f64);
    x
}

fn other(x: f64) -> String {
    if x == f64::MAX { "not there".to_string() } else { format!("{x:.1}") }
}

fn transactions(redis: &mut Option<Redis>) {
    println!("| the paper's transaction | proved, µs | Rust, µs | ratio | SQLite, µs | Redis, µs |");
    println!("|---|---|---|---|---|---|");
    for (s, together) in [(1.0, 1), (1.5, 1), (1.0, 8), (1.5, 8)] {
        let list = jobs(s, 20000);
        let calls = crossings(&list, together);
        let requests: Vec<Vec<u8>> = calls.iter().map(|c| bytes(c)).collect();
        let (mut a, mut b, mut c, mut d) = (f64::MAX, f64::MAX, f64::MAX, f64::MAX);
        for _ in 0..5 {
            let x = timed(&mut a, list.len(), || proved(&requests));
            let y = timed(&mut b, list.len(), || plain(&calls));
            assert_eq!(x, y, "the two versions differ");
            assert!(x >= list.len() as u64);
            #[cfg(sqlite)]
            timed(&mut c, list.len(), || sqlite::run(&list, 2));
            if let Some(r) = redis {
                let few = &list[..2000];
                timed(&mut d, few.len(), || r.run(few, 2));
            }
        }
        let many = if together == 1 { String::new() } else { format!(", {together} in a crossing") };
        println!("| Zipf {s:.1}{many} | {a:.1} | {b:.1} | {:.2} | {} | {} |", a / b, other(c), other(d));
    }
}

fn million(programs: &[String], redis: &mut Option<Redis>) {
    let path = "target/million.csv";
    let (text, list) = sheet(1_000_000);
    std::fs::write(path, text).unwrap();
    let (mut a, mut b, mut c, mut d) = (f64::MAX, f64::MAX, f64::MAX, f64::MAX);
    for _ in 0..3 {
        let x = timed(&mut a, 1000, || run_program(&programs[0], path));
        let y = timed(&mut b, 1000, || run_program(&programs[1], path));
        assert!(x == y, "the two programs differ");
    }
    #[cfg(sqlite)]
    timed(&mut c, 1000, || sqlite::run(&list, 1));
    if let Some(r) = redis {
        let few = &list[..list.len() / 20];
        timed(&mut d, 50, || r.run(few, 1));
    }
    println!("| a sheet of a million lines | proved, ms | Rust, ms | ratio | SQLite, ms | Redis, ms |");
    println!("|---|---|---|---|---|---|");
    println!("| {} transactions | {a:.0} | {b:.0} | {:.2} | {} | {} |", list.len(), a / b, other(c), other(d));
}

/// What the library says of a log, as the plain version does.
fn checked(log: &[u8]) -> Verdict {
    let mut answer = [0; 32];
    assert_eq!(unsafe { gorehimu_check_log(log.as_ptr(), log.len(), answer.as_mut_ptr(), answer.len()) }, 0);
    let number = |n: usize| u64::from_le_bytes(answer[8 * n..8 * n + 8].try_into().unwrap());
    match number(0) {
        18 => Verdict::Clean,
        19 => Verdict::Bad(number(1)),
        _ => Verdict::Refused(number(1) as u8, number(2)),
    }
}

/// Milliseconds of the two, which must come to the same.
fn compare<T: PartialEq>(name: &str, mut proved: impl FnMut() -> T, mut plain: impl FnMut() -> T) {
    let (mut a, mut b) = (f64::MAX, f64::MAX);
    for _ in 0..7 {
        let x = timed(&mut a, 1000, &mut proved);
        let y = timed(&mut b, 1000, &mut plain);
        assert!(x == y, "{name}: the two versions differ");
    }
    println!("| {name} | {a:.0} | {b:.0} | {:.2} |", a / b);
}

fn logs(programs: &[String]) {
    println!("| a log of a million lines | proved, ms | Rust, ms | ratio |");
    println!("|---|---|---|---|");
    for (name, shop) in [("typical", TYPICAL), ("worst", WORST)] {
        let path = format!("target/log-{name}.csv");
        let text = shop.log(1_000_000);
        std::fs::write(&path, &text).unwrap();
        compare(&format!("the program, {name}"), || run_program(&programs[0], &path), || run_program(&programs[1], &path));
        compare(&format!("the function, {name}"), || checked(black_box(&text)), || log::verdict(black_box(&text)));
    }
}

fn main() {
    let programs: Vec<String> = std::env::args().skip(1).collect();
    assert_eq!(programs.len(), 4, "the proved program for sheets, the plain one; those for logs");
    let mut redis = std::env::var("REDIS_PORT").ok().and_then(|p| Redis::open(&p));
    transactions(&mut redis);
    println!();
    million(&programs[..2], &mut redis);
    println!();
    logs(&programs[2..]);
}
