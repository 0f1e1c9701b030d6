//! Two shops' logs. Our own day, written down as it goes: a line for each put that is kept, each version that is read and each transaction that is done.
//! Then the partner's, where a reader has seen half of a reprint. Both are judged by the same rule.

use gorehimu::{check_log, Answer, Desk, Request};

/// A desk that writes its log.
struct Noting {
    desk: Desk,
    log: String,
}

impl Noting {
    fn ask(&mut self, request: Request) -> Answer {
        let answer = self.desk.call(request);
        match (request, answer) {
            (Request::Put(transaction, key, _), Answer::Kept) => self.log += &format!("write,{transaction},{key},0,0\n"),
            (Request::Get(transaction, key), Answer::Version { clock, transaction: author, .. }) => self.log += &format!("read,{transaction},{key},{clock},{author}\n"),
            (_, Answer::Done { clock, transaction }) => self.log += &format!("commit,{transaction},0,{clock},0\n"),
            _ => {}
        }
        answer
    }

    /// A ticket that changes the counter, key 0, and the stock, key 1, together.
    fn reprint(&mut self, transaction: u32, clock: u64) {
        self.ask(Request::Start(transaction));
        self.ask(Request::Put(transaction, 0, 100 * u64::from(transaction)));
        self.ask(Request::Put(transaction, 1, 900 - 100 * u64::from(transaction)));
        self.ask(Request::Commit(transaction, clock));
        while !matches!(self.ask(Request::Step(transaction)), Answer::Done { .. }) {}
    }
}

fn told(whose: &str, log: &str) {
    println!("{whose}:\n{}\n{}", log.trim_end(), check_log(log.as_bytes()));
}

fn main() {
    let mut ours = Noting { desk: Desk::new(), log: String::new() };
    ours.reprint(1, 100);
    ours.ask(Request::Start(3));
    ours.ask(Request::Get(3, 0));
    ours.reprint(2, 101);
    ours.ask(Request::Get(3, 1));
    told("ours", &ours.log);

    let partner = "write,1,0,0,0\nwrite,1,1,0,0\ncommit,1,0,100,0\nwrite,2,0,0,0\nwrite,2,1,0,0\ncommit,2,0,101,0\nread,3,0,101,2\nread,3,1,100,1\n";
    told("the partner's", partner);
    told("the partner's, cut short in a line", &partner[..partner.len() - 3]);
}
