//! Two jobs, a cut while the second closes, and the desk started again from its disk, an array beside the store: each record goes there, 24 bytes
//! at a time, when it is written and before the next request. Then a reader that is told which of its reads is in the way, and a sweep at shift change.

use gorehimu::{record_place, Answer, Desk, Request, RECORD, STORE};

struct Disk(Box<[u8; STORE]>);

impl Disk {
    fn keep(&mut self, desk: &Desk, slot: u8, n: u8) {
        if let (Some(place), Some(record)) = (record_place(slot, n), desk.record(slot, n)) {
            self.0[place..place + RECORD].copy_from_slice(record);
        }
    }
}

/// Steps until the transaction is acknowledged, each record brought to the disk; the answers.
fn close(desk: &mut Desk, disk: &mut Disk, transaction: u32, closing: Answer) -> Vec<Answer> {
    let mut answers = Vec::new();
    let Answer::Closing(slot) = closing else { return answers };
    let mut stored = 0;
    loop {
        let answer = desk.step(transaction);
        answers.push(answer);
        match answer {
            Answer::Stored(_) => {
                stored += 1;
                disk.keep(desk, slot, stored);
            }
            Answer::Slipped(_) => disk.keep(desk, slot, 0),
            _ => return answers,
        }
    }
}

fn main() {
    let mut disk = Disk(Box::new([0; STORE]));
    let mut desk = Desk::new();
    let answers = desk.run(&[Request::Start(1), Request::Put(1, 0, 400), Request::Put(1, 1, 7), Request::Commit(1, 100)]);
    println!("{answers:?}");
    for answer in close(&mut desk, &mut disk, 1, answers[3]) {
        println!("{answer:?}");
    }

    desk.start(2);
    desk.put(2, 1, 8);
    println!("{:?}", desk.commit(2, 101));
    println!("{:?}", desk.step(2));
    disk.keep(&desk, 62, 1);

    // power goes: the disk is what is left
    assert_eq!(desk.store(), &*disk.0);
    let (mut desk, found) = Desk::recover(disk.0.clone());
    println!("{found:?}");
    desk.start(3);
    println!("{:?} {:?}", desk.get(3, 0), desk.get(3, 1));
    println!("{:?} {:?}", desk.commit(1, 999), desk.commit(2, 101));
    println!("{:?} {:?}", desk.collect(63).refusal(), desk.commit(2, 101).refusal());

    // transaction 3 has read the counter; a job moves it and names a price for the first time: no price fits the counter that was read
    desk.start(4);
    desk.put(4, 1, 8);
    desk.put(4, 2, 250);
    let closing = desk.commit(4, 102);
    close(&mut desk, &mut disk, 4, closing);
    let answer = desk.get(3, 2);
    println!("{answer:?}");
    if let Answer::Nofit(in_the_way) = answer {
        desk.abort(3);
        desk.start(5);
        println!("{:?} {:?}", desk.get(5, in_the_way), desk.get(5, 2));
    }

    // shift change: two more jobs, then in one batch the reader goes and what is old is swept; the reader had kept the job that it read
    for (transaction, puts, clock) in [(6, [(0, 250), (1, 9)], 103), (7, [(2, 260), (3, 1)], 104)] {
        desk.start(transaction);
        for (key, value) in puts {
            desk.put(transaction, key, value);
        }
        let closing = desk.commit(transaction, clock);
        println!("{:?}", close(&mut desk, &mut disk, transaction, closing).last());
    }
    println!("{:?}", desk.run(&[Request::Abort(5), Request::Sweep(64)]));
    while let Some(slot) = desk.cleared(&disk.0) {
        disk.keep(&desk, slot, 0);
        println!("brought {slot}");
    }
    assert_eq!(desk.store(), &*disk.0);

    // the desk's clock was set back by an hour: a clock given is the least that is taken, so the price just made is the one read
    desk.start(8);
    desk.put(8, 2, 270);
    let closing = desk.commit(8, 45);
    println!("{:?}", close(&mut desk, &mut disk, 8, closing).last());
    desk.start(9);
    println!("{:?}", desk.get(9, 2));
    println!("{:?}", Desk::recover(disk.0).1);
}
