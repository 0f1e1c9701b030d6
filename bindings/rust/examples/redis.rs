//! A shop's records for the web desk: what is committed goes out as the commands that Redis takes, and comes back into another store.

use gorehimu::{export, import, Answer, Desk, STORE};

/// A ticket that changes the counter, key 0, and the stock, key 1, together.
fn reprint(desk: &mut Desk, transaction: u32, clock: u64) {
    desk.start(transaction);
    desk.put(transaction, 0, 100 * u64::from(transaction));
    desk.put(transaction, 1, 900 - 100 * u64::from(transaction));
    desk.commit(transaction, clock);
    while !matches!(desk.step(transaction), Answer::Done { .. }) {}
}

fn main() {
    let mut desk = Desk::new();
    reprint(&mut desk, 1, 100);
    reprint(&mut desk, 2, 101);
    let stream = export(desk.store()).expect("the store is sound");
    println!("exported, {} bytes:", stream.len());
    print!("{}", String::from_utf8_lossy(&stream).replace('\r', ""));

    // a stream that lost a byte is none, and the other store is not touched
    let mut store = Box::new([0; STORE]);
    if let Err(Answer::Refused { number, .. }) = import(&stream[..stream.len() - 1], &mut store[..]) {
        println!("without its last byte: refused,{number}");
    }
    let count = import(&stream, &mut store[..]).expect("it is a stream");
    println!("imported, {count} transactions");
    let (mut other, _) = Desk::recover(store);
    other.start(3);
    for key in 0..2 {
        if let Answer::Version { value, clock, transaction } = other.get(3, key) {
            println!("key {key}: {value}, by {transaction} at {clock}");
        }
    }
}
