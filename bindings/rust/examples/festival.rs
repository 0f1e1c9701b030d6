//! The week of the festival. A shop with a narrow store takes a job that changes 16 records: it moves out to a wide store, power goes while the job
//! closes, and it is done again. It moves back when smaller jobs have put those records anew and the big one is swept. Each store has a disk, an array
//! beside it: each record goes there, 24 bytes at a time, when it is written and before the next request.

use gorehimu::{move_out, Answer, Desk, DeskOver, WideDesk, RECORD, STORE, WIDE_STORE};
use std::ops::Range;

/// Brings record `n` of a slot to the disk, of either kind.
fn keep<const BYTES: usize>(desk: &DeskOver<BYTES>, disk: &mut [u8; BYTES], slot: u8, n: u8) {
    if let (Some(place), Some(record)) = (DeskOver::<BYTES>::record_place(slot, n), desk.record(slot, n)) {
        disk[place..place + RECORD].copy_from_slice(record);
    }
}

/// Starts a job and puts its keys, as far as they are kept.
fn put_keys<const BYTES: usize>(desk: &mut DeskOver<BYTES>, transaction: u32, keys: Range<u8>) {
    let mut answer = desk.start(transaction);
    let mut kept = 0;
    for key in keys.clone() {
        answer = desk.put(transaction, key, 100 * u64::from(transaction) + u64::from(key));
        if answer != Answer::Kept {
            break;
        }
        kept += 1;
    }
    println!("job {transaction}, keys {keys:?}, {kept} kept: {answer:?}");
}

/// Commits a job, and steps so many times, or until it is acknowledged.
fn close<const BYTES: usize>(desk: &mut DeskOver<BYTES>, disk: &mut [u8; BYTES], transaction: u32, clock: u64, steps: u8) {
    let mut answer = desk.commit(transaction, clock);
    let Answer::Closing(slot) = answer else { return println!("{answer:?}") };
    for n in 1..=steps {
        answer = desk.step(transaction);
        match answer {
            Answer::Stored(_) => keep(desk, disk, slot, n),
            Answer::Slipped(_) => keep(desk, disk, slot, 0),
            _ => break,
        }
    }
    println!("slot {slot}, the last step: {answer:?}");
}

/// A whole job: none has more than 18 steps.
fn job<const BYTES: usize>(desk: &mut DeskOver<BYTES>, disk: &mut [u8; BYTES], transaction: u32, keys: Range<u8>, clock: u64) {
    put_keys(desk, transaction, keys);
    close(desk, disk, transaction, clock, 18);
}

fn main() {
    let mut disk = Box::new([0; STORE]);
    let mut desk = Desk::new();
    job(&mut desk, &mut disk, 1, 0..2, 100);
    job(&mut desk, &mut disk, 2, 2..4, 101);

    // the festival's job has 16 keys: a narrow store refuses the ninth
    put_keys(&mut desk, 3, 0..16);

    // out. Power goes when half of the target is on its disk: the narrow store is still the shop's, and the move is begun again
    let mut wide_disk = Box::new([0; WIDE_STORE]);
    let mut target = Box::new([0; WIDE_STORE]);
    println!("move out: {:?}", move_out(desk.store(), &mut target[..]));
    wide_disk[..WIDE_STORE / 2].copy_from_slice(&target[..WIDE_STORE / 2]);
    let (desk, found) = Desk::recover(disk);
    println!("narrow: {found:?}");
    let Ok(wide) = WideDesk::moved_from(desk.store()) else { panic!("the move is not refused") };
    assert_eq!(wide.store(), &*target);
    wide_disk.copy_from_slice(wide.store());
    // from here on the wide store is the shop's, and a note beside the disks says so

    // the job again. Power goes when 10 of its records are on the disk: nothing of it is found
    let (mut wide, found) = WideDesk::recover(wide_disk.clone());
    println!("wide: {found:?} {:?}", wide.commit(1, 100));
    put_keys(&mut wide, 3, 0..16);
    close(&mut wide, &mut wide_disk, 3, 102, 10);
    let (mut wide, found) = WideDesk::recover(wide_disk.clone());
    println!("wide: {found:?} {:?}", wide.commit(3, 102));
    job(&mut wide, &mut wide_disk, 3, 0..16, 102);

    // back: not while it is there. Smaller jobs put its keys anew, and the old ones are swept; each record cleared goes to the disk, oldest first
    println!("move back: {:?}", Desk::moved_from(wide.store()).err().and_then(Answer::refusal));
    job(&mut wide, &mut wide_disk, 4, 0..8, 103);
    job(&mut wide, &mut wide_disk, 5, 8..16, 104);
    println!("{:?}", wide.sweep(64));
    while let Some(slot) = wide.cleared(&wide_disk) {
        keep(&wide, &mut wide_disk, slot, 0);
        println!("brought {slot}");
    }
    assert_eq!(wide.store(), &*wide_disk);
    let Ok(desk) = Desk::moved_from(wide.store()) else { panic!("the move is not refused") };
    let disk = Box::new(*desk.store());

    // from here on the narrow store is the shop's again
    let (mut desk, found) = Desk::recover(disk);
    println!("narrow: {found:?}");
    desk.start(6);
    println!("{:?} {:?}", desk.get(6, 0), desk.get(6, 15));
}
