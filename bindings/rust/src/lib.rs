//! Gorehimu from Rust: a small transactional store over 13,824 bytes, with read atomic isolation. The calls are the proved library's; this
//! wrapper only writes requests and reads answers.
//!
//! ```
//! use gorehimu::{Answer, Desk};
//!
//! let mut desk = Desk::new();
//! desk.start(1);
//! desk.put(1, 0, 400);
//! assert!(matches!(desk.commit(1, 100), Answer::Closing { .. }));
//! while !matches!(desk.step(1), Answer::Done { .. }) {}
//!
//! // power goes: only the store is left
//! let (mut desk, found) = Desk::recover(desk.into_store());
//! assert_eq!(found, Answer::Found(1));
//! desk.start(2);
//! assert_eq!(desk.get(2, 0), Answer::Version { value: 400, clock: 100, transaction: 1 });
//! ```
//!
//! A [`Desk`] has a narrow store, of 64 slots, and a transaction writes at most 8 keys; a [`WideDesk`] has a wide one, of 32 slots and 13,056 bytes, and a
//! transaction writes at most 16. [`WideDesk::moved_from`] and [`Desk::moved_from`] go from one to the other.
//!
//! [`check_log`] judges another shop's log by the same rule that this store keeps. [`export`] and [`import`] carry what is committed to Redis and back.

#![warn(missing_docs)]

mod log;
mod transfer;

pub use log::{check_log, Verdict};
pub use transfer::{export, import};

/// The bytes of a store, a narrow one: 64 slots of 9 records.
pub const STORE: usize = 13824;

/// The bytes of a wide store: 32 slots of 17 records.
pub const WIDE_STORE: usize = 13056;

/// The bytes of a station's image.
pub const IMAGE: usize = 4552;

/// The version of the image's format: an image is made and read by one version of the library. Versions 1 and 2 had 4,800
/// and 4,544 bytes (write sets as lists); an image of another length is refused by its length. So after an update recover the station from the
/// store, whose format is the same, with [`Desk::recover`] or [`WideDesk::recover`]: what was live is then dropped, as after a loss of power.
///
/// ```
/// assert_eq!(gorehimu::IMAGE_VERSION, 3);
/// assert!(!gorehimu::empty(&mut [0; 4800]));
/// assert!(!gorehimu::empty(&mut [0; 4544]));
/// ```
pub const IMAGE_VERSION: u32 = 3;

/// The bytes of a record.
pub const RECORD: usize = 24;

const REQUEST: usize = 16;
const ANSWER: usize = 32;

/// Where record `n` of a slot begins in a narrow store; none where there is no such record (slot above 63, `n` above 8). Record 0 is the commit
/// record, 1 to 8 are version records. [`DeskOver::record_place`] is the same for either kind.
///
/// ```
/// assert_eq!(gorehimu::record_place(63, 0), Some(13608));
/// assert_eq!(gorehimu::record_place(64, 0), None);
/// assert_eq!(gorehimu::record_place(0, 9), None);
/// ```
pub fn record_place(slot: u8, n: u8) -> Option<usize> {
    NARROW.place(slot, n)
}

/// What a store's kind says: its slots, the records of each, the mark of a commit record, the empty station.
struct Kind {
    slots: u8,
    records: u8,
    mark: u8,
    empty: fn(&mut [u8]) -> bool,
}

const NARROW: Kind = Kind { slots: 64, records: 9, mark: 1, empty };
const WIDE: Kind = Kind { slots: 32, records: 17, mark: 2, empty: empty_wide };

impl Kind {
    fn place(&self, slot: u8, n: u8) -> Option<usize> {
        (slot < self.slots && n < self.records).then(|| RECORD * (usize::from(self.records) * usize::from(slot) + usize::from(n)))
    }
}

mod raw {
    extern "C" {
        pub fn gorehimu_empty(image: *mut u8, image_len: usize) -> u32;
        pub fn gorehimu_empty_wide(image: *mut u8, image_len: usize) -> u32;
        pub fn gorehimu_call(
            image: *mut u8,
            image_len: usize,
            store: *mut u8,
            store_len: usize,
            request: *const u8,
            request_len: usize,
            answer: *mut u8,
            answer_len: usize,
        ) -> u32;
        pub fn gorehimu_run(
            image: *mut u8,
            image_len: usize,
            store: *mut u8,
            store_len: usize,
            requests: *const u8,
            requests_len: usize,
            answers: *mut u8,
            answers_len: usize,
        ) -> u32;
        pub fn gorehimu_move_out(
            narrow: *const u8,
            narrow_len: usize,
            wide: *mut u8,
            wide_len: usize,
            answer: *mut u8,
            answer_len: usize,
        ) -> u32;
        pub fn gorehimu_move_back(
            wide: *const u8,
            wide_len: usize,
            narrow: *mut u8,
            narrow_len: usize,
            answer: *mut u8,
            answer_len: usize,
        ) -> u32;
        pub fn gorehimu_check_log(log: *const u8, log_len: usize, answer: *mut u8, answer_len: usize) -> u32;
        pub fn gorehimu_export(
            store: *const u8,
            store_len: usize,
            target: *mut u8,
            target_len: usize,
            answer: *mut u8,
            answer_len: usize,
        ) -> u32;
        pub fn gorehimu_import(
            stream: *const u8,
            stream_len: usize,
            store: *mut u8,
            store_len: usize,
            answer: *mut u8,
            answer_len: usize,
        ) -> u32;
    }

    /// A move, an export or an import.
    pub type Move = unsafe extern "C" fn(*const u8, usize, *mut u8, usize, *mut u8, usize) -> u32;
}

/// Makes `image` the empty station; false, with nothing written, where its length is not [`IMAGE`].
pub fn empty(image: &mut [u8]) -> bool {
    unsafe { raw::gorehimu_empty(image.as_mut_ptr(), image.len()) == 0 }
}

/// Makes `image` the empty station of a wide store, likewise. The first byte of an image says which kind of store it is for.
///
/// ```
/// let mut image = [0; gorehimu::IMAGE];
/// assert!(gorehimu::empty_wide(&mut image));
/// assert_eq!(image[0], 2);
/// assert!(gorehimu::empty(&mut image));
/// assert_eq!(image[0], 1);
/// assert!(!gorehimu::empty_wide(&mut [0; 4544]));
/// ```
pub fn empty_wide(image: &mut [u8]) -> bool {
    unsafe { raw::gorehimu_empty_wide(image.as_mut_ptr(), image.len()) == 0 }
}

/// Copies what is committed in a narrow store into a wide one. Its committed slots, in ascending order, fill the target's from 0, with the transactions,
/// clocks and values that they had, and all else becomes zero, whatever the target held; the source is only read. The answer is [`Answer::Moved`], or
/// refused, and no byte written: [`Refusal::StoreLength`], [`Refusal::Damaged`] with the slot, [`Refusal::TooManySlots`].
///
/// The target is then to be brought to where it lasts, whole; until that is done the source is the store. Where power goes earlier, go on with the source,
/// or begin the move again: the target depends on the source alone. Afterwards start with [`WideDesk::recover`]: the history of the source goes on
/// there, what was live is dropped, and slots have other numbers. [`WideDesk::moved_from`] is the comfortable form.
///
/// ```
/// use gorehimu::{move_out, Answer, Desk, Refusal, WideDesk, STORE, WIDE_STORE};
///
/// let mut desk = Desk::new();
/// let mut commit = |transaction, key| {
///     desk.start(transaction);
///     desk.put(transaction, key, 400);
///     desk.commit(transaction, 100);
///     while !matches!(desk.step(transaction), Answer::Done { .. }) {}
///     *desk.store()
/// };
/// let narrow = commit(1, 0);
/// let mut wide = Box::new([255; WIDE_STORE]);
/// assert_eq!(move_out(&narrow, &mut wide[..]), Answer::Moved(1));
/// let moved = wide.clone();
/// assert_eq!(move_out(&narrow, &mut wide[..]), Answer::Moved(1));
/// assert_eq!(wide, moved);
///
/// // a refusal alters no byte
/// assert_eq!(move_out(&narrow[1..], &mut wide[..]).refusal(), Some(Refusal::StoreLength));
/// assert_eq!(move_out(&narrow, &mut [0; STORE]).refusal(), Some(Refusal::StoreLength));
/// assert_eq!(move_out(&[255; STORE], &mut wide[..]), Answer::Refused { number: 18, slot: 0 });
/// for key in 1..32 {
///     commit(u32::from(key) + 1, key);
/// }
/// let narrow = commit(33, 32);
/// assert_eq!(move_out(&narrow, &mut wide[..]).refusal(), Some(Refusal::TooManySlots));
/// assert_eq!(wide, moved);
/// assert_eq!(WideDesk::recover(wide).1, Answer::Found(1));
/// ```
pub fn move_out(narrow: &[u8], wide: &mut [u8]) -> Answer {
    moved(raw::gorehimu_move_out, narrow, wide)
}

/// Copies what is committed in a wide store into a narrow one, as [`move_out`] does the other way. It is refused with [`Refusal::StoreLength`],
/// [`Refusal::Damaged`] with the slot, [`Refusal::TooManyKeys`]. [`Desk::moved_from`] is the comfortable form.
///
/// ```
/// use gorehimu::{move_back, move_out, Answer, Desk, Refusal, STORE, WIDE_STORE};
///
/// let mut desk = Desk::new();
/// desk.start(1);
/// desk.put(1, 0, 400);
/// desk.commit(1, 100);
/// while !matches!(desk.step(1), Answer::Done { .. }) {}
///
/// // out and back: its slot was 63, and is 0
/// let (mut wide, mut narrow) = ([0; WIDE_STORE], [255; STORE]);
/// assert_eq!(move_out(desk.store(), &mut wide), Answer::Moved(1));
/// assert_eq!(move_back(&wide, &mut narrow), Answer::Moved(1));
/// assert_eq!(&narrow[..48], [desk.record(63, 0).unwrap(), desk.record(63, 1).unwrap()].concat());
/// assert!(narrow[48..].iter().all(|byte| *byte == 0));
/// assert_eq!(move_back(&narrow, &mut wide).refusal(), Some(Refusal::StoreLength));
/// ```
pub fn move_back(wide: &[u8], narrow: &mut [u8]) -> Answer {
    moved(raw::gorehimu_move_back, wide, narrow)
}

fn moved(by: raw::Move, source: &[u8], target: &mut [u8]) -> Answer {
    let mut answer = [0; ANSWER];
    let code = unsafe { by(source.as_ptr(), source.len(), target.as_mut_ptr(), target.len(), answer.as_mut_ptr(), answer.len()) };
    assert_eq!(code, 0, "the answer's length is right");
    Answer::read(&answer)
}

/// Carries out encoded requests over whatever bytes come; false, with nothing written, where a length is wrong. [`Desk`] is the comfortable form.
pub fn run(image: &mut [u8], store: &mut [u8], requests: &[u8], answers: &mut [u8]) -> bool {
    let code = unsafe {
        raw::gorehimu_run(
            image.as_mut_ptr(),
            image.len(),
            store.as_mut_ptr(),
            store.len(),
            requests.as_ptr(),
            requests.len(),
            answers.as_mut_ptr(),
            answers.len(),
        )
    };
    code == 0
}

/// Carries out one encoded request, likewise.
pub fn call(image: &mut [u8], store: &mut [u8], request: &[u8], answer: &mut [u8]) -> bool {
    let code = unsafe {
        raw::gorehimu_call(
            image.as_mut_ptr(),
            image.len(),
            store.as_mut_ptr(),
            store.len(),
            request.as_ptr(),
            request.len(),
            answer.as_mut_ptr(),
            answer.len(),
        )
    };
    code == 0
}

/// A call, for [`Desk::run`].
#[derive(Clone, Copy, Debug, PartialEq, Eq)]
pub enum Request {
    /// Makes a transaction live and open.
    Start(u32),
    /// Puts a value under a key of the transaction's write set, which has at most 8 keys, of a wide store 16: transaction, key (0 to 63), value.
    Put(u32, u8, u64),
    /// Reads a key: transaction, key.
    Get(u32, u8),
    /// Begins to close a transaction; again once it is committed, says so (a retry). The clock given, 1 to 2^64 - 1, is a lower bound: the one taken is that,
    /// or one more than the greatest of any entry or closing transaction, whichever is the greater. So a clock that was set back is no harm.
    /// [`Answer::Done`] says the one taken.
    Commit(u32, u64),
    /// Stores the next record of a closing transaction; the last step acknowledges.
    Step(u32),
    /// Forgets an open transaction.
    Abort(u32),
    /// Frees a slot whose entry is superseded and read by no one.
    Collect(u8),
    /// Drops the station and reads it off the store.
    Scan,
    /// Collects the oldest entries that may be collected, at most so many (1 to 64).
    Sweep(u64),
}

impl Request {
    /// The request as the library takes it.
    pub fn bytes(self) -> [u8; REQUEST] {
        let (verb, transaction, key, number) = match self {
            Request::Start(t) => (1, t, 0, 0),
            Request::Put(t, k, v) => (2, t, k, v),
            Request::Get(t, k) => (3, t, k, 0),
            Request::Commit(t, c) => (4, t, 0, c),
            Request::Step(t) => (5, t, 0, 0),
            Request::Abort(t) => (6, t, 0, 0),
            Request::Collect(d) => (7, 0, d, 0),
            Request::Scan => (8, 0, 0, 0),
            Request::Sweep(n) => (9, 0, 0, n),
        };
        let mut r = [0; REQUEST];
        r[0] = verb;
        r[1] = key;
        r[4..8].copy_from_slice(&transaction.to_le_bytes());
        r[8..].copy_from_slice(&number.to_le_bytes());
        r
    }
}

/// What came of a call.
#[derive(Clone, Copy, Debug, PartialEq, Eq)]
pub enum Answer {
    /// The transaction is live.
    Started,
    /// The value is in the write set.
    Kept,
    /// The value that this transaction put.
    Own(u64),
    /// A committed version; the key joins the read set.
    Version {
        /// Its value.
        value: u64,
        /// The clock of the transaction that wrote it.
        clock: u64,
        /// That transaction.
        transaction: u32,
    },
    /// No one has written the key.
    None,
    /// No version fits what was read before. The key is the one in the way, the lowest: this transaction has read it, and the newest version of the
    /// wanted key was written together with a newer one of it. Read again, it gives the same; so abort, start again, and read it first.
    Nofit(u8),
    /// The transaction closes in this slot: step until done.
    Closing(u8),
    /// Nothing was put: the transaction is over.
    Empty,
    /// The transaction is committed and acknowledged.
    Done {
        /// The clock that it took.
        clock: u64,
        /// Its number.
        transaction: u32,
    },
    /// The version record of this key was written: the nth such answer to a transaction since its closing, record n of the slot that closing gave.
    Stored(u8),
    /// The commit record was written, record 0 of this slot: the transaction is committed.
    Slipped(u8),
    /// The transaction is forgotten.
    Dropped,
    /// The entry of this transaction is gone, its slot free: record 0 of the slot asked was written.
    Collected {
        /// Its clock.
        clock: u64,
        /// Its number.
        transaction: u32,
    },
    /// How many transactions the store holds.
    Found(u8),
    /// Nothing was done, but that a refused scan leaves the empty station. [`Answer::refusal`] says why.
    Refused {
        /// 1 to 23, the number of a [`Refusal`].
        number: u8,
        /// The slot that is damaged, with 18.
        slot: u8,
    },
    /// So many entries are gone, their slots free: record 0 of each was written, oldest id first; [`Desk::cleared`] tells which. The limit or fewer: no
    /// other may be collected, or the commit record of the next is not the station's (a collect of it is refused with 17).
    Swept(u8),
    /// A move: so many committed slots of the source are in the target.
    Moved(u8),
}

/// Why a request, a move, an export or an import is refused, with its number. [`Refusal::Malformed`] comes before all others; of the rest, where several apply, the lowest.
///
/// ```
/// use gorehimu::{Desk, Refusal};
///
/// let mut desk = Desk::new();
/// assert_eq!(desk.put(1, 64, 5).refusal(), Some(Refusal::KeyRange));
/// assert_eq!(desk.start(1).refusal(), None);
/// assert_eq!(Refusal::KeyRange as u8, 4);
/// ```
#[derive(Clone, Copy, Debug, PartialEq, Eq)]
#[repr(u8)]
pub enum Refusal {
    /// Get, step, collect, sweep, scan: the store has not the bytes of its kind, [`STORE`] or [`WIDE_STORE`]; moves: one of the two has not; export,
    /// import: it has not those of a narrow one.
    StoreLength = 1,
    /// Every request but scan: the image is no sound station.
    Unsound = 2,
    /// Start, put, get, commit, step, abort: the transaction is 0.
    TransactionZero = 3,
    /// Put, get: the key is above 63.
    KeyRange = 4,
    /// Commit: the clock is 0.
    ClockZero = 5,
    /// Start: the transaction is live or held already.
    Taken = 6,
    /// Start: eight transactions are live.
    LiveFull = 7,
    /// Put, get, commit, step, abort: the transaction is not live (commit: nor held).
    NotLive = 8,
    /// Put, get, commit, abort: the transaction is closing.
    IsClosing = 9,
    /// Step: the transaction is open.
    NotClosing = 10,
    /// Put: the write set has 8 other keys, of a wide store 16.
    WritesFull = 11,
    /// Get: a version would be answered, and the read set has 16 other keys.
    ReadsFull = 12,
    /// Commit: the write set is not empty, and no slot of 64, of a wide store 32, is free: collect one, or sweep. Import: more than 64 transactions.
    SlotsFull = 13,
    /// Collect: the slot is above 63, of a wide store 31, or holds no entry.
    NotHeld = 14,
    /// Collect: the entry is the newest for a key that it wrote.
    Newest = 15,
    /// Collect: a live transaction has read the entry.
    IsRead = 16,
    /// Get, collect: the record in the store is not the station's: the store was changed from outside.
    RecordChanged = 17,
    /// Scan, and a move or an export of its source: a slot breaks the format's rules or has the transaction of a lower slot; the answer has the lowest such. A commit
    /// record of the other kind breaks them.
    Damaged = 18,
    /// No request: an unknown verb, or a byte that must be 0 is not.
    Malformed = 19,
    /// Sweep: the limit is 0 or above 64, of either kind.
    LimitRange = 20,
    /// Commit: the write set is not empty, and an entry or closing transaction has the last clock, 2^64 - 1: none is left.
    NoClock = 21,
    /// Move out: more than 32 slots are committed: collect some, or sweep, and move then.
    TooManySlots = 22,
    /// Move back: a write set has more than 8 keys: put them anew in smaller transactions, collect it, and move then.
    TooManyKeys = 23,
    /// Import: the bytes are no such stream, or not in its order, or have a transaction twice.
    NotAStream = 27,
}

impl Refusal {
    /// All of them, by number.
    pub const ALL: [Refusal; 24] = [
        Refusal::StoreLength,
        Refusal::Unsound,
        Refusal::TransactionZero,
        Refusal::KeyRange,
        Refusal::ClockZero,
        Refusal::Taken,
        Refusal::LiveFull,
        Refusal::NotLive,
        Refusal::IsClosing,
        Refusal::NotClosing,
        Refusal::WritesFull,
        Refusal::ReadsFull,
        Refusal::SlotsFull,
        Refusal::NotHeld,
        Refusal::Newest,
        Refusal::IsRead,
        Refusal::RecordChanged,
        Refusal::Damaged,
        Refusal::Malformed,
        Refusal::LimitRange,
        Refusal::NoClock,
        Refusal::TooManySlots,
        Refusal::TooManyKeys,
        Refusal::NotAStream,
    ];

    /// The refusal of a number; none where it is not 1 to 23 or 27.
    ///
    /// ```
    /// use gorehimu::Refusal;
    ///
    /// assert!(Refusal::ALL.iter().all(|r| Refusal::numbered(*r as u8) == Some(*r)));
    /// assert_eq!(Refusal::numbered(21), Some(Refusal::NoClock));
    /// assert_eq!(Refusal::numbered(23), Some(Refusal::TooManyKeys));
    /// assert_eq!((Refusal::numbered(0), Refusal::numbered(24)), (None, None));
    /// ```
    pub fn numbered(number: u8) -> Option<Refusal> {
        Refusal::ALL.into_iter().find(|r| *r as u8 == number)
    }
}

impl Answer {
    /// Why the request was refused; none where it was not.
    pub fn refusal(self) -> Option<Refusal> {
        match self {
            Answer::Refused { number, .. } => Refusal::numbered(number),
            _ => None,
        }
    }

    fn read(bytes: &[u8]) -> Answer {
        let field = |i: usize| u64::from_le_bytes(bytes[8 * i..8 * i + 8].try_into().unwrap());
        // a key, a slot, a count or a refusal; a transaction
        let small = |i: usize| u8::try_from(field(i)).expect("the library writes a number below 256 here");
        let transaction = || u32::try_from(field(3)).expect("the library writes a transaction here");
        match field(0) {
            1 => Answer::Started,
            2 => Answer::Kept,
            3 => Answer::Own(field(1)),
            4 => Answer::Version { value: field(1), clock: field(2), transaction: transaction() },
            5 => Answer::None,
            6 => Answer::Nofit(small(1)),
            7 => Answer::Closing(small(1)),
            8 => Answer::Empty,
            9 => Answer::Done { clock: field(2), transaction: transaction() },
            10 => Answer::Stored(small(1)),
            11 => Answer::Slipped(small(1)),
            12 => Answer::Dropped,
            13 => Answer::Collected { clock: field(2), transaction: transaction() },
            14 => Answer::Found(small(1)),
            15 => Answer::Refused { number: small(1), slot: small(2) },
            16 => Answer::Swept(small(1)),
            17 => Answer::Moved(small(1)),
            _ => unreachable!("the library writes kinds 1 to 17"),
        }
    }
}

/// A station and its store, of one of the two kinds: [`Desk`], [`WideDesk`]. When power goes, both are lost but for what was brought to where it lasts:
/// after every request that wrote a record (answers stored, slipped, collected and swept say which) and before the next, bring that record there, whole
/// ([`DeskOver::record`]); so let a request that writes one be the last of its [`DeskOver::run`]. A sweep may write several: [`DeskOver::cleared`]. Start
/// again with [`Desk::recover`] or [`WideDesk::recover`].
///
/// ```
/// use gorehimu::{record_place, Answer, Desk, RECORD, STORE};
///
/// let mut disk = Box::new([0; STORE]);
/// let mut keep = |desk: &Desk, slot, n| {
///     let place = record_place(slot, n).unwrap();
///     disk[place..place + RECORD].copy_from_slice(desk.record(slot, n).unwrap());
/// };
/// let mut desk = Desk::new();
/// desk.start(1);
/// desk.put(1, 0, 400);
/// let Answer::Closing(slot) = desk.commit(1, 100) else { panic!() };
/// let mut stored = 0;
/// loop {
///     match desk.step(1) {
///         Answer::Stored(_) => {
///             stored += 1;
///             keep(&desk, slot, stored);
///         }
///         Answer::Slipped(slot) => keep(&desk, slot, 0),
///         _ => break,
///     }
/// }
/// assert_eq!(Desk::recover(disk).1, Answer::Found(1));
/// ```
///
/// A desk over a store of another length cannot be made:
///
/// ```compile_fail
/// gorehimu::DeskOver::<1000>::new();
/// ```
#[derive(Clone)]
pub struct DeskOver<const BYTES: usize> {
    image: Box<[u8; IMAGE]>,
    store: Box<[u8; BYTES]>,
}

/// A desk with a narrow store: 64 slots, and a transaction writes at most 8 keys.
pub type Desk = DeskOver<STORE>;

/// A desk with a wide store: 32 slots, and a transaction writes at most 16 keys. All else is as with a [`Desk`].
///
/// ```
/// use gorehimu::{Answer, Desk, Refusal, WideDesk};
///
/// let (mut desk, mut wide) = (Desk::new(), WideDesk::new());
/// desk.start(1);
/// wide.start(1);
/// for key in 0..8 {
///     assert_eq!((desk.put(1, key, 400), wide.put(1, key, 400)), (Answer::Kept, Answer::Kept));
/// }
/// assert_eq!(desk.put(1, 8, 400).refusal(), Some(Refusal::WritesFull));
/// for key in 8..16 {
///     assert_eq!(wide.put(1, key, 400), Answer::Kept);
/// }
/// assert_eq!(wide.put(1, 16, 400).refusal(), Some(Refusal::WritesFull));
/// assert_eq!(wide.commit(1, 100), Answer::Closing(31));
/// ```
pub type WideDesk = DeskOver<WIDE_STORE>;

impl Default for Desk {
    fn default() -> Desk {
        Desk::new()
    }
}

impl Default for WideDesk {
    fn default() -> WideDesk {
        WideDesk::new()
    }
}

impl Desk {
    /// An empty station over a store of zeros.
    pub fn new() -> Desk {
        Desk::over(Box::new([0; STORE]))
    }

    /// Starts again from a store, whatever it holds: the scan's answer is found, or refused with 18 where the store is damaged (the station is then
    /// empty: do not write over a store that may still be mended).
    pub fn recover(store: Box<[u8; STORE]>) -> (Desk, Answer) {
        Desk::scanned(store)
    }

    /// Goes on with what a wide store holds, in a new narrow one: [`move_back`], then [`Desk::recover`]. Bring the new store to where it lasts, whole,
    /// before its first request; until then the wide one is the store. Or why not: the refusal of the move.
    ///
    /// ```
    /// use gorehimu::{Answer, Desk, Refusal, WideDesk};
    ///
    /// fn commit(desk: &mut WideDesk, transaction: u32, keys: std::ops::Range<u8>) {
    ///     desk.start(transaction);
    ///     for key in keys {
    ///         desk.put(transaction, key, 400);
    ///     }
    ///     desk.commit(transaction, 100);
    ///     while !matches!(desk.step(transaction), Answer::Done { .. }) {}
    /// }
    ///
    /// let mut wide = WideDesk::new();
    /// commit(&mut wide, 1, 0..8);
    /// let mut desk = Desk::moved_from(wide.store()).unwrap();
    /// assert_eq!(desk.commit(1, 100), Answer::Done { clock: 100, transaction: 1 });
    ///
    /// commit(&mut wide, 2, 0..9);
    /// assert_eq!(Desk::moved_from(wide.store()).err().and_then(Answer::refusal), Some(Refusal::TooManyKeys));
    ///
    /// // its keys anew in smaller transactions: then it can go
    /// commit(&mut wide, 3, 0..8);
    /// commit(&mut wide, 4, 8..9);
    /// assert_eq!(wide.sweep(64), Answer::Swept(2));
    /// assert!(Desk::moved_from(wide.store()).is_ok());
    /// ```
    pub fn moved_from(wide: &[u8; WIDE_STORE]) -> Result<Desk, Answer> {
        Desk::filled(|narrow| move_back(wide, narrow))
    }
}

impl WideDesk {
    /// An empty station over a wide store of zeros.
    pub fn new() -> WideDesk {
        WideDesk::over(Box::new([0; WIDE_STORE]))
    }

    /// Starts again from a wide store, as [`Desk::recover`] does from a narrow one.
    ///
    /// ```
    /// use gorehimu::{Answer, WideDesk, WIDE_STORE};
    ///
    /// assert_eq!(WideDesk::recover(WideDesk::new().into_store()).1, Answer::Found(0));
    /// // a commit record of a narrow store is none of a wide one
    /// let mut store = Box::new([0; WIDE_STORE]);
    /// store[WideDesk::record_place(5, 0).unwrap()] = 1;
    /// let (mut desk, answer) = WideDesk::recover(store);
    /// assert_eq!(answer, Answer::Refused { number: 18, slot: 5 });
    /// assert_eq!(desk.start(1), Answer::Started);
    /// ```
    pub fn recover(store: Box<[u8; WIDE_STORE]>) -> (WideDesk, Answer) {
        WideDesk::scanned(store)
    }

    /// Goes on with what a narrow store holds, in a new wide one: [`move_out`], then [`WideDesk::recover`]. Bring the new store to where it lasts, whole,
    /// before its first request; until then the narrow one is the store. Or why not: the refusal of the move.
    ///
    /// ```
    /// use gorehimu::{Answer, Desk, WideDesk};
    ///
    /// let mut desk = Desk::new();
    /// desk.start(1);
    /// desk.put(1, 0, 400);
    /// desk.commit(1, 100);
    /// while !matches!(desk.step(1), Answer::Done { .. }) {}
    /// desk.start(2);
    ///
    /// let mut wide = WideDesk::moved_from(desk.store()).unwrap();
    /// assert_eq!(wide.commit(1, 100), Answer::Done { clock: 100, transaction: 1 });
    /// assert_eq!(wide.record(0, 0).unwrap()[0], 2); // it is in slot 0
    /// assert_eq!(wide.start(2), Answer::Started); // what was live is dropped
    /// assert_eq!(wide.get(2, 0), Answer::Version { value: 400, clock: 100, transaction: 1 });
    /// ```
    pub fn moved_from(narrow: &[u8; STORE]) -> Result<WideDesk, Answer> {
        WideDesk::filled(|wide| move_out(narrow, wide))
    }
}

/// The calls, the same for both kinds.
impl<const BYTES: usize> DeskOver<BYTES> {
    /// Constructors are for the two kinds alone.
    const KIND: Kind = if BYTES == WIDE_STORE { WIDE } else { NARROW };

    /// An empty station over a store.
    fn over(store: Box<[u8; BYTES]>) -> Self {
        let mut image = Box::new([0; IMAGE]);
        (Self::KIND.empty)(&mut image[..]);
        DeskOver { image, store }
    }

    /// The station that a store has.
    fn scanned(store: Box<[u8; BYTES]>) -> (Self, Answer) {
        let mut desk = Self::over(store);
        let found = desk.call(Request::Scan);
        (desk, found)
    }

    /// The station of a store that a move has filled.
    fn filled(by: impl FnOnce(&mut [u8]) -> Answer) -> Result<Self, Answer> {
        let mut store = Box::new([0; BYTES]);
        match by(&mut store[..]) {
            Answer::Moved(_) => Ok(Self::scanned(store).0),
            refused => Err(refused),
        }
    }

    /// The store's bytes.
    pub fn store(&self) -> &[u8; BYTES] {
        &self.store
    }

    /// Where record `n` of a slot begins in a store of this kind; none where there is no such record. Record 0 is the commit record, the others are
    /// version records: of a narrow store 64 slots and records 1 to 8, of a wide one 32 slots and records 1 to 16.
    ///
    /// ```
    /// use gorehimu::{record_place, Desk, WideDesk};
    ///
    /// assert_eq!(Desk::record_place(63, 8), record_place(63, 8));
    /// assert_eq!(WideDesk::record_place(1, 2), Some(24 * (17 + 2)));
    /// assert_eq!(WideDesk::record_place(31, 16), Some(gorehimu::WIDE_STORE - gorehimu::RECORD));
    /// assert_eq!((WideDesk::record_place(32, 0), WideDesk::record_place(0, 17)), (None, None));
    /// ```
    pub fn record_place(slot: u8, n: u8) -> Option<usize> {
        Self::KIND.place(slot, n)
    }

    /// Record `n` of a slot, where there is one: see [`DeskOver::record_place`].
    pub fn record(&self, slot: u8, n: u8) -> Option<&[u8]> {
        Self::record_place(slot, n).map(|place| &self.store[place..place + RECORD])
    }

    /// The slot whose commit record is the next to bring to where the store lasts, after a sweep or a collect; none where there is none. `lasting` is
    /// the host's copy of what lasts: of the slots that are committed there (mark 1, of a wide store 2) and free in the store (mark 0), the one of
    /// the oldest id, by clock and then transaction.
    ///
    /// Either sweep with limit 1 again and again until [`Answer::Swept`] of 0, and bring the one record after each; or sweep with any limit, and then
    /// bring the records one at a time, oldest id first. Where power goes between two of them, the sweep's first few collects are done and the rest
    /// not begun: nothing is lost after any of them, by the same theorem as after any other request.
    ///
    /// ```
    /// use gorehimu::{record_place, Answer, Desk, RECORD};
    ///
    /// fn transaction(desk: &mut Desk, t: u32) {
    ///     desk.start(t);
    ///     desk.put(t, 0, 400);
    ///     desk.commit(t, 100);
    ///     while !matches!(desk.step(t), Answer::Done { .. }) {}
    /// }
    ///
    /// let mut desk = Desk::new();
    /// transaction(&mut desk, 5);
    /// transaction(&mut desk, 9);
    /// assert_eq!(desk.sweep(64), Answer::Swept(1)); // slot 63 is free again, and the next to be used
    /// transaction(&mut desk, 6);
    /// transaction(&mut desk, 7);
    /// let mut disk = Box::new(*desk.store());
    /// assert_eq!(desk.sweep(64), Answer::Swept(2));
    /// let mut brought = Vec::new();
    /// while let Some(slot) = desk.cleared(&disk) {
    ///     let place = record_place(slot, 0).unwrap();
    ///     disk[place..place + RECORD].copy_from_slice(desk.record(slot, 0).unwrap());
    ///     brought.push(slot);
    ///     // power may go here
    ///     let left = 3 - brought.len() as u8;
    ///     assert_eq!(Desk::recover(disk.clone()).1, Answer::Found(left));
    /// }
    /// assert_eq!(brought, [62, 63]);
    /// assert_eq!(desk.store(), &*disk);
    /// ```
    pub fn cleared(&self, lasting: &[u8; BYTES]) -> Option<u8> {
        let commit = |slot: u8| &lasting[Self::record_place(slot, 0).unwrap()..][..RECORD];
        let id = |slot: u8| {
            let record = commit(slot);
            (u64::from_le_bytes(record[8..16].try_into().unwrap()), u32::from_le_bytes(record[4..8].try_into().unwrap()))
        };
        let Kind { slots, mark, .. } = Self::KIND;
        (0..slots).filter(|slot| commit(*slot)[0] == mark && self.record(*slot, 0).unwrap()[0] == 0).min_by_key(|slot| id(*slot))
    }

    /// The store's bytes alone: what is left when power goes.
    pub fn into_store(self) -> Box<[u8; BYTES]> {
        self.store
    }

    /// One call.
    pub fn call(&mut self, request: Request) -> Answer {
        let mut answer = [0; ANSWER];
        assert!(call(&mut self.image[..], &mut self.store[..], &request.bytes(), &mut answer), "the lengths are right");
        Answer::read(&answer)
    }

    /// Many calls in one crossing.
    pub fn run(&mut self, requests: &[Request]) -> Vec<Answer> {
        let bytes: Vec<u8> = requests.iter().flat_map(|r| r.bytes()).collect();
        let mut answers = vec![0; requests.len() * ANSWER];
        assert!(run(&mut self.image[..], &mut self.store[..], &bytes, &mut answers), "the lengths are right");
        answers.chunks(ANSWER).map(Answer::read).collect()
    }

    /// [`Request::Start`]
    pub fn start(&mut self, transaction: u32) -> Answer {
        self.call(Request::Start(transaction))
    }

    /// [`Request::Put`]
    pub fn put(&mut self, transaction: u32, key: u8, value: u64) -> Answer {
        self.call(Request::Put(transaction, key, value))
    }

    /// [`Request::Get`]
    pub fn get(&mut self, transaction: u32, key: u8) -> Answer {
        self.call(Request::Get(transaction, key))
    }

    /// [`Request::Commit`]
    pub fn commit(&mut self, transaction: u32, clock: u64) -> Answer {
        self.call(Request::Commit(transaction, clock))
    }

    /// [`Request::Step`]
    pub fn step(&mut self, transaction: u32) -> Answer {
        self.call(Request::Step(transaction))
    }

    /// [`Request::Abort`]
    pub fn abort(&mut self, transaction: u32) -> Answer {
        self.call(Request::Abort(transaction))
    }

    /// [`Request::Collect`]
    pub fn collect(&mut self, slot: u8) -> Answer {
        self.call(Request::Collect(slot))
    }

    /// [`Request::Sweep`]
    ///
    /// ```
    /// use gorehimu::{Answer, Desk, Refusal};
    ///
    /// let mut desk = Desk::new();
    /// for t in 1..=4 {
    ///     desk.start(t);
    ///     desk.put(t, 0, 400);
    ///     desk.commit(t, 100);
    ///     while !matches!(desk.step(t), Answer::Done { .. }) {}
    /// }
    /// assert_eq!(desk.sweep(2), Answer::Swept(2));
    /// assert_eq!(desk.sweep(64), Answer::Swept(1));
    /// assert_eq!(desk.sweep(64), Answer::Swept(0));
    /// assert_eq!(desk.sweep(0).refusal(), Some(Refusal::LimitRange));
    /// assert_eq!(desk.sweep(65).refusal(), Some(Refusal::LimitRange));
    /// ```
    pub fn sweep(&mut self, limit: u64) -> Answer {
        self.call(Request::Sweep(limit))
    }
}
