//! A store's committed set as a RESP stream, for Redis, and back.

use crate::{raw, Answer, Desk, ANSWER, STORE};

/// The bytes of an export's target; a store's stream has at most 47,808.
const TARGET: usize = 65536;

/// What a transfer comes to: its number, or the refusal.
fn transferred(by: raw::Move, kind: u64, source: &[u8], target: &mut [u8]) -> Result<usize, Answer> {
    let mut answer = [0; ANSWER];
    let code = unsafe { by(source.as_ptr(), source.len(), target.as_mut_ptr(), target.len(), answer.as_mut_ptr(), answer.len()) };
    assert_eq!(code, 0, "the answer's length is right");
    let field = |i: usize| u64::from_le_bytes(answer[8 * i..8 * i + 8].try_into().unwrap());
    if field(0) == kind {
        Ok(usize::try_from(field(1)).expect("the library writes a length or a count here"))
    } else {
        Err(Answer::read(&answer))
    }
}

/// What is committed in a narrow store, as a RESP stream that Redis takes (`redis-cli --pipe`): a `SET` for each version, named `v/key/clock/transaction`,
/// with the value in decimal, keys ascending; after those of a transaction one for its commit, named `c/clock/transaction`, with its keys parted by commas.
/// Transactions come oldest first. The store is only read. Refused with [`StoreLength`](crate::Refusal::StoreLength), or with
/// [`Damaged`](crate::Refusal::Damaged) and the slot.
///
/// ```
/// use gorehimu::{export, Answer, Desk};
///
/// let mut desk = Desk::new();
/// desk.start(5);
/// desk.put(5, 2, 40);
/// desk.commit(5, 100);
/// while !matches!(desk.step(5), Answer::Done { .. }) {}
/// assert_eq!(
///     export(desk.store()).unwrap(),
///     b"*3\r\n$3\r\nSET\r\n$9\r\nv/2/100/5\r\n$2\r\n40\r\n*3\r\n$3\r\nSET\r\n$7\r\nc/100/5\r\n$1\r\n2\r\n"
/// );
/// assert_eq!(export(&[255; gorehimu::STORE]), Err(Answer::Refused { number: 18, slot: 0 }));
/// ```
pub fn export(store: &[u8]) -> Result<Vec<u8>, Answer> {
    let mut target = vec![0; TARGET];
    let size = transferred(raw::gorehimu_export, 20, store, &mut target)?;
    target.truncate(size);
    Ok(target)
}

/// Fills a narrow store from a stream that [`export`] wrote, or bytes of exactly that form: how many transactions it has now. What the store held is gone:
/// the oldest transaction is in slot 63, the next in 62, and all else is zero. Refused with [`StoreLength`](crate::Refusal::StoreLength), with
/// [`NotAStream`](crate::Refusal::NotAStream), or with [`SlotsFull`](crate::Refusal::SlotsFull) where it has more than 64 transactions; then no byte is
/// written. Where power goes while the store is brought to where it lasts, begin again: the store depends on the stream alone. [`Desk::imported_from`] is
/// the comfortable form.
///
/// ```
/// use gorehimu::{export, import, Answer, Desk, Refusal, STORE};
///
/// let mut desk = Desk::new();
/// desk.start(5);
/// desk.put(5, 2, 40);
/// desk.commit(5, 100);
/// while !matches!(desk.step(5), Answer::Done { .. }) {}
///
/// let stream = export(desk.store()).unwrap();
/// let mut store = [255; STORE];
/// assert_eq!(import(&stream, &mut store), Ok(1));
/// assert_eq!(export(&store).unwrap(), stream);
///
/// // a byte more, and nothing is taken
/// let before = store;
/// let refused = import(&[&stream[..], b"\n"].concat(), &mut store).unwrap_err();
/// assert_eq!(refused.refusal(), Some(Refusal::NotAStream));
/// assert_eq!(store, before);
/// ```
pub fn import(stream: &[u8], store: &mut [u8]) -> Result<usize, Answer> {
    transferred(raw::gorehimu_import, 21, stream, store)
}

impl Desk {
    /// Starts from a stream, in a new narrow store: [`import`], then [`Desk::recover`]. Bring the new store to where it lasts, whole, before its first
    /// request. Or why not: the refusal.
    ///
    /// ```
    /// use gorehimu::{export, Answer, Desk};
    ///
    /// let mut desk = Desk::imported_from(b"*3\r\n$3\r\nSET\r\n$9\r\nv/2/100/5\r\n$2\r\n40\r\n*3\r\n$3\r\nSET\r\n$7\r\nc/100/5\r\n$1\r\n2\r\n").unwrap();
    /// desk.start(6);
    /// assert_eq!(desk.get(6, 2), Answer::Version { value: 40, clock: 100, transaction: 5 });
    /// assert!(Desk::imported_from(b"*3").is_err());
    /// ```
    pub fn imported_from(stream: &[u8]) -> Result<Desk, Answer> {
        let mut store = Box::new([0; STORE]);
        import(stream, &mut store[..])?;
        Ok(Desk::recover(store).0)
    }
}
