//! Logs of our own store: random calls and cuts on its model, no number started twice, and the answers as lines: kept is a write, version a read,
//! slipped a commit with the clock taken. A history starts 64 transactions at most, so that its log keeps the limits. It must be clean.

use crate::model::{Answer, Kind, Live, Phase, Station, WRITES};
use crate::partner::{Shop, TXNS};
use crate::random::Random;

struct Desk {
    kind: Kind,
    station: Station,
    store: Vec<u8>,
    started: usize,
    log: Shop,
}

impl Desk {
    fn new(kind: Kind) -> Desk {
        Desk { kind, station: Station::empty_of(kind), store: vec![0; kind.store()], started: 0, log: Shop::new(64, TXNS) }
    }

    /// A live transaction in that phase, if any.
    fn live(&self, r: &mut Random, phase: fn(&Phase) -> bool) -> Option<Live> {
        let live: Vec<Live> = self.station.live.iter().filter(|l| phase(&l.phase)).copied().collect();
        (!live.is_empty()).then(|| r.of(&live))
    }

    fn start(&mut self) {
        if self.started == TXNS {
            return;
        }
        // an odd factor: no number comes twice, and none is 0
        let txn = (self.started as u32 + 1).wrapping_mul(0x9e37_79b1);
        if self.station.start(txn) == Answer::Started {
            self.started += 1;
        }
    }

    /// A wide store keeps more keys than a log does.
    fn put(&mut self, l: &Live, key: u8) {
        if l.written() == WRITES && l.keys >> key & 1 == 0 {
            return;
        }
        if self.station.put(l.txn, key, 1) == Answer::Kept {
            self.log.say("write", l.txn, key, 0, 0);
        }
    }

    fn get(&mut self, txn: u32, key: u8) {
        if let Answer::Version(_, id) = self.station.get(&self.store, txn, key) {
            self.log.say("read", txn, key, id.clock, id.txn);
        }
    }

    fn step(&mut self, l: &Live) {
        if let (Answer::Slipped(_), Phase::Closing { clock, .. }) = (self.station.step(&mut self.store, l.txn), l.phase) {
            self.log.say("commit", l.txn, 0, clock, 0);
        }
    }

    /// What an open transaction asks. Clocks go back and forth.
    fn ask(&mut self, r: &mut Random, l: &Live, key: u8) {
        match r.below(20) {
            0..=6 => self.put(l, key),
            7..=16 => self.get(l.txn, key),
            17 if r.one_in(3) => drop(self.station.abort(l.txn)),
            _ => drop(self.station.commit(l.txn, 1 + r.below(50))),
        }
    }

    fn call(&mut self, r: &mut Random, key: u8) {
        let open = self.live(r, |p| *p == Phase::Open);
        let closing = self.live(r, |p| matches!(p, Phase::Closing { .. }));
        match (r.below(40), open, closing) {
            (0..=3, ..) => self.start(),
            (4, ..) => drop(self.station.collect(&mut self.store, r.below(64) as u8)),
            (5, ..) if r.one_in(2) => drop(self.station.sweep(&mut self.store, 1 + r.below(64))),
            (5, ..) if r.one_in(4) => self.station = Station::scan_of(self.kind, &self.store).0,
            (6..=18, _, Some(l)) => self.step(&l),
            (_, Some(l), _) => self.ask(r, &l, key),
            _ => self.start(),
        }
    }
}

/// The lines of a history's log.
pub fn lines(r: &mut Random) -> Vec<Vec<u8>> {
    let mut desk = Desk::new(r.of(&[Kind::Narrow, Kind::Wide]));
    let keys = r.of(&[2, 4, 12, 40, 64]);
    for _ in 0..r.of(&[20, 100, 400, 1200]) {
        let key = r.below(keys) as u8;
        desk.call(r, key);
    }
    desk.log.lines
}
