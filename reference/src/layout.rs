//! The state of a bench. Every set is a bit set: bit i is process i, counted from 0.
//! After "paper:" stands the paper's own word.

use crate::{Refusal, Value};

/// A value or absent, for each process (paper: sheet). Bit i of `present` marks entry i; a value stands as its word.
#[repr(C)]
#[derive(Clone, Copy, PartialEq, Eq, Hash, Debug)]
pub struct GlobalData {
    pub present: u16,
    pub values: [u32; Bench::MAX],
}

/// One process (paper: terminal).
#[repr(C)]
#[derive(Clone, Copy, PartialEq, Eq, Hash, Debug)]
pub struct Process {
    /// 0 is not started.
    pub round: u8,
    /// Not 0: it has decided. A step that decides writes 1; no other step changes it.
    pub decided: u8,
    /// Processes expected in the round before (paper: before-set).
    pub previous: u16,
    /// Processes expected in this round (paper: now-set).
    pub current: u16,
    /// Crashed processes that the failure detector has named (paper: noticed).
    pub suspected: u16,
    /// Receivers still to be sent the current message (paper: owes).
    pub outbox: u16,
    pub estimate: GlobalData,
    /// `received[r - 1]`: senders whose estimate of round r arrived and is kept
    /// (paper: arrived, held). The process itself is never in it.
    pub received: [u16; Bench::MAX],
}

/// n processes and the network between them.
#[repr(C)]
#[derive(Clone, Copy, PartialEq, Eq, Hash, Debug)]
pub struct Bench {
    pub n: u8,
    pub t: u8,
    /// Processes that have crashed (paper: stopped).
    pub crashed: u16,
    pub processes: [Process; Bench::MAX],
    /// `sent[a * 16 + r - 1]`: the estimate a held when its round r opened.
    pub sent: [GlobalData; Bench::MAX * Bench::MAX],
    /// `in_transit[a * 17 + r]`: receivers of a's message r, sent and not arrived (paper: in
    /// flight). Message 0 is the decision.
    pub in_transit: [u16; Bench::MAX * Bench::SLOTS],
}

/// The set of process i alone.
pub fn bit(i: usize) -> u16 {
    1 << i
}

/// The members of a set, lowest first.
pub fn members(mut set: u16) -> impl Iterator<Item = usize> {
    std::iter::from_fn(move || {
        if set == 0 {
            return None;
        }
        let i = set.trailing_zeros() as usize;
        set &= set - 1;
        Some(i)
    })
}

/// The place in `sent` of what a sent in a round from 1.
pub fn row(a: usize, round: u8) -> usize {
    a * Bench::MAX + round as usize - 1
}

/// Refusal 1, or nothing.
pub fn check_n(n: u8) -> Result<(), Refusal> {
    if (1..=Bench::MAX as u8).contains(&n) {
        Ok(())
    } else {
        Err(Refusal::Size)
    }
}

/// All of n processes.
pub fn all(n: u8) -> u16 {
    ((1u32 << n) - 1) as u16
}

impl GlobalData {
    pub const ABSENT: GlobalData = GlobalData { present: 0, values: [0; Bench::MAX] };

    /// Entry i, if present.
    pub fn entry(&self, i: usize) -> Option<Value> {
        (self.present & bit(i) != 0).then(|| self.value(i))
    }

    /// The value that the word of entry i is, present or not.
    pub fn value(&self, i: usize) -> Value {
        Value::from_word(self.values[i])
    }

    /// Entry i becomes present.
    pub fn set(&mut self, i: usize, value: Value) {
        self.present |= bit(i);
        self.values[i] = value.word();
    }

    /// Equal entry by entry, in portions and diet portions; words under absent entries do not count.
    pub fn same(&self, other: &GlobalData) -> bool {
        let equal = |i| self.value(i) == other.value(i);
        // The words mostly are all equal, and that is seen at once.
        self.present == other.present && (self.values == other.values || members(self.present).all(equal))
    }

    /// Absent entries take those of `other`.
    pub fn fill(&mut self, other: &GlobalData) {
        for i in members(other.present & !self.present) {
            self.values[i] = other.values[i];
        }
        self.present |= other.present;
    }
}

impl Process {
    pub const UNSTARTED: Process = Process {
        round: 0,
        decided: 0,
        previous: 0,
        current: 0,
        suspected: 0,
        outbox: 0,
        estimate: GlobalData::ABSENT,
        received: [0; Bench::MAX],
    };

    pub fn has_decided(&self) -> bool {
        self.decided != 0
    }

    /// All bits used in any set of this process.
    fn used(&self) -> u16 {
        let sets = self.previous | self.current | self.suspected | self.outbox;
        self.received.iter().fold(sets | self.estimate.present, |used, set| used | set)
    }
}

impl Bench {
    /// The most processes.
    pub const MAX: usize = 16;
    /// Messages of one sender: the decision and one estimate a round.
    pub const SLOTS: usize = Bench::MAX + 1;
    /// Bytes of a record.
    pub const RECORD: usize = 8;

    /// A bench where nothing has happened.
    pub fn open(n: u8, t: u8) -> Result<Bench, Refusal> {
        check_n(n)?;
        if t >= n {
            return Err(Refusal::Size);
        }
        Ok(Bench {
            n,
            t,
            crashed: 0,
            processes: [Process::UNSTARTED; Bench::MAX],
            sent: [GlobalData::ABSENT; Bench::MAX * Bench::MAX],
            in_transit: [0; Bench::MAX * Bench::SLOTS],
        })
    }

    /// All n processes as a set.
    pub fn everyone(&self) -> u16 {
        all(self.n)
    }

    /// No n, t, round, set or mark is out of range, in used rows and unused ones. `decided` may be any byte.
    pub fn is_sound(&self) -> bool {
        if check_n(self.n).is_err() || self.t >= self.n {
            return false;
        }
        let processes = self.processes.iter().fold(0, |used, p| used | p.used());
        let sent = self.sent.iter().fold(0, |used, data| used | data.present);
        let in_transit = self.in_transit.iter().fold(0, |used, set| used | set);
        let used = self.crashed | processes | sent | in_transit;
        used & !self.everyone() == 0 && self.processes.iter().all(|p| p.round <= self.t + 1)
    }

    /// Refusal 2, or nothing.
    pub fn check_sound(&self) -> Result<(), Refusal> {
        if self.is_sound() {
            Ok(())
        } else {
            Err(Refusal::Damaged)
        }
    }
}

#[cfg(test)]
mod tests {
    use super::*;
    use std::mem::{offset_of, size_of};

    #[test]
    fn layout_is_fixed() {
        assert_eq!(size_of::<GlobalData>(), 68);
        assert_eq!(size_of::<Process>(), 112);
        assert_eq!(size_of::<Bench>(), 4 + 16 * 112 + 256 * 68 + 272 * 2);
        assert!(size_of::<Bench>() <= 64 * 1024);
        assert_eq!((offset_of!(Process, decided), size_of_val(&Process::UNSTARTED.decided)), (1, 1));
        assert_eq!(offset_of!(Process, estimate), 12);
        assert_eq!(offset_of!(Bench, sent), 4 + 16 * 112);
    }

    #[test]
    fn sizes() {
        // Case 5.
        assert!(Bench::open(16, 15).is_ok());
        assert_eq!(Bench::open(17, 0), Err(Refusal::Size));
        assert_eq!(Bench::open(0, 0), Err(Refusal::Size));
        assert_eq!(Bench::open(3, 3), Err(Refusal::Size));
        for n in 1..=16 {
            for t in 0..n {
                assert!(Bench::open(n, t).unwrap().is_sound());
            }
        }
    }

    fn damaged(change: impl Fn(&mut Bench)) -> bool {
        let mut bench = Bench::open(3, 1).unwrap();
        change(&mut bench);
        !bench.is_sound()
    }

    #[test]
    fn damage_is_seen_everywhere() {
        assert!(damaged(|b| b.n = 0));
        assert!(damaged(|b| b.n = 17));
        assert!(damaged(|b| b.t = 3));
        assert!(damaged(|b| b.crashed = 8));
        assert!(damaged(|b| b.processes[1].round = 3));
        assert!(!damaged(|b| b.processes[1].round = 2));
        for i in 0..16 {
            assert!(damaged(|b| b.processes[i].round = 3));
            assert!(damaged(|b| b.processes[i].previous = 8));
            assert!(damaged(|b| b.processes[i].current = 8));
            assert!(damaged(|b| b.processes[i].suspected = 8));
            assert!(damaged(|b| b.processes[i].outbox = 8));
            assert!(damaged(|b| b.processes[i].estimate.present = 8));
            assert!((0..16).all(|r| damaged(|b| b.processes[i].received[r] = 8)));
        }
        assert!((0..256).all(|i| damaged(|b| b.sent[i].present = 8)));
        assert!((0..272).all(|i| damaged(|b| b.in_transit[i] = 8)));
        assert!((0..272).all(|i| !damaged(|b| b.in_transit[i] = 7)));
        assert!((0..=255).all(|byte| !damaged(|b| b.processes.iter_mut().for_each(|p| p.decided = byte))));
    }
}
