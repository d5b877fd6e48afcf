//! What host and library share: plain structs of the header's layout. Every set is bits, process p at bit p - 1.

use std::mem::{offset_of, size_of};

/// The most processes of a bench.
pub const MAX_PROCESSES: usize = 16;
/// Bytes of each record, in a schedule and in a calendar.
pub const RECORD_BYTES: usize = 8;
/// Bytes that the longest list in transit needs: 3 for each of 16 receivers of each of 17 messages of 16 senders.
pub const LIST_BYTES: usize = 13_056;

/// A value: portions in the low half of the word, the diet portions among them in the high half.
#[repr(transparent)]
#[derive(Clone, Copy, PartialEq, Eq, Hash, Debug, Default)]
pub struct Value(pub u32);

impl Value {
    /// More diet portions than portions can be made; the library refuses them in a start and in an aggregate.
    pub const fn new(portions: u16, diet: u16) -> Value {
        Value(portions as u32 | (diet as u32) << 16)
    }

    /// All portions.
    pub const fn portions(self) -> u16 {
        self.0 as u16
    }

    /// The diet portions among them.
    pub const fn diet(self) -> u16 {
        (self.0 >> 16) as u16
    }
}

impl std::fmt::Display for Value {
    fn fmt(&self, f: &mut std::fmt::Formatter<'_>) -> std::fmt::Result {
        write!(f, "{}/{}", self.portions(), self.diet())
    }
}

/// The vector: an entry for each process, a value or absent.
///
/// `==` compares every word, also under absent entries. What [`Bench::global_data`] gives has 0 there, so that two
/// decisions are equal just where their entries are.
#[repr(C)]
#[derive(Clone, Copy, PartialEq, Eq, Hash, Debug, Default)]
pub struct GlobalData {
    /// The set of processes whose entry is present: the marks.
    pub present: u16,
    /// The values, of process p at p - 1. What stands under an absent entry has no meaning.
    pub values: [Value; MAX_PROCESSES],
}

/// One process. Sets are bits, process p at bit p - 1: see [`members`] and [`contains`].
#[repr(C)]
#[derive(Clone, Copy, PartialEq, Eq, Hash, Debug, Default)]
pub struct Process {
    /// 0 before its start.
    pub round: u8,
    /// Not 0: it has decided. A step that decides writes 1.
    pub decided: u8,
    /// The processes that it expected in the round before.
    pub previous: u16,
    /// The processes that it expects in this round.
    pub current: u16,
    /// The crashed processes that it suspects.
    pub suspected: u16,
    /// The processes to which it still owes its estimate, or its decision once it has decided.
    pub outbox: u16,
    /// What it holds; once it has decided, its decision.
    pub estimate: GlobalData,
    /// The other processes whose estimate of round r was kept, at r - 1; at the close those in `current` count.
    pub received: [u16; MAX_PROCESSES],
}

/// n processes of which t may crash, and the network between them. 19,748 bytes, held by the host.
///
/// Sets are bits, process p at bit p - 1: see [`members`] and [`contains`]. Any values may stand in the fields; a call
/// refuses a bench that is out of range as [`Refusal::Damaged`](crate::Refusal::Damaged).
#[repr(C)]
#[derive(Clone, PartialEq, Eq, Hash, Debug)]
pub struct Bench {
    /// How many processes there are.
    pub n: u8,
    /// How many of them may crash.
    pub t: u8,
    /// The processes that have crashed.
    pub crashed: u16,
    /// Process p at p - 1; those past n are not used.
    pub processes: [Process; MAX_PROCESSES],
    /// The estimate with which process p opened round r, at (p - 1) * 16 + r - 1.
    pub sent: [GlobalData; MAX_PROCESSES * MAX_PROCESSES],
    /// To whom message r of process p is on its way, at (p - 1) * 17 + r; message 0 is its decision.
    pub in_transit: [u16; MAX_PROCESSES * (MAX_PROCESSES + 1)],
}

/// The tally of records. Each number remains at its largest value.
#[repr(C)]
#[derive(Clone, Copy, PartialEq, Eq, Hash, Debug, Default)]
pub struct Counters {
    /// Records that were accepted.
    pub accepted: u32,
    /// Records that were refused.
    pub refused: u32,
    /// Crashes among the accepted ones.
    pub crashes: u32,
}

/// The sites that take part in a week, numbered as processes 1 to n; 0 for none.
#[repr(C)]
#[derive(Clone, Copy, PartialEq, Eq, Hash, Debug, Default)]
pub struct Week {
    /// How many take part.
    pub n: u8,
    /// The process of site s, at s - 1.
    pub process_of: [u8; MAX_PROCESSES],
    /// The site of process p, at p - 1.
    pub site_of: [u8; MAX_PROCESSES],
}

impl GlobalData {
    const ABSENT: GlobalData = GlobalData { present: 0, values: [Value(0); MAX_PROCESSES] };

    /// The entry of a process, from 1; `None` where it is absent or there is no such process.
    pub fn entry(&self, process: u8) -> Option<Value> {
        let value = self.values.get(place(process)?)?;
        contains(self.present, process).then_some(*value)
    }

    /// The words of the first n entries, as the aggregates take them, with `present` as the marks; of at most 16.
    pub fn entries(&self, n: u8) -> &[Value] {
        self.values.get(..usize::from(n)).unwrap_or(&self.values)
    }
}

impl Week {
    /// The site of a process, from 1; `None` where there is no such process.
    pub fn site(&self, process: u8) -> Option<u8> {
        self.site_of.get(place(process)?).copied().filter(|&site| site != 0)
    }

    /// The process of a site, from 1; `None` where the site takes no part.
    pub fn process(&self, site: u8) -> Option<u8> {
        self.process_of.get(place(site)?).copied().filter(|&process| process != 0)
    }
}

impl Process {
    const UNSTARTED: Process = Process {
        round: 0,
        decided: 0,
        previous: 0,
        current: 0,
        suspected: 0,
        outbox: 0,
        estimate: GlobalData::ABSENT,
        received: [0; MAX_PROCESSES],
    };

    /// Whether it has decided: any `decided` but 0 says so.
    pub fn has_decided(&self) -> bool {
        self.decided != 0
    }
}

impl Bench {
    /// Memory for a bench. No bench has n 0, so that every call but opening refuses it.
    pub(crate) const ZERO: Bench = Bench {
        n: 0,
        t: 0,
        crashed: 0,
        processes: [Process::UNSTARTED; MAX_PROCESSES],
        sent: [GlobalData::ABSENT; MAX_PROCESSES * MAX_PROCESSES],
        in_transit: [0; MAX_PROCESSES * (MAX_PROCESSES + 1)],
    };

    /// A process, from 1; `None` for a number that is no process of the bench.
    pub fn process(&self, number: u8) -> Option<&Process> {
        if number > self.n {
            return None;
        }
        self.processes.get(place(number)?)
    }

    /// Whether a process, from 1, has crashed; `false` for a number that is no process of the bench.
    pub fn has_crashed(&self, number: u8) -> bool {
        self.process(number).is_some() && contains(self.crashed, number)
    }

    /// The processes that run, by number: those up to n that have not crashed.
    pub fn running(&self) -> impl Iterator<Item = u8> {
        let n = self.n;
        members(!self.crashed).take_while(move |&number| number <= n)
    }
}

/// The members of a set, by number from 1, the lowest first.
pub fn members(set: u16) -> impl Iterator<Item = u8> {
    (1..=MAX_PROCESSES as u8).filter(move |&process| contains(set, process))
}

/// Where a process, from 1, stands in an array.
fn place(process: u8) -> Option<usize> {
    usize::from(process).checked_sub(1)
}

/// Whether a process, from 1, is in a set.
pub fn contains(set: u16, process: u8) -> bool {
    let bit = place(process).and_then(|place| 1u16.checked_shl(place as u32));
    bit.is_some_and(|bit| set & bit != 0)
}

const _: () = assert!(LIST_BYTES == MAX_PROCESSES * (MAX_PROCESSES + 1) * MAX_PROCESSES * 3);
const _: () = assert!(size_of::<Value>() == 4);

const _: () = assert!(offset_of!(GlobalData, present) == 0 && offset_of!(GlobalData, values) == 4);
const _: () = assert!(size_of::<GlobalData>() == 68);

const _: () = assert!(offset_of!(Process, round) == 0 && offset_of!(Process, decided) == 1);
const _: () = assert!(offset_of!(Process, previous) == 2 && offset_of!(Process, current) == 4);
const _: () = assert!(offset_of!(Process, suspected) == 6 && offset_of!(Process, outbox) == 8);
const _: () = assert!(offset_of!(Process, estimate) == 12 && offset_of!(Process, received) == 80);
const _: () = assert!(size_of::<Process>() == 112);

const _: () =
    assert!(offset_of!(Bench, n) == 0 && offset_of!(Bench, t) == 1 && offset_of!(Bench, crashed) == 2);
const _: () = assert!(offset_of!(Bench, processes) == 4 && offset_of!(Bench, sent) == 1_796);
const _: () = assert!(offset_of!(Bench, in_transit) == 19_204 && size_of::<Bench>() == 19_748);

const _: () = assert!(offset_of!(Counters, accepted) == 0 && offset_of!(Counters, refused) == 4);
const _: () = assert!(offset_of!(Counters, crashes) == 8 && size_of::<Counters>() == 12);

const _: () = assert!(offset_of!(Week, n) == 0 && offset_of!(Week, process_of) == 1);
const _: () = assert!(offset_of!(Week, site_of) == 17 && size_of::<Week>() == 33);
