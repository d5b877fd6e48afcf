//! What the differential test has met, so that it can tell what it has not.

use crate::carried::{Across, Carryings};
use crate::kinds::Kinds;
use crate::layout::{all, members};
use crate::listed::Listed;
use crate::received::Closes;
use crate::summed::{Lists, Summed};
use crate::ties::Leads;
use crate::values::{Deciding, Starts};
use crate::{Closing, Event, Message};
use std::cmp::Ordering::{self, Equal, Greater, Less};
use std::ops::Range;

/// What was met: records given, answers by their number, 0 for none refused, closings, bytes in `decided`, totals,
/// lists in transit, first of other states, then of those that a schedule reaches; of diet portions starts,
/// aggregates, closes of nearly equal estimates, and what had too many of them; leads; the closes of any that are
/// nearly equal; and benches carried over, of other states and of reached ones as the lists, and lists of calls across
/// that.
#[derive(Clone, Default, Debug)]
pub struct Met {
    pub records: u64,
    pub accepted: u64,
    pub answers: [u64; 17],
    pub closings: Closings,
    pub bytes: Bytes,
    pub totals: Totals,
    pub listed: [Listed; 2],
    pub starts: Starts,
    pub summed: Summed,
    pub leads: Leads,
    pub deciding: Deciding,
    pub held: Held,
    pub closes: Closes,
    pub carried: [Carryings; 2],
    pub across: Across,
}

/// How often each of `HELD` was met.
#[derive(Clone, Default, Debug)]
pub struct Held(Kinds<{ HELD.len() }>);

/// What can come of more diet portions than portions, in an estimate after a step, in what is read and in a run's
/// record; and what else can be read.
const HELD: [&str; 10] = [
    "close to the next round",
    "close that agrees",
    "close of the last round",
    "decision that decides",
    "run refused at once",
    "run refused after others",
    "global data",
    "global data of 0/0",
    "global data of 65535/0",
    "global data of 65535/65535",
];
/// Places in `HELD`; a close is at the number of its closing less 1.
pub const DECISION: usize = 3;
pub const RUN_AT_ONCE: usize = 4;
pub const RUN_AFTER_OTHERS: usize = 5;
pub const SHOWN: usize = 6;
/// The words whose places are the three after it.
pub const SHOWN_WORDS: [u32; 3] = [0, 0xffff, 0xffff_ffff];

/// How often each closing was met, by its number, and where, as in `ENDS`.
#[derive(Clone, Default, Debug)]
pub struct Closings([[u64; 4]; ENDS.len()]);

/// What ends in a closing, and the closings in which it can end.
const ENDS: [(&str, Range<usize>); 5] = [
    ("accepted records", 0..4),
    ("refused records", 0..1),
    ("runs", 0..4),
    ("runs that end refused", 0..4),
    ("closes on both grounds", 3..4),
];
/// Places in `ENDS`; after each of the first two is that of the refused ones.
pub const OF_RECORD: usize = 0;
pub const OF_RUN: usize = 2;
pub const OF_BOTH_GROUNDS: usize = 4;

/// How often each of `TOTALS` was met.
#[derive(Clone, Default, Debug)]
pub struct Totals(Kinds<{ TOTALS.len() }>);

/// Whether a total was one of these, by what it was given, its refusal or 0, and its sum.
type Meets = fn(&Lists, u32, u64) -> bool;

/// What total can meet.
const TOTALS: [(&str, Meets); 12] = [
    ("n and standing wrong", |x, refused, _| refused == 1 && x.lengths().1 != Equal),
    ("marks and standing wrong", |x, refused, _| refused == 5 && x.lengths().1 != Equal),
    ("both lists wrong", |x, refused, _| refused == 10 && x.lengths().0 != Equal && x.lengths().1 != Equal),
    ("entries alone short", |x, refused, _| refused == 10 && x.lengths() == (Less, Equal)),
    ("entries alone long", |x, refused, _| refused == 10 && x.lengths() == (Greater, Equal)),
    ("standing alone short", |x, refused, _| refused == 10 && x.lengths() == (Equal, Less)),
    ("standing alone long", |x, refused, _| refused == 10 && x.lengths() == (Equal, Greater)),
    ("standing wrong though unread", |x, refused, _| {
        refused == 10 && x.lengths().0 == Equal && x.marks == all(x.n)
    }),
    // Not the greatest, for which `compare` chooses the standing values.
    ("absent with standing not 0", |x, refused, sum| {
        refused == 0 && sum < x.greatest() && members(all(x.n) & !x.marks).any(|i| x.standing[i] != 0)
    }),
    ("greatest of all present", |x, refused, sum| refused == 0 && sum == x.greatest() && x.marks == u16::MAX),
    ("greatest of all absent", |x, refused, sum| refused == 0 && sum == x.greatest() && x.marks == 0),
    ("greatest of both", |x, refused, sum| {
        refused == 0 && sum == x.greatest() && !matches!(x.marks, 0 | u16::MAX)
    }),
];

/// How often each byte in `decided` was met, by call and by what came of it, as in `CALLS`.
#[derive(Clone, Debug)]
pub struct Bytes(Vec<[[u64; 256]; 3]>);

const ALL: Range<usize> = 0..256;
const NONE: Range<usize> = 0..0;

/// The calls that meet the byte of a process, and the bytes with which each can be accepted, refused and telling. A
/// call is telling where 0 and 1 differ in more than the byte; a close of that kind is accepted with 0, or waits
/// (refusal 8).
const CALLS: [(&str, [Range<usize>; 3]); 11] = [
    ("start", [ALL, ALL, NONE]),
    ("send", [ALL, ALL, ALL]),
    ("estimate", [ALL, ALL, ALL]),
    ("decision", [ALL, ALL, ALL]),
    ("close", [0..1, ALL, ALL]),
    ("crash", [ALL, ALL, NONE]),
    ("suspect", [ALL, ALL, NONE]),
    ("run", [ALL, ALL, ALL]),
    ("global data", [1..256, ALL, ALL]),
    ("in transit", [ALL, ALL, NONE]),
    ("waiting close", [NONE, NONE, ALL]),
];
pub const RUN: usize = 7;
pub const GLOBAL_DATA: usize = 8;
pub const IN_TRANSIT: usize = 9;
pub const WAITING: usize = 10;

/// Beside 0 for accepted and 1 for refused.
pub const TELLING: usize = 2;

/// The place in `CALLS` of a record's call.
pub fn call(event: Event) -> usize {
    match event {
        Event::Start { .. } => 0,
        Event::Send { .. } => 1,
        Event::Arrive { message: Message::Estimate { .. }, .. } => 2,
        Event::Arrive { message: Message::Decision, .. } => 3,
        Event::Close { .. } => 4,
        Event::Crash { .. } => 5,
        Event::Suspect { .. } => 6,
    }
}

impl Default for Bytes {
    fn default() -> Bytes {
        Bytes(vec![[[0; 256]; 3]; CALLS.len()])
    }
}

impl Bytes {
    pub fn count(&mut self, call: usize, outcome: usize, byte: u8) {
        self.0[call][outcome][byte as usize] += 1;
    }

    fn add(&mut self, other: &Bytes) {
        let sums = self.0.iter_mut().flatten().flatten();
        sums.zip(other.0.iter().flatten().flatten()).for_each(|(sum, more)| *sum += more);
    }

    /// The bytes that could be met and were not, as call, outcome and byte.
    pub fn missing(&self) -> Vec<(&'static str, usize, usize)> {
        let mut missing = Vec::new();
        for ((name, expected), met) in CALLS.iter().zip(&self.0) {
            for outcome in 0..3 {
                let bytes = expected[outcome].clone().filter(|&byte| met[outcome][byte] == 0);
                missing.extend(bytes.map(|byte| (*name, outcome, byte)));
            }
        }
        missing
    }

    /// How many bytes were met in each call: accepted, refused, telling.
    pub fn report(&self) -> String {
        let different = |counts: &[u64; 256]| counts.iter().filter(|&&count| count > 0).count();
        let line = |((name, _), met): (&(&str, _), &[[u64; 256]; 3])| {
            let [accepted, refused, telling] = [0, 1, 2].map(|outcome| different(&met[outcome]));
            format!("{name} {accepted} {refused} {telling}")
        };
        CALLS.iter().zip(&self.0).map(line).collect::<Vec<String>>().join(", ")
    }
}

impl Closings {
    pub fn count(&mut self, end: usize, closing: Closing) {
        self.0[end][closing.number() as usize] += 1;
    }

    fn add(&mut self, other: &Closings) {
        let sums = self.0.iter_mut().flatten();
        sums.zip(other.0.iter().flatten()).for_each(|(sum, more)| *sum += more);
    }

    /// The closings that could be met and were not.
    pub fn missing(&self) -> Vec<(&'static str, usize)> {
        let mut missing = Vec::new();
        for ((name, expected), met) in ENDS.iter().zip(&self.0) {
            let numbers = expected.clone().filter(|&number| met[number] == 0);
            missing.extend(numbers.map(|number| (*name, number)));
        }
        missing
    }

    /// How often each was met, from none to last round.
    fn report(&self) -> String {
        let line = |((name, _), met): (&(&str, _), &[u64; 4])| format!("{name} {met:?}");
        ENDS.iter().zip(&self.0).map(line).collect::<Vec<String>>().join(", ")
    }
}

impl Lists<'_> {
    /// The lengths of entries and of standing values beside n.
    fn lengths(&self) -> (Ordering, Ordering) {
        let n = self.n as usize;
        (self.entries.len().cmp(&n), self.standing.len().cmp(&n))
    }

    /// Of 16 processes, with the most portions in each present entry and the largest standing value for each other.
    fn greatest(&self) -> u64 {
        self.marks.count_ones() as u64 * 65_535 + self.marks.count_zeros() as u64 * u32::MAX as u64
    }
}

impl Totals {
    pub fn count(&mut self, lists: &Lists, refused: u32, sum: u64) {
        self.0.count(TOTALS.map(|(_, meets)| meets(lists, refused, sum)));
    }

    /// What could be met and was not.
    pub fn missing(&self) -> Vec<&'static str> {
        self.0.missing().map(|i| TOTALS[i].0).collect()
    }

    fn report(&self) -> String {
        self.0.report(TOTALS.map(|(name, _)| name))
    }
}

impl Held {
    pub fn count(&mut self, place: usize) {
        self.0.count(std::array::from_fn(|i| i == place));
    }

    /// What could be met and was not.
    pub fn missing(&self) -> Vec<&'static str> {
        self.0.missing().map(|i| HELD[i]).collect()
    }
}

/// The refusals of the calls on a bench and of the aggregates.
const REFUSALS: [usize; 14] = [1, 2, 3, 4, 5, 6, 7, 8, 9, 10, 11, 12, 15, 16];

impl Met {
    pub fn answer(&mut self, number: u8) {
        self.answers[number as usize] += 1;
    }

    pub fn add(&mut self, other: &Met) {
        self.records += other.records;
        self.accepted += other.accepted;
        self.closings.add(&other.closings);
        self.bytes.add(&other.bytes);
        self.totals.0.add(&other.totals.0);
        self.listed.iter_mut().zip(&other.listed).for_each(|(sum, more)| sum.add(more));
        self.starts.add(&other.starts);
        self.summed.add(&other.summed);
        self.leads.add(&other.leads);
        self.deciding.add(&other.deciding);
        self.held.0.add(&other.held.0);
        self.closes.add(&other.closes);
        self.carried.iter_mut().zip(&other.carried).for_each(|(sum, more)| sum.add(more));
        self.across.add(&other.across);
        for (sum, more) in self.answers.iter_mut().zip(other.answers) {
            *sum += more;
        }
    }

    /// The refusals that were not met.
    pub fn missing(&self) -> Vec<usize> {
        REFUSALS.into_iter().filter(|&number| self.answers[number] == 0).collect()
    }

    /// What could be met of diet portions and was not.
    pub fn missing_values(&self) -> Vec<String> {
        let named = |names: Vec<&'static str>, of: &str| -> Vec<String> {
            names.into_iter().map(|name| format!("{of}: {name}")).collect()
        };
        let deciding =
            self.deciding.missing().into_iter().map(|difference| format!("closes: {difference:?}"));
        let mut missing: Vec<String> = deciding.collect();
        missing.extend(named(self.starts.missing(), "starts"));
        missing.extend(named(self.summed.missing(), "aggregates"));
        missing.extend(named(self.held.missing(), "too many diet portions"));
        missing
    }

    pub fn report(&self) -> String {
        let refusals: Vec<String> =
            REFUSALS.iter().map(|&number| format!("{number}: {}", self.answers[number])).collect();
        format!(
            "{} records, {} accepted; refusals {}; closings {}; totals {}; lists of schedules {}, of other states {}",
            self.records,
            self.accepted,
            refusals.join(", "),
            self.closings.report(),
            self.totals.report(),
            self.listed[1].report(),
            self.listed[0].report()
        )
    }

    /// What could be met of benches carried over and was not.
    pub fn missing_carried(&self) -> Vec<String> {
        let [others, reached] = &self.carried;
        let named = |of: &'static str| move |kind: &'static str| format!("{of}: {kind}");
        let mut missing: Vec<String> = others.missing().into_iter().map(named("other states")).collect();
        missing.extend(reached.missing_of_schedules().into_iter().map(named("schedules")));
        missing.extend(self.across.missing().into_iter().map(named("lists")));
        missing
    }

    /// Of benches carried over.
    pub fn report_carried(&self) -> String {
        let [others, reached] = &self.carried;
        let lists = self.across.report();
        format!("of schedules {}; of other states {}; lists {lists}", reached.report(), others.report())
    }

    /// Of diet portions.
    pub fn report_values(&self) -> String {
        format!(
            "starts {}; aggregates {}; closes where one differs in {}; too many diet portions {}",
            self.starts.report(),
            self.summed.report(),
            self.deciding.report(),
            self.held.0.report(HELD)
        )
    }
}
