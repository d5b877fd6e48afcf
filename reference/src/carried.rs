//! Random records and states of a bench from before diet portions, the rule of carrying it over, and the kinds of
//! carryings that a test has met.

use crate::check::Broken;
use crate::gen::{self, Rng};
use crate::kinds::Kinds;
use crate::layout::bit;
use crate::{Bench, GlobalData, Process};

/// The largest count that is carried over.
const MOST: u32 = 65_535;

/// A count up to the largest that is carried over, often at an end.
pub fn small_count(rng: &mut Rng) -> u32 {
    let any = rng.draw() as u16 as u32;
    rng.pick(&[0, 1, 40, MOST, any])
}

/// A larger one, often the next. Some would be values with good diet portions, and some not.
pub fn large_count(rng: &mut Rng) -> u32 {
    let any = rng.draw() as u32 | 1 << (16 + rng.below(16));
    rng.pick(&[MOST + 1, MOST + 1, MOST + 2, 40 << 16, u32::MAX, any])
}

/// A start of 8 bytes, whatever its fields: what has a count.
pub fn is_start(record: &[u8]) -> bool {
    record.len() == Bench::RECORD && record[0] == 1
}

/// Records to give one by one to a bench of before: mostly accepted, `noise` in 100 doubtful or of a wrong length. Of
/// the counts in starts `large` in 100 are above 65,535. What is accepted does not hang on them.
pub fn records(n: u8, t: u8, seed: u64, noise: usize, large: usize) -> Vec<Vec<u8>> {
    let mut rng = Rng::new(!seed);
    let mut records = gen::records(n, t, seed, noise);
    for start in records.iter_mut().filter(|record| is_start(record)) {
        let count = if rng.percent(large) { large_count(&mut rng) } else { small_count(&mut rng) };
        start[4..].copy_from_slice(&count.to_le_bytes());
    }
    records
}

/// Counts up to 65,535 in all global data of a state, in many of them the same; then larger ones in none, one or some
/// of the words, present or not.
pub fn spread(rng: &mut Rng, bench: &mut Bench) {
    let common: [u32; Bench::MAX] = std::array::from_fn(|_| small_count(rng));
    let estimates = bench.processes.iter_mut().map(|p| &mut p.estimate);
    for data in estimates.chain(&mut bench.sent) {
        data.values = common;
        data.values[rng.below(Bench::MAX)] = small_count(rng);
    }
    for _ in 0..rng.pick(&[0, 1, 1, 1, 2, 20]) {
        *any_word(rng, bench) = large_count(rng);
    }
}

/// As often in an estimate as in a row, and mostly at an entry that can be present.
fn any_word<'a>(rng: &mut Rng, bench: &'a mut Bench) -> &'a mut u32 {
    let entries = if rng.percent(80) { (bench.n as usize).clamp(1, Bench::MAX) } else { Bench::MAX };
    let entry = rng.below(entries);
    let data = if rng.percent(50) {
        &mut bench.processes[rng.below(Bench::MAX)].estimate
    } else {
        &mut bench.sent[rng.below(Bench::MAX * Bench::MAX)]
    };
    &mut data.values[entry]
}

/// Another bit anywhere in a state.
pub fn flip(rng: &mut Rng, bench: &mut Bench) {
    let (set, byte) = (bit(rng.below(16)), 1 << rng.below(8));
    let p = &mut bench.processes[rng.below(Bench::MAX)];
    let sent = &mut bench.sent[rng.below(Bench::MAX * Bench::MAX)];
    match rng.below(14) {
        0 => bench.n ^= byte,
        1 => bench.t ^= byte,
        2 => p.round ^= byte,
        3 => p.decided ^= byte,
        4 => bench.crashed ^= set,
        5 => p.previous ^= set,
        6 => p.current ^= set,
        7 => p.suspected ^= set,
        8 => p.outbox ^= set,
        9 => p.received[rng.below(Bench::MAX)] ^= set,
        10 => p.estimate.present ^= set,
        11 => sent.present ^= set,
        12 => bench.in_transit[rng.below(Bench::MAX * Bench::SLOTS)] ^= set,
        _ => *any_word(rng, bench) ^= 1 << rng.below(32),
    }
}

/// A word above 65,535: in an estimate, or in the row of a round from 1. Process and entry are counted from 0.
struct Large<'a> {
    bench: &'a Bench,
    process: usize,
    round: Option<usize>,
    entry: usize,
    word: u32,
}

impl Large<'_> {
    fn owner(&self) -> &Process {
        &self.bench.processes[self.process]
    }

    fn in_estimate(&self) -> bool {
        self.round.is_none()
    }

    fn past_n(&self) -> bool {
        self.process >= self.bench.n as usize
    }

    /// In the row of a round above this one.
    fn later_than(&self, round: u8) -> bool {
        self.round.is_some_and(|own| own > round as usize)
    }

    fn place(&self) -> String {
        let Large { process, round, entry, word, .. } = self;
        format!("{word} in entry {entry} of process {process}, round {round:?}")
    }
}

/// One carrying: the bench before it, its answer, and what the words say.
pub struct Carrying<'a> {
    before: &'a Bench,
    answer: u32,
    /// In present entries.
    large: Vec<Large<'a>>,
    /// In absent ones, where they are no counts.
    unread: Vec<Large<'a>>,
    /// The largest count.
    most: u32,
}

impl<'a> Carrying<'a> {
    pub fn new(before: &'a Bench, answer: u32) -> Carrying<'a> {
        let mut carrying = Carrying { before, answer, large: Vec::new(), unread: Vec::new(), most: 0 };
        for (process, p) in before.processes.iter().enumerate() {
            carrying.look(&p.estimate, process, None);
        }
        for (i, sent) in before.sent.iter().enumerate() {
            carrying.look(sent, i / Bench::MAX, Some(i % Bench::MAX + 1));
        }
        carrying
    }

    fn look(&mut self, data: &GlobalData, process: usize, round: Option<usize>) {
        for (entry, &word) in data.values.iter().enumerate() {
            let present = data.present >> entry & 1 == 1;
            if present {
                self.most = self.most.max(word);
            }
            if word > MOST {
                let list = if present { &mut self.large } else { &mut self.unread };
                list.push(Large { bench: self.before, process, round, entry, word });
            }
        }
    }

    /// Nothing, or what is not by the rule. Carried or not, the state is as before: as a word, a count up to 65,535 is
    /// as many portions with no diet portions.
    pub fn check(&self, after: &Bench) -> Result<(), Broken> {
        let rule = match (self.before.is_sound(), self.large.is_empty()) {
            (false, _) => 2,
            (true, false) => 16,
            (true, true) => 0,
        };
        if self.answer != rule {
            let large = self.large.first().map_or("none".into(), Large::place);
            return Err(format!("carrying: {}, by the rule {rule}; first large count: {large}", self.answer));
        }
        if after != self.before {
            return Err(format!("carrying: another state after {}", self.answer));
        }
        Ok(())
    }

    /// 16, and every count above 65,535 is so.
    fn by(&self, so: fn(&Large) -> bool) -> bool {
        self.answer == 16 && self.large.iter().all(so)
    }

    /// Accepted, and a process of the bench is so.
    fn with(&self, so: fn(&Process) -> bool) -> bool {
        self.answer == 0 && self.before.processes[..self.before.n as usize].iter().any(so)
    }

    /// Accepted, and a word above 65,535 is so, under an absent entry.
    fn under_absent(&self, so: fn(&Large) -> bool) -> bool {
        self.answer == 0 && self.unread.iter().any(so)
    }
}

/// How often each of `KINDS` was met.
#[derive(Clone, Copy, PartialEq, Eq, Debug, Default)]
pub struct Carryings(Kinds<{ KINDS.len() }>);

type Meets = fn(&Carrying) -> bool;

/// Whether schedules lead there: who has started holds its own count, and has sent it.
const REACHED: bool = true;
const OTHER: bool = false;

/// What carrying over can meet.
const KINDS: [(&str, bool, Meets); 26] = [
    ("accepted before any start", REACHED, |x| {
        x.answer == 0 && x.before.processes.iter().all(|p| p.round == 0)
    }),
    ("accepted with an undecided process", REACHED, |x| x.with(|p| p.round > 0 && !p.has_decided())),
    ("accepted with a decided process", REACHED, |x| x.with(|p| p.round > 0 && p.has_decided())),
    ("accepted with a crash", REACHED, |x| x.answer == 0 && x.before.crashed != 0),
    ("accepted with messages in transit", REACHED, |x| {
        x.answer == 0 && x.before.in_transit.iter().any(|receivers| *receivers != 0)
    }),
    ("accepted with 65535", REACHED, |x| x.answer == 0 && x.most == MOST),
    ("accepted, large under an absent entry of an estimate", OTHER, |x| {
        x.under_absent(|large| large.in_estimate())
    }),
    ("accepted, large under an absent entry of a row", OTHER, |x| {
        x.under_absent(|large| !large.in_estimate())
    }),
    ("2 alone", OTHER, |x| x.answer == 2 && x.large.is_empty()),
    ("2 and 16", OTHER, |x| x.answer == 2 && !x.large.is_empty()),
    ("16 by estimates and rows", REACHED, |x| {
        x.answer == 16 && !x.by(|large| large.in_estimate()) && !x.by(|large| !large.in_estimate())
    }),
    ("16 by 65536 alone", REACHED, |x| x.by(|large| large.word == MOST + 1)),
    ("16 by 4294967295 alone", REACHED, |x| x.by(|large| large.word == u32::MAX)),
    ("16 by what would be a good value", REACHED, |x| x.by(|large| large.word >> 16 <= large.word & MOST)),
    ("16 by the first entry alone", REACHED, |x| x.by(|large| large.bench.n > 1 && large.entry == 0)),
    ("16 by the last entry alone", REACHED, |x| {
        x.by(|large| large.bench.n > 1 && large.entry + 1 == large.bench.n as usize)
    }),
    ("16 by an estimate alone", OTHER, |x| x.by(|large| large.in_estimate())),
    ("16 by a row alone", OTHER, |x| x.by(|large| !large.in_estimate())),
    ("16 by the estimate of a crashed process", OTHER, |x| {
        x.by(|large| large.in_estimate() && large.bench.has_crashed(large.process))
    }),
    ("16 by the estimate of an unstarted process", OTHER, |x| {
        x.by(|large| large.in_estimate() && !large.past_n() && large.owner().round == 0)
    }),
    ("16 by the estimate of a decided process", OTHER, |x| {
        x.by(|large| large.in_estimate() && !large.past_n() && large.owner().has_decided())
    }),
    ("16 by an estimate past n", OTHER, |x| x.by(|large| large.in_estimate() && large.past_n())),
    ("16 by the row of a crashed process", OTHER, |x| {
        x.by(|large| !large.in_estimate() && large.bench.has_crashed(large.process))
    }),
    ("16 by the row of a round not opened", OTHER, |x| {
        x.by(|large| !large.past_n() && large.later_than(large.owner().round))
    }),
    ("16 by the row of a round past t+1", OTHER, |x| {
        x.by(|large| !large.past_n() && large.later_than(large.bench.t + 1))
    }),
    ("16 by a row past n", OTHER, |x| x.by(|large| !large.in_estimate() && large.past_n())),
];

impl Carryings {
    pub fn count(&mut self, carrying: &Carrying) {
        self.0.count(KINDS.map(|(_, _, meets)| meets(carrying)));
    }

    pub fn add(&mut self, other: &Carryings) {
        self.0.add(&other.0);
    }

    /// What could be met and was not.
    pub fn missing(&self) -> Vec<&'static str> {
        self.0.missing().map(|i| KINDS[i].0).collect()
    }

    /// What schedules can meet and was not met.
    pub fn missing_of_schedules(&self) -> Vec<&'static str> {
        self.0.missing().filter(|&i| KINDS[i].1 == REACHED).map(|i| KINDS[i].0).collect()
    }

    pub fn report(&self) -> String {
        self.0.report(KINDS.map(|(name, _, _)| name))
    }
}

/// How often each of `ACROSS` was met.
#[derive(Clone, Copy, PartialEq, Eq, Debug, Default)]
pub struct Across(Kinds<{ ACROSS.len() }>);

/// What a list of calls that is carried over on its way can meet.
const ACROSS: [&str; 6] = [
    "carried before any record",
    "carried after a crash",
    "carried after a decision",
    "decided since",
    "started with diet portions since",
    "16 where carried again",
];

impl Across {
    /// The bench where it was carried over, the bench at the end, and the answer to carrying that over again.
    pub fn count(&mut self, carried: &Bench, end: &Bench, again: u8) {
        let new = Bench::open(carried.n, carried.t);
        let decided = |bench: &Bench| bench.processes.iter().filter(|p| p.has_decided()).count();
        let diet = |bench: &Bench| bench.sent.iter().flat_map(|data| data.values).any(|word| word > MOST);
        self.0.count([
            new == Ok(*carried),
            carried.crashed != 0,
            decided(carried) > 0,
            decided(end) > decided(carried),
            diet(end),
            again == 16,
        ]);
    }

    pub fn add(&mut self, other: &Across) {
        self.0.add(&other.0);
    }

    /// What could be met and was not.
    pub fn missing(&self) -> Vec<&'static str> {
        self.0.missing().map(|i| ACROSS[i]).collect()
    }

    pub fn report(&self) -> String {
        self.0.report(ACROSS)
    }
}
