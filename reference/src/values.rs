//! Random values in which the diet may exceed the portions, starts and states with them, and the kinds of starts and
//! closes that a test has met.

use crate::gen::{self, Adversary, Rng};
use crate::kinds::Kinds;
use crate::layout::{all, bit, members};
use crate::{Bench, Closing, GlobalData, Value};

/// More diet portions than portions, often by one and often at an end.
pub fn exceeding(rng: &mut Rng) -> Value {
    let any = rng.below(65_535) as u16;
    let portions = rng.pick(&[0, 0, 1, 40, 65_534, any]);
    let above = 1 + rng.below(65_535 - portions as usize) as u16;
    Value::new(portions, portions + rng.pick(&[1, 1, above, 65_535 - portions]))
}

/// Any value: in one of three more diet portions than portions.
pub fn any_value(rng: &mut Rng) -> Value {
    if rng.below(3) == 0 {
        return exceeding(rng);
    }
    rng.value()
}

/// A start, mostly with more diet portions than portions; sometimes its kind, a field or its length is wrong too.
pub fn doubtful_start(rng: &mut Rng, n: u8, t: u8) -> Vec<u8> {
    let value = if rng.percent(80) { exceeding(rng) } else { rng.value() };
    let mut record = gen::start(1 + rng.below(n as usize) as u8, value);
    match rng.below(10) {
        0 => record.kind = rng.pick(&[0, 7, 255]),
        1 => record.kind = 2 + rng.below(5) as u8,
        2 => record.a = rng.pick(&[0, n + 1, 255]),
        3 => record.b = 1 + rng.below(n as usize + 1) as u8,
        4 => record.r = 1 + rng.below(t as usize + 2) as u8,
        _ => {}
    }
    let mut bytes = record.bytes().to_vec();
    if rng.percent(10) {
        bytes.resize(rng.pick(&[0, 7, 9, 16]), 0);
    }
    bytes
}

/// Records to give one by one: half of them accepted, half such starts.
pub fn records(n: u8, t: u8, seed: u64) -> Vec<Vec<u8>> {
    gen::records_by(Adversary::new(seed), n, t, 50, doubtful_start)
}

/// Any values in all global data of a state, in many of them the same.
pub fn spread(rng: &mut Rng, bench: &mut Bench) {
    let common: [u32; Bench::MAX] = std::array::from_fn(|_| any_value(rng).word());
    let estimates = bench.processes.iter_mut().map(|p| &mut p.estimate);
    for data in estimates.chain(&mut bench.sent) {
        data.values = common;
        if rng.percent(30) {
            data.values[rng.below(Bench::MAX)] = any_value(rng).word();
        }
    }
}

/// In what one of some equal global data differs.
#[derive(Clone, Copy, PartialEq, Eq, Debug)]
pub enum Difference {
    Nothing,
    Diet,
    Portions,
    /// Diet portions for portions.
    Swapped,
    /// A word under an absent entry.
    Unread,
    /// An entry is absent.
    Mark,
}

impl Difference {
    pub const ALL: [Difference; 6] = [
        Difference::Nothing,
        Difference::Diet,
        Difference::Portions,
        Difference::Swapped,
        Difference::Unread,
        Difference::Mark,
    ];

    /// The estimates are not equal.
    pub fn tells(self) -> bool {
        !matches!(self, Difference::Nothing | Difference::Unread)
    }

    /// A difference in entry i, which is absent only for `Unread`.
    fn make(self, data: &mut GlobalData, i: usize, rng: &mut Rng) {
        let Value { portions, diet } = Value::from_word(data.values[i]);
        let other = 1 + rng.below(65_535) as u16;
        let value = match self {
            Difference::Diet => Value::new(portions, diet ^ other),
            Difference::Portions => Value::new(portions ^ other, diet),
            Difference::Swapped => Value::new(diet, portions),
            Difference::Unread => Value::new(portions ^ other, diet ^ other),
            Difference::Nothing | Difference::Mark => Value::new(portions, diet),
        };
        data.values[i] = value.word();
        if self == Difference::Mark {
            data.present &= !bit(i);
        }
    }
}

/// A state of t at least 1 in which a process, counted from 0, may close before the last round: its sets are equal,
/// and so are its estimate and all that it received, but for one of these.
pub fn nearly_agreed(rng: &mut Rng, n: u8, t: u8, difference: Difference) -> (Bench, usize) {
    let junk = rng.percent(50);
    let mut bench = gen::random_state(rng, n, t, junk);
    let (a, i) = (rng.below(n as usize), rng.below(n as usize));
    let other = (a + 1 + rng.below(n as usize - 1)) % n as usize;
    let next = rng.subset(all(n)) | bit(a) | bit(other);
    let round = 1 + rng.below(t as usize);
    bench.crashed &= !bit(a);
    let p = &mut bench.processes[a];
    (p.round, p.decided, p.outbox) = (round as u8, 0, 0);
    (p.previous, p.current, p.received[round - 1]) = (next, next, next & !bit(a));
    p.estimate = agreed_data(rng, n, i, difference);
    let estimate = p.estimate;
    for m in members(next & !bit(a)) {
        bench.sent[m * Bench::MAX + round - 1] = estimate;
    }
    difference.make(&mut bench.sent[other * Bench::MAX + round - 1], i, rng);
    (bench, a)
}

/// Any values, and where they are to be swapped entry i has two numbers.
fn agreed_data(rng: &mut Rng, n: u8, i: usize, difference: Difference) -> GlobalData {
    let mut data = gen::random_data(rng, all(n));
    data.values = std::array::from_fn(|_| any_value(rng).word());
    match difference {
        Difference::Unread => data.present &= !bit(i),
        _ => data.present |= bit(i),
    }
    let Value { portions, diet } = data.value(i);
    if difference == Difference::Swapped && portions == diet {
        data.set(i, Value::new(portions, !diet));
    }
    data
}

/// One record that is, or is meant to be, a start: the bench before it, and its answer.
pub struct Start<'a> {
    pub bench: &'a Bench,
    pub record: &'a [u8],
    pub answer: u8,
}

/// How often each of `STARTS` was met.
#[derive(Clone, Copy, PartialEq, Eq, Debug, Default)]
pub struct Starts(Kinds<{ STARTS.len() }>);

type Meets = fn(&Start) -> bool;

/// What a start can meet. Those with 15 second have too many diet portions, but are refused for what is checked first.
const STARTS: [(&str, Meets); 20] = [
    ("2 and 15", |x| x.exceeds(1) && x.answer == 2),
    ("3 and 15", |x| x.exceeds(1) && x.answer == 3),
    ("4 and 15", |x| (x.exceeds(0) || x.exceeds(7)) && x.answer == 4),
    ("5 and 15 by a", |x| x.exceeds(1) && x.answer == 5 && x.fields()[1..] == [0, 0]),
    ("5 and 15 by b", |x| x.exceeds(1) && x.answer == 5 && x.fields()[1] != 0),
    ("5 and 15 by r", |x| x.exceeds(1) && x.answer == 5 && x.fields()[2] != 0),
    ("5 of another kind", |x| (2..=6).any(|kind| x.exceeds(kind)) && x.answer == 5),
    ("15 alone", |x| x.answer == 15 && !x.crashed() && !x.started()),
    ("15 and 6", |x| x.answer == 15 && x.crashed() && !x.started()),
    ("15 and 7", |x| x.answer == 15 && !x.crashed() && x.started()),
    ("15, 6 and 7", |x| x.answer == 15 && x.crashed() && x.started()),
    ("15 by one portion", |x| x.answer == 15 && x.value().1 == x.value().0 + 1),
    ("0/1", |x| x.answer == 15 && x.value() == (0, 1)),
    ("0/65535", |x| x.answer == 15 && x.value() == (0, 65_535)),
    ("65534/65535", |x| x.answer == 15 && x.value() == (65_534, 65_535)),
    ("accepted 0/0", |x| x.accepted() && x.value() == (0, 0)),
    ("accepted 1/1", |x| x.accepted() && x.value() == (1, 1)),
    ("accepted 65535/0", |x| x.accepted() && x.value() == (65_535, 0)),
    ("accepted 65535/65535", |x| x.accepted() && x.value() == (65_535, 65_535)),
    ("accepted between", |x| x.accepted() && x.value().1 > 0 && x.value().1 < x.value().0),
];

impl Start<'_> {
    fn byte(&self, place: usize) -> u32 {
        self.record.get(place).map_or(0, |&byte| byte as u32)
    }

    /// a, b and r.
    fn fields(&self) -> [u32; 3] {
        [1, 2, 3].map(|place| self.byte(place))
    }

    /// Portions and diet portions, by the bytes.
    fn value(&self) -> (u32, u32) {
        (self.byte(4) + 256 * self.byte(5), self.byte(6) + 256 * self.byte(7))
    }

    /// Of this kind, with too many diet portions for a start.
    fn exceeds(&self, kind: u32) -> bool {
        !self.record.is_empty() && self.byte(0) == kind && self.value().1 > self.value().0
    }

    fn accepted(&self) -> bool {
        self.byte(0) == 1 && self.answer == 0
    }

    fn crashed(&self) -> bool {
        self.bench.has_crashed(self.record[1] as usize - 1)
    }

    fn started(&self) -> bool {
        self.bench.processes[self.record[1] as usize - 1].round != 0
    }

    /// 15 is answered exactly where the state is sound, the record passes 3 to 5, and its diet portions are too many.
    /// Of the state it asks nothing else.
    pub fn is_by_rule(&self) -> bool {
        let [a, b, r] = self.fields();
        let good = self.record.len() == 8 && b == 0 && r == 0 && (1..=self.bench.n as u32).contains(&a);
        (self.answer == 15) == (self.bench.is_sound() && good && self.exceeds(1))
    }
}

impl Starts {
    pub fn count(&mut self, start: &Start) {
        self.0.count(STARTS.map(|(_, meets)| meets(start)));
    }

    pub fn add(&mut self, other: &Starts) {
        self.0.add(&other.0);
    }

    /// What could be met and was not.
    pub fn missing(&self) -> Vec<&'static str> {
        self.0.missing().map(|i| STARTS[i].0).collect()
    }

    pub fn report(&self) -> String {
        self.0.report(STARTS.map(|(name, _)| name))
    }
}

/// How often the close of a state from `nearly_agreed` ended as it must, by the difference.
#[derive(Clone, Copy, PartialEq, Eq, Debug, Default)]
pub struct Deciding(Kinds<{ Difference::ALL.len() }>);

impl Deciding {
    /// Agreed exactly where the estimates are equal: counts it, or gives what is wrong.
    pub fn count(&mut self, difference: Difference, closing: Closing) -> Result<(), String> {
        let expected = if difference.tells() { Closing::NextRound } else { Closing::Agreed };
        if closing != expected {
            return Err(format!("{difference:?} differs: {closing:?}, by the rule {expected:?}"));
        }
        self.0.count(Difference::ALL.map(|one| one == difference));
        Ok(())
    }

    pub fn add(&mut self, other: &Deciding) {
        self.0.add(&other.0);
    }

    pub fn missing(&self) -> Vec<Difference> {
        self.0.missing().map(|i| Difference::ALL[i]).collect()
    }

    pub fn report(&self) -> String {
        self.0.report(["nothing", "diet", "portions", "swapped", "unread", "mark"])
    }
}
