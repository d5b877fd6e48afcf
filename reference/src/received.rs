//! Random closes where what was received is nearly equal to what is held, and the kinds of closes that a test has met.

use crate::gen::{self, Rng};
use crate::kinds::Kinds;
use crate::layout::{all, bit, members, row};
use crate::values::any_value;
use crate::{Bench, Closing, GlobalData, Process};

/// A sound state of t at least 1 in which the close of a process, counted from 0, is due, mostly before the last round
/// and with equal sets. What it received is what it holds, but for some entries of some.
pub fn nearly_equal(rng: &mut Rng, n: u8, t: u8) -> (Bench, usize) {
    let junk = rng.percent(50);
    let mut bench = gen::random_state(rng, n, t, junk);
    let a = rng.below(n as usize);
    make_due(rng, &mut bench, a);
    let (held, round, next) = (any_data(rng, n), bench.processes[a].round, next_of(&bench, a));
    bench.processes[a].estimate = held;
    for m in 0..n as usize {
        let sent = &mut bench.sent[row(m, round)];
        *sent = held;
        if rng.percent(20) {
            change_unread(rng, sent);
        }
    }
    change_some(rng, &mut bench, round, next & !bit(a));
    if rng.percent(50) {
        // What a close does not read: its own, and those of others than members.
        members(all(n) & (!next | bit(a))).for_each(|m| change(rng, n, &mut bench.sent[row(m, round)]));
    }
    (bench, a)
}

/// The sets and the round of a close that is due. Who is missing is suspected, and some that arrived are not expected.
fn make_due(rng: &mut Rng, bench: &mut Bench, a: usize) {
    let everyone = all(bench.n);
    let any = rng.subset(everyone);
    let next = if rng.percent(40) { everyone } else { any } & !bit(a);
    let missing = if rng.percent(30) { rng.subset(everyone & !next & !bit(a)) } else { 0 };
    let own = if rng.percent(90) { bit(a) } else { 0 };
    let round = if rng.percent(90) { 1 + rng.below(bench.t as usize) } else { bench.t as usize + 1 };
    let others = rng.subset(everyone);
    bench.crashed &= !bit(a);
    let p = &mut bench.processes[a];
    (p.round, p.decided, p.outbox) = (round as u8, 0, 0);
    (p.current, p.suspected) = (next | missing | own, p.suspected | missing);
    p.received[round - 1] = next | others & !missing & !p.current;
    p.previous = if rng.percent(85) { next | own } else { rng.pick(&[p.current, others]) };
}

/// The paper's after-set of a close that is due; its own estimate counts as arrived.
fn next_of(bench: &Bench, a: usize) -> u16 {
    let p = &bench.processes[a];
    p.current & (p.received[p.round as usize - 1] | bit(a))
}

/// Any values, and most entries present.
fn any_data(rng: &mut Rng, n: u8) -> GlobalData {
    let present = if rng.percent(30) { all(n) } else { rng.subset(all(n)) };
    GlobalData { present, values: std::array::from_fn(|_| any_value(rng).word()) }
}

/// What some of these senders sent in a round is changed: of none, the first, the last, any one, all alike, or some.
fn change_some(rng: &mut Rng, bench: &mut Bench, round: u8, senders: u16) {
    let senders: Vec<usize> = members(senders).collect();
    let Some((&first, &last)) = senders.first().zip(senders.last()) else { return };
    let (n, any) = (bench.n, rng.pick(&senders));
    match rng.below(6) {
        0 => {}
        1 => change(rng, n, &mut bench.sent[row(first, round)]),
        2 => change(rng, n, &mut bench.sent[row(last, round)]),
        3 => change(rng, n, &mut bench.sent[row(any, round)]),
        4 => {
            change(rng, n, &mut bench.sent[row(any, round)]);
            senders.iter().for_each(|&m| bench.sent[row(m, round)] = bench.sent[row(any, round)]);
        }
        _ => {
            let part = rng.pick(&[40, 100]);
            let some: Vec<usize> = senders.into_iter().filter(|_| rng.percent(part)).collect();
            some.into_iter().for_each(|m| change(rng, n, &mut bench.sent[row(m, round)]));
        }
    }
}

/// One entry becomes present with any value, or absent, or its word another one; or words that nobody reads change.
fn change(rng: &mut Rng, n: u8, data: &mut GlobalData) {
    let i = rng.below(n as usize);
    match rng.below(4) {
        0 => data.set(i, any_value(rng)),
        1 => data.present &= !bit(i),
        2 => data.values[i] ^= 1 << rng.below(32),
        _ => change_unread(rng, data),
    }
}

fn change_unread(rng: &mut Rng, data: &mut GlobalData) {
    members(!data.present).for_each(|i| data.values[i] = rng.number());
}

/// An accepted close of a process, counted from 0: the bench before it, how it ended, and the new estimate.
pub struct Closed<'a> {
    pub bench: &'a Bench,
    pub a: usize,
    pub closing: Closing,
    pub new: &'a GlobalData,
}

/// How one of two global data lies beside the other.
#[derive(Clone, Copy, Default)]
struct Beside {
    /// Present where the other is absent.
    more: bool,
    /// Absent where the other is present.
    less: bool,
    /// Another value where both are present.
    other: bool,
    /// Another word where both are absent.
    unread: bool,
    /// Another word at n or past it.
    past: bool,
}

impl Beside {
    fn of(one: &GlobalData, other: &GlobalData, n: u8) -> Beside {
        let mut beside = Beside::default();
        for i in 0..Bench::MAX {
            let word = one.values[i] != other.values[i];
            match (one.present & bit(i) != 0, other.present & bit(i) != 0) {
                _ if i >= n as usize => beside.past |= word,
                (true, false) => beside.more = true,
                (false, true) => beside.less = true,
                (true, true) => beside.other |= word,
                (false, false) => beside.unread |= word,
            }
        }
        beside
    }

    fn differs(&self) -> bool {
        self.more || self.less || self.other
    }
}

/// A close as `KINDS` ask for it.
struct Seen<'a> {
    close: &'a Closed<'a>,
    next: u16,
    /// Of the members but a, lowest first: what each sent, and how it lies beside the old estimate.
    rows: Vec<(&'a GlobalData, Beside)>,
}

impl<'a> Seen<'a> {
    fn new(close: &'a Closed) -> Seen<'a> {
        let Closed { bench, a, .. } = *close;
        let (p, next) = (&bench.processes[a], next_of(bench, a));
        let row = |m| {
            let sent = &bench.sent[row(m, p.round)];
            (sent, Beside::of(sent, &p.estimate, bench.n))
        };
        Seen { close, next, rows: members(next & !bit(a)).map(row).collect() }
    }

    /// The process before its close.
    fn process(&self) -> &Process {
        &self.close.bench.processes[self.close.a]
    }

    fn sets_equal(&self) -> bool {
        self.process().previous == self.next
    }

    fn is_last(&self) -> bool {
        self.process().round == self.close.bench.t + 1
    }

    /// The estimates alone tell how it ends.
    fn tells(&self) -> bool {
        !self.is_last() && self.sets_equal()
    }

    fn agreed(&self) -> bool {
        self.close.closing == Closing::Agreed
    }

    fn any(&self, meets: fn(&Beside) -> bool) -> bool {
        self.rows.iter().any(|(_, beside)| meets(beside))
    }

    fn count(&self, meets: fn(&Beside) -> bool) -> usize {
        self.rows.iter().filter(|(_, beside)| meets(beside)).count()
    }

    fn all_differ(&self) -> bool {
        self.rows.len() > 1 && self.count(Beside::differs) == self.rows.len()
    }

    /// Of more than one, only the one at this place differs.
    fn alone(&self, place: usize) -> bool {
        self.tells()
            && self.rows.len() > 1
            && self.count(Beside::differs) == 1
            && self.rows.get(place).is_some_and(|(_, beside)| beside.differs())
    }

    fn last_place(&self) -> usize {
        self.rows.len().saturating_sub(1)
    }

    fn differ(&self, one: &GlobalData, other: &GlobalData) -> bool {
        Beside::of(one, other, self.close.bench.n).differs()
    }

    /// Two members show different values of an entry that the old estimate lacks.
    fn two_values(&self) -> bool {
        let absent = all(self.close.bench.n) & !self.process().estimate.present;
        let values = |i| self.rows.iter().filter_map(move |(row, _)| row.entry(i));
        members(absent).any(|i| values(i).any(|value| Some(value) != values(i).next()))
    }

    /// What one of these sent in the round differs, whether or not a close reads it.
    fn sent_differs(&self, of: u16) -> bool {
        let (p, sent) = (self.process(), &self.close.bench.sent);
        members(of).any(|m| self.differ(&sent[row(m, p.round)], &p.estimate))
    }
}

type Meets = fn(&Seen) -> bool;

/// A schedule can meet it, or only another state can.
const REACHED: bool = true;
const OTHER: bool = false;

/// What a close can meet, and whether a schedule can. Those of what differs mostly have equal sets before the last
/// round, so that it alone tells.
const KINDS: [(&str, bool, Meets); 27] = [
    ("agreed with others", REACHED, |x| x.agreed() && !x.rows.is_empty()),
    ("agreed alone", REACHED, |x| x.agreed() && x.rows.is_empty()),
    ("agreed by fewer than n", REACHED, |x| {
        x.agreed() && !x.rows.is_empty() && x.next != all(x.close.bench.n)
    }),
    ("agreed with an entry absent", REACHED, |x| x.agreed() && x.close.new.present != all(x.close.bench.n)),
    ("agreed with other words under absent entries", OTHER, |x| x.agreed() && x.any(|beside| beside.unread)),
    ("agreed with other words past n", OTHER, |x| x.agreed() && x.any(|beside| beside.past)),
    ("agreed where one differs that is no member", REACHED, |x| {
        x.agreed() && x.sent_differs(all(x.close.bench.n) & !x.next & !bit(x.close.a))
    }),
    ("agreed where its own row differs", OTHER, |x| x.agreed() && x.sent_differs(bit(x.close.a))),
    ("agreed without a in its set", OTHER, |x| x.agreed() && x.next & bit(x.close.a) == 0),
    ("filled entries alone differ", REACHED, |x| {
        x.tells() && x.any(|beside| beside.more) && !x.any(|beside| beside.less || beside.other)
    }),
    ("values alone differ", OTHER, |x| {
        x.tells() && x.any(|beside| beside.other) && !x.any(|beside| beside.more || beside.less)
    }),
    ("absent entries alone differ", REACHED, |x| {
        x.tells() && x.any(|beside| beside.less) && !x.any(|beside| beside.more || beside.other)
    }),
    ("one of fewer than n differs", REACHED, |x| {
        x.tells() && x.next != all(x.close.bench.n) && x.count(Beside::differs) == 1
    }),
    ("the first alone differs", REACHED, |x| x.alone(0)),
    ("the last alone differs", REACHED, |x| x.alone(x.last_place())),
    ("one between alone differs", REACHED, |x| (1..x.last_place()).any(|place| x.alone(place))),
    ("all are equal but for the old one", REACHED, |x| {
        x.tells() && x.all_differ() && x.rows.iter().all(|(row, _)| !x.differ(row, x.close.new))
    }),
    ("all differ from the old one and from each other", REACHED, |x| {
        let differ = |q: usize| (0..q).all(|p| x.differ(x.rows[p].0, x.rows[q].0));
        x.tells() && x.all_differ() && (1..x.rows.len()).all(differ)
    }),
    ("only the last equals the new one", REACHED, |x| {
        let equal = |(row, _): &(&GlobalData, Beside)| !x.differ(row, x.close.new);
        x.tells() && x.rows.iter().position(equal).is_some_and(|place| place > 0 && place == x.last_place())
    }),
    ("the last alone fills", REACHED, |x| {
        x.count(|beside| beside.more) == 1 && x.rows.len() > 1 && x.rows[x.last_place()].1.more
    }),
    ("one fills after one that differs", REACHED, |x| {
        let differs = x.rows.iter().position(|(_, beside)| beside.differs());
        let fills = x.rows.iter().rposition(|(_, beside)| beside.more);
        differs.zip(fills).is_some_and(|(differs, fills)| differs < fills)
    }),
    ("two values for an absent entry", OTHER, |x| x.two_values()),
    ("equal words, but one is under an absent entry", REACHED, |x| {
        let held = &x.process().estimate;
        let hidden = |row: &GlobalData| row.values == held.values && row.present != held.present;
        x.tells() && x.count(Beside::differs) == 1 && x.rows.iter().any(|(row, _)| hidden(row))
    }),
    ("all equal, but not the sets", REACHED, |x| {
        !x.is_last() && !x.sets_equal() && !x.rows.is_empty() && !x.any(Beside::differs)
    }),
    ("all equal, and all were expected in both rounds but not all received", REACHED, |x| {
        let p = x.process();
        !x.is_last() && p.previous == p.current && !x.sets_equal() && !x.any(Beside::differs)
    }),
    ("all equal in the last round", REACHED, |x| {
        x.is_last() && x.sets_equal() && !x.rows.is_empty() && !x.any(Beside::differs)
    }),
    ("filled in the last round", REACHED, |x| x.is_last() && x.any(|beside| beside.more)),
];

/// How often each of `KINDS` was met.
#[derive(Clone, Copy, PartialEq, Eq, Debug, Default)]
pub struct Closes(Kinds<{ KINDS.len() }>);

impl Closes {
    pub fn count(&mut self, close: &Closed) {
        let seen = Seen::new(close);
        self.0.count(KINDS.map(|(_, _, meets)| meets(&seen)));
    }

    pub fn add(&mut self, other: &Closes) {
        self.0.add(&other.0);
    }

    /// What could be met and was not.
    pub fn missing(&self) -> Vec<&'static str> {
        self.0.missing().map(|i| KINDS[i].0).collect()
    }

    /// The same of what schedules can meet.
    pub fn missing_of_schedules(&self) -> Vec<&'static str> {
        self.0.missing().filter(|&i| KINDS[i].1 == REACHED).map(|i| KINDS[i].0).collect()
    }

    pub fn report(&self) -> String {
        self.0.report(KINDS.map(|(name, _, _)| name))
    }
}
