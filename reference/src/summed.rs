//! The aggregates by their rule, said a second time and slowly; random lists for them; and the kinds of these that a
//! test has met. Lists where many tie for the lead, and kinds of leads, are in `ties`.

use crate::aggregates;
use crate::gen::{self, Rng};
use crate::kinds::Kinds;
use crate::refusal::number;
use crate::values::{any_value, exceeding};

/// What the aggregates are given; total alone takes the standing values.
#[derive(Clone, Copy, Debug)]
pub struct Lists<'a> {
    pub n: u8,
    pub entries: &'a [u32],
    pub marks: u16,
    pub standing: &'a [u32],
}

/// What change is asked of, and what each lent word holds before, which a refusal must leave.
#[derive(Clone, Copy, Debug)]
pub struct Asked {
    pub process: u8,
    pub standing: u32,
    pub old: u64,
}

impl Asked {
    pub fn any(rng: &mut Rng, n: u8) -> Asked {
        let (standing, old) = (rng.number(), rng.draw());
        Asked { process: rng.pick(&[0, 1, 2, n, n.wrapping_add(1), old as u8]), standing, old }
    }
}

/// The answers of total, go, lead and change, and the words lent to each after it.
#[derive(Clone, Copy, PartialEq, Debug)]
pub struct Aggregates {
    pub answers: [u32; 4],
    pub total: u64,
    pub go: u8,
    pub lead: (u8, u32),
    pub change: i64,
}

impl Aggregates {
    /// Lead was not refused.
    pub fn leads(&self) -> bool {
        self.answers[LEAD] == 0
    }
}

const TOTAL: usize = 0;
const GO: usize = 1;
const LEAD: usize = 2;
const CHANGE: usize = 3;

/// By the reference.
pub fn aggregates_of(Lists { n, entries, marks, standing }: Lists, asked: Asked) -> Aggregates {
    let old = asked.old;
    let total = aggregates::total(n, entries, marks, standing);
    let go = aggregates::go(n, entries, marks);
    let lead = aggregates::lead(n, entries, marks);
    let change = aggregates::change(n, entries, marks, asked.process, asked.standing);
    Aggregates {
        answers: [number(&total), number(&go), number(&lead), number(&change)].map(u32::from),
        total: total.unwrap_or(old),
        go: go.map_or(old as u8, u8::from),
        lead: lead.map_or((old as u8, old as u32), |(process, portions)| (process, portions as u32)),
        change: change.unwrap_or(old as i64),
    }
}

/// A present entry: its place from 0, portions and diet portions.
type Placed = (usize, (i64, i64));

/// Of two entries the first does not lead: it has fewer portions; or not more, and fewer diet portions; or no more of
/// either, and a lower number.
fn gives_way(&(i, (portions, diet)): &Placed, &(j, (others, others_diet)): &Placed) -> bool {
    let fewer = portions < others;
    let less_diet = portions <= others && diet < others_diet;
    let lower = portions <= others && diet <= others_diet && i < j;
    fewer || less_diet || lower
}

/// One call of each: what was given and what was asked.
#[derive(Clone, Copy)]
struct Call<'a> {
    lists: Lists<'a>,
    asked: Asked,
}

impl Call<'_> {
    /// Entry i from 0, present or not, if the list has it: portions and diet portions.
    fn word(&self, i: usize) -> Option<(i64, i64)> {
        self.lists.entries.get(i).map(|&word| (word as i64 % 65_536, word as i64 / 65_536))
    }

    fn marked(&self, i: usize) -> bool {
        i < 16 && self.lists.marks >> i & 1 == 1
    }

    /// The entries that are present, each with its place.
    fn present(&self) -> Vec<Placed> {
        (0..16).filter(|&i| self.marked(i)).filter_map(|i| Some((i, self.word(i)?))).collect()
    }

    /// The places of those with more diet portions than portions.
    fn exceeding(&self) -> Vec<usize> {
        self.present().into_iter().filter(|(_, (portions, diet))| diet > portions).map(|(i, _)| i).collect()
    }

    /// A word under an absent entry is such a one.
    fn exceeds_unread(&self) -> bool {
        (0..16)
            .filter(|&i| !self.marked(i))
            .any(|i| self.word(i).is_some_and(|(portions, diet)| diet > portions))
    }

    /// The place of the entry that change is asked of.
    fn place(&self) -> usize {
        (self.asked.process as usize).wrapping_sub(1)
    }

    /// The refusals of a call, each with whether it applies, in the order in which they are checked.
    fn refusals(&self, of: usize) -> [(u32, bool); 5] {
        let (Lists { entries, marks, standing, .. }, n) = (self.lists, self.lists.n as usize);
        let absent = match of {
            LEAD => marks == 0,
            CHANGE => !self.marked(self.place()),
            _ => false,
        };
        [
            (1, !(1..=16).contains(&n)),
            (5, (n..16).any(|i| self.marked(i)) || of == CHANGE && self.place() >= n),
            (10, entries.len() != n || of == TOTAL && standing.len() != n),
            (15, !self.exceeding().is_empty()),
            (12, absent),
        ]
    }

    fn answer(&self, of: usize) -> u32 {
        self.refusals(of).into_iter().find(|(_, applies)| *applies).map_or(0, |(refusal, _)| refusal)
    }

    fn total(&self) -> i64 {
        let standing = |i: usize| self.lists.standing[i] as i64;
        let absent = (0..self.lists.n as usize).filter(|&i| !self.marked(i));
        absent.map(standing).sum::<i64>()
            + self.present().iter().map(|(_, (portions, _))| portions).sum::<i64>()
    }

    fn go(&self) -> bool {
        (0..self.lists.n as usize)
            .all(|i| self.marked(i) && self.word(i).is_some_and(|(portions, _)| portions > 0))
    }

    /// The one that each other present one gives way to, pair by pair.
    fn lead(&self) -> (u8, u32) {
        let present = self.present();
        let all_give_way =
            |one: &&Placed| present.iter().all(|other| other.0 == one.0 || gives_way(other, one));
        let leads: Vec<&Placed> = present.iter().filter(all_give_way).collect();
        match leads[..] {
            [&(i, (portions, _))] => (i as u8 + 1, portions as u32),
            _ => panic!("one alone leads, not {leads:?}"),
        }
    }

    fn change(&self) -> i64 {
        self.word(self.place()).expect("it is present").0 - self.asked.standing as i64
    }
}

/// What the four must give and leave.
pub fn by_rule(lists: Lists, asked: Asked) -> Aggregates {
    let (call, old) = (Call { lists, asked }, asked.old);
    let answers = [TOTAL, GO, LEAD, CHANGE].map(|of| call.answer(of));
    let good = answers.map(|answer| answer == 0);
    Aggregates {
        answers,
        total: if good[TOTAL] { call.total() as u64 } else { old },
        go: if good[GO] { call.go() as u8 } else { old as u8 },
        lead: if good[LEAD] { call.lead() } else { (old as u8, old as u32) },
        change: if good[CHANGE] { call.change() } else { old as i64 },
    }
}

/// Any n, entries, marks and standing values: no entry, one or any of them with too many diet portions.
pub fn any_lists(rng: &mut Rng) -> (u8, Vec<u32>, u16, Vec<u32>) {
    let any = rng.draw() as u8;
    let n = rng.pick(&[0, 1, 2, 3, 12, 16, 16, 17, any]);
    let length = if rng.percent(80) { n as usize } else { rng.below(20) };
    let mut entries: Vec<u32> = match rng.below(3) {
        0 => (0..length).map(|_| any_value(rng).word()).collect(),
        _ => (0..length).map(|_| rng.value().word()).collect(),
    };
    if !entries.is_empty() && rng.percent(40) {
        let any = rng.below(length);
        let i = rng.pick(&[0, length - 1, any]);
        entries[i] = exceeding(rng).word();
    }
    let all = if n < 16 { (1u16 << n) - 1 } else { u16::MAX };
    let among = if rng.percent(80) { all } else { u16::MAX };
    let marks = if rng.percent(50) { among } else { rng.subset(among) };
    let standing = gen::standing(rng, n);
    (n, entries, marks, standing)
}

/// How often each of `KINDS` was met.
#[derive(Clone, Copy, PartialEq, Eq, Debug, Default)]
pub struct Summed(Kinds<{ KINDS.len() }>);

type Meets = fn(&Call, &Aggregates) -> bool;

/// What the four can meet with more diet portions than portions in an entry, and what they must not read.
const KINDS: [(&str, Meets); 29] = [
    ("1 and 15", |x, y| x.too_many() && y.answers == [1; 4]),
    ("5 and 15 by marks", |x, y| x.too_many() && y.answers == [5; 4]),
    ("5 and 15 by the number of change", |x, y| x.too_many() && y.answers == [15, 15, 15, 5]),
    ("10 and 15 in all", |x, y| x.too_many() && y.answers == [10; 4]),
    ("10 and 15 by standing values", |_, y| y.answers[TOTAL] == 10 && y.answers[GO] == 15),
    ("15 of total", |_, y| y.answers[TOTAL] == 15),
    ("15 of go", |_, y| y.answers[GO] == 15),
    ("15 of go with one absent", |x, y| y.answers[GO] == 15 && x.present().len() < x.lists.n as usize),
    ("15 of lead", |_, y| y.answers[LEAD] == 15),
    ("15 of lead by one that would lead", |x, y| y.answers[LEAD] == 15 && x.exceeds_with_most()),
    ("15 of lead by others alone", |x, y| y.answers[LEAD] == 15 && !x.exceeds_with_most()),
    ("15 of change, its own entry alone", |x, y| y.answers[CHANGE] == 15 && x.exceeding() == [x.place()]),
    ("15 of change, another entry", |x, y| {
        y.answers[CHANGE] == 15 && x.marked(x.place()) && !x.exceeding().contains(&x.place())
    }),
    ("15 and 12 of change", |x, y| y.answers[CHANGE] == 15 && !x.marked(x.place())),
    ("15 by one portion", |x, y| {
        let one = |i: &usize| x.word(*i).is_some_and(|(portions, diet)| diet == portions + 1);
        y.answers[GO] == 15 && x.exceeding().iter().all(one)
    }),
    ("15 in entry 1 alone", |x, y| y.answers[GO] == 15 && x.lists.n > 1 && x.exceeding() == [0]),
    ("15 in entry 16 alone", |x, y| y.answers[GO] == 15 && x.exceeding() == [15]),
    ("total, too many under an absent entry", |x, y| y.answers[TOTAL] == 0 && x.exceeds_unread()),
    ("go, too many under an absent entry", |x, y| y.answers[GO] == 0 && x.exceeds_unread()),
    ("lead, too many under an absent entry", |x, y| y.answers[LEAD] == 0 && x.exceeds_unread()),
    ("change, too many under an absent entry", |x, y| y.answers[CHANGE] == 0 && x.exceeds_unread()),
    ("12 of lead, too many under an absent entry", |x, y| y.answers[LEAD] == 12 && x.exceeds_unread()),
    ("12 of change, too many under an absent entry", |x, y| y.answers[CHANGE] == 12 && x.exceeds_unread()),
    ("total of some diet portions", |x, y| y.answers[TOTAL] == 0 && x.some(|_, diet| diet > 0)),
    ("go with 0 portions", |x, y| {
        y.answers[GO] == 0 && x.all_marked() && x.some(|portions, _| portions == 0)
    }),
    ("go with 1/1", |x, y| {
        y.answers[GO] == 0 && y.go == 1 && x.some(|portions, diet| (portions, diet) == (1, 1))
    }),
    ("change of 65535", |_, y| y.answers[CHANGE] == 0 && y.change == 65_535),
    ("change of -4294967295", |_, y| y.answers[CHANGE] == 0 && y.change == -4_294_967_295),
    ("change of 0 with diet portions", |x, y| {
        y.answers[CHANGE] == 0 && y.change == 0 && x.word(x.place()).is_some_and(|(_, diet)| diet > 0)
    }),
];

impl Call<'_> {
    fn too_many(&self) -> bool {
        !self.exceeding().is_empty()
    }

    fn some(&self, meets: fn(i64, i64) -> bool) -> bool {
        self.present().iter().any(|&(_, (portions, diet))| meets(portions, diet))
    }

    fn all_marked(&self) -> bool {
        self.present().len() == self.lists.n as usize
    }

    /// An entry with too many diet portions has as many portions as any.
    fn exceeds_with_most(&self) -> bool {
        let most = self.present().iter().map(|(_, (portions, _))| *portions).max();
        self.exceeding().iter().any(|&i| self.word(i).map(|(portions, _)| portions) == most)
    }
}

impl Summed {
    pub fn count(&mut self, lists: Lists, asked: Asked, given: &Aggregates) {
        let call = Call { lists, asked };
        self.0.count(KINDS.map(|(_, meets)| meets(&call, given)));
    }

    pub fn add(&mut self, other: &Summed) {
        self.0.add(&other.0);
    }

    /// What could be met and was not.
    pub fn missing(&self) -> Vec<&'static str> {
        self.0.missing().map(|i| KINDS[i].0).collect()
    }

    pub fn report(&self) -> String {
        self.0.report(KINDS.map(|(name, _)| name))
    }
}
