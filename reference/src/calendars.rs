//! Calendars for the tests: random ones; the rule said a second time, slowly, without `calendar`; and the kinds of
//! calendars that a test has met.

use crate::check::Broken;
use crate::gen::Rng;
use crate::kinds::Kinds;

/// What the call must give: all bytes of the week, n, processes by site, sites by process; or its refusal's number.
pub type Given = Result<[u8; 33], u8>;

/// The last week of which a record can have a day. Of its days two are left, Monday and Tuesday.
pub const LAST_WEEK: u16 = 9362;

/// A record of 8 bytes, or a part of one.
type Bytes = [u8];

/// Whether a record of 8 bytes has this fault.
type Has = fn(&Bytes) -> bool;

/// What is refused with 13, beside a partial record.
const FAULTS: [(&str, Has); 7] = [
    ("site 0", |x| x[0] == 0),
    ("site above 16", |x| x[0] > 16),
    ("kind 0", |x| x[1] == 0),
    ("kind above 2", |x| x[1] > 2),
    ("first after last", |x| first(x) > last(x)),
    ("last byte but one", |x| x[6] != 0),
    ("last byte", |x| x[7] != 0),
];

fn first(record: &Bytes) -> u32 {
    record[2] as u32 + 256 * record[3] as u32
}

fn last(record: &Bytes) -> u32 {
    record[4] as u32 + 256 * record[5] as u32
}

fn has(record: &Bytes, day: u32) -> bool {
    (first(record)..=last(record)).contains(&day)
}

/// Which faults a record has: to be partial, then those of `FAULTS`.
fn faults(record: &Bytes) -> [bool; 1 + FAULTS.len()] {
    let partial = record.len() < 8;
    std::array::from_fn(|i| if i == 0 { partial } else { !partial && FAULTS[i - 1].1(record) })
}

fn is_faulty(record: &Bytes) -> bool {
    faults(record).contains(&true)
}

/// A day of a site.
#[derive(Clone, Copy)]
struct Day {
    term: bool,
    closed: bool,
}

impl Day {
    /// Scans all records.
    fn of(records: &[&Bytes], site: u8, day: u32) -> Day {
        let own = |kind: u8, record: &Bytes| record[0] == site && record[1] == kind && has(record, day);
        let lies_in = |kind: u8| records.iter().any(|record| own(kind, record));
        Day { term: lies_in(1), closed: lies_in(2) }
    }

    fn open(self) -> bool {
        self.term && !self.closed
    }
}

/// Monday to Sunday.
type Days = [Day; 7];

fn count(days: &[Day], so: fn(Day) -> bool) -> usize {
    days.iter().filter(|&&day| so(day)).count()
}

/// How many of Monday to Friday are so.
fn working(days: &Days, so: fn(Day) -> bool) -> usize {
    count(&days[..5], so)
}

fn weekend(days: &Days, so: fn(Day) -> bool) -> usize {
    count(&days[5..], so)
}

/// A calendar and a week, and what the call must give.
pub struct Case<'a> {
    records: Vec<&'a Bytes>,
    /// Those without fault.
    good: Vec<&'a Bytes>,
    week: u16,
    /// Of site s at s - 1, by the good records.
    days: [Days; 16],
    rule: Given,
}

impl<'a> Case<'a> {
    pub fn new(calendar: &'a [u8], week: u16) -> Case<'a> {
        Case::of(&calendar.chunks(8).collect::<Vec<&Bytes>>(), week)
    }

    fn of(records: &[&'a Bytes], week: u16) -> Case<'a> {
        let good: Vec<&Bytes> = records.iter().copied().filter(|record| !is_faulty(record)).collect();
        let day = |site: usize, i: usize| Day::of(&good, site as u8 + 1, 7 * week as u32 + i as u32);
        let days = std::array::from_fn(|site| std::array::from_fn(|i| day(site, i)));
        let rule = if good.len() < records.len() { Err(13) } else { numbered(&days) };
        Case { records: records.to_vec(), good, week, days, rule }
    }

    /// Nothing, or that what was given is not by the rule.
    pub fn check(&self, given: &Given) -> Result<(), Broken> {
        if *given == self.rule {
            return Ok(());
        }
        Err(format!("week {}: given {given:?}, by the rule {:?}", self.week, self.rule))
    }

    fn n(&self) -> u8 {
        self.rule.map_or(0, |bytes| bytes[0])
    }

    /// The places of the faulty records.
    fn faulty(&self) -> Vec<usize> {
        (0..self.records.len()).filter(|&i| is_faulty(self.records[i])).collect()
    }

    /// The fault of the calendar where it has only one.
    fn fault_alone(&self) -> [bool; 1 + FAULTS.len()] {
        let all: Vec<_> = self.records.iter().map(|record| faults(record)).collect();
        let alone = all.iter().flatten().filter(|&&fault| fault).count() == 1;
        std::array::from_fn(|i| alone && all.iter().any(|faults| faults[i]))
    }

    /// One record alone is faulty; it is whole, and is so.
    fn one_faulty(&self, so: impl Fn(&Bytes) -> bool) -> bool {
        matches!(self.faulty()[..], [i] if self.records[i].len() == 8 && so(self.records[i]))
    }

    /// Accepted, and the days of some site are so.
    fn site(&self, so: fn(&Days) -> bool) -> bool {
        self.rule.is_ok() && self.days.iter().any(so)
    }

    /// Refused with 14, and the days of some site are so.
    fn shut(&self, so: fn(&Days) -> bool) -> bool {
        self.rule == Err(14) && self.days.iter().any(so)
    }

    /// Refused with 14, which it would not be if the days of the week came round at 16 bits.
    fn comes_round(&self) -> bool {
        let day = |site, i| Day::of(&self.good, site, (7 * self.week as u32 + i) % (1 << 16));
        self.rule == Err(14) && (1..=16).any(|site| (0..5).any(|i| day(site, i).open()))
    }

    fn working_days(&self) -> impl Iterator<Item = u32> {
        let monday = 7 * self.week as u32;
        monday..monday + 5
    }

    fn in_week(&self, record: &Bytes) -> bool {
        self.working_days().any(|day| has(record, day))
    }

    /// Accepted, and some record with a working day of the week is so.
    fn record(&self, so: fn(&Bytes) -> bool) -> bool {
        self.rule.is_ok() && self.records.iter().any(|record| so(record) && self.in_week(record))
    }

    /// Accepted, and two records with a common working day of the week are so, the first one given before the second.
    /// Long calendars are passed over.
    fn pair(&self, so: fn(&Bytes, &Bytes) -> bool) -> bool {
        let common = |x: &Bytes, y: &Bytes| self.working_days().any(|day| has(x, day) && has(y, day));
        let pair = |(i, x): (usize, &&Bytes)| self.records[i + 1..].iter().any(|y| so(x, y) && common(x, y));
        self.rule.is_ok() && self.records.len() < 100 && self.records.iter().enumerate().any(pair)
    }
}

/// The sites open on one of Monday to Friday, in rising order.
fn numbered(days: &[Days; 16]) -> Given {
    let sites: Vec<u8> = (1..=16).filter(|&site| working(&days[site as usize - 1], Day::open) > 0).collect();
    if sites.is_empty() {
        return Err(14);
    }
    let mut bytes = [0; 33];
    bytes[0] = sites.len() as u8;
    for (i, &site) in sites.iter().enumerate() {
        bytes[site as usize] = i as u8 + 1;
        bytes[17 + i] = site;
    }
    Ok(bytes)
}

/// How often each answer, each fault alone and each of `KINDS` was met.
#[derive(Clone, Default, Debug)]
pub struct Met {
    /// Accepted, refused with 13, with 14.
    pub answers: [u64; 3],
    faults: Kinds<{ 1 + FAULTS.len() }>,
    kinds: Kinds<{ KINDS.len() }>,
}

/// Whether a calendar and a week are of a kind.
type Is = fn(&Case) -> bool;

const KINDS: [(&str, Is); 36] = [
    ("13 in the first record", |x| x.records.len() > 1 && x.faulty() == [0]),
    ("13 in the last record", |x| x.faulty() == [x.records.len().max(2) - 1] && x.one_faulty(|_| true)),
    ("13 between", |x| matches!(x.faulty()[..], [i] if i > 0 && i + 1 < x.records.len())),
    ("13 twice", |x| x.faulty().len() > 1),
    ("13 both last bytes alike", |x| x.one_faulty(|record| record[6] == record[7] && record[6] != 0)),
    ("13 of this week", |x| x.one_faulty(|record| x.in_week(record))),
    ("13 of another week", |x| x.one_faulty(|record| first(record) <= last(record) && !x.in_week(record))),
    ("13 where no site takes part", |x| x.rule == Err(13) && numbered(&x.days) == Err(14)),
    (
        "13 after sixteen take part",
        |x| matches!(x.faulty()[..], [i] if Case::of(&x.records[..i], x.week).n() == 16),
    ),
    ("13 past the last week", |x| x.rule == Err(13) && x.week > LAST_WEEK),
    ("14 empty", |x| x.rule == Err(14) && x.records.is_empty()),
    ("14 nothing in the week", |x| x.rule == Err(14) && !x.records.iter().any(|record| x.in_week(record))),
    ("14 closed", |x| x.shut(|days| working(days, |day| day.term) > 0)),
    ("14 weekend alone", |x| x.shut(|days| weekend(days, Day::open) > 0)),
    ("14 past the last week", |x| x.rule == Err(14) && x.week > LAST_WEEK),
    ("14 past it, open at 16 bits", |x| x.comes_round() && x.week > LAST_WEEK),
    ("14 in it, open at 16 bits", |x| x.comes_round() && x.week == LAST_WEEK),
    ("n 1", |x| x.n() == 1),
    ("n 2 to 15", |x| (2..16).contains(&x.n())),
    ("n 16", |x| x.n() == 16),
    ("the last week", |x| x.rule.is_ok() && x.week == LAST_WEEK),
    ("closed all week", |x| x.site(|days| working(days, |day| day.term && day.closed) == 5)),
    ("closed but for a day", |x| {
        x.site(|days| working(days, |day| day.closed) == 4 && working(days, Day::open) == 1)
    }),
    ("Monday alone", |x| x.site(|days| working(days, Day::open) == 1 && days[0].open())),
    ("Friday alone", |x| x.site(|days| working(days, Day::open) == 1 && days[4].open())),
    ("weekend alone", |x| x.site(|days| working(days, |day| day.term) == 0 && weekend(days, Day::open) > 0)),
    ("closed on the weekend alone", |x| {
        x.site(|days| {
            working(days, |day| day.closed) == 0 && weekend(days, |day| day.closed) == 2 && days[4].open()
        })
    }),
    ("term of a day", |x| x.record(|record| record[1] == 1 && first(record) == last(record))),
    ("to the last day", |x| x.record(|record| last(record) == u16::MAX as u32)),
    ("record twice", |x| x.pair(|x, y| x == y)),
    ("closed after its term", |x| x.pair(|x, y| x[0] == y[0] && x[1] == 1 && y[1] == 2)),
    ("closed before its term", |x| x.pair(|x, y| x[0] == y[0] && x[1] == 2 && y[1] == 1)),
    ("two terms of a site", |x| x.pair(|x, y| x[..2] == y[..2] && x[1] == 1 && x != y)),
    ("another site closed", |x| x.pair(|x, y| x[0] != y[0] && x[1] != y[1])),
    ("higher site first", |x| x.pair(|x, y| x[0] > y[0] && x[1] == 1 && y[1] == 1)),
    ("over 1000 records", |x| x.rule.is_ok() && x.records.len() > 1000),
];

impl Met {
    pub fn count(&mut self, case: &Case) {
        let answer = match case.rule {
            Ok(_) => 0,
            Err(number) => number as usize - 12,
        };
        self.answers[answer] += 1;
        self.faults.count(case.fault_alone());
        self.kinds.count(KINDS.map(|(_, is)| is(case)));
    }

    pub fn add(&mut self, other: &Met) {
        self.answers.iter_mut().zip(other.answers).for_each(|(sum, more)| *sum += more);
        self.faults.add(&other.faults);
        self.kinds.add(&other.kinds);
    }

    fn fault_names() -> [&'static str; 1 + FAULTS.len()] {
        std::array::from_fn(|i| if i == 0 { "partial" } else { FAULTS[i - 1].0 })
    }

    /// What could be met and was not.
    pub fn missing(&self) -> Vec<&'static str> {
        let faults = self.faults.missing().map(|i| Met::fault_names()[i]);
        faults.chain(self.kinds.missing().map(|i| KINDS[i].0)).collect()
    }

    pub fn report(&self) -> String {
        let [accepted, faulty, shut] = self.answers;
        format!(
            "{} calendars, {accepted} accepted; refusals 13: {faulty}, 14: {shut}; 13 by one fault alone {}; kinds {}",
            accepted + faulty + shut,
            self.faults.report(Met::fault_names()),
            self.kinds.report(KINDS.map(|(name, _)| name))
        )
    }
}

/// A week: the first, the last of which records have days, one after it, or any.
pub fn any_week(rng: &mut Rng) -> u16 {
    let (near, any, last) = (rng.below(200) as u16, rng.draw() as u16, LAST_WEEK);
    rng.pick(&[0, 1, near, near, near, last - 1, last, last, last + 1, any, any, u16::MAX])
}

/// First and last day: mostly in this week or near it, where a late week's days come round at 16 bits.
fn days(rng: &mut Rng, week: u16) -> (u16, u16) {
    let monday = 7u16.wrapping_mul(week) as i32;
    let (near, length) = (rng.below(7) as i32, rng.below(7) as i32);
    let (any, other) = (rng.draw() as u16, rng.draw() as u16);
    let (first, last) = match rng.below(12) {
        0 => (monday, monday + 4),
        1 => (monday, monday + 6),
        2 => (monday + 5, monday + 6),
        3 => (monday + near, monday + near),
        4 => (monday + near - length, monday + near),
        5 => (monday + 1, monday + 4),
        6 => (monday, monday + 3),
        7 => (monday - 7 - near, monday + length),
        8 => (0, rng.pick(&[2, near, u16::MAX as i32])),
        9 => (any.min(other) as i32, any.max(other) as i32),
        _ => (monday + near, monday + near + length),
    };
    let fit = |day: i32| day.clamp(0, u16::MAX as i32) as u16;
    (fit(first), fit(last))
}

fn record(site: u8, kind: u8, (first, last): (u16, u16)) -> [u8; 8] {
    let ([f0, f1], [l0, l1]) = (first.to_le_bytes(), last.to_le_bytes());
    [site, kind, f0, f1, l0, l1, 0, 0]
}

fn any_site(rng: &mut Rng) -> u8 {
    1 + rng.below(16) as u8
}

/// How many records; few of the calendars are long.
fn length(rng: &mut Rng) -> usize {
    match rng.below(400) {
        0 => 1001 + rng.below(1000),
        1..=30 => 0,
        31..=130 => 1 + rng.below(3),
        _ => 1 + rng.below(30),
    }
}

/// Records without fault, in any order, mostly near this week: of any sites, or of few; sometimes terms of all sites
/// come to them, without end or near this week too; one may come twice.
pub fn without_fault(rng: &mut Rng, week: u16) -> Vec<u8> {
    let (length, few) = (length(rng), [any_site(rng), any_site(rng)]);
    let (choice, closed) = (rng.below(8), rng.pick(&[0, 10, 30, 60]));
    let mut records: Vec<[u8; 8]> = Vec::new();
    match choice {
        0 if length > 0 => records.extend((1..=16).map(|site| record(site, 1, (0, u16::MAX)))),
        1 if length > 0 => records.extend((1..=16).map(|site| record(site, 1, days(rng, week)))),
        _ => {}
    }
    for _ in 0..length {
        let site = if choice > 5 { rng.pick(&few) } else { any_site(rng) };
        let kind = 1 + u8::from(rng.percent(closed) && (length < 1000 || site > 8));
        records.push(record(site, kind, days(rng, week)));
    }
    if length > 0 && rng.percent(20) {
        records.push(rng.pick(&records));
    }
    for i in (1..records.len()).rev() {
        records.swap(i, rng.below(i + 1));
    }
    records.concat()
}

/// Puts a fault into a whole record.
fn damage(rng: &mut Rng, record: &mut [u8]) {
    let any = 1 + rng.below(255) as u8;
    match rng.below(8) {
        0 => record[0] = 0,
        1 => record[0] = rng.pick(&[17, 18, 255, any.max(17)]),
        2 => record[1] = 0,
        3 => record[1] = rng.pick(&[3, 4, 255, any.max(3)]),
        4 => first_after_last(rng, record),
        5 => record[6] = rng.pick(&[1, 128, any]),
        6 => record[7] = rng.pick(&[1, 128, any]),
        _ => record[6..].fill(any),
    }
}

/// By a day, by days that the low or the high byte alone would hide, or by any number.
fn first_after_last(rng: &mut Rng, record: &mut [u8]) {
    let last = rng.pick(&[last(record) as u16, 255, 256, 0]).min(u16::MAX - 1);
    let any = last + 1 + rng.below((u16::MAX - last) as usize) as u16;
    let first = rng.pick(&[last + 1, last + 1, last.saturating_add(256).max(last + 1), any]);
    record[2..4].copy_from_slice(&first.to_le_bytes());
    record[4..6].copy_from_slice(&last.to_le_bytes());
}

/// A calendar, sometimes with one fault or several, in its first record, its last or any.
pub fn any(rng: &mut Rng, week: u16) -> Vec<u8> {
    let mut bytes = without_fault(rng, week);
    let records = bytes.len() / 8;
    if records == 0 {
        return bytes;
    }
    for _ in 0..rng.pick(&[0, 0, 0, 0, 0, 1, 1, 2]) {
        let any = rng.below(records);
        let at = rng.pick(&[0, records - 1, any]);
        damage(rng, &mut bytes[8 * at..][..8]);
    }
    if rng.percent(8) {
        bytes.truncate(8 * records - 1 - rng.below(7));
    }
    bytes
}
