//! The proved library beside the reference: both get the same state and input, and must agree on every answer and on
//! all that is lent. What differs panics with the seed and the place.

use crate::check::check_closing;
use crate::compare_carried::carried;
use crate::gen::{self, Accepted, Adversary, Rng};
use crate::layout::{bit, members};
use crate::listed::{bits, by_rule, check_given, held, lengths, Call, Given};
use crate::met::{
    call, Met, DECISION, GLOBAL_DATA, IN_TRANSIT, OF_BOTH_GROUNDS, OF_RECORD, OF_RUN, RUN, RUN_AFTER_OTHERS,
    RUN_AT_ONCE, SHOWN, SHOWN_WORDS, TELLING, WAITING,
};
use crate::proved::Progress;
use crate::received::{self, Closed};
use crate::record::index;
use crate::refusal::number;
use crate::summed::{self, any_lists, Aggregates, Asked, Lists};
use crate::ties::any_ties;
use crate::tool::{Stage, Tell};
use crate::values::{self, Difference, Start};
use crate::{proved, Bench, Cause, Closing, Counters, Ended, GlobalData, Record};
use std::collections::BTreeMap;
use std::fmt::Debug;

/// One state on each side, and where the comparison stands.
pub(crate) struct Pair {
    pub(crate) proved: Bench,
    pub(crate) plain: Bench,
    /// A schedule has led to the state.
    pub(crate) reached: bool,
    proved_tally: Counters,
    plain_tally: Counters,
    pub(crate) place: String,
    pub(crate) calls: usize,
    pub(crate) met: Met,
}

impl Pair {
    fn new(bench: Bench, place: String) -> Pair {
        let (proved_tally, plain_tally) = Default::default();
        let (reached, met) = (false, Met::default());
        Pair { proved: bench, plain: bench, reached, proved_tally, plain_tally, place, calls: 0, met }
    }

    /// From a new bench along a schedule.
    pub(crate) fn opened(n: u8, t: u8, place: String) -> Pair {
        let bench = Bench::open(n, t).expect("a good size");
        Pair { reached: true, ..Pair::new(bench, place) }
    }

    pub(crate) fn same<T: PartialEq + Debug>(&self, what: &str, proved: T, plain: T) {
        if proved != plain {
            panic!("{}, call {}: {what}: proved {proved:?}, reference {plain:?}", self.place, self.calls);
        }
    }

    pub(crate) fn same_state(&self, what: &str) {
        if self.proved == self.plain {
            return;
        }
        let (x, y) = (&self.proved, &self.plain);
        self.same(&format!("{what}: sizes and crashed"), (x.n, x.t, x.crashed), (y.n, y.t, y.crashed));
        (0..16).for_each(|a| self.same(&format!("{what}: process {a}"), x.processes[a], y.processes[a]));
        (0..256).for_each(|i| self.same(&format!("{what}: row {i}"), x.sent[i], y.sent[i]));
        (0..272).for_each(|i| self.same(&format!("{what}: set {i}"), x.in_transit[i], y.in_transit[i]));
    }

    /// Both sides go on from this state.
    pub(crate) fn put(&mut self, bench: &Bench) {
        (self.proved, self.plain) = (*bench, *bench);
    }

    /// Round and byte in `decided` of each process.
    fn bytes(&self) -> [(u8, u8); Bench::MAX] {
        std::array::from_fn(|i| (self.proved.processes[i].round, self.proved.processes[i].decided))
    }

    /// After a record: 1 where it has decided a process, else as before. A close that decides opens no round; a
    /// decision that arrives decides one that has started.
    fn same_bytes(&self, before: &[(u8, u8); Bench::MAX], record: &[u8], accepted: bool) {
        for (i, &(round, byte)) in before.iter().enumerate() {
            let p = &self.proved.processes[i];
            let named = |place: usize| accepted && record[place] as usize == i + 1;
            let closed = named(1) && record[0] == 4 && p.round == round;
            let told = named(2) && record[0] == 3 && record[3] == 0 && round != 0;
            let rule = if byte == 0 && (closed || told) { 1 } else { byte };
            self.by_rule(i, byte, rule);
        }
    }

    fn by_rule(&self, i: usize, before: u8, rule: u8) {
        let after = self.proved.processes[i].decided;
        if after != rule {
            let place = format!("{}, call {}", self.place, self.calls);
            panic!("{place}: byte of process {i}: {before} became {after}, by the rule {rule}");
        }
    }

    /// Counts the byte in `decided` of the process that acts, for a record that passed checks 2 to 5 and 15.
    fn count_byte(&mut self, before: &[(u8, u8); Bench::MAX], record: &[u8], answer: u8) {
        if matches!(answer, 2..=5 | 15) {
            return;
        }
        let event = Record::read(record).and_then(|record| record.event(self.plain.n, self.plain.t));
        if let Ok(event) = event {
            self.met.bytes.count(call(event), usize::from(answer != 0), before[event.actor()].1);
        }
    }

    /// One record, with tallies that are sometimes near their end.
    pub(crate) fn step(&mut self, record: &[u8], rng: &mut Rng) -> u8 {
        if rng.percent(3) {
            let near = |rng: &mut Rng| u32::MAX - rng.below(2) as u32;
            let tally = Counters { accepted: near(rng), refused: near(rng), crashes: near(rng) };
            (self.proved_tally, self.plain_tally) = (tally, tally);
        }
        let before = self.bytes();
        let both_grounds = self.both_grounds(record);
        let (proved, proved_closing) = proved::step(&mut self.proved, record, &mut self.proved_tally);
        let answer = self.plain.step_counted(record, &mut self.plain_tally);
        let (plain, closing) = (number(&answer), answer.unwrap_or(Closing::None));
        self.calls += 1;
        self.same("answer", proved, plain as u32);
        self.same("tally", self.proved_tally, self.plain_tally);
        self.same_state("state after a record");
        self.same_bytes(&before, record, plain == 0);
        self.same("closing", proved_closing, closing.number());
        if plain == 0 {
            self.closing_by_rule(&before, record, closing);
        }
        self.start_by_rule(record, plain);
        self.count_held(&before, record, plain, closing);
        self.count_byte(&before, record, plain);
        self.met.records += 1;
        self.met.accepted += u64::from(plain == 0);
        self.met.answer(plain);
        self.count_closing(closing, plain == 0, both_grounds);
        plain
    }

    /// The record is a close that is due on both grounds, if its process runs.
    fn both_grounds(&self, record: &[u8]) -> bool {
        match Record::read(record) {
            Ok(Record { kind: 4, a, .. }) if self.plain.is_sound() => {
                index(a, self.plain.n).is_ok_and(|a| self.plain.both_grounds(a))
            }
            _ => false,
        }
    }

    /// The closing of a record, and of a close on both grounds once more.
    fn count_closing(&mut self, closing: Closing, accepted: bool, both_grounds: bool) {
        self.met.closings.count(OF_RECORD + usize::from(!accepted), closing);
        if accepted && both_grounds {
            self.met.closings.count(OF_BOTH_GROUNDS, closing);
        }
    }

    /// The closing of an accepted record by the rule, so that the two are not only the same.
    fn closing_by_rule(&self, before: &[(u8, u8); Bench::MAX], record: &[u8], closing: Closing) {
        let record = Record::read(record).expect("it was accepted");
        let round = before[record.a as usize - 1].0;
        if let Err(broken) = check_closing(record, round, closing, &self.proved) {
            panic!("{}, call {}: {broken}", self.place, self.calls);
        }
    }

    /// 15 by the rule, so that the two are not only the same; counts what a start met. A refusal has left the state.
    fn start_by_rule(&mut self, record: &[u8], answer: u8) {
        let start = Start { bench: &self.proved, record, answer };
        if !start.is_by_rule() {
            panic!(
                "{}, call {}: {record:?} gave {answer}, but not by the rule of 15",
                self.place, self.calls
            );
        }
        self.met.starts.count(&start);
    }

    /// Counts an estimate with too many diet portions after an accepted close, or after a decision that decides.
    fn count_held(&mut self, before: &[(u8, u8); Bench::MAX], record: &[u8], answer: u8, closing: Closing) {
        if answer != 0 {
            return;
        }
        let held = |number: u8| has_too_many(&self.plain.processes[number as usize - 1].estimate);
        let undecided = |number: u8| matches!(before[number as usize - 1], (1.., 0));
        match *record {
            [4, a, ..] if held(a) => self.met.held.count(closing.number() as usize - 1),
            [3, _, b, 0, ..] if undecided(b) && held(b) => self.met.held.count(DECISION),
            _ => {}
        }
    }

    /// One run; gives what is left.
    fn run<'a>(&mut self, schedule: &'a [u8], budget: u32) -> (Cause, &'a [u8]) {
        let before = self.bytes();
        let proved = proved::run(&mut self.proved, schedule, budget);
        let Ended { accepted, cause, closing, rest } = self.plain.run(schedule, budget);
        let progress = Progress { accepted, closing: closing.number(), taken: schedule.len() - rest.len() };
        self.calls += 1;
        self.same("run", proved, (cause, progress));
        self.same_state("state after a run");
        for (i, (_, byte)) in before.into_iter().enumerate() {
            // 0 may have become 1.
            let rule = if byte == 0 { self.proved.processes[i].decided.min(1) } else { byte };
            self.by_rule(i, byte, rule);
        }
        self.met.records += accepted as u64;
        self.met.accepted += accepted as u64;
        if let Cause::Refused(refused) = cause {
            self.met.records += 1;
            self.met.answer(refused);
            self.start_by_rule(&rest[..rest.len().min(Bench::RECORD)], refused);
        }
        if cause == Cause::Refused(15) {
            self.met.held.count(if accepted == 0 { RUN_AT_ONCE } else { RUN_AFTER_OTHERS });
        }
        self.met.closings.count(OF_RUN + usize::from(matches!(cause, Cause::Refused(_))), closing);
        (cause, rest)
    }

    /// A schedule by runs of any budget. A refused record is passed over.
    pub(crate) fn runs(&mut self, schedule: &[u8], rng: &mut Rng) {
        let mut rest = schedule;
        while !rest.is_empty() {
            let budget = rng.pick(&[0, 1, 2, 7, 100, u32::MAX]);
            let (cause, left) = self.run(rest, budget);
            rest = match cause {
                Cause::Refused(_) => &left[left.len().min(Bench::RECORD)..],
                _ => left,
            };
        }
        self.run(rest, 0);
    }

    /// Every close that is due, in one run and by runs of any budget, beginning with any of them. The first comes once
    /// more behind the others, where it is mostly refused.
    fn closes(&mut self, bench: &Bench, rng: &mut Rng) {
        let mut closes = Accepted::of(bench).of_kind[4].clone();
        if closes.is_empty() {
            return;
        }
        let first = rng.below(closes.len());
        closes.rotate_left(first);
        closes.push(closes[0]);
        let schedule: Vec<u8> = closes.iter().flat_map(|record| record.bytes()).collect();
        self.put(bench);
        self.run(&schedule, u32::MAX);
        self.put(bench);
        self.runs(&schedule, rng);
    }

    /// The global data of every process and of numbers that are none, in slices long and short.
    fn show(&mut self, rng: &mut Rng) {
        for process in (0..=self.plain.n.min(16) + 1).chain([255]) {
            let length = rng.below(self.plain.n.min(16) as usize + 3);
            self.show_one(process, length, rng);
        }
    }

    /// The global data of one, in a slice of this length; gives its refusal or 0.
    fn show_one(&mut self, process: u8, length: usize, rng: &mut Rng) -> u8 {
        let before: Vec<u32> = (0..length).map(|_| rng.draw() as u32).collect();
        let (mut proved_out, mut plain_out) = (before.clone(), before);
        let proved = proved::global_data(&self.proved, process, &mut proved_out);
        let plain = self.plain.global_data(process, &mut plain_out);
        self.calls += 1;
        self.met.answer(number(&plain));
        self.same("marks", proved, plain.map_err(|refusal| refusal.number() as u32));
        self.same("entries", &proved_out, &plain_out);
        if let Ok(marks) = plain {
            let n = self.plain.n;
            self.shown_by_rule(process, &proved_out);
            self.aggregates(rng, n, &plain_out[..n as usize], marks);
        }
        number(&plain)
    }

    /// The words are those of the state, whole, with 0 for absent.
    fn shown_by_rule(&mut self, process: u8, out: &[u32]) {
        let data = &self.proved.processes[process as usize - 1].estimate;
        let rule = |i: usize| if data.present & bit(i) != 0 { data.values[i] } else { 0 };
        let wrong = (0..self.proved.n as usize).find(|&i| out[i] != rule(i));
        if let Some(i) = wrong {
            panic!("{}, call {}: entry {i} of {process} is not the word held", self.place, self.calls);
        }
        if has_too_many(data) {
            self.met.held.count(SHOWN);
        }
        for (i, word) in SHOWN_WORDS.into_iter().enumerate() {
            if members(data.present).any(|entry| data.values[entry] == word) {
                self.met.held.count(SHOWN + 1 + i);
            }
        }
    }

    /// The list in transit, in a slice of this length; gives its refusal or 0.
    fn list(&mut self, length: usize, rng: &mut Rng) -> u8 {
        let before: Vec<u8> = (0..length).map(|_| rng.draw() as u8).collect();
        let (mut proved_out, mut plain_out) = (before.clone(), before.clone());
        let proved = proved::in_transit(&self.proved, &mut proved_out);
        let plain = self.plain.list_in_transit(&mut plain_out);
        self.calls += 1;
        self.met.answer(number(&plain));
        self.same("messages", proved, plain.map_err(|refusal| refusal.number() as u32));
        self.same("list", &proved_out, &plain_out);
        self.list_by_rule(&before, (proved, proved_out));
        number(&plain)
    }

    /// What the proved library gave by the rule, so that the two are not only the same; counts what the call met.
    fn list_by_rule(&mut self, before: &[u8], given: Given) {
        let messages = held(&self.proved);
        if let Err(broken) = check_given(&given, &by_rule(&self.proved, &messages, before)) {
            panic!("{}, call {}: {broken}", self.place, self.calls);
        }
        let (bench, length, answer) = (&self.proved, before.len(), given.0);
        let call = Call { bench, messages: &messages, length, answer };
        self.met.listed[usize::from(self.reached)].count(&call);
    }

    /// The list in transit of this state, in slices long and short.
    fn list_each_way(&mut self, bench: &Bench, rng: &mut Rng) {
        self.put(bench);
        for length in lengths(held(bench).len()) {
            self.list(length, rng);
        }
        self.same_state("state after reading");
    }

    /// A record by the call for one and by run, on the same state, where `byte` is that of the process that acts.
    fn each_way(&mut self, bench: &Bench, (record, telling): &Chosen, byte: u8, rng: &mut Rng) {
        self.put(bench);
        self.step(&record.bytes(), rng);
        self.put(bench);
        let (cause, _) = self.run(&record.bytes(), u32::MAX);
        self.met.bytes.count(RUN, usize::from(cause != Cause::Done), byte);
        if let Some(call) = *telling {
            self.met.bytes.count(call, TELLING, byte);
            self.met.bytes.count(RUN, TELLING, byte);
        }
    }

    /// Global data of process a and the list in transit, in slices long enough and too short.
    fn read_each_way(&mut self, bench: &Bench, a: usize, byte: u8, rng: &mut Rng) {
        self.put(bench);
        for length in [bench.n as usize, bench.n as usize - 1] {
            let refused = self.show_one(a as u8 + 1, length, rng);
            self.met.bytes.count(GLOBAL_DATA, usize::from(refused != 0), byte);
        }
        self.met.bytes.count(GLOBAL_DATA, TELLING, byte);
        let messages = bits(bench);
        for length in [3 * messages, (3 * messages).saturating_sub(1), 2] {
            let refused = self.list(length, rng);
            self.met.bytes.count(IN_TRANSIT, usize::from(refused != 0), byte);
        }
        self.same_state("state after reading");
    }

    /// The records in turn by runs; and once more, each alone with one that is accepted after it.
    fn one_after_another(
        &mut self,
        bench: &Bench,
        records: &[Chosen],
        adversary: &mut Adversary,
        rng: &mut Rng,
    ) {
        let schedule: Vec<u8> = records.iter().flat_map(|(record, _)| record.bytes()).collect();
        self.put(bench);
        self.runs(&schedule, rng);
        self.put(bench);
        for (record, _) in records {
            self.step(&record.bytes(), rng);
            if let Some(record) = adversary.accepted(&self.plain) {
                self.step(&record.bytes(), rng);
            }
        }
        self.reads(rng);
    }

    /// A close of a before the last round, where one of the estimates differs so or not at all: each way, and by the
    /// rule.
    fn nearly_agreed(&mut self, state: &Bench, a: usize, difference: Difference, rng: &mut Rng) {
        let closing = self.close_each_way(state, a, rng);
        if let Err(broken) = self.met.deciding.count(difference, closing) {
            panic!("{}, call {}: {broken}", self.place, self.calls);
        }
        self.reads(rng);
    }

    /// A close of a that is due, by run and by the call for one; gives its closing, by the state that it left.
    fn close_each_way(&mut self, state: &Bench, a: usize, rng: &mut Rng) -> Closing {
        let close = Record::close(a as u8 + 1).bytes();
        self.put(state);
        self.run(&close, 1);
        self.put(state);
        let answer = self.step(&close, rng);
        self.same("a close that is due", answer, 0);
        let p = &self.proved.processes[a];
        match (p.has_decided(), p.round == state.t + 1) {
            (false, _) => Closing::NextRound,
            (true, false) => Closing::Agreed,
            (true, true) => Closing::LastRound,
        }
    }

    /// The same, and counts what it met.
    fn nearly_equal(&mut self, bench: &Bench, a: usize, rng: &mut Rng) {
        let closing = self.close_each_way(bench, a, rng);
        let new = &self.proved.processes[a].estimate;
        self.met.closes.count(&Closed { bench, a, closing, new });
    }

    pub(crate) fn reads(&mut self, rng: &mut Rng) {
        self.show(rng);
        self.list(rng.pick(&[0, 3, 100, 1000, 3 * 16 * 16 * 17]), rng);
        self.same_state("state after reading");
    }

    /// The four aggregates, with any standing values.
    fn aggregates(&mut self, rng: &mut Rng, n: u8, entries: &[u32], marks: u16) {
        let asked = Asked::any(rng, n);
        // From another generator, so that what `rng` draws next does not hang on this list.
        let standing = gen::standing(&mut Rng::new(asked.old), n);
        self.aggregates_of(Lists { n, entries, marks, standing: &standing }, asked);
    }

    /// The four aggregates of these lists; once more with other words where none is read, which must not show.
    fn aggregates_of(&mut self, lists: Lists, asked: Asked) {
        let (proved, plain) = (proved_aggregates(lists, asked), summed::aggregates_of(lists, asked));
        self.calls += 4;
        plain.answers.iter().for_each(|&refused| self.met.answer(refused as u8));
        self.same("aggregates", proved.answers, plain.answers);
        self.same("total", proved.total, plain.total);
        self.same("go", proved.go, plain.go);
        self.same("lead", proved.lead, plain.lead);
        self.same("change", proved.change, plain.change);
        self.same("aggregates by the rule, the second", proved, summed::by_rule(lists, asked));
        self.met.totals.count(&lists, plain.answers[0], plain.total);
        self.met.summed.count(lists, asked, &plain);
        self.met.leads.count(lists, &plain);
        let (entries, standing) = other_words(lists);
        let others = Lists { entries: &entries, standing: &standing, ..lists };
        self.same("aggregates with other words where none is read", proved_aggregates(others, asked), plain);
    }
}

/// What was met along the parts of a comparison, and who is told how far it has come.
struct Course<'a> {
    met: Met,
    stage: Stage,
    tell: Tell<'a>,
}

impl<'a> Course<'a> {
    fn new(parts: usize, tell: Tell<'a>) -> Course<'a> {
        let stage = Stage { of: parts as u64, ..Stage::default() };
        tell(stage);
        Course { met: Met::default(), stage, tell }
    }

    fn add(&mut self, met: &Met) {
        self.met.add(met);
        self.stage.counted = self.met.records;
        (self.tell)(self.stage);
    }

    fn end_part(&mut self) {
        self.stage.done += 1;
        (self.tell)(self.stage);
    }

    /// A part, or the rest of one: each of these sizes.
    fn part(&mut self, sizes: impl Iterator<Item = (u8, u8)>, compare: impl Fn(u8, u8) -> Met) {
        sizes.for_each(|(n, t)| self.add(&compare(n, t)));
        self.end_part();
    }
}

/// A present entry has more diet portions than portions.
fn has_too_many(data: &GlobalData) -> bool {
    members(data.present).any(|i| data.values[i] >> 16 > data.values[i] & 0xffff)
}

fn proved_aggregates(Lists { n, entries, marks, standing }: Lists, asked: Asked) -> Aggregates {
    let old = asked.old;
    let (mut total, mut go, mut lead, mut change) = (old, old as u8, (old as u8, old as u32), old as i64);
    let answers = [
        proved::total(n, entries, marks, standing, &mut total),
        proved::go(n, entries, marks, &mut go),
        proved::lead(n, entries, marks, &mut lead.0, &mut lead.1),
        proved::change(n, entries, marks, asked.process, asked.standing, &mut change),
    ];
    Aggregates { answers, total, go, lead, change }
}

/// Entries and standing values with another word under each absent entry, and for each present one's standing value.
fn other_words(lists: Lists) -> (Vec<u32>, Vec<u32>) {
    let other = |list: &[u32], under: bool| -> Vec<u32> {
        let present = |i| i < Bench::MAX && lists.marks & bit(i) != 0;
        list.iter().enumerate().map(|(i, &word)| if present(i) == under { !word } else { word }).collect()
    };
    (other(lists.entries, false), other(lists.standing, true))
}

/// Opening in place of some state: every n and t.
pub fn openings(seed: u64) -> Met {
    let mut rng = Rng::new(seed);
    let before = gen::random_state(&mut rng, 5, 3, true);
    let mut pair = Pair::new(before, format!("seed {seed}, openings"));
    for (n, t) in (0..=255).flat_map(|n| (0..=255).map(move |t| (n, t))) {
        (pair.proved, pair.plain) = (before, before);
        let answer = proved::open(&mut pair.proved, n, t);
        let plain = Bench::open(n, t);
        pair.calls += 1;
        pair.met.answer(number(&plain));
        pair.same(&format!("opening {n} {t}"), answer, number(&plain) as u32);
        pair.plain = plain.unwrap_or(before);
        pair.same_state("state after opening");
    }
    pair.met
}

/// A schedule of records given one by one, `noise` in 100 of them doubtful, and the reading calls between them.
pub fn one_by_one(n: u8, t: u8, seed: u64, noise: usize) -> Met {
    let mut rng = Rng::new(seed ^ 0x5ca1ab1e);
    let mut pair = Pair::opened(n, t, format!("seed {seed}, n {n}, t {t}, one by one"));
    for record in gen::records(n, t, seed, noise) {
        pair.step(&record, &mut rng);
        if rng.percent(2) {
            pair.reads(&mut rng);
        }
    }
    pair.reads(&mut rng);
    pair.met
}

/// A schedule by runs.
pub fn by_runs(n: u8, t: u8, seed: u64, noise: usize) -> Met {
    let mut rng = Rng::new(seed ^ 0xb0d9e7);
    let mut pair = Pair::opened(n, t, format!("seed {seed}, n {n}, t {t}, by runs"));
    pair.runs(&gen::schedule(n, t, seed, noise), &mut rng);
    pair.reads(&mut rng);
    pair.met
}

/// Sound states that mostly no schedule reaches, and damaged ones.
pub fn other_states(n: u8, t: u8, seed: u64) -> Met {
    let mut rng = Rng::new(seed);
    let junk = rng.percent(50);
    let state = gen::random_state(&mut rng, n, t, junk);
    let mut pair = Pair::new(state, format!("seed {seed}, n {n}, t {t}, other states"));
    let mut adversary = Adversary::new(seed);
    let well_formed = gen::well_formed(n, t);
    for _ in 0..40 {
        let accepted = if rng.percent(50) { adversary.accepted(&pair.plain) } else { None };
        let record = accepted.unwrap_or_else(|| gen::doubtful(&mut rng, n, t));
        pair.step(&record.bytes(), &mut rng);
        pair.step(&rng.pick(&well_formed).bytes(), &mut rng);
    }
    pair.reads(&mut rng);
    let bytes: Vec<u8> = well_formed.iter().flat_map(|record| record.bytes()).collect();
    pair.runs(&bytes, &mut rng);
    gen::damage(&mut rng, &mut pair.plain);
    pair.proved = pair.plain;
    pair.step(&gen::doubtful(&mut rng, n, t).bytes(), &mut rng);
    pair.step(&gen::wrong_length(&mut rng), &mut rng);
    pair.run(&bytes, 3);
    pair.run(&[], 0);
    pair.reads(&mut rng);
    pair.closes(&state, &mut rng);
    pair.met
}

/// The list in transit along a schedule, then on states that mostly no schedule reaches.
pub fn lists(n: u8, t: u8, seed: u64) -> Met {
    // Another adversary for each size: what one never does, others do.
    let mut rng = Rng::new(seed ^ 0x1157ed ^ (n as u64) << 48 ^ (t as u64) << 56);
    let mut pair = Pair::opened(n, t, format!("seed {seed}, n {n}, t {t}, lists"));
    let mut bench = pair.plain;
    for record in gen::records(n, t, rng.draw(), 0) {
        bench.step_sound(&record).expect("it was accepted");
        if rng.percent(10) {
            pair.list_each_way(&bench, &mut rng);
        }
    }
    pair.reached = false;
    lists_of_others(&mut pair, &mut rng);
    pair.met
}

/// With everything in transit; then with much or little in transit, sound and damaged.
fn lists_of_others(pair: &mut Pair, rng: &mut Rng) {
    let (n, t) = (pair.plain.n, pair.plain.t);
    pair.list_each_way(&gen::everything_in_transit(n, t), rng);
    for (junk, thin) in [(false, false), (false, true), (true, false), (true, true)] {
        let mut state = gen::random_state(rng, n, t, junk);
        if thin {
            gen::thin_out(rng, &mut state);
        }
        pair.list_each_way(&state, rng);
        gen::damage(rng, &mut state);
        pair.list_each_way(&state, rng);
    }
}

/// Sizes, and how often over all of them, for `decided_bytes`.
const SIZES: [(u8, u8); 10] =
    [(1, 0), (2, 0), (2, 1), (3, 1), (3, 2), (4, 3), (5, 2), (8, 7), (12, 4), (16, 15)];
const LEAST: usize = 3;
const MOST: usize = 12;

/// Every byte in `decided`, on a reached state and another of each size, `LEAST` times and until each call has met each
/// byte, but not more than `MOST` times.
pub fn decided_bytes(seed: u64, tell: Tell) -> Met {
    let mut rng = Rng::new(seed ^ 0xdec1ded);
    let mut course = Course::new(LEAST * SIZES.len(), tell);
    for round in 1..=MOST {
        course.stage.of = (SIZES.len() * round.max(LEAST)) as u64;
        for (n, t) in SIZES {
            let place = format!("seed {seed}, n {n}, t {t}, bytes in decided, time {round}");
            let junk = rng.percent(50);
            let reached = gen::reached_state(&mut rng, n, t);
            course.add(&each_byte(&reached, &mut rng, format!("{place}, reached")));
            let other = gen::random_state(&mut rng, n, t, junk);
            course.add(&each_byte(&other, &mut rng, format!("{place}, other")));
            course.end_part();
        }
        if round >= LEAST && course.met.bytes.missing().is_empty() {
            break;
        }
    }
    course.met
}

/// One process of a state with each byte in its `decided`, and any bytes in the others': every call on that state, then
/// records one after another.
fn each_byte(state: &Bench, rng: &mut Rng, place: String) -> Met {
    let running: Vec<usize> = members(state.everyone() & !state.crashed).collect();
    let any = rng.below(state.n as usize);
    let a = if running.is_empty() { any } else { rng.pick(&running) };
    let chosen = chosen(state, a, rng);
    let mut pair = Pair::new(*state, format!("{place}, process {a}"));
    let mut adversary = Adversary::new(rng.draw());
    for byte in 0..=255 {
        let mut bench = *state;
        for p in &mut bench.processes {
            let draw = rng.draw();
            p.decided = if draw.is_multiple_of(2) { p.decided } else { (draw >> 8) as u8 };
        }
        bench.processes[a].decided = byte;
        for record in &chosen {
            pair.each_way(&bench, record, byte, rng);
        }
        pair.read_each_way(&bench, a, byte, rng);
        pair.one_after_another(&bench, &chosen, &mut adversary, rng);
    }
    pair.met
}

/// A record, and where more than the byte differs with 0 and with 1 in `decided`, its telling call.
type Chosen = (Record, Option<usize>);

/// Well-formed records in which process a acts: one for each call and each pair of answers with 0 and with 1 in its
/// `decided`.
fn chosen(state: &Bench, a: usize, rng: &mut Rng) -> Vec<Chosen> {
    let mut records = gen::well_formed(state.n, state.t);
    let middle = rng.below(records.len());
    records.rotate_left(middle);
    let mut chosen = BTreeMap::new();
    for record in records {
        match record.event(state.n, state.t) {
            Ok(event) if event.actor() == a => {
                let (with_0, with_1) = (outcome(state, a, 0, record), outcome(state, a, 1, record));
                let told = if with_0.0 == 8 { WAITING } else { call(event) };
                let telling = (with_0 != with_1).then_some(told);
                chosen.entry((call(event), with_0.0, with_1.0, telling)).or_insert((record, telling));
            }
            _ => {}
        }
    }
    chosen.into_values().collect()
}

/// The answer with this byte in `decided` of process a, and the state after it but for that byte.
fn outcome(state: &Bench, a: usize, byte: u8, record: Record) -> (u8, Bench) {
    let mut bench = *state;
    bench.processes[a].decided = byte;
    let answer = number(&bench.step_sound(&record.bytes()));
    bench.processes[a].decided = 0;
    (answer, bench)
}

/// Aggregates of any n, entries and marks.
pub fn any_aggregates(seed: u64) -> Met {
    let mut rng = Rng::new(seed);
    let bench = Bench::open(1, 0).expect("a good size");
    let mut pair = Pair::new(bench, format!("seed {seed}, aggregates"));
    for _ in 0..1000 {
        let any = rng.draw() as u8;
        let n = rng.pick(&[0, 1, 2, 3, 12, 16, 17, any]);
        let length = if rng.percent(80) { n as usize } else { rng.below(20) };
        let entries: Vec<u32> = (0..length).map(|_| rng.value().word()).collect();
        let all = if n < 16 { (1u16 << n) - 1 } else { u16::MAX };
        let among = if rng.percent(80) { all } else { u16::MAX };
        let marks = if rng.percent(30) { among } else { rng.subset(among) };
        pair.aggregates(&mut rng, n, &entries, marks);
    }
    greatest_totals(&mut pair, &mut rng);
    pair.met
}

/// Of 16 present, of 16 absent and of both, the largest value wherever one is read.
fn greatest_totals(pair: &mut Pair, rng: &mut Rng) {
    let both = (rng.draw() as u16 | 2) & !1;
    for marks in [u16::MAX, 0, both] {
        let mut words = |read: u16| -> Vec<u32> {
            (0..16).map(|i| if read & bit(i) != 0 { u32::MAX } else { rng.draw() as u32 }).collect()
        };
        let (entries, standing) = (words(marks), words(!marks));
        let asked = Asked::any(rng, 16);
        pair.aggregates_of(Lists { n: 16, entries: &entries, marks, standing: &standing }, asked);
    }
}

/// Aggregates of any entries, also such as have more diet portions than portions.
fn value_aggregates(seed: u64) -> Met {
    let mut rng = Rng::new(seed ^ 0x5e7a5);
    let bench = Bench::open(1, 0).expect("a good size");
    let mut pair = Pair::new(bench, format!("seed {seed}, aggregates of values"));
    for _ in 0..4000 {
        let (n, entries, marks, standing) = any_lists(&mut rng);
        let asked = Asked::any(&mut rng, n);
        pair.aggregates_of(Lists { n, entries: &entries, marks, standing: &standing }, asked);
    }
    pair.met
}

/// Aggregates of entries of which many tie for the lead.
fn tied_aggregates(seed: u64) -> Met {
    let mut rng = Rng::new(seed ^ 0x1ead5);
    let bench = Bench::open(1, 0).expect("a good size");
    let mut pair = Pair::new(bench, format!("seed {seed}, aggregates of ties"));
    for _ in 0..4000 {
        let (n, entries, marks, standing) = any_ties(&mut rng);
        let asked = Asked::any(&mut rng, n);
        pair.aggregates_of(Lists { n, entries: &entries, marks, standing: &standing }, asked);
    }
    pair.met
}

/// Starts of any value among the records of a schedule, one by one and by runs; then states that hold any values.
pub fn any_values(n: u8, t: u8, seed: u64) -> Met {
    let mut rng = Rng::new(seed ^ 0xd1e75 ^ (n as u64) << 48 ^ (t as u64) << 56);
    let mut pair = Pair::opened(n, t, format!("seed {seed}, n {n}, t {t}, values"));
    let open = pair.plain;
    let records = values::records(n, t, rng.draw());
    for record in &records {
        pair.step(record, &mut rng);
        if rng.percent(2) {
            pair.reads(&mut rng);
        }
    }
    pair.reads(&mut rng);
    pair.put(&open);
    let whole = records.into_iter().filter(|record| record.len() == Bench::RECORD);
    pair.runs(&whole.flatten().collect::<Vec<u8>>(), &mut rng);
    pair.reached = false;
    for junk in [false, true] {
        let state = gen::random_state(&mut rng, n, t, junk);
        states_of_values(&mut pair, state, &mut rng);
    }
    for difference in Difference::ALL.into_iter().filter(|_| t > 0) {
        let (state, a) = values::nearly_agreed(&mut rng, n, t, difference);
        pair.nearly_agreed(&state, a, difference, &mut rng);
    }
    pair.met
}

/// Closes that are due, where what was received is nearly equal to what is held.
pub fn nearly_equal_closes(n: u8, t: u8, seed: u64) -> Met {
    let mut rng = Rng::new(seed ^ 0xc105e ^ (n as u64) << 48 ^ (t as u64) << 56);
    let bench = Bench::open(n, t).expect("a good size");
    let mut pair = Pair::new(bench, format!("seed {seed}, n {n}, t {t}, closes"));
    for _ in 0..20 {
        let (state, a) = received::nearly_equal(&mut rng, n, t);
        pair.nearly_equal(&state, a, &mut rng);
    }
    pair.met
}

/// A state with any values in all its data: stepped, run and read, then damaged.
fn states_of_values(pair: &mut Pair, mut state: Bench, rng: &mut Rng) {
    let (n, t) = (state.n, state.t);
    values::spread(rng, &mut state);
    let mut adversary = Adversary::new(rng.draw());
    pair.put(&state);
    let mut schedule = Vec::new();
    for _ in 0..40 {
        let accepted = if rng.percent(60) { adversary.accepted(&pair.plain) } else { None };
        let any =
            accepted.map_or_else(|| values::doubtful_start(rng, n, t), |record| record.bytes().to_vec());
        pair.step(&any, rng);
        schedule.extend(Some(any).filter(|record| record.len() == Bench::RECORD).into_iter().flatten());
    }
    pair.reads(rng);
    pair.put(&state);
    pair.runs(&schedule, rng);
    pair.reads(rng);
    pair.closes(&state, rng);
    pair.reads(rng);
    gen::damage(rng, &mut state);
    pair.put(&state);
    pair.step(&gen::start(1, values::exceeding(rng)).bytes(), rng);
    pair.run(&schedule, 3);
    pair.reads(rng);
}

/// Parts of `everything` for each schedule; the openings are one more.
const PARTS: usize = 6;

/// Everything, for every n and t, from one seed: `schedules` schedules of each kind for each size.
pub fn everything(seed: u64, schedules: usize, tell: Tell) -> Met {
    let mut course = Course::new(1 + PARTS * schedules, tell);
    let seeds = || (0..schedules as u64).map(|round| seed.wrapping_add(round.wrapping_mul(1_000_003)));
    course.add(&openings(seed));
    course.end_part();
    for seed in seeds() {
        course.add(&any_aggregates(seed));
        for (n, t) in gen::sizes() {
            let noise = [0, 20, 60][((seed ^ n as u64) % 3) as usize];
            course.add(&one_by_one(n, t, seed, noise));
            course.add(&by_runs(n, t, seed, noise));
            course.add(&other_states(n, t, seed));
        }
        course.end_part();
    }
    // After all else, so that what the rest finds first is still found there.
    for seed in seeds() {
        course.part(gen::sizes(), |n, t| lists(n, t, seed));
    }
    for seed in seeds() {
        course.add(&value_aggregates(seed));
        course.part(gen::sizes(), |n, t| any_values(n, t, seed));
    }
    for seed in seeds() {
        let early = gen::sizes().filter(|&(_, t)| t > 0);
        course.part(early, |n, t| nearly_equal_closes(n, t, seed));
    }
    for seed in seeds() {
        course.part(gen::sizes(), |n, t| carried(n, t, seed));
    }
    for seed in seeds() {
        course.add(&tied_aggregates(seed));
        course.end_part();
    }
    course.met
}
