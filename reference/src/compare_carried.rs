//! The proved library beside the reference where a bench from before diet portions is carried over. The library has no
//! bench of before, so the reference steps it; both carry it over and go on.

use crate::carried::{self, Carrying};
use crate::compare::Pair;
use crate::gen::{self, Adversary, Rng};
use crate::met::Met;
use crate::refusal::number;
use crate::values;
use crate::{proved, Bench, OldBench};

impl Pair {
    /// Carries the bench of each side over; gives the refusal or 0. What the proved library gives also by the rule, so
    /// that the two are not only the same.
    fn carry(&mut self) -> u8 {
        let (before, mut old) = (self.proved, OldBench(self.plain));
        let answer = proved::carry(&mut self.proved);
        let plain = number(&old.carry());
        self.plain = old.0;
        self.calls += 1;
        self.same("carrying", answer, plain as u32);
        self.same_state("state after carrying");
        let carrying = Carrying::new(&before, answer);
        if let Err(broken) = carrying.check(&self.proved) {
            panic!("{}, call {}: {broken}", self.place, self.calls);
        }
        self.met.carried[usize::from(self.reached)].count(&carrying);
        self.met.answer(plain);
        plain
    }

    fn carry_from(&mut self, bench: &Bench) -> u8 {
        self.put(bench);
        self.carry()
    }
}

/// Carrying over from the opening, along a schedule of before, and of other states; and a list of calls across it.
pub fn carried(n: u8, t: u8, seed: u64) -> Met {
    let mut rng = Rng::new(seed ^ 0xca441ed ^ (n as u64) << 48 ^ (t as u64) << 56);
    let mut pair = Pair::opened(n, t, format!("seed {seed}, n {n}, t {t}, carried"));
    pair.carry();
    along(&mut pair, &mut rng);
    across(&mut pair, &mut rng);
    pair.reached = false;
    for junk in [false, true] {
        for _ in 0..6 {
            let state = gen::random_state(&mut rng, n, t, junk);
            other_state(&mut pair, state, &mut rng);
        }
    }
    pair.met
}

/// A schedule of before with any counts, now and then carried over.
fn along(pair: &mut Pair, rng: &mut Rng) {
    let (n, t) = (pair.plain.n, pair.plain.t);
    let mut old = OldBench::open(n, t).expect("a good size");
    let (noise, large) = (rng.pick(&[0, 20]), rng.pick(&[0, 5, 20, 60]));
    for record in carried::records(n, t, rng.draw(), noise, large) {
        // A refused record leaves the bench as it is.
        let _ = old.step(&record);
        if rng.percent(5) {
            pair.carry_from(&old.0);
        }
    }
    pair.carry_from(&old.0);
}

/// A list of calls that begins on a bench of before, with counts up to 65,535, and goes on with records of now: one by
/// one, and by runs. Where it ends with diet portions, it is not carried over again.
fn across(pair: &mut Pair, rng: &mut Rng) {
    let (n, t) = (pair.plain.n, pair.plain.t);
    let mut old = OldBench::open(n, t).expect("a good size");
    let records = carried::records(n, t, rng.draw(), 20, 0);
    let taken = if rng.percent(10) { 0 } else { rng.below(records.len() + 1) };
    for record in &records[..taken] {
        let _ = old.step(record);
    }
    let answer = pair.carry_from(&old.0);
    pair.same("carrying counts up to 65,535", answer, 0);
    let carried = pair.plain;
    let since = gen::records_from(carried, Adversary::new(rng.draw()), 20, values::doubtful_start);
    for record in &since {
        pair.step(record, rng);
    }
    pair.reads(rng);
    let again = pair.carry();
    pair.met.across.count(&carried, &pair.plain, again);
    pair.carry_from(&old.0);
    let whole = since.into_iter().filter(|record| record.len() == Bench::RECORD);
    pair.runs(&whole.flatten().collect::<Vec<u8>>(), rng);
    pair.carry();
}

/// A state that mostly no schedule reaches: with any words, with a few counts above 65,535, with any bits flipped, and
/// damaged.
fn other_state(pair: &mut Pair, mut state: Bench, rng: &mut Rng) {
    pair.carry_from(&state);
    carried::spread(rng, &mut state);
    pair.carry_from(&state);
    let mut flipped = state;
    (0..1 + rng.below(20)).for_each(|_| carried::flip(rng, &mut flipped));
    pair.carry_from(&flipped);
    gen::damage(rng, &mut state);
    pair.carry_from(&state);
}
