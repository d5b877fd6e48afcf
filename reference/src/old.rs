//! The bench from before diet portions, and carrying it over into the form of now.
//!
//! Its state is laid out as that of now, and its steps are the same, but that the value of a start is one number of 32
//! bits, a count, and may be any. An entry is that count, in its word. Two words are equal exactly where both their
//! halves are, so the steps compare counts where they compare values.

use crate::layout::members;
use crate::record::index;
use crate::{Bench, Closing, Ended, GlobalData, Record, Refusal, Value};

/// A bench from before diet portions.
#[derive(Clone, Copy, PartialEq, Eq, Debug)]
pub struct OldBench(pub Bench);

/// The largest count that portions can be.
const MOST: u32 = u16::MAX as u32;

impl OldBench {
    /// A bench where nothing has happened.
    pub fn open(n: u8, t: u8) -> Result<OldBench, Refusal> {
        Bench::open(n, t).map(OldBench)
    }

    /// Takes one record: its closing, or the refusal, never 15, with the state unchanged.
    pub fn step(&mut self, record: &[u8]) -> Result<Closing, Refusal> {
        self.0.check_sound()?;
        step_sound(&mut self.0, record)
    }

    /// Steps until the slice is empty, the budget is spent or a record is refused.
    pub fn run<'a>(&mut self, schedule: &'a [u8], budget: u32) -> Ended<'a> {
        self.0.run_by(schedule, budget, step_sound)
    }

    /// The bench in the form of now, in place: each count is then as many portions, without diet portions. Or refusal 2
    /// or 16, with the bench unchanged.
    pub fn carry(&mut self) -> Result<&mut Bench, Refusal> {
        self.0.check_sound()?;
        self.data().try_for_each(check_counts)?;
        self.data_mut().for_each(to_portions);
        Ok(&mut self.0)
    }

    /// All that holds counts: every estimate and every row, also of processes past n and of rounds not opened.
    fn data(&self) -> impl Iterator<Item = &GlobalData> {
        let estimates = self.0.processes.iter().map(|p| &p.estimate);
        estimates.chain(&self.0.sent)
    }

    fn data_mut(&mut self) -> impl Iterator<Item = &mut GlobalData> {
        self.0.processes.iter_mut().map(|p| &mut p.estimate).chain(&mut self.0.sent)
    }
}

/// One record on a state known to be sound. Of a record alone 15 is checked last, so what it refuses is good in all
/// else, and is a start.
fn step_sound(bench: &mut Bench, record: &[u8]) -> Result<Closing, Refusal> {
    match bench.step_sound(record) {
        Err(Refusal::Diet) => start(bench, Record::read(record)?),
        answer => answer,
    }
}

/// A start, whatever its value.
fn start(bench: &mut Bench, record: Record) -> Result<Closing, Refusal> {
    let a = index(record.a, bench.n)?;
    if bench.has_crashed(a) {
        return Err(Refusal::Crashed);
    }
    bench.start(a, record.value)?;
    Ok(Closing::None)
}

/// Refusal 16, or nothing. A word under an absent entry is no count.
fn check_counts(data: &GlobalData) -> Result<(), Refusal> {
    if members(data.present).any(|i| data.values[i] > MOST) {
        Err(Refusal::LargeCount)
    } else {
        Ok(())
    }
}

fn to_portions(data: &mut GlobalData) {
    for i in members(data.present) {
        data.set(i, Value::new(data.values[i] as u16, 0));
    }
}
