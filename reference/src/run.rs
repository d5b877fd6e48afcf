//! A schedule of records with a budget.

use crate::{Bench, Closing, Refusal};

/// Why a run ended.
#[derive(Clone, Copy, PartialEq, Eq, Debug)]
pub enum Cause {
    /// The slice is empty.
    Done,
    /// The budget is spent.
    Spent,
    /// A record was refused, or the state is damaged (2).
    Refused(u8),
}

/// What a run gives.
#[derive(Clone, Copy, PartialEq, Eq, Debug)]
pub struct Ended<'a> {
    /// Records accepted.
    pub accepted: u32,
    pub cause: Cause,
    /// Of the last close that was stepped.
    pub closing: Closing,
    /// The part of the schedule not taken.
    pub rest: &'a [u8],
}

impl Bench {
    /// Steps until the slice is empty, the budget is spent or a record is refused.
    pub fn run<'a>(&mut self, schedule: &'a [u8], budget: u32) -> Ended<'a> {
        self.run_by(schedule, budget, Bench::step_sound)
    }

    /// The same, where `step` takes each record.
    pub(crate) fn run_by<'a>(
        &mut self,
        schedule: &'a [u8],
        budget: u32,
        step: impl Fn(&mut Bench, &[u8]) -> Result<Closing, Refusal>,
    ) -> Ended<'a> {
        let (mut accepted, mut closing, mut rest) = (0, Closing::None, schedule);
        if !self.is_sound() {
            let cause = Cause::Refused(Refusal::Damaged.number());
            return Ended { accepted, cause, closing, rest };
        }
        let cause = loop {
            if rest.is_empty() {
                break Cause::Done;
            }
            if accepted == budget {
                break Cause::Spent;
            }
            let (record, after) = rest.split_at(rest.len().min(Bench::RECORD));
            match step(self, record) {
                Ok(stepped) => closing = stepped.or(closing),
                Err(refusal) => break Cause::Refused(refusal.number()),
            }
            accepted += 1;
            rest = after;
        };
        Ended { accepted, cause, closing, rest }
    }
}

#[cfg(test)]
mod tests {
    use super::*;
    use crate::Record;

    fn schedule(records: &[Record]) -> Vec<u8> {
        records.iter().flat_map(|r| r.bytes()).collect()
    }

    fn ended(accepted: u32, cause: Cause, closing: Closing, rest: &[u8]) -> Ended<'_> {
        Ended { accepted, cause, closing, rest }
    }

    #[test]
    fn causes_in_order() {
        let bytes = schedule(&[Record::start(1, 7, 0), Record::close(1)]);
        let open = Bench::open(1, 0).unwrap();

        let mut bench = open;
        assert_eq!(bench.run(&bytes, 2), ended(2, Cause::Done, Closing::LastRound, &[]));
        assert!(bench.processes[0].has_decided());

        let mut bench = open;
        assert_eq!(bench.run(&bytes, 1), ended(1, Cause::Spent, Closing::None, &bytes[8..]));
        assert_eq!(bench.run(&bytes, 5), ended(0, Cause::Refused(7), Closing::None, &bytes));
        assert_eq!(bench.run(&bytes, 0), ended(0, Cause::Spent, Closing::None, &bytes));
        assert_eq!(bench.run(&[], 0), ended(0, Cause::Done, Closing::None, &[]));
        assert_eq!(bench.run(&bytes[8..], 5), ended(1, Cause::Done, Closing::LastRound, &[]));
    }

    #[test]
    fn short_last_part() {
        let mut bytes = schedule(&[Record::start(1, 7, 0)]);
        bytes.extend([4, 1, 0]);
        let mut bench = Bench::open(1, 0).unwrap();
        assert_eq!(bench.run(&bytes, 9), ended(1, Cause::Refused(3), Closing::None, &[4, 1, 0]));
        let mut bench = Bench::open(1, 0).unwrap();
        assert_eq!(bench.run(&bytes, 1), ended(1, Cause::Spent, Closing::None, &[4, 1, 0]));
    }

    #[test]
    fn damaged_state_comes_first() {
        let mut bench = Bench::open(1, 0).unwrap();
        bench.step(&Record::start(1, 7, 0).bytes()).unwrap();
        bench.processes[15].round = 2;
        let before = bench;
        let bytes = schedule(&[Record::close(1)]);
        assert_eq!(bench.run(&bytes, 0), ended(0, Cause::Refused(2), Closing::None, &bytes));
        assert_eq!(bench.run(&bytes, 1), ended(0, Cause::Refused(2), Closing::None, &bytes));
        assert_eq!(bench.run(&[], 0), ended(0, Cause::Refused(2), Closing::None, &[]));
        assert_eq!(bench, before);
    }
}
