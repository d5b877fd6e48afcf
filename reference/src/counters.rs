//! The counters that the host lends to the call for one record (the paper's tally).

use crate::{Bench, Closing, Refusal};

/// Each counter stays at its largest value.
#[repr(C)]
#[derive(Clone, Copy, PartialEq, Eq, Debug, Default)]
pub struct Counters {
    pub accepted: u32,
    pub refused: u32,
    pub crashes: u32,
}

impl Counters {
    /// Counts one record.
    pub fn count(&mut self, record: &[u8], accepted: bool) {
        if !accepted {
            self.refused = self.refused.saturating_add(1);
            return;
        }
        self.accepted = self.accepted.saturating_add(1);
        if record[0] == 5 {
            self.crashes = self.crashes.saturating_add(1);
        }
    }
}

impl Bench {
    /// The call for one record, with the host's counters.
    pub fn step_counted(&mut self, record: &[u8], counters: &mut Counters) -> Result<Closing, Refusal> {
        let answer = self.step(record);
        counters.count(record, answer.is_ok());
        answer
    }
}

#[cfg(test)]
mod tests {
    use super::*;
    use crate::refusal::number;
    use crate::Record;

    #[test]
    fn counts() {
        let mut bench = Bench::open(2, 1).unwrap();
        let mut counters = Counters::default();
        let mut step = |record: &[u8]| number(&bench.step_counted(record, &mut counters));
        assert_eq!(step(&Record::start(1, 0, 0).bytes()), 0);
        assert_eq!(step(&Record::crash(2).bytes()), 0);
        assert_eq!(step(&Record::crash(2).bytes()), 6);
        assert_eq!(step(&[5]), 3);
        assert_eq!(step(&[]), 3);
        assert_eq!(counters, Counters { accepted: 2, refused: 3, crashes: 1 });
    }

    #[test]
    fn stays_at_largest() {
        let mut bench = Bench::open(2, 1).unwrap();
        let full = Counters { accepted: u32::MAX, refused: u32::MAX, crashes: u32::MAX };
        let mut counters = full;
        for answer in [Ok(Closing::None), Err(Refusal::Crashed)] {
            assert_eq!(bench.step_counted(&Record::crash(2).bytes(), &mut counters), answer);
        }
        assert_eq!(counters, full);
    }

    #[test]
    fn damaged_state_counts_as_refused() {
        let mut bench = Bench::open(2, 1).unwrap();
        bench.crashed = 4;
        let mut counters = Counters::default();
        let answer = bench.step_counted(&Record::start(1, 0, 0).bytes(), &mut counters);
        assert_eq!(answer, Err(Refusal::Damaged));
        assert_eq!(counters, Counters { accepted: 0, refused: 1, crashes: 0 });
    }
}
