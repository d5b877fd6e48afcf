//! Benches on which every process has a close due once a last estimate has arrived, for the benchmark of closes alone.

use crate::{Bench, Cause, Closing, Record};

/// A bench of n from 3 on and t = n - 1.
pub struct Due {
    /// All estimates of the round have arrived but one.
    pub bench: Bench,
    /// Its arrival.
    pub arrival: Vec<u8>,
    /// Then the closes of all processes, each of them due.
    pub closes: Vec<u8>,
}

/// Not `filled`, it is round 1: each holds its own entry alone, and fills the others'. `filled`, it is round 2: all
/// hold all n entries.
pub fn due(n: u8, filled: bool) -> Due {
    let mut bench = Bench::open(n, n - 1).expect("a good size");
    let closes = schedule((1..=n).map(Record::close));
    take(&mut bench, &schedule((1..=n).map(|a| Record::start(a, 100 + a as u16, a as u16))));
    if filled {
        take(&mut bench, &exchange(n, 1));
        take(&mut bench, &closes);
    }
    let mut exchanged = exchange(n, 1 + u8::from(filled));
    let arrival = exchanged.split_off(exchanged.len() - Bench::RECORD);
    take(&mut bench, &exchanged);
    Due { bench, arrival, closes }
}

/// How each of these closes ends.
pub fn ends(filled: bool) -> Closing {
    if filled {
        Closing::Agreed
    } else {
        Closing::NextRound
    }
}

/// Each sends the estimate of a round to each other, and each of these arrives.
fn exchange(n: u8, round: u8) -> Vec<u8> {
    let pairs = (1..=n).flat_map(|a| (1..=n).filter(move |&b| b != a).map(move |b| (a, b)));
    schedule(pairs.flat_map(|(a, b)| [Record::send(a, b), Record::arrive(a, b, round)]))
}

fn schedule(records: impl Iterator<Item = Record>) -> Vec<u8> {
    records.flat_map(Record::bytes).collect()
}

fn take(bench: &mut Bench, schedule: &[u8]) {
    assert_eq!(bench.run(schedule, u32::MAX).cause, Cause::Done);
}

#[cfg(test)]
mod tests {
    use super::*;
    use crate::layout::{all, bit};

    /// What is lacking, what each process holds before, and that each close ends as said and leaves all n entries.
    #[test]
    fn every_close_is_due() {
        for n in 3..=16 {
            for filled in [false, true] {
                let Due { mut bench, arrival, closes } = due(n, filled);
                assert_eq!((bench.t, closes.len()), (n - 1, n as usize * Bench::RECORD));
                let due = |bench: Bench| {
                    let mut each = closes.chunks(Bench::RECORD);
                    each.all(|record| { bench }.step(record) == Ok(ends(filled)))
                };
                assert!(!due(bench));
                take(&mut bench, &arrival);
                assert!(due(bench));
                for (a, record) in closes.chunks(Bench::RECORD).enumerate() {
                    let p = &bench.processes[a];
                    let held = if filled { all(n) } else { bit(a) };
                    assert_eq!((p.round, p.estimate.present), (1 + u8::from(filled), held));
                    assert_eq!((p.previous, p.current), (all(n), all(n)));
                    assert_eq!(bench.step(record), Ok(ends(filled)));
                    assert_eq!(bench.processes[a].estimate.present, all(n));
                    assert_eq!(bench.processes[a].has_decided(), filled);
                }
            }
        }
    }
}
