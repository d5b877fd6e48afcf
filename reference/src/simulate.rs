//! The program of the paper: records in, one line each, then a `T` line for each process.

use crate::refusal::number;
use crate::{Bench, Record, Refusal, Value};
use std::fmt::Write;

/// The whole output for the whole input.
pub fn simulate(input: &[u8]) -> String {
    let (first, rest) = input.split_at(input.len().min(Bench::RECORD));
    match open(first) {
        Ok(bench) => lines(bench, rest),
        Err(refusal) => format!("0 {}\n", refusal.number()),
    }
}

/// The opening record: refusals 3, 4, 5, 1.
fn open(bytes: &[u8]) -> Result<Bench, Refusal> {
    let record = Record::read(bytes)?;
    if record.kind != Record::OPEN {
        return Err(Refusal::Kind);
    }
    if record.r != 0 || record.value != Value::ZERO {
        return Err(Refusal::Field);
    }
    Bench::open(record.a, record.b)
}

fn lines(mut bench: Bench, schedule: &[u8]) -> String {
    let mut output = String::new();
    for (i, record) in schedule.chunks(Bench::RECORD).enumerate() {
        let answer = number(&bench.step(record));
        writeln!(output, "{} {}", i + 1, answer).expect("a string takes all");
    }
    for a in 0..bench.n as usize {
        output.push_str(&process_line(&bench, a));
    }
    output
}

fn process_line(bench: &Bench, a: usize) -> String {
    let p = &bench.processes[a];
    let (crashed, decided) = (bench.has_crashed(a) as u8, p.has_decided() as u8);
    let mut line = format!("T {} {} {crashed} {decided}", a + 1, p.round);
    for i in 0..bench.n as usize {
        match p.estimate.entry(i) {
            Some(value) => write!(line, " {value}").expect("a string takes all"),
            None => line.push_str(" -"),
        }
    }
    line.push('\n');
    line
}

#[cfg(test)]
mod tests {
    use super::*;

    #[test]
    fn opening_record() {
        assert_eq!(simulate(&[]), "0 3\n");
        assert_eq!(simulate(&[0, 2, 1]), "0 3\n");
        assert_eq!(simulate(&[1, 2, 1, 0, 0, 0, 0, 0]), "0 4\n");
        assert_eq!(simulate(&[0, 2, 1, 1, 0, 0, 0, 0]), "0 5\n");
        assert_eq!(simulate(&[0, 99, 1, 0, 0, 0, 0, 1]), "0 5\n");
        assert_eq!(simulate(&[0, 17, 1, 0, 0, 0, 0, 0]), "0 1\n");
        assert_eq!(simulate(&[0, 3, 3, 0, 0, 0, 0, 0]), "0 1\n");
        assert_eq!(simulate(&[0, 2, 1, 0, 0, 0, 0, 0]), "T 1 0 0 0 - -\nT 2 0 0 0 - -\n");
    }

    /// Any byte but 0 is shown as 1.
    #[test]
    fn decided_shows_as_1() {
        let mut bench = Bench::open(1, 0).unwrap();
        assert_eq!(process_line(&bench, 0), "T 1 0 0 0 -\n");
        for byte in 1..=255 {
            bench.processes[0].decided = byte;
            assert_eq!(process_line(&bench, 0), "T 1 0 0 1 -\n");
        }
    }

    #[test]
    fn short_last_record() {
        assert_eq!(simulate(&[0, 1, 0, 0, 0, 0, 0, 0, 1, 1]), "1 3\nT 1 0 0 0 -\n");
    }
}
