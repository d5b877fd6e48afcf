//! `speed`: nanoseconds a record, for `run` and for `step`, on random schedules of 16 processes.

use reference::gen::schedule;
use reference::tool::{write_line, Tool};
use reference::{Bench, Cause};
use std::hint::black_box;
use std::process::ExitCode;
use std::time::Instant;

const TOOL: Tool = Tool { name: "speed", call: "speed" };
const REPEATS: usize = 20;

fn main() -> ExitCode {
    TOOL.run(|words| if words.is_empty() { speed() } else { Err(TOOL.usage()) })
}

fn speed() -> Result<(), String> {
    let schedules: Vec<Vec<u8>> = (1..=20).map(|seed| schedule(16, 15, seed, 0)).collect();
    let records: usize = schedules.iter().map(|bytes| bytes.len() / Bench::RECORD).sum();
    write_line(&format!("{records} records, seeds 1 to 20, each {REPEATS} times"))?;
    report("run", records, || schedules.iter().for_each(|bytes| run(bytes)))?;
    report("step", records, || schedules.iter().for_each(|bytes| step(bytes)))
}

fn report(name: &str, records: usize, work: impl Fn()) -> Result<(), String> {
    let clock = Instant::now();
    (0..REPEATS).for_each(|_| work());
    let each = clock.elapsed().as_nanos() as f64 / (records * REPEATS) as f64;
    write_line(&format!("{name}: {each:.1} ns a record"))
}

fn run(bytes: &[u8]) {
    let mut bench = Bench::open(16, 15).expect("a good size");
    let ended = black_box(&mut bench).run(bytes, u32::MAX);
    assert_eq!(ended.cause, Cause::Done);
}

fn step(bytes: &[u8]) {
    let mut bench = Bench::open(16, 15).expect("a good size");
    for record in bytes.chunks(Bench::RECORD) {
        assert!(black_box(&mut bench).step(record).is_ok());
    }
}
