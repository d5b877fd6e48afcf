//! `soak [minutes [seed]]`: the differential test with one seed after another.

use reference::compare::{decided_bytes, everything};
use reference::compare_calendars::calendars;
use reference::met::Met;
use reference::tool::{clock, grouped, write_line, Progress, Tool};
use std::process::ExitCode;
use std::time::Duration;

const TOOL: Tool = Tool { name: "soak", call: "soak [minutes [seed]]" };
const CALENDARS: u64 = 60_000;
/// Nearly seventy days.
const MOST_MINUTES: u64 = 100_000;

fn main() -> ExitCode {
    let minutes = |word: &str| TOOL.number("minutes", word, 1, MOST_MINUTES);
    TOOL.run(|words| match *words {
        [] => soak(1, 1),
        [time] => soak(minutes(time)?, 1),
        [time, seed] => soak(minutes(time)?, TOOL.number("seed", seed, 0, u64::MAX)?),
        _ => Err(TOOL.usage()),
    })
}

fn soak(minutes: u64, first: u64) -> Result<(), String> {
    let mut progress = Progress::in_place(TOOL.name);
    progress.announce(&format!(
        "the library against the reference for {minutes} min, from seed {first} on; \
         the last seed is brought to its end"
    ));
    let (mut met, mut of_calendars) = (Met::default(), reference::calendars::Met::default());
    let mut seed = first;
    while progress.since() < Duration::from_secs(60 * minutes) {
        one_seed(seed, minutes, &mut progress, (&mut met, &mut of_calendars));
        let reports =
            [met.report(), met.report_values(), met.report_carried(), of_calendars.report()].join("; ");
        progress.clear();
        write_line(&format!("seeds {first} to {seed}: {reports}"))?;
        seed = seed.wrapping_add(1);
    }
    Ok(())
}

/// All that is compared from a seed, added to what was met before.
fn one_seed(
    seed: u64,
    minutes: u64,
    progress: &mut Progress,
    (met, of_calendars): (&mut Met, &mut reference::calendars::Met),
) {
    let mut tell = |records: u64| {
        progress.tell(|since| {
            format!("{} of {minutes}:00, seed {seed}, {} records", clock(since), grouped(records))
        })
    };
    let before = met.records;
    met.add(&everything(seed, 1, &mut |stage| tell(before + stage.counted)));
    let before = met.records;
    met.add(&decided_bytes(seed, &mut |stage| tell(before + stage.counted)));
    let records = met.records;
    of_calendars.add(&calendars(seed, CALENDARS, &mut |_| tell(records)));
}
