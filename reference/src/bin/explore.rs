//! `explore exhaustive [n t]`: every schedule of n up to 3.
//! `explore random [schedules [seed [n t]]]`: random schedules of every n and t, or of one.

use reference::check::{random_schedule, record_bound, Broken};
use reference::explore::explore;
use reference::gen::sizes;
use reference::tool::{write_line, Progress, Stage, Tool};
use std::process::ExitCode;
use std::time::Instant;

const TOOL: Tool =
    Tool { name: "explore", call: "explore exhaustive [n t] | random [schedules [seed [n t]]]" };
const SMALL: [(u8, u8); 6] = [(1, 0), (2, 0), (2, 1), (3, 0), (3, 1), (3, 2)];
/// Of each size.
const MOST_SCHEDULES: u64 = 1_000_000;

fn main() -> ExitCode {
    TOOL.run(run)
}

fn run(words: &[&str]) -> Result<(), Broken> {
    let schedules = |word: &str| TOOL.number("schedules", word, 1, MOST_SCHEDULES);
    let seed = |word: &str| TOOL.number("seed", word, 0, u64::MAX);
    match *words {
        ["exhaustive"] => SMALL.iter().try_for_each(|&(n, t)| exhaustive(n, t)),
        ["exhaustive", n, t] => {
            let (n, t) = size(n, t, 3)?;
            exhaustive(n, t)
        }
        ["random"] => random(20, 1, &every_size()),
        ["random", times] => random(schedules(times)?, 1, &every_size()),
        ["random", times, first] => random(schedules(times)?, seed(first)?, &every_size()),
        ["random", times, first, n, t] => random(schedules(times)?, seed(first)?, &[size(n, t, 16)?]),
        _ => Err(TOOL.usage()),
    }
}

/// A size of at most so many processes.
fn size(n: &str, t: &str, most: u64) -> Result<(u8, u8), String> {
    let n = TOOL.number("n", n, 1, most)?;
    let t = TOOL.number("t", t, 0, n - 1)?;
    Ok((n as u8, t as u8))
}

fn exhaustive(n: u8, t: u8) -> Result<(), Broken> {
    let (clock, mut progress) = (Instant::now(), Progress::in_place(TOOL.name));
    progress.say(&format!("n {n}, t {t}: every schedule"));
    let found = explore(n, t)?;
    progress.clear();
    write_line(&format!(
        "n {n}, t {t}: {} states, {} steps, {} quiet ends, last round {}, longest schedule {} of {}, {:.1} s",
        found.states,
        found.steps,
        found.quiet_ends,
        found.last_round,
        found.longest,
        record_bound(n, t),
        clock.elapsed().as_secs_f64()
    ))?;
    let [_, next_round, agreed, last_round] = found.closings;
    write_line(&format!(
        "  closes: {next_round} next round, {agreed} agreed, {last_round} last round, {} of these agreed too",
        found.both_grounds
    ))
}

fn every_size() -> Vec<(u8, u8)> {
    sizes().collect()
}

fn random(schedules: u64, seed: u64, sizes: &[(u8, u8)]) -> Result<(), Broken> {
    write_line(&format!("seed {seed}, {schedules} schedules of each of {} sizes", sizes.len()))?;
    let (clock, mut progress) = (Instant::now(), Progress::in_place(TOOL.name));
    let mut stage = Stage { of: sizes.len() as u64 * schedules, ..Stage::default() };
    for &(n, t) in sizes {
        for i in 0..schedules {
            stage.counted += random_schedule(n, t, schedule_seed(seed, i))? as u64;
            stage.done += 1;
            progress.tell(|since| stage.in_words("schedules", "records", since));
        }
    }
    progress.clear();
    write_line(&format!("{} records accepted, {:.1} s", stage.counted, clock.elapsed().as_secs_f64()))
}

/// The seed that is printed when a schedule breaks a property.
fn schedule_seed(seed: u64, i: u64) -> u64 {
    seed.wrapping_mul(1_000_003).wrapping_add(i)
}
