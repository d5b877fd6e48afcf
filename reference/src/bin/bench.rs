//! The proved library's speed beside the reference's, in one run: times alternate, and medians are compared.
//! `bench [repeats]`. The ratio is the proved library's time over the reference's.

use reference::calendar::{self, Entry, Kind, Week};
use reference::closes::{due, ends, Due};
use reference::gen::{schedule, schedule_without_crashes, Rng};
use reference::tool::{write_line, Progress, Tool};
use reference::{gen, proved, Bench, Cause, Closing, Counters, OldBench};
use std::hint::black_box;
use std::path::Path;
use std::process::{Command, ExitCode, Stdio};
use std::time::Instant;

const TOOL: Tool = Tool { name: "bench", call: "bench [repeats]" };
const REPEATS: usize = 41;
const MOST_REPEATS: u64 = 100_000;
const SEEDS: std::ops::RangeInclusive<u64> = 1..=20;
const MILLION: usize = 1_000_000;
/// More repeats of closes, since what is subtracted is large beside what is left.
const MORE_OF_CLOSES: usize = 10;

fn main() -> ExitCode {
    TOOL.run(|words| match *words {
        [] => bench(REPEATS),
        [repeats] => bench(TOOL.number("repeats", repeats, 1, MOST_REPEATS)? as usize),
        _ => Err(TOOL.usage()),
    })
}

fn bench(repeats: usize) -> Result<(), String> {
    let all = measurements();
    let mut meter = Meter { repeats, progress: Progress::in_place(TOOL.name), now: String::new() };
    meter.row(&format!(
        "state {} bytes; {} measurements; {repeats} repeats, of closes {MORE_OF_CLOSES} times as many, \
         alternating, medians",
        size_of::<Bench>(),
        all.len()
    ))?;
    let [what, ours, plain, ratio] = ["ns each (records/s)", "proved", "reference", "ratio"];
    meter.row(&format!("{what:34} {ours:>12} {plain:>12} {ratio:>7}"))?;
    for (i, (name, measure)) in all.iter().enumerate() {
        meter.now = format!("{} of {}: {name}", i + 1, all.len());
        meter.progress.say(&meter.now);
        measure(&mut meter)?;
    }
    Ok(())
}

/// Measures one thing and writes its row.
type Measure = Box<dyn Fn(&mut Meter) -> Result<(), String>>;

/// All of them, each with its name.
fn measurements() -> Vec<(String, Measure)> {
    let mut all: Vec<(String, Measure)> = Vec::new();
    for n in [3, 12, 16] {
        for crashes in [false, true] {
            let name = format!("run, n {n}, {}", if crashes { "with crashes" } else { "no crashes" });
            all.push((name.clone(), Box::new(move |meter| runs(&name, n, crashes, meter))));
        }
    }
    for n in [3, 12, 16] {
        let name = format!("one record, n {n}");
        all.push((name.clone(), Box::new(move |meter| steps(&name, n, meter))));
    }
    for n in [3, 12, 16] {
        for filled in [false, true] {
            let name = format!("close, n {n}, {}", if filled { "nothing to fill" } else { "all to fill" });
            all.push((name.clone(), Box::new(move |meter| closes(&name, n, filled, meter))));
        }
    }
    all.push(("soundness, and the state copied".into(), Box::new(soundness)));
    all.push(("carrying over".into(), Box::new(carrying)));
    for near in [false, true] {
        let name = format!("calendar, a million, {}", if near { "in the week" } else { "any days" });
        all.push((name.clone(), Box::new(move |meter| calendars(&name, near, meter))));
    }
    all.push(("the program on a million records".into(), Box::new(program)));
    all
}

/// Repeats what is measured, writes the rows, and says on standard error which it is at.
struct Meter {
    repeats: usize,
    progress: Progress,
    /// What is being measured, with its number.
    now: String,
}

impl Meter {
    fn row(&mut self, line: &str) -> Result<(), String> {
        self.progress.clear();
        write_line(line)
    }

    fn report(
        &mut self,
        name: &str,
        things: usize,
        mut ours: impl FnMut(),
        mut plain: impl FnMut(),
    ) -> Result<(), String> {
        self.report_times(name, things, self.repeats, || time(&mut ours), || time(&mut plain))
    }

    /// Each gives the nanoseconds that it took for all the things.
    fn report_times(
        &mut self,
        name: &str,
        things: usize,
        repeats: usize,
        mut ours: impl FnMut() -> f64,
        mut plain: impl FnMut() -> f64,
    ) -> Result<(), String> {
        let mut times: [Vec<f64>; 2] = Default::default();
        for i in 0..repeats {
            times[0].push(ours());
            times[1].push(plain());
            self.progress.tell(|_| format!("{}, {} of {repeats} repeats", self.now, i + 1));
        }
        let [x, y] = times.map(|times| median(times) / things as f64);
        let speed = |each: f64| format!("{each:.1} ({:.1} M/s)", 1e3 / each);
        self.row(&format!("{name:34} {:>18} {:>18} {:>6.2}", speed(x), speed(y), x / y))
    }
}

fn schedules(n: u8, crashes: bool) -> Vec<Vec<u8>> {
    let one = if crashes {
        |n, seed| schedule(n, n - 1, seed, 0)
    } else {
        |n, seed| schedule_without_crashes(n, n - 1, seed)
    };
    SEEDS.map(|seed| one(n, seed)).collect()
}

/// The run of whole schedules, each from an opened bench.
fn runs(name: &str, n: u8, crashes: bool, meter: &mut Meter) -> Result<(), String> {
    let schedules = schedules(n, crashes);
    let records: usize = schedules.iter().map(|bytes| bytes.len() / Bench::RECORD).sum();
    let open = Bench::open(n, n - 1).expect("a good size");
    let ours = || {
        for bytes in &schedules {
            let mut bench = open;
            assert_eq!(proved::run(black_box(&mut bench), bytes, u32::MAX).0, Cause::Done);
        }
    };
    let plain = || {
        for bytes in &schedules {
            let mut bench = open;
            assert_eq!(black_box(&mut bench).run(bytes, u32::MAX).cause, Cause::Done);
        }
    };
    let mean = records / schedules.len();
    meter.report(&format!("{name}, {mean} records"), records, ours, plain)
}

/// The call for one record.
fn steps(name: &str, n: u8, meter: &mut Meter) -> Result<(), String> {
    let schedules = schedules(n, false);
    let records: usize = schedules.iter().map(|bytes| bytes.len() / Bench::RECORD).sum();
    let open = Bench::open(n, n - 1).expect("a good size");
    let each = |accepts: &dyn Fn(&mut Bench, &[u8], &mut Counters) -> bool| {
        for bytes in &schedules {
            let (mut bench, mut tally) = (open, Counters::default());
            for record in bytes.chunks(Bench::RECORD) {
                assert!(accepts(black_box(&mut bench), record, &mut tally));
            }
        }
    };
    let ours =
        |bench: &mut Bench, record: &[u8], tally: &mut Counters| proved::step(bench, record, tally).0 == 0;
    let plain =
        |bench: &mut Bench, record: &[u8], tally: &mut Counters| bench.step_counted(record, tally).is_ok();
    meter.report(name, records, || each(&ours), || each(&plain))
}

/// Closes alone: a run of an arrival and a close of each process, less a run of the arrival. The state is as much
/// checked and copied in both; and both change it, without which it is copied sooner.
fn closes(name: &str, n: u8, filled: bool, meter: &mut Meter) -> Result<(), String> {
    const TIMES: usize = 500;
    let Due { bench: state, arrival, closes } = due(n, filled);
    let both = [&arrival[..], &closes].concat();
    each_ends(&state, &arrival, &closes, ends(filled));
    let whole = (Cause::Done, 1 + n as u32, ends(filled).number());
    let one = (Cause::Done, 1, Closing::None.number());
    let alone =
        |run: Run| time_runs(run, TIMES, &state, &both, whole) - time_runs(run, TIMES, &state, &arrival, one);
    let repeats = MORE_OF_CLOSES * meter.repeats;
    meter.report_times(name, TIMES * n as usize, repeats, || alone(proved_run), || alone(plain_run))
}

/// Once the estimate has arrived, both answer each of the closes so.
fn each_ends(state: &Bench, arrival: &[u8], closes: &[u8], closing: Closing) {
    let (mut ours, mut plain, mut tally) = (*state, *state, Counters::default());
    assert_eq!(proved::step(&mut ours, arrival, &mut tally), (0, Closing::None.number()));
    assert_eq!(plain.step(arrival), Ok(Closing::None));
    for record in closes.chunks(Bench::RECORD) {
        assert_eq!(proved::step(&mut ours, record, &mut tally), (0, closing.number()));
        assert_eq!(plain.step(record), Ok(closing));
    }
    assert!(ours == plain, "the states differ");
}

/// Gives why it ended, how many records it accepted, and the number of its closing.
type Run = fn(&mut Bench, &[u8]) -> (Cause, u32, u8);

fn proved_run(bench: &mut Bench, schedule: &[u8]) -> (Cause, u32, u8) {
    let (cause, progress) = proved::run(bench, schedule, u32::MAX);
    (cause, progress.accepted, progress.closing)
}

fn plain_run(bench: &mut Bench, schedule: &[u8]) -> (Cause, u32, u8) {
    let ended = bench.run(schedule, u32::MAX);
    (ended.cause, ended.accepted, ended.closing.number())
}

/// So many runs of one schedule, each from this state.
fn time_runs(run: Run, times: usize, state: &Bench, schedule: &[u8], expected: (Cause, u32, u8)) -> f64 {
    time(&mut || {
        for _ in 0..times {
            let mut bench = *state;
            assert_eq!(run(black_box(&mut bench), black_box(schedule)), expected);
        }
    })
}

/// The soundness check: the proved one by a run of nothing, which also copies the state in and out.
fn soundness(meter: &mut Meter) -> Result<(), String> {
    const TIMES: usize = 2000;
    let mut bench = gen::random_state(&mut Rng::new(1), 16, 15, true);
    let other = bench;
    let ours =
        || (0..TIMES).for_each(|_| assert_eq!(proved::run(black_box(&mut bench), &[], 0).0, Cause::Done));
    let plain = || (0..TIMES).for_each(|_| assert!(black_box(&other).is_sound()));
    meter.report("soundness, and the state copied", TIMES, ours, plain)
}

/// Carrying a bench over of which half of the entries are present, none above 65,535.
fn carrying(meter: &mut Meter) -> Result<(), String> {
    const TIMES: usize = 2000;
    let mut bench = gen::random_state(&mut Rng::new(1), 16, 15, true);
    let estimates = bench.processes.iter_mut().map(|p| &mut p.estimate);
    for word in estimates.chain(&mut bench.sent).flat_map(|data| &mut data.values) {
        *word &= u16::MAX as u32;
    }
    let mut old = OldBench(bench);
    let ours = || (0..TIMES).for_each(|_| assert_eq!(proved::carry(black_box(&mut bench)), 0));
    let plain = || (0..TIMES).for_each(|_| assert!(black_box(&mut old).carry().is_ok()));
    meter.report("carrying over", TIMES, ours, plain)
}

const WEEK: u16 = 1000;

/// A week of a million records: with any days, or nearly all with a day of the week.
fn calendars(name: &str, near: bool, meter: &mut Meter) -> Result<(), String> {
    let calendar = million_entries(near);
    let ours = || {
        let mut week = Week::default();
        assert_eq!(proved::calendar_week(black_box(&calendar), WEEK, &mut week), 0);
        week
    };
    let plain = || calendar::week(black_box(&calendar), WEEK).expect("site 16 takes part");
    assert_eq!(ours(), plain());
    let timed = |week: &dyn Fn() -> Week| assert!(week().n > 0);
    meter.report(name, MILLION, || timed(&ours), || timed(&plain))
}

/// Any sites and kinds, but site 16 is never closed, so that the week is not refused.
fn million_entries(near: bool) -> Vec<u8> {
    let mut rng = Rng::new(1);
    let entry = |_| {
        let site = 1 + rng.below(16) as u8;
        let kind = if site < 16 && rng.percent(50) { Kind::Closed } else { Kind::Term };
        let any = [rng.draw() as u16, rng.draw() as u16];
        let close = |day: u16| 7 * WEEK + day % 5;
        let [x, y] = if near && !rng.percent(1) { any.map(close) } else { any };
        Entry { site, kind, first: x.min(y), last: x.max(y) }
    };
    (0..MILLION).map(entry).flat_map(Entry::bytes).collect()
}

fn time(work: &mut impl FnMut()) -> f64 {
    let clock = Instant::now();
    work();
    clock.elapsed().as_nanos() as f64
}

fn median(mut times: Vec<f64>) -> f64 {
    times.sort_by(f64::total_cmp);
    times[times.len() / 2]
}

/// The program on a million records, from a file to no output, and the reference's.
fn program(meter: &mut Meter) -> Result<(), String> {
    let package = Path::new(env!("CARGO_MANIFEST_DIR"));
    let simulate = package.join("../target/bin/simulate");
    let reference = package.join("target/release/simulate_reference");
    if !simulate.is_file() || !reference.is_file() {
        return meter.row("program: target/bin/simulate or simulate_reference is not built");
    }
    let file = package.join("target/million.bin");
    std::fs::write(&file, million()).map_err(|error| format!("target/million.bin: {error}"))?;
    let (ours, plain) = (output(&simulate, &file)?, output(&reference, &file)?);
    assert!(ours.1 == plain.1, "the programs differ");
    meter.row(&format!(
        "program, {MILLION} records, end to end: {:.2} s, reference {:.2} s, ratio {:.2}; the same {} bytes",
        ours.0,
        plain.0,
        ours.0 / plain.0,
        ours.1.len()
    ))
}

/// An opening record, a whole schedule of 16, and doubtful records.
fn million() -> Vec<u8> {
    let mut rng = Rng::new(1);
    let mut input = vec![0, 16, 15, 0, 0, 0, 0, 0];
    input.extend(schedule_without_crashes(16, 15, 1));
    while input.len() < Bench::RECORD * (MILLION + 1) {
        input.extend(gen::doubtful(&mut rng, 16, 15).bytes());
    }
    input
}

/// Seconds and what was written; the median of three.
fn output(program: &Path, input: &Path) -> Result<(f64, Vec<u8>), String> {
    let run = |_| {
        let file = std::fs::File::open(input)?;
        let clock = Instant::now();
        let done = Command::new(program).stdin(Stdio::from(file)).output()?;
        Ok((clock.elapsed().as_secs_f64(), done.stdout))
    };
    let runs: std::io::Result<Vec<(f64, Vec<u8>)>> = (0..3).map(run).collect();
    let mut runs = runs.map_err(|error| format!("{}: {error}", program.display()))?;
    runs.sort_by(|x, y| x.0.total_cmp(&y.0));
    Ok(runs.swap_remove(1))
}
