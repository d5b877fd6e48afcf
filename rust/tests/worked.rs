//! The worked examples of the repository's README: the schedule of two processes, and the week of a calendar.

use gerzulan::{week, Bench, Cause, Closing, Counters, InTransit, Record, Refusal, Run, Value};
use std::path::Path;

const SCHEDULE: [Record; 12] = [
    Record::Start { process: 1, value: Value::new(40, 0) },
    Record::Start { process: 2, value: Value::new(25, 0) },
    Record::Send { from: 1, to: 2 },
    Record::Send { from: 2, to: 1 },
    Record::Arrive { from: 1, to: 2, round: 1 },
    Record::Arrive { from: 2, to: 1, round: 1 },
    Record::Close { process: 1 },
    Record::Crash { process: 2 },
    Record::Send { from: 1, to: 2 },
    Record::Close { process: 1 },
    Record::Suspect { process: 1, other: 2 },
    Record::Close { process: 1 },
];

fn bytes(records: &[Record]) -> Vec<u8> {
    records.iter().flat_map(|record| record.bytes()).collect()
}

/// What the processes hold when all is done.
fn check_end(bench: &Bench) {
    let one = bench.process(1).expect("there are two");
    let two = bench.process(2).expect("there are two");
    assert_eq!((one.round, one.decided, bench.has_crashed(1)), (2, 1, false));
    assert_eq!((two.round, two.decided, bench.has_crashed(2)), (1, 0, true));
    let decided = bench.global_data(1).expect("1 has decided");
    assert_eq!((decided.entry(1), decided.entry(2)), (Some(Value::new(40, 0)), Some(Value::new(25, 0))));
    assert_eq!((two.estimate.entry(1), two.estimate.entry(2)), (None, Some(Value::new(25, 0))));
    assert_eq!(bench.global_data(2), Err(Refusal::Undecided));
    assert_eq!(bench.in_transit(), Ok(vec![InTransit { from: 1, to: 2, round: 2 }]));
}

#[test]
fn step_by_step() {
    let mut bench = Bench::open(2, 1).expect("2 and 1 are in range");
    let mut tally = Counters::default();
    for (number, record) in (1..).zip(SCHEDULE) {
        let expected = match number {
            7 => Ok(Some(Closing::NextRound)),
            10 => Err(Refusal::Waiting),
            12 => Ok(Some(Closing::LastRound)),
            _ => Ok(None),
        };
        assert_eq!(bench.step(&record.bytes(), &mut tally), expected, "record {number}");
    }
    assert_eq!(tally, Counters { accepted: 11, refused: 1, crashes: 1 });
    check_end(&bench);
    // Case 6.
    let crash = Record::Crash { process: 1 };
    assert_eq!(bench.step(&crash.bytes(), &mut tally), Err(Refusal::CrashLimit));
}

#[test]
fn by_run() {
    let schedule = bytes(&SCHEDULE);
    let mut bench = Bench::open(2, 1).expect("2 and 1 are in range");
    let first = bench.run(&schedule, 3);
    assert_eq!(first, Run { cause: Cause::Spent, accepted: 3, closing: None, taken: 24 });
    let rest = &schedule[first.taken..];
    let second = bench.run(rest, u32::MAX);
    let cause = Cause::Refused(Refusal::Waiting);
    assert_eq!(second, Run { cause, accepted: 6, closing: Some(Closing::NextRound), taken: 48 });
    // Past the refused record.
    let third = bench.run(&rest[second.taken + 8..], u32::MAX);
    assert_eq!(third, Run { cause: Cause::Empty, accepted: 2, closing: Some(Closing::LastRound), taken: 16 });
    check_end(&bench);
    bench.n = 0;
    let damaged = bench.run(&schedule, 3);
    let cause = Cause::Refused(Refusal::Damaged);
    assert_eq!(damaged, Run { cause, accepted: 0, closing: None, taken: 0 });
}

#[test]
fn the_program_has_the_same_schedule() {
    let file = Path::new(env!("CARGO_MANIFEST_DIR")).join("../crates/simulate/stdin");
    let input = std::fs::read(&file).expect("the program's schedule");
    let mut records = vec![Record::Open { n: 2, t: 1 }];
    records.extend(SCHEDULE);
    assert_eq!(input, bytes(&records));
    let read: Option<Vec<Record>> = input.chunks(8).map(Record::read).collect();
    assert_eq!(read, Some(records));
}

/// By days from Monday 1 January 2024. Site 1 is closed all that week, 4 is open, and 9 opens on its Friday.
#[test]
fn the_week_of_22_january() {
    let calendar = [
        [1, 1, 7, 0, 39, 0, 0, 0],
        [1, 2, 21, 0, 25, 0, 0, 0],
        [4, 1, 7, 0, 39, 0, 0, 0],
        [9, 1, 25, 0, 32, 0, 0, 0],
    ]
    .concat();
    let third = week(&calendar, 3).expect("sites 4 and 9 take part");
    assert_eq!((third.n, third.site_of[0], third.site_of[1], third.site_of[2]), (2, 4, 9, 0));
    assert_eq!((third.process_of[0], third.process_of[3], third.process_of[8]), (0, 1, 2));
    assert_eq!(week(&calendar, 0), Err(Refusal::NoSite));
    assert_eq!(week(&calendar[..31], 3), Err(Refusal::Calendar));
}

/// The Rust of README, line by line: the next test sees that each of its lines stands here.
#[test]
#[rustfmt::skip]
fn the_rust_of_readme() -> Result<(), Refusal> {
    let schedule = bytes(&SCHEDULE[1..]);
    let mut bench = Bench::open(2, 1)?;
    let mut tally = Counters::default();
    let start = Record::Start { process: 1, value: Value::new(40, 3) }; // 40 portions, 3 of them diet
    assert_eq!(bench.step(&start.bytes(), &mut tally), Ok(None)); // accepted, and no round was closed
    assert_eq!(bench.step(&start.bytes(), &mut tally), Err(Refusal::NotDue)); // refusal 7: it has started
    let run = bench.run(&schedule, u32::MAX); // why it ended, and how far it came: cause, accepted, closing, taken
    assert_eq!((run.cause, run.accepted), (Cause::Refused(Refusal::Waiting), 8));

    let calendar = [
        [1, 1, 7, 0, 39, 0, 0, 0], [1, 2, 21, 0, 25, 0, 0, 0],
        [4, 1, 7, 0, 39, 0, 0, 0], [9, 1, 25, 0, 32, 0, 0, 0],
    ].concat();
    let week = gerzulan::week(&calendar, 3)?;
    assert_eq!(week.site_of[..week.n as usize], [4, 9]); // process 1 is site 4, process 2 is site 9
    assert_eq!((week.process_of[3], week.process_of[8]), (1, 2)); // by site, from 1; 0 for the others
    let bench = Bench::open(week.n, week.n - 1)?; // all but one may crash: n 2, t 1
    assert_eq!((bench.n, bench.t), (2, 1));
    Ok(())
}

#[test]
fn readme_has_no_other_rust() {
    let readme = Path::new(env!("CARGO_MANIFEST_DIR")).join("../README.md");
    let readme = std::fs::read_to_string(readme).expect("README is there");
    let fences = readme.split("```rust\n").skip(1).filter_map(|rest| rest.split("```").next());
    let lines: Vec<&str> = fences.flat_map(str::lines).collect();
    assert!(lines.len() > 5, "{lines:?}");
    for line in lines {
        assert!(include_str!("worked.rs").contains(line), "not tried: {line}");
    }
}
