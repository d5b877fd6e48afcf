//! What the package has beside the calls: stored benches, sets, weeks, what is left of a schedule.

mod common;
mod made;

use common::Random;
use gerzulan::{closed, contains, members, term, week, Bench, Cause, Counters, GlobalData, Process, Record};
use gerzulan::{Refusal, Value, Week, BENCH_BYTES, MAX_PROCESSES};
use made::{any_bench, record, sound_bench};
use std::mem::{offset_of, size_of};

fn set_at(bytes: &[u8], at: usize) -> u16 {
    u16::from_le_bytes([bytes[at], bytes[at + 1]])
}

fn word_at(bytes: &[u8], at: usize) -> u32 {
    u32::from(set_at(bytes, at)) | u32::from(set_at(bytes, at + 2)) << 16
}

fn check_data(bytes: &[u8], at: usize, data: &GlobalData) {
    assert_eq!(set_at(bytes, at + offset_of!(GlobalData, present)), data.present);
    for (i, value) in data.values.iter().enumerate() {
        assert_eq!(word_at(bytes, at + offset_of!(GlobalData, values) + 4 * i), value.0);
    }
}

fn check_process(bytes: &[u8], at: usize, process: &Process) {
    assert_eq!(bytes[at + offset_of!(Process, round)], process.round);
    assert_eq!(bytes[at + offset_of!(Process, decided)], process.decided);
    let sets = [
        (offset_of!(Process, previous), process.previous),
        (offset_of!(Process, current), process.current),
        (offset_of!(Process, suspected), process.suspected),
        (offset_of!(Process, outbox), process.outbox),
    ];
    for (offset, set) in sets {
        assert_eq!(set_at(bytes, at + offset), set);
    }
    check_data(bytes, at + offset_of!(Process, estimate), &process.estimate);
    for (i, &set) in process.received.iter().enumerate() {
        assert_eq!(set_at(bytes, at + offset_of!(Process, received) + 2 * i), set);
    }
}

/// Each field stands where it stands in memory.
#[test]
fn stored_bytes_have_the_layout() {
    let mut random = Random::new(1);
    for _ in 0..50 {
        let bench = any_bench(&mut random);
        let bytes = bench.to_bytes();
        assert_eq!((bytes.len(), BENCH_BYTES), (size_of::<Bench>(), 19_748));
        assert_eq!((bytes[0], bytes[1]), (bench.n, bench.t));
        assert_eq!(set_at(&bytes, offset_of!(Bench, crashed)), bench.crashed);
        for (i, process) in bench.processes.iter().enumerate() {
            check_process(&bytes, offset_of!(Bench, processes) + i * size_of::<Process>(), process);
        }
        for (i, data) in bench.sent.iter().enumerate() {
            check_data(&bytes, offset_of!(Bench, sent) + i * size_of::<GlobalData>(), data);
        }
        for (i, &set) in bench.in_transit.iter().enumerate() {
            assert_eq!(set_at(&bytes, offset_of!(Bench, in_transit) + 2 * i), set);
        }
    }
}

#[test]
fn stored_benches_come_back() {
    let mut random = Random::new(2);
    let mut damaged = 0;
    for turn in 0..300 {
        let bench = if turn % 3 == 0 { any_bench(&mut random) } else { sound_bench(&mut random) };
        let mut bytes = bench.to_bytes();
        let back = Bench::from_bytes(&bytes);
        match bench.check() {
            Ok(()) => assert!(back.as_ref() == Ok(&bench)),
            refused => {
                damaged += 1;
                assert_eq!((refused, back.clone().err()), (Err(Refusal::Damaged), Some(Refusal::Damaged)));
            }
        }
        // What stands between the fields means nothing.
        bytes[4 + offset_of!(Process, outbox) + 2] = 0xa5;
        bytes[offset_of!(Bench, sent) + 2] = 0xa5;
        assert!(Bench::from_bytes(&bytes) == back);
        for length in [0, 1, BENCH_BYTES - 1, BENCH_BYTES + 1] {
            bytes.resize(length, 0);
            assert!(Bench::from_bytes(&bytes) == Err(Refusal::Slice));
        }
    }
    assert!((50..150).contains(&damaged), "{damaged}");
}

/// As the library sees it: by a run of nothing.
#[test]
fn check_is_the_librarys() {
    let mut random = Random::new(3);
    for _ in 0..300 {
        let mut bench = sound_bench(&mut random);
        if random.below(2) == 0 {
            bench.processes[random.below(16) as usize].received[random.below(16) as usize] =
                1 << random.below(16);
        }
        let by_run = bench.clone().run(&[], 0).cause;
        let damaged = Cause::Refused(Refusal::Damaged);
        assert_eq!(bench.check().is_err(), by_run == damaged);
        assert!(by_run == damaged || by_run == Cause::Empty);
    }
}

#[test]
fn sets_and_their_members() {
    assert_eq!(members(0b101).collect::<Vec<u8>>(), [1, 3]);
    let mut random = Random::new(4);
    for _ in 0..200 {
        let set = random.set();
        let listed: Vec<u8> = members(set).collect();
        assert_eq!(listed.iter().fold(0, |all, p| all | 1u16 << (p - 1)), set);
        assert!(listed.is_sorted());
        assert!((0..=255).all(|p| contains(set, p) == listed.contains(&p)));
        let bench = any_bench(&mut random);
        let running: Vec<u8> = bench.running().collect();
        let expected = (1..=bench.n.min(MAX_PROCESSES as u8)).filter(|&p| !contains(bench.crashed, p));
        assert_eq!(running, expected.collect::<Vec<u8>>());
    }
}

#[test]
fn entries_and_decisions() {
    let data = GlobalData { present: 5, values: std::array::from_fn(|i| Value(i as u32)) };
    for n in 0..=255u8 {
        let expected = &data.values[..usize::from(n).min(MAX_PROCESSES)];
        assert_eq!(data.entries(n), expected);
    }
    for decided in 0..=255u8 {
        let process = Process { decided, ..Process::default() };
        assert_eq!(process.has_decided(), decided != 0);
    }
}

/// The rest begins where the run ended, and past it is the next record; both on any schedule.
#[test]
fn what_is_left_of_a_schedule() {
    let mut random = Random::new(5);
    let mut refused = 0;
    for _ in 0..300 {
        let (mut bench, length) = (sound_bench(&mut random), random.below(41) as usize);
        let schedule = record(&mut random, bench.n, length);
        let run = bench.run(&schedule, random.below(4) as u32);
        assert_eq!(run.rest(&schedule), &schedule[run.taken..]);
        assert_eq!(run.past(&schedule), schedule.get(run.taken + 8..).unwrap_or(&[]));
        assert_eq!((run.rest(&schedule[..0]), run.past(&[1; 3])), (&[][..], &[][..]));
        refused += u32::from(matches!(run.cause, Cause::Refused(_)));
    }
    assert!(refused > 100, "{refused}");
}

#[test]
fn an_event_is_a_step() {
    let (mut one, mut other) = (Bench::open(2, 1).unwrap(), Bench::open(2, 1).unwrap());
    let (mut tally, mut counted) = (Counters::default(), Counters::default());
    for record in [
        Record::Start { process: 1, value: Value::new(40, 3) },
        Record::Send { from: 1, to: 2 },
        Record::Send { from: 1, to: 2 },
    ] {
        assert_eq!(one.event(record, &mut tally), other.step(&record.bytes(), &mut counted));
    }
    assert!(one == other && tally == counted && (tally.accepted, tally.refused) == (2, 1));
    let message = one.in_transit().unwrap()[0];
    assert_eq!(message.arrival(), Record::Arrive { from: 1, to: 2, round: 1 });
}

/// Site 7 has a term of weeks 1 and 2 and is closed in the second; site 3 has both.
#[test]
fn weeks_and_their_records() {
    let calendar = [term(7, 7, 20), closed(7, 14, 20), term(3, 7, 20)].concat();
    assert_eq!(calendar[..16], [7, 1, 7, 0, 20, 0, 0, 0, 7, 2, 14, 0, 20, 0, 0, 0]);
    let first = week(&calendar, 1).unwrap();
    assert_eq!((first.site(1), first.site(2), first.site(3)), (Some(3), Some(7), None));
    assert_eq!((first.process(3), first.process(7), first.process(1)), (Some(1), Some(2), None));
    let second = week(&calendar, 2).unwrap();
    assert_eq!((second.n, second.site(1), second.process(7)), (1, Some(3), None));
    for number in 0..=255u8 {
        let known = Week { n: 16, process_of: [9; 16], site_of: [8; 16] };
        let listed = (1..=16).contains(&number);
        assert_eq!((known.site(number), known.process(number)), (listed.then_some(8), listed.then_some(9)));
    }
}

/// The stack that the documentation of `open` says will do, in a release build, and for storing too.
#[test]
fn a_small_stack_will_do() {
    let work = || {
        let mut bench = Bench::open(16, 15).unwrap();
        let start = Record::Start { process: 1, value: Value::new(7, 0) };
        assert!(bench.event(start, &mut Counters::default()).is_ok());
        Bench::from_bytes(&bench.to_bytes()).map(|bench| bench.processes[0].round)
    };
    if cfg!(not(debug_assertions)) {
        let thread = std::thread::Builder::new().stack_size(256 * 1024).spawn(work).unwrap();
        assert_eq!(thread.join().unwrap(), Ok(1));
    }
}
