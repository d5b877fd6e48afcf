//! Every call on random inputs: none panics, and a refused call leaves the bench as it was.

mod common;
mod made;

use common::Random;
use gerzulan::{change, go, lead, total, week, Bench, Cause, Counters, Record, Refusal, Value, Week};
use gerzulan::{LIST_BYTES, MAX_PROCESSES, RECORD_BYTES};
use made::{any_bench, record, sound_bench};
use std::collections::BTreeSet;

/// Longest slice that is tried.
const LENGTHS: usize = 40;

#[test]
fn every_size_opens_or_is_refused() {
    for n in 0..=255u8 {
        for t in 0..=255u8 {
            let fits = (1..=MAX_PROCESSES).contains(&usize::from(n)) && t < n;
            match Bench::open(n, t) {
                Ok(bench) => {
                    assert!(fits, "{n} {t}");
                    assert_eq!((bench.n, bench.t, bench.crashed), (n, t, 0));
                    assert!(bench.in_transit().expect("sound").is_empty());
                }
                Err(refusal) => assert_eq!((fits, refusal), (false, Refusal::Size), "{n} {t}"),
            }
        }
    }
}

/// One record: the answer, what became of the tally, and the bench where it was refused.
fn step_one(bench: &mut Bench, bytes: &[u8], tally: &mut Counters) -> Option<Refusal> {
    let (before, counted) = (bench.clone(), *tally);
    let answer = bench.step(bytes, tally);
    if answer.is_err() {
        assert!(*bench == before, "{bytes:?}: the bench has changed");
    }
    assert_eq!(tally.accepted, counted.accepted.saturating_add(answer.is_ok().into()));
    assert_eq!(tally.refused, counted.refused.saturating_add(answer.is_err().into()));
    if let (Ok(Some(_)), Some(record)) = (answer, Record::read(bytes)) {
        assert!(matches!(record, Record::Close { .. }), "{record:?} closed a round");
    }
    answer.err()
}

#[test]
fn steps_meet_every_refusal_and_leave_the_bench() {
    let mut random = Random::new(1);
    let (mut met, mut accepted) = (BTreeSet::new(), 0);
    for turn in 0..600 {
        let mut bench = if turn % 8 == 0 { any_bench(&mut random) } else { sound_bench(&mut random) };
        let mut tally = if turn % 2 == 0 { random.tally() } else { Counters::default() };
        for length in (0..=LENGTHS).chain([RECORD_BYTES; 60]) {
            let bytes = record(&mut random, bench.n, length);
            match step_one(&mut bench, &bytes, &mut tally) {
                Some(refusal) => met.insert(refusal.number()),
                None => {
                    accepted += 1;
                    false
                }
            };
        }
    }
    // What a step can refuse, by its documentation.
    assert_eq!(met, BTreeSet::from([2, 3, 4, 5, 6, 7, 8, 9, 15]));
    assert!(accepted > 1000, "{accepted}");
}

/// A run is its records one by one, as far as it came.
fn run_one(bench: &Bench, schedule: &[u8], budget: u32) -> Cause {
    let (mut by_run, mut by_step) = (bench.clone(), bench.clone());
    let run = by_run.run(schedule, budget);
    assert!(run.accepted <= budget && run.taken == run.accepted as usize * RECORD_BYTES);
    let (mut tally, mut closing) = (Counters::default(), None);
    let mut rest = schedule.chunks(RECORD_BYTES);
    for record in rest.by_ref().take(run.accepted as usize) {
        closing = by_step.step(record, &mut tally).expect("the run accepted it").or(closing);
    }
    assert_eq!(closing, run.closing);
    assert!(by_run == by_step, "another bench");
    match (run.cause, rest.next()) {
        (Cause::Empty, None) => {}
        (Cause::Spent, Some(_)) => assert_eq!(run.accepted, budget),
        (Cause::Refused(Refusal::Damaged), _) => assert!(by_run == *bench),
        (Cause::Refused(refusal), Some(record)) => assert_eq!(by_step.step(record, &mut tally), Err(refusal)),
        ended => panic!("{ended:?}"),
    }
    run.cause
}

#[test]
fn runs_are_steps() {
    let mut random = Random::new(2);
    let (mut empty, mut spent, mut refused) = (0, 0, BTreeSet::new());
    for turn in 0..400 {
        let bench = if turn % 8 == 0 { any_bench(&mut random) } else { sound_bench(&mut random) };
        for length in 0..=LENGTHS {
            let schedule = record(&mut random, bench.n, length);
            let budget = if turn % 3 == 0 { u32::MAX } else { random.below(4) as u32 };
            match run_one(&bench, &schedule, budget) {
                Cause::Empty => empty += 1,
                Cause::Spent => spent += 1,
                Cause::Refused(refusal) => {
                    refused.insert(refusal.number());
                }
            }
        }
    }
    assert!(empty > 100 && spent > 100, "{empty} {spent}");
    assert_eq!(refused, BTreeSet::from([2, 3, 4, 5, 6, 7, 8, 9, 15]));
}

#[test]
fn carrying_changes_nothing() {
    let mut random = Random::new(3);
    let mut met = BTreeSet::new();
    for turn in 0..600 {
        let mut bench = if turn % 8 == 0 { any_bench(&mut random) } else { sound_bench(&mut random) };
        if turn % 3 == 0 {
            let plain = |value: &mut Value| *value = Value::new(value.portions(), 0);
            bench.processes.iter_mut().flat_map(|process| &mut process.estimate.values).for_each(plain);
            bench.sent.iter_mut().flat_map(|data| &mut data.values).for_each(plain);
        }
        let before = bench.clone();
        met.insert(bench.carry().map_err(Refusal::number));
        assert!(bench == before);
    }
    assert_eq!(met, BTreeSet::from([Ok(()), Err(2), Err(16)]));
}

/// What a process of a sound bench has decided on, read off the bench.
fn decided_on(bench: &Bench, number: u8) -> Result<Vec<Option<Value>>, Refusal> {
    let process = bench.process(number).ok_or(Refusal::Field)?;
    if process.decided == 0 {
        return Err(Refusal::Undecided);
    }
    Ok((1..=bench.n).map(|p| process.estimate.entry(p)).collect())
}

#[test]
fn global_data_is_what_the_process_holds() {
    let mut random = Random::new(4);
    let mut met = BTreeSet::new();
    for turn in 0..300 {
        let damaged = turn % 8 == 0;
        let mut bench = if damaged { any_bench(&mut random) } else { sound_bench(&mut random) };
        for number in 0..=255 {
            let answer = bench.global_data(number);
            met.insert(answer.map(|_| ()).map_err(Refusal::number));
            if answer == Err(Refusal::Damaged) {
                assert!(damaged);
                continue;
            }
            let entries = answer.map(|data| (1..=bench.n).map(|p| data.entry(p)).collect());
            assert_eq!(entries, decided_on(&bench, number));
            let past = |data: gerzulan::GlobalData| (bench.n..=255).skip(1).any(|p| data.entry(p).is_some());
            assert!(!answer.is_ok_and(past));
        }
        bench.n = 0;
        assert_eq!(bench.global_data(1), Err(Refusal::Damaged));
    }
    assert_eq!(met, BTreeSet::from([Ok(()), Err(2), Err(5), Err(11)]));
}

/// The messages that a bench holds between its processes, from its sets, in the order of the list.
fn held(bench: &Bench) -> Vec<(u8, u8, u8)> {
    let mut messages = Vec::new();
    for round in 0..=bench.t + 1 {
        for from in 1..=bench.n {
            let set = bench.in_transit[usize::from(from - 1) * 17 + usize::from(round)];
            messages.extend((1..=16).filter(|to| set >> (to - 1) & 1 == 1).map(|to| (round, from, to)));
        }
    }
    messages
}

#[test]
fn the_list_in_transit_is_what_the_bench_holds() {
    let mut random = Random::new(5);
    for turn in 0..600 {
        let damaged = turn % 8 == 0;
        let bench = if damaged { any_bench(&mut random) } else { sound_bench(&mut random) };
        match bench.in_transit() {
            Ok(list) => {
                let list: Vec<_> = list.iter().map(|m| (m.round, m.from, m.to)).collect();
                assert_eq!(list, held(&bench));
            }
            Err(refusal) => assert_eq!((damaged, refusal), (true, Refusal::Damaged)),
        }
    }
}

#[test]
fn the_longest_list_fits() {
    let mut bench = Bench::open(16, 15).expect("16 and 15 are in range");
    bench.in_transit = [u16::MAX; 272];
    let list = bench.in_transit().expect("sound");
    assert_eq!(list.len() * 3, LIST_BYTES);
}

#[test]
fn reading_by_number() {
    let mut random = Random::new(6);
    for _ in 0..100 {
        let bench = any_bench(&mut random);
        for number in 0..=255u8 {
            let exists = number >= 1 && number <= bench.n && usize::from(number) <= MAX_PROCESSES;
            assert_eq!(bench.process(number).is_some(), exists);
            assert_eq!(bench.has_crashed(number), exists && bench.crashed >> (number - 1) & 1 == 1);
            if exists {
                assert_eq!(bench.process(number), Some(&bench.processes[usize::from(number) - 1]));
            }
        }
    }
}

/// The first refusal of the aggregates, by their documentation; the lists have n values where `whole`.
fn refused(n: u8, entries: &[Value], marks: u16, whole: bool) -> Option<Refusal> {
    if !(1..=16).contains(&n) {
        return Some(Refusal::Size);
    }
    if u32::from(marks) >> n != 0 {
        return Some(Refusal::Field);
    }
    if !whole {
        return Some(Refusal::Slice);
    }
    let exceeds = |(i, value): (usize, &Value)| marks >> i & 1 == 1 && value.diet() > value.portions();
    entries.iter().enumerate().any(exceeds).then_some(Refusal::Diet)
}

/// Total and go by their rule.
fn check_sums(n: u8, entries: &[Value], marks: u16, standing: &[u32]) {
    let present = |i: usize| marks >> i & 1 == 1;
    let length = usize::from(n);
    let whole = entries.len() == length && standing.len() == length;
    let sum = |i: usize| if present(i) { entries[i].portions().into() } else { u64::from(standing[i]) };
    let rule = refused(n, entries, marks, whole).map_or_else(|| Ok((0..length).map(sum).sum()), Err);
    assert_eq!(total(n, entries, marks, standing), rule, "{n} {entries:?} {marks:x} {standing:?}");
    let all = || (0..length).all(|i| present(i) && entries[i].portions() >= 1);
    let rule = refused(n, entries, marks, entries.len() == length).map_or_else(|| Ok(all()), Err);
    assert_eq!(go(n, entries, marks), rule, "{n} {entries:?} {marks:x}");
}

/// Lead and change by their rule.
fn check_choices(n: u8, entries: &[Value], marks: u16, process: u8, standing: u32) {
    let length = usize::from(n);
    let refused = refused(n, entries, marks, entries.len() == length);
    let rank = |i: &usize| (entries[*i].portions(), entries[*i].diet(), *i);
    let best = || (0..length).filter(|i| marks >> i & 1 == 1).max_by_key(rank).ok_or(Refusal::Absent);
    let given = lead(n, entries, marks).map(|lead| (usize::from(lead.process) - 1, lead.portions));
    let rule = refused.map_or_else(best, Err).map(|i| (i, u32::from(entries[i].portions())));
    assert_eq!(given, rule, "{n} {entries:?} {marks:x}");
    // A number that is no process is refused where a mark past n is.
    let exists = (1..=n).contains(&process);
    let rule = match refused {
        Some(Refusal::Size) => Err(Refusal::Size),
        _ if !exists => Err(Refusal::Field),
        Some(refusal) => Err(refusal),
        None if marks >> (process - 1) & 1 == 0 => Err(Refusal::Absent),
        None => Ok(i64::from(entries[usize::from(process) - 1].portions()) - i64::from(standing)),
    };
    let given = change(n, entries, marks, process, standing);
    assert_eq!(given, rule, "{n} {entries:?} {marks:x} {process} {standing}");
}

#[test]
fn aggregates_by_their_rule() {
    let mut random = Random::new(7);
    for n in 0..=255u8 {
        for length in 0..=LENGTHS {
            let mask = if random.below(4) == 0 { u16::MAX } else { ((1u32 << n.min(16)) - 1) as u16 };
            let (marks, standing_length) = ((random.next() >> 48) as u16 & mask, random.below(41) as usize);
            let standing: Vec<u32> = (0..standing_length).map(|_| (random.next() >> 32) as u32).collect();
            check_sums(n, &random.values(length), marks, &standing);
            check_choices(n, &random.values(length), marks, random.byte() % 20, random.next() as u32);
        }
    }
    for turn in 0..4000 {
        let n = 1 + random.below(16) as u8;
        let mask = u16::MAX >> (16 - n);
        let marks = if turn % 4 == 0 { mask } else { random.set() & mask };
        let entries = random.values(n.into());
        let standing: Vec<u32> = entries.iter().map(|_| (random.next() >> 32) as u32).collect();
        check_sums(n, &entries, marks, &standing);
        (0..=n + 1).for_each(|process| check_choices(n, &entries, marks, process, random.next() as u32));
    }
}

#[test]
fn aggregates_at_their_ends() {
    let (most, none) = ([Value(u32::MAX); 16], [Value(0); 16]);
    assert_eq!(total(16, &none, 0, &[u32::MAX; 16]), Ok(16 * u64::from(u32::MAX)));
    assert_eq!(total(16, &most, u16::MAX, &[0; 16]), Ok(16 * u64::from(u16::MAX)));
    assert_eq!(change(16, &none, u16::MAX, 16, u32::MAX), Ok(-i64::from(u32::MAX)));
    assert_eq!(change(16, &most, u16::MAX, 1, 0), Ok(i64::from(u16::MAX)));
}

/// A calendar of records that are mostly without fault.
fn calendar(random: &mut Random, length: usize) -> Vec<u8> {
    let mut bytes = random.bytes(length);
    if random.below(4) != 0 {
        for record in bytes.chunks_exact_mut(8) {
            let (first, days) = (random.below(60) as u16, random.below(40) as u16);
            record[..2].copy_from_slice(&[1 + random.below(16) as u8, 1 + random.below(2) as u8]);
            record[2..4].copy_from_slice(&first.to_le_bytes());
            record[4..6].copy_from_slice(&(first + days).to_le_bytes());
            record[6..].copy_from_slice(&[0, 0]);
        }
    }
    bytes
}

/// The two ways are inverse to each other, and rise.
fn numbers_match(week: &Week) -> bool {
    let n = usize::from(week.n);
    let sites = &week.site_of[..n];
    let back = sites.iter().zip(1u8..).all(|(&site, p)| week.process_of[usize::from(site) - 1] == p);
    let rest = week.site_of[n..].iter().all(|&site| site == 0);
    let others = week.process_of.iter().filter(|&&p| p != 0).count() == n;
    back && rest && others && sites.windows(2).all(|pair| pair[0] < pair[1])
}

#[test]
fn weeks_number_the_sites() {
    let mut random = Random::new(8);
    let mut met = BTreeSet::new();
    for _ in 0..400 {
        for length in 0..=LENGTHS {
            let calendar = calendar(&mut random, length);
            let answer = week(&calendar, random.below(16) as u16);
            if let Ok(week) = answer {
                assert!(numbers_match(&week), "{week:?}");
            }
            if length % RECORD_BYTES != 0 {
                assert_eq!(answer, Err(Refusal::Calendar));
            }
            met.insert(answer.map(|_| ()).map_err(Refusal::number));
        }
    }
    assert_eq!(met, BTreeSet::from([Ok(()), Err(13), Err(14)]));
    for number in 0..=u16::MAX {
        assert_eq!(week(&[], number), Err(Refusal::NoSite));
    }
}
