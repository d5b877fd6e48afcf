//! Carrying a bench from before diet portions over: the request sentence by sentence, refusals 2 and 16, every place of a
//! count, and schedules that begin before the change and end after it.

use reference::aggregates::total;
use reference::carried::{flip, is_start, large_count, records, small_count, spread, Carrying, Carryings};
use reference::check::{random_schedule, random_schedule_by};
use reference::gen::{damage, random_state, sizes, well_formed, Rng};
use reference::refusal::number;
use reference::text::encode;
use reference::{Bench, Cause, Closing, GlobalData, OldBench, Record, Refusal, Value};
use std::collections::HashSet;

/// A start of before: its count is one number, low byte first.
fn start(a: u8, count: u32) -> [u8; 8] {
    let [c0, c1, c2, c3] = count.to_le_bytes();
    [1, a, 0, 0, c0, c1, c2, c3]
}

/// A bench of before, after the records of a text, all accepted. The first line is `open`.
fn after(text: &str) -> OldBench {
    let bytes = encode(text).unwrap_or_else(|error| panic!("{error}"));
    let mut old = OldBench::open(bytes[1], bytes[2]).unwrap();
    assert_eq!(old.run(&bytes[8..], u32::MAX).cause, Cause::Done, "{text}");
    old
}

/// The answer to carrying a copy.
fn answer(old: &OldBench) -> u8 {
    number(&{ *old }.carry())
}

/// What a copy becomes.
fn carried(old: &OldBench) -> Bench {
    *{ *old }.carry().unwrap_or_else(|refusal| panic!("{refusal:?}"))
}

/// Where global data stand: 16 estimates, then 256 rows.
const PLACES: usize = 16 + 256;

fn data_at(bench: &mut Bench, place: usize) -> &mut GlobalData {
    match place.checked_sub(16) {
        None => &mut bench.processes[place].estimate,
        Some(row) => &mut bench.sent[row],
    }
}

const CASE_4: &str =
    "start 1 40\nstart 2 25\nsend 1 2\nsend 2 1\narrive 1 2 round 1\narrive 2 1 round 1\nclose 1\n\
                      stop 2\nsend 1 2\nclose 1\nnotice 1 2\nclose 1";

/// A week begun before the change is finished after it, wherever it is carried over; one close of it is refused.
#[test]
fn a_running_week_is_finished() {
    let records = encode(CASE_4).unwrap();
    for taken in 0..=12 {
        let (before, since) = records.split_at(8 * taken);
        let mut old = OldBench::open(2, 1).unwrap();
        let mut answers: Vec<u8> = before.chunks(8).map(|record| number(&old.step(record))).collect();
        let mut bench = carried(&old);
        answers.extend(since.chunks(8).map(|record| number(&bench.step(record))));
        assert_eq!(answers, [0, 0, 0, 0, 0, 0, 0, 0, 0, 8, 0, 0], "carried after {taken}");
        let mut out = [9; 3];
        assert_eq!(bench.global_data(1, &mut out), Ok(3), "carried after {taken}");
        assert_eq!((out, total(2, &out[..2], 3, &[0; 2])), ([40, 25, 9], Ok(65)));
    }
}

/// After the change others start with diet portions, and all hold both.
#[test]
fn a_later_start_has_diet_portions() {
    let mut bench = carried(&after("open 2 0\nstart 1 40\nsend 1 2"));
    let since = "start 2 25 3\nsend 2 1\narrive 1 2 round 1\nclose 2\nsend 2 1\narrive 2 1 decision";
    assert_eq!(bench.run(&encode(since).unwrap(), u32::MAX).cause, Cause::Done);
    for process in [1, 2] {
        let data = bench.decision(process).unwrap();
        assert_eq!([data.value(0), data.value(1)], [Value::new(40, 0), Value::new(25, 3)]);
    }
}

/// Before the change a count is any number of 32 bits: it is held and sent as it is, and never refused with 15.
#[test]
fn a_start_of_before_has_one_number() {
    let mut rng = Rng::new(21);
    let ends = [0, 1, 40, 65_535, 65_536, 65_537, 1 << 31, 0xffff_0000, u32::MAX];
    for count in ends.into_iter().chain((0..500).map(|_| rng.draw() as u32)) {
        let mut old = OldBench::open(2, 1).unwrap();
        assert_eq!(old.step(&start(2, count)), Ok(Closing::None), "{count}");
        for data in [old.0.processes[1].estimate, old.0.sent[16]] {
            assert_eq!((data.present, data.values[..2].to_vec()), (0b10, vec![0, count]));
        }
        assert_eq!(answer(&old), if count > 65_535 { 16 } else { 0 }, "{count}");
    }
}

/// Process 1 of two, in round 1 of two, with both entries; the estimate that 2 sent in it differs by `sent`.
fn closing(count: u32, sent: impl Fn(&mut GlobalData)) -> Closing {
    let mut old = after("open 2 1\nstart 1 7\nstart 2 25\nsend 1 2\nsend 2 1\narrive 2 1 round 1");
    let estimate = &mut old.0.processes[0].estimate;
    (estimate.present, estimate.values[1]) = (0b11, count);
    old.0.sent[16] = *estimate;
    sent(&mut old.0.sent[16]);
    old.step(&Record::close(1).bytes()).unwrap()
}

/// In the deciding test two counts are equal as one number: each of its bits tells, but not under an absent entry.
#[test]
fn counts_are_compared_as_one_number() {
    for count in [0, 65_535, 65_536, 0x0001_0002, u32::MAX] {
        assert_eq!(closing(count, |_| ()), Closing::Agreed);
        for bit in 0..32 {
            assert_eq!(
                closing(count, |data| data.values[1] ^= 1 << bit),
                Closing::NextRound,
                "{count} {bit}"
            );
            assert_eq!(closing(count, |data| data.values[2] ^= 1 << bit), Closing::Agreed, "{count} {bit}");
        }
    }
}

/// A run of before is its steps, also with counts that would be refused with 15 now.
fn runs_are_steps(n: u8, t: u8, mut rest: &[u8]) {
    let mut by_run = OldBench::open(n, t).unwrap();
    let mut by_step = by_run;
    while !rest.is_empty() {
        let ended = by_run.run(rest, 7);
        let mut accepted = 0;
        let refused = rest.chunks(8).take(7).find_map(|record| {
            let refused = by_step.step(record).err();
            accepted += u32::from(refused.is_none());
            refused
        });
        let cause = match refused {
            Some(refusal) => Cause::Refused(refusal.number()),
            None if ended.rest.is_empty() => Cause::Done,
            None => Cause::Spent,
        };
        assert_eq!((ended.accepted, ended.cause), (accepted, cause), "n {n}, t {t}");
        assert!(by_run == by_step, "n {n}, t {t}");
        rest = &rest[8 * (accepted as usize + usize::from(refused.is_some()))..];
    }
}

#[test]
fn runs_of_before_are_steps() {
    for (n, t) in sizes() {
        let whole = records(n, t, 2200, 30, 60).into_iter().filter(|record| record.len() == 8);
        runs_are_steps(n, t, &whole.flatten().collect::<Vec<u8>>());
    }
    let mut damaged = OldBench::open(3, 1).unwrap();
    damaged.0.crashed = 8;
    assert_eq!(damaged.run(&start(1, u32::MAX), 1).cause, Cause::Refused(2));
    assert_eq!(damaged.step(&start(1, u32::MAX)), Err(Refusal::Damaged));
}

/// A start with its count as portions and diet 0, by its bytes. Other records have no count, and stay.
fn rewritten(record: &[u8]) -> Vec<u8> {
    let mut record = record.to_vec();
    if is_start(&record) {
        record[6..].fill(0);
    }
    record
}

/// How many of 100 records need not be accepted.
fn noise(n: u8, seed: u64) -> usize {
    [0, 20, 60][(seed as usize + n as usize) % 3]
}

/// Carried after any old records, all counts at most 65,535: the bench that the same records, rewritten with diet 0,
/// give a new one. At every record, refused ones among them, and each has the same answer.
#[test]
fn carried_as_if_new_from_the_start() {
    let mut met = Carryings::default();
    for (n, t) in sizes() {
        for seed in 2300..2302 {
            let (mut old, mut new) = (OldBench::open(n, t).unwrap(), Bench::open(n, t).unwrap());
            let told = format!("n {n}, t {t}, seed {seed}");
            assert!(carried(&old) == new, "{told}: at the opening");
            for (i, record) in records(n, t, seed, noise(n, seed), 0).iter().enumerate() {
                let answers = (old.step(record), new.step(&rewritten(record)));
                assert_eq!(answers.0, answers.1, "{told}, record {}: {record:?}", i + 1);
                let carried = { old }.carry().copied();
                assert!(carried == Ok(new), "{told}, record {}: not the new one", i + 1);
                if i % 8 == 0 {
                    met.count(&Carrying::new(&old.0, 0));
                }
            }
        }
    }
    println!("carryings: {}", met.report());
    let missing = met.missing_of_schedules();
    let accepted: Vec<&str> = missing.into_iter().filter(|kind| kind.starts_with("accepted")).collect();
    assert!(accepted.is_empty(), "carryings not met: {accepted:?}");
}

/// Every state that old schedules of one and two processes lead to, each with one count for each process.
#[test]
fn every_state_of_one_and_two() {
    for (n, t, states) in [(1, 0, 3), (2, 0, 37), (2, 1, 416)] {
        let mut met = HashSet::new();
        let mut left = vec![(OldBench::open(n, t).unwrap(), Bench::open(n, t).unwrap())];
        while let Some((old, new)) = left.pop() {
            assert!(carried(&old) == new, "n {n}, t {t}");
            if !met.insert(new) {
                continue;
            }
            for mut record in well_formed(n, t) {
                record.value.portions = if record.kind == 1 { 65_535 - record.a as u16 } else { 0 };
                let (mut next_old, mut next) = (old, new);
                let answers = (next_old.step(&record.bytes()), next.step(&record.bytes()));
                assert_eq!(answers.0, answers.1, "n {n}, t {t}: {record:?}");
                left.extend(answers.0.map(|_| (next_old, next)));
            }
        }
        assert_eq!(met.len(), states, "n {n}, t {t}");
    }
}

/// Every entry has its count as portions and no diet portions, and all else is as it was.
#[test]
fn carried_with_diet_portions_0() {
    let mut rng = Rng::new(24);
    for (n, t) in sizes() {
        let mut old = OldBench(random_state(&mut rng, n, t, true));
        for place in 0..PLACES {
            data_at(&mut old.0, place).values = [0; 16].map(|_| small_count(&mut rng));
        }
        let mut bench = carried(&old);
        for place in 0..PLACES {
            let (before, since) = (data_at(&mut old.0, place), data_at(&mut bench, place));
            for i in 0..16 {
                let count = (before.present >> i & 1 == 1).then_some(before.values[i]);
                let entry = since.entry(i).map(|value| (value.portions as u32, value.diet));
                assert_eq!(entry, count.map(|count| (count, 0)), "n {n}, t {t}, place {place}");
            }
            *since = *before;
        }
        assert!(bench == old.0, "n {n}, t {t}");
    }
}

/// A bench with 65,535 in all entries, and one word changed at an entry of one place, present or not.
fn with_word(n: u8, t: u8, place: usize, entry: usize, word: u32, present: bool) -> OldBench {
    let mut bench = Bench::open(n, t).unwrap();
    let full = GlobalData { present: bench.everyone(), values: [65_535; 16] };
    (0..PLACES).for_each(|place| *data_at(&mut bench, place) = full);
    let data = data_at(&mut bench, place);
    data.values[entry] = word;
    if !present {
        data.present &= !(1 << entry);
    }
    OldBench(bench)
}

/// 65,535 is let through and 65,536 refused: in each estimate, also of crashed, unstarted and decided processes and past
/// n; in each row, also of rounds never opened; and at each entry.
#[test]
fn sixteen_in_each_place() {
    for (n, t) in [(1, 0), (3, 1), (16, 15)] {
        for (place, entry) in (0..PLACES).flat_map(|place| (0..n as usize).map(move |entry| (place, entry))) {
            let told = format!("n {n}, place {place}, entry {entry}");
            let mut old = with_word(n, t, place, entry, 65_536, true);
            assert_eq!(answer(&old), 16, "{told}");
            data_at(&mut old.0, place).values[entry] = u32::MAX;
            assert_eq!(answer(&old), 16, "{told}");
            // So far no process has started.
            old.0.crashed = old.0.everyone();
            assert_eq!(answer(&old), 16, "{told}, crashed");
            old.0.processes.iter_mut().for_each(|p| p.round = t + 1);
            old.0.processes.iter_mut().for_each(|p| p.decided = 1);
            assert_eq!(answer(&old), 16, "{told}, decided");
            data_at(&mut old.0, place).values[entry] = 65_535;
            assert_eq!(answer(&old), 0, "{told}");
        }
    }
}

/// Under an absent entry no word is looked at, nor changed.
#[test]
fn words_under_absent_entries() {
    for (n, t) in [(1, 0), (3, 1), (16, 15)] {
        for place in 0..PLACES {
            for entry in 0..n as usize {
                for word in [65_536, u32::MAX] {
                    let old = with_word(n, t, place, entry, word, false);
                    assert!(carried(&old) == old.0, "n {n}, place {place}, entry {entry}: {word}");
                }
            }
            for entry in n as usize..16 {
                assert_eq!(answer(&with_word(n, t, place, entry, u32::MAX, false)), 0, "past n {n}");
            }
        }
    }
    let mut old = OldBench::open(5, 2).unwrap();
    (0..PLACES).for_each(|place| data_at(&mut old.0, place).values = [u32::MAX; 16]);
    assert!(carried(&old) == old.0);
}

/// 2 as before, in every way of it, and first; then 16.
#[test]
fn two_before_sixteen() {
    let mut rng = Rng::new(26);
    for (n, t) in sizes() {
        for turn in 0..40 {
            let place = rng.below(PLACES);
            let entry = rng.below(n as usize);
            let mut small = with_word(n, t, place, entry, 65_535, true);
            let mut large = with_word(n, t, place, entry, large_count(&mut rng), true);
            assert_eq!((answer(&small), answer(&large)), (0, 16));
            let damaging = rng.clone();
            damage(&mut rng, &mut small.0);
            damage(&mut damaging.clone(), &mut large.0);
            assert_eq!((answer(&small), answer(&large)), (2, 2), "n {n}, t {t}, turn {turn}");
        }
    }
}

/// A refused carrying leaves every byte, by 2 as by 16, and wherever the count stands.
#[test]
fn a_refusal_leaves_the_bench() {
    let mut refused = [0; 2];
    let mut rng = Rng::new(27);
    for (n, t) in sizes() {
        for turn in 0..30 {
            let mut old = OldBench(random_state(&mut rng, n, t, turn % 2 == 0));
            if turn % 3 == 0 {
                damage(&mut rng, &mut old.0);
            }
            let before = old;
            if let Err(refusal) = old.carry() {
                refused[usize::from(refusal == Refusal::LargeCount)] += 1;
                assert!(old == before, "n {n}, t {t}, turn {turn}: {refusal:?}");
            }
        }
    }
    assert!(refused.iter().all(|&count| count > 1000), "{refused:?}");
}

/// A start above 65,535 makes 16 where it was accepted, from then on.
#[test]
fn an_accepted_large_start() {
    let mut old = after("open 3 1\nstart 1 65535\nsend 1 2");
    assert_eq!(answer(&old), 0);
    assert_eq!(old.step(&start(2, 65_536)), Ok(Closing::None));
    assert_eq!(answer(&old), 16);
    for line in ["send 2 1", "stop 2", "notice 1 2", "start 3 7"] {
        old.step(&encode(line).unwrap()).unwrap();
        assert_eq!(answer(&old), 16, "{line}");
    }
}

/// A refused one leaves no trace: by 7 as 1 has started, by 6 as 2 has crashed, by 3, 4 and 5.
#[test]
fn a_refused_large_start() {
    let old = after("open 3 1\nstart 1 40\nstop 2");
    for count in [65_536, 65_537, u32::MAX] {
        let [short, other_kind] = [&start(3, count)[..7], &[&[7], &start(3, count)[1..]].concat()];
        let [started, crashed, none, past_n] = [1, 2, 0, 4].map(|a| start(a, count));
        for (expected, record) in
            [(7, &started[..]), (6, &crashed), (3, short), (4, other_kind), (5, &none), (5, &past_n)]
        {
            let mut next = old;
            assert_eq!(number(&next.step(record)), expected, "{record:?}");
            assert!(next == old && answer(&next) == 0, "{record:?}");
        }
        let mut accepted = old;
        assert_eq!(accepted.step(&start(3, count)), Ok(Closing::None));
        assert_eq!(answer(&accepted), 16);
    }
}

/// Along a schedule with any counts: 16 exactly where an accepted start had one above 65,535. Until then it is carried as
/// if new from the start. Gives how many starts above 65,535 had been refused by then.
fn sixteen_along(n: u8, t: u8, seed: u64, large: usize, met: &mut Carryings) -> usize {
    let (mut old, mut new) = (OldBench::open(n, t).unwrap(), Bench::open(n, t).unwrap());
    let (mut accepted_large, mut refused_large) = (false, 0);
    for (i, record) in records(n, t, seed, noise(n, seed), large).iter().enumerate() {
        let told = format!("n {n}, t {t}, seed {seed}, record {}", i + 1);
        let answers = (old.step(record), new.step(&rewritten(record)));
        assert_eq!(answers.0, answers.1, "{told}: {record:?}");
        let above = is_start(record) && record[6..] != [0, 0];
        accepted_large |= above && answers.0.is_ok();
        refused_large += usize::from(above && !accepted_large);
        let expected = if accepted_large { Err(Refusal::LargeCount) } else { Ok(new) };
        assert!({ old }.carry().copied() == expected, "{told}: by the starts {:?}", expected.map(|_| ()));
        if i % 8 == 0 || above {
            met.count(&Carrying::new(&old.0, number(&expected) as u32));
        }
    }
    refused_large
}

#[test]
fn sixteen_by_accepted_starts_alone() {
    let (mut met, mut refused_large) = (Carryings::default(), 0);
    for (n, t) in sizes() {
        for seed in 2800..2803 {
            let large = [5, 20, 20, 60][(seed as usize + n as usize) % 4];
            refused_large += sixteen_along(n, t, seed, large, &mut met);
        }
    }
    println!("{refused_large} refused before one was accepted; carryings: {}", met.report());
    assert!(refused_large > 100, "{refused_large}");
    let missing = met.missing_of_schedules();
    assert!(missing.is_empty(), "carryings not met: {missing:?}");
}

/// A schedule across the change: a bench of before takes its first records, without diet portions, and is carried over.
#[derive(Default, Debug)]
struct Across {
    /// How many records that bench takes, and how many have been taken at all.
    place: usize,
    taken: usize,
    met: Met,
}

/// What schedules across the change have met.
#[derive(Default, Debug)]
struct Met {
    at_the_opening: usize,
    at_the_last_record: usize,
    crashed_before: usize,
    decided_before: usize,
    decided_since: usize,
    diet_portions_since: usize,
}

fn decided(bench: &Bench) -> usize {
    bench.processes.iter().filter(|p| p.has_decided()).count()
}

impl Across {
    fn step(&mut self, bench: &mut Bench, record: &mut Record) -> Result<Closing, Refusal> {
        self.taken += 1;
        if self.taken <= self.place {
            record.value.diet = 0;
            let mut old = OldBench(*bench);
            let answer = old.step(&record.bytes());
            *bench = old.0;
            return answer;
        }
        if self.taken == self.place + 1 {
            *bench = *OldBench(*bench).carry()?;
            self.met.crashed_before += bench.crashed.count_ones() as usize;
            self.met.decided_before += decided(bench);
        }
        let before = decided(bench);
        let answer = bench.step(&record.bytes());
        self.met.decided_since += decided(bench) - before;
        self.met.diet_portions_since += usize::from(record.value.diet > 0);
        answer
    }

    /// A schedule with every check of one history, carried over at any of its records.
    fn schedule(&mut self, n: u8, t: u8, seed: u64) {
        let told = |broken| -> usize { panic!("{broken}") };
        let length = random_schedule(n, t, seed).unwrap_or_else(told);
        (self.place, self.taken) = (Rng::new(seed ^ 0xca4417).below(length), 0);
        self.met.at_the_opening += usize::from(self.place == 0);
        self.met.at_the_last_record += usize::from(self.place + 1 == length);
        let step = |bench: &mut Bench, record: &mut Record| self.step(bench, record);
        let whole = random_schedule_by(n, t, seed, step).unwrap_or_else(told);
        assert!(whole == length, "n {n}, t {t}, seed {seed}: {whole} records, and {length} without carrying");
    }
}

/// Agreement, validity, absence, the bounds on rounds and records and the quiet end hold over the whole as one history.
#[test]
fn one_history_across_the_change() {
    let mut across = Across::default();
    for (n, t) in sizes() {
        (0..if n <= 5 { 60 } else { 3 }).for_each(|seed| across.schedule(n, t, 2900 + seed));
    }
    let met = across.met;
    println!("across the change: {met:?}");
    assert!(met.at_the_opening > 0 && met.at_the_last_record > 0, "{met:?}");
    let often = [met.crashed_before, met.decided_before, met.decided_since, met.diet_portions_since];
    assert!(often.iter().all(|&count| count > 100), "{met:?}");
}

/// A carried bench is one of now: with diet portions in it, it is not carried again, though its portions are few.
#[test]
fn carrying_twice() {
    let mut bench = carried(&after("open 2 1\nstart 1 40\nsend 1 2"));
    assert_eq!(carried(&OldBench(bench)), bench);
    bench.step(&Record::start(2, 25, 0).bytes()).unwrap();
    assert_eq!(answer(&OldBench(bench)), 0);
    let mut bench = carried(&after("open 2 1\nstart 1 40\nsend 1 2"));
    bench.step(&Record::start(2, 25, 1).bytes()).unwrap();
    assert_eq!(answer(&OldBench(bench)), 16);
}

/// Random states, sound and damaged, with counts up to 65,535 and a few above: the answer and every byte by the rule.
#[test]
fn carryings_by_the_rule() {
    let mut rng = Rng::new(30);
    let mut met = Carryings::default();
    for (n, t) in sizes() {
        for turn in 0..60 {
            let mut state = random_state(&mut rng, n, t, turn % 2 == 0);
            spread(&mut rng, &mut state);
            match turn % 6 {
                0 => damage(&mut rng, &mut state),
                1 => (0..1 + rng.below(20)).for_each(|_| flip(&mut rng, &mut state)),
                _ => {}
            }
            let mut old = OldBench(state);
            let carrying = Carrying::new(&state, number(&old.carry()) as u32);
            carrying.check(&old.0).unwrap_or_else(|broken| panic!("n {n}, t {t}, turn {turn}: {broken}"));
            met.count(&carrying);
        }
    }
    println!("carryings: {}", met.report());
    assert!(met.missing().is_empty(), "carryings not met: {:?}", met.missing());
}

/// The generators give what their names say, at both ends too.
#[test]
fn random_counts() {
    let mut rng = Rng::new(31);
    let small: Vec<u32> = (0..2000).map(|_| small_count(&mut rng)).collect();
    let large: Vec<u32> = (0..2000).map(|_| large_count(&mut rng)).collect();
    assert!(small.iter().all(|&count| count <= 65_535) && large.iter().all(|&count| count > 65_535));
    assert!([0, 65_535].iter().all(|end| small.contains(end)));
    assert!([65_536, 65_537, u32::MAX].iter().all(|end| large.contains(end)));
}
