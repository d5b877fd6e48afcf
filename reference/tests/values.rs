//! Diet portions beside portions: the request sentence by sentence, both ends, refusal 15 at its place, and states
//! whose entries have more diet portions than portions. Then the request by which they break ties of the lead.

use reference::aggregates::{change, go, lead, total};
use reference::check::{valid, History};
use reference::gen::{random_state, reached_state, sizes, Rng};
use reference::refusal::number;
use reference::simulate::simulate;
use reference::summed::{aggregates_of, any_lists, by_rule, Asked, Lists, Summed};
use reference::text::encode;
use reference::ties::any_ties;
use reference::values::{any_value, exceeding, nearly_agreed, records, spread};
use reference::values::{Deciding, Difference, Start, Starts};
use reference::{Bench, Cause, Closing, Counters, GlobalData, Record, Refusal, Value};

/// The word of an entry, by its parts.
fn word(portions: u32, diet: u32) -> u32 {
    portions + 65_536 * diet
}

/// A bench after the records of a text, all accepted. The first line is `open`.
fn after(text: &str) -> Bench {
    let bytes = encode(text).unwrap_or_else(|error| panic!("{error}"));
    let mut bench = Bench::open(bytes[1], bytes[2]).unwrap();
    let ended = bench.run(&bytes[8..], u32::MAX);
    assert_eq!(ended.cause, Cause::Done, "{text}");
    bench
}

/// The answer to one more record by the call for one, and where run would take it so, by run; they leave a refusing
/// bench as it was.
fn answer(bench: &Bench, record: &[u8]) -> u8 {
    let (mut next, mut run) = (*bench, *bench);
    let answer = number(&next.step(record));
    let ended = run.run(record, 1);
    let expected = if answer == 0 { Cause::Done } else { Cause::Refused(answer) };
    if (1..=8).contains(&record.len()) {
        assert!(ended.cause == expected && run == next);
    }
    assert!(answer == 0 || next == *bench);
    answer
}

fn answer_to(bench: &Bench, line: &str) -> u8 {
    answer(bench, &encode(line).unwrap())
}

/// The value of a start: portions, then the diet portions among them, low bytes first.
#[test]
fn a_start_has_two_numbers() {
    let mut bench = Bench::open(1, 0).unwrap();
    bench.step(&[1, 1, 0, 0, 0x34, 0x12, 0x78, 0x06]).unwrap();
    assert_eq!(bench.processes[0].estimate.entry(0), Some(Value { portions: 0x1234, diet: 0x0678 }));
    assert_eq!(bench.processes[0].estimate.values[0], 0x0678_1234);
    assert_eq!(Record::start(1, 0x1234, 0x0678).bytes(), [1, 1, 0, 0, 0x34, 0x12, 0x78, 0x06]);
}

/// Each entry holds both, in a word laid out as the start's value: one's own, one filled in, and one decided on.
#[test]
fn entries_hold_both() {
    let start =
        "open 2 0\nstart 1 772 258\nstart 2 65535 1\nsend 1 2\nsend 2 1\narrive 1 2 round 1\nclose 2\n";
    let bench = after(&(start.to_string() + "send 2 1\narrive 2 1 decision"));
    for number in [1, 2] {
        let mut out = [9; 3];
        assert_eq!(bench.global_data(number, &mut out), Ok(3));
        assert_eq!(out, [0x0102_0304, 0x0001_ffff, 9]);
        assert_eq!(out[0].to_le_bytes(), [4, 3, 2, 1]);
    }
}

/// Two are equal only when absent entries, portions and diet portions all match. Words under absent ones do not count.
#[test]
fn equal_in_all_three() {
    let data = |present, values: [u32; 2]| {
        let mut data = GlobalData { present, values: [7; 16] };
        data.values[..2].copy_from_slice(&values);
        data
    };
    let one = data(0b11, [word(40, 3), word(25, 0)]);
    assert!(one.same(&data(0b11, [word(40, 3), word(25, 0)])));
    for other in [word(40, 2), word(40, 4), word(40, 0), word(41, 3), word(39, 3), word(3, 40), word(43, 0)] {
        assert!(!one.same(&data(0b11, [other, word(25, 0)])), "{other:x}");
        assert!(!data(0b11, [other, word(25, 0)]).same(&one), "{other:x}");
    }
    assert!(!one.same(&data(0b11, [word(40, 3), word(25, 1)])));
    assert!(!one.same(&data(0b01, [word(40, 3), word(25, 0)])));
    assert!(data(0b01, [word(40, 3), word(1, 2)]).same(&data(0b01, [word(40, 3), word(3, 4)])));
}

/// Process 1 of two, in round 1 of two, with both entries; the estimate that 2 sent in it differs by `sent`.
fn closing(sent: impl Fn(&mut GlobalData)) -> Closing {
    let mut bench = after("open 2 1\nstart 1 40 3\nstart 2 25\nsend 1 2\nsend 2 1\narrive 2 1 round 1");
    let estimate = &mut bench.processes[0].estimate;
    (estimate.present, estimate.values[1]) = (0b11, word(25, 0));
    bench.sent[16] = *estimate;
    sent(&mut bench.sent[16]);
    bench.step(&Record::close(1).bytes()).unwrap()
}

#[test]
fn the_deciding_test_compares_both() {
    assert_eq!(closing(|_| ()), Closing::Agreed);
    assert_eq!(closing(|data| data.values[0] = word(40, 2)), Closing::NextRound);
    assert_eq!(closing(|data| data.values[1] = word(25, 25)), Closing::NextRound);
    assert_eq!(closing(|data| data.values[0] = word(41, 3)), Closing::NextRound);
    assert_eq!(closing(|data| data.values[0] = word(3, 40)), Closing::NextRound);
    assert_eq!(closing(|data| data.present = 0b10), Closing::NextRound);
    assert_eq!(closing(|data| data.values[2] = word(5, 6)), Closing::Agreed);
}

/// The same of random states of every size with an early round, and of each difference.
#[test]
fn deciding_by_the_rule() {
    let mut rng = Rng::new(15);
    let mut met = Deciding::default();
    for (n, t) in sizes().filter(|&(_, t)| t > 0) {
        for difference in Difference::ALL {
            for _ in 0..20 {
                let (mut bench, a) = nearly_agreed(&mut rng, n, t, difference);
                assert!(bench.is_sound());
                let closing = bench.step(&Record::close(a as u8 + 1).bytes()).unwrap();
                met.count(difference, closing).unwrap_or_else(|broken| panic!("n {n}, t {t}: {broken}"));
            }
        }
    }
    println!("closes: {}", met.report());
    assert!(met.missing().is_empty(), "closes not met: {:?}", met.missing());
}

/// Case 4 with diet portions: the aggregates of what 1 decided read portions; nobody ties for the lead.
#[test]
fn aggregates_read_portions() {
    let bench = after(
        "open 2 1\nstart 1 40 3\nstart 2 25 25\nsend 1 2\nsend 2 1\narrive 1 2 round 1\narrive 2 1 round 1\n\
         close 1\nstop 2\nsend 1 2\nnotice 1 2\nclose 1",
    );
    let mut out = [0; 2];
    assert_eq!(bench.global_data(1, &mut out), Ok(3));
    assert_eq!(out, [word(40, 3), word(25, 25)]);
    assert_eq!(total(2, &out, 3, &[100, 200]), Ok(65));
    assert_eq!(total(2, &out, 1, &[100, 70_000]), Ok(70_040));
    assert_eq!(go(2, &out, 3), Ok(true));
    assert_eq!(lead(2, &out, 3), Ok((1, 40)));
    assert_eq!(change(2, &out, 3, 2, 30), Ok(-5));
    assert_eq!(change(2, &out, 3, 2, 4_294_967_295), Ok(25 - 4_294_967_295));
}

/// Also an undecided one's estimate, both ends, and an entry whose diet exceeds its portions.
#[test]
fn the_program_prints_both() {
    let input =
        "open 2 1\nstart 1 40 3\nstart 2 25\nsend 1 2\nsend 2 1\narrive 1 2 round 1\narrive 2 1 round 1\n\
                 close 1\nstop 2\nsend 1 2\nclose 1\nnotice 1 2\nclose 1";
    let lines = simulate(&encode(input).unwrap());
    assert!(lines.ends_with("12 0\nT 1 2 0 1 40/3 25/0\nT 2 1 1 0 - 25/0\n"), "{lines}");
    let ends = "open 4 0\nstart 1 65535 65535\nstart 2 65535\nstart 3 0\nstart 4 0 1\nstart 4 1 1\n";
    let lines = simulate(&encode(ends).unwrap());
    let shown =
        "T 1 1 0 0 65535/65535 - - -\nT 2 1 0 0 - 65535/0 - -\nT 3 1 0 0 - - 0/0 -\nT 4 1 0 0 - - - 1/1\n";
    assert_eq!(lines, "1 0\n2 0\n3 0\n4 15\n5 0\n".to_string() + shown);
}

/// No count above 65,535: what would be the next one is a diet portion. Standing values keep their 32 bits.
#[test]
fn counts_end_at_65535() {
    assert_eq!(answer(&Bench::open(1, 0).unwrap(), &[1, 1, 0, 0, 0, 0, 1, 0]), 15);
    assert_eq!(total(1, &[u32::MAX], 1, &[0]), Ok(65_535));
    assert_eq!(total(2, &[u32::MAX, 0], 1, &[0, u32::MAX]), Ok(65_535 + 4_294_967_295));
    assert_eq!(lead(1, &[u32::MAX], 1), Ok((1, 65_535)));
    assert_eq!(change(1, &[u32::MAX], 1, 1, 0), Ok(65_535));
    assert_eq!(change(1, &[0], 1, 1, u32::MAX), Ok(-4_294_967_295));
}

/// Agreement and validity see the diet portions.
#[test]
fn a_decision_is_held_equal_on_both() {
    let text = "start 1 40 3\nstart 2 25\nsend 1 2\nsend 2 1\narrive 1 2 round 1\narrive 2 1 round 1\nclose 1\nclose 2";
    let records: Vec<u8> = encode(text).unwrap();
    for (other, broken) in [(word(40, 3), ""), (word(40, 2), "agreement"), (word(41, 3), "agreement")] {
        let (mut bench, mut history) = (Bench::open(2, 0).unwrap(), History::new(2, 0));
        let mut told = String::new();
        for record in records.chunks(8) {
            bench.step(record).unwrap();
            if bench.processes[1].has_decided() {
                bench.processes[1].estimate.values[0] = other;
            }
            told = history.add(Record::read(record).unwrap(), &bench).err().unwrap_or_default();
        }
        assert!(told.starts_with(broken) && told.is_empty() == broken.is_empty(), "{other:x}: {told}");
    }
    let data = |value| GlobalData { present: 1, values: [value; 16] };
    assert!(valid(1, &data(word(40, 3)), &data(word(40, 3))).is_ok());
    assert!(valid(1, &data(word(40, 2)), &data(word(40, 3))).is_err());
    assert!(valid(1, &data(word(41, 3)), &data(word(40, 3))).is_err());
}

/// 0/0, 1/1, 65535/0, 65535/65535 and all between start; one diet portion more than portions is refused.
#[test]
fn fifteen_in_a_start() {
    let bench = Bench::open(2, 1).unwrap();
    for portions in (0..=300).chain(65_300..=65_535u16) {
        for diet in [0, portions / 2, portions] {
            let record = Record::start(2, portions, diet).bytes();
            assert_eq!(answer(&bench, &record), 0, "{portions}/{diet}");
            let mut next = bench;
            next.step(&record).unwrap();
            assert_eq!(next.processes[1].estimate.values[1], word(portions as u32, diet as u32));
        }
        for diet in portions.checked_add(1).into_iter().chain([65_535]).filter(|&diet| diet > portions) {
            assert_eq!(answer(&bench, &Record::start(2, portions, diet).bytes()), 15, "{portions}/{diet}");
        }
    }
}

/// The tally counts it as refused, and a run stops at it.
#[test]
fn fifteen_counts_and_stops() {
    let (mut bench, mut counters) = (Bench::open(2, 1).unwrap(), Counters::default());
    let refused = Record::start(1, 3, 4).bytes();
    assert_eq!(bench.step_counted(&refused, &mut counters), Err(Refusal::Diet));
    assert_eq!(counters, Counters { accepted: 0, refused: 1, crashes: 0 });
    let schedule = [Record::start(2, 4, 4).bytes(), refused, Record::send(2, 1).bytes()].concat();
    let ended = bench.run(&schedule, 9);
    assert_eq!((ended.accepted, ended.cause, ended.rest), (1, Cause::Refused(15), &schedule[8..]));
    assert!(bench.processes[0].round == 0 && bench.processes[1].round == 1);
}

/// 2, 3, 4 and 5 come before it.
#[test]
fn what_is_checked_before_fifteen() {
    let bench = after("open 3 1\nstart 1 1\nstop 2");
    let mut damaged = bench;
    damaged.crashed = 8;
    assert_eq!(answer_to(&damaged, "start 3 0 1"), 2);
    assert_eq!(answer_to(&bench, "bytes 01 03 00 00 00 00 01"), 3);
    assert_eq!(answer(&bench, &[1, 3, 0, 0, 0, 0, 1, 0, 0]), 3);
    for kind in [0, 7, 255] {
        assert_eq!(answer(&bench, &[kind, 3, 0, 0, 0, 0, 1, 0]), 4);
    }
    for [a, b, r] in [
        [0, 0, 0],
        [4, 0, 0],
        [255, 0, 0],
        [3, 1, 0],
        [3, 3, 0],
        [3, 0, 1],
        [3, 0, 255],
        [2, 1, 0],
        [1, 0, 1],
    ] {
        assert_eq!(answer(&bench, &[1, a, b, r, 0, 0, 1, 0]), 5, "{a} {b} {r}");
    }
    // No other kind uses a value.
    for record in [
        Record::send(1, 3),
        Record::arrive(1, 3, 1),
        Record::close(1),
        Record::crash(1),
        Record::suspect(1, 2),
    ] {
        for value in [Value::new(0, 1), Value::new(1, 0), Value::new(1, 1), Value::new(0, 256)] {
            assert_eq!(answer(&bench, &Record { value, ..record }.bytes()), 5, "{record:?} {value}");
        }
    }
}

/// 6 and 7, also together, come after it.
#[test]
fn what_is_checked_after_fifteen() {
    let bench = after("open 4 2\nstart 1 1\nstart 3 3\nstop 2\nstop 3");
    for (line, good, refused) in
        [("start 1", "1 1", 7), ("start 2", "1 1", 6), ("start 3", "1 1", 6), ("start 4", "1 1", 0)]
    {
        assert_eq!(answer_to(&bench, &format!("{line} {good}")), refused, "{line}");
        assert_eq!(answer_to(&bench, &format!("{line} 1 2")), 15, "{line}");
        assert_eq!(answer_to(&bench, &format!("{line} 0 65535")), 15, "{line}");
    }
}

/// It depends on the record and n alone: in every sound state such a start is refused so, and no other record is.
#[test]
fn fifteen_depends_on_the_record_and_n() {
    let mut rng = Rng::new(16);
    for (n, t) in sizes() {
        for turn in 0..6 {
            let mut bench = match turn % 2 {
                0 => reached_state(&mut rng, n, t),
                _ => random_state(&mut rng, n, t, turn % 3 == 0),
            };
            if turn >= 4 {
                spread(&mut rng, &mut bench);
            }
            for a in 1..=n {
                let (bad, good) = (exceeding(&mut rng), rng.value());
                assert_eq!(answer(&bench, &Record::start(a, bad.portions, bad.diet).bytes()), 15, "{bad}");
                assert_ne!(answer(&bench, &Record::start(a, good.portions, good.diet).bytes()), 15, "{good}");
            }
        }
    }
}

/// Along schedules with many such starts: by the rule, each kind met, and nothing changed by a refusal.
#[test]
fn starts_by_the_rule() {
    let mut met = Starts::default();
    for (n, t) in sizes() {
        for seed in 1500..1505 {
            let mut bench = Bench::open(n, t).unwrap();
            for record in records(n, t, seed) {
                let answer = answer(&bench, &record);
                let start = Start { bench: &bench, record: &record, answer };
                assert!(start.is_by_rule(), "n {n}, t {t}, seed {seed}: {record:?} gave {answer}");
                met.count(&start);
                let _ = bench.step(&record);
            }
            let mut damaged = bench;
            damaged.t = n;
            let record = Record::start(1, 1, 2).bytes();
            met.count(&Start { bench: &damaged, record: &record, answer: answer(&damaged, &record) });
        }
    }
    println!("starts: {}", met.report());
    assert!(met.missing().is_empty(), "starts not met: {:?}", met.missing());
}

/// An entry with more diet portions than portions is no damage: it is stepped, merged, decided on and read as it is.
#[test]
fn a_state_with_too_many_diet_portions() {
    let mut bench = after("open 2 0\nstart 1 40 3\nstart 2 25\nsend 1 2\nsend 2 1\narrive 2 1 round 1");
    bench.sent[16].values[1] = word(25, 26);
    bench.processes[0].estimate.values[0] = word(0, 1);
    assert!(bench.is_sound());
    assert_eq!(bench.run(&Record::close(1).bytes(), 1).closing, Closing::LastRound);
    let mut out = [9; 3];
    assert_eq!(bench.global_data(1, &mut out), Ok(3));
    assert_eq!(out, [word(0, 1), word(25, 26), 9]);
    assert_eq!(total(2, &out[..2], 3, &[0; 2]), Err(Refusal::Diet));
    // A decision hands it on, and the list in transit does not mind.
    for record in [Record::send(1, 2), Record::arrive(1, 2, 0)] {
        assert_eq!(answer(&bench, &record.bytes()), 0);
        bench.step(&record.bytes()).unwrap();
    }
    assert_eq!(bench.decision(2), bench.decision(1));
    assert_eq!(bench.list_in_transit(&mut [0; 6]), Ok(1));
}

/// Words under absent entries are not looked at, and a start leaves none.
#[test]
fn words_under_absent_entries() {
    let mut bench = Bench::open(2, 1).unwrap();
    bench.processes[0].estimate = GlobalData { present: 0b11, values: [word(1, 2); 16] };
    bench.step(&Record::start(1, 40, 3).bytes()).unwrap();
    assert_eq!((bench.processes[0].estimate.present, bench.processes[0].estimate.values[1]), (1, 0));
    bench.processes[0].estimate.values[1] = word(1, 2);
    bench.processes[0].decided = 1;
    let mut out = [9; 2];
    assert_eq!(bench.global_data(1, &mut out), Ok(1));
    assert_eq!(out, [word(40, 3), 0]);
    let entries = [word(40, 3), word(1, 2)];
    assert_eq!(total(2, &entries, 1, &[0, 7]), Ok(47));
    assert_eq!(go(2, &entries, 1), Ok(false));
    assert_eq!(lead(2, &entries, 1), Ok((1, 40)));
    assert_eq!(change(2, &entries, 1, 1, 40), Ok(0));
    assert_eq!(change(2, &entries, 1, 2, 0), Err(Refusal::Absent));
    assert_eq!(lead(2, &entries, 0), Err(Refusal::Absent));
}

/// The numbers of all four refusals, or 0, with change asked of this entry.
fn four(n: u8, entries: &[u32], marks: u16, standing: &[u32], process: u8) -> [u8; 4] {
    [
        number(&total(n, entries, marks, standing)),
        number(&go(n, entries, marks)),
        number(&lead(n, entries, marks)),
        number(&change(n, entries, marks, process, 7)),
    ]
}

/// After 1, 5 and 10, of both lists, and before 12.
#[test]
fn fifteen_in_the_aggregates() {
    let bad = [word(40, 3), word(2, 3)];
    assert_eq!(four(0, &bad, 3, &[0; 2], 1), [1; 4]);
    assert_eq!(four(17, &bad, 3, &[0; 2], 1), [1; 4]);
    assert_eq!(four(2, &bad, 7, &[0; 2], 1), [5; 4]);
    assert_eq!(four(2, &bad, 3, &[0; 2], 0), [15, 15, 15, 5]);
    assert_eq!(four(2, &bad, 3, &[0; 2], 3), [15, 15, 15, 5]);
    assert_eq!(four(3, &bad, 3, &[0; 3], 1), [10; 4]);
    assert_eq!(four(1, &bad[1..], 1, &[0; 2], 1), [10, 15, 15, 15]);
    assert_eq!(four(2, &bad, 3, &[0; 1], 1), [10, 15, 15, 15]);
    assert_eq!(four(2, &bad, 3, &[0; 2], 1), [15; 4]);
    assert_eq!(four(2, &bad, 3, &[0; 2], 2), [15; 4]);
    // Change of an absent entry, where another one has too many; then lead of none present.
    assert_eq!(four(2, &bad, 2, &[0; 2], 1), [15; 4]);
    assert_eq!(four(2, &bad, 1, &[0; 2], 2), [0, 0, 0, 12]);
    assert_eq!(four(2, &bad, 0, &[0; 2], 2), [0, 0, 12, 12]);
}

/// One such entry in each place, by one portion and by all, among all present and alone.
#[test]
fn fifteen_in_each_place() {
    for n in 1..=16u8 {
        for i in 0..n as usize {
            for bad in [word(0, 1), word(65_534, 65_535), word(0, 65_535), word(255, 256)] {
                let mut entries = vec![word(65_535, 65_535); n as usize];
                entries[i] = bad;
                let all = (1u32 << n) as u16;
                for marks in [all.wrapping_sub(1), 1 << i] {
                    assert_eq!(four(n, &entries, marks, &vec![0; n as usize], 1), [15; 4], "{n} {i} {bad:x}");
                }
                let others = all.wrapping_sub(1) & !(1 << i);
                let least = if others == 0 { [0, 0, 12, 12] } else { [0; 4] };
                let asked = if i == 0 && n > 1 { 2 } else { 1 };
                assert_eq!(four(n, &entries, others, &vec![0; n as usize], asked), least, "{n} {i} {bad:x}");
            }
        }
    }
}

#[test]
fn aggregates_by_the_rule() {
    let mut rng = Rng::new(17);
    let mut met = Summed::default();
    for turn in 0..20_000 {
        let (n, entries, marks, standing) = any_lists(&mut rng);
        let asked = Asked::any(&mut rng, n);
        let lists = Lists { n, entries: &entries, marks, standing: &standing };
        let given = aggregates_of(lists, asked);
        assert_eq!(given, by_rule(lists, asked), "seed 17, turn {turn}: {lists:?}, {asked:?}");
        met.count(lists, asked, &given);
    }
    println!("aggregates: {}", met.report());
    assert!(met.missing().is_empty(), "aggregates not met: {:?}", met.missing());
}

/// The generators give what their names say, at both ends too.
#[test]
fn random_values() {
    let mut rng = Rng::new(18);
    let values =
        |draw: fn(&mut Rng) -> Value, rng: &mut Rng| -> Vec<Value> { (0..5000).map(|_| draw(rng)).collect() };
    let (bad, good, any) =
        (values(exceeding, &mut rng), values(Rng::value, &mut rng), values(any_value, &mut rng));
    assert!(bad.iter().all(|value| value.diet > value.portions));
    assert!(good.iter().all(|value| value.diet <= value.portions));
    for (list, ends) in
        [(&bad, [(0, 1), (0, 65_535), (65_534, 65_535)]), (&good, [(0, 0), (65_535, 0), (65_535, 65_535)])]
    {
        assert!(ends.iter().all(|&(portions, diet)| list.contains(&Value::new(portions, diet))));
    }
    assert!(
        any.iter().any(|value| value.diet > value.portions)
            && any.iter().any(|value| value.diet < value.portions)
    );
}

/// The lead of global data on which two decided, who started so.
fn lead_of_starts(first: &str, second: &str) -> (u8, u16) {
    let bench = after(&format!(
        "open 2 0\nstart 1 {first}\nstart 2 {second}\nsend 1 2\nsend 2 1\narrive 1 2 round 1\narrive 2 1 round 1\n\
         close 1\nclose 2"
    ));
    let [one, two] = [1, 2].map(|process| {
        let mut out = [0; 2];
        assert_eq!(bench.global_data(process, &mut out), Ok(3));
        lead(2, &out, 3).unwrap()
    });
    assert_eq!(one, two);
    one
}

/// Low numbers no longer win: not by their number, where portions are equal.
#[test]
fn the_pilot_dish_goes_round() {
    assert_eq!(lead_of_starts("40 3", "40 3"), (2, 40));
    assert_eq!(lead_of_starts("40 3", "40 4"), (2, 40));
    assert_eq!(lead_of_starts("40 4", "40 3"), (1, 40));
    assert_eq!(lead_of_starts("41 0", "40 40"), (1, 41));
    assert_eq!(lead_of_starts("40 40", "41 0"), (2, 41));
    assert_eq!(lead_of_starts("0", "0"), (2, 0));
    assert_eq!(lead_of_starts("1 1", "1"), (1, 1));
    assert_eq!(lead_of_starts("65535 65535", "65535 65535"), (2, 65_535));
}

/// In every place of every n: of equal portions more diet portions lead, be it by one; those of fewer do not count.
#[test]
fn of_equal_portions_more_diet_leads() {
    for n in 2..=16u8 {
        for i in 0..n as usize {
            for (portions, more, less) in
                [(1, 1, 0), (40, 3, 2), (300, 256, 255), (65_535, 32_768, 32_767), (65_535, 65_535, 65_534)]
            {
                let mut entries = vec![word(portions, less); n as usize];
                entries[i] = word(portions, more);
                let all = (1u32 << n).wrapping_sub(1) as u16;
                assert_eq!(lead(n, &entries, all), Ok((i as u8 + 1, portions as u16)), "{n} {entries:x?}");
                // All others now have one portion fewer, which are all for a diet.
                let mut entries = vec![word(portions - 1, portions - 1); n as usize];
                entries[i] = word(portions, less);
                assert_eq!(lead(n, &entries, all), Ok((i as u8 + 1, portions as u16)), "{n} {entries:x?}");
            }
        }
    }
}

/// Of those equal in both, which are in any places, also where others have fewer diet portions.
#[test]
fn of_those_equal_too_the_highest_number_leads() {
    for equal in 1..=u16::MAX {
        let highest = 16 - equal.leading_zeros() as u8;
        for (best, rest) in
            [(word(40, 3), word(40, 2)), (word(65_535, 0), word(65_534, 65_534)), (word(1, 1), 0)]
        {
            let entries: [u32; 16] = std::array::from_fn(|i| if equal >> i & 1 == 1 { best } else { rest });
            assert_eq!(lead(16, &entries, u16::MAX), Ok((highest, best as u16)), "{equal:x}");
        }
        // The others are absent, and would lead.
        let entries: [u32; 16] = std::array::from_fn(|i| word(40, 3 + (equal >> i & 1 ^ 1) as u32));
        assert_eq!(lead(16, &entries, equal), Ok((highest, 40)), "{equal:x}");
        assert_eq!(lead(16, &[0; 16], equal), Ok((highest, 0)), "{equal:x}");
    }
}

/// Both sentences at once, of random lists: nobody has more portions; of equal portions nobody has more diet portions;
/// of those equal too nobody has a higher number.
#[test]
fn the_lead_by_each_sentence() {
    let mut rng = Rng::new(1801);
    for turn in 0..20_000 {
        let (n, entries, marks, _) = any_ties(&mut rng);
        let Ok((leads, portions)) = lead(n, &entries, marks) else { continue };
        let of = |number: u8| Value::from_word(entries[number as usize - 1]);
        let is_present = |number: u8| marks >> (number - 1) & 1 == 1;
        assert!(is_present(leads) && of(leads).portions == portions, "turn {turn}");
        for other in (1..=n).filter(|&number| is_present(number)) {
            assert!(of(other).portions <= portions, "turn {turn}: {other} has more portions");
            if of(other).portions == portions {
                assert!(of(other).diet <= of(leads).diet, "turn {turn}: {other} has more diet portions");
            }
            if of(other) == of(leads) {
                assert!(other <= leads, "turn {turn}: {other} is higher");
            }
        }
    }
}
