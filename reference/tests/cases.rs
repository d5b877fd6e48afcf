//! Cases 1 to 8 of the paper, the examples of its table of refusals, its five slips, how rounds end, totals of what is
//! decided, and the list in transit in its order.

use reference::aggregates::total;
use reference::refusal::number;
use reference::simulate::simulate;
use reference::text::encode;
use reference::Closing::{Agreed, LastRound, NextRound};
use reference::{Bench, Cause, Closing, GlobalData, Record, Refusal};

/// A bench after the records of a text, all accepted, and the closing of each. The first line is `open`.
fn stepped(text: &str) -> (Bench, Vec<Closing>) {
    let bytes = encode(text).unwrap_or_else(|error| panic!("{error}"));
    let (first, rest) = bytes.split_at(8);
    let mut bench = Bench::open(first[1], first[2]).unwrap();
    let accepted = |(i, record)| {
        bench.step(record).unwrap_or_else(|refusal| panic!("record {} of {text}: {refusal:?}", i + 1))
    };
    let closings = rest.chunks(8).enumerate().map(accepted).collect();
    (bench, closings)
}

fn after(text: &str) -> Bench {
    stepped(text).0
}

/// The closing of a run over the records of a text, all accepted.
fn run(bench: &Bench, text: &str) -> Closing {
    let bytes = encode(text).unwrap();
    let ended = { *bench }.run(&bytes, u32::MAX);
    assert_eq!(ended.cause, Cause::Done, "{text}");
    ended.closing
}

/// The answer to one more record, which leaves a refusing bench as it was.
fn answer(bench: &Bench, line: &str) -> u8 {
    let mut next = *bench;
    let answer = next.step(&encode(line).unwrap());
    assert!(answer.is_ok() || next == *bench);
    number(&answer)
}

/// Entries without diet portions.
fn data(entries: &[Option<u32>]) -> GlobalData {
    let mut data = GlobalData::ABSENT;
    for (i, entry) in entries.iter().enumerate() {
        data.values[i] = entry.unwrap_or(0);
        data.present |= u16::from(entry.is_some()) << i;
    }
    data
}

/// A line for each sender and each other receiver.
fn pairs(word: &str, senders: &[u8], receivers: &[u8], end: &str) -> String {
    let others = |&a| receivers.iter().filter(move |&&b| b != a).map(move |b| (a, b));
    senders.iter().flat_map(others).map(|(a, b)| format!("{word} {a} {b}{end}\n")).collect()
}

/// Each of n processes sends and receives its estimate of a round.
fn exchange(n: u8, round: u8) -> String {
    let all: Vec<u8> = (1..=n).collect();
    pairs("send", &all, &all, "") + &pairs("arrive", &all, &all, &format!(" round {round}"))
}

#[test]
fn case_1_alone() {
    let (bench, closings) = stepped("open 1 0\nstart 1 7\nclose 1");
    assert_eq!(closings, [Closing::None, LastRound]);
    assert_eq!(bench.processes[0].round, 1);
    assert_eq!(bench.decision(1), Ok(data(&[Some(7)])));
}

#[test]
fn case_2_no_crash() {
    let all_close = "close 1\nclose 2\nclose 3\n";
    let text = "open 3 2\nstart 1 5\nstart 2 6\nstart 3 7\n".to_string() + &exchange(3, 1) + all_close;
    let bench = after(&text);
    assert!(bench.processes.iter().all(|p| !p.has_decided()));
    let (bench, mut closings) = stepped(&(text + &exchange(3, 2) + all_close));
    closings.retain(|&closing| closing != Closing::None);
    assert_eq!(closings, [NextRound, NextRound, NextRound, Agreed, Agreed, Agreed]);
    for number in 1..=3 {
        assert_eq!(bench.processes[number as usize - 1].round, 2);
        assert_eq!(bench.decision(number), Ok(data(&[Some(5), Some(6), Some(7)])));
    }
}

#[test]
fn case_3_value_0_is_present() {
    let bench = after("open 1 0\nstart 1 0\nclose 1");
    let mut out = [9];
    assert_eq!(bench.global_data(1, &mut out), Ok(1));
    assert_eq!(out, [0]);

    // The program shows it.
    let input = encode("open 1 0\nstart 1 0\nclose 1").unwrap();
    assert_eq!(simulate(&input), "1 0\n2 0\nT 1 1 0 1 0/0\n");

    // It also fills another's absent entry.
    let text = "open 2 0\nstart 1 0\nstart 2 5\nsend 1 2\nsend 2 1\narrive 1 2 round 1\nclose 2";
    assert_eq!(after(text).decision(2), Ok(data(&[Some(0), Some(5)])));
}

const CASE_4: [u8; 13 * 8] = [
    0, 2, 1, 0, 0, 0, 0, 0, //
    1, 1, 0, 0, 40, 0, 0, 0, //
    1, 2, 0, 0, 25, 0, 0, 0, //
    2, 1, 2, 0, 0, 0, 0, 0, //
    2, 2, 1, 0, 0, 0, 0, 0, //
    3, 1, 2, 1, 0, 0, 0, 0, //
    3, 2, 1, 1, 0, 0, 0, 0, //
    4, 1, 0, 0, 0, 0, 0, 0, //
    5, 2, 0, 0, 0, 0, 0, 0, //
    2, 1, 2, 0, 0, 0, 0, 0, //
    4, 1, 0, 0, 0, 0, 0, 0, //
    6, 1, 2, 0, 0, 0, 0, 0, //
    4, 1, 0, 0, 0, 0, 0, 0, //
];

#[test]
fn case_4_program() {
    let expected = "1 0\n2 0\n3 0\n4 0\n5 0\n6 0\n7 0\n8 0\n9 0\n10 8\n11 0\n12 0\n\
                    T 1 2 0 1 40/0 25/0\nT 2 1 1 0 - 25/0\n";
    assert_eq!(simulate(&CASE_4), expected);
}

#[test]
fn case_4_closings() {
    let mut bench = Bench::open(2, 1).unwrap();
    let answers: Vec<_> = CASE_4[8..].chunks(8).map(|record| bench.step(record)).collect();
    for (i, answer) in answers.into_iter().enumerate() {
        let expected = match i + 1 {
            7 => Ok(NextRound),
            10 => Err(Refusal::Waiting),
            12 => Ok(LastRound),
            _ => Ok(Closing::None),
        };
        assert_eq!(answer, expected, "record {}", i + 1);
    }
}

/// A run over records of case 4, by their numbers.
fn run_case_4(bench: &mut Bench, first: usize, last: usize, budget: u32) -> (Cause, Closing) {
    let ended = bench.run(&CASE_4[8 * first..8 * (last + 1)], budget);
    (ended.cause, ended.closing)
}

/// A refused record counts for nothing, and takes nothing from the closes before it.
#[test]
fn case_4_closings_of_runs() {
    let open = Bench::open(2, 1).unwrap();
    assert_eq!(run_case_4(&mut { open }, 1, 9, 100), (Cause::Done, NextRound));
    assert_eq!(run_case_4(&mut { open }, 1, 12, 9), (Cause::Spent, NextRound));
    assert_eq!(run_case_4(&mut { open }, 1, 12, 100), (Cause::Refused(8), NextRound));

    let mut bench = open;
    assert_eq!(run_case_4(&mut bench, 1, 12, 2), (Cause::Spent, Closing::None));
    // The two sends alone.
    assert_eq!(run_case_4(&mut bench, 3, 4, 100), (Cause::Done, Closing::None));
    assert_eq!(run_case_4(&mut bench, 5, 12, 100), (Cause::Refused(8), NextRound));
    // A close of an earlier run is not of this one.
    assert_eq!(run_case_4(&mut bench, 10, 12, 100), (Cause::Refused(8), Closing::None));
    assert_eq!(run_case_4(&mut bench, 11, 12, 100), (Cause::Done, LastRound));
}

#[test]
fn case_5_sizes() {
    assert!(Bench::open(16, 15).is_ok());
    assert_eq!(Bench::open(17, 0), Err(Refusal::Size));
    assert_eq!(Bench::open(0, 0), Err(Refusal::Size));
}

/// Its record 10 is refused.
fn after_case_4() -> Bench {
    let mut bench = Bench::open(2, 1).unwrap();
    for record in CASE_4[8..].chunks(8) {
        let _ = bench.step(record);
    }
    bench
}

#[test]
fn case_6_crash_limit() {
    let bench = after_case_4();
    assert_eq!(answer(&bench, "stop 1"), 9);
    assert_eq!(answer(&bench, "stop 2"), 6);
}

#[test]
fn case_7_received_then_suspected() {
    let text = "open 3 2\nstart 1 1\nstart 2 2\nstart 3 3\nsend 1 2\nsend 1 3\nsend 2 1\nsend 3 1\n\
                arrive 2 1 round 1\narrive 3 1 round 1\nstop 2\nnotice 1 2\nclose 1\n";
    let p = after(text).processes[0];
    assert_eq!((p.round, p.current), (2, 0b111));
    assert!(p.estimate.same(&data(&[Some(1), Some(2), Some(3)])));
}

/// 2 crashed before it started; 1 and 3 hold equal estimates in round 2, but the sets differ.
const CASE_8: &str = "open 3 2\nstop 2\nstart 1 1\nstart 3 3\nsend 1 2\nsend 1 3\nsend 3 1\nsend 3 2\n\
                      arrive 1 3 round 1\narrive 3 1 round 1\nnotice 1 2\nnotice 3 2\nclose 1\nclose 3\n\
                      send 1 3\nsend 3 1\narrive 3 1 round 2\n";

#[test]
fn case_8_equal_estimates_are_not_enough() {
    let before = after(CASE_8);
    let [one, _, three, ..] = before.processes;
    assert!(one.estimate.same(&three.estimate));
    assert_eq!((one.round, one.previous, one.current), (2, 0b111, 0b101));

    let (after, closings) = stepped(&(CASE_8.to_string() + "close 1"));
    let one = after.processes[0];
    assert_eq!(closings.last(), Some(&NextRound));
    assert_eq!((one.round, one.has_decided()), (3, false));
    assert_eq!((one.previous, one.current), (0b101, 0b101));
}

/// Case 8 goes on: in round 3, which is t+1, the sets of 1 and all estimates are equal too.
const CASE_8_ENDS: &str = "close 1\narrive 1 3 round 2\nclose 3\nsend 1 3\nsend 3 1\narrive 3 1 round 3\n";

#[test]
fn both_grounds_are_the_last_round() {
    let before = after(&(CASE_8.to_string() + CASE_8_ENDS));
    assert!(before.both_grounds(0) && !before.both_grounds(2));
    assert_eq!({ before }.step(&Record::close(1).bytes()), Ok(LastRound));
    // Alone, the one round is the last and all estimates are equal in it.
    let alone = after("open 1 0\nstart 1 7");
    assert!(alone.both_grounds(0));
    assert_eq!(run(&alone, "close 1"), LastRound);
}

/// In case 8, 2 crashed before it started, so its entry is absent from what 1 decides; in case 4 none is.
#[test]
fn totals_of_decided_data() {
    let total_of = |bench: &Bench, standing: &[u32]| {
        let mut out = [9; 3];
        let marks = bench.global_data(1, &mut out)?;
        total(bench.n, &out[..bench.n as usize], marks, standing)
    };
    let bench = after(&(CASE_8.to_string() + CASE_8_ENDS + "close 1"));
    assert_eq!(bench.decision(1), Ok(data(&[Some(1), None, Some(3)])));
    assert_eq!(total_of(&bench, &[100, 20, 300]), Ok(24));
    assert_eq!(total_of(&bench, &[100, 20]), Err(Refusal::Slice));

    assert_eq!(total_of(&after_case_4(), &[100, 20]), Ok(65));
    assert_eq!(total_of(&after_case_4(), &[100, 20, 300]), Err(Refusal::Slice));
}

/// 3 never expects 2, and 1 does in round 1: in round 2 the sets of 3 are equal and those of 1 differ.
#[test]
fn a_run_gives_its_last_close() {
    let before = after(
        "open 3 2\nstop 2\nnotice 3 2\nstart 1 1\nstart 3 3\nsend 1 2\nsend 1 3\nsend 3 1\n\
         arrive 1 3 round 1\narrive 3 1 round 1\nnotice 1 2\nclose 1\nclose 3\nsend 1 3\nsend 3 1\n\
         arrive 1 3 round 2\narrive 3 1 round 2\n",
    );
    assert_eq!(run(&before, "close 1\nclose 3"), Agreed);
    assert_eq!(run(&before, "close 3\nclose 1"), NextRound);
    assert_eq!(run(&before, "close 3\nsend 3 1"), Agreed);
}

/// 3 reached only 2 with its value and crashed before 1 started, so 1 never expects it.
/// In round 2 the sets of 1 are equal, and 2's estimate is the new one; 1's old one is not.
#[test]
fn slip_own_old_estimate() {
    let text = "open 3 2\nstart 3 3\nsend 3 2\nstop 3\nnotice 1 3\nstart 1 1\nstart 2 2\n\
                send 1 2\nsend 2 1\nsend 2 3\narrive 3 2 round 1\narrive 1 2 round 1\nclose 2\n\
                arrive 2 1 round 1\nclose 1\nsend 1 2\nsend 2 1\nsend 2 3\narrive 2 1 round 2\n";
    let before = after(text).processes[0];
    assert_eq!((before.previous, before.current), (0b011, 0b011));
    let p = after(&(text.to_string() + "close 1")).processes[0];
    assert!(p.estimate.same(&data(&[Some(1), Some(2), Some(3)])));
    assert_eq!((p.round, p.has_decided()), (3, false));
}

/// The round-1 estimate of 2 arrives when 2 is in round 2 and knows 3: 1 must not see that.
#[test]
fn slip_estimate_of_the_opening() {
    let text =
        "open 3 2\nstart 1 1\nstart 2 2\nstart 3 3\nsend 3 2\nstop 3\nnotice 1 3\nsend 1 2\nsend 1 3\n\
                send 2 1\nsend 2 3\narrive 1 2 round 1\narrive 3 2 round 1\nclose 2\n\
                arrive 2 1 round 1\nclose 1";
    let bench = after(text);
    assert!(bench.processes[1].estimate.same(&data(&[Some(1), Some(2), Some(3)])));
    assert!(bench.processes[0].estimate.same(&data(&[Some(1), Some(2)])));
}

#[test]
fn examples_of_refusals() {
    let new = Bench::open(3, 1).unwrap();
    let mut damaged = new;
    damaged.processes[1].round = 3;
    assert_eq!(answer(&damaged, "bytes 04 01"), 2);
    assert_eq!(answer(&new, "bytes 04 01 00 00 00 00 00"), 3);
    assert_eq!(answer(&new, "bytes 07 01 00 00 00 00 00 00"), 4);
    assert_eq!(answer(&new, "send 1 1"), 5);
    assert_eq!(answer(&after("open 3 1\nstop 2"), "stop 2"), 6);
    assert_eq!(answer(&new, "notice 1 2"), 7);
    assert_eq!(answer(&Bench::open(1, 0).unwrap(), "stop 1"), 9);
    assert_eq!(new.decision(1), Err(Refusal::Undecided));
    assert_eq!(new.global_data(1, &mut [0; 2]), Err(Refusal::Slice));
}

#[test]
fn refusal_7_of_each_kind() {
    let new = Bench::open(3, 1).unwrap();
    let started = after("open 3 1\nstart 1 1");
    let crashed = after("open 3 1\nstop 2\nnotice 1 2");
    assert_eq!(answer(&started, "start 1 1"), 7);
    assert_eq!(answer(&new, "send 1 2"), 7);
    assert_eq!(answer(&started, "arrive 1 2 round 1"), 7);
    assert_eq!(answer(&crashed, "notice 1 2"), 7);
    assert_eq!(answer(&crashed, "notice 3 2"), 0);
    assert_eq!(answer(&new, "close 1"), 7);
    assert_eq!(answer(&started, "close 1"), 7);
    assert_eq!(answer(&after("open 1 0\nstart 1 1\nclose 1"), "close 1"), 7);
}

/// A debt stands though its receiver crashed, and whoever is suspected by the decision is left out.
#[test]
fn debts() {
    let bench = after("open 3 1\nstart 1 1\nstop 2\nnotice 1 2");
    assert_eq!(bench.processes[0].outbox, 0b110);
    let text = "open 3 1\nstart 1 1\nstart 3 3\nsend 1 2\nsend 1 3\nsend 3 1\nstop 2\nnotice 1 2\n\
                arrive 3 1 round 1\nclose 1\nsend 1 3\nnotice 3 2\narrive 1 3 round 1\nsend 3 2\nclose 3\n\
                send 3 1\narrive 3 1 round 2\nclose 1\n";
    let bench = after(text);
    assert!(bench.processes[0].has_decided());
    assert_eq!(bench.processes[0].outbox, 0b100);
    // 3 decides by the decision of 1, so it owes none to 1, nor to 2.
    let bench = after(&(text.to_string() + "send 1 3\narrive 1 3 decision"));
    assert!(bench.processes[2].has_decided());
    assert_eq!(bench.processes[2].outbox, 0);
    assert_eq!(bench.decision(3), bench.decision(1));
}

/// What arrives where: kept, or only taken out of transit.
#[test]
fn arrivals() {
    let text = "open 3 2\nstart 2 2\nsend 2 1\nstart 3 3\nsend 3 1\nstop 3\nnotice 1 3\n";
    let early = after(&(text.to_string() + "arrive 2 1 round 1\narrive 3 1 round 1"));
    assert_eq!(early.processes[0].received[0], 0b110);
    assert_eq!(early.in_transit.iter().sum::<u16>(), 0);
    let late = after(&(text.to_string() + "start 1 1\narrive 2 1 round 1\narrive 3 1 round 1"));
    assert_eq!(late.processes[0].received[0], 0b010);
    assert_eq!(late.in_transit.iter().sum::<u16>(), 0);
    assert_eq!(answer(&late, "arrive 3 1 round 1"), 7);
    // Kept before the start, but 3 is not expected: it is not in the next set.
    let text = text.to_string() + "arrive 2 1 round 1\narrive 3 1 round 1\nstart 1 1\nsend 1 2\nclose 1";
    let p = after(&text).processes[0];
    assert_eq!((p.round, p.current), (2, 0b011));
    assert!(p.estimate.same(&data(&[Some(1), Some(2)])));
}

/// 4 crashed in round 1; 1 and 2 have decided in round 2, which is t+1; 3 is still in it. Nothing has arrived at 4, and
/// at 3 only what is of round 1. The processes act from 1 on, or from the highest down.
fn much_in_transit(highest_first: bool) -> Bench {
    let up_to = |n: u8| -> Vec<u8> {
        let rising = 1..=n;
        if highest_first {
            rising.rev().collect()
        } else {
            rising.collect()
        }
    };
    let each = |word: &str, n: u8, end: &str| -> String {
        up_to(n).iter().map(|a| format!("{word} {a}{end}\n")).collect()
    };
    let pairs = |word, senders, receivers, end| pairs(word, &up_to(senders), &up_to(receivers), end);
    let round_1 = pairs("send", 4, 4, "") + &pairs("arrive", 4, 3, " round 1") + &each("close", 3, "");
    let round_2 = pairs("send", 3, 4, "") + &pairs("arrive", 3, 2, " round 2");
    let decisions = each("notice", 2, " 4") + &each("close", 2, "") + &pairs("send", 2, 3, "");
    after(
        &("open 4 1\n".to_string() + &each("start", 4, " 7") + &round_1 + &round_2 + "stop 4\n" + &decisions),
    )
}

/// By round, decisions first, then by sender, then by receiver, and not by when they were sent.
#[test]
fn the_list_in_its_order() {
    let decisions = [[1, 2, 0], [1, 3, 0], [2, 1, 0], [2, 3, 0]];
    let round_1 = [[1, 4, 1], [2, 4, 1], [3, 4, 1]];
    let round_2 = [[1, 3, 2], [1, 4, 2], [2, 3, 2], [2, 4, 2], [3, 4, 2]];
    let left_over = [[9; 3]];
    for highest_first in [false, true] {
        let mut out = [[9; 3]; 13];
        let answer = much_in_transit(highest_first).list_in_transit(out.as_flattened_mut());
        assert_eq!(answer, Ok(12));
        assert_eq!(out.to_vec(), [&decisions[..], &round_1, &round_2, &left_over].concat());
    }
}

#[test]
fn a_decision_that_arrives_is_no_close() {
    let text = "open 2 0\nstart 1 1\nstart 2 2\nsend 1 2\nsend 2 1\narrive 2 1 round 1\n";
    let told = "send 1 2\narrive 1 2 decision\n";
    let (bench, closings) = stepped(&(text.to_string() + "close 1\n" + told));
    assert!(bench.processes[1].has_decided());
    assert_eq!(closings[5..], [LastRound, Closing::None, Closing::None]);
    assert_eq!(run(&after(&(text.to_string() + "close 1")), told), Closing::None);
    assert_eq!(run(&after(text), &("close 1\n".to_string() + told)), LastRound);
}

#[test]
fn a_decision_does_not_decide_the_unstarted() {
    let text = "open 2 1\nstart 1 1\nsend 1 2\nstart 2 2\nsend 2 1\narrive 2 1 round 1\narrive 1 2 round 1\n\
                close 1\nclose 2\nsend 1 2\nsend 2 1\narrive 1 2 round 2\nclose 2\nsend 2 1\n";
    let mut bench = after(text);
    bench.processes[0] = reference::Process::UNSTARTED;
    assert_eq!(bench.step(&Record::arrive(2, 1, 0).bytes()), Ok(Closing::None));
    assert_eq!(bench.processes[0], reference::Process::UNSTARTED);
    assert_eq!(bench.in_transit[17], 0);
}
