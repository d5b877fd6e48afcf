//! The calendar: its rules one by one, and random calendars against the rule said a second time.

use reference::calendar::{week, Entry, Kind, Week, RECORD};
use reference::calendar_text::encode;
use reference::calendars::{self, Case, Given, Met, LAST_WEEK};
use reference::gen::Rng;
use reference::Refusal;
use std::io::Write;
use std::process::{Command, Stdio};

fn entry(site: u8, kind: Kind, first: u16, last: u16) -> [u8; RECORD] {
    Entry { site, kind, first, last }.bytes()
}

fn term(site: u8, first: u16, last: u16) -> [u8; RECORD] {
    entry(site, Kind::Term, first, last)
}

fn closed(site: u8, first: u16, last: u16) -> [u8; RECORD] {
    entry(site, Kind::Closed, first, last)
}

/// The sites of a week in the order of their processes, or the number of the refusal. Both numberings are checked.
fn sites(records: &[[u8; RECORD]], number: u16) -> Result<Vec<u8>, u8> {
    let bench = week(&records.concat(), number).map_err(Refusal::number)?;
    check_numbering(&bench);
    Ok(bench.site_of[..bench.n as usize].to_vec())
}

/// The sites rise, each way is the other's inverse, and all else is 0.
fn check_numbering(bench: &Week) {
    let n = bench.n as usize;
    let (used, rest) = bench.site_of.split_at(n);
    assert!((1..=16).contains(&n) && used[0] >= 1 && used[n - 1] <= 16, "{bench:?}");
    assert!(used.windows(2).all(|two| two[0] < two[1]), "{bench:?}");
    assert!(rest.iter().all(|&site| site == 0), "{bench:?}");
    for site in 1..=16u8 {
        let process = used.iter().position(|&other| other == site).map_or(0, |i| i + 1);
        assert_eq!(bench.process_of[site as usize - 1] as usize, process, "{bench:?}");
    }
}

fn given(calendar: &[u8], number: u16) -> Given {
    week(calendar, number).map(|bench| bench.bytes()).map_err(Refusal::number)
}

#[test]
fn all_bytes_of_a_week() {
    let records = [term(7, 0, 99), term(3, 7, 11), term(16, 11, 11), closed(7, 14, 20)];
    let bench = week(&records.concat(), 1).unwrap();
    assert_eq!(bench.n, 3);
    assert_eq!(bench.process_of, [0, 0, 1, 0, 0, 0, 2, 0, 0, 0, 0, 0, 0, 0, 0, 3]);
    assert_eq!(bench.site_of, [3, 7, 16, 0, 0, 0, 0, 0, 0, 0, 0, 0, 0, 0, 0, 0]);
    let bytes = bench.bytes();
    assert_eq!((bytes[0], &bytes[1..17], &bytes[17..]), (3, &bench.process_of[..], &bench.site_of[..]));
    assert_eq!(sites(&records, 0), Ok(vec![7]));
    assert_eq!(sites(&records, 2), Err(14));
    assert_eq!(sites(&records, 3), Ok(vec![7]));
}

/// The bytes as they stand: low byte first.
#[test]
fn a_record_by_its_bytes() {
    let record = [5, 1, 0x06, 0x01, 0x07, 0x01, 0, 0];
    assert_eq!(record, term(5, 262, 263));
    // 262 is 7 * 37 + 3, a Thursday.
    assert_eq!(sites(&[record], 37), Ok(vec![5]));
    assert_eq!(sites(&[record], 36), Err(14));
    assert_eq!(sites(&[record], 38), Err(14));
    assert_eq!(Entry::read(&record), Ok(Entry { site: 5, kind: Kind::Term, first: 262, last: 263 }));
}

/// A term of any one day is of that day's week alone, and of none if it is a Saturday or a Sunday.
#[test]
fn a_term_of_one_day() {
    for day in 0..=u16::MAX {
        let answer = if day % 7 < 5 { Ok(vec![9]) } else { Err(14) };
        let (record, own) = ([term(9, day, day)], day / 7);
        assert_eq!(sites(&record, own), answer, "day {day}");
        // The neighbours, and weeks whose days come round to these at 16 bits.
        for other in [own.wrapping_sub(1), own + 1, own + 9362, own + 9363, own + 18724, own + 18725] {
            assert_eq!(sites(&record, other), Err(14), "day {day}, week {other}");
        }
    }
}

/// The same of a closed day.
#[test]
fn a_closed_day() {
    for day in 7..14 {
        for open in 7..14 {
            let records = [term(2, open, open), closed(2, day, day)];
            let answer = if open % 7 < 5 && day != open { Ok(vec![2]) } else { Err(14) };
            assert_eq!(sites(&records, 1), answer, "term {open}, closed {day}");
        }
    }
}

#[test]
fn working_days_count_alone() {
    assert_eq!(sites(&[term(1, 11, 11)], 1), Ok(vec![1]), "Friday");
    assert_eq!(sites(&[term(1, 11, 13)], 1), Ok(vec![1]), "Friday to Sunday");
    assert_eq!(sites(&[term(1, 12, 13)], 1), Err(14), "Saturday and Sunday");
    assert_eq!(sites(&[term(1, 12, 14)], 1), Err(14), "Saturday to Monday");
    assert_eq!(sites(&[term(1, 12, 14)], 2), Ok(vec![1]), "Saturday to Monday");
    for week in 0..4 {
        let records = [term(1, 0, 27), term(4, 7, 20), closed(1, 12, 13), closed(4, 12, 13)];
        let answer = if matches!(week, 1 | 2) { vec![1, 4] } else { vec![1] };
        assert_eq!(sites(&records, week), Ok(answer.clone()), "closed on the weekend");
        assert_eq!(sites(&records[..2], week), Ok(answer));
    }
}

#[test]
fn closed_days_shut() {
    // Whichever comes first.
    for all_week in [[term(3, 0, 30), closed(3, 7, 11)], [closed(3, 7, 11), term(3, 0, 30)]] {
        assert_eq!([0, 1, 2].map(|week| sites(&all_week, week)), [Ok(vec![3]), Err(14), Ok(vec![3])]);
    }
    for open in 7..=11 {
        // All but one day, in one piece or two.
        let mut records = vec![term(3, 0, 30)];
        records.extend((open > 7).then(|| closed(3, 0, open - 1)));
        records.extend((open < 11).then(|| closed(3, open + 1, 30)));
        assert_eq!(sites(&records, 1), Ok(vec![3]), "{open}");
        records.push(closed(3, open, open));
        assert_eq!(sites(&records, 1), Err(14), "{open}");
        records.push(term(3, open, open));
        assert_eq!(sites(&records, 1), Err(14), "a term does not open a closed day: {open}");
    }
    assert_eq!(sites(&[term(3, 7, 8), term(3, 10, 11), closed(3, 7, 8), closed(3, 10, 11)], 1), Err(14));
    assert_eq!(sites(&[closed(3, 7, 11)], 1), Err(14), "closed without a term");
}

#[test]
fn records_are_of_their_own_site() {
    for other in (1..=16).filter(|&site| site != 6) {
        assert_eq!(sites(&[term(6, 0, 4), closed(other, 0, 4)], 0), Ok(vec![6]));
        let mut both = vec![6, other];
        both.sort();
        assert_eq!(sites(&[term(6, 0, 4), term(other, 0, 4)], 0), Ok(both));
    }
}

/// Every set of sites, as terms in falling order.
#[test]
fn every_set_of_sites() {
    for set in 1..=u16::MAX {
        let members: Vec<u8> = (1..=16).filter(|site| set >> (site - 1) & 1 == 1).collect();
        let records: Vec<_> = members.iter().rev().map(|&site| term(site, 0, 6)).collect();
        assert_eq!(sites(&records, 0), Ok(members));
    }
}

#[test]
fn no_site_is_14() {
    for number in [0, 1, LAST_WEEK, LAST_WEEK + 1, u16::MAX] {
        assert_eq!(week(&[], number), Err(Refusal::NoSite));
    }
    assert_eq!(Refusal::NoSite.number(), 14);
    assert_eq!(Refusal::Calendar.number(), 13);
}

/// Day 65,535 is a Tuesday: two days of week 9,362 are left, and none of any later week.
#[test]
fn weeks_past_the_last_day() {
    let ever = [term(8, 0, u16::MAX)];
    for number in 0..=u16::MAX {
        let answer = if number <= 9362 { Ok(vec![8]) } else { Err(14) };
        assert_eq!(sites(&ever, number), answer, "week {number}");
    }
    assert_eq!(sites(&[term(8, 0, 65_533)], 9362), Err(14));
    assert_eq!(sites(&[term(8, 65_534, 65_534)], 9362), Ok(vec![8]));
    assert_eq!(sites(&[term(8, 65_535, 65_535)], 9362), Ok(vec![8]));
    assert_eq!(sites(&[term(8, 0, u16::MAX), closed(8, 65_534, 65_535)], 9362), Err(14));
    assert_eq!(sites(&[term(8, 0, 2)], 9362), Err(14), "its Wednesday is not day 0");
}

/// Records with one fault each.
fn faulty_records() -> Vec<[u8; RECORD]> {
    let good = term(4, 7, 11);
    let with = |place: usize, byte: u8| {
        let mut record = good;
        record[place] = byte;
        record
    };
    let mut records: Vec<_> =
        (0..=255).filter(|site| !(1..=16).contains(site)).map(|site| with(0, site)).collect();
    records.extend((0..=255).filter(|kind| !(1..=2).contains(kind)).map(|kind| with(1, kind)));
    records.extend((1..=255).flat_map(|byte| [with(6, byte), with(7, byte)]));
    records.extend((1..=255).map(|byte| [4, 1, 7, 0, 11, 0, byte, byte]));
    records.extend((1..=u16::MAX).flat_map(|day| [term(4, day, day - 1), closed(4, u16::MAX, day - 1)]));
    records.extend((0..256).map(|last| term(4, 256, last)));
    records
}

#[test]
fn each_fault_alone_is_13() {
    let good = term(4, 7, 11);
    for record in faulty_records() {
        assert!(Entry::read(&record).is_err());
        for records in [vec![record], vec![record, good], vec![good, record], vec![good, record, good]] {
            for number in [1, 2, u16::MAX] {
                assert_eq!(sites(&records, number), Err(13), "{record:?}");
            }
        }
    }
}

#[test]
fn a_partial_record_is_13() {
    let good = [term(4, 7, 11), term(5, 7, 11), closed(5, 7, 11)].concat();
    for length in 0..=good.len() {
        let answer = match (length % RECORD, length) {
            (0, 0) => Err(14),
            (0, _) => Ok(length.min(16) / RECORD).map(|n| if length == 24 { 1 } else { n }),
            _ => Err(13),
        };
        let n = given(&good[..length], 1).map(|bytes| bytes[0] as usize);
        assert_eq!(n, answer, "{length} bytes");
        // Also where all bytes are 0, and in a week in which nothing lies.
        if length % RECORD != 0 {
            assert_eq!(given(&good[..length], 500), Err(13));
            assert_eq!(given(&vec![0; length], 1), Err(13));
        }
    }
}

/// 13 is told before 14, whichever site, week or place the faulty record is of.
#[test]
fn thirteen_before_fourteen() {
    let elsewhere = [term(4, 700, 799), closed(4, 0, 50), term(9, 5, 6)];
    assert_eq!(sites(&elsewhere, 1), Err(14));
    for fault in [term(0, 7, 11), term(17, 900, 901), closed(9, 8, 7), term(12, 60_000, 50_000)] {
        for place in 0..=elsewhere.len() {
            let mut records = elsewhere.to_vec();
            records.insert(place, fault);
            assert_eq!([0, 1, 100, u16::MAX].map(|week| sites(&records, week)), [const { Err(13) }; 4]);
        }
        assert_eq!(sites(&[fault], 1), Err(13));
    }
}

/// A faulty record is refused also where all sites take part without it.
#[test]
fn a_fault_among_sixteen() {
    let all: Vec<_> = (1..=16).map(|site| term(site, 0, u16::MAX)).collect();
    assert_eq!(sites(&all, 1), Ok((1..=16).collect()));
    for place in 0..=16 {
        let mut records = all.clone();
        records.insert(place, closed(16, 9, 8));
        assert_eq!(sites(&records, 1), Err(13), "place {place}");
    }
}

/// Every term and every closed record in two weeks.
#[test]
fn every_term_and_closed_record_in_two_weeks() {
    let spans = || (0..14).flat_map(|first| (first..14).map(move |last| (first, last)));
    for (first, last) in spans() {
        for (shut, to) in spans() {
            let calendar = [term(1, first, last), closed(1, shut, to), term(2, shut, to)].concat();
            for number in 0..2 {
                let case = Case::new(&calendar, number);
                case.check(&given(&calendar, number))
                    .unwrap_or_else(|broken| panic!("{calendar:?}, {broken}"));
            }
        }
    }
}

const SEED: u64 = 1;
const CALENDARS: u64 = 60_000;

/// Random calendars against the rule, which scans all records for every site and day.
#[test]
fn calendars_by_the_rule() {
    let (mut rng, mut met) = (Rng::new(SEED ^ 0xca1e_da12), Met::default());
    for i in 0..CALENDARS {
        let number = calendars::any_week(&mut rng);
        let calendar = calendars::any(&mut rng, number);
        let case = Case::new(&calendar, number);
        let broken = |broken| panic!("seed {SEED}, calendar {i}, {broken}");
        case.check(&given(&calendar, number)).unwrap_or_else(broken);
        if let Ok(bench) = week(&calendar, number) {
            check_numbering(&bench);
        }
        met.count(&case);
    }
    println!("{}", met.report());
    assert!(met.missing().is_empty(), "calendars not met: {:?}", met.missing());
}

/// Other orders, and records that come twice, change nothing.
#[test]
fn order_and_repetition_change_nothing() {
    let mut rng = Rng::new(SEED ^ 0x0de5);
    let mut met = [0; 2];
    for i in 0..5000 {
        let number = calendars::any_week(&mut rng);
        let calendar = calendars::without_fault(&mut rng, number);
        let answer = given(&calendar, number);
        let mut records: Vec<&[u8]> = calendar.chunks(RECORD).collect();
        records.reverse();
        assert_eq!(given(&records.concat(), number), answer, "calendar {i}");
        records.sort();
        assert_eq!(given(&records.concat(), number), answer, "calendar {i}");
        assert_eq!(given(&[&records[..], &records[..]].concat().concat(), number), answer, "calendar {i}");
        records.dedup();
        assert_eq!(given(&records.concat(), number), answer, "calendar {i}");
        met[usize::from(answer.is_ok())] += 1;
    }
    assert!(!met.contains(&0), "{met:?}");
}

/// The tool: whether it succeeds, what it writes, and what it says.
fn tool(words: &[&str], input: &[u8]) -> (bool, Vec<u8>, String) {
    let mut command = Command::new(env!("CARGO_BIN_EXE_calendar"));
    command.args(words).stdin(Stdio::piped()).stdout(Stdio::piped()).stderr(Stdio::piped());
    let mut child = command.spawn().expect("it starts");
    // It need not read what it has no use for.
    let _ = child.stdin.take().expect("it is piped").write_all(input);
    let done = child.wait_with_output().expect("it ends");
    (done.status.success(), done.stdout, String::from_utf8(done.stderr).expect("it is text"))
}

#[test]
fn the_tool() {
    let text = "term 3 2024-01-08 2024-02-09\nclosed 3 2024-02-05 2024-02-09\n";
    let bytes = encode(text).unwrap();
    let good = |output: &[u8]| (true, output.to_vec(), String::new());
    let bad = |reason: &str| (false, vec![], format!("calendar: {reason}\n"));
    assert_eq!(tool(&["encode"], text.as_bytes()), good(&bytes));
    assert_eq!(tool(&["decode"], &bytes), good(text.as_bytes()));
    let week = b"week 4, 2024-01-29 to 2024-02-04: n 1\nprocess 1: site 3\n";
    assert_eq!(tool(&["week", "4"], &bytes), good(week));
    assert_eq!(tool(&["week", "2024-01-31"], &bytes), good(week));
    let shut = "refusal 14: week 5, 2024-02-05 to 2024-02-11: no site takes part";
    assert_eq!(tool(&["week", "2024-02-09"], &bytes), bad(shut));
    let partial = "record 2: fewer than 8 bytes, in [03, 02, 23]";
    assert_eq!(tool(&["week", "5"], &bytes[..11]), bad(&format!("refusal 13: {partial}")));
    assert_eq!(tool(&["decode"], &bytes[..11]), bad(partial));
    assert_eq!(tool(&["encode"], b"# x\nterm 3"), bad("line 2: expected: term SITE FIRST LAST"));
    assert_eq!(tool(&["encode"], b"# x\n\xff"), bad("line 2: not UTF-8 text"));
    assert_eq!(tool(&["week", "2024-02-30"], &[]), bad("there is no 2024-02-30"));
    assert_eq!(tool(&["week"], &[]), bad("usage: calendar encode|decode|week WEEK < input > output"));
}
