//! The player's words against the library's answers, on schedules that are known and on random ones.

use gerzulan::{Bench, Closing, Counters, Refusal};
use reference::gen::{self, Rng};
use reference::text;
use std::collections::BTreeSet;
use std::fs;
use std::io::{self, Write};
use std::path::PathBuf;
use std::process::{Command, Stdio};
use tools::play::{self, forms, Error};

fn file(name: &str) -> Vec<u8> {
    let path = PathBuf::from(env!("CARGO_MANIFEST_DIR")).join("..").join(name);
    fs::read(&path).unwrap_or_else(|error| panic!("{}: {error}", path.display()))
}

fn refusals() -> Vec<u8> {
    text::read(&file("examples/schedules/refusals.txt")).and_then(text::encode).unwrap()
}

fn worked() -> Vec<u8> {
    file("crates/simulate/stdin")
}

fn played(bytes: &[u8], all: bool) -> String {
    let mut out = Vec::new();
    play::play(bytes, all, &mut out).unwrap();
    String::from_utf8(out).unwrap()
}

/// A record as it is shown: its number, what is said of it, and the lines of processes below it.
struct Shown {
    number: usize,
    words: String,
    processes: Vec<String>,
}

/// The records of an output, up to the blank line after them. A line of a record has its number before its text; one
/// of a process has none and begins deeper, and one that goes on deeper still.
fn shown(output: &str) -> Vec<Shown> {
    let mut records: Vec<Shown> = Vec::new();
    let lines =
        output.lines().skip_while(|line| !line.is_empty()).skip(1).take_while(|line| !line.is_empty());
    for line in lines {
        let (first, rest) = line.trim_start().split_once(' ').unwrap_or((line.trim_start(), ""));
        let margin = line.len() - line.trim_start().len();
        match (first.parse(), records.last_mut()) {
            (Ok(number), _) if margin < 6 => {
                records.push(Shown { number, words: rest.trim_start().into(), processes: vec![] })
            }
            (_, Some(record)) if first == "process" && margin < 9 => {
                record.processes.push(line.trim_start().into())
            }
            (_, Some(record)) => {
                let all = record.processes.last_mut().unwrap_or(&mut record.words);
                *all += " ";
                *all += line.trim_start();
            }
            (_, None) => panic!("{line}"),
        }
    }
    records
}

/// The number of the refusal that is shown, or 0.
fn answer(record: &Shown) -> u32 {
    let refused = record.words.split_once("refused by ").map(|(_, rest)| rest.split_once(':').unwrap().0);
    refused.map_or(0, |number| number.parse().unwrap())
}

/// What the library answers to each record, and the bench and tally that it comes to.
fn answers(bytes: &[u8]) -> (Vec<u32>, Bench, Counters) {
    let mut bench = Bench::open(bytes[1], bytes[2]).unwrap();
    let mut tally = Counters::default();
    let step = |record: &[u8]| bench.step(record, &mut tally).err().map_or(0, Refusal::number);
    let answers = bytes[8..].chunks(8).map(step).collect();
    (answers, bench, tally)
}

/// The rows of the last table: an entry a column.
fn entries(output: &str) -> Vec<Vec<&str>> {
    let table = output.rsplit_once("\nentries ").unwrap().1;
    table.lines().skip(1).map(|row| row.split_whitespace().skip(2).collect()).collect()
}

/// Every answer, the tally, the entries and the lines of processes are the library's.
fn check(bytes: &[u8]) -> BTreeSet<u32> {
    let output = played(bytes, false);
    let records = shown(&output);
    let (answers, bench, tally) = answers(bytes);
    assert_eq!(records.iter().map(answer).collect::<Vec<_>>(), answers);
    assert!(records.iter().enumerate().all(|(i, record)| record.number == i + 1));
    assert!(records.iter().all(|record| answer(record) == 0 || record.processes.is_empty()));
    let Counters { accepted, refused, crashes } = tally;
    assert!(
        output.contains(&format!("\naccepted {accepted}, refused {refused}, crashed {crashes}")),
        "{output}"
    );
    check_entries(&output, &bench);
    check_words(&output);
    assert!(bench.n > 8 || output.lines().all(|line| line.len() <= forms::COLUMNS), "{output}");
    answers.into_iter().collect()
}

fn check_entries(output: &str, bench: &Bench) {
    let rows = entries(output);
    assert_eq!(rows.len(), bench.n as usize);
    for (number, row) in (1..).zip(rows) {
        let data = bench.global_data(number).unwrap_or(bench.process(number).unwrap().estimate);
        let entry = |of| data.entry(of).map_or("-".into(), |value| value.to_string());
        assert_eq!(row, (1..=bench.n).map(entry).collect::<Vec<String>>());
    }
}

/// Nothing is left without words of its own, and no list that explains is empty.
fn check_words(output: &str) {
    for record in shown(output) {
        let words = &record.words;
        assert!(
            !words.ends_with("accepted") && !words.contains("none:") && !words.ends_with(" none"),
            "{words}"
        );
        assert!(!words.ends_with(": ") && !words.ends_with(':'), "{words}");
        let general =
            [Refusal::Field, Refusal::NotDue, Refusal::Waiting, Refusal::Crashed].map(Refusal::text);
        assert!(general.iter().all(|text| !words.contains(text)), "{words}");
    }
}

/// The numbers in the comments of the schedule are those of the library, and all that a record can have.
#[test]
fn each_refusal() {
    let source = String::from_utf8(file("examples/schedules/refusals.txt")).unwrap();
    let records = source.lines().filter(|line| !text::words(line).is_empty()).skip(1);
    let comment = |line: &str| line.split_once('#').map_or("", |(_, comment)| comment).trim().to_string();
    let number =
        |line: &str| comment(line).split_once(':').map_or(0, |(number, _)| number.parse().unwrap_or(0));
    let expected: Vec<u32> = records.map(number).collect();
    assert_eq!(answers(&refusals()).0, expected);
    assert_eq!(check(&refusals()), BTreeSet::from([0, 3, 4, 5, 6, 7, 8, 9, 15]));
}

/// Every reason of the schedule of refusals, in its order.
const REASONS: &str = "7: process 1 has not started
7: process 1 has not started, and owes nothing
7: the estimate is not in transit: 1 has not opened round 1
7: the decision is not in transit: 1 has not decided
7: process 3 has not crashed, and may not be suspected
15: 9 diet portions cannot be among 5 portions
4: kind 0 opens a schedule: only the first record may have it
4: its kind is 7, and kinds are 1 to 6
5: its process is 0, and processes are 1 to 3
5: its process is 4, and processes are 1 to 3
5: its sender is 4, and processes are 1 to 3
5: its receiver is 4, and processes are 1 to 3
5: its suspected process is 4, and processes are 1 to 3
5: sender and receiver are both 1
5: process 1 cannot suspect itself
5: its round is 3, and the last one is 2
5: a start does not use b, which must be 0
5: a close does not use r, which must be 0
5: a crash does not use the value, which must be 0
7: process 1 has started already
7: process 1 still owes its estimate to 2 and 3
7: the estimate is not in transit: 1 has not sent it
7: process 1 owes nothing to 2, only to 3
7: the estimate is not in transit: it has arrived already
6: process 3 has crashed
6: process 3 has crashed
9: process 3 has crashed, and no other may
6: process 3, at which it is to arrive, has crashed
8: process 1 waits for 2 and 3: no estimate of round 1, no suspicion
8: process 1 waits for 3: no estimate of round 1, no suspicion
7: process 1 suspects 3 already
7: process 1 has decided, and has no round to close
7: the decision is not in transit: 1 has not sent it
7: process 1 owes nothing to 3, only to 2
7: the decision is not in transit: it arrived before or was never sent
7: process 2 has decided, and has no round to close
7: process 2 owes nothing to 1, nor to anybody else
3: a record has 8 bytes, and this one has 7";

#[test]
fn reasons() {
    let output = played(&refusals(), false);
    let records = shown(&output);
    let reason =
        |record: &Shown| record.words.split_once("refused by ").map(|(_, reason)| reason.to_string());
    let reasons: Vec<String> = records.iter().filter_map(reason).collect();
    assert_eq!(reasons.join("\n"), REASONS);
}

#[test]
fn the_worked_schedule() {
    assert_eq!(check(&worked()), BTreeSet::from([0, 8]));
    let output = played(&worked(), false);
    let words: Vec<String> = shown(&output).into_iter().map(|record| record.words).collect();
    let has = |number: usize, part: &str| assert!(words[number - 1].contains(part), "{}", words[number - 1]);
    has(1, "process 1 starts with 40 portions, none of them diet, and opens round 1");
    has(3, "the estimate of 1 for round 1 is in transit to 2");
    has(5, "process 2 receives the estimate of 1 for round 1: 40/0 -");
    has(7, "process 1 goes on to round 2: the estimates of 1 and 2 differ from its new one");
    has(8, "process 2 crashes in round 1");
    has(9, "in transit to 2, which has crashed");
    has(10, "refused by 8: process 1 waits for 2: no estimate of round 2, no suspicion");
    has(11, "process 1 is told that 2 has crashed, and suspects it");
    has(12, "process 1 decides: round 2 is the last one, t + 1");
    assert_eq!(entries(&output), [["40/0", "25/0"], ["-", "25/0"]]);
    assert!(output.contains("\nrefused by 8, once: the close still waits for an arrival or a suspicion\n"));
}

/// With `all` each accepted record shows every process, and else those that it changed.
#[test]
fn every_process() {
    for record in shown(&played(&worked(), true)) {
        assert_eq!(record.processes.len(), if answer(&record) == 0 { 2 } else { 0 });
    }
    let bytes = refusals();
    let mut bench = Bench::open(bytes[1], bytes[2]).unwrap();
    for (record, bytes) in shown(&played(&bytes, false)).iter().zip(bytes[8..].chunks(8)) {
        let before = bench.clone();
        let _ = bench.step(bytes, &mut Counters::default());
        let changed = |&number: &u8| {
            let crashed = before.has_crashed(number) != bench.has_crashed(number);
            crashed || before.process(number) != bench.process(number)
        };
        let named: Vec<String> =
            (1..=bench.n).filter(changed).map(|number| format!("process {number} ")).collect();
        assert_eq!(record.processes.len(), named.len());
        assert!(record.processes.iter().zip(&named).all(|(line, name)| line.starts_with(name)));
    }
}

fn with_opening(n: u8, t: u8, records: Vec<u8>) -> Vec<u8> {
    [vec![0, n, t, 0, 0, 0, 0, 0], records].concat()
}

/// Whole schedules of every size, and schedules in which a third of the records are doubtful.
#[test]
fn random_schedules() {
    let mut met = BTreeSet::new();
    for (n, t) in gen::sizes() {
        for seed in 0..3 {
            met.extend(check(&with_opening(n, t, gen::schedule(n, t, seed, 0))));
            met.extend(check(&with_opening(n, t, gen::schedule(n, t, seed, 33))));
        }
    }
    assert_eq!(met, BTreeSet::from([0, 3, 4, 5, 6, 7, 8, 9]));
}

/// Random bytes after an opening record: small ones, which are often nearly records, and any.
#[test]
fn garbage() {
    let mut rng = Rng::new(1);
    for limit in [4, 8, 20, 256] {
        for (n, t) in [(1, 0), (2, 1), (8, 7), (16, 15)] {
            let bytes = (0..4001).map(|_| rng.below(limit) as u8).collect();
            check(&with_opening(n, t, bytes));
        }
    }
}

/// Of a close that opens a round the grounds are told; of one that decides, which of the two it is.
#[test]
fn each_closing() {
    let mut met = [0; 5];
    for (n, t) in [(2, 1), (3, 1), (4, 3), (6, 5)] {
        for seed in 0..40 {
            let output = played(&with_opening(n, t, gen::schedule(n, t, seed, 0)), false);
            let parts = [
                "goes on to round",
                "it heard from",
                "from its new one",
                "brought equal estimates",
                "is the last one, t + 1",
            ];
            for record in shown(&output).iter().filter(|record| record.words.starts_with("close ")) {
                let found = parts.map(|part| record.words.contains(part));
                assert!(found[0] as u8 + found[3] as u8 + found[4] as u8 == 1, "{}", record.words);
                assert!(!found[0] || found[1] || found[2], "{}", record.words);
                met.iter_mut().zip(found).for_each(|(met, found)| *met += found as usize);
            }
        }
    }
    assert!(met.iter().all(|&times| times > 0), "{met:?}");
}

/// The processes of a list such as `1 to 3 and 5`, which stands between two other parts of a sentence.
fn named(words: &str, before: &str, after: &str) -> Option<u16> {
    let (_, rest) = words.split_once(before)?;
    let (list, _) = rest.split_once(after)?;
    let mut members = 0;
    for part in list.replace(" and ", ", ").split(", ") {
        let (first, last) = part.split_once(" to ").unwrap_or((part, part));
        (first.parse::<u8>().unwrap()..=last.parse().unwrap())
            .for_each(|number| members |= forms::bit(number));
    }
    Some(members)
}

/// The answer to a record on a bench that stays.
fn tried(bench: &Bench, record: &[u8]) -> Result<Option<Closing>, Refusal> {
    bench.clone().step(record, &mut Counters::default())
}

/// Gives each record that is shown, its bytes and the bench before it.
fn along(bytes: &[u8], mut look: impl FnMut(&Shown, &[u8], &Bench)) {
    let mut bench = Bench::open(bytes[1], bytes[2]).unwrap();
    for (record, bytes) in shown(&played(bytes, false)).iter().zip(bytes[8..].chunks(8)) {
        look(record, bytes, &bench);
        let _ = bench.step(bytes, &mut Counters::default());
    }
}

/// A close that waits would be accepted if those named, and no fewer, were suspected.
fn check_waits(words: &str, close: &[u8], bench: &Bench) {
    let missing = named(words, " waits for ", ": no estimate").unwrap();
    let suspecting = |set: u16| {
        let mut bench = bench.clone();
        bench.processes[close[1] as usize - 1].suspected |= set;
        tried(&bench, close)
    };
    assert!(suspecting(missing).is_ok(), "{words}");
    for one in forms::numbers(missing) {
        assert_eq!(suspecting(missing & !forms::bit(one)), Err(Refusal::Waiting), "{words}");
    }
}

/// A close of one that owes is no longer refused by 7 once it has sent to those named, and no fewer.
fn check_owes(words: &str, close: &[u8], bench: &Bench) {
    let owed = named(&format!("{words}."), " owes its estimate to ", ".").unwrap();
    let mut bench = bench.clone();
    for other in forms::numbers(owed) {
        assert_eq!(tried(&bench, close), Err(Refusal::NotDue), "{words}");
        assert_eq!(
            bench.step(&[2, close[1], other, 0, 0, 0, 0, 0], &mut Counters::default()),
            Ok(None),
            "{words}"
        );
    }
    assert_ne!(tried(&bench, close), Err(Refusal::NotDue), "{words}");
}

/// A close that goes on would decide without the grounds that are told, and not with one of them left.
fn check_grounds(words: &str, close: &[u8], bench: &Bench) {
    let place = close[1] as usize - 1;
    let round = bench.processes[place].round as usize;
    let mut after = bench.clone();
    after.step(close, &mut Counters::default()).unwrap();
    let (new, heard) = (after.processes[place].estimate, after.processes[place].current);
    let sets = words.contains("it heard from ");
    let plural = named(words, "the estimates of ", " differ");
    let different = plural.or(named(words, "the estimate of ", " differs")).unwrap_or(0);
    assert!(!sets || named(words, "it heard from ", ", and ") == Some(heard), "{words}");
    let without = |sets: bool, different: u16| {
        let mut bench = bench.clone();
        for other in forms::numbers(different) {
            bench.sent[(other as usize - 1) * 16 + round - 1] = new;
        }
        if different & forms::bit(close[1]) != 0 {
            bench.processes[place].estimate = new;
        }
        if sets {
            bench.processes[place].previous = heard;
        }
        tried(&bench, close)
    };
    assert_eq!(without(sets, different), Ok(Some(Closing::Agreed)), "{words}");
    assert!(!sets || without(false, different) == Ok(Some(Closing::NextRound)), "{words}");
    for one in forms::numbers(different) {
        assert_eq!(without(sets, different & !forms::bit(one)), Ok(Some(Closing::NextRound)), "{words}");
    }
}

/// What is told of a close is so: the library answers otherwise on a bench where just that is changed.
#[test]
fn what_is_told_of_closes() {
    let (mut waits, mut owes, mut grounds) = (0, 0, 0);
    let mut look = |record: &Shown, close: &[u8], bench: &Bench| {
        let words = &record.words;
        let met = |part: &str, times: &mut usize, check: fn(&str, &[u8], &Bench)| {
            if words.contains(part) {
                check(words, close, bench);
                *times += 1;
            }
        };
        met(" waits for ", &mut waits, check_waits);
        met(" still owes ", &mut owes, check_owes);
        met(" goes on to ", &mut grounds, check_grounds);
    };
    let sizes = [(2, 1), (3, 1), (3, 2), (5, 4), (9, 8), (16, 15)];
    let schedules = sizes.into_iter().flat_map(|(n, t)| (0..8).map(move |seed| (n, t, seed)));
    for (n, t, seed) in schedules {
        along(&with_closes(&with_opening(n, t, gen::schedule(n, t, seed, 0))), &mut look);
    }
    assert!(waits > 100 && owes > 100 && grounds > 100, "{waits} {owes} {grounds}");
}

/// The schedule with a close of some process after each record, mostly refused.
fn with_closes(bytes: &[u8]) -> Vec<u8> {
    let mut rng = Rng::new(bytes.len() as u64);
    let close = |record: &[u8]| {
        let number = 1 + rng.below(bytes[1] as usize) as u8;
        [record, &[4, number, 0, 0, 0, 0, 0, 0]].concat()
    };
    let records: Vec<Vec<u8>> = bytes.chunks(8).map(close).collect();
    records.concat()
}

#[test]
fn a_bad_opening_record() {
    for bytes in
        [&[][..], &[0, 2], &[1, 2, 1, 0, 0, 0, 0, 0], &[0, 2, 1, 1, 0, 0, 0, 0], &[0, 2, 2, 0, 0, 0, 0, 0]]
    {
        let mut out = Vec::new();
        let Err(Error::Opening(reason)) = play::play(bytes, false, &mut out) else { panic!("{bytes:?}") };
        assert!(reason.starts_with("the opening record is refused by ") && out.is_empty(), "{reason}");
    }
}

/// Takes so many bytes, then fails.
struct Full(usize);

impl Write for Full {
    fn write(&mut self, bytes: &[u8]) -> io::Result<usize> {
        if self.0 == 0 {
            return Err(io::ErrorKind::StorageFull.into());
        }
        let taken = bytes.len().min(self.0);
        self.0 -= taken;
        Ok(taken)
    }

    fn flush(&mut self) -> io::Result<()> {
        Ok(())
    }
}

#[test]
fn a_failed_write() {
    let whole = played(&worked(), false).len();
    for room in 0..whole {
        assert!(matches!(play::play(&worked(), false, &mut Full(room)), Err(Error::Write(_))), "{room}");
    }
    assert!(play::play(&worked(), false, &mut Full(whole)).is_ok());
}

/// The program, in the repository's folder: whether it succeeded, and its two outputs.
fn program(arguments: &[&str], input: &[u8]) -> (bool, String, String) {
    let folder = PathBuf::from(env!("CARGO_MANIFEST_DIR")).join("..");
    let mut command = Command::new(env!("CARGO_BIN_EXE_play"));
    command
        .args(arguments)
        .current_dir(folder)
        .stdin(Stdio::piped())
        .stdout(Stdio::piped())
        .stderr(Stdio::piped());
    let mut child = command.spawn().unwrap();
    // A program that reads no input may be gone by then.
    let _ = child.stdin.take().unwrap().write_all(input);
    let output = child.wait_with_output().unwrap();
    let text = |bytes| String::from_utf8(bytes).unwrap();
    (output.status.success(), text(output.stdout), text(output.stderr))
}

#[test]
fn the_program() {
    let (schedule, text) = ("crates/simulate/stdin", "examples/schedules/refusals.txt");
    let good = |arguments: &[&str], input: &[u8], output: String| {
        assert_eq!(program(arguments, input), (true, output, String::new()), "{arguments:?}");
    };
    good(&["--schedule", schedule], b"", played(&worked(), false));
    good(&["--schedule", "-", "--all"], &worked(), played(&worked(), true));
    good(&["--all", "--text", text], b"", played(&refusals(), true));
    good(&["--text", "-"], &file(text), played(&refusals(), false));
    good(&["--text", "-"], b"\xef\xbb\xbfopen 1 0", played(&[0, 1, 0, 0, 0, 0, 0, 0], false));
    assert!(program(&["--help"], b"").1.starts_with("usage: play "));
}

#[test]
fn the_program_refuses() {
    let (schedule, text) = ("crates/simulate/stdin", "examples/schedules/refusals.txt");
    let bad = |arguments: &[&str], input: &[u8], reason: &str| {
        assert_eq!(
            program(arguments, input),
            (false, String::new(), format!("play: {reason}\n")),
            "{arguments:?}"
        );
    };
    let swapped = |name: &str, is: &str, by: &str| format!("{name} is {is}: give it as {by}");
    bad(&["--schedule", text], b"", &swapped(text, "text, not bytes", &format!("TEXT={text} (--text)")));
    let by = format!("SCHEDULE={schedule} (--schedule)");
    bad(&["--text", schedule], b"", &swapped(schedule, "bytes, not text", &by));
    bad(&["--schedule", "-"], b"", "standard input is empty: a schedule begins with an opening record");
    bad(
        &["--text", "-"],
        b"# none\n",
        "standard input has no records: a schedule begins with an opening record",
    );
    bad(&["--text", "-"], b"open 2 1\nclose\n", "standard input: line 2: expected: close A");
    bad(&["--text", "docs"], b"", "docs is a directory, not a file");
    bad(&["--text", "docs/none"], b"", "there is no file docs/none");
    bad(
        &["--schedule", "-"],
        &[0, 2, 1],
        "the opening record is refused by 3: a record has 8 bytes, and this one has 3",
    );
    let usage = "usage: play --schedule FILE | --text FILE [--all]";
    for arguments in
        [&[][..], &["--text"], &["--bytes", text], &["--text", text, "more"], &["--text", text, "--all", "x"]]
    {
        bad(arguments, b"", usage);
    }
}

/// The output is short, so that only the last write can fail.
#[test]
fn the_program_on_a_full_disk() {
    let Ok(full) = fs::OpenOptions::new().write(true).open("/dev/full") else { return };
    let schedule = PathBuf::from(env!("CARGO_MANIFEST_DIR")).join("../crates/simulate/stdin");
    let mut command = Command::new(env!("CARGO_BIN_EXE_play"));
    let output = command.arg("--schedule").arg(schedule).stdout(full).output().unwrap();
    let reason = String::from_utf8(output.stderr).unwrap();
    assert_eq!(output.status.code(), Some(1));
    assert!(
        reason.starts_with("play: the output cannot be written: ") && reason.lines().count() == 1,
        "{reason}"
    );
}
