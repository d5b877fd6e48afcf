//! The tools as programs: status, output and what they say, on good and on bad input.

use reference::{calendar_text, text};
use std::ffi::OsStr;
use std::fs::{File, OpenOptions};
use std::io::Write;
use std::os::unix::ffi::OsStrExt;
use std::process::{Child, Command, Output, Stdio};

const SCHEDULE: &str = env!("CARGO_BIN_EXE_schedule");
const CALENDAR: &str = env!("CARGO_BIN_EXE_calendar");
const SIMULATE: &str = env!("CARGO_BIN_EXE_simulate_reference");
const EXPLORE: &str = env!("CARGO_BIN_EXE_explore");
const SPEED: &str = env!("CARGO_BIN_EXE_speed");

const TEXT: &str = "open 2 1\nstart 1 40 3\nstart 2 25\nsend 1 2\nstop 2\nnotice 1 2\n";
const TERMS: &str = "term 3 2024-01-08 2024-02-09\nclosed 3 2024-02-05 2024-02-09\n";

/// Status, output and what it said.
type Ended = (i32, Vec<u8>, String);

fn ended(output: Output) -> Ended {
    let said = String::from_utf8(output.stderr).expect("it is text");
    assert!(!said.contains("panicked"), "{said}");
    (output.status.code().expect("it ends by itself"), output.stdout, said)
}

fn started(command: &mut Command) -> Child {
    command.stdin(Stdio::piped()).stdout(Stdio::piped()).stderr(Stdio::piped());
    command.spawn().expect("it starts")
}

fn tool(program: &str, words: &[&str], input: &[u8]) -> Ended {
    let mut child = started(Command::new(program).args(words));
    // It need not read what it has no use for.
    let _ = child.stdin.take().expect("it is piped").write_all(input);
    ended(child.wait_with_output().expect("it ends"))
}

fn good(output: &[u8]) -> Ended {
    (0, output.to_vec(), String::new())
}

/// Nothing is written, and one line is said.
fn bad(line: &str) -> Ended {
    (1, vec![], format!("{line}\n"))
}

#[test]
fn schedules() {
    let bytes = text::encode(TEXT).unwrap();
    assert_eq!(tool(SCHEDULE, &["encode"], TEXT.as_bytes()), good(&bytes));
    assert_eq!(tool(SCHEDULE, &["decode"], &bytes), good(TEXT.as_bytes()));
    let marked = ["\u{feff}", TEXT].concat();
    assert_eq!(tool(SCHEDULE, &["encode"], marked.as_bytes()), good(&bytes));
    let others = TEXT.replace("stop", "crash").replace("notice", "suspect");
    assert_ne!(others, TEXT);
    assert_eq!(tool(SCHEDULE, &["encode"], others.as_bytes()), good(&bytes));
    let lines = tool(SCHEDULE, &["encode"], TEXT.replace('\n', "\r\n").as_bytes());
    assert_eq!(lines, good(&bytes));
}

#[test]
fn bad_schedules() {
    let bytes = text::encode(TEXT).unwrap();
    let words = "open, start, send, arrive, close, stop or crash, notice or suspect, bytes";
    let unknown = format!("schedule: line 3: unknown word `leave`; the words are {words}");
    assert_eq!(tool(SCHEDULE, &["encode"], b"# x\nclose 1\nleave 2"), bad(&unknown));
    let upper = "schedule: line 1: unknown word `OPEN`; words are in lower case: `open`";
    assert_eq!(tool(SCHEDULE, &["encode"], b"OPEN 2 1"), bad(upper));
    let empty = bad("schedule: the input is empty");
    assert_eq!(tool(SCHEDULE, &["encode"], b""), empty);
    assert_eq!(tool(SCHEDULE, &["decode"], b""), empty);
    let not_text = "schedule: these are bytes, not text; if they are a schedule, use decode";
    assert_eq!(tool(SCHEDULE, &["encode"], &bytes), bad(not_text));
    let not_bytes = bad("schedule: this is text, not bytes: use encode");
    assert_eq!(tool(SCHEDULE, &["decode"], TEXT.as_bytes()), not_bytes);
    assert_eq!(tool(SCHEDULE, &["decode"], ["\u{feff}", TEXT].concat().as_bytes()), not_bytes);
    let utf_16: Vec<u8> =
        [0xfeff].into_iter().chain(TEXT.encode_utf16()).flat_map(u16::to_le_bytes).collect();
    let named = bad("schedule: line 1: this is UTF-16 text; UTF-8 is due");
    assert_eq!(tool(SCHEDULE, &["encode"], &utf_16), named);
    assert_eq!(tool(SCHEDULE, &["encode"], b"# \xe9\n"), bad("schedule: line 1: not UTF-8 text"));
}

/// Any bytes but text have a text, and their text has those bytes.
#[test]
fn any_bytes() {
    let mut rng = reference::gen::Rng::new(20);
    let garbage: Vec<u8> = (0..100_003).map(|_| rng.draw() as u8).collect();
    let (status, output, said) = tool(SCHEDULE, &["decode"], &garbage);
    assert_eq!((status, said), (0, String::new()));
    assert_eq!(tool(SCHEDULE, &["encode"], &output), good(&garbage));
}

#[test]
fn bad_calendars() {
    let bytes = calendar_text::encode(TERMS).unwrap();
    let marked = ["\u{feff}", TERMS].concat();
    assert_eq!(tool(CALENDAR, &["encode"], marked.as_bytes()), good(&bytes));
    let unknown = "calendar: line 1: unknown word `open`; the words are term, closed";
    assert_eq!(tool(CALENDAR, &["encode"], TEXT.as_bytes()), bad(unknown));
    let upper = "calendar: line 1: unknown word `Closed`; words are in lower case: `closed`";
    assert_eq!(tool(CALENDAR, &["encode"], b"Closed 3"), bad(upper));
    let empty = bad("calendar: the input is empty");
    assert_eq!(tool(CALENDAR, &["encode"], b""), empty);
    assert_eq!(tool(CALENDAR, &["decode"], b""), empty);
    // A calendar without records is one too.
    let nobody = "calendar: refusal 14: week 3, 2024-01-22 to 2024-01-28: no site takes part";
    assert_eq!(tool(CALENDAR, &["week", "3"], b""), bad(nobody));
    let not_text = "calendar: these are bytes, not text; if they are a calendar, use decode";
    assert_eq!(tool(CALENDAR, &["encode"], &bytes), bad(not_text));
    let not_bytes = bad("calendar: this is text, not bytes: use encode");
    assert_eq!(tool(CALENDAR, &["decode"], TERMS.as_bytes()), not_bytes);
    assert_eq!(tool(CALENDAR, &["week", "3"], TERMS.as_bytes()), not_bytes);
    let utf_16 = bad("calendar: line 1: this is UTF-16 text; UTF-8 is due");
    assert_eq!(tool(CALENDAR, &["encode"], b"\xfe\xff\0t\0e\0r\0m"), utf_16);
}

#[test]
fn the_program() {
    assert_eq!(tool(SIMULATE, &[], b""), good(b"0 3\n"));
    assert_eq!(tool(SIMULATE, &[], TEXT.as_bytes()), good(b"0 4\n"));
    let bytes = text::encode(TEXT).unwrap();
    let lines = "1 0\n2 0\n3 0\n4 0\n5 0\nT 1 1 0 0 40/3 -\nT 2 1 1 0 - 25/0\n";
    assert_eq!(tool(SIMULATE, &[], &bytes), good(lines.as_bytes()));
}

const USAGES: [(&str, &str); 5] = [
    (SCHEDULE, "usage: schedule encode|decode < input > output"),
    (CALENDAR, "usage: calendar encode|decode|week WEEK < input > output"),
    (SIMULATE, "usage: simulate_reference < bytes > lines"),
    (EXPLORE, "usage: explore exhaustive [n t] | random [schedules [seed [n t]]]"),
    (SPEED, "usage: speed"),
];

fn name(program: &str) -> &str {
    program.rsplit('/').next().expect("there is a last part")
}

#[test]
fn usages() {
    for (program, usage) in USAGES {
        for words in [&["--help"][..], &["-h"], &["encode", "-h"]] {
            assert_eq!(
                tool(program, words, b""),
                good(format!("{usage}\n").as_bytes()),
                "{program} {words:?}"
            );
        }
        let refused = bad(&format!("{}: {usage}", name(program)));
        for words in [&["nonsense"][..], &["encode", "x"], &["decode", "x", "y"], &[""]] {
            assert_eq!(tool(program, words, b""), refused, "{program} {words:?}");
        }
        let mut no_text = Command::new(program);
        let child = started(no_text.arg(OsStr::from_bytes(b"encode\xff")));
        assert_eq!(ended(child.wait_with_output().unwrap()), refused, "{program}");
    }
    for program in [SCHEDULE, CALENDAR, EXPLORE] {
        assert!(tool(program, &[], b"").2.contains("usage: "));
    }
}

#[test]
fn sizes_of_explore() {
    let usage = USAGES[3].1;
    for (words, reason) in [
        (&["exhaustive", "17", "1"][..], "n `17` is not a number from 1 to 3"),
        (&["exhaustive", "257", "0"], "n `257` is not a number from 1 to 3"),
        (&["exhaustive", "0", "0"], "n `0` is not a number from 1 to 3"),
        (&["exhaustive", "3", "3"], "t `3` is not a number from 0 to 2"),
        (&["exhaustive", "3", "-1"], "t `-1` is not a number from 0 to 2"),
        (&["random", "ten"], "schedules `ten` is not a number from 1 to 1000000"),
        (&["random", "0"], "schedules `0` is not a number from 1 to 1000000"),
        (&["random", "1000001"], "schedules `1000001` is not a number from 1 to 1000000"),
        (&["random", "1", "x"], "seed `x` is not a number from 0 to 18446744073709551615"),
        (&["random", "1", "1", "17", "1"], "n `17` is not a number from 1 to 16"),
        (&["random", "1", "1", "16", "16"], "t `16` is not a number from 0 to 15"),
    ] {
        assert_eq!(tool(EXPLORE, words, b""), bad(&format!("explore: {reason}; {usage}")), "{words:?}");
    }
    let (status, output, _) = tool(EXPLORE, &["exhaustive", "1", "0"], b"");
    assert!(status == 0 && output.starts_with(b"n 1, t 0: "));
}

/// A write that fails is told, with status 1: of a full disk, and of a pipe that nobody reads.
#[test]
fn failed_writes() {
    let (bytes, calendar) = (text::encode(TEXT).unwrap(), calendar_text::encode(TERMS).unwrap());
    for (program, words, input) in [
        (SCHEDULE, &["encode"][..], TEXT.as_bytes()),
        (SCHEDULE, &["decode"], &bytes),
        (CALENDAR, &["encode"], TERMS.as_bytes()),
        (CALENDAR, &["decode"], &calendar),
        (CALENDAR, &["week", "4"], &calendar),
        (SIMULATE, &[], &bytes),
        (SCHEDULE, &["--help"], b""),
        (SPEED, &["-h"], b""),
        (EXPLORE, &["random", "1", "1", "1", "0"], b""),
    ] {
        told(program, words, input, full(), "No space left on device");
        let (reader, writer) = std::io::pipe().expect("there is a pipe");
        drop(reader);
        told(program, words, input, writer, "Broken pipe");
    }
}

fn full() -> File {
    OpenOptions::new().write(true).open("/dev/full").expect("there is /dev/full")
}

fn told(program: &str, words: &[&str], input: &[u8], output: impl Into<Stdio>, reason: &str) {
    let mut command = Command::new(program);
    command.args(words).stdin(Stdio::piped()).stdout(output).stderr(Stdio::piped());
    let mut child = command.spawn().expect("it starts");
    let _ = child.stdin.take().expect("it is piped").write_all(input);
    let (status, _, said) = ended(child.wait_with_output().expect("it ends"));
    let line = format!("{}: the output cannot be written: {reason}", name(program));
    assert!(status == 1 && said.starts_with(&line) && said.lines().count() == 1, "{status}: {said}");
}

#[test]
fn directories() {
    for (program, words) in
        [(SCHEDULE, &["encode"][..]), (SCHEDULE, &["decode"]), (CALENDAR, &["week", "3"]), (SIMULATE, &[])]
    {
        let folder = File::open(env!("CARGO_MANIFEST_DIR")).expect("it is there");
        let mut command = Command::new(program);
        let output = command.args(words).stdin(folder).output().expect("it runs");
        let line = format!("{}: the input is a directory, not a file", name(program));
        assert_eq!(ended(output), bad(&line));
    }
}

/// Where nothing can be said, the status is still 1.
#[test]
fn nothing_can_be_said() {
    let mut command = Command::new(SCHEDULE);
    let status = command.arg("nonsense").stdin(Stdio::null()).stderr(full()).status().expect("it runs");
    assert_eq!(status.code(), Some(1));
}

#[cfg(feature = "proved")]
#[test]
fn arguments_of_what_needs_the_library() {
    let (soak, bench) = (env!("CARGO_BIN_EXE_soak"), env!("CARGO_BIN_EXE_bench"));
    let minutes = |word: &str| format!("soak: minutes `{word}` is not a number from 1 to 100000");
    let repeats = |word: &str| format!("bench: repeats `{word}` is not a number from 1 to 100000");
    for word in ["ten", "0", "-1", "100001", "99999999999999999999", ""] {
        assert_eq!(tool(soak, &[word], b""), bad(&(minutes(word) + "; usage: soak [minutes [seed]]")));
        assert_eq!(tool(bench, &[word], b""), bad(&(repeats(word) + "; usage: bench [repeats]")));
    }
    assert_eq!(tool(soak, &["1", "1", "1"], b""), bad("soak: usage: soak [minutes [seed]]"));
    assert_eq!(tool(bench, &["1", "1"], b""), bad("bench: usage: bench [repeats]"));
    assert_eq!(tool(soak, &["-h"], b""), good(b"usage: soak [minutes [seed]]\n"));
    assert_eq!(tool(bench, &["--help"], b""), good(b"usage: bench [repeats]\n"));
}
