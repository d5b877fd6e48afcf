//! Schedules as text, a record a line.
//!
//! `open 2 1`, `start 1 40 3` with 3 diet portions among 40, `start 1 40` with none, `send 1 2`, `arrive 1 2 round 1`,
//! `arrive 1 2 decision`, `close 1`, `stop 2`, `notice 1 2`; `bytes 07 01 ...` for what has no such form; `#` begins a
//! comment. `crash 2` is read as `stop 2` and `suspect 1 2` as `notice 1 2`, which are what is written.
//! The text is only a notation: whether a record is accepted is for the bench to say.

use crate::{Bench, Record, Value};
use std::fmt::Write;

/// A bad line of the text, numbered from 1.
#[derive(Clone, PartialEq, Eq, Debug)]
pub struct TextError {
    pub line: usize,
    pub reason: String,
}

impl std::fmt::Display for TextError {
    fn fmt(&self, f: &mut std::fmt::Formatter<'_>) -> std::fmt::Result {
        write!(f, "line {}: {}", self.line, self.reason)
    }
}

/// Byte-order marks, which some editors write before a text: of UTF-8, and of UTF-16 both ways.
const UTF_8: &[u8] = b"\xef\xbb\xbf";
const UTF_16: [&[u8]; 2] = [b"\xff\xfe", b"\xfe\xff"];

fn is_utf_16(bytes: &[u8]) -> bool {
    UTF_16.iter().any(|mark| bytes.starts_with(mark))
}

/// The text that these bytes are, without its byte-order mark.
pub fn read(bytes: &[u8]) -> Result<&str, TextError> {
    if is_utf_16(bytes) {
        return Err(TextError { line: 1, reason: "this is UTF-16 text; UTF-8 is due".into() });
    }
    let bytes = bytes.strip_prefix(UTF_8).unwrap_or(bytes);
    std::str::from_utf8(bytes).map_err(|error| {
        let line = bytes[..error.valid_up_to()].iter().filter(|&&b| b == b'\n').count() + 1;
        TextError { line, reason: "not UTF-8 text".into() }
    })
}

/// Whether these bytes are meant as text: every character can be printed. A record has a zero byte nearly always.
pub fn looks_like_text(bytes: &[u8]) -> bool {
    let printed = |c: char| !c.is_control() || matches!(c, '\t' | '\n' | '\r');
    !bytes.is_empty() && std::str::from_utf8(bytes).is_ok_and(|text| text.chars().all(printed))
}

/// Whether these bytes are not meant as text: one is zero, or the first, which would be a kind, begins no text. What
/// is neither this nor text, such as another encoding, is for `read` to name.
pub fn looks_like_bytes(bytes: &[u8]) -> bool {
    let begins_no_text = |byte: &u8| byte.is_ascii_control() && !byte.is_ascii_whitespace();
    !is_utf_16(bytes) && (bytes.contains(&0) || bytes.first().is_some_and(begins_no_text))
}

const EMPTY: &str = "the input is empty";

/// What a tool was given as the text of a schedule or calendar.
pub fn given_text<'a>(input: &'a [u8], thing: &str) -> Result<&'a str, String> {
    if looks_like_bytes(input) {
        return Err(format!("these are bytes, not text; if they are a {thing}, use decode"));
    }
    let text = read(input).map_err(|error| error.to_string())?;
    if text.is_empty() {
        return Err(EMPTY.into());
    }
    Ok(text)
}

/// What a tool was given as the bytes of a schedule or calendar, which are not to be none.
pub fn given_bytes(input: &[u8]) -> Result<&[u8], String> {
    if input.is_empty() {
        return Err(EMPTY.into());
    }
    if looks_like_text(input) {
        return Err("this is text, not bytes: use encode".into());
    }
    Ok(input)
}

/// A word as a message has it: cut where it is long, and without control characters.
pub fn plain(word: &str) -> String {
    const MOST: usize = 40;
    let visible = |c: char| if c.is_control() { char::REPLACEMENT_CHARACTER } else { c };
    let mut shown: String = word.chars().take(MOST).map(visible).collect();
    if word.chars().nth(MOST).is_some() {
        shown.push_str("...");
    }
    shown
}

/// What is wrong with a word that begins a line and is none of these, of which some have a second form.
pub fn unknown_word(word: &str, known: &[&[&str]]) -> String {
    let shown = plain(word);
    let lower = known.iter().flat_map(|forms| forms.iter()).find(|form| form.eq_ignore_ascii_case(word));
    if let Some(lower) = lower {
        return format!("unknown word `{shown}`; words are in lower case: `{lower}`");
    }
    let words: Vec<String> = known.iter().map(|forms| forms.join(" or ")).collect();
    format!("unknown word `{shown}`; the words are {}", words.join(", "))
}

/// The words of a line without its comment.
pub fn words(line: &str) -> Vec<&str> {
    let content = line.split('#').next().unwrap_or("");
    content.split_whitespace().collect()
}

/// The bytes of a text.
pub fn encode(text: &str) -> Result<Vec<u8>, TextError> {
    let mut bytes = Vec::new();
    for (i, line) in text.lines().enumerate() {
        let error = |reason| TextError { line: i + 1, reason };
        let Some(record) = encode_line(line).map_err(error)? else { continue };
        if bytes.len() % Bench::RECORD != 0 {
            return Err(error("only the last record may be short".into()));
        }
        bytes.extend(record);
    }
    Ok(bytes)
}

/// The record of a line, if it has one.
fn encode_line(line: &str) -> Result<Option<Vec<u8>>, String> {
    let words = words(line);
    let Some((&verb, fields)) = words.split_first() else { return Ok(None) };
    if verb == "bytes" {
        return hexadecimal(fields).map(Some);
    }
    Ok(Some(record(verb, fields)?.bytes().to_vec()))
}

fn record(verb: &str, fields: &[&str]) -> Result<Record, String> {
    match (verb, fields) {
        ("open", [n, t]) => Ok(Record::open(byte("n", n)?, byte("t", t)?)),
        ("start", [a, portions]) => Ok(Record::start(process(a)?, short("portions", portions)?, 0)),
        ("start", [a, portions, diet]) => {
            Ok(Record::start(process(a)?, short("portions", portions)?, short("diet portions", diet)?))
        }
        ("send", [a, b]) => Ok(Record::send(process(a)?, process(b)?)),
        ("arrive", [a, b, "round", r]) => Ok(Record::arrive(process(a)?, process(b)?, round(r)?)),
        ("arrive", [a, b, "decision"]) => Ok(Record::arrive(process(a)?, process(b)?, 0)),
        ("close", [a]) => Ok(Record::close(process(a)?)),
        ("stop" | "crash", [a]) => Ok(Record::crash(process(a)?)),
        ("notice" | "suspect", [a, b]) => Ok(Record::suspect(process(a)?, process(b)?)),
        _ => Err(wrong_form(verb)),
    }
}

/// The words that begin a line.
const WORDS: [&[&str]; 8] = [
    &["open"],
    &["start"],
    &["send"],
    &["arrive"],
    &["close"],
    &["stop", "crash"],
    &["notice", "suspect"],
    &["bytes"],
];

fn wrong_form(verb: &str) -> String {
    let form = match verb {
        "open" => "open N T",
        "start" => "start A PORTIONS, or start A PORTIONS DIET",
        "send" => "send A B",
        "arrive" => "arrive A B round R, or arrive A B decision",
        "close" => "close A",
        "stop" => "stop A",
        "crash" => "crash A",
        "notice" => "notice A B",
        "suspect" => "suspect A B",
        _ => return unknown_word(verb, &WORDS),
    };
    format!("expected: {form}")
}

pub fn number(name: &str, word: &str) -> Result<u32, String> {
    let digits = word.bytes().all(|c| c.is_ascii_digit());
    let parsed = word.parse().ok().filter(|_| digits);
    parsed.ok_or_else(|| format!("{name} `{}` is not a number from 0 to {}", plain(word), u32::MAX))
}

fn byte(name: &str, word: &str) -> Result<u8, String> {
    let parsed = number(name, word).ok().and_then(|value| u8::try_from(value).ok());
    parsed.ok_or_else(|| format!("{name} `{}` is not a number from 0 to 255", plain(word)))
}

fn short(name: &str, word: &str) -> Result<u16, String> {
    let parsed = number(name, word).ok().and_then(|value| u16::try_from(value).ok());
    parsed.ok_or_else(|| format!("{name} `{}` is not a number from 0 to 65535", plain(word)))
}

fn process(word: &str) -> Result<u8, String> {
    byte("process", word)
}

fn round(word: &str) -> Result<u8, String> {
    match byte("round", word)? {
        0 => Err("round 0 is written `decision`".into()),
        r => Ok(r),
    }
}

fn hexadecimal(words: &[&str]) -> Result<Vec<u8>, String> {
    if words.is_empty() || words.len() > Bench::RECORD {
        return Err("expected: bytes, then 1 to 8 hexadecimal bytes".into());
    }
    words.iter().map(|word| hexadecimal_byte(word)).collect()
}

fn hexadecimal_byte(word: &str) -> Result<u8, String> {
    let two_digits = word.len() == 2 && word.bytes().all(|c| c.is_ascii_hexdigit());
    let parsed = u8::from_str_radix(word, 16).ok().filter(|_| two_digits);
    parsed.ok_or_else(|| format!("`{}` is not a hexadecimal byte", plain(word)))
}

/// The text of any bytes.
pub fn decode(bytes: &[u8]) -> String {
    bytes.chunks(Bench::RECORD).map(|chunk| decode_record(chunk) + "\n").collect()
}

fn decode_record(chunk: &[u8]) -> String {
    let words = Record::read(chunk).ok().and_then(in_words);
    words.unwrap_or_else(|| in_bytes(chunk))
}

/// The words of a record whose unused fields are 0.
fn in_words(record: Record) -> Option<String> {
    let Record { kind, a, b, r, value } = record;
    match (kind, b, r, value) {
        (0, t, 0, Value::ZERO) => Some(format!("open {a} {t}")),
        (1, 0, 0, Value { portions, diet: 0 }) => Some(format!("start {a} {portions}")),
        (1, 0, 0, Value { portions, diet }) => Some(format!("start {a} {portions} {diet}")),
        (2, _, 0, Value::ZERO) => Some(format!("send {a} {b}")),
        (3, _, 0, Value::ZERO) => Some(format!("arrive {a} {b} decision")),
        (3, _, _, Value::ZERO) => Some(format!("arrive {a} {b} round {r}")),
        (4, 0, 0, Value::ZERO) => Some(format!("close {a}")),
        (5, 0, 0, Value::ZERO) => Some(format!("stop {a}")),
        (6, _, 0, Value::ZERO) => Some(format!("notice {a} {b}")),
        _ => None,
    }
}

fn in_bytes(chunk: &[u8]) -> String {
    let mut line = String::from("bytes");
    for byte in chunk {
        write!(line, " {byte:02x}").expect("a string takes all");
    }
    line
}

#[cfg(test)]
mod tests {
    use super::*;
    use crate::gen::Rng;

    const TEXT: &str =
        "open 2 1\nstart 1 40\nstart 2 40 3\nsend 1 2\narrive 1 2 round 1\narrive 1 2 decision\n\
                        close 1\nstop 2\nnotice 1 2\nbytes 07 01 00 00 00 00 00 ff\nbytes 04 01\n";

    #[test]
    fn every_form() {
        let bytes = encode(TEXT).unwrap();
        assert_eq!(bytes.len(), 10 * 8 + 2);
        assert_eq!(bytes[..16], [0, 2, 1, 0, 0, 0, 0, 0, 1, 1, 0, 0, 40, 0, 0, 0]);
        assert_eq!(bytes[16..24], [1, 2, 0, 0, 40, 0, 3, 0]);
        assert_eq!(bytes[32..40], [3, 1, 2, 1, 0, 0, 0, 0]);
        assert_eq!(decode(&bytes), TEXT);
    }

    #[test]
    fn comments_and_blank_lines() {
        let bytes = encode("# title\n\n  close 1  # due\n\t\nstop 2").unwrap();
        assert_eq!(decode(&bytes), "close 1\nstop 2\n");
        assert_eq!(encode(""), Ok(vec![]));
    }

    #[test]
    fn any_bytes_round_trip() {
        let mut rng = Rng::new(1);
        for _ in 0..2000 {
            let length = rng.below(40);
            let bytes: Vec<u8> = (0..length).map(|_| rng.pick(&[0, 0, 0, 1, 2, 3, 4, 5, 6, 200])).collect();
            assert_eq!(encode(&decode(&bytes)), Ok(bytes));
        }
    }

    /// Diet portions only where there are some; more of them than portions can be written too.
    #[test]
    fn starts() {
        let text = "start 1 0\nstart 2 65535\nstart 3 65535 65535\nstart 4 65534 65535\nstart 5 0 1\n";
        let bytes = encode(text).unwrap();
        assert_eq!(bytes[16..24], [1, 3, 0, 0, 255, 255, 255, 255]);
        assert_eq!(bytes[24..32], [1, 4, 0, 0, 254, 255, 255, 255]);
        assert_eq!(bytes[32..], [1, 5, 0, 0, 0, 0, 1, 0]);
        assert_eq!(decode(&bytes), text);
        // Diet portions of 0 need not be written, and are not.
        assert_eq!(encode("start 6 258 0"), encode("start 6 258"));
        assert_eq!(decode(&encode("start 6 258 0").unwrap()), "start 6 258\n");
        let every_byte = (0..=255).flat_map(|byte| (4..8).map(move |place| (byte, place)));
        for (byte, place) in every_byte {
            let mut record = [1, 1, 0, 0, 0, 0, 0, 0];
            record[place] = byte;
            assert_eq!(encode(&decode(&record)), Ok(record.to_vec()));
        }
    }

    fn error(text: &str) -> String {
        encode(text).unwrap_err().to_string()
    }

    #[test]
    fn bytes_that_are_no_text() {
        assert_eq!(read("close 1".as_bytes()), Ok("close 1"));
        let reason = read(b"close 1\n\nstop \xff").unwrap_err().to_string();
        assert_eq!(reason, "line 3: not UTF-8 text");
    }

    #[test]
    fn byte_order_marks() {
        assert_eq!(read(b"\xef\xbb\xbfclose 1"), Ok("close 1"));
        assert_eq!(read(b"\xef\xbb\xbf"), Ok(""));
        // Only one, and only at the beginning: elsewhere it is a character of a word.
        let twice = read(b"\xef\xbb\xbf\xef\xbb\xbfclose 1").unwrap();
        assert!(error(twice).starts_with("line 1: unknown word"));
        let utf_16 = "line 1: this is UTF-16 text; UTF-8 is due";
        for text in [&b"\xff\xfec\0l\0"[..], b"\xfe\xff\0c\0l", b"\xff\xfe"] {
            assert_eq!(read(text).unwrap_err().to_string(), utf_16);
            assert!(!looks_like_bytes(text) && !looks_like_text(text));
            assert_eq!(given_text(text, "schedule"), Err(utf_16.into()));
        }
        assert_eq!(given_text(b"\xef\xbb\xbfclose 1", "schedule"), Ok("close 1"));
        assert_eq!(given_text(b"\xef\xbb\xbf", "schedule"), Err("the input is empty".into()));
    }

    #[test]
    fn what_is_text_and_what_is_bytes() {
        for text in
            [TEXT.as_bytes(), b"close 1", b"\tstop 2\r\n", "# caf\u{e9}".as_bytes(), b"AAAAAAAA", b"\n"]
        {
            assert!(looks_like_text(text) && !looks_like_bytes(text), "{text:?}");
            assert_eq!(given_bytes(text), Err("this is text, not bytes: use encode".into()));
            assert!(given_text(text, "schedule").is_ok());
        }
        let whole = encode(TEXT).unwrap();
        for bytes in [&whole[..], &whole[..1], &whole[8..11], &[4, 1], &[0], b"close 1\0", &[7, 1, 0xff]] {
            assert!(looks_like_bytes(bytes) && !looks_like_text(bytes), "{bytes:?}");
            assert_eq!(given_bytes(bytes), Ok(bytes));
            let reason = "these are bytes, not text; if they are a schedule, use decode";
            assert_eq!(given_text(bytes, "schedule"), Err(reason.into()));
        }
        // Neither: another encoding, and text with a control character, which is named with its line.
        for neither in [&b"# caf\xe9"[..], b"close 1\n\x1a", b"", b"\xff\xff"] {
            assert!(!looks_like_text(neither) && !looks_like_bytes(neither), "{neither:?}");
        }
        assert_eq!(given_text(b"# caf\xe9", "schedule"), Err("line 1: not UTF-8 text".into()));
        let empty = "the input is empty";
        assert_eq!((given_text(b"", "x"), given_bytes(b"")), (Err(empty.into()), Err(empty.into())));
    }

    /// Of each single byte; and a record that has a form is bytes wherever it is not a part of one.
    #[test]
    fn every_byte_and_every_record() {
        for byte in 0..=255u8 {
            let text = matches!(byte, b'\t' | b'\n' | b'\r' | 32..127);
            assert_eq!(looks_like_text(&[byte]), text, "{byte}");
            let bytes = matches!(byte, 0..=8 | 11 | 14..32 | 127);
            assert_eq!(looks_like_bytes(&[byte]), bytes, "{byte}");
        }
        for record in crate::gen::well_formed(16, 15) {
            assert!(looks_like_bytes(&record.bytes()) && !looks_like_text(&record.bytes()), "{record:?}");
        }
    }

    #[test]
    fn other_words() {
        assert_eq!(encode("crash 2\nsuspect 1 2"), encode("stop 2\nnotice 1 2"));
        assert_eq!(decode(&encode("crash 2\nsuspect 1 2").unwrap()), "stop 2\nnotice 1 2\n");
        assert_eq!(error("crash"), "line 1: expected: crash A");
        assert_eq!(error("suspect 1"), "line 1: expected: suspect A B");
        assert_eq!(error("crash 256"), "line 1: process `256` is not a number from 0 to 255");
    }

    /// Each word that begins a line has a form or takes bytes, and none else has.
    #[test]
    fn the_words() {
        for word in WORDS.concat() {
            let reason = error(word);
            assert!(reason.starts_with(&format!("line 1: expected: {word}")), "{reason}");
            let upper = word.to_uppercase();
            let lower = format!("line 1: unknown word `{upper}`; words are in lower case: `{word}`");
            assert_eq!(error(&format!("{upper} 1 2")), lower);
        }
    }

    #[test]
    fn words_in_messages() {
        assert_eq!(plain("close"), "close");
        let long = format!("close{}", "x".repeat(1_000_000));
        assert_eq!(plain(&long), format!("close{}...", "x".repeat(35)));
        assert!(error(&long).len() < 200 && error(&format!("close {long}")).len() < 200);
        assert!(error(&format!("start 1 {long}")).len() < 200 && error(&format!("bytes {long}")).len() < 200);
        assert_eq!(plain(&"\u{e9}".repeat(40)), "\u{e9}".repeat(40));
        assert_eq!(plain("a\u{1b}[1m\u{7f}"), "a\u{fffd}[1m\u{fffd}");
        assert!(!error("close 1\n\x1b[2Jx 1").chars().any(char::is_control));
    }

    #[test]
    fn errors_name_the_line() {
        let words = "open, start, send, arrive, close, stop or crash, notice or suspect, bytes";
        let leave = format!("line 3: unknown word `leave`; the words are {words}");
        assert_eq!(error("close 1\n\nleave 2\n"), leave);
        assert_eq!(error("Close 1"), "line 1: unknown word `Close`; words are in lower case: `close`");
        assert_eq!(error("close"), "line 1: expected: close A");
        assert_eq!(error("# x\nstart 1"), "line 2: expected: start A PORTIONS, or start A PORTIONS DIET");
        assert_eq!(error("arrive 1 2 3"), "line 1: expected: arrive A B round R, or arrive A B decision");
        assert_eq!(error("arrive 1 2 round 0"), "line 1: round 0 is written `decision`");
        assert_eq!(error("close 256"), "line 1: process `256` is not a number from 0 to 255");
        assert_eq!(error("close +1"), "line 1: process `+1` is not a number from 0 to 255");
        assert_eq!(error("start 1 65536"), "line 1: portions `65536` is not a number from 0 to 65535");
        assert_eq!(error("\nstart 1 -1 0"), "line 2: portions `-1` is not a number from 0 to 65535");
        let large = error("close 1\nstart 1 65535 65536");
        assert_eq!(large, "line 2: diet portions `65536` is not a number from 0 to 65535");
        let larger = error("start 1 4294967296");
        assert_eq!(larger, "line 1: portions `4294967296` is not a number from 0 to 65535");
        let form = "expected: start A PORTIONS, or start A PORTIONS DIET";
        assert_eq!(error("start 1 40 3 2"), format!("line 1: {form}"));
        assert_eq!(error("start 1 40/3"), "line 1: portions `40/3` is not a number from 0 to 65535");
        assert_eq!(error("bytes"), "line 1: expected: bytes, then 1 to 8 hexadecimal bytes");
        assert_eq!(error("bytes 7"), "line 1: `7` is not a hexadecimal byte");
        assert_eq!(error("bytes 07\nclose 1"), "line 2: only the last record may be short");
    }
}
