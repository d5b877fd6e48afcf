//! A schedule from a file or from standard input, as bytes or as text, and the bench that its first record opens.

use gerzulan::{Bench, Refusal, RECORD_BYTES};
use reference::text;
use std::io::{self, ErrorKind, Read};

/// A schedule as bytes or as text: the name of its file, or `-` for standard input.
#[derive(Clone, PartialEq, Eq, Debug)]
pub enum Source {
    Schedule(String),
    Text(String),
}

/// The arguments after the program's name. A name that is not UTF-8 could not be shown in a message.
pub fn arguments() -> Result<Vec<String>, String> {
    let word = |argument: std::ffi::OsString| {
        argument.into_string().map_err(|argument| format!("the argument {argument:?} is not UTF-8"))
    };
    std::env::args_os().skip(1).map(word).collect()
}

/// The bytes of the schedule, or why there are none, in a line.
pub fn read(source: &Source) -> Result<Vec<u8>, String> {
    let (Source::Schedule(name) | Source::Text(name)) = source;
    let shown = shown(name);
    let bytes = contents(name).map_err(|error| unreadable(shown, &error))?;
    if bytes.is_empty() {
        return Err(format!("{shown} is empty: a schedule begins with an opening record"));
    }
    match source {
        Source::Schedule(_) if text::looks_like_text(&bytes) => {
            Err(format!("{shown} is text, not bytes: give it as TEXT={name} (--text)"))
        }
        Source::Schedule(_) => Ok(bytes),
        Source::Text(_) if text::looks_like_bytes(&bytes) => {
            Err(format!("{shown} is bytes, not text: give it as SCHEDULE={name} (--schedule)"))
        }
        Source::Text(_) => encoded(shown, &bytes),
    }
}

fn shown(name: &str) -> &str {
    match name {
        "-" => "standard input",
        _ => name,
    }
}

fn contents(name: &str) -> io::Result<Vec<u8>> {
    if name != "-" {
        return std::fs::read(name);
    }
    let mut bytes = Vec::new();
    io::stdin().lock().read_to_end(&mut bytes)?;
    Ok(bytes)
}

fn unreadable(shown: &str, error: &io::Error) -> String {
    match error.kind() {
        ErrorKind::NotFound => format!("there is no file {shown}"),
        ErrorKind::IsADirectory => format!("{shown} is a directory, not a file"),
        ErrorKind::PermissionDenied => format!("{shown} may not be read"),
        _ => format!("{shown} cannot be read: {error}"),
    }
}

fn encoded(shown: &str, bytes: &[u8]) -> Result<Vec<u8>, String> {
    let records = text::read(bytes).and_then(text::encode);
    let records = records.map_err(|error| format!("{shown}: {error}"))?;
    if records.is_empty() {
        return Err(format!("{shown} has no records: a schedule begins with an opening record"));
    }
    Ok(records)
}

/// The opened bench and the records after the opening one, by the program's rule; or why that is refused, in a line.
pub fn open(bytes: &[u8]) -> Result<(Bench, &[u8]), String> {
    let (first, rest) = bytes.split_at(bytes.len().min(RECORD_BYTES));
    let refused = |(refusal, reason): (Refusal, String)| {
        format!("the opening record is refused by {}: {reason}", refusal.number())
    };
    opening(first).map(|bench| (bench, rest)).map_err(refused)
}

/// The checks of the opening record in their order: 3, 4, 5, 1.
fn opening(record: &[u8]) -> Result<Bench, (Refusal, String)> {
    let &[kind, n, t, r, v0, v1, v2, v3] = record else {
        return Err((Refusal::Length, length(record)));
    };
    if kind != 0 {
        return Err((Refusal::Kind, format!("its kind is {kind}, and an opening record has kind 0")));
    }
    if [r, v0, v1, v2, v3] != [0; 5] {
        return Err((Refusal::Field, "it does not use r and the value, which must be 0".into()));
    }
    Bench::open(n, t).map_err(|refusal| (refusal, format!("n {n}, t {t}: {refusal}")))
}

/// What is wrong with the length of a record, for refusal 3.
pub fn length(record: &[u8]) -> String {
    match record.len() {
        1 => "a record has 8 bytes, and this one has 1 byte".into(),
        bytes => format!("a record has 8 bytes, and this one has {bytes}"),
    }
}

#[cfg(test)]
mod tests {
    use super::*;

    fn refused(bytes: &[u8]) -> String {
        open(bytes).map(|(bench, _)| bench.n).unwrap_err()
    }

    #[test]
    fn the_opening_record() {
        let (bench, rest) = open(&[0, 2, 1, 0, 0, 0, 0, 0, 4, 1]).unwrap();
        assert_eq!((bench.n, bench.t, rest), (2, 1, &[4, 1][..]));
    }

    #[test]
    fn refusals_in_their_order() {
        let begin = |rest: &str| format!("the opening record is refused by {rest}");
        assert_eq!(refused(&[]), begin("3: a record has 8 bytes, and this one has 0"));
        assert_eq!(refused(&[9]), begin("3: a record has 8 bytes, and this one has 1 byte"));
        assert_eq!(refused(&[9; 7]), begin("3: a record has 8 bytes, and this one has 7"));
        assert_eq!(refused(&[9; 8]), begin("4: its kind is 9, and an opening record has kind 0"));
        for place in 3..8 {
            let mut record = [0, 99, 1, 0, 0, 0, 0, 0];
            record[place] = 1;
            assert_eq!(refused(&record), begin("5: it does not use r and the value, which must be 0"));
        }
        let size = begin("1: n 3, t 3: n is not 1 to 16, or t is not below n");
        assert_eq!(refused(&[0, 3, 3, 0, 0, 0, 0, 0]), size);
    }

    #[test]
    fn what_cannot_be_read() {
        let read = |name: &str| read(&Source::Text(name.into())).unwrap_err();
        let folder = std::env::temp_dir().display().to_string();
        assert_eq!(read(&folder), format!("{folder} is a directory, not a file"));
        let missing = format!("{folder}/no-such-schedule");
        assert_eq!(read(&missing), format!("there is no file {missing}"));
        assert!(read("nul\0").starts_with("nul\0 cannot be read: "));
    }
}
