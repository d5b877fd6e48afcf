//! What the tools share: their arguments, standard input and output, how they end, and the progress of what takes
//! long.

use crate::text::plain;
use std::io::{self, ErrorKind, IsTerminal, Read, Write};
use std::process::ExitCode;
use std::time::{Duration, Instant};

/// A tool by its name, and how it is called.
pub struct Tool {
    pub name: &'static str,
    pub call: &'static str,
}

impl Tool {
    /// Runs the tool on the program's arguments. Its status is 0; or 1, with the reason on standard error.
    pub fn run(&self, work: impl FnOnce(&[&str]) -> Result<(), String>) -> ExitCode {
        // An argument that is no text is none that a tool knows.
        let given = std::env::args_os().skip(1);
        let arguments: Vec<String> = given.map(|word| word.to_string_lossy().into_owned()).collect();
        let words: Vec<&str> = arguments.iter().map(String::as_str).collect();
        let asked = words.iter().any(|word| ["--help", "-h"].contains(word));
        let done = if asked { write_line(&self.usage()) } else { work(&words) };
        match done {
            Ok(()) => ExitCode::SUCCESS,
            Err(reason) => {
                put_error(&format!("{}: {reason}\n", self.name));
                ExitCode::FAILURE
            }
        }
    }

    pub fn usage(&self) -> String {
        format!("usage: {}", self.call)
    }

    /// Why the arguments will not do, in the same line.
    pub fn misused(&self, reason: &str) -> String {
        format!("{reason}; {}", self.usage())
    }

    /// An argument that is a number within these bounds.
    pub fn number(&self, name: &str, word: &str, least: u64, most: u64) -> Result<u64, String> {
        let digits = word.bytes().all(|c| c.is_ascii_digit());
        let parsed = word.parse().ok().filter(|number| digits && (least..=most).contains(number));
        parsed.ok_or_else(|| {
            self.misused(&format!("{name} `{}` is not a number from {least} to {most}", plain(word)))
        })
    }
}

/// All of standard input.
pub fn read_input() -> Result<Vec<u8>, String> {
    let mut input = Vec::new();
    let read = io::stdin().lock().read_to_end(&mut input);
    read.map_err(|error| match error.kind() {
        ErrorKind::IsADirectory => "the input is a directory, not a file".into(),
        _ => format!("the input cannot be read: {error}"),
    })?;
    Ok(input)
}

/// Writes to standard output and flushes it: what a buffer holds when a program ends may be lost without a word.
pub fn write_output(output: &[u8]) -> Result<(), String> {
    let mut stdout = io::stdout().lock();
    let written = stdout.write_all(output).and_then(|()| stdout.flush());
    written.map_err(|error| format!("the output cannot be written: {error}"))
}

pub fn write_line(line: &str) -> Result<(), String> {
    write_output(format!("{line}\n").as_bytes())
}

/// Standard input, changed, to standard output. Where it cannot be changed, nothing is written.
pub fn convert(change: impl FnOnce(&[u8]) -> Result<Vec<u8>, String>) -> Result<(), String> {
    write_output(&change(&read_input()?)?)
}

/// Where standard error cannot be written either, there is nobody left to tell.
fn put_error(words: &str) {
    let _ = io::stderr().lock().write_all(words.as_bytes());
}

/// How far something has come: parts done, of how many, and what was counted on the way.
#[derive(Clone, Copy, PartialEq, Eq, Debug, Default)]
pub struct Stage {
    pub done: u64,
    pub of: u64,
    pub counted: u64,
}

impl Stage {
    /// Such as `3 of 13 parts, 412,000 records, 12 s`.
    pub fn in_words(self, parts: &str, things: &str, since: Duration) -> String {
        let [done, of, counted] = [self.done, self.of, self.counted].map(grouped);
        format!("{done} of {of} {parts}, {counted} {things}, {} s", since.as_secs())
    }
}

/// Who is told of each stage.
pub type Tell<'a> = &'a mut dyn FnMut(Stage);

/// Says on standard error how far something is, the first time at once and then about every five seconds.
pub struct Progress {
    name: &'static str,
    began: Instant,
    told: Option<Instant>,
    /// One line is written over again and again.
    rewrites: bool,
    /// Characters of the line that stands there.
    standing: usize,
}

const PAUSE: Duration = Duration::from_secs(5);

impl Progress {
    /// A line each time, for what others may write between.
    pub fn in_lines(name: &'static str) -> Progress {
        Progress { name, began: Instant::now(), told: None, rewrites: false, standing: 0 }
    }

    /// One line that is rewritten where standard error is a terminal, else a line each time.
    pub fn in_place(name: &'static str) -> Progress {
        Progress { rewrites: io::stderr().is_terminal(), ..Progress::in_lines(name) }
    }

    pub fn since(&self) -> Duration {
        self.began.elapsed()
    }

    fn is_due(&self) -> bool {
        self.told.is_none_or(|told| told.elapsed() >= PAUSE)
    }

    /// Says it, if it is time to.
    pub fn tell(&mut self, words: impl FnOnce(Duration) -> String) {
        if self.is_due() {
            let words = words(self.since());
            self.say(&words);
        }
    }

    /// Says it at once.
    pub fn say(&mut self, words: &str) {
        self.told = Some(Instant::now());
        let line = self.line(words);
        put_error(&line);
    }

    /// Says it in a line that stays.
    pub fn announce(&mut self, words: &str) {
        self.clear();
        self.told = Some(Instant::now());
        put_error(&format!("{}: {words}\n", self.name));
    }

    /// What is written for these words. Blanks cover what is left of a longer line.
    fn line(&mut self, words: &str) -> String {
        let line = format!("{}: {words}", self.name);
        if !self.rewrites {
            return line + "\n";
        }
        let length = line.chars().count();
        let blanks = " ".repeat(self.standing.saturating_sub(length));
        self.standing = length;
        format!("\r{line}{blanks}")
    }

    /// Makes room for a line of standard output.
    pub fn clear(&mut self) {
        if self.standing > 0 {
            put_error(&format!("\r{}\r", " ".repeat(self.standing)));
            self.standing = 0;
        }
    }
}

impl Drop for Progress {
    fn drop(&mut self) {
        self.clear();
    }
}

/// Minutes and seconds, such as 9:05.
pub fn clock(time: Duration) -> String {
    format!("{}:{:02}", time.as_secs() / 60, time.as_secs() % 60)
}

/// Such as 2,025,121.
pub fn grouped(number: u64) -> String {
    let digits = number.to_string();
    let places = digits.chars().enumerate();
    let comma = |i: usize| i > 0 && (digits.len() - i).is_multiple_of(3);
    places.flat_map(|(i, digit)| comma(i).then_some(',').into_iter().chain([digit])).collect()
}

#[cfg(test)]
mod tests {
    use super::*;

    const TOOL: Tool = Tool { name: "tool", call: "tool [times]" };

    #[test]
    fn numbers() {
        for (word, number) in [("1", 1), ("007", 7), ("9", 9)] {
            assert_eq!(TOOL.number("times", word, 1, 9), Ok(number));
        }
        for word in ["0", "10", "-1", "+1", "1.0", "", " 1", "ten", "99999999999999999999"] {
            let reason = format!("times `{word}` is not a number from 1 to 9; usage: tool [times]");
            assert_eq!(TOOL.number("times", word, 1, 9), Err(reason));
        }
        assert_eq!(TOOL.number("seed", "18446744073709551615", 0, u64::MAX), Ok(u64::MAX));
        assert!(TOOL.number("times", &"9".repeat(1000), 1, 9).unwrap_err().len() < 120);
    }

    #[test]
    fn numbers_in_words() {
        let numbers = [0, 7, 999, 1000, 12_345, 412_000, 2_025_121].map(grouped);
        assert_eq!(numbers, ["0", "7", "999", "1,000", "12,345", "412,000", "2,025,121"]);
        let times = [0, 9, 60, 545, 6000].map(|seconds| clock(Duration::from_secs(seconds)));
        assert_eq!(times, ["0:00", "0:09", "1:00", "9:05", "100:00"]);
        let stage = Stage { done: 3, of: 13, counted: 412_000 };
        let words = stage.in_words("parts", "records", Duration::from_millis(12_900));
        assert_eq!(words, "3 of 13 parts, 412,000 records, 12 s");
    }

    /// The first words at once; others not before the pause is over.
    #[test]
    fn progress_is_told_now_and_then() {
        let mut progress = Progress::in_lines("tool");
        assert!(progress.is_due());
        progress.told = Some(Instant::now());
        assert!(!progress.is_due());
        progress.tell(|_| unreachable!("it is not due"));
        progress.told = Some(Instant::now().checked_sub(PAUSE).expect("the clock began before"));
        assert!(progress.is_due());
    }

    #[test]
    fn progress_in_lines_and_in_place() {
        let mut progress = Progress::in_lines("tool");
        assert_eq!(["12", "3"].map(|words| progress.line(words)), ["tool: 12\n", "tool: 3\n"]);
        progress.rewrites = true;
        let lines = ["12", "3", "3456"].map(|words| progress.line(words));
        assert_eq!(lines, ["\rtool: 12", "\rtool: 3 ", "\rtool: 3456"]);
        assert_eq!(progress.standing, 10);
        progress.standing = 0;
    }
}
