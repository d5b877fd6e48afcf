//! The player: runs a schedule through the proved library and says of each record what it did, or why it was refused.
//!
//! The library alone says whether a record is accepted and how a round ended. The words are worked out from the record
//! and the bench before and after it, and are not proved.

pub mod forms;
mod reasons;
mod words;

use crate::input;
use forms::{entries, list, set, table, wrapped};
use gerzulan::{Bench, Counters, Process, Refusal, RECORD_BYTES};
use std::collections::BTreeMap;
use std::io::{self, Write};

/// Room for the text of a record, which is enough up to n 9; only bytes that have no other form are longer.
const RECORD_COLUMNS: usize = 20;

/// Why a schedule was not played to its end.
#[derive(Debug)]
pub enum Error {
    /// The opening record is refused, as this says.
    Opening(String),
    Write(io::Error),
}

impl std::fmt::Display for Error {
    fn fmt(&self, f: &mut std::fmt::Formatter<'_>) -> std::fmt::Result {
        match self {
            Error::Opening(reason) => f.write_str(reason),
            Error::Write(error) => write!(f, "the output cannot be written: {error}"),
        }
    }
}

impl From<io::Error> for Error {
    fn from(error: io::Error) -> Error {
        Error::Write(error)
    }
}

/// Writes what the schedule does, record by record, and how it ends. With `all`, every process after each accepted
/// record, else those that it changed.
pub fn play(bytes: &[u8], all: bool, out: &mut impl Write) -> Result<(), Error> {
    let (bench, records) = input::open(bytes).map_err(Error::Opening)?;
    let records = records.chunks(RECORD_BYTES);
    write!(out, "{}", words::heading(&bench))?;
    let mut player = Player::new(bench, records.len(), all);
    for record in records {
        out.write_all(player.step(record).as_bytes())?;
    }
    out.write_all(player.end().as_bytes())?;
    Ok(out.flush()?)
}

struct Player {
    /// The bench before the record that is being shown; between records the same as `bench`.
    before: Bench,
    bench: Bench,
    tally: Counters,
    /// How often each refusal was met.
    refused: BTreeMap<u32, u64>,
    /// Of the last record, from 1.
    number: usize,
    number_columns: usize,
    all: bool,
}

impl Player {
    fn new(bench: Bench, records: usize, all: bool) -> Player {
        Player {
            before: bench.clone(),
            bench,
            tally: Counters::default(),
            refused: BTreeMap::new(),
            number: 0,
            number_columns: records.to_string().len().max(4),
            all,
        }
    }

    /// Takes a record: its line, and those of the processes that it changed.
    fn step(&mut self, record: &[u8]) -> String {
        self.number += 1;
        match self.bench.step(record, &mut self.tally) {
            Ok(closing) => {
                let did = words::did(&self.before, &self.bench, record, closing);
                let lines = self.record_line(record, &did) + &self.process_lines();
                self.before.clone_from(&self.bench);
                lines
            }
            Err(refusal) => {
                *self.refused.entry(refusal.number()).or_default() += 1;
                let why = reasons::why(&self.bench, record, refusal);
                self.record_line(record, &format!("refused by {}: {why}", refusal.number()))
            }
        }
    }

    fn record_line(&self, record: &[u8], words: &str) -> String {
        let text = reference::text::decode(record);
        let (columns, number) = (self.number_columns, self.number);
        let first = format!("{number:>columns$}  {:<RECORD_COLUMNS$} ", text.trim_end());
        wrapped(&first, words.split(' '), 1, columns + RECORD_COLUMNS + 4)
    }

    fn process_lines(&self) -> String {
        let shown = |&number: &u8| self.all || self.changed(number);
        (1..=self.bench.n).filter(shown).map(|number| self.process_line(number)).collect()
    }

    fn changed(&self, number: u8) -> bool {
        let crashed = self.before.has_crashed(number) != self.bench.has_crashed(number);
        crashed || self.before.process(number) != self.bench.process(number)
    }

    fn process_line(&self, number: u8) -> String {
        let Some(process) = self.bench.process(number) else { return String::new() };
        let digits = self.bench.n.to_string().len();
        let first = format!("{:1$}process {number:>digits$}", "", self.number_columns + 2);
        wrapped(&first, state(&self.bench, number, process), 2, first.len() + 2)
    }

    /// How the schedule ended, and what each process then has.
    fn end(&self) -> String {
        let Counters { accepted, refused, crashes } = self.tally;
        let crashed = match self.bench.crashed {
            0 => String::new(),
            crashed if crashes == 1 => format!(": process {}", list(crashed)),
            crashed => format!(": processes {}", list(crashed)),
        };
        let mut lines = format!("\naccepted {accepted}, refused {refused}, crashed {crashes}{crashed}\n");
        for (&number, &times) in &self.refused {
            lines += &refusals_met(number, times);
        }
        let tables = [in_transit(&self.bench), states(&self.bench), received(&self.bench), held(&self.bench)];
        lines + &tables.concat()
    }
}

fn refusals_met(number: u32, times: u64) -> String {
    let times = if times == 1 { "once".into() } else { format!("{times} times") };
    let text = Refusal::from_number(number).text();
    wrapped(&format!("refused by {number}, {times}:"), text.split(' '), 1, 4)
}

/// The round, sets and entries of a process, each with its name.
fn state(bench: &Bench, number: u8, process: &Process) -> Vec<String> {
    // Of more than four processes the entries have a line of their own, and the sets more room.
    let columns = match bench.n {
        1..=3 => 3,
        4 => 5,
        _ => 11,
    };
    let named = |name: &str, members: u16| format!("{name} {:<columns$}", set(members));
    let holds = if process.decided == 0 { "holds" } else { "decided on" };
    let mut items = vec![
        format!("round {}", process.round),
        named("expects", process.current),
        named("owes", process.outbox),
        named("received", words::received(process, process.round)),
        named("suspects", process.suspected),
        format!("{holds} {}", entries(&process.estimate, bench.n)),
    ];
    if process.decided == 0 {
        let later = (process.round + 1..=bench.t + 1).map(|round| (round, words::received(process, round)));
        let early = later.filter(|&(_, from)| from != 0);
        items.extend(early.map(|(round, from)| format!("early for round {round}: {}", set(from))));
    }
    items.extend(bench.has_crashed(number).then(|| "crashed".into()));
    items
}

/// The messages in transit by round, with decisions first, and by sender.
fn in_transit(bench: &Bench) -> String {
    let mut receivers: BTreeMap<(u8, u8), u16> = BTreeMap::new();
    for message in bench.in_transit().unwrap_or_default() {
        *receivers.entry((message.round, message.from)).or_default() |= forms::bit(message.to);
    }
    if receivers.is_empty() {
        return "\nnothing is in transit\n".into();
    }
    let heading = ["in transit", "from", "to"].map(String::from).to_vec();
    let row = |(&(round, from), &to): (&(u8, u8), &u16)| {
        let message = if round == 0 { "decision".into() } else { format!("round {round}") };
        vec![message, from.to_string(), set(to)]
    };
    format!("\n{}", table([heading].into_iter().chain(receivers.iter().map(row)).collect()))
}

/// A row for each process under a heading.
fn by_process(bench: &Bench, heading: Vec<String>, row: impl Fn(u8, &Process) -> Vec<String>) -> String {
    let mut rows = vec![heading];
    for number in 1..=bench.n {
        rows.extend(bench.process(number).map(|process| row(number, process)));
    }
    format!("\n{}", table(rows))
}

fn states(bench: &Bench) -> String {
    let heading =
        ["process", "state", "round", "decided", "expected before", "expects now", "owes", "suspects"];
    by_process(bench, heading.map(String::from).to_vec(), |number, process| {
        let state = if bench.has_crashed(number) { "crashed" } else { "running" };
        let decided = if process.decided == 0 { "no" } else { "yes" };
        let mut row = vec![number.to_string(), state.into(), process.round.to_string(), decided.into()];
        row.extend([process.previous, process.current, process.outbox, process.suspected].map(set));
        row
    })
}

/// Whose estimates were kept, round by round, as far as any process has some.
fn received(bench: &Bench) -> String {
    let processes = || (1..=bench.n).filter_map(|number| bench.process(number));
    let any = |round: &u8| processes().any(|process| words::received(process, *round) != 0);
    let rounds: Vec<u8> = (1..=bench.t + 1).filter(any).collect();
    if rounds.is_empty() {
        return "\nno estimate was received\n".into();
    }
    let mut heading = vec!["received".to_string()];
    heading.extend(rounds.iter().map(|round| format!("round {round}")));
    by_process(bench, heading, |number, process| {
        let mut row = vec![format!("process {number}")];
        row.extend(rounds.iter().map(|&round| set(words::received(process, round))));
        row
    })
}

/// What each process holds, an entry a column.
fn held(bench: &Bench) -> String {
    let mut heading = vec!["entries".to_string()];
    heading.extend((1..=bench.n).map(|entry| entry.to_string()));
    by_process(bench, heading, |number, process| {
        let mut row = vec![format!("process {number}")];
        row.extend((1..=bench.n).map(|entry| forms::entry(&process.estimate, entry)));
        row
    })
}
